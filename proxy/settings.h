/* What a user sets, by flags or in a file. */
#ifndef PROXY_SETTINGS_H
#define PROXY_SETTINGS_H

#include <stdatomic.h>
#include <stdbool.h>
#include <stddef.h>
#include <stdint.h>

enum { MOST_SEEDS = 64, MOST_THREADS = 64, MOST_ADDED = 1024 };

typedef const char *_Atomic text;
typedef _Atomic uint64_t number;

/* Threads read them while settings_renew may change some. A text stays in memory. NULL: it is not set. */
typedef struct settings {
    const char *seeds[MOST_SEEDS]; /* HOST:PORT of nodes that are asked for the first map */
    size_t seed_count;
    const char *names[MOST_ADDED]; /* of commands that `take` adds */
    size_t name_count;
    bool is_check;                   /* --check: the program says whether the settings are right, and ends */
    text listen, unix_path, metrics; /* where clients connect to */
    text log;
    text password, node_password, node_user;
    text tls_cert, tls_key, tls_ca, node_tls_name;
    number unix_mode; /* permissions of the socket, or 0 */
    number threads, max_clients;
    number max_message, max_reply;                /* bytes of a request, of a reply */
    number client_memory, memory;                 /* bytes that one client, and all, may take */
    number timeout, retry, client_timeout, drain; /* milliseconds */
    number quiet, split_transactions, tls, tls_auth_clients, node_tls; /* 0 or 1 */
} settings;

/* Reads flags, and the file that --config names. Prints what is wrong and returns false. */
bool settings_read(settings *settings, int count, char **words);

/* Reads them again. Returns what is wrong, or NULL. */
const char *settings_again(settings *found, int count, char **words);

/* Takes those that may change. The log names the others that differ. */
void settings_renew(settings *settings, const struct settings *found);

#endif
