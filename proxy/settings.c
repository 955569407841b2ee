#include "settings.h"

#include "commands.h"
#include "proxy.h"

#include <errno.h>
#include <stdio.h>
#include <stdlib.h>
#include <string.h>
#include <sys/un.h>

/* SECRET: a text that is the first line of a file. MODE: an octal number. */
typedef enum kind { TEXT, ADDRESS, SECRET, NUMBER, SIZE, MODE, SWITCH, SEED, NAME } kind;

typedef struct row {
    const char *name, *says;
    kind kind;
    size_t at;            /* the offset of the field */
    uint64_t least, most; /* of a number; the longest text, or 0 */
} row;

#define AT(field) offsetof(settings, field)
enum { LONGEST_PATH = sizeof((struct sockaddr_un *)0)->sun_path - 1 };
static const row rows[] = {
    {"node", "HOST:PORT of a node; may be given several times", SEED, AT(seeds), 0, 0},
    {"take", "NAME of a module's command on one key; may be given several times", NAME, AT(names), 0, 0},
    {"listen", "ADDR:PORT for clients (127.0.0.1:6380)", ADDRESS, AT(listen), 0, 0},
    {"unix", "PATH of a socket for clients", TEXT, AT(unix_path), 0, LONGEST_PATH},
    {"unix-mode", "permissions of that socket, as 0660 (by the umask)", MODE, AT(unix_mode), 1, 0777},
    {"metrics", "ADDR:PORT of figures, by HTTP", ADDRESS, AT(metrics), 0, 0},
    {"log", "PATH of the log (standard error)", TEXT, AT(log), 0, 0},
    {"threads", "how many event loops (1)", NUMBER, AT(threads), 1, MOST_THREADS},
    {"tls", "clients speak TLS", SWITCH, AT(tls), 0, 0},
    {"node-tls", "nodes speak TLS", SWITCH, AT(node_tls), 0, 0},
    {"tls-cert", "PATH of the certificate, for clients and nodes", TEXT, AT(tls_cert), 0, 0},
    {"tls-key", "PATH of its key", TEXT, AT(tls_key), 0, 0},
    {"tls-ca", "PATH of the certificates of authorities (those of the system)", TEXT, AT(tls_ca), 0, 0},
    {"tls-auth-clients", "clients need a certificate", SWITCH, AT(tls_auth_clients), 0, 0},
    {"node-tls-name", "NAME that each node's certificate has to have", TEXT, AT(node_tls_name), 0, 0},
    {"password", "that clients need", TEXT, AT(password), 0, 0},
    {"password-file", "PATH of a file with that password", SECRET, AT(password), 0, 0},
    {"node-password", "that nodes need", TEXT, AT(node_password), 0, 0},
    {"node-password-file", "PATH of a file with that password", SECRET, AT(node_password), 0, 0},
    {"node-user", "that nodes know", TEXT, AT(node_user), 0, 0},
    {"max-clients", "how many clients at most (10000)", NUMBER, AT(max_clients), 1, 1000000},
    {"max-message", "bytes of a request at most (64mb)", SIZE, AT(max_message), 1024, 1ULL << 32},
    {"max-reply", "bytes of a node's reply at most (512mb)", SIZE, AT(max_reply), 1024, 1ULL << 32},
    {"client-memory", "bytes for one client at most (512mb)", SIZE, AT(client_memory), 1 << 20, 1ULL << 40},
    {"memory", "bytes for all clients at most (2gb)", SIZE, AT(memory), 1 << 20, 1ULL << 44},
    {"timeout", "milliseconds that a node may be silent (5000)", NUMBER, AT(timeout), 50, 3600000},
    {"retry", "milliseconds during which a command is tried again (5000)", NUMBER, AT(retry), 0, 3600000},
    {"client-timeout", "milliseconds that a client may leave replies unread (60000)", NUMBER,
     AT(client_timeout), 100, 86400000},
    {"drain", "milliseconds that SIGTERM leaves to open requests (10000)", NUMBER, AT(drain), 0, 3600000},
    {"split-transactions", "take MULTI over several slots, which is not atomic", SWITCH,
     AT(split_transactions), 0, 0},
    {"quiet", "log only errors", SWITCH, AT(quiet), 0, 0},
};
enum { ROWS = sizeof rows / sizeof *rows, FIXED = 10 }; /* the first ones are read at the start alone */
enum { LONGEST_SECRET = 4096 };

static char fault[500]; /* what is wrong with the settings */

/* A text that settings point to. It stays in memory, once, since a thread may read it at any time. */
typedef struct kept {
    struct kept *next;
    char text[];
} kept;

static const char *keep(const char *text) {
    static kept *all;
    for (const kept *at = all; at != NULL; at = at->next)
        if (strcmp(at->text, text) == 0)
            return at->text;
    kept *it = malloc(sizeof *it + strlen(text) + 1);
    if (it == NULL)
        abort();
    it->next = all;
    all = it;
    return strcpy(it->text, text);
}

static const char *set_text(text *field, const row *row, const char *value) {
    if (row->most != 0 && strlen(value) > row->most)
        return "is too long";
    *field = keep(value);
    return *value == 0 ? "is empty" : NULL;
}

/* Sets the first line of a file. */
static const char *set_secret(text *field, const char *path) {
    static char line[LONGEST_SECRET], wrong[120];
    errno = 0;
    FILE *file = fopen(path, "r");
    bool is_read = file != NULL && fgets(line, sizeof line, file) != NULL;
    const char *cause = is_read ? "it is too long" : errno != 0 ? strerror(errno) : "it is empty";
    if (file != NULL)
        fclose(file);
    if (!is_read || strlen(line) == sizeof line - 1) {
        snprintf(wrong, sizeof wrong, "is no file with a line: %s", cause);
        return wrong;
    }
    line[strcspn(line, "\r\n")] = 0;
    *field = keep(line);
    return *line == 0 ? "is empty" : NULL;
}

/* Reads a number, for a size with a unit. */
static bool read_number(const row *row, const char *value, uint64_t *number) {
    static const struct unit {
        const char *name;
        uint64_t bytes;
    } units[] = {{"", 1}, {"kb", 1 << 10}, {"mb", 1 << 20}, {"gb", 1 << 30}};
    char *end = NULL;
    errno = 0;
    unsigned long long found = strtoull(value, &end, row->kind == MODE ? 8 : 10);
    if (*value < '0' || *value > '9' || errno != 0)
        return false;
    for (size_t at = 0; at < (row->kind == SIZE ? 4 : 1); at++) {
        if (strcasecmp(end, units[at].name) != 0 || found > row->most / units[at].bytes)
            continue;
        *number = found * units[at].bytes;
        return *number >= row->least;
    }
    return false;
}

/* Whether the text is HOST:PORT. */
static bool is_address(const char *value) {
    const char *colon = strrchr(value, ':');
    char *end = NULL;
    if (colon == NULL || colon == value || colon[1] < '0' || colon[1] > '9' || colon - value > 250)
        return false;
    unsigned long port = strtoul(colon + 1, &end, 10);
    return *end == 0 && port > 0 && port < 65536;
}

static const char *add_seed(settings *settings, const char *value) {
    if (settings->seed_count == MOST_SEEDS)
        return "is one node too many";
    settings->seeds[settings->seed_count++] = keep(value);
    return NULL;
}

static const char *add_name(settings *settings, const char *value) {
    for (size_t at = 0; at < settings->name_count; at++)
        if (strcasecmp(settings->names[at], value) == 0)
            return "is named already";
    const char *wrong = commands_refuse(value);
    if (wrong == NULL && settings->name_count == MOST_ADDED)
        wrong = "is one name too many: at most 1024 can be added";
    if (wrong == NULL)
        settings->names[settings->name_count++] = keep(value);
    return wrong;
}

/* Sets a value. Returns what is wrong, or NULL. */
static const char *set(settings *settings, const row *row, const char *value) {
    void *field = (char *)settings + row->at;
    uint64_t found = 0;
    if ((row->kind == SEED || row->kind == ADDRESS) && !is_address(value))
        return "is not HOST:PORT";
    if (row->kind == SEED)
        return add_seed(settings, value);
    if (row->kind == NAME)
        return add_name(settings, value);
    if (row->kind == SECRET)
        return set_secret(field, value);
    if (row->kind < SECRET)
        return set_text(field, row, value);
    if (row->kind == SWITCH) {
        *(number *)field = strcmp(value, "yes") == 0;
        return strcmp(value, "yes") == 0 || strcmp(value, "no") == 0 ? NULL : "is neither yes nor no";
    }
    if (!read_number(row, value, &found))
        return "is not a number in its range";
    *(number *)field = found;
    return NULL;
}

static const row *find(const char *name) {
    for (size_t at = 0; at < ROWS; at++)
        if (strcmp(rows[at].name, name) == 0)
            return &rows[at];
    return NULL;
}

/* Reads one line `name value`, or nothing, or a remark. */
static const char *read_line(settings *settings, char *line) {
    static const char blank[] = " \t\r\n";
    char *name = line + strspn(line, blank);
    if (*name == 0 || *name == '#')
        return NULL;
    char *value = name + strcspn(name, blank);
    if (*value != 0)
        *value++ = 0;
    value += strspn(value, blank);
    size_t len = strlen(value);
    while (len > 0 && strchr(blank, value[len - 1]) != NULL)
        value[--len] = 0;
    const row *row = find(name);
    return row == NULL ? "is no setting" : set(settings, row, value);
}

static bool read_file(settings *settings, const char *path) {
    FILE *file = fopen(path, "r");
    if (file == NULL) {
        snprintf(fault, sizeof fault, "%s: %s", path, strerror(errno));
        return false;
    }
    size_t number = 0, room = 0;
    char *line = NULL;
    const char *wrong = NULL;
    while (wrong == NULL && getline(&line, &room, file) > 0) {
        number++;
        wrong = read_line(settings, line);
        if (wrong != NULL)
            snprintf(fault, sizeof fault, "%s:%zu: %s %s", path, number, line + strspn(line, " \t"), wrong);
    }
    bool is_read = wrong == NULL && !ferror(file);
    if (wrong == NULL && !is_read)
        snprintf(fault, sizeof fault, "%s: %s", path, strerror(errno));
    free(line);
    fclose(file);
    return is_read;
}

static void print_usage(FILE *file) {
    fprintf(file, "Usage: slotroute-proxy --node HOST:PORT [--FLAG VALUE ..] [--config FILE]\n\n");
    for (size_t at = 0; at < ROWS; at++)
        fprintf(file, "  --%-19s %s\n", rows[at].name, rows[at].says);
    fprintf(file, "  --%-19s a file with a line `name value` for each of these\n", "config");
    fprintf(file, "  --%-19s say whether the settings are right, and end\n", "check");
    fprintf(file, "  --%-19s print the version\n", "version");
}

/* Ends the program if the flag only asks it to print something. */
static void answer_flag(const char *name) {
    if (strcmp(name, "--help") == 0) {
        print_usage(stdout);
        exit(0);
    }
    if (strcmp(name, "--version") == 0) {
        printf("slotroute-proxy %s\n", SLOTROUTE_VERSION);
        exit(0);
    }
}

/* Reads one flag at `at`, and returns how many words it takes, or 0 if it is wrong. */
static int read_flag(settings *settings, int count, char **words, int at) {
    const char *name = words[at];
    const char *value = at + 1 < count ? words[at + 1] : NULL;
    const row *row = strncmp(name, "--", 2) == 0 ? find(name + 2) : NULL;
    bool is_file = strcmp(name, "--config") == 0;
    answer_flag(name);
    if (strcmp(name, "--check") == 0) {
        settings->is_check = true;
        return 1;
    }
    if (row != NULL && row->kind == SWITCH) {
        set(settings, row, "yes");
        return 1;
    }
    if (is_file && value != NULL)
        return read_file(settings, value) ? 2 : 0;
    bool has_value = row != NULL && value != NULL;
    const char *wrong = has_value                ? set(settings, row, value)
                        : is_file || row != NULL ? "has no value"
                                                 : "is no flag";
    if (wrong == NULL)
        return 2;
    snprintf(fault, sizeof fault, "%s%s%s %s", name, has_value ? " " : "", has_value ? value : "", wrong);
    return 0;
}

static const char *from_environment(const char *name) {
    const char *value = getenv(name);
    return value == NULL || *value == 0 ? NULL : keep(value);
}

/* Reads all. The environment has less weight than flags and the file. */
static bool read_all(settings *settings, int count, char **words) {
    *settings = (struct settings){
        .listen = keep("127.0.0.1:6380"),
        .password = from_environment("SLOTROUTE_PASSWORD"),
        .node_password = from_environment("SLOTROUTE_NODE_PASSWORD"),
        .threads = 1,
        .max_clients = 10000,
        .max_message = 64 << 20,
        .max_reply = 512 << 20,
        .client_memory = 512 << 20,
        .memory = 2ULL << 30,
        .timeout = 5000,
        .retry = 5000,
        .client_timeout = 60000,
        .drain = 10000,
    };
    for (int at = 1, took; at < count; at += took) {
        took = read_flag(settings, count, words, at);
        if (took == 0)
            return false;
    }
    if (settings->seed_count == 0)
        snprintf(fault, sizeof fault, "no node is named");
    return settings->seed_count > 0;
}

bool settings_read(settings *settings, int count, char **words) {
    if (read_all(settings, count, words)) {
        for (size_t at = 0; at < settings->name_count; at++)
            commands_take(settings->names[at]);
        return true;
    }
    if (settings->seed_count == 0 && count == 1)
        print_usage(stderr);
    else
        fprintf(stderr, "%s\n", fault);
    return false;
}

/* Takes the value of one row, if it may change. */
static void renew(settings *settings, const struct settings *from, const row *row) {
    void *field = (char *)settings + row->at;
    const void *found = (const char *)from + row->at;
    size_t len = row->kind == SEED   ? sizeof from->seeds
                 : row->kind == NAME ? sizeof from->names
                                     : sizeof(number);
    if (memcmp(field, found, len) == 0)
        return;
    if (row < rows + FIXED)
        warn("%s stays as it was at the start", row->name);
    else if (row->kind <= SECRET)
        *(text *)field = *(const text *)found;
    else
        *(number *)field = *(const number *)found;
}

const char *settings_again(settings *found, int count, char **words) {
    return read_all(found, count, words) ? NULL : fault;
}

void settings_renew(settings *settings, const struct settings *found) {
    for (size_t at = 0; at < ROWS; at++)
        renew(settings, found, &rows[at]);
    say("the settings were read anew");
}
