/* Which commands the proxy takes, and what becomes of each. */
#ifndef PROXY_COMMANDS_H
#define PROXY_COMMANDS_H

#include <stdbool.h>
#include <stddef.h>
#include <stdint.h>

/* Nodes answer a TAKEN command once and at once, and it leaves the connection, which many clients
 * share, as it was. A SPLIT is such a command that the library splits by slot. A SCRIPT is such a command
 * that runs code: an error of it may follow effects. A STREAM is one unless it has the word BLOCK. PUBLISH
 * goes to the node that has all subscriptions. BLOCKING ones and SUBSCRIPTIONs go over a connection of the
 * client's own. The proxy answers those from PING on. */
typedef enum command_kind {
    COMMAND_UNKNOWN,
    COMMAND_TAKEN,
    COMMAND_SPLIT,
    COMMAND_SCRIPT,
    COMMAND_STREAM,
    COMMAND_PUBLISH,
    COMMAND_TRANSACTION,
    COMMAND_SUBSCRIPTION,
    COMMAND_MONITOR,
    COMMAND_BLOCKING,
    COMMAND_WAIT,
    COMMAND_CURSOR,
    COMMAND_ADMIN,
    COMMAND_PING,
    COMMAND_ECHO,
    COMMAND_QUIT,
    COMMAND_SELECT,
    COMMAND_AUTH,
    COMMAND_HELLO,
    COMMAND_RESET,
    COMMAND_OWN,
} command_kind;

/* A word of a request. */
typedef struct word {
    const char *text;
    size_t len;
} word;

/* Steps over the words of a whole request, which the library has found well-formed. */
typedef struct words {
    const char *at, *end;
    uint64_t left;
} words;

words words_of(const uint8_t *request, size_t len);
bool words_next(words *words, word *word);
bool word_is(word word, const char *text); /* in any case */

/* Fills the table of names, before threads start. */
void commands_start(void);

/* Why no command of this name can be added, or NULL. */
const char *commands_refuse(const char *name);

/* Has a name taken that is not refused, and whose key is its first argument. There is room for MOST_ADDED. */
void commands_take(const char *name);

/* Names have numbers below COMMANDS, which is that of all other names. */
enum { COMMANDS = 2048 };
const char *command_name(size_t number); /* with `|` for the space of two words, or "" */

/* What a request is, by its first words, and the number of its name. */
command_kind command_of(const uint8_t *request, size_t len, size_t *number);

/* Whether nodes answer it over a connection that many clients share. */
static inline bool command_is_taken(command_kind kind) {
    return kind >= COMMAND_TAKEN && kind <= COMMAND_PUBLISH;
}

/* Why a command of this kind is refused, or NULL if it is not. */
const char *command_refusal(command_kind kind);

#endif
