#include "client.h"

#include "own.h"
#include "private.h"
#include "request.h"
#include "transaction.h"

#include <stdio.h>
#include <string.h>

static line line_of(const uint8_t *request, size_t len) {
    words words = words_of(request, len);
    line it = {.count = (size_t)words.left};
    for (size_t at = 0; at < MOST_WORDS && words_next(&words, &it.words[at]); at++) {
    }
    return it;
}

void own_text(client *client, const char *text) { request_answer_own(client, text, strlen(text)); }

void own_bulk(client *client, const char *text, size_t len) {
    buffer out = {0};
    buffer_bulk(&out, text, len);
    request_answer_with(client, &out);
}

/* Answers PING as a server answers a subscriber. */
static void answer_pong(client *client, word given) {
    buffer out = {0};
    buffer_text(&out, "*2\r\n$4\r\npong\r\n");
    buffer_bulk(&out, given.text, given.len);
    request_answer_with(client, &out);
}

void own_wrong_count(client *client, word name) {
    char text[100];
    snprintf(text, sizeof text, "wrong number of arguments for '%.*s' command",
             name.len < 20 ? (int)name.len : 20, name.text);
    request_refuse(client, text);
}

/* Compares in a time that does not depend on where they differ. */
static bool is_password(word given) {
    const char *wanted = the_proxy.settings.password; /* it may just have been taken away */
    size_t len = wanted == NULL ? 0 : strlen(wanted);
    if (wanted == NULL)
        return true;
    unsigned differs = given.len != len;
    for (size_t at = 0; at < given.len; at++)
        differs |= (unsigned)(given.text[at] ^ wanted[at < len ? at : 0]);
    return differs == 0;
}

/* Whether the client is known now. An error is written if it is not. If no password is set, the default user
 * has any, as with a server. */
static bool log_in(client *client, word user, word password) {
    if (!word_is(user, "default") || !is_password(password)) {
        own_text(client, "-WRONGPASS invalid username-password pair or user is disabled.\r\n");
        return false;
    }
    client->is_known = true;
    return true;
}

static void answer_auth(client *client, const line *line) {
    word user = line->count == 3 ? line->words[1] : (word){"default", 7};
    if (line->count != 2 && line->count != 3)
        own_wrong_count(client, line->words[0]);
    else if (line->count == 2 && the_proxy.settings.password == NULL)
        request_refuse(client,
                       "AUTH <password> called without any password configured for the default user. Are you "
                       "sure your configuration is correct?");
    else if (log_in(client, user, line->words[line->count - 1]))
        own_text(client, "+OK\r\n");
}

/* Reads what follows the version of HELLO. Returns whether it is right. */
static bool read_hello(client *client, const line *line) {
    size_t at = 2;
    while (at < line->count && line->count <= MOST_WORDS) {
        if (word_is(line->words[at], "AUTH") && at + 2 < line->count) {
            if (!log_in(client, line->words[at + 1], line->words[at + 2]))
                return false;
            at += 3;
        } else if (word_is(line->words[at], "SETNAME") && at + 1 < line->count &&
                   own_set_name(client, line->words[at + 1])) {
            at += 2;
        } else {
            break;
        }
    }
    if (at < line->count)
        request_refuse(client, "Syntax error in HELLO");
    return at >= line->count;
}

static void answer_hello(client *client, const line *line) {
    buffer out = {0};
    bool is_three = line->count > 1 ? word_is(line->words[1], "3") : client->is_three;
    if (line->count > 1 && !is_three && !word_is(line->words[1], "2")) {
        own_text(client, "-NOPROTO unsupported protocol version\r\n");
        return;
    }
    if (!read_hello(client, line))
        return;
    if (!client->is_known) {
        own_text(
            client,
            "-NOAUTH HELLO must be called with the client already authenticated, otherwise the HELLO <proto> "
            "AUTH <user> <pass> option can be used to authenticate the client and select the RESP protocol "
            "version at the same time\r\n");
        return;
    }
    if (is_three != client->is_three)
        private_drop(client);
    client->is_three = is_three;
    const char *version = info_field(client->worker, NODE_VERSION);
    buffer_print(&out, "%s\r\n$6\r\nserver\r\n$5\r\nredis\r\n$7\r\nversion\r\n", is_three ? "%7" : "*14");
    buffer_bulk(&out, version, strlen(version));
    buffer_print(
        &out,
        "$5\r\nproto\r\n:%d\r\n$2\r\nid\r\n:%llu\r\n$4\r\nmode\r\n$10\r\nstandalone\r\n$4\r\nrole\r\n"
        "$6\r\nmaster\r\n$7\r\nmodules\r\n*0\r\n",
        is_three ? 3 : 2, (unsigned long long)client->id);
    request_answer_with(client, &out);
}

static void answer_select(client *client, const line *line) {
    if (line->count != 2) {
        own_wrong_count(client, line->words[0]);
        return;
    }
    client->is_elsewhere = !word_is(line->words[1], "0");
    if (client->is_elsewhere)
        request_refuse(client, "SELECT is not allowed in cluster mode: there is database 0 alone");
    else
        own_text(client, "+OK\r\n");
}

static void answer_reset(client *client) {
    transaction_drop(client);
    private_drop(client);
    client->is_known = the_proxy.settings.password == NULL;
    client->is_elsewhere = client->is_three = false;
    buffer_free(&client->name);
    own_text(client, "+RESET\r\n");
}

static void answer_ping(client *client, const line *line, bool is_ping) {
    word given = line->count > 1 ? line->words[1] : (word){"", 0};
    if (line->count > 2 || (line->count == 1 && !is_ping))
        own_wrong_count(client, line->words[0]);
    else if (is_ping && client->is_subscribed && !client->is_three)
        answer_pong(client, given);
    else if (line->count == 1)
        own_text(client, "+PONG\r\n");
    else
        own_bulk(client, given.text, given.len);
}

void own_answer(client *client, unsigned kind, const uint8_t *request, size_t len) {
    line line = line_of(request, len);
    if (kind == COMMAND_PING || kind == COMMAND_ECHO)
        answer_ping(client, &line, kind == COMMAND_PING);
    else if (kind == COMMAND_SELECT)
        answer_select(client, &line);
    else if (kind == COMMAND_AUTH)
        answer_auth(client, &line);
    else if (kind == COMMAND_HELLO)
        answer_hello(client, &line);
    else if (kind == COMMAND_RESET)
        answer_reset(client);
    else if (word_is(line.words[0], "CLIENT"))
        own_client(client, &line);
    else if (word_is(line.words[0], "INFO"))
        own_info(client, &line);
    else if (word_is(line.words[0], "CONFIG"))
        own_config(client, &line);
    else
        own_text(client, kind == COMMAND_QUIT ? "+OK\r\n" : "*3\r\n$6\r\nmaster\r\n:0\r\n*0\r\n"); /* ROLE */
    if (kind == COMMAND_QUIT)
        client_end(client);
}
