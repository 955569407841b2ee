#include "inline.h"

#include "commands.h"

#include <stdlib.h>
#include <string.h>

enum { LONGEST = 1024, MOST = 16 }; /* bytes of a line, and its words */

static const char blank[] = " \t\r\n";

/* Reads what follows a backslash within double quotes, as servers do. */
static char escaped(const char **at) {
    static const char letters[] = "nrtba", values[] = "\n\r\t\b\a";
    const char *text = *at, *letter = strchr(letters, *text);
    if (*text == 'x' && strspn(text + 1, "0123456789abcdefABCDEF") >= 2) {
        *at += 2;
        return (char)strtol((char[]){text[1], text[2], 0}, NULL, 16);
    }
    return letter != NULL ? values[letter - letters] : *text;
}

/* Copies a word without its quotes, which may have blanks between them. Returns its end in the line, or NULL
 * if a quote is not closed, or if text follows the closing one. */
static const char *copy_word(const char *at, char *word, size_t *len) {
    char quote = 0;
    for (*len = 0; *at != 0 && (quote != 0 || strchr(blank, *at) == NULL); at++) {
        if (quote == 0 && (*at == '"' || *at == '\'')) {
            quote = *at;
        } else if (quote != 0 && *at == quote) {
            if (strchr(blank, at[1]) == NULL)
                return NULL;
            quote = 0;
        } else if (*at == '\\' && at[1] != 0 && (quote == '"' || (quote == '\'' && at[1] == '\''))) {
            at++;
            word[(*len)++] = quote == '"' ? escaped(&at) : *at;
        } else {
            word[(*len)++] = *at;
        }
    }
    return quote == 0 ? at : NULL;
}

/* Writes the words of a line as a request. False if there are too many, or if a quote is wrong. */
static bool put_words(const char *line, buffer *request) {
    buffer words = {0};
    size_t count = 0;
    const char *at = line + strspn(line, blank);
    while (at != NULL && *at != 0 && count < MOST) {
        char word[LONGEST];
        size_t len;
        at = copy_word(at, word, &len);
        if (at == NULL)
            break;
        buffer_print(&words, "$%zu\r\n", len);
        buffer_put(&words, word, len);
        buffer_text(&words, "\r\n");
        at += strspn(at, blank);
        count++;
    }
    if (count > 0) {
        buffer_print(request, "*%zu\r\n", count);
        buffer_put(request, buffer_at(&words), buffer_len(&words));
    }
    buffer_free(&words);
    return at != NULL && count < MOST;
}

whole inline_read(const uint8_t *bytes, size_t len, buffer *request, size_t *end) {
    char line[LONGEST + 1];
    size_t number;
    const uint8_t *feed = memchr(bytes, '\n', len < LONGEST ? len : LONGEST);
    if (feed == NULL)
        return len < LONGEST ? IS_PIECE : IS_MALFORMED;
    *end = (size_t)(feed + 1 - bytes);
    memcpy(line, bytes, *end);
    line[*end] = 0;
    if (strlen(line) != *end || !put_words(line, request))
        return IS_MALFORMED;
    bool is_own = buffer_len(request) == 0 ||
                  command_of(buffer_at(request), buffer_len(request), &number) >= COMMAND_PING;
    return is_own ? IS_WHOLE : IS_MALFORMED;
}
