#include "request.h"
#include "transaction.h"

#include <stdlib.h>
#include <string.h>

/* Writes why the replies to the parts make no one reply. */
static void write_fault(const request *it, uint32_t answer, size_t at, buffer *out) {
    char text[100] = "";
    if (answer == SLOTROUTE_REPLY_IS_ERROR && at < it->parts && part_reply_bytes(&it->part[at])[0] == '-') {
        buffer_put(out, part_reply_bytes(&it->part[at]), it->part[at].reply_len);
        return;
    }
    layer_message(answer, text, sizeof text);
    buffer_print(out, "-ERR the replies of several nodes make no one reply: %s\r\n", text);
}

/* Writes replies with another nil. The library combines those of version 2, in which it is not that of 3. */
static void put_with_nil(const uint8_t *at, size_t left, const char *nil, buffer *out) {
    while (left > 0) {
        const uint8_t *line = memchr(at, '\n', left);
        size_t len = line == NULL ? left : (size_t)(line + 1 - at);
        bool is_nil = len > 2 && (at[0] == '_' || ((at[0] == '$' || at[0] == '*') && at[1] == '-'));
        if (len > 2 && at[0] == '$' && !is_nil)
            len += strtoull((const char *)at + 1, NULL, 10) + 2;
        len = len < left ? len : left;
        if (is_nil)
            buffer_text(out, nil);
        else
            buffer_put(out, at, len);
        at += len;
        left -= len;
    }
}

void reply_write(request *it, buffer *out) {
    size_t at = 0;
    if (it->is_subscription || (it->parts == 1 && it->policy == 0)) {
        const part *last = &it->part[it->parts - 1];
        buffer_put(out, part_reply_bytes(last), last->reply_len);
    } else if (it->is_transaction) {
        transaction_reply(it, out);
    } else {
        buffer *all = layer_replies();
        buffer two = {0};
        for (uint32_t part = 0; part < it->parts; part++) {
            const struct part *one = &it->part[part];
            if (it->is_three)
                put_with_nil(part_reply_bytes(one), one->reply_len, "$-1\r\n", all);
            else
                buffer_put(all, part_reply_bytes(one), one->reply_len);
        }
        uint32_t answer =
            layer_combine(it->bytes, it->len, it->policy, it->parts, all, it->is_three ? &two : out, &at);
        put_with_nil(buffer_at(&two), buffer_len(&two), "_\r\n", out);
        buffer_free(&two);
        if (answer != SLOTROUTE_DONE)
            write_fault(it, answer, at, out);
    }
}
