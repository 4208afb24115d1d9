/* Replies: their texts, and when they are written out. */
#include "yardstick.h"

#include <errno.h>
#include <string.h>
#include <unistd.h>

enum { ROOM = 65536 };

struct counts counts;

static enum way way;
static char out[ROOM];
static size_t out_len;

void begin_replies(enum way asked)
{
    way = asked;
}

/* Writes out what is gathered, or drops it where replies are only counted. */
void write_out(void)
{
    size_t done = 0;
    while (way != COUNTED && done < out_len) {
        ssize_t n = write(STDOUT_FILENO, out + done, out_len - done);
        if (n < 0) {
            if (errno == EINTR)
                continue;
            die("standard output");
        }
        done += (size_t)n;
    }
    out_len = 0;
}

/* A place for some bytes, fewer than there is room for in all. */
static char *room(size_t len)
{
    if (ROOM - out_len < len)
        write_out();
    return out + out_len;
}

static void ends_at(const char *end)
{
    out_len = (size_t)(end - out);
}

void put_bytes(const char *bytes, size_t len)
{
    while (len != 0) {
        if (out_len == ROOM)
            write_out();
        size_t n = len < ROOM - out_len ? len : ROOM - out_len;
        memcpy(out + out_len, bytes, n);
        out_len += n;
        bytes += n;
        len -= n;
    }
}

void put(const char *text)
{
    put_bytes(text, strlen(text));
}

char *put_digits(char *to, uint64_t number)
{
    char digits[20];
    size_t at = sizeof digits;
    do {
        digits[--at] = (char)('0' + number % 10);
        number /= 10;
    } while (number != 0);
    size_t len = sizeof digits - at;
    memcpy(to, digits + at, len);
    return to + len;
}

void put_number(uint64_t number)
{
    ends_at(put_digits(room(20), number));
}

void begin_reply(const char *head)
{
    if (head[0] == 'o')
        counts.ok++;
    else
        counts.errors++;
    put(head);
}

void end_reply(void)
{
    char *to = room(1);
    *to = '\n';
    ends_at(to + 1);
    if (way != GATHERED)
        write_out();
}

void reply(const char *text)
{
    begin_reply(text);
    end_reply();
}

void reply_number(uint64_t number)
{
    begin_reply("ok ");
    put_number(number);
    end_reply();
}

/* How many bytes from the first on are equal to it. */
static size_t run_length(const unsigned char *bytes, size_t len)
{
    size_t n = 1;
    if (len > 1 && bytes[1] != bytes[0])
        return n;
    uint64_t same = bytes[0] * UINT64_C(0x0101010101010101);
    while (len - n >= 4 * sizeof same) {
        uint64_t w[4];
        memcpy(w, bytes + n, sizeof w);
        if (((w[0] ^ same) | (w[1] ^ same) | (w[2] ^ same) | (w[3] ^ same)) != 0)
            break;
        n += sizeof w;
    }
    while (n < len && bytes[n] == bytes[0])
        n++;
    return n;
}

/* The bytes that were read, one at least, as runs of equal ones. */
void reply_read(const unsigned char *bytes, size_t len)
{
    static const char hex[] = "0123456789abcdef";
    begin_reply("ok ");
    put_number(len);
    counts.read += len;
    char before = ' ';
    while (len != 0) {
        size_t n = run_length(bytes, len);
        char *to = room(24);
        to[0] = before;
        to[1] = hex[bytes[0] >> 4];
        to[2] = hex[bytes[0] & 15];
        to[3] = '*';
        ends_at(put_digits(to + 4, n));
        before = '+';
        bytes += n;
        len -= n;
    }
    end_reply();
}
