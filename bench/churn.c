/*
 * The lines of a script that is made from a seed, as the command `churn` has them: the opens of seven files, and then
 * steps. Each step takes three draws of a small generator, for the file, for what is done with it, and for the byte.
 */
#include "yardstick.h"

#include <string.h>

enum { FILES = 8, FILE_BLOCKS = 64, MODULUS = 65537 };

struct churn {
    uint64_t draw;
    uint64_t steps;
    unsigned opened;
    /* Lines that are due of the step before: a `complete` and a `reap`, or the latter. */
    unsigned due;
    unsigned blocks[FILES];
};

static unsigned draw(struct churn *churn)
{
    churn->draw = (75 * churn->draw + 74) % MODULUS;
    return (unsigned)churn->draw;
}

static char *put_text(char *to, const char *text)
{
    size_t len = strlen(text);
    memcpy(to, text, len);
    return to + len;
}

/* A word and the number of a file, which is that of its handle too. */
static char *put_verb(char *to, const char *verb, unsigned file)
{
    return put_digits(put_text(to, verb), file);
}

static char *put_append(char *to, const char *verb, unsigned file, unsigned at, unsigned value, unsigned len)
{
    static const char hex[] = "0123456789abcdef";
    const char run[] = { ' ', hex[value >> 4], hex[value & 15], '*', 0 };
    to = put_text(put_verb(to, verb, file), " ");
    return put_digits(put_text(put_digits(to, at), run), len);
}

static char *put_step(struct churn *churn, char *to)
{
    unsigned a = draw(churn), b = draw(churn), c = draw(churn);
    unsigned file = a % FILES, what = b % 8, more = 1 + b / 8 % 4;
    unsigned *blocks = &churn->blocks[file];
    if (what == 4)
        return put_digits(put_text(put_verb(to, "read ", file), " 0 "), *blocks * BLOCK);
    if (what == 5)
        return put_verb(to, "sync ", file);
    if (what == 7)
        return put_verb(to, "stat seq/", file);
    if (*blocks + more > FILE_BLOCKS) {
        *blocks = 0;
        return put_text(put_verb(to, "truncate ", file), " 0");
    }
    to = put_append(to, what == 6 ? "submit " : "write ", file, *blocks * BLOCK, c % 256, more * BLOCK);
    *blocks += more;
    churn->due = what == 6 ? 2 : 0;
    return to;
}

struct churn *begin_churn(uint64_t seed, uint64_t steps)
{
    static struct churn churn;
    churn = (struct churn){ .draw = seed % MODULUS, .steps = steps, .opened = 1 };
    return &churn;
}

size_t next_line(struct churn *churn, char *line)
{
    char *end = line;
    if (churn->opened < FILES) {
        unsigned file = churn->opened++;
        end = put_text(put_verb(put_verb(line, "open ", file), " seq/", file), " rw");
    } else if (churn->due != 0)
        end = put_text(line, churn->due-- == 2 ? "complete" : "reap");
    else if (churn->steps != 0) {
        churn->steps--;
        end = put_step(churn, line);
    }
    return (size_t)(end - line);
}
