/*
 * A yardstick for `zonefs`: takes the same words and the same script from standard input, does the same, and writes the
 * same replies. It is plain C that checks what a careful program checks of its lines and its files, and nothing of it
 * is proved.
 *
 *   yardstick scratch ZONES CONV BLOCKS     a script on a new device in memory
 *   yardstick run DIR -o errors=POLICY      a script on the device of a directory, which is mounted first
 *   yardstick churn SEED STEPS              a script that is made from a seed, of which a summary is written
 *   yardstick script SEED STEPS             the lines of that script
 *
 * It knows what the scripts of bench/run need, and ends with a message and status 1 at anything else.
 */
#include "yardstick.h"

#include <errno.h>
#include <inttypes.h>
#include <stdio.h>
#include <stdlib.h>
#include <string.h>
#include <unistd.h>

enum { PIECE = 65536, MOST_DEVICE_BLOCKS = 65536, MOST_STEPS = 1000000 };

struct geometry geometry;
struct zone zones[MOST_ZONES];
uint64_t line_number;

_Noreturn void die(const char *what)
{
    fprintf(stderr, "yardstick: line %" PRIu64 ": %s: %s\n", line_number, what, strerror(errno));
    exit(1);
}

_Noreturn void misfit(const char *what)
{
    fprintf(stderr, "yardstick: line %" PRIu64 ": %s\n", line_number, what);
    exit(1);
}

void check_super_block(const unsigned char *copies)
{
    if (memcmp(copies, "SFOZ\1\0\0\0", 8) != 0 || memcmp(copies, copies + BLOCK, BLOCK) != 0 || copies[88] != 0)
        misfit("another super block");
}

/* ---- the script */

/* The script that is read and not carried out yet: less than a line, and behind it a piece. */
static char text[MOST_LINE + PIECE];

/* Replies are written out before the next piece is waited for. */
static size_t read_piece(char *to)
{
    write_out();
    for (;;) {
        ssize_t n = read(STDIN_FILENO, to, PIECE);
        if (n >= 0)
            return (size_t)n;
        if (errno != EINTR)
            die("standard input");
    }
}

/* Carries out all whole lines up to an end, and answers where the rest begins. */
static const char *carry_out_lines(const char *line, const char *end)
{
    const char *newline;
    while ((newline = memchr(line, '\n', (size_t)(end - line))) != NULL) {
        line_number++;
        if (newline - line > MOST_LINE)
            misfit("the line is too long");
        carry_out(line, newline);
        line = newline + 1;
    }
    return line;
}

static void carry_out_script(void)
{
    size_t rest = 0, n;
    while ((n = read_piece(text + rest)) != 0) {
        const char *end = text + rest + n;
        const char *line = carry_out_lines(text, end);
        rest = (size_t)(end - line);
        if (rest > MOST_LINE) {
            line_number++;
            misfit("the line is too long");
        }
        memmove(text, line, rest);
    }
    if (rest != 0) {
        line_number++;
        carry_out(text, text + rest);
    }
    write_out();
}

/* ---- the commands */

static uint64_t number_of(const char *word, uint64_t least, uint64_t most)
{
    char *end;
    errno = 0;
    uint64_t n = strtoull(word, &end, 10);
    bool is_plain = word[0] >= '0' && word[0] <= '9' && (word[0] != '0' || word[1] == 0);
    if (!is_plain || *end != 0 || errno != 0 || n < least || n > most)
        misfit(word);
    return n;
}

static void scratch(char **words)
{
    unsigned zone_count = (unsigned)number_of(words[0], 1, MOST_ZONES);
    unsigned conventional = (unsigned)number_of(words[1], 0, zone_count);
    unsigned blocks = (unsigned)number_of(words[2], 2, MOST_DEVICE_BLOCKS / zone_count);
    make_memory(zone_count, conventional, blocks);
    begin_lines(&memory);
    open_first();
    begin_replies(GATHERED);
    carry_out_script();
}

/* No command fails, so that the policy doesn't matter. */
static void run(char **words)
{
    if (strcmp(words[1], "-o") != 0 || strncmp(words[2], "errors=", 7) != 0)
        misfit("a mount with a policy is asked for");
    open_directory(words[0]);
    begin_lines(&directory);
    begin_replies(EACH);
    reply("ok");
    carry_out_script();
}

static void churn(uint64_t seed, uint64_t steps)
{
    char line[MADE_LINE];
    uint64_t held = 0;
    size_t len;
    make_memory(10, 2, 64);
    begin_lines(&memory);
    open_first();
    begin_replies(COUNTED);
    struct churn *made = begin_churn(seed, steps);
    while ((len = next_line(made, line)) != 0) {
        line_number++;
        carry_out(line, line + len);
    }
    for (unsigned zone = 2; zone < 10; zone++)
        held += zones[zone].size / BLOCK;
    printf("churn seed=%" PRIu64 " steps=%" PRIu64 " lines=%" PRIu64 " ok=%" PRIu64 " errors=%" PRIu64 " read=%" PRIu64
           " blocks=%" PRIu64 "\n",
           seed, steps, line_number, counts.ok, counts.errors, counts.read, held);
}

static void script(uint64_t seed, uint64_t steps)
{
    char line[MADE_LINE];
    size_t len;
    struct churn *made = begin_churn(seed, steps);
    while ((len = next_line(made, line)) != 0)
        printf("%.*s\n", (int)len, line);
}

int main(int argc, char **argv)
{
    const char *command = argc > 1 ? argv[1] : "";
    if (argc == 5 && strcmp(command, "scratch") == 0)
        scratch(argv + 2);
    else if (argc == 5 && strcmp(command, "run") == 0)
        run(argv + 2);
    else if (argc == 4 && strcmp(command, "churn") == 0)
        churn(number_of(argv[2], 0, UINT64_MAX), number_of(argv[3], 0, MOST_STEPS));
    else if (argc == 4 && strcmp(command, "script") == 0)
        script(number_of(argv[2], 0, UINT64_MAX), number_of(argv[3], 0, MOST_STEPS));
    else
        misfit("another command line");
    if (fflush(stdout) != 0)
        die("standard output");
    return 0;
}
