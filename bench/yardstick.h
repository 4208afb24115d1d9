/* What the parts of the yardstick share. Each part says in its own words what it does. */
#ifndef YARDSTICK_H
#define YARDSTICK_H

#include <stdbool.h>
#include <stddef.h>
#include <stdint.h>

enum {
    BLOCK = 4096,
    MOST_ZONES = 4096,
    MOST_ZONE_BLOCKS = 65536,
    MOST_BYTES = 1 << 20,
    MOST_LINE = 65536,
};

/* ---- zones: what all devices tell of them (yardstick.c) */

struct zone {
    /* The zone's bytes, or what a sequential one holds. */
    uint64_t size;
    /* Bytes and requests that are submitted and not carried out yet. */
    uint64_t queued_bytes;
    unsigned queued;
    /* Handles that may write. */
    unsigned writers;
    bool is_sequential;
};

struct geometry {
    unsigned zones;
    unsigned conventional;
    /* 0 is no limit. */
    unsigned max_open;
    uint64_t zone_bytes;
    uint64_t capacity_bytes;
};

extern struct geometry geometry;
extern struct zone zones[MOST_ZONES];

/* Where the line is that is carried out, for messages. */
extern uint64_t line_number;

/* Messages, behind which the program ends. The first tells also why the last call of the system failed. */
_Noreturn void die(const char *what);
_Noreturn void misfit(const char *what);

/* ---- devices (memory.c, directory.c) */

/* The calls are made within the limits of the geometry, and with whole blocks alone. None of them changes a size. */
struct device {
    /* The bytes are good until the next call. */
    const unsigned char *(*read)(unsigned zone, uint64_t at, size_t len);
    void (*write)(unsigned zone, uint64_t at, const unsigned char *bytes, size_t len);
    /* All bytes of a sequential zone go; or zeros come behind them, up to its capacity. */
    void (*reset)(unsigned zone);
    void (*finish)(unsigned zone);
    void (*flush)(void);
};

extern const struct device memory, directory;

/* A new device is made and formatted; or that of a directory is opened. Both set the geometry and the zones. */
void make_memory(unsigned zone_count, unsigned conventional, unsigned blocks);
void open_directory(const char *path);

/* The super block at the beginning of zone 0 is one that the yardstick knows, or the program ends. */
void check_super_block(const unsigned char *copies);

/* ---- replies (replies.c) */

/* When a reply is written out: before the next line begins; when 64 KiB are gathered, or the next piece of the script
 * is to be read; or never, since it is only counted. */
enum way { EACH, GATHERED, COUNTED };

struct counts {
    uint64_t ok;
    uint64_t errors;
    uint64_t read;
};

extern struct counts counts;

void begin_replies(enum way way);
void write_out(void);

/* A reply is begun, gets its parts, and is ended. */
void begin_reply(const char *head);
void put(const char *text);
void put_bytes(const char *bytes, size_t len);
void put_number(uint64_t number);
void end_reply(void);

/* Whole replies. */
void reply(const char *text);
void reply_number(uint64_t number);
void reply_read(const unsigned char *bytes, size_t len);

/* Puts the decimal digits of a number, at most 20, and answers where they end. */
char *put_digits(char *to, uint64_t number);

/* ---- lines (lines.c) */

void begin_lines(const struct device *device);
void open_first(void);
void carry_out(const char *begin, const char *end);

/* ---- scripts that are made from a seed (churn.c) */

struct churn;

/* There is one at a time. The next line has no newline; its length is 0 behind the last. */
struct churn *begin_churn(uint64_t seed, uint64_t steps);
size_t next_line(struct churn *churn, char *line);

enum { MADE_LINE = 64 };

#endif
