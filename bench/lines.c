/*
 * The lines of a script: read, and carried out on a device whose zones are good and whose commands never fail, with the
 * volume of a format by the defaults. A line that is none of those below, or has another form, ends the program.
 */
#include "yardstick.h"

#include <stdlib.h>
#include <string.h>

enum {
    MOST_NUMBERS = 2048,
    MOST_HANDLES = 1024,
    MOST_REQUESTS = 64,
    POOL_BLOCKS = 1024,
};

/* What a number of the script has open. */
struct handle {
    struct zone *file;
    /* Requests that were submitted by it and are not carried out yet. */
    unsigned queued;
    bool may_read;
    bool may_write;
};

/* A write that is submitted. */
struct request {
    struct handle *handle;
    struct zone *file;
    uint64_t at;
    size_t len;
    unsigned char *bytes;
};

static const struct device *device;

static struct handle handles[MOST_NUMBERS];
static unsigned live;

/* How many sequential files have a handle that may write, and how many are neither empty nor full. */
static unsigned open_files, active_files;

/* Requests since the mount. No command fails, so that all are carried out and told in the order of their numbers. */
static struct request requests[MOST_REQUESTS];
static uint64_t submitted, completed, reaped;
static size_t pool_used;

/* What the bytes of a line mean. */
static unsigned char data[MOST_BYTES];

/* ---- words */

/* What is left of a line. */
struct words {
    const char *at;
    const char *end;
};

static inline bool take(struct words *words, const char *text)
{
    size_t len = strlen(text);
    if ((size_t)(words->end - words->at) < len || memcmp(words->at, text, len) != 0)
        return false;
    words->at += len;
    return true;
}

static bool is_digit(const struct words *words)
{
    return words->at < words->end && *words->at >= '0' && *words->at <= '9';
}

static uint64_t take_number(struct words *words, uint64_t most)
{
    const char *begin = words->at;
    uint64_t n = 0;
    while (is_digit(words)) {
        unsigned digit = (unsigned)(*words->at++ - '0');
        if (n > UINT64_MAX / 10 || n * 10 > UINT64_MAX - digit)
            misfit("too great a number");
        n = n * 10 + digit;
    }
    if (words->at == begin || (*begin == '0' && words->at - begin > 1))
        misfit("no number");
    if (n > most)
        misfit("too great a number");
    return n;
}

static void take_blank(struct words *words)
{
    if (!take(words, " "))
        misfit("no blank");
}

static void take_end(const struct words *words)
{
    if (words->at != words->end)
        misfit("a word too many");
}

static struct handle *take_handle(struct words *words)
{
    return &handles[take_number(words, MOST_NUMBERS - 1)];
}

static unsigned take_hex(struct words *words)
{
    char c = words->at < words->end ? *words->at++ : 0;
    if (c >= '0' && c <= '9')
        return (unsigned)(c - '0');
    if (c >= 'a' && c <= 'f')
        return (unsigned)(c - 'a') + 10;
    misfit("no byte");
}

/* Fills the data with what a word means, and tells how long it is. */
static size_t take_data(struct words *words)
{
    size_t len = 0;
    do {
        unsigned high = take_hex(words);
        unsigned low = take_hex(words);
        if (!take(words, "*"))
            misfit("no count");
        size_t count = take_number(words, MOST_BYTES - len);
        memset(data + len, (int)(high * 16 + low), count);
        len += count;
    } while (take(words, "+"));
    return len;
}

/* A word of printable bytes. */
static struct words take_path(struct words *words)
{
    struct words path = { words->at, words->at };
    while (words->at < words->end && *words->at > ' ' && *words->at <= '~')
        words->at++;
    path.end = words->at;
    if (path.at == path.end)
        misfit("no path");
    return path;
}

/* ---- files */

/* The first zone of a kind that is shown as a file, and how many there are. Zone 0 is none. */
static unsigned first_of(bool is_sequential)
{
    return is_sequential && geometry.conventional > 1 ? geometry.conventional : 1;
}

static unsigned files_of(bool is_sequential)
{
    unsigned first = first_of(is_sequential);
    unsigned end = is_sequential ? geometry.zones : geometry.conventional;
    return end > first ? end - first : 0;
}

static unsigned number_of(const struct zone *file)
{
    return (unsigned)(file - zones);
}

/* The file that a path names, or none: a number with a leading zero, too, is none's. */
static struct zone *find(struct words path)
{
    bool is_sequential = take(&path, "seq/");
    if (!is_sequential && !take(&path, "cnv/"))
        return NULL;
    const char *begin = path.at;
    unsigned n = 0;
    while (is_digit(&path) && path.at - begin < 4)
        n = n * 10 + (unsigned)(*path.at++ - '0');
    if (path.at == begin || path.at != path.end || (*begin == '0' && path.at - begin > 1))
        return NULL;
    return n < files_of(is_sequential) ? &zones[first_of(is_sequential) + n] : NULL;
}

static uint64_t capacity_of(const struct zone *file)
{
    return file->is_sequential ? geometry.capacity_bytes : geometry.zone_bytes;
}

static bool is_active(const struct zone *file)
{
    return file->is_sequential && file->size != 0 && file->size != geometry.capacity_bytes;
}

static void set_size(struct zone *file, uint64_t size)
{
    active_files -= is_active(file);
    file->size = size;
    active_files += is_active(file);
}

/* ---- lines on handles */

static void begin_handle(struct handle *handle, struct zone *file, bool reads, bool writes)
{
    *handle = (struct handle){ .file = file, .may_read = reads, .may_write = writes };
    live++;
    if (writes && file->writers++ == 0)
        open_files += file->is_sequential;
}

static void open_line(struct words *words)
{
    struct handle *handle = take_handle(words);
    take_blank(words);
    struct words path = take_path(words);
    take_blank(words);
    bool reads = take(words, "r");
    bool writes = take(words, "w");
    take_end(words);
    if (!reads && !writes)
        misfit("no mode");
    struct zone *file = find(path);
    if (handle->file != NULL)
        reply("error handle-in-use");
    else if (file == NULL)
        reply("error no-such-file");
    else if (live == MOST_HANDLES)
        reply("error too-many-handles");
    else {
        begin_handle(handle, file, reads, writes);
        reply("ok");
    }
}

/* The file of the handle's number, or none, with the reply that there is none. */
static struct zone *file_of(const struct handle *handle)
{
    if (handle->file == NULL)
        reply("error bad-handle");
    return handle->file;
}

static void close_line(struct words *words)
{
    struct handle *handle = take_handle(words);
    take_end(words);
    struct zone *file = file_of(handle);
    if (file == NULL)
        return;
    if (handle->queued != 0) {
        reply("error busy");
        return;
    }
    if (handle->may_write && --file->writers == 0)
        open_files -= file->is_sequential;
    handle->file = NULL;
    live--;
    reply("ok");
}

static void size_line(struct words *words)
{
    const struct handle *handle = take_handle(words);
    take_end(words);
    const struct zone *file = file_of(handle);
    if (file != NULL)
        reply_number(file->size);
}

static void read_line(struct words *words)
{
    const struct handle *handle = take_handle(words);
    take_blank(words);
    uint64_t at = take_number(words, UINT64_MAX);
    take_blank(words);
    uint64_t len = take_number(words, MOST_BYTES);
    take_end(words);
    const struct zone *file = file_of(handle);
    if (file == NULL)
        return;
    if (!handle->may_read)
        reply("error bad-mode");
    else if (at > capacity_of(file))
        reply("error too-big");
    else if (len == 0 || at >= file->size)
        reply("ok 0");
    else {
        if (len > file->size - at)
            len = file->size - at;
        uint64_t first = at / BLOCK * BLOCK;
        uint64_t end = (at + len + BLOCK - 1) / BLOCK * BLOCK;
        const unsigned char *bytes = device->read(number_of(file), first, end - first);
        reply_read(bytes + (at - first), len);
    }
}

/* A line that writes now or later. */
struct write {
    struct handle *handle;
    uint64_t at;
    size_t len;
};

static struct write take_write(struct words *words)
{
    struct write write = { .handle = take_handle(words) };
    take_blank(words);
    write.at = take_number(words, UINT64_MAX);
    take_blank(words);
    write.len = take_data(words);
    take_end(words);
    return write;
}

/* Why a write doesn't fit its file, or nothing. Bytes that are queued count in the end of a sequential file. */
static const char *why_unfit(const struct write *write, const struct zone *file)
{
    if (write->at % BLOCK != 0 || write->len % BLOCK != 0)
        return "error unaligned";
    if (write->len > capacity_of(file) || write->at > capacity_of(file) - write->len)
        return "error too-big";
    if (file->is_sequential && write->at != file->size + file->queued_bytes)
        return "error bad-offset";
    return NULL;
}

static void write_now(struct zone *file, uint64_t at, const unsigned char *bytes, size_t len)
{
    device->write(number_of(file), at, bytes, len);
    if (file->is_sequential)
        set_size(file, at + len);
}

static void write_line(struct words *words)
{
    struct write write = take_write(words);
    struct zone *file = file_of(write.handle);
    if (file == NULL)
        return;
    const char *why = why_unfit(&write, file);
    if (!write.handle->may_write)
        reply("error bad-mode");
    else if (write.len == 0)
        reply("ok");
    else if (why != NULL)
        reply(why);
    else if (file->queued != 0)
        reply("error busy");
    else {
        write_now(file, write.at, data, write.len);
        reply("ok");
    }
}

static void truncate_line(struct words *words)
{
    const struct handle *handle = take_handle(words);
    take_blank(words);
    uint64_t size = take_number(words, UINT64_MAX);
    take_end(words);
    struct zone *file = file_of(handle);
    if (file == NULL)
        return;
    if (!handle->may_write)
        reply("error bad-mode");
    else if (!file->is_sequential || (size != 0 && size != geometry.capacity_bytes))
        reply("error not-allowed");
    else if (file->queued != 0)
        reply("error busy");
    else {
        if (size != file->size)
            (size == 0 ? device->reset : device->finish)(number_of(file));
        set_size(file, size);
        reply("ok");
    }
}

/* A flush is of all that the device holds. */
static void sync_line(struct words *words)
{
    const struct handle *handle = take_handle(words);
    take_end(words);
    const struct zone *file = file_of(handle);
    if (file == NULL)
        return;
    if (file->queued != 0)
        reply("error busy");
    else {
        device->flush();
        reply("ok");
    }
}

/* ---- requests */

static void enqueue(const struct write *write, struct zone *file)
{
    struct request *request = &requests[submitted % MOST_REQUESTS];
    unsigned char *bytes = malloc(write->len);
    if (bytes == NULL)
        misfit("there is no memory for a request");
    memcpy(bytes, data, write->len);
    *request = (struct request){ write->handle, file, write->at, write->len, bytes };
    submitted++;
    pool_used += write->len / BLOCK;
    write->handle->queued++;
    file->queued++;
    file->queued_bytes += write->len;
}

static void submit_line(struct words *words)
{
    struct write write = take_write(words);
    struct zone *file = file_of(write.handle);
    if (file == NULL)
        return;
    const char *why = why_unfit(&write, file);
    if (!write.handle->may_write)
        reply("error bad-mode");
    else if (write.len == 0)
        reply("error unaligned");
    else if (why != NULL)
        reply(why);
    else if (submitted - reaped == MOST_REQUESTS)
        reply("error queue-full");
    else if (write.len / BLOCK > POOL_BLOCKS - pool_used)
        reply("error pool-empty");
    else {
        enqueue(&write, file);
        reply_number(submitted);
    }
}

static void complete_line(struct words *words)
{
    take_end(words);
    if (completed == submitted) {
        reply("error nothing-queued");
        return;
    }
    struct request *request = &requests[completed++ % MOST_REQUESTS];
    request->handle->queued--;
    request->file->queued--;
    request->file->queued_bytes -= request->len;
    pool_used -= request->len / BLOCK;
    write_now(request->file, request->at, request->bytes, request->len);
    free(request->bytes);
    reply_number(completed);
}

static void reap_line(struct words *words)
{
    take_end(words);
    if (reaped == completed) {
        reply("error nothing-done");
        return;
    }
    begin_reply("ok ");
    put_number(++reaped);
    put(" ok");
    end_reply();
}

/* ---- lines on paths and on the volume */

static void put_field(const char *name, uint64_t number)
{
    put(name);
    put_number(number);
}

static void reply_file(struct words path, const struct zone *file)
{
    begin_reply("ok file ");
    put_bytes(path.at, (size_t)(path.end - path.at));
    put_field(" zone ", number_of(file));
    put_field(" zones 1 size ", file->size);
    put_field(" blocks ", capacity_of(file) / 512);
    put_field(" mode 640 uid 0 gid 0 writers ", file->writers);
    end_reply();
}

static void reply_folder(const char *head, unsigned entries)
{
    if (entries == 0)
        reply("error no-such-file");
    else {
        begin_reply(head);
        put_number(entries);
        end_reply();
    }
}

static bool is_word(struct words word, const char *text)
{
    return take(&word, text) && word.at == word.end;
}

static void stat_line(struct words *words)
{
    struct words path = take_path(words);
    take_end(words);
    const struct zone *file = find(path);
    if (file != NULL)
        reply_file(path, file);
    else if (is_word(path, "cnv"))
        reply_folder("ok dir cnv size ", files_of(false));
    else if (is_word(path, "seq"))
        reply_folder("ok dir seq size ", files_of(true));
    else if (is_word(path, "/")) {
        begin_reply("ok dir / size ");
        put_number((files_of(false) != 0) + (files_of(true) != 0));
        end_reply();
    } else
        reply("error no-such-file");
}

static void attr_line(struct words *words)
{
    take_end(words);
    begin_reply("ok");
    put_field(" max_wro_seq_files=", geometry.max_open);
    put_field(" nr_wro_seq_files=", open_files);
    put_field(" max_active_seq_files=0 nr_active_seq_files=", active_files);
    end_reply();
}

/* ---- all */

void carry_out(const char *begin, const char *end)
{
    struct words words = { begin, end };
    if (begin == end || *begin == '#')
        return;
    if (take(&words, "size "))
        size_line(&words);
    else if (take(&words, "write "))
        write_line(&words);
    else if (take(&words, "read "))
        read_line(&words);
    else if (take(&words, "sync "))
        sync_line(&words);
    else if (take(&words, "stat "))
        stat_line(&words);
    else if (take(&words, "open "))
        open_line(&words);
    else if (take(&words, "close "))
        close_line(&words);
    else if (take(&words, "truncate "))
        truncate_line(&words);
    else if (take(&words, "submit "))
        submit_line(&words);
    else if (take(&words, "complete"))
        complete_line(&words);
    else if (take(&words, "reap"))
        reap_line(&words);
    else if (take(&words, "attr"))
        attr_line(&words);
    else
        misfit("another line");
}

/* The zones of the device are set. */
void begin_lines(const struct device *used)
{
    device = used;
    for (unsigned zone = first_of(true); zone < geometry.zones; zone++)
        active_files += is_active(&zones[zone]);
}

/* Number 0 is opened to read and write the first sequential file, if there is one. */
void open_first(void)
{
    if (files_of(true) != 0)
        begin_handle(&handles[0], &zones[first_of(true)], true, true);
}
