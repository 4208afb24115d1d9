/*
 * The device of a directory, where each zone is a file. The calls of the system are those of `zonefs run`: what an
 * earlier run left is made durable as a file is opened, at most 512 files stay open, and for one more all are closed,
 * behind a sync of those that changed.
 */
#define _GNU_SOURCE
#include "yardstick.h"

#include <dirent.h>
#include <errno.h>
#include <fcntl.h>
#include <stdio.h>
#include <string.h>
#include <sys/file.h>
#include <sys/stat.h>
#include <unistd.h>

enum {
    MOST_OPEN = 512,
    /* Behind the files of the zones stands that of the geometry. */
    DEVICE_FILE = MOST_ZONES,
    BITS = 64,
};

struct file {
    int fd;
    bool is_open;
    /* Whether it was written since its last sync. */
    bool is_changed;
};

static int folder;
static struct file files[MOST_ZONES + 1];
static unsigned open_now[MOST_OPEN];
static unsigned open_count;

/* Zones that were written since the last flush. One that was filled was synced behind that write. */
enum mark { CLEAN, CHANGED, SYNCED };
static unsigned char marks[MOST_ZONES];
static unsigned listed[MOST_ZONES];
static unsigned listed_count;

/* Zones that a write opened, and how many they are. */
static uint64_t opened[MOST_ZONES / BITS];
static unsigned opened_count;

/* Whole blocks of a read. */
static unsigned char blocks[MOST_BYTES + BLOCK];

/* ---- files */

static void name_of(unsigned file, bool is_sequential, char name[16])
{
    if (file == DEVICE_FILE)
        strcpy(name, "device");
    else
        snprintf(name, 16, "%s-%06u", is_sequential ? "seq" : "cnv", file % 1000000);
}

static void close_all(void)
{
    for (unsigned i = 0; i < open_count; i++) {
        struct file *file = &files[open_now[i]];
        if (file->is_changed && fsync(file->fd) != 0)
            die("fsync");
        file->is_changed = false;
    }
    for (unsigned i = 0; i < open_count; i++) {
        struct file *file = &files[open_now[i]];
        file->is_open = false;
        if (close(file->fd) != 0)
            die("close");
    }
    open_count = 0;
}

/* The file of this number, open. */
static struct file *reach(unsigned number)
{
    struct file *file = &files[number];
    if (file->is_open)
        return file;
    if (open_count == MOST_OPEN)
        close_all();
    char name[16];
    name_of(number, number < MOST_ZONES && zones[number].is_sequential, name);
    file->fd = openat(folder, name, O_RDWR | O_CLOEXEC);
    if (file->fd < 0 || fsync(file->fd) != 0)
        die(name);
    file->is_open = true;
    open_now[open_count++] = number;
    return file;
}

static void sync_file(unsigned number)
{
    struct file *file = reach(number);
    if (fsync(file->fd) != 0)
        die("fsync");
    file->is_changed = false;
}

static uint64_t length_of(unsigned number)
{
    struct stat seen;
    if (fstat(reach(number)->fd, &seen) != 0)
        die("fstat");
    return (uint64_t)seen.st_size;
}

static void read_at(unsigned number, uint64_t at, void *to, size_t len)
{
    const struct file *file = reach(number);
    while (len != 0) {
        ssize_t n = pread(file->fd, to, len, (off_t)at);
        if (n < 0 && errno == EINTR)
            continue;
        if (n <= 0)
            die("pread");
        to = (char *)to + n;
        at += (uint64_t)n;
        len -= (size_t)n;
    }
}

static void write_at(unsigned number, uint64_t at, const unsigned char *bytes, size_t len)
{
    struct file *file = reach(number);
    file->is_changed = true;
    while (len != 0) {
        ssize_t n = pwrite(file->fd, bytes, len, (off_t)at);
        if (n < 0) {
            if (errno == EINTR)
                continue;
            die("pwrite");
        }
        bytes += n;
        at += (uint64_t)n;
        len -= (size_t)n;
    }
}

/* ---- zones that are open */

static bool is_opened(unsigned zone)
{
    return opened[zone / BITS] >> zone % BITS & 1;
}

static void close_zone(unsigned zone)
{
    opened_count -= is_opened(zone);
    opened[zone / BITS] &= ~(UINT64_C(1) << zone % BITS);
}

static unsigned first_opened(void)
{
    unsigned i = 0;
    while (opened[i] == 0)
        i++;
    return i * BITS + (unsigned)__builtin_ctzll(opened[i]);
}

/* A write opens its zone. Where as many are open as may be, the first of them is closed for it. */
static void open_zone(unsigned zone)
{
    if (is_opened(zone))
        return;
    if (geometry.max_open != 0 && opened_count == geometry.max_open)
        close_zone(first_opened());
    opened[zone / BITS] |= UINT64_C(1) << zone % BITS;
    opened_count++;
}

/* ---- the device */

static const unsigned char *read_zone(unsigned zone, uint64_t at, size_t len)
{
    read_at(zone, at, blocks, len);
    return blocks;
}

static void write_zone(unsigned zone, uint64_t at, const unsigned char *bytes, size_t len)
{
    bool fills = zones[zone].is_sequential && at + len == geometry.capacity_bytes;
    if (zones[zone].is_sequential)
        open_zone(zone);
    if (marks[zone] == CLEAN)
        listed[listed_count++] = zone;
    marks[zone] = fills ? SYNCED : CHANGED;
    write_at(zone, at, bytes, len);
    if (fills) {
        sync_file(zone);
        close_zone(zone);
    }
}

static _Noreturn void truncate_zone(unsigned zone)
{
    (void)zone;
    misfit("no zone of a directory is emptied or filled up");
}

static void flush_zones(void)
{
    for (unsigned i = 0; i < listed_count; i++) {
        if (marks[listed[i]] == CHANGED)
            sync_file(listed[i]);
        marks[listed[i]] = CLEAN;
    }
    listed_count = 0;
}

const struct device directory = { read_zone, write_zone, truncate_zone, truncate_zone, flush_zones };

/* ---- how it is opened */

/* Which zones have a file. Markers of zones that aren't good, and other names, end the program. */
static void list_names(const char *path, bool is_there[MOST_ZONES + 1])
{
    DIR *names = opendir(path);
    if (names == NULL)
        die(path);
    for (struct dirent *entry; (entry = readdir(names)) != NULL;) {
        const char *name = entry->d_name;
        char due[16];
        unsigned zone = DEVICE_FILE;
        if (strcmp(name, ".") == 0 || strcmp(name, "..") == 0)
            continue;
        bool is_sequential = strncmp(name, "seq-", 4) == 0;
        bool is_zone = strcmp(name, "device") != 0;
        if (is_zone && (sscanf(name, "%*3c-%6u", &zone) != 1 || zone >= MOST_ZONES))
            misfit(name);
        name_of(zone, is_sequential, due);
        if (strcmp(name, due) != 0 || is_there[zone])
            misfit(name);
        is_there[zone] = true;
        if (is_zone)
            zones[zone].is_sequential = is_sequential;
    }
    closedir(names);
}

/* Syncs all files in the order of their names. */
static void sync_all(const bool is_there[MOST_ZONES + 1])
{
    for (unsigned zone = 0; zone < MOST_ZONES; zone++) {
        if (is_there[zone] && !zones[zone].is_sequential)
            sync_file(zone);
    }
    sync_file(DEVICE_FILE);
    for (unsigned zone = 0; zone < MOST_ZONES; zone++) {
        if (is_there[zone] && zones[zone].is_sequential)
            sync_file(zone);
    }
}

static void read_geometry(void)
{
    char text[BLOCK + 1];
    unsigned zone_blocks, capacity, active_limit;
    uint64_t len = length_of(DEVICE_FILE);
    if (len > BLOCK)
        misfit("a geometry that is too long");
    read_at(DEVICE_FILE, 0, text, len);
    text[len] = 0;
    if (sscanf(text, "zloop 1\nzones %u\nconv %u\nzone_blocks %u\nzone_capacity %u\nmax_open %u\nmax_active %u\n",
               &geometry.zones, &geometry.conventional, &zone_blocks, &capacity, &geometry.max_open,
               &active_limit) != 6 ||
        geometry.zones == 0 || geometry.zones > MOST_ZONES || geometry.conventional > geometry.zones ||
        zone_blocks > MOST_ZONE_BLOCKS || capacity > zone_blocks || active_limit != 0)
        misfit("a device of another kind");
    geometry.zone_bytes = (uint64_t)zone_blocks * BLOCK;
    geometry.capacity_bytes = (uint64_t)capacity * BLOCK;
}

static void measure(unsigned number)
{
    struct zone *zone = &zones[number];
    if (zone->is_sequential != (number >= geometry.conventional))
        misfit("a zone of another kind");
    zone->size = length_of(number);
    if (zone->size % BLOCK != 0 ||
        (zone->is_sequential ? zone->size > geometry.capacity_bytes : zone->size != geometry.zone_bytes))
        misfit("a zone's file has another length");
}

void open_directory(const char *path)
{
    static bool is_there[MOST_ZONES + 1];
    folder = open(path, O_RDONLY | O_DIRECTORY | O_CLOEXEC);
    if (folder < 0 || flock(folder, LOCK_EX | LOCK_NB) != 0 || fsync(folder) != 0)
        die(path);
    list_names(path, is_there);
    if (!is_there[DEVICE_FILE])
        misfit("no device");
    sync_all(is_there);
    read_geometry();
    for (unsigned zone = 0; zone < MOST_ZONES; zone++) {
        if (is_there[zone] != (zone < geometry.zones))
            misfit("another number of zones");
        if (is_there[zone])
            measure(zone);
    }
    check_super_block(read_zone(0, 0, 2 * BLOCK));
}
