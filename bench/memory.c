/*
 * A device in memory. Its bytes are one piece of memory, which reads as zeros, and for which the system takes a page
 * only where one is written. A sequential zone that was emptied keeps its old bytes until they are written over or must
 * read as zeros.
 */
#define _GNU_SOURCE
#include "yardstick.h"

#include <string.h>
#include <sys/mman.h>
#include <unistd.h>

static unsigned char *all;

/* Behind this many bytes a zone was never written. */
static uint64_t touched[MOST_ZONES];

static unsigned char *place(unsigned zone, uint64_t at)
{
    return all + zone * geometry.zone_bytes + at;
}

static const unsigned char *read_zone(unsigned zone, uint64_t at, size_t len)
{
    (void)len;
    return place(zone, at);
}

static void write_zone(unsigned zone, uint64_t at, const unsigned char *bytes, size_t len)
{
    memcpy(place(zone, at), bytes, len);
    if (touched[zone] < at + len)
        touched[zone] = at + len;
}

static void reset_zone(unsigned zone)
{
    (void)zone;
}

static void finish_zone(unsigned zone)
{
    uint64_t held = zones[zone].size;
    if (touched[zone] > held)
        memset(place(zone, held), 0, touched[zone] - held);
}

/* Nothing that power would take is kept apart. */
static void flush_zones(void)
{
}

const struct device memory = { read_zone, write_zone, reset_zone, finish_zone, flush_zones };

/* The super block with all defaults, and an identifier of version 4. */
static void fill_super_block(unsigned char block[BLOCK])
{
    static const unsigned char head[] = { 'S', 'F', 'O', 'Z', 1, 0, 0, 0 };
    memset(block, 0, BLOCK);
    memcpy(block, head, sizeof head);
    if (getentropy(block + 72, 16) != 0)
        die("entropy");
    block[78] = (block[78] & 0x0f) | 0x40;
    block[80] = (block[80] & 0x3f) | 0x80;
    block[104] = 0640 & 255;
    block[105] = 0640 >> 8;
}

void make_memory(unsigned zone_count, unsigned conventional, unsigned blocks)
{
    unsigned char block[BLOCK];
    geometry.zones = zone_count;
    geometry.conventional = conventional;
    geometry.zone_bytes = (uint64_t)blocks * BLOCK;
    geometry.capacity_bytes = geometry.zone_bytes;
    all = mmap(NULL, zone_count * geometry.zone_bytes, PROT_READ | PROT_WRITE, MAP_PRIVATE | MAP_ANONYMOUS, -1, 0);
    if (all == MAP_FAILED)
        die("memory for the device");
    for (unsigned zone = 0; zone < zone_count; zone++) {
        zones[zone].is_sequential = zone >= conventional;
        /* Formatting fills up a sequential zone 0. */
        if (zone < conventional || zone == 0)
            zones[zone].size = geometry.zone_bytes;
    }
    fill_super_block(block);
    write_zone(0, 0, block, BLOCK);
    write_zone(0, BLOCK, block, BLOCK);
    check_super_block(read_zone(0, 0, 2 * BLOCK));
}
