/*
 * Memory with nothing around it, for tests: a room's first byte and its last stand beside memory
 * that cannot be read, so that a byte read or written outside of it ends the process. Define
 * _DEFAULT_SOURCE before the first include.
 */
#ifndef ROOMS_H
#define ROOMS_H

#include <stdint.h>
#include <string.h>
#include <sys/mman.h>
#include <unistd.h>

#include "test.h"

#define ROOM ((size_t)69632) /* 17 pages of 4,096 bytes */

enum { TREE, PROGRAM, FRAME, PLACES };

/* What fills a room around a lent buffer, and the buffer before a call. */
enum { AROUND = 0xc5, STALE = 0x5a };

static uint8_t *rooms[PLACES];

static uint8_t *make_room(size_t size)
{
    size_t page = (size_t)sysconf(_SC_PAGESIZE);
    void *all = mmap(NULL, size + 2 * page, PROT_NONE, MAP_PRIVATE | MAP_ANONYMOUS, -1, 0);
    uint8_t *room = (uint8_t *)all + page;

    TEST(all != MAP_FAILED);
    TEST(mprotect(room, size, PROT_READ | PROT_WRITE) == 0);
    return room;
}

static void make_rooms(void)
{
    int i;

    for (i = 0; i < PLACES; i++)
        rooms[i] = make_room(ROOM);
}

/* A place for so many bytes at the end (1) or the start (0) of a room. */
static uint8_t *lend(int room, size_t length, int end)
{
    return rooms[room] + (end ? ROOM - length : 0);
}

static int all_are(const uint8_t *bytes, size_t length, uint8_t value)
{
    size_t i;

    for (i = 0; i < length; i++)
        if (bytes[i] != value)
            return 0;
    return 1;
}

/* Whether a room is still filled around a lent buffer. */
static int untouched_around(int room, const uint8_t *lent, size_t length)
{
    const uint8_t *after = lent + length;

    return all_are(rooms[room], (size_t)(lent - rooms[room]), AROUND) &&
           all_are(after, (size_t)(rooms[room] + ROOM - after), AROUND);
}

#endif
