#define _GNU_SOURCE
#include "lent.h"

#include <stdio.h>
#include <stdlib.h>
#include <string.h>
#include <sys/mman.h>
#include <unistd.h>

/* How far off a wrong index is still seen. A multiple of any page size. */
enum { UNTOUCHABLE = 1 << 20 };

static void must(int holds, const char *what)
{
    if (holds)
        return;
    perror(what);
    exit(2);
}

static uint8_t *map(uint8_t *at, size_t octets, int protection, int flags, int file)
{
    void *start = mmap(at, octets, protection, flags, file, 0);

    must(start != MAP_FAILED, "mmap");
    return start;
}

static struct lent make_room(size_t octets, int protection)
{
    size_t page = (size_t)sysconf(_SC_PAGESIZE);
    size_t room = (octets + page - 1) / page * page;
    int file = memfd_create("lent", 0);
    struct lent lent = {.room = room};
    uint8_t *spans;

    must(file >= 0 && ftruncate(file, (off_t)room) == 0, "memfd");
    spans = map(NULL, 2 * (size_t)UNTOUCHABLE + room, PROT_NONE, MAP_PRIVATE | MAP_ANONYMOUS, -1);
    lent.theirs = map(spans + UNTOUCHABLE, room, protection, MAP_SHARED | MAP_FIXED, file);
    lent.ours = map(NULL, room, PROT_READ | PROT_WRITE, MAP_SHARED, file);
    close(file);
    return lent;
}

struct lent lent_to_read(size_t octets)
{
    return make_room(octets, PROT_READ);
}

struct lent lent_to_write(size_t octets)
{
    return make_room(octets, PROT_READ | PROT_WRITE);
}

uint8_t *lend(const struct lent *lent, enum side side, const uint8_t *octets, size_t count)
{
    size_t at = side == AT_START ? 0 : lent->room - count;

    if (count != 0)
        memcpy(lent->ours + at, octets, count);
    return lent->theirs + at;
}
