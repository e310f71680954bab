/* See lent.h. */
#define _GNU_SOURCE /* memfd_create */
#include "lent.h"

#include <signal.h>
#include <stdint.h>
#include <stdio.h>
#include <stdlib.h>
#include <string.h>
#include <sys/mman.h>
#include <unistd.h>

#include "call.h"
#include "chance.h"

enum {
    FORBIDDEN = 1 << 16, /* bytes before and behind a room: a multiple of every page's size */
    ROOM = 4 << 16,      /* bytes of a room, such a multiple too */
    MIDDLE = 1 << 12,    /* where slices BETWEEN begin, or up to 7 bytes further */
    SIDE = 64,           /* bytes beside a slice that are looked at */
    SIDE_BYTE = 0xa5     /* what they hold */
};

_Static_assert(MIDDLE + 8 + LENT_MOST + SIDE <= ROOM, "a slice fits between its sides");

/* One memory that is seen twice. */
static struct room {
    unsigned char *written, *only_read;
    size_t first, end; /* the slice lent last */
} rooms[MOST_SLICES];

static void (*tell_call)(void);

static void give_up(const char *what)
{
    perror(what);
    exit(2);
}

static unsigned char *map(int file, size_t slice, int protection)
{
    unsigned char *all = mmap(NULL, FORBIDDEN + ROOM + FORBIDDEN, PROT_NONE, MAP_PRIVATE | MAP_ANONYMOUS, -1, 0);
    if (all == MAP_FAILED)
        give_up("mmap");
    void *room = mmap(all + FORBIDDEN, ROOM, protection, MAP_SHARED | MAP_FIXED, file, (off_t)(slice * ROOM));
    if (room == MAP_FAILED)
        give_up("mmap");
    return room;
}

/* What is wrong with a touch of this address, if it lies in or beside the view of a room. */
static const char *wrong_with(uintptr_t address, const unsigned char *view, bool only_read)
{
    uintptr_t start = (uintptr_t)view;
    if (address >= start - FORBIDDEN && address < start)
        return "memory before it was touched";
    if (address >= start + ROOM && address < start + ROOM + FORBIDDEN)
        return "memory behind it was touched";
    return only_read && address >= start && address < start + ROOM ? "it was written and must not be" : NULL;
}

static void fault(int signal, siginfo_t *info, void *context)
{
    uintptr_t address = (uintptr_t)info->si_addr;
    (void)context;
    printf("fault: signal %d at address %#llx\n", signal, (unsigned long long)address);
    for (size_t i = 0; i < MOST_SLICES; i++) {
        const char *wrong = wrong_with(address, rooms[i].written, false);
        if (wrong == NULL)
            wrong = wrong_with(address, rooms[i].only_read, true);
        if (wrong != NULL)
            printf("slice %zu: %s\n", i + 1, wrong);
    }
    tell_call();
    fflush(stdout);
    _exit(1);
}

void lent_open(void (*tell)(void))
{
    struct sigaction action = {.sa_sigaction = fault, .sa_flags = SA_SIGINFO | SA_RESETHAND};
    int file = memfd_create("lent", 0);
    if (file < 0 || ftruncate(file, MOST_SLICES * ROOM) != 0)
        give_up("memfd_create");
    for (size_t i = 0; i < MOST_SLICES; i++) {
        rooms[i].written = map(file, i, PROT_READ | PROT_WRITE);
        rooms[i].only_read = map(file, i, PROT_READ);
    }
    tell_call = tell;
    if (sigaction(SIGSEGV, &action, NULL) != 0 || sigaction(SIGBUS, &action, NULL) != 0)
        give_up("sigaction");
}

/* The pointer of an empty slice. */
static void *empty(const unsigned char *view, enum way way)
{
    static const uintptr_t any[] = {1, 3, 4095, UINTPTR_MAX, UINTPTR_MAX / 2 + 1};
    switch (way) {
    case AT_END:
        return (void *)(view + ROOM);
    case AT_START:
        return NULL;
    default:
        return (void *)any[between(0, sizeof any / sizeof *any - 1)];
    }
}

void *lend(size_t slice, enum way way, const void *values, size_t count, size_t unit, bool only_read)
{
    struct room *room = &rooms[slice];
    size_t bytes = count * unit;
    unsigned char *view = only_read ? room->only_read : room->written;
    room->first = way == AT_END ? ROOM - bytes : way == AT_START ? 0 : MIDDLE + unit * between(0, (uint32_t)(7 / unit));
    room->end = room->first + bytes;
    size_t before = room->first < SIDE ? room->first : SIDE, behind = ROOM - room->end < SIDE ? ROOM - room->end : SIDE;
    memset(room->written + room->first - before, SIDE_BYTE, before);
    memset(room->written + room->end, SIDE_BYTE, behind);
    memcpy(room->written + room->first, values, bytes);
    return count == 0 ? empty(view, way) : view + room->first;
}

bool sides_kept(size_t slice)
{
    const struct room *room = &rooms[slice];
    for (size_t i = room->first; i > 0 && i > room->first - SIDE; i--)
        if (room->written[i - 1] != SIDE_BYTE)
            return false;
    for (size_t i = room->end; i < ROOM && i < room->end + SIDE; i++)
        if (room->written[i] != SIDE_BYTE)
            return false;
    return true;
}
