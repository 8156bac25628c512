/* For the header's tests: Joint A, what is expected, and memory that ends beside such as may not be touched. */
#define _DEFAULT_SOURCE
#include "joint_a.h"

#include <stdio.h>
#include <stdlib.h>
#include <sys/mman.h>
#include <unistd.h>

static int failures;

static void is(const char *what, uint64_t found, uint64_t expected)
{
    if (found != expected) {
        printf("%s is %llu, not %llu\n", what, (unsigned long long)found, (unsigned long long)expected);
        failures++;
    }
}

/* Pages between two that may not be touched; none at all where there is nothing to hold. */
struct fenced {
    unsigned char *end;
    size_t bytes;
};

#define ROOM (1 << 16)

static struct fenced fence(int open)
{
    struct fenced all;
    size_t page = (size_t)sysconf(_SC_PAGESIZE);
    unsigned char *at = (unsigned char *)mmap(NULL, ROOM + 2 * page, PROT_NONE, MAP_PRIVATE | MAP_ANONYMOUS, -1, 0);
    if (at == (unsigned char *)MAP_FAILED || (open && mprotect(at + page, ROOM, PROT_READ | PROT_WRITE) != 0)) {
        printf("no fenced memory\n");
        exit(1);
    }
    all.end = at + page + ROOM;
    all.bytes = open ? ROOM : 0;
    return all;
}

/* So many numbers that end where memory does: those given, zeros behind them. */
static uint32_t *numbers_32(struct fenced it, const uint32_t *from, size_t given, size_t length)
{
    uint32_t *at = (uint32_t *)(void *)(it.end - length * sizeof *from);
    if (it.bytes != 0) {
        memset(it.end - it.bytes, 0, it.bytes);
        memcpy(at, from, (length < given ? length : given) * sizeof *from);
    }
    return at;
}

static uint64_t *numbers_64(struct fenced it, const uint64_t *from, size_t given, size_t length)
{
    uint64_t *at = (uint64_t *)(void *)(it.end - length * sizeof *from);
    if (it.bytes != 0) {
        memset(it.end - it.bytes, 0, it.bytes);
        memcpy(at, from, (length < given ? length : given) * sizeof *from);
    }
    return at;
}

/* Lengths that are tried of an array: the layout's among them. */
#define TRIED 6
static size_t tried(size_t i, size_t length)
{
    const size_t all[TRIED] = {0, 1, length / 2, length - 1, length, length + 1};
    return all[i];
}
