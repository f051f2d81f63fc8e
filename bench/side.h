/* The two sides of a comparison: all that a call is lent, and the calls with a lent box filled in. */
#ifndef SIDE_H
#define SIDE_H

#include "plain.h"
#include <system.h>

typedef uint64_t take_call(costerbloom_receiver *, uint32_t, uint8_t, uint32_t, uint8_t, uint8_t, uint8_t, uint8_t,
    uint8_t, uint8_t, uint8_t *, size_t, uint8_t *, size_t, uint8_t *, size_t, uint8_t *, size_t);
typedef uint64_t whole_call(const uint8_t *, size_t, uint32_t, uint32_t, uint8_t, uint8_t, uint8_t, uint8_t, uint8_t,
    uint8_t, uint8_t *, size_t, uint8_t *, size_t, uint8_t *, size_t);
typedef uint64_t moves_call(const costerbloom_move *, size_t, uint32_t, uint32_t, uint8_t, uint8_t, uint8_t, uint8_t,
    uint8_t, uint8_t, uint8_t *, size_t, uint8_t *, size_t);
typedef uint32_t scale_call(uint32_t, uint32_t, uint32_t);
typedef uint32_t back_call(uint32_t, uint32_t, uint32_t, const uint8_t *, size_t);
typedef uint64_t screen_call(
    costerbloom_part *, uint32_t, uint32_t, uint32_t, uint32_t, const uint8_t *, size_t, const uint8_t *, size_t);
typedef uint32_t amp_call(uint32_t, uint32_t);

/* The library as agree.c calls it: by the functions that the program has put here. */
typedef struct {
    take_call *take;
    whole_call *whole;
    moves_call *moves;
    scale_call *scale;
    back_call *back;
    screen_call *screen;
    amp_call *amp;
} side;
extern const side tried;

/* Of any kind, and some room behind the marks. Each buffer begins on a cache line of its own on both sides, so that
 * neither is luckier. */
typedef struct {
    _Alignas(64) costerbloom_receiver receiver;
    _Alignas(64) uint8_t memory[COSTERBLOOM_MEMORY];
    _Alignas(64) uint8_t marks[COSTERBLOOM_MARKS + 3];
    _Alignas(64) uint8_t receive[COSTERBLOOM_LONGEST];
    _Alignas(64) uint8_t reply[COSTERBLOOM_LONGEST];
} box;

/* A repeatable stream of numbers: xorshift, never 0. */
static inline uint32_t below(uint64_t *seed, uint32_t limit)
{
    *seed ^= *seed << 13;
    *seed ^= *seed >> 7;
    *seed ^= *seed << 17;
    return (uint32_t)(*seed >> 32) % limit;
}

/* The clock, in nanoseconds. */
static inline uint64_t now(void)
{
    struct timespec t;
    clock_gettime(CLOCK_MONOTONIC, &t);
    return (uint64_t)t.seconds * 1000000000 + (uint64_t)t.nanoseconds;
}

static inline int same(const void *a, const void *b, size_t length)
{
    return __builtin_memcmp(a, b, length) == 0;
}

/* The padding of the record is nobody's. */
static inline int same_receiver(const costerbloom_receiver *a, const costerbloom_receiver *b)
{
    return a->stored == b->stored && a->inside == b->inside && a->over == b->over && a->running == b->running &&
           a->held == b->held && a->waiting == b->waiting;
}

static inline int same_box(const box *a, const box *b)
{
    return same_receiver(&a->receiver, &b->receiver) && same(a->memory, b->memory, sizeof a->memory) &&
           same(a->marks, b->marks, sizeof a->marks) && same(a->receive, b->receive, sizeof a->receive) &&
           same(a->reply, b->reply, sizeof a->reply);
}

/* Whether both sides scale every value alike, know the same amp models, show shared fields and single bytes back alike,
 * and hand the screen the same parts. */
int panel_agrees(void);

/* Calls both sides with the same random calls, refused ones too, and compares all that is left. Returns how many calls
 * agreed; less than `calls` where one did not. */
uint32_t agree(box *library, box *plain, uint32_t calls);

#endif
