/*
 * Stack use of the library's calls: each is made on a painted stack of its
 * own, and the paint that is gone is counted, less that of an empty call.
 */
#define _XOPEN_SOURCE 600
#include "yalgovim.h"

#include <stdint.h>
#include <stdio.h>
#include <stdlib.h>
#include <string.h>
#include <ucontext.h>

enum { ROOM = 256 * 1024, PAINT = 0xa5 };

static _Alignas(64) unsigned char room[ROOM];
static ucontext_t home, away;

static uint8_t file[4096];
static size_t file_len;
static uint16_t map[3 * 4096];
static uint32_t main_stack[4096], ptr_stack[4096], ctl_stack[1280], heap[16384];
static uint8_t registers[YALGOVIM_REGISTERS];
static uint32_t budget;
static volatile uint32_t kind;

#define REST main_stack, 4096, ptr_stack, 4096, ctl_stack, 1280, heap, 16384, registers, sizeof registers

static void nothing(void) { kind = 0; }
static void check(void) { kind = yalgovim_check(file, file_len, map, 3 * 4096).kind; }
static void start(void) { kind = yalgovim_start(file, file_len, map, 3 * 4096, REST).kind; }
static void run(void) { kind = yalgovim_run(file, file_len, map, 3 * 4096, REST, budget).kind; }

static size_t used(void (*what)(void))
{
    memset(room, PAINT, sizeof room);
    if (getcontext(&away) != 0)
        abort();
    away.uc_stack.ss_sp = room;
    away.uc_stack.ss_size = sizeof room;
    away.uc_link = &home;
    makecontext(&away, what, 0);
    if (swapcontext(&home, &away) != 0)
        abort();
    size_t i = 0;
    while (i < sizeof room && room[i] == PAINT)
        i++;
    return sizeof room - i;
}

static size_t greatest[3];

static void note(int call, void (*what)(void), size_t idle)
{
    size_t bytes = used(what) - idle;
    if (bytes > greatest[call])
        greatest[call] = bytes;
}

static void try_file(const uint8_t *f, size_t n, size_t idle)
{
    static const uint32_t budgets[] = { 0, 1, 3, 100, 5000 };
    memcpy(file, f, n);
    file_len = n;
    memset(heap, 0, sizeof heap);
    heap[0] = 2;
    note(0, check, idle);
    note(1, start, idle);
    for (size_t i = 0; i < sizeof budgets / sizeof *budgets; i++) {
        budget = budgets[i];
        note(2, run, idle);
    }
    registers[YALGOVIM_REGISTERS - 1] ^= 1; /* 13 */
    note(2, run, idle);
}

#define TRY(...) \
    try_file((const uint8_t[]){ __VA_ARGS__ }, sizeof((const uint8_t[]){ __VA_ARGS__ }), idle)

int main(void)
{
    size_t idle = used(nothing);
    /* ends well; refused as 3, 4, 5, 7; counts; a handler; calls itself; objects until 4 */
    TRY(240, 0, 0, 1, 0, 2, 0, 54, 5, 54, 3, 142, 73);
    TRY(240, 0, 0);
    TRY(240, 1, 0, 0, 0, 1, 0, 73);
    TRY(240, 0, 0, 0, 0, 0, 0, 72, 0, 1, 73);
    TRY(240, 0, 0, 0, 0, 1, 0, 142, 73);
    TRY(240, 0, 0, 0, 0, 2, 0, 54, 0, 54, 1, 140, 20, 0, 0, 4, 0, 9, 3, 0, 12);
    TRY(240, 0, 0, 1, 0, 2, 0, 160, 0, 17, 54, 9, 54, 0, 143, 161, 73, 73);
    TRY(240, 0, 0, 0, 0, 16, 0, 54, 1, 72, 0, 0, 64, 0, 1, 0, 0, 73);
    TRY(240, 0, 0, 0, 0, 2, 2, 54, 1, 57, 36, 0, 1, 0, 1, 59, 3, 0, 12);
    /* a vector made, written and read; vectors of pointers until 4; 6 */
    TRY(240, 0, 0, 1, 0, 3, 2, 54, 0, 54, 16, 54, 7, 80, 54, 9, 54, 3, 21, 0, 0, 84, 54, 3, 21, 0, 0, 82,
        64, 0, 0, 0, 1, 73);
    TRY(240, 0, 0, 0, 0, 2, 1, 54, 0, 54, 100, 57, 81, 59, 3, 0, 10);
    TRY(240, 0, 0, 0, 0, 3, 1, 54, 0, 54, 2, 54, 5, 80, 54, 2, 82, 162);
    /* each operation on reals, and a comparison; a point scaled and shifted for ever; 1 by 0, not caught */
    TRY(240, 0, 0, 1, 0, 4, 0, 53, 63, 240, 0, 0, 0, 0, 0, 0, 53, 64, 8, 0, 0, 0, 0, 0, 0, 150,
        53, 63, 224, 0, 0, 0, 0, 0, 0, 151, 53, 64, 0, 0, 0, 0, 0, 0, 0, 152,
        53, 64, 8, 0, 0, 0, 0, 0, 0, 153, 53, 63, 240, 0, 0, 0, 0, 0, 0, 155, 73);
    TRY(240, 0, 0, 0, 0, 10, 0, 53, 64, 36, 0, 0, 0, 0, 0, 0, 53, 64, 52, 0, 0, 0, 0, 0, 0,
        53, 63, 240, 0, 0, 0, 0, 0, 0, 53, 192, 0, 0, 0, 0, 0, 0, 0, 53, 63, 224, 0, 0, 0, 0, 0, 0,
        156, 3, 0, 31);
    TRY(240, 0, 0, 2, 0, 4, 0, 53, 63, 240, 0, 0, 0, 0, 0, 0, 53, 0, 0, 0, 0, 0, 0, 0, 0, 153, 73);
    /* 4,096 bytes of jumps */
    static uint8_t longest[4096] = { 240, 0, 0, 0, 0, 0, 0 };
    size_t n = 7;
    while (n + 3 < 4096) {
        longest[n] = 1;
        n += 3;
    }
    longest[n++] = 73;
    try_file(longest, n, idle);
    printf("stack used, bytes: check %zu, start %zu, run %zu\n", greatest[0], greatest[1],
           greatest[2]);
    return 0;
}
