/*
 * The two-stack routine machine in plain C, written from its rules alone
 * (docs/MANUAL.md), away from the Rattle code.
 * An independent reference for the proved implementation, and its benchmark
 * baseline. Any lengths and contents are accepted; an empty list may be NULL.
 * The lists of one call must not overlap.
 */
#ifndef REFERENCE_H
#define REFERENCE_H

#include <stddef.h>
#include <stdint.h>

enum {
    REF_PASSED = 0,
    REF_READY = 1,
    REF_FINISHED = 2,
    REF_SPENT = 3,
    REF_UNCAUGHT = 4,
    REF_REFUSED = 5
};

/* Machine exceptions. */
enum {
    REF_OUT_OF_RANGE = 1,
    REF_NIL_OBJECT = 2,
    REF_NO_SUCH_WORD = 3,
    REF_HEAP_FULL = 4,
    REF_NO_ROOM = 5,
    REF_VECTOR_FAULT = 6
};

typedef struct {
    uint32_t kind;   /* one of REF_PASSED to REF_REFUSED */
    uint32_t number; /* refusal number, or the uncaught code as a word; else 0 */
    uint32_t place;  /* for uncaught and refused; else 0 */
    uint32_t steps;  /* for finished, spent and uncaught; else 0 */
} ref_reply;

/*
 * Order 3: the sum of the bytes, and the sum of that sum after each byte.
 * At most 255 * 4096 and 255 * 4096 * 4097 / 2 in a file: both fit a word.
 * Defined here so that the tests reach it.
 */
typedef struct {
    uint32_t sum;
    uint32_t sum_of_sums;
} ref_sums;

static inline ref_sums ref_sums_of(const uint8_t *bytes, size_t len)
{
    ref_sums sums = { 0, 0 };
    for (size_t i = 0; i < len; i++) {
        sums.sum += bytes[i];
        sums.sum_of_sums += sums.sum;
    }
    return sums;
}

/* Tests 1 to 9. */
ref_reply ref_check(const uint8_t *file, size_t file_len,
                    uint16_t *map, size_t map_len);

/*
 * Tests 1 to 9, of 13 the register list's length (36 bytes), 10 and 11, then
 * zeroes the stacks, writes first frame, registers and the file's sums.
 */
ref_reply ref_start(const uint8_t *file, size_t file_len,
                    uint16_t *map, size_t map_len,
                    uint32_t *main_stack, size_t main_len,
                    uint32_t *ptr_stack, size_t ptr_len,
                    uint32_t *ctl_stack, size_t ctl_len,
                    uint32_t *heap, size_t heap_len,
                    uint8_t *regs, size_t regs_len);

/* Tests 1 to 9, 13, 10, 11 and 12, then runs at most budget steps. The sums stay. */
ref_reply ref_run(const uint8_t *file, size_t file_len,
                  uint16_t *map, size_t map_len,
                  uint32_t *main_stack, size_t main_len,
                  uint32_t *ptr_stack, size_t ptr_len,
                  uint32_t *ctl_stack, size_t ctl_len,
                  uint32_t *heap, size_t heap_len,
                  uint8_t *regs, size_t regs_len,
                  uint32_t budget);

#endif
