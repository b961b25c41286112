/*
 * The two-stack routine machine, as firmware reaches it: check, start, run.
 *
 * Every list is lent for the length of one call: a pointer, then its length
 * in elements. The lists of one call must not overlap. An empty list still
 * needs a pointer that is not NULL and is aligned for its elements. Any
 * lengths and any contents may be lent: what does not fit is refused.
 * Nothing is allocated and nothing is kept between calls.
 *
 *   file       the code file, 1 to 4,096 bytes; never written
 *   map        three numbers for each byte of the file, or more; written by
 *              every call that is not refused as 1 or 2: the first
 *              3 x file_len numbers, and none behind them. Each call makes
 *              it anew, so it need not be kept from one call to the next.
 *   main       main stack, 1 to 4,096 words, at least procedure 0's x
 *   ptr        pointer stack, 1 to 4,096 words, at least procedure 0's y
 *   ctl        control stack, 5 to 1,280 words, five for each record
 *   heap       2 to 16,384 words; an empty one is 2, 0, 0, ... (firmware
 *              writes that once, before the first start)
 *   registers  exactly 36 bytes: place, frame record, innermost handler
 *              record, tops of main, pointer and control stack, state
 *              (0 running, 1 finished), sum of the file's bytes, sum of
 *              that sum after each byte; four bytes each, most significant
 *              first
 *
 * A refusal writes nothing but the map: 1 and 2 leave it as it was, 3 to 9
 * fill its first 3 x file_len numbers with 65,535, 10 to 13 leave the
 * finished map.
 *
 * A state belongs to the file that it was started for: the two sums tell
 * which. Refusal 13 comes after 9 and before 10: the register list has not
 * 36 bytes, or, in run, a sum in it is not the file's, whatever the state
 * and the budget are.
 *
 * A real is two words of the main stack, the high word at the lower index.
 * Operations on reals rely on the processor's state at a program's start:
 * round to nearest, subnormal numbers kept, nothing trapped. A program that
 * is linked with -ffast-math has another (docs/C-INTERFACE.md, Reals).
 *
 * Refusal 11 names one word of the heap (docs/MANUAL.md 6.8): word 0 if the
 * mark is out of range; else the first fault met in walking the objects
 * upwards, header before size word; else the lowest index that is a bad
 * pointer, the root included, or a free word that is not 0.
 */
#ifndef YALGOVIM_H
#define YALGOVIM_H

#include <stddef.h>
#include <stdint.h>

#ifdef __cplusplus
extern "C" {
#endif

enum {
    YALGOVIM_PASSED = 0,   /* check: the file keeps the rules */
    YALGOVIM_READY = 1,    /* start: registers and first frame are written */
    YALGOVIM_FINISHED = 2, /* run: procedure 0's results remain */
    YALGOVIM_SPENT = 3,    /* run: the budget is used up; run on */
    YALGOVIM_UNCAUGHT = 4, /* run: an exception that no handler caught */
    YALGOVIM_REFUSED = 5   /* any: numbers 1 to 13 */
};

/* The machine exceptions. A routine may raise any word with 162, these too. */
enum {
    YALGOVIM_OUT_OF_RANGE = 1,  /* a result outside -2^31 to 2^31-1, or a division by 0;
                                   150 to 153, 156: a real that is not finite */
    YALGOVIM_NIL_OBJECT = 2,    /* 30 to 33, 82 to 85: the object is nil */
    YALGOVIM_NO_SUCH_WORD = 3,  /* 30 to 33: word s is not in the object's part;
                                   32: it is a vector's lower bound */
    YALGOVIM_HEAP_FULL = 4,     /* 36, 80, 81: the heap has too few free words */
    YALGOVIM_NO_ROOM = 5,       /* 72: a callee's x, y or record does not fit; 160: its record */
    YALGOVIM_VECTOR_FAULT = 6   /* 80, 81: a negative length; 82 to 85: an index outside
                                   the vector, or an object of another kind */
};

enum {
    YALGOVIM_FILE_MAX = 4096,
    YALGOVIM_MAP_MAX = 3 * YALGOVIM_FILE_MAX,
    YALGOVIM_MAIN_MAX = 4096,
    YALGOVIM_PTR_MAX = 4096,
    YALGOVIM_CTL_MAX = 1280,
    YALGOVIM_HEAP_MAX = 16384,
    YALGOVIM_REGISTERS = 36
};

typedef struct {
    uint32_t kind;   /* one of YALGOVIM_PASSED to YALGOVIM_REFUSED */
    uint32_t number; /* of a refusal; the code of an uncaught exception; else 0 */
    size_t place;    /* of either: offset in the file, for 11 that word's heap index; else 0 */
    uint32_t steps;  /* done by this run: finished, spent, uncaught; else 0 */
} yalgovim_reply;

/* Tests 1 to 9. Passed or refused. */
yalgovim_reply yalgovim_check(const uint8_t *file, size_t file_len,
                              uint16_t *map, size_t map_len);

/*
 * Tests 1 to 9, 13 (the register list's length alone), 10 and 11. When ready,
 * the three stacks are zeroed all over, the first frame stands in the control
 * stack, and the registers name procedure 0's first instruction and have the
 * file's sums. The heap is read only.
 */
yalgovim_reply yalgovim_start(const uint8_t *file, size_t file_len,
                              uint16_t *map, size_t map_len,
                              uint32_t *main, size_t main_len,
                              uint32_t *ptr, size_t ptr_len,
                              uint32_t *ctl, size_t ctl_len,
                              const uint32_t *heap, size_t heap_len,
                              uint8_t *registers, size_t registers_len);

/*
 * Tests 1 to 9, 13, 10, 11 and 12, then does at most budget steps. Stacks,
 * heap and registers hold the state after them, the sums being kept; hand them
 * to the next run of the same file as they are. After uncaught they are as
 * before the instruction at fault.
 */
yalgovim_reply yalgovim_run(const uint8_t *file, size_t file_len,
                            uint16_t *map, size_t map_len,
                            uint32_t *main, size_t main_len,
                            uint32_t *ptr, size_t ptr_len,
                            uint32_t *ctl, size_t ctl_len,
                            uint32_t *heap, size_t heap_len,
                            uint8_t *registers, size_t registers_len,
                            uint32_t budget);

#ifdef __cplusplus
}
#endif

#endif
