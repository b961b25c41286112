/*
 * A small controller: loads a code file (or a built-in sample), checks it,
 * starts it and runs it stroke by stroke, a budget of 100 steps each. Prints
 * what the panel would show. With the sample it also takes the state for
 * another routine's, once: that is refused, and the sample goes on.
 *   example [FILE]
 */
#include "yalgovim.h"

#include <inttypes.h>
#include <stdbool.h>
#include <stdio.h>
#include <string.h>

enum { STROKE = 100, STROKES = 50 };

/* Lent to every call; static, as on a controller without allocation. */
static uint8_t file[YALGOVIM_FILE_MAX + 1];
static uint16_t map[YALGOVIM_MAP_MAX];
static uint32_t main_stack[256], ptr_stack[256], ctl_stack[250], heap[1024];
static uint8_t registers[YALGOVIM_REGISTERS];

#define LENGTH(list) (sizeof(list) / sizeof *(list))

/*
 * The sample: needles used in turn. A vector hangs on the root, with the uses
 * of needles 0 to 5; 88 times the needle is count rem 6, and its uses go up;
 * the answer is the uses of the last needle. A handler gives -1 if anything
 * goes wrong. Main words 0 and 1 are the count and the needle.
 */
static const uint8_t sample[] = {
    /*  0 */ 240, 0, 0, 1, 0, 4, 1,
    /*  7 */ 160, 0, 76,              /* handler at 76 */
    /* 10 */ 54, 0, 54, 6, 54, 0, 80, /* vector: bound 0, length 6, all 0 */
    /* 17 */ 59,                      /* setRoot */
    /* 18 */ 54, 0, 54, 0,            /* count, needle */
    /* 22 */ 20, 0, 0, 54, 6, 145,    /* count rem 6 */
    /* 28 */ 22, 0, 1,                /* is the needle */
    /* 31 */ 20, 0, 1, 58, 82,        /* its uses */
    /* 36 */ 54, 1, 140,              /* + 1 */
    /* 39 */ 20, 0, 1, 58, 84,        /* back into the vector */
    /* 44 */ 20, 0, 0, 54, 1, 140,
    /* 50 */ 22, 0, 0,                /* count + 1 */
    /* 53 */ 20, 0, 0, 54, 88, 195,   /* count < 88 */
    /* 59 */ 4, 0, 40,                /* again from 22 */
    /* 62 */ 20, 0, 1, 58, 82,        /* the last needle's uses */
    /* 67 */ 60, 0, 2, 0, 0,          /* alone */
    /* 72 */ 161,
    /* 73 */ 1, 0, 7,                 /* to 83 */
    /* 76 */ 64, 0, 1, 0, 0, 54, 255,
    /* 83 */ 73
};

/* The routine that is mixed up with it: it returns at once. */
static const uint8_t other[] = { 240, 0, 0, 0, 0, 0, 0, 73 };

static const char *refusal_words(uint32_t number)
{
    static const char *const words[] = {
        "",
        "the file is empty or longer than 4,096 bytes",
        "the lent map is too short for the file",
        "not a known code, a record cut short, or no procedure at the file's begin",
        "a procedure's head is wrong: its counts, its number, or nothing behind it",
        "a target or a procedure that there is not",
        "never reached, or runs past its procedure's end",
        "pops too much, pushes too much, or names a word that is not there",
        "returns with other than its results, or closes a handler that is not open",
        "leads to a place that is reached with other depths or handlers",
        "a lent list is too short or too long",
        "the heap is damaged",
        "the registers, stacks or control records are damaged",
        "the state belongs to another file, or the register list has not 36 bytes"
    };
    return number < LENGTH(words) ? words[number] : "unknown refusal";
}

static const char *exception_words(uint32_t code)
{
    switch (code) {
    case YALGOVIM_OUT_OF_RANGE: return "a number out of range, a division by zero, or a real that is not finite";
    case YALGOVIM_NIL_OBJECT: return "an object was needed and there was none";
    case YALGOVIM_NO_SUCH_WORD: return "the object has no such word";
    case YALGOVIM_HEAP_FULL: return "the heap is full";
    case YALGOVIM_NO_ROOM: return "a stack is full";
    case YALGOVIM_VECTOR_FAULT: return "not a vector of this kind, or an index or length out of range";
    default: return "raised by the routine itself";
    }
}

/* The nine registers, most significant byte first. */
static uint32_t reg(size_t i)
{
    const uint8_t *b = registers + 4 * i;
    return (uint32_t)b[0] << 24 | (uint32_t)b[1] << 16 | (uint32_t)b[2] << 8 | b[3];
}

static int32_t whole(uint32_t w)
{
    return w <= INT32_MAX ? (int32_t)w : (int32_t)(w - 0x80000000u) + INT32_MIN;
}

static void show_refusal(const char *when, yalgovim_reply r)
{
    printf("%s: REFUSED %" PRIu32, when, r.number);
    if (r.number >= 3 && r.number <= 9)
        printf(" at byte %zu", r.place);
    if (r.number == 11)
        printf(" at heap word %zu", r.place);
    printf(": %s\n", refusal_words(r.number));
}

static size_t load(int argc, char **argv)
{
    if (argc < 2) {
        memcpy(file, sample, sizeof sample);
        return sizeof sample;
    }
    FILE *f = fopen(argv[1], "rb");
    if (f == NULL) {
        perror(argv[1]);
        return SIZE_MAX;
    }
    size_t n = fread(file, 1, sizeof file, f); /* one byte more than allowed */
    bool bad = ferror(f) != 0;
    fclose(f);
    if (bad) {
        fprintf(stderr, "%s: not read\n", argv[1]);
        return SIZE_MAX;
    }
    return n;
}

static yalgovim_reply run(const uint8_t *code, size_t n, uint32_t budget)
{
    return yalgovim_run(code, n, map, LENGTH(map), main_stack, LENGTH(main_stack),
                        ptr_stack, LENGTH(ptr_stack), ctl_stack, LENGTH(ctl_stack),
                        heap, LENGTH(heap), registers, sizeof registers, budget);
}

/* Checked and started: the state in the lists is this file's from here on. */
static bool begin(size_t n)
{
    yalgovim_reply r = yalgovim_check(file, n, map, LENGTH(map));
    if (r.kind != YALGOVIM_PASSED) {
        show_refusal("check", r);
        return false;
    }
    printf("check: passed, %zu bytes\n", n);

    heap[0] = 2; /* an empty heap */
    r = yalgovim_start(file, n, map, LENGTH(map), main_stack, LENGTH(main_stack),
                       ptr_stack, LENGTH(ptr_stack), ctl_stack, LENGTH(ctl_stack),
                       heap, LENGTH(heap), registers, sizeof registers);
    if (r.kind != YALGOVIM_READY) {
        show_refusal("start", r);
        return false;
    }
    printf("start: ready\n");
    return true;
}

/* Stroke by stroke; 0 if it finishes. */
static int strokes(size_t n)
{
    uint64_t steps = 0;
    for (unsigned stroke = 1; stroke <= STROKES; stroke++) {
        yalgovim_reply r = run(file, n, STROKE);
        steps += r.steps;
        printf("stroke %u: ", stroke);
        switch (r.kind) {
        case YALGOVIM_SPENT:
            printf("running, at byte %" PRIu32 ", %" PRIu64 " steps\n", reg(0), steps);
            break;
        case YALGOVIM_FINISHED:
            printf("FINISHED after %" PRIu64 " steps, results:", steps);
            for (uint32_t i = 0; i < reg(3); i++)
                printf(" %" PRId32, whole(main_stack[i]));
            printf("\n");
            return 0;
        case YALGOVIM_UNCAUGHT:
            printf("STOPPED by exception %" PRId32 " at byte %zu after %" PRIu64 " steps: %s\n",
                   whole(r.number), r.place, steps, exception_words(r.number));
            return 1;
        default:
            show_refusal("run", r);
            return 1;
        }
    }
    printf("STOPPED by the controller: not finished after %d strokes\n", STROKES);
    return 1;
}

int main(int argc, char **argv)
{
    size_t n = load(argc, argv);
    if (n == SIZE_MAX)
        return 2;
    if (!begin(n))
        return 1;
    if (argc < 2) { /* a refusal leaves the state as it is */
        yalgovim_reply r = run(other, sizeof other, STROKE);
        if (r.kind == YALGOVIM_REFUSED)
            show_refusal("run of another routine", r);
    }
    return strokes(n);
}
