/*
 * Library against reference (built at -O2 and at -O3) in one run: the check
 * by the byte, the file's sums by the byte, the audits by the call, the steps,
 * vectors made. The three take turns; the best of several turns counts. Ratios
 * above 1: the library is slower.
 *   bench [TURNS]
 */
#define _POSIX_C_SOURCE 199309L
#include "reference.h"
#include "yalgovim.h"

#include <stdbool.h>
#include <stdio.h>
#include <stdlib.h>
#include <string.h>
#include <time.h>

/* The reference twice, under other names. */
#define TWICE(n)                                                                          \
    ref_reply ref##n##_check(const uint8_t *, size_t, uint16_t *, size_t);                \
    ref_reply ref##n##_start(const uint8_t *, size_t, uint16_t *, size_t, uint32_t *,     \
                             size_t, uint32_t *, size_t, uint32_t *, size_t, uint32_t *,  \
                             size_t, uint8_t *, size_t);                                  \
    ref_reply ref##n##_run(const uint8_t *, size_t, uint16_t *, size_t, uint32_t *,       \
                           size_t, uint32_t *, size_t, uint32_t *, size_t, uint32_t *,    \
                           size_t, uint8_t *, size_t, uint32_t);
TWICE(2)
TWICE(3)

enum { LIBRARY, O2, O3, SIDES };
enum { CHECK, START, RUN };

typedef struct {
    uint8_t file[4096];
    size_t file_len;
    uint16_t map[3 * 4096];
    uint32_t main[4096], ptr[4096], ctl[1280], heap[16384];
    size_t main_len, ptr_len, ctl_len, heap_len;
    uint8_t regs[YALGOVIM_REGISTERS];
    size_t regs_len;
} memory;

static memory side[SIDES];
static unsigned turns = 40;

static double now(void)
{
    struct timespec t;
    clock_gettime(CLOCK_PROCESS_CPUTIME_ID, &t);
    return (double)t.tv_sec * 1e9 + (double)t.tv_nsec;
}

static uint32_t call(int who, int what, uint32_t budget)
{
    memory *m = &side[who];
#define FILE_AND_MAP m->file, m->file_len, m->map, 3 * m->file_len
#define REST m->main, m->main_len, m->ptr, m->ptr_len, m->ctl, m->ctl_len, m->heap, m->heap_len, \
             m->regs, m->regs_len
    switch (what * SIDES + who) {
    case CHECK * SIDES + LIBRARY: return yalgovim_check(FILE_AND_MAP).kind;
    case CHECK * SIDES + O2: return ref2_check(FILE_AND_MAP).kind;
    case CHECK * SIDES + O3: return ref3_check(FILE_AND_MAP).kind;
    case START * SIDES + LIBRARY: return yalgovim_start(FILE_AND_MAP, REST).kind;
    case START * SIDES + O2: return ref2_start(FILE_AND_MAP, REST).kind;
    case START * SIDES + O3: return ref3_start(FILE_AND_MAP, REST).kind;
    case RUN * SIDES + LIBRARY: return yalgovim_run(FILE_AND_MAP, REST, budget).kind;
    case RUN * SIDES + O2: return ref2_run(FILE_AND_MAP, REST, budget).kind;
    default: return ref3_run(FILE_AND_MAP, REST, budget).kind;
    }
}

static void need(uint32_t got, uint32_t want, const char *what)
{
    if (got != want) {
        printf("%s: answer %u, not %u\n", what, (unsigned)got, (unsigned)want);
        exit(1);
    }
}

/* Nanoseconds of one call, the best of the turns, for each side. */
static void measure(int what, uint32_t budget, uint32_t want, const char *name, double best[SIDES])
{
    unsigned inner = 1;
    for (int w = 0; w < SIDES; w++)
        need(call(w, what, budget), want, name);
    for (;;) { /* calls enough for a millisecond */
        double from = now();
        for (unsigned i = 0; i < inner; i++)
            call(O2, what, budget);
        if (now() - from > 1e6)
            break;
        inner *= 2;
    }
    for (int w = 0; w < SIDES; w++)
        best[w] = 1e30;
    for (unsigned t = 0; t < turns; t++)
        for (int w = 0; w < SIDES; w++) {
            double from = now();
            for (unsigned i = 0; i < inner; i++)
                call(w, what, budget);
            double each = (now() - from) / inner;
            if (each < best[w])
                best[w] = each;
        }
}

static void lend(const uint8_t *file, size_t n, size_t main_len, size_t ptr_len, size_t ctl_len,
                 size_t heap_len)
{
    for (int w = 0; w < SIDES; w++) {
        memory *m = &side[w];
        memset(m, 0, sizeof *m);
        memcpy(m->file, file, n);
        m->file_len = n;
        m->main_len = main_len;
        m->ptr_len = ptr_len;
        m->ctl_len = ctl_len;
        m->heap_len = heap_len;
        m->regs_len = sizeof m->regs;
        m->heap[0] = 2;
    }
}

static double last[SIDES]; /* the row before, for the growth */

static void title(const char *text, const char *unit)
{
    printf("\n%-44s %10s %8s %8s %9s %9s\n", text, unit, "lib/-O2", "lib/-O3", "lib grows",
           "ref grows");
}

static void row(const char *name, double units, const double best[SIDES], bool grows)
{
    printf("%-44s %10.2f %8.2f %8.2f", name, best[LIBRARY] / units, best[LIBRARY] / best[O2],
           best[LIBRARY] / best[O3]);
    if (grows)
        printf(" %9.2f %9.2f", best[LIBRARY] / last[LIBRARY], best[O2] / last[O2]);
    printf("\n");
    memcpy(last, best, sizeof last);
    fflush(stdout);
}

/* ---- files of a wanted length ---- */

static uint8_t f[4096 + 512];
static size_t n;

static void bytes(const uint8_t *b, size_t count)
{
    memcpy(f + n, b, count);
    n += count;
}
#define BYTES(...) bytes((const uint8_t[]){ __VA_ARGS__ }, sizeof((const uint8_t[]){ __VA_ARGS__ }))

/* Pads with jumps to the next instruction and empty retracts, then returns. */
static void finish(size_t total)
{
    while ((total - n - 1) % 3 != 0)
        BYTES(64, 0, 0, 0, 0);
    while (n + 1 < total)
        BYTES(1, 0, 0);
    BYTES(73);
}

static void straight(size_t total)
{
    n = 0;
    BYTES(240, 0, 0, 0, 0, 2, 1);
    while (n + 40 < total)
        BYTES(54, 1, 54, 2, 140, 144, 64, 0, 1, 0, 0);
    finish(total);
}

static void jumps(size_t total)
{
    n = 0;
    BYTES(240, 0, 0, 0, 0, 2, 1);
    while (n + 40 < total)
        BYTES(54, 1, 2, 0, 3, 1, 0, 0, 54, 0, 4, 0, 0);
    finish(total);
}

/* Handlers one after another. */
static void handlers(size_t total)
{
    n = 0;
    BYTES(240, 0, 0, 0, 0, 2, 1);
    while (n + 40 < total) {
        size_t target = n + 6; /* reached from the body too, with one word */
        BYTES(160, (uint8_t)(target >> 8), (uint8_t)target, 54, 1, 161, 64, 0, 1, 0, 0);
    }
    finish(total);
}

/* Handlers one in another, as many as fit. */
static void nested(size_t total)
{
    size_t k = (total - 20) / 12;
    n = 0;
    BYTES(240, 0, 0, 0, 0, 2, 1);
    size_t open = n;
    for (size_t i = 0; i < k; i++)
        BYTES(160, 0, 0);
    for (size_t i = 0; i < k; i++) {
        /* closes the innermost; its target is behind it, with one word */
        BYTES(161, 54, 0);
        size_t at = open + 3 * (k - 1 - i);
        f[at + 1] = (uint8_t)(n >> 8);
        f[at + 2] = (uint8_t)n;
        BYTES(64, 0, 1, 0, 0);
    }
    finish(total);
}

static void procedures(size_t total)
{
    n = 0;
    BYTES(240, 0, 0, 0, 0, 2, 1);
    for (unsigned k = 1; k < 64 && n + 40 < total; k++) {
        BYTES(73, 240, 0, 0, 0, 0, 2, 1);
        size_t to = total * (k + 1) / 64;
        while (n + 12 < to && n + 40 < total)
            BYTES(72, 0, (uint8_t)(k / 2), 1, 0, 0);
    }
    finish(total);
}

/* Vectors of both kinds made, read, written and dropped. */
static void vectors(size_t total)
{
    n = 0;
    BYTES(240, 0, 0, 0, 0, 3, 3);
    while (n + 80 < total) {
        BYTES(54, 0, 54, 4, 54, 7, 80, 54, 1, 21, 0, 0, 82, 54, 2, 21, 0, 0, 84, 64, 0, 0, 0, 1);
        BYTES(54, 0, 54, 4, 57, 81, 54, 1, 21, 0, 0, 83, 21, 0, 0, 54, 2, 85, 64, 0, 0, 0, 1);
    }
    finish(total);
}

#define REAL(a, b) 53, a, b, 0, 0, 0, 0, 0, 0
#define TENTH 53, 63, 185, 153, 153, 153, 153, 153, 154 /* 0.1 */

/* Each operation on reals, a comparison and a point. */
static void reals(size_t total)
{
    n = 0;
    BYTES(240, 0, 0, 0, 0, 10, 0);
    while (n + 140 < total) {
        BYTES(REAL(63, 240), TENTH, 150, REAL(64, 8), 151, TENTH, 152, REAL(64, 0), 153);
        BYTES(REAL(63, 248), 155, 64, 0, 1, 0, 0);
        BYTES(REAL(64, 36), REAL(64, 52), TENTH, REAL(192, 0), REAL(63, 224), 156, 64, 0, 4, 0, 0);
    }
    finish(total);
}

/* ---- a file as a shop would write it ---- */

static uint32_t drawn;

/* A small fixed generator: the mix is the same each time, and no branch of a checker foresees it. */
static unsigned draw(unsigned below)
{
    drawn = drawn * 1664525u + 1013904223u;
    return (drawn >> 16) % below;
}

/* The procedure being written, the number of procedures, its pointer words and its main words, the last of which counts its loops. */
static struct {
    size_t head;
    unsigned number, of, ptrs;
    uint8_t words;
} proc;

static unsigned params_of(unsigned k) { return k == 0 ? 0 : 1 + k % 3; }
static unsigned ptrs_of(unsigned k) { return k % 4 == 3; }
static unsigned results_of(unsigned k) { return k + 1 < proc.of && k % 3 != 0; }

/* A jump forwards is led to where it goes when that place is known. */
static size_t ahead(uint8_t kind)
{
    BYTES(kind, 0, 0);
    return n;
}

static void here(size_t from)
{
    f[from - 2] = (uint8_t)((n - from) >> 8);
    f[from - 1] = (uint8_t)(n - from);
}

static void back(uint8_t kind, size_t to)
{
    size_t s = n + 3 - to;
    BYTES(kind, (uint8_t)(s >> 8), (uint8_t)s);
}

static uint8_t word(void) { return (uint8_t)draw(proc.words - 1u); }
static void save(void) { BYTES(22, 0, word()); }

static void value(void)
{
    switch (draw(6)) {
    case 0: case 1: BYTES(54, (uint8_t)draw(256)); break;
    case 2: BYTES(56, 0, 0, (uint8_t)draw(128), (uint8_t)draw(256)); break;
    default: BYTES(20, 0, word());
    }
}

/* At most 2^15 like every word and field, so that nothing goes out of range. */
static void expression(void)
{
    static const uint8_t one[] = { 144, 146 }, two[] = { 140, 141, 142 };
    value();
    switch (draw(4)) {
    case 0: break;
    case 1: BYTES(one[draw(2)]); break;
    case 2: BYTES(54, (uint8_t)(1 + draw(127)), 143); break;
    default:
        value();
        BYTES(two[draw(3)], 56, 0, 0, (uint8_t)(1 + draw(127)), (uint8_t)draw(256), 145);
    }
}

/* The object, from the root or a parameter; it has one pointer word, 2, and the plain words 3 and 4. */
static void object(void)
{
    if (proc.ptrs != 0 && draw(2) == 0)
        BYTES(21, 0, 0);
    else
        BYTES(58);
}

static void comparison(void)
{
    static const uint8_t two[] = { 130, 195, 198, 201, 204 };
    if (draw(6) == 0) {
        object();
        BYTES(31, 0, 2, 57, 131);
        return;
    }
    value();
    value();
    BYTES(two[draw(5)]);
}

static void condition(void)
{
    comparison();
    if (draw(4) == 0) { /* and, or */
        size_t over = ahead((uint8_t)(5 + draw(2)));
        comparison();
        here(over);
    }
}

static void field(void)
{
    uint8_t s = (uint8_t)(3 + draw(2));
    switch (draw(5)) {
    case 0:
        object();
        object();
        BYTES(33, 0, 2);
        break;
    case 1: case 2:
        expression();
        object();
        BYTES(32, 0, s);
        break;
    default:
        object();
        BYTES(30, 0, s);
        save();
    }
}

static void call_of(unsigned k)
{
    for (unsigned i = 0; i < params_of(k); i++)
        value();
    if (ptrs_of(k) != 0)
        object();
    BYTES(72, 0, (uint8_t)k);
    if (results_of(k) == 0)
        return;
    if (draw(4) == 0)
        BYTES(64, 0, 1, 0, 0);
    else
        save();
}

/* A quotient or a value, or the code of what is raised instead. */
static void guarded(void)
{
    size_t at = n;
    BYTES(160, 0, 0);
    if (draw(2) == 0) {
        value();
        BYTES(20, 0, word(), 143);
    } else {
        condition();
        size_t over = ahead(2);
        BYTES(54, 9, 162);
        here(over);
        value();
    }
    BYTES(161);
    f[at + 1] = (uint8_t)((n - proc.head) >> 8);
    f[at + 2] = (uint8_t)(n - proc.head);
    save();
}

static void statement(unsigned depth)
{
    size_t over, top;
    uint8_t counter = (uint8_t)(proc.words - 1);
    switch (draw(depth == 0 ? 10 : depth == 1 ? 8 : 5)) {
    case 0: case 1: case 2: expression(); save(); break;
    case 3: field(); break;
    case 4: /* the odd ones call none */
        if (proc.number % 2 == 0)
            call_of(1 + 2 * draw(proc.of / 2));
        break;
    case 5: guarded(); break;
    case 6:
        condition();
        over = ahead(2);
        statement(depth + 1);
        here(over);
        break;
    case 7:
        condition();
        over = ahead(2);
        statement(depth + 1);
        top = ahead(1);
        here(over);
        statement(depth + 1);
        here(top);
        break;
    default: /* counts down */
        BYTES(54, (uint8_t)(2 + draw(6)), 22, 0, counter);
        top = n;
        statement(1);
        if (draw(2) == 0)
            statement(1);
        BYTES(20, 0, counter, 54, 1, 142, 22, 0, counter, 20, 0, counter);
        back(4, top);
    }
}

/* Statements up to a place; what would reach beyond it is taken back. */
static void fill(size_t to)
{
    for (unsigned beyond = 0; beyond < 12;) {
        size_t was = n;
        statement(0);
        if (n > to) {
            n = was;
            beyond++;
        }
    }
}

/* Procedure 0 makes an object and calls 1 and the even ones for ever; these call an odd one, the odd ones none. */
static void typical(size_t total)
{
    n = 0;
    drawn = 10806; /* in 300 bytes, too, the mix has every sort of statement */
    proc.of = total < 1024 ? 4 : 28;
    for (unsigned k = 0; k < proc.of; k++) {
        unsigned a = params_of(k), b = ptrs_of(k), r = results_of(k);
        size_t to = total * (k + 2) / (proc.of + 1);
        proc.head = n;
        proc.number = k;
        proc.ptrs = b;
        proc.words = (uint8_t)(a + 2 + draw(3));
        BYTES(240, (uint8_t)a, (uint8_t)b, (uint8_t)r, 0, (uint8_t)(proc.words + 3), (uint8_t)(b + 2));
        if (k == 0)
            BYTES(54, 1, 54, 2, 57, 36, 0, 2, 0, 1, 59);
        for (unsigned i = a; i < proc.words; i++)
            BYTES(54, (uint8_t)draw(100));
        if (k == 0) {
            size_t top = n;
            fill(to - 6 * proc.of);
            for (unsigned i = 1; i < proc.of; i += i == 1 ? 1 : 2)
                call_of(i);
            back(3, top);
            continue;
        }
        fill(to - (k + 1 == proc.of ? 14 : k % 2 == 0 ? 45 : 25));
        if (k % 2 == 0)
            call_of(k + 1);
        if (r != 0)
            expression();
        BYTES(r != 0 ? 60 : 64, 0, proc.words, 0, (uint8_t)b);
        if (k + 1 < proc.of)
            BYTES(73);
    }
    finish(total);
}

static const size_t typicals[] = { 300, 4096 };
static const uint8_t sample_a[] = { 240, 0, 0, 1, 0, 2, 0, 54, 5, 54, 3, 142, 73 };

static void more_check_rows(const char *what, void (*make)(size_t))
{
    double best[SIDES];
    char name[80];
    for (size_t total = 512; total <= 4096; total *= 2) {
        make(total);
        snprintf(name, sizeof name, "%s, %zu bytes", what, n);
        lend(f, n, 256, 256, 250, 1024);
        measure(CHECK, 0, YALGOVIM_PASSED, name, best);
        row(name, (double)n, best, total > 512);
    }
}

static void check_rows(void)
{
    static const struct {
        const char *name;
        void (*make)(size_t);
    } sorts[] = {
        { "plain", straight }, { "jumps", jumps }, { "handlers in turn", handlers },
        { "handlers nested", nested }, { "calls, 64 heads", procedures }
    };
    double best[SIDES];
    char name[80];
    title("check", "ns/byte");
    lend(sample_a, sizeof sample_a, 256, 256, 250, 1024);
    measure(CHECK, 0, YALGOVIM_PASSED, "sample A", best);
    row("sample A, 13 bytes", sizeof sample_a, best, false);
    for (size_t s = 0; s < sizeof sorts / sizeof *sorts; s++)
        for (size_t total = 512; total <= 4096; total *= 2) {
            sorts[s].make(total);
            snprintf(name, sizeof name, "%s, %zu bytes", sorts[s].name, n);
            lend(f, n, 256, 256, 250, 1024);
            measure(CHECK, 0, YALGOVIM_PASSED, name, best);
            row(name, (double)n, best, total > 512);
        }
    for (size_t i = 0; i < 2; i++) {
        typical(typicals[i]);
        snprintf(name, sizeof name, "typical, %zu bytes", n);
        lend(f, n, 256, 256, 250, 1024);
        measure(CHECK, 0, YALGOVIM_PASSED, name, best);
        row(name, (double)n, best, false);
    }
    /* refused at the last byte */
    straight(4096);
    f[n - 1] = 99;
    lend(f, n, 256, 256, 250, 1024);
    measure(CHECK, 0, YALGOVIM_REFUSED, "refused", best);
    row("plain, 4096 bytes, refused at the last byte", (double)n, best, false);
    more_check_rows("vectors", vectors);
    more_check_rows("reals", reals);
}

/* ---- audits ---- */

/* for ever: bjump to itself */
static const uint8_t idle[] = { 240, 0, 0, 0, 0, 1, 1, 3, 0, 3 };

/* An object's pointers lead to the one halfway before it; with `nils`, every third is nil, in no order that a branch could foresee. */
static void fill_heap(size_t len, uint32_t ptrs, bool nils)
{
    for (int w = 0; w < SIDES; w++) {
        uint32_t *heap = side[w].heap;
        uint32_t size = 2 + ptrs, at = 2, random = 1;
        for (; at + size <= len; at += size) {
            heap[at] = 0x01000000u + ptrs;
            heap[at + 1] = size;
            for (uint32_t i = 0; i < ptrs; i++) {
                random = random * 1664525u + 1013904223u;
                bool nil = nils && (random >> 16) % 3 == 0;
                heap[at + 2 + i] = nil ? 0 : 2 + size * ((at / size) / 2);
            }
        }
        heap[0] = at;
        heap[1] = 2;
    }
}

static void start_all(const char *name)
{
    for (int w = 0; w < SIDES; w++)
        need(call(w, START, 0), YALGOVIM_READY, name);
}

/* Heaps of growing length, filled with objects of `ptrs` pointers each, or empty. */
static void heap_rows(const char *what, bool full, uint32_t ptrs, bool nils)
{
    double best[SIDES];
    char name[80];
    for (size_t h = 1024; h <= 16384; h *= 2) {
        snprintf(name, sizeof name, "heap of %zu, %s", h, what);
        lend(idle, sizeof idle, 16, 16, 20, h);
        if (full)
            fill_heap(h, ptrs, nils);
        start_all(name);
        measure(RUN, 0, YALGOVIM_SPENT, name, best);
        row(name, 1000, best, h > 1024);
    }
}

/* Vectors of 13 elements, 16 words each, plain and of pointers by turns; the pointers lead to the one halfway before. */
static void fill_vectors(size_t len)
{
    for (int w = 0; w < SIDES; w++) {
        uint32_t *heap = side[w].heap, at = 2;
        for (; at + 16 <= len; at += 16) {
            bool plain = at / 16 % 2 == 0;
            heap[at] = plain ? 0x02000000u : 0x03000000u + 13;
            heap[at + 1] = 16;
            for (uint32_t i = 2; i < 16; i++)
                heap[at + i] = plain ? i : 2 + 16 * (at / 32);
            heap[at + (plain ? 2 : 15)] = 1; /* the bound */
        }
        heap[0] = at;
        heap[1] = 2;
    }
}

static void vector_heap_rows(void)
{
    double best[SIDES];
    char name[80];
    for (size_t h = 1024; h <= 16384; h *= 2) {
        snprintf(name, sizeof name, "heap of %zu, full, vectors of 13", h);
        lend(idle, sizeof idle, 16, 16, 20, h);
        fill_vectors(h);
        start_all(name);
        measure(RUN, 0, YALGOVIM_SPENT, name, best);
        row(name, 1000, best, h > 1024);
    }
}

/* Both sums of the file are taken, and the state's audits made, whatever the budget is. */
static void idle_rows(void)
{
    double best[SIDES];
    char name[80];
    lend(idle, sizeof idle, 256, 256, 250, 1024);
    start_all("idle");
    measure(RUN, 0, YALGOVIM_SPENT, "idle", best);
    row("idle run, stacks 256, 256, 250, heap 1024", 1000, best, false);
    for (size_t i = 0; i < 2; i++) {
        typical(typicals[i]);
        snprintf(name, sizeof name, "idle run, the same, typical file of %zu", n);
        lend(f, n, 256, 256, 250, 1024);
        start_all(name);
        measure(RUN, 0, YALGOVIM_SPENT, name, best);
        row(name, 1000, best, false);
    }
}

/* Control stacks of growing length, filled with frames, or with frames and handlers. */
static void record_rows(void)
{
    double best[SIDES];
    char name[80];
    /* calls itself for ever; 16 words of each stack a frame: 5 ends it */
    n = 0;
    BYTES(240, 0, 0, 0, 0, 0, 0, 72, 0, 1, 73);
    BYTES(240, 0, 0, 0, 0, 16, 16);
    for (int i = 0; i < 16; i++)
        BYTES(54, 1, 57);
    BYTES(72, 0, 1, 64, 0, 16, 0, 16, 73);
    for (size_t c = 160; c <= 1280; c *= 2) {
        snprintf(name, sizeof name, "deep: %zu frames, tops near %zu", c / 5, c / 5 * 16);
        lend(f, n, 4096, 4096, c, 64);
        start_all(name);
        for (int w = 0; w < SIDES; w++)
            need(call(w, RUN, 1000000), YALGOVIM_UNCAUGHT, name);
        measure(RUN, 0, YALGOVIM_SPENT, name, best);
        row(name, 1000, best, c > 160);
    }
    /* opens a handler and calls itself */
    n = 0;
    BYTES(240, 0, 0, 0, 0, 2, 0, 160, 0, 17, 72, 0, 0, 161, 1, 0, 5, 64, 0, 1, 0, 0, 73);
    for (size_t c = 160; c <= 1280; c *= 2) {
        snprintf(name, sizeof name, "control of %zu, half frames, half handlers", c);
        lend(f, n, 4096, 4096, c, 64);
        start_all(name);
        for (int w = 0; w < SIDES; w++)
            need(call(w, RUN, (uint32_t)(2 * (c / 10) - 2)), YALGOVIM_SPENT, name);
        measure(RUN, 0, YALGOVIM_SPENT, name, best);
        row(name, 1000, best, c > 160);
    }
}

static void start_rows(void)
{
    double best[SIDES];
    title("start", "us/call");
    lend(idle, sizeof idle, 256, 256, 250, 1024);
    measure(START, 0, YALGOVIM_READY, "start, bench", best);
    row("stacks 256, 256, 250, heap 1024", 1000, best, false);
    lend(idle, sizeof idle, 4096, 4096, 1280, 16384);
    measure(START, 0, YALGOVIM_READY, "start, greatest", best);
    row("stacks 4096, 4096, 1280, heap 16384", 1000, best, false);
    typical(4096);
    lend(f, n, 256, 256, 250, 1024);
    measure(START, 0, YALGOVIM_READY, "start, typical", best);
    row("256, 256, 250, 1024, typical file of 4096", 1000, best, false);
}

static void audit_rows(void)
{
    double best[SIDES];
    char name[80];
    title("audits: run with budget 0", "us/call");
    idle_rows();
    heap_rows("empty", false, 0, false);
    heap_rows("full, objects of 2 words", true, 0, false);
    heap_rows("full, 14 pointers each", true, 14, false);
    heap_rows("full, 14 each, a third nil", true, 14, true);
    for (size_t m = 512; m <= 4096; m *= 2) {
        snprintf(name, sizeof name, "both stacks of %zu, shallow", m);
        lend(idle, sizeof idle, m, m, 20, 64);
        start_all(name);
        measure(RUN, 0, YALGOVIM_SPENT, name, best);
        row(name, 1000, best, m > 512);
    }
    record_rows();
    vector_heap_rows();
    start_rows();
}

/* ---- the file's sums ---- */

/* Records as long as they come: little is to be checked, which the sums are measured beside. */
static void long_records(size_t total)
{
    n = 0;
    BYTES(240, 0, 0, 0, 0, 1, 0);
    while (n + 40 < total)
        BYTES(56, 1, 2, 3, 4, 64, 0, 1, 0, 0);
    finish(total);
}

/* A run refused as 13 for its second sum, less one refused for a list of 35 bytes: the sums. */
static void sum_row(const char *name)
{
    double summed[SIDES], unsummed[SIDES];
    start_all(name);
    for (int w = 0; w < SIDES; w++)
        side[w].regs[sizeof side[w].regs - 1] ^= 1;
    measure(RUN, 0, YALGOVIM_REFUSED, name, summed);
    for (int w = 0; w < SIDES; w++)
        side[w].regs_len = sizeof side[w].regs - 1;
    measure(RUN, 0, YALGOVIM_REFUSED, name, unsummed);
    for (int w = 0; w < SIDES; w++)
        summed[w] -= unsummed[w];
    row(name, (double)side[LIBRARY].file_len, summed, false);
}

static void sum_rows(void)
{
    char name[80];
    title("sums: refused 13 by sum, less by length", "ns/byte");
    lend(sample_a, sizeof sample_a, 256, 256, 250, 1024);
    sum_row("sample A, 13 bytes");
    for (size_t total = 256; total <= 4096; total *= 4) {
        long_records(total);
        snprintf(name, sizeof name, "long records, %zu bytes", n);
        lend(f, n, 256, 256, 250, 1024);
        sum_row(name);
    }
}

/* ---- steps ---- */

#define LISTED(...) { __VA_ARGS__ }, sizeof((const uint8_t[]){ __VA_ARGS__ })

typedef struct {
    const char *name;
    uint8_t file[64];
    size_t n;
} long_loop;

static const long_loop loops[] = {
    { "counting", LISTED(240, 0, 0, 0, 0, 2, 0, 54, 0,
        54, 1, 140, 20, 0, 0, 4, 0, 9, 3, 0, 12) },
    { "arithmetic", LISTED(240, 0, 0, 0, 0, 2, 0, 54, 7,
        54, 3, 141, 54, 5, 143, 54, 2, 142, 144, 54, 100, 145, 3, 0, 16) },
    { "locals", LISTED(240, 0, 0, 0, 0, 4, 0, 54, 7, 54, 8, 54, 9,
        20, 0, 0, 22, 0, 1, 20, 0, 1, 22, 0, 2, 20, 0, 2, 22, 0, 0, 3, 0, 21) },
    { "calls", LISTED(240, 0, 0, 0, 0, 1, 0, 54, 5, 72, 0, 1, 64, 0, 1, 0, 0, 3, 0, 13,
        240, 1, 0, 1, 0, 2, 0, 144, 73) },
    { "handlers opened and closed", LISTED(240, 0, 0, 0, 0, 1, 0,
        160, 0, 14, 161, 3, 0, 7, 162) },
    { "handlers raised", LISTED(240, 0, 0, 0, 0, 1, 0,
        160, 0, 13, 54, 9, 162, 64, 0, 1, 0, 0, 3, 0, 14) },
    { "raised through a frame, by div", LISTED(240, 0, 0, 0, 0, 1, 0,
        160, 0, 16, 72, 0, 1, 161, 54, 0, 64, 0, 1, 0, 0, 3, 0, 17,
        240, 0, 0, 0, 0, 2, 0, 54, 1, 54, 0, 143, 162) },
    { "heap fields", LISTED(240, 0, 0, 0, 0, 2, 2,
        54, 1, 54, 2, 57, 36, 0, 2, 0, 1, 59,
        58, 30, 0, 3, 54, 1, 140, 58, 32, 0, 3, 58, 58, 33, 0, 2, 58, 31, 0, 2, 59, 3, 0, 24) },
    { "retracts", LISTED(240, 0, 0, 0, 0, 5, 2,
        54, 1, 54, 2, 54, 3, 54, 4, 57, 57, 60, 0, 3, 0, 1, 62, 0, 1, 0, 0, 64, 0, 0, 0, 1,
        3, 0, 28) }
};

/* On a vector of 16. Words read are the next index; pointers are compared, or are the vector itself; the last one adds 1 to each element. */
static const long_loop vector_loops[] = {
    { "plain elements read", LISTED(240, 0, 0, 0, 0, 3, 2, 54, 0, 54, 16, 54, 3, 80, 54, 3,
        21, 0, 0, 82, 21, 0, 0, 82, 21, 0, 0, 82, 21, 0, 0, 82, 3, 0, 19) },
    { "plain elements written", LISTED(240, 0, 0, 0, 0, 3, 2, 54, 0, 54, 16, 54, 3, 80,
        54, 5, 54, 3, 21, 0, 0, 84, 54, 6, 54, 4, 21, 0, 0, 84, 54, 7, 54, 15, 21, 0, 0, 84,
        3, 0, 27) },
    { "pointer elements read", LISTED(240, 0, 0, 0, 0, 2, 3, 54, 0, 54, 16, 57, 81,
        54, 3, 21, 0, 0, 83, 54, 4, 21, 0, 0, 83, 131, 64, 0, 1, 0, 0, 3, 0, 21) },
    { "a chain of pointers read", LISTED(240, 0, 0, 0, 0, 2, 3, 54, 0, 54, 16, 57, 81,
        54, 3, 21, 0, 0, 21, 0, 0, 85,
        54, 3, 83, 54, 3, 83, 54, 3, 83, 54, 3, 83, 3, 0, 15) },
    { "pointer elements written", LISTED(240, 0, 0, 0, 0, 2, 3, 54, 0, 54, 16, 57, 81,
        54, 3, 21, 0, 0, 21, 0, 0, 85, 54, 4, 57, 21, 0, 0, 85, 54, 15, 21, 0, 0, 21, 0, 0, 85,
        3, 0, 28) },
    { "elements counted up", LISTED(240, 0, 0, 0, 0, 3, 2, 54, 0, 54, 16, 54, 1, 80, 54, 15,
        20, 0, 0, 21, 0, 0, 82, 54, 1, 140, 20, 0, 0, 21, 0, 0, 84, 54, 1, 142,
        20, 0, 0, 54, 0, 204, 4, 0, 29, 64, 0, 1, 0, 0, 3, 0, 39) }
};

/*
 * A sum of tenths; a polynomial in 0.75; tenths taken away and the rest divided;
 * the root of 2 by Newton; two reals compared; a point halved and shifted; 1 by 0.
 */
static const long_loop real_loops[] = {
    { "reals summed", LISTED(240, 0, 0, 0, 0, 4, 0, REAL(0, 0), TENTH, 150, 3, 0, 13) },
    { "a polynomial", LISTED(240, 0, 0, 0, 0, 6, 0, REAL(63, 232), REAL(63, 240),
        20, 0, 0, 20, 0, 1, 151, TENTH, 150, 20, 0, 0, 20, 0, 1, 151, REAL(191, 248), 150,
        3, 0, 37) },
    { "reals subtracted and divided", LISTED(240, 0, 0, 0, 0, 4, 0, REAL(63, 240),
        TENTH, 152, REAL(63, 248), 153, 3, 0, 23) },
    { "a root", LISTED(240, 0, 0, 0, 0, 8, 0, REAL(63, 240),
        20, 0, 0, 20, 0, 1, REAL(64, 0), 20, 0, 0, 20, 0, 1, 153, 150, REAL(63, 224), 151,
        22, 0, 1, 22, 0, 0, 3, 0, 42) },
    { "reals compared", LISTED(240, 0, 0, 0, 0, 4, 0,
        REAL(63, 248), REAL(64, 4), 155, 4, 0, 22, 3, 0, 25) },
    { "points scaled and shifted", LISTED(240, 0, 0, 0, 0, 10, 0, REAL(64, 36), REAL(64, 52),
        TENTH, REAL(192, 0), REAL(63, 224), 156, 3, 0, 31) },
    { "raised by a real", LISTED(240, 0, 0, 0, 0, 4, 0,
        160, 0, 30, REAL(63, 240), REAL(0, 0), 153, 162, 64, 0, 1, 0, 0, 3, 0, 31) }
};
enum { SUMMED, POLYNOMIAL, DIVIDED, ROOT, COMPARED, POINTS, RAISED, REAL_LOOPS };

/* After so many steps this real stands at word `at` of the main stack, on all sides. */
static void expect(int loop, uint32_t steps, size_t at, double want)
{
    const long_loop *l = &real_loops[loop];
    uint64_t bits;
    memcpy(&bits, &want, sizeof bits);
    lend(l->file, l->n, 256, 256, 250, 1024);
    start_all(l->name);
    for (int w = 0; w < SIDES; w++) {
        need(call(w, RUN, steps), YALGOVIM_SPENT, l->name);
        need(side[w].main[at], (uint32_t)(bits >> 32), l->name);
        need(side[w].main[at + 1], (uint32_t)bits, l->name);
    }
}

/* A thousand times round each loop, worked out here too. */
static void expect_reals(void)
{
    double sum = 0, value = 1, rest = 1, root = 1, across = 10, along = 20;
    for (int i = 0; i < 1000; i++) {
        sum += 0.1;
        value = value * 0.75 + 0.1;
        value = value * 0.75 + -1.5;
        rest = (rest - 0.1) / 1.5;
        root = (root + 2 / root) * 0.5;
        across = across * 0.5 + 0.1;
        along = along * 0.5 + -2;
    }
    expect(SUMMED, 1 + 3 * 1000, 0, sum);
    expect(POLYNOMIAL, 2 + 11 * 1000, 2, value);
    expect(DIVIDED, 1 + 5 * 1000, 0, rest);
    expect(ROOT, 1 + 12 * 1000, 0, root);
    expect(COMPARED, 4 * 1000 + 1, 0, 1.5);
    expect(POINTS, 2 + 5 * 1000, 0, across);
    expect(POINTS, 2 + 5 * 1000, 2, along);
    expect(RAISED, 6 * 1000 + 2, 0, 1);
}

static void long_rows(const long_loop *l)
{
    double best[SIDES];
    char name[80];
    for (uint32_t b = 50000; b <= 200000; b *= 2) {
        snprintf(name, sizeof name, "%s, %u steps", l->name, (unsigned)b);
        lend(l->file, l->n, 256, 256, 250, 1024);
        start_all(name);
        measure(RUN, b, YALGOVIM_SPENT, name, best);
        row(name, b, best, b > 50000);
    }
}

static void stroke_row(const long_loop *l)
{
    double best[SIDES];
    lend(l->file, l->n, 256, 256, 250, 1024);
    start_all(l->name);
    measure(RUN, 100, YALGOVIM_SPENT, l->name, best);
    row(l->name, 1000, best, false);
}

static void step_rows(void)
{
    double best[SIDES];
    char name[80];
    const size_t more = sizeof vector_loops / sizeof *vector_loops;
    title("steps: a long run", "ns/step");
    for (size_t i = 0; i < sizeof loops / sizeof *loops; i++)
        long_rows(&loops[i]);
    lend(loops[0].file, loops[0].n, 4096, 4096, 1280, 16384);
    start_all("greatest lists");
    measure(RUN, 200000, YALGOVIM_SPENT, "greatest lists", best);
    row("counting, 200000 steps, greatest lists", 200000, best, false);
    for (size_t i = 0; i < more; i++)
        long_rows(&vector_loops[i]);
    expect_reals();
    for (size_t i = 0; i < REAL_LOOPS; i++)
        long_rows(&real_loops[i]);
    title("a stroke: run with a budget of 100", "us/call");
    for (size_t i = 0; i < sizeof loops / sizeof *loops; i++)
        stroke_row(&loops[i]);
    for (size_t i = 0; i < 2; i++) {
        typical(typicals[i]);
        snprintf(name, sizeof name, "typical file, %zu bytes", n);
        lend(f, n, 256, 256, 250, 1024);
        start_all(name);
        for (int w = 0; w < SIDES; w++)
            need(call(w, RUN, 1000000), YALGOVIM_SPENT, name);
        measure(RUN, 100, YALGOVIM_SPENT, name, best);
        row(name, 1000, best, false);
    }
    for (size_t i = 0; i < more; i++)
        stroke_row(&vector_loops[i]);
    for (size_t i = 0; i < REAL_LOOPS; i++)
        stroke_row(&real_loops[i]);
}

/* ---- vectors made ---- */

/* The state that each call begins with, on an empty heap: right before 80 or 81, or after a start. */
static struct {
    uint32_t main[3];
    uint8_t regs[YALGOVIM_REGISTERS];
} fresh;

static void renew(memory *m)
{
    memset(m->heap, 0, m->heap_len * sizeof *m->heap);
    m->heap[0] = 2;
    memcpy(m->main, fresh.main, sizeof fresh.main);
    m->ptr[0] = 0;
    memcpy(m->regs, fresh.regs, sizeof fresh.regs);
}

static double time_fresh(int who, uint32_t budget, unsigned inner)
{
    double from = now();
    for (unsigned i = 0; i < inner; i++) {
        renew(&side[who]);
        call(who, RUN, budget);
    }
    return (now() - from) / inner;
}

/* As measure, the state renewed before each call; renewing is timed too, alike for all. */
static void measure_fresh(uint32_t budget, const char *name, double best[SIDES])
{
    unsigned inner = 1;
    for (int w = 0; w < SIDES; w++) {
        renew(&side[w]);
        need(call(w, RUN, budget), YALGOVIM_SPENT, name);
        best[w] = 1e30;
    }
    while (time_fresh(O2, budget, inner) * inner < 1e6)
        inner *= 2;
    for (unsigned t = 0; t < turns; t++)
        for (int w = 0; w < SIDES; w++) {
            double each = time_fresh(w, budget, inner);
            if (each < best[w])
                best[w] = each;
        }
}

/* A vector of `length` in a heap that it fits exactly, up to the instruction that makes it. */
static void before_making(uint8_t code, uint32_t length, const char *name)
{
    n = 0;
    BYTES(240, 0, 0, 0, 0, 3, 1, 54, 1, 56, 0, 0, (uint8_t)(length >> 8), (uint8_t)length);
    if (code == 80)
        BYTES(54, 7);
    else
        BYTES(57);
    BYTES(code, 3, 0, 3);
    lend(f, n, 4, 4, 5, 5 + (size_t)length);
    start_all(name);
    for (int w = 0; w < SIDES; w++)
        need(call(w, RUN, 3), YALGOVIM_SPENT, name);
    memcpy(fresh.main, side[O2].main, sizeof fresh.main);
    memcpy(fresh.regs, side[O2].regs, sizeof fresh.regs);
}

static const uint32_t lengths[] = { 16, 64, 256, 1024, 4096, 16000 };
enum { LENGTHS = sizeof lengths / sizeof *lengths };

/* The heap's audit grows with the vector too; the second table has the making alone. */
static void make_rows(void)
{
    static double making[2][LENGTHS][SIDES];
    double whole[SIDES], none[SIDES];
    char name[80];
    title("one vector made: run with a budget of 1", "us/call");
    for (uint8_t k = 0; k < 2; k++)
        for (size_t i = 0; i < LENGTHS; i++) {
            snprintf(name, sizeof name, "%d, %u elements", 80 + k, (unsigned)lengths[i]);
            before_making((uint8_t)(80 + k), lengths[i], name);
            measure_fresh(1, name, whole);
            measure_fresh(0, name, none);
            for (int w = 0; w < SIDES; w++)
                making[k][i][w] = whole[w] - none[w];
            row(name, 1000, whole, i > 0);
        }
    title("the same less a run with a budget of 0", "ns");
    for (uint8_t k = 0; k < 2; k++)
        for (size_t i = 0; i < LENGTHS; i++) {
            snprintf(name, sizeof name, "%d, %u elements", 80 + k, (unsigned)lengths[i]);
            row(name, 1, making[k][i], i > 0);
        }
}

/* Vectors made one after another till the heap is full, with three words pushed, the pointer dropped and a jump for each; less a run with a budget of 0. */
static void loop_rows(void)
{
    static const uint32_t few[] = { 0, 1, 4, 16, 64, 256 };
    double made[SIDES], none[SIDES];
    char name[80];
    title("vectors made in a loop of six steps", "ns/vector");
    for (size_t i = 0; i < sizeof few / sizeof *few; i++) {
        const uint32_t vectors = (16384 - 2) / (few[i] + 3);
        snprintf(name, sizeof name, "80, %u elements", (unsigned)few[i]);
        n = 0;
        BYTES(240, 0, 0, 0, 0, 3, 1, 54, 1, 56, 0, 0, (uint8_t)(few[i] >> 8), (uint8_t)few[i], 54, 7, 80, 64, 0, 0, 0, 1, 3, 0, 18);
        lend(f, n, 256, 256, 250, 16384);
        start_all(name);
        memset(fresh.main, 0, sizeof fresh.main);
        memcpy(fresh.regs, side[O2].regs, sizeof fresh.regs);
        measure_fresh(6 * vectors, name, made);
        measure_fresh(0, name, none);
        for (int w = 0; w < SIDES; w++)
            made[w] -= none[w];
        row(name, vectors, made, false);
    }
}

int main(int argc, char **argv)
{
    if (argc > 1)
        turns = (unsigned)strtoul(argv[1], NULL, 10);
    if (turns == 0)
        turns = 1;
    check_rows();
    audit_rows();
    sum_rows();
    step_rows();
    make_rows();
    loop_rows();
    return 0;
}
