/*
 * Tests of the reference. Every expectation is worked out by hand from
 * the rules; places stand in front of the instructions in the comments.
 */
#include "reference.h"

#include <inttypes.h>
#include <stdbool.h>
#include <stdio.h>
#include <stdlib.h>
#include <string.h>

enum { N = 65535, REG_BYTES = 36 };

static unsigned long checks, failures;

static void expect(bool ok, int line, const char *what)
{
    checks++;
    if (!ok) {
        failures++;
        if (failures <= 50)
            printf("line %d: not so: %s\n", line, what);
    }
}

#define EXPECT(cond) expect((cond), __LINE__, #cond)
#define BYTES(...) (const uint8_t[]){ __VA_ARGS__ }, sizeof((const uint8_t[]){ __VA_ARGS__ })

/* ---- lent lists, each allocated to its exact length ---- */

typedef struct {
    uint8_t *file;
    uint16_t *map;
    uint32_t *list[4]; /* main, pointer, control, heap */
    uint8_t *regs;
    size_t file_len, map_len, len[4], regs_len;
} rig;

enum { MAIN, PTR, CTL, HEAP, REGS };
enum { PLACE, FRAME, HANDLER, MTOP, PTOP, CTOP, STATE, SUM, SUM_OF_SUMS, REG_WORDS };

static void *take(size_t bytes)
{
    if (bytes == 0)
        return NULL;
    void *p = malloc(bytes);
    if (p == NULL)
        abort();
    return p;
}

/* Stacks, map and registers hold junk, the heap is empty. */
static rig rig_new(const uint8_t *file, size_t file_len, size_t map_len,
                   size_t m, size_t p, size_t c, size_t h, size_t regs_len)
{
    rig g;
    size_t len[4] = { m, p, c, h };
    g.file = take(file_len);
    g.file_len = file_len;
    if (file_len > 0)
        memcpy(g.file, file, file_len);
    g.map = take(map_len * 2);
    g.map_len = map_len;
    for (size_t i = 0; i < map_len; i++)
        g.map[i] = (uint16_t)(0xabcd + i);
    for (int l = 0; l < 4; l++) {
        g.len[l] = len[l];
        g.list[l] = take(len[l] * 4);
        for (size_t i = 0; i < len[l]; i++)
            g.list[l][i] = l == HEAP ? (i == 0 ? 2 : 0) : 0xdeadbe00u + (uint32_t)i;
    }
    g.regs = take(regs_len);
    g.regs_len = regs_len;
    for (size_t i = 0; i < regs_len; i++)
        g.regs[i] = (uint8_t)(0x5a + i);
    return g;
}

/* The bench program's lists. */
static rig bench_rig(const uint8_t *file, size_t file_len)
{
    return rig_new(file, file_len, 3 * 4096, 256, 256, 250, 1024, REG_BYTES);
}

static void rig_free(rig *g)
{
    free(g->file);
    free(g->map);
    for (int l = 0; l < 4; l++)
        free(g->list[l]);
    free(g->regs);
}

static void copy(void *to, const void *from, size_t bytes)
{
    if (bytes > 0)
        memcpy(to, from, bytes);
}

static bool same_bytes(const void *a, const void *b, size_t bytes)
{
    return bytes == 0 || memcmp(a, b, bytes) == 0;
}

/* The lists of g with another file; registers of another length are cut, or have junk behind. */
static rig relend(const rig *g, const uint8_t *file, size_t file_len, size_t regs_len)
{
    rig c = rig_new(file, file_len, g->map_len, g->len[MAIN], g->len[PTR],
                    g->len[CTL], g->len[HEAP], regs_len);
    copy(c.map, g->map, g->map_len * 2);
    for (int l = 0; l < 4; l++)
        copy(c.list[l], g->list[l], g->len[l] * 4);
    copy(c.regs, g->regs, regs_len < g->regs_len ? regs_len : g->regs_len);
    return c;
}

static rig rig_copy(const rig *g)
{
    return relend(g, g->file, g->file_len, g->regs_len);
}

static bool same_map(const rig *a, const rig *b)
{
    return a->map_len == b->map_len && same_bytes(a->map, b->map, a->map_len * 2);
}

/* All but the map. */
static bool same_state(const rig *a, const rig *b)
{
    for (int l = 0; l < 4; l++)
        if (a->len[l] != b->len[l] || !same_bytes(a->list[l], b->list[l], a->len[l] * 4))
            return false;
    return a->file_len == b->file_len && same_bytes(a->file, b->file, a->file_len)
        && a->regs_len == b->regs_len && same_bytes(a->regs, b->regs, a->regs_len);
}

static bool same_rig(const rig *a, const rig *b)
{
    return same_map(a, b) && same_state(a, b);
}

static uint32_t reg_of(const rig *g, size_t i)
{
    const uint8_t *b = g->regs + 4 * i;
    return b[0] * 16777216u + b[1] * 65536u + b[2] * 256u + b[3];
}

static void set_reg(rig *g, size_t i, uint32_t v)
{
    for (size_t k = 0; k < 4; k++)
        g->regs[4 * i + k] = (uint8_t)(v >> (24 - 8 * k));
}

/*
 * The file's sums (order 3), another way: byte i is in the sums after bytes i
 * to length - 1, so it is length - i times in the sum of sums.
 */
static void sums_by_weight(const rig *g, uint64_t *sum, uint64_t *sum_of_sums)
{
    *sum = *sum_of_sums = 0;
    for (size_t i = 0; i < g->file_len; i++) {
        *sum += g->file[i];
        *sum_of_sums += (uint64_t)g->file[i] * (g->file_len - i);
    }
}

static void put_sums(rig *g)
{
    uint64_t sum, sum_of_sums;
    sums_by_weight(g, &sum, &sum_of_sums);
    set_reg(g, SUM, (uint32_t)sum);
    set_reg(g, SUM_OF_SUMS, (uint32_t)sum_of_sums);
}

static bool has_sums(const rig *g)
{
    uint64_t sum, sum_of_sums;
    sums_by_weight(g, &sum, &sum_of_sums);
    return reg_of(g, SUM) == sum && reg_of(g, SUM_OF_SUMS) == sum_of_sums;
}

static uint32_t word_of(const rig *g, int list, size_t i)
{
    return list == REGS ? reg_of(g, i) : g->list[list][i];
}

static void set_word(rig *g, int list, size_t i, uint32_t v)
{
    if (list == REGS)
        set_reg(g, i, v);
    else
        g->list[list][i] = v;
}

static ref_reply do_check(rig *g)
{
    return ref_check(g->file, g->file_len, g->map, g->map_len);
}

static ref_reply do_start(rig *g)
{
    return ref_start(g->file, g->file_len, g->map, g->map_len,
                     g->list[MAIN], g->len[MAIN], g->list[PTR], g->len[PTR],
                     g->list[CTL], g->len[CTL], g->list[HEAP], g->len[HEAP],
                     g->regs, g->regs_len);
}

static ref_reply do_run(rig *g, uint32_t budget)
{
    return ref_run(g->file, g->file_len, g->map, g->map_len,
                   g->list[MAIN], g->len[MAIN], g->list[PTR], g->len[PTR],
                   g->list[CTL], g->len[CTL], g->list[HEAP], g->len[HEAP],
                   g->regs, g->regs_len, budget);
}

static bool is(ref_reply r, uint32_t kind, uint32_t number, uint32_t place, uint32_t steps)
{
    return r.kind == kind && r.number == number && r.place == place && r.steps == steps;
}

static bool is_refused(ref_reply r, uint32_t number, uint32_t place)
{
    return is(r, REF_REFUSED, number, place, 0);
}

/* ---- the bench line ---- */

static int32_t signed_of(uint32_t w)
{
    return w < 0x80000000u ? (int32_t)w : -(int32_t)(0xffffffffu - w) - 1;
}

/* What run leaves is sound, with the file's sums, and a run of no step leaves it alone. */
static void expect_sound(int line, const rig *g)
{
    rig again = rig_copy(g);
    expect(has_sums(g), line, "run keeps the sums");
    uint32_t kind = reg_of(g, STATE) == 1 ? REF_FINISHED : REF_SPENT;
    expect(is(do_run(&again, 0), kind, 0, 0, 0), line, "run leaves a sound state");
    expect(same_rig(&again, g), line, "no step changes nothing");
    rig_free(&again);
}

static void bench_line(const uint8_t *file, size_t file_len, char *out)
{
    rig g = bench_rig(file, file_len);
    ref_reply r = do_start(&g);
    if (r.kind == REF_READY) {
        r = do_run(&g, 1000);
        expect_sound(__LINE__, &g);
    }
    if (r.kind == REF_REFUSED) {
        sprintf(out, "refused %" PRIu32 " at %" PRIu32, r.number, r.place);
    } else {
        if (r.kind == REF_FINISHED)
            out += sprintf(out, "finished");
        else if (r.kind == REF_SPENT)
            out += sprintf(out, "spent");
        else
            out += sprintf(out, "uncaught %" PRId32 " at %" PRIu32,
                           signed_of(r.number), r.place);
        out += sprintf(out, " steps=%" PRIu32 " main=", r.steps);
        for (uint32_t i = 0; i < reg_of(&g, MTOP); i++)
            out += sprintf(out, i == 0 ? "%" PRId32 : ",%" PRId32,
                           signed_of(g.list[MAIN][i]));
    }
    rig_free(&g);
}

static void expect_bench(int line, const char *want, const uint8_t *file, size_t file_len)
{
    static char got[8192];
    bench_line(file, file_len, got);
    bool ok = strcmp(got, want) == 0;
    expect(ok, line, want);
    if (!ok)
        printf("    got: %s\n", got);
}

#define BENCH(want, ...) expect_bench(__LINE__, want, BYTES(__VA_ARGS__))

/* ---- refusals 1 to 9 by all three calls, and what they write ---- */

/* The registers hold junk: in run 13 is behind each of these. */
static void refusal_with(int line, uint32_t number, uint32_t place,
                         const uint8_t *file, size_t file_len, size_t map_len, size_t regs_len)
{
    for (int call = 0; call < 3; call++) {
        rig g = rig_new(file, file_len, map_len, 9, 9, 9, 9, regs_len);
        rig before = rig_copy(&g);
        ref_reply r = call == 0 ? do_check(&g) : call == 1 ? do_start(&g) : do_run(&g, 7);
        bool ok = is_refused(r, number, place);
        expect(ok, line, "refusal");
        if (!ok)
            printf("    got: kind %" PRIu32 " number %" PRIu32 " place %" PRIu32 "\n",
                   r.kind, r.number, r.place);
        if (number >= 3)
            for (size_t i = 0; i < 3 * file_len; i++)
                before.map[i] = N;
        expect(same_rig(&g, &before), line, "a refusal writes the map's first numbers alone");
        rig_free(&g);
        rig_free(&before);
    }
}

static void expect_refusal(int line, uint32_t number, uint32_t place,
                           const uint8_t *file, size_t file_len)
{
    refusal_with(line, number, place, file, file_len, 3 * file_len + 4, REG_BYTES);
}

#define REFUSAL(number, place, ...) \
    expect_refusal(__LINE__, number, place, BYTES(__VA_ARGS__))

/* ---- passed, with the whole map ---- */

typedef struct {
    uint16_t place, m, p, h;
} entry;

static void expect_map(int line, const entry *want, size_t entries,
                       const uint8_t *file, size_t file_len)
{
    rig g = rig_new(file, file_len, 3 * file_len + 2, 0, 0, 0, 0, 0);
    rig before = rig_copy(&g);
    ref_reply r = do_check(&g);
    bool ok = is(r, REF_PASSED, 0, 0, 0);
    expect(ok, line, "passed");
    if (!ok)
        printf("    got: kind %" PRIu32 " number %" PRIu32 " place %" PRIu32 "\n",
               r.kind, r.number, r.place);
    for (size_t i = 0; i < 3 * file_len; i++)
        before.map[i] = N;
    for (size_t i = 0; i < entries; i++) {
        before.map[3 * want[i].place] = want[i].m;
        before.map[3 * want[i].place + 1] = want[i].p;
        before.map[3 * want[i].place + 2] = want[i].h;
    }
    expect(same_rig(&g, &before), line, "the map");
    rig_free(&g);
    rig_free(&before);
}

#define MAP(entries, ...) \
    expect_map(__LINE__, entries, sizeof(entries) / sizeof((entries)[0]), BYTES(__VA_ARGS__))

static void expect_passes(int line, const uint8_t *file, size_t file_len)
{
    rig g = rig_new(file, file_len, 3 * file_len, 0, 0, 0, 0, 0);
    ref_reply r = do_check(&g);
    bool ok = is(r, REF_PASSED, 0, 0, 0);
    expect(ok, line, "passed");
    if (!ok)
        printf("    got: kind %" PRIu32 " number %" PRIu32 " place %" PRIu32 "\n",
               r.kind, r.number, r.place);
    rig_free(&g);
}

#define PASSES(...) expect_passes(__LINE__, BYTES(__VA_ARGS__))

/* ---- the bench samples ---- */

#define A_FILE 240, 0, 0, 1, 0, 2, 0, 54, 5, 54, 3, 142, 73
#define B_FILE 240, 0, 0, 1, 0, 2, 0, 160, 0, 17, 54, 9, 54, 0, 143, 161, 73, 73
#define B3_FILE 240, 0, 0, 1, 0, 2, 0, 160, 0, 17, 54, 9, 54, 3, 143, 161, 73, 73
#define HEAD0 240, 0, 0, 0, 0, 0, 0

static void test_samples(void)
{
    /* A: 7 54 5; 9 54 3; 11 142; 12 73 */
    entry a_map[] = { { 7, 0, 0, N }, { 9, 1, 0, N }, { 11, 2, 0, N }, { 12, 1, 0, N } };
    MAP(a_map, A_FILE);
    BENCH("finished steps=4 main=2", A_FILE);

    /* B: 7 160 -> 17; 10 54 9; 12 54 0; 14 143; 15 161; 16 73; 17 73 */
    entry b_map[] = { { 7, 0, 0, N }, { 10, 0, 0, 7 }, { 12, 1, 0, 7 }, { 14, 2, 0, 7 },
                      { 15, 1, 0, 7 }, { 16, 1, 0, N }, { 17, 1, 0, N } };
    MAP(b_map, B_FILE);
    BENCH("finished steps=5 main=1", B_FILE);
    BENCH("finished steps=6 main=3", B3_FILE);

    BENCH("spent steps=1000 main=", HEAD0, 3, 0, 3);
    BENCH("uncaught 1 at 11 steps=2 main=5,0",
          240, 0, 0, 1, 0, 2, 0, 54, 5, 54, 0, 143, 73);
    BENCH("refused 7 at 7", 240, 0, 0, 0, 0, 1, 0, 142, 73);

    /* -7 is byte 249 */
    BENCH("finished steps=4 main=-3", 240, 0, 0, 1, 0, 2, 0, 54, 249, 54, 2, 143, 73);
    BENCH("finished steps=4 main=-1", 240, 0, 0, 1, 0, 2, 0, 54, 249, 54, 2, 145, 73);
    /* 7 56 -2^31; 12 144 */
    BENCH("uncaught 1 at 12 steps=1 main=-2147483648",
          240, 0, 0, 1, 0, 1, 0, 56, 128, 0, 0, 0, 144, 73);
    BENCH("finished steps=3 main=2147483647",
          240, 0, 0, 1, 0, 1, 0, 56, 128, 0, 0, 1, 144, 73);

    /* Endless recursion: 250 control words are 50 records, the first frame's
       and 49 calls. */
    BENCH("uncaught 5 at 7 steps=49 main=", HEAD0, 72, 0, 0, 73);

    /* A map of 39 and a main stack of 2 suffice. */
    {
        rig g = rig_new(BYTES(A_FILE), 39, 2, 1, 5, 2, REG_BYTES);
        EXPECT(is(do_check(&g), REF_PASSED, 0, 0, 0));
        EXPECT(is(do_start(&g), REF_READY, 0, 0, 0));
        EXPECT(is(do_run(&g, 4), REF_FINISHED, 0, 0, 4));
        EXPECT(g.list[MAIN][0] == 2 && g.list[MAIN][1] == 0);
        rig_free(&g);
    }
    /* Rows 1 to 9 as printed. */
    {
        char got[64];
        bench_line(NULL, 0, got);
        EXPECT(strcmp(got, "refused 1 at 0") == 0);
    }
    BENCH("refused 3 at 0", 240, 0, 0);
    BENCH("refused 4 at 0", 240, 1, 0, 0, 0, 1, 0, 73);
    BENCH("refused 5 at 7", 240, 0, 0, 0, 0, 0, 0, 72, 0, 1, 73);
    BENCH("refused 6 at 7", 240, 0, 0, 0, 0, 1, 0, 54, 1);
    BENCH("refused 8 at 7", 240, 0, 0, 1, 0, 1, 0, 73);
    BENCH("refused 9 at 9", 240, 0, 0, 0, 0, 1, 0, 54, 1, 3, 0, 5);
}

/* ---- start: what it writes ---- */

static void test_start(void)
{
    rig g = rig_new(BYTES(A_FILE), 45, 6, 4, 12, 8, REG_BYTES);
    /* an object of one pointer word to itself, and the root */
    uint32_t heap[8] = { 5, 2, 0x01000001, 3, 2, 0, 0, 0 };
    memcpy(g.list[HEAP], heap, sizeof heap);
    EXPECT(is(do_start(&g), REF_READY, 0, 0, 0));
    /* behind the seven registers the sums 574 = 2 * 256 + 62, 4,077 = 15 * 256 + 237 */
    const uint8_t regs[REG_BYTES] = { 0, 0, 0, 7, 0, 0, 0, 1, 0, 0, 0, 0, 0, 0, 0, 0, 0, 0,
                                      0, 0, 0, 0, 0, 5, 0, 0, 0, 0, 0, 0, 2, 62, 0, 0, 15, 237 };
    EXPECT(memcmp(g.regs, regs, REG_BYTES) == 0);
    for (int l = MAIN; l <= CTL; l++)
        for (size_t i = 0; i < g.len[l]; i++)
            EXPECT(g.list[l][i] == 0);
    EXPECT(memcmp(g.list[HEAP], heap, sizeof heap) == 0);
    EXPECT(g.map[3 * 9] == 1 && g.map[3 * 11] == 2 && g.map[38] == N && g.map[36] == 1);
    EXPECT(g.map[39] == (uint16_t)(0xabcd + 39) && g.map[44] == (uint16_t)(0xabcd + 44));

    EXPECT(is(do_run(&g, 3), REF_SPENT, 0, 0, 3));
    EXPECT(reg_of(&g, PLACE) == 12 && reg_of(&g, FRAME) == 1 && reg_of(&g, HANDLER) == 0);
    EXPECT(reg_of(&g, MTOP) == 1 && reg_of(&g, PTOP) == 0 && reg_of(&g, CTOP) == 5);
    EXPECT(reg_of(&g, STATE) == 0);
    EXPECT(g.list[MAIN][0] == 2 && g.list[MAIN][1] == 0);
    EXPECT(is(do_run(&g, 0), REF_SPENT, 0, 0, 0));
    EXPECT(is(do_run(&g, 9), REF_FINISHED, 0, 0, 1));
    const uint8_t done[REG_BYTES] = { 0, 0, 0, 0, 0, 0, 0, 0, 0, 0, 0, 0, 0, 0, 0, 1, 0, 0,
                                      0, 0, 0, 0, 0, 0, 0, 0, 0, 1, 0, 0, 2, 62, 0, 0, 15, 237 };
    EXPECT(memcmp(g.regs, done, REG_BYTES) == 0);
    EXPECT(is(do_run(&g, 0), REF_FINISHED, 0, 0, 0));
    EXPECT(is(do_run(&g, 4294967295u), REF_FINISHED, 0, 0, 0));
    EXPECT(memcmp(g.regs, done, REG_BYTES) == 0);
    rig_free(&g);

    /* A place above 255: 100 times fjump 0 from 7, so 307 = 1 * 256 + 51. */
    uint8_t file[308] = { HEAD0 };
    for (size_t i = 0; i < 100; i++)
        file[7 + 3 * i] = 1;
    file[307] = 73;
    g = bench_rig(file, sizeof file);
    EXPECT(is(do_start(&g), REF_READY, 0, 0, 0));
    EXPECT(is(do_run(&g, 100), REF_SPENT, 0, 0, 100));
    EXPECT(g.regs[0] == 0 && g.regs[1] == 0 && g.regs[2] == 1 && g.regs[3] == 51);
    EXPECT(is(do_run(&g, 4294967295u), REF_FINISHED, 0, 0, 1));
    rig_free(&g);
}

/* ---- refusals 1 to 4 ---- */

/* Body lengths by kind; -1 is unknown. */
static int body_of(int kind)
{
    static const int none[] = { 57, 58, 59, 73, 80, 81, 82, 83, 84, 85, 130, 131, 140, 141, 142,
                                143, 144, 145, 146, 150, 151, 152, 153, 155, 156, 161, 162, 195,
                                198, 201, 204 };
    static const int two[] = { 1, 2, 3, 4, 5, 6, 20, 21, 22, 23, 30, 31, 32, 33, 72, 160 };
    static const int four[] = { 36, 56, 60, 62, 64 };
    for (size_t i = 0; i < sizeof none / sizeof none[0]; i++)
        if (none[i] == kind)
            return 0;
    for (size_t i = 0; i < sizeof two / sizeof two[0]; i++)
        if (two[i] == kind)
            return 2;
    for (size_t i = 0; i < sizeof four / sizeof four[0]; i++)
        if (four[i] == kind)
            return 4;
    return kind == 54 ? 1 : kind == 240 ? 6 : kind == 53 ? 8 : -1;
}

static void test_file(void)
{
    static uint8_t big[4097] = { HEAD0 };

    /* 1 */
    expect_refusal(__LINE__, 1, 0, NULL, 0);
    for (size_t i = 7; i + 3 <= 4096; i += 3)
        big[i] = 1; /* fjump 0 */
    expect_refusal(__LINE__, 1, 0, big, 4097);
    EXPECT(is_refused(ref_check(big, 4097, NULL, 0), 1, 0));
    EXPECT(is_refused(ref_check(NULL, 0, NULL, 0), 1, 0));
    {
        char got[64];
        bench_line(big, 4097, got);
        EXPECT(strcmp(got, "refused 1 at 0") == 0);
    }
    /* 4,096 bytes: 1,362 fjumps from 7, then bjump 3 at 4,093 */
    big[4093] = 3;
    big[4095] = 3;
    expect_passes(__LINE__, big, 4096);
    {
        rig g = bench_rig(big, 4096);
        EXPECT(is(do_start(&g), REF_READY, 0, 0, 0));
        EXPECT(is(do_run(&g, 100000), REF_SPENT, 0, 0, 100000));
        EXPECT(reg_of(&g, PLACE) == 4093);
        rig_free(&g);
    }
    big[4093] = 1;
    big[4095] = 0; /* fjump 0 to 4,096 */
    expect_refusal(__LINE__, 5, 4093, big, 4096);
    big[4093] = 20; /* passes its state on to 4,096 */
    expect_refusal(__LINE__, 6, 4093, big, 4096);

    /* 2 */
    for (size_t map_len = 0; map_len <= 39; map_len++) {
        rig g = rig_new(BYTES(A_FILE), map_len, 2, 1, 5, 2, REG_BYTES);
        rig before = rig_copy(&g);
        if (map_len < 39) {
            EXPECT(is_refused(do_check(&g), 2, 0));
            EXPECT(is_refused(do_start(&g), 2, 0));
            EXPECT(is_refused(do_run(&g, 1), 2, 0));
            EXPECT(same_rig(&g, &before));
        } else {
            EXPECT(is(do_check(&g), REF_PASSED, 0, 0, 0));
        }
        rig_free(&g);
        rig_free(&before);
    }
    EXPECT(is_refused(ref_check((const uint8_t[]){ 99 }, 1, NULL, 0), 2, 0));

    /* 3 */
    REFUSAL(3, 0, 240, 0, 0);
    REFUSAL(3, 0, 73);
    REFUSAL(3, 0, 73, 99);
    REFUSAL(3, 0, 54, 1, 240);
    REFUSAL(3, 7, HEAD0, 0);
    REFUSAL(3, 7, HEAD0, 61, 0, 0, 0, 0, 73);
    REFUSAL(3, 7, HEAD0, 63, 0, 0, 0, 0, 73);
    REFUSAL(3, 7, HEAD0, 241, 0, 73);
    REFUSAL(3, 8, HEAD0, 73, 240, 0, 0, 0, 0, 0);
    /* nothing behind an unknown kind is looked at, the first one counts */
    REFUSAL(3, 8, HEAD0, 73, 7, 8);
    /* 3 anywhere beats 4 anywhere */
    REFUSAL(3, 8, 240, 1, 0, 0, 0, 1, 0, 73, 99);
    REFUSAL(3, 10, HEAD0, 72, 0, 9, 1, 0);
    for (int kind = 0; kind < 256; kind++) {
        uint8_t file[7 + 9] = { HEAD0, 0 };
        int body = body_of(kind);
        file[7] = (uint8_t)kind;
        if (body < 0) {
            for (size_t more = 0; more <= 6; more += 3)
                expect_refusal(__LINE__, 3, 7, file, 8 + more);
            continue;
        }
        for (int have = 0; have < body; have++)
            expect_refusal(__LINE__, 3, 7, file, 8 + (size_t)have);
        rig g = rig_new(file, 8 + (size_t)body, 64, 0, 0, 0, 0, 0);
        EXPECT(do_check(&g).number != 3);
        rig_free(&g);
    }

    /* 4 */
    REFUSAL(4, 0, 240, 1, 0, 0, 0, 1, 0, 73);
    REFUSAL(4, 0, 240, 0, 1, 0, 0, 0, 1, 73);
    REFUSAL(4, 0, 240, 0, 0, 1, 0, 0, 0, 73);
    REFUSAL(4, 0, 240, 0, 0, 0, 1, 0, 0, 73);
    REFUSAL(4, 0, HEAD0);
    REFUSAL(4, 0, HEAD0, HEAD0, 73);
    REFUSAL(4, 8, HEAD0, 73, HEAD0);
    REFUSAL(4, 8, HEAD0, 73, 240, 2, 0, 0, 0, 1, 0, 73);
    REFUSAL(4, 8, HEAD0, 73, 240, 0, 2, 0, 0, 0, 1, 73);
    REFUSAL(4, 8, HEAD0, 73, 240, 0, 0, 2, 0, 1, 0, 73);
    REFUSAL(4, 8, HEAD0, 73, 240, 0, 0, 0, 2, 0, 1, 73);
    PASSES(HEAD0, 73, 240, 1, 1, 1, 1, 1, 1, 73);
    /* 4 anywhere beats 5 anywhere */
    REFUSAL(4, 11, HEAD0, 72, 0, 9, 73, 240, 0, 0, 1, 0, 0, 0, 73);
    /* 64 procedures pass, the 65th head lies at 64 * 8 = 512 */
    uint8_t procs[65 * 8];
    for (size_t i = 0; i < 65; i++)
        memcpy(procs + 8 * i, (const uint8_t[]){ HEAD0, 73 }, 8);
    expect_passes(__LINE__, procs, 64 * 8);
    expect_refusal(__LINE__, 4, 512, procs, 65 * 8);
    procs[8 * 20 + 1] = 1; /* a above x in head 20 comes first */
    expect_refusal(__LINE__, 4, 160, procs, 65 * 8);
    procs[8 * 20 + 1] = 0;
    /* procedure 63 can be called, 64 can't: 7 72 0 63; 10 73 */
    uint8_t calls[11 + 63 * 8];
    memcpy(calls, (const uint8_t[]){ HEAD0, 72, 0, 63, 73 }, 11);
    memcpy(calls + 11, procs, 63 * 8);
    expect_passes(__LINE__, calls, sizeof calls);
    expect_bench(__LINE__, "finished steps=3 main=", calls, sizeof calls);
    calls[9] = 64;
    expect_refusal(__LINE__, 5, 7, calls, sizeof calls);
}

/* ---- refusals 5, 6, 8, 9 ---- */

static void test_flow(void)
{
    /* 5: no such procedure */
    REFUSAL(5, 7, HEAD0, 72, 0, 1, 73);
    REFUSAL(5, 7, HEAD0, 72, 1, 0, 73);
    REFUSAL(5, 7, HEAD0, 72, 255, 255, 73);
    /* 5: forwards from 7, after the operand is 10, 73 at 10, the end at 11 */
    PASSES(HEAD0, 1, 0, 0, 73);
    REFUSAL(5, 7, HEAD0, 1, 0, 1, 73);
    REFUSAL(5, 7, HEAD0, 1, 0, 2, 73);
    REFUSAL(5, 7, HEAD0, 1, 255, 255, 73);
    /* 5: backwards: 10 - s; 7 is itself, 8 and 9 operand bytes, 0 the head,
       1 to 6 its body, -1 before the file */
    PASSES(HEAD0, 3, 0, 0, 73);
    REFUSAL(5, 7, HEAD0, 3, 0, 1, 73);
    REFUSAL(5, 7, HEAD0, 3, 0, 2, 73);
    REFUSAL(6, 10, HEAD0, 3, 0, 3, 73); /* 7 passes, 10 is unreached */
    PASSES(HEAD0, 3, 0, 3);
    REFUSAL(5, 7, HEAD0, 3, 0, 4, 73);
    REFUSAL(5, 7, HEAD0, 3, 0, 9, 73);
    REFUSAL(5, 7, HEAD0, 3, 0, 10, 73);
    REFUSAL(5, 7, HEAD0, 3, 0, 11, 73);
    REFUSAL(5, 7, HEAD0, 3, 1, 3, 73);
    REFUSAL(5, 7, HEAD0, 3, 255, 255, 73);
    /* 5: the other jumps; 7 54 0; 9 jump; 12 73 or the like */
    static const uint8_t forwards[] = { 2, 5, 6 };
    for (size_t i = 0; i < sizeof forwards; i++) {
        uint8_t f[] = { 240, 0, 0, 0, 0, 1, 0, 54, 0, forwards[i], 0, 1, 73 };
        expect_refusal(__LINE__, 5, 9, f, sizeof f); /* 13, the end */
        f[10] = 255;
        f[11] = 251; /* 12 + 65,531 = 65,543, 7 if it wrapped */
        expect_refusal(__LINE__, 5, 9, f, sizeof f);
    }
    REFUSAL(5, 9, 240, 0, 0, 0, 0, 1, 0, 54, 0, 4, 0, 4, 73); /* 8, operand */
    REFUSAL(5, 9, 240, 0, 0, 0, 0, 1, 0, 54, 0, 4, 0, 12, 73);
    REFUSAL(5, 9, 240, 0, 0, 0, 0, 1, 0, 54, 0, 4, 0, 13, 73);
    PASSES(240, 0, 0, 0, 0, 1, 0, 54, 0, 4, 0, 5, 73); /* 7 again, depth 0 */
    PASSES(240, 0, 0, 0, 0, 1, 0, 54, 0, 2, 0, 0, 73);
    PASSES(240, 0, 0, 0, 0, 1, 0, 54, 0, 4, 0, 0, 73);
    /* 5: another procedure's instruction; 11 head, 18 73 */
    REFUSAL(5, 7, HEAD0, 1, 0, 8, 73, HEAD0, 73);
    REFUSAL(5, 7, HEAD0, 1, 0, 1, 73, HEAD0, 73); /* 11, a head */
    REFUSAL(5, 15, HEAD0, 73, HEAD0, 3, 0, 11, 73); /* 18 - 11 = 7 */
    /* 5: a handler's target counts from its head and lies above its 160 */
    REFUSAL(5, 7, 240, 0, 0, 0, 0, 1, 0, 160, 0, 7, 161, 73);
    REFUSAL(5, 7, 240, 0, 0, 0, 0, 1, 0, 160, 0, 9, 161, 73);
    REFUSAL(5, 7, 240, 0, 0, 0, 0, 1, 0, 160, 0, 0, 161, 73);
    REFUSAL(5, 7, 240, 0, 0, 0, 0, 1, 0, 160, 0, 12, 161, 73); /* the end */
    REFUSAL(5, 7, 240, 0, 0, 0, 0, 1, 0, 160, 255, 255, 161, 73);
    /* 7 fjump 0; 10 160 -> 7, an instruction below it */
    REFUSAL(5, 10, 240, 0, 0, 0, 0, 1, 0, 1, 0, 0, 160, 0, 7, 161, 73);
    /* 7 160 -> 19 in procedure 1 (12 head, 19 73) */
    REFUSAL(5, 7, 240, 0, 0, 0, 0, 1, 0, 160, 0, 19, 161, 73, HEAD0, 73);
    /* head at 8: 15 160 + 12 -> 20; 18 161; 19 73; 20 64 1 0; 25 73 */
    entry handler_map[] = { { 7, 0, 0, N }, { 15, 0, 0, N }, { 18, 0, 0, 15 },
                            { 19, 0, 0, N }, { 20, 1, 0, N }, { 25, 0, 0, N } };
    MAP(handler_map, HEAD0, 73, 240, 0, 0, 0, 0, 1, 0, 160, 0, 12, 161, 73,
        64, 0, 1, 0, 0, 73);
    /* 5 needs no state, and comes before 6 */
    REFUSAL(5, 8, HEAD0, 73, 72, 0, 9, 73);
    REFUSAL(5, 8, HEAD0, 73, 1, 0, 9, 73);
    /* a 9 at an earlier instruction beats a 5 at a later one */
    REFUSAL(9, 9, 240, 0, 0, 0, 0, 1, 0, 54, 1, 3, 0, 5, 72, 0, 9);
    REFUSAL(6, 8, HEAD0, 73, 73, 72, 0, 9);

    /* 6: unreached */
    REFUSAL(6, 8, HEAD0, 73, 73);
    REFUSAL(6, 10, 240, 0, 0, 0, 0, 1, 0, 54, 1, 162, 73);
    /* 7 -> 13; 10 only by the later 13 -> 10 */
    REFUSAL(6, 10, HEAD0, 1, 0, 3, 1, 0, 3, 3, 0, 6, 73);
    /* 6: past the procedure, by kind alone */
    REFUSAL(6, 7, 240, 0, 0, 0, 0, 1, 0, 54, 1);
    REFUSAL(6, 7, 240, 0, 0, 0, 0, 1, 0, 140);
    REFUSAL(6, 7, HEAD0, 161);
    REFUSAL(6, 7, HEAD0, 72, 0, 0);
    REFUSAL(6, 7, HEAD0, 20, 0, 0);
    REFUSAL(6, 9, 240, 0, 0, 0, 0, 1, 0, 54, 0, 4, 0, 5);
    REFUSAL(6, 7, 240, 0, 0, 0, 0, 1, 0, 54, 1, HEAD0, 73);
    PASSES(240, 0, 0, 0, 0, 1, 0, 54, 1, 162);
    /* 6: procedures that nobody calls are checked all the same */
    REFUSAL(6, 16, HEAD0, 73, HEAD0, 73, 73);
    REFUSAL(7, 15, HEAD0, 73, 240, 0, 0, 0, 0, 1, 0, 142, 73);

    /* 8: the return's rule */
    REFUSAL(8, 7, 240, 0, 0, 1, 0, 1, 0, 73);
    REFUSAL(8, 7, 240, 0, 0, 0, 1, 0, 1, 73);
    REFUSAL(8, 9, 240, 0, 0, 0, 0, 1, 0, 54, 1, 73);
    REFUSAL(8, 8, 240, 0, 0, 0, 0, 0, 1, 57, 73);
    REFUSAL(8, 15, HEAD0, 73, 240, 1, 0, 0, 0, 1, 0, 73);
    /* 7 160 -> 11; 10 73 with it open; 11 64 1 0; 16 73 */
    REFUSAL(8, 10, 240, 0, 0, 0, 0, 1, 0, 160, 0, 11, 73, 64, 0, 1, 0, 0, 73);
    /* 8: 161 with none open */
    REFUSAL(8, 7, HEAD0, 161, 73);
    /* 7 160 -> 12; 10 161; 11 161; 12 ... */
    REFUSAL(8, 11, 240, 0, 0, 0, 0, 1, 0, 160, 0, 12, 161, 161, 73);
    /* 7 160 -> 12; 10 161; 11 73; 12 161: its handler is closed there */
    REFUSAL(8, 12, 240, 0, 0, 0, 0, 1, 0, 160, 0, 12, 161, 73, 161, 73);

    /* 9: depths */
    REFUSAL(9, 9, 240, 0, 0, 0, 0, 1, 0, 54, 1, 3, 0, 5);
    REFUSAL(9, 8, 240, 0, 0, 0, 0, 0, 1, 57, 3, 0, 4);
    /* jumpff 0 and jumptt 0: 12 gets depth 0 and depth 1 */
    REFUSAL(9, 9, 240, 0, 0, 0, 0, 1, 0, 54, 1, 5, 0, 0, 73);
    REFUSAL(9, 9, 240, 0, 0, 0, 0, 1, 0, 54, 1, 6, 0, 0, 73);
    /* 160 with its target right behind: (0, 0, 7) and (1, 0, none) */
    REFUSAL(9, 7, 240, 0, 0, 0, 0, 1, 0, 160, 0, 10, 161, 73);
    /* 9: the third number; 7 54 0; 9 jumpf -> 15; 12 160 -> 17; 15 161 */
    REFUSAL(9, 12, 240, 0, 0, 0, 0, 1, 0, 54, 0, 2, 0, 3, 160, 0, 17, 161, 73, 73);
    /* 7 fjump 0; 10 160 -> 16; 13 bjump 6 -> 10 with it open */
    REFUSAL(9, 13, 240, 0, 0, 0, 0, 1, 0, 1, 0, 0, 160, 0, 16, 3, 0, 6, 73);
    /* 9: the place is the instruction that passes the state:
       7 54 0; 9 jumpf -> 17; 12 54 1; 14 1 -> 17 with depth 1 */
    REFUSAL(9, 14, 240, 0, 0, 0, 0, 1, 0, 54, 0, 2, 0, 5, 54, 1, 1, 0, 0, 73);

    /* a loop in an open handler: 7 160 -> 16; 10 fjump 0; 13 bjump 3; 16 ... */
    PASSES(240, 0, 0, 0, 0, 1, 0, 160, 0, 16, 1, 0, 0, 3, 0, 3, 64, 0, 1, 0, 0, 73);
}

/* ---- refusal 7: floor, depths, frame words ---- */

/*
 * need: least depths; pops: words that count as popped; after: the depths
 * after, from need. Procedure 2 has a 1, b 2, r 3, s 1.
 */
typedef struct {
    uint8_t code[9];
    uint8_t size;
    uint8_t need_m, need_p, pop_m, pop_p, after_m, after_p;
} depth_row;

static const depth_row depth_rows[] = {
    { { 2, 0, 0 }, 3, 1, 0, 1, 0, 0, 0 },
    { { 4, 0, 0 }, 3, 1, 0, 1, 0, 0, 0 },
    { { 1, 0, 0 }, 3, 0, 0, 0, 0, 0, 0 },
    { { 3, 0, 0 }, 3, 0, 0, 0, 0, 0, 0 },
    { { 20, 0, 0 }, 3, 1, 0, 0, 0, 2, 0 },
    { { 20, 0, 2 }, 3, 3, 0, 0, 0, 4, 0 },
    { { 21, 0, 0 }, 3, 0, 1, 0, 0, 0, 2 },
    { { 21, 0, 2 }, 3, 0, 3, 0, 0, 0, 4 },
    { { 22, 0, 0 }, 3, 2, 0, 1, 0, 1, 0 },
    { { 22, 0, 2 }, 3, 4, 0, 1, 0, 3, 0 },
    { { 23, 0, 0 }, 3, 0, 2, 0, 1, 0, 1 },
    { { 23, 0, 2 }, 3, 0, 4, 0, 1, 0, 3 },
    { { 30, 0, 2 }, 3, 0, 1, 0, 1, 1, 0 },
    { { 31, 0, 2 }, 3, 0, 1, 0, 1, 0, 1 },
    { { 32, 0, 2 }, 3, 1, 1, 1, 1, 0, 0 },
    { { 33, 0, 2 }, 3, 0, 2, 0, 2, 0, 0 },
    { { 36, 0, 2, 0, 3 }, 5, 2, 3, 2, 3, 0, 1 },
    { { 36, 0, 0, 0, 0 }, 5, 0, 0, 0, 0, 0, 1 },
    { { 53, 1, 2, 3, 4, 5, 6, 7, 8 }, 9, 0, 0, 0, 0, 2, 0 },
    { { 54, 9 }, 2, 0, 0, 0, 0, 1, 0 },
    { { 56, 1, 2, 3, 4 }, 5, 0, 0, 0, 0, 1, 0 },
    { { 57 }, 1, 0, 0, 0, 0, 0, 1 },
    { { 58 }, 1, 0, 0, 0, 0, 0, 1 },
    { { 59 }, 1, 0, 1, 0, 1, 0, 0 },
    { { 60, 0, 2, 0, 1 }, 5, 3, 1, 3, 1, 1, 0 },
    { { 60, 0, 0, 0, 0 }, 5, 1, 0, 1, 0, 1, 0 },
    { { 62, 0, 2, 0, 1 }, 5, 2, 2, 2, 2, 0, 1 },
    { { 62, 0, 0, 0, 0 }, 5, 0, 1, 0, 1, 0, 1 },
    { { 64, 0, 2, 0, 1 }, 5, 2, 1, 2, 1, 0, 0 },
    { { 64, 0, 0, 0, 0 }, 5, 0, 0, 0, 0, 0, 0 },
    { { 72, 0, 2 }, 3, 1, 2, 1, 2, 3, 1 },
    { { 80 }, 1, 3, 0, 3, 0, 0, 1 },
    { { 81 }, 1, 2, 1, 2, 1, 0, 1 },
    { { 82 }, 1, 1, 1, 1, 1, 1, 0 },
    { { 83 }, 1, 1, 1, 1, 1, 0, 1 },
    { { 84 }, 1, 2, 1, 2, 1, 0, 0 },
    { { 85 }, 1, 1, 2, 1, 2, 0, 0 },
    { { 130 }, 1, 2, 0, 2, 0, 1, 0 },
    { { 131 }, 1, 0, 2, 0, 2, 1, 0 },
    { { 195 }, 1, 2, 0, 2, 0, 1, 0 },
    { { 198 }, 1, 2, 0, 2, 0, 1, 0 },
    { { 201 }, 1, 2, 0, 2, 0, 1, 0 },
    { { 204 }, 1, 2, 0, 2, 0, 1, 0 },
    { { 140 }, 1, 2, 0, 2, 0, 1, 0 },
    { { 141 }, 1, 2, 0, 2, 0, 1, 0 },
    { { 142 }, 1, 2, 0, 2, 0, 1, 0 },
    { { 143 }, 1, 2, 0, 2, 0, 1, 0 },
    { { 145 }, 1, 2, 0, 2, 0, 1, 0 },
    { { 144 }, 1, 1, 0, 1, 0, 1, 0 },
    { { 146 }, 1, 1, 0, 1, 0, 1, 0 },
    { { 150 }, 1, 4, 0, 4, 0, 2, 0 },
    { { 151 }, 1, 4, 0, 4, 0, 2, 0 },
    { { 152 }, 1, 4, 0, 4, 0, 2, 0 },
    { { 153 }, 1, 4, 0, 4, 0, 2, 0 },
    { { 155 }, 1, 4, 0, 4, 0, 1, 0 },
    { { 156 }, 1, 10, 0, 10, 0, 4, 0 },
};

static uint8_t most(int a, int b)
{
    return (uint8_t)(a > b ? a : b);
}

/* 0 73; 8 procedure 1: 15 the code, then bjump 3; then procedure 2. */
static size_t plain_file(uint8_t *f, const depth_row *d, int a, int b, int x, int y)
{
    size_t n = 0;
    const uint8_t front[] = { HEAD0, 73, 240, (uint8_t)a, (uint8_t)b, 0, 0,
                              (uint8_t)x, (uint8_t)y };
    const uint8_t back[] = { 3, 0, 3, 240, 1, 2, 3, 1, 3, 2, 3, 0, 3 };
    memcpy(f, front, sizeof front);
    n += sizeof front;
    memcpy(f + n, d->code, d->size);
    n += d->size;
    memcpy(f + n, back, sizeof back);
    return n + sizeof back;
}

/*
 * 0 73; 8 procedure 1: 15 160 -> T; 18 push m words and p nils, the code,
 * bjump 3; T bjump 3; then procedure 2. Gives the code's place.
 */
static size_t floor_file(uint8_t *f, size_t *at, const depth_row *d,
                         int a, int b, int m, int p, int x, int y)
{
    size_t n = 0;
    const uint8_t front[] = { HEAD0, 73, 240, (uint8_t)a, (uint8_t)b, 0, 0,
                              (uint8_t)x, (uint8_t)y, 160, 0, 0 };
    const uint8_t back[] = { 3, 0, 3, 3, 0, 3, 240, 1, 2, 3, 1, 3, 2, 3, 0, 3 };
    memcpy(f, front, sizeof front);
    n += sizeof front;
    for (int i = 0; i < m; i++) {
        f[n++] = 54;
        f[n++] = 1;
    }
    for (int i = 0; i < p; i++)
        f[n++] = 57;
    *at = n;
    memcpy(f + n, d->code, d->size);
    n += d->size;
    f[17] = (uint8_t)(n + 3 - 8); /* T, from the head at 8 */
    memcpy(f + n, back, sizeof back);
    return n + sizeof back;
}

static void test_depths(void)
{
    for (size_t i = 0; i < sizeof depth_rows / sizeof depth_rows[0]; i++) {
        const depth_row *d = &depth_rows[i];
        uint8_t f[128];
        size_t n, at;
        uint8_t x = most(d->need_m, d->after_m), y = most(d->need_p, d->after_p);
        size_t next = 15 + (size_t)d->size;

        /* exactly enough; 0 and up to 2 words more underneath */
        for (int more = 0; more <= 2; more++) {
            n = plain_file(f, d, d->need_m + more, d->need_p + more, x + more, y + more);
            entry want[] = {
                { 7, 0, 0, N },
                { 15, (uint16_t)(d->need_m + more), (uint16_t)(d->need_p + more), N },
                { (uint16_t)next, (uint16_t)(d->after_m + more), (uint16_t)(d->after_p + more), N },
                { (uint16_t)(next + 10), 1, 2, N }
            };
            expect_map(__LINE__, want, 4, f, n);
        }
        /* a word short */
        if (d->need_m > 0) {
            n = plain_file(f, d, d->need_m - 1, d->need_p, x, y);
            expect_refusal(__LINE__, 7, 15, f, n);
        }
        if (d->need_p > 0) {
            n = plain_file(f, d, d->need_m, d->need_p - 1, x, y);
            expect_refusal(__LINE__, 7, 15, f, n);
        }
        /* above x, y */
        if (d->after_m > d->need_m) {
            n = plain_file(f, d, d->need_m, d->need_p, x - 1, y);
            expect_refusal(__LINE__, 7, 15, f, n);
        }
        if (d->after_p > d->need_p) {
            n = plain_file(f, d, d->need_m, d->need_p, x, y - 1);
            expect_refusal(__LINE__, 7, 15, f, n);
        }

        /* all words under the floor: good for codes that pop nothing */
        n = floor_file(f, &at, d, d->need_m, d->need_p, 0, 0, x + 1, y);
        if (d->pop_m > 0 || d->pop_p > 0)
            expect_refusal(__LINE__, 7, 18, f, n);
        else
            expect_passes(__LINE__, f, n);
        /* exactly the popped words above the floor */
        n = floor_file(f, &at, d, d->need_m - d->pop_m, d->need_p - d->pop_p,
                       d->pop_m, d->pop_p, x + 1, y);
        expect_passes(__LINE__, f, n);
        /* as deep, one word less above the floor */
        if (d->pop_m > 0) {
            n = floor_file(f, &at, d, d->need_m - d->pop_m + 1, d->need_p - d->pop_p,
                           d->pop_m - 1, d->pop_p, x + 1, y);
            expect_refusal(__LINE__, 7, (uint32_t)at, f, n);
        }
        if (d->pop_p > 0) {
            n = floor_file(f, &at, d, d->need_m - d->pop_m, d->need_p - d->pop_p + 1,
                           d->pop_m, d->pop_p - 1, x + 1, y);
            expect_refusal(__LINE__, 7, (uint32_t)at, f, n);
        }
    }

    /* operands far above any depth */
    REFUSAL(7, 7, HEAD0, 36, 255, 255, 0, 0, 73);
    REFUSAL(7, 7, HEAD0, 36, 0, 0, 255, 255, 73);
    REFUSAL(7, 7, 240, 0, 0, 0, 0, 9, 9, 60, 255, 255, 255, 255, 73);
    REFUSAL(7, 7, 240, 0, 0, 0, 0, 9, 9, 62, 255, 255, 255, 255, 73);
    REFUSAL(7, 7, 240, 0, 0, 0, 0, 9, 9, 64, 255, 255, 255, 255, 73);
    REFUSAL(7, 9, 240, 0, 0, 0, 0, 9, 9, 54, 1, 60, 255, 255, 0, 0, 73);
    REFUSAL(7, 9, 240, 0, 0, 0, 0, 2, 0, 54, 1, 20, 255, 255, 73);
    REFUSAL(7, 9, 240, 0, 0, 0, 0, 2, 0, 54, 1, 20, 1, 0, 73);

    /* 162: 7 162 with nothing; 7 54 1; 9 160 -> 13; 12 162 under the floor */
    REFUSAL(7, 7, 240, 0, 0, 0, 0, 1, 0, 162);
    REFUSAL(7, 12, 240, 0, 0, 0, 0, 2, 0, 54, 1, 160, 0, 13, 162, 162);
    PASSES(240, 0, 0, 0, 0, 2, 0, 54, 1, 160, 0, 15, 54, 2, 162, 162);
    /* 5, 6: one pop counts. 7 54 1; 9 160 -> 18; 12 5 0 -> 15; 15 3 0 3; 18 3 0 3 */
    REFUSAL(7, 7, HEAD0, 5, 0, 0, 73);
    REFUSAL(7, 7, HEAD0, 6, 0, 0, 73);
    REFUSAL(7, 12, 240, 0, 0, 0, 0, 2, 0, 54, 1, 160, 0, 18, 5, 0, 0, 3, 0, 3, 3, 0, 3);
    REFUSAL(7, 12, 240, 0, 0, 0, 0, 2, 0, 54, 1, 160, 0, 18, 6, 0, 0, 3, 0, 3, 3, 0, 3);

    /* 160: the handler's depth, 7 before 9 */
    REFUSAL(7, 7, HEAD0, 160, 0, 12, 161, 73, 3, 0, 3);
    REFUSAL(7, 7, HEAD0, 160, 0, 10, 161, 73);
    PASSES(240, 0, 0, 0, 0, 1, 0, 160, 0, 12, 161, 73, 3, 0, 3);

    /* 72: results against the caller's x, y, though the callee can't return */
    REFUSAL(7, 7, 240, 0, 0, 0, 0, 1, 0, 72, 0, 1, 3, 0, 3, 240, 0, 0, 2, 0, 2, 0, 3, 0, 3);
    PASSES(240, 0, 0, 0, 0, 2, 0, 72, 0, 1, 3, 0, 3, 240, 0, 0, 2, 0, 2, 0, 3, 0, 3);

    /* 73 pops nothing: 8, not 7; 161 has no floor of its own */
    REFUSAL(8, 7, 240, 0, 0, 2, 2, 2, 2, 73);
    /* growing back under an open handler: 7 54 1; 9 160 -> 23; 12 64 1 0;
       17 54 2; 19 161; 20 3 0 3; 23 3 0 3 */
    REFUSAL(7, 12, 240, 0, 0, 0, 0, 2, 0, 54, 1, 160, 0, 23, 64, 0, 1, 0, 0, 54, 2, 161,
            3, 0, 3, 3, 0, 3);

    /* the floor is the innermost handler's alone: 7 54 1; 9 160 -> 20;
       12 54 2; 14 160 -> 19; 17 161; 18 162; 19 162; 20 162.
       At 17 the inner one closes, at 18 the outer floor is 1, depth 2. */
    entry nested[] = { { 7, 0, 0, N }, { 9, 1, 0, N }, { 12, 1, 0, 9 }, { 14, 2, 0, 9 },
                       { 17, 2, 0, 14 }, { 18, 2, 0, 9 }, { 19, 3, 0, 9 }, { 20, 2, 0, N } };
    MAP(nested, 240, 0, 0, 0, 0, 3, 0, 54, 1, 160, 0, 20, 54, 2, 160, 0, 19, 161, 162,
        162, 162);
    /* stores and reads under the floor: 7 54 1; 9 160 -> 21; 12 54 2;
       14 22 0 -> word 0; 17 161; 18 3 0 3; 21 3 0 3 */
    PASSES(240, 0, 0, 0, 0, 2, 0, 54, 1, 160, 0, 21, 54, 2, 22, 0, 0, 161, 3, 0, 3, 3, 0, 3);
}

/* ---- instructions ---- */

static void test_jumps(void)
{
    /* 7 54 c; 9 jumpf -> 17; 12 54 7; 14 fjump -> 19; 17 54 8; 19 73 */
    BENCH("finished steps=4 main=8",
          240, 0, 0, 1, 0, 1, 0, 54, 0, 2, 0, 5, 54, 7, 1, 0, 2, 54, 8, 73);
    BENCH("finished steps=5 main=7",
          240, 0, 0, 1, 0, 1, 0, 54, 1, 2, 0, 5, 54, 7, 1, 0, 2, 54, 8, 73);
    /* any word but 0 is true: -128 */
    BENCH("finished steps=5 main=7",
          240, 0, 0, 1, 0, 1, 0, 54, 128, 2, 0, 5, 54, 7, 1, 0, 2, 54, 8, 73);
    /* 7 54 3; 9 54 1; 11 142; 12 20 0; 15 bjumpt 9 -> 9; 18 73:
       1 + 3 * 4 + 1 */
    BENCH("finished steps=14 main=0",
          240, 0, 0, 1, 0, 2, 0, 54, 3, 54, 1, 142, 20, 0, 0, 4, 0, 9, 73);
    /* 7 54 2; 9 20 0; 12 jumpf -> 21; 15 54 1; 17 142; 18 bjump 12 -> 9; 21 73:
       1 + 2 * 5 + 2 + 1 */
    BENCH("finished steps=14 main=0",
          240, 0, 0, 1, 0, 2, 0, 54, 2, 20, 0, 0, 2, 0, 6, 54, 1, 142, 3, 0, 12, 73);
    /* 7 54 c; 9 jumpff -> 14; 12 54 4; 14 73 */
    BENCH("finished steps=3 main=0", 240, 0, 0, 1, 0, 1, 0, 54, 0, 5, 0, 2, 54, 4, 73);
    BENCH("finished steps=4 main=4", 240, 0, 0, 1, 0, 1, 0, 54, 6, 5, 0, 2, 54, 4, 73);
    BENCH("finished steps=4 main=4", 240, 0, 0, 1, 0, 1, 0, 54, 0, 6, 0, 2, 54, 4, 73);
    BENCH("finished steps=3 main=6", 240, 0, 0, 1, 0, 1, 0, 54, 6, 6, 0, 2, 54, 4, 73);
    /* an operand of two bytes, 1 * 256 + 2 */
    uint8_t far[271] = { 240, 0, 0, 0, 0, 1, 0, 54, 0, 2, 1, 2 };
    /* 7 54 0; 9 jumpf 258 -> 270; 12 to 267: 86 fjumps; 270 73 */
    for (size_t i = 12; i < 270; i += 3)
        far[i] = 1;
    far[270] = 73;
    expect_bench(__LINE__, "finished steps=3 main=", far, sizeof far);
    far[8] = 1;
    expect_bench(__LINE__, "finished steps=89 main=", far, sizeof far);
}

/* 7 56 a; 12 56 b; 17 code; 18 73 */
static void binary(int line, uint32_t a, uint32_t b, uint8_t code, bool fine, uint32_t want)
{
    uint8_t f[] = { 240, 0, 0, 1, 0, 2, 0,
                    56, (uint8_t)(a >> 24), (uint8_t)(a >> 16), (uint8_t)(a >> 8), (uint8_t)a,
                    56, (uint8_t)(b >> 24), (uint8_t)(b >> 16), (uint8_t)(b >> 8), (uint8_t)b,
                    code, 73 };
    rig g = bench_rig(f, sizeof f);
    expect(is(do_start(&g), REF_READY, 0, 0, 0), line, "ready");
    ref_reply r = do_run(&g, 1000);
    if (fine) {
        expect(is(r, REF_FINISHED, 0, 0, 4), line, "finished");
        expect(g.list[MAIN][0] == want && g.list[MAIN][1] == 0, line, "the result");
    } else {
        expect(is(r, REF_UNCAUGHT, want, 17, 2), line, "uncaught");
        expect(g.list[MAIN][0] == a && g.list[MAIN][1] == b, line, "the operands stay");
        expect(reg_of(&g, PLACE) == 17 && reg_of(&g, MTOP) == 2, line, "the registers stay");
    }
    rig_free(&g);
}

#define GIVES(a, op, b, want) \
    binary(__LINE__, (uint32_t)(a), (uint32_t)(b), op, true, (uint32_t)(want))
#define RAISES1(a, op, b) binary(__LINE__, (uint32_t)(a), (uint32_t)(b), op, false, 1)

static void test_arithmetic(void)
{
    const uint32_t low = 0x80000000u, high = 0x7fffffffu;

    GIVES(2, 140, 3, 5);
    GIVES(high, 140, 0, high);
    GIVES(low, 140, high, -1);
    GIVES(-1, 140, -1, -2);
    RAISES1(high, 140, 1);
    RAISES1(low, 140, -1);
    RAISES1(low, 140, low);
    RAISES1(high, 140, high);

    GIVES(5, 142, 3, 2);
    GIVES(3, 142, 5, -2);
    GIVES(-1, 142, low, high);
    GIVES(low, 142, low, 0);
    RAISES1(low, 142, 1);
    RAISES1(0, 142, low);
    RAISES1(high, 142, -1);

    GIVES(6, 141, 7, 42);
    GIVES(-6, 141, 7, -42);
    GIVES(-6, 141, -7, 42);
    GIVES(46340, 141, 46340, 2147395600);
    RAISES1(46341, 141, 46341);
    GIVES(65536, 141, -32768, low);
    RAISES1(65536, 141, 32768);
    RAISES1(low, 141, -1);
    GIVES(low, 141, 1, low);
    GIVES(low, 141, 0, 0);
    RAISES1(low, 141, low);
    RAISES1(65536, 141, 65536); /* 2^32, 0 if it wrapped */

    GIVES(7, 143, 2, 3);
    GIVES(-7, 143, 2, -3);
    GIVES(7, 143, -2, -3);
    GIVES(-7, 143, -2, 3);
    GIVES(0, 143, -5, 0);
    GIVES(1, 143, -1, -1);
    GIVES(low, 143, 1, low);
    GIVES(low, 143, high, -1);
    GIVES(low, 143, low, 1);
    GIVES(high, 143, low, 0);
    RAISES1(low, 143, -1);
    RAISES1(7, 143, 0);
    RAISES1(0, 143, 0);
    RAISES1(low, 143, 0);

    GIVES(7, 145, 2, 1);
    GIVES(-7, 145, 2, -1);
    GIVES(7, 145, -2, 1);
    GIVES(-7, 145, -2, -1);
    GIVES(6, 145, 3, 0);
    GIVES(low, 145, -1, 0);
    GIVES(5, 145, -1, 0);
    GIVES(low, 145, high, -1);
    GIVES(low, 145, low, 0);
    GIVES(high, 145, low, high);
    RAISES1(7, 145, 0);
    RAISES1(low, 145, 0);

    GIVES(4, 130, 4, 1);
    GIVES(4, 130, 5, 0);
    GIVES(low, 130, low, 1);
    GIVES(low, 130, 0, 0);

    GIVES(-1, 195, 1, 1);
    GIVES(1, 195, -1, 0);
    GIVES(1, 195, 1, 0);
    GIVES(low, 195, high, 1);
    GIVES(-1, 198, 1, 1);
    GIVES(1, 198, -1, 0);
    GIVES(1, 198, 1, 1);
    GIVES(high, 198, low, 0);
    GIVES(-1, 201, 1, 0);
    GIVES(1, 201, -1, 1);
    GIVES(1, 201, 1, 0);
    GIVES(high, 201, low, 1);
    GIVES(-1, 204, 1, 0);
    GIVES(1, 204, -1, 1);
    GIVES(1, 204, 1, 1);
    GIVES(low, 204, high, 0);

    BENCH("finished steps=3 main=-5", 240, 0, 0, 1, 0, 1, 0, 54, 5, 144, 73);
    BENCH("finished steps=3 main=5", 240, 0, 0, 1, 0, 1, 0, 54, 251, 144, 73);
    BENCH("finished steps=3 main=0", 240, 0, 0, 1, 0, 1, 0, 54, 0, 144, 73);
    BENCH("finished steps=3 main=-2147483647",
          240, 0, 0, 1, 0, 1, 0, 56, 127, 255, 255, 255, 144, 73);
    BENCH("finished steps=3 main=1", 240, 0, 0, 1, 0, 1, 0, 54, 0, 146, 73);
    BENCH("finished steps=3 main=0", 240, 0, 0, 1, 0, 1, 0, 54, 1, 146, 73);
    BENCH("finished steps=3 main=0", 240, 0, 0, 1, 0, 1, 0, 54, 255, 146, 73);
    BENCH("finished steps=3 main=0",
          240, 0, 0, 1, 0, 1, 0, 56, 128, 0, 0, 0, 146, 73);

    BENCH("finished steps=4 main=127,-128,-1",
          240, 0, 0, 3, 0, 3, 0, 54, 127, 54, 128, 54, 255, 73);
    BENCH("finished steps=3 main=16909060,-16909061",
          240, 0, 0, 2, 0, 2, 0, 56, 1, 2, 3, 4, 56, 254, 253, 252, 251, 73);
}

/* Runs to the end in bench lists and gives them back. */
static rig run_out(int line, ref_reply want, const uint8_t *file, size_t file_len)
{
    rig g = bench_rig(file, file_len);
    expect(is(do_start(&g), REF_READY, 0, 0, 0), line, "ready");
    ref_reply r = do_run(&g, 1000);
    expect(is(r, want.kind, want.number, want.place, want.steps), line, "the ending");
    expect_sound(line, &g);
    return g;
}

static ref_reply reply(uint32_t kind, uint32_t number, uint32_t place, uint32_t steps)
{
    ref_reply r = { kind, number, place, steps };
    return r;
}

static bool list_is(const rig *g, int list, const uint32_t *want, size_t n)
{
    for (size_t i = 0; i < g->len[list]; i++)
        if (g->list[list][i] != (i < n ? want[i] : 0))
            return false;
    return true;
}

#define LIST_IS(g, list, ...) \
    EXPECT(list_is(&(g), list, (const uint32_t[]){ __VA_ARGS__ }, \
                   sizeof((const uint32_t[]){ __VA_ARGS__ }) / 4))

static void test_objects_and_stacks(void)
{
    rig g;

    /* 7 54 5; 9 54 6; 11 20 0; 14 22 1; 17 73 */
    BENCH("finished steps=5 main=5,5",
          240, 0, 0, 2, 0, 3, 0, 54, 5, 54, 6, 20, 0, 0, 22, 0, 1, 73);

    /* 7 form -> 2; 12 form -> 4; 17 57; 18 21 1 pushes 4; 21 23 2; 24 73 */
    g = run_out(__LINE__, reply(REF_FINISHED, 0, 0, 6),
                BYTES(240, 0, 0, 0, 3, 0, 4, 36, 0, 0, 0, 0, 36, 0, 0, 0, 0, 57, 21, 0, 1,
                      23, 0, 2, 73));
    LIST_IS(g, PTR, 2, 4, 4);
    rig_free(&g);

    /* 7 54 11; 9 54 12; 11 form 2 0 -> 2; 16 57; 17 form 0 2 -> 6;
       22 31 2 gives 2; 25 30 3 gives 12; 28 73 */
    g = run_out(__LINE__, reply(REF_FINISHED, 0, 0, 8),
                BYTES(240, 0, 0, 1, 0, 2, 2, 54, 11, 54, 12, 36, 0, 2, 0, 0, 57,
                      36, 0, 0, 0, 2, 31, 0, 2, 30, 0, 3, 73));
    LIST_IS(g, MAIN, 12);
    LIST_IS(g, PTR, 0);
    LIST_IS(g, CTL, 0);
    LIST_IS(g, HEAP, 10, 0, 0x01000000, 4, 11, 12, 0x01000002, 4, 2, 0);
    rig_free(&g);

    /* both kinds in one: 7 54 1; 9 form 1 0 -> 2; 14 57; 15 54 7; 17 54 8;
       19 form 2 2 -> 5: pointers 2, nil, then 7, 8; 24 73 */
    g = run_out(__LINE__, reply(REF_FINISHED, 0, 0, 7),
                BYTES(240, 0, 0, 0, 1, 2, 2, 54, 1, 36, 0, 1, 0, 0, 57, 54, 7, 54, 8,
                      36, 0, 2, 0, 2, 73));
    LIST_IS(g, MAIN, 0);
    LIST_IS(g, PTR, 5);
    LIST_IS(g, HEAP, 11, 0, 0x01000000, 3, 1, 0x01000002, 6, 2, 0, 7, 8);
    rig_free(&g);

    /* 7 54 1; 9 57; 10 form 1 1 -> 2; 15 54 8; 17 21 0; 20 32 3;
       23 21 0; 26 21 0; 29 33 2; 32 21 0; 35 31 2; 38 23 0; 41 30 3; 44 73 */
    g = run_out(__LINE__, reply(REF_FINISHED, 0, 0, 14),
                BYTES(240, 0, 0, 1, 0, 1, 3, 54, 1, 57, 36, 0, 1, 0, 1, 54, 8, 21, 0, 0,
                      32, 0, 3, 21, 0, 0, 21, 0, 0, 33, 0, 2, 21, 0, 0, 31, 0, 2,
                      23, 0, 0, 30, 0, 3, 73));
    LIST_IS(g, MAIN, 8);
    LIST_IS(g, PTR, 0);
    LIST_IS(g, HEAP, 6, 0, 0x01000001, 4, 2, 8);
    rig_free(&g);

    /* pSet pops the object first: 7 form 0 0 -> 2; 12 form 0 1 (2) -> 4;
       17 57; 18 21 0; 21 33 2: object 4 over nil; 24 73 */
    g = run_out(__LINE__, reply(REF_FINISHED, 0, 0, 6),
                BYTES(240, 0, 0, 0, 1, 0, 3, 36, 0, 0, 0, 0, 36, 0, 0, 0, 1, 57, 21, 0, 0,
                      33, 0, 2, 73));
    LIST_IS(g, PTR, 4);
    LIST_IS(g, HEAP, 7, 0, 0x01000000, 2, 0x01000001, 3, 0);
    rig_free(&g);

    /* 7 form 0 0 -> 2; 12 59; 13 58; 14 58; 15 131; 16 73 */
    g = run_out(__LINE__, reply(REF_FINISHED, 0, 0, 6),
                BYTES(240, 0, 0, 1, 0, 1, 2, 36, 0, 0, 0, 0, 59, 58, 58, 131, 73));
    LIST_IS(g, MAIN, 1);
    LIST_IS(g, PTR, 0);
    LIST_IS(g, HEAP, 4, 2, 0x01000000, 2);
    rig_free(&g);
    /* 7 form 0 0 -> 2; 12 58 nil; 13 131; 14 73 */
    BENCH("finished steps=4 main=0", 240, 0, 0, 1, 0, 1, 2, 36, 0, 0, 0, 0, 58, 131, 73);
    BENCH("finished steps=4 main=1", 240, 0, 0, 1, 0, 1, 2, 57, 58, 131, 73);
    /* two objects of the same words differ */
    BENCH("finished steps=4 main=0",
          240, 0, 0, 1, 0, 1, 2, 36, 0, 0, 0, 0, 36, 0, 0, 0, 0, 131, 73);

    /* 60: 1 2 3 and nil; drop 1 main, 1 pointer under the 3 */
    BENCH("finished steps=6 main=1,3",
          240, 0, 0, 2, 0, 3, 1, 54, 1, 54, 2, 54, 3, 57, 60, 0, 1, 0, 1, 73);
    g = run_out(__LINE__, reply(REF_FINISHED, 0, 0, 6),
                BYTES(240, 0, 0, 2, 0, 3, 1, 54, 1, 54, 2, 54, 3, 36, 0, 0, 0, 0,
                      60, 0, 1, 0, 1, 73));
    LIST_IS(g, MAIN, 1, 3);
    LIST_IS(g, PTR, 0);
    EXPECT(reg_of(&g, MTOP) == 2 && reg_of(&g, PTOP) == 0);
    rig_free(&g);
    BENCH("finished steps=5 main=3",
          240, 0, 0, 1, 0, 3, 0, 54, 1, 54, 2, 54, 3, 60, 0, 2, 0, 0, 73);
    BENCH("finished steps=4 main=1,2",
          240, 0, 0, 2, 0, 2, 0, 54, 1, 54, 2, 60, 0, 0, 0, 0, 73);
    /* 62: pointers 2, 4 and words 1, 2; drop 1 of each under the 4 */
    g = run_out(__LINE__, reply(REF_FINISHED, 0, 0, 6),
                BYTES(240, 0, 0, 1, 1, 2, 2, 36, 0, 0, 0, 0, 36, 0, 0, 0, 0, 54, 1, 54, 2,
                      62, 0, 1, 0, 1, 73));
    LIST_IS(g, MAIN, 1);
    LIST_IS(g, PTR, 4);
    rig_free(&g);
    /* 64 */
    g = run_out(__LINE__, reply(REF_FINISHED, 0, 0, 5),
                BYTES(240, 0, 0, 1, 0, 2, 1, 54, 1, 54, 2, 57, 64, 0, 1, 0, 1, 73));
    LIST_IS(g, MAIN, 1);
    LIST_IS(g, PTR, 0);
    rig_free(&g);
}

static void test_calls(void)
{
    /* 7 54 10; 9 54 3; 11 72 1; 14 73. 15 head: 22 142; 23 73 */
    BENCH("finished steps=6 main=7",
          240, 0, 0, 1, 0, 2, 0, 54, 10, 54, 3, 72, 0, 1, 73,
          240, 2, 0, 1, 0, 2, 0, 142, 73);
    /* 7 54 50; 9 54 20; 11 54 4; 13 72 1; 16 73.
       17 head: 24 20 1; 27 22 0; 30 141; 31 73: 4 * 4 */
    BENCH("finished steps=9 main=50,16",
          240, 0, 0, 2, 0, 3, 0, 54, 50, 54, 20, 54, 4, 72, 0, 1, 73,
          240, 2, 0, 1, 0, 3, 0, 20, 0, 1, 22, 0, 0, 141, 73);
    /* 7 form -> 2; 12 57; 13 72 1; 16 131; 17 73.
       18 head: 25 58 nil; 26 23 0, the frame's word, not the stack's; 29 73 */
    BENCH("finished steps=8 main=0",
          240, 0, 0, 1, 0, 1, 2, 36, 0, 0, 0, 0, 57, 72, 0, 1, 131, 73,
          240, 0, 1, 0, 1, 0, 2, 58, 23, 0, 0, 73);
    /* 7 form -> 2; 12 form -> 4; 17 72 1; 20 131; 21 64 0 1; 26 73.
       27 head: 34 21 0 pushes 4; 37 73 */
    BENCH("finished steps=8 main=1",
          240, 0, 0, 1, 0, 1, 3, 36, 0, 0, 0, 0, 36, 0, 0, 0, 0, 72, 0, 1, 131,
          64, 0, 0, 0, 1, 73, 240, 0, 1, 0, 2, 0, 2, 21, 0, 0, 73);

    /* a return brings back the caller's bases: 7 54 50; 9 form -> 2; 14 form -> 4;
       19 54 9; 21 72 1; 24 20 0; 27 21 0; 30 73. 31 head: 38 64 1 1; 43 73 */
    rig g = run_out(__LINE__, reply(REF_FINISHED, 0, 0, 10),
                    BYTES(240, 0, 0, 2, 2, 2, 2, 54, 50, 36, 0, 0, 0, 0, 36, 0, 0, 0, 0, 54, 9,
                          72, 0, 1, 20, 0, 0, 21, 0, 0, 73,
                          240, 1, 1, 0, 0, 1, 1, 64, 0, 1, 0, 1, 73));
    LIST_IS(g, MAIN, 50, 50);
    LIST_IS(g, PTR, 2, 2);
    rig_free(&g);

    /* also bases that are not 0: 7 54 50; 9 form -> 2; 14 54 60; 16 form -> 4;
       21 72 1; 24 73. 25 head: 32 72 2; 35 20 0; 38 21 0; 41 73. 42 head: 49 73 */
    g = run_out(__LINE__, reply(REF_FINISHED, 0, 0, 11),
                BYTES(240, 0, 0, 3, 3, 3, 3, 54, 50, 36, 0, 0, 0, 0, 54, 60, 36, 0, 0, 0, 0,
                      72, 0, 1, 73,
                      240, 1, 1, 2, 2, 2, 2, 72, 0, 2, 20, 0, 0, 21, 0, 0, 73, HEAD0, 73));
    LIST_IS(g, MAIN, 50, 60, 60);
    LIST_IS(g, PTR, 2, 4, 4);
    rig_free(&g);

#define FACTORIAL(n) 240, 0, 0, 1, 0, 1, 0, 54, n, 72, 0, 1, 73, \
        240, 1, 0, 1, 0, 3, 0, 20, 0, 0, 2, 0, 11, 20, 0, 0, 54, 1, 142, \
        72, 0, 1, 141, 73, 146, 73
    /* 13 head: 20 20 0; 23 jumpf -> 37; 26 20 0; 29 54 1; 31 142; 32 72 1;
       35 141; 36 73; 37 146; 38 73. 3 + 8 * n + 4 steps */
    BENCH("finished steps=7 main=1", FACTORIAL(0));
    BENCH("finished steps=47 main=120", FACTORIAL(5));
    BENCH("finished steps=103 main=479001600", FACTORIAL(12));
    /* 13!: 2 + 13 * 6 + 4 + 12 * 2 = 108, then the outermost 141 */
    BENCH("uncaught 1 at 35 steps=108 main=13,479001600", FACTORIAL(13));
}

/* ---- exceptions ---- */

static void test_exceptions(void)
{
    rig g;

    /* 2, uncaught */
    BENCH("uncaught 2 at 8 steps=1 main=", 240, 0, 0, 1, 0, 1, 1, 57, 30, 0, 2, 73);
    BENCH("uncaught 2 at 8 steps=1 main=", 240, 0, 0, 0, 1, 0, 1, 57, 31, 0, 2, 73);
    BENCH("uncaught 2 at 10 steps=2 main=1",
          240, 0, 0, 0, 0, 1, 1, 54, 1, 57, 32, 0, 2, 73);
    BENCH("uncaught 2 at 9 steps=2 main=", 240, 0, 0, 0, 0, 0, 2, 57, 57, 33, 0, 2, 73);
    /* 2 before 3: word 0 of nil */
    BENCH("uncaught 2 at 8 steps=1 main=", 240, 0, 0, 1, 0, 1, 1, 57, 30, 0, 0, 73);
    BENCH("uncaught 2 at 8 steps=1 main=", 240, 0, 0, 0, 1, 0, 1, 57, 31, 255, 255, 73);

    /* 3: an object of one pointer word (2) and one plain word (3) */
    for (unsigned s = 0; s <= 256; s++) {
        uint8_t hi = (uint8_t)(s >> 8), lo = (uint8_t)s;
        char *want;
        if (s > 6 && s < 250)
            continue;
        want = s == 3 ? "finished steps=5 main=9" : "uncaught 3 at 15 steps=3 main=";
        BENCH(want, 240, 0, 0, 1, 0, 1, 1, 54, 9, 57, 36, 0, 1, 0, 1, 30, hi, lo, 73);
        want = s == 2 ? "finished steps=5 main=" : "uncaught 3 at 15 steps=3 main=";
        BENCH(want, 240, 0, 0, 0, 1, 1, 1, 54, 9, 57, 36, 0, 1, 0, 1, 31, hi, lo, 73);
        /* 15 54 5; 17 21 0; 20 32 s; 23 73 */
        want = s == 3 ? "finished steps=7 main=" : "uncaught 3 at 20 steps=5 main=5";
        BENCH(want, 240, 0, 0, 0, 1, 1, 2, 54, 9, 57, 36, 0, 1, 0, 1, 54, 5, 21, 0, 0,
              32, hi, lo, 73);
        /* 15 57; 16 21 0; 19 33 s; 22 73 */
        want = s == 2 ? "finished steps=7 main=" : "uncaught 3 at 19 steps=5 main=";
        BENCH(want, 240, 0, 0, 0, 1, 1, 3, 54, 9, 57, 36, 0, 1, 0, 1, 57, 21, 0, 0,
              33, hi, lo, 73);
    }
    /* an object of size 2 has neither part */
    BENCH("uncaught 3 at 12 steps=1 main=",
          240, 0, 0, 1, 0, 1, 1, 36, 0, 0, 0, 0, 30, 0, 2, 73);
    BENCH("uncaught 3 at 12 steps=1 main=",
          240, 0, 0, 0, 1, 0, 1, 36, 0, 0, 0, 0, 31, 0, 2, 73);
    /* the next object's words are not in reach: 7 form -> 2; 12 59; 13 form -> 4;
       18 58; 19 30 2; 22 73 with one pointer left */
    BENCH("uncaught 3 at 19 steps=4 main=",
          240, 0, 0, 1, 1, 1, 2, 36, 0, 0, 0, 0, 59, 36, 0, 0, 0, 0, 58, 30, 0, 2, 73);

    /* 4 in the bench: 255 forms of size 2 from 7, 64 0 255 at 1282, 255 forms
       from 1287, 64 0 255 at 2562, forms at 2567 (the 511th, the last to fit
       in 1,022 words) and 2572 */
    {
        static uint8_t f[2580] = { 240, 0, 0, 0, 0, 0, 255 };
        size_t n = 7;
        for (int i = 0; i < 512; i++) {
            f[n] = 36;
            n += 5;
            if (i == 254 || i == 509) {
                f[n] = 64;
                f[n + 4] = 255;
                n += 5;
            }
        }
        EXPECT(n == 2577);
        f[2577] = 3;
        f[2579] = 3;
        expect_bench(__LINE__, "uncaught 4 at 2572 steps=513 main=", f, sizeof f);
    }
    /* 4: exact fits. 7 form 1 1 of size 4 twice; 2 + 8 words */
    for (size_t h = 2; h <= 12; h++) {
        /* 7 54 1; 9 57; 10 form 1 1; 15 54 2; 17 57; 18 form 1 1; 23 73 */
        g = rig_new(BYTES(240, 0, 0, 0, 2, 1, 2, 54, 1, 57, 36, 0, 1, 0, 1,
                          54, 2, 57, 36, 0, 1, 0, 1, 73), 80, 1, 2, 5, h, REG_BYTES);
        EXPECT(is(do_start(&g), REF_READY, 0, 0, 0));
        ref_reply r = do_run(&g, 100);
        if (h < 6) {
            EXPECT(is(r, REF_UNCAUGHT, 4, 10, 2));
            LIST_IS(g, HEAP, 2, 0);
            LIST_IS(g, MAIN, 1);
        } else if (h < 10) {
            EXPECT(is(r, REF_UNCAUGHT, 4, 18, 5));
            LIST_IS(g, HEAP, 6, 0, 0x01000001, 4, 0, 1);
            LIST_IS(g, MAIN, 2);
            LIST_IS(g, PTR, 2, 0);
        } else {
            EXPECT(is(r, REF_FINISHED, 0, 0, 7));
            LIST_IS(g, HEAP, 10, 0, 0x01000001, 4, 0, 1, 0x01000001, 4, 0, 2);
            LIST_IS(g, MAIN, 0);
            LIST_IS(g, PTR, 2, 6);
        }
        rig_free(&g);
    }

    /* 5: x. Procedure 0 calls itself, each frame one word up: 7 54 1; 9 72 0 */
    g = rig_new(BYTES(240, 0, 0, 0, 0, 1, 0, 54, 1, 72, 0, 0, 64, 0, 1, 0, 0, 73),
                54, 3, 1, 1280, 2, REG_BYTES);
    EXPECT(is(do_start(&g), REF_READY, 0, 0, 0));
    EXPECT(is(do_run(&g, 100), REF_UNCAUGHT, 5, 9, 5));
    LIST_IS(g, MAIN, 1, 1, 1);
    LIST_IS(g, CTL, 0, 0, 0, 0, 0, 1, 0, 0, 12, 1, 2, 0, 0, 12, 2);
    rig_free(&g);
    /* 5: y. 7 57; 8 72 0; 11 64 0 1; 16 73 */
    g = rig_new(BYTES(240, 0, 0, 0, 0, 0, 1, 57, 72, 0, 0, 64, 0, 0, 0, 1, 73),
                51, 1, 2, 1280, 2, REG_BYTES);
    EXPECT(is(do_start(&g), REF_READY, 0, 0, 0));
    EXPECT(is(do_run(&g, 100), REF_UNCAUGHT, 5, 8, 3));
    LIST_IS(g, CTL, 0, 0, 0, 0, 0, 0, 1, 0, 11, 1);
    rig_free(&g);
    /* 5: control words, for lists of 5 to 20: as many calls as whole records */
    for (size_t c = 5; c <= 20; c++) {
        g = rig_new(BYTES(HEAD0, 72, 0, 0, 73), 33, 1, 1, c, 2, REG_BYTES);
        EXPECT(is(do_start(&g), REF_READY, 0, 0, 0));
        EXPECT(is(do_run(&g, 100), REF_UNCAUGHT, 5, 7, (uint32_t)(c / 5) - 1));
        rig_free(&g);
    }
    /* 5: a handler's record. B in control lists of 5 to 10 */
    for (size_t c = 5; c <= 10; c++) {
        g = rig_new(BYTES(B_FILE), 54, 2, 1, c, 2, REG_BYTES);
        EXPECT(is(do_start(&g), REF_READY, 0, 0, 0));
        ref_reply r = do_run(&g, 100);
        if (c < 10)
            EXPECT(is(r, REF_UNCAUGHT, 5, 7, 0));
        else
            EXPECT(is(r, REF_FINISHED, 0, 0, 5));
        rig_free(&g);
    }
    /* 5: procedure 1 with x = 200 over 0 words; 7 160 -> 17; 10 72 1; 13 54 7;
       15 161; 16 73; 17 73. 18 head; 25 73 */
    for (size_t m = 199; m <= 201; m++) {
        g = rig_new(BYTES(240, 0, 0, 1, 0, 1, 0, 160, 0, 17, 72, 0, 1, 54, 7, 161, 73, 73,
                          240, 0, 0, 0, 0, 200, 0, 73), 78, m, 1, 15, 2, REG_BYTES);
        EXPECT(is(do_start(&g), REF_READY, 0, 0, 0));
        ref_reply r = do_run(&g, 100);
        if (m < 200) {
            EXPECT(is(r, REF_FINISHED, 0, 0, 3));
            LIST_IS(g, MAIN, 5);
        } else {
            EXPECT(is(r, REF_FINISHED, 0, 0, 6));
            LIST_IS(g, MAIN, 7);
        }
        rig_free(&g);
    }
    /* a parameter lies in the callee's frame: base = top less a. Main list of 3:
       7 54 1; 9 54 2; 11 72 1; 14 73. 15 head a 1, x 2: 1 + 2 = 3; 22 73 */
    for (size_t m = 2; m <= 3; m++) {
        g = rig_new(BYTES(240, 0, 0, 2, 0, 2, 0, 54, 1, 54, 2, 72, 0, 1, 73,
                          240, 1, 0, 1, 0, 2, 0, 73), 69, m, 1, 15, 2, REG_BYTES);
        EXPECT(is(do_start(&g), REF_READY, 0, 0, 0));
        if (m == 2)
            EXPECT(is(do_run(&g, 100), REF_UNCAUGHT, 5, 11, 2));
        else
            EXPECT(is(do_run(&g, 100), REF_FINISHED, 0, 0, 5));
        LIST_IS(g, MAIN, 1, 2);
        rig_free(&g);
    }

    /* 1, caught, for every code that raises it: 7 160 -> 23; 10 56 a; 15 56 b;
       20 code; 21 161; 22 73; 23 73 */
    static const uint8_t raising[][9] = {
        { 127, 255, 255, 255, 0, 0, 0, 1, 140 }, { 0, 1, 0, 0, 0, 1, 0, 0, 141 },
        { 128, 0, 0, 0, 0, 0, 0, 1, 142 }, { 128, 0, 0, 0, 255, 255, 255, 255, 143 },
        { 0, 0, 0, 9, 0, 0, 0, 0, 143 }, { 0, 0, 0, 9, 0, 0, 0, 0, 145 }
    };
    for (size_t i = 0; i < sizeof raising / sizeof raising[0]; i++) {
        const uint8_t *c = raising[i];
        BENCH("finished steps=5 main=1", 240, 0, 0, 1, 0, 2, 0, 160, 0, 23,
              56, c[0], c[1], c[2], c[3], 56, c[4], c[5], c[6], c[7], c[8], 161, 73, 73);
    }
    /* 7 160 -> 18; 10 56 -2^31; 15 144; 16 161; 17 73; 18 73 */
    BENCH("finished steps=4 main=1",
          240, 0, 0, 1, 0, 1, 0, 160, 0, 18, 56, 128, 0, 0, 0, 144, 161, 73, 73);
    /* 2, caught: 7 160 -> 23; 10 57; 11 31 2; 14 64 0 1; 19 54 7; 21 161; 22 73; 23 73 */
    BENCH("finished steps=4 main=2",
          240, 0, 0, 1, 0, 1, 1, 160, 0, 23, 57, 31, 0, 2, 64, 0, 0, 0, 1, 54, 7, 161, 73, 73);
    /* 7 160 -> 20; 10 54 5; 12 57; 13 32 2; 16 54 7; 18 161; 19 73; 20 73 */
    BENCH("finished steps=5 main=2",
          240, 0, 0, 1, 0, 1, 1, 160, 0, 20, 54, 5, 57, 32, 0, 2, 54, 7, 161, 73, 73);
    /* 7 160 -> 19; 10 57; 11 57; 12 33 2; 15 54 7; 17 161; 18 73; 19 73 */
    BENCH("finished steps=5 main=2",
          240, 0, 0, 1, 0, 1, 2, 160, 0, 19, 57, 57, 33, 0, 2, 54, 7, 161, 73, 73);
    /* 3, caught: 7 160 -> 27; 10 form; 15 31 2; 18 64 0 1; 23 54 7; 25 161; 26 73; 27 73 */
    BENCH("finished steps=4 main=3",
          240, 0, 0, 1, 0, 1, 1, 160, 0, 27, 36, 0, 0, 0, 0, 31, 0, 2, 64, 0, 0, 0, 1,
          54, 7, 161, 73, 73);
    /* 7 160 -> 23; 10 57; 11 form; 16 33 2; 19 54 7; 21 161; 22 73; 23 73 */
    BENCH("finished steps=5 main=3",
          240, 0, 0, 1, 0, 1, 2, 160, 0, 23, 57, 36, 0, 0, 0, 0, 33, 0, 2, 54, 7, 161, 73, 73);
    /* 7 160 -> 24; 10 54 5; 12 form; 17 32 2; 20 54 7; 22 161; 23 73; 24 73 */
    g = run_out(__LINE__, reply(REF_FINISHED, 0, 0, 5),
                BYTES(240, 0, 0, 1, 0, 1, 1, 160, 0, 24, 54, 5, 36, 0, 0, 0, 0, 32, 0, 2,
                      54, 7, 161, 73, 73));
    LIST_IS(g, MAIN, 3);
    LIST_IS(g, PTR, 0);
    LIST_IS(g, HEAP, 4, 0, 0x01000000, 2);
    rig_free(&g);
    /* 2, caught: 7 160 -> 16; 10 57; 11 30 2; 14 161; 15 73; 16 73 */
    BENCH("finished steps=4 main=2",
          240, 0, 0, 1, 0, 1, 1, 160, 0, 16, 57, 30, 0, 2, 161, 73, 73);
    /* 3, caught: 7 160 -> 20; 10 form; 15 30 2; 18 161; 19 73; 20 73 */
    BENCH("finished steps=4 main=3",
          240, 0, 0, 1, 0, 1, 1, 160, 0, 20, 36, 0, 0, 0, 0, 30, 0, 2, 161, 73, 73);
    /* 4, caught: 7 160 -> 24; 10 form; 15 64 0 1; 20 54 7; 22 161; 23 73; 24 73 */
    for (size_t h = 2; h <= 4; h++) {
        g = rig_new(BYTES(240, 0, 0, 1, 0, 1, 1, 160, 0, 24, 36, 0, 0, 0, 0, 64, 0, 0, 0, 1,
                          54, 7, 161, 73, 73), 75, 1, 1, 10, h, REG_BYTES);
        EXPECT(is(do_start(&g), REF_READY, 0, 0, 0));
        ref_reply r = do_run(&g, 100);
        if (h < 4) {
            EXPECT(is(r, REF_FINISHED, 0, 0, 3));
            LIST_IS(g, MAIN, 4);
            LIST_IS(g, HEAP, 2, 0);
        } else {
            EXPECT(is(r, REF_FINISHED, 0, 0, 6));
            LIST_IS(g, MAIN, 7);
            LIST_IS(g, HEAP, 4, 0, 0x01000000, 2);
        }
        rig_free(&g);
    }
    /* a raised word, caught: 7 160 -> 13; 10 54 -5; 12 162; 13 73 */
    BENCH("finished steps=4 main=-5",
          240, 0, 0, 1, 0, 1, 0, 160, 0, 13, 54, 251, 162, 73);
    /* uncaught, the word stays: 7 54 -5; 9 162 */
    BENCH("uncaught -5 at 9 steps=1 main=-5", 240, 0, 0, 0, 0, 1, 0, 54, 251, 162);
    BENCH("uncaught 0 at 9 steps=1 main=0", 240, 0, 0, 0, 0, 1, 0, 54, 0, 162);
    g = run_out(__LINE__, reply(REF_UNCAUGHT, 0xfffffffbu, 9, 1),
                BYTES(240, 0, 0, 0, 0, 1, 0, 54, 251, 162));
    EXPECT(reg_of(&g, PLACE) == 9 && reg_of(&g, MTOP) == 1 && reg_of(&g, STATE) == 0);
    rig_free(&g);
}

/* ---- handlers and frames ---- */

#define ACROSS_FILE \
    240, 0, 0, 2, 0, 2, 1, 54, 4, 160, 0, 20, 57, 54, 6, 72, 0, 1, 161, 73, 73, \
    240, 1, 1, 1, 0, 2, 2, 54, 2, 21, 0, 0, 72, 0, 2, 64, 0, 1, 0, 1, 73, \
    240, 1, 1, 1, 0, 2, 1, 54, 44, 162

#define NESTED_FILE \
    240, 0, 0, 1, 0, 3, 0, 160, 0, 20, 54, 1, 160, 0, 18, 54, 9, 162, 140, 162, 73

#define MIDDLE_FILE \
    240, 0, 0, 2, 0, 2, 0, 54, 100, 54, 20, 72, 0, 1, 73, \
    240, 1, 0, 1, 0, 2, 0, 160, 0, 18, 54, 7, 72, 0, 2, 161, 140, 73, 142, 73, \
    240, 0, 0, 0, 0, 2, 0, 54, 1, 54, 0, 143, 64, 0, 1, 0, 0, 73

static void test_handlers(void)
{
    rig g;

    /* 7 160 -> 20; 10 54 1; 12 160 -> 18; 15 54 9; 17 162 to 18 with 1, 9;
       18 140; 19 162 of 10 to 20; 20 73 */
    BENCH("finished steps=8 main=10", NESTED_FILE);
    /* both closed: 7 160 -> 20; 10 160 -> 18; 13 161; 14 161; 15 54 7; 17 73;
       18 161; 19 73; 20 73 */
    BENCH("finished steps=6 main=7",
          240, 0, 0, 1, 0, 1, 0, 160, 0, 20, 160, 0, 18, 161, 161, 54, 7, 73, 161, 73, 73);
    /* the second record doesn't fit in 10 or 14 words: 5 goes to the outer one */
    for (size_t c = 10; c <= 15; c++) {
        g = rig_new(BYTES(240, 0, 0, 1, 0, 1, 0, 160, 0, 20, 160, 0, 18, 161, 161, 54, 7, 73,
                          161, 73, 73), 63, 1, 1, c, 2, REG_BYTES);
        EXPECT(is(do_start(&g), REF_READY, 0, 0, 0));
        EXPECT(is(do_run(&g, 100), REF_FINISHED, 0, 0, c < 15 ? 3 : 6));
        EXPECT(g.list[MAIN][0] == (c < 15 ? 5 : 7));
        rig_free(&g);
    }
    /* a handler is closed when it is used: 7 160 -> 13; 10 54 9; 12 162; 13 162 */
    BENCH("uncaught 9 at 13 steps=3 main=9",
          240, 0, 0, 0, 0, 1, 0, 160, 0, 13, 54, 9, 162, 162);
    /* a closed handler catches nothing: 7 160 -> 14; 10 161; 11 54 3; 13 162; 14 162 */
    BENCH("uncaught 3 at 13 steps=3 main=3",
          240, 0, 0, 0, 0, 1, 0, 160, 0, 14, 161, 54, 3, 162, 162);

    /* 7 54 4; 9 160 -> 20; 12 57; 13 54 6; 15 72 1; 18 161; 19 73; 20 73.
       21 head: 28 54 2; 30 21 0; 33 72 2; 36 64 1 1; 41 73.
       42 head: 49 54 44; 51 162. Both stacks cut to 1 and 0, 44 pushed. */
    g = run_out(__LINE__, reply(REF_FINISHED, 0, 0, 11), BYTES(ACROSS_FILE));
    LIST_IS(g, MAIN, 4, 44);
    LIST_IS(g, PTR, 0);
    LIST_IS(g, CTL, 0);
    rig_free(&g);
    /* before and after the raise */
    g = bench_rig(BYTES(ACROSS_FILE));
    EXPECT(is(do_start(&g), REF_READY, 0, 0, 0));
    EXPECT(is(do_run(&g, 9), REF_SPENT, 0, 0, 9));
    LIST_IS(g, MAIN, 4, 6, 2, 44);
    LIST_IS(g, CTL, 0, 0, 0, 0, 0, 9, 1, 0, 1, 0, 1, 0, 1, 18, 1, 2, 1, 2, 36, 3);
    EXPECT(reg_of(&g, PLACE) == 51 && reg_of(&g, FRAME) == 4 && reg_of(&g, HANDLER) == 2);
    EXPECT(reg_of(&g, MTOP) == 4 && reg_of(&g, PTOP) == 2 && reg_of(&g, CTOP) == 20);
    EXPECT(is(do_run(&g, 1), REF_SPENT, 0, 0, 1));
    LIST_IS(g, MAIN, 4, 44);
    LIST_IS(g, PTR, 0);
    LIST_IS(g, CTL, 0);
    EXPECT(reg_of(&g, PLACE) == 20 && reg_of(&g, FRAME) == 1 && reg_of(&g, HANDLER) == 0);
    EXPECT(reg_of(&g, MTOP) == 2 && reg_of(&g, PTOP) == 0 && reg_of(&g, CTOP) == 5);
    rig_free(&g);

    /* a raise brings back the handler's frame: 7 54 50; 9 form -> 2; 14 160 -> 26;
       17 57; 18 54 9; 20 72 1; 23 3 0 3; 26 20 0; 29 21 0; 32 73.
       33 head: 40 162 of 9 */
    g = run_out(__LINE__, reply(REF_FINISHED, 0, 0, 10),
                BYTES(240, 0, 0, 3, 2, 3, 2, 54, 50, 36, 0, 0, 0, 0, 160, 0, 26, 57, 54, 9,
                      72, 0, 1, 3, 0, 3, 20, 0, 0, 21, 0, 0, 73,
                      240, 1, 1, 0, 0, 1, 1, 162));
    LIST_IS(g, MAIN, 50, 9, 50);
    LIST_IS(g, PTR, 2, 2);
    rig_free(&g);

    /* also bases that are not 0: 7 54 50; 9 form -> 2; 14 54 60; 16 form -> 4;
       21 72 1; 24 73. 25 head: 32 160 + 16 -> 41; 35 72 2; 38 3 0 3; 41 20 0;
       44 21 0; 47 73. 48 head: 55 54 8; 57 162 */
    g = run_out(__LINE__, reply(REF_FINISHED, 0, 0, 13),
                BYTES(240, 0, 0, 4, 3, 4, 3, 54, 50, 36, 0, 0, 0, 0, 54, 60, 36, 0, 0, 0, 0,
                      72, 0, 1, 73,
                      240, 1, 1, 3, 2, 3, 2, 160, 0, 16, 72, 0, 2, 3, 0, 3, 20, 0, 0,
                      21, 0, 0, 73, 240, 0, 0, 0, 0, 1, 0, 54, 8, 162));
    LIST_IS(g, MAIN, 50, 60, 8, 60);
    LIST_IS(g, PTR, 2, 4, 4);
    rig_free(&g);

    /* 7 54 100; 9 54 20; 11 72 1; 14 73.
       15 head: 22 160 + 18 -> 33; 25 54 7; 27 72 2; 30 161; 31 140; 32 73;
       33 142: 20 - 1; 34 73.
       35 head: 42 54 1; 44 54 0; 46 143 raises 1; 47 64 1 0; 52 73 */
    BENCH("finished steps=12 main=100,19", MIDDLE_FILE);

    /* from a handler's code to an outer frame: 7 160 -> 15; 10 72 1; 13 161;
       14 73; 15 73. 16 head: 23 160 + 13 -> 29; 26 54 5; 28 162; 29 54 1;
       31 140; 32 162 of 6 */
    BENCH("finished steps=9 main=6",
          240, 0, 0, 1, 0, 1, 0, 160, 0, 15, 72, 0, 1, 161, 73, 73,
          240, 0, 0, 1, 0, 2, 0, 160, 0, 13, 54, 5, 162, 54, 1, 140, 162);
    /* uncaught deep in calls, the whole stack shows: 7 54 1; 9 72 1; 12 73.
       13 head: 20 54 2; 22 54 0; 24 145 raises 1; 25 73 */
    BENCH("uncaught 1 at 24 steps=4 main=1,2,0",
          240, 0, 0, 2, 0, 2, 0, 54, 1, 72, 0, 1, 73,
          240, 0, 0, 1, 0, 2, 0, 54, 2, 54, 0, 145, 73);
    /* what was stored under the floor stays: 7 54 1; 9 160 -> 20; 12 54 2;
       14 22 0; 17 54 3; 19 162; 20 73 with 2, 3 */
    BENCH("finished steps=7 main=2,3",
          240, 0, 0, 2, 0, 2, 0, 54, 1, 160, 0, 20, 54, 2, 22, 0, 0, 54, 3, 162, 73);
    /* a handler opened again and again: 7 160 -> 16; 10 54 0; 12 54 0; 14 143;
       15 162; 16 64 1 0; 21 bjump 17 -> 7. Six steps a round (160, 54, 54, 143,
       64, 3): 166 rounds, then 160, 54, 54, 143: the code is on the stack */
    BENCH("spent steps=1000 main=1",
          240, 0, 0, 0, 0, 2, 0, 160, 0, 16, 54, 0, 54, 0, 143, 162,
          64, 0, 1, 0, 0, 3, 0, 17);
}

/* ---- a deep state ---- */

/*
 * 0 head x 3 y 2: 7 54 1; 9 54 2; 11 57; 12 form 1 1; 17 160 -> 44; 20 21 0;
 * 23 59; 24 54 3; 26 160 -> 43; 29 58; 30 54 5; 32 72 1; 35 161; 36 161;
 * 37 64 2 1; 42 73; 43 162; 44 64 2 1; 49 73.
 * 50 head a 1 b 1 x 2 y 2: 57 54 6; 59 57; 60 form 1 1; 65 72 2; 68 64 1 1; 73 73.
 * 74 head a 1 b 1 r 1 x 3 y 2: 81 54 7; 83 160 + 27 -> 101; 86 54 8; 88 57;
 * 89 64 1 1; 94 161; 95 64 1 1; 100 73; 101 64 2 1; 106 73.
 */
#define DEEP_FILE \
    240, 0, 0, 0, 0, 3, 2, 54, 1, 54, 2, 57, 36, 0, 1, 0, 1, 160, 0, 44, 21, 0, 0, 59, \
    54, 3, 160, 0, 43, 58, 54, 5, 72, 0, 1, 161, 161, 64, 0, 2, 0, 1, 73, 162, \
    64, 0, 2, 0, 1, 73, \
    240, 1, 1, 0, 0, 2, 2, 54, 6, 57, 36, 0, 1, 0, 1, 72, 0, 2, 64, 0, 1, 0, 1, 73, \
    240, 1, 1, 1, 0, 3, 2, 54, 7, 160, 0, 27, 54, 8, 57, 64, 0, 1, 0, 1, 161, \
    64, 0, 1, 0, 1, 73, 64, 0, 2, 0, 1, 73

static rig deep_rig(void)
{
    rig g = rig_new(BYTES(DEEP_FILE), 3 * 107, 8, 6, 37, 12, REG_BYTES);
    EXPECT(is(do_start(&g), REF_READY, 0, 0, 0));
    return g;
}

/* The seven registers after each step. */
static const uint32_t deep_trace[31][SUM] = {
    { 7, 1, 0, 0, 0, 5, 0 },   { 9, 1, 0, 1, 0, 5, 0 },   { 11, 1, 0, 2, 0, 5, 0 },
    { 12, 1, 0, 2, 1, 5, 0 },  { 17, 1, 0, 1, 1, 5, 0 },  { 20, 1, 2, 1, 1, 10, 0 },
    { 23, 1, 2, 1, 2, 10, 0 }, { 24, 1, 2, 1, 1, 10, 0 }, { 26, 1, 2, 2, 1, 10, 0 },
    { 29, 1, 3, 2, 1, 15, 0 }, { 30, 1, 3, 2, 2, 15, 0 }, { 32, 1, 3, 3, 2, 15, 0 },
    { 57, 4, 3, 3, 2, 20, 0 }, { 59, 4, 3, 4, 2, 20, 0 }, { 60, 4, 3, 4, 3, 20, 0 },
    { 65, 4, 3, 3, 3, 20, 0 }, { 81, 5, 3, 3, 3, 25, 0 }, { 83, 5, 3, 4, 3, 25, 0 },
    { 86, 5, 6, 4, 3, 30, 0 }, { 88, 5, 6, 5, 3, 30, 0 }, { 89, 5, 6, 5, 4, 30, 0 },
    { 94, 5, 6, 4, 3, 30, 0 }, { 95, 5, 3, 4, 3, 25, 0 }, { 100, 5, 3, 3, 2, 25, 0 },
    { 68, 4, 3, 3, 2, 20, 0 }, { 73, 4, 3, 2, 1, 20, 0 }, { 35, 1, 3, 2, 1, 15, 0 },
    { 36, 1, 2, 2, 1, 10, 0 }, { 37, 1, 0, 2, 1, 5, 0 },  { 42, 1, 0, 0, 0, 5, 0 },
    { 0, 0, 0, 0, 0, 0, 1 }
};

/* Places of one procedure with equal states in the map. */
static bool equal_places(uint32_t a, uint32_t b)
{
    static const uint32_t classes[][3] = {
        { 7, 42, 49 }, { 12, 37, 44 }, { 20, 24, 24 }, { 26, 36, 36 }, { 29, 35, 35 },
        { 57, 68, 68 }, { 83, 95, 95 }, { 86, 94, 94 }, { 100, 106, 106 }
    };
    for (size_t i = 0; i < sizeof classes / sizeof classes[0]; i++) {
        bool in_a = false, in_b = false;
        for (int k = 0; k < 3; k++) {
            in_a = in_a || classes[i][k] == a;
            in_b = in_b || classes[i][k] == b;
        }
        if (in_a && in_b)
            return true;
    }
    return a == b;
}

typedef ref_reply (*judge)(const rig *sound, int list, size_t i, uint32_t v);

static ref_reply sound_reply(const rig *g)
{
    return reply(reg_of(g, STATE) == 1 ? REF_FINISHED : REF_SPENT, 0, 0, 0);
}

/* Puts many other values in every word of a list, and tests run's answer. */
static void damage(int line, const rig *sound, int list, judge expected)
{
    size_t len = list == REGS ? REG_WORDS : sound->len[list];
    for (size_t i = 0; i < len; i++) {
        uint32_t old = word_of(sound, list, i);
        for (uint32_t t = 0; t < 120 + 32 + 8; t++) {
            uint32_t v = t < 120 ? t : t < 152 ? old ^ (1u << (t - 120))
                : t < 156 ? old + (t - 151) : t < 159 ? old - (t - 155) : 0xffffffffu;
            rig g = rig_copy(sound);
            set_word(&g, list, i, v);
            rig before = rig_copy(&g);
            ref_reply want = v == old ? sound_reply(sound) : expected(sound, list, i, v);
            ref_reply r = do_run(&g, 0);
            bool ok = is(r, want.kind, want.number, want.place, want.steps);
            expect(ok, line, "the answer on a changed word");
            if (!ok && failures <= 50)
                printf("    list %d word %zu from %" PRIu32 " to %" PRIu32
                       ": kind %" PRIu32 " number %" PRIu32 " place %" PRIu32 "\n",
                       list, i, old, v, r.kind, r.number, r.place);
            expect(same_rig(&g, &before), line, "nothing is written");
            rig_free(&g);
            rig_free(&before);
        }
    }
}

/* 13 for a sum, 12 for any other word with one sound value. */
static ref_reply judge_fixed(const rig *sound, int list, size_t i, uint32_t v)
{
    (void)sound; (void)v;
    return reply(REF_REFUSED, list == REGS && i >= SUM ? 13 : 12, 0, 0);
}

/* Any word below the main top is sound. */
static ref_reply judge_main(const rig *sound, int list, size_t i, uint32_t v)
{
    (void)list; (void)v;
    return i < reg_of(sound, MTOP) ? sound_reply(sound) : reply(REF_REFUSED, 12, 0, 0);
}

/* The place may be another one of equal state. */
static ref_reply judge_deep_regs(const rig *sound, int list, size_t i, uint32_t v)
{
    if (i == PLACE && equal_places(v, reg_of(sound, PLACE)))
        return sound_reply(sound);
    return judge_fixed(sound, list, i, v);
}

/* After step 20 objects lie at 2 and 6. */
static ref_reply judge_deep_ptr(const rig *sound, int list, size_t i, uint32_t v)
{
    (void)list;
    if (i < reg_of(sound, PTOP) && (v == 0 || v == 2 || v == 6))
        return sound_reply(sound);
    return reply(REF_REFUSED, 12, 0, 0);
}

/* The heap after step 20: 10, 2, view of 1 and 1 (nil, 2), view (nil, 6), 0, 0. */
static ref_reply judge_deep_heap(const rig *sound, int list, size_t i, uint32_t v)
{
    (void)list;
    uint32_t at = 0;
    bool pointer = v == 0 || v == 2 || v == 6;
    switch (i) {
    case 0:
        if (v < 2 || v > 12)
            at = 0;
        else if (v == 2)
            at = 1; /* the root has no object */
        else if (v == 3)
            at = 2; /* no size word below the mark */
        else if (v == 4 || v == 5)
            at = 3; /* past the mark */
        else if (v == 6 || v == 7)
            at = 6; /* nonzero free word; no size word */
        else if (v == 8 || v == 9)
            at = 7;
        else
            at = 10; /* a header of kind 0 */
        break;
    case 1: case 4: case 8:
        if (pointer)
            return sound_reply(sound);
        at = (uint32_t)i;
        break;
    case 2: case 6:
        /* kind 1 with up to two pointer words: words 5 and 9 hold 2 and 6;
           or a pointer vector of one element */
        if ((v >= 0x01000000u && v <= 0x01000002u) || v == 0x03000001u)
            return sound_reply(sound);
        at = v >= 0x01000000u && v <= 0x01ffffffu ? (uint32_t)i + 1 : (uint32_t)i;
        break;
    case 3:
        if (v == 8) /* one object of 8 words: 6 on the pointer stack is none */
            return reply(REF_REFUSED, 12, 0, 0);
        at = v == 3 ? 5 : v == 5 ? 7 : v == 6 ? 8 : v == 7 ? 9 : 3;
        break;
    case 7:
        at = v == 3 ? 9 : 7;
        break;
    case 5: case 9:
        return sound_reply(sound);
    default: /* words 10 and 11 are free words */
        at = (uint32_t)i;
        break;
    }
    return reply(REF_REFUSED, 11, at, 0);
}

static void test_deep(void)
{
    entry deep_map[] = {
        { 7, 0, 0, N }, { 9, 1, 0, N }, { 11, 2, 0, N }, { 12, 2, 1, N }, { 17, 1, 1, N },
        { 20, 1, 1, 17 }, { 23, 1, 2, 17 }, { 24, 1, 1, 17 }, { 26, 2, 1, 17 },
        { 29, 2, 1, 26 }, { 30, 2, 2, 26 }, { 32, 3, 2, 26 }, { 35, 2, 1, 26 },
        { 36, 2, 1, 17 }, { 37, 2, 1, N }, { 42, 0, 0, N }, { 43, 3, 1, 17 },
        { 44, 2, 1, N }, { 49, 0, 0, N },
        { 57, 1, 1, N }, { 59, 2, 1, N }, { 60, 2, 2, N }, { 65, 1, 2, N }, { 68, 1, 1, N },
        { 73, 0, 0, N },
        { 81, 1, 1, N }, { 83, 2, 1, N }, { 86, 2, 1, 83 }, { 88, 3, 1, 83 }, { 89, 3, 2, 83 },
        { 94, 2, 1, 83 }, { 95, 2, 1, N }, { 100, 1, 0, N }, { 101, 3, 1, N }, { 106, 1, 0, N }
    };
    MAP(deep_map, DEEP_FILE);
    BENCH("finished steps=30 main=", DEEP_FILE);

    /* step by step, and in one run */
    rig g = deep_rig();
    for (uint32_t k = 0; k <= 30; k++) {
        if (k > 0)
            EXPECT(is(do_run(&g, 1), k == 30 ? REF_FINISHED : REF_SPENT, 0, 0, 1));
        rig once = deep_rig();
        EXPECT(is(do_run(&once, k), k == 30 ? REF_FINISHED : REF_SPENT, 0, 0, k));
        EXPECT(same_rig(&g, &once));
        for (size_t i = 0; i < SUM; i++)
            EXPECT(reg_of(&g, i) == deep_trace[k][i]);
        EXPECT(has_sums(&g));
        /* all registers and control words changed, at every step */
        damage(__LINE__, &g, REGS, judge_deep_regs);
        damage(__LINE__, &g, CTL, judge_fixed);
        rig_free(&once);
    }
    LIST_IS(g, MAIN, 0);
    LIST_IS(g, PTR, 0);
    LIST_IS(g, CTL, 0);
    LIST_IS(g, HEAP, 10, 2, 0x01000001, 4, 0, 2, 0x01000001, 4, 0, 6);
    /* finished: procedure 0 has no results */
    damage(__LINE__, &g, MAIN, judge_fixed);
    damage(__LINE__, &g, PTR, judge_fixed);
    rig_free(&g);

    g = deep_rig();
    EXPECT(is(do_run(&g, 20), REF_SPENT, 0, 0, 20));
    LIST_IS(g, MAIN, 1, 3, 5, 7, 8);
    LIST_IS(g, PTR, 2, 2, 6, 0);
    LIST_IS(g, CTL, 0, 0, 0, 0, 0, 17, 1, 1, 1, 0, 26, 2, 1, 1, 2, 2, 1, 1, 35, 1,
            2, 2, 2, 68, 4, 83, 4, 3, 5, 3);
    LIST_IS(g, HEAP, 10, 2, 0x01000001, 4, 0, 2, 0x01000001, 4, 0, 6);
    damage(__LINE__, &g, MAIN, judge_main);
    damage(__LINE__, &g, PTR, judge_deep_ptr);
    damage(__LINE__, &g, HEAP, judge_deep_heap);
    rig_free(&g);

    /* every frame fits with x and y: after step 16 frame 5 has bases 2, 2 and
       x 3, y 2, the tops are 3 and 3 */
    for (size_t m = 3; m <= 5; m++)
        for (size_t p = 3; p <= 4; p++) {
            g = deep_rig();
            EXPECT(is(do_run(&g, 16), REF_SPENT, 0, 0, 16));
            g.len[MAIN] = m;
            g.len[PTR] = p;
            if (m < 5 || p < 4)
                EXPECT(is_refused(do_run(&g, 1), 12, 0));
            else
                EXPECT(is(do_run(&g, 14), REF_FINISHED, 0, 0, 14));
            rig_free(&g);
        }
    /* a control list that ends with the last record */
    g = deep_rig();
    EXPECT(is(do_run(&g, 20), REF_SPENT, 0, 0, 20));
    g.len[CTL] = 29;
    EXPECT(is_refused(do_run(&g, 1), 12, 0));
    g.len[CTL] = 30;
    EXPECT(is(do_run(&g, 10), REF_FINISHED, 0, 0, 10));
    rig_free(&g);
    /* words past the last whole record count too */
    g = deep_rig();
    g.list[CTL][36] = 1;
    EXPECT(is_refused(do_run(&g, 1), 12, 0));
    rig_free(&g);
}

/* ---- cut runs ---- */

static void cut_runs(int line, uint32_t kind, uint32_t total, const uint8_t *file, size_t file_len)
{
    for (uint32_t n = 0; n <= total; n++)
        for (uint32_t m = 0; n + m <= total + 2; m++) {
            rig one = rig_new(file, file_len, 3 * file_len, 20, 20, 60, 40, REG_BYTES);
            rig two = rig_copy(&one);
            expect(is(do_start(&one), REF_READY, 0, 0, 0), line, "ready");
            expect(is(do_start(&two), REF_READY, 0, 0, 0), line, "ready");
            ref_reply whole = do_run(&one, n + m);
            ref_reply first = do_run(&two, n);
            if (n < total)
                expect(is(first, REF_SPENT, 0, 0, n), line, "spent");
            ref_reply second = do_run(&two, m);
            /* finished with the last step, uncaught only with one to spare */
            bool ended = kind == REF_FINISHED ? n + m >= total : n + m > total;
            if (kind == REF_UNCAUGHT && m == 0 && n == total)
                ended = false;
            expect(whole.kind == (ended ? kind : (uint32_t)REF_SPENT), line, "the ending");
            expect(second.kind == whole.kind && second.number == whole.number
                   && second.place == whole.place, line, "the same answer");
            expect(whole.steps == (n + m < total ? n + m : total), line, "the steps");
            expect(first.steps + second.steps == whole.steps, line, "the steps add up");
            expect(same_rig(&one, &two), line, "the same memory");
            expect(has_sums(&one), line, "the sums stay");
            rig_free(&one);
            rig_free(&two);
        }
}

static void test_cuts(void)
{
    cut_runs(__LINE__, REF_FINISHED, 4, BYTES(A_FILE));
    cut_runs(__LINE__, REF_FINISHED, 5, BYTES(B_FILE));
    cut_runs(__LINE__, REF_FINISHED, 6, BYTES(B3_FILE));
    cut_runs(__LINE__, REF_UNCAUGHT, 2, BYTES(240, 0, 0, 1, 0, 2, 0, 54, 5, 54, 0, 143, 73));
    cut_runs(__LINE__, REF_FINISHED, 47, BYTES(FACTORIAL(5)));
    cut_runs(__LINE__, REF_FINISHED, 11, BYTES(ACROSS_FILE));
    cut_runs(__LINE__, REF_FINISHED, 8, BYTES(NESTED_FILE));
    cut_runs(__LINE__, REF_FINISHED, 12, BYTES(MIDDLE_FILE));
    cut_runs(__LINE__, REF_FINISHED, 30, BYTES(DEEP_FILE));
    /* 60 control words are 12 records: 11 calls */
    cut_runs(__LINE__, REF_UNCAUGHT, 11, BYTES(HEAD0, 72, 0, 0, 73));
}

/* ---- refusals 10 to 12, and 13 for the registers' length ---- */

static void lengths(int line, size_t m, size_t p, size_t c, size_t h, bool fine)
{
    rig g = rig_new(BYTES(HEAD0, 73), 24, m, p, c, h, REG_BYTES);
    put_sums(&g); /* else run answers 13 */
    rig before = rig_copy(&g);
    ref_reply r = do_start(&g);
    if (fine) {
        expect(is(r, REF_READY, 0, 0, 0), line, "ready");
        expect(is(do_run(&g, 5), REF_FINISHED, 0, 0, 1), line, "finished");
    } else {
        expect(is_refused(r, 10, 0), line, "10 by start");
        expect(same_state(&g, &before), line, "nothing but the map is written");
        expect(g.map[21] == 0 && g.map[22] == 0 && g.map[23] == N && g.map[20] == N, line,
               "the finished map stays");
        expect(is_refused(do_run(&g, 5), 10, 0), line, "10 by run");
        expect(same_state(&g, &before), line, "nothing but the map is written");
    }
    rig_free(&g);
    rig_free(&before);
}

static void test_lengths(void)
{
    lengths(__LINE__, 1, 1, 5, 2, true);
    lengths(__LINE__, 4096, 4096, 1280, 16384, true);
    lengths(__LINE__, 0, 1, 5, 2, false);
    lengths(__LINE__, 4097, 1, 5, 2, false);
    lengths(__LINE__, 1, 0, 5, 2, false);
    lengths(__LINE__, 1, 4097, 5, 2, false);
    lengths(__LINE__, 1, 1, 0, 2, false);
    lengths(__LINE__, 1, 1, 4, 2, false);
    lengths(__LINE__, 1, 1, 1281, 2, false);
    lengths(__LINE__, 1, 1, 5, 0, false);
    lengths(__LINE__, 1, 1, 5, 1, false);
    lengths(__LINE__, 1, 1, 5, 16385, false);

    /* below procedure 0's x, y; another procedure's don't count */
    rig g = rig_new(BYTES(A_FILE), 39, 1, 1, 5, 2, REG_BYTES);
    EXPECT(is_refused(do_start(&g), 10, 0));
    put_sums(&g);
    EXPECT(is_refused(do_run(&g, 1), 10, 0));
    rig_free(&g);
    g = rig_new(BYTES(240, 0, 0, 0, 0, 0, 3, 73), 24, 1, 2, 5, 2, REG_BYTES);
    EXPECT(is_refused(do_start(&g), 10, 0));
    rig_free(&g);
    g = rig_new(BYTES(240, 0, 0, 0, 0, 0, 3, 73), 24, 1, 3, 5, 2, REG_BYTES);
    EXPECT(is(do_start(&g), REF_READY, 0, 0, 0));
    rig_free(&g);
    g = rig_new(BYTES(HEAD0, 73, 240, 0, 0, 0, 0, 99, 99, 73), 48, 1, 1, 5, 2, REG_BYTES);
    EXPECT(is(do_start(&g), REF_READY, 0, 0, 0));
    rig_free(&g);
    /* in a finished state too */
    g = rig_new(BYTES(A_FILE), 39, 2, 1, 5, 2, REG_BYTES);
    EXPECT(is(do_start(&g), REF_READY, 0, 0, 0));
    EXPECT(is(do_run(&g, 9), REF_FINISHED, 0, 0, 4));
    g.len[MAIN] = 1;
    EXPECT(is_refused(do_run(&g, 9), 10, 0));
    rig_free(&g);

    /* 10 before 11 before 12; start has no 12 */
    g = rig_new(BYTES(A_FILE), 39, 1, 1, 5, 2, REG_BYTES);
    put_sums(&g);
    g.list[HEAP][0] = 1;
    EXPECT(is_refused(do_start(&g), 10, 0));
    EXPECT(is_refused(do_run(&g, 9), 10, 0));
    rig_free(&g);
    g = rig_new(BYTES(A_FILE), 39, 2, 1, 5, 2, REG_BYTES);
    put_sums(&g);
    g.list[HEAP][0] = 1;
    EXPECT(is_refused(do_start(&g), 11, 0));
    EXPECT(is_refused(do_run(&g, 9), 11, 0));
    g.list[HEAP][0] = 2;
    EXPECT(is_refused(do_run(&g, 9), 12, 0));
    EXPECT(is(do_start(&g), REF_READY, 0, 0, 0));
    rig_free(&g);
    /* a register list of another length, start and run */
    for (size_t len = 0; len <= 80; len++) {
        g = rig_new(BYTES(A_FILE), 39, 2, 1, 5, 2, len);
        rig before = rig_copy(&g);
        if (len != REG_BYTES) {
            EXPECT(is_refused(do_start(&g), 13, 0));
            EXPECT(same_state(&g, &before));
            EXPECT(is_refused(do_run(&g, 1), 13, 0));
            EXPECT(same_state(&g, &before));
        } else {
            EXPECT(is(do_start(&g), REF_READY, 0, 0, 0));
        }
        EXPECT(g.map[3 * 11] == 2 && g.map[3 * 10] == N);
        rig_free(&g);
        rig_free(&before);
    }
    /* no lists at all */
    EXPECT(is_refused(ref_start(NULL, 0, NULL, 0, NULL, 0, NULL, 0, NULL, 0, NULL, 0, NULL, 0),
                      1, 0));
    EXPECT(is_refused(ref_run(NULL, 0, NULL, 0, NULL, 0, NULL, 0, NULL, 0, NULL, 0, NULL, 0, 1),
                      1, 0));
    g = rig_new(BYTES(A_FILE), 0, 0, 0, 0, 0, 0);
    EXPECT(is_refused(do_start(&g), 2, 0));
    EXPECT(is_refused(do_run(&g, 3), 2, 0));
    rig_free(&g);
    g = rig_new(BYTES(A_FILE), 39, 0, 0, 0, 0, 0);
    EXPECT(is_refused(do_start(&g), 13, 0));
    EXPECT(is_refused(do_run(&g, 3), 13, 0));
    rig_free(&g);
    g = rig_new(BYTES(A_FILE), 39, 0, 0, 0, 0, REG_BYTES);
    put_sums(&g);
    EXPECT(is_refused(do_start(&g), 10, 0));
    EXPECT(is_refused(do_run(&g, 3), 10, 0));
    rig_free(&g);
}

/* 11 at a place, or fine (-1), by start and by run. */
static void heap_case(int line, int place, const uint32_t *heap, size_t len)
{
    rig g = rig_new(BYTES(HEAD0, 73), 24, 1, 1, 5, len, REG_BYTES);
    /* a started state, with this heap put in its place */
    expect(is(do_start(&g), REF_READY, 0, 0, 0), line, "ready");
    memcpy(g.list[HEAP], heap, len * 4);
    rig before = rig_copy(&g);
    ref_reply r = do_run(&g, 0);
    if (place < 0)
        expect(is(r, REF_SPENT, 0, 0, 0), line, "spent");
    else
        expect(is_refused(r, 11, (uint32_t)place), line, "11 by run");
    if (place >= 0 && !is_refused(r, 11, (uint32_t)place))
        printf("    got: kind %" PRIu32 " number %" PRIu32 " place %" PRIu32 "\n",
               r.kind, r.number, r.place);
    expect(same_rig(&g, &before), line, "nothing is written");
    r = do_start(&g);
    if (place < 0)
        expect(is(r, REF_READY, 0, 0, 0), line, "ready");
    else
        expect(is_refused(r, 11, (uint32_t)place), line, "11 by start");
    expect(same_rig(&g, &before), line, "nothing is written");
    rig_free(&g);
    rig_free(&before);
}

#define HEAP_CASE(place, ...) \
    heap_case(__LINE__, place, (const uint32_t[]){ __VA_ARGS__ }, \
              sizeof((const uint32_t[]){ __VA_ARGS__ }) / 4)

/*
 * The word that 11 names (order 1): word 0 if the mark is out of range; else
 * the walk's first fault, header before size word; else the lowest index that
 * is a bad pointer, the root included, or a nonzero free word.
 */
static void test_heap(void)
{
    const uint32_t v = 0x01000000; /* a view's header without pointer words */

    /* the mark */
    HEAP_CASE(0, 1, 0);
    HEAP_CASE(0, 0, 0);
    HEAP_CASE(0, 3, 0);
    HEAP_CASE(0, 0xffffffffu, 0);
    HEAP_CASE(0, 5, 9, 7, 7); /* length + 1, before a bad root, header, size word */
    HEAP_CASE(-1, 2, 0);
    HEAP_CASE(-1, 2, 0, 0, 0, 0);
    /* the root, free words: the lowest index of both */
    HEAP_CASE(1, 2, 1);
    HEAP_CASE(1, 2, 2);
    HEAP_CASE(1, 2, 2, 0);
    HEAP_CASE(1, 2, 0xffffffffu, 0);
    HEAP_CASE(2, 2, 0, 5);
    HEAP_CASE(3, 2, 0, 0, 1);
    HEAP_CASE(1, 2, 7, 5, 1);
    HEAP_CASE(1, 2, 2, v, 2); /* a header in the free words is no object */
    HEAP_CASE(2, 2, 0, v, 2);
    /* headers */
    HEAP_CASE(2, 3, 0, v); /* at mark - 1: no size word */
    HEAP_CASE(2, 3, 0, v, 2); /* nor one from the mark on */
    HEAP_CASE(-1, 4, 0, v, 2);
    HEAP_CASE(-1, 4, 2, v, 2);
    HEAP_CASE(1, 4, 3, v, 2);
    HEAP_CASE(1, 4, 4, v, 2);
    HEAP_CASE(2, 4, 0, 0, 2);
    HEAP_CASE(2, 4, 0, 1, 2);
    HEAP_CASE(2, 4, 0, 0x04000000, 2);
    HEAP_CASE(2, 4, 0, 0x81000000u, 2);
    HEAP_CASE(2, 4, 0, 0xffffffffu, 2);
    HEAP_CASE(2, 4, 9, 0x04000000, 0, 7); /* the walk comes before root and rest */
    /* size words */
    HEAP_CASE(3, 4, 0, v, 0);
    HEAP_CASE(3, 4, 0, v, 1);
    HEAP_CASE(3, 4, 0, v, 3);
    HEAP_CASE(3, 4, 0, v, 3, 0);
    HEAP_CASE(3, 4, 0, v, 0xffffffffu);
    HEAP_CASE(3, 4, 0, v, 0xfffffffeu); /* 2 + size is 0 if it wraps */
    HEAP_CASE(3, 4, 0, v + 1, 2);
    HEAP_CASE(3, 4, 0, 0x01ffffff, 2);
    HEAP_CASE(3, 5, 0, v + 2, 3, 0);
    HEAP_CASE(3, 4, 9, v, 1, 7); /* the walk comes before root and rest */
    /* header and size word both bad: the header comes first */
    HEAP_CASE(2, 4, 0, 0x04000000, 1); /* below 2 */
    HEAP_CASE(2, 4, 0, 0, 3); /* past the mark */
    HEAP_CASE(2, 4, 0, 0x04000001, 2); /* below 2 + 1 */
    /* two objects at fault: the walk ends at the first */
    HEAP_CASE(2, 6, 0, 0, 2, 0, 2); /* headers 2 and 4 */
    HEAP_CASE(2, 6, 0, 0, 2, v, 3); /* header 2, size word 5 */
    HEAP_CASE(3, 6, 0, v, 1, 0, 2); /* size word 3, header 4 */
    HEAP_CASE(4, 6, 0, v, 2, 0, 9); /* the object at 2 is in order */
    /* plain words hold anything */
    HEAP_CASE(-1, 5, 0, v, 3, 0xffffffffu);
    HEAP_CASE(-1, 5, 0, v, 3, 1, 0);
    /* pointer words: nil, itself, forwards */
    HEAP_CASE(-1, 5, 2, v + 1, 3, 0);
    HEAP_CASE(-1, 5, 2, v + 1, 3, 2);
    HEAP_CASE(4, 5, 2, v + 1, 3, 1);
    HEAP_CASE(4, 5, 2, v + 1, 3, 3);
    HEAP_CASE(4, 5, 2, v + 1, 3, 4);
    HEAP_CASE(4, 5, 2, v + 1, 3, 5);
    HEAP_CASE(4, 5, 2, v + 1, 3, 5, 0);
    HEAP_CASE(4, 5, 2, v + 1, 3, 0x80000002u);
    HEAP_CASE(-1, 7, 5, v + 1, 3, 5, v, 2);
    HEAP_CASE(1, 7, 5, v, 2, v + 1, 3, 2); /* objects at 2 and 4, the root 5 */
    HEAP_CASE(-1, 7, 4, v, 2, v + 1, 3, 2);
    HEAP_CASE(6, 7, 4, v, 2, v + 1, 3, 5);
    HEAP_CASE(7, 8, 4, v, 2, v + 2, 4, 0, 3);
    /* the lowest of several: root, pointer word, free word */
    HEAP_CASE(1, 5, 7, v + 1, 3, 7, 7); /* all three */
    HEAP_CASE(4, 5, 2, v + 1, 3, 7, 7); /* the root right */
    HEAP_CASE(5, 5, 2, v + 1, 3, 2, 7); /* all but the free word right */
    HEAP_CASE(1, 5, 3, v + 1, 3, 3); /* root and pointer word alone */
    HEAP_CASE(1, 5, 5, v + 1, 3, 2, 7); /* root and free word, the pointer word right */
    HEAP_CASE(4, 6, 2, v + 2, 4, 3, 9); /* two pointer words of one object */
    HEAP_CASE(4, 8, 2, v + 1, 3, 3, v + 1, 3, 4); /* of two objects, words 4 and 7 */
    /* a fault of the walk in a later object beats a bad pointer before it */
    HEAP_CASE(5, 7, 9, v + 1, 3, 9, 0, 2); /* header 5; root and word 4 bad */
    HEAP_CASE(6, 7, 9, v + 1, 3, 9, v, 3); /* size word 6 */
    HEAP_CASE(5, 6, 9, v + 1, 3, 9, v); /* header 5 at mark - 1 */
    HEAP_CASE(5, 7, 2, v + 1, 3, 9, 0, 2); /* the root right */
    HEAP_CASE(5, 7, 5, v, 3, 0, 2, 2); /* the root names the object at fault */
    /* objects end exactly at the mark */
    HEAP_CASE(4, 5, 0, v, 2, 0);
    HEAP_CASE(4, 5, 0, v, 2, v);

    /* the greatest heap: 8,191 objects of size 2 from 2 to 16,382 */
    static uint32_t big[16384];
    big[0] = 16384;
    big[1] = 16382;
    for (size_t i = 2; i < 16384; i += 2) {
        big[i] = v;
        big[i + 1] = 2;
    }
    heap_case(__LINE__, -1, big, 16384);
    big[1] = 16383;
    heap_case(__LINE__, 1, big, 16384);
    big[1] = 2;
    big[16383] = 3;
    heap_case(__LINE__, 16383, big, 16384);
    big[16383] = 2;
    big[16382] = 0;
    heap_case(__LINE__, 16382, big, 16384);
    big[0] = 16382;
    heap_case(__LINE__, 16383, big, 16384);
    big[0] = 16383;
    big[16382] = v;
    heap_case(__LINE__, 16382, big, 16384);
    /* one object of 16,382 words, all pointers to itself but the last */
    big[0] = 16384;
    big[1] = 0;
    big[2] = v + 16380;
    big[3] = 16382;
    for (size_t i = 4; i < 16384; i++)
        big[i] = 2;
    heap_case(__LINE__, -1, big, 16384);
    big[16383] = 16383;
    heap_case(__LINE__, 16383, big, 16384);
    big[2] = v + 16379; /* now the last word is plain */
    heap_case(__LINE__, -1, big, 16384);
    big[2] = v + 16381;
    heap_case(__LINE__, 3, big, 16384);
    /* the object ends at 16,383: a header there has no size word */
    big[2] = v;
    big[3] = 16381;
    big[16383] = v;
    heap_case(__LINE__, 16383, big, 16384);
    big[0] = 16385; /* length + 1 */
    heap_case(__LINE__, 0, big, 16384);
}

static ref_reply judge_one_pointer(const rig *sound, int list, size_t i, uint32_t v)
{
    (void)list;
    if (i < reg_of(sound, PTOP) && (v == 0 || v == 2))
        return sound_reply(sound);
    return reply(REF_REFUSED, 12, 0, 0);
}

static void test_sound(void)
{
    /* row 12: pointer stack 3, object at 2 only; 7 form 0 0; 12 73 */
    rig g = rig_new(BYTES(240, 0, 0, 0, 1, 0, 1, 36, 0, 0, 0, 0, 73), 39, 1, 2, 5, 8, REG_BYTES);
    EXPECT(is(do_start(&g), REF_READY, 0, 0, 0));
    EXPECT(is(do_run(&g, 1), REF_SPENT, 0, 0, 1));
    LIST_IS(g, PTR, 2);
    g.list[PTR][0] = 3;
    EXPECT(is_refused(do_run(&g, 1), 12, 0));
    g.list[PTR][0] = 2;
    damage(__LINE__, &g, REGS, judge_fixed);
    damage(__LINE__, &g, PTR, judge_one_pointer);
    damage(__LINE__, &g, CTL, judge_fixed);
    damage(__LINE__, &g, MAIN, judge_fixed);
    /* the finished state: one pointer result */
    EXPECT(is(do_run(&g, 1), REF_FINISHED, 0, 0, 1));
    EXPECT(reg_of(&g, PTOP) == 1 && reg_of(&g, STATE) == 1 && reg_of(&g, CTOP) == 0);
    damage(__LINE__, &g, REGS, judge_fixed);
    damage(__LINE__, &g, PTR, judge_one_pointer);
    damage(__LINE__, &g, CTL, judge_fixed);
    damage(__LINE__, &g, MAIN, judge_fixed);
    rig_free(&g);

    /* A, finished: one main result */
    g = rig_new(BYTES(A_FILE), 39, 4, 1, 7, 3, REG_BYTES);
    EXPECT(is(do_start(&g), REF_READY, 0, 0, 0));
    EXPECT(is(do_run(&g, 4), REF_FINISHED, 0, 0, 4));
    damage(__LINE__, &g, REGS, judge_fixed);
    damage(__LINE__, &g, MAIN, judge_main);
    damage(__LINE__, &g, CTL, judge_fixed);
    rig_free(&g);

    /* recursion of procedure 0: frames 1 to 3; 7 72 0; 10 73. Both places have
       state (0, 0, none), so each may stand for the other in the registers. */
    g = rig_new(BYTES(HEAD0, 72, 0, 0, 73), 33, 1, 1, 15, 2, REG_BYTES);
    EXPECT(is(do_start(&g), REF_READY, 0, 0, 0));
    EXPECT(is(do_run(&g, 2), REF_SPENT, 0, 0, 2));
    LIST_IS(g, CTL, 0, 0, 0, 0, 0, 0, 0, 0, 10, 1, 0, 0, 0, 10, 2);
    damage(__LINE__, &g, CTL, judge_fixed);
    set_reg(&g, PLACE, 10);
    EXPECT(is(do_run(&g, 9), REF_FINISHED, 0, 0, 3));
    rig_free(&g);

    /* two calls of one procedure with equal states: either return place is
       sound. 7 72 1; 10 72 1; 13 73. 14 head; 21 73 */
    g = rig_new(BYTES(HEAD0, 72, 0, 1, 72, 0, 1, 73, HEAD0, 73), 66, 1, 1, 10, 2, REG_BYTES);
    EXPECT(is(do_start(&g), REF_READY, 0, 0, 0));
    EXPECT(is(do_run(&g, 1), REF_SPENT, 0, 0, 1));
    LIST_IS(g, CTL, 0, 0, 0, 0, 0, 0, 0, 1, 10, 1);
    for (uint32_t at = 0; at < 30; at++) {
        rig h = rig_copy(&g);
        h.list[CTL][8] = at;
        if (at == 10)
            EXPECT(is(do_run(&h, 9), REF_FINISHED, 0, 0, 4));
        else if (at == 13)
            EXPECT(is(do_run(&h, 9), REF_FINISHED, 0, 0, 2));
        else
            EXPECT(is_refused(do_run(&h, 9), 12, 0));
        rig_free(&h);
    }
    rig_free(&g);

    /* a call of another procedure is no return place: 7 72 1; 10 72 2; 13 73.
       14 head; 21 73. 22 head; 29 73 */
    g = rig_new(BYTES(HEAD0, 72, 0, 1, 72, 0, 2, 73, HEAD0, 73, HEAD0, 73),
                90, 1, 1, 10, 2, REG_BYTES);
    EXPECT(is(do_start(&g), REF_READY, 0, 0, 0));
    EXPECT(is(do_run(&g, 1), REF_SPENT, 0, 0, 1));
    g.list[CTL][8] = 13;
    EXPECT(is_refused(do_run(&g, 9), 12, 0));
    /* with the procedure and its place it is one */
    g.list[CTL][7] = 2;
    EXPECT(is_refused(do_run(&g, 9), 12, 0));
    set_reg(&g, PLACE, 29);
    EXPECT(is(do_run(&g, 9), REF_FINISHED, 0, 0, 2));
    rig_free(&g);
}

/* ---- order 2: vectors ---- */

typedef struct {
    const uint32_t *w;
    size_t n;
} words;

#define W(...) ((words){ (const uint32_t[]){ __VA_ARGS__ }, \
                         sizeof((const uint32_t[]){ __VA_ARGS__ }) / 4 })
#define NO_WORDS ((words){ NULL, 0 })

/* Right before one instruction, with these stacks and this heap; a handler at depth 0 or none. */
static rig before_code(int line, bool caught, words m, words p, words heap,
                       const uint8_t *code, size_t size)
{
    /* 7 the handler, the pushes, the code, bjump 3; the target: bjump 3; room for a real */
    uint8_t f[64] = { 240, 0, 0, 0, 0, (uint8_t)(m.n + 2), (uint8_t)(p.n + 1) };
    size_t n = 7, target = 7 + 3 + 2 * m.n + p.n + size + 3;
    if (caught) {
        memcpy(f + n, (const uint8_t[]){ 160, 0, (uint8_t)target }, 3);
        n += 3;
    }
    for (size_t i = 0; i < m.n; i++, n += 2)
        f[n] = 54;
    for (size_t i = 0; i < p.n; i++, n++)
        f[n] = 57;
    memcpy(f + n, code, size);
    n += size;
    for (int i = 0; i < (caught ? 2 : 1); i++, n += 3)
        memcpy(f + n, (const uint8_t[]){ 3, 0, 3 }, 3);
    rig g = rig_new(f, n, 3 * n, m.n + 2, p.n + 1, 10, heap.n, REG_BYTES);
    uint32_t steps = (uint32_t)(m.n + p.n) + caught;
    expect(is(do_start(&g), REF_READY, 0, 0, 0), line, "ready");
    expect(is(do_run(&g, steps), REF_SPENT, 0, 0, steps), line, "the pushes");
    copy(g.list[MAIN], m.w, m.n * 4);
    copy(g.list[PTR], p.w, p.n * 4);
    copy(g.list[HEAP], heap.w, heap.n * 4);
    expect_sound(line, &g);
    return g;
}

/* The instruction's step leaves these, under an open handler too. */
static void gives(int line, words m, words p, words heap, words m_after, words p_after,
                  words heap_after, const uint8_t *code, size_t size)
{
    for (int caught = 0; caught < 2; caught++) {
        rig g = before_code(line, caught, m, p, heap, code, size);
        uint32_t place = reg_of(&g, PLACE);
        expect(is(do_run(&g, 1), REF_SPENT, 0, 0, 1), line, "one step");
        expect(list_is(&g, MAIN, m_after.w, m_after.n), line, "the main stack");
        expect(list_is(&g, PTR, p_after.w, p_after.n), line, "the pointer stack");
        expect(list_is(&g, HEAP, heap_after.w, heap_after.n), line, "the heap");
        expect(reg_of(&g, MTOP) == m_after.n && reg_of(&g, PTOP) == p_after.n, line, "the tops");
        expect(reg_of(&g, PLACE) == place + size, line, "the place");
        expect_sound(line, &g);
        rig_free(&g);
    }
}

/* The instruction raises: uncaught nothing changes, caught no heap word. */
static void raises(int line, uint32_t exception, words m, words p, words heap,
                   const uint8_t *code, size_t size)
{
    rig g = before_code(line, false, m, p, heap, code, size);
    rig before = rig_copy(&g);
    ref_reply r = do_run(&g, 1);
    bool ok = is(r, REF_UNCAUGHT, exception, reg_of(&before, PLACE), 0);
    expect(ok, line, "uncaught");
    if (!ok)
        printf("    got: kind %" PRIu32 " number %" PRIu32 "\n", r.kind, r.number);
    expect(same_rig(&g, &before), line, "the state stays");
    rig_free(&g);
    rig_free(&before);
    g = before_code(line, true, m, p, heap, code, size);
    uint32_t target = reg_of(&g, PLACE) + (uint32_t)size + 3;
    expect(is(do_run(&g, 1), REF_SPENT, 0, 0, 1), line, "caught");
    expect(list_is(&g, MAIN, &exception, 1) && list_is(&g, PTR, NULL, 0), line, "the stacks");
    expect(list_is(&g, HEAP, heap.w, heap.n), line, "no heap word changes");
    expect(reg_of(&g, PLACE) == target && reg_of(&g, HANDLER) == 0, line, "the target");
    expect_sound(line, &g);
    rig_free(&g);
}

#define GIVES_STEP(m, p, heap, m2, p2, heap2, ...) \
    gives(__LINE__, m, p, heap, m2, p2, heap2, BYTES(__VA_ARGS__))
#define RAISES_STEP(exception, m, p, heap, ...) \
    raises(__LINE__, exception, m, p, heap, BYTES(__VA_ARGS__))

enum { WV = 0x02000000, PV = 0x03000000, VV = 0x01000000 }; /* headers, 0 pointer words */
#define LEAST 0x80000000u
#define MOST 0x7fffffffu
#define MINUS(n) (0u - (uint32_t)(n))

/* 80: bound, length, value from below; 81: bound, length, and the value on the pointer stack. */
static void test_make_vectors(void)
{
    /* bound 1, length 2, value 3 over a word 99 */
    GIVES_STEP(W(99, 1, 2, 3), NO_WORDS, W(2, 0, 0, 0, 0, 0, 0, 0),
               W(99), W(2), W(7, 0, WV, 5, 1, 3, 3), 80);
    /* behind a view, the root kept; bound and value with their signs */
    GIVES_STEP(W(MINUS(4), 1, LEAST), W(2), W(4, 2, VV, 2, 0, 0, 0, 0),
               NO_WORDS, W(2, 4), W(8, 2, VV, 2, WV, 4, MINUS(4), LEAST), 80);
    /* bound 5, length 2 over 99; the value, the view at 2, over nil */
    GIVES_STEP(W(99, 5, 2), W(0, 2), W(4, 0, VV, 2, 0, 0, 0, 0, 0, 0),
               W(99), W(0, 4), W(9, 0, VV, 2, PV + 2, 5, 2, 2, 5), 81);
    /* a nil value is a value */
    GIVES_STEP(W(3, 2), W(0), W(2, 0, 0, 0, 0, 0, 0),
               NO_WORDS, W(2), W(7, 0, PV + 2, 5, 0, 0, 3), 81);
    /* a pointer to a vector of either kind */
    GIVES_STEP(W(0, 1), W(5), W(8, 0, WV, 3, 0, PV, 3, 0, 0, 0, 0, 0),
               NO_WORDS, W(8), W(12, 0, WV, 3, 0, PV, 3, 0, PV + 1, 4, 5, 0), 81);

    /* length 0: the bound alone */
    GIVES_STEP(W(7, 0, 9), NO_WORDS, W(2, 0, 0, 0, 0), NO_WORDS, W(2), W(5, 0, WV, 3, 7), 80);
    GIVES_STEP(W(7, 0), W(2), W(4, 0, VV, 2, 0, 0, 0),
               NO_WORDS, W(4), W(7, 0, VV, 2, PV, 3, 7), 81);
    /* bound + length may pass 2^31 */
    GIVES_STEP(W(MOST, 3, 8), NO_WORDS, W(2, 0, 0, 0, 0, 0, 0, 0),
               NO_WORDS, W(2), W(8, 0, WV, 6, MOST, 8, 8, 8), 80);
    GIVES_STEP(W(MOST, 3), W(0), W(2, 0, 0, 0, 0, 0, 0, 0),
               NO_WORDS, W(2), W(8, 0, PV + 3, 6, 0, 0, 0, MOST), 81);
    GIVES_STEP(W(LEAST, 1, 8), NO_WORDS, W(2, 0, 0, 0, 0, 0),
               NO_WORDS, W(2), W(6, 0, WV, 4, LEAST, 8), 80);
    GIVES_STEP(W(LEAST, 1), W(0), W(2, 0, 0, 0, 0, 0),
               NO_WORDS, W(2), W(6, 0, PV + 1, 4, 0, LEAST), 81);
}

/* 6 for a negative length, then 4. */
static void test_vector_lengths(void)
{
    RAISES_STEP(6, W(1, MINUS(1), 3), NO_WORDS, W(2, 0, 0, 0, 0, 0, 0), 80);
    RAISES_STEP(6, W(1, LEAST, 3), NO_WORDS, W(2, 0, 0, 0, 0, 0, 0), 80);
    RAISES_STEP(6, W(1, MINUS(1)), W(0), W(2, 0, 0, 0, 0, 0, 0), 81);
    RAISES_STEP(6, W(1, LEAST), W(0), W(2, 0, 0, 0, 0, 0, 0), 81);
    RAISES_STEP(6, W(1, MINUS(3), 3), NO_WORDS, W(2, 0, 0), 80); /* 3 + length is 0 */
    /* 6 before 4: no free word */
    RAISES_STEP(6, W(1, MINUS(1), 3), NO_WORDS, W(2, 0), 80);
    RAISES_STEP(6, W(1, LEAST), W(0), W(2, 0), 81);
    /* a negative bound or value is no fault, and not taken for the length */
    GIVES_STEP(W(MINUS(1), 1, MINUS(2)), NO_WORDS, W(2, 0, 0, 0, 0, 0),
               NO_WORDS, W(2), W(6, 0, WV, 4, MINUS(1), MINUS(2)), 80);

    /* 4: a word short, where the exact fit would be 3 + length */
    RAISES_STEP(4, W(1, 2, 3), NO_WORDS, W(2, 0, 0, 0, 0, 0), 80);
    RAISES_STEP(4, W(1, 2), W(0), W(2, 0, 0, 0, 0, 0), 81);
    RAISES_STEP(4, W(1, 0, 3), NO_WORDS, W(2, 0, 0, 0), 80);
    RAISES_STEP(4, W(1, 0), W(0), W(2, 0, 0, 0), 81);
    RAISES_STEP(4, W(1, 0, 3), NO_WORDS, W(2, 0), 80);
    RAISES_STEP(4, W(1, 2), W(2), W(4, 0, VV, 2, 0, 0, 0, 0), 81);
    /* lengths that a size in 32 or 24 bits would not hold */
    static const uint32_t huge[] = { MOST, MOST - 1, MOST - 2, MOST - 3, 0x40000000,
                                     0x01000000, 0x00ffffff, 0x00fffffd, 65536, 16385 };
    for (size_t i = 0; i < sizeof huge / sizeof *huge; i++) {
        RAISES_STEP(4, W(1, huge[i], 3), NO_WORDS, W(2, 0, 0, 0, 0, 0, 0), 80);
        RAISES_STEP(4, W(1, huge[i]), W(0), W(2, 0, 0, 0, 0, 0, 0), 81);
        RAISES_STEP(4, W(MOST, huge[i], MOST), NO_WORDS, W(2, 0), 80);
    }
}

/* The greatest heap: 16,379 elements fit exactly, with 2 + 3 words. */
static void test_greatest_vectors(void)
{
    static uint32_t empty[16384] = { 2 }, full[16384];
    const words before = { empty, 16384 }, after = { full, 16384 };
    full[0] = 16384;
    full[2] = WV;
    full[3] = 16382;
    full[4] = 9;
    for (size_t i = 5; i < 16384; i++)
        full[i] = 7;
    GIVES_STEP(W(9, 16379, 7), NO_WORDS, before, NO_WORDS, W(2), after, 80);
    RAISES_STEP(4, W(9, 16380, 7), NO_WORDS, before, 80);
    GIVES_STEP(W(9 + 16378), W(2), after, W(7), NO_WORDS, after, 82);
    RAISES_STEP(6, W(9 + 16379), W(2), after, 82);
    memset(full, 0, sizeof full);
    full[0] = 16384;
    full[2] = PV + 16379;
    full[3] = 16382;
    full[16383] = 9;
    GIVES_STEP(W(9, 16379), W(0), before, NO_WORDS, W(2), after, 81);
    RAISES_STEP(4, W(9, 16380), W(0), before, 81);
    GIVES_STEP(W(9 + 16378), W(2), after, NO_WORDS, W(0), after, 83);
    RAISES_STEP(6, W(9 + 16379), W(2), after, 83);
}

/*
 * At 2 a plain vector of bound 10: 7, 8, 9. At 8 a pointer vector of bound -1:
 * nil, 2. At 13 a view of one pointer word, nil, and one plain word, 10.
 */
#define MIXED(e10, e11, e12, p1, p0) \
    W(17, 0, WV, 6, 10, e10, e11, e12, PV + 2, 5, p1, p0, MINUS(1), VV + 1, 4, 0, 10, 0, 0)

static void test_read_vectors(void)
{
    const words heap = MIXED(7, 8, 9, 0, 2);

    /* each element, over other words; the vector and the index are popped */
    GIVES_STEP(W(99, 10), W(13, 2), heap, W(99, 7), W(13), heap, 82);
    GIVES_STEP(W(11), W(2), heap, W(8), NO_WORDS, heap, 82);
    GIVES_STEP(W(12), W(2), heap, W(9), NO_WORDS, heap, 82);
    GIVES_STEP(W(99, MINUS(1)), W(13, 8), heap, W(99), W(13, 0), heap, 83);
    GIVES_STEP(W(0), W(8), heap, NO_WORDS, W(2), heap, 83);
    /* the top of each stack, not the word below it */
    GIVES_STEP(W(12, 10), W(8, 2), heap, W(12, 7), W(8), heap, 82);
    GIVES_STEP(W(MINUS(1), 0), W(2, 8), heap, W(MINUS(1)), W(2, 2), heap, 83);

    /* 6: below the bound, past the last element, far off */
    static const uint32_t off_plain[] = { 9, 13, 0, 3, MINUS(1), LEAST, MOST, LEAST + 10,
                                          LEAST + 12, MINUS(6) };
    for (size_t i = 0; i < sizeof off_plain / sizeof *off_plain; i++)
        RAISES_STEP(6, W(off_plain[i]), W(2), heap, 82);
    static const uint32_t off_ptr[] = { MINUS(2), 1, 2, MINUS(3), LEAST, MOST, MOST - 1,
                                        LEAST + 1 };
    for (size_t i = 0; i < sizeof off_ptr / sizeof *off_ptr; i++)
        RAISES_STEP(6, W(off_ptr[i]), W(8), heap, 83);
}

/* 6 for an object of another kind, whatever the index. */
static void test_read_other_kinds(void)
{
    const words heap = MIXED(7, 8, 9, 0, 2);
    static const uint32_t index[] = { MINUS(1), 0, 1, 2, 10, 11, LEAST, MOST };
    for (size_t i = 0; i < sizeof index / sizeof *index; i++) {
        RAISES_STEP(6, W(index[i]), W(8), heap, 82);
        RAISES_STEP(6, W(index[i]), W(13), heap, 82);
        RAISES_STEP(6, W(index[i]), W(2), heap, 83);
        RAISES_STEP(6, W(index[i]), W(13), heap, 83);
        /* nil comes first, whatever the index */
        RAISES_STEP(2, W(index[i]), W(0), heap, 82);
        RAISES_STEP(2, W(index[i]), W(0), heap, 83);
        /* length 0: the object behind it is not in reach */
        RAISES_STEP(6, W(index[i]), W(2), W(11, 0, WV, 3, 10, WV, 6, 10, 1, 2, 3), 82);
        RAISES_STEP(6, W(index[i]), W(2), W(9, 0, PV, 3, 0, PV + 1, 4, 0, 0), 83);
    }
    /* a view whose words would be a vector's: one plain word, one pointer word */
    RAISES_STEP(6, W(0), W(2), W(6, 0, VV, 4, 0, 5), 82);
    RAISES_STEP(6, W(0), W(2), W(6, 0, VV + 1, 4, 2, 0), 83);
}

/* The index less the bound is a whole number. */
static void test_vector_ends(void)
{
    /* bounds and indices at the ends of the range; elements 5, 6, 7 and nil, 2, 2 */
    static const struct {
        uint32_t bound, index, found; /* the element's number from 0; 3: none, so 6 */
    } rows[] = {
        { MOST, MOST, 0 }, { MOST, MOST - 1, 3 }, { MOST, LEAST, 3 }, { MOST, LEAST + 1, 3 },
        { MOST, LEAST + 2, 3 }, { MOST, MINUS(1), 3 }, { MOST, 0, 3 },
        { MOST - 1, MOST - 1, 0 }, { MOST - 1, MOST, 1 }, { MOST - 1, LEAST, 3 },
        { MOST - 1, MOST - 2, 3 },
        { MOST - 2, MOST, 2 }, { MOST - 2, LEAST, 3 }, { MOST - 2, MOST - 3, 3 },
        { MOST - 3, MOST, 3 }, { MOST - 3, MOST - 1, 2 },
        { LEAST, LEAST, 0 }, { LEAST, LEAST + 1, 1 }, { LEAST, LEAST + 2, 2 },
        { LEAST, LEAST + 3, 3 }, { LEAST, 0, 3 }, { LEAST, 1, 3 }, { LEAST, MOST, 3 },
        { LEAST, MOST - 1, 3 }, { LEAST + 1, LEAST, 3 }, { LEAST + 1, LEAST + 3, 2 },
        { MINUS(1), MINUS(1), 0 }, { MINUS(1), 0, 1 }, { MINUS(1), 1, 2 }, { MINUS(1), 2, 3 },
        { MINUS(1), MINUS(2), 3 }, { MINUS(1), MOST, 3 }, { MINUS(1), LEAST, 3 },
        { 0, 0, 0 }, { 0, 2, 2 }, { 0, 3, 3 }, { 0, MINUS(1), 3 }, { 0, LEAST, 3 },
        { 0, MOST, 3 }, { 1, LEAST, 3 }, { 1, LEAST + 1, 3 }, { 2, LEAST + 2, 3 }
    };
    for (size_t i = 0; i < sizeof rows / sizeof *rows; i++) {
        uint32_t b = rows[i].bound, k = rows[i].found;
        const words plain = W(8, 0, WV, 6, b, 5, 6, 7), ptrs = W(8, 0, PV + 3, 6, 0, 2, 2, b);
        if (k == 3) {
            RAISES_STEP(6, W(rows[i].index), W(2), plain, 82);
            RAISES_STEP(6, W(rows[i].index), W(2), ptrs, 83);
            RAISES_STEP(6, W(1, rows[i].index), W(2), plain, 84);
            RAISES_STEP(6, W(rows[i].index), W(0, 2), ptrs, 85);
            continue;
        }
        GIVES_STEP(W(rows[i].index), W(2), plain, W(5 + k), NO_WORDS, plain, 82);
        GIVES_STEP(W(rows[i].index), W(2), ptrs, NO_WORDS, W(k == 0 ? 0 : 2), ptrs, 83);
        GIVES_STEP(W(1, rows[i].index), W(2), plain, NO_WORDS, NO_WORDS,
                   W(8, 0, WV, 6, b, k == 0 ? 1 : 5, k == 1 ? 1 : 6, k == 2 ? 1 : 7), 84);
        GIVES_STEP(W(rows[i].index), W(0, 2), ptrs, NO_WORDS, NO_WORDS,
                   W(8, 0, PV + 3, 6, 0, k == 1 ? 0 : 2, k == 2 ? 0 : 2, b), 85);
    }
}

static void test_write_vectors(void)
{
    const words heap = MIXED(7, 8, 9, 0, 2);

    /* 84: index over value: 55 goes to 10, 11, 12 */
    GIVES_STEP(W(99, 55, 10), W(13, 2), heap, W(99), W(13), MIXED(55, 8, 9, 0, 2), 84);
    GIVES_STEP(W(55, 11), W(2), heap, NO_WORDS, NO_WORDS, MIXED(7, 55, 9, 0, 2), 84);
    GIVES_STEP(W(55, 12), W(2), heap, NO_WORDS, NO_WORDS, MIXED(7, 8, 55, 0, 2), 84);
    GIVES_STEP(W(10, 12), W(2), heap, NO_WORDS, NO_WORDS, MIXED(7, 8, 10, 0, 2), 84);
    RAISES_STEP(6, W(10, 55), W(2), heap, 84); /* value over index */
    /* 85: vector over value: 13 goes to -1, 0 */
    GIVES_STEP(W(99, MINUS(1)), W(2, 13, 8), heap, W(99), W(2), MIXED(7, 8, 9, 13, 2), 85);
    GIVES_STEP(W(0), W(13, 8), heap, NO_WORDS, NO_WORDS, MIXED(7, 8, 9, 0, 13), 85);
    RAISES_STEP(6, W(0), W(8, 13), heap, 85); /* value over vector */
    /* a nil value is a value; so is the vector itself */
    GIVES_STEP(W(0), W(0, 8), heap, NO_WORDS, NO_WORDS, MIXED(7, 8, 9, 0, 0), 85);
    GIVES_STEP(W(0), W(8, 8), heap, NO_WORDS, NO_WORDS, MIXED(7, 8, 9, 0, 8), 85);
    RAISES_STEP(2, W(0), W(8, 0), heap, 85); /* a nil vector over a value */

    static const uint32_t off_plain[] = { 9, 13, 0, MINUS(1), LEAST, MOST };
    for (size_t i = 0; i < sizeof off_plain / sizeof *off_plain; i++)
        RAISES_STEP(6, W(55, off_plain[i]), W(2), heap, 84);
    static const uint32_t off_ptr[] = { MINUS(2), 1, 2, LEAST, MOST };
    for (size_t i = 0; i < sizeof off_ptr / sizeof *off_ptr; i++) {
        RAISES_STEP(6, W(off_ptr[i]), W(13, 8), heap, 85);
        RAISES_STEP(6, W(off_ptr[i]), W(0, 8), heap, 85);
    }
    static const uint32_t index[] = { MINUS(1), 0, 1, 2, 10, 11, LEAST, MOST };
    for (size_t i = 0; i < sizeof index / sizeof *index; i++) {
        RAISES_STEP(6, W(55, index[i]), W(8), heap, 84);
        RAISES_STEP(6, W(55, index[i]), W(13), heap, 84);
        RAISES_STEP(6, W(index[i]), W(2, 2), heap, 85);
        RAISES_STEP(6, W(index[i]), W(2, 13), heap, 85);
        RAISES_STEP(2, W(55, index[i]), W(0), heap, 84);
        RAISES_STEP(2, W(index[i]), W(2, 0), heap, 85);
        RAISES_STEP(2, W(index[i]), W(0, 0), heap, 85);
        RAISES_STEP(6, W(55, index[i]), W(2), W(8, 0, WV, 3, 10, WV, 3, 10, 0), 84);
        RAISES_STEP(6, W(index[i]), W(0, 2), W(9, 0, PV, 3, 0, PV + 1, 4, 0, 0), 85);
    }
}

/* 30 to 33 go by the header's counts; 32 does not reach the bound, word 2 of a plain vector. */
static void test_plain_fields(void)
{
    const words heap = MIXED(7, 8, 9, 0, 2);
    const uint32_t word_of_plain[] = { 10, 7, 8, 9 };

    for (unsigned s = 0; s <= 16; s++) {
        uint8_t b = (uint8_t)s;
        if (s >= 2 && s <= 5)
            GIVES_STEP(NO_WORDS, W(2), heap, W(word_of_plain[s - 2]), NO_WORDS, heap, 30, 0, b);
        else
            RAISES_STEP(3, NO_WORDS, W(2), heap, 30, 0, b);
        if (s >= 3 && s <= 5)
            GIVES_STEP(W(55), W(2), heap, NO_WORDS, NO_WORDS,
                       MIXED(s == 3 ? 55 : 7, s == 4 ? 55 : 8, s == 5 ? 55 : 9, 0, 2), 32, 0, b);
        else
            RAISES_STEP(3, W(55), W(2), heap, 32, 0, b);
        RAISES_STEP(3, NO_WORDS, W(2), heap, 31, 0, b);
        RAISES_STEP(3, NO_WORDS, W(13, 2), heap, 33, 0, b);
        /* nil comes first */
        RAISES_STEP(2, W(55), W(0), heap, 32, 0, b);
    }
}

/* A pointer vector: 2 and 3 are the elements, 4 the bound. */
static void test_pointer_fields(void)
{
    const words heap = MIXED(7, 8, 9, 0, 2);
    const uint32_t word_of_ptrs[] = { 0, 2 };

    for (unsigned s = 0; s <= 16; s++) {
        uint8_t b = (uint8_t)s;
        if (s == 4)
            GIVES_STEP(NO_WORDS, W(8), heap, W(MINUS(1)), NO_WORDS, heap, 30, 0, b);
        else
            RAISES_STEP(3, NO_WORDS, W(8), heap, 30, 0, b);
        RAISES_STEP(3, W(55), W(8), heap, 32, 0, b);
        if (s == 2 || s == 3) {
            GIVES_STEP(NO_WORDS, W(8), heap, NO_WORDS, W(word_of_ptrs[s - 2]), heap, 31, 0, b);
            GIVES_STEP(NO_WORDS, W(13, 8), heap, NO_WORDS, NO_WORDS,
                       MIXED(7, 8, 9, s == 2 ? 13 : 0, s == 3 ? 13 : 2), 33, 0, b);
        } else {
            RAISES_STEP(3, NO_WORDS, W(8), heap, 31, 0, b);
            RAISES_STEP(3, NO_WORDS, W(13, 8), heap, 33, 0, b);
        }
    }
    /* length 0: the bound is read, not set */
    GIVES_STEP(NO_WORDS, W(2), W(5, 0, WV, 3, 9), W(9), NO_WORDS, W(5, 0, WV, 3, 9), 30, 0, 2);
    GIVES_STEP(NO_WORDS, W(2), W(5, 0, PV, 3, 9), W(9), NO_WORDS, W(5, 0, PV, 3, 9), 30, 0, 2);
    RAISES_STEP(3, W(55), W(2), W(5, 0, WV, 3, 9), 32, 0, 2);
    RAISES_STEP(3, W(55), W(2), W(5, 0, PV, 3, 9), 32, 0, 2);
    RAISES_STEP(3, NO_WORDS, W(0, 2), W(5, 0, PV, 3, 9), 33, 0, 2);
    /* a view's first plain word is no bound */
    GIVES_STEP(W(55), W(2), W(5, 0, VV, 3, 9), NO_WORDS, NO_WORDS, W(5, 0, VV, 3, 55), 32, 0, 2);
    GIVES_STEP(W(55), W(2), W(6, 0, VV + 1, 4, 0, 9), NO_WORDS, NO_WORDS,
               W(6, 0, VV + 1, 4, 0, 55), 32, 0, 3);
}

/*
 * 7 54 -1; 9 54 3; 11 54 4; 13 80; 14 54 9; 16 54 0; 18 21 0; 21 84; 22 54 -1;
 * 24 21 0; 27 82; 28 54 0; 30 21 0; 33 82; 34 140; 35 54 last; 37 21 0; 40 82;
 * 41 140; 42 73: 4 + 9 + 4
 */
#define SUM_FILE(last) \
    240, 0, 0, 1, 1, 3, 2, 54, 255, 54, 3, 54, 4, 80, 54, 9, 54, 0, 21, 0, 0, 84, 54, 255, \
    21, 0, 0, 82, 54, 0, 21, 0, 0, 82, 140, 54, last, 21, 0, 0, 82, 140, 73

/*
 * 7 54 5; 9 54 2; 11 57; 12 81; 13 54 6; 15 21 0; 18 21 0; 21 85: itself in 6;
 * 22 54 6; 24 21 0; 27 83; 28 131 with itself; 29 73
 */
#define SELF_FILE \
    240, 0, 0, 1, 0, 2, 3, 54, 5, 54, 2, 57, 81, 54, 6, 21, 0, 0, 21, 0, 0, 85, 54, 6, \
    21, 0, 0, 83, 131, 73

static void test_vector_routines(void)
{
    BENCH("finished steps=20 main=17", SUM_FILE(1));
    BENCH("uncaught 6 at 40 steps=17 main=13,2", SUM_FILE(2));
    BENCH("uncaught 6 at 40 steps=17 main=13,-2", SUM_FILE(254));
    rig g = run_out(__LINE__, reply(REF_FINISHED, 0, 0, 13), BYTES(SELF_FILE));
    LIST_IS(g, MAIN, 1);
    LIST_IS(g, PTR, 0);
    LIST_IS(g, HEAP, 7, 0, PV + 2, 5, 0, 2, 5);
    rig_free(&g);
    cut_runs(__LINE__, REF_FINISHED, 20, BYTES(SUM_FILE(1)));
    cut_runs(__LINE__, REF_UNCAUGHT, 17, BYTES(SUM_FILE(2)));
    cut_runs(__LINE__, REF_FINISHED, 13, BYTES(SELF_FILE));

    /* 6 raised by the routine itself is the same word: 7 54 6; 9 162 */
    BENCH("uncaught 6 at 9 steps=1 main=6", 240, 0, 0, 0, 0, 1, 0, 54, 6, 162);
    /* 79 and 86 are unknown; 80 to 85 have no operand: 73 stands right behind */
    REFUSAL(3, 7, HEAD0, 79, 73);
    REFUSAL(3, 7, HEAD0, 86, 73);
    PASSES(HEAD0, 73, 240, 3, 0, 0, 1, 3, 1, 80, 73);
    PASSES(HEAD0, 73, 240, 2, 1, 0, 1, 2, 1, 81, 73);
    PASSES(HEAD0, 73, 240, 1, 1, 1, 0, 1, 1, 82, 73);
    PASSES(HEAD0, 73, 240, 1, 1, 0, 1, 1, 1, 83, 73);
    PASSES(HEAD0, 73, 240, 2, 1, 0, 0, 2, 1, 84, 73);
    PASSES(HEAD0, 73, 240, 1, 2, 0, 0, 1, 2, 85, 73);
    /* 80 pushes where y is 0 */
    REFUSAL(7, 15, HEAD0, 73, 240, 3, 0, 0, 0, 3, 0, 80, 3, 0, 3);
}

/* ---- order 2: the heap's audit ---- */

static void test_plain_heaps(void)
{
    HEAP_CASE(-1, 5, 2, WV, 3, 7); /* length 0 */
    HEAP_CASE(-1, 7, 2, WV, 5, LEAST, 1, 0xffffffffu); /* elements hold anything */
    HEAP_CASE(3, 4, 0, WV, 2); /* no bound */
    HEAP_CASE(3, 5, 2, WV, 2, 0); /* nor looked for behind it */
    HEAP_CASE(3, 6, 0, WV, 2, VV, 2);
    HEAP_CASE(3, 5, 0, WV, 1, 0);
    HEAP_CASE(3, 5, 0, WV, 0, 0);
    HEAP_CASE(3, 5, 0, WV, 4, 0);
    HEAP_CASE(3, 5, 0, WV, 4, 0, 0);
    HEAP_CASE(3, 5, 0, WV, 0xffffffffu, 0);
    HEAP_CASE(2, 3, 0, WV); /* at mark - 1 */
    HEAP_CASE(2, 3, 0, PV);
    /* pointer words fault the header, the size word right or not */
    HEAP_CASE(2, 6, 0, WV + 1, 4, 0, 0);
    HEAP_CASE(2, 5, 0, WV + 1, 3, 0);
    HEAP_CASE(2, 4, 0, WV + 1, 2);
    HEAP_CASE(2, 5, 0, WV + 1, 0, 0);
    HEAP_CASE(2, 5, 0, WV + 1, 9, 0);
    HEAP_CASE(2, 5, 0, WV + 2, 3, 0);
    HEAP_CASE(2, 5, 0, 0x02800000, 3, 0);
    HEAP_CASE(2, 4, 0, 0x02ffffff, 2);
    HEAP_CASE(2, 3, 0, WV + 1); /* at mark - 1 too */
}

static void test_pointer_heaps(void)
{
    HEAP_CASE(-1, 5, 2, PV, 3, 7); /* length 0 */
    HEAP_CASE(-1, 7, 2, PV + 2, 5, 2, 0, 9); /* the bound is no pointer */
    HEAP_CASE(3, 4, 0, PV, 2); /* 2 + pointers */
    HEAP_CASE(3, 6, 0, PV, 4, 0, 0); /* 4 + pointers */
    HEAP_CASE(3, 5, 0, PV + 1, 3, 0);
    HEAP_CASE(3, 7, 0, PV + 1, 5, 0, 0, 0);
    HEAP_CASE(3, 6, 0, PV + 2, 4, 0, 0);
    HEAP_CASE(3, 8, 0, PV + 2, 6, 0, 0, 0, 0);
    HEAP_CASE(3, 4, 0, PV + 1, 2); /* below 2 plus the pointers */
    HEAP_CASE(3, 5, 0, PV + 1, 4, 0, 0); /* past the mark */
    HEAP_CASE(3, 4, 0, 0x03ffffff, 2);
    HEAP_CASE(3, 4, 0, 0x03ffffff, 0x01000002);
    HEAP_CASE(3, 5, 0, PV, 0xffffffffu, 0);
    /* unknown kinds */
    HEAP_CASE(2, 5, 0, 0, 3, 0);
    HEAP_CASE(2, 5, 0, 0x04000000, 3, 0);
    HEAP_CASE(2, 6, 0, 0x04000001, 4, 0, 0);
    HEAP_CASE(2, 5, 0, 0x05000000, 3, 0);
    HEAP_CASE(2, 5, 0, 0x12000000, 3, 0);
    HEAP_CASE(2, 5, 0, 0x82000000u, 3, 0);
    HEAP_CASE(2, 5, 0, 0x83000000u, 3, 0);
}

static void test_element_heaps(void)
{
    /* elements that are no pointers, the lowest of them */
    HEAP_CASE(4, 7, 2, PV + 2, 5, 3, 0, 0);
    HEAP_CASE(5, 7, 2, PV + 2, 5, 2, 9, 0);
    HEAP_CASE(4, 7, 2, PV + 2, 5, 9, 9, 0);
    HEAP_CASE(4, 6, 2, PV + 1, 4, 1, 0);
    HEAP_CASE(1, 6, 5, PV + 1, 4, 5, 0); /* the root in the vector, and an element */
    HEAP_CASE(4, 6, 2, PV + 1, 4, 0x80000002u, 0, 7); /* before a free word */
    /* pointers to vectors of both kinds, forwards and back */
    HEAP_CASE(-1, 9, 2, PV + 1, 4, 6, 0, WV, 3, 6);
    HEAP_CASE(-1, 10, 6, WV, 4, 0, 9, PV + 1, 4, 2, 5);
    HEAP_CASE(-1, 9, 2, VV + 1, 3, 5, PV + 1, 4, 2, 5);
    HEAP_CASE(4, 9, 2, PV + 1, 4, 7, 0, WV, 3, 6); /* its size word */
    HEAP_CASE(4, 9, 2, PV + 1, 4, 8, 0, WV, 3, 6); /* its bound */
    /* the walk comes before pointers and free words, the first object before others */
    HEAP_CASE(5, 9, 9, VV + 1, 3, 9, WV + 1, 4, 0, 0);
    HEAP_CASE(6, 7, 9, VV + 1, 3, 9, WV, 2);
    HEAP_CASE(6, 9, 9, VV + 1, 3, 9, PV, 4, 0, 0, 7);
    HEAP_CASE(3, 7, 0, WV, 2, WV + 1, 3, 0);
    HEAP_CASE(2, 9, 0, WV + 1, 4, 0, 0, PV, 3, 0);
    HEAP_CASE(2, 8, 0, WV + 1, 4, 0, 0, PV, 2);
}

/* The greatest heap: one vector of 16,379 elements, each itself or anything. */
static void test_greatest_heaps(void)
{
    static uint32_t big[16384];
    big[0] = 16384;
    big[2] = PV + 16379;
    big[3] = 16382;
    for (size_t i = 4; i < 16384; i++)
        big[i] = 2;
    big[16383] = 0xffffffffu; /* the bound */
    heap_case(__LINE__, -1, big, 16384);
    big[16382] = 3;
    heap_case(__LINE__, 16382, big, 16384);
    big[2] = PV + 16380;
    heap_case(__LINE__, 3, big, 16384);
    big[2] = PV + 16378;
    heap_case(__LINE__, 3, big, 16384);
    big[2] = WV;
    heap_case(__LINE__, -1, big, 16384);
    big[2] = WV + 16379;
    heap_case(__LINE__, 2, big, 16384);
}

/* The heap 10, 6, plain vector (bound 70; 71), pointer vector (2; bound 72), 0, 0. */
static ref_reply judge_vector_heap(const rig *sound, int list, size_t i, uint32_t v)
{
    (void)list;
    uint32_t kind = v >> 24, at = (uint32_t)i;
    switch (i) {
    case 0:
        if (v >= 2 && v <= 12)
            at = v == 2 || v == 6 ? 1 /* the root has no object */
                : v == 3 ? 2 : v < 6 ? 3 : v == 7 ? 6 : v < 10 ? 7 : 10;
        break;
    case 1: case 8:
        if (v == 0 || v == 2 || v == 6)
            return sound_reply(sound);
        break;
    case 2: /* a view of very many pointers, or a pointer vector with a word too many */
        at = kind == 1 || kind == 3 ? 3 : 2;
        break;
    case 3: /* the next header would lie at 5, 7, 8 or 9; one object hides the root's */
        at = v == 3 ? 5 : v >= 5 && v <= 7 ? v + 2 : v == 8 ? 1 : 3;
        break;
    case 4: case 5: case 9:
        return sound_reply(sound);
    case 6: /* a view of one pointer is sound; a plain vector has none */
        if (v == VV + 1)
            return sound_reply(sound);
        at = kind == 3 ? 7 : 6;
        break;
    default: /* size word 7 has one value; 10 and 11 are free words */
        break;
    }
    return reply(REF_REFUSED, 11, at, 0);
}

static void test_vector_damage(void)
{
    const uint32_t heap[] = { 10, 6, WV, 4, 70, 71, PV + 1, 4, 2, 72, 0, 0 };
    rig g = rig_new(BYTES(HEAD0, 73), 24, 1, 1, 5, 12, REG_BYTES);
    EXPECT(is(do_start(&g), REF_READY, 0, 0, 0));
    memcpy(g.list[HEAP], heap, sizeof heap);
    EXPECT(is(do_run(&g, 0), REF_SPENT, 0, 0, 0));
    damage(__LINE__, &g, HEAP, judge_vector_heap);
    rig_free(&g);
}

/* ---- order 3: the state belongs to its file ---- */

/* A with other literals; three literals. */
#define A_WITH(p, q) 240, 0, 0, 1, 0, 2, 0, 54, p, 54, q, 142, 73
#define THREE(p, q, r) 240, 0, 0, 3, 0, 3, 0, 54, p, 54, q, 54, r, 73

static bool sums_are(ref_sums sums, uint32_t sum, uint32_t sum_of_sums)
{
    return sums.sum == sum && sums.sum_of_sums == sum_of_sums;
}

/* The eight bytes behind the seven registers. */
static bool sum_bytes(const rig *g, const uint8_t *want)
{
    return memcmp(g->regs + 4 * SUM, want, 8) == 0;
}

static void test_sum_function(void)
{
    static uint8_t bytes[4096];
    EXPECT(sums_are(ref_sums_of(NULL, 0), 0, 0));
    EXPECT(sums_are(ref_sums_of(BYTES(0)), 0, 0));
    EXPECT(sums_are(ref_sums_of(BYTES(1)), 1, 1));
    EXPECT(sums_are(ref_sums_of(BYTES(255)), 255, 255));
    EXPECT(sums_are(ref_sums_of(BYTES(255, 255)), 510, 765)); /* 255 + 510 */
    EXPECT(sums_are(ref_sums_of(BYTES(1, 0, 0)), 1, 3)); /* 1 + 1 + 1 */
    EXPECT(sums_are(ref_sums_of(BYTES(0, 0, 1)), 1, 1)); /* 0 + 0 + 1 */
    EXPECT(sums_are(ref_sums_of(BYTES(1, 2, 3)), 6, 10)); /* 1 + 3 + 6 */
    EXPECT(sums_are(ref_sums_of(BYTES(3, 2, 1)), 6, 14)); /* 3 + 5 + 6 */
    /* 1 + 2 + ... + 4,096 = 2,048 * 4,097 = 8,390,656 */
    memset(bytes, 1, sizeof bytes);
    EXPECT(sums_are(ref_sums_of(bytes, 4096), 4096, 8390656));
    for (uint32_t n = 0; n < 40; n++)
        EXPECT(sums_are(ref_sums_of(bytes, n), n, n * (n + 1) / 2));
    /* 255 * 4,096 = 1,044,480; 255 * 8,390,656 = 2,139,617,280 */
    memset(bytes, 255, sizeof bytes);
    EXPECT(sums_are(ref_sums_of(bytes, 4096), 1044480, 2139617280u));
    /* the last byte is once in both, the first one 4,096 times in the second */
    bytes[4095] = 0;
    EXPECT(sums_are(ref_sums_of(bytes, 4096), 1044225, 2139617025u));
    bytes[4095] = 255;
    bytes[0] = 0;
    EXPECT(sums_are(ref_sums_of(bytes, 4096), 1044225, 2138572800u)); /* less 1,044,480 */
}

/* The function gives these sums, and start writes them. */
static void expect_sums(int line, uint32_t sum, uint32_t sum_of_sums,
                        const uint8_t *file, size_t file_len)
{
    rig g = bench_rig(file, file_len);
    expect(sums_are(ref_sums_of(file, file_len), sum, sum_of_sums), line, "the sums");
    expect(is(do_start(&g), REF_READY, 0, 0, 0), line, "ready");
    expect(reg_of(&g, SUM) == sum && reg_of(&g, SUM_OF_SUMS) == sum_of_sums, line,
           "start writes the sums");
    expect_sound(line, &g);
    rig_free(&g);
}

#define SUMS(sum, sum_of_sums, ...) expect_sums(__LINE__, sum, sum_of_sums, BYTES(__VA_ARGS__))

static void test_file_sums(void)
{
    /* 240 after each byte of the head, then 313: 7 * 240 + 313 */
    SUMS(313, 1993, HEAD0, 73);
    /* A, after each byte: 240 240 240 241 241 243 243 297 302 356 359 501 574;
       3 * 240 + 2 * 241 + 2 * 243 = 1,688, and 297 + 302 + 356 + 359 + 501 + 574 = 2,389 */
    SUMS(574, 4077, A_FILE);
    /* 300 and 354 for 302 and 356 */
    SUMS(574, 4073, A_WITH(3, 5));
    /* bytes count from 0 up, whatever 54 pushes: the first literal is in the last five
       sums, the second in three; -8 + 508, -(5 * 5 + 3 * 3) + 5 * 255 + 3 * 253 */
    SUMS(1074, 6077, A_WITH(255, 253));
    /* B: 1,688 as in A, then 403 403 420 474 483 537 537 680 841 914 987, in all 6,679 */
    SUMS(987, 8367, B_FILE);
    /* 3 for the zero, which is in the last five sums */
    SUMS(990, 8382, B3_FILE);
}

/*
 * 4,096 bytes: 0 head with 255 for r, s, x, y; 7 56 -1; from 12 on 680 times
 * 56 -1 and 204; 4,092 146; 146; 146; 4,095 162.
 * The sum: 240 + 4 * 255 = 1,260; 56 + 4 * 255 = 1,076; 680 * (1,076 + 204) =
 * 870,400; 3 * 146 + 162 = 600: 873,336 = 13 * 65,536 + 83 * 256 + 120.
 * The sum of sums, byte i taken 4,096 - i times: head 240 * 4,096 +
 * 255 * (4,093 + 4,092 + 4,091 + 4,090) = 983,040 + 4,173,330; the first 56
 * 56 * 4,089 + 255 * (4,088 + 4,087 + 4,086 + 4,085) = 228,984 + 4,168,230.
 * One of the 680 whose 56 is taken w times: 56 w + 255 * (4 w - 10) +
 * 204 * (w - 5) = 1,280 w - 3,570. w is 4,084, 4,078 and so on, all together
 * 680 * 4,084 - 6 * 679 * 680 / 2 = 1,391,960; so 1,280 * 1,391,960 -
 * 680 * 3,570 = 1,779,281,200. Last 146 * (4 + 3 + 2) + 162 = 1,476.
 * 1,788,836,260 = 106 * 2^24 + 159 * 65,536 + 121 * 256 + 164.
 */
static void test_greatest_sums(void)
{
    static uint8_t f[4096] = { 240, 0, 0, 255, 255, 255, 255, 56, 255, 255, 255, 255 };
    static const uint8_t want[8] = { 0, 13, 83, 120, 106, 159, 121, 164 };
    for (size_t i = 12; i < 4092; i += 6)
        memcpy(f + i, (const uint8_t[]){ 56, 255, 255, 255, 255, 204 }, 6);
    memcpy(f + 4092, (const uint8_t[]){ 146, 146, 146, 162 }, 4);
    expect_sums(__LINE__, 873336, 1788836260, f, sizeof f);
    /* -1 >= -1 is 1, 1 >= -1 is 1; not, not, not: 0; 1 + 680 * 2 + 3 steps */
    rig g = bench_rig(f, sizeof f);
    EXPECT(is(do_start(&g), REF_READY, 0, 0, 0));
    EXPECT(sum_bytes(&g, want));
    EXPECT(is(do_run(&g, 1000), REF_SPENT, 0, 0, 1000));
    EXPECT(sum_bytes(&g, want));
    EXPECT(is(do_run(&g, 1000), REF_UNCAUGHT, 0, 4095, 364));
    EXPECT(sum_bytes(&g, want));
    for (size_t i = 4 * SUM; i < REG_BYTES; i++) {
        g.regs[i] ^= 128;
        EXPECT(is_refused(do_run(&g, 1), 13, 0));
        g.regs[i] ^= 128;
    }
    EXPECT(is(do_run(&g, 1000), REF_UNCAUGHT, 0, 4095, 0));
    rig_free(&g);
}

/* 13 at 0 by start or run, and of all lists the finished map alone is written. */
static void expect_13(int line, const rig *g, bool start, uint32_t budget)
{
    rig got = rig_copy(g), want = rig_copy(g);
    for (size_t i = 0; i < g->map_len; i++)
        got.map[i] = want.map[i] = (uint16_t)(0x1234 + i);
    expect(is(do_check(&want), REF_PASSED, 0, 0, 0), line, "the file passes");
    ref_reply r = start ? do_start(&got) : do_run(&got, budget);
    bool ok = is_refused(r, 13, 0);
    expect(ok, line, "13 at 0");
    if (!ok && failures <= 50)
        printf("    got: kind %" PRIu32 " number %" PRIu32 " place %" PRIu32 "\n",
               r.kind, r.number, r.place);
    expect(same_rig(&got, &want), line, "the finished map alone is written");
    rig_free(&got);
    rig_free(&want);
}

static void expect_run_13(int line, const rig *g)
{
    expect_13(line, g, false, 0);
    expect_13(line, g, false, 1);
    expect_13(line, g, false, 4294967295u);
}

static void expect_start_13(int line, const rig *g)
{
    expect_13(line, g, true, 0);
}

/* Run takes the state as sound, and start the lists. */
static void expect_taken(int line, const rig *g)
{
    rig c = rig_copy(g);
    ref_reply want = sound_reply(g);
    expect(is(do_run(&c, 0), want.kind, 0, 0, 0), line, "run takes the state");
    expect(same_state(&c, g), line, "no step changes nothing");
    expect(is(do_start(&c), REF_READY, 0, 0, 0), line, "ready");
    rig_free(&c);
}

/* A after so many steps: 4 are all. Small lists, the map longer than needed. */
static rig a_state(uint32_t steps)
{
    rig g = rig_new(BYTES(A_FILE), 60, 4, 3, 12, 6, REG_BYTES);
    EXPECT(is(do_start(&g), REF_READY, 0, 0, 0));
    EXPECT(is(do_run(&g, steps), steps < 4 ? REF_SPENT : REF_FINISHED, 0, 0, steps));
    return g;
}

/* A state in register lists of other lengths: cut, or with bytes behind it. */
static void test_register_lengths(void)
{
    static const size_t lens[] = { 0, 1, 4, 8, 27, 28, 29, 32, 35, 36, 37, 40, 64, 72 };
    for (uint32_t steps = 0; steps <= 4; steps += 2) {
        rig g = a_state(steps);
        for (size_t i = 0; i < sizeof lens / sizeof *lens; i++) {
            rig h = relend(&g, g.file, g.file_len, lens[i]);
            if (lens[i] == REG_BYTES) {
                expect_taken(__LINE__, &h);
            } else {
                expect_run_13(__LINE__, &h);
                expect_start_13(__LINE__, &h);
            }
            rig_free(&h);
        }
        rig_free(&g);
    }
}

/* A's map by hand where 13 was answered. */
static void test_map_of_13(void)
{
    for (int call = 0; call < 2; call++) {
        rig g = rig_new(BYTES(A_FILE), 45, 2, 1, 5, 2, call == 0 ? 35 : REG_BYTES);
        EXPECT(is_refused(call == 0 ? do_start(&g) : do_run(&g, 9), 13, 0));
        for (size_t i = 0; i < 45; i++) {
            size_t at = i / 3;
            uint16_t depth = at == 7 ? 0 : at == 9 || at == 12 ? 1 : at == 11 ? 2 : N;
            if (i >= 39)
                EXPECT(g.map[i] == (uint16_t)(0xabcd + i));
            else
                EXPECT(g.map[i] == (depth == N || i % 3 == 2 ? N : i % 3 == 0 ? depth : 0));
        }
        rig_free(&g);
    }
}

/* Every other value in each of the eight bytes; the state running or finished. */
static void test_sum_bytes(void)
{
    static const uint8_t right[8] = { 0, 0, 2, 62, 0, 0, 15, 237 }; /* 574, 4,077 */
    for (uint32_t steps = 0; steps <= 4; steps += 2) {
        rig g = a_state(steps), fresh = a_state(0);
        EXPECT(sum_bytes(&g, right));
        expect_taken(__LINE__, &g);
        for (size_t i = 0; i < 8; i++)
            for (uint32_t v = 0; v < 256; v++) {
                if (v == right[i])
                    continue;
                rig h = rig_copy(&g);
                h.regs[4 * SUM + i] = (uint8_t)v;
                expect_run_13(__LINE__, &h);
                /* start takes no notice, and writes them anew */
                EXPECT(is(do_start(&h), REF_READY, 0, 0, 0));
                EXPECT(same_state(&h, &fresh));
                rig_free(&h);
            }
        rig_free(&g);
        rig_free(&fresh);
    }
}

/*
 * Words at fault: one off; exchanged; of A with its literals swapped (4,073);
 * without A's last byte (501, 3,503), with the last sum twice (4,651); the low
 * byte or the low half alone right; bytes turned round (62 2 0 0, 237 15 0 0).
 */
static void test_sum_words(void)
{
    static const uint32_t wrong[][2] = {
        { 0, 0 }, { 574, 0 }, { 0, 4077 }, { 4077, 574 }, { 575, 4077 }, { 573, 4077 },
        { 574, 4078 }, { 574, 4076 }, { 573, 4078 }, { 574, 4073 }, { 501, 3503 },
        { 574, 3503 }, { 574, 4651 }, { 574, 574 }, { 4077, 4077 }, { 62, 237 },
        { 0x3e020000, 0xed0f0000u }, { 574, 0xed0f0000u }, { 0xffffffffu, 0xffffffffu },
        { 0x80000000u + 574, 4077 }, { 574, 0x80000000u + 4077 }, { 65536 + 574, 4077 }
    };
    for (uint32_t steps = 1; steps <= 4; steps += 3)
        for (size_t i = 0; i < sizeof wrong / sizeof *wrong; i++) {
            rig g = a_state(steps);
            set_reg(&g, SUM, wrong[i][0]);
            set_reg(&g, SUM_OF_SUMS, wrong[i][1]);
            expect_run_13(__LINE__, &g);
            put_sums(&g);
            expect_taken(__LINE__, &g);
            rig_free(&g);
        }
}

/* What 36 bytes hold does not matter to start. */
static void test_junk_registers(void)
{
    rig want = a_state(0);
    for (uint32_t byte = 0; byte < 256; byte++) {
        rig g = a_state(byte % 5);
        memset(g.regs, (int)byte, REG_BYTES);
        expect_run_13(__LINE__, &g); /* no sums at all */
        EXPECT(is(do_start(&g), REF_READY, 0, 0, 0));
        EXPECT(same_state(&g, &want));
        /* junk with the right sums is not sound */
        memset(g.regs, (int)byte, 4 * SUM);
        EXPECT(is_refused(do_run(&g, 3), 12, 0));
        EXPECT(has_sums(&g));
        rig_free(&g);
    }
    rig_free(&want);
}

/* Run for another file is 13 from the first one's state; its sums are all that is wrong. */
static void other_file(int line, uint32_t steps, const uint8_t *file, size_t file_len,
                       const uint8_t *other, size_t other_len)
{
    rig g = bench_rig(file, file_len);
    expect(is(do_start(&g), REF_READY, 0, 0, 0), line, "ready");
    expect(do_run(&g, steps).steps == steps, line, "the steps");
    rig h = relend(&g, other, other_len, REG_BYTES);
    expect_run_13(line, &h);
    put_sums(&h);
    expect_taken(line, &h);
    rig_free(&g);
    rig_free(&h);
}

static void test_other_files(void)
{
    /* A with its literals swapped: 574 both times, 4,077 and 4,073 */
    SUMS(574, 4077, A_WITH(5, 3));
    SUMS(574, 4073, A_WITH(3, 5));
    for (uint32_t steps = 0; steps <= 4; steps++) {
        other_file(__LINE__, steps, BYTES(A_WITH(5, 3)), BYTES(A_WITH(3, 5)));
        other_file(__LINE__, steps, BYTES(A_WITH(3, 5)), BYTES(A_WITH(5, 3)));
    }
    /* equal sums of sums: A's literals are in five and in three sums; from A
       +7 and +3 * 7, or +3 + 2 and +5 * 3 + 3 * 2: 4,077 + 21 both times */
    SUMS(581, 4098, A_WITH(5, 10));
    SUMS(579, 4098, A_WITH(8, 5));
    for (uint32_t steps = 0; steps <= 4; steps++) {
        other_file(__LINE__, steps, BYTES(A_WITH(5, 10)), BYTES(A_WITH(8, 5)));
        other_file(__LINE__, steps, BYTES(A_WITH(8, 5)), BYTES(A_WITH(5, 10)));
    }
    /* another length, equal sums: 240 + 1 + 1 + 54 + 146 + 73 = 515. 10 bytes: 240 * 10 +
       7 + 5 + 54 * 3 + 146 * 2 + 73; 11 bytes: 240 * 11 + 8 + 6 + 54 * 4 + 146 * 2 + 73 */
    SUMS(515, 2939, 240, 0, 0, 1, 0, 1, 0, 54, 146, 73);
    SUMS(515, 3235, 240, 0, 0, 1, 0, 1, 0, 54, 0, 146, 73);
    for (uint32_t steps = 0; steps <= 2; steps++)
        other_file(__LINE__, steps, BYTES(240, 0, 0, 1, 0, 1, 0, 54, 146, 73),
                   BYTES(240, 0, 0, 1, 0, 1, 0, 54, 0, 146, 73));
    /* a procedure more: 626 for 313 */
    other_file(__LINE__, 0, BYTES(HEAD0, 73), BYTES(HEAD0, 73, HEAD0, 73));
    other_file(__LINE__, 1, BYTES(HEAD0, 73, HEAD0, 73), BYTES(HEAD0, 73));
}

/* A with its literals swapped, given its sums, runs on: 5 from A, then 5 - 5. */
static void test_sums_put_right(void)
{
    rig g = a_state(1);
    rig h = relend(&g, BYTES(A_WITH(3, 5)), REG_BYTES);
    set_reg(&h, SUM_OF_SUMS, 4073);
    EXPECT(is(do_run(&h, 9), REF_FINISHED, 0, 0, 3));
    EXPECT(h.list[MAIN][0] == 0 && reg_of(&h, SUM) == 574 && reg_of(&h, SUM_OF_SUMS) == 4073);
    rig_free(&g);
    rig_free(&h);
}

/*
 * Two files with equal sums: the literals at 8, 10 and 12 of 14 bytes are in
 * the last 6, 4 and 2 sums. 1 + 2 + 1 = 2 + 0 + 2, and 6 + 8 + 2 = 12 + 0 + 4.
 * The rest: 240 + 3 + 3 + 3 * 54 + 73 = 481, and 240 * 14 + 3 * (11 + 9) +
 * 54 * (7 + 5 + 3) + 73 = 4,303.
 */
static void test_equal_sums(void)
{
    SUMS(485, 4319, THREE(1, 2, 1));
    SUMS(485, 4319, THREE(2, 0, 2));
    for (uint32_t steps = 0; steps <= 4; steps++) {
        rig g = rig_new(BYTES(THREE(1, 2, 1)), 42, 3, 1, 5, 2, REG_BYTES);
        EXPECT(is(do_start(&g), REF_READY, 0, 0, 0));
        EXPECT(do_run(&g, steps).steps == steps);
        rig h = relend(&g, BYTES(THREE(2, 0, 2)), REG_BYTES);
        expect_taken(__LINE__, &h);
        EXPECT(is(do_run(&h, 9), REF_FINISHED, 0, 0, 4 - steps));
        EXPECT(h.list[MAIN][0] == (steps < 1 ? 2 : 1));
        EXPECT(h.list[MAIN][1] == (steps < 2 ? 0 : 2));
        EXPECT(h.list[MAIN][2] == (steps < 3 ? 2 : 1));
        EXPECT(reg_of(&h, SUM) == 485 && reg_of(&h, SUM_OF_SUMS) == 4319);
        rig_free(&h);
        /* 1 + 1 + 2 is 4 too, 6 + 4 + 4 is 14 */
        h = relend(&g, BYTES(THREE(1, 1, 2)), REG_BYTES);
        expect_run_13(__LINE__, &h);
        rig_free(&h);
        rig_free(&g);
    }
}

/* Right sums: run answers number at place. With a wrong sum or another length 13 comes first. */
static void expect_13_before(int line, uint32_t number, uint32_t place, const rig *g)
{
    static const uint32_t off[][2] = { { 1, 0 }, { 0, 1 }, { 0x80000000u, 0 }, { 0, 0x80000000u },
                                       { 1, 1 }, { 512, 3840 } };
    static const size_t lens[] = { 0, 27, 28, 29, 35, 37 };
    rig c = rig_copy(g);
    expect(has_sums(g), line, "the sums are right");
    expect(is_refused(do_run(&c, 1), number, place), line, "the refusal behind 13");
    for (size_t i = 0; i < sizeof off / sizeof *off; i++) {
        set_reg(&c, SUM, reg_of(g, SUM) ^ off[i][0]);
        set_reg(&c, SUM_OF_SUMS, reg_of(g, SUM_OF_SUMS) ^ off[i][1]);
        expect_run_13(line, &c);
        if (number == 12)
            continue; /* start has none */
        expect(is_refused(do_start(&c), number, place), line, "start compares no sums");
    }
    for (size_t i = 0; i < sizeof lens / sizeof *lens; i++) {
        rig h = relend(g, g->file, g->file_len, lens[i]);
        expect_run_13(line, &h);
        expect_start_13(line, &h);
        rig_free(&h);
    }
    rig_free(&c);
}

/* Lists of these lengths, not started; then with 11 and 12 behind 10 as well. */
static void lengths_13(int line, size_t m, size_t p, size_t c, size_t h)
{
    rig g = rig_new(BYTES(A_FILE), 40, m, p, c, h, REG_BYTES);
    put_sums(&g);
    expect_13_before(line, 10, 0, &g);
    if (h > 0) {
        g.list[HEAP][0] = 1;
        expect_13_before(line, 10, 0, &g);
    }
    rig_free(&g);
}

static void test_13_before_10(void)
{
    lengths_13(__LINE__, 1, 1, 5, 2); /* below x */
    lengths_13(__LINE__, 0, 1, 5, 2);
    lengths_13(__LINE__, 4097, 1, 5, 2);
    lengths_13(__LINE__, 2, 0, 5, 2);
    lengths_13(__LINE__, 2, 4097, 5, 2);
    lengths_13(__LINE__, 2, 1, 0, 2);
    lengths_13(__LINE__, 2, 1, 4, 2);
    lengths_13(__LINE__, 2, 1, 1281, 2);
    lengths_13(__LINE__, 2, 1, 5, 0);
    lengths_13(__LINE__, 2, 1, 5, 1);
    lengths_13(__LINE__, 2, 1, 5, 16385);
    lengths_13(__LINE__, 0, 0, 0, 0);
    for (uint32_t steps = 0; steps <= 4; steps++) {
        rig g = a_state(steps);
        g.len[MAIN] = 1;
        expect_13_before(__LINE__, 10, 0, &g);
        rig_free(&g);
    }
}

static void test_13_before_11(void)
{
    for (uint32_t steps = 0; steps <= 4; steps += 2) {
        rig g = a_state(steps);
        g.list[HEAP][0] = 1;
        expect_13_before(__LINE__, 11, 0, &g);
        g.list[HEAP][0] = 2;
        g.list[HEAP][1] = 3;
        expect_13_before(__LINE__, 11, 1, &g);
        g.list[HEAP][1] = 0;
        g.list[HEAP][5] = 1;
        expect_13_before(__LINE__, 11, 5, &g);
        set_reg(&g, STATE, 2); /* 12 behind that */
        expect_13_before(__LINE__, 11, 5, &g);
        rig_free(&g);
    }
}

static void test_13_before_12(void)
{
    for (uint32_t steps = 0; steps <= 4; steps += 2)
        for (size_t i = 0; i < SUM; i++) {
            rig g = a_state(steps);
            set_reg(&g, i, reg_of(&g, i) + 70);
            expect_13_before(__LINE__, 12, 0, &g);
            rig_free(&g);
        }
    for (uint32_t steps = 0; steps <= 4; steps += 2)
        for (int list = MAIN; list <= CTL; list++) {
            rig g = a_state(steps);
            g.list[list][g.len[list] - 1] = 1; /* above the top */
            expect_13_before(__LINE__, 12, 0, &g);
            rig_free(&g);
        }
    rig g = a_state(2);
    g.list[CTL][3] = 7; /* the first frame's return place */
    expect_13_before(__LINE__, 12, 0, &g);
    rig_free(&g);
}

/* 1 to 9 come before 13, with the map as they leave it. */
static void test_13_after_9(void)
{
    static const uint8_t big[4097] = { HEAD0, 73 };
    static const size_t lens[] = { 0, 27, 28, 29, 35, 36, 37 };
    for (size_t i = 0; i < sizeof lens / sizeof *lens; i++) {
        size_t n = lens[i];
        refusal_with(__LINE__, 1, 0, NULL, 0, 4, n);
        refusal_with(__LINE__, 1, 0, big, 4097, 4, n);
        refusal_with(__LINE__, 2, 0, BYTES(A_FILE), 38, n);
        refusal_with(__LINE__, 3, 0, BYTES(240, 0, 0), 12, n);
        refusal_with(__LINE__, 4, 0, BYTES(240, 1, 0, 0, 0, 1, 0, 73), 27, n);
        refusal_with(__LINE__, 5, 7, BYTES(HEAD0, 72, 0, 1, 73), 40, n);
        refusal_with(__LINE__, 6, 7, BYTES(240, 0, 0, 0, 0, 1, 0, 54, 1), 30, n);
        refusal_with(__LINE__, 7, 7, BYTES(240, 0, 0, 0, 0, 1, 0, 142, 73), 30, n);
        refusal_with(__LINE__, 8, 7, BYTES(240, 0, 0, 1, 0, 1, 0, 73), 30, n);
        refusal_with(__LINE__, 9, 9, BYTES(240, 0, 0, 0, 0, 1, 0, 54, 1, 3, 0, 5), 40, n);
    }
}

/* Every ending of a run keeps the sums. */
static void test_sums_kept(void)
{
    /* A: 574 and 4,077 */
    static const uint8_t a[8] = { 0, 0, 2, 62, 0, 0, 15, 237 };
    rig g = a_state(0);
    EXPECT(sum_bytes(&g, a));
    EXPECT(is(do_run(&g, 0), REF_SPENT, 0, 0, 0) && sum_bytes(&g, a));
    EXPECT(is(do_run(&g, 3), REF_SPENT, 0, 0, 3) && sum_bytes(&g, a));
    EXPECT(is(do_run(&g, 9), REF_FINISHED, 0, 0, 1) && sum_bytes(&g, a));
    EXPECT(is(do_run(&g, 9), REF_FINISHED, 0, 0, 0) && sum_bytes(&g, a));
    EXPECT(is(do_run(&g, 0), REF_FINISHED, 0, 0, 0) && sum_bytes(&g, a));
    rig_free(&g);
    /* 54 0 143 for 54 3 142: -3 + 1 and -3 * 3 + 2: 572 and 4,070 */
    static const uint8_t zero[8] = { 0, 0, 2, 60, 0, 0, 15, 230 };
    g = bench_rig(BYTES(240, 0, 0, 1, 0, 2, 0, 54, 5, 54, 0, 143, 73));
    EXPECT(is(do_start(&g), REF_READY, 0, 0, 0) && sum_bytes(&g, zero));
    EXPECT(is(do_run(&g, 9), REF_UNCAUGHT, 1, 11, 2) && sum_bytes(&g, zero));
    EXPECT(is(do_run(&g, 9), REF_UNCAUGHT, 1, 11, 0) && sum_bytes(&g, zero));
    rig_free(&g);
    /* B, a step at a time, a caught exception among them: 987 and 8,367 */
    static const uint8_t b[8] = { 0, 0, 3, 219, 0, 0, 32, 175 };
    g = bench_rig(BYTES(B_FILE));
    EXPECT(is(do_start(&g), REF_READY, 0, 0, 0) && sum_bytes(&g, b));
    for (int i = 1; i <= 5; i++)
        EXPECT(is(do_run(&g, 1), i < 5 ? REF_SPENT : REF_FINISHED, 0, 0, 1) && sum_bytes(&g, b));
    rig_free(&g);
}

/* Start writes the sums of the file that it is lent. */
static void test_sums_anew(void)
{
    static const uint8_t b[8] = { 0, 0, 3, 219, 0, 0, 32, 175 };
    for (uint32_t steps = 0; steps <= 4; steps++) {
        rig g = a_state(steps);
        rig h = relend(&g, BYTES(B_FILE), REG_BYTES);
        expect_run_13(__LINE__, &h);
        EXPECT(is(do_start(&h), REF_READY, 0, 0, 0));
        EXPECT(sum_bytes(&h, b));
        EXPECT(is(do_run(&h, 2), REF_SPENT, 0, 0, 2));
        /* and back */
        rig back = relend(&h, BYTES(A_FILE), REG_BYTES);
        expect_run_13(__LINE__, &back);
        EXPECT(is(do_start(&back), REF_READY, 0, 0, 0));
        EXPECT(is(do_run(&back, steps), steps < 4 ? REF_SPENT : REF_FINISHED, 0, 0, steps));
        EXPECT(same_state(&back, &g));
        rig_free(&g);
        rig_free(&h);
        rig_free(&back);
    }
}

static void test_file_and_state(void)
{
    test_sum_function();
    test_file_sums();
    test_greatest_sums();
    test_register_lengths();
    test_map_of_13();
    test_sum_bytes();
    test_sum_words();
    test_junk_registers();
    test_other_files();
    test_sums_put_right();
    test_equal_sums();
    test_13_before_10();
    test_13_before_11();
    test_13_before_12();
    test_13_after_9();
    test_sums_kept();
    test_sums_anew();
}

/* ---- order 4: reals ---- */

/* Sign, eleven bits of exponent + 1023, 52 of fraction. */
#define R0 0x0000000000000000u
#define NEG_R0 0x8000000000000000u
#define R1 0x3FF0000000000000u
#define NEG_R1 0xBFF0000000000000u
#define R2 0x4000000000000000u
#define R_HALF 0x3FE0000000000000u
#define R3 0x4008000000000000u
#define R5 0x4014000000000000u
#define R7 0x401C000000000000u
#define R10 0x4024000000000000u
#define R11 0x4026000000000000u
#define R_TENTH 0x3FB999999999999Au
#define R_FIFTH 0x3FC999999999999Au
#define LARGEST 0x7FEFFFFFFFFFFFFFu      /* 2^1024 - 2^971 */
#define NEG_LARGEST 0xFFEFFFFFFFFFFFFFu
#define HALF_LAST 0x7C90000000000000u    /* 2^970, half of LARGEST's last place */
#define BELOW_HALF_LAST 0x7C8FFFFFFFFFFFFFu
#define INFINITE 0x7FF0000000000000u
#define NEG_INFINITE 0xFFF0000000000000u
#define QUIET 0x7FF8000000000000u
#define SIGNALLING 0x7FF0000000000001u
#define NORMAL 0x0010000000000000u       /* 2^-1022, the least normal one */
#define SUBNORMAL(n) (0x0000000000000000u + (n)) /* n * 2^-1074, n below 2^52 */
#define ABOVE_ONE 0x3FF0000002000000u    /* 1 + 2^-27 */
#define BELOW_ONE 0x3FEFFFFFFC000000u    /* 1 - 2^-27 */
#define POWER(n) ((uint64_t)((n) + 1023) << 52)
#define NEGATIVE(bits) (0x8000000000000000u | (bits))

/* A real's two words, the high one lower. */
#define R(bits) (uint32_t)((bits) >> 32), (uint32_t)(bits)
#define ONE_VIEW W(4, 2, VV, 2, 0)

/* A op B, over a word 99; pointer stack and heap stay. */
static void real_gives(int line, uint64_t a, uint8_t code, uint64_t b, uint64_t want)
{
    gives(line, W(99, R(a), R(b)), W(2), ONE_VIEW, W(99, R(want)), W(2), ONE_VIEW, &code, 1);
}

static void real_raises(int line, uint64_t a, uint8_t code, uint64_t b)
{
    raises(line, 1, W(99, R(a), R(b)), W(2), ONE_VIEW, &code, 1);
}

#define REAL(a, op, b, want) real_gives(__LINE__, a, op, b, want)
#define REAL_RAISES(a, op, b) real_raises(__LINE__, a, op, b)
/* A and B either way round. */
#define REALS(a, op, b, want) (REAL(a, op, b, want), REAL(b, op, a, want))
#define REALS_RAISE(a, op, b) (REAL_RAISES(a, op, b), REAL_RAISES(b, op, a))

static void test_real_sums(void)
{
    REALS(R_TENTH, 150, R_FIFTH, 0x3FD3333333333334u);
    REALS(R1, 150, R2, R3);
    REALS(R2, 150, R3, R5);
    REALS(R5, 150, NEGATIVE(R2), R3);
    REAL(R5, 152, R2, R3);
    REAL(R2, 152, R5, NEGATIVE(R3));
    REAL(R3, 152, NEGATIVE(R2), R5);
    /* low words that carry and borrow: 1 + (2^32 - 1) * 2^-52 and its neighbour */
    REALS(0x3FF00000FFFFFFFFu, 150, POWER(-52), 0x3FF0000100000000u);
    REAL(0x3FF0000100000000u, 152, POWER(-52), 0x3FF00000FFFFFFFFu);

    /* ties go to the even one: 2^-53 is half of 1's last place */
    REALS(R1, 150, POWER(-53), R1);
    REALS(R1, 150, POWER(-53) + 1, R1 + 1);
    REALS(R1 + 1, 150, POWER(-53), R1 + 2);
    REALS(R1 + 1, 150, POWER(-53) - 1, R1 + 1);
    REALS(NEG_R1, 150, NEGATIVE(POWER(-53)), NEG_R1);
    REALS(NEG_R1 + 1, 150, NEGATIVE(POWER(-53)), NEG_R1 + 2);
    /* 2^53 + 1 and 2^53 + 3 lie halfway */
    REALS(POWER(53), 150, R1, POWER(53));
    REALS(POWER(53), 150, R3, POWER(53) + 2);
    /* below 1 the last place is 2^-53 */
    REAL(R1, 152, POWER(-53), R1 - 1);
    REAL(R1, 152, POWER(-54), R1);
    REAL(R1, 152, POWER(-54) + 1, R1 - 1);
    REAL(R1 - 1, 152, POWER(-54), R1 - 2);
    REAL(NEG_R1, 152, NEGATIVE(POWER(-54)), NEG_R1);
    REAL(NEG_R1 + 1, 152, POWER(-53), NEG_R1 + 2);
}

static void test_real_products(void)
{
    REALS(R2, 151, R3, 0x4018000000000000u);
    REALS(R2, 151, NEGATIVE(R3), 0xC018000000000000u);
    REAL(NEGATIVE(R2), 151, NEGATIVE(R3), 0x4018000000000000u);
    REALS(R_TENTH, 151, R2, R_FIFTH);
    /* 10 * 0.1 is 1 + 2^-54 (5 * 0x1999999999999A is 2^55 + 2): 1 */
    REALS(R10, 151, R_TENTH, R1);
    /* (1 + 2^-27) ^ 2 = 1 + 2^-26 + 2^-54, a quarter of the last place is lost */
    REAL(ABOVE_ONE, 151, ABOVE_ONE, 0x3FF0000004000000u);
    /* 1 - 2^-54, halfway between 1 - 2^-53 and 1 */
    REALS(ABOVE_ONE, 151, BELOW_ONE, R1);
    /* 1 - 2^-26 + 2^-54, halfway again: down this time */
    REAL(BELOW_ONE, 151, BELOW_ONE, 0x3FEFFFFFF8000000u);
    /* 1.5 * (1 + 2^-52), halfway up from 1.5 + 2^-52; 1.5 * (1 + 3 * 2^-52) halfway down to 4 */
    REALS(0x3FF8000000000000u, 151, R1 + 1, 0x3FF8000000000002u);
    REALS(0x3FF8000000000000u, 151, R1 + 3, 0x3FF8000000000004u);
    /* (1 + 2^-26) * (1 + 2^-27 + 2^-51): 2^-77 above halfway, up though the lower one is even */
    REALS(0x3FF0000004000000u, 151, 0x3FF0000002000002u, 0x3FF0000006000003u);

    REAL(R1, 153, R2, R_HALF);
    REAL(R2, 153, R1, R2);
    REAL(NEG_R1, 153, R2, NEGATIVE(R_HALF));
    REAL(NEG_R1, 153, NEGATIVE(R2), R_HALF);
    REAL(R1, 153, R3, 0x3FD5555555555555u); /* 0101... goes down */
    REAL(R2, 153, R3, 0x3FE5555555555555u);
    REAL(NEG_R1, 153, R3, 0xBFD5555555555555u);
    REAL(R1, 153, R10, R_TENTH); /* 1001 1001... goes up */
    REAL(R2, 153, R10, R_FIFTH);
    REAL(R1, 153, R5, R_FIFTH);
    REAL(LARGEST, 153, LARGEST, R1);
    REAL(R5, 153, NEGATIVE(R5), NEG_R1);
    /* 1 / (1 - 2^-53) = 1 + 2^-53 + 2^-106 + ..., a little above halfway */
    REAL(R1, 153, R1 - 1, R1 + 1);
}

/* 2^1024 - 2^970, half a last place above the largest, is the first to go out of range. */
static void test_real_range(void)
{
    REAL_RAISES(LARGEST, 150, LARGEST);
    REAL_RAISES(NEG_LARGEST, 150, NEG_LARGEST);
    REALS_RAISE(LARGEST, 151, R2);
    REALS_RAISE(LARGEST, 151, NEGATIVE(R2));
    REAL_RAISES(LARGEST, 151, LARGEST);
    REAL_RAISES(LARGEST, 152, NEG_LARGEST);
    REAL_RAISES(NEG_LARGEST, 152, LARGEST);
    REAL_RAISES(LARGEST, 153, R_HALF);

    REALS_RAISE(LARGEST, 150, HALF_LAST);
    REALS(LARGEST, 150, BELOW_HALF_LAST, LARGEST);
    REALS_RAISE(NEG_LARGEST, 150, NEGATIVE(HALF_LAST));
    REALS(NEG_LARGEST, 150, NEGATIVE(BELOW_HALF_LAST), NEG_LARGEST);
    REAL_RAISES(LARGEST, 152, NEGATIVE(HALF_LAST));
    REAL(LARGEST, 152, NEGATIVE(BELOW_HALF_LAST), LARGEST);
    REAL_RAISES(NEG_LARGEST, 152, HALF_LAST);
    REAL(NEG_LARGEST, 152, BELOW_HALF_LAST, NEG_LARGEST);
    REALS(LARGEST, 150, R1, LARGEST);
    REALS(LARGEST - 1, 150, POWER(971), LARGEST);
    REAL(LARGEST, 152, POWER(971), LARGEST - 1);

    /* 2^1023 * (2 - 2^-52) */
    REALS(POWER(1023), 151, R2 - 1, LARGEST);
    REALS(POWER(1023), 151, NEGATIVE(R2 - 1), NEG_LARGEST);
    REALS_RAISE(POWER(1023), 151, R2);
    /* 2^1024 * (1 + 2^-27) * (1 - 2^-27) is 2^1024 - 2^970 */
    REALS_RAISE(0x7FE0000002000000u, 151, 0x3FFFFFFFFC000000u);
    /* with 2^-53 less on the right: 2^1024 * (1 - 3 * 2^-54 - 2^-80) */
    REALS(0x7FE0000002000000u, 151, 0x3FFFFFFFFBFFFFFFu, LARGEST - 1);
    /* 2^1024 by division: the largest by 1 - 2^-53, 2^1023 by a half */
    REAL_RAISES(LARGEST, 153, R1 - 1);
    REAL_RAISES(POWER(1023), 153, R_HALF);
    REAL(POWER(1022), 153, R_HALF, POWER(1023));
    REAL_RAISES(R1, 153, SUBNORMAL(1));
    REAL(R1, 153, NORMAL, POWER(1022));
}

static void test_real_zeros(void)
{
    REALS(NEG_R0, 150, R0, R0);
    REAL(NEG_R0, 150, NEG_R0, NEG_R0);
    REAL(R0, 150, R0, R0);
    REAL(NEG_R0, 152, R0, NEG_R0);
    REAL(R0, 152, NEG_R0, R0);
    REAL(R0, 152, R0, R0);
    REAL(NEG_R0, 152, NEG_R0, R0);
    /* x - x and x + -x are +0 */
    REAL(R1, 152, R1, R0);
    REAL(NEG_R1, 152, NEG_R1, R0);
    REAL(R_TENTH, 152, R_TENTH, R0);
    REALS(R_TENTH, 150, NEGATIVE(R_TENTH), R0);
    REAL(LARGEST, 152, LARGEST, R0);
    REAL(SUBNORMAL(1), 152, SUBNORMAL(1), R0);
    REALS(NEG_R0, 150, R1, R1);
    REAL(NEG_R0, 152, R1, NEG_R1);

    REALS(R0, 151, NEG_R1, NEG_R0);
    REALS(NEG_R0, 151, NEG_R1, R0);
    REALS(NEG_R0, 151, R1, NEG_R0);
    REALS(R0, 151, NEG_R0, NEG_R0);
    REAL(NEG_R0, 151, NEG_R0, R0);
    REALS(LARGEST, 151, R0, R0);

    REAL(R0, 153, R5, R0);
    REAL(R0, 153, NEGATIVE(R5), NEG_R0);
    REAL(NEG_R0, 153, R5, NEG_R0);
    REAL(NEG_R0, 153, NEGATIVE(R5), R0);
    /* only results are tested */
    REAL(R1, 153, INFINITE, R0);
    REAL(R1, 153, NEG_INFINITE, NEG_R0);
    REAL(NEG_R1, 153, INFINITE, NEG_R0);
    REAL(NEG_R1, 153, NEG_INFINITE, R0);
    REAL(R0, 153, INFINITE, R0);
    REAL(LARGEST, 153, NEG_INFINITE, NEG_R0);
}

/* A result below 2^-1022 is rounded to a multiple of 2^-1074; no exception. */
static void test_subnormals(void)
{
    REALS(SUBNORMAL(1), 150, SUBNORMAL(2), SUBNORMAL(3));
    REALS(0x000FFFFFFFFFFFFFu, 150, SUBNORMAL(1), NORMAL);
    REAL(NORMAL, 152, SUBNORMAL(1), 0x000FFFFFFFFFFFFFu);
    REAL(SUBNORMAL(5), 152, SUBNORMAL(7), NEGATIVE(SUBNORMAL(2)));
    REAL(NORMAL + 1, 152, NORMAL, SUBNORMAL(1));
    REALS(R1, 150, SUBNORMAL(1), R1);
    /* halves: 1/2, 3/2, 5/2 last places lie halfway */
    REALS(SUBNORMAL(1), 151, R_HALF, R0);
    REALS(NEGATIVE(SUBNORMAL(1)), 151, R_HALF, NEG_R0);
    REALS(SUBNORMAL(3), 151, R_HALF, SUBNORMAL(2));
    REALS(SUBNORMAL(5), 151, R_HALF, SUBNORMAL(2));
    REALS(SUBNORMAL(2), 151, R_HALF, SUBNORMAL(1));
    REAL(SUBNORMAL(1), 153, R2, R0);
    REAL(SUBNORMAL(3), 153, R2, SUBNORMAL(2));
    REAL(SUBNORMAL(5), 153, NEGATIVE(R2), NEGATIVE(SUBNORMAL(2)));
    REAL(SUBNORMAL(4), 153, R3, SUBNORMAL(1));
    REAL(SUBNORMAL(5), 153, R3, SUBNORMAL(2));
    /* (2^52 + 1) / 2 and (2^52 + 3) / 2; 2^52 - 1/2 goes up to the least normal one */
    REALS(NORMAL, 151, R_HALF, 0x0008000000000000u);
    REALS(NORMAL + 1, 151, R_HALF, 0x0008000000000000u);
    REALS(NORMAL + 3, 151, R_HALF, 0x0008000000000002u);
    REALS(NORMAL, 151, R1 - 1, NORMAL);
    REALS(NORMAL, 151, R1 - 2, 0x000FFFFFFFFFFFFFu);
    /* 2^-1074, 2^-1075 and a little more than that */
    REAL(POWER(-537), 151, POWER(-537), SUBNORMAL(1));
    REALS(POWER(-538), 151, POWER(-537), R0);
    REALS(POWER(-538) + 1, 151, POWER(-537), SUBNORMAL(1));
    REALS(NEGATIVE(POWER(-538)), 151, POWER(-537), NEG_R0);
    REAL(SUBNORMAL(1), 151, SUBNORMAL(1), R0);
    REALS(SUBNORMAL(1), 151, NEGATIVE(SUBNORMAL(1)), NEG_R0);
    REALS(SUBNORMAL(1), 151, POWER(1023), POWER(-51));
    /* 2^-1024 * (1 + 2^-53 + ...): an eighth of 2^-1074 is lost */
    REAL(R1, 153, LARGEST, 0x0004000000000000u);
    REAL(SUBNORMAL(1), 153, SUBNORMAL(1), R1);
}

static void test_not_finite(void)
{
    static const uint64_t nans[] = { QUIET, NEGATIVE(QUIET), SIGNALLING, NEGATIVE(SIGNALLING),
                                     0x7FFFFFFFFFFFFFFFu, 0x7FF4000000000000u };
    static const uint64_t others[] = { R0, NEG_R0, R1, INFINITE, NEG_INFINITE, QUIET };
    REAL_RAISES(R0, 153, R0);
    REAL_RAISES(R0, 153, NEG_R0);
    REAL_RAISES(R1, 153, R0);
    REAL_RAISES(R1, 153, NEG_R0);
    REAL_RAISES(NEG_R1, 153, R0);
    REAL_RAISES(INFINITE, 153, R0);
    REAL_RAISES(INFINITE, 153, R1);
    REAL_RAISES(INFINITE, 153, INFINITE);
    REAL_RAISES(NEG_INFINITE, 153, INFINITE);
    REAL_RAISES(INFINITE, 152, INFINITE);
    REAL_RAISES(NEG_INFINITE, 152, NEG_INFINITE);
    REAL_RAISES(INFINITE, 152, NEG_INFINITE);
    REAL_RAISES(INFINITE, 152, R1);
    REAL_RAISES(R1, 152, INFINITE);
    REALS_RAISE(INFINITE, 150, NEG_INFINITE);
    REAL_RAISES(INFINITE, 150, INFINITE);
    REALS_RAISE(INFINITE, 150, R1);
    REALS_RAISE(NEG_INFINITE, 150, LARGEST);
    REALS_RAISE(R0, 151, INFINITE);
    REALS_RAISE(NEG_R0, 151, NEG_INFINITE);
    REALS_RAISE(INFINITE, 151, NEG_R1);
    REAL_RAISES(INFINITE, 151, INFINITE);
    for (size_t i = 0; i < sizeof nans / sizeof nans[0]; i++)
        for (size_t k = 0; k < sizeof others / sizeof others[0]; k++)
            for (uint8_t code = 150; code <= 153; code++)
                REALS_RAISE(nans[i], code, others[k]);
}

/* ---- order 4: less ---- */

static void real_less(int line, uint64_t a, uint64_t b, uint32_t want)
{
    gives(line, W(99, R(a), R(b)), W(2), ONE_VIEW, W(99, want), W(2), ONE_VIEW, BYTES(155));
}

#define IS_LESS(a, b) (real_less(__LINE__, a, b, 1), real_less(__LINE__, b, a, 0))
#define NEITHER_LESS(a, b) (real_less(__LINE__, a, b, 0), real_less(__LINE__, b, a, 0))

static void test_less(void)
{
    static const uint64_t nans[] = { QUIET, NEGATIVE(QUIET), SIGNALLING, 0xFFFFFFFFFFFFFFFFu };
    /* rising: each is less than all that follow */
    static const uint64_t rising[] = {
        NEG_INFINITE, NEG_LARGEST, NEGATIVE(R2), NEG_R1 + 1, NEG_R1, NEGATIVE(NORMAL),
        NEGATIVE(SUBNORMAL(2)), NEGATIVE(SUBNORMAL(1)), R0, SUBNORMAL(1), SUBNORMAL(2), NORMAL,
        R_TENTH, 0x3FD3333333333333u, 0x3FD3333333333334u, R1, 0x3FF000007FFFFFFFu,
        0x3FF0000080000000u, 0x3FF00000FFFFFFFFu, 0x3FF0000100000000u, R2, LARGEST, INFINITE
    };
    size_t n = sizeof rising / sizeof rising[0];
    for (size_t i = 0; i < n; i++) {
        NEITHER_LESS(rising[i], rising[i]);
        for (size_t k = i + 1; k < n; k++)
            IS_LESS(rising[i], rising[k]);
        for (size_t k = 0; k < sizeof nans / sizeof nans[0]; k++)
            NEITHER_LESS(rising[i], nans[k]);
    }
    for (size_t i = 0; i < sizeof nans / sizeof nans[0]; i++)
        for (size_t k = 0; k < sizeof nans / sizeof nans[0]; k++)
            NEITHER_LESS(nans[i], nans[k]);
    NEITHER_LESS(NEG_R0, R0);
    NEITHER_LESS(NEG_R0, NEG_R0);
    IS_LESS(NEG_R0, SUBNORMAL(1));
    IS_LESS(NEGATIVE(SUBNORMAL(1)), NEG_R0);
    NEITHER_LESS(NEG_R0, QUIET);
}

/* ---- order 4: 53 ---- */

/* Any eight bytes at all, highest first: the high word lies lower. */
static void real_pushed(int line, uint64_t bits)
{
    uint8_t code[9] = { 53 };
    for (int i = 0; i < 8; i++)
        code[1 + i] = (uint8_t)(bits >> (56 - 8 * i));
    gives(line, NO_WORDS, W(2), ONE_VIEW, W(R(bits)), W(2), ONE_VIEW, code, 9);
    gives(line, W(98, 99), W(2), ONE_VIEW, W(98, 99, R(bits)), W(2), ONE_VIEW, code, 9);
}

#define PUSHED(bits) real_pushed(__LINE__, bits)

static void test_push_real(void)
{
    GIVES_STEP(W(99), NO_WORDS, W(2, 0), W(99, 0x01234567, 0x89ABCDEF), NO_WORDS, W(2, 0),
               53, 0x01, 0x23, 0x45, 0x67, 0x89, 0xAB, 0xCD, 0xEF);
    GIVES_STEP(W(99), NO_WORDS, W(2, 0), W(99, 0x3FB99999, 0x9999999A), NO_WORDS, W(2, 0),
               53, 0x3F, 0xB9, 0x99, 0x99, 0x99, 0x99, 0x99, 0x9A);
    PUSHED(R0);
    PUSHED(NEG_R0);
    PUSHED(R1);
    PUSHED(LARGEST);
    PUSHED(SUBNORMAL(1));
    PUSHED(0x800FFFFFFFFFFFFFu);
    PUSHED(INFINITE);
    PUSHED(NEG_INFINITE);
    /* NaNs keep sign, quiet bit and payload */
    PUSHED(QUIET);
    PUSHED(NEGATIVE(QUIET));
    PUSHED(0x7FF8000000000001u);
    PUSHED(0x7FFDEADBEEF01234u);
    PUSHED(SIGNALLING);
    PUSHED(NEGATIVE(SIGNALLING));
    PUSHED(0x7FF4123456789ABCu);
    PUSHED(0xFFF7FFFFFFFFFFFFu);
    PUSHED(0x7FF0000080000000u);
    PUSHED(0xFFFFFFFFFFFFFFFFu);
    /* bytes that look like codes */
    PUSHED(0xF0F0F0F0F0F0F0F0u);
    PUSHED(0x4949494949494949u);
    PUSHED(0x3535353535353535u);
    PUSHED(0xA0A1A2F034364801u);
    /* each byte in its place */
    for (int i = 0; i < 64; i++)
        PUSHED((uint64_t)1 << i);
}

/* ---- order 4: hoop points ---- */

typedef struct {
    uint64_t across, along;
} hoop_point;

#define POINT(across, along) ((hoop_point){ across, along })
#define ON_STACK(p, t, k) \
    W(99, R((p).across), R((p).along), R((t).across), R((t).along), R(k))

static void hoop_gives(int line, hoop_point p, hoop_point shift, uint64_t scale, hoop_point want)
{
    gives(line, ON_STACK(p, shift, scale), W(2), ONE_VIEW,
          W(99, R(want.across), R(want.along)), W(2), ONE_VIEW, BYTES(156));
}

/* The two coordinates change places: neither is treated otherwise. */
static void hoop_turned(int line, hoop_point p, hoop_point shift, uint64_t scale, hoop_point want)
{
    hoop_gives(line, p, shift, scale, want);
    hoop_gives(line, POINT(p.along, p.across), POINT(shift.along, shift.across), scale,
               POINT(want.along, want.across));
}

static void hoop_raises(int line, hoop_point p, hoop_point shift, uint64_t scale)
{
    hoop_point turned = POINT(p.along, p.across), shift_turned = POINT(shift.along, shift.across);
    raises(line, 1, ON_STACK(p, shift, scale), W(2), ONE_VIEW, BYTES(156));
    raises(line, 1, ON_STACK(turned, shift_turned, scale), W(2), ONE_VIEW, BYTES(156));
}

#define HOOP(p, t, k, want) hoop_turned(__LINE__, p, t, k, want)
#define HOOP_RAISES(p, t, k) hoop_raises(__LINE__, p, t, k)

static void test_hoop_points(void)
{
    /* (3, 5) * 2 + (7, 11) = (13, 21), word by word from the bottom */
    GIVES_STEP(W(99, 0x40080000, 0, 0x40140000, 0, 0x401C0000, 0, 0x40260000, 0, 0x40000000, 0),
               NO_WORDS, W(2, 0), W(99, 0x402A0000, 0, 0x40350000, 0), NO_WORDS, W(2, 0), 156);
    HOOP(POINT(R3, R5), POINT(R7, R11), R2,
         POINT(0x402A000000000000u, 0x4035000000000000u));
    /* by -2: (1, 1); by a half: (8.5, 13.5) */
    HOOP(POINT(R3, R5), POINT(R7, R11), NEGATIVE(R2), POINT(R1, R1));
    HOOP(POINT(R3, R5), POINT(R7, R11), R_HALF,
         POINT(0x4021000000000000u, 0x402B000000000000u));
    /* 0.1 * 2 + 0.1; 0.2 * 2 - 0.2 */
    HOOP(POINT(R_TENTH, R_FIFTH), POINT(R_TENTH, NEGATIVE(R_FIFTH)), R2,
         POINT(0x3FD3333333333334u, R_FIFTH));
    /* a scale of 0: the shift; +0 + -0 = +0, -0 + -0 = -0 */
    HOOP(POINT(R3, R5), POINT(R7, R11), R0, POINT(R7, R11));
    HOOP(POINT(R3, NEGATIVE(R5)), POINT(NEG_R0, NEG_R0), R0, POINT(R0, NEG_R0));
    HOOP(POINT(R3, R5), POINT(NEG_R0, R0), NEG_R0, POINT(NEG_R0, R0));
    HOOP(POINT(R0, NEG_R0), POINT(NEG_R0, NEG_R0), NEG_R1, POINT(NEG_R0, R0));
    HOOP(POINT(R3, R5), POINT(NEGATIVE(R3), NEGATIVE(R5)), R1, POINT(R0, R0));
    /* subnormals, and the largest one just not passed */
    HOOP(POINT(SUBNORMAL(1), SUBNORMAL(3)), POINT(SUBNORMAL(4), R0), R_HALF,
         POINT(SUBNORMAL(4), SUBNORMAL(2)));
    HOOP(POINT(LARGEST, NEG_LARGEST), POINT(BELOW_HALF_LAST, NEGATIVE(BELOW_HALF_LAST)), R1,
         POINT(LARGEST, NEG_LARGEST));
    HOOP(POINT(POWER(1023), R1), POINT(NEG_LARGEST, R0), R2 - 1, POINT(R0, R2 - 1));
}

/* Product and sum are rounded once each: fused, all but one of these would come out otherwise. */
static void test_hoop_rounding(void)
{
    /* the product 1 - 2^-54 is rounded to 1, 1 - 2^-26 + 2^-54 to 1 - 2^-26 */
    HOOP(POINT(ABOVE_ONE, BELOW_ONE), POINT(NEG_R1, 0xBFEFFFFFF8000000u), BELOW_ONE,
         POINT(R0, R0));
    /* 1 + (2^-53 and a little) goes up; with 2^-54 less it would go down */
    HOOP(POINT(ABOVE_ONE, R1), POINT(POWER(-53) + 1, R0), BELOW_ONE,
         POINT(R1 + 1, BELOW_ONE));
    /* 1 + 2^-26 + 2^-53 goes to the even one; with 2^-54 more it would go up */
    HOOP(POINT(ABOVE_ONE, R1), POINT(POWER(-53), R0), ABOVE_ONE,
         POINT(0x3FF0000004000000u, ABOVE_ONE));
    /* 2^-1075 is rounded to 0 before 2^-1074 is added, 3 * 2^-1075 to 2^-1073 */
    HOOP(POINT(POWER(-538), POWER(-538)), POINT(SUBNORMAL(1), R0), POWER(-537),
         POINT(SUBNORMAL(1), R0));
    HOOP(POINT(SUBNORMAL(3), SUBNORMAL(1)), POINT(SUBNORMAL(1), SUBNORMAL(1)), R_HALF,
         POINT(SUBNORMAL(3), SUBNORMAL(1)));
    /* 10 * 0.1 - 1: the product's 2^-54 is lost */
    HOOP(POINT(R_TENTH, R1), POINT(NEG_R1, NEG_R0), R10, POINT(R0, R10));
    /* once, not to more places first: 2^-77 above halfway */
    HOOP(POINT(0x3FF0000004000000u, R1), POINT(R0, R0), 0x3FF0000002000002u,
         POINT(0x3FF0000006000003u, 0x3FF0000002000002u));
    /* the doubled largest is not brought back by the sum */
    HOOP_RAISES(POINT(LARGEST, R1), POINT(NEG_LARGEST, R1), R2);
    /* nor 2^1024 - 2^970, which is rounded to 2^1024 */
    HOOP_RAISES(POINT(0x7FE0000002000000u, R1), POINT(NEGATIVE(HALF_LAST), R1),
                0x3FFFFFFFFC000000u);
}

static void test_hoop_range(void)
{
    /* one coordinate alone: its product, its sum */
    HOOP_RAISES(POINT(LARGEST, R3), POINT(R7, R11), R2);
    HOOP_RAISES(POINT(LARGEST, R3), POINT(LARGEST, R11), R1);
    HOOP_RAISES(POINT(LARGEST, R3), POINT(HALF_LAST, R11), R1);
    HOOP_RAISES(POINT(NEG_LARGEST, R3), POINT(NEGATIVE(HALF_LAST), R11), R1);
    /* both */
    HOOP_RAISES(POINT(LARGEST, NEG_LARGEST), POINT(R7, R11), R2);
    /* an infinite product and an infinite shift against it: a NaN */
    HOOP_RAISES(POINT(LARGEST, R3), POINT(NEG_INFINITE, R11), R2);
    HOOP_RAISES(POINT(LARGEST, R3), POINT(INFINITE, R11), R2);
    HOOP_RAISES(POINT(INFINITE, R3), POINT(NEG_INFINITE, R11), R1);
    /* infinities and NaNs among the five reals */
    HOOP_RAISES(POINT(INFINITE, R3), POINT(R7, R11), R2);
    HOOP_RAISES(POINT(INFINITE, R3), POINT(R7, R11), R0);
    HOOP_RAISES(POINT(R2, R3), POINT(INFINITE, R11), R2);
    HOOP_RAISES(POINT(R2, R3), POINT(NEG_INFINITE, R11), R0);
    HOOP_RAISES(POINT(R2, R3), POINT(R7, R11), INFINITE);
    HOOP_RAISES(POINT(R0, R0), POINT(R7, R11), NEG_INFINITE);
    HOOP_RAISES(POINT(QUIET, R3), POINT(R7, R11), R2);
    HOOP_RAISES(POINT(SIGNALLING, R3), POINT(R7, R11), R0);
    HOOP_RAISES(POINT(R2, R3), POINT(QUIET, R11), R2);
    HOOP_RAISES(POINT(R2, R3), POINT(NEGATIVE(SIGNALLING), R11), R0);
    HOOP_RAISES(POINT(R2, R3), POINT(R7, R11), QUIET);
    HOOP_RAISES(POINT(R0, R0), POINT(R0, R0), SIGNALLING);
}

/* ---- order 4: the checker ---- */

#define BODY(b) b, b, b, b, b, b, b, b
#define ONE_BYTES 0x3F, 0xF0, 0, 0, 0, 0, 0, 0
#define LARGEST_BYTES 0x7F, 0xEF, 255, 255, 255, 255, 255, 255

static void test_real_records(void)
{
    /* 7 53; 16 73: bytes of a body are no records */
    entry two_words[] = { { 7, 0, 0, N }, { 16, 2, 0, N } };
    MAP(two_words, 240, 0, 0, 2, 0, 2, 0, 53, BODY(240), 73);
    MAP(two_words, 240, 0, 0, 2, 0, 2, 0, 53, BODY(99), 73);
    MAP(two_words, 240, 0, 0, 2, 0, 2, 0, 53, BODY(255), 73);
    MAP(two_words, 240, 0, 0, 2, 0, 2, 0, 53, BODY(73), 73);
    MAP(two_words, 240, 0, 0, 2, 0, 2, 0, 53, BODY(53), 73);
    BENCH("finished steps=2 main=-252645136,-252645136", 240, 0, 0, 2, 0, 2, 0, 53, BODY(240), 73);
    /* nor are 240s in it heads: 7 53; 16 72 1; 19 73 */
    REFUSAL(5, 16, 240, 0, 0, 2, 0, 2, 0, 53, BODY(240), 72, 0, 1, 73);

    /* cut short, at its place: one byte to eight bytes missing, behind another one too */
    const uint8_t cut[] = { 240, 0, 0, 4, 0, 4, 0, 53, BODY(240), 53, BODY(73), 73 };
    for (size_t len = 8; len < 16; len++)
        expect_refusal(__LINE__, 3, 7, cut, len);
    for (size_t len = 17; len < 25; len++)
        expect_refusal(__LINE__, 3, 16, cut, len);
    expect_refusal(__LINE__, 6, 7, cut, 16);
    expect_refusal(__LINE__, 6, 16, cut, 25);
    expect_passes(__LINE__, cut, 26);
    /* a body of seven takes the 73 behind it */
    REFUSAL(6, 7, 240, 0, 0, 2, 0, 2, 0, 53, 1, 2, 3, 4, 5, 6, 7, 73);
    REFUSAL(3, 17, 240, 0, 0, 2, 0, 2, 0, 53, 1, 2, 3, 4, 5, 6, 7, 8, 73, 9);

    /* 154 and the neighbours are unknown */
    REFUSAL(3, 7, 240, 0, 0, 0, 0, 4, 0, 154, 73);
    REFUSAL(3, 7, 240, 0, 0, 0, 0, 4, 0, 149, 73);
    REFUSAL(3, 7, 240, 0, 0, 0, 0, 4, 0, 157, 73);
    REFUSAL(3, 7, 240, 0, 0, 0, 0, 4, 0, 52, 73);
    REFUSAL(3, 7, 240, 0, 0, 0, 0, 4, 0, 55, 73);
    REFUSAL(3, 16, 240, 0, 0, 2, 0, 2, 0, 53, BODY(1), 154, 73);
}

/* 15 the code as the last instruction: 6, even with too few words. */
static void test_real_last(void)
{
    static const uint8_t codes[] = { 150, 151, 152, 153, 155, 156 };
    REFUSAL(6, 7, 240, 0, 0, 0, 0, 2, 0, 53, BODY(0));
    REFUSAL(6, 7, 240, 0, 0, 0, 0, 1, 0, 53, BODY(0));
    REFUSAL(6, 7, HEAD0, 53, BODY(0), HEAD0, 73);
    for (size_t i = 0; i < sizeof codes; i++)
        for (uint8_t a = 0; a <= 11; a++) {
            uint8_t f[24] = { HEAD0, 73, 240, a, 0, 0, 0, 11, 0, codes[i], HEAD0, 73 };
            expect_refusal(__LINE__, 6, 15, f, 16);
            expect_refusal(__LINE__, 6, 15, f, 24);
        }
}

/* 7 fjump s; 10 53, body 11 to 18; 19 bjump t; 22 the end. A body is no place to go to. */
static void test_real_targets(void)
{
    for (uint8_t s = 0; s <= 9; s++) {
        uint8_t f[] = { 240, 0, 0, 0, 0, 2, 0, 1, 0, s, 53, BODY(73), 3, 0, 3 };
        if (s == 0)
            expect_passes(__LINE__, f, sizeof f);
        else if (s < 9)
            expect_refusal(__LINE__, 5, 7, f, sizeof f);
        else
            expect_refusal(__LINE__, 6, 10, f, sizeof f); /* passed over */
    }
    for (uint8_t t = 3; t <= 12; t++) {
        uint8_t f[] = { 240, 0, 0, 0, 0, 2, 0, 1, 0, 0, 53, BODY(240), 3, 0, t };
        if (t == 3)
            expect_passes(__LINE__, f, sizeof f);
        else if (t < 12)
            expect_refusal(__LINE__, 5, 19, f, sizeof f);
        else
            expect_refusal(__LINE__, 9, 19, f, sizeof f); /* 10 has depth 0 */
    }
    /* 7 160 -> h; 10 53; 19 161; 20 bjump 3; 23 bjump 3 */
    for (uint8_t h = 11; h <= 18; h++)
        REFUSAL(5, 7, 240, 0, 0, 0, 0, 3, 0, 160, 0, h, 53, BODY(3), 161, 3, 0, 3, 3, 0, 3);
    PASSES(240, 0, 0, 0, 0, 3, 0, 160, 0, 23, 53, BODY(3), 161, 3, 0, 3, 3, 0, 3);
}

/* 15 the code, then bjump 3, from depth a with x. */
static void expect_depth(int line, uint8_t code, int a, int x, bool passes)
{
    uint8_t f[] = { HEAD0, 73, 240, (uint8_t)a, 0, 0, 0, (uint8_t)x, 0, code, 3, 0, 3 };
    if (passes)
        expect_passes(line, f, sizeof f);
    else
        expect_refusal(line, 7, 15, f, sizeof f);
}

static void test_real_depths(void)
{
    static const uint8_t codes[] = { 150, 151, 152, 153, 155, 156 };
    for (size_t i = 0; i < sizeof codes; i++) {
        int need = codes[i] == 156 ? 10 : 4;
        for (int a = 0; a <= 12; a++) {
            expect_depth(__LINE__, codes[i], a, a, a >= need);
            expect_depth(__LINE__, codes[i], a, 255, a >= need);
        }
    }
    /* 53 for two words: x 2 suffices, 1 and 0 don't */
    PASSES(240, 0, 0, 2, 0, 2, 0, 53, BODY(1), 73);
    REFUSAL(7, 7, 240, 0, 0, 1, 0, 1, 0, 53, BODY(1), 73);
    REFUSAL(7, 7, HEAD0, 53, BODY(1), 73);
    REFUSAL(7, 16, 240, 0, 0, 2, 0, 3, 0, 53, BODY(1), 53, BODY(1), 73);
    /* 7 53; 16 53; 25 the code; 26 73 has what it leaves */
    PASSES(240, 0, 0, 2, 0, 4, 0, 53, BODY(1), 53, BODY(1), 150, 73);
    PASSES(240, 0, 0, 1, 0, 4, 0, 53, BODY(1), 53, BODY(1), 155, 73);
    REFUSAL(8, 26, 240, 0, 0, 1, 0, 4, 0, 53, BODY(1), 53, BODY(1), 150, 73);
    REFUSAL(8, 26, 240, 0, 0, 2, 0, 4, 0, 53, BODY(1), 53, BODY(1), 155, 73);
    /* the whole map: 7, 16, 25, 34, 43 53; 52 156; 53 155; 54 73 */
    entry hoop[] = { { 7, 0, 0, N }, { 16, 2, 0, N }, { 25, 4, 0, N }, { 34, 6, 0, N },
                     { 43, 8, 0, N }, { 52, 10, 0, N }, { 53, 4, 0, N }, { 54, 1, 0, N } };
    MAP(hoop, 240, 0, 0, 1, 0, 10, 0, 53, BODY(1), 53, BODY(2), 53, BODY(3), 53, BODY(4),
        53, BODY(5), 156, 155, 73);
    REFUSAL(7, 43, 240, 0, 0, 1, 0, 9, 0, 53, BODY(1), 53, BODY(2), 53, BODY(3), 53, BODY(4),
            53, BODY(5), 156, 155, 73);
}

/* 7 push low words; 160 -> the end; push up words; the code; bjump 3; bjump 3 */
static void expect_floor(int line, uint8_t code, size_t low, size_t up, bool passes)
{
    uint8_t f[64] = { 240, 0, 0, 0, 0, (uint8_t)(low + up + 1), 0 };
    size_t n = 7;
    for (size_t i = 0; i < low; i++, n += 2)
        f[n] = 54;
    size_t target = n + 3 + 2 * up + 4;
    memcpy(f + n, (const uint8_t[]){ 160, 0, (uint8_t)target }, 3);
    n += 3;
    for (size_t i = 0; i < up; i++, n += 2)
        f[n] = 54;
    memcpy(f + n, (const uint8_t[]){ code, 3, 0, 3, 3, 0, 3 }, 7);
    if (passes)
        expect_passes(line, f, n + 7);
    else
        expect_refusal(line, 7, (uint32_t)n, f, n + 7);
}

static void test_real_floor(void)
{
    static const uint8_t codes[] = { 150, 151, 152, 153, 155, 156 };
    for (size_t i = 0; i < sizeof codes; i++) {
        size_t need = codes[i] == 156 ? 10 : 4;
        for (size_t low = 0; low <= need; low++) {
            expect_floor(__LINE__, codes[i], low, need, true);
            expect_floor(__LINE__, codes[i], low, need - 1, false);
            expect_floor(__LINE__, codes[i], low, need - low, low == 0);
        }
    }
    /* 53 above a floor: 7 53; 16 160 -> 32; 19 53; 28 161; 29 bjump 3; 32 bjump 3 */
    entry above[] = { { 7, 0, 0, N }, { 16, 2, 0, N }, { 19, 2, 0, 16 }, { 28, 4, 0, 16 },
                      { 29, 4, 0, N }, { 32, 3, 0, N } };
    MAP(above, 240, 0, 0, 0, 0, 4, 0, 53, BODY(9), 160, 0, 32, 53, BODY(8), 161, 3, 0, 3, 3, 0, 3);
}

/* ---- order 4: routines ---- */

/* 7, 16, 25, 34, 43 53; 52 72 1; 55 73; 56 procedure 1: 63 156; 64 73: (3, 5) scaled + (7, 11) */
#define HOOP_FILE(high, low) \
    240, 0, 0, 4, 0, 10, 0, 53, 0x40, 8, 0, 0, 0, 0, 0, 0, 53, 0x40, 20, 0, 0, 0, 0, 0, 0, \
    53, 0x40, 28, 0, 0, 0, 0, 0, 0, 53, 0x40, 38, 0, 0, 0, 0, 0, 0, \
    53, high, low, 0, 0, 0, 0, 0, 0, 72, 0, 1, 73, 240, 10, 0, 4, 0, 10, 0, 156, 73

/*
 * 7 53 0.0; 16 53 0.1; 25 150; 26 20 0; 29 20 1; 32 53 1.0; 41 155; 42 bjumpt -> 16;
 * 45 73. The tenth sum is 1 - 2^-53, less than 1: an eleventh is added.
 */
#define TENTHS_FILE \
    240, 0, 0, 2, 0, 6, 0, 53, BODY(0), 53, 0x3F, 0xB9, 0x99, 0x99, 0x99, 0x99, 0x99, 0x9A, 150, \
    20, 0, 0, 20, 0, 1, 53, ONE_BYTES, 155, 4, 0, 29, 73

/*
 * 7 53 1.0; 16 160 -> 27; 19 72 1; 22 161; 23 22 1; 26 73; 27 22 1; 30 73;
 * 31 procedure 1: 38 53 largest; 47 53 largest; 56 the code; 57 64 1 0; 62 73.
 * The callee's high word, or the 1 that it raises, replaces the low word of the caller's real.
 */
#define CAUGHT_FILE(code) \
    240, 0, 0, 2, 0, 3, 0, 53, ONE_BYTES, 160, 0, 27, 72, 0, 1, 161, 22, 0, 1, 73, 22, 0, 1, 73, \
    240, 0, 0, 1, 0, 4, 0, 53, LARGEST_BYTES, 53, LARGEST_BYTES, code, 64, 0, 1, 0, 0, 73

static void test_real_routines(void)
{
    BENCH("finished steps=9 main=1076494336,0,1077215232,0", HOOP_FILE(0x40, 0));
    BENCH("uncaught 1 at 63 steps=6 "
          "main=1074266112,0,1075052544,0,1075576832,0,1076232192,0,2146435072,0",
          HOOP_FILE(0x7F, 0xF0));
    cut_runs(__LINE__, REF_FINISHED, 9, BYTES(HOOP_FILE(0x40, 0)));
    cut_runs(__LINE__, REF_UNCAUGHT, 6, BYTES(HOOP_FILE(0x7F, 0xF0)));

    /* 1 - 2^-53 + 0.1: 2^56 - 8 + 0x1999999999999A = 0x119999999999992 times 2^-56, cut by 2 */
    rig g = run_out(__LINE__, reply(REF_FINISHED, 0, 0, 79), BYTES(TENTHS_FILE));
    LIST_IS(g, MAIN, 0x3FF19999, 0x99999999);
    rig_free(&g);
    cut_runs(__LINE__, REF_FINISHED, 79, BYTES(TENTHS_FILE));

    BENCH("finished steps=8 main=1072693248,1", CAUGHT_FILE(150));
    BENCH("finished steps=8 main=1072693248,1", CAUGHT_FILE(151));
    BENCH("finished steps=11 main=1072693248,0", CAUGHT_FILE(152));
    BENCH("finished steps=11 main=1072693248,1072693248", CAUGHT_FILE(153));
    cut_runs(__LINE__, REF_FINISHED, 8, BYTES(CAUGHT_FILE(150)));
    cut_runs(__LINE__, REF_FINISHED, 11, BYTES(CAUGHT_FILE(153)));
}

int main(void)
{
    test_samples();
    test_start();
    test_file();
    test_flow();
    test_depths();
    test_jumps();
    test_arithmetic();
    test_objects_and_stacks();
    test_calls();
    test_exceptions();
    test_handlers();
    test_deep();
    test_cuts();
    test_lengths();
    test_heap();
    test_sound();
    test_make_vectors();
    test_vector_lengths();
    test_greatest_vectors();
    test_read_vectors();
    test_read_other_kinds();
    test_vector_ends();
    test_write_vectors();
    test_plain_fields();
    test_pointer_fields();
    test_vector_routines();
    test_plain_heaps();
    test_pointer_heaps();
    test_element_heaps();
    test_greatest_heaps();
    test_vector_damage();
    test_file_and_state();
    test_real_sums();
    test_real_products();
    test_real_range();
    test_real_zeros();
    test_subnormals();
    test_not_finite();
    test_less();
    test_push_real();
    test_hoop_points();
    test_hoop_rounding();
    test_hoop_range();
    test_real_records();
    test_real_last();
    test_real_targets();
    test_real_depths();
    test_real_floor();
    test_real_routines();
    printf("%lu checks, %lu failed\n", checks, failures);
    return failures == 0 ? 0 : 1;
}
