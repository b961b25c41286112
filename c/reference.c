/* The two-stack routine machine in plain C. See reference.h. */
#include "reference.h"

#include <float.h>
#include <stdbool.h>
#include <stdlib.h>
#include <string.h>

/*
 * Order 4: a double is an IEEE 754 binary64, and each operation is rounded
 * once, to it. gcc knows no pragma against fused operations: it takes
 * -ffp-contract=off.
 */
#if defined __FAST_MATH__ || (defined __FINITE_MATH_ONLY__ && __FINITE_MATH_ONLY__)
#error "reals need IEEE arithmetic: compile without -ffast-math"
#endif
#ifdef __clang__
#pragma STDC FP_CONTRACT OFF
#endif
_Static_assert(FLT_EVAL_METHOD == 0, "a double operation is rounded to double");
_Static_assert(sizeof(double) == 8 && FLT_RADIX == 2 && DBL_MANT_DIG == 53 && DBL_MAX_EXP == 1024
               && DBL_MIN_EXP == -1021, "a double is a binary64");

enum {
    FILE_MAX = 4096,
    PROC_MAX = 64,
    HEAP_MAX = 16384,
    RECORD = 5,     /* words of a control record */
    HEAD_SIZE = 7,  /* kind byte and six bytes */
    REG_BYTES = 36, /* seven registers, the file's two sums (order 3) */
    SUM_AT = 28,
    SUM_OF_SUMS_AT = 32,
    NONE = 65535,   /* map: no instruction, no open handler */
    NO_OWNER = 255  /* owner: no instruction starts here */
};

/* The codes, under their names (Manual 4.2). */
enum {
    FJUMP = 1, JUMPF = 2, BJUMP = 3, BJUMPT = 4, JUMPFF = 5, JUMPTT = 6,
    WLOCAL = 20, PLOCAL = 21, WLOCALASS = 22, PLOCALASS = 23,
    WFIELD = 30, PFIELD = 31, WSET = 32, PSET = 33, FORM = 36,
    LLREAL = 53, LLINT = 54, LLWORD = 56, LNIL = 57, ROOT = 58, SETROOT = 59,
    WRETRACT = 60, PRETRACT = 62, RETRACT = 64,
    CALL = 72, RETURN = 73,
    WVECTOR = 80, PVECTOR = 81, WELEMENT = 82, PELEMENT = 83,
    WELEMENTSET = 84, PELEMENTSET = 85,
    EQW = 130, EQP = 131,
    PLUS = 140, TIMES = 141, MINUS = 142, DIV = 143, NEG = 144, REM = 145,
    NOT = 146,
    RPLUS = 150, RTIMES = 151, RMINUS = 152, RDIV = 153, RLESS = 155,
    SCALE = 156,
    ENTER = 160, EXIT = 161, RAISE = 162,
    LT = 195, LE = 198, GT = 201, GE = 204,
    HEAD = 240
};

/* Kinds of objects: a view, a plain vector, a pointer vector (order 2). */
enum { VIEW = 1, PLAIN = 2, POINTERS = 3 };

/* Words of a control record: a frame's, a handler's. */
enum { F_MAIN = 0, F_PTR = 1, F_PROC = 2, F_RETURN = 3, F_CALLER = 4 };
enum { H_AT = 0, H_MAIN = 1, H_PTR = 2, H_FRAME = 3, H_OUTER = 4 };

/* Length of a record by its kind, kind byte included; 0 for unknown kinds. */
static const uint8_t record_len[256] = {
    [FJUMP] = 3, [JUMPF] = 3, [BJUMP] = 3, [BJUMPT] = 3,
    [JUMPFF] = 3, [JUMPTT] = 3,
    [WLOCAL] = 3, [PLOCAL] = 3, [WLOCALASS] = 3, [PLOCALASS] = 3,
    [WFIELD] = 3, [PFIELD] = 3, [WSET] = 3, [PSET] = 3, [FORM] = 5,
    [LLREAL] = 9, [LLINT] = 2, [LLWORD] = 5, [LNIL] = 1, [ROOT] = 1, [SETROOT] = 1,
    [WRETRACT] = 5, [PRETRACT] = 5, [RETRACT] = 5,
    [CALL] = 3, [RETURN] = 1,
    [WVECTOR] = 1, [PVECTOR] = 1, [WELEMENT] = 1, [PELEMENT] = 1,
    [WELEMENTSET] = 1, [PELEMENTSET] = 1,
    [EQW] = 1, [EQP] = 1,
    [PLUS] = 1, [TIMES] = 1, [MINUS] = 1, [DIV] = 1, [NEG] = 1, [REM] = 1,
    [NOT] = 1,
    [RPLUS] = 1, [RTIMES] = 1, [RMINUS] = 1, [RDIV] = 1, [RLESS] = 1,
    [SCALE] = 1,
    [ENTER] = 3, [EXIT] = 1, [RAISE] = 1,
    [LT] = 1, [LE] = 1, [GT] = 1, [GE] = 1,
    [HEAD] = HEAD_SIZE
};

/* What the checker learns of a file besides its map. */
typedef struct {
    uint32_t procs;
    uint32_t head[PROC_MAX];  /* place of each procedure's head */
    uint8_t owner[FILE_MAX];  /* procedure of the instruction starting here */
} layout;

typedef struct {
    uint32_t place, frame, handler, main_top, ptr_top, ctl_top, state;
} registers;

/* ---- guarded access ---- */

/* Never reached: the audits rule it out. */
static _Noreturn void out_of_bounds(void)
{
    abort();
}

static inline uint32_t byte_at(const uint8_t *list, size_t len, size_t i)
{
    if (i >= len)
        out_of_bounds();
    return list[i];
}

static inline uint32_t operand_at(const uint8_t *list, size_t len, size_t i)
{
    return byte_at(list, len, i) << 8 | byte_at(list, len, i + 1);
}

static inline uint32_t get(const uint32_t *list, size_t len, size_t i)
{
    if (i >= len)
        out_of_bounds();
    return list[i];
}

static inline void put(uint32_t *list, size_t len, size_t i, uint32_t word)
{
    if (i >= len)
        out_of_bounds();
    list[i] = word;
}

static inline void push(uint32_t *list, size_t len, uint32_t *top, uint32_t word)
{
    put(list, len, *top, word);
    *top += 1;
}

/* What is popped is zeroed. */
static inline uint32_t pop(uint32_t *list, size_t len, uint32_t *top)
{
    uint32_t word = get(list, len, *top - 1u);
    *top -= 1;
    list[*top] = 0;
    return word;
}

/* Zeroes the words from the new top to the old one. */
static inline void cut(uint32_t *list, size_t len, uint32_t *top, uint32_t to)
{
    if (to > *top || *top > len)
        out_of_bounds();
    while (*top > to) {
        *top -= 1;
        list[*top] = 0;
    }
}

static inline uint32_t head_of(const layout *lay, uint32_t proc)
{
    if (proc >= PROC_MAX || proc >= lay->procs)
        out_of_bounds();
    return lay->head[proc];
}

/* A whole number is a word in two's complement. */
static inline int32_t whole(uint32_t word)
{
    if (word <= INT32_MAX)
        return (int32_t)word;
    return (int32_t)(word - 0x80000000u) + INT32_MIN;
}

static ref_reply answer(uint32_t kind, uint32_t number, uint32_t place, uint32_t steps)
{
    ref_reply reply = { kind, number, place, steps };
    return reply;
}

static ref_reply refused(uint32_t number, size_t place)
{
    return answer(REF_REFUSED, number, (uint32_t)place, 0);
}

/* ---- the code file: refusals 3 and 4 ---- */

/* 3: unknown kind, record cut short, first kind not 240. */
static bool records_fault(const uint8_t *file, size_t len, size_t *place)
{
    size_t at = 0;
    while (at < len) {
        size_t size = record_len[file[at]];
        if (size == 0 || size > len - at || (at == 0 && file[at] != HEAD)) {
            *place = at;
            return true;
        }
        at += size;
    }
    return false;
}

/* 4: a head's rule. Fills in procedures and owners. */
static bool heads_fault(const uint8_t *file, size_t len, layout *lay, size_t *place)
{
    size_t at = 0;
    lay->procs = 0;
    memset(lay->owner, NO_OWNER, sizeof lay->owner);
    while (at < len) {
        size_t next = at + record_len[file[at]];
        if (file[at] == HEAD) {
            const uint8_t *h = file + at;
            uint32_t a = h[1], b = h[2], r = h[3], s = h[4], x = h[5], y = h[6];
            if (lay->procs == PROC_MAX
                || a > x || r > x || b > y || s > y
                || (lay->procs == 0 && (a != 0 || b != 0))
                || next >= len || file[next] == HEAD) {
                *place = at;
                return true;
            }
            lay->head[lay->procs] = (uint32_t)at;
            lay->procs += 1;
        } else {
            lay->owner[at] = (uint8_t)(lay->procs - 1);
        }
        at = next;
    }
    return false;
}

/* ---- what the checker demands: refusals 5 to 9 ---- */

/* Words popped and pushed; the sums stay far below 2^32. */
typedef struct {
    uint32_t main_pop, ptr_pop, main_push, ptr_push;
} effect;

static effect effect_of(const uint8_t *file, const layout *lay, size_t at)
{
    effect e = { 0, 0, 0, 0 };
    uint32_t s = 0, t = 0;
    if (record_len[file[at]] >= 3)
        s = (uint32_t)file[at + 1] << 8 | file[at + 2];
    if (record_len[file[at]] >= 5)
        t = (uint32_t)file[at + 3] << 8 | file[at + 4];
    switch (file[at]) {
    case JUMPF: case BJUMPT: case JUMPFF: case JUMPTT:
    case WLOCALASS: case RAISE:
        e.main_pop = 1;
        break;
    case WLOCAL: case LLINT: case LLWORD:
        e.main_push = 1;
        break;
    case PLOCAL: case LNIL: case ROOT:
        e.ptr_push = 1;
        break;
    case PLOCALASS: case SETROOT:
        e.ptr_pop = 1;
        break;
    case WFIELD:
        e.ptr_pop = 1;
        e.main_push = 1;
        break;
    case PFIELD:
        e.ptr_pop = 1;
        e.ptr_push = 1;
        break;
    case WSET:
        e.main_pop = 1;
        e.ptr_pop = 1;
        break;
    case PSET:
        e.ptr_pop = 2;
        break;
    case FORM:
        e.main_pop = s;
        e.ptr_pop = t;
        e.ptr_push = 1;
        break;
    case WRETRACT: /* the word set aside counts as popped */
        e.main_pop = s + 1;
        e.ptr_pop = t;
        e.main_push = 1;
        break;
    case PRETRACT:
        e.main_pop = s;
        e.ptr_pop = t + 1;
        e.ptr_push = 1;
        break;
    case RETRACT:
        e.main_pop = s;
        e.ptr_pop = t;
        break;
    case CALL: {
        const uint8_t *h = file + lay->head[s];
        e.main_pop = h[1];
        e.ptr_pop = h[2];
        e.main_push = h[3];
        e.ptr_push = h[4];
        break;
    }
    case WVECTOR: /* value, length, bound */
        e.main_pop = 3;
        e.ptr_push = 1;
        break;
    case PVECTOR: /* a pointer; length, bound */
        e.main_pop = 2;
        e.ptr_pop = 1;
        e.ptr_push = 1;
        break;
    case WELEMENT: /* vector; index */
        e.main_pop = 1;
        e.ptr_pop = 1;
        e.main_push = 1;
        break;
    case PELEMENT:
        e.main_pop = 1;
        e.ptr_pop = 1;
        e.ptr_push = 1;
        break;
    case WELEMENTSET: /* vector; index, value */
        e.main_pop = 2;
        e.ptr_pop = 1;
        break;
    case PELEMENTSET: /* vector, value; index */
        e.main_pop = 1;
        e.ptr_pop = 2;
        break;
    case EQW: case LT: case LE: case GT: case GE:
    case PLUS: case TIMES: case MINUS: case DIV: case REM:
        e.main_pop = 2;
        e.main_push = 1;
        break;
    case EQP:
        e.ptr_pop = 2;
        e.main_push = 1;
        break;
    case NEG: case NOT:
        e.main_pop = 1;
        e.main_push = 1;
        break;
    case LLREAL: /* a real is two words, a point two reals (order 4) */
        e.main_push = 2;
        break;
    case RPLUS: case RTIMES: case RMINUS: case RDIV:
        e.main_pop = 4;
        e.main_push = 2;
        break;
    case RLESS:
        e.main_pop = 4;
        e.main_push = 1;
        break;
    case SCALE: /* scale, shift, point */
        e.main_pop = 10;
        e.main_push = 4;
        break;
    default: /* FJUMP, BJUMP, RETURN, ENTER, EXIT */
        break;
    }
    return e;
}

/* A place's state is the same from all sides. */
static bool pass_state(uint16_t *map, size_t to, uint32_t m, uint32_t p, uint32_t handler)
{
    uint16_t *have = map + 3 * to;
    if (have[0] == NONE) {
        have[0] = (uint16_t)m;
        have[1] = (uint16_t)p;
        have[2] = (uint16_t)handler;
        return true;
    }
    return have[0] == m && have[1] == p && have[2] == handler;
}

/* 5 to 9 ascending at one instruction; 0 if none applies. */
static uint32_t instruction_fault(const uint8_t *file, size_t len, uint16_t *map,
                                  const layout *lay, size_t at)
{
    uint32_t kind = file[at];
    uint32_t proc = lay->owner[at];
    const uint8_t *head = file + lay->head[proc];
    uint32_t r = head[3], results_s = head[4], x = head[5], y = head[6];
    size_t next = at + record_len[kind];
    uint32_t s = 0;
    if (record_len[kind] >= 3)
        s = (uint32_t)file[at + 1] << 8 | file[at + 2];

    /* 5: target or procedure */
    int64_t target = -1;
    bool jumps = true;
    switch (kind) {
    case FJUMP: case JUMPF: case JUMPFF: case JUMPTT:
        target = (int64_t)next + s;
        break;
    case BJUMP: case BJUMPT:
        target = (int64_t)next - s;
        break;
    case ENTER:
        target = (int64_t)lay->head[proc] + s;
        break;
    default:
        jumps = false;
        break;
    }
    if (jumps && (target < 0 || target >= (int64_t)len || lay->owner[target] != proc))
        return 5;
    if (kind == ENTER && target <= (int64_t)at)
        return 5;
    if (kind == CALL && s >= lay->procs)
        return 5;

    /* 6: unreached, or a state passed on past the procedure */
    bool passes_on = kind != FJUMP && kind != BJUMP && kind != RETURN && kind != RAISE;
    uint32_t m = map[3 * at], p = map[3 * at + 1], handler = map[3 * at + 2];
    if (m == NONE)
        return 6;
    if (passes_on && (next >= len || lay->owner[next] != proc))
        return 6;

    /* 7: floor, depth, frame word */
    effect e = effect_of(file, lay, at);
    uint32_t floor_m = 0, floor_p = 0;
    if (handler != NONE) {
        floor_m = map[3 * handler];
        floor_p = map[3 * handler + 1];
    }
    if (m < floor_m + e.main_pop || p < floor_p + e.ptr_pop)
        return 7;
    uint32_t m_after = m - e.main_pop + e.main_push;
    uint32_t p_after = p - e.ptr_pop + e.ptr_push;
    if (m_after > x || p_after > y)
        return 7;
    if (kind == ENTER && m + 1 > x)
        return 7;
    if ((kind == WLOCAL && s >= m) || (kind == WLOCALASS && s >= m_after)
        || (kind == PLOCAL && s >= p) || (kind == PLOCALASS && s >= p_after))
        return 7;

    /* 8: a return's rule, 161 with none open */
    if (kind == RETURN && (m != r || p != results_s || handler != NONE))
        return 8;
    if (kind == EXIT && handler == NONE)
        return 8;

    /* 9: the states passed on */
    uint32_t handler_after = handler;
    if (kind == ENTER)
        handler_after = (uint32_t)at;
    if (kind == EXIT)
        handler_after = map[3 * handler + 2];
    if (passes_on && !pass_state(map, next, m_after, p_after, handler_after))
        return 9;
    if (jumps) {
        uint32_t m_target = m_after;
        if (kind == JUMPFF || kind == JUMPTT)
            m_target = m; /* the top is kept */
        if (kind == ENTER)
            m_target = m + 1; /* the code */
        if (!pass_state(map, (size_t)target, m_target, p_after, handler))
            return 9;
    }
    return 0;
}

static void clear_map(uint16_t *map, size_t len)
{
    for (size_t i = 0; i < 3 * len; i++)
        map[i] = NONE;
}

/* 1 to 9 in their order. */
static ref_reply check_file(const uint8_t *file, size_t len,
                            uint16_t *map, size_t map_len, layout *lay)
{
    size_t place = 0;
    if (len == 0 || len > FILE_MAX)
        return refused(1, 0);
    if (map_len < 3 * len)
        return refused(2, 0);
    clear_map(map, len);
    if (records_fault(file, len, &place))
        return refused(3, place);
    if (heads_fault(file, len, lay, &place))
        return refused(4, place);
    size_t at = 0;
    while (at < len) {
        size_t next = at + record_len[file[at]];
        if (file[at] == HEAD) {
            /* the first instruction has depths (a, b), no handler open */
            map[3 * next] = file[at + 1];
            map[3 * next + 1] = file[at + 2];
        } else {
            uint32_t number = instruction_fault(file, len, map, lay, at);
            if (number != 0) {
                clear_map(map, len);
                return refused(number, at);
            }
        }
        at = next;
    }
    return answer(REF_PASSED, 0, 0, 0);
}

ref_reply ref_check(const uint8_t *file, size_t file_len, uint16_t *map, size_t map_len)
{
    layout lay;
    return check_file(file, file_len, map, map_len, &lay);
}

/* ---- audits: refusals 10 to 12 ---- */

/* 10: lent lengths; procedure 0's head lies at place 0. */
static bool lengths_fault(const uint8_t *file, size_t main_len, size_t ptr_len,
                          size_t ctl_len, size_t heap_len)
{
    return main_len < 1 || main_len > 4096 || ptr_len < 1 || ptr_len > 4096
        || ctl_len < 5 || ctl_len > 1280 || heap_len < 2 || heap_len > HEAP_MAX
        || main_len < file[5] || ptr_len < file[6];
}

/* nil or the index of an object's word 0 */
static bool is_pointer(uint32_t word, const uint8_t *objects, size_t heap_len)
{
    return word == 0 || (word < heap_len && objects[word] != 0);
}

/*
 * Order 1, the walk: a header of unknown kind or without a size word below
 * the mark. Order 2: or of a plain vector with pointer words.
 */
static bool bad_header(const uint32_t *heap, size_t mark, size_t at)
{
    uint32_t kind = heap[at] >> 24, pointers = heap[at] & 0xffffffu;
    return kind < VIEW || kind > POINTERS || (kind == PLAIN && pointers > 0)
        || at + 1 >= mark;
}

/* Order 2: a vector has its lower bound, one of pointers no more plain words. */
static bool wrong_for_kind(uint32_t kind, uint32_t pointers, uint32_t size)
{
    return (kind == PLAIN && size < 3) || (kind == POINTERS && size != 3 + pointers);
}

/*
 * Order 1, the walk: a size word below 2 plus the pointer words, running
 * past the mark or wrong for its kind.
 */
static bool bad_size(const uint32_t *heap, size_t mark, size_t at)
{
    uint32_t pointers = heap[at] & 0xffffffu, size = heap[at + 1];
    return size < 2 + pointers || size > mark - at
        || wrong_for_kind(heap[at] >> 24, pointers, size);
}

/*
 * Order 1, second (Manual 6.8.2): the objects walked upwards, header before
 * size word, up to the first fault. Marks the first words of those passed.
 */
static bool walk_fault(const uint32_t *heap, size_t mark, uint8_t *objects, size_t *place)
{
    for (size_t at = 2; at < mark; at += heap[at + 1]) {
        if (bad_header(heap, mark, at)) {
            *place = at;
            return true;
        }
        if (bad_size(heap, mark, at)) {
            *place = at + 1;
            return true;
        }
        objects[at] = 1;
    }
    return false;
}

/* Order 1, third: the lowest bad pointer, the root included; heap_len if none is bad. */
static size_t lowest_bad_pointer(const uint32_t *heap, size_t heap_len, size_t mark,
                                 const uint8_t *objects)
{
    if (!is_pointer(heap[1], objects, heap_len))
        return 1;
    for (size_t at = 2; at < mark; at += heap[at + 1]) {
        size_t plain = at + 2 + (heap[at] & 0xffffffu);
        for (size_t i = at + 2; i < plain; i++)
            if (!is_pointer(heap[i], objects, heap_len))
                return i;
    }
    return heap_len;
}

/* Order 1, third: the lowest nonzero free word; heap_len if there is none. */
static size_t lowest_nonzero_free(const uint32_t *heap, size_t heap_len, size_t mark)
{
    size_t i = mark;
    while (i < heap_len && heap[i] == 0)
        i++;
    return i;
}

/*
 * 11: the heap (Manual 6.7), and the one word that is named (Manual 6.8).
 * Marks the first words of objects in a table of heap_len bytes.
 */
static bool heap_fault(const uint32_t *heap, size_t heap_len, uint8_t *objects, size_t *place)
{
    size_t mark = heap[0];
    memset(objects, 0, heap_len);
    if (mark < 2 || mark > heap_len) {
        *place = 0; /* order 1, first (Manual 6.8.1): the mark is out of range */
        return true;
    }
    if (walk_fault(heap, mark, objects, place))
        return true;
    /* order 1, third (Manual 6.8.3), after a clean walk: one minimum over both */
    size_t free_word = lowest_nonzero_free(heap, heap_len, mark);
    size_t pointer = lowest_bad_pointer(heap, heap_len, mark, objects);
    *place = pointer < free_word ? pointer : free_word;
    return *place < heap_len;
}

/* Words above a top are 0. */
static bool clear_above(const uint32_t *list, size_t len, uint32_t top)
{
    if (top > len)
        return false;
    for (size_t i = top; i < len; i++)
        if (list[i] != 0)
            return false;
    return true;
}

/*
 * The records, from the registers downwards: each frame in turn, with its
 * open handlers directly above it. 12 if anything is not as under Sound.
 */
static bool records_sound(const uint8_t *file, size_t file_len, const uint16_t *map,
                          const layout *lay, size_t main_len, size_t ptr_len,
                          const uint32_t *ctl, const registers *reg)
{
    if (reg->ctl_top % RECORD != 0 || reg->ctl_top < RECORD)
        return false;
    uint32_t highest = reg->ctl_top / RECORD; /* topmost record not yet read */
    uint32_t frame = reg->frame;
    uint32_t handler = reg->handler; /* record the next handler must have */
    uint64_t place = reg->place;
    uint64_t main_top = reg->main_top, ptr_top = reg->ptr_top;
    uint32_t less_a = 0, less_b = 0; /* parameters of the frame above */
    bool calling = false;
    uint32_t callee = 0;

    for (;;) {
        if (frame < 1 || frame > highest)
            return false;
        const uint32_t *f = ctl + (size_t)(frame - 1) * RECORD;

        /* its place is an instruction of its procedure */
        uint32_t proc = f[F_PROC];
        if (proc >= lay->procs)
            return false;
        if (place >= file_len || lay->owner[place] != proc)
            return false;
        /* a caller's: a call of the next frame's procedure */
        if (calling && (file[place] != CALL
                        || operand_at(file, file_len, (size_t)place + 1) != callee))
            return false;

        /* its depths are the map's there, less the parameters */
        const uint8_t *head = file + lay->head[proc];
        uint64_t main_base = f[F_MAIN], ptr_base = f[F_PTR];
        if (main_base + map[3 * place] - less_a != main_top
            || ptr_base + map[3 * place + 1] - less_b != ptr_top)
            return false;

        /* it fits the lists with x and y */
        if (main_base + head[5] > main_len || ptr_base + head[6] > ptr_len)
            return false;

        /* its open handlers, innermost first, down to the frame's record */
        uint32_t open = map[3 * place + 2];
        while (open != NONE) {
            if (highest <= frame || handler != highest)
                return false;
            const uint32_t *h = ctl + (size_t)(highest - 1) * RECORD;
            if (h[H_AT] != open
                || h[H_MAIN] != main_base + map[3 * open]
                || h[H_PTR] != ptr_base + map[3 * open + 1]
                || h[H_FRAME] != frame)
                return false;
            handler = h[H_OUTER];
            highest -= 1;
            open = map[3 * open + 2];
        }
        if (highest != frame)
            return false;

        /* record 1 is the first frame, procedure 0's, with bases 0 */
        if (frame == 1)
            return proc == 0 && main_base == 0 && ptr_base == 0
                && f[F_RETURN] == 0 && f[F_CALLER] == 0 && handler == 0;

        /* the caller: its tops are this frame's bases */
        if (f[F_RETURN] < 3)
            return false;
        place = f[F_RETURN] - 3u;
        main_top = main_base;
        ptr_top = ptr_base;
        less_a = head[1];
        less_b = head[2];
        calling = true;
        callee = proc;
        highest = frame - 1;
        frame = f[F_CALLER];
    }
}

/* 12: registers, stacks and records; run alone tests it */
static bool state_sound(const uint8_t *file, size_t file_len, const uint16_t *map,
                        const layout *lay,
                        const uint32_t *main_stack, size_t main_len,
                        const uint32_t *ptr_stack, size_t ptr_len,
                        const uint32_t *ctl, size_t ctl_len,
                        const uint8_t *objects, size_t heap_len,
                        const registers *reg)
{
    if (reg->state > 1)
        return false;
    if (!clear_above(main_stack, main_len, reg->main_top)
        || !clear_above(ptr_stack, ptr_len, reg->ptr_top)
        || !clear_above(ctl, ctl_len, reg->ctl_top))
        return false;
    for (size_t i = 0; i < reg->ptr_top; i++)
        if (!is_pointer(ptr_stack[i], objects, heap_len))
            return false;
    if (reg->state == 1) /* procedure 0's results alone remain */
        return reg->place == 0 && reg->frame == 0 && reg->handler == 0
            && reg->ctl_top == 0
            && reg->main_top == file[3] && reg->ptr_top == file[4];
    return records_sound(file, file_len, map, lay, main_len, ptr_len, ctl, reg);
}

/* ---- registers as bytes, most significant first ---- */

static uint32_t word_of_bytes(const uint8_t *b)
{
    return (uint32_t)b[0] << 24 | (uint32_t)b[1] << 16 | (uint32_t)b[2] << 8 | b[3];
}

static void bytes_of_word(uint8_t *b, uint32_t word)
{
    b[0] = (uint8_t)(word >> 24);
    b[1] = (uint8_t)(word >> 16);
    b[2] = (uint8_t)(word >> 8);
    b[3] = (uint8_t)word;
}

/* The seven registers; the sums behind them are no part of the machine's steps. */
static registers read_registers(const uint8_t *b)
{
    registers reg;
    reg.place = word_of_bytes(b);
    reg.frame = word_of_bytes(b + 4);
    reg.handler = word_of_bytes(b + 8);
    reg.main_top = word_of_bytes(b + 12);
    reg.ptr_top = word_of_bytes(b + 16);
    reg.ctl_top = word_of_bytes(b + 20);
    reg.state = word_of_bytes(b + 24);
    return reg;
}

static void write_registers(uint8_t *b, const registers *reg)
{
    bytes_of_word(b, reg->place);
    bytes_of_word(b + 4, reg->frame);
    bytes_of_word(b + 8, reg->handler);
    bytes_of_word(b + 12, reg->main_top);
    bytes_of_word(b + 16, reg->ptr_top);
    bytes_of_word(b + 20, reg->ctl_top);
    bytes_of_word(b + 24, reg->state);
}

/* ---- the state belongs to its file (order 3): refusal 13 ---- */

static void write_sums(uint8_t *regs, const uint8_t *file, size_t file_len)
{
    ref_sums sums = ref_sums_of(file, file_len);
    bytes_of_word(regs + SUM_AT, sums.sum);
    bytes_of_word(regs + SUM_OF_SUMS_AT, sums.sum_of_sums);
}

/* 13 in run: either sum differs. */
static bool sums_differ(const uint8_t *regs, const uint8_t *file, size_t file_len)
{
    ref_sums sums = ref_sums_of(file, file_len);
    return word_of_bytes(regs + SUM_AT) != sums.sum
        || word_of_bytes(regs + SUM_OF_SUMS_AT) != sums.sum_of_sums;
}

/* ---- start ---- */

ref_reply ref_start(const uint8_t *file, size_t file_len,
                    uint16_t *map, size_t map_len,
                    uint32_t *main_stack, size_t main_len,
                    uint32_t *ptr_stack, size_t ptr_len,
                    uint32_t *ctl_stack, size_t ctl_len,
                    uint32_t *heap, size_t heap_len,
                    uint8_t *regs, size_t regs_len)
{
    layout lay;
    uint8_t objects[HEAP_MAX];
    size_t place = 0;
    ref_reply checked = check_file(file, file_len, map, map_len, &lay);
    if (checked.kind != REF_PASSED)
        return checked;
    /* 13 after 9 and before 10; of what the registers hold nothing counts */
    if (regs_len != REG_BYTES)
        return refused(13, 0);
    if (lengths_fault(file, main_len, ptr_len, ctl_len, heap_len))
        return refused(10, 0);
    if (heap_fault(heap, heap_len, objects, &place))
        return refused(11, place);

    memset(main_stack, 0, main_len * sizeof *main_stack);
    memset(ptr_stack, 0, ptr_len * sizeof *ptr_stack);
    /* the first frame: bases 0, procedure 0, return place 0, caller 0 */
    memset(ctl_stack, 0, ctl_len * sizeof *ctl_stack);
    registers reg = { HEAD_SIZE, 1, 0, 0, 0, RECORD, 0 };
    write_registers(regs, &reg);
    write_sums(regs, file, file_len);
    return answer(REF_READY, 0, 0, 0);
}

/* ---- vectors (order 2) ---- */

/* The plain part begins with the lower bound. */
static inline bool is_bound(uint32_t header, uint32_t s)
{
    return header >> 24 != VIEW && s == 2 + (header & 0xffffffu);
}

/*
 * 80, 81: 6 for a negative length, then 4; 0 and a new vector at the old mark
 * otherwise. Its size is 3 + length in both kinds.
 */
static uint32_t make_vector(uint32_t *heap, size_t heap_len, uint32_t kind,
                            uint32_t value, uint32_t length, uint32_t bound)
{
    size_t at = heap[0];
    if (whole(length) < 0)
        return REF_VECTOR_FAULT;
    if (heap_len - at < 3 + (size_t)length)
        return REF_HEAP_FULL;
    uint32_t pointers = kind == POINTERS ? length : 0;
    size_t first = at + (kind == PLAIN ? 3 : 2);
    heap[0] = (uint32_t)at + 3 + length;
    heap[at] = kind << 24 | pointers;
    heap[at + 1] = 3 + length;
    heap[at + 2 + pointers] = bound;
    for (size_t i = first; i < first + length; i++)
        heap[i] = value;
    return 0;
}

/*
 * 82 to 85: 2 for nil, then 6 for an object of another kind or an index
 * outside the vector; 0 and the element's heap index otherwise. The index less
 * the bound is a whole number: it does not wrap.
 */
static inline uint32_t find_element(const uint32_t *heap, size_t heap_len, uint32_t kind,
                                    uint32_t vector, uint32_t index, size_t *at)
{
    if (vector == 0)
        return REF_NIL_OBJECT;
    uint32_t header = get(heap, heap_len, vector);
    if (header >> 24 != kind)
        return REF_VECTOR_FAULT;
    uint32_t pointers = header & 0xffffffu;
    uint32_t bound = get(heap, heap_len, (size_t)vector + 2 + pointers);
    uint32_t length = get(heap, heap_len, (size_t)vector + 1) - 3;
    int64_t past = (int64_t)whole(index) - whole(bound);
    if (past < 0 || past >= length)
        return REF_VECTOR_FAULT;
    *at = vector + (kind == PLAIN ? 3u : 2u) + (size_t)past;
    return 0;
}

/* ---- reals (order 4) ---- */

/* A real is two words, the high word lower. */
static inline double real_at(const uint32_t *list, size_t len, size_t at)
{
    uint64_t bits = (uint64_t)get(list, len, at) << 32 | get(list, len, at + 1);
    double real;
    memcpy(&real, &bits, sizeof real);
    return real;
}

static inline uint64_t bits_of(double real)
{
    uint64_t bits;
    memcpy(&bits, &real, sizeof bits);
    return bits;
}

static inline void put_bits(uint32_t *list, size_t len, size_t at, uint64_t bits)
{
    put(list, len, at, (uint32_t)(bits >> 32));
    put(list, len, at + 1, (uint32_t)bits);
}

/* Infinities and NaNs have all eleven bits of the exponent set. */
static inline bool not_finite(uint64_t bits)
{
    return (bits >> 52 & 0x7ffu) == 0x7ffu;
}

/* 150 to 153: A op B. */
static inline uint64_t real_result(uint32_t code, double a, double b)
{
    switch (code) {
    case RPLUS:
        return bits_of(a + b);
    case RTIMES:
        return bits_of(a * b);
    case RMINUS:
        return bits_of(a - b);
    default:
        return bits_of(a / b);
    }
}

/* 156, one coordinate: product and sum are rounded once each, never fused. */
static inline uint64_t scaled_and_shifted(double coordinate, double scale, double shift)
{
    double product = coordinate * scale;
    return bits_of(product + shift);
}

/* ---- run ---- */

ref_reply ref_run(const uint8_t *file, size_t file_len,
                  uint16_t *map, size_t map_len,
                  uint32_t *main_stack, size_t main_len,
                  uint32_t *ptr_stack, size_t ptr_len,
                  uint32_t *ctl_stack, size_t ctl_len,
                  uint32_t *heap, size_t heap_len,
                  uint8_t *regs, size_t regs_len,
                  uint32_t budget)
{
    layout lay;
    uint8_t objects[HEAP_MAX];
    size_t fault = 0;
    ref_reply checked = check_file(file, file_len, map, map_len, &lay);
    if (checked.kind != REF_PASSED)
        return checked;
    /* 13 after 9 and before 10, whatever state and budget */
    if (regs_len != REG_BYTES || sums_differ(regs, file, file_len))
        return refused(13, 0);
    if (lengths_fault(file, main_len, ptr_len, ctl_len, heap_len))
        return refused(10, 0);
    if (heap_fault(heap, heap_len, objects, &fault))
        return refused(11, fault);
    registers reg = read_registers(regs);
    if (!state_sound(file, file_len, map, &lay, main_stack, main_len, ptr_stack, ptr_len,
                     ctl_stack, ctl_len, objects, heap_len, &reg))
        return refused(12, 0);
    /* finished is looked at before spent */
    if (reg.state == 1)
        return answer(REF_FINISHED, 0, 0, 0);

    uint32_t place = reg.place, frame = reg.frame, handler = reg.handler;
    uint32_t mt = reg.main_top, pt = reg.ptr_top, ct = reg.ctl_top;
    uint32_t main_base = get(ctl_stack, ctl_len, (size_t)(frame - 1) * RECORD + F_MAIN);
    uint32_t ptr_base = get(ctl_stack, ctl_len, (size_t)(frame - 1) * RECORD + F_PTR);
    uint32_t steps = 0;
    uint32_t exception = 0;
    ref_reply ending;

    for (;;) {
        /* spent is looked at before the next instruction */
        if (steps == budget) {
            ending = answer(REF_SPENT, 0, 0, steps);
            break;
        }
        switch (byte_at(file, file_len, place)) {

        case FJUMP:
            place += 3 + operand_at(file, file_len, place + 1);
            break;
        case BJUMP:
            place = place + 3 - operand_at(file, file_len, place + 1);
            break;
        case JUMPF: {
            uint32_t s = operand_at(file, file_len, place + 1);
            place += 3;
            if (pop(main_stack, main_len, &mt) == 0)
                place += s;
            break;
        }
        case BJUMPT: {
            uint32_t s = operand_at(file, file_len, place + 1);
            place += 3;
            if (pop(main_stack, main_len, &mt) != 0)
                place -= s;
            break;
        }
        case JUMPFF: {
            uint32_t s = operand_at(file, file_len, place + 1);
            place += 3;
            if (get(main_stack, main_len, mt - 1u) == 0)
                place += s;
            else
                pop(main_stack, main_len, &mt);
            break;
        }
        case JUMPTT: {
            uint32_t s = operand_at(file, file_len, place + 1);
            place += 3;
            if (get(main_stack, main_len, mt - 1u) != 0)
                place += s;
            else
                pop(main_stack, main_len, &mt);
            break;
        }

        case WLOCAL: {
            uint32_t s = operand_at(file, file_len, place + 1);
            push(main_stack, main_len, &mt, get(main_stack, main_len, (size_t)main_base + s));
            place += 3;
            break;
        }
        case PLOCAL: {
            uint32_t s = operand_at(file, file_len, place + 1);
            push(ptr_stack, ptr_len, &pt, get(ptr_stack, ptr_len, (size_t)ptr_base + s));
            place += 3;
            break;
        }
        case WLOCALASS: {
            uint32_t s = operand_at(file, file_len, place + 1);
            uint32_t value = pop(main_stack, main_len, &mt);
            put(main_stack, main_len, (size_t)main_base + s, value);
            place += 3;
            break;
        }
        case PLOCALASS: {
            uint32_t s = operand_at(file, file_len, place + 1);
            uint32_t value = pop(ptr_stack, ptr_len, &pt);
            put(ptr_stack, ptr_len, (size_t)ptr_base + s, value);
            place += 3;
            break;
        }

        /* s counts from the header; 2 for nil comes before 3; wSet on a bound raises 3 */
        case WFIELD: case WSET: {
            uint32_t s = operand_at(file, file_len, place + 1);
            uint32_t object = get(ptr_stack, ptr_len, pt - 1u);
            if (object == 0) {
                exception = REF_NIL_OBJECT;
                goto raise;
            }
            uint32_t header = get(heap, heap_len, object);
            if (s < 2 + (header & 0xffffffu) || s >= get(heap, heap_len, (size_t)object + 1)
                || (file[place] == WSET && is_bound(header, s))) {
                exception = REF_NO_SUCH_WORD;
                goto raise;
            }
            pop(ptr_stack, ptr_len, &pt);
            if (file[place] == WFIELD)
                push(main_stack, main_len, &mt, get(heap, heap_len, (size_t)object + s));
            else
                put(heap, heap_len, (size_t)object + s, pop(main_stack, main_len, &mt));
            place += 3;
            break;
        }
        case PFIELD: case PSET: {
            uint32_t s = operand_at(file, file_len, place + 1);
            uint32_t object = get(ptr_stack, ptr_len, pt - 1u);
            if (object == 0) {
                exception = REF_NIL_OBJECT;
                goto raise;
            }
            uint32_t pointers = get(heap, heap_len, object) & 0xffffffu;
            if (s < 2 || s >= 2 + pointers) {
                exception = REF_NO_SUCH_WORD;
                goto raise;
            }
            pop(ptr_stack, ptr_len, &pt);
            if (file[place] == PFIELD)
                push(ptr_stack, ptr_len, &pt, get(heap, heap_len, (size_t)object + s));
            else
                put(heap, heap_len, (size_t)object + s, pop(ptr_stack, ptr_len, &pt));
            place += 3;
            break;
        }

        case FORM: {
            uint32_t words = operand_at(file, file_len, place + 1);
            uint32_t pointers = operand_at(file, file_len, place + 3);
            uint32_t size = 2 + words + pointers;
            uint32_t object = heap[0];
            if (heap_len - object < size) {
                exception = REF_HEAP_FULL;
                goto raise;
            }
            put(heap, heap_len, object, 0x01000000u + pointers);
            put(heap, heap_len, (size_t)object + 1, size);
            for (uint32_t i = 0; i < pointers; i++)
                put(heap, heap_len, (size_t)object + 2 + i,
                    get(ptr_stack, ptr_len, pt - pointers + i));
            for (uint32_t i = 0; i < words; i++)
                put(heap, heap_len, (size_t)object + 2 + pointers + i,
                    get(main_stack, main_len, mt - words + i));
            heap[0] = object + size;
            cut(main_stack, main_len, &mt, mt - words);
            cut(ptr_stack, ptr_len, &pt, pt - pointers);
            push(ptr_stack, ptr_len, &pt, object);
            place += 5;
            break;
        }

        /* pops initial value, length, lower bound */
        case WVECTOR: {
            uint32_t value = get(main_stack, main_len, mt - 1u);
            uint32_t length = get(main_stack, main_len, mt - 2u);
            uint32_t bound = get(main_stack, main_len, mt - 3u);
            uint32_t object = heap[0];
            exception = make_vector(heap, heap_len, PLAIN, value, length, bound);
            if (exception != 0)
                goto raise;
            cut(main_stack, main_len, &mt, mt - 3u);
            push(ptr_stack, ptr_len, &pt, object);
            place += 1;
            break;
        }
        case PVECTOR: {
            uint32_t value = get(ptr_stack, ptr_len, pt - 1u);
            uint32_t length = get(main_stack, main_len, mt - 1u);
            uint32_t bound = get(main_stack, main_len, mt - 2u);
            uint32_t object = heap[0];
            exception = make_vector(heap, heap_len, POINTERS, value, length, bound);
            if (exception != 0)
                goto raise;
            cut(main_stack, main_len, &mt, mt - 2u);
            put(ptr_stack, ptr_len, pt - 1u, object);
            place += 1;
            break;
        }
        /* pops vector, index */
        case WELEMENT: {
            size_t at = 0;
            exception = find_element(heap, heap_len, PLAIN, get(ptr_stack, ptr_len, pt - 1u),
                                     get(main_stack, main_len, mt - 1u), &at);
            if (exception != 0)
                goto raise;
            pop(ptr_stack, ptr_len, &pt);
            put(main_stack, main_len, mt - 1u, get(heap, heap_len, at));
            place += 1;
            break;
        }
        case PELEMENT: {
            size_t at = 0;
            exception = find_element(heap, heap_len, POINTERS, get(ptr_stack, ptr_len, pt - 1u),
                                     get(main_stack, main_len, mt - 1u), &at);
            if (exception != 0)
                goto raise;
            pop(main_stack, main_len, &mt);
            put(ptr_stack, ptr_len, pt - 1u, get(heap, heap_len, at));
            place += 1;
            break;
        }
        /* pops vector, index, value */
        case WELEMENTSET: {
            size_t at = 0;
            exception = find_element(heap, heap_len, PLAIN, get(ptr_stack, ptr_len, pt - 1u),
                                     get(main_stack, main_len, mt - 1u), &at);
            if (exception != 0)
                goto raise;
            pop(ptr_stack, ptr_len, &pt);
            pop(main_stack, main_len, &mt);
            put(heap, heap_len, at, pop(main_stack, main_len, &mt));
            place += 1;
            break;
        }
        case PELEMENTSET: {
            size_t at = 0;
            exception = find_element(heap, heap_len, POINTERS, get(ptr_stack, ptr_len, pt - 1u),
                                     get(main_stack, main_len, mt - 1u), &at);
            if (exception != 0)
                goto raise;
            pop(ptr_stack, ptr_len, &pt);
            pop(main_stack, main_len, &mt);
            put(heap, heap_len, at, pop(ptr_stack, ptr_len, &pt));
            place += 1;
            break;
        }

        case LLREAL: /* any eight bytes */
            push(main_stack, main_len, &mt,
                 operand_at(file, file_len, place + 1) << 16
                 | operand_at(file, file_len, place + 3));
            push(main_stack, main_len, &mt,
                 operand_at(file, file_len, place + 5) << 16
                 | operand_at(file, file_len, place + 7));
            place += 9;
            break;
        case LLINT: {
            uint32_t b = byte_at(file, file_len, place + 1);
            push(main_stack, main_len, &mt, b < 128 ? b : b | 0xffffff00u);
            place += 2;
            break;
        }
        case LLWORD:
            push(main_stack, main_len, &mt,
                 operand_at(file, file_len, place + 1) << 16
                 | operand_at(file, file_len, place + 3));
            place += 5;
            break;
        case LNIL:
            push(ptr_stack, ptr_len, &pt, 0);
            place += 1;
            break;
        case ROOT:
            push(ptr_stack, ptr_len, &pt, heap[1]);
            place += 1;
            break;
        case SETROOT:
            heap[1] = pop(ptr_stack, ptr_len, &pt);
            place += 1;
            break;

        case WRETRACT: {
            uint32_t words = operand_at(file, file_len, place + 1);
            uint32_t pointers = operand_at(file, file_len, place + 3);
            uint32_t aside = pop(main_stack, main_len, &mt);
            cut(main_stack, main_len, &mt, mt - words);
            cut(ptr_stack, ptr_len, &pt, pt - pointers);
            push(main_stack, main_len, &mt, aside);
            place += 5;
            break;
        }
        case PRETRACT: {
            uint32_t words = operand_at(file, file_len, place + 1);
            uint32_t pointers = operand_at(file, file_len, place + 3);
            uint32_t aside = pop(ptr_stack, ptr_len, &pt);
            cut(main_stack, main_len, &mt, mt - words);
            cut(ptr_stack, ptr_len, &pt, pt - pointers);
            push(ptr_stack, ptr_len, &pt, aside);
            place += 5;
            break;
        }
        case RETRACT: {
            uint32_t words = operand_at(file, file_len, place + 1);
            uint32_t pointers = operand_at(file, file_len, place + 3);
            cut(main_stack, main_len, &mt, mt - words);
            cut(ptr_stack, ptr_len, &pt, pt - pointers);
            place += 5;
            break;
        }

        case CALL: {
            uint32_t proc = operand_at(file, file_len, place + 1);
            uint32_t head = head_of(&lay, proc);
            uint32_t callee_main = mt - byte_at(file, file_len, head + 1);
            uint32_t callee_ptr = pt - byte_at(file, file_len, head + 2);
            if (callee_main + byte_at(file, file_len, head + 5) > main_len
                || callee_ptr + byte_at(file, file_len, head + 6) > ptr_len
                || ct + RECORD > ctl_len) {
                exception = REF_NO_ROOM;
                goto raise;
            }
            push(ctl_stack, ctl_len, &ct, callee_main);
            push(ctl_stack, ctl_len, &ct, callee_ptr);
            push(ctl_stack, ctl_len, &ct, proc);
            push(ctl_stack, ctl_len, &ct, place + 3);
            push(ctl_stack, ctl_len, &ct, frame);
            frame = ct / RECORD;
            main_base = callee_main;
            ptr_base = callee_ptr;
            place = head + HEAD_SIZE;
            break;
        }
        case RETURN: {
            size_t record = (size_t)(frame - 1) * RECORD;
            place = get(ctl_stack, ctl_len, record + F_RETURN);
            frame = get(ctl_stack, ctl_len, record + F_CALLER);
            cut(ctl_stack, ctl_len, &ct, (uint32_t)record);
            if (frame == 0) {
                /* place 0, both records 0, control stack empty */
                reg.state = 1;
                steps += 1;
                ending = answer(REF_FINISHED, 0, 0, steps);
                goto done;
            }
            record = (size_t)(frame - 1) * RECORD;
            main_base = get(ctl_stack, ctl_len, record + F_MAIN);
            ptr_base = get(ctl_stack, ctl_len, record + F_PTR);
            break;
        }

        case EQP: {
            uint32_t b = pop(ptr_stack, ptr_len, &pt);
            uint32_t a = pop(ptr_stack, ptr_len, &pt);
            push(main_stack, main_len, &mt, a == b);
            place += 1;
            break;
        }
        case EQW: {
            uint32_t b = pop(main_stack, main_len, &mt);
            uint32_t a = pop(main_stack, main_len, &mt);
            push(main_stack, main_len, &mt, a == b);
            place += 1;
            break;
        }
        case LT: {
            int32_t b = whole(pop(main_stack, main_len, &mt));
            int32_t a = whole(pop(main_stack, main_len, &mt));
            push(main_stack, main_len, &mt, a < b);
            place += 1;
            break;
        }
        case LE: {
            int32_t b = whole(pop(main_stack, main_len, &mt));
            int32_t a = whole(pop(main_stack, main_len, &mt));
            push(main_stack, main_len, &mt, a <= b);
            place += 1;
            break;
        }
        case GT: {
            int32_t b = whole(pop(main_stack, main_len, &mt));
            int32_t a = whole(pop(main_stack, main_len, &mt));
            push(main_stack, main_len, &mt, a > b);
            place += 1;
            break;
        }
        case GE: {
            int32_t b = whole(pop(main_stack, main_len, &mt));
            int32_t a = whole(pop(main_stack, main_len, &mt));
            push(main_stack, main_len, &mt, a >= b);
            place += 1;
            break;
        }

        /* 1: a result outside -2^31 to 2^31-1 */
        case PLUS: case MINUS: case TIMES: {
            int64_t b = whole(get(main_stack, main_len, mt - 1u));
            int64_t a = whole(get(main_stack, main_len, mt - 2u));
            int64_t c = file[place] == PLUS ? a + b : file[place] == MINUS ? a - b : a * b;
            if (c < INT32_MIN || c > INT32_MAX) {
                exception = REF_OUT_OF_RANGE;
                goto raise;
            }
            pop(main_stack, main_len, &mt);
            put(main_stack, main_len, mt - 1u, (uint32_t)c);
            place += 1;
            break;
        }
        /* 1: B = 0; div rounds towards zero, rem has A's sign */
        case DIV: case REM: {
            int32_t b = whole(get(main_stack, main_len, mt - 1u));
            int32_t a = whole(get(main_stack, main_len, mt - 2u));
            int32_t c;
            if (b == 0 || (b == -1 && a == INT32_MIN && file[place] == DIV)) {
                exception = REF_OUT_OF_RANGE;
                goto raise;
            }
            if (b == -1)
                c = file[place] == DIV ? -a : 0;
            else
                c = file[place] == DIV ? a / b : a % b;
            pop(main_stack, main_len, &mt);
            put(main_stack, main_len, mt - 1u, (uint32_t)c);
            place += 1;
            break;
        }
        case NEG: {
            uint32_t a = get(main_stack, main_len, mt - 1u);
            if (a == 0x80000000u) {
                exception = REF_OUT_OF_RANGE;
                goto raise;
            }
            put(main_stack, main_len, mt - 1u, 0u - a);
            place += 1;
            break;
        }
        case NOT: {
            uint32_t a = get(main_stack, main_len, mt - 1u);
            put(main_stack, main_len, mt - 1u, a == 0);
            place += 1;
            break;
        }

        /* 1: a result that is not finite */
        case RPLUS: case RTIMES: case RMINUS: case RDIV: {
            double b = real_at(main_stack, main_len, mt - 2u);
            double a = real_at(main_stack, main_len, mt - 4u);
            uint64_t c = real_result(file[place], a, b);
            if (not_finite(c)) {
                exception = REF_OUT_OF_RANGE;
                goto raise;
            }
            cut(main_stack, main_len, &mt, mt - 2u);
            put_bits(main_stack, main_len, mt - 2u, c);
            place += 1;
            break;
        }
        case RLESS: { /* a NaN is not less, and nothing is less than it */
            double b = real_at(main_stack, main_len, mt - 2u);
            double a = real_at(main_stack, main_len, mt - 4u);
            cut(main_stack, main_len, &mt, mt - 3u);
            put(main_stack, main_len, mt - 1u, a < b);
            place += 1;
            break;
        }
        /* from the bottom: point across, along, shift across, along, scale */
        case SCALE: {
            double scale = real_at(main_stack, main_len, mt - 2u);
            uint64_t across = scaled_and_shifted(real_at(main_stack, main_len, mt - 10u), scale,
                                                 real_at(main_stack, main_len, mt - 6u));
            uint64_t along = scaled_and_shifted(real_at(main_stack, main_len, mt - 8u), scale,
                                                real_at(main_stack, main_len, mt - 4u));
            if (not_finite(across) || not_finite(along)) {
                exception = REF_OUT_OF_RANGE;
                goto raise;
            }
            cut(main_stack, main_len, &mt, mt - 6u);
            put_bits(main_stack, main_len, mt - 4u, across);
            put_bits(main_stack, main_len, mt - 2u, along);
            place += 1;
            break;
        }

        case ENTER:
            if (ct + RECORD > ctl_len) {
                exception = REF_NO_ROOM;
                goto raise;
            }
            push(ctl_stack, ctl_len, &ct, place);
            push(ctl_stack, ctl_len, &ct, mt);
            push(ctl_stack, ctl_len, &ct, pt);
            push(ctl_stack, ctl_len, &ct, frame);
            push(ctl_stack, ctl_len, &ct, handler);
            handler = ct / RECORD;
            place += 3;
            break;
        case EXIT: {
            size_t record = (size_t)(handler - 1) * RECORD;
            handler = get(ctl_stack, ctl_len, record + H_OUTER);
            cut(ctl_stack, ctl_len, &ct, (uint32_t)record);
            place += 1;
            break;
        }
        case RAISE:
            exception = get(main_stack, main_len, mt - 1u);
            goto raise;

        default:
            out_of_bounds();
        }
        steps += 1;
        continue;

    raise:
        /* with no handler open the state stays as before the instruction */
        if (handler == 0) {
            ending = answer(REF_UNCAUGHT, exception, place, steps);
            break;
        }
        {
            size_t record = (size_t)(handler - 1) * RECORD;
            uint32_t at = get(ctl_stack, ctl_len, record + H_AT);
            uint32_t main_to = get(ctl_stack, ctl_len, record + H_MAIN);
            uint32_t ptr_to = get(ctl_stack, ctl_len, record + H_PTR);
            frame = get(ctl_stack, ctl_len, record + H_FRAME);
            handler = get(ctl_stack, ctl_len, record + H_OUTER);
            /* drops frames, closes the handler */
            cut(ctl_stack, ctl_len, &ct, (uint32_t)record);
            cut(main_stack, main_len, &mt, main_to);
            cut(ptr_stack, ptr_len, &pt, ptr_to);
            push(main_stack, main_len, &mt, exception);
            record = (size_t)(frame - 1) * RECORD;
            main_base = get(ctl_stack, ctl_len, record + F_MAIN);
            ptr_base = get(ctl_stack, ctl_len, record + F_PTR);
            place = head_of(&lay, get(ctl_stack, ctl_len, record + F_PROC))
                + operand_at(file, file_len, (size_t)at + 1);
        }
        steps += 1;
    }

done:
    reg.place = place;
    reg.frame = frame;
    reg.handler = handler;
    reg.main_top = mt;
    reg.ptr_top = pt;
    reg.ctl_top = ct;
    write_registers(regs, &reg); /* the sums stay */
    return ending;
}
