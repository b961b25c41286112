/*
 * The proved library and the reference side by side: generated files and call
 * sequences, every answer and every list compared after each call.
 *   compare SEED CASES
 * Stops at the first difference with a dump. A case depends on the seed and
 * its own number alone: compare SEED CASES FIRST begins with case FIRST.
 * Ends with 1 on a difference, with 2 if a run of 20,000 cases or more has
 * not met all that the table counts.
 */
#include "reference.h"
#include "yalgovim.h"

#include <inttypes.h>
#include <math.h>
#include <stdbool.h>
#include <stdio.h>
#include <stdlib.h>
#include <string.h>
#include <time.h>

/* ---- chance ---- */

static uint64_t chance;

static uint32_t draw(void)
{
    uint64_t z = (chance += 0x9e3779b97f4a7c15u);
    z = (z ^ (z >> 30)) * 0xbf58476d1ce4e5b9u;
    z = (z ^ (z >> 27)) * 0x94d049bb133111ebu;
    return (uint32_t)((z ^ (z >> 31)) >> 16);
}

/* 0 to n - 1 */
static uint32_t below(uint32_t n)
{
    return n == 0 ? 0 : draw() % n;
}

static bool one_in(uint32_t n)
{
    return below(n) == 0;
}

/* ---- a generator of files that keep the rules ---- */

enum { ROOM = 4500, PROCS = 66 };

typedef struct {
    uint8_t a, b, r, s;
} signature;

typedef struct {
    uint8_t f[ROOM];
    size_t n, limit, head;
    signature sig[PROCS];
    uint32_t procs, self;
    uint32_t m, p;         /* depths here */
    uint32_t floor_m, floor_p;
    uint32_t max_m, max_p; /* greatest so far */
    uint32_t cap_m, cap_p;
    uint32_t handlers;     /* open here */
    uint32_t check_m;      /* the checker's floor: a loop keeps more */
    uint32_t spoil;        /* a code to be put where it is refused, or 0 */
    size_t spoilt;         /* where it was put, or 0 */
    uint32_t spoilt_x;     /* the head's x that makes it so, or 0 */
    bool spoilt_floor;     /* or the floor of an open handler */
} maker;

static void byte(maker *g, uint32_t b)
{
    if (g->n >= ROOM)
        abort();
    g->f[g->n++] = (uint8_t)b;
}

static void operand(maker *g, uint32_t s)
{
    byte(g, s >> 8 & 255);
    byte(g, s & 255);
}

static void patch(maker *g, size_t at, size_t s)
{
    g->f[at] = (uint8_t)(s >> 8);
    g->f[at + 1] = (uint8_t)s;
}

static void effect(maker *g, uint32_t pop_m, uint32_t pop_p, uint32_t push_m, uint32_t push_p)
{
    g->m = g->m - pop_m + push_m;
    g->p = g->p - pop_p + push_p;
    if (g->m > g->max_m)
        g->max_m = g->m;
    if (g->p > g->max_p)
        g->max_p = g->p;
}

static uint32_t odd_word(void)
{
    static const uint32_t some[] = {
        0, 1, 2, 3, 5, 7, 0xffffffffu, 0xfffffffeu, 0x80000000u, 0x80000001u,
        0x7fffffffu, 0x7ffffffeu, 0x40000000u, 0xc0000000u, 46340, 46341, 65535, 65536,
        0x01000000u, 0x01000001u, 0x02000000u, 0x03000001u
    };
    if (one_in(3))
        return draw();
    return some[below(sizeof some / sizeof *some)];
}

static void push_word(maker *g)
{
    if (one_in(2)) {
        byte(g, 54);
        byte(g, one_in(3) ? below(4) : draw() & 255);
    } else {
        uint32_t w = odd_word();
        byte(g, 56);
        operand(g, w >> 16);
        operand(g, w & 65535);
    }
    effect(g, 0, 0, 1, 0);
}

static void push_number(maker *g, uint32_t w)
{
    if (w + 128 < 256 && one_in(2)) {
        byte(g, 54);
        byte(g, w & 255);
    } else {
        byte(g, 56);
        operand(g, w >> 16);
        operand(g, w & 65535);
    }
    effect(g, 0, 0, 1, 0);
}

static void push_pointer(maker *g)
{
    if (g->p > 0 && one_in(2)) {
        byte(g, 21);
        operand(g, below(g->p));
    } else {
        byte(g, one_in(2) ? 57 : 58);
    }
    effect(g, 0, 0, 0, 1);
}

static void push_pattern(maker *g);

/* Brings both depths to those wanted, which are not below the floor. */
static void adjust(maker *g, uint32_t m, uint32_t p)
{
    uint32_t drop_m = g->m > m ? g->m - m : 0, drop_p = g->p > p ? g->p - p : 0;
    if (drop_m > 0 || drop_p > 0 || one_in(20)) {
        uint32_t kind = 64;
        if (g->m - drop_m > g->floor_m && one_in(2))
            kind = 60;
        else if (g->p - drop_p > g->floor_p && one_in(2))
            kind = 62;
        byte(g, kind);
        operand(g, drop_m);
        operand(g, drop_p);
        effect(g, drop_m, drop_p, 0, 0);
    }
    while (g->m < m)
        if (m - g->m >= 2 && one_in(8))
            push_pattern(g);
        else
            push_word(g);
    while (g->p < p)
        push_pointer(g);
}

static bool call_some(maker *g)
{
    for (int i = 0; i < 4; i++) {
        uint32_t q = below(g->procs);
        if (q <= g->self && !one_in(6) && g->self + 1 < g->procs)
            q = g->self + 1 + below(g->procs - g->self - 1);
        const signature *c = &g->sig[q];
        if (c->a <= g->m - g->floor_m && c->b <= g->p - g->floor_p
            && g->m - c->a + c->r <= g->cap_m && g->p - c->b + c->s <= g->cap_p) {
            byte(g, 72);
            operand(g, q);
            effect(g, c->a, c->b, c->r, c->s);
            /* with nothing taken or left: calls of others like it, at the same depths */
            for (uint32_t k = 0; k < g->procs && c->a + c->b + c->r + c->s == 0; k++) {
                const signature *d = &g->sig[k];
                if (k != q && k > g->self && d->a + d->b + d->r + d->s == 0 && one_in(2)
                    && g->n + 60 < g->limit) {
                    byte(g, 72);
                    operand(g, k);
                }
            }
            return true;
        }
    }
    return false;
}

/* A new object and a use of one of its words, mostly one that is there. */
static bool object_use(maker *g)
{
    uint32_t free_m = g->m - g->floor_m, free_p = g->p - g->floor_p;
    if (g->m + 2 > g->cap_m || g->p + 3 > g->cap_p)
        return false;
    uint32_t w = below((free_m > 3 ? 3 : free_m) + 1), q = below((free_p > 2 ? 2 : free_p) + 1);
    if (w == 0 && q == 0) {
        push_word(g);
        w = 1;
    }
    uint32_t plain = 2 + q + below(w + one_in(15)), ptr = 2 + below(q + one_in(15));
    uint32_t use = 2 * below(2) + (w == 0 || (q > 0 && one_in(2)));
    byte(g, 36);
    operand(g, w);
    operand(g, q);
    effect(g, w, q, 0, 1);
    if (one_in(3)) {
        byte(g, 59);
        byte(g, 58);
        effect(g, 0, 1, 0, 0);
        effect(g, 0, 0, 0, 1);
    }
    switch (use) {
    case 0:
        byte(g, 30);
        operand(g, plain);
        effect(g, 0, 1, 1, 0);
        break;
    case 1:
        byte(g, 31);
        operand(g, ptr);
        effect(g, 0, 1, 0, 1);
        break;
    case 2:
        push_word(g);
        byte(g, 32);
        operand(g, plain);
        effect(g, 1, 1, 0, 0);
        break;
    default:
        byte(g, 21); /* the object, stored in itself */
        operand(g, g->p - 1);
        effect(g, 0, 0, 0, 1);
        byte(g, 33);
        operand(g, ptr);
        effect(g, 0, 2, 0, 0);
        break;
    }
    return true;
}

/* A vector that a routine makes or finds: what the generator takes it to be. */
typedef struct {
    uint32_t kind, bound, length;
    uint32_t slot; /* its frame word, or ON_ROOT */
} vector;

enum { PLAIN = 2, POINTERS = 3 };
#define ON_ROOT UINT32_MAX

static uint32_t some_bound(void)
{
    static const uint32_t ends[] = {
        0x7fffffffu, 0x7ffffffeu, 0x7ffffffdu, 0x80000000u, 0x80000001u, 0xffffffffu, 0
    };
    if (one_in(3))
        return ends[below(sizeof ends / sizeof *ends)];
    return one_in(6) ? draw() : below(4) - 1;
}

static uint32_t some_length(void)
{
    static const uint32_t huge[] = {
        0x7fffffffu, 0x7ffffffdu, 0x01000000u, 0x00fffffdu, 65536, 16384, 16380, 1000
    };
    static const uint32_t negative[] = { 0xffffffffu, 0xfffffffdu, 0x80000000u };
    switch (below(24)) {
    case 0: return huge[below(sizeof huge / sizeof *huge)];
    case 1: return negative[below(sizeof negative / sizeof *negative)];
    case 2: return 0;
    case 3: case 4: return below(40);
    default: return 1 + below(5);
    }
}

/* Mostly one that hits. */
static uint32_t some_index(const vector *v)
{
    switch (below(24)) {
    case 0: return v->bound - 1;
    case 1: return v->bound + v->length;
    case 2: return odd_word();
    case 3: case 4: case 5: return v->bound + v->length - 1;
    default: return v->bound + below(v->length);
    }
}

static void name_vector(maker *g, const vector *v)
{
    if (one_in(30)) {
        byte(g, 57);
    } else if (v->slot == ON_ROOT) {
        byte(g, 58);
    } else {
        byte(g, 21);
        operand(g, v->slot);
    }
    effect(g, 0, 0, 0, 1);
}

static void read_element(maker *g, const vector *v)
{
    bool plain = (v->kind == PLAIN) != one_in(20);
    push_number(g, some_index(v));
    name_vector(g, v);
    byte(g, plain ? 82 : 83);
    effect(g, 1, 1, plain, !plain);
}

static void write_element(maker *g, const vector *v)
{
    if ((v->kind == PLAIN) != one_in(20)) {
        push_word(g);
        push_number(g, some_index(v));
        name_vector(g, v);
        byte(g, 84);
        effect(g, 2, 1, 0, 0);
    } else {
        push_pointer(g);
        name_vector(g, v);
        push_number(g, some_index(v));
        byte(g, 85);
        effect(g, 1, 2, 0, 0);
    }
}

/* Codes 30 to 33 on a vector's words, often its bound. */
static void vector_field(maker *g, const vector *v)
{
    uint32_t length = v->length > 40 ? 0 : v->length;
    uint32_t bound = v->kind == PLAIN ? 2 : 2 + length, element = v->kind == PLAIN ? 3 : 2;
    uint32_t s = one_in(5) ? bound : element + below(length);
    bool set = !one_in(4), pointer = (v->kind == POINTERS && s != bound) != one_in(8);
    uint32_t code = 30u + 2u * set + pointer;
    if (code == 32)
        push_word(g);
    if (code == 33)
        push_pointer(g);
    name_vector(g, v);
    byte(g, code);
    operand(g, s);
    effect(g, code == 32, code == 33 ? 2 : 1, code == 30, code == 31);
}

static void use_vector(maker *g, const vector *v, uint32_t times)
{
    for (uint32_t i = 0; i < times; i++) {
        if (g->m + 2 > g->cap_m || g->p + 2 > g->cap_p || (i > 0 && g->n + 60 > g->limit))
            return;
        if (one_in(4))
            vector_field(g, v);
        else if (one_in(2))
            read_element(g, v);
        else
            write_element(g, v);
    }
}

/* A new vector, left where it is, put on the root or in a frame word, and uses of it. */
static bool vector_use(maker *g)
{
    vector v = { PLAIN + below(2), some_bound(), some_length(), 0 };
    if (g->m + 3 > g->cap_m || g->p + 3 > g->cap_p)
        return false;
    push_number(g, v.bound);
    push_number(g, v.length);
    if (v.kind == PLAIN) {
        push_word(g);
        byte(g, 80);
        effect(g, 3, 0, 0, 1);
    } else {
        push_pointer(g);
        byte(g, 81);
        effect(g, 2, 1, 0, 1);
    }
    v.slot = g->p - 1;
    if (one_in(4)) {
        byte(g, 59);
        byte(g, 58);
    } else if (one_in(4)) {
        byte(g, 21);
        operand(g, v.slot);
        effect(g, 0, 0, 0, 1);
        v.slot = below(g->p - 1);
        byte(g, 23);
        operand(g, v.slot);
        effect(g, 0, 1, 0, 0);
    }
    use_vector(g, &v, below(4));
    return true;
}

/* What hangs on the root, lent with the heap or left by another routine. */
static bool root_use(maker *g)
{
    vector v = { PLAIN + below(2), below(4) - 1, 3, ON_ROOT };
    if (g->m + 2 > g->cap_m || g->p + 2 > g->cap_p)
        return false;
    use_vector(g, &v, 1);
    return true;
}

/* One of 80 to 85 on whatever lies on the stacks. */
static bool any_vector_code(maker *g)
{
    static const uint8_t pop_m[] = { 3, 2, 1, 1, 2, 1 }, pop_p[] = { 0, 1, 1, 1, 1, 2 };
    static const uint8_t push_m[] = { 0, 0, 1, 0, 0, 0 }, push_p[] = { 1, 1, 0, 1, 0, 0 };
    uint32_t k = below(6);
    if (g->m - g->floor_m < pop_m[k] || g->p - g->floor_p < pop_p[k]
        || g->p - pop_p[k] + push_p[k] > g->cap_p)
        return false;
    byte(g, 80 + k);
    effect(g, pop_m[k], pop_p[k], push_m[k], push_p[k]);
    return true;
}

/* ---- reals, as the generator draws them ---- */

#define SIGN 0x8000000000000000u
#define INFINITE 0x7ff0000000000000u /* all bits of the exponent */
#define LARGEST 0x7fefffffffffffffu
#define HALF_LAST 0x7c90000000000000u /* 2^970: half of the largest one's last place */

static uint8_t known_kind(void);

static double number_of(uint64_t bits)
{
    double d;
    memcpy(&d, &bits, sizeof d);
    return d;
}

static uint64_t bits_of(double d)
{
    uint64_t bits;
    memcpy(&bits, &d, sizeof bits);
    return bits;
}

static uint64_t draw_bits(void)
{
    uint64_t high = draw();
    return high << 32 | draw();
}

static uint64_t some_sign(void)
{
    return one_in(2) ? SIGN : 0;
}

/* Up to two places off. */
static uint64_t nudged(uint64_t v)
{
    return v + below(5) - 2;
}

/* Tenths or eighths, as a shop would write them. */
static uint64_t decimal(void)
{
    return bits_of(((double)below(20001) - 10000) / (one_in(3) ? 8 : 10));
}

/* Any digits, with this exponent, 1023 for those from 1 to below 2. */
static uint64_t scaled(uint32_t exponent)
{
    return (draw_bits() & ~INFINITE) | (uint64_t)exponent << 52;
}

/* Few digits: products and quotients at a tie, or just beside one. */
static uint64_t sparse(void)
{
    uint64_t v = (uint64_t)(1013 + below(20)) << 52 ^ some_sign();
    for (uint32_t i = 1 + below(3); i > 0; i--)
        v |= (uint64_t)1 << below(52);
    return v;
}

static uint64_t no_number(void)
{
    static const uint64_t some[] = {
        INFINITE, SIGN | INFINITE, INFINITE, SIGN | INFINITE,
        0x7ff8000000000000u, 0xfff8000000000000u, 0x7ff8000012345678u, 0xffffffffffffffffu,
        0x7ff0000000000001u, 0xfff4000000000000u, 0x7ff7ffffffffffffu, 0x7ff0000080000000u
    };
    return some[below(sizeof some / sizeof *some)];
}

static uint64_t odd_real(void)
{
    static const uint64_t some[] = {
        0, SIGN,
        0x3ff0000000000000u, 0xbff0000000000000u, 0x4000000000000000u, /* 1, -1, 2 */
        0x3fb999999999999au, 0x3fc999999999999au, 0x3fd3333333333333u, /* 0.1, 0.2, 0.3 */
        1, SIGN | 1, 0x000fffffffffffffu, 0x800fffffffffffffu,         /* subnormal: least, greatest */
        0x0010000000000000u, 0x8010000000000000u, 0x0010000000000001u, /* normal: least */
        LARGEST, SIGN | LARGEST, 0x7fe0000000000000u,
        0x433fffffffffffffu, 0x4340000000000000u, 0x4340000000000001u, /* 2^53 - 1, 2^53, 2^53 + 2 */
        0x3ca0000000000000u, 0x3ca0000000000001u, 0x3c9fffffffffffffu, /* half of 1's last place */
        HALF_LAST, HALF_LAST - 1, 0x1ff0000000000000u,                 /* 2^970, below it, 2^-512 */
        0x00000000ffffffffu, 0x0000000100000000u, 0x3ff0000080000000u  /* words at their ends */
    };
    return some[below(sizeof some / sizeof *some)];
}

/* All bytes are codes, heads among them. */
static uint64_t real_of_codes(void)
{
    uint64_t v = 0;
    for (int i = 0; i < 8; i++)
        v = v << 8 | (one_in(4) ? 240 : known_kind());
    return v;
}

static uint64_t some_real(void)
{
    switch (below(16)) {
    case 0: return draw_bits();
    case 1: return real_of_codes();
    case 2: return no_number();
    case 3: case 4: case 5: case 6: return odd_real();
    case 7: case 8: return scaled(1013 + below(20));
    default: return decimal();
    }
}

/* The result is the largest finite one, a little less, or too large. */
static void pair_large(uint32_t code, uint64_t v[2])
{
    uint64_t most = LARGEST - below(3), both = some_sign();
    switch (code) {
    case 151:
        v[0] = scaled(1023 + below(900));
        v[1] = nudged(bits_of(number_of(most) / number_of(v[0])));
        break;
    case 153:
        v[1] = scaled(1022 - below(900));
        v[0] = nudged(bits_of(number_of(most) * number_of(v[1])));
        break;
    default:
        v[0] = most;
        v[1] = nudged(HALF_LAST) ^ (code == 152 ? SIGN : 0);
        break;
    }
    v[0] ^= both;
    v[1] ^= code == 151 || code == 153 ? some_sign() : both;
}

/* The result is subnormal, 0, or the least normal one. */
static void pair_small(uint32_t code, uint64_t v[2])
{
    uint32_t exponent = 400 + below(200), under = below(58);
    switch (code) {
    case 151:
        v[0] = scaled(exponent);
        v[1] = scaled(1024 - under - exponent);
        break;
    case 153:
        v[0] = scaled(exponent);
        v[1] = scaled(exponent + 1022 + under);
        break;
    default:
        v[0] = draw_bits() & ~(0x7feull << 52);
        v[1] = draw_bits() & ~(0x7feull << 52);
        break;
    }
}

/* B is half of A's last place, or next to that. */
static void pair_tie(uint64_t v[2])
{
    uint32_t exponent = 60 + below(1900);
    v[0] = scaled(exponent);
    v[1] = nudged((uint64_t)(exponent - 53) << 52) ^ some_sign();
}

/* A and B for an operation on reals, many of them at an end of something. */
static void real_pair(uint32_t code, uint64_t v[2])
{
    v[0] = some_real();
    v[1] = some_real();
    switch (below(13)) {
    case 0: case 1: /* near each other, or opposite */
        v[1] = (one_in(2) ? v[0] : nudged(v[0])) ^ some_sign();
        break;
    case 2: pair_large(code, v); break;
    case 3: pair_small(code, v); break;
    case 4: pair_tie(v); break;
    case 5: /* zeros, in half of them so that a sum is -0 */
        v[0] = one_in(3) ? 0 : SIGN;
        v[1] = one_in(2) ? code >= 152 ? 0 : SIGN : one_in(2) ? some_sign() : v[1];
        break;
    case 6: v[1] = (one_in(2) ? 0 : INFINITE) ^ some_sign(); break;
    case 7: v[below(2)] = no_number(); break;
    case 8: /* infinities */
        v[0] = INFINITE ^ some_sign();
        v[1] = one_in(2) ? INFINITE ^ some_sign() : v[1];
        break;
    case 9: case 10:
        v[0] = sparse();
        v[1] = sparse();
        break;
    default: break;
    }
}

/* A point's and a shift's coordinate for this scale. */
static void coordinate(uint64_t scale, uint64_t *point, uint64_t *shift)
{
    double k = number_of(scale);
    *point = scaled(1013 + below(20));
    uint64_t product = bits_of(number_of(*point) * k);
    switch (below(12)) {
    case 0: case 1: /* they cancel: what the product lost in rounding is all that a fused operation leaves */
        *shift = (one_in(2) ? product : nudged(product)) ^ SIGN;
        break;
    case 2: /* the sum's last place is near the product's */
        *shift = product + ((uint64_t)below(6) << 52);
        break;
    case 3: /* both -0 */
        *point = SIGN ^ (scale & SIGN);
        *shift = SIGN;
        break;
    case 4: /* a subnormal product */
        *point = bits_of(number_of(draw_bits() & ~INFINITE) / k);
        *shift = one_in(2) ? some_sign() : draw_bits() & ~INFINITE;
        break;
    case 5: /* a product at the end of the range, or beyond it, which a fused operation would bring back */
        *point = nudged(bits_of(number_of(LARGEST) / k));
        *point += one_in(2) ? 2 : 0;
        *shift = one_in(2) ? nudged(HALF_LAST) ^ some_sign() : scaled(1990 + below(56)) | SIGN;
        break;
    case 6:
        *point = one_in(2) ? no_number() : *point;
        *shift = one_in(2) ? no_number() : decimal();
        break;
    case 7:
        *point = some_real();
        *shift = some_real();
        break;
    default:
        *shift = decimal();
        break;
    }
}

/* From the bottom: point across, along, shift across, along, scale. */
static void hoop_point(uint64_t v[5])
{
    v[4] = one_in(24) ? no_number() : one_in(6) ? some_real() : one_in(2) ? decimal() : scaled(1018 + below(10));
    coordinate(v[4], &v[0], &v[2]);
    coordinate(v[4], &v[1], &v[3]);
}

/* Words that an instruction on reals pops and pushes. */
static uint32_t real_pops(uint32_t code)
{
    return code == 53 ? 0 : code == 156 ? 10 : 4;
}

static uint32_t real_pushes(uint32_t code)
{
    return code == 155 ? 1 : code == 156 ? 4 : 2;
}

static bool on_reals(uint32_t code)
{
    return code == 53 || (code >= 150 && code <= 156 && code != 154);
}

/* ---- reals in a file ---- */

static void push_by_53(maker *g, uint64_t v)
{
    byte(g, 53);
    for (uint32_t i = 0; i < 8; i++)
        byte(g, (uint32_t)(v >> (56 - 8 * i)) & 255);
    effect(g, 0, 0, 2, 0);
}

/* By 53, where no instruction on reals takes it: any eight bytes will do. */
static void push_pattern(maker *g)
{
    push_by_53(g, one_in(3) ? no_number() : one_in(2) ? real_of_codes() : odd_real());
}

/* By 53, as two words, or out of the frame. */
static void push_real(maker *g, uint64_t v)
{
    if (one_in(10)) {
        push_number(g, (uint32_t)(v >> 32));
        push_number(g, (uint32_t)v);
        return;
    }
    if (g->m >= 2 && one_in(12)) {
        uint32_t s = below(g->m - 1);
        for (uint32_t i = s; i < s + 2; i++) {
            byte(g, 20);
            operand(g, i);
            effect(g, 0, 0, 1, 0);
        }
        return;
    }
    push_by_53(g, v);
}

static void real_code_on(maker *g, uint32_t code)
{
    byte(g, code);
    effect(g, real_pops(code), 0, real_pushes(code), 0);
}

/* The real on top goes into two frame words, its low word first. */
static void store_real(maker *g)
{
    uint32_t s = below(g->m - 3);
    for (uint32_t i = 2; i-- > 0;) {
        byte(g, 22);
        operand(g, s + i);
        effect(g, 1, 0, 0, 0);
    }
}

/* A point scaled and shifted, now and then once more. */
static bool hoop_use(maker *g)
{
    uint64_t v[5];
    uint32_t first = 0;
    while (g->m + 10 - 2 * first <= g->cap_m && (first == 0 || (one_in(3) && g->n + 60 < g->limit))) {
        if (one_in(3))
            hoop_point(v);
        else
            for (int i = 0; i < 5; i++)
                v[i] = decimal();
        for (uint32_t i = first; i < 5; i++)
            push_real(g, v[i]);
        real_code_on(g, 156);
        first = 2; /* the point is there */
    }
    return first > 0;
}

/* An instruction on reals, whatever lies on the stack. */
static bool any_real_code(maker *g)
{
    uint32_t code = one_in(3) ? 156 : 150 + below(6);
    if (code == 154 || g->m - g->floor_m < real_pops(code))
        return false;
    real_code_on(g, code);
    return true;
}

/* Two reals and an operation, and others on its result. */
static bool real_use(maker *g)
{
    static const uint8_t codes[] = { 150, 151, 152, 153, 155, 150, 151, 152, 153 };
    uint32_t code = codes[below(sizeof codes)];
    uint64_t v[2] = { decimal(), decimal() };
    if (one_in(8))
        return any_real_code(g);
    if (one_in(4))
        return hoop_use(g);
    if (g->m + 4 > g->cap_m)
        return false;
    if (one_in(3))
        real_pair(code, v);
    push_real(g, v[0]);
    push_real(g, v[1]);
    real_code_on(g, code);
    while (code != 155 && one_in(2) && g->m + 2 <= g->cap_m && g->n + 60 < g->limit) {
        code = codes[below(sizeof codes)];
        push_real(g, one_in(4) ? some_real() : decimal());
        real_code_on(g, code);
    }
    if (code != 155 && g->m > 3 && one_in(6))
        store_real(g);
    return true;
}

/* 53 where the head's x, which is set later, lets it have a word too few. */
static bool spoil_depth(maker *g)
{
    uint32_t least = g->sig[g->self].r < g->max_m ? g->max_m : g->sig[g->self].r;
    if (g->m + 6 < least)
        return false;
    while (g->m + 1 < least)
        push_word(g);
    g->spoilt = g->n;
    g->spoilt_x = g->m + 1;
    push_by_53(g, some_real());
    return true;
}

/* An instruction that would pop one word from below the floor. */
static bool spoil_floor(maker *g)
{
    uint32_t m = g->check_m + real_pops(g->spoil) - 1;
    if (m < g->floor_m || m > g->cap_m)
        return false;
    adjust(g, m, g->p);
    g->spoilt = g->n;
    g->spoilt_floor = g->handlers > 0;
    real_code_on(g, g->spoil);
    if (g->m < g->floor_m) /* in a loop; what follows is not looked at */
        g->m = g->floor_m;
    return true;
}

/* A jump backwards to a byte of 53's body, where a code would stand. */
static bool spoil_jump(maker *g)
{
    if (g->m + 2 > g->cap_m)
        return false;
    push_by_53(g, real_of_codes());
    g->spoilt = g->n;
    byte(g, 3);
    operand(g, 4 + below(8));
    return true;
}

/* The first instruction that is refused. */
static bool spoil_here(maker *g)
{
    return g->spoil == 53 ? spoil_depth(g) : g->spoil == 3 ? spoil_jump(g) : spoil_floor(g);
}

/* Two words that an operation can bear, and the operation. */
static bool reckon(maker *g)
{
    static const uint8_t codes[] = { 140, 141, 142, 143, 145, 130, 195, 198, 201, 204 };
    if (g->m + 2 > g->cap_m)
        return false;
    if (one_in(20)) { /* the one quotient out of range */
        push_number(g, 0x80000000u);
        push_number(g, 0xffffffffu);
        byte(g, one_in(2) ? 143 : 145);
        effect(g, 2, 0, 1, 0);
        return true;
    }
    for (int i = 0; i < 2; i++) {
        if (one_in(3)) { /* an end of the range or near it */
            static const uint32_t ends[] = {
                0x80000000u, 0x80000001u, 0x7fffffffu, 0xffffffffu, 0, 1, 0x40000000u, 2
            };
            uint32_t w = ends[below(8)];
            byte(g, 56);
            operand(g, w >> 16);
            operand(g, w & 65535);
        } else {
            byte(g, 54);
            byte(g, one_in(8) ? 0 : draw() & 255);
        }
        effect(g, 0, 0, 1, 0);
    }
    byte(g, codes[below(sizeof codes)]);
    effect(g, 2, 0, 1, 0);
    return true;
}

/* One instruction, or a few, that pass their state to the next alone. */
static void simple(maker *g)
{
    static const uint8_t binary[] = {
        140, 141, 142, 143, 145, 130, 195, 198, 201, 204, 140, 142, 143
    };
    uint32_t free_m = g->m - g->floor_m, free_p = g->p - g->floor_p;
    bool room_m = g->m < g->cap_m, room_p = g->p < g->cap_p;
    uint32_t k;
    if (g->spoil != 0 && g->spoilt == 0 && one_in(2) && spoil_here(g))
        return;
    if (one_in(10) && real_use(g))
        return;
    if (one_in(6) && (one_in(6) ? root_use(g) : vector_use(g)))
        return;
    if (one_in(4) && (one_in(2) ? object_use(g) : reckon(g)))
        return;
    switch (below(26)) {
    case 0: case 1: case 2: case 3:
        if (free_m < 2)
            break;
        byte(g, binary[below(sizeof binary)]);
        effect(g, 2, 0, 1, 0);
        return;
    case 4:
        if (free_m < 1)
            break;
        byte(g, one_in(2) ? 144 : 146);
        return;
    case 5: case 6:
        if (g->m < 1 || !room_m)
            break;
        byte(g, 20);
        operand(g, below(g->m));
        effect(g, 0, 0, 1, 0);
        return;
    case 7:
        if (free_m < 1 || g->m < 2)
            break;
        byte(g, 22);
        operand(g, below(g->m - 1));
        effect(g, 1, 0, 0, 0);
        return;
    case 8:
        if (free_p < 1 || g->p < 2)
            break;
        byte(g, 23);
        operand(g, below(g->p - 1));
        effect(g, 0, 1, 0, 0);
        return;
    case 9: case 10:
        if (free_p < 1 || !room_m || !one_in(3))
            break;
        byte(g, 30);
        operand(g, one_in(30) ? draw() & 65535 : below(7));
        effect(g, 0, 1, 1, 0);
        return;
    case 11: case 12:
        if (free_p < 1 || !one_in(3))
            break;
        byte(g, 31);
        operand(g, one_in(30) ? draw() & 65535 : below(6));
        effect(g, 0, 1, 0, 1);
        return;
    case 13:
        if (free_p < 1 || free_m < 1 || !one_in(3))
            break;
        byte(g, 32);
        operand(g, below(7));
        effect(g, 1, 1, 0, 0);
        return;
    case 14:
        if (free_p < 2 || !one_in(3))
            break;
        byte(g, 33);
        operand(g, below(6));
        effect(g, 0, 2, 0, 0);
        return;
    case 15: case 16: case 17: {
        uint32_t w = below((free_m > 4 ? 4 : free_m) + 1), q = below((free_p > 3 ? 3 : free_p) + 1);
        if (q == 0 && !room_p)
            break;
        if (one_in(20))
            w = free_m;
        byte(g, 36);
        operand(g, w);
        operand(g, q);
        effect(g, w, q, 0, 1);
        return;
    }
    case 18:
        if (free_p < 1)
            break;
        byte(g, 59);
        effect(g, 0, 1, 0, 0);
        return;
    case 19:
        if (g->p + 2 > g->cap_p || !room_m)
            break;
        while (g->p - g->floor_p < 2)
            push_pointer(g);
        byte(g, 131);
        effect(g, 0, 2, 1, 0);
        return;
    case 20:
        k = below(free_m + 1);
        if (k > 3)
            k = 3;
        adjust(g, g->m - k, g->p - below((free_p > 2 ? 2 : free_p) + 1));
        return;
    case 21:
        byte(g, one_in(3) ? 3 : 1); /* a jump to the next instruction */
        operand(g, 0);
        return;
    case 22: case 23:
        if (call_some(g))
            return;
        break;
    case 24:
        if (one_in(3) && any_vector_code(g))
            return;
        break;
    default:
        break;
    }
    if (room_m && (!room_p || !one_in(3)))
        push_word(g);
    else if (room_p)
        push_pointer(g);
    else
        adjust(g, g->floor_m, g->floor_p);
}

/* A condition on top; false if there is no room for one. */
static bool condition(maker *g)
{
    if (g->m > g->floor_m && one_in(2))
        return true;
    if (g->m >= g->cap_m)
        return false;
    push_word(g);
    return true;
}

static void block(maker *g, uint32_t level, uint32_t count);

/* Ends a branch that does not go on. */
static bool leave(maker *g)
{
    signature own = g->sig[g->self];
    switch (below(4)) {
    case 0: case 1:
        if (g->handlers > 0)
            return false;
        adjust(g, own.r, own.s);
        byte(g, 73);
        return true;
    case 2:
        if (!condition(g))
            return false;
        byte(g, 162);
        return true;
    default:
        if (!one_in(8))
            return false;
        byte(g, 3); /* for ever */
        operand(g, 3);
        return true;
    }
}

static void branch(maker *g, uint32_t level)
{
    if (!condition(g))
        return;
    size_t at = g->n;
    byte(g, 2);
    operand(g, 0);
    effect(g, 1, 0, 0, 0);
    uint32_t m = g->m, p = g->p, fm = g->floor_m, fp = g->floor_p;
    block(g, level + 1, below(4));
    /* a return goes below a loop's counter, never below a handler's floor */
    uint32_t lower_m = g->handlers > 0 ? fm : 0, lower_p = g->handlers > 0 ? fp : 0;
    g->floor_m = lower_m;
    g->floor_p = lower_p;
    bool left = leave(g);
    g->floor_m = fm;
    g->floor_p = fp;
    if (left) {
        patch(g, at + 1, g->n - at - 3);
        g->m = m;
        g->p = p;
        return;
    }
    adjust(g, m, p);
    size_t over = g->n;
    byte(g, 1);
    operand(g, 0);
    patch(g, at + 1, g->n - at - 3);
    block(g, level + 1, below(4));
    adjust(g, m, p);
    patch(g, over + 1, g->n - over - 3);
}

static void keep(maker *g, uint32_t level)
{
    if (!condition(g))
        return;
    uint32_t m = g->m, p = g->p;
    size_t at = g->n;
    byte(g, 5 + below(2));
    operand(g, 0);
    effect(g, 1, 0, 0, 0);
    block(g, level + 1, below(4));
    if (g->m >= m && g->p >= p && g->n == at + 3)
        abort();
    adjust(g, m, p);
    patch(g, at + 1, g->n - at - 3);
}

static void loop(maker *g, uint32_t level)
{
    if (g->m + 4 > g->cap_m)
        return;
    byte(g, 54);
    byte(g, 1 + below(one_in(4) ? 30 : 4));
    effect(g, 0, 0, 1, 0);
    uint32_t slot = g->m - 1, m = g->m, p = g->p, fm = g->floor_m, fp = g->floor_p;
    size_t again = g->n;
    g->floor_m = m;
    block(g, level + 1, 1 + below(5));
    adjust(g, m, p);
    byte(g, 20);
    operand(g, slot);
    effect(g, 0, 0, 1, 0);
    byte(g, 54);
    byte(g, 1);
    effect(g, 0, 0, 1, 0);
    byte(g, 142);
    effect(g, 2, 0, 1, 0);
    byte(g, 22);
    operand(g, slot);
    effect(g, 1, 0, 0, 0);
    byte(g, 20);
    operand(g, slot);
    effect(g, 0, 0, 1, 0);
    size_t at = g->n;
    byte(g, 4);
    operand(g, (uint32_t)(at + 3 - again));
    effect(g, 1, 0, 0, 0);
    g->floor_m = fm;
    g->floor_p = fp;
}

static void handler(maker *g, uint32_t level)
{
    if (g->m + 2 > g->cap_m)
        return;
    uint32_t m = g->m, p = g->p, fm = g->floor_m, fp = g->floor_p, check_m = g->check_m;
    size_t at = g->n, out = 0;
    byte(g, 160);
    operand(g, 0);
    g->floor_m = g->check_m = m;
    g->floor_p = p;
    g->handlers++;
    block(g, level + 1, 1 + below(5));
    if (one_in(4) && condition(g)) {
        /* closes the handler in a branch and leaves it */
        uint32_t bm = g->m - 1, bp = g->p;
        size_t skip = g->n;
        byte(g, 2);
        operand(g, 0);
        effect(g, 1, 0, 0, 0);
        byte(g, 161);
        adjust(g, m, p);
        out = g->n;
        byte(g, 1);
        operand(g, 0);
        patch(g, skip + 1, g->n - skip - 3);
        g->m = bm;
        g->p = bp;
        block(g, level + 1, below(3));
    }
    if (one_in(8) && condition(g)) {
        byte(g, 162); /* always raises */
        g->handlers--;
        g->check_m = check_m;
        g->floor_m = fm;
        g->floor_p = fp;
        patch(g, at + 1, g->n - g->head);
        g->m = m;
        g->p = p;
        effect(g, 0, 0, 1, 0);
        block(g, level + 1, below(3));
        adjust(g, m, p);
    } else {
        byte(g, 161);
        g->handlers--;
        g->check_m = check_m;
        g->floor_m = fm;
        g->floor_p = fp;
        adjust(g, m, p);
        if (one_in(3)) {
            push_word(g); /* falls into the handler's code */
            patch(g, at + 1, g->n - g->head);
            block(g, level + 1, below(3));
            adjust(g, m, p);
        } else {
            size_t over = g->n;
            byte(g, 1);
            operand(g, 0);
            patch(g, at + 1, g->n - g->head);
            g->m = m;
            g->p = p;
            effect(g, 0, 0, 1, 0);
            block(g, level + 1, below(4));
            adjust(g, m, p);
            patch(g, over + 1, g->n - over - 3);
        }
    }
    if (out != 0)
        patch(g, out + 1, g->n - out - 3);
}

static void block(maker *g, uint32_t level, uint32_t count)
{
    for (uint32_t i = 0; i < count; i++) {
        if (g->n + 60 > g->limit)
            return;
        uint32_t k = level >= 4 || g->n + 120 > g->limit ? 99 : below(24);
        if (k < 2)
            branch(g, level);
        else if (k < 3)
            keep(g, level);
        else if (k < 4)
            loop(g, level);
        else if (k < 7)
            handler(g, level);
        else
            simple(g);
    }
}

static void procedure(maker *g, uint32_t self, size_t share, size_t exact)
{
    const signature *own = &g->sig[self];
    g->self = self;
    g->head = g->n;
    g->limit = g->n + share;
    g->m = g->max_m = own->a;
    g->p = g->max_p = own->b;
    g->floor_m = g->floor_p = g->check_m = g->handlers = 0;
    byte(g, 240);
    byte(g, own->a);
    byte(g, own->b);
    byte(g, own->r);
    byte(g, own->s);
    byte(g, 0);
    byte(g, 0);
    if (share > 60) {
        uint32_t count = share > 1000 ? 400 : 1 + below((uint32_t)share / 6);
        block(g, 0, count);
    }
    while (exact >= g->n + 40) { /* what is short of a length wanted exactly */
        byte(g, 1);
        operand(g, 0);
    }
    if (exact == 0 && one_in(12)) {
        adjust(g, own->a, own->b);
        size_t at = g->n;
        byte(g, 3);
        operand(g, (uint32_t)(at + 3 - (g->head + 7)));
    } else if (exact == 0 && one_in(12) && condition(g)) {
        byte(g, 162);
    } else {
        adjust(g, own->r, own->s);
        if (exact > g->n + 8) {
            while ((exact - g->n - 1) % 3 != 0) {
                byte(g, 64);
                operand(g, 0);
                operand(g, 0);
            }
            while (exact > g->n + 1) {
                byte(g, 1);
                operand(g, 0);
            }
        }
        byte(g, 73);
    }
    uint32_t x = g->max_m > own->r ? g->max_m : own->r, y = g->max_p > own->s ? g->max_p : own->s;
    if (one_in(4))
        x += below(4);
    if (one_in(4))
        y += below(4);
    if (g->spoilt_x != 0 && g->spoilt > g->head)
        x = g->spoilt_x;
    g->spoilt_x = 0;
    g->f[g->head + 5] = (uint8_t)(x > 255 ? 255 : x);
    g->f[g->head + 6] = (uint8_t)(y > 255 ? 255 : y);
}

/* exact: the length wanted, or 0 */
static void make_file(maker *g, uint32_t procs, size_t total, size_t exact)
{
    g->n = g->spoilt = g->spoilt_x = 0;
    g->procs = procs;
    g->cap_m = one_in(10) ? 240 : 4 + below(30);
    g->cap_p = one_in(10) ? 240 : 2 + below(20);
    for (uint32_t q = 0; q < procs; q++) {
        signature *c = &g->sig[q];
        c->a = (uint8_t)(q == 0 ? 0 : below(4));
        c->b = (uint8_t)(q == 0 ? 0 : below(3));
        c->r = (uint8_t)below(4);
        c->s = (uint8_t)below(3);
        if (one_in(4)) /* several that a call can take for each other */
            c->a = c->b = c->r = c->s = 0;
    }
    size_t share = total / procs;
    for (uint32_t q = 0; q < procs; q++) {
        bool last = q + 1 == procs;
        procedure(g, q, one_in(2) ? share : 8 + below((uint32_t)share), last ? exact : 0);
    }
}

/* ---- lists, on both sides ---- */

enum { L_FILE, L_MAP, L_MAIN, L_PTR, L_CTL, L_HEAP, L_REGS, LISTS };
static const char *const list_name[LISTS] = {
    "file", "map", "main", "ptr", "ctl", "heap", "registers"
};
static const size_t width[LISTS] = { 1, 2, 4, 4, 4, 4, 1 };
enum { GUARD = 64 };

/* The register list: nine words, of which two are the file's sums. */
enum { REG_BYTES = 36, SUM = 7, SUM_OF_SUMS = 8 };
_Static_assert((int)REG_BYTES == (int)YALGOVIM_REGISTERS, "the header has another length");

typedef struct {
    size_t len;
    uint8_t *ref;  /* exactly its length, so that a sanitizer sees its ends */
    uint8_t *room; /* the library's, between two guards */
    uint8_t *lib;
} list;

static list lists[LISTS];

static void *take(size_t bytes)
{
    void *p = malloc(bytes == 0 ? 1 : bytes);
    if (p == NULL)
        abort();
    return p;
}

static void lend(int which, size_t len)
{
    list *l = &lists[which];
    size_t bytes = len * width[which];
    free(l->ref);
    free(l->room);
    l->len = len;
    l->ref = take(bytes);
    l->room = take(bytes + 2 * GUARD);
    memset(l->room, 0xa5, bytes + 2 * GUARD);
    l->lib = l->room + GUARD;
}

static void set_bytes(int which, const void *from)
{
    list *l = &lists[which];
    if (l->len == 0)
        return;
    memcpy(l->ref, from, l->len * width[which]);
    memcpy(l->lib, from, l->len * width[which]);
}

static uint32_t word(int which, size_t i)
{
    return ((const uint32_t *)(const void *)lists[which].ref)[i];
}

static void set_word(int which, size_t i, uint32_t w)
{
    ((uint32_t *)(void *)lists[which].ref)[i] = w;
    ((uint32_t *)(void *)lists[which].lib)[i] = w;
}

static uint32_t reg(size_t i)
{
    const uint8_t *b = lists[L_REGS].ref + 4 * i;
    return (uint32_t)b[0] << 24 | (uint32_t)b[1] << 16 | (uint32_t)b[2] << 8 | b[3];
}

static void set_reg(size_t i, uint32_t w)
{
    for (size_t k = 0; k < 4; k++)
        lists[L_REGS].ref[4 * i + k] = lists[L_REGS].lib[4 * i + k] = (uint8_t)(w >> (24 - 8 * k));
}

static bool has_registers(void)
{
    return lists[L_REGS].len == REG_BYTES;
}

typedef struct {
    uint32_t first, second;
} sums;

/* Byte i is in the sum after it and in all behind that one: it weighs n - i in the second. */
static sums sums_of(const uint8_t *f, size_t n)
{
    uint64_t sum = 0, weighed = 0;
    for (size_t i = 0; i < n; i++) {
        sum += f[i];
        weighed += (uint64_t)(n - i) * f[i];
    }
    return (sums){ (uint32_t)sum, (uint32_t)weighed };
}

/* The state becomes one of the lent file, as far as the sums tell. */
static void sign(void)
{
    sums s = sums_of(lists[L_FILE].ref, lists[L_FILE].len);
    if (!has_registers())
        return;
    set_reg(SUM, s.first);
    set_reg(SUM_OF_SUMS, s.second);
}

static void fill_junk(int which)
{
    for (size_t i = 0; i < lists[which].len * width[which]; i++)
        lists[which].ref[i] = lists[which].lib[i] = (uint8_t)draw();
}

/* Another length, the contents kept as far as they go, zeros behind. */
static void relend(int which, size_t len)
{
    list *l = &lists[which];
    size_t bytes = len * width[which], old = l->len * width[which];
    uint8_t *kept = take(bytes);
    memset(kept, 0, bytes == 0 ? 1 : bytes);
    memcpy(kept, l->ref, old < bytes ? old : bytes);
    lend(which, len);
    set_bytes(which, kept);
    free(kept);
}

typedef struct {
    size_t len[LISTS];
    uint8_t *held[LISTS];
} snapshot;

static snapshot snap_take(void)
{
    snapshot s;
    for (int i = 0; i < LISTS; i++) {
        size_t bytes = lists[i].len * width[i];
        s.len[i] = lists[i].len;
        s.held[i] = take(bytes);
        memcpy(s.held[i], lists[i].ref, bytes);
    }
    return s;
}

static void snap_restore(const snapshot *s)
{
    for (int i = 0; i < LISTS; i++) {
        if (lists[i].len != s->len[i])
            lend(i, s->len[i]);
        set_bytes(i, s->held[i]);
    }
}

static void snap_free(snapshot *s)
{
    for (int i = 0; i < LISTS; i++)
        free(s->held[i]);
}

/* ---- calls and comparison ---- */

enum { CHECK, START, RUN };
static const char *const call_name[] = { "check", "start", "run" };

static uint64_t seed, case_no, calls, steps_total;
enum { SORTS = 8, DAMAGES = 17 };
static uint64_t answers[3][6], refusals[3][14], raised[8], stepped[256], made[SORTS];
static uint64_t damages[DAMAGES];
static uint64_t edges[5]; /* see table() */
static const char *file_sort;

static void dump_list(const char *name, const list *l, int which)
{
    printf("%s, %zu:", name, l->len);
    for (size_t i = 0; i < l->len; i++) {
        uint32_t a = 0, b = 0;
        memcpy(&a, l->ref + i * width[which], width[which]);
        memcpy(&b, l->lib + i * width[which], width[which]);
        if (a == b)
            printf(" %" PRIu32, a);
        else
            printf(" [%zu: reference %" PRIu32 " library %" PRIu32 "]", i, a, b);
    }
    printf("\n");
}

static void dump(int call, uint32_t budget, yalgovim_reply lib, ref_reply ref,
                 const snapshot *before, const char *what)
{
    printf("\nDIFFERENCE: seed %" PRIu64 " case %" PRIu64 " (%s), call %s, budget %" PRIu32 ": %s\n",
           seed, case_no, file_sort, call_name[call], budget, what);
    printf("library:   kind %" PRIu32 " number %" PRIu32 " place %zu steps %" PRIu32 "\n",
           lib.kind, lib.number, lib.place, lib.steps);
    printf("reference: kind %" PRIu32 " number %" PRIu32 " place %" PRIu32 " steps %" PRIu32 "\n",
           ref.kind, ref.number, ref.place, ref.steps);
    printf("-- before\n");
    for (int i = 0; i < LISTS; i++) {
        list l = { before->len[i], before->held[i], NULL, before->held[i] };
        dump_list(list_name[i], &l, i);
    }
    printf("-- after\n");
    for (int i = 0; i < LISTS; i++)
        dump_list(list_name[i], &lists[i], i);
    exit(1);
}

static bool guards_whole(const list *l, int which)
{
    for (size_t i = 0; i < GUARD; i++)
        if (l->room[i] != 0xa5 || l->lib[l->len * width[which] + i] != 0xa5)
            return false;
    return true;
}

/* ---- heaps refused as 11: the word named, and what else is wrong ---- */

typedef struct {
    const char *name;
    uint64_t count;
} counter;

enum {
    AT_MARK, AT_HEADER, AT_SIZE, AT_ROOT, AT_POINTER, AT_FREE,
    MARK_LOW, MARK_NEXT, MARK_HIGH, KIND_UNKNOWN, SIZE_MISSING, SIZE_LOW, SIZE_HIGH,
    LONG_HEAP, LAST_WORD, LAST_OF_ALL,
    MARK_ROOT, HEADER_SIZE, WALK_WALK, WALK_ROOT, WALK_POINTER, WALK_FREE,
    ROOT_POINTER, ROOT_FREE, POINTER_POINTER, POINTER_FREE, FREE_FREE,
    PLAIN_POINTERS, PLAIN_BOTH, PLAIN_TWO, POINTERS_SHORT, POINTERS_LONG, BAD_ELEMENT,
    HEAP_COUNTERS
};

/* The word that the reference names; the fault there; pairs of faults in one heap. */
static counter heap_met[HEAP_COUNTERS] = {
    [AT_MARK] = { "word 0", 0 },
    [AT_HEADER] = { "a header", 0 },
    [AT_SIZE] = { "a size word", 0 },
    [AT_ROOT] = { "the root", 0 },
    [AT_POINTER] = { "another pointer word", 0 },
    [AT_FREE] = { "a free word", 0 },
    [MARK_LOW] = { "mark below 2", 0 },
    [MARK_NEXT] = { "mark of length + 1", 0 },
    [MARK_HIGH] = { "mark above that", 0 },
    [KIND_UNKNOWN] = { "unknown kind", 0 },
    [SIZE_MISSING] = { "header at mark - 1", 0 },
    [SIZE_LOW] = { "size below 2 plus pointers", 0 },
    [SIZE_HIGH] = { "size past the mark", 0 },
    [LONG_HEAP] = { "heap above 2,048", 0 },
    [LAST_WORD] = { "the heap's last word", 0 },
    [LAST_OF_ALL] = { "word 16,383", 0 },
    [MARK_ROOT] = { "mark and root", 0 },
    [HEADER_SIZE] = { "header and its size word", 0 },
    [WALK_WALK] = { "two objects", 0 },
    [WALK_ROOT] = { "walk and root", 0 },
    [WALK_POINTER] = { "walk and pointer before it", 0 },
    [WALK_FREE] = { "walk and free word", 0 },
    [ROOT_POINTER] = { "root and pointer", 0 },
    [ROOT_FREE] = { "root and free word", 0 },
    [POINTER_POINTER] = { "two pointers", 0 },
    [POINTER_FREE] = { "pointer and free word", 0 },
    [FREE_FREE] = { "two free words", 0 },
    [PLAIN_POINTERS] = { "plain vector with pointer words", 0 },
    [PLAIN_BOTH] = { "the same with a bad size", 0 },
    [PLAIN_TWO] = { "plain vector of size 2", 0 },
    [POINTERS_SHORT] = { "pointer vector a word short", 0 },
    [POINTERS_LONG] = { "pointer vector a word long", 0 },
    [BAD_ELEMENT] = { "element that is no pointer", 0 }
};

/* The objects from word 2 on, as far as they are in order. */
static struct {
    size_t at[8192], count;
    size_t stop; /* the mark, or the first object that is not in order */
    uint8_t begins[16384];
} walked;

/* The words at fault besides those of the walk: how many, and the lowest. */
typedef struct {
    bool root;
    size_t pointers, pointer, frees, free_word;
    bool in_vector; /* the lowest pointer */
} bad_words;

static uint32_t pointers_of(size_t at)
{
    return word(L_HEAP, at) & 0xffffffu;
}

static bool size_fits(size_t at, size_t mark)
{
    return at + 1 < mark && word(L_HEAP, at + 1) >= 2 + pointers_of(at)
        && word(L_HEAP, at + 1) <= mark - at;
}

/* A known kind; a plain vector has no pointer words. */
static bool header_right(size_t at)
{
    uint32_t kind = word(L_HEAP, at) >> 24;
    return kind == 1 || kind == 3 || word(L_HEAP, at) == 2u << 24;
}

static bool in_order(size_t at, size_t mark)
{
    if (!header_right(at) || !size_fits(at, mark))
        return false;
    switch (word(L_HEAP, at) >> 24) {
    case PLAIN: return word(L_HEAP, at + 1) != 2;
    case POINTERS: return word(L_HEAP, at + 1) - pointers_of(at) == 3;
    default: return true;
    }
}

static void walk_heap(void)
{
    size_t n = lists[L_HEAP].len, mark = n == 0 ? 0 : word(L_HEAP, 0);
    memset(walked.begins, 0, sizeof walked.begins);
    walked.count = 0;
    walked.stop = 2;
    if (n > 16384 || mark > n)
        return;
    while (walked.stop < mark && in_order(walked.stop, mark)) {
        walked.at[walked.count++] = walked.stop;
        walked.begins[walked.stop] = 1;
        walked.stop += word(L_HEAP, walked.stop + 1);
    }
}

/* No pointer, whatever lies from the walk's end to the mark. */
static bool no_pointer(uint32_t w, size_t mark)
{
    return w != 0 && (w >= mark || (w < walked.stop && walked.begins[w] == 0));
}

static bad_words find_bad_words(size_t mark)
{
    bad_words bad = { no_pointer(word(L_HEAP, 1), mark), 0, 0, 0, 0, false };
    for (size_t k = 0; k < walked.count; k++) {
        size_t first = walked.at[k] + 2;
        for (size_t i = first; i < first + pointers_of(walked.at[k]); i++)
            if (no_pointer(word(L_HEAP, i), mark) && bad.pointers++ == 0) {
                bad.pointer = i;
                bad.in_vector = word(L_HEAP, walked.at[k]) >> 24 == POINTERS;
            }
    }
    for (size_t i = mark; i < lists[L_HEAP].len; i++)
        if (word(L_HEAP, i) != 0 && bad.frees++ == 0)
            bad.free_word = i;
    return bad;
}

static void meet(int what, bool met)
{
    heap_met[what].count += met;
}

/* Counts what the place is; the heap has this fault there. */
static void meet_place(int what, size_t expected, size_t place)
{
    meet(what, true);
    if (place == expected)
        return;
    printf("\n11 names word %zu; %s, word %zu, comes first: seed %" PRIu64 " case %" PRIu64 "\n",
           place, heap_met[what].name, expected, seed, case_no);
    exit(1);
}

/* The mark is out of range. */
static void meet_mark(size_t n, uint32_t mark, size_t place)
{
    uint32_t root = word(L_HEAP, 1);
    meet(MARK_LOW, mark < 2);
    meet(MARK_NEXT, mark == n + 1);
    meet(MARK_HIGH, mark > n + 1);
    meet(MARK_ROOT, root == 1 || root >= n);
    meet_place(AT_MARK, 0, place);
}

/* The walk ends at a vector: what is wrong for its kind. */
static void meet_vector_walk(size_t at, size_t mark)
{
    uint32_t kind = word(L_HEAP, at) >> 24, more = 0;
    bool fits = size_fits(at, mark);
    if (fits)
        more = word(L_HEAP, at + 1) - 2 - pointers_of(at);
    meet(PLAIN_POINTERS, kind == PLAIN && pointers_of(at) > 0 && fits);
    meet(PLAIN_BOTH, kind == PLAIN && pointers_of(at) > 0 && !fits && at + 1 < mark);
    meet(PLAIN_TWO, kind == PLAIN && pointers_of(at) == 0 && fits && more == 0);
    meet(POINTERS_SHORT, kind == POINTERS && fits && more == 0);
    meet(POINTERS_LONG, kind == POINTERS && fits && more == 2);
}

/* The walk ends below the mark. */
static void meet_walk(size_t mark, bad_words bad, size_t place)
{
    size_t at = walked.stop, next = at;
    bool kind = !header_right(at), missing = at + 1 >= mark;
    bool low = !missing && word(L_HEAP, at + 1) < 2 + pointers_of(at);
    bool high = !missing && word(L_HEAP, at + 1) > mark - at;
    while (next < mark && size_fits(next, mark) && (next == at || in_order(next, mark)))
        next += word(L_HEAP, next + 1);
    meet_vector_walk(at, mark);
    meet(KIND_UNKNOWN, kind && word(L_HEAP, at) >> 24 != PLAIN);
    meet(SIZE_MISSING, missing);
    meet(SIZE_LOW, !kind && low);
    meet(SIZE_HIGH, !kind && high);
    meet(HEADER_SIZE, kind && (low || high));
    meet(WALK_WALK, next > at && next < mark);
    meet(WALK_ROOT, bad.root);
    meet(WALK_POINTER, bad.pointers > 0);
    meet(WALK_FREE, bad.frees > 0);
    if (kind || missing)
        meet_place(AT_HEADER, at, place);
    else
        meet_place(AT_SIZE, at + 1, place);
}

/* The walk is clean. */
static void meet_words(bad_words bad, size_t place)
{
    meet(ROOT_POINTER, bad.root && bad.pointers > 0);
    meet(ROOT_FREE, bad.root && bad.frees > 0);
    meet(POINTER_POINTER, !bad.root && bad.pointers > 1);
    meet(POINTER_FREE, !bad.root && bad.pointers > 0 && bad.frees > 0);
    meet(FREE_FREE, !bad.root && bad.pointers == 0 && bad.frees > 1);
    meet(BAD_ELEMENT, !bad.root && bad.pointers > 0 && bad.in_vector);
    if (bad.root)
        meet_place(AT_ROOT, 1, place);
    else if (bad.pointers > 0)
        meet_place(AT_POINTER, bad.pointer, place);
    else
        meet_place(AT_FREE, bad.free_word, place);
}

/* Counts a heap that was refused as 11, this word being named. */
static void meet_heap(size_t place)
{
    size_t n = lists[L_HEAP].len;
    uint32_t mark = word(L_HEAP, 0);
    meet(LONG_HEAP, n > 2048);
    meet(LAST_WORD, place == n - 1);
    meet(LAST_OF_ALL, place == 16383);
    walk_heap();
    if (mark < 2 || mark > n)
        meet_mark(n, mark, place);
    else if (walked.stop < mark)
        meet_walk(mark, find_bad_words(mark), place);
    else
        meet_words(find_bad_words(mark), place);
}

/* ---- vectors: an instruction's outcome, looked at once more ---- */

static snapshot before_call; /* for the dump, and the state before a single step */
static bool have_before;

enum {
    INDEX_LOW, INDEX_PAST, LENGTH_NEGATIVE, OTHER_KIND,
    INDEX_WRAPS, NEGATIVE_FULL, VECTOR_NIL, LENGTH_HUGE, WORD_SHORT,
    FIT_EXACT, LENGTH_ZERO, BOUND_PASSES, INDEX_FIRST, INDEX_LAST, VALUE_NIL,
    PLAIN_BOUND, POINTERS_BOUND, PLAIN_SET, POINTERS_SET,
    VECTOR_COUNTERS
};

static counter vector_met[VECTOR_COUNTERS] = {
    [INDEX_LOW] = { "index below the bound", 0 },
    [INDEX_PAST] = { "index past the last element", 0 },
    [LENGTH_NEGATIVE] = { "negative length", 0 },
    [OTHER_KIND] = { "object of another kind", 0 },
    [INDEX_WRAPS] = { "index that would hit in 32 bits", 0 },
    [NEGATIVE_FULL] = { "negative length, heap full (6)", 0 },
    [VECTOR_NIL] = { "nil (2)", 0 },
    [LENGTH_HUGE] = { "length of 65,536 or more (4)", 0 },
    [WORD_SHORT] = { "a word short (4)", 0 },
    [FIT_EXACT] = { "exact fit", 0 },
    [LENGTH_ZERO] = { "length 0", 0 },
    [BOUND_PASSES] = { "made with bound + length past 2^31", 0 },
    [INDEX_FIRST] = { "first element", 0 },
    [INDEX_LAST] = { "last element", 0 },
    [VALUE_NIL] = { "nil value", 0 },
    [PLAIN_BOUND] = { "32 on a plain vector's bound (3)", 0 },
    [POINTERS_BOUND] = { "32 on a pointer vector's bound (3)", 0 },
    [PLAIN_SET] = { "32 on an element", 0 },
    [POINTERS_SET] = { "33 on an element", 0 }
};

/* The state before an instruction that was done, or that raised. */
typedef struct {
    const uint32_t *main, *ptr, *heap; /* main and ptr: the words at their tops */
    size_t heap_len;
    const uint8_t *code;
} moment;

static uint32_t bytes_word(const uint8_t *b)
{
    return (uint32_t)b[0] << 24 | (uint32_t)b[1] << 16 | (uint32_t)b[2] << 8 | b[3];
}

static moment moment_of(const uint8_t *const held[LISTS], size_t heap_len)
{
    const uint8_t *regs = held[L_REGS];
    moment t = {
        (const uint32_t *)(const void *)held[L_MAIN] + bytes_word(regs + 12),
        (const uint32_t *)(const void *)held[L_PTR] + bytes_word(regs + 16),
        (const uint32_t *)(const void *)held[L_HEAP], heap_len,
        held[L_FILE] + bytes_word(regs)
    };
    return t;
}

static int64_t whole(uint32_t w)
{
    return w < 0x80000000u ? (int64_t)w : (int64_t)w - 0x100000000;
}

static void meet_vector(int what, bool met)
{
    vector_met[what].count += met;
}

/* 80, 81: the exception, 0 for none. */
static uint32_t foresee_make(const moment *t)
{
    bool plain = t->code[0] == 80;
    int64_t length = whole(t->main[plain ? -2 : -1]), bound = whole(t->main[plain ? -3 : -2]);
    int64_t free_words = (int64_t)t->heap_len - t->heap[0];
    if (length < 0) {
        meet_vector(LENGTH_NEGATIVE, true);
        meet_vector(NEGATIVE_FULL, free_words < 3);
        return 6;
    }
    meet_vector(LENGTH_HUGE, length >= 65536);
    meet_vector(WORD_SHORT, free_words == 2 + length);
    if (free_words < 3 + length)
        return 4;
    meet_vector(FIT_EXACT, free_words == 3 + length);
    meet_vector(LENGTH_ZERO, length == 0);
    meet_vector(BOUND_PASSES, bound + length > 0x80000000);
    meet_vector(VALUE_NIL, !plain && t->ptr[-1] == 0);
    return 0;
}

/* 82 to 85: the exception, 0 for none. */
static uint32_t foresee_element(const moment *t)
{
    uint32_t kind = t->code[0] % 2 == 0 ? PLAIN : POINTERS;
    const uint32_t *v = t->heap + t->ptr[-1];
    if (v == t->heap) {
        meet_vector(VECTOR_NIL, true);
        return 2;
    }
    if (v[0] >> 24 != kind) {
        meet_vector(OTHER_KIND, true);
        return 6;
    }
    int64_t index = whole(t->main[-1]), bound = whole(kind == PLAIN ? v[2] : v[v[1] - 1]);
    int64_t end = bound + (int64_t)v[1] - 3;
    meet_vector(INDEX_LOW, index < bound);
    meet_vector(INDEX_PAST, index >= end);
    if (index < bound || index >= end) {
        meet_vector(INDEX_WRAPS, (uint32_t)(index - bound) < v[1] - 3);
        return 6;
    }
    meet_vector(INDEX_FIRST, index == bound);
    meet_vector(INDEX_LAST, index == end - 1);
    meet_vector(VALUE_NIL, t->code[0] == 85 && t->ptr[-2] == 0);
    return 0;
}

/* 32, 33 on a vector: the exception, 0 for none. */
static uint32_t foresee_set(const moment *t)
{
    const uint32_t *v = t->heap + t->ptr[-1];
    uint32_t s = (uint32_t)t->code[1] << 8 | t->code[2], kind = v[0] >> 24;
    bool element = kind == PLAIN ? t->code[0] == 32 && s >= 3 && s < v[1]
        : t->code[0] == 33 && s >= 2 && s + 1 < v[1];
    meet_vector(PLAIN_BOUND, kind == PLAIN && t->code[0] == 32 && s == 2);
    meet_vector(POINTERS_BOUND, kind == POINTERS && t->code[0] == 32 && s + 1 == v[1]);
    meet_vector(kind == PLAIN ? PLAIN_SET : POINTERS_SET, element);
    return element ? 0 : 3;
}

/* Counts the instruction if it is one on a vector; the exception that came must be the one foreseen. */
static void meet_moment(const moment *t, uint32_t came)
{
    uint8_t code = t->code[0];
    uint32_t want;
    if (code == 80 || code == 81)
        want = foresee_make(t);
    else if (code >= 82 && code <= 85)
        want = foresee_element(t);
    else if ((code == 32 || code == 33) && t->ptr[-1] != 0 && t->heap[t->ptr[-1]] >> 24 != 1)
        want = foresee_set(t);
    else
        return;
    if (came == want)
        return;
    printf("\nCode %d raises %" PRIu32 ", not %" PRIu32 " (0: none): seed %" PRIu64 " case %" PRIu64
           "\n", code, came, want, seed, case_no);
    exit(1);
}

/* ---- reals: an instruction's outcome, worked out once more ---- */

enum {
    CAME_INFINITE, CAME_NAN, CAME_MINUS_ZERO, CAME_ZERO, CAME_SUBNORMAL, CAME_INEXACT,
    NAN_UNDER, NAN_ON_TOP, CAME_CAUGHT,
    RESULTS
};
static const char *const result_name[RESULTS] = {
    "infinite (1)", "NaN (1)", "-0", "0", "subnormal", "inexact", "A a NaN", "B a NaN", "1 caught"
};
static uint64_t results[4][RESULTS]; /* of 150 to 153 */

enum {
    BY_INFINITY, BY_ZERO, ZERO_BY_ZERO,
    IS_LESS, IS_EQUAL, IS_GREATER, SIGNED_ZEROS, LESS_NAN_LEFT, LESS_NAN_RIGHT, WITH_INFINITY,
    FUSED_ACROSS, FUSED_ALONG, FUSED_FINITE, BAD_ACROSS, BAD_ALONG, BAD_BOTH, BAD_PRODUCT,
    POINT_CAUGHT, POINT_MINUS_ZERO, POINT_SUBNORMAL,
    PUSHED_NAN, PUSHED_SIGNALLING, PUSHED_INFINITY, PUSHED_MINUS_ZERO, PUSHED_HEAD, PUSHED_CODES,
    REAL_COUNTERS
};

static counter real_met[REAL_COUNTERS] = {
    [BY_INFINITY] = { "by an infinity, done", 0 },
    [BY_ZERO] = { "by 0 (1)", 0 },
    [ZERO_BY_ZERO] = { "0 by 0 (1)", 0 },
    [IS_LESS] = { "less", 0 },
    [IS_EQUAL] = { "equal", 0 },
    [IS_GREATER] = { "greater", 0 },
    [SIGNED_ZEROS] = { "-0 and 0", 0 },
    [LESS_NAN_LEFT] = { "A a NaN", 0 },
    [LESS_NAN_RIGHT] = { "B a NaN", 0 },
    [WITH_INFINITY] = { "an infinity", 0 },
    [FUSED_ACROSS] = { "fused would differ, across", 0 },
    [FUSED_ALONG] = { "fused would differ, along", 0 },
    [FUSED_FINITE] = { "fused would be finite (1)", 0 },
    [BAD_ACROSS] = { "across alone not finite (1)", 0 },
    [BAD_ALONG] = { "along alone not finite (1)", 0 },
    [BAD_BOTH] = { "both not finite (1)", 0 },
    [BAD_PRODUCT] = { "a product too large (1)", 0 },
    [POINT_CAUGHT] = { "1 caught", 0 },
    [POINT_MINUS_ZERO] = { "-0", 0 },
    [POINT_SUBNORMAL] = { "subnormal", 0 },
    [PUSHED_NAN] = { "a quiet NaN", 0 },
    [PUSHED_SIGNALLING] = { "a signalling NaN", 0 },
    [PUSHED_INFINITY] = { "an infinity", 0 },
    [PUSHED_MINUS_ZERO] = { "-0", 0 },
    [PUSHED_HEAD] = { "a byte of 240", 0 },
    [PUSHED_CODES] = { "all bytes codes", 0 }
};

/* An exception, or the words pushed. */
typedef struct {
    uint32_t exception, count, words[4];
} outcome;

static void meet_real(int what, bool met)
{
    real_met[what].count += met;
}

static bool is_nan(uint64_t v)
{
    return (v & ~SIGN) > INFINITE;
}

static bool is_infinite(uint64_t v)
{
    return (v & ~SIGN) == INFINITE;
}

static bool is_finite(uint64_t v)
{
    return (v & INFINITE) != INFINITE;
}

static bool is_subnormal(uint64_t v)
{
    return (v & INFINITE) == 0 && (v & ~SIGN) != 0;
}

/* Reals in order of their numbers; -0 is 0. */
static int64_t rank(uint64_t v)
{
    return v < SIGN ? (int64_t)v : -(int64_t)(v ^ SIGN);
}

/* The instruction's operand i, a real, counted from the lowest that it pops. */
static uint64_t operand_real(const moment *t, int i)
{
    const uint32_t *w = t->main - real_pops(t->code[0]) + 2 * i;
    return (uint64_t)w[0] << 32 | w[1];
}

static void give(outcome *o, uint64_t v)
{
    o->words[o->count++] = (uint32_t)(v >> 32);
    o->words[o->count++] = (uint32_t)v;
}

/* 150 to 153: the finite result is not the exact one (near the least numbers, some are missed). */
static bool inexact(uint32_t code, double a, double b, double c)
{
    double other = code == 152 ? -b : b, part = c - a;
    if (code == 151)
        return fma(a, b, -c) != 0;
    if (code == 153)
        return fma(c, b, -a) != 0;
    return a - (c - part) + (other - part) != 0;
}

static outcome foresee_result(const moment *t)
{
    outcome o = { 0, 0, { 0 } };
    uint32_t code = t->code[0];
    uint64_t v = operand_real(t, 0), w = operand_real(t, 1), *met = results[code - 150];
    double a = number_of(v), b = number_of(w);
    double c = code == 150 ? a + b : code == 151 ? a * b : code == 152 ? a - b : a / b;
    uint64_t r = bits_of(c);
    met[CAME_INFINITE] += is_infinite(r);
    met[CAME_NAN] += is_nan(r);
    met[NAN_UNDER] += is_nan(v);
    met[NAN_ON_TOP] += is_nan(w);
    meet_real(BY_ZERO, code == 153 && is_infinite(r) && rank(w) == 0);
    meet_real(ZERO_BY_ZERO, code == 153 && rank(v) == 0 && rank(w) == 0);
    if (!is_finite(r)) {
        o.exception = 1;
        return o;
    }
    met[CAME_MINUS_ZERO] += r == SIGN;
    met[CAME_ZERO] += r == 0;
    met[CAME_SUBNORMAL] += is_subnormal(r);
    met[CAME_INEXACT] += is_finite(w) && inexact(code, a, b, c);
    meet_real(BY_INFINITY, code == 153 && is_infinite(w));
    give(&o, r);
    return o;
}

static outcome foresee_less(const moment *t)
{
    outcome o = { 0, 1, { 0 } };
    uint64_t v = operand_real(t, 0), w = operand_real(t, 1);
    meet_real(LESS_NAN_LEFT, is_nan(v));
    meet_real(LESS_NAN_RIGHT, is_nan(w));
    if (is_nan(v) || is_nan(w))
        return o;
    meet_real(IS_LESS, rank(v) < rank(w));
    meet_real(IS_EQUAL, rank(v) == rank(w));
    meet_real(IS_GREATER, rank(v) > rank(w));
    meet_real(SIGNED_ZEROS, v != w && rank(v) == rank(w));
    meet_real(WITH_INFINITY, is_infinite(v) || is_infinite(w));
    o.words[0] = rank(v) < rank(w);
    return o;
}

static outcome foresee_point(const moment *t)
{
    outcome o = { 0, 0, { 0 } };
    double scale = number_of(operand_real(t, 4));
    uint64_t r[2], fused[2];
    for (int i = 0; i < 2; i++) {
        double point = number_of(operand_real(t, i)), shift = number_of(operand_real(t, 2 + i));
        double product = point * scale;
        r[i] = bits_of(product + shift);
        fused[i] = bits_of(fma(point, scale, shift));
        meet_real(FUSED_FINITE, !is_finite(r[i]) && is_finite(fused[i]));
        meet_real(BAD_PRODUCT, is_infinite(bits_of(product)) && is_finite(operand_real(t, i))
                  && is_finite(operand_real(t, 4)));
        give(&o, r[i]);
    }
    o.exception = !is_finite(r[0]) || !is_finite(r[1]);
    meet_real(BAD_ACROSS, !is_finite(r[0]) && is_finite(r[1]));
    meet_real(BAD_ALONG, is_finite(r[0]) && !is_finite(r[1]));
    meet_real(BAD_BOTH, !is_finite(r[0]) && !is_finite(r[1]));
    for (int i = 0; i < 2 && o.exception == 0; i++) {
        meet_real(FUSED_ACROSS + i, r[i] != fused[i]);
        meet_real(POINT_MINUS_ZERO, r[i] == SIGN);
        meet_real(POINT_SUBNORMAL, is_subnormal(r[i]));
    }
    return o;
}

static bool is_kind(uint8_t kind);

static outcome foresee_push(const moment *t)
{
    outcome o = { 0, 0, { 0 } };
    uint64_t v = (uint64_t)bytes_word(t->code + 1) << 32 | bytes_word(t->code + 5);
    bool head = false, codes = true;
    for (int i = 1; i <= 8; i++) {
        head = head || t->code[i] == 240;
        codes = codes && is_kind(t->code[i]);
    }
    meet_real(PUSHED_NAN, is_nan(v) && (v >> 51 & 1) == 1);
    meet_real(PUSHED_SIGNALLING, is_nan(v) && (v >> 51 & 1) == 0);
    meet_real(PUSHED_INFINITY, is_infinite(v));
    meet_real(PUSHED_MINUS_ZERO, v == SIGN);
    meet_real(PUSHED_HEAD, head);
    meet_real(PUSHED_CODES, codes);
    give(&o, v);
    return o;
}

static void real_fault(const moment *t, const char *what)
{
    printf("\nCode %d %s: seed %" PRIu64 " case %" PRIu64 "\n", t->code[0], what, seed, case_no);
    exit(1);
}

/* These lists, the map aside, are as before the call. */
static bool unchanged(int from, int to)
{
    for (int i = from; i <= to; i++)
        if (i != L_MAP && memcmp(before_call.held[i], lists[i].ref, lists[i].len * width[i]) != 0)
            return false;
    return true;
}

/* After a single step that was done: the words pushed, the others popped and zeroed, the next place. */
static void look_at_real(const moment *t, const outcome *o)
{
    const uint32_t *was = (const uint32_t *)(const void *)before_call.held[L_MAIN];
    size_t from = (size_t)(t->main - was) - real_pops(t->code[0]), to = from + o->count;
    for (size_t i = 0; i < lists[L_MAIN].len; i++) {
        uint32_t want = i < from ? was[i] : i < to ? o->words[i - from] : 0;
        if (word(L_MAIN, i) != want)
            real_fault(t, i < from || i >= to ? "leaves another word" : "pushes another word");
    }
    for (size_t i = 0; i < REG_BYTES / 4; i++) {
        uint32_t want = bytes_word(before_call.held[L_REGS] + 4 * i);
        if (i == 0)
            want += t->code[0] == 53 ? 9 : 1;
        if (reg(i) != (i == 3 ? to : want))
            real_fault(t, "leaves another register");
    }
    if (!unchanged(L_PTR, L_HEAP))
        real_fault(t, "writes elsewhere than on the main stack");
}

/* After a single step whose exception was caught: it stands on words that are as they were, and above it is nothing. */
static void look_at_caught(const moment *t)
{
    const uint32_t *was = (const uint32_t *)(const void *)before_call.held[L_MAIN];
    size_t top = reg(3) - 1;
    for (size_t i = 0; i < lists[L_MAIN].len; i++)
        if (word(L_MAIN, i) != (i < top ? was[i] : i == top ? 1 : 0))
            real_fault(t, "raises and leaves another word");
    if (!unchanged(L_HEAP, L_HEAP))
        real_fault(t, "raises and writes in the heap");
}

enum { DONE, CAUGHT, UNCAUGHT };

/* Counts the instruction if it is one on reals; it must end as foreseen. `first`: the call did no step before it. */
static void meet_real_code(const moment *t, int end, uint32_t number, bool first)
{
    uint32_t code = t->code[0];
    if (!on_reals(code))
        return;
    outcome o = code == 53 ? foresee_push(t) : code == 155 ? foresee_less(t)
        : code == 156 ? foresee_point(t) : foresee_result(t);
    if (end == DONE ? o.exception != 0 : o.exception != number || number == 0)
        real_fault(t, o.exception != 0 ? "does not raise 1" : "raises");
    if (code == 156)
        meet_real(POINT_CAUGHT, end == CAUGHT);
    else if (code >= 150 && code <= 153)
        results[code - 150][CAME_CAUGHT] += end == CAUGHT;
    if (end == DONE)
        look_at_real(t, &o);
    else if (end == CAUGHT)
        look_at_caught(t);
    else if (first && !unchanged(L_FILE, L_REGS))
        real_fault(t, "raises and writes");
}

/* The instruction that was not caught, or the one of a single step. */
static void meet_run(ref_reply r, uint32_t budget)
{
    const uint8_t *held[LISTS];
    if (r.kind == REF_UNCAUGHT) { /* the state is as before it */
        for (int i = 0; i < LISTS; i++)
            held[i] = lists[i].ref;
        moment t = moment_of(held, lists[L_HEAP].len);
        meet_moment(&t, r.number);
        meet_real_code(&t, UNCAUGHT, r.number, r.steps == 0);
    } else if (budget == 1 && r.steps == 1) {
        for (int i = 0; i < LISTS; i++)
            held[i] = before_call.held[i];
        moment t = moment_of(held, lists[L_HEAP].len);
        /* a raise closes its handler, so the control stack falls, and pushes the code */
        bool caught = reg(3) > 0 && reg(5) < bytes_word(held[L_REGS] + 20);
        uint32_t number = caught ? word(L_MAIN, reg(3) - 1) : 0;
        meet_moment(&t, number);
        meet_real_code(&t, caught ? CAUGHT : DONE, number, true);
    }
}

/* ---- refusal 13, worked out once more; and what else is wrong then ---- */

static const size_t odd_lengths[] = { 0, 27, 28, 29, 35, 37, 40 };
enum { ODD_LENGTHS = sizeof odd_lengths / sizeof *odd_lengths };

static uint64_t by_length[3][ODD_LENGTHS + 1]; /* 13 by call and length; the last: any other */
static uint64_t beside[3][13]; /* by call: 13 and this one at a time, whichever is told */

enum {
    FIRST_ALONE, SECOND_ALONE, BOTH_SUMS, EXCHANGED, WHEN_FINISHED, WITH_BUDGET_0,
    FIRST_LONG, SECOND_LONG, EQUAL_SUMS,
    STATE_COUNTERS
};

static counter state_met[STATE_COUNTERS] = {
    [FIRST_ALONE] = { "the first alone", 0 },
    [SECOND_ALONE] = { "the second alone", 0 },
    [BOTH_SUMS] = { "both", 0 },
    [EXCHANGED] = { "both, exchanged", 0 },
    [WHEN_FINISHED] = { "finished", 0 },
    [WITH_BUDGET_0] = { "budget 0", 0 },
    [FIRST_LONG] = { "first sum above 65,535", 0 },
    [SECOND_LONG] = { "second sum above 16,777,215", 0 },
    [EQUAL_SUMS] = { "unequal files with equal sums", 0 }
};

static void meet_state(int what, bool met)
{
    state_met[what].count += met;
}

static void state_fault(const char *what)
{
    printf("\n%s: seed %" PRIu64 " case %" PRIu64 "\n", what, seed, case_no);
    exit(1);
}

/* The registers of a list of 36 bytes hold these sums. */
static bool hold(const uint8_t *regs, sums s)
{
    return bytes_word(regs + 4 * SUM) == s.first && bytes_word(regs + 4 * SUM_OF_SUMS) == s.second;
}

/* Counts why the registers of the call made last are not the file's. */
static void meet_reason(int call, sums s)
{
    const uint8_t *regs = before_call.held[L_REGS];
    if (before_call.len[L_REGS] != REG_BYTES) {
        int k = 0;
        while (k < ODD_LENGTHS && odd_lengths[k] != before_call.len[L_REGS])
            k++;
        by_length[call][k]++;
        return;
    }
    bool first = bytes_word(regs + 4 * SUM) != s.first;
    bool second = bytes_word(regs + 4 * SUM_OF_SUMS) != s.second;
    meet_state(FIRST_ALONE, first && !second);
    meet_state(SECOND_ALONE, second && !first);
    meet_state(BOTH_SUMS, first && second);
    meet_state(EXCHANGED, first && hold(regs, (sums){ s.second, s.first }));
}

/* No refusal writes elsewhere than in the map. */
static void look_at_lists(void)
{
    if (!unchanged(L_FILE, L_REGS))
        state_fault("a refusal writes more than the map");
}

/* 13 comes with place 0 and leaves the map that check makes of the file, which passes. */
static void look_at_map(ref_reply r)
{
    size_t bytes = before_call.len[L_MAP] * width[L_MAP];
    uint16_t *map = take(bytes);
    memcpy(map, before_call.held[L_MAP], bytes);
    ref_reply checked = ref_check(lists[L_FILE].ref, lists[L_FILE].len, map, lists[L_MAP].len);
    if (checked.kind != REF_PASSED || memcmp(map, lists[L_MAP].ref, bytes) != 0)
        state_fault("13 for a file that does not pass, or with another map");
    free(map);
    if (r.place != 0 || r.steps != 0)
        state_fault("13 with a place or steps");
}

/* Of start and run: 13 exactly if 1 to 9 are not told and the registers are not the file's. */
static void meet_registers(int call, ref_reply r)
{
    sums s = sums_of(before_call.held[L_FILE], before_call.len[L_FILE]);
    bool refused = r.kind == REF_REFUSED, told = refused && r.number == 13;
    bool due = before_call.len[L_REGS] != REG_BYTES
        || (call == RUN && !hold(before_call.held[L_REGS], s));
    if (refused && r.number <= 9) {
        beside[call][r.number] += due;
        return;
    }
    if (told != due)
        state_fault(due ? "13 is due" : "13 is told without a reason");
    if (call == START && refused && r.number == 12)
        state_fault("12 is told by start");
    if (told) {
        meet_reason(call, s);
        look_at_map(r);
    } else if (!refused) {
        if (!hold(lists[L_REGS].ref, s))
            state_fault("the sums are not the file's after the call");
        meet_state(FIRST_LONG, s.first > 65535);
        meet_state(SECOND_LONG, s.second > 16777215);
    }
}

static ref_reply both(int call, uint32_t budget);
static ref_reply behind; /* the answer that the last 13 hid */

/* After 13: the call once more with registers of this file. What lay behind the 13 shows. */
static void look_behind(int call, uint32_t budget)
{
    snapshot s = snap_take();
    bool by_sum = has_registers();
    relend(L_REGS, REG_BYTES);
    sign();
    behind = both(call, budget);
    if (behind.kind == REF_REFUSED && behind.number <= 12)
        beside[call][behind.number]++;
    else if (by_sum && behind.kind == REF_FINISHED && behind.steps == 0)
        meet_state(WHEN_FINISHED, true);
    else if (by_sum && budget == 0)
        meet_state(WITH_BUDGET_0, true);
    snap_restore(&s);
    snap_free(&s);
}

/* ---- the calls ---- */

static yalgovim_reply call_library(int call, uint32_t budget)
{
    list *l = lists;
    uint16_t *map = (void *)l[L_MAP].lib;
    uint32_t *w[4];
    size_t n[4];
    for (int i = 0; i < 4; i++) {
        w[i] = (void *)l[L_MAIN + i].lib;
        n[i] = l[L_MAIN + i].len;
    }
    if (call == CHECK)
        return yalgovim_check(l[L_FILE].lib, l[L_FILE].len, map, l[L_MAP].len);
    if (call == START)
        return yalgovim_start(l[L_FILE].lib, l[L_FILE].len, map, l[L_MAP].len, w[0], n[0],
                              w[1], n[1], w[2], n[2], w[3], n[3], l[L_REGS].lib, l[L_REGS].len);
    return yalgovim_run(l[L_FILE].lib, l[L_FILE].len, map, l[L_MAP].len, w[0], n[0], w[1], n[1],
                        w[2], n[2], w[3], n[3], l[L_REGS].lib, l[L_REGS].len, budget);
}

static ref_reply call_reference(int call, uint32_t budget)
{
    list *l = lists;
    uint16_t *map = (void *)l[L_MAP].ref;
    uint32_t *w[4];
    size_t n[4];
    for (int i = 0; i < 4; i++) {
        w[i] = (void *)l[L_MAIN + i].ref;
        n[i] = l[L_MAIN + i].len;
    }
    if (call == CHECK)
        return ref_check(l[L_FILE].ref, l[L_FILE].len, map, l[L_MAP].len);
    if (call == START)
        return ref_start(l[L_FILE].ref, l[L_FILE].len, map, l[L_MAP].len, w[0], n[0],
                         w[1], n[1], w[2], n[2], w[3], n[3], l[L_REGS].ref, l[L_REGS].len);
    return ref_run(l[L_FILE].ref, l[L_FILE].len, map, l[L_MAP].len, w[0], n[0], w[1], n[1],
                   w[2], n[2], w[3], n[3], l[L_REGS].ref, l[L_REGS].len, budget);
}

static void count_answer(int call, uint32_t budget, ref_reply ref)
{
    answers[call][ref.kind > 5 ? 5 : ref.kind]++;
    if (ref.kind == REF_REFUSED)
        refusals[call][ref.number > 13 ? 0 : ref.number]++;
    if (ref.kind == REF_REFUSED)
        look_at_lists();
    if (ref.kind == REF_REFUSED && ref.number == 11)
        meet_heap(ref.place);
    if (ref.kind == REF_UNCAUGHT)
        raised[ref.number >= 1 && ref.number <= 6 ? ref.number : 7]++;
    if (call == RUN)
        meet_run(ref, budget);
    if (call != CHECK)
        meet_registers(call, ref);
    steps_total += ref.steps;
}

static ref_reply both(int call, uint32_t budget)
{
    list *l = lists;
    if (have_before)
        snap_free(&before_call);
    before_call = snap_take();
    have_before = true;
    uint32_t code = 0;
    if (call == RUN && budget == 1 && has_registers() && reg(0) < l[L_FILE].len)
        code = l[L_FILE].ref[reg(0)];
    yalgovim_reply lib = call_library(call, budget);
    ref_reply ref = call_reference(call, budget);
    calls++;
    if (lib.kind != ref.kind || lib.number != ref.number || lib.place != ref.place
        || lib.steps != ref.steps)
        dump(call, budget, lib, ref, &before_call, "answers");
    for (int i = 0; i < LISTS; i++) {
        if (l[i].len > 0 && memcmp(l[i].lib, l[i].ref, l[i].len * width[i]) != 0)
            dump(call, budget, lib, ref, &before_call, list_name[i]);
        if (!guards_whole(&l[i], i))
            dump(call, budget, lib, ref, &before_call, "written outside a list");
    }
    count_answer(call, budget, ref);
    if (ref.steps == 1)
        stepped[code]++;
    if (ref.kind == REF_REFUSED && ref.number == 13)
        look_behind(call, budget);
    return ref;
}

/* ---- cases ---- */

static maker g;

static void lend_file(const uint8_t *f, size_t n)
{
    lend(L_FILE, n);
    set_bytes(L_FILE, f);
}

static const uint8_t kinds[] = {
    1, 2, 3, 4, 5, 6, 20, 21, 22, 23, 30, 31, 32, 33, 36, 53, 54, 56, 57, 58, 59, 60, 62, 64,
    72, 73, 80, 81, 82, 83, 84, 85, 130, 131, 195, 198, 201, 204, 140, 141, 142, 143, 145, 144,
    146, 150, 151, 152, 153, 155, 156, 160, 161, 162, 240
};

static uint8_t known_kind(void)
{
    return kinds[below(sizeof kinds)];
}

static bool is_kind(uint8_t kind)
{
    return memchr(kinds, kind, sizeof kinds) != NULL;
}

static uint32_t body_of(uint8_t kind)
{
    if (kind == 240)
        return 6;
    if (kind == 53)
        return 8;
    if (kind == 36 || kind == 56 || kind == 60 || kind == 62 || kind == 64)
        return 4;
    if (kind <= 33 || kind == 72 || kind == 160)
        return 2;
    return kind == 54;
}

/* Another target for one of the jumps, an instruction's start more often than not. */
static void retarget(void)
{
    static size_t at[ROOM];
    size_t count = 0;
    for (size_t i = 0; i < g.n; i += 1 + body_of(g.f[i]))
        at[count++] = i;
    for (int tries = 0; tries < 50; tries++) {
        size_t j = at[below((uint32_t)count)];
        uint8_t kind = g.f[j];
        size_t to = kind == 160 && one_in(4) ? j : at[below((uint32_t)count)];
        if ((kind >= 1 && kind <= 6) || kind == 160) {
            size_t from = kind == 160 ? 0 : j + 3; /* of procedure 0 */
            if (kind == 3 || kind == 4 ? to <= from : to >= from) {
                patch(&g, j + 1, to <= from ? from - to : to - from);
                return;
            }
        }
    }
}

/* Another code without a body in the place of one: the depths may break the floor's rule alone. */
static void recode(void)
{
    size_t found = 0;
    uint32_t seen = 0;
    for (size_t i = 0; i < g.n; i += 1 + body_of(g.f[i]))
        if (body_of(g.f[i]) == 0 && one_in(++seen))
            found = i;
    uint8_t code = known_kind();
    while (body_of(code) != 0)
        code = one_in(3) ? (uint8_t)(80 + below(6)) : known_kind();
    if (found > 0)
        g.f[found] = code;
}

/* ---- files that are valid but for one instruction on reals ---- */

enum {
    SHORT_PLUS, SHORT_TIMES, SHORT_MINUS, SHORT_DIVIDE, SHORT_LESS, SHORT_POINT, DEEP_PUSH,
    INTO_BODY, SHORT_FLOOR, CUT_AT_ONCE, CUT_LATER, CUT_LAST, NO_CODE, NEAR_CODE,
    SPOILT_COUNTERS
};

static counter spoilt_met[SPOILT_COUNTERS] = {
    [SHORT_PLUS] = { "150 a word short (7)", 0 },
    [SHORT_TIMES] = { "151", 0 },
    [SHORT_MINUS] = { "152", 0 },
    [SHORT_DIVIDE] = { "153", 0 },
    [SHORT_LESS] = { "155", 0 },
    [SHORT_POINT] = { "156", 0 },
    [DEEP_PUSH] = { "53 a word above x (7)", 0 },
    [INTO_BODY] = { "a jump into 53's body (5)", 0 },
    [SHORT_FLOOR] = { "a word short with a handler open (7)", 0 },
    [CUT_AT_ONCE] = { "53 without a body (3)", 0 },
    [CUT_LATER] = { "with one to six bytes", 0 },
    [CUT_LAST] = { "with seven", 0 },
    [NO_CODE] = { "154 (3)", 0 },
    [NEAR_CODE] = { "52, 55, 149, 157", 0 }
};

/* What the check of such a file must answer: a refusal and its place. */
static struct {
    uint32_t number;
    size_t place;
    int how;
} due;

/* The start of some record behind the first head. */
static size_t some_record(void)
{
    size_t found = 0;
    uint32_t seen = 0;
    for (size_t i = 7; i < g.n; i += 1 + body_of(g.f[i]))
        if (one_in(++seen))
            found = i;
    return found;
}

/* An instruction that breaks 7 or 5; or a 53 that the file's end cuts short; or no code. */
static void spoilt_file(uint32_t procs, size_t total)
{
    static const uint8_t codes[] = { 150, 151, 152, 153, 155, 156, 53, 3 };
    static const uint8_t unknown[] = { 52, 55, 149, 157 };
    uint32_t how = below(13);
    g.spoil = how < sizeof codes ? codes[how] : 0;
    make_file(&g, procs, total, 0);
    g.spoil = 0;
    size_t n = g.n, at = how < sizeof codes ? g.spoilt : some_record();
    due.number = at == 0 || n > 4096 ? 0 : how == INTO_BODY ? 5 : how < sizeof codes ? 7 : 3;
    due.place = at;
    due.how = (int)how;
    if (how >= 11) {
        g.f[at] = one_in(2) ? 154 : unknown[below(sizeof unknown)];
        due.how = g.f[at] == 154 ? NO_CODE : NEAR_CODE;
    } else if (how >= sizeof codes) {
        uint32_t left = one_in(2) ? 0 : one_in(2) ? 7 : 1 + below(6);
        g.f[at] = 53;
        n = at + 1 + left;
        due.how = left == 0 ? CUT_AT_ONCE : left == 7 ? CUT_LAST : CUT_LATER;
    }
    lend_file(g.f, n > 4096 ? 4096 : n);
}

/* Counts the check of such a file; its answer must be the one due. */
static void meet_spoilt(ref_reply r)
{
    if (r.kind != REF_REFUSED || r.number != due.number || r.place != due.place) {
        printf("\nRefusal %" PRIu32 " is due at %zu (%s): seed %" PRIu64 " case %" PRIu64 "\n",
               due.number, due.place, spoilt_met[due.how].name, seed, case_no);
        exit(1);
    }
    spoilt_met[due.how].count++;
    spoilt_met[SHORT_FLOOR].count += due.how <= SHORT_POINT && g.spoilt_floor;
}

static void choose_file(void)
{
    due.number = 0;
    uint32_t k = below(100);
    uint32_t procs = one_in(3) ? 1 : 1 + below(5);
    if (one_in(100))
        procs = 1 + below(64);
    size_t total = 30 + below(one_in(6) ? 1200 : 250);
    if (total < procs * 20)
        total = procs * 40;
    if (k < 62) {
        make_file(&g, procs, total, 0);
        made[0]++;
        file_sort = "valid";
        lend_file(g.f, g.n > 4096 ? 4096 : g.n);
    } else if (k < 65) {
        made[7]++;
        file_sort = "spoilt";
        spoilt_file(procs, total);
    } else if (k < 84) {
        make_file(&g, procs, total, 0);
        uint32_t times = one_in(3) ? 1 + below(4) : 1;
        if (one_in(4)) {
            retarget();
            times = one_in(4);
        } else if (one_in(3)) {
            recode();
            times = one_in(6);
        }
        for (uint32_t i = 0; i < times; i++) {
            size_t at = below((uint32_t)g.n);
            switch (below(5)) {
            case 0: g.f[at] = (uint8_t)draw(); break;
            case 1: g.f[at] = (uint8_t)(g.f[at] + 1); break;
            case 2: g.f[at] = (uint8_t)(g.f[at] - 1); break;
            case 3: g.f[at] = known_kind(); break;
            default: g.f[at] ^= (uint8_t)(1u << below(8)); break;
            }
        }
        made[1]++;
        file_sort = "damaged";
        lend_file(g.f, g.n > 4096 ? 4096 : g.n);
    } else if (k < 89) {
        make_file(&g, procs, total, 0);
        made[2]++;
        file_sort = "cut short";
        lend_file(g.f, below((uint32_t)(g.n > 4096 ? 4096 : g.n)));
    } else if (k < 93) {
        size_t n = below(one_in(4) ? 300 : 30);
        for (size_t i = 0; i < n; i++)
            g.f[i] = one_in(2) ? known_kind() : (uint8_t)below(one_in(2) ? 4 : 256);
        if (n > 0 && !one_in(4))
            g.f[0] = 240;
        made[3]++;
        file_sort = "random";
        lend_file(g.f, n);
    } else if (k < 96) {
        /* records one after another, heads with small numbers */
        size_t n = 0;
        uint32_t records = 1 + below(12);
        for (uint32_t i = 0; i < records && n < 200; i++) {
            uint8_t kind = i == 0 ? 240 : known_kind();
            uint32_t body = body_of(kind);
            g.f[n++] = kind;
            for (uint32_t j = 0; j < body; j++)
                g.f[n++] = (uint8_t)(kind == 240 && i == 0 && j < 2 ? 0
                                     : kind == 240 ? (j < 4 ? below(3) : 1 + below(3))
                                     : j % 2 == 0 ? 0 : below(kind == 160 ? 40 : 5));
        }
        if (one_in(2))
            g.f[n++] = 73;
        made[4]++;
        file_sort = "records";
        lend_file(g.f, n);
    } else if (k < 98) {
        /* 4,096 bytes, or one or a few off */
        size_t exact = one_in(2) ? 4096 : 4094 + below(4);
        uint32_t many = one_in(3) ? 1 + below(60) : 1 + below(8);
        make_file(&g, many, 1500 + below(1500), exact);
        made[5]++;
        file_sort = "long";
        lend_file(g.f, g.n);
    } else {
        make_file(&g, 62 + below(4), 2000, 0);
        if (one_in(4))
            g.f[below((uint32_t)g.n)] = known_kind();
        made[6]++;
        file_sort = "many procedures";
        lend_file(g.f, g.n);
    }
}

static size_t around(size_t least, size_t most, uint32_t usual)
{
    switch (below(100)) {
    case 0: return 0;
    case 1: return least == 0 ? 0 : least - 1;
    case 2: return most;
    case 3: return most + 1;
    case 4: return least;
    default: return least + below(usual);
    }
}

/* An object at the mark: a view or a vector; gives its size, 0 if it does not fit. */
static uint32_t fill_object(size_t mark)
{
    uint32_t kind = one_in(2) ? 1 : PLAIN + below(2);
    uint32_t ptrs = kind == PLAIN ? 0 : below(one_in(10) ? 40 : 4);
    uint32_t size = 2 + ptrs + (kind == 1 ? below(5) : kind == PLAIN ? 1 + below(5) : 1);
    if (mark + size > lists[L_HEAP].len)
        return 0;
    set_word(L_HEAP, mark, kind << 24 | ptrs);
    set_word(L_HEAP, mark + 1, size);
    for (uint32_t j = 2 + ptrs; j < size; j++)
        set_word(L_HEAP, mark + j, odd_word());
    if (kind != 1)
        set_word(L_HEAP, mark + 2 + ptrs, some_bound());
    return size;
}

/* A sound heap with some objects, now and then one with a fault. */
static void fill_heap(void)
{
    size_t n = lists[L_HEAP].len;
    size_t at[512], count = 0, mark = 2;
    for (size_t i = 0; i < n; i++)
        set_word(L_HEAP, i, 0);
    if (n < 2)
        return;
    uint32_t objects = one_in(2) ? 0 : below(one_in(8) ? 500 : 8);
    for (uint32_t i = 0; i < objects; i++) {
        uint32_t size = fill_object(mark);
        if (size == 0)
            break;
        at[count++] = mark;
        mark += size;
    }
    for (size_t i = 0; i < count; i++)
        for (uint32_t j = 0; j < (word(L_HEAP, at[i]) & 0xffffffu); j++)
            set_word(L_HEAP, at[i] + 2 + j, one_in(3) ? 0 : (uint32_t)at[below((uint32_t)count)]);
    set_word(L_HEAP, 0, (uint32_t)mark);
    if (count > 0 && !one_in(3))
        set_word(L_HEAP, 1, (uint32_t)at[below((uint32_t)count)]);
}

static uint32_t nudge(uint32_t w)
{
    switch (below(8)) {
    case 0: return w + 1;
    case 1: return w - 1;
    case 2: return 0;
    case 3: return w + 5;
    case 4: return w - 5;
    case 5: return below(8);
    case 6: return w ^ 1u << below(32);
    default: return odd_word();
    }
}

/* Any word, mostly one in use. */
static void damage_words(int which, uint32_t used)
{
    size_t n = lists[which].len;
    if (n == 0)
        return;
    size_t i = used > 0 && used <= n && !one_in(4) ? below(used) : below((uint32_t)n);
    set_word(which, i, nudge(word(which, i)));
}

/* A word that is no pointer; an object lies at this index, or none in the heap. */
static uint32_t stray(size_t at)
{
    uint32_t mark = word(L_HEAP, 0);
    switch (below(6)) {
    case 0: return 1;
    case 1: return mark;
    case 2: return (uint32_t)lists[L_HEAP].len;
    case 3: return (uint32_t)at + 1;
    case 4: return (uint32_t)at | 1u << (16 + below(16));
    default: return mark - 1;
    }
}

static uint32_t bad_size(uint32_t pointers, uint32_t room)
{
    switch (below(5)) {
    case 0: return 1 + pointers;
    case 1: return below(2 + pointers);
    case 2: return room + 1;
    case 3: return room + below(20);
    default: return 0xffffffffu - below(4);
    }
}

/* The sorts of faults, by the words that 11 can name. */
enum { IN_MARK, IN_ROOT, IN_FREE, IN_HEADER, IN_SIZE, IN_POINTER, IN_LAST_HEADER, IN_VECTOR };

/* The object becomes a vector that is wrong for its kind. */
static void fault_vector(size_t at, uint32_t mark)
{
    uint32_t size = word(L_HEAP, at + 1), ptrs = 1 + below(3);
    switch (below(4)) {
    case 0: /* pointer words, and now and then a bad size */
        set_word(L_HEAP, at, 2u << 24 | ptrs);
        if (one_in(2))
            set_word(L_HEAP, at + 1, bad_size(ptrs, mark - (uint32_t)at));
        break;
    case 1: /* no bound */
        set_word(L_HEAP, at, 2u << 24);
        set_word(L_HEAP, at + 1, 2);
        break;
    case 2: /* the last word is an element */
        set_word(L_HEAP, at, 3u << 24 | (size - 2));
        break;
    default: /* a word behind the bound */
        set_word(L_HEAP, at, 3u << 24 | (size < 4 ? 0 : size - 4));
        break;
    }
}

/* A fault of this sort, from object o on; those from IN_HEADER on need an object. */
static void fault_heap(uint32_t sort, size_t o)
{
    size_t n = lists[L_HEAP].len, at = walked.count > 0 ? walked.at[o] : 2;
    uint32_t mark = word(L_HEAP, 0);
    switch (sort) {
    case IN_MARK:
        set_word(L_HEAP, 0, one_in(2) ? below(2) : (uint32_t)n + 1 + (one_in(2) ? below(9) : 0));
        break;
    case IN_ROOT:
        set_word(L_HEAP, 1, stray(at));
        break;
    case IN_FREE:
        if (mark >= 2 && mark < n)
            set_word(L_HEAP, one_in(3) ? n - 1 : one_in(2) ? mark : mark + below((uint32_t)n - mark),
                     1 + below(9));
        break;
    case IN_HEADER: /* its pointer words stay */
        set_word(L_HEAP, at, (one_in(3) ? 0 : one_in(3) ? 4 : 2 + below(254)) << 24 | pointers_of(at));
        break;
    case IN_VECTOR:
        fault_vector(at, mark);
        break;
    case IN_SIZE:
        set_word(L_HEAP, at + 1, bad_size(pointers_of(at), mark - (uint32_t)at));
        break;
    case IN_POINTER:
        while (o + 1 < walked.count && pointers_of(walked.at[o]) == 0)
            o++;
        at = walked.at[o];
        if (pointers_of(at) > 0 && at + 2 + pointers_of(at) <= n) /* a fault before may count more */
            set_word(L_HEAP, at + 2 + below(pointers_of(at)), stray(at));
        break;
    default: /* the mark right behind a header */
        set_word(L_HEAP, 0, (uint32_t)at + 1);
        break;
    }
}

/* One fault or two, of one sort or any, in one object or any. */
static void fault_heap_twice(void)
{
    static const uint8_t sorts[] = {
        IN_MARK, IN_ROOT, IN_ROOT, IN_FREE, IN_FREE, IN_HEADER, IN_HEADER, IN_SIZE, IN_SIZE,
        IN_POINTER, IN_POINTER, IN_POINTER, IN_LAST_HEADER, IN_VECTOR, IN_VECTOR,
        IN_VECTOR
    };
    walk_heap();
    uint32_t count = (uint32_t)walked.count, choice = count > 0 ? sizeof sorts : 5;
    size_t o = below(count);
    uint32_t sort = sorts[below(choice)];
    fault_heap(sort, o);
    if (one_in(4))
        return;
    if (one_in(2))
        o = one_in(2) && o + 1 < count ? o + 1 : below(count);
    fault_heap(one_in(3) ? sort : sorts[below(choice)], o);
}

static void damage_heap(void)
{
    size_t n = lists[L_HEAP].len;
    if (n < 2)
        return;
    uint32_t mark = word(L_HEAP, 0);
    if (n == 16384 && one_in(2)) {
        set_word(L_HEAP, n - 1, nudge(word(L_HEAP, n - 1)));
        return;
    }
    switch (below(8)) {
    case 0:
        set_word(L_HEAP, 0, nudge(mark));
        break;
    case 1:
        set_word(L_HEAP, 1, one_in(2) ? below(12) : nudge(word(L_HEAP, 1)));
        break;
    case 2: case 3:
        damage_words(L_HEAP, mark);
        break;
    default:
        fault_heap_twice();
        break;
    }
}

/* The place of some record of this kind, or of any instruction for 0; 0 if none is met. */
static uint32_t some_place(uint8_t kind)
{
    uint32_t found = 0, seen = 0;
    const list *l = &lists[L_FILE];
    for (size_t i = 0; i < l->len; i += 1 + body_of(l->ref[i]))
        if ((kind == 0 ? l->ref[i] != 240 : l->ref[i] == kind) && one_in(++seen))
            found = (uint32_t)i;
    return found;
}

/* Another call stands right behind or right before the one that returns here. */
static bool call_beside(uint32_t here)
{
    const list *l = &lists[L_FILE];
    return here < l->len && (l->ref[here] == 72 || (here >= 6 && l->ref[here - 6] == 72));
}

/* The return place of the call right behind the one that returns here, or right before it, or of any call. */
static uint32_t other_return(uint32_t here)
{
    const list *l = &lists[L_FILE];
    if (here < l->len && l->ref[here] == 72 && one_in(2))
        return here + 3;
    if (here >= 6 && here <= l->len && l->ref[here - 6] == 72 && one_in(2))
        return here - 3;
    return some_place(72) + 3;
}

/* Damage that keeps close to what is sound. */
static void damage_closely(uint32_t k)
{
    if (!has_registers())
        return;
    uint32_t records = reg(5) / 5;
    if (k == 12) { /* lists that end just above their tops */
        int which = (int)below(3);
        if (reg(3 + (size_t)which) <= lists[L_MAIN + which].len)
            relend(L_MAIN + which, reg(3 + (size_t)which) + below(6));
    } else if (k == 13 && records > 1 && 5 * records <= lists[L_CTL].len) {
        /* another call, another procedure, another handler */
        size_t at = 5 * (size_t)(1 + below(records - 1));
        if (one_in(2) && reg(1) > 1 && reg(1) <= records)
            at = 5 * (size_t)(reg(1) - 1); /* the topmost frame */
        for (uint32_t i = 0; i < records && !call_beside(word(L_CTL, at + 3)); i++)
            at = 5 * (size_t)(1 + below(records - 1));
        switch (below(8)) {
        case 0: case 1: case 2: case 3:
            set_word(L_CTL, at + 3, other_return(word(L_CTL, at + 3)));
            break;
        case 4: case 5: set_word(L_CTL, at + 3, some_place(0) + 3); break;
        case 6: set_word(L_CTL, at + 2, below(4)); break;
        default: set_word(L_CTL, at, some_place(160)); break;
        }
    } else {
        set_reg(0, some_place(0));
    }
}

/* The code at the place, if it may be used on a vector and there are words on the stacks; else 0. */
static uint32_t vector_code(void)
{
    if (!has_registers() || reg(0) >= lists[L_FILE].len || lists[L_HEAP].len < 2
        || reg(3) > lists[L_MAIN].len || reg(4) > lists[L_PTR].len)
        return 0;
    uint32_t code = lists[L_FILE].ref[reg(0)];
    if (code == 80 || code == 81)
        return reg(3) >= 2 ? code : 0;
    if (code >= 82 && code <= 85)
        return reg(3) >= 1 && reg(4) >= 1 ? code : 0;
    return code >= 30 && code <= 33 && reg(4) >= 1 ? code : 0;
}

/* Before 80 or 81: a length at an end of its range, or a heap that it just fits or does not. */
static void damage_make(uint32_t code)
{
    static const uint32_t ends[] = { 0, 0xffffffffu, 0x80000000u, 0x7fffffffu, 0x7ffffffdu, 65536 };
    size_t n = lists[L_HEAP].len, at = reg(3) - (code == 80 ? 2u : 1u);
    uint32_t mark = word(L_HEAP, 0), length = word(L_MAIN, at);
    if (one_in(3))
        set_word(L_MAIN, at, ends[below(sizeof ends / sizeof *ends)]);
    else if (one_in(2) && length < 1000 && mark + 3 + length <= 16384 && mark <= n)
        relend(L_HEAP, mark + 3 + length - one_in(3));
    else if (mark <= n)
        set_word(L_MAIN, at, (uint32_t)n - mark - 3 + one_in(3));
    if (one_in(4) && mark <= n)
        relend(L_HEAP, mark + below(4));
}

/* Before 30 to 33 and 82 to 85: another object; before 82 to 85, an index near its ends too, if it is a vector. */
static void damage_element(uint32_t code)
{
    walk_heap();
    if (walked.count > 0 && (code < 80 || one_in(2)))
        set_word(L_PTR, reg(4) - 1, (uint32_t)walked.at[below((uint32_t)walked.count)]);
    uint32_t at = word(L_PTR, reg(4) - 1);
    if (code < 80 || at >= walked.stop || walked.begins[at] == 0 || word(L_HEAP, at) >> 24 == 1)
        return;
    uint32_t bound = at + 2 + pointers_of(at);
    if (one_in(2))
        set_word(L_HEAP, bound, some_bound());
    vector v = { code, word(L_HEAP, bound), word(L_HEAP, at + 1) - 3, 0 };
    set_word(L_MAIN, reg(3) - 1, one_in(3) ? v.bound + below(v.length + 2) - 1 : some_index(&v));
}

/* The code at the place, if it takes reals that are on the stack; else 0. */
static uint32_t real_code(void)
{
    if (!has_registers() || reg(0) >= lists[L_FILE].len || reg(3) > lists[L_MAIN].len)
        return 0;
    uint32_t code = lists[L_FILE].ref[reg(0)];
    return on_reals(code) && code != 53 && reg(3) >= real_pops(code) ? code : 0;
}

/* Before 150 to 156: other operands. */
static void damage_reals(uint32_t code)
{
    uint64_t v[5];
    size_t at = reg(3) - real_pops(code);
    if (code == 156)
        hoop_point(v);
    else
        real_pair(code, v);
    for (size_t i = 0; i < real_pops(code); i += 2) {
        set_word(L_MAIN, at + i, (uint32_t)(v[i / 2] >> 32));
        set_word(L_MAIN, at + i + 1, (uint32_t)v[i / 2]);
    }
}

static void damage_length(void)
{
    static const size_t odd[4][6] = {
        { 0, 1, 4096, 4097, 2, 3 }, { 0, 1, 4096, 4097, 2, 3 },
        { 0, 4, 1280, 1281, 5, 6 }, { 0, 1, 16384, 16385, 2, 3 }
    };
    int which = (int)below(4);
    size_t n = lists[L_MAIN + which].len;
    size_t to = one_in(2) ? odd[which][below(6)] : one_in(2) ? n + 1 + below(9) : n - (n > 0);
    relend(L_MAIN + which, to);
}

static void set_file_byte(size_t at, uint32_t b)
{
    lists[L_FILE].ref[at] = lists[L_FILE].lib[at] = (uint8_t)b;
}

/* With the new file's sums in most cases: else 13 would hide what the state is to that file. */
static void damage_file(void)
{
    if (lists[L_FILE].len == 0)
        return;
    size_t at = below((uint32_t)lists[L_FILE].len);
    set_file_byte(at, one_in(2) ? known_kind() : lists[L_FILE].ref[at] + 1u);
    if (!one_in(6))
        sign();
}

/* A length that 13 is for, now and then the right one. */
static size_t odd_registers(void)
{
    return one_in(3) ? below(64) : odd_lengths[below(ODD_LENGTHS)];
}

static void damage(void)
{
    uint32_t k = vector_code() != 0 && one_in(2) ? 15 : real_code() != 0 && one_in(2) ? 16
        : one_in(5) ? 13 : below(16);
    damages[k]++;
    switch (k) {
    case 0: case 1: {
        size_t i = below(SUM); /* the sums have damage of their own */
        if (has_registers())
            set_reg(i, nudge(reg(i)));
        break;
    }
    case 2: case 3: damage_words(L_CTL, has_registers() ? reg(5) : 0); break;
    case 4: damage_words(L_MAIN, has_registers() ? reg(3) : 0); break;
    case 5: damage_words(L_PTR, has_registers() ? reg(4) : 0); break;
    case 6: case 7: damage_heap(); break;
    case 8: damage_length(); break;
    case 9: relend(L_REGS, odd_registers()); break;
    case 10:
        relend(L_MAP, one_in(2) ? lists[L_MAP].len + below(100)
               : lists[L_FILE].len * 3 - (lists[L_FILE].len > 0 ? below(4) : 0));
        break;
    case 12: case 13: case 14: damage_closely(k); break;
    case 15:
        if (vector_code() == 80 || vector_code() == 81)
            damage_make(vector_code());
        else if (vector_code() != 0)
            damage_element(vector_code());
        break;
    case 16: damage_reals(real_code()); break;
    default: damage_file(); break;
    }
}

/* ---- a state that is not the file's ---- */

static uint32_t reversed(uint32_t w)
{
    return w << 24 | (w & 0xff00u) << 8 | (w >> 8 & 0xff00u) | w >> 24;
}

/* One sum or both: a bit, a byte, exchanged, reckoned otherwise, or of a file a byte off. */
static void damage_sums(void)
{
    const list *l = &lists[L_FILE];
    if (!has_registers() || l->len == 0)
        return;
    sums now = { reg(SUM), reg(SUM_OF_SUMS) }, near = sums_of(l->ref, l->len - 1);
    size_t i = one_in(2) ? SUM : SUM_OF_SUMS, k = 4 * SUM + below(8);
    switch (below(12)) {
    case 0: set_reg(i, reg(i) ^ 1u << below(32)); break;
    case 1: lists[L_REGS].ref[k] = lists[L_REGS].lib[k] = (uint8_t)draw(); break;
    case 2:
        set_reg(SUM, now.second);
        set_reg(SUM_OF_SUMS, now.first);
        break;
    case 3: /* the file without its last byte */
        set_reg(SUM, near.first);
        set_reg(SUM_OF_SUMS, near.second);
        break;
    case 4: /* a byte greater by one */
        set_reg(SUM, now.first + 1);
        set_reg(SUM_OF_SUMS, now.second + 1 + below((uint32_t)l->len));
        break;
    case 5: set_reg(SUM_OF_SUMS, now.second - now.first); break;
    case 6: set_reg(SUM_OF_SUMS, now.second - l->ref[0]); break;
    case 7: set_reg(SUM_OF_SUMS, now.second + 1 - 2 * below(2)); break;
    case 8: set_reg(i, reversed(reg(i))); break;
    case 9: set_reg(i, reg(i) & (one_in(2) ? 255 : 65535)); break;
    case 10: /* as a state of 28 bytes made longer */
        set_reg(SUM, 0);
        set_reg(SUM_OF_SUMS, 0);
        break;
    default: set_reg(i, nudge(reg(i))); break;
    }
}

/* The places of the operands' bytes, or of the literals' alone, which the map does not hang on. */
static uint32_t operands(bool literals, size_t at[ROOM])
{
    const list *l = &lists[L_FILE];
    uint32_t count = 0;
    for (size_t i = 0; i < l->len; i += 1 + body_of(l->ref[i])) {
        uint8_t kind = l->ref[i];
        bool wanted = literals ? kind == 53 || kind == 54 || kind == 56 : kind != 240;
        for (size_t k = i + 1; wanted && k <= i + body_of(kind) && k < l->len; k++)
            at[count++] = k;
    }
    return count;
}

/* Two unequal ones change places: the first sum stays. */
static bool swap_operands(bool literals)
{
    static size_t at[ROOM];
    uint32_t count = operands(literals, at);
    for (int tries = 0; tries < 20 && count > 1; tries++) {
        size_t i = at[below(count)], j = at[below(count)];
        uint8_t a = lists[L_FILE].ref[i], b = lists[L_FILE].ref[j];
        if (a != b) {
            set_file_byte(i, b);
            set_file_byte(j, a);
            return true;
        }
    }
    return false;
}

static bool change_literal(void)
{
    static size_t at[ROOM];
    uint32_t count = operands(true, at);
    if (count == 0)
        return false;
    size_t i = at[below(count)];
    set_file_byte(i, lists[L_FILE].ref[i] + 1u + below(255));
    return true;
}

/* Three literals at equal distances by k, -2k, k: both sums stay. */
static bool balance_literals(void)
{
    static size_t at[ROOM];
    uint32_t count = operands(true, at);
    for (int tries = 0; tries < 200 && count > 2; tries++) {
        uint32_t i = below(count - 2), j = one_in(2) ? i + 1 : i + 1 + below(count - 2 - i), m = j;
        int32_t k = (one_in(2) ? 1 : -1) * (int32_t)(one_in(2) ? 1 : 1 + below(60));
        while (m + 1 < count && at[m] < 2 * at[j] - at[i])
            m++;
        if (at[m] != 2 * at[j] - at[i])
            continue;
        const uint8_t *f = lists[L_FILE].ref;
        int32_t a = f[at[i]] + k, b = f[at[j]] - 2 * k, c = f[at[m]] + k;
        if (a >= 0 && a < 256 && b >= 0 && b < 256 && c >= 0 && c < 256) {
            set_file_byte(at[i], (uint32_t)a);
            set_file_byte(at[j], (uint32_t)b);
            set_file_byte(at[m], (uint32_t)c);
            return true;
        }
    }
    return false;
}

static uint32_t count_heads(void)
{
    const list *l = &lists[L_FILE];
    uint32_t heads = 0;
    for (size_t i = 0; i < l->len; i += 1 + body_of(l->ref[i]))
        heads += l->ref[i] == 240;
    return heads;
}

/* A procedure behind the others. */
static bool one_more(void)
{
    static const uint8_t least[] = { 240, 0, 0, 0, 0, 0, 0, 73 };
    size_t n = lists[L_FILE].len;
    if (n + sizeof least > 4096 || count_heads() == 64)
        return false;
    relend(L_FILE, n + sizeof least);
    for (size_t i = 0; i < sizeof least; i++)
        set_file_byte(n + i, least[i]);
    return true;
}

static bool another_file(void)
{
    static maker other;
    make_file(&other, 1 + below(4), 30 + below(250), 0);
    lend_file(other.f, other.n > 4096 ? 4096 : other.n);
    return true;
}

enum {
    NEAR_SUMS, NEAR_LITERALS, NEAR_OPERANDS, NEAR_LITERAL, NEAR_EQUAL, NEAR_MORE, NEAR_OTHER,
    MISPLACED
};

static counter misplaced[MISPLACED] = {
    [NEAR_SUMS] = { "another sum", 0 },
    [NEAR_LITERALS] = { "two literal bytes swapped", 0 },
    [NEAR_OPERANDS] = { "two operand bytes swapped", 0 },
    [NEAR_LITERAL] = { "another literal byte", 0 },
    [NEAR_EQUAL] = { "three literal bytes, both sums kept", 0 },
    [NEAR_MORE] = { "a procedure more", 0 },
    [NEAR_OTHER] = { "another file", 0 }
};

/* The state is the file's no more, or does not show it (NEAR_EQUAL); false if there is no way. */
static bool misplace(uint32_t how)
{
    switch (how) {
    case NEAR_SUMS: damage_sums(); return true;
    case NEAR_LITERALS: return swap_operands(true);
    case NEAR_OPERANDS: return swap_operands(false);
    case NEAR_LITERAL: return change_literal();
    case NEAR_EQUAL: return balance_literals();
    case NEAR_MORE: return one_more();
    default: return another_file();
    }
}

static uint32_t some_budget(void)
{
    switch (below(8)) {
    case 0: return 0;
    case 1: case 2: return 1;
    case 3: return 2;
    case 4: case 5: return below(20);
    case 6: return below(200);
    default: return 1000 + below(2000);
    }
}

/*
 * A run with a sound state that is misplaced; now and then something else is
 * wrong too. The lists are as before afterwards. Where the file's map is as it
 * was, the state is sound for it: nothing but 13 may be told.
 */
static void misplaced_run(void)
{
    snapshot s = snap_take();
    bool also = one_in(3);
    uint32_t how = below(MISPLACED + 1) % MISPLACED; /* another sum twice as often */
    if (also)
        damage();
    bool fits = lists[L_MAP].len >= 3 * lists[L_FILE].len;
    if (misplace(how)) {
        misplaced[how].count++;
        if (fits && lists[L_MAP].len < 3 * lists[L_FILE].len)
            relend(L_MAP, 3 * lists[L_FILE].len);
        if (one_in(2))
            fill_junk(L_MAP);
        ref_reply r = both(RUN, some_budget());
        if (!also && how == NEAR_EQUAL) {
            if (r.kind == REF_REFUSED)
                state_fault("a state with the file's sums, sound for it, is refused");
            meet_state(EQUAL_SUMS, true);
        } else if (!also && how != NEAR_OPERANDS && how != NEAR_OTHER
                   && r.kind == REF_REFUSED && (r.number != 13 || behind.kind == REF_REFUSED)) {
            state_fault("a state that is sound but for its sums is refused as another than 13");
        }
        if (one_in(4))
            both(START, 0);
    }
    snap_restore(&s);
    snap_free(&s);
}

/* A run in pieces ends as a run in one piece. */
static void run_again(const snapshot *ready, ref_reply last, uint32_t done)
{
    snapshot end = snap_take();
    snap_restore(ready);
    ref_reply r = both(RUN, one_in(2) ? UINT32_MAX : done + 1);
    bool same = r.kind == last.kind && r.number == last.number && r.place == last.place
        && r.steps == done;
    for (int i = 0; i < LISTS; i++)
        same = same && (end.len[i] == 0
                        || memcmp(end.held[i], lists[i].ref, end.len[i] * width[i]) == 0);
    if (!same) {
        printf("\nA cut run ends otherwise than a whole one: seed %" PRIu64 " case %" PRIu64 "\n",
               seed, case_no);
        exit(1);
    }
    snap_free(&end);
}

/* The file, its map, and the check; true if it passes. */
static bool check_case(void)
{
    choose_file();
    size_t n = lists[L_FILE].len;
    size_t map_len = 3 * n;
    if (one_in(4))
        map_len += below(40);
    else if (one_in(30))
        map_len = below((uint32_t)map_len + 1);
    else if (one_in(30) && map_len > 0)
        map_len -= 1;
    lend(L_MAP, map_len);
    fill_junk(L_MAP);
    ref_reply r = both(CHECK, 0);
    bool valid = n > 0 && n <= 4096 && map_len >= 3 * n;
    edges[0] += n == 4096 && r.kind == REF_PASSED;
    edges[1] += n == 4097;
    edges[2] += r.kind == REF_PASSED && count_heads() == 64;
    edges[3] += r.kind == REF_REFUSED && r.number == 4 && g.procs == 65;
    edges[4] += n == 0;
    if (due.number != 0 && valid)
        meet_spoilt(r);
    if ((!strcmp(file_sort, "valid") || !strcmp(file_sort, "long"))
        && r.kind != REF_PASSED && valid && g.n == n) {
        printf("\nThe generator's file is refused as %" PRIu32 " at %" PRIu32 ": seed %" PRIu64
               " case %" PRIu64 "\n", r.number, r.place, seed, case_no);
        exit(1);
    }
    return r.kind == REF_PASSED;
}

/* A register list that 13 is for more often where a refusal before it comes first. */
static void lend_lists(bool passed)
{
    size_t n = lists[L_FILE].len;
    uint32_t x = n > 6 ? lists[L_FILE].ref[5] : 1, y = n > 6 ? lists[L_FILE].ref[6] : 1;
    lend(L_MAIN, around(x == 0 ? 1 : x, 4096, 80));
    lend(L_PTR, around(y == 0 ? 1 : y, 4096, 60));
    lend(L_CTL, around(5, 1280, one_in(4) ? 300 : 60));
    lend(L_HEAP, one_in(60) ? 16384
         : around(2, 16384, one_in(40) ? 16383 : one_in(10) ? 2000 : one_in(2) ? 60 : 400));
    lend(L_REGS, one_in(passed ? 60 : 8) ? odd_registers() : REG_BYTES);
    fill_junk(L_MAIN);
    fill_junk(L_PTR);
    fill_junk(L_CTL);
    fill_junk(L_REGS);
    fill_heap();
    if (one_in(20))
        damage_heap();
}

/* A run of what no start has made, mostly with the file's sums: else 13 would hide the rest. */
static void run_unstarted(void)
{
    if (!one_in(4))
        sign();
    both(RUN, some_budget());
}

/* A run with damage, and a start now and then; true if the damage is kept. */
static bool damaged_run(void)
{
    snapshot s = snap_take();
    uint32_t hits = one_in(5) ? 2 : 1;
    for (uint32_t k = 0; k < hits; k++)
        damage();
    ref_reply r = both(RUN, some_budget());
    if (one_in(10))
        both(START, 0);
    bool kept = one_in(4) && r.kind != REF_REFUSED;
    if (!kept)
        snap_restore(&s);
    snap_free(&s);
    return kept;
}

/* A few single steps of the instruction on reals that is next, with other operands; the lists are as before afterwards. */
static void real_runs(void)
{
    snapshot s = snap_take();
    for (uint32_t i = 6 + below(4); i > 0; i--) {
        damages[16]++;
        damage_reals(real_code());
        both(RUN, 1);
        snap_restore(&s);
    }
    snap_free(&s);
}

/* Beyond the end of a run, finished or not caught. */
static void run_on(void)
{
    both(RUN, some_budget()); /* once more from there */
    if (one_in(3))
        misplaced_run();
    if (one_in(2)) {
        damage();
        both(RUN, some_budget());
    }
}

static void one_case(void)
{
    chance = seed * 0x2545f4914f6cdd1du + case_no * 0x9e3779b97f4a7c15u;
    chance ^= chance >> 29;
    draw();
    lend_lists(check_case());
    if (one_in(10))
        run_unstarted();
    if (one_in(4))
        fill_junk(L_MAP);
    if (both(START, 0).kind != REF_READY) {
        run_unstarted();
        return;
    }
    snapshot ready = snap_take();
    bool whole = true; /* no damage kept so far */
    uint32_t done = 0, turns = 1 + below(8);
    bool single = one_in(4);
    if (single)
        turns += 20;
    for (uint32_t i = 0; i < turns; i++) {
        if (one_in(3) && damaged_run())
            whole = false;
        if (one_in(8))
            misplaced_run();
        if (real_code() != 0)
            real_runs();
        ref_reply r = both(RUN, single && !one_in(6) ? 1 : some_budget());
        done += r.steps;
        if (r.kind == REF_FINISHED || r.kind == REF_UNCAUGHT) {
            if (whole)
                run_again(&ready, r, done);
            run_on();
            break;
        }
        if (r.kind == REF_REFUSED)
            break;
    }
    snap_free(&ready);
}

/* ---- the table ---- */

enum { MANY = 20000 }; /* cases that meet everything */

static const char *const made_name[] = {
    "valid", "damaged", "cut short", "random", "records", "long", "many procedures",
    "valid but for a real"
};
static const char *const damage_name[] = {
    "registers", "registers", "control words", "control words", "main words",
    "pointer words", "heap words", "heap words", "a length", "register length",
    "map length", "file byte", "lists cut at their tops", "another call or handler",
    "another place", "a vector's operands", "a real's operands"
};

static void counter_line(const char *title, const counter *c, int from, int to)
{
    printf("%s", title);
    for (int i = from; i <= to; i++)
        printf(" %s %" PRIu64 "%s", c[i].name, c[i].count, i < to ? "," : "\n");
}

static void heap_table(void)
{
    counter_line("refused 11, the word named:", heap_met, AT_MARK, AT_FREE);
    counter_line("refused 11, the fault:", heap_met, MARK_LOW, LAST_OF_ALL);
    counter_line("refused 11, two faults:", heap_met, MARK_ROOT, FREE_FREE);
    counter_line("refused 11, vectors:", heap_met, PLAIN_POINTERS, BAD_ELEMENT);
}

static void vector_table(void)
{
    counter_line("exception 6:", vector_met, INDEX_LOW, OTHER_KIND);
    counter_line("80 to 85, raised:", vector_met, INDEX_WRAPS, WORD_SHORT);
    counter_line("80 to 85, done:", vector_met, FIT_EXACT, VALUE_NIL);
    counter_line("32 and 33 on vectors:", vector_met, PLAIN_BOUND, POINTERS_SET);
}

static void real_table(void)
{
    for (int k = 0; k < 4; k++) {
        printf("%d:", 150 + k);
        for (int i = 0; i < RESULTS; i++)
            printf(" %s %" PRIu64 "%s", result_name[i], results[k][i], i + 1 < RESULTS ? "," : "\n");
    }
    counter_line("153:", real_met, BY_INFINITY, ZERO_BY_ZERO);
    counter_line("155:", real_met, IS_LESS, WITH_INFINITY);
    counter_line("156:", real_met, FUSED_ACROSS, POINT_SUBNORMAL);
    counter_line("53:", real_met, PUSHED_NAN, PUSHED_CODES);
    counter_line("refused for a real:", spoilt_met, 0, SPOILT_COUNTERS - 1);
}

/* By start, then by run. */
static void state_table(void)
{
    for (int call = START; call <= RUN; call++) {
        printf("refused 13 by %s, bytes of registers:", call_name[call]);
        for (int k = 0; k < ODD_LENGTHS; k++)
            printf(" %zu: %" PRIu64 ",", odd_lengths[k], by_length[call][k]);
        printf(" others: %" PRIu64 "\n", by_length[call][ODD_LENGTHS]);
    }
    counter_line("refused 13 by run, the sum:", state_met, FIRST_ALONE, EXCHANGED);
    counter_line("refused 13 by run, a sum in a sound state:", state_met, WHEN_FINISHED,
                 WITH_BUDGET_0);
    for (int call = START; call <= RUN; call++) {
        int most = call == START ? 11 : 12;
        printf("due with 13, %s:", call_name[call]);
        for (int k = 1; k <= most; k++)
            printf(" %d: %" PRIu64 "%s", k, beside[call][k], k < most ? "," : "\n");
    }
    counter_line("states misplaced:", misplaced, 0, MISPLACED - 1);
    counter_line("gone on:", state_met, FIRST_LONG, EQUAL_SUMS);
}

static void table(void)
{
    static const char *const kind_name[] = {
        "passed", "ready", "finished", "spent", "uncaught", "refused"
    };
    printf("files:");
    for (int i = 0; i < SORTS; i++)
        printf(" %s %" PRIu64 "%s", made_name[i], made[i], i + 1 < SORTS ? "," : "\n");
    printf("4,096 bytes and passed: %" PRIu64 ", 4,097 bytes: %" PRIu64 ", 0 bytes: %" PRIu64
           ", 64 procedures and passed: %" PRIu64 ", 65 procedures refused as 4: %" PRIu64 "\n",
           edges[0], edges[1], edges[4], edges[2], edges[3]);
    printf("damage between calls:");
    for (int i = 0; i < DAMAGES; i++) {
        bool twice = i + 1 < DAMAGES && !strcmp(damage_name[i], damage_name[i + 1]);
        printf(" %s %" PRIu64 "%s", damage_name[i], damages[i] + (twice ? damages[i + 1] : 0),
               i + 1 < DAMAGES ? "," : "\n");
        i += twice;
    }
    printf("%-12s %12s %12s %12s\n", "answer", "check", "start", "run");
    for (int k = 0; k < 5; k++)
        printf("%-12s %12" PRIu64 " %12" PRIu64 " %12" PRIu64 "\n", kind_name[k],
               answers[0][k], answers[1][k], answers[2][k]);
    for (int k = 1; k <= 13; k++)
        printf("refused %-4d %12" PRIu64 " %12" PRIu64 " %12" PRIu64 "\n", k,
               refusals[0][k], refusals[1][k], refusals[2][k]);
    state_table();
    heap_table();
    printf("uncaught codes:");
    for (int k = 1; k <= 6; k++)
        printf(" %d: %" PRIu64 ",", k, raised[k]);
    printf(" others: %" PRIu64 "\n", raised[7]);
    vector_table();
    real_table();
    printf("single steps by code:");
    for (int k = 1; k < 256; k++)
        if (stepped[k] > 0)
            printf(" %d: %" PRIu64, k, stepped[k]);
    printf("\ncalls: %" PRIu64 ", steps: %" PRIu64 "\n", calls, steps_total);
}

static bool met(const char *group, const char *name, uint64_t count)
{
    if (count == 0)
        printf("NOT MET: %s: %s\n", group, name);
    return count > 0;
}

static bool met_number(const char *group, int number, uint64_t count)
{
    char name[16];
    snprintf(name, sizeof name, "%d", number);
    return met(group, name, count);
}

static bool all_counted(const char *group, const counter *c, int count)
{
    bool all = true;
    for (int i = 0; i < count; i++)
        all = met(group, c[i].name, c[i].count) && all;
    return all;
}

/* Of refusal 13: by each length, by each sum, with each other refusal that the call can give. */
static bool all_states(void)
{
    static const char *const length[] = { "", "13 by start, bytes", "13 by run, bytes" };
    static const char *const with[] = { "", "due with 13, start", "due with 13, run" };
    bool all = all_counted("registers", state_met, STATE_COUNTERS);
    all = all_counted("states misplaced", misplaced, MISPLACED) && all;
    for (int call = START; call <= RUN; call++) {
        for (int k = 0; k < ODD_LENGTHS; k++)
            all = met_number(length[call], (int)odd_lengths[k], by_length[call][k]) && all;
        all = met(length[call], "others", by_length[call][ODD_LENGTHS]) && all;
        for (int k = 1; k <= (call == START ? 11 : 12); k++)
            all = met_number(with[call], k, beside[call][k]) && all;
    }
    return all;
}

static bool all_reals(void)
{
    bool all = all_counted("reals", real_met, REAL_COUNTERS);
    all = all_counted("refused for a real", spoilt_met, SPOILT_COUNTERS) && all;
    for (int k = 0; k < 4; k++)
        for (int i = 0; i < RESULTS; i++) {
            char code[16];
            snprintf(code, sizeof code, "%d", 150 + k);
            all = met(code, result_name[i], results[k][i]) && all;
        }
    return all;
}

/* Nothing that the table counts is 0. */
static bool all_met(void)
{
    static const char *const by[] = { "refused by check", "refused by start", "refused by run" };
    static const char *const edge[] = {
        "4,096 bytes and passed", "4,097 bytes", "64 procedures and passed",
        "65 procedures refused as 4", "0 bytes"
    };
    bool all = all_states();
    all = all_reals() && all;
    for (int call = CHECK; call <= RUN; call++)
        for (int k = 1; k <= (call == CHECK ? 9 : 13); k++)
            if (call != START || k != 12) /* start has no state to judge */
                all = met_number(by[call], k, refusals[call][k]) && all;
    for (int k = 1; k <= 6; k++)
        all = met_number("uncaught", k, raised[k]) && all;
    all = all_counted("vectors", vector_met, VECTOR_COUNTERS) && all;
    for (size_t i = 0; i < sizeof kinds; i++)
        if (kinds[i] != 240)
            all = met_number("single step", kinds[i], stepped[kinds[i]]) && all;
    all = all_counted("refused 11", heap_met, HEAP_COUNTERS) && all;
    for (int i = 0; i < SORTS; i++)
        all = met("files", made_name[i], made[i]) && all;
    for (int i = 0; i < DAMAGES; i++)
        all = met("damage", damage_name[i], damages[i]) && all;
    for (int i = 0; i < 5; i++)
        all = met("files", edge[i], edges[i]) && all;
    return all;
}

int main(int argc, char **argv)
{
    seed = argc > 1 ? strtoull(argv[1], NULL, 10) : 1;
    uint64_t cases = argc > 2 ? strtoull(argv[2], NULL, 10) : 10000;
    uint64_t first = argc > 3 ? strtoull(argv[3], NULL, 10) : 0;
    clock_t begun = clock();
    for (int i = 0; i < LISTS; i++)
        lend(i, 0);
    for (case_no = first; case_no < first + cases; case_no++) {
        one_case();
        if ((case_no + 1 - first) % 50000 == 0) {
            printf("%" PRIu64 " cases, %" PRIu64 " calls, no difference\n",
                   case_no + 1 - first, calls);
            fflush(stdout);
        }
    }
    table();
    printf("seed %" PRIu64 ": %" PRIu64 " cases, 0 differences, %.1f seconds\n", seed, cases,
           (double)(clock() - begun) / CLOCKS_PER_SEC);
    for (int i = 0; i < LISTS; i++) {
        free(lists[i].ref);
        free(lists[i].room);
    }
    if (have_before)
        snap_free(&before_call);
    return cases < MANY || all_met() ? 0 : 2;
}
