/*
 * Calls the functions of both headers and checks their answers, their refusals and what they leave in the buffers that they are lent.
 * Calls over a complex are made twice: with the check of the complex, and as cores. The stack of small calls is measured.
 */
#define _POSIX_C_SOURCE 200809L
#include <pthread.h>
#include <stdio.h>
#include <stdlib.h>
#include <string.h>

#include "cjapthumi.h"
#include "cjapthumi_built.h"

/* ---- checks ---- */

static unsigned checks, failures;

/* Counts a check and says which one failed. */
static void check(int holds, const char *condition, int line)
{
    checks++;
    if (!holds) {
        failures++;
        fprintf(stderr, "line %d: %s\n", line, condition);
    }
}

#define CHECK(condition) check((condition), #condition, __LINE__)

/* The bits of pi / 2 and of 2 pi. */
#define HALF_PI UINT64_C(0x3ff921fb54442d18)
#define TWO_PI UINT64_C(0x401921fb54442d18)

/* A double's bits. */
static uint64_t bits(double x)
{
    uint64_t word;
    memcpy(&word, &x, sizeof word);
    return word;
}

/* The double of some bits. */
static double of_bits(uint64_t word)
{
    double x;
    memcpy(&x, &word, sizeof x);
    return x;
}

/* Two doubles are equal: the same bits, or both NaN. */
static int same(double x, double y)
{
    return bits(x) == bits(y) || (x != x && y != y);
}

/* Two lists of doubles are equal. */
static int all_same(const double *x, const double *y, size_t n)
{
    size_t i = 0;
    while (i < n && same(x[i], y[i]))
        i++;
    return i == n;
}

/* Two doubles differ by at most a limit, beside the size of the second. */
static int close_to(double x, double y, double limit)
{
    return cjapthumi_abs(x - y) <= limit * (1.0 + cjapthumi_abs(y));
}

/* ---- what buffers hold before a call ---- */

#define PATTERN 0x5a

/* Bytes are as they were before any call. */
static int untouched(const void *bytes, size_t n)
{
    const unsigned char *byte = bytes;
    size_t i = 0;
    while (i < n && byte[i] == PATTERN)
        i++;
    return i == n;
}

/* Room for so many elements, filled with the pattern. */
static void *room(size_t count, size_t size)
{
    void *bytes = malloc(count * size);
    if (bytes == NULL)
        exit(2);
    return memset(bytes, PATTERN, count * size);
}

/* What the calls over small complexes are lent: the lengths, and all outputs. */
struct buffers {
    double lengths[32], deficits[32], grad[32], hessian[32];
    double deficit, action;
    size_t count;
    uint32_t tris[32];
    uint8_t kinds[32], kind;
};

/* The buffers before any call. */
static void clear(struct buffers *b)
{
    memset(b, PATTERN, sizeof *b);
}

/* A call is refused with a number and leaves the buffers as they were. */
#define REFUSES(number, b, call)                         \
    do {                                                 \
        struct buffers before;                           \
        memcpy(&before, (b), sizeof before);             \
        CHECK((call) == (number));                       \
        CHECK(memcmp(&before, (b), sizeof before) == 0); \
    } while (0)

/* ---- how much stack a call takes ---- */

/* The size of a thread's stack in bytes. */
#define STACK 65536

/* A call without parameters, for a thread. */
static void *call_once(void *call)
{
    (*(void (**)(void))call)();
    return NULL;
}

/* Makes no call. */
static void no_call(void)
{
}

/* How many bytes of a thread's stack a call writes to at its deepest, with what the thread itself takes. */
static size_t stack_with(void (*call)(void))
{
    static unsigned char stack[STACK] __attribute__((aligned(4096)));
    pthread_attr_t attributes;
    pthread_t thread;
    size_t kept = 0;
    memset(stack, PATTERN, STACK);
    CHECK(pthread_attr_init(&attributes) == 0);
    CHECK(pthread_attr_setstack(&attributes, stack, STACK) == 0);
    CHECK(pthread_create(&thread, &attributes, call_once, &call) == 0);
    CHECK(pthread_join(thread, NULL) == 0);
    pthread_attr_destroy(&attributes);
    while (kept < STACK && stack[kept] == PATTERN)
        kept++;
    return STACK - kept;
}

/* How many bytes of stack a call takes beside what the thread and its first function take, with the words by which C passes lists. */
static size_t stack_of(void (*call)(void))
{
    size_t own = stack_with(no_call), all = stack_with(call);
    return all > own ? all - own : 0;
}

/* What is passed on the stack takes at most so many bytes: the headers speak of what a call takes below it. */
#define PASSED 256

/* ---- complexes ---- */

/* The lists of a complex in their order, and the two incidence lists. */
enum {
    PENTS,
    EDGES,
    TRIANGLES,
    TETS,
    TRI_TO_PENTS,
    TRI_TO_PENTS_STARTS,
    EDGE_TO_TRIS,
    EDGE_TO_TRIS_STARTS,
    EDGE_TO_PENTS,
    EDGE_TO_PENTS_STARTS,
    PENT_EDGES,
    PENT_TRIS,
    LISTS
};

/* A complex with its incidence lists, and whether calls over it are cores. */
struct complex {
    size_t counts[5];
    uint32_t *lists[LISTS];
    size_t lens[LISTS];
    int core;
};

/* Lists as they are lent. */
#define LENT(c, k) (c)->lists[k], (c)->lens[k]
#define TEN(c)                                                                                                                \
    LENT(c, PENTS), LENT(c, EDGES), LENT(c, TRIANGLES), LENT(c, TETS), LENT(c, TRI_TO_PENTS), LENT(c, TRI_TO_PENTS_STARTS),   \
        LENT(c, EDGE_TO_TRIS), LENT(c, EDGE_TO_TRIS_STARTS), LENT(c, EDGE_TO_PENTS), LENT(c, EDGE_TO_PENTS_STARTS)
#define TWELVE(c) TEN(c), LENT(c, PENT_EDGES), LENT(c, PENT_TRIS)

/* A call over a complex, with its check or as a core. */
#define CALL(name, c, ...)                                                         \
    ((c)->core ? cjapthumi_##name##_built((c)->counts, TWELVE(c), __VA_ARGS__)     \
               : cjapthumi_##name((c)->counts, TEN(c), __VA_ARGS__))

/* How many places each list gets beside its room. */
#define SPARE 3

/* Lists with room for so many pentachorons. */
static void make(struct complex *c, size_t pents)
{
    static const size_t each[LISTS] = {5, 20, 30, 20, 10, 10, 30, 10, 10, 10, 10, 10};
    memset(c->counts, PATTERN, sizeof c->counts);
    for (int k = 0; k < LISTS; k++) {
        int starts = k == TRI_TO_PENTS_STARTS || k == EDGE_TO_TRIS_STARTS || k == EDGE_TO_PENTS_STARTS;
        c->lens[k] = each[k] * pents + (starts ? 1 : 0) + SPARE;
        c->lists[k] = room(c->lens[k], sizeof(uint32_t));
    }
    c->core = 0;
}

/* Gives the lists back. */
static void release(struct complex *c)
{
    for (int k = 0; k < LISTS; k++)
        free(c->lists[k]);
}

/* From some place on a list is as it was made. */
static int rest_untouched(const struct complex *c, int list, size_t from)
{
    return untouched(c->lists[list] + from, (c->lens[list] - from) * sizeof(uint32_t));
}

/* No list and no count is written yet. */
static int all_untouched(const struct complex *c)
{
    int list = 0;
    while (list < LISTS && rest_untouched(c, list, 0))
        list++;
    return list == LISTS && untouched(c->counts, sizeof c->counts);
}

/* Builds; the refusal's number. */
static uint32_t build(struct complex *c, size_t vertices, const uint32_t *given, size_t given_len, size_t *place)
{
    return cjapthumi_from_pentachorons(vertices, given, given_len, TEN(c), c->counts, place);
}

/* Checks; the refusal's number. */
static uint32_t check_built(struct complex *c)
{
    return cjapthumi_check_built(c->counts, TEN(c), LENT(c, PENT_EDGES), LENT(c, PENT_TRIS));
}

/* P5's pentachorons. */
static const uint32_t NEIGHBOURS[10] = {0, 1, 2, 3, 4, 1, 2, 3, 4, 5};

/* P5's complex, with its incidence lists. */
static void make_neighbours(struct complex *c)
{
    size_t place;
    make(c, 2);
    CHECK(build(c, 6, NEIGHBOURS, 10, &place) == 0);
    CHECK(check_built(c) == 0);
}

/* The number of edges. */
static size_t edges_of(const struct complex *c)
{
    return c->counts[CJAPTHUMI_EDGES];
}

/* The number of triangles. */
static size_t triangles_of(const struct complex *c)
{
    return c->counts[CJAPTHUMI_TRIANGLES];
}

/* The squared length of the edge of two vertices. */
static double length_between(const struct complex *c, const double *lengths, uint32_t a, uint32_t b)
{
    const uint32_t *ends = c->lists[EDGES];
    size_t e = 0;
    while (ends[2 * e] != a || ends[2 * e + 1] != b)
        e++;
    return lengths[e];
}

/* The area of a triangle, from its squared area in size. */
static double area(const struct complex *c, const double *lengths, size_t t)
{
    const uint32_t *v = c->lists[TRIANGLES] + 3 * t;
    double s01 = length_between(c, lengths, v[0], v[1]);
    double s02 = length_between(c, lengths, v[0], v[2]);
    double s12 = length_between(c, lengths, v[1], v[2]);
    return cjapthumi_root(cjapthumi_abs(cjapthumi_triangle_area_sq_lorentzian(s01, s02, s12)));
}

/* A triangle lies on an edge. */
static int on_edge(const struct complex *c, size_t t, size_t e)
{
    const uint32_t *v = c->lists[TRIANGLES] + 3 * t, *ends = c->lists[EDGES] + 2 * e;
    int found = 0;
    for (int i = 0; i < 3; i++)
        found += v[i] == ends[0] || v[i] == ends[1];
    return found == 2;
}

/* ---- floats ---- */

/* The functions of one double, at P9 and at zeros and bounds. */
static void test_floats(void)
{
    CHECK(bits(cjapthumi_root(0.25)) == bits(0.5));
    CHECK(cjapthumi_root(-1.0) != cjapthumi_root(-1.0));
    CHECK(bits(cjapthumi_root(-0.0)) == bits(-0.0));
    CHECK(bits(cjapthumi_acos(0.0)) == HALF_PI);
    CHECK(bits(cjapthumi_log(1.0)) == bits(0.0));
    CHECK(bits(cjapthumi_log1p(-0.0)) == bits(-0.0));
    CHECK(bits(cjapthumi_acosh(1.0)) == bits(0.0));
    CHECK(cjapthumi_acosh(0.5) != cjapthumi_acosh(0.5));
    CHECK(bits(cjapthumi_asinh(-0.0)) == bits(-0.0));
    CHECK(bits(cjapthumi_abs(-0.0)) == bits(0.0));
    CHECK(bits(cjapthumi_signum(-0.0)) == bits(-1.0));
    CHECK(bits(cjapthumi_clamp_unit(-7.0)) == bits(-1.0));
    CHECK(bits(cjapthumi_clamp_unit(0.75)) == bits(0.75));
}

/* ---- one pentachoron ---- */

/* Ten squared lengths: all 1, P2's, all 0. */
static const double ONES[10] = {1, 1, 1, 1, 1, 1, 1, 1, 1, 1};
static const double MIXED[10] = {-1, 1, 1, 1, 0, 0, 0, 2, 2, 2};
static const double ZEROS[10] = {0};

/* The cofactor C_lm. */
static double cofactor(const double s[10], size_t l, size_t m)
{
    double matrix[6][6], value = 0.0;
    cjapthumi_cm_matrix_signed(s, matrix);
    CHECK(cjapthumi_cofactor_6x6(matrix, l + 1, m + 1, &value) == 0);
    return value;
}

/* Matrices and cofactors of P1 and P2. */
static void test_cofactors(void)
{
    double c[15], matrix[6][6], value = 7.0;
    size_t next = 0;
    cjapthumi_cm_cofactors(ONES, c);
    for (size_t l = 0; l < 5; l++)
        for (size_t m = 0; m < 5; m++) {
            /* P1 */
            CHECK(cofactor(ONES, l, m) == (l == m ? 4.0 : -1.0));
            if (l <= m)
                CHECK(same(c[next++], cofactor(ONES, l, m)));
        }
    /* P2 */
    CHECK(cofactor(MIXED, 0, 0) == -16.0);
    CHECK(cofactor(MIXED, 1, 1) == 8.0);
    CHECK(cofactor(MIXED, 2, 2) == -8.0);
    CHECK(cofactor(MIXED, 0, 1) == -8.0);
    CHECK(cofactor(MIXED, 0, 2) == 8.0);
    CHECK(cofactor(MIXED, 2, 3) == 0.0);
    cjapthumi_cm_matrix_signed(MIXED, matrix);
    CHECK(matrix[0][0] == 0.0 && matrix[0][5] == 1.0 && matrix[5][0] == 1.0 && matrix[1][2] == -1.0 && matrix[5][4] == 2.0);
    CHECK(cjapthumi_cofactor_6x6(matrix, 6, 0, &value) == CJAPTHUMI_BAD_INDEX);
    CHECK(cjapthumi_cofactor_6x6(matrix, 0, 6, &value) == CJAPTHUMI_BAD_INDEX);
    CHECK(value == 7.0);
}

/* Squared areas and their gradients, P1's among them. */
static void test_areas(void)
{
    static const size_t tri[3] = {4, 0, 2}, twice[3] = {1, 3, 1}, outside[3] = {0, 1, 5};
    double three[3], ten[10], before[10];
    CHECK(cjapthumi_triangle_area_sq_lorentzian(1.0, 1.0, 1.0) == 0.1875);
    cjapthumi_triangle_area_sq_grad(1.0, 1.0, 1.0, three);
    CHECK(three[0] == 0.125 && three[1] == 0.125 && three[2] == 0.125);
    /* the edges 04, 24 and 02 have the numbers 3, 8 and 1 */
    CHECK(cjapthumi_tri_area_sq_grad_in_pent(ONES, tri, ten) == 0);
    for (int e = 0; e < 10; e++)
        CHECK(ten[e] == (e == 1 || e == 3 || e == 8 ? 0.125 : 0.0));
    memcpy(before, ten, sizeof ten);
    CHECK(cjapthumi_tri_area_sq_grad_in_pent(ONES, twice, ten) == CJAPTHUMI_BAD_INDEX);
    CHECK(cjapthumi_tri_area_sq_grad_in_pent(ONES, outside, ten) == CJAPTHUMI_BAD_INDEX);
    CHECK(all_same(before, ten, 10));
}

/* The dihedral of a pair by both rules, which agree: its kind, and its number in `value`. */
static uint8_t dihedral(const double s[10], size_t l, size_t m, double *value)
{
    double other;
    uint8_t kind, first = cjapthumi_compute_dihedral(cofactor(s, l, m), cofactor(s, l, l), cofactor(s, m, m), &other);
    CHECK(cjapthumi_lorentzian_dihedral(s, l, m, value, &kind) == 0);
    CHECK(kind == first && same(*value, other));
    return kind;
}

/* Dihedrals of P1, P3 and P4 by both rules, all ten, and their Jacobian. */
static void test_dihedrals(void)
{
    double value = 7.0, values[10], jac[100], up[10], down[10], plus[10], minus[10];
    uint8_t kind = 9, kinds[10];
    /* P1: the ratio is 0.25 */
    CHECK(dihedral(ONES, 0, 1, &value) == CJAPTHUMI_SPACELIKE && same(value, cjapthumi_acos(0.25)));
    /* P3 */
    CHECK(dihedral(MIXED, 0, 1, &value) == CJAPTHUMI_TIMELIKE);
    CHECK(dihedral(MIXED, 0, 2, &value) == CJAPTHUMI_SPACELIKE && value < of_bits(HALF_PI));
    CHECK(dihedral(MIXED, 2, 3, &value) == CJAPTHUMI_SPACELIKE && bits(value) == HALF_PI);
    CHECK(dihedral(MIXED, 1, 2, &value) == CJAPTHUMI_TIMELIKE && value == 0.0);
    /* P4 */
    CHECK(cjapthumi_compute_dihedral(0.0, 0.0, 0.0, &value) == CJAPTHUMI_SPACELIKE && bits(value) == bits(0.0));
    CHECK(cjapthumi_lorentzian_dihedral(ZEROS, 0, 1, &value, &kind) == 0);
    CHECK(kind == CJAPTHUMI_TIMELIKE && bits(value) == bits(0.0));
    value = 7.0;
    kind = 9;
    CHECK(cjapthumi_lorentzian_dihedral(ONES, 5, 0, &value, &kind) == CJAPTHUMI_BAD_INDEX);
    CHECK(cjapthumi_lorentzian_dihedral(ONES, 0, 5, &value, &kind) == CJAPTHUMI_BAD_INDEX);
    CHECK(cjapthumi_lorentzian_dihedral(ONES, 3, 3, &value, &kind) == CJAPTHUMI_BAD_INDEX);
    CHECK(value == 7.0 && kind == 9);
    cjapthumi_all_lorentzian_dihedrals(MIXED, values, kinds);
    for (size_t l = 0, k = 0; l < 5; l++)
        for (size_t m = l + 1; m < 5; m++, k++)
            CHECK(dihedral(MIXED, l, m, &value) == kinds[k] && same(value, values[k]));
    cjapthumi_all_lorentzian_dihedrals_jacobian(ONES, 0.125, jac);
    for (int e = 0; e < 10; e++) {
        memcpy(up, ONES, sizeof up);
        memcpy(down, ONES, sizeof down);
        up[e] = 1.125;
        down[e] = 0.875;
        cjapthumi_all_lorentzian_dihedrals(up, plus, kinds);
        cjapthumi_all_lorentzian_dihedrals(down, minus, kinds);
        for (int k = 0; k < 10; k++)
            CHECK(same(jac[10 * k + e], (plus[k] - minus[k]) / 0.25));
    }
}

/* ---- the builder and the check of a complex ---- */

/* P5, P6 and no pentachoron at all. */
static void test_builder(void)
{
    static const size_t counts[5] = {6, 2, 14, 16, 9}, twice_counts[5] = {5, 2, 10, 10, 5}, empty_counts[5] = {3, 0, 0, 0, 0};
    static const uint32_t edges[28] = {0, 1, 0, 2, 0, 3, 0, 4, 1, 2, 1, 3, 1, 4, 2, 3, 2, 4, 3, 4, 1, 5, 2, 5, 3, 5, 4, 5};
    static const uint32_t twice[10] = {4, 3, 2, 1, 0, 4, 3, 2, 1, 0};
    struct complex c;
    size_t place = 77;
    /* P5 */
    make(&c, 2);
    CHECK(build(&c, 6, NEIGHBOURS, 10, &place) == CJAPTHUMI_DONE && place == 0);
    CHECK(memcmp(c.counts, counts, sizeof counts) == 0);
    CHECK(memcmp(c.lists[EDGES], edges, sizeof edges) == 0 && rest_untouched(&c, EDGES, 28));
    CHECK(rest_untouched(&c, PENTS, 10) && rest_untouched(&c, TRIANGLES, 48) && rest_untouched(&c, TETS, 36));
    CHECK(rest_untouched(&c, EDGE_TO_PENTS_STARTS, 15) && rest_untouched(&c, TRI_TO_PENTS_STARTS, 17));
    CHECK(c.lists[EDGE_TO_PENTS_STARTS][4] == 4 && c.lists[EDGE_TO_PENTS_STARTS][5] == 6);
    CHECK(c.lists[EDGE_TO_PENTS][4] == 0 && c.lists[EDGE_TO_PENTS][5] == 1);
    release(&c);
    /* P6 */
    make(&c, 2);
    CHECK(build(&c, 5, twice, 10, &place) == CJAPTHUMI_DONE);
    CHECK(memcmp(c.counts, twice_counts, sizeof twice_counts) == 0);
    for (uint32_t i = 0; i < 10; i++) {
        CHECK(c.lists[PENTS][i] == i % 5);
        CHECK(c.lists[TRI_TO_PENTS_STARTS][i] == 2 * i);
        CHECK(c.lists[TRI_TO_PENTS][2 * i] == 0 && c.lists[TRI_TO_PENTS][2 * i + 1] == 1);
    }
    release(&c);
    make(&c, 0);
    CHECK(build(&c, 3, twice, 0, &place) == CJAPTHUMI_DONE);
    CHECK(memcmp(c.counts, empty_counts, sizeof empty_counts) == 0);
    CHECK(c.lists[EDGE_TO_TRIS_STARTS][0] == 0 && rest_untouched(&c, EDGE_TO_TRIS_STARTS, 1) && rest_untouched(&c, EDGES, 0));
    CHECK(check_built(&c) == 0);
    release(&c);
}

/* A refusal of the builder: its number and its place; no list and no count is written. */
static void refuses_build(uint32_t number, size_t place, struct complex *c, size_t vertices, const uint32_t *given, size_t given_len)
{
    size_t got = 77;
    CHECK(build(c, vertices, given, given_len, &got) == number);
    CHECK(got == place);
    CHECK(all_untouched(c));
}

/* 1, 2, 5, 3 and 4 with their places, P7 and P8 among them. */
static void test_builder_refusals(void)
{
    static const uint32_t too_large[10] = {0, 1, 2, 3, 4, 1, 2, 3, 4, 6}, repeated[10] = {0, 1, 2, 3, 4, 0, 0, 1, 2, 3};
    static const uint32_t both[5] = {0, 0, 1, 2, 9}, p7[5] = {0, 1, 2, 3, 5}, p8[5] = {0, 0, 1, 2, 3};
    uint32_t *many = room(40965, sizeof(uint32_t));
    struct complex c;
    make(&c, 2);
    refuses_build(CJAPTHUMI_VERTEX_COUNT, 0, &c, 0, too_large, 4);
    refuses_build(CJAPTHUMI_VERTEX_COUNT, 0, &c, 4097, NEIGHBOURS, 10);
    refuses_build(CJAPTHUMI_LIST_LENGTH, 0, &c, 6, too_large, 4);
    refuses_build(CJAPTHUMI_LIST_LENGTH, 0, &c, 6, many, 40965);
    refuses_build(CJAPTHUMI_SHORT_ROOM, 0, &c, 6, many, 40960);
    for (int k = PENTS; k <= EDGE_TO_PENTS_STARTS; k++) {
        c.lens[k] -= SPARE + 1;
        refuses_build(CJAPTHUMI_SHORT_ROOM, 0, &c, 6, too_large, 10);
        c.lens[k] += SPARE + 1;
    }
    refuses_build(CJAPTHUMI_VERTEX_TOO_LARGE, 1, &c, 6, too_large, 10);
    refuses_build(CJAPTHUMI_REPEATED_VERTEX, 1, &c, 6, repeated, 10);
    refuses_build(CJAPTHUMI_VERTEX_TOO_LARGE, 0, &c, 6, both, 5);
    refuses_build(CJAPTHUMI_VERTEX_TOO_LARGE, 0, &c, 5, p7, 5);
    refuses_build(CJAPTHUMI_REPEATED_VERTEX, 0, &c, 5, p8, 5);
    release(&c);
    free(many);
}

/* The incidence lists of P5, 7 for each list and count that is changed, and 5. */
static void test_check_built(void)
{
    static const uint32_t pent_edges[20] = {0, 1, 2, 3, 4, 5, 6, 7, 8, 9, 4, 5, 6, 10, 7, 8, 11, 9, 12, 13};
    static const uint32_t pent_tris[20] = {0, 1, 2, 3, 4, 5, 6, 7, 8, 9, 6, 7, 10, 8, 11, 12, 9, 13, 14, 15};
    struct complex c;
    size_t place;
    make(&c, 2);
    CHECK(build(&c, 6, NEIGHBOURS, 10, &place) == 0);
    for (int k = PENTS; k <= EDGE_TO_PENTS_STARTS; k++) {
        c.lists[k][0]++;
        CHECK(check_built(&c) == CJAPTHUMI_NOT_BUILT);
        c.lists[k][0]--;
    }
    for (int k = 0; k < 5; k++) {
        c.counts[k]++;
        /* one more vertex is another lawful complex */
        if (k != CJAPTHUMI_VERTICES)
            CHECK(check_built(&c) == CJAPTHUMI_NOT_BUILT);
        c.counts[k]--;
    }
    for (int k = PENT_EDGES; k <= PENT_TRIS; k++) {
        c.lens[k] -= SPARE + 1;
        CHECK(check_built(&c) == CJAPTHUMI_SHORT_ROOM);
        c.lens[k] += SPARE + 1;
    }
    CHECK(rest_untouched(&c, PENT_EDGES, 0) && rest_untouched(&c, PENT_TRIS, 0));
    CHECK(check_built(&c) == CJAPTHUMI_DONE);
    CHECK(memcmp(c.lists[PENT_EDGES], pent_edges, sizeof pent_edges) == 0 && rest_untouched(&c, PENT_EDGES, 20));
    CHECK(memcmp(c.lists[PENT_TRIS], pent_tris, sizeof pent_tris) == 0 && rest_untouched(&c, PENT_TRIS, 20));
    release(&c);
}

/* ---- lattices ---- */

/* The type and the flat squared length of each edge agree; the steps in space and time are 1 and 0.25. */
static void test_flat_edges(const struct complex *c, size_t n_t, size_t n_s, double *lengths)
{
    size_t edges = edges_of(c);
    uint8_t *types = room(edges, 1);
    CHECK(cjapthumi_edge_types(6, 4, c->counts, TEN(c), types, edges) == CJAPTHUMI_LATTICE_SIZE);
    CHECK(cjapthumi_edge_types(n_t, n_s - 1, c->counts, TEN(c), types, edges) == CJAPTHUMI_NOT_BUILT);
    CHECK(cjapthumi_edge_types(n_t, n_s, c->counts, TEN(c), types, edges - 1) == CJAPTHUMI_SHORT_ROOM);
    CHECK(cjapthumi_flat_minkowski_sq_lengths(1, 3, c->counts, TEN(c), 1.0, 0.25, lengths, edges) == CJAPTHUMI_LATTICE_SIZE);
    CHECK(cjapthumi_flat_minkowski_sq_lengths(n_t, n_s - 1, c->counts, TEN(c), 1.0, 0.25, lengths, edges) == CJAPTHUMI_NOT_BUILT);
    CHECK(cjapthumi_flat_minkowski_sq_lengths(n_t, n_s, c->counts, TEN(c), 1.0, 0.25, lengths, edges - 1) == CJAPTHUMI_SHORT_ROOM);
    CHECK(untouched(types, edges) && untouched(lengths, edges * sizeof *lengths));
    CHECK(cjapthumi_edge_types(n_t, n_s, c->counts, TEN(c), types, edges) == CJAPTHUMI_DONE);
    CHECK(cjapthumi_flat_minkowski_sq_lengths(n_t, n_s, c->counts, TEN(c), 1.0, 0.25, lengths, edges) == CJAPTHUMI_DONE);
    for (size_t e = 0; e < edges; e++) {
        double space = lengths[e] + (types[e] == CJAPTHUMI_EDGE_SPATIAL ? 0.0 : 0.0625);
        if (types[e] == CJAPTHUMI_EDGE_TIMELIKE)
            CHECK(space == 0.0);
        else
            CHECK(types[e] <= CJAPTHUMI_EDGE_DIAGONAL && (space == 1.0 || space == 2.0 || space == 3.0));
    }
    free(types);
}

/* The counts of three lattices, 6 and 5; a flat lattice has no curvature. */
static void test_lattice(void)
{
    static const size_t counts[5] = {81, 1944, 1215, 4050, 4860};
    static const size_t unlawful[4][2] = {{6, 4}, {1, 3}, {2, 9}, {9, 2}};
    uint32_t *pents = room(120 * 81, sizeof(uint32_t));
    struct complex c;
    size_t count = 77, place;
    for (int k = 0; k < 4; k++)
        CHECK(cjapthumi_foliated_hypercubic(unlawful[k][0], unlawful[k][1], pents, 120 * 81, &count) == CJAPTHUMI_LATTICE_SIZE);
    CHECK(cjapthumi_foliated_hypercubic(3, 3, pents, 120 * 81 - 1, &count) == CJAPTHUMI_SHORT_ROOM);
    CHECK(count == 77 && untouched(pents, 120 * 81 * sizeof *pents));
    CHECK(cjapthumi_foliated_hypercubic(2, 2, pents, 120 * 81, &count) == CJAPTHUMI_DONE && count == 192);
    CHECK(untouched(pents + 5 * 192, (120 * 81 - 5 * 192) * sizeof *pents));
    CHECK(cjapthumi_foliated_hypercubic(3, 2, pents, 120 * 81, &count) == CJAPTHUMI_DONE && count == 576);
    CHECK(cjapthumi_foliated_hypercubic(3, 3, pents, 120 * 81, &count) == CJAPTHUMI_DONE && count == 1944);
    make(&c, count);
    CHECK(build(&c, 81, pents, 5 * count, &place) == CJAPTHUMI_DONE);
    CHECK(memcmp(c.counts, counts, sizeof counts) == 0);
    CHECK(check_built(&c) == CJAPTHUMI_DONE);
    double *lengths = room(edges_of(&c), sizeof(double)), *deficits = room(triangles_of(&c), sizeof(double));
    uint8_t *kinds = room(triangles_of(&c), 1);
    test_flat_edges(&c, 3, 3, lengths);
    for (c.core = 0; c.core < 2; c.core++) {
        memset(deficits, PATTERN, triangles_of(&c) * sizeof *deficits);
        CHECK(CALL(lorentzian_deficit_angles, &c, lengths, edges_of(&c), deficits, triangles_of(&c), kinds, triangles_of(&c)) == 0);
        for (size_t t = 0; t < triangles_of(&c); t++)
            CHECK(close_to(deficits[t], 0.0, 1e-12) && kinds[t] <= CJAPTHUMI_TIMELIKE);
    }
    free(lengths);
    free(deficits);
    free(kinds);
    free(pents);
    release(&c);
}

/* ---- hinges, action, gradient ---- */

/* Lengths all 0: every deficit is 2 pi, Spacelike, and the gradient is 0. */
static void test_zero_lengths(const struct complex *c)
{
    struct buffers b;
    size_t edges = edges_of(c), triangles = triangles_of(c), signs[3];
    clear(&b);
    for (size_t e = 0; e < edges; e++)
        b.lengths[e] = 0.0;
    CHECK(CALL(lorentzian_deficit_angles, c, b.lengths, edges, b.deficits, 32, b.kinds, 32) == 0);
    CHECK(CALL(lorentzian_regge_action_grad, c, b.lengths, edges, b.grad, 32) == 0);
    for (size_t t = 0; t < triangles; t++)
        CHECK(bits(b.deficits[t]) == TWO_PI && b.kinds[t] == CJAPTHUMI_SPACELIKE);
    for (size_t e = 0; e < edges; e++)
        CHECK(bits(b.grad[e]) == bits(0.0));
    CHECK(untouched(b.deficits + triangles, (32 - triangles) * sizeof(double)) && untouched(b.kinds + triangles, 32 - triangles));
    CHECK(untouched(b.grad + edges, (32 - edges) * sizeof(double)));
    cjapthumi_length_signs(b.lengths, edges, signs);
    CHECK(signs[0] == 0 && signs[1] == edges && signs[2] == 0);
}

/* Lengths all 1: dihedrals are acos 0.25, and a triangle lies in one pentachoron or, with vertices 1 to 4, in both. */
static void test_unit_lengths(const struct complex *c)
{
    struct buffers b;
    size_t edges = edges_of(c), triangles = triangles_of(c);
    double one = cjapthumi_acos(0.25), slope = 0.125 / (2.0 * cjapthumi_root(0.1875)), action = 0.0, grad = 0.0;
    clear(&b);
    for (size_t e = 0; e < edges; e++)
        b.lengths[e] = 1.0;
    CHECK(CALL(lorentzian_deficit_angles, c, b.lengths, edges, b.deficits, 32, b.kinds, 32) == 0);
    CHECK(CALL(lorentzian_regge_action, c, b.lengths, edges, &b.action) == 0);
    CHECK(CALL(lorentzian_regge_action_grad, c, b.lengths, edges, b.grad, 32) == 0);
    for (size_t t = 0; t < triangles; t++) {
        const uint32_t *v = c->lists[TRIANGLES] + 3 * t;
        CHECK(same(b.deficits[t], of_bits(TWO_PI) - (v[0] > 0 && v[2] < 5 ? one + one : one)));
        CHECK(b.kinds[t] == CJAPTHUMI_SPACELIKE);
        action += area(c, b.lengths, t) * b.deficits[t];
        grad += on_edge(c, t, 4) ? slope * b.deficits[t] : 0.0;
    }
    CHECK(same(b.action, action));
    CHECK(close_to(b.grad[4], grad, 1e-14));
}

/* Squared lengths of all signs for P5's 14 edges, the first ten P2's. */
static const double SIGNED[14] = {-1, 1, 1, 1, 0, 0, 0, 2, 2, 2, 1.5, -0.75, 1.25, 2.5};

/* Each hinge by itself is that of the table; the action is the sum over the table. */
static void test_one_hinge(const struct complex *c)
{
    struct buffers b;
    size_t edges = edges_of(c), triangles = triangles_of(c), signs[3];
    double action = 0.0;
    clear(&b);
    memcpy(b.lengths, SIGNED, sizeof SIGNED);
    CHECK(CALL(lorentzian_deficit_angles, c, b.lengths, edges, b.deficits, triangles, b.kinds, triangles) == 0);
    for (uint32_t t = 0; t < triangles; t++) {
        CHECK(CALL(lorentzian_deficit_angle, c, b.lengths, edges, t, &b.deficit, &b.kind) == 0);
        CHECK(same(b.deficit, b.deficits[t]) && b.kind == b.kinds[t]);
        action += area(c, b.lengths, t) * b.deficits[t];
    }
    CHECK(CALL(lorentzian_regge_action, c, b.lengths, edges, &b.action) == 0);
    CHECK(same(b.action, action));
    b.lengths[0] = of_bits(UINT64_C(0x7ff8000000000000));
    b.lengths[4] = -0.0;
    cjapthumi_length_signs(b.lengths, edges, signs);
    CHECK(signs[0] == 1 && signs[1] == 3 && signs[2] == 10);
}

/* ---- the stack that the headers speak of ---- */

/* What the measured calls are given: ten squared lengths for one pentachoron, and P5's complex with its buffers. */
static struct complex *measured;
static struct buffers on_stack;
static double ten[10], hundred[100];

/* All deficits, by the core. */
static void core_deficits(void)
{
    const struct complex *c = measured;
    cjapthumi_lorentzian_deficit_angles_built(c->counts, TWELVE(c), on_stack.lengths, edges_of(c), on_stack.deficits, triangles_of(c),
                                              on_stack.kinds, triangles_of(c));
}

/* One deficit, by the core. */
static void core_deficit(void)
{
    const struct complex *c = measured;
    cjapthumi_lorentzian_deficit_angle_built(c->counts, TWELVE(c), on_stack.lengths, edges_of(c), 0, &on_stack.deficit, &on_stack.kind);
}

/* The Jacobian of one pentachoron, which takes the most of the calls over one. */
static void one_jacobian(void)
{
    cjapthumi_all_lorentzian_dihedrals_jacobian(ten, 1e-6, hundred);
}

/* Two cores take less than 2 KiB and the Jacobian less than 8, at lengths of all sizes and at NaN. */
static void test_stack(struct complex *c)
{
    static const double sizes[4] = {1.0, 1e74, 1e80, 0.0};
    measured = c;
    for (int k = 0; k < 5; k++) {
        double factor = k < 4 ? sizes[k] : of_bits(UINT64_C(0x7ff8000000000000));
        clear(&on_stack);
        for (size_t e = 0; e < edges_of(c); e++)
            on_stack.lengths[e] = factor * SIGNED[e];
        for (int e = 0; e < 10; e++)
            ten[e] = factor * MIXED[e];
        CHECK(stack_of(core_deficits) > PASSED);
        CHECK(stack_of(core_deficits) < 2048 + PASSED);
        CHECK(stack_of(core_deficit) < 2048 + PASSED);
        CHECK(stack_of(one_jacobian) < 8192);
    }
}

/* ---- free edges ---- */

static const uint32_t FREE[3] = {13, 0, 7};

/* Local deficits and gradient are the entries of the table and of the gradient, bit for bit. */
static void test_local(const struct complex *c)
{
    struct buffers b, all;
    size_t edges = edges_of(c), triangles = triangles_of(c), next = 0;
    clear(&b);
    clear(&all);
    memcpy(b.lengths, SIGNED, sizeof SIGNED);
    CHECK(CALL(lorentzian_deficit_angles, c, b.lengths, edges, all.deficits, 32, all.kinds, 32) == 0);
    CHECK(CALL(lorentzian_regge_action_grad, c, b.lengths, edges, all.grad, 32) == 0);
    CHECK(CALL(local_deficit_angles, c, b.lengths, edges, FREE, 3, b.tris, 32, b.deficits, 32, b.kinds, 32, &b.count) == 0);
    for (size_t t = 0; t < triangles; t++)
        if (on_edge(c, t, FREE[0]) || on_edge(c, t, FREE[1]) || on_edge(c, t, FREE[2])) {
            CHECK(b.tris[next] == t && same(b.deficits[next], all.deficits[t]) && b.kinds[next] == all.kinds[t]);
            next++;
        }
    CHECK(b.count == next);
    CHECK(untouched(b.tris + next, (32 - next) * sizeof *b.tris) && untouched(b.kinds + next, 32 - next));
    CHECK(CALL(local_lorentzian_regge_action_grad, c, b.lengths, edges, FREE, 3, b.grad, 32) == 0);
    for (int k = 0; k < 3; k++)
        CHECK(same(b.grad[k], all.grad[FREE[k]]));
    CHECK(untouched(b.grad + 3, 29 * sizeof(double)));
    CHECK(CALL(local_lorentzian_regge_action_grad, c, b.lengths, edges, FREE, 0, b.grad, 0) == 0);
    CHECK(CALL(local_deficit_angles, c, b.lengths, edges, FREE, 0, b.tris, 0, b.deficits, 0, b.kinds, 0, &b.count) == 0);
    CHECK(b.count == 0);
}

/* At spacelike lengths the Hessian is near the differences of the gradient. */
static void test_hessian(const struct complex *c)
{
    struct buffers b, up, down;
    size_t edges = edges_of(c);
    double step = 1e-5;
    clear(&b);
    clear(&up);
    clear(&down);
    for (size_t e = 0; e < edges; e++)
        b.lengths[e] = 1.0 + 0.02 * (double)(7 * e % 5);
    CHECK(CALL(local_lorentzian_regge_hessian, c, b.lengths, edges, FREE, 3, 1e-6, b.hessian, 32) == 0);
    CHECK(untouched(b.hessian + 9, 23 * sizeof(double)));
    for (int j = 0; j < 3; j++) {
        memcpy(up.lengths, b.lengths, sizeof b.lengths);
        memcpy(down.lengths, b.lengths, sizeof b.lengths);
        up.lengths[FREE[j]] += step;
        down.lengths[FREE[j]] -= step;
        CHECK(CALL(local_lorentzian_regge_action_grad, c, up.lengths, edges, FREE, 3, up.grad, 3) == 0);
        CHECK(CALL(local_lorentzian_regge_action_grad, c, down.lengths, edges, FREE, 3, down.grad, 3) == 0);
        for (int i = 0; i < 3; i++)
            CHECK(close_to(b.hessian[3 * i + j], (up.grad[i] - down.grad[i]) / (2.0 * step), 1e-7));
    }
}

/* Checked calls and cores give the same bits, at NaN and infinite lengths and a step of 0 too. */
static void test_same_bits(struct complex *c)
{
    struct buffers b[2];
    size_t edges = edges_of(c), triangles = triangles_of(c);
    for (c->core = 0; c->core < 2; c->core++) {
        struct buffers *to = &b[c->core];
        clear(to);
        memcpy(to->lengths, SIGNED, sizeof SIGNED);
        to->lengths[9] = of_bits(UINT64_C(0x7ff8000000000000));
        to->lengths[13] = of_bits(UINT64_C(0xfff0000000000000));
        CHECK(CALL(lorentzian_deficit_angles, c, to->lengths, edges, to->deficits, 32, to->kinds, 32) == 0);
        CHECK(CALL(lorentzian_regge_action, c, to->lengths, edges, &to->action) == 0);
        CHECK(CALL(lorentzian_regge_action_grad, c, to->lengths, edges, to->grad, 32) == 0);
        CHECK(CALL(local_lorentzian_regge_hessian, c, to->lengths, edges, FREE, 3, 0.0, to->hessian, 32) == 0);
    }
    CHECK(all_same(b[0].deficits, b[1].deficits, triangles) && memcmp(b[0].kinds, b[1].kinds, 32) == 0);
    CHECK(all_same(&b[0].action, &b[1].action, 1) && all_same(b[0].grad, b[1].grad, edges));
    CHECK(all_same(b[0].hessian, b[1].hessian, 9));
    c->core = 0;
}

/* ---- the retouch ---- */

/* After each of several retouches lengths and table are those of the changed length, worked out anew. */
static void test_retouch(const struct complex *c)
{
    static const uint32_t edge[4] = {0, 9, 13, 9};
    static const double length[4] = {-1.25, 0.0, 3.0, 2.25};
    struct buffers b, anew;
    size_t edges = edges_of(c), triangles = triangles_of(c);
    clear(&b);
    clear(&anew);
    memcpy(b.lengths, SIGNED, sizeof SIGNED);
    memcpy(anew.lengths, SIGNED, sizeof SIGNED);
    CHECK(CALL(lorentzian_deficit_angles, c, b.lengths, edges, b.deficits, 32, b.kinds, 32) == 0);
    for (int k = 0; k < 4; k++) {
        CHECK(CALL(retouch, c, b.lengths, edges, edge[k], length[k], b.deficits, 32, b.kinds, 32) == 0);
        anew.lengths[edge[k]] = length[k];
        CHECK(CALL(lorentzian_deficit_angles, c, anew.lengths, edges, anew.deficits, 32, anew.kinds, 32) == 0);
        CHECK(all_same(b.lengths, anew.lengths, 32));
        CHECK(all_same(b.deficits, anew.deficits, triangles) && memcmp(b.kinds, anew.kinds, 32) == 0);
        CHECK(untouched(b.deficits + triangles, (32 - triangles) * sizeof(double)));
    }
    /* edge 0 lies in the first pentachoron alone, triangle 15 not in it */
    b.deficits[15] = 42.0;
    b.kinds[15] = 7;
    b.deficits[9] = 42.0;
    CHECK(CALL(retouch, c, b.lengths, edges, 0, 1.0, b.deficits, 32, b.kinds, 32) == 0);
    CHECK(b.deficits[15] == 42.0 && b.kinds[15] == 7 && b.deficits[9] != 42.0);
}

/* ---- refused calls ---- */

/* 8, 9, 10, 5 and 11, each by itself and before those that come after it. */
static void test_refusals(const struct complex *c)
{
    static const uint32_t outside[3] = {2, 2, 14}, repeated[3] = {2, 5, 2};
    struct buffers b;
    size_t n = edges_of(c), m = triangles_of(c), few = n - 1;
    clear(&b);
    memcpy(b.lengths, SIGNED, sizeof SIGNED);
    REFUSES(CJAPTHUMI_LENGTH_COUNT, &b, CALL(lorentzian_deficit_angles, c, b.lengths, few, b.deficits, 0, b.kinds, 0));
    REFUSES(CJAPTHUMI_LENGTH_COUNT, &b, CALL(lorentzian_deficit_angle, c, b.lengths, n + 1, 16, &b.deficit, &b.kind));
    REFUSES(CJAPTHUMI_LENGTH_COUNT, &b, CALL(lorentzian_regge_action, c, b.lengths, few, &b.action));
    REFUSES(CJAPTHUMI_LENGTH_COUNT, &b, CALL(lorentzian_regge_action_grad, c, b.lengths, n + 1, b.grad, 0));
    REFUSES(CJAPTHUMI_LENGTH_COUNT, &b,
            CALL(local_deficit_angles, c, b.lengths, few, outside, 3, b.tris, 0, b.deficits, 0, b.kinds, 0, &b.count));
    REFUSES(CJAPTHUMI_LENGTH_COUNT, &b, CALL(local_lorentzian_regge_action_grad, c, b.lengths, few, outside, 3, b.grad, 0));
    REFUSES(CJAPTHUMI_LENGTH_COUNT, &b, CALL(local_lorentzian_regge_hessian, c, b.lengths, few, outside, 3, 1e-6, b.hessian, 0));
    REFUSES(CJAPTHUMI_LENGTH_COUNT, &b, CALL(retouch, c, b.lengths, few, 14, 0.5, b.deficits, 0, b.kinds, 0));
    REFUSES(CJAPTHUMI_EDGE_TOO_LARGE, &b,
            CALL(local_deficit_angles, c, b.lengths, n, outside, 3, b.tris, 0, b.deficits, 0, b.kinds, 0, &b.count));
    REFUSES(CJAPTHUMI_EDGE_TOO_LARGE, &b, CALL(local_lorentzian_regge_action_grad, c, b.lengths, n, outside, 3, b.grad, 0));
    REFUSES(CJAPTHUMI_EDGE_TOO_LARGE, &b, CALL(local_lorentzian_regge_hessian, c, b.lengths, n, outside, 3, 1e-6, b.hessian, 0));
    REFUSES(CJAPTHUMI_EDGE_TOO_LARGE, &b, CALL(retouch, c, b.lengths, n, 14, 0.5, b.deficits, 0, b.kinds, 0));
    REFUSES(CJAPTHUMI_REPEATED_EDGE, &b,
            CALL(local_deficit_angles, c, b.lengths, n, repeated, 3, b.tris, 0, b.deficits, 0, b.kinds, 0, &b.count));
    REFUSES(CJAPTHUMI_REPEATED_EDGE, &b, CALL(local_lorentzian_regge_action_grad, c, b.lengths, n, repeated, 3, b.grad, 0));
    REFUSES(CJAPTHUMI_REPEATED_EDGE, &b, CALL(local_lorentzian_regge_hessian, c, b.lengths, n, repeated, 3, 1e-6, b.hessian, 0));
    REFUSES(CJAPTHUMI_SHORT_ROOM, &b, CALL(lorentzian_deficit_angles, c, b.lengths, n, b.deficits, m - 1, b.kinds, m));
    REFUSES(CJAPTHUMI_SHORT_ROOM, &b, CALL(lorentzian_deficit_angles, c, b.lengths, n, b.deficits, m, b.kinds, m - 1));
    REFUSES(CJAPTHUMI_SHORT_ROOM, &b, CALL(lorentzian_regge_action_grad, c, b.lengths, n, b.grad, n - 1));
    REFUSES(CJAPTHUMI_SHORT_ROOM, &b,
            CALL(local_deficit_angles, c, b.lengths, n, FREE, 3, b.tris, 0, b.deficits, m, b.kinds, m, &b.count));
    REFUSES(CJAPTHUMI_SHORT_ROOM, &b, CALL(local_lorentzian_regge_action_grad, c, b.lengths, n, FREE, 3, b.grad, 2));
    REFUSES(CJAPTHUMI_SHORT_ROOM, &b, CALL(local_lorentzian_regge_hessian, c, b.lengths, n, FREE, 3, 1e-6, b.hessian, 8));
    REFUSES(CJAPTHUMI_SHORT_ROOM, &b, CALL(retouch, c, b.lengths, n, 0, 0.5, b.deficits, m, b.kinds, m - 1));
    REFUSES(CJAPTHUMI_BAD_INDEX, &b, CALL(lorentzian_deficit_angle, c, b.lengths, n, 16, &b.deficit, &b.kind));
}

/* 7, before all others, for a complex one of whose lists is damaged. */
static void test_not_built(struct complex *c)
{
    struct buffers b;
    clear(&b);
    c->lists[EDGE_TO_TRIS][3]++;
    REFUSES(CJAPTHUMI_NOT_BUILT, &b, CALL(lorentzian_deficit_angles, c, b.lengths, 3, b.deficits, 0, b.kinds, 0));
    REFUSES(CJAPTHUMI_NOT_BUILT, &b, CALL(lorentzian_deficit_angle, c, b.lengths, 3, 16, &b.deficit, &b.kind));
    REFUSES(CJAPTHUMI_NOT_BUILT, &b, CALL(lorentzian_regge_action, c, b.lengths, 3, &b.action));
    REFUSES(CJAPTHUMI_NOT_BUILT, &b, CALL(lorentzian_regge_action_grad, c, b.lengths, 3, b.grad, 0));
    REFUSES(CJAPTHUMI_NOT_BUILT, &b,
            CALL(local_deficit_angles, c, b.lengths, 3, FREE, 3, b.tris, 0, b.deficits, 0, b.kinds, 0, &b.count));
    REFUSES(CJAPTHUMI_NOT_BUILT, &b, CALL(local_lorentzian_regge_action_grad, c, b.lengths, 3, FREE, 3, b.grad, 0));
    REFUSES(CJAPTHUMI_NOT_BUILT, &b, CALL(local_lorentzian_regge_hessian, c, b.lengths, 3, FREE, 3, 1e-6, b.hessian, 0));
    REFUSES(CJAPTHUMI_NOT_BUILT, &b, CALL(retouch, c, b.lengths, 3, 14, 0.5, b.deficits, 0, b.kinds, 0));
    c->lists[EDGE_TO_TRIS][3]--;
}

/* Runs all tests; status 0 where none failed. */
int main(void)
{
    struct complex c;
    test_floats();
    test_cofactors();
    test_areas();
    test_dihedrals();
    test_builder();
    test_builder_refusals();
    test_check_built();
    test_lattice();
    make_neighbours(&c);
    for (c.core = 0; c.core < 2; c.core++) {
        test_zero_lengths(&c);
        test_unit_lengths(&c);
        test_one_hinge(&c);
        test_local(&c);
        test_hessian(&c);
        test_retouch(&c);
        test_refusals(&c);
    }
    c.core = 0;
    test_stack(&c);
    test_not_built(&c);
    test_same_bits(&c);
    release(&c);
    printf("C interface: %u checks, %u failed\n", checks, failures);
    return failures == 0 ? 0 : 1;
}
