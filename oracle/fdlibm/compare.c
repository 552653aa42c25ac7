/* Compares our library with fdlibm's C bit for bit, dumps our answers for Java, V8 and the platform, and freezes the C's answers for a replay. */
#include <emmintrin.h>
#include <inttypes.h>
#include <stdbool.h>
#include <stdint.h>
#include <stdio.h>
#include <stdlib.h>
#include <string.h>

/* Our library. */
double cjapthumi_root(double), cjapthumi_log(double), cjapthumi_log1p(double);
double cjapthumi_acos(double), cjapthumi_acosh(double), cjapthumi_asinh(double);
double cjapthumi_abs(double), cjapthumi_signum(double), cjapthumi_clamp_unit(double);

/* fdlibm's C, under the names that stub/fdlibm.h gives it. */
double fdlibm_sqrt(double), fdlibm_log(double), fdlibm_log1p(double);
double fdlibm_acos(double), fdlibm_acosh(double), fdlibm_asinh(double);

#define COUNT(array) (sizeof(array) / sizeof((array)[0]))
#define SIGN 0x8000000000000000u
#define ONE 0x3ff0000000000000u
#define INFINITE 0x7ff0000000000000u

/* ---- Bit patterns ---- */

/* The bit pattern of x. */
static uint64_t bits_of(double x)
{
    uint64_t bits;
    memcpy(&bits, &x, sizeof bits);
    return bits;
}

/* The double of a bit pattern. */
static double of_bits(uint64_t bits)
{
    double x;
    memcpy(&x, &bits, sizeof x);
    return x;
}

/* Whether a bit pattern is a NaN, of either sign. */
static bool is_nan(uint64_t bits)
{
    return (bits & ~SIGN) > INFINITE;
}

/* Whether two answers agree: any NaN agrees with any NaN. */
static bool agree(uint64_t a, uint64_t b)
{
    return a == b || (is_nan(a) && is_nan(b));
}

/* ---- References other than fdlibm ---- */

/* The processor's own square root. */
static double sqrtsd(double x)
{
    __m128d v = _mm_set_sd(x);
    return _mm_cvtsd_f64(_mm_sqrt_sd(v, v));
}

/* Rust's f64::abs: the sign bit is cleared. */
static double abs_by_bits(double x)
{
    return of_bits(bits_of(x) & ~SIGN);
}

/* Rust's f64::signum: NaN for NaN, else 1 with x's sign. */
static double signum_by_bits(double x)
{
    uint64_t bits = bits_of(x);
    return is_nan(bits) ? x : of_bits((bits & SIGN) | ONE);
}

/* Rust's f64::clamp(-1.0, 1.0): NaN and -0.0 are kept. */
static double clamp_by_bits(double x)
{
    uint64_t bits = bits_of(x);
    return is_nan(bits) || (bits & ~SIGN) <= ONE ? x : of_bits((bits & SIGN) | ONE);
}

/* ---- Lists of inputs ---- */

/* A growing list of inputs, with the state of the generator that fills it. */
struct inputs {
    uint64_t *bits;
    size_t count, capacity;
    uint64_t state;
};

/* How many inputs of each sort are wanted. */
struct plan {
    bool every_exponent;     /* or only the few of wanted_exponent */
    unsigned reach;          /* ulps on either side of a boundary */
    unsigned margin;         /* words on either side of a tested word */
    unsigned near_lows;      /* random low words of a tested word, at exponents near 1 */
    unsigned far_lows;       /* the same at other exponents */
    unsigned ulps;           /* ulps on either side of a centre */
    unsigned whole;          /* whole numbers */
    unsigned patterns;       /* random bit patterns */
    unsigned domain;         /* random inputs of the function's domain */
};

static const struct plan full = {true, 2, 1, 1000, 4, 1000, 2000, 500000, 700000};
static const struct plan thin = {false, 1, 0, 0, 0, 2, 5, 10, 40};

/* The word of a state of splitmix64; that of 0 is 0. */
static uint64_t scrambled(uint64_t z)
{
    z = (z ^ z >> 30) * 0xbf58476d1ce4e5b9u;
    z = (z ^ z >> 27) * 0x94d049bb133111ebu;
    return z ^ z >> 31;
}

/* The next word of splitmix64. */
static uint64_t next(struct inputs *list)
{
    list->state += 0x9e3779b97f4a7c15u;
    return scrambled(list->state);
}

/* The round whose inputs are drawn: the number that ORACLE_SEED holds, else 0. */
static uint64_t round_drawn(void)
{
    const char *seed = getenv("ORACLE_SEED");
    char *end;
    if (!seed)
        return 0;
    uint64_t round = strtoull(seed, &end, 10);
    if (end == seed || *end) {
        fprintf(stderr, "ORACLE_SEED is no number\n");
        exit(2);
    }
    return round;
}

/* Adds an input to the list. */
static void add(struct inputs *list, uint64_t bits)
{
    if (list->count == list->capacity) {
        list->capacity = list->capacity ? 2 * list->capacity : 1024;
        list->bits = realloc(list->bits, list->capacity * sizeof *list->bits);
        if (!list->bits) {
            perror("realloc");
            exit(2);
        }
    }
    list->bits[list->count++] = bits;
}

/* The order of patterns as whole numbers, for qsort. */
static int order(const void *a, const void *b)
{
    uint64_t x = *(const uint64_t *)a, y = *(const uint64_t *)b;
    return (x > y) - (x < y);
}

/* Sorts the list and drops what occurs again. */
static void sort_distinct(struct inputs *list)
{
    size_t kept = 0;
    qsort(list->bits, list->count, sizeof *list->bits, order);
    for (size_t i = 0; i < list->count; i++)
        if (kept == 0 || list->bits[i] != list->bits[kept - 1])
            list->bits[kept++] = list->bits[i];
    list->count = kept;
}

/* ---- Inputs at the boundaries of the C's branches ---- */

/* Whether a thin plan takes a boundary at this exponent field. */
static bool wanted_exponent(const struct plan *plan, uint32_t exponent)
{
    return plan->every_exponent || exponent == 0x001 || (exponent >= 0x3fe && exponent <= 0x400) ||
           exponent == 0x433 || exponent == 0x434 || exponent == 0x7fe;
}

/* A pattern and those up to reach ulps away. */
static void add_around(struct inputs *list, uint64_t bits, unsigned reach)
{
    for (unsigned i = 0; i <= 2 * reach; i++)
        add(list, bits + i - reach);
}

/* The edges of a high word: where it begins, where it ends, those of its neighbours, and random low words. */
static void add_word(struct inputs *list, const struct plan *plan, uint32_t high, unsigned lows)
{
    for (uint32_t word = high - plan->margin; word != high + plan->margin + 2; word++)
        add_around(list, (uint64_t)word << 32, plan->reach);
    for (uint32_t word = high - 1; word != high + 2; word++)
        for (unsigned i = 0; i < lows; i++)
            add(list, (uint64_t)word << 32 | next(list) >> 32);
}

/* A mantissa word that the C tests, at one exponent. */
static void add_mantissa(struct inputs *list, const struct plan *plan, uint32_t exponent, uint32_t word)
{
    bool near = exponent >= 0x3fb && exponent <= 0x403;
    add_word(list, plan, exponent << 20 | word, near ? plan->near_lows : plan->far_lows);
}

/* The patterns around map(u) for each u that add_mantissa takes; u has its own neighbours, so one ulp less is enough. */
static void add_images(struct inputs *list, const struct plan *plan, uint32_t exponent, uint32_t word,
                       double (*map)(double))
{
    struct inputs words = {NULL, 0, 0, next(list)};
    add_mantissa(&words, plan, exponent, word);
    for (size_t i = 0; i < words.count; i++)
        add_around(list, bits_of(map(of_bits(words.bits[i]))), plan->reach - 1);
    free(words.bits);
}

/* The mantissa words that e_log.c tests; at 6a09c the sum with 95f64 carries. */
static const uint32_t log_words[] = {0x00000, 0x6147a, 0x6a09c, 0x6b851, 0xffffe};

/* The mantissa words of 1+x that s_log1p.c tests; from ffffd on (0x00100000-hu)>>2 is 0. */
static const uint32_t log1p_words[] = {0x00000, 0x6a09e, 0xffffd};

/* Powers of two, subnormal ones too: e_sqrt.c normalizes and tests whether the exponent is odd. */
static void root_boundaries(struct inputs *list, const struct plan *plan)
{
    for (uint32_t exponent = 0; exponent < 0x7ff; exponent++)
        if (wanted_exponent(plan, exponent))
            add_mantissa(list, plan, exponent, 0);
    for (unsigned bit = 0; plan->every_exponent && bit < 52; bit++)
        add_around(list, (uint64_t)1 << bit, plan->reach);
}

/* The mantissa words at the exponents of normal numbers, and at those that subnormal numbers have once they are scaled. */
static void log_boundaries(struct inputs *list, const struct plan *plan)
{
    for (size_t i = 0; i < COUNT(log_words); i++) {
        for (uint32_t exponent = 1; exponent < 0x7ff; exponent++)
            if (wanted_exponent(plan, exponent))
                add_mantissa(list, plan, exponent, log_words[i]);
        for (unsigned shift = 1; plan->every_exponent && shift < 53; shift++)
            add_around(list, (0x0010000000000000u | (uint64_t)log_words[i] << 32) >> shift, plan->reach);
    }
}

/* The x with log1p(x) = log(u). */
static double minus_one(double u)
{
    return u - 1.0;
}

/* x = u - 1 for the mantissa words of u, from u = 2**-53 on; from 2**53 on the C takes u = x. */
static void log1p_boundaries(struct inputs *list, const struct plan *plan)
{
    for (size_t i = 0; i < COUNT(log1p_words); i++)
        for (uint32_t exponent = 0x3ca; exponent < 0x7ff; exponent++) {
            if (!wanted_exponent(plan, exponent))
                continue;
            if (exponent < 0x435)
                add_images(list, plan, exponent, log1p_words[i], minus_one);
            if (exponent > 0x432)
                add_mantissa(list, plan, exponent, log1p_words[i]);
        }
}

/* The images of the words that e_log.c and s_log1p.c test, for u from 1 to 2**30. */
static void add_log_images(struct inputs *list, const struct plan *plan, double (*map)(double))
{
    for (uint32_t exponent = 0x3ff; exponent < 0x41d; exponent++) {
        if (!wanted_exponent(plan, exponent))
            continue;
        for (size_t i = 0; i < COUNT(log_words); i++)
            add_images(list, plan, exponent, log_words[i], map);
        for (size_t i = 0; i < COUNT(log1p_words); i++)
            add_images(list, plan, exponent, log1p_words[i], map);
    }
}

/* The x with acosh(x) = log(u). */
static double cosh_of_log(double u)
{
    return (u + 1.0 / u) / 2.0;
}

/* e_acosh.c takes the logarithm of u = x + sqrt(x*x-1). */
static void acosh_boundaries(struct inputs *list, const struct plan *plan)
{
    add_log_images(list, plan, cosh_of_log);
}

/* The x with asinh(x) = log(u). */
static double sinh_of_log(double u)
{
    return (u - 1.0 / u) / 2.0;
}

/* The x with asinh(x) = -log(u). */
static double minus_sinh_of_log(double u)
{
    return -sinh_of_log(u);
}

/* s_asinh.c takes the logarithm of u = |x| + sqrt(x*x+1). */
static void asinh_boundaries(struct inputs *list, const struct plan *plan)
{
    add_log_images(list, plan, sinh_of_log);
    add_log_images(list, plan, minus_sinh_of_log);
}

/* For a function that tests high words of x alone. */
static void no_boundaries(struct inputs *list, const struct plan *plan)
{
    (void)list;
    (void)plan;
}

/* ---- Random inputs of a function's domain ---- */

/* A double from [0, 1). */
static double unit(struct inputs *list)
{
    return (double)(next(list) >> 11) * 0x1p-53;
}

/* A double from low to high, evenly spread. */
static double between(struct inputs *list, double low, double high)
{
    return low + (high - low) * unit(list);
}

/* A positive double whose exponent field is any from low to high alike. */
static double spread(struct inputs *list, uint64_t low, uint64_t high)
{
    uint64_t exponent = low + next(list) % (high - low + 1);
    return of_bits(exponent << 52 | next(list) >> 12);
}

/* x or -x. */
static double either_sign(struct inputs *list, double x)
{
    return next(list) % 2 ? -x : x;
}

/* A positive subnormal number of any length. */
static double subnormal(struct inputs *list)
{
    uint64_t shift = 12 + next(list) % 52;
    return of_bits(next(list) >> shift);
}

/* x, or a neighbour of it up to two ulps away. */
static double nudged(struct inputs *list, double x)
{
    return of_bits(bits_of(x) + next(list) % 5 - 2);
}

/* The square of a number of at most 26 bits, or a neighbour: roots that are exact or nearly so. */
static double near_square(struct inputs *list)
{
    uint64_t bits = bits_of(spread(list, 0x201, 0x5fd));
    unsigned cleared = 27 + next(list) % 26;
    double r = of_bits(bits >> cleared << cleared);
    return nudged(list, r * r);
}

/* The product of a number and its successor, or a neighbour: roots that lie nearly halfway between two doubles. */
static double near_halfway(struct inputs *list)
{
    double r = spread(list, 0x201, 0x5fd);
    return nudged(list, r * of_bits(bits_of(r) + 1));
}

/* The product of two random numbers. */
static double product(struct inputs *list)
{
    double r = spread(list, 0x201, 0x5fd);
    return r * spread(list, 0x201, 0x5fd);
}

/* Subnormal numbers, any positive numbers, products, and roots that are hard to round. */
static double root_domain(struct inputs *list)
{
    switch (next(list) % 5) {
    case 0:
        return subnormal(list);
    case 1:
        return spread(list, 0x001, 0x7fe);
    case 2:
        return product(list);
    case 3:
        return near_square(list);
    default:
        return near_halfway(list);
    }
}

/* Subnormal numbers, any positive numbers, numbers around 1 and close to 1. */
static double log_domain(struct inputs *list)
{
    switch (next(list) % 4) {
    case 0:
        return subnormal(list);
    case 1:
        return spread(list, 0x001, 0x7fe);
    case 2:
        return between(list, 0.5, 2.0);
    default:
        return 1.0 + either_sign(list, spread(list, 0x3ca, 0x3fd));
    }
}

/* Numbers above -1: close to it, around 0, close to 0, from 0.25 to 2**66, any positive ones. */
static double log1p_domain(struct inputs *list)
{
    switch (next(list) % 5) {
    case 0:
        return spread(list, 0x3ca, 0x3ff) - 1.0;
    case 1:
        return between(list, -1.0, 1.0);
    case 2:
        return either_sign(list, spread(list, 0x3c0, 0x3fe));
    case 3:
        return spread(list, 0x3fd, 0x440);
    default:
        return spread(list, 0x001, 0x7fe);
    }
}

/* Numbers from -1 to 1: evenly spread, close to the ends, close to 0, close to 0.5 and -0.5. */
static double acos_domain(struct inputs *list)
{
    switch (next(list) % 4) {
    case 0:
        return between(list, -1.0, 1.0);
    case 1:
        return either_sign(list, 1.0 - spread(list, 0x3ca, 0x3fe));
    case 2:
        return either_sign(list, spread(list, 0x3c0, 0x3fe));
    default:
        return either_sign(list, 0.5 + either_sign(list, spread(list, 0x3c9, 0x3fc)));
    }
}

/* Numbers from 1 to 2**996: any, up to 4, close to 1, up to 2**31. */
static double acosh_domain(struct inputs *list)
{
    switch (next(list) % 4) {
    case 0:
        return spread(list, 0x3ff, 0x7e2);
    case 1:
        return between(list, 1.0, 4.0);
    case 2:
        return 1.0 + spread(list, 0x3cb, 0x400);
    default:
        return spread(list, 0x3ff, 0x41d);
    }
}

/* Numbers of both signs: any, from 2**-31 to 2**31, from -4 to 4. */
static double asinh_domain(struct inputs *list)
{
    switch (next(list) % 3) {
    case 0:
        return either_sign(list, spread(list, 0x001, 0x7fe));
    case 1:
        return either_sign(list, spread(list, 0x3e0, 0x41d));
    default:
        return between(list, -4.0, 4.0);
    }
}

/* For abs, signum and clamp_unit: any numbers, from -2 to 2, close to 1 and -1. */
static double line_domain(struct inputs *list)
{
    switch (next(list) % 3) {
    case 0:
        return either_sign(list, spread(list, 0x001, 0x7fe));
    case 1:
        return between(list, -2.0, 2.0);
    default:
        return either_sign(list, 1.0 + either_sign(list, spread(list, 0x3ca, 0x3fe)));
    }
}

/* ---- The functions ---- */

/* Ends a list of high words. */
#define END 0xffffffffu

struct function {
    const char *name;
    double (*ours)(double);
    const char *reference_name;
    double (*reference)(double);
    uint32_t highs[8];                                          /* the high words that the C tests */
    void (*boundaries)(struct inputs *, const struct plan *);   /* the other boundaries */
    double (*domain)(struct inputs *);
};

/* The first FROZEN rows are those that are frozen, in the order of the frozen lines. */
#define FROZEN 6
static const struct function functions[] = {
    {"root", cjapthumi_root, "fdlibm", fdlibm_sqrt,
     {0x00000000, 0x00100000, 0x7ff00000, END}, root_boundaries, root_domain},
    {"log", cjapthumi_log, "fdlibm", fdlibm_log,
     {0x00000000, 0x00100000, 0x3ff00000, 0x7ff00000, END}, log_boundaries, log_domain},
    {"log1p", cjapthumi_log1p, "fdlibm", fdlibm_log1p,
     {0x3c900000, 0x3e200000, 0x3fd2bec3, 0x3fda827a, 0x3ff00000, 0x43400000, 0x7ff00000, END},
     log1p_boundaries, log1p_domain},
    {"acos", cjapthumi_acos, "fdlibm", fdlibm_acos,
     {0x3c600000, 0x3fe00000, 0x3ff00000, 0x7ff00000, END}, no_boundaries, acos_domain},
    {"acosh", cjapthumi_acosh, "fdlibm", fdlibm_acosh,
     {0x3ff00000, 0x40000000, 0x41b00000, 0x7ff00000, END}, acosh_boundaries, acosh_domain},
    {"asinh", cjapthumi_asinh, "fdlibm", fdlibm_asinh,
     {0x00000000, 0x3e300000, 0x40000000, 0x41b00000, 0x7ff00000, END}, asinh_boundaries, asinh_domain},
    {"root", cjapthumi_root, "sqrtsd", sqrtsd,
     {0x00000000, 0x00100000, 0x7ff00000, END}, root_boundaries, root_domain},
    {"abs", cjapthumi_abs, "bits", abs_by_bits, {0x00000000, 0x7ff00000, END}, no_boundaries, line_domain},
    {"signum", cjapthumi_signum, "bits", signum_by_bits, {0x00000000, 0x7ff00000, END}, no_boundaries, line_domain},
    {"clamp_unit", cjapthumi_clamp_unit, "bits", clamp_by_bits,
     {0x00000000, 0x3ff00000, 0x7ff00000, END}, no_boundaries, line_domain},
};

/* ---- The inputs of a function ---- */

/* One or more of every kind of double; each is taken with both signs. */
static const uint64_t kinds[] = {
    0x0000000000000000, 0x0000000000000001, 0x0000000000000002, 0x0000000080000000, /* zero, subnormal */
    0x0008000000000000, 0x000ffffffffffffe, 0x000fffffffffffff,
    0x0010000000000000, 0x0010000000000001, 0x01a56e1fc2f8f359, 0x3bc79ca10c924223, /* tiny: .., 1e-300, 1e-20 */
    0x3fe0000000000000, 0x3ff0000000000000, 0x3ff8000000000000, 0x400921fb54442d18, /* 0.5, 1, 1.5, pi */
    0x4024000000000000, 0x40f0000000000000, 0x4340000000000000, 0x4415af1d78b58c40, /* 10, 65536, 2**53, 1e20 */
    0x7e37e43c8800759c, 0x7feffffffffffffe, 0x7fefffffffffffff, 0x7ff0000000000000, /* huge: 1e300, .., infinite */
    0x7ff0000000000001, 0x7ff00000ffffffff, 0x7ff4000000000000, 0x7ff7ffffffffffff, /* NaN */
    0x7ff8000000000000, 0x7ff8000000000001, 0x7ffdeadbeefcafe0, 0x7fffffffffffffff,
};

/* Inputs on which the C answers otherwise once one of its boundaries is moved by one or one of its constants by an ulp. */
static const uint64_t witnesses[] = {
    0x00000000000007b6, 0x0000000000000f52, 0x000fffff00000001, 0x3e200000702303cb,
    0x3e30000007ed74d1, 0x3fd6a098ab191959, 0x3fd6a09dfb1c7432, 0x3fd961cb3601b00d,
    0x3fda2f8985990dbc, 0x3fdf998f7d8c2aa3, 0x3fdffffff367d023, 0x3fe0000000016545,
    0x3fe57d6622e81299, 0x3feffffa2907d341, 0x3ff0000101135e88, 0x3ff0d64c88c638e3,
    0x3ff3cc8907c61a81, 0x3ff4b9e6985646fe, 0x400000000000002d, 0x40000000000000c9,
    0x4000000102f77ae5, 0x400000010c58777f, 0x4005eb95f593f28b, 0x40060408e2d8b152,
    0x40076c9a3c774c87, 0x433fffff3865af08, 0x4340000015765f5b, 0xbfe0000000001645,
};

/* 0.5, 1 and 2. */
static const uint64_t centres[] = {0x3fe0000000000000, 0x3ff0000000000000, 0x4000000000000000};

/* Adds a pattern and its negative. */
static void add_both_signs(struct inputs *list, uint64_t bits)
{
    add(list, bits);
    add(list, bits ^ SIGN);
}

/* All kinds, the witnesses, the neighbours of the centres, and whole numbers. */
static void add_kinds(struct inputs *list, const struct plan *plan)
{
    for (size_t i = 0; i < COUNT(kinds); i++)
        add_both_signs(list, kinds[i]);
    for (size_t i = 0; i < COUNT(witnesses); i++)
        add_both_signs(list, witnesses[i]);
    for (size_t i = 0; i < COUNT(centres); i++) {
        add_around(list, centres[i], plan->ulps);
        add_around(list, centres[i] ^ SIGN, plan->ulps);
    }
    for (unsigned i = 1; i <= plan->whole; i++)
        add_both_signs(list, bits_of(i));
}

/* Adds the inputs of one function to the list. */
static void add_inputs(struct inputs *list, const struct plan *plan, const struct function *f)
{
    for (const uint32_t *high = f->highs; *high != END; high++) {
        add_word(list, plan, *high, plan->near_lows);
        add_word(list, plan, *high ^ 0x80000000u, plan->near_lows);
    }
    f->boundaries(list, plan);
    add_kinds(list, plan);
    for (unsigned i = 0; i < plan->patterns; i++)
        add(list, next(list));
    for (unsigned i = 0; i < plan->domain; i++)
        add(list, bits_of(f->domain(list)));
}

/* All inputs of one function, each once; in round 0 the seed is the row's number. */
static struct inputs inputs_of(const struct function *f)
{
    struct inputs list = {NULL, 0, 0, (uint64_t)(f - functions) + scrambled(round_drawn())};
    add_inputs(&list, &full, f);
    sort_distinct(&list);
    return list;
}

/* ---- The modes ---- */

/* Compares one function with its reference, prints the first few differences and gives back how many there are. */
static size_t compare(const struct function *f)
{
    struct inputs list = inputs_of(f);
    size_t differences = 0;
    for (size_t i = 0; i < list.count; i++) {
        double x = of_bits(list.bits[i]);
        uint64_t ours = bits_of(f->ours(x)), reference = bits_of(f->reference(x));
        if (!agree(ours, reference) && differences++ < 5)
            printf("%s: input %016" PRIx64 ", ours %016" PRIx64 ", %s %016" PRIx64 "\n",
                   f->name, list.bits[i], ours, f->reference_name, reference);
    }
    printf("%s: %zu inputs compared with %s, %zu differences\n", f->name, list.count, f->reference_name, differences);
    printf("table: calls %s %zu %zu %zu\n", f->name, list.count, list.count, differences);
    free(list.bits);
    return differences;
}

/* Compares every function; the exit status is 1 on any difference. */
static int compare_all(void)
{
    size_t differences = 0;
    for (size_t i = 0; i < COUNT(functions); i++)
        differences += compare(&functions[i]);
    return differences ? 1 : 0;
}

/* Writes a word to stdout, its highest byte first. */
static void put_word(uint64_t word)
{
    for (int shift = 56; shift >= 0; shift -= 8)
        putchar((int)(word >> shift & 0xff));
}

/* Writes the inputs of a function and our answers. */
static int dump(const char *name)
{
    for (size_t row = 0; row < COUNT(functions); row++) {
        const struct function *f = &functions[row];
        if (strcmp(name, f->name) != 0)
            continue;
        struct inputs list = inputs_of(f);
        for (size_t i = 0; i < list.count; i++) {
            put_word(list.bits[i]);
            put_word(bits_of(f->ours(of_bits(list.bits[i]))));
        }
        free(list.bits);
        return fflush(stdout) == 0 ? 0 : 2;
    }
    fprintf(stderr, "compare: no function %s\n", name);
    return 2;
}

/* Opens a file to write; ends the program where that fails. */
static FILE *open_to_write(const char *path)
{
    FILE *file = fopen(path, "w");
    if (!file) {
        perror(path);
        exit(2);
    }
    return file;
}

/* Writes one frozen line: the input, the function, the reference's answer. */
static void put_line(FILE *file, uint64_t input, const struct function *f)
{
    uint64_t answer = bits_of(f->reference(of_bits(input)));
    if (is_nan(answer))
        fprintf(file, "%016" PRIx64 " %s nan\n", input, f->name);
    else
        fprintf(file, "%016" PRIx64 " %s %016" PRIx64 "\n", input, f->name, answer);
}

/* Writes a thin choice of the inputs of all frozen functions, and the references' answers on each. */
static int freeze(const char *inputs_path, const char *answers_path)
{
    struct inputs list = {NULL, 0, 0, 0};
    for (size_t row = 0; row < FROZEN; row++)
        add_inputs(&list, &thin, &functions[row]);
    sort_distinct(&list);
    FILE *inputs = open_to_write(inputs_path), *answers = open_to_write(answers_path);
    for (size_t i = 0; i < list.count; i++) {
        fprintf(inputs, "%016" PRIx64 "\n", list.bits[i]);
        for (size_t row = 0; row < FROZEN; row++)
            put_line(answers, list.bits[i], &functions[row]);
    }
    printf("%zu inputs frozen, %ld bytes\n", list.count, ftell(inputs));
    free(list.bits);
    bool failed = fclose(inputs) != 0;
    failed |= fclose(answers) != 0;
    return failed ? 2 : 0;
}

/* Chooses the mode. */
int main(int argc, char **argv)
{
    if (argc == 1)
        return compare_all();
    if (argc == 3 && strcmp(argv[1], "--dump") == 0)
        return dump(argv[2]);
    if (argc == 4 && strcmp(argv[1], "--freeze") == 0)
        return freeze(argv[2], argv[3]);
    fprintf(stderr, "usage: compare [--dump FUNCTION | --freeze STDIN STDOUT]\n");
    return 2;
}
