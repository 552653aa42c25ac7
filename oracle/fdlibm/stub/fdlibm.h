/* Our own header in place of the fdlibm.h that newlib's C files include: the words of a double, and the functions' names. */
#include <stdint.h>

typedef int32_t __int32_t;
typedef uint32_t __uint32_t;

/* Names that no other library has. */
#define __ieee754_sqrt fdlibm_sqrt
#define __ieee754_log fdlibm_log
#define __ieee754_acos fdlibm_acos
#define __ieee754_acosh fdlibm_acosh
#define log1p fdlibm_log1p
#define asinh fdlibm_asinh
#define fabs fdlibm_fabs

double fdlibm_sqrt(double);
double fdlibm_log(double);
double fdlibm_log1p(double);
double fdlibm_acos(double);
double fdlibm_acosh(double);
double fdlibm_asinh(double);
double fdlibm_fabs(double);

/* The bit pattern of x. */
static inline uint64_t stub_bits(double x)
{
    uint64_t bits;
    __builtin_memcpy(&bits, &x, sizeof bits);
    return bits;
}

/* The double of a high and a low word. */
static inline double stub_double(uint32_t high, uint32_t low)
{
    uint64_t bits = (uint64_t)high << 32 | low;
    double x;
    __builtin_memcpy(&x, &bits, sizeof x);
    return x;
}

#define GET_HIGH_WORD(word, x) ((word) = (uint32_t)(stub_bits(x) >> 32))
#define GET_LOW_WORD(word, x) ((word) = (uint32_t)stub_bits(x))
#define EXTRACT_WORDS(high, low, x) (GET_HIGH_WORD(high, x), GET_LOW_WORD(low, x))
#define INSERT_WORDS(x, high, low) ((x) = stub_double((high), (low)))
#define SET_HIGH_WORD(x, word) ((x) = stub_double((word), (uint32_t)stub_bits(x)))
#define SET_LOW_WORD(x, word) ((x) = stub_double((uint32_t)(stub_bits(x) >> 32), (word)))
