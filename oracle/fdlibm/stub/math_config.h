/* Our own header in place of newlib's math_config.h: the two answers for which newlib's s_log1p.c calls a function, as fdlibm 5.3 computes them. */
#define __math_divzero(sign) (-two54 / zero)
#define __math_invalid(x) (((x) - (x)) / ((x) - (x)))
