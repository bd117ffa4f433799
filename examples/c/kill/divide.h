#ifndef DIVIDE_H
#define DIVIDE_H
#include <stdint.h>

/* The quotient of two numbers above 0, or MONDRIX_BAD_RANGE. */
int32_t divide(int32_t a, int32_t b);
int32_t divide_entered(int32_t a, int32_t b);

#endif
