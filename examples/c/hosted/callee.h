#include <stdint.h>

int32_t twice(int32_t number);
int32_t twice_entered(int32_t number);
int32_t thrice(int32_t number);
int32_t thrice_entered(int32_t number);
