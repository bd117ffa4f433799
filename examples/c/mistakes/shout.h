#include <stdint.h>

int32_t shout(const char *text, uint32_t length);
int32_t shout_entered(const char *text, uint32_t length);
