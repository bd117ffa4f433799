#include <stdint.h>

/* 10 times how often the service's constructor had run before the call, plus how often it has run now. */
int32_t service_ready(void);
int32_t service_ready_entered(void);
