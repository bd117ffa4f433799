/* A module without harts, with a constructor. */
#include "service.h"

#include "mondrix.h"

MONDRIX_GATE(service_ready);

static volatile int ready;
__attribute__((constructor)) static void prepare(void) { ready++; }

void __libc_init_array(void);

int32_t service_ready_entered(void) {
    int before = ready;
    __libc_init_array();
    __libc_init_array();
    return 10 * before + ready;
}
