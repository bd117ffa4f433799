/* Calls the gates of gates.def with all that a caller can name: words of the service and of others, its own words
 * granted and not granted, misaligned and wrapping ranges, and numbers out of any range. Then it looks for secrets in
 * all that it may read. ADDRESSES are gates that take an address and a length, in either order, PAIRS those that take
 * two of both, NUMBERS all others. */
#include <stdio.h>
#include <string.h>

#include "modules.h"
#include "mondrix.h"

#define ADDRESSES(name) int32_t name(uint32_t, uint32_t, uint32_t, uint32_t);
#define PAIRS ADDRESSES
#define NUMBERS ADDRESSES
#include "gates.def"
#undef ADDRESSES
#undef PAIRS
#undef NUMBERS

static const struct {
    const char *name;
    int32_t (*enter)(uint32_t, uint32_t, uint32_t, uint32_t);
    int takes_addresses; /* how many */
} gates[] = {
#define ADDRESSES(name) {#name, name, 1},
#define PAIRS(name) {#name, name, 2},
#define NUMBERS(name) {#name, name, 0},
#include "gates.def"
};
enum { GATES = sizeof gates / sizeof gates[0] };

static char granted[260] __attribute__((aligned(4))), hidden[260] __attribute__((aligned(4)));
static unsigned calls, faults, taken;

static void count(unsigned gate, uint32_t address, uint32_t length, int32_t answer) {
    calls++;
    faults += mondrix_is_fault(answer);
    if (answer < 0 && answer >= -256) return;
    taken++;
    if (gates[gate].takes_addresses && length != 0)
        printf("attack: took %s 0x%08x %u\n", gates[gate].name, (unsigned)address, (unsigned)length);
}

static void call(unsigned gate, uint32_t address, uint32_t length) {
    count(gate, address, length, gates[gate].enter(address, length, address, length));
    count(gate, address, length, gates[gate].enter(length, address, length, address));
    if (gates[gate].takes_addresses < 2) return;
    count(gate, address, length, gates[gate].enter((uint32_t)granted, 8, address, length));
    count(gate, address, length, gates[gate].enter(address, length, (uint32_t)granted + 64, 32));
}

/* Whether they have a secret. */
static int has_secret(const char *bytes, size_t count) {
    for (size_t i = 0; i + 4 <= count; i++)
        if (memcmp(bytes + i, "secr", 4) == 0) return 1;
    return 0;
}

static void by_addresses(unsigned gate) {
    static const uint32_t odd[] = {0, 3, 0x7ffffffc, 0x7fffffff, 0x80000002, 0xfffffff0, 0xfffffffc, 0xffffffff};
    for (unsigned i = 0; i < sizeof odd / sizeof odd[0]; i++)
        for (uint32_t length = 0; length <= 64; length += 31) call(gate, odd[i], length);
    uint32_t address = 0x80000000;
    for (; mondrix_query((void *)(address & ~3u), mondrix_module()) != MONDRIX_BAD_RANGE; address += 2045) {
        call(gate, address, 4);
        call(gate, address, 0 - address + 8); /* wraps */
    }
    call(gate, address, 64);
    call(gate, address - 2045, 0x7fffffff);
    for (unsigned i = 0; i < 4; i++) {
        call(gate, (uint32_t)granted + i, 56);
        call(gate, (uint32_t)hidden + i, 56);
        call(gate, (uint32_t)granted + i, 16);
        call(gate, (uint32_t)hidden + i, 16);
        call(gate, (uint32_t)granted + 256 + i, 60); /* its end isn't granted */
    }
}

static void by_numbers(unsigned gate) {
    static const uint32_t odd[] = {0, 1, 255, 0x7fffffff, 0xffffffff};
    for (uint32_t wish = 0; wish < 8; wish++)
        for (unsigned i = 0; i < 5; i++)
            for (unsigned j = 0; j < 5; j++)
                count(gate, 0, 0, gates[gate].enter(wish == 7 ? 0x80000000 : wish, odd[i], odd[j], odd[(i + j) % 5]));
}

int main(void) {
    memset(granted, 'x', sizeof granted);
    memset(hidden, 'y', sizeof hidden);
    /* (a module's number is no module's where there are fewer) */
    for (unsigned module = 1; module < 8; module++)
        if (module != mondrix_module()) (void)!mondrix_grant(granted, 256, module, MONDRIX_READ_WRITE);
    for (unsigned gate = 0; gate < GATES; gate++) {
        calls = faults = taken = 0;
        if (gates[gate].takes_addresses)
            by_addresses(gate);
        else
            by_numbers(gate);
        printf("attack: %s: %u calls, %u faults, %s taken\n", gates[gate].name, calls, faults, taken ? "some" : "none");
    }
    unsigned words = 0, secrets = (unsigned)has_secret(granted, sizeof granted);
    for (volatile uint32_t *word = (uint32_t *)0x80000000;; word++) {
        int right = mondrix_query(word, mondrix_module());
        if (right < 0) break;
        if (right == MONDRIX_NONE || mondrix_query(word, mondrix_module() == 1 ? 2 : 1) >= 0) continue;
        words++;
        secrets += memcmp((const void *)word, "secr", 4) == 0;
    }
    printf("attack: may read %u words of others, with %u secrets\n", words, secrets);
    return 0;
}
