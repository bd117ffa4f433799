/* The loop of crates/core_speed in C: an interpreter of RV32IM that fetches and decodes at each turn, tests a plain
   list of permissions at each fetch, load and store, and tests the same alignments. Prints what core_speed prints. */
#include <stdint.h>
#include <stdio.h>
#include <stdlib.h>
#include <string.h>
#include <time.h>

enum { NONE, READ, READ_WRITE, EXECUTE_READ };
enum { NEXT, TRAP, CALL };

#define BASE 0x80000000u
#define WORDS 16384u

struct bus {
    uint8_t *ram;
    uint8_t *perms;
    uint32_t words;
};

struct outcome {
    uint32_t kind;
    uint32_t value; /* the next pc, or what the trap is about */
    uint32_t cause;
};

static uint8_t perm_at(const struct bus *bus, uint32_t addr) {
    uint32_t word = (addr - BASE) / 4;
    return word < bus->words ? bus->perms[word] : NONE;
}

static int fetch(struct bus *bus, uint32_t addr, uint32_t *word) {
    if (perm_at(bus, addr) != EXECUTE_READ) return 0;
    memcpy(word, bus->ram + (addr - BASE), 4);
    return 1;
}

static int load(struct bus *bus, uint32_t addr, uint32_t size, uint32_t *value) {
    if (perm_at(bus, addr) == NONE) return 0;
    const uint8_t *at = bus->ram + (addr - BASE);
    uint16_t half;
    switch (size) {
    case 1: *value = *at; break;
    case 2: memcpy(&half, at, 2); *value = half; break;
    default: memcpy(value, at, 4);
    }
    return 1;
}

static int store(struct bus *bus, uint32_t addr, uint32_t size, uint32_t value) {
    if (perm_at(bus, addr) != READ_WRITE) return 0;
    uint8_t *at = bus->ram + (addr - BASE);
    uint16_t half = (uint16_t)value;
    switch (size) {
    case 1: *at = (uint8_t)value; break;
    case 2: memcpy(at, &half, 2); break;
    default: memcpy(at, &value, 4);
    }
    return 1;
}

static struct outcome next(uint32_t pc) { return (struct outcome){NEXT, pc, 0}; }
static struct outcome trap(uint32_t cause, uint32_t value) { return (struct outcome){TRAP, value, cause}; }

static struct outcome jump(uint32_t *x, uint32_t pc, uint32_t rd, uint32_t target) {
    if (target % 4) return trap(0, target);
    if (rd) x[rd] = pc + 4;
    return next(target);
}

static int32_t imm_i(uint32_t w) { return (int32_t)w >> 20; }
static int32_t imm_s(uint32_t w) { return ((int32_t)w >> 25) * 32 + (int32_t)((w >> 7) & 31); }
static int32_t imm_b(uint32_t w) {
    return ((int32_t)w >> 31) * 4096 + (int32_t)(((w >> 7) & 1) << 11 | ((w >> 25) & 63) << 5 | ((w >> 8) & 15) << 1);
}
static int32_t imm_j(uint32_t w) {
    return ((int32_t)w >> 31) * 1048576 + (int32_t)((w & 0xFF000) | ((w >> 20) & 1) << 11 | ((w >> 21) & 1023) << 1);
}

static int operate(uint32_t f7, uint32_t f3, uint32_t a, uint32_t b, uint32_t *r) {
    int32_t sa = (int32_t)a, sb = (int32_t)b;
    switch (f7 << 3 | f3) {
    case 0: *r = a + b; return 1;
    case 0x20 << 3: *r = a - b; return 1;
    case 1: *r = a << (b & 31); return 1;
    case 2: *r = sa < sb; return 1;
    case 3: *r = a < b; return 1;
    case 4: *r = a ^ b; return 1;
    case 5: *r = a >> (b & 31); return 1;
    case 0x20 << 3 | 5: *r = (uint32_t)(sa >> (b & 31)); return 1;
    case 6: *r = a | b; return 1;
    case 7: *r = a & b; return 1;
    case 8: *r = a * b; return 1;
    case 9: *r = (uint32_t)(((int64_t)sa * sb) >> 32); return 1;
    case 10: *r = (uint32_t)(((int64_t)sa * (int64_t)b) >> 32); return 1;
    case 11: *r = (uint32_t)(((uint64_t)a * b) >> 32); return 1;
    case 12: *r = b == 0 ? UINT32_MAX : a == 0x80000000u && sb == -1 ? a : (uint32_t)(sa / sb); return 1;
    case 13: *r = b == 0 ? UINT32_MAX : a / b; return 1;
    case 14: *r = b == 0 ? a : a == 0x80000000u && sb == -1 ? 0 : (uint32_t)(sa % sb); return 1;
    case 15: *r = b == 0 ? a : a % b; return 1;
    default: return 0;
    }
}

static int operate_imm(uint32_t w, uint32_t f3, uint32_t a, uint32_t *r) {
    uint32_t b = (uint32_t)imm_i(w), k = (w >> 20) & 31, f7 = w >> 25;
    switch (f3) {
    case 0: *r = a + b; return 1;
    case 1: *r = a << k; return f7 == 0;
    case 2: *r = (int32_t)a < (int32_t)b; return 1;
    case 3: *r = a < b; return 1;
    case 4: *r = a ^ b; return 1;
    case 5:
        if (f7 == 0) { *r = a >> k; return 1; }
        *r = (uint32_t)((int32_t)a >> k);
        return f7 == 0x20;
    case 6: *r = a | b; return 1;
    default: *r = a & b; return 1;
    }
}

static struct outcome exec(struct bus *bus, uint32_t *x, uint32_t pc) {
    uint32_t w, r, addr, size;
    if (!fetch(bus, pc, &w)) return trap(1, pc);
    uint32_t rd = (w >> 7) & 31, f3 = (w >> 12) & 7, a = x[(w >> 15) & 31], b = x[(w >> 20) & 31];
    int taken;
    switch (w & 0x7F) {
    case 0x37: r = w & 0xFFFFF000u; break;
    case 0x17: r = pc + (w & 0xFFFFF000u); break;
    case 0x6F: return jump(x, pc, rd, pc + (uint32_t)imm_j(w));
    case 0x67:
        if (f3) return trap(2, w);
        return jump(x, pc, rd, (a + (uint32_t)imm_i(w)) & ~1u);
    case 0x63:
        switch (f3) {
        case 0: taken = a == b; break;
        case 1: taken = a != b; break;
        case 4: taken = (int32_t)a < (int32_t)b; break;
        case 5: taken = (int32_t)a >= (int32_t)b; break;
        case 6: taken = a < b; break;
        case 7: taken = a >= b; break;
        default: return trap(2, w);
        }
        if (!taken) return next(pc + 4);
        addr = pc + (uint32_t)imm_b(w);
        return addr % 4 ? trap(0, addr) : next(addr);
    case 0x03:
        if (f3 == 3 || f3 > 5) return trap(2, w);
        size = 1u << (f3 & 3);
        addr = a + (uint32_t)imm_i(w);
        if (addr % size) return trap(4, addr);
        if (!load(bus, addr, size, &r)) return trap(5, addr);
        if (f3 == 0) r = (uint32_t)(int32_t)(int8_t)r;
        if (f3 == 1) r = (uint32_t)(int32_t)(int16_t)r;
        break;
    case 0x23:
        if (f3 > 2) return trap(2, w);
        size = 1u << f3;
        addr = a + (uint32_t)imm_s(w);
        if (addr % size) return trap(6, addr);
        if (!store(bus, addr, size, b)) return trap(7, addr);
        return next(pc + 4);
    case 0x13:
        if (!operate_imm(w, f3, a, &r)) return trap(2, w);
        break;
    case 0x33:
        if (!operate(w >> 25, f3, a, b, &r)) return trap(2, w);
        break;
    case 0x0F: return f3 ? trap(2, w) : next(pc + 4);
    case 0x73:
        if (w == 0x73) return (struct outcome){CALL, 0, 0};
        return w == 0x00100073 ? trap(3, pc) : trap(2, w);
    default: return trap(2, w);
    }
    if (rd) x[rd] = r;
    return next(pc + 4);
}

static uint32_t run(struct bus *bus, uint32_t *x, uint64_t turns) {
    uint32_t pc = BASE;
    for (uint64_t i = 0; i < turns; i++) {
        struct outcome o = exec(bus, x, pc);
        if (o.kind != NEXT) break;
        pc = o.value;
    }
    return pc;
}

int main(int argc, char **argv) {
    static const uint32_t code[] = {0x80001537, 0x00052303, 0x00530333, 0x02630433, 0x00852023, 0x00128293, 0xFE0296E3};
    if (argc < 2) return 2;
    uint64_t turns = strtoull(argv[1], NULL, 10);
    struct bus bus = {calloc(WORDS, 4), calloc(WORDS, 1), WORDS};
    if (!bus.ram || !bus.perms) return 1;
    memset(bus.perms, EXECUTE_READ, 1024);
    memset(bus.perms + 1024, READ_WRITE, 1024);
    memcpy(bus.ram, code, sizeof code);
    uint32_t x[32] = {0};
    struct timespec begun, ended;
    clock_gettime(CLOCK_THREAD_CPUTIME_ID, &begun);
    uint32_t pc = run(&bus, x, turns);
    clock_gettime(CLOCK_THREAD_CPUTIME_ID, &ended);
    printf("pc %08x\n", pc);
    for (int r = 0; r < 32; r++) printf("x%d %08x\n", r, x[r]);
    long long us = (ended.tv_sec - begun.tv_sec) * 1000000LL + (ended.tv_nsec - begun.tv_nsec) / 1000;
    fprintf(stderr, "turns=%llu microseconds=%lld\n", (unsigned long long)turns, us);
    return 0;
}
