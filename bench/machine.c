/* The turns of one hart in C, for comparison: the same machine for programs that make no call but exit, write, self and
   exchange. Each turn counts itself, asks whether the hart's domain is dead and whether a gate stands at pc, fetches,
   decodes, and checks each access by the places with their spans, the lookaside buffer and a walk of the domain's
   permissions, with the same counts.

   machine TURNS          the compute loop of crates/machine_speed, beside two gates
   machine TURNS IMAGE    an ELF32 image at its addresses in 16 MiB of RAM, with a stack at their end and no gate;
                          console to stdout

   Prints pc and registers to stdout (with an image: what it writes, and these to stderr), and the processor time to
   stderr. */
#include <stdint.h>
#include <stdio.h>
#include <stdlib.h>
#include <string.h>
#include <time.h>

enum { NONE, READ, READ_WRITE, EXECUTE_READ };
enum { LOAD, STORE, FETCH };

#define BASE 0x80000000u
#define PLACES 32
#define KEPT 32
#define STACK 65536 /* words */
#define MODULES 63
#define GATES 256

struct span {
    uint32_t first, count;
    uint8_t perm, held;
};

struct entry {
    uint32_t domain;
    struct span span;
};

struct gate {
    uint32_t domain, word, target;
};

struct machine {
    uint8_t *ram, *perms[MODULES + 1];
    uint32_t words, modules;
    uint32_t x[32], pc, domain, halted;
    uint8_t dead[MODULES + 1];
    struct gate gates[GATES];
    uint32_t starts[MODULES + 2]; /* where the gates of a domain begin, by domain and then by word */
    struct span places[PLACES];
    struct entry kept[KEPT];
    uint32_t newest, len;
    uint64_t sidecar, lookaside, walks, turns;
};

struct trap {
    uint32_t cause, value;
};

static int allows(uint8_t perm, int access) {
    switch (access) {
    case LOAD: return perm != NONE;
    case STORE: return perm == READ_WRITE;
    default: return perm == EXECUTE_READ;
    }
}

static int has(const struct span *s, uint32_t word) { return s->first <= word && word - s->first < s->count; }

static struct span walk(const struct machine *m, uint32_t word) {
    const uint8_t *map = m->perms[m->domain];
    uint32_t first = word, end = word + 1;
    while (first > 0 && map[first - 1] == map[word]) first--;
    while (end < m->words && map[end] == map[word]) end++;
    return (struct span){first, end - first, map[word], 1};
}

static __attribute__((noinline)) uint8_t behind(struct machine *m, uint32_t place, uint32_t word) {
    for (uint32_t age = 0; age < m->len; age++) {
        const struct entry *e = &m->kept[(m->newest + age) % KEPT];
        if (e->domain == m->domain && has(&e->span, word)) {
            m->places[place] = e->span;
            m->lookaside++;
            return e->span.perm;
        }
    }
    struct span s = walk(m, word);
    m->places[place] = s;
    m->newest = (m->newest + KEPT - 1) % KEPT;
    m->kept[m->newest] = (struct entry){m->domain, s};
    if (m->len < KEPT) m->len++;
    m->walks++;
    return s.perm;
}

static inline int may(struct machine *m, uint32_t place, uint32_t addr, int access) {
    if (addr < BASE || (addr - BASE) / 4 >= m->words) return 0;
    uint32_t word = (addr - BASE) / 4;
    const struct span *s = &m->places[place];
    if (s->held && has(s, word)) {
        if (m->sidecar != UINT64_MAX) m->sidecar++;
        return allows(s->perm, access);
    }
    return allows(behind(m, place, word), access);
}

/* the target of the gate that stands for the hart's domain at pc, 0 for none */
static inline uint32_t gate_target(const struct machine *m) {
    uint32_t word = (m->pc - BASE) / 4;
    uint32_t low = m->starts[m->domain], high = m->starts[m->domain + 1];
    while (low < high) {
        uint32_t middle = (low + high) / 2;
        if (m->gates[middle].word == word) return m->gates[middle].target;
        if (m->gates[middle].word < word) low = middle + 1;
        else high = middle;
    }
    return 0;
}

static int32_t imm_i(uint32_t w) { return (int32_t)w >> 20; }
static int32_t imm_s(uint32_t w) { return ((int32_t)w >> 25) * 32 + (int32_t)((w >> 7) & 31); }
static int32_t imm_b(uint32_t w) {
    return ((int32_t)w >> 31) * 4096 + (int32_t)(((w >> 7) & 1) << 11 | ((w >> 25) & 63) << 5 | ((w >> 8) & 15) << 1);
}
static int32_t imm_j(uint32_t w) {
    return ((int32_t)w >> 31) * 1048576 + (int32_t)((w & 0xFF000) | ((w >> 20) & 1) << 11 | ((w >> 21) & 1023) << 1);
}

static int operate(uint32_t f7, uint32_t f3, uint32_t a, uint32_t b, uint32_t *r) {
    int32_t sa = (int32_t)a, sb = (int32_t)b;
    switch (f7 << 3 | f3) {
    case 0: *r = a + b; return 1;
    case 0x20 << 3: *r = a - b; return 1;
    case 1: *r = a << (b & 31); return 1;
    case 2: *r = sa < sb; return 1;
    case 3: *r = a < b; return 1;
    case 4: *r = a ^ b; return 1;
    case 5: *r = a >> (b & 31); return 1;
    case 0x20 << 3 | 5: *r = (uint32_t)(sa >> (b & 31)); return 1;
    case 6: *r = a | b; return 1;
    case 7: *r = a & b; return 1;
    case 8: *r = a * b; return 1;
    case 9: *r = (uint32_t)(((int64_t)sa * sb) >> 32); return 1;
    case 10: *r = (uint32_t)(((int64_t)sa * (int64_t)(uint64_t)b) >> 32); return 1;
    case 11: *r = (uint32_t)(((uint64_t)a * b) >> 32); return 1;
    case 12: *r = b == 0 ? UINT32_MAX : a == 0x80000000u && sb == -1 ? a : (uint32_t)(sa / sb); return 1;
    case 13: *r = b == 0 ? UINT32_MAX : a / b; return 1;
    case 14: *r = b == 0 ? a : a == 0x80000000u && sb == -1 ? 0 : (uint32_t)(sa % sb); return 1;
    case 15: *r = b == 0 ? a : a % b; return 1;
    default: return 0;
    }
}

static int operate_imm(uint32_t w, uint32_t f3, uint32_t a, uint32_t *r) {
    uint32_t b = (uint32_t)imm_i(w), k = (w >> 20) & 31, f7 = w >> 25;
    switch (f3) {
    case 0: *r = a + b; return 1;
    case 1: *r = a << k; return f7 == 0;
    case 2: *r = (int32_t)a < (int32_t)b; return 1;
    case 3: *r = a < b; return 1;
    case 4: *r = a ^ b; return 1;
    case 5:
        if (f7 == 0) { *r = a >> k; return 1; }
        *r = (uint32_t)((int32_t)a >> k);
        return f7 == 0x20;
    case 6: *r = a | b; return 1;
    default: *r = a & b; return 1;
    }
}

/* call 2 */
static void write_out(struct machine *m) {
    uint32_t *x = m->x;
    for (uint32_t at = x[10] & ~3u; at < x[10] + x[11]; at += 4) {
        if (!may(m, 10, at, LOAD)) {
            x[10] = (uint32_t)-12;
            return;
        }
    }
    fwrite(m->ram + (x[10] - BASE), 1, x[11], stdout);
    x[10] = x[11];
}

/* call 13 */
static void exchange(struct machine *m) {
    uint32_t *x = m->x, old;
    if (x[10] % 4 || x[10] < BASE || (x[10] - BASE) / 4 >= m->words) {
        x[10] = (uint32_t)-1;
    } else if (!may(m, 10, x[10], STORE)) {
        x[10] = (uint32_t)-12;
    } else {
        memcpy(&old, m->ram + (x[10] - BASE), 4);
        memcpy(m->ram + (x[10] - BASE), &x[11], 4);
        x[10] = 0;
        x[11] = old;
    }
}

/* calls 1, 2, 12 and 13; any other is refused */
static __attribute__((noinline)) int call(struct machine *m) {
    uint32_t *x = m->x;
    if (x[17] == 1) {
        m->halted = 1;
        return 0;
    }
    if (x[17] == 2 && x[11] <= 4096) write_out(m);
    else if (x[17] == 12) x[10] = m->domain; /* of hart 0 */
    else if (x[17] == 13) exchange(m);
    else x[10] = (uint32_t)-13;
    m->pc += 4;
    return 0;
}

/* one instruction: 0, or 1 with the trap */
static inline int exec(struct machine *m, struct trap *t) {
    uint32_t *x = m->x, pc = m->pc, w, r, addr, size;
    uint8_t *at;
    uint16_t half;
    if (!may(m, 0, pc, FETCH)) return *t = (struct trap){1, pc}, 1;
    memcpy(&w, m->ram + (pc - BASE), 4);
    uint32_t rd = (w >> 7) & 31, f3 = (w >> 12) & 7, rs = (w >> 15) & 31, a = x[rs], b = x[(w >> 20) & 31];
    int taken;
    switch (w & 0x7F) {
    case 0x37: r = w & 0xFFFFF000u; break;
    case 0x17: r = pc + (w & 0xFFFFF000u); break;
    case 0x6F:
        addr = pc + (uint32_t)imm_j(w);
        if (addr % 4) return *t = (struct trap){0, addr}, 1;
        if (rd) x[rd] = pc + 4;
        m->pc = addr;
        return 0;
    case 0x67:
        if (f3) return *t = (struct trap){2, w}, 1;
        addr = (a + (uint32_t)imm_i(w)) & ~1u;
        if (addr % 4) return *t = (struct trap){0, addr}, 1;
        if (rd) x[rd] = pc + 4;
        m->pc = addr;
        return 0;
    case 0x63:
        switch (f3) {
        case 0: taken = a == b; break;
        case 1: taken = a != b; break;
        case 4: taken = (int32_t)a < (int32_t)b; break;
        case 5: taken = (int32_t)a >= (int32_t)b; break;
        case 6: taken = a < b; break;
        case 7: taken = a >= b; break;
        default: return *t = (struct trap){2, w}, 1;
        }
        if (!taken) break;
        addr = pc + (uint32_t)imm_b(w);
        if (addr % 4) return *t = (struct trap){0, addr}, 1;
        m->pc = addr;
        return 0;
    case 0x03:
        if (f3 == 3 || f3 > 5) return *t = (struct trap){2, w}, 1;
        size = 1u << (f3 & 3);
        addr = a + (uint32_t)imm_i(w);
        if (addr % size) return *t = (struct trap){4, addr}, 1;
        if (!may(m, rs, addr, LOAD)) return *t = (struct trap){5, addr}, 1;
        at = m->ram + (addr - BASE);
        switch (f3) {
        case 0: r = (uint32_t)(int32_t)(int8_t)*at; break;
        case 1: memcpy(&half, at, 2); r = (uint32_t)(int32_t)(int16_t)half; break;
        case 4: r = *at; break;
        case 5: memcpy(&half, at, 2); r = half; break;
        default: memcpy(&r, at, 4);
        }
        break;
    case 0x23:
        if (f3 > 2) return *t = (struct trap){2, w}, 1;
        size = 1u << f3;
        addr = a + (uint32_t)imm_s(w);
        if (addr % size) return *t = (struct trap){6, addr}, 1;
        if (!may(m, rs, addr, STORE)) return *t = (struct trap){7, addr}, 1;
        at = m->ram + (addr - BASE);
        half = (uint16_t)b;
        switch (f3) {
        case 0: *at = (uint8_t)b; break;
        case 1: memcpy(at, &half, 2); break;
        default: memcpy(at, &b, 4);
        }
        m->pc = pc + 4;
        return 0;
    case 0x13:
        if (!operate_imm(w, f3, a, &r)) return *t = (struct trap){2, w}, 1;
        break;
    case 0x33:
        if (!operate(w >> 25, f3, a, b, &r)) return *t = (struct trap){2, w}, 1;
        break;
    case 0x0F:
        if (f3) return *t = (struct trap){2, w}, 1;
        rd = 0;
        break;
    case 0x73:
        if (w == 0x73) return call(m);
        return *t = w == 0x00100073 ? (struct trap){3, pc} : (struct trap){2, w}, 1;
    default: return *t = (struct trap){2, w}, 1;
    }
    if ((w & 0x7F) != 0x63 && rd) x[rd] = r;
    m->pc = pc + 4;
    return 0;
}

/* one turn: 1 while the hart runs */
static inline int turn(struct machine *m) {
    struct trap t = {0, 0};
    if (m->halted) return 0;
    m->turns++;
    if (m->dead[m->domain]) {
        t = (struct trap){20, m->pc};
    } else if (gate_target(m) != 0) {
        t = (struct trap){16, m->pc}; /* the programs that are run here cross no gate */
    } else if (!exec(m, &t)) {
        return !m->halted;
    }
    fprintf(stderr, "fault step=%llu pc=0x%08x cause=%u value=0x%08x\n", (unsigned long long)m->turns, m->pc, t.cause,
            t.value);
    m->halted = 1;
    return 0;
}

static uint32_t word_at(const uint8_t *at) {
    uint32_t w;
    memcpy(&w, at, 4);
    return w;
}

static int load(struct machine *m, const char *name) {
    FILE *file = fopen(name, "rb");
    static uint8_t image[1 << 24];
    if (!file) return 0;
    size_t len = fread(image, 1, sizeof image, file);
    fclose(file);
    if (len < 52) return 0;
    m->pc = word_at(image + 24);
    const uint8_t *header = image + word_at(image + 28);
    for (int i = 0; i < image[44]; i++, header += 32) {
        if (word_at(header) != 1 || word_at(header + 20) == 0) continue;
        uint32_t address = word_at(header + 8), words = (word_at(header + 20) + 3) / 4, flags = word_at(header + 24);
        memcpy(m->ram + (address - BASE), image + word_at(header + 4), word_at(header + 16));
        memset(m->perms[1] + (address - BASE) / 4, flags & 1 ? EXECUTE_READ : flags & 2 ? READ_WRITE : READ, words);
    }
    memset(m->perms[1] + m->words - STACK, READ_WRITE, STACK);
    m->x[2] = BASE + 4 * m->words;
    return 1;
}

int main(int argc, char **argv) {
    static const uint32_t code[] = {0x80001537, 0x00052303, 0x00530333, 0x02630433, 0x00852023, 0x00128293, 0xFE0296E3};
    static struct machine machine;
    struct machine *m = &machine;
    if (argc < 2) return 2;
    uint64_t turns = strtoull(argv[1], NULL, 10);
    m->words = argc > 2 ? 1 << 22 : 16384;
    m->modules = 2;
    m->domain = 1;
    m->pc = BASE;
    m->ram = calloc(m->words, 4);
    m->perms[1] = calloc(m->words, 1);
    m->perms[2] = calloc(m->words, 1);
    if (!m->ram || !m->perms[1] || !m->perms[2]) return 1;
    FILE *registers = stdout;
    if (argc > 2) {
        registers = stderr;
        if (!load(m, argv[2])) return 2;
    } else {
        /* a call gate of domain 1 and a return gate of domain 2, both in domain 2's words */
        m->gates[0] = (struct gate){1, 12288, 2};
        m->gates[1] = (struct gate){2, 12289, 2};
        for (uint32_t d = 2; d <= MODULES + 1; d++) m->starts[d] = d == 2 ? 1 : 2;
        memset(m->perms[1], EXECUTE_READ, 7);
        memset(m->perms[1] + 1024, READ_WRITE, 64);
        memset(m->perms[2] + 12288, EXECUTE_READ, 2);
        memcpy(m->ram, code, sizeof code);
        m->x[2] = BASE + 4352;
    }
    struct timespec begun, ended;
    clock_gettime(CLOCK_THREAD_CPUTIME_ID, &begun);
    for (uint64_t i = 0; i < turns; i++)
        if (!turn(m)) break;
    clock_gettime(CLOCK_THREAD_CPUTIME_ID, &ended);
    fprintf(registers, "pc %08x\n", m->pc);
    for (int r = 0; r < 32; r++) fprintf(registers, "x%d %08x\n", r, m->x[r]);
    long long us = (ended.tv_sec - begun.tv_sec) * 1000000LL + (ended.tv_nsec - begun.tv_nsec) / 1000;
    fprintf(stderr, "turns=%llu microseconds=%lld\n", (unsigned long long)m->turns, us);
    return 0;
}
