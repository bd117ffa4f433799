/* Asks every supervisor call with every corner, and says of each answer, by the rules of docs/MACHINE.md, whether it is
 * right. Then it is called by the stranger and calls it, whatever the stranger does, sees a module die, and asks
 * again. */
#include "guest.h"

/* Entered by the stranger and by the mortal. */
MONDRIX_GATE(bounce);
MONDRIX_GATE(callback);
MONDRIX_GATE(judge_acts);

/* The words whose rights and owners change stand between words that don't. */
enum { ARENA = 32, LOST = ARENA - 2 };
static struct { word before[64], arena[ARENA], after[64]; } room __attribute__((aligned(256)));
#define before room.before
#define arena room.arena
#define after room.after
static unsigned char owners[ARENA], rights[MODULES + 1][ARENA];

static word wrong;

/* In place of an answer: it isn't known, or would be an effect that only the arena may bear. */
enum { EFFECT = 1 << 20 };

static void want(int is_right) { wrong += !is_right; }

/* Ranges, owners and rights, as they are by the rules. */
static int is_range(word at, word bytes) {
    return bytes > 0 && at % 4 == 0 && at >= RAM && at < RAM_END && bytes <= RAM_END - at;
}

static int is_word(word at) { return is_range(at, 4); }

static word index_of(word at) { return (at - (word)arena) / 4; }

static int is_in_arena(word at) { return at >= (word)arena && index_of(at) < ARENA; }

/* What is known of owners: up to the end of an area of the judge, of the arena word by word. Whether the stacks of the
 * other harts are there isn't known. */
enum { UNSURE = 99 };
static const struct area {
    word from, to, owner;
} areas[] = {
    {RAM, (word)before + sizeof before, JUDGE},
    {(word)after, (word)after + sizeof after, JUDGE},
    {HEAP_AT, HEAP_AT + 4 * HEAP_WORDS, JUDGE},
    {STACKS_AT, STACKS_AT + STACK_BYTES, JUDGE},
    {STACKS_AT + STACK_BYTES, STACKS_AT + 4 * STACK_BYTES, UNSURE},
};

static struct area area_of(word at) {
    if (is_in_arena(at)) return (struct area){at, at + 4, owners[index_of(at)]};
    for (word i = 0; i < MANY(areas); i++)
        if (areas[i].from <= at && at < areas[i].to) return areas[i];
    return (struct area){at, at + 4, 0}; /* nobody's, or another module's: the answers are the same */
}

static word owner_of(word at) { return area_of(at).owner; }

/* 0 where the judge owns the whole range, -2 where it doesn't. */
static answer owned(word at, word bytes) {
    answer so_far = 0;
    for (word end = at + bytes; at < end;) {
        struct area area = area_of(at);
        if (area.owner == UNSURE)
            so_far = EFFECT;
        else if (area.owner != JUDGE)
            return -2;
        at = area.to;
    }
    return so_far;
}

static int lies_in_arena(word at, word bytes) { return is_in_arena(at) && bytes <= (word)(arena + ARENA) - at; }

static int meets_heap(word at, word bytes) { return at < HEAP_AT + 4 * HEAP_WORDS && at + bytes > HEAP_AT; }

static word right_of(word at) {
    if (is_in_arena(at)) return rights[JUDGE][index_of(at)];
    return 0;
}

/* What answers a call on words that the judge owns. */
static answer effect_of(word at, word bytes, answer by_rule) {
    answer refusal = owned(at, bytes);
    if (refusal) return refusal;
    return lies_in_arena(at, bytes) ? by_rule : EFFECT;
}

static answer of_grant(word at, word bytes, word domain, word right) {
    if (!is_range(at, bytes)) return -1;
    if (domain < 1 || domain > MODULES) return -3;
    if (right > 3) return -4;
    return effect_of(at, bytes, 0);
}

static answer of_revoke_all(word at, word bytes) {
    if (!is_range(at, bytes)) return -1;
    return effect_of(at, bytes, 0);
}

static answer of_transfer(word at, word bytes, word domain) {
    if (!is_range(at, bytes) || meets_heap(at, bytes)) return -1;
    if (domain > MODULES) return -3;
    return effect_of(at, bytes, 0);
}

static answer of_gate(word at, word domain) {
    if (!is_word(at)) return -1;
    if (domain < 1 || domain > MODULES || domain == JUDGE) return -3;
    return effect_of(at, 4, 0);
}

static answer of_ungate(word at, word domain) {
    if (!is_word(at)) return -1;
    if (domain < 1 || domain > MODULES) return -3;
    return effect_of(at, 4, -15);
}

static answer of_return_gate(word at) {
    if (!is_word(at)) return -1;
    return effect_of(at, 4, 0);
}

static answer of_query(word at, word domain) {
    if (!is_word(at)) return -1;
    if (domain < 1 || domain > MODULES) return -3;
    if (domain != JUDGE && owned(at, 4)) return owned(at, 4);
    return is_in_arena(at) ? rights[domain][index_of(at)] : EFFECT;
}

/* Calls, where the answer is known, and compares. Another register never changes. */
static answer compared(word number, word first, word second, word third, word fourth, answer by_rule) {
    if (by_rule == EFFECT) return EFFECT;
    struct left left = call(number, first, second, third, fourth);
    want(left.a0 == by_rule && left.a1 == second && !left.is_spoilt);
    return by_rule;
}

static const word lengths[] = {
    0, 1, 2, 3, 4, 5, 7, 8, 4 * ARENA - 4, 4 * ARENA, 4 * ARENA + 1, 4096, 4097, 0x3fffc, 0x40000, 0x40001,
    0x7fffffff, 0x80000000, 0xfffffffc, 0xffffffff};
static const word domains[] = {0, 1, 2, 3, 4, 5, 63, 64, 255, 256, 257, 0x80000001, 0xffffffff};
static const word permissions[] = {0, 1, 2, 3, 4, 5, 7, 255, 256, 0x80000001, 0xffffffff};
static const word numbers[] = {0, 14, 15, 16, 255, 256, 257, 0x80000001, 0xfffffff3, 0xffffffff};

/* Addresses at which a rule changes. */
static word corner(word i) {
    const word list[] = {
        0, 1, 2, 4, RAM - 4, RAM - 1, RAM, RAM + 1, RAM + 2, (word)before, (word)arena, (word)arena + 1,
        (word)arena + 2, (word)(arena + 1), (word)(arena + ARENA / 2), (word)(arena + ARENA - 1), (word)after,
        HEAP_AT, HEAP_AT + 4 * HEAP_WORDS - 4, HEAP_AT + 4 * HEAP_WORDS, STACKS_AT, STRANGER_AT, STRANGER_AT + 32,
        MORTAL_AT, NOISE_AT, NOISE_HEAP_AT, NOBODYS, RAM_END - 2, RAM_END - 1, RAM_END, 0xfffffffc, 0xffffffff};
    return i < MANY(list) ? list[i] : 3;
}
enum { CORNERS = 33 };

static void set_rights(word domain, word at, word bytes, word right) {
    for (word end = at + bytes; at < end; at += 4) rights[domain][index_of(at)] = right;
}

/* Every pair of an address and a length, with domains and permissions in turn; every domain with every permission. */
static void grant(word at, word bytes, word domain, word right) {
    if (compared(3, at, bytes, domain, right, of_grant(at, bytes, domain, right)) == 0)
        set_rights(domain, at, bytes, right);
}

static void grants(void) {
    word turn = 0;
    for (word i = 0; i < CORNERS; i++)
        for (word k = 0; k < MANY(lengths); k++, turn++)
            grant(corner(i), lengths[k], domains[turn % MANY(domains)], permissions[turn % MANY(permissions)]);
    for (word i = 0; i < MANY(domains); i++)
        for (word k = 0; k < MANY(permissions); k++) {
            grant((word)(arena + (i + k) % LOST), 1 + (i + k) % 8, domains[i], permissions[k]);
            grant(NOBODYS, 4, domains[i], permissions[k]);
        }
}

static void revocations(void) {
    for (word i = 0; i < CORNERS; i++)
        for (word k = 0; k < MANY(lengths); k++) {
            word at = corner(i), bytes = lengths[k];
            if (compared(4, at, bytes, 7, 7, of_revoke_all(at, bytes)) != 0) continue;
            for (word domain = 2; domain <= MODULES; domain++) set_rights(domain, at, bytes, 0);
        }
}

/* What goes to the stranger it gives back; what goes to the others is lost, so that is one word each. */
static void transfer(word at, word bytes, word domain) {
    answer by_rule = of_transfer(at, bytes, domain);
    if (by_rule == 0 && domain != JUDGE && domain != STRANGER) return;
    if (compared(5, at, bytes, domain, 7, by_rule) != 0 || domain == JUDGE) return;
    want(asked(3, at, 4, JUDGE, 2) == -2 && asked(4, at, 4, 0, 0) == -2 && asked(11, at, STRANGER, 0, 0) == -2);
    want(GATE(STRANGER_AT, GIVES_BACK)(at, bytes, JUDGE) == 0);
    want(asked(11, at, STRANGER, 0, 0) == rights[STRANGER][index_of(at)]);
}

static void transfers(void) {
    word turn = 0;
    for (word i = 0; i < CORNERS; i++)
        for (word k = 0; k < MANY(lengths); k++, turn++) transfer(corner(i), lengths[k], domains[turn % MANY(domains)]);
    for (word i = 0; i < MANY(domains); i++) transfer((word)(arena + i), 4, domains[i]);
    want(asked(5, (word)(arena + LOST), 4, 0, 0) == 0 && asked(5, (word)(arena + LOST + 1), 4, MORTAL, 0) == 0);
    owners[LOST] = 0, owners[LOST + 1] = MORTAL;
}

static void gates(void) {
    word turn = 0;
    for (word i = 0; i < CORNERS; i++)
        for (word k = 0; k < MANY(domains); k++, turn++) {
            word at = corner(i), domain = domains[k];
            compared(9, at, domain, 7, 7, of_ungate(at, domain));
            if (compared(8, at, domain, 7, 7, of_gate(at, domain)) == 0)
                want(asked(8, at, domain, 0, 0) == 0 && asked(9, at, domain, 0, 0) == 0 &&
                     asked(9, at, domain, 0, 0) == -15);
            if (compared(10, at, domain, 7, 7, of_return_gate(at)) == 0)
                want(asked(10, at, 0, 0, 0) == 0 && asked(9, at, JUDGE, 0, 0) == 0 && asked(9, at, JUDGE, 0, 0) == -15);
        }
}

static void queries(void) {
    for (word i = 0; i < CORNERS; i++)
        for (word k = 0; k < MANY(domains); k++)
            compared(11, corner(i), domains[k], 7, 7, of_query(corner(i), domains[k]));
    for (word i = 0; i < ARENA; i++)
        for (word domain = 1; domain <= MODULES; domain++)
            compared(11, (word)(arena + i), domain, 7, 7, of_query((word)(arena + i), domain));
}

/* Answers of call 13: outside of the arena it isn't tried where it would take effect. */
static void exchanges(void) {
    for (word i = 0; i < CORNERS; i++) {
        word at = corner(i), value = 0x1000 + i;
        if (!is_word(at)) {
            compared(13, at, value, 7, 7, -1);
        } else if (is_in_arena(at) && right_of(at) == 2) {
            volatile word *there = (volatile word *)at;
            word old = *there;
            struct left left = call(13, at, value, 7, 7);
            want(left.a0 == 0 && left.a1 == old && !left.is_spoilt && *there == value);
            *there = old;
        } else if (is_in_arena(at) || owner_of(at) != JUDGE || at < RAM + 4 || (at >= HEAP_AT && at < STACKS_AT)) {
            compared(13, at, value, 7, 7, -12);
        }
    }
}

static answer of_write(word at, word bytes) {
    if (bytes > 4096) return -11;
    if (bytes == 0) return 0;
    if (at < RAM || at >= RAM_END || bytes > RAM_END - at) return -1;
    for (word touched = at & ~3u; touched < at + bytes; touched += 4) {
        if (is_in_arena(touched) && !right_of(touched)) return -12;
        if (owner_of(touched) == UNSURE) return EFFECT;
        if (!is_in_arena(touched) && owner_of(touched) != JUDGE) return -12;
        if (touched >= HEAP_AT && touched < HEAP_AT + 4 * HEAP_WORDS) return -12;
    }
    return bytes <= 5 || is_in_arena(at) ? (answer)bytes : EFFECT;
}

static void writes(void) {
    for (word i = 0; i < CORNERS; i++)
        for (word k = 0; k < MANY(lengths); k++)
            compared(2, corner(i), lengths[k], 7, 7, of_write(corner(i), lengths[k]));
}

static int is_new(const word *block, word words) {
    for (word i = 0; i < words; i++)
        if (block[i] != 0) return 0;
    for (word domain = 1; domain <= MODULES; domain++)
        if (asked(11, (word)block, domain, 0, 0) != (domain == JUDGE ? 2 : 0)) return 0;
    return 1;
}

static void blocks(void) {
    const word sizes[] = {
        0, 1, 2, HEAP_WORDS - 1, HEAP_WORDS, HEAP_WORDS + 1, 0x3fffffff, 0x40000000, 0x40000001, 0x80000000,
        0xffffffff};
    for (word i = 0; i < MANY(sizes); i++) {
        word words = sizes[i];
        answer by_rule = words == 0 ? -1 : words > HEAP_WORDS ? -6 : (answer)HEAP_AT;
        compared(6, words, 7, 7, 7, by_rule);
        if (by_rule != (answer)HEAP_AT) continue;
        word *block = (word *)HEAP_AT;
        want(is_new(block, words) && asked(6, HEAP_WORDS - words + 1, 0, 0, 0) == -6);
        want(asked(3, HEAP_AT, 4, STRANGER, 2) == 0 && asked(5, HEAP_AT, 4, STRANGER, 0) == -1);
        for (word k = 0; k < words; k++) block[k] = 0xffffffff;
        for (word k = 0; k < CORNERS; k++)
            if (corner(k) != HEAP_AT) compared(7, corner(k), 7, 7, 7, -8);
        want(asked(7, HEAP_AT, 0, 0, 0) == 0 && asked(7, HEAP_AT, 0, 0, 0) == -8);
        want(asked(11, HEAP_AT, STRANGER, 0, 0) == 0 && asked(11, HEAP_AT, JUDGE, 0, 0) == 0);
    }
    /* First fit: the hole in the middle, and not the place behind. */
    want(asked(6, 4, 0, 0, 0) == (answer)HEAP_AT && asked(6, 3, 0, 0, 0) == (answer)HEAP_AT + 16);
    want(asked(6, 5, 0, 0, 0) == (answer)HEAP_AT + 28 && asked(7, HEAP_AT + 16, 0, 0, 0) == 0);
    want(asked(6, 4, 0, 0, 0) == (answer)HEAP_AT + 48 && asked(6, 2, 0, 0, 0) == (answer)HEAP_AT + 16);
    want(asked(7, HEAP_AT + 16, 0, 0, 0) == 0 && asked(7, HEAP_AT + 48, 0, 0, 0) == 0);
    want(asked(7, HEAP_AT + 28, 0, 0, 0) == 0 && asked(7, HEAP_AT, 0, 0, 0) == 0);
}

static void other_numbers(void) {
    for (word i = 0; i < MANY(numbers); i++)
        for (word k = 0; k < CORNERS; k++) compared(numbers[i], corner(k), 7, 7, 7, -13);
    want(asked(12, 7, 7, 7, 7) == JUDGE); /* hart 0 */
}

/* The stranger tries what it can, and each time the judge goes on. */
static word bounced;

answer bounce_entered(word depth) {
    bounced++;
    answer deeper = GATE(STRANGER_AT, DEEPEN)(depth + 1, 0, 0);
    return deeper == FAULT(16) ? (answer)depth : deeper;
}

answer judge_acts_entered(word cause, word other) { return act(cause, other); }

static void strangers_acts(void) {
    const word causes[] = {
        0, 1, 2, 3, 4, 5, 6, 7};
    before[0] = 0x1234;
    for (word i = 0; i < MANY(causes); i++) {
        word cause = causes[i], other = cause == 1 ? JUDGE_AT + 4 : (word)before;
        want(GATE(STRANGER_AT, ACTS)(cause, other, 0) == FAULT(cause) && before[0] == 0x1234);
        /* The judge itself, called by the stranger, which goes on with the answer. */
        other = cause == 1 ? STRANGER_AT + 4 : STRANGER_AT;
        want(GATE(STRANGER_AT, CALLS)(JUDGE_AT + 32 * JUDGE_ACTS, cause, other) == FAULT(cause));
    }
    want(GATE(STRANGER_AT, ACTS)(19, JUDGE_AT, 0) == FAULT(19));
    want(GATE(STRANGER_AT, ACTS)(1, (word)before, 0) == FAULT(1) && GATE(STRANGER_AT, ACTS)(1, 0, 0) == FAULT(1));
    want(GATE(STRANGER_AT, ACTS)(1, RAM_END, 0) == FAULT(1) && GATE(STRANGER_AT, ACTS)(7, RAM_END, 0) == FAULT(7));
    want(GATE(STRANGER_AT, ACTS)(5, 0xffffffff, 0) == FAULT(5) && GATE(STRANGER_AT, ACTS)(7, JUDGE_AT, 0) == FAULT(7));
}

/* Returns to other addresses: by 4, to the stranger itself, to 0, to 2 behind; a set bit 0 is cleared by JALR. */
static void forged(void) {
    want(GATE(STRANGER_AT, FORGES)(4, 1, 0) == FAULT(17) && GATE(STRANGER_AT, FORGES)(STRANGER_AT, 0, 0) == FAULT(17));
    want(GATE(STRANGER_AT, FORGES)(0, 0, 0) == FAULT(17) && GATE(STRANGER_AT, FORGES)(2, 1, 0) == FAULT(17));
    want(GATE(STRANGER_AT, FORGES)(-4u, 1, 0) == FAULT(17) &&
         GATE(STRANGER_AT, FORGES)((word)before, 0, 0) == FAULT(17));
    want(GATE(STRANGER_AT, FORGES)(1, 1, 0) == 1 && GATE(STRANGER_AT, FORGES)(0, 1, 0) == 0);
}

/* The fifteen registers after a call that fills all of them, and comes back by a return or by a fault. */
static word spoilt(word gate, word by_fault) {
    word differs;
    __asm__ volatile(
        "addi sp, sp, -16\n\tsw s0, 0(sp)\n\tsw s1, 4(sp)\n\tsw gp, 8(sp)\n\tsw tp, 12(sp)\n\t"
        "mv t3, %2\n\tmv a0, %1\n\tmv a5, sp\n\tli gp, 101\n\tli tp, 102\n\tli s0, 103\n\tli s1, 104\n\tli s2, 105\n\t"
        "li s3, 106\n\tli s4, 107\n\tli s5, 108\n\tli s6, 109\n\tli s7, 110\n\tli s8, 111\n\tli s9, 112\n\tli s10, "
        "113\n\t"
        "li s11, 114\n\tla t4, judge_stack\n\tsw sp, 0(t4)\n\tjalr ra, 0(t3)\n\t"
        "la t4, judge_stack\n\tlw t4, 0(t4)\n\txor a1, sp, t4\n\tmv sp, t4\n\t"
        "addi t4, gp, -101\n\tor a1, a1, t4\n\taddi t4, tp, -102\n\tor a1, a1, t4\n\taddi t4, s0, -103\n\tor a1, a1, "
        "t4\n\t"
        "addi t4, s1, -104\n\tor a1, a1, t4\n\taddi t4, s2, -105\n\tor a1, a1, t4\n\taddi t4, s3, -106\n\tor a1, a1, "
        "t4\n\t"
        "addi t4, s4, -107\n\tor a1, a1, t4\n\taddi t4, s5, -108\n\tor a1, a1, t4\n\taddi t4, s6, -109\n\tor a1, a1, "
        "t4\n\t"
        "addi t4, s7, -110\n\tor a1, a1, t4\n\taddi t4, s8, -111\n\tor a1, a1, t4\n\taddi t4, s9, -112\n\tor a1, a1, "
        "t4\n\t"
        "addi t4, s10, -113\n\tor a1, a1, t4\n\taddi t4, s11, -114\n\tor a1, a1, t4\n\t"
        "lw s0, 0(sp)\n\tlw s1, 4(sp)\n\tlw gp, 8(sp)\n\tlw tp, 12(sp)\n\taddi sp, sp, 16\n\tmv %0, a1"
        : "=r"(differs)
        : "r"(by_fault), "r"(gate)
        : "ra", "a0", "a1", "a2", "a3", "a4", "a5", "a6", "a7", "t0", "t1", "t2", "t3", "t4", "t5", "t6", "s2", "s3",
          "s4", "s5", "s6", "s7", "s8", "s9", "s10", "s11", "memory");
    return differs;
}
word judge_stack;

static void called(void) {
    want(GATE(STRANGER_AT, HONEST)(41, 0, 0) == 42);
    strangers_acts();
    forged();
    want(spoilt(STRANGER_AT + 32 * CLOBBERS, 0) == 0 && spoilt(STRANGER_AT + 32 * CLOBBERS, 1) == 0);
    want(GATE(STRANGER_AT, TRIES)((word)before, (word)HEAP_AT, (word)JUDGE_AT) == 0);
    /* Each of 64 frames: the crossing from the last one faults by 16, and the one below sees that. */
    want(GATE(STRANGER_AT, DEEPEN)(1, 0, 0) == 63);
    /* A gate that is gone is no way in; one that is there again is one. */
    want(asked(9, JUDGE_AT, STRANGER, 0, 0) == 0);
    want(GATE(STRANGER_AT, CALLS)(JUDGE_AT, 64, 0) == FAULT(1));
    want(asked(8, JUDGE_AT, STRANGER, 0, 0) == 0 && GATE(STRANGER_AT, DEEPEN)(1, 0, 0) == 63);
}

/* A right that is given, used, and taken away. */
static void lent(void) {
    want(asked(3, (word)arena, 4, JUDGE, 2) == 0 && asked(3, (word)arena, 4, STRANGER, 2) == 0);
    want(GATE(STRANGER_AT, ACTS)(7, (word)arena, 0) == 0 && arena[0] == 0);
    arena[0] = 5;
    want(asked(3, (word)arena, 1, STRANGER, 1) == 0 && GATE(STRANGER_AT, ACTS)(7, (word)arena, 0) == FAULT(7));
    want(GATE(STRANGER_AT, ACTS)(5, (word)arena, 0) == 0 && GATE(STRANGER_AT, ACTS)(1, (word)arena, 0) == FAULT(1));
    want(asked(4, (word)arena, 3, 0, 0) == 0 && GATE(STRANGER_AT, ACTS)(5, (word)arena, 0) == FAULT(5) &&
         arena[0] == 5);
    rights[JUDGE][0] = 2, rights[STRANGER][0] = 0;
    for (word domain = 2; domain <= MODULES; domain++) rights[domain][0] = 0;
}

/* The mortal dies by its first fault, while it is called through the judge: the judge gets the answers of each. */
static word died;

answer callback_entered(void) {
    died += GATE(MORTAL_AT, ADDS)(2, 3, 0) == 5;
    died += GATE(MORTAL_AT, DIES)(0, 0, 0) == FAULT(3);
    died += GATE(MORTAL_AT, ADDS)(2, 3, 0) == FAULT(20);
    return 0;
}

static void killed(void) {
    want(asked(3, (word)before, 4, MORTAL, 1) == 0 && GATE(MORTAL_AT, ADDS)(20, 22, 0) == 42);
    want(GATE(MORTAL_AT, IS_OUTER)(0, 0, 0) == FAULT(20) && died == 3);
    want(GATE(MORTAL_AT, ADDS)(1, 1, 0) == FAULT(20) && GATE(MORTAL_AT, DIES)(1, 1, 0) == FAULT(20));
    want(GATE(STRANGER_AT, CALLS)(MORTAL_AT, 1, 1) == FAULT(20));
    /* Its rights stay as they are. */
    want(asked(11, (word)before, MORTAL, 0, 0) == 1 && asked(3, (word)before, 4, MORTAL, 2) == 0);
    want(asked(11, (word)before, MORTAL, 0, 0) == 2 && asked(4, (word)before, 4, 0, 0) == 0);
}

static void ask_all(void) {
    grants();
    queries();
    exchanges();
    writes();
    revocations();
    transfers();
    queries();
    gates();
    blocks();
    other_numbers();
}

int main(void) {
    for (word i = 0; i < ARENA; i++) {
        owners[i] = JUDGE;
        rights[JUDGE][i] = 2;
    }
    ask_all();
    called();
    lent();
    killed();
    grants();
    queries();
    want(GATE(STRANGER_AT, HONEST)(1, 0, 0) == 2);
    return (int)wrong;
}
