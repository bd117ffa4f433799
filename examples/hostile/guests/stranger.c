/* Does what it can to the judge, which calls it. */
#include "guest.h"

MONDRIX_GATE(honest);
MONDRIX_GATE(acts);
MONDRIX_GATE(tries);
MONDRIX_GATE(gives_back);
MONDRIX_GATE(deepen);
MONDRIX_GATE(calls);

/* forges(a, b): returns to ra + a where b is 1, and to a where b is 0. clobbers(by_fault): fills each register, and
 * comes back as it is asked to. */
__asm__(".pushsection .gates, \"ax\", @progbits\n"
        ".balign 32\n.globl forges\nforges:\n"
        "beqz a1, 1f\nadd ra, ra, a0\nj mondrix_return\n1: mv ra, a0\nj mondrix_return\n"
        ".balign 32\n.globl clobbers\nclobbers:\n"
        "j clobbers_all\n"
        ".popsection\n"
        ".pushsection .text\nclobbers_all:\n"
        "li sp, -1\nli gp, -1\nli tp, -1\nli t0, -1\nli t1, -1\nli t2, -1\nli s0, -1\nli s1, -1\nli a1, -1\nli a2, -1\n"
        "li a3, -1\nli a4, -1\nli a5, -1\nli a6, -1\nli a7, -1\nli s2, -1\nli s3, -1\nli s4, -1\nli s5, -1\nli s6, -1\n"
        "li s7, -1\nli s8, -1\nli s9, -1\nli s10, -1\nli s11, -1\nli t3, -1\nli t4, -1\nli t5, -1\nli t6, -1\n"
        "beqz a0, 1f\nebreak\n1: j mondrix_return\n"
        ".popsection\n");

answer honest_entered(word number) { return (answer)number + 1; }

answer acts_entered(word cause, word other) { return act(cause, other); }

answer gives_back_entered(word at, word bytes, word domain) { return asked(5, at, bytes, domain, 0); }

answer deepen_entered(word depth) {
    answer deeper = GATE(JUDGE_AT, BOUNCE)(depth + 1, 0, 0);
    return deeper == FAULT(16) ? (answer)depth : deeper;
}

answer calls_entered(word gate, word first, word second) { return ((answer(*)(word, word))gate)(first, second); }

/* Every call on words of the judge, on its block or its gate: how many answers are wrong. */
answer tries_entered(word at, word block, word gate) {
    word wrong = 0;
    for (word right = 0; right < 4; right++) {
        wrong += asked(3, at, 4, STRANGER, right) != -2;
        wrong += asked(3, block, 4, STRANGER, right) != -2;
    }
    wrong += asked(4, at, 4, 0, 0) != -2;
    wrong += asked(5, at, 4, STRANGER, 0) != -2;
    wrong += asked(5, block, 4, STRANGER, 0) != -2;
    wrong += asked(7, block, 0, 0, 0) != -8;
    wrong += asked(8, at, JUDGE, 0, 0) != -2;
    wrong += asked(9, gate, STRANGER, 0, 0) != -2;
    wrong += asked(10, at, 0, 0, 0) != -2;
    wrong += asked(11, at, JUDGE, 0, 0) != -2;
    wrong += asked(11, at, STRANGER, 0, 0) != 0;
    wrong += asked(13, at, 1, 0, 0) != -12;
    wrong += asked(2, at, 4, 0, 0) != -12;
    wrong += asked(1, 0, 0, 0, 0) != -10;
    wrong += (asked(12, 0, 0, 0, 0) & 255) != STRANGER;
    wrong += asked(6, 1, 0, 0, 0) != -6; /* it has no heap */
    return (answer)wrong;
}
