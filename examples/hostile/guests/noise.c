/* Other harts meanwhile, for longer than the judge has work: they change rights on words of their own all the time, so
 * that each call that changes rights has to be heard by all, take and give back blocks, cross, and try the judge's
 * words. */
#include "guest.h"

static word own[MONDRIX_HARTS][8];

/* The mortal adds until it is dead, and never after. */
static int is_dead[MONDRIX_HARTS];

static word ask_mortal(word hart, word turn) {
    answer sum = GATE(MORTAL_AT, ADDS)(turn, 1, 0);
    if (sum == FAULT(20)) is_dead[hart] = 1;
    return is_dead[hart] ? sum != FAULT(20) : sum != (answer)turn + 1;
}

static word round_of(word hart, word turn) {
    word *mine = own[hart], wrong = 0, right = turn % 3;
    word first = (word)mine, number = 1 + turn % 7, domain = 1 + turn % 3;
    mine[0] = turn;
    wrong += asked(3, first, 4 * number, domain, right) != 0;
    wrong += asked(11, first + 4 * (number - 1), domain, 0, 0) != (answer)right;
    wrong += asked(3, first, 4, NOISE, 1) != 0;
    struct left left = call(13, first, 1, 7, 7);
    wrong += left.a0 != -12 || left.a1 != 1 || left.is_spoilt || mine[0] != turn;
    wrong += asked(3, first, 4, NOISE, 2) != 0;
    left = call(13, first, turn + 1, 7, 7);
    wrong += left.a0 != 0 || left.a1 != turn || mine[0] != turn + 1;
    wrong += asked(4, first, 32, 0, 0) != 0;
    wrong += asked(11, first, domain, 0, 0) != 0;
    answer block = asked(6, 1 + turn % 5, 0, 0, 0);
    wrong += (word)block < NOISE_HEAP_AT || (word)block >= NOISE_HEAP_AT + 256 || *(word *)block != 0;
    *(word *)block = 0xffffffff;
    wrong += asked(7, (word)block, 0, 0, 0) != 0;
    wrong += GATE(STRANGER_AT, HONEST)(turn, 0, 0) != (answer)turn + 1;
    wrong += asked(3, JUDGE_AT, 4, NOISE, right) != -2;
    wrong += asked(4, HEAP_AT, 4, 0, 0) != -2;
    wrong += asked(13, STACKS_AT, 1, 0, 0) != -12;
    wrong += asked(7, HEAP_AT, 0, 0, 0) != -8;
    wrong += asked(9, JUDGE_AT, STRANGER, 0, 0) != -2;
    wrong += asked(12, 0, 0, 0, 0) != (answer)(256 * hart + NOISE);
    return wrong + ask_mortal(hart, turn);
}

int main(int hart) {
    word wrong = 0;
    for (word turn = 0; turn < 2500; turn++) wrong += round_of((word)hart, turn);
    return (int)(wrong + !is_dead[hart]);
}
