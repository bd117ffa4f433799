/* The names of refusals and of faults' answers. */
#include "mondrix.h"

const char *mondrix_code_name(int32_t answer) {
    switch (answer) {
#define NAME(name)   \
    case name:       \
        return #name
#define FAULT(name)        \
    case name - 256:       \
        return #name
        NAME(MONDRIX_OK);
        NAME(MONDRIX_BAD_RANGE);
        NAME(MONDRIX_NOT_OWNER);
        NAME(MONDRIX_BAD_DOMAIN);
        NAME(MONDRIX_BAD_PERM);
        NAME(MONDRIX_TABLES_FULL);
        NAME(MONDRIX_NO_ROOM);
        NAME(MONDRIX_BLOCKS_FULL);
        NAME(MONDRIX_NOT_A_BLOCK);
        NAME(MONDRIX_GATES_FULL);
        NAME(MONDRIX_NESTED);
        NAME(MONDRIX_TOO_LONG);
        NAME(MONDRIX_DENIED);
        NAME(MONDRIX_BAD_CALL);
        NAME(MONDRIX_OWNERS_FULL);
        NAME(MONDRIX_NO_GATE);
        NAME(MONDRIX_NOT_FOREIGN);
        FAULT(MONDRIX_JUMP_MISALIGNED);
        FAULT(MONDRIX_FETCH_DENIED);
        FAULT(MONDRIX_ILLEGAL_INSTRUCTION);
        FAULT(MONDRIX_BREAK);
        FAULT(MONDRIX_LOAD_MISALIGNED);
        FAULT(MONDRIX_LOAD_DENIED);
        FAULT(MONDRIX_STORE_MISALIGNED);
        FAULT(MONDRIX_STORE_DENIED);
        FAULT(MONDRIX_FRAMES_FULL);
        FAULT(MONDRIX_WRONG_RETURN);
        FAULT(MONDRIX_EMPTY_RETURN);
        FAULT(MONDRIX_RETURN_MISALIGNED);
        FAULT(MONDRIX_DEAD);
    default:
        return "none";
    }
}
