/* What a module in C needs of the machine: the supervisor calls, the entries of gates, the tests of what a caller
 * gives, and two locks. docs/GUIDE.md says how they are used, docs/MACHINE.md what each call does. */
#ifndef MONDRIX_H
#define MONDRIX_H

#include <stddef.h>
#include <stdint.h>

#ifdef __cplusplus
extern "C" {
#endif

/* What answers is looked at: without that the compiler warns. mondrix_must is for what can't be refused. */
#define MONDRIX_ANSWERS __attribute__((warn_unused_result))

/* A call's refusal. A call that isn't refused answers 0, or what is said beside it. */
enum mondrix_code {
    MONDRIX_OK = 0,
    MONDRIX_BAD_RANGE = -1,   /* no range of RAM that begins at a word, or no word of RAM */
    MONDRIX_NOT_OWNER = -2,   /* a word that the caller doesn't own */
    MONDRIX_BAD_DOMAIN = -3,  /* no such module */
    MONDRIX_BAD_PERM = -4,    /* no such permission */
    MONDRIX_TABLES_FULL = -5, /* the tables can't hold the rights as they would be */
    MONDRIX_NO_ROOM = -6,     /* no free place in the heap area */
    MONDRIX_BLOCKS_FULL = -7, /* 1024 live blocks */
    MONDRIX_NOT_A_BLOCK = -8, /* no live block of the caller begins there */
    MONDRIX_GATES_FULL = -9,  /* 256 gates */
    MONDRIX_NESTED = -10,     /* exit inside a call through a gate */
    MONDRIX_TOO_LONG = -11,   /* more than 4096 bytes */
    MONDRIX_DENIED = -12,     /* a word that the caller may not read, or not write */
    MONDRIX_BAD_CALL = -13,   /* no call of that number */
    MONDRIX_OWNERS_FULL = -14, /* more than 4096 runs of owner */
    MONDRIX_NO_GATE = -15,    /* no gate stands there */
    MONDRIX_NOT_FOREIGN = -16 /* of the kit's own tests: a word of this module, where one of another is wanted */
};

enum mondrix_permission { MONDRIX_NONE = 0, MONDRIX_READ = 1, MONDRIX_READ_WRITE = 2, MONDRIX_EXECUTE_READ = 3 };

/* Why a turn faulted. */
enum mondrix_cause {
    MONDRIX_JUMP_MISALIGNED = 0,
    MONDRIX_FETCH_DENIED = 1,
    MONDRIX_ILLEGAL_INSTRUCTION = 2,
    MONDRIX_BREAK = 3,
    MONDRIX_LOAD_MISALIGNED = 4,
    MONDRIX_LOAD_DENIED = 5,
    MONDRIX_STORE_MISALIGNED = 6,
    MONDRIX_STORE_DENIED = 7,
    MONDRIX_FRAMES_FULL = 16,
    MONDRIX_WRONG_RETURN = 17,
    MONDRIX_EMPTY_RETURN = 18,
    MONDRIX_RETURN_MISALIGNED = 19,
    MONDRIX_DEAD = 20
};

enum { MONDRIX_HARTS = 4, MONDRIX_WRITE_MAX = 4096 };

/* What a call through a gate answers where the callee faulted is 0xffffff00 + cause, -256 to -236 as a signed word. A
 * gate's own answers should be none of these. */
static inline int mondrix_is_fault(int32_t answer) { return answer >= -256 && answer <= -236; }
static inline enum mondrix_cause mondrix_cause_of(int32_t answer) { return (enum mondrix_cause)(answer & 255); }

/* The name above of a refusal or of a fault's answer, as "MONDRIX_NOT_OWNER"; of another number "none". */
const char *mondrix_code_name(int32_t answer);

/* A supervisor call of at most four arguments. Only a0, and with exchange a1, changes. */
static inline uint32_t mondrix_call(uint32_t number, uint32_t first, uint32_t second, uint32_t third, uint32_t fourth) {
    register uint32_t a0 __asm__("a0") = first;
    register uint32_t a1 __asm__("a1") = second;
    register uint32_t a2 __asm__("a2") = third;
    register uint32_t a3 __asm__("a3") = fourth;
    register uint32_t a7 __asm__("a7") = number;
    __asm__ volatile("ecall" : "+r"(a0) : "r"(a1), "r"(a2), "r"(a3), "r"(a7) : "memory");
    return a0;
}

/* Ends this hart's turn in the module by fault 3. */
static inline __attribute__((noreturn)) void mondrix_break(void) {
    __asm__ volatile("ebreak" : : : "memory");
    for (;;) {}
}

/* For an answer that is no refusal if the program is right: a refusal is fault 3, with its code in a0. */
static inline void mondrix_must(int answer) {
    register int a0 __asm__("a0") = answer;
    if (answer < 0) __asm__ volatile("ebreak" : : "r"(a0) : "memory");
}

/* Rights go by words. A constant number of bytes that isn't a whole number of words doesn't compile, and any other such
 * number is MONDRIX_BAD_RANGE, though the machine would take the words that hold these bytes. */
#ifdef __cplusplus
#define MONDRIX_WHOLE_WORDS(bytes) (bytes)
#else
#define MONDRIX_WHOLE_WORDS(bytes)                                                                          \
    ((bytes) + 0 * sizeof(struct {                                                                          \
         _Static_assert(__builtin_choose_expr(__builtin_constant_p(bytes), (bytes) % 4 == 0, 1),            \
                        "rights go by words: not a multiple of 4 bytes, so other bytes would go with them"); \
         char none;                                                                                         \
     }))
#endif

/* 1: halts this hart with a code. It comes back only inside a call through a gate, where it is refused. */
static inline int mondrix_exit(int code) { return (int)mondrix_call(1, (uint32_t)code, 0, 0, 0); }

/* 2: writes at most MONDRIX_WRITE_MAX bytes to the console; answers their number. */
static inline MONDRIX_ANSWERS int mondrix_write(const void *bytes, size_t count) {
    return (int)mondrix_call(2, (uint32_t)bytes, count, 0, 0);
}

/* 3: gives a module a permission on these words, in place of the one that it had. */
static inline MONDRIX_ANSWERS int mondrix_grant(const volatile void *at, size_t bytes, unsigned module,
                                                enum mondrix_permission right) {
    if (bytes % 4 != 0) return MONDRIX_BAD_RANGE;
    return (int)mondrix_call(3, (uint32_t)at, bytes, module, right);
}
#define mondrix_grant(at, bytes, module, right) (mondrix_grant)(at, MONDRIX_WHOLE_WORDS(bytes), module, right)

/* 4: takes every permission on these words from all other modules. */
static inline MONDRIX_ANSWERS int mondrix_revoke_all(const volatile void *at, size_t bytes) {
    if (bytes % 4 != 0) return MONDRIX_BAD_RANGE;
    return (int)mondrix_call(4, (uint32_t)at, bytes, 0, 0);
}
#define mondrix_revoke_all(at, bytes) (mondrix_revoke_all)(at, MONDRIX_WHOLE_WORDS(bytes))

/* 5: gives these words to another owner, a module or 0 for nobody; permissions stay. */
static inline MONDRIX_ANSWERS int mondrix_transfer(const volatile void *at, size_t bytes, unsigned module) {
    if (bytes % 4 != 0) return MONDRIX_BAD_RANGE;
    return (int)mondrix_call(5, (uint32_t)at, bytes, module, 0);
}
#define mondrix_transfer(at, bytes, module) (mondrix_transfer)(at, MONDRIX_WHOLE_WORDS(bytes), module)

/* 6: takes a block of zeroed words from the module's heap area and stores its address. */
static inline MONDRIX_ANSWERS int mondrix_alloc(size_t words, void **block) {
    uint32_t answer = mondrix_call(6, words, 0, 0, 0);
    if (answer >= 0xfffffff0u) return (int)answer;
    *block = (void *)answer;
    return MONDRIX_OK;
}

/* 7: gives such a block back. */
static inline MONDRIX_ANSWERS int mondrix_free(void *block) { return (int)mondrix_call(7, (uint32_t)block, 0, 0, 0); }

/* 8: lets a module cross into this one at a word; 9: takes that back; 10: makes a word a return gate of this module. */
static inline MONDRIX_ANSWERS int mondrix_gate(const volatile void *entry, unsigned module) {
    return (int)mondrix_call(8, (uint32_t)entry, module, 0, 0);
}
static inline MONDRIX_ANSWERS int mondrix_ungate(const volatile void *entry, unsigned module) {
    return (int)mondrix_call(9, (uint32_t)entry, module, 0, 0);
}
static inline MONDRIX_ANSWERS int mondrix_return_gate(const volatile void *word) {
    return (int)mondrix_call(10, (uint32_t)word, 0, 0, 0);
}

/* 11: the permission that a module has on a word; of another module only the word's owner may ask. */
static inline MONDRIX_ANSWERS int mondrix_query(const volatile void *word, unsigned module) {
    return (int)mondrix_call(11, (uint32_t)word, module, 0, 0);
}

/* 12: the number of this hart, from 0, and of this module, from 1. */
static inline unsigned mondrix_hart(void) { return mondrix_call(12, 0, 0, 0, 0) >> 8; }
static inline unsigned mondrix_module(void) { return mondrix_call(12, 0, 0, 0, 0) & 255; }

/* 13: stores a value in a word and the word's old value in `old`, in one step. */
static inline MONDRIX_ANSWERS int mondrix_exchange(volatile uint32_t *word, uint32_t value, uint32_t *old) {
    register uint32_t a0 __asm__("a0") = (uint32_t)word;
    register uint32_t a1 __asm__("a1") = value;
    register uint32_t a7 __asm__("a7") = 13;
    __asm__ volatile("ecall" : "+r"(a0), "+r"(a1) : "r"(a7) : "memory");
    if (a0 == MONDRIX_OK) *old = a1;
    return (int)a0;
}

/* The place of stores before it and of loads after it stays in the program's text. The machine itself keeps their
 * order. */
static inline void mondrix_barrier(void) { __asm__ volatile("" : : : "memory"); }

/* Writes what this hart has printed of its line. It is in the image of a module that uses stdout. */
void mondrix_flush(void);
/* What is called before a hart leaves: mondrix_flush, once the module has printed. */
extern void (*mondrix_flush_last)(void);
/* Writes the rest of the hart's line and exits. Return from main does the same. */
__attribute__((noreturn)) void mondrix_leave(int code);

/* The module's own input: the bytes of the file that its manifest gives it, and their number. They are its own words,
 * to read, and to write too where `input_perm` is "rw". Without an input there are no bytes, and the answer is 0. stdin
 * has the same bytes. */
void *mondrix_input(size_t *bytes);

/* What a caller gives by an address. A service acts by its own rights, so a caller that names the service's words
 * would have them shown or changed: words are taken only where they are another's *and* this module may touch them.
 * Ask before any state changes and before a lock is taken: what another module may take back faults once it has.
 *
 * mondrix_is_foreign: whether they are words of RAM none of which is this module's: not in its image or its input area,
 *     also where it has `seal` or gave them away, and not owned by it. There has to be another module.
 * mondrix_may_read, mondrix_may_write: MONDRIX_OK where they are foreign and this module has that right on each word.
 *     Else MONDRIX_BAD_RANGE, MONDRIX_NOT_FOREIGN or MONDRIX_DENIED.
 * mondrix_copy_in, mondrix_copy_out: the same test, and then the copy, each byte once. No bytes are MONDRIX_OK.
 *
 * Whose buffer it is they don't tell, only that it isn't this module's. */
MONDRIX_ANSWERS int mondrix_is_foreign(const volatile void *at, size_t bytes);
MONDRIX_ANSWERS int mondrix_may_read(const volatile void *at, size_t bytes);
MONDRIX_ANSWERS int mondrix_may_write(const volatile void *at, size_t bytes);
MONDRIX_ANSWERS int mondrix_copy_in(void *to, const volatile void *from, size_t bytes);
MONDRIX_ANSWERS int mondrix_copy_out(volatile void *to, const void *from, size_t bytes);

/* Takes the right on the lowest words of each of the module's stacks, once, so that an overflow faults there. The start
 * and each gate call it. Where the link wasn't told the stacks (mondrix.mk with a MANIFEST does) it does nothing. */
void mondrix_guard(void);

/* MONDRIX_GATE(name): the entry of a gate, a symbol `name` at the next 32 bytes of the section .gates, which calls the
 * C function name_entered. Another module calls `name` as an ordinary C function; inside its own module C calls
 * name_entered. To a debugger the entry is a function of this one line, so that `step` goes into it. ra is kept in s11,
 * s11 in s10 and s10 in s9: C keeps them, and the machine gives the caller's back. So a debugger finds the caller, and
 * where the two gates before it were called from. s0 stays as it is, so that it finds the frames of a caller that was
 * compiled with frame pointers. */
#define MONDRIX_GATE(name)                                                       \
    extern void mondrix_gate_##name(void) __asm__(#name);                        \
    MONDRIX_GATE_ENTRY void mondrix_gate_##name(void) {                          \
        __asm__("mv s9, s10\n"                                                   \
                MONDRIX_LINE("0:\n")                                             \
                MONDRIX_FRAME(".cfi_register s10, s9\n")                         \
                MONDRIX_FRAME(".cfi_undefined s9\n")                             \
                "mv s10, s11\n"                                                  \
                MONDRIX_FRAME(".cfi_register s11, s10\n")                        \
                "mv s11, ra\n"                                                   \
                MONDRIX_FRAME(".cfi_register ra, s11\n")                         \
                "jal gp, mondrix_enter\n" /* tp, and the guards of the stacks */ \
                "call " #name "_entered\n"                                       \
                "mv ra, s11\n"                                                   \
                "j mondrix_return");                                             \
    }                                                                            \
    extern __typeof__(name##_entered) name##_entered __attribute__((used))
#ifdef __clang__
#define MONDRIX_GATE_ENTRY __attribute__((naked, used, section(".gates"), aligned(32)))
#else
#define MONDRIX_GATE_ENTRY __attribute__((naked, used, no_reorder, section(".gates"), aligned(32)))
#endif
/* For debuggers alone, where the compiler tells them of frames. The label begins the line anew, since the machine gives
 * sp another value at the line's first instruction: a step that began before that goes on behind it as if it had begun
 * there. clang's assembler knows no such label. */
#ifdef __GCC_HAVE_DWARF2_CFI_ASM
#define MONDRIX_FRAME(lines) lines
#else
#define MONDRIX_FRAME(lines)
#endif
#if defined(__GCC_HAVE_DWARF2_CFI_ASM) && !defined(__clang__)
#define MONDRIX_LINE(label) ".loc_mark_labels 1\n" label ".loc_mark_labels 0\n"
#else
#define MONDRIX_LINE(label)
#endif

/* A lock for waiting: harts get it in the order in which they asked (Craig, Landin and Hagersten's queue). Each lock
 * has a node for each hart, and one more. It is for the harts of one module. A hart that asks for it while it has it,
 * as after a fault that left it held, faults by 3, and so does one that gives it back and hasn't it. */
struct mondrix_lock {
    volatile uint32_t last;                     /* the node of who asked last */
    volatile uint32_t held[MONDRIX_HARTS + 1];  /* of each node: its hart wants the lock, or has it */
    uint32_t own[MONDRIX_HARTS];                /* the node of each hart */
    uint32_t before[MONDRIX_HARTS];             /* the node that it waits for */
};
#define MONDRIX_LOCK {MONDRIX_HARTS, {0, 0, 0, 0, 0}, {0, 1, 2, 3}, {0, 0, 0, 0}}
void mondrix_lock(struct mondrix_lock *lock);
void mondrix_unlock(struct mondrix_lock *lock);

/* A word that is 0 where nobody has it. `try` answers whether this hart has it now. Don't wait for it in a loop: that
 * can starve, and mondrix_lock can't. */
static inline int mondrix_try(volatile uint32_t *word) {
    uint32_t old;
    return mondrix_exchange(word, 1, &old) == MONDRIX_OK && old == 0;
}
static inline void mondrix_untry(volatile uint32_t *word) {
    mondrix_barrier();
    *word = 0;
}

#ifdef __cplusplus
}
#endif

#endif
