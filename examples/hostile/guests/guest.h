/* What the hostile guests share: a supervisor call with all that it leaves in registers, the machine that they are in,
 * and a count of wrong answers, which is the code with which a hart leaves. */
#ifndef GUEST_H
#define GUEST_H

#include <mondrix.h>

/* A gate that leans on nothing, as these modules do: the kit's sets guards, and calls what a library has. */
#undef MONDRIX_GATE
#define MONDRIX_GATE(name)                             \
    __asm__(".cfi_sections .debug_frame\n"             \
            ".pushsection .gates, \"ax\", @progbits\n" \
            ".balign 32\n"                             \
            ".globl " #name "\n"                       \
            ".type " #name ", @function\n" #name ":\n" \
            ".cfi_startproc\n"                         \
            "mv s11, ra\n"                             \
            ".cfi_register ra, s11\n"                  \
            ".cfi_undefined s11\n"                     \
            "lla tp, __tls_base\n"                     \
            "call " #name "_entered\n"                 \
            "mv ra, s11\n"                             \
            "j mondrix_return\n"                       \
            ".cfi_endproc\n"                           \
            ".size " #name ", . - " #name "\n"         \
            ".popsection\n")

typedef uint32_t word;
typedef int32_t answer;

enum { JUDGE = 1, STRANGER = 2, MORTAL = 3, NOISE = 4, MODULES = 4 };

/* The manifest's addresses. Gates stand 32 bytes apart at the beginning of a module's code. */
#define RAM 0x80000000u
#define RAM_END 0x80040000u
#define JUDGE_AT 0x80000000u
#define STRANGER_AT 0x80010000u
#define MORTAL_AT 0x80018000u
#define NOISE_AT 0x80020000u
#define HEAP_AT 0x80030000u
#define HEAP_WORDS 64u
#define NOISE_HEAP_AT 0x80031000u
#define STACKS_AT 0x80038000u
#define STACK_BYTES 4096u /* for each hart */
#define NOBODYS (RAM_END - 4)

/* The gates in the order in which they stand. */
enum judge_gates { BOUNCE, CALLBACK, JUDGE_ACTS };
enum stranger_gates { HONEST, ACTS, TRIES, GIVES_BACK, DEEPEN, CALLS, FORGES, CLOBBERS };
enum mortal_gates { ADDS, DIES, IS_OUTER };
#define GATE(at, number) ((answer(*)(word, word, word))((at) + 32u * (number)))

/* What a call leaves: a0, a1, and whether another register changed. */
struct left {
    answer a0;
    word a1;
    int is_spoilt;
};

static inline struct left call(word number, word first, word second, word third, word fourth) {
    register word a0 __asm__("a0") = first;
    register word a1 __asm__("a1") = second;
    register word a2 __asm__("a2") = third;
    register word a3 __asm__("a3") = fourth;
    register word a7 __asm__("a7") = number;
    __asm__ volatile("ecall" : "+r"(a0), "+r"(a1), "+r"(a2), "+r"(a3), "+r"(a7) : : "memory");
    return (struct left){(answer)a0, a1, a2 != third || a3 != fourth || a7 != number};
}

static inline answer asked(word number, word first, word second, word third, word fourth) {
    return call(number, first, second, third, fourth).a0;
}

/* A fault's answer. */
#define FAULT(cause) ((answer)(0xffffff00u + (cause)))

#define MANY(list) (sizeof(list) / sizeof *(list))

void mondrix_leave(int code) {
    mondrix_exit(code);
    mondrix_break();
}

/* What a domain may try that ends its call: the cause of each is its number. */
static inline answer act(word cause, word other) {
    switch (cause) {
    case 0: __asm__ volatile(".word 0x0020006f"); break; /* jal zero, 2 */
    case 1: ((void (*)(void))other)(); break;
    case 2: __asm__ volatile(".word 0"); break;
    case 3: __asm__ volatile("ebreak"); break;
    case 4: __asm__ volatile("lw zero, 1(%0)" : : "r"(other)); break;
    case 5: __asm__ volatile("lbu zero, 0(%0)" : : "r"(other)); break;
    case 6: __asm__ volatile("sh zero, 1(%0)" : : "r"(other)); break;
    case 7: __asm__ volatile("sb zero, 0(%0)" : : "r"(other)); break;
    case 19: __asm__ volatile("li ra, 2\n\tjr %0" : : "r"(other) : "ra"); break; /* a gate with x1 no multiple of 4 */
    }
    return 0;
}

#endif
