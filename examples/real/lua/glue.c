/* Calls Lua's standalone interpreter as `lua work.lua ROUNDS`, and gives it the script as a file in memory. */
#ifdef __riscv
#include "files.h"
extern const char script[], script_end[];
__asm__(".pushsection .rodata\n.globl script, script_end\nscript: .incbin \"work.lua\"\nscript_end:\n.popsection");
#endif
#include "rounds.h"
#define TEXT(number) #number
#define TEXT_OF(number) TEXT(number)

int lua_main(int count, char **words);

int main(void) {
    static char *words[] = {"lua", "work.lua", TEXT_OF(ROUNDS), 0};
#ifdef __riscv
    mondrix_file("work.lua", script, script_end - script);
#endif
    return lua_main(3, words);
}
