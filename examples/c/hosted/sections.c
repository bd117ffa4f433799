/* A table that the linker gathers from a section of its own, as of tests or of drivers. */
#include <stdio.h>

#define ENTRY(value) __attribute__((section("entries"), used)) static const int entry_##value = value
ENTRY(20);
ENTRY(15);
ENTRY(7);
extern const int __start_entries[], __stop_entries[];

__attribute__((section("counts"), used)) static volatile int count = 1;
extern volatile int __start_counts[], __stop_counts[];

int main(void) {
    int sum = 0;
    for (const int *entry = __start_entries; entry < __stop_entries; entry++) sum += *entry;
    for (volatile int *each = __start_counts; each < __stop_counts; each++) (*each)++;
    printf("%d %d\n", sum, count);
    return 0;
}
