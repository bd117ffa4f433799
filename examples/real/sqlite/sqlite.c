/* Runs so many rounds of statements over a database in a file, and shows each row. */
#include "rounds.h"
#include <sqlite3.h>
#include <stdio.h>

sqlite3_vfs *sqlite3_demovfs(void);
int sqlite3_os_init(void) { return sqlite3_vfs_register(sqlite3_demovfs(), 1); }
int sqlite3_os_end(void) { return SQLITE_OK; }

static int row(void *none, int count, char **cells, char **names) {
    for (int i = 0; i < count; i++) printf("%s%s", cells[i] ? cells[i] : "NULL", i + 1 < count ? "|" : "\n");
    return 0;
}

int main(void) {
    static const char *const texts[] = {
#include "work.h"
        0};
    char *said = 0;
    sqlite3 *base;
    int bad = sqlite3_open("test.db", &base);
    for (int round = 0; !bad && round < ROUNDS; round++)
        for (const char *const *text = texts; !bad && *text; text++) bad = sqlite3_exec(base, *text, row, 0, &said);
    return printf("%s %d\n", said ? said : "good", sqlite3_close(base)), bad;
}
