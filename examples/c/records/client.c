/* Reads requests from stdin, which is its own input, and has the service answer them: `get NAME`, and `put NAME VALUE`.
 * Then it tries to come to the service's file, whose address is no secret. */
#include <stdio.h>
#include <string.h>

#include "modules.h"
#include "mondrix.h"
#include "records.h"

static struct {
    char name[RECORDS_NAME], value[RECORDS_VALUE];
} shared __attribute__((aligned(4))); /* the service may read and write it */

static const char *code_name(int32_t answer) {
    return answer == RECORDS_ABSENT ? "no such record" : answer == RECORDS_FULL ? "full" : mondrix_code_name(answer);
}

static int32_t get(const char *name) {
    strncpy(shared.name, name, RECORDS_NAME);
    return records_get(shared.name, strlen(name), shared.value, RECORDS_VALUE);
}

static int32_t put(const char *name, const char *value) {
    strncpy(shared.name, name, RECORDS_NAME);
    strncpy(shared.value, value, RECORDS_VALUE);
    return records_put(shared.name, strlen(name), shared.value, strlen(value));
}

static void request(char *line) {
    const char *what = strtok(line, " \n"), *name = strtok(0, " \n"), *value = strtok(0, "\n");
    if (what && name && !value && strcmp(what, "get") == 0) {
        int32_t answer = get(name);
        if (answer >= 0)
            printf("client: %s: %.*s\n", name, (int)answer, shared.value);
        else
            printf("client: %s: %s\n", name, code_name(answer));
    } else if (what && name && value && strcmp(what, "put") == 0) {
        printf("client: %s is to be %s: %s\n", name, value, code_name(put(name, value)));
    } else {
        printf("client: no request: %s ..\n", what ? what : "an empty line");
    }
}

int main(void) {
    char line[80], *secret = (char *)RECORDS_INPUT + 4;
    mondrix_must(mondrix_grant(&shared, sizeof shared, RECORDS, MONDRIX_READ_WRITE));
    while (fgets(line, sizeof line, stdin)) request(line);
    strcpy(shared.name, "apple");
    printf("client: the service's file for a name: %s\n", code_name(records_get(secret, 4, shared.value, 4)));
    printf("client: the service's file for a value: %s\n", code_name(records_put(shared.name, 5, secret, 16)));
    printf("client: an answer onto that file: %s\n", code_name(records_get(shared.name, 5, secret, 32)));
    printf("client: a name that nobody granted: %s\n", code_name(records_get(line, 4, shared.value, 4)));
    return 0;
}
