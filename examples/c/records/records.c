/* The service: a table of its own, read once out of its input. What a caller gives is copied in before the lock is
 * taken, and copied out after it is given back. */
#include "records.h"

#include <string.h>

#include "mondrix.h"

struct record {
    uint32_t name_bytes, value_bytes;
    char name[RECORDS_NAME], value[RECORDS_VALUE];
};
static struct record records[RECORDS_MOST];
static uint32_t count;
static int has_read;
static struct mondrix_lock lock = MONDRIX_LOCK;

static struct record *find(const char *name, uint32_t bytes) {
    for (uint32_t i = 0; i < count; i++)
        if (records[i].name_bytes == bytes && memcmp(records[i].name, name, bytes) == 0) return &records[i];
    return 0;
}

static int32_t set(const char *name, uint32_t name_bytes, const char *value, uint32_t value_bytes) {
    struct record *record = find(name, name_bytes);
    if (record == 0) {
        if (count == RECORDS_MOST) return RECORDS_FULL;
        record = &records[count++];
        memcpy(record->name, name, record->name_bytes = name_bytes);
    }
    memcpy(record->value, value, record->value_bytes = value_bytes);
    return MONDRIX_OK;
}

static int32_t fits(size_t bytes, size_t most) {
    return bytes == 0 ? MONDRIX_BAD_RANGE : bytes > most ? MONDRIX_TOO_LONG : MONDRIX_OK;
}

/* Lines of a name, a blank and a value. What is none is passed over. */
static void read_input(void) {
    size_t bytes;
    const char *at = mondrix_input(&bytes), *end = at + bytes;
    for (const char *line = at; line != end; line = at == end ? end : at + 1) {
        for (at = line; at != end && *at != '\n';) at++;
        const char *blank = memchr(line, ' ', (size_t)(at - line));
        uint32_t name_bytes = blank == 0 ? 0 : (uint32_t)(blank - line), rest = (uint32_t)(at - line) - name_bytes;
        if (fits(name_bytes, RECORDS_NAME) == MONDRIX_OK && fits(rest - 1, RECORDS_VALUE) == MONDRIX_OK)
            (void)set(line, name_bytes, blank + 1, rest - 1);
    }
    has_read = 1;
}

/* What a caller gives. */
static int32_t taken(char *to, const char *from, uint32_t bytes, uint32_t most) {
    int32_t answer = fits(bytes, most);
    return answer == MONDRIX_OK ? mondrix_copy_in(to, from, bytes) : answer;
}

static int32_t named(char *to, const char *name, uint32_t bytes) {
    int32_t answer = taken(to, name, bytes, RECORDS_NAME);
    return answer == MONDRIX_OK && to[0] == '.' ? RECORDS_ABSENT : answer;
}

MONDRIX_GATE(records_get);
int32_t records_get_entered(const char *name, uint32_t name_bytes, char *value, uint32_t room) {
    char own_name[RECORDS_NAME];
    struct record found = {.value_bytes = 0};
    int32_t answer = named(own_name, name, name_bytes);
    if (answer != MONDRIX_OK) return answer;
    mondrix_lock(&lock);
    if (!has_read) read_input();
    struct record *record = find(own_name, name_bytes);
    if (record != 0) found = *record;
    mondrix_unlock(&lock);
    if (record == 0) return RECORDS_ABSENT;
    if (found.value_bytes > room) return MONDRIX_TOO_LONG;
    answer = mondrix_copy_out(value, found.value, found.value_bytes);
    return answer == MONDRIX_OK ? (int32_t)found.value_bytes : answer;
}

MONDRIX_GATE(records_put);
int32_t records_put_entered(const char *name, uint32_t name_bytes, const char *value, uint32_t value_bytes) {
    char own_name[RECORDS_NAME], own_value[RECORDS_VALUE];
    int32_t answer = named(own_name, name, name_bytes);
    if (answer != MONDRIX_OK) return answer;
    answer = taken(own_value, value, value_bytes, RECORDS_VALUE);
    if (answer != MONDRIX_OK) return answer;
    mondrix_lock(&lock);
    if (!has_read) read_input();
    answer = set(own_name, name_bytes, own_value, value_bytes);
    mondrix_unlock(&lock);
    return answer;
}
