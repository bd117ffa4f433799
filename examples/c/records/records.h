/* Records by their names, out of a file that the service alone may read. A client gets and puts them through two gates.
 * Names that begin with a dot are the service's own: to a caller there is no such record. */
#ifndef RECORDS_H
#define RECORDS_H
#include <stdint.h>

enum {
    RECORDS_NAME = 16,  /* bytes of a name, at most */
    RECORDS_VALUE = 32, /* and of a value */
    RECORDS_MOST = 16,
    RECORDS_ABSENT = -100,
    RECORDS_FULL = -101
};

/* The bytes of a value, which stands at `value` then; or what refuses it. The words are the caller's. */
int32_t records_get(const char *name, uint32_t name_bytes, char *value, uint32_t room);
int32_t records_get_entered(const char *name, uint32_t name_bytes, char *value, uint32_t room);
/* MONDRIX_OK, or what refuses it. */
int32_t records_put(const char *name, uint32_t name_bytes, const char *value, uint32_t value_bytes);
int32_t records_put_entered(const char *name, uint32_t name_bytes, const char *value, uint32_t value_bytes);

#endif
