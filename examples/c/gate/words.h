#ifndef WORDS_H
#define WORDS_H
#include <stdint.h>

enum { WORDS_MOST = 64 }; /* bytes of a text */

/* The number of words of a text, or the code of what refuses it. */
int32_t count_words(const char *text, uint32_t length);
/* what the gate's entry calls, in words.c alone */
int32_t count_words_entered(const char *text, uint32_t length);

#endif
