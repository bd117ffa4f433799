/* Counts the words of a text. It has no hart, and reads what its callers let it read: it takes the text only where the
 * words are another's and it may read them, and then looks at its own copy alone. */
#include "words.h"

#include "mondrix.h"

MONDRIX_GATE(count_words);

int32_t count_words_entered(const char *text, uint32_t length) {
    char copy[WORDS_MOST];
    if (length > WORDS_MOST) return MONDRIX_TOO_LONG;
    int answer = mondrix_copy_in(copy, text, length);
    if (answer != MONDRIX_OK) return answer;

    int32_t count = 0;
    int inside = 0;
    for (uint32_t i = 0; i < length; i++) {
        int letter = copy[i] != ' ';
        count += letter && !inside;
        inside = letter;
    }
    return count;
}
