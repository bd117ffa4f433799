/* Has its text counted by another module, which may read just that text, and only as long as the client lets it. */
#include <stdio.h>

#include "modules.h"
#include "mondrix.h"
#include "words.h"

/* A grant goes by words, so what is shared begins at a word and ends at one. */
static char text[32] __attribute__((aligned(4))) = "a machine of words, word by word";

static void ask(const char *when, const char *what) {
    int32_t answer = count_words(what, sizeof text);
    if (answer < 0)
        printf("%s: refused, %s\n", when, mondrix_code_name(answer));
    else
        printf("%s: %d words\n", when, (int)answer);
}

int main(void) {
    ask("before the grant", text);
    mondrix_must(mondrix_grant(text, sizeof text, WORDS, MONDRIX_READ));
    ask("after the grant", text);
    mondrix_must(mondrix_revoke_all(text, sizeof text));
    ask("after revoke_all", text);
    ask("the other module's own words", (const char *)count_words);
    printf("a grant on another's words: %s\n",
           mondrix_code_name(mondrix_grant((void *)count_words, 4, CLIENT, MONDRIX_READ)));
    return 0;
}
