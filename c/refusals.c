/* Prints each refusal's number and words: c/refusals.out is what it must print. */
#include "balsa.h"

#include <stdio.h>
#include <string.h>

int main(void) {
    for (uint32_t code = 0; code < 1000; code++) {
        const char *words = balsa_refusal_text(code);
        if (words != NULL) {
            printf("%u %s\n", code, words);
        }
    }
    return strcmp(balsa_version(), BALSA_VERSION) != 0 || balsa_edition() != BALSA_EDITION;
}
