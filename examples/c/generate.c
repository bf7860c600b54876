/* Writes the text of a job that anyone can repeat: generate N COUNT SEED, in decimal.
 * rust/sukhlent/examples/generate.rs is the same in Rust. */
#include <stdio.h>
#include <stdlib.h>

#include "sukhlent.h"

enum { PLACES = SUKHLENT_TEXT_PLACES };

static uint8_t text[PLACES];

int main(int argc, char **argv)
{
    uint64_t arguments[3], length;

    if (argc != 4) {
        fprintf(stderr, "usage: generate N COUNT SEED\n");
        return 2;
    }
    for (int k = 0; k < 3; k++) {
        char *end;

        arguments[k] = strtoull(argv[1 + k], &end, 10);
        if (end == argv[1 + k] || *end != '\0') {
            fprintf(stderr, "no number: %s\n", argv[1 + k]);
            return 2;
        }
    }
    uint8_t refusal =
        sukhlent_generate(arguments[0], arguments[1], arguments[2], text, PLACES, &length);
    if (refusal != 0) {
        fprintf(stderr, "refused %d\n", refusal);
        return 1;
    }
    return fwrite(text, 1, length, stdout) != length;
}
