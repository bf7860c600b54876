/* Marks a point of a session and comes back to it: a Bell pair is saved, one half is measured with
 * outcome 0, then the session returns to the pair and measures with outcome 1.
 * rust/sukhlent/examples/store.rs is the same in Rust. */
#include <inttypes.h>
#include <stdio.h>
#include <stdlib.h>
#include <string.h>
#include "sukhlent.h"

enum { HEADS = SUKHLENT_HEAD_PLACES, HELD = SUKHLENT_HELD_PLACES };

static uint64_t n = 2, used, neighbours[64], heads[HEADS], held_neighbours[HELD];
static uint8_t codes[64] = {8, 8}, held_codes[HELD];

static void accept(uint8_t number) {
    if (number != SUKHLENT_ACCEPTED) {
        fprintf(stderr, "refused %u\n", (unsigned)number);
        exit(1);
    }
}

/* Each vertex with its neighbour word and its code, and the used word. */
static void show(const char *when) {
    printf("%s:", when);
    for (uint64_t q = 0; q < n; q++)
        printf(" %" PRIx64 " %u,", neighbours[q], (unsigned)codes[q]);
    printf(" used %" PRIx64 "\n", used);
}

static void gate(uint64_t qubit, uint8_t code) {
    accept(sukhlent_gate(n, neighbours, n, codes, n, used, qubit, code));
}

static void measured(uint8_t outcome) {
    uint8_t answer = 0, determined = 0;
    accept(sukhlent_measure(n, neighbours, n, codes, n, &used, SUKHLENT_PAULI_Z, 0, outcome,
                            &answer, &determined));
}

static uint8_t forget(uint64_t name) {
    return sukhlent_forget(name, heads, HEADS, held_neighbours, HELD, held_codes, HELD);
}

int main(void) {
    uint64_t pair;
    memcpy(&pair, "the pair", 8);
    gate(0, 8);
    gate(1, 8);
    accept(sukhlent_cz(n, neighbours, n, codes, n, used, 0, 1));
    gate(1, 8);
    show("a Bell pair");
    accept(sukhlent_save(n, neighbours, n, codes, n, used, pair,
                         heads, HEADS, held_neighbours, HELD, held_codes, HELD));
    measured(0);
    show("Z at 0 gave 0");
    accept(sukhlent_return(pair, heads, HEADS, held_neighbours, HELD, held_codes, HELD,
                           &n, neighbours, 64, codes, 64, &used));
    show("the pair again");
    measured(1);
    show("Z at 0 gave 1");
    accept(forget(pair));
    printf("forgotten again: %u\n", (unsigned)forget(pair));
    return 0;
}
