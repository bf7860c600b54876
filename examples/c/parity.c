/* Parities: the four rows of the five-qubit code are measured jointly on photons in +Z, which makes a code word. Each error of
 * one letter is made, and the rows are measured again: they are determined, and no two errors have the same outcomes. No photon
 * is used up. rust/sukhlent/examples/parity.rs is the same in Rust. */
#include <stdio.h>
#include <stdlib.h>

#include "sukhlent.h"

enum { N = 5, ROWS = 4 };

typedef struct {
    uint64_t neighbours[N];
    uint8_t codes[N];
} State;

/* XZZXI, IXZZX, XIXZZ, ZXIXZ: bit q of a word belongs to qubit q. */
static const uint64_t Z[ROWS] = {6, 12, 24, 17}, X[ROWS] = {9, 18, 5, 10};

/* Ends the program where a call is refused. */
static void must(uint8_t refusal)
{
    if (refusal != SUKHLENT_ACCEPTED) {
        fprintf(stderr, "refused %d: %s\n", refusal, sukhlent_refusal_text(refusal));
        exit(1);
    }
}

/* Measures the four rows, writes their outcomes as a text, and answers how many were determined. */
static int measured(State *state, char *outcomes)
{
    int known = 0;
    for (int j = 0; j < ROWS; j++) {
        uint8_t answer, determined;
        must(sukhlent_measure_row(N, state->neighbours, N, state->codes, N, 0, Z[j], X[j], 0, &answer, &determined));
        known += determined;
        outcomes[j] = (char)('0' + answer);
    }
    outcomes[ROWS] = 0;
    return known;
}

int main(void)
{
    const uint8_t gates[3] = {SUKHLENT_GATE_X, SUKHLENT_GATE_Y, SUKHLENT_GATE_Z};
    State word = {{0}, {8, 8, 8, 8, 8}}; /* no edge, and +Z everywhere */
    char outcomes[ROWS + 1];
    int known = measured(&word, outcomes);

    printf("a code word: %s, %d determined\n", outcomes, known);
    known = measured(&word, outcomes);
    printf("looked at again: %s, %d determined\n", outcomes, known);
    for (int k = 0; k < 3; k++) {
        for (uint64_t q = 0; q < N; q++) {
            State state = word;
            must(sukhlent_gate(N, state.neighbours, N, state.codes, N, 0, q, gates[k]));
            measured(&state, outcomes);
            printf("%c%d %s%c", "XYZ"[k], (int)q, outcomes, q + 1 < N ? ' ' : '\n');
        }
    }
    return 0;
}
