/* Two experiments on one engine: the lower half of the qubits makes a star, marks it and comes back
 * to it; the upper half makes a path. Neither sees the other.
 * rust/sukhlent/examples/two_groups.rs is the same in Rust. */
#include <inttypes.h>
#include <stdio.h>
#include <stdlib.h>
#include <string.h>
#include "sukhlent.h"

enum { N = 64, LOWER = 0, UPPER = 1, HEADS = SUKHLENT_HEAD_PLACES, HELD = SUKHLENT_HELD_PLACES };

/* What the groups share: the record, the word, bit q the group of qubit q, and the store. */
static const uint64_t word = UINT64_C(0xffffffff00000000);
static uint64_t used, neighbours[N], heads[HEADS], held_neighbours[HELD];
static uint8_t codes[N], held_codes[HELD];

static void accept(uint8_t number) {
    if (number != SUKHLENT_ACCEPTED) {
        fprintf(stderr, "refused %u: %s\n", (unsigned)number, sukhlent_refusal_text(number));
        exit(1);
    }
}

static uint8_t gate(uint8_t group, uint64_t qubit, uint8_t code) {
    return sukhlent_group_gate(N, word, group, neighbours, N, codes, N, used, qubit, code);
}

static void cz(uint8_t group, uint64_t a, uint64_t b) {
    accept(sukhlent_group_cz(N, word, group, neighbours, N, codes, N, used, a, b));
}

static void join(uint64_t a, uint64_t b) {
    accept(sukhlent_cz(N, neighbours, N, codes, N, used, a, b));
}

static uint8_t return_to(uint8_t group, uint64_t name) {
    return sukhlent_group_return(N, word, group, neighbours, N, codes, N, &used, name,
                                 heads, HEADS, held_neighbours, HELD, held_codes, HELD);
}

/* The vertices of a group that are not in +Z as at the start, each with its neighbour word and its
 * code, and the group's used qubits. */
static void show(const char *when, uint8_t group) {
    uint64_t own = group == UPPER ? word : ~word;
    printf("%s:", when);
    for (int q = 0; q < N; q++)
        if ((own >> q & 1) && (neighbours[q] != 0 || codes[q] != SUKHLENT_GATE_H))
            printf(" %d: %" PRIx64 " %u,", q, neighbours[q], (unsigned)codes[q]);
    printf(" used %" PRIx64 "\n", used & own);
}

int main(void) {
    uint64_t star;
    uint8_t answer = 0, determined = 0, first, second;
    memcpy(&star, "star    ", 8);
    memset(codes, SUKHLENT_GATE_H, N);

    for (uint64_t q = 0; q < 3; q++)
        accept(gate(LOWER, q, SUKHLENT_GATE_H));
    cz(LOWER, 0, 1);
    cz(LOWER, 0, 2);
    accept(sukhlent_group_save(N, word, LOWER, neighbours, N, codes, N, used, star,
                               heads, HEADS, held_neighbours, HELD, held_codes, HELD));
    show("lower, a star", LOWER);

    for (uint64_t q = 40; q < 43; q++)
        accept(gate(UPPER, q, SUKHLENT_GATE_H));
    cz(UPPER, 40, 41);
    cz(UPPER, 41, 42);
    accept(sukhlent_group_complement(N, word, UPPER, neighbours, N, codes, N, used, 41));
    show("upper, a path complemented in its middle", UPPER);

    accept(sukhlent_group_measure(N, word, LOWER, neighbours, N, codes, N, &used,
                                  SUKHLENT_PAULI_Z, 0, 1, &answer, &determined));
    show("lower, Z at 0 gave 1", LOWER);
    accept(sukhlent_group_observe(N, word, LOWER, neighbours, N, codes, N, &used,
                                  SUKHLENT_PAULI_X, 1, 0, &answer, &determined));
    printf("lower, X at 1 with a bit 0: %u, determined %u\n", (unsigned)answer, (unsigned)determined);
    accept(sukhlent_group_renew(N, word, LOWER, neighbours, N, codes, N, &used, 0, SUKHLENT_PHOTON_PLUS_Y));
    show("lower, a new photon at 0", LOWER);
    accept(return_to(LOWER, star));
    show("lower, the star again", LOWER);
    show("upper, as it was", UPPER);

    first = gate(UPPER, 0, SUKHLENT_GATE_X);
    second = return_to(UPPER, star);
    printf("upper refused: %u, %u\n", (unsigned)first, (unsigned)second);

    /* The operator joins the groups, and parts them again. */
    join(1, 40);
    first = gate(LOWER, 5, SUKHLENT_GATE_X);
    second = gate(UPPER, 45, SUKHLENT_GATE_X);
    printf("joined: %u, %u\n", (unsigned)first, (unsigned)second);
    join(1, 40);
    accept(sukhlent_group_forget(N, word, LOWER, neighbours, N, codes, N, used, star,
                                 heads, HEADS, held_neighbours, HELD, held_codes, HELD));
    show("parted: lower", LOWER);
    show("parted: upper, reduced by the operator", UPPER);
    return 0;
}
