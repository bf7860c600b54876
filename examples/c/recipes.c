/* The recipes of the header: the start of a session, CNOT, a random outcome, equal states.
 * rust/sukhlent/examples/recipes.rs is the same in Rust. */
#include <stdio.h>
#include <string.h>

#include "sukhlent.h"

enum { N = 3 };

struct state {
    uint64_t neighbours[N];
    uint8_t codes[N];
    uint64_t used;
};

/* Every qubit in +Z. */
static struct state zeros(void)
{
    struct state state;
    memset(state.neighbours, 0, sizeof state.neighbours);
    memset(state.codes, SUKHLENT_GATE_H, sizeof state.codes);
    state.used = 0;
    return state;
}

static uint8_t gate(struct state *state, uint64_t qubit, uint8_t code)
{
    return sukhlent_gate(N, state->neighbours, N, state->codes, N, state->used, qubit, code);
}

/* CNOT is H, CZ, H, on a copy: a refusal leaves the state as it was. */
static uint8_t cnot(struct state *state, uint64_t control, uint64_t target)
{
    struct state trial = *state;
    uint8_t refusal = gate(&trial, target, SUKHLENT_GATE_H);
    if (refusal == SUKHLENT_ACCEPTED)
        refusal = sukhlent_cz(N, trial.neighbours, N, trial.codes, N, trial.used, control, target);
    if (refusal == SUKHLENT_ACCEPTED) {
        refusal = gate(&trial, target, SUKHLENT_GATE_H);
        *state = trial;
    }
    return refusal;
}

/* Measures Z with a bit from a coin, which is the outcome where the state does not determine it. */
static uint8_t measure(struct state *state, uint64_t qubit, uint8_t coin, uint8_t *outcome,
                       uint8_t *determined)
{
    return sukhlent_observe(N, state->neighbours, N, state->codes, N, &state->used,
                            SUKHLENT_PAULI_Z, qubit, coin, outcome, determined);
}

/* Whether two reduced records are those of one state. */
static int equal(const struct state *a, const struct state *b)
{
    return memcmp(a->neighbours, b->neighbours, sizeof a->neighbours) == 0 &&
           memcmp(a->codes, b->codes, sizeof a->codes) == 0;
}

/* Prints a refusal. */
static void say(const char *call, uint8_t refusal)
{
    printf("%s: refused %d: %s\n", call, refusal, sukhlent_refusal_text(refusal));
}

int main(void)
{
    struct state ghz = zeros(), other = zeros();
    uint8_t outcome, determined;

    printf("compiled for the version of the library: %d\n", sukhlent_version() == SUKHLENT_VERSION);
    gate(&ghz, 0, SUKHLENT_GATE_H);
    cnot(&ghz, 0, 1);
    cnot(&ghz, 1, 2);
    gate(&other, 2, SUKHLENT_GATE_H);
    cnot(&other, 2, 0);
    printf("equal after CNOT 2 0: %d\n", equal(&ghz, &other));
    cnot(&other, 2, 1);
    printf("equal after CNOT 2 1: %d\n", equal(&ghz, &other));
    say("CNOT 1 1", cnot(&ghz, 1, 1));
    printf("equal after that: %d\n", equal(&ghz, &other));

    measure(&ghz, 0, 1, &outcome, &determined);
    printf("Z at 0 with coin 1: outcome %d, determined %d\n", outcome, determined);
    measure(&ghz, 1, 0, &outcome, &determined);
    printf("Z at 1 with coin 0: outcome %d, determined %d\n", outcome, determined);
    say("H at 1", gate(&ghz, 1, SUKHLENT_GATE_H));
    return 0;
}
