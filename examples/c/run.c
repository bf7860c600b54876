/* A wire of five photons, made as a linear cluster and measured from one end, in one call: the steps are parallel slices,
 * as a log of the experiment has them, and each has an answer of its own. X at 4 is the sum of the outcomes at 0 and 2, so
 * that the log's first entry for it cannot be: it is refused and changes nothing, and the steps behind it run.
 * rust/sukhlent/examples/run.rs is the same in Rust. */
#include <stdio.h>
#include <string.h>

#include "sukhlent.h"

enum { N = 5, STEPS = 16 };
enum { H = SUKHLENT_OP_GATE, CZ = SUKHLENT_OP_CZ, M = SUKHLENT_OP_MEASURE };

/* A measurement's value is 2 * (pauli - 1) + outcome: X with outcome 0, and with outcome 1. */
enum { X0 = 0, X1 = 1 };

/* H at each, CZ along the wire, X at 0 to 3; then X at 4 as the log has it and as it must be, and a gate too late. */
static const uint8_t ops[STEPS] = {H, H, H, H, H, CZ, CZ, CZ, CZ, M, M, M, M, M, M, H};
static const uint16_t a[STEPS] = {0, 1, 2, 3, 4, 0, 1, 2, 3, 0, 1, 2, 3, 4, 4, 2};
static const uint16_t b[STEPS] = {0, 0, 0, 0, 0, 1, 2, 3, 4, 0, 0, 0, 0, 0, 0, 0};
static const uint16_t value[STEPS] = {SUKHLENT_GATE_H, SUKHLENT_GATE_H, SUKHLENT_GATE_H, SUKHLENT_GATE_H, SUKHLENT_GATE_H,
                                      0, 0, 0, 0, X1, X0, X0, X1, X0, X1, SUKHLENT_GATE_H};

/* Prints a step and what it answered. */
static void show(int k, uint8_t refusal, uint8_t outcome, uint8_t determined)
{
    printf("%2d ", k);
    if (ops[k] == CZ)
        printf("CZ at %d and %d", a[k], b[k]);
    else
        printf("%c at %d", ops[k] == H ? 'H' : 'X', a[k]);
    if (refusal != SUKHLENT_ACCEPTED)
        printf(": refused %d: %s", refusal, sukhlent_refusal_text(refusal));
    else if (ops[k] == M)
        printf(": outcome %d, %s", outcome, determined ? "determined" : "free");
    putchar('\n');
}

int main(void)
{
    uint64_t neighbours[N] = {0}, used = 0;
    uint8_t codes[N], refusals[STEPS], outcomes[STEPS], determined[STEPS], refusal;

    memset(codes, SUKHLENT_GATE_H, N); /* every qubit in +Z */
    refusal = sukhlent_run(N, neighbours, N, codes, N, &used, ops, STEPS, a, STEPS, b, STEPS, value, STEPS,
                           refusals, STEPS, outcomes, STEPS, determined, STEPS);
    if (refusal != SUKHLENT_ACCEPTED) { /* the whole: no step has run, and no buffer has changed */
        puts(sukhlent_refusal_text(refusal));
        return 1;
    }
    for (int k = 0; k < STEPS; k++)
        show(k, refusals[k], outcomes[k], determined[k]);
    printf("used %llx\n", (unsigned long long)used);
    return 0;
}
