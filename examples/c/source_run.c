/* The source of examples/c/source.c, with its steps in runs: renewals, CZ and observations are collected, up to 4,096 of
 * them, and each run checks the record once. It prints what the single calls do. examples/python/source.py is the same in
 * Python. */
#include <stdio.h>
#include <stdlib.h>

#include "sukhlent.h"

enum { N = 64, ALIVE = 40, STEPS = SUKHLENT_MOST_STEPS };

static uint64_t neighbours[N], used; /* every place has a photon in +X: no edge, code 0 */
static uint8_t codes[N];

/* The steps that wait, how many there are, and what they answer. */
static uint8_t ops[STEPS], refusals[STEPS], outcomes[STEPS], determined[STEPS];
static uint16_t a[STEPS], b[STEPS], value[STEPS];
static uint64_t count;

/* What was found: photons measured, outcomes minus, outcomes determined, the last, and the parity before it. */
static uint64_t photons, measured, minus, found;
static uint8_t parity, outcome;

/* A bit by lot. */
static uint8_t lot(void)
{
    static uint64_t state = 1;
    state ^= state << 13;
    state ^= state >> 7;
    state ^= state << 17;
    return state >> 63;
}

/* Ends the program where a call or a step is refused. */
static void must(uint8_t refusal)
{
    if (refusal != SUKHLENT_ACCEPTED) {
        fprintf(stderr, "refused %d: %s\n", refusal, sukhlent_refusal_text(refusal));
        exit(1);
    }
}

/* Runs the steps that wait, and reads the outcomes. */
static void flush(void)
{
    must(sukhlent_run(N, neighbours, N, codes, N, &used, ops, count, a, count, b, count, value, count, refusals, count,
                      outcomes, count, determined, count));
    for (uint64_t k = 0; k < count; k++) {
        must(refusals[k]);
        if (ops[k] != SUKHLENT_OP_OBSERVE)
            continue;
        outcome = outcomes[k];
        minus += outcome;
        found += determined[k];
        measured++;
        if (measured % 2 == 1 && measured < photons)
            parity ^= outcome; /* of photon 0, 2, 4 .. */
    }
    count = 0;
}

/* A step more. */
static void step(uint8_t op, uint64_t first, uint64_t second, uint8_t with)
{
    if (count == STEPS)
        flush();
    ops[count] = op;
    a[count] = (uint16_t)first;
    b[count] = (uint16_t)second;
    value[count++] = with;
}

/* Puts photon k at its place, in +X, and joins it to the one before it. */
static void emit(uint64_t k)
{
    if (k >= N)
        step(SUKHLENT_OP_RENEW, k % N, 0, SUKHLENT_PHOTON_PLUS_X);
    if (k > 0)
        step(SUKHLENT_OP_CZ, (k - 1) % N, k % N, 0);
}

int main(int argc, char **argv)
{
    photons = argc > 1 ? strtoull(argv[1], NULL, 10) : 1000001;
    for (uint64_t k = 0; k < photons + ALIVE - 1; k++) {
        if (k < photons)
            emit(k);
        if (k + 1 >= ALIVE)
            step(SUKHLENT_OP_OBSERVE, (k + 1 - ALIVE) % N, 0, 2 * (SUKHLENT_PAULI_X - 1) + lot());
    }
    flush();
    printf("%llu photons emitted and measured on %d places\n", (unsigned long long)measured, N);
    printf("%llu outcomes minus, %llu determined\n", (unsigned long long)minus, (unsigned long long)found);
    printf("the last is %d, and the parity before it %d\n", outcome, parity);
    return 0;
}
