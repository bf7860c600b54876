/* A source that goes on: photons are emitted one after the other, each joined to the one before it, and measured at the
 * other end of the cluster; a measured photon's place is renewed for the next. So 64 places carry as many photons as are
 * asked for, of which 40 are alive at a time. X is measured at each with a bit by lot; in a cluster of an odd number of
 * photons the last outcome is determined: it is the parity of the outcomes of photons 0, 2, 4 and so on before it.
 * rust/sukhlent/examples/source.rs is the same in Rust. */
#include <stdio.h>
#include <stdlib.h>

#include "sukhlent.h"

enum { N = 64, ALIVE = 40 };

static uint64_t neighbours[N], used; /* every place has a photon in +X: no edge, code 0 */
static uint8_t codes[N];

/* A bit by lot. */
static uint8_t lot(void)
{
    static uint64_t state = 1;
    state ^= state << 13;
    state ^= state >> 7;
    state ^= state << 17;
    return state >> 63;
}

/* Ends the program where a call is refused. */
static void must(uint8_t refusal)
{
    if (refusal != SUKHLENT_ACCEPTED) {
        fprintf(stderr, "refused %d: %s\n", refusal, sukhlent_refusal_text(refusal));
        exit(1);
    }
}

/* Puts photon k at its place, in +X, and joins it to the one before it. */
static void emit(uint64_t k)
{
    if (k >= N)
        must(sukhlent_renew(N, neighbours, N, codes, N, &used, k % N, SUKHLENT_PHOTON_PLUS_X));
    if (k > 0)
        must(sukhlent_cz(N, neighbours, N, codes, N, used, (k - 1) % N, k % N));
}

/* Measures X at photon k. */
static uint8_t outcome_of(uint64_t k, uint64_t *found)
{
    uint8_t outcome, determined;
    must(sukhlent_observe(N, neighbours, N, codes, N, &used, SUKHLENT_PAULI_X, k % N, lot(), &outcome, &determined));
    *found += determined;
    return outcome;
}

int main(int argc, char **argv)
{
    uint64_t photons = argc > 1 ? strtoull(argv[1], NULL, 10) : 1000001;
    uint64_t measured = 0, minus = 0, found = 0;
    uint8_t parity = 0, outcome = 0;

    for (uint64_t k = 0; measured < photons; k++) {
        if (k < photons)
            emit(k);
        if (k + 1 < ALIVE)
            continue;
        outcome = outcome_of(measured, &found);
        minus += outcome;
        measured++;
        if (measured % 2 == 1 && measured < photons)
            parity ^= outcome; /* of photon 0, 2, 4 .. */
    }
    printf("%llu photons emitted and measured on %d places\n", (unsigned long long)measured, N);
    printf("%llu outcomes minus, %llu determined\n", (unsigned long long)minus, (unsigned long long)found);
    printf("the last is %d, and the parity before it %d\n", outcome, parity);
    return 0;
}
