/* A list of generators as a state vector: -ZZI, IZZ and YXX, a GHZ state with a sign and a phase. The list is judged, then
 * reduced, and each of its amplitudes is read; a list that names no state is told by its refusal.
 * rust/sukhlent/examples/vector.rs is the same in Rust. */
#include <stdio.h>

#include "sukhlent.h"

enum { N = 3 };

/* Prints what the check of a list says. */
static void judge(const char *list, uint8_t refusal)
{
    printf("%s: ", list);
    if (refusal != SUKHLENT_ACCEPTED)
        printf("refused %d: ", refusal);
    puts(sukhlent_refusal_text(refusal));
}

int main(void)
{
    /* bit q for qubit q; at each qubit (z, x) is 01 for X, 10 for Z, 11 for Y */
    uint8_t signs[N] = {1, 0, 0};
    uint64_t z[N] = {3, 6, 1}, x[N] = {0, 0, 7}, other[N] = {0, 0, 1};
    uint64_t neighbours[N], used;
    uint8_t codes[N];

    judge("-ZZI, IZZ, YII", sukhlent_check(N, signs, N, z, N, other, N));
    judge("-ZZI, IZZ, YXX", sukhlent_check(N, signs, N, z, N, x, N));
    if (sukhlent_reduce(N, signs, N, z, N, x, N, neighbours, N, codes, N, &used))
        return 1;
    for (uint64_t y = 0; y < 1u << N; y++) {
        double re, im, p;
        if (sukhlent_amplitude(N, neighbours, N, codes, N, used, y, &re, &im, &p))
            return 1;
        if (p == 0)
            continue;
        printf("qubits 0, 1, 2 in %d%d%d: ", (int)(y & 1), (int)(y >> 1 & 1), (int)(y >> 2));
        printf("%g%+gi, probability %g\n", re, im, p);
    }
    return 0;
}
