/* The entanglement across every cut of a path of four qubits, before and after a CZ, a gate and a complement; then a
 * product of two rows that do not commute. rust/sukhlent/examples/cut.rs is the same in Rust. */
#include <stdio.h>

#include "sukhlent.h"

enum { N = 4 };

/* The word of used qubits: none has been measured. */
enum { UNUSED = 0 };

/* Prints the rank across each cut, the side of qubit 0 written as its qubits. */
static void show(const char *title, const uint64_t *neighbours, const uint8_t *codes)
{
    printf("%s\n", title);
    for (uint64_t side = 1; side < 1u << N; side += 2) {
        uint64_t rank;
        uint8_t refusal = sukhlent_cut(N, neighbours, N, codes, N, UNUSED, side, &rank);

        printf("  {");
        for (int q = 0; q < N; q++)
            if (side >> q & 1)
                printf(q ? ", %d" : "%d", q);
        if (refusal)
            printf("} refused %d\n", refusal);
        else
            printf("} %d\n", (int)rank);
    }
}

int main(void)
{
    /* 0 - 1 - 2 - 3, no codes */
    uint64_t neighbours[N] = {2, 5, 10, 4};
    uint8_t codes[N] = {0, 0, 0, 0};

    show("path", neighbours, codes);
    if (sukhlent_cz(N, neighbours, N, codes, N, UNUSED, 0, 1))
        return 1;
    show("CZ on 0 and 1: only cuts between the two change", neighbours, codes);
    if (sukhlent_gate(N, neighbours, N, codes, N, UNUSED, 1, 8) ||
        sukhlent_complement(N, neighbours, N, codes, N, UNUSED, 2))
        return 1;
    show("a Hadamard at 1, then complemented at 2: no cut changes", neighbours, codes);

    /* X on qubit 0 and then Y on qubit 0: i Z */
    uint8_t signs[2] = {0, 0};
    uint64_t z[2] = {0, 1}, x[2] = {1, 1};
    uint64_t product_z, product_x;
    uint8_t phase;
    if (sukhlent_product(2, signs, 2, z, 2, x, 2, 3, &product_z, &product_x, &phase))
        return 1;
    printf("XI times YI: i to the power %d, z %d, x %d\n", phase, (int)product_z, (int)product_x);
    return 0;
}
