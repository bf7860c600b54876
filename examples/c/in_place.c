/* Calls on one record, one after another: three qubits are entangled, rewritten and measured. A
 * measured qubit is used: no call may name it again. Refused calls leave the record as it was. */
#include <stdio.h>

#include "sukhlent.h"

enum { N = 3 };
enum { PHASE_GATE = 4, HADAMARD = 8 };
enum { X = 1, Y = 2, Z = 3 };

/* Qubits in the state +X each: no edge, codes 0, none of them used. */
static uint64_t neighbours[N];
static uint8_t codes[N];
static uint64_t used;

/* Prints a call and its refusal, if any, and the record that it left. */
static void show(const char *call, uint8_t refusal)
{
    printf("%s", call);
    if (refusal != 0)
        printf(": refused %d", refusal);
    printf("\n    codes");
    for (int q = 0; q < N; q++)
        printf(" %d", codes[q]);
    printf(", edges");
    for (int a = 0; a < N; a++)
        for (int b = a + 1; b < N; b++)
            if (neighbours[a] >> b & 1)
                printf(" %d-%d", a, b);
    if (used != 0)
        printf(", used");
    for (int q = 0; q < N; q++)
        if (used >> q & 1)
            printf(" %d", q);
    putchar('\n');
}

static void gate(const char *call, uint64_t qubit, uint8_t code)
{
    show(call, sukhlent_gate(N, neighbours, N, codes, N, used, qubit, code));
}

static void cz(const char *call, uint64_t a, uint64_t b)
{
    show(call, sukhlent_cz(N, neighbours, N, codes, N, used, a, b));
}

static void complement(const char *call, uint64_t a)
{
    show(call, sukhlent_complement(N, neighbours, N, codes, N, used, a));
}

static void measure(const char *call, uint8_t pauli, uint64_t qubit, uint8_t outcome)
{
    uint8_t answer, determined;
    uint8_t refusal = sukhlent_measure(N, neighbours, N, codes, N, &used, pauli, qubit, outcome,
                                       &answer, &determined);
    show(call, refusal);
    if (refusal == 0)
        printf("    outcome %d, %s\n", answer, determined ? "determined" : "not determined");
}

int main(void)
{
    cz("CZ on 0, 1", 0, 1);
    cz("CZ on 0, 2", 0, 2);
    complement("complement at 0", 0);
    complement("complement at 1", 1);
    complement("complement at 0", 0);
    gate("phase gate on 2", 2, PHASE_GATE);
    gate("Hadamard on 1", 1, HADAMARD);
    measure("Z on 0, bit 1", Z, 0, 1);
    gate("Hadamard on 0", 0, HADAMARD);
    cz("CZ on 0, 1", 0, 1);
    measure("Z on 0, bit 0", Z, 0, 0);
    measure("Y on 2, bit 0", Y, 2, 0);
    measure("Y on 2, bit 1", Y, 2, 1);
    measure("X on 1, bit 0", X, 1, 0);
    cz("CZ on 2, 2", 2, 2);
    measure("Z on 1, bit 2", Z, 1, 2);
    return 0;
}
