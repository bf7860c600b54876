/* Large states that are one up to local Cliffords: a GHZ state on 21 qubits and a star, as lists; then a cluster of 8 x 8
 * qubits and the graph that it becomes when it is complemented at three vertices, as records. A part of more than 20
 * vertices is refused by sukhlent_compare, and compared by sukhlent_equivalent. rust/sukhlent/examples/clusters.rs is the
 * same in Rust. */
#include <stdio.h>
#include <string.h>

#include "sukhlent.h"

enum { GHZ = 21, SIDE = 8, N = SIDE * SIDE, UNUSED = 0 };

/* Puts an edge into a graph. */
static void join(uint64_t *neighbours, int a, int b)
{
    neighbours[a] |= UINT64_C(1) << b;
    neighbours[b] |= UINT64_C(1) << a;
}

/* Prints numbers behind a name. */
static void list_out(const char *name, const uint8_t *numbers, uint64_t count)
{
    printf("%s", name);
    for (uint64_t k = 0; k < count; k++)
        printf(" %d", numbers[k]);
    putchar('\n');
}

/* Lists: X on all qubits and Z on each two neighbours; and X at each vertex of a star, Z at its neighbours. */
static int ghz_and_star(void)
{
    uint64_t z[GHZ] = {0}, x[GHZ] = {0}, star_z[GHZ] = {0}, star_x[GHZ], count;
    uint8_t signs[GHZ] = {0}, choice[GHZ], list[SUKHLENT_LIST_PLACES], number;

    x[0] = (UINT64_C(1) << GHZ) - 1;
    star_x[0] = 1;
    for (int q = 1; q < GHZ; q++) {
        z[q] = UINT64_C(3) << (q - 1);
        star_x[q] = UINT64_C(1) << q;
        join(star_z, 0, q);
    }
    number = sukhlent_compare(GHZ, signs, GHZ, z, GHZ, x, GHZ, GHZ, signs, GHZ, star_z, GHZ, star_x, GHZ,
                              choice, GHZ, list, SUKHLENT_LIST_PLACES, &count);
    printf("GHZ to star on 21, compare: refused %d: %s\n", number, sukhlent_refusal_text(number));
    number = sukhlent_equivalent(GHZ, signs, GHZ, z, GHZ, x, GHZ, GHZ, signs, GHZ, star_z, GHZ, star_x, GHZ,
                                 choice, GHZ, list, SUKHLENT_LIST_PLACES, &count);
    if (number)
        return number;
    list_out("GHZ to star on 21, equivalent: codes", choice, GHZ);
    return 0;
}

/* Records: a cluster, and its graph complemented at three vertices without the codes that would keep the state. */
static int clusters(void)
{
    uint64_t cluster[N] = {0}, other[N], count;
    uint8_t codes[N] = {0}, zeros[N] = {0}, choice[N], list[SUKHLENT_LIST_PLACES], number;
    const int at[] = {27, 28, 36};

    for (int q = 0; q < N; q++) {
        if (q % SIDE + 1 < SIDE)
            join(cluster, q, q + 1);
        if (q + SIDE < N)
            join(cluster, q, q + SIDE);
    }
    memcpy(other, cluster, sizeof other);
    for (int k = 0; k < 3; k++)
        if (sukhlent_complement(N, other, N, codes, N, UNUSED, at[k]))
            return 1;
    memset(codes, 0, sizeof codes);

    number = sukhlent_equivalent_records(N, cluster, N, codes, N, N, other, N, zeros, N,
                                         choice, N, list, SUKHLENT_LIST_PLACES, &count);
    if (number)
        return number;
    list_out("8 x 8 to the other graph: complemented at", list, count);
    for (int q = 0; q < N; q++) {
        if (choice[q])
            printf("code %d at %d\n", choice[q], q);
        if (sukhlent_gate(N, cluster, N, codes, N, UNUSED, q, choice[q]))
            return 1;
    }
    number = sukhlent_equivalent_records(N, cluster, N, codes, N, N, other, N, zeros, N,
                                         choice, N, list, SUKHLENT_LIST_PLACES, &count);
    printf("after these gates nothing is left to do: %s\n",
           number == 0 && count == 0 && memcmp(choice, zeros, N) == 0 ? "yes" : "no");
    other[0] ^= UINT64_C(1) << 63;
    other[63] ^= 1;
    number = sukhlent_equivalent_records(N, cluster, N, codes, N, N, other, N, zeros, N,
                                         choice, N, list, SUKHLENT_LIST_PLACES, &count);
    printf("with an edge more, from corner to corner: refused %d: %s\n", number, sukhlent_refusal_text(number));
    return 0;
}

int main(void)
{
    return ghz_and_star() || clusters();
}
