/* Are two states one up to local Cliffords? A ring of five is compared with the ring that has a chord, and with the path:
 * the records are given as they are. The gates of the answer are applied, and all graphs that complementations reach from
 * the ring are listed. rust/sukhlent/examples/equivalent.rs is the same in Rust. */
#include <stdio.h>
#include <string.h>

#include "sukhlent.h"

enum { N = 5, UNUSED = 0 };

/* Puts an edge into a graph. */
static void join(uint64_t *neighbours, int a, int b)
{
    neighbours[a] |= UINT64_C(1) << b;
    neighbours[b] |= UINT64_C(1) << a;
}

/* The number of a graph: a bit for each pair 0-1, 0-2, .., 1-2, .., the first lowest. */
static int number_of(const uint64_t *neighbours)
{
    int number = 0, pair = 0;
    for (int a = 0; a < N; a++)
        for (int b = a + 1; b < N; b++)
            number |= (int)(neighbours[a] >> b & 1) << pair++;
    return number;
}

int main(void)
{
    uint64_t ring[N] = {0}, chord[N] = {0}, path[N] = {0}, count, reached;
    uint8_t codes[N] = {0}, zeros[N] = {0}, choice[N], list[SUKHLENT_LIST_PLACES], refusal;
    static uint16_t numbers[SUKHLENT_ORBIT_PLACES];
    int found = 0;

    for (int q = 0; q < N; q++) {
        join(ring, q, (q + 1) % N);
        join(chord, q, (q + 1) % N);
    }
    join(chord, 1, 4);
    for (int q = 0; q + 1 < N; q++)
        join(path, q, q + 1);

    if (sukhlent_compare_records(N, ring, N, codes, N, N, chord, N, zeros, N,
                                 choice, N, list, SUKHLENT_LIST_PLACES, &count))
        return 1;
    printf("ring to ring with a chord: codes");
    for (int q = 0; q < N; q++)
        printf(" %d", choice[q]);
    printf(", complemented at");
    for (uint64_t k = 0; k < count; k++)
        printf(" %d", list[k]);
    putchar('\n');

    if (sukhlent_orbit(N, ring, N, numbers, SUKHLENT_ORBIT_PLACES, &reached))
        return 1;
    for (uint64_t k = 0; k < reached; k++)
        found |= numbers[k] == number_of(chord);
    printf("graphs reached from the ring: %d, the chord's %s\n", (int)reached, found ? "among them" : "not");

    for (int q = 0; q < N; q++)
        if (sukhlent_gate(N, ring, N, codes, N, UNUSED, q, choice[q]))
            return 1;
    printf("the ring after these gates is the other: %s\n",
           memcmp(ring, chord, sizeof ring) == 0 && memcmp(codes, zeros, N) == 0 ? "yes" : "no");
    refusal = sukhlent_compare_records(N, ring, N, codes, N, N, path, N, zeros, N,
                                       choice, N, list, SUKHLENT_LIST_PLACES, &count);
    printf("and to the path: refused %d: %s\n", refusal, sukhlent_refusal_text(refusal));
    return 0;
}
