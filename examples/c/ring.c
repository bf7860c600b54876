/* The stabilizers of a ring of five qubits with their signs, read row by row, and their Bell-type sum: on the state each of
 * the 32 is 1. Where each qubit had values of its own for X, Y and Z, the sum would be at most 20.
 * rust/sukhlent/examples/ring.rs is the same in Rust. */
#include <stdio.h>

#include "sukhlent.h"

enum { N = 5, ROWS = 1 << N, UNUSED = 0 };

/* A signed row: its words, and 1 or -1. */
struct element {
    uint64_t z, x;
    int sign;
};

/* Reads all rows; those with a value are the elements of the group, with their signs. */
static int elements(const uint64_t *neighbours, const uint8_t *codes, struct element *found)
{
    int count = 0;

    for (uint64_t x = 0; x < ROWS; x++)
        for (uint64_t z = 0; z < ROWS; z++) {
            uint8_t value;

            if (sukhlent_expectation(N, neighbours, N, codes, N, UNUSED, z, x, &value))
                return -1;
            if (value == SUKHLENT_NEITHER)
                continue;
            if (count == ROWS)
                return -1;
            found[count].z = z;
            found[count].x = x;
            found[count++].sign = value == SUKHLENT_PLUS ? 1 : -1;
        }
    return count;
}

static int odd(uint64_t word)
{
    int ones = 0;

    for (; word; word &= word - 1)
        ones++;
    return ones % 2;
}

/* The sum of the elements where every qubit has a value for each letter; a bit of a word is 1 for -1. */
static int sum_of_values(const struct element *found, uint64_t x_values, uint64_t y_values, uint64_t z_values)
{
    int sum = 0;

    for (int k = 0; k < ROWS; k++) {
        uint64_t x = found[k].x & ~found[k].z, y = found[k].x & found[k].z, z = found[k].z & ~found[k].x;

        sum += odd((x & x_values) ^ (y & y_values) ^ (z & z_values)) ? -found[k].sign : found[k].sign;
    }
    return sum;
}

int main(void)
{
    uint64_t neighbours[N];
    uint8_t codes[N] = {0};
    struct element found[ROWS];

    for (int q = 0; q < N; q++)
        neighbours[q] = 1u << (q + 1) % N | 1u << (q + N - 1) % N;
    if (elements(neighbours, codes, found) != ROWS)
        return 1;

    for (int k = 0; k < ROWS; k++) {
        putchar(found[k].sign == 1 ? '+' : '-');
        for (int q = 0; q < N; q++)
            putchar("IXZY"[2 * (found[k].z >> q & 1) + (found[k].x >> q & 1)]);
        putchar((k + 1) % 8 ? ' ' : '\n');
    }

    int most = 0;
    for (uint64_t values = 0; values < 1u << 3 * N; values++) {
        int sum = sum_of_values(found, values % ROWS, values / ROWS % ROWS, values / ROWS / ROWS);

        if (sum > most)
            most = sum;
    }
    printf("on the ring the sum is %d, with values of their own at most %d\n", ROWS, most);
    return 0;
}
