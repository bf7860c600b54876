/* Two Bell states: their generators are reduced to a graph with codes and expanded back.
 * The last two lists are refused. */
#include <stdio.h>

#include "sukhlent.h"

enum { N = 2 };

struct list {
    uint8_t signs[N];
    uint64_t z[N];
    uint64_t x[N];
};

/* Reads a generator such as "-XX", qubit 0 leftmost, into row j of a list. */
static void put(struct list *list, int j, const char *text)
{
    list->signs[j] = text[0] == '-';
    list->z[j] = 0;
    list->x[j] = 0;
    for (int q = 0; q < N; q++) {
        char letter = text[1 + q];
        list->z[j] |= (uint64_t)(letter == 'Z' || letter == 'Y') << q;
        list->x[j] |= (uint64_t)(letter == 'X' || letter == 'Y') << q;
    }
}

/* Prints the generators of a list on one line. */
static void print_list(const char *title, const struct list *list)
{
    printf("%s", title);
    for (int j = 0; j < N; j++) {
        printf(" %c", list->signs[j] ? '-' : '+');
        for (int q = 0; q < N; q++)
            putchar("IXZY"[2 * (list->z[j] >> q & 1) + (list->x[j] >> q & 1)]);
    }
    putchar('\n');
}

/* Reduces a list, prints its record and expands the record again. */
static void show(const char *first, const char *second)
{
    struct list list, back;
    uint64_t neighbours[N], used;
    uint8_t codes[N];

    put(&list, 0, first);
    put(&list, 1, second);
    print_list("list      ", &list);
    uint8_t refusal = sukhlent_reduce(N, list.signs, N, list.z, N, list.x, N,
                                      neighbours, N, codes, N, &used);
    if (refusal != 0) {
        printf("refused    %d\n\n", refusal);
        return;
    }
    for (int q = 0; q < N; q++)
        printf("vertex %d   code %d, neighbours %016llx\n", q, codes[q],
               (unsigned long long)neighbours[q]);
    refusal = sukhlent_expand(N, neighbours, N, codes, N, used,
                              back.signs, N, back.z, N, back.x, N);
    if (refusal != 0) {
        printf("refused    %d\n\n", refusal);
        return;
    }
    print_list("expanded  ", &back);
    putchar('\n');
}

int main(void)
{
    show("+XX", "+ZZ");
    show("-XX", "+ZZ");
    show("+XI", "+ZI");
    show("+XX", "-XX");
    return 0;
}
