/* A short session: a list is reduced, its graph sent through codes, the two states compared, and
 * the second one changed by gates and a measurement, which leaves its qubit used. Records are
 * printed as Graphviz DOT text. rust/sukhlent/examples/session.rs is the same session in Rust. */
#include <stdio.h>
#include <stdlib.h>

#include "sukhlent.h"

enum { N = 4, PLACES = 96 };

struct list {
    uint8_t signs[N];
    uint64_t z[N];
    uint64_t x[N];
};

struct record {
    uint64_t neighbours[N];
    uint8_t codes[N];
    uint64_t used;
};

/* Ends the program where a call refuses. */
static void accept(uint8_t refusal)
{
    if (refusal != 0) {
        printf("// refused %d\n", refusal);
        exit(1);
    }
}

/* Reads generators such as "-XZXZ": a sign, then a letter per qubit, qubit 0 first. */
static struct list list_of(const char *const texts[N])
{
    struct list list;
    for (int j = 0; j < N; j++) {
        list.signs[j] = texts[j][0] == '-';
        list.z[j] = 0;
        list.x[j] = 0;
        for (int q = 0; q < N; q++) {
            char letter = texts[j][1 + q];
            list.z[j] |= (uint64_t)(letter == 'Z' || letter == 'Y') << q;
            list.x[j] |= (uint64_t)(letter == 'X' || letter == 'Y') << q;
        }
    }
    return list;
}

/* Prints the generators of a list on one line. */
static void print_list(const char *title, const struct list *list)
{
    printf("// %s:", title);
    for (int j = 0; j < N; j++) {
        printf(" %c", list->signs[j] ? '-' : '+');
        for (int q = 0; q < N; q++)
            putchar("IXZY"[2 * (list->z[j] >> q & 1) + (list->x[j] >> q & 1)]);
    }
    putchar('\n');
}

/* Prints numbers on one line. */
static void print_numbers(const char *title, const uint8_t *numbers, uint64_t count)
{
    printf("// %s:", title);
    for (uint64_t k = 0; k < count; k++)
        printf(" %d", numbers[k]);
    putchar('\n');
}

/* Prints a record as a graph whose vertices are labelled with their codes, used ones dashed. */
static void print_dot(const char *name, const struct record *record)
{
    printf("graph %s {\n", name);
    for (int q = 0; q < N; q++)
        printf("    %d [label=\"%d: code %d\"%s];\n", q, q, record->codes[q],
               record->used >> q & 1 ? ", style=dashed" : "");
    for (int a = 0; a < N; a++)
        for (int b = a + 1; b < N; b++)
            if (record->neighbours[a] >> b & 1)
                printf("    %d -- %d;\n", a, b);
    printf("}\n");
}

int main(void)
{
    static const char *const texts[N] = {"+XXXX", "+ZZII", "+IZZI", "+IIZZ"};
    struct list ghz = list_of(texts), other;
    struct record star, complete = {{0}, {0}, 0};
    uint8_t given[N] = {12, 4, 4, 4}, signs[N], choice[N], vertices[PLACES];
    uint8_t outcome, determined;
    uint64_t count;

    print_list("list", &ghz);
    accept(sukhlent_reduce(N, ghz.signs, N, ghz.z, N, ghz.x, N,
                           star.neighbours, N, star.codes, N, &star.used));
    print_dot("reduced", &star);

    accept(sukhlent_image(N, star.neighbours, N, given, N,
                          complete.neighbours, N, signs, N, vertices, PLACES, &count));
    print_numbers("complemented at", vertices, count);
    print_numbers("signs", signs, N);
    print_dot("image", &complete);

    accept(sukhlent_expand(N, complete.neighbours, N, complete.codes, N, complete.used,
                           other.signs, N, other.z, N, other.x, N));
    print_list("its list", &other);
    accept(sukhlent_compare(N, ghz.signs, N, ghz.z, N, ghz.x, N,
                            N, other.signs, N, other.z, N, other.x, N,
                            choice, N, vertices, PLACES, &count));
    print_numbers("the least choice of codes", choice, N);
    print_numbers("complemented at", vertices, count);

    accept(sukhlent_gate(N, complete.neighbours, N, complete.codes, N, complete.used, 1, 8));
    accept(sukhlent_cz(N, complete.neighbours, N, complete.codes, N, complete.used, 2, 3));
    print_dot("after_gates", &complete);
    accept(sukhlent_measure(N, complete.neighbours, N, complete.codes, N, &complete.used,
                            3, 0, 1, &outcome, &determined));
    printf("// Z on qubit 0: outcome %d, %s\n", outcome, determined ? "determined" : "chosen");
    print_dot("measured", &complete);
    printf("// a gate on qubit 0: refused %d\n",
           sukhlent_gate(N, complete.neighbours, N, complete.codes, N, complete.used, 0, 8));
    return 0;
}
