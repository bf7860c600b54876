/* Generator lists typed as Pauli strings: each text is read, its list reduced to a graph with
 * codes, that record kept as a text and read back, and its generators printed as a text. The last three texts are refused.
 * rust/sukhlent/examples/strings.rs is the same in Rust. */
#include <stdio.h>
#include <string.h>

#include "sukhlent.h"

enum { N = 3, PLACES = N * (N + 2) };

/* Prints why a call refused, and answers whether it did. */
static int refused(uint8_t number)
{
    if (number != 0)
        printf("refused %d\n\n", number);
    return number != 0;
}

/* Reads a text of at most N lines, reduces its list and prints the record and its generators. */
static void show(const char *text)
{
    uint8_t signs[N], codes[SUKHLENT_QUBITS], written[PLACES], kept[SUKHLENT_RECORD_PLACES];
    uint64_t z[N], x[N], neighbours[SUKHLENT_QUBITS], used, size, count;
    size_t n = 0;

    for (const char *c = text; *c != '\0'; c++)
        n += *c == '\n';
    fputs(text, stdout);
    if (refused(sukhlent_read_strings((const uint8_t *)text, strlen(text), signs, n, z, n, x, n)))
        return;
    if (refused(sukhlent_reduce(n, signs, n, z, n, x, n, neighbours, n, codes, n, &used)))
        return;
    if (refused(sukhlent_write_record(n, neighbours, n, codes, n, used, kept, sizeof kept, &size)))
        return;
    printf("%.*s", (int)size, (const char *)kept);
    if (refused(sukhlent_read_record(kept, size, &count, neighbours, SUKHLENT_QUBITS, codes,
                                     SUKHLENT_QUBITS, &used)))
        return;
    if (refused(sukhlent_expand(n, neighbours, n, codes, n, used, signs, n, z, n, x, n)))
        return;
    if (refused(sukhlent_write_strings(n, signs, n, z, n, x, n, written, n * (n + 2))))
        return;
    printf("%.*s\n", (int)(n * (n + 2)), (const char *)written);
}

int main(void)
{
    show("+XX\n-ZZ\n");
    show("-Y\n");
    show("+YYX\n-ZZI\n+IZZ\n");
    show("+xx\n-zz\n");
    show("+XI\n+ZI\n");
    show("+XX\n-XX\n");
    return 0;
}
