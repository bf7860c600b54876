/* A Bell pair on a microcontroller, with no system, no C library and no heap: every buffer is static. Prints through the
 * debugger (semihosting), and ends with 0 where all is as expected. start.c begins it, cortex-m4.ld lays it out. */
#include "sukhlent.h"

void say(const char *text);

enum { N = 2 };

static uint64_t neighbours[N], used;
static uint8_t codes[N] = {SUKHLENT_GATE_H, SUKHLENT_GATE_H}; /* every qubit in +Z */

static void say_bit(const char *what, uint8_t bit)
{
    say(what);
    say(bit ? "1\n" : "0\n");
}

/* Says what a call was refused for; gives whether it was. */
static int refused(const char *what, uint8_t refusal)
{
    if (refusal == SUKHLENT_ACCEPTED) return 0;
    say(what);
    say(" is refused: ");
    say(sukhlent_refusal_text(refusal));
    say("\n");
    return 1;
}

static uint8_t gate(uint64_t qubit, uint8_t code)
{
    return sukhlent_gate(N, neighbours, N, codes, N, used, qubit, code);
}

static uint8_t measure_z(uint64_t qubit, uint8_t outcome, uint8_t *answer, uint8_t *determined)
{
    return sukhlent_measure(N, neighbours, N, codes, N, &used, SUKHLENT_PAULI_Z, qubit, outcome, answer, determined);
}

int main(void)
{
    uint8_t answer, determined;
    if (refused("H", gate(0, SUKHLENT_GATE_H))) return 1;
    if (refused("H", gate(1, SUKHLENT_GATE_H))) return 1; /* CNOT: H at 1, CZ, H at 1 */
    if (refused("CZ", sukhlent_cz(N, neighbours, N, codes, N, used, 0, 1))) return 1;
    if (refused("H", gate(1, SUKHLENT_GATE_H))) return 1;
    if (refused("Z at 0", measure_z(0, 1, &answer, &determined))) return 1;
    say_bit("Z at 0 gives ", answer);
    say_bit("and was determined: ", determined);
    if (!refused("0 for Z at 1", measure_z(1, 0, &answer, &determined))) return 1;
    if (refused("Z at 1", measure_z(1, 1, &answer, &determined))) return 1;
    say_bit("Z at 1 gives ", answer);
    say_bit("and was determined: ", determined);
    return 0;
}
