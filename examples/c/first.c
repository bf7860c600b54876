#include <stdio.h>
#include "sukhlent_record.h"

int main(void)
{
    sukhlent_record bell = sukhlent_record_zeros(2); /* two qubits in +Z */
    sukhlent_measured measured;
    sukhlent_record_gate(&bell, 0, SUKHLENT_GATE_H);
    sukhlent_record_cnot(&bell, 0, 1);
    for (int q = 0; q < 2; q++) /* Z at 0 with outcome 1, then Z at 1 with outcome 0 */
        puts(sukhlent_refusal_text(sukhlent_record_measure(&bell, SUKHLENT_PAULI_Z, q, 1 - q, &measured)));
}
