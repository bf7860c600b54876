/* Records, lists, stores and groups as structs (include/sukhlent_record.h): a Bell pair from a circuit
 * and from strings is one record, a ring is measured, saved and brought back, and two groups hold one
 * name each. */
#include <stdio.h>
#include <string.h>

#include "sukhlent_record.h"

/* Prints what a call answered. */
static void say(const char *what, uint8_t refusal)
{
    printf("%-32s %s\n", what, sukhlent_refusal_text(refusal));
}

static void print_record(const sukhlent_record *record)
{
    for (uint64_t q = 0; q < record->n; q++)
        printf("  vertex %d code %d neighbours %02llx\n", (int)q, record->codes[q],
               (unsigned long long)record->neighbours[q]);
}

static void bell(void)
{
    sukhlent_record made = sukhlent_record_zeros(2), read;
    sukhlent_list list;
    char text[9] = "";
    say("H at 0", sukhlent_record_gate(&made, 0, SUKHLENT_GATE_H));
    say("CNOT from 0 to 0", sukhlent_record_cnot(&made, 0, 0));
    say("CNOT from 0 to 1", sukhlent_record_cnot(&made, 0, 1));
    print_record(&made);
    say("+XX +ZZ", sukhlent_list_read(&list, "+XX\n+ZZ\n", 8));
    say("reduced", sukhlent_record_reduce(&read, &list));
    printf("the same record: %d\n", sukhlent_record_same(&made, &read));
    say("expanded", sukhlent_record_expand(&made, &list));
    say("written", sukhlent_list_write(&list, text, 8));
    printf("%s", text);
}

static void ring(void)
{
    sukhlent_record ring = sukhlent_record_plus(5), back = sukhlent_record_zeros(1);
    sukhlent_store store = {{0}, {0}, {0}};
    sukhlent_measured measured;
    sukhlent_carried carried;
    uint64_t rank = 0;
    for (uint64_t q = 0; q < 5; q++)
        sukhlent_record_cz(&ring, q, (q + 1) % 5);
    say("saved under 7", sukhlent_store_save(&store, 7, &ring));
    say("the cut of 0 and 1", sukhlent_record_cut(&ring, 3, &rank));
    printf("  rank %d\n", (int)rank);
    say("complemented at 2", sukhlent_record_complement(&ring, 2));
    say("brought back", sukhlent_store_return(&store, 7, &back));
    printf("the same record: %d\n", sukhlent_record_same(&ring, &back));
    say("onto the one brought back", sukhlent_record_equivalent(&ring, &back, &carried));
    for (uint64_t q = 0; q < carried.n; q++)
        printf("  code %d at %d\n", carried.choice[q], (int)q);
    say("Y at 0, outcome 1", sukhlent_record_measure(&back, SUKHLENT_PAULI_Y, 0, 1, &measured));
    printf("  outcome %d, determined %d\n", measured.outcome, measured.determined);
    say("a gate at 0", sukhlent_record_gate(&back, 0, SUKHLENT_GATE_S));
    say("forgotten", sukhlent_store_forget(&store, 7));
    say("brought back", sukhlent_store_return(&store, 7, &back));
}

static void groups(void)
{
    sukhlent_groups two = sukhlent_groups_start(0xffffffff00000000);
    sukhlent_measured measured;
    say("group 0: H at 0", sukhlent_groups_gate(&two, 0, 0, SUKHLENT_GATE_H));
    say("group 0: CZ of 0 and 32", sukhlent_groups_cz(&two, 0, 0, 32));
    say("group 0: saved under 7", sukhlent_groups_save(&two, 0, 7));
    say("group 1: back to 7", sukhlent_groups_return(&two, 1, 7));
    say("group 0: Z at 0, outcome 1", sukhlent_groups_measure(&two, 0, SUKHLENT_PAULI_Z, 0, 1, &measured));
    say("group 0: back to 7", sukhlent_groups_return(&two, 0, 7));
    printf("  used %d\n", (int)two.record.used);
    say("group 1: Z at 32 by lot", sukhlent_groups_observe(&two, 1, SUKHLENT_PAULI_Z, 32, 1, &measured));
    printf("  outcome %d, determined %d\n", measured.outcome, measured.determined);
    say("group 0: a photon at 32", sukhlent_groups_renew(&two, 0, 32, SUKHLENT_PHOTON_PLUS_Z));
    say("group 1: a photon at 32", sukhlent_groups_renew(&two, 1, 32, SUKHLENT_PHOTON_PLUS_Z));
}

int main(void)
{
    sukhlent_record none = sukhlent_record_zeros(65);
    bell();
    ring();
    groups();
    say("a gate on 65 qubits", sukhlent_record_gate(&none, 0, SUKHLENT_GATE_H));
    return 0;
}
