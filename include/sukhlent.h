/* The public calls of the graph-state engine, on 1 to 64 qubits. sukhlent_record.h has the same on
 * structs, without pointers and lengths, and sukhlent.hpp is for C++.
 *
 * Words. Bit q of a word belongs to qubit q, bit 0 lowest.
 *
 * Generator list of n generators:
 *   signs[j]       0 for plus, 1 for minus
 *   z[j], x[j]     at each qubit the bits (z, x) are 00 for I, 01 for X, 10 for Z, 11 for Y
 * The generators commute pairwise and are independent modulo 2, signs dropped. Their group: all products of
 * some of them, with their signs; a list or a record stands for it.
 *
 * Record of n vertices:
 *   neighbours[j]  the neighbours of vertex j; the graph is simple
 *   codes[j]       4 * class + 2 * sx + sz, 0 to 23: the local Clifford of vertex j. The class
 *                  gives the letters to which X and Z go: 0 (X,Z), 1 (Y,Z), 2 (Z,X), 3 (X,Y),
 *                  4 (Y,X), 5 (Z,Y); sx or sz is 1 if that image is negative
 *   used           bit q is 1 where qubit q is used: an accepted measure or observe sets it, and no call
 *                  in place but renew, which takes it away, may name the qubit from then on. A used
 *                  vertex has no neighbour, and its code is 0, 2, 4, 6, 8 or 10
 * Its generator j is +X at j and Z at the neighbours of j, each place then sent through its code;
 * the word of used qubits is checked and plays no part in it. With the word 0 no qubit is used.
 *
 * Every buffer passes as a pointer and its length in elements, and has n places where its call
 * does not say otherwise. A buffer that is not const must overlap no other; const buffers may be
 * the same one. The calls on a record in place (gate, cz, measure, observe, measure_row, renew,
 * complement, run) read `neighbours` and `codes` and write the new record there; measure, observe,
 * renew and run read and write *used too, and the others leave the word as it is. A group's calls do
 * so too, and its return writes the record and *used. A store is read, and written by save and forget.
 * All other buffers that are not const are lent for the answer: what they hold before the call does
 * not matter.
 *
 * Every call answers 0 where it accepts, or the first number of this list whose line is true; the
 * list is in checking order. A refused call changes no buffer.
 *    1  a text does not have its form
 *   15  a job or a run has more than 4,096 steps
 *    2  n is 0 or above 64 (above 6 for an orbit), or the two lists' or records' n differ, or a
 *       group's call, or a state that it holds, has another n than 64
 *    4  a buffer's length is not what is required
 *    5  a word has a bit at or above n
 *    6  a sign, outcome or group is above 1, a code above 23, or not a photon's where a qubit is
 *       renewed, a Pauli not 1 to 3, a seed 0, a run's operation above 6, or a field that a step does
 *       not use is not 0
 *    7  a graph is not simple, or a used vertex has a neighbour or a code other than 0, 2, 4, 6, 8
 *       and 10, or a store holds a name twice, or a group's held state has a neighbour outside it
 *   19  a group's call names a qubit of the other group, or the record has an edge between the
 *       groups
 *    8  a qubit number is n or more, or CZ names one qubit twice; in a job or a run also: a pivot
 *       names one qubit twice, or its pair has no edge
 *   16  the call names a used qubit
 *   20  the qubit to renew is not used
 *   17  a name to return to or forget is not held
 *   18  a save finds eight other names held, or a group's save four
 *    9  two generators do not commute
 *   10  the generators are dependent
 *    3  a connected part of either reduced graph of a comparison with that limit has more than 20
 *       vertices
 *   14  a determined outcome contradicts the supplied bit
 *   11  the image is that of no graph: the image loop (docs/ENGINE.md) stops with some C = 1, a code
 *       that sends Z to a letter other than Z
 *   12  it stops with every C = 0, but the image has Y at some vertex's own place
 *   13  no choice of local Cliffords carries one group to the other
 * Under each call stand the numbers that it can answer; docs/ENGINE.md, 'Refusals', says what to do on
 * each.
 */
#ifndef SUKHLENT_H
#define SUKHLENT_H

#include <stdint.h>

/* The version of this header: major * 10000 + minor * 100 + patch, and as a text.
 * sukhlent_version answers that of the library. */
#define SUKHLENT_VERSION 1600
#define SUKHLENT_VERSION_TEXT "0.16.0"

/* The length of a buffer, in elements: 64 bits on every processor, also where size_t has 32. */
typedef uint64_t sukhlent_length;

/* Refusals by name, in checking order. */
#define SUKHLENT_ACCEPTED 0
#define SUKHLENT_FORM 1
#define SUKHLENT_STEPS 15
#define SUKHLENT_COUNT 2
#define SUKHLENT_LENGTH 4
#define SUKHLENT_STRAY 5
#define SUKHLENT_VALUE 6
#define SUKHLENT_GRAPH 7
#define SUKHLENT_OTHER_GROUP 19
#define SUKHLENT_QUBIT 8
#define SUKHLENT_USED 16
#define SUKHLENT_NOT_USED 20
#define SUKHLENT_NOT_HELD 17
#define SUKHLENT_FULL 18
#define SUKHLENT_ANTICOMMUTE 9
#define SUKHLENT_DEPENDENT 10
#define SUKHLENT_LARGE 3
#define SUKHLENT_CONTRADICTED 14
#define SUKHLENT_IMAGE_C 11
#define SUKHLENT_IMAGE_Y 12
#define SUKHLENT_INEQUIVALENT 13

/* Paulis for sukhlent_measure and sukhlent_observe. */
#define SUKHLENT_PAULI_X 1
#define SUKHLENT_PAULI_Y 2
#define SUKHLENT_PAULI_Z 3

/* States of a photon for sukhlent_renew: +X, -X, +Y, -Y, +Z and -Z. */
#define SUKHLENT_PHOTON_PLUS_X 0
#define SUKHLENT_PHOTON_MINUS_X 2
#define SUKHLENT_PHOTON_PLUS_Y 4
#define SUKHLENT_PHOTON_MINUS_Y 6
#define SUKHLENT_PHOTON_PLUS_Z 8
#define SUKHLENT_PHOTON_MINUS_Z 10

/* Operations for sukhlent_run. */
#define SUKHLENT_OP_GATE 0
#define SUKHLENT_OP_CZ 1
#define SUKHLENT_OP_MEASURE 2
#define SUKHLENT_OP_COMPLEMENT 3
#define SUKHLENT_OP_PIVOT 4
#define SUKHLENT_OP_OBSERVE 5
#define SUKHLENT_OP_RENEW 6

/* Answers of sukhlent_expectation. */
#define SUKHLENT_PLUS 0
#define SUKHLENT_MINUS 1
#define SUKHLENT_NEITHER 2

/* Codes of common gates. */
#define SUKHLENT_GATE_I 0
#define SUKHLENT_GATE_X 1
#define SUKHLENT_GATE_Z 2
#define SUKHLENT_GATE_Y 3
#define SUKHLENT_GATE_S 4
#define SUKHLENT_GATE_S_DAG 6
#define SUKHLENT_GATE_H 8
#define SUKHLENT_GATE_SQRT_Y_DAG 9
#define SUKHLENT_GATE_SQRT_Y 10
#define SUKHLENT_GATE_SQRT_X_DAG 12
#define SUKHLENT_GATE_SQRT_X 13

/* The most qubits, and the places of buffers whose length does not depend on n. */
#define SUKHLENT_QUBITS 64
#define SUKHLENT_LIST_PLACES 96
#define SUKHLENT_TEXT_PLACES 61463
#define SUKHLENT_RECORD_PLACES 1627
#define SUKHLENT_ORBIT_PLACES 32768
#define SUKHLENT_HEAD_PLACES 24
#define SUKHLENT_HELD_PLACES 512

/* The most steps of a run. */
#define SUKHLENT_MOST_STEPS 4096

/* Recipes (examples/c/recipes.c).
 *
 * A session starts with every qubit in +Z: no neighbours, every code SUKHLENT_GATE_H, used 0.
 * CNOT is H, CZ, H: SUKHLENT_GATE_H at the target, sukhlent_cz, SUKHLENT_GATE_H at the target.
 * A random outcome: ask sukhlent_observe with one fair bit, which is the outcome where the state
 *   does not determine it.
 * A source that goes on: a measured photon's place is used; sukhlent_renew puts a new photon there,
 *   in one of six states (examples/c/source.c; with its steps in runs, examples/c/source_run.c).
 * Equal states: two reduced records have equal neighbours and codes exactly if their states are
 *   equal. What gate, cz, measure, observe, measure_row and reduce leave is reduced, and
 *   what renew leaves of a reduced one; any other record is reduced by sukhlent_expand and
 *   sukhlent_reduce.
 * Many steps: sukhlent_run does up to 4,096 in one call and checks the record once
 *   (examples/c/run.c).
 * Pointers: none is null, also where a length is 0, and each is aligned for its type.
 * Stores: the three buffers of a store are in the machine's byte order, and may be kept in a file as
 *   they are; every call checks what it is lent.
 * Versions: before 1.0 a minor version may change a signature. A program that loads the library
 *   itself compares sukhlent_version() / 100 with SUKHLENT_VERSION / 100.
 * Threads: no call keeps anything between calls. Two threads may call at once, each with buffers
 *   of its own for what is not const.
 * Stack: no call uses the heap. Of the stack, compare, equivalent, compare_records and
 *   equivalent_records take at most these bytes, and every other call at most 6,000 (measured, not
 *   proved: docs/PROCESSORS.md):
 *   x86-64        17,000
 *   x86-64-v3     17,000
 *   aarch64       17,000
 *   riscv64       17,500
 *   armv7         17,000
 *   wasm32        16,500
 *   cortex-m4     17,000
 *   riscv64-none  17,500
 *   aarch64-none  17,500 */

/* What a refusal number means, in words. */
static inline const char *sukhlent_refusal_text(uint8_t number)
{
    switch (number) {
    case SUKHLENT_ACCEPTED: return "accepted";
    case SUKHLENT_FORM: return "the text does not have its form";
    case SUKHLENT_STEPS: return "a job or a run has more than 4,096 steps";
    case SUKHLENT_COUNT: return "n is 0 or above the call's limit, or the two lists' or records' n differ, or a group's call, or a state that it holds, has another n than 64";
    case SUKHLENT_LENGTH: return "a buffer's length is not what is required";
    case SUKHLENT_STRAY: return "a word has a bit at or above n";
    case SUKHLENT_VALUE: return "a sign, outcome or group is above 1, a code above 23 or no photon's, a Pauli not 1 to 3, a seed 0, a run's operation above 6, or a field that a step does not use is not 0";
    case SUKHLENT_GRAPH: return "a graph is not simple, or a used vertex has a neighbour or a code that no measurement leaves, or a store holds a name twice, or a group's held state has a neighbour outside it";
    case SUKHLENT_OTHER_GROUP: return "a group's call names a qubit of the other group, or the record has an edge between the groups";
    case SUKHLENT_QUBIT: return "a qubit number is n or more, or a qubit is named twice, or a pivot's pair has no edge";
    case SUKHLENT_USED: return "the call names a used qubit";
    case SUKHLENT_NOT_USED: return "the qubit to renew is not used";
    case SUKHLENT_NOT_HELD: return "a name to return to or forget is not held";
    case SUKHLENT_FULL: return "a save finds eight other names held, or a group's save four";
    case SUKHLENT_ANTICOMMUTE: return "two generators do not commute";
    case SUKHLENT_DEPENDENT: return "the generators are dependent";
    case SUKHLENT_LARGE: return "a connected part has more than 20 vertices";
    case SUKHLENT_CONTRADICTED: return "a determined outcome contradicts the supplied bit";
    case SUKHLENT_IMAGE_C: return "the image is that of no graph: the image loop stops with some C = 1";
    case SUKHLENT_IMAGE_Y: return "the image has Y at some vertex's own place";
    case SUKHLENT_INEQUIVALENT: return "no choice of local Cliffords carries one group to the other";
    default: return "no number of the published list";
    }
}

#ifdef __cplusplus
extern "C" {
#endif

/* The version of the library, as SUKHLENT_VERSION has it. */
uint32_t sukhlent_version(void);

/* Checks a generator list. Writes nothing.
 * Refusals: 2, 4, 5, 6, 9, 10. */
uint8_t sukhlent_check(uint64_t n,
                       const uint8_t *signs, sukhlent_length signs_len,
                       const uint64_t *z, sukhlent_length z_len,
                       const uint64_t *x, sukhlent_length x_len);

/* Reduces a generator list: writes the reduced record of its group, with 0 to *used. Lists of one
 * group give one record, and lists of different groups give different ones.
 * Refusals: 2, 4, 5, 6, 9, 10. */
uint8_t sukhlent_reduce(uint64_t n,
                        const uint8_t *signs, sukhlent_length signs_len,
                        const uint64_t *z, sukhlent_length z_len,
                        const uint64_t *x, sukhlent_length x_len,
                        uint64_t *neighbours, sukhlent_length neighbours_len,
                        uint8_t *codes, sukhlent_length codes_len,
                        uint64_t *used);

/* Expands a record: writes its n generators, in order.
 * Refusals: 2, 4, 5, 6, 7. */
uint8_t sukhlent_expand(uint64_t n,
                        const uint64_t *neighbours, sukhlent_length neighbours_len,
                        const uint8_t *codes, sukhlent_length codes_len,
                        uint64_t used,
                        uint8_t *signs, sukhlent_length signs_len,
                        uint64_t *z, sukhlent_length z_len,
                        uint64_t *x, sukhlent_length x_len);

/* Applies a code after the code held at a qubit, and leaves the reduced record of the new group.
 * Refusals: 2, 4, 5, 6 (also where `code` is above 23), 7, 8 (`qubit` is n or more), 16. */
uint8_t sukhlent_gate(uint64_t n,
                      uint64_t *neighbours, sukhlent_length neighbours_len,
                      uint8_t *codes, sukhlent_length codes_len,
                      uint64_t used,
                      uint64_t qubit, uint8_t code);

/* Applies CZ to two qubits, and leaves the reduced record of the new group.
 * Refusals: 2, 4, 5, 6, 7, 8 (`a` or `b` is n or more, or they are the same), 16. */
uint8_t sukhlent_cz(uint64_t n,
                    uint64_t *neighbours, sukhlent_length neighbours_len,
                    uint8_t *codes, sukhlent_length codes_len,
                    uint64_t used,
                    uint64_t a, uint64_t b);

/* Measures a Pauli (1 X, 2 Y, 3 Z) at a qubit, leaves the reduced record of the new group, and sets
 * the qubit's bit of *used. Where the Pauli or its negative is in the group, writes 1 to
 * *determined and its sign to *answer (1 for minus) and keeps the group; an `outcome` that is not
 * this sign is refused. Otherwise writes 0 to *determined and `outcome` to *answer. The measured
 * vertex is left without neighbours and with the code 4 * (pauli - 1) + 2 * outcome.
 * Refusals: 2, 4, 5, 6 (also where `pauli` is not 1 to 3 or `outcome` is above 1), 7, 8 (`qubit`
 * is n or more), 16, 14. */
uint8_t sukhlent_measure(uint64_t n,
                         uint64_t *neighbours, sukhlent_length neighbours_len,
                         uint8_t *codes, sukhlent_length codes_len,
                         uint64_t *used,
                         uint8_t pauli, uint64_t qubit, uint8_t outcome,
                         uint8_t *answer, uint8_t *determined);

/* Measures a Pauli (1 X, 2 Y, 3 Z) at a qubit with a bit by lot, which is a random bit that the caller
 * draws: as sukhlent_measure, but where the Pauli or its negative is in the group the bit plays no
 * part, and *answer is the sign. So no outcome is refused, and where sukhlent_measure accepts the same
 * bit both answer and leave the same.
 * Refusals: 2, 4, 5, 6 (also where `pauli` is not 1 to 3 or `bit` is above 1), 7, 8 (`qubit` is n or
 * more), 16. */
uint8_t sukhlent_observe(uint64_t n,
                         uint64_t *neighbours, sukhlent_length neighbours_len,
                         uint8_t *codes, sukhlent_length codes_len,
                         uint64_t *used,
                         uint8_t pauli, uint64_t qubit, uint8_t bit,
                         uint8_t *answer, uint8_t *determined);

/* Measures a Pauli row of any weight, sign plus, with a bit by lot: at each qubit its bits (z, x) are 00
 * for I, 01 for X, 10 for Z, 11 for Y, as for sukhlent_expectation. Where the row or its negative is
 * in the group *determined is 1, *answer the sign (1 for minus), and the group stays. Otherwise
 * *determined is 0, *answer is `bit`, and the group becomes the elements that commute with the row,
 * joined by the row with that sign. The reduced record is left. No qubit is used up: `used` is only
 * read. The identity row is determined, 0.
 * Refusals: 2, 4, 5 (also where `z` or `x` has a bit at or above n), 6 (also where `bit` is above
 * 1), 7, 16 (the row acts on a used qubit). */
uint8_t sukhlent_measure_row(uint64_t n,
                             uint64_t *neighbours, sukhlent_length neighbours_len,
                             uint8_t *codes, sukhlent_length codes_len,
                             uint64_t used,
                             uint64_t z, uint64_t x, uint8_t bit,
                             uint8_t *answer, uint8_t *determined);

/* Puts a new photon at a used qubit: the code at the qubit becomes `code`, one of 0, 2, 4, 6, 8 and 10
 * for the state +X, -X, +Y, -Y, +Z and -Z, its bit of *used becomes 0, and all else stays. A reduced
 * record stays reduced.
 * Refusals: 2, 4, 5, 6 (also where `code` is none of the six), 7, 8 (`qubit` is n or more), 20. */
uint8_t sukhlent_renew(uint64_t n,
                       uint64_t *neighbours, sukhlent_length neighbours_len,
                       uint8_t *codes, sukhlent_length codes_len,
                       uint64_t *used,
                       uint64_t qubit, uint8_t code);

/* Complements at a vertex: flips every edge between two neighbours of `a`, and rewrites the codes
 * so that the group stays. The record is not reduced.
 * Refusals: 2, 4, 5, 6, 7, 8 (`a` is n or more), 16. */
uint8_t sukhlent_complement(uint64_t n,
                            uint64_t *neighbours, sukhlent_length neighbours_len,
                            uint8_t *codes, sukhlent_length codes_len,
                            uint64_t used,
                            uint64_t a);

/* Runs at most 4,096 steps on a record in place, one after the other, as the program job does: step
 * k has the operation ops[k] (SUKHLENT_OP_GATE to SUKHLENT_OP_RENEW), the qubits a[k] and b[k], and
 * in value[k] a code, for a measurement 2 * (pauli - 1) + outcome, for an observation 2 * (pauli - 1)
 * + bit, or for a renewal the new photon's code; what an operation does not use is 0. A pivot
 * complements at a, b and a, which are the ends of an edge. The record is checked once, the word of
 * used qubits is kept from step to step, and all seven slices have one length.
 * Writes of each step its refusal, or 0, to refusals[k], and of an accepted measurement or observation
 * what sukhlent_measure or sukhlent_observe answers to outcomes[k] and determined[k], where every other
 * step has 0 and 0. A step is refused by 6 (a field that it does not use is not 0, a code is above 23 or
 * no photon's, or the value of a measurement or an observation above 5), 8, 16, 20 or 14, and then
 * changes nothing; the steps after it run. An observation is never refused by 14.
 * Refusals: 15 (`ops` has more than 4,096 places, whatever the other slices have), 2, 4, 5, 6 (also
 * where a number of `ops` is above 6), 7. */
uint8_t sukhlent_run(uint64_t n,
                     uint64_t *neighbours, sukhlent_length neighbours_len,
                     uint8_t *codes, sukhlent_length codes_len,
                     uint64_t *used,
                     const uint8_t *ops, sukhlent_length ops_len,
                     const uint16_t *a, sukhlent_length a_len,
                     const uint16_t *b, sukhlent_length b_len,
                     const uint16_t *value, sukhlent_length value_len,
                     uint8_t *refusals, sukhlent_length refusals_len,
                     uint8_t *outcomes, sukhlent_length outcomes_len,
                     uint8_t *determined, sukhlent_length determined_len);

/* Sends a graph through its codes, by the image rule: writes the image graph, a sign per vertex
 * (1 for minus) and the vertices at which the graph is complemented, in order. `list` has 96
 * places; those from *count on keep their values. It takes no word of used qubits.
 * Refusals: 2, 4, 5, 6, 7, 11, 12. */
uint8_t sukhlent_image(uint64_t n,
                       const uint64_t *neighbours, sukhlent_length neighbours_len,
                       const uint8_t *codes, sukhlent_length codes_len,
                       uint64_t *image, sukhlent_length image_len,
                       uint8_t *signs, sukhlent_length signs_len,
                       uint8_t *list, sukhlent_length list_len,
                       uint64_t *count);

/* Reads the entanglement between two sides of the qubits: writes to *rank the rank modulo 2 of the
 * edges of a record between the side that the word `side` marks and the other. An empty or full
 * side gives 0. A side may mark used qubits.
 * Refusals: 2, 4, 5 (also where `side` has a bit at or above n), 6, 7. */
uint8_t sukhlent_cut(uint64_t n,
                     const uint64_t *neighbours, sukhlent_length neighbours_len,
                     const uint8_t *codes, sukhlent_length codes_len,
                     uint64_t used,
                     uint64_t side, uint64_t *rank);

/* Reads an amplitude of a record's state, for a plot: writes to *re and *im the amplitude at the word
 * y, bit q for qubit q, over that at the smallest word with a nonzero amplitude, and to *p the
 * probability of y. Where the amplitude is 0 all three are 0; otherwise one of *re and *im is 1 or
 * -1, the other is 0, and *p is 2^-r exactly, with r the rank of the x words of the generators.
 * Every zero is positive.
 * Refusals: 2, 4, 5 (also where `y` has a bit at or above n), 6, 7. */
uint8_t sukhlent_amplitude(uint64_t n,
                           const uint64_t *neighbours, sukhlent_length neighbours_len,
                           const uint8_t *codes, sukhlent_length codes_len,
                           uint64_t used,
                           uint64_t y,
                           double *re, double *im, double *p);

/* Reads the value of a Pauli row on a record's state: the row has sign plus, and at each qubit its
 * bits (z, x) are 00 for I, 01 for X, 10 for Z, 11 for Y. Writes to *value 0 where the row is in
 * the group of the record (its expectation value is +1), 1 where its negative is (-1), and 2 where
 * neither is (0). The record need not be reduced, and the row may have letters at used qubits.
 * Refusals: 2, 4, 5 (also where `z` or `x` has a bit at or above n), 6, 7. */
uint8_t sukhlent_expectation(uint64_t n,
                             const uint64_t *neighbours, sukhlent_length neighbours_len,
                             const uint8_t *codes, sukhlent_length codes_len,
                             uint64_t used,
                             uint64_t z, uint64_t x, uint8_t *value);

/* Multiplies rows of a list, which need neither commute nor be independent: the word `chosen`
 * names the rows, bit j for row j, and they are taken in index order. Writes the letters of the
 * product to *product_z and *product_x, and the power of i in front of them, 0 to 3, to *phase
 * (X times Y is iZ: phase 1, letter Z). The empty word gives the identity with phase 0.
 * Refusals: 2, 4, 5 (also where `chosen` has a bit at or above n), 6. */
uint8_t sukhlent_product(uint64_t n,
                         const uint8_t *signs, sukhlent_length signs_len,
                         const uint64_t *z, sukhlent_length z_len,
                         const uint64_t *x, sukhlent_length x_len,
                         uint64_t chosen,
                         uint64_t *product_z, uint64_t *product_x, uint8_t *phase);

/* Compares the groups of two generator lists whose reduced graphs have no connected part of more
 * than 20 vertices: writes the least choice of one code per qubit that carries the first group
 * onto the second (least by the classes of qubits 0, 1 and so on, then by 2 * sx + sz in the same
 * order; qubit q goes to qubit q, none is exchanged with another), and the vertices at which the
 * first reduced graph is complemented, in order, to become the second. `choice` has n places, `list`
 * 96; those from *count on keep their values.
 * Refusals: 2, 4, 5, 6, 9, 10, 3, 13. */
uint8_t sukhlent_compare(uint64_t n1,
                         const uint8_t *signs1, sukhlent_length signs1_len,
                         const uint64_t *z1, sukhlent_length z1_len,
                         const uint64_t *x1, sukhlent_length x1_len,
                         uint64_t n2,
                         const uint8_t *signs2, sukhlent_length signs2_len,
                         const uint64_t *z2, sukhlent_length z2_len,
                         const uint64_t *x2, sukhlent_length x2_len,
                         uint8_t *choice, sukhlent_length choice_len,
                         uint8_t *list, sukhlent_length list_len,
                         uint64_t *count);

/* Compares the groups of two records as `sukhlent_compare` compares the groups of their
 * expansions, with the same answer. It takes no words of used qubits.
 * Refusals: 2, 4, 5, 6, 7, 3, 13. */
uint8_t sukhlent_compare_records(uint64_t n1,
                                 const uint64_t *neighbours1, sukhlent_length neighbours1_len,
                                 const uint8_t *codes1, sukhlent_length codes1_len,
                                 uint64_t n2,
                                 const uint64_t *neighbours2, sukhlent_length neighbours2_len,
                                 const uint8_t *codes2, sukhlent_length codes2_len,
                                 uint8_t *choice, sukhlent_length choice_len,
                                 uint8_t *list, sukhlent_length list_len,
                                 uint64_t *count);

/* Compares the groups of any two generator lists on up to 64 qubits: what `sukhlent_compare` writes,
 * whatever the size of the connected parts of their reduced graphs. Where no part has more than 20
 * vertices both answer the same; this call never answers 3. `choice` has n places, `list` 96; those
 * from *count on keep their values.
 * Refusals: 2, 4, 5, 6, 9, 10, 13. */
uint8_t sukhlent_equivalent(uint64_t n1,
                            const uint8_t *signs1, sukhlent_length signs1_len,
                            const uint64_t *z1, sukhlent_length z1_len,
                            const uint64_t *x1, sukhlent_length x1_len,
                            uint64_t n2,
                            const uint8_t *signs2, sukhlent_length signs2_len,
                            const uint64_t *z2, sukhlent_length z2_len,
                            const uint64_t *x2, sukhlent_length x2_len,
                            uint8_t *choice, sukhlent_length choice_len,
                            uint8_t *list, sukhlent_length list_len,
                            uint64_t *count);

/* Compares the groups of two records as `sukhlent_equivalent` compares the groups of their
 * expansions, with the same answer. It takes no words of used qubits.
 * Refusals: 2, 4, 5, 6, 7, 13. */
uint8_t sukhlent_equivalent_records(uint64_t n1,
                                    const uint64_t *neighbours1, sukhlent_length neighbours1_len,
                                    const uint8_t *codes1, sukhlent_length codes1_len,
                                    uint64_t n2,
                                    const uint64_t *neighbours2, sukhlent_length neighbours2_len,
                                    const uint8_t *codes2, sukhlent_length codes2_len,
                                    uint8_t *choice, sukhlent_length choice_len,
                                    uint8_t *list, sukhlent_length list_len,
                                    uint64_t *count);

/* Writes the text of a job that anyone can repeat: `count` steps on n qubits, at most 4,096, drawn
 * one after the other from `seed`, which is not 0. `text` has 61,463 places; those from *length
 * on, which is the length of the text, keep their values.
 * Refusals: 15, 2, 4, 6 (`seed` is 0). */
uint8_t sukhlent_generate(uint64_t n, uint64_t count, uint64_t seed,
                          uint8_t *text, sukhlent_length text_len,
                          uint64_t *length);

/* Reads the generator list of a text of Pauli strings: n lines, each a plus or an ASCII hyphen for
 * minus, n letters of I, X, Y, Z, the leftmost for qubit 0, and a newline, as in "+XX\n-ZZ\n".
 * `signs`, `z` and `x` have as many places as the text has lines, which are all judged first.
 * Refusals: 1, 2 (the text is empty, or has more than 64 lines), 4, 9, 10. */
uint8_t sukhlent_read_strings(const uint8_t *text, sukhlent_length text_len,
                              uint8_t *signs, sukhlent_length signs_len,
                              uint64_t *z, sukhlent_length z_len,
                              uint64_t *x, sukhlent_length x_len);

/* Writes the text of a generator list that sukhlent_read_strings reads: a list has one text, and a
 * text one list. `text` has n * (n + 2) places.
 * Refusals: 2, 4, 5, 6, 9, 10. */
uint8_t sukhlent_write_strings(uint64_t n,
                               const uint8_t *signs, sukhlent_length signs_len,
                               const uint64_t *z, sukhlent_length z_len,
                               const uint64_t *x, sukhlent_length x_len,
                               uint8_t *text, sukhlent_length text_len);

/* Writes a record as a text: the names `qubit code neighbours used` and a line for each qubit, rising
 * from 0, with its number and code in decimal, its neighbours in 16 hexadecimal digits and 1 where it
 * is used, as the programs print it. `text` has 1,627 places; `*length` is how many of
 * them are the text, and those past it keep their values. No zero is put after the text.
 * Refusals: 2, 4, 5, 6, 7. */
uint8_t sukhlent_write_record(uint64_t n,
                              const uint64_t *neighbours, sukhlent_length neighbours_len,
                              const uint8_t *codes, sukhlent_length codes_len, uint64_t used,
                              uint8_t *text, sukhlent_length text_len, uint64_t *length);

/* Reads the record of a text as sukhlent_write_record writes it, byte for byte: a record has one text,
 * and a text one record. `neighbours` and `codes` have 64 places; those from `*n` on keep their values.
 * Refusals: 1 (also for the empty text), 2 (the names alone, or more than 64 qubits), 4, 5, 6 (a code
 * from 24 to 99), 7. */
uint8_t sukhlent_read_record(const uint8_t *text, sukhlent_length text_len, uint64_t *n,
                             uint64_t *neighbours, sukhlent_length neighbours_len,
                             uint8_t *codes, sukhlent_length codes_len, uint64_t *used);

/* Writes the numbers of all graphs that complementations reach from one on up to 6 vertices, the
 * graph itself among them, each once and rising. A graph's number has a bit for each pair of
 * vertices, the pairs in the order 0-1, 0-2, .., 0-(n-1), 1-2, .. and the first lowest. `list` has
 * 32,768 places; those from *count on, which is how many numbers there are, keep their values.
 * Refusals: 2 (n is 0 or above 6), 4, 5, 7. */
uint8_t sukhlent_orbit(uint64_t n,
                       const uint64_t *neighbours, sukhlent_length neighbours_len,
                       uint16_t *list, sukhlent_length list_len,
                       uint64_t *count);

/* A store of up to eight named states, which the caller keeps in three buffers:
 *   heads            24 words: for place i, 0 to 7, at 3 * i its n, or 0 where the place is free, at
 *                    3 * i + 1 its name, at 3 * i + 2 its used word
 *   held_neighbours  512 words, from 64 * i on those of place i, n of them
 *   held_codes       512 codes likewise
 * A store starts empty, with all heads 0; what free places hold does not matter. A name is eight
 * bytes, copied into a uint64_t by memcpy; every value is a name. Each call checks all that is held:
 * a held n above 64 is 2, a wrong length of one of the three buffers 4, and 5, 6 and 7 are as for
 * any record; a name held twice is 7. */

/* Saves a record under a name: it replaces what is held under that name, else takes the smallest
 * free place. Other names keep their records.
 * Refusals: 2, 4, 5, 6, 7, 18. */
uint8_t sukhlent_save(uint64_t n,
                      const uint64_t *neighbours, sukhlent_length neighbours_len,
                      const uint8_t *codes, sukhlent_length codes_len,
                      uint64_t used,
                      uint64_t name,
                      uint64_t *heads, sukhlent_length heads_len,
                      uint64_t *held_neighbours, sukhlent_length held_neighbours_len,
                      uint8_t *held_codes, sukhlent_length held_codes_len);

/* Brings back the record held under a name: writes its n, its neighbour words, its codes and its
 * used word. `neighbours` and `codes` have 64 places, whatever *n; those from *n on keep their
 * values. The record stays held.
 * Refusals: 2, 4, 5, 6, 7, 17. */
uint8_t sukhlent_return(uint64_t name,
                        const uint64_t *heads, sukhlent_length heads_len,
                        const uint64_t *held_neighbours, sukhlent_length held_neighbours_len,
                        const uint8_t *held_codes, sukhlent_length held_codes_len,
                        uint64_t *n,
                        uint64_t *neighbours, sukhlent_length neighbours_len,
                        uint8_t *codes, sukhlent_length codes_len,
                        uint64_t *used);

/* Makes the place of a name free. Other names keep their records.
 * Refusals: 2, 4, 5, 6, 7, 17. */
uint8_t sukhlent_forget(uint64_t name,
                        uint64_t *heads, sukhlent_length heads_len,
                        const uint64_t *held_neighbours, sukhlent_length held_neighbours_len,
                        const uint8_t *held_codes, sukhlent_length held_codes_len);

/* Two groups, of people (no stabilizer groups), that share one record of 64 qubits, which the caller
 * keeps: the record, a word that is fixed at the start, whose bit q is the group of qubit q, 0 or 1,
 * and the three buffers of a store, of which group g has the places 4 * g to 4 * g + 3. All starts in
 * +Z: neighbour words 0, codes SUKHLENT_GATE_H, used 0, and the store empty, with all heads 0.
 *
 * A group's call works on its own vertices and leaves all others as they are: neighbour words, codes,
 * used bits and held states of the other group, be they reduced or not. What it answers and leaves at
 * its own vertices does not depend on the other group's calls. On its own qubits it does what the
 * whole-record call of that name does, and gate, cz and measure reduce its own vertices alone. Both
 * groups may hold one name, for two states. Where a whole-record call has left an edge between the
 * groups, every group's call is refused until it is gone, by 19 if by no number before it. A group
 * may have no qubit.
 *
 * Each call gives the numbers of the record first, 2 also where n is not 64, 6 also where `group` is
 * above 1; with n = 64 no word has a bit at or above n, so that 5 never comes. save, return
 * and forget check the group's own four places besides, as the calls on a store do: a held n other
 * than 64 is 2, and a neighbour outside the group in a held state 7. */

/* A group's gate, as sukhlent_gate.
 * Refusals: 2, 4, 6 (also where `code` is above 23), 7, 19, 8 (`qubit` is 64 or more), 16. */
uint8_t sukhlent_group_gate(uint64_t n, uint64_t word, uint8_t group,
                            uint64_t *neighbours, sukhlent_length neighbours_len,
                            uint8_t *codes, sukhlent_length codes_len,
                            uint64_t used,
                            uint64_t qubit, uint8_t code);

/* A group's CZ, as sukhlent_cz.
 * Refusals: 2, 4, 6, 7, 19, 8 (`a` or `b` is 64 or more, or they are the same), 16. */
uint8_t sukhlent_group_cz(uint64_t n, uint64_t word, uint8_t group,
                          uint64_t *neighbours, sukhlent_length neighbours_len,
                          uint8_t *codes, sukhlent_length codes_len,
                          uint64_t used,
                          uint64_t a, uint64_t b);

/* A group's measurement, as sukhlent_measure.
 * Refusals: 2, 4, 6 (also where `pauli` is not 1 to 3 or `outcome` is above 1), 7, 19, 8 (`qubit`
 * is 64 or more), 16, 14. */
uint8_t sukhlent_group_measure(uint64_t n, uint64_t word, uint8_t group,
                               uint64_t *neighbours, sukhlent_length neighbours_len,
                               uint8_t *codes, sukhlent_length codes_len,
                               uint64_t *used,
                               uint8_t pauli, uint64_t qubit, uint8_t outcome,
                               uint8_t *answer, uint8_t *determined);

/* A group's measurement with a bit by lot, as sukhlent_observe.
 * Refusals: 2, 4, 6 (also where `pauli` is not 1 to 3 or `bit` is above 1), 7, 19, 8 (`qubit` is 64
 * or more), 16. */
uint8_t sukhlent_group_observe(uint64_t n, uint64_t word, uint8_t group,
                               uint64_t *neighbours, sukhlent_length neighbours_len,
                               uint8_t *codes, sukhlent_length codes_len,
                               uint64_t *used,
                               uint8_t pauli, uint64_t qubit, uint8_t bit,
                               uint8_t *answer, uint8_t *determined);

/* A group's new photon at a used qubit, as sukhlent_renew.
 * Refusals: 2, 4, 6 (also where `code` is none of the six), 7, 19, 8 (`qubit` is 64 or more), 20. */
uint8_t sukhlent_group_renew(uint64_t n, uint64_t word, uint8_t group,
                             uint64_t *neighbours, sukhlent_length neighbours_len,
                             uint8_t *codes, sukhlent_length codes_len,
                             uint64_t *used,
                             uint64_t qubit, uint8_t code);

/* A group's complementation, as sukhlent_complement. Nothing is reduced.
 * Refusals: 2, 4, 6, 7, 19, 8 (`a` is 64 or more), 16. */
uint8_t sukhlent_group_complement(uint64_t n, uint64_t word, uint8_t group,
                                  uint64_t *neighbours, sukhlent_length neighbours_len,
                                  uint8_t *codes, sukhlent_length codes_len,
                                  uint64_t used,
                                  uint64_t a);

/* Saves the group's vertices under a name, among its four places: at the name's place, else at the
 * smallest free one. The held state has the other group's vertices in +Z, without neighbours and not
 * used.
 * Refusals: 2, 4, 6, 7, 19, 18 (four other names are held). */
uint8_t sukhlent_group_save(uint64_t n, uint64_t word, uint8_t group,
                            const uint64_t *neighbours, sukhlent_length neighbours_len,
                            const uint8_t *codes, sukhlent_length codes_len,
                            uint64_t used,
                            uint64_t name,
                            uint64_t *heads, sukhlent_length heads_len,
                            uint64_t *held_neighbours, sukhlent_length held_neighbours_len,
                            uint8_t *held_codes, sukhlent_length held_codes_len);

/* Brings back the group's vertices from the state held under a name, their used bits included. The
 * state stays held.
 * Refusals: 2, 4, 6, 7, 19, 17. */
uint8_t sukhlent_group_return(uint64_t n, uint64_t word, uint8_t group,
                              uint64_t *neighbours, sukhlent_length neighbours_len,
                              uint8_t *codes, sukhlent_length codes_len,
                              uint64_t *used,
                              uint64_t name,
                              const uint64_t *heads, sukhlent_length heads_len,
                              const uint64_t *held_neighbours, sukhlent_length held_neighbours_len,
                              const uint8_t *held_codes, sukhlent_length held_codes_len);

/* Makes the place of a name among the group's four free.
 * Refusals: 2, 4, 6, 7, 19, 17. */
uint8_t sukhlent_group_forget(uint64_t n, uint64_t word, uint8_t group,
                              const uint64_t *neighbours, sukhlent_length neighbours_len,
                              const uint8_t *codes, sukhlent_length codes_len,
                              uint64_t used,
                              uint64_t name,
                              uint64_t *heads, sukhlent_length heads_len,
                              const uint64_t *held_neighbours, sukhlent_length held_neighbours_len,
                              const uint8_t *held_codes, sukhlent_length held_codes_len);

#ifdef __cplusplus
}
#endif

#endif
