/* Records, generator lists, stores and groups as structs, over the calls of sukhlent.h: a caller names
 * the struct once, where the plain call takes n, pointers and lengths.
 *
 *   sukhlent_record bell = sukhlent_record_zeros(2);
 *   uint8_t refusal = sukhlent_record_gate(&bell, 0, SUKHLENT_GATE_H);
 *
 * Each function answers what its call answers, 0 or the first number of the published list, and a
 * refused one leaves every struct as it was. A struct whose n is 0 or above 64 is refused by 2.
 * Places from n on are of no meaning, and kept. The structs are plain values: they are copied by =,
 * and the plain calls may be used on their fields. examples/c/record.c shows the functions.
 */
#ifndef SUKHLENT_RECORD_H
#define SUKHLENT_RECORD_H

#include "sukhlent.h"

/* A record of n vertices. */
typedef struct sukhlent_record {
    uint64_t n;
    uint64_t used;
    uint64_t neighbours[SUKHLENT_QUBITS];
    uint8_t codes[SUKHLENT_QUBITS];
} sukhlent_record;

/* A list of n generators. */
typedef struct sukhlent_list {
    uint64_t n;
    uint64_t z[SUKHLENT_QUBITS];
    uint64_t x[SUKHLENT_QUBITS];
    uint8_t signs[SUKHLENT_QUBITS];
} sukhlent_list;

/* A store of up to eight named states. */
typedef struct sukhlent_store {
    uint64_t heads[SUKHLENT_HEAD_PLACES];
    uint64_t neighbours[SUKHLENT_HELD_PLACES];
    uint8_t codes[SUKHLENT_HELD_PLACES];
} sukhlent_store;

/* What a measurement answers. */
typedef struct sukhlent_measured {
    uint8_t outcome;
    uint8_t determined;
} sukhlent_measured;

/* Codes that carry one state onto another: one for each qubit, and `count` complementations. */
typedef struct sukhlent_carried {
    uint64_t n;
    uint64_t count;
    uint8_t choice[SUKHLENT_QUBITS];
    uint8_t list[SUKHLENT_LIST_PLACES];
} sukhlent_carried;

/* The image of a graph: its words, a sign for each vertex, and `count` complementations. */
typedef struct sukhlent_imaged {
    uint64_t n;
    uint64_t count;
    uint64_t neighbours[SUKHLENT_QUBITS];
    uint8_t signs[SUKHLENT_QUBITS];
    uint8_t list[SUKHLENT_LIST_PLACES];
} sukhlent_imaged;

/* The places of a struct's buffers that a call is lent: n, and never more than there are. */
static inline sukhlent_length sukhlent_places(uint64_t n)
{
    return n <= SUKHLENT_QUBITS ? n : SUKHLENT_QUBITS;
}

/* The answer of a call; where it accepts, the struct that it wrote has this n. */
static inline uint8_t sukhlent_sized(uint8_t refusal, uint64_t *n, uint64_t size)
{
    if (refusal == SUKHLENT_ACCEPTED)
        *n = size;
    return refusal;
}

/* ---- Records to start from */

/* No edge, and every vertex with this code. */
static inline sukhlent_record sukhlent_record_alike(uint64_t n, uint8_t code)
{
    sukhlent_record made = {0, 0, {0}, {0}};
    made.n = n;
    for (uint64_t q = 0; q < sukhlent_places(n); q++)
        made.codes[q] = code;
    return made;
}

/* Every qubit in +Z. */
static inline sukhlent_record sukhlent_record_zeros(uint64_t n)
{
    return sukhlent_record_alike(n, SUKHLENT_GATE_H);
}

/* The graph state without edges: every qubit in +X. sukhlent_record_cz on two of
 * them joins them by an edge, and a second time takes it away. */
static inline sukhlent_record sukhlent_record_plus(uint64_t n)
{
    return sukhlent_record_alike(n, SUKHLENT_GATE_I);
}

/* The reduced record of a list's group. */
static inline uint8_t sukhlent_record_reduce(sukhlent_record *made, const sukhlent_list *list)
{
    const sukhlent_length n = sukhlent_places(list->n);
    const uint8_t refusal = sukhlent_reduce(list->n, list->signs, n, list->z, n, list->x, n,
                                            made->neighbours, n, made->codes, n, &made->used);
    return sukhlent_sized(refusal, &made->n, list->n);
}

/* 1 where two records are the same, vertex by vertex: two reduced ones are so exactly if their
 * states are equal and the same qubits are used. */
static inline int sukhlent_record_same(const sukhlent_record *one, const sukhlent_record *other)
{
    if (one->n != other->n || one->used != other->used)
        return 0;
    for (uint64_t q = 0; q < sukhlent_places(one->n); q++)
        if (one->neighbours[q] != other->neighbours[q] || one->codes[q] != other->codes[q])
            return 0;
    return 1;
}

/* ---- Steps in place */

static inline uint8_t sukhlent_record_gate(sukhlent_record *record, uint64_t qubit, uint8_t code)
{
    const sukhlent_length n = sukhlent_places(record->n);
    return sukhlent_gate(record->n, record->neighbours, n, record->codes, n, record->used, qubit, code);
}

static inline uint8_t sukhlent_record_cz(sukhlent_record *record, uint64_t a, uint64_t b)
{
    const sukhlent_length n = sukhlent_places(record->n);
    return sukhlent_cz(record->n, record->neighbours, n, record->codes, n, record->used, a, b);
}

/* CNOT is H at the target, CZ, H at the target: all of it, or a refusal and nothing. */
static inline uint8_t sukhlent_record_cnot(sukhlent_record *record, uint64_t control, uint64_t target)
{
    sukhlent_record next = *record;
    uint8_t refusal = sukhlent_record_gate(&next, target, SUKHLENT_GATE_H);
    if (refusal == SUKHLENT_ACCEPTED)
        refusal = sukhlent_record_cz(&next, control, target);
    if (refusal == SUKHLENT_ACCEPTED)
        refusal = sukhlent_record_gate(&next, target, SUKHLENT_GATE_H);
    if (refusal == SUKHLENT_ACCEPTED)
        *record = next;
    return refusal;
}

/* Measures a Pauli at a qubit, with this outcome where the state does not determine it. */
static inline uint8_t sukhlent_record_measure(sukhlent_record *record, uint8_t pauli, uint64_t qubit,
                                              uint8_t outcome, sukhlent_measured *measured)
{
    const sukhlent_length n = sukhlent_places(record->n);
    return sukhlent_measure(record->n, record->neighbours, n, record->codes, n, &record->used, pauli,
                            qubit, outcome, &measured->outcome, &measured->determined);
}

/* Measures with a bit by lot, which plays no part where the state determines the outcome. */
static inline uint8_t sukhlent_record_observe(sukhlent_record *record, uint8_t pauli, uint64_t qubit,
                                              uint8_t bit, sukhlent_measured *measured)
{
    const sukhlent_length n = sukhlent_places(record->n);
    return sukhlent_observe(record->n, record->neighbours, n, record->codes, n, &record->used, pauli,
                            qubit, bit, &measured->outcome, &measured->determined);
}

/* Measures a Pauli row of any weight, sign plus, with a bit by lot; no qubit is used up. */
static inline uint8_t sukhlent_record_measure_row(sukhlent_record *record, uint64_t z, uint64_t x,
                                                  uint8_t bit, sukhlent_measured *measured)
{
    const sukhlent_length n = sukhlent_places(record->n);
    return sukhlent_measure_row(record->n, record->neighbours, n, record->codes, n, record->used, z, x,
                                bit, &measured->outcome, &measured->determined);
}

/* Puts a new photon at a used qubit, in the state of a code: 0, 2, 4, 6, 8, 10 are +X, -X, +Y, -Y,
 * +Z, -Z. */
static inline uint8_t sukhlent_record_renew(sukhlent_record *record, uint64_t qubit, uint8_t code)
{
    const sukhlent_length n = sukhlent_places(record->n);
    return sukhlent_renew(record->n, record->neighbours, n, record->codes, n, &record->used, qubit,
                          code);
}

/* Writes the text of a record: `text` has SUKHLENT_RECORD_PLACES bytes, of which the first `*length` are
 * the text; no zero is put after them. */
static inline uint8_t sukhlent_record_write(const sukhlent_record *record, char *text, uint64_t *length)
{
    const sukhlent_length n = sukhlent_places(record->n);
    return sukhlent_write_record(record->n, record->neighbours, n, record->codes, n, record->used,
                                 (uint8_t *)text, SUKHLENT_RECORD_PLACES, length);
}

/* Reads the text of a record, of this many bytes. */
static inline uint8_t sukhlent_record_read(sukhlent_record *record, const char *text,
                                           sukhlent_length bytes)
{
    return sukhlent_read_record((const uint8_t *)text, bytes, &record->n, record->neighbours,
                                SUKHLENT_QUBITS, record->codes, SUKHLENT_QUBITS, &record->used);
}

/* Complements at a vertex; the group stays, and the record is not reduced. */
static inline uint8_t sukhlent_record_complement(sukhlent_record *record, uint64_t a)
{
    const sukhlent_length n = sukhlent_places(record->n);
    return sukhlent_complement(record->n, record->neighbours, n, record->codes, n, record->used, a);
}

/* Runs `count` steps, of which each of the seven buffers has one place. */
static inline uint8_t sukhlent_record_run(sukhlent_record *record, sukhlent_length count,
                                          const uint8_t *ops, const uint16_t *a, const uint16_t *b,
                                          const uint16_t *value, uint8_t *refusals,
                                          uint8_t *outcomes, uint8_t *determined)
{
    const sukhlent_length n = sukhlent_places(record->n);
    return sukhlent_run(record->n, record->neighbours, n, record->codes, n, &record->used, ops, count,
                        a, count, b, count, value, count, refusals, count, outcomes, count,
                        determined, count);
}

/* ---- Readings */

/* The n generators of a record, in order. */
static inline uint8_t sukhlent_record_expand(const sukhlent_record *record, sukhlent_list *list)
{
    const sukhlent_length n = sukhlent_places(record->n);
    const uint8_t refusal = sukhlent_expand(record->n, record->neighbours, n, record->codes, n,
                                            record->used, list->signs, n, list->z, n, list->x, n);
    return sukhlent_sized(refusal, &list->n, record->n);
}

static inline uint8_t sukhlent_record_image(const sukhlent_record *record, sukhlent_imaged *image)
{
    const sukhlent_length n = sukhlent_places(record->n);
    const uint8_t refusal = sukhlent_image(record->n, record->neighbours, n, record->codes, n,
                                           image->neighbours, n, image->signs, n, image->list,
                                           SUKHLENT_LIST_PLACES, &image->count);
    return sukhlent_sized(refusal, &image->n, record->n);
}

static inline uint8_t sukhlent_record_cut(const sukhlent_record *record, uint64_t side, uint64_t *rank)
{
    const sukhlent_length n = sukhlent_places(record->n);
    return sukhlent_cut(record->n, record->neighbours, n, record->codes, n, record->used, side, rank);
}

static inline uint8_t sukhlent_record_amplitude(const sukhlent_record *record, uint64_t y, double *re,
                                                double *im, double *p)
{
    const sukhlent_length n = sukhlent_places(record->n);
    return sukhlent_amplitude(record->n, record->neighbours, n, record->codes, n, record->used, y, re,
                              im, p);
}

static inline uint8_t sukhlent_record_expectation(const sukhlent_record *record, uint64_t z, uint64_t x,
                                                  uint8_t *value)
{
    const sukhlent_length n = sukhlent_places(record->n);
    return sukhlent_expectation(record->n, record->neighbours, n, record->codes, n, record->used, z, x,
                                value);
}

/* The numbers of all graphs that complementations reach: `list` has SUKHLENT_ORBIT_PLACES places. */
static inline uint8_t sukhlent_record_orbit(const sukhlent_record *record, uint16_t *list,
                                            uint64_t *count)
{
    return sukhlent_orbit(record->n, record->neighbours, sukhlent_places(record->n), list,
                          SUKHLENT_ORBIT_PLACES, count);
}

/* ---- Two records */

/* The least choice of codes that carries one record's group onto the other's; connected parts have at
 * most 20 vertices. */
static inline uint8_t sukhlent_record_compare(const sukhlent_record *one, const sukhlent_record *other,
                                              sukhlent_carried *carried)
{
    const sukhlent_length n = sukhlent_places(one->n), m = sukhlent_places(other->n);
    const uint8_t refusal = sukhlent_compare_records(
        one->n, one->neighbours, n, one->codes, n, other->n, other->neighbours, m, other->codes, m,
        carried->choice, n, carried->list, SUKHLENT_LIST_PLACES, &carried->count);
    return sukhlent_sized(refusal, &carried->n, one->n);
}

/* The same, of parts of any size. */
static inline uint8_t sukhlent_record_equivalent(const sukhlent_record *one,
                                                 const sukhlent_record *other,
                                                 sukhlent_carried *carried)
{
    const sukhlent_length n = sukhlent_places(one->n), m = sukhlent_places(other->n);
    const uint8_t refusal = sukhlent_equivalent_records(
        one->n, one->neighbours, n, one->codes, n, other->n, other->neighbours, m, other->codes, m,
        carried->choice, n, carried->list, SUKHLENT_LIST_PLACES, &carried->count);
    return sukhlent_sized(refusal, &carried->n, one->n);
}

/* ---- Lists */

static inline uint8_t sukhlent_list_check(const sukhlent_list *list)
{
    const sukhlent_length n = sukhlent_places(list->n);
    return sukhlent_check(list->n, list->signs, n, list->z, n, list->x, n);
}

static inline uint8_t sukhlent_list_product(const sukhlent_list *list, uint64_t chosen, uint64_t *z,
                                            uint64_t *x, uint8_t *phase)
{
    const sukhlent_length n = sukhlent_places(list->n);
    return sukhlent_product(list->n, list->signs, n, list->z, n, list->x, n, chosen, z, x, phase);
}

static inline uint8_t sukhlent_list_compare(const sukhlent_list *one, const sukhlent_list *other,
                                            sukhlent_carried *carried)
{
    const sukhlent_length n = sukhlent_places(one->n), m = sukhlent_places(other->n);
    const uint8_t refusal = sukhlent_compare(
        one->n, one->signs, n, one->z, n, one->x, n, other->n, other->signs, m, other->z, m, other->x, m,
        carried->choice, n, carried->list, SUKHLENT_LIST_PLACES, &carried->count);
    return sukhlent_sized(refusal, &carried->n, one->n);
}

static inline uint8_t sukhlent_list_equivalent(const sukhlent_list *one, const sukhlent_list *other,
                                               sukhlent_carried *carried)
{
    const sukhlent_length n = sukhlent_places(one->n), m = sukhlent_places(other->n);
    const uint8_t refusal = sukhlent_equivalent(
        one->n, one->signs, n, one->z, n, one->x, n, other->n, other->signs, m, other->z, m, other->x, m,
        carried->choice, n, carried->list, SUKHLENT_LIST_PLACES, &carried->count);
    return sukhlent_sized(refusal, &carried->n, one->n);
}

/* Reads the lines of a text, as in "+XX\n-ZZ\n", of this many bytes. */
static inline uint8_t sukhlent_list_read(sukhlent_list *made, const char *text, sukhlent_length bytes)
{
    uint64_t lines = 0;
    for (sukhlent_length k = 0; k < bytes; k++)
        lines += text[k] == '\n';
    const sukhlent_length n = sukhlent_places(lines);
    const uint8_t refusal = sukhlent_read_strings((const uint8_t *)text, bytes, made->signs, n, made->z,
                                                  n, made->x, n);
    return sukhlent_sized(refusal, &made->n, lines);
}

/* Writes the lines of a list: `text` has n * (n + 2) bytes, and no zero is put after them. */
static inline uint8_t sukhlent_list_write(const sukhlent_list *list, char *text, sukhlent_length bytes)
{
    const sukhlent_length n = sukhlent_places(list->n);
    return sukhlent_write_strings(list->n, list->signs, n, list->z, n, list->x, n, (uint8_t *)text, bytes);
}

/* ---- Stores: {0} is an empty one */

static inline uint8_t sukhlent_store_save(sukhlent_store *store, uint64_t name,
                                          const sukhlent_record *record)
{
    const sukhlent_length n = sukhlent_places(record->n);
    return sukhlent_save(record->n, record->neighbours, n, record->codes, n, record->used, name,
                         store->heads, SUKHLENT_HEAD_PLACES, store->neighbours, SUKHLENT_HELD_PLACES,
                         store->codes, SUKHLENT_HELD_PLACES);
}

static inline uint8_t sukhlent_store_return(const sukhlent_store *store, uint64_t name,
                                            sukhlent_record *record)
{
    return sukhlent_return(name, store->heads, SUKHLENT_HEAD_PLACES, store->neighbours,
                           SUKHLENT_HELD_PLACES, store->codes, SUKHLENT_HELD_PLACES, &record->n,
                           record->neighbours, SUKHLENT_QUBITS, record->codes, SUKHLENT_QUBITS,
                           &record->used);
}

static inline uint8_t sukhlent_store_forget(sukhlent_store *store, uint64_t name)
{
    return sukhlent_forget(name, store->heads, SUKHLENT_HEAD_PLACES, store->neighbours,
                           SUKHLENT_HELD_PLACES, store->codes, SUKHLENT_HELD_PLACES);
}

/* ---- Two groups on one record of 64 qubits, and a store */

typedef struct sukhlent_groups {
    uint64_t word; /* bit q is the group of qubit q */
    sukhlent_record record;
    sukhlent_store store;
} sukhlent_groups;

/* All in +Z, and nothing held. */
static inline sukhlent_groups sukhlent_groups_start(uint64_t word)
{
    sukhlent_groups made = {word, {0, 0, {0}, {0}}, {{0}, {0}, {0}}};
    made.record = sukhlent_record_zeros(SUKHLENT_QUBITS);
    return made;
}

static inline uint8_t sukhlent_groups_gate(sukhlent_groups *groups, uint8_t group, uint64_t qubit,
                                           uint8_t code)
{
    sukhlent_record *record = &groups->record;
    const sukhlent_length n = sukhlent_places(record->n);
    return sukhlent_group_gate(record->n, groups->word, group, record->neighbours, n, record->codes, n,
                               record->used, qubit, code);
}

static inline uint8_t sukhlent_groups_cz(sukhlent_groups *groups, uint8_t group, uint64_t a, uint64_t b)
{
    sukhlent_record *record = &groups->record;
    const sukhlent_length n = sukhlent_places(record->n);
    return sukhlent_group_cz(record->n, groups->word, group, record->neighbours, n, record->codes, n,
                             record->used, a, b);
}

static inline uint8_t sukhlent_groups_measure(sukhlent_groups *groups, uint8_t group, uint8_t pauli,
                                              uint64_t qubit, uint8_t outcome,
                                              sukhlent_measured *measured)
{
    sukhlent_record *record = &groups->record;
    const sukhlent_length n = sukhlent_places(record->n);
    return sukhlent_group_measure(record->n, groups->word, group, record->neighbours, n, record->codes,
                                  n, &record->used, pauli, qubit, outcome, &measured->outcome,
                                  &measured->determined);
}

/* Measures with a bit by lot, which plays no part where the state determines the outcome. */
static inline uint8_t sukhlent_groups_observe(sukhlent_groups *groups, uint8_t group, uint8_t pauli,
                                              uint64_t qubit, uint8_t bit, sukhlent_measured *measured)
{
    sukhlent_record *record = &groups->record;
    const sukhlent_length n = sukhlent_places(record->n);
    return sukhlent_group_observe(record->n, groups->word, group, record->neighbours, n, record->codes,
                                  n, &record->used, pauli, qubit, bit, &measured->outcome,
                                  &measured->determined);
}

/* Puts a new photon at a used qubit of the group, in the state of its code: 0, 2, 4, 6, 8 or 10. */
static inline uint8_t sukhlent_groups_renew(sukhlent_groups *groups, uint8_t group, uint64_t qubit,
                                            uint8_t code)
{
    sukhlent_record *record = &groups->record;
    const sukhlent_length n = sukhlent_places(record->n);
    return sukhlent_group_renew(record->n, groups->word, group, record->neighbours, n, record->codes, n,
                                &record->used, qubit, code);
}

static inline uint8_t sukhlent_groups_complement(sukhlent_groups *groups, uint8_t group, uint64_t a)
{
    sukhlent_record *record = &groups->record;
    const sukhlent_length n = sukhlent_places(record->n);
    return sukhlent_group_complement(record->n, groups->word, group, record->neighbours, n,
                                     record->codes, n, record->used, a);
}

static inline uint8_t sukhlent_groups_save(sukhlent_groups *groups, uint8_t group, uint64_t name)
{
    const sukhlent_record *record = &groups->record;
    sukhlent_store *store = &groups->store;
    const sukhlent_length n = sukhlent_places(record->n);
    return sukhlent_group_save(record->n, groups->word, group, record->neighbours, n, record->codes, n,
                               record->used, name, store->heads, SUKHLENT_HEAD_PLACES,
                               store->neighbours, SUKHLENT_HELD_PLACES, store->codes,
                               SUKHLENT_HELD_PLACES);
}

static inline uint8_t sukhlent_groups_return(sukhlent_groups *groups, uint8_t group, uint64_t name)
{
    sukhlent_record *record = &groups->record;
    const sukhlent_store *store = &groups->store;
    const sukhlent_length n = sukhlent_places(record->n);
    return sukhlent_group_return(record->n, groups->word, group, record->neighbours, n, record->codes,
                                 n, &record->used, name, store->heads, SUKHLENT_HEAD_PLACES,
                                 store->neighbours, SUKHLENT_HELD_PLACES, store->codes,
                                 SUKHLENT_HELD_PLACES);
}

static inline uint8_t sukhlent_groups_forget(sukhlent_groups *groups, uint8_t group, uint64_t name)
{
    const sukhlent_record *record = &groups->record;
    sukhlent_store *store = &groups->store;
    const sukhlent_length n = sukhlent_places(record->n);
    return sukhlent_group_forget(record->n, groups->word, group, record->neighbours, n, record->codes,
                                 n, record->used, name, store->heads, SUKHLENT_HEAD_PLACES,
                                 store->neighbours, SUKHLENT_HELD_PLACES, store->codes,
                                 SUKHLENT_HELD_PLACES);
}

#endif
