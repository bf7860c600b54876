/* Times calls at 64 qubits over random states, and prints 'NAME NANOSECONDS' of each: the least of the rounds, each the mean
 * over all states. */
#include <stdio.h>
#include <string.h>
#include <time.h>

#include "sukhlent.h"

enum { N = 64, STATES = 256, ROUNDS = 60 };

struct record {
    uint64_t neighbours[N], used;
    uint8_t codes[N];
};

struct list {
    uint64_t z[N], x[N];
    uint8_t signs[N];
};

static struct record states[STATES], work[STATES], firsts[STATES], seconds[STATES], plain[STATES];
static struct list lists[STATES], first_lists[STATES], second_lists[STATES];
static unsigned refused;

static double now(void)
{
    struct timespec t;
    clock_gettime(CLOCK_MONOTONIC, &t);
    return 1e9 * (double)t.tv_sec + (double)t.tv_nsec;
}

static uint64_t seed = 88172645463325252u;

static uint64_t draw(uint64_t below)
{
    seed ^= seed << 13, seed ^= seed >> 7, seed ^= seed << 17;
    return (seed >> 11) % below;
}

static uint8_t gate(struct record *r, uint64_t qubit, uint8_t code) { return sukhlent_gate(N, r->neighbours, N, r->codes, N, 0, qubit, code); }
static uint8_t cz(struct record *r, uint64_t a, uint64_t b) { return sukhlent_cz(N, r->neighbours, N, r->codes, N, 0, a, b); }
static uint8_t complement(struct record *r, uint64_t a) { return sukhlent_complement(N, r->neighbours, N, r->codes, N, 0, a); }

static void random_state(struct record *r)
{
    memset(r, 0, sizeof *r);
    memset(r->codes, SUKHLENT_GATE_H, N);
    for (int k = 0; k < 6 * N; k++) {
        uint64_t a = draw(N), b = draw(N);
        refused += gate(r, a, (uint8_t)draw(24));
        if (a != b) refused += cz(r, a, b);
    }
}

/* Parts of 20, 20, 20 and 4, and the same state up to local Cliffords. */
static void random_pair(struct record *r, struct record *s)
{
    memset(r, 0, sizeof *r);
    for (int a = 0; a < N; a++)
        for (int b = 0; b < a; b++)
            if (a / 20 == b / 20 && draw(2)) r->neighbours[a] |= 1ull << b, r->neighbours[b] |= 1ull << a;
    *s = *r;
    for (int k = 0; k < 2 * N; k++) refused += complement(s, draw(N));
    for (uint64_t q = 0; q < N; q++) refused += gate(s, q, (uint8_t)draw(24));
    for (uint64_t q = 0; q < N; q++) refused += gate(r, q, (uint8_t)draw(24));
}

static void expand(const struct record *r, struct list *l)
{
    refused += sukhlent_expand(N, r->neighbours, N, r->codes, N, r->used, l->signs, N, l->z, N, l->x, N);
}

/* Multiplies rows of a list into each other. */
static void mix(struct list *l)
{
    for (int k = 0; k < 4 * N; k++) {
        uint64_t a = draw(N), b = draw(N), z, x;
        uint8_t phase;
        if (a == b) continue;
        refused += sukhlent_product(N, l->signs, N, l->z, N, l->x, N, 1ull << a | 1ull << b, &z, &x, &phase);
        l->z[a] = z, l->x[a] = x, l->signs[a] = phase / 2;
    }
}

static void prepare(int k)
{
    random_state(&states[k]);
    expand(&states[k], &lists[k]);
    mix(&lists[k]);
    random_pair(&firsts[k], &seconds[k]);
    expand(&firsts[k], &first_lists[k]);
    expand(&seconds[k], &second_lists[k]);
    plain[k] = states[k];
    memset(plain[k].codes, 0, N);
    for (int c = 0; c < N; c++) refused += complement(&plain[k], draw(N));
}

/* Each call upon state k, with the arguments that the seed draws. */
static uint8_t answer, determined, choice[N], vertices[96], signs[N], codes[N];
static uint64_t neighbours[N], used, count, rank;
static double re, im, p;

static void time_gate(int k) { refused += gate(&work[k], draw(N), (uint8_t)draw(24)); }

static void time_cz(int k)
{
    uint64_t a = draw(N);
    refused += cz(&work[k], a, (a + 1 + draw(N - 1)) % N);
}

/* May be refused, where the state determines the other outcome. */
static void time_measure(int k)
{
    struct record *r = &work[k];
    uint8_t pauli = (uint8_t)(1 + draw(3));
    sukhlent_measure(N, r->neighbours, N, r->codes, N, &r->used, pauli, draw(N), (uint8_t)draw(2), &answer, &determined);
}

static void time_reduce(int k)
{
    struct list *l = &lists[k];
    refused += sukhlent_reduce(N, l->signs, N, l->z, N, l->x, N, neighbours, N, codes, N, &used);
}

static void time_check(int k)
{
    struct list *l = &lists[k];
    refused += sukhlent_check(N, l->signs, N, l->z, N, l->x, N);
}

static void time_compare(int k)
{
    struct list *l = &first_lists[k], *m = &second_lists[k];
    refused += sukhlent_compare(N, l->signs, N, l->z, N, l->x, N, N, m->signs, N, m->z, N, m->x, N, choice, N, vertices, 96, &count);
}

static void time_compare_records(int k)
{
    struct record *r = &firsts[k], *s = &seconds[k];
    refused += sukhlent_compare_records(N, r->neighbours, N, r->codes, N, N, s->neighbours, N, s->codes, N, choice, N, vertices, 96, &count);
}

static void time_amplitude(int k)
{
    struct record *r = &states[k];
    refused += sukhlent_amplitude(N, r->neighbours, N, r->codes, N, 0, seed, &re, &im, &p);
}

static void time_cut(int k)
{
    struct record *r = &states[k];
    refused += sukhlent_cut(N, r->neighbours, N, r->codes, N, 0, 0xffffffff00000000u, &rank);
}

static void time_image(int k)
{
    struct record *r = &plain[k];
    refused += sukhlent_image(N, r->neighbours, N, r->codes, N, neighbours, N, signs, N, vertices, 96, &count);
}

static const struct {
    const char *name;
    void (*call)(int k);
} timed[] = {
    {"gate", time_gate}, {"cz", time_cz}, {"measure", time_measure}, {"reduce", time_reduce}, {"check", time_check},
    {"compare", time_compare}, {"compare_records", time_compare_records}, {"amplitude", time_amplitude}, {"cut", time_cut},
    {"image", time_image},
};

int main(void)
{
    for (int k = 0; k < STATES; k++) prepare(k);
    for (size_t which = 0; which < sizeof timed / sizeof *timed; which++) {
        uint64_t kept = seed;
        double least = 1e300;
        for (int round = 0; round < ROUNDS; round++) {
            seed = kept;
            memcpy(work, states, sizeof states);
            double start = now();
            for (int k = 0; k < STATES; k++) timed[which].call(k);
            double took = (now() - start) / STATES;
            if (took < least) least = took;
        }
        printf("%s %.1f\n", timed[which].name, least);
    }
    return refused != 0;
}
