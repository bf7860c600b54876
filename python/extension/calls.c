/* The calls on a record from Python. A record is one bytearray, its block: n neighbour words, the word of used qubits
 * and n codes, 9 * n + 8 bytes. Each function makes one call of the engine on a block, in place, and answers its refusal,
 * or 0; where a call has an answer of its own, that, or the refusal as a negative number. python/sukhlent/by_ctypes.py
 * does the same without this file, and python/sukhlent/calls.py takes one of the two.
 *
 * The engine is not linked: `open` takes the functions from the shared library at a path. */
#define PY_SSIZE_T_CLEAN
#include <Python.h>

#include <dlfcn.h>
#include <pthread.h>
#include <string.h>

#include "sukhlent.h"

#define EACH_CALL(X) \
    X(gate) X(cz) X(measure) X(observe) X(measure_row) X(renew) X(complement) X(run) X(cut) \
    X(expectation) X(group_gate) X(group_cz) X(group_measure) X(group_complement)

#define POINTER(name) static __typeof__(sukhlent_##name) *call_##name;
EACH_CALL(POINTER)

/* Set by `open`: the codes and Paulis by name, and the functions of Python that judge any other argument. */
static PyObject *codes_by_name, *paulis_by_name, *judge_code, *judge_pauli, *judge_place, *judge_bit;

typedef struct {
    uint64_t n;
    uint64_t *neighbours, *used;
    uint8_t *codes;
} Record;

static int laid_out(char *bytes, Py_ssize_t size, Record *record)
{
    uint64_t n = size < 8 ? 0 : (uint64_t)(size - 8) / 9;
    if (n < 1 || n > SUKHLENT_QUBITS || (Py_ssize_t)(9 * n + 8) != size) {
        PyErr_SetString(PyExc_ValueError, "not the block of a record");
        return 0;
    }
    record->n = n;
    record->neighbours = (uint64_t *)bytes;
    record->used = record->neighbours + n;
    record->codes = (uint8_t *)(record->used + 1);
    return 1;
}

static int record_of(PyObject *block, Record *record)
{
    if (!PyByteArray_Check(block)) {
        PyErr_SetString(PyExc_TypeError, "not the block of a record");
        return 0;
    }
    return laid_out(PyByteArray_AsString(block), PyByteArray_Size(block), record);
}

/* An integer as a word; one that no word holds becomes the largest, which every call refuses likewise. */
static int word_of_integer(PyObject *given, uint64_t *word)
{
    *word = PyLong_AsUnsignedLongLong(given);
    if (*word == UINT64_MAX && PyErr_Occurred()) {
        if (!PyErr_ExceptionMatches(PyExc_OverflowError)) return 0;
        PyErr_Clear();
    }
    return 1;
}

/* A number: an integer as it is, a name by its table, anything else by the judge, which may raise. */
static int number_of(PyObject *given, PyObject *by_name, PyObject *judge, uint64_t *number)
{
    if (PyLong_CheckExact(given)) return word_of_integer(given, number);
    PyObject *known = NULL;
    if (by_name && PyUnicode_CheckExact(given)) {
        known = PyDict_GetItemWithError(by_name, given);
        if (!known && PyErr_Occurred()) return 0;
    }
    if (known) return word_of_integer(known, number);
    PyObject *judged = PyIndex_Check(given) ? PyNumber_Index(given) : NULL; /* numpy's integers and the like */
    if (!judged) {
        PyErr_Clear();
        judged = PyObject_CallFunctionObjArgs(judge, given, NULL);
    }
    if (!judged) return 0;
    int good = word_of_integer(judged, number);
    Py_DECREF(judged);
    return good;
}

static int place_of(PyObject *given, uint64_t *place)
{
    return number_of(given, NULL, judge_place, place);
}

static int octet_of(PyObject *given, PyObject *by_name, PyObject *judge, uint8_t *octet)
{
    uint64_t number;
    if (!number_of(given, by_name, judge, &number)) return 0;
    *octet = number > 255 ? 255 : (uint8_t)number;
    return 1;
}

static int takes(Py_ssize_t given, Py_ssize_t due)
{
    if (given == due) return 1;
    PyErr_Format(PyExc_TypeError, "%zd arguments, where %zd are taken", given, due);
    return 0;
}

static PyObject *refused(uint8_t number) { return PyLong_FromLong(-(long)number); }

static PyObject *measured(uint8_t number, uint8_t answer, uint8_t determined)
{
    return number ? refused(number) : PyLong_FromLong(answer + 2 * determined);
}

static PyObject *gate(PyObject *self, PyObject *const *args, Py_ssize_t count)
{
    Record r;
    uint64_t qubit;
    uint8_t code;
    if (!takes(count, 3) || !record_of(args[0], &r) || !place_of(args[1], &qubit)) return NULL;
    if (!octet_of(args[2], codes_by_name, judge_code, &code)) return NULL;
    return PyLong_FromLong(call_gate(r.n, r.neighbours, r.n, r.codes, r.n, *r.used, qubit, code));
}

static PyObject *cz(PyObject *self, PyObject *const *args, Py_ssize_t count)
{
    Record r;
    uint64_t a, b;
    if (!takes(count, 3) || !record_of(args[0], &r) || !place_of(args[1], &a) || !place_of(args[2], &b)) return NULL;
    return PyLong_FromLong(call_cz(r.n, r.neighbours, r.n, r.codes, r.n, *r.used, a, b));
}

static int free_pair(const Record *r, uint64_t a, uint64_t b)
{
    return a < r->n && b < r->n && a != b && !(*r->used >> a & 1) && !(*r->used >> b & 1);
}

/* H, CZ and H at the target in one run. Where CZ would be refused it is asked alone, for its number. */
static PyObject *cx(PyObject *self, PyObject *const *args, Py_ssize_t count)
{
    Record r;
    uint64_t control, target;
    if (!takes(count, 3) || !record_of(args[0], &r)) return NULL;
    if (!place_of(args[1], &control) || !place_of(args[2], &target)) return NULL;
    if (!free_pair(&r, control, target))
        return PyLong_FromLong(call_cz(r.n, r.neighbours, r.n, r.codes, r.n, *r.used, control, target));
    const uint8_t ops[3] = {SUKHLENT_OP_GATE, SUKHLENT_OP_CZ, SUKHLENT_OP_GATE};
    const uint16_t a[3] = {target, control, target}, b[3] = {0, target, 0};
    const uint16_t value[3] = {SUKHLENT_GATE_H, 0, SUKHLENT_GATE_H};
    uint8_t refusals[3], outcomes[3], determined[3];
    return PyLong_FromLong(call_run(r.n, r.neighbours, r.n, r.codes, r.n, r.used, ops, 3, a, 3, b, 3, value, 3,
                                    refusals, 3, outcomes, 3, determined, 3));
}

/* A Pauli at a qubit and a bit, by sukhlent_measure or sukhlent_observe. */
static PyObject *measured_by(__typeof__(sukhlent_measure) *call, PyObject *const *args, Py_ssize_t count)
{
    Record r;
    uint64_t qubit;
    uint8_t pauli, bit, answer = 0, determined = 0;
    if (!takes(count, 4) || !record_of(args[0], &r)) return NULL;
    if (!octet_of(args[1], paulis_by_name, judge_pauli, &pauli) || !place_of(args[2], &qubit)) return NULL;
    if (!octet_of(args[3], NULL, judge_bit, &bit)) return NULL;
    uint8_t number = call(r.n, r.neighbours, r.n, r.codes, r.n, r.used, pauli, qubit, bit, &answer, &determined);
    return measured(number, answer, determined);
}

static PyObject *measure(PyObject *self, PyObject *const *args, Py_ssize_t count)
{
    return measured_by(call_measure, args, count);
}

static PyObject *observe(PyObject *self, PyObject *const *args, Py_ssize_t count)
{
    return measured_by(call_observe, args, count);
}

static PyObject *measure_row(PyObject *self, PyObject *const *args, Py_ssize_t count)
{
    Record r;
    uint64_t z, x;
    uint8_t bit, answer = 0, determined = 0;
    if (!takes(count, 4) || !record_of(args[0], &r) || !place_of(args[1], &z) || !place_of(args[2], &x)) return NULL;
    if (!octet_of(args[3], NULL, judge_bit, &bit)) return NULL;
    uint8_t number = call_measure_row(r.n, r.neighbours, r.n, r.codes, r.n, *r.used, z, x, bit, &answer, &determined);
    return measured(number, answer, determined);
}

static PyObject *renew(PyObject *self, PyObject *const *args, Py_ssize_t count)
{
    Record r;
    uint64_t qubit;
    uint8_t code;
    if (!takes(count, 3) || !record_of(args[0], &r) || !place_of(args[1], &qubit)) return NULL;
    if (!octet_of(args[2], codes_by_name, judge_code, &code)) return NULL;
    return PyLong_FromLong(call_renew(r.n, r.neighbours, r.n, r.codes, r.n, r.used, qubit, code));
}

static PyObject *complement(PyObject *self, PyObject *const *args, Py_ssize_t count)
{
    Record r;
    uint64_t vertex;
    if (!takes(count, 2) || !record_of(args[0], &r) || !place_of(args[1], &vertex)) return NULL;
    return PyLong_FromLong(call_complement(r.n, r.neighbours, r.n, r.codes, r.n, *r.used, vertex));
}

static PyObject *cut(PyObject *self, PyObject *const *args, Py_ssize_t count)
{
    Record r;
    uint64_t side, rank = 0;
    if (!takes(count, 2) || !record_of(args[0], &r) || !place_of(args[1], &side)) return NULL;
    uint8_t number = call_cut(r.n, r.neighbours, r.n, r.codes, r.n, *r.used, side, &rank);
    return number ? refused(number) : PyLong_FromUnsignedLongLong(rank);
}

static PyObject *expectation(PyObject *self, PyObject *const *args, Py_ssize_t count)
{
    Record r;
    uint64_t z, x;
    uint8_t value = 0;
    if (!takes(count, 3) || !record_of(args[0], &r) || !place_of(args[1], &z) || !place_of(args[2], &x)) return NULL;
    uint8_t number = call_expectation(r.n, r.neighbours, r.n, r.codes, r.n, *r.used, z, x, &value);
    return number ? refused(number) : PyLong_FromLong(value);
}

/* Makes a record the reduced one of its group: by the gate I at a qubit that is not used. Where all are used it is
 * reduced, since no vertex has a neighbour. */
static uint8_t reduce_in_place(const Record *r)
{
    uint64_t all = r->n == 64 ? UINT64_MAX : ((uint64_t)1 << r->n) - 1, unused = all & ~*r->used;
    if (!unused) return 0;
    uint64_t first = (uint64_t)__builtin_ctzll(unused);
    return call_gate(r->n, r->neighbours, r->n, r->codes, r->n, *r->used, first, SUKHLENT_GATE_I);
}

static PyObject *reduce(PyObject *self, PyObject *const *args, Py_ssize_t count)
{
    Record r;
    if (!takes(count, 1) || !record_of(args[0], &r)) return NULL;
    return PyLong_FromLong(reduce_in_place(&r));
}

/* Whether two blocks have equal reduced records and used words. */
static PyObject *same(PyObject *self, PyObject *const *args, Py_ssize_t count)
{
    uint64_t room[2][73];
    Record r[2];
    if (!takes(count, 2) || !record_of(args[0], &r[0]) || !record_of(args[1], &r[1])) return NULL;
    if (r[0].n != r[1].n) Py_RETURN_FALSE;
    size_t size = 9 * r[0].n + 8;
    for (int k = 0; k < 2; k++) {
        memcpy(room[k], r[k].neighbours, size);
        if (!laid_out((char *)room[k], (Py_ssize_t)size, &r[k])) return NULL;
        uint8_t number = reduce_in_place(&r[k]);
        if (number) return refused(number);
    }
    return PyBool_FromLong(memcmp(room[0], room[1], size) == 0);
}

/* ---- many steps */

/* What a run takes and gives: operation, two qubits and a value of each step; refusal, outcome and determined. */
static const char *const RUN_NAMES[7] = {"ops", "a", "b", "value", "refusals", "outcomes", "determined"};

static int fits(const Py_buffer *view, int k)
{
    const char *format = view->format ? view->format : "B";
    if (*format == '=' || *format == '<' || *format == '@') format++;
    const char *due = k >= 1 && k <= 3 ? "H" : "B";
    if (strcmp(format, due) == 0 && (uintptr_t)view->buf % (uintptr_t)view->itemsize) {
        PyErr_Format(PyExc_BufferError, "%s does not begin at an address for numbers of 16 bits", RUN_NAMES[k]);
        return 0;
    }
    if (strcmp(format, due) == 0) return 1;
    PyErr_Format(PyExc_TypeError,
                 "%s holds items of the format '%s', where numbers of %s bits without a sign are taken: '%s' (array('%s'), "
                 "numpy.uint%s)",
                 RUN_NAMES[k], format, *due == 'H' ? "16" : "8", due, due, *due == 'H' ? "16" : "8");
    return 0;
}

static void released(Py_buffer *views, int count)
{
    for (int k = 0; k < count; k++) PyBuffer_Release(&views[k]);
}

static int lent(PyObject *const *given, Py_buffer *views)
{
    for (int k = 0; k < 7; k++) {
        int flags = PyBUF_FORMAT | PyBUF_C_CONTIGUOUS | (k > 3 ? PyBUF_WRITABLE : 0);
        if (PyObject_GetBuffer(given[k], &views[k], flags) != 0) {
            released(views, k);
            return 0;
        }
        if (!fits(&views[k], k)) {
            released(views, k + 1);
            return 0;
        }
    }
    return 1;
}

static size_t items(const Py_buffer *view) { return (size_t)(view->len / view->itemsize); }

/* run(block, ops, a, b, value, refusals, outcomes, determined) on buffers as they are, without the interpreter's lock. */
static PyObject *run(PyObject *self, PyObject *const *args, Py_ssize_t count)
{
    Record r;
    Py_buffer v[7];
    uint8_t number;
    if (!takes(count, 8) || !record_of(args[0], &r) || !lent(args + 1, v)) return NULL;
    Py_BEGIN_ALLOW_THREADS
    number = call_run(r.n, r.neighbours, r.n, r.codes, r.n, r.used, v[0].buf, items(&v[0]), v[1].buf, items(&v[1]),
                      v[2].buf, items(&v[2]), v[3].buf, items(&v[3]), v[4].buf, items(&v[4]), v[5].buf, items(&v[5]),
                      v[6].buf, items(&v[6]));
    Py_END_ALLOW_THREADS
    released(v, 7);
    return PyLong_FromLong(number);
}

/* The runs of the records from `first` to below `last`: each on the same steps, or on its own. */
typedef struct {
    const Record *all;
    const Py_buffer *views;
    size_t first, last, steps;
    int shared;
    uint8_t number;
} Part;

static void *run_part(void *given)
{
    Part *part = given;
    const Py_buffer *v = part->views;
    size_t steps = part->steps;
    for (size_t k = part->first; k < part->last && !part->number; k++) {
        const Record *r = &part->all[k];
        size_t at = k * steps, from = part->shared ? 0 : at;
        part->number = call_run(
            r->n, r->neighbours, r->n, r->codes, r->n, r->used, (const uint8_t *)v[0].buf + from, steps,
            (const uint16_t *)v[1].buf + from, steps, (const uint16_t *)v[2].buf + from, steps,
            (const uint16_t *)v[3].buf + from, steps, (uint8_t *)v[4].buf + at, steps, (uint8_t *)v[5].buf + at, steps,
            (uint8_t *)v[6].buf + at, steps);
    }
    return NULL;
}

enum { MOST_THREADS = 64 };

/* All parts at once, the first in this thread; one for which no thread can be had comes after it. Answers the first
 * refusal. */
static uint8_t run_parts(const Part *whole, size_t records, size_t threads)
{
    Part parts[MOST_THREADS];
    pthread_t workers[MOST_THREADS];
    int started[MOST_THREADS] = {0};
    for (size_t k = 0; k < threads; k++) {
        parts[k] = *whole;
        parts[k].first = records * k / threads;
        parts[k].last = records * (k + 1) / threads;
        if (k > 0) started[k] = pthread_create(&workers[k], NULL, run_part, &parts[k]) == 0;
    }
    run_part(&parts[0]);
    uint8_t number = parts[0].number;
    for (size_t k = 1; k < threads; k++) {
        if (started[k]) pthread_join(workers[k], NULL);
        else run_part(&parts[k]);
        if (!number) number = parts[k].number;
    }
    return number;
}

/* How many steps each of the records has: the buffers hold one run for all of them, or one for each. */
static int steps_of_each(size_t records, Part *whole)
{
    const Py_buffer *v = whole->views;
    size_t answers = items(&v[4]);
    whole->steps = records ? answers / records : 0;
    whole->shared = items(&v[0]) == whole->steps && records != 1;
    int good = whole->steps * records == answers;
    for (int k = 1; k < 4; k++) good &= items(&v[k]) == items(&v[0]);
    for (int k = 5; k < 7; k++) good &= items(&v[k]) == answers;
    good &= whole->shared || items(&v[0]) == answers;
    if (!good) PyErr_SetString(PyExc_ValueError, "the buffers of a run have other lengths than its steps");
    return good;
}

static Record *records_of(PyObject *list, Py_ssize_t records)
{
    Record *all = PyMem_Malloc((records ? (size_t)records : 1) * sizeof *all);
    if (!all) {
        PyErr_NoMemory();
        return NULL;
    }
    for (Py_ssize_t k = 0; k < records; k++) {
        if (!record_of(PyList_GetItem(list, k), &all[k])) {
            PyMem_Free(all);
            return NULL;
        }
    }
    return all;
}

/* run_many(blocks, ops, a, b, value, refusals, outcomes, determined, threads): each record of a list, without the
 * interpreter's lock, in so many threads. Answers 0, or the first refusal; other records have run. */
static PyObject *run_many(PyObject *self, PyObject *const *args, Py_ssize_t count)
{
    Py_buffer v[7];
    uint64_t threads;
    if (!takes(count, 9) || !place_of(args[8], &threads)) return NULL;
    Py_ssize_t records = PyList_Size(args[0]);
    if (records < 0) return NULL;
    Record *all = records_of(args[0], records);
    if (!all) return NULL;
    if (!lent(args + 1, v)) {
        PyMem_Free(all);
        return NULL;
    }
    Part whole = {all, v, 0, (size_t)records, 0, 0, 0};
    uint8_t number = 0;
    int good = steps_of_each((size_t)records, &whole);
    if (threads > (uint64_t)records) threads = (uint64_t)records;
    if (threads > MOST_THREADS) threads = MOST_THREADS;
    if (good && records > 0) {
        Py_BEGIN_ALLOW_THREADS
        number = run_parts(&whole, (size_t)records, threads ? (size_t)threads : 1);
        Py_END_ALLOW_THREADS
    }
    released(v, 7);
    PyMem_Free(all);
    return good ? PyLong_FromLong(number) : NULL;
}

/* ---- two groups on one record: block, word, group, then as above */

static int group_of(PyObject *const *args, Record *r, uint64_t *word, uint8_t *group)
{
    return record_of(args[0], r) && place_of(args[1], word) && octet_of(args[2], NULL, judge_place, group);
}

static PyObject *group_gate(PyObject *self, PyObject *const *args, Py_ssize_t count)
{
    Record r;
    uint64_t word, qubit;
    uint8_t group, code;
    if (!takes(count, 5) || !group_of(args, &r, &word, &group) || !place_of(args[3], &qubit)) return NULL;
    if (!octet_of(args[4], codes_by_name, judge_code, &code)) return NULL;
    return PyLong_FromLong(call_group_gate(r.n, word, group, r.neighbours, r.n, r.codes, r.n, *r.used, qubit, code));
}

static PyObject *group_cz(PyObject *self, PyObject *const *args, Py_ssize_t count)
{
    Record r;
    uint64_t word, a, b;
    uint8_t group;
    if (!takes(count, 5) || !group_of(args, &r, &word, &group)) return NULL;
    if (!place_of(args[3], &a) || !place_of(args[4], &b)) return NULL;
    return PyLong_FromLong(call_group_cz(r.n, word, group, r.neighbours, r.n, r.codes, r.n, *r.used, a, b));
}

static PyObject *group_measure(PyObject *self, PyObject *const *args, Py_ssize_t count)
{
    Record r;
    uint64_t word, qubit;
    uint8_t group, pauli, outcome, answer = 0, determined = 0;
    if (!takes(count, 6) || !group_of(args, &r, &word, &group)) return NULL;
    if (!octet_of(args[3], paulis_by_name, judge_pauli, &pauli) || !place_of(args[4], &qubit)) return NULL;
    if (!octet_of(args[5], NULL, judge_bit, &outcome)) return NULL;
    uint8_t number = call_group_measure(r.n, word, group, r.neighbours, r.n, r.codes, r.n, r.used, pauli, qubit,
                                        outcome, &answer, &determined);
    return measured(number, answer, determined);
}

static PyObject *group_complement(PyObject *self, PyObject *const *args, Py_ssize_t count)
{
    Record r;
    uint64_t word, vertex;
    uint8_t group;
    if (!takes(count, 4) || !group_of(args, &r, &word, &group) || !place_of(args[3], &vertex)) return NULL;
    return PyLong_FromLong(call_group_complement(r.n, word, group, r.neighbours, r.n, r.codes, r.n, *r.used, vertex));
}

/* ---- the module */

static int found(void *library, const char *name, void **pointer)
{
    *pointer = dlsym(library, name);
    if (!*pointer) PyErr_Format(PyExc_ImportError, "the library has no %s", name);
    return *pointer != NULL;
}

/* open(path, codes_by_name, paulis_by_name, judge_code, judge_pauli, judge_place, judge_bit) */
static PyObject *open_library(PyObject *self, PyObject *args)
{
    const char *path;
    PyObject *given[6];
    if (!PyArg_ParseTuple(args, "sO!O!OOOO", &path, &PyDict_Type, &given[0], &PyDict_Type, &given[1], &given[2],
                          &given[3], &given[4], &given[5]))
        return NULL;
    void *library = dlopen(path, RTLD_NOW | RTLD_LOCAL);
    if (!library) {
        PyErr_SetString(PyExc_ImportError, dlerror());
        return NULL;
    }
#define TAKE(name) if (!found(library, "sukhlent_" #name, (void **)&call_##name)) return NULL;
    EACH_CALL(TAKE)
    PyObject **held[6] = {&codes_by_name, &paulis_by_name, &judge_code, &judge_pauli, &judge_place, &judge_bit};
    for (int k = 0; k < 6; k++) {
        PyObject *before = *held[k];
        Py_INCREF(given[k]);
        *held[k] = given[k];
        Py_XDECREF(before);
    }
    Py_RETURN_NONE;
}

#define METHOD(name) {#name, (PyCFunction)(void (*)(void))name, METH_FASTCALL, NULL}
static PyMethodDef methods[] = {
    {"open", open_library, METH_VARARGS, NULL},
    METHOD(gate), METHOD(cz), METHOD(cx), METHOD(measure), METHOD(observe), METHOD(measure_row), METHOD(renew),
    METHOD(complement), METHOD(cut), METHOD(expectation), METHOD(reduce), METHOD(same), METHOD(run), METHOD(run_many), METHOD(group_gate),
    METHOD(group_cz), METHOD(group_measure), METHOD(group_complement), {NULL, NULL, 0, NULL},
};

static struct PyModuleDef module = {
    PyModuleDef_HEAD_INIT, "_calls", "The calls on a record's block (python/sukhlent/calls.py).", -1, methods,
    NULL, NULL, NULL, NULL,
};

PyMODINIT_FUNC PyInit__calls(void)
{
    PyObject *made = PyModule_Create(&module);
    if (made && PyModule_AddIntConstant(made, "VERSION", SUKHLENT_VERSION) != 0) {
        Py_DECREF(made);
        return NULL;
    }
    return made;
}
