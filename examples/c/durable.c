/* A run that survives a power cut, for controllers: a source sends photons through three places, and each step is in a file,
 * flushed, before its answer is used. The file is that of a Session in Python (docs/TEXTS.md, Session): either goes on with
 * what the other left. Here the process that runs it is killed twice, and a line is torn; the run ends as one that was never
 * killed. examples/python/durable.py is the same in Python.
 *
 *   durable run FILE PHOTONS    goes on to so many photons, and writes a dot for each step that was answered */
#define _XOPEN_SOURCE 700
#include <fcntl.h>
#include <signal.h>
#include <stdio.h>
#include <stdlib.h>
#include <string.h>
#include <sys/file.h>
#include <sys/stat.h>
#include <sys/wait.h>
#include <unistd.h>

#include "sukhlent.h"

enum { N = 3, MOST = 64, EVERY = 50, RECORD = 1627, LINE = 96, PATH = 4096, SECTOR = 512 };
enum { GATE, CZ, MEASURE, COMPLEMENT, PIVOT, OBSERVE, RENEW, OPS };
enum { DAMAGED, BEGUN, OPEN, SEALED }; /* a line: unsound, cut off, whole with more to come, whole with its check */

static const char *const ops[OPS] = {"gate", "cz", "measure", "complement", "pivot", "observe", "renew"};
static const char head_names[] = "checkpoint steps qubits\n";
static const char step_names[] = "step op a b value refusal outcome determined check\n";

struct record {
    uint64_t n, neighbours[MOST], used;
    uint8_t codes[MOST];
};

struct step {
    unsigned op, a, b, value, refusal, outcome, determined;
};

struct session {
    char path[PATH], new_path[PATH + 8];
    int lock, file;
    struct record record;
    struct step last;
    uint64_t checkpoint, steps, lines; /* the lines of steps in the file */
    size_t length, torn;               /* bytes that are sound, and bytes that were cut off */
    uint32_t sum;                      /* the CRC-32 of the sound ones */
};

/* Ends the program where the file or the system fails: what was answered is in the file. */
static void fail(const struct session *s, const char *what, uint64_t line)
{
    if (line)
        fprintf(stderr, "%s, line %llu: %s\n", s->path, (unsigned long long)line, what);
    else
        fprintf(stderr, "%s: %s\n", s->path, what);
    exit(1);
}

static uint32_t crc(uint32_t sum, const char *bytes, size_t count)
{
    sum = ~sum;
    for (size_t k = 0; k < count; k++) {
        sum ^= (uint8_t)bytes[k];
        for (int bit = 0; bit < 8; bit++)
            sum = sum >> 1 ^ (sum & 1 ? 0xEDB88320u : 0);
    }
    return ~sum;
}

/* ---- steps on a record */

/* A run of one step, for those that sukhlent_run has. */
static uint8_t ran(struct record *r, struct step *t)
{
    uint8_t op = (uint8_t)t->op, refusal = 0, outcome = 0, determined = 0;
    uint16_t a = (uint16_t)t->a, b = (uint16_t)t->b, value = (uint16_t)t->value;
    uint8_t number = sukhlent_run(r->n, r->neighbours, r->n, r->codes, r->n, &r->used, &op, 1, &a, 1, &b, 1, &value, 1,
                                  &refusal, 1, &outcome, 1, &determined, 1);
    t->outcome = outcome;
    t->determined = determined;
    return number ? number : refusal;
}

/* Does a step; a refused one changes nothing. */
static void done(struct record *r, struct step *t)
{
    uint8_t outcome = 0, determined = 0;
    t->outcome = t->determined = 0;
    if (t->op < OBSERVE) {
        t->refusal = ran(r, t);
        return;
    }
    if (t->b != 0 || t->value > (t->op == OBSERVE ? 5 : 255)) {
        t->refusal = SUKHLENT_VALUE;
        return;
    }
    if (t->op == OBSERVE)
        t->refusal = sukhlent_observe(r->n, r->neighbours, r->n, r->codes, r->n, &r->used, (uint8_t)(t->value / 2 + 1), t->a,
                                      t->value % 2, &outcome, &determined);
    else
        t->refusal = sukhlent_renew(r->n, r->neighbours, r->n, r->codes, r->n, &r->used, t->a, (uint8_t)t->value);
    if (t->refusal == 0) {
        t->outcome = outcome;
        t->determined = determined;
    }
}

/* ---- the file as a text */

/* The line of a step that is written alone, after bytes with a sum. */
static size_t line_text(char *text, uint64_t number, const struct step *t, uint32_t sum)
{
    int made = snprintf(text, LINE, "%llu %s %u %u %u %u %u %u ", (unsigned long long)number, ops[t->op], t->a, t->b, t->value,
                        t->refusal, t->outcome, t->determined);
    return (size_t)made + (size_t)sprintf(text + made, "%08lx\n", (unsigned long)crc(sum, text, (size_t)made));
}

/* The lines above the steps: the record, and a check. */
static size_t head_text(char *text, uint64_t checkpoint, uint64_t steps, const struct record *r)
{
    uint64_t length = 0;
    size_t at = (size_t)sprintf(text, "%s%llu %llu %llu\n", head_names, (unsigned long long)checkpoint,
                                (unsigned long long)steps, (unsigned long long)r->n);
    if (sukhlent_write_record(r->n, r->neighbours, r->n, r->codes, r->n, r->used, (uint8_t *)text + at, RECORD, &length))
        abort();
    at += length;
    at += (size_t)sprintf(text + at, "check ");
    at += (size_t)sprintf(text + at, "%08lx\n", (unsigned long)crc(0, text, at));
    return at + (size_t)sprintf(text + at, "%s", step_names);
}

/* Whether a field is one of a line, at its place; not `whole`: the beginning of one. */
static int fits(int place, const char *field, size_t length, int whole, uint64_t number, uint32_t sum)
{
    static const int digits[] = {0, 0, 3, 3, 3, 2, 1, 1};
    char due[24];
    if (place == 1) {
        for (int op = 0; op < OPS; op++)
            if (length <= strlen(ops[op]) && !memcmp(field, ops[op], length) && (!whole || length == strlen(ops[op])))
                return 1;
        return 0;
    }
    if (place == 0 || place == 8) {
        if (place == 8 && length == 1 && field[0] == '-')
            return 1;
        if (place == 0)
            sprintf(due, "%llu", (unsigned long long)number);
        else
            sprintf(due, "%08lx", (unsigned long)sum);
        return length <= strlen(due) && !memcmp(field, due, length) && (!whole || length == strlen(due));
    }
    if (length == 0)
        return !whole;
    for (size_t k = 0; k < length; k++)
        if (field[k] < '0' || field[k] > (place > 5 ? '1' : '9'))
            return 0;
    return length <= (size_t)digits[place] && (length == 1 || field[0] != '0');
}

/* Judges the line at the start of some bytes, and reads its step; *size is its length with the newline. */
static int judged(const char *text, size_t count, uint64_t number, uint32_t sum, struct step *t, size_t *size)
{
    size_t at = 0;
    unsigned *const into[] = {NULL, NULL, &t->a, &t->b, &t->value, &t->refusal, &t->outcome, &t->determined, NULL};
    for (int place = 0; place < 9; place++) {
        size_t end = at;
        char stop = place < 8 ? ' ' : '\n';
        uint32_t due = place == 8 ? crc(sum, text, at) : 0;
        while (end < count && text[end] != stop && text[end] != '\n')
            end++;
        if (end == count)
            return fits(place, text + at, end - at, 0, number, due) ? BEGUN : DAMAGED;
        if (text[end] != stop || !fits(place, text + at, end - at, 1, number, due))
            return DAMAGED;
        if (place == 1)
            for (t->op = 0; strlen(ops[t->op]) != end - at || memcmp(ops[t->op], text + at, end - at); )
                t->op++;
        if (into[place])
            *into[place] = (unsigned)strtoul(text + at, NULL, 10);
        if (place == 8) {
            *size = end + 1;
            return text[at] == '-' ? OPEN : SEALED;
        }
        at = end + 1;
    }
    return DAMAGED;
}

/* Whether a sector of the last steps was never written: zeros stand there, and no other steps after them. */
static int unwritten(const char *text, size_t from, size_t count)
{
    size_t kept = count;
    while (kept > from && text[kept - 1] == 0)
        kept--;
    for (size_t k = from; k + 10 < kept; k++) /* a check and a newline, and something after them */
        if (text[k] == ' ' && text[k + 9] == '\n' && strspn(text + k + 1, "0123456789abcdef") == 8)
            return 0;
    for (size_t low = from, high; low < count; low = high) {
        size_t zeros = low;
        high = (low / SECTOR + 1) * SECTOR < count ? (low / SECTOR + 1) * SECTOR : count;
        while (zeros < high && text[zeros] == 0)
            zeros++;
        if (zeros == high)
            return 1;
    }
    return 0;
}

/* Does the steps of the lines that were written together, which are sound; each must answer what its line says. */
static void repeat(struct session *s, const char *text, size_t size, uint64_t line)
{
    struct step said, found;
    size_t one = 0;
    for (size_t at = 0; at < size; at += one, line++) {
        uint32_t sum = crc(s->sum, text, at);
        judged(text + at, size - at, s->steps, sum, &said, &one);
        found = said;
        done(&s->record, &found);
        if (found.refusal != said.refusal || found.outcome != said.outcome || found.determined != said.determined)
            fail(s, "the engine answers otherwise", line);
        s->last = said;
        s->steps++;
        s->lines++;
    }
    s->sum = crc(s->sum, text, size);
    s->length += size;
}

/* Reads the lines of steps, and does them. */
static void read_steps(struct session *s, const char *text, size_t count, uint64_t line)
{
    size_t kept = count;
    while (kept > s->length && text[kept - 1] == 0)
        kept--;
    while (s->length < kept) {
        size_t at = s->length, one = 0;
        uint64_t ahead = 0;
        struct step t;
        uint32_t sum = s->sum;
        int kind;
        while ((kind = judged(text + at, kept - at, s->steps + ahead, sum, &t, &one)) == OPEN && at + one < kept) {
            sum = crc(sum, text + at, one);
            at += one;
            ahead++;
        }
        if (kind == SEALED) {
            repeat(s, text + s->length, at + one - s->length, line);
            line += ahead + 1;
        } else if (kind != DAMAGED || unwritten(text, s->length, count)) {
            break;
        } else {
            fail(s, "not a sound line of a step", line + ahead);
        }
    }
    s->torn = count - s->length;
}

/* Reads the lines above the steps. */
static void read_head(struct session *s, const char *text, size_t count)
{
    char made[RECORD + 256];
    uint64_t line = 2;
    size_t from = strlen(head_names), at, end;
    unsigned long long checkpoint, steps, n;
    if (count < from || memcmp(text, head_names, from))
        fail(s, "not the file of a session", 1);
    if (sscanf(text + from, "%llu %llu %llu", &checkpoint, &steps, &n) != 3 || n < 1 || n > MOST)
        fail(s, "expected a number of checkpoints, of steps and of qubits", 2);
    for (at = from; at < count && text[at] != '\n'; at++)
        ;
    for (end = ++at; end < count && line < n + 3; end++)
        line += text[end] == '\n';
    if (at > end || sukhlent_read_record((const uint8_t *)text + at, end - at, &s->record.n, s->record.neighbours, MOST,
                                         s->record.codes, MOST, &s->record.used))
        fail(s, "no record", 3);
    s->checkpoint = checkpoint;
    s->steps = steps;
    s->length = head_text(made, checkpoint, steps, &s->record);
    if (s->record.n != n || count < s->length || memcmp(text, made, s->length))
        fail(s, "the check does not fit the lines above it", n + 4);
    s->sum = crc(0, text, s->length);
    read_steps(s, text, count, n + 6);
}

/* ---- the file on the disk */

static void put(const struct session *s, int file, const char *text, size_t count)
{
    while (count) {
        ssize_t some = write(file, text, count);
        if (some < 0)
            fail(s, "cannot be written", 0);
        text += some;
        count -= (size_t)some;
    }
    if (fsync(file))
        fail(s, "cannot be flushed", 0);
}

static void flush_folder(const struct session *s)
{
    char folder[PATH];
    char *slash;
    int file;
    strcpy(folder, s->path);
    slash = strrchr(folder, '/');
    if (slash)
        slash[1] = 0;
    file = open(slash ? folder : ".", O_RDONLY);
    if (file < 0 || fsync(file) || close(file))
        fail(s, "its folder cannot be flushed", 0);
}

/* Puts a new file in place: written beside it, flushed, renamed, and the folder flushed. */
static void replace(struct session *s, const char *text, size_t count)
{
    int file = open(s->new_path, O_WRONLY | O_CREAT | O_TRUNC, 0666);
    if (file < 0)
        fail(s, "no new file beside it", 0);
    put(s, file, text, count);
    if (close(file) || rename(s->new_path, s->path))
        fail(s, "cannot be replaced", 0);
    flush_folder(s);
    if (s->file >= 0)
        close(s->file);
    s->file = open(s->path, O_RDWR | O_APPEND);
    if (s->file < 0)
        fail(s, "cannot be opened", 0);
}

/* Opens a session, or starts one with every qubit in +Z. What a power cut left of a line is cut off. */
static void open_session(struct session *s, const char *path, uint64_t n)
{
    char made[RECORD + 256], *text = NULL;
    struct stat about;
    memset(s, 0, sizeof *s);
    s->file = -1;
    if (strlen(path) + 8 > PATH)
        exit(2);
    strcpy(s->path, path);
    sprintf(s->new_path, "%s.lock", path);
    s->lock = open(s->new_path, O_RDWR | O_CREAT, 0666);
    if (s->lock < 0 || flock(s->lock, LOCK_EX | LOCK_NB))
        fail(s, "the session is open elsewhere", 0);
    sprintf(s->new_path, "%s.new", path);
    unlink(s->new_path); /* what a crash left of a checkpoint */
    s->record.n = n;
    memset(s->record.codes, SUKHLENT_GATE_H, MOST);
    if (access(path, F_OK))
        replace(s, made, head_text(made, 0, 0, &s->record));
    else
        s->file = open(path, O_RDWR | O_APPEND);
    if (s->file < 0 || fstat(s->file, &about) || !(text = calloc(1, (size_t)about.st_size + 16)))
        fail(s, "cannot be opened", 0);
    if (pread(s->file, text, (size_t)about.st_size, 0) != (ssize_t)about.st_size)
        fail(s, "cannot be read", 0);
    read_head(s, text, (size_t)about.st_size);
    if (s->torn && ftruncate(s->file, (off_t)s->length))
        fail(s, "the torn line cannot be cut off", 0);
    if (fsync(s->file)) /* a process that was killed may have left lines that no disk has */
        fail(s, "cannot be flushed", 0);
    flush_folder(s);
    free(text);
}

static void close_session(struct session *s)
{
    close(s->file);
    close(s->lock);
}

/* Does a step: its line is in the file, flushed, when this returns. After EVERY lines it begins a new file. */
static struct step step(struct session *s, unsigned op, unsigned a, unsigned b, unsigned value)
{
    char text[RECORD + 256 + LINE];
    struct record after = s->record;
    struct step t = {op, a, b, value, 0, 0, 0};
    size_t head = 0, size;
    done(&after, &t);
    if (s->lines >= EVERY) {
        head = head_text(text, s->checkpoint + 1, s->steps, &s->record);
        size = head + line_text(text + head, s->steps, &t, crc(0, text, head));
        replace(s, text, size);
        s->checkpoint++;
        s->lines = 0;
        s->length = 0;
        s->sum = 0;
    } else {
        size = line_text(text, s->steps, &t, s->sum);
        put(s, s->file, text, size);
    }
    s->sum = crc(s->sum, text, size);
    s->length += size;
    s->record = after;
    s->last = t;
    s->lines++;
    s->steps++;
    return t;
}

/* ---- a source of photons */

/* The bit of a photon, by lot, but its own, so that runs can be compared. */
static unsigned lot(uint64_t photon)
{
    return (unsigned)(photon * 0x9E3779B97F4A7C15u >> 63);
}

/* Goes on to so many photons, of three steps each; at step `dies` the process is killed. */
static void run(struct session *s, uint64_t photons, uint64_t dies, int dots)
{
    while (s->steps < 3 * photons) {
        uint64_t photon = s->steps / 3;
        unsigned here = photon % N, there = (photon + 1) % N, part = s->steps % 3;
        if (s->steps == dies)
            raise(SIGKILL);
        if (part == 1)
            step(s, CZ, here, there, 0);
        else if (part == 2)
            step(s, OBSERVE, here, 0, (photon % 2 ? 0 : 2) + lot(photon)); /* X or Y */
        else if (photon < 2)
            step(s, GATE, there, 0, SUKHLENT_GATE_H); /* the first photons start in +Z */
        else
            step(s, RENEW, there, 0, SUKHLENT_PHOTON_PLUS_X);
        if (dots && write(1, ".", 1) != 1)
            exit(1);
    }
}

/* The process that runs it is killed. */
static void killed(const char *path, uint64_t dies)
{
    int status;
    pid_t child = fork();
    if (child == 0) {
        struct session s;
        open_session(&s, path, N);
        run(&s, 40, dies, 0);
        _exit(0);
    }
    waitpid(child, &status, 0);
    printf("killed at step %llu: %s\n", (unsigned long long)dies, WIFSIGNALED(status) ? "yes" : "no");
    fflush(stdout);
}

int main(int argc, char **argv)
{
    static const char *const kept[] = {"run", "run.lock", "whole", "whole.lock"};
    const char *below = getenv("TMPDIR");
    char folder[PATH], path[PATH + 16], other[PATH + 16], text[RECORD + 1] = "";
    struct session s, whole;
    uint64_t length;
    int file;

    if (argc == 4 && !strcmp(argv[1], "run")) {
        open_session(&s, argv[2], N);
        run(&s, strtoull(argv[3], NULL, 10), UINT64_MAX, 1);
        close_session(&s);
        return 0;
    }
    snprintf(folder, sizeof folder, "%s/durable.XXXXXX", below && *below ? below : P_tmpdir);
    if (!mkdtemp(folder)) {
        perror(folder);
        return 1;
    }
    sprintf(path, "%s/run", folder);
    sprintf(other, "%s/whole", folder);
    killed(path, 37);
    killed(path, 70);
    file = open(path, O_WRONLY | O_APPEND);
    if (file < 0 || write(file, "70 cz 2", 7) != 7 || close(file)) /* what a power cut left of a line */
        return 1;
    open_session(&s, path, N);
    printf("after %llu steps, %llu bytes torn, last: %s %u\n", (unsigned long long)s.steps, (unsigned long long)s.torn,
           ops[s.last.op], s.last.a);
    run(&s, 40, UINT64_MAX, 0);
    open_session(&whole, other, N);
    run(&whole, 40, UINT64_MAX, 0);
    printf("as if it was never killed: %s\n", memcmp(&s.record, &whole.record, sizeof s.record) ? "no" : "yes");
    if (sukhlent_write_record(s.record.n, s.record.neighbours, s.record.n, s.record.codes, s.record.n, s.record.used,
                              (uint8_t *)text, RECORD, &length))
        return 1;
    printf("%s", text);
    close_session(&s);
    close_session(&whole);
    for (size_t k = 0; k < sizeof kept / sizeof *kept; k++) {
        sprintf(path, "%s/%s", folder, kept[k]);
        unlink(path);
    }
    rmdir(folder);
    return 0;
}
