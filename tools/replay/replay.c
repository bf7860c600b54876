/* Repeats the calls that record.py wrote, and compares every answer and every byte of every buffer, with a band before and
 * behind each that must stay as it is. A buffer has its type's alignment and no more. Says of each call how often it was
 * made and the stack that it took at most, then 'N calls, D differ', and ends with 0 exactly where D is 0, the whole input
 * was read and the stack had room.
 *
 * Built for a system it reads standard input; with -DBARE it needs no C library, and bare.c is what it stands on. */
#include <stddef.h>
#include <stdint.h>

#include "sukhlent.h"

struct argument {
    uint64_t number;
    uint8_t *bytes;
    uint32_t count;
};

#include "calls.h"

#ifdef BARE
int take(void *to, size_t count);
void say(const char *text);
void *memcpy(void *restrict to, const void *restrict from, size_t count);
void *memset(void *to, int byte, size_t count);
#else
#include <stdio.h>
#include <string.h>
static int take(void *to, size_t count) { return fread(to, 1, count, stdin) == count; }
static void say(const char *text) { fputs(text, stdout); }
#endif

enum { ROOM = 1 << 17, BAND = 32, DEEP = 32768, CALLS = sizeof names / sizeof *names };

static _Alignas(16) uint8_t room[ROOM], before[ROOM];
static unsigned made[CALLS], deepest[CALLS];
static const char *broken;

static void say_number(unsigned number)
{
    char digits[11], *at = digits + 10;
    *at = 0;
    do *--at = (char)('0' + number % 10);
    while ((number /= 10) != 0);
    say(at);
}

/* Reads bytes, and says once where there are none. */
static void read_bytes(void *to, size_t count)
{
    if (!take(to, count)) broken = "the input ends within a call";
}

static uint64_t read_number(size_t count)
{
    uint8_t bytes[8] = {0};
    uint64_t value = 0;
    read_bytes(bytes, count);
    for (size_t k = 0; k < count; k++) value |= (uint64_t)bytes[k] << 8 * k;
    return value;
}

/* The call, over a stack painted with one byte: gives how far below this frame it wrote, or 512 where that is less. */
static __attribute__((noinline)) uint32_t painted(int which, const struct argument *a, unsigned *depth)
{
    volatile uint32_t *volatile top = __builtin_frame_address(0);
    volatile uint32_t *low = top - DEEP / 4;
    for (volatile uint32_t *p = low; p < top - 128; p++) *p = 0x5a5a5a5au;
    uint32_t answer = call(which, a);
    low = top - DEEP / 4;
    if (*low != 0x5a5a5a5au) broken = "a call took all of the stack that is looked at";
    while (*low == 0x5a5a5a5au) low++;
    *depth = (unsigned)((top - low) * 4);
    return answer;
}

/* Reads a buffer to a place behind `at`, aligned for its elements alone, and gives the end of it. */
static size_t read_buffer(struct argument *one, unsigned element, size_t at)
{
    size_t start = (at + BAND + 15) / 16 * 16 + element;
    one->count = (uint32_t)read_number(4);
    if (one->count > ROOM - 2 * BAND - start) {
        broken = "a buffer is too large";
        one->count = 0;
    }
    one->bytes = room + start;
    memset(room + at, 0xb7, start - at);
    if (read_number(1)) memset(one->bytes, (int)read_number(1), one->count);
    else read_bytes(one->bytes, one->count);
    return start + one->count;
}

/* The bytes of an element of a buffer, or 0 where the argument is a number. */
static unsigned element(char shape)
{
    switch (shape) {
    case 'b':
    case 'w': return 0;
    case '1':
    case 'B': return 1;
    case '2':
    case 'H': return 2;
    default: return 8;
    }
}

/* Reads and makes one call, and gives whether anything differs. */
static int repeat(int which)
{
    struct argument a[24] = {{0, NULL, 0}};
    size_t at = 0;
    unsigned depth;
    for (size_t k = 0; shapes[which][k] != 0; k++) {
        char shape = shapes[which][k];
        if (element(shape) == 0) a[k].number = read_number(shape == 'b' ? 1 : 8);
        else at = read_buffer(&a[k], element(shape), at);
    }
    memset(room + at, 0xb7, BAND);
    memcpy(before, room, at + BAND);
    int wrong = painted(which, a, &depth) != read_number(4);
    for (size_t k = 0; shapes[which][k] != 0; k++) {
        if (a[k].bytes == NULL) continue;
        size_t changed = (size_t)read_number(4);
        if (changed > a[k].count) broken = "a change is larger than its buffer";
        else read_bytes(before + (a[k].bytes - room), changed);
    }
    for (size_t k = 0; k < at + BAND; k++) wrong |= room[k] != before[k];
    made[which]++;
    if (depth > deepest[which]) deepest[which] = depth;
    return wrong;
}

int main(void)
{
    unsigned calls = 0, differ = 0;
    for (uint8_t which; broken == NULL && take(&which, 1); calls++) {
        if (which >= CALLS) {
            broken = "no such call";
            break;
        }
        if (repeat(which) && differ++ < 10) say("call "), say_number(calls), say(" differs: "), say(names[which]), say("\n");
    }
    for (size_t k = 0; k < CALLS; k++) {
        say(names[k]), say(" "), say_number(made[k]), say(" calls, stack "), say_number(deepest[k]), say("\n");
        if (made[k] == 0 && broken == NULL) broken = "a call was never made";
    }
    if (broken != NULL) say(broken), say("\n");
    say_number(calls), say(" calls, "), say_number(differ), say(" differ\n");
    return differ != 0 || broken != NULL;
}
