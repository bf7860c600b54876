/* What replay.c stands on where there is no system and no C library: a start, the functions that the library needs, and
 * semihosting, by which an emulator or a debugger reads calls.bin, prints and ends. Links with bare.ld. */
#include <stddef.h>
#include <stdint.h>

extern uint8_t stack_top[], bss_start[], bss_end[];
int main(void);

void *memcpy(void *restrict to, const void *restrict from, size_t count)
{
    for (size_t k = 0; k < count; k++) ((volatile uint8_t *)to)[k] = ((const uint8_t *)from)[k];
    return to;
}

void *memset(void *to, int byte, size_t count)
{
    for (size_t k = 0; k < count; k++) ((volatile uint8_t *)to)[k] = (uint8_t)byte;
    return to;
}

#ifdef __ARM_EABI__ /* by their names there; libgcc has __aeabi_uldivmod */
void __aeabi_memcpy(void *to, const void *from, size_t count) { memcpy(to, from, count); }
void __aeabi_memcpy4(void *to, const void *from, size_t count) { memcpy(to, from, count); }
void __aeabi_memcpy8(void *to, const void *from, size_t count) { memcpy(to, from, count); }
void __aeabi_memclr(void *to, size_t count) { memset(to, 0, count); }
void __aeabi_memclr4(void *to, size_t count) { memset(to, 0, count); }
void __aeabi_memclr8(void *to, size_t count) { memset(to, 0, count); }
#endif

/* One operation of semihosting. */
static uintptr_t host(uintptr_t operation, const void *argument)
{
#if defined(__aarch64__)
    register uintptr_t a __asm__("x0") = operation;
    register const void *b __asm__("x1") = argument;
    __asm__ volatile("hlt 0xf000" : "+r"(a) : "r"(b) : "memory");
#elif defined(__riscv)
    register uintptr_t a __asm__("a0") = operation;
    register const void *b __asm__("a1") = argument;
    __asm__ volatile(".balign 16\n.option push\n.option norvc\nslli x0, x0, 0x1f\nebreak\nsrai x0, x0, 7\n.option pop"
                     : "+r"(a) : "r"(b) : "memory");
#else /* a Cortex-M */
    register uintptr_t a __asm__("r0") = operation;
    register const void *b __asm__("r1") = argument;
    __asm__ volatile("bkpt 0xab" : "+r"(a) : "r"(b) : "memory");
#endif
    return a;
}

enum { OPEN = 0x01, WRITE0 = 0x04, READ = 0x06, EXIT = 0x18, EXIT_EXTENDED = 0x20, BLOCK = 1 << 16 };

static uint8_t block[BLOCK];
static size_t at, filled;
static uintptr_t file;

/* Reads a block of the file; gives whether there was one. */
static int fill(void)
{
    uintptr_t words[3] = {file, (uintptr_t)block, BLOCK};
    uintptr_t not_read = host(READ, words);
    at = 0;
    filled = not_read <= BLOCK ? BLOCK - not_read : 0;
    return filled != 0;
}

int take(void *to, size_t count)
{
    for (uint8_t *next = to; count != 0;) {
        if (at == filled && !fill()) return 0;
        size_t some = filled - at < count ? filled - at : count;
        memcpy(next, block + at, some);
        at += some, next += some, count -= some;
    }
    return 1;
}

void say(const char *text) { host(WRITE0, text); }

__attribute__((noreturn, used)) void begin(void)
{
    static const char name[] = "calls.bin";
    memset(bss_start, 0, (size_t)(bss_end - bss_start));
    uintptr_t words[3] = {(uintptr_t)name, 1 /* to be read, as bytes */, sizeof name - 1};
    file = host(OPEN, words);
    uintptr_t end[2] = {0x20026 /* an application's own end, with a status */, (uintptr_t)main()};
    host(sizeof(uintptr_t) == 8 ? EXIT : EXIT_EXTENDED, end);
    for (;;) {}
}

#if defined(__aarch64__) /* the unit of floating point and vectors on, then the stack */
__asm__(".section .start, \"ax\"\n.global start\nstart: mov x0, #(3 << 20)\nmsr cpacr_el1, x0\nisb\n"
        "ldr x0, =stack_top\nmov sp, x0\nb begin\n.text");
#elif defined(__riscv)
__asm__(".section .start, \"ax\"\n.global start\nstart: la sp, stack_top\nj begin\n.text");
#else
__asm__(".section .start, \"a\"\n.global start\nstart: .word stack_top, begin\n.text");
#endif
