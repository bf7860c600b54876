/* The start of a program on a Cortex-M4: the vectors, the reset, the functions that the library takes from elsewhere, and
 * semihosting, by which a debugger or an emulator prints and ends. A project with a C library has all but the vectors from
 * there. */
#include <stddef.h>
#include <stdint.h>

extern uint8_t data_from[], data_start[], data_end[], bss_start[], bss_end[], stack_top[];
int main(void);

void *memcpy(void *restrict to, const void *restrict from, size_t count)
{
    for (size_t k = 0; k < count; k++) ((volatile uint8_t *)to)[k] = ((const uint8_t *)from)[k];
    return to;
}

void *memset(void *to, int byte, size_t count)
{
    for (size_t k = 0; k < count; k++) ((volatile uint8_t *)to)[k] = (uint8_t)byte;
    return to;
}

/* The same by the names of the ARM EABI; __aeabi_uldivmod comes from libgcc. */
void __aeabi_memcpy(void *to, const void *from, size_t count) { memcpy(to, from, count); }
void __aeabi_memcpy4(void *to, const void *from, size_t count) { memcpy(to, from, count); }
void __aeabi_memcpy8(void *to, const void *from, size_t count) { memcpy(to, from, count); }
void __aeabi_memclr(void *to, size_t count) { memset(to, 0, count); }
void __aeabi_memclr4(void *to, size_t count) { memset(to, 0, count); }
void __aeabi_memclr8(void *to, size_t count) { memset(to, 0, count); }

static void host(uintptr_t operation, const void *argument)
{
    register uintptr_t a __asm__("r0") = operation;
    register const void *b __asm__("r1") = argument;
    __asm__ volatile("bkpt 0xab" : "+r"(a) : "r"(b) : "memory");
}

void say(const char *text) { host(0x04, text); } /* SYS_WRITE0 */

static void end(int status)
{
    uintptr_t words[2] = {0x20026, (uintptr_t)status};
    host(0x20, words); /* SYS_EXIT_EXTENDED */
    for (;;) {}
}

void reset(void)
{
    memcpy(data_start, data_from, (size_t)(data_end - data_start));
    memset(bss_start, 0, (size_t)(bss_end - bss_start));
    end(main());
}

static void fault(void)
{
    say("a fault\n");
    end(1);
}

/* The first stack pointer, the reset, and the faults 2 to 6. */
__attribute__((section(".vectors"), used)) static const void *const vectors[] = {stack_top, reset, fault, fault, fault, fault, fault};
