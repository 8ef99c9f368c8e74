// A bare Cortex-M under QEMU: its vectors, and the start of a C program whose output goes to the host by semihosting, which newlib's librdimon has. A fault
// ends the program with a number of its own, so that a trap is not taken for silence.
#include <stdint.h>

enum { EXIT_EXTENDED = 32, STOPPED = 0x20026, FAULT = 99 };

extern uint32_t bss_start[], bss_end[], stack_top[];
int main(void);
void exit(int status);
void initialise_monitor_handles(void);
void _init(void);
void _fini(void);
void _init(void) {}
void _fini(void) {}

static void start(void)
{
    for (uint32_t *at = bss_start; at < bss_end; at++)
        *at = 0;
#ifdef __ARM_FP
    // The FPU's two coprocessors, for everyone.
    *(volatile uint32_t *)0xE000ED88 |= 15u << 20;
    __asm__ volatile("dsb\n isb");
#endif
    initialise_monitor_handles();
    exit(main());
}

static void fault(void)
{
    static const uint32_t words[2] = {STOPPED, FAULT};
    register uint32_t r0 __asm__("r0") = EXIT_EXTENDED;
    register const uint32_t *r1 __asm__("r1") = words;
    __asm__ volatile("bkpt 0xAB" : "+r"(r0) : "r"(r1) : "memory");
}

__attribute__((section(".vectors"), used)) static void (*const vectors[16])(void) = {
    (void (*)(void))stack_top, start, fault, fault, fault, fault, fault,
};
