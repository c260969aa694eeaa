/* What runs before main on a bare Cortex-M: the vector table, the memory that C expects, and an end at any fault.

   Under QEMU, printf goes to the debugger by semihosting (newlib's rdimon). On real hardware take out the three lines marked QEMU, give the C library a _write
   that sends bytes to a serial port, and set the clocks up before main. */
#include <stdint.h>
#include <stdlib.h>

extern uint32_t stack_top[], data_stored[], data_start[], data_end[], bss_start[], bss_end[];
extern void initialise_monitor_handles(void);
extern void __libc_init_array(void);
extern int main(void);
void _init(void) {}
void _fini(void) {}

void reset(void);
void reset(void)
{
    const uint32_t *from = data_stored;
    for (uint32_t *word = data_start; word < data_end; word++) {
        *word = *from++;
    }
    for (uint32_t *word = bss_start; word < bss_end; word++) {
        *word = 0;
    }
#ifdef __ARM_FP
    *(volatile uint32_t *)0xE000ED88 |= 0xFu << 20; /* the floating-point unit on, where the compiler uses one */
#endif
    initialise_monitor_handles(); /* QEMU */
    __libc_init_array();
    exit(main()); /* a box's main does not return */
}

/* Any fault: stops the emulator with status 1. On real hardware let the watchdog restart the box instead. */
static void fault(void)
{
    register uint32_t what __asm__("r0") = 0x18, why __asm__("r1") = 0x20023; /* QEMU */
    __asm__ volatile("bkpt 0xAB" : : "r"(what), "r"(why));                    /* QEMU */
    for (;;) {
    }
}

/* The first 16 entries are the processor's own. Those of the interrupts come behind them, in the order of the manufacturer's manual. */
__attribute__((section(".vectors"), used)) static const void *const vectors[16] = {
    stack_top, reset, fault, fault, fault, fault, fault, 0, 0, 0, 0, fault, fault, 0, fault, fault,
};
