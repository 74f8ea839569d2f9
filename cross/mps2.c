/* For the tests of thumbv7em: turns on the floating-point unit, which newlib uses where calls pass numbers in its registers, and goes to newlib's start. */
#include <stdint.h>

void _start(void);
void reset(void);

void reset(void) {
    *(volatile uint32_t *)0xe000ed88 |= (uint32_t)0xf << 20;
    __asm__ volatile("dsb\n\tisb");
    _start();
}
