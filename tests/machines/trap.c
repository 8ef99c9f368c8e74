// Whether this machine traps an unaligned word, as it should where the library must not make one: ends with a fault, or prints.
#include <stdint.h>
#include <stdio.h>

static uint8_t bytes[16];

int main(void)
{
    volatile uintptr_t at = (uintptr_t)bytes + 1;
    printf("read %lu\n", (unsigned long)*(volatile uint32_t *)at);
    return 0;
}
