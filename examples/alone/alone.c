/* Uses the library with no C library at all: it brings `memcpy`, the one function that the archive needs. x86-64 Linux. */
#include "marnipode.h"

void *memcpy(void *to, const void *from, size_t size)
{
    for (size_t i = 0; i < size; i++)
        ((volatile uint8_t *)to)[i] = ((const uint8_t *)from)[i];
    return to;
}

/* One mode, up to 3,000 rpm with a length of 4; one row at that speed, deadline 5, which nothing follows. */
static const uint8_t sheet[] = {1, 0, 1, 'A', 2, 0, 4, 0x0B, 0xB8, 0, 4, 3, 0, 8, 0x0B, 0xB8, 0, 5, 0, 0, 0, 0, 5, 0, 0};

/* Ends the program with a status: 60 is the number of that call of the system. */
static void leave(long status)
{
    __asm__ volatile("syscall" : : "a"(60L), "D"(status));
}

/* The status is the demand at 5, which is 4; 100 and more where the answer is a refusal. The stack is aligned as calls expect it. */
__attribute__((force_align_arg_pointer)) void _start(void)
{
    static uint32_t cells[6];
    static uint8_t witness[5];
    marnipode_demand_answer answer = marnipode_demand(sheet, sizeof sheet, 5, cells, 6, witness, sizeof witness);
    leave(answer.number == 0 ? (long)answer.amount : 100 + answer.number);
}
