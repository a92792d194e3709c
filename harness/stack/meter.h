/* What the parts of the meter share. */
#ifndef METER_H
#define METER_H

/* What the stack is painted with: a word that no call writes. */
#define STACK_PAINT 0x9d3fc6b17a58e20d

#ifndef __ASSEMBLER__
#include <stddef.h>
#include <stdint.h>

/* A call of the library. meter.S has one for each, by name. */
struct stack_mark {
    const char *name;
    uint64_t greatest; /* the most bytes of stack that it kept */
    uint64_t calls;    /* how often it was made */
};

/* How many bytes of the stack are painted before each call, a multiple of 16. A call may keep half of them. */
extern size_t stack_painted;

/* How many bytes of stack the last call of this thread kept: all that it wrote below the caller's frame, the return address included. */
size_t stack_last_mark(void);
#endif

#endif
