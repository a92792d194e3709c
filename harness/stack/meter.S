/* A stub for each call of the library, x86-64. It paints the stack below the caller's frame, makes the call with the caller's arguments,
 * those on the stack too, and has meter.c look how far the paint is gone. calls.inc has a line `METER name` for each call. */
#include "meter.h"

        .section .note.GNU-stack, "", @progbits

/* What is kept for the time of a call, by thread. No call of the library makes another one that has a stub. */
        .section .tbss, "awT", @nobits
        .balign 8
back:   .zero   8               /* where the caller goes on */
top:    .zero   8               /* the end of the caller's frame */
first:  .zero   8               /* registers */
second: .zero   8
third:  .zero   8

        .text
/* Paints from the caller's own return address down. It alters no register. */
paint:
        movq    %rax, %fs:first@tpoff
        movq    %rcx, %fs:second@tpoff
        movq    %rdi, %fs:third@tpoff
        movq    stack_painted(%rip), %rcx
        leaq    8(%rsp), %rdi
        subq    %rcx, %rdi
        shrq    $3, %rcx
        decq    %rcx
        movabsq $STACK_PAINT, %rax
        rep stosq
        movq    %fs:first@tpoff, %rax
        movq    %fs:second@tpoff, %rcx
        movq    %fs:third@tpoff, %rdi
        ret

/* Measures the call that returned, its mark in rdi, from below all paint. Then the caller goes on with the answer of the call. */
measure:
        movq    %rax, %fs:first@tpoff
        movq    %rdx, %fs:second@tpoff
        movq    %rsp, %fs:top@tpoff
        movq    %rsp, %rsi
        subq    stack_painted(%rip), %rsp
        call    stack_measure
        movq    %fs:top@tpoff, %rsp
        movq    %fs:first@tpoff, %rax
        movq    %fs:second@tpoff, %rdx
        jmpq    *%fs:back@tpoff

/* The return address comes off, so that the stub's own calls put theirs in its place. */
        .macro  METER name
        .globl  \name
        .type   \name, @function
\name:  popq    %fs:back@tpoff
        call    paint
        call    unmeasured_\name
        leaq    mark_\name(%rip), %rdi
        jmp     measure
        .size   \name, . - \name

        .pushsection .rodata
name_\name:
        .asciz  "\name"
        .popsection

        .pushsection .data
mark_\name:
        .quad   name_\name, 0, 0
        .popsection
        .endm

/* The table of marks, struct stack_mark of meter.h. */
        .data
        .balign 8
        .globl  stack_marks, stack_marks_end
stack_marks:
        .text
#include "calls.inc"
        .data
stack_marks_end:
