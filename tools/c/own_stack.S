# The start of a program with a stack of its own, of 65536 bytes in .bss.
#define OWN_STACK stack_top
#include "machine_stack.S"

        .section .bss
        .balign 16
stack:  .zero   65536
        .globl  stack_top
stack_top:
