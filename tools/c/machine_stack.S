# The start of a program on the machine's own stack: sp is as the run begins, and there are no arguments. Where OWN_STACK names
# the end of another stack, sp is set to that.
        .section .text.start, "ax", @progbits
        .globl  _start
        .type   _start, @function
_start:
        .option push
        .option norelax
        la      gp, __global_pointer$
        .option pop
#ifdef OWN_STACK
        la      sp, OWN_STACK
#endif
        call    main
        li      a7, 93                  # exit, with what main gave
        ecall
        .size   _start, . - _start
