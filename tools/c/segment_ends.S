# Words of zeros behind all else that is read alone, that has values and that has none: where this file is linked last, each loaded
# segment ends at a multiple of four.
        .section .rodata, "a", @progbits
        .balign 4
        .word   0
        .section .data, "aw", @progbits
        .balign 4
        .word   0
        .section .sdata, "aw", @progbits
        .balign 4
        .word   0
        .section .bss, "aw", @nobits
        .balign 4
        .zero   4
