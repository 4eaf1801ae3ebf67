# Multiplies and divides all pairs of sixteen words, and writes a sum over the results: for each, the sum is xored with it and
# multiplied by 16777619 (the FNV-1a hash, a word at a time).
        .globl  _start
        .text
_start: lui     s0, 0x11
        li      s5, 0x01000193
        li      a0, 0x811c9dc5
        li      t2, 64
        li      s1, 0
1:      add     t0, s0, s1
        lw      s2, 0(t0)
        li      s3, 0
2:      add     t0, s0, s3
        lw      s4, 0(t0)
        .macro  take op
        \op     t1, s2, s4
        xor     a0, a0, t1
        mul     a0, a0, s5
        .endm
        take    mul
        take    mulh
        take    mulhsu
        take    mulhu
        take    div
        take    divu
        take    rem
        take    remu
        addi    s3, s3, 4
        bne     s3, t2, 2b
        addi    s1, s1, 4
        bne     s1, t2, 1b
        sw      a0, -4(sp)
        li      a0, 1
        addi    a1, sp, -4
        li      a2, 4
        li      a7, 64
        ecall
        li      a0, 0
        li      a7, 93
        ecall
        .data
        .word   0, 1, 2, 3, 7, 0x7f, 0x80, 0xffff, 0x10000, 0x55555555, 0xaaaaaaaa
        .word   0x7fffffff, 0x80000000, 0x80000001, 0xfffffffe, 0xffffffff
