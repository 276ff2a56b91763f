# Runs one instruction word at a time on a PowerPC. Standard input: records of 33 big-endian words, an instruction and
# r0 to r31 before it. Standard output: r0 to r31 after it, for each record. The words must not branch or trap.
# The registers are loaded and saved with base 0 from addresses below 32768, so that none is needed for it.

    .section .low,"aw",@progbits
word:   .space 4
before: .space 128
after:  .space 128

    .section .patched,"awx",@progbits
    .globl _start
_start:
    li      0, 3                # read
    li      3, 0
    li      4, word@l
    li      5, 132
    sc
    cmpwi   3, 132
    bne     done
    lwz     6, word@l(0)
    lis     7, patch@ha
    addi    7, 7, patch@l
    stw     6, 0(7)
    dcbst   0, 7
    sync
    icbi    0, 7
    isync
    lmw     1, before@l+4(0)
    lwz     0, before@l(0)
patch:
    nop
    stmw    1, after@l+4(0)
    stw     0, after@l(0)
    li      0, 4                # write
    li      3, 1
    li      4, after@l
    li      5, 128
    sc
    b       _start
done:
    li      0, 1                # exit
    li      3, 0
    sc
