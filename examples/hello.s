# Writes a line to standard output and ends with status 0.
# The program uses lui, addi, add and ecall alone, and lies in one segment.

        .option norelax
        .globl  _start
        .text
_start:
        li      a0, 1                   # standard output
        lui     a1, %hi(line)
        addi    a1, a1, %lo(line)       # the address of the line
        li      a2, 7
        li      a3, 6
        add     a2, a2, a3              # its length
        li      a7, 64                  # write
        ecall
        li      a0, 0                   # the status
        li      a7, 94                  # exit_group
        ecall
line:
        .ascii  "hello, world\n"
