# A guest in real mode that puts out 64 letters and the end of their line, each byte by an emergency write of its console: one
# more than kvm.c's outlet keeps. It ends halted for good, with ax = 0. `kvm flood` runs it at 1000; `./assemble kvm-flood`
# makes bytes of it.

        .code16

        .equ    WINDOWS, 0xd000                 # the segment of the windows: the disk at 0000, the console at 1000
        .equ    EMERG_WR, 0x1108

        .globl  _start
_start:
        movw    $WINDOWS, %ax
        movw    %ax, %es
        movw    $64, %cx
letter:
        movl    $'x', %es:EMERG_WR
        loop    letter
        movl    $'\n', %es:EMERG_WR
        xorw    %ax, %ax
        cli
        hlt
