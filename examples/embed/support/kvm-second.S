# The second CPU of a guest in real mode: it counts in memory without an end, and after each 65536 steps reads which device the
# console is. It halts where that isn't told right. `kvm pair` runs it at 6000, beside kvm-guest.S; `./assemble kvm-second`
# makes bytes of it.

        .code16

        .equ    WINDOWS, 0xd000                 # the segment of the windows: the disk at 0000, the console at 1000
        .equ    DEVICE_ID, 0x1008
        .equ    COUNT, 0x7000

        .globl  _start
_start:
        xorw    %ax, %ax
        movw    %ax, %ds
        movw    $WINDOWS, %ax
        movw    %ax, %es
count:
        incl    COUNT
        cmpw    $0, COUNT
        jne     count
        cmpl    $3, %es:DEVICE_ID
        je      count
        cli
        hlt
