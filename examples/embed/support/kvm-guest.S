# A guest in real mode: it finds its devices, reads sector 0 over a virtqueue, and puts out "hello from " and the line that
# it found there. The sector goes to the end of its memory's second region. After each request it halts until its device's
# interrupt. It ends halted for good, with ax = 0 or the number of the step that failed. kvm.c runs it at 1000;
# `./assemble kvm-guest` makes bytes of it.

        .code16

        .equ    WINDOWS, 0xd000                 # the segment of the windows: the disk at 0000, the console at 1000
        .equ    BLOCK, 0x0000
        .equ    CONSOLE, 0x1000

        .equ    BLOCK_USED, 0x2000              # what lies behind the program: the used rings
        .equ    CONSOLE_USED, 0x2100
        .equ    REGION, 0x2000                  # the segment of the second region,
        .equ    SECTOR, 0xfe00                  # and where in it lies what is read

        .equ    NEXT, 1                         # a descriptor's flags
        .equ    WRITE, 2

        # The registers that a driver uses.
        .equ    MAGIC, 0x000
        .equ    DEVICE_ID, 0x008
        .equ    DRIVER_FEATURES, 0x020
        .equ    DRIVER_FEATURES_SEL, 0x024
        .equ    QUEUE_SEL, 0x030
        .equ    QUEUE_SIZE, 0x038
        .equ    QUEUE_READY, 0x044
        .equ    NOTIFY, 0x050
        .equ    INTERRUPT_STATUS, 0x060
        .equ    INTERRUPT_ACK, 0x064
        .equ    STATUS, 0x070
        .equ    QUEUE_DESC, 0x080
        .equ    QUEUE_DRIVER, 0x090
        .equ    QUEUE_DEVICE, 0x0a0

        # What a driver writes to bring up a window's queue, as `bring_up` takes it.
        .macro  registers window, queue, table, available, used
        .irp    status, 0, 1, 3                 # reset, ACKNOWLEDGE, DRIVER
        .short  \window + STATUS
        .long   \status
        .endr
        .short  \window + DRIVER_FEATURES_SEL
        .long   1
        .short  \window + DRIVER_FEATURES       # VERSION_1
        .long   1
        .short  \window + STATUS                # FEATURES_OK
        .long   11
        .short  \window + QUEUE_SEL
        .long   \queue
        .short  \window + QUEUE_SIZE
        .long   4
        .short  \window + QUEUE_DESC
        .long   \table
        .short  \window + QUEUE_DRIVER
        .long   \available
        .short  \window + QUEUE_DEVICE
        .long   \used
        .short  \window + QUEUE_READY
        .long   1
        .short  \window + STATUS                # DRIVER_OK
        .long   15
        .short  0xffff
        .endm

        # Lets the device at a window serve the one chain that its queue offers, and halts until it has told so. `sti`
        # takes effect after the instruction behind it, so no interrupt comes before the halt.
        .macro  serve window, queue, available, told
        movw    $1, \available + 2
        movl    $\queue, %es:(\window + NOTIFY)
1:      cli
        cmpb    $1, \told
        je      2f
        sti
        hlt
        jmp     1b
2:
        .endm

        # What a device's interrupt comes to.
        .macro  handler window, told
        pushl   %ecx
        movl    %es:(\window + INTERRUPT_STATUS), %ecx
        movl    %ecx, %es:(\window + INTERRUPT_ACK)
        incb    \told
        popl    %ecx
        iret
        .endm

        .globl  _start
_start:
        xorw    %ax, %ax
        movw    %ax, %ds
        movw    %ax, %ss
        movw    $_start, %sp                    # the stack lies below the program
        movw    $WINDOWS, %ax
        movw    %ax, %es
        movw    $REGION, %ax
        movw    %ax, %fs
        movw    $on_block, 4 * 0x20             # the vectors of the block device and of the console
        movw    $0, 4 * 0x20 + 2
        movw    $on_console, 4 * 0x21
        movw    $0, 4 * 0x21 + 2

        movw    $1, %bp                         # step 1: a block device and a console
        cmpl    $0x74726976, %es:(BLOCK + MAGIC)
        jne     failed
        cmpl    $2, %es:(BLOCK + DEVICE_ID)
        jne     failed
        cmpl    $3, %es:(CONSOLE + DEVICE_ID)
        jne     failed

        incw    %bp                             # step 2: both take their driver and a queue
        movw    $block_registers, %si
        call    bring_up
        movw    $console_registers, %si
        call    bring_up
        cmpl    $15, %es:(BLOCK + STATUS)
        jne     failed
        cmpl    $15, %es:(CONSOLE + STATUS)
        jne     failed

        incw    %bp                             # step 3: sector 0 is read
        serve   BLOCK, 0, block_available, block_told
        cmpb    $0, status
        jne     failed

        movw    $SECTOR, %si                    # its line ends where a line ends
line:   lodsb   %fs:(%si), %al
        cmpb    $'\n', %al
        jne     line
        subw    $SECTOR, %si
        movw    %si, line_length
        serve   CONSOLE, 1, console_available, console_told
        xorw    %bp, %bp
failed:
        movw    %bp, %ax
        cli
        hlt

# Writes registers: an offset and a number each, up to the offset ffff.
bring_up:
        lodsw
        cmpw    $0xffff, %ax
        je      up
        movw    %ax, %di
        lodsl
        movl    %eax, %es:(%di)
        jmp     bring_up
up:     ret

on_block:
        handler BLOCK, block_told
on_console:
        handler CONSOLE, console_told

block_registers:
        registers BLOCK, 0, block_table, block_available, BLOCK_USED
console_registers:
        registers CONSOLE, 1, console_table, console_available, CONSOLE_USED

block_told:
        .byte   0
console_told:
        .byte   0
hello:
        .ascii  "hello from "
hello_end:

        .balign 16, 0
block_table:
        .long   header, 0, 16                   # an address of 8 bytes, a length of 4, flags and next of 2 each
        .short  NEXT, 1
        .long   16 * REGION + SECTOR, 0, 512
        .short  NEXT | WRITE, 2
        .long   status, 0, 1
        .short  WRITE, 0
console_table:
        .long   hello, 0, hello_end - hello
        .short  NEXT, 1
        .long   16 * REGION + SECTOR, 0
line_length:
        .long   0
        .short  0, 0

block_available:
        .short  0, 0, 0, 0, 0, 0                # flags, idx, the heads of four chains
console_available:
        .short  0, 0, 0, 0, 0, 0
header:
        .long   0, 0, 0, 0                      # type 0, a read; of sector 0
status:
        .byte   0xff                            # no status of the device's
