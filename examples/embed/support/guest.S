# A bare-metal guest for RISC-V, 64 bits: it finds its devices, reads sector 0 over a virtqueue, and puts out
# "hello from " and the line that it found there. It ends with a0 = 0, or with the number of the step that failed.
# emulator.c runs it; `./assemble guest > support/guest.h` makes bytes of it.

        .option norelax                         # every assembler gives the same bytes

        # In pages of 4 KiB, as `lui` takes them.
        .equ    WINDOWS, 0x0a000                # the windows lie at 0a000000, one after the other
        .equ    AREA, 0x8                       # each queue has 32 KiB of the memory:
        .equ    AVAIL, 0x1                      # after the descriptors the available ring,
        .equ    USED, 0x2                       # the used ring,
        .equ    DATA, 0x3                       # and what is read and written

        .equ    NEXT, 1                         # a descriptor's flags
        .equ    WRITE, 2

        # The registers that a driver uses.
        .equ    MAGIC, 0x000
        .equ    DEVICE_ID, 0x008
        .equ    DRIVER_FEATURES, 0x020
        .equ    DRIVER_FEATURES_SEL, 0x024
        .equ    QUEUE_SEL, 0x030
        .equ    QUEUE_SIZE_MAX, 0x034
        .equ    QUEUE_SIZE, 0x038
        .equ    QUEUE_READY, 0x044
        .equ    NOTIFY, 0x050
        .equ    INTERRUPT_STATUS, 0x060
        .equ    INTERRUPT_ACK, 0x064
        .equ    STATUS, 0x070
        .equ    QUEUE_DESC, 0x080
        .equ    QUEUE_DRIVER, 0x090
        .equ    QUEUE_DEVICE, 0x0a0

        # Writes a number to a register of the window at a0.
        .macro  set register, number
        li      t0, \number
        sw      t0, \register(a0)
        .endm

        # Writes an address to a register of the window at a0: that of a page of the area at a2.
        .macro  set_page register, page
        lui     t0, \page
        add     t0, t0, a2
        sw      t0, \register(a0)
        sw      zero, (\register + 4)(a0)
        .endm

        # Puts a descriptor at an address.
        .macro  descriptor at, addr, len, flags, next
        sd      \addr, 0(\at)
        sw      \len, 8(\at)
        li      t0, \flags
        sh      t0, 12(\at)
        li      t0, \next
        sh      t0, 14(\at)
        .endm

        .globl  _start
_start:
        li      s2, 1
        slli    s2, s2, 31                      # s2: the block device's area, where the memory begins: 80000000
        lui     s3, AREA
        add     s3, s3, s2                      # s3: the console's area

        li      s11, 1                          # step 1: a block device and a console
        li      a0, 2
        jal     find
        mv      s4, a0                          # s4: the block window
        li      a0, 3
        jal     find
        mv      s5, a0                          # s5: the console window

        li      s11, 2                          # step 2: the block device takes its driver and queue 0
        mv      a0, s4
        li      a1, 0
        mv      a2, s2
        jal     bring_up
        li      s11, 3                          # step 3: the console takes its driver and queue 1
        mv      a0, s5
        li      a1, 1
        mv      a2, s3
        jal     bring_up

        li      s11, 4                          # step 4: sector 0 is read
        lui     s6, DATA
        add     s6, s6, s2                      # s6: the request's header; what is read comes 512 bytes on
        sd      zero, 0(s6)                     # type 0, a read
        sd      zero, 8(s6)                     # of sector 0
        li      t0, 0xff
        sb      t0, 16(s6)                      # a status that the device doesn't write
        addi    s7, s6, 512
        addi    t2, s6, 16
        li      t1, 16
        descriptor s2, s6, t1, NEXT, 1
        addi    t3, s2, 16
        li      t1, 512
        descriptor t3, s7, t1, NEXT | WRITE, 2
        addi    t3, s2, 32
        li      t1, 1
        descriptor t3, t2, t1, WRITE, 0
        mv      a0, s4
        li      a1, 0
        mv      a2, s2
        jal     offer
        lbu     t0, 16(s6)
        bnez    t0, failed

        li      s11, 5                          # step 5: hello. The console reads the greeting in memory,
        lui     s8, DATA                        # so it is copied there
        add     s8, s8, s3
        mv      t3, s8
        jal     t1, copy                        # t1: what follows
        .asciz  "hello from "
        .balign 4, 0                            # with a fill: without one GNU as takes the text for aligned
copy:
        lbu     t0, 0(t1)
        sb      t0, 0(t3)
        addi    t1, t1, 1
        addi    t3, t3, 1
        bnez    t0, copy
        sub     t5, t3, s8
        addi    t5, t5, -1                      # t5: its length, without the zero at its end

        mv      t1, s7                          # the sector's line ends where a line ends
        li      t2, '\n'
line:
        lbu     t0, 0(t1)
        addi    t1, t1, 1
        bne     t0, t2, line
        sub     t4, t1, s7                      # t4: the line's length

        descriptor s3, s8, t5, NEXT, 1          # the greeting, and the line where it stands
        addi    t3, s3, 16
        descriptor t3, s7, t4, 0, 0
        mv      a0, s5
        li      a1, 1
        mv      a2, s3
        jal     offer
        li      s11, 0
failed:
        mv      a0, s11
        j       end

# The window of the device that has number a0, in a0.
find:
        lui     t0, WINDOWS
        li      t1, 0x74726976                  # "virt"
        lui     t2, WINDOWS + 2
        lui     t3, 1
look:
        lw      t4, MAGIC(t0)
        bne     t4, t1, other
        lw      t4, DEVICE_ID(t0)
        beq     t4, a0, found
other:
        add     t0, t0, t3
        bne     t0, t2, look
        j       failed
found:
        mv      a0, t0
        ret

# Brings up the device at window a0 with queue a1, which lies at a2.
bring_up:
        sw      zero, STATUS(a0)
        set     STATUS, 1                       # ACKNOWLEDGE
        set     STATUS, 3                       # and DRIVER
        set     DRIVER_FEATURES_SEL, 1
        set     DRIVER_FEATURES, 1              # VERSION_1
        set     STATUS, 11                      # and FEATURES_OK
        lw      t1, STATUS(a0)
        li      t0, 11
        bne     t0, t1, failed                  # where FEATURES_OK doesn't stand
        sw      a1, QUEUE_SEL(a0)
        li      t0, 4
        lw      t1, QUEUE_SIZE_MAX(a0)
        bltu    t1, t0, failed
        sw      t0, QUEUE_SIZE(a0)
        set_page QUEUE_DESC, 0
        set_page QUEUE_DRIVER, AVAIL
        set_page QUEUE_DEVICE, USED
        set     QUEUE_READY, 1
        lw      t0, QUEUE_READY(a0)
        beqz    t0, failed
        set     STATUS, 15                      # and DRIVER_OK
        ret

# Offers the chain that begins with descriptor 0 of the area at a2, and waits until it is used.
offer:
        lui     t1, AVAIL
        add     t1, t1, a2
        sh      zero, 0(t1)                     # flags
        sh      zero, 4(t1)                     # the chain's head
        li      t0, 1
        fence
        sh      t0, 2(t1)                       # idx: one chain was offered
        fence
        sw      a1, NOTIFY(a0)
        lui     t1, USED
        add     t1, t1, a2
wait:
        lhu     t2, 2(t1)                       # idx of the used ring
        bne     t2, t0, wait
        fence                                   # idx is read before what it tells of
        lw      t0, INTERRUPT_STATUS(a0)
        sw      t0, INTERRUPT_ACK(a0)
        ret
end:
