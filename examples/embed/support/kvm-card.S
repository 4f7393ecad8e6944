# A guest in real mode with a network card: it sends frames to another guest, and gets as many from that. It finds in si a
# device tree, which says where its devices are, in ebx and ecx which features it takes (0 to 31 and 32 to 63), so that its
# queues are split or packed, with or without EVENT_IDX, and in dx how many frames. A frame's length and bytes follow from its number and its sender, and each that comes is compared. The
# buffers lie in the memory's second region. It ends halted for good, with ax = 0 or the number of the step that failed,
# bx = the frames that it sent, cx = those that it got, dx = its notifications, and si = its interrupts. kvm.c runs it at 1000
# as `kvm cards`; `./assemble kvm-card` makes bytes of it.
#
# It has no barrier between its ring and what the device wants: the device works only while this CPU stands.

        .code16

        .equ    SIZE, 8                         # a queue has so many descriptors, and a buffer for each,
        .equ    BUFFER, 0x800                   # of 2 to the
        .equ    BUFFER_BITS, 11
        .equ    REGION, 0x2000                  # es, the segment of the second region, in which they lie
        .equ    EXPECTED, 0x4000                # where in ds a frame is made that one which came is compared with
        .equ    HEADER, 12                      # what stands before a frame (5.1.6)
        .equ    AHEAD_BITS, 5                   # of a frame's number: it is sent before so many of the others have come

        .equ    WRITE, 2                        # a descriptor's flag
        .equ    BOTH, 0x8080                    # AVAIL and USED of a packed one
        .equ    AVAIL, 0x0080
        .equ    EVENT_IDX, 1 << 29
        .equ    PACKED, 1 << 2                  # of the features from 32 on

        # The registers that a driver uses.
        .equ    MAGIC, 0x000
        .equ    DEVICE_ID, 0x008
        .equ    DRIVER_FEATURES, 0x020
        .equ    DRIVER_FEATURES_SEL, 0x024
        .equ    QUEUE_SEL, 0x030
        .equ    QUEUE_SIZE, 0x038
        .equ    QUEUE_READY, 0x044
        .equ    NOTIFY, 0x050
        .equ    INTERRUPT_STATUS, 0x060
        .equ    INTERRUPT_ACK, 0x064
        .equ    STATUS, 0x070
        .equ    QUEUE_DESC, 0x080
        .equ    QUEUE_DRIVER, 0x090
        .equ    QUEUE_DEVICE, 0x0a0
        .equ    ADDRESS, 0x100                  # the card's, of 6 bytes (5.1.4)

        # A queue: its number, its three areas, its first buffer's place, its descriptors' flags, and three counts of
        # buffers: offered, used, and offered when the device was last notified.
        .equ    NUMBER, 0
        .equ    TABLE, 2
        .equ    DRIVER, 4
        .equ    DEVICE, 6
        .equ    BUFFERS, 8
        .equ    FLAGS, 10
        .equ    OFFERED, 12
        .equ    USED, 14
        .equ    TOLD, 16

        .macro  put     register, value
        movl    \value, %fs:\register
        .endm

        .globl  _start
_start:
        xorw    %ax, %ax
        movw    %ax, %ds
        movw    %ax, %ss
        movw    $_start, %sp                    # the stack lies below the program
        movw    %ax, %es
        movl    %ebx, features
        movl    %ecx, features + 4
        movw    %dx, frames

        movw    $1, %bp                         # step 1: a network card, whose address differs from the other's in a bit
        call    find_card
        movw    $REGION, %ax
        movw    %ax, %es
        xorw    %di, %di
1:      movb    %fs:ADDRESS(%di), %al
        movb    %al, sending + 6(%di)           # from here to there
        movb    %al, receiving(%di)             # and the other way
        cmpw    $5, %di
        jne     2f
        xorb    $1, %al
2:      movb    %al, sending(%di)
        movb    %al, receiving + 6(%di)
        incw    %di
        cmpw    $6, %di
        jne     1b

        incw    %bp                             # step 2: it takes its driver and both queues
        put     STATUS, $0
        put     STATUS, $1                      # ACKNOWLEDGE
        put     STATUS, $3                      # DRIVER
        movl    features, %eax
        put     DRIVER_FEATURES_SEL, $0
        put     DRIVER_FEATURES, %eax
        movl    features + 4, %eax
        put     DRIVER_FEATURES_SEL, $1
        put     DRIVER_FEATURES, %eax
        put     STATUS, $11                     # FEATURES_OK
        cmpl    $11, %fs:STATUS
        jne     failed
        movw    $receive, %si
        call    set_up
        movw    $transmit, %si
        call    set_up
        put     STATUS, $15                     # DRIVER_OK
        cmpl    $15, %fs:STATUS
        jne     failed

        incw    %bp                             # step 3: the frames
        movw    $receive, %si
3:      movw    $BUFFER, %cx                    # each buffer waits for one
        call    offer
        cmpw    $SIZE, OFFERED(%si)
        jne     3b
        call    tell

turn:   movw    $transmit, %si                  # the buffers of those that were sent are free
        call    has_used
        jz      fill
        call    take
        testl   %ecx, %ecx                      # the device wrote nothing
        jnz     failed
        jmp     turn
fill:   movw    OFFERED(%si), %ax               # further frames are sent
        cmpw    frames, %ax
        je      filled
        movw    %ax, %dx
        subw    USED(%si), %dx
        cmpw    $SIZE, %dx
        je      filled
        movw    %ax, %dx
        shrw    $AHEAD_BITS, %dx                # at first each waits for the other's, later they send ahead
        addw    receive + USED, %dx
        cmpw    %dx, %ax
        jg      filled
        call    place
        movw    $sending, %bx
        call    make_frame
        call    offer
        jmp     fill
filled: call    tell

        movw    $receive, %si                   # one that came is compared, and its buffer waits again
        call    has_used
        jz      rest
        movw    USED(%si), %ax
        cmpw    frames, %ax
        je      failed
        pushw   %es
        pushw   %ds
        popw    %es
        movw    $EXPECTED, %di
        movw    $receiving, %bx
        call    make_frame
        popw    %es
        movw    $1, EXPECTED + 10               # it has one buffer (5.1.6.4)
        movzwl  %cx, %eax
        call    take
        cmpl    %eax, %ecx
        jne     failed
        movw    USED(%si), %ax
        decw    %ax
        call    place
        call    compare
        movw    $BUFFER, %cx
        call    offer
        jmp     turn                            # now it may send a further one

rest:   call    tell
        movw    frames, %ax
        cmpw    %ax, transmit + USED
        jne     wait
        cmpw    %ax, receive + USED
        je      done
wait:   call    want                            # what is used behind this interrupts, and what was before is seen here
        call    has_used
        jnz     turn
        movw    $transmit, %si
        call    want
        call    has_used
        jnz     turn
        sti                                     # takes effect behind the halt, so that no interrupt comes before it
        hlt
        cli
        jmp     turn

done:   xorw    %bp, %bp
failed:
        movw    %bp, %ax
        movw    transmit + USED, %bx
        movw    receive + USED, %cx
        movw    notified, %dx
        movw    interrupts, %si
        cli
        hlt

# ---- the device tree, of numbers whose high byte is first

# Finds the network card in the tree at si, whose root has cells of 32 bits: fs is its window's segment, and its line's vector
# is set.
find_card:
        cmpl    $0xedfe0dd0, (%si)              # the magic number
        jne     failed
        movl    12(%si), %edx                   # where the names of properties lie,
        bswapl  %edx
        addw    %si, %dx
        movl    8(%si), %eax                    # and the structure
        bswapl  %eax
        addw    %ax, %si
token:  lodsl
        bswapl  %eax
        cmpl    $4, %eax                        # nothing
        je      token
        cmpl    $3, %eax
        je      property
        cmpl    $2, %eax
        je      ends
        cmpl    $1, %eax                        # a node begins, and its name
        jne     failed                          # or the tree ends, and has no card
        movb    $0, is_virtio
1:      lodsb
        testb   %al, %al
        jnz     1b
        jmp     align

ends:   testb   $1, is_virtio                   # a node ends: whether it is the card's
        movb    $0, is_virtio
        jz      token
        movw    segment, %ax
        movw    %ax, %fs
        cmpl    $0x74726976, %fs:MAGIC
        jne     token
        cmpl    $1, %fs:DEVICE_ID
        jne     token
        movw    vector, %bx
        shlw    $2, %bx
        movw    $on_card, (%bx)
        movw    $0, 2(%bx)
        ret

property:
        lodsl                                   # the length of what is at si then,
        bswapl  %eax
        movl    %eax, %ecx
        lodsl                                   # and the name
        bswapl  %eax
        movw    %ax, %bx
        addw    %dx, %bx
        pushw   %si
        pushw   %cx
        movl    (%si), %eax
        bswapl  %eax
        movw    $compatible, %di
        call    is_name
        jne     1f
        movw    $virtio, %di
        movw    %si, %bx
        call    is_name
        sete    is_virtio
        jmp     3f
1:      movw    $reg, %di
        call    is_name
        jne     2f
        shrl    $4, %eax                        # a window begins below a MiB, at a multiple of 16
        movw    %ax, segment
        jmp     3f
2:      movw    $line, %di
        call    is_name
        jne     3f
        movw    %ax, vector
3:      popw    %cx
        popw    %si
        addw    %cx, %si
align:  addw    $3, %si                         # the next token is aligned
        andw    $-4, %si
        jmp     token

# Whether the text at bx is that at di: the zero flag is then 1. Leaves eax, dx and si.
is_name:
        pushw   %si
        movw    %bx, %si
1:      cmpsb
        jne     2f
        cmpb    $0, -1(%si)
        jne     1b
2:      popw    %si
        ret

# ---- for the queue at si

# Tells the device where the queue lies.
set_up: movzwl  NUMBER(%si), %eax
        put     QUEUE_SEL, %eax
        put     QUEUE_SIZE, $SIZE
        movzwl  TABLE(%si), %eax
        put     QUEUE_DESC, %eax
        movzwl  DRIVER(%si), %eax
        put     QUEUE_DRIVER, %eax
        movzwl  DEVICE(%si), %eax
        put     QUEUE_DEVICE, %eax
        put     QUEUE_READY, $1
        ret

# di is where in the region the buffer lies that is offered as the ax-th. Changes nothing else.
place:  movw    %ax, %di
        andw    $SIZE - 1, %di
        shlw    $BUFFER_BITS, %di
        addw    BUFFERS(%si), %di
        ret

# Offers the next buffer, of cx bytes.
offer:  movw    OFFERED(%si), %ax
        call    place
        movw    %ax, %bx
        andw    $SIZE - 1, %bx
        movw    %bx, %dx
        shlw    $4, %bx
        addw    TABLE(%si), %bx                 # its descriptor: an address of 8 bytes, a length of 4, and two times 2
        movzwl  %di, %edi
        addl    $16 * REGION, %edi
        movl    %edi, (%bx)
        movzwl  %cx, %ecx
        movl    %ecx, 8(%bx)
        movw    FLAGS(%si), %cx
        testb   $PACKED, features + 4
        jnz     1f
        movw    %cx, 12(%bx)                    # flags; next is 0
        movw    DRIVER(%si), %di
        movw    %dx, %bx
        addw    %bx, %bx
        movw    %dx, 4(%bx, %di)                # the head
        incw    %ax
        movw    %ax, 2(%di)                     # the idx
        movw    %ax, OFFERED(%si)
        ret
1:      movw    %dx, 12(%bx)                    # the buffer's id
        orw     $AVAIL, %cx
        testb   $SIZE, %al                      # each second time round the flags say the other
        jz      2f
        xorw    $BOTH, %cx
2:      movw    %cx, 14(%bx)
        incw    OFFERED(%si)
        ret

# Whether a buffer is used that wasn't taken: the zero flag is then 0.
has_used:
        testb   $PACKED, features + 4
        jnz     1f
        movw    DEVICE(%si), %bx
        movw    2(%bx), %ax                     # the idx
        cmpw    USED(%si), %ax
        ret
1:      movw    USED(%si), %bx
        movw    %bx, %ax
        andw    $SIZE - 1, %bx
        shlw    $4, %bx
        addw    TABLE(%si), %bx
        movw    14(%bx), %bx
        andw    $BOTH, %bx
        testb   $SIZE, %al
        jnz     2f
        xorw    $BOTH, %bx
2:      cmpw    $0, %bx                         # where it is used both flags are as the driver's round
        sete    %al
        testb   %al, %al
        ret

# Takes that buffer: ecx is how many bytes the device wrote. A network card uses its buffers in order. Leaves eax.
take:   movw    USED(%si), %bx
        andw    $SIZE - 1, %bx
        movw    %bx, %dx
        testb   $PACKED, features + 4
        jnz     1f
        shlw    $3, %bx
        addw    DEVICE(%si), %bx
        cmpw    %dx, 4(%bx)                     # the head, and the length
        jmp     2f
1:      shlw    $4, %bx
        addw    TABLE(%si), %bx
        cmpw    %dx, 12(%bx)                    # the id
2:      jne     failed
        movl    8(%bx), %ecx
        incw    USED(%si)
        ret

# Notifies the device of what was offered since the last time, where it wants that (2.7.13.4.1, 2.8.21.3.1).
tell:   movw    OFFERED(%si), %cx
        movw    TOLD(%si), %dx
        movw    %cx, TOLD(%si)
        cmpw    %dx, %cx
        je      told
        movw    DEVICE(%si), %bx
        testb   $PACKED, features + 4
        jnz     1f
        movw    $-1, %di
        movw    4 + 8 * SIZE(%bx), %ax          # avail_event
        testl   $EVENT_IDX, features
        jnz     3f
        testb   $1, (%bx)                       # NO_NOTIFY
        jz      notify
        ret
1:      movw    $2 * SIZE - 1, %di
        movw    (%bx), %ax                      # a place and a round, which together count modulo twice the size
        btrw    $15, %ax
        jc      2f
        addw    $SIZE, %ax
2:      cmpb    $1, 2(%bx)                      # 0: always; 1: never; 2: at that place
        jb      notify
        je      told
3:      notw    %ax                             # whether the event is one of those that weren't told
        addw    %cx, %ax
        andw    %di, %ax
        subw    %dx, %cx
        andw    %di, %cx
        cmpw    %cx, %ax
        jae     told
notify: movzwl  NUMBER(%si), %eax
        put     NOTIFY, %eax
        incw    notified
told:   ret

# Asks for an interrupt at the next used buffer. Without EVENT_IDX each one interrupts.
want:   testl   $EVENT_IDX, features
        jz      3f
        movw    DRIVER(%si), %bx
        movw    USED(%si), %ax
        testb   $PACKED, features + 4
        jnz     1f
        movw    %ax, 4 + 2 * SIZE(%bx)          # used_event
        ret
1:      movw    %ax, %dx
        andw    $SIZE - 1, %ax
        testb   $SIZE, %dl
        jnz     2f
        orw     $0x8000, %ax
2:      movw    %ax, (%bx)
        movw    $2, 2(%bx)
3:      ret

# ---- frames

# Makes frame ax at es:di, between the addresses at bx; cx is how many bytes it has with its header.
make_frame:
        pushw   %si
        movw    %ax, %dx
        xorw    %ax, %ax
        movw    $HEADER / 2, %cx
        rep stosw
        movw    %bx, %si
        movw    $7, %cx                         # two addresses and a type
        rep movsw
        movw    %dx, %ax                        # the number
        stosw
        movzwl  %dx, %eax                       # 60 to 1514 bytes
        imull   $97, %eax, %eax
        pushw   %dx
        xorl    %edx, %edx
        movl    $1455, %ecx
        divl    %ecx
        movw    $60 + HEADER, %cx
        addw    %dx, %cx
        popw    %ax
        pushw   %cx
        subw    $HEADER + 16 - 3, %cx           # words by the number and the sender
        shrw    $2, %cx
        shll    $16, %eax
        movb    11(%bx), %al
1:      addl    $0x9e3779b9, %eax
        stosl
        loop    1b
        popw    %cx
        popw    %si
        ret

# Compares the cx bytes at es:di with those that were expected.
compare:
        pushw   %si
        movw    $EXPECTED, %si
        movw    %cx, %dx
        shrw    $2, %cx
        repe cmpsl
        jne     failed
        movw    %dx, %cx
        andw    $3, %cx
        repe cmpsb
        jne     failed
        popw    %si
        ret

on_card:
        pushl   %ecx
        movl    %fs:INTERRUPT_STATUS, %ecx
        put     INTERRUPT_ACK, %ecx
        incw    interrupts
        popl    %ecx
        iret

compatible:
        .asciz  "compatible"
virtio: .asciz  "virtio,mmio"
reg:    .asciz  "reg"
line:   .asciz  "interrupts"
is_virtio:                                      # whether the node is a virtio device's: its window's segment, and its line
        .byte   0
        .balign 4, 0
segment:
        .short  0
vector:
        .short  0
features:
        .long   0, 0
frames:
        .short  0
notified:
        .short  0
interrupts:
        .short  0
receive:
        .short  0, 0x3000, 0x3100, 0x3200, 0x0000, WRITE, 0, 0, 0
transmit:
        .short  1, 0x3400, 0x3500, 0x3600, 0x4000, 0, 0, 0, 0
sending:                                        # to, from, and a type for experiments
        .byte   0, 0, 0, 0, 0, 0, 0, 0, 0, 0, 0, 0, 0x88, 0xb5
receiving:
        .byte   0, 0, 0, 0, 0, 0, 0, 0, 0, 0, 0, 0, 0x88, 0xb5
