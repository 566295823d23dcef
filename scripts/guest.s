// A guest of our own for guest.sh: it sets the registers of both stages, turns them on and stays there.
// Stage 1: 39 bits of 4 KB pages below, with tags; 42 bits of 64 KB pages above; the ASID is that of TTBR1_EL1.
// Stage 2, where the guest starts at EL2: 36 bits of 16 KB pages, and not everywhere the same address.
    .set PAGE, 0x403            // a page or a table with the access flag
    .set BLOCK, 0x401
    .set NO_FLAG, 0x003         // a page without the access flag; as a table it needs none
    .set READ2, 0x40            // stage 2: data may be read
    .set OPEN2, 0xc0            // stage 2: data may be read and written
    .set SHIFTED, 0x42000000    // an intermediate address that stage 2 takes elsewhere
    .text
    .globl _start
_start:
    mrs x0, CurrentEL
    cmp x0, #(2 << 2)
    b.ne at_el1
    ldr x0, =0x8002805c         // T0SZ 28, SL0 1, 16 KB, 40 bits out
    msr vtcr_el2, x0
    ldr x0, =under
    movk x0, #0x5, lsl 48       // VMID 5
    msr vttbr_el2, x0
    ldr x0, =0x80000001         // RW, VM
    msr hcr_el2, x0
    ldr x0, =at_el1
    msr elr_el2, x0
    mov x0, #0x3c5              // EL1, with its own stack pointer
    msr spsr_el2, x0
    eret
at_el1:
    ldr x0, =0xff44000c0400     // indices 0 to 5: Device, Device, Device, Device, Non-cacheable, write-back
    msr mair_el1, x0
    ldr x0, =0x22c0560019
    msr tcr_el1, x0             // T0SZ 25, 4 KB, TBI0, T1SZ 22, 64 KB, A1, 40 bits out
    ldr x0, =below
    msr ttbr0_el1, x0
    ldr x0, =above
    movk x0, #0x12, lsl 48      // ASID 0x12
    msr ttbr1_el1, x0
    isb
    mrs x0, sctlr_el1
    orr x0, x0, #1
    msr sctlr_el1, x0
    isb
    mov x19, #0x600d            // guest.sh waits for this
stay:
    b stay
    .ltorg

    .balign 65536
above:                          // level 2, 512 MB an entry
    .quad 0x40000000 + BLOCK, 0x60000000 + BLOCK - 0x400, above3 + 3, SHIFTED + 0x10003, 0x10000000 + BLOCK
    .fill 8187, 8, 0
above3:                         // level 3, 64 KB an entry
    .quad 0x40210000 + PAGE, 0x40220000 + NO_FLAG, 0x40230000 + BLOCK, 0x40240000 + PAGE + 0x40, 0x42000000 + PAGE
    .fill 8187, 8, 0
below:                          // level 1, 1 GB an entry
    .quad 0x0 + BLOCK, 0x40000000 + BLOCK, 0x80000000 + BLOCK - 0x400, below2 + 3, 0x1000000000 + BLOCK, 0x20000000000 + BLOCK
    .fill 506, 8, 0
below2:                         // level 2, 2 MB an entry
    .quad 0x40200000 + BLOCK, below3 + 3, SHIFTED + 3, SHIFTED + 0x4003, SHIFTED + 0x8003, SHIFTED + 0xc003
    .quad 0x4000000 + BLOCK, 0x8000000 + BLOCK, 0x42000000 + BLOCK, 0x20000000003, SHIFTED + 0x2003
    .fill 501, 8, 0
below3:                         // level 3, 4 KB an entry
    .quad 0x40201000 + PAGE, 0x40202000 + NO_FLAG, 0x40203000 + PAGE + 0x40, 0x40204000 + PAGE + 0x80
    .quad SHIFTED + 0x1000 + PAGE, SHIFTED + 0x5000 + PAGE, SHIFTED + 0x9000 + PAGE, SHIFTED + 0xd000 + PAGE
    .quad SHIFTED + 0x10000 + PAGE, 0x4000000000 + PAGE, 0x20000000000 + PAGE, 0, 0x3, 0x1, 0x2, 0
    .set page, 0x40210000
    .rept 16                    // a contiguous run
    .quad page + PAGE + (1 << 52)
    .set page, page + 0x1000
    .endr
    .fill 480, 8, 0

    .balign 16384
under:                          // level 2, 32 MB an entry; all of the first 2 GB but for the one at 0x42000000
    .quad 0x0 + BLOCK + OPEN2, 0x0, 0x46000000 + BLOCK + OPEN2, 0x6000000 + BLOCK + READ2, 0x8000000 + BLOCK + OPEN2
    .fill 27, 8, 0
    .quad 0x40000000 + BLOCK + OPEN2, under3 + 3, 0x44000000 + BLOCK + OPEN2 - 0x400
    .fill 2013, 8, 0
under3:                         // level 3, 16 KB an entry: SHIFTED and behind it
    .quad shifted + PAGE + OPEN2, 0x42004000 + NO_FLAG + OPEN2, 0x42008000 + PAGE, 0, 0x42010000 + PAGE + READ2
    .fill 2043, 8, 0
shifted:                        // where SHIFTED really lies: four tables of 4 KB
    .quad 0x40280000 + PAGE, SHIFTED + 0x4000 + PAGE, SHIFTED + 0x10000 + PAGE, 0x44000000 + PAGE
    .fill 1020, 8, 0
    .quad 0x40290000 + PAGE, 0x8000000 + PAGE, 0x2000000 + PAGE
    .fill 1021, 8, 0
