/* Where the machine begins, on one core at exception level 1: a stack, floating-point registers, which the library may use,
   and a page table of one page, since memory without one is that of devices, where accesses have to be aligned. */
    .section .text.start, "ax"
    .global _start
_start:
    ldr x0, =stack_end
    mov sp, x0
    mov x0, #(3 << 20)
    msr cpacr_el1, x0
    ldr x0, =table
    msr ttbr0_el1, x0
    mov x0, #0x00ff               /* attribute 0: memory with caches; 1: devices */
    msr mair_el1, x0
    ldr x0, =0x00803519           /* 39 bits of addresses in pages of 4 KiB, cached, inner shareable; no upper half */
    msr tcr_el1, x0
    isb
    mrs x0, sctlr_el1
    ldr x1, =0x1005               /* translation, caches */
    orr x0, x0, x1
    msr sctlr_el1, x0
    isb
    bl main
    ldr w0, =0x84000008           /* PSCI: switch the machine off */
    hvc #0
0:  wfi
    b 0b

    .section .data
    .balign 4096
table:                            /* 1 GiB each: devices, and then memory */
    .quad 0x00000000 | 0x405
    .quad 0x40000000 | 0x701
    .fill 510, 8, 0

    .section .bss
    .balign 16
    .space 65536
stack_end:
