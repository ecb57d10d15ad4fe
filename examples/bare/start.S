/* What comes before main on the board `virt` of qemu (aarch64): floating point allowed, a stack, empty variables, and memory with caches.
 * The library is compiled for floating point, and by default reads and writes words wherever they lie: for that memory must be normal, and so the
 * MMU on. STRICT leaves it off: then the library of the folder `strict`, and all else, must be compiled with -mstrict-align. */
    .section .text.start, "ax"
    .globl start
start:
    mov x0, #(3 << 20)              /* CPACR_EL1.FPEN: floating point and SIMD at EL1 and EL0 */
    msr cpacr_el1, x0
    isb
    adrp x0, stack_top
    add x0, x0, :lo12:stack_top
    mov sp, x0
    adrp x0, bss_begin
    add x0, x0, :lo12:bss_begin
    adrp x1, bss_end
    add x1, x1, :lo12:bss_end
1:  cmp x0, x1
    b.hs 2f
    str xzr, [x0], #8
    b 1b
2:  adrp x0, vectors
    add x0, x0, :lo12:vectors
    msr vbar_el1, x0
#ifndef STRICT
    adrp x0, table
    add x0, x0, :lo12:table
    msr ttbr0_el1, x0
    mov x0, #0xff00                 /* MAIR_EL1: attribute 0 is a device, 1 normal memory with caches */
    msr mair_el1, x0
    ldr x0, =0x100803519            /* TCR_EL1: 39 bits by 4 KB pages from TTBR0, cached tables, 36 bits of addresses */
    msr tcr_el1, x0
    isb
    mrs x0, sctlr_el1
    mov x1, #0x1005                 /* M, C, I: MMU and both caches */
    orr x0, x0, x1
    bic x0, x0, #2                  /* A: no trap at unaligned words */
    msr sctlr_el1, x0
#else
    mrs x0, sctlr_el1
    orr x0, x0, #2                  /* A: a trap at unaligned words */
    msr sctlr_el1, x0
#endif
    isb
    bl main
stop:
    wfi
    b stop

/* Whatever traps ends the board. */
    .balign 2048
vectors:
    .rept 16
    .balign 128
    mrs x0, esr_el1
    mrs x1, elr_el1
    mrs x2, far_el1
    bl trapped
    b stop
    .endr

/* The first gigabyte has the devices, the second the memory. */
    .section .rodata.table, "a"
    .balign 4096
table:
    .quad 0x00000000 | 0x401        /* a block, accessed, attribute 0 */
    .quad 0x40000000 | 0x705        /* a block, accessed, shared within, attribute 1 */
    .fill 510, 8, 0
