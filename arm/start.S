// Entry at EL2, the exception vectors, and one fetch at EL0 or EL1.

    .section .start, "ax"
    .global start
start:
    ldr     x0, =stack_top
    mov     sp, x0
    ldr     x0, =vectors
    msr     vbar_el2, x0
    isb
    bl      main
1:  b       1b

// uint64_t fetch_at(uint64_t address, uint64_t spsr, uint64_t *elr)
// Runs EL0 or EL1, as SPSR_EL2 says, at the address until an exception comes back. Returns ESR_EL2, and ELR_EL2 through the pointer.
    .text
    .global fetch_at
fetch_at:
    stp     x29, x30, [sp, #-112]!
    stp     x19, x20, [sp, #16]
    stp     x21, x22, [sp, #32]
    stp     x23, x24, [sp, #48]
    stp     x25, x26, [sp, #64]
    stp     x27, x28, [sp, #80]
    str     x2, [sp, #96]
    msr     elr_el2, x0
    msr     spsr_el2, x1
    eret

// An exception from EL0 or EL1: the stack is as fetch_at left it.
fetched:
    ldr     x1, [sp, #96]
    mrs     x2, elr_el2
    str     x2, [x1]
    mrs     x0, esr_el2
    ldp     x27, x28, [sp, #80]
    ldp     x25, x26, [sp, #64]
    ldp     x23, x24, [sp, #48]
    ldp     x21, x22, [sp, #32]
    ldp     x19, x20, [sp, #16]
    ldp     x29, x30, [sp], #112
    ret

// An exception of this program's own.
unexpected:
    mrs     x0, esr_el2
    mrs     x1, elr_el2
    mrs     x2, far_el2
    b       stopped

    .balign 2048
vectors:
    .rept   8                       // from EL2
    .balign 128
    b       unexpected
    .endr
    .balign 128
    b       fetched                 // from EL0 or EL1, synchronous
    .rept   7
    .balign 128
    b       unexpected
    .endr
