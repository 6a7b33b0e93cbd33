# void other_code(void): jumps from one cache line to the next, 2,048 of them. After a call none of the caller's code is left in the
# processor's cache of instructions, which memory that is merely read and written does not empty.
    .pushsection .text.other_code, "ax", @progbits
    .globl other_code
    .type other_code, @function
    .p2align 6
other_code:
    .rept 2048
    jmp 2f
    .p2align 6
2:
    .endr
    ret
    .size other_code, . - other_code
    .popsection

# The stack need not be executable.
    .pushsection .note.GNU-stack, "", @progbits
    .popsection
