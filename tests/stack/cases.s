# What `run` puts to bin/stack: small functions in the assembly of x86-64. A case starts with a line `$ what it is`; a line `@ word` in it
# is an option of bin/stack, or a processor that is another one. Before the first case stand macros. `function` opens a function in a
# section of its own, as in the static library; `taking` makes a whole one with a frame of so many octets, `calling` one that also pushes
# a register and calls another; `edits` makes the three edits, small. `table` makes a jump table that leads to one or two places, and
# `by_table` takes into rax where the table's entry of number rdi leads to, the way LLVM does.

.macro function name
    .section .text.\name, "ax", @progbits
    \name:
.endm
.macro taking name, octets
    function \name
    sub $\octets, %rsp
    add $\octets, %rsp
    ret
.endm
.macro calling name, callee, octets
    function \name
    push %rbx
    sub $\octets, %rsp
    call \callee
    add $\octets, %rsp
    pop %rbx
    ret
.endm
.macro by_table name=.Ltable
    lea \name(%rip), %rcx
    movslq (%rcx,%rdi,4), %rax
    add %rcx, %rax
.endm
.macro table first, second, name=.Ltable
    .section .rodata
    .p2align 2
    \name:
    .long \first-\name
    .ifnb \second
    .long \second-\name
    .endif
.endm
.macro edits
    taking tk_replace, 8
    taking tk_append, 8
    taking tk_remove, 8
.endm

$ an edit of 1024 octets
    calling tk_replace, inner, 992
    taking tk_append, 8
    taking tk_remove, 8
    function inner
    movb $0, -8(%rsp)
    ret

$ an edit of an octet more, below the stack pointer
    taking tk_replace, 8
    calling tk_append, inner, 992
    taking tk_remove, 8
    function inner
    movb $0, -9(%rsp)
    ret

$ an edit of eight octets more, in its frame
    taking tk_replace, 8
    taking tk_append, 8
    calling tk_remove, inner, 1000
    taking inner, 8

$ another function of 2048 octets
    edits
    taking tk_other, 2040

$ another function of eight octets more
    edits
    taking tk_other, 2048

$ an edit that is not there
    taking tk_replace, 8
    taking tk_remove, 8

$ the deeper of two calls, and the C library
    edits
    taking flat, 24
    calling deeper, memset, 48
    function tk_other
    sub $8, %rsp
    call deeper
    call flat
    add $8, %rsp
    ret

$ functions inside
@ --all
    edits
    calling tk_other, inner, 0
    taking inner, 24

$ frames made in other ways
    edits
    function tk_other
    lea -16(%rsp), %rsp
    add $-16, %rsp
    pushq $1
    sub $-40, %rsp
    ret

$ an index below the stack pointer, in a function that calls none
    edits
    function tk_other
    movb $0, -9(%rsp,%rdi)
    ret

$ a pointer into the stack, in functions that call none
    edits
    function tk_copying
    push %rbp
    mov %rsp, %rbp
    movb $0, -100(%rbp)
    pop %rbp
    ret
    function tk_leading
    lea 4(%rsp), %rax
    movb $0, -100(%rax)
    ret

$ a function that has the name of one of the C library
    edits
    calling tk_other, memset, 0
    taking memset, 24

$ a jump to another function, which takes this one's place
    edits
    taking inner, 24
    function tk_other
    jmp inner

$ a jump table, of which an arm takes more
    edits
    function tk_other
    by_table
    jmp *%rax
    .Lmore:
    push %rbx
    push %rax
    pop %rax
    pop %rbx
    .Lnone:
    ret
    table .Lnone, .Lmore

$ a jump table by registers that are kept over a call and a product, an entry of it at the function's end
    edits
    taking inner, 24
    function tk_other
    push %rbp
    push %rbx
    lea .Ltable(%rip), %rbp
    mov %rbp, %rbx
    call inner
    mul %rdi
    movslq (%rbp,%rsi,4), %rax
    add %rbx, %rax
    xchg %ax, %ax
    cmp %rbx, %rax
    jmp *%rax
    .Lleft:
    pop %rbx
    pop %rbp
    ret
    .Lend:
    table .Lleft, .Lend

$ two jump tables
    edits
    function tk_other
    by_table
    jmp *%rax
    .Lfirst:
    by_table .Lother
    jmp *%rax
    .Lsecond:
    push %rbx
    push %rbx
    pop %rbx
    pop %rbx
    ret
    table .Lfirst
    table .Lsecond, name=.Lother

$ an instruction of which a disassembler tells more on a line of its own
    edits
    function tk_other
    shufpd $2, .Lpair(%rip), %xmm1
    ret
    .section .rodata.cst16
    .p2align 4
    .Lpair:
    .quad 1, 2

$ recursion
    edits
    calling tk_other, inner, 0
    function inner
    jmp tk_other

$ a function that calls itself
    edits
    calling tk_other, tk_other, 0

$ an indirect call
    edits
    calling tk_other, *%rdi, 0

$ an indirect jump
    edits
    function tk_other
    jmp *%rdi

$ an indirect jump behind a jump table
    edits
    function tk_other
    by_table
    jmp *%rax
    .Lmore:
    push %rbx
    call memset
    pop %rbx
    jmp *%rax
    table .Lmore

$ a call on the way to a jump table
    edits
    function tk_other
    by_table
    call memset
    jmp *%rax
    .Lnone:
    ret
    table .Lnone

$ a product on the way to a jump table
    edits
    function tk_other
    by_table
    mul %rdi
    jmp *%rax
    .Lnone:
    ret
    table .Lnone

$ a jump by a table that was kept in memory
    edits
    function tk_other
    lea .Ltable(%rip), %rcx
    mov %rcx, -8(%rsp)
    mov -8(%rsp), %rdx
    movslq (%rdx,%rdi,4), %rax
    add %rdx, %rax
    jmp *%rax
    .Lnone:
    ret
    table .Lnone

$ a jump to where a table stands
    edits
    function tk_other
    lea .Ltable(%rip), %rcx
    jmp *%rcx
    .Lnone:
    ret
    table .Lnone

$ a jump by a table that the caller hands over, beside one of the function's own
    edits
    function tk_other
    by_table
    jmp *%rax
    .Lnone:
    movslq (%rsi,%rdi,4), %rax
    add %rsi, %rax
    jmp *%rax
    table .Lnone

$ a jump by a table that is another one on one of two ways
    edits
    function tk_other
    lea .Ltable(%rip), %rcx
    test %rdi, %rdi
    je .Lsame
    mov %rsi, %rcx
    .Lsame:
    movslq (%rcx,%rdi,4), %rax
    add %rcx, %rax
    jmp *%rax
    .Lnone:
    ret
    table .Lnone

$ a jump by a distance out of one table and another's start
    edits
    function tk_other
    lea .Ltable(%rip), %rcx
    lea .Lother(%rip), %rdx
    movslq (%rcx,%rdi,4), %rax
    add %rdx, %rax
    jmp *%rax
    .Lnone:
    ret
    table .Lnone
    table .Lnone, name=.Lother

$ a jump into the way to a jump table
    edits
    function tk_other
    lea .Ltable(%rip), %rcx
    test %rsi, %rsi
    je .Ljump
    movslq (%rcx,%rdi,4), %rax
    add %rcx, %rax
    .Ljump:
    jmp *%rax
    .Lnone:
    ret
    table .Lnone

$ a jump by a table that is not there
    edits
    function tk_other
    movslq (%rsi,%rdi,4), %rax
    add %rsi, %rax
    jmp *%rax

$ a jump table that leads to another function
    edits
    taking inner, 24
    function tk_other
    by_table
    jmp *%rax
    table inner

$ a jump into the middle of an instruction
    edits
    function tk_other
    jmp .Lhere+1
    .Lhere:
    mov $1, %eax
    ret

$ the relocation of a call at another instruction
    edits
    taking inner, 24
    function tk_other
    lea inner@PLT(%rip), %rax
    ret

$ a far call
    edits
    function tk_other
    lcall *(%rdi)
    ret

$ octets that are no instruction
    edits
    function tk_other
    .byte 0x06
    ret

$ zeros, which a disassembler may leave out
    edits
    function tk_other
    ret
    .zero 64

$ two functions in a section
    edits
    taking inner, 24
    tk_other:
    ret

$ a call into the middle of a function
    edits
    taking inner, 24
    calling tk_other, inner+4, 0

$ code for another processor
@ aarch64
    tk_replace:
    ret

$ a frame of no fixed size
    edits
    function tk_other
    sub %rdi, %rsp
    add %rdi, %rsp
    ret

$ a frame that is aligned
    edits
    function tk_other
    mov %rsp, %rax
    and $-64, %rsp
    mov %rax, %rsp
    ret

$ a frame by its pointer
    edits
    function tk_other
    push %rbp
    mov %rsp, %rbp
    sub $64, %rsp
    leave
    ret

$ a frame exchanged
    edits
    function tk_other
    xchg %rax, %rsp
    ret

$ a frame taken off the stack
    edits
    function tk_other
    push %rax
    pop %rsp
    ret

$ a frame by half of the stack pointer
    edits
    function tk_other
    sub $64, %esp
    ret

$ two ways of other depths
    edits
    function tk_other
    test %rdi, %rdi
    je .Lover
    push %rax
    .Lover:
    ud2

$ a return from within a frame
    edits
    function tk_other
    push %rax
    ret

$ a return that takes more off
    edits
    function tk_other
    ret $8

$ a jump to another function from within a frame
    edits
    taking inner, 24
    function tk_other
    push %rax
    jmp inner

$ a call of a function that is not there
    edits
    calling tk_other, malloc, 0

$ code that nothing leads to
    edits
    function tk_other
    ret
    push %rax
    ret

$ code that goes beyond the end
    edits
    function tk_other
    push %rax
