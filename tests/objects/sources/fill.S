/* Records without new code: by address and by name, of 1, 9 and 31 bytes, and a jump between them. */
        .macro record name=0, new=0, old=0, new_size, old_size
        .quad \name, \new, \old
        .long \new_size, \old_size
        .byte 1
        .zero 31
        .endm

        .section .livepatch.funcs, "aw", @progbits
        .balign 8
        record old=0xffff82d080100000, new_size=1, old_size=1
        record name=printed, new_size=9, old_size=20
        record name=domctl, new=replacement, new_size=(replacement_end - replacement), old_size=5
        record old=0xffff82d0802fffe1, new_size=31, old_size=31

        .section .rodata, "a", @progbits
printed: .asciz "printk"
domctl: .asciz "do_domctl"

        .text
        .globl replacement
        .hidden replacement
replacement:
        lea printed(%rip), %rdi
        jmp printk
replacement_end:
        .hidden printk
        .section .note.GNU-stack, "", @progbits
