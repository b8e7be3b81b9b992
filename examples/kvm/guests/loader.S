# The image of a Linux guest, from guest frame 0 on: descriptors, tables that map the first GiB to itself, code.
        .globl  _start
        .section .boot, "awx"
        .quad   0, 0                            # 0x00, 0x08
        .quad   0x00af9b000000ffff              # 0x10: code, 64 bits
        .quad   0x00cf93000000ffff              # 0x18: data
        .org    0x1000
        .quad   0x2023
        .org    0x2000
        .quad   0x3023
        .org    0x3000
        .set    at, 0
        .rept   512
        .quad   at | 0xe3                       # 2 MiB, accessed and dirty: the tables are never written
        .set    at, at + 0x200000
        .endr
        .org    0x4000
_start: call    main                            # returns where Linux begins, or 0
        test    %rax, %rax
        jz      1f
        mov     $0x8000, %esi                   # Linux's boot_params, of linux.py
        xor     %ebp, %ebp
        xor     %edi, %edi
        xor     %ebx, %ebx
        jmp     *%rax
1:      mov     $0x1009, %edx
        out     %eax, %dx
        jmp     1b
