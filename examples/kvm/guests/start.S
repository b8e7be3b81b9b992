# A guest's image, from guest frame 0 on: descriptors, task, tables that map the first GiB to itself, then the code.
        .globl  _start
        .section .boot, "awx"
        .quad   0, 0, 0                         # 0x00 to 0x10
        .quad   0x00affb000000ffff              # 0x18: code, ring 3, 64 bits
        .quad   0x00cff3000000ffff              # 0x20: data, ring 3
        .quad   0x00008b00040003ff, 0           # 0x28: task, at 0x400
        .org    0x466
        .word   0x68                            # its map of ports: all allowed
        .org    0x1000
        .quad   0x2007
        .org    0x2000
        .quad   0x3007
        .org    0x3000
        .set    at, 0
        .rept   512
        .quad   at | 0xe7                       # 2 MiB, accessed and dirty: the tables are never written
        .set    at, at + 0x200000
        .endr
        .org    0x4000
_start: call    main                            # rdi is the virtual processor, rsi the slot
        mov     $0x1009, %edx
        out     %eax, %dx
1:      jmp     1b
