# A kernel that is loaded as Linux is. It prints a line with sequences for terminals, and one about where firmware would
# have left tables; then it sends back what it receives on its serial line, up to an end of transmission.
        .code64
        .org    0x1f1
        .byte   1                               # sectors after the first one that run in 16 bits
        .org    0x201
        .byte   0x6a
        .ascii  "HdrS"
        .org    0x236
        .byte   1                               # it begins with 64 bits, 512 bytes after these sectors
        .org    0x600
        lea     begins(%rip), %rsi
        call    print
        mov     $0x80000, %edi
        mov     $0x10000, %ecx
        xor     %eax, %eax
        repe scasq
        lea     zeros(%rip), %rsi
        je      1f
        lea     others(%rip), %rsi
1:      call    print
        mov     $0x3f8, %edx
        inb     %dx, %al                        # what came before it was ready is lost
        mov     $0x3fc, %edx
        mov     $3, %al
        outb    %al, %dx                        # ready to receive
2:      mov     $0x3fd, %edx
        inb     %dx, %al
        test    $1, %al
        jz      2b
        mov     $0x3f8, %edx
        inb     %dx, %al
        outb    %al, %dx
        cmp     $4, %al
        jne     2b
        mov     $0x1009, %edx
        out     %eax, %dx
        hlt
print:  mov     $0x3f8, %edx
1:      lodsb
        outb    %al, %dx
        cmp     $'\n', %al
        jne     1b
        ret
begins: .ascii  "the kernel \033[1mbegins\033[0m\033]0;\033[6n\033P\n"
zeros:  .ascii  "the kernel finds zeros\n"
others: .ascii  "the kernel finds other bytes\n"
        .org    4196
