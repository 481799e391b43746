# A 64-bit image that makes deliveries and returns on an emulated processor, and writes what it finds to the first serial port.
# GDT, TSS, IDT, stacks, text and gates stand at the addresses that docs/KERNEL.md gives them. The cases are in cases.inc, which
# scripts/compare-deliveries writes.
#
# A case is 16 quadwords:
#   0 CS   1 SS   2 RIP   3 RFLAGS   4 RSP   5 RAX   6 RBX   7 bad (bit n leaves stack n of processor 0 unmapped)
#   8 what comes before (1: an NMI is sent again in the handler of the first, and the second one's frame is told; 2: SYSRETQ behind SYSCALL)
#   9 address of the code to copy, 10 its target (a page of user text or of kernel code), 11 its length
#   12 RCX   13 R11   14 address of words to copy to RSP, 15 how many
# What is told, one line a case: 'N v V frame ADDRESS W0 W1 .. cs C ss S flags F rsp P cr2 A rcx R r11 R'.
    .intel_syntax noprefix
    .set MAGIC, 0x1badb002
    .section .boot, "ax"
    .align 4
    .long MAGIC, 0, -MAGIC
    .code32
    .globl start32
start32:
    cli
    mov esp, offset boot_stack
    # all of the first gigabyte as it is, in pages of 2 MiB
    mov edi, offset pd_low
    mov eax, 0x83
    mov ecx, 512
1:  mov [edi], eax
    mov dword ptr [edi + 4], 0
    add eax, 0x200000
    add edi, 8
    loop 1b
    # the second 2 MiB pair at 400000H: 16 pages of user text, read and execute
    mov eax, offset pt_text
    or eax, 7
    mov [pd_low + 8 * 2], eax
    mov edi, offset pt_text
    mov eax, offset text_pages
    or eax, 5
    mov ecx, 16
2:  mov [edi], eax
    add eax, 0x1000
    add edi, 8
    loop 2b
    # 10000000H: data page 0, and the local APIC's page at 10010000H, both without execution
    mov eax, offset pt_data
    or eax, 7
    mov [pd_low + 8 * 128], eax
    mov eax, offset data_page
    or eax, 7
    mov [pt_data], eax
    mov dword ptr [pt_data + 4], 0x80000000
    mov eax, 0xfee0001f
    mov [pt_data + 8 * 16], eax
    mov dword ptr [pt_data + 8 * 16 + 4], 0x80000000
    mov eax, offset pd_low
    or eax, 7
    mov [pdpt_low], eax
    mov eax, offset pdpt_low
    or eax, 7
    mov [pml4], eax
    # FFFFC90000000000H: the stacks of processor 0, filled by each case
    mov eax, offset pt_stacks
    or eax, 3
    mov [pd_stacks], eax
    mov eax, offset pd_stacks
    or eax, 3
    mov [pdpt_stacks], eax
    mov eax, offset pdpt_stacks
    or eax, 3
    mov [pml4 + 8 * 402], eax
    # FFFFFFFF81000000H and FFFFFFFF82000000H: kernel code
    mov eax, offset pt_kernel
    or eax, 3
    mov [pd_kernel + 8 * 8], eax
    mov eax, offset pt_body
    or eax, 3
    mov [pd_kernel + 8 * 16], eax
    mov eax, offset body_page
    or eax, 3
    mov [pt_body], eax
    mov edi, offset pt_kernel
    mov eax, offset kernel_pages
    or eax, 3
    mov ecx, 8
3:  mov [edi], eax
    add eax, 0x1000
    add edi, 8
    loop 3b
    mov eax, offset pd_kernel
    or eax, 3
    mov [pdpt_kernel + 8 * 510], eax
    mov eax, offset pdpt_kernel
    or eax, 3
    mov [pml4 + 8 * 511], eax
    # FFFF888000000000H: the area of processor 0, for a supervisor page in the lower half's view
    mov eax, offset pt_area
    or eax, 3
    mov [pd_area], eax
    mov eax, offset pd_area
    or eax, 3
    mov [pdpt_area], eax
    mov eax, offset pdpt_area
    or eax, 3
    mov [pml4 + 8 * 273], eax
    mov eax, offset area_page
    or eax, 3
    mov [pt_area], eax
    # long mode with no-execute pages and SYSCALL; write protection and alignment checks
    mov eax, cr4
    or eax, 0x20
    mov cr4, eax
    mov eax, offset pml4
    mov cr3, eax
    mov ecx, 0xc0000080
    rdmsr
    or eax, 0x901
    wrmsr
    mov eax, cr0
    and eax, 0xfffffffb
    or eax, 0x80050003
    mov cr0, eax
    lgdt [gdt_pointer]
    jmp 0x10:start64

    .code64
start64:
    mov ax, 0x18
    mov ds, ax
    mov es, ax
    mov ss, ax
    mov rsp, offset own_stack
    # no interrupts but those of the local APIC
    mov al, 0xff
    out 0x21, al
    out 0xa1, al
    # a gate for each vector: interrupt gates of selector 10H, vector 2 on IST 1, vector 8 on IST 2, DPL 3 for vector 3 alone
    xor ecx, ecx
4:  mov rax, 0xffffffff81002000
    mov rdx, rcx
    shl rdx, 4
    add rax, rdx
    mov ebx, 0x8e00
    cmp ecx, 2
    jne 5f
    mov rax, 0xffffffff81004000
    mov ebx, 0x8e01
5:  cmp ecx, 8
    jne 6f
    mov ebx, 0x8e02
6:  cmp ecx, 3
    jne 7f
    mov ebx, 0xee00
7:  mov [idt + rdx], ax
    mov word ptr [idt + rdx + 2], 0x10
    mov [idt + rdx + 4], bx
    shr rax, 16
    mov [idt + rdx + 6], ax
    shr rax, 16
    mov [idt + rdx + 8], eax
    mov dword ptr [idt + rdx + 12], 0
    inc ecx
    cmp ecx, 256
    jne 4b
    # the stub of each vector: push its number, jump to the recorder
    xor ecx, ecx
8:  mov rdi, offset kernel_pages + 0x2000
    mov rdx, rcx
    shl rdx, 4
    add rdi, rdx
    mov rsi, 0xffffffff81002000
    add rsi, rdx
    call write_stub
    inc ecx
    cmp ecx, 256
    jne 8b
    mov rdi, offset kernel_pages + 0x4000
    mov rsi, 0xffffffff81004000
    mov ecx, 2
    call write_stub
    # SYS at FFFFFFFF81003000H: 100H is told for the vector
    mov rdi, offset kernel_pages + 0x3000
    mov byte ptr [rdi], 0xe9
    mov rax, offset record_syscall
    mov rsi, 0xffffffff81003005
    sub rax, rsi
    mov [rdi + 1], eax
    # the TSS: RSP0, IST1 and IST2
    mov rax, 0xffffc90000004000
    mov [tss + 4], rax
    mov rax, 0xffffc90000014000
    mov [tss + 36], rax
    mov rax, 0xffffc90000018000
    mov [tss + 44], rax
    mov word ptr [tss + 102], 104
    mov rax, offset tss
    mov rbx, offset gdt_tss
    mov [rbx + 2], ax
    shr rax, 16
    mov [rbx + 4], al
    mov [rbx + 7], ah
    lidt [idt_pointer]
    mov ax, 0x40
    ltr ax
    mov ecx, 0xc0000081
    xor eax, eax
    mov edx, 0x00230010
    wrmsr
    mov ecx, 0xc0000082
    mov eax, 0x81003000
    mov edx, 0xffffffff
    wrmsr
    mov ecx, 0xc0000084
    mov eax, 0x40200
    xor edx, edx
    wrmsr
    # the local APIC, software enabled
    mov eax, 0x1ff
    mov rbx, 0x100100f0
    mov [rbx], eax
    mov qword ptr [number], 0
    mov qword ptr [case], offset cases

next_case:
    mov r15, [case]
    mov rax, offset cases_end
    cmp r15, rax
    jae done
    # the stacks that aren't bad: stack n has the pages 4n + 2 and 4n + 3
    xor ecx, ecx
    mov rbx, [r15 + 8 * 7]
9:  mov rdi, rcx
    shl rdi, 5
    lea rdi, [rdi + pt_stacks + 16]
    xor eax, eax
    bt rbx, rcx
    jc 10f
    mov eax, ecx
    shl eax, 13
    add eax, offset stack_pages
    or eax, 3
10: mov [rdi], rax
    test eax, eax
    jz 11f
    add eax, 0x1000
11: mov [rdi + 8], rax
    inc ecx
    cmp ecx, 7
    jne 9b
    mov rax, offset pml4
    mov cr3, rax
    xor eax, eax
    mov cr2, rax
    # UD2 all over both pages of code, then the case's own code and words
    mov eax, 0x0b0f
    mov edi, offset text_pages
    mov ecx, 2048
    rep stosw
    mov edi, offset body_page
    mov ecx, 2048
    rep stosw
    mov rsi, [r15 + 8 * 9]
    mov rdi, [r15 + 8 * 10]
    mov rcx, [r15 + 8 * 11]
    rep movsb
    mov rcx, [r15 + 8 * 15]
    test rcx, rcx
    jz 12f
    mov rsi, [r15 + 8 * 14]
    mov rdi, [r15 + 8 * 4]
    rep movsq
12: mov rax, [r15 + 8 * 8]
    mov [again], rax
    # by IRETQ to where the case begins
    mov rsp, offset own_stack
    push qword ptr [r15 + 8 * 1]
    push qword ptr [r15 + 8 * 4]
    push qword ptr [r15 + 8 * 3]
    push qword ptr [r15 + 8 * 0]
    push qword ptr [r15 + 8 * 2]
    mov rax, [r15 + 8 * 5]
    mov rbx, [r15 + 8 * 6]
    mov rcx, [r15 + 8 * 12]
    mov r11, [r15 + 8 * 13]
    iretq

write_stub:
    # push imm32; jmp rel32
    mov byte ptr [rdi], 0x68
    mov [rdi + 1], ecx
    mov byte ptr [rdi + 5], 0xe9
    mov rax, offset record
    sub rax, rsi
    sub rax, 10
    mov [rdi + 6], eax
    ret

record_syscall:
    # back at once, where the case is of SYSRETQ too
    cmp qword ptr [again], 2
    jne 23f
    mov qword ptr [again], 0
    sysretq
23: mov [told_rax], rax
    mov [told_rsp], rsp
    mov qword ptr [told_vector], 0x100
    jmp record_rest

record:
    mov [told_rax], rax
    mov rax, [rsp]
    mov [told_vector], rax
    lea rax, [rsp + 8]
    mov [told_rsp], rax
record_rest:
    mov rsp, offset own_stack
    pushfq
    pop rax
    mov [told_flags], rax
    mov rax, cr2
    mov [told_cr2], rax
    mov [told_rcx], rcx
    mov [told_r11], r11
    mov eax, cs
    mov [told_cs], rax
    mov eax, ss
    mov [told_ss], rax
    cld
    # an NMI again: sent here, waited for in vain, and let in by the IRETQ
    cmp qword ptr [again], 1
    jne 13f
    mov qword ptr [again], 0
    mov eax, 0x4400
    mov rbx, 0x10010300
    mov dword ptr [rbx + 16], 0
    mov [rbx], eax
    mov ecx, 2000000
14: loop 14b
    mov rsp, [told_rsp]
    iretq
13: mov rax, [number]
    call put_hex
    mov rsi, offset text_vector
    call put_text
    mov rax, [told_vector]
    call put_hex
    mov rsi, offset text_frame
    call put_text
    mov rax, [told_rsp]
    call put_hex
    # six words are told; the script knows how many count
    mov r12, [told_rsp]
    mov r13d, 6
    cmp qword ptr [told_vector], 0x100
    je 16f
    # not above the top of the stack
15: mov rax, r12
    and rax, 0x3fff
    jnz 17f
    cmp r12, [told_rsp]
    jne 16f
17: mov al, ' '
    call put_byte
    mov rax, [r12]
    call put_hex
    add r12, 8
    dec r13d
    jnz 15b
16: mov rsi, offset text_cs
    mov rax, [told_cs]
    call put_named
    mov rsi, offset text_ss
    mov rax, [told_ss]
    call put_named
    mov rsi, offset text_flags
    mov rax, [told_flags]
    call put_named
    mov rsi, offset text_rsp
    mov rax, [told_rsp]
    call put_named
    mov rsi, offset text_cr2
    mov rax, [told_cr2]
    call put_named
    mov rsi, offset text_rcx
    mov rax, [told_rcx]
    call put_named
    mov rsi, offset text_r11
    mov rax, [told_r11]
    call put_named
    mov al, 10
    call put_byte
    # the local APIC has no interrupt in service in the next case
    mov rbx, 0x100100b0
    mov dword ptr [rbx], 0
    inc qword ptr [number]
    add qword ptr [case], 128
    # NMIs in again
    mov rax, offset next_case
    mov rbx, rsp
    push 0x18
    push rbx
    push 2
    push 0x10
    push rax
    iretq

put_named:
    push rax
    call put_text
    pop rax
put_hex:
    push rbx
    push rcx
    mov rbx, rax
    mov ecx, 60
    # no leading zeros
18: mov rax, rbx
    shr rax, cl
    jnz 19f
    test ecx, ecx
    jz 19f
    sub ecx, 4
    jmp 18b
19: mov rax, rbx
    shr rax, cl
    and eax, 15
    cmp al, 10
    jb 20f
    add al, 'a' - '0' - 10
20: add al, '0'
    call put_byte
    sub ecx, 4
    jns 19b
    pop rcx
    pop rbx
    ret
put_text:
    mov al, [rsi]
    test al, al
    jz 21f
    call put_byte
    inc rsi
    jmp put_text
21: ret
put_byte:
    push rdx
    push rax
    mov edx, 0x3fd
22: in al, dx
    test al, 0x20
    jz 22b
    mov edx, 0x3f8
    pop rax
    out dx, al
    pop rdx
    ret

done:
    mov rsi, offset text_done
    call put_text
    mov edx, 0xf4
    xor eax, eax
    out dx, eax
    hlt

    .section .rodata
text_vector: .asciz " v "
text_frame: .asciz " frame "
text_cs: .asciz " cs "
text_ss: .asciz " ss "
text_flags: .asciz " flags "
text_rsp: .asciz " rsp "
text_cr2: .asciz " cr2 "
text_rcx: .asciz " rcx "
text_r11: .asciz " r11 "
text_done: .asciz "done\n"

    .data
    .align 16
gdt:
    .quad 0
    .quad 0
    .quad 0x00209b0000000000
    .quad 0x0000930000000000
    .quad 0
    .quad 0x0000f30000000000
    .quad 0x0020fb0000000000
    .quad 0
gdt_tss:
    .quad 0x0000890000000067
    .quad 0
gdt_end:
gdt_pointer:
    .word gdt_end - gdt - 1
    .quad gdt
idt_pointer:
    .word 4095
    .quad idt
    .align 16
#include "cases.inc"

    .bss
    .align 4096
pml4: .skip 4096
pdpt_low: .skip 4096
pd_low: .skip 4096
pt_text: .skip 4096
pt_data: .skip 4096
pdpt_stacks: .skip 4096
pd_stacks: .skip 4096
pt_stacks: .skip 4096
pdpt_kernel: .skip 4096
pd_kernel: .skip 4096
pt_kernel: .skip 4096
pt_body: .skip 4096
pdpt_area: .skip 4096
pd_area: .skip 4096
pt_area: .skip 4096
text_pages: .skip 65536
data_page: .skip 4096
area_page: .skip 4096
kernel_pages: .skip 32768
body_page: .skip 4096
stack_pages: .skip 57344
idt: .skip 4096
tss: .skip 112
    .align 16
    .skip 8192
own_stack:
    .skip 4096
boot_stack:
number: .quad 0
case: .quad 0
again: .quad 0
told_rax: .quad 0
told_vector: .quad 0
told_rsp: .quad 0
told_flags: .quad 0
told_cr2: .quad 0
told_rcx: .quad 0
told_r11: .quad 0
told_cs: .quad 0
told_ss: .quad 0
