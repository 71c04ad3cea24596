# SPDX-License-Identifier: Apache-2.0
# The boot sector of a disk that brings Linux along: the firmware loads it to 0x7c00, and it loads the kernel and its first file
# system by the firmware's calls (int 13h, int 15h), and begins the kernel. Where these lie is told by the next sector: six
# numbers, and the command line.
    .intel_syntax noprefix
    .code16
    .globl start

    .set TOLD, 0x7e00            # where the next sector is loaded to
    .set SETUP, 0x9000           # the segment of the kernel's first part
    .set ROOM, 0x1000            # and that of what is to be copied to high memory
    .set PART, 64                # in sectors

start:
    ljmp 0, begin
begin:
    xor ax, ax
    mov ds, ax
    mov es, ax
    mov ss, ax
    mov sp, 0x7c00
    cld
    mov [drive], dl
    mov si, offset text          # to the serial port
    mov dx, 0x3f8
say:
    lodsb
    test al, al
    jz said
    out dx, al
    jmp say
said:
    mov dword ptr [place], 1     # what is told
    mov cx, 1
    mov word ptr [to], TOLD
    call read

    mov eax, [TOLD]              # the kernel's first part
    mov [place], eax
    mov cx, [TOLD + 4]
    mov word ptr [to], 0
    mov word ptr [to + 2], SETUP
    call read
    mov edi, 0x100000            # its other one
    mov ecx, [TOLD + 8]
    call load
    mov eax, [TOLD + 12]         # the first file system
    mov [place], eax
    mov edi, 0x8000000
    mov ecx, [TOLD + 16]
    call load

    mov ax, SETUP                # the kernel is told what a loader tells, and begun
    mov es, ax
    mov byte ptr es:[0x210], 0xff
    or byte ptr es:[0x211], 0x80
    mov word ptr es:[0x224], 0xde00
    mov dword ptr es:[0x218], 0x8000000
    mov eax, [TOLD + 20]
    mov es:[0x21c], eax
    mov dword ptr es:[0x228], TOLD + 24
    cli
    mov ax, SETUP
    mov ds, ax
    mov es, ax
    mov fs, ax
    mov gs, ax
    mov ss, ax
    mov sp, 0xe000
    ljmp SETUP + 0x20, 0

# Reads cx sectors to `to`, and goes on behind them.
read:
    mov [count], cx
    push cx
    mov si, offset packet
    mov dl, [drive]
    mov ah, 0x42
    int 0x13
    jc stop
    pop cx
    movzx eax, cx
    add [place], eax
    ret

# Loads ecx sectors to edi.
load:
    mov word ptr [to], 0
    mov word ptr [to + 2], ROOM
more:
    push ecx
    cmp ecx, PART
    jbe last
    mov cx, PART
last:
    push cx
    call read
    mov eax, edi
    mov [high + 2], ax
    shr eax, 16
    mov [high + 4], al
    mov [high + 7], ah
    pop cx
    push cx
    shl cx, 8                    # words
    mov si, offset table
    mov ah, 0x87
    int 0x15
    jc stop
    pop cx
    movzx eax, cx
    pop ecx
    sub ecx, eax
    shl eax, 9
    add edi, eax
    test ecx, ecx
    jnz more
    ret

stop:
    hlt
    jmp stop

drive:
    .byte 0
text:
    .asciz "the boot sector was read\r\n"
    .balign 4
packet:
    .byte 16, 0
count:
    .word 0
to:
    .word 0, 0
place:
    .long 0, 0
table:
    .fill 16
    .word 0xffff, 0              # from ROOM
    .byte ROOM >> 12, 0x93, 0, 0
high:
    .word 0xffff, 0
    .byte 0, 0x93, 0, 0
    .fill 16
    .org 446                     # the partitions
    .fill 64
    .byte 0x55, 0xaa
