/* boot.S: from where qemu enters (PVH: 32 bits, no paging) to kernel_main, and the interrupts. */
	.section .note, "a", @note
	.balign 4
	.long 4, 8, 18			/* name of 4 bytes, address of 8, 18: an entry in 32 bits */
	.asciz "Xen"
	.quad start

	.text
	.code32
	.globl start
start:	movl $tables + 0x1003, tables	/* maps the first GiB to itself, by pages of 2 MiB */
	movl $tables + 0x2003, tables + 0x1000
	mov $tables + 0x2000, %edi
	mov $0x83, %eax
	mov $512, %ecx
1:	mov %eax, (%edi)
	add $0x200000, %eax
	add $8, %edi
	loop 1b
	mov $tables, %eax
	mov %eax, %cr3
	mov $0x620, %eax		/* wide addresses, and SSE with its exceptions and fxsave */
	mov %eax, %cr4
	mov $0xc0000080, %ecx		/* EFER: long mode */
	rdmsr
	or $0x100, %eax
	wrmsr
	mov $0x80000003, %eax		/* paging, protected mode, and no emulation of SSE */
	mov %eax, %cr0
	lgdt descriptors_at
	ljmp $8, $wide
	.code64
wide:	xor %eax, %eax
	mov %eax, %ss
	mov $boot_stack + 8192, %rsp
	call kernel_main

/*
 * entry NAME, FUNCTION: keeps all registers on the interrupted stack, calls FUNCTION with where,
 * and goes on at the place that it answers. Interrupts are off, so the red zone of what it calls is
 * safe. The stack is aligned to 16: 40 bytes are the processor's, 120 registers, 512 fxsave's.
 */
	.macro entry name, function
	.globl \name
\name:	.irp register, rax, rcx, rdx, rbx, rbp, rsi, rdi, r8, r9, r10, r11, r12, r13, r14, r15
	push %\register
	.endr
	sub $512, %rsp
	fxsave64 (%rsp)
	cld
	mov %rsp, %rdi
	call \function
	mov %rax, %rsp
	fxrstor64 (%rsp)
	add $512, %rsp
	.irp register, r15, r14, r13, r12, r11, r10, r9, r8, rdi, rsi, rbp, rbx, rdx, rcx, rax
	pop %\register
	.endr
	iretq
	.endm
	entry timer_entry, on_timer
	entry call_entry, on_call

	.globl memset, memcpy		/* the library and the compiler call them */
memset:	mov %rdi, %r8
	mov %esi, %eax
	mov %rdx, %rcx
	rep stosb
	mov %r8, %rax
	ret
memcpy:	mov %rdi, %rax
	mov %rdx, %rcx
	rep movsb
	ret

descriptors: .quad 0, 0x00af9a000000ffff	/* code of 64 bits */
descriptors_at: .word descriptors_at - descriptors - 1; .long descriptors
	.bss
	.balign 4096
tables:	.skip 3 * 4096
boot_stack: .skip 8192
	.section .note.GNU-stack, "", @progbits
