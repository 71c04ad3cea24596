	.ifndef	covretin_in_a_module
	.section	.note.gnu.property,"a",@note
	.p2align	3, 0x0
	.long	4
	.long	16
	.long	5
	.asciz	"GNU"
	.long	3221225474
	.long	4
	.long	3
	.p2align	3, 0x0
	.endif
	.text
	.file	"rattle"
	.section	".text.unlikely.std_alloc::vec::Vec::grow_amortized::<#beceaf184de4c8f2>","ax",@progbits
	.p2align	4
	.type	"std_alloc::vec::Vec::grow_amortized::<#beceaf184de4c8f2>",@function
"std_alloc::vec::Vec::grow_amortized::<#beceaf184de4c8f2>":
	.cfi_startproc
	movq	8(%rdi), %rsi
	cmpq	$-1, %rsi
	je	.Lcovretin_BB_91ac4cba_5
	pushq	%r14
	.cfi_def_cfa_offset 16
	pushq	%rbx
	.cfi_def_cfa_offset 24
	pushq	%rax
	.cfi_def_cfa_offset 32
	.cfi_offset %rbx, -24
	.cfi_offset %r14, -16
	movq	16(%rdi), %rcx
	cmpq	$4, %rsi
	movl	$3, %ebx
	cmovaeq	%rsi, %rbx
	incq	%rbx
	movq	%rcx, %rdx
	shrq	$62, %rdx
	leaq	(%rcx,%rcx), %rax
	cmpq	%rax, %rbx
	cmovaq	%rbx, %rax
	testq	%rdx, %rdx
	cmoveq	%rax, %rbx
	movq	%rbx, %rdx
	shrq	$59, %rdx
	jne	.Lcovretin_BB_91ac4cba_6
	testq	%rcx, %rcx
	je	.Lcovretin_BB_91ac4cba_8
	movq	%rdi, %r14
	movq	(%rdi), %rdi
	shlq	$4, %rsi
	movq	%rbx, %rdx
	shlq	$4, %rdx
	movl	$8, %ecx
	callq	rattle_realloc@PLT
	testb	$1, %al
	je	.Lcovretin_BB_91ac4cba_6
.Lcovretin_BB_91ac4cba_9:
	movq	%rdx, (%r14)
	movq	%rbx, 16(%r14)
	movb	$1, %al
	addq	$8, %rsp
	.cfi_def_cfa_offset 24
	popq	%rbx
	.cfi_def_cfa_offset 16
	popq	%r14
	.cfi_def_cfa_offset 8
	.cfi_restore %rbx
	.cfi_restore %r14
	retq
.Lcovretin_BB_91ac4cba_5:
	xorl	%eax, %eax
	retq
.Lcovretin_BB_91ac4cba_8:
	.cfi_def_cfa_offset 32
	.cfi_offset %rbx, -24
	.cfi_offset %r14, -16
	movq	%rdi, %r14
	shlq	$4, %rax
	movl	$8, %esi
	movq	%rax, %rdi
	callq	rattle_alloc@PLT
	testb	$1, %al
	jne	.Lcovretin_BB_91ac4cba_9
.Lcovretin_BB_91ac4cba_6:
	xorl	%eax, %eax
	addq	$8, %rsp
	.cfi_def_cfa_offset 24
	popq	%rbx
	.cfi_def_cfa_offset 16
	popq	%r14
	.cfi_def_cfa_offset 8
	.cfi_restore %rbx
	.cfi_restore %r14
	retq
.Lcovretin_func_end_91ac4cba:
	.size	"std_alloc::vec::Vec::grow_amortized::<#beceaf184de4c8f2>", .Lcovretin_func_end_91ac4cba-"std_alloc::vec::Vec::grow_amortized::<#beceaf184de4c8f2>"
	.cfi_endproc

	.section	".text.core::slice::sort::unstable::quicksort::<#3f568d0648200725>","ax",@progbits
	.p2align	4
	.type	"core::slice::sort::unstable::quicksort::<#3f568d0648200725>",@function
"core::slice::sort::unstable::quicksort::<#3f568d0648200725>":
	.cfi_startproc
	pushq	%rbp
	.cfi_def_cfa_offset 16
	pushq	%r15
	.cfi_def_cfa_offset 24
	pushq	%r14
	.cfi_def_cfa_offset 32
	pushq	%r13
	.cfi_def_cfa_offset 40
	pushq	%r12
	.cfi_def_cfa_offset 48
	pushq	%rbx
	.cfi_def_cfa_offset 56
	subq	$40, %rsp
	.cfi_def_cfa_offset 96
	.cfi_offset %rbx, -56
	.cfi_offset %r12, -48
	.cfi_offset %r13, -40
	.cfi_offset %r14, -32
	.cfi_offset %r15, -24
	.cfi_offset %rbp, -16
	movq	%rsi, %r14
	movq	%rdi, %rbx
	movq	%rdx, %r15
	subq	%rsi, %r15
	cmpq	$17, %r15
	jb	.Lcovretin_BB_3e9b2f3e_66
	movl	%ecx, %ebp
	movq	%rdx, %r13
	movq	%rdx, 32(%rsp)
	jmp	.Lcovretin_BB_3e9b2f3e_2
	.p2align	4
.Lcovretin_BB_3e9b2f3e_46:
	xorl	%ecx, %ecx
.Lcovretin_BB_3e9b2f3e_64:
	movq	%rax, (%rsi,%rcx)
	movw	%di, 8(%rsi,%rcx)
	movl	$0, 10(%rsi,%rcx)
	movw	$0, 14(%rsi,%rcx)
	addq	%r14, %rdx
	movq	%rbx, %rdi
	movq	%r14, %rsi
	movl	%ebp, %ecx
	callq	"core::slice::sort::unstable::quicksort::<#3f568d0648200725>"
.Lcovretin_BB_3e9b2f3e_65:
	addq	%r12, %r14
	movq	%r13, %r15
	subq	%r14, %r15
	cmpq	$16, %r15
	jbe	.Lcovretin_BB_3e9b2f3e_66
.Lcovretin_BB_3e9b2f3e_2:
	testl	%ebp, %ebp
	je	.Lcovretin_BB_3e9b2f3e_3
	movq	%r15, %r8
	shrq	$3, %r8
	movq	%r15, %rcx
	andq	$-8, %rcx
	subq	%r8, %rcx
	addq	%r14, %rcx
	leaq	(%r14,%r8,4), %rax
	cmpq	$63, %r15
	ja	.Lcovretin_BB_3e9b2f3e_31
	movq	%r14, %rdx
	shlq	$4, %rdx
	movq	%rax, %rsi
	shlq	$4, %rsi
	movq	(%rbx,%rdx), %rdx
	movq	(%rbx,%rsi), %rsi
	cmpq	%rsi, %rdx
	setb	%dil
	movq	%rcx, %r8
	shlq	$4, %r8
	movq	(%rbx,%r8), %r8
	cmpq	%r8, %rdx
	setb	%dl
	xorb	%dil, %dl
	cmpq	%r8, %rsi
	setb	%sil
	xorb	%dil, %sil
	cmovneq	%rcx, %rax
	testb	%dl, %dl
	cmovneq	%r14, %rax
	decl	%ebp
	testq	%r14, %r14
	je	.Lcovretin_BB_3e9b2f3e_33
.Lcovretin_BB_3e9b2f3e_47:
	movq	%r14, %rcx
	shlq	$4, %rcx
	movq	%rax, %rdx
	shlq	$4, %rdx
	movq	-16(%rbx,%rcx), %rsi
	cmpq	(%rbx,%rdx), %rsi
	jb	.Lcovretin_BB_3e9b2f3e_34
	leaq	(%rbx,%rcx), %rdx
	subq	%r14, %rax
	je	.Lcovretin_BB_3e9b2f3e_50
	shlq	$4, %rax
	movups	(%rdx), %xmm0
	movaps	%xmm0, 16(%rsp)
	movups	(%rdx,%rax), %xmm0
	movups	%xmm0, (%rdx)
	movaps	16(%rsp), %xmm0
	movups	%xmm0, (%rdx,%rax)
.Lcovretin_BB_3e9b2f3e_50:
	movq	(%rdx), %rax
	movzwl	8(%rdx), %esi
	leaq	16(%rbx), %rdi
	addq	%rcx, %rdi
	movl	$1, %r12d
	.p2align	4
.Lcovretin_BB_3e9b2f3e_51:
	cmpq	(%rdi), %rax
	jb	.Lcovretin_BB_3e9b2f3e_54
	incq	%r12
	addq	$16, %rdi
	cmpq	%r12, %r15
	jne	.Lcovretin_BB_3e9b2f3e_51
	movq	%r15, %r12
.Lcovretin_BB_3e9b2f3e_54:
	leaq	-1(%r15), %rdi
	cmpq	%rdi, %r12
	jae	.Lcovretin_BB_3e9b2f3e_59
	leaq	1(%r12), %r10
	movq	%r10, %r9
	shlq	$4, %r9
	movq	(%rdx,%r9), %r8
	movzwl	8(%rdx,%r9), %r9d
	movw	%r9w, 14(%rsp)
	cmpq	%rdi, %r10
	jae	.Lcovretin_BB_3e9b2f3e_58
	movq	%r12, %r10
	shlq	$4, %r10
	addq	%r10, %rcx
	leaq	40(%rbx), %r9
	addq	%r9, %rcx
	subq	%r12, %r15
	addq	$-2, %r15
	.p2align	4
.Lcovretin_BB_3e9b2f3e_57:
	movq	-8(%rcx), %r10
	movq	%r12, %r11
	shlq	$4, %r11
	cmpq	%r10, %rax
	movq	(%rdx,%r11), %r13
	movzwl	8(%rdx,%r11), %r9d
	movq	%r13, -24(%rcx)
	movw	%r9w, -16(%rcx)
	movw	$0, -10(%rcx)
	movl	$0, -14(%rcx)
	movzwl	(%rcx), %r9d
	movq	%r10, (%rdx,%r11)
	movw	%r9w, 8(%rdx,%r11)
	movl	$0, 10(%rdx,%r11)
	movw	$0, 14(%rdx,%r11)
	sbbq	$-1, %r12
	addq	$16, %rcx
	decq	%r15
	jne	.Lcovretin_BB_3e9b2f3e_57
.Lcovretin_BB_3e9b2f3e_58:
	movq	%r12, %rcx
	shlq	$4, %rcx
	shlq	$4, %rdi
	cmpq	%r8, %rax
	movq	(%rdx,%rcx), %r9
	movzwl	8(%rdx,%rcx), %r10d
	movq	%r9, (%rdx,%rdi)
	movw	%r10w, 8(%rdx,%rdi)
	movl	$0, 10(%rdx,%rdi)
	movw	$0, 14(%rdx,%rdi)
	movq	%r8, (%rdx,%rcx)
	movzwl	14(%rsp), %edi
	movw	%di, 8(%rdx,%rcx)
	movl	$0, 10(%rdx,%rcx)
	movw	$0, 14(%rdx,%rcx)
	sbbq	$-1, %r12
	movq	32(%rsp), %r13
.Lcovretin_BB_3e9b2f3e_59:
	movq	%r12, %rcx
	decq	%rcx
	je	.Lcovretin_BB_3e9b2f3e_60
	shlq	$4, %rcx
	movq	(%rdx,%rcx), %rdi
	movzwl	8(%rdx,%rcx), %r8d
	movq	%rdi, (%rdx)
	movw	%r8w, 8(%rdx)
	movl	$0, 10(%rdx)
	movw	$0, 14(%rdx)
	jmp	.Lcovretin_BB_3e9b2f3e_62
	.p2align	4
.Lcovretin_BB_3e9b2f3e_31:
	movq	%rbx, %rdi
	movq	%r14, %rsi
	movq	%rax, %rdx
	callq	"core::slice::sort::pivot::median_of_medians::<#3f568d0648200725>"
	decl	%ebp
	testq	%r14, %r14
	jne	.Lcovretin_BB_3e9b2f3e_47
.Lcovretin_BB_3e9b2f3e_33:
	xorl	%ecx, %ecx
.Lcovretin_BB_3e9b2f3e_34:
	leaq	(%rbx,%rcx), %rsi
	subq	%r14, %rax
	je	.Lcovretin_BB_3e9b2f3e_36
	shlq	$4, %rax
	movups	(%rsi), %xmm0
	movaps	%xmm0, 16(%rsp)
	movups	(%rsi,%rax), %xmm0
	movups	%xmm0, (%rsi)
	movaps	16(%rsp), %xmm0
	movups	%xmm0, (%rsi,%rax)
.Lcovretin_BB_3e9b2f3e_36:
	movq	(%rsi), %rax
	movzwl	8(%rsi), %edi
	leaq	16(%rbx), %rdx
	addq	%rcx, %rdx
	movl	$1, %r12d
	.p2align	4
.Lcovretin_BB_3e9b2f3e_37:
	cmpq	%rax, (%rdx)
	jae	.Lcovretin_BB_3e9b2f3e_40
	incq	%r12
	addq	$16, %rdx
	cmpq	%r12, %r15
	jne	.Lcovretin_BB_3e9b2f3e_37
	movq	%r15, %r12
.Lcovretin_BB_3e9b2f3e_40:
	leaq	-1(%r15), %rdx
	cmpq	%rdx, %r12
	jae	.Lcovretin_BB_3e9b2f3e_45
	leaq	1(%r12), %r10
	movq	%r10, %r9
	shlq	$4, %r9
	movq	(%rsi,%r9), %r8
	movzwl	8(%rsi,%r9), %r9d
	movw	%r9w, 14(%rsp)
	cmpq	%rdx, %r10
	jae	.Lcovretin_BB_3e9b2f3e_44
	movq	%r12, %r10
	shlq	$4, %r10
	addq	%r10, %rcx
	leaq	40(%rbx), %r9
	addq	%r9, %rcx
	subq	%r12, %r15
	addq	$-2, %r15
	.p2align	4
.Lcovretin_BB_3e9b2f3e_43:
	movq	-8(%rcx), %r10
	movq	%r12, %r11
	shlq	$4, %r11
	cmpq	%rax, %r10
	movq	(%rsi,%r11), %r13
	movzwl	8(%rsi,%r11), %r9d
	movq	%r13, -24(%rcx)
	movw	%r9w, -16(%rcx)
	movw	$0, -10(%rcx)
	movl	$0, -14(%rcx)
	movzwl	(%rcx), %r9d
	movq	%r10, (%rsi,%r11)
	movw	%r9w, 8(%rsi,%r11)
	movl	$0, 10(%rsi,%r11)
	movw	$0, 14(%rsi,%r11)
	adcq	$0, %r12
	addq	$16, %rcx
	decq	%r15
	jne	.Lcovretin_BB_3e9b2f3e_43
.Lcovretin_BB_3e9b2f3e_44:
	movq	%r12, %rcx
	shlq	$4, %rcx
	shlq	$4, %rdx
	cmpq	%rax, %r8
	movq	(%rsi,%rcx), %r9
	movzwl	8(%rsi,%rcx), %r10d
	movq	%r9, (%rsi,%rdx)
	movw	%r10w, 8(%rsi,%rdx)
	movl	$0, 10(%rsi,%rdx)
	movw	$0, 14(%rsi,%rdx)
	movq	%r8, (%rsi,%rcx)
	movzwl	14(%rsp), %edx
	movw	%dx, 8(%rsi,%rcx)
	movl	$0, 10(%rsi,%rcx)
	movw	$0, 14(%rsi,%rcx)
	adcq	$0, %r12
	movq	32(%rsp), %r13
.Lcovretin_BB_3e9b2f3e_45:
	movq	%r12, %rdx
	decq	%rdx
	je	.Lcovretin_BB_3e9b2f3e_46
	movq	%rdx, %rcx
	shlq	$4, %rcx
	movq	(%rsi,%rcx), %r8
	movzwl	8(%rsi,%rcx), %r9d
	movq	%r8, (%rsi)
	movw	%r9w, 8(%rsi)
	movl	$0, 10(%rsi)
	movw	$0, 14(%rsi)
	jmp	.Lcovretin_BB_3e9b2f3e_64
.Lcovretin_BB_3e9b2f3e_60:
	xorl	%ecx, %ecx
.Lcovretin_BB_3e9b2f3e_62:
	movq	%rax, (%rdx,%rcx)
	movw	%si, 8(%rdx,%rcx)
	movl	$0, 10(%rdx,%rcx)
	movw	$0, 14(%rdx,%rcx)
	jmp	.Lcovretin_BB_3e9b2f3e_65
.Lcovretin_BB_3e9b2f3e_66:
	cmpq	$2, %r15
	jb	.Lcovretin_BB_3e9b2f3e_78
	shlq	$4, %r14
	addq	%r14, %rbx
	movl	$1, %eax
	movq	%rbx, %rcx
	jmp	.Lcovretin_BB_3e9b2f3e_68
.Lcovretin_BB_3e9b2f3e_70:
	xorl	%edx, %edx
.Lcovretin_BB_3e9b2f3e_76:
	movq	%rsi, (%rbx,%rdx)
	movw	%di, 8(%rbx,%rdx)
	movl	$0, 10(%rbx,%rdx)
	movw	$0, 14(%rbx,%rdx)
.Lcovretin_BB_3e9b2f3e_77:
	incq	%rax
	addq	$16, %rcx
	cmpq	%r15, %rax
	je	.Lcovretin_BB_3e9b2f3e_78
.Lcovretin_BB_3e9b2f3e_68:
	movq	%rax, %r8
	shlq	$4, %r8
	leaq	-1(%rax), %rdx
	movq	%rdx, %r9
	shlq	$4, %r9
	movq	(%rbx,%r8), %rsi
	movq	(%rbx,%r9), %r10
	cmpq	%r10, %rsi
	jae	.Lcovretin_BB_3e9b2f3e_77
	addq	%rbx, %r8
	movzwl	8(%r8), %edi
	movzwl	8(%rbx,%r9), %r9d
	movq	%r10, (%r8)
	movw	%r9w, 8(%r8)
	movl	$0, 10(%r8)
	movw	$0, 14(%r8)
	testq	%rdx, %rdx
	je	.Lcovretin_BB_3e9b2f3e_70
	movq	%rcx, %r8
	.p2align	4
.Lcovretin_BB_3e9b2f3e_72:
	movq	-16(%r8), %r9
	cmpq	%r9, %rsi
	jae	.Lcovretin_BB_3e9b2f3e_75
	decq	%rdx
	movzwl	-8(%r8), %r10d
	movq	%r9, (%r8)
	movw	%r10w, 8(%r8)
	movl	$0, 10(%r8)
	movw	$0, 14(%r8)
	addq	$-16, %r8
	testq	%rdx, %rdx
	jne	.Lcovretin_BB_3e9b2f3e_72
	xorl	%edx, %edx
.Lcovretin_BB_3e9b2f3e_75:
	shlq	$4, %rdx
	jmp	.Lcovretin_BB_3e9b2f3e_76
.Lcovretin_BB_3e9b2f3e_3:
	shlq	$4, %r14
	addq	%r14, %rbx
	movq	%r15, %rax
	shrq	%rax
	movq	%rax, %rcx
	jmp	.Lcovretin_BB_3e9b2f3e_4
	.p2align	4
.Lcovretin_BB_3e9b2f3e_15:
	testq	%rcx, %rcx
	je	.Lcovretin_BB_3e9b2f3e_16
.Lcovretin_BB_3e9b2f3e_4:
	decq	%rcx
	movq	%rcx, %rdx
	jmp	.Lcovretin_BB_3e9b2f3e_5
	.p2align	4
.Lcovretin_BB_3e9b2f3e_11:
	movups	(%rdi), %xmm0
	movaps	%xmm0, 16(%rsp)
	movups	(%r8), %xmm0
	movups	%xmm0, (%rdi)
	movaps	16(%rsp), %xmm0
	movups	%xmm0, (%r8)
.Lcovretin_BB_3e9b2f3e_14:
	cmpq	%rax, %rdx
	jae	.Lcovretin_BB_3e9b2f3e_15
.Lcovretin_BB_3e9b2f3e_5:
	movq	%rdx, %rsi
	leaq	1(,%rdx,2), %rdx
	leaq	2(,%rsi,2), %rdi
	cmpq	%r15, %rdi
	je	.Lcovretin_BB_3e9b2f3e_9
	movq	%rdx, %r8
	shlq	$4, %r8
	movq	%rdi, %r9
	shlq	$4, %r9
	movq	(%rbx,%r8), %r8
	cmpq	(%rbx,%r9), %r8
	jb	.Lcovretin_BB_3e9b2f3e_8
	movq	%rdx, %rdi
.Lcovretin_BB_3e9b2f3e_8:
	movq	%rdi, %rdx
.Lcovretin_BB_3e9b2f3e_9:
	movq	%rsi, %rdi
	shlq	$4, %rdi
	movq	%rdx, %r8
	shlq	$4, %r8
	movq	(%rbx,%rdi), %r9
	cmpq	(%rbx,%r8), %r9
	jae	.Lcovretin_BB_3e9b2f3e_15
	addq	%rbx, %rdi
	addq	%rbx, %r8
	cmpq	%rdx, %rsi
	jb	.Lcovretin_BB_3e9b2f3e_11
	jbe	.Lcovretin_BB_3e9b2f3e_14
	movups	(%r8), %xmm0
	movaps	%xmm0, 16(%rsp)
	movups	(%rdi), %xmm0
	movups	%xmm0, (%r8)
	movaps	16(%rsp), %xmm0
	movups	%xmm0, (%rdi)
	jmp	.Lcovretin_BB_3e9b2f3e_14
	.p2align	4
.Lcovretin_BB_3e9b2f3e_28:
	cmpq	$1, %r15
	jbe	.Lcovretin_BB_3e9b2f3e_78
.Lcovretin_BB_3e9b2f3e_16:
	decq	%r15
	movq	%r15, %rax
	shlq	$4, %rax
	movups	(%rbx), %xmm0
	movaps	%xmm0, 16(%rsp)
	movups	(%rbx,%rax), %xmm0
	movups	%xmm0, (%rbx)
	movaps	16(%rsp), %xmm0
	movups	%xmm0, (%rbx,%rax)
	movq	%r15, %rax
	shrq	%rax
	je	.Lcovretin_BB_3e9b2f3e_28
	xorl	%ecx, %ecx
	jmp	.Lcovretin_BB_3e9b2f3e_18
	.p2align	4
.Lcovretin_BB_3e9b2f3e_24:
	movups	(%rsi), %xmm0
	movaps	%xmm0, 16(%rsp)
	movups	(%rdi), %xmm0
	movups	%xmm0, (%rsi)
	movaps	16(%rsp), %xmm0
	movups	%xmm0, (%rdi)
.Lcovretin_BB_3e9b2f3e_27:
	cmpq	%rax, %rcx
	jae	.Lcovretin_BB_3e9b2f3e_28
.Lcovretin_BB_3e9b2f3e_18:
	movq	%rcx, %rdx
	leaq	1(,%rcx,2), %rcx
	leaq	2(,%rdx,2), %rsi
	cmpq	%r15, %rsi
	je	.Lcovretin_BB_3e9b2f3e_22
	movq	%rcx, %rdi
	shlq	$4, %rdi
	movq	%rsi, %r8
	shlq	$4, %r8
	movq	(%rbx,%rdi), %rdi
	cmpq	(%rbx,%r8), %rdi
	jb	.Lcovretin_BB_3e9b2f3e_21
	movq	%rcx, %rsi
.Lcovretin_BB_3e9b2f3e_21:
	movq	%rsi, %rcx
.Lcovretin_BB_3e9b2f3e_22:
	movq	%rdx, %rsi
	shlq	$4, %rsi
	movq	%rcx, %rdi
	shlq	$4, %rdi
	movq	(%rbx,%rsi), %r8
	cmpq	(%rbx,%rdi), %r8
	jae	.Lcovretin_BB_3e9b2f3e_28
	addq	%rbx, %rsi
	addq	%rbx, %rdi
	cmpq	%rcx, %rdx
	jb	.Lcovretin_BB_3e9b2f3e_24
	jbe	.Lcovretin_BB_3e9b2f3e_27
	movups	(%rdi), %xmm0
	movaps	%xmm0, 16(%rsp)
	movups	(%rsi), %xmm0
	movups	%xmm0, (%rdi)
	movaps	16(%rsp), %xmm0
	movups	%xmm0, (%rsi)
	jmp	.Lcovretin_BB_3e9b2f3e_27
.Lcovretin_BB_3e9b2f3e_78:
	addq	$40, %rsp
	.cfi_def_cfa_offset 56
	popq	%rbx
	.cfi_def_cfa_offset 48
	popq	%r12
	.cfi_def_cfa_offset 40
	popq	%r13
	.cfi_def_cfa_offset 32
	popq	%r14
	.cfi_def_cfa_offset 24
	popq	%r15
	.cfi_def_cfa_offset 16
	popq	%rbp
	.cfi_def_cfa_offset 8
	retq
.Lcovretin_func_end_3e9b2f3e:
	.size	"core::slice::sort::unstable::quicksort::<#3f568d0648200725>", .Lcovretin_func_end_3e9b2f3e-"core::slice::sort::unstable::quicksort::<#3f568d0648200725>"
	.cfi_endproc

	.section	".text.core::slice::sort::pivot::median_of_medians::<#3f568d0648200725>","ax",@progbits
	.p2align	4
	.type	"core::slice::sort::pivot::median_of_medians::<#3f568d0648200725>",@function
"core::slice::sort::pivot::median_of_medians::<#3f568d0648200725>":
	.cfi_startproc
	pushq	%rbp
	.cfi_def_cfa_offset 16
	pushq	%r15
	.cfi_def_cfa_offset 24
	pushq	%r14
	.cfi_def_cfa_offset 32
	pushq	%r13
	.cfi_def_cfa_offset 40
	pushq	%r12
	.cfi_def_cfa_offset 48
	pushq	%rbx
	.cfi_def_cfa_offset 56
	pushq	%rax
	.cfi_def_cfa_offset 64
	.cfi_offset %rbx, -56
	.cfi_offset %r12, -48
	.cfi_offset %r13, -40
	.cfi_offset %r14, -32
	.cfi_offset %r15, -24
	.cfi_offset %rbp, -16
	movq	%rcx, %r14
	movq	%rdx, %rbx
	cmpq	$8, %r8
	jae	.Lcovretin_BB_218c8ea9_2
	movq	%rsi, %rax
	shlq	$4, %rax
	movq	%rbx, %rcx
	shlq	$4, %rcx
	movq	(%rdi,%rax), %rax
	movq	(%rdi,%rcx), %rcx
	cmpq	%rcx, %rax
	setb	%dl
	movq	%r14, %r8
	shlq	$4, %r8
	movq	(%rdi,%r8), %rdi
	cmpq	%rdi, %rax
	setb	%al
	xorb	%dl, %al
	cmpq	%rdi, %rcx
	setb	%cl
	xorb	%dl, %cl
	cmovneq	%r14, %rbx
	testb	%al, %al
	cmovneq	%rsi, %rbx
	jmp	.Lcovretin_BB_218c8ea9_3
.Lcovretin_BB_218c8ea9_2:
	movq	%r8, %r13
	shrq	$3, %r13
	leaq	(%rsi,%r13,4), %rdx
	andq	$-8, %r8
	subq	%r13, %r8
	leaq	(%r8,%rsi), %rcx
	movq	%rdi, %r12
	movq	%r8, %rbp
	movq	%r13, %r8
	callq	"core::slice::sort::pivot::median_of_medians::<#3f568d0648200725>"
	movq	%rax, %r15
	leaq	(%rbx,%r13,4), %rdx
	leaq	(%rbx,%rbp), %rcx
	movq	%r12, %rdi
	movq	%rbx, %rsi
	movq	%r13, %r8
	callq	"core::slice::sort::pivot::median_of_medians::<#3f568d0648200725>"
	movq	%rax, %rbx
	leaq	(%r14,%r13,4), %rdx
	addq	%r14, %rbp
	movq	%r12, %rdi
	movq	%r14, %rsi
	movq	%rbp, %rcx
	movq	%r13, %r8
	callq	"core::slice::sort::pivot::median_of_medians::<#3f568d0648200725>"
	movq	%r15, %rcx
	shlq	$4, %rcx
	movq	%rbx, %rdx
	shlq	$4, %rdx
	movq	(%r12,%rcx), %rcx
	movq	(%r12,%rdx), %rdx
	cmpq	%rdx, %rcx
	setb	%sil
	movq	%rax, %rdi
	shlq	$4, %rdi
	movq	(%r12,%rdi), %rdi
	cmpq	%rdi, %rcx
	setb	%cl
	xorb	%sil, %cl
	cmpq	%rdi, %rdx
	setb	%dl
	xorb	%sil, %dl
	cmovneq	%rax, %rbx
	testb	%cl, %cl
	cmovneq	%r15, %rbx
.Lcovretin_BB_218c8ea9_3:
	movq	%rbx, %rax
	addq	$8, %rsp
	.cfi_def_cfa_offset 56
	popq	%rbx
	.cfi_def_cfa_offset 48
	popq	%r12
	.cfi_def_cfa_offset 40
	popq	%r13
	.cfi_def_cfa_offset 32
	popq	%r14
	.cfi_def_cfa_offset 24
	popq	%r15
	.cfi_def_cfa_offset 16
	popq	%rbp
	.cfi_def_cfa_offset 8
	retq
.Lcovretin_func_end_218c8ea9:
	.size	"core::slice::sort::pivot::median_of_medians::<#3f568d0648200725>", .Lcovretin_func_end_218c8ea9-"core::slice::sort::pivot::median_of_medians::<#3f568d0648200725>"
	.cfi_endproc

	.section	".text.core::slice::edits::mirror::<31'vhost_queue::inflight::Resubmit>","ax",@progbits
	.p2align	4
	.type	"core::slice::edits::mirror::<31'vhost_queue::inflight::Resubmit>",@function
"core::slice::edits::mirror::<31'vhost_queue::inflight::Resubmit>":
	.cfi_startproc
	movq	%rdx, %rax
	shlq	$4, %rax
	addq	%rsi, %rax
	addq	$-16, %rax
	.p2align	4
.Lcovretin_BB_cba843fd_1:
	movups	(%rdi), %xmm0
	movaps	%xmm0, -24(%rsp)
	movups	(%rax), %xmm0
	movups	%xmm0, (%rdi)
	movaps	-24(%rsp), %xmm0
	movups	%xmm0, (%rax)
	addq	$16, %rdi
	addq	$-16, %rax
	decq	%rdx
	jne	.Lcovretin_BB_cba843fd_1
	retq
.Lcovretin_func_end_cba843fd:
	.size	"core::slice::edits::mirror::<31'vhost_queue::inflight::Resubmit>", .Lcovretin_func_end_cba843fd-"core::slice::edits::mirror::<31'vhost_queue::inflight::Resubmit>"
	.cfi_endproc

	.section	".text.unlikely.std_alloc::vec::Vec::grow_amortized::<#443caa9c7f3d02a7>","ax",@progbits
	.p2align	4
	.type	"std_alloc::vec::Vec::grow_amortized::<#443caa9c7f3d02a7>",@function
"std_alloc::vec::Vec::grow_amortized::<#443caa9c7f3d02a7>":
	.cfi_startproc
	movq	8(%rdi), %rsi
	cmpq	$-1, %rsi
	je	.Lcovretin_BB_30de1e0c_5
	pushq	%r14
	.cfi_def_cfa_offset 16
	pushq	%rbx
	.cfi_def_cfa_offset 24
	pushq	%rax
	.cfi_def_cfa_offset 32
	.cfi_offset %rbx, -24
	.cfi_offset %r14, -16
	movq	16(%rdi), %rcx
	cmpq	$4, %rsi
	movl	$3, %ebx
	cmovaeq	%rsi, %rbx
	incq	%rbx
	movq	%rcx, %rdx
	shrq	$62, %rdx
	leaq	(%rcx,%rcx), %rax
	cmpq	%rax, %rbx
	cmovaq	%rbx, %rax
	testq	%rdx, %rdx
	cmoveq	%rax, %rbx
	movq	%rbx, %rdx
	shrq	$62, %rdx
	jne	.Lcovretin_BB_30de1e0c_6
	testq	%rcx, %rcx
	je	.Lcovretin_BB_30de1e0c_8
	movq	%rdi, %r14
	movq	(%rdi), %rdi
	addq	%rsi, %rsi
	leaq	(%rbx,%rbx), %rdx
	movl	$2, %ecx
	callq	rattle_realloc@PLT
	testb	$1, %al
	je	.Lcovretin_BB_30de1e0c_6
.Lcovretin_BB_30de1e0c_9:
	movq	%rdx, (%r14)
	movq	%rbx, 16(%r14)
	movb	$1, %al
	addq	$8, %rsp
	.cfi_def_cfa_offset 24
	popq	%rbx
	.cfi_def_cfa_offset 16
	popq	%r14
	.cfi_def_cfa_offset 8
	.cfi_restore %rbx
	.cfi_restore %r14
	retq
.Lcovretin_BB_30de1e0c_5:
	xorl	%eax, %eax
	retq
.Lcovretin_BB_30de1e0c_8:
	.cfi_def_cfa_offset 32
	.cfi_offset %rbx, -24
	.cfi_offset %r14, -16
	movq	%rdi, %r14
	addq	%rax, %rax
	movl	$2, %esi
	movq	%rax, %rdi
	callq	rattle_alloc@PLT
	testb	$1, %al
	jne	.Lcovretin_BB_30de1e0c_9
.Lcovretin_BB_30de1e0c_6:
	xorl	%eax, %eax
	addq	$8, %rsp
	.cfi_def_cfa_offset 24
	popq	%rbx
	.cfi_def_cfa_offset 16
	popq	%r14
	.cfi_def_cfa_offset 8
	.cfi_restore %rbx
	.cfi_restore %r14
	retq
.Lcovretin_func_end_30de1e0c:
	.size	"std_alloc::vec::Vec::grow_amortized::<#443caa9c7f3d02a7>", .Lcovretin_func_end_30de1e0c-"std_alloc::vec::Vec::grow_amortized::<#443caa9c7f3d02a7>"
	.cfi_endproc

	.section	".text.unlikely.std_alloc::vec::Vec::grow_amortized::<#a2eddaad9eb283e4>","ax",@progbits
	.p2align	4
	.type	"std_alloc::vec::Vec::grow_amortized::<#a2eddaad9eb283e4>",@function
"std_alloc::vec::Vec::grow_amortized::<#a2eddaad9eb283e4>":
	.cfi_startproc
	movq	8(%rdi), %rsi
	cmpq	$-1, %rsi
	je	.Lcovretin_BB_ade15e9f_5
	pushq	%r14
	.cfi_def_cfa_offset 16
	pushq	%rbx
	.cfi_def_cfa_offset 24
	pushq	%rax
	.cfi_def_cfa_offset 32
	.cfi_offset %rbx, -24
	.cfi_offset %r14, -16
	movq	16(%rdi), %rcx
	cmpq	$4, %rsi
	movl	$3, %ebx
	cmovaeq	%rsi, %rbx
	incq	%rbx
	movq	%rcx, %rdx
	shrq	$62, %rdx
	leaq	(%rcx,%rcx), %rax
	cmpq	%rax, %rbx
	cmovaq	%rbx, %rax
	testq	%rdx, %rdx
	cmoveq	%rax, %rbx
	movq	%rbx, %rdx
	shrq	$58, %rdx
	jne	.Lcovretin_BB_ade15e9f_6
	testq	%rcx, %rcx
	je	.Lcovretin_BB_ade15e9f_8
	movq	%rdi, %r14
	movq	(%rdi), %rdi
	shlq	$5, %rsi
	movq	%rbx, %rdx
	shlq	$5, %rdx
	movl	$8, %ecx
	callq	rattle_realloc@PLT
	testb	$1, %al
	je	.Lcovretin_BB_ade15e9f_6
.Lcovretin_BB_ade15e9f_9:
	movq	%rdx, (%r14)
	movq	%rbx, 16(%r14)
	movb	$1, %al
	addq	$8, %rsp
	.cfi_def_cfa_offset 24
	popq	%rbx
	.cfi_def_cfa_offset 16
	popq	%r14
	.cfi_def_cfa_offset 8
	.cfi_restore %rbx
	.cfi_restore %r14
	retq
.Lcovretin_BB_ade15e9f_5:
	xorl	%eax, %eax
	retq
.Lcovretin_BB_ade15e9f_8:
	.cfi_def_cfa_offset 32
	.cfi_offset %rbx, -24
	.cfi_offset %r14, -16
	movq	%rdi, %r14
	shlq	$5, %rax
	movl	$8, %esi
	movq	%rax, %rdi
	callq	rattle_alloc@PLT
	testb	$1, %al
	jne	.Lcovretin_BB_ade15e9f_9
.Lcovretin_BB_ade15e9f_6:
	xorl	%eax, %eax
	addq	$8, %rsp
	.cfi_def_cfa_offset 24
	popq	%rbx
	.cfi_def_cfa_offset 16
	popq	%r14
	.cfi_def_cfa_offset 8
	.cfi_restore %rbx
	.cfi_restore %r14
	retq
.Lcovretin_func_end_ade15e9f:
	.size	"std_alloc::vec::Vec::grow_amortized::<#a2eddaad9eb283e4>", .Lcovretin_func_end_ade15e9f-"std_alloc::vec::Vec::grow_amortized::<#a2eddaad9eb283e4>"
	.cfi_endproc

	.section	.text.covretin_inflight_after_used,"ax",@progbits
	.globl	covretin_inflight_after_used
	.p2align	4
	.type	covretin_inflight_after_used,@function
covretin_inflight_after_used:
	.cfi_startproc
	endbr64
	movzwl	%di, %eax
	shll	$4, %eax
	addq	$16, %rax
	movzwl	%si, %esi
	movq	%rax, (%rdx)
	movq	$1, 8(%rdx)
	movq	$0, 16(%rdx)
	movq	$14, (%rcx)
	movq	$2, 8(%rcx)
	movq	%rsi, 16(%rcx)
	retq
.Lcovretin_func_end_9082341e:
	.size	covretin_inflight_after_used, .Lcovretin_func_end_9082341e-covretin_inflight_after_used
	.cfi_endproc

	.section	.text.covretin_inflight_after_used_packed,"ax",@progbits
	.globl	covretin_inflight_after_used_packed
	.p2align	4
	.type	covretin_inflight_after_used_packed,@function
covretin_inflight_after_used_packed:
	.cfi_startproc
	endbr64
	movzwl	%si, %eax
	shrl	$15, %eax
	movzwl	%di, %ecx
	shll	$16, %edi
	orl	%ecx, %edi
	shll	$5, %ecx
	addq	$32, %rcx
	andl	$32767, %esi
	movl	%esi, %r8d
	shll	$16, %r8d
	movq	%rax, %r9
	shlq	$32, %r9
	orq	%r8, %r9
	shlq	$40, %rax
	orq	%r9, %rax
	orq	%rsi, %rax
	movq	%rcx, (%rdx)
	movq	$1, 8(%rdx)
	movq	$0, 16(%rdx)
	movq	$12, 24(%rdx)
	movq	$4, 32(%rdx)
	movq	%rdi, 40(%rdx)
	movq	$16, 48(%rdx)
	movq	$8, 56(%rdx)
	movq	%rax, 64(%rdx)
	retq
.Lcovretin_func_end_4524864a:
	.size	covretin_inflight_after_used_packed, .Lcovretin_func_end_4524864a-covretin_inflight_after_used_packed
	.cfi_endproc

	.section	.text.covretin_inflight_before_used,"ax",@progbits
	.globl	covretin_inflight_before_used
	.p2align	4
	.type	covretin_inflight_before_used,@function
covretin_inflight_before_used:
	.cfi_startproc
	endbr64
	movzwl	%di, %eax
	movl	%eax, %edi
	shll	$4, %edi
	addq	$22, %rdi
	movzwl	%si, %esi
	movq	%rdi, (%rdx)
	movq	$2, 8(%rdx)
	movq	%rsi, 16(%rdx)
	movq	$12, (%rcx)
	movq	$2, 8(%rcx)
	movq	%rax, 16(%rcx)
	retq
.Lcovretin_func_end_56449e69:
	.size	covretin_inflight_before_used, .Lcovretin_func_end_56449e69-covretin_inflight_before_used
	.cfi_endproc

	.section	.text.covretin_inflight_before_used_packed,"ax",@progbits
	.globl	covretin_inflight_before_used_packed
	.p2align	4
	.type	covretin_inflight_before_used_packed,@function
covretin_inflight_before_used_packed:
	.cfi_startproc
	endbr64
	movzwl	%r8w, %eax
	movzwl	%cx, %r10d
	shrl	$15, %r10d
	andl	$32767, %r8d
	shrl	$15, %eax
	movzwl	%si, %esi
	shll	$5, %esi
	addq	$34, %rsi
	movzwl	%dx, %edx
	movzwl	%di, %edi
	andl	$32767, %ecx
	shll	$16, %r8d
	orl	%ecx, %r8d
	shlq	$32, %r10
	orq	%r8, %r10
	shlq	$40, %rax
	orq	%r10, %rax
	movq	%rsi, (%r9)
	movq	$2, 8(%r9)
	movq	%rdx, 16(%r9)
	movq	$12, 24(%r9)
	movq	$2, 32(%r9)
	movq	%rdi, 40(%r9)
	movq	$16, 48(%r9)
	movq	$8, 56(%r9)
	movq	%rax, 64(%r9)
	retq
.Lcovretin_func_end_06e08657:
	.size	covretin_inflight_before_used_packed, .Lcovretin_func_end_06e08657-covretin_inflight_before_used_packed
	.cfi_endproc

	.section	.text.covretin_inflight_keep_packed,"ax",@progbits
	.globl	covretin_inflight_keep_packed
	.p2align	4
	.type	covretin_inflight_keep_packed,@function
covretin_inflight_keep_packed:
	.cfi_startproc
	endbr64
	movq	(%rsi), %rax
	movl	12(%rsi), %r8d
	movzwl	%di, %edi
	shll	$5, %edi
	movl	8(%rsi), %esi
	shlq	$32, %rsi
	orq	%r8, %rsi
	leaq	48(%rdi), %r8
	addq	$56, %rdi
	movq	%r8, (%rdx)
	movq	$8, 8(%rdx)
	movq	%rsi, 16(%rdx)
	movq	%rdi, (%rcx)
	movq	$8, 8(%rcx)
	movq	%rax, 16(%rcx)
	retq
.Lcovretin_func_end_9fc0b354:
	.size	covretin_inflight_keep_packed, .Lcovretin_func_end_9fc0b354-covretin_inflight_keep_packed
	.cfi_endproc

	.section	.text.covretin_inflight_recover,"ax",@progbits
	.globl	covretin_inflight_recover
	.p2align	4
	.type	covretin_inflight_recover,@function
covretin_inflight_recover:
	.cfi_startproc
	endbr64
	pushq	%rbp
	.cfi_def_cfa_offset 16
	pushq	%r15
	.cfi_def_cfa_offset 24
	pushq	%r14
	.cfi_def_cfa_offset 32
	pushq	%r13
	.cfi_def_cfa_offset 40
	pushq	%r12
	.cfi_def_cfa_offset 48
	pushq	%rbx
	.cfi_def_cfa_offset 56
	subq	$72, %rsp
	.cfi_def_cfa_offset 128
	.cfi_offset %rbx, -56
	.cfi_offset %r12, -48
	.cfi_offset %r13, -40
	.cfi_offset %r14, -32
	.cfi_offset %r15, -24
	.cfi_offset %rbp, -16
	movq	%rsi, %rbx
	movq	136(%rsp), %r11
	xorl	%r13d, %r13d
	testq	%rdi, %rdi
	sete	%al
	testq	%r9, %r9
	sete	%r15b
	testq	%r11, %r11
	sete	%r14b
	movl	%r8d, %ebp
	subl	%ecx, %ebp
	cmpq	$32769, %rsi
	setae	%sil
	movzwl	%bp, %r10d
	cmpq	%r10, %rbx
	setb	%r10b
	orb	%sil, %r10b
	je	.Lcovretin_BB_05a9da4a_2
.Lcovretin_BB_05a9da4a_1:
	movl	$8, %eax
	jmp	.Lcovretin_BB_05a9da4a_95
.Lcovretin_BB_05a9da4a_2:
	movb	%al, %r13b
	shll	$12, %r13d
	testq	%rbx, %rbx
	movq	%r9, 64(%rsp)
	movb	%r14b, 15(%rsp)
	je	.Lcovretin_BB_05a9da4a_6
	movb	%r15b, 16(%rsp)
	movl	%ecx, 24(%rsp)
	movl	%r8d, 36(%rsp)
	movl	%edx, %r12d
	movq	%rdi, %r15
	movl	$1, %esi
	movq	%rbx, %rdi
	callq	rattle_alloc@PLT
	movq	%rax, %rcx
	movl	$24, %eax
	testb	$1, %cl
	je	.Lcovretin_BB_05a9da4a_95
	movq	%rdx, %r14
	cmpq	$1, %rbx
	jne	.Lcovretin_BB_05a9da4a_10
	xorl	%esi, %esi
	jmp	.Lcovretin_BB_05a9da4a_11
.Lcovretin_BB_05a9da4a_6:
	cmpw	%cx, %r8w
	jne	.Lcovretin_BB_05a9da4a_9
	movl	$105, %eax
	cmpq	$0, 128(%rsp)
	jne	.Lcovretin_BB_05a9da4a_95
	leaq	8(%rsp), %r14
	movq	$0, 16(%rsp)
	movq	%r14, %rbp
	xorl	%r13d, %r13d
	jmp	.Lcovretin_BB_05a9da4a_58
.Lcovretin_BB_05a9da4a_9:
	leaq	8(%rsp), %r14
	movq	$0, 24(%rsp)
	jmp	.Lcovretin_BB_05a9da4a_14
.Lcovretin_BB_05a9da4a_10:
	leaq	-1(%rbx), %rdx
	movq	%r14, %rdi
	xorl	%esi, %esi
	callq	memset@PLT
	leaq	-1(%rbx), %rsi
.Lcovretin_BB_05a9da4a_11:
	movq	%r15, %rdi
	movl	%r12d, %edx
	movl	36(%rsp), %eax
	movl	24(%rsp), %ecx
	movb	$0, (%r14,%rsi)
	incq	%rsi
	movq	%rsi, 24(%rsp)
	cmpw	%cx, %ax
	movzbl	16(%rsp), %r15d
	jne	.Lcovretin_BB_05a9da4a_13
	leaq	8(%rsp), %rax
	movq	%rax, 40(%rsp)
	xorps	%xmm0, %xmm0
	movups	%xmm0, 48(%rsp)
	movq	136(%rsp), %r11
	jmp	.Lcovretin_BB_05a9da4a_18
.Lcovretin_BB_05a9da4a_13:
	movq	136(%rsp), %r11
.Lcovretin_BB_05a9da4a_14:
	leaq	(%rdi,%r13), %rax
	.p2align	4
.Lcovretin_BB_05a9da4a_15:
	movzwl	%dx, %ecx
	cmpq	%rcx, %rbx
	jbe	.Lcovretin_BB_05a9da4a_19
	movb	$1, (%r14,%rcx)
	shll	$4, %ecx
	movzwl	2(%rax,%rcx), %edx
	decw	%bp
	jne	.Lcovretin_BB_05a9da4a_15
	movb	%r15b, 16(%rsp)
	leaq	8(%rsp), %rax
	movq	%rax, 40(%rsp)
	xorps	%xmm0, %xmm0
	movups	%xmm0, 48(%rsp)
.Lcovretin_BB_05a9da4a_18:
	leaq	(%rdi,%r13), %rbp
	addq	$8, %rbp
	xorl	%r13d, %r13d
	xorl	%r12d, %r12d
	jmp	.Lcovretin_BB_05a9da4a_24
.Lcovretin_BB_05a9da4a_19:
	testq	%rbx, %rbx
	je	.Lcovretin_BB_05a9da4a_1
	movq	%r14, %rdi
	callq	rattle_dealloc@PLT
	movl	$8, %eax
	jmp	.Lcovretin_BB_05a9da4a_95
.Lcovretin_BB_05a9da4a_21:
	movq	40(%rsp), %rax
	movq	48(%rsp), %r13
	movq	136(%rsp), %r11
	.p2align	4
.Lcovretin_BB_05a9da4a_22:
	movq	%r13, %rcx
	shlq	$4, %rcx
	movq	%r15, (%rax,%rcx)
	movw	%r12w, 8(%rax,%rcx)
	movl	$0, 10(%rax,%rcx)
	movw	$0, 14(%rax,%rcx)
	incq	%r13
	movq	%r13, 48(%rsp)
.Lcovretin_BB_05a9da4a_23:
	incq	%r12
	addq	$16, %rbp
	cmpq	%r12, %rbx
	je	.Lcovretin_BB_05a9da4a_31
.Lcovretin_BB_05a9da4a_24:
	cmpb	$1, -8(%rbp)
	jne	.Lcovretin_BB_05a9da4a_23
	cmpb	$0, (%r14,%r12)
	jne	.Lcovretin_BB_05a9da4a_23
	movq	(%rbp), %r15
	cmpq	%r13, 56(%rsp)
	jne	.Lcovretin_BB_05a9da4a_22
	leaq	40(%rsp), %rdi
	callq	"std_alloc::vec::Vec::grow_amortized::<#beceaf184de4c8f2>"
	testb	%al, %al
	jne	.Lcovretin_BB_05a9da4a_21
	cmpq	$0, 56(%rsp)
	je	.Lcovretin_BB_05a9da4a_30
	movq	40(%rsp), %rdi
	callq	rattle_dealloc@PLT
.Lcovretin_BB_05a9da4a_30:
	movq	%r14, %rdi
	callq	rattle_dealloc@PLT
	movl	$24, %eax
	jmp	.Lcovretin_BB_05a9da4a_95
.Lcovretin_BB_05a9da4a_31:
	movq	40(%rsp), %rbp
	cmpq	$20, %r13
	ja	.Lcovretin_BB_05a9da4a_44
	cmpq	$2, %r13
	movzbl	16(%rsp), %r15d
	jb	.Lcovretin_BB_05a9da4a_55
	movl	$1, %eax
	movq	%rbp, %rcx
	jmp	.Lcovretin_BB_05a9da4a_37
.Lcovretin_BB_05a9da4a_34:
	xorl	%edx, %edx
.Lcovretin_BB_05a9da4a_35:
	movq	%rsi, (%rbp,%rdx)
	movw	%di, 8(%rbp,%rdx)
	movl	$0, 10(%rbp,%rdx)
	movw	$0, 14(%rbp,%rdx)
.Lcovretin_BB_05a9da4a_36:
	incq	%rax
	addq	$16, %rcx
	cmpq	%r13, %rax
	je	.Lcovretin_BB_05a9da4a_55
.Lcovretin_BB_05a9da4a_37:
	movq	%rax, %r8
	shlq	$4, %r8
	leaq	-1(%rax), %rdx
	movq	%rdx, %r9
	shlq	$4, %r9
	movq	(%rbp,%r8), %rsi
	movq	(%rbp,%r9), %r10
	cmpq	%r10, %rsi
	jae	.Lcovretin_BB_05a9da4a_36
	addq	%rbp, %r8
	movzwl	8(%r8), %edi
	movzwl	8(%rbp,%r9), %r9d
	movq	%r10, (%r8)
	movw	%r9w, 8(%r8)
	movl	$0, 10(%r8)
	movw	$0, 14(%r8)
	testq	%rdx, %rdx
	je	.Lcovretin_BB_05a9da4a_34
	movq	%rcx, %r8
	.p2align	4
.Lcovretin_BB_05a9da4a_40:
	movq	-16(%r8), %r9
	cmpq	%r9, %rsi
	jae	.Lcovretin_BB_05a9da4a_43
	decq	%rdx
	movzwl	-8(%r8), %r10d
	movq	%r9, (%r8)
	movw	%r10w, 8(%r8)
	movl	$0, 10(%r8)
	movw	$0, 14(%r8)
	addq	$-16, %r8
	testq	%rdx, %rdx
	jne	.Lcovretin_BB_05a9da4a_40
	xorl	%edx, %edx
.Lcovretin_BB_05a9da4a_43:
	shlq	$4, %rdx
	jmp	.Lcovretin_BB_05a9da4a_35
.Lcovretin_BB_05a9da4a_44:
	movq	(%rbp), %rax
	movq	16(%rbp), %rcx
	cmpq	%rax, %rcx
	movzbl	16(%rsp), %r15d
	leaq	32(%rbp), %rsi
	movl	$2, %edx
	jae	.Lcovretin_BB_05a9da4a_47
	.p2align	4
.Lcovretin_BB_05a9da4a_45:
	movq	(%rsi), %rdi
	cmpq	-16(%rsi), %rdi
	jae	.Lcovretin_BB_05a9da4a_49
	incq	%rdx
	addq	$16, %rsi
	cmpq	%rdx, %r13
	jne	.Lcovretin_BB_05a9da4a_45
	jmp	.Lcovretin_BB_05a9da4a_53
	.p2align	4
.Lcovretin_BB_05a9da4a_47:
	movq	(%rsi), %rdi
	cmpq	-16(%rsi), %rdi
	jb	.Lcovretin_BB_05a9da4a_49
	incq	%rdx
	addq	$16, %rsi
	cmpq	%rdx, %r13
	jne	.Lcovretin_BB_05a9da4a_47
	jmp	.Lcovretin_BB_05a9da4a_55
.Lcovretin_BB_05a9da4a_49:
	cmpq	%r13, %rdx
	jae	.Lcovretin_BB_05a9da4a_52
	bsrq	%r13, %rcx
	xorl	$63, %ecx
	addl	%ecx, %ecx
	xorl	$126, %ecx
	movq	%rbp, %rdi
	xorl	%esi, %esi
	movq	%r13, %rdx
	callq	"core::slice::sort::unstable::quicksort::<#3f568d0648200725>"
	jmp	.Lcovretin_BB_05a9da4a_54
.Lcovretin_BB_05a9da4a_52:
	cmpq	%rax, %rcx
	jae	.Lcovretin_BB_05a9da4a_55
.Lcovretin_BB_05a9da4a_53:
	movq	%r13, %rdx
	shrq	%rdx
	movq	%r13, %rsi
	subq	%rdx, %rsi
	shlq	$4, %rsi
	addq	%rbp, %rsi
	movq	%rbp, %rdi
	callq	"core::slice::edits::mirror::<31'vhost_queue::inflight::Resubmit>"
.Lcovretin_BB_05a9da4a_54:
	movq	136(%rsp), %r11
.Lcovretin_BB_05a9da4a_55:
	movq	56(%rsp), %r12
	movq	24(%rsp), %rax
	cmpq	%rax, 128(%rsp)
	jne	.Lcovretin_BB_05a9da4a_61
	cmpq	%r13, 144(%rsp)
	jb	.Lcovretin_BB_05a9da4a_61
	movq	%r12, 16(%rsp)
.Lcovretin_BB_05a9da4a_58:
	xorl	%ecx, %ecx
	movb	%r15b, %cl
	shll	$12, %ecx
	movq	64(%rsp), %rax
	movq	%rcx, %r9
	leaq	(%rax,%rcx), %rdi
	xorl	%eax, %eax
	movzbl	15(%rsp), %ecx
	movb	%cl, %al
	shll	$12, %eax
	movq	%rax, %r15
	leaq	(%r11,%rax), %r12
	movq	%rdi, %rax
	subq	%r14, %rax
	movq	128(%rsp), %rdx
	cmpq	%rdx, %rax
	jae	.Lcovretin_BB_05a9da4a_63
	cmpq	$4, %rdx
	jb	.Lcovretin_BB_05a9da4a_60
	cmpq	$32, %rax
	jae	.Lcovretin_BB_05a9da4a_66
.Lcovretin_BB_05a9da4a_60:
	xorl	%eax, %eax
.Lcovretin_BB_05a9da4a_75:
	movq	%rdx, %r8
	movq	%rax, %rcx
	andq	$3, %r8
	je	.Lcovretin_BB_05a9da4a_78
	movq	%rax, %rcx
	.p2align	4
.Lcovretin_BB_05a9da4a_77:
	movzbl	(%r14,%rcx), %esi
	movb	%sil, (%rdi,%rcx)
	incq	%rcx
	decq	%r8
	jne	.Lcovretin_BB_05a9da4a_77
.Lcovretin_BB_05a9da4a_78:
	subq	%rdx, %rax
	cmpq	$-4, %rax
	ja	.Lcovretin_BB_05a9da4a_81
	movq	64(%rsp), %rax
	addq	%r9, %rax
	addq	$3, %rax
	.p2align	4
.Lcovretin_BB_05a9da4a_80:
	movzbl	(%r14,%rcx), %esi
	movb	%sil, -3(%rax,%rcx)
	movzbl	1(%r14,%rcx), %esi
	movb	%sil, -2(%rax,%rcx)
	movzbl	2(%r14,%rcx), %esi
	movb	%sil, -1(%rax,%rcx)
	movzbl	3(%r14,%rcx), %esi
	movb	%sil, (%rax,%rcx)
	addq	$4, %rcx
	cmpq	%rcx, %rdx
	jne	.Lcovretin_BB_05a9da4a_80
	jmp	.Lcovretin_BB_05a9da4a_81
.Lcovretin_BB_05a9da4a_61:
	movq	%r14, %rdi
	callq	rattle_dealloc@PLT
	movl	$105, %eax
	testq	%r12, %r12
	je	.Lcovretin_BB_05a9da4a_95
	movq	%rbp, %rdi
	callq	rattle_dealloc@PLT
	movl	$105, %eax
	jmp	.Lcovretin_BB_05a9da4a_95
.Lcovretin_BB_05a9da4a_63:
	movq	%r14, %rsi
	callq	memmove@PLT
.Lcovretin_BB_05a9da4a_81:
	movq	152(%rsp), %r8
	movq	%r13, %rdx
	shlq	$4, %rdx
	movq	%r12, %rax
	subq	%rbp, %rax
	cmpq	%rdx, %rax
	jae	.Lcovretin_BB_05a9da4a_85
	testq	%r13, %r13
	movq	136(%rsp), %rdi
	je	.Lcovretin_BB_05a9da4a_91
	movl	%r13d, %eax
	andl	$7, %eax
	cmpq	$8, %r13
	jae	.Lcovretin_BB_05a9da4a_86
	xorl	%ecx, %ecx
	jmp	.Lcovretin_BB_05a9da4a_89
.Lcovretin_BB_05a9da4a_85:
	movq	%r12, %rdi
	movq	%rbp, %rsi
	movq	%r8, %r15
	callq	memmove@PLT
	movq	%r15, %r8
	jmp	.Lcovretin_BB_05a9da4a_91
.Lcovretin_BB_05a9da4a_86:
	movq	%r13, %rdx
	andq	$-8, %rdx
	movl	$112, %esi
	xorl	%ecx, %ecx
	.p2align	4
.Lcovretin_BB_05a9da4a_87:
	movups	-112(%rbp,%rsi), %xmm0
	movups	%xmm0, -112(%r12,%rsi)
	movups	-96(%rbp,%rsi), %xmm0
	movups	%xmm0, -96(%r12,%rsi)
	movups	-80(%rbp,%rsi), %xmm0
	movups	%xmm0, -80(%r12,%rsi)
	movups	-64(%rbp,%rsi), %xmm0
	movups	%xmm0, -64(%r12,%rsi)
	movups	-48(%rbp,%rsi), %xmm0
	movups	%xmm0, -48(%r12,%rsi)
	movups	-32(%rbp,%rsi), %xmm0
	movups	%xmm0, -32(%r12,%rsi)
	movups	-16(%rbp,%rsi), %xmm0
	movups	%xmm0, -16(%r12,%rsi)
	movups	(%rbp,%rsi), %xmm0
	movups	%xmm0, (%r12,%rsi)
	addq	$8, %rcx
	subq	$-128, %rsi
	cmpq	%rcx, %rdx
	jne	.Lcovretin_BB_05a9da4a_87
	testq	%rax, %rax
	je	.Lcovretin_BB_05a9da4a_91
.Lcovretin_BB_05a9da4a_89:
	shlq	$4, %rcx
	leaq	(%rcx,%rbp), %rdx
	addq	%rcx, %r15
	addq	%r15, %rdi
	shll	$4, %eax
	xorl	%ecx, %ecx
	.p2align	4
.Lcovretin_BB_05a9da4a_90:
	movups	(%rdx,%rcx), %xmm0
	movups	%xmm0, (%rdi,%rcx)
	addq	$16, %rcx
	cmpq	%rcx, %rax
	jne	.Lcovretin_BB_05a9da4a_90
.Lcovretin_BB_05a9da4a_91:
	movq	%r13, (%r8)
	testq	%rbx, %rbx
	je	.Lcovretin_BB_05a9da4a_93
	movq	%r14, %rdi
	callq	rattle_dealloc@PLT
.Lcovretin_BB_05a9da4a_93:
	xorl	%eax, %eax
	cmpq	$0, 16(%rsp)
	je	.Lcovretin_BB_05a9da4a_95
	movq	%rbp, %rdi
	callq	rattle_dealloc@PLT
	xorl	%eax, %eax
.Lcovretin_BB_05a9da4a_95:
	addq	$72, %rsp
	.cfi_def_cfa_offset 56
	popq	%rbx
	.cfi_def_cfa_offset 48
	popq	%r12
	.cfi_def_cfa_offset 40
	popq	%r13
	.cfi_def_cfa_offset 32
	popq	%r14
	.cfi_def_cfa_offset 24
	popq	%r15
	.cfi_def_cfa_offset 16
	popq	%rbp
	.cfi_def_cfa_offset 8
	retq
.Lcovretin_BB_05a9da4a_66:
	.cfi_def_cfa_offset 128
	cmpq	$32, %rdx
	jae	.Lcovretin_BB_05a9da4a_68
	xorl	%eax, %eax
	jmp	.Lcovretin_BB_05a9da4a_72
.Lcovretin_BB_05a9da4a_68:
	movq	%rdx, %rax
	andq	$-32, %rax
	movq	64(%rsp), %rcx
	addq	%r9, %rcx
	addq	$16, %rcx
	xorl	%esi, %esi
	.p2align	4
.Lcovretin_BB_05a9da4a_69:
	movups	(%r14,%rsi), %xmm0
	movups	16(%r14,%rsi), %xmm1
	movups	%xmm0, -16(%rcx,%rsi)
	movups	%xmm1, (%rcx,%rsi)
	addq	$32, %rsi
	cmpq	%rsi, %rax
	jne	.Lcovretin_BB_05a9da4a_69
	cmpq	%rax, %rdx
	je	.Lcovretin_BB_05a9da4a_81
	testb	$28, %dl
	je	.Lcovretin_BB_05a9da4a_75
.Lcovretin_BB_05a9da4a_72:
	movq	%rax, %rcx
	movq	%rdx, %rax
	andq	$-4, %rax
	.p2align	4
.Lcovretin_BB_05a9da4a_73:
	movl	(%r14,%rcx), %esi
	movl	%esi, (%rdi,%rcx)
	addq	$4, %rcx
	cmpq	%rcx, %rax
	jne	.Lcovretin_BB_05a9da4a_73
	cmpq	%rax, %rdx
	je	.Lcovretin_BB_05a9da4a_81
	jmp	.Lcovretin_BB_05a9da4a_75
.Lcovretin_func_end_05a9da4a:
	.size	covretin_inflight_recover, .Lcovretin_func_end_05a9da4a-covretin_inflight_recover
	.cfi_endproc

	.section	.text.covretin_inflight_recover_packed,"ax",@progbits
	.globl	covretin_inflight_recover_packed
	.p2align	4
	.type	covretin_inflight_recover_packed,@function
covretin_inflight_recover_packed:
	.cfi_startproc
	endbr64
	pushq	%rbp
	.cfi_def_cfa_offset 16
	pushq	%r15
	.cfi_def_cfa_offset 24
	pushq	%r14
	.cfi_def_cfa_offset 32
	pushq	%r13
	.cfi_def_cfa_offset 40
	pushq	%r12
	.cfi_def_cfa_offset 48
	pushq	%rbx
	.cfi_def_cfa_offset 56
	subq	$104, %rsp
	.cfi_def_cfa_offset 160
	.cfi_offset %rbx, -56
	.cfi_offset %r12, -48
	.cfi_offset %r13, -40
	.cfi_offset %r14, -32
	.cfi_offset %r15, -24
	.cfi_offset %rbp, -16
	movq	%rsi, %r12
	movq	%rdi, %r15
	xorl	%r14d, %r14d
	testq	%rdi, %rdi
	sete	32(%rsp)
	cmpq	$0, 160(%rsp)
	sete	48(%rsp)
	cmpq	$0, 176(%rsp)
	sete	%bpl
	movzwl	2(%rdx), %eax
	movzbl	4(%rdx), %edi
	movzbl	4(%rcx), %ebx
	movl	%ebx, %r11d
	xorb	%dil, %r11b
	movzwl	2(%rcx), %esi
	cmpw	%si, %ax
	setne	%r10b
	orb	%r11b, %r10b
	movzbl	5(%rcx), %r11d
	movzwl	(%rcx), %r13d
	testb	$1, %r10b
	je	.Lcovretin_BB_0c2a3449_3
	testb	%r8b, %r8b
	setns	%cl
	xorb	%bl, %cl
	testw	%r8w, %r8w
	sets	%r8b
	xorb	%bl, %r8b
	andb	%cl, %r8b
	testb	$1, %r8b
	jne	.Lcovretin_BB_0c2a3449_4
	movzwl	(%rdx), %r13d
	movzbl	5(%rdx), %r11d
	movl	%eax, %esi
	movl	%edi, %ebx
	jmp	.Lcovretin_BB_0c2a3449_4
.Lcovretin_BB_0c2a3449_3:
	movl	%eax, %esi
.Lcovretin_BB_0c2a3449_4:
	cmpq	$32769, %r12
	setb	%al
	movzwl	%si, %edx
	cmpq	%rdx, %r12
	seta	%cl
	andb	%al, %cl
	movl	$8, %esi
	cmpb	$1, %cl
	jne	.Lcovretin_BB_0c2a3449_85
	movq	%rdx, 88(%rsp)
	movb	%r11b, 12(%rsp)
	movb	%bl, 13(%rsp)
	movq	%r9, 96(%rsp)
	movl	$1, %esi
	movq	%r12, %rdi
	callq	rattle_alloc@PLT
	movl	$24, %esi
	testb	$1, %al
	je	.Lcovretin_BB_0c2a3449_85
	movq	%rdx, %rbx
	movw	%r13w, 14(%rsp)
	movzbl	32(%rsp), %eax
	movb	%al, %r14b
	xorl	%ecx, %ecx
	movzbl	48(%rsp), %eax
	movb	%al, %cl
	xorl	%eax, %eax
	movb	%bpl, %al
	shll	$12, %r14d
	shll	$12, %ecx
	movq	%rcx, 32(%rsp)
	shll	$12, %eax
	movq	%rax, 48(%rsp)
	cmpq	$1, %r12
	jne	.Lcovretin_BB_0c2a3449_8
	xorl	%r13d, %r13d
	jmp	.Lcovretin_BB_0c2a3449_9
.Lcovretin_BB_0c2a3449_8:
	leaq	-1(%r12), %r13
	movq	%rbx, %rdi
	xorl	%esi, %esi
	movq	%r13, %rdx
	callq	memset@PLT
.Lcovretin_BB_0c2a3449_9:
	movq	176(%rsp), %r11
	leaq	(%r15,%r14), %rax
	movq	160(%rsp), %rcx
	movq	32(%rsp), %rdx
	leaq	(%rcx,%rdx), %rdi
	movq	48(%rsp), %rcx
	leaq	(%r11,%rcx), %rsi
	movb	$0, (%rbx,%r13)
	movq	%r12, %rcx
	movzwl	14(%rsp), %edx
	.p2align	4
.Lcovretin_BB_0c2a3449_10:
	movzwl	%dx, %edx
	cmpq	%rdx, %r12
	jbe	.Lcovretin_BB_0c2a3449_14
	movb	$1, (%rbx,%rdx)
	shll	$4, %edx
	movzwl	2(%rax,%rdx), %edx
	decq	%rcx
	jne	.Lcovretin_BB_0c2a3449_10
	movzwl	%dx, %eax
	cmpq	%rax, %r12
	jbe	.Lcovretin_BB_0c2a3449_14
	movq	%rbx, %rdi
	callq	rattle_dealloc@PLT
	movl	$8, %esi
	jmp	.Lcovretin_BB_0c2a3449_85
.Lcovretin_BB_0c2a3449_14:
	movq	%r13, 40(%rsp)
	movq	%rdi, 80(%rsp)
	movq	%rsi, 24(%rsp)
	leaq	16(%rsp), %rax
	movq	%rax, 56(%rsp)
	xorps	%xmm0, %xmm0
	movups	%xmm0, 64(%rsp)
	addq	%r15, %r14
	addq	$8, %r14
	xorl	%r15d, %r15d
	xorl	%ebp, %ebp
	jmp	.Lcovretin_BB_0c2a3449_18
.Lcovretin_BB_0c2a3449_15:
	movq	56(%rsp), %rax
	movq	64(%rsp), %r15
	movq	176(%rsp), %r11
	.p2align	4
.Lcovretin_BB_0c2a3449_16:
	movq	%r15, %rcx
	shlq	$4, %rcx
	movq	%r13, (%rax,%rcx)
	movw	%bp, 8(%rax,%rcx)
	movl	$0, 10(%rax,%rcx)
	movw	$0, 14(%rax,%rcx)
	incq	%r15
	movq	%r15, 64(%rsp)
.Lcovretin_BB_0c2a3449_17:
	incq	%rbp
	addq	$16, %r14
	cmpq	%rbp, %r12
	je	.Lcovretin_BB_0c2a3449_25
.Lcovretin_BB_0c2a3449_18:
	cmpb	$1, -8(%r14)
	jne	.Lcovretin_BB_0c2a3449_17
	cmpb	$0, (%rbx,%rbp)
	jne	.Lcovretin_BB_0c2a3449_17
	movq	(%r14), %r13
	cmpq	%r15, 72(%rsp)
	jne	.Lcovretin_BB_0c2a3449_16
	leaq	56(%rsp), %rdi
	callq	"std_alloc::vec::Vec::grow_amortized::<#beceaf184de4c8f2>"
	testb	%al, %al
	jne	.Lcovretin_BB_0c2a3449_15
	cmpq	$0, 72(%rsp)
	je	.Lcovretin_BB_0c2a3449_24
	movq	56(%rsp), %rdi
	callq	rattle_dealloc@PLT
.Lcovretin_BB_0c2a3449_24:
	movq	%rbx, %rdi
	callq	rattle_dealloc@PLT
	movl	$24, %esi
	jmp	.Lcovretin_BB_0c2a3449_85
.Lcovretin_BB_0c2a3449_25:
	movq	56(%rsp), %r12
	cmpq	$20, %r15
	ja	.Lcovretin_BB_0c2a3449_38
	cmpq	$2, %r15
	movq	24(%rsp), %r14
	movq	40(%rsp), %rax
	leaq	1(%rax), %r13
	movq	80(%rsp), %rbp
	jb	.Lcovretin_BB_0c2a3449_48
	movl	$1, %eax
	movq	%r12, %rcx
	jmp	.Lcovretin_BB_0c2a3449_31
.Lcovretin_BB_0c2a3449_28:
	xorl	%edx, %edx
.Lcovretin_BB_0c2a3449_29:
	movq	%rsi, (%r12,%rdx)
	movw	%di, 8(%r12,%rdx)
	movl	$0, 10(%r12,%rdx)
	movw	$0, 14(%r12,%rdx)
.Lcovretin_BB_0c2a3449_30:
	incq	%rax
	addq	$16, %rcx
	cmpq	%r15, %rax
	je	.Lcovretin_BB_0c2a3449_48
.Lcovretin_BB_0c2a3449_31:
	movq	%rax, %r8
	shlq	$4, %r8
	leaq	-1(%rax), %rdx
	movq	%rdx, %r9
	shlq	$4, %r9
	movq	(%r12,%r8), %rsi
	movq	(%r12,%r9), %r10
	cmpq	%r10, %rsi
	jae	.Lcovretin_BB_0c2a3449_30
	addq	%r12, %r8
	movzwl	8(%r8), %edi
	movzwl	8(%r12,%r9), %r9d
	movq	%r10, (%r8)
	movw	%r9w, 8(%r8)
	movl	$0, 10(%r8)
	movw	$0, 14(%r8)
	testq	%rdx, %rdx
	je	.Lcovretin_BB_0c2a3449_28
	movq	%rcx, %r8
	.p2align	4
.Lcovretin_BB_0c2a3449_34:
	movq	-16(%r8), %r9
	cmpq	%r9, %rsi
	jae	.Lcovretin_BB_0c2a3449_37
	decq	%rdx
	movzwl	-8(%r8), %r10d
	movq	%r9, (%r8)
	movw	%r10w, 8(%r8)
	movl	$0, 10(%r8)
	movw	$0, 14(%r8)
	addq	$-16, %r8
	testq	%rdx, %rdx
	jne	.Lcovretin_BB_0c2a3449_34
	xorl	%edx, %edx
.Lcovretin_BB_0c2a3449_37:
	shlq	$4, %rdx
	jmp	.Lcovretin_BB_0c2a3449_29
.Lcovretin_BB_0c2a3449_38:
	movq	(%r12), %rax
	movq	16(%r12), %rcx
	cmpq	%rax, %rcx
	movq	24(%rsp), %r14
	movq	40(%rsp), %rdx
	leaq	1(%rdx), %r13
	movq	80(%rsp), %rbp
	leaq	32(%r12), %rsi
	movl	$2, %edx
	jae	.Lcovretin_BB_0c2a3449_41
	.p2align	4
.Lcovretin_BB_0c2a3449_39:
	movq	(%rsi), %rdi
	cmpq	-16(%rsi), %rdi
	jae	.Lcovretin_BB_0c2a3449_43
	incq	%rdx
	addq	$16, %rsi
	cmpq	%rdx, %r15
	jne	.Lcovretin_BB_0c2a3449_39
	jmp	.Lcovretin_BB_0c2a3449_46
	.p2align	4
.Lcovretin_BB_0c2a3449_41:
	movq	(%rsi), %rdi
	cmpq	-16(%rsi), %rdi
	jb	.Lcovretin_BB_0c2a3449_43
	incq	%rdx
	addq	$16, %rsi
	cmpq	%rdx, %r15
	jne	.Lcovretin_BB_0c2a3449_41
	jmp	.Lcovretin_BB_0c2a3449_48
.Lcovretin_BB_0c2a3449_43:
	cmpq	%r15, %rdx
	jae	.Lcovretin_BB_0c2a3449_45
	bsrq	%r15, %rcx
	xorl	$63, %ecx
	addl	%ecx, %ecx
	xorl	$126, %ecx
	movq	%r12, %rdi
	xorl	%esi, %esi
	movq	%r15, %rdx
	callq	"core::slice::sort::unstable::quicksort::<#3f568d0648200725>"
	jmp	.Lcovretin_BB_0c2a3449_47
.Lcovretin_BB_0c2a3449_45:
	cmpq	%rax, %rcx
	jae	.Lcovretin_BB_0c2a3449_48
.Lcovretin_BB_0c2a3449_46:
	movq	%r15, %rdx
	shrq	%rdx
	movq	%r15, %rsi
	subq	%rdx, %rsi
	shlq	$4, %rsi
	addq	%r12, %rsi
	movq	%r12, %rdi
	callq	"core::slice::edits::mirror::<31'vhost_queue::inflight::Resubmit>"
.Lcovretin_BB_0c2a3449_47:
	movq	176(%rsp), %r11
.Lcovretin_BB_0c2a3449_48:
	movq	72(%rsp), %rax
	movq	%rax, 24(%rsp)
	cmpq	%r13, 168(%rsp)
	jne	.Lcovretin_BB_0c2a3449_52
	cmpq	%r15, 184(%rsp)
	jb	.Lcovretin_BB_0c2a3449_52
	movzbl	12(%rsp), %eax
	shlq	$40, %rax
	movzbl	13(%rsp), %ecx
	shlq	$32, %rcx
	orq	%rax, %rcx
	movq	88(%rsp), %rdx
	shll	$16, %edx
	orq	%rcx, %rdx
	movzwl	14(%rsp), %eax
	orq	%rdx, %rax
	shrq	$32, %rcx
	movq	96(%rsp), %rdx
	movw	%cx, 4(%rdx)
	movl	%eax, (%rdx)
	movq	%rbp, %rax
	subq	%rbx, %rax
	cmpq	40(%rsp), %rax
	jbe	.Lcovretin_BB_0c2a3449_54
	movq	%rbp, %rdi
	movq	%rbx, %rsi
	movq	168(%rsp), %rdx
	callq	memmove@PLT
	movq	176(%rsp), %r11
	jmp	.Lcovretin_BB_0c2a3449_73
.Lcovretin_BB_0c2a3449_52:
	movq	%rbx, %rdi
	callq	rattle_dealloc@PLT
	movl	$105, %esi
	cmpq	$0, 24(%rsp)
	je	.Lcovretin_BB_0c2a3449_85
	movq	%r12, %rdi
	callq	rattle_dealloc@PLT
	movl	$105, %esi
	jmp	.Lcovretin_BB_0c2a3449_85
.Lcovretin_BB_0c2a3449_54:
	cmpq	$4, %r13
	jb	.Lcovretin_BB_0c2a3449_55
	cmpq	$32, %rax
	jae	.Lcovretin_BB_0c2a3449_58
.Lcovretin_BB_0c2a3449_55:
	xorl	%eax, %eax
.Lcovretin_BB_0c2a3449_67:
	movq	40(%rsp), %rsi
	movq	%rsi, %rcx
	subq	%rax, %rcx
	movl	%esi, %edx
	notl	%edx
	testb	$3, %dl
	je	.Lcovretin_BB_0c2a3449_70
	leal	1(%rsi), %edx
	andl	$3, %edx
	.p2align	4
.Lcovretin_BB_0c2a3449_69:
	movzbl	(%rbx,%rax), %esi
	movb	%sil, (%rbp,%rax)
	incq	%rax
	decq	%rdx
	jne	.Lcovretin_BB_0c2a3449_69
.Lcovretin_BB_0c2a3449_70:
	cmpq	$3, %rcx
	jb	.Lcovretin_BB_0c2a3449_73
	movq	160(%rsp), %rcx
	movq	32(%rsp), %rdx
	addq	%rdx, %rcx
	addq	$3, %rcx
	.p2align	4
.Lcovretin_BB_0c2a3449_72:
	movzbl	(%rbx,%rax), %edx
	movb	%dl, -3(%rcx,%rax)
	movzbl	1(%rbx,%rax), %edx
	movb	%dl, -2(%rcx,%rax)
	movzbl	2(%rbx,%rax), %edx
	movb	%dl, -1(%rcx,%rax)
	movzbl	3(%rbx,%rax), %edx
	movb	%dl, (%rcx,%rax)
	addq	$4, %rax
	cmpq	%rax, %r13
	jne	.Lcovretin_BB_0c2a3449_72
.Lcovretin_BB_0c2a3449_73:
	movq	%r15, %rdx
	shlq	$4, %rdx
	movq	%r14, %rax
	subq	%r12, %rax
	cmpq	%rdx, %rax
	jae	.Lcovretin_BB_0c2a3449_77
	testq	%r15, %r15
	je	.Lcovretin_BB_0c2a3449_83
	movl	%r15d, %eax
	andl	$7, %eax
	cmpq	$8, %r15
	jae	.Lcovretin_BB_0c2a3449_78
	xorl	%ecx, %ecx
	jmp	.Lcovretin_BB_0c2a3449_81
.Lcovretin_BB_0c2a3449_77:
	movq	%r14, %rdi
	movq	%r12, %rsi
	callq	memmove@PLT
	jmp	.Lcovretin_BB_0c2a3449_83
.Lcovretin_BB_0c2a3449_78:
	movq	%r15, %rdx
	andq	$-8, %rdx
	movl	$112, %esi
	xorl	%ecx, %ecx
	.p2align	4
.Lcovretin_BB_0c2a3449_79:
	movups	-112(%r12,%rsi), %xmm0
	movups	%xmm0, -112(%r14,%rsi)
	movups	-96(%r12,%rsi), %xmm0
	movups	%xmm0, -96(%r14,%rsi)
	movups	-80(%r12,%rsi), %xmm0
	movups	%xmm0, -80(%r14,%rsi)
	movups	-64(%r12,%rsi), %xmm0
	movups	%xmm0, -64(%r14,%rsi)
	movups	-48(%r12,%rsi), %xmm0
	movups	%xmm0, -48(%r14,%rsi)
	movups	-32(%r12,%rsi), %xmm0
	movups	%xmm0, -32(%r14,%rsi)
	movups	-16(%r12,%rsi), %xmm0
	movups	%xmm0, -16(%r14,%rsi)
	movups	(%r12,%rsi), %xmm0
	movups	%xmm0, (%r14,%rsi)
	addq	$8, %rcx
	subq	$-128, %rsi
	cmpq	%rcx, %rdx
	jne	.Lcovretin_BB_0c2a3449_79
	testq	%rax, %rax
	je	.Lcovretin_BB_0c2a3449_83
.Lcovretin_BB_0c2a3449_81:
	shlq	$4, %rcx
	leaq	(%r12,%rcx), %rdx
	movq	48(%rsp), %rsi
	addq	%rcx, %rsi
	addq	%rsi, %r11
	shll	$4, %eax
	xorl	%ecx, %ecx
	.p2align	4
.Lcovretin_BB_0c2a3449_82:
	movups	(%rdx,%rcx), %xmm0
	movups	%xmm0, (%r11,%rcx)
	addq	$16, %rcx
	cmpq	%rcx, %rax
	jne	.Lcovretin_BB_0c2a3449_82
.Lcovretin_BB_0c2a3449_83:
	movq	192(%rsp), %rax
	movq	%r15, (%rax)
	movq	%rbx, %rdi
	callq	rattle_dealloc@PLT
	xorl	%esi, %esi
	cmpq	$0, 24(%rsp)
	je	.Lcovretin_BB_0c2a3449_85
	movq	%r12, %rdi
	callq	rattle_dealloc@PLT
	xorl	%esi, %esi
.Lcovretin_BB_0c2a3449_85:
	movl	%esi, %eax
	addq	$104, %rsp
	.cfi_def_cfa_offset 56
	popq	%rbx
	.cfi_def_cfa_offset 48
	popq	%r12
	.cfi_def_cfa_offset 40
	popq	%r13
	.cfi_def_cfa_offset 32
	popq	%r14
	.cfi_def_cfa_offset 24
	popq	%r15
	.cfi_def_cfa_offset 16
	popq	%rbp
	.cfi_def_cfa_offset 8
	retq
.Lcovretin_BB_0c2a3449_58:
	.cfi_def_cfa_offset 160
	cmpq	$32, %r13
	jae	.Lcovretin_BB_0c2a3449_60
	xorl	%eax, %eax
	jmp	.Lcovretin_BB_0c2a3449_64
.Lcovretin_BB_0c2a3449_60:
	movq	%r13, %rax
	andq	$-32, %rax
	movq	160(%rsp), %rcx
	movq	32(%rsp), %rdx
	addq	%rdx, %rcx
	addq	$16, %rcx
	xorl	%edx, %edx
.Lcovretin_BB_0c2a3449_61:
	movups	(%rbx,%rdx), %xmm0
	movups	16(%rbx,%rdx), %xmm1
	movups	%xmm0, -16(%rcx,%rdx)
	movups	%xmm1, (%rcx,%rdx)
	addq	$32, %rdx
	cmpq	%rdx, %rax
	jne	.Lcovretin_BB_0c2a3449_61
	cmpq	%rax, %r13
	je	.Lcovretin_BB_0c2a3449_73
	testb	$28, %r13b
	je	.Lcovretin_BB_0c2a3449_67
.Lcovretin_BB_0c2a3449_64:
	movq	%rax, %rcx
	movq	%r13, %rax
	andq	$-4, %rax
	.p2align	4
.Lcovretin_BB_0c2a3449_65:
	movl	(%rbx,%rcx), %edx
	movl	%edx, (%rbp,%rcx)
	addq	$4, %rcx
	cmpq	%rcx, %rax
	jne	.Lcovretin_BB_0c2a3449_65
	cmpq	%rax, %r13
	je	.Lcovretin_BB_0c2a3449_73
	jmp	.Lcovretin_BB_0c2a3449_67
.Lcovretin_func_end_0c2a3449:
	.size	covretin_inflight_recover_packed, .Lcovretin_func_end_0c2a3449-covretin_inflight_recover_packed
	.cfi_endproc

	.section	.text.covretin_inflight_take,"ax",@progbits
	.globl	covretin_inflight_take
	.p2align	4
	.type	covretin_inflight_take,@function
covretin_inflight_take:
	.cfi_startproc
	endbr64
	movzwl	%di, %eax
	shll	$4, %eax
	leaq	16(%rax), %rdi
	addq	$24, %rax
	movq	%rax, (%rdx)
	movq	$8, 8(%rdx)
	movq	%rsi, 16(%rdx)
	movq	%rdi, (%rcx)
	movq	$1, 8(%rcx)
	movq	$1, 16(%rcx)
	retq
.Lcovretin_func_end_fbfcf3f3:
	.size	covretin_inflight_take, .Lcovretin_func_end_fbfcf3f3-covretin_inflight_take
	.cfi_endproc

	.section	.text.covretin_inflight_take_packed,"ax",@progbits
	.globl	covretin_inflight_take_packed
	.p2align	4
	.type	covretin_inflight_take_packed,@function
covretin_inflight_take_packed:
	.cfi_startproc
	endbr64
	movzwl	%di, %eax
	shll	$5, %eax
	leaq	32(%rax), %rdi
	leaq	36(%rax), %r10
	movzwl	%si, %esi
	shll	$16, %edx
	orl	%esi, %edx
	addq	$40, %rax
	movzwl	%r8w, %esi
	shll	$16, %r8d
	orl	%esi, %r8d
	movq	%r10, (%r9)
	movq	$4, 8(%r9)
	movq	%rdx, 16(%r9)
	movq	%rax, 24(%r9)
	movq	$8, 32(%r9)
	movq	%rcx, 40(%r9)
	movq	%rdi, 48(%r9)
	movq	$1, 56(%r9)
	movq	$1, 64(%r9)
	movq	$12, 72(%r9)
	movq	$4, 80(%r9)
	movq	%r8, 88(%r9)
	retq
.Lcovretin_func_end_96760305:
	.size	covretin_inflight_take_packed, .Lcovretin_func_end_96760305-covretin_inflight_take_packed
	.cfi_endproc

	.section	.text.covretin_log_bit_of,"ax",@progbits
	.globl	covretin_log_bit_of
	.p2align	4
	.type	covretin_log_bit_of,@function
covretin_log_bit_of:
	.cfi_startproc
	endbr64
	movq	%rdi, %rcx
	movq	%rdi, %rax
	shrq	$3, %rax
	andb	$7, %cl
	movb	$1, %dl
	shlb	%cl, %dl
	movq	%rax, (%rsi)
	movb	%dl, 8(%rsi)
	movl	$0, 9(%rsi)
	movl	$0, 12(%rsi)
	retq
.Lcovretin_func_end_a9af5f7f:
	.size	covretin_log_bit_of, .Lcovretin_func_end_a9af5f7f-covretin_log_bit_of
	.cfi_endproc

	.section	.text.covretin_log_pages,"ax",@progbits
	.globl	covretin_log_pages
	.p2align	4
	.type	covretin_log_pages,@function
covretin_log_pages:
	.cfi_startproc
	endbr64
	movq	%rsi, %r9
	movl	$9, %eax
	addq	%rdi, %r9
	jb	.Lcovretin_BB_93bd1c13_4
	movq	%rdi, %rax
	shrq	$12, %rax
	movq	%rax, %r9
	testq	%rsi, %rsi
	je	.Lcovretin_BB_93bd1c13_3
	addq	%rdi, %rsi
	decq	%rsi
	shrq	$12, %rsi
	incq	%rsi
	movq	%rdx, %rdi
	shrq	$61, %rdi
	shlq	$3, %rdx
	cmpq	%rsi, %rdx
	cmovaeq	%rsi, %rdx
	testq	%rdi, %rdi
	cmovneq	%rsi, %rdx
	movq	%rdx, %r9
.Lcovretin_BB_93bd1c13_3:
	movq	%rax, (%rcx)
	movq	%r9, (%r8)
	xorl	%eax, %eax
.Lcovretin_BB_93bd1c13_4:
	retq
.Lcovretin_func_end_93bd1c13:
	.size	covretin_log_pages, .Lcovretin_func_end_93bd1c13-covretin_log_pages
	.cfi_endproc

	.section	.text.covretin_queue_add_region,"ax",@progbits
	.globl	covretin_queue_add_region
	.p2align	4
	.type	covretin_queue_add_region,@function
covretin_queue_add_region:
	.cfi_startproc
	endbr64
	pushq	%rbp
	.cfi_def_cfa_offset 16
	pushq	%r15
	.cfi_def_cfa_offset 24
	pushq	%r14
	.cfi_def_cfa_offset 32
	pushq	%r13
	.cfi_def_cfa_offset 40
	pushq	%r12
	.cfi_def_cfa_offset 48
	pushq	%rbx
	.cfi_def_cfa_offset 56
	subq	$40, %rsp
	.cfi_def_cfa_offset 96
	.cfi_offset %rbx, -56
	.cfi_offset %r12, -48
	.cfi_offset %r13, -40
	.cfi_offset %r14, -32
	.cfi_offset %r15, -24
	.cfi_offset %rbp, -16
	movq	(%rdi), %rbx
	movq	$0, (%rdi)
	testq	%rbx, %rbx
	je	.Lcovretin_BB_04b95f07_6
	movq	8(%rsi), %r15
	testq	%r15, %r15
	je	.Lcovretin_BB_04b95f07_5
	movq	(%rsi), %rbp
	movq	16(%rsi), %r12
	movq	24(%rsi), %r14
	movq	%r15, %rax
	notq	%rax
	cmpq	%rax, %rbp
	setbe	%cl
	cmpq	%rax, %r12
	setbe	%dl
	andb	%cl, %dl
	cmpq	%rax, %r14
	setbe	%al
	andb	%dl, %al
	cmpb	$1, %al
	jne	.Lcovretin_BB_04b95f07_5
	movq	8(%rbx), %rcx
	cmpq	$508, %rcx
	jbe	.Lcovretin_BB_04b95f07_8
	movq	%rbx, (%rdi)
	movl	$3, %eax
	jmp	.Lcovretin_BB_04b95f07_7
.Lcovretin_BB_04b95f07_5:
	movq	%rbx, (%rdi)
	movl	$1, %eax
	jmp	.Lcovretin_BB_04b95f07_7
.Lcovretin_BB_04b95f07_6:
	movl	$101, %eax
.Lcovretin_BB_04b95f07_7:
	addq	$40, %rsp
	.cfi_def_cfa_offset 56
	popq	%rbx
	.cfi_def_cfa_offset 48
	popq	%r12
	.cfi_def_cfa_offset 40
	popq	%r13
	.cfi_def_cfa_offset 32
	popq	%r14
	.cfi_def_cfa_offset 24
	popq	%r15
	.cfi_def_cfa_offset 16
	popq	%rbp
	.cfi_def_cfa_offset 8
	retq
.Lcovretin_BB_04b95f07_8:
	.cfi_def_cfa_offset 96
	movq	(%rbx), %rax
	movq	%rcx, 16(%rsp)
	testq	%rcx, %rcx
	je	.Lcovretin_BB_04b95f07_16
	leaq	16(%rax), %rcx
	movq	16(%rsp), %rdx
	jmp	.Lcovretin_BB_04b95f07_11
	.p2align	4
.Lcovretin_BB_04b95f07_10:
	addq	$32, %rcx
	decq	%rdx
	je	.Lcovretin_BB_04b95f07_16
.Lcovretin_BB_04b95f07_11:
	movq	-16(%rcx), %r9
	movq	-8(%rcx), %rsi
	movq	%rbp, %r8
	subq	%rsi, %r8
	setae	%r10b
	cmpq	%r8, %r9
	setbe	%r11b
	subq	%r15, %r9
	setae	%r8b
	cmpq	%r9, %rbp
	setbe	%r9b
	testb	%r11b, %r10b
	jne	.Lcovretin_BB_04b95f07_13
	andb	%r9b, %r8b
	je	.Lcovretin_BB_04b95f07_15
.Lcovretin_BB_04b95f07_13:
	movq	(%rcx), %r8
	movq	%r12, %r9
	subq	%rsi, %r9
	setae	%r10b
	cmpq	%r9, %r8
	setbe	%r9b
	subq	%r15, %r8
	setae	%sil
	cmpq	%r8, %r12
	setbe	%r8b
	testb	%r9b, %r10b
	jne	.Lcovretin_BB_04b95f07_10
	andb	%r8b, %sil
	jne	.Lcovretin_BB_04b95f07_10
.Lcovretin_BB_04b95f07_15:
	movq	%rbx, (%rdi)
	movl	$2, %eax
	jmp	.Lcovretin_BB_04b95f07_7
.Lcovretin_BB_04b95f07_16:
	leaq	32(%rbx), %r8
	movq	32(%rbx), %r10
	testq	%r10, %r10
	movq	%r14, 32(%rsp)
	je	.Lcovretin_BB_04b95f07_26
	movq	24(%rbx), %r13
	xorl	%r14d, %r14d
	movq	%r10, %rcx
	movq	16(%rsp), %r11
	jmp	.Lcovretin_BB_04b95f07_19
	.p2align	4
.Lcovretin_BB_04b95f07_18:
	movq	%rdx, %rcx
	cmpq	%rdx, %r14
	jae	.Lcovretin_BB_04b95f07_22
.Lcovretin_BB_04b95f07_19:
	movq	%rcx, %rdx
	subq	%r14, %rdx
	shrq	%rdx
	addq	%r14, %rdx
	movzwl	(%r13,%rdx,2), %esi
	cmpq	%rsi, %r11
	jbe	.Lcovretin_BB_04b95f07_18
	shll	$5, %esi
	cmpq	%rbp, (%rax,%rsi)
	ja	.Lcovretin_BB_04b95f07_18
	movq	%rdx, %r14
	incq	%r14
	movq	%rcx, %rdx
	cmpq	%rdx, %r14
	jb	.Lcovretin_BB_04b95f07_19
.Lcovretin_BB_04b95f07_22:
	movq	40(%rbx), %r9
	cmpq	%r9, %r10
	jae	.Lcovretin_BB_04b95f07_28
	xorps	%xmm0, %xmm0
	movups	%xmm0, (%r8)
	cmpq	$-1, %r14
	je	.Lcovretin_BB_04b95f07_42
	movq	%r10, %rdx
	subq	%r14, %rdx
	jne	.Lcovretin_BB_04b95f07_50
	movq	%r10, %r14
	jmp	.Lcovretin_BB_04b95f07_80
.Lcovretin_BB_04b95f07_26:
	leaq	24(%rbx), %rax
	leaq	40(%rbx), %rcx
	movq	40(%rbx), %r9
	testq	%r9, %r9
	je	.Lcovretin_BB_04b95f07_29
	movq	(%rax), %r13
	movq	$0, (%rcx)
	xorl	%r14d, %r14d
	movq	16(%rsp), %r11
	jmp	.Lcovretin_BB_04b95f07_80
.Lcovretin_BB_04b95f07_28:
	leaq	40(%rbx), %rcx
	leaq	24(%rbx), %rax
	jmp	.Lcovretin_BB_04b95f07_30
.Lcovretin_BB_04b95f07_29:
	xorl	%r9d, %r9d
	xorl	%r14d, %r14d
	movq	16(%rsp), %r11
.Lcovretin_BB_04b95f07_30:
	cmpq	%r10, %r9
	je	.Lcovretin_BB_04b95f07_69
.Lcovretin_BB_04b95f07_31:
	movq	(%rax), %r13
	xorps	%xmm0, %xmm0
	movups	%xmm0, (%r8)
	cmpq	$-1, %r14
	je	.Lcovretin_BB_04b95f07_34
	movq	%r10, %rdx
	subq	%r14, %rdx
	je	.Lcovretin_BB_04b95f07_80
	leaq	(,%r14,2), %rsi
	addq	%r13, %rsi
	leaq	2(,%r14,2), %rax
	addq	%r13, %rax
	addq	%rdx, %rdx
	movq	%rdi, 24(%rsp)
	movq	%rax, %rdi
	movq	%r11, 16(%rsp)
	jmp	.Lcovretin_BB_04b95f07_51
.Lcovretin_BB_04b95f07_34:
	leaq	1(%r10), %rcx
	movq	%r13, %rax
	movq	%rcx, %r8
	cmpq	$1025, %rcx
	jb	.Lcovretin_BB_04b95f07_61
	movq	%r9, (%rsp)
	xorl	%edx, %edx
	movq	%r13, %rsi
	xorl	%r9d, %r9d
	jmp	.Lcovretin_BB_04b95f07_37
.Lcovretin_BB_04b95f07_36:
	leaq	1024(%rax), %r9
	movq	%rcx, %r8
	subq	%r9, %r8
	incq	%rdx
	addq	$2048, %rsi
	cmpq	$1024, %r8
	jbe	.Lcovretin_BB_04b95f07_52
.Lcovretin_BB_04b95f07_37:
	movq	%r9, %rax
	testq	%r9, %r9
	je	.Lcovretin_BB_04b95f07_40
	movl	$991, %r8d
	.p2align	4
.Lcovretin_BB_04b95f07_39:
	movups	(%rsi,%r8,2), %xmm0
	movups	16(%rsi,%r8,2), %xmm1
	movups	32(%rsi,%r8,2), %xmm2
	movups	48(%rsi,%r8,2), %xmm3
	movups	%xmm3, 50(%rsi,%r8,2)
	movups	%xmm2, 34(%rsi,%r8,2)
	movups	%xmm1, 18(%rsi,%r8,2)
	movups	%xmm0, 2(%rsi,%r8,2)
	addq	$-32, %r8
	cmpq	$-33, %r8
	jne	.Lcovretin_BB_04b95f07_39
	jmp	.Lcovretin_BB_04b95f07_36
.Lcovretin_BB_04b95f07_40:
	movq	%rdx, %r8
	shlq	$11, %r8
	movzwl	-2(%r13,%r8), %r8d
	movl	$3, %r9d
	.p2align	4
.Lcovretin_BB_04b95f07_41:
	movw	%r8w, -6(%rsi,%r9,2)
	movw	%r8w, -4(%rsi,%r9,2)
	movw	%r8w, -2(%rsi,%r9,2)
	movw	%r8w, (%rsi,%r9,2)
	addq	$4, %r9
	cmpq	$1027, %r9
	jne	.Lcovretin_BB_04b95f07_41
	jmp	.Lcovretin_BB_04b95f07_36
.Lcovretin_BB_04b95f07_42:
	leaq	1(%r10), %rcx
	cmpq	$1024, %r10
	jb	.Lcovretin_BB_04b95f07_56
	movq	%r9, (%rsp)
	xorl	%edx, %edx
	movq	%r13, %rsi
	xorl	%r9d, %r9d
	jmp	.Lcovretin_BB_04b95f07_45
.Lcovretin_BB_04b95f07_44:
	leaq	1024(%rax), %r9
	movq	%rcx, %r8
	subq	%r9, %r8
	incq	%rdx
	addq	$2048, %rsi
	cmpq	$1024, %r8
	jbe	.Lcovretin_BB_04b95f07_57
.Lcovretin_BB_04b95f07_45:
	movq	%r9, %rax
	testq	%r9, %r9
	je	.Lcovretin_BB_04b95f07_48
	movl	$991, %r8d
	.p2align	4
.Lcovretin_BB_04b95f07_47:
	movups	(%rsi,%r8,2), %xmm0
	movups	16(%rsi,%r8,2), %xmm1
	movups	32(%rsi,%r8,2), %xmm2
	movups	48(%rsi,%r8,2), %xmm3
	movups	%xmm3, 50(%rsi,%r8,2)
	movups	%xmm2, 34(%rsi,%r8,2)
	movups	%xmm1, 18(%rsi,%r8,2)
	movups	%xmm0, 2(%rsi,%r8,2)
	addq	$-32, %r8
	cmpq	$-33, %r8
	jne	.Lcovretin_BB_04b95f07_47
	jmp	.Lcovretin_BB_04b95f07_44
.Lcovretin_BB_04b95f07_48:
	movq	%rdx, %r8
	shlq	$11, %r8
	movzwl	-2(%r13,%r8), %r8d
	movl	$3, %r9d
	.p2align	4
.Lcovretin_BB_04b95f07_49:
	movw	%r8w, -6(%rsi,%r9,2)
	movw	%r8w, -4(%rsi,%r9,2)
	movw	%r8w, -2(%rsi,%r9,2)
	movw	%r8w, (%rsi,%r9,2)
	addq	$4, %r9
	cmpq	$1027, %r9
	jne	.Lcovretin_BB_04b95f07_49
	jmp	.Lcovretin_BB_04b95f07_44
.Lcovretin_BB_04b95f07_50:
	leaq	(,%r14,2), %rsi
	addq	%r13, %rsi
	leaq	2(,%r14,2), %rax
	addq	%r13, %rax
	addq	%rdx, %rdx
	movq	%rdi, 24(%rsp)
	movq	%rax, %rdi
.Lcovretin_BB_04b95f07_51:
	movq	%r10, 8(%rsp)
	movq	%r9, (%rsp)
	callq	memmove@PLT
	movq	(%rsp), %r9
	movq	8(%rsp), %r10
	movq	16(%rsp), %r11
	movq	24(%rsp), %rdi
	jmp	.Lcovretin_BB_04b95f07_80
.Lcovretin_BB_04b95f07_52:
	testq	%r9, %r9
	je	.Lcovretin_BB_04b95f07_60
	cmpq	%r9, %rcx
	movq	(%rsp), %r9
	je	.Lcovretin_BB_04b95f07_80
	movl	%r10d, %ecx
	andl	$1023, %ecx
	cmpq	$3, %rcx
	jae	.Lcovretin_BB_04b95f07_87
	xorl	%ecx, %ecx
	jmp	.Lcovretin_BB_04b95f07_98
.Lcovretin_BB_04b95f07_56:
	movq	%r13, %rdx
	movq	%rcx, %r8
	jmp	.Lcovretin_BB_04b95f07_72
.Lcovretin_BB_04b95f07_57:
	testq	%r9, %r9
	je	.Lcovretin_BB_04b95f07_71
	movq	$-1, %r14
	cmpq	%r9, %rcx
	je	.Lcovretin_BB_04b95f07_59
	leaq	-1023(%r10), %rcx
	cmpq	$1024, %rcx
	movl	$1024, %edx
	cmovbq	%rcx, %rdx
	movq	%r10, %rsi
	subq	%rdx, %rsi
	andq	$-1024, %rsi
	movq	%rcx, %rdx
	subq	%rsi, %rdx
	cmpq	$4, %rdx
	jae	.Lcovretin_BB_04b95f07_89
	xorl	%r8d, %r8d
	jmp	.Lcovretin_BB_04b95f07_107
.Lcovretin_BB_04b95f07_60:
	leaq	(,%r9,2), %rax
	addq	%r13, %rax
	movq	(%rsp), %r9
.Lcovretin_BB_04b95f07_61:
	testq	%rcx, %rcx
	je	.Lcovretin_BB_04b95f07_80
	movzwl	-2(%rax), %ecx
	leaq	-1(%r8), %rsi
	movl	%r8d, %edx
	andl	$3, %edx
	cmpq	$3, %rsi
	jae	.Lcovretin_BB_04b95f07_64
	xorl	%esi, %esi
	jmp	.Lcovretin_BB_04b95f07_67
.Lcovretin_BB_04b95f07_64:
	andl	$2044, %r8d
	xorl	%esi, %esi
.Lcovretin_BB_04b95f07_65:
	movw	%cx, (%rax,%rsi,2)
	movw	%cx, 2(%rax,%rsi,2)
	movw	%cx, 4(%rax,%rsi,2)
	movw	%cx, 6(%rax,%rsi,2)
	addq	$4, %rsi
	cmpq	%rsi, %r8
	jne	.Lcovretin_BB_04b95f07_65
	testq	%rdx, %rdx
	je	.Lcovretin_BB_04b95f07_80
.Lcovretin_BB_04b95f07_67:
	leaq	(%rax,%rsi,2), %rax
	xorl	%esi, %esi
.Lcovretin_BB_04b95f07_68:
	movw	%cx, (%rax,%rsi,2)
	incq	%rsi
	cmpq	%rsi, %rdx
	jne	.Lcovretin_BB_04b95f07_68
	jmp	.Lcovretin_BB_04b95f07_80
.Lcovretin_BB_04b95f07_69:
	movq	%rcx, 8(%rsp)
	movq	%r11, 16(%rsp)
	movq	%rdi, %r13
	movq	%rax, (%rsp)
	movq	%rax, %rdi
	callq	"std_alloc::vec::Vec::grow_amortized::<#443caa9c7f3d02a7>"
	testb	%al, %al
	je	.Lcovretin_BB_04b95f07_84
	leaq	32(%rbx), %r8
	movq	(%r8), %r10
	movq	8(%rsp), %rax
	movq	(%rax), %r9
	movq	%r13, %rdi
	movq	16(%rsp), %r11
	movq	(%rsp), %rax
	jmp	.Lcovretin_BB_04b95f07_31
.Lcovretin_BB_04b95f07_71:
	leaq	(,%r9,2), %rdx
	addq	%r13, %rdx
	movq	(%rsp), %r9
.Lcovretin_BB_04b95f07_72:
	movzwl	-2(%rdx), %eax
	leaq	-1(%r8), %rsi
	movl	%r8d, %ecx
	andl	$3, %ecx
	cmpq	$3, %rsi
	jae	.Lcovretin_BB_04b95f07_74
	xorl	%esi, %esi
	jmp	.Lcovretin_BB_04b95f07_77
.Lcovretin_BB_04b95f07_74:
	andq	$-4, %r8
	xorl	%esi, %esi
.Lcovretin_BB_04b95f07_75:
	movw	%ax, (%rdx,%rsi,2)
	movw	%ax, 2(%rdx,%rsi,2)
	movw	%ax, 4(%rdx,%rsi,2)
	movw	%ax, 6(%rdx,%rsi,2)
	addq	$4, %rsi
	cmpq	%rsi, %r8
	jne	.Lcovretin_BB_04b95f07_75
	testq	%rcx, %rcx
	je	.Lcovretin_BB_04b95f07_79
.Lcovretin_BB_04b95f07_77:
	leaq	(%rdx,%rsi,2), %rdx
	xorl	%esi, %esi
.Lcovretin_BB_04b95f07_78:
	movw	%ax, (%rdx,%rsi,2)
	incq	%rsi
	cmpq	%rsi, %rcx
	jne	.Lcovretin_BB_04b95f07_78
.Lcovretin_BB_04b95f07_79:
	movq	$-1, %r14
	jmp	.Lcovretin_BB_04b95f07_80
.Lcovretin_BB_04b95f07_87:
	leaq	1(%rcx), %rdx
	cmpl	$15, %ecx
	jae	.Lcovretin_BB_04b95f07_91
	xorl	%ecx, %ecx
	jmp	.Lcovretin_BB_04b95f07_95
.Lcovretin_BB_04b95f07_89:
	cmpq	$16, %rdx
	jae	.Lcovretin_BB_04b95f07_100
	xorl	%r8d, %r8d
	jmp	.Lcovretin_BB_04b95f07_104
.Lcovretin_BB_04b95f07_91:
	movl	%edx, %ecx
	andl	$-16, %ecx
	movq	%rcx, %rsi
	negq	%rsi
	leaq	-14(,%r10,2), %r8
	addq	%r13, %r8
	xorl	%r9d, %r9d
.Lcovretin_BB_04b95f07_92:
	movups	-18(%r8,%r9,2), %xmm0
	movups	-2(%r8,%r9,2), %xmm1
	movups	%xmm1, (%r8,%r9,2)
	movups	%xmm0, -16(%r8,%r9,2)
	addq	$-16, %r9
	cmpq	%r9, %rsi
	jne	.Lcovretin_BB_04b95f07_92
	cmpl	%ecx, %edx
	movq	(%rsp), %r9
	je	.Lcovretin_BB_04b95f07_80
	testb	$12, %dl
	je	.Lcovretin_BB_04b95f07_98
.Lcovretin_BB_04b95f07_95:
	movq	%rcx, %rsi
	movl	%edx, %ecx
	andl	$-4, %ecx
	movq	%rcx, %r8
	negq	%r8
	negq	%rsi
	movq	%r10, 8(%rsp)
	leaq	-6(,%r10,2), %r9
	addq	%r13, %r9
.Lcovretin_BB_04b95f07_96:
	movq	-2(%r9,%rsi,2), %r10
	movq	%r10, (%r9,%rsi,2)
	addq	$-4, %rsi
	cmpq	%rsi, %r8
	jne	.Lcovretin_BB_04b95f07_96
	cmpl	%ecx, %edx
	movq	8(%rsp), %r10
	movq	(%rsp), %r9
	je	.Lcovretin_BB_04b95f07_80
.Lcovretin_BB_04b95f07_98:
	movq	%r10, %rdx
	subq	%rcx, %rdx
	addq	$1023, %rax
.Lcovretin_BB_04b95f07_99:
	movzwl	-2(%r13,%rdx,2), %ecx
	movw	%cx, (%r13,%rdx,2)
	decq	%rdx
	cmpq	%rdx, %rax
	jne	.Lcovretin_BB_04b95f07_99
	jmp	.Lcovretin_BB_04b95f07_80
.Lcovretin_BB_04b95f07_100:
	movl	%ecx, %r9d
	andl	$15, %r9d
	movq	%rdx, %r8
	subq	%r9, %r8
	movq	%r10, %r11
	leaq	(%rsi,%r9), %r10
	addq	$1023, %r10
	movq	%r11, 8(%rsp)
.Lcovretin_BB_04b95f07_101:
	movups	-32(%r13,%r11,2), %xmm0
	movups	-16(%r13,%r11,2), %xmm1
	movups	%xmm1, -14(%r13,%r11,2)
	movups	%xmm0, -30(%r13,%r11,2)
	addq	$-16, %r11
	cmpq	%r11, %r10
	jne	.Lcovretin_BB_04b95f07_101
	testq	%r9, %r9
	movq	16(%rsp), %r11
	je	.Lcovretin_BB_04b95f07_111
	cmpl	$4, %r9d
	movq	8(%rsp), %r10
	jb	.Lcovretin_BB_04b95f07_107
.Lcovretin_BB_04b95f07_104:
	andl	$3, %ecx
	subq	%rcx, %rdx
	addq	%rcx, %rsi
	addq	$1023, %rsi
	movq	%r10, %r9
	subq	%r8, %r9
.Lcovretin_BB_04b95f07_105:
	movq	-8(%r13,%r9,2), %r8
	movq	%r8, -6(%r13,%r9,2)
	addq	$-4, %r9
	cmpq	%r9, %rsi
	jne	.Lcovretin_BB_04b95f07_105
	movq	%rdx, %r8
	testq	%rcx, %rcx
	je	.Lcovretin_BB_04b95f07_59
.Lcovretin_BB_04b95f07_107:
	movq	%r10, %rcx
	subq	%r8, %rcx
	addq	$1023, %rax
.Lcovretin_BB_04b95f07_108:
	movzwl	-2(%r13,%rcx,2), %edx
	movw	%dx, (%r13,%rcx,2)
	decq	%rcx
	cmpq	%rcx, %rax
	jne	.Lcovretin_BB_04b95f07_108
.Lcovretin_BB_04b95f07_59:
	movq	(%rsp), %r9
.Lcovretin_BB_04b95f07_80:
	movw	%r11w, (%r13,%r14,2)
	movq	%r13, 24(%rbx)
	incq	%r10
	movq	%r10, 32(%rbx)
	movq	%r9, 40(%rbx)
	movq	8(%rbx), %rax
	cmpq	%rax, 16(%rbx)
	je	.Lcovretin_BB_04b95f07_82
.Lcovretin_BB_04b95f07_81:
	movq	(%rbx), %rcx
	movq	%rax, %rdx
	shlq	$5, %rdx
	movq	%rbp, (%rcx,%rdx)
	movq	%r15, 8(%rcx,%rdx)
	movq	%r12, 16(%rcx,%rdx)
	movq	32(%rsp), %rsi
	movq	%rsi, 24(%rcx,%rdx)
	incq	%rax
	movq	%rax, 8(%rbx)
	movq	%rbx, (%rdi)
	xorl	%eax, %eax
	jmp	.Lcovretin_BB_04b95f07_7
.Lcovretin_BB_04b95f07_82:
	movq	%rdi, %r13
	movq	%rbx, %rdi
	callq	"std_alloc::vec::Vec::grow_amortized::<#a2eddaad9eb283e4>"
	testb	%al, %al
	je	.Lcovretin_BB_04b95f07_84
	movq	8(%rbx), %rax
	movq	%r13, %rdi
	jmp	.Lcovretin_BB_04b95f07_81
.Lcovretin_BB_04b95f07_84:
	movq	%rbx, (%r13)
	movl	$24, %eax
	jmp	.Lcovretin_BB_04b95f07_7
.Lcovretin_BB_04b95f07_111:
	movq	8(%rsp), %r10
	movq	(%rsp), %r9
	jmp	.Lcovretin_BB_04b95f07_80
.Lcovretin_func_end_04b95f07:
	.size	covretin_queue_add_region, .Lcovretin_func_end_04b95f07-covretin_queue_add_region
	.cfi_endproc

	.section	.text.covretin_queue_add_used_many,"ax",@progbits
	.globl	covretin_queue_add_used_many
	.p2align	4
	.type	covretin_queue_add_used_many,@function
covretin_queue_add_used_many:
	.cfi_startproc
	endbr64
	pushq	%rbp
	.cfi_def_cfa_offset 16
	pushq	%r15
	.cfi_def_cfa_offset 24
	pushq	%r14
	.cfi_def_cfa_offset 32
	pushq	%r13
	.cfi_def_cfa_offset 40
	pushq	%r12
	.cfi_def_cfa_offset 48
	pushq	%rbx
	.cfi_def_cfa_offset 56
	.cfi_offset %rbx, -56
	.cfi_offset %r12, -48
	.cfi_offset %r13, -40
	.cfi_offset %r14, -32
	.cfi_offset %r15, -24
	.cfi_offset %rbp, -16
	movq	%rdx, -32(%rsp)
	movq	64(%rsp), %rdx
	xorl	%r10d, %r10d
	movq	%rsi, -16(%rsp)
	testq	%rsi, %rsi
	sete	%bpl
	xorl	%r12d, %r12d
	testq	%rcx, %rcx
	sete	%bl
	xorl	%eax, %eax
	testq	%r9, %r9
	sete	%r15b
	movq	(%rdi), %r11
	movq	$0, (%rdi)
	testq	%r11, %r11
	je	.Lcovretin_BB_8fbed9c1_1
	movq	%rcx, %r13
	movq	-32(%rsp), %rcx
	cmpq	%rcx, %r8
	setb	%r8b
	cmpq	%rcx, 56(%rsp)
	setb	%r14b
	orb	%r8b, %r14b
	je	.Lcovretin_BB_8fbed9c1_3
	movq	%r11, (%rdi)
	movq	$0, (%rdx)
	movl	$105, %eax
	jmp	.Lcovretin_BB_8fbed9c1_21
.Lcovretin_BB_8fbed9c1_1:
	movq	$0, (%rdx)
	movl	$101, %eax
	jmp	.Lcovretin_BB_8fbed9c1_21
.Lcovretin_BB_8fbed9c1_3:
	movq	%rdi, -24(%rsp)
	cmpq	$0, -32(%rsp)
	je	.Lcovretin_BB_8fbed9c1_17
	movq	%r13, %rsi
	movb	%bpl, %r10b
	shll	$12, %r10d
	addq	%r10, -16(%rsp)
	movb	%bl, %r12b
	shll	$12, %r12d
	addq	%r12, %rsi
	movb	%r15b, %al
	shll	$12, %eax
	addq	%rax, %r9
	addq	$42, %r9
	xorl	%r8d, %r8d
	movq	%rsi, -8(%rsp)
	.p2align	4
.Lcovretin_BB_8fbed9c1_5:
	movq	-16(%rsp), %rax
	movzwl	(%rax,%r8,2), %r13d
	movl	(%rsi,%r8,4), %ebx
	movzbl	56(%r11), %eax
	cmpl	$1, %eax
	je	.Lcovretin_BB_8fbed9c1_10
	cmpl	$2, %eax
	jne	.Lcovretin_BB_8fbed9c1_19
	movzwl	64(%r11), %r10d
	movb	$21, %r12b
	movb	$1, %bpl
	cmpw	%r13w, %r10w
	jbe	.Lcovretin_BB_8fbed9c1_11
	movq	112(%r11), %rcx
	movzwl	(%rcx,%r13,2), %edi
	testw	%di, %di
	je	.Lcovretin_BB_8fbed9c1_11
	xorl	%eax, %eax
	testq	%rbx, %rbx
	setne	%al
	movzbl	104(%r11), %esi
	leal	-32640(,%rax,2), %r14d
	addl	%eax, %eax
	testb	%sil, %sil
	cmovel	%eax, %r14d
	movzwl	102(%r11), %ebp
	movq	72(%r11), %r15
	movl	%ebp, %r12d
	shll	$4, %r12d
	leaq	(%r12,%r15), %rax
	addq	$8, %rax
	addq	%r12, %r15
	addq	$14, %r15
	subl	%ebp, %r10d
	movl	%r10d, %r12d
	negl	%r10d
	cmpw	%r12w, %di
	setae	%r12b
	cmovbl	%ebp, %r10d
	xorb	%sil, %r12b
	movq	-8(%rsp), %rsi
	addl	%edi, %r10d
	movw	%r10w, 102(%r11)
	movb	%r12b, 104(%r11)
	movb	$0, 105(%r11)
	movw	$0, (%rcx,%r13,2)
	shlq	$32, %r13
	orq	%r13, %rbx
	movl	$2, %r10d
	movl	$6, %r13d
	xorl	%ebp, %ebp
	jmp	.Lcovretin_BB_8fbed9c1_14
	.p2align	4
.Lcovretin_BB_8fbed9c1_10:
	movzwl	64(%r11), %edi
	movb	$21, %r12b
	movb	$1, %bpl
	cmpw	%r13w, %di
	jbe	.Lcovretin_BB_8fbed9c1_11
	movq	112(%r11), %r10
	cmpb	$1, (%r10,%r13)
	jne	.Lcovretin_BB_8fbed9c1_11
	movzwl	102(%r11), %eax
	movq	88(%r11), %r14
	xorl	%ebp, %ebp
	xorl	%edx, %edx
	divw	%di
	movzwl	%dx, %eax
	leaq	(%r14,%rax,8), %rax
	addq	$4, %rax
	movb	$0, (%r10,%r13)
	movzwl	102(%r11), %r14d
	incl	%r14d
	movw	%r14w, 102(%r11)
	movq	88(%r11), %r15
	addq	$2, %r15
	shlq	$32, %rbx
	orq	%r13, %rbx
	movl	$2, %r10d
	movl	$8, %r13d
.Lcovretin_BB_8fbed9c1_14:
	xorl	%r12d, %r12d
	jmp	.Lcovretin_BB_8fbed9c1_15
	.p2align	4
.Lcovretin_BB_8fbed9c1_11:
	xorl	%eax, %eax
	xorl	%r13d, %r13d
	xorl	%r15d, %r15d
	xorl	%r10d, %r10d
	xorl	%ebx, %ebx
	xorl	%r14d, %r14d
.Lcovretin_BB_8fbed9c1_15:
	movw	$0, -44(%rsp)
	movl	$0, -48(%rsp)
	movzwl	-44(%rsp), %ecx
	movw	%cx, -36(%rsp)
	movl	-48(%rsp), %ecx
	movl	%ecx, -40(%rsp)
	testb	%bpl, %bpl
	jne	.Lcovretin_BB_8fbed9c1_18
	movq	%rax, -42(%r9)
	movq	%r13, -34(%r9)
	movq	%rbx, -26(%r9)
	movq	%r15, -18(%r9)
	movq	%r10, -10(%r9)
	movw	%r14w, -2(%r9)
	movl	-40(%rsp), %eax
	movl	%eax, (%r9)
	movzwl	-36(%rsp), %eax
	movw	%ax, 4(%r9)
	incq	%r8
	addq	$48, %r9
	cmpq	%r8, -32(%rsp)
	jne	.Lcovretin_BB_8fbed9c1_5
.Lcovretin_BB_8fbed9c1_17:
	movq	-24(%rsp), %rax
	movq	%r11, (%rax)
	movq	64(%rsp), %rax
	movq	-32(%rsp), %rcx
	movq	%rcx, (%rax)
	xorl	%eax, %eax
	jmp	.Lcovretin_BB_8fbed9c1_21
.Lcovretin_BB_8fbed9c1_18:
	movq	-24(%rsp), %rax
	movq	%r11, (%rax)
	movq	64(%rsp), %rax
	movq	%r8, (%rax)
	testb	%r12b, %r12b
	movl	$1, %ecx
	movl	$23, %eax
	cmovel	%ecx, %eax
	jmp	.Lcovretin_BB_8fbed9c1_21
.Lcovretin_BB_8fbed9c1_19:
	movq	-24(%rsp), %rax
	movq	%r11, (%rax)
	movq	64(%rsp), %rax
	movq	%r8, (%rax)
	movl	$103, %eax
.Lcovretin_BB_8fbed9c1_21:
	popq	%rbx
	.cfi_def_cfa_offset 48
	popq	%r12
	.cfi_def_cfa_offset 40
	popq	%r13
	.cfi_def_cfa_offset 32
	popq	%r14
	.cfi_def_cfa_offset 24
	popq	%r15
	.cfi_def_cfa_offset 16
	popq	%rbp
	.cfi_def_cfa_offset 8
	retq
.Lcovretin_func_end_8fbed9c1:
	.size	covretin_queue_add_used_many, .Lcovretin_func_end_8fbed9c1-covretin_queue_add_used_many
	.cfi_endproc

	.section	.text.covretin_queue_adopt,"ax",@progbits
	.globl	covretin_queue_adopt
	.p2align	4
	.type	covretin_queue_adopt,@function
covretin_queue_adopt:
	.cfi_startproc
	endbr64
	movq	(%rdi), %rax
	movq	$0, (%rdi)
	testq	%rax, %rax
	je	.Lcovretin_BB_586a8700_1
	movzbl	56(%rax), %ecx
	testl	%ecx, %ecx
	je	.Lcovretin_BB_586a8700_9
	cmpl	$2, %ecx
	jne	.Lcovretin_BB_586a8700_5
	movq	%rax, (%rdi)
	movl	$104, %eax
	retq
.Lcovretin_BB_586a8700_1:
	movl	$101, %eax
	retq
.Lcovretin_BB_586a8700_9:
	movq	%rax, (%rdi)
	movl	$103, %eax
	retq
.Lcovretin_BB_586a8700_5:
	cmpw	%si, 64(%rax)
	jbe	.Lcovretin_BB_586a8700_11
	movzwl	%si, %ecx
	movq	112(%rax), %rdx
	cmpb	$0, (%rdx,%rcx)
	je	.Lcovretin_BB_586a8700_7
	movq	%rax, (%rdi)
	movl	$19, %eax
	retq
.Lcovretin_BB_586a8700_11:
	movq	%rax, (%rdi)
	movl	$11, %eax
	retq
.Lcovretin_BB_586a8700_7:
	movb	$1, (%rdx,%rcx)
	movq	%rax, (%rdi)
	xorl	%eax, %eax
	retq
.Lcovretin_func_end_586a8700:
	.size	covretin_queue_adopt, .Lcovretin_func_end_586a8700-covretin_queue_adopt
	.cfi_endproc

	.section	.text.covretin_queue_close,"ax",@progbits
	.globl	covretin_queue_close
	.p2align	4
	.type	covretin_queue_close,@function
covretin_queue_close:
	.cfi_startproc
	endbr64
	pushq	%rbp
	.cfi_def_cfa_offset 16
	pushq	%r15
	.cfi_def_cfa_offset 24
	pushq	%r14
	.cfi_def_cfa_offset 32
	pushq	%r13
	.cfi_def_cfa_offset 40
	pushq	%r12
	.cfi_def_cfa_offset 48
	pushq	%rbx
	.cfi_def_cfa_offset 56
	pushq	%rax
	.cfi_def_cfa_offset 64
	.cfi_offset %rbx, -56
	.cfi_offset %r12, -48
	.cfi_offset %r13, -40
	.cfi_offset %r14, -32
	.cfi_offset %r15, -24
	.cfi_offset %rbp, -16
	movq	%rdi, %rax
	movq	(%rdi), %rdi
	movq	$0, (%rax)
	testq	%rdi, %rdi
	je	.Lcovretin_BB_f2b28385_7
	movzbl	56(%rdi), %ebp
	movq	112(%rdi), %rax
	movq	%rax, (%rsp)
	movq	128(%rdi), %r12
	movq	(%rdi), %r15
	movq	24(%rdi), %r14
	movq	40(%rdi), %r13
	movq	16(%rdi), %rbx
	callq	rattle_dealloc@PLT
	testq	%rbx, %rbx
	je	.Lcovretin_BB_f2b28385_3
	movq	%r15, %rdi
	callq	rattle_dealloc@PLT
.Lcovretin_BB_f2b28385_3:
	testq	%r13, %r13
	je	.Lcovretin_BB_f2b28385_5
	movq	%r14, %rdi
	callq	rattle_dealloc@PLT
.Lcovretin_BB_f2b28385_5:
	testl	%ebp, %ebp
	je	.Lcovretin_BB_f2b28385_7
	cmpl	$2, %ebp
	testq	%r12, %r12
	je	.Lcovretin_BB_f2b28385_7
	movq	(%rsp), %rdi
	addq	$8, %rsp
	.cfi_def_cfa_offset 56
	popq	%rbx
	.cfi_def_cfa_offset 48
	popq	%r12
	.cfi_def_cfa_offset 40
	popq	%r13
	.cfi_def_cfa_offset 32
	popq	%r14
	.cfi_def_cfa_offset 24
	popq	%r15
	.cfi_def_cfa_offset 16
	popq	%rbp
	.cfi_def_cfa_offset 8
	jmp	rattle_dealloc@PLT
.Lcovretin_BB_f2b28385_7:
	.cfi_def_cfa_offset 64
	addq	$8, %rsp
	.cfi_def_cfa_offset 56
	popq	%rbx
	.cfi_def_cfa_offset 48
	popq	%r12
	.cfi_def_cfa_offset 40
	popq	%r13
	.cfi_def_cfa_offset 32
	popq	%r14
	.cfi_def_cfa_offset 24
	popq	%r15
	.cfi_def_cfa_offset 16
	popq	%rbp
	.cfi_def_cfa_offset 8
	retq
.Lcovretin_func_end_f2b28385:
	.size	covretin_queue_close, .Lcovretin_func_end_f2b28385-covretin_queue_close
	.cfi_endproc

	.section	.text.covretin_queue_give_back,"ax",@progbits
	.globl	covretin_queue_give_back
	.p2align	4
	.type	covretin_queue_give_back,@function
covretin_queue_give_back:
	.cfi_startproc
	endbr64
	movq	(%rdi), %rax
	movq	$0, (%rdi)
	testq	%rax, %rax
	je	.Lcovretin_BB_804d99e8_1
	movzbl	56(%rax), %ecx
	testl	%ecx, %ecx
	je	.Lcovretin_BB_804d99e8_10
	cmpl	$2, %ecx
	jne	.Lcovretin_BB_804d99e8_5
	movq	%rax, (%rdi)
	movl	$104, %eax
	retq
.Lcovretin_BB_804d99e8_1:
	movl	$101, %eax
	retq
.Lcovretin_BB_804d99e8_10:
	movq	%rax, (%rdi)
	movl	$103, %eax
	retq
.Lcovretin_BB_804d99e8_5:
	movzwl	64(%rax), %ecx
	cmpw	%si, %cx
	jbe	.Lcovretin_BB_804d99e8_9
	movzwl	%si, %edx
	movq	112(%rax), %rsi
	cmpb	$1, (%rsi,%rdx)
	jne	.Lcovretin_BB_804d99e8_9
	movzwl	98(%rax), %r8d
	decl	%r8d
	movzwl	100(%rax), %r9d
	subl	%r8d, %r9d
	cmpw	%r9w, %cx
	jae	.Lcovretin_BB_804d99e8_8
	movq	%rax, (%rdi)
	movl	$18, %eax
	retq
.Lcovretin_BB_804d99e8_9:
	movq	%rax, (%rdi)
	movl	$23, %eax
	retq
.Lcovretin_BB_804d99e8_8:
	movb	$0, (%rsi,%rdx)
	movw	%r8w, 98(%rax)
	movl	$0, 146(%rax)
	movq	%rax, (%rdi)
	xorl	%eax, %eax
	retq
.Lcovretin_func_end_804d99e8:
	.size	covretin_queue_give_back, .Lcovretin_func_end_804d99e8-covretin_queue_give_back
	.cfi_endproc

	.section	.text.covretin_queue_move_packed,"ax",@progbits
	.globl	covretin_queue_move_packed
	.p2align	4
	.type	covretin_queue_move_packed,@function
covretin_queue_move_packed:
	.cfi_startproc
	endbr64
	movq	(%rdi), %rax
	movq	$0, (%rdi)
	testq	%rax, %rax
	je	.Lcovretin_BB_6c636b38_1
	pushq	%r15
	.cfi_def_cfa_offset 16
	pushq	%r14
	.cfi_def_cfa_offset 24
	pushq	%r13
	.cfi_def_cfa_offset 32
	pushq	%r12
	.cfi_def_cfa_offset 40
	pushq	%rbx
	.cfi_def_cfa_offset 48
	.cfi_offset %rbx, -48
	.cfi_offset %r12, -40
	.cfi_offset %r13, -32
	.cfi_offset %r14, -24
	.cfi_offset %r15, -16
	movzbl	56(%rax), %r8d
	testl	%r8d, %r8d
	je	.Lcovretin_BB_6c636b38_80
	cmpl	$1, %r8d
	jne	.Lcovretin_BB_6c636b38_5
	movq	%rax, (%rdi)
	movl	$104, %eax
	jmp	.Lcovretin_BB_6c636b38_83
.Lcovretin_BB_6c636b38_1:
	.cfi_def_cfa_offset 8
	.cfi_restore %rbx
	.cfi_restore %r12
	.cfi_restore %r13
	.cfi_restore %r14
	.cfi_restore %r15
	movl	$101, %eax
	retq
.Lcovretin_BB_6c636b38_80:
	.cfi_def_cfa_offset 48
	.cfi_offset %rbx, -48
	.cfi_offset %r12, -40
	.cfi_offset %r13, -32
	.cfi_offset %r14, -24
	.cfi_offset %r15, -16
	movq	%rax, (%rdi)
	movl	$103, %eax
	jmp	.Lcovretin_BB_6c636b38_83
.Lcovretin_BB_6c636b38_5:
	movzwl	64(%rax), %ebx
	movl	%ebx, %r8d
	decw	%r8w
	js	.Lcovretin_BB_6c636b38_82
	movl	%ebx, %r11d
	shll	$4, %r11d
	movq	8(%rax), %r8
	movq	48(%rax), %r10
	cmpq	%r8, %r10
	jae	.Lcovretin_BB_6c636b38_10
	movq	(%rax), %r9
	movq	%r10, %r14
	shlq	$5, %r14
	movq	%rsi, %r15
	subq	16(%r9,%r14), %r15
	jb	.Lcovretin_BB_6c636b38_10
	movq	8(%r9,%r14), %r12
	subq	%r11, %r12
	jb	.Lcovretin_BB_6c636b38_10
	cmpq	%r12, %r15
	jbe	.Lcovretin_BB_6c636b38_23
.Lcovretin_BB_6c636b38_10:
	movq	32(%rax), %r10
	testq	%r10, %r10
	je	.Lcovretin_BB_6c636b38_33
	movq	24(%rax), %r9
	xorl	%r14d, %r14d
	jmp	.Lcovretin_BB_6c636b38_12
	.p2align	4
.Lcovretin_BB_6c636b38_15:
	movq	%r15, %r10
	cmpq	%r15, %r14
	jae	.Lcovretin_BB_6c636b38_17
.Lcovretin_BB_6c636b38_12:
	movq	%r10, %r15
	subq	%r14, %r15
	shrq	%r15
	addq	%r14, %r15
	movzwl	(%r9,%r15,2), %r12d
	cmpq	%r12, %r8
	jbe	.Lcovretin_BB_6c636b38_15
	movq	(%rax), %r13
	shll	$5, %r12d
	cmpq	%rsi, (%r13,%r12)
	ja	.Lcovretin_BB_6c636b38_15
	movq	%r15, %r14
	incq	%r14
	movq	%r10, %r15
	cmpq	%r15, %r14
	jb	.Lcovretin_BB_6c636b38_12
.Lcovretin_BB_6c636b38_17:
	testq	%r14, %r14
	je	.Lcovretin_BB_6c636b38_33
	movzwl	-2(%r9,%r14,2), %r10d
	cmpq	%r10, %r8
	jbe	.Lcovretin_BB_6c636b38_33
	movq	(%rax), %r9
	testq	%rbx, %rbx
	je	.Lcovretin_BB_6c636b38_35
	movl	%r10d, %r14d
	shll	$5, %r14d
	movq	%rsi, %r15
	subq	16(%r9,%r14), %r15
	jb	.Lcovretin_BB_6c636b38_35
	movq	8(%r9,%r14), %rbx
	subq	%r11, %rbx
	jb	.Lcovretin_BB_6c636b38_36
	cmpq	%rbx, %r15
	ja	.Lcovretin_BB_6c636b38_36
	jmp	.Lcovretin_BB_6c636b38_23
.Lcovretin_BB_6c636b38_33:
	testq	%r8, %r8
	je	.Lcovretin_BB_6c636b38_79
	movq	(%rax), %r9
.Lcovretin_BB_6c636b38_35:
	testq	%rbx, %rbx
	je	.Lcovretin_BB_6c636b38_79
.Lcovretin_BB_6c636b38_36:
	xorl	%r14d, %r14d
	xorl	%r10d, %r10d
	jmp	.Lcovretin_BB_6c636b38_37
	.p2align	4
.Lcovretin_BB_6c636b38_40:
	incq	%r10
	addq	$32, %r14
	cmpq	%r10, %r8
	je	.Lcovretin_BB_6c636b38_79
.Lcovretin_BB_6c636b38_37:
	movq	%rsi, %rbx
	subq	16(%r9,%r14), %rbx
	jb	.Lcovretin_BB_6c636b38_40
	movq	8(%r9,%r14), %r15
	subq	%r11, %r15
	jb	.Lcovretin_BB_6c636b38_40
	cmpq	%r15, %rbx
	ja	.Lcovretin_BB_6c636b38_40
.Lcovretin_BB_6c636b38_23:
	movq	%r10, 48(%rax)
	subq	16(%r9,%r14), %rsi
	addq	24(%r9,%r14), %rsi
	testb	$15, %sil
	je	.Lcovretin_BB_6c636b38_24
.Lcovretin_BB_6c636b38_84:
	movq	%rax, (%rdi)
	movl	$6, %eax
	jmp	.Lcovretin_BB_6c636b38_83
.Lcovretin_BB_6c636b38_82:
	movq	%rax, (%rdi)
	movl	$5, %eax
	jmp	.Lcovretin_BB_6c636b38_83
.Lcovretin_BB_6c636b38_24:
	cmpq	%r8, %r10
	jae	.Lcovretin_BB_6c636b38_28
	movq	%r10, %r11
	shlq	$5, %r11
	movq	%rdx, %rbx
	subq	16(%r9,%r11), %rbx
	jb	.Lcovretin_BB_6c636b38_28
	movq	8(%r9,%r11), %r14
	cmpq	$4, %r14
	jb	.Lcovretin_BB_6c636b38_28
	addq	$-4, %r14
	cmpq	%r14, %rbx
	jbe	.Lcovretin_BB_6c636b38_48
.Lcovretin_BB_6c636b38_28:
	movq	32(%rax), %r11
	testq	%r11, %r11
	je	.Lcovretin_BB_6c636b38_58
	movq	24(%rax), %r10
	xorl	%ebx, %ebx
	jmp	.Lcovretin_BB_6c636b38_30
.Lcovretin_BB_6c636b38_41:
	movq	%r14, %r11
	cmpq	%r14, %rbx
	jae	.Lcovretin_BB_6c636b38_43
.Lcovretin_BB_6c636b38_30:
	movq	%r11, %r14
	subq	%rbx, %r14
	shrq	%r14
	addq	%rbx, %r14
	movzwl	(%r10,%r14,2), %r15d
	cmpq	%r15, %r8
	jbe	.Lcovretin_BB_6c636b38_41
	shll	$5, %r15d
	cmpq	%rdx, (%r9,%r15)
	ja	.Lcovretin_BB_6c636b38_41
	movq	%r14, %rbx
	incq	%rbx
	movq	%r11, %r14
	cmpq	%r14, %rbx
	jb	.Lcovretin_BB_6c636b38_30
.Lcovretin_BB_6c636b38_43:
	testq	%rbx, %rbx
	je	.Lcovretin_BB_6c636b38_58
	movzwl	-2(%r10,%rbx,2), %r10d
	cmpq	%r10, %r8
	jbe	.Lcovretin_BB_6c636b38_58
	movl	%r10d, %r11d
	shll	$5, %r11d
	movq	%rdx, %rbx
	subq	16(%r9,%r11), %rbx
	jb	.Lcovretin_BB_6c636b38_59
	movq	8(%r9,%r11), %r14
	cmpq	$4, %r14
	jb	.Lcovretin_BB_6c636b38_59
	addq	$-4, %r14
	cmpq	%r14, %rbx
	ja	.Lcovretin_BB_6c636b38_59
	jmp	.Lcovretin_BB_6c636b38_48
.Lcovretin_BB_6c636b38_58:
	testq	%r8, %r8
	je	.Lcovretin_BB_6c636b38_79
.Lcovretin_BB_6c636b38_59:
	xorl	%r11d, %r11d
	xorl	%r10d, %r10d
	jmp	.Lcovretin_BB_6c636b38_60
.Lcovretin_BB_6c636b38_63:
	incq	%r10
	addq	$32, %r11
	cmpq	%r10, %r8
	je	.Lcovretin_BB_6c636b38_79
.Lcovretin_BB_6c636b38_60:
	movq	%rdx, %rbx
	subq	16(%r9,%r11), %rbx
	jb	.Lcovretin_BB_6c636b38_63
	movq	8(%r9,%r11), %r14
	cmpq	$4, %r14
	jb	.Lcovretin_BB_6c636b38_63
	addq	$-4, %r14
	cmpq	%r14, %rbx
	ja	.Lcovretin_BB_6c636b38_63
.Lcovretin_BB_6c636b38_48:
	movq	%r10, 48(%rax)
	subq	16(%r9,%r11), %rdx
	addq	24(%r9,%r11), %rdx
	testb	$3, %dl
	jne	.Lcovretin_BB_6c636b38_84
	cmpq	%r8, %r10
	jae	.Lcovretin_BB_6c636b38_53
	movq	%r10, %r11
	shlq	$5, %r11
	movq	%rcx, %rbx
	subq	16(%r9,%r11), %rbx
	jb	.Lcovretin_BB_6c636b38_53
	movq	8(%r9,%r11), %r14
	cmpq	$4, %r14
	jb	.Lcovretin_BB_6c636b38_53
	addq	$-4, %r14
	cmpq	%r14, %rbx
	jbe	.Lcovretin_BB_6c636b38_71
.Lcovretin_BB_6c636b38_53:
	movq	32(%rax), %r11
	testq	%r11, %r11
	je	.Lcovretin_BB_6c636b38_73
	movq	24(%rax), %r10
	xorl	%ebx, %ebx
	jmp	.Lcovretin_BB_6c636b38_55
.Lcovretin_BB_6c636b38_64:
	movq	%r14, %r11
	cmpq	%r14, %rbx
	jae	.Lcovretin_BB_6c636b38_66
.Lcovretin_BB_6c636b38_55:
	movq	%r11, %r14
	subq	%rbx, %r14
	shrq	%r14
	addq	%rbx, %r14
	movzwl	(%r10,%r14,2), %r15d
	cmpq	%r15, %r8
	jbe	.Lcovretin_BB_6c636b38_64
	shll	$5, %r15d
	cmpq	%rcx, (%r9,%r15)
	ja	.Lcovretin_BB_6c636b38_64
	movq	%r14, %rbx
	incq	%rbx
	movq	%r11, %r14
	cmpq	%r14, %rbx
	jb	.Lcovretin_BB_6c636b38_55
.Lcovretin_BB_6c636b38_66:
	testq	%rbx, %rbx
	je	.Lcovretin_BB_6c636b38_73
	movzwl	-2(%r10,%rbx,2), %r10d
	cmpq	%r10, %r8
	jbe	.Lcovretin_BB_6c636b38_73
	movl	%r10d, %r11d
	shll	$5, %r11d
	movq	%rcx, %rbx
	subq	16(%r9,%r11), %rbx
	jb	.Lcovretin_BB_6c636b38_74
	movq	8(%r9,%r11), %r14
	cmpq	$4, %r14
	jb	.Lcovretin_BB_6c636b38_74
	addq	$-4, %r14
	cmpq	%r14, %rbx
	ja	.Lcovretin_BB_6c636b38_74
	jmp	.Lcovretin_BB_6c636b38_71
.Lcovretin_BB_6c636b38_73:
	testq	%r8, %r8
	je	.Lcovretin_BB_6c636b38_79
.Lcovretin_BB_6c636b38_74:
	xorl	%r11d, %r11d
	xorl	%r10d, %r10d
	jmp	.Lcovretin_BB_6c636b38_75
.Lcovretin_BB_6c636b38_78:
	incq	%r10
	addq	$32, %r11
	cmpq	%r10, %r8
	je	.Lcovretin_BB_6c636b38_79
.Lcovretin_BB_6c636b38_75:
	movq	%rcx, %rbx
	subq	16(%r9,%r11), %rbx
	jb	.Lcovretin_BB_6c636b38_78
	movq	8(%r9,%r11), %r14
	cmpq	$4, %r14
	jb	.Lcovretin_BB_6c636b38_78
	addq	$-4, %r14
	cmpq	%r14, %rbx
	ja	.Lcovretin_BB_6c636b38_78
.Lcovretin_BB_6c636b38_71:
	movq	%r10, 48(%rax)
	subq	16(%r9,%r11), %rcx
	addq	24(%r9,%r11), %rcx
	testb	$3, %cl
	jne	.Lcovretin_BB_6c636b38_84
	leaq	66(%rax), %r8
	movw	$0, 4(%r8)
	movl	$0, (%r8)
	movq	%rsi, 72(%rax)
	movq	%rdx, 80(%rax)
	movq	%rcx, 88(%rax)
	movl	$0, 146(%rax)
	movq	%rax, (%rdi)
	xorl	%eax, %eax
	jmp	.Lcovretin_BB_6c636b38_83
.Lcovretin_BB_6c636b38_79:
	movq	%rax, (%rdi)
	movl	$9, %eax
.Lcovretin_BB_6c636b38_83:
	popq	%rbx
	.cfi_def_cfa_offset 40
	popq	%r12
	.cfi_def_cfa_offset 32
	popq	%r13
	.cfi_def_cfa_offset 24
	popq	%r14
	.cfi_def_cfa_offset 16
	popq	%r15
	.cfi_def_cfa_offset 8
	.cfi_restore %rbx
	.cfi_restore %r12
	.cfi_restore %r13
	.cfi_restore %r14
	.cfi_restore %r15
	retq
.Lcovretin_func_end_6c636b38:
	.size	covretin_queue_move_packed, .Lcovretin_func_end_6c636b38-covretin_queue_move_packed
	.cfi_endproc

	.section	.text.covretin_queue_move_split,"ax",@progbits
	.globl	covretin_queue_move_split
	.p2align	4
	.type	covretin_queue_move_split,@function
covretin_queue_move_split:
	.cfi_startproc
	endbr64
	movq	(%rdi), %rax
	movq	$0, (%rdi)
	testq	%rax, %rax
	je	.Lcovretin_BB_5fec4635_1
	pushq	%r15
	.cfi_def_cfa_offset 16
	pushq	%r14
	.cfi_def_cfa_offset 24
	pushq	%r13
	.cfi_def_cfa_offset 32
	pushq	%r12
	.cfi_def_cfa_offset 40
	pushq	%rbx
	.cfi_def_cfa_offset 48
	.cfi_offset %rbx, -48
	.cfi_offset %r12, -40
	.cfi_offset %r13, -32
	.cfi_offset %r14, -24
	.cfi_offset %r15, -16
	movzbl	56(%rax), %r8d
	testl	%r8d, %r8d
	je	.Lcovretin_BB_5fec4635_81
	cmpl	$2, %r8d
	jne	.Lcovretin_BB_5fec4635_5
	movq	%rax, (%rdi)
	movl	$104, %eax
	jmp	.Lcovretin_BB_5fec4635_84
.Lcovretin_BB_5fec4635_1:
	.cfi_def_cfa_offset 8
	.cfi_restore %rbx
	.cfi_restore %r12
	.cfi_restore %r13
	.cfi_restore %r14
	.cfi_restore %r15
	movl	$101, %eax
	retq
.Lcovretin_BB_5fec4635_81:
	.cfi_def_cfa_offset 48
	.cfi_offset %rbx, -48
	.cfi_offset %r12, -40
	.cfi_offset %r13, -32
	.cfi_offset %r14, -24
	.cfi_offset %r15, -16
	movq	%rax, (%rdi)
	movl	$103, %eax
	jmp	.Lcovretin_BB_5fec4635_84
.Lcovretin_BB_5fec4635_5:
	movzwl	64(%rax), %r10d
	leal	-1(%r10), %r8d
	testw	%r8w, %r8w
	js	.Lcovretin_BB_5fec4635_83
	andl	%r10d, %r8d
	testw	%r8w, %r8w
	jne	.Lcovretin_BB_5fec4635_83
	movl	%r10d, %ebx
	shll	$4, %ebx
	movq	8(%rax), %r8
	movq	48(%rax), %r11
	cmpq	%r8, %r11
	jae	.Lcovretin_BB_5fec4635_11
	movq	(%rax), %r9
	movq	%r11, %r14
	shlq	$5, %r14
	movq	%rsi, %r15
	subq	16(%r9,%r14), %r15
	jb	.Lcovretin_BB_5fec4635_11
	movq	8(%r9,%r14), %r12
	subq	%rbx, %r12
	jb	.Lcovretin_BB_5fec4635_11
	cmpq	%r12, %r15
	jbe	.Lcovretin_BB_5fec4635_24
.Lcovretin_BB_5fec4635_11:
	movq	32(%rax), %r11
	testq	%r11, %r11
	je	.Lcovretin_BB_5fec4635_34
	movq	24(%rax), %r9
	xorl	%r14d, %r14d
	jmp	.Lcovretin_BB_5fec4635_13
	.p2align	4
.Lcovretin_BB_5fec4635_16:
	movq	%r15, %r11
	cmpq	%r15, %r14
	jae	.Lcovretin_BB_5fec4635_18
.Lcovretin_BB_5fec4635_13:
	movq	%r11, %r15
	subq	%r14, %r15
	shrq	%r15
	addq	%r14, %r15
	movzwl	(%r9,%r15,2), %r12d
	cmpq	%r12, %r8
	jbe	.Lcovretin_BB_5fec4635_16
	movq	(%rax), %r13
	shll	$5, %r12d
	cmpq	%rsi, (%r13,%r12)
	ja	.Lcovretin_BB_5fec4635_16
	movq	%r15, %r14
	incq	%r14
	movq	%r11, %r15
	cmpq	%r15, %r14
	jb	.Lcovretin_BB_5fec4635_13
.Lcovretin_BB_5fec4635_18:
	testq	%r14, %r14
	je	.Lcovretin_BB_5fec4635_34
	movzwl	-2(%r9,%r14,2), %r11d
	cmpq	%r11, %r8
	jbe	.Lcovretin_BB_5fec4635_34
	movq	(%rax), %r9
	testq	%r10, %r10
	je	.Lcovretin_BB_5fec4635_36
	movl	%r11d, %r14d
	shll	$5, %r14d
	movq	%rsi, %r15
	subq	16(%r9,%r14), %r15
	jb	.Lcovretin_BB_5fec4635_36
	movq	8(%r9,%r14), %r12
	subq	%rbx, %r12
	jb	.Lcovretin_BB_5fec4635_37
	cmpq	%r12, %r15
	ja	.Lcovretin_BB_5fec4635_37
	jmp	.Lcovretin_BB_5fec4635_24
.Lcovretin_BB_5fec4635_83:
	movq	%rax, (%rdi)
	movl	$5, %eax
	jmp	.Lcovretin_BB_5fec4635_84
.Lcovretin_BB_5fec4635_34:
	testq	%r8, %r8
	je	.Lcovretin_BB_5fec4635_80
	movq	(%rax), %r9
.Lcovretin_BB_5fec4635_36:
	testq	%r10, %r10
	je	.Lcovretin_BB_5fec4635_80
.Lcovretin_BB_5fec4635_37:
	xorl	%r14d, %r14d
	xorl	%r11d, %r11d
	jmp	.Lcovretin_BB_5fec4635_38
	.p2align	4
.Lcovretin_BB_5fec4635_41:
	incq	%r11
	addq	$32, %r14
	cmpq	%r11, %r8
	je	.Lcovretin_BB_5fec4635_80
.Lcovretin_BB_5fec4635_38:
	movq	%rsi, %r15
	subq	16(%r9,%r14), %r15
	jb	.Lcovretin_BB_5fec4635_41
	movq	8(%r9,%r14), %r12
	subq	%rbx, %r12
	jb	.Lcovretin_BB_5fec4635_41
	cmpq	%r12, %r15
	ja	.Lcovretin_BB_5fec4635_41
.Lcovretin_BB_5fec4635_24:
	movq	%r11, 48(%rax)
	subq	16(%r9,%r14), %rsi
	addq	24(%r9,%r14), %rsi
	testb	$15, %sil
	je	.Lcovretin_BB_5fec4635_25
.Lcovretin_BB_5fec4635_85:
	movq	%rax, (%rdi)
	movl	$6, %eax
	jmp	.Lcovretin_BB_5fec4635_84
.Lcovretin_BB_5fec4635_25:
	leaq	6(,%r10,2), %rbx
	cmpq	%r8, %r11
	jae	.Lcovretin_BB_5fec4635_29
	movq	%r11, %r14
	shlq	$5, %r14
	movq	%rdx, %r15
	subq	16(%r9,%r14), %r15
	jb	.Lcovretin_BB_5fec4635_29
	movq	8(%r9,%r14), %r12
	subq	%rbx, %r12
	jb	.Lcovretin_BB_5fec4635_29
	cmpq	%r12, %r15
	jbe	.Lcovretin_BB_5fec4635_49
.Lcovretin_BB_5fec4635_29:
	movq	32(%rax), %r14
	testq	%r14, %r14
	je	.Lcovretin_BB_5fec4635_59
	movq	24(%rax), %r11
	xorl	%r15d, %r15d
	jmp	.Lcovretin_BB_5fec4635_31
.Lcovretin_BB_5fec4635_42:
	movq	%r12, %r14
	cmpq	%r12, %r15
	jae	.Lcovretin_BB_5fec4635_44
.Lcovretin_BB_5fec4635_31:
	movq	%r14, %r12
	subq	%r15, %r12
	shrq	%r12
	addq	%r15, %r12
	movzwl	(%r11,%r12,2), %r13d
	cmpq	%r13, %r8
	jbe	.Lcovretin_BB_5fec4635_42
	shll	$5, %r13d
	cmpq	%rdx, (%r9,%r13)
	ja	.Lcovretin_BB_5fec4635_42
	movq	%r12, %r15
	incq	%r15
	movq	%r14, %r12
	cmpq	%r12, %r15
	jb	.Lcovretin_BB_5fec4635_31
.Lcovretin_BB_5fec4635_44:
	testq	%r15, %r15
	je	.Lcovretin_BB_5fec4635_59
	movzwl	-2(%r11,%r15,2), %r11d
	cmpq	%r11, %r8
	jbe	.Lcovretin_BB_5fec4635_59
	movl	%r11d, %r14d
	shll	$5, %r14d
	movq	%rdx, %r15
	subq	16(%r9,%r14), %r15
	jb	.Lcovretin_BB_5fec4635_60
	movq	8(%r9,%r14), %r12
	subq	%rbx, %r12
	jb	.Lcovretin_BB_5fec4635_60
	cmpq	%r12, %r15
	ja	.Lcovretin_BB_5fec4635_60
	jmp	.Lcovretin_BB_5fec4635_49
.Lcovretin_BB_5fec4635_59:
	testq	%r8, %r8
	je	.Lcovretin_BB_5fec4635_80
.Lcovretin_BB_5fec4635_60:
	xorl	%r14d, %r14d
	xorl	%r11d, %r11d
	jmp	.Lcovretin_BB_5fec4635_61
.Lcovretin_BB_5fec4635_64:
	incq	%r11
	addq	$32, %r14
	cmpq	%r11, %r8
	je	.Lcovretin_BB_5fec4635_80
.Lcovretin_BB_5fec4635_61:
	movq	%rdx, %r15
	subq	16(%r9,%r14), %r15
	jb	.Lcovretin_BB_5fec4635_64
	movq	8(%r9,%r14), %r12
	subq	%rbx, %r12
	jb	.Lcovretin_BB_5fec4635_64
	cmpq	%r12, %r15
	ja	.Lcovretin_BB_5fec4635_64
.Lcovretin_BB_5fec4635_49:
	movq	%r11, 48(%rax)
	subq	16(%r9,%r14), %rdx
	addq	24(%r9,%r14), %rdx
	testb	$1, %dl
	jne	.Lcovretin_BB_5fec4635_85
	leaq	6(,%r10,8), %r10
	cmpq	%r8, %r11
	jae	.Lcovretin_BB_5fec4635_54
	movq	%r11, %rbx
	shlq	$5, %rbx
	movq	%rcx, %r14
	subq	16(%r9,%rbx), %r14
	jb	.Lcovretin_BB_5fec4635_54
	movq	8(%r9,%rbx), %r15
	subq	%r10, %r15
	jb	.Lcovretin_BB_5fec4635_54
	cmpq	%r15, %r14
	jbe	.Lcovretin_BB_5fec4635_72
.Lcovretin_BB_5fec4635_54:
	movq	32(%rax), %rbx
	testq	%rbx, %rbx
	je	.Lcovretin_BB_5fec4635_74
	movq	24(%rax), %r11
	xorl	%r14d, %r14d
	jmp	.Lcovretin_BB_5fec4635_56
.Lcovretin_BB_5fec4635_65:
	movq	%r15, %rbx
	cmpq	%r15, %r14
	jae	.Lcovretin_BB_5fec4635_67
.Lcovretin_BB_5fec4635_56:
	movq	%rbx, %r15
	subq	%r14, %r15
	shrq	%r15
	addq	%r14, %r15
	movzwl	(%r11,%r15,2), %r12d
	cmpq	%r12, %r8
	jbe	.Lcovretin_BB_5fec4635_65
	shll	$5, %r12d
	cmpq	%rcx, (%r9,%r12)
	ja	.Lcovretin_BB_5fec4635_65
	movq	%r15, %r14
	incq	%r14
	movq	%rbx, %r15
	cmpq	%r15, %r14
	jb	.Lcovretin_BB_5fec4635_56
.Lcovretin_BB_5fec4635_67:
	testq	%r14, %r14
	je	.Lcovretin_BB_5fec4635_74
	movzwl	-2(%r11,%r14,2), %r11d
	cmpq	%r11, %r8
	jbe	.Lcovretin_BB_5fec4635_74
	movl	%r11d, %ebx
	shll	$5, %ebx
	movq	%rcx, %r14
	subq	16(%r9,%rbx), %r14
	jb	.Lcovretin_BB_5fec4635_75
	movq	8(%r9,%rbx), %r15
	subq	%r10, %r15
	jb	.Lcovretin_BB_5fec4635_75
	cmpq	%r15, %r14
	ja	.Lcovretin_BB_5fec4635_75
	jmp	.Lcovretin_BB_5fec4635_72
.Lcovretin_BB_5fec4635_74:
	testq	%r8, %r8
	je	.Lcovretin_BB_5fec4635_80
.Lcovretin_BB_5fec4635_75:
	xorl	%ebx, %ebx
	xorl	%r11d, %r11d
	jmp	.Lcovretin_BB_5fec4635_76
.Lcovretin_BB_5fec4635_79:
	incq	%r11
	addq	$32, %rbx
	cmpq	%r11, %r8
	je	.Lcovretin_BB_5fec4635_80
.Lcovretin_BB_5fec4635_76:
	movq	%rcx, %r14
	subq	16(%r9,%rbx), %r14
	jb	.Lcovretin_BB_5fec4635_79
	movq	8(%r9,%rbx), %r15
	subq	%r10, %r15
	jb	.Lcovretin_BB_5fec4635_79
	cmpq	%r15, %r14
	ja	.Lcovretin_BB_5fec4635_79
.Lcovretin_BB_5fec4635_72:
	movq	%r11, 48(%rax)
	subq	16(%r9,%rbx), %rcx
	addq	24(%r9,%rbx), %rcx
	testb	$3, %cl
	jne	.Lcovretin_BB_5fec4635_85
	leaq	66(%rax), %r8
	movw	$0, 4(%r8)
	movl	$0, (%r8)
	movq	%rsi, 72(%rax)
	movq	%rdx, 80(%rax)
	movq	%rcx, 88(%rax)
	movl	$0, 146(%rax)
	movq	%rax, (%rdi)
	xorl	%eax, %eax
	jmp	.Lcovretin_BB_5fec4635_84
.Lcovretin_BB_5fec4635_80:
	movq	%rax, (%rdi)
	movl	$9, %eax
.Lcovretin_BB_5fec4635_84:
	popq	%rbx
	.cfi_def_cfa_offset 40
	popq	%r12
	.cfi_def_cfa_offset 32
	popq	%r13
	.cfi_def_cfa_offset 24
	popq	%r14
	.cfi_def_cfa_offset 16
	popq	%r15
	.cfi_def_cfa_offset 8
	.cfi_restore %rbx
	.cfi_restore %r12
	.cfi_restore %r13
	.cfi_restore %r14
	.cfi_restore %r15
	retq
.Lcovretin_func_end_5fec4635:
	.size	covretin_queue_move_split, .Lcovretin_func_end_5fec4635-covretin_queue_move_split
	.cfi_endproc

	.section	.text.covretin_queue_open,"ax",@progbits
	.globl	covretin_queue_open
	.p2align	4
	.type	covretin_queue_open,@function
covretin_queue_open:
	.cfi_startproc
	endbr64
	movq	(%rdi), %rax
	movq	$0, (%rdi)
	testq	%rax, %rax
	je	.Lcovretin_BB_9431867a_3
	movq	%rax, (%rdi)
	movl	$102, %eax
	retq
.Lcovretin_BB_9431867a_3:
	pushq	%rbx
	.cfi_def_cfa_offset 16
	subq	$16, %rsp
	.cfi_def_cfa_offset 32
	.cfi_offset %rbx, -16
	movq	%rdi, %rbx
	movl	$192, %edi
	movl	$8, %esi
	callq	rattle_alloc@PLT
	movq	%rax, %rcx
	movl	$24, %eax
	testb	$1, %cl
	je	.Lcovretin_BB_9431867a_5
	leaq	8(%rsp), %rax
	movq	%rax, (%rdx)
	xorps	%xmm0, %xmm0
	movups	%xmm0, 8(%rdx)
	movq	%rax, 24(%rdx)
	movups	%xmm0, 32(%rdx)
	movups	%xmm0, 48(%rdx)
	movups	%xmm0, 64(%rdx)
	movups	%xmm0, 80(%rdx)
	movups	%xmm0, 96(%rdx)
	movups	%xmm0, 112(%rdx)
	movups	%xmm0, 128(%rdx)
	movups	%xmm0, 144(%rdx)
	movups	%xmm0, 160(%rdx)
	movups	%xmm0, 176(%rdx)
	movq	%rdx, (%rbx)
	xorl	%eax, %eax
.Lcovretin_BB_9431867a_5:
	addq	$16, %rsp
	.cfi_def_cfa_offset 16
	popq	%rbx
	.cfi_def_cfa_offset 8
	.cfi_restore %rbx
	retq
.Lcovretin_func_end_9431867a:
	.size	covretin_queue_open, .Lcovretin_func_end_9431867a-covretin_queue_open
	.cfi_endproc

	.section	.text.covretin_queue_pop,"ax",@progbits
	.globl	covretin_queue_pop
	.p2align	4
	.type	covretin_queue_pop,@function
covretin_queue_pop:
	.cfi_startproc
	endbr64
	movq	(%rdi), %rax
	movq	$0, (%rdi)
	testq	%rax, %rax
	je	.Lcovretin_BB_69a4018d_1
	movzbl	56(%rax), %ecx
	testl	%ecx, %ecx
	je	.Lcovretin_BB_69a4018d_13
	cmpl	$2, %ecx
	jne	.Lcovretin_BB_69a4018d_5
	movq	%rax, (%rdi)
	movl	$104, %eax
	retq
.Lcovretin_BB_69a4018d_1:
	movl	$101, %eax
	retq
.Lcovretin_BB_69a4018d_13:
	movq	%rax, (%rdi)
	movl	$103, %eax
	retq
.Lcovretin_BB_69a4018d_5:
	cmpb	$0, 184(%rax)
	je	.Lcovretin_BB_69a4018d_6
	movq	%rax, (%rdi)
	movl	$20, %eax
	retq
.Lcovretin_BB_69a4018d_6:
	movzwl	98(%rax), %ecx
	cmpw	100(%rax), %cx
	jne	.Lcovretin_BB_69a4018d_7
	movq	%rax, (%rdi)
	movl	$21, %eax
	retq
.Lcovretin_BB_69a4018d_7:
	movzwl	64(%rax), %r9d
	cmpw	%r9w, %si
	jae	.Lcovretin_BB_69a4018d_15
	movzwl	%si, %edx
	movq	112(%rax), %r8
	cmpb	$0, (%r8,%rdx)
	je	.Lcovretin_BB_69a4018d_9
	movb	$1, 184(%rax)
	movq	%rax, (%rdi)
	movl	$19, %eax
	retq
.Lcovretin_BB_69a4018d_15:
	movb	$1, 184(%rax)
	movq	%rax, (%rdi)
	movl	$11, %eax
	retq
.Lcovretin_BB_69a4018d_9:
	incl	%ecx
	movq	72(%rax), %r10
	movzbl	97(%rax), %r11d
	movq	%r10, 136(%rax)
	movw	%r9w, 144(%rax)
	movw	$1, 146(%rax)
	movw	%si, 148(%rax)
	xorps	%xmm0, %xmm0
	movups	%xmm0, 152(%rax)
	movq	$0, 168(%rax)
	movzwl	182(%rax), %esi
	movw	%si, 176(%rax)
	movw	$508, 178(%rax)
	movb	$0, 180(%rax)
	movb	%r11b, 181(%rax)
	movb	$1, (%r8,%rdx)
	movw	%cx, 98(%rax)
	movq	%rax, (%rdi)
	xorl	%eax, %eax
	retq
.Lcovretin_func_end_69a4018d:
	.size	covretin_queue_pop, .Lcovretin_func_end_69a4018d-covretin_queue_pop
	.cfi_endproc

	.section	.text.covretin_queue_remove_region,"ax",@progbits
	.globl	covretin_queue_remove_region
	.p2align	4
	.type	covretin_queue_remove_region,@function
covretin_queue_remove_region:
	.cfi_startproc
	endbr64
	pushq	%rbp
	.cfi_def_cfa_offset 16
	pushq	%r15
	.cfi_def_cfa_offset 24
	pushq	%r14
	.cfi_def_cfa_offset 32
	pushq	%r13
	.cfi_def_cfa_offset 40
	pushq	%r12
	.cfi_def_cfa_offset 48
	pushq	%rbx
	.cfi_def_cfa_offset 56
	subq	$40, %rsp
	.cfi_def_cfa_offset 96
	.cfi_offset %rbx, -56
	.cfi_offset %r12, -48
	.cfi_offset %r13, -40
	.cfi_offset %r14, -32
	.cfi_offset %r15, -24
	.cfi_offset %rbp, -16
	movq	(%rdi), %rbx
	movq	%rdi, 8(%rsp)
	movq	$0, (%rdi)
	testq	%rbx, %rbx
	je	.Lcovretin_BB_012d3dbe_1
	movq	8(%rbx), %r9
	testq	%r9, %r9
	je	.Lcovretin_BB_012d3dbe_8
	movq	(%rbx), %r15
	leaq	8(%rbx), %rax
	movq	%r9, %r12
	shlq	$5, %r12
	leaq	(%r12,%r15), %r13
	addq	$-64, %r13
	leal	3(%r9), %r10d
	xorl	%ebp, %ebp
	xorl	%r8d, %r8d
	xorl	%r14d, %r14d
	jmp	.Lcovretin_BB_012d3dbe_4
	.p2align	4
.Lcovretin_BB_012d3dbe_7:
	incq	%r14
	addb	$3, %r10b
	addq	$-32, %r8
	addq	$32, %rbp
	cmpq	%r14, %r9
	je	.Lcovretin_BB_012d3dbe_8
.Lcovretin_BB_012d3dbe_4:
	cmpq	%rsi, (%r15,%rbp)
	jne	.Lcovretin_BB_012d3dbe_7
	cmpq	%rdx, 8(%r15,%rbp)
	jne	.Lcovretin_BB_012d3dbe_7
	cmpq	%rcx, 16(%r15,%rbp)
	jne	.Lcovretin_BB_012d3dbe_7
	movq	16(%rbx), %rdi
	xorps	%xmm0, %xmm0
	movups	%xmm0, (%rax)
	leaq	-1(%r9), %r11
	subq	%r14, %r9
	leaq	-1(%r9), %rdx
	cmpq	$-1, %r14
	je	.Lcovretin_BB_012d3dbe_10
	cmpq	$65, %rdx
	jb	.Lcovretin_BB_012d3dbe_13
	addq	$-65, %r9
	movq	%r14, %rsi
	jmp	.Lcovretin_BB_012d3dbe_15
.Lcovretin_BB_012d3dbe_8:
	movq	8(%rsp), %rax
	movq	%rbx, (%rax)
	movl	$4, %eax
	jmp	.Lcovretin_BB_012d3dbe_38
.Lcovretin_BB_012d3dbe_1:
	movl	$101, %eax
.Lcovretin_BB_012d3dbe_38:
	addq	$40, %rsp
	.cfi_def_cfa_offset 56
	popq	%rbx
	.cfi_def_cfa_offset 48
	popq	%r12
	.cfi_def_cfa_offset 40
	popq	%r13
	.cfi_def_cfa_offset 32
	popq	%r14
	.cfi_def_cfa_offset 24
	popq	%r15
	.cfi_def_cfa_offset 16
	popq	%rbp
	.cfi_def_cfa_offset 8
	retq
	.p2align	4
.Lcovretin_BB_012d3dbe_17:
	.cfi_def_cfa_offset 96
	movups	2048(%rdx), %xmm0
	movups	2064(%rdx), %xmm1
	movups	%xmm1, 2032(%rdx)
	movups	%xmm0, 2016(%rdx)
	movups	%xmm0, 1984(%rdx)
	movups	%xmm1, 2000(%rdx)
	movups	%xmm0, 1952(%rdx)
	movups	%xmm1, 1968(%rdx)
	movups	%xmm0, 1920(%rdx)
	movups	%xmm1, 1936(%rdx)
	movups	%xmm0, 1888(%rdx)
	movups	%xmm1, 1904(%rdx)
	movups	%xmm0, 1856(%rdx)
	movups	%xmm1, 1872(%rdx)
	movups	%xmm0, 1824(%rdx)
	movups	%xmm1, 1840(%rdx)
	movups	%xmm0, 1792(%rdx)
	movups	%xmm1, 1808(%rdx)
	movups	2048(%rdx), %xmm0
	movups	2064(%rdx), %xmm1
	movups	%xmm1, 1776(%rdx)
	movups	%xmm0, 1760(%rdx)
	movups	%xmm1, 1744(%rdx)
	movups	%xmm0, 1728(%rdx)
	movups	%xmm1, 1712(%rdx)
	movups	%xmm0, 1696(%rdx)
	movups	%xmm1, 1680(%rdx)
	movups	%xmm0, 1664(%rdx)
	movups	%xmm0, 1632(%rdx)
	movups	%xmm1, 1648(%rdx)
	movups	%xmm1, 1616(%rdx)
	movups	%xmm0, 1600(%rdx)
	movups	%xmm1, 1584(%rdx)
	movups	%xmm0, 1568(%rdx)
	movups	%xmm0, 1536(%rdx)
	movups	%xmm1, 1552(%rdx)
	movups	2048(%rdx), %xmm0
	movups	2064(%rdx), %xmm1
	movups	%xmm1, 1520(%rdx)
	movups	%xmm0, 1504(%rdx)
	movups	%xmm1, 1488(%rdx)
	movups	%xmm0, 1472(%rdx)
	movups	%xmm1, 1456(%rdx)
	movups	%xmm0, 1440(%rdx)
	movups	%xmm1, 1424(%rdx)
	movups	%xmm0, 1408(%rdx)
	movups	%xmm0, 1376(%rdx)
	movups	%xmm1, 1392(%rdx)
	movups	%xmm1, 1360(%rdx)
	movups	%xmm0, 1344(%rdx)
	movups	%xmm0, 1312(%rdx)
	movups	%xmm1, 1328(%rdx)
	movups	%xmm1, 1296(%rdx)
	movups	%xmm0, 1280(%rdx)
	movups	2048(%rdx), %xmm0
	movups	2064(%rdx), %xmm1
	movups	%xmm1, 1264(%rdx)
	movups	%xmm0, 1248(%rdx)
	movups	2048(%rdx), %xmm0
	movups	2064(%rdx), %xmm1
	movups	%xmm1, 1232(%rdx)
	movups	%xmm0, 1216(%rdx)
	movups	2048(%rdx), %xmm0
	movups	2064(%rdx), %xmm1
	movups	%xmm1, 1200(%rdx)
	movups	%xmm0, 1184(%rdx)
	movups	2048(%rdx), %xmm0
	movups	2064(%rdx), %xmm1
	movups	%xmm1, 1168(%rdx)
	movups	%xmm0, 1152(%rdx)
	movups	2048(%rdx), %xmm0
	movups	2064(%rdx), %xmm1
	movups	%xmm1, 1136(%rdx)
	movups	%xmm0, 1120(%rdx)
	movups	2048(%rdx), %xmm0
	movups	2064(%rdx), %xmm1
	movups	%xmm1, 1104(%rdx)
	movups	%xmm0, 1088(%rdx)
	movups	2048(%rdx), %xmm0
	movups	2064(%rdx), %xmm1
	movups	%xmm1, 1072(%rdx)
	movups	%xmm0, 1056(%rdx)
	movups	2048(%rdx), %xmm0
	movups	2064(%rdx), %xmm1
	movups	%xmm1, 1040(%rdx)
	movups	%xmm0, 1024(%rdx)
	movups	2048(%rdx), %xmm0
	movups	2064(%rdx), %xmm1
	movups	%xmm1, 1008(%rdx)
	movups	%xmm0, 992(%rdx)
	movups	2048(%rdx), %xmm0
	movups	2064(%rdx), %xmm1
	movups	%xmm1, 976(%rdx)
	movups	%xmm0, 960(%rdx)
	movups	2048(%rdx), %xmm0
	movups	2064(%rdx), %xmm1
	movups	%xmm1, 944(%rdx)
	movups	%xmm0, 928(%rdx)
	movups	2048(%rdx), %xmm0
	movups	2064(%rdx), %xmm1
	movups	%xmm1, 912(%rdx)
	movups	%xmm0, 896(%rdx)
	movups	2048(%rdx), %xmm0
	movups	2064(%rdx), %xmm1
	movups	%xmm1, 880(%rdx)
	movups	%xmm0, 864(%rdx)
	movups	2048(%rdx), %xmm0
	movups	2064(%rdx), %xmm1
	movups	%xmm1, 848(%rdx)
	movups	%xmm0, 832(%rdx)
	movups	2048(%rdx), %xmm0
	movups	2064(%rdx), %xmm1
	movups	%xmm1, 816(%rdx)
	movups	%xmm0, 800(%rdx)
	movups	2048(%rdx), %xmm0
	movups	2064(%rdx), %xmm1
	movups	%xmm1, 784(%rdx)
	movups	%xmm0, 768(%rdx)
	movups	2048(%rdx), %xmm0
	movups	2064(%rdx), %xmm1
	movups	%xmm1, 752(%rdx)
	movups	%xmm0, 736(%rdx)
	movups	2048(%rdx), %xmm0
	movups	2064(%rdx), %xmm1
	movups	%xmm1, 720(%rdx)
	movups	%xmm0, 704(%rdx)
	movups	2048(%rdx), %xmm0
	movups	2064(%rdx), %xmm1
	movups	%xmm1, 688(%rdx)
	movups	%xmm0, 672(%rdx)
	movups	2048(%rdx), %xmm0
	movups	2064(%rdx), %xmm1
	movups	%xmm1, 656(%rdx)
	movups	%xmm0, 640(%rdx)
	movups	2048(%rdx), %xmm0
	movups	2064(%rdx), %xmm1
	movups	%xmm1, 624(%rdx)
	movups	%xmm0, 608(%rdx)
	movups	2048(%rdx), %xmm0
	movups	2064(%rdx), %xmm1
	movups	%xmm1, 592(%rdx)
	movups	%xmm0, 576(%rdx)
	movups	2048(%rdx), %xmm0
	movups	2064(%rdx), %xmm1
	movups	%xmm1, 560(%rdx)
	movups	%xmm0, 544(%rdx)
	movups	2048(%rdx), %xmm0
	movups	2064(%rdx), %xmm1
	movups	%xmm1, 528(%rdx)
	movups	%xmm0, 512(%rdx)
	movups	2048(%rdx), %xmm0
	movups	2064(%rdx), %xmm1
	movups	%xmm1, 496(%rdx)
	movups	%xmm0, 480(%rdx)
	movups	2048(%rdx), %xmm0
	movups	2064(%rdx), %xmm1
	movups	%xmm1, 464(%rdx)
	movups	%xmm0, 448(%rdx)
	movups	2048(%rdx), %xmm0
	movups	2064(%rdx), %xmm1
	movups	%xmm1, 432(%rdx)
	movups	%xmm0, 416(%rdx)
	movups	2048(%rdx), %xmm0
	movups	2064(%rdx), %xmm1
	movups	%xmm1, 400(%rdx)
	movups	%xmm0, 384(%rdx)
	movups	2048(%rdx), %xmm0
	movups	2064(%rdx), %xmm1
	movups	%xmm1, 368(%rdx)
	movups	%xmm0, 352(%rdx)
	movups	2048(%rdx), %xmm0
	movups	2064(%rdx), %xmm1
	movups	%xmm1, 336(%rdx)
	movups	%xmm0, 320(%rdx)
	movups	2048(%rdx), %xmm0
	movups	2064(%rdx), %xmm1
	movups	%xmm1, 304(%rdx)
	movups	%xmm0, 288(%rdx)
	movups	2048(%rdx), %xmm0
	movups	2064(%rdx), %xmm1
	movups	%xmm1, 272(%rdx)
	movups	%xmm0, 256(%rdx)
	movups	2048(%rdx), %xmm0
	movups	2064(%rdx), %xmm1
	movups	%xmm1, 240(%rdx)
	movups	%xmm0, 224(%rdx)
	movups	2048(%rdx), %xmm0
	movups	2064(%rdx), %xmm1
	movups	%xmm1, 208(%rdx)
	movups	%xmm0, 192(%rdx)
	movups	2048(%rdx), %xmm0
	movups	2064(%rdx), %xmm1
	movups	%xmm1, 176(%rdx)
	movups	%xmm0, 160(%rdx)
	movups	2048(%rdx), %xmm0
	movups	2064(%rdx), %xmm1
	movups	%xmm1, 144(%rdx)
	movups	%xmm0, 128(%rdx)
	movups	2048(%rdx), %xmm0
	movups	2064(%rdx), %xmm1
	movups	%xmm1, 112(%rdx)
	movups	%xmm0, 96(%rdx)
	movups	2048(%rdx), %xmm0
	movups	2064(%rdx), %xmm1
	movups	%xmm1, 80(%rdx)
	movups	%xmm0, 64(%rdx)
	movups	2048(%rdx), %xmm0
	movups	2064(%rdx), %xmm1
	movups	%xmm1, 16(%r8)
	movups	%xmm0, (%r8)
	movups	2048(%rdx), %xmm0
	movups	2064(%rdx), %xmm1
	movups	%xmm1, 16(%rdx)
	movups	%xmm0, (%rdx)
.Lcovretin_BB_012d3dbe_18:
	addq	$64, %rsi
	movq	%r11, %rdx
	subq	%rsi, %rdx
	leaq	-64(%rcx), %r9
	cmpq	$64, %rdx
	jbe	.Lcovretin_BB_012d3dbe_19
.Lcovretin_BB_012d3dbe_15:
	movq	%r9, %rcx
	movq	%rsi, %rax
	shlq	$5, %rax
	leaq	(%r15,%rax), %rdx
	leaq	(%r15,%rax), %r8
	addq	$32, %r8
	cmpq	$-1, %rsi
	je	.Lcovretin_BB_012d3dbe_17
	movups	(%r8), %xmm0
	movups	16(%r8), %xmm1
	movups	%xmm1, 16(%rdx)
	movups	%xmm0, (%rdx)
	movups	64(%rdx), %xmm0
	movups	80(%rdx), %xmm1
	movups	%xmm1, 16(%r8)
	movups	%xmm0, (%r8)
	movups	96(%rdx), %xmm0
	movups	112(%rdx), %xmm1
	movups	128(%rdx), %xmm2
	movups	144(%rdx), %xmm3
	movups	%xmm1, 80(%rdx)
	movups	%xmm0, 64(%rdx)
	movups	%xmm3, 112(%rdx)
	movups	%xmm2, 96(%rdx)
	movups	176(%rdx), %xmm0
	movups	%xmm0, 144(%rdx)
	movups	160(%rdx), %xmm0
	movups	%xmm0, 128(%rdx)
	movups	208(%rdx), %xmm0
	movups	%xmm0, 176(%rdx)
	movups	192(%rdx), %xmm0
	movups	%xmm0, 160(%rdx)
	movups	224(%rdx), %xmm0
	movups	240(%rdx), %xmm1
	movups	%xmm1, 208(%rdx)
	movups	%xmm0, 192(%rdx)
	movups	256(%rdx), %xmm0
	movups	272(%rdx), %xmm1
	movups	%xmm1, 240(%rdx)
	movups	%xmm0, 224(%rdx)
	movups	288(%rdx), %xmm0
	movups	304(%rdx), %xmm1
	movups	%xmm1, 272(%rdx)
	movups	%xmm0, 256(%rdx)
	movups	320(%rdx), %xmm0
	movups	336(%rdx), %xmm1
	movups	%xmm1, 304(%rdx)
	movups	%xmm0, 288(%rdx)
	movups	352(%rdx), %xmm0
	movups	368(%rdx), %xmm1
	movups	%xmm1, 336(%rdx)
	movups	%xmm0, 320(%rdx)
	movups	384(%rdx), %xmm0
	movups	400(%rdx), %xmm1
	movups	%xmm1, 368(%rdx)
	movups	%xmm0, 352(%rdx)
	movups	416(%rdx), %xmm0
	movups	432(%rdx), %xmm1
	movups	%xmm1, 400(%rdx)
	movups	%xmm0, 384(%rdx)
	movups	448(%rdx), %xmm0
	movups	464(%rdx), %xmm1
	movups	%xmm1, 432(%rdx)
	movups	%xmm0, 416(%rdx)
	movups	480(%rdx), %xmm0
	movups	496(%rdx), %xmm1
	movups	%xmm1, 464(%rdx)
	movups	%xmm0, 448(%rdx)
	movups	512(%rdx), %xmm0
	movups	528(%rdx), %xmm1
	movups	%xmm1, 496(%rdx)
	movups	%xmm0, 480(%rdx)
	movups	544(%rdx), %xmm0
	movups	560(%rdx), %xmm1
	movups	%xmm1, 528(%rdx)
	movups	%xmm0, 512(%rdx)
	movups	576(%rdx), %xmm0
	movups	592(%rdx), %xmm1
	movups	%xmm1, 560(%rdx)
	movups	%xmm0, 544(%rdx)
	movups	608(%rdx), %xmm0
	movups	624(%rdx), %xmm1
	movups	%xmm1, 592(%rdx)
	movups	%xmm0, 576(%rdx)
	movups	640(%rdx), %xmm0
	movups	656(%rdx), %xmm1
	movups	%xmm1, 624(%rdx)
	movups	%xmm0, 608(%rdx)
	movups	672(%rdx), %xmm0
	movups	688(%rdx), %xmm1
	movups	%xmm1, 656(%rdx)
	movups	%xmm0, 640(%rdx)
	movups	704(%rdx), %xmm0
	movups	720(%rdx), %xmm1
	movups	%xmm1, 688(%rdx)
	movups	%xmm0, 672(%rdx)
	movups	736(%rdx), %xmm0
	movups	752(%rdx), %xmm1
	movups	%xmm1, 720(%rdx)
	movups	%xmm0, 704(%rdx)
	movups	768(%rdx), %xmm0
	movups	784(%rdx), %xmm1
	movups	%xmm1, 752(%rdx)
	movups	%xmm0, 736(%rdx)
	movups	800(%rdx), %xmm0
	movups	816(%rdx), %xmm1
	movups	%xmm1, 784(%rdx)
	movups	%xmm0, 768(%rdx)
	movups	832(%rdx), %xmm0
	movups	848(%rdx), %xmm1
	movups	%xmm1, 816(%rdx)
	movups	%xmm0, 800(%rdx)
	movups	864(%rdx), %xmm0
	movups	880(%rdx), %xmm1
	movups	%xmm1, 848(%rdx)
	movups	%xmm0, 832(%rdx)
	movups	896(%rdx), %xmm0
	movups	912(%rdx), %xmm1
	movups	%xmm1, 880(%rdx)
	movups	%xmm0, 864(%rdx)
	movups	928(%rdx), %xmm0
	movups	944(%rdx), %xmm1
	movups	%xmm1, 912(%rdx)
	movups	%xmm0, 896(%rdx)
	movups	960(%rdx), %xmm0
	movups	976(%rdx), %xmm1
	movups	%xmm1, 944(%rdx)
	movups	%xmm0, 928(%rdx)
	movups	992(%rdx), %xmm0
	movups	1008(%rdx), %xmm1
	movups	%xmm1, 976(%rdx)
	movups	%xmm0, 960(%rdx)
	movups	1024(%rdx), %xmm0
	movups	1040(%rdx), %xmm1
	movups	%xmm1, 1008(%rdx)
	movups	%xmm0, 992(%rdx)
	movups	1056(%rdx), %xmm0
	movups	1072(%rdx), %xmm1
	movups	%xmm1, 1040(%rdx)
	movups	%xmm0, 1024(%rdx)
	movups	1088(%rdx), %xmm0
	movups	1104(%rdx), %xmm1
	movups	%xmm1, 1072(%rdx)
	movups	%xmm0, 1056(%rdx)
	movups	1120(%rdx), %xmm0
	movups	1136(%rdx), %xmm1
	movups	%xmm1, 1104(%rdx)
	movups	%xmm0, 1088(%rdx)
	movups	1152(%rdx), %xmm0
	movups	1168(%rdx), %xmm1
	movups	%xmm1, 1136(%rdx)
	movups	%xmm0, 1120(%rdx)
	movups	1184(%rdx), %xmm0
	movups	1200(%rdx), %xmm1
	movups	%xmm1, 1168(%rdx)
	movups	%xmm0, 1152(%rdx)
	movups	1216(%rdx), %xmm0
	movups	1232(%rdx), %xmm1
	movups	%xmm1, 1200(%rdx)
	movups	%xmm0, 1184(%rdx)
	movups	1248(%rdx), %xmm0
	movups	1264(%rdx), %xmm1
	movups	%xmm1, 1232(%rdx)
	movups	%xmm0, 1216(%rdx)
	movups	1280(%rdx), %xmm0
	movups	1296(%rdx), %xmm1
	movups	%xmm1, 1264(%rdx)
	movups	%xmm0, 1248(%rdx)
	movups	1312(%rdx), %xmm0
	movups	1328(%rdx), %xmm1
	movups	%xmm1, 1296(%rdx)
	movups	%xmm0, 1280(%rdx)
	movups	1344(%rdx), %xmm0
	movups	1360(%rdx), %xmm1
	movups	%xmm1, 1328(%rdx)
	movups	%xmm0, 1312(%rdx)
	movups	1376(%rdx), %xmm0
	movups	1392(%rdx), %xmm1
	movups	%xmm1, 1360(%rdx)
	movups	%xmm0, 1344(%rdx)
	movups	1408(%rdx), %xmm0
	movups	1424(%rdx), %xmm1
	movups	%xmm1, 1392(%rdx)
	movups	%xmm0, 1376(%rdx)
	movups	1440(%rdx), %xmm0
	movups	1456(%rdx), %xmm1
	movups	%xmm1, 1424(%rdx)
	movups	%xmm0, 1408(%rdx)
	movups	1472(%rdx), %xmm0
	movups	1488(%rdx), %xmm1
	movups	%xmm1, 1456(%rdx)
	movups	%xmm0, 1440(%rdx)
	movups	1504(%rdx), %xmm0
	movups	1520(%rdx), %xmm1
	movups	%xmm1, 1488(%rdx)
	movups	%xmm0, 1472(%rdx)
	movups	1536(%rdx), %xmm0
	movups	1552(%rdx), %xmm1
	movups	%xmm1, 1520(%rdx)
	movups	%xmm0, 1504(%rdx)
	movups	1568(%rdx), %xmm0
	movups	1584(%rdx), %xmm1
	movups	%xmm1, 1552(%rdx)
	movups	%xmm0, 1536(%rdx)
	movups	1600(%rdx), %xmm0
	movups	1616(%rdx), %xmm1
	movups	%xmm1, 1584(%rdx)
	movups	%xmm0, 1568(%rdx)
	movups	1632(%rdx), %xmm0
	movups	1648(%rdx), %xmm1
	movups	%xmm1, 1616(%rdx)
	movups	%xmm0, 1600(%rdx)
	movups	1664(%rdx), %xmm0
	movups	1680(%rdx), %xmm1
	movups	%xmm1, 1648(%rdx)
	movups	%xmm0, 1632(%rdx)
	movups	1696(%rdx), %xmm0
	movups	1712(%rdx), %xmm1
	movups	%xmm1, 1680(%rdx)
	movups	%xmm0, 1664(%rdx)
	movups	1728(%rdx), %xmm0
	movups	1744(%rdx), %xmm1
	movups	%xmm1, 1712(%rdx)
	movups	%xmm0, 1696(%rdx)
	movups	1760(%rdx), %xmm0
	movups	1776(%rdx), %xmm1
	movups	%xmm1, 1744(%rdx)
	movups	%xmm0, 1728(%rdx)
	movups	1792(%rdx), %xmm0
	movups	1808(%rdx), %xmm1
	movups	%xmm1, 1776(%rdx)
	movups	%xmm0, 1760(%rdx)
	movups	1824(%rdx), %xmm0
	movups	1840(%rdx), %xmm1
	movups	%xmm1, 1808(%rdx)
	movups	%xmm0, 1792(%rdx)
	movups	1856(%rdx), %xmm0
	movups	1872(%rdx), %xmm1
	movups	%xmm1, 1840(%rdx)
	movups	%xmm0, 1824(%rdx)
	movups	1888(%rdx), %xmm0
	movups	1904(%rdx), %xmm1
	movups	%xmm1, 1872(%rdx)
	movups	%xmm0, 1856(%rdx)
	movups	1920(%rdx), %xmm0
	movups	1936(%rdx), %xmm1
	movups	%xmm1, 1904(%rdx)
	movups	%xmm0, 1888(%rdx)
	movups	1952(%rdx), %xmm0
	movups	1968(%rdx), %xmm1
	movups	%xmm1, 1936(%rdx)
	movups	%xmm0, 1920(%rdx)
	movups	1984(%rdx), %xmm0
	movups	2000(%rdx), %xmm1
	movups	%xmm1, 1968(%rdx)
	movups	%xmm0, 1952(%rdx)
	movups	2016(%rdx), %xmm0
	movups	2032(%rdx), %xmm1
	movups	%xmm1, 2000(%rdx)
	movups	%xmm0, 1984(%rdx)
	movups	2048(%rdx), %xmm0
	movups	2064(%rdx), %xmm1
	movups	%xmm1, 2032(%rdx)
	movups	%xmm0, 2016(%rdx)
	jmp	.Lcovretin_BB_012d3dbe_18
.Lcovretin_BB_012d3dbe_10:
	movq	%r12, (%rsp)
	leaq	-2(%r9), %rax
	cmpq	$3, %rax
	jae	.Lcovretin_BB_012d3dbe_25
	xorl	%ecx, %ecx
	jmp	.Lcovretin_BB_012d3dbe_28
.Lcovretin_BB_012d3dbe_13:
	negq	%r8
	movq	%r14, %rsi
	jmp	.Lcovretin_BB_012d3dbe_21
.Lcovretin_BB_012d3dbe_19:
	cmpq	$-1, %rsi
	je	.Lcovretin_BB_012d3dbe_23
	movq	%rsi, %r8
	shlq	$5, %r8
.Lcovretin_BB_012d3dbe_21:
	cmpq	%rsi, %r11
	je	.Lcovretin_BB_012d3dbe_30
	leaq	(%r15,%r8), %rax
	leaq	(%r15,%r8), %rsi
	addq	$32, %rsi
	shlq	$5, %rdx
	movq	%rdi, %r12
	movq	%rax, %rdi
	movq	%r11, %rbp
	callq	memmove@PLT
	movq	%r12, %rdi
	movq	%rbp, %r11
	jmp	.Lcovretin_BB_012d3dbe_30
.Lcovretin_BB_012d3dbe_25:
	movq	%r11, 16(%rsp)
	movq	%rdi, 24(%rsp)
	movabsq	$576460752303423484, %rsi
	movq	%rdx, %rdi
	andq	$-4, %rdi
	movq	(%rsp), %rax
	addq	%r15, %rax
	movq	%rax, 32(%rsp)
	addq	%rax, %rbp
	xorl	%ecx, %ecx
	xorl	%eax, %eax
	movq	%r13, %r12
	.p2align	4
.Lcovretin_BB_012d3dbe_26:
	movq	32(%rsp), %r11
	leaq	(%r11,%rax), %r13
	movups	-64(%r8,%r13), %xmm0
	movups	-48(%r8,%r13), %xmm1
	movups	%xmm1, 16(%r12,%rax)
	movups	%xmm0, (%r12,%rax)
	leaq	2(%rsi), %r13
	xorq	%rcx, %r13
	leaq	(%r9,%r13), %r11
	shlq	$5, %r11
	shlq	$5, %r13
	addq	%rbp, %r13
	movups	-32(%r11,%r15), %xmm0
	movups	-16(%r11,%r15), %xmm1
	movups	%xmm1, -16(%r8,%r13)
	movups	%xmm0, -32(%r8,%r13)
	leaq	1(%rsi), %r11
	xorq	%rcx, %r11
	leaq	(%r9,%r11), %r13
	shlq	$5, %r13
	shlq	$5, %r11
	addq	%rbp, %r11
	movups	-32(%r13,%r15), %xmm0
	movups	-16(%r13,%r15), %xmm1
	movups	%xmm1, -16(%r8,%r11)
	movups	%xmm0, -32(%r8,%r11)
	movq	%rcx, %r11
	xorq	%rsi, %r11
	leaq	(%r9,%r11), %r13
	shlq	$5, %r13
	shlq	$5, %r11
	addq	%rbp, %r11
	movups	-32(%r13,%r15), %xmm0
	movups	-16(%r13,%r15), %xmm1
	movups	%xmm1, -16(%r8,%r11)
	movups	%xmm0, -32(%r8,%r11)
	addq	$4, %rcx
	addq	$-128, %rax
	cmpq	%rcx, %rdi
	jne	.Lcovretin_BB_012d3dbe_26
	testb	$3, %dl
	movq	24(%rsp), %rdi
	movq	16(%rsp), %r11
	je	.Lcovretin_BB_012d3dbe_30
.Lcovretin_BB_012d3dbe_28:
	shlq	$5, %rcx
	movq	(%rsp), %rdx
	leaq	(%r15,%rdx), %rax
	subq	%rcx, %rdx
	addq	%r15, %rdx
	addq	$-64, %rdx
	movzbl	%r10b, %esi
	andl	$3, %esi
	shll	$5, %esi
	subq	%rcx, %rax
	xorl	%ecx, %ecx
	.p2align	4
.Lcovretin_BB_012d3dbe_29:
	leaq	(%rax,%rcx), %r9
	movups	-64(%r8,%r9), %xmm0
	movups	-48(%r8,%r9), %xmm1
	movups	%xmm1, 16(%rdx,%rcx)
	movups	%xmm0, (%rdx,%rcx)
	addq	$-32, %rcx
	movq	%rsi, %r9
	addq	%rcx, %r9
	jne	.Lcovretin_BB_012d3dbe_29
	jmp	.Lcovretin_BB_012d3dbe_30
.Lcovretin_BB_012d3dbe_23:
	leaq	(%r12,%r15), %rax
	addq	$-32, %rax
	.p2align	4
.Lcovretin_BB_012d3dbe_24:
	movups	(%rax), %xmm0
	movups	16(%rax), %xmm1
	movups	%xmm1, -16(%rax)
	movups	%xmm0, -32(%rax)
	addq	$-32, %rax
	decq	%rcx
	jne	.Lcovretin_BB_012d3dbe_24
.Lcovretin_BB_012d3dbe_30:
	movq	%r15, (%rbx)
	movq	%r11, 8(%rbx)
	movq	%rdi, 16(%rbx)
	movq	32(%rbx), %rcx
	testq	%rcx, %rcx
	je	.Lcovretin_BB_012d3dbe_37
	xorl	%eax, %eax
	xorl	%edx, %edx
	jmp	.Lcovretin_BB_012d3dbe_32
	.p2align	4
.Lcovretin_BB_012d3dbe_34:
	incq	%rdx
	cmpq	%rdx, %rcx
	je	.Lcovretin_BB_012d3dbe_35
.Lcovretin_BB_012d3dbe_32:
	movq	24(%rbx), %rsi
	movzwl	(%rsi,%rdx,2), %r8d
	cmpq	%r14, %r8
	je	.Lcovretin_BB_012d3dbe_34
	cmpq	%r8, %r14
	sbbw	$0, %r8w
	movw	%r8w, (%rsi,%rax,2)
	incq	%rax
	jmp	.Lcovretin_BB_012d3dbe_34
.Lcovretin_BB_012d3dbe_35:
	cmpq	%rax, 32(%rbx)
	jbe	.Lcovretin_BB_012d3dbe_37
	movq	%rax, 32(%rbx)
.Lcovretin_BB_012d3dbe_37:
	movq	8(%rsp), %rax
	movq	%rbx, (%rax)
	xorl	%eax, %eax
	jmp	.Lcovretin_BB_012d3dbe_38
.Lcovretin_func_end_012d3dbe:
	.size	covretin_queue_remove_region, .Lcovretin_func_end_012d3dbe-covretin_queue_remove_region
	.cfi_endproc

	.section	.text.covretin_queue_resubmit,"ax",@progbits
	.globl	covretin_queue_resubmit
	.p2align	4
	.type	covretin_queue_resubmit,@function
covretin_queue_resubmit:
	.cfi_startproc
	endbr64
	movq	(%rdi), %rax
	movq	$0, (%rdi)
	testq	%rax, %rax
	je	.Lcovretin_BB_90c46ff7_1
	movzbl	56(%rax), %ecx
	testl	%ecx, %ecx
	je	.Lcovretin_BB_90c46ff7_11
	cmpl	$2, %ecx
	jne	.Lcovretin_BB_90c46ff7_5
	movq	%rax, (%rdi)
	movl	$104, %eax
	retq
.Lcovretin_BB_90c46ff7_1:
	movl	$101, %eax
	retq
.Lcovretin_BB_90c46ff7_11:
	movq	%rax, (%rdi)
	movl	$103, %eax
	retq
.Lcovretin_BB_90c46ff7_5:
	cmpb	$0, 184(%rax)
	je	.Lcovretin_BB_90c46ff7_6
	movq	%rax, (%rdi)
	movl	$20, %eax
	retq
.Lcovretin_BB_90c46ff7_6:
	movzwl	64(%rax), %r8d
	cmpw	%r8w, %si
	jae	.Lcovretin_BB_90c46ff7_13
	movzwl	%si, %ecx
	movq	112(%rax), %rdx
	cmpb	$0, (%rdx,%rcx)
	je	.Lcovretin_BB_90c46ff7_8
	movb	$1, 184(%rax)
	movq	%rax, (%rdi)
	movl	$19, %eax
	retq
.Lcovretin_BB_90c46ff7_13:
	movb	$1, 184(%rax)
	movq	%rax, (%rdi)
	movl	$11, %eax
	retq
.Lcovretin_BB_90c46ff7_8:
	movzwl	98(%rax), %r9d
	movq	72(%rax), %r10
	movzbl	97(%rax), %r11d
	movq	%r10, 136(%rax)
	movw	%r8w, 144(%rax)
	movw	$1, 146(%rax)
	movw	%si, 148(%rax)
	xorps	%xmm0, %xmm0
	movups	%xmm0, 152(%rax)
	movq	$0, 168(%rax)
	movzwl	182(%rax), %esi
	movw	%si, 176(%rax)
	movw	$508, 178(%rax)
	movb	$0, 180(%rax)
	movb	%r11b, 181(%rax)
	movb	$1, (%rdx,%rcx)
	movw	%r9w, 98(%rax)
	movq	%rax, (%rdi)
	xorl	%eax, %eax
	retq
.Lcovretin_func_end_90c46ff7:
	.size	covretin_queue_resubmit, .Lcovretin_func_end_90c46ff7-covretin_queue_resubmit
	.cfi_endproc

	.section	.text.covretin_queue_resubmit_packed,"ax",@progbits
	.globl	covretin_queue_resubmit_packed
	.p2align	4
	.type	covretin_queue_resubmit_packed,@function
covretin_queue_resubmit_packed:
	.cfi_startproc
	endbr64
	movq	(%rdi), %rax
	movq	$0, (%rdi)
	testq	%rax, %rax
	je	.Lcovretin_BB_2bc84654_1
	movzbl	56(%rax), %ecx
	testl	%ecx, %ecx
	je	.Lcovretin_BB_2bc84654_9
	cmpl	$1, %ecx
	jne	.Lcovretin_BB_2bc84654_5
	movq	%rax, (%rdi)
	movl	$104, %eax
	retq
.Lcovretin_BB_2bc84654_1:
	movl	$101, %eax
	retq
.Lcovretin_BB_2bc84654_9:
	movq	%rax, (%rdi)
	movl	$103, %eax
	retq
.Lcovretin_BB_2bc84654_5:
	cmpb	$0, 187(%rax)
	je	.Lcovretin_BB_2bc84654_6
	movq	%rax, (%rdi)
	movl	$20, %eax
	retq
.Lcovretin_BB_2bc84654_6:
	movzwl	64(%rax), %edx
	movzwl	98(%rax), %ecx
	cmpw	%cx, %dx
	jbe	.Lcovretin_BB_2bc84654_11
	movzbl	97(%rax), %esi
	movq	72(%rax), %r8
	movq	%r8, 136(%rax)
	movw	%dx, 144(%rax)
	movw	$1, 146(%rax)
	movw	%cx, 148(%rax)
	xorps	%xmm0, %xmm0
	movups	%xmm0, 152(%rax)
	movq	$0, 168(%rax)
	movzwl	182(%rax), %ecx
	movw	%cx, 176(%rax)
	movw	$508, 178(%rax)
	movb	$0, 180(%rax)
	movb	%sil, 181(%rax)
	movw	$0, 184(%rax)
	movb	$1, 186(%rax)
	movq	%rax, (%rdi)
	xorl	%eax, %eax
	retq
.Lcovretin_BB_2bc84654_11:
	movq	%rax, (%rdi)
	movl	$11, %eax
	retq
.Lcovretin_func_end_2bc84654:
	.size	covretin_queue_resubmit_packed, .Lcovretin_func_end_2bc84654-covretin_queue_resubmit_packed
	.cfi_endproc

	.section	.text.covretin_queue_set_regions,"ax",@progbits
	.globl	covretin_queue_set_regions
	.p2align	4
	.type	covretin_queue_set_regions,@function
covretin_queue_set_regions:
	.cfi_startproc
	endbr64
	pushq	%rbp
	.cfi_def_cfa_offset 16
	pushq	%r15
	.cfi_def_cfa_offset 24
	pushq	%r14
	.cfi_def_cfa_offset 32
	pushq	%r13
	.cfi_def_cfa_offset 40
	pushq	%r12
	.cfi_def_cfa_offset 48
	pushq	%rbx
	.cfi_def_cfa_offset 56
	subq	$136, %rsp
	.cfi_def_cfa_offset 192
	.cfi_offset %rbx, -56
	.cfi_offset %r12, -48
	.cfi_offset %r13, -40
	.cfi_offset %r14, -32
	.cfi_offset %r15, -24
	.cfi_offset %rbp, -16
	xorl	%ecx, %ecx
	testq	%rsi, %rsi
	sete	%r8b
	movq	(%rdi), %rax
	movq	$0, (%rdi)
	testq	%rax, %rax
	je	.Lcovretin_BB_a427e122_1
	movq	%rax, 112(%rsp)
	movq	%rdi, 104(%rsp)
	leaq	32(%rsp), %rax
	movq	%rax, 48(%rsp)
	xorps	%xmm0, %xmm0
	movups	%xmm0, 56(%rsp)
	movq	%rax, 72(%rsp)
	movups	%xmm0, 80(%rsp)
	movq	$0, 96(%rsp)
	testq	%rdx, %rdx
	je	.Lcovretin_BB_a427e122_117
	movb	%r8b, %cl
	shll	$12, %ecx
	addq	%rcx, %rsi
	xorl	%r12d, %r12d
	xorl	%r8d, %r8d
.Lcovretin_BB_a427e122_4:
	movq	%r8, %rcx
	shlq	$5, %rcx
	movq	8(%rsi,%rcx), %r13
	testq	%r13, %r13
	je	.Lcovretin_BB_a427e122_5
	movq	(%rsi,%rcx), %rbp
	movq	%r13, %rdi
	notq	%rdi
	xorl	%r14d, %r14d
	cmpq	%rdi, %rbp
	ja	.Lcovretin_BB_a427e122_111
	movq	%r8, 128(%rsp)
	movq	16(%rsi,%rcx), %rbx
	cmpq	%rdi, %rbx
	ja	.Lcovretin_BB_a427e122_111
	movq	24(%rsi,%rcx), %rcx
	movq	%rcx, 120(%rsp)
	cmpq	%rdi, %rcx
	ja	.Lcovretin_BB_a427e122_111
	cmpq	$508, %r12
	ja	.Lcovretin_BB_a427e122_10
	testq	%r12, %r12
	je	.Lcovretin_BB_a427e122_18
	leaq	16(%rax), %rcx
	movq	%r12, %rdi
	jmp	.Lcovretin_BB_a427e122_14
	.p2align	4
.Lcovretin_BB_a427e122_13:
	addq	$32, %rcx
	decq	%rdi
	je	.Lcovretin_BB_a427e122_18
.Lcovretin_BB_a427e122_14:
	movq	-16(%rcx), %r10
	movq	-8(%rcx), %r8
	movq	%rbp, %r9
	subq	%r8, %r9
	setae	%r11b
	cmpq	%r9, %r10
	setbe	%r15b
	subq	%r13, %r10
	setae	%r9b
	cmpq	%r10, %rbp
	setbe	%r10b
	movb	$1, %r14b
	testb	%r15b, %r11b
	jne	.Lcovretin_BB_a427e122_16
	andb	%r10b, %r9b
	je	.Lcovretin_BB_a427e122_111
.Lcovretin_BB_a427e122_16:
	movq	(%rcx), %r9
	movq	%rbx, %r10
	subq	%r8, %r10
	setae	%r11b
	cmpq	%r10, %r9
	setbe	%r10b
	subq	%r13, %r9
	setae	%r8b
	cmpq	%r9, %rbx
	setbe	%r9b
	testb	%r10b, %r11b
	jne	.Lcovretin_BB_a427e122_13
	andb	%r9b, %r8b
	jne	.Lcovretin_BB_a427e122_13
	jmp	.Lcovretin_BB_a427e122_111
	.p2align	4
.Lcovretin_BB_a427e122_18:
	movq	80(%rsp), %r11
	testq	%r11, %r11
	je	.Lcovretin_BB_a427e122_29
	movq	72(%rsp), %r14
	xorl	%r15d, %r15d
	movq	%r11, %rcx
	jmp	.Lcovretin_BB_a427e122_20
	.p2align	4
.Lcovretin_BB_a427e122_23:
	movq	%rdi, %rcx
	cmpq	%rdi, %r15
	jae	.Lcovretin_BB_a427e122_25
.Lcovretin_BB_a427e122_20:
	movq	%rcx, %rdi
	subq	%r15, %rdi
	shrq	%rdi
	addq	%r15, %rdi
	movzwl	(%r14,%rdi,2), %r8d
	cmpq	%r8, %r12
	jbe	.Lcovretin_BB_a427e122_23
	shll	$5, %r8d
	cmpq	%rbp, (%rax,%r8)
	ja	.Lcovretin_BB_a427e122_23
	movq	%rdi, %r15
	incq	%r15
	movq	%rcx, %rdi
	cmpq	%rdi, %r15
	jb	.Lcovretin_BB_a427e122_20
.Lcovretin_BB_a427e122_25:
	movq	88(%rsp), %r10
	cmpq	%r10, %r11
	jae	.Lcovretin_BB_a427e122_31
	cmpq	$-1, %r15
	je	.Lcovretin_BB_a427e122_27
	movq	%r11, %rax
	subq	%r15, %rax
	jne	.Lcovretin_BB_a427e122_76
	movw	%r12w, (%r14,%r11,2)
	jmp	.Lcovretin_BB_a427e122_108
.Lcovretin_BB_a427e122_29:
	movq	88(%rsp), %r10
	testq	%r10, %r10
	je	.Lcovretin_BB_a427e122_30
	movq	72(%rsp), %r14
	xorl	%r15d, %r15d
	movw	%r12w, (%r14,%r15,2)
	jmp	.Lcovretin_BB_a427e122_108
.Lcovretin_BB_a427e122_30:
	xorl	%r10d, %r10d
	xorl	%r15d, %r15d
.Lcovretin_BB_a427e122_31:
	cmpq	%r11, %r10
	je	.Lcovretin_BB_a427e122_32
	movq	72(%rsp), %r14
	cmpq	$-1, %r15
	je	.Lcovretin_BB_a427e122_35
.Lcovretin_BB_a427e122_105:
	movq	%r11, %rax
	subq	%r15, %rax
	je	.Lcovretin_BB_a427e122_107
	leaq	(%r14,%r15,2), %rcx
	leaq	(%r14,%r15,2), %rdi
	addq	$2, %rdi
	addq	%rax, %rax
	movq	%rsi, 24(%rsp)
	movq	%rcx, %rsi
	movq	%rdx, 40(%rsp)
	movq	%rax, %rdx
	movq	%r11, 16(%rsp)
	movq	%r10, 8(%rsp)
	callq	memmove@PLT
	movq	8(%rsp), %r10
	movq	16(%rsp), %r11
	movq	24(%rsp), %rsi
	movq	40(%rsp), %rdx
	jmp	.Lcovretin_BB_a427e122_107
.Lcovretin_BB_a427e122_27:
	leaq	1(%r11), %rcx
	cmpq	$1024, %r11
	jb	.Lcovretin_BB_a427e122_28
	movq	%r10, 8(%rsp)
	xorl	%edi, %edi
	movq	%r14, %r8
	xorl	%r10d, %r10d
	jmp	.Lcovretin_BB_a427e122_42
	.p2align	4
.Lcovretin_BB_a427e122_47:
	leaq	1024(%rax), %r10
	movq	%rcx, %r9
	subq	%r10, %r9
	incq	%rdi
	addq	$2048, %r8
	cmpq	$1024, %r9
	jbe	.Lcovretin_BB_a427e122_48
.Lcovretin_BB_a427e122_42:
	movq	%r10, %rax
	testq	%r10, %r10
	je	.Lcovretin_BB_a427e122_45
	movl	$991, %r9d
	.p2align	4
.Lcovretin_BB_a427e122_44:
	movups	(%r8,%r9,2), %xmm0
	movups	16(%r8,%r9,2), %xmm1
	movups	32(%r8,%r9,2), %xmm2
	movups	48(%r8,%r9,2), %xmm3
	movups	%xmm3, 50(%r8,%r9,2)
	movups	%xmm2, 34(%r8,%r9,2)
	movups	%xmm1, 18(%r8,%r9,2)
	movups	%xmm0, 2(%r8,%r9,2)
	addq	$-32, %r9
	cmpq	$-33, %r9
	jne	.Lcovretin_BB_a427e122_44
	jmp	.Lcovretin_BB_a427e122_47
	.p2align	4
.Lcovretin_BB_a427e122_45:
	movq	%rdi, %r9
	shlq	$11, %r9
	movzwl	-2(%r14,%r9), %r9d
	movl	$3, %r10d
	.p2align	4
.Lcovretin_BB_a427e122_46:
	movw	%r9w, -6(%r8,%r10,2)
	movw	%r9w, -4(%r8,%r10,2)
	movw	%r9w, -2(%r8,%r10,2)
	movw	%r9w, (%r8,%r10,2)
	addq	$4, %r10
	cmpq	$1027, %r10
	jne	.Lcovretin_BB_a427e122_46
	jmp	.Lcovretin_BB_a427e122_47
.Lcovretin_BB_a427e122_76:
	leaq	(%r14,%r15,2), %rcx
	leaq	(%r14,%r15,2), %rdi
	addq	$2, %rdi
	addq	%rax, %rax
	movq	%rsi, 24(%rsp)
	movq	%rcx, %rsi
	movq	%rdx, 40(%rsp)
	movq	%rax, %rdx
	movq	%r11, 16(%rsp)
	movq	%r10, 8(%rsp)
	callq	memmove@PLT
	movq	8(%rsp), %r10
	movq	16(%rsp), %r11
	movq	24(%rsp), %rsi
	movq	40(%rsp), %rdx
.Lcovretin_BB_a427e122_77:
	movw	%r12w, (%r14,%r15,2)
	jmp	.Lcovretin_BB_a427e122_108
.Lcovretin_BB_a427e122_28:
	movq	%r14, %rdi
	movq	%rcx, %r9
	jmp	.Lcovretin_BB_a427e122_50
.Lcovretin_BB_a427e122_48:
	testq	%r10, %r10
	je	.Lcovretin_BB_a427e122_49
	movq	$-1, %r15
	cmpq	%r10, %rcx
	jne	.Lcovretin_BB_a427e122_60
	movq	8(%rsp), %r10
	movw	%r12w, (%r14,%r15,2)
	jmp	.Lcovretin_BB_a427e122_108
.Lcovretin_BB_a427e122_32:
	movq	%rsi, 24(%rsp)
	movq	%rdx, %r14
	leaq	72(%rsp), %rdi
	callq	"std_alloc::vec::Vec::grow_amortized::<#443caa9c7f3d02a7>"
	testb	%al, %al
	je	.Lcovretin_BB_a427e122_110
	movq	80(%rsp), %r11
	movq	88(%rsp), %r10
	movq	%r14, %rdx
	movq	24(%rsp), %rsi
	movq	72(%rsp), %r14
	cmpq	$-1, %r15
	jne	.Lcovretin_BB_a427e122_105
.Lcovretin_BB_a427e122_35:
	leaq	1(%r11), %rcx
	movq	%r14, %rax
	movq	%rcx, %r9
	cmpq	$1025, %rcx
	jb	.Lcovretin_BB_a427e122_83
	movq	%r10, 8(%rsp)
	xorl	%edi, %edi
	movq	%r14, %r8
	xorl	%r10d, %r10d
	jmp	.Lcovretin_BB_a427e122_37
	.p2align	4
.Lcovretin_BB_a427e122_80:
	leaq	1024(%rax), %r10
	movq	%rcx, %r9
	subq	%r10, %r9
	incq	%rdi
	addq	$2048, %r8
	cmpq	$1024, %r9
	jbe	.Lcovretin_BB_a427e122_81
.Lcovretin_BB_a427e122_37:
	movq	%r10, %rax
	testq	%r10, %r10
	je	.Lcovretin_BB_a427e122_78
	movl	$991, %r9d
	.p2align	4
.Lcovretin_BB_a427e122_39:
	movups	(%r8,%r9,2), %xmm0
	movups	16(%r8,%r9,2), %xmm1
	movups	32(%r8,%r9,2), %xmm2
	movups	48(%r8,%r9,2), %xmm3
	movups	%xmm3, 50(%r8,%r9,2)
	movups	%xmm2, 34(%r8,%r9,2)
	movups	%xmm1, 18(%r8,%r9,2)
	movups	%xmm0, 2(%r8,%r9,2)
	addq	$-32, %r9
	cmpq	$-33, %r9
	jne	.Lcovretin_BB_a427e122_39
	jmp	.Lcovretin_BB_a427e122_80
	.p2align	4
.Lcovretin_BB_a427e122_78:
	movq	%rdi, %r9
	shlq	$11, %r9
	movzwl	-2(%r14,%r9), %r9d
	movl	$3, %r10d
	.p2align	4
.Lcovretin_BB_a427e122_79:
	movw	%r9w, -6(%r8,%r10,2)
	movw	%r9w, -4(%r8,%r10,2)
	movw	%r9w, -2(%r8,%r10,2)
	movw	%r9w, (%r8,%r10,2)
	addq	$4, %r10
	cmpq	$1027, %r10
	jne	.Lcovretin_BB_a427e122_79
	jmp	.Lcovretin_BB_a427e122_80
.Lcovretin_BB_a427e122_81:
	testq	%r10, %r10
	je	.Lcovretin_BB_a427e122_82
	cmpq	%r10, %rcx
	movq	8(%rsp), %r10
	je	.Lcovretin_BB_a427e122_107
	movl	%r11d, %ecx
	andl	$1023, %ecx
	cmpq	$3, %rcx
	jae	.Lcovretin_BB_a427e122_94
	xorl	%ecx, %ecx
	jmp	.Lcovretin_BB_a427e122_103
.Lcovretin_BB_a427e122_82:
	leaq	(%r14,%r10,2), %rax
	movq	8(%rsp), %r10
.Lcovretin_BB_a427e122_83:
	testq	%rcx, %rcx
	je	.Lcovretin_BB_a427e122_107
	movzwl	-2(%rax), %ecx
	leaq	-1(%r9), %r8
	movl	%r9d, %edi
	andl	$3, %edi
	cmpq	$3, %r8
	jae	.Lcovretin_BB_a427e122_86
	xorl	%r8d, %r8d
	jmp	.Lcovretin_BB_a427e122_89
.Lcovretin_BB_a427e122_86:
	andl	$2044, %r9d
	xorl	%r8d, %r8d
	.p2align	4
.Lcovretin_BB_a427e122_87:
	movw	%cx, (%rax,%r8,2)
	movw	%cx, 2(%rax,%r8,2)
	movw	%cx, 4(%rax,%r8,2)
	movw	%cx, 6(%rax,%r8,2)
	addq	$4, %r8
	cmpq	%r8, %r9
	jne	.Lcovretin_BB_a427e122_87
	testq	%rdi, %rdi
	je	.Lcovretin_BB_a427e122_107
.Lcovretin_BB_a427e122_89:
	leaq	(%rax,%r8,2), %rax
	xorl	%r8d, %r8d
	.p2align	4
.Lcovretin_BB_a427e122_90:
	movw	%cx, (%rax,%r8,2)
	incq	%r8
	cmpq	%r8, %rdi
	jne	.Lcovretin_BB_a427e122_90
	jmp	.Lcovretin_BB_a427e122_107
.Lcovretin_BB_a427e122_49:
	leaq	(%r14,%r10,2), %rdi
	movq	8(%rsp), %r10
.Lcovretin_BB_a427e122_50:
	movzwl	-2(%rdi), %eax
	leaq	-1(%r9), %r8
	movl	%r9d, %ecx
	andl	$3, %ecx
	cmpq	$3, %r8
	jae	.Lcovretin_BB_a427e122_52
	xorl	%r8d, %r8d
	jmp	.Lcovretin_BB_a427e122_55
.Lcovretin_BB_a427e122_52:
	andq	$-4, %r9
	xorl	%r8d, %r8d
	.p2align	4
.Lcovretin_BB_a427e122_53:
	movw	%ax, (%rdi,%r8,2)
	movw	%ax, 2(%rdi,%r8,2)
	movw	%ax, 4(%rdi,%r8,2)
	movw	%ax, 6(%rdi,%r8,2)
	addq	$4, %r8
	cmpq	%r8, %r9
	jne	.Lcovretin_BB_a427e122_53
	testq	%rcx, %rcx
	je	.Lcovretin_BB_a427e122_57
.Lcovretin_BB_a427e122_55:
	leaq	(%rdi,%r8,2), %rdi
	xorl	%r8d, %r8d
	.p2align	4
.Lcovretin_BB_a427e122_56:
	movw	%ax, (%rdi,%r8,2)
	incq	%r8
	cmpq	%r8, %rcx
	jne	.Lcovretin_BB_a427e122_56
.Lcovretin_BB_a427e122_57:
	movq	$-1, %r15
	movw	%r12w, (%r14,%r15,2)
	jmp	.Lcovretin_BB_a427e122_108
.Lcovretin_BB_a427e122_60:
	leaq	-1023(%r11), %rcx
	cmpq	$1024, %rcx
	movl	$1024, %edi
	cmovbq	%rcx, %rdi
	movq	%r11, %r8
	subq	%rdi, %r8
	andq	$-1024, %r8
	movq	%rcx, %rdi
	subq	%r8, %rdi
	cmpq	$4, %rdi
	jae	.Lcovretin_BB_a427e122_62
	xorl	%r9d, %r9d
	movq	8(%rsp), %r10
	jmp	.Lcovretin_BB_a427e122_72
.Lcovretin_BB_a427e122_94:
	leaq	1(%rcx), %rdi
	cmpl	$15, %ecx
	jae	.Lcovretin_BB_a427e122_96
	xorl	%ecx, %ecx
	jmp	.Lcovretin_BB_a427e122_100
.Lcovretin_BB_a427e122_62:
	cmpq	$16, %rdi
	jae	.Lcovretin_BB_a427e122_64
	xorl	%r9d, %r9d
	jmp	.Lcovretin_BB_a427e122_69
.Lcovretin_BB_a427e122_96:
	movl	%edi, %ecx
	andl	$-16, %ecx
	movq	%rcx, %r8
	negq	%r8
	leaq	(%r14,%r11,2), %r9
	addq	$-14, %r9
	xorl	%r10d, %r10d
.Lcovretin_BB_a427e122_97:
	movups	-18(%r9,%r10,2), %xmm0
	movups	-2(%r9,%r10,2), %xmm1
	movups	%xmm1, (%r9,%r10,2)
	movups	%xmm0, -16(%r9,%r10,2)
	addq	$-16, %r10
	cmpq	%r10, %r8
	jne	.Lcovretin_BB_a427e122_97
	cmpl	%ecx, %edi
	movq	8(%rsp), %r10
	je	.Lcovretin_BB_a427e122_107
	testb	$12, %dil
	je	.Lcovretin_BB_a427e122_103
.Lcovretin_BB_a427e122_100:
	movq	%rcx, %r8
	movl	%edi, %ecx
	andl	$-4, %ecx
	movq	%rcx, %r9
	negq	%r9
	negq	%r8
	movq	%r11, 16(%rsp)
	leaq	(%r14,%r11,2), %r10
	addq	$-6, %r10
.Lcovretin_BB_a427e122_101:
	movq	-2(%r10,%r8,2), %r11
	movq	%r11, (%r10,%r8,2)
	addq	$-4, %r8
	cmpq	%r8, %r9
	jne	.Lcovretin_BB_a427e122_101
	cmpl	%ecx, %edi
	movq	16(%rsp), %r11
	movq	8(%rsp), %r10
	je	.Lcovretin_BB_a427e122_107
.Lcovretin_BB_a427e122_103:
	movq	%r11, %rdi
	subq	%rcx, %rdi
	addq	$1023, %rax
	.p2align	4
.Lcovretin_BB_a427e122_104:
	movzwl	-2(%r14,%rdi,2), %ecx
	movw	%cx, (%r14,%rdi,2)
	decq	%rdi
	cmpq	%rdi, %rax
	jne	.Lcovretin_BB_a427e122_104
.Lcovretin_BB_a427e122_107:
	movw	%r12w, (%r14,%r15,2)
	movq	56(%rsp), %r12
.Lcovretin_BB_a427e122_108:
	movq	%r14, 72(%rsp)
	incq	%r11
	movq	%r11, 80(%rsp)
	movq	%r10, 88(%rsp)
	cmpq	%r12, 64(%rsp)
	je	.Lcovretin_BB_a427e122_109
.Lcovretin_BB_a427e122_116:
	movq	48(%rsp), %rax
	movq	%r12, %rcx
	shlq	$5, %rcx
	movq	%rbp, (%rax,%rcx)
	movq	%r13, 8(%rax,%rcx)
	movq	%rbx, 16(%rax,%rcx)
	movq	120(%rsp), %rdi
	movq	%rdi, 24(%rax,%rcx)
	incq	%r12
	movq	%r12, 56(%rsp)
	movq	128(%rsp), %r8
	incq	%r8
	cmpq	%rdx, %r8
	jne	.Lcovretin_BB_a427e122_4
	jmp	.Lcovretin_BB_a427e122_117
.Lcovretin_BB_a427e122_109:
	movq	%rsi, %r14
	movq	%rdx, %r15
	leaq	48(%rsp), %rdi
	callq	"std_alloc::vec::Vec::grow_amortized::<#a2eddaad9eb283e4>"
	testb	%al, %al
	je	.Lcovretin_BB_a427e122_110
	movq	56(%rsp), %r12
	movq	%r15, %rdx
	movq	%r14, %rsi
	jmp	.Lcovretin_BB_a427e122_116
.Lcovretin_BB_a427e122_64:
	movl	%ecx, %r9d
	andl	$15, %r9d
	movq	%rdi, %r10
	subq	%r9, %r10
	movq	%r10, 40(%rsp)
	movq	%r11, %r10
	movq	%r9, 24(%rsp)
	leaq	(%r8,%r9), %r11
	addq	$1023, %r11
	movq	%r10, 16(%rsp)
.Lcovretin_BB_a427e122_65:
	movups	-32(%r14,%r10,2), %xmm0
	movups	-16(%r14,%r10,2), %xmm1
	movups	%xmm1, -14(%r14,%r10,2)
	movups	%xmm0, -30(%r14,%r10,2)
	addq	$-16, %r10
	cmpq	%r10, %r11
	jne	.Lcovretin_BB_a427e122_65
	movq	24(%rsp), %r9
	testq	%r9, %r9
	je	.Lcovretin_BB_a427e122_67
	cmpl	$4, %r9d
	movq	16(%rsp), %r11
	movq	8(%rsp), %r10
	movq	40(%rsp), %r9
	jb	.Lcovretin_BB_a427e122_72
.Lcovretin_BB_a427e122_69:
	andl	$3, %ecx
	subq	%rcx, %rdi
	addq	%rcx, %r8
	addq	$1023, %r8
	movq	%r11, %r10
	subq	%r9, %r10
.Lcovretin_BB_a427e122_70:
	movq	-8(%r14,%r10,2), %r9
	movq	%r9, -6(%r14,%r10,2)
	addq	$-4, %r10
	cmpq	%r10, %r8
	jne	.Lcovretin_BB_a427e122_70
	movq	%rdi, %r9
	testq	%rcx, %rcx
	movq	8(%rsp), %r10
	je	.Lcovretin_BB_a427e122_77
.Lcovretin_BB_a427e122_72:
	movq	%r11, %rcx
	subq	%r9, %rcx
	addq	$1023, %rax
.Lcovretin_BB_a427e122_73:
	movzwl	-2(%r14,%rcx,2), %edi
	movw	%di, (%r14,%rcx,2)
	decq	%rcx
	cmpq	%rcx, %rax
	jne	.Lcovretin_BB_a427e122_73
	jmp	.Lcovretin_BB_a427e122_77
.Lcovretin_BB_a427e122_67:
	movq	16(%rsp), %r11
	movq	8(%rsp), %r10
	movw	%r12w, (%r14,%r15,2)
	jmp	.Lcovretin_BB_a427e122_108
.Lcovretin_BB_a427e122_1:
	movl	$101, %eax
	jmp	.Lcovretin_BB_a427e122_127
.Lcovretin_BB_a427e122_117:
	movq	112(%rsp), %r15
	movq	(%r15), %rdi
	movq	24(%r15), %r14
	movq	40(%r15), %rbx
	movq	96(%rsp), %rax
	movq	%rax, 48(%r15)
	movq	48(%rsp), %rax
	movq	56(%rsp), %rcx
	movq	64(%rsp), %rdx
	movq	72(%rsp), %rsi
	movups	80(%rsp), %xmm0
	movq	%rax, (%r15)
	movq	%rcx, 8(%r15)
	cmpq	$0, 16(%r15)
	movq	%rdx, 16(%r15)
	movq	%rsi, 24(%r15)
	movups	%xmm0, 32(%r15)
	je	.Lcovretin_BB_a427e122_119
	callq	rattle_dealloc@PLT
.Lcovretin_BB_a427e122_119:
	testq	%rbx, %rbx
	je	.Lcovretin_BB_a427e122_121
	movq	%r14, %rdi
	callq	rattle_dealloc@PLT
.Lcovretin_BB_a427e122_121:
	movq	104(%rsp), %rax
	movq	%r15, (%rax)
	xorl	%eax, %eax
	jmp	.Lcovretin_BB_a427e122_127
.Lcovretin_BB_a427e122_5:
	xorl	%r14d, %r14d
	cmpq	$0, 64(%rsp)
	jne	.Lcovretin_BB_a427e122_112
	jmp	.Lcovretin_BB_a427e122_113
.Lcovretin_BB_a427e122_10:
	movb	$2, %r14b
.Lcovretin_BB_a427e122_111:
	cmpq	$0, 64(%rsp)
	je	.Lcovretin_BB_a427e122_113
.Lcovretin_BB_a427e122_112:
	movq	48(%rsp), %rdi
	callq	rattle_dealloc@PLT
.Lcovretin_BB_a427e122_113:
	cmpq	$0, 88(%rsp)
	movq	112(%rsp), %rbx
	je	.Lcovretin_BB_a427e122_122
	movq	72(%rsp), %rdi
	callq	rattle_dealloc@PLT
	movq	104(%rsp), %rax
	movq	%rbx, (%rax)
	movl	$1, %eax
	movzbl	%r14b, %ecx
	leaq	.Lcovretin_JTI_a427e122_0(%rip), %rdx
	movslq	(%rdx,%rcx,4), %rcx
	addq	%rdx, %rcx
	notrack		jmpq	*%rcx
.Lcovretin_BB_a427e122_122:
	movq	104(%rsp), %rax
	movq	%rbx, (%rax)
	movl	$1, %eax
	movzbl	%r14b, %ecx
	leaq	.Lcovretin_JTI_a427e122_0(%rip), %rdx
	movslq	(%rdx,%rcx,4), %rcx
	addq	%rdx, %rcx
	notrack		jmpq	*%rcx
.Lcovretin_BB_a427e122_126:
	movl	$2, %eax
	jmp	.Lcovretin_BB_a427e122_127
.Lcovretin_BB_a427e122_123:
	movl	$3, %eax
	jmp	.Lcovretin_BB_a427e122_127
.Lcovretin_BB_a427e122_124:
	movl	$24, %eax
.Lcovretin_BB_a427e122_127:
	addq	$136, %rsp
	.cfi_def_cfa_offset 56
	popq	%rbx
	.cfi_def_cfa_offset 48
	popq	%r12
	.cfi_def_cfa_offset 40
	popq	%r13
	.cfi_def_cfa_offset 32
	popq	%r14
	.cfi_def_cfa_offset 24
	popq	%r15
	.cfi_def_cfa_offset 16
	popq	%rbp
	.cfi_def_cfa_offset 8
	retq
.Lcovretin_BB_a427e122_110:
	.cfi_def_cfa_offset 192
	movb	$22, %r14b
	cmpq	$0, 64(%rsp)
	jne	.Lcovretin_BB_a427e122_112
	jmp	.Lcovretin_BB_a427e122_113
.Lcovretin_BB_a427e122_125:
	ud2
.Lcovretin_func_end_a427e122:
	.size	covretin_queue_set_regions, .Lcovretin_func_end_a427e122-covretin_queue_set_regions
	.cfi_endproc
	.section	.rodata.covretin_queue_set_regions,"a",@progbits
	.p2align	2, 0x0
.Lcovretin_JTI_a427e122_0:
	.long	.Lcovretin_BB_a427e122_127-.Lcovretin_JTI_a427e122_0
	.long	.Lcovretin_BB_a427e122_126-.Lcovretin_JTI_a427e122_0
	.long	.Lcovretin_BB_a427e122_123-.Lcovretin_JTI_a427e122_0
	.long	.Lcovretin_BB_a427e122_125-.Lcovretin_JTI_a427e122_0
	.long	.Lcovretin_BB_a427e122_125-.Lcovretin_JTI_a427e122_0
	.long	.Lcovretin_BB_a427e122_125-.Lcovretin_JTI_a427e122_0
	.long	.Lcovretin_BB_a427e122_125-.Lcovretin_JTI_a427e122_0
	.long	.Lcovretin_BB_a427e122_125-.Lcovretin_JTI_a427e122_0
	.long	.Lcovretin_BB_a427e122_125-.Lcovretin_JTI_a427e122_0
	.long	.Lcovretin_BB_a427e122_125-.Lcovretin_JTI_a427e122_0
	.long	.Lcovretin_BB_a427e122_125-.Lcovretin_JTI_a427e122_0
	.long	.Lcovretin_BB_a427e122_125-.Lcovretin_JTI_a427e122_0
	.long	.Lcovretin_BB_a427e122_125-.Lcovretin_JTI_a427e122_0
	.long	.Lcovretin_BB_a427e122_125-.Lcovretin_JTI_a427e122_0
	.long	.Lcovretin_BB_a427e122_125-.Lcovretin_JTI_a427e122_0
	.long	.Lcovretin_BB_a427e122_125-.Lcovretin_JTI_a427e122_0
	.long	.Lcovretin_BB_a427e122_125-.Lcovretin_JTI_a427e122_0
	.long	.Lcovretin_BB_a427e122_125-.Lcovretin_JTI_a427e122_0
	.long	.Lcovretin_BB_a427e122_125-.Lcovretin_JTI_a427e122_0
	.long	.Lcovretin_BB_a427e122_125-.Lcovretin_JTI_a427e122_0
	.long	.Lcovretin_BB_a427e122_125-.Lcovretin_JTI_a427e122_0
	.long	.Lcovretin_BB_a427e122_125-.Lcovretin_JTI_a427e122_0
	.long	.Lcovretin_BB_a427e122_124-.Lcovretin_JTI_a427e122_0

	.section	.rodata.cst16,"aM",@progbits,16
	.p2align	4, 0x0
.Lcovretin_CPI_813e8c72_0:
	.short	32767
	.short	32767
	.zero	2
	.zero	2
	.zero	2
	.zero	2
	.zero	2
	.zero	2
	.section	.text.covretin_queue_start_packed,"ax",@progbits
	.globl	covretin_queue_start_packed
	.p2align	4
	.type	covretin_queue_start_packed,@function
covretin_queue_start_packed:
	.cfi_startproc
	endbr64
	pushq	%rbp
	.cfi_def_cfa_offset 16
	pushq	%r15
	.cfi_def_cfa_offset 24
	pushq	%r14
	.cfi_def_cfa_offset 32
	pushq	%r13
	.cfi_def_cfa_offset 40
	pushq	%r12
	.cfi_def_cfa_offset 48
	pushq	%rbx
	.cfi_def_cfa_offset 56
	subq	$88, %rsp
	.cfi_def_cfa_offset 144
	.cfi_offset %rbx, -56
	.cfi_offset %r12, -48
	.cfi_offset %r13, -40
	.cfi_offset %r14, -32
	.cfi_offset %r15, -24
	.cfi_offset %rbp, -16
	movq	(%rdi), %r15
	movq	$0, (%rdi)
	testq	%r15, %r15
	je	.Lcovretin_BB_813e8c72_1
	movzwl	24(%rsi), %ebp
	movl	%ebp, %eax
	decw	%ax
	js	.Lcovretin_BB_813e8c72_85
	movq	(%rsi), %r13
	movq	8(%rsi), %rbx
	movq	16(%rsi), %r14
	movzwl	%bp, %r12d
	movd	26(%rsi), %xmm0
	movzbl	30(%rsi), %eax
	movb	%al, 11(%rsp)
	movzbl	31(%rsi), %eax
	movb	%al, 10(%rsp)
	movl	%r12d, %esi
	shll	$4, %esi
	movq	8(%r15), %rax
	movq	48(%r15), %rdx
	cmpq	%rax, %rdx
	jae	.Lcovretin_BB_813e8c72_7
	movq	(%r15), %rcx
	movq	%rdx, %r8
	shlq	$5, %r8
	movq	%r13, %r9
	subq	16(%rcx,%r8), %r9
	jb	.Lcovretin_BB_813e8c72_7
	movq	8(%rcx,%r8), %r10
	subq	%rsi, %r10
	jb	.Lcovretin_BB_813e8c72_7
	cmpq	%r10, %r9
	jbe	.Lcovretin_BB_813e8c72_20
.Lcovretin_BB_813e8c72_7:
	movq	32(%r15), %rdx
	testq	%rdx, %rdx
	je	.Lcovretin_BB_813e8c72_30
	movq	24(%r15), %rcx
	xorl	%r8d, %r8d
	jmp	.Lcovretin_BB_813e8c72_9
	.p2align	4
.Lcovretin_BB_813e8c72_12:
	movq	%r9, %rdx
	cmpq	%r9, %r8
	jae	.Lcovretin_BB_813e8c72_14
.Lcovretin_BB_813e8c72_9:
	movq	%rdx, %r9
	subq	%r8, %r9
	shrq	%r9
	addq	%r8, %r9
	movzwl	(%rcx,%r9,2), %r10d
	cmpq	%r10, %rax
	jbe	.Lcovretin_BB_813e8c72_12
	movq	(%r15), %r11
	shll	$5, %r10d
	cmpq	%r13, (%r11,%r10)
	ja	.Lcovretin_BB_813e8c72_12
	movq	%r9, %r8
	incq	%r8
	movq	%rdx, %r9
	cmpq	%r9, %r8
	jb	.Lcovretin_BB_813e8c72_9
.Lcovretin_BB_813e8c72_14:
	testq	%r8, %r8
	je	.Lcovretin_BB_813e8c72_30
	movzwl	-2(%rcx,%r8,2), %edx
	cmpq	%rdx, %rax
	jbe	.Lcovretin_BB_813e8c72_30
	movq	(%r15), %rcx
	testw	%bp, %bp
	je	.Lcovretin_BB_813e8c72_32
	movl	%edx, %r8d
	shll	$5, %r8d
	movq	%r13, %r9
	subq	16(%rcx,%r8), %r9
	jb	.Lcovretin_BB_813e8c72_32
	movq	8(%rcx,%r8), %r10
	subq	%rsi, %r10
	jb	.Lcovretin_BB_813e8c72_33
	cmpq	%r10, %r9
	ja	.Lcovretin_BB_813e8c72_33
	jmp	.Lcovretin_BB_813e8c72_20
.Lcovretin_BB_813e8c72_1:
	movl	$101, %eax
	jmp	.Lcovretin_BB_813e8c72_89
.Lcovretin_BB_813e8c72_30:
	testq	%rax, %rax
	je	.Lcovretin_BB_813e8c72_79
	movq	(%r15), %rcx
.Lcovretin_BB_813e8c72_32:
	testw	%bp, %bp
	je	.Lcovretin_BB_813e8c72_79
.Lcovretin_BB_813e8c72_33:
	xorl	%r8d, %r8d
	xorl	%edx, %edx
	jmp	.Lcovretin_BB_813e8c72_34
	.p2align	4
.Lcovretin_BB_813e8c72_37:
	incq	%rdx
	addq	$32, %r8
	cmpq	%rdx, %rax
	je	.Lcovretin_BB_813e8c72_79
.Lcovretin_BB_813e8c72_34:
	movq	%r13, %r9
	subq	16(%rcx,%r8), %r9
	jb	.Lcovretin_BB_813e8c72_37
	movq	8(%rcx,%r8), %r10
	subq	%rsi, %r10
	jb	.Lcovretin_BB_813e8c72_37
	cmpq	%r10, %r9
	ja	.Lcovretin_BB_813e8c72_37
.Lcovretin_BB_813e8c72_20:
	movq	%rdx, 48(%r15)
	subq	16(%rcx,%r8), %r13
	addq	24(%rcx,%r8), %r13
	testb	$15, %r13b
	je	.Lcovretin_BB_813e8c72_21
.Lcovretin_BB_813e8c72_86:
	movq	%r15, (%rdi)
	movl	$6, %eax
	jmp	.Lcovretin_BB_813e8c72_89
.Lcovretin_BB_813e8c72_85:
	movq	%r15, (%rdi)
	movl	$5, %eax
	jmp	.Lcovretin_BB_813e8c72_89
.Lcovretin_BB_813e8c72_21:
	cmpq	%rax, %rdx
	jae	.Lcovretin_BB_813e8c72_25
	movq	%rdx, %rsi
	shlq	$5, %rsi
	movq	%rbx, %r8
	subq	16(%rcx,%rsi), %r8
	jb	.Lcovretin_BB_813e8c72_25
	movq	8(%rcx,%rsi), %r9
	cmpq	$4, %r9
	jb	.Lcovretin_BB_813e8c72_25
	addq	$-4, %r9
	cmpq	%r9, %r8
	jbe	.Lcovretin_BB_813e8c72_45
.Lcovretin_BB_813e8c72_25:
	movq	32(%r15), %rsi
	testq	%rsi, %rsi
	je	.Lcovretin_BB_813e8c72_55
	movq	24(%r15), %rdx
	xorl	%r8d, %r8d
	jmp	.Lcovretin_BB_813e8c72_27
	.p2align	4
.Lcovretin_BB_813e8c72_38:
	movq	%r9, %rsi
	cmpq	%r9, %r8
	jae	.Lcovretin_BB_813e8c72_40
.Lcovretin_BB_813e8c72_27:
	movq	%rsi, %r9
	subq	%r8, %r9
	shrq	%r9
	addq	%r8, %r9
	movzwl	(%rdx,%r9,2), %r10d
	cmpq	%r10, %rax
	jbe	.Lcovretin_BB_813e8c72_38
	shll	$5, %r10d
	cmpq	%rbx, (%rcx,%r10)
	ja	.Lcovretin_BB_813e8c72_38
	movq	%r9, %r8
	incq	%r8
	movq	%rsi, %r9
	cmpq	%r9, %r8
	jb	.Lcovretin_BB_813e8c72_27
.Lcovretin_BB_813e8c72_40:
	testq	%r8, %r8
	je	.Lcovretin_BB_813e8c72_55
	movzwl	-2(%rdx,%r8,2), %edx
	cmpq	%rdx, %rax
	jbe	.Lcovretin_BB_813e8c72_55
	movl	%edx, %esi
	shll	$5, %esi
	movq	%rbx, %r8
	subq	16(%rcx,%rsi), %r8
	jb	.Lcovretin_BB_813e8c72_56
	movq	8(%rcx,%rsi), %r9
	cmpq	$4, %r9
	jb	.Lcovretin_BB_813e8c72_56
	addq	$-4, %r9
	cmpq	%r9, %r8
	ja	.Lcovretin_BB_813e8c72_56
	jmp	.Lcovretin_BB_813e8c72_45
.Lcovretin_BB_813e8c72_55:
	testq	%rax, %rax
	je	.Lcovretin_BB_813e8c72_79
.Lcovretin_BB_813e8c72_56:
	xorl	%esi, %esi
	xorl	%edx, %edx
	jmp	.Lcovretin_BB_813e8c72_57
	.p2align	4
.Lcovretin_BB_813e8c72_60:
	incq	%rdx
	addq	$32, %rsi
	cmpq	%rdx, %rax
	je	.Lcovretin_BB_813e8c72_79
.Lcovretin_BB_813e8c72_57:
	movq	%rbx, %r8
	subq	16(%rcx,%rsi), %r8
	jb	.Lcovretin_BB_813e8c72_60
	movq	8(%rcx,%rsi), %r9
	cmpq	$4, %r9
	jb	.Lcovretin_BB_813e8c72_60
	addq	$-4, %r9
	cmpq	%r9, %r8
	ja	.Lcovretin_BB_813e8c72_60
.Lcovretin_BB_813e8c72_45:
	movq	%rdx, 48(%r15)
	subq	16(%rcx,%rsi), %rbx
	addq	24(%rcx,%rsi), %rbx
	testb	$3, %bl
	jne	.Lcovretin_BB_813e8c72_86
	cmpq	%rax, %rdx
	jae	.Lcovretin_BB_813e8c72_50
	movq	%rdx, %rsi
	shlq	$5, %rsi
	movq	%r14, %r8
	subq	16(%rcx,%rsi), %r8
	jb	.Lcovretin_BB_813e8c72_50
	movq	8(%rcx,%rsi), %r9
	cmpq	$4, %r9
	jb	.Lcovretin_BB_813e8c72_50
	addq	$-4, %r9
	cmpq	%r9, %r8
	jbe	.Lcovretin_BB_813e8c72_68
.Lcovretin_BB_813e8c72_50:
	movq	32(%r15), %rsi
	testq	%rsi, %rsi
	je	.Lcovretin_BB_813e8c72_73
	movq	24(%r15), %rdx
	xorl	%r8d, %r8d
	jmp	.Lcovretin_BB_813e8c72_52
.Lcovretin_BB_813e8c72_61:
	movq	%r9, %rsi
	cmpq	%r9, %r8
	jae	.Lcovretin_BB_813e8c72_63
.Lcovretin_BB_813e8c72_52:
	movq	%rsi, %r9
	subq	%r8, %r9
	shrq	%r9
	addq	%r8, %r9
	movzwl	(%rdx,%r9,2), %r10d
	cmpq	%r10, %rax
	jbe	.Lcovretin_BB_813e8c72_61
	shll	$5, %r10d
	cmpq	%r14, (%rcx,%r10)
	ja	.Lcovretin_BB_813e8c72_61
	movq	%r9, %r8
	incq	%r8
	movq	%rsi, %r9
	cmpq	%r9, %r8
	jb	.Lcovretin_BB_813e8c72_52
.Lcovretin_BB_813e8c72_63:
	testq	%r8, %r8
	je	.Lcovretin_BB_813e8c72_73
	movzwl	-2(%rdx,%r8,2), %edx
	cmpq	%rdx, %rax
	jbe	.Lcovretin_BB_813e8c72_73
	movl	%edx, %esi
	shll	$5, %esi
	movq	%r14, %r8
	subq	16(%rcx,%rsi), %r8
	jb	.Lcovretin_BB_813e8c72_74
	movq	8(%rcx,%rsi), %r9
	cmpq	$4, %r9
	jb	.Lcovretin_BB_813e8c72_74
	addq	$-4, %r9
	cmpq	%r9, %r8
	ja	.Lcovretin_BB_813e8c72_74
	jmp	.Lcovretin_BB_813e8c72_68
.Lcovretin_BB_813e8c72_73:
	testq	%rax, %rax
	je	.Lcovretin_BB_813e8c72_79
.Lcovretin_BB_813e8c72_74:
	xorl	%esi, %esi
	xorl	%edx, %edx
	jmp	.Lcovretin_BB_813e8c72_75
.Lcovretin_BB_813e8c72_78:
	incq	%rdx
	addq	$32, %rsi
	cmpq	%rdx, %rax
	je	.Lcovretin_BB_813e8c72_79
.Lcovretin_BB_813e8c72_75:
	movq	%r14, %r8
	subq	16(%rcx,%rsi), %r8
	jb	.Lcovretin_BB_813e8c72_78
	movq	8(%rcx,%rsi), %r9
	cmpq	$4, %r9
	jb	.Lcovretin_BB_813e8c72_78
	addq	$-4, %r9
	cmpq	%r9, %r8
	ja	.Lcovretin_BB_813e8c72_78
.Lcovretin_BB_813e8c72_68:
	movq	%rdx, 48(%r15)
	subq	16(%rcx,%rsi), %r14
	addq	24(%rcx,%rsi), %r14
	testb	$3, %r14b
	jne	.Lcovretin_BB_813e8c72_86
	movdqa	.Lcovretin_CPI_813e8c72_0(%rip), %xmm1
	movdqa	%xmm0, 64(%rsp)
	pand	%xmm0, %xmm1
	movd	%xmm1, %eax
	cmpw	%ax, %bp
	seta	%al
	movdqa	%xmm1, 32(%rsp)
	pextrw	$1, %xmm1, %ecx
	cmpw	%cx, %bp
	seta	%cl
	andb	%al, %cl
	cmpb	$1, %cl
	jne	.Lcovretin_BB_813e8c72_87
	movq	%rdi, 24(%rsp)
	cmpl	$1025, %r12d
	movl	$1024, %eax
	cmovael	%ebp, %eax
	testb	$1, 10(%rsp)
	cmovel	%ebp, %eax
	movl	%eax, 12(%rsp)
	leal	(%r12,%r12), %edi
	movl	$2, %esi
	movq	%rdi, 56(%rsp)
	callq	rattle_alloc@PLT
	movq	%rdx, 16(%rsp)
	testb	$1, %al
	je	.Lcovretin_BB_813e8c72_88
	movdqa	64(%rsp), %xmm0
	psrlw	$15, %xmm0
	andb	$1, 11(%rsp)
	andb	$1, 10(%rsp)
	movdqa	32(%rsp), %xmm1
	punpcklwd	%xmm0, %xmm1
	movdqa	%xmm1, 32(%rsp)
	cmpw	$1, %bp
	jne	.Lcovretin_BB_813e8c72_80
	xorl	%edx, %edx
	jmp	.Lcovretin_BB_813e8c72_81
.Lcovretin_BB_813e8c72_79:
	movq	%r15, (%rdi)
	movl	$9, %eax
.Lcovretin_BB_813e8c72_89:
	addq	$88, %rsp
	.cfi_def_cfa_offset 56
	popq	%rbx
	.cfi_def_cfa_offset 48
	popq	%r12
	.cfi_def_cfa_offset 40
	popq	%r13
	.cfi_def_cfa_offset 32
	popq	%r14
	.cfi_def_cfa_offset 24
	popq	%r15
	.cfi_def_cfa_offset 16
	popq	%rbp
	.cfi_def_cfa_offset 8
	retq
.Lcovretin_BB_813e8c72_87:
	.cfi_def_cfa_offset 144
	movq	%r15, (%rdi)
	movl	$7, %eax
	jmp	.Lcovretin_BB_813e8c72_89
.Lcovretin_BB_813e8c72_88:
	movq	24(%rsp), %rax
	movq	%r15, (%rax)
	movl	$24, %eax
	jmp	.Lcovretin_BB_813e8c72_89
.Lcovretin_BB_813e8c72_80:
	movq	56(%rsp), %rdx
	addq	$-2, %rdx
	movq	16(%rsp), %rdi
	xorl	%esi, %esi
	callq	memset@PLT
	leaq	-1(%r12), %rdx
.Lcovretin_BB_813e8c72_81:
	movq	16(%rsp), %r8
	movw	$0, (%r8,%rdx,2)
	incq	%rdx
	movzbl	56(%r15), %ecx
	movq	112(%r15), %rdi
	movq	128(%r15), %rax
	movq	$2, 56(%r15)
	movw	%bp, 64(%r15)
	movl	$0, 66(%r15)
	movw	$0, 70(%r15)
	movq	%r13, 72(%r15)
	movq	%rbx, 80(%r15)
	movq	%r14, 88(%r15)
	movzbl	11(%rsp), %esi
	movb	%sil, 96(%r15)
	movzbl	10(%rsp), %esi
	movb	%sil, 97(%r15)
	movaps	32(%rsp), %xmm0
	movlps	%xmm0, 98(%r15)
	movw	$0, 106(%r15)
	movl	$0, 108(%r15)
	movq	%r8, 112(%r15)
	movq	%rdx, 120(%r15)
	movq	%r12, 128(%r15)
	xorps	%xmm0, %xmm0
	movups	%xmm0, 136(%r15)
	movups	%xmm0, 152(%r15)
	movups	%xmm0, 166(%r15)
	movl	12(%rsp), %edx
	movw	%dx, 182(%r15)
	movq	$0, 184(%r15)
	testl	%ecx, %ecx
	je	.Lcovretin_BB_813e8c72_84
	cmpl	$2, %ecx
	testq	%rax, %rax
	je	.Lcovretin_BB_813e8c72_84
	callq	rattle_dealloc@PLT
.Lcovretin_BB_813e8c72_84:
	movq	24(%rsp), %rax
	movq	%r15, (%rax)
	xorl	%eax, %eax
	jmp	.Lcovretin_BB_813e8c72_89
.Lcovretin_func_end_813e8c72:
	.size	covretin_queue_start_packed, .Lcovretin_func_end_813e8c72-covretin_queue_start_packed
	.cfi_endproc

	.section	.text.covretin_queue_start_split,"ax",@progbits
	.globl	covretin_queue_start_split
	.p2align	4
	.type	covretin_queue_start_split,@function
covretin_queue_start_split:
	.cfi_startproc
	endbr64
	pushq	%rbp
	.cfi_def_cfa_offset 16
	pushq	%r15
	.cfi_def_cfa_offset 24
	pushq	%r14
	.cfi_def_cfa_offset 32
	pushq	%r13
	.cfi_def_cfa_offset 40
	pushq	%r12
	.cfi_def_cfa_offset 48
	pushq	%rbx
	.cfi_def_cfa_offset 56
	subq	$56, %rsp
	.cfi_def_cfa_offset 112
	.cfi_offset %rbx, -56
	.cfi_offset %r12, -48
	.cfi_offset %r13, -40
	.cfi_offset %r14, -32
	.cfi_offset %r15, -24
	.cfi_offset %rbp, -16
	movq	(%rdi), %r12
	movq	$0, (%rdi)
	testq	%r12, %r12
	je	.Lcovretin_BB_526625b4_1
	movzwl	24(%rsi), %ebx
	leal	-1(%rbx), %eax
	testw	%ax, %ax
	js	.Lcovretin_BB_526625b4_88
	andl	%ebx, %eax
	testw	%ax, %ax
	jne	.Lcovretin_BB_526625b4_88
	movq	(%rsi), %r13
	movq	8(%rsi), %rbp
	movq	16(%rsi), %r14
	movss	26(%rsi), %xmm0
	movzwl	26(%rsi), %eax
	movw	%ax, 8(%rsp)
	movzbl	30(%rsi), %eax
	movb	%al, 7(%rsp)
	movzbl	31(%rsi), %r15d
	movl	%ebx, %esi
	shll	$4, %esi
	movq	8(%r12), %rax
	movq	48(%r12), %rdx
	cmpq	%rax, %rdx
	jae	.Lcovretin_BB_526625b4_8
	movq	(%r12), %rcx
	movq	%rdx, %r8
	shlq	$5, %r8
	movq	%r13, %r9
	subq	16(%rcx,%r8), %r9
	jb	.Lcovretin_BB_526625b4_8
	movq	8(%rcx,%r8), %r10
	subq	%rsi, %r10
	jb	.Lcovretin_BB_526625b4_8
	cmpq	%r10, %r9
	jbe	.Lcovretin_BB_526625b4_21
.Lcovretin_BB_526625b4_8:
	movq	32(%r12), %rdx
	testq	%rdx, %rdx
	je	.Lcovretin_BB_526625b4_31
	movq	24(%r12), %rcx
	xorl	%r8d, %r8d
	jmp	.Lcovretin_BB_526625b4_10
	.p2align	4
.Lcovretin_BB_526625b4_13:
	movq	%r9, %rdx
	cmpq	%r9, %r8
	jae	.Lcovretin_BB_526625b4_15
.Lcovretin_BB_526625b4_10:
	movq	%rdx, %r9
	subq	%r8, %r9
	shrq	%r9
	addq	%r8, %r9
	movzwl	(%rcx,%r9,2), %r10d
	cmpq	%r10, %rax
	jbe	.Lcovretin_BB_526625b4_13
	movq	(%r12), %r11
	shll	$5, %r10d
	cmpq	%r13, (%r11,%r10)
	ja	.Lcovretin_BB_526625b4_13
	movq	%r9, %r8
	incq	%r8
	movq	%rdx, %r9
	cmpq	%r9, %r8
	jb	.Lcovretin_BB_526625b4_10
.Lcovretin_BB_526625b4_15:
	testq	%r8, %r8
	je	.Lcovretin_BB_526625b4_31
	movzwl	-2(%rcx,%r8,2), %edx
	cmpq	%rdx, %rax
	jbe	.Lcovretin_BB_526625b4_31
	movq	(%r12), %rcx
	testw	%bx, %bx
	je	.Lcovretin_BB_526625b4_33
	movl	%edx, %r8d
	shll	$5, %r8d
	movq	%r13, %r9
	subq	16(%rcx,%r8), %r9
	jb	.Lcovretin_BB_526625b4_33
	movq	8(%rcx,%r8), %r10
	subq	%rsi, %r10
	jb	.Lcovretin_BB_526625b4_34
	cmpq	%r10, %r9
	ja	.Lcovretin_BB_526625b4_34
	jmp	.Lcovretin_BB_526625b4_21
.Lcovretin_BB_526625b4_1:
	movl	$101, %eax
	jmp	.Lcovretin_BB_526625b4_91
.Lcovretin_BB_526625b4_88:
	movq	%r12, (%rdi)
	movl	$5, %eax
	jmp	.Lcovretin_BB_526625b4_91
.Lcovretin_BB_526625b4_31:
	testq	%rax, %rax
	je	.Lcovretin_BB_526625b4_78
	movq	(%r12), %rcx
.Lcovretin_BB_526625b4_33:
	testw	%bx, %bx
	je	.Lcovretin_BB_526625b4_78
.Lcovretin_BB_526625b4_34:
	xorl	%r8d, %r8d
	xorl	%edx, %edx
	jmp	.Lcovretin_BB_526625b4_35
	.p2align	4
.Lcovretin_BB_526625b4_38:
	incq	%rdx
	addq	$32, %r8
	cmpq	%rdx, %rax
	je	.Lcovretin_BB_526625b4_78
.Lcovretin_BB_526625b4_35:
	movq	%r13, %r9
	subq	16(%rcx,%r8), %r9
	jb	.Lcovretin_BB_526625b4_38
	movq	8(%rcx,%r8), %r10
	subq	%rsi, %r10
	jb	.Lcovretin_BB_526625b4_38
	cmpq	%r10, %r9
	ja	.Lcovretin_BB_526625b4_38
.Lcovretin_BB_526625b4_21:
	movq	%rdx, 48(%r12)
	subq	16(%rcx,%r8), %r13
	addq	24(%rcx,%r8), %r13
	testb	$15, %r13b
	je	.Lcovretin_BB_526625b4_22
.Lcovretin_BB_526625b4_89:
	movq	%r12, (%rdi)
	movl	$6, %eax
	jmp	.Lcovretin_BB_526625b4_91
.Lcovretin_BB_526625b4_22:
	leaq	6(,%rbx,2), %rsi
	cmpq	%rax, %rdx
	jae	.Lcovretin_BB_526625b4_26
	movq	%rdx, %r8
	shlq	$5, %r8
	movq	%rbp, %r9
	subq	16(%rcx,%r8), %r9
	jb	.Lcovretin_BB_526625b4_26
	movq	8(%rcx,%r8), %r10
	subq	%rsi, %r10
	jb	.Lcovretin_BB_526625b4_26
	cmpq	%r10, %r9
	jbe	.Lcovretin_BB_526625b4_46
.Lcovretin_BB_526625b4_26:
	movq	32(%r12), %r8
	testq	%r8, %r8
	je	.Lcovretin_BB_526625b4_56
	movq	24(%r12), %rdx
	xorl	%r9d, %r9d
	jmp	.Lcovretin_BB_526625b4_28
	.p2align	4
.Lcovretin_BB_526625b4_39:
	movq	%r10, %r8
	cmpq	%r10, %r9
	jae	.Lcovretin_BB_526625b4_41
.Lcovretin_BB_526625b4_28:
	movq	%r8, %r10
	subq	%r9, %r10
	shrq	%r10
	addq	%r9, %r10
	movzwl	(%rdx,%r10,2), %r11d
	cmpq	%r11, %rax
	jbe	.Lcovretin_BB_526625b4_39
	shll	$5, %r11d
	cmpq	%rbp, (%rcx,%r11)
	ja	.Lcovretin_BB_526625b4_39
	movq	%r10, %r9
	incq	%r9
	movq	%r8, %r10
	cmpq	%r10, %r9
	jb	.Lcovretin_BB_526625b4_28
.Lcovretin_BB_526625b4_41:
	testq	%r9, %r9
	je	.Lcovretin_BB_526625b4_56
	movzwl	-2(%rdx,%r9,2), %edx
	cmpq	%rdx, %rax
	jbe	.Lcovretin_BB_526625b4_56
	movl	%edx, %r8d
	shll	$5, %r8d
	movq	%rbp, %r9
	subq	16(%rcx,%r8), %r9
	jb	.Lcovretin_BB_526625b4_57
	movq	8(%rcx,%r8), %r10
	subq	%rsi, %r10
	jb	.Lcovretin_BB_526625b4_57
	cmpq	%r10, %r9
	ja	.Lcovretin_BB_526625b4_57
	jmp	.Lcovretin_BB_526625b4_46
.Lcovretin_BB_526625b4_56:
	testq	%rax, %rax
	je	.Lcovretin_BB_526625b4_78
.Lcovretin_BB_526625b4_57:
	xorl	%r8d, %r8d
	xorl	%edx, %edx
	jmp	.Lcovretin_BB_526625b4_58
	.p2align	4
.Lcovretin_BB_526625b4_61:
	incq	%rdx
	addq	$32, %r8
	cmpq	%rdx, %rax
	je	.Lcovretin_BB_526625b4_78
.Lcovretin_BB_526625b4_58:
	movq	%rbp, %r9
	subq	16(%rcx,%r8), %r9
	jb	.Lcovretin_BB_526625b4_61
	movq	8(%rcx,%r8), %r10
	subq	%rsi, %r10
	jb	.Lcovretin_BB_526625b4_61
	cmpq	%r10, %r9
	ja	.Lcovretin_BB_526625b4_61
.Lcovretin_BB_526625b4_46:
	movq	%rdx, 48(%r12)
	subq	16(%rcx,%r8), %rbp
	addq	24(%rcx,%r8), %rbp
	testb	$1, %bpl
	jne	.Lcovretin_BB_526625b4_89
	leaq	6(,%rbx,8), %rsi
	cmpq	%rax, %rdx
	jae	.Lcovretin_BB_526625b4_51
	movq	%rdx, %r8
	shlq	$5, %r8
	movq	%r14, %r9
	subq	16(%rcx,%r8), %r9
	jb	.Lcovretin_BB_526625b4_51
	movq	8(%rcx,%r8), %r10
	subq	%rsi, %r10
	jb	.Lcovretin_BB_526625b4_51
	cmpq	%r10, %r9
	jbe	.Lcovretin_BB_526625b4_69
.Lcovretin_BB_526625b4_51:
	movq	32(%r12), %r8
	testq	%r8, %r8
	je	.Lcovretin_BB_526625b4_72
	movq	24(%r12), %rdx
	xorl	%r9d, %r9d
	jmp	.Lcovretin_BB_526625b4_53
.Lcovretin_BB_526625b4_62:
	movq	%r10, %r8
	cmpq	%r10, %r9
	jae	.Lcovretin_BB_526625b4_64
.Lcovretin_BB_526625b4_53:
	movq	%r8, %r10
	subq	%r9, %r10
	shrq	%r10
	addq	%r9, %r10
	movzwl	(%rdx,%r10,2), %r11d
	cmpq	%r11, %rax
	jbe	.Lcovretin_BB_526625b4_62
	shll	$5, %r11d
	cmpq	%r14, (%rcx,%r11)
	ja	.Lcovretin_BB_526625b4_62
	movq	%r10, %r9
	incq	%r9
	movq	%r8, %r10
	cmpq	%r10, %r9
	jb	.Lcovretin_BB_526625b4_53
.Lcovretin_BB_526625b4_64:
	testq	%r9, %r9
	je	.Lcovretin_BB_526625b4_72
	movzwl	-2(%rdx,%r9,2), %edx
	cmpq	%rdx, %rax
	jbe	.Lcovretin_BB_526625b4_72
	movl	%edx, %r8d
	shll	$5, %r8d
	movq	%r14, %r9
	subq	16(%rcx,%r8), %r9
	jb	.Lcovretin_BB_526625b4_73
	movq	8(%rcx,%r8), %r10
	subq	%rsi, %r10
	jb	.Lcovretin_BB_526625b4_73
	cmpq	%r10, %r9
	ja	.Lcovretin_BB_526625b4_73
	jmp	.Lcovretin_BB_526625b4_69
.Lcovretin_BB_526625b4_72:
	testq	%rax, %rax
	je	.Lcovretin_BB_526625b4_78
.Lcovretin_BB_526625b4_73:
	xorl	%r8d, %r8d
	xorl	%edx, %edx
	jmp	.Lcovretin_BB_526625b4_74
.Lcovretin_BB_526625b4_77:
	incq	%rdx
	addq	$32, %r8
	cmpq	%rdx, %rax
	je	.Lcovretin_BB_526625b4_78
.Lcovretin_BB_526625b4_74:
	movq	%r14, %r9
	subq	16(%rcx,%r8), %r9
	jb	.Lcovretin_BB_526625b4_77
	movq	8(%rcx,%r8), %r10
	subq	%rsi, %r10
	jb	.Lcovretin_BB_526625b4_77
	cmpq	%r10, %r9
	ja	.Lcovretin_BB_526625b4_77
.Lcovretin_BB_526625b4_69:
	movq	%rdx, 48(%r12)
	subq	16(%rcx,%r8), %r14
	addq	24(%rcx,%r8), %r14
	testb	$3, %r14b
	jne	.Lcovretin_BB_526625b4_89
	movq	%rdi, 24(%rsp)
	movl	%r15d, %edx
	andb	$1, %dl
	movzwl	%bx, %eax
	cmpl	$1025, %eax
	movl	$1024, %esi
	cmovael	%ebx, %esi
	testb	%dl, %dl
	cmovel	%ebx, %esi
	testw	%bx, %bx
	je	.Lcovretin_BB_526625b4_71
	movl	%esi, 12(%rsp)
	movb	%dl, 6(%rsp)
	movaps	%xmm0, 32(%rsp)
	movl	$1, %esi
	movq	%rbx, %rdi
	callq	rattle_alloc@PLT
	testb	$1, %al
	je	.Lcovretin_BB_526625b4_90
	movq	%rdx, %r15
	cmpw	$1, %bx
	jne	.Lcovretin_BB_526625b4_82
	movq	$0, 16(%rsp)
	jmp	.Lcovretin_BB_526625b4_83
.Lcovretin_BB_526625b4_78:
	movq	%r12, (%rdi)
	movl	$9, %eax
.Lcovretin_BB_526625b4_91:
	addq	$56, %rsp
	.cfi_def_cfa_offset 56
	popq	%rbx
	.cfi_def_cfa_offset 48
	popq	%r12
	.cfi_def_cfa_offset 40
	popq	%r13
	.cfi_def_cfa_offset 32
	popq	%r14
	.cfi_def_cfa_offset 24
	popq	%r15
	.cfi_def_cfa_offset 16
	popq	%rbp
	.cfi_def_cfa_offset 8
	retq
.Lcovretin_BB_526625b4_71:
	.cfi_def_cfa_offset 112
	leaq	11(%rsp), %r8
	xorl	%r9d, %r9d
	jmp	.Lcovretin_BB_526625b4_84
.Lcovretin_BB_526625b4_90:
	movq	24(%rsp), %rax
	movq	%r12, (%rax)
	movl	$24, %eax
	jmp	.Lcovretin_BB_526625b4_91
.Lcovretin_BB_526625b4_82:
	leaq	-1(%rbx), %rdx
	movq	%r15, %rdi
	xorl	%esi, %esi
	movq	%rdx, 16(%rsp)
	callq	memset@PLT
.Lcovretin_BB_526625b4_83:
	movq	%r15, %r8
	movq	16(%rsp), %r9
	movb	$0, (%r15,%r9)
	incq	%r9
	movaps	32(%rsp), %xmm0
	movzbl	6(%rsp), %edx
	movl	12(%rsp), %esi
.Lcovretin_BB_526625b4_84:
	movzbl	7(%rsp), %r15d
	andb	$1, %r15b
	movzbl	56(%r12), %ecx
	movq	112(%r12), %rdi
	movq	128(%r12), %rax
	movq	$1, 56(%r12)
	movw	%bx, 64(%r12)
	movl	$0, 66(%r12)
	movw	$0, 70(%r12)
	movq	%r13, 72(%r12)
	movq	%rbp, 80(%r12)
	movq	%r14, 88(%r12)
	movb	%r15b, 96(%r12)
	movb	%dl, 97(%r12)
	movzwl	8(%rsp), %edx
	movw	%dx, 98(%r12)
	movss	%xmm0, 100(%r12)
	movq	$0, 104(%r12)
	movq	%r8, 112(%r12)
	movq	%r9, 120(%r12)
	movq	%rbx, 128(%r12)
	xorps	%xmm0, %xmm0
	movups	%xmm0, 166(%r12)
	movups	%xmm0, 152(%r12)
	movups	%xmm0, 136(%r12)
	movw	%si, 182(%r12)
	movq	$0, 184(%r12)
	testl	%ecx, %ecx
	je	.Lcovretin_BB_526625b4_87
	cmpl	$2, %ecx
	testq	%rax, %rax
	je	.Lcovretin_BB_526625b4_87
	callq	rattle_dealloc@PLT
.Lcovretin_BB_526625b4_87:
	movq	24(%rsp), %rax
	movq	%r12, (%rax)
	xorl	%eax, %eax
	jmp	.Lcovretin_BB_526625b4_91
.Lcovretin_func_end_526625b4:
	.size	covretin_queue_start_split, .Lcovretin_func_end_526625b4-covretin_queue_start_split
	.cfi_endproc

	.section	.text.covretin_queue_stop,"ax",@progbits
	.globl	covretin_queue_stop
	.p2align	4
	.type	covretin_queue_stop,@function
covretin_queue_stop:
	.cfi_startproc
	endbr64
	pushq	%r14
	.cfi_def_cfa_offset 16
	pushq	%rbx
	.cfi_def_cfa_offset 24
	pushq	%rax
	.cfi_def_cfa_offset 32
	.cfi_offset %rbx, -24
	.cfi_offset %r14, -16
	movq	(%rdi), %rbx
	movq	$0, (%rdi)
	testq	%rbx, %rbx
	je	.Lcovretin_BB_24f7a798_1
	movzbl	56(%rbx), %edx
	movq	112(%rbx), %rax
	movq	128(%rbx), %rcx
	xorps	%xmm0, %xmm0
	movups	%xmm0, 72(%rbx)
	movups	%xmm0, 88(%rbx)
	movups	%xmm0, 136(%rbx)
	movups	%xmm0, 152(%rbx)
	movups	%xmm0, 168(%rbx)
	movups	%xmm0, 56(%rbx)
	movups	%xmm0, 104(%rbx)
	movups	%xmm0, 120(%rbx)
	movq	$0, 184(%rbx)
	testl	%edx, %edx
	je	.Lcovretin_BB_24f7a798_5
	cmpl	$2, %edx
	testq	%rcx, %rcx
	je	.Lcovretin_BB_24f7a798_5
	movq	%rdi, %r14
	movq	%rax, %rdi
	callq	rattle_dealloc@PLT
	movq	%r14, %rdi
.Lcovretin_BB_24f7a798_5:
	movq	%rbx, (%rdi)
	xorl	%eax, %eax
	addq	$8, %rsp
	.cfi_def_cfa_offset 24
	popq	%rbx
	.cfi_def_cfa_offset 16
	popq	%r14
	.cfi_def_cfa_offset 8
	retq
.Lcovretin_BB_24f7a798_1:
	.cfi_def_cfa_offset 32
	movl	$101, %eax
	addq	$8, %rsp
	.cfi_def_cfa_offset 24
	popq	%rbx
	.cfi_def_cfa_offset 16
	popq	%r14
	.cfi_def_cfa_offset 8
	retq
.Lcovretin_func_end_24f7a798:
	.size	covretin_queue_stop, .Lcovretin_func_end_24f7a798-covretin_queue_stop
	.cfi_endproc

	.section	.text.covretin_queue_add_used,"ax",@progbits
	.globl	covretin_queue_add_used
	.p2align	4
	.type	covretin_queue_add_used,@function
covretin_queue_add_used:
	.cfi_startproc
	endbr64
	movq	(%rdi), %r8
	movq	$0, (%rdi)
	testq	%r8, %r8
	je	.Lcovretin_BB_8403a79e_1
	pushq	%rbp
	.cfi_def_cfa_offset 16
	pushq	%r15
	.cfi_def_cfa_offset 24
	pushq	%r14
	.cfi_def_cfa_offset 32
	pushq	%r12
	.cfi_def_cfa_offset 40
	pushq	%rbx
	.cfi_def_cfa_offset 48
	.cfi_offset %rbx, -48
	.cfi_offset %r12, -40
	.cfi_offset %r14, -32
	.cfi_offset %r15, -24
	.cfi_offset %rbp, -16
	movzbl	56(%r8), %eax
	testl	%eax, %eax
	je	.Lcovretin_BB_8403a79e_15
	cmpl	$2, %eax
	jne	.Lcovretin_BB_8403a79e_5
	movzwl	64(%r8), %ebx
	movb	$21, %r11b
	movb	$1, %r9b
	cmpw	%si, %bx
	jbe	.Lcovretin_BB_8403a79e_6
	movzwl	%si, %r14d
	movq	112(%r8), %r15
	movzwl	(%r15,%r14,2), %ebp
	testw	%bp, %bp
	je	.Lcovretin_BB_8403a79e_6
	xorl	%eax, %eax
	testl	%edx, %edx
	setne	%al
	movzbl	104(%r8), %r9d
	leal	-32640(,%rax,2), %esi
	addl	%eax, %eax
	testb	%r9b, %r9b
	cmovel	%eax, %esi
	movzwl	102(%r8), %r11d
	movq	72(%r8), %r10
	movl	%r11d, %r12d
	shll	$4, %r12d
	leaq	(%r12,%r10), %rax
	addq	$8, %rax
	addq	%r12, %r10
	addq	$14, %r10
	subl	%r11d, %ebx
	movl	%ebx, %r12d
	negl	%ebx
	cmpw	%r12w, %bp
	setae	%r12b
	cmovbl	%r11d, %ebx
	xorb	%r9b, %r12b
	addl	%ebp, %ebx
	movw	%bx, 102(%r8)
	movb	%r12b, 104(%r8)
	movb	$0, 105(%r8)
	movw	$0, (%r15,%r14,2)
	movl	%edx, %edx
	shlq	$32, %r14
	orq	%rdx, %r14
	movl	$2, %ebx
	movl	$6, %edx
	xorl	%r9d, %r9d
	jmp	.Lcovretin_BB_8403a79e_12
.Lcovretin_BB_8403a79e_1:
	.cfi_def_cfa_offset 8
	.cfi_restore %rbx
	.cfi_restore %rbp
	.cfi_restore %r12
	.cfi_restore %r14
	.cfi_restore %r15
	movl	$101, %eax
	retq
.Lcovretin_BB_8403a79e_15:
	.cfi_def_cfa_offset 48
	.cfi_offset %rbx, -48
	.cfi_offset %rbp, -16
	.cfi_offset %r12, -40
	.cfi_offset %r14, -32
	.cfi_offset %r15, -24
	movq	%r8, (%rdi)
	movl	$103, %eax
	jmp	.Lcovretin_BB_8403a79e_17
.Lcovretin_BB_8403a79e_5:
	movzwl	64(%r8), %r10d
	movb	$21, %r11b
	movb	$1, %r9b
	cmpw	%si, %r10w
	jbe	.Lcovretin_BB_8403a79e_6
	movzwl	%si, %ebx
	movq	112(%r8), %rsi
	cmpb	$1, (%rsi,%rbx)
	jne	.Lcovretin_BB_8403a79e_6
	movzwl	102(%r8), %eax
	movq	88(%r8), %r11
	xorl	%r9d, %r9d
	movq	%rdx, %r14
	xorl	%edx, %edx
	divw	%r10w
	movzwl	%dx, %eax
	leaq	(%r11,%rax,8), %rax
	addq	$4, %rax
	movb	$0, (%rsi,%rbx)
	movzwl	102(%r8), %esi
	incl	%esi
	movw	%si, 102(%r8)
	movq	88(%r8), %r10
	addq	$2, %r10
	shlq	$32, %r14
	orq	%rbx, %r14
	movl	$2, %ebx
	movl	$8, %edx
.Lcovretin_BB_8403a79e_12:
	xorl	%r11d, %r11d
	jmp	.Lcovretin_BB_8403a79e_13
.Lcovretin_BB_8403a79e_6:
	xorl	%eax, %eax
	xorl	%edx, %edx
	xorl	%r10d, %r10d
	xorl	%ebx, %ebx
	xorl	%r14d, %r14d
	xorl	%esi, %esi
.Lcovretin_BB_8403a79e_13:
	movw	$0, -4(%rsp)
	movl	$0, -8(%rsp)
	movq	%r8, (%rdi)
	testb	%r9b, %r9b
	je	.Lcovretin_BB_8403a79e_14
	testb	%r11b, %r11b
	movl	$1, %ecx
	movl	$23, %eax
	cmovel	%ecx, %eax
	jmp	.Lcovretin_BB_8403a79e_17
.Lcovretin_BB_8403a79e_14:
	movq	%rax, (%rcx)
	movq	%rdx, 8(%rcx)
	movq	%r14, 16(%rcx)
	movq	%r10, 24(%rcx)
	movq	%rbx, 32(%rcx)
	movw	%si, 40(%rcx)
	movl	-8(%rsp), %eax
	movl	%eax, 42(%rcx)
	movzwl	-4(%rsp), %eax
	movw	%ax, 46(%rcx)
	xorl	%eax, %eax
.Lcovretin_BB_8403a79e_17:
	popq	%rbx
	.cfi_def_cfa_offset 40
	popq	%r12
	.cfi_def_cfa_offset 32
	popq	%r14
	.cfi_def_cfa_offset 24
	popq	%r15
	.cfi_def_cfa_offset 16
	popq	%rbp
	.cfi_def_cfa_offset 8
	.cfi_restore %rbx
	.cfi_restore %r12
	.cfi_restore %r14
	.cfi_restore %r15
	.cfi_restore %rbp
	retq
.Lcovretin_func_end_8403a79e:
	.size	covretin_queue_add_used, .Lcovretin_func_end_8403a79e-covretin_queue_add_used
	.cfi_endproc

	.section	.text.covretin_queue_available,"ax",@progbits
	.globl	covretin_queue_available
	.p2align	4
	.type	covretin_queue_available,@function
covretin_queue_available:
	.cfi_startproc
	endbr64
	movq	(%rdi), %rax
	movq	$0, (%rdi)
	testq	%rax, %rax
	je	.Lcovretin_BB_f0bc97d7_1
	movzbl	56(%rax), %ecx
	testl	%ecx, %ecx
	je	.Lcovretin_BB_f0bc97d7_16
	cmpl	$2, %ecx
	jne	.Lcovretin_BB_f0bc97d7_5
	cmpb	$0, 187(%rax)
	jne	.Lcovretin_BB_f0bc97d7_15
	movzbl	100(%rax), %ecx
	testb	%sil, %sil
	setns	%r8b
	xorb	%cl, %r8b
	testw	%si, %si
	sets	%sil
	xorb	%cl, %sil
	andb	%r8b, %sil
	cmpb	$1, %sil
	jne	.Lcovretin_BB_f0bc97d7_10
	movzwl	64(%rax), %esi
	movzwl	98(%rax), %ecx
	cmpw	%cx, %si
	jbe	.Lcovretin_BB_f0bc97d7_17
	movzbl	97(%rax), %r8d
	movq	72(%rax), %r9
	movq	%r9, 136(%rax)
	movw	%si, 144(%rax)
	movw	$1, 146(%rax)
	movw	%cx, 148(%rax)
	xorps	%xmm0, %xmm0
	movups	%xmm0, 152(%rax)
	movq	$0, 168(%rax)
	movzwl	182(%rax), %ecx
	movw	%cx, 176(%rax)
	movw	$508, 178(%rax)
	movb	$0, 180(%rax)
	movb	%r8b, 181(%rax)
	movw	$0, 184(%rax)
	movb	$1, 186(%rax)
	movw	$1, %cx
	movq	%rax, (%rdi)
	movw	%cx, (%rdx)
	xorl	%eax, %eax
	retq
.Lcovretin_BB_f0bc97d7_1:
	movl	$101, %eax
	retq
.Lcovretin_BB_f0bc97d7_16:
	movq	%rax, (%rdi)
	movl	$103, %eax
	retq
.Lcovretin_BB_f0bc97d7_5:
	cmpb	$0, 184(%rax)
	je	.Lcovretin_BB_f0bc97d7_6
.Lcovretin_BB_f0bc97d7_15:
	movq	%rax, (%rdi)
	movl	$20, %eax
	retq
.Lcovretin_BB_f0bc97d7_6:
	movl	%esi, %ecx
	subw	98(%rax), %cx
	cmpw	%cx, 64(%rax)
	jae	.Lcovretin_BB_f0bc97d7_7
	movb	$1, 184(%rax)
	movq	%rax, (%rdi)
	movl	$18, %eax
	retq
.Lcovretin_BB_f0bc97d7_10:
	xorl	%ecx, %ecx
	movq	%rax, (%rdi)
	movw	%cx, (%rdx)
	xorl	%eax, %eax
	retq
.Lcovretin_BB_f0bc97d7_7:
	movw	%si, 100(%rax)
	movq	%rax, (%rdi)
	movw	%cx, (%rdx)
	xorl	%eax, %eax
	retq
.Lcovretin_BB_f0bc97d7_17:
	movq	%rax, (%rdi)
	movl	$11, %eax
	retq
.Lcovretin_func_end_f0bc97d7:
	.size	covretin_queue_available, .Lcovretin_func_end_f0bc97d7-covretin_queue_available
	.cfi_endproc

	.section	.text.covretin_queue_available_place,"ax",@progbits
	.globl	covretin_queue_available_place
	.p2align	4
	.type	covretin_queue_available_place,@function
covretin_queue_available_place:
	.cfi_startproc
	endbr64
	movq	(%rdi), %rax
	movq	$0, (%rdi)
	testq	%rax, %rax
	je	.Lcovretin_BB_861102a5_1
	movzbl	56(%rax), %ecx
	testl	%ecx, %ecx
	je	.Lcovretin_BB_861102a5_8
	cmpl	$2, %ecx
	jne	.Lcovretin_BB_861102a5_5
	movq	72(%rax), %rcx
	movzwl	98(%rax), %edx
	shll	$4, %edx
	addq	%rdx, %rcx
	addq	$14, %rcx
	jmp	.Lcovretin_BB_861102a5_7
.Lcovretin_BB_861102a5_1:
	movl	$101, %eax
	retq
.Lcovretin_BB_861102a5_8:
	movq	%rax, (%rdi)
	movl	$103, %eax
	retq
.Lcovretin_BB_861102a5_5:
	movq	80(%rax), %rcx
	addq	$2, %rcx
.Lcovretin_BB_861102a5_7:
	movq	%rax, (%rdi)
	movq	%rcx, (%rsi)
	movq	$2, 8(%rsi)
	xorl	%eax, %eax
	retq
.Lcovretin_func_end_861102a5:
	.size	covretin_queue_available_place, .Lcovretin_func_end_861102a5-covretin_queue_available_place
	.cfi_endproc

	.section	.rodata.cst16,"aM",@progbits,16
	.p2align	4, 0x0
.Lcovretin_CPI_d8a59e22_0:
	.long	32768
	.long	32768
	.zero	4
	.zero	4
.Lcovretin_CPI_d8a59e22_1:
	.short	65535
	.short	0
	.short	65535
	.short	0
	.short	0
	.short	0
	.short	0
	.short	0
	.section	.text.covretin_queue_base,"ax",@progbits
	.globl	covretin_queue_base
	.p2align	4
	.type	covretin_queue_base,@function
covretin_queue_base:
	.cfi_startproc
	endbr64
	movq	(%rdi), %rax
	movq	$0, (%rdi)
	testq	%rax, %rax
	je	.Lcovretin_BB_d8a59e22_1
	movzbl	56(%rax), %ecx
	testl	%ecx, %ecx
	je	.Lcovretin_BB_d8a59e22_8
	cmpl	$2, %ecx
	jne	.Lcovretin_BB_d8a59e22_5
	movq	98(%rax), %xmm0
	movdqa	%xmm0, %xmm1
	psrld	$1, %xmm1
	pand	.Lcovretin_CPI_d8a59e22_0(%rip), %xmm1
	pand	.Lcovretin_CPI_d8a59e22_1(%rip), %xmm0
	pxor	%xmm1, %xmm0
	pshufd	$85, %xmm0, %xmm1
	movd	%xmm1, %edx
	shll	$16, %edx
	movd	%xmm0, %ecx
	orl	%edx, %ecx
	movq	%rax, (%rdi)
	movl	%ecx, (%rsi)
	xorl	%eax, %eax
	retq
.Lcovretin_BB_d8a59e22_1:
	movl	$101, %eax
	retq
.Lcovretin_BB_d8a59e22_8:
	movq	%rax, (%rdi)
	movl	$103, %eax
	retq
.Lcovretin_BB_d8a59e22_5:
	movzwl	98(%rax), %ecx
	movq	%rax, (%rdi)
	movl	%ecx, (%rsi)
	xorl	%eax, %eax
	retq
.Lcovretin_func_end_d8a59e22:
	.size	covretin_queue_base, .Lcovretin_func_end_d8a59e22-covretin_queue_base
	.cfi_endproc

	.section	.text.covretin_queue_head_place,"ax",@progbits
	.globl	covretin_queue_head_place
	.p2align	4
	.type	covretin_queue_head_place,@function
covretin_queue_head_place:
	.cfi_startproc
	endbr64
	movq	(%rdi), %rcx
	movq	$0, (%rdi)
	testq	%rcx, %rcx
	je	.Lcovretin_BB_fe894f27_1
	movzbl	56(%rcx), %eax
	testl	%eax, %eax
	je	.Lcovretin_BB_fe894f27_8
	cmpl	$2, %eax
	jne	.Lcovretin_BB_fe894f27_4
	movq	%rcx, (%rdi)
	movl	$104, %eax
	retq
.Lcovretin_BB_fe894f27_1:
	movl	$101, %eax
	retq
.Lcovretin_BB_fe894f27_8:
	movq	%rcx, (%rdi)
	movl	$103, %eax
	retq
.Lcovretin_BB_fe894f27_4:
	movzwl	98(%rcx), %eax
	cmpw	100(%rcx), %ax
	jne	.Lcovretin_BB_fe894f27_5
	movq	%rcx, (%rdi)
	movl	$21, %eax
	retq
.Lcovretin_BB_fe894f27_5:
	movzwl	64(%rcx), %r8d
	testw	%r8w, %r8w
	je	.Lcovretin_BB_fe894f27_11
	movq	80(%rcx), %r9
	xorl	%edx, %edx
	divw	%r8w
	xorl	%eax, %eax
	movzwl	%dx, %edx
	leaq	(%r9,%rdx,2), %rdx
	addq	$4, %rdx
	movq	%rcx, (%rdi)
	movq	%rdx, (%rsi)
	movq	$2, 8(%rsi)
	retq
.Lcovretin_BB_fe894f27_11:
	ud2
.Lcovretin_func_end_fe894f27:
	.size	covretin_queue_head_place, .Lcovretin_func_end_fe894f27-covretin_queue_head_place
	.cfi_endproc

	.section	.text.covretin_queue_heads_place,"ax",@progbits
	.globl	covretin_queue_heads_place
	.p2align	4
	.type	covretin_queue_heads_place,@function
covretin_queue_heads_place:
	.cfi_startproc
	endbr64
	movq	(%rdi), %rcx
	movq	$0, (%rdi)
	testq	%rcx, %rcx
	je	.Lcovretin_BB_3f72eb13_1
	movzbl	56(%rcx), %eax
	testl	%eax, %eax
	je	.Lcovretin_BB_3f72eb13_8
	cmpl	$2, %eax
	jne	.Lcovretin_BB_3f72eb13_4
	movq	%rcx, (%rdi)
	movl	$104, %eax
	retq
.Lcovretin_BB_3f72eb13_1:
	movl	$101, %eax
	retq
.Lcovretin_BB_3f72eb13_8:
	movq	%rcx, (%rdi)
	movl	$103, %eax
	retq
.Lcovretin_BB_3f72eb13_4:
	movzwl	98(%rcx), %eax
	movzwl	100(%rcx), %r10d
	cmpw	%ax, %r10w
	jne	.Lcovretin_BB_3f72eb13_5
	movq	%rcx, (%rdi)
	movl	$21, %eax
	retq
.Lcovretin_BB_3f72eb13_5:
	movzwl	64(%rcx), %r9d
	testw	%r9w, %r9w
	je	.Lcovretin_BB_3f72eb13_11
	movq	%rdx, %r8
	subl	%eax, %r10d
	movzwl	%r10w, %edx
	cmpq	%rsi, %rdx
	cmovbq	%rdx, %rsi
	xorl	%edx, %edx
	divw	%r9w
	xorl	%eax, %eax
	subl	%edx, %r9d
	movzwl	%r9w, %r9d
	cmpq	%rsi, %r9
	cmovbq	%r9, %rsi
	movq	80(%rcx), %r9
	movzwl	%dx, %edx
	leaq	(%r9,%rdx,2), %rdx
	addq	$4, %rdx
	addl	%esi, %esi
	movq	%rcx, (%rdi)
	movq	%rdx, (%r8)
	movq	%rsi, 8(%r8)
	retq
.Lcovretin_BB_3f72eb13_11:
	ud2
.Lcovretin_func_end_3f72eb13:
	.size	covretin_queue_heads_place, .Lcovretin_func_end_3f72eb13-covretin_queue_heads_place
	.cfi_endproc

	.section	.text.covretin_queue_needs_notification,"ax",@progbits
	.globl	covretin_queue_needs_notification
	.p2align	4
	.type	covretin_queue_needs_notification,@function
covretin_queue_needs_notification:
	.cfi_startproc
	endbr64
	movq	(%rdi), %rax
	movq	$0, (%rdi)
	testq	%rax, %rax
	je	.Lcovretin_BB_5015fe6c_1
	movzbl	56(%rax), %r8d
	testl	%r8d, %r8d
	je	.Lcovretin_BB_5015fe6c_16
	pushq	%rbx
	.cfi_def_cfa_offset 16
	.cfi_offset %rbx, -16
	cmpl	$2, %r8d
	jne	.Lcovretin_BB_5015fe6c_4
	movzbl	106(%rax), %ebx
	movzwl	108(%rax), %r10d
	movzbl	110(%rax), %r11d
	movl	102(%rax), %r8d
	movw	$1, 106(%rax)
	movl	%r8d, 108(%rax)
	cmpw	$2, %dx
	jne	.Lcovretin_BB_5015fe6c_10
	cmpb	$0, 96(%rax)
	je	.Lcovretin_BB_5015fe6c_10
	movb	$1, %r9b
	cmpb	$1, %bl
	jne	.Lcovretin_BB_5015fe6c_15
	movl	%esi, %ebx
	andl	$32767, %ebx
	movzwl	64(%rax), %edx
	cmpw	%dx, %bx
	jae	.Lcovretin_BB_5015fe6c_15
	xorl	%r9d, %r9d
	testb	$1, %r11b
	movl	%edx, %r11d
	cmovnel	%r9d, %r11d
	addl	%r10d, %r11d
	testw	%si, %si
	movzwl	%bx, %esi
	movl	%edx, %r10d
	cmovsl	%r9d, %r10d
	addl	%esi, %r10d
	leal	(%rdx,%rdx), %esi
	subl	%r11d, %r10d
	movl	$0, %ebx
	cmovbl	%esi, %ebx
	testl	$65536, %r8d
	movzwl	%r8w, %r8d
	cmovnel	%r9d, %edx
	addl	%r8d, %edx
	subl	%r11d, %edx
	cmovbl	%esi, %r9d
	leal	(%r10,%rbx), %esi
	addl	%r9d, %edx
	cmpl	%edx, %esi
	jmp	.Lcovretin_BB_5015fe6c_14
.Lcovretin_BB_5015fe6c_1:
	.cfi_def_cfa_offset 8
	.cfi_restore %rbx
	movl	$101, %eax
	retq
.Lcovretin_BB_5015fe6c_16:
	movq	%rax, (%rdi)
	movl	$103, %eax
	retq
.Lcovretin_BB_5015fe6c_4:
	.cfi_def_cfa_offset 16
	.cfi_offset %rbx, -16
	movzbl	104(%rax), %r10d
	movzwl	106(%rax), %r8d
	movzwl	102(%rax), %edx
	movw	$1, 104(%rax)
	movw	%dx, 106(%rax)
	cmpb	$0, 96(%rax)
	je	.Lcovretin_BB_5015fe6c_5
	movb	$1, %r9b
	cmpb	$1, %r10b
	jne	.Lcovretin_BB_5015fe6c_15
	notl	%esi
	addl	%edx, %esi
	subl	%r8d, %edx
	cmpw	%dx, %si
.Lcovretin_BB_5015fe6c_14:
	setb	%r9b
	jmp	.Lcovretin_BB_5015fe6c_15
.Lcovretin_BB_5015fe6c_10:
	cmpw	$1, %dx
	setne	%r9b
	jmp	.Lcovretin_BB_5015fe6c_15
.Lcovretin_BB_5015fe6c_5:
	testb	$1, %sil
	sete	%r9b
.Lcovretin_BB_5015fe6c_15:
	movq	%rax, (%rdi)
	movb	%r9b, (%rcx)
	xorl	%eax, %eax
	popq	%rbx
	.cfi_def_cfa_offset 8
	.cfi_restore %rbx
	retq
.Lcovretin_func_end_5015fe6c:
	.size	covretin_queue_needs_notification, .Lcovretin_func_end_5015fe6c-covretin_queue_needs_notification
	.cfi_endproc

	.section	.text.covretin_queue_needs_reset,"ax",@progbits
	.globl	covretin_queue_needs_reset
	.p2align	4
	.type	covretin_queue_needs_reset,@function
covretin_queue_needs_reset:
	.cfi_startproc
	endbr64
	movq	(%rdi), %rax
	movq	$0, (%rdi)
	testq	%rax, %rax
	je	.Lcovretin_BB_66fbf2bf_1
	movzbl	56(%rax), %ecx
	testl	%ecx, %ecx
	je	.Lcovretin_BB_66fbf2bf_7
	cmpl	$2, %ecx
	jne	.Lcovretin_BB_66fbf2bf_5
	movzbl	187(%rax), %ecx
.Lcovretin_BB_66fbf2bf_7:
	movq	%rax, (%rdi)
	movb	%cl, (%rsi)
	xorl	%eax, %eax
	retq
.Lcovretin_BB_66fbf2bf_1:
	movl	$101, %eax
	retq
.Lcovretin_BB_66fbf2bf_5:
	movzbl	184(%rax), %ecx
	movq	%rax, (%rdi)
	movb	%cl, (%rsi)
	xorl	%eax, %eax
	retq
.Lcovretin_func_end_66fbf2bf:
	.size	covretin_queue_needs_reset, .Lcovretin_func_end_66fbf2bf-covretin_queue_needs_reset
	.cfi_endproc

	.section	.text.covretin_queue_notification_place,"ax",@progbits
	.globl	covretin_queue_notification_place
	.p2align	4
	.type	covretin_queue_notification_place,@function
covretin_queue_notification_place:
	.cfi_startproc
	endbr64
	movq	(%rdi), %rax
	movq	$0, (%rdi)
	testq	%rax, %rax
	je	.Lcovretin_BB_4e7bbbd6_4
	movzbl	56(%rax), %ecx
	testl	%ecx, %ecx
	je	.Lcovretin_BB_4e7bbbd6_5
	cmpl	$2, %ecx
	jne	.Lcovretin_BB_4e7bbbd6_6
	movq	80(%rax), %rcx
	movl	$4, %edx
	jmp	.Lcovretin_BB_4e7bbbd6_10
.Lcovretin_BB_4e7bbbd6_4:
	movl	$101, %eax
	retq
.Lcovretin_BB_4e7bbbd6_5:
	movq	%rax, (%rdi)
	movl	$103, %eax
	retq
.Lcovretin_BB_4e7bbbd6_6:
	cmpb	$1, 96(%rax)
	jne	.Lcovretin_BB_4e7bbbd6_8
	movzwl	64(%rax), %ecx
	movq	80(%rax), %rdx
	leaq	(%rdx,%rcx,2), %rcx
	addq	$4, %rcx
	jmp	.Lcovretin_BB_4e7bbbd6_9
.Lcovretin_BB_4e7bbbd6_8:
	movq	80(%rax), %rcx
.Lcovretin_BB_4e7bbbd6_9:
	movl	$2, %edx
.Lcovretin_BB_4e7bbbd6_10:
	movq	%rax, (%rdi)
	movq	%rcx, (%rsi)
	movq	%rdx, 8(%rsi)
	xorl	%eax, %eax
	retq
.Lcovretin_func_end_4e7bbbd6:
	.size	covretin_queue_notification_place, .Lcovretin_func_end_4e7bbbd6-covretin_queue_notification_place
	.cfi_endproc

	.section	.text.covretin_queue_set_notification,"ax",@progbits
	.globl	covretin_queue_set_notification
	.p2align	4
	.type	covretin_queue_set_notification,@function
covretin_queue_set_notification:
	.cfi_startproc
	endbr64
	movq	(%rdi), %rax
	movq	$0, (%rdi)
	testq	%rax, %rax
	je	.Lcovretin_BB_5c2152d4_1
	movzbl	56(%rax), %ecx
	testl	%ecx, %ecx
	je	.Lcovretin_BB_5c2152d4_16
	cmpl	$2, %ecx
	jne	.Lcovretin_BB_5c2152d4_5
	movl	$65536, %r8d
	testb	$1, %sil
	je	.Lcovretin_BB_5c2152d4_14
	xorl	%r8d, %r8d
	cmpb	$1, 96(%rax)
	jne	.Lcovretin_BB_5c2152d4_14
	movzbl	100(%rax), %ecx
	shll	$15, %ecx
	xorw	98(%rax), %cx
	movzwl	%cx, %r8d
	orl	$131072, %r8d
.Lcovretin_BB_5c2152d4_14:
	movq	88(%rax), %rcx
	movl	$4, %esi
	jmp	.Lcovretin_BB_5c2152d4_15
.Lcovretin_BB_5c2152d4_1:
	movl	$101, %eax
	retq
.Lcovretin_BB_5c2152d4_16:
	movq	%rax, (%rdi)
	movl	$103, %eax
	retq
.Lcovretin_BB_5c2152d4_5:
	cmpb	$0, 96(%rax)
	je	.Lcovretin_BB_5c2152d4_6
	testb	$1, %sil
	je	.Lcovretin_BB_5c2152d4_8
	movzwl	64(%rax), %ecx
	movq	88(%rax), %rsi
	leaq	(%rsi,%rcx,8), %rcx
	addq	$4, %rcx
	movzwl	98(%rax), %esi
	jmp	.Lcovretin_BB_5c2152d4_10
.Lcovretin_BB_5c2152d4_6:
	movq	88(%rax), %rcx
	notb	%sil
	movzbl	%sil, %esi
	andl	$1, %esi
.Lcovretin_BB_5c2152d4_10:
	movzwl	%si, %r8d
	movl	$2, %esi
	jmp	.Lcovretin_BB_5c2152d4_15
.Lcovretin_BB_5c2152d4_8:
	xorl	%ecx, %ecx
	xorl	%esi, %esi
	xorl	%r8d, %r8d
.Lcovretin_BB_5c2152d4_15:
	movq	%rax, (%rdi)
	movq	%rcx, (%rdx)
	movq	%rsi, 8(%rdx)
	movl	%r8d, 16(%rdx)
	movl	$0, 20(%rdx)
	xorl	%eax, %eax
	retq
.Lcovretin_func_end_5c2152d4:
	.size	covretin_queue_set_notification, .Lcovretin_func_end_5c2152d4-covretin_queue_set_notification
	.cfi_endproc

	.section	.text.covretin_queue_table,"ax",@progbits
	.globl	covretin_queue_table
	.p2align	4
	.type	covretin_queue_table,@function
covretin_queue_table:
	.cfi_startproc
	endbr64
	movq	(%rdi), %rcx
	movq	$0, (%rdi)
	testq	%rcx, %rcx
	je	.Lcovretin_BB_b2809ed0_5
	movzbl	56(%rcx), %r10d
	xorl	%eax, %eax
	testl	%r10d, %r10d
	je	.Lcovretin_BB_b2809ed0_6
	cmpl	$2, %r10d
	movzbl	146(%rcx), %edx
	movzwl	144(%rcx), %r8d
	shll	$4, %r8d
	cmpb	$1, %dl
	jne	.Lcovretin_BB_b2809ed0_4
	movzwl	148(%rcx), %r9d
	jmp	.Lcovretin_BB_b2809ed0_9
.Lcovretin_BB_b2809ed0_5:
	movl	$101, %eax
	retq
.Lcovretin_BB_b2809ed0_6:
	movq	%r10, %r8
	xorl	%r9d, %r9d
	movl	%r10d, %edx
	jmp	.Lcovretin_BB_b2809ed0_10
.Lcovretin_BB_b2809ed0_4:
	xorl	%r9d, %r9d
.Lcovretin_BB_b2809ed0_9:
	movq	136(%rcx), %r10
	andb	$1, %dl
.Lcovretin_BB_b2809ed0_10:
	movq	%rcx, (%rdi)
	movq	%r10, (%rsi)
	movq	%r8, 8(%rsi)
	movw	%r9w, 16(%rsi)
	movb	%dl, 18(%rsi)
	movl	$0, 19(%rsi)
	movb	$0, 23(%rsi)
	retq
.Lcovretin_func_end_b2809ed0:
	.size	covretin_queue_table, .Lcovretin_func_end_b2809ed0-covretin_queue_table
	.cfi_endproc

	.section	.text.covretin_queue_take,"ax",@progbits
	.globl	covretin_queue_take
	.p2align	4
	.type	covretin_queue_take,@function
covretin_queue_take:
	.cfi_startproc
	endbr64
	pushq	%rbp
	.cfi_def_cfa_offset 16
	pushq	%r15
	.cfi_def_cfa_offset 24
	pushq	%r14
	.cfi_def_cfa_offset 32
	pushq	%r13
	.cfi_def_cfa_offset 40
	pushq	%r12
	.cfi_def_cfa_offset 48
	pushq	%rbx
	.cfi_def_cfa_offset 56
	.cfi_offset %rbx, -56
	.cfi_offset %r12, -48
	.cfi_offset %r13, -40
	.cfi_offset %r14, -32
	.cfi_offset %r15, -24
	.cfi_offset %rbp, -16
	xorl	%r11d, %r11d
	testq	%rdx, %rdx
	sete	%bpl
	xorl	%eax, %eax
	testq	%r8, %r8
	sete	%bl
	movq	(%rdi), %r10
	movq	$0, (%rdi)
	testq	%r10, %r10
	je	.Lcovretin_BB_3e9be641_8
	movb	%bpl, %r11b
	shll	$12, %r11d
	addq	%r11, %rdx
	movb	%bl, %al
	shll	$12, %eax
	addq	%rax, %r8
	movzbl	56(%r10), %eax
	cmpl	$2, %eax
	je	.Lcovretin_BB_3e9be641_9
	cmpl	$1, %eax
	jne	.Lcovretin_BB_3e9be641_189
	cmpb	$0, 184(%r10)
	jne	.Lcovretin_BB_3e9be641_10
	movzwl	98(%r10), %eax
	cmpw	100(%r10), %ax
	je	.Lcovretin_BB_3e9be641_190
	movzwl	64(%r10), %ebp
	cmpw	%bp, %si
	jae	.Lcovretin_BB_3e9be641_191
	movzwl	%si, %r11d
	movq	112(%r10), %rbx
	cmpb	$1, (%rbx,%r11)
	jne	.Lcovretin_BB_3e9be641_193
	movb	$1, 184(%r10)
	movq	%r10, (%rdi)
	movl	$19, %eax
	jmp	.Lcovretin_BB_3e9be641_238
.Lcovretin_BB_3e9be641_8:
	movl	$101, %eax
	jmp	.Lcovretin_BB_3e9be641_238
.Lcovretin_BB_3e9be641_9:
	cmpb	$0, 187(%r10)
	je	.Lcovretin_BB_3e9be641_11
.Lcovretin_BB_3e9be641_10:
	movq	%r10, (%rdi)
	movl	$20, %eax
	jmp	.Lcovretin_BB_3e9be641_238
.Lcovretin_BB_3e9be641_11:
	movzbl	100(%r10), %eax
	testb	%sil, %sil
	setns	%r11b
	xorb	%al, %r11b
	testw	%si, %si
	sets	%sil
	xorb	%al, %sil
	andb	%r11b, %sil
	cmpb	$1, %sil
	jne	.Lcovretin_BB_3e9be641_190
	movzwl	64(%r10), %esi
	movzwl	98(%r10), %eax
	cmpw	%ax, %si
	jbe	.Lcovretin_BB_3e9be641_192
	movzbl	97(%r10), %r11d
	movq	72(%r10), %rbx
	movq	%rbx, 136(%r10)
	movw	%si, 144(%r10)
	movw	$1, 146(%r10)
	movw	%ax, 148(%r10)
	xorps	%xmm0, %xmm0
	movups	%xmm0, 152(%r10)
	movq	$0, 168(%r10)
	movzwl	182(%r10), %eax
	movw	%ax, 176(%r10)
	movw	$508, 178(%r10)
	movb	$0, 180(%r10)
	movb	%r11b, 181(%r10)
	movw	$0, 184(%r10)
	movb	$1, 186(%r10)
.Lcovretin_BB_3e9be641_14:
	xorl	%r15d, %r15d
	xorl	%r13d, %r13d
.Lcovretin_BB_3e9be641_15:
	cmpq	%rcx, %r15
	setae	%al
	cmpq	%r9, %r13
	setae	%sil
	movzbl	56(%r10), %ebp
	orb	%al, %sil
	jne	.Lcovretin_BB_3e9be641_149
	movq	%rcx, -8(%rsp)
	.p2align	4
.Lcovretin_BB_3e9be641_17:
	movq	%r15, %rsi
	shlq	$4, %rsi
	movq	(%rdx,%rsi), %r14
	movl	8(%rdx,%rsi), %r11d
	movzwl	12(%rdx,%rsi), %ebx
	movzwl	14(%rdx,%rsi), %r12d
	movl	$0, -32(%rsp)
	movl	$0, -29(%rsp)
	movl	$0, -40(%rsp)
	movl	$0, -37(%rsp)
	cmpb	$1, %bpl
	movq	%r15, -48(%rsp)
	je	.Lcovretin_BB_3e9be641_23
	movzbl	%bpl, %esi
	cmpl	$2, %esi
	jne	.Lcovretin_BB_3e9be641_189
	movl	$18, %ebp
	cmpb	$0, 187(%r10)
	jne	.Lcovretin_BB_3e9be641_133
	movl	$20, %ebp
	cmpb	$1, 146(%r10)
	jne	.Lcovretin_BB_3e9be641_133
	movzwl	%bx, %eax
	movq	%rax, -64(%rsp)
	leaq	152(%r10), %rsi
	movzbl	(%rsi), %eax
	movb	%al, -76(%rsp)
	testb	$1, %al
	je	.Lcovretin_BB_3e9be641_57
	movq	160(%r10), %rbx
	movl	168(%r10), %esi
	movzwl	172(%r10), %eax
	movzwl	174(%r10), %ebp
	jmp	.Lcovretin_BB_3e9be641_61
.Lcovretin_BB_3e9be641_23:
	movl	$18, %ebp
	cmpb	$0, 184(%r10)
	jne	.Lcovretin_BB_3e9be641_37
	movl	$20, %ebp
	cmpb	$1, 146(%r10)
	jne	.Lcovretin_BB_3e9be641_37
	cmpb	$1, 152(%r10)
	jne	.Lcovretin_BB_3e9be641_27
	movq	160(%r10), %r14
	movl	168(%r10), %r11d
	movzwl	172(%r10), %ebx
	movzwl	174(%r10), %r12d
.Lcovretin_BB_3e9be641_27:
	movq	%r13, -56(%rsp)
	testb	$4, %bl
	movq	%r14, -64(%rsp)
	jne	.Lcovretin_BB_3e9be641_47
	movl	%r12d, -80(%rsp)
	movl	%ebx, -76(%rsp)
	andl	$2, %ebx
	jne	.Lcovretin_BB_3e9be641_30
	movl	$12, %ebp
	cmpb	$0, 180(%r10)
	jne	.Lcovretin_BB_3e9be641_135
.Lcovretin_BB_3e9be641_30:
	testl	%r11d, %r11d
	je	.Lcovretin_BB_3e9be641_128
	movl	%r11d, -84(%rsp)
	movq	8(%r10), %r15
	movq	48(%r10), %rsi
	cmpq	%r15, %rsi
	jae	.Lcovretin_BB_3e9be641_35
	movq	(%r10), %rbp
	movq	%rsi, %r13
	shlq	$5, %r13
	movq	%r14, %r11
	subq	(%rbp,%r13), %r11
	jb	.Lcovretin_BB_3e9be641_35
	movq	8(%rbp,%r13), %r12
	testq	%r12, %r12
	je	.Lcovretin_BB_3e9be641_35
	decq	%r12
	cmpq	%r12, %r11
	jbe	.Lcovretin_BB_3e9be641_115
.Lcovretin_BB_3e9be641_35:
	movq	32(%r10), %r11
	testq	%r11, %r11
	je	.Lcovretin_BB_3e9be641_108
	movq	24(%r10), %rsi
	xorl	%ebp, %ebp
	jmp	.Lcovretin_BB_3e9be641_39
.Lcovretin_BB_3e9be641_37:
	movb	$1, %r12b
	movq	$0, -96(%rsp)
	xorl	%esi, %esi
	xorl	%r15d, %r15d
	xorl	%ebx, %ebx
	xorl	%eax, %eax
	jmp	.Lcovretin_BB_3e9be641_136
.Lcovretin_BB_3e9be641_38:
	movq	%r13, %r11
	cmpq	%r13, %rbp
	jae	.Lcovretin_BB_3e9be641_42
.Lcovretin_BB_3e9be641_39:
	movq	%r11, %r13
	subq	%rbp, %r13
	shrq	%r13
	addq	%rbp, %r13
	movzwl	(%rsi,%r13,2), %r12d
	cmpq	%r12, %r15
	jbe	.Lcovretin_BB_3e9be641_38
	movq	(%r10), %r14
	shll	$5, %r12d
	movq	-64(%rsp), %rax
	cmpq	%rax, (%r14,%r12)
	movq	-64(%rsp), %r14
	ja	.Lcovretin_BB_3e9be641_38
	movq	%r13, %rbp
	incq	%rbp
	movq	%r11, %r13
	cmpq	%r13, %rbp
	jb	.Lcovretin_BB_3e9be641_39
.Lcovretin_BB_3e9be641_42:
	testq	%rbp, %rbp
	je	.Lcovretin_BB_3e9be641_108
	movzwl	-2(%rsi,%rbp,2), %esi
	cmpq	%rsi, %r15
	jbe	.Lcovretin_BB_3e9be641_108
	movq	(%r10), %rbp
	movl	%esi, %r13d
	shll	$5, %r13d
	movq	%r14, %r11
	subq	(%rbp,%r13), %r11
	jb	.Lcovretin_BB_3e9be641_110
	movq	8(%rbp,%r13), %r12
	testq	%r12, %r12
	je	.Lcovretin_BB_3e9be641_110
	decq	%r12
	cmpq	%r12, %r11
	ja	.Lcovretin_BB_3e9be641_110
	jmp	.Lcovretin_BB_3e9be641_115
.Lcovretin_BB_3e9be641_47:
	movl	$13, %ebp
	cmpb	$1, 181(%r10)
	jne	.Lcovretin_BB_3e9be641_135
	movl	$14, %ebp
	testb	$1, %bl
	jne	.Lcovretin_BB_3e9be641_135
	movl	%r11d, %eax
	testl	%r11d, %r11d
	sete	%sil
	testb	$15, %al
	setne	%r11b
	movl	$15, %ebp
	orb	%sil, %r11b
	jne	.Lcovretin_BB_3e9be641_135
	movzwl	176(%r10), %esi
	movl	%eax, %r11d
	shrl	$4, %r11d
	movl	$11, %ebp
	movq	%r11, -96(%rsp)
	cmpq	%rsi, %r11
	ja	.Lcovretin_BB_3e9be641_135
	movq	8(%r10), %r15
	movq	48(%r10), %r13
	cmpq	%r15, %r13
	jae	.Lcovretin_BB_3e9be641_55
	movq	(%r10), %r12
	movq	%r13, %rsi
	shlq	$5, %rsi
	movq	%r14, %r11
	subq	(%r12,%rsi), %r11
	jb	.Lcovretin_BB_3e9be641_55
	movq	8(%r12,%rsi), %rbp
	subq	%rax, %rbp
	jb	.Lcovretin_BB_3e9be641_55
	cmpq	%rbp, %r11
	jbe	.Lcovretin_BB_3e9be641_160
.Lcovretin_BB_3e9be641_55:
	movq	32(%r10), %r12
	testq	%r12, %r12
	je	.Lcovretin_BB_3e9be641_153
	movq	24(%r10), %rsi
	xorl	%r13d, %r13d
	jmp	.Lcovretin_BB_3e9be641_81
.Lcovretin_BB_3e9be641_57:
	movl	%ebx, %eax
	movl	%r11d, -84(%rsp)
	movq	%r14, %rbx
	movzwl	148(%r10), %r14d
	movzbl	186(%r10), %esi
	cmpb	$1, %sil
	jne	.Lcovretin_BB_3e9be641_60
	movzwl	64(%r10), %r11d
	movl	$11, %ebp
	cmpw	184(%r10), %r11w
	jbe	.Lcovretin_BB_3e9be641_132
	movl	%r12d, %ebp
	andl	$5, %ebp
	cmpw	$1, %bp
	jne	.Lcovretin_BB_3e9be641_130
.Lcovretin_BB_3e9be641_60:
	incl	%r14d
	xorl	%ebp, %ebp
	xorl	%r11d, %r11d
	cmpw	144(%r10), %r14w
	setb	%r11b
	cmovbl	%r14d, %ebp
	movl	%r12d, %eax
	andl	$6, %eax
	orl	%eax, %r11d
	movl	%r11d, %eax
	testb	%sil, %sil
	cmovnel	%r12d, %eax
	movl	-84(%rsp), %esi
.Lcovretin_BB_3e9be641_61:
	movl	%r12d, -80(%rsp)
	movq	%r13, -56(%rsp)
	testb	$4, %al
	jne	.Lcovretin_BB_3e9be641_89
	movl	%ebp, %r12d
	movl	%eax, %ecx
	andl	$2, %ecx
	jne	.Lcovretin_BB_3e9be641_64
	movl	$12, %ebp
	cmpb	$0, 180(%r10)
	jne	.Lcovretin_BB_3e9be641_138
.Lcovretin_BB_3e9be641_64:
	testl	%esi, %esi
	je	.Lcovretin_BB_3e9be641_129
	movl	%eax, -96(%rsp)
	movl	%esi, -84(%rsp)
	movq	8(%r10), %r15
	movq	48(%r10), %rsi
	cmpq	%r15, %rsi
	movq	%rbx, %r14
	jae	.Lcovretin_BB_3e9be641_69
	movq	(%r10), %rbp
	movq	%rsi, %r13
	shlq	$5, %r13
	movq	%r14, %r11
	subq	(%rbp,%r13), %r11
	jb	.Lcovretin_BB_3e9be641_69
	movq	8(%rbp,%r13), %rax
	testq	%rax, %rax
	je	.Lcovretin_BB_3e9be641_69
	decq	%rax
	cmpq	%rax, %r11
	jbe	.Lcovretin_BB_3e9be641_125
.Lcovretin_BB_3e9be641_69:
	movq	32(%r10), %r13
	testq	%r13, %r13
	je	.Lcovretin_BB_3e9be641_118
	movq	24(%r10), %rsi
	xorl	%ebp, %ebp
	jmp	.Lcovretin_BB_3e9be641_72
.Lcovretin_BB_3e9be641_71:
	movq	%r11, %r13
	cmpq	%r11, %rbp
	jae	.Lcovretin_BB_3e9be641_75
.Lcovretin_BB_3e9be641_72:
	movq	%r13, %r11
	subq	%rbp, %r11
	shrq	%r11
	addq	%rbp, %r11
	movzwl	(%rsi,%r11,2), %eax
	cmpq	%rax, %r15
	jbe	.Lcovretin_BB_3e9be641_71
	movq	(%r10), %r14
	shll	$5, %eax
	cmpq	%rbx, (%r14,%rax)
	movq	%rbx, %r14
	ja	.Lcovretin_BB_3e9be641_71
	movq	%r11, %rbp
	incq	%rbp
	movq	%r13, %r11
	cmpq	%r11, %rbp
	jb	.Lcovretin_BB_3e9be641_72
.Lcovretin_BB_3e9be641_75:
	testq	%rbp, %rbp
	je	.Lcovretin_BB_3e9be641_118
	movzwl	-2(%rsi,%rbp,2), %esi
	cmpq	%rsi, %r15
	jbe	.Lcovretin_BB_3e9be641_118
	movq	(%r10), %rbp
	movl	%esi, %r13d
	shll	$5, %r13d
	movq	%r14, %rax
	subq	(%rbp,%r13), %rax
	jb	.Lcovretin_BB_3e9be641_120
	movq	8(%rbp,%r13), %r11
	testq	%r11, %r11
	je	.Lcovretin_BB_3e9be641_120
	decq	%r11
	cmpq	%r11, %rax
	ja	.Lcovretin_BB_3e9be641_120
	jmp	.Lcovretin_BB_3e9be641_125
.Lcovretin_BB_3e9be641_80:
	movq	%rbp, %r12
	cmpq	%rbp, %r13
	jae	.Lcovretin_BB_3e9be641_84
.Lcovretin_BB_3e9be641_81:
	movq	%r12, %rbp
	subq	%r13, %rbp
	shrq	%rbp
	addq	%r13, %rbp
	movzwl	(%rsi,%rbp,2), %r11d
	cmpq	%r11, %r15
	jbe	.Lcovretin_BB_3e9be641_80
	movq	(%r10), %r14
	shll	$5, %r11d
	movq	-64(%rsp), %rbx
	cmpq	%rbx, (%r14,%r11)
	movq	-64(%rsp), %r14
	ja	.Lcovretin_BB_3e9be641_80
	movq	%rbp, %r13
	incq	%r13
	movq	%r12, %rbp
	cmpq	%rbp, %r13
	jb	.Lcovretin_BB_3e9be641_81
.Lcovretin_BB_3e9be641_84:
	testq	%r13, %r13
	je	.Lcovretin_BB_3e9be641_153
	movzwl	-2(%rsi,%r13,2), %r13d
	cmpq	%r13, %r15
	jbe	.Lcovretin_BB_3e9be641_153
	movq	(%r10), %r12
	movl	%r13d, %esi
	shll	$5, %esi
	movq	%r14, %r11
	subq	(%r12,%rsi), %r11
	jb	.Lcovretin_BB_3e9be641_155
	movq	8(%r12,%rsi), %rbp
	subq	%rax, %rbp
	jb	.Lcovretin_BB_3e9be641_155
	cmpq	%rbp, %r11
	ja	.Lcovretin_BB_3e9be641_155
	jmp	.Lcovretin_BB_3e9be641_160
.Lcovretin_BB_3e9be641_89:
	movl	$13, %ebp
	cmpb	$1, 181(%r10)
	jne	.Lcovretin_BB_3e9be641_138
	movl	$14, %ebp
	testb	$1, %al
	jne	.Lcovretin_BB_3e9be641_138
	movl	%esi, %eax
	testl	%esi, %esi
	sete	%cl
	testb	$15, %al
	setne	%sil
	movl	$15, %ebp
	orb	%cl, %sil
	jne	.Lcovretin_BB_3e9be641_138
	movzwl	176(%r10), %ecx
	movl	%eax, %r14d
	shrl	$4, %r14d
	movl	$11, %ebp
	cmpq	%rcx, %r14
	ja	.Lcovretin_BB_3e9be641_138
	movq	8(%r10), %r15
	movq	48(%r10), %r13
	cmpq	%r15, %r13
	jae	.Lcovretin_BB_3e9be641_97
	movq	(%r10), %r12
	movq	%r13, %rsi
	shlq	$5, %rsi
	movq	%rbx, %r11
	subq	(%r12,%rsi), %r11
	jb	.Lcovretin_BB_3e9be641_97
	movq	8(%r12,%rsi), %rbp
	subq	%rax, %rbp
	jb	.Lcovretin_BB_3e9be641_97
	cmpq	%rbp, %r11
	jbe	.Lcovretin_BB_3e9be641_173
.Lcovretin_BB_3e9be641_97:
	movq	32(%r10), %r12
	testq	%r12, %r12
	je	.Lcovretin_BB_3e9be641_166
	movq	24(%r10), %rsi
	xorl	%r13d, %r13d
	jmp	.Lcovretin_BB_3e9be641_100
.Lcovretin_BB_3e9be641_99:
	movq	%r11, %r12
	cmpq	%r11, %r13
	jae	.Lcovretin_BB_3e9be641_103
.Lcovretin_BB_3e9be641_100:
	movq	%r12, %r11
	subq	%r13, %r11
	shrq	%r11
	addq	%r13, %r11
	movzwl	(%rsi,%r11,2), %ebp
	cmpq	%rbp, %r15
	jbe	.Lcovretin_BB_3e9be641_99
	movq	(%r10), %rcx
	shll	$5, %ebp
	cmpq	%rbx, (%rcx,%rbp)
	ja	.Lcovretin_BB_3e9be641_99
	movq	%r11, %r13
	incq	%r13
	movq	%r12, %r11
	cmpq	%r11, %r13
	jb	.Lcovretin_BB_3e9be641_100
.Lcovretin_BB_3e9be641_103:
	testq	%r13, %r13
	je	.Lcovretin_BB_3e9be641_166
	movzwl	-2(%rsi,%r13,2), %r13d
	cmpq	%r13, %r15
	jbe	.Lcovretin_BB_3e9be641_166
	movq	(%r10), %r12
	movl	%r13d, %esi
	shll	$5, %esi
	movq	%rbx, %r11
	subq	(%r12,%rsi), %r11
	jb	.Lcovretin_BB_3e9be641_168
	movq	8(%r12,%rsi), %rbp
	subq	%rax, %rbp
	jb	.Lcovretin_BB_3e9be641_168
	cmpq	%rbp, %r11
	ja	.Lcovretin_BB_3e9be641_168
	jmp	.Lcovretin_BB_3e9be641_173
.Lcovretin_BB_3e9be641_108:
	testq	%r15, %r15
	je	.Lcovretin_BB_3e9be641_134
	movq	(%r10), %rbp
.Lcovretin_BB_3e9be641_110:
	xorl	%r13d, %r13d
	xorl	%esi, %esi
	jmp	.Lcovretin_BB_3e9be641_112
.Lcovretin_BB_3e9be641_111:
	incq	%rsi
	addq	$32, %r13
	cmpq	%rsi, %r15
	je	.Lcovretin_BB_3e9be641_134
.Lcovretin_BB_3e9be641_112:
	movq	%r14, %r11
	subq	(%rbp,%r13), %r11
	jb	.Lcovretin_BB_3e9be641_111
	movq	8(%rbp,%r13), %r12
	testq	%r12, %r12
	je	.Lcovretin_BB_3e9be641_111
	decq	%r12
	cmpq	%r12, %r11
	ja	.Lcovretin_BB_3e9be641_111
.Lcovretin_BB_3e9be641_115:
	movl	-84(%rsp), %r11d
	movq	%rsi, 48(%r10)
	movq	8(%rbp,%r13), %r15
	subq	(%rbp,%r13), %r14
	movq	24(%rbp,%r13), %rax
	addq	%r14, %rax
	subq	%r14, %r15
	cmpq	%r11, %r15
	cmovaeq	%r11, %r15
	jae	.Lcovretin_BB_3e9be641_161
	movzwl	178(%r10), %r11d
	testw	%r11w, %r11w
	movl	-80(%rsp), %ebp
	je	.Lcovretin_BB_3e9be641_187
	movq	%rax, -96(%rsp)
	movq	-64(%rsp), %rax
	leaq	(%r15,%rax), %r14
	movl	-84(%rsp), %eax
	movq	%r15, %rsi
	subl	%r15d, %eax
	movq	$1, 152(%r10)
	movq	%r14, 160(%r10)
	movl	%eax, 168(%r10)
	movl	-76(%rsp), %eax
	movw	%ax, 172(%r10)
	movw	%bp, 174(%r10)
	decl	%r11d
	movw	%r11w, 178(%r10)
	jmp	.Lcovretin_BB_3e9be641_164
.Lcovretin_BB_3e9be641_118:
	testq	%r15, %r15
	je	.Lcovretin_BB_3e9be641_137
	movq	(%r10), %rbp
.Lcovretin_BB_3e9be641_120:
	xorl	%r13d, %r13d
	xorl	%esi, %esi
	jmp	.Lcovretin_BB_3e9be641_122
.Lcovretin_BB_3e9be641_121:
	incq	%rsi
	addq	$32, %r13
	cmpq	%rsi, %r15
	je	.Lcovretin_BB_3e9be641_137
.Lcovretin_BB_3e9be641_122:
	movq	%r14, %r11
	subq	(%rbp,%r13), %r11
	jb	.Lcovretin_BB_3e9be641_121
	movq	8(%rbp,%r13), %rax
	testq	%rax, %rax
	je	.Lcovretin_BB_3e9be641_121
	decq	%rax
	cmpq	%rax, %r11
	ja	.Lcovretin_BB_3e9be641_121
.Lcovretin_BB_3e9be641_125:
	movl	-84(%rsp), %eax
	movq	%rsi, 48(%r10)
	movq	8(%rbp,%r13), %r15
	movq	%r14, %r11
	subq	(%rbp,%r13), %r11
	movq	24(%rbp,%r13), %r13
	addq	%r11, %r13
	subq	%r11, %r15
	cmpq	%rax, %r15
	cmovaeq	%rax, %r15
	jae	.Lcovretin_BB_3e9be641_174
	movzwl	178(%r10), %r11d
	testw	%r11w, %r11w
	je	.Lcovretin_BB_3e9be641_188
	leaq	(%r15,%r14), %rax
	movl	-84(%rsp), %esi
	subl	%r15d, %esi
	movq	$1, 152(%r10)
	movq	%rax, 160(%r10)
	movl	%esi, 168(%r10)
	movl	-96(%rsp), %eax
	movw	%ax, 172(%r10)
	movw	%r12w, 174(%r10)
	decl	%r11d
	movw	%r11w, 178(%r10)
	jmp	.Lcovretin_BB_3e9be641_177
.Lcovretin_BB_3e9be641_128:
	movl	$9, %ebp
	jmp	.Lcovretin_BB_3e9be641_135
.Lcovretin_BB_3e9be641_129:
	movl	$9, %ebp
	jmp	.Lcovretin_BB_3e9be641_138
.Lcovretin_BB_3e9be641_130:
	movl	$10, %ebp
	cmpw	%ax, %r11w
	jbe	.Lcovretin_BB_3e9be641_132
	movq	112(%r10), %rax
	movl	$17, %ebp
	movq	-64(%rsp), %r11
	cmpw	$0, (%rax,%r11,2)
	je	.Lcovretin_BB_3e9be641_60
.Lcovretin_BB_3e9be641_132:
	movb	$1, 187(%r10)
.Lcovretin_BB_3e9be641_133:
	movb	$1, %r12b
	movq	$0, -96(%rsp)
	xorl	%esi, %esi
	xorl	%r15d, %r15d
	xorl	%ebx, %ebx
	xorl	%eax, %eax
	jmp	.Lcovretin_BB_3e9be641_139
.Lcovretin_BB_3e9be641_153:
	testq	%r15, %r15
	je	.Lcovretin_BB_3e9be641_134
	movq	(%r10), %r12
.Lcovretin_BB_3e9be641_155:
	xorl	%esi, %esi
	xorl	%r13d, %r13d
	jmp	.Lcovretin_BB_3e9be641_157
.Lcovretin_BB_3e9be641_156:
	incq	%r13
	addq	$32, %rsi
	movl	$8, %ebp
	cmpq	%r13, %r15
	je	.Lcovretin_BB_3e9be641_135
.Lcovretin_BB_3e9be641_157:
	movq	%r14, %r11
	subq	(%r12,%rsi), %r11
	jb	.Lcovretin_BB_3e9be641_156
	movq	8(%r12,%rsi), %rbp
	subq	%rax, %rbp
	jb	.Lcovretin_BB_3e9be641_156
	cmpq	%rbp, %r11
	ja	.Lcovretin_BB_3e9be641_156
.Lcovretin_BB_3e9be641_160:
	movq	%r13, 48(%r10)
	subq	(%r12,%rsi), %r14
	addq	24(%r12,%rsi), %r14
	movq	%r14, 136(%r10)
	movq	-96(%rsp), %rax
	movw	%ax, 144(%r10)
	movl	$1, 146(%r10)
	movb	$0, 181(%r10)
	xorps	%xmm0, %xmm0
	leaq	152(%r10), %rax
	movups	%xmm0, (%rax)
	movq	$0, 16(%rax)
	movl	$0, -69(%rsp)
	movl	$0, -72(%rsp)
	xorl	%eax, %eax
	movq	$0, -96(%rsp)
	xorl	%esi, %esi
	xorl	%r15d, %r15d
	xorl	%ebx, %ebx
	movq	-56(%rsp), %r13
	jmp	.Lcovretin_BB_3e9be641_165
.Lcovretin_BB_3e9be641_134:
	movl	$8, %ebp
.Lcovretin_BB_3e9be641_135:
	movb	$1, 184(%r10)
	movb	$1, %r12b
	movq	$0, -96(%rsp)
	xorl	%esi, %esi
	xorl	%r15d, %r15d
	xorl	%ebx, %ebx
	xorl	%eax, %eax
	movq	-56(%rsp), %r13
.Lcovretin_BB_3e9be641_136:
	movl	-32(%rsp), %r11d
	movl	-29(%rsp), %r14d
	jmp	.Lcovretin_BB_3e9be641_140
.Lcovretin_BB_3e9be641_161:
	testb	$1, -76(%rsp)
	movl	-80(%rsp), %r11d
	jne	.Lcovretin_BB_3e9be641_183
	movzwl	176(%r10), %r11d
	xorl	%r12d, %r12d
	movl	$0, -80(%rsp)
.Lcovretin_BB_3e9be641_163:
	movq	%r15, %rsi
	movq	%rax, -96(%rsp)
	movw	%r12w, 146(%r10)
	movl	-80(%rsp), %ebp
	movw	%bp, 148(%r10)
	decl	%r11d
	xorps	%xmm0, %xmm0
	leaq	152(%r10), %r14
	movups	%xmm0, (%r14)
	movq	$0, 16(%r14)
	movw	%r11w, 176(%r10)
	movl	-76(%rsp), %eax
.Lcovretin_BB_3e9be641_164:
	shrl	%ebx
	shrb	%al
	andb	$1, %al
	movb	%al, 180(%r10)
	movl	$0, -69(%rsp)
	movl	$0, -72(%rsp)
	movb	$1, %al
	movq	-56(%rsp), %r13
	movq	-64(%rsp), %r15
.Lcovretin_BB_3e9be641_165:
	movl	-72(%rsp), %r11d
	movl	-69(%rsp), %ebp
	movl	%ebp, -29(%rsp)
	movl	%r11d, -32(%rsp)
	xorl	%r12d, %r12d
	xorl	%ebp, %ebp
	jmp	.Lcovretin_BB_3e9be641_136
.Lcovretin_BB_3e9be641_166:
	testq	%r15, %r15
	je	.Lcovretin_BB_3e9be641_137
	movq	(%r10), %r12
.Lcovretin_BB_3e9be641_168:
	xorl	%esi, %esi
	xorl	%r13d, %r13d
	jmp	.Lcovretin_BB_3e9be641_170
.Lcovretin_BB_3e9be641_169:
	incq	%r13
	addq	$32, %rsi
	movl	$8, %ebp
	cmpq	%r13, %r15
	je	.Lcovretin_BB_3e9be641_138
.Lcovretin_BB_3e9be641_170:
	movq	%rbx, %r11
	subq	(%r12,%rsi), %r11
	jb	.Lcovretin_BB_3e9be641_169
	movq	8(%r12,%rsi), %rbp
	subq	%rax, %rbp
	jb	.Lcovretin_BB_3e9be641_169
	cmpq	%rbp, %r11
	ja	.Lcovretin_BB_3e9be641_169
.Lcovretin_BB_3e9be641_173:
	movq	%r13, 48(%r10)
	subq	(%r12,%rsi), %rbx
	addq	24(%r12,%rsi), %rbx
	movq	%rbx, 136(%r10)
	movw	%r14w, 144(%r10)
	movl	$1, 146(%r10)
	movb	$0, 181(%r10)
	xorps	%xmm0, %xmm0
	leaq	152(%r10), %rax
	movups	%xmm0, (%rax)
	movq	$0, 16(%rax)
	movl	$0, -69(%rsp)
	movl	$0, -72(%rsp)
	xorl	%eax, %eax
	movq	$0, -96(%rsp)
	xorl	%esi, %esi
	xorl	%r14d, %r14d
	xorl	%ebx, %ebx
	jmp	.Lcovretin_BB_3e9be641_178
.Lcovretin_BB_3e9be641_137:
	movl	$8, %ebp
.Lcovretin_BB_3e9be641_138:
	movb	$1, 187(%r10)
	movb	$1, %r12b
	movq	$0, -96(%rsp)
	xorl	%esi, %esi
	xorl	%r15d, %r15d
	xorl	%ebx, %ebx
	xorl	%eax, %eax
	movq	-8(%rsp), %rcx
	movq	-56(%rsp), %r13
.Lcovretin_BB_3e9be641_139:
	movl	-40(%rsp), %r11d
	movl	-37(%rsp), %r14d
.Lcovretin_BB_3e9be641_140:
	movl	%r14d, -21(%rsp)
	movl	%r11d, -24(%rsp)
	movl	-24(%rsp), %r11d
	movl	-21(%rsp), %r14d
	movl	%r14d, -13(%rsp)
	movl	%r11d, -16(%rsp)
	testb	%r12b, %r12b
	jne	.Lcovretin_BB_3e9be641_237
	testb	%al, %al
	je	.Lcovretin_BB_3e9be641_143
	movq	%r13, %rax
	shlq	$5, %rax
	movq	-96(%rsp), %r11
	movq	%r11, (%r8,%rax)
	movq	%rsi, 8(%r8,%rax)
	movq	%r15, 16(%r8,%rax)
	movb	%bl, 24(%r8,%rax)
	movl	-16(%rsp), %r11d
	movl	-13(%rsp), %esi
	movl	%r11d, 25(%r8,%rax)
	movl	%esi, 28(%r8,%rax)
	incq	%r13
.Lcovretin_BB_3e9be641_143:
	movq	-48(%rsp), %r15
	movzbl	56(%r10), %ebp
	cmpl	$2, %ebp
	je	.Lcovretin_BB_3e9be641_145
	cmpl	$1, %ebp
	jne	.Lcovretin_BB_3e9be641_146
.Lcovretin_BB_3e9be641_145:
	leaq	152(%r10), %rax
	testb	$1, (%rax)
	jne	.Lcovretin_BB_3e9be641_147
.Lcovretin_BB_3e9be641_146:
	incq	%r15
.Lcovretin_BB_3e9be641_147:
	cmpq	%r9, %r13
	jae	.Lcovretin_BB_3e9be641_149
	cmpq	%rcx, %r15
	jb	.Lcovretin_BB_3e9be641_17
	jmp	.Lcovretin_BB_3e9be641_149
.Lcovretin_BB_3e9be641_174:
	testb	$1, -96(%rsp)
	jne	.Lcovretin_BB_3e9be641_185
	movzwl	176(%r10), %r11d
	xorl	%eax, %eax
	xorl	%r12d, %r12d
.Lcovretin_BB_3e9be641_176:
	movw	%ax, 146(%r10)
	movw	%r12w, 148(%r10)
	decl	%r11d
	xorps	%xmm0, %xmm0
	leaq	152(%r10), %rax
	movups	%xmm0, (%rax)
	movq	$0, 16(%rax)
	movl	-96(%rsp), %eax
	movw	%r11w, 176(%r10)
	movq	%rbx, %r14
.Lcovretin_BB_3e9be641_177:
	movq	%r15, %rsi
	movq	%r13, -96(%rsp)
	shrl	%ecx
	movq	%rcx, %rbx
	shrb	%al
	andb	$1, %al
	movb	%al, 180(%r10)
	movl	$0, -69(%rsp)
	movl	$0, -72(%rsp)
	movb	$1, %al
.Lcovretin_BB_3e9be641_178:
	movl	-80(%rsp), %ebp
	movzbl	-76(%rsp), %ecx
	testb	$1, %cl
	movq	-8(%rsp), %rcx
	movq	-56(%rsp), %r13
	jne	.Lcovretin_BB_3e9be641_182
	cmpb	$1, 186(%r10)
	jne	.Lcovretin_BB_3e9be641_182
	movzwl	184(%r10), %r11d
	incl	%r11d
	movw	%r11w, 184(%r10)
	andl	$5, %ebp
	cmpw	$1, %bp
	je	.Lcovretin_BB_3e9be641_182
	movb	$0, 186(%r10)
	movq	%r14, %r15
	movq	112(%r10), %r14
	movq	-64(%rsp), %r12
	movw	%r11w, (%r14,%r12,2)
	movl	64(%r10), %r11d
	movl	184(%r10), %ebp
	movzwl	98(%r10), %r14d
	subl	%r14d, %r11d
	movl	%r11d, %r12d
	negl	%r11d
	cmpw	%r12w, %bp
	setae	%r12b
	cmovbl	%r14d, %r11d
	movq	%r15, %r14
	addl	%ebp, %r11d
	movw	%r11w, 98(%r10)
	xorb	%r12b, 100(%r10)
	movb	$0, 101(%r10)
.Lcovretin_BB_3e9be641_182:
	movq	%r14, %r15
	movl	-72(%rsp), %r11d
	movl	-69(%rsp), %ebp
	movl	%ebp, -37(%rsp)
	movl	%r11d, -40(%rsp)
	xorl	%r12d, %r12d
	xorl	%ebp, %ebp
	jmp	.Lcovretin_BB_3e9be641_139
.Lcovretin_BB_3e9be641_183:
	movl	$10, %ebp
	cmpw	%r11w, 144(%r10)
	jbe	.Lcovretin_BB_3e9be641_135
	movzwl	176(%r10), %r11d
	movw	$1, %r12w
	movl	$11, %ebp
	cmpw	$1, %r11w
	je	.Lcovretin_BB_3e9be641_135
	jmp	.Lcovretin_BB_3e9be641_163
.Lcovretin_BB_3e9be641_185:
	movl	$10, %ebp
	cmpw	%r12w, 144(%r10)
	jbe	.Lcovretin_BB_3e9be641_138
	movzwl	176(%r10), %r11d
	movw	$1, %ax
	movl	$11, %ebp
	cmpw	$1, %r11w
	je	.Lcovretin_BB_3e9be641_138
	jmp	.Lcovretin_BB_3e9be641_176
.Lcovretin_BB_3e9be641_187:
	movl	$11, %ebp
	jmp	.Lcovretin_BB_3e9be641_135
.Lcovretin_BB_3e9be641_188:
	movl	$11, %ebp
	jmp	.Lcovretin_BB_3e9be641_138
.Lcovretin_BB_3e9be641_189:
	movq	%r10, (%rdi)
	movl	$103, %eax
	jmp	.Lcovretin_BB_3e9be641_238
.Lcovretin_BB_3e9be641_190:
	movq	%r10, (%rdi)
	movl	$21, %eax
	jmp	.Lcovretin_BB_3e9be641_238
.Lcovretin_BB_3e9be641_149:
	movq	56(%rsp), %rcx
	movzbl	%bpl, %r8d
	xorl	%eax, %eax
	testb	%r8b, %r8b
	je	.Lcovretin_BB_3e9be641_232
	cmpl	$2, %r8d
	movzbl	146(%r10), %ebp
	movzwl	144(%r10), %edx
	shll	$4, %edx
	cmpb	$1, %bpl
	jne	.Lcovretin_BB_3e9be641_152
	movzwl	148(%r10), %esi
	jmp	.Lcovretin_BB_3e9be641_235
.Lcovretin_BB_3e9be641_191:
	movb	$1, 184(%r10)
.Lcovretin_BB_3e9be641_192:
	movq	%r10, (%rdi)
	movl	$11, %eax
	jmp	.Lcovretin_BB_3e9be641_238
.Lcovretin_BB_3e9be641_193:
	incl	%eax
	movq	72(%r10), %r14
	movzbl	97(%r10), %r15d
	movq	%r14, 136(%r10)
	movw	%bp, 144(%r10)
	movw	$1, 146(%r10)
	movw	%si, 148(%r10)
	xorps	%xmm0, %xmm0
	movups	%xmm0, 152(%r10)
	movq	$0, 168(%r10)
	movzwl	182(%r10), %esi
	movw	%si, 176(%r10)
	movw	$508, 178(%r10)
	movb	$0, 180(%r10)
	movb	%r15b, 181(%r10)
	movb	$1, (%rbx,%r11)
	movw	%ax, 98(%r10)
	cmpb	$1, 56(%r10)
	jne	.Lcovretin_BB_3e9be641_14
	cmpq	%r9, %rcx
	movq	%r9, %r15
	cmovbq	%rcx, %r15
	testq	%r15, %r15
	je	.Lcovretin_BB_3e9be641_14
	leaq	152(%r10), %rsi
	xorl	%r13d, %r13d
	movq	%r15, -48(%rsp)
.Lcovretin_BB_3e9be641_196:
	cmpb	$0, 184(%r10)
	jne	.Lcovretin_BB_3e9be641_240
	movq	%r13, %rax
	shlq	$4, %rax
	movq	(%rdx,%rax), %rbx
	movl	8(%rdx,%rax), %r11d
	movq	%r11, -96(%rsp)
	movzwl	12(%rdx,%rax), %ebp
	movzbl	(%rsi), %esi
	testb	$4, %bpl
	jne	.Lcovretin_BB_3e9be641_241
	testb	$1, %sil
	jne	.Lcovretin_BB_3e9be641_240
	cmpb	$1, 146(%r10)
	jne	.Lcovretin_BB_3e9be641_240
	testb	$1, %bpl
	jne	.Lcovretin_BB_3e9be641_202
	xorl	%r11d, %r11d
	xorl	%esi, %esi
	jmp	.Lcovretin_BB_3e9be641_204
.Lcovretin_BB_3e9be641_202:
	movzwl	14(%rdx,%rax), %esi
	cmpw	%si, 144(%r10)
	jbe	.Lcovretin_BB_3e9be641_240
	movw	$1, %r11w
	cmpw	$1, 176(%r10)
	je	.Lcovretin_BB_3e9be641_240
.Lcovretin_BB_3e9be641_204:
	movl	%ebp, %r12d
	andl	$2, %r12d
	sete	%al
	cmpq	$0, -96(%rsp)
	je	.Lcovretin_BB_3e9be641_240
	movl	%r11d, -80(%rsp)
	movl	%esi, -64(%rsp)
	andb	180(%r10), %al
	jne	.Lcovretin_BB_3e9be641_240
	movq	%r13, -56(%rsp)
	movq	8(%r10), %rax
	movq	48(%r10), %rsi
	cmpq	%rax, %rsi
	jae	.Lcovretin_BB_3e9be641_210
	movq	(%r10), %r11
	shlq	$5, %rsi
	movq	%rbx, %r15
	subq	(%r11,%rsi), %r15
	jb	.Lcovretin_BB_3e9be641_210
	movq	8(%r11,%rsi), %r13
	subq	-96(%rsp), %r13
	jb	.Lcovretin_BB_3e9be641_210
	cmpq	%r13, %r15
	jbe	.Lcovretin_BB_3e9be641_229
.Lcovretin_BB_3e9be641_210:
	movl	%ebp, -84(%rsp)
	movq	32(%r10), %rbp
	testq	%rbp, %rbp
	je	.Lcovretin_BB_3e9be641_221
	movq	24(%r10), %rsi
	xorl	%r13d, %r13d
	jmp	.Lcovretin_BB_3e9be641_213
.Lcovretin_BB_3e9be641_212:
	movq	%r15, %rbp
	cmpq	%r15, %r13
	jae	.Lcovretin_BB_3e9be641_216
.Lcovretin_BB_3e9be641_213:
	movq	%rbp, %r15
	subq	%r13, %r15
	shrq	%r15
	addq	%r13, %r15
	movzwl	(%rsi,%r15,2), %r11d
	cmpq	%r11, %rax
	jbe	.Lcovretin_BB_3e9be641_212
	movq	(%r10), %r14
	shll	$5, %r11d
	cmpq	%rbx, (%r14,%r11)
	ja	.Lcovretin_BB_3e9be641_212
	movq	%r15, %r13
	incq	%r13
	movq	%rbp, %r15
	cmpq	%r15, %r13
	jb	.Lcovretin_BB_3e9be641_213
.Lcovretin_BB_3e9be641_216:
	testq	%r13, %r13
	je	.Lcovretin_BB_3e9be641_221
	movzwl	-2(%rsi,%r13,2), %r15d
	cmpq	%r15, %rax
	jbe	.Lcovretin_BB_3e9be641_221
	movq	(%r10), %rsi
	movl	%r15d, %r13d
	shll	$5, %r13d
	movq	%rbx, %r11
	subq	(%rsi,%r13), %r11
	jb	.Lcovretin_BB_3e9be641_223
	movq	8(%rsi,%r13), %rbp
	subq	-96(%rsp), %rbp
	jb	.Lcovretin_BB_3e9be641_223
	cmpq	%rbp, %r11
	ja	.Lcovretin_BB_3e9be641_223
	jmp	.Lcovretin_BB_3e9be641_228
.Lcovretin_BB_3e9be641_221:
	testq	%rax, %rax
	je	.Lcovretin_BB_3e9be641_239
	movq	(%r10), %rsi
.Lcovretin_BB_3e9be641_223:
	xorl	%r13d, %r13d
	xorl	%r15d, %r15d
	jmp	.Lcovretin_BB_3e9be641_225
.Lcovretin_BB_3e9be641_224:
	incq	%r15
	addq	$32, %r13
	cmpq	%r15, %rax
	je	.Lcovretin_BB_3e9be641_239
.Lcovretin_BB_3e9be641_225:
	movq	%rbx, %r11
	subq	(%rsi,%r13), %r11
	jb	.Lcovretin_BB_3e9be641_224
	movq	8(%rsi,%r13), %rbp
	subq	-96(%rsp), %rbp
	jb	.Lcovretin_BB_3e9be641_224
	cmpq	%rbp, %r11
	ja	.Lcovretin_BB_3e9be641_224
.Lcovretin_BB_3e9be641_228:
	movq	%r15, 48(%r10)
	movq	%rbx, %r15
	subq	(%rsi,%r13), %r15
	addq	24(%rsi,%r13), %r15
	movl	-84(%rsp), %ebp
	jmp	.Lcovretin_BB_3e9be641_230
.Lcovretin_BB_3e9be641_229:
	addq	24(%r11,%rsi), %r15
.Lcovretin_BB_3e9be641_230:
	shrl	%r12d
	movl	-80(%rsp), %eax
	movw	%ax, 146(%r10)
	movl	-64(%rsp), %eax
	movw	%ax, 148(%r10)
	decw	176(%r10)
	shrb	%bpl
	andb	$1, %bpl
	movb	%bpl, 180(%r10)
	movq	-56(%rsp), %r13
	movq	%r13, %rax
	shlq	$5, %rax
	movq	%r15, (%r8,%rax)
	movq	-96(%rsp), %rsi
	movq	%rsi, 8(%r8,%rax)
	movq	%rbx, 16(%r8,%rax)
	movb	%r12b, 24(%r8,%rax)
	movl	$0, 25(%r8,%rax)
	movl	$0, 28(%r8,%rax)
	incq	%r13
	movq	-48(%rsp), %r15
	cmpq	%r15, %r13
	leaq	152(%r10), %rsi
	jne	.Lcovretin_BB_3e9be641_196
	movq	%r15, %r13
	jmp	.Lcovretin_BB_3e9be641_15
.Lcovretin_BB_3e9be641_232:
	movq	%r8, %rdx
	xorl	%esi, %esi
	jmp	.Lcovretin_BB_3e9be641_236
.Lcovretin_BB_3e9be641_152:
	xorl	%esi, %esi
.Lcovretin_BB_3e9be641_235:
	movq	136(%r10), %r8
	andb	$1, %bpl
.Lcovretin_BB_3e9be641_236:
	movq	%r10, (%rdi)
	movq	%r15, (%rcx)
	movq	%r13, 8(%rcx)
	movq	%r8, 16(%rcx)
	movq	%rdx, 24(%rcx)
	movw	%si, 32(%rcx)
	movb	%bpl, 34(%rcx)
	movl	$0, 35(%rcx)
	movb	$0, 39(%rcx)
	jmp	.Lcovretin_BB_3e9be641_238
.Lcovretin_BB_3e9be641_237:
	movq	%r10, (%rdi)
	leaq	.Lcovretin_switch.table.covretin_queue_step(%rip), %rax
	movl	(%rax,%rbp,4), %eax
.Lcovretin_BB_3e9be641_238:
	popq	%rbx
	.cfi_def_cfa_offset 48
	popq	%r12
	.cfi_def_cfa_offset 40
	popq	%r13
	.cfi_def_cfa_offset 32
	popq	%r14
	.cfi_def_cfa_offset 24
	popq	%r15
	.cfi_def_cfa_offset 16
	popq	%rbp
	.cfi_def_cfa_offset 8
	retq
.Lcovretin_BB_3e9be641_239:
	.cfi_def_cfa_offset 56
	movq	-56(%rsp), %r13
.Lcovretin_BB_3e9be641_240:
	movq	%r13, %r15
	jmp	.Lcovretin_BB_3e9be641_15
.Lcovretin_BB_3e9be641_241:
	testb	$1, %sil
	jne	.Lcovretin_BB_3e9be641_240
	movq	%r13, %r11
	cmpb	$1, 146(%r10)
	jne	.Lcovretin_BB_3e9be641_270
	testb	$1, %bpl
	jne	.Lcovretin_BB_3e9be641_270
	cmpb	$0, 181(%r10)
	je	.Lcovretin_BB_3e9be641_270
	movq	-96(%rsp), %rsi
	testq	%rsi, %rsi
	sete	%al
	testb	$15, %sil
	setne	%sil
	orb	%al, %sil
	jne	.Lcovretin_BB_3e9be641_270
	movzwl	176(%r10), %eax
	movq	-96(%rsp), %rsi
	shrl	$4, %esi
	movq	%rsi, -48(%rsp)
	cmpq	%rax, %rsi
	ja	.Lcovretin_BB_3e9be641_270
	movq	8(%r10), %r15
	movq	48(%r10), %r12
	cmpq	%r15, %r12
	jae	.Lcovretin_BB_3e9be641_251
	movq	(%r10), %rax
	movq	%r12, %rsi
	shlq	$5, %rsi
	movq	%rbx, %r13
	subq	(%rax,%rsi), %r13
	jb	.Lcovretin_BB_3e9be641_251
	movq	8(%rax,%rsi), %rbp
	subq	-96(%rsp), %rbp
	jb	.Lcovretin_BB_3e9be641_251
	cmpq	%rbp, %r13
	jbe	.Lcovretin_BB_3e9be641_269
.Lcovretin_BB_3e9be641_251:
	movq	32(%r10), %rsi
	testq	%rsi, %rsi
	je	.Lcovretin_BB_3e9be641_262
	movq	24(%r10), %rax
	xorl	%r12d, %r12d
	jmp	.Lcovretin_BB_3e9be641_254
.Lcovretin_BB_3e9be641_253:
	movq	%r13, %rsi
	cmpq	%r13, %r12
	jae	.Lcovretin_BB_3e9be641_257
.Lcovretin_BB_3e9be641_254:
	movq	%rsi, %r13
	subq	%r12, %r13
	shrq	%r13
	addq	%r12, %r13
	movzwl	(%rax,%r13,2), %ebp
	cmpq	%rbp, %r15
	jbe	.Lcovretin_BB_3e9be641_253
	movq	(%r10), %r14
	shll	$5, %ebp
	cmpq	%rbx, (%r14,%rbp)
	ja	.Lcovretin_BB_3e9be641_253
	movq	%r13, %r12
	incq	%r12
	movq	%rsi, %r13
	cmpq	%r13, %r12
	jb	.Lcovretin_BB_3e9be641_254
.Lcovretin_BB_3e9be641_257:
	testq	%r12, %r12
	je	.Lcovretin_BB_3e9be641_262
	movzwl	-2(%rax,%r12,2), %r12d
	cmpq	%r12, %r15
	jbe	.Lcovretin_BB_3e9be641_262
	movq	(%r10), %rax
	movl	%r12d, %esi
	shll	$5, %esi
	movq	%rbx, %r13
	subq	(%rax,%rsi), %r13
	jb	.Lcovretin_BB_3e9be641_264
	movq	8(%rax,%rsi), %rbp
	subq	-96(%rsp), %rbp
	jb	.Lcovretin_BB_3e9be641_264
	cmpq	%rbp, %r13
	ja	.Lcovretin_BB_3e9be641_264
	jmp	.Lcovretin_BB_3e9be641_269
.Lcovretin_BB_3e9be641_262:
	testq	%r15, %r15
	je	.Lcovretin_BB_3e9be641_270
	movq	(%r10), %rax
.Lcovretin_BB_3e9be641_264:
	xorl	%esi, %esi
	xorl	%r12d, %r12d
	jmp	.Lcovretin_BB_3e9be641_266
.Lcovretin_BB_3e9be641_265:
	incq	%r12
	addq	$32, %rsi
	cmpq	%r12, %r15
	je	.Lcovretin_BB_3e9be641_270
.Lcovretin_BB_3e9be641_266:
	movq	%rbx, %r13
	subq	(%rax,%rsi), %r13
	jb	.Lcovretin_BB_3e9be641_265
	movq	8(%rax,%rsi), %rbp
	subq	-96(%rsp), %rbp
	jb	.Lcovretin_BB_3e9be641_265
	cmpq	%rbp, %r13
	ja	.Lcovretin_BB_3e9be641_265
.Lcovretin_BB_3e9be641_269:
	movq	%r12, 48(%r10)
	subq	(%rax,%rsi), %rbx
	addq	24(%rax,%rsi), %rbx
	movq	%rbx, 136(%r10)
	movq	-48(%rsp), %rax
	movw	%ax, 144(%r10)
	movl	$1, 146(%r10)
	movb	$0, 181(%r10)
	xorps	%xmm0, %xmm0
	leaq	152(%r10), %rax
	movups	%xmm0, (%rax)
	movq	$0, 16(%rax)
	movq	%r11, %r13
	leaq	1(%r11), %r15
	jmp	.Lcovretin_BB_3e9be641_15
.Lcovretin_BB_3e9be641_270:
	movq	%r11, %r13
	movq	%r11, %r15
	jmp	.Lcovretin_BB_3e9be641_15
.Lcovretin_func_end_3e9be641:
	.size	covretin_queue_take, .Lcovretin_func_end_3e9be641-covretin_queue_take
	.cfi_endproc

	.section	.text.covretin_queue_translate,"ax",@progbits
	.globl	covretin_queue_translate
	.p2align	4
	.type	covretin_queue_translate,@function
covretin_queue_translate:
	.cfi_startproc
	endbr64
	movq	(%rdi), %rax
	movq	$0, (%rdi)
	testq	%rax, %rax
	je	.Lcovretin_BB_b89d4f87_1
	pushq	%r15
	.cfi_def_cfa_offset 16
	pushq	%r14
	.cfi_def_cfa_offset 24
	pushq	%r13
	.cfi_def_cfa_offset 32
	pushq	%r12
	.cfi_def_cfa_offset 40
	pushq	%rbx
	.cfi_def_cfa_offset 48
	.cfi_offset %rbx, -48
	.cfi_offset %r12, -40
	.cfi_offset %r13, -32
	.cfi_offset %r14, -24
	.cfi_offset %r15, -16
	xorps	%xmm0, %xmm0
	movaps	%xmm0, -64(%rsp)
	movaps	%xmm0, -48(%rsp)
	movaps	%xmm0, -32(%rsp)
	movaps	%xmm0, -16(%rsp)
	movq	8(%rax), %r9
	movq	48(%rax), %rbx
	cmpq	%r9, %rbx
	jae	.Lcovretin_BB_b89d4f87_8
	testq	%rcx, %rcx
	je	.Lcovretin_BB_b89d4f87_8
	movq	(%rax), %r10
	movq	%rbx, %r14
	shlq	$5, %r14
	leaq	(%r10,%r14), %r15
	movzbl	%sil, %r11d
	andl	$1, %r11d
	shll	$4, %r11d
	movq	%rdx, %r12
	subq	(%r11,%r15), %r12
	jb	.Lcovretin_BB_b89d4f87_8
	movq	8(%r15), %r15
	subq	%rcx, %r15
	jb	.Lcovretin_BB_b89d4f87_8
	cmpq	%r15, %r12
	jbe	.Lcovretin_BB_b89d4f87_31
.Lcovretin_BB_b89d4f87_8:
	movq	32(%rax), %r11
	testq	%r11, %r11
	je	.Lcovretin_BB_b89d4f87_21
	movq	24(%rax), %r10
	xorl	%ebx, %ebx
	jmp	.Lcovretin_BB_b89d4f87_10
	.p2align	4
.Lcovretin_BB_b89d4f87_13:
	movq	%r14, %r11
	cmpq	%r14, %rbx
	jae	.Lcovretin_BB_b89d4f87_15
.Lcovretin_BB_b89d4f87_10:
	movq	%r11, %r14
	subq	%rbx, %r14
	shrq	%r14
	addq	%rbx, %r14
	movzwl	(%r10,%r14,2), %r15d
	cmpq	%r15, %r9
	jbe	.Lcovretin_BB_b89d4f87_13
	movq	(%rax), %r12
	shll	$5, %r15d
	cmpq	%rdx, (%r12,%r15)
	ja	.Lcovretin_BB_b89d4f87_13
	movq	%r14, %rbx
	incq	%rbx
	movq	%r11, %r14
	cmpq	%r14, %rbx
	jb	.Lcovretin_BB_b89d4f87_10
.Lcovretin_BB_b89d4f87_15:
	testq	%rbx, %rbx
	je	.Lcovretin_BB_b89d4f87_21
	movzwl	-2(%r10,%rbx,2), %ebx
	cmpq	%rbx, %r9
	jbe	.Lcovretin_BB_b89d4f87_21
	movq	(%rax), %r10
	movzbl	%sil, %r11d
	andl	$1, %r11d
	shll	$4, %r11d
	testq	%rcx, %rcx
	je	.Lcovretin_BB_b89d4f87_23
	movl	%ebx, %r14d
	shll	$5, %r14d
	leaq	(%r10,%r14), %r12
	movq	%rdx, %r15
	subq	(%r11,%r12), %r15
	jb	.Lcovretin_BB_b89d4f87_23
	movq	8(%r12), %r12
	subq	%rcx, %r12
	jb	.Lcovretin_BB_b89d4f87_24
	cmpq	%r12, %r15
	ja	.Lcovretin_BB_b89d4f87_24
	jmp	.Lcovretin_BB_b89d4f87_31
.Lcovretin_BB_b89d4f87_21:
	testq	%r9, %r9
	je	.Lcovretin_BB_b89d4f87_29
	movq	(%rax), %r10
	movzbl	%sil, %r11d
	andl	$1, %r11d
	shll	$4, %r11d
.Lcovretin_BB_b89d4f87_23:
	testq	%rcx, %rcx
	je	.Lcovretin_BB_b89d4f87_29
.Lcovretin_BB_b89d4f87_24:
	leaq	8(%r10), %r15
	addq	%r10, %r11
	xorl	%r14d, %r14d
	xorl	%ebx, %ebx
	jmp	.Lcovretin_BB_b89d4f87_25
	.p2align	4
.Lcovretin_BB_b89d4f87_28:
	incq	%rbx
	addq	$32, %r14
	cmpq	%rbx, %r9
	je	.Lcovretin_BB_b89d4f87_29
.Lcovretin_BB_b89d4f87_25:
	movq	%rdx, %r12
	subq	(%r11,%r14), %r12
	jb	.Lcovretin_BB_b89d4f87_28
	movq	(%r15,%r14), %r13
	subq	%rcx, %r13
	jb	.Lcovretin_BB_b89d4f87_28
	cmpq	%r13, %r12
	ja	.Lcovretin_BB_b89d4f87_28
	movzbl	%sil, %r11d
	andl	$1, %r11d
	shll	$4, %r11d
.Lcovretin_BB_b89d4f87_31:
	movq	%rbx, 48(%rax)
	movups	(%r10,%r14), %xmm0
	movups	16(%r10,%r14), %xmm1
	movaps	%xmm1, -16(%rsp)
	movaps	%xmm1, -48(%rsp)
	movaps	%xmm0, -64(%rsp)
	addq	-40(%rsp), %rdx
	subq	-64(%rsp,%r11), %rdx
	movq	%rax, (%rdi)
	movq	%rdx, (%r8)
	movq	%rcx, 8(%r8)
	xorl	%eax, %eax
	jmp	.Lcovretin_BB_b89d4f87_32
.Lcovretin_BB_b89d4f87_29:
	movq	%rax, (%rdi)
	movl	$9, %eax
.Lcovretin_BB_b89d4f87_32:
	popq	%rbx
	.cfi_def_cfa_offset 40
	popq	%r12
	.cfi_def_cfa_offset 32
	popq	%r13
	.cfi_def_cfa_offset 24
	popq	%r14
	.cfi_def_cfa_offset 16
	popq	%r15
	.cfi_def_cfa_offset 8
	.cfi_restore %rbx
	.cfi_restore %r12
	.cfi_restore %r13
	.cfi_restore %r14
	.cfi_restore %r15
	retq
.Lcovretin_BB_b89d4f87_1:
	movl	$101, %eax
	retq
.Lcovretin_func_end_b89d4f87:
	.size	covretin_queue_translate, .Lcovretin_func_end_b89d4f87-covretin_queue_translate
	.cfi_endproc

	.section	.text.covretin_queue_walk,"ax",@progbits
	.globl	covretin_queue_walk
	.p2align	4
	.type	covretin_queue_walk,@function
covretin_queue_walk:
	.cfi_startproc
	endbr64
	pushq	%rbp
	.cfi_def_cfa_offset 16
	pushq	%r15
	.cfi_def_cfa_offset 24
	pushq	%r14
	.cfi_def_cfa_offset 32
	pushq	%r13
	.cfi_def_cfa_offset 40
	pushq	%r12
	.cfi_def_cfa_offset 48
	pushq	%rbx
	.cfi_def_cfa_offset 56
	.cfi_offset %rbx, -56
	.cfi_offset %r12, -48
	.cfi_offset %r13, -40
	.cfi_offset %r14, -32
	.cfi_offset %r15, -24
	.cfi_offset %rbp, -16
	movq	%r8, -24(%rsp)
	movq	%rdx, -32(%rsp)
	xorl	%edx, %edx
	testq	%rsi, %rsi
	sete	%r8b
	xorl	%eax, %eax
	testq	%rcx, %rcx
	sete	%r11b
	movq	(%rdi), %r10
	movq	$0, (%rdi)
	testq	%r10, %r10
	je	.Lcovretin_BB_bc369795_41
	movq	%rdi, -40(%rsp)
	movq	%r9, -8(%rsp)
	movb	%r8b, %dl
	shll	$12, %edx
	addq	%rdx, %rsi
	movb	%r11b, %al
	shll	$12, %eax
	addq	%rax, %rcx
	cmpb	$1, 56(%r10)
	jne	.Lcovretin_BB_bc369795_40
	movq	-24(%rsp), %rbx
	movq	-32(%rsp), %rax
	cmpq	%rbx, %rax
	cmovbq	%rax, %rbx
	testq	%rbx, %rbx
	je	.Lcovretin_BB_bc369795_40
	leaq	152(%r10), %r12
	xorl	%ebp, %ebp
.Lcovretin_BB_bc369795_4:
	cmpb	$0, 184(%r10)
	jne	.Lcovretin_BB_bc369795_253
	movq	%rbp, %rax
	shlq	$4, %rax
	movq	(%rsi,%rax), %r14
	movl	8(%rsi,%rax), %r15d
	movzwl	12(%rsi,%rax), %edx
	testb	$4, %dl
	jne	.Lcovretin_BB_bc369795_224
	testb	$1, (%r12)
	jne	.Lcovretin_BB_bc369795_253
	cmpb	$1, 146(%r10)
	jne	.Lcovretin_BB_bc369795_253
	testb	$1, %dl
	jne	.Lcovretin_BB_bc369795_10
	xorl	%r9d, %r9d
	xorl	%edi, %edi
	jmp	.Lcovretin_BB_bc369795_12
.Lcovretin_BB_bc369795_10:
	movzwl	14(%rsi,%rax), %edi
	cmpw	%di, 144(%r10)
	jbe	.Lcovretin_BB_bc369795_253
	movw	$1, %r9w
	cmpw	$1, 176(%r10)
	je	.Lcovretin_BB_bc369795_253
.Lcovretin_BB_bc369795_12:
	movq	%rbp, %r8
	movl	%edx, %ebp
	andl	$2, %ebp
	sete	%al
	testq	%r15, %r15
	je	.Lcovretin_BB_bc369795_42
	andb	180(%r10), %al
	jne	.Lcovretin_BB_bc369795_42
	movl	%r9d, -76(%rsp)
	movl	%edi, -104(%rsp)
	movl	%edx, -88(%rsp)
	movq	8(%r10), %r13
	movq	48(%r10), %rdx
	cmpq	%r13, %rdx
	jae	.Lcovretin_BB_bc369795_18
	movq	(%r10), %r11
	shlq	$5, %rdx
	movq	%r14, %rax
	subq	(%r11,%rdx), %rax
	jb	.Lcovretin_BB_bc369795_18
	movq	8(%r11,%rdx), %r9
	subq	%r15, %r9
	jb	.Lcovretin_BB_bc369795_18
	cmpq	%r9, %rax
	jbe	.Lcovretin_BB_bc369795_37
.Lcovretin_BB_bc369795_18:
	movq	32(%r10), %r12
	testq	%r12, %r12
	je	.Lcovretin_BB_bc369795_29
	movq	24(%r10), %rax
	xorl	%r11d, %r11d
	jmp	.Lcovretin_BB_bc369795_21
	.p2align	4
.Lcovretin_BB_bc369795_20:
	movq	%rdx, %r12
	cmpq	%rdx, %r11
	jae	.Lcovretin_BB_bc369795_24
.Lcovretin_BB_bc369795_21:
	movq	%r12, %rdx
	subq	%r11, %rdx
	shrq	%rdx
	addq	%r11, %rdx
	movzwl	(%rax,%rdx,2), %r9d
	cmpq	%r9, %r13
	jbe	.Lcovretin_BB_bc369795_20
	movq	(%r10), %rdi
	shll	$5, %r9d
	cmpq	%r14, (%rdi,%r9)
	ja	.Lcovretin_BB_bc369795_20
	movq	%rdx, %r11
	incq	%r11
	movq	%r12, %rdx
	cmpq	%rdx, %r11
	jb	.Lcovretin_BB_bc369795_21
.Lcovretin_BB_bc369795_24:
	testq	%r11, %r11
	je	.Lcovretin_BB_bc369795_29
	movzwl	-2(%rax,%r11,2), %eax
	cmpq	%rax, %r13
	jbe	.Lcovretin_BB_bc369795_29
	movq	(%r10), %rdx
	movl	%eax, %r11d
	shll	$5, %r11d
	movq	%r14, %r9
	subq	(%rdx,%r11), %r9
	jb	.Lcovretin_BB_bc369795_31
	movq	8(%rdx,%r11), %r12
	subq	%r15, %r12
	jb	.Lcovretin_BB_bc369795_31
	cmpq	%r12, %r9
	ja	.Lcovretin_BB_bc369795_31
	jmp	.Lcovretin_BB_bc369795_36
.Lcovretin_BB_bc369795_29:
	testq	%r13, %r13
	je	.Lcovretin_BB_bc369795_42
	movq	(%r10), %rdx
.Lcovretin_BB_bc369795_31:
	xorl	%r11d, %r11d
	xorl	%eax, %eax
	jmp	.Lcovretin_BB_bc369795_33
	.p2align	4
.Lcovretin_BB_bc369795_32:
	incq	%rax
	addq	$32, %r11
	cmpq	%rax, %r13
	je	.Lcovretin_BB_bc369795_42
.Lcovretin_BB_bc369795_33:
	movq	%r14, %r9
	subq	(%rdx,%r11), %r9
	jb	.Lcovretin_BB_bc369795_32
	movq	8(%rdx,%r11), %r12
	subq	%r15, %r12
	jb	.Lcovretin_BB_bc369795_32
	cmpq	%r12, %r9
	ja	.Lcovretin_BB_bc369795_32
.Lcovretin_BB_bc369795_36:
	movq	%rax, 48(%r10)
	movq	%r14, %rax
	subq	(%rdx,%r11), %rax
	addq	24(%rdx,%r11), %rax
	leaq	152(%r10), %r12
	jmp	.Lcovretin_BB_bc369795_38
.Lcovretin_BB_bc369795_37:
	addq	24(%r11,%rdx), %rax
.Lcovretin_BB_bc369795_38:
	shrl	%ebp
	movl	-76(%rsp), %edx
	movw	%dx, 146(%r10)
	movl	-104(%rsp), %edx
	movw	%dx, 148(%r10)
	decw	176(%r10)
	movl	-88(%rsp), %edx
	shrb	%dl
	andb	$1, %dl
	movb	%dl, 180(%r10)
	movq	%r8, %rdx
	shlq	$5, %rdx
	movq	%rax, (%rcx,%rdx)
	movq	%r15, 8(%rcx,%rdx)
	movq	%r14, 16(%rcx,%rdx)
	movb	%bpl, 24(%rcx,%rdx)
	movq	%r8, %rbp
	movl	$0, 25(%rcx,%rdx)
	movl	$0, 28(%rcx,%rdx)
	incq	%rbp
	cmpq	%rbx, %rbp
	jne	.Lcovretin_BB_bc369795_4
	movq	%rbx, %rbp
	jmp	.Lcovretin_BB_bc369795_43
.Lcovretin_BB_bc369795_40:
	xorl	%ebx, %ebx
	xorl	%ebp, %ebp
	jmp	.Lcovretin_BB_bc369795_43
.Lcovretin_BB_bc369795_41:
	movl	$101, %eax
	jmp	.Lcovretin_BB_bc369795_222
.Lcovretin_BB_bc369795_42:
	movq	%r8, %rbp
	movq	%r8, %rbx
.Lcovretin_BB_bc369795_43:
	cmpq	-32(%rsp), %rbx
	setae	%al
	cmpq	-24(%rsp), %rbp
	setae	%dl
	movzbl	56(%r10), %edi
	orb	%al, %dl
	jne	.Lcovretin_BB_bc369795_176
	.p2align	4
.Lcovretin_BB_bc369795_44:
	movq	%rbx, %rax
	shlq	$4, %rax
	movq	(%rsi,%rax), %r14
	movl	8(%rsi,%rax), %r13d
	movzwl	12(%rsi,%rax), %r12d
	movzwl	14(%rsi,%rax), %r8d
	movl	$0, -64(%rsp)
	movl	$0, -61(%rsp)
	movl	$0, -72(%rsp)
	movl	$0, -69(%rsp)
	cmpb	$1, %dil
	je	.Lcovretin_BB_bc369795_50
	movzbl	%dil, %eax
	cmpl	$2, %eax
	jne	.Lcovretin_BB_bc369795_223
	movl	$18, %edi
	cmpb	$0, 187(%r10)
	jne	.Lcovretin_BB_bc369795_160
	movl	$20, %edi
	cmpb	$1, 146(%r10)
	jne	.Lcovretin_BB_bc369795_160
	movzwl	%r12w, %r15d
	leaq	152(%r10), %rax
	movzbl	(%rax), %eax
	movb	%al, -76(%rsp)
	testb	$1, %al
	je	.Lcovretin_BB_bc369795_84
	movq	160(%r10), %r14
	movl	168(%r10), %r13d
	movzwl	172(%r10), %r12d
	movzwl	174(%r10), %edi
	jmp	.Lcovretin_BB_bc369795_88
	.p2align	4
.Lcovretin_BB_bc369795_50:
	movl	$18, %edi
	cmpb	$0, 184(%r10)
	jne	.Lcovretin_BB_bc369795_64
	movl	$20, %edi
	cmpb	$1, 146(%r10)
	jne	.Lcovretin_BB_bc369795_64
	cmpb	$1, 152(%r10)
	jne	.Lcovretin_BB_bc369795_54
	movq	160(%r10), %r14
	movl	168(%r10), %r13d
	movzwl	172(%r10), %r12d
	movzwl	174(%r10), %r8d
.Lcovretin_BB_bc369795_54:
	movq	%rbp, -88(%rsp)
	testb	$4, %r12b
	jne	.Lcovretin_BB_bc369795_74
	movl	%r8d, -104(%rsp)
	movl	%r12d, %r15d
	andl	$2, %r15d
	jne	.Lcovretin_BB_bc369795_57
	movl	$12, %edi
	cmpb	$0, 180(%r10)
	jne	.Lcovretin_BB_bc369795_162
.Lcovretin_BB_bc369795_57:
	testl	%r13d, %r13d
	je	.Lcovretin_BB_bc369795_155
	movq	8(%r10), %rax
	movq	48(%r10), %r9
	cmpq	%rax, %r9
	jae	.Lcovretin_BB_bc369795_62
	movq	(%r10), %rdi
	movq	%r9, %rbp
	shlq	$5, %rbp
	movq	%r14, %r11
	subq	(%rdi,%rbp), %r11
	jb	.Lcovretin_BB_bc369795_62
	movq	8(%rdi,%rbp), %rdx
	testq	%rdx, %rdx
	je	.Lcovretin_BB_bc369795_62
	decq	%rdx
	cmpq	%rdx, %r11
	jbe	.Lcovretin_BB_bc369795_142
.Lcovretin_BB_bc369795_62:
	movq	32(%r10), %r9
	testq	%r9, %r9
	je	.Lcovretin_BB_bc369795_135
	movq	24(%r10), %rdi
	xorl	%r11d, %r11d
	jmp	.Lcovretin_BB_bc369795_66
	.p2align	4
.Lcovretin_BB_bc369795_64:
	movb	$1, %r9b
	xorl	%eax, %eax
	xorl	%r11d, %r11d
	xorl	%r14d, %r14d
	xorl	%r15d, %r15d
	xorl	%r12d, %r12d
	jmp	.Lcovretin_BB_bc369795_163
	.p2align	4
.Lcovretin_BB_bc369795_65:
	movq	%rbp, %r9
	cmpq	%rbp, %r11
	jae	.Lcovretin_BB_bc369795_69
.Lcovretin_BB_bc369795_66:
	movq	%r9, %rbp
	subq	%r11, %rbp
	shrq	%rbp
	addq	%r11, %rbp
	movzwl	(%rdi,%rbp,2), %edx
	cmpq	%rdx, %rax
	jbe	.Lcovretin_BB_bc369795_65
	movq	(%r10), %r8
	shll	$5, %edx
	cmpq	%r14, (%r8,%rdx)
	ja	.Lcovretin_BB_bc369795_65
	movq	%rbp, %r11
	incq	%r11
	movq	%r9, %rbp
	cmpq	%rbp, %r11
	jb	.Lcovretin_BB_bc369795_66
.Lcovretin_BB_bc369795_69:
	testq	%r11, %r11
	je	.Lcovretin_BB_bc369795_135
	movzwl	-2(%rdi,%r11,2), %r9d
	cmpq	%r9, %rax
	jbe	.Lcovretin_BB_bc369795_135
	movq	(%r10), %rdi
	movl	%r9d, %ebp
	shll	$5, %ebp
	movq	%r14, %rdx
	subq	(%rdi,%rbp), %rdx
	jb	.Lcovretin_BB_bc369795_137
	movq	8(%rdi,%rbp), %r11
	testq	%r11, %r11
	je	.Lcovretin_BB_bc369795_137
	decq	%r11
	cmpq	%r11, %rdx
	ja	.Lcovretin_BB_bc369795_137
	jmp	.Lcovretin_BB_bc369795_142
.Lcovretin_BB_bc369795_74:
	movl	$13, %edi
	cmpb	$1, 181(%r10)
	jne	.Lcovretin_BB_bc369795_162
	movl	$14, %edi
	testb	$1, %r12b
	jne	.Lcovretin_BB_bc369795_162
	movl	%r13d, %eax
	testl	%r13d, %r13d
	sete	%dl
	testb	$15, %al
	setne	%r9b
	movl	$15, %edi
	orb	%dl, %r9b
	jne	.Lcovretin_BB_bc369795_162
	movzwl	176(%r10), %edx
	movl	%eax, %r9d
	shrl	$4, %r9d
	movl	$11, %edi
	cmpq	%rdx, %r9
	ja	.Lcovretin_BB_bc369795_162
	movq	8(%r10), %r15
	movq	48(%r10), %r13
	cmpq	%r15, %r13
	jae	.Lcovretin_BB_bc369795_82
	movq	(%r10), %r12
	movq	%r13, %rdx
	shlq	$5, %rdx
	movq	%r14, %rdi
	subq	(%r12,%rdx), %rdi
	jb	.Lcovretin_BB_bc369795_82
	movq	8(%r12,%rdx), %r11
	subq	%rax, %r11
	jb	.Lcovretin_BB_bc369795_82
	cmpq	%r11, %rdi
	jbe	.Lcovretin_BB_bc369795_187
.Lcovretin_BB_bc369795_82:
	movq	32(%r10), %rdi
	testq	%rdi, %rdi
	je	.Lcovretin_BB_bc369795_180
	movq	24(%r10), %rdx
	xorl	%r11d, %r11d
	jmp	.Lcovretin_BB_bc369795_108
.Lcovretin_BB_bc369795_84:
	movzwl	148(%r10), %r9d
	movzbl	186(%r10), %eax
	cmpb	$1, %al
	jne	.Lcovretin_BB_bc369795_87
	movzwl	64(%r10), %r11d
	movl	$11, %edi
	cmpw	184(%r10), %r11w
	jbe	.Lcovretin_BB_bc369795_159
	movl	%r8d, %edx
	andl	$5, %edx
	cmpw	$1, %dx
	jne	.Lcovretin_BB_bc369795_157
.Lcovretin_BB_bc369795_87:
	incl	%r9d
	xorl	%edi, %edi
	xorl	%r12d, %r12d
	cmpw	144(%r10), %r9w
	setb	%r12b
	cmovbl	%r9d, %edi
	movl	%r8d, %edx
	andl	$6, %edx
	orl	%edx, %r12d
	testb	%al, %al
	cmovnel	%r8d, %r12d
.Lcovretin_BB_bc369795_88:
	movq	%r15, -16(%rsp)
	movl	%r8d, -104(%rsp)
	movq	%rbp, -88(%rsp)
	testb	$4, %r12b
	jne	.Lcovretin_BB_bc369795_116
	movl	%edi, -92(%rsp)
	movl	%r12d, %r15d
	andl	$2, %r15d
	jne	.Lcovretin_BB_bc369795_91
	movl	$12, %edi
	cmpb	$0, 180(%r10)
	jne	.Lcovretin_BB_bc369795_165
.Lcovretin_BB_bc369795_91:
	testl	%r13d, %r13d
	je	.Lcovretin_BB_bc369795_156
	movq	8(%r10), %rax
	movq	48(%r10), %rbp
	cmpq	%rax, %rbp
	jae	.Lcovretin_BB_bc369795_96
	movq	(%r10), %rdi
	movq	%rbp, %r9
	shlq	$5, %r9
	movq	%r14, %r11
	subq	(%rdi,%r9), %r11
	jb	.Lcovretin_BB_bc369795_96
	movq	8(%rdi,%r9), %rdx
	testq	%rdx, %rdx
	je	.Lcovretin_BB_bc369795_96
	decq	%rdx
	cmpq	%rdx, %r11
	jbe	.Lcovretin_BB_bc369795_152
.Lcovretin_BB_bc369795_96:
	movq	32(%r10), %r9
	testq	%r9, %r9
	je	.Lcovretin_BB_bc369795_145
	movq	24(%r10), %rdi
	xorl	%r11d, %r11d
	jmp	.Lcovretin_BB_bc369795_99
	.p2align	4
.Lcovretin_BB_bc369795_98:
	movq	%rbp, %r9
	cmpq	%rbp, %r11
	jae	.Lcovretin_BB_bc369795_102
.Lcovretin_BB_bc369795_99:
	movq	%r9, %rbp
	subq	%r11, %rbp
	shrq	%rbp
	addq	%r11, %rbp
	movzwl	(%rdi,%rbp,2), %edx
	cmpq	%rdx, %rax
	jbe	.Lcovretin_BB_bc369795_98
	movq	(%r10), %r8
	shll	$5, %edx
	cmpq	%r14, (%r8,%rdx)
	ja	.Lcovretin_BB_bc369795_98
	movq	%rbp, %r11
	incq	%r11
	movq	%r9, %rbp
	cmpq	%rbp, %r11
	jb	.Lcovretin_BB_bc369795_99
.Lcovretin_BB_bc369795_102:
	testq	%r11, %r11
	je	.Lcovretin_BB_bc369795_145
	movzwl	-2(%rdi,%r11,2), %ebp
	cmpq	%rbp, %rax
	jbe	.Lcovretin_BB_bc369795_145
	movq	(%r10), %rdi
	movl	%ebp, %r9d
	shll	$5, %r9d
	movq	%r14, %rdx
	subq	(%rdi,%r9), %rdx
	jb	.Lcovretin_BB_bc369795_147
	movq	8(%rdi,%r9), %r11
	testq	%r11, %r11
	je	.Lcovretin_BB_bc369795_147
	decq	%r11
	cmpq	%r11, %rdx
	ja	.Lcovretin_BB_bc369795_147
	jmp	.Lcovretin_BB_bc369795_152
	.p2align	4
.Lcovretin_BB_bc369795_107:
	movq	%r12, %rdi
	cmpq	%r12, %r11
	jae	.Lcovretin_BB_bc369795_111
.Lcovretin_BB_bc369795_108:
	movq	%rdi, %r12
	subq	%r11, %r12
	shrq	%r12
	addq	%r11, %r12
	movzwl	(%rdx,%r12,2), %r13d
	cmpq	%r13, %r15
	jbe	.Lcovretin_BB_bc369795_107
	movq	(%r10), %rbp
	shll	$5, %r13d
	cmpq	%r14, (%rbp,%r13)
	ja	.Lcovretin_BB_bc369795_107
	movq	%r12, %r11
	incq	%r11
	movq	%rdi, %r12
	cmpq	%r12, %r11
	jb	.Lcovretin_BB_bc369795_108
.Lcovretin_BB_bc369795_111:
	testq	%r11, %r11
	je	.Lcovretin_BB_bc369795_180
	movzwl	-2(%rdx,%r11,2), %r13d
	cmpq	%r13, %r15
	jbe	.Lcovretin_BB_bc369795_180
	movq	(%r10), %r12
	movl	%r13d, %edx
	shll	$5, %edx
	movq	%r14, %rdi
	subq	(%r12,%rdx), %rdi
	jb	.Lcovretin_BB_bc369795_182
	movq	8(%r12,%rdx), %r11
	subq	%rax, %r11
	jb	.Lcovretin_BB_bc369795_182
	cmpq	%r11, %rdi
	ja	.Lcovretin_BB_bc369795_182
	jmp	.Lcovretin_BB_bc369795_187
.Lcovretin_BB_bc369795_116:
	movl	$13, %edi
	cmpb	$1, 181(%r10)
	jne	.Lcovretin_BB_bc369795_165
	movl	$14, %edi
	testb	$1, %r12b
	jne	.Lcovretin_BB_bc369795_165
	movl	%r13d, %eax
	testl	%r13d, %r13d
	sete	%dl
	testb	$15, %al
	setne	%r8b
	movl	$15, %edi
	orb	%dl, %r8b
	jne	.Lcovretin_BB_bc369795_165
	movzwl	176(%r10), %edx
	movl	%eax, %r15d
	shrl	$4, %r15d
	movl	$11, %edi
	cmpq	%rdx, %r15
	ja	.Lcovretin_BB_bc369795_165
	movq	8(%r10), %r12
	movq	48(%r10), %rbp
	cmpq	%r12, %rbp
	jae	.Lcovretin_BB_bc369795_124
	movq	(%r10), %r13
	movq	%rbp, %r9
	shlq	$5, %r9
	movq	%r14, %rdi
	subq	(%r13,%r9), %rdi
	jb	.Lcovretin_BB_bc369795_124
	movq	8(%r13,%r9), %rdx
	subq	%rax, %rdx
	jb	.Lcovretin_BB_bc369795_124
	cmpq	%rdx, %rdi
	jbe	.Lcovretin_BB_bc369795_200
.Lcovretin_BB_bc369795_124:
	movq	32(%r10), %r9
	testq	%r9, %r9
	je	.Lcovretin_BB_bc369795_193
	movq	24(%r10), %rdi
	xorl	%r11d, %r11d
	jmp	.Lcovretin_BB_bc369795_127
.Lcovretin_BB_bc369795_126:
	movq	%r13, %r9
	cmpq	%r13, %r11
	jae	.Lcovretin_BB_bc369795_130
.Lcovretin_BB_bc369795_127:
	movq	%r9, %r13
	subq	%r11, %r13
	shrq	%r13
	addq	%r11, %r13
	movzwl	(%rdi,%r13,2), %ebp
	cmpq	%rbp, %r12
	jbe	.Lcovretin_BB_bc369795_126
	movq	(%r10), %rdx
	shll	$5, %ebp
	cmpq	%r14, (%rdx,%rbp)
	ja	.Lcovretin_BB_bc369795_126
	movq	%r13, %r11
	incq	%r11
	movq	%r9, %r13
	cmpq	%r13, %r11
	jb	.Lcovretin_BB_bc369795_127
.Lcovretin_BB_bc369795_130:
	testq	%r11, %r11
	je	.Lcovretin_BB_bc369795_193
	movzwl	-2(%rdi,%r11,2), %ebp
	cmpq	%rbp, %r12
	jbe	.Lcovretin_BB_bc369795_193
	movq	(%r10), %r13
	movl	%ebp, %r9d
	shll	$5, %r9d
	movq	%r14, %rdx
	subq	(%r13,%r9), %rdx
	jb	.Lcovretin_BB_bc369795_195
	movq	8(%r13,%r9), %rdi
	subq	%rax, %rdi
	jb	.Lcovretin_BB_bc369795_195
	cmpq	%rdi, %rdx
	ja	.Lcovretin_BB_bc369795_195
	jmp	.Lcovretin_BB_bc369795_200
.Lcovretin_BB_bc369795_135:
	testq	%rax, %rax
	je	.Lcovretin_BB_bc369795_161
	movq	(%r10), %rdi
.Lcovretin_BB_bc369795_137:
	xorl	%ebp, %ebp
	xorl	%r9d, %r9d
	jmp	.Lcovretin_BB_bc369795_139
	.p2align	4
.Lcovretin_BB_bc369795_138:
	incq	%r9
	addq	$32, %rbp
	cmpq	%r9, %rax
	je	.Lcovretin_BB_bc369795_161
.Lcovretin_BB_bc369795_139:
	movq	%r14, %r11
	subq	(%rdi,%rbp), %r11
	jb	.Lcovretin_BB_bc369795_138
	movq	8(%rdi,%rbp), %rdx
	testq	%rdx, %rdx
	je	.Lcovretin_BB_bc369795_138
	decq	%rdx
	cmpq	%rdx, %r11
	ja	.Lcovretin_BB_bc369795_138
.Lcovretin_BB_bc369795_142:
	movl	%r13d, %edx
	movq	%r9, 48(%r10)
	movq	8(%rdi,%rbp), %r11
	movq	%r14, %r8
	subq	(%rdi,%rbp), %r8
	movq	24(%rdi,%rbp), %rax
	addq	%r8, %rax
	subq	%r8, %r11
	cmpq	%rdx, %r11
	cmovaeq	%rdx, %r11
	jae	.Lcovretin_BB_bc369795_188
	movzwl	178(%r10), %edi
	testw	%di, %di
	je	.Lcovretin_BB_bc369795_214
	leaq	(%r11,%r14), %rdx
	subl	%r11d, %r13d
	movq	$1, 152(%r10)
	movq	%rdx, 160(%r10)
	movl	%r13d, 168(%r10)
	movw	%r12w, 172(%r10)
	movl	-104(%rsp), %edx
	movw	%dx, 174(%r10)
	decl	%edi
	movw	%di, 178(%r10)
	jmp	.Lcovretin_BB_bc369795_191
.Lcovretin_BB_bc369795_145:
	testq	%rax, %rax
	je	.Lcovretin_BB_bc369795_164
	movq	(%r10), %rdi
.Lcovretin_BB_bc369795_147:
	xorl	%r9d, %r9d
	xorl	%ebp, %ebp
	jmp	.Lcovretin_BB_bc369795_149
	.p2align	4
.Lcovretin_BB_bc369795_148:
	incq	%rbp
	addq	$32, %r9
	cmpq	%rbp, %rax
	je	.Lcovretin_BB_bc369795_164
.Lcovretin_BB_bc369795_149:
	movq	%r14, %r11
	subq	(%rdi,%r9), %r11
	jb	.Lcovretin_BB_bc369795_148
	movq	8(%rdi,%r9), %rdx
	testq	%rdx, %rdx
	je	.Lcovretin_BB_bc369795_148
	decq	%rdx
	cmpq	%rdx, %r11
	ja	.Lcovretin_BB_bc369795_148
.Lcovretin_BB_bc369795_152:
	movl	%r13d, %edx
	movq	%rbp, 48(%r10)
	movq	8(%rdi,%r9), %r11
	movq	%r14, %r8
	subq	(%rdi,%r9), %r8
	movq	24(%rdi,%r9), %rax
	addq	%r8, %rax
	subq	%r8, %r11
	cmpq	%rdx, %r11
	cmovaeq	%rdx, %r11
	jae	.Lcovretin_BB_bc369795_201
	movzwl	178(%r10), %edi
	testw	%di, %di
	je	.Lcovretin_BB_bc369795_215
	leaq	(%r11,%r14), %rdx
	subl	%r11d, %r13d
	movq	$1, 152(%r10)
	movq	%rdx, 160(%r10)
	movl	%r13d, 168(%r10)
	movw	%r12w, 172(%r10)
	movl	-92(%rsp), %edx
	movw	%dx, 174(%r10)
	decl	%edi
	movw	%di, 178(%r10)
	jmp	.Lcovretin_BB_bc369795_204
.Lcovretin_BB_bc369795_155:
	movl	$9, %edi
	jmp	.Lcovretin_BB_bc369795_162
.Lcovretin_BB_bc369795_156:
	movl	$9, %edi
	jmp	.Lcovretin_BB_bc369795_165
.Lcovretin_BB_bc369795_157:
	movl	$10, %edi
	cmpw	%r12w, %r11w
	jbe	.Lcovretin_BB_bc369795_159
	movq	112(%r10), %rdx
	movl	$17, %edi
	cmpw	$0, (%rdx,%r15,2)
	je	.Lcovretin_BB_bc369795_87
.Lcovretin_BB_bc369795_159:
	movb	$1, 187(%r10)
	.p2align	4
.Lcovretin_BB_bc369795_160:
	movb	$1, %r9b
	xorl	%eax, %eax
	xorl	%r11d, %r11d
	xorl	%r14d, %r14d
	xorl	%r15d, %r15d
	xorl	%r12d, %r12d
	jmp	.Lcovretin_BB_bc369795_166
.Lcovretin_BB_bc369795_180:
	testq	%r15, %r15
	je	.Lcovretin_BB_bc369795_161
	movq	(%r10), %r12
.Lcovretin_BB_bc369795_182:
	xorl	%edx, %edx
	xorl	%r13d, %r13d
	jmp	.Lcovretin_BB_bc369795_184
	.p2align	4
.Lcovretin_BB_bc369795_183:
	incq	%r13
	addq	$32, %rdx
	movl	$8, %edi
	cmpq	%r13, %r15
	je	.Lcovretin_BB_bc369795_162
.Lcovretin_BB_bc369795_184:
	movq	%r14, %rdi
	subq	(%r12,%rdx), %rdi
	jb	.Lcovretin_BB_bc369795_183
	movq	8(%r12,%rdx), %r11
	subq	%rax, %r11
	jb	.Lcovretin_BB_bc369795_183
	cmpq	%r11, %rdi
	ja	.Lcovretin_BB_bc369795_183
.Lcovretin_BB_bc369795_187:
	movq	%r13, 48(%r10)
	subq	(%r12,%rdx), %r14
	addq	24(%r12,%rdx), %r14
	movq	%r14, 136(%r10)
	movw	%r9w, 144(%r10)
	movl	$1, 146(%r10)
	movb	$0, 181(%r10)
	xorps	%xmm0, %xmm0
	leaq	152(%r10), %rax
	movups	%xmm0, (%rax)
	movq	$0, 16(%rax)
	movl	$0, -97(%rsp)
	movl	$0, -100(%rsp)
	xorl	%r12d, %r12d
	xorl	%eax, %eax
	xorl	%r11d, %r11d
	xorl	%r14d, %r14d
	xorl	%r15d, %r15d
	jmp	.Lcovretin_BB_bc369795_192
.Lcovretin_BB_bc369795_161:
	movl	$8, %edi
.Lcovretin_BB_bc369795_162:
	movb	$1, 184(%r10)
	movb	$1, %r9b
	xorl	%eax, %eax
	xorl	%r11d, %r11d
	xorl	%r14d, %r14d
	xorl	%r15d, %r15d
	xorl	%r12d, %r12d
	movq	-88(%rsp), %rbp
.Lcovretin_BB_bc369795_163:
	movl	-64(%rsp), %edx
	movl	-61(%rsp), %r8d
	jmp	.Lcovretin_BB_bc369795_167
.Lcovretin_BB_bc369795_188:
	testb	$1, %r12b
	jne	.Lcovretin_BB_bc369795_210
	movzwl	176(%r10), %r9d
	xorl	%ebp, %ebp
	movl	$0, -104(%rsp)
.Lcovretin_BB_bc369795_190:
	movw	%bp, 146(%r10)
	movl	-104(%rsp), %edx
	movw	%dx, 148(%r10)
	decl	%r9d
	xorps	%xmm0, %xmm0
	leaq	152(%r10), %rdx
	movups	%xmm0, (%rdx)
	movq	$0, 16(%rdx)
	movw	%r9w, 176(%r10)
.Lcovretin_BB_bc369795_191:
	shrl	%r15d
	shrb	%r12b
	andb	$1, %r12b
	movb	%r12b, 180(%r10)
	movl	$0, -97(%rsp)
	movl	$0, -100(%rsp)
	movb	$1, %r12b
.Lcovretin_BB_bc369795_192:
	movq	-88(%rsp), %rbp
	movl	-100(%rsp), %edx
	movl	-97(%rsp), %edi
	movl	%edi, -61(%rsp)
	movl	%edx, -64(%rsp)
	xorl	%r9d, %r9d
	xorl	%edi, %edi
	jmp	.Lcovretin_BB_bc369795_163
.Lcovretin_BB_bc369795_193:
	testq	%r12, %r12
	je	.Lcovretin_BB_bc369795_164
	movq	(%r10), %r13
.Lcovretin_BB_bc369795_195:
	xorl	%r9d, %r9d
	xorl	%ebp, %ebp
	jmp	.Lcovretin_BB_bc369795_197
	.p2align	4
.Lcovretin_BB_bc369795_196:
	incq	%rbp
	addq	$32, %r9
	movl	$8, %edi
	cmpq	%rbp, %r12
	je	.Lcovretin_BB_bc369795_165
.Lcovretin_BB_bc369795_197:
	movq	%r14, %rdi
	subq	(%r13,%r9), %rdi
	jb	.Lcovretin_BB_bc369795_196
	movq	8(%r13,%r9), %rdx
	subq	%rax, %rdx
	jb	.Lcovretin_BB_bc369795_196
	cmpq	%rdx, %rdi
	ja	.Lcovretin_BB_bc369795_196
.Lcovretin_BB_bc369795_200:
	movq	%rbp, 48(%r10)
	subq	(%r13,%r9), %r14
	addq	24(%r13,%r9), %r14
	movq	%r14, 136(%r10)
	movw	%r15w, 144(%r10)
	movl	$1, 146(%r10)
	movb	$0, 181(%r10)
	xorps	%xmm0, %xmm0
	leaq	152(%r10), %rax
	movups	%xmm0, (%rax)
	movq	$0, 16(%rax)
	movl	$0, -97(%rsp)
	movl	$0, -100(%rsp)
	xorl	%r12d, %r12d
	xorl	%eax, %eax
	xorl	%r11d, %r11d
	xorl	%r14d, %r14d
	xorl	%r15d, %r15d
	jmp	.Lcovretin_BB_bc369795_205
.Lcovretin_BB_bc369795_164:
	movl	$8, %edi
.Lcovretin_BB_bc369795_165:
	movb	$1, 187(%r10)
	movb	$1, %r9b
	xorl	%eax, %eax
	xorl	%r11d, %r11d
	xorl	%r14d, %r14d
	xorl	%r15d, %r15d
	xorl	%r12d, %r12d
	movq	-88(%rsp), %rbp
	.p2align	4
.Lcovretin_BB_bc369795_166:
	movl	-72(%rsp), %edx
	movl	-69(%rsp), %r8d
.Lcovretin_BB_bc369795_167:
	movl	%r8d, -53(%rsp)
	movl	%edx, -56(%rsp)
	movl	-56(%rsp), %edx
	movl	-53(%rsp), %r8d
	movl	%r8d, -45(%rsp)
	movl	%edx, -48(%rsp)
	testb	%r9b, %r9b
	jne	.Lcovretin_BB_bc369795_221
	testb	%r12b, %r12b
	je	.Lcovretin_BB_bc369795_170
	movq	%rbp, %rdx
	shlq	$5, %rdx
	movq	%rax, (%rcx,%rdx)
	movq	%r11, 8(%rcx,%rdx)
	movq	%r14, 16(%rcx,%rdx)
	movb	%r15b, 24(%rcx,%rdx)
	movl	-48(%rsp), %eax
	movl	-45(%rsp), %edi
	movl	%eax, 25(%rcx,%rdx)
	movl	%edi, 28(%rcx,%rdx)
	incq	%rbp
.Lcovretin_BB_bc369795_170:
	movzbl	56(%r10), %edi
	cmpl	$2, %edi
	je	.Lcovretin_BB_bc369795_172
	cmpl	$1, %edi
	jne	.Lcovretin_BB_bc369795_173
.Lcovretin_BB_bc369795_172:
	leaq	152(%r10), %rax
	testb	$1, (%rax)
	jne	.Lcovretin_BB_bc369795_174
.Lcovretin_BB_bc369795_173:
	incq	%rbx
.Lcovretin_BB_bc369795_174:
	cmpq	-24(%rsp), %rbp
	jae	.Lcovretin_BB_bc369795_176
	cmpq	-32(%rsp), %rbx
	jb	.Lcovretin_BB_bc369795_44
	jmp	.Lcovretin_BB_bc369795_176
.Lcovretin_BB_bc369795_201:
	testb	$1, %r12b
	jne	.Lcovretin_BB_bc369795_212
	movzwl	176(%r10), %r9d
	xorl	%ebp, %ebp
	movl	$0, -92(%rsp)
.Lcovretin_BB_bc369795_203:
	movw	%bp, 146(%r10)
	movl	-92(%rsp), %edx
	movw	%dx, 148(%r10)
	decl	%r9d
	xorps	%xmm0, %xmm0
	leaq	152(%r10), %rdx
	movups	%xmm0, (%rdx)
	movq	$0, 16(%rdx)
	movw	%r9w, 176(%r10)
.Lcovretin_BB_bc369795_204:
	shrl	%r15d
	shrb	%r12b
	andb	$1, %r12b
	movb	%r12b, 180(%r10)
	movl	$0, -97(%rsp)
	movl	$0, -100(%rsp)
	movb	$1, %r12b
.Lcovretin_BB_bc369795_205:
	testb	$1, -76(%rsp)
	movq	-88(%rsp), %rbp
	jne	.Lcovretin_BB_bc369795_209
	cmpb	$1, 186(%r10)
	jne	.Lcovretin_BB_bc369795_209
	movzwl	184(%r10), %edi
	incl	%edi
	movw	%di, 184(%r10)
	movl	-104(%rsp), %edx
	andl	$5, %edx
	cmpw	$1, %dx
	je	.Lcovretin_BB_bc369795_209
	movb	$0, 186(%r10)
	movq	112(%r10), %rdx
	movq	-16(%rsp), %r8
	movw	%di, (%rdx,%r8,2)
	movl	64(%r10), %edx
	movl	184(%r10), %edi
	movzwl	98(%r10), %r8d
	subl	%r8d, %edx
	movl	%edx, %r9d
	negl	%edx
	cmpw	%r9w, %di
	setae	%r9b
	cmovbl	%r8d, %edx
	addl	%edi, %edx
	movw	%dx, 98(%r10)
	xorb	%r9b, 100(%r10)
	movb	$0, 101(%r10)
.Lcovretin_BB_bc369795_209:
	movl	-100(%rsp), %edx
	movl	-97(%rsp), %edi
	movl	%edi, -69(%rsp)
	movl	%edx, -72(%rsp)
	xorl	%r9d, %r9d
	xorl	%edi, %edi
	jmp	.Lcovretin_BB_bc369795_166
.Lcovretin_BB_bc369795_210:
	movl	$10, %edi
	movl	-104(%rsp), %edx
	cmpw	%dx, 144(%r10)
	jbe	.Lcovretin_BB_bc369795_162
	movzwl	176(%r10), %r9d
	movw	$1, %bp
	movl	$11, %edi
	cmpw	$1, %r9w
	je	.Lcovretin_BB_bc369795_162
	jmp	.Lcovretin_BB_bc369795_190
.Lcovretin_BB_bc369795_212:
	movl	$10, %edi
	movl	-92(%rsp), %edx
	cmpw	%dx, 144(%r10)
	jbe	.Lcovretin_BB_bc369795_165
	movzwl	176(%r10), %r9d
	movw	$1, %bp
	movl	$11, %edi
	cmpw	$1, %r9w
	je	.Lcovretin_BB_bc369795_165
	jmp	.Lcovretin_BB_bc369795_203
.Lcovretin_BB_bc369795_214:
	movl	$11, %edi
	jmp	.Lcovretin_BB_bc369795_162
.Lcovretin_BB_bc369795_215:
	movl	$11, %edi
	jmp	.Lcovretin_BB_bc369795_165
.Lcovretin_BB_bc369795_176:
	movzbl	%dil, %esi
	xorl	%eax, %eax
	testb	%sil, %sil
	je	.Lcovretin_BB_bc369795_216
	cmpl	$2, %esi
	movzbl	146(%r10), %edi
	movzwl	144(%r10), %ecx
	shll	$4, %ecx
	cmpb	$1, %dil
	jne	.Lcovretin_BB_bc369795_179
	movzwl	148(%r10), %edx
	jmp	.Lcovretin_BB_bc369795_219
.Lcovretin_BB_bc369795_216:
	movq	%rsi, %rcx
	xorl	%edx, %edx
	jmp	.Lcovretin_BB_bc369795_220
.Lcovretin_BB_bc369795_179:
	xorl	%edx, %edx
.Lcovretin_BB_bc369795_219:
	movq	136(%r10), %rsi
	andb	$1, %dil
.Lcovretin_BB_bc369795_220:
	movq	-40(%rsp), %r8
	movq	%r10, (%r8)
	movq	-8(%rsp), %r8
	movq	%rbx, (%r8)
	movq	%rbp, 8(%r8)
	movq	%rsi, 16(%r8)
	movq	%rcx, 24(%r8)
	movw	%dx, 32(%r8)
	movb	%dil, 34(%r8)
	movl	$0, 35(%r8)
	movb	$0, 39(%r8)
	jmp	.Lcovretin_BB_bc369795_222
.Lcovretin_BB_bc369795_221:
	movq	-40(%rsp), %rax
	movq	%r10, (%rax)
	leaq	.Lcovretin_switch.table.covretin_queue_step(%rip), %rax
	movl	(%rax,%rdi,4), %eax
	jmp	.Lcovretin_BB_bc369795_222
.Lcovretin_BB_bc369795_223:
	movq	-40(%rsp), %rax
	movq	%r10, (%rax)
	movl	$103, %eax
.Lcovretin_BB_bc369795_222:
	popq	%rbx
	.cfi_def_cfa_offset 48
	popq	%r12
	.cfi_def_cfa_offset 40
	popq	%r13
	.cfi_def_cfa_offset 32
	popq	%r14
	.cfi_def_cfa_offset 24
	popq	%r15
	.cfi_def_cfa_offset 16
	popq	%rbp
	.cfi_def_cfa_offset 8
	retq
.Lcovretin_BB_bc369795_224:
	.cfi_def_cfa_offset 56
	testb	$1, 152(%r10)
	jne	.Lcovretin_BB_bc369795_253
	cmpb	$1, 146(%r10)
	jne	.Lcovretin_BB_bc369795_253
	testb	$1, %dl
	jne	.Lcovretin_BB_bc369795_253
	cmpb	$0, 181(%r10)
	je	.Lcovretin_BB_bc369795_253
	testq	%r15, %r15
	sete	%al
	testb	$15, %r15b
	setne	%dl
	orb	%al, %dl
	jne	.Lcovretin_BB_bc369795_253
	movzwl	176(%r10), %eax
	movl	%r15d, %edi
	shrl	$4, %edi
	cmpq	%rax, %rdi
	ja	.Lcovretin_BB_bc369795_253
	movq	%r12, %r8
	movq	8(%r10), %r9
	movq	48(%r10), %r12
	cmpq	%r9, %r12
	jae	.Lcovretin_BB_bc369795_234
	movq	(%r10), %rbx
	movq	%r12, %rdx
	shlq	$5, %rdx
	movq	%r14, %rax
	subq	(%rbx,%rdx), %rax
	jb	.Lcovretin_BB_bc369795_234
	movq	8(%rbx,%rdx), %r11
	subq	%r15, %r11
	jb	.Lcovretin_BB_bc369795_234
	cmpq	%r11, %rax
	jbe	.Lcovretin_BB_bc369795_252
.Lcovretin_BB_bc369795_234:
	movq	32(%r10), %rdx
	testq	%rdx, %rdx
	je	.Lcovretin_BB_bc369795_245
	movq	24(%r10), %rax
	xorl	%r11d, %r11d
	jmp	.Lcovretin_BB_bc369795_237
.Lcovretin_BB_bc369795_236:
	movq	%rbx, %rdx
	cmpq	%rbx, %r11
	jae	.Lcovretin_BB_bc369795_240
.Lcovretin_BB_bc369795_237:
	movq	%rdx, %rbx
	subq	%r11, %rbx
	shrq	%rbx
	addq	%r11, %rbx
	movzwl	(%rax,%rbx,2), %r12d
	cmpq	%r12, %r9
	jbe	.Lcovretin_BB_bc369795_236
	movq	(%r10), %r13
	shll	$5, %r12d
	cmpq	%r14, (%r13,%r12)
	ja	.Lcovretin_BB_bc369795_236
	movq	%rbx, %r11
	incq	%r11
	movq	%rdx, %rbx
	cmpq	%rbx, %r11
	jb	.Lcovretin_BB_bc369795_237
.Lcovretin_BB_bc369795_240:
	testq	%r11, %r11
	je	.Lcovretin_BB_bc369795_245
	movzwl	-2(%rax,%r11,2), %r12d
	cmpq	%r12, %r9
	jbe	.Lcovretin_BB_bc369795_245
	movq	(%r10), %rbx
	movl	%r12d, %edx
	shll	$5, %edx
	movq	%r14, %rax
	subq	(%rbx,%rdx), %rax
	jb	.Lcovretin_BB_bc369795_247
	movq	8(%rbx,%rdx), %r11
	subq	%r15, %r11
	jb	.Lcovretin_BB_bc369795_247
	cmpq	%r11, %rax
	ja	.Lcovretin_BB_bc369795_247
	jmp	.Lcovretin_BB_bc369795_252
.Lcovretin_BB_bc369795_245:
	testq	%r9, %r9
	je	.Lcovretin_BB_bc369795_253
	movq	(%r10), %rbx
.Lcovretin_BB_bc369795_247:
	xorl	%edx, %edx
	xorl	%r12d, %r12d
	jmp	.Lcovretin_BB_bc369795_249
.Lcovretin_BB_bc369795_248:
	incq	%r12
	addq	$32, %rdx
	cmpq	%r12, %r9
	je	.Lcovretin_BB_bc369795_253
.Lcovretin_BB_bc369795_249:
	movq	%r14, %rax
	subq	(%rbx,%rdx), %rax
	jb	.Lcovretin_BB_bc369795_248
	movq	8(%rbx,%rdx), %r11
	subq	%r15, %r11
	jb	.Lcovretin_BB_bc369795_248
	cmpq	%r11, %rax
	ja	.Lcovretin_BB_bc369795_248
.Lcovretin_BB_bc369795_252:
	movq	%r12, 48(%r10)
	subq	(%rbx,%rdx), %r14
	addq	24(%rbx,%rdx), %r14
	movq	%r14, 136(%r10)
	movw	%di, 144(%r10)
	movl	$1, 146(%r10)
	movb	$0, 181(%r10)
	xorps	%xmm0, %xmm0
	movups	%xmm0, (%r8)
	movq	$0, 16(%r8)
	leaq	1(%rbp), %rbx
	jmp	.Lcovretin_BB_bc369795_43
.Lcovretin_BB_bc369795_253:
	movq	%rbp, %rbx
	jmp	.Lcovretin_BB_bc369795_43
.Lcovretin_func_end_bc369795:
	.size	covretin_queue_walk, .Lcovretin_func_end_bc369795-covretin_queue_walk
	.cfi_endproc

	.section	.text.covretin_queue_descriptor_place,"ax",@progbits
	.globl	covretin_queue_descriptor_place
	.p2align	4
	.type	covretin_queue_descriptor_place,@function
covretin_queue_descriptor_place:
	.cfi_startproc
	endbr64
	movq	(%rdi), %rax
	movq	$0, (%rdi)
	testq	%rax, %rax
	je	.Lcovretin_BB_c6b400dd_1
	movzbl	56(%rax), %ecx
	testl	%ecx, %ecx
	je	.Lcovretin_BB_c6b400dd_5
	cmpl	$2, %ecx
	cmpb	$1, 146(%rax)
	jne	.Lcovretin_BB_c6b400dd_5
	movzwl	148(%rax), %ecx
	shll	$4, %ecx
	addq	136(%rax), %rcx
	movzbl	152(%rax), %r8d
	notb	%r8b
	movzbl	%r8b, %r8d
	andl	$1, %r8d
	shll	$4, %r8d
	movq	%rax, (%rdi)
	movq	%rcx, (%rsi)
	movq	%r8, 8(%rsi)
	movb	$1, (%rdx)
	xorl	%eax, %eax
	retq
.Lcovretin_BB_c6b400dd_5:
	movq	%rax, (%rdi)
	movb	$0, (%rdx)
	xorl	%eax, %eax
	retq
.Lcovretin_BB_c6b400dd_1:
	movl	$101, %eax
	retq
.Lcovretin_func_end_c6b400dd:
	.size	covretin_queue_descriptor_place, .Lcovretin_func_end_c6b400dd-covretin_queue_descriptor_place
	.cfi_endproc

	.section	.text.covretin_queue_step,"ax",@progbits
	.globl	covretin_queue_step
	.p2align	4
	.type	covretin_queue_step,@function
covretin_queue_step:
	.cfi_startproc
	endbr64
	movq	(%rdi), %rax
	movq	$0, (%rdi)
	testq	%rax, %rax
	je	.Lcovretin_BB_17fa37a3_7
	pushq	%rbp
	.cfi_def_cfa_offset 16
	pushq	%r15
	.cfi_def_cfa_offset 24
	pushq	%r14
	.cfi_def_cfa_offset 32
	pushq	%r13
	.cfi_def_cfa_offset 40
	pushq	%r12
	.cfi_def_cfa_offset 48
	pushq	%rbx
	.cfi_def_cfa_offset 56
	.cfi_offset %rbx, -56
	.cfi_offset %r12, -48
	.cfi_offset %r13, -40
	.cfi_offset %r14, -32
	.cfi_offset %r15, -24
	.cfi_offset %rbp, -16
	movq	(%rsi), %r8
	movl	8(%rsi), %r11d
	movzwl	12(%rsi), %ebp
	movzwl	14(%rsi), %r15d
	movl	$0, -24(%rsp)
	movl	$0, -21(%rsp)
	movl	$0, -32(%rsp)
	movl	$0, -29(%rsp)
	movzbl	56(%rax), %r9d
	testl	%r9d, %r9d
	je	.Lcovretin_BB_17fa37a3_8
	movl	$18, %r14d
	cmpl	$2, %r9d
	jne	.Lcovretin_BB_17fa37a3_9
	cmpb	$0, 187(%rax)
	jne	.Lcovretin_BB_17fa37a3_125
	movl	$20, %r14d
	cmpb	$1, 146(%rax)
	jne	.Lcovretin_BB_17fa37a3_125
	movzwl	%bp, %r12d
	movzbl	152(%rax), %r13d
	testb	$1, %r13b
	je	.Lcovretin_BB_17fa37a3_32
	movq	160(%rax), %r8
	movl	168(%rax), %r11d
	movzwl	172(%rax), %ebp
	movzwl	174(%rax), %ebx
	jmp	.Lcovretin_BB_17fa37a3_36
.Lcovretin_BB_17fa37a3_7:
	.cfi_def_cfa_offset 8
	.cfi_restore %rbx
	.cfi_restore %rbp
	.cfi_restore %r12
	.cfi_restore %r13
	.cfi_restore %r14
	.cfi_restore %r15
	movl	$101, %eax
	retq
.Lcovretin_BB_17fa37a3_8:
	.cfi_def_cfa_offset 56
	.cfi_offset %rbx, -56
	.cfi_offset %rbp, -16
	.cfi_offset %r12, -48
	.cfi_offset %r13, -40
	.cfi_offset %r14, -32
	.cfi_offset %r15, -24
	movq	%rax, (%rdi)
	movl	$103, %eax
	jmp	.Lcovretin_BB_17fa37a3_133
.Lcovretin_BB_17fa37a3_9:
	cmpb	$0, 184(%rax)
	jne	.Lcovretin_BB_17fa37a3_121
	movl	$20, %r14d
	cmpb	$1, 146(%rax)
	jne	.Lcovretin_BB_17fa37a3_121
	cmpb	$1, 152(%rax)
	jne	.Lcovretin_BB_17fa37a3_13
	movq	160(%rax), %r8
	movl	168(%rax), %r11d
	movzwl	172(%rax), %ebp
	movzwl	174(%rax), %r15d
.Lcovretin_BB_17fa37a3_13:
	leaq	152(%rax), %r13
	testb	$4, %bpl
	jne	.Lcovretin_BB_17fa37a3_55
	movl	%ebp, %r9d
	andl	$2, %r9d
	jne	.Lcovretin_BB_17fa37a3_16
	movl	$12, %r14d
	cmpb	$0, 180(%rax)
	jne	.Lcovretin_BB_17fa37a3_120
.Lcovretin_BB_17fa37a3_16:
	testl	%r11d, %r11d
	je	.Lcovretin_BB_17fa37a3_113
	movl	%r15d, -48(%rsp)
	movq	8(%rax), %rbx
	movq	48(%rax), %r15
	cmpq	%rbx, %r15
	jae	.Lcovretin_BB_17fa37a3_21
	movq	(%rax), %r14
	movq	%r15, %r13
	shlq	$5, %r13
	movq	%r8, %r10
	subq	(%r14,%r13), %r10
	jb	.Lcovretin_BB_17fa37a3_21
	movq	8(%r14,%r13), %r12
	testq	%r12, %r12
	je	.Lcovretin_BB_17fa37a3_21
	decq	%r12
	cmpq	%r12, %r10
	jbe	.Lcovretin_BB_17fa37a3_100
.Lcovretin_BB_17fa37a3_21:
	movq	32(%rax), %r14
	testq	%r14, %r14
	je	.Lcovretin_BB_17fa37a3_93
	movq	24(%rax), %r10
	xorl	%r15d, %r15d
	jmp	.Lcovretin_BB_17fa37a3_24
.Lcovretin_BB_17fa37a3_23:
	movq	%r13, %r14
	cmpq	%r13, %r15
	jae	.Lcovretin_BB_17fa37a3_27
.Lcovretin_BB_17fa37a3_24:
	movq	%r14, %r13
	subq	%r15, %r13
	shrq	%r13
	addq	%r15, %r13
	movzwl	(%r10,%r13,2), %r12d
	cmpq	%r12, %rbx
	jbe	.Lcovretin_BB_17fa37a3_23
	movq	(%rax), %rsi
	shll	$5, %r12d
	cmpq	%r8, (%rsi,%r12)
	ja	.Lcovretin_BB_17fa37a3_23
	movq	%r13, %r15
	incq	%r15
	movq	%r14, %r13
	cmpq	%r13, %r15
	jb	.Lcovretin_BB_17fa37a3_24
.Lcovretin_BB_17fa37a3_27:
	testq	%r15, %r15
	je	.Lcovretin_BB_17fa37a3_93
	movzwl	-2(%r10,%r15,2), %r15d
	cmpq	%r15, %rbx
	jbe	.Lcovretin_BB_17fa37a3_93
	movq	(%rax), %r14
	movl	%r15d, %r13d
	shll	$5, %r13d
	movq	%r8, %r10
	subq	(%r14,%r13), %r10
	jb	.Lcovretin_BB_17fa37a3_95
	movq	8(%r14,%r13), %r12
	testq	%r12, %r12
	je	.Lcovretin_BB_17fa37a3_95
	decq	%r12
	cmpq	%r12, %r10
	ja	.Lcovretin_BB_17fa37a3_95
	jmp	.Lcovretin_BB_17fa37a3_100
.Lcovretin_BB_17fa37a3_32:
	movzwl	148(%rax), %r10d
	movzbl	186(%rax), %r9d
	cmpb	$1, %r9b
	jne	.Lcovretin_BB_17fa37a3_35
	movzwl	64(%rax), %ebx
	movl	$11, %r14d
	cmpw	184(%rax), %bx
	jbe	.Lcovretin_BB_17fa37a3_124
	movl	%r15d, %esi
	andl	$5, %esi
	cmpw	$1, %si
	jne	.Lcovretin_BB_17fa37a3_116
.Lcovretin_BB_17fa37a3_35:
	incl	%r10d
	xorl	%ebx, %ebx
	xorl	%ebp, %ebp
	cmpw	144(%rax), %r10w
	setb	%bpl
	cmovbl	%r10d, %ebx
	movl	%r15d, %esi
	andl	$6, %esi
	orl	%esi, %ebp
	testb	%r9b, %r9b
	cmovnel	%r15d, %ebp
.Lcovretin_BB_17fa37a3_36:
	movb	%r13b, -49(%rsp)
	movq	%r12, -8(%rsp)
	movl	%r15d, -48(%rsp)
	testb	$4, %bpl
	jne	.Lcovretin_BB_17fa37a3_74
	movl	%ebx, -36(%rsp)
	movl	%ebp, %r9d
	andl	$2, %r9d
	jne	.Lcovretin_BB_17fa37a3_39
	movl	$12, %r14d
	cmpb	$0, 180(%rax)
	jne	.Lcovretin_BB_17fa37a3_124
.Lcovretin_BB_17fa37a3_39:
	testl	%r11d, %r11d
	je	.Lcovretin_BB_17fa37a3_114
	movq	8(%rax), %r14
	movq	48(%rax), %r10
	cmpq	%r14, %r10
	jae	.Lcovretin_BB_17fa37a3_44
	movq	(%rax), %r15
	movq	%r10, %r12
	shlq	$5, %r12
	movq	%r8, %rbx
	subq	(%r15,%r12), %rbx
	jb	.Lcovretin_BB_17fa37a3_44
	movq	8(%r15,%r12), %r13
	testq	%r13, %r13
	je	.Lcovretin_BB_17fa37a3_44
	decq	%r13
	cmpq	%r13, %rbx
	jbe	.Lcovretin_BB_17fa37a3_110
.Lcovretin_BB_17fa37a3_44:
	movq	32(%rax), %rbx
	testq	%rbx, %rbx
	je	.Lcovretin_BB_17fa37a3_103
	movq	24(%rax), %r10
	xorl	%r12d, %r12d
	jmp	.Lcovretin_BB_17fa37a3_47
.Lcovretin_BB_17fa37a3_46:
	movq	%r15, %rbx
	cmpq	%r15, %r12
	jae	.Lcovretin_BB_17fa37a3_50
.Lcovretin_BB_17fa37a3_47:
	movq	%rbx, %r15
	subq	%r12, %r15
	shrq	%r15
	addq	%r12, %r15
	movzwl	(%r10,%r15,2), %r13d
	cmpq	%r13, %r14
	jbe	.Lcovretin_BB_17fa37a3_46
	movq	(%rax), %rsi
	shll	$5, %r13d
	cmpq	%r8, (%rsi,%r13)
	ja	.Lcovretin_BB_17fa37a3_46
	movq	%r15, %r12
	incq	%r12
	movq	%rbx, %r15
	cmpq	%r15, %r12
	jb	.Lcovretin_BB_17fa37a3_47
.Lcovretin_BB_17fa37a3_50:
	testq	%r12, %r12
	je	.Lcovretin_BB_17fa37a3_103
	movzwl	-2(%r10,%r12,2), %r10d
	cmpq	%r10, %r14
	jbe	.Lcovretin_BB_17fa37a3_103
	movq	(%rax), %r15
	movl	%r10d, %r12d
	shll	$5, %r12d
	movq	%r8, %rbx
	subq	(%r15,%r12), %rbx
	jb	.Lcovretin_BB_17fa37a3_105
	movq	8(%r15,%r12), %r13
	testq	%r13, %r13
	je	.Lcovretin_BB_17fa37a3_105
	decq	%r13
	cmpq	%r13, %rbx
	ja	.Lcovretin_BB_17fa37a3_105
	jmp	.Lcovretin_BB_17fa37a3_110
.Lcovretin_BB_17fa37a3_55:
	movl	$13, %r14d
	cmpb	$1, 181(%rax)
	jne	.Lcovretin_BB_17fa37a3_120
	movl	$14, %r14d
	testb	$1, %bpl
	jne	.Lcovretin_BB_17fa37a3_120
	movl	%r11d, %esi
	testl	%r11d, %r11d
	sete	%r9b
	testb	$15, %sil
	setne	%r10b
	movl	$15, %r14d
	orb	%r9b, %r10b
	jne	.Lcovretin_BB_17fa37a3_120
	movzwl	176(%rax), %r10d
	movl	%esi, %r9d
	shrl	$4, %r9d
	movl	$11, %r14d
	cmpq	%r10, %r9
	ja	.Lcovretin_BB_17fa37a3_120
	movq	8(%rax), %r11
	movq	48(%rax), %r15
	cmpq	%r11, %r15
	jae	.Lcovretin_BB_17fa37a3_63
	movq	(%rax), %rbx
	movq	%r15, %r10
	shlq	$5, %r10
	movq	%r8, %r14
	subq	(%rbx,%r10), %r14
	jb	.Lcovretin_BB_17fa37a3_63
	movq	8(%rbx,%r10), %r12
	subq	%rsi, %r12
	jb	.Lcovretin_BB_17fa37a3_63
	cmpq	%r12, %r14
	jbe	.Lcovretin_BB_17fa37a3_141
.Lcovretin_BB_17fa37a3_63:
	movq	32(%rax), %rbx
	testq	%rbx, %rbx
	je	.Lcovretin_BB_17fa37a3_134
	movq	%r13, %rbp
	movq	24(%rax), %r10
	xorl	%r14d, %r14d
	jmp	.Lcovretin_BB_17fa37a3_66
.Lcovretin_BB_17fa37a3_65:
	movq	%r15, %rbx
	cmpq	%r15, %r14
	jae	.Lcovretin_BB_17fa37a3_69
.Lcovretin_BB_17fa37a3_66:
	movq	%rbx, %r15
	subq	%r14, %r15
	shrq	%r15
	addq	%r14, %r15
	movzwl	(%r10,%r15,2), %r13d
	cmpq	%r13, %r11
	jbe	.Lcovretin_BB_17fa37a3_65
	movq	(%rax), %r12
	shll	$5, %r13d
	cmpq	%r8, (%r12,%r13)
	ja	.Lcovretin_BB_17fa37a3_65
	movq	%r15, %r14
	incq	%r14
	movq	%rbx, %r15
	cmpq	%r15, %r14
	jb	.Lcovretin_BB_17fa37a3_66
.Lcovretin_BB_17fa37a3_69:
	testq	%r14, %r14
	movq	%rbp, %r13
	je	.Lcovretin_BB_17fa37a3_134
	movzwl	-2(%r10,%r14,2), %r15d
	cmpq	%r15, %r11
	jbe	.Lcovretin_BB_17fa37a3_134
	movq	(%rax), %rbx
	movl	%r15d, %r10d
	shll	$5, %r10d
	movq	%r8, %r14
	subq	(%rbx,%r10), %r14
	jb	.Lcovretin_BB_17fa37a3_136
	movq	8(%rbx,%r10), %r12
	subq	%rsi, %r12
	jb	.Lcovretin_BB_17fa37a3_136
	cmpq	%r12, %r14
	ja	.Lcovretin_BB_17fa37a3_136
	jmp	.Lcovretin_BB_17fa37a3_141
.Lcovretin_BB_17fa37a3_74:
	movl	$13, %r14d
	cmpb	$1, 181(%rax)
	jne	.Lcovretin_BB_17fa37a3_124
	movl	$14, %r14d
	testb	$1, %bpl
	jne	.Lcovretin_BB_17fa37a3_124
	movl	%r11d, %r9d
	testl	%r11d, %r11d
	sete	%sil
	testb	$15, %r9b
	setne	%r10b
	movl	$15, %r14d
	orb	%sil, %r10b
	jne	.Lcovretin_BB_17fa37a3_124
	movzwl	176(%rax), %esi
	movl	%r9d, %r11d
	shrl	$4, %r11d
	movl	$11, %r14d
	cmpq	%rsi, %r11
	ja	.Lcovretin_BB_17fa37a3_124
	movq	8(%rax), %r15
	movq	48(%rax), %r13
	cmpq	%r15, %r13
	jae	.Lcovretin_BB_17fa37a3_82
	movq	(%rax), %r12
	movq	%r13, %r10
	shlq	$5, %r10
	movq	%r8, %rbx
	subq	(%r12,%r10), %rbx
	jb	.Lcovretin_BB_17fa37a3_82
	movq	8(%r12,%r10), %r14
	subq	%r9, %r14
	jb	.Lcovretin_BB_17fa37a3_82
	cmpq	%r14, %rbx
	jbe	.Lcovretin_BB_17fa37a3_154
.Lcovretin_BB_17fa37a3_82:
	movq	32(%rax), %r14
	testq	%r14, %r14
	je	.Lcovretin_BB_17fa37a3_147
	movq	24(%rax), %r10
	xorl	%r12d, %r12d
	jmp	.Lcovretin_BB_17fa37a3_85
.Lcovretin_BB_17fa37a3_84:
	movq	%r13, %r14
	cmpq	%r13, %r12
	jae	.Lcovretin_BB_17fa37a3_88
.Lcovretin_BB_17fa37a3_85:
	movq	%r14, %r13
	subq	%r12, %r13
	shrq	%r13
	addq	%r12, %r13
	movzwl	(%r10,%r13,2), %ebx
	cmpq	%rbx, %r15
	jbe	.Lcovretin_BB_17fa37a3_84
	movq	(%rax), %rsi
	shll	$5, %ebx
	cmpq	%r8, (%rsi,%rbx)
	ja	.Lcovretin_BB_17fa37a3_84
	movq	%r13, %r12
	incq	%r12
	movq	%r14, %r13
	cmpq	%r13, %r12
	jb	.Lcovretin_BB_17fa37a3_85
.Lcovretin_BB_17fa37a3_88:
	testq	%r12, %r12
	je	.Lcovretin_BB_17fa37a3_147
	movzwl	-2(%r10,%r12,2), %r13d
	cmpq	%r13, %r15
	jbe	.Lcovretin_BB_17fa37a3_147
	movq	(%rax), %r12
	movl	%r13d, %r10d
	shll	$5, %r10d
	movq	%r8, %rbx
	subq	(%r12,%r10), %rbx
	jb	.Lcovretin_BB_17fa37a3_149
	movq	8(%r12,%r10), %r14
	subq	%r9, %r14
	jb	.Lcovretin_BB_17fa37a3_149
	cmpq	%r14, %rbx
	ja	.Lcovretin_BB_17fa37a3_149
	jmp	.Lcovretin_BB_17fa37a3_154
.Lcovretin_BB_17fa37a3_93:
	testq	%rbx, %rbx
	je	.Lcovretin_BB_17fa37a3_119
	movq	(%rax), %r14
.Lcovretin_BB_17fa37a3_95:
	xorl	%r13d, %r13d
	xorl	%r15d, %r15d
	jmp	.Lcovretin_BB_17fa37a3_97
.Lcovretin_BB_17fa37a3_96:
	incq	%r15
	addq	$32, %r13
	cmpq	%r15, %rbx
	je	.Lcovretin_BB_17fa37a3_119
.Lcovretin_BB_17fa37a3_97:
	movq	%r8, %r10
	subq	(%r14,%r13), %r10
	jb	.Lcovretin_BB_17fa37a3_96
	movq	8(%r14,%r13), %r12
	testq	%r12, %r12
	je	.Lcovretin_BB_17fa37a3_96
	decq	%r12
	cmpq	%r12, %r10
	ja	.Lcovretin_BB_17fa37a3_96
.Lcovretin_BB_17fa37a3_100:
	movl	%r11d, %esi
	movq	%r15, 48(%rax)
	movq	8(%r14,%r13), %r10
	movq	%r8, %rbx
	subq	(%r14,%r13), %rbx
	movq	24(%r14,%r13), %r15
	addq	%rbx, %r15
	subq	%rbx, %r10
	cmpq	%rsi, %r10
	cmovaeq	%rsi, %r10
	jae	.Lcovretin_BB_17fa37a3_142
	movzwl	178(%rax), %ebx
	testw	%bx, %bx
	movl	-48(%rsp), %r14d
	je	.Lcovretin_BB_17fa37a3_169
	leaq	(%r10,%r8), %rsi
	subl	%r10d, %r11d
	movq	$1, 152(%rax)
	movq	%rsi, 160(%rax)
	movl	%r11d, 168(%rax)
	movw	%bp, 172(%rax)
	movw	%r14w, 174(%rax)
	decl	%ebx
	movw	%bx, 178(%rax)
	jmp	.Lcovretin_BB_17fa37a3_145
.Lcovretin_BB_17fa37a3_103:
	testq	%r14, %r14
	je	.Lcovretin_BB_17fa37a3_123
	movq	(%rax), %r15
.Lcovretin_BB_17fa37a3_105:
	xorl	%r12d, %r12d
	xorl	%r10d, %r10d
	jmp	.Lcovretin_BB_17fa37a3_107
.Lcovretin_BB_17fa37a3_106:
	incq	%r10
	addq	$32, %r12
	cmpq	%r10, %r14
	je	.Lcovretin_BB_17fa37a3_123
.Lcovretin_BB_17fa37a3_107:
	movq	%r8, %rbx
	subq	(%r15,%r12), %rbx
	jb	.Lcovretin_BB_17fa37a3_106
	movq	8(%r15,%r12), %r13
	testq	%r13, %r13
	je	.Lcovretin_BB_17fa37a3_106
	decq	%r13
	cmpq	%r13, %rbx
	ja	.Lcovretin_BB_17fa37a3_106
.Lcovretin_BB_17fa37a3_110:
	movl	%r11d, %esi
	movq	%r10, 48(%rax)
	movq	8(%r15,%r12), %r10
	movq	%r8, %rbx
	subq	(%r15,%r12), %rbx
	movq	24(%r15,%r12), %r15
	addq	%rbx, %r15
	subq	%rbx, %r10
	cmpq	%rsi, %r10
	cmovaeq	%rsi, %r10
	jae	.Lcovretin_BB_17fa37a3_155
	movzwl	178(%rax), %ebx
	testw	%bx, %bx
	movl	-48(%rsp), %r14d
	je	.Lcovretin_BB_17fa37a3_171
	leaq	(%r10,%r8), %rsi
	subl	%r10d, %r11d
	movq	$1, 152(%rax)
	movq	%rsi, 160(%rax)
	movl	%r11d, 168(%rax)
	movw	%bp, 172(%rax)
	movl	-36(%rsp), %esi
	movw	%si, 174(%rax)
	decl	%ebx
	movw	%bx, 178(%rax)
	jmp	.Lcovretin_BB_17fa37a3_158
.Lcovretin_BB_17fa37a3_113:
	movl	$9, %r14d
	jmp	.Lcovretin_BB_17fa37a3_120
.Lcovretin_BB_17fa37a3_114:
	movl	$9, %r14d
	jmp	.Lcovretin_BB_17fa37a3_124
.Lcovretin_BB_17fa37a3_116:
	movl	$10, %r14d
	cmpw	%bp, %bx
	jbe	.Lcovretin_BB_17fa37a3_124
	movq	112(%rax), %rsi
	movl	$17, %r14d
	cmpw	$0, (%rsi,%r12,2)
	jne	.Lcovretin_BB_17fa37a3_124
	jmp	.Lcovretin_BB_17fa37a3_35
.Lcovretin_BB_17fa37a3_134:
	testq	%r11, %r11
	je	.Lcovretin_BB_17fa37a3_119
	movq	(%rax), %rbx
.Lcovretin_BB_17fa37a3_136:
	xorl	%r10d, %r10d
	xorl	%r15d, %r15d
	jmp	.Lcovretin_BB_17fa37a3_138
.Lcovretin_BB_17fa37a3_137:
	incq	%r15
	addq	$32, %r10
	movl	$8, %r14d
	cmpq	%r15, %r11
	je	.Lcovretin_BB_17fa37a3_120
.Lcovretin_BB_17fa37a3_138:
	movq	%r8, %r14
	subq	(%rbx,%r10), %r14
	jb	.Lcovretin_BB_17fa37a3_137
	movq	8(%rbx,%r10), %r12
	subq	%rsi, %r12
	jb	.Lcovretin_BB_17fa37a3_137
	cmpq	%r12, %r14
	ja	.Lcovretin_BB_17fa37a3_137
.Lcovretin_BB_17fa37a3_141:
	movq	%r15, 48(%rax)
	subq	(%rbx,%r10), %r8
	addq	24(%rbx,%r10), %r8
	movq	%r8, 136(%rax)
	movw	%r9w, 144(%rax)
	movl	$1, 146(%rax)
	movb	$0, 181(%rax)
	xorps	%xmm0, %xmm0
	movups	%xmm0, (%r13)
	movq	$0, 16(%r13)
	movl	$0, -41(%rsp)
	movl	$0, -44(%rsp)
	xorl	%r11d, %r11d
	xorl	%r15d, %r15d
	xorl	%r10d, %r10d
	xorl	%r8d, %r8d
	xorl	%r9d, %r9d
	jmp	.Lcovretin_BB_17fa37a3_146
.Lcovretin_BB_17fa37a3_119:
	movl	$8, %r14d
.Lcovretin_BB_17fa37a3_120:
	movb	$1, 184(%rax)
.Lcovretin_BB_17fa37a3_121:
	movb	$1, %sil
	xorl	%r15d, %r15d
	xorl	%r10d, %r10d
	xorl	%r8d, %r8d
	xorl	%r9d, %r9d
	xorl	%r11d, %r11d
.Lcovretin_BB_17fa37a3_122:
	movl	-24(%rsp), %ebx
	movl	-21(%rsp), %ebp
	jmp	.Lcovretin_BB_17fa37a3_127
.Lcovretin_BB_17fa37a3_142:
	testb	$1, %bpl
	movl	-48(%rsp), %esi
	jne	.Lcovretin_BB_17fa37a3_164
	movzwl	176(%rax), %r11d
	xorl	%ebx, %ebx
	xorl	%esi, %esi
	leaq	152(%rax), %r12
.Lcovretin_BB_17fa37a3_144:
	movw	%bx, 146(%rax)
	movw	%si, 148(%rax)
	decl	%r11d
	xorps	%xmm0, %xmm0
	movups	%xmm0, (%r12)
	movq	$0, 16(%r12)
	movw	%r11w, 176(%rax)
.Lcovretin_BB_17fa37a3_145:
	shrl	%r9d
	shrb	%bpl
	andb	$1, %bpl
	movb	%bpl, 180(%rax)
	movl	$0, -41(%rsp)
	movl	$0, -44(%rsp)
	movb	$1, %r11b
.Lcovretin_BB_17fa37a3_146:
	movl	-44(%rsp), %esi
	movl	-41(%rsp), %ebx
	movl	%ebx, -21(%rsp)
	movl	%esi, -24(%rsp)
	xorl	%esi, %esi
	xorl	%r14d, %r14d
	jmp	.Lcovretin_BB_17fa37a3_122
.Lcovretin_BB_17fa37a3_147:
	testq	%r15, %r15
	je	.Lcovretin_BB_17fa37a3_123
	movq	(%rax), %r12
.Lcovretin_BB_17fa37a3_149:
	xorl	%r10d, %r10d
	xorl	%r13d, %r13d
	jmp	.Lcovretin_BB_17fa37a3_151
.Lcovretin_BB_17fa37a3_150:
	incq	%r13
	addq	$32, %r10
	movl	$8, %r14d
	cmpq	%r13, %r15
	je	.Lcovretin_BB_17fa37a3_124
.Lcovretin_BB_17fa37a3_151:
	movq	%r8, %rbx
	subq	(%r12,%r10), %rbx
	jb	.Lcovretin_BB_17fa37a3_150
	movq	8(%r12,%r10), %r14
	subq	%r9, %r14
	jb	.Lcovretin_BB_17fa37a3_150
	cmpq	%r14, %rbx
	ja	.Lcovretin_BB_17fa37a3_150
.Lcovretin_BB_17fa37a3_154:
	movq	%r13, 48(%rax)
	subq	(%r12,%r10), %r8
	addq	24(%r12,%r10), %r8
	movq	%r8, 136(%rax)
	movw	%r11w, 144(%rax)
	movl	$1, 146(%rax)
	movb	$0, 181(%rax)
	xorps	%xmm0, %xmm0
	leaq	152(%rax), %rsi
	movups	%xmm0, (%rsi)
	movq	$0, 16(%rsi)
	movl	$0, -41(%rsp)
	movl	$0, -44(%rsp)
	xorl	%r11d, %r11d
	xorl	%r15d, %r15d
	xorl	%r10d, %r10d
	xorl	%r8d, %r8d
	xorl	%r9d, %r9d
	movl	-48(%rsp), %r14d
	jmp	.Lcovretin_BB_17fa37a3_159
.Lcovretin_BB_17fa37a3_123:
	movl	$8, %r14d
.Lcovretin_BB_17fa37a3_124:
	movb	$1, 187(%rax)
.Lcovretin_BB_17fa37a3_125:
	movb	$1, %sil
	xorl	%r15d, %r15d
	xorl	%r10d, %r10d
	xorl	%r8d, %r8d
	xorl	%r9d, %r9d
	xorl	%r11d, %r11d
.Lcovretin_BB_17fa37a3_126:
	movl	-32(%rsp), %ebx
	movl	-29(%rsp), %ebp
.Lcovretin_BB_17fa37a3_127:
	movl	%ebp, -13(%rsp)
	movl	%ebx, -16(%rsp)
	movq	%rax, (%rdi)
	testb	%sil, %sil
	je	.Lcovretin_BB_17fa37a3_129
	leaq	.Lcovretin_switch.table.covretin_queue_step(%rip), %rax
	movl	(%rax,%r14,4), %eax
	jmp	.Lcovretin_BB_17fa37a3_133
.Lcovretin_BB_17fa37a3_129:
	testb	%r11b, %r11b
	je	.Lcovretin_BB_17fa37a3_131
	movq	%r15, (%rdx)
	movq	%r10, 8(%rdx)
	movq	%r8, 16(%rdx)
	movb	%r9b, 24(%rdx)
	movl	-16(%rsp), %eax
	movl	-13(%rsp), %esi
	movl	%eax, 25(%rdx)
	movl	%esi, 28(%rdx)
	movb	$1, (%rcx)
	jmp	.Lcovretin_BB_17fa37a3_132
.Lcovretin_BB_17fa37a3_131:
	movb	$0, (%rcx)
.Lcovretin_BB_17fa37a3_132:
	xorl	%eax, %eax
.Lcovretin_BB_17fa37a3_133:
	popq	%rbx
	.cfi_def_cfa_offset 48
	popq	%r12
	.cfi_def_cfa_offset 40
	popq	%r13
	.cfi_def_cfa_offset 32
	popq	%r14
	.cfi_def_cfa_offset 24
	popq	%r15
	.cfi_def_cfa_offset 16
	popq	%rbp
	.cfi_def_cfa_offset 8
	.cfi_restore %rbx
	.cfi_restore %r12
	.cfi_restore %r13
	.cfi_restore %r14
	.cfi_restore %r15
	.cfi_restore %rbp
	retq
.Lcovretin_BB_17fa37a3_155:
	.cfi_def_cfa_offset 56
	.cfi_offset %rbx, -56
	.cfi_offset %rbp, -16
	.cfi_offset %r12, -48
	.cfi_offset %r13, -40
	.cfi_offset %r14, -32
	.cfi_offset %r15, -24
	testb	$1, %bpl
	jne	.Lcovretin_BB_17fa37a3_167
	movzwl	176(%rax), %r11d
	xorl	%ebx, %ebx
	movl	$0, -36(%rsp)
.Lcovretin_BB_17fa37a3_157:
	movw	%bx, 146(%rax)
	movl	-36(%rsp), %esi
	movw	%si, 148(%rax)
	decl	%r11d
	xorps	%xmm0, %xmm0
	leaq	152(%rax), %rsi
	movups	%xmm0, (%rsi)
	movq	$0, 16(%rsi)
	movw	%r11w, 176(%rax)
	movl	-48(%rsp), %r14d
.Lcovretin_BB_17fa37a3_158:
	shrl	%r9d
	shrb	%bpl
	andb	$1, %bpl
	movb	%bpl, 180(%rax)
	movl	$0, -41(%rsp)
	movl	$0, -44(%rsp)
	movb	$1, %r11b
.Lcovretin_BB_17fa37a3_159:
	movq	-8(%rsp), %r12
	movzbl	-49(%rsp), %esi
	testb	$1, %sil
	jne	.Lcovretin_BB_17fa37a3_163
	cmpb	$1, 186(%rax)
	jne	.Lcovretin_BB_17fa37a3_163
	movzwl	184(%rax), %ebx
	incl	%ebx
	movw	%bx, 184(%rax)
	andl	$5, %r14d
	cmpw	$1, %r14w
	je	.Lcovretin_BB_17fa37a3_163
	movb	$0, 186(%rax)
	movq	112(%rax), %rsi
	movw	%bx, (%rsi,%r12,2)
	movl	64(%rax), %esi
	movl	184(%rax), %ebx
	movzwl	98(%rax), %ebp
	subl	%ebp, %esi
	movl	%esi, %r14d
	negl	%esi
	cmpw	%r14w, %bx
	setae	%r14b
	cmovbl	%ebp, %esi
	addl	%ebx, %esi
	movw	%si, 98(%rax)
	xorb	%r14b, 100(%rax)
	movb	$0, 101(%rax)
.Lcovretin_BB_17fa37a3_163:
	movl	-44(%rsp), %esi
	movl	-41(%rsp), %ebx
	movl	%ebx, -29(%rsp)
	movl	%esi, -32(%rsp)
	xorl	%esi, %esi
	xorl	%r14d, %r14d
	jmp	.Lcovretin_BB_17fa37a3_126
.Lcovretin_BB_17fa37a3_164:
	movl	$10, %r14d
	cmpw	%si, 144(%rax)
	leaq	152(%rax), %r12
	jbe	.Lcovretin_BB_17fa37a3_120
	movzwl	176(%rax), %r11d
	movw	$1, %bx
	movl	$11, %r14d
	cmpw	$1, %r11w
	je	.Lcovretin_BB_17fa37a3_120
	jmp	.Lcovretin_BB_17fa37a3_144
.Lcovretin_BB_17fa37a3_167:
	movl	$10, %r14d
	movl	-36(%rsp), %esi
	cmpw	%si, 144(%rax)
	jbe	.Lcovretin_BB_17fa37a3_124
	movzwl	176(%rax), %r11d
	movw	$1, %bx
	movl	$11, %r14d
	cmpw	$1, %r11w
	je	.Lcovretin_BB_17fa37a3_124
	jmp	.Lcovretin_BB_17fa37a3_157
.Lcovretin_BB_17fa37a3_169:
	movl	$11, %r14d
	jmp	.Lcovretin_BB_17fa37a3_120
.Lcovretin_BB_17fa37a3_171:
	movl	$11, %r14d
	jmp	.Lcovretin_BB_17fa37a3_124
.Lcovretin_func_end_17fa37a3:
	.size	covretin_queue_step, .Lcovretin_func_end_17fa37a3-covretin_queue_step
	.cfi_endproc

	.type	.Lcovretin_switch.table.covretin_queue_step,@object
	.section	.rodata..Lcovretin_switch.table.covretin_queue_step,"a",@progbits
	.p2align	2, 0x0
.Lcovretin_switch.table.covretin_queue_step:
	.long	1
	.long	2
	.long	3
	.long	4
	.long	5
	.long	6
	.long	7
	.long	8
	.long	9
	.long	10
	.long	11
	.long	13
	.long	14
	.long	15
	.long	16
	.long	17
	.long	18
	.long	19
	.long	20
	.long	21
	.long	22
	.size	.Lcovretin_switch.table.covretin_queue_step, 84

	.ident	"rattle logic=dac8208d650f15bf3e2dc313a14fa4c783a3acf887bdfab66e1714b038d9e11b"
	.section	".note.GNU-stack","",@progbits
