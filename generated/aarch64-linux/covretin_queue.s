	.ifndef	covretin_in_a_module
	.section	.note.gnu.property,"a",@note
	.p2align	3, 0x0
	.word	4
	.word	16
	.word	5
	.asciz	"GNU"
	.word	3221225472
	.word	4
	.word	3
	.word	0
.Lcovretin_sec_end0:
	.endif
	.text
	.file	"rattle"
	.section	".text.unlikely.std_alloc::vec::Vec::grow_amortized::<#beceaf184de4c8f2>","ax",@progbits
	.p2align	2
	.type	"std_alloc::vec::Vec::grow_amortized::<#beceaf184de4c8f2>",@function
"std_alloc::vec::Vec::grow_amortized::<#beceaf184de4c8f2>":
	.cfi_startproc
	ldr	x8, [x0, #8]
	cmn	x8, #1
	b.eq	.Lcovretin_BB_91ac4cba_5
	hint	#25
	.cfi_negate_ra_state
	stp	x29, x30, [sp, #-32]!
	.cfi_def_cfa_offset 32
	stp	x20, x19, [sp, #16]
	mov	x29, sp
	.cfi_def_cfa w29, 32
	.cfi_offset w19, -8
	.cfi_offset w20, -16
	.cfi_offset w30, -24
	.cfi_offset w29, -32
	.cfi_remember_state
	ldr	x9, [x0, #16]
	cmp	x8, #3
	mov	w10, #3
	csel	x11, x8, x10, hi
	lsl	x10, x9, #1
	add	x12, x11, #1
	lsr	x13, x9, #62
	cmp	x12, x10
	csinc	x10, x10, x11, ls
	cmp	x13, #0
	csinc	x19, x10, x11, eq
	lsr	x11, x19, #59
	cbnz	x11, .Lcovretin_BB_91ac4cba_7
	cbz	x9, .Lcovretin_BB_91ac4cba_6
	mov	x20, x0
	ldr	x0, [x0]
	lsl	x1, x8, #4
	lsl	x2, x19, #4
	mov	w3, #8
	bl	rattle_realloc
	tbz	w0, #0, .Lcovretin_BB_91ac4cba_7
.Lcovretin_BB_91ac4cba_4:
	mov	w0, #1
	str	x1, [x20]
	str	x19, [x20, #16]
	.cfi_def_cfa wsp, 32
	ldp	x20, x19, [sp, #16]
	ldp	x29, x30, [sp], #32
	.cfi_def_cfa_offset 0
	.cfi_restore w19
	.cfi_restore w20
	.cfi_restore w30
	.cfi_restore w29
	hint	#29
	.cfi_negate_ra_state
	ret
.Lcovretin_BB_91ac4cba_5:
	mov	w0, wzr
	ret
.Lcovretin_BB_91ac4cba_6:
	.cfi_restore_state
	mov	x20, x0
	lsl	x0, x10, #4
	mov	w1, #8
	bl	rattle_alloc
	tbnz	w0, #0, .Lcovretin_BB_91ac4cba_4
.Lcovretin_BB_91ac4cba_7:
	mov	w0, wzr
	.cfi_def_cfa wsp, 32
	ldp	x20, x19, [sp, #16]
	ldp	x29, x30, [sp], #32
	.cfi_def_cfa_offset 0
	.cfi_restore w19
	.cfi_restore w20
	.cfi_restore w30
	.cfi_restore w29
	hint	#29
	.cfi_negate_ra_state
	ret
.Lcovretin_func_end_91ac4cba:
	.size	"std_alloc::vec::Vec::grow_amortized::<#beceaf184de4c8f2>", .Lcovretin_func_end_91ac4cba-"std_alloc::vec::Vec::grow_amortized::<#beceaf184de4c8f2>"
	.cfi_endproc

	.section	".text.core::slice::sort::unstable::quicksort::<#3f568d0648200725>","ax",@progbits
	.p2align	2
	.type	"core::slice::sort::unstable::quicksort::<#3f568d0648200725>",@function
"core::slice::sort::unstable::quicksort::<#3f568d0648200725>":
	.cfi_startproc
	hint	#25
	.cfi_negate_ra_state
	sub	sp, sp, #208
	.cfi_def_cfa_offset 208
	stp	x29, x30, [sp, #112]
	str	x27, [sp, #128]
	stp	x26, x25, [sp, #144]
	stp	x24, x23, [sp, #160]
	stp	x22, x21, [sp, #176]
	stp	x20, x19, [sp, #192]
	add	x29, sp, #112
	.cfi_def_cfa w29, 96
	.cfi_offset w19, -8
	.cfi_offset w20, -16
	.cfi_offset w21, -24
	.cfi_offset w22, -32
	.cfi_offset w23, -40
	.cfi_offset w24, -48
	.cfi_offset w25, -56
	.cfi_offset w26, -64
	.cfi_offset w27, -80
	.cfi_offset w30, -88
	.cfi_offset w29, -96
	sub	x23, x2, x1
	mov	x19, x1
	mov	x20, x0
	cmp	x23, #17
	b.lo	.Lcovretin_BB_3e9b2f3e_37
	mov	w21, w3
	mov	x22, x2
	add	x24, x20, #16
	add	x25, x20, #24
	b	.Lcovretin_BB_3e9b2f3e_4
.Lcovretin_BB_3e9b2f3e_2:
	mov	x12, xzr
.Lcovretin_BB_3e9b2f3e_3:
	add	x8, x8, x12
	add	x2, x11, x19
	mov	x0, x20
	mov	x1, x19
	mov	w3, w21
	str	x9, [x8]
	strh	w10, [x8, #8]
	stur	wzr, [x8, #10]
	strh	wzr, [x8, #14]
	bl	"core::slice::sort::unstable::quicksort::<#3f568d0648200725>"
	add	x19, x26, x19
	sub	x23, x22, x19
	cmp	x23, #16
	b.ls	.Lcovretin_BB_3e9b2f3e_37
.Lcovretin_BB_3e9b2f3e_4:
	cbz	w21, .Lcovretin_BB_3e9b2f3e_47
	lsr	x4, x23, #3
	lsl	x27, x19, #4
	cmp	x23, #63
	sub	x8, x19, x4
	add	x2, x19, x4, lsl #2
	add	x3, x8, x4, lsl #3
	b.hi	.Lcovretin_BB_3e9b2f3e_22
	lsl	x8, x2, #4
	lsl	x9, x3, #4
	ldr	x10, [x20, x27]
	ldr	x8, [x20, x8]
	ldr	x9, [x20, x9]
	cmp	x10, x8
	cset	w11, lo
	cmp	x10, x9
	cset	w10, lo
	cmp	x8, x9
	cset	w8, lo
	eor	w9, w11, w10
	eor	w8, w11, w8
	cmp	w8, #0
	csel	x8, x3, x2, ne
	cmp	w9, #0
	csel	x0, x19, x8, ne
	sub	w21, w21, #1
	cbz	x19, .Lcovretin_BB_3e9b2f3e_23
.Lcovretin_BB_3e9b2f3e_7:
	lsl	x9, x0, #4
	add	x8, x20, x27
	ldur	x10, [x8, #-16]
	ldr	x9, [x20, x9]
	cmp	x10, x9
	b.lo	.Lcovretin_BB_3e9b2f3e_24
	subs	x9, x0, x19
	b.eq	.Lcovretin_BB_3e9b2f3e_10
	lsl	x9, x9, #4
	ldr	q1, [x8]
	ldr	q0, [x8, x9]
	str	q0, [x8]
	str	q1, [x8, x9]
.Lcovretin_BB_3e9b2f3e_10:
	ldr	x9, [x8]
	ldrh	w10, [x8, #8]
	add	x11, x24, x27
	mov	w26, #1
.Lcovretin_BB_3e9b2f3e_11:
	ldr	x12, [x11], #16
	cmp	x9, x12
	b.lo	.Lcovretin_BB_3e9b2f3e_14
	add	x26, x26, #1
	cmp	x23, x26
	b.ne	.Lcovretin_BB_3e9b2f3e_11
	mov	x26, x23
.Lcovretin_BB_3e9b2f3e_14:
	sub	x13, x23, #1
	cmp	x26, x13
	b.hs	.Lcovretin_BB_3e9b2f3e_19
	add	x14, x26, #1
	add	x12, x8, x14, lsl #4
	cmp	x14, x13
	ldr	x11, [x12]
	ldrh	w12, [x12, #8]
	b.hs	.Lcovretin_BB_3e9b2f3e_18
	add	x14, x27, x26, lsl #4
	sub	x15, x23, x26
	sub	x15, x15, #2
	add	x14, x25, x14
.Lcovretin_BB_3e9b2f3e_17:
	add	x16, x8, x26, lsl #4
	ldr	x0, [x14, #8]
	ldr	x17, [x16]
	ldrh	w18, [x16, #8]
	strh	wzr, [x14, #6]
	stur	wzr, [x14, #2]
	cmp	x9, x0
	stur	x17, [x14, #-8]
	cinc	x26, x26, hs
	subs	x15, x15, #1
	strh	w18, [x14]
	ldrh	w17, [x14, #16]!
	str	x0, [x16]
	strh	wzr, [x16, #14]
	strh	w17, [x16, #8]
	stur	wzr, [x16, #10]
	b.ne	.Lcovretin_BB_3e9b2f3e_17
.Lcovretin_BB_3e9b2f3e_18:
	add	x14, x8, x26, lsl #4
	add	x13, x8, x13, lsl #4
	cmp	x9, x11
	cinc	x26, x26, hs
	ldr	x15, [x14]
	ldrh	w16, [x14, #8]
	stur	wzr, [x13, #10]
	strh	wzr, [x13, #14]
	str	x15, [x13]
	strh	w16, [x13, #8]
	str	x11, [x14]
	strh	w12, [x14, #8]
	stur	wzr, [x14, #10]
	strh	wzr, [x14, #14]
.Lcovretin_BB_3e9b2f3e_19:
	subs	x11, x26, #1
	b.eq	.Lcovretin_BB_3e9b2f3e_21
	lsl	x11, x11, #4
	stur	wzr, [x8, #10]
	strh	wzr, [x8, #14]
	add	x12, x8, x11
	ldr	x13, [x12]
	ldrh	w12, [x12, #8]
	str	x13, [x8]
	strh	w12, [x8, #8]
.Lcovretin_BB_3e9b2f3e_21:
	add	x8, x8, x11
	str	x9, [x8]
	strh	w10, [x8, #8]
	stur	wzr, [x8, #10]
	strh	wzr, [x8, #14]
	add	x19, x26, x19
	sub	x23, x22, x19
	cmp	x23, #16
	b.hi	.Lcovretin_BB_3e9b2f3e_4
	b	.Lcovretin_BB_3e9b2f3e_37
.Lcovretin_BB_3e9b2f3e_22:
	mov	x0, x20
	mov	x1, x19
	bl	"core::slice::sort::pivot::median_of_medians::<#3f568d0648200725>"
	sub	w21, w21, #1
	cbnz	x19, .Lcovretin_BB_3e9b2f3e_7
.Lcovretin_BB_3e9b2f3e_23:
	mov	x27, xzr
.Lcovretin_BB_3e9b2f3e_24:
	subs	x9, x0, x19
	add	x8, x20, x27
	b.eq	.Lcovretin_BB_3e9b2f3e_26
	lsl	x9, x9, #4
	ldr	q1, [x8]
	ldr	q0, [x8, x9]
	str	q0, [x8]
	str	q1, [x8, x9]
.Lcovretin_BB_3e9b2f3e_26:
	ldr	x9, [x8]
	ldrh	w10, [x8, #8]
	add	x11, x27, #16
	mov	w26, #1
.Lcovretin_BB_3e9b2f3e_27:
	ldr	x12, [x20, x11]
	cmp	x12, x9
	b.hs	.Lcovretin_BB_3e9b2f3e_30
	add	x26, x26, #1
	add	x11, x11, #16
	cmp	x23, x26
	b.ne	.Lcovretin_BB_3e9b2f3e_27
	mov	x26, x23
.Lcovretin_BB_3e9b2f3e_30:
	sub	x13, x23, #1
	cmp	x26, x13
	b.hs	.Lcovretin_BB_3e9b2f3e_35
	add	x14, x26, #1
	add	x12, x8, x14, lsl #4
	cmp	x14, x13
	ldr	x11, [x12]
	ldrh	w12, [x12, #8]
	b.hs	.Lcovretin_BB_3e9b2f3e_34
	add	x14, x27, x26, lsl #4
	sub	x15, x23, x26
	sub	x15, x15, #2
	add	x14, x25, x14
.Lcovretin_BB_3e9b2f3e_33:
	add	x16, x8, x26, lsl #4
	ldr	x0, [x14, #8]
	ldr	x17, [x16]
	ldrh	w18, [x16, #8]
	strh	wzr, [x14, #6]
	stur	wzr, [x14, #2]
	cmp	x0, x9
	stur	x17, [x14, #-8]
	cinc	x26, x26, lo
	subs	x15, x15, #1
	strh	w18, [x14]
	ldrh	w17, [x14, #16]!
	str	x0, [x16]
	strh	wzr, [x16, #14]
	strh	w17, [x16, #8]
	stur	wzr, [x16, #10]
	b.ne	.Lcovretin_BB_3e9b2f3e_33
.Lcovretin_BB_3e9b2f3e_34:
	add	x14, x8, x26, lsl #4
	add	x13, x8, x13, lsl #4
	cmp	x11, x9
	cinc	x26, x26, lo
	ldr	x15, [x14]
	ldrh	w16, [x14, #8]
	stur	wzr, [x13, #10]
	strh	wzr, [x13, #14]
	str	x15, [x13]
	strh	w16, [x13, #8]
	str	x11, [x14]
	strh	w12, [x14, #8]
	stur	wzr, [x14, #10]
	strh	wzr, [x14, #14]
.Lcovretin_BB_3e9b2f3e_35:
	subs	x11, x26, #1
	b.eq	.Lcovretin_BB_3e9b2f3e_2
	lsl	x12, x11, #4
	stur	wzr, [x8, #10]
	strh	wzr, [x8, #14]
	add	x13, x8, x12
	ldr	x14, [x13]
	ldrh	w13, [x13, #8]
	str	x14, [x8]
	strh	w13, [x8, #8]
	b	.Lcovretin_BB_3e9b2f3e_3
.Lcovretin_BB_3e9b2f3e_37:
	cmp	x23, #2
	b.lo	.Lcovretin_BB_3e9b2f3e_71
	lsl	x8, x19, #4
	mov	w10, #1
	add	x9, x8, x20
	add	x8, x20, x8
	add	x9, x9, #10
	b	.Lcovretin_BB_3e9b2f3e_42
.Lcovretin_BB_3e9b2f3e_39:
	lsl	x12, x12, #4
.Lcovretin_BB_3e9b2f3e_40:
	add	x12, x8, x12
	str	x11, [x12]
	strh	w13, [x12, #8]
	stur	wzr, [x12, #10]
	strh	wzr, [x12, #14]
.Lcovretin_BB_3e9b2f3e_41:
	add	x10, x10, #1
	add	x9, x9, #16
	cmp	x10, x23
	b.eq	.Lcovretin_BB_3e9b2f3e_71
.Lcovretin_BB_3e9b2f3e_42:
	sub	x12, x10, #1
	add	x14, x8, x10, lsl #4
	add	x13, x8, x12, lsl #4
	ldr	x11, [x14]
	ldr	x15, [x13]
	cmp	x11, x15
	b.hs	.Lcovretin_BB_3e9b2f3e_41
	ldrh	w16, [x13, #8]
	ldrh	w13, [x14, #8]
	str	x15, [x14]
	stur	wzr, [x14, #10]
	strh	w16, [x14, #8]
	strh	wzr, [x14, #14]
	cbz	x12, .Lcovretin_BB_3e9b2f3e_40
	mov	x14, x9
.Lcovretin_BB_3e9b2f3e_45:
	ldur	x15, [x14, #-26]
	cmp	x11, x15
	b.hs	.Lcovretin_BB_3e9b2f3e_39
	ldurh	w16, [x14, #-18]
	stur	x15, [x14, #-10]
	sub	x12, x12, #1
	str	wzr, [x14]
	sturh	w16, [x14, #-2]
	strh	wzr, [x14, #4]
	sub	x14, x14, #16
	cbnz	x12, .Lcovretin_BB_3e9b2f3e_45
	b	.Lcovretin_BB_3e9b2f3e_39
.Lcovretin_BB_3e9b2f3e_47:
	lsr	x9, x23, #1
	add	x8, x20, x19, lsl #4
	mov	x10, x9
	b	.Lcovretin_BB_3e9b2f3e_49
.Lcovretin_BB_3e9b2f3e_48:
	cbz	x10, .Lcovretin_BB_3e9b2f3e_60
.Lcovretin_BB_3e9b2f3e_49:
	sub	x10, x10, #1
	mov	x11, x10
	b	.Lcovretin_BB_3e9b2f3e_52
.Lcovretin_BB_3e9b2f3e_50:
	ldr	q0, [x14]
	ldr	q1, [x13]
	str	q0, [x13]
	str	q1, [x14]
.Lcovretin_BB_3e9b2f3e_51:
	cmp	x11, x9
	b.hs	.Lcovretin_BB_3e9b2f3e_48
.Lcovretin_BB_3e9b2f3e_52:
	mov	x12, x11
	lsl	x11, x11, #1
	mov	w13, #1
	bfi	x13, x12, #1, #63
	add	x11, x11, #2
	cmp	x11, x23
	b.eq	.Lcovretin_BB_3e9b2f3e_54
	lsl	x14, x13, #4
	lsl	x15, x11, #4
	ldr	x14, [x8, x14]
	ldr	x15, [x8, x15]
	cmp	x14, x15
	b.lo	.Lcovretin_BB_3e9b2f3e_55
.Lcovretin_BB_3e9b2f3e_54:
	mov	x11, x13
.Lcovretin_BB_3e9b2f3e_55:
	add	x13, x8, x12, lsl #4
	add	x14, x8, x11, lsl #4
	ldr	x15, [x13]
	ldr	x16, [x14]
	cmp	x15, x16
	b.hs	.Lcovretin_BB_3e9b2f3e_48
	cmp	x12, x11
	b.lo	.Lcovretin_BB_3e9b2f3e_50
	cmp	x11, x12
	b.hs	.Lcovretin_BB_3e9b2f3e_51
	ldr	q0, [x13]
	ldr	q1, [x14]
	str	q0, [x14]
	str	q1, [x13]
	b	.Lcovretin_BB_3e9b2f3e_51
.Lcovretin_BB_3e9b2f3e_59:
	cmp	x23, #1
	b.ls	.Lcovretin_BB_3e9b2f3e_71
.Lcovretin_BB_3e9b2f3e_60:
	sub	x23, x23, #1
	ldr	q1, [x8]
	lsl	x10, x23, #4
	lsr	x9, x23, #1
	ldr	q0, [x8, x10]
	str	q0, [x8]
	str	q1, [x8, x10]
	cbz	x9, .Lcovretin_BB_3e9b2f3e_59
	mov	x10, xzr
	b	.Lcovretin_BB_3e9b2f3e_64
.Lcovretin_BB_3e9b2f3e_62:
	ldr	q0, [x13]
	ldr	q1, [x12]
	str	q0, [x12]
	str	q1, [x13]
.Lcovretin_BB_3e9b2f3e_63:
	cmp	x10, x9
	b.hs	.Lcovretin_BB_3e9b2f3e_59
.Lcovretin_BB_3e9b2f3e_64:
	mov	x11, x10
	lsl	x10, x10, #1
	mov	w12, #1
	bfi	x12, x11, #1, #63
	add	x10, x10, #2
	cmp	x10, x23
	b.eq	.Lcovretin_BB_3e9b2f3e_66
	lsl	x13, x12, #4
	lsl	x14, x10, #4
	ldr	x13, [x8, x13]
	ldr	x14, [x8, x14]
	cmp	x13, x14
	b.lo	.Lcovretin_BB_3e9b2f3e_67
.Lcovretin_BB_3e9b2f3e_66:
	mov	x10, x12
.Lcovretin_BB_3e9b2f3e_67:
	add	x12, x8, x11, lsl #4
	add	x13, x8, x10, lsl #4
	ldr	x14, [x12]
	ldr	x15, [x13]
	cmp	x14, x15
	b.hs	.Lcovretin_BB_3e9b2f3e_59
	cmp	x11, x10
	b.lo	.Lcovretin_BB_3e9b2f3e_62
	cmp	x10, x11
	b.hs	.Lcovretin_BB_3e9b2f3e_63
	ldr	q0, [x12]
	ldr	q1, [x13]
	str	q0, [x13]
	str	q1, [x12]
	b	.Lcovretin_BB_3e9b2f3e_63
.Lcovretin_BB_3e9b2f3e_71:
	.cfi_def_cfa wsp, 208
	ldp	x20, x19, [sp, #192]
	ldr	x27, [sp, #128]
	ldp	x22, x21, [sp, #176]
	ldp	x24, x23, [sp, #160]
	ldp	x26, x25, [sp, #144]
	ldp	x29, x30, [sp, #112]
	add	sp, sp, #208
	.cfi_def_cfa_offset 0
	.cfi_restore w19
	.cfi_restore w20
	.cfi_restore w21
	.cfi_restore w22
	.cfi_restore w23
	.cfi_restore w24
	.cfi_restore w25
	.cfi_restore w26
	.cfi_restore w27
	.cfi_restore w30
	.cfi_restore w29
	hint	#29
	.cfi_negate_ra_state
	ret
.Lcovretin_func_end_3e9b2f3e:
	.size	"core::slice::sort::unstable::quicksort::<#3f568d0648200725>", .Lcovretin_func_end_3e9b2f3e-"core::slice::sort::unstable::quicksort::<#3f568d0648200725>"
	.cfi_endproc

	.section	".text.core::slice::sort::pivot::median_of_medians::<#3f568d0648200725>","ax",@progbits
	.p2align	2
	.type	"core::slice::sort::pivot::median_of_medians::<#3f568d0648200725>",@function
"core::slice::sort::pivot::median_of_medians::<#3f568d0648200725>":
	.cfi_startproc
	hint	#25
	.cfi_negate_ra_state
	stp	x29, x30, [sp, #-80]!
	.cfi_def_cfa_offset 80
	str	x25, [sp, #16]
	stp	x24, x23, [sp, #32]
	stp	x22, x21, [sp, #48]
	stp	x20, x19, [sp, #64]
	mov	x29, sp
	.cfi_def_cfa w29, 80
	.cfi_offset w19, -8
	.cfi_offset w20, -16
	.cfi_offset w21, -24
	.cfi_offset w22, -32
	.cfi_offset w23, -40
	.cfi_offset w24, -48
	.cfi_offset w25, -64
	.cfi_offset w30, -72
	.cfi_offset w29, -80
	mov	x19, x3
	mov	x20, x2
	cmp	x4, #8
	b.hs	.Lcovretin_BB_218c8ea9_2
	lsl	x8, x1, #4
	lsl	x9, x20, #4
	lsl	x10, x19, #4
	ldr	x8, [x0, x8]
	ldr	x9, [x0, x9]
	ldr	x10, [x0, x10]
	cmp	x8, x9
	cset	w11, lo
	cmp	x8, x10
	cset	w8, lo
	cmp	x9, x10
	cset	w9, lo
	eor	w8, w11, w8
	eor	w9, w11, w9
	cmp	w9, #0
	csel	x9, x19, x20, ne
	cmp	w8, #0
	csel	x0, x1, x9, ne
	b	.Lcovretin_BB_218c8ea9_3
.Lcovretin_BB_218c8ea9_2:
	lsr	x21, x4, #3
	mov	x22, x0
	lsl	x8, x21, #3
	lsl	x24, x21, #2
	mov	x4, x21
	sub	x25, x8, x21
	add	x2, x24, x1
	add	x3, x25, x1
	bl	"core::slice::sort::pivot::median_of_medians::<#3f568d0648200725>"
	mov	x23, x0
	add	x2, x24, x20
	add	x3, x25, x20
	mov	x0, x22
	mov	x1, x20
	mov	x4, x21
	bl	"core::slice::sort::pivot::median_of_medians::<#3f568d0648200725>"
	mov	x20, x0
	add	x2, x24, x19
	add	x3, x25, x19
	mov	x0, x22
	mov	x1, x19
	mov	x4, x21
	bl	"core::slice::sort::pivot::median_of_medians::<#3f568d0648200725>"
	lsl	x8, x23, #4
	lsl	x9, x20, #4
	lsl	x10, x0, #4
	ldr	x8, [x22, x8]
	ldr	x9, [x22, x9]
	ldr	x10, [x22, x10]
	cmp	x8, x9
	cset	w11, lo
	cmp	x8, x10
	cset	w8, lo
	cmp	x9, x10
	cset	w9, lo
	eor	w8, w11, w8
	eor	w9, w11, w9
	cmp	w9, #0
	csel	x9, x0, x20, ne
	cmp	w8, #0
	csel	x0, x23, x9, ne
.Lcovretin_BB_218c8ea9_3:
	.cfi_def_cfa wsp, 80
	ldp	x20, x19, [sp, #64]
	ldr	x25, [sp, #16]
	ldp	x22, x21, [sp, #48]
	ldp	x24, x23, [sp, #32]
	ldp	x29, x30, [sp], #80
	.cfi_def_cfa_offset 0
	.cfi_restore w19
	.cfi_restore w20
	.cfi_restore w21
	.cfi_restore w22
	.cfi_restore w23
	.cfi_restore w24
	.cfi_restore w25
	.cfi_restore w30
	.cfi_restore w29
	hint	#29
	.cfi_negate_ra_state
	ret
.Lcovretin_func_end_218c8ea9:
	.size	"core::slice::sort::pivot::median_of_medians::<#3f568d0648200725>", .Lcovretin_func_end_218c8ea9-"core::slice::sort::pivot::median_of_medians::<#3f568d0648200725>"
	.cfi_endproc

	.section	".text.core::slice::edits::mirror::<31'vhost_queue::inflight::Resubmit>","ax",@progbits
	.p2align	2
	.type	"core::slice::edits::mirror::<31'vhost_queue::inflight::Resubmit>",@function
"core::slice::edits::mirror::<31'vhost_queue::inflight::Resubmit>":
	.cfi_startproc
	sub	sp, sp, #16
	.cfi_def_cfa_offset 16
	add	x8, x1, x2, lsl #4
	sub	x8, x8, #16
.Lcovretin_BB_cba843fd_1:
	ldr	q0, [x8]
	ldr	q1, [x0]
	sub	x2, x2, #1
	str	q0, [x0], #16
	str	q1, [x8], #-16
	cbnz	x2, .Lcovretin_BB_cba843fd_1
	add	sp, sp, #16
	.cfi_def_cfa_offset 0
	ret
.Lcovretin_func_end_cba843fd:
	.size	"core::slice::edits::mirror::<31'vhost_queue::inflight::Resubmit>", .Lcovretin_func_end_cba843fd-"core::slice::edits::mirror::<31'vhost_queue::inflight::Resubmit>"
	.cfi_endproc

	.section	".text.unlikely.std_alloc::vec::Vec::grow_amortized::<#443caa9c7f3d02a7>","ax",@progbits
	.p2align	2
	.type	"std_alloc::vec::Vec::grow_amortized::<#443caa9c7f3d02a7>",@function
"std_alloc::vec::Vec::grow_amortized::<#443caa9c7f3d02a7>":
	.cfi_startproc
	ldr	x8, [x0, #8]
	cmn	x8, #1
	b.eq	.Lcovretin_BB_30de1e0c_5
	hint	#25
	.cfi_negate_ra_state
	stp	x29, x30, [sp, #-32]!
	.cfi_def_cfa_offset 32
	stp	x20, x19, [sp, #16]
	mov	x29, sp
	.cfi_def_cfa w29, 32
	.cfi_offset w19, -8
	.cfi_offset w20, -16
	.cfi_offset w30, -24
	.cfi_offset w29, -32
	.cfi_remember_state
	ldr	x9, [x0, #16]
	cmp	x8, #3
	mov	w10, #3
	csel	x11, x8, x10, hi
	lsl	x10, x9, #1
	add	x12, x11, #1
	lsr	x13, x9, #62
	cmp	x12, x10
	csinc	x10, x10, x11, ls
	cmp	x13, #0
	csinc	x19, x10, x11, eq
	lsr	x11, x19, #62
	cbnz	x11, .Lcovretin_BB_30de1e0c_7
	cbz	x9, .Lcovretin_BB_30de1e0c_6
	mov	x20, x0
	ldr	x0, [x0]
	lsl	x1, x8, #1
	lsl	x2, x19, #1
	mov	w3, #2
	bl	rattle_realloc
	tbz	w0, #0, .Lcovretin_BB_30de1e0c_7
.Lcovretin_BB_30de1e0c_4:
	mov	w0, #1
	str	x1, [x20]
	str	x19, [x20, #16]
	.cfi_def_cfa wsp, 32
	ldp	x20, x19, [sp, #16]
	ldp	x29, x30, [sp], #32
	.cfi_def_cfa_offset 0
	.cfi_restore w19
	.cfi_restore w20
	.cfi_restore w30
	.cfi_restore w29
	hint	#29
	.cfi_negate_ra_state
	ret
.Lcovretin_BB_30de1e0c_5:
	mov	w0, wzr
	ret
.Lcovretin_BB_30de1e0c_6:
	.cfi_restore_state
	mov	x20, x0
	lsl	x0, x10, #1
	mov	w1, #2
	bl	rattle_alloc
	tbnz	w0, #0, .Lcovretin_BB_30de1e0c_4
.Lcovretin_BB_30de1e0c_7:
	mov	w0, wzr
	.cfi_def_cfa wsp, 32
	ldp	x20, x19, [sp, #16]
	ldp	x29, x30, [sp], #32
	.cfi_def_cfa_offset 0
	.cfi_restore w19
	.cfi_restore w20
	.cfi_restore w30
	.cfi_restore w29
	hint	#29
	.cfi_negate_ra_state
	ret
.Lcovretin_func_end_30de1e0c:
	.size	"std_alloc::vec::Vec::grow_amortized::<#443caa9c7f3d02a7>", .Lcovretin_func_end_30de1e0c-"std_alloc::vec::Vec::grow_amortized::<#443caa9c7f3d02a7>"
	.cfi_endproc

	.section	".text.unlikely.std_alloc::vec::Vec::grow_amortized::<#a2eddaad9eb283e4>","ax",@progbits
	.p2align	2
	.type	"std_alloc::vec::Vec::grow_amortized::<#a2eddaad9eb283e4>",@function
"std_alloc::vec::Vec::grow_amortized::<#a2eddaad9eb283e4>":
	.cfi_startproc
	ldr	x8, [x0, #8]
	cmn	x8, #1
	b.eq	.Lcovretin_BB_ade15e9f_5
	hint	#25
	.cfi_negate_ra_state
	stp	x29, x30, [sp, #-32]!
	.cfi_def_cfa_offset 32
	stp	x20, x19, [sp, #16]
	mov	x29, sp
	.cfi_def_cfa w29, 32
	.cfi_offset w19, -8
	.cfi_offset w20, -16
	.cfi_offset w30, -24
	.cfi_offset w29, -32
	.cfi_remember_state
	ldr	x9, [x0, #16]
	cmp	x8, #3
	mov	w10, #3
	csel	x11, x8, x10, hi
	lsl	x10, x9, #1
	add	x12, x11, #1
	lsr	x13, x9, #62
	cmp	x12, x10
	csinc	x10, x10, x11, ls
	cmp	x13, #0
	csinc	x19, x10, x11, eq
	lsr	x11, x19, #58
	cbnz	x11, .Lcovretin_BB_ade15e9f_7
	cbz	x9, .Lcovretin_BB_ade15e9f_6
	mov	x20, x0
	ldr	x0, [x0]
	lsl	x1, x8, #5
	lsl	x2, x19, #5
	mov	w3, #8
	bl	rattle_realloc
	tbz	w0, #0, .Lcovretin_BB_ade15e9f_7
.Lcovretin_BB_ade15e9f_4:
	mov	w0, #1
	str	x1, [x20]
	str	x19, [x20, #16]
	.cfi_def_cfa wsp, 32
	ldp	x20, x19, [sp, #16]
	ldp	x29, x30, [sp], #32
	.cfi_def_cfa_offset 0
	.cfi_restore w19
	.cfi_restore w20
	.cfi_restore w30
	.cfi_restore w29
	hint	#29
	.cfi_negate_ra_state
	ret
.Lcovretin_BB_ade15e9f_5:
	mov	w0, wzr
	ret
.Lcovretin_BB_ade15e9f_6:
	.cfi_restore_state
	mov	x20, x0
	lsl	x0, x10, #5
	mov	w1, #8
	bl	rattle_alloc
	tbnz	w0, #0, .Lcovretin_BB_ade15e9f_4
.Lcovretin_BB_ade15e9f_7:
	mov	w0, wzr
	.cfi_def_cfa wsp, 32
	ldp	x20, x19, [sp, #16]
	ldp	x29, x30, [sp], #32
	.cfi_def_cfa_offset 0
	.cfi_restore w19
	.cfi_restore w20
	.cfi_restore w30
	.cfi_restore w29
	hint	#29
	.cfi_negate_ra_state
	ret
.Lcovretin_func_end_ade15e9f:
	.size	"std_alloc::vec::Vec::grow_amortized::<#a2eddaad9eb283e4>", .Lcovretin_func_end_ade15e9f-"std_alloc::vec::Vec::grow_amortized::<#a2eddaad9eb283e4>"
	.cfi_endproc

	.section	.rodata.cst16,"aM",@progbits,16
	.p2align	4, 0x0
.Lcovretin_CPI_9082341e_0:
	.xword	1
	.xword	0
.Lcovretin_CPI_9082341e_1:
	.xword	14
	.xword	2
	.section	.text.covretin_inflight_after_used,"ax",@progbits
	.globl	covretin_inflight_after_used
	.p2align	2
	.type	covretin_inflight_after_used,@function
covretin_inflight_after_used:
	.cfi_startproc
	hint	#34
	adrp	x8, .Lcovretin_CPI_9082341e_0
	and	x9, x0, #0xffff
	ldr	q0, [x8, :lo12:.Lcovretin_CPI_9082341e_0]
	lsl	x8, x9, #4
	adrp	x9, .Lcovretin_CPI_9082341e_1
	stur	q0, [x2, #8]
	ldr	q0, [x9, :lo12:.Lcovretin_CPI_9082341e_1]
	add	x8, x8, #16
	str	x8, [x2]
	and	x8, x1, #0xffff
	str	q0, [x3]
	str	x8, [x3, #16]
	ret
.Lcovretin_func_end_9082341e:
	.size	covretin_inflight_after_used, .Lcovretin_func_end_9082341e-covretin_inflight_after_used
	.cfi_endproc

	.section	.rodata.cst16,"aM",@progbits,16
	.p2align	4, 0x0
.Lcovretin_CPI_4524864a_0:
	.xword	1
	.xword	0
.Lcovretin_CPI_4524864a_1:
	.xword	12
	.xword	4
.Lcovretin_CPI_4524864a_2:
	.xword	16
	.xword	8
	.section	.text.covretin_inflight_after_used_packed,"ax",@progbits
	.globl	covretin_inflight_after_used_packed
	.p2align	2
	.type	covretin_inflight_after_used_packed,@function
covretin_inflight_after_used_packed:
	.cfi_startproc
	hint	#34
	and	x9, x1, #0x7fff
	ubfx	w8, w1, #15, #1
	adrp	x10, .Lcovretin_CPI_4524864a_0
	lsl	x9, x9, #16
	ldr	q0, [x10, :lo12:.Lcovretin_CPI_4524864a_0]
	adrp	x12, .Lcovretin_CPI_4524864a_1
	and	x11, x0, #0xffff
	orr	x9, x9, x8, lsl #32
	stur	q0, [x2, #8]
	ldr	q0, [x12, :lo12:.Lcovretin_CPI_4524864a_1]
	lsl	x10, x11, #5
	orr	x11, x11, x11, lsl #16
	orr	x8, x9, x8, lsl #40
	adrp	x9, .Lcovretin_CPI_4524864a_2
	stur	q0, [x2, #24]
	ldr	q0, [x9, :lo12:.Lcovretin_CPI_4524864a_2]
	add	x10, x10, #32
	str	x11, [x2, #40]
	bfxil	x8, x1, #0, #15
	str	x10, [x2]
	str	q0, [x2, #48]
	str	x8, [x2, #64]
	ret
.Lcovretin_func_end_4524864a:
	.size	covretin_inflight_after_used_packed, .Lcovretin_func_end_4524864a-covretin_inflight_after_used_packed
	.cfi_endproc

	.section	.rodata.cst16,"aM",@progbits,16
	.p2align	4, 0x0
.Lcovretin_CPI_56449e69_0:
	.xword	12
	.xword	2
	.section	.text.covretin_inflight_before_used,"ax",@progbits
	.globl	covretin_inflight_before_used
	.p2align	2
	.type	covretin_inflight_before_used,@function
covretin_inflight_before_used:
	.cfi_startproc
	hint	#34
	and	x8, x0, #0xffff
	and	x10, x1, #0xffff
	lsl	x9, x8, #4
	str	x10, [x2, #16]
	adrp	x10, .Lcovretin_CPI_56449e69_0
	ldr	q0, [x10, :lo12:.Lcovretin_CPI_56449e69_0]
	mov	w10, #2
	add	x9, x9, #22
	stp	x9, x10, [x2]
	str	q0, [x3]
	str	x8, [x3, #16]
	ret
.Lcovretin_func_end_56449e69:
	.size	covretin_inflight_before_used, .Lcovretin_func_end_56449e69-covretin_inflight_before_used
	.cfi_endproc

	.section	.rodata.cst16,"aM",@progbits,16
	.p2align	4, 0x0
.Lcovretin_CPI_06e08657_0:
	.xword	12
	.xword	2
.Lcovretin_CPI_06e08657_1:
	.xword	16
	.xword	8
	.section	.text.covretin_inflight_before_used_packed,"ax",@progbits
	.globl	covretin_inflight_before_used_packed
	.p2align	2
	.type	covretin_inflight_before_used_packed,@function
covretin_inflight_before_used_packed:
	.cfi_startproc
	hint	#34
	and	x8, x1, #0xffff
	mov	w9, #2
	ubfx	w11, w3, #15, #1
	lsl	x8, x8, #5
	adrp	x10, .Lcovretin_CPI_06e08657_0
	ubfx	w12, w4, #15, #1
	ldr	q0, [x10, :lo12:.Lcovretin_CPI_06e08657_0]
	and	x13, x2, #0xffff
	and	x10, x0, #0xffff
	add	x8, x8, #34
	str	x13, [x5, #16]
	stp	x8, x9, [x5]
	and	x8, x3, #0x7fff
	adrp	x9, .Lcovretin_CPI_06e08657_1
	bfi	x8, x4, #16, #15
	stur	q0, [x5, #24]
	ldr	q0, [x9, :lo12:.Lcovretin_CPI_06e08657_1]
	str	x10, [x5, #40]
	orr	x8, x8, x11, lsl #32
	str	q0, [x5, #48]
	orr	x8, x8, x12, lsl #40
	str	x8, [x5, #64]
	ret
.Lcovretin_func_end_06e08657:
	.size	covretin_inflight_before_used_packed, .Lcovretin_func_end_06e08657-covretin_inflight_before_used_packed
	.cfi_endproc

	.section	.text.covretin_inflight_keep_packed,"ax",@progbits
	.globl	covretin_inflight_keep_packed
	.p2align	2
	.type	covretin_inflight_keep_packed,@function
covretin_inflight_keep_packed:
	.cfi_startproc
	hint	#34
	ldp	w10, w8, [x1, #8]
	ubfiz	x9, x0, #5, #16
	ldr	x12, [x1]
	mov	w11, #8
	orr	x8, x8, x10, lsl #32
	add	x10, x9, #48
	add	x9, x9, #56
	stp	x10, x11, [x2]
	str	x8, [x2, #16]
	stp	x9, x11, [x3]
	str	x12, [x3, #16]
	ret
.Lcovretin_func_end_9fc0b354:
	.size	covretin_inflight_keep_packed, .Lcovretin_func_end_9fc0b354-covretin_inflight_keep_packed
	.cfi_endproc

	.section	.text.covretin_inflight_recover,"ax",@progbits
	.globl	covretin_inflight_recover
	.p2align	2
	.type	covretin_inflight_recover,@function
covretin_inflight_recover:
	.cfi_startproc
	hint	#25
	.cfi_negate_ra_state
	sub	sp, sp, #160
	.cfi_def_cfa_offset 160
	stp	x29, x30, [sp, #64]
	stp	x28, x27, [sp, #80]
	stp	x26, x25, [sp, #96]
	stp	x24, x23, [sp, #112]
	stp	x22, x21, [sp, #128]
	stp	x20, x19, [sp, #144]
	add	x29, sp, #64
	.cfi_def_cfa w29, 96
	.cfi_offset w19, -8
	.cfi_offset w20, -16
	.cfi_offset w21, -24
	.cfi_offset w22, -32
	.cfi_offset w23, -40
	.cfi_offset w24, -48
	.cfi_offset w25, -56
	.cfi_offset w26, -64
	.cfi_offset w27, -72
	.cfi_offset w28, -80
	.cfi_offset w30, -88
	.cfi_offset w29, -96
	.cfi_remember_state
	cmp	x0, #0
	mov	w8, #4096
	csel	x13, x8, xzr, eq
	cmp	x5, #0
	csel	x10, x8, xzr, eq
	cmp	x7, #0
	csel	x21, x8, xzr, eq
	cmp	x1, #8, lsl #12
	mov	w8, #8
	b.hi	.Lcovretin_BB_05a9da4a_75
	sub	w26, w4, w3
	mov	x19, x1
	and	x9, x26, #0xffff
	cmp	x1, x9
	b.lo	.Lcovretin_BB_05a9da4a_75
	cbz	x19, .Lcovretin_BB_05a9da4a_8
	mov	x28, x0
	mov	x0, x19
	mov	w1, #1
	str	x13, [sp]
	mov	w27, w4
	mov	x24, x2
	str	x10, [sp, #24]
	mov	x23, x7
	mov	x22, x5
	str	w3, [sp, #8]
	mov	x25, x6
	bl	rattle_alloc
	tbz	w0, #0, .Lcovretin_BB_05a9da4a_11
	mov	x20, x1
	str	x21, [sp, #16]
	subs	x21, x19, #1
	b.eq	.Lcovretin_BB_05a9da4a_6
	mov	x0, x20
	mov	w1, wzr
	mov	x2, x21
	bl	memset
.Lcovretin_BB_05a9da4a_6:
	ldr	w8, [sp, #8]
	ldr	x13, [sp]
	and	w9, w27, #0xffff
	mov	x6, x25
	mov	x5, x22
	mov	x7, x23
	mov	x0, x28
	mov	x2, x24
	cmp	w9, w8, uxth
	add	x25, x21, #1
	strb	wzr, [x20, x21]
	b.eq	.Lcovretin_BB_05a9da4a_17
	ldr	x21, [sp, #16]
	b	.Lcovretin_BB_05a9da4a_13
.Lcovretin_BB_05a9da4a_8:
	and	w8, w4, #0xffff
	cmp	w8, w3, uxth
	b.ne	.Lcovretin_BB_05a9da4a_12
	cbnz	x6, .Lcovretin_BB_05a9da4a_64
	str	x21, [sp, #16]
	mov	x27, xzr
	mov	x21, xzr
	sub	x20, x29, #8
	sub	x22, x29, #8
	b	.Lcovretin_BB_05a9da4a_56
.Lcovretin_BB_05a9da4a_11:
	mov	w8, #24
	b	.Lcovretin_BB_05a9da4a_75
.Lcovretin_BB_05a9da4a_12:
	mov	x25, xzr
	sub	x20, x29, #8
	str	x10, [sp, #24]
.Lcovretin_BB_05a9da4a_13:
	mov	w8, wzr
	and	x10, x2, #0xffff
	add	x9, x0, x13
.Lcovretin_BB_05a9da4a_14:
	cmp	x19, x10
	b.ls	.Lcovretin_BB_05a9da4a_18
	add	x11, x9, x10, lsl #4
	add	w8, w8, #1
	mov	w12, #1
	strb	w12, [x20, x10]
	and	w12, w8, #0xffff
	ldrh	w10, [x11, #2]
	cmp	w12, w26, uxth
	b.lo	.Lcovretin_BB_05a9da4a_14
	str	x21, [sp, #16]
.Lcovretin_BB_05a9da4a_17:
	sub	x8, x29, #8
	ldr	x28, [x29, #96]
	mov	x21, xzr
	str	x8, [sp, #32]
	add	x8, x13, x0
	mov	x27, xzr
	add	x22, x8, #8
	sub	x8, x29, #8
	stp	xzr, xzr, [sp, #40]
	b	.Lcovretin_BB_05a9da4a_23
.Lcovretin_BB_05a9da4a_18:
	cbz	x19, .Lcovretin_BB_05a9da4a_49
	mov	x0, x20
	bl	rattle_dealloc
	mov	w8, #8
	b	.Lcovretin_BB_05a9da4a_75
.Lcovretin_BB_05a9da4a_20:
	ldp	x8, x21, [sp, #32]
	mov	x5, x28
	mov	x28, x25
	ldr	x25, [sp, #8]
	mov	x6, x26
	mov	x7, x24
.Lcovretin_BB_05a9da4a_21:
	add	x9, x8, x21, lsl #4
	add	x21, x21, #1
	str	x23, [x9]
	strh	w27, [x9, #8]
	stur	wzr, [x9, #10]
	strh	wzr, [x9, #14]
	str	x21, [sp, #40]
.Lcovretin_BB_05a9da4a_22:
	add	x27, x27, #1
	add	x22, x22, #16
	cmp	x19, x27
	b.eq	.Lcovretin_BB_05a9da4a_30
.Lcovretin_BB_05a9da4a_23:
	ldurb	w9, [x22, #-8]
	cmp	w9, #1
	b.ne	.Lcovretin_BB_05a9da4a_22
	ldrb	w9, [x20, x27]
	tbnz	w9, #0, .Lcovretin_BB_05a9da4a_22
	ldr	x9, [sp, #48]
	ldr	x23, [x22]
	cmp	x9, x21
	b.ne	.Lcovretin_BB_05a9da4a_21
	add	x0, sp, #32
	str	x25, [sp, #8]
	mov	x25, x28
	mov	x24, x7
	mov	x28, x5
	mov	x26, x6
	bl	"std_alloc::vec::Vec::grow_amortized::<#beceaf184de4c8f2>"
	cbnz	w0, .Lcovretin_BB_05a9da4a_20
	ldr	x8, [sp, #48]
	cbz	x8, .Lcovretin_BB_05a9da4a_29
	ldr	x0, [sp, #32]
	bl	rattle_dealloc
.Lcovretin_BB_05a9da4a_29:
	mov	x0, x20
	bl	rattle_dealloc
	mov	w8, #24
	b	.Lcovretin_BB_05a9da4a_75
.Lcovretin_BB_05a9da4a_30:
	ldr	x22, [sp, #32]
	cmp	x21, #20
	b.hi	.Lcovretin_BB_05a9da4a_42
	cmp	x21, #2
	b.lo	.Lcovretin_BB_05a9da4a_53
	mov	x8, xzr
	mov	w9, #1
	b	.Lcovretin_BB_05a9da4a_37
.Lcovretin_BB_05a9da4a_33:
	mov	x11, xzr
.Lcovretin_BB_05a9da4a_34:
	lsl	x11, x11, #4
.Lcovretin_BB_05a9da4a_35:
	add	x11, x22, x11
	str	x10, [x11]
	strh	w12, [x11, #8]
	stur	wzr, [x11, #10]
	strh	wzr, [x11, #14]
.Lcovretin_BB_05a9da4a_36:
	add	x9, x9, #1
	add	x8, x8, #16
	cmp	x9, x21
	b.eq	.Lcovretin_BB_05a9da4a_53
.Lcovretin_BB_05a9da4a_37:
	sub	x11, x9, #1
	add	x13, x22, x9, lsl #4
	add	x12, x22, x11, lsl #4
	ldr	x10, [x13]
	ldr	x14, [x12]
	cmp	x10, x14
	b.hs	.Lcovretin_BB_05a9da4a_36
	ldrh	w15, [x12, #8]
	ldrh	w12, [x13, #8]
	str	x14, [x13]
	stur	wzr, [x13, #10]
	strh	w15, [x13, #8]
	strh	wzr, [x13, #14]
	cbz	x11, .Lcovretin_BB_05a9da4a_35
	mov	x13, x8
.Lcovretin_BB_05a9da4a_40:
	add	x14, x22, x13
	ldur	x15, [x14, #-16]
	cmp	x10, x15
	b.hs	.Lcovretin_BB_05a9da4a_34
	ldurh	w16, [x14, #-8]
	sub	x13, x13, #16
	sub	x11, x11, #1
	str	x15, [x14]
	stur	wzr, [x14, #10]
	strh	w16, [x14, #8]
	strh	wzr, [x14, #14]
	cbnz	x13, .Lcovretin_BB_05a9da4a_40
	b	.Lcovretin_BB_05a9da4a_33
.Lcovretin_BB_05a9da4a_42:
	ldr	x8, [x22, #16]
	ldr	x9, [x22]
	add	x11, x22, #32
	mov	w10, #2
	cmp	x8, x9
	b.hs	.Lcovretin_BB_05a9da4a_45
.Lcovretin_BB_05a9da4a_43:
	ldr	x12, [x11]
	ldur	x13, [x11, #-16]
	cmp	x12, x13
	b.hs	.Lcovretin_BB_05a9da4a_47
	add	x10, x10, #1
	add	x11, x11, #16
	cmp	x21, x10
	b.ne	.Lcovretin_BB_05a9da4a_43
	b	.Lcovretin_BB_05a9da4a_51
.Lcovretin_BB_05a9da4a_45:
	ldr	x12, [x11]
	ldur	x13, [x11, #-16]
	cmp	x12, x13
	b.lo	.Lcovretin_BB_05a9da4a_47
	add	x10, x10, #1
	add	x11, x11, #16
	cmp	x21, x10
	b.ne	.Lcovretin_BB_05a9da4a_45
	b	.Lcovretin_BB_05a9da4a_53
.Lcovretin_BB_05a9da4a_47:
	cmp	x10, x21
	b.hs	.Lcovretin_BB_05a9da4a_50
	clz	x8, x21
	mov	x0, x22
	mov	x1, xzr
	lsl	w8, w8, #1
	mov	x2, x21
	mov	x23, x6
	mov	x26, x5
	mov	x24, x7
	eor	w3, w8, #0x7e
	bl	"core::slice::sort::unstable::quicksort::<#3f568d0648200725>"
	b	.Lcovretin_BB_05a9da4a_52
.Lcovretin_BB_05a9da4a_49:
	mov	w8, #8
	b	.Lcovretin_BB_05a9da4a_75
.Lcovretin_BB_05a9da4a_50:
	cmp	x8, x9
	b.hs	.Lcovretin_BB_05a9da4a_53
.Lcovretin_BB_05a9da4a_51:
	lsr	x2, x21, #1
	mov	x0, x22
	mov	x23, x6
	mov	x26, x5
	mov	x24, x7
	sub	x8, x21, x2
	add	x1, x22, x8, lsl #4
	bl	"core::slice::edits::mirror::<31'vhost_queue::inflight::Resubmit>"
.Lcovretin_BB_05a9da4a_52:
	mov	x7, x24
	mov	x5, x26
	mov	x6, x23
.Lcovretin_BB_05a9da4a_53:
	ldr	x27, [sp, #48]
	cmp	x6, x25
	b.ne	.Lcovretin_BB_05a9da4a_62
	cmp	x28, x21
	b.lo	.Lcovretin_BB_05a9da4a_62
	ldr	x10, [sp, #24]
.Lcovretin_BB_05a9da4a_56:
	add	x0, x5, x10
	ldr	x25, [x29, #104]
	sub	x8, x0, x20
	cmp	x8, x6
	ldr	x8, [sp, #16]
	add	x23, x7, x8
	b.hs	.Lcovretin_BB_05a9da4a_65
	cmp	x6, #8
	b.lo	.Lcovretin_BB_05a9da4a_59
	add	x8, x10, x5
	sub	x8, x8, x20
	cmp	x8, #32
	b.hs	.Lcovretin_BB_05a9da4a_76
.Lcovretin_BB_05a9da4a_59:
	mov	x8, xzr
.Lcovretin_BB_05a9da4a_60:
	add	x10, x10, x8
	sub	x9, x6, x8
	add	x8, x20, x8
	add	x10, x5, x10
.Lcovretin_BB_05a9da4a_61:
	ldrb	w11, [x8], #1
	subs	x9, x9, #1
	strb	w11, [x10], #1
	b.ne	.Lcovretin_BB_05a9da4a_61
	b	.Lcovretin_BB_05a9da4a_66
.Lcovretin_BB_05a9da4a_62:
	mov	x0, x20
	bl	rattle_dealloc
	cbz	x27, .Lcovretin_BB_05a9da4a_64
	mov	x0, x22
	bl	rattle_dealloc
	mov	w8, #105
	b	.Lcovretin_BB_05a9da4a_75
.Lcovretin_BB_05a9da4a_64:
	mov	w8, #105
	b	.Lcovretin_BB_05a9da4a_75
.Lcovretin_BB_05a9da4a_65:
	mov	x1, x20
	mov	x2, x6
	bl	memmove
.Lcovretin_BB_05a9da4a_66:
	lsl	x2, x21, #4
	sub	x8, x23, x22
	cmp	x8, x2
	b.hs	.Lcovretin_BB_05a9da4a_69
	mov	x8, x22
	mov	x9, x21
	cbz	x21, .Lcovretin_BB_05a9da4a_70
.Lcovretin_BB_05a9da4a_68:
	ldr	q0, [x8], #16
	subs	x9, x9, #1
	str	q0, [x23], #16
	b.ne	.Lcovretin_BB_05a9da4a_68
	b	.Lcovretin_BB_05a9da4a_70
.Lcovretin_BB_05a9da4a_69:
	mov	x0, x23
	mov	x1, x22
	bl	memmove
.Lcovretin_BB_05a9da4a_70:
	str	x21, [x25]
	cbz	x19, .Lcovretin_BB_05a9da4a_72
	mov	x0, x20
	bl	rattle_dealloc
.Lcovretin_BB_05a9da4a_72:
	cbz	x27, .Lcovretin_BB_05a9da4a_74
	mov	x0, x22
	bl	rattle_dealloc
.Lcovretin_BB_05a9da4a_74:
	mov	w8, wzr
.Lcovretin_BB_05a9da4a_75:
	mov	w0, w8
	.cfi_def_cfa wsp, 160
	ldp	x20, x19, [sp, #144]
	ldp	x22, x21, [sp, #128]
	ldp	x24, x23, [sp, #112]
	ldp	x26, x25, [sp, #96]
	ldp	x28, x27, [sp, #80]
	ldp	x29, x30, [sp, #64]
	add	sp, sp, #160
	.cfi_def_cfa_offset 0
	.cfi_restore w19
	.cfi_restore w20
	.cfi_restore w21
	.cfi_restore w22
	.cfi_restore w23
	.cfi_restore w24
	.cfi_restore w25
	.cfi_restore w26
	.cfi_restore w27
	.cfi_restore w28
	.cfi_restore w30
	.cfi_restore w29
	hint	#29
	.cfi_negate_ra_state
	ret
.Lcovretin_BB_05a9da4a_76:
	.cfi_restore_state
	cmp	x6, #32
	b.hs	.Lcovretin_BB_05a9da4a_78
	mov	x8, xzr
	b	.Lcovretin_BB_05a9da4a_82
.Lcovretin_BB_05a9da4a_78:
	add	x11, x10, x5
	and	x9, x6, #0x18
	and	x8, x6, #0xffffffffffffffe0
	mov	x13, x10
	add	x10, x20, #16
	add	x11, x11, #16
	and	x12, x6, #0xffffffffffffffe0
.Lcovretin_BB_05a9da4a_79:
	ldp	q0, q1, [x10, #-16]
	subs	x12, x12, #32
	add	x10, x10, #32
	stp	q0, q1, [x11, #-16]
	add	x11, x11, #32
	b.ne	.Lcovretin_BB_05a9da4a_79
	cmp	x6, x8
	b.eq	.Lcovretin_BB_05a9da4a_66
	mov	x10, x13
	cbz	x9, .Lcovretin_BB_05a9da4a_60
.Lcovretin_BB_05a9da4a_82:
	mov	x9, x10
	mov	x10, x8
	and	x8, x6, #0xfffffffffffffff8
	add	x11, x9, x10
	mov	x12, x9
	sub	x9, x10, x8
	add	x10, x20, x10
	add	x11, x5, x11
.Lcovretin_BB_05a9da4a_83:
	ldr	d0, [x10], #8
	adds	x9, x9, #8
	str	d0, [x11], #8
	b.ne	.Lcovretin_BB_05a9da4a_83
	cmp	x6, x8
	mov	x10, x12
	b.eq	.Lcovretin_BB_05a9da4a_66
	b	.Lcovretin_BB_05a9da4a_60
.Lcovretin_func_end_05a9da4a:
	.size	covretin_inflight_recover, .Lcovretin_func_end_05a9da4a-covretin_inflight_recover
	.cfi_endproc

	.section	.text.covretin_inflight_recover_packed,"ax",@progbits
	.globl	covretin_inflight_recover_packed
	.p2align	2
	.type	covretin_inflight_recover_packed,@function
covretin_inflight_recover_packed:
	.cfi_startproc
	hint	#25
	.cfi_negate_ra_state
	sub	sp, sp, #208
	.cfi_def_cfa_offset 208
	stp	x29, x30, [sp, #112]
	stp	x28, x27, [sp, #128]
	stp	x26, x25, [sp, #144]
	stp	x24, x23, [sp, #160]
	stp	x22, x21, [sp, #176]
	stp	x20, x19, [sp, #192]
	add	x29, sp, #112
	.cfi_def_cfa w29, 96
	.cfi_offset w19, -8
	.cfi_offset w20, -16
	.cfi_offset w21, -24
	.cfi_offset w22, -32
	.cfi_offset w23, -40
	.cfi_offset w24, -48
	.cfi_offset w25, -56
	.cfi_offset w26, -64
	.cfi_offset w27, -72
	.cfi_offset w28, -80
	.cfi_offset w30, -88
	.cfi_offset w29, -96
	.cfi_remember_state
	ldr	x21, [x29, #96]
	cmp	x0, #0
	mov	w8, #4096
	csel	x23, x8, xzr, eq
	cmp	x6, #0
	ldrh	w9, [x3, #2]
	csel	x16, x8, xzr, eq
	cmp	x21, #0
	ldrh	w10, [x2]
	csel	x22, x8, xzr, eq
	ldrh	w8, [x2, #2]
	ldrb	w11, [x2, #4]
	ldrb	w12, [x2, #5]
	ldrh	w27, [x3]
	ldrb	w28, [x3, #4]
	ldrb	w17, [x3, #5]
	mov	x19, x6
	mov	x25, x5
	cmp	w8, w9
	mov	x26, x1
	b.ne	.Lcovretin_BB_0c2a3449_3
	eor	w13, w28, w11
	tbnz	w13, #0, .Lcovretin_BB_0c2a3449_3
	mov	w9, w8
	b	.Lcovretin_BB_0c2a3449_6
.Lcovretin_BB_0c2a3449_3:
	sxth	w13, w4
	tst	w4, #0x80
	and	w14, w28, #0x1
	cset	w15, eq
	cmp	w13, #0
	cset	w13, mi
	cmp	w15, w14
	b.eq	.Lcovretin_BB_0c2a3449_5
	eor	w13, w13, w28
	tbnz	w13, #0, .Lcovretin_BB_0c2a3449_6
.Lcovretin_BB_0c2a3449_5:
	mov	x27, x10
	mov	w9, w8
	mov	w28, w11
	mov	w17, w12
.Lcovretin_BB_0c2a3449_6:
	cmp	x26, #8, lsl #12
	mov	w8, #8
	b.hi	.Lcovretin_BB_0c2a3449_70
	mov	w9, w9
	cmp	x26, x9
	b.ls	.Lcovretin_BB_0c2a3449_70
	mov	x24, x0
	mov	x0, x26
	mov	w1, #1
	stp	x9, x17, [sp, #40]
	stp	x7, x16, [x29, #-48]
	bl	rattle_alloc
	tbz	w0, #0, .Lcovretin_BB_0c2a3449_11
	ldr	x8, [x29, #112]
	mov	x20, x1
	subs	x9, x26, #1
	add	x21, x21, x22
	str	x27, [sp, #56]
	str	x8, [sp, #32]
	ldur	x8, [x29, #-40]
	add	x8, x19, x8
	stp	x8, x28, [sp, #16]
	b.ne	.Lcovretin_BB_0c2a3449_12
	mov	x17, xzr
	b	.Lcovretin_BB_0c2a3449_13
.Lcovretin_BB_0c2a3449_11:
	mov	w8, #24
	b	.Lcovretin_BB_0c2a3449_70
.Lcovretin_BB_0c2a3449_12:
	mov	x0, x20
	mov	w1, wzr
	mov	x2, x9
	mov	x22, x9
	bl	memset
	mov	x17, x22
.Lcovretin_BB_0c2a3449_13:
	ldr	x18, [x29, #104]
	ldr	x11, [sp, #56]
	mov	x9, x24
	add	x8, x24, x23
	add	x28, x17, #1
	mov	x10, x26
	strb	wzr, [x20, x17]
.Lcovretin_BB_0c2a3449_14:
	cmp	x26, x11
	b.ls	.Lcovretin_BB_0c2a3449_18
	add	x12, x8, x11, lsl #4
	mov	w13, #1
	strb	w13, [x20, x11]
	subs	x10, x10, #1
	ldrh	w11, [x12, #2]
	b.ne	.Lcovretin_BB_0c2a3449_14
	cmp	x26, x11
	b.ls	.Lcovretin_BB_0c2a3449_18
	mov	x0, x20
	bl	rattle_dealloc
	mov	w8, #8
	b	.Lcovretin_BB_0c2a3449_70
.Lcovretin_BB_0c2a3449_18:
	add	x9, x23, x9
	mov	x22, xzr
	mov	x24, xzr
	sub	x8, x29, #8
	add	x23, x9, #8
	stp	xzr, xzr, [x29, #-24]
	stur	x8, [x29, #-32]
	b	.Lcovretin_BB_0c2a3449_22
.Lcovretin_BB_0c2a3449_19:
	ldp	x8, x22, [x29, #-32]
	mov	x17, x19
	mov	x19, x25
	mov	x25, x28
	ldp	x18, x28, [sp]
.Lcovretin_BB_0c2a3449_20:
	add	x9, x8, x22, lsl #4
	add	x22, x22, #1
	str	x27, [x9]
	strh	w24, [x9, #8]
	stur	wzr, [x9, #10]
	strh	wzr, [x9, #14]
	stur	x22, [x29, #-24]
.Lcovretin_BB_0c2a3449_21:
	add	x24, x24, #1
	add	x23, x23, #16
	cmp	x26, x24
	b.eq	.Lcovretin_BB_0c2a3449_29
.Lcovretin_BB_0c2a3449_22:
	ldurb	w9, [x23, #-8]
	cmp	w9, #1
	b.ne	.Lcovretin_BB_0c2a3449_21
	ldrb	w9, [x20, x24]
	tbnz	w9, #0, .Lcovretin_BB_0c2a3449_21
	ldur	x9, [x29, #-16]
	ldr	x27, [x23]
	cmp	x9, x22
	b.ne	.Lcovretin_BB_0c2a3449_20
	sub	x0, x29, #32
	stp	x18, x28, [sp]
	mov	x28, x25
	mov	x25, x19
	mov	x19, x17
	bl	"std_alloc::vec::Vec::grow_amortized::<#beceaf184de4c8f2>"
	cbnz	w0, .Lcovretin_BB_0c2a3449_19
	ldur	x8, [x29, #-16]
	cbz	x8, .Lcovretin_BB_0c2a3449_28
	ldur	x0, [x29, #-32]
	bl	rattle_dealloc
.Lcovretin_BB_0c2a3449_28:
	mov	x0, x20
	bl	rattle_dealloc
	mov	w8, #24
	b	.Lcovretin_BB_0c2a3449_70
.Lcovretin_BB_0c2a3449_29:
	ldur	x26, [x29, #-32]
	cmp	x22, #20
	b.hi	.Lcovretin_BB_0c2a3449_41
	ldur	x23, [x29, #-48]
	cmp	x22, #2
	b.lo	.Lcovretin_BB_0c2a3449_51
	mov	x8, xzr
	mov	w9, #1
	b	.Lcovretin_BB_0c2a3449_36
.Lcovretin_BB_0c2a3449_32:
	mov	x11, xzr
.Lcovretin_BB_0c2a3449_33:
	lsl	x11, x11, #4
.Lcovretin_BB_0c2a3449_34:
	add	x11, x26, x11
	str	x10, [x11]
	strh	w12, [x11, #8]
	stur	wzr, [x11, #10]
	strh	wzr, [x11, #14]
.Lcovretin_BB_0c2a3449_35:
	add	x9, x9, #1
	add	x8, x8, #16
	cmp	x9, x22
	b.eq	.Lcovretin_BB_0c2a3449_51
.Lcovretin_BB_0c2a3449_36:
	sub	x11, x9, #1
	add	x13, x26, x9, lsl #4
	add	x12, x26, x11, lsl #4
	ldr	x10, [x13]
	ldr	x14, [x12]
	cmp	x10, x14
	b.hs	.Lcovretin_BB_0c2a3449_35
	ldrh	w15, [x12, #8]
	ldrh	w12, [x13, #8]
	str	x14, [x13]
	stur	wzr, [x13, #10]
	strh	w15, [x13, #8]
	strh	wzr, [x13, #14]
	cbz	x11, .Lcovretin_BB_0c2a3449_34
	mov	x13, x8
.Lcovretin_BB_0c2a3449_39:
	add	x14, x26, x13
	ldur	x15, [x14, #-16]
	cmp	x10, x15
	b.hs	.Lcovretin_BB_0c2a3449_33
	ldurh	w16, [x14, #-8]
	sub	x13, x13, #16
	sub	x11, x11, #1
	str	x15, [x14]
	stur	wzr, [x14, #10]
	strh	w16, [x14, #8]
	strh	wzr, [x14, #14]
	cbnz	x13, .Lcovretin_BB_0c2a3449_39
	b	.Lcovretin_BB_0c2a3449_32
.Lcovretin_BB_0c2a3449_41:
	ldr	x8, [x26, #16]
	ldr	x9, [x26]
	add	x11, x26, #32
	ldur	x23, [x29, #-48]
	mov	w10, #2
	cmp	x8, x9
	b.hs	.Lcovretin_BB_0c2a3449_44
.Lcovretin_BB_0c2a3449_42:
	ldr	x12, [x11]
	ldur	x13, [x11, #-16]
	cmp	x12, x13
	b.hs	.Lcovretin_BB_0c2a3449_46
	add	x10, x10, #1
	add	x11, x11, #16
	cmp	x22, x10
	b.ne	.Lcovretin_BB_0c2a3449_42
	b	.Lcovretin_BB_0c2a3449_49
.Lcovretin_BB_0c2a3449_44:
	ldr	x12, [x11]
	ldur	x13, [x11, #-16]
	cmp	x12, x13
	b.lo	.Lcovretin_BB_0c2a3449_46
	add	x10, x10, #1
	add	x11, x11, #16
	cmp	x22, x10
	b.ne	.Lcovretin_BB_0c2a3449_44
	b	.Lcovretin_BB_0c2a3449_51
.Lcovretin_BB_0c2a3449_46:
	cmp	x10, x22
	b.hs	.Lcovretin_BB_0c2a3449_48
	clz	x8, x22
	mov	x0, x26
	mov	x1, xzr
	lsl	w8, w8, #1
	mov	x2, x22
	mov	x24, x19
	mov	x19, x17
	mov	x27, x18
	eor	w3, w8, #0x7e
	bl	"core::slice::sort::unstable::quicksort::<#3f568d0648200725>"
	b	.Lcovretin_BB_0c2a3449_50
.Lcovretin_BB_0c2a3449_48:
	cmp	x8, x9
	b.hs	.Lcovretin_BB_0c2a3449_51
.Lcovretin_BB_0c2a3449_49:
	lsr	x2, x22, #1
	mov	x0, x26
	mov	x24, x19
	mov	x19, x17
	mov	x27, x18
	sub	x8, x22, x2
	add	x1, x26, x8, lsl #4
	bl	"core::slice::edits::mirror::<31'vhost_queue::inflight::Resubmit>"
.Lcovretin_BB_0c2a3449_50:
	mov	x18, x27
	mov	x17, x19
	mov	x19, x24
.Lcovretin_BB_0c2a3449_51:
	ldur	x24, [x29, #-16]
	cmp	x23, x28
	b.ne	.Lcovretin_BB_0c2a3449_55
	cmp	x18, x22
	b.lo	.Lcovretin_BB_0c2a3449_55
	ldp	x0, x8, [sp, #16]
	ldp	x10, x9, [sp, #40]
	lsl	x8, x8, #32
	orr	x8, x8, x9, lsl #40
	ldr	x9, [sp, #56]
	orr	w9, w9, w10, lsl #16
	lsr	x8, x8, #32
	sub	x10, x0, x20
	cmp	x10, x17
	str	w9, [x25]
	strh	w8, [x25, #4]
	b.ls	.Lcovretin_BB_0c2a3449_57
	mov	x1, x20
	mov	x2, x23
	bl	memmove
	b	.Lcovretin_BB_0c2a3449_62
.Lcovretin_BB_0c2a3449_55:
	mov	x0, x20
	bl	rattle_dealloc
	cbz	x24, .Lcovretin_BB_0c2a3449_69
	mov	x0, x26
	bl	rattle_dealloc
	mov	w8, #105
	b	.Lcovretin_BB_0c2a3449_70
.Lcovretin_BB_0c2a3449_57:
	cmp	x28, #8
	b.lo	.Lcovretin_BB_0c2a3449_59
	ldur	x8, [x29, #-40]
	add	x8, x8, x19
	sub	x8, x8, x20
	cmp	x8, #32
	b.hs	.Lcovretin_BB_0c2a3449_71
.Lcovretin_BB_0c2a3449_59:
	mov	x8, xzr
.Lcovretin_BB_0c2a3449_60:
	ldur	x10, [x29, #-40]
	sub	x9, x17, x8
	add	x9, x9, #1
	add	x10, x10, x8
	add	x8, x20, x8
	add	x10, x19, x10
.Lcovretin_BB_0c2a3449_61:
	ldrb	w11, [x8], #1
	subs	x9, x9, #1
	strb	w11, [x10], #1
	b.ne	.Lcovretin_BB_0c2a3449_61
.Lcovretin_BB_0c2a3449_62:
	lsl	x2, x22, #4
	sub	x8, x21, x26
	cmp	x8, x2
	b.hs	.Lcovretin_BB_0c2a3449_65
	mov	x8, x26
	mov	x9, x22
	cbz	x22, .Lcovretin_BB_0c2a3449_66
.Lcovretin_BB_0c2a3449_64:
	ldr	q0, [x8], #16
	subs	x9, x9, #1
	str	q0, [x21], #16
	b.ne	.Lcovretin_BB_0c2a3449_64
	b	.Lcovretin_BB_0c2a3449_66
.Lcovretin_BB_0c2a3449_65:
	mov	x0, x21
	mov	x1, x26
	bl	memmove
.Lcovretin_BB_0c2a3449_66:
	ldr	x8, [sp, #32]
	mov	x0, x20
	str	x22, [x8]
	bl	rattle_dealloc
	cbz	x24, .Lcovretin_BB_0c2a3449_68
	mov	x0, x26
	bl	rattle_dealloc
.Lcovretin_BB_0c2a3449_68:
	mov	w8, wzr
	b	.Lcovretin_BB_0c2a3449_70
.Lcovretin_BB_0c2a3449_69:
	mov	w8, #105
.Lcovretin_BB_0c2a3449_70:
	mov	w0, w8
	.cfi_def_cfa wsp, 208
	ldp	x20, x19, [sp, #192]
	ldp	x22, x21, [sp, #176]
	ldp	x24, x23, [sp, #160]
	ldp	x26, x25, [sp, #144]
	ldp	x28, x27, [sp, #128]
	ldp	x29, x30, [sp, #112]
	add	sp, sp, #208
	.cfi_def_cfa_offset 0
	.cfi_restore w19
	.cfi_restore w20
	.cfi_restore w21
	.cfi_restore w22
	.cfi_restore w23
	.cfi_restore w24
	.cfi_restore w25
	.cfi_restore w26
	.cfi_restore w27
	.cfi_restore w28
	.cfi_restore w30
	.cfi_restore w29
	hint	#29
	.cfi_negate_ra_state
	ret
.Lcovretin_BB_0c2a3449_71:
	.cfi_restore_state
	cmp	x28, #32
	b.hs	.Lcovretin_BB_0c2a3449_73
	mov	x8, xzr
	b	.Lcovretin_BB_0c2a3449_77
.Lcovretin_BB_0c2a3449_73:
	ldur	x10, [x29, #-40]
	and	x9, x28, #0x18
	and	x8, x28, #0xffffffffffffffe0
	and	x12, x28, #0xffffffffffffffe0
	add	x11, x10, x19
	add	x10, x20, #16
	add	x11, x11, #16
.Lcovretin_BB_0c2a3449_74:
	ldp	q0, q1, [x10, #-16]
	subs	x12, x12, #32
	add	x10, x10, #32
	stp	q0, q1, [x11, #-16]
	add	x11, x11, #32
	b.ne	.Lcovretin_BB_0c2a3449_74
	cmp	x28, x8
	b.eq	.Lcovretin_BB_0c2a3449_62
	cbz	x9, .Lcovretin_BB_0c2a3449_60
.Lcovretin_BB_0c2a3449_77:
	ldur	x9, [x29, #-40]
	mov	x10, x8
	and	x8, x28, #0xfffffffffffffff8
	add	x11, x9, x10
	sub	x9, x10, x8
	add	x10, x20, x10
	add	x11, x19, x11
.Lcovretin_BB_0c2a3449_78:
	ldr	d0, [x10], #8
	adds	x9, x9, #8
	str	d0, [x11], #8
	b.ne	.Lcovretin_BB_0c2a3449_78
	cmp	x28, x8
	b.eq	.Lcovretin_BB_0c2a3449_62
	b	.Lcovretin_BB_0c2a3449_60
.Lcovretin_func_end_0c2a3449:
	.size	covretin_inflight_recover_packed, .Lcovretin_func_end_0c2a3449-covretin_inflight_recover_packed
	.cfi_endproc

	.section	.text.covretin_inflight_take,"ax",@progbits
	.globl	covretin_inflight_take
	.p2align	2
	.type	covretin_inflight_take,@function
covretin_inflight_take:
	.cfi_startproc
	hint	#34
	mov	w9, #1
	ubfiz	x8, x0, #4, #16
	mov	w11, #8
	dup	v0.2d, x9
	stp	x11, x1, [x2, #8]
	add	x10, x8, #24
	add	x8, x8, #16
	str	x10, [x2]
	str	x8, [x3]
	stur	q0, [x3, #8]
	ret
.Lcovretin_func_end_fbfcf3f3:
	.size	covretin_inflight_take, .Lcovretin_func_end_fbfcf3f3-covretin_inflight_take
	.cfi_endproc

	.section	.rodata.cst16,"aM",@progbits,16
	.p2align	4, 0x0
.Lcovretin_CPI_96760305_0:
	.xword	12
	.xword	4
	.section	.text.covretin_inflight_take_packed,"ax",@progbits
	.globl	covretin_inflight_take_packed
	.p2align	2
	.type	covretin_inflight_take_packed,@function
covretin_inflight_take_packed:
	.cfi_startproc
	hint	#34
	ubfiz	x8, x0, #5, #16
	lsl	w9, w2, #16
	mov	w11, #4
	add	x10, x8, #36
	bfxil	x9, x1, #0, #16
	stp	x10, x11, [x5]
	mov	w10, #1
	add	x11, x8, #40
	dup	v0.2d, x10
	stp	x9, x11, [x5, #16]
	mov	w9, #8
	stp	x9, x3, [x5, #32]
	adrp	x9, .Lcovretin_CPI_96760305_0
	and	x10, x4, #0xffff
	add	x8, x8, #32
	stur	q0, [x5, #56]
	ldr	q0, [x9, :lo12:.Lcovretin_CPI_96760305_0]
	orr	x9, x10, x10, lsl #16
	str	x8, [x5, #48]
	stur	q0, [x5, #72]
	str	x9, [x5, #88]
	ret
.Lcovretin_func_end_96760305:
	.size	covretin_inflight_take_packed, .Lcovretin_func_end_96760305-covretin_inflight_take_packed
	.cfi_endproc

	.section	.text.covretin_log_bit_of,"ax",@progbits
	.globl	covretin_log_bit_of
	.p2align	2
	.type	covretin_log_bit_of,@function
covretin_log_bit_of:
	.cfi_startproc
	hint	#34
	mov	w8, #1
	and	x10, x0, #0x7
	lsr	x9, x0, #3
	lsl	w8, w8, w10
	stur	wzr, [x1, #9]
	str	x9, [x1]
	strb	w8, [x1, #8]
	str	wzr, [x1, #12]
	ret
.Lcovretin_func_end_a9af5f7f:
	.size	covretin_log_bit_of, .Lcovretin_func_end_a9af5f7f-covretin_log_bit_of
	.cfi_endproc

	.section	.text.covretin_log_pages,"ax",@progbits
	.globl	covretin_log_pages
	.p2align	2
	.type	covretin_log_pages,@function
covretin_log_pages:
	.cfi_startproc
	hint	#34
	cmn	x1, x0
	b.lo	.Lcovretin_BB_93bd1c13_2
	mov	w0, #9
	ret
.Lcovretin_BB_93bd1c13_2:
	lsr	x8, x0, #12
	mov	x9, x8
	cbz	x1, .Lcovretin_BB_93bd1c13_4
	add	x9, x0, x1
	lsl	x10, x2, #3
	lsr	x12, x2, #61
	sub	x9, x9, #1
	lsr	x9, x9, #12
	add	x11, x9, #1
	cmp	x10, x11
	csinc	x10, x10, x9, lo
	cmp	x12, #0
	csinc	x9, x10, x9, eq
.Lcovretin_BB_93bd1c13_4:
	mov	w0, wzr
	str	x8, [x3]
	str	x9, [x4]
	ret
.Lcovretin_func_end_93bd1c13:
	.size	covretin_log_pages, .Lcovretin_func_end_93bd1c13-covretin_log_pages
	.cfi_endproc

	.section	.text.covretin_queue_add_region,"ax",@progbits
	.globl	covretin_queue_add_region
	.p2align	2
	.type	covretin_queue_add_region,@function
covretin_queue_add_region:
	.cfi_startproc
	hint	#25
	.cfi_negate_ra_state
	sub	sp, sp, #112
	.cfi_def_cfa_offset 112
	stp	x29, x30, [sp, #16]
	stp	x28, x27, [sp, #32]
	stp	x26, x25, [sp, #48]
	stp	x24, x23, [sp, #64]
	stp	x22, x21, [sp, #80]
	stp	x20, x19, [sp, #96]
	add	x29, sp, #16
	.cfi_def_cfa w29, 96
	.cfi_offset w19, -8
	.cfi_offset w20, -16
	.cfi_offset w21, -24
	.cfi_offset w22, -32
	.cfi_offset w23, -40
	.cfi_offset w24, -48
	.cfi_offset w25, -56
	.cfi_offset w26, -64
	.cfi_offset w27, -72
	.cfi_offset w28, -80
	.cfi_offset w30, -88
	.cfi_offset w29, -96
	.cfi_remember_state
	ldr	x19, [x0]
	str	xzr, [x0]
	cbz	x19, .Lcovretin_BB_04b95f07_8
	ldr	x21, [x1, #8]
	cbz	x21, .Lcovretin_BB_04b95f07_7
	ldr	x22, [x1]
	mvn	x8, x21
	cmp	x22, x8
	b.hi	.Lcovretin_BB_04b95f07_7
	ldr	x23, [x1, #16]
	cmp	x23, x8
	b.hi	.Lcovretin_BB_04b95f07_7
	ldr	x16, [x1, #24]
	cmp	x16, x8
	b.hi	.Lcovretin_BB_04b95f07_7
	ldr	x25, [x19, #8]
	cmp	x25, #508
	b.ls	.Lcovretin_BB_04b95f07_10
	str	x19, [x0]
	mov	w0, #3
	b	.Lcovretin_BB_04b95f07_9
.Lcovretin_BB_04b95f07_7:
	str	x19, [x0]
	mov	w0, #1
	b	.Lcovretin_BB_04b95f07_9
.Lcovretin_BB_04b95f07_8:
	mov	w0, #101
.Lcovretin_BB_04b95f07_9:
	.cfi_def_cfa wsp, 112
	ldp	x20, x19, [sp, #96]
	ldp	x22, x21, [sp, #80]
	ldp	x24, x23, [sp, #64]
	ldp	x26, x25, [sp, #48]
	ldp	x28, x27, [sp, #32]
	ldp	x29, x30, [sp, #16]
	add	sp, sp, #112
	.cfi_def_cfa_offset 0
	.cfi_restore w19
	.cfi_restore w20
	.cfi_restore w21
	.cfi_restore w22
	.cfi_restore w23
	.cfi_restore w24
	.cfi_restore w25
	.cfi_restore w26
	.cfi_restore w27
	.cfi_restore w28
	.cfi_restore w30
	.cfi_restore w29
	hint	#29
	.cfi_negate_ra_state
	ret
.Lcovretin_BB_04b95f07_10:
	.cfi_restore_state
	ldr	x8, [x19]
	cbz	x25, .Lcovretin_BB_04b95f07_17
	add	x9, x8, #16
	mov	x10, x25
	b	.Lcovretin_BB_04b95f07_13
.Lcovretin_BB_04b95f07_12:
	subs	x10, x10, #1
	b.eq	.Lcovretin_BB_04b95f07_17
.Lcovretin_BB_04b95f07_13:
	ldp	x12, x11, [x9, #-16]
	subs	x13, x12, x21
	cset	w14, hs
	cmp	x22, x13
	csel	w13, wzr, w14, hi
	subs	x14, x22, x11
	ccmp	x12, x14, #2, hs
	ccmp	w13, #0, #0, hi
	b.eq	.Lcovretin_BB_04b95f07_16
	ldr	x13, [x9], #32
	subs	x12, x13, x21
	cset	w14, hs
	cmp	x23, x12
	csel	w12, wzr, w14, hi
	subs	x11, x23, x11
	ccmp	x13, x11, #2, hs
	b.ls	.Lcovretin_BB_04b95f07_12
	tbnz	w12, #0, .Lcovretin_BB_04b95f07_12
.Lcovretin_BB_04b95f07_16:
	str	x19, [x0]
	mov	w0, #2
	b	.Lcovretin_BB_04b95f07_9
.Lcovretin_BB_04b95f07_17:
	mov	x28, x19
	ldr	x17, [x28, #32]!
	cbz	x17, .Lcovretin_BB_04b95f07_27
	mov	x20, x19
	mov	x26, xzr
	mov	x9, x17
	ldr	x27, [x20, #24]!
	b	.Lcovretin_BB_04b95f07_20
.Lcovretin_BB_04b95f07_19:
	mov	x9, x10
	cmp	x26, x10
	b.hs	.Lcovretin_BB_04b95f07_23
.Lcovretin_BB_04b95f07_20:
	sub	x10, x9, x26
	add	x10, x26, x10, lsr #1
	ldrh	w11, [x27, x10, lsl #1]
	cmp	x25, x11
	b.ls	.Lcovretin_BB_04b95f07_19
	lsl	x11, x11, #5
	ldr	x11, [x8, x11]
	cmp	x11, x22
	b.hi	.Lcovretin_BB_04b95f07_19
	add	x26, x10, #1
	cmp	x26, x9
	b.lo	.Lcovretin_BB_04b95f07_20
.Lcovretin_BB_04b95f07_23:
	mov	x24, x19
	ldr	x18, [x24, #40]!
	cmp	x17, x18
	b.hs	.Lcovretin_BB_04b95f07_29
	cmn	x26, #1
	stp	xzr, xzr, [x28]
	b.eq	.Lcovretin_BB_04b95f07_33
	subs	x8, x17, x26
	b.ne	.Lcovretin_BB_04b95f07_32
	mov	x26, x17
	b	.Lcovretin_BB_04b95f07_68
.Lcovretin_BB_04b95f07_27:
	mov	x24, x19
	mov	x26, xzr
	ldr	x18, [x24, #40]!
	sub	x20, x24, #16
	cbz	x18, .Lcovretin_BB_04b95f07_29
	ldr	x27, [x20]
	str	xzr, [x24]
	b	.Lcovretin_BB_04b95f07_68
.Lcovretin_BB_04b95f07_29:
	cmp	x18, x17
	b.eq	.Lcovretin_BB_04b95f07_46
	ldr	x27, [x20]
	cmn	x26, #1
	stp	xzr, xzr, [x28]
	b.eq	.Lcovretin_BB_04b95f07_48
.Lcovretin_BB_04b95f07_31:
	subs	x8, x17, x26
	b.eq	.Lcovretin_BB_04b95f07_68
.Lcovretin_BB_04b95f07_32:
	add	x1, x27, x26, lsl #1
	lsl	x2, x8, #1
	str	x0, [sp, #8]
	mov	x24, x16
	mov	x28, x17
	mov	x20, x18
	add	x0, x1, #2
	bl	memmove
	ldr	x0, [sp, #8]
	mov	x18, x20
	mov	x17, x28
	mov	x16, x24
	b	.Lcovretin_BB_04b95f07_68
.Lcovretin_BB_04b95f07_33:
	cmp	x17, #1024
	add	x9, x17, #1
	b.lo	.Lcovretin_BB_04b95f07_41
	mov	x10, xzr
	mov	x13, xzr
	add	x11, x27, #2014
	mov	x12, x27
	b	.Lcovretin_BB_04b95f07_36
.Lcovretin_BB_04b95f07_35:
	add	x13, x8, #1024
	add	x10, x10, #1
	add	x11, x11, #2048
	sub	x14, x9, x13
	add	x12, x12, #2048
	cmp	x14, #1024
	b.ls	.Lcovretin_BB_04b95f07_42
.Lcovretin_BB_04b95f07_36:
	mov	x8, x13
	cbz	x13, .Lcovretin_BB_04b95f07_39
	mov	w13, #1024
	mov	x14, x11
.Lcovretin_BB_04b95f07_38:
	ldp	q1, q0, [x14]
	sub	x13, x13, #16
	stur	q0, [x14, #18]
	stur	q1, [x14, #2]
	sub	x14, x14, #32
	cbnz	x13, .Lcovretin_BB_04b95f07_38
	b	.Lcovretin_BB_04b95f07_35
.Lcovretin_BB_04b95f07_39:
	add	x13, x27, x10, lsl #11
	mov	x14, xzr
	ldurh	w13, [x13, #-2]
.Lcovretin_BB_04b95f07_40:
	strh	w13, [x12, x14]
	add	x14, x14, #2
	cmp	x14, #2048
	b.ne	.Lcovretin_BB_04b95f07_40
	b	.Lcovretin_BB_04b95f07_35
.Lcovretin_BB_04b95f07_41:
	mov	x8, x27
	b	.Lcovretin_BB_04b95f07_65
.Lcovretin_BB_04b95f07_42:
	cbz	x13, .Lcovretin_BB_04b95f07_64
	cmp	x9, x13
	b.eq	.Lcovretin_BB_04b95f07_67
	sub	x9, x17, #1023
	mov	w10, #1024
	cmp	x9, #1024
	csel	x10, x9, x10, lo
	sub	x10, x17, x10
	and	x11, x10, #0xfffffffffffffc00
	sub	x10, x9, x11
	cmp	x10, #4
	b.hs	.Lcovretin_BB_04b95f07_75
	mov	x12, xzr
	b	.Lcovretin_BB_04b95f07_93
.Lcovretin_BB_04b95f07_46:
	mov	x27, x0
	mov	x0, x20
	str	x16, [sp, #8]
	bl	"std_alloc::vec::Vec::grow_amortized::<#443caa9c7f3d02a7>"
	cbz	w0, .Lcovretin_BB_04b95f07_72
	ldr	x17, [x28]
	ldr	x18, [x24]
	mov	x0, x27
	ldr	x16, [sp, #8]
	ldr	x27, [x20]
	cmn	x26, #1
	stp	xzr, xzr, [x28]
	b.ne	.Lcovretin_BB_04b95f07_31
.Lcovretin_BB_04b95f07_48:
	add	x9, x17, #1
	mov	x8, x27
	add	x13, x17, #1
	cmp	x9, #1025
	b.lo	.Lcovretin_BB_04b95f07_61
	mov	x10, xzr
	mov	x14, xzr
	add	x11, x27, #2014
	mov	x12, x27
	b	.Lcovretin_BB_04b95f07_51
.Lcovretin_BB_04b95f07_50:
	add	x14, x8, #1024
	add	x10, x10, #1
	add	x11, x11, #2048
	sub	x13, x9, x14
	add	x12, x12, #2048
	cmp	x13, #1024
	b.ls	.Lcovretin_BB_04b95f07_56
.Lcovretin_BB_04b95f07_51:
	mov	x8, x14
	cbz	x14, .Lcovretin_BB_04b95f07_54
	mov	w13, #1024
	mov	x14, x11
.Lcovretin_BB_04b95f07_53:
	ldp	q1, q0, [x14]
	sub	x13, x13, #16
	stur	q0, [x14, #18]
	stur	q1, [x14, #2]
	sub	x14, x14, #32
	cbnz	x13, .Lcovretin_BB_04b95f07_53
	b	.Lcovretin_BB_04b95f07_50
.Lcovretin_BB_04b95f07_54:
	add	x13, x27, x10, lsl #11
	ldurh	w13, [x13, #-2]
.Lcovretin_BB_04b95f07_55:
	strh	w13, [x12, x14]
	add	x14, x14, #2
	cmp	x14, #2048
	b.ne	.Lcovretin_BB_04b95f07_55
	b	.Lcovretin_BB_04b95f07_50
.Lcovretin_BB_04b95f07_56:
	cbz	x14, .Lcovretin_BB_04b95f07_60
	cmp	x9, x14
	b.eq	.Lcovretin_BB_04b95f07_68
	and	x9, x17, #0x3ff
	cmp	x9, #3
	b.hs	.Lcovretin_BB_04b95f07_73
	mov	x9, xzr
	b	.Lcovretin_BB_04b95f07_84
.Lcovretin_BB_04b95f07_60:
	add	x8, x27, x14, lsl #1
.Lcovretin_BB_04b95f07_61:
	cbz	x9, .Lcovretin_BB_04b95f07_68
	ldurh	w9, [x8, #-2]
.Lcovretin_BB_04b95f07_63:
	subs	x13, x13, #1
	strh	w9, [x8], #2
	b.ne	.Lcovretin_BB_04b95f07_63
	b	.Lcovretin_BB_04b95f07_68
.Lcovretin_BB_04b95f07_64:
	add	x8, x27, x13, lsl #1
	mov	x9, x14
.Lcovretin_BB_04b95f07_65:
	ldurh	w10, [x8, #-2]
.Lcovretin_BB_04b95f07_66:
	subs	x9, x9, #1
	strh	w10, [x8], #2
	b.ne	.Lcovretin_BB_04b95f07_66
.Lcovretin_BB_04b95f07_67:
	mov	x26, #-1
.Lcovretin_BB_04b95f07_68:
	strh	w25, [x27, x26, lsl #1]
	add	x10, x17, #1
	ldp	x8, x9, [x19, #8]
	stp	x27, x10, [x19, #24]
	str	x18, [x19, #40]
	cmp	x9, x8
	b.eq	.Lcovretin_BB_04b95f07_70
.Lcovretin_BB_04b95f07_69:
	ldr	x10, [x19]
	add	x10, x10, x8, lsl #5
	add	x8, x8, #1
	stp	x22, x21, [x10]
	stp	x23, x16, [x10, #16]
	str	x8, [x19, #8]
	str	x19, [x0]
	mov	w0, wzr
	b	.Lcovretin_BB_04b95f07_9
.Lcovretin_BB_04b95f07_70:
	mov	x27, x0
	mov	x0, x19
	mov	x20, x16
	bl	"std_alloc::vec::Vec::grow_amortized::<#a2eddaad9eb283e4>"
	cbz	w0, .Lcovretin_BB_04b95f07_72
	ldr	x8, [x19, #8]
	mov	x0, x27
	mov	x16, x20
	b	.Lcovretin_BB_04b95f07_69
.Lcovretin_BB_04b95f07_72:
	mov	w0, #24
	str	x19, [x27]
	b	.Lcovretin_BB_04b95f07_9
.Lcovretin_BB_04b95f07_73:
	cmp	x9, #15
	add	x10, x9, #1
	b.hs	.Lcovretin_BB_04b95f07_77
	mov	x9, xzr
	b	.Lcovretin_BB_04b95f07_81
.Lcovretin_BB_04b95f07_75:
	cmp	x10, #16
	b.hs	.Lcovretin_BB_04b95f07_86
	mov	x12, xzr
	b	.Lcovretin_BB_04b95f07_90
.Lcovretin_BB_04b95f07_77:
	add	x12, x27, x17, lsl #1
	and	x11, x10, #0xc
	and	x9, x10, #0x7f0
	and	x13, x10, #0x7f0
	sub	x12, x12, #16
.Lcovretin_BB_04b95f07_78:
	ldp	q1, q0, [x12, #-16]
	sub	x13, x13, #16
	stur	q0, [x12, #2]
	stur	q1, [x12, #-14]
	sub	x12, x12, #32
	cbnz	x13, .Lcovretin_BB_04b95f07_78
	cmp	x10, x9
	b.eq	.Lcovretin_BB_04b95f07_68
	cbz	x11, .Lcovretin_BB_04b95f07_84
.Lcovretin_BB_04b95f07_81:
	mov	x11, x9
	and	x9, x10, #0x7fc
	sub	x12, x27, x11, lsl #1
	sub	x11, x11, x9
	add	x12, x12, x17, lsl #1
	sub	x12, x12, #8
.Lcovretin_BB_04b95f07_82:
	ldr	d0, [x12]
	add	x11, x11, #4
	stur	d0, [x12, #2]
	sub	x12, x12, #8
	cbnz	x11, .Lcovretin_BB_04b95f07_82
	cmp	x10, x9
	b.eq	.Lcovretin_BB_04b95f07_68
.Lcovretin_BB_04b95f07_84:
	sub	x10, x27, x9, lsl #1
	sub	x8, x17, x8
	sub	x8, x8, x9
	add	x10, x10, x17, lsl #1
	sub	x8, x8, #1023
	mov	x9, x10
.Lcovretin_BB_04b95f07_85:
	ldrh	w11, [x9, #-2]!
	subs	x8, x8, #1
	strh	w11, [x10]
	mov	x10, x9
	b.ne	.Lcovretin_BB_04b95f07_85
	b	.Lcovretin_BB_04b95f07_68
.Lcovretin_BB_04b95f07_86:
	add	x14, x27, x17, lsl #1
	and	x13, x9, #0xf
	sub	x12, x10, x13
	sub	x15, x10, x13
	sub	x14, x14, #16
.Lcovretin_BB_04b95f07_87:
	ldp	q1, q0, [x14, #-16]
	sub	x15, x15, #16
	stur	q0, [x14, #2]
	stur	q1, [x14, #-14]
	sub	x14, x14, #32
	cbnz	x15, .Lcovretin_BB_04b95f07_87
	cbz	x13, .Lcovretin_BB_04b95f07_67
	cmp	x13, #4
	b.lo	.Lcovretin_BB_04b95f07_93
.Lcovretin_BB_04b95f07_90:
	sub	x13, x27, x12, lsl #1
	and	x9, x9, #0x3
	add	x11, x12, x11
	add	x11, x11, x9
	sub	x12, x10, x9
	add	x13, x13, x17, lsl #1
	sub	x11, x11, x17
	add	x10, x11, #1023
	sub	x11, x13, #8
.Lcovretin_BB_04b95f07_91:
	ldr	d0, [x11]
	add	x10, x10, #4
	stur	d0, [x11, #2]
	sub	x11, x11, #8
	cbnz	x10, .Lcovretin_BB_04b95f07_91
	cbz	x9, .Lcovretin_BB_04b95f07_67
.Lcovretin_BB_04b95f07_93:
	sub	x9, x17, x12
	add	x8, x8, #1023
.Lcovretin_BB_04b95f07_94:
	add	x10, x27, x9, lsl #1
	sub	x9, x9, #1
	mov	x26, #-1
	cmp	x8, x9
	ldurh	w11, [x10, #-2]
	strh	w11, [x10]
	b.ne	.Lcovretin_BB_04b95f07_94
	b	.Lcovretin_BB_04b95f07_68
.Lcovretin_func_end_04b95f07:
	.size	covretin_queue_add_region, .Lcovretin_func_end_04b95f07-covretin_queue_add_region
	.cfi_endproc

	.section	.text.covretin_queue_add_used_many,"ax",@progbits
	.globl	covretin_queue_add_used_many
	.p2align	2
	.type	covretin_queue_add_used_many,@function
covretin_queue_add_used_many:
	.cfi_startproc
	hint	#34
	cmp	x1, #0
	mov	w9, #4096
	ldr	x8, [x0]
	csel	x10, x9, xzr, eq
	cmp	x3, #0
	str	xzr, [x0]
	csel	x11, x9, xzr, eq
	cmp	x5, #0
	csel	x12, x9, xzr, eq
	cbz	x8, .Lcovretin_BB_8fbed9c1_17
	cmp	x4, x2
	b.lo	.Lcovretin_BB_8fbed9c1_18
	cmp	x6, x2
	b.lo	.Lcovretin_BB_8fbed9c1_18
	sub	sp, sp, #32
	.cfi_def_cfa_offset 32
	stp	x20, x19, [sp, #16]
	.cfi_offset w19, -8
	.cfi_offset w20, -16
	.cfi_remember_state
	cbz	x2, .Lcovretin_BB_8fbed9c1_16
	add	x12, x12, x5
	mov	x9, xzr
	add	x10, x1, x10
	add	x11, x3, x11
	add	x12, x12, #24
.Lcovretin_BB_8fbed9c1_5:
	ldrb	w13, [x8, #56]
	ldrh	w3, [x10, x9, lsl #1]
	ldr	w18, [x11, x9, lsl #2]
	cmp	w13, #1
	b.eq	.Lcovretin_BB_8fbed9c1_10
	cmp	w13, #2
	b.ne	.Lcovretin_BB_8fbed9c1_20
	ldrh	w16, [x8, #64]
	cmp	w16, w3
	b.ls	.Lcovretin_BB_8fbed9c1_13
	ldr	x4, [x8, #112]
	ldrh	w17, [x4, x3, lsl #1]
	cbz	w17, .Lcovretin_BB_8fbed9c1_13
	cmp	w18, #0
	mov	w14, #2
	ldrb	w1, [x8, #104]
	csel	w5, wzr, w14, eq
	mov	w6, #-32640
	ldrh	w19, [x8, #102]
	orr	w6, w5, w6
	cmp	w1, #0
	mov	w15, wzr
	sub	w20, w16, w19
	csel	w16, w6, w5, ne
	ldr	x5, [x8, #72]
	eor	w6, w1, #0x1
	cmp	w17, w20, uxth
	mov	w13, wzr
	csel	w1, w1, w6, lo
	csneg	w6, w19, w20, lo
	add	x5, x5, x19, lsl #4
	add	w17, w6, w17
	strb	w1, [x8, #104]
	orr	x1, x18, x3, lsl #32
	strh	w17, [x8, #102]
	add	x17, x5, #8
	add	x18, x5, #14
	strb	wzr, [x8, #105]
	strh	wzr, [x4, x3, lsl #1]
	mov	w3, #6
	b	.Lcovretin_BB_8fbed9c1_14
.Lcovretin_BB_8fbed9c1_10:
	ldrh	w16, [x8, #64]
	cmp	w16, w3
	b.ls	.Lcovretin_BB_8fbed9c1_13
	ldr	x14, [x8, #112]
	ldrb	w13, [x14, x3]
	cmp	w13, #1
	b.ne	.Lcovretin_BB_8fbed9c1_13
	ldrh	w17, [x8, #102]
	mov	w15, wzr
	mov	w13, wzr
	udiv	w1, w17, w16
	msub	w16, w1, w16, w17
	ldr	x17, [x8, #88]
	strb	wzr, [x14, x3]
	ldrh	w14, [x8, #102]
	ldr	x4, [x8, #88]
	orr	x1, x3, x18, lsl #32
	mov	w3, #8
	add	x17, x17, w16, uxtw #3
	add	w16, w14, #1
	add	x18, x4, #2
	mov	w14, #2
	strh	w16, [x8, #102]
	add	x17, x17, #4
	b	.Lcovretin_BB_8fbed9c1_14
.Lcovretin_BB_8fbed9c1_13:
	mov	x17, xzr
	mov	x3, xzr
	mov	x18, xzr
	mov	x14, xzr
	mov	x1, xzr
	mov	w16, wzr
	mov	w13, #21
	mov	w15, #1
.Lcovretin_BB_8fbed9c1_14:
	and	w5, wzr, #0xffff
	strh	wzr, [sp, #12]
	str	wzr, [sp, #8]
	str	wzr, [sp]
	strh	w5, [sp, #4]
	cbnz	w15, .Lcovretin_BB_8fbed9c1_19
	str	x14, [x12, #8]
	ldr	w13, [sp]
	ldrh	w14, [sp, #4]
	add	x9, x9, #1
	stp	x17, x3, [x12, #-24]
	stp	x1, x18, [x12, #-8]
	cmp	x2, x9
	strh	w16, [x12, #16]
	stur	w13, [x12, #18]
	strh	w14, [x12, #22]
	add	x12, x12, #48
	b.ne	.Lcovretin_BB_8fbed9c1_5
.Lcovretin_BB_8fbed9c1_16:
	str	x8, [x0]
	mov	w0, wzr
	str	x2, [x7]
	ldp	x20, x19, [sp, #16]
	add	sp, sp, #32
	.cfi_def_cfa_offset 0
	.cfi_restore w19
	.cfi_restore w20
	ret
.Lcovretin_BB_8fbed9c1_17:
	mov	w0, #101
	str	xzr, [x7]
	ret
.Lcovretin_BB_8fbed9c1_18:
	str	x8, [x0]
	mov	w0, #105
	str	xzr, [x7]
	ret
.Lcovretin_BB_8fbed9c1_19:
	.cfi_restore_state
	.cfi_remember_state
	str	x8, [x0]
	cmp	w13, #0
	mov	w8, #23
	csinc	w0, w8, wzr, ne
	str	x9, [x7]
	ldp	x20, x19, [sp, #16]
	add	sp, sp, #32
	.cfi_def_cfa_offset 0
	.cfi_restore w19
	.cfi_restore w20
	ret
.Lcovretin_BB_8fbed9c1_20:
	.cfi_restore_state
	str	x8, [x0]
	mov	w0, #103
	str	x9, [x7]
	ldp	x20, x19, [sp, #16]
	add	sp, sp, #32
	.cfi_def_cfa_offset 0
	.cfi_restore w19
	.cfi_restore w20
	ret
.Lcovretin_func_end_8fbed9c1:
	.size	covretin_queue_add_used_many, .Lcovretin_func_end_8fbed9c1-covretin_queue_add_used_many
	.cfi_endproc

	.section	.text.covretin_queue_adopt,"ax",@progbits
	.globl	covretin_queue_adopt
	.p2align	2
	.type	covretin_queue_adopt,@function
covretin_queue_adopt:
	.cfi_startproc
	hint	#34
	ldr	x8, [x0]
	str	xzr, [x0]
	cbz	x8, .Lcovretin_BB_586a8700_4
	ldrb	w9, [x8, #56]
	cbz	w9, .Lcovretin_BB_586a8700_5
	cmp	w9, #2
	b.ne	.Lcovretin_BB_586a8700_6
	str	x8, [x0]
	mov	w0, #104
	ret
.Lcovretin_BB_586a8700_4:
	mov	w0, #101
	ret
.Lcovretin_BB_586a8700_5:
	str	x8, [x0]
	mov	w0, #103
	ret
.Lcovretin_BB_586a8700_6:
	ldrh	w9, [x8, #64]
	cmp	w9, w1, uxth
	b.ls	.Lcovretin_BB_586a8700_9
	ldr	x9, [x8, #112]
	and	x10, x1, #0xffff
	ldrb	w11, [x9, x10]
	tbz	w11, #0, .Lcovretin_BB_586a8700_10
	str	x8, [x0]
	mov	w0, #19
	ret
.Lcovretin_BB_586a8700_9:
	str	x8, [x0]
	mov	w0, #11
	ret
.Lcovretin_BB_586a8700_10:
	mov	w12, #1
	strb	w12, [x9, x10]
	str	x8, [x0]
	mov	w0, wzr
	ret
.Lcovretin_func_end_586a8700:
	.size	covretin_queue_adopt, .Lcovretin_func_end_586a8700-covretin_queue_adopt
	.cfi_endproc

	.section	.text.covretin_queue_close,"ax",@progbits
	.globl	covretin_queue_close
	.p2align	2
	.type	covretin_queue_close,@function
covretin_queue_close:
	.cfi_startproc
	hint	#25
	.cfi_negate_ra_state
	stp	x29, x30, [sp, #-80]!
	.cfi_def_cfa_offset 80
	str	x25, [sp, #16]
	stp	x24, x23, [sp, #32]
	stp	x22, x21, [sp, #48]
	stp	x20, x19, [sp, #64]
	mov	x29, sp
	.cfi_def_cfa w29, 80
	.cfi_offset w19, -8
	.cfi_offset w20, -16
	.cfi_offset w21, -24
	.cfi_offset w22, -32
	.cfi_offset w23, -40
	.cfi_offset w24, -48
	.cfi_offset w25, -64
	.cfi_offset w30, -72
	.cfi_offset w29, -80
	.cfi_remember_state
	mov	x8, x0
	ldr	x0, [x0]
	str	xzr, [x8]
	cbz	x0, .Lcovretin_BB_f2b28385_9
	ldp	x25, x20, [x0, #16]
	ldrb	w23, [x0, #56]
	ldr	x19, [x0, #112]
	ldr	x22, [x0, #128]
	ldr	x21, [x0]
	ldr	x24, [x0, #40]
	bl	rattle_dealloc
	cbz	x25, .Lcovretin_BB_f2b28385_3
	mov	x0, x21
	bl	rattle_dealloc
.Lcovretin_BB_f2b28385_3:
	cbz	x24, .Lcovretin_BB_f2b28385_5
	mov	x0, x20
	bl	rattle_dealloc
.Lcovretin_BB_f2b28385_5:
	cbz	w23, .Lcovretin_BB_f2b28385_9
	cmp	w23, #2
	cbz	x22, .Lcovretin_BB_f2b28385_9
	mov	x0, x19
	.cfi_def_cfa wsp, 80
	ldp	x20, x19, [sp, #64]
	ldr	x25, [sp, #16]
	ldp	x22, x21, [sp, #48]
	ldp	x24, x23, [sp, #32]
	ldp	x29, x30, [sp], #80
	.cfi_def_cfa_offset 0
	.cfi_restore w19
	.cfi_restore w20
	.cfi_restore w21
	.cfi_restore w22
	.cfi_restore w23
	.cfi_restore w24
	.cfi_restore w25
	.cfi_restore w30
	.cfi_restore w29
	hint	#29
	.cfi_negate_ra_state
	b	rattle_dealloc
.Lcovretin_BB_f2b28385_9:
	.cfi_restore_state
	.cfi_def_cfa wsp, 80
	ldp	x20, x19, [sp, #64]
	ldr	x25, [sp, #16]
	ldp	x22, x21, [sp, #48]
	ldp	x24, x23, [sp, #32]
	ldp	x29, x30, [sp], #80
	.cfi_def_cfa_offset 0
	.cfi_restore w19
	.cfi_restore w20
	.cfi_restore w21
	.cfi_restore w22
	.cfi_restore w23
	.cfi_restore w24
	.cfi_restore w25
	.cfi_restore w30
	.cfi_restore w29
	hint	#29
	.cfi_negate_ra_state
	ret
.Lcovretin_func_end_f2b28385:
	.size	covretin_queue_close, .Lcovretin_func_end_f2b28385-covretin_queue_close
	.cfi_endproc

	.section	.text.covretin_queue_give_back,"ax",@progbits
	.globl	covretin_queue_give_back
	.p2align	2
	.type	covretin_queue_give_back,@function
covretin_queue_give_back:
	.cfi_startproc
	hint	#34
	ldr	x8, [x0]
	str	xzr, [x0]
	cbz	x8, .Lcovretin_BB_804d99e8_4
	ldrb	w9, [x8, #56]
	cbz	w9, .Lcovretin_BB_804d99e8_5
	cmp	w9, #2
	b.ne	.Lcovretin_BB_804d99e8_6
	str	x8, [x0]
	mov	w0, #104
	ret
.Lcovretin_BB_804d99e8_4:
	mov	w0, #101
	ret
.Lcovretin_BB_804d99e8_5:
	str	x8, [x0]
	mov	w0, #103
	ret
.Lcovretin_BB_804d99e8_6:
	ldrh	w11, [x8, #64]
	cmp	w11, w1, uxth
	b.ls	.Lcovretin_BB_804d99e8_10
	ldr	x9, [x8, #112]
	and	x10, x1, #0xffff
	ldrb	w12, [x9, x10]
	cmp	w12, #1
	b.ne	.Lcovretin_BB_804d99e8_10
	ldrh	w12, [x8, #98]
	ldrh	w13, [x8, #100]
	sub	w12, w12, #1
	sub	w13, w13, w12
	cmp	w11, w13, uxth
	b.hs	.Lcovretin_BB_804d99e8_11
	str	x8, [x0]
	mov	w0, #18
	ret
.Lcovretin_BB_804d99e8_10:
	str	x8, [x0]
	mov	w0, #23
	ret
.Lcovretin_BB_804d99e8_11:
	strb	wzr, [x9, x10]
	strh	w12, [x8, #98]
	stur	wzr, [x8, #146]
	str	x8, [x0]
	mov	w0, wzr
	ret
.Lcovretin_func_end_804d99e8:
	.size	covretin_queue_give_back, .Lcovretin_func_end_804d99e8-covretin_queue_give_back
	.cfi_endproc

	.section	.text.covretin_queue_move_packed,"ax",@progbits
	.globl	covretin_queue_move_packed
	.p2align	2
	.type	covretin_queue_move_packed,@function
covretin_queue_move_packed:
	.cfi_startproc
	hint	#34
	ldr	x8, [x0]
	str	xzr, [x0]
	cbz	x8, .Lcovretin_BB_6c636b38_4
	ldrb	w9, [x8, #56]
	cbz	w9, .Lcovretin_BB_6c636b38_5
	cmp	w9, #1
	b.ne	.Lcovretin_BB_6c636b38_6
	str	x8, [x0]
	mov	w0, #104
	ret
.Lcovretin_BB_6c636b38_4:
	mov	w0, #101
	ret
.Lcovretin_BB_6c636b38_5:
	str	x8, [x0]
	mov	w0, #103
	ret
.Lcovretin_BB_6c636b38_6:
	ldrh	w13, [x8, #64]
	sub	w9, w13, #1
	tbnz	w9, #15, .Lcovretin_BB_6c636b38_33
	ldr	x12, [x8, #48]
	ldr	x9, [x8, #8]
	lsl	x11, x13, #4
	cmp	x12, x9
	b.hs	.Lcovretin_BB_6c636b38_11
	ldr	x10, [x8]
	lsl	x14, x12, #5
	add	x16, x10, x14
	ldr	x15, [x16, #16]
	subs	x15, x1, x15
	b.lo	.Lcovretin_BB_6c636b38_11
	ldr	x16, [x16, #8]
	subs	x16, x16, x11
	b.lo	.Lcovretin_BB_6c636b38_11
	cmp	x15, x16
	b.ls	.Lcovretin_BB_6c636b38_31
.Lcovretin_BB_6c636b38_11:
	ldr	x12, [x8, #32]
	cbz	x12, .Lcovretin_BB_6c636b38_23
	ldr	x10, [x8, #24]
	mov	x14, xzr
	b	.Lcovretin_BB_6c636b38_14
.Lcovretin_BB_6c636b38_13:
	mov	x12, x15
	cmp	x14, x15
	b.hs	.Lcovretin_BB_6c636b38_17
.Lcovretin_BB_6c636b38_14:
	sub	x15, x12, x14
	add	x15, x14, x15, lsr #1
	ldrh	w16, [x10, x15, lsl #1]
	cmp	x9, x16
	b.ls	.Lcovretin_BB_6c636b38_13
	ldr	x17, [x8]
	lsl	x16, x16, #5
	ldr	x16, [x17, x16]
	cmp	x16, x1
	b.hi	.Lcovretin_BB_6c636b38_13
	add	x14, x15, #1
	cmp	x14, x12
	b.lo	.Lcovretin_BB_6c636b38_14
.Lcovretin_BB_6c636b38_17:
	cbz	x14, .Lcovretin_BB_6c636b38_23
	add	x10, x10, x14, lsl #1
	ldurh	w12, [x10, #-2]
	cmp	x9, x12
	b.ls	.Lcovretin_BB_6c636b38_23
	ldr	x10, [x8]
	cbz	w13, .Lcovretin_BB_6c636b38_25
	lsl	x14, x12, #5
	add	x16, x10, x14
	ldr	x15, [x16, #16]
	subs	x15, x1, x15
	b.lo	.Lcovretin_BB_6c636b38_25
	ldr	x13, [x16, #8]
	subs	x13, x13, x11
	b.lo	.Lcovretin_BB_6c636b38_26
	cmp	x15, x13
	b.hi	.Lcovretin_BB_6c636b38_26
	b	.Lcovretin_BB_6c636b38_31
.Lcovretin_BB_6c636b38_23:
	cbz	x9, .Lcovretin_BB_6c636b38_81
	ldr	x10, [x8]
.Lcovretin_BB_6c636b38_25:
	cbz	w13, .Lcovretin_BB_6c636b38_81
.Lcovretin_BB_6c636b38_26:
	mov	x14, xzr
	mov	x12, xzr
	b	.Lcovretin_BB_6c636b38_28
.Lcovretin_BB_6c636b38_27:
	add	x12, x12, #1
	add	x14, x14, #32
	cmp	x9, x12
	b.eq	.Lcovretin_BB_6c636b38_81
.Lcovretin_BB_6c636b38_28:
	add	x15, x10, x14
	ldr	x13, [x15, #16]
	subs	x13, x1, x13
	b.lo	.Lcovretin_BB_6c636b38_27
	ldr	x15, [x15, #8]
	subs	x15, x15, x11
	b.lo	.Lcovretin_BB_6c636b38_27
	cmp	x13, x15
	b.hi	.Lcovretin_BB_6c636b38_27
.Lcovretin_BB_6c636b38_31:
	str	x12, [x8, #48]
	add	x11, x10, x14
	ldp	x13, x11, [x11, #16]
	sub	x13, x1, x13
	add	x11, x13, x11
	tst	x11, #0xf
	b.eq	.Lcovretin_BB_6c636b38_34
.Lcovretin_BB_6c636b38_32:
	str	x8, [x0]
	mov	w0, #6
	ret
.Lcovretin_BB_6c636b38_33:
	str	x8, [x0]
	mov	w0, #5
	ret
.Lcovretin_BB_6c636b38_34:
	cmp	x12, x9
	b.hs	.Lcovretin_BB_6c636b38_38
	lsl	x13, x12, #5
	add	x15, x10, x13
	ldr	x14, [x15, #16]
	subs	x14, x2, x14
	b.lo	.Lcovretin_BB_6c636b38_38
	ldr	x15, [x15, #8]
	subs	x15, x15, #4
	b.lo	.Lcovretin_BB_6c636b38_38
	cmp	x14, x15
	b.ls	.Lcovretin_BB_6c636b38_56
.Lcovretin_BB_6c636b38_38:
	ldr	x13, [x8, #32]
	cbz	x13, .Lcovretin_BB_6c636b38_49
	ldr	x12, [x8, #24]
	mov	x14, xzr
	b	.Lcovretin_BB_6c636b38_41
.Lcovretin_BB_6c636b38_40:
	mov	x13, x15
	cmp	x14, x15
	b.hs	.Lcovretin_BB_6c636b38_44
.Lcovretin_BB_6c636b38_41:
	sub	x15, x13, x14
	add	x15, x14, x15, lsr #1
	ldrh	w16, [x12, x15, lsl #1]
	cmp	x9, x16
	b.ls	.Lcovretin_BB_6c636b38_40
	lsl	x16, x16, #5
	ldr	x16, [x10, x16]
	cmp	x16, x2
	b.hi	.Lcovretin_BB_6c636b38_40
	add	x14, x15, #1
	cmp	x14, x13
	b.lo	.Lcovretin_BB_6c636b38_41
.Lcovretin_BB_6c636b38_44:
	cbz	x14, .Lcovretin_BB_6c636b38_49
	add	x12, x12, x14, lsl #1
	ldurh	w12, [x12, #-2]
	cmp	x9, x12
	b.ls	.Lcovretin_BB_6c636b38_49
	lsl	x13, x12, #5
	add	x15, x10, x13
	ldr	x14, [x15, #16]
	subs	x14, x2, x14
	b.lo	.Lcovretin_BB_6c636b38_50
	ldr	x15, [x15, #8]
	subs	x15, x15, #4
	b.lo	.Lcovretin_BB_6c636b38_50
	cmp	x14, x15
	b.hi	.Lcovretin_BB_6c636b38_50
	b	.Lcovretin_BB_6c636b38_56
.Lcovretin_BB_6c636b38_49:
	cbz	x9, .Lcovretin_BB_6c636b38_81
.Lcovretin_BB_6c636b38_50:
	mov	x13, xzr
	mov	x12, xzr
	mov	x14, x10
	b	.Lcovretin_BB_6c636b38_52
.Lcovretin_BB_6c636b38_51:
	add	x12, x12, #1
	sub	x13, x13, #32
	add	x14, x14, #32
	cmp	x9, x12
	b.eq	.Lcovretin_BB_6c636b38_81
.Lcovretin_BB_6c636b38_52:
	ldr	x15, [x14, #16]
	subs	x15, x2, x15
	b.lo	.Lcovretin_BB_6c636b38_51
	ldr	x16, [x14, #8]
	subs	x16, x16, #4
	b.lo	.Lcovretin_BB_6c636b38_51
	cmp	x15, x16
	b.hi	.Lcovretin_BB_6c636b38_51
	neg	x13, x13
.Lcovretin_BB_6c636b38_56:
	str	x12, [x8, #48]
	add	x13, x10, x13
	ldp	x14, x13, [x13, #16]
	sub	x14, x2, x14
	add	x13, x14, x13
	tst	x13, #0x3
	b.ne	.Lcovretin_BB_6c636b38_32
	cmp	x12, x9
	b.hs	.Lcovretin_BB_6c636b38_61
	lsl	x14, x12, #5
	add	x16, x10, x14
	ldr	x15, [x16, #16]
	subs	x15, x3, x15
	b.lo	.Lcovretin_BB_6c636b38_61
	ldr	x16, [x16, #8]
	subs	x16, x16, #4
	b.lo	.Lcovretin_BB_6c636b38_61
	cmp	x15, x16
	b.ls	.Lcovretin_BB_6c636b38_79
.Lcovretin_BB_6c636b38_61:
	ldr	x14, [x8, #32]
	cbz	x14, .Lcovretin_BB_6c636b38_72
	ldr	x12, [x8, #24]
	mov	x15, xzr
	b	.Lcovretin_BB_6c636b38_64
.Lcovretin_BB_6c636b38_63:
	mov	x14, x16
	cmp	x15, x16
	b.hs	.Lcovretin_BB_6c636b38_67
.Lcovretin_BB_6c636b38_64:
	sub	x16, x14, x15
	add	x16, x15, x16, lsr #1
	ldrh	w17, [x12, x16, lsl #1]
	cmp	x9, x17
	b.ls	.Lcovretin_BB_6c636b38_63
	lsl	x17, x17, #5
	ldr	x17, [x10, x17]
	cmp	x17, x3
	b.hi	.Lcovretin_BB_6c636b38_63
	add	x15, x16, #1
	cmp	x15, x14
	b.lo	.Lcovretin_BB_6c636b38_64
.Lcovretin_BB_6c636b38_67:
	cbz	x15, .Lcovretin_BB_6c636b38_72
	add	x12, x12, x15, lsl #1
	ldurh	w12, [x12, #-2]
	cmp	x9, x12
	b.ls	.Lcovretin_BB_6c636b38_72
	lsl	x14, x12, #5
	add	x16, x10, x14
	ldr	x15, [x16, #16]
	subs	x15, x3, x15
	b.lo	.Lcovretin_BB_6c636b38_73
	ldr	x16, [x16, #8]
	subs	x16, x16, #4
	b.lo	.Lcovretin_BB_6c636b38_73
	cmp	x15, x16
	b.hi	.Lcovretin_BB_6c636b38_73
	b	.Lcovretin_BB_6c636b38_79
.Lcovretin_BB_6c636b38_72:
	cbz	x9, .Lcovretin_BB_6c636b38_81
.Lcovretin_BB_6c636b38_73:
	mov	x14, xzr
	mov	x12, xzr
	mov	x15, x10
	b	.Lcovretin_BB_6c636b38_75
.Lcovretin_BB_6c636b38_74:
	add	x12, x12, #1
	sub	x14, x14, #32
	add	x15, x15, #32
	cmp	x9, x12
	b.eq	.Lcovretin_BB_6c636b38_81
.Lcovretin_BB_6c636b38_75:
	ldr	x16, [x15, #16]
	subs	x16, x3, x16
	b.lo	.Lcovretin_BB_6c636b38_74
	ldr	x17, [x15, #8]
	subs	x17, x17, #4
	b.lo	.Lcovretin_BB_6c636b38_74
	cmp	x16, x17
	b.hi	.Lcovretin_BB_6c636b38_74
	neg	x14, x14
.Lcovretin_BB_6c636b38_79:
	str	x12, [x8, #48]
	add	x9, x10, x14
	ldp	x10, x9, [x9, #16]
	sub	x10, x3, x10
	add	x9, x10, x9
	tst	x9, #0x3
	b.ne	.Lcovretin_BB_6c636b38_32
	sturh	wzr, [x8, #70]
	stur	wzr, [x8, #66]
	stp	x11, x13, [x8, #72]
	str	x9, [x8, #88]
	stur	wzr, [x8, #146]
	str	x8, [x0]
	mov	w0, wzr
	ret
.Lcovretin_BB_6c636b38_81:
	str	x8, [x0]
	mov	w0, #9
	ret
.Lcovretin_func_end_6c636b38:
	.size	covretin_queue_move_packed, .Lcovretin_func_end_6c636b38-covretin_queue_move_packed
	.cfi_endproc

	.section	.text.covretin_queue_move_split,"ax",@progbits
	.globl	covretin_queue_move_split
	.p2align	2
	.type	covretin_queue_move_split,@function
covretin_queue_move_split:
	.cfi_startproc
	hint	#34
	ldr	x8, [x0]
	str	xzr, [x0]
	cbz	x8, .Lcovretin_BB_5fec4635_4
	ldrb	w9, [x8, #56]
	cbz	w9, .Lcovretin_BB_5fec4635_5
	cmp	w9, #2
	b.ne	.Lcovretin_BB_5fec4635_6
	str	x8, [x0]
	mov	w0, #104
	ret
.Lcovretin_BB_5fec4635_4:
	mov	w0, #101
	ret
.Lcovretin_BB_5fec4635_5:
	str	x8, [x0]
	mov	w0, #103
	ret
.Lcovretin_BB_5fec4635_6:
	ldrh	w11, [x8, #64]
	sub	w9, w11, #1
	tbnz	w9, #15, .Lcovretin_BB_5fec4635_24
	and	w9, w11, w9
	cbnz	w9, .Lcovretin_BB_5fec4635_24
	ldr	x13, [x8, #48]
	ldr	x9, [x8, #8]
	lsl	x12, x11, #4
	cmp	x13, x9
	b.hs	.Lcovretin_BB_5fec4635_12
	ldr	x10, [x8]
	lsl	x14, x13, #5
	add	x16, x10, x14
	ldr	x15, [x16, #16]
	subs	x15, x1, x15
	b.lo	.Lcovretin_BB_5fec4635_12
	ldr	x16, [x16, #8]
	subs	x16, x16, x12
	b.lo	.Lcovretin_BB_5fec4635_12
	cmp	x15, x16
	b.ls	.Lcovretin_BB_5fec4635_33
.Lcovretin_BB_5fec4635_12:
	ldr	x13, [x8, #32]
	cbz	x13, .Lcovretin_BB_5fec4635_25
	ldr	x10, [x8, #24]
	mov	x14, xzr
	b	.Lcovretin_BB_5fec4635_15
.Lcovretin_BB_5fec4635_14:
	mov	x13, x15
	cmp	x14, x15
	b.hs	.Lcovretin_BB_5fec4635_18
.Lcovretin_BB_5fec4635_15:
	sub	x15, x13, x14
	add	x15, x14, x15, lsr #1
	ldrh	w16, [x10, x15, lsl #1]
	cmp	x9, x16
	b.ls	.Lcovretin_BB_5fec4635_14
	ldr	x17, [x8]
	lsl	x16, x16, #5
	ldr	x16, [x17, x16]
	cmp	x16, x1
	b.hi	.Lcovretin_BB_5fec4635_14
	add	x14, x15, #1
	cmp	x14, x13
	b.lo	.Lcovretin_BB_5fec4635_15
.Lcovretin_BB_5fec4635_18:
	cbz	x14, .Lcovretin_BB_5fec4635_25
	add	x10, x10, x14, lsl #1
	ldurh	w13, [x10, #-2]
	cmp	x9, x13
	b.ls	.Lcovretin_BB_5fec4635_25
	ldr	x10, [x8]
	cbz	w11, .Lcovretin_BB_5fec4635_27
	lsl	x14, x13, #5
	add	x16, x10, x14
	ldr	x15, [x16, #16]
	subs	x15, x1, x15
	b.lo	.Lcovretin_BB_5fec4635_27
	ldr	x16, [x16, #8]
	subs	x16, x16, x12
	b.lo	.Lcovretin_BB_5fec4635_28
	cmp	x15, x16
	b.hi	.Lcovretin_BB_5fec4635_28
	b	.Lcovretin_BB_5fec4635_33
.Lcovretin_BB_5fec4635_24:
	str	x8, [x0]
	mov	w0, #5
	ret
.Lcovretin_BB_5fec4635_25:
	cbz	x9, .Lcovretin_BB_5fec4635_82
	ldr	x10, [x8]
.Lcovretin_BB_5fec4635_27:
	cbz	w11, .Lcovretin_BB_5fec4635_82
.Lcovretin_BB_5fec4635_28:
	mov	x14, xzr
	mov	x13, xzr
	b	.Lcovretin_BB_5fec4635_30
.Lcovretin_BB_5fec4635_29:
	add	x13, x13, #1
	add	x14, x14, #32
	cmp	x9, x13
	b.eq	.Lcovretin_BB_5fec4635_82
.Lcovretin_BB_5fec4635_30:
	add	x16, x10, x14
	ldr	x15, [x16, #16]
	subs	x15, x1, x15
	b.lo	.Lcovretin_BB_5fec4635_29
	ldr	x16, [x16, #8]
	subs	x16, x16, x12
	b.lo	.Lcovretin_BB_5fec4635_29
	cmp	x15, x16
	b.hi	.Lcovretin_BB_5fec4635_29
.Lcovretin_BB_5fec4635_33:
	str	x13, [x8, #48]
	add	x12, x10, x14
	ldp	x14, x12, [x12, #16]
	sub	x14, x1, x14
	add	x12, x14, x12
	tst	x12, #0xf
	b.eq	.Lcovretin_BB_5fec4635_35
.Lcovretin_BB_5fec4635_34:
	str	x8, [x0]
	mov	w0, #6
	ret
.Lcovretin_BB_5fec4635_35:
	lsl	x14, x11, #1
	cmp	x13, x9
	add	x14, x14, #6
	b.hs	.Lcovretin_BB_5fec4635_39
	lsl	x15, x13, #5
	add	x17, x10, x15
	ldr	x16, [x17, #16]
	subs	x16, x2, x16
	b.lo	.Lcovretin_BB_5fec4635_39
	ldr	x17, [x17, #8]
	subs	x17, x17, x14
	b.lo	.Lcovretin_BB_5fec4635_39
	cmp	x16, x17
	b.ls	.Lcovretin_BB_5fec4635_57
.Lcovretin_BB_5fec4635_39:
	ldr	x15, [x8, #32]
	cbz	x15, .Lcovretin_BB_5fec4635_50
	ldr	x13, [x8, #24]
	mov	x16, xzr
	b	.Lcovretin_BB_5fec4635_42
.Lcovretin_BB_5fec4635_41:
	mov	x15, x17
	cmp	x16, x17
	b.hs	.Lcovretin_BB_5fec4635_45
.Lcovretin_BB_5fec4635_42:
	sub	x17, x15, x16
	add	x17, x16, x17, lsr #1
	ldrh	w18, [x13, x17, lsl #1]
	cmp	x9, x18
	b.ls	.Lcovretin_BB_5fec4635_41
	lsl	x18, x18, #5
	ldr	x18, [x10, x18]
	cmp	x18, x2
	b.hi	.Lcovretin_BB_5fec4635_41
	add	x16, x17, #1
	cmp	x16, x15
	b.lo	.Lcovretin_BB_5fec4635_42
.Lcovretin_BB_5fec4635_45:
	cbz	x16, .Lcovretin_BB_5fec4635_50
	add	x13, x13, x16, lsl #1
	ldurh	w13, [x13, #-2]
	cmp	x9, x13
	b.ls	.Lcovretin_BB_5fec4635_50
	lsl	x15, x13, #5
	add	x17, x10, x15
	ldr	x16, [x17, #16]
	subs	x16, x2, x16
	b.lo	.Lcovretin_BB_5fec4635_51
	ldr	x17, [x17, #8]
	subs	x17, x17, x14
	b.lo	.Lcovretin_BB_5fec4635_51
	cmp	x16, x17
	b.hi	.Lcovretin_BB_5fec4635_51
	b	.Lcovretin_BB_5fec4635_57
.Lcovretin_BB_5fec4635_50:
	cbz	x9, .Lcovretin_BB_5fec4635_82
.Lcovretin_BB_5fec4635_51:
	mov	x15, xzr
	mov	x13, xzr
	mov	x16, x10
	b	.Lcovretin_BB_5fec4635_53
.Lcovretin_BB_5fec4635_52:
	add	x13, x13, #1
	sub	x15, x15, #32
	add	x16, x16, #32
	cmp	x9, x13
	b.eq	.Lcovretin_BB_5fec4635_82
.Lcovretin_BB_5fec4635_53:
	ldr	x17, [x16, #16]
	subs	x17, x2, x17
	b.lo	.Lcovretin_BB_5fec4635_52
	ldr	x18, [x16, #8]
	subs	x18, x18, x14
	b.lo	.Lcovretin_BB_5fec4635_52
	cmp	x17, x18
	b.hi	.Lcovretin_BB_5fec4635_52
	neg	x15, x15
.Lcovretin_BB_5fec4635_57:
	str	x13, [x8, #48]
	add	x14, x10, x15
	ldp	x15, x14, [x14, #16]
	sub	x15, x2, x15
	add	x14, x15, x14
	tbnz	w14, #0, .Lcovretin_BB_5fec4635_34
	mov	w15, #6
	cmp	x13, x9
	orr	x11, x15, x11, lsl #3
	b.hs	.Lcovretin_BB_5fec4635_62
	lsl	x15, x13, #5
	add	x17, x10, x15
	ldr	x16, [x17, #16]
	subs	x16, x3, x16
	b.lo	.Lcovretin_BB_5fec4635_62
	ldr	x17, [x17, #8]
	subs	x17, x17, x11
	b.lo	.Lcovretin_BB_5fec4635_62
	cmp	x16, x17
	b.ls	.Lcovretin_BB_5fec4635_80
.Lcovretin_BB_5fec4635_62:
	ldr	x15, [x8, #32]
	cbz	x15, .Lcovretin_BB_5fec4635_73
	ldr	x13, [x8, #24]
	mov	x16, xzr
	b	.Lcovretin_BB_5fec4635_65
.Lcovretin_BB_5fec4635_64:
	mov	x15, x17
	cmp	x16, x17
	b.hs	.Lcovretin_BB_5fec4635_68
.Lcovretin_BB_5fec4635_65:
	sub	x17, x15, x16
	add	x17, x16, x17, lsr #1
	ldrh	w18, [x13, x17, lsl #1]
	cmp	x9, x18
	b.ls	.Lcovretin_BB_5fec4635_64
	lsl	x18, x18, #5
	ldr	x18, [x10, x18]
	cmp	x18, x3
	b.hi	.Lcovretin_BB_5fec4635_64
	add	x16, x17, #1
	cmp	x16, x15
	b.lo	.Lcovretin_BB_5fec4635_65
.Lcovretin_BB_5fec4635_68:
	cbz	x16, .Lcovretin_BB_5fec4635_73
	add	x13, x13, x16, lsl #1
	ldurh	w13, [x13, #-2]
	cmp	x9, x13
	b.ls	.Lcovretin_BB_5fec4635_73
	lsl	x15, x13, #5
	add	x17, x10, x15
	ldr	x16, [x17, #16]
	subs	x16, x3, x16
	b.lo	.Lcovretin_BB_5fec4635_74
	ldr	x17, [x17, #8]
	subs	x17, x17, x11
	b.lo	.Lcovretin_BB_5fec4635_74
	cmp	x16, x17
	b.hi	.Lcovretin_BB_5fec4635_74
	b	.Lcovretin_BB_5fec4635_80
.Lcovretin_BB_5fec4635_73:
	cbz	x9, .Lcovretin_BB_5fec4635_82
.Lcovretin_BB_5fec4635_74:
	mov	x15, xzr
	mov	x13, xzr
	mov	x16, x10
	b	.Lcovretin_BB_5fec4635_76
.Lcovretin_BB_5fec4635_75:
	add	x13, x13, #1
	sub	x15, x15, #32
	add	x16, x16, #32
	cmp	x9, x13
	b.eq	.Lcovretin_BB_5fec4635_82
.Lcovretin_BB_5fec4635_76:
	ldr	x17, [x16, #16]
	subs	x17, x3, x17
	b.lo	.Lcovretin_BB_5fec4635_75
	ldr	x18, [x16, #8]
	subs	x18, x18, x11
	b.lo	.Lcovretin_BB_5fec4635_75
	cmp	x17, x18
	b.hi	.Lcovretin_BB_5fec4635_75
	neg	x15, x15
.Lcovretin_BB_5fec4635_80:
	str	x13, [x8, #48]
	add	x9, x10, x15
	ldp	x10, x9, [x9, #16]
	sub	x10, x3, x10
	add	x9, x10, x9
	tst	x9, #0x3
	b.ne	.Lcovretin_BB_5fec4635_34
	sturh	wzr, [x8, #70]
	stur	wzr, [x8, #66]
	stp	x12, x14, [x8, #72]
	str	x9, [x8, #88]
	stur	wzr, [x8, #146]
	str	x8, [x0]
	mov	w0, wzr
	ret
.Lcovretin_BB_5fec4635_82:
	str	x8, [x0]
	mov	w0, #9
	ret
.Lcovretin_func_end_5fec4635:
	.size	covretin_queue_move_split, .Lcovretin_func_end_5fec4635-covretin_queue_move_split
	.cfi_endproc

	.section	.text.covretin_queue_open,"ax",@progbits
	.globl	covretin_queue_open
	.p2align	2
	.type	covretin_queue_open,@function
covretin_queue_open:
	.cfi_startproc
	hint	#34
	ldr	x8, [x0]
	str	xzr, [x0]
	cbz	x8, .Lcovretin_BB_9431867a_2
	str	x8, [x0]
	mov	w0, #102
	ret
.Lcovretin_BB_9431867a_2:
	hint	#25
	.cfi_negate_ra_state
	stp	x29, x30, [sp, #-32]!
	.cfi_def_cfa_offset 32
	str	x19, [sp, #16]
	mov	x29, sp
	.cfi_def_cfa w29, 32
	.cfi_offset w19, -16
	.cfi_offset w30, -24
	.cfi_offset w29, -32
	.cfi_remember_state
	mov	x19, x0
	mov	w0, #192
	mov	w1, #8
	bl	rattle_alloc
	tbz	w0, #0, .Lcovretin_BB_9431867a_4
	movi	v0.2d, #0000000000000000
	mov	w0, wzr
	add	x8, x29, #24
	stp	xzr, x8, [x1, #16]
	stp	x8, xzr, [x1]
	stp	q0, q0, [x1, #32]
	stp	q0, q0, [x1, #64]
	stp	q0, q0, [x1, #96]
	stp	q0, q0, [x1, #128]
	stp	q0, q0, [x1, #160]
	str	x1, [x19]
	.cfi_def_cfa wsp, 32
	ldr	x19, [sp, #16]
	ldp	x29, x30, [sp], #32
	.cfi_def_cfa_offset 0
	.cfi_restore w19
	.cfi_restore w30
	.cfi_restore w29
	hint	#29
	.cfi_negate_ra_state
	ret
.Lcovretin_BB_9431867a_4:
	.cfi_restore_state
	mov	w0, #24
	.cfi_def_cfa wsp, 32
	ldr	x19, [sp, #16]
	ldp	x29, x30, [sp], #32
	.cfi_def_cfa_offset 0
	.cfi_restore w19
	.cfi_restore w30
	.cfi_restore w29
	hint	#29
	.cfi_negate_ra_state
	ret
.Lcovretin_func_end_9431867a:
	.size	covretin_queue_open, .Lcovretin_func_end_9431867a-covretin_queue_open
	.cfi_endproc

	.section	.text.covretin_queue_pop,"ax",@progbits
	.globl	covretin_queue_pop
	.p2align	2
	.type	covretin_queue_pop,@function
covretin_queue_pop:
	.cfi_startproc
	hint	#34
	ldr	x8, [x0]
	str	xzr, [x0]
	cbz	x8, .Lcovretin_BB_69a4018d_4
	ldrb	w9, [x8, #56]
	cbz	w9, .Lcovretin_BB_69a4018d_5
	cmp	w9, #2
	b.ne	.Lcovretin_BB_69a4018d_6
	str	x8, [x0]
	mov	w0, #104
	ret
.Lcovretin_BB_69a4018d_4:
	mov	w0, #101
	ret
.Lcovretin_BB_69a4018d_5:
	str	x8, [x0]
	mov	w0, #103
	ret
.Lcovretin_BB_69a4018d_6:
	ldrb	w9, [x8, #184]
	tbz	w9, #0, .Lcovretin_BB_69a4018d_8
	str	x8, [x0]
	mov	w0, #20
	ret
.Lcovretin_BB_69a4018d_8:
	ldrh	w9, [x8, #98]
	ldrh	w10, [x8, #100]
	cmp	w9, w10
	b.ne	.Lcovretin_BB_69a4018d_10
	str	x8, [x0]
	mov	w0, #21
	ret
.Lcovretin_BB_69a4018d_10:
	ldrh	w12, [x8, #64]
	cmp	w12, w1, uxth
	b.ls	.Lcovretin_BB_69a4018d_13
	ldr	x10, [x8, #112]
	and	x11, x1, #0xffff
	ldrb	w13, [x10, x11]
	tbz	w13, #0, .Lcovretin_BB_69a4018d_14
	mov	w9, #1
	strb	w9, [x8, #184]
	str	x8, [x0]
	mov	w0, #19
	ret
.Lcovretin_BB_69a4018d_13:
	mov	w9, #1
	strb	w9, [x8, #184]
	str	x8, [x0]
	mov	w0, #11
	ret
.Lcovretin_BB_69a4018d_14:
	ldr	x14, [x8, #72]
	ldrb	w15, [x8, #97]
	add	w9, w9, #1
	strh	w12, [x8, #144]
	mov	w12, #1
	str	x14, [x8, #136]
	ldrh	w14, [x8, #182]
	strh	w12, [x8, #146]
	strh	w14, [x8, #176]
	mov	w14, #508
	strh	w1, [x8, #148]
	stp	xzr, xzr, [x8, #160]
	str	xzr, [x8, #152]
	strh	w14, [x8, #178]
	strb	wzr, [x8, #180]
	strb	w15, [x8, #181]
	strb	w12, [x10, x11]
	strh	w9, [x8, #98]
	str	x8, [x0]
	mov	w0, wzr
	ret
.Lcovretin_func_end_69a4018d:
	.size	covretin_queue_pop, .Lcovretin_func_end_69a4018d-covretin_queue_pop
	.cfi_endproc

	.section	.text.covretin_queue_remove_region,"ax",@progbits
	.globl	covretin_queue_remove_region
	.p2align	2
	.type	covretin_queue_remove_region,@function
covretin_queue_remove_region:
	.cfi_startproc
	hint	#25
	.cfi_negate_ra_state
	stp	x29, x30, [sp, #-64]!
	.cfi_def_cfa_offset 64
	stp	x24, x23, [sp, #16]
	stp	x22, x21, [sp, #32]
	stp	x20, x19, [sp, #48]
	mov	x29, sp
	.cfi_def_cfa w29, 64
	.cfi_offset w19, -8
	.cfi_offset w20, -16
	.cfi_offset w21, -24
	.cfi_offset w22, -32
	.cfi_offset w23, -40
	.cfi_offset w24, -48
	.cfi_offset w30, -56
	.cfi_offset w29, -64
	.cfi_remember_state
	ldr	x19, [x0]
	str	xzr, [x0]
	cbz	x19, .Lcovretin_BB_012d3dbe_11
	mov	x11, x19
	ldr	x12, [x11, #8]!
	cbz	x12, .Lcovretin_BB_012d3dbe_10
	ldr	x21, [x19]
	lsl	x8, x12, #5
	mov	x9, xzr
	mov	x20, xzr
	add	x10, x8, x21
	sub	x10, x10, #64
	b	.Lcovretin_BB_012d3dbe_4
.Lcovretin_BB_012d3dbe_3:
	add	x20, x20, #1
	add	x9, x9, #32
	cmp	x12, x20
	b.eq	.Lcovretin_BB_012d3dbe_10
.Lcovretin_BB_012d3dbe_4:
	ldr	x13, [x21, x9]
	cmp	x13, x1
	b.ne	.Lcovretin_BB_012d3dbe_3
	add	x13, x21, x9
	ldr	x14, [x13, #8]
	cmp	x14, x2
	b.ne	.Lcovretin_BB_012d3dbe_3
	ldr	x13, [x13, #16]
	cmp	x13, x3
	b.ne	.Lcovretin_BB_012d3dbe_3
	ldr	x22, [x19, #16]
	sub	x13, x12, x20
	cmn	x20, #1
	stp	xzr, xzr, [x11]
	sub	x23, x12, #1
	sub	x11, x13, #1
	b.eq	.Lcovretin_BB_012d3dbe_19
	cmp	x11, #65
	mov	x10, x20
	b.lo	.Lcovretin_BB_012d3dbe_17
	sub	x12, x13, #65
	mov	x10, x20
	b	.Lcovretin_BB_012d3dbe_13
.Lcovretin_BB_012d3dbe_10:
	str	x19, [x0]
	mov	w0, #4
	.cfi_def_cfa wsp, 64
	ldp	x20, x19, [sp, #48]
	ldp	x22, x21, [sp, #32]
	ldp	x24, x23, [sp, #16]
	ldp	x29, x30, [sp], #64
	.cfi_def_cfa_offset 0
	.cfi_restore w19
	.cfi_restore w20
	.cfi_restore w21
	.cfi_restore w22
	.cfi_restore w23
	.cfi_restore w24
	.cfi_restore w30
	.cfi_restore w29
	hint	#29
	.cfi_negate_ra_state
	ret
.Lcovretin_BB_012d3dbe_11:
	.cfi_restore_state
	.cfi_remember_state
	mov	w0, #101
	.cfi_def_cfa wsp, 64
	ldp	x20, x19, [sp, #48]
	ldp	x22, x21, [sp, #32]
	ldp	x24, x23, [sp, #16]
	ldp	x29, x30, [sp], #64
	.cfi_def_cfa_offset 0
	.cfi_restore w19
	.cfi_restore w20
	.cfi_restore w21
	.cfi_restore w22
	.cfi_restore w23
	.cfi_restore w24
	.cfi_restore w30
	.cfi_restore w29
	hint	#29
	.cfi_negate_ra_state
	ret
.Lcovretin_BB_012d3dbe_12:
	.cfi_restore_state
	ldr	q1, [x11, #2064]
	ldr	q0, [x11, #2048]
	ldr	q2, [x11, #2064]
	str	q1, [x11, #2032]
	str	q1, [x11, #2000]
	str	q1, [x11, #1968]
	str	q1, [x11, #1936]
	str	q1, [x11, #1904]
	str	q1, [x11, #1872]
	str	q1, [x11, #1840]
	str	q1, [x11, #1808]
	ldr	q1, [x11, #2064]
	str	q0, [x11, #2016]
	str	q0, [x11, #1984]
	str	q0, [x11, #1952]
	str	q0, [x11, #1920]
	str	q0, [x11, #1888]
	str	q0, [x11, #1856]
	str	q0, [x11, #1824]
	str	q0, [x11, #1792]
	ldr	q0, [x11, #2048]
	str	q1, [x11, #1776]
	str	q1, [x11, #1744]
	str	q1, [x11, #1712]
	str	q1, [x11, #1680]
	str	q1, [x11, #1648]
	str	q1, [x11, #1616]
	str	q1, [x11, #1584]
	str	q1, [x11, #1552]
	ldr	q1, [x11, #2064]
	str	q0, [x11, #1760]
	str	q0, [x11, #1728]
	str	q0, [x11, #1696]
	str	q0, [x11, #1664]
	str	q0, [x11, #1632]
	str	q0, [x11, #1600]
	str	q0, [x11, #1568]
	str	q0, [x11, #1536]
	ldr	q0, [x11, #2048]
	str	q1, [x11, #1520]
	str	q1, [x11, #1488]
	str	q1, [x11, #1456]
	str	q1, [x11, #1424]
	str	q1, [x11, #1392]
	str	q1, [x11, #1360]
	str	q1, [x11, #1328]
	str	q1, [x11, #1296]
	ldr	q1, [x11, #2064]
	str	q0, [x11, #1504]
	str	q0, [x11, #1472]
	str	q0, [x11, #1440]
	str	q0, [x11, #1408]
	str	q0, [x11, #1376]
	str	q0, [x11, #1344]
	str	q0, [x11, #1312]
	str	q0, [x11, #1280]
	ldr	q0, [x11, #2048]
	str	q1, [x11, #1264]
	ldr	q1, [x11, #2064]
	str	q0, [x11, #1248]
	ldr	q0, [x11, #2048]
	str	q1, [x11, #1232]
	ldr	q1, [x11, #2064]
	str	q0, [x11, #1216]
	ldr	q0, [x11, #2048]
	str	q1, [x11, #1200]
	ldr	q1, [x11, #2064]
	str	q0, [x11, #1184]
	ldr	q0, [x11, #2048]
	str	q1, [x11, #1168]
	ldr	q1, [x11, #2064]
	str	q0, [x11, #1152]
	ldr	q0, [x11, #2048]
	str	q1, [x11, #1136]
	ldr	q1, [x11, #2064]
	str	q0, [x11, #1120]
	ldr	q0, [x11, #2048]
	str	q1, [x11, #1104]
	ldr	q1, [x11, #2064]
	str	q0, [x11, #1088]
	ldr	q0, [x11, #2048]
	str	q1, [x11, #1072]
	ldr	q1, [x11, #2064]
	str	q0, [x11, #1056]
	ldr	q0, [x11, #2048]
	str	q1, [x11, #1040]
	ldr	q1, [x11, #2064]
	stp	q1, q0, [x11, #1008]
	ldr	q0, [x11, #2048]
	ldr	q1, [x11, #2064]
	stp	q2, q0, [x11, #976]
	ldr	q0, [x11, #2048]
	ldr	q2, [x11, #2064]
	stp	q1, q0, [x11, #944]
	ldr	q0, [x11, #2048]
	ldr	q1, [x11, #2064]
	stp	q2, q0, [x11, #912]
	ldr	q0, [x11, #2048]
	ldr	q2, [x11, #2064]
	stp	q1, q0, [x11, #880]
	ldr	q0, [x11, #2048]
	ldr	q1, [x11, #2064]
	stp	q2, q0, [x11, #848]
	ldr	q0, [x11, #2048]
	ldr	q2, [x11, #2064]
	stp	q1, q0, [x11, #816]
	ldr	q0, [x11, #2048]
	ldr	q1, [x11, #2064]
	stp	q2, q0, [x11, #784]
	ldr	q0, [x11, #2048]
	ldr	q2, [x11, #2064]
	stp	q1, q0, [x11, #752]
	ldr	q0, [x11, #2048]
	ldr	q1, [x11, #2064]
	stp	q2, q0, [x11, #720]
	ldr	q0, [x11, #2048]
	ldr	q2, [x11, #2064]
	stp	q1, q0, [x11, #688]
	ldr	q0, [x11, #2048]
	ldr	q1, [x11, #2064]
	stp	q2, q0, [x11, #656]
	ldr	q0, [x11, #2048]
	ldr	q2, [x11, #2064]
	stp	q1, q0, [x11, #624]
	ldr	q0, [x11, #2048]
	ldr	q1, [x11, #2064]
	stp	q2, q0, [x11, #592]
	ldr	q0, [x11, #2048]
	ldr	q2, [x11, #2064]
	stp	q1, q0, [x11, #560]
	ldr	q0, [x11, #2048]
	ldr	q1, [x11, #2064]
	stp	q2, q0, [x11, #528]
	ldr	q0, [x11, #2048]
	ldr	q2, [x11, #2064]
	stp	q1, q0, [x11, #496]
	ldr	q0, [x11, #2048]
	ldr	q1, [x11, #2064]
	stp	q2, q0, [x11, #464]
	ldr	q0, [x11, #2048]
	ldr	q2, [x11, #2064]
	stp	q1, q0, [x11, #432]
	ldr	q0, [x11, #2048]
	ldr	q1, [x11, #2064]
	stp	q2, q0, [x11, #400]
	ldr	q0, [x11, #2048]
	ldr	q2, [x11, #2064]
	stp	q1, q0, [x11, #368]
	ldr	q0, [x11, #2048]
	ldr	q1, [x11, #2064]
	stp	q2, q0, [x11, #336]
	ldr	q0, [x11, #2048]
	ldr	q2, [x11, #2064]
	stp	q1, q0, [x11, #304]
	ldr	q0, [x11, #2048]
	ldr	q1, [x11, #2064]
	stp	q2, q0, [x11, #272]
	ldr	q0, [x11, #2048]
	ldr	q2, [x11, #2064]
	stp	q1, q0, [x11, #240]
	ldr	q0, [x11, #2048]
	ldr	q1, [x11, #2064]
	stp	q2, q0, [x11, #208]
	ldr	q0, [x11, #2048]
	ldr	q2, [x11, #2064]
	stp	q1, q0, [x11, #176]
	ldr	q0, [x11, #2048]
	ldr	q1, [x11, #2064]
	stp	q2, q0, [x11, #144]
	ldr	q0, [x11, #2048]
	ldr	q2, [x11, #2064]
	stp	q1, q0, [x11, #112]
	ldr	q0, [x11, #2048]
	ldr	q1, [x11, #2064]
	stp	q2, q0, [x11, #80]
	ldr	q0, [x11, #2048]
	ldr	q2, [x11, #2064]
	stp	q1, q0, [x11, #48]
	ldr	q0, [x11, #2048]
	stp	q2, q0, [x11, #16]
	ldr	q0, [x11, #2048]
	str	q0, [x11]
	add	x10, x10, #64
	sub	x12, x9, #64
	sub	x11, x23, x10
	cmp	x11, #64
	b.ls	.Lcovretin_BB_012d3dbe_15
.Lcovretin_BB_012d3dbe_13:
	add	x11, x21, x10, lsl #5
	cmn	x10, #1
	mov	x9, x12
	b.eq	.Lcovretin_BB_012d3dbe_12
	ldp	q0, q1, [x11, #32]
	stp	q0, q1, [x11]
	ldp	q0, q2, [x11, #64]
	stp	q0, q2, [x11, #32]
	ldp	q1, q0, [x11, #96]
	stp	q1, q0, [x11, #64]
	ldp	q0, q2, [x11, #128]
	stp	q0, q2, [x11, #96]
	ldp	q0, q1, [x11, #160]
	stp	q0, q1, [x11, #128]
	ldp	q2, q1, [x11, #192]
	stp	q2, q1, [x11, #160]
	ldp	q1, q0, [x11, #224]
	stp	q1, q0, [x11, #192]
	ldp	q2, q0, [x11, #256]
	stp	q2, q0, [x11, #224]
	ldp	q1, q0, [x11, #288]
	stp	q1, q0, [x11, #256]
	ldp	q2, q0, [x11, #320]
	stp	q2, q0, [x11, #288]
	ldp	q1, q0, [x11, #352]
	stp	q1, q0, [x11, #320]
	ldp	q2, q0, [x11, #384]
	stp	q2, q0, [x11, #352]
	ldp	q1, q0, [x11, #416]
	stp	q1, q0, [x11, #384]
	ldp	q2, q0, [x11, #448]
	stp	q2, q0, [x11, #416]
	ldp	q1, q0, [x11, #480]
	stp	q1, q0, [x11, #448]
	ldp	q2, q0, [x11, #512]
	stp	q2, q0, [x11, #480]
	ldp	q1, q0, [x11, #544]
	stp	q1, q0, [x11, #512]
	ldp	q2, q0, [x11, #576]
	stp	q2, q0, [x11, #544]
	ldp	q1, q0, [x11, #608]
	stp	q1, q0, [x11, #576]
	ldp	q2, q0, [x11, #640]
	stp	q2, q0, [x11, #608]
	ldp	q1, q0, [x11, #672]
	stp	q1, q0, [x11, #640]
	ldp	q2, q0, [x11, #704]
	stp	q2, q0, [x11, #672]
	ldp	q1, q0, [x11, #736]
	stp	q1, q0, [x11, #704]
	ldp	q2, q0, [x11, #768]
	stp	q2, q0, [x11, #736]
	ldp	q1, q0, [x11, #800]
	stp	q1, q0, [x11, #768]
	ldp	q2, q0, [x11, #832]
	stp	q2, q0, [x11, #800]
	ldp	q1, q0, [x11, #864]
	stp	q1, q0, [x11, #832]
	ldp	q2, q0, [x11, #896]
	stp	q2, q0, [x11, #864]
	ldp	q1, q0, [x11, #928]
	stp	q1, q0, [x11, #896]
	ldp	q2, q0, [x11, #960]
	stp	q2, q0, [x11, #928]
	ldp	q1, q0, [x11, #992]
	ldr	q2, [x11, #1040]
	stp	q1, q0, [x11, #960]
	ldr	q0, [x11, #1024]
	ldr	q1, [x11, #1072]
	stp	q0, q2, [x11, #992]
	ldr	q0, [x11, #1056]
	str	q1, [x11, #1040]
	ldr	q1, [x11, #1104]
	str	q0, [x11, #1024]
	ldr	q0, [x11, #1088]
	str	q1, [x11, #1072]
	ldr	q1, [x11, #1136]
	str	q0, [x11, #1056]
	ldr	q0, [x11, #1120]
	str	q1, [x11, #1104]
	ldr	q1, [x11, #1168]
	str	q0, [x11, #1088]
	ldr	q0, [x11, #1152]
	str	q1, [x11, #1136]
	ldr	q1, [x11, #1200]
	str	q0, [x11, #1120]
	ldr	q0, [x11, #1184]
	str	q1, [x11, #1168]
	ldr	q1, [x11, #1232]
	str	q0, [x11, #1152]
	ldr	q0, [x11, #1216]
	str	q1, [x11, #1200]
	ldr	q1, [x11, #1264]
	str	q0, [x11, #1184]
	ldr	q0, [x11, #1248]
	str	q1, [x11, #1232]
	ldr	q1, [x11, #1296]
	str	q0, [x11, #1216]
	ldr	q0, [x11, #1280]
	str	q1, [x11, #1264]
	ldr	q1, [x11, #1328]
	str	q0, [x11, #1248]
	ldr	q0, [x11, #1312]
	str	q1, [x11, #1296]
	ldr	q1, [x11, #1360]
	str	q0, [x11, #1280]
	ldr	q0, [x11, #1344]
	str	q1, [x11, #1328]
	ldr	q1, [x11, #1392]
	str	q0, [x11, #1312]
	ldr	q0, [x11, #1376]
	str	q1, [x11, #1360]
	ldr	q1, [x11, #1424]
	str	q0, [x11, #1344]
	ldr	q0, [x11, #1408]
	str	q1, [x11, #1392]
	ldr	q1, [x11, #1456]
	str	q0, [x11, #1376]
	ldr	q0, [x11, #1440]
	str	q1, [x11, #1424]
	ldr	q1, [x11, #1488]
	str	q0, [x11, #1408]
	ldr	q0, [x11, #1472]
	str	q1, [x11, #1456]
	ldr	q1, [x11, #1520]
	str	q0, [x11, #1440]
	ldr	q0, [x11, #1504]
	str	q1, [x11, #1488]
	ldr	q1, [x11, #1552]
	str	q0, [x11, #1472]
	ldr	q0, [x11, #1536]
	str	q1, [x11, #1520]
	ldr	q1, [x11, #1584]
	str	q0, [x11, #1504]
	ldr	q0, [x11, #1568]
	str	q1, [x11, #1552]
	ldr	q1, [x11, #1616]
	str	q0, [x11, #1536]
	ldr	q0, [x11, #1600]
	str	q1, [x11, #1584]
	ldr	q1, [x11, #1648]
	str	q0, [x11, #1568]
	ldr	q0, [x11, #1632]
	str	q1, [x11, #1616]
	ldr	q1, [x11, #1680]
	str	q0, [x11, #1600]
	ldr	q0, [x11, #1664]
	str	q1, [x11, #1648]
	ldr	q1, [x11, #1712]
	str	q0, [x11, #1632]
	ldr	q0, [x11, #1696]
	str	q1, [x11, #1680]
	ldr	q1, [x11, #1744]
	str	q0, [x11, #1664]
	ldr	q0, [x11, #1728]
	str	q1, [x11, #1712]
	ldr	q1, [x11, #1776]
	str	q0, [x11, #1696]
	ldr	q0, [x11, #1760]
	str	q1, [x11, #1744]
	ldr	q1, [x11, #1808]
	str	q0, [x11, #1728]
	ldr	q0, [x11, #1792]
	str	q1, [x11, #1776]
	ldr	q1, [x11, #1840]
	str	q0, [x11, #1760]
	ldr	q0, [x11, #1824]
	str	q1, [x11, #1808]
	ldr	q1, [x11, #1872]
	str	q0, [x11, #1792]
	ldr	q0, [x11, #1856]
	str	q1, [x11, #1840]
	ldr	q1, [x11, #1904]
	str	q0, [x11, #1824]
	ldr	q0, [x11, #1888]
	str	q1, [x11, #1872]
	ldr	q1, [x11, #1936]
	str	q0, [x11, #1856]
	ldr	q0, [x11, #1920]
	str	q1, [x11, #1904]
	ldr	q1, [x11, #1968]
	str	q0, [x11, #1888]
	ldr	q0, [x11, #1952]
	str	q1, [x11, #1936]
	ldr	q1, [x11, #2000]
	str	q0, [x11, #1920]
	ldr	q0, [x11, #1984]
	str	q1, [x11, #1968]
	ldr	q1, [x11, #2032]
	str	q0, [x11, #1952]
	ldr	q0, [x11, #2016]
	str	q1, [x11, #2000]
	ldr	q1, [x11, #2064]
	str	q0, [x11, #1984]
	ldr	q0, [x11, #2048]
	str	q1, [x11, #2032]
	str	q0, [x11, #2016]
	add	x10, x10, #64
	sub	x12, x9, #64
	sub	x11, x23, x10
	cmp	x11, #64
	b.hi	.Lcovretin_BB_012d3dbe_13
.Lcovretin_BB_012d3dbe_15:
	cmn	x10, #1
	b.eq	.Lcovretin_BB_012d3dbe_21
	lsl	x9, x10, #5
.Lcovretin_BB_012d3dbe_17:
	cmp	x23, x10
	b.eq	.Lcovretin_BB_012d3dbe_23
	lsl	x2, x11, #5
	add	x8, x21, x9
	mov	x24, x0
	add	x1, x8, #32
	mov	x0, x8
	bl	memmove
	mov	x0, x24
	b	.Lcovretin_BB_012d3dbe_23
.Lcovretin_BB_012d3dbe_19:
	sub	x8, x10, x9
.Lcovretin_BB_012d3dbe_20:
	ldp	q1, q0, [x8], #-32
	sub	x11, x11, #1
	stp	q1, q0, [x10], #-32
	cbnz	x11, .Lcovretin_BB_012d3dbe_20
	b	.Lcovretin_BB_012d3dbe_23
.Lcovretin_BB_012d3dbe_21:
	add	x8, x8, x21
	sub	x8, x8, #32
.Lcovretin_BB_012d3dbe_22:
	ldp	q0, q1, [x8]
	sub	x10, x8, #32
	subs	x9, x9, #1
	stp	q0, q1, [x8, #-32]
	mov	x8, x10
	b.ne	.Lcovretin_BB_012d3dbe_22
.Lcovretin_BB_012d3dbe_23:
	ldr	x8, [x19, #32]
	stp	x21, x23, [x19]
	str	x22, [x19, #16]
	cbz	x8, .Lcovretin_BB_012d3dbe_30
	mov	x9, xzr
	mov	x10, xzr
	b	.Lcovretin_BB_012d3dbe_26
.Lcovretin_BB_012d3dbe_25:
	add	x10, x10, #1
	cmp	x8, x10
	b.eq	.Lcovretin_BB_012d3dbe_28
.Lcovretin_BB_012d3dbe_26:
	ldr	x11, [x19, #24]
	ldrh	w12, [x11, x10, lsl #1]
	cmp	x12, x20
	b.eq	.Lcovretin_BB_012d3dbe_25
	cmp	x20, x12
	sbc	w12, w12, wzr
	strh	w12, [x11, x9, lsl #1]
	add	x9, x9, #1
	b	.Lcovretin_BB_012d3dbe_25
.Lcovretin_BB_012d3dbe_28:
	ldr	x8, [x19, #32]
	cmp	x8, x9
	b.ls	.Lcovretin_BB_012d3dbe_30
	str	x9, [x19, #32]
.Lcovretin_BB_012d3dbe_30:
	str	x19, [x0]
	mov	w0, wzr
	.cfi_def_cfa wsp, 64
	ldp	x20, x19, [sp, #48]
	ldp	x22, x21, [sp, #32]
	ldp	x24, x23, [sp, #16]
	ldp	x29, x30, [sp], #64
	.cfi_def_cfa_offset 0
	.cfi_restore w19
	.cfi_restore w20
	.cfi_restore w21
	.cfi_restore w22
	.cfi_restore w23
	.cfi_restore w24
	.cfi_restore w30
	.cfi_restore w29
	hint	#29
	.cfi_negate_ra_state
	ret
.Lcovretin_func_end_012d3dbe:
	.size	covretin_queue_remove_region, .Lcovretin_func_end_012d3dbe-covretin_queue_remove_region
	.cfi_endproc

	.section	.text.covretin_queue_resubmit,"ax",@progbits
	.globl	covretin_queue_resubmit
	.p2align	2
	.type	covretin_queue_resubmit,@function
covretin_queue_resubmit:
	.cfi_startproc
	hint	#34
	ldr	x8, [x0]
	str	xzr, [x0]
	cbz	x8, .Lcovretin_BB_90c46ff7_4
	ldrb	w9, [x8, #56]
	cbz	w9, .Lcovretin_BB_90c46ff7_5
	cmp	w9, #2
	b.ne	.Lcovretin_BB_90c46ff7_6
	str	x8, [x0]
	mov	w0, #104
	ret
.Lcovretin_BB_90c46ff7_4:
	mov	w0, #101
	ret
.Lcovretin_BB_90c46ff7_5:
	str	x8, [x0]
	mov	w0, #103
	ret
.Lcovretin_BB_90c46ff7_6:
	ldrb	w9, [x8, #184]
	tbz	w9, #0, .Lcovretin_BB_90c46ff7_8
	str	x8, [x0]
	mov	w0, #20
	ret
.Lcovretin_BB_90c46ff7_8:
	ldrh	w11, [x8, #64]
	cmp	w11, w1, uxth
	b.ls	.Lcovretin_BB_90c46ff7_11
	ldr	x9, [x8, #112]
	and	x10, x1, #0xffff
	ldrb	w12, [x9, x10]
	tbz	w12, #0, .Lcovretin_BB_90c46ff7_12
	mov	w9, #1
	strb	w9, [x8, #184]
	str	x8, [x0]
	mov	w0, #19
	ret
.Lcovretin_BB_90c46ff7_11:
	mov	w9, #1
	strb	w9, [x8, #184]
	str	x8, [x0]
	mov	w0, #11
	ret
.Lcovretin_BB_90c46ff7_12:
	ldr	x13, [x8, #72]
	ldrb	w14, [x8, #97]
	strh	w11, [x8, #144]
	mov	w11, #1
	strh	w1, [x8, #148]
	str	x13, [x8, #136]
	ldrh	w13, [x8, #182]
	strh	w11, [x8, #146]
	strh	w13, [x8, #176]
	mov	w13, #508
	strh	w13, [x8, #178]
	ldrh	w13, [x8, #98]
	stp	xzr, xzr, [x8, #160]
	str	xzr, [x8, #152]
	strb	wzr, [x8, #180]
	strb	w14, [x8, #181]
	strb	w11, [x9, x10]
	strh	w13, [x8, #98]
	str	x8, [x0]
	mov	w0, wzr
	ret
.Lcovretin_func_end_90c46ff7:
	.size	covretin_queue_resubmit, .Lcovretin_func_end_90c46ff7-covretin_queue_resubmit
	.cfi_endproc

	.section	.text.covretin_queue_resubmit_packed,"ax",@progbits
	.globl	covretin_queue_resubmit_packed
	.p2align	2
	.type	covretin_queue_resubmit_packed,@function
covretin_queue_resubmit_packed:
	.cfi_startproc
	hint	#34
	ldr	x8, [x0]
	str	xzr, [x0]
	cbz	x8, .Lcovretin_BB_2bc84654_4
	ldrb	w9, [x8, #56]
	cbz	w9, .Lcovretin_BB_2bc84654_5
	cmp	w9, #1
	b.ne	.Lcovretin_BB_2bc84654_6
	str	x8, [x0]
	mov	w0, #104
	ret
.Lcovretin_BB_2bc84654_4:
	mov	w0, #101
	ret
.Lcovretin_BB_2bc84654_5:
	str	x8, [x0]
	mov	w0, #103
	ret
.Lcovretin_BB_2bc84654_6:
	ldrb	w9, [x8, #187]
	tbz	w9, #0, .Lcovretin_BB_2bc84654_8
	str	x8, [x0]
	mov	w0, #20
	ret
.Lcovretin_BB_2bc84654_8:
	ldrh	w10, [x8, #64]
	ldrh	w9, [x8, #98]
	cmp	w10, w9
	b.ls	.Lcovretin_BB_2bc84654_10
	ldr	x12, [x8, #72]
	strh	w9, [x8, #148]
	ldrh	w9, [x8, #182]
	strh	w10, [x8, #144]
	mov	w10, #1
	str	x12, [x8, #136]
	ldrb	w12, [x8, #97]
	strh	w9, [x8, #176]
	mov	w9, #508
	strh	w10, [x8, #146]
	stp	xzr, xzr, [x8, #160]
	str	xzr, [x8, #152]
	strh	w9, [x8, #178]
	strb	wzr, [x8, #180]
	strb	w12, [x8, #181]
	strh	wzr, [x8, #184]
	strb	w10, [x8, #186]
	str	x8, [x0]
	mov	w0, wzr
	ret
.Lcovretin_BB_2bc84654_10:
	str	x8, [x0]
	mov	w0, #11
	ret
.Lcovretin_func_end_2bc84654:
	.size	covretin_queue_resubmit_packed, .Lcovretin_func_end_2bc84654-covretin_queue_resubmit_packed
	.cfi_endproc

	.section	.text.covretin_queue_set_regions,"ax",@progbits
	.globl	covretin_queue_set_regions
	.p2align	2
	.type	covretin_queue_set_regions,@function
covretin_queue_set_regions:
	.cfi_startproc
	hint	#25
	.cfi_negate_ra_state
	sub	sp, sp, #192
	.cfi_def_cfa_offset 192
	stp	x29, x30, [sp, #96]
	stp	x28, x27, [sp, #112]
	stp	x26, x25, [sp, #128]
	stp	x24, x23, [sp, #144]
	stp	x22, x21, [sp, #160]
	stp	x20, x19, [sp, #176]
	add	x29, sp, #96
	.cfi_def_cfa w29, 96
	.cfi_offset w19, -8
	.cfi_offset w20, -16
	.cfi_offset w21, -24
	.cfi_offset w22, -32
	.cfi_offset w23, -40
	.cfi_offset w24, -48
	.cfi_offset w25, -56
	.cfi_offset w26, -64
	.cfi_offset w27, -72
	.cfi_offset w28, -80
	.cfi_offset w30, -88
	.cfi_offset w29, -96
	.cfi_remember_state
	ldr	x21, [x0]
	cmp	x1, #0
	mov	w8, #4096
	csel	x8, x8, xzr, eq
	str	xzr, [x0]
	cbz	x21, .Lcovretin_BB_a427e122_93
	mov	x19, x0
	sub	x9, x29, #8
	stp	xzr, xzr, [sp, #72]
	stp	x9, xzr, [sp, #32]
	stp	xzr, x9, [sp, #48]
	str	xzr, [sp, #64]
	cbz	x2, .Lcovretin_BB_a427e122_102
	add	x8, x1, x8
	mov	x23, xzr
	mov	x20, xzr
	str	x8, [sp, #24]
	sub	x8, x29, #8
.Lcovretin_BB_a427e122_3:
	ldr	x9, [sp, #24]
	add	x9, x9, x20, lsl #5
	ldr	x25, [x9, #8]
	cbz	x25, .Lcovretin_BB_a427e122_112
	ldr	x27, [x9]
	ldp	x26, x24, [x9, #16]
	mvn	x10, x25
	cmp	x27, x10
	ccmp	x26, x10, #2, ls
	ccmp	x24, x10, #2, ls
	b.hi	.Lcovretin_BB_a427e122_112
	cmp	x23, #508
	b.hi	.Lcovretin_BB_a427e122_113
	cbz	x23, .Lcovretin_BB_a427e122_12
	add	x9, x8, #16
	mov	x10, x23
	b	.Lcovretin_BB_a427e122_9
.Lcovretin_BB_a427e122_8:
	subs	x10, x10, #1
	b.eq	.Lcovretin_BB_a427e122_12
.Lcovretin_BB_a427e122_9:
	ldp	x12, x11, [x9, #-16]
	subs	x13, x12, x25
	cset	w14, hs
	cmp	x27, x13
	csel	w13, wzr, w14, hi
	subs	x14, x27, x11
	ccmp	x12, x14, #2, hs
	ccmp	w13, #0, #0, hi
	b.eq	.Lcovretin_BB_a427e122_94
	ldr	x13, [x9], #32
	subs	x12, x13, x25
	cset	w14, hs
	cmp	x26, x12
	csel	w12, wzr, w14, hi
	subs	x11, x26, x11
	ccmp	x13, x11, #2, hs
	b.ls	.Lcovretin_BB_a427e122_8
	tbnz	w12, #0, .Lcovretin_BB_a427e122_8
	b	.Lcovretin_BB_a427e122_94
.Lcovretin_BB_a427e122_12:
	ldr	x17, [sp, #64]
	cbz	x17, .Lcovretin_BB_a427e122_22
	ldr	x22, [sp, #56]
	mov	x28, xzr
	mov	x9, x17
	b	.Lcovretin_BB_a427e122_15
.Lcovretin_BB_a427e122_14:
	mov	x9, x10
	cmp	x28, x10
	b.hs	.Lcovretin_BB_a427e122_18
.Lcovretin_BB_a427e122_15:
	sub	x10, x9, x28
	add	x10, x28, x10, lsr #1
	ldrh	w11, [x22, x10, lsl #1]
	cmp	x23, x11
	b.ls	.Lcovretin_BB_a427e122_14
	lsl	x11, x11, #5
	ldr	x11, [x8, x11]
	cmp	x11, x27
	b.hi	.Lcovretin_BB_a427e122_14
	add	x28, x10, #1
	cmp	x28, x9
	b.lo	.Lcovretin_BB_a427e122_15
.Lcovretin_BB_a427e122_18:
	ldr	x18, [sp, #72]
	cmp	x17, x18
	b.hs	.Lcovretin_BB_a427e122_25
	cmn	x28, #1
	b.eq	.Lcovretin_BB_a427e122_29
	subs	x8, x17, x28
	b.ne	.Lcovretin_BB_a427e122_37
	strh	w23, [x22, x17, lsl #1]
	b	.Lcovretin_BB_a427e122_80
.Lcovretin_BB_a427e122_22:
	ldr	x18, [sp, #72]
	cbz	x18, .Lcovretin_BB_a427e122_24
	ldr	x22, [sp, #56]
	strh	w23, [x22, xzr, lsl #1]
	b	.Lcovretin_BB_a427e122_80
.Lcovretin_BB_a427e122_24:
	mov	x28, xzr
.Lcovretin_BB_a427e122_25:
	cmp	x18, x17
	b.eq	.Lcovretin_BB_a427e122_44
	ldr	x22, [sp, #56]
	cmn	x28, #1
	b.eq	.Lcovretin_BB_a427e122_46
.Lcovretin_BB_a427e122_27:
	subs	x8, x17, x28
	b.eq	.Lcovretin_BB_a427e122_79
	add	x1, x22, x28, lsl #1
	lsl	x8, x8, #1
	str	x2, [sp, #16]
	stp	x19, x17, [sp]
	mov	x19, x18
	add	x0, x1, #2
	mov	x2, x8
	bl	memmove
	ldp	x17, x2, [sp, #8]
	mov	x18, x19
	ldr	x19, [sp]
	b	.Lcovretin_BB_a427e122_79
.Lcovretin_BB_a427e122_29:
	cmp	x17, #1024
	add	x9, x17, #1
	b.lo	.Lcovretin_BB_a427e122_39
	mov	x10, xzr
	mov	x13, xzr
	add	x11, x22, #2014
	mov	x12, x22
	b	.Lcovretin_BB_a427e122_32
.Lcovretin_BB_a427e122_31:
	add	x13, x8, #1024
	add	x10, x10, #1
	add	x11, x11, #2048
	sub	x14, x9, x13
	add	x12, x12, #2048
	cmp	x14, #1024
	b.ls	.Lcovretin_BB_a427e122_40
.Lcovretin_BB_a427e122_32:
	mov	x8, x13
	cbz	x13, .Lcovretin_BB_a427e122_35
	mov	w13, #1024
	mov	x14, x11
.Lcovretin_BB_a427e122_34:
	ldp	q1, q0, [x14]
	sub	x13, x13, #16
	stur	q0, [x14, #18]
	stur	q1, [x14, #2]
	sub	x14, x14, #32
	cbnz	x13, .Lcovretin_BB_a427e122_34
	b	.Lcovretin_BB_a427e122_31
.Lcovretin_BB_a427e122_35:
	add	x13, x22, x10, lsl #11
	mov	x14, xzr
	ldurh	w13, [x13, #-2]
.Lcovretin_BB_a427e122_36:
	strh	w13, [x12, x14]
	add	x14, x14, #2
	cmp	x14, #2048
	b.ne	.Lcovretin_BB_a427e122_36
	b	.Lcovretin_BB_a427e122_31
.Lcovretin_BB_a427e122_37:
	add	x1, x22, x28, lsl #1
	lsl	x8, x8, #1
	stp	x17, x2, [sp, #8]
	str	x18, [sp]
	add	x0, x1, #2
	mov	x2, x8
	bl	memmove
	ldp	x18, x17, [sp]
	ldr	x2, [sp, #16]
.Lcovretin_BB_a427e122_38:
	strh	w23, [x22, x28, lsl #1]
	b	.Lcovretin_BB_a427e122_80
.Lcovretin_BB_a427e122_39:
	mov	x8, x22
	b	.Lcovretin_BB_a427e122_63
.Lcovretin_BB_a427e122_40:
	cbz	x13, .Lcovretin_BB_a427e122_62
	cmp	x9, x13
	b.eq	.Lcovretin_BB_a427e122_65
	sub	x9, x17, #1023
	mov	w10, #1024
	cmp	x9, #1024
	csel	x10, x9, x10, lo
	sub	x10, x17, x10
	and	x12, x10, #0xfffffffffffffc00
	sub	x11, x9, x12
	cmp	x11, #4
	b.hs	.Lcovretin_BB_a427e122_68
	mov	x10, xzr
	b	.Lcovretin_BB_a427e122_91
.Lcovretin_BB_a427e122_44:
	add	x8, sp, #32
	str	x24, [sp, #16]
	mov	x22, x2
	add	x0, x8, #24
	bl	"std_alloc::vec::Vec::grow_amortized::<#443caa9c7f3d02a7>"
	cbz	w0, .Lcovretin_BB_a427e122_114
	ldp	x17, x18, [sp, #64]
	mov	x2, x22
	ldr	x24, [sp, #16]
	ldr	x22, [sp, #56]
	cmn	x28, #1
	b.ne	.Lcovretin_BB_a427e122_27
.Lcovretin_BB_a427e122_46:
	add	x9, x17, #1
	mov	x8, x22
	add	x13, x17, #1
	cmp	x9, #1025
	b.lo	.Lcovretin_BB_a427e122_59
	mov	x10, xzr
	mov	x14, xzr
	add	x11, x22, #2014
	mov	x12, x22
	b	.Lcovretin_BB_a427e122_49
.Lcovretin_BB_a427e122_48:
	add	x14, x8, #1024
	add	x10, x10, #1
	add	x11, x11, #2048
	sub	x13, x9, x14
	add	x12, x12, #2048
	cmp	x13, #1024
	b.ls	.Lcovretin_BB_a427e122_54
.Lcovretin_BB_a427e122_49:
	mov	x8, x14
	cbz	x14, .Lcovretin_BB_a427e122_52
	mov	w13, #1024
	mov	x14, x11
.Lcovretin_BB_a427e122_51:
	ldp	q1, q0, [x14]
	sub	x13, x13, #16
	stur	q0, [x14, #18]
	stur	q1, [x14, #2]
	sub	x14, x14, #32
	cbnz	x13, .Lcovretin_BB_a427e122_51
	b	.Lcovretin_BB_a427e122_48
.Lcovretin_BB_a427e122_52:
	add	x13, x22, x10, lsl #11
	ldurh	w13, [x13, #-2]
.Lcovretin_BB_a427e122_53:
	strh	w13, [x12, x14]
	add	x14, x14, #2
	cmp	x14, #2048
	b.ne	.Lcovretin_BB_a427e122_53
	b	.Lcovretin_BB_a427e122_48
.Lcovretin_BB_a427e122_54:
	cbz	x14, .Lcovretin_BB_a427e122_58
	cmp	x9, x14
	b.eq	.Lcovretin_BB_a427e122_79
	and	x9, x17, #0x3ff
	cmp	x9, #3
	b.hs	.Lcovretin_BB_a427e122_66
	mov	x9, xzr
	b	.Lcovretin_BB_a427e122_77
.Lcovretin_BB_a427e122_58:
	add	x8, x22, x14, lsl #1
.Lcovretin_BB_a427e122_59:
	cbz	x9, .Lcovretin_BB_a427e122_79
	ldurh	w9, [x8, #-2]
.Lcovretin_BB_a427e122_61:
	subs	x13, x13, #1
	strh	w9, [x8], #2
	b.ne	.Lcovretin_BB_a427e122_61
	b	.Lcovretin_BB_a427e122_79
.Lcovretin_BB_a427e122_62:
	add	x8, x22, x13, lsl #1
	mov	x9, x14
.Lcovretin_BB_a427e122_63:
	ldurh	w10, [x8, #-2]
.Lcovretin_BB_a427e122_64:
	subs	x9, x9, #1
	strh	w10, [x8], #2
	b.ne	.Lcovretin_BB_a427e122_64
.Lcovretin_BB_a427e122_65:
	mov	x28, #-1
	strh	w23, [x22, x28, lsl #1]
	b	.Lcovretin_BB_a427e122_80
.Lcovretin_BB_a427e122_66:
	cmp	x9, #15
	add	x10, x9, #1
	b.hs	.Lcovretin_BB_a427e122_70
	mov	x9, xzr
	b	.Lcovretin_BB_a427e122_74
.Lcovretin_BB_a427e122_68:
	cmp	x11, #16
	b.hs	.Lcovretin_BB_a427e122_84
	mov	x10, xzr
	b	.Lcovretin_BB_a427e122_88
.Lcovretin_BB_a427e122_70:
	add	x12, x22, x17, lsl #1
	and	x11, x10, #0xc
	and	x9, x10, #0x7f0
	and	x13, x10, #0x7f0
	sub	x12, x12, #16
.Lcovretin_BB_a427e122_71:
	ldp	q1, q0, [x12, #-16]
	sub	x13, x13, #16
	stur	q0, [x12, #2]
	stur	q1, [x12, #-14]
	sub	x12, x12, #32
	cbnz	x13, .Lcovretin_BB_a427e122_71
	cmp	x10, x9
	b.eq	.Lcovretin_BB_a427e122_79
	cbz	x11, .Lcovretin_BB_a427e122_77
.Lcovretin_BB_a427e122_74:
	mov	x11, x9
	and	x9, x10, #0x7fc
	sub	x12, x22, x11, lsl #1
	sub	x11, x11, x9
	add	x12, x12, x17, lsl #1
	sub	x12, x12, #8
.Lcovretin_BB_a427e122_75:
	ldr	d0, [x12]
	add	x11, x11, #4
	stur	d0, [x12, #2]
	sub	x12, x12, #8
	cbnz	x11, .Lcovretin_BB_a427e122_75
	cmp	x10, x9
	b.eq	.Lcovretin_BB_a427e122_79
.Lcovretin_BB_a427e122_77:
	sub	x10, x22, x9, lsl #1
	sub	x8, x17, x8
	sub	x8, x8, x9
	add	x10, x10, x17, lsl #1
	sub	x8, x8, #1023
	mov	x9, x10
.Lcovretin_BB_a427e122_78:
	ldrh	w11, [x9, #-2]!
	subs	x8, x8, #1
	strh	w11, [x10]
	mov	x10, x9
	b.ne	.Lcovretin_BB_a427e122_78
.Lcovretin_BB_a427e122_79:
	strh	w23, [x22, x28, lsl #1]
	ldr	x23, [sp, #40]
.Lcovretin_BB_a427e122_80:
	ldr	x8, [sp, #48]
	add	x9, x17, #1
	str	x18, [sp, #72]
	stp	x22, x9, [sp, #56]
	cmp	x8, x23
	b.eq	.Lcovretin_BB_a427e122_82
.Lcovretin_BB_a427e122_81:
	ldr	x8, [sp, #32]
	add	x20, x20, #1
	cmp	x20, x2
	add	x9, x8, x23, lsl #5
	add	x23, x23, #1
	str	x23, [sp, #40]
	stp	x27, x25, [x9]
	stp	x26, x24, [x9, #16]
	b.ne	.Lcovretin_BB_a427e122_3
	b	.Lcovretin_BB_a427e122_102
.Lcovretin_BB_a427e122_82:
	add	x0, sp, #32
	mov	x22, x2
	bl	"std_alloc::vec::Vec::grow_amortized::<#a2eddaad9eb283e4>"
	cbz	w0, .Lcovretin_BB_a427e122_114
	ldr	x23, [sp, #40]
	mov	x2, x22
	b	.Lcovretin_BB_a427e122_81
.Lcovretin_BB_a427e122_84:
	add	x14, x22, x17, lsl #1
	and	x13, x9, #0xf
	sub	x10, x11, x13
	sub	x15, x11, x13
	sub	x14, x14, #16
.Lcovretin_BB_a427e122_85:
	ldp	q1, q0, [x14, #-16]
	sub	x15, x15, #16
	stur	q0, [x14, #2]
	stur	q1, [x14, #-14]
	sub	x14, x14, #32
	cbnz	x15, .Lcovretin_BB_a427e122_85
	cbz	x13, .Lcovretin_BB_a427e122_65
	cmp	x13, #4
	b.lo	.Lcovretin_BB_a427e122_91
.Lcovretin_BB_a427e122_88:
	sub	x14, x22, x10, lsl #1
	and	x13, x9, #0x3
	add	x10, x10, x12
	add	x10, x10, x13
	add	x12, x14, x17, lsl #1
	sub	x14, x10, x17
	sub	x10, x11, x13
	add	x11, x14, #1023
	sub	x12, x12, #8
.Lcovretin_BB_a427e122_89:
	ldr	d0, [x12]
	add	x11, x11, #4
	stur	d0, [x12, #2]
	sub	x12, x12, #8
	cbnz	x11, .Lcovretin_BB_a427e122_89
	cbz	x13, .Lcovretin_BB_a427e122_65
.Lcovretin_BB_a427e122_91:
	sub	x11, x22, x10, lsl #1
	sub	x8, x9, x8
	sub	x8, x8, x10
	add	x11, x11, x17, lsl #1
	mov	x9, x11
.Lcovretin_BB_a427e122_92:
	ldrh	w10, [x9, #-2]!
	subs	x8, x8, #1
	mov	x28, #-1
	strh	w10, [x11]
	mov	x11, x9
	b.ne	.Lcovretin_BB_a427e122_92
	b	.Lcovretin_BB_a427e122_38
.Lcovretin_BB_a427e122_93:
	mov	w0, #101
	b	.Lcovretin_BB_a427e122_111
.Lcovretin_BB_a427e122_94:
	mov	w20, #1
.Lcovretin_BB_a427e122_95:
	ldr	x8, [sp, #48]
	cbz	x8, .Lcovretin_BB_a427e122_97
	ldr	x0, [sp, #32]
	bl	rattle_dealloc
.Lcovretin_BB_a427e122_97:
	ldr	x8, [sp, #72]
	cbz	x8, .Lcovretin_BB_a427e122_99
	ldr	x0, [sp, #56]
	bl	rattle_dealloc
.Lcovretin_BB_a427e122_99:
	cmp	w20, #1
	str	x21, [x19]
	b.gt	.Lcovretin_BB_a427e122_107
	cbnz	w20, .Lcovretin_BB_a427e122_109
	mov	w0, #1
	b	.Lcovretin_BB_a427e122_111
.Lcovretin_BB_a427e122_102:
	ldr	x8, [sp, #80]
	ldp	q0, q1, [sp, #32]
	ldr	x0, [x21]
	ldr	x22, [x21, #40]
	str	x8, [x21, #48]
	ldp	x8, x20, [x21, #16]
	stp	q0, q1, [x21]
	ldr	q0, [sp, #64]
	str	q0, [x21, #32]
	cbz	x8, .Lcovretin_BB_a427e122_104
	bl	rattle_dealloc
.Lcovretin_BB_a427e122_104:
	cbz	x22, .Lcovretin_BB_a427e122_106
	mov	x0, x20
	bl	rattle_dealloc
.Lcovretin_BB_a427e122_106:
	mov	w0, wzr
	str	x21, [x19]
	b	.Lcovretin_BB_a427e122_111
.Lcovretin_BB_a427e122_107:
	cmp	w20, #2
	b.ne	.Lcovretin_BB_a427e122_110
	mov	w0, #3
	b	.Lcovretin_BB_a427e122_111
.Lcovretin_BB_a427e122_109:
	mov	w0, #2
	b	.Lcovretin_BB_a427e122_111
.Lcovretin_BB_a427e122_110:
	mov	w0, #24
.Lcovretin_BB_a427e122_111:
	.cfi_def_cfa wsp, 192
	ldp	x20, x19, [sp, #176]
	ldp	x22, x21, [sp, #160]
	ldp	x24, x23, [sp, #144]
	ldp	x26, x25, [sp, #128]
	ldp	x28, x27, [sp, #112]
	ldp	x29, x30, [sp, #96]
	add	sp, sp, #192
	.cfi_def_cfa_offset 0
	.cfi_restore w19
	.cfi_restore w20
	.cfi_restore w21
	.cfi_restore w22
	.cfi_restore w23
	.cfi_restore w24
	.cfi_restore w25
	.cfi_restore w26
	.cfi_restore w27
	.cfi_restore w28
	.cfi_restore w30
	.cfi_restore w29
	hint	#29
	.cfi_negate_ra_state
	ret
.Lcovretin_BB_a427e122_112:
	.cfi_restore_state
	mov	w20, wzr
	b	.Lcovretin_BB_a427e122_95
.Lcovretin_BB_a427e122_113:
	mov	w20, #2
	b	.Lcovretin_BB_a427e122_95
.Lcovretin_BB_a427e122_114:
	mov	w20, #22
	b	.Lcovretin_BB_a427e122_95
.Lcovretin_func_end_a427e122:
	.size	covretin_queue_set_regions, .Lcovretin_func_end_a427e122-covretin_queue_set_regions
	.cfi_endproc

	.section	.text.covretin_queue_start_packed,"ax",@progbits
	.globl	covretin_queue_start_packed
	.p2align	2
	.type	covretin_queue_start_packed,@function
covretin_queue_start_packed:
	.cfi_startproc
	hint	#34
	ldr	x8, [x0]
	str	xzr, [x0]
	cbz	x8, .Lcovretin_BB_813e8c72_18
	ldrh	w9, [x1, #24]
	sub	w10, w9, #1
	tbnz	w10, #15, .Lcovretin_BB_813e8c72_29
	hint	#25
	.cfi_negate_ra_state
	sub	sp, sp, #144
	.cfi_def_cfa_offset 144
	stp	x29, x30, [sp, #48]
	stp	x28, x27, [sp, #64]
	stp	x26, x25, [sp, #80]
	stp	x24, x23, [sp, #96]
	stp	x22, x21, [sp, #112]
	stp	x20, x19, [sp, #128]
	add	x29, sp, #48
	.cfi_def_cfa w29, 96
	.cfi_offset w19, -8
	.cfi_offset w20, -16
	.cfi_offset w21, -24
	.cfi_offset w22, -32
	.cfi_offset w23, -40
	.cfi_offset w24, -48
	.cfi_offset w25, -56
	.cfi_offset w26, -64
	.cfi_offset w27, -72
	.cfi_offset w28, -80
	.cfi_offset w30, -88
	.cfi_offset w29, -96
	.cfi_remember_state
	ldp	x18, x17, [x1]
	lsl	x3, x9, #4
	ldr	x2, [x8, #48]
	ldr	x15, [x8, #8]
	ldr	x12, [x1, #16]
	ldrh	w13, [x1, #26]
	ldrh	w23, [x1, #28]
	ldrb	w27, [x1, #30]
	cmp	x2, x15
	ldrb	w11, [x1, #31]
	b.hs	.Lcovretin_BB_813e8c72_6
	ldr	x16, [x8]
	lsl	x1, x2, #5
	add	x5, x16, x1
	ldr	x4, [x5, #16]
	subs	x4, x18, x4
	b.lo	.Lcovretin_BB_813e8c72_6
	ldr	x5, [x5, #8]
	subs	x5, x5, x3
	b.lo	.Lcovretin_BB_813e8c72_6
	cmp	x4, x5
	b.ls	.Lcovretin_BB_813e8c72_27
.Lcovretin_BB_813e8c72_6:
	ldr	x1, [x8, #32]
	cbz	x1, .Lcovretin_BB_813e8c72_19
	ldr	x16, [x8, #24]
	mov	x2, xzr
	b	.Lcovretin_BB_813e8c72_9
.Lcovretin_BB_813e8c72_8:
	mov	x1, x4
	cmp	x2, x4
	b.hs	.Lcovretin_BB_813e8c72_12
.Lcovretin_BB_813e8c72_9:
	sub	x4, x1, x2
	add	x4, x2, x4, lsr #1
	ldrh	w5, [x16, x4, lsl #1]
	cmp	x15, x5
	b.ls	.Lcovretin_BB_813e8c72_8
	ldr	x6, [x8]
	lsl	x5, x5, #5
	ldr	x5, [x6, x5]
	cmp	x5, x18
	b.hi	.Lcovretin_BB_813e8c72_8
	add	x2, x4, #1
	cmp	x2, x1
	b.lo	.Lcovretin_BB_813e8c72_9
.Lcovretin_BB_813e8c72_12:
	cbz	x2, .Lcovretin_BB_813e8c72_19
	add	x16, x16, x2, lsl #1
	ldurh	w2, [x16, #-2]
	cmp	x15, x2
	b.ls	.Lcovretin_BB_813e8c72_19
	ldr	x16, [x8]
	cbz	w9, .Lcovretin_BB_813e8c72_21
	lsl	x1, x2, #5
	add	x5, x16, x1
	ldr	x4, [x5, #16]
	subs	x4, x18, x4
	b.lo	.Lcovretin_BB_813e8c72_21
	ldr	x5, [x5, #8]
	subs	x5, x5, x3
	b.lo	.Lcovretin_BB_813e8c72_22
	cmp	x4, x5
	b.hi	.Lcovretin_BB_813e8c72_22
	b	.Lcovretin_BB_813e8c72_27
.Lcovretin_BB_813e8c72_18:
	.cfi_def_cfa wsp, 0
	.cfi_negate_ra_state
	.cfi_same_value w19
	.cfi_same_value w20
	.cfi_same_value w21
	.cfi_same_value w22
	.cfi_same_value w23
	.cfi_same_value w24
	.cfi_same_value w25
	.cfi_same_value w26
	.cfi_same_value w27
	.cfi_same_value w28
	.cfi_same_value w30
	.cfi_same_value w29
	mov	w0, #101
	ret
.Lcovretin_BB_813e8c72_19:
	.cfi_restore_state
	.cfi_remember_state
	cbz	x15, .Lcovretin_BB_813e8c72_81
	ldr	x16, [x8]
.Lcovretin_BB_813e8c72_21:
	cbz	w9, .Lcovretin_BB_813e8c72_81
.Lcovretin_BB_813e8c72_22:
	mov	x1, xzr
	mov	x2, xzr
	b	.Lcovretin_BB_813e8c72_24
.Lcovretin_BB_813e8c72_23:
	add	x2, x2, #1
	add	x1, x1, #32
	cmp	x15, x2
	b.eq	.Lcovretin_BB_813e8c72_81
.Lcovretin_BB_813e8c72_24:
	add	x5, x16, x1
	ldr	x4, [x5, #16]
	subs	x4, x18, x4
	b.lo	.Lcovretin_BB_813e8c72_23
	ldr	x5, [x5, #8]
	subs	x5, x5, x3
	b.lo	.Lcovretin_BB_813e8c72_23
	cmp	x4, x5
	b.hi	.Lcovretin_BB_813e8c72_23
.Lcovretin_BB_813e8c72_27:
	str	x2, [x8, #48]
	add	x1, x16, x1
	ldp	x3, x1, [x1, #16]
	sub	x18, x18, x3
	add	x24, x18, x1
	tst	x24, #0xf
	b.eq	.Lcovretin_BB_813e8c72_30
.Lcovretin_BB_813e8c72_28:
	str	x8, [x0]
	mov	w0, #6
	b	.Lcovretin_BB_813e8c72_82
.Lcovretin_BB_813e8c72_29:
	.cfi_def_cfa wsp, 0
	.cfi_negate_ra_state
	.cfi_same_value w19
	.cfi_same_value w20
	.cfi_same_value w21
	.cfi_same_value w22
	.cfi_same_value w23
	.cfi_same_value w24
	.cfi_same_value w25
	.cfi_same_value w26
	.cfi_same_value w27
	.cfi_same_value w28
	.cfi_same_value w30
	.cfi_same_value w29
	str	x8, [x0]
	mov	w0, #5
	ret
.Lcovretin_BB_813e8c72_30:
	.cfi_restore_state
	.cfi_remember_state
	cmp	x2, x15
	b.hs	.Lcovretin_BB_813e8c72_34
	lsl	x1, x2, #5
	add	x4, x16, x1
	ldr	x3, [x4, #16]
	subs	x3, x17, x3
	b.lo	.Lcovretin_BB_813e8c72_34
	ldr	x4, [x4, #8]
	subs	x4, x4, #4
	b.lo	.Lcovretin_BB_813e8c72_34
	cmp	x3, x4
	b.ls	.Lcovretin_BB_813e8c72_52
.Lcovretin_BB_813e8c72_34:
	ldr	x2, [x8, #32]
	cbz	x2, .Lcovretin_BB_813e8c72_45
	ldr	x1, [x8, #24]
	mov	x3, xzr
	b	.Lcovretin_BB_813e8c72_37
.Lcovretin_BB_813e8c72_36:
	mov	x2, x4
	cmp	x3, x4
	b.hs	.Lcovretin_BB_813e8c72_40
.Lcovretin_BB_813e8c72_37:
	sub	x4, x2, x3
	add	x4, x3, x4, lsr #1
	ldrh	w5, [x1, x4, lsl #1]
	cmp	x15, x5
	b.ls	.Lcovretin_BB_813e8c72_36
	lsl	x5, x5, #5
	ldr	x5, [x16, x5]
	cmp	x5, x17
	b.hi	.Lcovretin_BB_813e8c72_36
	add	x3, x4, #1
	cmp	x3, x2
	b.lo	.Lcovretin_BB_813e8c72_37
.Lcovretin_BB_813e8c72_40:
	cbz	x3, .Lcovretin_BB_813e8c72_45
	add	x1, x1, x3, lsl #1
	ldurh	w2, [x1, #-2]
	cmp	x15, x2
	b.ls	.Lcovretin_BB_813e8c72_45
	lsl	x1, x2, #5
	add	x4, x16, x1
	ldr	x3, [x4, #16]
	subs	x3, x17, x3
	b.lo	.Lcovretin_BB_813e8c72_46
	ldr	x4, [x4, #8]
	subs	x4, x4, #4
	b.lo	.Lcovretin_BB_813e8c72_46
	cmp	x3, x4
	b.hi	.Lcovretin_BB_813e8c72_46
	b	.Lcovretin_BB_813e8c72_52
.Lcovretin_BB_813e8c72_45:
	cbz	x15, .Lcovretin_BB_813e8c72_81
.Lcovretin_BB_813e8c72_46:
	mov	x1, xzr
	mov	x2, xzr
	mov	x3, x16
	b	.Lcovretin_BB_813e8c72_48
.Lcovretin_BB_813e8c72_47:
	add	x2, x2, #1
	sub	x1, x1, #32
	add	x3, x3, #32
	cmp	x15, x2
	b.eq	.Lcovretin_BB_813e8c72_81
.Lcovretin_BB_813e8c72_48:
	ldr	x4, [x3, #16]
	subs	x4, x17, x4
	b.lo	.Lcovretin_BB_813e8c72_47
	ldr	x5, [x3, #8]
	subs	x5, x5, #4
	b.lo	.Lcovretin_BB_813e8c72_47
	cmp	x4, x5
	b.hi	.Lcovretin_BB_813e8c72_47
	neg	x1, x1
.Lcovretin_BB_813e8c72_52:
	str	x2, [x8, #48]
	add	x1, x16, x1
	ldp	x3, x1, [x1, #16]
	sub	x17, x17, x3
	add	x17, x17, x1
	tst	x17, #0x3
	b.ne	.Lcovretin_BB_813e8c72_28
	cmp	x2, x15
	b.hs	.Lcovretin_BB_813e8c72_57
	lsl	x1, x2, #5
	add	x4, x16, x1
	ldr	x3, [x4, #16]
	subs	x3, x12, x3
	b.lo	.Lcovretin_BB_813e8c72_57
	ldr	x4, [x4, #8]
	subs	x4, x4, #4
	b.lo	.Lcovretin_BB_813e8c72_57
	cmp	x3, x4
	b.ls	.Lcovretin_BB_813e8c72_75
.Lcovretin_BB_813e8c72_57:
	ldr	x2, [x8, #32]
	cbz	x2, .Lcovretin_BB_813e8c72_68
	ldr	x1, [x8, #24]
	mov	x3, xzr
	b	.Lcovretin_BB_813e8c72_60
.Lcovretin_BB_813e8c72_59:
	mov	x2, x4
	cmp	x3, x4
	b.hs	.Lcovretin_BB_813e8c72_63
.Lcovretin_BB_813e8c72_60:
	sub	x4, x2, x3
	add	x4, x3, x4, lsr #1
	ldrh	w5, [x1, x4, lsl #1]
	cmp	x15, x5
	b.ls	.Lcovretin_BB_813e8c72_59
	lsl	x5, x5, #5
	ldr	x5, [x16, x5]
	cmp	x5, x12
	b.hi	.Lcovretin_BB_813e8c72_59
	add	x3, x4, #1
	cmp	x3, x2
	b.lo	.Lcovretin_BB_813e8c72_60
.Lcovretin_BB_813e8c72_63:
	cbz	x3, .Lcovretin_BB_813e8c72_68
	add	x1, x1, x3, lsl #1
	ldurh	w2, [x1, #-2]
	cmp	x15, x2
	b.ls	.Lcovretin_BB_813e8c72_68
	lsl	x1, x2, #5
	add	x4, x16, x1
	ldr	x3, [x4, #16]
	subs	x3, x12, x3
	b.lo	.Lcovretin_BB_813e8c72_69
	ldr	x4, [x4, #8]
	subs	x4, x4, #4
	b.lo	.Lcovretin_BB_813e8c72_69
	cmp	x3, x4
	b.hi	.Lcovretin_BB_813e8c72_69
	b	.Lcovretin_BB_813e8c72_75
.Lcovretin_BB_813e8c72_68:
	cbz	x15, .Lcovretin_BB_813e8c72_81
.Lcovretin_BB_813e8c72_69:
	mov	x1, xzr
	mov	x2, xzr
	mov	x3, x16
	b	.Lcovretin_BB_813e8c72_71
.Lcovretin_BB_813e8c72_70:
	add	x2, x2, #1
	sub	x1, x1, #32
	add	x3, x3, #32
	cmp	x15, x2
	b.eq	.Lcovretin_BB_813e8c72_81
.Lcovretin_BB_813e8c72_71:
	ldr	x4, [x3, #16]
	subs	x4, x12, x4
	b.lo	.Lcovretin_BB_813e8c72_70
	ldr	x5, [x3, #8]
	subs	x5, x5, #4
	b.lo	.Lcovretin_BB_813e8c72_70
	cmp	x4, x5
	b.hi	.Lcovretin_BB_813e8c72_70
	neg	x1, x1
.Lcovretin_BB_813e8c72_75:
	str	x2, [x8, #48]
	add	x15, x16, x1
	ldp	x16, x15, [x15, #16]
	sub	x12, x12, x16
	add	x12, x12, x15
	tst	x12, #0x3
	b.ne	.Lcovretin_BB_813e8c72_28
	and	w22, w13, #0x7fff
	stur	x12, [x29, #-16]
	cmp	w9, w22
	str	x17, [sp, #24]
	b.ls	.Lcovretin_BB_813e8c72_83
	and	w25, w23, #0x7fff
	cmp	w9, w25
	b.ls	.Lcovretin_BB_813e8c72_83
	stur	x8, [x29, #-8]
	cmp	w9, #1024
	mov	w8, #1024
	lsl	x20, x9, #1
	csel	w8, w9, w8, hi
	tst	w11, #0x1
	str	x0, [sp, #16]
	csel	w8, w8, w9, ne
	mov	w1, #2
	mov	x0, x20
	mov	w21, w13
	mov	w28, w11
	mov	x26, x9
	str	w8, [sp, #12]
	bl	rattle_alloc
	tbz	w0, #0, .Lcovretin_BB_813e8c72_84
	lsr	w8, w21, #15
	lsr	w9, w23, #15
	mov	x19, x1
	cmp	w26, #1
	and	w27, w27, #0x1
	and	w28, w28, #0x1
	bfi	w25, w9, #16, #1
	bfi	w22, w8, #16, #1
	b.ne	.Lcovretin_BB_813e8c72_85
	mov	x9, xzr
	b	.Lcovretin_BB_813e8c72_86
.Lcovretin_BB_813e8c72_81:
	str	x8, [x0]
	mov	w0, #9
.Lcovretin_BB_813e8c72_82:
	.cfi_def_cfa wsp, 144
	ldp	x20, x19, [sp, #128]
	ldp	x22, x21, [sp, #112]
	ldp	x24, x23, [sp, #96]
	ldp	x26, x25, [sp, #80]
	ldp	x28, x27, [sp, #64]
	ldp	x29, x30, [sp, #48]
	add	sp, sp, #144
	.cfi_def_cfa_offset 0
	.cfi_restore w19
	.cfi_restore w20
	.cfi_restore w21
	.cfi_restore w22
	.cfi_restore w23
	.cfi_restore w24
	.cfi_restore w25
	.cfi_restore w26
	.cfi_restore w27
	.cfi_restore w28
	.cfi_restore w30
	.cfi_restore w29
	hint	#29
	.cfi_negate_ra_state
	ret
.Lcovretin_BB_813e8c72_83:
	.cfi_restore_state
	str	x8, [x0]
	mov	w0, #7
	b	.Lcovretin_BB_813e8c72_82
.Lcovretin_BB_813e8c72_84:
	ldur	x8, [x29, #-8]
	ldr	x9, [sp, #16]
	mov	w0, #24
	str	x8, [x9]
	b	.Lcovretin_BB_813e8c72_82
.Lcovretin_BB_813e8c72_85:
	sub	x2, x20, #2
	mov	x0, x19
	mov	w1, wzr
	bl	memset
	sub	x9, x26, #1
.Lcovretin_BB_813e8c72_86:
	ldur	x11, [x29, #-8]
	strh	wzr, [x19, x9, lsl #1]
	mov	w10, #2
	movi	v0.2d, #0000000000000000
	add	x9, x9, #1
	ldrb	w8, [x11, #56]
	str	x10, [x11, #56]
	ldr	x10, [sp, #24]
	ldr	x0, [x11, #112]
	stp	x19, x9, [x11, #112]
	ldr	x9, [x11, #128]
	stp	x24, x10, [x11, #72]
	ldur	x10, [x29, #-16]
	strh	w26, [x11, #64]
	str	x10, [x11, #88]
	ldr	w10, [sp, #12]
	stur	wzr, [x11, #66]
	strh	wzr, [x11, #70]
	strb	w27, [x11, #96]
	strb	w28, [x11, #97]
	stur	w22, [x11, #98]
	stur	w25, [x11, #102]
	strh	wzr, [x11, #106]
	str	wzr, [x11, #108]
	str	x26, [x11, #128]
	stur	q0, [x11, #166]
	stur	q0, [x11, #152]
	stur	q0, [x11, #136]
	strh	w10, [x11, #182]
	str	xzr, [x11, #184]
	cbz	w8, .Lcovretin_BB_813e8c72_89
	cmp	w8, #2
	cbz	x9, .Lcovretin_BB_813e8c72_89
	bl	rattle_dealloc
.Lcovretin_BB_813e8c72_89:
	ldur	x8, [x29, #-8]
	ldr	x9, [sp, #16]
	mov	w0, wzr
	str	x8, [x9]
	b	.Lcovretin_BB_813e8c72_82
.Lcovretin_func_end_813e8c72:
	.size	covretin_queue_start_packed, .Lcovretin_func_end_813e8c72-covretin_queue_start_packed
	.cfi_endproc

	.section	.text.covretin_queue_start_split,"ax",@progbits
	.globl	covretin_queue_start_split
	.p2align	2
	.type	covretin_queue_start_split,@function
covretin_queue_start_split:
	.cfi_startproc
	hint	#25
	.cfi_negate_ra_state
	sub	sp, sp, #128
	.cfi_def_cfa_offset 128
	stp	x29, x30, [sp, #32]
	stp	x28, x27, [sp, #48]
	stp	x26, x25, [sp, #64]
	stp	x24, x23, [sp, #80]
	stp	x22, x21, [sp, #96]
	stp	x20, x19, [sp, #112]
	add	x29, sp, #32
	.cfi_def_cfa w29, 96
	.cfi_offset w19, -8
	.cfi_offset w20, -16
	.cfi_offset w21, -24
	.cfi_offset w22, -32
	.cfi_offset w23, -40
	.cfi_offset w24, -48
	.cfi_offset w25, -56
	.cfi_offset w26, -64
	.cfi_offset w27, -72
	.cfi_offset w28, -80
	.cfi_offset w30, -88
	.cfi_offset w29, -96
	.cfi_remember_state
	ldr	x20, [x0]
	str	xzr, [x0]
	cbz	x20, .Lcovretin_BB_526625b4_19
	ldrh	w19, [x1, #24]
	sub	w8, w19, #1
	tbnz	w8, #15, .Lcovretin_BB_526625b4_20
	and	w8, w19, w8
	cbnz	w8, .Lcovretin_BB_526625b4_20
	ldp	x15, x16, [x1]
	lsl	x18, x19, #4
	ldr	x17, [x20, #48]
	ldr	x13, [x20, #8]
	ldr	x11, [x1, #16]
	ldrh	w28, [x1, #26]
	ldrh	w27, [x1, #28]
	ldrb	w26, [x1, #30]
	cmp	x17, x13
	ldrb	w12, [x1, #31]
	b.hs	.Lcovretin_BB_526625b4_7
	ldr	x14, [x20]
	lsl	x1, x17, #5
	add	x3, x14, x1
	ldr	x2, [x3, #16]
	subs	x2, x15, x2
	b.lo	.Lcovretin_BB_526625b4_7
	ldr	x3, [x3, #8]
	subs	x3, x3, x18
	b.lo	.Lcovretin_BB_526625b4_7
	cmp	x2, x3
	b.ls	.Lcovretin_BB_526625b4_29
.Lcovretin_BB_526625b4_7:
	ldr	x17, [x20, #32]
	cbz	x17, .Lcovretin_BB_526625b4_21
	ldr	x14, [x20, #24]
	mov	x1, xzr
	b	.Lcovretin_BB_526625b4_10
.Lcovretin_BB_526625b4_9:
	mov	x17, x2
	cmp	x1, x2
	b.hs	.Lcovretin_BB_526625b4_13
.Lcovretin_BB_526625b4_10:
	sub	x2, x17, x1
	add	x2, x1, x2, lsr #1
	ldrh	w3, [x14, x2, lsl #1]
	cmp	x13, x3
	b.ls	.Lcovretin_BB_526625b4_9
	ldr	x4, [x20]
	lsl	x3, x3, #5
	ldr	x3, [x4, x3]
	cmp	x3, x15
	b.hi	.Lcovretin_BB_526625b4_9
	add	x1, x2, #1
	cmp	x1, x17
	b.lo	.Lcovretin_BB_526625b4_10
.Lcovretin_BB_526625b4_13:
	cbz	x1, .Lcovretin_BB_526625b4_21
	add	x14, x14, x1, lsl #1
	ldurh	w17, [x14, #-2]
	cmp	x13, x17
	b.ls	.Lcovretin_BB_526625b4_21
	ldr	x14, [x20]
	cbz	w19, .Lcovretin_BB_526625b4_23
	lsl	x1, x17, #5
	add	x3, x14, x1
	ldr	x2, [x3, #16]
	subs	x2, x15, x2
	b.lo	.Lcovretin_BB_526625b4_23
	ldr	x3, [x3, #8]
	subs	x3, x3, x18
	b.lo	.Lcovretin_BB_526625b4_24
	cmp	x2, x3
	b.hi	.Lcovretin_BB_526625b4_24
	b	.Lcovretin_BB_526625b4_29
.Lcovretin_BB_526625b4_19:
	mov	w0, #101
	b	.Lcovretin_BB_526625b4_82
.Lcovretin_BB_526625b4_20:
	str	x20, [x0]
	mov	w0, #5
	b	.Lcovretin_BB_526625b4_82
.Lcovretin_BB_526625b4_21:
	cbz	x13, .Lcovretin_BB_526625b4_81
	ldr	x14, [x20]
.Lcovretin_BB_526625b4_23:
	cbz	w19, .Lcovretin_BB_526625b4_81
.Lcovretin_BB_526625b4_24:
	mov	x1, xzr
	mov	x17, xzr
	b	.Lcovretin_BB_526625b4_26
.Lcovretin_BB_526625b4_25:
	add	x17, x17, #1
	add	x1, x1, #32
	cmp	x13, x17
	b.eq	.Lcovretin_BB_526625b4_81
.Lcovretin_BB_526625b4_26:
	add	x3, x14, x1
	ldr	x2, [x3, #16]
	subs	x2, x15, x2
	b.lo	.Lcovretin_BB_526625b4_25
	ldr	x3, [x3, #8]
	subs	x3, x3, x18
	b.lo	.Lcovretin_BB_526625b4_25
	cmp	x2, x3
	b.hi	.Lcovretin_BB_526625b4_25
.Lcovretin_BB_526625b4_29:
	str	x17, [x20, #48]
	add	x18, x14, x1
	ldp	x1, x18, [x18, #16]
	sub	x15, x15, x1
	add	x25, x15, x18
	tst	x25, #0xf
	b.eq	.Lcovretin_BB_526625b4_31
.Lcovretin_BB_526625b4_30:
	str	x20, [x0]
	mov	w0, #6
	b	.Lcovretin_BB_526625b4_82
.Lcovretin_BB_526625b4_31:
	lsl	x18, x19, #1
	cmp	x17, x13
	add	x18, x18, #6
	b.hs	.Lcovretin_BB_526625b4_35
	lsl	x1, x17, #5
	add	x3, x14, x1
	ldr	x2, [x3, #16]
	subs	x2, x16, x2
	b.lo	.Lcovretin_BB_526625b4_35
	ldr	x3, [x3, #8]
	subs	x3, x3, x18
	b.lo	.Lcovretin_BB_526625b4_35
	cmp	x2, x3
	b.ls	.Lcovretin_BB_526625b4_53
.Lcovretin_BB_526625b4_35:
	ldr	x1, [x20, #32]
	cbz	x1, .Lcovretin_BB_526625b4_46
	ldr	x17, [x20, #24]
	mov	x2, xzr
	b	.Lcovretin_BB_526625b4_38
.Lcovretin_BB_526625b4_37:
	mov	x1, x3
	cmp	x2, x3
	b.hs	.Lcovretin_BB_526625b4_41
.Lcovretin_BB_526625b4_38:
	sub	x3, x1, x2
	add	x3, x2, x3, lsr #1
	ldrh	w4, [x17, x3, lsl #1]
	cmp	x13, x4
	b.ls	.Lcovretin_BB_526625b4_37
	lsl	x4, x4, #5
	ldr	x4, [x14, x4]
	cmp	x4, x16
	b.hi	.Lcovretin_BB_526625b4_37
	add	x2, x3, #1
	cmp	x2, x1
	b.lo	.Lcovretin_BB_526625b4_38
.Lcovretin_BB_526625b4_41:
	cbz	x2, .Lcovretin_BB_526625b4_46
	add	x17, x17, x2, lsl #1
	ldurh	w17, [x17, #-2]
	cmp	x13, x17
	b.ls	.Lcovretin_BB_526625b4_46
	lsl	x1, x17, #5
	add	x3, x14, x1
	ldr	x2, [x3, #16]
	subs	x2, x16, x2
	b.lo	.Lcovretin_BB_526625b4_47
	ldr	x3, [x3, #8]
	subs	x3, x3, x18
	b.lo	.Lcovretin_BB_526625b4_47
	cmp	x2, x3
	b.hi	.Lcovretin_BB_526625b4_47
	b	.Lcovretin_BB_526625b4_53
.Lcovretin_BB_526625b4_46:
	cbz	x13, .Lcovretin_BB_526625b4_81
.Lcovretin_BB_526625b4_47:
	mov	x1, xzr
	mov	x17, xzr
	mov	x2, x14
	b	.Lcovretin_BB_526625b4_49
.Lcovretin_BB_526625b4_48:
	add	x17, x17, #1
	sub	x1, x1, #32
	add	x2, x2, #32
	cmp	x13, x17
	b.eq	.Lcovretin_BB_526625b4_81
.Lcovretin_BB_526625b4_49:
	ldr	x3, [x2, #16]
	subs	x3, x16, x3
	b.lo	.Lcovretin_BB_526625b4_48
	ldr	x4, [x2, #8]
	subs	x4, x4, x18
	b.lo	.Lcovretin_BB_526625b4_48
	cmp	x3, x4
	b.hi	.Lcovretin_BB_526625b4_48
	neg	x1, x1
.Lcovretin_BB_526625b4_53:
	str	x17, [x20, #48]
	add	x18, x14, x1
	ldp	x1, x18, [x18, #16]
	sub	x16, x16, x1
	add	x24, x16, x18
	tbnz	w24, #0, .Lcovretin_BB_526625b4_30
	mov	w18, #6
	cmp	x17, x13
	orr	x18, x18, x19, lsl #3
	b.hs	.Lcovretin_BB_526625b4_58
	lsl	x1, x17, #5
	add	x3, x14, x1
	ldr	x2, [x3, #16]
	subs	x2, x11, x2
	b.lo	.Lcovretin_BB_526625b4_58
	ldr	x3, [x3, #8]
	subs	x3, x3, x18
	b.lo	.Lcovretin_BB_526625b4_58
	cmp	x2, x3
	b.ls	.Lcovretin_BB_526625b4_76
.Lcovretin_BB_526625b4_58:
	ldr	x1, [x20, #32]
	cbz	x1, .Lcovretin_BB_526625b4_69
	ldr	x17, [x20, #24]
	mov	x2, xzr
	b	.Lcovretin_BB_526625b4_61
.Lcovretin_BB_526625b4_60:
	mov	x1, x3
	cmp	x2, x3
	b.hs	.Lcovretin_BB_526625b4_64
.Lcovretin_BB_526625b4_61:
	sub	x3, x1, x2
	add	x3, x2, x3, lsr #1
	ldrh	w4, [x17, x3, lsl #1]
	cmp	x13, x4
	b.ls	.Lcovretin_BB_526625b4_60
	lsl	x4, x4, #5
	ldr	x4, [x14, x4]
	cmp	x4, x11
	b.hi	.Lcovretin_BB_526625b4_60
	add	x2, x3, #1
	cmp	x2, x1
	b.lo	.Lcovretin_BB_526625b4_61
.Lcovretin_BB_526625b4_64:
	cbz	x2, .Lcovretin_BB_526625b4_69
	add	x17, x17, x2, lsl #1
	ldurh	w17, [x17, #-2]
	cmp	x13, x17
	b.ls	.Lcovretin_BB_526625b4_69
	lsl	x1, x17, #5
	add	x3, x14, x1
	ldr	x2, [x3, #16]
	subs	x2, x11, x2
	b.lo	.Lcovretin_BB_526625b4_70
	ldr	x3, [x3, #8]
	subs	x3, x3, x18
	b.lo	.Lcovretin_BB_526625b4_70
	cmp	x2, x3
	b.hi	.Lcovretin_BB_526625b4_70
	b	.Lcovretin_BB_526625b4_76
.Lcovretin_BB_526625b4_69:
	cbz	x13, .Lcovretin_BB_526625b4_81
.Lcovretin_BB_526625b4_70:
	mov	x1, xzr
	mov	x17, xzr
	mov	x2, x14
	b	.Lcovretin_BB_526625b4_72
.Lcovretin_BB_526625b4_71:
	add	x17, x17, #1
	sub	x1, x1, #32
	add	x2, x2, #32
	cmp	x13, x17
	b.eq	.Lcovretin_BB_526625b4_81
.Lcovretin_BB_526625b4_72:
	ldr	x3, [x2, #16]
	subs	x3, x11, x3
	b.lo	.Lcovretin_BB_526625b4_71
	ldr	x4, [x2, #8]
	subs	x4, x4, x18
	b.lo	.Lcovretin_BB_526625b4_71
	cmp	x3, x4
	b.hi	.Lcovretin_BB_526625b4_71
	neg	x1, x1
.Lcovretin_BB_526625b4_76:
	str	x17, [x20, #48]
	add	x13, x14, x1
	ldp	x14, x13, [x13, #16]
	sub	x11, x11, x14
	add	x22, x11, x13
	tst	x22, #0x3
	b.ne	.Lcovretin_BB_526625b4_30
	cmp	w19, #1024
	mov	w11, #1024
	str	x0, [sp, #16]
	csel	w11, w19, w11, hi
	ands	w21, w12, #0x1
	csel	w11, w11, w19, ne
	cbz	w19, .Lcovretin_BB_526625b4_83
	mov	x0, x19
	mov	w1, #1
	str	w21, [sp, #4]
	mov	w21, w11
	bl	rattle_alloc
	str	x1, [sp, #8]
	tbz	w0, #0, .Lcovretin_BB_526625b4_84
	cmp	w19, #1
	b.ne	.Lcovretin_BB_526625b4_85
	mov	x23, xzr
	b	.Lcovretin_BB_526625b4_86
.Lcovretin_BB_526625b4_81:
	str	x20, [x0]
	mov	w0, #9
.Lcovretin_BB_526625b4_82:
	.cfi_def_cfa wsp, 128
	ldp	x20, x19, [sp, #112]
	ldp	x22, x21, [sp, #96]
	ldp	x24, x23, [sp, #80]
	ldp	x26, x25, [sp, #64]
	ldp	x28, x27, [sp, #48]
	ldp	x29, x30, [sp, #32]
	add	sp, sp, #128
	.cfi_def_cfa_offset 0
	.cfi_restore w19
	.cfi_restore w20
	.cfi_restore w21
	.cfi_restore w22
	.cfi_restore w23
	.cfi_restore w24
	.cfi_restore w25
	.cfi_restore w26
	.cfi_restore w27
	.cfi_restore w28
	.cfi_restore w30
	.cfi_restore w29
	hint	#29
	.cfi_negate_ra_state
	ret
.Lcovretin_BB_526625b4_83:
	.cfi_restore_state
	mov	x12, xzr
	sub	x13, x29, #1
	b	.Lcovretin_BB_526625b4_87
.Lcovretin_BB_526625b4_84:
	ldr	x8, [sp, #16]
	mov	w0, #24
	str	x20, [x8]
	b	.Lcovretin_BB_526625b4_82
.Lcovretin_BB_526625b4_85:
	ldr	x0, [sp, #8]
	sub	x2, x19, #1
	mov	w1, wzr
	sub	x23, x19, #1
	bl	memset
.Lcovretin_BB_526625b4_86:
	ldr	x13, [sp, #8]
	mov	w11, w21
	ldr	w21, [sp, #4]
	add	x12, x23, #1
	strb	wzr, [x13, x23]
.Lcovretin_BB_526625b4_87:
	movi	v0.2d, #0000000000000000
	ldrb	w14, [x20, #56]
	ldr	x0, [x20, #112]
	ldr	x8, [x20, #128]
	mov	w17, #1
	and	w10, w26, #0x1
	strh	w19, [x20, #64]
	str	x17, [x20, #56]
	stur	wzr, [x20, #66]
	strh	wzr, [x20, #70]
	stp	x25, x24, [x20, #72]
	str	x22, [x20, #88]
	strb	w10, [x20, #96]
	strb	w21, [x20, #97]
	strh	w28, [x20, #98]
	strh	w28, [x20, #100]
	strh	w27, [x20, #102]
	stp	xzr, x13, [x20, #104]
	stp	x12, x19, [x20, #120]
	stur	q0, [x20, #166]
	stur	q0, [x20, #152]
	stur	q0, [x20, #136]
	strh	w11, [x20, #182]
	str	xzr, [x20, #184]
	cbz	w14, .Lcovretin_BB_526625b4_90
	cmp	w14, #2
	cbz	x8, .Lcovretin_BB_526625b4_90
	bl	rattle_dealloc
.Lcovretin_BB_526625b4_90:
	ldr	x8, [sp, #16]
	mov	w0, wzr
	str	x20, [x8]
	b	.Lcovretin_BB_526625b4_82
.Lcovretin_func_end_526625b4:
	.size	covretin_queue_start_split, .Lcovretin_func_end_526625b4-covretin_queue_start_split
	.cfi_endproc

	.section	.text.covretin_queue_stop,"ax",@progbits
	.globl	covretin_queue_stop
	.p2align	2
	.type	covretin_queue_stop,@function
covretin_queue_stop:
	.cfi_startproc
	hint	#25
	.cfi_negate_ra_state
	stp	x29, x30, [sp, #-32]!
	.cfi_def_cfa_offset 32
	stp	x20, x19, [sp, #16]
	mov	x29, sp
	.cfi_def_cfa w29, 32
	.cfi_offset w19, -8
	.cfi_offset w20, -16
	.cfi_offset w30, -24
	.cfi_offset w29, -32
	.cfi_remember_state
	ldr	x19, [x0]
	str	xzr, [x0]
	cbz	x19, .Lcovretin_BB_24f7a798_5
	movi	v0.2d, #0000000000000000
	ldrb	w10, [x19, #56]
	ldr	x8, [x19, #112]
	ldr	x9, [x19, #128]
	str	xzr, [x19, #184]
	stur	q0, [x19, #72]
	stur	q0, [x19, #88]
	stur	q0, [x19, #136]
	stur	q0, [x19, #152]
	stur	q0, [x19, #168]
	stur	q0, [x19, #56]
	stur	q0, [x19, #104]
	stur	q0, [x19, #120]
	cbz	w10, .Lcovretin_BB_24f7a798_4
	cmp	w10, #2
	cbz	x9, .Lcovretin_BB_24f7a798_4
	mov	x20, x0
	mov	x0, x8
	bl	rattle_dealloc
	mov	x0, x20
.Lcovretin_BB_24f7a798_4:
	mov	w8, wzr
	str	x19, [x0]
	mov	w0, w8
	.cfi_def_cfa wsp, 32
	ldp	x20, x19, [sp, #16]
	ldp	x29, x30, [sp], #32
	.cfi_def_cfa_offset 0
	.cfi_restore w19
	.cfi_restore w20
	.cfi_restore w30
	.cfi_restore w29
	hint	#29
	.cfi_negate_ra_state
	ret
.Lcovretin_BB_24f7a798_5:
	.cfi_restore_state
	mov	w8, #101
	mov	w0, w8
	.cfi_def_cfa wsp, 32
	ldp	x20, x19, [sp, #16]
	ldp	x29, x30, [sp], #32
	.cfi_def_cfa_offset 0
	.cfi_restore w19
	.cfi_restore w20
	.cfi_restore w30
	.cfi_restore w29
	hint	#29
	.cfi_negate_ra_state
	ret
.Lcovretin_func_end_24f7a798:
	.size	covretin_queue_stop, .Lcovretin_func_end_24f7a798-covretin_queue_stop
	.cfi_endproc

	.section	.text.covretin_queue_add_used,"ax",@progbits
	.globl	covretin_queue_add_used
	.p2align	2
	.type	covretin_queue_add_used,@function
covretin_queue_add_used:
	.cfi_startproc
	hint	#34
	ldr	x8, [x0]
	str	xzr, [x0]
	cbz	x8, .Lcovretin_BB_8403a79e_6
	sub	sp, sp, #16
	.cfi_def_cfa_offset 16
	.cfi_remember_state
	ldrb	w9, [x8, #56]
	cbz	w9, .Lcovretin_BB_8403a79e_7
	cmp	w9, #2
	b.ne	.Lcovretin_BB_8403a79e_8
	ldrh	w12, [x8, #64]
	cmp	w12, w1, uxth
	b.ls	.Lcovretin_BB_8403a79e_12
	ldr	x16, [x8, #112]
	and	x17, x1, #0xffff
	ldrh	w13, [x16, x17, lsl #1]
	cbz	w13, .Lcovretin_BB_8403a79e_12
	cmp	w2, #0
	mov	w10, #2
	ldrb	w14, [x8, #104]
	ldrh	w1, [x8, #102]
	csel	w15, wzr, w10, eq
	mov	w18, #-32640
	orr	w18, w15, w18
	cmp	w14, #0
	sub	w4, w12, w1
	csel	w12, w18, w15, ne
	ldr	x15, [x8, #72]
	eor	w18, w14, #0x1
	cmp	w13, w4, uxth
	mov	w9, wzr
	csel	w14, w14, w18, lo
	csneg	w18, w1, w4, lo
	add	x1, x15, x1, lsl #4
	strb	w14, [x8, #104]
	mov	w14, w2
	add	w13, w18, w13
	orr	x15, x14, x17, lsl #32
	strh	w13, [x8, #102]
	add	x13, x1, #8
	strb	wzr, [x8, #105]
	add	x14, x1, #14
	strh	wzr, [x16, x17, lsl #1]
	mov	w16, #6
	strh	wzr, [sp, #12]
	str	wzr, [sp, #8]
	str	x8, [x0]
	b	.Lcovretin_BB_8403a79e_11
.Lcovretin_BB_8403a79e_6:
	.cfi_def_cfa wsp, 0
	mov	w0, #101
	ret
.Lcovretin_BB_8403a79e_7:
	.cfi_restore_state
	.cfi_remember_state
	str	x8, [x0]
	mov	w0, #103
	add	sp, sp, #16
	.cfi_def_cfa_offset 0
	ret
.Lcovretin_BB_8403a79e_8:
	.cfi_restore_state
	.cfi_remember_state
	ldrh	w12, [x8, #64]
	cmp	w12, w1, uxth
	b.ls	.Lcovretin_BB_8403a79e_12
	ldr	x13, [x8, #112]
	and	x10, x1, #0xffff
	ldrb	w9, [x13, x10]
	cmp	w9, #1
	b.ne	.Lcovretin_BB_8403a79e_12
	ldrh	w14, [x8, #102]
	mov	w9, wzr
	udiv	w15, w14, w12
	msub	w12, w15, w12, w14
	ldr	x14, [x8, #88]
	strb	wzr, [x13, x10]
	ldrh	w13, [x8, #102]
	ldr	x16, [x8, #88]
	orr	x15, x10, x2, lsl #32
	mov	w10, #2
	add	x14, x14, w12, uxtw #3
	add	w12, w13, #1
	strh	w12, [x8, #102]
	add	x13, x14, #4
	add	x14, x16, #2
	mov	w16, #8
	strh	wzr, [sp, #12]
	str	wzr, [sp, #8]
	str	x8, [x0]
.Lcovretin_BB_8403a79e_11:
	ldr	w8, [sp, #8]
	ldrh	w9, [sp, #12]
	mov	w0, wzr
	stp	x13, x16, [x3]
	stp	x15, x14, [x3, #16]
	str	x10, [x3, #32]
	strh	w12, [x3, #40]
	stur	w8, [x3, #42]
	strh	w9, [x3, #46]
	add	sp, sp, #16
	.cfi_def_cfa_offset 0
	ret
.Lcovretin_BB_8403a79e_12:
	.cfi_restore_state
	mov	x13, xzr
	mov	x16, xzr
	mov	x14, xzr
	mov	x10, xzr
	mov	x15, xzr
	mov	w12, wzr
	mov	w9, #21
	mov	w11, #1
	strh	wzr, [sp, #12]
	str	wzr, [sp, #8]
	str	x8, [x0]
	cbz	w11, .Lcovretin_BB_8403a79e_11
	cmp	w9, #0
	mov	w8, #23
	csinc	w0, w8, wzr, ne
	add	sp, sp, #16
	.cfi_def_cfa_offset 0
	ret
.Lcovretin_func_end_8403a79e:
	.size	covretin_queue_add_used, .Lcovretin_func_end_8403a79e-covretin_queue_add_used
	.cfi_endproc

	.section	.text.covretin_queue_available,"ax",@progbits
	.globl	covretin_queue_available
	.p2align	2
	.type	covretin_queue_available,@function
covretin_queue_available:
	.cfi_startproc
	hint	#34
	ldr	x8, [x0]
	str	xzr, [x0]
	cbz	x8, .Lcovretin_BB_f0bc97d7_9
	ldrb	w9, [x8, #56]
	cbz	w9, .Lcovretin_BB_f0bc97d7_10
	cmp	w9, #2
	b.ne	.Lcovretin_BB_f0bc97d7_11
	ldrb	w9, [x8, #187]
	cmp	w9, #1
	b.eq	.Lcovretin_BB_f0bc97d7_12
	sxth	w9, w1
	ldrb	w10, [x8, #100]
	tst	w1, #0x80
	cset	w12, eq
	cmp	w9, #0
	mov	w9, wzr
	cset	w11, mi
	cmp	w12, w10
	b.eq	.Lcovretin_BB_f0bc97d7_8
	eor	w10, w11, w10
	cbz	w10, .Lcovretin_BB_f0bc97d7_8
	ldrh	w9, [x8, #64]
	ldrh	w10, [x8, #98]
	cmp	w9, w10
	b.ls	.Lcovretin_BB_f0bc97d7_16
	ldr	x11, [x8, #72]
	strh	w10, [x8, #148]
	ldrh	w10, [x8, #182]
	strh	w9, [x8, #144]
	mov	w9, #1
	str	x11, [x8, #136]
	ldrb	w11, [x8, #97]
	strh	w10, [x8, #176]
	mov	w10, #508
	strh	w9, [x8, #146]
	stp	xzr, xzr, [x8, #160]
	str	xzr, [x8, #152]
	strh	w10, [x8, #178]
	strb	wzr, [x8, #180]
	strb	w11, [x8, #181]
	strh	wzr, [x8, #184]
	strb	w9, [x8, #186]
.Lcovretin_BB_f0bc97d7_8:
	str	x8, [x0]
	mov	w0, wzr
	strh	w9, [x2]
	ret
.Lcovretin_BB_f0bc97d7_9:
	mov	w0, #101
	ret
.Lcovretin_BB_f0bc97d7_10:
	str	x8, [x0]
	mov	w0, #103
	ret
.Lcovretin_BB_f0bc97d7_11:
	ldrb	w9, [x8, #184]
	tbz	w9, #0, .Lcovretin_BB_f0bc97d7_13
.Lcovretin_BB_f0bc97d7_12:
	str	x8, [x0]
	mov	w0, #20
	ret
.Lcovretin_BB_f0bc97d7_13:
	ldrh	w9, [x8, #98]
	ldrh	w10, [x8, #64]
	sub	w9, w1, w9
	cmp	w10, w9, uxth
	b.hs	.Lcovretin_BB_f0bc97d7_15
	mov	w9, #1
	strb	w9, [x8, #184]
	str	x8, [x0]
	mov	w0, #18
	ret
.Lcovretin_BB_f0bc97d7_15:
	strh	w1, [x8, #100]
	str	x8, [x0]
	mov	w0, wzr
	strh	w9, [x2]
	ret
.Lcovretin_BB_f0bc97d7_16:
	str	x8, [x0]
	mov	w0, #11
	ret
.Lcovretin_func_end_f0bc97d7:
	.size	covretin_queue_available, .Lcovretin_func_end_f0bc97d7-covretin_queue_available
	.cfi_endproc

	.section	.text.covretin_queue_available_place,"ax",@progbits
	.globl	covretin_queue_available_place
	.p2align	2
	.type	covretin_queue_available_place,@function
covretin_queue_available_place:
	.cfi_startproc
	hint	#34
	ldr	x9, [x0]
	str	xzr, [x0]
	cbz	x9, .Lcovretin_BB_861102a5_4
	ldrb	w8, [x9, #56]
	cbz	w8, .Lcovretin_BB_861102a5_5
	cmp	w8, #2
	b.ne	.Lcovretin_BB_861102a5_6
	ldr	x8, [x9, #72]
	ldrh	w10, [x9, #98]
	add	x8, x8, x10, lsl #4
	add	x10, x8, #14
	str	x9, [x0]
	mov	w9, #2
	mov	w0, wzr
	stp	x10, x9, [x1]
	ret
.Lcovretin_BB_861102a5_4:
	mov	w0, #101
	ret
.Lcovretin_BB_861102a5_5:
	str	x9, [x0]
	mov	w0, #103
	ret
.Lcovretin_BB_861102a5_6:
	ldr	x8, [x9, #80]
	add	x10, x8, #2
	str	x9, [x0]
	mov	w9, #2
	mov	w0, wzr
	stp	x10, x9, [x1]
	ret
.Lcovretin_func_end_861102a5:
	.size	covretin_queue_available_place, .Lcovretin_func_end_861102a5-covretin_queue_available_place
	.cfi_endproc

	.section	.text.covretin_queue_base,"ax",@progbits
	.globl	covretin_queue_base
	.p2align	2
	.type	covretin_queue_base,@function
covretin_queue_base:
	.cfi_startproc
	hint	#34
	ldr	x9, [x0]
	str	xzr, [x0]
	cbz	x9, .Lcovretin_BB_d8a59e22_4
	ldrb	w8, [x9, #56]
	cbz	w8, .Lcovretin_BB_d8a59e22_5
	cmp	w8, #2
	b.ne	.Lcovretin_BB_d8a59e22_6
	ldur	d0, [x9, #98]
	movi	v1.2s, #128, lsl #8
	movi	d2, #0x00ffff0000ffff
	ushr	v3.2s, v0.2s, #1
	and	v0.8b, v0.8b, v2.8b
	and	v1.8b, v3.8b, v1.8b
	eor	v0.8b, v1.8b, v0.8b
	mov	w8, v0.s[1]
	fmov	w10, s0
	orr	w10, w10, w8, lsl #16
	str	x9, [x0]
	mov	w0, wzr
	str	w10, [x1]
	ret
.Lcovretin_BB_d8a59e22_4:
	mov	w0, #101
	ret
.Lcovretin_BB_d8a59e22_5:
	str	x9, [x0]
	mov	w0, #103
	ret
.Lcovretin_BB_d8a59e22_6:
	ldrh	w10, [x9, #98]
	str	x9, [x0]
	mov	w0, wzr
	str	w10, [x1]
	ret
.Lcovretin_func_end_d8a59e22:
	.size	covretin_queue_base, .Lcovretin_func_end_d8a59e22-covretin_queue_base
	.cfi_endproc

	.section	.text.covretin_queue_head_place,"ax",@progbits
	.globl	covretin_queue_head_place
	.p2align	2
	.type	covretin_queue_head_place,@function
covretin_queue_head_place:
	.cfi_startproc
	hint	#34
	ldr	x8, [x0]
	str	xzr, [x0]
	cbz	x8, .Lcovretin_BB_fe894f27_4
	ldrb	w9, [x8, #56]
	cbz	w9, .Lcovretin_BB_fe894f27_5
	cmp	w9, #2
	b.ne	.Lcovretin_BB_fe894f27_6
	str	x8, [x0]
	mov	w0, #104
	ret
.Lcovretin_BB_fe894f27_4:
	mov	w0, #101
	ret
.Lcovretin_BB_fe894f27_5:
	str	x8, [x0]
	mov	w0, #103
	ret
.Lcovretin_BB_fe894f27_6:
	ldrh	w9, [x8, #98]
	ldrh	w10, [x8, #100]
	cmp	w9, w10
	b.ne	.Lcovretin_BB_fe894f27_8
	str	x8, [x0]
	mov	w0, #21
	ret
.Lcovretin_BB_fe894f27_8:
	ldrh	w10, [x8, #64]
	cbz	w10, .Lcovretin_BB_fe894f27_10
	udiv	w12, w9, w10
	msub	w9, w12, w10, w9
	ldr	x10, [x8, #80]
	str	x8, [x0]
	mov	w0, wzr
	add	x9, x10, w9, uxtw #1
	add	x8, x9, #4
	mov	w9, #2
	stp	x8, x9, [x1]
	ret
.Lcovretin_BB_fe894f27_10:
	brk	#0x1
.Lcovretin_func_end_fe894f27:
	.size	covretin_queue_head_place, .Lcovretin_func_end_fe894f27-covretin_queue_head_place
	.cfi_endproc

	.section	.text.covretin_queue_heads_place,"ax",@progbits
	.globl	covretin_queue_heads_place
	.p2align	2
	.type	covretin_queue_heads_place,@function
covretin_queue_heads_place:
	.cfi_startproc
	hint	#34
	ldr	x8, [x0]
	str	xzr, [x0]
	cbz	x8, .Lcovretin_BB_3f72eb13_4
	ldrb	w9, [x8, #56]
	cbz	w9, .Lcovretin_BB_3f72eb13_5
	cmp	w9, #2
	b.ne	.Lcovretin_BB_3f72eb13_6
	str	x8, [x0]
	mov	w0, #104
	ret
.Lcovretin_BB_3f72eb13_4:
	mov	w0, #101
	ret
.Lcovretin_BB_3f72eb13_5:
	str	x8, [x0]
	mov	w0, #103
	ret
.Lcovretin_BB_3f72eb13_6:
	ldrh	w9, [x8, #98]
	ldrh	w10, [x8, #100]
	subs	w10, w10, w9
	b.ne	.Lcovretin_BB_3f72eb13_8
	str	x8, [x0]
	mov	w0, #21
	ret
.Lcovretin_BB_3f72eb13_8:
	ldrh	w11, [x8, #64]
	cbz	w11, .Lcovretin_BB_3f72eb13_10
	udiv	w13, w9, w11
	and	x10, x10, #0xffff
	cmp	x10, x1
	csel	x10, x10, x1, lo
	msub	w9, w13, w11, w9
	ldr	x13, [x8, #80]
	str	x8, [x0]
	mov	w0, wzr
	sub	w11, w11, w9
	add	x9, x13, w9, uxtw #1
	and	x11, x11, #0xffff
	cmp	x11, x10
	add	x9, x9, #4
	csel	x10, x11, x10, lo
	lsl	x10, x10, #1
	stp	x9, x10, [x2]
	ret
.Lcovretin_BB_3f72eb13_10:
	brk	#0x1
.Lcovretin_func_end_3f72eb13:
	.size	covretin_queue_heads_place, .Lcovretin_func_end_3f72eb13-covretin_queue_heads_place
	.cfi_endproc

	.section	.text.covretin_queue_needs_notification,"ax",@progbits
	.globl	covretin_queue_needs_notification
	.p2align	2
	.type	covretin_queue_needs_notification,@function
covretin_queue_needs_notification:
	.cfi_startproc
	hint	#34
	ldr	x9, [x0]
	str	xzr, [x0]
	cbz	x9, .Lcovretin_BB_5015fe6c_8
	ldrb	w8, [x9, #56]
	cbz	w8, .Lcovretin_BB_5015fe6c_9
	cmp	w8, #2
	b.ne	.Lcovretin_BB_5015fe6c_10
	ldrb	w11, [x9, #106]
	ldrh	w10, [x9, #108]
	and	w13, w2, #0xffff
	ldur	w8, [x9, #102]
	ldrb	w12, [x9, #110]
	mov	w14, #1
	cmp	w13, #2
	strh	w14, [x9, #106]
	str	w8, [x9, #108]
	b.ne	.Lcovretin_BB_5015fe6c_14
	ldrb	w14, [x9, #96]
	tbz	w14, #0, .Lcovretin_BB_5015fe6c_14
	cmp	w11, #1
	b.ne	.Lcovretin_BB_5015fe6c_13
	ldrh	w11, [x9, #64]
	and	w13, w1, #0x7fff
	cmp	w13, w11
	b.hs	.Lcovretin_BB_5015fe6c_13
	tst	w12, #0x1
	csel	w12, wzr, w11, ne
	tst	w1, #0x8000
	csel	w14, wzr, w11, ne
	add	w10, w12, w10
	add	w12, w14, w13
	lsl	w13, w11, #1
	subs	w12, w12, w10
	csel	w14, w13, wzr, lo
	tst	w8, #0x10000
	csel	w11, w11, wzr, eq
	add	w8, w11, w8, uxth
	add	w11, w12, w14
	subs	w8, w8, w10
	csel	w10, w13, wzr, lo
	add	w8, w8, w10
	cmp	w11, w8
	cset	w10, lo
	str	x9, [x0]
	mov	w0, wzr
	strb	w10, [x3]
	ret
.Lcovretin_BB_5015fe6c_8:
	mov	w0, #101
	ret
.Lcovretin_BB_5015fe6c_9:
	str	x9, [x0]
	mov	w0, #103
	ret
.Lcovretin_BB_5015fe6c_10:
	ldrh	w8, [x9, #102]
	ldrb	w13, [x9, #96]
	mov	w12, #1
	ldrb	w11, [x9, #104]
	ldrh	w10, [x9, #106]
	strh	w12, [x9, #104]
	strh	w8, [x9, #106]
	tbz	w13, #0, .Lcovretin_BB_5015fe6c_15
	cmp	w11, #1
	b.ne	.Lcovretin_BB_5015fe6c_13
	sub	w11, w1, w8
	mov	w12, #65535
	sub	w8, w8, w10
	bic	w11, w12, w11
	cmp	w11, w8, uxth
	cset	w10, lo
	str	x9, [x0]
	mov	w0, wzr
	strb	w10, [x3]
	ret
.Lcovretin_BB_5015fe6c_13:
	mov	w10, #1
	str	x9, [x0]
	mov	w0, wzr
	strb	w10, [x3]
	ret
.Lcovretin_BB_5015fe6c_14:
	cmp	w13, #1
	cset	w10, ne
	str	x9, [x0]
	mov	w0, wzr
	strb	w10, [x3]
	ret
.Lcovretin_BB_5015fe6c_15:
	tst	w1, #0x1
	cset	w10, eq
	str	x9, [x0]
	mov	w0, wzr
	strb	w10, [x3]
	ret
.Lcovretin_func_end_5015fe6c:
	.size	covretin_queue_needs_notification, .Lcovretin_func_end_5015fe6c-covretin_queue_needs_notification
	.cfi_endproc

	.section	.text.covretin_queue_needs_reset,"ax",@progbits
	.globl	covretin_queue_needs_reset
	.p2align	2
	.type	covretin_queue_needs_reset,@function
covretin_queue_needs_reset:
	.cfi_startproc
	hint	#34
	ldr	x9, [x0]
	str	xzr, [x0]
	cbz	x9, .Lcovretin_BB_66fbf2bf_4
	ldrb	w8, [x9, #56]
	cbz	w8, .Lcovretin_BB_66fbf2bf_5
	cmp	w8, #2
	b.ne	.Lcovretin_BB_66fbf2bf_6
	ldrb	w10, [x9, #187]
	and	w10, w10, #0x1
	str	x9, [x0]
	mov	w0, wzr
	strb	w10, [x1]
	ret
.Lcovretin_BB_66fbf2bf_4:
	mov	w0, #101
	ret
.Lcovretin_BB_66fbf2bf_5:
	and	w10, wzr, #0x1
	str	x9, [x0]
	mov	w0, wzr
	strb	w10, [x1]
	ret
.Lcovretin_BB_66fbf2bf_6:
	ldrb	w10, [x9, #184]
	and	w10, w10, #0x1
	str	x9, [x0]
	mov	w0, wzr
	strb	w10, [x1]
	ret
.Lcovretin_func_end_66fbf2bf:
	.size	covretin_queue_needs_reset, .Lcovretin_func_end_66fbf2bf-covretin_queue_needs_reset
	.cfi_endproc

	.section	.text.covretin_queue_notification_place,"ax",@progbits
	.globl	covretin_queue_notification_place
	.p2align	2
	.type	covretin_queue_notification_place,@function
covretin_queue_notification_place:
	.cfi_startproc
	hint	#34
	ldr	x9, [x0]
	str	xzr, [x0]
	cbz	x9, .Lcovretin_BB_4e7bbbd6_4
	ldrb	w8, [x9, #56]
	cbz	w8, .Lcovretin_BB_4e7bbbd6_5
	cmp	w8, #2
	b.ne	.Lcovretin_BB_4e7bbbd6_6
	ldr	x10, [x9, #80]
	mov	w11, #4
	str	x9, [x0]
	mov	w0, wzr
	stp	x10, x11, [x1]
	ret
.Lcovretin_BB_4e7bbbd6_4:
	mov	w0, #101
	ret
.Lcovretin_BB_4e7bbbd6_5:
	str	x9, [x0]
	mov	w0, #103
	ret
.Lcovretin_BB_4e7bbbd6_6:
	ldrb	w8, [x9, #96]
	cmp	w8, #1
	b.ne	.Lcovretin_BB_4e7bbbd6_8
	ldrh	w8, [x9, #64]
	ldr	x10, [x9, #80]
	mov	w11, #2
	add	x8, x10, x8, lsl #1
	add	x10, x8, #4
	str	x9, [x0]
	mov	w0, wzr
	stp	x10, x11, [x1]
	ret
.Lcovretin_BB_4e7bbbd6_8:
	ldr	x10, [x9, #80]
	mov	w11, #2
	str	x9, [x0]
	mov	w0, wzr
	stp	x10, x11, [x1]
	ret
.Lcovretin_func_end_4e7bbbd6:
	.size	covretin_queue_notification_place, .Lcovretin_func_end_4e7bbbd6-covretin_queue_notification_place
	.cfi_endproc

	.section	.text.covretin_queue_set_notification,"ax",@progbits
	.globl	covretin_queue_set_notification
	.p2align	2
	.type	covretin_queue_set_notification,@function
covretin_queue_set_notification:
	.cfi_startproc
	hint	#34
	ldr	x9, [x0]
	str	xzr, [x0]
	cbz	x9, .Lcovretin_BB_5c2152d4_6
	ldrb	w8, [x9, #56]
	cbz	w8, .Lcovretin_BB_5c2152d4_7
	cmp	w8, #2
	b.ne	.Lcovretin_BB_5c2152d4_8
	tbz	w1, #0, .Lcovretin_BB_5c2152d4_11
	ldrb	w8, [x9, #96]
	cmp	w8, #1
	b.ne	.Lcovretin_BB_5c2152d4_13
	ldrb	w8, [x9, #100]
	ldrh	w10, [x9, #98]
	ubfiz	w8, w8, #15, #1
	eor	w8, w8, w10
	orr	w10, w8, #0x20000
	b	.Lcovretin_BB_5c2152d4_14
.Lcovretin_BB_5c2152d4_6:
	mov	w0, #101
	ret
.Lcovretin_BB_5c2152d4_7:
	str	x9, [x0]
	mov	w0, #103
	ret
.Lcovretin_BB_5c2152d4_8:
	ldrb	w8, [x9, #96]
	tbz	w8, #0, .Lcovretin_BB_5c2152d4_12
	tbz	w1, #0, .Lcovretin_BB_5c2152d4_15
	ldrh	w8, [x9, #64]
	ldr	x10, [x9, #88]
	mov	w12, #2
	add	x8, x10, x8, lsl #3
	ldrh	w10, [x9, #98]
	add	x11, x8, #4
	str	x9, [x0]
	mov	w0, wzr
	stp	x11, x12, [x2]
	stp	w10, wzr, [x2, #16]
	ret
.Lcovretin_BB_5c2152d4_11:
	mov	w10, #65536
	b	.Lcovretin_BB_5c2152d4_14
.Lcovretin_BB_5c2152d4_12:
	ldr	x11, [x9, #88]
	mov	w8, #1
	mov	w12, #2
	bic	w10, w8, w1
	str	x9, [x0]
	mov	w0, wzr
	stp	x11, x12, [x2]
	stp	w10, wzr, [x2, #16]
	ret
.Lcovretin_BB_5c2152d4_13:
	mov	w10, wzr
.Lcovretin_BB_5c2152d4_14:
	ldr	x11, [x9, #88]
	mov	w12, #4
	str	x9, [x0]
	mov	w0, wzr
	stp	x11, x12, [x2]
	stp	w10, wzr, [x2, #16]
	ret
.Lcovretin_BB_5c2152d4_15:
	str	x9, [x0]
	mov	w0, wzr
	stp	xzr, xzr, [x2]
	stp	wzr, wzr, [x2, #16]
	ret
.Lcovretin_func_end_5c2152d4:
	.size	covretin_queue_set_notification, .Lcovretin_func_end_5c2152d4-covretin_queue_set_notification
	.cfi_endproc

	.section	.text.covretin_queue_table,"ax",@progbits
	.globl	covretin_queue_table
	.p2align	2
	.type	covretin_queue_table,@function
covretin_queue_table:
	.cfi_startproc
	hint	#34
	ldr	x9, [x0]
	str	xzr, [x0]
	cbz	x9, .Lcovretin_BB_b2809ed0_3
	ldrb	w10, [x9, #56]
	cbz	w10, .Lcovretin_BB_b2809ed0_4
	ldrb	w8, [x9, #146]
	ldrh	w11, [x9, #144]
	cmp	w10, #2
	ldrh	w13, [x9, #148]
	ldr	x10, [x9, #136]
	lsl	x12, x11, #4
	cmp	w8, #1
	cset	w11, eq
	csel	w13, w13, wzr, eq
	b	.Lcovretin_BB_b2809ed0_5
.Lcovretin_BB_b2809ed0_3:
	mov	w0, #101
	ret
.Lcovretin_BB_b2809ed0_4:
	mov	w13, wzr
	mov	w11, wzr
	mov	x12, x10
.Lcovretin_BB_b2809ed0_5:
	str	x9, [x0]
	mov	w0, wzr
	stp	x10, x12, [x1]
	strh	w13, [x1, #16]
	strb	w11, [x1, #18]
	stur	wzr, [x1, #19]
	strb	wzr, [x1, #23]
	ret
.Lcovretin_func_end_b2809ed0:
	.size	covretin_queue_table, .Lcovretin_func_end_b2809ed0-covretin_queue_table
	.cfi_endproc

	.section	.text.covretin_queue_take,"ax",@progbits
	.globl	covretin_queue_take
	.p2align	2
	.type	covretin_queue_take,@function
covretin_queue_take:
	.cfi_startproc
	hint	#34
	cmp	x2, #0
	mov	w10, #4096
	ldr	x8, [x0]
	csel	x9, x10, xzr, eq
	cmp	x4, #0
	str	xzr, [x0]
	csel	x10, x10, xzr, eq
	cbz	x8, .Lcovretin_BB_3e9be641_8
	sub	sp, sp, #96
	.cfi_def_cfa_offset 96
	stp	x22, x21, [sp, #64]
	stp	x20, x19, [sp, #80]
	.cfi_offset w19, -8
	.cfi_offset w20, -16
	.cfi_offset w21, -24
	.cfi_offset w22, -32
	.cfi_remember_state
	ldrb	w12, [x8, #56]
	and	w11, w1, #0xffff
	add	x9, x2, x9
	add	x10, x4, x10
	cmp	w12, #2
	b.eq	.Lcovretin_BB_3e9be641_9
	cmp	w12, #1
	b.ne	.Lcovretin_BB_3e9be641_204
	ldrb	w12, [x8, #184]
	tbnz	w12, #0, .Lcovretin_BB_3e9be641_10
	ldrh	w12, [x8, #98]
	ldrh	w13, [x8, #100]
	cmp	w12, w13
	b.eq	.Lcovretin_BB_3e9be641_205
	ldrh	w16, [x8, #64]
	cmp	w11, w16
	b.hs	.Lcovretin_BB_3e9be641_208
	ldr	x14, [x8, #112]
	and	x15, x1, #0xffff
	ldrb	w13, [x14, x15]
	cmp	w13, #1
	b.ne	.Lcovretin_BB_3e9be641_210
	mov	w9, #1
	strb	w9, [x8, #184]
	str	x8, [x0]
	mov	w0, #19
	ldp	x20, x19, [sp, #80]
	ldp	x22, x21, [sp, #64]
	add	sp, sp, #96
	.cfi_def_cfa_offset 0
	.cfi_restore w19
	.cfi_restore w20
	.cfi_restore w21
	.cfi_restore w22
	ret
.Lcovretin_BB_3e9be641_8:
	mov	w0, #101
	ret
.Lcovretin_BB_3e9be641_9:
	.cfi_restore_state
	.cfi_remember_state
	ldrb	w12, [x8, #187]
	tbz	w12, #0, .Lcovretin_BB_3e9be641_11
.Lcovretin_BB_3e9be641_10:
	str	x8, [x0]
	mov	w0, #20
	ldp	x20, x19, [sp, #80]
	ldp	x22, x21, [sp, #64]
	add	sp, sp, #96
	.cfi_def_cfa_offset 0
	.cfi_restore w19
	.cfi_restore w20
	.cfi_restore w21
	.cfi_restore w22
	ret
.Lcovretin_BB_3e9be641_11:
	.cfi_restore_state
	.cfi_remember_state
	sxth	w13, w11
	ldrb	w12, [x8, #100]
	tst	w11, #0x80
	cset	w14, eq
	cmp	w13, #0
	cset	w11, mi
	cmp	w14, w12
	b.eq	.Lcovretin_BB_3e9be641_205
	eor	w11, w11, w12
	cbz	w11, .Lcovretin_BB_3e9be641_205
	ldrh	w14, [x8, #64]
	ldrh	w13, [x8, #98]
	cmp	w14, w13
	b.ls	.Lcovretin_BB_3e9be641_209
	strh	w13, [x8, #148]
	ldrh	w13, [x8, #182]
	ldr	x15, [x8, #72]
	strh	w14, [x8, #144]
	mov	w14, #1
	mov	x12, xzr
	strh	w13, [x8, #176]
	mov	w13, #508
	mov	x11, xzr
	strh	w13, [x8, #178]
	ldrb	w13, [x8, #97]
	str	x15, [x8, #136]
	strh	w14, [x8, #146]
	stp	xzr, xzr, [x8, #152]
	str	xzr, [x8, #168]
	strb	wzr, [x8, #180]
	strb	w13, [x8, #181]
	strh	wzr, [x8, #184]
	strb	w14, [x8, #186]
	stur	wzr, [sp, #11]
	str	wzr, [sp, #8]
.Lcovretin_BB_3e9be641_15:
	ldrb	w15, [x8, #56]
	cmp	x12, x3
	b.hs	.Lcovretin_BB_3e9be641_206
	cmp	x11, x5
	b.hs	.Lcovretin_BB_3e9be641_206
.Lcovretin_BB_3e9be641_17:
	add	x18, x9, x12, lsl #4
	and	w16, w15, #0xff
	str	wzr, [sp, #48]
	cmp	w16, #1
	stur	wzr, [sp, #51]
	ldr	x13, [x18]
	ldr	w17, [x18, #8]
	ldrh	w14, [x18, #12]
	ldrh	w15, [x18, #14]
	str	wzr, [sp, #40]
	stur	wzr, [sp, #43]
	str	wzr, [sp, #32]
	stur	wzr, [sp, #35]
	str	wzr, [sp, #24]
	stur	wzr, [sp, #27]
	str	wzr, [sp, #16]
	stur	wzr, [sp, #19]
	b.eq	.Lcovretin_BB_3e9be641_21
	cmp	w16, #2
	b.ne	.Lcovretin_BB_3e9be641_204
	ldrb	w16, [x8, #187]
	stur	wzr, [sp, #59]
	str	wzr, [sp, #56]
	tbz	w16, #0, .Lcovretin_BB_3e9be641_30
	mov	w1, #18
	b	.Lcovretin_BB_3e9be641_36
.Lcovretin_BB_3e9be641_21:
	ldrb	w16, [x8, #184]
	stur	wzr, [sp, #59]
	str	wzr, [sp, #56]
	tbz	w16, #0, .Lcovretin_BB_3e9be641_23
	mov	w1, #18
	b	.Lcovretin_BB_3e9be641_34
.Lcovretin_BB_3e9be641_23:
	ldrb	w16, [x8, #146]
	cmp	w16, #1
	b.ne	.Lcovretin_BB_3e9be641_33
	ldrb	w16, [x8, #152]
	cmp	w16, #1
	b.ne	.Lcovretin_BB_3e9be641_26
	ldr	x13, [x8, #160]
	ldr	w17, [x8, #168]
	ldrh	w14, [x8, #172]
	ldrh	w15, [x8, #174]
.Lcovretin_BB_3e9be641_26:
	tbnz	w14, #2, .Lcovretin_BB_3e9be641_37
	tbnz	w14, #1, .Lcovretin_BB_3e9be641_57
	ldrb	w16, [x8, #180]
	tbz	w16, #0, .Lcovretin_BB_3e9be641_57
	mov	w1, #12
	b	.Lcovretin_BB_3e9be641_160
.Lcovretin_BB_3e9be641_30:
	ldrb	w16, [x8, #146]
	cmp	w16, #1
	b.ne	.Lcovretin_BB_3e9be641_35
	ldurb	w16, [x8, #152]
	cmp	w16, #1
	b.ne	.Lcovretin_BB_3e9be641_43
	ldr	x13, [x8, #160]
	ldr	w17, [x8, #168]
	ldrh	w1, [x8, #172]
	ldrh	w2, [x8, #174]
	b	.Lcovretin_BB_3e9be641_47
.Lcovretin_BB_3e9be641_33:
	mov	w1, #20
.Lcovretin_BB_3e9be641_34:
	mov	x17, xzr
	mov	x18, xzr
	mov	x13, xzr
	mov	w2, wzr
	mov	w4, wzr
	mov	w14, #1
	b	.Lcovretin_BB_3e9be641_161
.Lcovretin_BB_3e9be641_35:
	mov	w1, #20
.Lcovretin_BB_3e9be641_36:
	mov	x17, xzr
	mov	x18, xzr
	mov	x13, xzr
	mov	w2, wzr
	mov	w4, wzr
	mov	w14, #1
	b	.Lcovretin_BB_3e9be641_177
.Lcovretin_BB_3e9be641_37:
	ldrb	w15, [x8, #181]
	cmp	w15, #1
	b.ne	.Lcovretin_BB_3e9be641_73
	tbnz	w14, #0, .Lcovretin_BB_3e9be641_91
	mov	w1, #15
	cbz	w17, .Lcovretin_BB_3e9be641_160
	mov	w14, w17
	and	x15, x14, #0xf
	cbnz	x15, .Lcovretin_BB_3e9be641_160
	ldrh	w15, [x8, #176]
	cmp	x15, x14, lsr #4
	b.hs	.Lcovretin_BB_3e9be641_121
.Lcovretin_BB_3e9be641_42:
	mov	w1, #11
	b	.Lcovretin_BB_3e9be641_160
.Lcovretin_BB_3e9be641_43:
	ldrb	w18, [x8, #186]
	ldrh	w1, [x8, #148]
	cmp	w18, #1
	b.ne	.Lcovretin_BB_3e9be641_46
	ldrh	w4, [x8, #184]
	ldrh	w2, [x8, #64]
	cmp	w2, w4
	b.ls	.Lcovretin_BB_3e9be641_92
	mov	w4, #5
	and	w4, w15, w4
	cmp	w4, #1
	b.ne	.Lcovretin_BB_3e9be641_117
.Lcovretin_BB_3e9be641_46:
	add	w2, w1, #1
	ldrh	w4, [x8, #144]
	and	w2, w2, #0xffff
	cmp	w2, w4
	and	w4, w15, #0x6
	csinc	w2, wzr, w1, hs
	cinc	w1, w4, lo
	cmp	w18, #0
	csel	w1, w15, w1, ne
.Lcovretin_BB_3e9be641_47:
	tbnz	w1, #2, .Lcovretin_BB_3e9be641_51
	tbnz	w1, #1, .Lcovretin_BB_3e9be641_74
	ldrb	w18, [x8, #180]
	tbz	w18, #0, .Lcovretin_BB_3e9be641_74
	mov	w1, #12
	b	.Lcovretin_BB_3e9be641_176
.Lcovretin_BB_3e9be641_51:
	ldrb	w18, [x8, #181]
	cmp	w18, #1
	b.ne	.Lcovretin_BB_3e9be641_90
	tbnz	w1, #0, .Lcovretin_BB_3e9be641_104
	mov	w1, #15
	cbz	w17, .Lcovretin_BB_3e9be641_176
	mov	w7, w17
	and	x17, x7, #0xf
	cbnz	x17, .Lcovretin_BB_3e9be641_176
	ldrh	w17, [x8, #176]
	cmp	x17, x7, lsr #4
	b.hs	.Lcovretin_BB_3e9be641_136
.Lcovretin_BB_3e9be641_56:
	mov	w1, #11
	b	.Lcovretin_BB_3e9be641_176
.Lcovretin_BB_3e9be641_57:
	cbz	w17, .Lcovretin_BB_3e9be641_115
	ldr	x1, [x8, #48]
	ldr	x16, [x8, #8]
	cmp	x1, x16
	b.hs	.Lcovretin_BB_3e9be641_62
	ldr	x18, [x8]
	lsl	x2, x1, #5
	add	x7, x18, x2
	ldr	x4, [x7]
	subs	x4, x13, x4
	b.lo	.Lcovretin_BB_3e9be641_62
	ldr	x7, [x7, #8]
	cbz	x7, .Lcovretin_BB_3e9be641_62
	sub	x7, x7, #1
	cmp	x4, x7
	b.ls	.Lcovretin_BB_3e9be641_101
.Lcovretin_BB_3e9be641_62:
	ldr	x1, [x8, #32]
	cbz	x1, .Lcovretin_BB_3e9be641_94
	ldr	x18, [x8, #24]
	mov	x2, xzr
	b	.Lcovretin_BB_3e9be641_65
.Lcovretin_BB_3e9be641_64:
	mov	x1, x4
	cmp	x2, x4
	b.hs	.Lcovretin_BB_3e9be641_68
.Lcovretin_BB_3e9be641_65:
	sub	x4, x1, x2
	add	x4, x2, x4, lsr #1
	ldrh	w7, [x18, x4, lsl #1]
	cmp	x16, x7
	b.ls	.Lcovretin_BB_3e9be641_64
	ldr	x19, [x8]
	lsl	x7, x7, #5
	ldr	x7, [x19, x7]
	cmp	x7, x13
	b.hi	.Lcovretin_BB_3e9be641_64
	add	x2, x4, #1
	cmp	x2, x1
	b.lo	.Lcovretin_BB_3e9be641_65
.Lcovretin_BB_3e9be641_68:
	cbz	x2, .Lcovretin_BB_3e9be641_94
	add	x18, x18, x2, lsl #1
	ldurh	w1, [x18, #-2]
	cmp	x16, x1
	b.ls	.Lcovretin_BB_3e9be641_94
	ldr	x18, [x8]
	lsl	x2, x1, #5
	add	x7, x18, x2
	ldr	x4, [x7]
	subs	x4, x13, x4
	b.lo	.Lcovretin_BB_3e9be641_96
	ldr	x7, [x7, #8]
	cbz	x7, .Lcovretin_BB_3e9be641_96
	sub	x7, x7, #1
	cmp	x4, x7
	b.hi	.Lcovretin_BB_3e9be641_96
	b	.Lcovretin_BB_3e9be641_101
.Lcovretin_BB_3e9be641_73:
	mov	w1, #13
	b	.Lcovretin_BB_3e9be641_160
.Lcovretin_BB_3e9be641_74:
	cbz	w17, .Lcovretin_BB_3e9be641_116
	ldr	x7, [x8, #48]
	ldr	x18, [x8, #8]
	cmp	x7, x18
	b.hs	.Lcovretin_BB_3e9be641_79
	ldr	x4, [x8]
	lsl	x19, x7, #5
	add	x21, x4, x19
	ldr	x20, [x21]
	subs	x20, x13, x20
	b.lo	.Lcovretin_BB_3e9be641_79
	ldr	x21, [x21, #8]
	cbz	x21, .Lcovretin_BB_3e9be641_79
	sub	x21, x21, #1
	cmp	x20, x21
	b.ls	.Lcovretin_BB_3e9be641_112
.Lcovretin_BB_3e9be641_79:
	ldr	x7, [x8, #32]
	cbz	x7, .Lcovretin_BB_3e9be641_105
	ldr	x4, [x8, #24]
	mov	x19, xzr
	b	.Lcovretin_BB_3e9be641_82
.Lcovretin_BB_3e9be641_81:
	mov	x7, x20
	cmp	x19, x20
	b.hs	.Lcovretin_BB_3e9be641_85
.Lcovretin_BB_3e9be641_82:
	sub	x20, x7, x19
	add	x20, x19, x20, lsr #1
	ldrh	w21, [x4, x20, lsl #1]
	cmp	x18, x21
	b.ls	.Lcovretin_BB_3e9be641_81
	ldr	x22, [x8]
	lsl	x21, x21, #5
	ldr	x21, [x22, x21]
	cmp	x21, x13
	b.hi	.Lcovretin_BB_3e9be641_81
	add	x19, x20, #1
	cmp	x19, x7
	b.lo	.Lcovretin_BB_3e9be641_82
.Lcovretin_BB_3e9be641_85:
	cbz	x19, .Lcovretin_BB_3e9be641_105
	add	x4, x4, x19, lsl #1
	ldurh	w7, [x4, #-2]
	cmp	x18, x7
	b.ls	.Lcovretin_BB_3e9be641_105
	ldr	x4, [x8]
	lsl	x19, x7, #5
	add	x21, x4, x19
	ldr	x20, [x21]
	subs	x20, x13, x20
	b.lo	.Lcovretin_BB_3e9be641_107
	ldr	x21, [x21, #8]
	cbz	x21, .Lcovretin_BB_3e9be641_107
	sub	x21, x21, #1
	cmp	x20, x21
	b.hi	.Lcovretin_BB_3e9be641_107
	b	.Lcovretin_BB_3e9be641_112
.Lcovretin_BB_3e9be641_90:
	mov	w1, #13
	b	.Lcovretin_BB_3e9be641_176
.Lcovretin_BB_3e9be641_91:
	mov	w1, #14
	b	.Lcovretin_BB_3e9be641_160
.Lcovretin_BB_3e9be641_92:
	mov	w1, #11
.Lcovretin_BB_3e9be641_93:
	mov	w13, #1
	strb	w13, [x8, #187]
	b	.Lcovretin_BB_3e9be641_36
.Lcovretin_BB_3e9be641_94:
	cbz	x16, .Lcovretin_BB_3e9be641_159
	ldr	x18, [x8]
.Lcovretin_BB_3e9be641_96:
	mov	x2, xzr
	mov	x1, xzr
	b	.Lcovretin_BB_3e9be641_98
.Lcovretin_BB_3e9be641_97:
	add	x1, x1, #1
	add	x2, x2, #32
	cmp	x16, x1
	b.eq	.Lcovretin_BB_3e9be641_159
.Lcovretin_BB_3e9be641_98:
	ldr	x4, [x18, x2]
	subs	x4, x13, x4
	b.lo	.Lcovretin_BB_3e9be641_97
	add	x7, x18, x2
	ldr	x7, [x7, #8]
	cbz	x7, .Lcovretin_BB_3e9be641_97
	sub	x7, x7, #1
	cmp	x4, x7
	b.hi	.Lcovretin_BB_3e9be641_97
.Lcovretin_BB_3e9be641_101:
	str	x1, [x8, #48]
	add	x18, x18, x2
	mov	w2, w17
	ldp	x16, x1, [x18]
	sub	x16, x13, x16
	sub	x4, x1, x16
	ldr	x1, [x18, #24]
	cmp	x4, x2
	csel	x18, x4, x2, lo
	b.hs	.Lcovretin_BB_3e9be641_162
	ldrh	w2, [x8, #178]
	cbz	w2, .Lcovretin_BB_3e9be641_42
	mov	w4, #1
	add	x7, x18, x13
	sub	w17, w17, w18
	strh	w15, [x8, #174]
	sub	w15, w2, #1
	stp	x4, x7, [x8, #152]
	str	w17, [x8, #168]
	strh	w14, [x8, #172]
	strh	w15, [x8, #178]
	b	.Lcovretin_BB_3e9be641_165
.Lcovretin_BB_3e9be641_104:
	mov	w1, #14
	b	.Lcovretin_BB_3e9be641_176
.Lcovretin_BB_3e9be641_105:
	cbz	x18, .Lcovretin_BB_3e9be641_175
	ldr	x4, [x8]
.Lcovretin_BB_3e9be641_107:
	mov	x19, xzr
	mov	x7, xzr
	b	.Lcovretin_BB_3e9be641_109
.Lcovretin_BB_3e9be641_108:
	add	x7, x7, #1
	add	x19, x19, #32
	cmp	x18, x7
	b.eq	.Lcovretin_BB_3e9be641_175
.Lcovretin_BB_3e9be641_109:
	ldr	x20, [x4, x19]
	subs	x20, x13, x20
	b.lo	.Lcovretin_BB_3e9be641_108
	add	x21, x4, x19
	ldr	x21, [x21, #8]
	cbz	x21, .Lcovretin_BB_3e9be641_108
	sub	x21, x21, #1
	cmp	x20, x21
	b.hi	.Lcovretin_BB_3e9be641_108
.Lcovretin_BB_3e9be641_112:
	str	x7, [x8, #48]
	add	x18, x4, x19
	mov	w19, w17
	ldp	x4, x7, [x18]
	sub	x4, x13, x4
	sub	x20, x7, x4
	ldr	x7, [x18, #24]
	cmp	x20, x19
	csel	x18, x20, x19, lo
	b.hs	.Lcovretin_BB_3e9be641_187
	ldrh	w19, [x8, #178]
	cbz	w19, .Lcovretin_BB_3e9be641_56
	sub	w17, w17, w18
	mov	w20, #1
	add	x21, x18, x13
	str	w17, [x8, #168]
	sub	w17, w19, #1
	stp	x20, x21, [x8, #152]
	strh	w1, [x8, #172]
	strh	w2, [x8, #174]
	strh	w17, [x8, #178]
	b	.Lcovretin_BB_3e9be641_190
.Lcovretin_BB_3e9be641_115:
	mov	w1, #9
	b	.Lcovretin_BB_3e9be641_160
.Lcovretin_BB_3e9be641_116:
	mov	w1, #9
	b	.Lcovretin_BB_3e9be641_176
.Lcovretin_BB_3e9be641_117:
	cmp	w2, w14
	b.ls	.Lcovretin_BB_3e9be641_120
	ldr	x2, [x8, #112]
	ldrh	w2, [x2, x14, lsl #1]
	cbz	w2, .Lcovretin_BB_3e9be641_46
	mov	w1, #17
	b	.Lcovretin_BB_3e9be641_93
.Lcovretin_BB_3e9be641_120:
	mov	w1, #10
	b	.Lcovretin_BB_3e9be641_93
.Lcovretin_BB_3e9be641_121:
	ldr	x7, [x8, #48]
	ldr	x15, [x8, #8]
	cmp	x7, x15
	b.hs	.Lcovretin_BB_3e9be641_125
	ldr	x16, [x8]
	lsl	x19, x7, #5
	add	x18, x16, x19
	ldr	x17, [x18]
	subs	x17, x13, x17
	b.lo	.Lcovretin_BB_3e9be641_125
	ldr	x18, [x18, #8]
	subs	x18, x18, x14
	b.lo	.Lcovretin_BB_3e9be641_125
	cmp	x17, x18
	b.ls	.Lcovretin_BB_3e9be641_158
.Lcovretin_BB_3e9be641_125:
	ldr	x17, [x8, #32]
	cbz	x17, .Lcovretin_BB_3e9be641_151
	ldr	x16, [x8, #24]
	mov	x18, xzr
	b	.Lcovretin_BB_3e9be641_128
.Lcovretin_BB_3e9be641_127:
	mov	x17, x1
	cmp	x18, x1
	b.hs	.Lcovretin_BB_3e9be641_131
.Lcovretin_BB_3e9be641_128:
	sub	x1, x17, x18
	add	x1, x18, x1, lsr #1
	ldrh	w2, [x16, x1, lsl #1]
	cmp	x15, x2
	b.ls	.Lcovretin_BB_3e9be641_127
	ldr	x4, [x8]
	lsl	x2, x2, #5
	ldr	x2, [x4, x2]
	cmp	x2, x13
	b.hi	.Lcovretin_BB_3e9be641_127
	add	x18, x1, #1
	cmp	x18, x17
	b.lo	.Lcovretin_BB_3e9be641_128
.Lcovretin_BB_3e9be641_131:
	cbz	x18, .Lcovretin_BB_3e9be641_151
	add	x16, x16, x18, lsl #1
	ldurh	w7, [x16, #-2]
	cmp	x15, x7
	b.ls	.Lcovretin_BB_3e9be641_151
	ldr	x16, [x8]
	lsl	x19, x7, #5
	add	x18, x16, x19
	ldr	x17, [x18]
	subs	x17, x13, x17
	b.lo	.Lcovretin_BB_3e9be641_153
	ldr	x18, [x18, #8]
	subs	x18, x18, x14
	b.lo	.Lcovretin_BB_3e9be641_153
	cmp	x17, x18
	b.hi	.Lcovretin_BB_3e9be641_153
	b	.Lcovretin_BB_3e9be641_158
.Lcovretin_BB_3e9be641_136:
	ldr	x20, [x8, #48]
	ldr	x17, [x8, #8]
	cmp	x20, x17
	b.hs	.Lcovretin_BB_3e9be641_140
	ldr	x19, [x8]
	lsl	x21, x20, #5
	add	x1, x19, x21
	ldr	x18, [x1]
	subs	x18, x13, x18
	b.lo	.Lcovretin_BB_3e9be641_140
	ldr	x1, [x1, #8]
	subs	x1, x1, x7
	b.lo	.Lcovretin_BB_3e9be641_140
	cmp	x18, x1
	b.ls	.Lcovretin_BB_3e9be641_174
.Lcovretin_BB_3e9be641_140:
	ldr	x1, [x8, #32]
	cbz	x1, .Lcovretin_BB_3e9be641_167
	ldr	x18, [x8, #24]
	mov	x2, xzr
	b	.Lcovretin_BB_3e9be641_143
.Lcovretin_BB_3e9be641_142:
	mov	x1, x4
	cmp	x2, x4
	b.hs	.Lcovretin_BB_3e9be641_146
.Lcovretin_BB_3e9be641_143:
	sub	x4, x1, x2
	add	x4, x2, x4, lsr #1
	ldrh	w19, [x18, x4, lsl #1]
	cmp	x17, x19
	b.ls	.Lcovretin_BB_3e9be641_142
	ldr	x20, [x8]
	lsl	x19, x19, #5
	ldr	x19, [x20, x19]
	cmp	x19, x13
	b.hi	.Lcovretin_BB_3e9be641_142
	add	x2, x4, #1
	cmp	x2, x1
	b.lo	.Lcovretin_BB_3e9be641_143
.Lcovretin_BB_3e9be641_146:
	cbz	x2, .Lcovretin_BB_3e9be641_167
	add	x18, x18, x2, lsl #1
	ldurh	w20, [x18, #-2]
	cmp	x17, x20
	b.ls	.Lcovretin_BB_3e9be641_167
	ldr	x19, [x8]
	lsl	x21, x20, #5
	add	x1, x19, x21
	ldr	x18, [x1]
	subs	x18, x13, x18
	b.lo	.Lcovretin_BB_3e9be641_169
	ldr	x1, [x1, #8]
	subs	x1, x1, x7
	b.lo	.Lcovretin_BB_3e9be641_169
	cmp	x18, x1
	b.hi	.Lcovretin_BB_3e9be641_169
	b	.Lcovretin_BB_3e9be641_174
.Lcovretin_BB_3e9be641_151:
	cbz	x15, .Lcovretin_BB_3e9be641_159
	ldr	x16, [x8]
.Lcovretin_BB_3e9be641_153:
	mov	x19, xzr
	mov	x7, xzr
	b	.Lcovretin_BB_3e9be641_155
.Lcovretin_BB_3e9be641_154:
	add	x7, x7, #1
	add	x19, x19, #32
	mov	w1, #8
	cmp	x15, x7
	b.eq	.Lcovretin_BB_3e9be641_160
.Lcovretin_BB_3e9be641_155:
	ldr	x17, [x16, x19]
	subs	x17, x13, x17
	b.lo	.Lcovretin_BB_3e9be641_154
	add	x18, x16, x19
	ldr	x18, [x18, #8]
	subs	x18, x18, x14
	b.lo	.Lcovretin_BB_3e9be641_154
	cmp	x17, x18
	b.hi	.Lcovretin_BB_3e9be641_154
.Lcovretin_BB_3e9be641_158:
	str	x7, [x8, #48]
	add	x15, x16, x19
	lsr	x14, x14, #4
	ldr	x16, [x15]
	ldr	x15, [x15, #24]
	mov	w4, wzr
	mov	x17, xzr
	mov	x18, xzr
	mov	w2, wzr
	sub	x13, x13, x16
	strh	w14, [x8, #144]
	mov	w14, #1
	add	x13, x13, x15
	stur	w14, [x8, #146]
	str	x13, [x8, #136]
	mov	x13, xzr
	strb	wzr, [x8, #181]
	stp	xzr, xzr, [x8, #152]
	stur	xzr, [x8, #168]
	str	wzr, [sp, #56]
	stur	wzr, [sp, #59]
	b	.Lcovretin_BB_3e9be641_166
.Lcovretin_BB_3e9be641_159:
	mov	w1, #8
.Lcovretin_BB_3e9be641_160:
	mov	x17, xzr
	mov	x18, xzr
	mov	x13, xzr
	mov	w2, wzr
	mov	w4, wzr
	mov	w14, #1
	strb	w14, [x8, #184]
.Lcovretin_BB_3e9be641_161:
	ldr	w15, [sp, #32]
	ldur	w16, [sp, #35]
	b	.Lcovretin_BB_3e9be641_178
.Lcovretin_BB_3e9be641_162:
	tbnz	w14, #0, .Lcovretin_BB_3e9be641_196
	ldrh	w17, [x8, #176]
	mov	w2, wzr
	mov	w15, wzr
.Lcovretin_BB_3e9be641_164:
	strh	w15, [x8, #148]
	sub	w15, w17, #1
	strh	w2, [x8, #146]
	stp	xzr, xzr, [x8, #152]
	stur	xzr, [x8, #168]
	strh	w15, [x8, #176]
.Lcovretin_BB_3e9be641_165:
	ubfx	w15, w14, #1, #1
	and	w14, w14, #0x2
	str	wzr, [sp, #56]
	lsr	w2, w14, #1
	add	x17, x1, x16
	stur	wzr, [sp, #59]
	strb	w15, [x8, #180]
	mov	w4, #1
.Lcovretin_BB_3e9be641_166:
	ldr	w15, [sp, #56]
	ldur	w16, [sp, #59]
	mov	w14, wzr
	mov	x1, xzr
	str	w15, [sp, #40]
	stur	w16, [sp, #43]
	mov	w16, w16
	ldr	w15, [sp, #40]
	str	w15, [sp, #32]
	stur	w16, [sp, #35]
	b	.Lcovretin_BB_3e9be641_161
.Lcovretin_BB_3e9be641_167:
	cbz	x17, .Lcovretin_BB_3e9be641_175
	ldr	x19, [x8]
.Lcovretin_BB_3e9be641_169:
	mov	x21, xzr
	mov	x20, xzr
	b	.Lcovretin_BB_3e9be641_171
.Lcovretin_BB_3e9be641_170:
	add	x20, x20, #1
	add	x21, x21, #32
	mov	w1, #8
	cmp	x17, x20
	b.eq	.Lcovretin_BB_3e9be641_176
.Lcovretin_BB_3e9be641_171:
	ldr	x18, [x19, x21]
	subs	x18, x13, x18
	b.lo	.Lcovretin_BB_3e9be641_170
	add	x1, x19, x21
	ldr	x1, [x1, #8]
	subs	x1, x1, x7
	b.lo	.Lcovretin_BB_3e9be641_170
	cmp	x18, x1
	b.hi	.Lcovretin_BB_3e9be641_170
.Lcovretin_BB_3e9be641_174:
	str	x20, [x8, #48]
	lsr	x1, x7, #4
	add	x7, x19, x21
	ldr	x19, [x7]
	ldr	x7, [x7, #24]
	mov	w4, wzr
	strh	w1, [x8, #144]
	mov	w1, #1
	mov	x17, xzr
	sub	x13, x13, x19
	mov	x18, xzr
	mov	w2, wzr
	add	x13, x13, x7
	stur	w1, [x8, #146]
	strb	wzr, [x8, #181]
	str	x13, [x8, #136]
	mov	x13, xzr
	stp	xzr, xzr, [x8, #152]
	stur	xzr, [x8, #168]
	str	wzr, [sp, #56]
	stur	wzr, [sp, #59]
	b	.Lcovretin_BB_3e9be641_191
.Lcovretin_BB_3e9be641_175:
	mov	w1, #8
.Lcovretin_BB_3e9be641_176:
	mov	x17, xzr
	mov	x18, xzr
	mov	x13, xzr
	mov	w2, wzr
	mov	w4, wzr
	mov	w14, #1
	strb	w14, [x8, #187]
.Lcovretin_BB_3e9be641_177:
	ldr	w15, [sp, #16]
	ldur	w16, [sp, #19]
.Lcovretin_BB_3e9be641_178:
	str	w15, [sp, #48]
	stur	w16, [sp, #51]
	mov	w16, w16
	ldr	w15, [sp, #48]
	str	w15, [sp, #8]
	stur	w16, [sp, #11]
	cbnz	w14, .Lcovretin_BB_3e9be641_251
	cbz	w4, .Lcovretin_BB_3e9be641_181
	add	x14, x10, x11, lsl #5
	ldr	w15, [sp, #8]
	add	x11, x11, #1
	str	x13, [x14, #16]
	ldur	w13, [sp, #11]
	stp	x17, x18, [x14]
	strb	w2, [x14, #24]
	stur	w15, [x14, #25]
	str	w13, [x14, #28]
.Lcovretin_BB_3e9be641_181:
	ldrb	w15, [x8, #56]
	cmp	w15, #2
	b.eq	.Lcovretin_BB_3e9be641_183
	cmp	w15, #1
	b.ne	.Lcovretin_BB_3e9be641_184
.Lcovretin_BB_3e9be641_183:
	ldurb	w13, [x8, #152]
	cmp	w13, #1
	b.eq	.Lcovretin_BB_3e9be641_185
.Lcovretin_BB_3e9be641_184:
	add	x12, x12, #1
.Lcovretin_BB_3e9be641_185:
	cmp	x11, x5
	b.hs	.Lcovretin_BB_3e9be641_206
	cmp	x12, x3
	b.lo	.Lcovretin_BB_3e9be641_17
	b	.Lcovretin_BB_3e9be641_206
.Lcovretin_BB_3e9be641_187:
	tbnz	w1, #0, .Lcovretin_BB_3e9be641_199
	ldrh	w17, [x8, #176]
	mov	w19, wzr
	mov	w2, wzr
.Lcovretin_BB_3e9be641_189:
	sub	w17, w17, #1
	strh	w19, [x8, #146]
	strh	w2, [x8, #148]
	stp	xzr, xzr, [x8, #152]
	stur	xzr, [x8, #168]
	strh	w17, [x8, #176]
.Lcovretin_BB_3e9be641_190:
	ubfx	w17, w1, #1, #1
	and	w1, w1, #0x2
	str	wzr, [sp, #56]
	lsr	w2, w1, #1
	stur	wzr, [sp, #59]
	strb	w17, [x8, #180]
	add	x17, x7, x4
	mov	w4, #1
.Lcovretin_BB_3e9be641_191:
	cmp	w16, #1
	b.eq	.Lcovretin_BB_3e9be641_195
	ldrb	w16, [x8, #186]
	cmp	w16, #1
	b.ne	.Lcovretin_BB_3e9be641_195
	ldrh	w16, [x8, #184]
	mov	w1, #5
	and	w1, w15, w1
	add	w15, w16, #1
	cmp	w1, #1
	strh	w15, [x8, #184]
	b.eq	.Lcovretin_BB_3e9be641_195
	ldr	x16, [x8, #112]
	strb	wzr, [x8, #186]
	strh	w15, [x16, x14, lsl #1]
	ldrh	w14, [x8, #64]
	ldrh	w15, [x8, #98]
	ldrh	w16, [x8, #184]
	ldrb	w1, [x8, #100]
	strb	wzr, [x8, #101]
	sub	w14, w14, w15
	cmp	w16, w14, uxth
	eor	w7, w1, #0x1
	csneg	w14, w15, w14, lo
	csel	w1, w1, w7, lo
	add	w14, w14, w16
	strb	w1, [x8, #100]
	strh	w14, [x8, #98]
.Lcovretin_BB_3e9be641_195:
	ldr	w15, [sp, #56]
	ldur	w16, [sp, #59]
	mov	w14, wzr
	mov	x1, xzr
	str	w15, [sp, #24]
	stur	w16, [sp, #27]
	mov	w16, w16
	ldr	w15, [sp, #24]
	str	w15, [sp, #16]
	stur	w16, [sp, #19]
	b	.Lcovretin_BB_3e9be641_177
.Lcovretin_BB_3e9be641_196:
	ldrh	w17, [x8, #144]
	cmp	w17, w15
	b.ls	.Lcovretin_BB_3e9be641_202
	ldrh	w17, [x8, #176]
	cmp	w17, #1
	b.eq	.Lcovretin_BB_3e9be641_42
	mov	w2, #1
	b	.Lcovretin_BB_3e9be641_164
.Lcovretin_BB_3e9be641_199:
	ldrh	w17, [x8, #144]
	cmp	w17, w2, uxth
	b.ls	.Lcovretin_BB_3e9be641_203
	ldrh	w17, [x8, #176]
	cmp	w17, #1
	b.eq	.Lcovretin_BB_3e9be641_56
	mov	w19, #1
	b	.Lcovretin_BB_3e9be641_189
.Lcovretin_BB_3e9be641_202:
	mov	w1, #10
	b	.Lcovretin_BB_3e9be641_160
.Lcovretin_BB_3e9be641_203:
	mov	w1, #10
	b	.Lcovretin_BB_3e9be641_176
.Lcovretin_BB_3e9be641_204:
	str	x8, [x0]
	mov	w0, #103
	ldp	x20, x19, [sp, #80]
	ldp	x22, x21, [sp, #64]
	add	sp, sp, #96
	.cfi_def_cfa_offset 0
	.cfi_restore w19
	.cfi_restore w20
	.cfi_restore w21
	.cfi_restore w22
	ret
.Lcovretin_BB_3e9be641_205:
	.cfi_restore_state
	.cfi_remember_state
	str	x8, [x0]
	mov	w0, #21
	ldp	x20, x19, [sp, #80]
	ldp	x22, x21, [sp, #64]
	add	sp, sp, #96
	.cfi_def_cfa_offset 0
	.cfi_restore w19
	.cfi_restore w20
	.cfi_restore w21
	.cfi_restore w22
	ret
.Lcovretin_BB_3e9be641_206:
	.cfi_restore_state
	.cfi_remember_state
	cbz	w15, .Lcovretin_BB_3e9be641_249
	ldrb	w10, [x8, #146]
	ldrh	w13, [x8, #144]
	cmp	w15, #2
	ldrh	w14, [x8, #148]
	ldr	x9, [x8, #136]
	lsl	x13, x13, #4
	cmp	w10, #1
	cset	w10, eq
	csel	w14, w14, wzr, eq
	b	.Lcovretin_BB_3e9be641_250
.Lcovretin_BB_3e9be641_208:
	mov	w9, #1
	strb	w9, [x8, #184]
.Lcovretin_BB_3e9be641_209:
	str	x8, [x0]
	mov	w0, #11
	ldp	x20, x19, [sp, #80]
	ldp	x22, x21, [sp, #64]
	add	sp, sp, #96
	.cfi_def_cfa_offset 0
	.cfi_restore w19
	.cfi_restore w20
	.cfi_restore w21
	.cfi_restore w22
	ret
.Lcovretin_BB_3e9be641_210:
	.cfi_restore_state
	.cfi_remember_state
	mov	x13, x8
	mov	w17, #1
	stur	wzr, [sp, #11]
	str	xzr, [x13, #152]!
	ldur	x18, [x13, #-80]
	sturh	w11, [x13, #-4]
	ldrh	w11, [x13, #30]
	sturh	w16, [x13, #-8]
	ldurb	w16, [x13, #-55]
	strh	w11, [x13, #24]
	mov	w11, #508
	sturh	w17, [x13, #-6]
	stur	x18, [x13, #-16]
	stp	xzr, xzr, [x13, #8]
	strh	w11, [x13, #26]
	add	w11, w12, #1
	strb	wzr, [x13, #28]
	strb	w16, [x13, #29]
	strb	w17, [x14, x15]
	ldurb	w12, [x13, #-96]
	sturh	w11, [x13, #-54]
	str	wzr, [sp, #8]
	cmp	w12, #1
	b.ne	.Lcovretin_BB_3e9be641_252
	cmp	x3, x5
	mov	x11, xzr
	csel	x12, x3, x5, lo
	cbz	x12, .Lcovretin_BB_3e9be641_15
.Lcovretin_BB_3e9be641_212:
	ldrb	w14, [x8, #184]
	tbnz	w14, #0, .Lcovretin_BB_3e9be641_283
	add	x17, x9, x11, lsl #4
	ldrb	w18, [x13]
	ldrh	w16, [x17, #12]
	ldr	x14, [x17]
	ldr	w15, [x17, #8]
	cmp	w18, #1
	tbnz	w16, #2, .Lcovretin_BB_3e9be641_253
	b.eq	.Lcovretin_BB_3e9be641_283
	ldrb	w18, [x8, #146]
	cmp	w18, #1
	b.ne	.Lcovretin_BB_3e9be641_283
	tbnz	w16, #0, .Lcovretin_BB_3e9be641_218
	mov	w1, wzr
	mov	w17, wzr
	b	.Lcovretin_BB_3e9be641_221
.Lcovretin_BB_3e9be641_218:
	ldrh	w17, [x17, #14]
	ldrh	w18, [x8, #144]
	cmp	w18, w17
	b.ls	.Lcovretin_BB_3e9be641_283
	ldrh	w18, [x8, #176]
	cmp	w18, #1
	b.eq	.Lcovretin_BB_3e9be641_283
	mov	w1, #1
.Lcovretin_BB_3e9be641_221:
	ands	w18, w16, #0x2
	cset	w2, eq
	cbz	w15, .Lcovretin_BB_3e9be641_283
	ldrb	w4, [x8, #180]
	and	w2, w2, w4
	tbnz	w2, #0, .Lcovretin_BB_3e9be641_283
	ldr	x4, [x8, #48]
	ldr	x2, [x8, #8]
	cmp	x4, x2
	b.hs	.Lcovretin_BB_3e9be641_227
	ldr	x7, [x8]
	add	x4, x7, x4, lsl #5
	ldr	x7, [x4]
	subs	x7, x14, x7
	b.lo	.Lcovretin_BB_3e9be641_227
	ldr	x19, [x4, #8]
	subs	x19, x19, x15
	b.lo	.Lcovretin_BB_3e9be641_227
	cmp	x7, x19
	b.ls	.Lcovretin_BB_3e9be641_246
.Lcovretin_BB_3e9be641_227:
	ldr	x7, [x8, #32]
	cbz	x7, .Lcovretin_BB_3e9be641_238
	ldr	x4, [x8, #24]
	mov	x19, xzr
	b	.Lcovretin_BB_3e9be641_230
.Lcovretin_BB_3e9be641_229:
	mov	x7, x20
	cmp	x19, x20
	b.hs	.Lcovretin_BB_3e9be641_233
.Lcovretin_BB_3e9be641_230:
	sub	x20, x7, x19
	add	x20, x19, x20, lsr #1
	ldrh	w21, [x4, x20, lsl #1]
	cmp	x2, x21
	b.ls	.Lcovretin_BB_3e9be641_229
	ldr	x22, [x8]
	lsl	x21, x21, #5
	ldr	x21, [x22, x21]
	cmp	x21, x14
	b.hi	.Lcovretin_BB_3e9be641_229
	add	x19, x20, #1
	cmp	x19, x7
	b.lo	.Lcovretin_BB_3e9be641_230
.Lcovretin_BB_3e9be641_233:
	cbz	x19, .Lcovretin_BB_3e9be641_238
	add	x4, x4, x19, lsl #1
	ldurh	w7, [x4, #-2]
	cmp	x2, x7
	b.ls	.Lcovretin_BB_3e9be641_238
	ldr	x4, [x8]
	lsl	x19, x7, #5
	add	x21, x4, x19
	ldr	x20, [x21]
	subs	x20, x14, x20
	b.lo	.Lcovretin_BB_3e9be641_240
	ldr	x21, [x21, #8]
	subs	x21, x21, x15
	b.lo	.Lcovretin_BB_3e9be641_240
	cmp	x20, x21
	b.hi	.Lcovretin_BB_3e9be641_240
	b	.Lcovretin_BB_3e9be641_245
.Lcovretin_BB_3e9be641_238:
	cbz	x2, .Lcovretin_BB_3e9be641_283
	ldr	x4, [x8]
.Lcovretin_BB_3e9be641_240:
	mov	x19, xzr
	mov	x7, xzr
	b	.Lcovretin_BB_3e9be641_242
.Lcovretin_BB_3e9be641_241:
	add	x7, x7, #1
	add	x19, x19, #32
	cmp	x2, x7
	b.eq	.Lcovretin_BB_3e9be641_283
.Lcovretin_BB_3e9be641_242:
	ldr	x20, [x4, x19]
	subs	x20, x14, x20
	b.lo	.Lcovretin_BB_3e9be641_241
	add	x21, x4, x19
	ldr	x21, [x21, #8]
	subs	x21, x21, x15
	b.lo	.Lcovretin_BB_3e9be641_241
	cmp	x20, x21
	b.hi	.Lcovretin_BB_3e9be641_241
.Lcovretin_BB_3e9be641_245:
	str	x7, [x8, #48]
	add	x2, x4, x19
	ldr	x4, [x2]
	ldr	x2, [x2, #24]
	sub	x4, x14, x4
	add	x2, x4, x2
	b	.Lcovretin_BB_3e9be641_247
.Lcovretin_BB_3e9be641_246:
	ldr	x2, [x4, #24]
	add	x2, x2, x7
.Lcovretin_BB_3e9be641_247:
	ubfx	w16, w16, #1, #1
	strh	w1, [x8, #146]
	ldrh	w1, [x8, #176]
	strh	w17, [x8, #148]
	add	x17, x10, x11, lsl #5
	add	x11, x11, #1
	strb	w16, [x8, #180]
	lsr	w16, w18, #1
	sub	w1, w1, #1
	cmp	x11, x12
	strh	w1, [x8, #176]
	stp	x2, x15, [x17]
	str	x14, [x17, #16]
	strb	w16, [x17, #24]
	stur	wzr, [x17, #25]
	str	wzr, [x17, #28]
	b.ne	.Lcovretin_BB_3e9be641_212
	mov	x11, x12
	b	.Lcovretin_BB_3e9be641_15
.Lcovretin_BB_3e9be641_249:
	mov	w9, w15
	mov	w14, wzr
	mov	w10, wzr
	mov	x13, x9
.Lcovretin_BB_3e9be641_250:
	str	x8, [x0]
	mov	w0, wzr
	stp	x12, x11, [x6]
	stp	x9, x13, [x6, #16]
	strh	w14, [x6, #32]
	strb	w10, [x6, #34]
	stur	wzr, [x6, #35]
	strb	wzr, [x6, #39]
	ldp	x20, x19, [sp, #80]
	ldp	x22, x21, [sp, #64]
	add	sp, sp, #96
	.cfi_def_cfa_offset 0
	.cfi_restore w19
	.cfi_restore w20
	.cfi_restore w21
	.cfi_restore w22
	ret
.Lcovretin_BB_3e9be641_251:
	.cfi_restore_state
	.cfi_remember_state
	str	x8, [x0]
	adrp	x8, .Lcovretin_switch.table.covretin_queue_step
	add	x8, x8, :lo12:.Lcovretin_switch.table.covretin_queue_step
	ldr	w0, [x8, x1, lsl #2]
	ldp	x20, x19, [sp, #80]
	ldp	x22, x21, [sp, #64]
	add	sp, sp, #96
	.cfi_def_cfa_offset 0
	.cfi_restore w19
	.cfi_restore w20
	.cfi_restore w21
	.cfi_restore w22
	ret
.Lcovretin_BB_3e9be641_252:
	.cfi_restore_state
	mov	x12, xzr
	mov	x11, xzr
	b	.Lcovretin_BB_3e9be641_15
.Lcovretin_BB_3e9be641_253:
	b.eq	.Lcovretin_BB_3e9be641_283
	ldrb	w12, [x8, #146]
	cmp	w12, #1
	b.ne	.Lcovretin_BB_3e9be641_283
	tbnz	w16, #0, .Lcovretin_BB_3e9be641_283
	ldrb	w12, [x8, #181]
	tbz	w12, #0, .Lcovretin_BB_3e9be641_283
	cbz	w15, .Lcovretin_BB_3e9be641_283
	and	x12, x15, #0xf
	cbnz	x12, .Lcovretin_BB_3e9be641_283
	ldrh	w12, [x8, #176]
	cmp	x12, x15, lsr #4
	b.lo	.Lcovretin_BB_3e9be641_283
	ldr	x17, [x8, #48]
	ldr	x12, [x8, #8]
	cmp	x17, x12
	b.hs	.Lcovretin_BB_3e9be641_264
	ldr	x16, [x8]
	lsl	x18, x17, #5
	add	x2, x16, x18
	ldr	x1, [x2]
	subs	x1, x14, x1
	b.lo	.Lcovretin_BB_3e9be641_264
	ldr	x2, [x2, #8]
	subs	x2, x2, x15
	b.lo	.Lcovretin_BB_3e9be641_264
	cmp	x1, x2
	b.ls	.Lcovretin_BB_3e9be641_282
.Lcovretin_BB_3e9be641_264:
	ldr	x17, [x8, #32]
	cbz	x17, .Lcovretin_BB_3e9be641_275
	ldr	x16, [x8, #24]
	mov	x18, xzr
	b	.Lcovretin_BB_3e9be641_267
.Lcovretin_BB_3e9be641_266:
	mov	x17, x1
	cmp	x18, x1
	b.hs	.Lcovretin_BB_3e9be641_270
.Lcovretin_BB_3e9be641_267:
	sub	x1, x17, x18
	add	x1, x18, x1, lsr #1
	ldrh	w2, [x16, x1, lsl #1]
	cmp	x12, x2
	b.ls	.Lcovretin_BB_3e9be641_266
	ldr	x4, [x8]
	lsl	x2, x2, #5
	ldr	x2, [x4, x2]
	cmp	x2, x14
	b.hi	.Lcovretin_BB_3e9be641_266
	add	x18, x1, #1
	cmp	x18, x17
	b.lo	.Lcovretin_BB_3e9be641_267
.Lcovretin_BB_3e9be641_270:
	cbz	x18, .Lcovretin_BB_3e9be641_275
	add	x16, x16, x18, lsl #1
	ldurh	w17, [x16, #-2]
	cmp	x12, x17
	b.ls	.Lcovretin_BB_3e9be641_275
	ldr	x16, [x8]
	lsl	x18, x17, #5
	add	x2, x16, x18
	ldr	x1, [x2]
	subs	x1, x14, x1
	b.lo	.Lcovretin_BB_3e9be641_277
	ldr	x2, [x2, #8]
	subs	x2, x2, x15
	b.lo	.Lcovretin_BB_3e9be641_277
	cmp	x1, x2
	b.hi	.Lcovretin_BB_3e9be641_277
	b	.Lcovretin_BB_3e9be641_282
.Lcovretin_BB_3e9be641_275:
	cbz	x12, .Lcovretin_BB_3e9be641_283
	ldr	x16, [x8]
.Lcovretin_BB_3e9be641_277:
	mov	x18, xzr
	mov	x17, xzr
	b	.Lcovretin_BB_3e9be641_279
.Lcovretin_BB_3e9be641_278:
	add	x17, x17, #1
	add	x18, x18, #32
	cmp	x12, x17
	b.eq	.Lcovretin_BB_3e9be641_283
.Lcovretin_BB_3e9be641_279:
	ldr	x1, [x16, x18]
	subs	x1, x14, x1
	b.lo	.Lcovretin_BB_3e9be641_278
	add	x2, x16, x18
	ldr	x2, [x2, #8]
	subs	x2, x2, x15
	b.lo	.Lcovretin_BB_3e9be641_278
	cmp	x1, x2
	b.hi	.Lcovretin_BB_3e9be641_278
.Lcovretin_BB_3e9be641_282:
	str	x17, [x8, #48]
	add	x12, x16, x18
	lsr	x15, x15, #4
	ldr	x17, [x12]
	ldr	x12, [x12, #24]
	mov	w16, #1
	stur	w16, [x8, #146]
	sub	x14, x14, x17
	strb	wzr, [x8, #181]
	add	x12, x14, x12
	strh	w15, [x8, #144]
	str	x12, [x8, #136]
	add	x12, x11, #1
	stp	xzr, xzr, [x13]
	str	xzr, [x13, #16]
	b	.Lcovretin_BB_3e9be641_15
.Lcovretin_BB_3e9be641_283:
	mov	x12, x11
	b	.Lcovretin_BB_3e9be641_15
.Lcovretin_func_end_3e9be641:
	.size	covretin_queue_take, .Lcovretin_func_end_3e9be641-covretin_queue_take
	.cfi_endproc

	.section	.text.covretin_queue_translate,"ax",@progbits
	.globl	covretin_queue_translate
	.p2align	2
	.type	covretin_queue_translate,@function
covretin_queue_translate:
	.cfi_startproc
	hint	#34
	ldr	x8, [x0]
	str	xzr, [x0]
	cbz	x8, .Lcovretin_BB_b89d4f87_29
	movi	v0.2d, #0000000000000000
	ldr	x11, [x8, #48]
	ldr	x9, [x8, #8]
	cmp	x11, x9
	stp	q0, q0, [sp, #-64]!
	.cfi_def_cfa_offset 64
	.cfi_remember_state
	stp	q0, q0, [sp, #32]
	b.hs	.Lcovretin_BB_b89d4f87_6
	tst	w1, #0x1
	mov	w10, #16
	csel	x12, x10, xzr, ne
	cbz	x3, .Lcovretin_BB_b89d4f87_6
	ldr	x10, [x8]
	lsl	x13, x11, #5
	add	x15, x10, x13
	ldr	x14, [x15, x12]
	subs	x14, x2, x14
	b.lo	.Lcovretin_BB_b89d4f87_6
	ldr	x15, [x15, #8]
	subs	x15, x15, x3
	b.lo	.Lcovretin_BB_b89d4f87_6
	cmp	x14, x15
	b.ls	.Lcovretin_BB_b89d4f87_27
.Lcovretin_BB_b89d4f87_6:
	ldr	x11, [x8, #32]
	cbz	x11, .Lcovretin_BB_b89d4f87_18
	ldr	x10, [x8, #24]
	mov	x12, xzr
	b	.Lcovretin_BB_b89d4f87_9
.Lcovretin_BB_b89d4f87_8:
	mov	x11, x13
	cmp	x12, x13
	b.hs	.Lcovretin_BB_b89d4f87_12
.Lcovretin_BB_b89d4f87_9:
	sub	x13, x11, x12
	add	x13, x12, x13, lsr #1
	ldrh	w14, [x10, x13, lsl #1]
	cmp	x9, x14
	b.ls	.Lcovretin_BB_b89d4f87_8
	ldr	x15, [x8]
	lsl	x14, x14, #5
	ldr	x14, [x15, x14]
	cmp	x14, x2
	b.hi	.Lcovretin_BB_b89d4f87_8
	add	x12, x13, #1
	cmp	x12, x11
	b.lo	.Lcovretin_BB_b89d4f87_9
.Lcovretin_BB_b89d4f87_12:
	cbz	x12, .Lcovretin_BB_b89d4f87_18
	add	x10, x10, x12, lsl #1
	ldurh	w11, [x10, #-2]
	cmp	x9, x11
	b.ls	.Lcovretin_BB_b89d4f87_18
	ldr	x10, [x8]
	tst	w1, #0x1
	mov	w12, #16
	csel	x12, x12, xzr, ne
	cbz	x3, .Lcovretin_BB_b89d4f87_20
	lsl	x13, x11, #5
	add	x15, x10, x13
	ldr	x14, [x15, x12]
	subs	x14, x2, x14
	b.lo	.Lcovretin_BB_b89d4f87_20
	ldr	x15, [x15, #8]
	subs	x15, x15, x3
	b.lo	.Lcovretin_BB_b89d4f87_21
	cmp	x14, x15
	b.hi	.Lcovretin_BB_b89d4f87_21
	b	.Lcovretin_BB_b89d4f87_27
.Lcovretin_BB_b89d4f87_18:
	cbz	x9, .Lcovretin_BB_b89d4f87_28
	ldr	x10, [x8]
	tst	w1, #0x1
	mov	w11, #16
	csel	x12, x11, xzr, ne
.Lcovretin_BB_b89d4f87_20:
	cbz	x3, .Lcovretin_BB_b89d4f87_28
.Lcovretin_BB_b89d4f87_21:
	mov	x13, xzr
	mov	x11, xzr
	add	x14, x10, #8
	add	x12, x10, x12
	b	.Lcovretin_BB_b89d4f87_23
.Lcovretin_BB_b89d4f87_22:
	add	x11, x11, #1
	add	x13, x13, #32
	cmp	x9, x11
	b.eq	.Lcovretin_BB_b89d4f87_28
.Lcovretin_BB_b89d4f87_23:
	ldr	x15, [x12, x13]
	subs	x15, x2, x15
	b.lo	.Lcovretin_BB_b89d4f87_22
	ldr	x16, [x14, x13]
	subs	x16, x16, x3
	b.lo	.Lcovretin_BB_b89d4f87_22
	cmp	x15, x16
	b.hi	.Lcovretin_BB_b89d4f87_22
	tst	w1, #0x1
	mov	w9, #16
	csel	x12, x9, xzr, ne
.Lcovretin_BB_b89d4f87_27:
	str	x11, [x8, #48]
	add	x10, x10, x13
	ldp	q1, q0, [x10]
	add	x10, sp, #32
	str	x8, [x0]
	mov	w0, wzr
	stp	q1, q0, [sp, #32]
	ldr	x11, [sp, #56]
	ldr	x10, [x10, x12]
	str	q0, [sp, #16]
	add	x8, x11, x2
	sub	x8, x8, x10
	stp	x8, x3, [x4]
	add	sp, sp, #64
	.cfi_def_cfa_offset 0
	ret
.Lcovretin_BB_b89d4f87_28:
	.cfi_restore_state
	str	x8, [x0]
	mov	w0, #9
	add	sp, sp, #64
	.cfi_def_cfa_offset 0
	ret
.Lcovretin_BB_b89d4f87_29:
	mov	w0, #101
	ret
.Lcovretin_func_end_b89d4f87:
	.size	covretin_queue_translate, .Lcovretin_func_end_b89d4f87-covretin_queue_translate
	.cfi_endproc

	.section	.text.covretin_queue_walk,"ax",@progbits
	.globl	covretin_queue_walk
	.p2align	2
	.type	covretin_queue_walk,@function
covretin_queue_walk:
	.cfi_startproc
	hint	#34
	cmp	x1, #0
	mov	w10, #4096
	ldr	x9, [x0]
	csel	x8, x10, xzr, eq
	cmp	x3, #0
	str	xzr, [x0]
	csel	x10, x10, xzr, eq
	cbz	x9, .Lcovretin_BB_bc369795_40
	sub	sp, sp, #96
	.cfi_def_cfa_offset 96
	stp	x22, x21, [sp, #64]
	stp	x20, x19, [sp, #80]
	.cfi_offset w19, -8
	.cfi_offset w20, -16
	.cfi_offset w21, -24
	.cfi_offset w22, -32
	.cfi_remember_state
	ldrb	w11, [x9, #56]
	add	x8, x1, x8
	stur	wzr, [sp, #11]
	str	wzr, [sp, #8]
	cmp	w11, #1
	add	x11, x3, x10
	b.ne	.Lcovretin_BB_bc369795_41
	cmp	x2, x4
	mov	x10, xzr
	csel	x12, x2, x4, lo
	cbz	x12, .Lcovretin_BB_bc369795_73
.Lcovretin_BB_bc369795_3:
	ldrb	w13, [x9, #184]
	tbnz	w13, #0, .Lcovretin_BB_bc369795_72
	add	x16, x8, x10, lsl #4
	ldrh	w15, [x16, #12]
	ldr	x13, [x16]
	ldr	w14, [x16, #8]
	tbnz	w15, #2, .Lcovretin_BB_bc369795_42
	ldurb	w17, [x9, #152]
	cmp	w17, #1
	b.eq	.Lcovretin_BB_bc369795_72
	ldrb	w17, [x9, #146]
	cmp	w17, #1
	b.ne	.Lcovretin_BB_bc369795_72
	tbnz	w15, #0, .Lcovretin_BB_bc369795_9
	mov	w18, wzr
	mov	w16, wzr
	b	.Lcovretin_BB_bc369795_12
.Lcovretin_BB_bc369795_9:
	ldrh	w16, [x16, #14]
	ldrh	w17, [x9, #144]
	cmp	w17, w16
	b.ls	.Lcovretin_BB_bc369795_72
	ldrh	w17, [x9, #176]
	cmp	w17, #1
	b.eq	.Lcovretin_BB_bc369795_72
	mov	w18, #1
.Lcovretin_BB_bc369795_12:
	ands	w17, w15, #0x2
	cset	w1, eq
	cbz	w14, .Lcovretin_BB_bc369795_72
	ldrb	w3, [x9, #180]
	and	w1, w1, w3
	tbnz	w1, #0, .Lcovretin_BB_bc369795_72
	ldr	x3, [x9, #48]
	ldr	x1, [x9, #8]
	cmp	x3, x1
	b.hs	.Lcovretin_BB_bc369795_18
	ldr	x6, [x9]
	add	x3, x6, x3, lsl #5
	ldr	x6, [x3]
	subs	x6, x13, x6
	b.lo	.Lcovretin_BB_bc369795_18
	ldr	x7, [x3, #8]
	subs	x7, x7, x14
	b.lo	.Lcovretin_BB_bc369795_18
	cmp	x6, x7
	b.ls	.Lcovretin_BB_bc369795_37
.Lcovretin_BB_bc369795_18:
	ldr	x6, [x9, #32]
	cbz	x6, .Lcovretin_BB_bc369795_29
	ldr	x3, [x9, #24]
	mov	x7, xzr
	b	.Lcovretin_BB_bc369795_21
.Lcovretin_BB_bc369795_20:
	mov	x6, x19
	cmp	x7, x19
	b.hs	.Lcovretin_BB_bc369795_24
.Lcovretin_BB_bc369795_21:
	sub	x19, x6, x7
	add	x19, x7, x19, lsr #1
	ldrh	w20, [x3, x19, lsl #1]
	cmp	x1, x20
	b.ls	.Lcovretin_BB_bc369795_20
	ldr	x21, [x9]
	lsl	x20, x20, #5
	ldr	x20, [x21, x20]
	cmp	x20, x13
	b.hi	.Lcovretin_BB_bc369795_20
	add	x7, x19, #1
	cmp	x7, x6
	b.lo	.Lcovretin_BB_bc369795_21
.Lcovretin_BB_bc369795_24:
	cbz	x7, .Lcovretin_BB_bc369795_29
	add	x3, x3, x7, lsl #1
	ldurh	w6, [x3, #-2]
	cmp	x1, x6
	b.ls	.Lcovretin_BB_bc369795_29
	ldr	x3, [x9]
	lsl	x7, x6, #5
	add	x20, x3, x7
	ldr	x19, [x20]
	subs	x19, x13, x19
	b.lo	.Lcovretin_BB_bc369795_31
	ldr	x20, [x20, #8]
	subs	x20, x20, x14
	b.lo	.Lcovretin_BB_bc369795_31
	cmp	x19, x20
	b.hi	.Lcovretin_BB_bc369795_31
	b	.Lcovretin_BB_bc369795_36
.Lcovretin_BB_bc369795_29:
	cbz	x1, .Lcovretin_BB_bc369795_72
	ldr	x3, [x9]
.Lcovretin_BB_bc369795_31:
	mov	x7, xzr
	mov	x6, xzr
	b	.Lcovretin_BB_bc369795_33
.Lcovretin_BB_bc369795_32:
	add	x6, x6, #1
	add	x7, x7, #32
	cmp	x1, x6
	b.eq	.Lcovretin_BB_bc369795_72
.Lcovretin_BB_bc369795_33:
	ldr	x19, [x3, x7]
	subs	x19, x13, x19
	b.lo	.Lcovretin_BB_bc369795_32
	add	x20, x3, x7
	ldr	x20, [x20, #8]
	subs	x20, x20, x14
	b.lo	.Lcovretin_BB_bc369795_32
	cmp	x19, x20
	b.hi	.Lcovretin_BB_bc369795_32
.Lcovretin_BB_bc369795_36:
	str	x6, [x9, #48]
	add	x1, x3, x7
	ldr	x3, [x1]
	ldr	x1, [x1, #24]
	sub	x3, x13, x3
	add	x1, x3, x1
	b	.Lcovretin_BB_bc369795_38
.Lcovretin_BB_bc369795_37:
	ldr	x1, [x3, #24]
	add	x1, x1, x6
.Lcovretin_BB_bc369795_38:
	ubfx	w15, w15, #1, #1
	strh	w18, [x9, #146]
	ldrh	w18, [x9, #176]
	strh	w16, [x9, #148]
	add	x16, x11, x10, lsl #5
	add	x10, x10, #1
	strb	w15, [x9, #180]
	lsr	w15, w17, #1
	sub	w18, w18, #1
	cmp	x10, x12
	strh	w18, [x9, #176]
	stp	x1, x14, [x16]
	str	x13, [x16, #16]
	strb	w15, [x16, #24]
	stur	wzr, [x16, #25]
	str	wzr, [x16, #28]
	b.ne	.Lcovretin_BB_bc369795_3
	mov	x10, x12
	b	.Lcovretin_BB_bc369795_73
.Lcovretin_BB_bc369795_40:
	.cfi_def_cfa wsp, 0
	.cfi_same_value w19
	.cfi_same_value w20
	.cfi_same_value w21
	.cfi_same_value w22
	mov	w0, #101
	ret
.Lcovretin_BB_bc369795_41:
	.cfi_restore_state
	.cfi_remember_state
	mov	x12, xzr
	mov	x10, xzr
	b	.Lcovretin_BB_bc369795_73
.Lcovretin_BB_bc369795_42:
	ldrb	w12, [x9, #152]
	cmp	w12, #1
	b.eq	.Lcovretin_BB_bc369795_72
	ldrb	w12, [x9, #146]
	cmp	w12, #1
	b.ne	.Lcovretin_BB_bc369795_72
	tbnz	w15, #0, .Lcovretin_BB_bc369795_72
	ldrb	w12, [x9, #181]
	tbz	w12, #0, .Lcovretin_BB_bc369795_72
	cbz	w14, .Lcovretin_BB_bc369795_72
	and	x12, x14, #0xf
	cbnz	x12, .Lcovretin_BB_bc369795_72
	ldrh	w12, [x9, #176]
	cmp	x12, x14, lsr #4
	b.lo	.Lcovretin_BB_bc369795_72
	ldr	x16, [x9, #48]
	ldr	x12, [x9, #8]
	cmp	x16, x12
	b.hs	.Lcovretin_BB_bc369795_53
	ldr	x15, [x9]
	lsl	x17, x16, #5
	add	x1, x15, x17
	ldr	x18, [x1]
	subs	x18, x13, x18
	b.lo	.Lcovretin_BB_bc369795_53
	ldr	x1, [x1, #8]
	subs	x1, x1, x14
	b.lo	.Lcovretin_BB_bc369795_53
	cmp	x18, x1
	b.ls	.Lcovretin_BB_bc369795_71
.Lcovretin_BB_bc369795_53:
	ldr	x16, [x9, #32]
	cbz	x16, .Lcovretin_BB_bc369795_64
	ldr	x15, [x9, #24]
	mov	x17, xzr
	b	.Lcovretin_BB_bc369795_56
.Lcovretin_BB_bc369795_55:
	mov	x16, x18
	cmp	x17, x18
	b.hs	.Lcovretin_BB_bc369795_59
.Lcovretin_BB_bc369795_56:
	sub	x18, x16, x17
	add	x18, x17, x18, lsr #1
	ldrh	w1, [x15, x18, lsl #1]
	cmp	x12, x1
	b.ls	.Lcovretin_BB_bc369795_55
	ldr	x3, [x9]
	lsl	x1, x1, #5
	ldr	x1, [x3, x1]
	cmp	x1, x13
	b.hi	.Lcovretin_BB_bc369795_55
	add	x17, x18, #1
	cmp	x17, x16
	b.lo	.Lcovretin_BB_bc369795_56
.Lcovretin_BB_bc369795_59:
	cbz	x17, .Lcovretin_BB_bc369795_64
	add	x15, x15, x17, lsl #1
	ldurh	w16, [x15, #-2]
	cmp	x12, x16
	b.ls	.Lcovretin_BB_bc369795_64
	ldr	x15, [x9]
	lsl	x17, x16, #5
	add	x1, x15, x17
	ldr	x18, [x1]
	subs	x18, x13, x18
	b.lo	.Lcovretin_BB_bc369795_66
	ldr	x1, [x1, #8]
	subs	x1, x1, x14
	b.lo	.Lcovretin_BB_bc369795_66
	cmp	x18, x1
	b.hi	.Lcovretin_BB_bc369795_66
	b	.Lcovretin_BB_bc369795_71
.Lcovretin_BB_bc369795_64:
	cbz	x12, .Lcovretin_BB_bc369795_72
	ldr	x15, [x9]
.Lcovretin_BB_bc369795_66:
	mov	x17, xzr
	mov	x16, xzr
	b	.Lcovretin_BB_bc369795_68
.Lcovretin_BB_bc369795_67:
	add	x16, x16, #1
	add	x17, x17, #32
	cmp	x12, x16
	b.eq	.Lcovretin_BB_bc369795_72
.Lcovretin_BB_bc369795_68:
	ldr	x18, [x15, x17]
	subs	x18, x13, x18
	b.lo	.Lcovretin_BB_bc369795_67
	add	x1, x15, x17
	ldr	x1, [x1, #8]
	subs	x1, x1, x14
	b.lo	.Lcovretin_BB_bc369795_67
	cmp	x18, x1
	b.hi	.Lcovretin_BB_bc369795_67
.Lcovretin_BB_bc369795_71:
	str	x16, [x9, #48]
	add	x12, x15, x17
	lsr	x14, x14, #4
	ldr	x16, [x12]
	ldr	x12, [x12, #24]
	mov	w15, #1
	stur	w15, [x9, #146]
	sub	x13, x13, x16
	strb	wzr, [x9, #181]
	add	x12, x13, x12
	strh	w14, [x9, #144]
	str	x12, [x9, #136]
	add	x12, x10, #1
	stp	xzr, xzr, [x9, #152]
	stur	xzr, [x9, #168]
	b	.Lcovretin_BB_bc369795_73
.Lcovretin_BB_bc369795_72:
	mov	x12, x10
.Lcovretin_BB_bc369795_73:
	ldrb	w15, [x9, #56]
	cmp	x12, x2
	b.hs	.Lcovretin_BB_bc369795_261
	cmp	x10, x4
	b.hs	.Lcovretin_BB_bc369795_261
.Lcovretin_BB_bc369795_75:
	add	x18, x8, x12, lsl #4
	and	w16, w15, #0xff
	str	wzr, [sp, #48]
	cmp	w16, #1
	stur	wzr, [sp, #51]
	ldr	x13, [x18]
	ldr	w17, [x18, #8]
	ldrh	w14, [x18, #12]
	ldrh	w15, [x18, #14]
	str	wzr, [sp, #40]
	stur	wzr, [sp, #43]
	str	wzr, [sp, #32]
	stur	wzr, [sp, #35]
	str	wzr, [sp, #24]
	stur	wzr, [sp, #27]
	str	wzr, [sp, #16]
	stur	wzr, [sp, #19]
	b.eq	.Lcovretin_BB_bc369795_79
	cmp	w16, #2
	b.ne	.Lcovretin_BB_bc369795_266
	ldrb	w16, [x9, #187]
	stur	wzr, [sp, #59]
	str	wzr, [sp, #56]
	tbz	w16, #0, .Lcovretin_BB_bc369795_88
	mov	w1, #18
	b	.Lcovretin_BB_bc369795_97
.Lcovretin_BB_bc369795_79:
	ldrb	w16, [x9, #184]
	stur	wzr, [sp, #59]
	str	wzr, [sp, #56]
	tbz	w16, #0, .Lcovretin_BB_bc369795_81
	mov	w1, #18
	b	.Lcovretin_BB_bc369795_95
.Lcovretin_BB_bc369795_81:
	ldrb	w16, [x9, #146]
	cmp	w16, #1
	b.ne	.Lcovretin_BB_bc369795_94
	ldrb	w16, [x9, #152]
	cmp	w16, #1
	b.ne	.Lcovretin_BB_bc369795_84
	ldr	x13, [x9, #160]
	ldr	w17, [x9, #168]
	ldrh	w14, [x9, #172]
	ldrh	w15, [x9, #174]
.Lcovretin_BB_bc369795_84:
	tbnz	w14, #2, .Lcovretin_BB_bc369795_98
	tbnz	w14, #1, .Lcovretin_BB_bc369795_114
	ldrb	w16, [x9, #180]
	tbz	w16, #0, .Lcovretin_BB_bc369795_114
	mov	w1, #12
	b	.Lcovretin_BB_bc369795_217
.Lcovretin_BB_bc369795_88:
	ldrb	w16, [x9, #146]
	cmp	w16, #1
	b.ne	.Lcovretin_BB_bc369795_96
	ldurb	w16, [x9, #152]
	cmp	w16, #1
	b.ne	.Lcovretin_BB_bc369795_104
	ldr	x13, [x9, #160]
	ldr	w17, [x9, #168]
	ldrh	w1, [x9, #172]
	ldrh	w3, [x9, #174]
	tbnz	w1, #2, .Lcovretin_BB_bc369795_108
.Lcovretin_BB_bc369795_91:
	tbnz	w1, #1, .Lcovretin_BB_bc369795_131
	ldrb	w18, [x9, #180]
	tbz	w18, #0, .Lcovretin_BB_bc369795_131
	mov	w1, #12
	b	.Lcovretin_BB_bc369795_233
.Lcovretin_BB_bc369795_94:
	mov	w1, #20
.Lcovretin_BB_bc369795_95:
	mov	x17, xzr
	mov	x18, xzr
	mov	x13, xzr
	mov	w3, wzr
	mov	w6, wzr
	mov	w14, #1
	b	.Lcovretin_BB_bc369795_218
.Lcovretin_BB_bc369795_96:
	mov	w1, #20
.Lcovretin_BB_bc369795_97:
	mov	x17, xzr
	mov	x18, xzr
	mov	x13, xzr
	mov	w3, wzr
	mov	w6, wzr
	mov	w14, #1
	b	.Lcovretin_BB_bc369795_234
.Lcovretin_BB_bc369795_98:
	ldrb	w15, [x9, #181]
	cmp	w15, #1
	b.ne	.Lcovretin_BB_bc369795_130
	tbnz	w14, #0, .Lcovretin_BB_bc369795_148
	mov	w1, #15
	cbz	w17, .Lcovretin_BB_bc369795_217
	mov	w14, w17
	and	x15, x14, #0xf
	cbnz	x15, .Lcovretin_BB_bc369795_217
	ldrh	w15, [x9, #176]
	cmp	x15, x14, lsr #4
	b.hs	.Lcovretin_BB_bc369795_178
.Lcovretin_BB_bc369795_103:
	mov	w1, #11
	b	.Lcovretin_BB_bc369795_217
.Lcovretin_BB_bc369795_104:
	ldrb	w18, [x9, #186]
	ldrh	w1, [x9, #148]
	cmp	w18, #1
	b.ne	.Lcovretin_BB_bc369795_107
	ldrh	w6, [x9, #184]
	ldrh	w3, [x9, #64]
	cmp	w3, w6
	b.ls	.Lcovretin_BB_bc369795_149
	mov	w6, #5
	and	w6, w15, w6
	cmp	w6, #1
	b.ne	.Lcovretin_BB_bc369795_174
.Lcovretin_BB_bc369795_107:
	add	w3, w1, #1
	ldrh	w6, [x9, #144]
	and	w3, w3, #0xffff
	cmp	w3, w6
	and	w6, w15, #0x6
	csinc	w3, wzr, w1, hs
	cinc	w1, w6, lo
	cmp	w18, #0
	csel	w1, w15, w1, ne
	tbz	w1, #2, .Lcovretin_BB_bc369795_91
.Lcovretin_BB_bc369795_108:
	ldrb	w18, [x9, #181]
	cmp	w18, #1
	b.ne	.Lcovretin_BB_bc369795_147
	tbnz	w1, #0, .Lcovretin_BB_bc369795_161
	mov	w1, #15
	cbz	w17, .Lcovretin_BB_bc369795_233
	mov	w7, w17
	and	x17, x7, #0xf
	cbnz	x17, .Lcovretin_BB_bc369795_233
	ldrh	w17, [x9, #176]
	cmp	x17, x7, lsr #4
	b.hs	.Lcovretin_BB_bc369795_193
.Lcovretin_BB_bc369795_113:
	mov	w1, #11
	b	.Lcovretin_BB_bc369795_233
.Lcovretin_BB_bc369795_114:
	cbz	w17, .Lcovretin_BB_bc369795_172
	ldr	x1, [x9, #48]
	ldr	x16, [x9, #8]
	cmp	x1, x16
	b.hs	.Lcovretin_BB_bc369795_119
	ldr	x18, [x9]
	lsl	x3, x1, #5
	add	x7, x18, x3
	ldr	x6, [x7]
	subs	x6, x13, x6
	b.lo	.Lcovretin_BB_bc369795_119
	ldr	x7, [x7, #8]
	cbz	x7, .Lcovretin_BB_bc369795_119
	sub	x7, x7, #1
	cmp	x6, x7
	b.ls	.Lcovretin_BB_bc369795_158
.Lcovretin_BB_bc369795_119:
	ldr	x1, [x9, #32]
	cbz	x1, .Lcovretin_BB_bc369795_151
	ldr	x18, [x9, #24]
	mov	x3, xzr
	b	.Lcovretin_BB_bc369795_122
.Lcovretin_BB_bc369795_121:
	mov	x1, x6
	cmp	x3, x6
	b.hs	.Lcovretin_BB_bc369795_125
.Lcovretin_BB_bc369795_122:
	sub	x6, x1, x3
	add	x6, x3, x6, lsr #1
	ldrh	w7, [x18, x6, lsl #1]
	cmp	x16, x7
	b.ls	.Lcovretin_BB_bc369795_121
	ldr	x19, [x9]
	lsl	x7, x7, #5
	ldr	x7, [x19, x7]
	cmp	x7, x13
	b.hi	.Lcovretin_BB_bc369795_121
	add	x3, x6, #1
	cmp	x3, x1
	b.lo	.Lcovretin_BB_bc369795_122
.Lcovretin_BB_bc369795_125:
	cbz	x3, .Lcovretin_BB_bc369795_151
	add	x18, x18, x3, lsl #1
	ldurh	w1, [x18, #-2]
	cmp	x16, x1
	b.ls	.Lcovretin_BB_bc369795_151
	ldr	x18, [x9]
	lsl	x3, x1, #5
	add	x7, x18, x3
	ldr	x6, [x7]
	subs	x6, x13, x6
	b.lo	.Lcovretin_BB_bc369795_153
	ldr	x7, [x7, #8]
	cbz	x7, .Lcovretin_BB_bc369795_153
	sub	x7, x7, #1
	cmp	x6, x7
	b.hi	.Lcovretin_BB_bc369795_153
	b	.Lcovretin_BB_bc369795_158
.Lcovretin_BB_bc369795_130:
	mov	w1, #13
	b	.Lcovretin_BB_bc369795_217
.Lcovretin_BB_bc369795_131:
	cbz	w17, .Lcovretin_BB_bc369795_173
	ldr	x7, [x9, #48]
	ldr	x18, [x9, #8]
	cmp	x7, x18
	b.hs	.Lcovretin_BB_bc369795_136
	ldr	x6, [x9]
	lsl	x19, x7, #5
	add	x21, x6, x19
	ldr	x20, [x21]
	subs	x20, x13, x20
	b.lo	.Lcovretin_BB_bc369795_136
	ldr	x21, [x21, #8]
	cbz	x21, .Lcovretin_BB_bc369795_136
	sub	x21, x21, #1
	cmp	x20, x21
	b.ls	.Lcovretin_BB_bc369795_169
.Lcovretin_BB_bc369795_136:
	ldr	x7, [x9, #32]
	cbz	x7, .Lcovretin_BB_bc369795_162
	ldr	x6, [x9, #24]
	mov	x19, xzr
	b	.Lcovretin_BB_bc369795_139
.Lcovretin_BB_bc369795_138:
	mov	x7, x20
	cmp	x19, x20
	b.hs	.Lcovretin_BB_bc369795_142
.Lcovretin_BB_bc369795_139:
	sub	x20, x7, x19
	add	x20, x19, x20, lsr #1
	ldrh	w21, [x6, x20, lsl #1]
	cmp	x18, x21
	b.ls	.Lcovretin_BB_bc369795_138
	ldr	x22, [x9]
	lsl	x21, x21, #5
	ldr	x21, [x22, x21]
	cmp	x21, x13
	b.hi	.Lcovretin_BB_bc369795_138
	add	x19, x20, #1
	cmp	x19, x7
	b.lo	.Lcovretin_BB_bc369795_139
.Lcovretin_BB_bc369795_142:
	cbz	x19, .Lcovretin_BB_bc369795_162
	add	x6, x6, x19, lsl #1
	ldurh	w7, [x6, #-2]
	cmp	x18, x7
	b.ls	.Lcovretin_BB_bc369795_162
	ldr	x6, [x9]
	lsl	x19, x7, #5
	add	x21, x6, x19
	ldr	x20, [x21]
	subs	x20, x13, x20
	b.lo	.Lcovretin_BB_bc369795_164
	ldr	x21, [x21, #8]
	cbz	x21, .Lcovretin_BB_bc369795_164
	sub	x21, x21, #1
	cmp	x20, x21
	b.hi	.Lcovretin_BB_bc369795_164
	b	.Lcovretin_BB_bc369795_169
.Lcovretin_BB_bc369795_147:
	mov	w1, #13
	b	.Lcovretin_BB_bc369795_233
.Lcovretin_BB_bc369795_148:
	mov	w1, #14
	b	.Lcovretin_BB_bc369795_217
.Lcovretin_BB_bc369795_149:
	mov	w1, #11
.Lcovretin_BB_bc369795_150:
	mov	w13, #1
	strb	w13, [x9, #187]
	b	.Lcovretin_BB_bc369795_97
.Lcovretin_BB_bc369795_151:
	cbz	x16, .Lcovretin_BB_bc369795_216
	ldr	x18, [x9]
.Lcovretin_BB_bc369795_153:
	mov	x3, xzr
	mov	x1, xzr
	b	.Lcovretin_BB_bc369795_155
.Lcovretin_BB_bc369795_154:
	add	x1, x1, #1
	add	x3, x3, #32
	cmp	x16, x1
	b.eq	.Lcovretin_BB_bc369795_216
.Lcovretin_BB_bc369795_155:
	ldr	x6, [x18, x3]
	subs	x6, x13, x6
	b.lo	.Lcovretin_BB_bc369795_154
	add	x7, x18, x3
	ldr	x7, [x7, #8]
	cbz	x7, .Lcovretin_BB_bc369795_154
	sub	x7, x7, #1
	cmp	x6, x7
	b.hi	.Lcovretin_BB_bc369795_154
.Lcovretin_BB_bc369795_158:
	str	x1, [x9, #48]
	add	x18, x18, x3
	mov	w3, w17
	ldp	x16, x1, [x18]
	sub	x16, x13, x16
	sub	x6, x1, x16
	ldr	x1, [x18, #24]
	cmp	x6, x3
	csel	x18, x6, x3, lo
	b.hs	.Lcovretin_BB_bc369795_219
	ldrh	w3, [x9, #178]
	cbz	w3, .Lcovretin_BB_bc369795_103
	mov	w6, #1
	add	x7, x18, x13
	sub	w17, w17, w18
	strh	w15, [x9, #174]
	sub	w15, w3, #1
	stp	x6, x7, [x9, #152]
	str	w17, [x9, #168]
	strh	w14, [x9, #172]
	strh	w15, [x9, #178]
	b	.Lcovretin_BB_bc369795_222
.Lcovretin_BB_bc369795_161:
	mov	w1, #14
	b	.Lcovretin_BB_bc369795_233
.Lcovretin_BB_bc369795_162:
	cbz	x18, .Lcovretin_BB_bc369795_232
	ldr	x6, [x9]
.Lcovretin_BB_bc369795_164:
	mov	x19, xzr
	mov	x7, xzr
	b	.Lcovretin_BB_bc369795_166
.Lcovretin_BB_bc369795_165:
	add	x7, x7, #1
	add	x19, x19, #32
	cmp	x18, x7
	b.eq	.Lcovretin_BB_bc369795_232
.Lcovretin_BB_bc369795_166:
	ldr	x20, [x6, x19]
	subs	x20, x13, x20
	b.lo	.Lcovretin_BB_bc369795_165
	add	x21, x6, x19
	ldr	x21, [x21, #8]
	cbz	x21, .Lcovretin_BB_bc369795_165
	sub	x21, x21, #1
	cmp	x20, x21
	b.hi	.Lcovretin_BB_bc369795_165
.Lcovretin_BB_bc369795_169:
	str	x7, [x9, #48]
	add	x18, x6, x19
	mov	w19, w17
	ldp	x6, x7, [x18]
	sub	x6, x13, x6
	sub	x20, x7, x6
	ldr	x7, [x18, #24]
	cmp	x20, x19
	csel	x18, x20, x19, lo
	b.hs	.Lcovretin_BB_bc369795_244
	ldrh	w19, [x9, #178]
	cbz	w19, .Lcovretin_BB_bc369795_113
	sub	w17, w17, w18
	mov	w20, #1
	add	x21, x18, x13
	str	w17, [x9, #168]
	sub	w17, w19, #1
	stp	x20, x21, [x9, #152]
	strh	w1, [x9, #172]
	strh	w3, [x9, #174]
	strh	w17, [x9, #178]
	b	.Lcovretin_BB_bc369795_247
.Lcovretin_BB_bc369795_172:
	mov	w1, #9
	b	.Lcovretin_BB_bc369795_217
.Lcovretin_BB_bc369795_173:
	mov	w1, #9
	b	.Lcovretin_BB_bc369795_233
.Lcovretin_BB_bc369795_174:
	cmp	w3, w14
	b.ls	.Lcovretin_BB_bc369795_177
	ldr	x3, [x9, #112]
	ldrh	w3, [x3, x14, lsl #1]
	cbz	w3, .Lcovretin_BB_bc369795_107
	mov	w1, #17
	b	.Lcovretin_BB_bc369795_150
.Lcovretin_BB_bc369795_177:
	mov	w1, #10
	b	.Lcovretin_BB_bc369795_150
.Lcovretin_BB_bc369795_178:
	ldr	x7, [x9, #48]
	ldr	x15, [x9, #8]
	cmp	x7, x15
	b.hs	.Lcovretin_BB_bc369795_182
	ldr	x16, [x9]
	lsl	x19, x7, #5
	add	x18, x16, x19
	ldr	x17, [x18]
	subs	x17, x13, x17
	b.lo	.Lcovretin_BB_bc369795_182
	ldr	x18, [x18, #8]
	subs	x18, x18, x14
	b.lo	.Lcovretin_BB_bc369795_182
	cmp	x17, x18
	b.ls	.Lcovretin_BB_bc369795_215
.Lcovretin_BB_bc369795_182:
	ldr	x17, [x9, #32]
	cbz	x17, .Lcovretin_BB_bc369795_208
	ldr	x16, [x9, #24]
	mov	x18, xzr
	b	.Lcovretin_BB_bc369795_185
.Lcovretin_BB_bc369795_184:
	mov	x17, x1
	cmp	x18, x1
	b.hs	.Lcovretin_BB_bc369795_188
.Lcovretin_BB_bc369795_185:
	sub	x1, x17, x18
	add	x1, x18, x1, lsr #1
	ldrh	w3, [x16, x1, lsl #1]
	cmp	x15, x3
	b.ls	.Lcovretin_BB_bc369795_184
	ldr	x6, [x9]
	lsl	x3, x3, #5
	ldr	x3, [x6, x3]
	cmp	x3, x13
	b.hi	.Lcovretin_BB_bc369795_184
	add	x18, x1, #1
	cmp	x18, x17
	b.lo	.Lcovretin_BB_bc369795_185
.Lcovretin_BB_bc369795_188:
	cbz	x18, .Lcovretin_BB_bc369795_208
	add	x16, x16, x18, lsl #1
	ldurh	w7, [x16, #-2]
	cmp	x15, x7
	b.ls	.Lcovretin_BB_bc369795_208
	ldr	x16, [x9]
	lsl	x19, x7, #5
	add	x18, x16, x19
	ldr	x17, [x18]
	subs	x17, x13, x17
	b.lo	.Lcovretin_BB_bc369795_210
	ldr	x18, [x18, #8]
	subs	x18, x18, x14
	b.lo	.Lcovretin_BB_bc369795_210
	cmp	x17, x18
	b.hi	.Lcovretin_BB_bc369795_210
	b	.Lcovretin_BB_bc369795_215
.Lcovretin_BB_bc369795_193:
	ldr	x20, [x9, #48]
	ldr	x17, [x9, #8]
	cmp	x20, x17
	b.hs	.Lcovretin_BB_bc369795_197
	ldr	x19, [x9]
	lsl	x21, x20, #5
	add	x1, x19, x21
	ldr	x18, [x1]
	subs	x18, x13, x18
	b.lo	.Lcovretin_BB_bc369795_197
	ldr	x1, [x1, #8]
	subs	x1, x1, x7
	b.lo	.Lcovretin_BB_bc369795_197
	cmp	x18, x1
	b.ls	.Lcovretin_BB_bc369795_231
.Lcovretin_BB_bc369795_197:
	ldr	x1, [x9, #32]
	cbz	x1, .Lcovretin_BB_bc369795_224
	ldr	x18, [x9, #24]
	mov	x3, xzr
	b	.Lcovretin_BB_bc369795_200
.Lcovretin_BB_bc369795_199:
	mov	x1, x6
	cmp	x3, x6
	b.hs	.Lcovretin_BB_bc369795_203
.Lcovretin_BB_bc369795_200:
	sub	x6, x1, x3
	add	x6, x3, x6, lsr #1
	ldrh	w19, [x18, x6, lsl #1]
	cmp	x17, x19
	b.ls	.Lcovretin_BB_bc369795_199
	ldr	x20, [x9]
	lsl	x19, x19, #5
	ldr	x19, [x20, x19]
	cmp	x19, x13
	b.hi	.Lcovretin_BB_bc369795_199
	add	x3, x6, #1
	cmp	x3, x1
	b.lo	.Lcovretin_BB_bc369795_200
.Lcovretin_BB_bc369795_203:
	cbz	x3, .Lcovretin_BB_bc369795_224
	add	x18, x18, x3, lsl #1
	ldurh	w20, [x18, #-2]
	cmp	x17, x20
	b.ls	.Lcovretin_BB_bc369795_224
	ldr	x19, [x9]
	lsl	x21, x20, #5
	add	x1, x19, x21
	ldr	x18, [x1]
	subs	x18, x13, x18
	b.lo	.Lcovretin_BB_bc369795_226
	ldr	x1, [x1, #8]
	subs	x1, x1, x7
	b.lo	.Lcovretin_BB_bc369795_226
	cmp	x18, x1
	b.hi	.Lcovretin_BB_bc369795_226
	b	.Lcovretin_BB_bc369795_231
.Lcovretin_BB_bc369795_208:
	cbz	x15, .Lcovretin_BB_bc369795_216
	ldr	x16, [x9]
.Lcovretin_BB_bc369795_210:
	mov	x19, xzr
	mov	x7, xzr
	b	.Lcovretin_BB_bc369795_212
.Lcovretin_BB_bc369795_211:
	add	x7, x7, #1
	add	x19, x19, #32
	mov	w1, #8
	cmp	x15, x7
	b.eq	.Lcovretin_BB_bc369795_217
.Lcovretin_BB_bc369795_212:
	ldr	x17, [x16, x19]
	subs	x17, x13, x17
	b.lo	.Lcovretin_BB_bc369795_211
	add	x18, x16, x19
	ldr	x18, [x18, #8]
	subs	x18, x18, x14
	b.lo	.Lcovretin_BB_bc369795_211
	cmp	x17, x18
	b.hi	.Lcovretin_BB_bc369795_211
.Lcovretin_BB_bc369795_215:
	str	x7, [x9, #48]
	add	x15, x16, x19
	lsr	x14, x14, #4
	ldr	x16, [x15]
	ldr	x15, [x15, #24]
	mov	w6, wzr
	mov	x17, xzr
	mov	x18, xzr
	mov	w3, wzr
	sub	x13, x13, x16
	strh	w14, [x9, #144]
	mov	w14, #1
	add	x13, x13, x15
	stur	w14, [x9, #146]
	str	x13, [x9, #136]
	mov	x13, xzr
	strb	wzr, [x9, #181]
	stp	xzr, xzr, [x9, #152]
	stur	xzr, [x9, #168]
	str	wzr, [sp, #56]
	stur	wzr, [sp, #59]
	b	.Lcovretin_BB_bc369795_223
.Lcovretin_BB_bc369795_216:
	mov	w1, #8
.Lcovretin_BB_bc369795_217:
	mov	x17, xzr
	mov	x18, xzr
	mov	x13, xzr
	mov	w3, wzr
	mov	w6, wzr
	mov	w14, #1
	strb	w14, [x9, #184]
.Lcovretin_BB_bc369795_218:
	ldr	w15, [sp, #32]
	ldur	w16, [sp, #35]
	b	.Lcovretin_BB_bc369795_235
.Lcovretin_BB_bc369795_219:
	tbnz	w14, #0, .Lcovretin_BB_bc369795_253
	ldrh	w17, [x9, #176]
	mov	w3, wzr
	mov	w15, wzr
.Lcovretin_BB_bc369795_221:
	strh	w15, [x9, #148]
	sub	w15, w17, #1
	strh	w3, [x9, #146]
	stp	xzr, xzr, [x9, #152]
	stur	xzr, [x9, #168]
	strh	w15, [x9, #176]
.Lcovretin_BB_bc369795_222:
	ubfx	w15, w14, #1, #1
	and	w14, w14, #0x2
	str	wzr, [sp, #56]
	lsr	w3, w14, #1
	add	x17, x1, x16
	stur	wzr, [sp, #59]
	strb	w15, [x9, #180]
	mov	w6, #1
.Lcovretin_BB_bc369795_223:
	ldr	w15, [sp, #56]
	ldur	w16, [sp, #59]
	mov	w14, wzr
	mov	x1, xzr
	str	w15, [sp, #40]
	stur	w16, [sp, #43]
	mov	w16, w16
	ldr	w15, [sp, #40]
	str	w15, [sp, #32]
	stur	w16, [sp, #35]
	b	.Lcovretin_BB_bc369795_218
.Lcovretin_BB_bc369795_224:
	cbz	x17, .Lcovretin_BB_bc369795_232
	ldr	x19, [x9]
.Lcovretin_BB_bc369795_226:
	mov	x21, xzr
	mov	x20, xzr
	b	.Lcovretin_BB_bc369795_228
.Lcovretin_BB_bc369795_227:
	add	x20, x20, #1
	add	x21, x21, #32
	mov	w1, #8
	cmp	x17, x20
	b.eq	.Lcovretin_BB_bc369795_233
.Lcovretin_BB_bc369795_228:
	ldr	x18, [x19, x21]
	subs	x18, x13, x18
	b.lo	.Lcovretin_BB_bc369795_227
	add	x1, x19, x21
	ldr	x1, [x1, #8]
	subs	x1, x1, x7
	b.lo	.Lcovretin_BB_bc369795_227
	cmp	x18, x1
	b.hi	.Lcovretin_BB_bc369795_227
.Lcovretin_BB_bc369795_231:
	str	x20, [x9, #48]
	lsr	x1, x7, #4
	add	x7, x19, x21
	ldr	x19, [x7]
	ldr	x7, [x7, #24]
	mov	w6, wzr
	strh	w1, [x9, #144]
	mov	w1, #1
	mov	x17, xzr
	sub	x13, x13, x19
	mov	x18, xzr
	mov	w3, wzr
	add	x13, x13, x7
	stur	w1, [x9, #146]
	strb	wzr, [x9, #181]
	str	x13, [x9, #136]
	mov	x13, xzr
	stp	xzr, xzr, [x9, #152]
	stur	xzr, [x9, #168]
	str	wzr, [sp, #56]
	stur	wzr, [sp, #59]
	b	.Lcovretin_BB_bc369795_248
.Lcovretin_BB_bc369795_232:
	mov	w1, #8
.Lcovretin_BB_bc369795_233:
	mov	x17, xzr
	mov	x18, xzr
	mov	x13, xzr
	mov	w3, wzr
	mov	w6, wzr
	mov	w14, #1
	strb	w14, [x9, #187]
.Lcovretin_BB_bc369795_234:
	ldr	w15, [sp, #16]
	ldur	w16, [sp, #19]
.Lcovretin_BB_bc369795_235:
	str	w15, [sp, #48]
	stur	w16, [sp, #51]
	mov	w16, w16
	ldr	w15, [sp, #48]
	str	w15, [sp, #8]
	stur	w16, [sp, #11]
	cbnz	w14, .Lcovretin_BB_bc369795_265
	cbz	w6, .Lcovretin_BB_bc369795_238
	add	x14, x11, x10, lsl #5
	ldr	w15, [sp, #8]
	add	x10, x10, #1
	str	x13, [x14, #16]
	ldur	w13, [sp, #11]
	stp	x17, x18, [x14]
	strb	w3, [x14, #24]
	stur	w15, [x14, #25]
	str	w13, [x14, #28]
.Lcovretin_BB_bc369795_238:
	ldrb	w15, [x9, #56]
	cmp	w15, #2
	b.eq	.Lcovretin_BB_bc369795_240
	cmp	w15, #1
	b.ne	.Lcovretin_BB_bc369795_241
.Lcovretin_BB_bc369795_240:
	ldurb	w13, [x9, #152]
	cmp	w13, #1
	b.eq	.Lcovretin_BB_bc369795_242
.Lcovretin_BB_bc369795_241:
	add	x12, x12, #1
.Lcovretin_BB_bc369795_242:
	cmp	x10, x4
	b.hs	.Lcovretin_BB_bc369795_261
	cmp	x12, x2
	b.lo	.Lcovretin_BB_bc369795_75
	b	.Lcovretin_BB_bc369795_261
.Lcovretin_BB_bc369795_244:
	tbnz	w1, #0, .Lcovretin_BB_bc369795_256
	ldrh	w17, [x9, #176]
	mov	w19, wzr
	mov	w3, wzr
.Lcovretin_BB_bc369795_246:
	sub	w17, w17, #1
	strh	w19, [x9, #146]
	strh	w3, [x9, #148]
	stp	xzr, xzr, [x9, #152]
	stur	xzr, [x9, #168]
	strh	w17, [x9, #176]
.Lcovretin_BB_bc369795_247:
	ubfx	w17, w1, #1, #1
	and	w1, w1, #0x2
	str	wzr, [sp, #56]
	lsr	w3, w1, #1
	stur	wzr, [sp, #59]
	strb	w17, [x9, #180]
	add	x17, x7, x6
	mov	w6, #1
.Lcovretin_BB_bc369795_248:
	cmp	w16, #1
	b.eq	.Lcovretin_BB_bc369795_252
	ldrb	w16, [x9, #186]
	cmp	w16, #1
	b.ne	.Lcovretin_BB_bc369795_252
	ldrh	w16, [x9, #184]
	mov	w1, #5
	and	w1, w15, w1
	add	w15, w16, #1
	cmp	w1, #1
	strh	w15, [x9, #184]
	b.eq	.Lcovretin_BB_bc369795_252
	ldr	x16, [x9, #112]
	strb	wzr, [x9, #186]
	strh	w15, [x16, x14, lsl #1]
	ldrh	w14, [x9, #64]
	ldrh	w15, [x9, #98]
	ldrh	w16, [x9, #184]
	ldrb	w1, [x9, #100]
	strb	wzr, [x9, #101]
	sub	w14, w14, w15
	cmp	w16, w14, uxth
	eor	w7, w1, #0x1
	csneg	w14, w15, w14, lo
	csel	w1, w1, w7, lo
	add	w14, w14, w16
	strb	w1, [x9, #100]
	strh	w14, [x9, #98]
.Lcovretin_BB_bc369795_252:
	ldr	w15, [sp, #56]
	ldur	w16, [sp, #59]
	mov	w14, wzr
	mov	x1, xzr
	str	w15, [sp, #24]
	stur	w16, [sp, #27]
	mov	w16, w16
	ldr	w15, [sp, #24]
	str	w15, [sp, #16]
	stur	w16, [sp, #19]
	b	.Lcovretin_BB_bc369795_234
.Lcovretin_BB_bc369795_253:
	ldrh	w17, [x9, #144]
	cmp	w17, w15
	b.ls	.Lcovretin_BB_bc369795_259
	ldrh	w17, [x9, #176]
	cmp	w17, #1
	b.eq	.Lcovretin_BB_bc369795_103
	mov	w3, #1
	b	.Lcovretin_BB_bc369795_221
.Lcovretin_BB_bc369795_256:
	ldrh	w17, [x9, #144]
	cmp	w17, w3, uxth
	b.ls	.Lcovretin_BB_bc369795_260
	ldrh	w17, [x9, #176]
	cmp	w17, #1
	b.eq	.Lcovretin_BB_bc369795_113
	mov	w19, #1
	b	.Lcovretin_BB_bc369795_246
.Lcovretin_BB_bc369795_259:
	mov	w1, #10
	b	.Lcovretin_BB_bc369795_217
.Lcovretin_BB_bc369795_260:
	mov	w1, #10
	b	.Lcovretin_BB_bc369795_233
.Lcovretin_BB_bc369795_261:
	cbz	w15, .Lcovretin_BB_bc369795_263
	ldrb	w8, [x9, #146]
	ldrh	w13, [x9, #144]
	cmp	w15, #2
	ldrh	w15, [x9, #148]
	ldr	x11, [x9, #136]
	lsl	x14, x13, #4
	cmp	w8, #1
	cset	w13, eq
	csel	w16, w15, wzr, eq
	b	.Lcovretin_BB_bc369795_264
.Lcovretin_BB_bc369795_263:
	mov	w11, w15
	mov	w16, wzr
	mov	w13, wzr
	mov	x14, x11
.Lcovretin_BB_bc369795_264:
	mov	w8, wzr
	str	x9, [x0]
	stp	x12, x10, [x5]
	stp	x11, x14, [x5, #16]
	strh	w16, [x5, #32]
	strb	w13, [x5, #34]
	stur	wzr, [x5, #35]
	strb	wzr, [x5, #39]
	ldp	x20, x19, [sp, #80]
	ldp	x22, x21, [sp, #64]
	add	sp, sp, #96
	.cfi_def_cfa_offset 0
	.cfi_restore w19
	.cfi_restore w20
	.cfi_restore w21
	.cfi_restore w22
	mov	w0, w8
	ret
.Lcovretin_BB_bc369795_265:
	.cfi_restore_state
	.cfi_remember_state
	str	x9, [x0]
	adrp	x8, .Lcovretin_switch.table.covretin_queue_step
	add	x8, x8, :lo12:.Lcovretin_switch.table.covretin_queue_step
	ldr	w8, [x8, x1, lsl #2]
	ldp	x20, x19, [sp, #80]
	ldp	x22, x21, [sp, #64]
	add	sp, sp, #96
	.cfi_def_cfa_offset 0
	.cfi_restore w19
	.cfi_restore w20
	.cfi_restore w21
	.cfi_restore w22
	mov	w0, w8
	ret
.Lcovretin_BB_bc369795_266:
	.cfi_restore_state
	str	x9, [x0]
	mov	w8, #103
	ldp	x20, x19, [sp, #80]
	ldp	x22, x21, [sp, #64]
	add	sp, sp, #96
	.cfi_def_cfa_offset 0
	.cfi_restore w19
	.cfi_restore w20
	.cfi_restore w21
	.cfi_restore w22
	mov	w0, w8
	ret
.Lcovretin_func_end_bc369795:
	.size	covretin_queue_walk, .Lcovretin_func_end_bc369795-covretin_queue_walk
	.cfi_endproc

	.section	.text.covretin_queue_descriptor_place,"ax",@progbits
	.globl	covretin_queue_descriptor_place
	.p2align	2
	.type	covretin_queue_descriptor_place,@function
covretin_queue_descriptor_place:
	.cfi_startproc
	hint	#34
	ldr	x9, [x0]
	str	xzr, [x0]
	cbz	x9, .Lcovretin_BB_c6b400dd_5
	ldrb	w8, [x9, #56]
	cbz	w8, .Lcovretin_BB_c6b400dd_4
	cmp	w8, #2
	ldrb	w8, [x9, #146]
	cmp	w8, #1
	b.ne	.Lcovretin_BB_c6b400dd_4
	ldrh	w8, [x9, #148]
	ldr	x10, [x9, #136]
	ldrb	w11, [x9, #152]
	str	x9, [x0]
	mov	w9, #1
	mov	w0, wzr
	add	x10, x10, x8, lsl #4
	cmp	w11, #1
	mov	w8, #16
	csel	x11, xzr, x8, eq
	stp	x10, x11, [x1]
	strb	w9, [x2]
	ret
.Lcovretin_BB_c6b400dd_4:
	str	x9, [x0]
	mov	w0, wzr
	strb	wzr, [x2]
	ret
.Lcovretin_BB_c6b400dd_5:
	mov	w0, #101
	ret
.Lcovretin_func_end_c6b400dd:
	.size	covretin_queue_descriptor_place, .Lcovretin_func_end_c6b400dd-covretin_queue_descriptor_place
	.cfi_endproc

	.section	.text.covretin_queue_step,"ax",@progbits
	.globl	covretin_queue_step
	.p2align	2
	.type	covretin_queue_step,@function
covretin_queue_step:
	.cfi_startproc
	hint	#34
	sub	sp, sp, #64
	.cfi_def_cfa_offset 64
	.cfi_remember_state
	ldr	x8, [x0]
	stur	wzr, [sp, #11]
	str	wzr, [sp, #8]
	str	xzr, [x0]
	cbz	x8, .Lcovretin_BB_17fa37a3_5
	ldr	x9, [x1]
	ldr	w13, [x1, #8]
	ldrb	w12, [x8, #56]
	ldrh	w10, [x1, #12]
	ldrh	w11, [x1, #14]
	str	wzr, [sp, #48]
	stur	wzr, [sp, #51]
	str	wzr, [sp, #40]
	stur	wzr, [sp, #43]
	str	wzr, [sp, #32]
	stur	wzr, [sp, #35]
	str	wzr, [sp, #24]
	stur	wzr, [sp, #27]
	str	wzr, [sp, #16]
	stur	wzr, [sp, #19]
	cbz	w12, .Lcovretin_BB_17fa37a3_6
	cmp	w12, #2
	b.ne	.Lcovretin_BB_17fa37a3_7
	ldrb	w12, [x8, #187]
	stur	wzr, [sp, #59]
	str	wzr, [sp, #56]
	tbz	w12, #0, .Lcovretin_BB_17fa37a3_9
	mov	w16, #18
	b	.Lcovretin_BB_17fa37a3_23
.Lcovretin_BB_17fa37a3_5:
	mov	w0, #101
	add	sp, sp, #64
	.cfi_def_cfa_offset 0
	ret
.Lcovretin_BB_17fa37a3_6:
	.cfi_restore_state
	.cfi_remember_state
	str	x8, [x0]
	mov	w0, #103
	add	sp, sp, #64
	.cfi_def_cfa_offset 0
	ret
.Lcovretin_BB_17fa37a3_7:
	.cfi_restore_state
	.cfi_remember_state
	ldrb	w12, [x8, #184]
	stur	wzr, [sp, #59]
	str	wzr, [sp, #56]
	tbz	w12, #0, .Lcovretin_BB_17fa37a3_15
	mov	w16, #18
	b	.Lcovretin_BB_17fa37a3_25
.Lcovretin_BB_17fa37a3_9:
	ldrb	w12, [x8, #146]
	cmp	w12, #1
	b.ne	.Lcovretin_BB_17fa37a3_22
	mov	x14, x8
	ldrb	w12, [x14, #152]!
	cmp	w12, #1
	b.ne	.Lcovretin_BB_17fa37a3_26
	ldr	x9, [x8, #160]
	ldr	w13, [x8, #168]
	ldrh	w16, [x8, #172]
	ldrh	w17, [x8, #174]
	tbnz	w16, #2, .Lcovretin_BB_17fa37a3_30
.Lcovretin_BB_17fa37a3_12:
	tbnz	w16, #1, .Lcovretin_BB_17fa37a3_59
	ldrb	w15, [x8, #180]
	tbz	w15, #0, .Lcovretin_BB_17fa37a3_59
	mov	w16, #12
	b	.Lcovretin_BB_17fa37a3_161
.Lcovretin_BB_17fa37a3_15:
	ldrb	w12, [x8, #146]
	cmp	w12, #1
	b.ne	.Lcovretin_BB_17fa37a3_24
	mov	x12, x8
	ldrb	w14, [x12, #152]!
	cmp	w14, #1
	b.ne	.Lcovretin_BB_17fa37a3_18
	ldr	x9, [x12, #8]
	ldr	w13, [x12, #16]
	ldrh	w10, [x12, #20]
	ldrh	w11, [x12, #22]
.Lcovretin_BB_17fa37a3_18:
	tbnz	w10, #2, .Lcovretin_BB_17fa37a3_36
	tbnz	w10, #1, .Lcovretin_BB_17fa37a3_42
	ldrb	w14, [x8, #180]
	tbz	w14, #0, .Lcovretin_BB_17fa37a3_42
	mov	w16, #12
	b	.Lcovretin_BB_17fa37a3_145
.Lcovretin_BB_17fa37a3_22:
	mov	w16, #20
.Lcovretin_BB_17fa37a3_23:
	mov	x13, xzr
	mov	x15, xzr
	mov	x9, xzr
	mov	w17, wzr
	mov	w18, wzr
	mov	w10, #1
	b	.Lcovretin_BB_17fa37a3_162
.Lcovretin_BB_17fa37a3_24:
	mov	w16, #20
.Lcovretin_BB_17fa37a3_25:
	mov	x13, xzr
	mov	x15, xzr
	mov	x9, xzr
	mov	w17, wzr
	mov	w18, wzr
	mov	w10, #1
	b	.Lcovretin_BB_17fa37a3_146
.Lcovretin_BB_17fa37a3_26:
	ldrb	w15, [x8, #186]
	ldrh	w16, [x8, #148]
	cmp	w15, #1
	b.ne	.Lcovretin_BB_17fa37a3_29
	ldrh	w18, [x8, #184]
	ldrh	w17, [x8, #64]
	cmp	w17, w18
	b.ls	.Lcovretin_BB_17fa37a3_76
	mov	w18, #5
	and	w18, w11, w18
	cmp	w18, #1
	b.ne	.Lcovretin_BB_17fa37a3_102
.Lcovretin_BB_17fa37a3_29:
	add	w17, w16, #1
	ldrh	w18, [x8, #144]
	and	w17, w17, #0xffff
	cmp	w17, w18
	and	w18, w11, #0x6
	csinc	w17, wzr, w16, hs
	cinc	w16, w18, lo
	cmp	w15, #0
	csel	w16, w11, w16, ne
	tbz	w16, #2, .Lcovretin_BB_17fa37a3_12
.Lcovretin_BB_17fa37a3_30:
	ldrb	w15, [x8, #181]
	cmp	w15, #1
	b.ne	.Lcovretin_BB_17fa37a3_75
	tbnz	w16, #0, .Lcovretin_BB_17fa37a3_89
	mov	w16, #15
	cbz	w13, .Lcovretin_BB_17fa37a3_161
	mov	w1, w13
	and	x13, x1, #0xf
	cbnz	x13, .Lcovretin_BB_17fa37a3_161
	ldrh	w13, [x8, #176]
	cmp	x13, x1, lsr #4
	b.hs	.Lcovretin_BB_17fa37a3_121
.Lcovretin_BB_17fa37a3_35:
	mov	w16, #11
	b	.Lcovretin_BB_17fa37a3_161
.Lcovretin_BB_17fa37a3_36:
	ldrb	w11, [x8, #181]
	cmp	w11, #1
	b.ne	.Lcovretin_BB_17fa37a3_58
	tbnz	w10, #0, .Lcovretin_BB_17fa37a3_78
	mov	w16, #15
	cbz	w13, .Lcovretin_BB_17fa37a3_145
	mov	w10, w13
	and	x11, x10, #0xf
	cbnz	x11, .Lcovretin_BB_17fa37a3_145
	ldrh	w11, [x8, #176]
	cmp	x11, x10, lsr #4
	b.hs	.Lcovretin_BB_17fa37a3_106
.Lcovretin_BB_17fa37a3_41:
	mov	w16, #11
	b	.Lcovretin_BB_17fa37a3_145
.Lcovretin_BB_17fa37a3_42:
	cbz	w13, .Lcovretin_BB_17fa37a3_100
	ldr	x16, [x8, #48]
	ldr	x14, [x8, #8]
	cmp	x16, x14
	b.hs	.Lcovretin_BB_17fa37a3_47
	ldr	x15, [x8]
	lsl	x17, x16, #5
	add	x1, x15, x17
	ldr	x18, [x1]
	subs	x18, x9, x18
	b.lo	.Lcovretin_BB_17fa37a3_47
	ldr	x1, [x1, #8]
	cbz	x1, .Lcovretin_BB_17fa37a3_47
	sub	x1, x1, #1
	cmp	x18, x1
	b.ls	.Lcovretin_BB_17fa37a3_86
.Lcovretin_BB_17fa37a3_47:
	ldr	x16, [x8, #32]
	cbz	x16, .Lcovretin_BB_17fa37a3_79
	ldr	x15, [x8, #24]
	mov	x17, xzr
	b	.Lcovretin_BB_17fa37a3_50
.Lcovretin_BB_17fa37a3_49:
	mov	x16, x18
	cmp	x17, x18
	b.hs	.Lcovretin_BB_17fa37a3_53
.Lcovretin_BB_17fa37a3_50:
	sub	x18, x16, x17
	add	x18, x17, x18, lsr #1
	ldrh	w1, [x15, x18, lsl #1]
	cmp	x14, x1
	b.ls	.Lcovretin_BB_17fa37a3_49
	ldr	x4, [x8]
	lsl	x1, x1, #5
	ldr	x1, [x4, x1]
	cmp	x1, x9
	b.hi	.Lcovretin_BB_17fa37a3_49
	add	x17, x18, #1
	cmp	x17, x16
	b.lo	.Lcovretin_BB_17fa37a3_50
.Lcovretin_BB_17fa37a3_53:
	cbz	x17, .Lcovretin_BB_17fa37a3_79
	add	x15, x15, x17, lsl #1
	ldurh	w16, [x15, #-2]
	cmp	x14, x16
	b.ls	.Lcovretin_BB_17fa37a3_79
	ldr	x15, [x8]
	lsl	x17, x16, #5
	add	x1, x15, x17
	ldr	x18, [x1]
	subs	x18, x9, x18
	b.lo	.Lcovretin_BB_17fa37a3_81
	ldr	x1, [x1, #8]
	cbz	x1, .Lcovretin_BB_17fa37a3_81
	sub	x1, x1, #1
	cmp	x18, x1
	b.hi	.Lcovretin_BB_17fa37a3_81
	b	.Lcovretin_BB_17fa37a3_86
.Lcovretin_BB_17fa37a3_58:
	mov	w16, #13
	b	.Lcovretin_BB_17fa37a3_145
.Lcovretin_BB_17fa37a3_59:
	cbz	w13, .Lcovretin_BB_17fa37a3_101
	ldr	x1, [x8, #48]
	ldr	x15, [x8, #8]
	cmp	x1, x15
	b.hs	.Lcovretin_BB_17fa37a3_64
	ldr	x18, [x8]
	lsl	x4, x1, #5
	add	x6, x18, x4
	ldr	x5, [x6]
	subs	x5, x9, x5
	b.lo	.Lcovretin_BB_17fa37a3_64
	ldr	x6, [x6, #8]
	cbz	x6, .Lcovretin_BB_17fa37a3_64
	sub	x6, x6, #1
	cmp	x5, x6
	b.ls	.Lcovretin_BB_17fa37a3_97
.Lcovretin_BB_17fa37a3_64:
	ldr	x1, [x8, #32]
	cbz	x1, .Lcovretin_BB_17fa37a3_90
	ldr	x18, [x8, #24]
	mov	x4, xzr
	b	.Lcovretin_BB_17fa37a3_67
.Lcovretin_BB_17fa37a3_66:
	mov	x1, x5
	cmp	x4, x5
	b.hs	.Lcovretin_BB_17fa37a3_70
.Lcovretin_BB_17fa37a3_67:
	sub	x5, x1, x4
	add	x5, x4, x5, lsr #1
	ldrh	w6, [x18, x5, lsl #1]
	cmp	x15, x6
	b.ls	.Lcovretin_BB_17fa37a3_66
	ldr	x7, [x8]
	lsl	x6, x6, #5
	ldr	x6, [x7, x6]
	cmp	x6, x9
	b.hi	.Lcovretin_BB_17fa37a3_66
	add	x4, x5, #1
	cmp	x4, x1
	b.lo	.Lcovretin_BB_17fa37a3_67
.Lcovretin_BB_17fa37a3_70:
	cbz	x4, .Lcovretin_BB_17fa37a3_90
	add	x18, x18, x4, lsl #1
	ldurh	w1, [x18, #-2]
	cmp	x15, x1
	b.ls	.Lcovretin_BB_17fa37a3_90
	ldr	x18, [x8]
	lsl	x4, x1, #5
	add	x6, x18, x4
	ldr	x5, [x6]
	subs	x5, x9, x5
	b.lo	.Lcovretin_BB_17fa37a3_92
	ldr	x6, [x6, #8]
	cbz	x6, .Lcovretin_BB_17fa37a3_92
	sub	x6, x6, #1
	cmp	x5, x6
	b.hi	.Lcovretin_BB_17fa37a3_92
	b	.Lcovretin_BB_17fa37a3_97
.Lcovretin_BB_17fa37a3_75:
	mov	w16, #13
	b	.Lcovretin_BB_17fa37a3_161
.Lcovretin_BB_17fa37a3_76:
	mov	w16, #11
.Lcovretin_BB_17fa37a3_77:
	mov	w9, #1
	strb	w9, [x8, #187]
	b	.Lcovretin_BB_17fa37a3_23
.Lcovretin_BB_17fa37a3_78:
	mov	w16, #14
	b	.Lcovretin_BB_17fa37a3_145
.Lcovretin_BB_17fa37a3_79:
	cbz	x14, .Lcovretin_BB_17fa37a3_144
	ldr	x15, [x8]
.Lcovretin_BB_17fa37a3_81:
	mov	x17, xzr
	mov	x16, xzr
	b	.Lcovretin_BB_17fa37a3_83
.Lcovretin_BB_17fa37a3_82:
	add	x16, x16, #1
	add	x17, x17, #32
	cmp	x14, x16
	b.eq	.Lcovretin_BB_17fa37a3_144
.Lcovretin_BB_17fa37a3_83:
	ldr	x18, [x15, x17]
	subs	x18, x9, x18
	b.lo	.Lcovretin_BB_17fa37a3_82
	add	x1, x15, x17
	ldr	x1, [x1, #8]
	cbz	x1, .Lcovretin_BB_17fa37a3_82
	sub	x1, x1, #1
	cmp	x18, x1
	b.hi	.Lcovretin_BB_17fa37a3_82
.Lcovretin_BB_17fa37a3_86:
	str	x16, [x8, #48]
	add	x15, x15, x17
	mov	w17, w13
	ldp	x14, x16, [x15]
	sub	x14, x9, x14
	sub	x18, x16, x14
	ldr	x16, [x15, #24]
	cmp	x18, x17
	csel	x15, x18, x17, lo
	b.hs	.Lcovretin_BB_17fa37a3_147
	ldrh	w12, [x8, #178]
	cbz	w12, .Lcovretin_BB_17fa37a3_41
	mov	w17, #1
	add	x18, x15, x9
	sub	w13, w13, w15
	strh	w11, [x8, #174]
	sub	w11, w12, #1
	stp	x17, x18, [x8, #152]
	str	w13, [x8, #168]
	strh	w10, [x8, #172]
	strh	w11, [x8, #178]
	b	.Lcovretin_BB_17fa37a3_150
.Lcovretin_BB_17fa37a3_89:
	mov	w16, #14
	b	.Lcovretin_BB_17fa37a3_161
.Lcovretin_BB_17fa37a3_90:
	cbz	x15, .Lcovretin_BB_17fa37a3_160
	ldr	x18, [x8]
.Lcovretin_BB_17fa37a3_92:
	mov	x4, xzr
	mov	x1, xzr
	b	.Lcovretin_BB_17fa37a3_94
.Lcovretin_BB_17fa37a3_93:
	add	x1, x1, #1
	add	x4, x4, #32
	cmp	x15, x1
	b.eq	.Lcovretin_BB_17fa37a3_160
.Lcovretin_BB_17fa37a3_94:
	ldr	x5, [x18, x4]
	subs	x5, x9, x5
	b.lo	.Lcovretin_BB_17fa37a3_93
	add	x6, x18, x4
	ldr	x6, [x6, #8]
	cbz	x6, .Lcovretin_BB_17fa37a3_93
	sub	x6, x6, #1
	cmp	x5, x6
	b.hi	.Lcovretin_BB_17fa37a3_93
.Lcovretin_BB_17fa37a3_97:
	str	x1, [x8, #48]
	add	x15, x18, x4
	mov	w4, w13
	ldp	x18, x1, [x15]
	sub	x18, x9, x18
	sub	x5, x1, x18
	ldr	x1, [x15, #24]
	cmp	x5, x4
	csel	x15, x5, x4, lo
	b.hs	.Lcovretin_BB_17fa37a3_168
	ldrh	w14, [x8, #178]
	cbz	w14, .Lcovretin_BB_17fa37a3_35
	sub	w13, w13, w15
	mov	w4, #1
	add	x5, x15, x9
	str	w13, [x8, #168]
	sub	w13, w14, #1
	stp	x4, x5, [x8, #152]
	strh	w16, [x8, #172]
	strh	w17, [x8, #174]
	strh	w13, [x8, #178]
	b	.Lcovretin_BB_17fa37a3_171
.Lcovretin_BB_17fa37a3_100:
	mov	w16, #9
	b	.Lcovretin_BB_17fa37a3_145
.Lcovretin_BB_17fa37a3_101:
	mov	w16, #9
	b	.Lcovretin_BB_17fa37a3_161
.Lcovretin_BB_17fa37a3_102:
	cmp	w17, w10
	b.ls	.Lcovretin_BB_17fa37a3_105
	ldr	x17, [x8, #112]
	ldrh	w17, [x17, x10, lsl #1]
	cbz	w17, .Lcovretin_BB_17fa37a3_29
	mov	w16, #17
	b	.Lcovretin_BB_17fa37a3_77
.Lcovretin_BB_17fa37a3_105:
	mov	w16, #10
	b	.Lcovretin_BB_17fa37a3_77
.Lcovretin_BB_17fa37a3_106:
	ldr	x1, [x8, #48]
	ldr	x11, [x8, #8]
	cmp	x1, x11
	b.hs	.Lcovretin_BB_17fa37a3_110
	ldr	x14, [x8]
	lsl	x4, x1, #5
	add	x15, x14, x4
	ldr	x13, [x15]
	subs	x13, x9, x13
	b.lo	.Lcovretin_BB_17fa37a3_110
	ldr	x15, [x15, #8]
	subs	x15, x15, x10
	b.lo	.Lcovretin_BB_17fa37a3_110
	cmp	x13, x15
	b.ls	.Lcovretin_BB_17fa37a3_143
.Lcovretin_BB_17fa37a3_110:
	ldr	x14, [x8, #32]
	cbz	x14, .Lcovretin_BB_17fa37a3_136
	ldr	x13, [x8, #24]
	mov	x15, xzr
	b	.Lcovretin_BB_17fa37a3_113
.Lcovretin_BB_17fa37a3_112:
	mov	x14, x16
	cmp	x15, x16
	b.hs	.Lcovretin_BB_17fa37a3_116
.Lcovretin_BB_17fa37a3_113:
	sub	x16, x14, x15
	add	x16, x15, x16, lsr #1
	ldrh	w17, [x13, x16, lsl #1]
	cmp	x11, x17
	b.ls	.Lcovretin_BB_17fa37a3_112
	ldr	x18, [x8]
	lsl	x17, x17, #5
	ldr	x17, [x18, x17]
	cmp	x17, x9
	b.hi	.Lcovretin_BB_17fa37a3_112
	add	x15, x16, #1
	cmp	x15, x14
	b.lo	.Lcovretin_BB_17fa37a3_113
.Lcovretin_BB_17fa37a3_116:
	cbz	x15, .Lcovretin_BB_17fa37a3_136
	add	x13, x13, x15, lsl #1
	ldurh	w1, [x13, #-2]
	cmp	x11, x1
	b.ls	.Lcovretin_BB_17fa37a3_136
	ldr	x14, [x8]
	lsl	x4, x1, #5
	add	x15, x14, x4
	ldr	x13, [x15]
	subs	x13, x9, x13
	b.lo	.Lcovretin_BB_17fa37a3_138
	ldr	x15, [x15, #8]
	subs	x15, x15, x10
	b.lo	.Lcovretin_BB_17fa37a3_138
	cmp	x13, x15
	b.hi	.Lcovretin_BB_17fa37a3_138
	b	.Lcovretin_BB_17fa37a3_143
.Lcovretin_BB_17fa37a3_121:
	ldr	x5, [x8, #48]
	ldr	x13, [x8, #8]
	cmp	x5, x13
	b.hs	.Lcovretin_BB_17fa37a3_125
	ldr	x4, [x8]
	lsl	x6, x5, #5
	add	x16, x4, x6
	ldr	x15, [x16]
	subs	x15, x9, x15
	b.lo	.Lcovretin_BB_17fa37a3_125
	ldr	x16, [x16, #8]
	subs	x16, x16, x1
	b.lo	.Lcovretin_BB_17fa37a3_125
	cmp	x15, x16
	b.ls	.Lcovretin_BB_17fa37a3_159
.Lcovretin_BB_17fa37a3_125:
	ldr	x16, [x8, #32]
	cbz	x16, .Lcovretin_BB_17fa37a3_152
	ldr	x15, [x8, #24]
	mov	x17, xzr
	b	.Lcovretin_BB_17fa37a3_128
.Lcovretin_BB_17fa37a3_127:
	mov	x16, x18
	cmp	x17, x18
	b.hs	.Lcovretin_BB_17fa37a3_131
.Lcovretin_BB_17fa37a3_128:
	sub	x18, x16, x17
	add	x18, x17, x18, lsr #1
	ldrh	w4, [x15, x18, lsl #1]
	cmp	x13, x4
	b.ls	.Lcovretin_BB_17fa37a3_127
	ldr	x5, [x8]
	lsl	x4, x4, #5
	ldr	x4, [x5, x4]
	cmp	x4, x9
	b.hi	.Lcovretin_BB_17fa37a3_127
	add	x17, x18, #1
	cmp	x17, x16
	b.lo	.Lcovretin_BB_17fa37a3_128
.Lcovretin_BB_17fa37a3_131:
	cbz	x17, .Lcovretin_BB_17fa37a3_152
	add	x15, x15, x17, lsl #1
	ldurh	w5, [x15, #-2]
	cmp	x13, x5
	b.ls	.Lcovretin_BB_17fa37a3_152
	ldr	x4, [x8]
	lsl	x6, x5, #5
	add	x16, x4, x6
	ldr	x15, [x16]
	subs	x15, x9, x15
	b.lo	.Lcovretin_BB_17fa37a3_154
	ldr	x16, [x16, #8]
	subs	x16, x16, x1
	b.lo	.Lcovretin_BB_17fa37a3_154
	cmp	x15, x16
	b.hi	.Lcovretin_BB_17fa37a3_154
	b	.Lcovretin_BB_17fa37a3_159
.Lcovretin_BB_17fa37a3_136:
	cbz	x11, .Lcovretin_BB_17fa37a3_144
	ldr	x14, [x8]
.Lcovretin_BB_17fa37a3_138:
	mov	x4, xzr
	mov	x1, xzr
	b	.Lcovretin_BB_17fa37a3_140
.Lcovretin_BB_17fa37a3_139:
	add	x1, x1, #1
	add	x4, x4, #32
	mov	w16, #8
	cmp	x11, x1
	b.eq	.Lcovretin_BB_17fa37a3_145
.Lcovretin_BB_17fa37a3_140:
	ldr	x13, [x14, x4]
	subs	x13, x9, x13
	b.lo	.Lcovretin_BB_17fa37a3_139
	add	x15, x14, x4
	ldr	x15, [x15, #8]
	subs	x15, x15, x10
	b.lo	.Lcovretin_BB_17fa37a3_139
	cmp	x13, x15
	b.hi	.Lcovretin_BB_17fa37a3_139
.Lcovretin_BB_17fa37a3_143:
	str	x1, [x8, #48]
	add	x11, x14, x4
	lsr	x10, x10, #4
	ldr	x14, [x11]
	ldr	x11, [x11, #24]
	mov	w18, wzr
	mov	x13, xzr
	mov	x15, xzr
	mov	w17, wzr
	sub	x9, x9, x14
	strh	w10, [x8, #144]
	mov	w10, #1
	add	x9, x9, x11
	stur	w10, [x8, #146]
	str	x9, [x8, #136]
	mov	x9, xzr
	strb	wzr, [x8, #181]
	stp	xzr, xzr, [x12]
	str	xzr, [x12, #16]
	str	wzr, [sp, #56]
	stur	wzr, [sp, #59]
	b	.Lcovretin_BB_17fa37a3_151
.Lcovretin_BB_17fa37a3_144:
	mov	w16, #8
.Lcovretin_BB_17fa37a3_145:
	mov	x13, xzr
	mov	x15, xzr
	mov	x9, xzr
	mov	w17, wzr
	mov	w18, wzr
	mov	w10, #1
	strb	w10, [x8, #184]
.Lcovretin_BB_17fa37a3_146:
	ldr	w11, [sp, #32]
	ldur	w12, [sp, #35]
	b	.Lcovretin_BB_17fa37a3_163
.Lcovretin_BB_17fa37a3_147:
	tbnz	w10, #0, .Lcovretin_BB_17fa37a3_177
	ldrh	w13, [x8, #176]
	mov	w17, wzr
	mov	w11, wzr
.Lcovretin_BB_17fa37a3_149:
	strh	w11, [x8, #148]
	sub	w11, w13, #1
	strh	w17, [x8, #146]
	stp	xzr, xzr, [x12]
	str	xzr, [x12, #16]
	strh	w11, [x8, #176]
.Lcovretin_BB_17fa37a3_150:
	ubfx	w11, w10, #1, #1
	and	w10, w10, #0x2
	str	wzr, [sp, #56]
	lsr	w17, w10, #1
	add	x13, x16, x14
	stur	wzr, [sp, #59]
	strb	w11, [x8, #180]
	mov	w18, #1
.Lcovretin_BB_17fa37a3_151:
	ldr	w11, [sp, #56]
	ldur	w12, [sp, #59]
	mov	w10, wzr
	mov	x16, xzr
	str	w11, [sp, #40]
	stur	w12, [sp, #43]
	mov	w12, w12
	ldr	w11, [sp, #40]
	str	w11, [sp, #32]
	stur	w12, [sp, #35]
	b	.Lcovretin_BB_17fa37a3_146
.Lcovretin_BB_17fa37a3_152:
	cbz	x13, .Lcovretin_BB_17fa37a3_160
	ldr	x4, [x8]
.Lcovretin_BB_17fa37a3_154:
	mov	x6, xzr
	mov	x5, xzr
	b	.Lcovretin_BB_17fa37a3_156
.Lcovretin_BB_17fa37a3_155:
	add	x5, x5, #1
	add	x6, x6, #32
	mov	w16, #8
	cmp	x13, x5
	b.eq	.Lcovretin_BB_17fa37a3_161
.Lcovretin_BB_17fa37a3_156:
	ldr	x15, [x4, x6]
	subs	x15, x9, x15
	b.lo	.Lcovretin_BB_17fa37a3_155
	add	x16, x4, x6
	ldr	x16, [x16, #8]
	subs	x16, x16, x1
	b.lo	.Lcovretin_BB_17fa37a3_155
	cmp	x15, x16
	b.hi	.Lcovretin_BB_17fa37a3_155
.Lcovretin_BB_17fa37a3_159:
	str	x5, [x8, #48]
	lsr	x16, x1, #4
	add	x1, x4, x6
	ldr	x4, [x1]
	ldr	x1, [x1, #24]
	mov	w18, wzr
	strh	w16, [x8, #144]
	mov	w16, #1
	mov	x13, xzr
	sub	x9, x9, x4
	mov	x15, xzr
	mov	w17, wzr
	add	x9, x9, x1
	stur	w16, [x8, #146]
	strb	wzr, [x8, #181]
	str	x9, [x8, #136]
	mov	x9, xzr
	stp	xzr, xzr, [x14]
	str	xzr, [x14, #16]
	str	wzr, [sp, #56]
	stur	wzr, [sp, #59]
	b	.Lcovretin_BB_17fa37a3_172
.Lcovretin_BB_17fa37a3_160:
	mov	w16, #8
.Lcovretin_BB_17fa37a3_161:
	mov	x13, xzr
	mov	x15, xzr
	mov	x9, xzr
	mov	w17, wzr
	mov	w18, wzr
	mov	w10, #1
	strb	w10, [x8, #187]
.Lcovretin_BB_17fa37a3_162:
	ldr	w11, [sp, #16]
	ldur	w12, [sp, #19]
.Lcovretin_BB_17fa37a3_163:
	str	w11, [sp, #48]
	stur	w12, [sp, #51]
	mov	w12, w12
	ldr	w11, [sp, #48]
	str	x8, [x0]
	str	w11, [sp, #8]
	stur	w12, [sp, #11]
	cbz	w10, .Lcovretin_BB_17fa37a3_165
	adrp	x8, .Lcovretin_switch.table.covretin_queue_step
	add	x8, x8, :lo12:.Lcovretin_switch.table.covretin_queue_step
	ldr	w0, [x8, x16, lsl #2]
	add	sp, sp, #64
	.cfi_def_cfa_offset 0
	ret
.Lcovretin_BB_17fa37a3_165:
	.cfi_restore_state
	.cfi_remember_state
	mov	w0, wzr
	cbz	w18, .Lcovretin_BB_17fa37a3_167
	ldr	w8, [sp, #8]
	str	x9, [x2, #16]
	ldur	w9, [sp, #11]
	stp	x13, x15, [x2]
	stur	w8, [x2, #25]
	mov	w8, #1
	strb	w17, [x2, #24]
	str	w9, [x2, #28]
	strb	w8, [x3]
	add	sp, sp, #64
	.cfi_def_cfa_offset 0
	ret
.Lcovretin_BB_17fa37a3_167:
	.cfi_restore_state
	.cfi_remember_state
	strb	wzr, [x3]
	add	sp, sp, #64
	.cfi_def_cfa_offset 0
	ret
.Lcovretin_BB_17fa37a3_168:
	.cfi_restore_state
	tbnz	w16, #0, .Lcovretin_BB_17fa37a3_180
	ldrh	w13, [x8, #176]
	mov	w4, wzr
	mov	w17, wzr
.Lcovretin_BB_17fa37a3_170:
	sub	w13, w13, #1
	strh	w4, [x8, #146]
	strh	w17, [x8, #148]
	stp	xzr, xzr, [x14]
	str	xzr, [x14, #16]
	strh	w13, [x8, #176]
.Lcovretin_BB_17fa37a3_171:
	ubfx	w13, w16, #1, #1
	and	w14, w16, #0x2
	str	wzr, [sp, #56]
	lsr	w17, w14, #1
	stur	wzr, [sp, #59]
	strb	w13, [x8, #180]
	add	x13, x1, x18
	mov	w18, #1
.Lcovretin_BB_17fa37a3_172:
	cmp	w12, #1
	b.eq	.Lcovretin_BB_17fa37a3_176
	ldrb	w12, [x8, #186]
	cmp	w12, #1
	b.ne	.Lcovretin_BB_17fa37a3_176
	ldrh	w12, [x8, #184]
	mov	w14, #5
	and	w14, w11, w14
	add	w11, w12, #1
	cmp	w14, #1
	strh	w11, [x8, #184]
	b.eq	.Lcovretin_BB_17fa37a3_176
	ldr	x12, [x8, #112]
	strb	wzr, [x8, #186]
	strh	w11, [x12, x10, lsl #1]
	ldrh	w10, [x8, #64]
	ldrh	w11, [x8, #98]
	ldrh	w12, [x8, #184]
	ldrb	w14, [x8, #100]
	strb	wzr, [x8, #101]
	sub	w10, w10, w11
	cmp	w12, w10, uxth
	eor	w16, w14, #0x1
	csneg	w10, w11, w10, lo
	csel	w14, w14, w16, lo
	add	w10, w10, w12
	strb	w14, [x8, #100]
	strh	w10, [x8, #98]
.Lcovretin_BB_17fa37a3_176:
	ldr	w11, [sp, #56]
	ldur	w12, [sp, #59]
	mov	w10, wzr
	mov	x16, xzr
	str	w11, [sp, #24]
	stur	w12, [sp, #27]
	mov	w12, w12
	ldr	w11, [sp, #24]
	str	w11, [sp, #16]
	stur	w12, [sp, #19]
	b	.Lcovretin_BB_17fa37a3_162
.Lcovretin_BB_17fa37a3_177:
	ldrh	w13, [x8, #144]
	cmp	w13, w11
	b.ls	.Lcovretin_BB_17fa37a3_183
	ldrh	w13, [x8, #176]
	cmp	w13, #1
	b.eq	.Lcovretin_BB_17fa37a3_41
	mov	w17, #1
	b	.Lcovretin_BB_17fa37a3_149
.Lcovretin_BB_17fa37a3_180:
	ldrh	w13, [x8, #144]
	cmp	w13, w17, uxth
	b.ls	.Lcovretin_BB_17fa37a3_184
	ldrh	w13, [x8, #176]
	cmp	w13, #1
	b.eq	.Lcovretin_BB_17fa37a3_35
	mov	w4, #1
	b	.Lcovretin_BB_17fa37a3_170
.Lcovretin_BB_17fa37a3_183:
	mov	w16, #10
	b	.Lcovretin_BB_17fa37a3_145
.Lcovretin_BB_17fa37a3_184:
	mov	w16, #10
	b	.Lcovretin_BB_17fa37a3_161
.Lcovretin_func_end_17fa37a3:
	.size	covretin_queue_step, .Lcovretin_func_end_17fa37a3-covretin_queue_step
	.cfi_endproc

	.type	.Lcovretin_switch.table.covretin_queue_step,@object
	.section	.rodata..Lcovretin_switch.table.covretin_queue_step,"a",@progbits
	.p2align	2, 0x0
.Lcovretin_switch.table.covretin_queue_step:
	.word	1
	.word	2
	.word	3
	.word	4
	.word	5
	.word	6
	.word	7
	.word	8
	.word	9
	.word	10
	.word	11
	.word	13
	.word	14
	.word	15
	.word	16
	.word	17
	.word	18
	.word	19
	.word	20
	.word	21
	.word	22
	.size	.Lcovretin_switch.table.covretin_queue_step, 84

	.ident	"rattle logic=dac8208d650f15bf3e2dc313a14fa4c783a3acf887bdfab66e1714b038d9e11b"
	.section	".note.GNU-stack","",@progbits
