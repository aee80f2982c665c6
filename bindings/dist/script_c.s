# The code of crates/script_c, as the toolchain rattle-kit-13f logic dac8208d650f15bf compiled it for x86-64 once it was proved. Made by tools/dist.
	.file	"rattle"
	.section	".text.unlikely.std_alloc::vec::Vec::grow_amortized::<#c9fd60d064fcd5bb>","ax",@progbits
	.p2align	4
	.type	"std_alloc::vec::Vec::grow_amortized::<#c9fd60d064fcd5bb>",@function
"std_alloc::vec::Vec::grow_amortized::<#c9fd60d064fcd5bb>":
	.cfi_startproc
	movq	%rsi, %rax
	movq	8(%rdi), %rsi
	addq	%rsi, %rax
	jae	.LBB0_2
	xorl	%eax, %eax
	retq
.LBB0_2:
	pushq	%r14
	.cfi_def_cfa_offset 16
	pushq	%rbx
	.cfi_def_cfa_offset 24
	pushq	%rax
	.cfi_def_cfa_offset 32
	.cfi_offset %rbx, -24
	.cfi_offset %r14, -16
	cmpq	$9, %rax
	movl	$8, %ebx
	cmovaeq	%rax, %rbx
	movq	16(%rdi), %rcx
	movq	%rcx, %rdx
	shrq	$62, %rdx
	leaq	(%rcx,%rcx), %rax
	cmpq	%rax, %rbx
	cmovaq	%rbx, %rax
	testq	%rdx, %rdx
	cmoveq	%rax, %rbx
	testq	%rbx, %rbx
	js	.LBB0_6
	testq	%rcx, %rcx
	je	.LBB0_8
	movq	%rdi, %r14
	movq	(%rdi), %rdi
	movl	$1, %ecx
	movq	%rbx, %rdx
	callq	rattle_realloc@PLT
	testb	$1, %al
	je	.LBB0_6
.LBB0_9:
	movq	%rdx, (%r14)
	movq	%rbx, 16(%r14)
	movb	$1, %al
	addq	$8, %rsp
	.cfi_def_cfa_offset 24
	popq	%rbx
	.cfi_def_cfa_offset 16
	popq	%r14
	.cfi_def_cfa_offset 8
	.cfi_restore %rbx
	.cfi_restore %r14
	retq
.LBB0_8:
	.cfi_def_cfa_offset 32
	.cfi_offset %rbx, -24
	.cfi_offset %r14, -16
	movq	%rdi, %r14
	movl	$1, %esi
	movq	%rax, %rdi
	callq	rattle_alloc@PLT
	testb	$1, %al
	jne	.LBB0_9
.LBB0_6:
	xorl	%eax, %eax
	addq	$8, %rsp
	.cfi_def_cfa_offset 24
	popq	%rbx
	.cfi_def_cfa_offset 16
	popq	%r14
	.cfi_def_cfa_offset 8
	.cfi_restore %rbx
	.cfi_restore %r14
	retq
.Lfunc_end0:
	.size	"std_alloc::vec::Vec::grow_amortized::<#c9fd60d064fcd5bb>", .Lfunc_end0-"std_alloc::vec::Vec::grow_amortized::<#c9fd60d064fcd5bb>"
	.cfi_endproc

	.section	.rodata.cst16,"aM",@progbits,16
	.p2align	4, 0x0
.LCPI1_0:
	.byte	0
	.byte	1
	.byte	2
	.byte	3
	.byte	4
	.byte	5
	.byte	6
	.byte	7
	.byte	8
	.byte	9
	.byte	10
	.byte	11
	.byte	12
	.byte	13
	.byte	14
	.byte	15
.LCPI1_1:
	.byte	16
	.byte	17
	.byte	18
	.byte	19
	.byte	20
	.byte	21
	.byte	22
	.byte	23
	.byte	24
	.byte	25
	.byte	26
	.byte	27
	.byte	28
	.byte	29
	.byte	30
	.byte	31
.LCPI1_2:
	.byte	105
	.byte	110
	.byte	99
	.byte	111
	.byte	114
	.byte	114
	.byte	101
	.byte	99
	.byte	116
	.byte	32
	.byte	111
	.byte	114
	.byte	100
	.byte	101
	.byte	114
	.byte	105
.LCPI1_3:
	.byte	114
	.byte	101
	.byte	102
	.byte	117
	.byte	115
	.byte	101
	.byte	100
	.byte	32
	.byte	114
	.byte	101
	.byte	100
	.byte	117
	.byte	99
	.byte	116
	.byte	105
	.byte	111
	.section	".text.ord_script::serving::answer_to::<#40a73cb1e87492e9>","ax",@progbits
	.p2align	4
	.type	"ord_script::serving::answer_to::<#40a73cb1e87492e9>",@function
"ord_script::serving::answer_to::<#40a73cb1e87492e9>":
	.cfi_startproc
	pushq	%rbp
	.cfi_def_cfa_offset 16
	pushq	%r15
	.cfi_def_cfa_offset 24
	pushq	%r14
	.cfi_def_cfa_offset 32
	pushq	%r13
	.cfi_def_cfa_offset 40
	pushq	%r12
	.cfi_def_cfa_offset 48
	pushq	%rbx
	.cfi_def_cfa_offset 56
	subq	$792, %rsp
	.cfi_def_cfa_offset 848
	.cfi_offset %rbx, -56
	.cfi_offset %r12, -48
	.cfi_offset %r13, -40
	.cfi_offset %r14, -32
	.cfi_offset %r15, -24
	.cfi_offset %rbp, -16
	movq	%rdi, 616(%rsp)
	xorps	%xmm0, %xmm0
	movaps	%xmm0, 752(%rsp)
	movq	$0, 768(%rsp)
	movq	%rsp, %r12
	movq	%r12, 560(%rsp)
	movups	%xmm0, 568(%rsp)
	testq	%rdx, %rdx
	je	.LBB1_2
	movq	%rsi, %r15
	xorl	%edi, %edi
	jmp	.LBB1_10
.LBB1_2:
	movq	560(%rsp), %r13
	movb	$1, %al
	movq	$0, 24(%rsp)
	xorl	%ebx, %ebx
	movq	$0, 736(%rsp)
	movb	$1, %cl
	movq	%rcx, 728(%rsp)
	movq	$0, 744(%rsp)
	movq	$0, 288(%rsp)
	jmp	.LBB1_404
.LBB1_3:
	movq	$0, 24(%rsp)
	xorl	%r13d, %r13d
.LBB1_4:
	xorl	%eax, %eax
	xorl	%r14d, %r14d
	xorl	%r9d, %r9d
	xorl	%r11d, %r11d
	xorl	%r10d, %r10d
.LBB1_5:
	xorl	%ebp, %ebp
.LBB1_6:
	movq	%rsp, %r12
.LBB1_7:
	movq	568(%rsp), %rcx
	cmpq	%rcx, 576(%rsp)
	je	.LBB1_50
.LBB1_8:
	shlq	$32, %r14
	movl	%eax, %eax
	orq	%r14, %rax
	movq	560(%rsp), %rdx
	leaq	(%rcx,%rcx,2), %rsi
	shlq	$4, %rsi
	movb	%dil, (%rdx,%rsi)
	movq	24(%rsp), %rdi
	movb	%dil, 1(%rdx,%rsi)
	movl	%r13d, 4(%rdx,%rsi)
	movq	%rax, 8(%rdx,%rsi)
	movq	%r9, 16(%rdx,%rsi)
	movq	%r11, 24(%rdx,%rsi)
	movq	%r10, 32(%rdx,%rsi)
	movq	%rbp, 40(%rdx,%rsi)
	incq	%rcx
	movq	%rcx, 568(%rsp)
	movq	72(%rsp), %rdi
	movq	416(%rsp), %rsi
	movq	312(%rsp), %rdx
	.p2align	4
.LBB1_9:
	addq	%rsi, %r15
	testq	%rdx, %rdx
	je	.LBB1_388
.LBB1_10:
	xorl	%eax, %eax
	.p2align	4
.LBB1_11:
	cmpb	$10, (%r15,%rax)
	je	.LBB1_14
	incq	%rax
	cmpq	%rax, %rdx
	jne	.LBB1_11
	movq	%rdx, %r10
	movq	%rdx, %rsi
	xorl	%edx, %edx
	incq	%rdi
	testq	%r10, %r10
	jne	.LBB1_18
	jmp	.LBB1_9
	.p2align	4
.LBB1_14:
	testq	%rax, %rax
	je	.LBB1_16
	xorl	%ecx, %ecx
	cmpb	$13, -1(%r15,%rax)
	sete	%cl
	movq	%rax, %r10
	subq	%rcx, %r10
	jmp	.LBB1_17
.LBB1_16:
	xorl	%r10d, %r10d
.LBB1_17:
	leaq	1(%rax), %rsi
	notq	%rax
	addq	%rax, %rdx
	incq	%rdi
	testq	%r10, %r10
	je	.LBB1_9
.LBB1_18:
	movq	%r15, %r14
	movq	%r10, %rbp
	jmp	.LBB1_20
	.p2align	4
.LBB1_19:
	incq	%r14
	decq	%rbp
	je	.LBB1_9
.LBB1_20:
	movzbl	(%r14), %eax
	cmpl	$32, %eax
	je	.LBB1_19
	cmpl	$9, %eax
	je	.LBB1_19
	testq	%rbp, %rbp
	je	.LBB1_27
	xorl	%eax, %eax
	.p2align	4
.LBB1_24:
	movzbl	(%r14,%rax), %ecx
	cmpl	$9, %ecx
	je	.LBB1_28
	cmpl	$32, %ecx
	je	.LBB1_28
	incq	%rax
	cmpq	%rax, %rbp
	jne	.LBB1_24
.LBB1_27:
	addq	%r15, %r10
	movq	$0, 16(%rsp)
	testq	%rbp, %rbp
	jne	.LBB1_29
	jmp	.LBB1_30
.LBB1_28:
	leaq	(%r14,%rax), %r10
	subq	%rax, %rbp
	movq	%rbp, 16(%rsp)
	movq	%rax, %rbp
	testq	%rbp, %rbp
	je	.LBB1_30
.LBB1_29:
	cmpb	$35, (%r14)
	je	.LBB1_9
.LBB1_30:
	movq	%rdx, 312(%rsp)
	movq	%rsi, 416(%rsp)
	movaps	.LCPI1_0(%rip), %xmm0
	movaps	%xmm0, 80(%rsp)
	movaps	.LCPI1_1(%rip), %xmm0
	movaps	%xmm0, 96(%rsp)
	movw	$8480, 112(%rsp)
	cmpq	$4, %rbp
	movq	%rdi, 72(%rsp)
	jae	.LBB1_32
	xorl	%eax, %eax
	jmp	.LBB1_39
.LBB1_32:
	xorl	%ebx, %ebx
	jmp	.LBB1_34
	.p2align	4
.LBB1_33:
	incq	%rbx
	cmpq	$34, %rbx
	je	.LBB1_384
.LBB1_34:
	movzbl	80(%rsp,%rbx), %r12d
	leal	(,%r12,8), %eax
	leaq	".Lswitch.table.ord_script::serving::answer_to::<#40a73cb1e87492e9>.320"(%rip), %rcx
	cmpq	(%rax,%rcx), %rbp
	jne	.LBB1_33
	leaq	".Lswitch.table.ord_script::serving::answer_to::<#40a73cb1e87492e9>.321"(%rip), %rcx
	movq	(%rax,%rcx), %rdx
	movl	(%r14), %eax
	cmpl	(%rdx), %eax
	jne	.LBB1_33
	movq	%r14, %rdi
	movq	%rbp, %rsi
	movq	%r10, %r13
	callq	"core::cmp::slices::groups_equal::<i8,31'core::cmp::numbers::U8PartialEq{}>"
	movq	%r13, %r10
	testb	%al, %al
	je	.LBB1_33
	jmp	.LBB1_43
	.p2align	4
.LBB1_37:
	cmpq	%rbp, %rcx
	jae	.LBB1_43
.LBB1_38:
	incq	%rax
	cmpq	$34, %rax
	je	.LBB1_384
.LBB1_39:
	movzbl	80(%rsp,%rax), %r12d
	leal	(,%r12,8), %ecx
	leaq	".Lswitch.table.ord_script::serving::answer_to::<#40a73cb1e87492e9>.320"(%rip), %rdx
	cmpq	(%rcx,%rdx), %rbp
	jne	.LBB1_38
	leaq	".Lswitch.table.ord_script::serving::answer_to::<#40a73cb1e87492e9>.321"(%rip), %rdx
	movq	(%rcx,%rdx), %rdx
	xorl	%ecx, %ecx
	.p2align	4
.LBB1_41:
	movzbl	(%r14,%rcx), %esi
	cmpb	(%rdx,%rcx), %sil
	jne	.LBB1_37
	incq	%rcx
	cmpq	%rcx, %rbp
	jne	.LBB1_41
.LBB1_43:
	xorps	%xmm0, %xmm0
	movaps	%xmm0, 80(%rsp)
	movaps	%xmm0, 96(%rsp)
	movq	$0, 112(%rsp)
	movaps	%xmm0, 192(%rsp)
	movaps	%xmm0, 208(%rsp)
	movq	$0, 224(%rsp)
	movaps	%xmm0, 32(%rsp)
	movaps	%xmm0, 48(%rsp)
	movaps	%xmm0, 512(%rsp)
	movaps	%xmm0, 528(%rsp)
	movaps	%xmm0, 688(%rsp)
	movaps	%xmm0, 704(%rsp)
	movaps	%xmm0, 320(%rsp)
	movaps	%xmm0, 336(%rsp)
	movq	$0, 352(%rsp)
	movaps	%xmm0, 640(%rsp)
	movaps	%xmm0, 624(%rsp)
	movq	$0, 656(%rsp)
	movzbl	%r12b, %eax
	leaq	.LJTI1_0(%rip), %rcx
	movslq	(%rcx,%rax,4), %rax
	addq	%rcx, %rax
	jmpq	*%rax
.LBB1_44:
	movaps	%xmm0, 464(%rsp)
	movaps	%xmm0, 448(%rsp)
	movq	%r10, 384(%rsp)
	movq	16(%rsp), %rax
	movq	%rax, 392(%rsp)
	leaq	448(%rsp), %rdi
	leaq	384(%rsp), %rsi
	callq	"ord_script::arguments::PairArguments::read"
	movb	$1, %al
	movq	%rax, 24(%rsp)
	cmpb	$1, 448(%rsp)
	jne	.LBB1_385
	movzbl	456(%rsp), %ecx
	movq	464(%rsp), %rax
	movq	472(%rsp), %r9
	movq	392(%rsp), %rdx
	testq	%rdx, %rdx
	movq	72(%rsp), %rbx
	movq	%rsp, %r12
	je	.LBB1_249
	movq	384(%rsp), %rsi
	xorl	%edi, %edi
	jmp	.LBB1_48
.LBB1_47:
	incq	%rdi
	cmpq	%rdi, %rdx
	je	.LBB1_249
.LBB1_48:
	movzbl	(%rsi,%rdi), %r8d
	cmpl	$32, %r8d
	je	.LBB1_47
	cmpl	$9, %r8d
	je	.LBB1_47
	jmp	.LBB1_387
.LBB1_50:
	movq	%r11, 64(%rsp)
	movq	%r10, 432(%rsp)
	movq	%r13, 16(%rsp)
	movq	%rdi, %rbx
	movq	%r9, %r13
	movq	%rax, %r12
	leaq	560(%rsp), %rdi
	callq	"std_alloc::vec::Vec::grow_amortized::<#0f3143e36ca1738c>"
	testb	%al, %al
	je	.LBB1_1552
	movq	568(%rsp), %rcx
	movq	%r12, %rax
	movq	%rsp, %r12
	movq	%r13, %r9
	movq	%rbx, %rdi
	movq	16(%rsp), %r13
	movq	432(%rsp), %r10
	movq	64(%rsp), %r11
	jmp	.LBB1_8
.LBB1_52:
	movb	$24, %dil
	movq	16(%rsp), %rdx
	testq	%rdx, %rdx
	je	.LBB1_3
	xorl	%eax, %eax
	movq	72(%rsp), %rbx
	movq	%rsp, %r12
	jmp	.LBB1_55
.LBB1_54:
	incq	%rax
	cmpq	%rax, %rdx
	je	.LBB1_230
.LBB1_55:
	movzbl	(%r10,%rax), %ecx
	cmpl	$32, %ecx
	je	.LBB1_54
	cmpl	$9, %ecx
	je	.LBB1_54
	jmp	.LBB1_69
.LBB1_57:
	movq	%r10, %rdi
	movq	16(%rsp), %rsi
	callq	"ord_script::arguments::arguments_in::<#72c52d254c9843c5>"
	testb	%al, %al
	jne	.LBB1_1550
	andb	$1, %dl
	movq	%rdx, 24(%rsp)
	xorl	%r13d, %r13d
	movb	$11, %dil
	jmp	.LBB1_4
.LBB1_59:
	movb	$9, %dil
	movq	16(%rsp), %rdx
	testq	%rdx, %rdx
	je	.LBB1_3
	xorl	%eax, %eax
	movq	72(%rsp), %rbx
	movq	%rsp, %r12
	jmp	.LBB1_62
.LBB1_61:
	incq	%rax
	cmpq	%rax, %rdx
	je	.LBB1_230
.LBB1_62:
	movzbl	(%r10,%rax), %ecx
	cmpl	$32, %ecx
	je	.LBB1_61
	cmpl	$9, %ecx
	je	.LBB1_61
	jmp	.LBB1_69
.LBB1_64:
	movb	$30, %dil
	movq	16(%rsp), %rdx
	testq	%rdx, %rdx
	je	.LBB1_3
	xorl	%eax, %eax
	movq	72(%rsp), %rbx
	movq	%rsp, %r12
	jmp	.LBB1_67
.LBB1_66:
	incq	%rax
	cmpq	%rax, %rdx
	je	.LBB1_230
.LBB1_67:
	movzbl	(%r10,%rax), %ecx
	cmpl	$32, %ecx
	je	.LBB1_66
	cmpl	$9, %ecx
	je	.LBB1_66
	jmp	.LBB1_69
.LBB1_71:
	movaps	%xmm0, 464(%rsp)
	movaps	%xmm0, 448(%rsp)
	movq	%r10, 384(%rsp)
	movq	16(%rsp), %rax
	movq	%rax, 392(%rsp)
	leaq	448(%rsp), %rdi
	leaq	384(%rsp), %rsi
	callq	"ord_script::arguments::P0Arguments::read"
	movb	$1, %al
	movq	%rax, 24(%rsp)
	cmpb	$1, 448(%rsp)
	jne	.LBB1_385
	movzbl	456(%rsp), %ecx
	movl	464(%rsp), %eax
	movl	468(%rsp), %r14d
	movq	472(%rsp), %r9
	movq	392(%rsp), %rdx
	testq	%rdx, %rdx
	movq	72(%rsp), %rbx
	movq	%rsp, %r12
	je	.LBB1_243
	movq	384(%rsp), %rsi
	xorl	%edi, %edi
	jmp	.LBB1_75
.LBB1_74:
	incq	%rdi
	cmpq	%rdi, %rdx
	je	.LBB1_243
.LBB1_75:
	movzbl	(%rsi,%rdi), %r8d
	cmpl	$32, %r8d
	je	.LBB1_74
	cmpl	$9, %r8d
	je	.LBB1_74
	jmp	.LBB1_387
.LBB1_77:
	leaq	80(%rsp), %rdi
	movq	%r10, %rsi
	movq	16(%rsp), %rdx
	callq	"ord_script::arguments::arguments_in::<#392ac63fa1a388d9>"
	cmpb	$0, 80(%rsp)
	jne	.LBB1_1564
	movl	88(%rsp), %r14d
	movq	96(%rsp), %r9
	movq	104(%rsp), %r11
	movl	$3, %eax
	movq	$0, 24(%rsp)
	movb	$2, %dil
	movq	112(%rsp), %rbp
	jmp	.LBB1_148
.LBB1_79:
	movb	$1, %al
	movq	%rax, 24(%rsp)
	movq	16(%rsp), %rdx
	testq	%rdx, %rdx
	je	.LBB1_385
	movq	%r10, %rsi
	movq	%rdx, %rdi
	movq	72(%rsp), %rbx
	movq	%rsp, %r12
	jmp	.LBB1_82
	.p2align	4
.LBB1_81:
	incq	%rsi
	decq	%rdi
	je	.LBB1_387
.LBB1_82:
	movzbl	(%rsi), %eax
	cmpl	$32, %eax
	je	.LBB1_81
	cmpl	$9, %eax
	je	.LBB1_81
	testq	%rdi, %rdi
	je	.LBB1_89
	xorl	%eax, %eax
.LBB1_86:
	movzbl	(%rsi,%rax), %ecx
	cmpl	$9, %ecx
	je	.LBB1_274
	cmpl	$32, %ecx
	je	.LBB1_274
	incq	%rax
	cmpq	%rax, %rdi
	jne	.LBB1_86
.LBB1_89:
	addq	%rdx, %r10
	xorl	%r8d, %r8d
	jmp	.LBB1_275
.LBB1_90:
	leaq	320(%rsp), %rdi
	movq	%r10, %rsi
	movq	16(%rsp), %rdx
	callq	"ord_script::arguments::arguments_in::<#04330f59fddcf7ab>"
	cmpb	$0, 320(%rsp)
	jne	.LBB1_1559
	movq	328(%rsp), %rax
	movq	336(%rsp), %r9
	movq	344(%rsp), %r11
	movq	352(%rsp), %r10
	movq	%rax, %r14
	shrq	$32, %r14
	movq	$0, 24(%rsp)
	movb	$4, %dil
	jmp	.LBB1_176
.LBB1_92:
	movb	$22, %dil
	movq	16(%rsp), %rdx
	testq	%rdx, %rdx
	je	.LBB1_3
	xorl	%eax, %eax
	movq	72(%rsp), %rbx
	movq	%rsp, %r12
	jmp	.LBB1_95
.LBB1_94:
	incq	%rax
	cmpq	%rax, %rdx
	je	.LBB1_230
.LBB1_95:
	movzbl	(%r10,%rax), %ecx
	cmpl	$32, %ecx
	je	.LBB1_94
	cmpl	$9, %ecx
	je	.LBB1_94
	jmp	.LBB1_69
.LBB1_97:
	movb	$21, %dil
	movq	16(%rsp), %rdx
	testq	%rdx, %rdx
	je	.LBB1_3
	xorl	%eax, %eax
	movq	72(%rsp), %rbx
	movq	%rsp, %r12
	jmp	.LBB1_100
.LBB1_99:
	incq	%rax
	cmpq	%rax, %rdx
	je	.LBB1_230
.LBB1_100:
	movzbl	(%r10,%rax), %ecx
	cmpl	$32, %ecx
	je	.LBB1_99
	cmpl	$9, %ecx
	je	.LBB1_99
	jmp	.LBB1_69
.LBB1_102:
	movaps	%xmm0, 464(%rsp)
	movaps	%xmm0, 448(%rsp)
	movq	%r10, 384(%rsp)
	movq	16(%rsp), %rax
	movq	%rax, 392(%rsp)
	leaq	448(%rsp), %rdi
	leaq	384(%rsp), %rsi
	callq	"ord_script::arguments::PairArguments::read"
	movb	$1, %al
	movq	%rax, 24(%rsp)
	cmpb	$1, 448(%rsp)
	jne	.LBB1_385
	movzbl	456(%rsp), %eax
	movq	464(%rsp), %r10
	movq	472(%rsp), %rbp
	movq	392(%rsp), %rcx
	testq	%rcx, %rcx
	movq	72(%rsp), %rbx
	movq	%rsp, %r12
	je	.LBB1_245
	movq	384(%rsp), %rdx
	xorl	%esi, %esi
	jmp	.LBB1_106
.LBB1_105:
	incq	%rsi
	cmpq	%rsi, %rcx
	je	.LBB1_245
.LBB1_106:
	movzbl	(%rdx,%rsi), %edi
	cmpl	$32, %edi
	je	.LBB1_105
	cmpl	$9, %edi
	je	.LBB1_105
	jmp	.LBB1_387
.LBB1_108:
	movb	$10, %dil
	movq	16(%rsp), %rdx
	testq	%rdx, %rdx
	je	.LBB1_3
	xorl	%eax, %eax
	movq	72(%rsp), %rbx
	movq	%rsp, %r12
	jmp	.LBB1_111
.LBB1_110:
	incq	%rax
	cmpq	%rax, %rdx
	je	.LBB1_230
.LBB1_111:
	movzbl	(%r10,%rax), %ecx
	cmpl	$32, %ecx
	je	.LBB1_110
	cmpl	$9, %ecx
	je	.LBB1_110
	jmp	.LBB1_69
.LBB1_113:
	movaps	%xmm0, 464(%rsp)
	movaps	%xmm0, 448(%rsp)
	movq	%r10, 384(%rsp)
	movq	16(%rsp), %rax
	movq	%rax, 392(%rsp)
	leaq	448(%rsp), %rdi
	leaq	384(%rsp), %rsi
	callq	"ord_script::arguments::PairArguments::read"
	movb	$1, %al
	movq	%rax, 24(%rsp)
	cmpb	$1, 448(%rsp)
	jne	.LBB1_385
	movzbl	456(%rsp), %eax
	movq	464(%rsp), %r9
	movq	472(%rsp), %rbp
	movq	392(%rsp), %rcx
	testq	%rcx, %rcx
	movq	72(%rsp), %rbx
	movq	%rsp, %r12
	je	.LBB1_247
	movq	384(%rsp), %rdx
	xorl	%esi, %esi
	jmp	.LBB1_117
.LBB1_116:
	incq	%rsi
	cmpq	%rsi, %rcx
	je	.LBB1_247
.LBB1_117:
	movzbl	(%rdx,%rsi), %edi
	cmpl	$32, %edi
	je	.LBB1_116
	cmpl	$9, %edi
	je	.LBB1_116
	jmp	.LBB1_387
.LBB1_119:
	leaq	512(%rsp), %rdi
	movq	%r10, %rsi
	movq	16(%rsp), %rdx
	callq	"ord_script::arguments::arguments_in::<#d3e3746838e6e740>"
	cmpb	$0, 512(%rsp)
	jne	.LBB1_1561
	movl	520(%rsp), %r14d
	movq	528(%rsp), %r10
	movl	$1, %r9d
	movl	$5, %eax
	movq	$0, 24(%rsp)
	movb	$2, %dil
	movq	536(%rsp), %rbp
	jmp	.LBB1_179
.LBB1_121:
	movaps	%xmm0, 464(%rsp)
	movaps	%xmm0, 448(%rsp)
	movq	%r10, 384(%rsp)
	movq	16(%rsp), %rax
	movq	%rax, 392(%rsp)
	leaq	448(%rsp), %rdi
	leaq	384(%rsp), %rsi
	callq	"ord_script::arguments::PairArguments::read"
	movb	$1, %al
	movq	%rax, 24(%rsp)
	cmpb	$1, 448(%rsp)
	jne	.LBB1_385
	movzbl	456(%rsp), %ecx
	movq	464(%rsp), %rax
	movq	472(%rsp), %r9
	movq	392(%rsp), %rdx
	testq	%rdx, %rdx
	movq	72(%rsp), %rbx
	movq	%rsp, %r12
	je	.LBB1_251
	movq	384(%rsp), %rsi
	xorl	%edi, %edi
	jmp	.LBB1_125
.LBB1_124:
	incq	%rdi
	cmpq	%rdi, %rdx
	je	.LBB1_251
.LBB1_125:
	movzbl	(%rsi,%rdi), %r8d
	cmpl	$32, %r8d
	je	.LBB1_124
	cmpl	$9, %r8d
	je	.LBB1_124
	jmp	.LBB1_387
.LBB1_127:
	movb	$1, %al
	movq	%rax, 24(%rsp)
	movq	16(%rsp), %rdx
	testq	%rdx, %rdx
	movq	72(%rsp), %rbx
	je	.LBB1_386
	movq	%r10, %rsi
	movq	%rdx, %r8
	movq	%rsp, %r12
	jmp	.LBB1_130
	.p2align	4
.LBB1_129:
	incq	%rsi
	decq	%r8
	je	.LBB1_387
.LBB1_130:
	movzbl	(%rsi), %eax
	cmpl	$32, %eax
	je	.LBB1_129
	cmpl	$9, %eax
	je	.LBB1_129
	testq	%r8, %r8
	je	.LBB1_137
	xorl	%eax, %eax
.LBB1_134:
	movzbl	(%rsi,%rax), %ecx
	cmpl	$9, %ecx
	je	.LBB1_282
	cmpl	$32, %ecx
	je	.LBB1_282
	incq	%rax
	cmpq	%rax, %r8
	jne	.LBB1_134
.LBB1_137:
	addq	%rdx, %r10
	xorl	%edi, %edi
	jmp	.LBB1_283
.LBB1_138:
	movq	%r10, %rdi
	movq	16(%rsp), %rsi
	callq	"ord_script::arguments::arguments_in::<#72c52d254c9843c5>"
	testb	%al, %al
	jne	.LBB1_1550
	andb	$1, %dl
	movq	%rdx, 24(%rsp)
	xorl	%r13d, %r13d
	movb	$12, %dil
	jmp	.LBB1_4
.LBB1_140:
	movaps	%xmm0, 448(%rsp)
	movq	$0, 464(%rsp)
	movq	%r10, 384(%rsp)
	movq	16(%rsp), %rax
	movq	%rax, 392(%rsp)
	leaq	448(%rsp), %rdi
	leaq	384(%rsp), %rsi
	callq	"ord_script::arguments::I64Arguments::read"
	cmpb	$1, 448(%rsp)
	movq	72(%rsp), %rbx
	movq	%rsp, %r12
	jne	.LBB1_69
	movq	464(%rsp), %rax
	movzbl	456(%rsp), %ecx
	movq	392(%rsp), %rdx
	testq	%rdx, %rdx
	je	.LBB1_253
	movq	384(%rsp), %rsi
	xorl	%edi, %edi
	jmp	.LBB1_144
.LBB1_143:
	incq	%rdi
	cmpq	%rdi, %rdx
	je	.LBB1_253
.LBB1_144:
	movzbl	(%rsi,%rdi), %r8d
	cmpl	$32, %r8d
	je	.LBB1_143
	cmpl	$9, %r8d
	je	.LBB1_143
	jmp	.LBB1_69
.LBB1_146:
	leaq	192(%rsp), %rdi
	movq	%r10, %rsi
	movq	16(%rsp), %rdx
	callq	"ord_script::arguments::arguments_in::<#392ac63fa1a388d9>"
	cmpb	$0, 192(%rsp)
	jne	.LBB1_1565
	movl	200(%rsp), %r14d
	movq	208(%rsp), %r9
	movq	216(%rsp), %r11
	movl	$4, %eax
	movq	$0, 24(%rsp)
	movb	$2, %dil
	movq	224(%rsp), %rbp
.LBB1_148:
	xorl	%r13d, %r13d
	movq	%r11, %r10
	jmp	.LBB1_6
.LBB1_149:
	movaps	%xmm0, 464(%rsp)
	movaps	%xmm0, 448(%rsp)
	movq	16(%rsp), %rdx
	testq	%rdx, %rdx
	movq	%rsp, %r12
	je	.LBB1_1517
	movq	%r10, %rsi
	movq	%rdx, %rdi
	jmp	.LBB1_152
	.p2align	4
.LBB1_151:
	incq	%rsi
	decq	%rdi
	je	.LBB1_1517
.LBB1_152:
	movzbl	(%rsi), %eax
	cmpl	$32, %eax
	je	.LBB1_151
	cmpl	$9, %eax
	je	.LBB1_151
	testq	%rdi, %rdi
	je	.LBB1_159
	xorl	%eax, %eax
.LBB1_156:
	movzbl	(%rsi,%rax), %ecx
	cmpl	$9, %ecx
	je	.LBB1_291
	cmpl	$32, %ecx
	je	.LBB1_291
	incq	%rax
	cmpq	%rax, %rdi
	jne	.LBB1_156
.LBB1_159:
	addq	%rdx, %r10
	xorl	%ecx, %ecx
	jmp	.LBB1_292
.LBB1_160:
	movaps	%xmm0, 464(%rsp)
	movaps	%xmm0, 448(%rsp)
	movq	%r10, 384(%rsp)
	movq	16(%rsp), %rax
	movq	%rax, 392(%rsp)
	leaq	448(%rsp), %rdi
	leaq	384(%rsp), %rsi
	callq	"ord_script::arguments::P0Arguments::read"
	movb	$1, %al
	movq	%rax, 24(%rsp)
	cmpb	$1, 448(%rsp)
	jne	.LBB1_385
	movzbl	456(%rsp), %ecx
	movl	464(%rsp), %eax
	movl	468(%rsp), %r14d
	movq	472(%rsp), %r9
	movq	392(%rsp), %rdx
	testq	%rdx, %rdx
	movq	72(%rsp), %rbx
	movq	%rsp, %r12
	je	.LBB1_255
	movq	384(%rsp), %rsi
	xorl	%edi, %edi
	jmp	.LBB1_164
.LBB1_163:
	incq	%rdi
	cmpq	%rdi, %rdx
	je	.LBB1_255
.LBB1_164:
	movzbl	(%rsi,%rdi), %r8d
	cmpl	$32, %r8d
	je	.LBB1_163
	cmpl	$9, %r8d
	je	.LBB1_163
	jmp	.LBB1_387
.LBB1_166:
	leaq	32(%rsp), %rdi
	movq	%r10, %rsi
	movq	16(%rsp), %rdx
	callq	"ord_script::arguments::arguments_in::<#d3e3746838e6e740>"
	cmpb	$0, 32(%rsp)
	jne	.LBB1_1562
	movl	40(%rsp), %r14d
	movq	48(%rsp), %r10
	movl	$5, %eax
	movq	$0, 24(%rsp)
	movb	$2, %dil
	movq	56(%rsp), %rbp
	xorl	%r13d, %r13d
	xorl	%r9d, %r9d
	jmp	.LBB1_180
.LBB1_168:
	movaps	%xmm0, 448(%rsp)
	movq	$0, 464(%rsp)
	movq	%r10, 384(%rsp)
	movq	16(%rsp), %rax
	movq	%rax, 392(%rsp)
	leaq	448(%rsp), %rdi
	leaq	384(%rsp), %rsi
	callq	"ord_script::arguments::I64Arguments::read"
	cmpb	$1, 448(%rsp)
	movq	72(%rsp), %rbx
	movq	%rsp, %r12
	jne	.LBB1_69
	movq	464(%rsp), %rax
	movzbl	456(%rsp), %ecx
	movq	392(%rsp), %rdx
	testq	%rdx, %rdx
	je	.LBB1_257
	movq	384(%rsp), %rsi
	xorl	%edi, %edi
	jmp	.LBB1_172
.LBB1_171:
	incq	%rdi
	cmpq	%rdi, %rdx
	je	.LBB1_257
.LBB1_172:
	movzbl	(%rsi,%rdi), %r8d
	cmpl	$32, %r8d
	je	.LBB1_171
	cmpl	$9, %r8d
	je	.LBB1_171
	jmp	.LBB1_69
.LBB1_174:
	leaq	624(%rsp), %rdi
	movq	%r10, %rsi
	movq	16(%rsp), %rdx
	callq	"ord_script::arguments::arguments_in::<#04330f59fddcf7ab>"
	cmpb	$0, 624(%rsp)
	jne	.LBB1_1560
	movq	632(%rsp), %rax
	movq	640(%rsp), %r9
	movq	648(%rsp), %r11
	movq	656(%rsp), %r10
	movq	%rax, %r14
	shrq	$32, %r14
	movq	$0, 24(%rsp)
	movb	$5, %dil
.LBB1_176:
	xorl	%r13d, %r13d
	jmp	.LBB1_5
.LBB1_177:
	leaq	688(%rsp), %rdi
	movq	%r10, %rsi
	movq	16(%rsp), %rdx
	callq	"ord_script::arguments::arguments_in::<#d3e3746838e6e740>"
	cmpb	$0, 688(%rsp)
	jne	.LBB1_1563
	movl	696(%rsp), %r14d
	movq	704(%rsp), %r10
	movl	$2, %r9d
	movl	$5, %eax
	movq	$0, 24(%rsp)
	movb	$2, %dil
	movq	712(%rsp), %rbp
.LBB1_179:
	xorl	%r13d, %r13d
.LBB1_180:
	xorl	%r11d, %r11d
	jmp	.LBB1_6
.LBB1_181:
	movb	$1, %al
	movq	%rax, 24(%rsp)
	movq	16(%rsp), %rdx
	testq	%rdx, %rdx
	movq	72(%rsp), %rbx
	je	.LBB1_386
	movq	%r10, %rsi
	movq	%rdx, %r8
	movq	%rsp, %r12
	jmp	.LBB1_184
	.p2align	4
.LBB1_183:
	incq	%rsi
	decq	%r8
	je	.LBB1_387
.LBB1_184:
	movzbl	(%rsi), %eax
	cmpl	$32, %eax
	je	.LBB1_183
	cmpl	$9, %eax
	je	.LBB1_183
	testq	%r8, %r8
	je	.LBB1_191
	xorl	%eax, %eax
.LBB1_188:
	movzbl	(%rsi,%rax), %ecx
	cmpl	$9, %ecx
	je	.LBB1_299
	cmpl	$32, %ecx
	je	.LBB1_299
	incq	%rax
	cmpq	%rax, %r8
	jne	.LBB1_188
.LBB1_191:
	addq	%rdx, %r10
	xorl	%edi, %edi
	jmp	.LBB1_300
.LBB1_192:
	movb	$1, %al
	movq	%rax, 24(%rsp)
	movq	16(%rsp), %rdx
	testq	%rdx, %rdx
	movq	72(%rsp), %rbx
	je	.LBB1_386
	movq	%r10, %rsi
	movq	%rdx, %r8
	movq	%rsp, %r12
	jmp	.LBB1_195
	.p2align	4
.LBB1_194:
	incq	%rsi
	decq	%r8
	je	.LBB1_387
.LBB1_195:
	movzbl	(%rsi), %eax
	cmpl	$32, %eax
	je	.LBB1_194
	cmpl	$9, %eax
	je	.LBB1_194
	testq	%r8, %r8
	je	.LBB1_202
	xorl	%eax, %eax
.LBB1_199:
	movzbl	(%rsi,%rax), %ecx
	cmpl	$9, %ecx
	je	.LBB1_308
	cmpl	$32, %ecx
	je	.LBB1_308
	incq	%rax
	cmpq	%rax, %r8
	jne	.LBB1_199
.LBB1_202:
	addq	%rdx, %r10
	xorl	%edi, %edi
	jmp	.LBB1_309
.LBB1_203:
	movaps	%xmm0, 448(%rsp)
	movq	$0, 464(%rsp)
	movq	%r10, 384(%rsp)
	movq	16(%rsp), %rax
	movq	%rax, 392(%rsp)
	leaq	448(%rsp), %rdi
	leaq	384(%rsp), %rsi
	callq	"ord_script::arguments::I64Arguments::read"
	cmpb	$1, 448(%rsp)
	movq	72(%rsp), %rbx
	movq	%rsp, %r12
	jne	.LBB1_69
	movq	464(%rsp), %rax
	movzbl	456(%rsp), %ecx
	movq	392(%rsp), %rdx
	testq	%rdx, %rdx
	je	.LBB1_259
	movq	384(%rsp), %rsi
	xorl	%edi, %edi
	jmp	.LBB1_207
.LBB1_206:
	incq	%rdi
	cmpq	%rdi, %rdx
	je	.LBB1_259
.LBB1_207:
	movzbl	(%rsi,%rdi), %r8d
	cmpl	$32, %r8d
	je	.LBB1_206
	cmpl	$9, %r8d
	je	.LBB1_206
	jmp	.LBB1_69
.LBB1_209:
	movq	%r10, 592(%rsp)
	movq	16(%rsp), %rax
	movq	%rax, 600(%rsp)
	movaps	%xmm0, 448(%rsp)
	movaps	%xmm0, 464(%rsp)
	movaps	%xmm0, 384(%rsp)
	movaps	%xmm0, 400(%rsp)
	leaq	448(%rsp), %rdi
	leaq	592(%rsp), %rsi
	callq	"ord_script::arguments::P0Arguments::read"
	cmpb	$1, 448(%rsp)
	jne	.LBB1_1551
	movzbl	456(%rsp), %ebx
	movl	464(%rsp), %r12d
	movl	468(%rsp), %r14d
	movq	472(%rsp), %r13
	leaq	384(%rsp), %rdi
	leaq	592(%rsp), %rsi
	callq	"ord_script::arguments::Tuple2Arguments::read::<#ba03786baf347dfe>"
	cmpb	$1, 384(%rsp)
	jne	.LBB1_1551
	cmpb	$1, %bl
	jne	.LBB1_264
	cmpb	$1, 392(%rsp)
	jne	.LBB1_264
	movq	400(%rsp), %r11
	movq	408(%rsp), %r10
	movb	$1, %cl
	movq	%r12, %rax
	movq	%r13, %r9
	jmp	.LBB1_265
.LBB1_214:
	movaps	%xmm0, 464(%rsp)
	movaps	%xmm0, 448(%rsp)
	movq	%r10, 384(%rsp)
	movq	16(%rsp), %rax
	movq	%rax, 392(%rsp)
	leaq	448(%rsp), %rdi
	leaq	384(%rsp), %rsi
	callq	"ord_script::arguments::P0Arguments::read"
	movb	$1, %al
	movq	%rax, 24(%rsp)
	cmpb	$1, 448(%rsp)
	jne	.LBB1_385
	movzbl	456(%rsp), %ecx
	movl	464(%rsp), %eax
	movl	468(%rsp), %r14d
	movq	472(%rsp), %r9
	movq	392(%rsp), %rdx
	testq	%rdx, %rdx
	movq	72(%rsp), %rbx
	movq	%rsp, %r12
	je	.LBB1_261
	movq	384(%rsp), %rsi
	xorl	%edi, %edi
	jmp	.LBB1_218
.LBB1_217:
	incq	%rdi
	cmpq	%rdi, %rdx
	je	.LBB1_261
.LBB1_218:
	movzbl	(%rsi,%rdi), %r8d
	cmpl	$32, %r8d
	je	.LBB1_217
	cmpl	$9, %r8d
	je	.LBB1_217
	jmp	.LBB1_387
.LBB1_220:
	movb	$25, %dil
	movq	16(%rsp), %rdx
	testq	%rdx, %rdx
	je	.LBB1_3
	xorl	%eax, %eax
	movq	72(%rsp), %rbx
	movq	%rsp, %r12
	jmp	.LBB1_223
.LBB1_222:
	incq	%rax
	cmpq	%rax, %rdx
	je	.LBB1_230
.LBB1_223:
	movzbl	(%r10,%rax), %ecx
	cmpl	$32, %ecx
	je	.LBB1_222
	cmpl	$9, %ecx
	je	.LBB1_222
	jmp	.LBB1_69
.LBB1_225:
	movb	$26, %dil
	movq	16(%rsp), %rdx
	testq	%rdx, %rdx
	je	.LBB1_3
	xorl	%eax, %eax
	movq	72(%rsp), %rbx
	movq	%rsp, %r12
	jmp	.LBB1_228
.LBB1_227:
	incq	%rax
	cmpq	%rax, %rdx
	je	.LBB1_230
.LBB1_228:
	movzbl	(%r10,%rax), %ecx
	cmpl	$32, %ecx
	je	.LBB1_227
	cmpl	$9, %ecx
	je	.LBB1_227
	jmp	.LBB1_69
.LBB1_230:
	movq	$0, 24(%rsp)
	xorl	%r13d, %r13d
.LBB1_231:
	xorl	%eax, %eax
	xorl	%r14d, %r14d
	jmp	.LBB1_358
.LBB1_232:
	movb	$1, %al
	movq	%rax, 24(%rsp)
	movq	16(%rsp), %rdx
	testq	%rdx, %rdx
	movq	72(%rsp), %rbx
	je	.LBB1_386
	movq	%r10, %rsi
	movq	%rdx, %rdi
	movq	%rsp, %r12
	jmp	.LBB1_235
	.p2align	4
.LBB1_234:
	incq	%rsi
	decq	%rdi
	je	.LBB1_387
.LBB1_235:
	movzbl	(%rsi), %eax
	cmpl	$32, %eax
	je	.LBB1_234
	cmpl	$9, %eax
	je	.LBB1_234
	testq	%rdi, %rdi
	je	.LBB1_242
	xorl	%eax, %eax
.LBB1_239:
	movzbl	(%rsi,%rax), %ecx
	cmpl	$9, %ecx
	je	.LBB1_317
	cmpl	$32, %ecx
	je	.LBB1_317
	incq	%rax
	cmpq	%rax, %rdi
	jne	.LBB1_239
.LBB1_242:
	addq	%rdx, %r10
	xorl	%r8d, %r8d
	jmp	.LBB1_318
.LBB1_243:
	cmpb	$1, %cl
	jne	.LBB1_1576
	movq	$0, 24(%rsp)
	movb	$6, %dil
	jmp	.LBB1_263
.LBB1_245:
	cmpb	$1, %al
	jne	.LBB1_1576
	movq	$0, 24(%rsp)
	movb	$2, %dil
	xorl	%r13d, %r13d
	xorl	%eax, %eax
	xorl	%r14d, %r14d
	xorl	%r9d, %r9d
	xorl	%r11d, %r11d
	jmp	.LBB1_7
.LBB1_247:
	cmpb	$1, %al
	jne	.LBB1_1576
	movl	$2, %eax
	movq	$0, 24(%rsp)
	movb	$2, %dil
	xorl	%r13d, %r13d
	xorl	%r14d, %r14d
	xorl	%r11d, %r11d
	movq	%r9, %r10
	jmp	.LBB1_7
.LBB1_249:
	cmpb	$1, %cl
	jne	.LBB1_1576
	movq	%rax, %r14
	shrq	$32, %r14
	xorl	%edi, %edi
	movq	$0, 24(%rsp)
	jmp	.LBB1_263
.LBB1_251:
	cmpb	$1, %cl
	jne	.LBB1_1576
	movq	%rax, %r14
	shrq	$32, %r14
	movq	$0, 24(%rsp)
	movb	$1, %dil
	jmp	.LBB1_263
.LBB1_253:
	cmpb	$1, %cl
	jne	.LBB1_1576
	movq	%rax, %r14
	shrq	$32, %r14
	movq	$0, 24(%rsp)
	movb	$15, %dil
	jmp	.LBB1_357
.LBB1_255:
	cmpb	$1, %cl
	jne	.LBB1_1576
	movq	$0, 24(%rsp)
	movb	$8, %dil
	jmp	.LBB1_263
.LBB1_257:
	cmpb	$1, %cl
	jne	.LBB1_1576
	movq	%rax, %r14
	shrq	$32, %r14
	movq	$0, 24(%rsp)
	movb	$13, %dil
	jmp	.LBB1_357
.LBB1_259:
	cmpb	$1, %cl
	jne	.LBB1_1576
	movq	%rax, %r14
	shrq	$32, %r14
	movq	$0, 24(%rsp)
	movb	$19, %dil
	jmp	.LBB1_357
.LBB1_261:
	cmpb	$1, %cl
	jne	.LBB1_1576
	movq	$0, 24(%rsp)
	movb	$20, %dil
.LBB1_263:
	xorl	%r13d, %r13d
	jmp	.LBB1_359
.LBB1_264:
	xorl	%r11d, %r11d
	xorl	%r10d, %r10d
	xorl	%eax, %eax
	xorl	%r14d, %r14d
	xorl	%r9d, %r9d
	xorl	%ecx, %ecx
.LBB1_265:
	movq	600(%rsp), %rdx
	testq	%rdx, %rdx
	movq	%rsp, %r12
	je	.LBB1_272
	movq	592(%rsp), %rsi
	xorl	%edi, %edi
	jmp	.LBB1_268
.LBB1_267:
	incq	%rdi
	cmpq	%rdi, %rdx
	je	.LBB1_272
.LBB1_268:
	movzbl	(%rsi,%rdi), %r8d
	cmpl	$32, %r8d
	je	.LBB1_267
	cmpl	$9, %r8d
	je	.LBB1_267
	jmp	.LBB1_270
.LBB1_272:
	testb	%cl, %cl
	je	.LBB1_1566
	movq	$0, 24(%rsp)
	movb	$14, %dil
	xorl	%r13d, %r13d
	jmp	.LBB1_360
.LBB1_274:
	leaq	(%rsi,%rax), %r10
	movq	%rdi, %r8
	subq	%rax, %r8
	movq	%rax, %rdi
.LBB1_275:
	movb	$1, %r9b
	testq	%rdi, %rdi
	je	.LBB1_325
	movq	%r10, %r14
	xorl	%r13d, %r13d
	xorl	%eax, %eax
	xorl	%r10d, %r10d
.LBB1_277:
	movzbl	(%rsi,%r10), %r11d
	addb	$-48, %r11b
	cmpb	$9, %r11b
	ja	.LBB1_281
	movl	$10, %ecx
	mulq	%rcx
	movq	%rax, %rcx
	movzbl	%r11b, %eax
	addq	%rcx, %rax
	adcq	$0, %rdx
	shldq	$32, %rax, %rdx
	jne	.LBB1_281
	incq	%r10
	cmpq	%r10, %rdi
	jne	.LBB1_277
	xorl	%r9d, %r9d
	movl	%eax, %r13d
.LBB1_281:
	movq	%r14, %r10
	jmp	.LBB1_326
.LBB1_282:
	leaq	(%rsi,%rax), %r10
	movq	%r8, %rdi
	subq	%rax, %rdi
	movq	%rax, %r8
.LBB1_283:
	movb	$1, %r9b
	testq	%r8, %r8
	je	.LBB1_333
	movq	%r10, %r14
	xorl	%eax, %eax
	xorl	%r10d, %r10d
.LBB1_285:
	movzbl	(%rsi,%r10), %r11d
	addb	$-48, %r11b
	cmpb	$9, %r11b
	ja	.LBB1_289
	movl	$10, %ecx
	mulq	%rcx
	movq	%rax, %rcx
	movzbl	%r11b, %eax
	addq	%rcx, %rax
	adcq	$0, %rdx
	jne	.LBB1_289
	incq	%r10
	cmpq	%r10, %r8
	jne	.LBB1_285
	xorl	%r9d, %r9d
	jmp	.LBB1_290
.LBB1_289:
	xorl	%eax, %eax
.LBB1_290:
	movq	%r14, %r10
	jmp	.LBB1_334
.LBB1_291:
	leaq	(%rsi,%rax), %r10
	movq	%rdi, %rcx
	subq	%rax, %rcx
	movq	%rax, %rdi
.LBB1_292:
	movq	%r10, 384(%rsp)
	movq	%rcx, 392(%rsp)
	testq	%rdi, %rdi
	je	.LBB1_298
	xorl	%r13d, %r13d
	xorl	%eax, %eax
	xorl	%r8d, %r8d
.LBB1_294:
	movzbl	(%rsi,%r8), %r9d
	addb	$-48, %r9b
	cmpb	$9, %r9b
	ja	.LBB1_369
	movl	$10, %ecx
	mulq	%rcx
	movq	%rax, %rcx
	movzbl	%r9b, %eax
	addq	%rcx, %rax
	adcq	$0, %rdx
	shldq	$32, %rax, %rdx
	jne	.LBB1_298
	incq	%r8
	cmpq	%r8, %rdi
	jne	.LBB1_294
	movb	$1, %bl
	movl	%eax, %r13d
	jmp	.LBB1_370
.LBB1_298:
	xorl	%ebx, %ebx
	xorl	%r13d, %r13d
	jmp	.LBB1_370
.LBB1_299:
	leaq	(%rsi,%rax), %r10
	movq	%r8, %rdi
	subq	%rax, %rdi
	movq	%rax, %r8
.LBB1_300:
	movb	$1, %r9b
	testq	%r8, %r8
	je	.LBB1_341
	movq	%r10, %r14
	xorl	%eax, %eax
	xorl	%r10d, %r10d
.LBB1_302:
	movzbl	(%rsi,%r10), %r11d
	addb	$-48, %r11b
	cmpb	$9, %r11b
	ja	.LBB1_306
	movl	$10, %ecx
	mulq	%rcx
	movq	%rax, %rcx
	movzbl	%r11b, %eax
	addq	%rcx, %rax
	adcq	$0, %rdx
	jne	.LBB1_306
	incq	%r10
	cmpq	%r10, %r8
	jne	.LBB1_302
	xorl	%r9d, %r9d
	jmp	.LBB1_307
.LBB1_306:
	xorl	%eax, %eax
.LBB1_307:
	movq	%r14, %r10
	jmp	.LBB1_342
.LBB1_308:
	leaq	(%rsi,%rax), %r10
	movq	%r8, %rdi
	subq	%rax, %rdi
	movq	%rax, %r8
.LBB1_309:
	movb	$1, %r9b
	testq	%r8, %r8
	je	.LBB1_349
	movq	%r10, %r14
	xorl	%eax, %eax
	xorl	%r10d, %r10d
.LBB1_311:
	movzbl	(%rsi,%r10), %r11d
	addb	$-48, %r11b
	cmpb	$9, %r11b
	ja	.LBB1_315
	movl	$10, %ecx
	mulq	%rcx
	movq	%rax, %rcx
	movzbl	%r11b, %eax
	addq	%rcx, %rax
	adcq	$0, %rdx
	jne	.LBB1_315
	incq	%r10
	cmpq	%r10, %r8
	jne	.LBB1_311
	xorl	%r9d, %r9d
	jmp	.LBB1_316
.LBB1_315:
	xorl	%eax, %eax
.LBB1_316:
	movq	%r14, %r10
	jmp	.LBB1_350
.LBB1_317:
	leaq	(%rsi,%rax), %r10
	movq	%rdi, %r8
	subq	%rax, %r8
	movq	%rax, %rdi
.LBB1_318:
	movb	$1, %r9b
	testq	%rdi, %rdi
	je	.LBB1_361
	movq	%r10, %r14
	xorl	%r13d, %r13d
	xorl	%eax, %eax
	xorl	%r10d, %r10d
.LBB1_320:
	movzbl	(%rsi,%r10), %r11d
	addb	$-48, %r11b
	cmpb	$9, %r11b
	ja	.LBB1_324
	movl	$10, %ecx
	mulq	%rcx
	movq	%rax, %rcx
	movzbl	%r11b, %eax
	addq	%rcx, %rax
	adcq	$0, %rdx
	shldq	$32, %rax, %rdx
	jne	.LBB1_324
	incq	%r10
	cmpq	%r10, %rdi
	jne	.LBB1_320
	xorl	%r9d, %r9d
	movl	%eax, %r13d
.LBB1_324:
	movq	%r14, %r10
	jmp	.LBB1_362
.LBB1_325:
	xorl	%r13d, %r13d
.LBB1_326:
	testq	%r8, %r8
	je	.LBB1_331
	xorl	%eax, %eax
	jmp	.LBB1_329
.LBB1_328:
	incq	%rax
	cmpq	%rax, %r8
	je	.LBB1_331
.LBB1_329:
	movzbl	(%r10,%rax), %ecx
	cmpl	$32, %ecx
	je	.LBB1_328
	cmpl	$9, %ecx
	je	.LBB1_328
	jmp	.LBB1_69
.LBB1_331:
	testb	%r9b, %r9b
	jne	.LBB1_1576
	movq	$0, 24(%rsp)
	movb	$7, %dil
	jmp	.LBB1_231
.LBB1_333:
	xorl	%eax, %eax
.LBB1_334:
	testq	%rdi, %rdi
	je	.LBB1_339
	xorl	%ecx, %ecx
	jmp	.LBB1_337
.LBB1_336:
	incq	%rcx
	cmpq	%rcx, %rdi
	je	.LBB1_339
.LBB1_337:
	movzbl	(%r10,%rcx), %edx
	cmpl	$32, %edx
	je	.LBB1_336
	cmpl	$9, %edx
	je	.LBB1_336
	jmp	.LBB1_69
.LBB1_339:
	testb	%r9b, %r9b
	jne	.LBB1_1576
	movq	%rax, %r14
	shrq	$32, %r14
	movq	$0, 24(%rsp)
	movb	$28, %dil
	jmp	.LBB1_357
.LBB1_341:
	xorl	%eax, %eax
.LBB1_342:
	testq	%rdi, %rdi
	je	.LBB1_347
	xorl	%ecx, %ecx
	jmp	.LBB1_345
.LBB1_344:
	incq	%rcx
	cmpq	%rcx, %rdi
	je	.LBB1_347
.LBB1_345:
	movzbl	(%r10,%rcx), %edx
	cmpl	$32, %edx
	je	.LBB1_344
	cmpl	$9, %edx
	je	.LBB1_344
	jmp	.LBB1_69
.LBB1_347:
	testb	%r9b, %r9b
	jne	.LBB1_1576
	movq	%rax, %r14
	shrq	$32, %r14
	movq	$0, 24(%rsp)
	movb	$27, %dil
	jmp	.LBB1_357
.LBB1_349:
	xorl	%eax, %eax
.LBB1_350:
	testq	%rdi, %rdi
	je	.LBB1_355
	xorl	%ecx, %ecx
	jmp	.LBB1_353
.LBB1_352:
	incq	%rcx
	cmpq	%rcx, %rdi
	je	.LBB1_355
.LBB1_353:
	movzbl	(%r10,%rcx), %edx
	cmpl	$32, %edx
	je	.LBB1_352
	cmpl	$9, %edx
	je	.LBB1_352
	jmp	.LBB1_69
.LBB1_355:
	testb	%r9b, %r9b
	jne	.LBB1_1576
	movq	%rax, %r14
	shrq	$32, %r14
	movq	$0, 24(%rsp)
	movb	$29, %dil
.LBB1_357:
	xorl	%r13d, %r13d
.LBB1_358:
	xorl	%r9d, %r9d
.LBB1_359:
	xorl	%r11d, %r11d
	xorl	%r10d, %r10d
.LBB1_360:
	xorl	%ebp, %ebp
	jmp	.LBB1_7
.LBB1_361:
	xorl	%r13d, %r13d
.LBB1_362:
	testq	%r8, %r8
	je	.LBB1_367
	xorl	%eax, %eax
	jmp	.LBB1_365
.LBB1_364:
	incq	%rax
	cmpq	%rax, %r8
	je	.LBB1_367
.LBB1_365:
	movzbl	(%r10,%rax), %ecx
	cmpl	$32, %ecx
	je	.LBB1_364
	cmpl	$9, %ecx
	je	.LBB1_364
	jmp	.LBB1_69
.LBB1_367:
	testb	%r9b, %r9b
	jne	.LBB1_1576
	movq	$0, 24(%rsp)
	movb	$23, %dil
	jmp	.LBB1_231
.LBB1_369:
	xorl	%ebx, %ebx
.LBB1_370:
	leaq	448(%rsp), %rdi
	leaq	384(%rsp), %rsi
	callq	"ord_script::arguments::Tuple2Arguments::read::<#ba03786baf347dfe>"
	cmpb	$1, 448(%rsp)
	jne	.LBB1_1517
	testb	%bl, %bl
	je	.LBB1_374
	cmpb	$1, 456(%rsp)
	sete	%cl
	jne	.LBB1_375
	movq	464(%rsp), %rax
	movq	472(%rsp), %r9
	jmp	.LBB1_377
.LBB1_374:
	xorl	%eax, %eax
	xorl	%r9d, %r9d
	xorl	%ecx, %ecx
	jmp	.LBB1_376
.LBB1_375:
	xorl	%eax, %eax
	xorl	%r9d, %r9d
.LBB1_376:
	xorl	%r13d, %r13d
.LBB1_377:
	movq	72(%rsp), %rbx
	movq	392(%rsp), %rdx
	testq	%rdx, %rdx
	je	.LBB1_382
	movq	384(%rsp), %rsi
	xorl	%edi, %edi
	jmp	.LBB1_380
.LBB1_379:
	incq	%rdi
	cmpq	%rdi, %rdx
	je	.LBB1_382
.LBB1_380:
	movzbl	(%rsi,%rdi), %r8d
	cmpl	$32, %r8d
	je	.LBB1_379
	cmpl	$9, %r8d
	je	.LBB1_379
	jmp	.LBB1_69
.LBB1_382:
	testb	%cl, %cl
	je	.LBB1_1576
	movq	%rax, %r14
	shrq	$32, %r14
	movb	$16, %dil
	movq	$0, 24(%rsp)
	jmp	.LBB1_359
.LBB1_384:
	movq	$0, 24(%rsp)
.LBB1_385:
	movq	72(%rsp), %rbx
.LBB1_386:
	movq	%rsp, %r12
.LBB1_387:
	movq	568(%rsp), %r10
	movq	576(%rsp), %rax
	movq	%rax, 288(%rsp)
	movl	$1, %eax
	movq	%rax, 736(%rsp)
	movb	$1, %al
	movq	%rax, 744(%rsp)
	movq	$0, 728(%rsp)
	jmp	.LBB1_389
.LBB1_388:
	movq	568(%rsp), %r10
	movq	576(%rsp), %rax
	movq	%rax, 288(%rsp)
	movb	$1, %al
	movq	%rax, 728(%rsp)
	movq	$0, 744(%rsp)
	movq	$0, 736(%rsp)
	xorl	%ebx, %ebx
	movq	$0, 24(%rsp)
.LBB1_389:
	movq	560(%rsp), %r13
	movq	%r12, 80(%rsp)
	xorps	%xmm0, %xmm0
	movups	%xmm0, 88(%rsp)
	testq	%r10, %r10
	je	.LBB1_403
	movq	%r13, %r14
	movq	%rbx, %r13
	leaq	88(%rsp), %r11
	movq	%rsp, %r8
	xorl	%ecx, %ecx
	movq	$0, 584(%rsp)
	xorl	%r9d, %r9d
	movq	%r10, %r15
	movq	%r14, %rbp
.LBB1_391:
	movq	%r9, %rax
	subq	%rcx, %rax
	leaq	(%rax,%r15), %rsi
	movq	%r8, 552(%rsp)
	movq	%r9, 416(%rsp)
	leaq	(%r8,%r9), %rdx
	addq	$48, %r14
	xorl	%r12d, %r12d
	.p2align	4
.LBB1_392:
	movzbl	-48(%r14), %edi
	leaq	".Lswitch.table.ord_script::serving::answer_to::<#40a73cb1e87492e9>.322"(%rip), %r8
	movzbl	(%rdi,%r8), %ebx
	movq	%rax, %rdi
	addq	%r12, %rdi
	je	.LBB1_396
	movb	%bl, (%rdx,%r12)
	incq	%r12
	addq	$48, %r14
	cmpq	%r12, %r15
	jne	.LBB1_392
	jmp	.LBB1_394
	.p2align	4
.LBB1_396:
	movq	552(%rsp), %rax
	movq	%rax, 80(%rsp)
	movq	%rcx, 88(%rsp)
	movq	584(%rsp), %rdi
	movq	%rdi, 96(%rsp)
	movq	%rdi, %rax
	subq	%rcx, %rax
	cmpq	%rax, %rsi
	ja	.LBB1_399
.LBB1_397:
	movq	%r12, %rdx
	notq	%rdx
	addq	%r15, %rdx
	decq	%r15
	movq	80(%rsp), %r8
	movb	%bl, (%r8,%rcx)
	xorl	%eax, %eax
	movq	%rcx, %r9
	incq	%r9
	movl	$0, %ecx
	movq	%rdi, 584(%rsp)
	cmovneq	%rdi, %rcx
	xorps	%xmm0, %xmm0
	movups	%xmm0, (%r11)
	cmpq	%r12, %r15
	movq	%rdx, %r15
	jne	.LBB1_391
	jmp	.LBB1_398
.LBB1_399:
	movq	%r10, 64(%rsp)
	leaq	80(%rsp), %rdi
	callq	"std_alloc::vec::Vec::grow_amortized::<#2395174cb6d31b10>"
	movq	88(%rsp), %rcx
	movq	96(%rsp), %rdx
	movq	%rdx, %rdi
	cmpq	%rcx, %rdx
	setne	%dl
	orb	%al, %dl
	je	.LBB1_401
.LBB1_400:
	movq	64(%rsp), %r10
	leaq	88(%rsp), %r11
	jmp	.LBB1_397
.LBB1_401:
	leaq	80(%rsp), %rdi
	movl	$1, %esi
	callq	"std_alloc::vec::Vec::grow_amortized::<#2395174cb6d31b10>"
	testb	%al, %al
	je	.LBB1_1579
	movq	88(%rsp), %rcx
	movq	96(%rsp), %rdi
	jmp	.LBB1_400
.LBB1_394:
	addq	%r12, 416(%rsp)
	xorl	%eax, %eax
.LBB1_395:
	movq	%r13, %rbx
	movq	%rsp, %r12
	movq	%rbp, %r13
	jmp	.LBB1_405
.LBB1_403:
	movb	$1, %al
.LBB1_404:
	xorl	%r10d, %r10d
	movq	$0, 584(%rsp)
	movq	%r12, 552(%rsp)
	movq	$0, 416(%rsp)
.LBB1_405:
	movq	%r12, 192(%rsp)
	xorps	%xmm0, %xmm0
	movups	%xmm0, 200(%rsp)
	movq	%r12, 216(%rsp)
	movups	%xmm0, 224(%rsp)
	movq	$2, 240(%rsp)
	movups	%xmm0, 248(%rsp)
	movups	%xmm0, 264(%rsp)
	movq	$0, 280(%rsp)
	movaps	%xmm0, 592(%rsp)
	movq	$0, 608(%rsp)
	movaps	%xmm0, 448(%rsp)
	movaps	%xmm0, 464(%rsp)
	movaps	%xmm0, 480(%rsp)
	movq	$0, 496(%rsp)
	testb	%al, %al
	movq	%rbx, 72(%rsp)
	je	.LBB1_831
	xorl	%r15d, %r15d
.LBB1_407:
	cmpq	$0, 288(%rsp)
	je	.LBB1_409
	movq	%r13, %rdi
	callq	rattle_dealloc@PLT
.LBB1_409:
	movq	%r15, 64(%rsp)
	movb	$1, %r14b
	movq	608(%rsp), %rax
	movq	%rax, 680(%rsp)
	movq	216(%rsp), %rbx
	movq	232(%rsp), %r15
	cmpq	$0, 208(%rsp)
	je	.LBB1_411
.LBB1_410:
	movq	192(%rsp), %rdi
	callq	rattle_dealloc@PLT
.LBB1_411:
	testq	%r15, %r15
	je	.LBB1_413
	movq	%rbx, %rdi
	callq	rattle_dealloc@PLT
.LBB1_413:
	testb	%r14b, %r14b
	movq	64(%rsp), %r15
	je	.LBB1_1481
	movq	%rsp, %rax
	movq	%rax, 32(%rsp)
	xorps	%xmm0, %xmm0
	movups	%xmm0, 40(%rsp)
	leaq	96(%rsp), %rbp
	movq	552(%rsp), %r8
	movq	%r12, %rdi
	movq	%r15, %rcx
	movq	416(%rsp), %rbx
	movq	%r12, 296(%rsp)
	jmp	.LBB1_415
.LBB1_831:
	movq	%r10, %rax
	shrq	$57, %rax
	jne	.LBB1_834
	movq	%r10, %rdi
	shlq	$6, %rdi
	movl	$16, %esi
	movq	%r10, %r14
	callq	rattle_alloc@PLT
	testb	$1, %al
	je	.LBB1_834
	movq	%r14, %r11
	movq	%rdx, 592(%rsp)
	movq	$0, 600(%rsp)
	movq	%r14, 608(%rsp)
	leaq	324(%rsp), %r10
	xorl	%edx, %edx
	movq	%r13, 312(%rsp)
	jmp	.LBB1_846
.LBB1_834:
	cmpq	$0, 288(%rsp)
	je	.LBB1_836
	movq	%r13, %rdi
	callq	rattle_dealloc@PLT
.LBB1_836:
	xorl	%r12d, %r12d
	movq	$0, 64(%rsp)
	movq	$0, 680(%rsp)
	xorl	%r14d, %r14d
	movq	216(%rsp), %rbx
	movq	232(%rsp), %r15
	cmpq	$0, 208(%rsp)
	jne	.LBB1_410
	jmp	.LBB1_411
.LBB1_506:
	movups	.Lstatic.39(%rip), %xmm0
.LBB1_507:
	movups	%xmm0, (%rsi)
	movw	$2670, 16(%rsi)
	movq	%r14, %rdi
	movq	%r13, %r8
	addq	$18, %rax
.LBB1_541:
	movq	%rdx, 32(%rsp)
	movq	%rax, 40(%rsp)
	movq	%rcx, 48(%rsp)
	xorl	%eax, %eax
	.p2align	4
.LBB1_828:
	movq	16(%rsp), %rcx
	incq	%r8
	addq	$64, %rdi
	testb	%al, %al
	jne	.LBB1_829
.LBB1_415:
	subq	$1, %rbx
	jb	.LBB1_837
	subq	$1, %rcx
	jb	.LBB1_837
	movq	%rcx, 16(%rsp)
	movzbl	(%r8), %r14d
	xorps	%xmm0, %xmm0
	movaps	%xmm0, 448(%rsp)
	movq	$0, 464(%rsp)
	movaps	%xmm0, 384(%rsp)
	movq	$0, 400(%rsp)
	movzbl	(%rdi), %eax
	leaq	.LJTI1_2(%rip), %rcx
	movslq	(%rcx,%rax,4), %rax
	addq	%rcx, %rax
	jmpq	*%rax
.LBB1_418:
	movq	%r8, %r13
	leaq	16(%rdi), %rax
	cmpb	$0, 8(%rdi)
	movzbl	32(%rdi), %ecx
	movq	%rcx, 320(%rsp)
	movq	%rdi, %r14
	movups	40(%rdi), %xmm0
	leaq	328(%rsp), %rcx
	movups	%xmm0, (%rcx)
	je	.LBB1_573
	movups	(%rax), %xmm0
	movaps	%xmm0, 512(%rsp)
	leaq	.Lstatic.41(%rip), %rax
	movq	%rax, 192(%rsp)
	movq	$9, 200(%rsp)
	leaq	512(%rsp), %rax
	movq	%rax, 208(%rsp)
	leaq	320(%rsp), %rax
	movq	%rax, 216(%rsp)
	leaq	.Lstatic.36(%rip), %rax
	movq	%rax, 224(%rsp)
	movq	$1, 232(%rsp)
	leaq	32(%rsp), %rdi
	leaq	192(%rsp), %rsi
	jmp	.LBB1_574
.LBB1_420:
	movq	%r8, %r13
	movq	%rbx, 416(%rsp)
	movq	8(%rdi), %rax
	movq	16(%rdi), %rcx
	movq	24(%rdi), %rdx
	movzbl	32(%rdi), %esi
	movq	%rdi, %r12
	movq	40(%rdi), %rdi
	movq	%rax, 592(%rsp)
	movq	%rcx, 424(%rsp)
	movq	%rdx, 784(%rsp)
	movq	%rsi, 512(%rsp)
	movq	%rdi, 520(%rsp)
	leaq	.Lstatic.72(%rip), %rax
	movq	%rax, 80(%rsp)
	movq	$4, 88(%rsp)
	leaq	592(%rsp), %rax
	movq	%rax, 96(%rsp)
	leaq	.Lstatic.73(%rip), %r15
	movq	%r15, 104(%rsp)
	movq	$10, 112(%rsp)
	leaq	424(%rsp), %rax
	movq	%rax, 120(%rsp)
	leaq	.Lstatic.74(%rip), %r14
	movq	%r14, 128(%rsp)
	movq	$12, 136(%rsp)
	leaq	784(%rsp), %rax
	movq	%rax, 144(%rsp)
	leaq	.Lstatic.75(%rip), %rbp
	movq	%rbp, 152(%rsp)
	movq	$5, 160(%rsp)
	leaq	512(%rsp), %rax
	movq	%rax, 168(%rsp)
	leaq	.Lstatic.36(%rip), %rax
	movq	%rax, 176(%rsp)
	movq	$1, 184(%rsp)
	movq	40(%rsp), %rbx
	movaps	%xmm0, 624(%rsp)
	movq	$0, 640(%rsp)
	movq	48(%rsp), %rax
	movq	%rax, 208(%rsp)
	movups	32(%rsp), %xmm1
	movaps	%xmm1, 192(%rsp)
	movaps	%xmm0, 320(%rsp)
	movq	$0, 336(%rsp)
	leaq	220(%rsp), %rax
	movups	%xmm0, 20(%rax)
	movl	$32, 216(%rsp)
	movl	$0, 8(%rax)
	movq	$0, (%rax)
	movq	$-1, 232(%rsp)
	movq	200(%rsp), %rax
	movq	208(%rsp), %rcx
	movq	%rcx, %rdx
	subq	%rax, %rdx
	cmpq	$3, %rdx
	jbe	.LBB1_682
.LBB1_421:
	movq	192(%rsp), %rdx
	movl	$544105836, (%rdx,%rax)
	addq	$4, %rax
	movq	%rdx, 192(%rsp)
	movq	%rax, 200(%rsp)
	movq	%rcx, 208(%rsp)
	leaq	192(%rsp), %rdi
	leaq	96(%rsp), %rsi
	callq	"core::fmt::formatter::Formatter::write_piece::<#3f49d50be5e66dfd>"
	testb	%al, %al
	jne	.LBB1_819
	movl	$32, 216(%rsp)
	leaq	220(%rsp), %rax
	movl	$0, 8(%rax)
	movq	$0, (%rax)
	movq	$-1, 232(%rsp)
	cmpq	$0, 240(%rsp)
	jne	.LBB1_818
	movq	200(%rsp), %rax
	movq	208(%rsp), %rcx
	movq	%rcx, %rdx
	subq	%rax, %rdx
	cmpq	$9, %rdx
	jbe	.LBB1_748
.LBB1_424:
	movq	192(%rsp), %rdx
	leaq	(%rdx,%rax), %rsi
	movq	%rsi, %rdi
	subq	%r15, %rdi
	cmpq	$9, %rdi
	movabsq	$8388345051102667552, %rdi
	movq	%rdi, (%rsi)
	movw	$8313, 8(%rsi)
	addq	$10, %rax
	movq	%rdx, 192(%rsp)
	movq	%rax, 200(%rsp)
	movq	%rcx, 208(%rsp)
.LBB1_425:
	leaq	192(%rsp), %rdi
	leaq	120(%rsp), %rsi
	callq	"core::fmt::formatter::Formatter::write_piece::<#3f49d50be5e66dfd>"
	testb	%al, %al
	jne	.LBB1_819
	movl	$32, 216(%rsp)
	leaq	220(%rsp), %rax
	movl	$0, 8(%rax)
	movq	$0, (%rax)
	movq	$-1, 232(%rsp)
	cmpq	$0, 240(%rsp)
	jne	.LBB1_796
	movq	200(%rsp), %rax
	movq	208(%rsp), %rcx
	movq	%rcx, %rdx
	subq	%rax, %rdx
	cmpq	$11, %rdx
	jbe	.LBB1_802
.LBB1_428:
	movq	192(%rsp), %rdx
	leaq	(%rdx,%rax), %rsi
	movq	%rsi, %r8
	subq	%r14, %r8
	movabsq	$8386109761109976864, %rdi
	cmpq	$11, %r8
	movq	%rdi, (%rsi)
	movl	$544108393, 8(%rsi)
	addq	$12, %rax
	movq	%rdx, 192(%rsp)
	movq	%rax, 200(%rsp)
	movq	%rcx, 208(%rsp)
.LBB1_429:
	leaq	192(%rsp), %rdi
	leaq	144(%rsp), %rsi
	callq	"core::fmt::formatter::Formatter::write_piece::<#647511b4db903f48>"
	testb	%al, %al
	jne	.LBB1_819
	movl	$32, 216(%rsp)
	leaq	220(%rsp), %rax
	movl	$0, 8(%rax)
	movq	$0, (%rax)
	movq	$-1, 232(%rsp)
	cmpq	$0, 240(%rsp)
	jne	.LBB1_809
	movq	200(%rsp), %rax
	movq	208(%rsp), %rcx
	movq	%rcx, %rdx
	subq	%rax, %rdx
	cmpq	$4, %rdx
	jbe	.LBB1_810
.LBB1_432:
	movq	192(%rsp), %rdx
	leaq	(%rdx,%rax), %rsi
	movq	%rsi, %rdi
	subq	%rbp, %rdi
	cmpq	$4, %rdi
	ja	.LBB1_737
	movl	$2019650848, (%rsi)
	movb	$32, 4(%rsi)
	jmp	.LBB1_738
.LBB1_434:
	movq	%r8, %r13
	movq	%rdi, %r14
	movq	40(%rsp), %rax
	movq	48(%rsp), %rcx
	movq	%rcx, %rdx
	subq	%rax, %rdx
	cmpq	$17, %rdx
	jbe	.LBB1_684
.LBB1_435:
	movq	32(%rsp), %rdx
	xorps	%xmm0, %xmm0
	leaq	40(%rsp), %rsi
	movups	%xmm0, (%rsi)
	leaq	(%rdx,%rax), %rsi
	leaq	.Lstatic.39(%rip), %rdi
	movq	%rsi, %r8
	subq	%rdi, %r8
	cmpq	$17, %r8
	ja	.LBB1_506
	movaps	.LCPI1_3(%rip), %xmm0
	jmp	.LBB1_507
.LBB1_437:
	movq	%r8, 304(%rsp)
	movq	%rbx, 416(%rsp)
	xorl	%eax, %eax
	cmpb	$4, %r14b
	sete	%al
	leaq	4(%rax,%rax,2), %rbx
	leaq	.Lstatic.69(%rip), %rdx
	leaq	.Lstatic.28(%rip), %r8
	movq	%r8, %rsi
	cmoveq	%rdx, %rsi
	movq	8(%rdi), %rbp
	movq	%rdi, 288(%rsp)
	movq	16(%rdi), %r13
	movaps	%xmm0, 624(%rsp)
	movaps	%xmm0, 512(%rsp)
	movq	40(%rsp), %r15
	movq	48(%rsp), %r9
	movq	%r9, %rax
	subq	%r15, %rax
	cmpq	%rax, %rbx
	ja	.LBB1_686
.LBB1_438:
	movq	32(%rsp), %r12
	leaq	(%r12,%r15), %rdi
	movq	%rdi, %rax
	subq	%rsi, %rax
	cmpq	%rbx, %rax
	jae	.LBB1_551
	xorl	%eax, %eax
	cmpb	$4, %r14b
	movzbl	(%rsi), %ecx
	movb	%cl, (%rdi)
	sete	%al
	leal	105(%rax,%rax,8), %eax
	movb	%al, 1(%rdi)
	movl	$97, %eax
	movl	$115, %ecx
	cmovel	%eax, %ecx
	movb	%cl, 2(%rdi)
	movl	$105, %eax
	movl	$116, %ecx
	cmovel	%eax, %ecx
	movb	%cl, 3(%rdi)
	jne	.LBB1_552
	movb	$110, 4(%rdi)
	cmoveq	%rdx, %r8
	movzwl	5(%r8), %eax
	movw	%ax, 5(%rdi)
	jmp	.LBB1_552
.LBB1_441:
	movq	%rdi, 288(%rsp)
	movq	%r8, 304(%rsp)
	movq	%rbx, %r13
	movq	40(%rsp), %rax
	movq	%rax, 312(%rsp)
	movq	48(%rsp), %rax
	movq	%rax, 208(%rsp)
	movaps	32(%rsp), %xmm1
	movaps	%xmm1, 192(%rsp)
	leaq	220(%rsp), %rax
	movups	%xmm0, 20(%rax)
	movl	$32, 216(%rsp)
	movl	$0, 8(%rax)
	movq	$0, (%rax)
	movq	$-1, 232(%rsp)
	movq	200(%rsp), %rbx
	movq	208(%rsp), %r14
	movq	%r14, %rax
	subq	%rbx, %rax
	cmpq	$6, %rax
	jbe	.LBB1_688
.LBB1_442:
	movq	192(%rsp), %rdi
	leaq	(%rdi,%rbx), %rax
	leaq	.Lstatic.37(%rip), %rcx
	movq	%rax, %rdx
	subq	%rcx, %rdx
	cmpq	$6, %rdx
	ja	.LBB1_508
	movl	$1769171318, (%rax)
	movw	$29556, 4(%rax)
	movb	$32, 6(%rax)
	jmp	.LBB1_509
.LBB1_444:
	movq	8(%rdi), %rax
	movq	%rax, 432(%rsp)
	movq	%rdi, 288(%rsp)
	movq	16(%rdi), %rax
	movq	%rax, 312(%rsp)
	movq	40(%rsp), %r14
	movq	48(%rsp), %rax
	movq	%rax, %rcx
	subq	%r14, %rcx
	cmpq	$4, %rcx
	jbe	.LBB1_690
.LBB1_445:
	movq	32(%rsp), %rcx
	leaq	(%rcx,%r14), %rdx
	leaq	.Lstatic.29(%rip), %rsi
	movq	%rdx, %rdi
	subq	%rsi, %rdi
	cmpq	$4, %rdi
	ja	.LBB1_517
	movl	$1802396018, (%rdx)
	movb	$115, 4(%rdx)
	jmp	.LBB1_518
.LBB1_447:
	movzbl	8(%rdi), %eax
	movq	%rax, 384(%rsp)
	movups	16(%rdi), %xmm0
	leaq	392(%rsp), %rax
	movups	%xmm0, (%rax)
	movq	%rdi, %r14
	leaq	32(%rsp), %rdi
	leaq	384(%rsp), %rsi
	jmp	.LBB1_449
.LBB1_448:
	movzbl	8(%rdi), %eax
	movq	%rax, 448(%rsp)
	movups	16(%rdi), %xmm0
	leaq	456(%rsp), %rax
	movups	%xmm0, (%rax)
	movq	%rdi, %r14
	leaq	32(%rsp), %rdi
	leaq	448(%rsp), %rsi
.LBB1_449:
	movq	%r8, %r13
	callq	"ord_script::text::push_optional_pointer::<#b4f378d63f4443e6>"
.LBB1_450:
	movq	%r13, %r8
	movq	%r14, %rdi
	jmp	.LBB1_828
.LBB1_451:
	movq	40(%rsp), %rsi
	movq	%rdi, %r14
	cmpb	$1, 1(%rdi)
	jne	.LBB1_494
	movq	48(%rsp), %rax
	movq	%rax, 96(%rsp)
	movaps	32(%rsp), %xmm0
	movaps	%xmm0, 80(%rsp)
	xorps	%xmm0, %xmm0
	movups	%xmm0, 32(%rbp)
	movl	$32, 104(%rsp)
	movl	$0, 20(%rbp)
	movq	$0, 12(%rbp)
	movq	$-1, 120(%rsp)
	movq	88(%rsp), %rcx
	movq	96(%rsp), %rax
	movq	%rax, %rdx
	subq	%rcx, %rdx
	cmpq	$2, %rdx
	jbe	.LBB1_713
.LBB1_453:
	movq	80(%rsp), %rdx
	addq	%rcx, %rdx
	leaq	.Lstatic.38(%rip), %rsi
	movq	%rdx, %rdi
	subq	%rsi, %rdi
	cmpq	$2, %rdi
	ja	.LBB1_597
	movw	$27503, (%rdx)
	movb	$10, 2(%rdx)
	jmp	.LBB1_598
.LBB1_455:
	movq	%r8, 304(%rsp)
	movq	%rbx, %r13
	movzbl	8(%rdi), %eax
	movzbl	32(%rdi), %r14d
	movaps	%xmm0, 624(%rsp)
	cmpb	$1, %al
	jne	.LBB1_497
	movq	%rdi, 288(%rsp)
	movups	16(%rdi), %xmm0
	movaps	%xmm0, 624(%rsp)
	leaq	".Lswitch.table.ord_script::serving::answer_to::<#40a73cb1e87492e9>.325"(%rip), %rax
	movq	(%rax,%r14,8), %rbx
	leaq	".Lswitch.table.ord_script::serving::answer_to::<#40a73cb1e87492e9>.326"(%rip), %rax
	movq	(%rax,%r14,8), %rbp
	leaq	.Lstatic.54(%rip), %rax
	movq	%rax, 80(%rsp)
	movq	$8, 88(%rsp)
	leaq	624(%rsp), %rax
	movq	%rax, 96(%rsp)
	leaq	.Lstatic.47(%rip), %rax
	movq	%rax, 104(%rsp)
	movq	$1, 112(%rsp)
	movq	%rbp, 120(%rsp)
	movq	%rbx, 128(%rsp)
	leaq	.Lstatic.36(%rip), %rax
	movq	%rax, 136(%rsp)
	movq	$1, 144(%rsp)
	movq	40(%rsp), %rax
	movq	%rax, 312(%rsp)
	movq	48(%rsp), %rax
	movq	%rax, 208(%rsp)
	movaps	32(%rsp), %xmm0
	movaps	%xmm0, 192(%rsp)
	xorps	%xmm0, %xmm0
	leaq	220(%rsp), %rax
	movups	%xmm0, 20(%rax)
	movl	$32, 216(%rsp)
	movl	$0, 8(%rax)
	movq	$0, (%rax)
	movq	$-1, 232(%rsp)
	movq	200(%rsp), %rax
	movq	208(%rsp), %rcx
	movq	%rcx, %rdx
	subq	%rax, %rdx
	cmpq	$7, %rdx
	jbe	.LBB1_717
.LBB1_457:
	movq	192(%rsp), %rdx
	movabsq	$2338038274811849075, %rsi
	movq	%rsi, (%rdx,%rax)
	addq	$8, %rax
	movq	%rax, 200(%rsp)
	movq	%rcx, 208(%rsp)
	leaq	192(%rsp), %rdi
	leaq	96(%rsp), %rsi
	callq	"core::fmt::formatter::Formatter::write_piece::<#1c9fe02cd69f029b>"
	testb	%al, %al
	je	.LBB1_650
.LBB1_458:
	movq	208(%rsp), %rax
	movaps	192(%rsp), %xmm0
	movaps	%xmm0, 32(%rsp)
	movq	%rax, 48(%rsp)
	leaq	96(%rsp), %rbp
.LBB1_459:
	movq	40(%rsp), %rcx
	movq	312(%rsp), %rdx
	testq	%rdx, %rdx
	movq	288(%rsp), %rdi
	je	.LBB1_660
	cmpq	%rcx, %rdx
	je	.LBB1_660
	movb	$1, %al
	cmpq	%rdx, %rcx
	jb	.LBB1_677
	jbe	.LBB1_677
	movq	32(%rsp), %rcx
	cmpb	$-65, (%rcx,%rdx)
	jg	.LBB1_661
	jmp	.LBB1_677
.LBB1_464:
	movzbl	8(%rdi), %eax
	cmpl	$2, %eax
	je	.LBB1_575
	movl	16(%rdi), %esi
	movq	24(%rdi), %rdx
	cmpl	$1, %eax
	jne	.LBB1_579
	movq	%rdi, %r14
	leaq	32(%rsp), %rdi
	movl	$1, %ecx
	movq	%r8, %r13
	callq	"ord_script::text::push_now::<#b4f378d63f4443e6>"
	jmp	.LBB1_450
.LBB1_467:
	movq	%r8, 304(%rsp)
	movq	%rbx, %r13
	movzbl	1(%rdi), %r14d
	leal	(,%r14,8), %eax
	leaq	".Lswitch.table.ord_script::serving::answer_to::<#40a73cb1e87492e9>.323"(%rip), %rcx
	movq	(%rax,%rcx), %rbx
	leaq	".Lswitch.table.ord_script::serving::answer_to::<#40a73cb1e87492e9>.324"(%rip), %rcx
	movq	(%rax,%rcx), %rsi
	movq	40(%rsp), %rax
	movq	%rax, 312(%rsp)
	movq	48(%rsp), %rax
	movq	%rax, 96(%rsp)
	movaps	32(%rsp), %xmm1
	movaps	%xmm1, 80(%rsp)
	movups	%xmm0, 32(%rbp)
	movl	$32, 104(%rsp)
	movl	$0, 20(%rbp)
	movq	$0, 12(%rbp)
	movq	$-1, 120(%rsp)
	movq	88(%rsp), %r15
	movq	96(%rsp), %r12
	movq	%r12, %rax
	subq	%r15, %rax
	cmpq	$7, %rax
	movq	%rdi, 288(%rsp)
	jbe	.LBB1_692
.LBB1_468:
	movq	80(%rsp), %rax
	movabsq	$2334102053450048882, %rcx
	movq	%rcx, (%rax,%r15)
	addq	$8, %r15
	movq	%r15, 88(%rsp)
	movq	%r12, 96(%rsp)
	movl	$32, 104(%rsp)
	movl	$0, 20(%rbp)
	movq	$0, 12(%rbp)
	movq	$-1, 120(%rsp)
	cmpq	$0, 128(%rsp)
	jne	.LBB1_1535
	movq	%r12, %rcx
	subq	%r15, %rcx
	cmpq	%rcx, %rbx
	ja	.LBB1_702
.LBB1_470:
	leaq	(%rax,%r15), %rdi
	movq	%rdi, %rcx
	subq	%rsi, %rcx
	cmpq	%rbx, %rcx
	jae	.LBB1_568
	movl	%ebx, %ecx
	andl	$3, %ecx
	movq	%rbx, %rdx
	andq	$-4, %rdx
	leaq	(%rax,%r15), %r8
	addq	$3, %r8
	xorl	%eax, %eax
	.p2align	4
.LBB1_472:
	movzbl	(%rsi,%rax), %r9d
	movb	%r9b, -3(%r8,%rax)
	movzbl	1(%rsi,%rax), %r9d
	movb	%r9b, -2(%r8,%rax)
	movzbl	2(%rsi,%rax), %r9d
	movb	%r9b, -1(%r8,%rax)
	movzbl	3(%rsi,%rax), %r9d
	movb	%r9b, (%r8,%rax)
	addq	$4, %rax
	cmpq	%rax, %rdx
	jne	.LBB1_472
	cmpb	$1, %r14b
	je	.LBB1_569
	.p2align	4
.LBB1_474:
	movzbl	(%rsi,%rax), %edx
	movb	%dl, (%rdi,%rax)
	incq	%rax
	decq	%rcx
	jne	.LBB1_474
	jmp	.LBB1_569
.LBB1_475:
	movq	%rbx, 416(%rsp)
	xorl	%ebx, %ebx
	cmpb	$1, %r14b
	setne	%al
	leaq	.Lstatic.59(%rip), %rcx
	leaq	.Lstatic.60(%rip), %rsi
	cmoveq	%rcx, %rsi
	cmpb	$1, 8(%rdi)
	movq	%r8, 304(%rsp)
	jne	.LBB1_500
	movb	%al, %bl
	addq	$3, %rbx
	movq	%rdi, 288(%rsp)
	movups	16(%rdi), %xmm0
	movaps	%xmm0, 624(%rsp)
	movq	%rsi, 192(%rsp)
	movq	%rbx, 200(%rsp)
	leaq	.Lstatic.47(%rip), %rax
	movq	%rax, 208(%rsp)
	movq	$1, 216(%rsp)
	leaq	624(%rsp), %rax
	movq	%rax, 224(%rsp)
	leaq	.Lstatic.36(%rip), %rax
	movq	%rax, 232(%rsp)
	movq	$1, 240(%rsp)
	movq	40(%rsp), %r13
	movq	48(%rsp), %rax
	movq	%rax, 96(%rsp)
	movaps	32(%rsp), %xmm0
	movaps	%xmm0, 80(%rsp)
	xorps	%xmm0, %xmm0
	movups	%xmm0, 32(%rbp)
	movl	$32, 104(%rsp)
	movl	$0, 20(%rbp)
	movq	$0, 12(%rbp)
	movq	$-1, 120(%rsp)
	movq	88(%rsp), %r15
	movq	96(%rsp), %r12
	movq	%r12, %rax
	subq	%r15, %rax
	cmpq	%rax, %rbx
	ja	.LBB1_721
.LBB1_477:
	movq	80(%rsp), %rbp
	leaq	(%r15,%rbp), %rdi
	movq	%rdi, %rax
	subq	%rsi, %rax
	cmpq	%rbx, %rax
	jae	.LBB1_604
	cmpb	$1, %r14b
	sete	%al
	movzbl	(%rsi), %ecx
	movb	%cl, (%rdi)
	setne	%cl
	shlb	$3, %cl
	addb	$108, %cl
	xorb	$101, %al
	movb	%cl, 1(%rdi)
	movb	%al, 2(%rdi)
	cmpb	$1, %r14b
	je	.LBB1_605
	movb	$109, 3(%rdi)
	jmp	.LBB1_605
.LBB1_480:
	movq	%r8, %r13
	movq	%rdi, %r14
	movq	40(%rsp), %rax
	movq	48(%rsp), %rcx
	movq	%rcx, %rdx
	subq	%rax, %rdx
	cmpq	$2, %rdx
	jbe	.LBB1_694
.LBB1_481:
	movq	32(%rsp), %rdx
	leaq	(%rdx,%rax), %rsi
	leaq	.Lstatic.38(%rip), %rdi
	movq	%rsi, %r8
	subq	%rdi, %r8
	cmpq	$2, %r8
	ja	.LBB1_539
	movw	$27503, (%rsi)
	movb	$10, 2(%rsi)
	jmp	.LBB1_540
.LBB1_483:
	movzbl	8(%rdi), %ecx
	cmpl	$2, %ecx
	je	.LBB1_577
	leaq	16(%rdi), %rax
	movzbl	%r14b, %esi
	cmpl	$1, %ecx
	jne	.LBB1_581
	movups	(%rax), %xmm0
	movups	16(%rax), %xmm1
	movaps	%xmm1, 96(%rsp)
	movaps	%xmm0, 80(%rsp)
	movq	%rdi, %r14
	leaq	32(%rsp), %rdi
	leaq	80(%rsp), %rdx
	movl	$1, %ecx
	movq	%r8, %r13
	callq	"ord_script::text::push_taken::<#b4f378d63f4443e6>"
	jmp	.LBB1_450
.LBB1_486:
	movq	%rbx, 416(%rsp)
	cmpb	$1, 4(%rdi)
	jne	.LBB1_503
	movzbl	8(%rdi), %eax
	movl	12(%rdi), %ecx
	movzbl	16(%rdi), %edx
	movq	%rdi, 288(%rsp)
	movl	20(%rdi), %esi
	movl	%eax, 320(%rsp)
	movl	%ecx, 324(%rsp)
	movl	%edx, 624(%rsp)
	movl	%esi, 628(%rsp)
	movq	40(%rsp), %rbx
	movq	48(%rsp), %rax
	movq	%rax, 96(%rsp)
	movaps	32(%rsp), %xmm0
	movaps	%xmm0, 80(%rsp)
	xorps	%xmm0, %xmm0
	movups	%xmm0, 32(%rbp)
	movl	$32, 104(%rsp)
	movl	$0, 20(%rbp)
	movq	$0, 12(%rbp)
	movq	$-1, 120(%rsp)
	movq	88(%rsp), %rax
	movq	96(%rsp), %rcx
	movq	%rcx, %rdx
	subq	%rax, %rdx
	cmpq	$10, %rdx
	jbe	.LBB1_725
.LBB1_488:
	movq	80(%rsp), %rdx
	addq	%rax, %rdx
	leaq	.Lstatic.68(%rip), %rsi
	movq	%rdx, %rdi
	subq	%rsi, %rdi
	movq	%r8, %r14
	movabsq	$8462090425403532654, %rsi
	cmpq	$10, %rdi
	ja	.LBB1_617
	movq	%rsi, (%rdx)
	movw	$29554, 8(%rdx)
	movb	$32, 10(%rdx)
	jmp	.LBB1_618
.LBB1_490:
	movq	%r8, 304(%rsp)
	movq	%rbx, 416(%rsp)
	xorl	%eax, %eax
	cmpb	$3, %r14b
	sete	%al
	leaq	2(%rax,%rax,4), %rbx
	leaq	.Lstatic.65(%rip), %r8
	leaq	.Lstatic.66(%rip), %r13
	movq	%r13, %rsi
	cmoveq	%r8, %rsi
	movq	%rdi, 288(%rsp)
	movzbl	1(%rdi), %edx
	movq	40(%rsp), %rax
	movq	%rax, 312(%rsp)
	movq	48(%rsp), %rax
	movq	%rax, 96(%rsp)
	movaps	32(%rsp), %xmm1
	movaps	%xmm1, 80(%rsp)
	movups	%xmm0, 32(%rbp)
	movl	$32, 104(%rsp)
	movl	$0, 20(%rbp)
	movq	$0, 12(%rbp)
	movq	$-1, 120(%rsp)
	movq	88(%rsp), %r15
	movq	96(%rsp), %r12
	movq	%r12, %rax
	subq	%r15, %rax
	cmpq	%rax, %rbx
	ja	.LBB1_696
.LBB1_491:
	movq	80(%rsp), %rbp
	leaq	(%r15,%rbp), %rdi
	movq	%rdi, %rax
	subq	%rsi, %rax
	cmpq	%rbx, %rax
	jae	.LBB1_542
	cmpb	$3, %r14b
	sete	%al
	addb	$107, %al
	movzbl	(%rsi), %ecx
	movb	%cl, (%rdi)
	movb	%al, 1(%rdi)
	cmpb	$3, %r14b
	jne	.LBB1_543
	movb	$101, 2(%rdi)
	cmoveq	%r8, %r13
	movl	3(%r13), %eax
	movl	%eax, 3(%rdi)
	jmp	.LBB1_543
.LBB1_494:
	movq	48(%rsp), %rax
	movq	%rax, 96(%rsp)
	movaps	32(%rsp), %xmm0
	movaps	%xmm0, 80(%rsp)
	xorps	%xmm0, %xmm0
	movups	%xmm0, 32(%rbp)
	movl	$32, 104(%rsp)
	movl	$0, 20(%rbp)
	movq	$0, 12(%rbp)
	movq	$-1, 120(%rsp)
	movq	88(%rsp), %rcx
	movq	96(%rsp), %rax
	movq	%rax, %rdx
	subq	%rcx, %rdx
	cmpq	$18, %rdx
	jbe	.LBB1_715
.LBB1_495:
	movq	80(%rsp), %rdx
	addq	%rcx, %rdx
	leaq	.Lstatic.71(%rip), %rsi
	movq	%rdx, %rdi
	subq	%rsi, %rdi
	cmpq	$18, %rdi
	ja	.LBB1_599
	movaps	.LCPI1_2(%rip), %xmm0
	movups	%xmm0, (%rdx)
	movw	$26478, 16(%rdx)
	movb	$10, 18(%rdx)
	jmp	.LBB1_600
.LBB1_497:
	movq	%rdi, %r14
	movq	40(%rsp), %rbx
	movq	48(%rsp), %rax
	movq	%rax, 96(%rsp)
	movaps	32(%rsp), %xmm0
	movaps	%xmm0, 80(%rsp)
	xorps	%xmm0, %xmm0
	movups	%xmm0, 32(%rbp)
	movl	$32, 104(%rsp)
	movl	$0, 20(%rbp)
	movq	$0, 12(%rbp)
	movq	$-1, 120(%rsp)
	movq	88(%rsp), %rcx
	movq	96(%rsp), %rax
	movq	%rax, %rdx
	subq	%rcx, %rdx
	cmpq	$4, %rdx
	jbe	.LBB1_719
.LBB1_498:
	movq	80(%rsp), %rdx
	addq	%rcx, %rdx
	leaq	.Lstatic.55(%rip), %rsi
	movq	%rdx, %rdi
	subq	%rsi, %rdi
	cmpq	$4, %rdi
	ja	.LBB1_602
	movl	$1701736302, (%rdx)
	movb	$10, 4(%rdx)
	jmp	.LBB1_603
.LBB1_500:
	movq	%rdi, %r14
	movq	40(%rsp), %rbx
	movq	48(%rsp), %rax
	movq	%rax, 96(%rsp)
	movaps	32(%rsp), %xmm0
	movaps	%xmm0, 80(%rsp)
	xorps	%xmm0, %xmm0
	movups	%xmm0, 32(%rbp)
	movl	$32, 104(%rsp)
	movl	$0, 20(%rbp)
	movq	$0, 12(%rbp)
	movq	$-1, 120(%rsp)
	movq	88(%rsp), %rcx
	movq	96(%rsp), %rax
	movq	%rax, %rdx
	subq	%rcx, %rdx
	cmpq	$4, %rdx
	jbe	.LBB1_723
.LBB1_501:
	movq	80(%rsp), %rdx
	addq	%rcx, %rdx
	leaq	.Lstatic.55(%rip), %rsi
	movq	%rdx, %rdi
	subq	%rsi, %rdi
	cmpq	$4, %rdi
	ja	.LBB1_615
	movl	$1701736302, (%rdx)
	movb	$10, 4(%rdx)
	jmp	.LBB1_616
.LBB1_503:
	movq	%rdi, %r14
	movq	40(%rsp), %rbx
	movq	48(%rsp), %rax
	movq	%rax, 96(%rsp)
	movaps	32(%rsp), %xmm0
	movaps	%xmm0, 80(%rsp)
	xorps	%xmm0, %xmm0
	movups	%xmm0, 32(%rbp)
	movl	$32, 104(%rsp)
	movl	$0, 20(%rbp)
	movq	$0, 12(%rbp)
	movq	$-1, 120(%rsp)
	movq	88(%rsp), %rcx
	movq	96(%rsp), %rax
	movq	%rax, %rdx
	subq	%rcx, %rdx
	cmpq	$4, %rdx
	jbe	.LBB1_727
.LBB1_504:
	movq	80(%rsp), %rdx
	addq	%rcx, %rdx
	leaq	.Lstatic.55(%rip), %rsi
	movq	%rdx, %rdi
	subq	%rsi, %rdi
	cmpq	$4, %rdi
	ja	.LBB1_629
	movl	$1701736302, (%rdx)
	movb	$10, 4(%rdx)
	jmp	.LBB1_630
.LBB1_508:
	movl	$544437353, 3(%rax)
	movl	$1769171318, (%rax)
.LBB1_509:
	addq	$7, %rbx
	movq	%rbx, 200(%rsp)
	movq	%r14, 208(%rsp)
	movl	$32, 216(%rsp)
	leaq	220(%rsp), %rax
	movl	$0, 8(%rax)
	movq	$0, (%rax)
	movq	$-1, 232(%rsp)
	movq	288(%rsp), %rax
	movq	16(%rax), %r8
	movq	24(%rax), %r9
	xorps	%xmm0, %xmm0
	testq	%r9, %r9
	jne	.LBB1_514
	movaps	%xmm0, 80(%rsp)
	movq	$0, 96(%rsp)
	movl	$24, %ecx
	cmpq	$100, %r8
	jb	.LBB1_585
	.p2align	4
.LBB1_511:
	movq	%r8, %rax
	shrq	$2, %rax
	movabsq	$2951479051793528259, %rdx
	mulq	%rdx
	shrq	$2, %rdx
	imull	$100, %edx, %eax
	movl	%r8d, %esi
	subl	%eax, %esi
	movzbl	%sil, %eax
	imull	$205, %eax, %esi
	shrl	$11, %esi
	leal	(%rsi,%rsi), %r9d
	leal	(%r9,%r9,4), %r9d
	subb	%r9b, %al
	orb	$48, %al
	movb	%al, 79(%rsp,%rcx)
	orb	$48, %sil
	movb	%sil, 78(%rsp,%rcx)
	addq	$-2, %rcx
	cmpq	$9999, %r8
	movq	%rdx, %r8
	ja	.LBB1_511
	cmpq	$10, %rdx
	jb	.LBB1_586
.LBB1_513:
	movzbl	%dl, %eax
	imull	$205, %eax, %eax
	shrl	$11, %eax
	leal	(%rax,%rax), %esi
	leal	(%rsi,%rsi,4), %esi
	subb	%sil, %dl
	orb	$48, %dl
	movb	%dl, 79(%rsp,%rcx)
	orb	$48, %al
	movb	%al, 78(%rsp,%rcx)
	addq	$-2, %rcx
	jmp	.LBB1_587
.LBB1_514:
	movaps	%xmm0, 128(%rsp)
	movaps	%xmm0, 112(%rsp)
	movaps	%xmm0, 96(%rsp)
	movaps	%xmm0, 80(%rsp)
	movl	$64, %edi
	.p2align	4
.LBB1_515:
	testq	%rdi, %rdi
	je	.LBB1_582
	leaq	-1(%rdi), %r14
	movq	%r9, %rcx
	shldq	$63, %r8, %rcx
	movq	%r9, %r10
	shrq	%r10
	movq	%rcx, %rsi
	addq	%r10, %rsi
	adcq	$0, %rsi
	movabsq	$-3689348814741910323, %r11
	movq	%rsi, %rax
	mulq	%r11
	shrq	$2, %rdx
	leaq	(%rdx,%rdx,4), %rax
	subq	%rax, %rsi
	subq	%rsi, %rcx
	sbbq	$0, %r10
	movabsq	$-3689348814741910324, %rsi
	imulq	%rcx, %rsi
	movq	%rcx, %rax
	mulq	%r11
	addq	%rsi, %rdx
	imulq	%r11, %r10
	addq	%rdx, %r10
	movq	%rax, %rcx
	addq	%rax, %rcx
	leaq	(%rcx,%rcx,4), %rcx
	movl	%r8d, %edx
	subl	%ecx, %edx
	orb	$48, %dl
	xorl	%ecx, %ecx
	movl	$9, %esi
	cmpq	%r8, %rsi
	sbbq	%r9, %rcx
	movb	%dl, 79(%rsp,%rdi)
	movq	%rax, %r8
	movq	%r10, %r9
	movq	%r14, %rdi
	jb	.LBB1_515
	jmp	.LBB1_583
.LBB1_517:
	movb	$115, 4(%rdx)
	movl	$1802396018, (%rdx)
.LBB1_518:
	addq	$5, %r14
	movq	%rcx, 32(%rsp)
	movq	%r14, 40(%rsp)
	movq	%rax, 48(%rsp)
	cmpq	$0, 312(%rsp)
	je	.LBB1_531
	movq	%r8, 304(%rsp)
	xorl	%r14d, %r14d
	movq	%rbx, 416(%rsp)
	.p2align	4
.LBB1_520:
	movq	40(%rsp), %r13
	movq	48(%rsp), %rax
	movq	%rax, 96(%rsp)
	movaps	32(%rsp), %xmm0
	movaps	%xmm0, 80(%rsp)
	xorps	%xmm0, %xmm0
	movups	%xmm0, 32(%rbp)
	movl	$32, 104(%rsp)
	movl	$0, 20(%rbp)
	movq	$0, 12(%rbp)
	movq	$-1, 120(%rsp)
	movq	88(%rsp), %r15
	movq	96(%rsp), %r12
	cmpq	%r15, %r12
	je	.LBB1_534
.LBB1_521:
	movq	80(%rsp), %rdi
	movb	$32, (%rdi,%r15)
	incq	%r15
	movq	%r15, 88(%rsp)
	movq	%r12, 96(%rsp)
	movl	$32, 104(%rsp)
	movl	$0, 20(%rbp)
	movq	$0, 12(%rbp)
	movq	$-1, 120(%rsp)
	movq	432(%rsp), %rax
	movzbl	(%rax,%r14), %eax
	movaps	%xmm0, 192(%rsp)
	movq	$0, 208(%rsp)
	cmpb	$100, %al
	jb	.LBB1_524
	movzbl	%al, %ecx
	leal	(%rcx,%rcx,4), %edx
	leal	(%rcx,%rdx,8), %edx
	shrl	$12, %edx
	imull	$100, %edx, %ecx
	subb	%cl, %al
	movzbl	%al, %eax
	imull	$205, %eax, %ecx
	shrl	$11, %ecx
	leal	(%rcx,%rcx), %esi
	leal	(%rsi,%rsi,4), %esi
	subb	%sil, %al
	orb	$48, %al
	movb	%al, 215(%rsp)
	orb	$48, %cl
	movb	%cl, 214(%rsp)
	movl	$21, %ecx
	movl	%edx, %eax
	jmp	.LBB1_523
	.p2align	4
.LBB1_524:
	movl	$23, %ecx
	cmpb	$10, %al
	jb	.LBB1_523
	movzbl	%al, %ecx
	imull	$205, %ecx, %ecx
	shrl	$11, %ecx
	leal	(%rcx,%rcx), %edx
	leal	(%rdx,%rdx,4), %edx
	subb	%dl, %al
	orb	$48, %al
	movb	%al, 215(%rsp)
	orb	$48, %cl
	movb	%cl, 214(%rsp)
	movl	$22, %ecx
	jmp	.LBB1_526
	.p2align	4
.LBB1_523:
	orb	$48, %al
	movb	%al, 192(%rsp,%rcx)
.LBB1_526:
	leaq	(%rsp,%rcx), %rsi
	addq	$192, %rsi
	movb	$45, 191(%rsp,%rcx)
	movl	$24, %edx
	subq	%rcx, %rdx
	cmpq	$0, 128(%rsp)
	jne	.LBB1_536
	movq	%r12, %rax
	subq	%r15, %rax
	cmpq	%rax, %rdx
	ja	.LBB1_537
.LBB1_528:
	addq	%r15, %rdi
	addq	%rdx, %r15
	callq	memcpy@PLT
	movq	%r15, 88(%rsp)
	movaps	80(%rsp), %xmm0
	movaps	%xmm0, 320(%rsp)
	movq	%r12, 48(%rsp)
	movaps	%xmm0, 32(%rsp)
.LBB1_529:
	incq	%r14
	cmpq	%r14, 312(%rsp)
	jne	.LBB1_520
	jmp	.LBB1_530
.LBB1_534:
	leaq	80(%rsp), %rdi
	movl	$1, %esi
	callq	"std_alloc::vec::Vec::grow_amortized::<#c9fd60d064fcd5bb>"
	testb	%al, %al
	je	.LBB1_1500
	movq	88(%rsp), %r15
	movq	96(%rsp), %r12
	xorps	%xmm0, %xmm0
	jmp	.LBB1_521
.LBB1_536:
	leaq	80(%rsp), %rdi
	callq	"core::fmt::formatter::Formatter::write_indented::<#dff84d7e35224229>"
	movq	96(%rsp), %rcx
	movq	%rcx, 336(%rsp)
	movaps	80(%rsp), %xmm0
	movaps	%xmm0, 32(%rsp)
	movq	%rcx, 48(%rsp)
	testb	%al, %al
	je	.LBB1_529
	jmp	.LBB1_1501
.LBB1_537:
	movq	%rsi, %rbx
	leaq	80(%rsp), %rdi
	movq	%rdx, %rbp
	movq	%rdx, %rsi
	callq	"std_alloc::vec::Vec::grow_amortized::<#c9fd60d064fcd5bb>"
	testb	%al, %al
	je	.LBB1_1500
	movq	80(%rsp), %rdi
	movq	88(%rsp), %r15
	movq	96(%rsp), %r12
	movq	%rbx, %rsi
	movq	%rbp, %rdx
	movq	416(%rsp), %rbx
	leaq	96(%rsp), %rbp
	jmp	.LBB1_528
.LBB1_530:
	movq	40(%rsp), %r14
	movq	304(%rsp), %r8
.LBB1_531:
	movq	48(%rsp), %rax
	movq	%rax, 96(%rsp)
	movq	32(%rsp), %rax
	movq	%rax, 80(%rsp)
	movq	40(%rsp), %rax
	movq	%rax, 88(%rsp)
	xorps	%xmm0, %xmm0
	movups	%xmm0, 32(%rbp)
	movl	$32, 104(%rsp)
	movl	$0, 20(%rbp)
	movq	$0, 12(%rbp)
	movq	$-1, 120(%rsp)
	movq	88(%rsp), %rcx
	movq	96(%rsp), %rax
	cmpq	%rcx, %rax
	movq	296(%rsp), %r12
	movq	64(%rsp), %r15
	jne	.LBB1_549
	movq	%r8, %r13
	leaq	80(%rsp), %rdi
	movl	$1, %esi
	callq	"std_alloc::vec::Vec::grow_amortized::<#c9fd60d064fcd5bb>"
	testb	%al, %al
	je	.LBB1_1554
	movq	88(%rsp), %rcx
	movq	96(%rsp), %rax
	movq	%r13, %r8
	jmp	.LBB1_549
.LBB1_539:
	movb	$10, 2(%rsi)
	movw	$27503, (%rsi)
.LBB1_540:
	movq	%r14, %rdi
	movq	%r13, %r8
	addq	$3, %rax
	jmp	.LBB1_541
.LBB1_542:
	movl	%edx, %r14d
	movq	%rbx, %rdx
	callq	memcpy@PLT
	movl	%r14d, %edx
.LBB1_543:
	addq	%rbx, %r15
	movq	%r15, 88(%rsp)
	movq	%r12, 96(%rsp)
	testb	$1, %dl
	je	.LBB1_547
	movl	$32, 104(%rsp)
	leaq	96(%rsp), %rax
	movl	$0, 20(%rax)
	movq	$0, 12(%rax)
	movq	$-1, 120(%rsp)
	cmpq	$0, 128(%rsp)
	jne	.LBB1_1537
	movq	%r12, %rax
	subq	%r15, %rax
	cmpq	$8, %rax
	jbe	.LBB1_733
.LBB1_546:
	addq	%r15, %rbp
	leaq	.Lstatic.63(%rip), %rax
	movq	%rbp, %rcx
	subq	%rax, %rcx
	movabsq	$8028904877209317152, %rax
	cmpq	$8, %rcx
	movq	%rax, (%rbp)
	movb	$119, 8(%rbp)
	addq	$9, %r15
	movq	%r15, 88(%rsp)
	movq	%r12, 96(%rsp)
.LBB1_547:
	movl	$32, 104(%rsp)
	leaq	96(%rsp), %rbp
	movl	$0, 20(%rbp)
	movq	$0, 12(%rbp)
	movq	$-1, 120(%rsp)
	cmpq	$0, 128(%rsp)
	jne	.LBB1_698
	movq	88(%rsp), %rcx
	movq	96(%rsp), %rax
	cmpq	%rcx, %rax
	movq	416(%rsp), %rbx
	movq	296(%rsp), %r12
	movq	64(%rsp), %r15
	movq	304(%rsp), %r8
	je	.LBB1_704
.LBB1_549:
	movq	80(%rsp), %rdx
	movb	$10, (%rdx,%rcx)
	incq	%rcx
	movq	%rcx, 88(%rsp)
	movq	80(%rsp), %rcx
	movq	88(%rsp), %rdx
	movq	%rax, 48(%rsp)
	movq	%rcx, 32(%rsp)
	movq	%rdx, 40(%rsp)
.LBB1_550:
	xorl	%eax, %eax
	movq	288(%rsp), %rdi
	jmp	.LBB1_828
.LBB1_551:
	movq	%rbx, %rdx
	movq	%r9, %r14
	callq	memcpy@PLT
	movq	%r14, %r9
.LBB1_552:
	addq	%rbx, %r15
	movq	%r12, 32(%rsp)
	movq	%r15, 40(%rsp)
	movq	%r9, 48(%rsp)
	testq	%r13, %r13
	je	.LBB1_562
	addq	$16, %rbp
	leaq	208(%rsp), %r14
	leaq	232(%rsp), %r15
	.p2align	4
.LBB1_554:
	movups	-16(%rbp), %xmm0
	movaps	%xmm0, 624(%rsp)
	movups	(%rbp), %xmm0
	movaps	%xmm0, 512(%rsp)
	leaq	.Lstatic.47(%rip), %rax
	movq	%rax, 192(%rsp)
	movq	$1, 200(%rsp)
	leaq	624(%rsp), %rax
	movq	%rax, 208(%rsp)
	leaq	.Lstatic.70(%rip), %rax
	movq	%rax, 216(%rsp)
	movq	$1, 224(%rsp)
	leaq	512(%rsp), %rax
	movq	%rax, 232(%rsp)
	movq	40(%rsp), %rbx
	movq	48(%rsp), %rax
	movq	%rax, 96(%rsp)
	movaps	32(%rsp), %xmm0
	movaps	%xmm0, 80(%rsp)
	xorps	%xmm0, %xmm0
	leaq	96(%rsp), %rax
	movups	%xmm0, 32(%rax)
	movl	$32, 104(%rsp)
	movl	$0, 20(%rax)
	movq	$0, 12(%rax)
	movq	$-1, 120(%rsp)
	movq	88(%rsp), %rax
	movq	96(%rsp), %rcx
	cmpq	%rax, %rcx
	je	.LBB1_564
.LBB1_555:
	movq	80(%rsp), %rdx
	movb	$32, (%rdx,%rax)
	incq	%rax
	movq	%rax, 88(%rsp)
	movq	%rcx, 96(%rsp)
	leaq	80(%rsp), %rdi
	movq	%r14, %rsi
	callq	"core::fmt::formatter::Formatter::write_piece::<#1c9fe02cd69f029b>"
	testb	%al, %al
	jne	.LBB1_632
	movl	$32, 104(%rsp)
	leaq	96(%rsp), %rax
	movl	$0, 20(%rax)
	movq	$0, 12(%rax)
	movq	$-1, 120(%rsp)
	cmpq	$0, 128(%rsp)
	jne	.LBB1_631
	movq	88(%rsp), %rax
	movq	96(%rsp), %rcx
	cmpq	%rax, %rcx
	je	.LBB1_566
.LBB1_558:
	movq	80(%rsp), %rdx
	movb	$61, (%rdx,%rax)
	incq	%rax
	movq	%rax, 88(%rsp)
	movq	%rcx, 96(%rsp)
.LBB1_559:
	leaq	80(%rsp), %rdi
	movq	%r15, %rsi
	callq	"core::fmt::formatter::Formatter::write_piece::<#2a3da2e77bd6383e>"
	movq	96(%rsp), %rcx
	movq	%rcx, 336(%rsp)
	movaps	80(%rsp), %xmm0
	movaps	%xmm0, 32(%rsp)
	movq	%rcx, 48(%rsp)
	testb	%al, %al
	jne	.LBB1_633
	addq	$32, %rbp
	decq	%r13
	jne	.LBB1_554
	jmp	.LBB1_561
.LBB1_564:
	leaq	80(%rsp), %rdi
	movl	$1, %esi
	callq	"std_alloc::vec::Vec::grow_amortized::<#c9fd60d064fcd5bb>"
	testb	%al, %al
	je	.LBB1_632
	movq	88(%rsp), %rax
	movq	96(%rsp), %rcx
	jmp	.LBB1_555
.LBB1_631:
	leaq	.Lstatic.70(%rip), %rsi
	leaq	80(%rsp), %rdi
	movl	$1, %edx
	callq	"core::fmt::formatter::Formatter::write_indented::<#dff84d7e35224229>"
	testb	%al, %al
	je	.LBB1_559
	jmp	.LBB1_632
.LBB1_566:
	leaq	80(%rsp), %rdi
	movl	$1, %esi
	callq	"std_alloc::vec::Vec::grow_amortized::<#c9fd60d064fcd5bb>"
	testb	%al, %al
	je	.LBB1_632
	movq	88(%rsp), %rax
	movq	96(%rsp), %rcx
	jmp	.LBB1_558
.LBB1_568:
	movq	%rbx, %rdx
	callq	memcpy@PLT
.LBB1_569:
	addq	%rbx, %r15
	movq	%r15, 88(%rsp)
	movq	%r12, 96(%rsp)
.LBB1_570:
	movl	$32, 104(%rsp)
	leaq	96(%rsp), %rbp
	movl	$0, 20(%rbp)
	movq	$0, 12(%rbp)
	movq	$-1, 120(%rsp)
	cmpq	$0, 128(%rsp)
	jne	.LBB1_699
	movq	88(%rsp), %rcx
	movq	96(%rsp), %rax
	cmpq	%rcx, %rax
	movq	%r13, %rbx
	movq	296(%rsp), %r12
	movq	64(%rsp), %r15
	je	.LBB1_706
.LBB1_572:
	movq	80(%rsp), %rdx
	movb	$10, (%rdx,%rcx)
	incq	%rcx
	movq	%rcx, 88(%rsp)
	movq	80(%rsp), %rcx
	movq	88(%rsp), %rdx
	jmp	.LBB1_595
.LBB1_573:
	movups	(%rax), %xmm0
	movaps	%xmm0, 624(%rsp)
	leaq	.Lstatic.40(%rip), %rax
	movq	%rax, 80(%rsp)
	movq	$4, 88(%rsp)
	leaq	624(%rsp), %rax
	movq	%rax, 96(%rsp)
	leaq	320(%rsp), %rax
	movq	%rax, 104(%rsp)
	leaq	.Lstatic.36(%rip), %rax
	movq	%rax, 112(%rsp)
	movq	$1, 120(%rsp)
	leaq	32(%rsp), %rdi
	leaq	80(%rsp), %rsi
.LBB1_574:
	callq	"std_alloc::string::String::write_fmt::<#01902a879afc53f0>"
	jmp	.LBB1_580
.LBB1_575:
	movq	%rbx, %r14
	movq	40(%rsp), %rbx
	movq	48(%rsp), %rax
	movq	%rax, 96(%rsp)
	movaps	32(%rsp), %xmm0
	movaps	%xmm0, 80(%rsp)
	xorps	%xmm0, %xmm0
	movups	%xmm0, 32(%rbp)
	movl	$32, 104(%rsp)
	movl	$0, 20(%rbp)
	movq	$0, 12(%rbp)
	movq	$-1, 120(%rsp)
	movq	88(%rsp), %rcx
	movq	96(%rsp), %rax
	movq	%rax, %rdx
	subq	%rcx, %rdx
	cmpq	$7, %rdx
	jbe	.LBB1_750
.LBB1_576:
	movq	80(%rsp), %rdx
	movabsq	$748839352262880873, %rsi
	movq	%rsi, (%rdx,%rcx)
	addq	$8, %rcx
	movq	%rcx, 88(%rsp)
	movq	80(%rsp), %rcx
	movq	88(%rsp), %rdx
	movq	%rax, 48(%rsp)
	movq	%rcx, 32(%rsp)
	movq	%rdx, 40(%rsp)
	xorl	%eax, %eax
	movq	%r14, %rbx
	jmp	.LBB1_828
.LBB1_577:
	movq	40(%rsp), %r14
	movq	48(%rsp), %rax
	movq	%rax, 96(%rsp)
	movaps	32(%rsp), %xmm0
	movaps	%xmm0, 80(%rsp)
	xorps	%xmm0, %xmm0
	movups	%xmm0, 32(%rbp)
	movl	$32, 104(%rsp)
	movl	$0, 20(%rbp)
	movq	$0, 12(%rbp)
	movq	$-1, 120(%rsp)
	movq	88(%rsp), %rcx
	movq	96(%rsp), %rax
	movq	%rax, %rdx
	subq	%rcx, %rdx
	cmpq	$7, %rdx
	jbe	.LBB1_752
.LBB1_578:
	movq	80(%rsp), %rdx
	movabsq	$748839352262880873, %rsi
	movq	%rsi, (%rdx,%rcx)
	addq	$8, %rcx
	jmp	.LBB1_601
.LBB1_579:
	movq	%r8, %r13
	movq	%rdi, %r14
	leaq	32(%rsp), %rdi
	xorl	%ecx, %ecx
	callq	"ord_script::text::push_now::<#b4f378d63f4443e6>"
.LBB1_580:
	movq	%r14, %rdi
	movq	16(%rsp), %rcx
	movq	%r13, %r8
	incq	%r8
	addq	$64, %rdi
	testb	%al, %al
	je	.LBB1_415
	jmp	.LBB1_829
.LBB1_581:
	movq	%r8, %r13
	movq	%rdi, %r14
	movups	(%rax), %xmm0
	movups	16(%rax), %xmm1
	movaps	%xmm1, 96(%rsp)
	movaps	%xmm0, 80(%rsp)
	leaq	32(%rsp), %rdi
	leaq	80(%rsp), %rdx
	xorl	%ecx, %ecx
	callq	"ord_script::text::push_taken::<#b4f378d63f4443e6>"
	movq	%r14, %rdi
	movq	%r13, %r8
	jmp	.LBB1_828
.LBB1_582:
	xorl	%r14d, %r14d
.LBB1_583:
	movl	$64, %ebp
	movl	$64, %edx
	subq	%r14, %rdx
	leaq	192(%rsp), %rdi
	xorl	%esi, %esi
	callq	"core::fmt::formatter::Formatter::write_before_number::<#dff84d7e35224229>"
	movb	$1, %bl
	testb	%al, %al
	je	.LBB1_645
	leaq	96(%rsp), %rbp
	jmp	.LBB1_591
.LBB1_585:
	movq	%r8, %rdx
	cmpq	$10, %rdx
	jae	.LBB1_513
.LBB1_586:
	orb	$48, %dl
	movb	%dl, 79(%rsp,%rcx)
	decq	%rcx
.LBB1_587:
	leaq	(%rsp,%rcx), %rsi
	addq	$80, %rsi
	movb	$45, 79(%rsp,%rcx)
	movl	$24, %edx
	subq	%rcx, %rdx
	cmpq	$0, 240(%rsp)
	jne	.LBB1_729
	movq	%r14, %rax
	subq	%rbx, %rax
	cmpq	%rax, %rdx
	ja	.LBB1_731
.LBB1_589:
	addq	%rbx, %rdi
	addq	%rdx, %rbx
	callq	memcpy@PLT
	movq	%rbx, 200(%rsp)
	movq	%r14, 208(%rsp)
	xorl	%ebx, %ebx
.LBB1_590:
	movq	296(%rsp), %r12
	movq	64(%rsp), %r15
.LBB1_591:
	testb	%bl, %bl
	jne	.LBB1_1508
	movl	$32, 216(%rsp)
	leaq	220(%rsp), %rax
	movl	$0, 8(%rax)
	movq	$0, (%rax)
	movq	$-1, 232(%rsp)
	cmpq	$0, 240(%rsp)
	jne	.LBB1_700
	movq	200(%rsp), %rcx
	movq	208(%rsp), %rax
	cmpq	%rcx, %rax
	movq	%r13, %rbx
	je	.LBB1_708
.LBB1_594:
	movq	192(%rsp), %rdx
	movb	$10, (%rdx,%rcx)
	incq	%rcx
	movq	%rcx, 200(%rsp)
	movq	192(%rsp), %rcx
	movq	200(%rsp), %rdx
.LBB1_595:
	movq	%rax, 48(%rsp)
	movq	%rcx, 32(%rsp)
	movq	%rdx, 40(%rsp)
.LBB1_596:
	xorl	%eax, %eax
	movq	304(%rsp), %r8
	movq	288(%rsp), %rdi
	jmp	.LBB1_828
.LBB1_597:
	movb	$10, 2(%rdx)
	movw	$27503, (%rdx)
.LBB1_598:
	movq	%r14, %rdi
	addq	$3, %rcx
	jmp	.LBB1_601
.LBB1_599:
	movups	.Lstatic.71(%rip), %xmm0
	movups	%xmm0, (%rdx)
	movl	$174550633, 15(%rdx)
.LBB1_600:
	movq	%r14, %rdi
	addq	$19, %rcx
.LBB1_601:
	movq	%rcx, 88(%rsp)
	movq	80(%rsp), %rcx
	movq	88(%rsp), %rdx
	movq	%rax, 48(%rsp)
	movq	%rcx, 32(%rsp)
	movq	%rdx, 40(%rsp)
	xorl	%eax, %eax
	jmp	.LBB1_828
.LBB1_602:
	movb	$10, 4(%rdx)
	movl	$1701736302, (%rdx)
.LBB1_603:
	addq	$5, %rcx
	movq	%rcx, 88(%rsp)
	movq	80(%rsp), %rcx
	movq	88(%rsp), %rdx
	movq	%rax, 48(%rsp)
	movq	%rcx, 32(%rsp)
	movq	%rdx, 40(%rsp)
	xorl	%eax, %eax
	movq	%r14, %rdi
	jmp	.LBB1_677
.LBB1_604:
	movq	%rbx, %rdx
	callq	memcpy@PLT
.LBB1_605:
	addq	%rbx, %r15
	movq	%r15, 88(%rsp)
	movq	%r12, 96(%rsp)
	movl	$32, 104(%rsp)
	leaq	96(%rsp), %rax
	movl	$0, 20(%rax)
	movq	$0, 12(%rax)
	movq	$-1, 120(%rsp)
	cmpq	$0, 128(%rsp)
	jne	.LBB1_730
	cmpq	%r15, %r12
	je	.LBB1_735
.LBB1_607:
	movb	$32, (%rbp,%r15)
	incq	%r15
	movq	%r15, 88(%rsp)
	movq	%r12, 96(%rsp)
.LBB1_608:
	leaq	80(%rsp), %rdi
	leaq	224(%rsp), %rsi
	callq	"core::fmt::formatter::Formatter::write_piece::<#2a3da2e77bd6383e>"
	testb	%al, %al
	je	.LBB1_666
.LBB1_609:
	movq	96(%rsp), %rax
	movaps	80(%rsp), %xmm0
	movaps	%xmm0, 32(%rsp)
	movq	%rax, 48(%rsp)
	movq	296(%rsp), %r12
	movq	64(%rsp), %r15
.LBB1_610:
	movq	40(%rsp), %rcx
	testq	%r13, %r13
	movq	288(%rsp), %rdi
	je	.LBB1_663
	cmpq	%rcx, %r13
	je	.LBB1_663
	movb	$1, %al
	leaq	96(%rsp), %rbp
	cmpq	%r13, %rcx
	jb	.LBB1_670
	jbe	.LBB1_670
	movq	32(%rsp), %rcx
	cmpb	$-65, (%rcx,%r13)
	jg	.LBB1_664
	jmp	.LBB1_670
.LBB1_615:
	movb	$10, 4(%rdx)
	movl	$1701736302, (%rdx)
.LBB1_616:
	addq	$5, %rcx
	movq	%rcx, 88(%rsp)
	movq	80(%rsp), %rcx
	movq	88(%rsp), %rdx
	movq	%rax, 48(%rsp)
	movq	%rcx, 32(%rsp)
	movq	%rdx, 40(%rsp)
	xorl	%eax, %eax
	movq	%r14, %rdi
	jmp	.LBB1_670
.LBB1_617:
	movq	%rsi, (%rdx)
	movl	$544436853, 7(%rdx)
.LBB1_618:
	addq	$11, %rax
	movq	%rax, 88(%rsp)
	movq	%rcx, 96(%rsp)
	leaq	80(%rsp), %rdi
	leaq	320(%rsp), %rsi
	callq	"core::fmt::formatter::Formatter::write_piece::<#cce49df0dc9cbad9>"
	testb	%al, %al
	jne	.LBB1_623
	movl	$32, 104(%rsp)
	movl	$0, 20(%rbp)
	movq	$0, 12(%rbp)
	movq	$-1, 120(%rsp)
	cmpq	$0, 128(%rsp)
	jne	.LBB1_774
	movq	88(%rsp), %rax
	movq	96(%rsp), %rcx
	cmpq	%rax, %rcx
	je	.LBB1_777
.LBB1_621:
	movq	80(%rsp), %rdx
	movb	$32, (%rdx,%rax)
	incq	%rax
	movq	%rax, 88(%rsp)
	movq	%rcx, 96(%rsp)
.LBB1_622:
	leaq	80(%rsp), %rdi
	leaq	624(%rsp), %rsi
	callq	"core::fmt::formatter::Formatter::write_piece::<#cce49df0dc9cbad9>"
	testb	%al, %al
	je	.LBB1_678
.LBB1_623:
	movq	96(%rsp), %rax
	movaps	80(%rsp), %xmm0
	movaps	%xmm0, 32(%rsp)
	movq	%rax, 48(%rsp)
.LBB1_624:
	movq	40(%rsp), %rcx
	testq	%rbx, %rbx
	movq	288(%rsp), %rdi
	movq	%r14, %r8
	je	.LBB1_639
	cmpq	%rcx, %rbx
	je	.LBB1_639
	movb	$1, %al
	cmpq	%rbx, %rcx
	jb	.LBB1_641
.LBB1_627:
	jbe	.LBB1_641
	movq	32(%rsp), %rcx
	cmpb	$-65, (%rcx,%rbx)
	jg	.LBB1_640
	jmp	.LBB1_641
.LBB1_629:
	movb	$10, 4(%rdx)
	movl	$1701736302, (%rdx)
.LBB1_630:
	addq	$5, %rcx
	movq	%rcx, 88(%rsp)
	movq	80(%rsp), %rcx
	movq	88(%rsp), %rdx
	movq	%rax, 48(%rsp)
	movq	%rcx, 32(%rsp)
	movq	%rdx, 40(%rsp)
	xorl	%eax, %eax
	movq	%r14, %rdi
	movq	416(%rsp), %rbx
	jmp	.LBB1_828
.LBB1_632:
	movq	96(%rsp), %rax
	movaps	80(%rsp), %xmm0
	movaps	%xmm0, 32(%rsp)
	movq	%rax, 48(%rsp)
.LBB1_633:
	movq	40(%rsp), %rcx
	testq	%rbx, %rbx
	movq	288(%rsp), %rdi
	je	.LBB1_642
	cmpq	%rcx, %rbx
	je	.LBB1_642
	movb	$1, %al
	cmpq	%rbx, %rcx
	jb	.LBB1_638
	jbe	.LBB1_638
	movq	32(%rsp), %rcx
	cmpb	$-65, (%rcx,%rbx)
	jg	.LBB1_643
	jmp	.LBB1_638
.LBB1_639:
	movb	$1, %al
	cmpq	%rbx, %rcx
	jbe	.LBB1_641
.LBB1_640:
	movq	%rbx, 40(%rsp)
	movb	$1, %al
.LBB1_641:
	movq	416(%rsp), %rbx
	jmp	.LBB1_828
.LBB1_642:
	movb	$1, %al
	cmpq	%rbx, %rcx
	jbe	.LBB1_638
.LBB1_643:
	movq	%rbx, 40(%rsp)
.LBB1_644:
	movb	$1, %al
	jmp	.LBB1_638
.LBB1_645:
	movq	%rdx, %r15
	xorl	%eax, %eax
	subq	%r14, %rbp
	cmovbq	%rax, %rbp
	cmpq	$65, %r14
	cmovaeq	%rax, %r14
	leaq	(%rsp,%r14), %rsi
	addq	$80, %rsi
	cmpq	$0, 240(%rsp)
	jne	.LBB1_772
	leaq	192(%rsp), %rdi
	movq	%rbp, %rdx
	callq	"core::fmt::formatter::Formatter::write_raw::<#dff84d7e35224229>"
.LBB1_647:
	testb	%al, %al
	movq	%r15, %rdx
	movq	64(%rsp), %r15
	leaq	96(%rsp), %rbp
	jne	.LBB1_591
	testq	%rdx, %rdx
	je	.LBB1_710
	movl	216(%rsp), %esi
	leaq	192(%rsp), %rdi
	callq	"core::fmt::formatter::Formatter::write_char_n_times::<#dff84d7e35224229>"
	movl	%eax, %ebx
	jmp	.LBB1_591
.LBB1_561:
	movq	40(%rsp), %r15
.LBB1_562:
	movq	48(%rsp), %rax
	movq	%rax, 96(%rsp)
	movq	32(%rsp), %rax
	movq	%rax, 80(%rsp)
	movq	40(%rsp), %rax
	movq	%rax, 88(%rsp)
	xorps	%xmm0, %xmm0
	leaq	96(%rsp), %rax
	movups	%xmm0, 32(%rax)
	movl	$32, 104(%rsp)
	movl	$0, 20(%rax)
	movq	$0, 12(%rax)
	movq	$-1, 120(%rsp)
	movq	88(%rsp), %rcx
	movq	96(%rsp), %rax
	cmpq	%rcx, %rax
	je	.LBB1_711
.LBB1_563:
	movq	80(%rsp), %rdx
	movb	$10, (%rdx,%rcx)
	incq	%rcx
	movq	%rcx, 88(%rsp)
	movq	80(%rsp), %rcx
	movq	88(%rsp), %rdx
	movq	%rax, 48(%rsp)
	movq	%rcx, 32(%rsp)
	movq	%rdx, 40(%rsp)
	xorl	%eax, %eax
	movq	288(%rsp), %rdi
.LBB1_638:
	movq	416(%rsp), %rbx
	movq	296(%rsp), %r12
	movq	64(%rsp), %r15
	leaq	96(%rsp), %rbp
	movq	304(%rsp), %r8
	jmp	.LBB1_828
.LBB1_650:
	movl	$32, 216(%rsp)
	leaq	220(%rsp), %rax
	movl	$0, 8(%rax)
	movq	$0, (%rax)
	movq	$-1, 232(%rsp)
	cmpq	$0, 240(%rsp)
	jne	.LBB1_773
	movq	200(%rsp), %rax
	movq	208(%rsp), %rcx
	cmpq	%rax, %rcx
	je	.LBB1_775
.LBB1_652:
	movq	192(%rsp), %rdx
	movb	$32, (%rdx,%rax)
	incq	%rax
	movq	%rax, 200(%rsp)
	movq	%rcx, 208(%rsp)
.LBB1_653:
	movl	$32, 216(%rsp)
	leaq	220(%rsp), %rax
	movl	$0, 8(%rax)
	movq	$0, (%rax)
	movq	$-1, 232(%rsp)
	cmpq	$0, 240(%rsp)
	jne	.LBB1_779
	movq	200(%rsp), %r15
	movq	208(%rsp), %r12
	movq	%r12, %rax
	subq	%r15, %rax
	cmpq	%rax, %rbx
	ja	.LBB1_787
.LBB1_655:
	movq	192(%rsp), %rcx
	leaq	(%rcx,%r15), %rdi
	movq	%rdi, %rax
	subq	%rbp, %rax
	cmpq	%rbx, %rax
	jae	.LBB1_671
	movl	%ebx, %eax
	andl	$3, %eax
	movq	%rbx, %rdx
	andq	$-4, %rdx
	leaq	(%rcx,%r15), %rsi
	addq	$3, %rsi
	xorl	%ecx, %ecx
	.p2align	4
.LBB1_657:
	movzbl	(%rbp,%rcx), %r8d
	movb	%r8b, -3(%rsi,%rcx)
	movzbl	1(%rbp,%rcx), %r8d
	movb	%r8b, -2(%rsi,%rcx)
	movzbl	2(%rbp,%rcx), %r8d
	movb	%r8b, -1(%rsi,%rcx)
	movzbl	3(%rbp,%rcx), %r8d
	movb	%r8b, (%rsi,%rcx)
	addq	$4, %rcx
	cmpq	%rcx, %rdx
	jne	.LBB1_657
	testq	%r14, %r14
	je	.LBB1_672
	.p2align	4
.LBB1_659:
	movzbl	(%rbp,%rcx), %edx
	movb	%dl, (%rdi,%rcx)
	incq	%rcx
	decq	%rax
	jne	.LBB1_659
	jmp	.LBB1_672
.LBB1_660:
	movb	$1, %al
	cmpq	%rdx, %rcx
	jbe	.LBB1_677
.LBB1_661:
	movq	%rdx, 40(%rsp)
.LBB1_662:
	movb	$1, %al
	jmp	.LBB1_677
.LBB1_663:
	movb	$1, %al
	cmpq	%r13, %rcx
	leaq	96(%rsp), %rbp
	jbe	.LBB1_670
.LBB1_664:
	movq	%r13, 40(%rsp)
.LBB1_665:
	movb	$1, %al
	jmp	.LBB1_670
.LBB1_666:
	movl	$32, 104(%rsp)
	leaq	96(%rsp), %rbp
	movl	$0, 20(%rbp)
	movq	$0, 12(%rbp)
	movq	$-1, 120(%rsp)
	cmpq	$0, 128(%rsp)
	jne	.LBB1_780
	movq	88(%rsp), %rcx
	movq	96(%rsp), %rax
	cmpq	%rcx, %rax
	movq	296(%rsp), %r12
	movq	64(%rsp), %r15
	je	.LBB1_789
.LBB1_668:
	movq	80(%rsp), %rdx
	movb	$10, (%rdx,%rcx)
	incq	%rcx
	movq	%rcx, 88(%rsp)
	movq	80(%rsp), %rcx
	movq	88(%rsp), %rdx
	movq	%rax, 48(%rsp)
	movq	%rcx, 32(%rsp)
	movq	%rdx, 40(%rsp)
	xorl	%eax, %eax
.LBB1_669:
	movq	288(%rsp), %rdi
.LBB1_670:
	movq	416(%rsp), %rbx
	movq	304(%rsp), %r8
	jmp	.LBB1_828
.LBB1_671:
	movq	%rbp, %rsi
	movq	%rbx, %rdx
	callq	memcpy@PLT
.LBB1_672:
	addq	%rbx, %r15
	movq	%r15, 200(%rsp)
	movq	%r12, 208(%rsp)
	movq	296(%rsp), %r12
	movq	64(%rsp), %r15
.LBB1_673:
	movl	$32, 216(%rsp)
	leaq	220(%rsp), %rax
	movl	$0, 8(%rax)
	movq	$0, (%rax)
	movq	$-1, 232(%rsp)
	cmpq	$0, 240(%rsp)
	jne	.LBB1_791
	movq	200(%rsp), %rcx
	movq	208(%rsp), %rax
	cmpq	%rcx, %rax
	leaq	96(%rsp), %rbp
	je	.LBB1_792
.LBB1_675:
	movq	192(%rsp), %rdx
	movb	$10, (%rdx,%rcx)
	incq	%rcx
	movq	%rcx, 200(%rsp)
	movq	192(%rsp), %rcx
	movq	200(%rsp), %rdx
	movq	%rax, 48(%rsp)
	movq	%rcx, 32(%rsp)
	movq	%rdx, 40(%rsp)
.LBB1_676:
	xorl	%eax, %eax
	movq	288(%rsp), %rdi
.LBB1_677:
	movq	%r13, %rbx
	movq	304(%rsp), %r8
	jmp	.LBB1_828
.LBB1_678:
	movl	$32, 104(%rsp)
	movl	$0, 20(%rbp)
	movq	$0, 12(%rbp)
	movq	$-1, 120(%rsp)
	cmpq	$0, 128(%rsp)
	jne	.LBB1_806
	movq	88(%rsp), %rcx
	movq	96(%rsp), %rax
	cmpq	%rcx, %rax
	je	.LBB1_807
.LBB1_680:
	movq	80(%rsp), %rdx
	movb	$10, (%rdx,%rcx)
	incq	%rcx
	movq	%rcx, 88(%rsp)
	movq	80(%rsp), %rcx
	movq	88(%rsp), %rdx
	movq	%rax, 48(%rsp)
	movq	%rcx, 32(%rsp)
	movq	%rdx, 40(%rsp)
.LBB1_681:
	xorl	%eax, %eax
	movq	288(%rsp), %rdi
	movq	%r14, %r8
	movq	416(%rsp), %rbx
	jmp	.LBB1_828
.LBB1_682:
	leaq	192(%rsp), %rdi
	movl	$4, %esi
	callq	"std_alloc::vec::Vec::grow_amortized::<#c9fd60d064fcd5bb>"
	testb	%al, %al
	je	.LBB1_819
	movq	200(%rsp), %rax
	movq	208(%rsp), %rcx
	jmp	.LBB1_421
.LBB1_684:
	leaq	32(%rsp), %rdi
	movl	$18, %esi
	callq	"std_alloc::vec::Vec::grow_amortized::<#c9fd60d064fcd5bb>"
	testb	%al, %al
	je	.LBB1_829
	movq	40(%rsp), %rax
	movq	48(%rsp), %rcx
	jmp	.LBB1_435
.LBB1_686:
	movq	%rsi, %r12
	leaq	32(%rsp), %rdi
	movq	%rbx, %rsi
	callq	"std_alloc::vec::Vec::grow_amortized::<#c9fd60d064fcd5bb>"
	movl	%eax, %ecx
	movb	$1, %al
	testb	%cl, %cl
	movq	288(%rsp), %rdi
	je	.LBB1_638
	movq	40(%rsp), %r15
	movq	48(%rsp), %r9
	movq	%r12, %rsi
	leaq	.Lstatic.69(%rip), %rdx
	leaq	.Lstatic.28(%rip), %r8
	jmp	.LBB1_438
.LBB1_688:
	leaq	192(%rsp), %rdi
	movl	$7, %esi
	callq	"std_alloc::vec::Vec::grow_amortized::<#c9fd60d064fcd5bb>"
	testb	%al, %al
	je	.LBB1_1508
	movq	200(%rsp), %rbx
	movq	208(%rsp), %r14
	jmp	.LBB1_442
.LBB1_690:
	movq	%r8, %r13
	leaq	32(%rsp), %rdi
	movl	$5, %esi
	callq	"std_alloc::vec::Vec::grow_amortized::<#c9fd60d064fcd5bb>"
	testb	%al, %al
	je	.LBB1_829
	movq	40(%rsp), %r14
	movq	48(%rsp), %rax
	movq	%r13, %r8
	jmp	.LBB1_445
.LBB1_692:
	movq	%rsi, %rbp
	leaq	80(%rsp), %rdi
	movl	$8, %esi
	callq	"std_alloc::vec::Vec::grow_amortized::<#c9fd60d064fcd5bb>"
	testb	%al, %al
	je	.LBB1_1536
	movq	88(%rsp), %r15
	movq	96(%rsp), %r12
	movq	%rbp, %rsi
	leaq	96(%rsp), %rbp
	jmp	.LBB1_468
.LBB1_694:
	leaq	32(%rsp), %rdi
	movl	$3, %esi
	callq	"std_alloc::vec::Vec::grow_amortized::<#c9fd60d064fcd5bb>"
	testb	%al, %al
	je	.LBB1_829
	movq	40(%rsp), %rax
	movq	48(%rsp), %rcx
	jmp	.LBB1_481
.LBB1_696:
	movb	%dl, 432(%rsp)
	movq	%rsi, %rbp
	leaq	80(%rsp), %rdi
	movq	%rbx, %rsi
	callq	"std_alloc::vec::Vec::grow_amortized::<#c9fd60d064fcd5bb>"
	testb	%al, %al
	je	.LBB1_1536
	movq	88(%rsp), %r15
	movq	96(%rsp), %r12
	movq	%rbp, %rsi
	movzbl	432(%rsp), %edx
	leaq	.Lstatic.65(%rip), %r8
	jmp	.LBB1_491
.LBB1_1535:
	leaq	80(%rsp), %rdi
	movq	%rbx, %rdx
	callq	"core::fmt::formatter::Formatter::write_indented::<#dff84d7e35224229>"
	testb	%al, %al
	je	.LBB1_570
	jmp	.LBB1_1536
.LBB1_698:
	leaq	.Lstatic.36(%rip), %rsi
	leaq	80(%rsp), %rdi
	movl	$1, %edx
	callq	"core::fmt::formatter::Formatter::write_indented::<#dff84d7e35224229>"
	movq	96(%rsp), %rcx
	movq	%rcx, 208(%rsp)
	movaps	80(%rsp), %xmm0
	movaps	%xmm0, 32(%rsp)
	movq	%rcx, 48(%rsp)
	testb	%al, %al
	movq	416(%rsp), %rbx
	movq	296(%rsp), %r12
	movq	64(%rsp), %r15
	movq	304(%rsp), %r8
	je	.LBB1_550
	jmp	.LBB1_1509
.LBB1_699:
	leaq	.Lstatic.36(%rip), %rsi
	leaq	80(%rsp), %rdi
	movl	$1, %edx
	callq	"core::fmt::formatter::Formatter::write_indented::<#dff84d7e35224229>"
	movq	96(%rsp), %rcx
	movq	%rcx, 208(%rsp)
	movaps	80(%rsp), %xmm0
	movaps	%xmm0, 32(%rsp)
	movq	%rcx, 48(%rsp)
	testb	%al, %al
	movq	296(%rsp), %r12
	movq	64(%rsp), %r15
	je	.LBB1_701
	jmp	.LBB1_1509
.LBB1_700:
	leaq	.Lstatic.36(%rip), %rsi
	leaq	192(%rsp), %rdi
	movl	$1, %edx
	callq	"core::fmt::formatter::Formatter::write_indented::<#dff84d7e35224229>"
	movq	208(%rsp), %rcx
	movq	%rcx, 336(%rsp)
	movaps	192(%rsp), %xmm0
	movaps	%xmm0, 32(%rsp)
	movq	%rcx, 48(%rsp)
	testb	%al, %al
	jne	.LBB1_1509
.LBB1_701:
	movq	%r13, %rbx
	jmp	.LBB1_596
.LBB1_702:
	movq	%rsi, %rbp
	leaq	80(%rsp), %rdi
	movq	%rbx, %rsi
	callq	"std_alloc::vec::Vec::grow_amortized::<#c9fd60d064fcd5bb>"
	testb	%al, %al
	je	.LBB1_1536
	movq	80(%rsp), %rax
	movq	88(%rsp), %r15
	movq	96(%rsp), %r12
	movq	%rbp, %rsi
	jmp	.LBB1_470
.LBB1_704:
	leaq	80(%rsp), %rdi
	movl	$1, %esi
	callq	"std_alloc::vec::Vec::grow_amortized::<#c9fd60d064fcd5bb>"
	testb	%al, %al
	je	.LBB1_1536
	movq	88(%rsp), %rcx
	movq	96(%rsp), %rax
	movq	416(%rsp), %rbx
	movq	296(%rsp), %r12
	movq	64(%rsp), %r15
	leaq	96(%rsp), %rbp
	movq	304(%rsp), %r8
	jmp	.LBB1_549
.LBB1_706:
	leaq	80(%rsp), %rdi
	movl	$1, %esi
	callq	"std_alloc::vec::Vec::grow_amortized::<#c9fd60d064fcd5bb>"
	testb	%al, %al
	je	.LBB1_1536
	movq	88(%rsp), %rcx
	movq	96(%rsp), %rax
	movq	%r13, %rbx
	movq	296(%rsp), %r12
	movq	64(%rsp), %r15
	leaq	96(%rsp), %rbp
	jmp	.LBB1_572
.LBB1_708:
	leaq	192(%rsp), %rdi
	movl	$1, %esi
	callq	"std_alloc::vec::Vec::grow_amortized::<#c9fd60d064fcd5bb>"
	testb	%al, %al
	je	.LBB1_1508
	movq	200(%rsp), %rcx
	movq	208(%rsp), %rax
	movq	%r13, %rbx
	jmp	.LBB1_594
.LBB1_710:
	xorl	%ebx, %ebx
	jmp	.LBB1_591
.LBB1_711:
	leaq	80(%rsp), %rdi
	movl	$1, %esi
	callq	"std_alloc::vec::Vec::grow_amortized::<#c9fd60d064fcd5bb>"
	testb	%al, %al
	je	.LBB1_754
	movq	88(%rsp), %rcx
	movq	96(%rsp), %rax
	jmp	.LBB1_563
.LBB1_713:
	movq	%rsi, 312(%rsp)
	movq	%r8, %r13
	leaq	80(%rsp), %rdi
	movl	$3, %esi
	callq	"std_alloc::vec::Vec::grow_amortized::<#c9fd60d064fcd5bb>"
	testb	%al, %al
	je	.LBB1_1567
	movq	88(%rsp), %rcx
	movq	96(%rsp), %rax
	movq	%r13, %r8
	jmp	.LBB1_453
.LBB1_715:
	movq	%rsi, 312(%rsp)
	movq	%r8, %r13
	leaq	80(%rsp), %rdi
	movl	$19, %esi
	callq	"std_alloc::vec::Vec::grow_amortized::<#c9fd60d064fcd5bb>"
	testb	%al, %al
	je	.LBB1_1567
	movq	88(%rsp), %rcx
	movq	96(%rsp), %rax
	movq	%r13, %r8
	jmp	.LBB1_495
.LBB1_717:
	leaq	192(%rsp), %rdi
	movl	$8, %esi
	callq	"std_alloc::vec::Vec::grow_amortized::<#c9fd60d064fcd5bb>"
	testb	%al, %al
	je	.LBB1_458
	movq	200(%rsp), %rax
	movq	208(%rsp), %rcx
	jmp	.LBB1_457
.LBB1_719:
	leaq	80(%rsp), %rdi
	movl	$5, %esi
	callq	"std_alloc::vec::Vec::grow_amortized::<#c9fd60d064fcd5bb>"
	testb	%al, %al
	je	.LBB1_759
	movq	88(%rsp), %rcx
	movq	96(%rsp), %rax
	jmp	.LBB1_498
.LBB1_721:
	movq	%rsi, %rbp
	leaq	80(%rsp), %rdi
	movq	%rbx, %rsi
	callq	"std_alloc::vec::Vec::grow_amortized::<#c9fd60d064fcd5bb>"
	testb	%al, %al
	je	.LBB1_609
	movq	88(%rsp), %r15
	movq	96(%rsp), %r12
	movq	%rbp, %rsi
	jmp	.LBB1_477
.LBB1_723:
	leaq	80(%rsp), %rdi
	movl	$5, %esi
	callq	"std_alloc::vec::Vec::grow_amortized::<#c9fd60d064fcd5bb>"
	testb	%al, %al
	je	.LBB1_764
	movq	88(%rsp), %rcx
	movq	96(%rsp), %rax
	jmp	.LBB1_501
.LBB1_725:
	movq	%r8, %r14
	leaq	80(%rsp), %rdi
	movl	$11, %esi
	callq	"std_alloc::vec::Vec::grow_amortized::<#c9fd60d064fcd5bb>"
	testb	%al, %al
	je	.LBB1_623
	movq	88(%rsp), %rax
	movq	96(%rsp), %rcx
	movq	%r14, %r8
	jmp	.LBB1_488
.LBB1_727:
	movq	%r8, %r13
	leaq	80(%rsp), %rdi
	movl	$5, %esi
	callq	"std_alloc::vec::Vec::grow_amortized::<#c9fd60d064fcd5bb>"
	testb	%al, %al
	je	.LBB1_769
	movq	88(%rsp), %rcx
	movq	96(%rsp), %rax
	movq	%r13, %r8
	jmp	.LBB1_504
.LBB1_729:
	leaq	192(%rsp), %rdi
	callq	"core::fmt::formatter::Formatter::write_indented::<#dff84d7e35224229>"
	movl	%eax, %ebx
	jmp	.LBB1_590
.LBB1_1537:
	leaq	.Lstatic.63(%rip), %rsi
	leaq	80(%rsp), %rdi
	movl	$9, %edx
	callq	"core::fmt::formatter::Formatter::write_indented::<#dff84d7e35224229>"
	testb	%al, %al
	je	.LBB1_547
	jmp	.LBB1_1536
.LBB1_730:
	leaq	.Lstatic.47(%rip), %rsi
	leaq	80(%rsp), %rdi
	movl	$1, %edx
	callq	"core::fmt::formatter::Formatter::write_indented::<#dff84d7e35224229>"
	testb	%al, %al
	jne	.LBB1_609
	jmp	.LBB1_608
.LBB1_731:
	movq	%rsi, %r15
	leaq	192(%rsp), %rdi
	movq	%rdx, %r12
	movq	%rdx, %rsi
	callq	"std_alloc::vec::Vec::grow_amortized::<#c9fd60d064fcd5bb>"
	movb	$1, %bl
	testb	%al, %al
	je	.LBB1_590
	movq	192(%rsp), %rdi
	movq	200(%rsp), %rbx
	movq	208(%rsp), %r14
	movq	%r15, %rsi
	movq	%r12, %rdx
	jmp	.LBB1_589
.LBB1_733:
	leaq	80(%rsp), %rdi
	movl	$9, %esi
	callq	"std_alloc::vec::Vec::grow_amortized::<#c9fd60d064fcd5bb>"
	testb	%al, %al
	je	.LBB1_1536
	movq	80(%rsp), %rbp
	movq	88(%rsp), %r15
	movq	96(%rsp), %r12
	jmp	.LBB1_546
.LBB1_735:
	leaq	80(%rsp), %rdi
	movl	$1, %esi
	callq	"std_alloc::vec::Vec::grow_amortized::<#c9fd60d064fcd5bb>"
	testb	%al, %al
	je	.LBB1_609
	movq	80(%rsp), %rbp
	movq	88(%rsp), %r15
	movq	96(%rsp), %r12
	jmp	.LBB1_607
.LBB1_818:
	leaq	.Lstatic.73(%rip), %rsi
	leaq	192(%rsp), %rdi
	movl	$10, %edx
	callq	"core::fmt::formatter::Formatter::write_indented::<#dff84d7e35224229>"
	testb	%al, %al
	jne	.LBB1_819
	jmp	.LBB1_425
.LBB1_737:
	movb	$32, 4(%rsi)
	movl	$2019650848, (%rsi)
.LBB1_738:
	addq	$5, %rax
	movq	%rdx, 192(%rsp)
	movq	%rax, 200(%rsp)
	movq	%rcx, 208(%rsp)
.LBB1_739:
	cmpb	$1, 512(%rsp)
	jne	.LBB1_741
	movq	520(%rsp), %rax
	movq	%rax, 560(%rsp)
	leaq	560(%rsp), %rax
	movq	%rax, 688(%rsp)
	movl	$32, 216(%rsp)
	leaq	220(%rsp), %rax
	movl	$0, 8(%rax)
	movq	$0, (%rax)
	movq	$-1, 232(%rsp)
	leaq	192(%rsp), %rdi
	leaq	688(%rsp), %rsi
	callq	"core::fmt::formatter::Formatter::write_piece::<#3f49d50be5e66dfd>"
	testb	%al, %al
	jne	.LBB1_819
	jmp	.LBB1_744
.LBB1_741:
	movl	$32, 216(%rsp)
	leaq	220(%rsp), %rax
	movl	$0, 8(%rax)
	movq	$0, (%rax)
	movq	$-1, 232(%rsp)
	cmpq	$0, 240(%rsp)
	jne	.LBB1_815
	movq	200(%rsp), %rax
	movq	208(%rsp), %rcx
	movq	%rcx, %rdx
	subq	%rax, %rdx
	cmpq	$3, %rdx
	jbe	.LBB1_816
.LBB1_743:
	movq	192(%rsp), %rdx
	movl	$1701736302, (%rdx,%rax)
	addq	$4, %rax
	movq	%rdx, 192(%rsp)
	movq	%rax, 200(%rsp)
	movq	%rcx, 208(%rsp)
.LBB1_744:
	movl	$32, 216(%rsp)
	leaq	220(%rsp), %rax
	movl	$0, 8(%rax)
	movq	$0, (%rax)
	movq	$-1, 232(%rsp)
	cmpq	$0, 240(%rsp)
	jne	.LBB1_812
	movq	200(%rsp), %rcx
	movq	208(%rsp), %rax
	cmpq	%rcx, %rax
	movq	64(%rsp), %r15
	leaq	96(%rsp), %rbp
	je	.LBB1_813
.LBB1_746:
	movq	192(%rsp), %rdx
	movb	$10, (%rdx,%rcx)
	incq	%rcx
	movq	%rdx, 192(%rsp)
	movq	%rcx, 200(%rsp)
	movq	192(%rsp), %rcx
	movq	200(%rsp), %rdx
	movq	%rax, 48(%rsp)
	movq	%rcx, 32(%rsp)
	movq	%rdx, 40(%rsp)
.LBB1_747:
	xorl	%eax, %eax
	movq	%r12, %rdi
	movq	%r13, %r8
	jmp	.LBB1_827
.LBB1_748:
	leaq	192(%rsp), %rdi
	movl	$10, %esi
	callq	"std_alloc::vec::Vec::grow_amortized::<#c9fd60d064fcd5bb>"
	testb	%al, %al
	je	.LBB1_819
	movq	200(%rsp), %rax
	movq	208(%rsp), %rcx
	jmp	.LBB1_424
.LBB1_750:
	movq	%r8, %r13
	movq	%rdi, 288(%rsp)
	leaq	80(%rsp), %rdi
	movl	$8, %esi
	callq	"std_alloc::vec::Vec::grow_amortized::<#c9fd60d064fcd5bb>"
	testb	%al, %al
	je	.LBB1_1571
	movq	88(%rsp), %rcx
	movq	96(%rsp), %rax
	movq	288(%rsp), %rdi
	movq	%r13, %r8
	jmp	.LBB1_576
.LBB1_752:
	movq	%r8, %r13
	movq	%rdi, 288(%rsp)
	leaq	80(%rsp), %rdi
	movl	$8, %esi
	callq	"std_alloc::vec::Vec::grow_amortized::<#c9fd60d064fcd5bb>"
	testb	%al, %al
	je	.LBB1_782
	movq	88(%rsp), %rcx
	movq	96(%rsp), %rax
	movq	288(%rsp), %rdi
	movq	%r13, %r8
	jmp	.LBB1_578
.LBB1_754:
	movq	96(%rsp), %rax
	movaps	80(%rsp), %xmm0
	movaps	%xmm0, 32(%rsp)
	movq	%rax, 48(%rsp)
	movq	40(%rsp), %rcx
	testq	%r15, %r15
	movq	288(%rsp), %rdi
	je	.LBB1_794
	cmpq	%rcx, %r15
	je	.LBB1_794
	movb	$1, %al
	cmpq	%r15, %rcx
	jb	.LBB1_638
	jbe	.LBB1_638
	movq	32(%rsp), %rcx
	cmpb	$-65, (%rcx,%r15)
	jg	.LBB1_795
	jmp	.LBB1_638
.LBB1_759:
	movq	96(%rsp), %rax
	movaps	80(%rsp), %xmm0
	movaps	%xmm0, 32(%rsp)
	movq	%rax, 48(%rsp)
	movq	40(%rsp), %rcx
	testq	%rbx, %rbx
	je	.LBB1_797
	cmpq	%rcx, %rbx
	je	.LBB1_797
	movb	$1, %al
	cmpq	%rbx, %rcx
	movq	%r14, %rdi
	jb	.LBB1_677
	jbe	.LBB1_677
	movq	32(%rsp), %rcx
	cmpb	$-65, (%rcx,%rbx)
	jg	.LBB1_798
	jmp	.LBB1_677
.LBB1_764:
	movq	96(%rsp), %rax
	movaps	80(%rsp), %xmm0
	movaps	%xmm0, 32(%rsp)
	movq	%rax, 48(%rsp)
	movq	40(%rsp), %rcx
	testq	%rbx, %rbx
	je	.LBB1_799
	cmpq	%rcx, %rbx
	je	.LBB1_799
	movb	$1, %al
	cmpq	%rbx, %rcx
	movq	%r14, %rdi
	jb	.LBB1_670
	jbe	.LBB1_670
	movq	32(%rsp), %rcx
	cmpb	$-65, (%rcx,%rbx)
	jg	.LBB1_800
	jmp	.LBB1_670
.LBB1_769:
	movq	96(%rsp), %rax
	movaps	80(%rsp), %xmm0
	movaps	%xmm0, 32(%rsp)
	movq	%rax, 48(%rsp)
	movq	40(%rsp), %rcx
	testq	%rbx, %rbx
	movq	%r13, %r8
	je	.LBB1_801
	cmpq	%rcx, %rbx
	je	.LBB1_801
	movb	$1, %al
	cmpq	%rbx, %rcx
	movq	%r14, %rdi
	jae	.LBB1_627
	jmp	.LBB1_641
.LBB1_772:
	leaq	192(%rsp), %rdi
	movq	%rbp, %rdx
	callq	"core::fmt::formatter::Formatter::write_indented::<#dff84d7e35224229>"
	jmp	.LBB1_647
.LBB1_773:
	leaq	.Lstatic.47(%rip), %rsi
	leaq	192(%rsp), %rdi
	movl	$1, %edx
	callq	"core::fmt::formatter::Formatter::write_indented::<#dff84d7e35224229>"
	testb	%al, %al
	jne	.LBB1_458
	jmp	.LBB1_653
.LBB1_774:
	leaq	.Lstatic.47(%rip), %rsi
	leaq	80(%rsp), %rdi
	movl	$1, %edx
	callq	"core::fmt::formatter::Formatter::write_indented::<#dff84d7e35224229>"
	testb	%al, %al
	jne	.LBB1_623
	jmp	.LBB1_622
.LBB1_775:
	leaq	192(%rsp), %rdi
	movl	$1, %esi
	callq	"std_alloc::vec::Vec::grow_amortized::<#c9fd60d064fcd5bb>"
	testb	%al, %al
	je	.LBB1_458
	movq	200(%rsp), %rax
	movq	208(%rsp), %rcx
	jmp	.LBB1_652
.LBB1_777:
	leaq	80(%rsp), %rdi
	movl	$1, %esi
	callq	"std_alloc::vec::Vec::grow_amortized::<#c9fd60d064fcd5bb>"
	testb	%al, %al
	je	.LBB1_623
	movq	88(%rsp), %rax
	movq	96(%rsp), %rcx
	jmp	.LBB1_621
.LBB1_779:
	leaq	192(%rsp), %rdi
	movq	%rbp, %rsi
	movq	%rbx, %rdx
	callq	"core::fmt::formatter::Formatter::write_indented::<#dff84d7e35224229>"
	testb	%al, %al
	jne	.LBB1_458
	jmp	.LBB1_673
.LBB1_780:
	leaq	.Lstatic.36(%rip), %rsi
	leaq	80(%rsp), %rdi
	movl	$1, %edx
	callq	"core::fmt::formatter::Formatter::write_indented::<#dff84d7e35224229>"
	movq	96(%rsp), %rcx
	movq	%rcx, 336(%rsp)
	movaps	80(%rsp), %xmm0
	movaps	%xmm0, 32(%rsp)
	movq	%rcx, 48(%rsp)
	testb	%al, %al
	movq	296(%rsp), %r12
	movq	64(%rsp), %r15
	jne	.LBB1_610
	xorl	%eax, %eax
	leaq	96(%rsp), %rbp
	jmp	.LBB1_669
.LBB1_782:
	movq	96(%rsp), %rax
	movaps	80(%rsp), %xmm0
	movaps	%xmm0, 32(%rsp)
	movq	%rax, 48(%rsp)
	movq	40(%rsp), %rcx
	testq	%r14, %r14
	movq	288(%rsp), %rdi
	movq	%r13, %r8
	je	.LBB1_804
	cmpq	%rcx, %r14
	je	.LBB1_804
	movb	$1, %al
	cmpq	%r14, %rcx
	jb	.LBB1_828
	jbe	.LBB1_828
	movq	32(%rsp), %rcx
	cmpb	$-65, (%rcx,%r14)
	jg	.LBB1_805
	jmp	.LBB1_828
.LBB1_787:
	leaq	192(%rsp), %rdi
	movq	%rbx, %rsi
	callq	"std_alloc::vec::Vec::grow_amortized::<#c9fd60d064fcd5bb>"
	testb	%al, %al
	movq	296(%rsp), %r12
	movq	64(%rsp), %r15
	je	.LBB1_458
	movq	200(%rsp), %r15
	movq	208(%rsp), %r12
	jmp	.LBB1_655
.LBB1_789:
	leaq	80(%rsp), %rdi
	movl	$1, %esi
	callq	"std_alloc::vec::Vec::grow_amortized::<#c9fd60d064fcd5bb>"
	testb	%al, %al
	je	.LBB1_609
	movq	88(%rsp), %rcx
	movq	96(%rsp), %rax
	movq	296(%rsp), %r12
	movq	64(%rsp), %r15
	leaq	96(%rsp), %rbp
	jmp	.LBB1_668
.LBB1_791:
	leaq	.Lstatic.36(%rip), %rsi
	leaq	192(%rsp), %rdi
	movl	$1, %edx
	callq	"core::fmt::formatter::Formatter::write_indented::<#dff84d7e35224229>"
	movq	208(%rsp), %rcx
	movq	%rcx, 336(%rsp)
	movaps	192(%rsp), %xmm0
	movaps	%xmm0, 32(%rsp)
	movq	%rcx, 48(%rsp)
	testb	%al, %al
	leaq	96(%rsp), %rbp
	jne	.LBB1_459
	jmp	.LBB1_676
.LBB1_792:
	leaq	192(%rsp), %rdi
	movl	$1, %esi
	callq	"std_alloc::vec::Vec::grow_amortized::<#c9fd60d064fcd5bb>"
	testb	%al, %al
	je	.LBB1_458
	movq	200(%rsp), %rcx
	movq	208(%rsp), %rax
	leaq	96(%rsp), %rbp
	jmp	.LBB1_675
.LBB1_794:
	movb	$1, %al
	cmpq	%r15, %rcx
	jbe	.LBB1_638
.LBB1_795:
	movq	%r15, 40(%rsp)
	jmp	.LBB1_644
.LBB1_796:
	leaq	.Lstatic.74(%rip), %rsi
	leaq	192(%rsp), %rdi
	movl	$12, %edx
	callq	"core::fmt::formatter::Formatter::write_indented::<#dff84d7e35224229>"
	testb	%al, %al
	jne	.LBB1_819
	jmp	.LBB1_429
.LBB1_797:
	movb	$1, %al
	cmpq	%rbx, %rcx
	movq	%r14, %rdi
	jbe	.LBB1_677
.LBB1_798:
	movq	%rbx, 40(%rsp)
	jmp	.LBB1_662
.LBB1_799:
	movb	$1, %al
	cmpq	%rbx, %rcx
	movq	%r14, %rdi
	jbe	.LBB1_670
.LBB1_800:
	movq	%rbx, 40(%rsp)
	jmp	.LBB1_665
.LBB1_801:
	movb	$1, %al
	cmpq	%rbx, %rcx
	movq	%r14, %rdi
	ja	.LBB1_640
	jmp	.LBB1_641
.LBB1_802:
	leaq	192(%rsp), %rdi
	movl	$12, %esi
	callq	"std_alloc::vec::Vec::grow_amortized::<#c9fd60d064fcd5bb>"
	testb	%al, %al
	je	.LBB1_819
	movq	200(%rsp), %rax
	movq	208(%rsp), %rcx
	jmp	.LBB1_428
.LBB1_804:
	movb	$1, %al
	cmpq	%r14, %rcx
	jbe	.LBB1_828
.LBB1_805:
	movq	%r14, 40(%rsp)
	movb	$1, %al
	jmp	.LBB1_828
.LBB1_806:
	leaq	.Lstatic.36(%rip), %rsi
	leaq	80(%rsp), %rdi
	movl	$1, %edx
	callq	"core::fmt::formatter::Formatter::write_indented::<#dff84d7e35224229>"
	movq	96(%rsp), %rcx
	movq	%rcx, 208(%rsp)
	movaps	80(%rsp), %xmm0
	movaps	%xmm0, 32(%rsp)
	movq	%rcx, 48(%rsp)
	testb	%al, %al
	jne	.LBB1_624
	jmp	.LBB1_681
.LBB1_807:
	leaq	80(%rsp), %rdi
	movl	$1, %esi
	callq	"std_alloc::vec::Vec::grow_amortized::<#c9fd60d064fcd5bb>"
	testb	%al, %al
	je	.LBB1_623
	movq	88(%rsp), %rcx
	movq	96(%rsp), %rax
	jmp	.LBB1_680
.LBB1_809:
	leaq	.Lstatic.75(%rip), %rsi
	leaq	192(%rsp), %rdi
	movl	$5, %edx
	callq	"core::fmt::formatter::Formatter::write_indented::<#dff84d7e35224229>"
	testb	%al, %al
	jne	.LBB1_819
	jmp	.LBB1_739
.LBB1_810:
	leaq	192(%rsp), %rdi
	movl	$5, %esi
	callq	"std_alloc::vec::Vec::grow_amortized::<#c9fd60d064fcd5bb>"
	testb	%al, %al
	je	.LBB1_819
	movq	200(%rsp), %rax
	movq	208(%rsp), %rcx
	jmp	.LBB1_432
.LBB1_812:
	leaq	.Lstatic.36(%rip), %rsi
	leaq	192(%rsp), %rdi
	movl	$1, %edx
	callq	"core::fmt::formatter::Formatter::write_indented::<#dff84d7e35224229>"
	movq	208(%rsp), %rcx
	movq	%rcx, 336(%rsp)
	movq	%rcx, 640(%rsp)
	movq	%rcx, 48(%rsp)
	movaps	192(%rsp), %xmm0
	movaps	%xmm0, 32(%rsp)
	testb	%al, %al
	movq	64(%rsp), %r15
	leaq	96(%rsp), %rbp
	jne	.LBB1_820
	jmp	.LBB1_747
.LBB1_813:
	leaq	192(%rsp), %rdi
	movl	$1, %esi
	callq	"std_alloc::vec::Vec::grow_amortized::<#c9fd60d064fcd5bb>"
	testb	%al, %al
	je	.LBB1_819
	movq	200(%rsp), %rcx
	movq	208(%rsp), %rax
	movq	64(%rsp), %r15
	leaq	96(%rsp), %rbp
	jmp	.LBB1_746
.LBB1_815:
	leaq	.Lstatic.76(%rip), %rsi
	leaq	192(%rsp), %rdi
	movl	$4, %edx
	callq	"core::fmt::formatter::Formatter::write_indented::<#dff84d7e35224229>"
	testb	%al, %al
	jne	.LBB1_819
	jmp	.LBB1_744
.LBB1_816:
	leaq	192(%rsp), %rdi
	movl	$4, %esi
	callq	"std_alloc::vec::Vec::grow_amortized::<#c9fd60d064fcd5bb>"
	testb	%al, %al
	je	.LBB1_819
	movq	200(%rsp), %rax
	movq	208(%rsp), %rcx
	jmp	.LBB1_743
.LBB1_819:
	movq	208(%rsp), %rax
	movaps	192(%rsp), %xmm0
	movaps	%xmm0, 32(%rsp)
	movq	%rax, 48(%rsp)
	movq	64(%rsp), %r15
	leaq	96(%rsp), %rbp
.LBB1_820:
	movq	40(%rsp), %rcx
	testq	%rbx, %rbx
	movq	%r12, %rdi
	movq	%r13, %r8
	je	.LBB1_825
	cmpq	%rcx, %rbx
	je	.LBB1_825
	movb	$1, %al
	cmpq	%rbx, %rcx
	jb	.LBB1_827
	jbe	.LBB1_827
	movq	32(%rsp), %rcx
	cmpb	$-65, (%rcx,%rbx)
	jg	.LBB1_826
	jmp	.LBB1_827
.LBB1_825:
	movb	$1, %al
	cmpq	%rbx, %rcx
	jbe	.LBB1_827
.LBB1_826:
	movq	%rbx, 40(%rsp)
	movb	$1, %al
.LBB1_827:
	movq	416(%rsp), %rbx
	movq	296(%rsp), %r12
	jmp	.LBB1_828
.LBB1_837:
	movq	32(%rsp), %rbx
	movq	40(%rsp), %r15
	movq	48(%rsp), %r14
	cmpb	$0, 744(%rsp)
	je	.LBB1_1524
	movq	%rbx, 80(%rsp)
	movq	%r15, 88(%rsp)
	movq	%r14, 96(%rsp)
	xorps	%xmm0, %xmm0
	movups	%xmm0, 128(%rsp)
	movq	72(%rsp), %rax
	movq	%rax, 320(%rsp)
	movq	24(%rsp), %rax
	movb	%al, 624(%rsp)
	leaq	.Lstatic.77(%rip), %r13
	movq	%r13, 192(%rsp)
	movq	$5, 200(%rsp)
	leaq	320(%rsp), %rax
	movq	%rax, 208(%rsp)
	leaq	.Lstatic.78(%rip), %r12
	movq	%r12, 216(%rsp)
	movq	$2, 224(%rsp)
	leaq	624(%rsp), %rax
	movq	%rax, 232(%rsp)
	movl	$32, 104(%rsp)
	movq	$0, 108(%rsp)
	movl	$0, 116(%rsp)
	movq	$-1, 120(%rsp)
	movq	%r14, %rax
	subq	%r15, %rax
	cmpq	$4, %rax
	jbe	.LBB1_1515
.LBB1_839:
	leaq	208(%rsp), %rsi
	addq	%r15, %rbx
	addq	$5, %r15
	movq	%rbx, %rax
	subq	%r13, %rax
	cmpq	$4, %rax
	ja	.LBB1_1466
	movl	$1701734764, (%rbx)
	movb	$32, 4(%rbx)
	jmp	.LBB1_1467
.LBB1_841:
	movq	200(%rsp), %rax
	movq	240(%rsp), %rcx
	movq	%rax, %rdx
	subq	224(%rsp), %rdx
	movzbl	248(%rsp), %esi
	movq	256(%rsp), %rdi
	movw	$16, 320(%rsp)
	movl	$0, 324(%rsp)
	movq	%rdx, 328(%rsp)
	movq	%rax, 336(%rsp)
	movq	%rcx, 344(%rsp)
	movq	%rsi, 352(%rsp)
	movq	%rdi, 360(%rsp)
.LBB1_842:
	movaps	%xmm0, 44(%r10)
	.p2align	4
.LBB1_843:
	movq	16(%rsp), %rdx
.LBB1_844:
	movzbl	320(%rsp), %ebx
	movzbl	321(%rsp), %ebp
	movzbl	324(%rsp), %r14d
	movups	4(%r10), %xmm0
	movups	20(%r10), %xmm1
	movups	36(%r10), %xmm2
	movaps	%xmm0, 624(%rsp)
	movaps	%xmm1, 640(%rsp)
	movq	52(%r10), %rax
	movq	%rax, 496(%rsp)
	movaps	%xmm2, 480(%rsp)
	movaps	%xmm1, 464(%rsp)
	movaps	%xmm0, 448(%rsp)
	movq	600(%rsp), %r15
	cmpq	%r15, 608(%rsp)
	je	.LBB1_849
.LBB1_845:
	incq	%rdx
	decq	%r11
	movq	592(%rsp), %r12
	movq	%r15, %rax
	shlq	$6, %rax
	movb	%bl, (%r12,%rax)
	movb	%bpl, 1(%r12,%rax)
	movl	%r14d, 4(%r12,%rax)
	movaps	448(%rsp), %xmm0
	movaps	464(%rsp), %xmm1
	movaps	480(%rsp), %xmm2
	movups	%xmm0, 8(%r12,%rax)
	movups	%xmm1, 24(%r12,%rax)
	movups	%xmm2, 40(%r12,%rax)
	movq	496(%rsp), %rcx
	movq	%rcx, 56(%r12,%rax)
	incq	%r15
	movq	%r15, 600(%rsp)
	testq	%r11, %r11
	je	.LBB1_407
.LBB1_846:
	movq	%rdx, 16(%rsp)
	leaq	(%rdx,%rdx,2), %rcx
	shlq	$4, %rcx
	movzbl	(%r13,%rcx), %esi
	movzbl	1(%r13,%rcx), %eax
	movl	4(%r13,%rcx), %ebx
	movq	8(%r13,%rcx), %r12
	movq	16(%r13,%rcx), %r15
	movq	24(%r13,%rcx), %rdx
	movq	32(%r13,%rcx), %r8
	movq	40(%r13,%rcx), %r9
	xorps	%xmm0, %xmm0
	movaps	%xmm0, 656(%rsp)
	movaps	%xmm0, 640(%rsp)
	movaps	%xmm0, 624(%rsp)
	movq	$0, 672(%rsp)
	movq	%r12, %rcx
	shrq	$32, %rcx
	movaps	%xmm0, 688(%rsp)
	movq	$0, 704(%rsp)
	movaps	%xmm0, 560(%rsp)
	movq	$0, 576(%rsp)
	movaps	%xmm0, 320(%rsp)
	movaps	%xmm0, 336(%rsp)
	movaps	%xmm0, 352(%rsp)
	movaps	%xmm0, 368(%rsp)
	leaq	.LJTI1_1(%rip), %rdi
	movslq	(%rdi,%rsi,4), %rsi
	addq	%rdi, %rsi
	jmpq	*%rsi
.LBB1_847:
	movq	%r11, 64(%rsp)
	movaps	%xmm0, 80(%rsp)
	movaps	%xmm0, 96(%rsp)
	movaps	%xmm0, 112(%rsp)
	movaps	%xmm0, 128(%rsp)
	movaps	%xmm0, 144(%rsp)
	movaps	%xmm0, 160(%rsp)
	movaps	%xmm0, 384(%rsp)
	movq	$0, 400(%rsp)
	movq	%r12, 32(%rsp)
	movq	%r15, 40(%rsp)
	movl	$1, 384(%rsp)
	leaq	32(%rsp), %rax
	movq	%rax, 392(%rsp)
	leaq	80(%rsp), %rdi
	leaq	192(%rsp), %rsi
	leaq	384(%rsp), %rcx
	movl	$1, %edx
	callq	"triple_ord::arena::SimpleOrdArena::prepare::<#304c980cfa2570bb>"
	cmpb	$0, 80(%rsp)
	je	.LBB1_1057
	movzbl	81(%rsp), %ecx
	xorl	%ebx, %ebx
	jmp	.LBB1_911
.LBB1_849:
	movq	%r11, %r15
	leaq	592(%rsp), %rdi
	callq	"std_alloc::vec::Vec::grow_amortized::<#55858a64f045b5a4>"
	testb	%al, %al
	je	.LBB1_1362
	movq	600(%rsp), %rax
	movq	%r15, %r11
	movq	%rax, %r15
	leaq	324(%rsp), %r10
	movq	16(%rsp), %rdx
	jmp	.LBB1_845
.LBB1_851:
	leaq	-1(%rbx), %rax
	cmpq	200(%rsp), %rax
	jae	.LBB1_853
	movq	192(%rsp), %r10
	imulq	$56, %rax, %rax
	cmpb	$0, (%r10,%rax)
	je	.LBB1_1130
.LBB1_853:
	movl	$0, 35(%rsp)
	movl	$0, 32(%rsp)
	cmpb	$1, 280(%rsp)
	jne	.LBB1_1054
	movq	%r11, 64(%rsp)
	movl	284(%rsp), %r10d
	movq	192(%rsp), %r9
	xorl	%edx, %edx
	xorl	%esi, %esi
	xorl	%eax, %eax
	xorl	%ecx, %ecx
	.p2align	4
.LBB1_855:
	movl	%r10d, %edi
	addq	$1, %rax
	adcq	$0, %rcx
	movl	%r10d, %r8d
	imulq	$56, %r8, %r10
	cmpb	$0, -56(%r9,%r10)
	jne	.LBB1_1362
	movq	-48(%r9,%r10), %r8
	movq	-32(%r9,%r10), %r11
	cmpq	%r11, %r15
	movl	-40(%r9,%r10), %ebx
	movl	-36(%r9,%r10), %ebp
	movl	%ebx, %r10d
	cmovgl	%ebp, %r10d
	je	.LBB1_1190
	orl	%ebx, %ebp
	movl	$0, 35(%rsp)
	movl	$0, 32(%rsp)
	je	.LBB1_1209
	movq	%rax, %rdx
	movq	%rcx, %rsi
	testl	%r10d, %r10d
	jne	.LBB1_855
	cmpq	%r11, %r15
	setge	%sil
	addb	%sil, %sil
	movl	$1, %r10d
	movq	64(%rsp), %r11
	jmp	.LBB1_1055
.LBB1_860:
	movl	%r12d, %eax
	decq	%rax
	cmpq	200(%rsp), %rax
	movq	%r11, 64(%rsp)
	jae	.LBB1_974
	movq	192(%rsp), %rdi
	imulq	$56, %rax, %rax
	cmpb	$0, (%rdi,%rax)
	jne	.LBB1_974
	cmpq	%r15, 8(%rdi,%rax)
	jne	.LBB1_974
	xorl	%esi, %esi
	testq	%rdx, %rdx
	je	.LBB1_1283
	movb	$1, %r10b
	xorl	%eax, %eax
	movq	%rdx, %r9
	xorl	%ecx, %ecx
.LBB1_865:
	addq	$1, %rax
	adcq	$0, %rcx
	movl	%r12d, %r11d
	imulq	$56, %r11, %r11
	cmpb	$0, -56(%rdi,%r11)
	jne	.LBB1_1362
	addq	%rdi, %r11
	movq	-32(%r11), %rbx
	cmpq	%rbx, %r8
	je	.LBB1_1284
	setl	%r14b
	setge	%bpl
	addb	%r14b, %r14b
	cmpb	%r14b, %r10b
	je	.LBB1_1284
	movzbl	%bpl, %r10d
	shll	$2, %r10d
	orq	$-8, %r10
	movl	(%r11,%r10), %r12d
	testl	%r12d, %r12d
	je	.LBB1_1284
	cmpq	%rbx, %r8
	setge	%r10b
	addb	%r10b, %r10b
	decq	%r9
	jne	.LBB1_865
	xorl	%ecx, %ecx
	movq	%rdx, %rax
	jmp	.LBB1_1284
.LBB1_871:
	movaps	%xmm0, 32(%rsp)
	movups	%xmm0, 47(%rsp)
	movaps	%xmm0, 80(%rsp)
	movaps	%xmm0, 96(%rsp)
	movaps	%xmm0, 112(%rsp)
	movups	%xmm0, 123(%rsp)
	movaps	%xmm0, 512(%rsp)
	movq	$0, 528(%rsp)
	movq	200(%rsp), %rax
	movq	%rax, %r15
	subq	224(%rsp), %r15
	cmpq	%r12, %r15
	cmovaeq	%r12, %r15
	testq	%r15, %r15
	je	.LBB1_1056
	movabsq	$288230376151711744, %rax
	cmpq	%rax, %r15
	jae	.LBB1_1052
	movq	%r15, %rdi
	shlq	$5, %rdi
	movl	$8, %esi
	movq	%r11, 64(%rsp)
	callq	rattle_alloc@PLT
	leaq	324(%rsp), %r10
	movq	64(%rsp), %r11
	testb	$1, %al
	je	.LBB1_1052
	movq	%rdx, %rbx
	movq	%rdx, 512(%rsp)
	movq	$0, 520(%rsp)
	movq	%r15, 528(%rsp)
	xorl	%r14d, %r14d
	jmp	.LBB1_1092
.LBB1_875:
	movzbl	%al, %esi
	andl	$1, %esi
	leaq	192(%rsp), %rbx
	movq	%rbx, %rdi
	movq	%r11, %r14
	callq	"chain_base::chain::ChainArena::compress::<#bdd88387dc76e1c4>"
	movl	%eax, %r12d
	movq	%rbx, %rdi
	leaq	280(%rsp), %rsi
	callq	"ord_tree::tree::rebuild::rebuild_over::<#0d42ca9d2c8e0a8d>"
	leaq	324(%rsp), %r10
	movq	%r14, %r11
	movb	$8, 320(%rsp)
	movb	%r12b, 321(%rsp)
	jmp	.LBB1_972
.LBB1_876:
	movl	%r12d, %eax
	leaq	-1(%rax), %rsi
	cmpq	200(%rsp), %rsi
	jae	.LBB1_981
	movq	192(%rsp), %rcx
	imulq	$56, %rsi, %rsi
	cmpb	$0, (%rcx,%rsi)
	jne	.LBB1_981
	cmpq	%r15, 8(%rcx,%rsi)
	jne	.LBB1_981
	imulq	$56, %rax, %rax
	cmpb	$0, -56(%rcx,%rax)
	jne	.LBB1_1362
	movups	-32(%rcx,%rax), %xmm0
	movq	%rdx, -32(%rcx,%rax)
	movq	%r8, -24(%rcx,%rax)
	movw	$5, 320(%rsp)
	movl	$0, 324(%rsp)
	movq	$1, 328(%rsp)
	movaps	%xmm0, 336(%rsp)
	jmp	.LBB1_1072
.LBB1_881:
	movq	%r11, 64(%rsp)
	movq	200(%rsp), %rbx
	movq	224(%rsp), %r14
	movzbl	%al, %esi
	andl	$1, %esi
	leaq	192(%rsp), %rdi
	callq	"chain_base::chain::ChainArena::compress::<#bdd88387dc76e1c4>"
	movb	%al, 304(%rsp)
	subq	%rbx, %r14
	movq	%r14, 432(%rsp)
	jne	.LBB1_990
.LBB1_882:
	leaq	192(%rsp), %rdi
	leaq	280(%rsp), %rsi
	callq	"ord_tree::tree::rebuild::rebuild_over::<#0d42ca9d2c8e0a8d>"
	movb	$8, 320(%rsp)
	movzbl	304(%rsp), %eax
	movb	%al, 321(%rsp)
	xorps	%xmm0, %xmm0
	leaq	324(%rsp), %r10
	movups	%xmm0, 44(%r10)
	movups	%xmm0, 32(%r10)
	movups	%xmm0, 16(%r10)
	movups	%xmm0, (%r10)
	movq	64(%rsp), %r11
	jmp	.LBB1_843
.LBB1_883:
	leaq	280(%rsp), %rax
	movups	%xmm0, -16(%rax)
	movq	$0, (%rax)
	movq	200(%rsp), %rax
	testq	%rax, %rax
	je	.LBB1_1078
	cmpq	$1, %rax
	jne	.LBB1_1074
	xorl	%ecx, %ecx
	jmp	.LBB1_1077
.LBB1_886:
	movups	%xmm0, 123(%rsp)
	movaps	%xmm0, 112(%rsp)
	movaps	%xmm0, 96(%rsp)
	movaps	%xmm0, 80(%rsp)
	movq	200(%rsp), %rbx
	subq	224(%rsp), %rbx
	jne	.LBB1_1030
	movq	%rsp, %rdx
	jmp	.LBB1_1032
.LBB1_888:
	movups	%xmm0, 123(%rsp)
	movaps	%xmm0, 112(%rsp)
	movaps	%xmm0, 96(%rsp)
	movaps	%xmm0, 80(%rsp)
	movq	200(%rsp), %rbx
	subq	224(%rsp), %rbx
	jne	.LBB1_1036
	movq	%rsp, %rdx
.LBB1_890:
	movq	%rdx, 32(%rsp)
	movq	$0, 40(%rsp)
	movq	%rbx, 48(%rsp)
	cmpb	$1, 264(%rsp)
	jne	.LBB1_893
	movl	268(%rsp), %ebx
	leaq	-1(%rbx), %rax
	cmpq	200(%rsp), %rax
	jae	.LBB1_893
	movq	192(%rsp), %rcx
	imulq	$56, %rax, %rax
	cmpb	$0, (%rcx,%rax)
	je	.LBB1_1240
.LBB1_893:
	movq	48(%rsp), %rax
	leaq	391(%rsp), %rcx
	movq	%rax, 16(%rcx)
	movq	32(%rsp), %rax
	movq	%rax, (%rcx)
	movq	40(%rsp), %rax
	movq	%rax, 8(%rcx)
	movq	16(%rcx), %rax
	leaq	83(%rsp), %rdx
	movq	%rax, 16(%rdx)
	movq	(%rcx), %rax
	movq	%rax, (%rdx)
	movq	8(%rcx), %rax
	movq	%rax, 8(%rdx)
	movb	$11, %cl
	xorl	%eax, %eax
	jmp	.LBB1_1039
.LBB1_894:
	movzbl	%r12b, %eax
	movl	%eax, 688(%rsp)
	movl	%ecx, 692(%rsp)
	movq	%r15, 696(%rsp)
	movq	%rdx, 704(%rsp)
	leaq	320(%rsp), %rdi
	leaq	192(%rsp), %rsi
	leaq	688(%rsp), %rcx
	movl	$1, %edx
	jmp	.LBB1_903
.LBB1_895:
	movl	$0, 35(%rsp)
	movl	$0, 32(%rsp)
	cmpb	$1, 280(%rsp)
	jne	.LBB1_1040
	movq	%r11, 64(%rsp)
	movl	284(%rsp), %r9d
	movq	192(%rsp), %rdi
	xorl	%r8d, %r8d
	xorl	%r10d, %r10d
	xorl	%eax, %eax
	xorl	%ecx, %ecx
	.p2align	4
.LBB1_897:
	movl	%r9d, %edx
	addq	$1, %rax
	adcq	$0, %rcx
	movl	%r9d, %esi
	imulq	$56, %rsi, %r9
	cmpb	$0, -56(%rdi,%r9)
	jne	.LBB1_1362
	movq	-48(%rdi,%r9), %rsi
	movq	-32(%rdi,%r9), %r11
	cmpq	%r11, %r12
	movl	-40(%rdi,%r9), %ebx
	movl	-36(%rdi,%r9), %ebp
	movl	%ebx, %r9d
	cmovgl	%ebp, %r9d
	je	.LBB1_1151
	orl	%ebx, %ebp
	movl	$0, 35(%rsp)
	movl	$0, 32(%rsp)
	je	.LBB1_1166
	movq	%rax, %r8
	movq	%rcx, %r10
	testl	%r9d, %r9d
	jne	.LBB1_897
	cmpq	%r11, %r12
	setge	%r8b
	addb	%r8b, %r8b
	movl	$1, %edi
	movq	64(%rsp), %r11
	jmp	.LBB1_1041
.LBB1_902:
	movzbl	%r12b, %eax
	movl	%eax, 560(%rsp)
	movl	%ecx, 564(%rsp)
	movq	%r15, 568(%rsp)
	movq	%rdx, 576(%rsp)
	leaq	320(%rsp), %rdi
	leaq	192(%rsp), %rsi
	leaq	560(%rsp), %rcx
	xorl	%edx, %edx
.LBB1_903:
	movq	%r11, %rbx
	callq	"ord_machine::steps::entry::<#304c980cfa2570bb>"
	leaq	324(%rsp), %r10
	movq	%rbx, %r11
	jmp	.LBB1_843
.LBB1_904:
	leaq	-1(%rbx), %rax
	movaps	%xmm0, 96(%rsp)
	movaps	%xmm0, 80(%rsp)
	cmpq	200(%rsp), %rax
	jae	.LBB1_906
	movq	192(%rsp), %rcx
	imulq	$56, %rax, %rax
	cmpb	$0, (%rcx,%rax)
	je	.LBB1_1139
.LBB1_906:
	movaps	%xmm0, 80(%rsp)
	xorl	%ebx, %ebx
	movl	$2, %ecx
	xorl	%eax, %eax
.LBB1_907:
	movq	16(%rsp), %rdx
.LBB1_908:
	movaps	80(%rsp), %xmm0
	movups	%xmm0, 28(%r10)
	movw	$6, 320(%rsp)
	movl	$0, 324(%rsp)
	movq	%rcx, 328(%rsp)
	movl	%ebx, 336(%rsp)
	movl	$0, 340(%rsp)
	movq	%rax, 344(%rsp)
	xorps	%xmm0, %xmm0
	movaps	%xmm0, 44(%r10)
	jmp	.LBB1_844
.LBB1_909:
	movq	%r11, 64(%rsp)
	movaps	%xmm0, 80(%rsp)
	movaps	%xmm0, 96(%rsp)
	movaps	%xmm0, 112(%rsp)
	movaps	%xmm0, 128(%rsp)
	movaps	%xmm0, 144(%rsp)
	movaps	%xmm0, 160(%rsp)
	movaps	%xmm0, 384(%rsp)
	movq	$0, 400(%rsp)
	movq	%r12, 32(%rsp)
	movq	%r15, 40(%rsp)
	movl	$1, 384(%rsp)
	leaq	32(%rsp), %rax
	movq	%rax, 392(%rsp)
	leaq	80(%rsp), %rdi
	leaq	192(%rsp), %rsi
	xorl	%ebx, %ebx
	leaq	384(%rsp), %rcx
	xorl	%edx, %edx
	callq	"triple_ord::arena::SimpleOrdArena::prepare::<#304c980cfa2570bb>"
	cmpb	$0, 80(%rsp)
	je	.LBB1_1064
	movzbl	81(%rsp), %ecx
.LBB1_911:
	movb	$1, %al
	xorl	%r12d, %r12d
	xorl	%r15d, %r15d
	movq	64(%rsp), %r11
	leaq	324(%rsp), %r10
	movq	16(%rsp), %rdx
	xorps	%xmm0, %xmm0
	jmp	.LBB1_1396
.LBB1_912:
	movzbl	280(%rsp), %eax
	cmpb	$1, %al
	jne	.LBB1_1042
	movl	284(%rsp), %ecx
	movq	192(%rsp), %rdx
	imulq	$56, %rcx, %rsi
	cmpb	$0, -56(%rdx,%rsi)
	jne	.LBB1_1362
	movq	-48(%rdx,%rsi), %rdx
	movl	$1, %esi
	jmp	.LBB1_1043
.LBB1_915:
	movl	%r12d, %eax
	decq	%rax
	cmpq	200(%rsp), %rax
	jae	.LBB1_1044
	movq	192(%rsp), %rcx
	imulq	$56, %rax, %rax
	cmpb	$0, (%rcx,%rax)
	movq	16(%rsp), %rdx
	jne	.LBB1_917
	cmpq	%r15, 8(%rcx,%rax)
	jne	.LBB1_917
	movups	24(%rcx,%rax), %xmm0
	movl	$1, %eax
	jmp	.LBB1_1045
.LBB1_918:
	movl	%r12d, %edi
	leaq	-1(%rdi), %rcx
	cmpq	200(%rsp), %rcx
	jae	.LBB1_982
	movq	192(%rsp), %rax
	imulq	$56, %rcx, %rcx
	cmpb	$0, (%rax,%rcx)
	jne	.LBB1_982
	cmpq	%r15, 8(%rax,%rcx)
	jne	.LBB1_982
	movzbl	280(%rsp), %ecx
	cmpb	$1, %cl
	je	.LBB1_1247
	imulq	$56, %rdi, %rbx
	xorl	%r15d, %r15d
	xorl	%r14d, %r14d
	jmp	.LBB1_1260
.LBB1_923:
	cmpb	$1, 264(%rsp)
	jne	.LBB1_952
	movl	268(%rsp), %eax
	leaq	-1(%rax), %rcx
	cmpq	200(%rsp), %rcx
	jb	.LBB1_951
	jmp	.LBB1_952
.LBB1_925:
	cmpb	$1, 280(%rsp)
	jne	.LBB1_1047
	movq	%r12, 432(%rsp)
	movl	284(%rsp), %r8d
	movq	192(%rsp), %rdi
	xorl	%r14d, %r14d
	xorl	%r15d, %r15d
	xorl	%eax, %eax
	xorl	%ecx, %ecx
	.p2align	4
.LBB1_927:
	addq	$1, %rax
	adcq	$0, %rcx
	movl	%r8d, %edx
	imulq	$56, %rdx, %rdx
	cmpb	$0, -56(%rdi,%rdx)
	jne	.LBB1_1362
	movq	%r11, %r12
	movq	432(%rsp), %rsi
	cmpq	-32(%rdi,%rdx), %rsi
	movl	-40(%rdi,%rdx), %r10d
	movl	-36(%rdi,%rdx), %r11d
	movl	%r10d, %r9d
	cmovgl	%r11d, %r9d
	je	.LBB1_1098
	xorl	%esi, %esi
	orl	%r10d, %r11d
	je	.LBB1_1227
	movl	%r9d, %r8d
	movq	%rax, %r14
	movq	%rcx, %r15
	movl	$0, %edx
	movl	$0, %r10d
	testl	%r9d, %r9d
	movq	%r12, %r11
	jne	.LBB1_927
	jmp	.LBB1_1229
.LBB1_931:
	movaps	%xmm0, 96(%rsp)
	movaps	%xmm0, 80(%rsp)
	movl	%r12d, %eax
	decq	%rax
	cmpq	200(%rsp), %rax
	jae	.LBB1_985
	movq	192(%rsp), %rcx
	imulq	$56, %rax, %rax
	cmpb	$0, (%rcx,%rax)
	jne	.LBB1_985
	cmpq	%r15, 8(%rcx,%rax)
	jne	.LBB1_985
	movq	%r11, %rbx
	leaq	80(%rsp), %rdi
	leaq	192(%rsp), %rsi
	movl	%r12d, %edx
	callq	"ord_tree::tree::OrdTree::remove_entry::<#0d42ca9d2c8e0a8d>"
	movzbl	80(%rsp), %eax
	xorl	%ecx, %ecx
	movl	$0, %edx
	movl	$0, %esi
	cmpl	$2, %eax
	je	.LBB1_936
	movq	96(%rsp), %rdx
	movq	104(%rsp), %rsi
.LBB1_936:
	movq	%rbx, %r11
	leaq	324(%rsp), %r10
	je	.LBB1_986
	cmpl	$1, %eax
	jne	.LBB1_1291
	movl	$1, %eax
	jmp	.LBB1_1292
.LBB1_939:
	cmpb	$1, 280(%rsp)
	jne	.LBB1_1048
	movl	284(%rsp), %ecx
	movq	192(%rsp), %rax
	imulq	$56, %rcx, %rdx
	cmpb	$0, -56(%rax,%rdx)
	jne	.LBB1_1362
	movq	-48(%rax,%rdx), %rdx
	movl	$0, 83(%rsp)
	movl	$0, 80(%rsp)
	movl	$1, %eax
	movb	$1, %sil
	jmp	.LBB1_1049
.LBB1_942:
	movq	240(%rsp), %rax
	incq	%rax
	movl	$2, %ecx
	cmovneq	%rax, %rcx
	movq	%rcx, 240(%rsp)
	movb	$8, 320(%rsp)
	sete	321(%rsp)
	jmp	.LBB1_973
.LBB1_943:
	movl	%r12d, %edx
	leaq	-1(%rdx), %rcx
	movl	$2, %eax
	cmpq	200(%rsp), %rcx
	jae	.LBB1_988
	movq	192(%rsp), %rdi
	imulq	$56, %rcx, %rcx
	cmpb	$0, (%rdi,%rcx)
	jne	.LBB1_988
	cmpq	%r15, 8(%rdi,%rcx)
	jne	.LBB1_988
	movq	240(%rsp), %rsi
	movq	%rsi, %rax
	incq	%rax
	movl	$2, %ecx
	cmovneq	%rax, %rcx
	movq	%rcx, 240(%rsp)
	imulq	$56, %rdx, %rax
	cmpb	$0, -56(%rdi,%rax)
	jne	.LBB1_948
	movq	%rcx, -48(%rdi,%rax)
	movq	240(%rsp), %rcx
.LBB1_948:
	movq	16(%rsp), %rdx
	xorl	%eax, %eax
	cmpq	$-1, %rsi
	sete	%al
	jmp	.LBB1_989
.LBB1_949:
	cmpb	$1, 272(%rsp)
	jne	.LBB1_952
	movl	276(%rsp), %eax
	leaq	-1(%rax), %rcx
	cmpq	200(%rsp), %rcx
	jae	.LBB1_952
.LBB1_951:
	movq	192(%rsp), %rdx
	imulq	$56, %rcx, %rcx
	cmpb	$0, (%rdx,%rcx)
	je	.LBB1_1150
.LBB1_952:
	xorl	%ecx, %ecx
	xorl	%eax, %eax
	xorl	%edx, %edx
.LBB1_953:
	movw	$9, 320(%rsp)
	movl	$0, 324(%rsp)
	movq	%rcx, 328(%rsp)
	movl	%eax, 336(%rsp)
	movl	$0, 340(%rsp)
	movq	%rdx, 344(%rsp)
	jmp	.LBB1_1073
.LBB1_954:
	movb	$14, %al
	cmpq	200(%rsp), %r12
	jb	.LBB1_956
	movq	$1, 248(%rsp)
	movq	%r12, 256(%rsp)
	movb	$13, %al
.LBB1_956:
	movb	%al, 320(%rsp)
	movb	$0, 321(%rsp)
	jmp	.LBB1_973
.LBB1_957:
	xorl	%eax, %eax
	cmpb	$1, 280(%rsp)
	sete	%dil
	movl	$0, %esi
	jne	.LBB1_959
	movl	284(%rsp), %esi
.LBB1_959:
	movq	192(%rsp), %rdx
	xorl	%ecx, %ecx
	.p2align	4
.LBB1_960:
	testb	$1, %dil
	je	.LBB1_1071
	addq	$1, %rax
	adcq	$0, %rcx
	movl	%esi, %esi
	imulq	$56, %rsi, %rsi
	cmpb	$0, -56(%rdx,%rsi)
	jne	.LBB1_1362
	movq	-32(%rdx,%rsi), %r10
	cmpq	%r10, %r12
	movl	-40(%rdx,%rsi), %r8d
	movl	-36(%rdx,%rsi), %r9d
	movl	%r8d, %esi
	cmovgl	%r9d, %esi
	testl	%esi, %esi
	setne	%dil
	cmpq	%r10, %r12
	je	.LBB1_1067
	orl	%r8d, %r9d
	leaq	324(%rsp), %r10
	jne	.LBB1_960
	jmp	.LBB1_1071
.LBB1_964:
	leaq	-1(%rbx), %rax
	xorl	%edx, %edx
	cmpq	200(%rsp), %rax
	jae	.LBB1_1050
	movq	192(%rsp), %r8
	imulq	$56, %rax, %r9
	cmpb	$0, (%r8,%r9)
	movl	$0, %ecx
	movl	$0, %eax
	movl	$0, %edi
	movl	$0, %esi
	jne	.LBB1_1051
	movl	48(%r8,%r9), %eax
	movl	52(%r8,%r9), %esi
	xorl	%ecx, %ecx
	testl	%eax, %eax
	setne	%cl
	xorl	%edi, %edi
	testl	%esi, %esi
	setne	%dil
	movl	$1, %edx
	jmp	.LBB1_1051
.LBB1_967:
	cmpb	$1, 264(%rsp)
	jne	.LBB1_970
	movq	200(%rsp), %rax
	movl	268(%rsp), %edx
	decq	%rdx
	cmpq	%rax, %rdx
	jae	.LBB1_970
	movq	192(%rsp), %rcx
	imulq	$56, %rdx, %rsi
	cmpb	$0, (%rcx,%rsi)
	je	.LBB1_1212
.LBB1_970:
	movb	$1, %dil
.LBB1_971:
	movb	$15, 320(%rsp)
	movb	%dil, 321(%rsp)
.LBB1_972:
	xorps	%xmm0, %xmm0
	jmp	.LBB1_973
.LBB1_974:
	cmpb	$1, 280(%rsp)
	jne	.LBB1_1053
	movl	284(%rsp), %r10d
	movq	192(%rsp), %rdi
	xorl	%r14d, %r14d
	xorl	%r12d, %r12d
	xorl	%eax, %eax
	xorl	%ecx, %ecx
	.p2align	4
.LBB1_976:
	addq	$1, %rax
	adcq	$0, %rcx
	movl	%r10d, %edx
	imulq	$56, %rdx, %rdx
	cmpb	$0, -56(%rdi,%rdx)
	jne	.LBB1_1362
	cmpq	-32(%rdi,%rdx), %r8
	movl	-40(%rdi,%rdx), %esi
	movl	-36(%rdi,%rdx), %r9d
	movl	%esi, %r11d
	cmovgl	%r9d, %r11d
	je	.LBB1_1114
	xorl	%edx, %edx
	orl	%esi, %r9d
	je	.LBB1_1326
	movl	%r11d, %r10d
	movq	%rax, %r14
	movq	%rcx, %r12
	movl	$0, %esi
	movl	$0, %r9d
	testl	%r11d, %r11d
	jne	.LBB1_976
	jmp	.LBB1_980
.LBB1_981:
	movw	$5, 320(%rsp)
.LBB1_973:
	movups	%xmm0, 44(%r10)
	movups	%xmm0, 32(%r10)
	movups	%xmm0, 16(%r10)
	movups	%xmm0, (%r10)
	jmp	.LBB1_843
.LBB1_982:
	xorl	%ebp, %ebp
	xorps	%xmm1, %xmm1
.LBB1_983:
	movq	16(%rsp), %rdx
.LBB1_984:
	movw	$5, 320(%rsp)
	movl	$0, 324(%rsp)
	movq	%rbp, 328(%rsp)
	movaps	%xmm1, 336(%rsp)
	jmp	.LBB1_1046
.LBB1_985:
	xorl	%ecx, %ecx
	movl	$2, %eax
.LBB1_986:
	xorl	%r15d, %r15d
	xorl	%edx, %edx
	xorl	%esi, %esi
.LBB1_987:
	movw	$6, 320(%rsp)
	movl	$0, 324(%rsp)
	movq	%rax, 328(%rsp)
	movl	%ecx, 336(%rsp)
	movl	$0, 340(%rsp)
	movq	%r15, 344(%rsp)
	movq	%rdx, 352(%rsp)
	movq	%rsi, 360(%rsp)
	xorps	%xmm0, %xmm0
	jmp	.LBB1_842
.LBB1_988:
	xorl	%r12d, %r12d
	xorl	%ecx, %ecx
	movq	16(%rsp), %rdx
.LBB1_989:
	movw	$7, 320(%rsp)
	movl	$0, 324(%rsp)
	movq	%rax, 328(%rsp)
	movl	%r12d, 336(%rsp)
	movl	$0, 340(%rsp)
	movq	%rcx, 344(%rsp)
	jmp	.LBB1_1046
.LBB1_990:
	movl	268(%rsp), %ecx
	movzbl	264(%rsp), %edi
	movl	$1, %eax
	jmp	.LBB1_992
	.p2align	4
.LBB1_991:
	movq	432(%rsp), %rdx
	addq	%rax, %rdx
	incq	%rdx
	incq	%rax
	cmpq	$1, %rdx
	je	.LBB1_882
.LBB1_992:
	movl	$4294967295, %edx
	cmpq	%rdx, %rax
	je	.LBB1_1362
	cmpb	$1, %dil
	jne	.LBB1_1362
	movq	200(%rsp), %rdx
	movl	%ecx, %r8d
	leaq	-1(%r8), %rsi
	cmpq	%rdx, %rsi
	jae	.LBB1_1362
	movq	192(%rsp), %r14
	imulq	$56, %rsi, %rdi
	cmpb	$0, (%r14,%rdi)
	jne	.LBB1_1362
	movl	%eax, %r9d
	leaq	-1(%r9), %rsi
	cmpq	%rdx, %rsi
	jae	.LBB1_1362
	imulq	$56, %rsi, %rdx
	cmpb	$0, (%r14,%rdx)
	jne	.LBB1_1362
	imulq	$56, %r8, %r12
	cmpb	$0, -56(%r14,%r12)
	jne	.LBB1_1362
	imulq	$56, %r9, %r11
	cmpb	$0, -56(%r14,%r11)
	jne	.LBB1_1362
	movl	48(%r14,%rdi), %r10d
	movl	52(%r14,%rdi), %r9d
	movl	48(%r14,%rdx), %r8d
	movl	52(%r14,%rdx), %edi
	leaq	(%r14,%r12), %r15
	addq	$-56, %r15
	addq	$-56, %r12
	movq	8(%r15), %rbp
	leaq	(%r14,%r11), %r13
	addq	$-56, %r13
	movq	8(%r13), %rbx
	cmpl	%ecx, %eax
	je	.LBB1_1008
	movq	48(%r15), %r14
	movq	%r14, 112(%rsp)
	movups	16(%r15), %xmm0
	movups	32(%r15), %xmm1
	movaps	%xmm1, 96(%rsp)
	movaps	%xmm0, 80(%rsp)
	movq	$0, (%r15)
	movq	%rbx, 8(%r15)
	movq	48(%r13), %r14
	movups	16(%r13), %xmm0
	movups	32(%r13), %xmm1
	movups	%xmm0, 16(%r15)
	movups	%xmm1, 32(%r15)
	movq	%r14, 48(%r15)
	movq	$0, (%r13)
	movq	%rbp, 8(%r13)
	movaps	80(%rsp), %xmm0
	movaps	96(%rsp), %xmm1
	movups	%xmm0, 16(%r13)
	movups	%xmm1, 32(%r13)
	movq	112(%rsp), %r14
	movq	%r14, 48(%r13)
	movq	192(%rsp), %r14
	cmpb	$0, (%r14,%r12)
	je	.LBB1_1008
	addq	$-56, %r11
	cmpb	$0, (%r14,%r11)
	movq	312(%rsp), %r13
	je	.LBB1_1009
.LBB1_1003:
	testl	%r10d, %r10d
	je	.LBB1_1004
.LBB1_1010:
	cmpl	%r10d, %eax
	movl	%r10d, %r11d
	cmovel	%ecx, %r11d
	cmpl	%ecx, %r10d
	cmovel	%eax, %r11d
	movq	192(%rsp), %r10
	imulq	$56, %r11, %r11
	cmpb	$0, -56(%r10,%r11)
	jne	.LBB1_1362
	movl	%eax, -4(%r10,%r11)
	testl	%r9d, %r9d
	jne	.LBB1_1012
.LBB1_1005:
	testl	%r8d, %r8d
	je	.LBB1_1006
.LBB1_1014:
	cmpl	%r8d, %eax
	movl	%r8d, %r9d
	cmovel	%ecx, %r9d
	cmpl	%ecx, %r8d
	cmovel	%eax, %r9d
	movq	192(%rsp), %r8
	imulq	$56, %r9, %r9
	cmpb	$0, -56(%r8,%r9)
	jne	.LBB1_1362
	movl	%ecx, -4(%r8,%r9)
	testl	%edi, %edi
	jne	.LBB1_1016
.LBB1_1007:
	movzbl	264(%rsp), %edi
	movl	268(%rsp), %r8d
	cmpl	$1, %edi
	je	.LBB1_1018
	jmp	.LBB1_1021
	.p2align	4
.LBB1_1008:
	movq	%rbp, 8(%r14,%r12)
	movq	192(%rsp), %r14
	addq	$-56, %r11
	cmpb	$0, (%r14,%r11)
	movq	312(%rsp), %r13
	jne	.LBB1_1003
.LBB1_1009:
	movq	%rbx, 8(%r14,%r11)
	testl	%r10d, %r10d
	jne	.LBB1_1010
	.p2align	4
.LBB1_1004:
	testl	%r9d, %r9d
	je	.LBB1_1005
.LBB1_1012:
	cmpl	%r9d, %eax
	movl	%r9d, %r10d
	cmovel	%ecx, %r10d
	cmpl	%ecx, %r9d
	cmovel	%eax, %r10d
	movq	192(%rsp), %r9
	imulq	$56, %r10, %r10
	cmpb	$0, -56(%r9,%r10)
	jne	.LBB1_1362
	movl	%eax, -8(%r9,%r10)
	testl	%r8d, %r8d
	jne	.LBB1_1014
.LBB1_1006:
	testl	%edi, %edi
	je	.LBB1_1007
.LBB1_1016:
	cmpl	%edi, %eax
	movl	%edi, %r8d
	cmovel	%ecx, %r8d
	cmpl	%ecx, %edi
	cmovel	%eax, %r8d
	movq	192(%rsp), %rdi
	imulq	$56, %r8, %r8
	cmpb	$0, -56(%rdi,%r8)
	jne	.LBB1_1362
	movl	%ecx, -8(%rdi,%r8)
	movzbl	264(%rsp), %edi
	movl	268(%rsp), %r8d
	cmpl	$1, %edi
	jne	.LBB1_1021
.LBB1_1018:
	cmpl	%ecx, %r8d
	jne	.LBB1_1020
	movl	%eax, %r9d
	jmp	.LBB1_1022
	.p2align	4
.LBB1_1020:
	movl	%ecx, %r9d
	cmpl	%r8d, %eax
	je	.LBB1_1022
	.p2align	4
.LBB1_1021:
	movl	%r8d, %r9d
.LBB1_1022:
	movl	%edi, 264(%rsp)
	movl	%r9d, 268(%rsp)
	movzbl	272(%rsp), %edi
	movl	276(%rsp), %r8d
	cmpl	$1, %edi
	jne	.LBB1_1026
	cmpl	%ecx, %r8d
	jne	.LBB1_1025
	movl	%eax, %ecx
	jmp	.LBB1_1027
	.p2align	4
.LBB1_1025:
	cmpl	%r8d, %eax
	je	.LBB1_1027
	.p2align	4
.LBB1_1026:
	movl	%r8d, %ecx
.LBB1_1027:
	movl	%edi, 272(%rsp)
	movl	%ecx, 276(%rsp)
	xorl	%ecx, %ecx
	movl	$0, %edi
	cmpq	200(%rsp), %rsi
	jae	.LBB1_991
	movq	192(%rsp), %rsi
	xorl	%ecx, %ecx
	cmpb	$0, (%rsi,%rdx)
	jne	.LBB1_991
	movl	52(%rsi,%rdx), %ecx
	testl	%ecx, %ecx
	setne	%dil
	jmp	.LBB1_991
.LBB1_1030:
	js	.LBB1_1038
	movl	$1, %esi
	movq	%rbx, %rdi
	movq	%r11, %r14
	callq	rattle_alloc@PLT
	leaq	324(%rsp), %r10
	movq	%r14, %r11
	testb	$1, %al
	je	.LBB1_1038
.LBB1_1032:
	movq	%rdx, 32(%rsp)
	movq	$0, 40(%rsp)
	movq	%rbx, 48(%rsp)
	cmpb	$1, 264(%rsp)
	jne	.LBB1_1035
	movl	268(%rsp), %ebx
	leaq	-1(%rbx), %rax
	cmpq	200(%rsp), %rax
	jae	.LBB1_1035
	movq	192(%rsp), %rcx
	imulq	$56, %rax, %rax
	cmpb	$0, (%rcx,%rax)
	je	.LBB1_1233
.LBB1_1035:
	movq	48(%rsp), %rax
	leaq	391(%rsp), %rcx
	movq	%rax, 16(%rcx)
	movq	32(%rsp), %rax
	movq	%rax, (%rcx)
	movq	40(%rsp), %rax
	movq	%rax, 8(%rcx)
	movq	16(%rcx), %rax
	leaq	83(%rsp), %rdx
	movq	%rax, 16(%rdx)
	movq	(%rcx), %rax
	movq	%rax, (%rdx)
	movq	8(%rcx), %rax
	movq	%rax, 8(%rdx)
	movb	$12, %cl
	xorl	%eax, %eax
	jmp	.LBB1_1039
.LBB1_1036:
	movabsq	$288230376151711744, %rax
	cmpq	%rax, %rbx
	jae	.LBB1_1038
	movq	%rbx, %rdi
	shlq	$5, %rdi
	movl	$8, %esi
	movq	%r11, %r14
	callq	rattle_alloc@PLT
	leaq	324(%rsp), %r10
	movq	%r14, %r11
	testb	$1, %al
	jne	.LBB1_890
.LBB1_1038:
	movb	$3, %al
	movb	$1, %cl
	leaq	83(%rsp), %rdx
.LBB1_1039:
	movb	%cl, 320(%rsp)
	movb	%al, 321(%rsp)
	movl	$0, 324(%rsp)
	movq	48(%rdx), %rax
	movq	%rax, 52(%r10)
	movq	(%rdx), %rax
	movq	8(%rdx), %rcx
	movups	16(%rdx), %xmm0
	movups	32(%rdx), %xmm1
	movups	%xmm1, 36(%r10)
	movups	%xmm0, 20(%r10)
	movq	%rax, 4(%r10)
	movq	%rcx, 12(%r10)
	jmp	.LBB1_843
.LBB1_1040:
	xorl	%eax, %eax
	xorl	%ecx, %ecx
	xorl	%r8d, %r8d
	xorl	%esi, %esi
	xorl	%edx, %edx
	xorl	%edi, %edi
.LBB1_1041:
	movl	32(%rsp), %r9d
	movl	35(%rsp), %r10d
	movl	%r10d, 387(%rsp)
	movl	%r9d, 384(%rsp)
	jmp	.LBB1_1167
.LBB1_1042:
	xorl	%edx, %edx
	xorl	%ecx, %ecx
	xorl	%esi, %esi
.LBB1_1043:
	xorl	%edi, %edi
	cmpb	$1, %al
	sete	%dil
	movw	$2, 320(%rsp)
	movl	$0, 324(%rsp)
	movq	%rdi, 328(%rsp)
	movl	%ecx, 336(%rsp)
	movl	$0, 340(%rsp)
	movq	%rdx, 344(%rsp)
	movq	%rsi, 352(%rsp)
	movq	$0, 360(%rsp)
	jmp	.LBB1_842
.LBB1_1044:
	xorl	%eax, %eax
	movq	16(%rsp), %rdx
	jmp	.LBB1_1045
.LBB1_1047:
	xorl	%esi, %esi
	xorl	%eax, %eax
	xorl	%ecx, %ecx
	xorl	%edx, %edx
	xorl	%r10d, %r10d
	jmp	.LBB1_1229
.LBB1_1048:
	movl	$0, 83(%rsp)
	movl	$0, 80(%rsp)
	xorl	%eax, %eax
	xorl	%esi, %esi
	xorl	%ecx, %ecx
	xorl	%edx, %edx
.LBB1_1049:
	movzbl	%sil, %esi
	movw	$3, 320(%rsp)
	movl	$0, 324(%rsp)
	movq	%rsi, 328(%rsp)
	movl	%ecx, 336(%rsp)
	movl	$0, 340(%rsp)
	movq	%rdx, 344(%rsp)
	movb	%sil, 352(%rsp)
	movl	80(%rsp), %ecx
	movl	83(%rsp), %edx
	movl	%edx, 32(%r10)
	movl	%ecx, 29(%r10)
	movq	$0, 360(%rsp)
	movq	%rax, 368(%rsp)
	movq	$0, 376(%rsp)
	jmp	.LBB1_843
.LBB1_1050:
	xorl	%ecx, %ecx
	xorl	%eax, %eax
	xorl	%edi, %edi
	xorl	%esi, %esi
.LBB1_1051:
	movw	$10, 320(%rsp)
	movl	%edx, 324(%rsp)
	movl	%ecx, 328(%rsp)
	movl	%eax, 332(%rsp)
	movl	%edi, 336(%rsp)
	movl	%esi, 340(%rsp)
	movups	%xmm0, 36(%r10)
	movups	%xmm0, 20(%r10)
	movq	$0, 52(%r10)
	jmp	.LBB1_843
.LBB1_1052:
	movb	$3, %al
	movb	$1, %cl
	leaq	83(%rsp), %r9
	movq	16(%rsp), %rdx
	jmp	.LBB1_1189
.LBB1_1053:
	xorl	%edx, %edx
	xorl	%esi, %esi
	xorl	%r9d, %r9d
	xorl	%eax, %eax
	xorl	%ecx, %ecx
	jmp	.LBB1_980
.LBB1_1054:
	xorl	%eax, %eax
	xorl	%ecx, %ecx
	xorl	%esi, %esi
	xorl	%r8d, %r8d
	xorl	%edi, %edi
	xorl	%r10d, %r10d
.LBB1_1055:
	movl	32(%rsp), %edx
	movl	35(%rsp), %r9d
	movl	%r9d, 387(%rsp)
	movl	%edx, 384(%rsp)
	movl	%edi, %ebx
	movq	%r8, %rdx
	jmp	.LBB1_1460
.LBB1_917:
	xorl	%eax, %eax
.LBB1_1045:
	movw	$5, 320(%rsp)
	movl	$0, 324(%rsp)
	movq	%rax, 328(%rsp)
	movaps	%xmm0, 336(%rsp)
	xorps	%xmm0, %xmm0
.LBB1_1046:
	movaps	%xmm0, 44(%r10)
	movaps	%xmm0, 28(%r10)
	jmp	.LBB1_844
.LBB1_1056:
	movq	%rsp, %rcx
	movq	%rcx, 512(%rsp)
	movq	16(%rsp), %rdx
	jmp	.LBB1_1170
.LBB1_1057:
	movzbl	96(%rsp), %r15d
	movl	104(%rsp), %ebx
	movq	112(%rsp), %r12
	movq	32(%rsp), %rcx
	movq	40(%rsp), %r14
	cmpq	$1, %r15
	je	.LBB1_1065
	cmpb	$1, 120(%rsp)
	movq	%r14, 432(%rsp)
	jne	.LBB1_1210
	movl	128(%rsp), %edx
	movzbl	144(%rsp), %eax
	xorl	%r8d, %r8d
	testb	%al, %al
	setne	%r9b
	movq	192(%rsp), %rsi
	imulq	$56, %rdx, %rdi
	cmpb	$0, -56(%rsi,%rdi)
	jne	.LBB1_1362
	movb	%r9b, %r8b
	shlq	$32, %r8
	orq	%rdx, %r8
	addq	%rsi, %rdi
	xorl	%r9d, %r9d
	testb	%al, %al
	setne	%r9b
	shll	$2, %r9d
	orq	$-40, %r9
	cmpl	$0, (%rdi,%r9)
	movq	%r8, %r11
	je	.LBB1_1063
	xorl	%r9d, %r9d
	testb	%al, %al
	setne	%r9b
	shll	$2, %r9d
	orq	$-8, %r9
	movl	(%rdi,%r9), %r9d
	testq	%r9, %r9
	je	.LBB1_1331
	movabsq	$4294967296, %r10
	xorl	%r11d, %r11d
	testb	%al, %al
	cmoveq	%r10, %r11
	orq	%r9, %r11
.LBB1_1063:
	movb	$0, 426(%rsp)
	movw	$0, 424(%rsp)
	xorl	%r9d, %r9d
	movq	%r11, 296(%rsp)
	jmp	.LBB1_1332
.LBB1_1064:
	movzbl	96(%rsp), %r15d
	movl	104(%rsp), %ebx
	movq	112(%rsp), %r12
	movq	32(%rsp), %rcx
	movq	40(%rsp), %r14
	cmpq	$1, %r15
	jne	.LBB1_1142
.LBB1_1065:
	movq	192(%rsp), %rax
	imulq	$56, %rbx, %rdx
	cmpb	$0, -56(%rax,%rdx)
	movq	64(%rsp), %r11
	leaq	324(%rsp), %r10
	jne	.LBB1_1362
	movups	-32(%rax,%rdx), %xmm0
	movq	%rcx, -32(%rax,%rdx)
	movq	%r14, -24(%rax,%rdx)
	jmp	.LBB1_1395
.LBB1_1067:
	testl	%esi, %esi
	sete	%dil
	leaq	324(%rsp), %r10
	.p2align	4
.LBB1_1068:
	testb	$1, %dil
	jne	.LBB1_1071
	movl	%esi, %esi
	imulq	$56, %rsi, %rsi
	cmpb	$0, -56(%rdx,%rsi)
	jne	.LBB1_1362
	addq	$1, %rax
	adcq	$0, %rcx
	movl	-40(%rdx,%rsi), %r8d
	cmpq	-32(%rdx,%rsi), %r12
	movl	-36(%rdx,%rsi), %r9d
	movl	%r8d, %esi
	cmovgl	%r9d, %esi
	testl	%esi, %esi
	sete	%dil
	orl	%r8d, %r9d
	jne	.LBB1_1068
.LBB1_1071:
	movw	$4, 320(%rsp)
	movl	$0, 324(%rsp)
	movq	$0, 328(%rsp)
	movq	%rax, 336(%rsp)
	movq	%rcx, 344(%rsp)
.LBB1_1072:
	xorps	%xmm0, %xmm0
.LBB1_1073:
	movaps	%xmm0, 44(%r10)
	movaps	%xmm0, 28(%r10)
	jmp	.LBB1_843
.LBB1_1074:
	movq	%rax, %rdx
	andq	$-2, %rdx
	xorl	%ecx, %ecx
	xorl	%esi, %esi
	.p2align	4
.LBB1_1075:
	movq	192(%rsp), %rdi
	movq	$1, (%rdi,%rsi)
	leaq	1(%rcx), %r8
	xorps	%xmm0, %xmm0
	movups	%xmm0, 8(%rdi,%rsi)
	movups	%xmm0, 24(%rdi,%rsi)
	movups	%xmm0, 40(%rdi,%rsi)
	movq	%r8, 200(%rsp)
	movq	192(%rsp), %rdi
	movq	$1, 56(%rdi,%rsi)
	addq	$2, %rcx
	movups	%xmm0, 64(%rdi,%rsi)
	movups	%xmm0, 80(%rdi,%rsi)
	movups	%xmm0, 96(%rdi,%rsi)
	movq	%rcx, 200(%rsp)
	addq	$112, %rsi
	cmpq	%rcx, %rdx
	jne	.LBB1_1075
	testb	$1, %al
	je	.LBB1_1078
.LBB1_1077:
	movq	192(%rsp), %rdx
	imulq	$56, %rcx, %rsi
	movq	$1, (%rdx,%rsi)
	incq	%rcx
	movups	%xmm0, 8(%rdx,%rsi)
	movups	%xmm0, 24(%rdx,%rsi)
	movups	%xmm0, 40(%rdx,%rsi)
	movq	%rcx, 200(%rsp)
.LBB1_1078:
	cmpq	$0, 224(%rsp)
	je	.LBB1_1080
	movq	$0, 224(%rsp)
.LBB1_1080:
	testq	%rax, %rax
	movq	16(%rsp), %rdx
	je	.LBB1_1089
	movl	$4294967294, %ecx
	cmpq	%rcx, %rax
	ja	.LBB1_1362
	cmpq	$1, %rax
	jne	.LBB1_1084
	xorl	%ecx, %ecx
	jmp	.LBB1_1088
.LBB1_1084:
	movl	%eax, %edx
	andl	$-2, %edx
	xorl	%ecx, %ecx
	movl	%eax, %esi
	.p2align	4
.LBB1_1085:
	movq	216(%rsp), %rdi
	movl	%esi, (%rdi,%rcx,4)
	leaq	1(%rcx), %rdi
	movq	%rdi, 224(%rsp)
	leal	-1(%rsi), %edi
	movq	216(%rsp), %r8
	movl	%edi, 4(%r8,%rcx,4)
	addq	$2, %rcx
	movq	%rcx, 224(%rsp)
	addl	$-2, %esi
	cmpq	%rcx, %rdx
	jne	.LBB1_1085
	testb	$1, %al
	movq	16(%rsp), %rdx
	je	.LBB1_1089
	subq	%rcx, %rax
.LBB1_1088:
	movq	216(%rsp), %rdx
	movl	%eax, (%rdx,%rcx,4)
	incq	%rcx
	movq	%rcx, 224(%rsp)
	movq	16(%rsp), %rdx
.LBB1_1089:
	movq	240(%rsp), %rax
	incq	%rax
	movl	$2, %ecx
	cmovneq	%rax, %rcx
	movq	%rcx, 240(%rsp)
	movb	$8, 320(%rsp)
	sete	321(%rsp)
	xorps	%xmm0, %xmm0
	movups	%xmm0, 44(%r10)
	movups	%xmm0, 32(%r10)
	movups	%xmm0, 16(%r10)
	movups	%xmm0, (%r10)
	jmp	.LBB1_844
.LBB1_1090:
	movq	512(%rsp), %rbx
	movq	520(%rsp), %r14
	movq	64(%rsp), %r11
	leaq	324(%rsp), %r10
	movq	16(%rsp), %rdx
	movaps	432(%rsp), %xmm0
	.p2align	4
.LBB1_1091:
	movq	%r14, %rax
	shlq	$5, %rax
	movl	%r12d, (%rbx,%rax)
	movl	$0, 4(%rbx,%rax)
	movq	%rbp, 8(%rbx,%rax)
	movups	%xmm0, 16(%rbx,%rax)
	incq	%r14
	movq	%r14, 520(%rsp)
	decq	%r15
	je	.LBB1_1169
.LBB1_1092:
	cmpb	$1, 264(%rsp)
	jne	.LBB1_1362
	movl	268(%rsp), %r12d
	leaq	-1(%r12), %rax
	cmpq	200(%rsp), %rax
	jae	.LBB1_1362
	movq	192(%rsp), %rcx
	imulq	$56, %rax, %rax
	cmpb	$0, (%rcx,%rax)
	jne	.LBB1_1362
	movq	8(%rcx,%rax), %rbp
	xorps	%xmm0, %xmm0
	movaps	%xmm0, 400(%rsp)
	movaps	%xmm0, 384(%rsp)
	leaq	384(%rsp), %rdi
	leaq	192(%rsp), %rsi
	movl	%r12d, %edx
	callq	"ord_tree::tree::OrdTree::remove_entry::<#0d42ca9d2c8e0a8d>"
	cmpb	$2, 384(%rsp)
	je	.LBB1_1362
	movaps	400(%rsp), %xmm0
	cmpq	%r14, 528(%rsp)
	movq	64(%rsp), %r11
	leaq	324(%rsp), %r10
	movq	16(%rsp), %rdx
	jne	.LBB1_1091
	movaps	%xmm0, 432(%rsp)
	leaq	512(%rsp), %rdi
	callq	"std_alloc::vec::Vec::grow_amortized::<#62ae4b2f8014e38f>"
	testb	%al, %al
	jne	.LBB1_1090
	jmp	.LBB1_1362
.LBB1_1098:
	movq	-48(%rdi,%rdx), %r11
	movl	$1, %edx
	testl	%r9d, %r9d
	je	.LBB1_1113
	movl	%r9d, %eax
	imulq	$56, %rax, %rbp
	cmpb	$0, -56(%rdi,%rbp)
	jne	.LBB1_1362
	addq	%rdi, %rbp
	addq	$2, %r14
	adcq	$0, %r15
	movb	$1, %al
	movq	%rax, 304(%rsp)
	movq	%r14, %rax
	movq	%r15, %rcx
	jmp	.LBB1_1103
.LBB1_1101:
	movq	%r11, %r10
	movl	%r8d, %esi
.LBB1_1102:
	addq	$1, %rax
	adcq	$0, %rcx
	movl	%r9d, %r8d
	imulq	$56, %r8, %r8
	leaq	(%rdi,%r8), %rbp
	cmpb	$0, -56(%rdi,%r8)
	movl	%esi, %r8d
	movq	%r10, %r11
	jne	.LBB1_1362
.LBB1_1103:
	movl	%r9d, %esi
	movq	-32(%rbp), %r14
	movq	432(%rsp), %r10
	cmpq	%r14, %r10
	setge	%r13b
	movl	-40(%rbp), %ebx
	movl	-36(%rbp), %r15d
	movl	%ebx, %r9d
	cmovgl	%r15d, %r9d
	addb	%r13b, %r13b
	cmpq	%r14, %r10
	movq	-48(%rbp), %r10
	movzbl	%r13b, %r13d
	movl	$1, %ebp
	cmovnel	%r13d, %ebp
	orl	%ebx, %r15d
	testb	%bpl, %bpl
	je	.LBB1_1107
	movzbl	%bpl, %ebx
	cmpl	$1, %ebx
	movq	312(%rsp), %r13
	jne	.LBB1_1110
	testl	%r15d, %r15d
	je	.LBB1_1228
	movb	$1, %r8b
	movq	%r8, 304(%rsp)
	testl	%r9d, %r9d
	jne	.LBB1_1102
	jmp	.LBB1_1228
.LBB1_1107:
	testl	%r15d, %r15d
	movq	312(%rsp), %r13
	je	.LBB1_1225
	testl	%r9d, %r9d
	je	.LBB1_1225
	xorl	%r10d, %r10d
	xorl	%esi, %esi
	movq	$0, 304(%rsp)
	jmp	.LBB1_1102
.LBB1_1110:
	testl	%r15d, %r15d
	je	.LBB1_1112
	testl	%r9d, %r9d
	jne	.LBB1_1101
.LBB1_1112:
	cmpb	$0, 304(%rsp)
	je	.LBB1_1225
.LBB1_1113:
	movl	%r8d, %esi
	movq	%r11, %r10
	jmp	.LBB1_1228
.LBB1_1114:
	movq	-48(%rdi,%rdx), %rbx
	movl	$1, %edx
	testl	%r11d, %r11d
	je	.LBB1_1129
	movl	%r11d, %eax
	imulq	$56, %rax, %rbp
	cmpb	$0, -56(%rdi,%rbp)
	jne	.LBB1_1362
	addq	%rdi, %rbp
	addq	$2, %r14
	adcq	$0, %r12
	movb	$1, %al
	movq	%rax, 432(%rsp)
	movq	%r14, %rax
	movq	%r12, %rcx
	jmp	.LBB1_1119
.LBB1_1117:
	movq	%rbx, %r9
	movl	%r10d, %esi
.LBB1_1118:
	addq	$1, %rax
	adcq	$0, %rcx
	movl	%r11d, %r10d
	imulq	$56, %r10, %r10
	leaq	(%rdi,%r10), %rbp
	cmpb	$0, -56(%rdi,%r10)
	movl	%esi, %r10d
	movq	%r9, %rbx
	jne	.LBB1_1362
.LBB1_1119:
	movl	%r11d, %esi
	movq	-32(%rbp), %r14
	cmpq	%r14, %r8
	setge	%r13b
	movl	-40(%rbp), %r15d
	movl	-36(%rbp), %r12d
	movl	%r15d, %r11d
	cmovgl	%r12d, %r11d
	addb	%r13b, %r13b
	cmpq	%r14, %r8
	movq	-48(%rbp), %r9
	movzbl	%r13b, %r13d
	movl	$1, %ebp
	cmovnel	%r13d, %ebp
	orl	%r15d, %r12d
	testb	%bpl, %bpl
	je	.LBB1_1123
	movzbl	%bpl, %ebp
	cmpl	$1, %ebp
	movq	312(%rsp), %r13
	jne	.LBB1_1126
	testl	%r12d, %r12d
	je	.LBB1_980
	movb	$1, %r10b
	movq	%r10, 432(%rsp)
	testl	%r11d, %r11d
	jne	.LBB1_1118
	jmp	.LBB1_980
.LBB1_1123:
	testl	%r12d, %r12d
	movq	312(%rsp), %r13
	je	.LBB1_1324
	testl	%r11d, %r11d
	je	.LBB1_1324
	xorl	%r9d, %r9d
	xorl	%esi, %esi
	movq	$0, 432(%rsp)
	jmp	.LBB1_1118
.LBB1_1126:
	testl	%r12d, %r12d
	je	.LBB1_1128
	testl	%r11d, %r11d
	jne	.LBB1_1117
.LBB1_1128:
	cmpb	$0, 432(%rsp)
	je	.LBB1_1324
.LBB1_1129:
	movl	%r10d, %esi
	movq	%rbx, %r9
	jmp	.LBB1_980
.LBB1_1130:
	xorl	%edi, %edi
	testq	%r12, %r12
	je	.LBB1_1217
	movq	%r11, %r14
	movb	$1, %r8b
	xorl	%eax, %eax
	movq	%r12, %rdx
	xorl	%ecx, %ecx
.LBB1_1132:
	addq	$1, %rax
	adcq	$0, %rcx
	movl	%ebx, %esi
	imulq	$56, %rsi, %r9
	cmpb	$0, -56(%r10,%r9)
	jne	.LBB1_1362
	addq	%r10, %r9
	cmpq	-32(%r9), %r15
	je	.LBB1_1138
	setl	%bpl
	setge	%r11b
	leal	(%r11,%r11), %esi
	addb	%bpl, %bpl
	cmpb	%bpl, %r8b
	je	.LBB1_1282
	movzbl	%r11b, %r8d
	shll	$2, %r8d
	orq	$-8, %r8
	movl	(%r9,%r8), %r8d
	testl	%r8d, %r8d
	je	.LBB1_1282
	movl	%r8d, %ebx
	movl	%esi, %r8d
	decq	%rdx
	jne	.LBB1_1132
	xorl	%ecx, %ecx
	movq	%r12, %rax
.LBB1_1138:
	movq	%r14, %r11
	jmp	.LBB1_1218
.LBB1_1139:
	movq	%r11, %r14
	leaq	80(%rsp), %rdi
	leaq	192(%rsp), %rsi
	movl	%ebx, %edx
	callq	"ord_tree::tree::OrdTree::remove_entry::<#0d42ca9d2c8e0a8d>"
	movzbl	80(%rsp), %ecx
	movq	88(%rsp), %rax
	leaq	83(%rsp), %rdx
	movups	13(%rdx), %xmm0
	movaps	%xmm0, 384(%rsp)
	xorps	%xmm0, %xmm0
	movaps	%xmm0, 80(%rsp)
	cmpl	$2, %ecx
	je	.LBB1_1230
	cmpl	$1, %ecx
	leaq	324(%rsp), %r10
	movq	16(%rsp), %rdx
	jne	.LBB1_1231
	movaps	384(%rsp), %xmm0
	movaps	%xmm0, 80(%rsp)
	movl	$1, %ecx
	movq	%r14, %r11
	jmp	.LBB1_908
.LBB1_1142:
	cmpb	$1, 120(%rsp)
	movq	%r14, 432(%rsp)
	jne	.LBB1_1211
	movl	128(%rsp), %edx
	movzbl	144(%rsp), %eax
	xorl	%r8d, %r8d
	testb	%al, %al
	setne	%r9b
	movq	192(%rsp), %rsi
	imulq	$56, %rdx, %rdi
	cmpb	$0, -56(%rsi,%rdi)
	jne	.LBB1_1362
	movb	%r9b, %r8b
	shlq	$32, %r8
	orq	%rdx, %r8
	addq	%rsi, %rdi
	xorl	%r9d, %r9d
	testb	%al, %al
	setne	%r9b
	shll	$2, %r9d
	orq	$-40, %r9
	cmpl	$0, (%rdi,%r9)
	movq	%r8, %r11
	je	.LBB1_1147
	xorl	%r9d, %r9d
	testb	%al, %al
	setne	%r9b
	shll	$2, %r9d
	orq	$-8, %r9
	movl	(%rdi,%r9), %r9d
	testq	%r9, %r9
	je	.LBB1_1363
	movabsq	$4294967296, %r10
	xorl	%r11d, %r11d
	testb	%al, %al
	cmoveq	%r10, %r11
	orq	%r9, %r11
.LBB1_1147:
	movb	$0, 426(%rsp)
	movw	$0, 424(%rsp)
	xorl	%r9d, %r9d
	movq	%r11, 296(%rsp)
	jmp	.LBB1_1364
.LBB1_1150:
	movq	8(%rdx,%rcx), %rdx
	movl	$1, %ecx
	jmp	.LBB1_953
.LBB1_1151:
	testl	%r9d, %r9d
	je	.LBB1_1403
	movl	%r9d, %eax
	imulq	$56, %rax, %r14
	cmpb	$0, -56(%rdi,%r14)
	jne	.LBB1_1362
	addq	%rdi, %r14
	addq	$2, %r8
	adcq	$0, %r10
	movb	$1, %bl
	movq	%r8, %rax
	movq	%r10, %rcx
	jmp	.LBB1_1155
	.p2align	4
.LBB1_1154:
	addq	$1, %rax
	adcq	$0, %rcx
	movl	%r9d, %edx
	imulq	$56, %rdx, %rdx
	leaq	(%rdi,%rdx), %r14
	cmpb	$0, -56(%rdi,%rdx)
	movl	%r10d, %edx
	movq	%r11, %rsi
	jne	.LBB1_1362
.LBB1_1155:
	movl	%r9d, %r10d
	movq	-32(%r14), %r8
	cmpq	%r8, %r12
	setge	%r15b
	movl	-40(%r14), %r13d
	movl	-36(%r14), %ebp
	movl	%r13d, %r9d
	cmovgl	%ebp, %r9d
	addb	%r15b, %r15b
	cmpq	%r8, %r12
	movq	-48(%r14), %r11
	movzbl	%r15b, %r14d
	movl	$1, %r8d
	cmovnel	%r14d, %r8d
	orl	%r13d, %ebp
	testb	%r8b, %r8b
	je	.LBB1_1160
	movzbl	%r8b, %r14d
	cmpl	$1, %r14d
	jne	.LBB1_1163
	testl	%ebp, %ebp
	je	.LBB1_1399
	movb	$1, %bl
	testl	%r9d, %r9d
	movq	312(%rsp), %r13
	jne	.LBB1_1154
	jmp	.LBB1_1159
.LBB1_1160:
	testl	%ebp, %ebp
	movq	312(%rsp), %r13
	je	.LBB1_1404
	testl	%r9d, %r9d
	je	.LBB1_1404
	xorl	%r11d, %r11d
	xorl	%r10d, %r10d
	xorl	%ebx, %ebx
	jmp	.LBB1_1154
.LBB1_1163:
	testl	%ebp, %ebp
	movq	312(%rsp), %r13
	je	.LBB1_1400
	testl	%r9d, %r9d
	je	.LBB1_1402
	movq	%rsi, %r11
	movl	%edx, %r10d
	jmp	.LBB1_1154
.LBB1_1166:
	cmpq	%r11, %r12
	setge	%r8b
	addb	%r8b, %r8b
	movl	$0, 387(%rsp)
	movl	$0, 384(%rsp)
	movl	$1, %edi
	movq	64(%rsp), %r11
.LBB1_1167:
	leaq	324(%rsp), %r10
.LBB1_1168:
	movw	$3, 320(%rsp)
	movl	$0, 324(%rsp)
	movq	%rdi, 328(%rsp)
	movl	%edx, 336(%rsp)
	movl	$0, 340(%rsp)
	movq	%rsi, 344(%rsp)
	movb	%r8b, 352(%rsp)
	movl	384(%rsp), %edx
	movl	387(%rsp), %esi
	jmp	.LBB1_1461
.LBB1_1169:
	movq	200(%rsp), %rax
.LBB1_1170:
	xorps	%xmm0, %xmm0
	leaq	280(%rsp), %rcx
	movups	%xmm0, -16(%rcx)
	movq	$0, (%rcx)
	testq	%rax, %rax
	leaq	83(%rsp), %r9
	je	.LBB1_1177
	cmpq	$1, %rax
	jne	.LBB1_1173
	xorl	%ecx, %ecx
	jmp	.LBB1_1176
.LBB1_1173:
	movq	%rax, %rdx
	andq	$-2, %rdx
	xorl	%ecx, %ecx
	xorl	%esi, %esi
	.p2align	4
.LBB1_1174:
	movq	192(%rsp), %rdi
	movq	$1, (%rdi,%rsi)
	leaq	1(%rcx), %r8
	xorps	%xmm0, %xmm0
	movups	%xmm0, 8(%rdi,%rsi)
	movups	%xmm0, 24(%rdi,%rsi)
	movups	%xmm0, 40(%rdi,%rsi)
	movq	%r8, 200(%rsp)
	movq	192(%rsp), %rdi
	movq	$1, 56(%rdi,%rsi)
	addq	$2, %rcx
	movups	%xmm0, 64(%rdi,%rsi)
	movups	%xmm0, 80(%rdi,%rsi)
	movups	%xmm0, 96(%rdi,%rsi)
	movq	%rcx, 200(%rsp)
	addq	$112, %rsi
	cmpq	%rcx, %rdx
	jne	.LBB1_1174
	testb	$1, %al
	movq	16(%rsp), %rdx
	je	.LBB1_1177
.LBB1_1176:
	movq	192(%rsp), %rdx
	imulq	$56, %rcx, %rsi
	movq	$1, (%rdx,%rsi)
	incq	%rcx
	movups	%xmm0, 8(%rdx,%rsi)
	movups	%xmm0, 24(%rdx,%rsi)
	movups	%xmm0, 40(%rdx,%rsi)
	movq	16(%rsp), %rdx
	movq	%rcx, 200(%rsp)
.LBB1_1177:
	cmpq	$0, 224(%rsp)
	je	.LBB1_1179
	movq	$0, 224(%rsp)
.LBB1_1179:
	testq	%rax, %rax
	je	.LBB1_1188
	movl	$4294967294, %ecx
	cmpq	%rcx, %rax
	ja	.LBB1_1362
	cmpq	$1, %rax
	jne	.LBB1_1183
	xorl	%ecx, %ecx
	jmp	.LBB1_1187
.LBB1_1183:
	movl	%eax, %edx
	andl	$-2, %edx
	xorl	%ecx, %ecx
	movl	%eax, %esi
	.p2align	4
.LBB1_1184:
	movq	216(%rsp), %rdi
	movl	%esi, (%rdi,%rcx,4)
	leaq	1(%rcx), %rdi
	movq	%rdi, 224(%rsp)
	leal	-1(%rsi), %edi
	movq	216(%rsp), %r8
	movl	%edi, 4(%r8,%rcx,4)
	addq	$2, %rcx
	movq	%rcx, 224(%rsp)
	addl	$-2, %esi
	cmpq	%rcx, %rdx
	jne	.LBB1_1184
	testb	$1, %al
	movq	16(%rsp), %rdx
	je	.LBB1_1188
	subq	%rcx, %rax
.LBB1_1187:
	movq	216(%rsp), %rdx
	movl	%eax, (%rdx,%rcx,4)
	incq	%rcx
	movq	%rcx, 224(%rsp)
	movq	16(%rsp), %rdx
.LBB1_1188:
	movq	240(%rsp), %rax
	incq	%rax
	movl	$2, %ecx
	cmovneq	%rax, %rcx
	movq	%rcx, 240(%rsp)
	movq	528(%rsp), %rax
	leaq	39(%rsp), %rcx
	movq	%rax, 16(%rcx)
	movaps	512(%rsp), %xmm0
	movups	%xmm0, (%rcx)
	movq	16(%rcx), %rax
	movq	%rax, 16(%r9)
	movups	(%rcx), %xmm0
	movups	%xmm0, (%r9)
	movb	$11, %cl
	xorl	%eax, %eax
.LBB1_1189:
	movb	%cl, 320(%rsp)
	movb	%al, 321(%rsp)
	movl	$0, 324(%rsp)
	movq	48(%r9), %rax
	movq	%rax, 52(%r10)
	movups	(%r9), %xmm0
	movq	16(%r9), %rax
	movq	24(%r9), %rcx
	movups	32(%r9), %xmm1
	movups	%xmm1, 36(%r10)
	movq	%rax, 20(%r10)
	movq	%rcx, 28(%r10)
	movups	%xmm0, 4(%r10)
	jmp	.LBB1_844
.LBB1_1190:
	testl	%r10d, %r10d
	je	.LBB1_1200
	movl	%r10d, %eax
	imulq	$56, %rax, %r14
	cmpb	$0, -56(%r9,%r14)
	jne	.LBB1_1362
	addq	%r9, %r14
	addq	$2, %rdx
	adcq	$0, %rsi
	movb	$1, %r11b
	movq	%rdx, %rax
	movq	%rsi, %rcx
	jmp	.LBB1_1195
.LBB1_1193:
	movq	%r8, %rdx
	movl	%edi, %ebx
.LBB1_1194:
	addq	$1, %rax
	adcq	$0, %rcx
	movl	%r10d, %esi
	imulq	$56, %rsi, %rsi
	leaq	(%r9,%rsi), %r14
	cmpb	$0, -56(%r9,%rsi)
	movl	%ebx, %edi
	movq	%rdx, %r8
	jne	.LBB1_1362
.LBB1_1195:
	movl	%r10d, %ebx
	movq	-32(%r14), %rdx
	cmpq	%rdx, %r15
	setge	%sil
	movl	-40(%r14), %r12d
	movl	-36(%r14), %ebp
	movl	%r12d, %r10d
	cmovgl	%ebp, %r10d
	addb	%sil, %sil
	cmpq	%rdx, %r15
	movq	-48(%r14), %rdx
	movzbl	%sil, %r14d
	movl	$1, %esi
	cmovnel	%r14d, %esi
	orl	%r12d, %ebp
	testb	%sil, %sil
	je	.LBB1_1201
	movzbl	%sil, %r14d
	cmpl	$1, %r14d
	jne	.LBB1_1204
	testl	%ebp, %ebp
	je	.LBB1_1442
	movb	$1, %r11b
	testl	%r10d, %r10d
	jne	.LBB1_1194
	jmp	.LBB1_1199
.LBB1_1201:
	testl	%ebp, %ebp
	je	.LBB1_1445
	testl	%r10d, %r10d
	je	.LBB1_1207
	xorl	%edx, %edx
	xorl	%ebx, %ebx
	xorl	%r11d, %r11d
	jmp	.LBB1_1194
.LBB1_1204:
	testl	%ebp, %ebp
	je	.LBB1_1443
	testl	%r10d, %r10d
	jne	.LBB1_1193
	testb	%r11b, %r11b
	jne	.LBB1_1200
.LBB1_1207:
	movl	$0, 83(%rsp)
	movl	$0, 80(%rsp)
	jmp	.LBB1_1208
.LBB1_1209:
	cmpq	%r11, %r15
	setge	%sil
	addb	%sil, %sil
	movl	$0, 387(%rsp)
	movl	$0, 384(%rsp)
	movl	$1, %r10d
	movl	%edi, %ebx
	movq	%r8, %rdx
	movq	64(%rsp), %r11
	jmp	.LBB1_1460
.LBB1_1210:
	movq	192(%rsp), %rsi
	movw	$0, 512(%rsp)
	movb	$0, 514(%rsp)
	movb	$1, %al
	movl	%eax, 304(%rsp)
	xorl	%eax, %eax
	xorl	%r11d, %r11d
	movq	$0, 296(%rsp)
	movb	$1, %r9b
	movb	$1, %dil
	xorl	%edx, %edx
	jmp	.LBB1_1336
.LBB1_1211:
	movq	192(%rsp), %rsi
	movw	$0, 512(%rsp)
	movb	$0, 514(%rsp)
	movb	$1, %al
	movl	%eax, 304(%rsp)
	xorl	%eax, %eax
	xorl	%r11d, %r11d
	movq	$0, 296(%rsp)
	movb	$1, %r9b
	movb	$1, %dil
	xorl	%edx, %edx
	jmp	.LBB1_1368
.LBB1_1212:
	leaq	(%rcx,%rsi), %rdx
	addq	$24, %rdx
.LBB1_1213:
	movl	52(%rcx,%rsi), %esi
	testq	%rsi, %rsi
	je	.LBB1_970
	decq	%rsi
	cmpq	%rax, %rsi
	jae	.LBB1_970
	imulq	$56, %rsi, %rsi
	cmpb	$0, (%rcx,%rsi)
	jne	.LBB1_970
	leaq	(%rcx,%rsi), %r8
	movq	(%rdx), %r9
	leaq	24(%r8), %rdx
	xorl	%edi, %edi
	cmpq	24(%r8), %r9
	jle	.LBB1_1213
	jmp	.LBB1_971
.LBB1_1217:
	xorl	%eax, %eax
	xorl	%ecx, %ecx
.LBB1_1218:
	movl	$0, 35(%rsp)
	movl	$0, 32(%rsp)
	cmpb	$1, 280(%rsp)
	jne	.LBB1_1280
	movq	%r11, 64(%rsp)
	movl	284(%rsp), %r11d
	movq	%rax, %r8
	movq	%rcx, %r9
.LBB1_1220:
	movl	%r11d, %edi
	addq	$1, %r8
	adcq	$0, %r9
	movl	%r11d, %edx
	imulq	$56, %rdx, %r11
	cmpb	$0, -56(%r10,%r11)
	jne	.LBB1_1362
	movq	-48(%r10,%r11), %rdx
	movq	-32(%r10,%r11), %rsi
	cmpq	%rsi, %r15
	movl	-40(%r10,%r11), %ebx
	movl	-36(%r10,%r11), %ebp
	movl	%ebx, %r11d
	cmovgl	%ebp, %r11d
	je	.LBB1_1293
	orl	%ebx, %ebp
	movl	$0, 35(%rsp)
	movl	$0, 32(%rsp)
	je	.LBB1_1312
	movq	%r8, %rax
	movq	%r9, %rcx
	testl	%r11d, %r11d
	jne	.LBB1_1220
	cmpq	%rsi, %r15
	setge	%sil
	addb	%sil, %sil
	movl	$1, %r10d
	movq	64(%rsp), %r11
	jmp	.LBB1_1281
.LBB1_1280:
	xorl	%esi, %esi
	xorl	%edx, %edx
	xorl	%r10d, %r10d
	movq	%rax, %r8
	movq	%rcx, %r9
.LBB1_1281:
	movl	32(%rsp), %eax
	movl	35(%rsp), %ecx
	movl	%ecx, 387(%rsp)
	movl	%eax, 384(%rsp)
	jmp	.LBB1_1459
.LBB1_1225:
	cmpq	%r14, 432(%rsp)
	je	.LBB1_1228
	xorl	%esi, %esi
.LBB1_1227:
	xorl	%edx, %edx
	xorl	%r10d, %r10d
.LBB1_1228:
	movq	%r12, %r11
.LBB1_1229:
	movw	$2, 320(%rsp)
	movl	$0, 324(%rsp)
	movq	%rdx, 328(%rsp)
	movl	%esi, 336(%rsp)
	movl	$0, 340(%rsp)
	movq	%r10, 344(%rsp)
	movq	%rax, 352(%rsp)
	movq	%rcx, 360(%rsp)
	xorps	%xmm0, %xmm0
	leaq	324(%rsp), %r10
	jmp	.LBB1_842
.LBB1_1230:
	xorl	%ebx, %ebx
	xorl	%eax, %eax
	movq	%r14, %r11
	leaq	324(%rsp), %r10
	jmp	.LBB1_907
.LBB1_1231:
	movq	%r14, %r11
	movaps	384(%rsp), %xmm0
	movaps	%xmm0, 80(%rsp)
	xorl	%ecx, %ecx
	jmp	.LBB1_908
.LBB1_1232:
	leaq	192(%rsp), %rdi
	movq	%r12, %rsi
	movq	%r11, %rbx
	callq	"chain_base::chain::ChainArena::reallocate_min_capacity::<#bdd88387dc76e1c4>"
	leaq	324(%rsp), %r10
	movq	%rbx, %r11
	testb	%dl, %dl
	sete	%cl
	xorb	$3, %cl
	xorl	%edx, %edx
	testb	%al, %al
	movl	$13, %eax
	movl	$1, %esi
	cmovel	%eax, %esi
	movzbl	%cl, %eax
	cmovel	%edx, %eax
	movb	%sil, 320(%rsp)
	movb	%al, 321(%rsp)
	xorps	%xmm0, %xmm0
	movups	%xmm0, (%r10)
	movups	%xmm0, 16(%r10)
	movups	%xmm0, 32(%r10)
	movups	%xmm0, 44(%r10)
	jmp	.LBB1_843
.LBB1_1233:
	xorl	%eax, %eax
.LBB1_1234:
	movl	%ebx, %ecx
	decq	%rcx
	cmpq	200(%rsp), %rcx
	jae	.LBB1_1035
	movq	192(%rsp), %rsi
	imulq	$56, %rcx, %rcx
	cmpb	$0, (%rsi,%rcx)
	jne	.LBB1_1035
	movl	52(%rsi,%rcx), %ebx
	movzbl	44(%rsi,%rcx), %ebp
	cmpq	%rax, 48(%rsp)
	je	.LBB1_1238
.LBB1_1237:
	movb	%bpl, (%rdx,%rax)
	incq	%rax
	movq	%rax, 40(%rsp)
	testl	%ebx, %ebx
	jne	.LBB1_1234
	jmp	.LBB1_1035
.LBB1_1238:
	movq	%r11, %r14
	leaq	32(%rsp), %rdi
	callq	"std_alloc::vec::Vec::grow_amortized::<#18fb090d2815c35d>"
	testb	%al, %al
	je	.LBB1_1462
	movq	32(%rsp), %rdx
	movq	40(%rsp), %rax
	movq	%r14, %r11
	leaq	324(%rsp), %r10
	jmp	.LBB1_1237
.LBB1_1240:
	xorl	%eax, %eax
.LBB1_1241:
	movl	%ebx, %ecx
	decq	%rcx
	cmpq	200(%rsp), %rcx
	jae	.LBB1_893
	movq	192(%rsp), %rsi
	imulq	$56, %rcx, %rcx
	cmpb	$0, (%rsi,%rcx)
	jne	.LBB1_893
	movq	8(%rsi,%rcx), %r14
	movl	52(%rsi,%rcx), %ebp
	movups	24(%rsi,%rcx), %xmm0
	cmpq	%rax, 48(%rsp)
	je	.LBB1_1245
.LBB1_1244:
	movq	%rax, %rcx
	shlq	$5, %rcx
	incq	%rax
	movl	%ebx, (%rdx,%rcx)
	movl	$0, 4(%rdx,%rcx)
	movq	%r14, 8(%rdx,%rcx)
	movups	%xmm0, 16(%rdx,%rcx)
	movq	%rax, 40(%rsp)
	movl	%ebp, %ebx
	testl	%ebp, %ebp
	jne	.LBB1_1241
	jmp	.LBB1_893
.LBB1_1245:
	movaps	%xmm0, 432(%rsp)
	movq	%r11, %r15
	leaq	32(%rsp), %rdi
	callq	"std_alloc::vec::Vec::grow_amortized::<#62ae4b2f8014e38f>"
	testb	%al, %al
	je	.LBB1_1464
	movq	32(%rsp), %rdx
	movq	40(%rsp), %rax
	movq	%r15, %r11
	leaq	324(%rsp), %r10
	movaps	432(%rsp), %xmm0
	jmp	.LBB1_1244
.LBB1_1247:
	movl	284(%rsp), %esi
	imulq	$56, %rdi, %rbx
	jmp	.LBB1_1248
.LBB1_1253:
	movl	%esi, %r10d
	orl	%edi, %r10d
	cmpq	%r9, %rdx
	setl	%r14b
	cmovll	%edi, %esi
	movl	%r10d, %edi
	leaq	324(%rsp), %r10
	testl	%edi, %edi
	je	.LBB1_1259
.LBB1_1258:
	testl	%esi, %esi
	je	.LBB1_1259
.LBB1_1248:
	movl	%esi, %r15d
	cmpl	%r12d, %esi
	jne	.LBB1_1254
	cmpb	$0, -56(%rax,%rbx)
	jne	.LBB1_1362
	movl	-8(%rax,%rbx), %esi
	testq	%rsi, %rsi
	je	.LBB1_1256
	imulq	$56, %rsi, %rsi
	cmpb	$0, -56(%rax,%rsi)
	jne	.LBB1_1362
	movq	-32(%rax,%rsi), %r9
	movl	-40(%rax,%rbx), %edi
	movl	-36(%rax,%rbx), %esi
	cmpq	%r9, %rdx
	jne	.LBB1_1253
	orl	%esi, %edi
	xorl	%r14d, %r14d
	testl	%edi, %edi
	jne	.LBB1_1258
	jmp	.LBB1_1259
.LBB1_1254:
	movl	%r15d, %esi
	imulq	$56, %rsi, %r9
	cmpb	$0, -56(%rax,%r9)
	jne	.LBB1_1362
	movl	-40(%rax,%r9), %r10d
	movl	-36(%rax,%r9), %esi
	movl	%esi, %edi
	orl	%r10d, %edi
	cmpq	-32(%rax,%r9), %rdx
	setl	%r14b
	cmovll	%r10d, %esi
	leaq	324(%rsp), %r10
	testl	%edi, %edi
	jne	.LBB1_1258
	jmp	.LBB1_1259
.LBB1_1256:
	movl	-40(%rax,%rbx), %edi
	movl	-36(%rax,%rbx), %esi
	orl	%esi, %edi
	xorl	%r14d, %r14d
	testl	%edi, %edi
	jne	.LBB1_1258
.LBB1_1259:
	xorb	$1, %r14b
.LBB1_1260:
	cmpb	$0, -56(%rax,%rbx)
	jne	.LBB1_1362
	movups	-32(%rax,%rbx), %xmm1
	movq	%rdx, -32(%rax,%rbx)
	movq	%r8, -24(%rax,%rbx)
	movl	$1, %ebp
	cmpb	$1, %cl
	jne	.LBB1_983
	cmpl	%r12d, %r15d
	movq	16(%rsp), %rdx
	je	.LBB1_984
	movl	%r15d, %esi
	leaq	-1(%rsi), %rcx
	movq	192(%rsp), %rax
	cmpq	200(%rsp), %rcx
	jae	.LBB1_1265
	imulq	$56, %rcx, %rcx
	cmpb	$0, (%rax,%rcx)
	je	.LBB1_1448
.LBB1_1265:
	movq	%rsi, 304(%rsp)
	movaps	%xmm1, 432(%rsp)
	movq	%r11, 64(%rsp)
	cmpb	$0, -56(%rax,%rbx)
	jne	.LBB1_1362
	movl	-8(%rax,%rbx), %r8d
	xorl	%ecx, %ecx
	testl	%r8d, %r8d
	setne	%cl
	leaq	192(%rsp), %rdi
	leaq	280(%rsp), %rsi
	movl	%r12d, %edx
	callq	"ord_tree::detach::detach::<#c550f621a6e4d4b2>"
	movq	192(%rsp), %rdi
	cmpb	$0, -56(%rdi,%rbx)
	jne	.LBB1_1362
	movl	-8(%rdi,%rbx), %eax
	movl	-4(%rdi,%rbx), %esi
	xorl	%ecx, %ecx
	testq	%rax, %rax
	setne	%dl
	movq	64(%rsp), %r11
	xorps	%xmm0, %xmm0
	movaps	432(%rsp), %xmm1
	movl	%r14d, %r9d
	je	.LBB1_1270
	imulq	$56, %rax, %r8
	cmpb	$0, -56(%rdi,%r8)
	jne	.LBB1_1362
	movl	%esi, -4(%rdi,%r8)
.LBB1_1270:
	testl	%esi, %esi
	je	.LBB1_1273
	movq	192(%rsp), %rdi
	imulq	$56, %rsi, %r8
	cmpb	$0, -56(%rdi,%r8)
	jne	.LBB1_1362
	movl	%eax, -8(%rdi,%r8)
.LBB1_1273:
	testl	%eax, %eax
	jne	.LBB1_1275
	xorl	%edi, %edi
	testl	%esi, %esi
	setne	%dil
	movl	%edi, 264(%rsp)
	movl	%esi, 268(%rsp)
.LBB1_1275:
	testl	%esi, %esi
	jne	.LBB1_1277
	movb	%dl, %cl
	movl	%ecx, 272(%rsp)
	movl	%eax, 276(%rsp)
.LBB1_1277:
	imulq	$56, 304(%rsp), %rax
	movq	192(%rsp), %rdi
	movzbl	-56(%rdi,%rax), %ecx
	testb	%r9b, %r9b
	je	.LBB1_1407
	testb	%cl, %cl
	jne	.LBB1_1362
	movl	-4(%rdi,%rax), %esi
	testl	%esi, %esi
	sete	%cl
	xorl	%edx, %edx
	movl	%r15d, %r8d
	jmp	.LBB1_1409
.LBB1_1282:
	movq	-48(%r9), %rdx
	movl	$0, 387(%rsp)
	movl	$0, 384(%rsp)
	movl	$1, %r10d
	movq	%r14, %r11
	jmp	.LBB1_1460
.LBB1_1283:
	xorl	%eax, %eax
	xorl	%ecx, %ecx
.LBB1_1284:
	cmpb	$1, 280(%rsp)
	jne	.LBB1_1290
	movl	284(%rsp), %r10d
	movq	%rax, %r14
	movq	%rcx, %r12
.LBB1_1286:
	addq	$1, %rax
	adcq	$0, %rcx
	movl	%r10d, %edx
	imulq	$56, %rdx, %rdx
	cmpb	$0, -56(%rdi,%rdx)
	jne	.LBB1_1362
	cmpq	-32(%rdi,%rdx), %r8
	movl	-40(%rdi,%rdx), %esi
	movl	-36(%rdi,%rdx), %r9d
	movl	%esi, %r11d
	cmovgl	%r9d, %r11d
	je	.LBB1_1313
	xorl	%edx, %edx
	orl	%esi, %r9d
	je	.LBB1_1326
	movl	%r11d, %r10d
	movq	%rax, %r14
	movq	%rcx, %r12
	movl	$0, %esi
	movl	$0, %r9d
	testl	%r11d, %r11d
	jne	.LBB1_1286
	jmp	.LBB1_980
.LBB1_1290:
	xorl	%edx, %edx
	jmp	.LBB1_1327
.LBB1_1291:
	xorl	%eax, %eax
.LBB1_1292:
	movl	%r12d, %ecx
	jmp	.LBB1_987
.LBB1_1293:
	testl	%r11d, %r11d
	je	.LBB1_1303
	movl	%r11d, %esi
	imulq	$56, %rsi, %rsi
	cmpb	$0, -56(%r10,%rsi)
	jne	.LBB1_1362
	addq	%r10, %rsi
	addq	$2, %rax
	adcq	$0, %rcx
	movb	$1, %bl
	movq	%rax, %r8
	movq	%rcx, %r9
	jmp	.LBB1_1298
.LBB1_1296:
	movq	%rdx, %rcx
	movl	%edi, %eax
.LBB1_1297:
	addq	$1, %r8
	adcq	$0, %r9
	movl	%r11d, %edx
	imulq	$56, %rdx, %rdx
	leaq	(%r10,%rdx), %rsi
	cmpb	$0, -56(%r10,%rdx)
	movl	%eax, %edi
	movq	%rcx, %rdx
	jne	.LBB1_1362
.LBB1_1298:
	movl	%r11d, %eax
	movq	-32(%rsi), %rcx
	cmpq	%rcx, %r15
	setge	%r14b
	movl	-40(%rsi), %r12d
	movl	-36(%rsi), %ebp
	movl	%r12d, %r11d
	cmovgl	%ebp, %r11d
	addb	%r14b, %r14b
	cmpq	%rcx, %r15
	movq	-48(%rsi), %rcx
	movzbl	%r14b, %r14d
	movl	$1, %esi
	cmovnel	%r14d, %esi
	orl	%r12d, %ebp
	testb	%sil, %sil
	je	.LBB1_1304
	movzbl	%sil, %r14d
	cmpl	$1, %r14d
	jne	.LBB1_1307
	testl	%ebp, %ebp
	je	.LBB1_1453
	movb	$1, %bl
	testl	%r11d, %r11d
	jne	.LBB1_1297
	jmp	.LBB1_1302
.LBB1_1304:
	testl	%ebp, %ebp
	je	.LBB1_1456
	testl	%r11d, %r11d
	je	.LBB1_1310
	xorl	%ecx, %ecx
	xorl	%eax, %eax
	xorl	%ebx, %ebx
	jmp	.LBB1_1297
.LBB1_1307:
	testl	%ebp, %ebp
	je	.LBB1_1454
	testl	%r11d, %r11d
	jne	.LBB1_1296
	testb	%bl, %bl
	jne	.LBB1_1303
.LBB1_1310:
	movl	$0, 83(%rsp)
	movl	$0, 80(%rsp)
	movq	%rcx, %rdx
	jmp	.LBB1_1311
.LBB1_1312:
	cmpq	%rsi, %r15
	setge	%sil
	addb	%sil, %sil
	movl	$0, 387(%rsp)
	movl	$0, 384(%rsp)
	movl	$1, %r10d
	jmp	.LBB1_1458
.LBB1_1313:
	movq	-48(%rdi,%rdx), %rbx
	movl	$1, %edx
	testl	%r11d, %r11d
	je	.LBB1_1129
	movl	%r11d, %eax
	imulq	$56, %rax, %rbp
	cmpb	$0, -56(%rdi,%rbp)
	jne	.LBB1_1362
	addq	%rdi, %rbp
	addq	$2, %r14
	adcq	$0, %r12
	movb	$1, %al
	movq	%rax, 432(%rsp)
	movq	%r14, %rax
	movq	%r12, %rcx
	jmp	.LBB1_1318
.LBB1_1316:
	xorl	%r9d, %r9d
	xorl	%esi, %esi
	movq	$0, 432(%rsp)
.LBB1_1317:
	addq	$1, %rax
	adcq	$0, %rcx
	movl	%r11d, %r10d
	imulq	$56, %r10, %r10
	leaq	(%rdi,%r10), %rbp
	cmpb	$0, -56(%rdi,%r10)
	movl	%esi, %r10d
	movq	%r9, %rbx
	jne	.LBB1_1362
.LBB1_1318:
	movl	%r11d, %esi
	movq	-32(%rbp), %r14
	cmpq	%r14, %r8
	setge	%r13b
	movl	-40(%rbp), %r15d
	movl	-36(%rbp), %r12d
	movl	%r15d, %r11d
	cmovgl	%r12d, %r11d
	addb	%r13b, %r13b
	cmpq	%r14, %r8
	movq	-48(%rbp), %r9
	movzbl	%r13b, %r13d
	movl	$1, %ebp
	cmovnel	%r13d, %ebp
	orl	%r15d, %r12d
	testb	%bpl, %bpl
	je	.LBB1_1322
	movzbl	%bpl, %ebp
	cmpl	$1, %ebp
	movq	312(%rsp), %r13
	jne	.LBB1_1328
	testl	%r12d, %r12d
	je	.LBB1_980
	movb	$1, %r10b
	movq	%r10, 432(%rsp)
	testl	%r11d, %r11d
	jne	.LBB1_1317
	jmp	.LBB1_980
.LBB1_1322:
	testl	%r12d, %r12d
	movq	312(%rsp), %r13
	je	.LBB1_1324
	testl	%r11d, %r11d
	jne	.LBB1_1316
	jmp	.LBB1_1324
.LBB1_1328:
	testl	%r12d, %r12d
	je	.LBB1_1128
	testl	%r11d, %r11d
	je	.LBB1_1128
	movq	%rbx, %r9
	movl	%r10d, %esi
	jmp	.LBB1_1317
.LBB1_1324:
	cmpq	%r14, %r8
	je	.LBB1_980
	xorl	%edx, %edx
.LBB1_1326:
	xorl	%esi, %esi
.LBB1_1327:
	xorl	%r9d, %r9d
.LBB1_980:
	movw	$2, 320(%rsp)
	movl	$0, 324(%rsp)
	movq	%rdx, 328(%rsp)
	movl	%esi, 336(%rsp)
	movl	$0, 340(%rsp)
	movq	%r9, 344(%rsp)
	movq	%rax, 352(%rsp)
	movq	%rcx, 360(%rsp)
	xorps	%xmm0, %xmm0
	leaq	324(%rsp), %r10
	movaps	%xmm0, 44(%r10)
	movq	64(%rsp), %r11
	jmp	.LBB1_843
.LBB1_1331:
	movb	$0, 426(%rsp)
	movw	$0, 424(%rsp)
	movb	$1, %r9b
	xorl	%r11d, %r11d
	movq	$0, 296(%rsp)
.LBB1_1332:
	testb	%al, %al
	movl	%r9d, 304(%rsp)
	je	.LBB1_1334
	movl	%edx, %eax
	movl	-4(%rdi), %edx
	testl	%edx, %edx
	sete	%dil
	movzbl	426(%rsp), %r8d
	movb	%r8b, 514(%rsp)
	movzwl	424(%rsp), %r8d
	movw	%r8w, 512(%rsp)
	xorl	%r9d, %r9d
	jmp	.LBB1_1336
.LBB1_1334:
	imulq	$56, %r8, %rax
	cmpb	$0, -56(%rsi,%rax)
	jne	.LBB1_1362
	movl	-8(%rsi,%rax), %eax
	testl	%eax, %eax
	sete	%r9b
	movzbl	426(%rsp), %edi
	movb	%dil, 514(%rsp)
	movzwl	424(%rsp), %edi
	movw	%di, 512(%rsp)
	xorl	%edi, %edi
.LBB1_1336:
	movq	216(%rsp), %r8
	movq	224(%rsp), %r10
	movq	240(%rsp), %r14
	leaq	-1(%r10), %r13
	movq	%r13, 224(%rsp)
	movl	-4(%r8,%r10,4), %r8d
	imulq	$56, %r8, %r10
	movzbl	-56(%rsi,%r10), %ebp
	movq	$0, -56(%rsi,%r10)
	movq	%r14, -48(%rsi,%r10)
	movq	$0, -40(%rsi,%r10)
	movq	%rcx, -32(%rsi,%r10)
	movq	432(%rsp), %rcx
	movq	%rcx, -24(%rsi,%r10)
	movl	%r11d, -16(%rsi,%r10)
	movb	$1, -12(%rsi,%r10)
	movzwl	512(%rsp), %ecx
	movw	%cx, -11(%rsi,%r10)
	movzbl	514(%rsp), %ecx
	movb	%cl, -9(%rsi,%r10)
	movl	%eax, -8(%rsi,%r10)
	movl	%edx, -4(%rsi,%r10)
	cmpb	$1, %bpl
	jne	.LBB1_1362
	testb	%r9b, %r9b
	movq	312(%rsp), %r13
	movq	64(%rsp), %r11
	jne	.LBB1_1340
	movq	192(%rsp), %rcx
	movl	%eax, %eax
	imulq	$56, %rax, %rax
	cmpb	$0, -56(%rcx,%rax)
	jne	.LBB1_1362
	movl	%r8d, -4(%rcx,%rax)
.LBB1_1340:
	testb	%dil, %dil
	jne	.LBB1_1343
	movq	192(%rsp), %rax
	movl	%edx, %ecx
	imulq	$56, %rcx, %rcx
	cmpb	$0, -56(%rax,%rcx)
	jne	.LBB1_1362
	movl	%r8d, -8(%rax,%rcx)
.LBB1_1343:
	testb	%r9b, %r9b
	je	.LBB1_1344
	movl	$1, 264(%rsp)
	movl	%r8d, 268(%rsp)
	testb	%dil, %dil
	movq	296(%rsp), %rdx
	jne	.LBB1_1347
.LBB1_1345:
	cmpb	$0, 304(%rsp)
	je	.LBB1_1348
	jmp	.LBB1_1378
.LBB1_1344:
	testb	%dil, %dil
	movq	296(%rsp), %rdx
	je	.LBB1_1345
.LBB1_1347:
	movl	$1, 272(%rsp)
	movl	%r8d, 276(%rsp)
	cmpb	$0, 304(%rsp)
	jne	.LBB1_1378
.LBB1_1348:
	movq	192(%rsp), %rax
	movl	%edx, %ecx
	imulq	$56, %rcx, %rcx
	cmpb	$0, -56(%rax,%rcx)
	jne	.LBB1_1362
	shrq	$32, %rdx
	jne	.LBB1_1351
	movl	%r8d, -40(%rax,%rcx)
	jmp	.LBB1_1352
.LBB1_1351:
	movl	%r8d, -36(%rax,%rcx)
.LBB1_1352:
	movq	192(%rsp), %rax
	cmpb	$0, -56(%rax,%r10)
	jne	.LBB1_1362
	addq	%rax, %r10
	jmp	.LBB1_1354
.LBB1_1360:
	xorl	%eax, %eax
	movl	%edi, %r10d
	subb	%al, %r10b
	cmpb	$1, %r10b
	jne	.LBB1_1393
.LBB1_1361:
	incb	%dil
	movb	%dil, -12(%rsi)
	movq	192(%rsp), %rax
	leaq	(%rax,%rdx), %r10
	cmpb	$0, -56(%rax,%rdx)
	movl	%ecx, %r8d
	jne	.LBB1_1362
.LBB1_1354:
	movl	-16(%r10), %ecx
	testq	%rcx, %rcx
	je	.LBB1_1394
	imulq	$56, %rcx, %rdx
	cmpb	$0, -56(%rax,%rdx)
	jne	.LBB1_1362
	leaq	(%rax,%rdx), %rsi
	movzbl	-12(%rsi), %edi
	cmpb	%dil, -12(%r10)
	jb	.LBB1_1394
	movl	-40(%rsi), %r9d
	testl	%r9d, %r9d
	sete	%r10b
	cmpl	%r8d, %r9d
	setne	%r9b
	orb	%r10b, %r9b
	movl	%r9d, %r10d
	xorb	$1, %r10b
	movzbl	%r10b, %r10d
	shll	$2, %r10d
	orq	$-40, %r10
	movl	(%rsi,%r10), %r10d
	testq	%r10, %r10
	je	.LBB1_1360
	imulq	$56, %r10, %r10
	cmpb	$0, -56(%rax,%r10)
	jne	.LBB1_1362
	movzbl	-12(%rax,%r10), %eax
	movl	%edi, %r10d
	subb	%al, %r10b
	cmpb	$1, %r10b
	je	.LBB1_1361
	jmp	.LBB1_1393
.LBB1_1363:
	movb	$0, 426(%rsp)
	movw	$0, 424(%rsp)
	movb	$1, %r9b
	xorl	%r11d, %r11d
	movq	$0, 296(%rsp)
.LBB1_1364:
	testb	%al, %al
	movl	%r9d, 304(%rsp)
	je	.LBB1_1366
	movl	%edx, %eax
	movl	-4(%rdi), %edx
	testl	%edx, %edx
	sete	%dil
	movzbl	426(%rsp), %r8d
	movb	%r8b, 514(%rsp)
	movzwl	424(%rsp), %r8d
	movw	%r8w, 512(%rsp)
	xorl	%r9d, %r9d
	jmp	.LBB1_1368
.LBB1_1366:
	imulq	$56, %r8, %rax
	cmpb	$0, -56(%rsi,%rax)
	jne	.LBB1_1362
	movl	-8(%rsi,%rax), %eax
	testl	%eax, %eax
	sete	%r9b
	movzbl	426(%rsp), %edi
	movb	%dil, 514(%rsp)
	movzwl	424(%rsp), %edi
	movw	%di, 512(%rsp)
	xorl	%edi, %edi
.LBB1_1368:
	movq	216(%rsp), %r8
	movq	224(%rsp), %r10
	movq	240(%rsp), %r14
	leaq	-1(%r10), %r13
	movq	%r13, 224(%rsp)
	movl	-4(%r8,%r10,4), %r8d
	imulq	$56, %r8, %r10
	movzbl	-56(%rsi,%r10), %ebp
	movq	$0, -56(%rsi,%r10)
	movq	%r14, -48(%rsi,%r10)
	movq	$0, -40(%rsi,%r10)
	movq	%rcx, -32(%rsi,%r10)
	movq	432(%rsp), %rcx
	movq	%rcx, -24(%rsi,%r10)
	movl	%r11d, -16(%rsi,%r10)
	movb	$1, -12(%rsi,%r10)
	movzwl	512(%rsp), %ecx
	movw	%cx, -11(%rsi,%r10)
	movzbl	514(%rsp), %ecx
	movb	%cl, -9(%rsi,%r10)
	movl	%eax, -8(%rsi,%r10)
	movl	%edx, -4(%rsi,%r10)
	cmpb	$1, %bpl
	jne	.LBB1_1362
	testb	%r9b, %r9b
	movq	312(%rsp), %r13
	movq	64(%rsp), %r11
	jne	.LBB1_1372
	movq	192(%rsp), %rcx
	movl	%eax, %eax
	imulq	$56, %rax, %rax
	cmpb	$0, -56(%rcx,%rax)
	jne	.LBB1_1362
	movl	%r8d, -4(%rcx,%rax)
.LBB1_1372:
	testb	%dil, %dil
	jne	.LBB1_1375
	movq	192(%rsp), %rax
	movl	%edx, %ecx
	imulq	$56, %rcx, %rcx
	cmpb	$0, -56(%rax,%rcx)
	jne	.LBB1_1362
	movl	%r8d, -8(%rax,%rcx)
.LBB1_1375:
	testb	%r9b, %r9b
	je	.LBB1_1376
	movl	$1, 264(%rsp)
	movl	%r8d, 268(%rsp)
	testb	%dil, %dil
	movq	296(%rsp), %rdx
	jne	.LBB1_1380
.LBB1_1377:
	cmpb	$0, 304(%rsp)
	je	.LBB1_1381
.LBB1_1378:
	movl	$1, 280(%rsp)
	movl	%r8d, 284(%rsp)
	jmp	.LBB1_1394
.LBB1_1376:
	testb	%dil, %dil
	movq	296(%rsp), %rdx
	je	.LBB1_1377
.LBB1_1380:
	movl	$1, 272(%rsp)
	movl	%r8d, 276(%rsp)
	cmpb	$0, 304(%rsp)
	jne	.LBB1_1378
.LBB1_1381:
	movq	192(%rsp), %rax
	movl	%edx, %ecx
	imulq	$56, %rcx, %rcx
	cmpb	$0, -56(%rax,%rcx)
	jne	.LBB1_1362
	shrq	$32, %rdx
	jne	.LBB1_1384
	movl	%r8d, -40(%rax,%rcx)
	jmp	.LBB1_1385
.LBB1_1384:
	movl	%r8d, -36(%rax,%rcx)
.LBB1_1385:
	movq	192(%rsp), %rax
	cmpb	$0, -56(%rax,%r10)
	jne	.LBB1_1362
	addq	%rax, %r10
	jmp	.LBB1_1387
.LBB1_1397:
	xorl	%eax, %eax
	movl	%edi, %r10d
	subb	%al, %r10b
	cmpb	$1, %r10b
	jne	.LBB1_1393
.LBB1_1398:
	incb	%dil
	movb	%dil, -12(%rsi)
	movq	192(%rsp), %rax
	leaq	(%rax,%rdx), %r10
	cmpb	$0, -56(%rax,%rdx)
	movl	%ecx, %r8d
	jne	.LBB1_1362
.LBB1_1387:
	movl	-16(%r10), %ecx
	testq	%rcx, %rcx
	je	.LBB1_1394
	imulq	$56, %rcx, %rdx
	cmpb	$0, -56(%rax,%rdx)
	jne	.LBB1_1362
	leaq	(%rax,%rdx), %rsi
	movzbl	-12(%rsi), %edi
	cmpb	%dil, -12(%r10)
	jb	.LBB1_1394
	movl	-40(%rsi), %r9d
	testl	%r9d, %r9d
	sete	%r10b
	cmpl	%r8d, %r9d
	setne	%r9b
	orb	%r10b, %r9b
	movl	%r9d, %r10d
	xorb	$1, %r10b
	movzbl	%r10b, %r10d
	shll	$2, %r10d
	orq	$-40, %r10
	movl	(%rsi,%r10), %r10d
	testq	%r10, %r10
	je	.LBB1_1397
	imulq	$56, %r10, %r10
	cmpb	$0, -56(%rax,%r10)
	jne	.LBB1_1362
	movzbl	-12(%rax,%r10), %eax
	movl	%edi, %r10d
	subb	%al, %r10b
	cmpb	$1, %r10b
	je	.LBB1_1398
.LBB1_1393:
	movzbl	%r9b, %edx
	leaq	192(%rsp), %rdi
	leaq	280(%rsp), %rsi
	callq	"ord_tree::promote::rotate_once_or_twice::<#c550f621a6e4d4b2>"
	movq	64(%rsp), %r11
.LBB1_1394:
	xorps	%xmm0, %xmm0
	leaq	324(%rsp), %r10
.LBB1_1395:
	xorl	%eax, %eax
	xorl	%ecx, %ecx
	movq	16(%rsp), %rdx
.LBB1_1396:
	movb	%al, 320(%rsp)
	movb	%cl, 321(%rsp)
	movl	$0, 324(%rsp)
	movq	%r15, 328(%rsp)
	movl	%ebx, 336(%rsp)
	movl	$0, 340(%rsp)
	movq	%r12, 344(%rsp)
	movq	%r15, 352(%rsp)
	movups	%xmm0, 360(%rsp)
	movq	$0, 376(%rsp)
	jmp	.LBB1_844
.LBB1_1399:
	movl	%r10d, %edx
	movq	%r11, %rsi
	movq	312(%rsp), %r13
	jmp	.LBB1_1401
.LBB1_1400:
	testb	%bl, %bl
	je	.LBB1_1404
.LBB1_1401:
	movl	$0, 83(%rsp)
	movl	$0, 80(%rsp)
	movb	$1, %r8b
	jmp	.LBB1_1405
.LBB1_1159:
	movq	%r11, %rsi
	movl	%r10d, %edx
	jmp	.LBB1_1403
.LBB1_1402:
	testb	%bl, %bl
	je	.LBB1_1404
.LBB1_1403:
	movq	64(%rsp), %r11
	movl	$0, 83(%rsp)
	movl	$0, 80(%rsp)
	movb	$1, %r8b
	jmp	.LBB1_1406
.LBB1_1404:
	movl	$0, 83(%rsp)
	movl	$0, 80(%rsp)
	movl	%r10d, %edx
	movq	%r11, %rsi
.LBB1_1405:
	movq	64(%rsp), %r11
.LBB1_1406:
	leaq	324(%rsp), %r10
	movl	80(%rsp), %edi
	movl	83(%rsp), %r9d
	movl	%r9d, 387(%rsp)
	movl	%edi, 384(%rsp)
	movl	$1, %edi
	jmp	.LBB1_1168
.LBB1_1407:
	testb	%cl, %cl
	jne	.LBB1_1362
	movl	-8(%rdi,%rax), %r8d
	testl	%r8d, %r8d
	sete	%dl
	xorl	%ecx, %ecx
	movl	%r15d, %esi
.LBB1_1409:
	cmpb	$0, -56(%rdi,%rbx)
	jne	.LBB1_1362
	xorl	%r9d, %r9d
	testb	%cl, %cl
	movl	%esi, %r10d
	cmovnel	%r9d, %r10d
	movl	%r10d, -4(%rdi,%rbx)
	movq	192(%rsp), %rdi
	cmpb	$0, -56(%rdi,%rbx)
	jne	.LBB1_1362
	testb	%dl, %dl
	cmovel	%r8d, %r9d
	movl	%r9d, -8(%rdi,%rbx)
	leaq	324(%rsp), %r10
	jne	.LBB1_1414
	movq	192(%rsp), %rdi
	movl	%r8d, %r8d
	imulq	$56, %r8, %r8
	cmpb	$0, -56(%rdi,%r8)
	jne	.LBB1_1362
	movl	%r12d, -4(%rdi,%r8)
.LBB1_1414:
	testb	%cl, %cl
	jne	.LBB1_1417
	movq	192(%rsp), %rdi
	movl	%esi, %esi
	imulq	$56, %rsi, %rsi
	cmpb	$0, -56(%rdi,%rsi)
	jne	.LBB1_1362
	movl	%r12d, -8(%rdi,%rsi)
.LBB1_1417:
	testb	%dl, %dl
	je	.LBB1_1418
	movl	$1, 264(%rsp)
	movl	%r12d, 268(%rsp)
	testb	%cl, %cl
	jne	.LBB1_1421
.LBB1_1419:
	movq	192(%rsp), %rsi
	cmpb	$0, -56(%rsi,%rax)
	je	.LBB1_1422
	jmp	.LBB1_1362
.LBB1_1418:
	testb	%cl, %cl
	je	.LBB1_1419
.LBB1_1421:
	movl	$1, 272(%rsp)
	movl	%r12d, 276(%rsp)
	movq	192(%rsp), %rsi
	cmpb	$0, -56(%rsi,%rax)
	jne	.LBB1_1362
.LBB1_1422:
	leaq	(%rsi,%rax), %rdi
	movzbl	%r14b, %edx
	shll	$2, %edx
	movq	%rdx, %r8
	orq	$-40, %r8
	leaq	(%rsi,%rbx), %rcx
	cmpl	$0, (%r8,%rdi)
	movzbl	-56(%rsi,%rbx), %esi
	je	.LBB1_1426
	testb	%sil, %sil
	jne	.LBB1_1362
	orq	$-8, %rdx
	movl	(%rcx,%rdx), %r15d
	testq	%r15, %r15
	je	.LBB1_1362
	imulq	$56, %r15, %rax
	jmp	.LBB1_1427
.LBB1_1426:
	testb	%r14b, %r14b
	sete	%r14b
	testb	%sil, %sil
	jne	.LBB1_1362
.LBB1_1427:
	movl	%r15d, -16(%rcx)
	movq	$0, -40(%rcx)
	movb	$1, -12(%rcx)
	movq	192(%rsp), %rcx
	cmpb	$0, -56(%rcx,%rax)
	jne	.LBB1_1362
	testb	%r14b, %r14b
	je	.LBB1_1430
	movl	%r12d, -40(%rcx,%rax)
	jmp	.LBB1_1431
.LBB1_1430:
	movl	%r12d, -36(%rcx,%rax)
.LBB1_1431:
	movq	192(%rsp), %rax
	cmpb	$0, -56(%rax,%rbx)
	jne	.LBB1_1362
	addq	%rax, %rbx
.LBB1_1433:
	movl	-16(%rbx), %ecx
	testq	%rcx, %rcx
	je	.LBB1_983
	imulq	$56, %rcx, %rdx
	cmpb	$0, -56(%rax,%rdx)
	jne	.LBB1_1362
	leaq	(%rax,%rdx), %rsi
	movzbl	-12(%rsi), %edi
	cmpb	%dil, -12(%rbx)
	jb	.LBB1_983
	movl	-40(%rsi), %r8d
	testl	%r8d, %r8d
	sete	%r9b
	cmpl	%r12d, %r8d
	setne	%r8b
	orb	%r9b, %r8b
	movl	%r8d, %r9d
	xorb	$1, %r9b
	movzbl	%r9b, %r9d
	shll	$2, %r9d
	orq	$-40, %r9
	movl	(%rsi,%r9), %r9d
	testq	%r9, %r9
	je	.LBB1_1439
	imulq	$56, %r9, %r9
	cmpb	$0, -56(%rax,%r9)
	jne	.LBB1_1362
	movzbl	-12(%rax,%r9), %eax
	jmp	.LBB1_1440
.LBB1_1439:
	xorl	%eax, %eax
.LBB1_1440:
	movl	%edi, %r9d
	subb	%al, %r9b
	cmpb	$1, %r9b
	jne	.LBB1_1447
	incb	%dil
	movb	%dil, -12(%rsi)
	movq	192(%rsp), %rax
	leaq	(%rax,%rdx), %rbx
	cmpb	$0, -56(%rax,%rdx)
	movl	%ecx, %r12d
	je	.LBB1_1433
	jmp	.LBB1_1362
.LBB1_1442:
	movl	%ebx, %edi
	movq	%rdx, %r8
	jmp	.LBB1_1444
.LBB1_1443:
	testb	%r11b, %r11b
	je	.LBB1_1445
.LBB1_1444:
	movl	$0, 83(%rsp)
	movl	$0, 80(%rsp)
	movb	$1, %sil
	movq	%r8, %rdx
	movl	%edi, %ebx
	jmp	.LBB1_1446
.LBB1_1445:
	movl	$0, 83(%rsp)
	movl	$0, 80(%rsp)
.LBB1_1446:
	movl	80(%rsp), %edi
	movl	83(%rsp), %r8d
	movl	%r8d, 387(%rsp)
	movl	%edi, 384(%rsp)
	movl	$1, %r10d
	movq	64(%rsp), %r11
	jmp	.LBB1_1460
.LBB1_1199:
	movq	%rdx, %r8
	movl	%ebx, %edi
.LBB1_1200:
	movl	$0, 83(%rsp)
	movl	$0, 80(%rsp)
	movb	$1, %sil
	movl	%edi, %ebx
	movq	%r8, %rdx
.LBB1_1208:
	movq	64(%rsp), %r11
	movl	80(%rsp), %edi
	movl	83(%rsp), %r8d
	movl	%r8d, 387(%rsp)
	movl	%edi, 384(%rsp)
	movl	$1, %r10d
	jmp	.LBB1_1460
.LBB1_1447:
	movzbl	%r8b, %edx
	leaq	192(%rsp), %rdi
	leaq	280(%rsp), %rsi
	movl	%r12d, %r8d
	callq	"ord_tree::promote::rotate_once_or_twice::<#c550f621a6e4d4b2>"
	movaps	432(%rsp), %xmm1
	xorps	%xmm0, %xmm0
	leaq	324(%rsp), %r10
	movq	64(%rsp), %r11
	jmp	.LBB1_983
.LBB1_1448:
	testb	%r14b, %r14b
	je	.LBB1_1450
	movl	52(%rax,%rcx), %ecx
	jmp	.LBB1_1451
.LBB1_1450:
	movl	48(%rax,%rcx), %ecx
.LBB1_1451:
	testl	%ecx, %ecx
	je	.LBB1_1265
	cmpl	%r12d, %ecx
	je	.LBB1_984
	jmp	.LBB1_1265
.LBB1_1453:
	movl	%eax, %edi
	movq	%rcx, %rdx
	jmp	.LBB1_1455
.LBB1_1454:
	testb	%bl, %bl
	je	.LBB1_1456
.LBB1_1455:
	movl	$0, 83(%rsp)
	movl	$0, 80(%rsp)
	movb	$1, %sil
	movl	%edi, %eax
	jmp	.LBB1_1457
.LBB1_1456:
	movl	$0, 83(%rsp)
	movl	$0, 80(%rsp)
	movq	%rcx, %rdx
.LBB1_1457:
	movl	80(%rsp), %ecx
	movl	83(%rsp), %edi
	movl	%edi, 387(%rsp)
	movl	%ecx, 384(%rsp)
	movl	$1, %r10d
	movl	%eax, %edi
.LBB1_1458:
	movq	64(%rsp), %r11
	jmp	.LBB1_1459
.LBB1_1302:
	movq	%rcx, %rdx
	movl	%eax, %edi
.LBB1_1303:
	movl	$0, 83(%rsp)
	movl	$0, 80(%rsp)
	movb	$1, %sil
	movl	%edi, %eax
.LBB1_1311:
	movq	64(%rsp), %r11
	movl	80(%rsp), %ecx
	movl	83(%rsp), %edi
	movl	%edi, 387(%rsp)
	movl	%ecx, 384(%rsp)
	movl	$1, %r10d
	movl	%eax, %edi
.LBB1_1459:
	movl	%edi, %ebx
	movq	%r8, %rax
	movq	%r9, %rcx
.LBB1_1460:
	movw	$3, 320(%rsp)
	movl	$0, 324(%rsp)
	movq	%r10, 328(%rsp)
	movl	%ebx, 336(%rsp)
	movl	$0, 340(%rsp)
	movq	%rdx, 344(%rsp)
	movb	%sil, 352(%rsp)
	movl	384(%rsp), %edx
	movl	387(%rsp), %esi
	leaq	324(%rsp), %r10
.LBB1_1461:
	movl	%esi, 32(%r10)
	movl	%edx, 29(%r10)
	movq	$0, 360(%rsp)
	movq	%rcx, 376(%rsp)
	movq	%rax, 368(%rsp)
	jmp	.LBB1_843
.LBB1_1462:
	cmpq	$0, 48(%rsp)
	movq	%r14, %r11
	leaq	324(%rsp), %r10
	je	.LBB1_1038
	movq	32(%rsp), %rdi
	callq	rattle_dealloc@PLT
	leaq	324(%rsp), %r10
	movq	%r14, %r11
	jmp	.LBB1_1038
.LBB1_1464:
	cmpq	$0, 48(%rsp)
	movq	%r15, %r11
	leaq	324(%rsp), %r10
	je	.LBB1_1038
	movq	32(%rsp), %rdi
	callq	rattle_dealloc@PLT
	leaq	324(%rsp), %r10
	movq	%r15, %r11
	jmp	.LBB1_1038
.LBB1_1466:
	movb	$32, 4(%rbx)
	movl	$1701734764, (%rbx)
.LBB1_1467:
	movq	%r15, 88(%rsp)
	movq	%r14, 96(%rsp)
	leaq	80(%rsp), %rdi
	callq	"core::fmt::formatter::Formatter::write_piece::<#3f49d50be5e66dfd>"
	testb	%al, %al
	movq	64(%rsp), %r15
	je	.LBB1_1484
.LBB1_1468:
	movq	296(%rsp), %r12
.LBB1_1469:
	movq	80(%rsp), %rbx
	movq	96(%rsp), %r14
.LBB1_1470:
	testq	%r14, %r14
	je	.LBB1_1473
	movq	%rbx, %rdi
	jmp	.LBB1_1472
.LBB1_1484:
	movl	$32, 104(%rsp)
	movl	$0, 20(%rbp)
	movq	$0, 12(%rbp)
	movq	$-1, 120(%rsp)
	cmpq	$0, 128(%rsp)
	jne	.LBB1_1528
	movq	88(%rsp), %rcx
	movq	96(%rsp), %rax
	movq	%rax, %rdx
	subq	%rcx, %rdx
	cmpq	$1, %rdx
	jbe	.LBB1_1529
.LBB1_1486:
	leaq	2(%rcx), %rdx
	addq	80(%rsp), %rcx
	movq	%rcx, %rsi
	subq	%r12, %rsi
	cmpq	$1, %rsi
	movw	$8250, (%rcx)
	movq	%rdx, 88(%rsp)
	movq	%rax, 96(%rsp)
.LBB1_1487:
	movzbl	624(%rsp), %ecx
	movl	$32, 104(%rsp)
	movl	$0, 20(%rbp)
	movq	$0, 12(%rbp)
	movq	$-1, 120(%rsp)
	movq	128(%rsp), %rax
	cmpl	$2, %ecx
	je	.LBB1_1493
	cmpl	$1, %ecx
	jne	.LBB1_1496
	testq	%rax, %rax
	jne	.LBB1_1539
	movq	88(%rsp), %rcx
	movq	96(%rsp), %rax
	movq	%rax, %rdx
	subq	%rcx, %rdx
	cmpq	$14, %rdx
	jbe	.LBB1_1544
.LBB1_1491:
	leaq	15(%rcx), %rdx
	addq	80(%rsp), %rcx
	leaq	.Lstatic.80(%rip), %rsi
	movq	%rcx, %rdi
	subq	%rsi, %rdi
	cmpq	$14, %rdi
	ja	.LBB1_1518
	movabsq	$8241904421671236215, %rsi
	movq	%rsi, (%rcx)
	movl	$1701672295, 8(%rcx)
	movw	$29806, 12(%rcx)
	movb	$115, 14(%rcx)
	movq	296(%rsp), %r12
	jmp	.LBB1_1520
.LBB1_69:
	movb	$1, %al
.LBB1_70:
	movq	%rax, 24(%rsp)
	jmp	.LBB1_387
.LBB1_1493:
	testq	%rax, %rax
	jne	.LBB1_1540
	movq	88(%rsp), %rcx
	movq	96(%rsp), %rax
	movq	%rax, %rdx
	subq	%rcx, %rdx
	cmpq	$9, %rdx
	jbe	.LBB1_1546
.LBB1_1495:
	leaq	10(%rcx), %rdx
	addq	80(%rsp), %rcx
	leaq	.Lstatic.81(%rip), %rsi
	movq	%rcx, %rdi
	subq	%rsi, %rdi
	cmpq	$9, %rdi
	movabsq	$7092454104028701026, %rsi
	movq	%rsi, (%rcx)
	movw	$29285, 8(%rcx)
	movq	296(%rsp), %r12
	jmp	.LBB1_1520
.LBB1_1496:
	testq	%rax, %rax
	movq	296(%rsp), %r12
	jne	.LBB1_1542
	movq	88(%rsp), %rcx
	movq	96(%rsp), %rax
	movq	%rax, %rdx
	subq	%rcx, %rdx
	cmpq	$14, %rdx
	jbe	.LBB1_1548
.LBB1_1498:
	leaq	15(%rcx), %rdx
	addq	80(%rsp), %rcx
	leaq	.Lstatic.79(%rip), %rsi
	movq	%rcx, %rdi
	subq	%rsi, %rdi
	cmpq	$14, %rdi
	ja	.LBB1_1519
	movabsq	$2336936577129475701, %rsi
	movq	%rsi, (%rcx)
	movl	$1835888483, 8(%rcx)
	movw	$28257, 12(%rcx)
	movb	$100, 14(%rcx)
	jmp	.LBB1_1520
.LBB1_1500:
	movq	96(%rsp), %rax
	movaps	80(%rsp), %xmm0
	movaps	%xmm0, 32(%rsp)
	movq	%rax, 48(%rsp)
.LBB1_1501:
	movq	40(%rsp), %rax
	testq	%r13, %r13
	je	.LBB1_1506
	cmpq	%rax, %r13
	je	.LBB1_1506
	cmpq	%r13, %rax
	movq	296(%rsp), %r12
	movq	64(%rsp), %r15
	jb	.LBB1_829
	jbe	.LBB1_829
	movq	32(%rsp), %rax
	cmpb	$-65, (%rax,%r13)
	jg	.LBB1_1507
	jmp	.LBB1_829
.LBB1_1506:
	cmpq	%r13, %rax
	movq	296(%rsp), %r12
	movq	64(%rsp), %r15
	jbe	.LBB1_829
.LBB1_1507:
	movq	%r13, 40(%rsp)
	jmp	.LBB1_829
.LBB1_398:
	movq	%r9, 416(%rsp)
	movq	%r8, 552(%rsp)
	jmp	.LBB1_395
.LBB1_1508:
	movq	208(%rsp), %rax
	movaps	192(%rsp), %xmm0
	movaps	%xmm0, 32(%rsp)
	movq	%rax, 48(%rsp)
	jmp	.LBB1_1509
.LBB1_1515:
	leaq	80(%rsp), %rdi
	movl	$5, %esi
	callq	"std_alloc::vec::Vec::grow_amortized::<#c9fd60d064fcd5bb>"
	testb	%al, %al
	movq	64(%rsp), %r15
	je	.LBB1_1468
	movq	80(%rsp), %rbx
	movq	88(%rsp), %r15
	movq	96(%rsp), %r14
	jmp	.LBB1_839
.LBB1_1517:
	movb	$1, %al
	movq	%rax, 24(%rsp)
	movq	72(%rsp), %rbx
	jmp	.LBB1_387
.LBB1_1518:
	movabsq	$8319395793567311730, %rsi
	movq	%rsi, 7(%rcx)
	movabsq	$8241904421671236215, %rsi
	movq	%rsi, (%rcx)
	movq	296(%rsp), %r12
	jmp	.LBB1_1520
.LBB1_1519:
	movabsq	$7236828773846311712, %rsi
	movq	%rsi, 7(%rcx)
	movabsq	$2336936577129475701, %rsi
	movq	%rsi, (%rcx)
.LBB1_1520:
	movq	%rdx, 88(%rsp)
	movq	%rax, 96(%rsp)
.LBB1_1521:
	movl	$32, 104(%rsp)
	movl	$0, 20(%rbp)
	movq	$0, 12(%rbp)
	movq	$-1, 120(%rsp)
	cmpq	$0, 128(%rsp)
	jne	.LBB1_1531
	movq	88(%rsp), %r15
	movq	96(%rsp), %r14
	cmpq	%r15, %r14
	je	.LBB1_1533
.LBB1_1523:
	movq	80(%rsp), %rbx
	movb	$10, (%rbx,%r15)
	incq	%r15
.LBB1_1524:
	xorl	%eax, %eax
	cmpb	$0, 728(%rsp)
	movq	72(%rsp), %rcx
	cmovneq	%rax, %rcx
	movq	%rcx, 72(%rsp)
	movzbl	24(%rsp), %ebp
	cmovnel	%eax, %ebp
	movq	%r12, 752(%rsp)
	movq	64(%rsp), %rax
	movq	%rax, 760(%rsp)
	movq	680(%rsp), %rax
	movq	%rax, 768(%rsp)
	leaq	752(%rsp), %rdi
	callq	"std_alloc::vec::Vec::drop::<#8fb41e74b78bb1cf>"
	cmpq	$0, 584(%rsp)
	je	.LBB1_1526
	movq	552(%rsp), %rdi
	callq	rattle_dealloc@PLT
.LBB1_1526:
	movq	616(%rsp), %rax
	movb	$0, (%rax)
	movq	%rbx, 8(%rax)
	movq	%r15, 16(%rax)
	movq	%r14, 24(%rax)
	movq	736(%rsp), %rcx
	movq	%rcx, 32(%rax)
	movq	72(%rsp), %rcx
	movq	%rcx, 40(%rax)
	movb	%bpl, 48(%rax)
	jmp	.LBB1_1527
.LBB1_1576:
	movb	$2, %al
	jmp	.LBB1_70
.LBB1_1536:
	movq	96(%rsp), %rax
	movaps	80(%rsp), %xmm0
	movaps	%xmm0, 32(%rsp)
	movq	%rax, 48(%rsp)
	movq	296(%rsp), %r12
	movq	64(%rsp), %r15
.LBB1_1509:
	movq	40(%rsp), %rax
	movq	312(%rsp), %rcx
	testq	%rcx, %rcx
	je	.LBB1_1568
.LBB1_1510:
	cmpq	%rax, %rcx
	je	.LBB1_1568
	cmpq	%rcx, %rax
	jb	.LBB1_829
	jbe	.LBB1_829
	movq	32(%rsp), %rax
	cmpb	$-65, (%rax,%rcx)
	jg	.LBB1_1514
	jmp	.LBB1_829
.LBB1_1528:
	leaq	.Lstatic.78(%rip), %rsi
	leaq	80(%rsp), %rdi
	movl	$2, %edx
	callq	"core::fmt::formatter::Formatter::write_indented::<#dff84d7e35224229>"
	testb	%al, %al
	jne	.LBB1_1468
	jmp	.LBB1_1487
.LBB1_1529:
	leaq	80(%rsp), %rdi
	movl	$2, %esi
	callq	"std_alloc::vec::Vec::grow_amortized::<#c9fd60d064fcd5bb>"
	testb	%al, %al
	je	.LBB1_1468
	movq	88(%rsp), %rcx
	movq	96(%rsp), %rax
	jmp	.LBB1_1486
.LBB1_1531:
	leaq	.Lstatic.36(%rip), %rsi
	leaq	80(%rsp), %rdi
	movl	$1, %edx
	callq	"core::fmt::formatter::Formatter::write_indented::<#dff84d7e35224229>"
	movq	80(%rsp), %rbx
	movq	96(%rsp), %r14
	testb	%al, %al
	jne	.LBB1_1470
	movq	88(%rsp), %r15
	jmp	.LBB1_1524
.LBB1_1533:
	leaq	80(%rsp), %rdi
	movl	$1, %esi
	callq	"std_alloc::vec::Vec::grow_amortized::<#c9fd60d064fcd5bb>"
	testb	%al, %al
	movq	64(%rsp), %r15
	je	.LBB1_1469
	movq	88(%rsp), %r15
	movq	96(%rsp), %r14
	jmp	.LBB1_1523
.LBB1_270:
	movb	$1, %al
.LBB1_271:
	movq	%rax, 24(%rsp)
	movq	72(%rsp), %rbx
	jmp	.LBB1_387
.LBB1_1539:
	leaq	.Lstatic.80(%rip), %rsi
	leaq	80(%rsp), %rdi
	movl	$15, %edx
	jmp	.LBB1_1541
.LBB1_1540:
	leaq	.Lstatic.81(%rip), %rsi
	leaq	80(%rsp), %rdi
	movl	$10, %edx
.LBB1_1541:
	callq	"core::fmt::formatter::Formatter::write_indented::<#dff84d7e35224229>"
	movq	296(%rsp), %r12
	jmp	.LBB1_1543
.LBB1_1542:
	leaq	.Lstatic.79(%rip), %rsi
	leaq	80(%rsp), %rdi
	movl	$15, %edx
	callq	"core::fmt::formatter::Formatter::write_indented::<#dff84d7e35224229>"
.LBB1_1543:
	testb	%al, %al
	jne	.LBB1_1469
	jmp	.LBB1_1521
.LBB1_1544:
	leaq	80(%rsp), %rdi
	movl	$15, %esi
	callq	"std_alloc::vec::Vec::grow_amortized::<#c9fd60d064fcd5bb>"
	testb	%al, %al
	je	.LBB1_1468
	movq	88(%rsp), %rcx
	movq	96(%rsp), %rax
	jmp	.LBB1_1491
.LBB1_1546:
	leaq	80(%rsp), %rdi
	movl	$10, %esi
	callq	"std_alloc::vec::Vec::grow_amortized::<#c9fd60d064fcd5bb>"
	testb	%al, %al
	je	.LBB1_1468
	movq	88(%rsp), %rcx
	movq	96(%rsp), %rax
	jmp	.LBB1_1495
.LBB1_1548:
	leaq	80(%rsp), %rdi
	movl	$15, %esi
	callq	"std_alloc::vec::Vec::grow_amortized::<#c9fd60d064fcd5bb>"
	testb	%al, %al
	je	.LBB1_1468
	movq	88(%rsp), %rcx
	movq	96(%rsp), %rax
	movq	296(%rsp), %r12
	jmp	.LBB1_1498
.LBB1_1550:
	movq	%rdx, 24(%rsp)
	jmp	.LBB1_385
.LBB1_1551:
	movb	$1, %al
	movq	%rax, 24(%rsp)
	movq	%rsp, %r12
	movq	72(%rsp), %rbx
	jmp	.LBB1_387
.LBB1_1552:
	cmpq	$0, 576(%rsp)
	je	.LBB1_1483
	movq	560(%rsp), %rdi
	jmp	.LBB1_1482
.LBB1_1567:
	movq	96(%rsp), %rax
	movaps	80(%rsp), %xmm0
	movaps	%xmm0, 32(%rsp)
	movq	%rax, 48(%rsp)
	movq	40(%rsp), %rax
	movq	312(%rsp), %rcx
	testq	%rcx, %rcx
	jne	.LBB1_1510
.LBB1_1568:
	cmpq	%rcx, %rax
	jbe	.LBB1_829
.LBB1_1514:
	movq	%rcx, 40(%rsp)
.LBB1_829:
	cmpq	$0, 48(%rsp)
	je	.LBB1_1473
	movq	32(%rsp), %rdi
.LBB1_1472:
	callq	rattle_dealloc@PLT
.LBB1_1473:
	testq	%r15, %r15
	je	.LBB1_1479
	movq	%r12, %rbx
	jmp	.LBB1_1476
	.p2align	4
.LBB1_1475:
	addq	$64, %rbx
	decq	%r15
	je	.LBB1_1479
.LBB1_1476:
	movzbl	(%rbx), %ecx
	movq	8(%rbx), %rdi
	movq	24(%rbx), %rax
	movl	$124927, %edx
	btl	%ecx, %edx
	jb	.LBB1_1475
	cmpl	$11, %ecx
	testq	%rax, %rax
	je	.LBB1_1475
	callq	rattle_dealloc@PLT
	jmp	.LBB1_1475
.LBB1_1479:
	cmpq	$0, 680(%rsp)
	je	.LBB1_1481
	movq	%r12, %rdi
	callq	rattle_dealloc@PLT
.LBB1_1481:
	cmpq	$0, 584(%rsp)
	movq	552(%rsp), %rdi
	je	.LBB1_1483
.LBB1_1482:
	callq	rattle_dealloc@PLT
.LBB1_1483:
	movq	616(%rsp), %rax
	movb	$1, (%rax)
	xorps	%xmm0, %xmm0
	movups	%xmm0, 8(%rax)
	movups	%xmm0, 24(%rax)
	movups	%xmm0, 33(%rax)
.LBB1_1527:
	addq	$792, %rsp
	.cfi_def_cfa_offset 56
	popq	%rbx
	.cfi_def_cfa_offset 48
	popq	%r12
	.cfi_def_cfa_offset 40
	popq	%r13
	.cfi_def_cfa_offset 32
	popq	%r14
	.cfi_def_cfa_offset 24
	popq	%r15
	.cfi_def_cfa_offset 16
	popq	%rbp
	.cfi_def_cfa_offset 8
	retq
.LBB1_1554:
	.cfi_def_cfa_offset 848
	movq	96(%rsp), %rax
	movaps	80(%rsp), %xmm0
	movaps	%xmm0, 32(%rsp)
	movq	%rax, 48(%rsp)
	movq	40(%rsp), %rax
	testq	%r14, %r14
	je	.LBB1_1569
	cmpq	%rax, %r14
	je	.LBB1_1569
	cmpq	%r14, %rax
	jb	.LBB1_829
	jbe	.LBB1_829
	movq	32(%rsp), %rax
	cmpb	$-65, (%rax,%r14)
	jg	.LBB1_1570
	jmp	.LBB1_829
.LBB1_1559:
	movzbl	321(%rsp), %eax
	movq	%rax, 24(%rsp)
	jmp	.LBB1_385
.LBB1_1560:
	movzbl	625(%rsp), %eax
	movq	%rax, 24(%rsp)
	jmp	.LBB1_385
.LBB1_1561:
	movzbl	513(%rsp), %eax
	movq	%rax, 24(%rsp)
	jmp	.LBB1_385
.LBB1_1562:
	movzbl	33(%rsp), %eax
	movq	%rax, 24(%rsp)
	jmp	.LBB1_385
.LBB1_1563:
	movzbl	689(%rsp), %eax
	movq	%rax, 24(%rsp)
	jmp	.LBB1_385
.LBB1_1564:
	movzbl	81(%rsp), %eax
	movq	%rax, 24(%rsp)
	jmp	.LBB1_385
.LBB1_1565:
	movzbl	193(%rsp), %eax
	movq	%rax, 24(%rsp)
	jmp	.LBB1_385
.LBB1_1566:
	movb	$2, %al
	jmp	.LBB1_271
.LBB1_1569:
	cmpq	%r14, %rax
	jbe	.LBB1_829
.LBB1_1570:
	movq	%r14, 40(%rsp)
	jmp	.LBB1_829
.LBB1_1571:
	movq	96(%rsp), %rax
	movaps	80(%rsp), %xmm0
	movaps	%xmm0, 32(%rsp)
	movq	%rax, 48(%rsp)
	movq	40(%rsp), %rax
	testq	%rbx, %rbx
	je	.LBB1_1577
	cmpq	%rax, %rbx
	je	.LBB1_1577
	cmpq	%rbx, %rax
	jb	.LBB1_829
	jbe	.LBB1_829
	movq	32(%rsp), %rax
	cmpb	$-65, (%rax,%rbx)
	jg	.LBB1_1578
	jmp	.LBB1_829
.LBB1_1577:
	cmpq	%rbx, %rax
	jbe	.LBB1_829
.LBB1_1578:
	movq	%rbx, 40(%rsp)
	jmp	.LBB1_829
.LBB1_1579:
	cmpq	$0, 96(%rsp)
	je	.LBB1_1581
	movq	80(%rsp), %rdi
	callq	rattle_dealloc@PLT
.LBB1_1581:
	cmpq	$0, 288(%rsp)
	je	.LBB1_1483
	movq	%rbp, %rdi
	jmp	.LBB1_1482
.LBB1_1362:
	ud2
.Lfunc_end1:
	.size	"ord_script::serving::answer_to::<#40a73cb1e87492e9>", .Lfunc_end1-"ord_script::serving::answer_to::<#40a73cb1e87492e9>"
	.cfi_endproc
	.section	".rodata.ord_script::serving::answer_to::<#40a73cb1e87492e9>","a",@progbits
	.p2align	2, 0x0
.LJTI1_0:
	.long	.LBB1_44-.LJTI1_0
	.long	.LBB1_121-.LJTI1_0
	.long	.LBB1_102-.LJTI1_0
	.long	.LBB1_113-.LJTI1_0
	.long	.LBB1_77-.LJTI1_0
	.long	.LBB1_146-.LJTI1_0
	.long	.LBB1_166-.LJTI1_0
	.long	.LBB1_119-.LJTI1_0
	.long	.LBB1_177-.LJTI1_0
	.long	.LBB1_90-.LJTI1_0
	.long	.LBB1_174-.LJTI1_0
	.long	.LBB1_71-.LJTI1_0
	.long	.LBB1_79-.LJTI1_0
	.long	.LBB1_160-.LJTI1_0
	.long	.LBB1_59-.LJTI1_0
	.long	.LBB1_108-.LJTI1_0
	.long	.LBB1_57-.LJTI1_0
	.long	.LBB1_138-.LJTI1_0
	.long	.LBB1_168-.LJTI1_0
	.long	.LBB1_209-.LJTI1_0
	.long	.LBB1_140-.LJTI1_0
	.long	.LBB1_149-.LJTI1_0
	.long	.LBB1_203-.LJTI1_0
	.long	.LBB1_214-.LJTI1_0
	.long	.LBB1_97-.LJTI1_0
	.long	.LBB1_92-.LJTI1_0
	.long	.LBB1_232-.LJTI1_0
	.long	.LBB1_52-.LJTI1_0
	.long	.LBB1_220-.LJTI1_0
	.long	.LBB1_225-.LJTI1_0
	.long	.LBB1_181-.LJTI1_0
	.long	.LBB1_127-.LJTI1_0
	.long	.LBB1_192-.LJTI1_0
	.long	.LBB1_64-.LJTI1_0
.LJTI1_1:
	.long	.LBB1_847-.LJTI1_1
	.long	.LBB1_909-.LJTI1_1
	.long	.LBB1_894-.LJTI1_1
	.long	.LBB1_902-.LJTI1_1
	.long	.LBB1_876-.LJTI1_1
	.long	.LBB1_918-.LJTI1_1
	.long	.LBB1_931-.LJTI1_1
	.long	.LBB1_904-.LJTI1_1
	.long	.LBB1_943-.LJTI1_1
	.long	.LBB1_883-.LJTI1_1
	.long	.LBB1_942-.LJTI1_1
	.long	.LBB1_875-.LJTI1_1
	.long	.LBB1_881-.LJTI1_1
	.long	.LBB1_925-.LJTI1_1
	.long	.LBB1_860-.LJTI1_1
	.long	.LBB1_895-.LJTI1_1
	.long	.LBB1_851-.LJTI1_1
	.long	.LBB1_912-.LJTI1_1
	.long	.LBB1_939-.LJTI1_1
	.long	.LBB1_957-.LJTI1_1
	.long	.LBB1_915-.LJTI1_1
	.long	.LBB1_923-.LJTI1_1
	.long	.LBB1_949-.LJTI1_1
	.long	.LBB1_964-.LJTI1_1
	.long	.LBB1_888-.LJTI1_1
	.long	.LBB1_886-.LJTI1_1
	.long	.LBB1_967-.LJTI1_1
	.long	.LBB1_1232-.LJTI1_1
	.long	.LBB1_954-.LJTI1_1
	.long	.LBB1_871-.LJTI1_1
	.long	.LBB1_841-.LJTI1_1
.LJTI1_2:
	.long	.LBB1_418-.LJTI1_2
	.long	.LBB1_467-.LJTI1_2
	.long	.LBB1_448-.LJTI1_2
	.long	.LBB1_455-.LJTI1_2
	.long	.LBB1_441-.LJTI1_2
	.long	.LBB1_475-.LJTI1_2
	.long	.LBB1_483-.LJTI1_2
	.long	.LBB1_464-.LJTI1_2
	.long	.LBB1_490-.LJTI1_2
	.long	.LBB1_447-.LJTI1_2
	.long	.LBB1_486-.LJTI1_2
	.long	.LBB1_437-.LJTI1_2
	.long	.LBB1_444-.LJTI1_2
	.long	.LBB1_480-.LJTI1_2
	.long	.LBB1_434-.LJTI1_2
	.long	.LBB1_451-.LJTI1_2
	.long	.LBB1_420-.LJTI1_2

	.section	".text.core::cmp::slices::groups_equal::<i8,31'core::cmp::numbers::U8PartialEq{}>","ax",@progbits
	.p2align	4
	.type	"core::cmp::slices::groups_equal::<i8,31'core::cmp::numbers::U8PartialEq{}>",@function
"core::cmp::slices::groups_equal::<i8,31'core::cmp::numbers::U8PartialEq{}>":
	.cfi_startproc
	cmpq	$8, %rsi
	ja	.LBB2_2
	movd	-4(%rdi,%rsi), %xmm0
	movd	(%rdi), %xmm1
	punpckldq	%xmm0, %xmm1
	movd	-4(%rdx,%rsi), %xmm0
	movd	(%rdx), %xmm2
	punpckldq	%xmm0, %xmm2
	movq	%xmm1, %rax
	movq	%xmm2, %rcx
	cmpq	%rcx, %rax
	jmp	.LBB2_17
.LBB2_2:
	cmpq	$32, %rsi
	ja	.LBB2_4
	leaq	-8(%rsi), %rax
	cmpq	$8, %rax
	movl	$8, %ecx
	cmovbq	%rax, %rcx
	cmpq	$16, %rax
	movl	$16, %r8d
	cmovbq	%rax, %r8
	movq	(%rdi,%rcx), %xmm0
	movq	(%rdi), %xmm1
	punpcklqdq	%xmm0, %xmm1
	movq	(%rdi,%r8), %xmm0
	movq	-8(%rdi,%rsi), %xmm2
	punpcklqdq	%xmm2, %xmm0
	movq	(%rdx,%rcx), %xmm2
	movq	(%rdx), %xmm3
	punpcklqdq	%xmm2, %xmm3
	pcmpeqb	%xmm1, %xmm3
	movq	(%rdx,%r8), %xmm1
	movq	-8(%rdx,%rsi), %xmm2
	punpcklqdq	%xmm2, %xmm1
	pcmpeqb	%xmm0, %xmm1
	pand	%xmm3, %xmm1
	pmovmskb	%xmm1, %eax
	jmp	.LBB2_16
.LBB2_4:
	cmpq	$65, %rsi
	jae	.LBB2_5
	movdqu	(%rdi), %xmm0
	movdqu	16(%rdi), %xmm1
	movdqu	(%rdx), %xmm2
	pcmpeqb	%xmm0, %xmm2
	movdqu	16(%rdx), %xmm0
	pcmpeqb	%xmm1, %xmm0
	movdqu	-32(%rdi,%rsi), %xmm1
	movdqu	-16(%rdi,%rsi), %xmm3
	movdqu	-32(%rdx,%rsi), %xmm4
	pcmpeqb	%xmm1, %xmm4
	pand	%xmm2, %xmm4
	movdqu	-16(%rdx,%rsi), %xmm1
	pcmpeqb	%xmm3, %xmm1
	pand	%xmm0, %xmm1
	pand	%xmm4, %xmm1
	pmovmskb	%xmm1, %eax
	jmp	.LBB2_16
.LBB2_5:
	xorl	%eax, %eax
	movq	%rsi, %rcx
	.p2align	4
.LBB2_6:
	movdqu	(%rdi,%rax), %xmm0
	movdqu	16(%rdi,%rax), %xmm1
	movdqu	32(%rdi,%rax), %xmm2
	movdqu	48(%rdi,%rax), %xmm3
	movdqu	(%rdx,%rax), %xmm4
	pcmpeqb	%xmm0, %xmm4
	movdqu	16(%rdx,%rax), %xmm0
	pcmpeqb	%xmm1, %xmm0
	movdqu	32(%rdx,%rax), %xmm1
	pcmpeqb	%xmm2, %xmm1
	pand	%xmm4, %xmm1
	movdqu	48(%rdx,%rax), %xmm2
	pcmpeqb	%xmm3, %xmm2
	pand	%xmm0, %xmm2
	pand	%xmm1, %xmm2
	pmovmskb	%xmm2, %r8d
	cmpl	$65535, %r8d
	jne	.LBB2_8
	addq	$64, %rax
	addq	$-64, %rcx
	cmpq	$63, %rcx
	ja	.LBB2_6
.LBB2_8:
	cmpq	$32, %rcx
	jb	.LBB2_15
	movq	%rsi, %rcx
	subq	%rax, %rcx
	.p2align	4
.LBB2_10:
	movdqu	(%rdi,%rax), %xmm0
	movdqu	16(%rdi,%rax), %xmm1
	movdqu	(%rdx,%rax), %xmm2
	pcmpeqb	%xmm0, %xmm2
	movdqu	16(%rdx,%rax), %xmm0
	pcmpeqb	%xmm1, %xmm0
	pand	%xmm2, %xmm0
	pmovmskb	%xmm0, %r8d
	xorl	$65535, %r8d
	jne	.LBB2_14
	addq	$32, %rax
	addq	$-32, %rcx
	cmpq	$31, %rcx
	ja	.LBB2_10
	jmp	.LBB2_15
.LBB2_14:
	movb	$1, %al
	cmpq	$31, %rcx
	ja	.LBB2_18
.LBB2_15:
	movdqu	-32(%rdi,%rsi), %xmm0
	movdqu	-16(%rdi,%rsi), %xmm1
	movdqu	-32(%rdx,%rsi), %xmm2
	pcmpeqb	%xmm0, %xmm2
	movdqu	-16(%rdx,%rsi), %xmm0
	pcmpeqb	%xmm1, %xmm0
	pand	%xmm2, %xmm0
	pmovmskb	%xmm0, %eax
.LBB2_16:
	xorl	$65535, %eax
.LBB2_17:
	setne	%al
.LBB2_18:
	xorb	$1, %al
	retq
.Lfunc_end2:
	.size	"core::cmp::slices::groups_equal::<i8,31'core::cmp::numbers::U8PartialEq{}>", .Lfunc_end2-"core::cmp::slices::groups_equal::<i8,31'core::cmp::numbers::U8PartialEq{}>"
	.cfi_endproc

	.section	".text.ord_script::arguments::PairArguments::read","ax",@progbits
	.p2align	4
	.type	"ord_script::arguments::PairArguments::read",@function
"ord_script::arguments::PairArguments::read":
	.cfi_startproc
	pushq	%rbp
	.cfi_def_cfa_offset 16
	pushq	%r14
	.cfi_def_cfa_offset 24
	pushq	%rbx
	.cfi_def_cfa_offset 32
	subq	$32, %rsp
	.cfi_def_cfa_offset 64
	.cfi_offset %rbx, -32
	.cfi_offset %r14, -24
	.cfi_offset %rbp, -16
	movq	%rsi, %r14
	movq	%rdi, %rbx
	xorps	%xmm0, %xmm0
	movaps	%xmm0, (%rsp)
	movq	$0, 16(%rsp)
	movq	%rsp, %rdi
	callq	"ord_script::arguments::I64Arguments::read"
	cmpb	$1, (%rsp)
	jne	.LBB3_6
	movq	8(%r14), %rcx
	testq	%rcx, %rcx
	je	.LBB3_6
	movq	16(%rsp), %rsi
	movzbl	8(%rsp), %edi
	movq	(%r14), %rax
	movq	%rax, %r8
	movq	%rcx, %r9
	jmp	.LBB3_3
	.p2align	4
.LBB3_5:
	incq	%r8
	decq	%r9
	je	.LBB3_6
.LBB3_3:
	movzbl	(%r8), %edx
	cmpl	$32, %edx
	je	.LBB3_5
	cmpl	$9, %edx
	je	.LBB3_5
	testq	%r9, %r9
	je	.LBB3_12
	xorl	%edx, %edx
	.p2align	4
.LBB3_9:
	movzbl	(%r8,%rdx), %r10d
	cmpl	$9, %r10d
	je	.LBB3_13
	cmpl	$32, %r10d
	je	.LBB3_13
	incq	%rdx
	cmpq	%rdx, %r9
	jne	.LBB3_9
.LBB3_12:
	addq	%rcx, %rax
	xorl	%ecx, %ecx
	jmp	.LBB3_14
.LBB3_6:
	xorps	%xmm0, %xmm0
	movups	%xmm0, 16(%rbx)
	movups	%xmm0, (%rbx)
.LBB3_22:
	addq	$32, %rsp
	.cfi_def_cfa_offset 32
	popq	%rbx
	.cfi_def_cfa_offset 24
	popq	%r14
	.cfi_def_cfa_offset 16
	popq	%rbp
	.cfi_def_cfa_offset 8
	retq
.LBB3_13:
	.cfi_def_cfa_offset 64
	leaq	(%r8,%rdx), %rax
	movq	%r9, %rcx
	subq	%rdx, %rcx
	movq	%rdx, %r9
.LBB3_14:
	movq	%rax, (%r14)
	movq	%rcx, 8(%r14)
	xorl	%r10d, %r10d
	testq	%r9, %r9
	je	.LBB3_20
	xorl	%eax, %eax
	xorl	%r11d, %r11d
	.p2align	4
.LBB3_16:
	movzbl	(%r8,%r11), %ebp
	addb	$-48, %bpl
	cmpb	$9, %bpl
	ja	.LBB3_20
	movl	$10, %ecx
	mulq	%rcx
	movq	%rax, %rcx
	movzbl	%bpl, %eax
	addq	%rcx, %rax
	adcq	$0, %rdx
	jne	.LBB3_20
	incq	%r11
	cmpq	%r11, %r9
	jne	.LBB3_16
	movb	$1, %cl
	movb	$1, %dl
	jmp	.LBB3_21
.LBB3_20:
	xorl	%eax, %eax
	xorl	%ecx, %ecx
	xorl	%edx, %edx
.LBB3_21:
	cmpb	$1, %dil
	movzbl	%dl, %edx
	cmovnel	%r10d, %edx
	sete	%dil
	testb	%cl, %dil
	cmoveq	%r10, %rsi
	cmoveq	%r10, %rax
	movzbl	%dl, %ecx
	testb	%cl, %cl
	cmoveq	%r10, %rsi
	cmoveq	%r10, %rax
	movq	$1, (%rbx)
	movq	%rcx, 8(%rbx)
	movq	%rsi, 16(%rbx)
	movq	%rax, 24(%rbx)
	jmp	.LBB3_22
.Lfunc_end3:
	.size	"ord_script::arguments::PairArguments::read", .Lfunc_end3-"ord_script::arguments::PairArguments::read"
	.cfi_endproc

	.section	".text.ord_script::arguments::I64Arguments::read","ax",@progbits
	.p2align	4
	.type	"ord_script::arguments::I64Arguments::read",@function
"ord_script::arguments::I64Arguments::read":
	.cfi_startproc
	movq	8(%rsi), %rcx
	testq	%rcx, %rcx
	je	.LBB4_5
	movq	(%rsi), %rax
	movq	%rax, %r8
	movq	%rcx, %r9
	jmp	.LBB4_2
	.p2align	4
.LBB4_4:
	incq	%r8
	decq	%r9
	je	.LBB4_5
.LBB4_2:
	movzbl	(%r8), %edx
	cmpl	$32, %edx
	je	.LBB4_4
	cmpl	$9, %edx
	je	.LBB4_4
	testq	%r9, %r9
	je	.LBB4_11
	xorl	%edx, %edx
	.p2align	4
.LBB4_8:
	movzbl	(%r8,%rdx), %r10d
	cmpl	$9, %r10d
	je	.LBB4_12
	cmpl	$32, %r10d
	je	.LBB4_12
	incq	%rdx
	cmpq	%rdx, %r9
	jne	.LBB4_8
.LBB4_11:
	addq	%rcx, %rax
	xorl	%ecx, %ecx
	movq	%rax, (%rsi)
	movq	%rcx, 8(%rsi)
	testq	%r9, %r9
	jne	.LBB4_14
	jmp	.LBB4_18
.LBB4_5:
	xorps	%xmm0, %xmm0
	movups	%xmm0, (%rdi)
	movq	$0, 16(%rdi)
	retq
.LBB4_12:
	leaq	(%r8,%rdx), %rax
	movq	%r9, %rcx
	subq	%rdx, %rcx
	movq	%rdx, %r9
	movq	%rax, (%rsi)
	movq	%rcx, 8(%rsi)
	testq	%r9, %r9
	je	.LBB4_18
.LBB4_14:
	cmpb	$45, (%r8)
	jne	.LBB4_15
	cmpq	$1, %r9
	je	.LBB4_18
	movl	$1, %esi
	xorl	%ecx, %ecx
	.p2align	4
.LBB4_22:
	movzbl	(%r8,%rsi), %r10d
	addb	$-48, %r10b
	cmpb	$9, %r10b
	ja	.LBB4_18
	movl	$10, %edx
	movq	%rcx, %rax
	mulq	%rdx
	movzbl	%r10b, %ecx
	addq	%rax, %rcx
	adcq	$0, %rdx
	xorl	%eax, %eax
	movabsq	$-9223372036854775808, %r10
	cmpq	%rcx, %r10
	movl	$0, %r10d
	sbbq	%rdx, %r10
	movl	$0, %edx
	jb	.LBB4_27
	incq	%rsi
	cmpq	%rsi, %r9
	jne	.LBB4_22
	negq	%rcx
	movl	$1, %edx
	movq	%rcx, %rax
	movq	$1, (%rdi)
	movq	%rdx, 8(%rdi)
	movq	%rax, 16(%rdi)
	retq
.LBB4_15:
	xorl	%eax, %eax
	xorl	%esi, %esi
	.p2align	4
.LBB4_16:
	movzbl	(%r8,%rsi), %r10d
	addb	$-48, %r10b
	cmpb	$9, %r10b
	ja	.LBB4_18
	movl	$10, %ecx
	mulq	%rcx
	movq	%rax, %rcx
	movzbl	%r10b, %eax
	addq	%rcx, %rax
	adcq	$0, %rdx
	movabsq	$-9223372036854775808, %rcx
	cmpq	%rcx, %rax
	sbbq	$0, %rdx
	jae	.LBB4_18
	incq	%rsi
	cmpq	%rsi, %r9
	jne	.LBB4_16
	movl	$1, %edx
.LBB4_27:
	movq	$1, (%rdi)
	movq	%rdx, 8(%rdi)
	movq	%rax, 16(%rdi)
	retq
.LBB4_18:
	xorl	%eax, %eax
	xorl	%edx, %edx
	movq	$1, (%rdi)
	movq	%rdx, 8(%rdi)
	movq	%rax, 16(%rdi)
	retq
.Lfunc_end4:
	.size	"ord_script::arguments::I64Arguments::read", .Lfunc_end4-"ord_script::arguments::I64Arguments::read"
	.cfi_endproc

	.section	".text.ord_script::arguments::arguments_in::<#392ac63fa1a388d9>","ax",@progbits
	.p2align	4
	.type	"ord_script::arguments::arguments_in::<#392ac63fa1a388d9>",@function
"ord_script::arguments::arguments_in::<#392ac63fa1a388d9>":
	.cfi_startproc
	pushq	%rbp
	.cfi_def_cfa_offset 16
	pushq	%r15
	.cfi_def_cfa_offset 24
	pushq	%r14
	.cfi_def_cfa_offset 32
	pushq	%r12
	.cfi_def_cfa_offset 40
	pushq	%rbx
	.cfi_def_cfa_offset 48
	subq	$48, %rsp
	.cfi_def_cfa_offset 96
	.cfi_offset %rbx, -48
	.cfi_offset %r12, -40
	.cfi_offset %r14, -32
	.cfi_offset %r15, -24
	.cfi_offset %rbp, -16
	movq	$0, 8(%rsp)
	testq	%rdx, %rdx
	je	.LBB5_5
	movq	%rsi, %r9
	movq	%rdx, %r10
	jmp	.LBB5_2
	.p2align	4
.LBB5_4:
	incq	%r9
	decq	%r10
	je	.LBB5_5
.LBB5_2:
	movzbl	(%r9), %eax
	cmpl	$32, %eax
	je	.LBB5_4
	cmpl	$9, %eax
	je	.LBB5_4
	testq	%r10, %r10
	je	.LBB5_12
	xorl	%eax, %eax
	.p2align	4
.LBB5_9:
	movzbl	(%r9,%rax), %ecx
	cmpl	$9, %ecx
	je	.LBB5_13
	cmpl	$32, %ecx
	je	.LBB5_13
	incq	%rax
	cmpq	%rax, %r10
	jne	.LBB5_9
.LBB5_12:
	addq	%rdx, %rsi
	xorl	%r8d, %r8d
	movq	%rsi, (%rsp)
	testq	%r10, %r10
	jne	.LBB5_16
	jmp	.LBB5_15
.LBB5_13:
	leaq	(%r9,%rax), %rsi
	movq	%r10, %r8
	subq	%rax, %r8
	movq	%rax, %r10
	movq	%rsi, (%rsp)
	testq	%r10, %r10
	je	.LBB5_15
.LBB5_16:
	xorl	%ebx, %ebx
	xorl	%eax, %eax
	xorl	%r11d, %r11d
	.p2align	4
.LBB5_19:
	movzbl	(%r9,%r11), %ebp
	addb	$-48, %bpl
	cmpb	$9, %bpl
	ja	.LBB5_20
	movl	$10, %ecx
	mulq	%rcx
	movq	%rax, %rcx
	movzbl	%bpl, %eax
	addq	%rcx, %rax
	adcq	$0, %rdx
	shldq	$32, %rax, %rdx
	jne	.LBB5_15
	incq	%r11
	cmpq	%r11, %r10
	jne	.LBB5_19
	movb	$1, %bpl
	movl	%eax, %ebx
	jmp	.LBB5_22
.LBB5_15:
	xorl	%ebp, %ebp
	xorl	%ebx, %ebx
	jmp	.LBB5_22
.LBB5_20:
	xorl	%ebp, %ebp
.LBB5_22:
	xorps	%xmm0, %xmm0
	movaps	%xmm0, 32(%rsp)
	movaps	%xmm0, 16(%rsp)
	testq	%r8, %r8
	je	.LBB5_5
	movq	%rsi, %r9
	movq	%r8, %r10
	jmp	.LBB5_24
	.p2align	4
.LBB5_26:
	incq	%r9
	decq	%r10
	je	.LBB5_5
.LBB5_24:
	movzbl	(%r9), %eax
	cmpl	$32, %eax
	je	.LBB5_26
	cmpl	$9, %eax
	je	.LBB5_26
	testq	%r10, %r10
	je	.LBB5_32
	xorl	%eax, %eax
	.p2align	4
.LBB5_29:
	movzbl	(%r9,%rax), %ecx
	cmpl	$9, %ecx
	je	.LBB5_33
	cmpl	$32, %ecx
	je	.LBB5_33
	incq	%rax
	cmpq	%rax, %r10
	jne	.LBB5_29
.LBB5_32:
	addq	%r8, %rsi
	xorl	%ecx, %ecx
	movq	%rsi, (%rsp)
	movq	%rcx, 8(%rsp)
	testq	%r10, %r10
	jne	.LBB5_35
	jmp	.LBB5_40
.LBB5_33:
	leaq	(%r9,%rax), %rsi
	movq	%r10, %rcx
	subq	%rax, %rcx
	movq	%rax, %r10
	movq	%rsi, (%rsp)
	movq	%rcx, 8(%rsp)
	testq	%r10, %r10
	je	.LBB5_40
.LBB5_35:
	xorl	%eax, %eax
	xorl	%esi, %esi
	.p2align	4
.LBB5_36:
	movzbl	(%r9,%rsi), %r8d
	addb	$-48, %r8b
	cmpb	$9, %r8b
	ja	.LBB5_40
	movl	$10, %ecx
	mulq	%rcx
	movq	%rax, %rcx
	movzbl	%r8b, %eax
	addq	%rcx, %rax
	adcq	$0, %rdx
	jne	.LBB5_40
	incq	%rsi
	cmpq	%rsi, %r10
	jne	.LBB5_36
	movq	%rax, %r14
	movq	%rdi, %r15
	movb	$1, %r12b
	jmp	.LBB5_41
.LBB5_40:
	movq	%rdi, %r15
	xorl	%r14d, %r14d
	xorl	%r12d, %r12d
.LBB5_41:
	leaq	16(%rsp), %rdi
	movq	%rsp, %rsi
	callq	"ord_script::arguments::PairArguments::read"
	cmpb	$1, 16(%rsp)
	movq	%r15, %rdi
	jne	.LBB5_5
	testb	%r12b, %r12b
	je	.LBB5_44
	cmpb	$1, 24(%rsp)
	sete	%al
	testb	%al, %bpl
	je	.LBB5_44
	movaps	32(%rsp), %xmm0
	movb	$1, %cl
	movq	%r14, %rax
	jmp	.LBB5_46
.LBB5_44:
	xorps	%xmm0, %xmm0
	xorl	%eax, %eax
	xorl	%ecx, %ecx
	xorl	%ebx, %ebx
.LBB5_46:
	movq	8(%rsp), %rdx
	testq	%rdx, %rdx
	je	.LBB5_51
	movq	(%rsp), %rsi
	xorl	%r8d, %r8d
	jmp	.LBB5_48
	.p2align	4
.LBB5_50:
	incq	%r8
	cmpq	%r8, %rdx
	je	.LBB5_51
.LBB5_48:
	movzbl	(%rsi,%r8), %r9d
	cmpl	$32, %r9d
	je	.LBB5_50
	cmpl	$9, %r9d
	je	.LBB5_50
.LBB5_5:
	movw	$257, (%rdi)
	xorps	%xmm0, %xmm0
	movups	%xmm0, 8(%rdi)
.LBB5_6:
	movups	%xmm0, 24(%rdi)
	addq	$48, %rsp
	.cfi_def_cfa_offset 48
	popq	%rbx
	.cfi_def_cfa_offset 40
	popq	%r12
	.cfi_def_cfa_offset 32
	popq	%r14
	.cfi_def_cfa_offset 24
	popq	%r15
	.cfi_def_cfa_offset 16
	popq	%rbp
	.cfi_def_cfa_offset 8
	retq
.LBB5_51:
	.cfi_def_cfa_offset 96
	testb	%cl, %cl
	je	.LBB5_52
	xorl	%ecx, %ecx
	xorl	%edx, %edx
	jmp	.LBB5_54
.LBB5_52:
	xorps	%xmm0, %xmm0
	movb	$2, %dl
	movb	$1, %cl
	xorl	%ebx, %ebx
	xorl	%eax, %eax
.LBB5_54:
	movb	%cl, (%rdi)
	movb	%dl, 1(%rdi)
	movl	%ebx, 8(%rdi)
	movl	$0, 12(%rdi)
	movq	%rax, 16(%rdi)
	jmp	.LBB5_6
.Lfunc_end5:
	.size	"ord_script::arguments::arguments_in::<#392ac63fa1a388d9>", .Lfunc_end5-"ord_script::arguments::arguments_in::<#392ac63fa1a388d9>"
	.cfi_endproc

	.section	".text.ord_script::arguments::arguments_in::<#d3e3746838e6e740>","ax",@progbits
	.p2align	4
	.type	"ord_script::arguments::arguments_in::<#d3e3746838e6e740>",@function
"ord_script::arguments::arguments_in::<#d3e3746838e6e740>":
	.cfi_startproc
	pushq	%rbp
	.cfi_def_cfa_offset 16
	pushq	%r14
	.cfi_def_cfa_offset 24
	pushq	%rbx
	.cfi_def_cfa_offset 32
	subq	$48, %rsp
	.cfi_def_cfa_offset 80
	.cfi_offset %rbx, -32
	.cfi_offset %r14, -24
	.cfi_offset %rbp, -16
	xorps	%xmm0, %xmm0
	movaps	%xmm0, 32(%rsp)
	movaps	%xmm0, 16(%rsp)
	testq	%rdx, %rdx
	je	.LBB6_5
	movq	%rsi, %r8
	movq	%rdx, %r9
	jmp	.LBB6_2
	.p2align	4
.LBB6_4:
	incq	%r8
	decq	%r9
	je	.LBB6_5
.LBB6_2:
	movzbl	(%r8), %eax
	cmpl	$32, %eax
	je	.LBB6_4
	cmpl	$9, %eax
	je	.LBB6_4
	testq	%r9, %r9
	je	.LBB6_11
	xorl	%eax, %eax
	.p2align	4
.LBB6_8:
	movzbl	(%r8,%rax), %ecx
	cmpl	$9, %ecx
	je	.LBB6_12
	cmpl	$32, %ecx
	je	.LBB6_12
	incq	%rax
	cmpq	%rax, %r9
	jne	.LBB6_8
.LBB6_11:
	addq	%rdx, %rsi
	xorl	%ecx, %ecx
	movq	%rsi, (%rsp)
	movq	%rcx, 8(%rsp)
	testq	%r9, %r9
	jne	.LBB6_15
	jmp	.LBB6_14
.LBB6_12:
	leaq	(%r8,%rax), %rsi
	movq	%r9, %rcx
	subq	%rax, %rcx
	movq	%rax, %r9
	movq	%rsi, (%rsp)
	movq	%rcx, 8(%rsp)
	testq	%r9, %r9
	je	.LBB6_14
.LBB6_15:
	xorl	%ebx, %ebx
	xorl	%eax, %eax
	xorl	%esi, %esi
	.p2align	4
.LBB6_18:
	movzbl	(%r8,%rsi), %r10d
	addb	$-48, %r10b
	cmpb	$9, %r10b
	ja	.LBB6_19
	movl	$10, %ecx
	mulq	%rcx
	movq	%rax, %rcx
	movzbl	%r10b, %eax
	addq	%rcx, %rax
	adcq	$0, %rdx
	shldq	$32, %rax, %rdx
	jne	.LBB6_14
	incq	%rsi
	cmpq	%rsi, %r9
	jne	.LBB6_18
	movq	%rdi, %r14
	movb	$1, %bpl
	movl	%eax, %ebx
	jmp	.LBB6_21
.LBB6_14:
	movq	%rdi, %r14
	xorl	%ebp, %ebp
	xorl	%ebx, %ebx
	jmp	.LBB6_21
.LBB6_19:
	movq	%rdi, %r14
	xorl	%ebp, %ebp
.LBB6_21:
	leaq	16(%rsp), %rdi
	movq	%rsp, %rsi
	callq	"ord_script::arguments::PairArguments::read"
	cmpb	$1, 16(%rsp)
	movq	%r14, %rdi
	xorps	%xmm0, %xmm0
	jne	.LBB6_5
	testb	%bpl, %bpl
	je	.LBB6_23
	cmpb	$1, 24(%rsp)
	sete	%dl
	jne	.LBB6_25
	movq	32(%rsp), %rax
	movq	40(%rsp), %rcx
	movq	8(%rsp), %rsi
	testq	%rsi, %rsi
	jne	.LBB6_28
	jmp	.LBB6_32
.LBB6_5:
	movw	$257, (%rdi)
.LBB6_35:
	movups	%xmm0, 8(%rdi)
	movq	$0, 24(%rdi)
.LBB6_36:
	addq	$48, %rsp
	.cfi_def_cfa_offset 32
	popq	%rbx
	.cfi_def_cfa_offset 24
	popq	%r14
	.cfi_def_cfa_offset 16
	popq	%rbp
	.cfi_def_cfa_offset 8
	retq
.LBB6_23:
	.cfi_def_cfa_offset 80
	xorl	%eax, %eax
	xorl	%ecx, %ecx
	xorl	%edx, %edx
	xorl	%ebx, %ebx
	movq	8(%rsp), %rsi
	testq	%rsi, %rsi
	jne	.LBB6_28
	jmp	.LBB6_32
.LBB6_25:
	xorl	%eax, %eax
	xorl	%ecx, %ecx
	xorl	%ebx, %ebx
	movq	8(%rsp), %rsi
	testq	%rsi, %rsi
	je	.LBB6_32
.LBB6_28:
	movq	(%rsp), %r8
	xorl	%r9d, %r9d
	jmp	.LBB6_29
	.p2align	4
.LBB6_31:
	incq	%r9
	cmpq	%r9, %rsi
	je	.LBB6_32
.LBB6_29:
	movzbl	(%r8,%r9), %r10d
	cmpl	$32, %r10d
	je	.LBB6_31
	cmpl	$9, %r10d
	je	.LBB6_31
	movw	$257, (%rdi)
	xorps	%xmm0, %xmm0
	jmp	.LBB6_35
.LBB6_32:
	testb	%dl, %dl
	je	.LBB6_33
	xorl	%edx, %edx
	xorl	%esi, %esi
	jmp	.LBB6_38
.LBB6_33:
	movb	$2, %sil
	movb	$1, %dl
	xorl	%ebx, %ebx
	xorl	%eax, %eax
	xorl	%ecx, %ecx
.LBB6_38:
	movb	%dl, (%rdi)
	movb	%sil, 1(%rdi)
	movl	%ebx, 8(%rdi)
	movl	$0, 12(%rdi)
	movq	%rax, 16(%rdi)
	movq	%rcx, 24(%rdi)
	jmp	.LBB6_36
.Lfunc_end6:
	.size	"ord_script::arguments::arguments_in::<#d3e3746838e6e740>", .Lfunc_end6-"ord_script::arguments::arguments_in::<#d3e3746838e6e740>"
	.cfi_endproc

	.section	".text.ord_script::arguments::arguments_in::<#04330f59fddcf7ab>","ax",@progbits
	.p2align	4
	.type	"ord_script::arguments::arguments_in::<#04330f59fddcf7ab>",@function
"ord_script::arguments::arguments_in::<#04330f59fddcf7ab>":
	.cfi_startproc
	pushq	%rbp
	.cfi_def_cfa_offset 16
	pushq	%r14
	.cfi_def_cfa_offset 24
	pushq	%rbx
	.cfi_def_cfa_offset 32
	subq	$96, %rsp
	.cfi_def_cfa_offset 128
	.cfi_offset %rbx, -32
	.cfi_offset %r14, -24
	.cfi_offset %rbp, -16
	movq	%rdi, %rbx
	movq	%rsi, (%rsp)
	movq	%rdx, 8(%rsp)
	xorps	%xmm0, %xmm0
	movaps	%xmm0, 16(%rsp)
	movaps	%xmm0, 32(%rsp)
	movaps	%xmm0, 48(%rsp)
	movaps	%xmm0, 64(%rsp)
	leaq	16(%rsp), %rdi
	movq	%rsp, %rsi
	callq	"ord_script::arguments::P0Arguments::read"
	cmpb	$1, 16(%rsp)
	jne	.LBB7_13
	movzbl	24(%rsp), %ebp
	movsd	32(%rsp), %xmm0
	movaps	%xmm0, 80(%rsp)
	movq	40(%rsp), %r14
	leaq	48(%rsp), %rdi
	movq	%rsp, %rsi
	callq	"ord_script::arguments::PairArguments::read"
	cmpb	$1, 48(%rsp)
	jne	.LBB7_13
	cmpb	$1, %bpl
	jne	.LBB7_5
	cmpb	$1, 56(%rsp)
	jne	.LBB7_5
	movaps	64(%rsp), %xmm0
	movb	$1, %al
	movaps	80(%rsp), %xmm1
	movq	8(%rsp), %rcx
	testq	%rcx, %rcx
	jne	.LBB7_7
	jmp	.LBB7_11
.LBB7_5:
	xorps	%xmm0, %xmm0
	xorps	%xmm1, %xmm1
	xorl	%r14d, %r14d
	xorl	%eax, %eax
	movq	8(%rsp), %rcx
	testq	%rcx, %rcx
	je	.LBB7_11
.LBB7_7:
	movq	(%rsp), %rdx
	xorl	%esi, %esi
	jmp	.LBB7_8
	.p2align	4
.LBB7_10:
	incq	%rsi
	cmpq	%rsi, %rcx
	je	.LBB7_11
.LBB7_8:
	movzbl	(%rdx,%rsi), %edi
	cmpl	$32, %edi
	je	.LBB7_10
	cmpl	$9, %edi
	je	.LBB7_10
.LBB7_13:
	movw	$257, (%rbx)
	xorps	%xmm0, %xmm0
	movups	%xmm0, 8(%rbx)
.LBB7_14:
	movups	%xmm0, 24(%rbx)
	addq	$96, %rsp
	.cfi_def_cfa_offset 32
	popq	%rbx
	.cfi_def_cfa_offset 24
	popq	%r14
	.cfi_def_cfa_offset 16
	popq	%rbp
	.cfi_def_cfa_offset 8
	retq
.LBB7_11:
	.cfi_def_cfa_offset 128
	testb	%al, %al
	je	.LBB7_12
	xorl	%eax, %eax
	xorl	%ecx, %ecx
	jmp	.LBB7_16
.LBB7_12:
	xorps	%xmm0, %xmm0
	xorps	%xmm1, %xmm1
	movb	$2, %cl
	movb	$1, %al
	xorl	%r14d, %r14d
.LBB7_16:
	movb	%al, (%rbx)
	movb	%cl, 1(%rbx)
	movlps	%xmm1, 8(%rbx)
	movq	%r14, 16(%rbx)
	jmp	.LBB7_14
.Lfunc_end7:
	.size	"ord_script::arguments::arguments_in::<#04330f59fddcf7ab>", .Lfunc_end7-"ord_script::arguments::arguments_in::<#04330f59fddcf7ab>"
	.cfi_endproc

	.section	".text.ord_script::arguments::P0Arguments::read","ax",@progbits
	.p2align	4
	.type	"ord_script::arguments::P0Arguments::read",@function
"ord_script::arguments::P0Arguments::read":
	.cfi_startproc
	pushq	%rbp
	.cfi_def_cfa_offset 16
	pushq	%rbx
	.cfi_def_cfa_offset 24
	.cfi_offset %rbx, -24
	.cfi_offset %rbp, -16
	movq	8(%rsi), %rdx
	testq	%rdx, %rdx
	je	.LBB8_11
	movq	(%rsi), %rax
	xorl	%r10d, %r10d
	movq	%rax, %r8
	movq	%rdx, %rcx
	jmp	.LBB8_3
	.p2align	4
.LBB8_2:
	incq	%r8
	incq	%r10
	decq	%rcx
	je	.LBB8_11
.LBB8_3:
	movzbl	(%r8), %r9d
	cmpl	$32, %r9d
	je	.LBB8_2
	cmpl	$9, %r9d
	je	.LBB8_2
	movq	%rdx, %r9
	subq	%r10, %r9
	je	.LBB8_10
	xorl	%r10d, %r10d
	.p2align	4
.LBB8_7:
	movzbl	(%r8,%r10), %r11d
	cmpl	$9, %r11d
	je	.LBB8_12
	cmpl	$32, %r11d
	je	.LBB8_12
	incq	%r10
	cmpq	%r10, %rcx
	jne	.LBB8_7
.LBB8_10:
	addq	%rdx, %rax
	xorl	%ecx, %ecx
	movq	%rax, (%rsi)
	movq	%rcx, 8(%rsi)
	testq	%r9, %r9
	jne	.LBB8_13
	jmp	.LBB8_22
.LBB8_11:
	xorps	%xmm0, %xmm0
	movups	%xmm0, 16(%rdi)
	movups	%xmm0, (%rdi)
	popq	%rbx
	.cfi_def_cfa_offset 16
	popq	%rbp
	.cfi_def_cfa_offset 8
	retq
.LBB8_12:
	.cfi_def_cfa_offset 24
	leaq	(%r8,%r10), %rax
	subq	%r10, %rcx
	movq	%r10, %r9
	movq	%rax, (%rsi)
	movq	%rcx, 8(%rsi)
	testq	%r9, %r9
	je	.LBB8_22
.LBB8_13:
	xorl	%r10d, %r10d
	.p2align	4
.LBB8_14:
	cmpb	$46, (%r8,%r10)
	je	.LBB8_16
	incq	%r10
	cmpq	%r10, %r9
	jne	.LBB8_14
	jmp	.LBB8_22
.LBB8_16:
	testq	%r10, %r10
	je	.LBB8_22
	movq	%r9, %r11
	subq	%r10, %r11
	xorl	%esi, %esi
	xorl	%eax, %eax
	xorl	%ebx, %ebx
	.p2align	4
.LBB8_18:
	movzbl	(%r8,%rbx), %ebp
	addb	$-48, %bpl
	cmpb	$9, %bpl
	ja	.LBB8_30
	movl	$10, %ecx
	mulq	%rcx
	movq	%rax, %rcx
	movzbl	%bpl, %eax
	addq	%rcx, %rax
	adcq	$0, %rdx
	shldq	$32, %rax, %rdx
	jne	.LBB8_22
	incq	%rbx
	cmpq	%rbx, %r10
	jne	.LBB8_18
	decq	%r9
	cmpq	%r10, %r9
	jne	.LBB8_25
.LBB8_22:
	xorl	%edx, %edx
	xorl	%esi, %esi
.LBB8_23:
	xorl	%ecx, %ecx
.LBB8_24:
	movq	$1, (%rdi)
	movq	%rdx, 8(%rdi)
	movl	%esi, 16(%rdi)
	movl	$0, 20(%rdi)
	movq	%rcx, 24(%rdi)
	popq	%rbx
	.cfi_def_cfa_offset 16
	popq	%rbp
	.cfi_def_cfa_offset 8
	retq
.LBB8_25:
	.cfi_def_cfa_offset 24
	movl	$1, %r9d
	xorl	%esi, %esi
	xorl	%ecx, %ecx
.LBB8_26:
	leaq	(%r8,%r9), %rdx
	movzbl	(%r10,%rdx), %ebp
	addb	$-48, %bpl
	cmpb	$9, %bpl
	ja	.LBB8_30
	movq	%rax, %rbx
	movl	$10, %edx
	movq	%rcx, %rax
	mulq	%rdx
	movzbl	%bpl, %ecx
	addq	%rax, %rcx
	adcq	$0, %rdx
	jne	.LBB8_22
	incq	%r9
	movl	$1, %edx
	cmpq	%r9, %r11
	movq	%rbx, %rax
	jne	.LBB8_26
	movl	%eax, %esi
	jmp	.LBB8_24
.LBB8_30:
	xorl	%edx, %edx
	jmp	.LBB8_23
.Lfunc_end8:
	.size	"ord_script::arguments::P0Arguments::read", .Lfunc_end8-"ord_script::arguments::P0Arguments::read"
	.cfi_endproc

	.section	".text.ord_script::arguments::arguments_in::<#72c52d254c9843c5>","ax",@progbits
	.p2align	4
	.type	"ord_script::arguments::arguments_in::<#72c52d254c9843c5>",@function
"ord_script::arguments::arguments_in::<#72c52d254c9843c5>":
	.cfi_startproc
	movb	$1, %dl
	testq	%rsi, %rsi
	je	.LBB9_1
	movq	%rdi, %rcx
	movq	%rsi, %r8
	jmp	.LBB9_4
	.p2align	4
.LBB9_6:
	incq	%rcx
	decq	%r8
	je	.LBB9_1
.LBB9_4:
	movzbl	(%rcx), %eax
	cmpl	$32, %eax
	je	.LBB9_6
	cmpl	$9, %eax
	je	.LBB9_6
	testq	%r8, %r8
	je	.LBB9_12
	xorl	%r9d, %r9d
	.p2align	4
.LBB9_9:
	movzbl	(%rcx,%r9), %eax
	cmpl	$9, %eax
	je	.LBB9_13
	cmpl	$32, %eax
	je	.LBB9_13
	incq	%r9
	cmpq	%r9, %r8
	jne	.LBB9_9
.LBB9_12:
	addq	%rsi, %rdi
	xorl	%eax, %eax
	testq	%r8, %r8
	je	.LBB9_15
.LBB9_18:
	xorl	%esi, %esi
	xorl	%r9d, %r9d
	.p2align	4
.LBB9_19:
	movzbl	(%rcx,%r9), %r10d
	addb	$-48, %r10b
	cmpb	$9, %r10b
	ja	.LBB9_21
	addq	%rsi, %rsi
	leaq	(%rsi,%rsi,4), %r11
	movzbl	%r10b, %esi
	xorl	%r10d, %r10d
	addq	%rsi, %r11
	setb	%r10b
	cmpq	$2, %r11
	sbbq	$0, %r10
	jae	.LBB9_21
	incq	%r9
	cmpq	%r9, %r8
	jne	.LBB9_19
	movb	$1, %cl
	jmp	.LBB9_22
.LBB9_21:
	xorl	%esi, %esi
	xorl	%ecx, %ecx
.LBB9_22:
	cmpl	$1, %esi
	sete	%sil
	testq	%rax, %rax
	jne	.LBB9_24
	jmp	.LBB9_28
.LBB9_13:
	leaq	(%rcx,%r9), %rdi
	movq	%r8, %rax
	subq	%r9, %rax
	movq	%r9, %r8
	testq	%r8, %r8
	jne	.LBB9_18
.LBB9_15:
	xorl	%esi, %esi
	xorl	%ecx, %ecx
	testq	%rax, %rax
	je	.LBB9_28
.LBB9_24:
	xorl	%r8d, %r8d
	jmp	.LBB9_25
	.p2align	4
.LBB9_27:
	incq	%r8
	cmpq	%r8, %rax
	je	.LBB9_28
.LBB9_25:
	movzbl	(%rdi,%r8), %r9d
	cmpl	$32, %r9d
	je	.LBB9_27
	cmpl	$9, %r9d
	je	.LBB9_27
.LBB9_1:
	movb	$1, %al
	retq
.LBB9_28:
	movl	%ecx, %eax
	xorb	$1, %al
	movzbl	%sil, %esi
	testb	%cl, %cl
	movl	$2, %edx
	cmovnel	%esi, %edx
	retq
.Lfunc_end9:
	.size	"ord_script::arguments::arguments_in::<#72c52d254c9843c5>", .Lfunc_end9-"ord_script::arguments::arguments_in::<#72c52d254c9843c5>"
	.cfi_endproc

	.section	".text.ord_script::arguments::Tuple2Arguments::read::<#ba03786baf347dfe>","ax",@progbits
	.p2align	4
	.type	"ord_script::arguments::Tuple2Arguments::read::<#ba03786baf347dfe>",@function
"ord_script::arguments::Tuple2Arguments::read::<#ba03786baf347dfe>":
	.cfi_startproc
	pushq	%r15
	.cfi_def_cfa_offset 16
	pushq	%r14
	.cfi_def_cfa_offset 24
	pushq	%rbx
	.cfi_def_cfa_offset 32
	subq	$32, %rsp
	.cfi_def_cfa_offset 64
	.cfi_offset %rbx, -32
	.cfi_offset %r14, -24
	.cfi_offset %r15, -16
	xorps	%xmm0, %xmm0
	movaps	%xmm0, (%rsp)
	movq	$0, 16(%rsp)
	movq	8(%rsi), %rcx
	testq	%rcx, %rcx
	je	.LBB10_5
	movq	(%rsi), %rax
	movq	%rax, %r8
	movq	%rcx, %r9
	jmp	.LBB10_2
	.p2align	4
.LBB10_4:
	incq	%r8
	decq	%r9
	je	.LBB10_5
.LBB10_2:
	movzbl	(%r8), %edx
	cmpl	$32, %edx
	je	.LBB10_4
	cmpl	$9, %edx
	je	.LBB10_4
	testq	%r9, %r9
	je	.LBB10_12
	xorl	%edx, %edx
	.p2align	4
.LBB10_9:
	movzbl	(%r8,%rdx), %r10d
	cmpl	$9, %r10d
	je	.LBB10_13
	cmpl	$32, %r10d
	je	.LBB10_13
	incq	%rdx
	cmpq	%rdx, %r9
	jne	.LBB10_9
.LBB10_12:
	addq	%rcx, %rax
	xorl	%ecx, %ecx
	movq	%rax, (%rsi)
	movq	%rcx, 8(%rsi)
	testq	%r9, %r9
	jne	.LBB10_15
	jmp	.LBB10_20
.LBB10_5:
	movups	%xmm0, 16(%rdi)
	movups	%xmm0, (%rdi)
.LBB10_6:
	addq	$32, %rsp
	.cfi_def_cfa_offset 32
	popq	%rbx
	.cfi_def_cfa_offset 24
	popq	%r14
	.cfi_def_cfa_offset 16
	popq	%r15
	.cfi_def_cfa_offset 8
	retq
.LBB10_13:
	.cfi_def_cfa_offset 64
	leaq	(%r8,%rdx), %rax
	movq	%r9, %rcx
	subq	%rdx, %rcx
	movq	%rdx, %r9
	movq	%rax, (%rsi)
	movq	%rcx, 8(%rsi)
	testq	%r9, %r9
	je	.LBB10_20
.LBB10_15:
	xorl	%eax, %eax
	xorl	%r10d, %r10d
	.p2align	4
.LBB10_16:
	movzbl	(%r8,%r10), %r11d
	addb	$-48, %r11b
	cmpb	$9, %r11b
	ja	.LBB10_20
	movl	$10, %ecx
	mulq	%rcx
	movq	%rax, %rcx
	movzbl	%r11b, %eax
	addq	%rcx, %rax
	adcq	$0, %rdx
	jne	.LBB10_20
	incq	%r10
	cmpq	%r10, %r9
	jne	.LBB10_16
	movq	%rax, %rbx
	movq	%rdi, %r14
	movb	$1, %r15b
	movq	%rsp, %rdi
	callq	"ord_script::arguments::I64Arguments::read"
	cmpb	$1, (%rsp)
	je	.LBB10_22
.LBB10_25:
	xorps	%xmm0, %xmm0
	movups	%xmm0, 16(%r14)
	movups	%xmm0, (%r14)
	jmp	.LBB10_6
.LBB10_20:
	movq	%rdi, %r14
	xorl	%ebx, %ebx
	xorl	%r15d, %r15d
	movq	%rsp, %rdi
	callq	"ord_script::arguments::I64Arguments::read"
	cmpb	$1, (%rsp)
	jne	.LBB10_25
.LBB10_22:
	movzbl	8(%rsp), %eax
	cmpq	$1, %rax
	sete	%sil
	xorl	%ecx, %ecx
	testb	%r15b, %r15b
	cmoveq	%rcx, %rax
	movl	$0, %edx
	testb	%sil, %r15b
	je	.LBB10_24
	movq	16(%rsp), %rdx
	movq	%rbx, %rcx
.LBB10_24:
	movq	$1, (%r14)
	movq	%rax, 8(%r14)
	movq	%rcx, 16(%r14)
	movq	%rdx, 24(%r14)
	jmp	.LBB10_6
.Lfunc_end10:
	.size	"ord_script::arguments::Tuple2Arguments::read::<#ba03786baf347dfe>", .Lfunc_end10-"ord_script::arguments::Tuple2Arguments::read::<#ba03786baf347dfe>"
	.cfi_endproc

	.section	".text.unlikely.std_alloc::vec::Vec::grow_amortized::<#0f3143e36ca1738c>","ax",@progbits
	.p2align	4
	.type	"std_alloc::vec::Vec::grow_amortized::<#0f3143e36ca1738c>",@function
"std_alloc::vec::Vec::grow_amortized::<#0f3143e36ca1738c>":
	.cfi_startproc
	movq	8(%rdi), %rax
	cmpq	$-1, %rax
	je	.LBB11_5
	pushq	%r14
	.cfi_def_cfa_offset 16
	pushq	%rbx
	.cfi_def_cfa_offset 24
	pushq	%rax
	.cfi_def_cfa_offset 32
	.cfi_offset %rbx, -24
	.cfi_offset %r14, -16
	movq	16(%rdi), %rcx
	cmpq	$4, %rax
	movl	$3, %ebx
	cmovaeq	%rax, %rbx
	incq	%rbx
	movq	%rcx, %rsi
	shrq	$62, %rsi
	leaq	(%rcx,%rcx), %rdx
	cmpq	%rdx, %rbx
	cmovaq	%rbx, %rdx
	testq	%rsi, %rsi
	cmoveq	%rdx, %rbx
	movabsq	$192153584101141162, %rsi
	cmpq	%rsi, %rbx
	ja	.LBB11_6
	testq	%rcx, %rcx
	je	.LBB11_8
	movq	%rdi, %r14
	movq	(%rdi), %rdi
	shlq	$4, %rax
	leaq	(%rax,%rax,2), %rsi
	movq	%rbx, %rax
	shlq	$4, %rax
	leaq	(%rax,%rax,2), %rdx
	movl	$8, %ecx
	callq	rattle_realloc@PLT
	testb	$1, %al
	je	.LBB11_6
.LBB11_9:
	movq	%rdx, (%r14)
	movq	%rbx, 16(%r14)
	movb	$1, %al
	addq	$8, %rsp
	.cfi_def_cfa_offset 24
	popq	%rbx
	.cfi_def_cfa_offset 16
	popq	%r14
	.cfi_def_cfa_offset 8
	.cfi_restore %rbx
	.cfi_restore %r14
	retq
.LBB11_5:
	xorl	%eax, %eax
	retq
.LBB11_8:
	.cfi_def_cfa_offset 32
	.cfi_offset %rbx, -24
	.cfi_offset %r14, -16
	movq	%rdi, %r14
	shlq	$4, %rdx
	leaq	(%rdx,%rdx,2), %rdi
	movl	$8, %esi
	callq	rattle_alloc@PLT
	testb	$1, %al
	jne	.LBB11_9
.LBB11_6:
	xorl	%eax, %eax
	addq	$8, %rsp
	.cfi_def_cfa_offset 24
	popq	%rbx
	.cfi_def_cfa_offset 16
	popq	%r14
	.cfi_def_cfa_offset 8
	.cfi_restore %rbx
	.cfi_restore %r14
	retq
.Lfunc_end11:
	.size	"std_alloc::vec::Vec::grow_amortized::<#0f3143e36ca1738c>", .Lfunc_end11-"std_alloc::vec::Vec::grow_amortized::<#0f3143e36ca1738c>"
	.cfi_endproc

	.section	".text.unlikely.std_alloc::vec::Vec::grow_amortized::<#2395174cb6d31b10>","ax",@progbits
	.p2align	4
	.type	"std_alloc::vec::Vec::grow_amortized::<#2395174cb6d31b10>",@function
"std_alloc::vec::Vec::grow_amortized::<#2395174cb6d31b10>":
	.cfi_startproc
	movq	%rsi, %rax
	movq	8(%rdi), %rsi
	addq	%rsi, %rax
	jae	.LBB12_2
	xorl	%eax, %eax
	retq
.LBB12_2:
	pushq	%r14
	.cfi_def_cfa_offset 16
	pushq	%rbx
	.cfi_def_cfa_offset 24
	pushq	%rax
	.cfi_def_cfa_offset 32
	.cfi_offset %rbx, -24
	.cfi_offset %r14, -16
	cmpq	$9, %rax
	movl	$8, %ebx
	cmovaeq	%rax, %rbx
	movq	16(%rdi), %rcx
	movq	%rcx, %rdx
	shrq	$62, %rdx
	leaq	(%rcx,%rcx), %rax
	cmpq	%rax, %rbx
	cmovaq	%rbx, %rax
	testq	%rdx, %rdx
	cmoveq	%rax, %rbx
	testq	%rbx, %rbx
	js	.LBB12_6
	testq	%rcx, %rcx
	je	.LBB12_8
	movq	%rdi, %r14
	movq	(%rdi), %rdi
	movl	$1, %ecx
	movq	%rbx, %rdx
	callq	rattle_realloc@PLT
	testb	$1, %al
	je	.LBB12_6
.LBB12_9:
	movq	%rdx, (%r14)
	movq	%rbx, 16(%r14)
	movb	$1, %al
	addq	$8, %rsp
	.cfi_def_cfa_offset 24
	popq	%rbx
	.cfi_def_cfa_offset 16
	popq	%r14
	.cfi_def_cfa_offset 8
	.cfi_restore %rbx
	.cfi_restore %r14
	retq
.LBB12_8:
	.cfi_def_cfa_offset 32
	.cfi_offset %rbx, -24
	.cfi_offset %r14, -16
	movq	%rdi, %r14
	movl	$1, %esi
	movq	%rax, %rdi
	callq	rattle_alloc@PLT
	testb	$1, %al
	jne	.LBB12_9
.LBB12_6:
	xorl	%eax, %eax
	addq	$8, %rsp
	.cfi_def_cfa_offset 24
	popq	%rbx
	.cfi_def_cfa_offset 16
	popq	%r14
	.cfi_def_cfa_offset 8
	.cfi_restore %rbx
	.cfi_restore %r14
	retq
.Lfunc_end12:
	.size	"std_alloc::vec::Vec::grow_amortized::<#2395174cb6d31b10>", .Lfunc_end12-"std_alloc::vec::Vec::grow_amortized::<#2395174cb6d31b10>"
	.cfi_endproc

	.section	".text.triple_ord::arena::SimpleOrdArena::prepare::<#304c980cfa2570bb>","ax",@progbits
	.p2align	4
	.type	"triple_ord::arena::SimpleOrdArena::prepare::<#304c980cfa2570bb>",@function
"triple_ord::arena::SimpleOrdArena::prepare::<#304c980cfa2570bb>":
	.cfi_startproc
	pushq	%rbp
	.cfi_def_cfa_offset 16
	pushq	%r15
	.cfi_def_cfa_offset 24
	pushq	%r14
	.cfi_def_cfa_offset 32
	pushq	%r13
	.cfi_def_cfa_offset 40
	pushq	%r12
	.cfi_def_cfa_offset 48
	pushq	%rbx
	.cfi_def_cfa_offset 56
	subq	$136, %rsp
	.cfi_def_cfa_offset 192
	.cfi_offset %rbx, -56
	.cfi_offset %r12, -48
	.cfi_offset %r13, -40
	.cfi_offset %r14, -32
	.cfi_offset %r15, -24
	.cfi_offset %rbp, -16
	movzbl	(%rcx), %eax
	movl	4(%rcx), %r15d
	movq	8(%rcx), %r8
	movq	16(%rcx), %r9
	movl	$0, 91(%rsp)
	movl	$0, 88(%rsp)
	movl	$0, 72(%rsp)
	movl	$0, 75(%rsp)
	movl	$0, 128(%rsp)
	movl	$0, 131(%rsp)
	movq	8(%rsi), %r11
	movq	%rsi, 32(%rsp)
	movq	32(%rsi), %r12
	movl	$0, 40(%rsp)
	movl	$0, 43(%rsp)
	movl	$0, 120(%rsp)
	movl	$0, 123(%rsp)
	movl	$0, 112(%rsp)
	movl	$0, 115(%rsp)
	movl	$0, 104(%rsp)
	movl	$0, 107(%rsp)
	movl	$0, 96(%rsp)
	movl	$0, 99(%rsp)
	leaq	.LJTI13_0(%rip), %rcx
	movslq	(%rcx,%rax,4), %rax
	addq	%rcx, %rax
	jmpq	*%rax
.LBB13_1:
	cmpq	%r12, %r11
	jne	.LBB13_43
	movl	$0, 43(%rsp)
	movl	$0, 40(%rsp)
	xorl	%r15d, %r15d
	movq	$0, 8(%rsp)
	xorl	%r13d, %r13d
	xorl	%ebp, %ebp
	xorl	%r8d, %r8d
	jmp	.LBB13_118
.LBB13_3:
	movl	%edx, 64(%rsp)
	leaq	-1(%r15), %rax
	cmpq	%r11, %rax
	jae	.LBB13_5
	movq	32(%rsp), %rcx
	movq	(%rcx), %r10
	imulq	$56, %rax, %rax
	cmpb	$0, (%r10,%rax)
	je	.LBB13_70
.LBB13_5:
	xorl	%ebx, %ebx
	movq	32(%rsp), %rax
	cmpb	$1, 88(%rax)
	movl	$0, %r14d
	jne	.LBB13_109
	movq	%r11, 56(%rsp)
	movq	%r12, 48(%rsp)
	movq	32(%rsp), %rax
	movl	92(%rax), %r15d
	movq	(%rax), %r8
	imulq	$56, %r15, %rcx
	cmpb	$0, -56(%r8,%rcx)
	jne	.LBB13_151
	movq	(%r9), %r10
	movq	-32(%r8,%rcx), %r11
	cmpq	%r11, %r10
	movl	-40(%r8,%rcx), %eax
	movl	-36(%r8,%rcx), %ebx
	movl	%ebx, %ebp
	cmovll	%eax, %ebp
	setl	%dl
	xorl	%r14d, %r14d
	orl	%eax, %ebx
	movl	$1, %ebx
	je	.LBB13_13
	testl	%ebp, %ebp
	je	.LBB13_13
	xorl	%r14d, %r14d
	.p2align	4
.LBB13_10:
	movl	%ebp, %eax
	imulq	$56, %rax, %rcx
	cmpb	$0, -56(%r8,%rcx)
	jne	.LBB13_151
	movl	%ebp, %r15d
	addq	$1, %rbx
	adcq	$0, %r14
	movq	(%r9), %r10
	movq	-32(%r8,%rcx), %r11
	cmpq	%r11, %r10
	setl	%dl
	movl	-40(%r8,%rcx), %eax
	movl	-36(%r8,%rcx), %r12d
	movl	%r12d, %ebp
	cmovll	%eax, %ebp
	orl	%eax, %r12d
	je	.LBB13_13
	testl	%ebp, %ebp
	jne	.LBB13_10
.LBB13_13:
	addq	%r8, %rcx
	addq	$-48, %rcx
	xorb	$1, %dl
	addb	%dl, %dl
	cmpq	%r11, %r10
	movzbl	%dl, %eax
.LBB13_14:
	movl	$2, %r11d
	cmovnel	%eax, %r11d
.LBB13_15:
	movq	(%rcx), %r13
	movl	%r15d, %eax
	movq	%rax, 8(%rsp)
	movl	$0, 19(%rsp)
	movl	$0, 16(%rsp)
	testb	%r11b, %r11b
	setne	%bpl
	movl	$1, %r15d
	movq	48(%rsp), %r12
	movq	56(%rsp), %r11
	jmp	.LBB13_110
.LBB13_16:
	movq	32(%rsp), %rax
	cmpb	$1, 88(%rax)
	jne	.LBB13_44
	movl	%edx, 64(%rsp)
	movq	%r11, 56(%rsp)
	movq	32(%rsp), %rax
	movl	92(%rax), %ecx
	movq	(%rax), %rax
	xorl	%ebx, %ebx
	xorl	%r14d, %r14d
	.p2align	4
.LBB13_18:
	addq	$1, %rbx
	adcq	$0, %r14
	movl	%ecx, %r15d
	imulq	$56, %r15, %rdx
	cmpb	$0, -56(%rax,%rdx)
	jne	.LBB13_151
	movq	(%r8), %r9
	movq	-32(%rax,%rdx), %r10
	movl	-40(%rax,%rdx), %r11d
	movl	-36(%rax,%rdx), %ecx
	movl	%ecx, %ebp
	orl	%r11d, %ebp
	je	.LBB13_21
	cmpq	%r10, %r9
	cmovll	%r11d, %ecx
	testl	%ecx, %ecx
	jne	.LBB13_18
.LBB13_21:
	movq	%r15, 8(%rsp)
	movq	-48(%rax,%rdx), %r13
	movl	$0, 27(%rsp)
	movl	$0, 24(%rsp)
	cmpq	%r10, %r9
	setge	%bpl
	movl	$0, 16(%rsp)
	movl	$0, 19(%rsp)
	movl	$1, %r15d
	movq	56(%rsp), %r11
	movl	64(%rsp), %edx
	jmp	.LBB13_45
.LBB13_22:
	leaq	-1(%r15), %rax
	movq	%r11, 56(%rsp)
	cmpq	%r11, %rax
	movl	%edx, 64(%rsp)
	jae	.LBB13_24
	movq	32(%rsp), %rcx
	movq	(%rcx), %r11
	imulq	$56, %rax, %rax
	cmpb	$0, (%r11,%rax)
	je	.LBB13_77
.LBB13_24:
	xorl	%ebx, %ebx
	movq	32(%rsp), %rax
	cmpb	$1, 88(%rax)
	movl	$0, %r14d
	jne	.LBB13_127
	movq	%r12, 48(%rsp)
	movq	32(%rsp), %rax
	movl	92(%rax), %ebp
	movq	(%rax), %r11
	xorl	%ebx, %ebx
	xorl	%r14d, %r14d
	.p2align	4
.LBB13_26:
	addq	$1, %rbx
	adcq	$0, %r14
	movl	%ebp, %eax
	imulq	$56, %rax, %rax
	cmpb	$0, -56(%r11,%rax)
	jne	.LBB13_151
	movl	%ebp, %r15d
	movq	(%r9), %r13
	movq	-32(%r11,%rax), %rcx
	cmpq	%rcx, %r13
	movl	-40(%r11,%rax), %r10d
	movl	-36(%r11,%rax), %r8d
	movl	%r10d, %ebp
	cmovgl	%r8d, %ebp
	je	.LBB13_58
	orl	%r10d, %r8d
	je	.LBB13_30
	testl	%ebp, %ebp
	jne	.LBB13_26
.LBB13_30:
	movq	-48(%r11,%rax), %rax
	movq	%rax, 8(%rsp)
	cmpq	%rcx, %r13
	setge	%r10b
	addb	%r10b, %r10b
.LBB13_31:
	movl	%r15d, %r15d
	movl	$0, 19(%rsp)
	movl	$0, 16(%rsp)
	testb	%r10b, %r10b
	movq	48(%rsp), %r12
	movq	56(%rsp), %r11
	je	.LBB13_88
	movzbl	%r10b, %eax
	cmpl	$1, %eax
	jne	.LBB13_89
	xorl	%r13d, %r13d
	xorl	%ebp, %ebp
	jmp	.LBB13_144
.LBB13_34:
	movq	32(%rsp), %rax
	cmpb	$1, 88(%rax)
	jne	.LBB13_46
	movl	%edx, 64(%rsp)
	movq	%r11, 56(%rsp)
	movq	%r12, 48(%rsp)
	movq	32(%rsp), %rax
	movl	92(%rax), %ebp
	movq	(%rax), %r10
	xorl	%ebx, %ebx
	xorl	%r14d, %r14d
	.p2align	4
.LBB13_36:
	addq	$1, %rbx
	adcq	$0, %r14
	movl	%ebp, %eax
	imulq	$56, %rax, %rax
	cmpb	$0, -56(%r10,%rax)
	jne	.LBB13_151
	movl	%ebp, %r9d
	movq	(%r8), %r11
	movq	-32(%r10,%rax), %rcx
	cmpq	%rcx, %r11
	movl	-40(%r10,%rax), %edx
	movl	-36(%r10,%rax), %r15d
	movl	%edx, %ebp
	cmovgl	%r15d, %ebp
	je	.LBB13_47
	orl	%edx, %r15d
	je	.LBB13_40
	testl	%ebp, %ebp
	jne	.LBB13_36
.LBB13_40:
	movq	-48(%r10,%rax), %rax
	movq	%rax, 8(%rsp)
	cmpq	%rcx, %r11
	setge	%r8b
	addb	%r8b, %r8b
	jmp	.LBB13_93
.LBB13_41:
	leaq	-1(%r15), %rcx
	cmpq	%r11, %rcx
	jae	.LBB13_43
	movq	32(%rsp), %rax
	movq	(%rax), %rax
	imulq	$56, %rcx, %rcx
	cmpb	$0, (%rax,%rcx)
	je	.LBB13_85
.LBB13_43:
	movw	$1, (%rdi)
	jmp	.LBB13_160
.LBB13_44:
	movl	$0, 16(%rsp)
	movl	$0, 19(%rsp)
	movl	$0, 24(%rsp)
	movl	$0, 27(%rsp)
	movl	24(%rsp), %eax
	movl	27(%rsp), %ecx
	movl	%eax, 16(%rsp)
	movl	%ecx, 19(%rsp)
	xorl	%ebx, %ebx
	xorl	%r14d, %r14d
	xorl	%r15d, %r15d
	movq	$0, 8(%rsp)
	xorl	%r13d, %r13d
	xorl	%ebp, %ebp
.LBB13_45:
	movl	16(%rsp), %eax
	movl	19(%rsp), %ecx
	movl	%ecx, 83(%rsp)
	movl	%eax, 80(%rsp)
	movl	80(%rsp), %eax
	movl	83(%rsp), %ecx
	movl	%eax, 112(%rsp)
	movl	%ecx, 115(%rsp)
	movl	112(%rsp), %eax
	movl	115(%rsp), %ecx
	jmp	.LBB13_111
.LBB13_46:
	movl	$0, 16(%rsp)
	movl	$0, 19(%rsp)
	movl	$0, 24(%rsp)
	movl	$0, 27(%rsp)
	movl	24(%rsp), %eax
	movl	27(%rsp), %ecx
	movl	%eax, 16(%rsp)
	movl	%ecx, 19(%rsp)
	xorl	%ebx, %ebx
	xorl	%r14d, %r14d
	xorl	%r8d, %r8d
	xorl	%r15d, %r15d
	movq	$0, 8(%rsp)
	xorl	%r13d, %r13d
	xorl	%ebp, %ebp
	jmp	.LBB13_99
.LBB13_47:
	movq	-48(%r10,%rax), %rax
	testl	%ebp, %ebp
	movq	%rax, 8(%rsp)
	je	.LBB13_91
	movb	$1, %dl
	.p2align	4
.LBB13_49:
	addq	$1, %rbx
	adcq	$0, %r14
	movl	%ebp, %eax
	imulq	$56, %rax, %r8
	cmpb	$0, -56(%r10,%r8)
	jne	.LBB13_151
	movl	%ebp, %ecx
	movq	-32(%r10,%r8), %r15
	cmpq	%r15, %r11
	setge	%r12b
	movl	-40(%r10,%r8), %eax
	movl	-36(%r10,%r8), %r13d
	movl	%eax, %ebp
	cmovgl	%r13d, %ebp
	addb	%r12b, %r12b
	cmpq	%r15, %r11
	movq	-48(%r10,%r8), %r15
	movzbl	%r12b, %r12d
	movl	$1, %r8d
	cmovnel	%r12d, %r8d
	movzbl	%r8b, %r12d
	testb	%r12b, %r12b
	je	.LBB13_53
	cmpl	$2, %r12d
	je	.LBB13_55
	movl	%ecx, %r9d
	movq	%r15, 8(%rsp)
	jmp	.LBB13_54
.LBB13_53:
	movl	%r12d, %r9d
	movq	%r12, 8(%rsp)
.LBB13_54:
	movl	%r8d, %edx
.LBB13_55:
	orl	%eax, %r13d
	je	.LBB13_92
	testl	%ebp, %ebp
	jne	.LBB13_49
	testb	%dl, %dl
	movzbl	%r8b, %eax
	movl	$1, %r8d
	cmovel	%eax, %r8d
	movq	8(%rsp), %rax
	cmoveq	%r15, %rax
	movq	%rax, 8(%rsp)
	cmovel	%ecx, %r9d
	jmp	.LBB13_93
.LBB13_58:
	movq	-48(%r11,%rax), %rsi
	testl	%ebp, %ebp
	je	.LBB13_142
	movb	$1, %cl
	movl	%r15d, %edx
	jmp	.LBB13_62
.LBB13_60:
	movb	$1, %cl
	movq	8(%rsp), %rsi
	movl	%r15d, %edx
	testl	%eax, %eax
	je	.LBB13_141
	testl	%ebp, %ebp
	je	.LBB13_69
.LBB13_62:
	addq	$1, %rbx
	adcq	$0, %r14
	movl	%ebp, %eax
	imulq	$56, %rax, %r9
	cmpb	$0, -56(%r11,%r9)
	jne	.LBB13_151
	movl	%ebp, %r15d
	movq	-32(%r11,%r9), %r10
	cmpq	%r10, %r13
	setge	%r12b
	movl	-40(%r11,%r9), %r8d
	movl	-36(%r11,%r9), %eax
	movl	%r8d, %ebp
	cmovgl	%eax, %ebp
	addb	%r12b, %r12b
	cmpq	%r10, %r13
	movzbl	%r12b, %r12d
	movl	$1, %r10d
	cmovnel	%r12d, %r10d
	movq	-48(%r11,%r9), %r9
	movq	%r9, 8(%rsp)
	orl	%r8d, %eax
	movzbl	%r10b, %r9d
	testb	%r9b, %r9b
	je	.LBB13_66
	cmpl	$1, %r9d
	je	.LBB13_60
	movl	%edx, %r9d
	jmp	.LBB13_67
.LBB13_66:
	movq	%r9, %rsi
	movl	%r10d, %ecx
.LBB13_67:
	testl	%eax, %eax
	je	.LBB13_140
	movl	%r9d, %edx
	testl	%ebp, %ebp
	jne	.LBB13_62
.LBB13_69:
	testb	%cl, %cl
	cmoveq	8(%rsp), %rsi
	cmovel	%r15d, %edx
	movl	%edx, %r9d
	movl	%edx, %r15d
	movq	%rsi, 8(%rsp)
	jne	.LBB13_143
	jmp	.LBB13_31
.LBB13_70:
	testq	%r8, %r8
	movq	%r12, 48(%rsp)
	movq	%r11, 56(%rsp)
	je	.LBB13_101
	movb	$1, %bpl
	xorl	%ebx, %ebx
	movq	%r8, %rdx
	xorl	%r14d, %r14d
	.p2align	4
.LBB13_72:
	addq	$1, %rbx
	adcq	$0, %r14
	movl	%r15d, %eax
	imulq	$56, %rax, %rcx
	cmpb	$0, -56(%r10,%rcx)
	jne	.LBB13_151
	addq	%r10, %rcx
	movq	(%r9), %rax
	movq	-32(%rcx), %r11
	xorl	%r12d, %r12d
	cmpq	%r11, %rax
	setge	%r12b
	leal	(%r12,%r12), %r13d
	cmpq	%r11, %rax
	setl	%al
	movzbl	%r13b, %r13d
	movl	$2, %r11d
	cmovnel	%r13d, %r11d
	shll	$2, %r12d
	orq	$-8, %r12
	movl	(%rcx,%r12), %r12d
	testl	%r12d, %r12d
	je	.LBB13_119
	addb	%al, %al
	cmpb	%al, %bpl
	je	.LBB13_119
	movl	%r12d, %r15d
	movl	%r11d, %ebp
	decq	%rdx
	jne	.LBB13_72
	xorl	%r14d, %r14d
	movq	%r8, %rbx
	movq	48(%rsp), %r12
	movq	56(%rsp), %r11
	jmp	.LBB13_102
.LBB13_77:
	testq	%r8, %r8
	movq	%r12, 48(%rsp)
	je	.LBB13_112
	movb	$1, %dl
	xorl	%ebx, %ebx
	movq	%r8, %rcx
	xorl	%r14d, %r14d
	.p2align	4
.LBB13_79:
	addq	$1, %rbx
	adcq	$0, %r14
	movl	%r15d, %eax
	imulq	$56, %rax, %rax
	cmpb	$0, -56(%r11,%rax)
	jne	.LBB13_151
	addq	%r11, %rax
	movq	-32(%rax), %r10
	cmpq	%r10, (%r9)
	je	.LBB13_120
	setl	%bpl
	setge	%r12b
	leal	(%r12,%r12), %r10d
	addb	%bpl, %bpl
	cmpb	%bpl, %dl
	je	.LBB13_128
	movzbl	%r12b, %edx
	shll	$2, %edx
	orq	$-8, %rdx
	movl	(%rax,%rdx), %edx
	testl	%edx, %edx
	je	.LBB13_128
	movl	%edx, %r15d
	movl	%r10d, %edx
	decq	%rcx
	jne	.LBB13_79
	xorl	%r14d, %r14d
	movq	%r8, %rbx
.LBB13_120:
	movq	48(%rsp), %r12
	jmp	.LBB13_121
.LBB13_85:
	movq	8(%rax,%rcx), %rax
	movq	%rax, 8(%rsp)
	testb	%r8b, %r8b
	je	.LBB13_114
	movzbl	%r8b, %eax
	cmpl	$1, %eax
	jne	.LBB13_115
	xorl	%r13d, %r13d
	xorl	%ebp, %ebp
	jmp	.LBB13_117
.LBB13_88:
	xorl	%ebp, %ebp
	jmp	.LBB13_90
.LBB13_89:
	movb	$1, %bpl
	xorl	%r10d, %r10d
.LBB13_90:
	movq	8(%rsp), %r13
	movq	%r15, 8(%rsp)
	movl	$1, %r15d
	jmp	.LBB13_144
.LBB13_91:
	movb	$1, %r8b
	jmp	.LBB13_93
.LBB13_92:
	testb	%dl, %dl
	movq	8(%rsp), %rax
	cmoveq	%r15, %rax
	movq	%rax, 8(%rsp)
	cmovel	%ecx, %r9d
	movzbl	%r8b, %eax
	movl	$1, %r8d
	cmovel	%eax, %r8d
.LBB13_93:
	movl	$0, 27(%rsp)
	movl	$0, 24(%rsp)
	movl	%r9d, %r15d
	testb	%r8b, %r8b
	movl	64(%rsp), %edx
	je	.LBB13_96
	movzbl	%r8b, %eax
	cmpl	$1, %eax
	movq	48(%rsp), %r12
	movq	56(%rsp), %r11
	jne	.LBB13_97
	xorl	%r13d, %r13d
	xorl	%ebp, %ebp
	jmp	.LBB13_98
.LBB13_96:
	xorl	%ebp, %ebp
	movq	8(%rsp), %r13
	movq	%r15, 8(%rsp)
	movl	$1, %r15d
	movq	48(%rsp), %r12
	movq	56(%rsp), %r11
	jmp	.LBB13_98
.LBB13_97:
	movb	$1, %bpl
	xorl	%r8d, %r8d
	movq	8(%rsp), %r13
	movq	%r15, 8(%rsp)
	movl	$1, %r15d
.LBB13_98:
	movl	$0, 19(%rsp)
	movl	$0, 16(%rsp)
.LBB13_99:
	movl	16(%rsp), %eax
	movl	19(%rsp), %ecx
	movl	%ecx, 83(%rsp)
	movl	%eax, 80(%rsp)
	movl	80(%rsp), %eax
	movl	83(%rsp), %ecx
	movl	%eax, 120(%rsp)
	movl	%ecx, 123(%rsp)
	movl	120(%rsp), %eax
	movl	123(%rsp), %ecx
	movl	%eax, 40(%rsp)
	movl	%ecx, 43(%rsp)
	jmp	.LBB13_146
.LBB13_101:
	xorl	%ebx, %ebx
	xorl	%r14d, %r14d
.LBB13_102:
	movq	32(%rsp), %rax
	cmpb	$1, 88(%rax)
	jne	.LBB13_109
	movq	32(%rsp), %rax
	movl	92(%rax), %r15d
	imulq	$56, %r15, %r8
	cmpb	$0, -56(%r10,%r8)
	jne	.LBB13_151
	xorl	%r14d, %r14d
	incq	%rbx
	sete	%r14b
.LBB13_105:
	movq	(%r9), %r11
	movq	-32(%r10,%r8), %rdx
	cmpq	%rdx, %r11
	setl	%bpl
	movl	-40(%r10,%r8), %ecx
	movl	-36(%r10,%r8), %r12d
	movl	%r12d, %eax
	cmovll	%ecx, %eax
	orl	%ecx, %r12d
	je	.LBB13_113
	testl	%eax, %eax
	je	.LBB13_113
	movl	%eax, %r15d
	movl	%eax, %eax
	imulq	$56, %rax, %r8
	cmpb	$0, -56(%r10,%r8)
	jne	.LBB13_151
	addq	$1, %rbx
	adcq	$0, %r14
	jmp	.LBB13_105
.LBB13_109:
	movl	$0, 19(%rsp)
	movl	$0, 16(%rsp)
	xorl	%r15d, %r15d
	movq	$0, 8(%rsp)
	xorl	%r13d, %r13d
	xorl	%ebp, %ebp
.LBB13_110:
	movl	64(%rsp), %edx
	movl	16(%rsp), %eax
	movl	19(%rsp), %ecx
	movl	%ecx, 27(%rsp)
	movl	%eax, 24(%rsp)
	movl	24(%rsp), %eax
	movl	27(%rsp), %ecx
	movl	%eax, 96(%rsp)
	movl	%ecx, 99(%rsp)
	movl	96(%rsp), %eax
	movl	99(%rsp), %ecx
.LBB13_111:
	movl	%eax, 40(%rsp)
	movl	%ecx, 43(%rsp)
	xorl	%r8d, %r8d
	jmp	.LBB13_146
.LBB13_112:
	xorl	%ebx, %ebx
	xorl	%r14d, %r14d
.LBB13_121:
	movq	32(%rsp), %rax
	cmpb	$1, 88(%rax)
	jne	.LBB13_127
	movq	32(%rsp), %rax
	movl	92(%rax), %ebp
	.p2align	4
.LBB13_123:
	addq	$1, %rbx
	adcq	$0, %r14
	movl	%ebp, %eax
	imulq	$56, %rax, %rax
	cmpb	$0, -56(%r11,%rax)
	jne	.LBB13_151
	movl	%ebp, %r15d
	movq	(%r9), %r13
	movq	-32(%r11,%rax), %rcx
	cmpq	%rcx, %r13
	movl	-40(%r11,%rax), %r10d
	movl	-36(%r11,%rax), %r8d
	movl	%r10d, %ebp
	cmovgl	%r8d, %ebp
	je	.LBB13_129
	orl	%r10d, %r8d
	je	.LBB13_30
	testl	%ebp, %ebp
	jne	.LBB13_123
	jmp	.LBB13_30
.LBB13_127:
	movl	$0, 27(%rsp)
	movl	$0, 24(%rsp)
	xorl	%r10d, %r10d
	xorl	%r15d, %r15d
	movq	$0, 8(%rsp)
	xorl	%r13d, %r13d
	xorl	%ebp, %ebp
	movq	56(%rsp), %r11
	jmp	.LBB13_145
.LBB13_113:
	leaq	(%r10,%r8), %rcx
	addq	$-48, %rcx
	xorb	$1, %bpl
	addb	%bpl, %bpl
	cmpq	%rdx, %r11
	movzbl	%bpl, %eax
	jmp	.LBB13_14
.LBB13_114:
	xorl	%ebp, %ebp
	jmp	.LBB13_116
.LBB13_115:
	movb	$1, %bpl
	xorl	%r8d, %r8d
.LBB13_116:
	movq	8(%rsp), %r13
	movq	%r15, 8(%rsp)
	movl	$1, %r15d
.LBB13_117:
	movl	$0, 43(%rsp)
	movl	$0, 40(%rsp)
.LBB13_118:
	xorl	%ebx, %ebx
	xorl	%r14d, %r14d
	jmp	.LBB13_146
.LBB13_119:
	addq	$-48, %rcx
	jmp	.LBB13_15
.LBB13_128:
	movq	-48(%rax), %rax
	movq	%rax, 8(%rsp)
	jmp	.LBB13_31
.LBB13_129:
	movq	-48(%r11,%rax), %rsi
	testl	%ebp, %ebp
	je	.LBB13_142
	movb	$1, %cl
	movl	%r15d, %edx
	jmp	.LBB13_133
.LBB13_131:
	movb	$1, %cl
	movq	8(%rsp), %rsi
	movl	%r15d, %edx
	testl	%eax, %eax
	je	.LBB13_141
	testl	%ebp, %ebp
	je	.LBB13_69
.LBB13_133:
	addq	$1, %rbx
	adcq	$0, %r14
	movl	%ebp, %eax
	imulq	$56, %rax, %r9
	cmpb	$0, -56(%r11,%r9)
	jne	.LBB13_151
	movl	%ebp, %r15d
	movq	-32(%r11,%r9), %r8
	cmpq	%r8, %r13
	setge	%r10b
	movl	-40(%r11,%r9), %r12d
	movl	-36(%r11,%r9), %eax
	movl	%r12d, %ebp
	cmovgl	%eax, %ebp
	addb	%r10b, %r10b
	cmpq	%r8, %r13
	movzbl	%r10b, %r8d
	movl	$1, %r10d
	cmovnel	%r8d, %r10d
	movq	-48(%r11,%r9), %r8
	movq	%r8, 8(%rsp)
	orl	%r12d, %eax
	movzbl	%r10b, %r9d
	testb	%r9b, %r9b
	je	.LBB13_137
	cmpl	$1, %r9d
	je	.LBB13_131
	movl	%edx, %r9d
	jmp	.LBB13_138
.LBB13_137:
	movq	%r9, %rsi
	movl	%r10d, %ecx
.LBB13_138:
	testl	%eax, %eax
	je	.LBB13_140
	movl	%r9d, %edx
	testl	%ebp, %ebp
	jne	.LBB13_133
	jmp	.LBB13_69
.LBB13_142:
	movl	%r15d, %r9d
	jmp	.LBB13_143
.LBB13_140:
	testb	%cl, %cl
	jne	.LBB13_143
	jmp	.LBB13_31
.LBB13_141:
	movl	%r15d, %r9d
	movq	8(%rsp), %rsi
.LBB13_143:
	movl	%r9d, %r15d
	movl	$0, 19(%rsp)
	movl	$0, 16(%rsp)
	movb	$1, %r10b
	xorl	%r13d, %r13d
	xorl	%ebp, %ebp
	movq	%rsi, 8(%rsp)
	movq	48(%rsp), %r12
	movq	56(%rsp), %r11
.LBB13_144:
	movl	16(%rsp), %eax
	movl	19(%rsp), %ecx
	movl	%ecx, 27(%rsp)
	movl	%eax, 24(%rsp)
.LBB13_145:
	movl	24(%rsp), %eax
	movl	27(%rsp), %ecx
	movl	%ecx, 19(%rsp)
	movl	%eax, 16(%rsp)
	movl	16(%rsp), %eax
	movl	19(%rsp), %ecx
	movl	%eax, 104(%rsp)
	movl	%ecx, 107(%rsp)
	movl	104(%rsp), %eax
	movl	107(%rsp), %ecx
	movl	%eax, 40(%rsp)
	movl	%ecx, 43(%rsp)
	movl	%r10d, %r8d
	movl	64(%rsp), %edx
.LBB13_146:
	movl	40(%rsp), %eax
	movl	43(%rsp), %ecx
	movl	%ecx, 91(%rsp)
	movl	%eax, 88(%rsp)
	cmpb	$1, %r8b
	jne	.LBB13_148
	movl	%r15d, %ecx
	shrl	$8, %ecx
	movl	128(%rsp), %eax
	movl	131(%rsp), %edx
	movl	%edx, 75(%rsp)
	movl	%eax, 72(%rsp)
	movl	$1, %r8d
	xorl	%ebp, %ebp
	xorl	%r13d, %r13d
	xorl	%edx, %edx
	movl	%r15d, %eax
	xorl	%esi, %esi
	movq	8(%rsp), %r9
	jmp	.LBB13_154
.LBB13_148:
	testb	$1, %dl
	je	.LBB13_152
	movq	%r11, %rax
	subq	%r12, %rax
	cmpq	%r11, %rax
	jae	.LBB13_155
	testq	%r12, %r12
	jne	.LBB13_153
.LBB13_151:
	ud2
.LBB13_152:
	testq	%r12, %r12
	je	.LBB13_158
.LBB13_153:
	shlq	$2, %r12
	movq	32(%rsp), %rax
	addq	24(%rax), %r12
	movl	-4(%r12), %eax
	movq	8(%rsp), %rdx
	movq	32(%rsp), %rcx
	movq	48(%rcx), %r9
	movl	%eax, %ecx
	shrl	$8, %ecx
	movzbl	%r15b, %esi
	movl	88(%rsp), %r8d
	movl	91(%rsp), %r10d
	movl	%r10d, 75(%rsp)
	movl	%r8d, 72(%rsp)
	xorl	%r8d, %r8d
.LBB13_154:
	movw	$0, (%rdi)
	movq	%r8, 16(%rdi)
	movb	%al, 24(%rdi)
	movl	%ecx, 25(%rdi)
	movb	$0, 31(%rdi)
	movw	$0, 29(%rdi)
	movq	%r9, 32(%rdi)
	movq	%rsi, 40(%rdi)
	movq	%rdx, 48(%rdi)
	movq	%r13, 56(%rdi)
	movb	%bpl, 64(%rdi)
	movl	72(%rsp), %eax
	movl	75(%rsp), %ecx
	movl	%eax, 65(%rdi)
	movl	%ecx, 68(%rdi)
	movq	$0, 72(%rdi)
	movq	%r14, 88(%rdi)
	movq	%rbx, 80(%rdi)
	jmp	.LBB13_161
.LBB13_155:
	movq	32(%rsp), %rdx
	movq	64(%rdx), %rcx
	movl	$4294967294, %eax
	cmpq	%rax, %rcx
	cmovaeq	%rax, %rcx
	cmpb	$1, 56(%rdx)
	cmovneq	%rax, %rcx
	movb	$2, %dl
	cmpq	%r11, %rcx
	jbe	.LBB13_159
	addq	%r11, %r11
	cmpq	$5, %r11
	movl	$4, %eax
	cmovaeq	%r11, %rax
	cmpq	%rcx, %rax
	cmovaeq	%rcx, %rax
	movq	%rdi, 64(%rsp)
	movq	32(%rsp), %rdi
	movq	%rax, %rsi
	callq	"chain_base::chain::ChainArena::reallocate_min_capacity::<#bdd88387dc76e1c4>"
	movq	64(%rsp), %rdi
	movb	$3, %dl
	testb	%al, %al
	jne	.LBB13_159
	movq	32(%rsp), %rax
	movq	32(%rax), %r12
	testq	%r12, %r12
	jne	.LBB13_153
	jmp	.LBB13_151
.LBB13_158:
	movb	$1, %dl
.LBB13_159:
	movb	$1, (%rdi)
	movb	%dl, 1(%rdi)
.LBB13_160:
	xorps	%xmm0, %xmm0
	movups	%xmm0, 16(%rdi)
	movups	%xmm0, 32(%rdi)
	movups	%xmm0, 48(%rdi)
	movups	%xmm0, 64(%rdi)
	movups	%xmm0, 80(%rdi)
.LBB13_161:
	addq	$136, %rsp
	.cfi_def_cfa_offset 56
	popq	%rbx
	.cfi_def_cfa_offset 48
	popq	%r12
	.cfi_def_cfa_offset 40
	popq	%r13
	.cfi_def_cfa_offset 32
	popq	%r14
	.cfi_def_cfa_offset 24
	popq	%r15
	.cfi_def_cfa_offset 16
	popq	%rbp
	.cfi_def_cfa_offset 8
	retq
.Lfunc_end13:
	.size	"triple_ord::arena::SimpleOrdArena::prepare::<#304c980cfa2570bb>", .Lfunc_end13-"triple_ord::arena::SimpleOrdArena::prepare::<#304c980cfa2570bb>"
	.cfi_endproc
	.section	".rodata.triple_ord::arena::SimpleOrdArena::prepare::<#304c980cfa2570bb>","a",@progbits
	.p2align	2, 0x0
.LJTI13_0:
	.long	.LBB13_1-.LJTI13_0
	.long	.LBB13_34-.LJTI13_0
	.long	.LBB13_16-.LJTI13_0
	.long	.LBB13_22-.LJTI13_0
	.long	.LBB13_3-.LJTI13_0
	.long	.LBB13_41-.LJTI13_0

	.section	".text.unlikely.chain_base::chain::ChainArena::reallocate_min_capacity::<#bdd88387dc76e1c4>","ax",@progbits
	.p2align	4
	.type	"chain_base::chain::ChainArena::reallocate_min_capacity::<#bdd88387dc76e1c4>",@function
"chain_base::chain::ChainArena::reallocate_min_capacity::<#bdd88387dc76e1c4>":
	.cfi_startproc
	jmp	"arena_base::arena::Arena::reallocate_min_capacity::<#9f6318177921f5a5>"
.Lfunc_end14:
	.size	"chain_base::chain::ChainArena::reallocate_min_capacity::<#bdd88387dc76e1c4>", .Lfunc_end14-"chain_base::chain::ChainArena::reallocate_min_capacity::<#bdd88387dc76e1c4>"
	.cfi_endproc

	.section	".text.unlikely.arena_base::arena::Arena::reallocate_min_capacity::<#9f6318177921f5a5>","ax",@progbits
	.p2align	4
	.type	"arena_base::arena::Arena::reallocate_min_capacity::<#9f6318177921f5a5>",@function
"arena_base::arena::Arena::reallocate_min_capacity::<#9f6318177921f5a5>":
	.cfi_startproc
	pushq	%rbp
	.cfi_def_cfa_offset 16
	pushq	%r15
	.cfi_def_cfa_offset 24
	pushq	%r14
	.cfi_def_cfa_offset 32
	pushq	%r13
	.cfi_def_cfa_offset 40
	pushq	%r12
	.cfi_def_cfa_offset 48
	pushq	%rbx
	.cfi_def_cfa_offset 56
	subq	$24, %rsp
	.cfi_def_cfa_offset 80
	.cfi_offset %rbx, -56
	.cfi_offset %r12, -48
	.cfi_offset %r13, -40
	.cfi_offset %r14, -32
	.cfi_offset %r15, -24
	.cfi_offset %rbp, -16
	movl	$4294967294, %eax
	cmpb	$1, 56(%rdi)
	jne	.LBB15_2
	movq	64(%rdi), %rcx
	cmpq	%rax, %rcx
	cmovbq	%rcx, %rax
.LBB15_2:
	cmpq	%rsi, %rax
	jae	.LBB15_4
	movb	$1, %al
	xorl	%edx, %edx
	jmp	.LBB15_61
.LBB15_4:
	leaq	8(%rdi), %r9
	movq	8(%rdi), %r14
	imulq	$56, %r14, %rax
	leaq	-56(%rax), %rcx
	movq	%r14, %rdx
	.p2align	4
.LBB15_5:
	movq	%rdx, %r13
	testq	%rdx, %rdx
	je	.LBB15_8
	leaq	-1(%r13), %rdx
	movq	(%rdi), %r8
	cmpb	$0, (%r8,%rcx)
	leaq	-56(%rcx), %rcx
	jne	.LBB15_5
	incq	%rdx
	movl	$4294967295, %ecx
	cmpq	%rcx, %rdx
	jae	.LBB15_39
.LBB15_8:
	cmpq	%rsi, %r13
	movq	%rsi, %r12
	cmovaq	%r13, %r12
	movq	32(%rdi), %r8
	xorl	%ecx, %ecx
	testq	%r8, %r8
	movl	$0, %r15d
	cmoveq	%r14, %r15
	movq	%r12, %rbp
	subq	%r14, %rbp
	cmovbq	%rcx, %rbp
	movq	16(%rdi), %rcx
	movq	%rcx, %rdx
	subq	%r14, %rdx
	cmpq	%rdx, %rbp
	jbe	.LBB15_18
	movb	$1, %dl
	addq	%r14, %rbp
	jb	.LBB15_10
	movabsq	$164703072086692425, %r8
	cmpq	%r8, %rbp
	ja	.LBB15_10
	movq	%r9, 8(%rsp)
	movq	%rsi, 16(%rsp)
	testq	%rcx, %rcx
	je	.LBB15_15
	movq	%rdi, %rbx
	movq	(%rdi), %rdi
	imulq	$56, %rbp, %rdx
	movl	$8, %ecx
	movq	%rax, %rsi
	callq	rattle_realloc@PLT
	jmp	.LBB15_16
.LBB15_15:
	movq	%rdi, %rbx
	imulq	$56, %rbp, %rdi
	movl	$8, %esi
	callq	rattle_alloc@PLT
.LBB15_16:
	movq	%rax, %rsi
	movq	%rdx, %rcx
	movb	$1, %al
	testb	$1, %sil
	movb	$1, %dl
	je	.LBB15_61
	movq	%rbx, %rdi
	movq	%rcx, (%rbx)
	movq	%rbp, 16(%rbx)
	movq	32(%rbx), %r8
	movq	16(%rsp), %rsi
	movq	8(%rsp), %r9
.LBB15_18:
	xorl	%ebp, %ebp
	movq	%r12, %rax
	subq	%r8, %rax
	cmovaeq	%rax, %rbp
	movq	40(%rdi), %rax
	movq	%rax, %rcx
	subq	%r8, %rcx
	cmpq	%rcx, %rbp
	jbe	.LBB15_28
	movb	$1, %dl
	addq	%r8, %rbp
	jb	.LBB15_10
	movq	%rbp, %rcx
	shrq	$61, %rcx
	jne	.LBB15_10
	movq	%r9, 8(%rsp)
	movq	%rsi, 16(%rsp)
	testq	%rax, %rax
	je	.LBB15_25
	movq	%rdi, %rbx
	movq	24(%rdi), %rdi
	shlq	$2, %r8
	leaq	(,%rbp,4), %rdx
	movl	$4, %ecx
	movq	%r8, %rsi
	callq	rattle_realloc@PLT
	jmp	.LBB15_26
.LBB15_10:
	movb	$1, %al
	jmp	.LBB15_61
.LBB15_25:
	movq	%rdi, %rbx
	leaq	(,%rbp,4), %rdi
	movl	$4, %esi
	callq	rattle_alloc@PLT
.LBB15_26:
	movq	%rax, %rsi
	movq	%rdx, %rcx
	movb	$1, %al
	testb	$1, %sil
	movb	$1, %dl
	je	.LBB15_61
	movq	%rbx, %rdi
	movq	%rcx, 24(%rbx)
	movq	%rbp, 40(%rbx)
	movq	16(%rsp), %rsi
	movq	8(%rsp), %r9
.LBB15_28:
	movq	(%r9), %rax
	cmpq	%rax, %r12
	jbe	.LBB15_35
	movl	%r12d, %edx
	subl	%eax, %edx
	leaq	1(%rax), %rcx
	testb	$1, %dl
	je	.LBB15_31
	movq	(%rdi), %rdx
	imulq	$56, %rax, %rax
	movq	$1, (%rdx,%rax)
	xorps	%xmm0, %xmm0
	movups	%xmm0, 8(%rdx,%rax)
	movups	%xmm0, 24(%rdx,%rax)
	movups	%xmm0, 40(%rdx,%rax)
	movq	%rcx, 8(%rdi)
	movq	%rcx, %rax
.LBB15_31:
	movq	%r12, %rbp
	cmpq	%rcx, %r12
	je	.LBB15_36
	cmpq	%r13, %rsi
	cmovaq	%rsi, %r13
	negq	%r13
	imulq	$56, %rax, %rcx
	incq	%rax
	.p2align	4
.LBB15_33:
	movq	(%rdi), %rdx
	movq	$1, (%rdx,%rcx)
	xorps	%xmm0, %xmm0
	movups	%xmm0, 8(%rdx,%rcx)
	movups	%xmm0, 24(%rdx,%rcx)
	movups	%xmm0, 40(%rdx,%rcx)
	movq	%rax, 8(%rdi)
	movq	(%rdi), %rdx
	movq	$1, 56(%rdx,%rcx)
	leaq	1(%rax), %rsi
	movups	%xmm0, 64(%rdx,%rcx)
	movups	%xmm0, 80(%rdx,%rcx)
	movups	%xmm0, 96(%rdx,%rcx)
	movq	%rsi, 8(%rdi)
	leaq	(%rax,%r13), %rdx
	addq	$2, %rdx
	addq	$2, %rax
	addq	$112, %rcx
	cmpq	$1, %rdx
	jne	.LBB15_33
	movq	%r12, %rbp
	jmp	.LBB15_36
.LBB15_35:
	movq	%rax, %rbp
.LBB15_36:
	leaq	32(%rdi), %r13
	imulq	$56, %rbp, %rax
	addq	$-56, %rax
	.p2align	4
.LBB15_37:
	cmpq	%rbp, %r12
	jae	.LBB15_40
	decq	%rbp
	movq	%rbp, 8(%rdi)
	movq	(%rdi), %rcx
	cmpb	$1, (%rcx,%rax)
	leaq	-56(%rax), %rax
	je	.LBB15_37
.LBB15_39:
	ud2
.LBB15_40:
	cmpq	$0, 32(%rdi)
	je	.LBB15_42
	movq	$0, (%r13)
.LBB15_42:
	cmpq	%rbp, %r15
	jae	.LBB15_50
	addq	(%rdi), %rax
	xorl	%ecx, %ecx
	jmp	.LBB15_45
	.p2align	4
.LBB15_44:
	addq	$-56, %rax
	movq	%rdx, %rbp
	cmpq	%rdx, %r15
	jae	.LBB15_49
.LBB15_45:
	leaq	-1(%rbp), %rdx
	cmpq	%rdx, %r14
	jbe	.LBB15_47
	cmpb	$1, (%rax)
	jne	.LBB15_44
.LBB15_47:
	movl	$4294967295, %esi
	cmpq	%rsi, %rbp
	jae	.LBB15_39
	movq	24(%rdi), %rsi
	movl	%ebp, (%rsi,%rcx,4)
	incq	%rcx
	movq	%rcx, 32(%rdi)
	jmp	.LBB15_44
.LBB15_49:
	movq	(%r9), %rbp
.LBB15_50:
	cmpq	%rbp, 16(%rdi)
	jbe	.LBB15_55
	testq	%rbp, %rbp
	je	.LBB15_54
	movq	(%rdi), %rax
	imulq	$56, %rbp, %rdx
	movl	$8, %ecx
	movq	%rdi, %rbx
	movq	%rax, %rdi
	movq	%rdx, %rsi
	callq	rattle_realloc@PLT
	movq	%rbx, %rdi
	testb	$1, %al
	je	.LBB15_55
	movq	%rdx, (%rdi)
	movq	%rbp, 16(%rdi)
	jmp	.LBB15_55
.LBB15_54:
	movq	(%rdi), %rax
	movq	%rdi, %rbx
	movq	%rax, %rdi
	movq	%r9, %r14
	callq	rattle_dealloc@PLT
	movq	%rbx, %rdi
	movq	%rsp, %rax
	movq	%rax, (%rbx)
	xorps	%xmm0, %xmm0
	movups	%xmm0, (%r14)
.LBB15_55:
	movq	32(%rdi), %rsi
	cmpq	%rbp, %rsi
	cmovaq	%rsi, %rbp
	cmpq	%rbp, 40(%rdi)
	jbe	.LBB15_60
	testq	%rbp, %rbp
	je	.LBB15_59
	movq	%rdi, %rbx
	movq	24(%rdi), %rdi
	shlq	$2, %rsi
	leaq	(,%rbp,4), %rdx
	movl	$4, %ecx
	callq	rattle_realloc@PLT
	testb	$1, %al
	je	.LBB15_60
	movq	%rdx, 24(%rbx)
	movq	%rbp, 40(%rbx)
	jmp	.LBB15_60
.LBB15_59:
	movq	24(%rdi), %rax
	movq	%rdi, %rbx
	movq	%rax, %rdi
	callq	rattle_dealloc@PLT
	movq	%rsp, %rax
	movq	%rax, 24(%rbx)
	xorps	%xmm0, %xmm0
	movups	%xmm0, (%r13)
.LBB15_60:
	xorl	%edx, %edx
	xorl	%eax, %eax
.LBB15_61:
	addq	$24, %rsp
	.cfi_def_cfa_offset 56
	popq	%rbx
	.cfi_def_cfa_offset 48
	popq	%r12
	.cfi_def_cfa_offset 40
	popq	%r13
	.cfi_def_cfa_offset 32
	popq	%r14
	.cfi_def_cfa_offset 24
	popq	%r15
	.cfi_def_cfa_offset 16
	popq	%rbp
	.cfi_def_cfa_offset 8
	retq
.Lfunc_end15:
	.size	"arena_base::arena::Arena::reallocate_min_capacity::<#9f6318177921f5a5>", .Lfunc_end15-"arena_base::arena::Arena::reallocate_min_capacity::<#9f6318177921f5a5>"
	.cfi_endproc

	.section	".text.ord_tree::promote::rotate_once_or_twice::<#c550f621a6e4d4b2>","ax",@progbits
	.p2align	4
	.type	"ord_tree::promote::rotate_once_or_twice::<#c550f621a6e4d4b2>",@function
"ord_tree::promote::rotate_once_or_twice::<#c550f621a6e4d4b2>":
	.cfi_startproc
	pushq	%rbp
	.cfi_def_cfa_offset 16
	pushq	%r15
	.cfi_def_cfa_offset 24
	pushq	%r14
	.cfi_def_cfa_offset 32
	pushq	%r13
	.cfi_def_cfa_offset 40
	pushq	%r12
	.cfi_def_cfa_offset 48
	pushq	%rbx
	.cfi_def_cfa_offset 56
	.cfi_offset %rbx, -56
	.cfi_offset %r12, -48
	.cfi_offset %r13, -40
	.cfi_offset %r14, -32
	.cfi_offset %r15, -24
	.cfi_offset %rbp, -16
	movl	%ecx, -12(%rsp)
	movq	(%rdi), %r15
	movl	%r8d, %eax
	imulq	$56, %rax, %r9
	cmpb	$0, -56(%r15,%r9)
	jne	.LBB16_60
	leaq	(%r15,%r9), %r13
	movl	-16(%r13), %ecx
	movzbl	-12(%r13), %eax
	xorl	%ebp, %ebp
	testb	%dl, %dl
	setne	%bpl
	shll	$2, %ebp
	orq	$-40, %rbp
	movl	(%r13,%rbp), %r10d
	testq	%r10, %r10
	je	.LBB16_2
	imulq	$56, %r10, %r10
	cmpb	$0, -56(%r15,%r10)
	jne	.LBB16_60
	movzbl	-12(%r15,%r10), %r11d
	movl	%eax, %r10d
	subb	%r11b, %r10b
	cmpb	$1, %r10b
	jne	.LBB16_23
.LBB16_6:
	movl	-12(%rsp), %ecx
	movl	%ecx, %r10d
	imulq	$56, %r10, %rbx
	cmpb	$0, -56(%r15,%rbx)
	jne	.LBB16_60
	xorl	%r14d, %r14d
	testb	%dl, %dl
	sete	%r14b
	movl	-16(%r15,%rbx), %r10d
	shll	$2, %r14d
	orq	$-40, %r14
	movl	(%r13,%r14), %r14d
	testq	%r10, %r10
	je	.LBB16_8
	imulq	$56, %r10, %rsi
	cmpb	$0, -56(%r15,%rsi)
	jne	.LBB16_60
	movl	-40(%r15,%rsi), %ebp
	testl	%ebp, %ebp
	sete	%r12b
	cmpl	%ecx, %ebp
	setne	%bpl
	orb	%r12b, %bpl
	jne	.LBB16_12
	movl	%r8d, -40(%r15,%rsi)
	testl	%r14d, %r14d
	jne	.LBB16_14
	jmp	.LBB16_16
.LBB16_2:
	xorl	%r11d, %r11d
	movl	%eax, %r10d
	subb	%r11b, %r10b
	cmpb	$1, %r10b
	je	.LBB16_6
.LBB16_23:
	movq	%rsi, -8(%rsp)
	xorl	%r12d, %r12d
	testb	%dl, %dl
	sete	%r12b
	shll	$2, %r12d
	orq	$-40, %r12
	movl	(%r13,%r12), %r11d
	testq	%r11, %r11
	je	.LBB16_60
	imulq	$56, %r11, %r10
	cmpb	$0, -56(%r15,%r10)
	jne	.LBB16_60
	leaq	(%r15,%r10), %r13
	movzbl	-12(%r13), %esi
	movl	(%r13,%rbp), %r13d
	testl	%ecx, %ecx
	je	.LBB16_26
	imulq	$56, %rcx, %rbp
	cmpb	$0, -56(%r15,%rbp)
	jne	.LBB16_60
	movl	%eax, %r14d
	movl	-40(%r15,%rbp), %ebx
	testl	%ebx, %ebx
	sete	%al
	cmpl	%r8d, %ebx
	setne	%bl
	orb	%al, %bl
	jne	.LBB16_30
	movl	%r11d, -40(%r15,%rbp)
	jmp	.LBB16_31
.LBB16_8:
	movl	$1, (%rsi)
	movl	%r8d, 4(%rsi)
	testl	%r14d, %r14d
	jne	.LBB16_14
	jmp	.LBB16_16
.LBB16_26:
	movq	-8(%rsp), %rbx
	movl	$1, (%rbx)
	movl	%r11d, 4(%rbx)
	testl	%r13d, %r13d
	jne	.LBB16_33
	jmp	.LBB16_35
.LBB16_12:
	movl	%r8d, -36(%r15,%rsi)
	testl	%r14d, %r14d
	je	.LBB16_16
.LBB16_14:
	movq	(%rdi), %rsi
	imulq	$56, %r14, %r15
	cmpb	$0, -56(%rsi,%r15)
	jne	.LBB16_60
	movl	%ecx, -16(%rsi,%r15)
.LBB16_16:
	movq	(%rdi), %rsi
	cmpb	$0, -56(%rsi,%rbx)
	jne	.LBB16_60
	testb	%dl, %dl
	je	.LBB16_18
	movl	%r14d, -36(%rsi,%rbx)
	movl	%r8d, -16(%rsi,%rbx)
	movb	%r11b, -12(%rsi,%rbx)
	movq	(%rdi), %rdx
	cmpb	$0, -56(%rdx,%r9)
	jne	.LBB16_60
	addq	%r9, %rdx
	movl	%ecx, -40(%rdx)
	movl	%r10d, -16(%rdx)
	jmp	.LBB16_59
.LBB16_18:
	movl	%r14d, -40(%rsi,%rbx)
	movl	%r8d, -16(%rsi,%rbx)
	movb	%r11b, -12(%rsi,%rbx)
	movq	(%rdi), %rdx
	cmpb	$0, -56(%rdx,%r9)
	jne	.LBB16_60
	addq	%r9, %rdx
	movl	%ecx, -36(%rdx)
	movl	%r10d, -16(%rdx)
	jmp	.LBB16_59
.LBB16_30:
	movl	%r11d, -36(%r15,%rbp)
.LBB16_31:
	movl	%r14d, %eax
	testl	%r13d, %r13d
	je	.LBB16_35
.LBB16_33:
	movq	(%rdi), %r15
	imulq	$56, %r13, %rbp
	cmpb	$0, -56(%r15,%rbp)
	jne	.LBB16_60
	movl	%r8d, -16(%r15,%rbp)
.LBB16_35:
	movq	(%rdi), %r15
	cmpb	$0, -56(%r15,%r9)
	jne	.LBB16_60
	testb	%dl, %dl
	je	.LBB16_37
	movl	%r13d, -40(%r15,%r9)
	movl	%r11d, -16(%r15,%r9)
	movb	%sil, -12(%r15,%r9)
	movq	(%rdi), %r9
	cmpb	$0, -56(%r9,%r10)
	jne	.LBB16_60
	movl	%esi, %r13d
	addq	%r10, %r9
	movl	%r8d, -36(%r9)
	jmp	.LBB16_41
.LBB16_37:
	movl	%r13d, -36(%r15,%r9)
	movl	%r11d, -16(%r15,%r9)
	movb	%sil, -12(%r15,%r9)
	movq	(%rdi), %r9
	cmpb	$0, -56(%r9,%r10)
	jne	.LBB16_60
	movl	%esi, %r13d
	addq	%r10, %r9
	movl	%r8d, -40(%r9)
.LBB16_41:
	movl	%ecx, -16(%r9)
	movb	%al, -12(%r9)
	movq	(%rdi), %r15
	cmpb	$0, -56(%r15,%r10)
	jne	.LBB16_60
	movl	%eax, %ebp
	movl	-12(%rsp), %ecx
	movl	%ecx, %eax
	imulq	$56, %rax, %r9
	cmpb	$0, -56(%r15,%r9)
	jne	.LBB16_60
	leaq	(%r15,%r10), %rax
	movl	-16(%r15,%r9), %r8d
	movl	(%rax,%r12), %r14d
	testq	%r8, %r8
	je	.LBB16_44
	imulq	$56, %r8, %rsi
	cmpb	$0, -56(%r15,%rsi)
	jne	.LBB16_60
	movl	-40(%r15,%rsi), %eax
	testl	%eax, %eax
	sete	%bl
	cmpl	%ecx, %eax
	setne	%al
	orb	%bl, %al
	jne	.LBB16_48
	movl	%r11d, -40(%r15,%rsi)
	movl	%ebp, %eax
	testl	%r14d, %r14d
	jne	.LBB16_50
	jmp	.LBB16_52
.LBB16_44:
	movq	-8(%rsp), %rsi
	movl	$1, (%rsi)
	movl	%r11d, 4(%rsi)
	movl	%ebp, %eax
	testl	%r14d, %r14d
	jne	.LBB16_50
	jmp	.LBB16_52
.LBB16_48:
	movl	%r11d, -36(%r15,%rsi)
	movl	%ebp, %eax
	testl	%r14d, %r14d
	je	.LBB16_52
.LBB16_50:
	movq	(%rdi), %rsi
	imulq	$56, %r14, %r15
	cmpb	$0, -56(%rsi,%r15)
	jne	.LBB16_60
	movl	%ecx, -16(%rsi,%r15)
.LBB16_52:
	movq	(%rdi), %rsi
	cmpb	$0, -56(%rsi,%r9)
	jne	.LBB16_60
	testb	%dl, %dl
	je	.LBB16_54
	movl	%r14d, -36(%rsi,%r9)
	movl	%r11d, -16(%rsi,%r9)
	movb	%r13b, -12(%rsi,%r9)
	movq	(%rdi), %rdx
	cmpb	$0, -56(%rdx,%r10)
	jne	.LBB16_60
	addq	%r10, %rdx
	movl	%ecx, -40(%rdx)
	jmp	.LBB16_58
.LBB16_54:
	movl	%r14d, -40(%rsi,%r9)
	movl	%r11d, -16(%rsi,%r9)
	movb	%r13b, -12(%rsi,%r9)
	movq	(%rdi), %rdx
	cmpb	$0, -56(%rdx,%r10)
	jne	.LBB16_60
	addq	%r10, %rdx
	movl	%ecx, -36(%rdx)
.LBB16_58:
	movl	%r8d, -16(%rdx)
.LBB16_59:
	movb	%al, -12(%rdx)
	popq	%rbx
	.cfi_def_cfa_offset 48
	popq	%r12
	.cfi_def_cfa_offset 40
	popq	%r13
	.cfi_def_cfa_offset 32
	popq	%r14
	.cfi_def_cfa_offset 24
	popq	%r15
	.cfi_def_cfa_offset 16
	popq	%rbp
	.cfi_def_cfa_offset 8
	retq
.LBB16_60:
	.cfi_def_cfa_offset 56
	ud2
.Lfunc_end16:
	.size	"ord_tree::promote::rotate_once_or_twice::<#c550f621a6e4d4b2>", .Lfunc_end16-"ord_tree::promote::rotate_once_or_twice::<#c550f621a6e4d4b2>"
	.cfi_endproc

	.section	".text.ord_machine::steps::entry::<#304c980cfa2570bb>","ax",@progbits
	.p2align	4
	.type	"ord_machine::steps::entry::<#304c980cfa2570bb>",@function
"ord_machine::steps::entry::<#304c980cfa2570bb>":
	.cfi_startproc
	pushq	%rbp
	.cfi_def_cfa_offset 16
	pushq	%r15
	.cfi_def_cfa_offset 24
	pushq	%r14
	.cfi_def_cfa_offset 32
	pushq	%r13
	.cfi_def_cfa_offset 40
	pushq	%r12
	.cfi_def_cfa_offset 48
	pushq	%rbx
	.cfi_def_cfa_offset 56
	subq	$152, %rsp
	.cfi_def_cfa_offset 208
	.cfi_offset %rbx, -56
	.cfi_offset %r12, -48
	.cfi_offset %r13, -40
	.cfi_offset %r14, -32
	.cfi_offset %r15, -24
	.cfi_offset %rbp, -16
	movq	%r9, %r15
	movq	%r8, %r12
	movq	%rsi, %r14
	movq	%rdi, %rbx
	movzbl	(%rcx), %r8d
	movzbl	%r8b, %eax
	xorl	%esi, %esi
	leaq	.LJTI17_0(%rip), %rdi
	movslq	(%rdi,%rax,4), %r9
	addq	%rdi, %r9
	jmpq	*%r9
.LBB17_4:
	leaq	16(%rcx), %rsi
	movl	4(%rcx), %edi
	movq	8(%rcx), %r8
	movq	%r8, %r9
	andq	$-256, %r9
	jmp	.LBB17_7
.LBB17_3:
	addq	$8, %rcx
	movq	%rcx, %r9
	andq	$-256, %r9
	xorl	%edi, %edi
	movl	%ecx, %r8d
	jmp	.LBB17_7
.LBB17_1:
	movl	%eax, %edi
	movq	%rax, %r9
	jmp	.LBB17_7
.LBB17_2:
	addq	$8, %rcx
	movq	%rcx, %r9
	andq	$-256, %r9
	xorl	%edi, %edi
	movl	%ecx, %r8d
	jmp	.LBB17_6
.LBB17_5:
	movl	4(%rcx), %edi
	movzbl	8(%rcx), %r8d
	xorl	%r9d, %r9d
.LBB17_6:
	xorl	%esi, %esi
.LBB17_7:
	movzbl	%r8b, %ecx
	orq	%r9, %rcx
	xorps	%xmm0, %xmm0
	movaps	%xmm0, 32(%rsp)
	movaps	%xmm0, 48(%rsp)
	movaps	%xmm0, 64(%rsp)
	movaps	%xmm0, 80(%rsp)
	movaps	%xmm0, 96(%rsp)
	movaps	%xmm0, 112(%rsp)
	movl	%eax, 128(%rsp)
	movl	%edi, 132(%rsp)
	movq	%rcx, 136(%rsp)
	movq	%rsi, 144(%rsp)
	movzbl	%dl, %edx
	leaq	32(%rsp), %rdi
	leaq	128(%rsp), %rcx
	movq	%r14, %rsi
	callq	"triple_ord::arena::SimpleOrdArena::prepare::<#304c980cfa2570bb>"
	cmpb	$0, 32(%rsp)
	je	.LBB17_8
	movzbl	33(%rsp), %ecx
	xorps	%xmm1, %xmm1
	movb	$1, %al
	xorl	%r13d, %r13d
	xorl	%ebp, %ebp
	xorps	%xmm0, %xmm0
	jmp	.LBB17_53
.LBB17_8:
	movzbl	48(%rsp), %ebp
	movsd	56(%rsp), %xmm1
	movq	64(%rsp), %r13
	cmpq	$1, %rbp
	jne	.LBB17_11
	movl	56(%rsp), %ecx
	movq	(%r14), %rax
	imulq	$56, %rcx, %rcx
	cmpb	$0, -56(%rax,%rcx)
	jne	.LBB17_55
	movups	-32(%rax,%rcx), %xmm0
	movq	%r12, -32(%rax,%rcx)
	movq	%r15, -24(%rax,%rcx)
	movl	$1, %ebp
	jmp	.LBB17_51
.LBB17_11:
	cmpb	$1, 72(%rsp)
	movq	%r15, 16(%rsp)
	jne	.LBB17_56
	movl	80(%rsp), %ecx
	movzbl	96(%rsp), %r10d
	xorl	%r8d, %r8d
	testb	%r10b, %r10b
	setne	%dl
	movq	(%r14), %rax
	imulq	$56, %rcx, %rdi
	cmpb	$0, -56(%rax,%rdi)
	xorps	%xmm0, %xmm0
	jne	.LBB17_55
	movb	%dl, %r8b
	shlq	$32, %r8
	orq	%rcx, %r8
	addq	%rdi, %rax
	xorl	%edx, %edx
	testb	%r10b, %r10b
	setne	%dl
	shll	$2, %edx
	orq	$-40, %rdx
	cmpl	$0, (%rax,%rdx)
	movq	%r8, %rsi
	je	.LBB17_17
	xorl	%edx, %edx
	testb	%r10b, %r10b
	setne	%dl
	shll	$2, %edx
	orq	$-8, %rdx
	movl	(%rax,%rdx), %eax
	testq	%rax, %rax
	je	.LBB17_15
	movabsq	$4294967296, %rdx
	xorl	%esi, %esi
	testb	%r10b, %r10b
	cmoveq	%rdx, %rsi
	orq	%rax, %rsi
.LBB17_17:
	movb	$0, 34(%rsp)
	movw	$0, 32(%rsp)
	movl	$0, 4(%rsp)
	movq	%rsi, 8(%rsp)
	movq	(%r14), %r9
	testb	%r10b, %r10b
	je	.LBB17_21
.LBB17_19:
	cmpb	$0, -56(%r9,%rdi)
	jne	.LBB17_55
	movl	%ecx, %eax
	movl	-4(%r9,%rdi), %ecx
	testl	%ecx, %ecx
	sete	%r10b
	movzbl	34(%rsp), %edi
	movb	%dil, 2(%rsp)
	movzwl	32(%rsp), %edi
	movw	%di, (%rsp)
	xorl	%r11d, %r11d
	movl	%ecx, %r15d
	jmp	.LBB17_23
.LBB17_56:
	movq	(%r14), %r9
	movb	$0, 2(%rsp)
	movw	$0, (%rsp)
	movb	$1, %al
	movl	%eax, 4(%rsp)
	xorl	%eax, %eax
	xorl	%esi, %esi
	movq	$0, 8(%rsp)
	movb	$1, %r11b
	movb	$1, %r10b
	xorl	%r15d, %r15d
	xorps	%xmm0, %xmm0
	jmp	.LBB17_23
.LBB17_15:
	movb	$0, 34(%rsp)
	movw	$0, 32(%rsp)
	movb	$1, %al
	movl	%eax, 4(%rsp)
	xorl	%esi, %esi
	movq	$0, 8(%rsp)
	movq	(%r14), %r9
	testb	%r10b, %r10b
	jne	.LBB17_19
.LBB17_21:
	imulq	$56, %r8, %rax
	cmpb	$0, -56(%r9,%rax)
	jne	.LBB17_55
	movl	-8(%r9,%rax), %eax
	testl	%eax, %eax
	sete	%r11b
	movzbl	34(%rsp), %edi
	movb	%dil, 2(%rsp)
	movzwl	32(%rsp), %edi
	movw	%di, (%rsp)
	xorl	%r10d, %r10d
	movq	%rcx, %r15
.LBB17_23:
	movq	24(%r14), %rdi
	movq	32(%r14), %r8
	movq	48(%r14), %rdx
	leaq	-1(%r8), %rcx
	movq	%rcx, 32(%r14)
	movl	-4(%rdi,%r8,4), %r8d
	imulq	$56, %r8, %rdi
	movzbl	-56(%r9,%rdi), %ecx
	movq	$0, -56(%r9,%rdi)
	movq	%rdx, -48(%r9,%rdi)
	movq	$0, -40(%r9,%rdi)
	movq	%r12, -32(%r9,%rdi)
	movq	16(%rsp), %rdx
	movq	%rdx, -24(%r9,%rdi)
	movl	%esi, -16(%r9,%rdi)
	movb	$1, -12(%r9,%rdi)
	movzwl	(%rsp), %edx
	movw	%dx, -11(%r9,%rdi)
	movzbl	2(%rsp), %edx
	movb	%dl, -9(%r9,%rdi)
	movl	%eax, -8(%r9,%rdi)
	movl	%r15d, -4(%r9,%rdi)
	cmpb	$1, %cl
	jne	.LBB17_55
	testb	%r11b, %r11b
	jne	.LBB17_27
	movq	(%r14), %rsi
	movl	%eax, %eax
	imulq	$56, %rax, %rax
	cmpb	$0, -56(%rsi,%rax)
	jne	.LBB17_55
	movl	%r8d, -4(%rsi,%rax)
.LBB17_27:
	testb	%r10b, %r10b
	jne	.LBB17_30
	movq	(%r14), %rax
	movl	%r15d, %ecx
	imulq	$56, %rcx, %rcx
	cmpb	$0, -56(%rax,%rcx)
	jne	.LBB17_55
	movl	%r8d, -8(%rax,%rcx)
.LBB17_30:
	testb	%r11b, %r11b
	jne	.LBB17_31
	testb	%r10b, %r10b
	jne	.LBB17_33
.LBB17_34:
	cmpb	$0, 4(%rsp)
	movq	8(%rsp), %rdx
	je	.LBB17_36
.LBB17_35:
	movl	$1, 88(%r14)
	movl	%r8d, 92(%r14)
	jmp	.LBB17_51
.LBB17_31:
	movl	$1, 72(%r14)
	movl	%r8d, 76(%r14)
	testb	%r10b, %r10b
	je	.LBB17_34
.LBB17_33:
	movl	$1, 80(%r14)
	movl	%r8d, 84(%r14)
	cmpb	$0, 4(%rsp)
	movq	8(%rsp), %rdx
	jne	.LBB17_35
.LBB17_36:
	movq	(%r14), %rax
	movl	%edx, %ecx
	imulq	$56, %rcx, %rcx
	cmpb	$0, -56(%rax,%rcx)
	jne	.LBB17_55
	shrq	$32, %rdx
	jne	.LBB17_39
	movl	%r8d, -40(%rax,%rcx)
	jmp	.LBB17_40
.LBB17_39:
	movl	%r8d, -36(%rax,%rcx)
.LBB17_40:
	movq	(%r14), %rax
	cmpb	$0, -56(%rax,%rdi)
	jne	.LBB17_55
	leaq	88(%r14), %rsi
	addq	%rax, %rdi
	.p2align	4
.LBB17_42:
	movl	-16(%rdi), %ecx
	testq	%rcx, %rcx
	je	.LBB17_51
	imulq	$56, %rcx, %rdx
	cmpb	$0, -56(%rax,%rdx)
	jne	.LBB17_55
	leaq	(%rax,%rdx), %r9
	movzbl	-12(%r9), %r10d
	cmpb	%r10b, -12(%rdi)
	jb	.LBB17_51
	movl	-40(%r9), %edi
	testl	%edi, %edi
	sete	%r11b
	cmpl	%r8d, %edi
	setne	%dil
	orb	%r11b, %dil
	movl	%edi, %r11d
	xorb	$1, %r11b
	movzbl	%r11b, %r11d
	shll	$2, %r11d
	orq	$-40, %r11
	movl	(%r9,%r11), %r11d
	testq	%r11, %r11
	je	.LBB17_46
	imulq	$56, %r11, %r11
	cmpb	$0, -56(%rax,%r11)
	jne	.LBB17_55
	movzbl	-12(%rax,%r11), %eax
	movl	%r10d, %r11d
	subb	%al, %r11b
	cmpb	$1, %r11b
	je	.LBB17_54
	jmp	.LBB17_50
	.p2align	4
.LBB17_46:
	xorl	%eax, %eax
	movl	%r10d, %r11d
	subb	%al, %r11b
	cmpb	$1, %r11b
	jne	.LBB17_50
.LBB17_54:
	incb	%r10b
	movb	%r10b, -12(%r9)
	movq	(%r14), %rax
	leaq	(%rax,%rdx), %rdi
	cmpb	$0, -56(%rax,%rdx)
	movl	%ecx, %r8d
	je	.LBB17_42
.LBB17_55:
	ud2
.LBB17_50:
	movzbl	%dil, %edx
	movq	%r14, %rdi
	movaps	%xmm1, 16(%rsp)
	callq	"ord_tree::promote::rotate_once_or_twice::<#c550f621a6e4d4b2>"
	movaps	16(%rsp), %xmm1
	xorps	%xmm0, %xmm0
.LBB17_51:
	xorl	%eax, %eax
	xorl	%ecx, %ecx
.LBB17_53:
	movb	%al, (%rbx)
	movb	%cl, 1(%rbx)
	movl	$0, 4(%rbx)
	movq	%rbp, 8(%rbx)
	movlps	%xmm1, 16(%rbx)
	movq	%r13, 24(%rbx)
	movq	%rbp, 32(%rbx)
	movups	%xmm0, 40(%rbx)
	movq	$0, 56(%rbx)
	addq	$152, %rsp
	.cfi_def_cfa_offset 56
	popq	%rbx
	.cfi_def_cfa_offset 48
	popq	%r12
	.cfi_def_cfa_offset 40
	popq	%r13
	.cfi_def_cfa_offset 32
	popq	%r14
	.cfi_def_cfa_offset 24
	popq	%r15
	.cfi_def_cfa_offset 16
	popq	%rbp
	.cfi_def_cfa_offset 8
	retq
.Lfunc_end17:
	.size	"ord_machine::steps::entry::<#304c980cfa2570bb>", .Lfunc_end17-"ord_machine::steps::entry::<#304c980cfa2570bb>"
	.cfi_endproc
	.section	".rodata.ord_machine::steps::entry::<#304c980cfa2570bb>","a",@progbits
	.p2align	2, 0x0
.LJTI17_0:
	.long	.LBB17_1-.LJTI17_0
	.long	.LBB17_2-.LJTI17_0
	.long	.LBB17_3-.LJTI17_0
	.long	.LBB17_4-.LJTI17_0
	.long	.LBB17_4-.LJTI17_0
	.long	.LBB17_5-.LJTI17_0

	.section	".text.ord_tree::detach::detach::<#c550f621a6e4d4b2>","ax",@progbits
	.p2align	4
	.type	"ord_tree::detach::detach::<#c550f621a6e4d4b2>",@function
"ord_tree::detach::detach::<#c550f621a6e4d4b2>":
	.cfi_startproc
	pushq	%rbp
	.cfi_def_cfa_offset 16
	pushq	%r15
	.cfi_def_cfa_offset 24
	pushq	%r14
	.cfi_def_cfa_offset 32
	pushq	%r13
	.cfi_def_cfa_offset 40
	pushq	%r12
	.cfi_def_cfa_offset 48
	pushq	%rbx
	.cfi_def_cfa_offset 56
	.cfi_offset %rbx, -56
	.cfi_offset %r12, -48
	.cfi_offset %r13, -40
	.cfi_offset %r14, -32
	.cfi_offset %r15, -24
	.cfi_offset %rbp, -16
	movq	(%rdi), %r11
	movl	%edx, %eax
	imulq	$56, %rax, %r10
	cmpb	$0, -56(%r11,%r10)
	jne	.LBB18_113
	cmpl	$0, -40(%r11,%r10)
	movq	%rsi, -16(%rsp)
	je	.LBB18_8
	testb	%cl, %cl
	je	.LBB18_113
	movl	%r8d, %eax
	imulq	$56, %rax, %rcx
	cmpb	$0, -56(%r11,%rcx)
	jne	.LBB18_113
	movl	-40(%r11,%rcx), %r12d
	movl	-16(%r11,%rcx), %r9d
	testq	%r9, %r9
	je	.LBB18_12
	imulq	$56, %r9, %rbx
	cmpb	$0, -56(%r11,%rbx)
	jne	.LBB18_113
	movl	-40(%r11,%rbx), %eax
	cmpl	%r8d, %eax
	setne	%r15b
	sete	%bpl
	testl	%eax, %eax
	sete	%al
	setne	%r14b
	orb	%r15b, %al
	movzbl	%al, %r13d
	shlq	$32, %r13
	orq	%r9, %r13
	andb	%bpl, %r14b
	cmpb	$1, %r14b
	jne	.LBB18_13
	movl	%r12d, -40(%r11,%rbx)
	testl	%r12d, %r12d
	jne	.LBB18_14
	jmp	.LBB18_16
.LBB18_8:
	movl	-36(%r11,%r10), %ebx
	movl	-16(%r11,%r10), %ecx
	testl	%ecx, %ecx
	je	.LBB18_31
	imulq	$56, %rcx, %r8
	cmpb	$0, -56(%r11,%r8)
	jne	.LBB18_113
	movl	-40(%r11,%r8), %eax
	testl	%eax, %eax
	sete	%r9b
	cmpl	%edx, %eax
	setne	%al
	orb	%r9b, %al
	movzbl	%al, %edx
	movq	%rdx, %r13
	shlq	$32, %r13
	orq	%rcx, %r13
	testb	%dl, %dl
	jne	.LBB18_32
	movl	%ebx, -40(%r11,%r8)
	testl	%ebx, %ebx
	jne	.LBB18_33
	jmp	.LBB18_35
.LBB18_12:
	xorl	%eax, %eax
	testl	%r12d, %r12d
	setne	%al
	movl	%eax, (%rsi)
	movl	%r12d, 4(%rsi)
	xorl	%r13d, %r13d
	testl	%r12d, %r12d
	jne	.LBB18_14
	jmp	.LBB18_16
.LBB18_13:
	movl	%r12d, -36(%r11,%rbx)
	testl	%r12d, %r12d
	je	.LBB18_16
.LBB18_14:
	movq	(%rdi), %r11
	imulq	$56, %r12, %rsi
	cmpb	$0, -56(%r11,%rsi)
	jne	.LBB18_113
	movl	%r9d, -16(%r11,%rsi)
.LBB18_16:
	movq	(%rdi), %rsi
	cmpb	$0, -56(%rsi,%r10)
	jne	.LBB18_113
	movl	-16(%rsi,%r10), %r11d
	movl	-40(%rsi,%r10), %ebx
	movl	-36(%rsi,%r10), %r14d
	movzbl	-12(%rsi,%r10), %r10d
	testq	%r11, %r11
	je	.LBB18_21
	imulq	$56, %r11, %r15
	cmpb	$0, -56(%rsi,%r15)
	jne	.LBB18_113
	movl	-40(%rsi,%r15), %eax
	testl	%eax, %eax
	sete	%bpl
	cmpl	%edx, %eax
	setne	%al
	orb	%bpl, %al
	jne	.LBB18_23
	movl	%r8d, -40(%rsi,%r15)
	testl	%ebx, %ebx
	jne	.LBB18_24
	jmp	.LBB18_22
.LBB18_21:
	movq	-16(%rsp), %rax
	movl	$1, (%rax)
	movl	%r8d, 4(%rax)
	testl	%ebx, %ebx
	je	.LBB18_22
.LBB18_24:
	movq	(%rdi), %rsi
	imulq	$56, %rbx, %r15
	cmpb	$0, -56(%rsi,%r15)
	jne	.LBB18_113
	movl	%r8d, -16(%rsi,%r15)
	testl	%r14d, %r14d
	jne	.LBB18_26
	jmp	.LBB18_28
.LBB18_23:
	movl	%r8d, -36(%rsi,%r15)
	testl	%ebx, %ebx
	jne	.LBB18_24
.LBB18_22:
	testl	%r14d, %r14d
	je	.LBB18_28
.LBB18_26:
	movq	(%rdi), %rsi
	imulq	$56, %r14, %r15
	cmpb	$0, -56(%rsi,%r15)
	jne	.LBB18_113
	movl	%r8d, -16(%rsi,%r15)
.LBB18_28:
	movq	(%rdi), %rsi
	cmpb	$0, -56(%rsi,%rcx)
	jne	.LBB18_113
	cmpl	%r13d, %edx
	cmovnel	%r13d, %r8d
	movl	%r11d, -16(%rsi,%rcx)
	movl	%ebx, -40(%rsi,%rcx)
	movl	%r14d, -36(%rsi,%rcx)
	movb	%r10b, -12(%rsi,%rcx)
	testl	%r9d, %r9d
	je	.LBB18_112
	movabsq	$4294967296, %rcx
	andq	%rcx, %r13
	orq	%r8, %r13
	jmp	.LBB18_36
.LBB18_31:
	xorl	%eax, %eax
	testl	%ebx, %ebx
	setne	%al
	movl	%eax, (%rsi)
	movl	%ebx, 4(%rsi)
	xorl	%r13d, %r13d
	testl	%ebx, %ebx
	jne	.LBB18_33
	jmp	.LBB18_35
.LBB18_32:
	movl	%ebx, -36(%r11,%r8)
	testl	%ebx, %ebx
	je	.LBB18_35
.LBB18_33:
	movq	(%rdi), %rdx
	imulq	$56, %rbx, %rsi
	cmpb	$0, -56(%rdx,%rsi)
	jne	.LBB18_113
	movl	%ecx, -16(%rdx,%rsi)
.LBB18_35:
	testl	%ecx, %ecx
	je	.LBB18_112
.LBB18_36:
	movq	(%rdi), %r11
	movl	%r13d, %ecx
	imulq	$56, %rcx, %rcx
	cmpb	$0, -56(%r11,%rcx)
	jne	.LBB18_113
	leaq	(%r11,%rcx), %r9
	movq	%r13, %rdx
	shrq	$32, %rdx
	sete	%r8b
	.p2align	4
.LBB18_38:
	movl	-16(%r9), %edx
	movzbl	-12(%r9), %r12d
	movl	%r8d, %esi
	notb	%sil
	movzbl	%sil, %ebx
	andl	$1, %ebx
	shll	$2, %ebx
	orq	$-40, %rbx
	movl	(%r9,%rbx), %esi
	testq	%rsi, %rsi
	je	.LBB18_41
	imulq	$56, %rsi, %rsi
	cmpb	$0, -56(%r11,%rsi)
	jne	.LBB18_113
	movzbl	-12(%r11,%rsi), %esi
	jmp	.LBB18_42
	.p2align	4
.LBB18_41:
	xorl	%esi, %esi
.LBB18_42:
	movzbl	%r8b, %ebp
	andl	$1, %ebp
	shll	$2, %ebp
	orq	$-40, %rbp
	movl	(%r9,%rbp), %r14d
	testq	%r14, %r14
	je	.LBB18_47
	movl	%r12d, %r10d
	subb	%sil, %r10b
	cmpb	$3, %r10b
	jb	.LBB18_112
	movq	%r13, -24(%rsp)
	imulq	$56, %r14, %r15
	cmpb	$0, -56(%r11,%r15)
	jne	.LBB18_113
	movq	%rdi, %rax
	leaq	(%r11,%r15), %r13
	movzbl	-12(%r13), %esi
	movl	%r12d, %edi
	subb	%sil, %dil
	cmpb	$2, %dil
	jne	.LBB18_48
	decb	%r12b
	movb	%r12b, -12(%r9)
	movq	%rax, %rdi
	movq	-24(%rsp), %r13
	movq	(%rdi), %r11
	cmpb	$0, -56(%r11,%rcx)
	je	.LBB18_58
	jmp	.LBB18_113
	.p2align	4
.LBB18_47:
	movb	$1, -12(%r9)
	movq	(%rdi), %r11
	cmpb	$0, -56(%r11,%rcx)
	je	.LBB18_58
	jmp	.LBB18_113
	.p2align	4
.LBB18_48:
	movl	-16(%r13), %edi
	movq	%rdi, -8(%rsp)
	movl	(%r13,%rbp), %r9d
	testq	%r9, %r9
	je	.LBB18_53
	imulq	$56, %r9, %r9
	cmpb	$0, -56(%r11,%r9)
	jne	.LBB18_113
	movzbl	-12(%r11,%r9), %r10d
	movl	(%r13,%rbx), %r9d
	testq	%r9, %r9
	je	.LBB18_54
.LBB18_51:
	movq	%r9, %rdi
	imulq	$56, %r9, %r9
	cmpb	$0, -56(%r11,%r9)
	jne	.LBB18_113
	movzbl	-12(%r11,%r9), %r9d
	movl	%r9d, -28(%rsp)
	movl	%esi, %r9d
	subb	%r10b, %r9b
	cmpb	$1, %r9b
	jne	.LBB18_55
	jmp	.LBB18_61
.LBB18_53:
	xorl	%r10d, %r10d
	movl	(%r13,%rbx), %r9d
	testq	%r9, %r9
	jne	.LBB18_51
.LBB18_54:
	movq	%r9, %rdi
	movl	$0, -28(%rsp)
	movl	%esi, %r9d
	subb	%r10b, %r9b
	cmpb	$1, %r9b
	je	.LBB18_61
.LBB18_55:
	movl	%esi, %r9d
	subb	-28(%rsp), %r9b
	cmpb	$2, %r9b
	jne	.LBB18_66
	decb	%sil
	movb	%sil, -12(%r13)
	movq	(%rax), %rsi
	cmpb	$0, -56(%rsi,%rcx)
	jne	.LBB18_113
	movq	%rax, %rdi
	decb	%r12b
	movb	%r12b, -12(%rsi,%rcx)
	movq	-24(%rsp), %r13
	movq	(%rdi), %r11
	cmpb	$0, -56(%r11,%rcx)
	jne	.LBB18_113
.LBB18_58:
	movl	-16(%r11,%rcx), %edx
	testq	%rdx, %rdx
	je	.LBB18_112
	imulq	$56, %rdx, %rcx
	cmpb	$0, -56(%r11,%rcx)
	jne	.LBB18_113
	leaq	(%r11,%rcx), %r9
	movl	-40(%r9), %esi
	testl	%esi, %esi
	setne	%al
	cmpl	%r13d, %esi
	sete	%r8b
	andb	%al, %r8b
	movl	%edx, %r13d
	jmp	.LBB18_38
.LBB18_61:
	movq	%rdx, %rsi
	testl	%esi, %esi
	movl	-28(%rsp), %r10d
	je	.LBB18_72
	imulq	$56, %rsi, %rsi
	cmpb	$0, -56(%r11,%rsi)
	movq	-24(%rsp), %rbx
	jne	.LBB18_113
	movl	-40(%r11,%rsi), %r9d
	testl	%r9d, %r9d
	je	.LBB18_74
	cmpl	%ebx, %r9d
	jne	.LBB18_74
	movl	%r14d, -40(%r11,%rsi)
	testl	%edi, %edi
	jne	.LBB18_75
	jmp	.LBB18_77
.LBB18_66:
	testl	%edi, %edi
	je	.LBB18_113
	imulq	$56, %rdi, %r13
	cmpb	$0, -56(%r11,%r13)
	jne	.LBB18_113
	leaq	(%r11,%r13), %rsi
	movl	(%rsi,%rbp), %esi
	movq	-8(%rsp), %rdx
	testl	%edx, %edx
	je	.LBB18_73
	imulq	$56, %rdx, %r10
	cmpb	$0, -56(%r11,%r10)
	jne	.LBB18_113
	cmpl	%r14d, -40(%r11,%r10)
	jne	.LBB18_84
	movl	%edi, -40(%r11,%r10)
	testl	%esi, %esi
	jne	.LBB18_85
	jmp	.LBB18_87
.LBB18_72:
	movq	-16(%rsp), %rsi
	movl	$1, (%rsi)
	movl	%r14d, 4(%rsi)
	movq	-24(%rsp), %rbx
	testl	%edi, %edi
	jne	.LBB18_75
	jmp	.LBB18_77
.LBB18_73:
	movq	-16(%rsp), %r9
	movl	$1, (%r9)
	movl	%edi, 4(%r9)
	testl	%esi, %esi
	jne	.LBB18_85
	jmp	.LBB18_87
.LBB18_74:
	movl	%r14d, -36(%r11,%rsi)
	testl	%edi, %edi
	je	.LBB18_77
.LBB18_75:
	movq	(%rax), %rsi
	imulq	$56, %rdi, %r9
	cmpb	$0, -56(%rsi,%r9)
	jne	.LBB18_113
	movl	%ebx, -16(%rsi,%r9)
.LBB18_77:
	movq	(%rax), %rsi
	cmpb	$0, -56(%rsi,%rcx)
	jne	.LBB18_113
	incb	%r10b
	testb	$1, %r8b
	je	.LBB18_81
	movl	%edi, -36(%rsi,%rcx)
	movl	%r14d, -16(%rsi,%rcx)
	movb	%r10b, -12(%rsi,%rcx)
	movq	(%rax), %rcx
	cmpb	$0, -56(%rcx,%r15)
	jne	.LBB18_113
	addq	%r15, %rcx
	movl	%ebx, -40(%rcx)
	jmp	.LBB18_83
.LBB18_81:
	movl	%edi, -40(%rsi,%rcx)
	movl	%r14d, -16(%rsi,%rcx)
	movb	%r10b, -12(%rsi,%rcx)
	movq	(%rax), %rcx
	cmpb	$0, -56(%rcx,%r15)
	jne	.LBB18_113
	addq	%r15, %rcx
	movl	%ebx, -36(%rcx)
.LBB18_83:
	movl	%edx, -16(%rcx)
	jmp	.LBB18_111
.LBB18_84:
	movl	%edi, -36(%r11,%r10)
	testl	%esi, %esi
	je	.LBB18_87
.LBB18_85:
	movq	(%rax), %r10
	imulq	$56, %rsi, %r9
	cmpb	$0, -56(%r10,%r9)
	jne	.LBB18_113
	movl	%r14d, -16(%r10,%r9)
.LBB18_87:
	movq	(%rax), %r10
	cmpb	$0, -56(%r10,%r15)
	jne	.LBB18_113
	testb	$1, %r8b
	je	.LBB18_91
	movl	%esi, -40(%r10,%r15)
	movl	%edi, -16(%r10,%r15)
	movl	-28(%rsp), %esi
	movb	%sil, -12(%r10,%r15)
	movq	(%rax), %rsi
	cmpb	$0, -56(%rsi,%r13)
	jne	.LBB18_113
	addq	%r13, %rsi
	movl	%r14d, -36(%rsi)
	jmp	.LBB18_93
.LBB18_91:
	movl	%esi, -36(%r10,%r15)
	movl	%edi, -16(%r10,%r15)
	movl	-28(%rsp), %esi
	movb	%sil, -12(%r10,%r15)
	movq	(%rax), %rsi
	cmpb	$0, -56(%rsi,%r13)
	jne	.LBB18_113
	addq	%r13, %rsi
	movl	%r14d, -40(%rsi)
.LBB18_93:
	movl	%edx, -16(%rsi)
	movb	%r12b, -12(%rsi)
	movq	(%rax), %r14
	cmpb	$0, -56(%r14,%r13)
	jne	.LBB18_113
	cmpb	$0, -56(%r14,%rcx)
	jne	.LBB18_113
	leaq	(%r14,%r13), %rsi
	movl	-16(%r14,%rcx), %r11d
	movl	(%rsi,%rbx), %esi
	testq	%r11, %r11
	je	.LBB18_100
	imulq	$56, %r11, %r10
	cmpb	$0, -56(%r14,%r10)
	jne	.LBB18_113
	movl	-40(%r14,%r10), %r9d
	testl	%r9d, %r9d
	je	.LBB18_101
	cmpl	-24(%rsp), %r9d
	jne	.LBB18_101
	movl	%edi, -40(%r14,%r10)
	testl	%esi, %esi
	jne	.LBB18_102
	jmp	.LBB18_104
.LBB18_100:
	movq	-16(%rsp), %r9
	movl	$1, (%r9)
	movl	%edi, 4(%r9)
	testl	%esi, %esi
	jne	.LBB18_102
	jmp	.LBB18_104
.LBB18_101:
	movl	%edi, -36(%r14,%r10)
	testl	%esi, %esi
	je	.LBB18_104
.LBB18_102:
	movq	(%rax), %r10
	imulq	$56, %rsi, %r9
	cmpb	$0, -56(%r10,%r9)
	jne	.LBB18_113
	movq	-24(%rsp), %rdx
	movl	%edx, -16(%r10,%r9)
.LBB18_104:
	movq	(%rax), %r10
	cmpb	$0, -56(%r10,%rcx)
	jne	.LBB18_113
	testb	$1, %r8b
	je	.LBB18_108
	movl	%esi, -36(%r10,%rcx)
	movl	%edi, -16(%r10,%rcx)
	movl	-28(%rsp), %esi
	movb	%sil, -12(%r10,%rcx)
	movq	(%rax), %rcx
	cmpb	$0, -56(%rcx,%r13)
	jne	.LBB18_113
	addq	%r13, %rcx
	movq	-24(%rsp), %rax
	movl	%eax, -40(%rcx)
	jmp	.LBB18_110
.LBB18_108:
	movl	%esi, -40(%r10,%rcx)
	movl	%edi, -16(%r10,%rcx)
	movl	-28(%rsp), %esi
	movb	%sil, -12(%r10,%rcx)
	movq	(%rax), %rcx
	cmpb	$0, -56(%rcx,%r13)
	jne	.LBB18_113
	addq	%r13, %rcx
	movq	-24(%rsp), %rax
	movl	%eax, -36(%rcx)
.LBB18_110:
	movl	%r11d, -16(%rcx)
.LBB18_111:
	movb	%r12b, -12(%rcx)
.LBB18_112:
	popq	%rbx
	.cfi_def_cfa_offset 48
	popq	%r12
	.cfi_def_cfa_offset 40
	popq	%r13
	.cfi_def_cfa_offset 32
	popq	%r14
	.cfi_def_cfa_offset 24
	popq	%r15
	.cfi_def_cfa_offset 16
	popq	%rbp
	.cfi_def_cfa_offset 8
	retq
.LBB18_113:
	.cfi_def_cfa_offset 56
	ud2
.Lfunc_end18:
	.size	"ord_tree::detach::detach::<#c550f621a6e4d4b2>", .Lfunc_end18-"ord_tree::detach::detach::<#c550f621a6e4d4b2>"
	.cfi_endproc

	.section	".text.ord_tree::tree::OrdTree::remove_entry::<#0d42ca9d2c8e0a8d>","ax",@progbits
	.p2align	4
	.type	"ord_tree::tree::OrdTree::remove_entry::<#0d42ca9d2c8e0a8d>",@function
"ord_tree::tree::OrdTree::remove_entry::<#0d42ca9d2c8e0a8d>":
	.cfi_startproc
	pushq	%rbp
	.cfi_def_cfa_offset 16
	pushq	%r15
	.cfi_def_cfa_offset 24
	pushq	%r14
	.cfi_def_cfa_offset 32
	pushq	%rbx
	.cfi_def_cfa_offset 40
	subq	$88, %rsp
	.cfi_def_cfa_offset 128
	.cfi_offset %rbx, -40
	.cfi_offset %r14, -32
	.cfi_offset %r15, -24
	.cfi_offset %rbp, -16
	xorps	%xmm0, %xmm0
	movaps	%xmm0, 16(%rsp)
	movaps	%xmm0, (%rsp)
	movq	$0, 32(%rsp)
	movq	(%rsi), %rax
	movl	%edx, %ecx
	imulq	$56, %rcx, %r15
	cmpb	$0, -56(%rax,%r15)
	jne	.LBB19_13
	movl	%edx, %ebp
	movq	%rsi, %r14
	movq	%rdi, %rbx
	movl	-8(%rax,%r15), %r8d
	xorl	%ecx, %ecx
	testl	%r8d, %r8d
	setne	%cl
	addq	$88, %rsi
	movq	%r14, %rdi
	callq	"ord_tree::detach::detach::<#c550f621a6e4d4b2>"
	movq	(%r14), %rsi
	cmpb	$0, -56(%rsi,%r15)
	jne	.LBB19_13
	addq	%r15, %rsi
	movq	-48(%rsi), %rax
	movl	-8(%rsi), %ecx
	movl	-4(%rsi), %edx
	movq	-8(%rsi), %rdi
	movq	%rdi, 80(%rsp)
	movups	-24(%rsi), %xmm0
	movaps	%xmm0, 64(%rsp)
	movups	-40(%rsi), %xmm0
	movaps	%xmm0, 48(%rsp)
	movq	$1, -56(%rsi)
	xorps	%xmm0, %xmm0
	movups	%xmm0, -32(%rsi)
	movups	%xmm0, -48(%rsi)
	movups	%xmm0, -16(%rsi)
	movq	24(%r14), %rsi
	movq	32(%r14), %r8
	movl	%ebp, (%rsi,%r8,4)
	incq	%r8
	movq	48(%r14), %rsi
	movq	%rsi, %rdi
	incq	%rdi
	movl	$2, %r9d
	cmovneq	%rdi, %r9
	xorl	%edi, %edi
	movq	%r8, 32(%r14)
	movq	%r9, 48(%r14)
	testq	%rcx, %rcx
	setne	%r8b
	je	.LBB19_5
	movq	(%r14), %r9
	imulq	$56, %rcx, %r10
	cmpb	$0, -56(%r9,%r10)
	jne	.LBB19_13
	movl	%edx, -4(%r9,%r10)
.LBB19_5:
	testl	%edx, %edx
	je	.LBB19_8
	movq	(%r14), %r9
	imulq	$56, %rdx, %r10
	cmpb	$0, -56(%r9,%r10)
	jne	.LBB19_13
	movl	%ecx, -8(%r9,%r10)
.LBB19_8:
	testl	%ecx, %ecx
	je	.LBB19_9
	testl	%edx, %edx
	je	.LBB19_11
.LBB19_12:
	xorl	%ecx, %ecx
	cmpq	$-1, %rsi
	sete	%cl
	movq	80(%rsp), %rdx
	movq	%rdx, 32(%rsp)
	movaps	48(%rsp), %xmm0
	movaps	64(%rsp), %xmm1
	movaps	%xmm1, 16(%rsp)
	movaps	%xmm0, (%rsp)
	movq	%rcx, (%rbx)
	movq	%rax, 8(%rbx)
	movups	8(%rsp), %xmm0
	movups	%xmm0, 16(%rbx)
	addq	$88, %rsp
	.cfi_def_cfa_offset 40
	popq	%rbx
	.cfi_def_cfa_offset 32
	popq	%r14
	.cfi_def_cfa_offset 24
	popq	%r15
	.cfi_def_cfa_offset 16
	popq	%rbp
	.cfi_def_cfa_offset 8
	retq
.LBB19_9:
	.cfi_def_cfa_offset 128
	xorl	%r9d, %r9d
	testl	%edx, %edx
	setne	%r9b
	movl	%r9d, 72(%r14)
	movl	%edx, 76(%r14)
	testl	%edx, %edx
	jne	.LBB19_12
.LBB19_11:
	movb	%r8b, %dil
	movl	%edi, 80(%r14)
	movl	%ecx, 84(%r14)
	jmp	.LBB19_12
.LBB19_13:
	ud2
.Lfunc_end19:
	.size	"ord_tree::tree::OrdTree::remove_entry::<#0d42ca9d2c8e0a8d>", .Lfunc_end19-"ord_tree::tree::OrdTree::remove_entry::<#0d42ca9d2c8e0a8d>"
	.cfi_endproc

	.section	".text.chain_base::chain::ChainArena::compress::<#bdd88387dc76e1c4>","ax",@progbits
	.p2align	4
	.type	"chain_base::chain::ChainArena::compress::<#bdd88387dc76e1c4>",@function
"chain_base::chain::ChainArena::compress::<#bdd88387dc76e1c4>":
	.cfi_startproc
	pushq	%rbp
	.cfi_def_cfa_offset 16
	pushq	%r15
	.cfi_def_cfa_offset 24
	pushq	%r14
	.cfi_def_cfa_offset 32
	pushq	%r13
	.cfi_def_cfa_offset 40
	pushq	%r12
	.cfi_def_cfa_offset 48
	pushq	%rbx
	.cfi_def_cfa_offset 56
	.cfi_offset %rbx, -56
	.cfi_offset %r12, -48
	.cfi_offset %r13, -40
	.cfi_offset %r14, -32
	.cfi_offset %r15, -24
	.cfi_offset %rbp, -16
	movl	$4294967294, %edx
	movq	8(%rdi), %rax
	testq	%rax, %rax
	je	.LBB20_45
	xorl	%r8d, %r8d
	xorl	%ecx, %ecx
	xorl	%r11d, %r11d
	xorl	%r9d, %r9d
	jmp	.LBB20_4
	.p2align	4
.LBB20_2:
	movq	%r11, %r10
.LBB20_3:
	incq	%r9
	movq	%r10, %r11
	cmpq	%rax, %r9
	je	.LBB20_12
.LBB20_4:
	cmpq	%rdx, %r9
	je	.LBB20_48
	cmpq	8(%rdi), %r9
	jae	.LBB20_2
	movq	(%rdi), %rbx
	imulq	$56, %r9, %r10
	cmpb	$0, (%rbx,%r10)
	jne	.LBB20_2
	movl	48(%rbx,%r10), %r14d
	leaq	1(%r11), %r10
	xorl	%r15d, %r15d
	cmpq	%rdx, %r11
	setb	%bpl
	movl	%r10d, %r11d
	cmovael	%r15d, %r11d
	testq	%r14, %r14
	je	.LBB20_11
	imulq	$56, %r14, %r14
	cmpb	$0, -56(%rbx,%r14)
	jne	.LBB20_48
	movl	%r11d, -4(%rbx,%r14)
	jmp	.LBB20_3
.LBB20_11:
	movl	%r11d, %ecx
	movl	%ebp, %r8d
	jmp	.LBB20_3
.LBB20_12:
	movzbl	%r8b, %r8d
	testb	%sil, %sil
	je	.LBB20_46
.LBB20_13:
	movl	$2, %esi
	xorl	%eax, %eax
	movq	%rsi, 48(%rdi)
	movq	8(%rdi), %r9
	testq	%r9, %r9
	je	.LBB20_47
.LBB20_14:
	xorl	%r10d, %r10d
	xorl	%r11d, %r11d
	xorl	%ebx, %ebx
	jmp	.LBB20_16
	.p2align	4
.LBB20_15:
	incq	%rbx
	addq	$56, %r10
	cmpq	%rbx, %r9
	je	.LBB20_21
.LBB20_16:
	movq	(%rdi), %r14
	movups	16(%r14,%r10), %xmm0
	movups	32(%r14,%r10), %xmm1
	cmpb	$0, (%r14,%r10)
	movaps	%xmm1, -24(%rsp)
	movaps	%xmm0, -40(%rsp)
	movsd	48(%r14,%r10), %xmm0
	movq	$1, (%r14,%r10)
	xorps	%xmm1, %xmm1
	movups	%xmm1, 8(%r14,%r10)
	movups	%xmm1, 24(%r14,%r10)
	movups	%xmm1, 40(%r14,%r10)
	jne	.LBB20_15
	movaps	-40(%rsp), %xmm1
	movaps	-24(%rsp), %xmm2
	movaps	%xmm2, -56(%rsp)
	movaps	%xmm1, -72(%rsp)
	cmpq	%rdx, %rbx
	jae	.LBB20_48
	cmpq	%rdx, %r11
	jae	.LBB20_48
	movq	(%rdi), %r14
	imulq	$56, %r11, %r15
	movzbl	(%r14,%r15), %ebp
	movq	$0, (%r14,%r15)
	movq	%rsi, 8(%r14,%r15)
	movaps	-72(%rsp), %xmm1
	movaps	-56(%rsp), %xmm2
	movups	%xmm1, 16(%r14,%r15)
	movups	%xmm2, 32(%r14,%r15)
	movlps	%xmm0, 48(%r14,%r15)
	cmpb	$1, %bpl
	jne	.LBB20_48
	incq	%r11
	jmp	.LBB20_15
.LBB20_21:
	movq	8(%rdi), %rsi
	cmpq	$0, 32(%rdi)
	je	.LBB20_23
.LBB20_22:
	movq	$0, 32(%rdi)
.LBB20_23:
	testq	%rsi, %rsi
	je	.LBB20_42
	movq	(%rdi), %r9
	imulq	$56, %rsi, %r10
	addq	%r10, %r9
	addq	$-56, %r9
	xorl	%r10d, %r10d
	movq	%rsi, %rbx
	jmp	.LBB20_26
	.p2align	4
.LBB20_25:
	addq	$-56, %r9
	movq	%r11, %rbx
	testq	%r11, %r11
	je	.LBB20_30
.LBB20_26:
	leaq	-1(%rbx), %r11
	cmpq	%r11, %rsi
	jbe	.LBB20_28
	cmpb	$1, (%r9)
	jne	.LBB20_25
.LBB20_28:
	movl	$4294967295, %r14d
	cmpq	%r14, %rbx
	jae	.LBB20_48
	movq	24(%rdi), %r14
	movl	%ebx, (%r14,%r10,4)
	incq	%r10
	movq	%r10, 32(%rdi)
	jmp	.LBB20_25
.LBB20_30:
	movq	8(%rdi), %r9
	testq	%r9, %r9
	je	.LBB20_42
	xorl	%r10d, %r10d
	xorl	%esi, %esi
	xorl	%r14d, %r14d
	xorl	%r11d, %r11d
	jmp	.LBB20_34
	.p2align	4
.LBB20_32:
	movq	%r14, %rbx
.LBB20_33:
	incq	%r11
	movq	%rbx, %r14
	cmpq	%r9, %r11
	je	.LBB20_43
.LBB20_34:
	cmpq	%rdx, %r11
	je	.LBB20_48
	cmpq	8(%rdi), %r11
	jae	.LBB20_32
	movq	(%rdi), %r15
	imulq	$56, %r11, %rbx
	cmpb	$0, (%r15,%rbx)
	jne	.LBB20_32
	movl	52(%r15,%rbx), %r12d
	leaq	1(%r14), %rbx
	xorl	%r13d, %r13d
	cmpq	%rdx, %r14
	setb	%r14b
	movl	%ebx, %ebp
	cmovael	%r13d, %ebp
	testq	%r12, %r12
	je	.LBB20_41
	imulq	$56, %r12, %r14
	cmpb	$0, -56(%r15,%r14)
	jne	.LBB20_48
	movl	%ebp, -8(%r15,%r14)
	jmp	.LBB20_33
.LBB20_41:
	movl	%ebp, %esi
	movl	%r14d, %r10d
	jmp	.LBB20_33
.LBB20_42:
	xorl	%esi, %esi
	xorl	%edx, %edx
	jmp	.LBB20_44
.LBB20_43:
	movzbl	%r10b, %edx
.LBB20_44:
	movl	%edx, 80(%rdi)
	movl	%esi, 84(%rdi)
	movl	%r8d, 72(%rdi)
	movl	%ecx, 76(%rdi)
	popq	%rbx
	.cfi_def_cfa_offset 48
	popq	%r12
	.cfi_def_cfa_offset 40
	popq	%r13
	.cfi_def_cfa_offset 32
	popq	%r14
	.cfi_def_cfa_offset 24
	popq	%r15
	.cfi_def_cfa_offset 16
	popq	%rbp
	.cfi_def_cfa_offset 8
	retq
.LBB20_45:
	.cfi_def_cfa_offset 56
	xorl	%ecx, %ecx
	xorl	%r8d, %r8d
	testb	%sil, %sil
	jne	.LBB20_13
.LBB20_46:
	movq	48(%rdi), %r9
	incq	%r9
	sete	%al
	movl	$2, %esi
	cmovneq	%r9, %rsi
	movq	%rsi, 48(%rdi)
	movq	8(%rdi), %r9
	testq	%r9, %r9
	jne	.LBB20_14
.LBB20_47:
	xorl	%esi, %esi
	cmpq	$0, 32(%rdi)
	jne	.LBB20_22
	jmp	.LBB20_23
.LBB20_48:
	ud2
.Lfunc_end20:
	.size	"chain_base::chain::ChainArena::compress::<#bdd88387dc76e1c4>", .Lfunc_end20-"chain_base::chain::ChainArena::compress::<#bdd88387dc76e1c4>"
	.cfi_endproc

	.section	".text.ord_tree::tree::rebuild::rebuild_over::<#0d42ca9d2c8e0a8d>","ax",@progbits
	.p2align	4
	.type	"ord_tree::tree::rebuild::rebuild_over::<#0d42ca9d2c8e0a8d>",@function
"ord_tree::tree::rebuild::rebuild_over::<#0d42ca9d2c8e0a8d>":
	.cfi_startproc
	pushq	%rbp
	.cfi_def_cfa_offset 16
	pushq	%r15
	.cfi_def_cfa_offset 24
	pushq	%r14
	.cfi_def_cfa_offset 32
	pushq	%r13
	.cfi_def_cfa_offset 40
	pushq	%r12
	.cfi_def_cfa_offset 48
	pushq	%rbx
	.cfi_def_cfa_offset 56
	subq	$1560, %rsp
	.cfi_def_cfa_offset 1616
	.cfi_offset %rbx, -56
	.cfi_offset %r12, -48
	.cfi_offset %r13, -40
	.cfi_offset %r14, -32
	.cfi_offset %r15, -24
	.cfi_offset %rbp, -16
	movq	%rsi, 8(%rsp)
	movq	%rdi, %r14
	movq	8(%rdi), %rbp
	movq	%rbp, %r15
	subq	32(%rdi), %r15
	xorl	%r12d, %r12d
	movq	%r15, %r13
	subq	$2, %r13
	cmovbq	%r12, %r13
	leaq	16(%rsp), %rdi
	movl	$1536, %edx
	xorl	%esi, %esi
	callq	memset@PLT
	testq	%r15, %r15
	je	.LBB21_3
	leaq	24(%rsp), %rax
	xorl	%r12d, %r12d
	movq	%r15, %rcx
	.p2align	4
.LBB21_2:
	movq	%rcx, -8(%rax)
	incq	%r12
	xorps	%xmm0, %xmm0
	movups	%xmm0, (%rax)
	shrq	%rcx
	addq	$24, %rax
	testq	%rcx, %rcx
	jne	.LBB21_2
.LBB21_3:
	cmpb	$1, 72(%r14)
	jne	.LBB21_6
	movl	76(%r14), %eax
	leaq	-1(%rax), %rcx
	cmpq	%rbp, %rcx
	jae	.LBB21_6
	movq	(%r14), %rdx
	imulq	$56, %rcx, %rcx
	cmpb	$0, (%rdx,%rcx)
	je	.LBB21_33
.LBB21_6:
	xorl	%eax, %eax
	xorl	%ecx, %ecx
	testq	%r15, %r15
	je	.LBB21_34
.LBB21_7:
	movl	$127, %esi
	bsrq	%r13, %rsi
	xorl	$63, %esi
	movb	$65, %dl
	subb	%sil, %dl
	movb	%dl, 7(%rsp)
	xorl	%r8d, %r8d
	xorl	%r9d, %r9d
	xorl	%edi, %edi
	jmp	.LBB21_11
.LBB21_8:
	xorl	%r12d, %r12d
.LBB21_9:
	movl	%r10d, %r8d
.LBB21_10:
	incq	%rdi
	cmpq	%r15, %rdi
	je	.LBB21_32
.LBB21_11:
	testb	$1, %cl
	je	.LBB21_36
	movl	%eax, %r10d
	movq	(%r14), %rbp
	movl	%eax, %r11d
	imulq	$56, %r11, %rbx
	cmpb	$0, -56(%rbp,%rbx)
	jne	.LBB21_36
	movl	-4(%rbp,%rbx), %eax
	testl	%eax, %eax
	setne	%cl
	testq	%r12, %r12
	je	.LBB21_36
	decq	%r12
	movq	%r12, 1552(%rsp)
	leaq	(%r12,%r12,2), %rsi
	movq	16(%rsp,%rsi,8), %r13
	xorps	%xmm0, %xmm0
	movups	%xmm0, 16(%rsp,%rsi,8)
	movq	$0, 32(%rsp,%rsi,8)
	movq	1552(%rsp), %r12
	movb	$3, %sil
	cmpq	$5, %r13
	jb	.LBB21_16
	xorl	%edx, %edx
	movzbl	7(%rsp), %esi
	subb	%r12b, %sil
	movzbl	%sil, %esi
	cmovbl	%edx, %esi
.LBB21_16:
	cmpq	$3, %r13
	movzbl	%r13b, %edx
	movzbl	%sil, %esi
	cmovbl	%edx, %esi
	xorl	%edx, %edx
	testb	%r9b, %r9b
	cmovnel	%r8d, %edx
	movl	$0, -16(%rbp,%rbx)
	movl	%edx, -40(%rbp,%rbx)
	movl	$0, -36(%rbp,%rbx)
	movb	%sil, -12(%rbp,%rbx)
	je	.LBB21_19
	movq	(%r14), %rsi
	movl	%r8d, %edx
	imulq	$56, %rdx, %r8
	cmpb	$0, -56(%rsi,%r8)
	jne	.LBB21_36
	movl	%r10d, -16(%rsi,%r8)
.LBB21_19:
	testl	%r10d, %r10d
	je	.LBB21_36
	movq	%r13, %r8
	shrq	%r8
	notq	%r8
	addq	%r13, %r8
	je	.LBB21_24
	leaq	(,%r12,8), %rdx
	leaq	(%rdx,%rdx,2), %r9
	movq	%r13, 16(%rsp,%r9)
	movq	$1, 24(%rsp,%r9)
	movq	%r11, 32(%rsp,%r9)
	incq	%r12
	leaq	48(%rsp), %rdx
	addq	%rdx, %r9
	.p2align	4
.LBB21_22:
	movq	%r8, -8(%r9)
	incq	%r12
	xorps	%xmm0, %xmm0
	movups	%xmm0, (%r9)
	movq	%r12, 1552(%rsp)
	shrq	%r8
	addq	$24, %r9
	testq	%r8, %r8
	jne	.LBB21_22
	xorl	%r8d, %r8d
	xorl	%r9d, %r9d
	jmp	.LBB21_10
	.p2align	4
.LBB21_24:
	movb	$1, %r9b
	testq	%r12, %r12
	je	.LBB21_8
	.p2align	4
.LBB21_25:
	leaq	(%r12,%r12,2), %rsi
	cmpb	$1, (%rsp,%rsi,8)
	jne	.LBB21_9
	movq	8(%rsp,%rsi,8), %r8
	decq	%r12
	movq	%r12, 1552(%rsp)
	leaq	(%r12,%r12,2), %rdx
	xorps	%xmm0, %xmm0
	movups	%xmm0, 16(%rsp,%rdx,8)
	movq	$0, 32(%rsp,%rdx,8)
	leaq	-1(%r8), %rdx
	shrq	%rdx
	cmpq	$2147483647, %rdx
	jae	.LBB21_36
	movq	(%r14), %rsi
	imulq	$56, %r8, %r11
	cmpb	$0, -56(%rsi,%r11)
	jne	.LBB21_36
	movl	%r10d, -36(%rsi,%r11)
	movq	(%r14), %rsi
	movl	%r10d, %edx
	imulq	$56, %rdx, %r10
	cmpb	$0, -56(%rsi,%r10)
	jne	.LBB21_36
	movl	%r8d, -16(%rsi,%r10)
	movq	1552(%rsp), %r12
	movl	%r8d, %r10d
	testq	%r12, %r12
	jne	.LBB21_25
	xorl	%r12d, %r12d
	jmp	.LBB21_10
.LBB21_32:
	movzbl	%r9b, %eax
	jmp	.LBB21_35
.LBB21_33:
	movb	$1, %cl
	testq	%r15, %r15
	jne	.LBB21_7
.LBB21_34:
	xorl	%r8d, %r8d
	xorl	%eax, %eax
.LBB21_35:
	movq	8(%rsp), %rcx
	movl	%eax, (%rcx)
	movl	%r8d, 4(%rcx)
	addq	$1560, %rsp
	.cfi_def_cfa_offset 56
	popq	%rbx
	.cfi_def_cfa_offset 48
	popq	%r12
	.cfi_def_cfa_offset 40
	popq	%r13
	.cfi_def_cfa_offset 32
	popq	%r14
	.cfi_def_cfa_offset 24
	popq	%r15
	.cfi_def_cfa_offset 16
	popq	%rbp
	.cfi_def_cfa_offset 8
	retq
.LBB21_36:
	.cfi_def_cfa_offset 1616
	ud2
.Lfunc_end21:
	.size	"ord_tree::tree::rebuild::rebuild_over::<#0d42ca9d2c8e0a8d>", .Lfunc_end21-"ord_tree::tree::rebuild::rebuild_over::<#0d42ca9d2c8e0a8d>"
	.cfi_endproc

	.section	".text.unlikely.std_alloc::vec::Vec::grow_amortized::<#62ae4b2f8014e38f>","ax",@progbits
	.p2align	4
	.type	"std_alloc::vec::Vec::grow_amortized::<#62ae4b2f8014e38f>",@function
"std_alloc::vec::Vec::grow_amortized::<#62ae4b2f8014e38f>":
	.cfi_startproc
	movq	8(%rdi), %rsi
	cmpq	$-1, %rsi
	je	.LBB22_5
	pushq	%r14
	.cfi_def_cfa_offset 16
	pushq	%rbx
	.cfi_def_cfa_offset 24
	pushq	%rax
	.cfi_def_cfa_offset 32
	.cfi_offset %rbx, -24
	.cfi_offset %r14, -16
	movq	16(%rdi), %rcx
	cmpq	$4, %rsi
	movl	$3, %ebx
	cmovaeq	%rsi, %rbx
	incq	%rbx
	movq	%rcx, %rdx
	shrq	$62, %rdx
	leaq	(%rcx,%rcx), %rax
	cmpq	%rax, %rbx
	cmovaq	%rbx, %rax
	testq	%rdx, %rdx
	cmoveq	%rax, %rbx
	movq	%rbx, %rdx
	shrq	$58, %rdx
	jne	.LBB22_6
	testq	%rcx, %rcx
	je	.LBB22_8
	movq	%rdi, %r14
	movq	(%rdi), %rdi
	shlq	$5, %rsi
	movq	%rbx, %rdx
	shlq	$5, %rdx
	movl	$8, %ecx
	callq	rattle_realloc@PLT
	testb	$1, %al
	je	.LBB22_6
.LBB22_9:
	movq	%rdx, (%r14)
	movq	%rbx, 16(%r14)
	movb	$1, %al
	addq	$8, %rsp
	.cfi_def_cfa_offset 24
	popq	%rbx
	.cfi_def_cfa_offset 16
	popq	%r14
	.cfi_def_cfa_offset 8
	.cfi_restore %rbx
	.cfi_restore %r14
	retq
.LBB22_5:
	xorl	%eax, %eax
	retq
.LBB22_8:
	.cfi_def_cfa_offset 32
	.cfi_offset %rbx, -24
	.cfi_offset %r14, -16
	movq	%rdi, %r14
	shlq	$5, %rax
	movl	$8, %esi
	movq	%rax, %rdi
	callq	rattle_alloc@PLT
	testb	$1, %al
	jne	.LBB22_9
.LBB22_6:
	xorl	%eax, %eax
	addq	$8, %rsp
	.cfi_def_cfa_offset 24
	popq	%rbx
	.cfi_def_cfa_offset 16
	popq	%r14
	.cfi_def_cfa_offset 8
	.cfi_restore %rbx
	.cfi_restore %r14
	retq
.Lfunc_end22:
	.size	"std_alloc::vec::Vec::grow_amortized::<#62ae4b2f8014e38f>", .Lfunc_end22-"std_alloc::vec::Vec::grow_amortized::<#62ae4b2f8014e38f>"
	.cfi_endproc

	.section	".text.unlikely.std_alloc::vec::Vec::grow_amortized::<#18fb090d2815c35d>","ax",@progbits
	.p2align	4
	.type	"std_alloc::vec::Vec::grow_amortized::<#18fb090d2815c35d>",@function
"std_alloc::vec::Vec::grow_amortized::<#18fb090d2815c35d>":
	.cfi_startproc
	movq	8(%rdi), %rsi
	cmpq	$-1, %rsi
	je	.LBB23_5
	pushq	%r14
	.cfi_def_cfa_offset 16
	pushq	%rbx
	.cfi_def_cfa_offset 24
	pushq	%rax
	.cfi_def_cfa_offset 32
	.cfi_offset %rbx, -24
	.cfi_offset %r14, -16
	movq	16(%rdi), %rcx
	cmpq	$8, %rsi
	movl	$7, %ebx
	cmovaeq	%rsi, %rbx
	incq	%rbx
	movq	%rcx, %rdx
	shrq	$62, %rdx
	leaq	(%rcx,%rcx), %rax
	cmpq	%rax, %rbx
	cmovaq	%rbx, %rax
	testq	%rdx, %rdx
	cmoveq	%rax, %rbx
	testq	%rbx, %rbx
	js	.LBB23_6
	testq	%rcx, %rcx
	je	.LBB23_8
	movq	%rdi, %r14
	movq	(%rdi), %rdi
	movl	$1, %ecx
	movq	%rbx, %rdx
	callq	rattle_realloc@PLT
	testb	$1, %al
	je	.LBB23_6
.LBB23_9:
	movq	%rdx, (%r14)
	movq	%rbx, 16(%r14)
	movb	$1, %al
	addq	$8, %rsp
	.cfi_def_cfa_offset 24
	popq	%rbx
	.cfi_def_cfa_offset 16
	popq	%r14
	.cfi_def_cfa_offset 8
	.cfi_restore %rbx
	.cfi_restore %r14
	retq
.LBB23_5:
	xorl	%eax, %eax
	retq
.LBB23_8:
	.cfi_def_cfa_offset 32
	.cfi_offset %rbx, -24
	.cfi_offset %r14, -16
	movq	%rdi, %r14
	movl	$1, %esi
	movq	%rax, %rdi
	callq	rattle_alloc@PLT
	testb	$1, %al
	jne	.LBB23_9
.LBB23_6:
	xorl	%eax, %eax
	addq	$8, %rsp
	.cfi_def_cfa_offset 24
	popq	%rbx
	.cfi_def_cfa_offset 16
	popq	%r14
	.cfi_def_cfa_offset 8
	.cfi_restore %rbx
	.cfi_restore %r14
	retq
.Lfunc_end23:
	.size	"std_alloc::vec::Vec::grow_amortized::<#18fb090d2815c35d>", .Lfunc_end23-"std_alloc::vec::Vec::grow_amortized::<#18fb090d2815c35d>"
	.cfi_endproc

	.section	".text.unlikely.std_alloc::vec::Vec::grow_amortized::<#55858a64f045b5a4>","ax",@progbits
	.p2align	4
	.type	"std_alloc::vec::Vec::grow_amortized::<#55858a64f045b5a4>",@function
"std_alloc::vec::Vec::grow_amortized::<#55858a64f045b5a4>":
	.cfi_startproc
	movq	8(%rdi), %rsi
	cmpq	$-1, %rsi
	je	.LBB24_5
	pushq	%r14
	.cfi_def_cfa_offset 16
	pushq	%rbx
	.cfi_def_cfa_offset 24
	pushq	%rax
	.cfi_def_cfa_offset 32
	.cfi_offset %rbx, -24
	.cfi_offset %r14, -16
	movq	16(%rdi), %rcx
	cmpq	$4, %rsi
	movl	$3, %ebx
	cmovaeq	%rsi, %rbx
	incq	%rbx
	movq	%rcx, %rdx
	shrq	$62, %rdx
	leaq	(%rcx,%rcx), %rax
	cmpq	%rax, %rbx
	cmovaq	%rbx, %rax
	testq	%rdx, %rdx
	cmoveq	%rax, %rbx
	movq	%rbx, %rdx
	shrq	$57, %rdx
	jne	.LBB24_6
	testq	%rcx, %rcx
	je	.LBB24_8
	movq	%rdi, %r14
	movq	(%rdi), %rdi
	shlq	$6, %rsi
	movq	%rbx, %rdx
	shlq	$6, %rdx
	movl	$16, %ecx
	callq	rattle_realloc@PLT
	testb	$1, %al
	je	.LBB24_6
.LBB24_9:
	movq	%rdx, (%r14)
	movq	%rbx, 16(%r14)
	movb	$1, %al
	addq	$8, %rsp
	.cfi_def_cfa_offset 24
	popq	%rbx
	.cfi_def_cfa_offset 16
	popq	%r14
	.cfi_def_cfa_offset 8
	.cfi_restore %rbx
	.cfi_restore %r14
	retq
.LBB24_5:
	xorl	%eax, %eax
	retq
.LBB24_8:
	.cfi_def_cfa_offset 32
	.cfi_offset %rbx, -24
	.cfi_offset %r14, -16
	movq	%rdi, %r14
	shlq	$6, %rax
	movl	$16, %esi
	movq	%rax, %rdi
	callq	rattle_alloc@PLT
	testb	$1, %al
	jne	.LBB24_9
.LBB24_6:
	xorl	%eax, %eax
	addq	$8, %rsp
	.cfi_def_cfa_offset 24
	popq	%rbx
	.cfi_def_cfa_offset 16
	popq	%r14
	.cfi_def_cfa_offset 8
	.cfi_restore %rbx
	.cfi_restore %r14
	retq
.Lfunc_end24:
	.size	"std_alloc::vec::Vec::grow_amortized::<#55858a64f045b5a4>", .Lfunc_end24-"std_alloc::vec::Vec::grow_amortized::<#55858a64f045b5a4>"
	.cfi_endproc

	.section	".text.std_alloc::string::String::write_fmt::<#01902a879afc53f0>","ax",@progbits
	.p2align	4
	.type	"std_alloc::string::String::write_fmt::<#01902a879afc53f0>",@function
"std_alloc::string::String::write_fmt::<#01902a879afc53f0>":
	.cfi_startproc
	pushq	%r15
	.cfi_def_cfa_offset 16
	pushq	%r14
	.cfi_def_cfa_offset 24
	pushq	%r13
	.cfi_def_cfa_offset 32
	pushq	%r12
	.cfi_def_cfa_offset 40
	pushq	%rbx
	.cfi_def_cfa_offset 48
	subq	$192, %rsp
	.cfi_def_cfa_offset 240
	.cfi_offset %rbx, -48
	.cfi_offset %r12, -40
	.cfi_offset %r13, -32
	.cfi_offset %r14, -24
	.cfi_offset %r15, -16
	movq	%rdi, %rbx
	movups	(%rsi), %xmm0
	movups	16(%rsi), %xmm1
	movups	32(%rsi), %xmm2
	movaps	%xmm2, 128(%rsp)
	movaps	%xmm1, 112(%rsp)
	movaps	%xmm0, 96(%rsp)
	movq	8(%rdi), %r15
	movq	16(%rdi), %r12
	movq	%r12, 16(%rsp)
	movups	(%rdi), %xmm0
	movaps	%xmm0, (%rsp)
	xorps	%xmm0, %xmm0
	movaps	%xmm0, 48(%rsp)
	movl	$32, 24(%rsp)
	movq	$0, 28(%rsp)
	movl	$0, 36(%rsp)
	movq	$-1, 40(%rsp)
	movq	96(%rsp), %rsi
	movq	104(%rsp), %rdx
	movq	8(%rsp), %rax
	movq	%r12, %rcx
	subq	%rax, %rcx
	cmpq	%rcx, %rdx
	ja	.LBB25_42
.LBB25_1:
	leaq	112(%rsp), %r14
	leaq	(%rax,%rdx), %r13
	movq	(%rsp), %rcx
	leaq	(%rcx,%rax), %rdi
	movq	%rdi, %r8
	subq	%rsi, %r8
	cmpq	%rdx, %r8
	jae	.LBB25_4
	cmpq	$4, %rdx
	jb	.LBB25_3
	cmpq	$32, %r8
	jae	.LBB25_7
.LBB25_3:
	xorl	%r8d, %r8d
.LBB25_16:
	movq	%rdx, %r10
	movq	%r8, %r9
	andq	$3, %r10
	je	.LBB25_19
	movq	%r8, %r9
	.p2align	4
.LBB25_18:
	movzbl	(%rsi,%r9), %r11d
	movb	%r11b, (%rdi,%r9)
	incq	%r9
	decq	%r10
	jne	.LBB25_18
.LBB25_19:
	subq	%rdx, %r8
	cmpq	$-4, %r8
	ja	.LBB25_22
	addq	%rcx, %rax
	addq	$3, %rax
	.p2align	4
.LBB25_21:
	movzbl	(%rsi,%r9), %ecx
	movb	%cl, -3(%rax,%r9)
	movzbl	1(%rsi,%r9), %ecx
	movb	%cl, -2(%rax,%r9)
	movzbl	2(%rsi,%r9), %ecx
	movb	%cl, -1(%rax,%r9)
	movzbl	3(%rsi,%r9), %ecx
	movb	%cl, (%rax,%r9)
	addq	$4, %r9
	cmpq	%r9, %rdx
	jne	.LBB25_21
	jmp	.LBB25_22
.LBB25_4:
	callq	memmove@PLT
.LBB25_22:
	movq	%r13, 8(%rsp)
	movq	%r12, 16(%rsp)
	movq	%rsp, %rdi
	movq	%r14, %rsi
	callq	"core::fmt::formatter::Formatter::write_piece::<#1c9fe02cd69f029b>"
	testb	%al, %al
	je	.LBB25_31
.LBB25_23:
	movaps	(%rsp), %xmm0
	movaps	%xmm0, 64(%rsp)
	movq	16(%rsp), %rax
	movq	%rax, 80(%rsp)
	movq	%rax, 16(%rbx)
	movups	%xmm0, (%rbx)
.LBB25_24:
	movq	8(%rbx), %rcx
	testq	%r15, %r15
	je	.LBB25_29
	cmpq	%rcx, %r15
	je	.LBB25_29
	movb	$1, %al
	cmpq	%r15, %rcx
	jb	.LBB25_65
	jbe	.LBB25_65
	movq	(%rbx), %rcx
	cmpb	$-65, (%rcx,%r15)
	jg	.LBB25_30
	jmp	.LBB25_65
.LBB25_29:
	movb	$1, %al
	cmpq	%r15, %rcx
	jbe	.LBB25_65
.LBB25_30:
	movq	%r15, 8(%rbx)
	movb	$1, %al
	jmp	.LBB25_65
.LBB25_31:
	leaq	28(%rsp), %r14
	movq	120(%rsp), %rax
	cmpb	$1, (%rax)
	jne	.LBB25_36
	movups	8(%rax), %xmm0
	movaps	%xmm0, 176(%rsp)
	leaq	.Lstatic.47(%rip), %rax
	movq	%rax, 152(%rsp)
	movq	$1, 160(%rsp)
	leaq	176(%rsp), %rax
	movq	%rax, 168(%rsp)
	movl	$32, 24(%rsp)
	movl	$0, 8(%r14)
	movq	$0, (%r14)
	movq	$-1, 40(%rsp)
	cmpq	$0, 48(%rsp)
	jne	.LBB25_68
	movq	8(%rsp), %rax
	movq	16(%rsp), %rcx
	cmpq	%rax, %rcx
	je	.LBB25_69
.LBB25_34:
	movq	(%rsp), %rdx
	movb	$32, (%rdx,%rax)
	incq	%rax
	movq	%rax, 8(%rsp)
	movq	%rcx, 16(%rsp)
.LBB25_35:
	leaq	168(%rsp), %rsi
	movq	%rsp, %rdi
	callq	"core::fmt::formatter::Formatter::write_piece::<#2a3da2e77bd6383e>"
	testb	%al, %al
	jne	.LBB25_23
.LBB25_36:
	movl	$32, 24(%rsp)
	movl	$0, 8(%r14)
	movq	$0, (%r14)
	movq	$-1, 40(%rsp)
	movq	128(%rsp), %rsi
	movq	136(%rsp), %rdx
	cmpq	$0, 48(%rsp)
	jne	.LBB25_48
	movq	8(%rsp), %rax
	movq	16(%rsp), %r14
	movq	%r14, %rcx
	subq	%rax, %rcx
	cmpq	%rcx, %rdx
	ja	.LBB25_66
.LBB25_38:
	leaq	(%rax,%rdx), %r15
	movq	(%rsp), %rcx
	leaq	(%rcx,%rax), %rdi
	movq	%rdi, %r8
	subq	%rsi, %r8
	cmpq	%rdx, %r8
	jae	.LBB25_41
	cmpq	$4, %rdx
	jb	.LBB25_40
	cmpq	$32, %r8
	jae	.LBB25_46
.LBB25_40:
	xorl	%r8d, %r8d
.LBB25_57:
	movq	%rdx, %r10
	movq	%r8, %r9
	andq	$3, %r10
	je	.LBB25_60
	movq	%r8, %r9
	.p2align	4
.LBB25_59:
	movzbl	(%rsi,%r9), %r11d
	movb	%r11b, (%rdi,%r9)
	incq	%r9
	decq	%r10
	jne	.LBB25_59
.LBB25_60:
	subq	%rdx, %r8
	cmpq	$-4, %r8
	ja	.LBB25_63
	addq	%rcx, %rax
	addq	$3, %rax
	.p2align	4
.LBB25_62:
	movzbl	(%rsi,%r9), %ecx
	movb	%cl, -3(%rax,%r9)
	movzbl	1(%rsi,%r9), %ecx
	movb	%cl, -2(%rax,%r9)
	movzbl	2(%rsi,%r9), %ecx
	movb	%cl, -1(%rax,%r9)
	movzbl	3(%rsi,%r9), %ecx
	movb	%cl, (%rax,%r9)
	addq	$4, %r9
	cmpq	%r9, %rdx
	jne	.LBB25_62
	jmp	.LBB25_63
.LBB25_7:
	cmpq	$32, %rdx
	jae	.LBB25_9
	xorl	%r8d, %r8d
	jmp	.LBB25_13
.LBB25_41:
	callq	memmove@PLT
.LBB25_63:
	movq	%r15, 8(%rsp)
	movq	%r14, 80(%rsp)
	movaps	(%rsp), %xmm0
	movaps	%xmm0, 64(%rsp)
	movq	%r14, 16(%rbx)
	movups	%xmm0, (%rbx)
.LBB25_64:
	xorl	%eax, %eax
.LBB25_65:
	addq	$192, %rsp
	.cfi_def_cfa_offset 48
	popq	%rbx
	.cfi_def_cfa_offset 40
	popq	%r12
	.cfi_def_cfa_offset 32
	popq	%r13
	.cfi_def_cfa_offset 24
	popq	%r14
	.cfi_def_cfa_offset 16
	popq	%r15
	.cfi_def_cfa_offset 8
	retq
.LBB25_9:
	.cfi_def_cfa_offset 240
	movq	%rdx, %r8
	andq	$-32, %r8
	leaq	(%rax,%rcx), %r9
	addq	$16, %r9
	xorl	%r10d, %r10d
	.p2align	4
.LBB25_10:
	movups	(%rsi,%r10), %xmm0
	movups	16(%rsi,%r10), %xmm1
	movups	%xmm0, -16(%r9,%r10)
	movups	%xmm1, (%r9,%r10)
	addq	$32, %r10
	cmpq	%r10, %r8
	jne	.LBB25_10
	cmpq	%r8, %rdx
	je	.LBB25_22
	testb	$28, %dl
	je	.LBB25_16
.LBB25_13:
	movq	%r8, %r9
	movq	%rdx, %r8
	andq	$-4, %r8
	.p2align	4
.LBB25_14:
	movl	(%rsi,%r9), %r10d
	movl	%r10d, (%rdi,%r9)
	addq	$4, %r9
	cmpq	%r9, %r8
	jne	.LBB25_14
	cmpq	%r8, %rdx
	je	.LBB25_22
	jmp	.LBB25_16
.LBB25_42:
	movq	%rsi, %r14
	movq	%rsp, %rdi
	movq	%rdx, %r13
	movq	%rdx, %rsi
	callq	"std_alloc::vec::Vec::grow_amortized::<#c9fd60d064fcd5bb>"
	testb	%al, %al
	je	.LBB25_23
	movq	8(%rsp), %rax
	movq	16(%rsp), %r12
	movq	%r14, %rsi
	movq	%r13, %rdx
	jmp	.LBB25_1
.LBB25_46:
	cmpq	$32, %rdx
	jae	.LBB25_50
	xorl	%r8d, %r8d
	jmp	.LBB25_54
.LBB25_48:
	movq	%rsp, %rdi
	callq	"core::fmt::formatter::Formatter::write_indented::<#dff84d7e35224229>"
	movq	16(%rsp), %rcx
	movq	%rcx, 80(%rsp)
	movaps	(%rsp), %xmm0
	movaps	%xmm0, 64(%rsp)
	movq	%rcx, 16(%rbx)
	movups	%xmm0, (%rbx)
	testb	%al, %al
	jne	.LBB25_24
	jmp	.LBB25_64
.LBB25_50:
	movq	%rdx, %r8
	andq	$-32, %r8
	leaq	(%rax,%rcx), %r9
	addq	$16, %r9
	xorl	%r10d, %r10d
	.p2align	4
.LBB25_51:
	movups	(%rsi,%r10), %xmm0
	movups	16(%rsi,%r10), %xmm1
	movups	%xmm0, -16(%r9,%r10)
	movups	%xmm1, (%r9,%r10)
	addq	$32, %r10
	cmpq	%r10, %r8
	jne	.LBB25_51
	cmpq	%r8, %rdx
	je	.LBB25_63
	testb	$28, %dl
	je	.LBB25_57
.LBB25_54:
	movq	%r8, %r9
	movq	%rdx, %r8
	andq	$-4, %r8
	.p2align	4
.LBB25_55:
	movl	(%rsi,%r9), %r10d
	movl	%r10d, (%rdi,%r9)
	addq	$4, %r9
	cmpq	%r9, %r8
	jne	.LBB25_55
	cmpq	%r8, %rdx
	je	.LBB25_63
	jmp	.LBB25_57
.LBB25_66:
	movq	%rsi, %r12
	movq	%rsp, %rdi
	movq	%rdx, %r13
	movq	%rdx, %rsi
	callq	"std_alloc::vec::Vec::grow_amortized::<#c9fd60d064fcd5bb>"
	testb	%al, %al
	je	.LBB25_23
	movq	8(%rsp), %rax
	movq	16(%rsp), %r14
	movq	%r13, %rdx
	movq	%r12, %rsi
	jmp	.LBB25_38
.LBB25_68:
	leaq	.Lstatic.47(%rip), %rsi
	movq	%rsp, %rdi
	movl	$1, %edx
	callq	"core::fmt::formatter::Formatter::write_indented::<#dff84d7e35224229>"
	testb	%al, %al
	jne	.LBB25_23
	jmp	.LBB25_35
.LBB25_69:
	movq	%rsp, %rdi
	movl	$1, %esi
	callq	"std_alloc::vec::Vec::grow_amortized::<#c9fd60d064fcd5bb>"
	testb	%al, %al
	je	.LBB25_23
	movq	8(%rsp), %rax
	movq	16(%rsp), %rcx
	jmp	.LBB25_34
.Lfunc_end25:
	.size	"std_alloc::string::String::write_fmt::<#01902a879afc53f0>", .Lfunc_end25-"std_alloc::string::String::write_fmt::<#01902a879afc53f0>"
	.cfi_endproc

	.section	".text.core::fmt::formatter::Formatter::write_piece::<#1c9fe02cd69f029b>","ax",@progbits
	.p2align	4
	.type	"core::fmt::formatter::Formatter::write_piece::<#1c9fe02cd69f029b>",@function
"core::fmt::formatter::Formatter::write_piece::<#1c9fe02cd69f029b>":
	.cfi_startproc
	pushq	%r14
	.cfi_def_cfa_offset 16
	pushq	%rbx
	.cfi_def_cfa_offset 24
	subq	$88, %rsp
	.cfi_def_cfa_offset 112
	.cfi_offset %rbx, -24
	.cfi_offset %r14, -16
	movq	%rdi, %rbx
	leaq	24(%rdi), %r14
	movl	$32, 24(%rdi)
	movq	$0, 28(%rdi)
	movl	$0, 36(%rdi)
	movq	$-1, 40(%rdi)
	movq	(%rsi), %rax
	movl	(%rax), %ecx
	movq	8(%rax), %rax
	movl	%ecx, 12(%rsp)
	movq	%rax, 48(%rsp)
	leaq	12(%rsp), %rax
	movq	%rax, 56(%rsp)
	leaq	.Lstatic.42(%rip), %rax
	movq	%rax, 64(%rsp)
	movq	$1, 72(%rsp)
	leaq	48(%rsp), %rax
	movq	%rax, 80(%rsp)
	movq	40(%rdi), %rax
	movq	%rax, 32(%rsp)
	movl	24(%rdi), %eax
	movl	%eax, 16(%rsp)
	movq	28(%rdi), %rax
	movq	%rax, 20(%rsp)
	movl	36(%rdi), %eax
	movl	%eax, 28(%rsp)
	movl	$32, 24(%rdi)
	movq	$0, 28(%rdi)
	movl	$0, 36(%rdi)
	movq	$-1, 40(%rdi)
	leaq	56(%rsp), %rsi
	callq	"core::fmt::formatter::Formatter::write_piece::<#97d08e6fd7ed8cca>"
	movl	%eax, %ecx
	movb	$1, %al
	testb	%cl, %cl
	jne	.LBB26_8
	leaq	28(%rbx), %rax
	movl	$32, 24(%rbx)
	movl	$0, 8(%rax)
	movq	$0, (%rax)
	movq	$-1, 40(%rbx)
	cmpq	$0, 48(%rbx)
	jne	.LBB26_6
	movq	8(%rbx), %rax
	movq	16(%rbx), %rcx
	cmpq	%rax, %rcx
	je	.LBB26_3
.LBB26_5:
	movq	(%rbx), %rdx
	movb	$46, (%rdx,%rax)
	incq	%rax
	movq	%rdx, (%rbx)
	movq	%rax, 8(%rbx)
	movq	%rcx, 16(%rbx)
.LBB26_7:
	leaq	80(%rsp), %rsi
	movq	%rbx, %rdi
	callq	"core::fmt::formatter::Formatter::write_piece::<#647511b4db903f48>"
.LBB26_8:
	movq	32(%rsp), %rcx
	movq	%rcx, 16(%r14)
	movaps	16(%rsp), %xmm0
	movups	%xmm0, (%r14)
	addq	$88, %rsp
	.cfi_def_cfa_offset 24
	popq	%rbx
	.cfi_def_cfa_offset 16
	popq	%r14
	.cfi_def_cfa_offset 8
	retq
.LBB26_6:
	.cfi_def_cfa_offset 112
	leaq	.Lstatic.42(%rip), %rsi
	movl	$1, %edx
	movq	%rbx, %rdi
	callq	"core::fmt::formatter::Formatter::write_indented::<#dff84d7e35224229>"
	movl	%eax, %ecx
	movb	$1, %al
	testb	%cl, %cl
	jne	.LBB26_8
	jmp	.LBB26_7
.LBB26_3:
	movl	$1, %esi
	movq	%rbx, %rdi
	callq	"std_alloc::vec::Vec::grow_amortized::<#c9fd60d064fcd5bb>"
	movl	%eax, %ecx
	movb	$1, %al
	testb	%cl, %cl
	je	.LBB26_8
	movq	8(%rbx), %rax
	movq	16(%rbx), %rcx
	jmp	.LBB26_5
.Lfunc_end26:
	.size	"core::fmt::formatter::Formatter::write_piece::<#1c9fe02cd69f029b>", .Lfunc_end26-"core::fmt::formatter::Formatter::write_piece::<#1c9fe02cd69f029b>"
	.cfi_endproc

	.section	".text.core::fmt::formatter::Formatter::write_piece::<#97d08e6fd7ed8cca>","ax",@progbits
	.p2align	4
	.type	"core::fmt::formatter::Formatter::write_piece::<#97d08e6fd7ed8cca>",@function
"core::fmt::formatter::Formatter::write_piece::<#97d08e6fd7ed8cca>":
	.cfi_startproc
	pushq	%r15
	.cfi_def_cfa_offset 16
	pushq	%r14
	.cfi_def_cfa_offset 24
	pushq	%r13
	.cfi_def_cfa_offset 32
	pushq	%r12
	.cfi_def_cfa_offset 40
	pushq	%rbx
	.cfi_def_cfa_offset 48
	subq	$32, %rsp
	.cfi_def_cfa_offset 80
	.cfi_offset %rbx, -48
	.cfi_offset %r12, -40
	.cfi_offset %r13, -32
	.cfi_offset %r14, -24
	.cfi_offset %r15, -16
	movq	%rdi, %rbx
	movl	$32, 24(%rdi)
	movq	$0, 28(%rdi)
	movl	$0, 36(%rdi)
	movq	$-1, 40(%rdi)
	movq	(%rsi), %rax
	movl	(%rax), %edx
	xorps	%xmm0, %xmm0
	movaps	%xmm0, (%rsp)
	movq	$0, 16(%rsp)
	movl	$24, %eax
	cmpq	$100, %rdx
	jb	.LBB27_1
	.p2align	4
.LBB27_2:
	movl	%edx, %ecx
	imulq	$1374389535, %rcx, %rcx
	shrq	$37, %rcx
	imull	$100, %ecx, %esi
	movl	%edx, %edi
	subl	%esi, %edi
	imull	$103, %edi, %esi
	movzwl	%si, %esi
	shrl	$10, %esi
	leal	(%rsi,%rsi), %r8d
	leal	(%r8,%r8,4), %r8d
	subb	%r8b, %dil
	orb	$48, %dil
	movb	%dil, -1(%rsp,%rax)
	orb	$48, %sil
	movb	%sil, -2(%rsp,%rax)
	addq	$-2, %rax
	cmpq	$9999, %rdx
	movq	%rcx, %rdx
	ja	.LBB27_2
	cmpq	$10, %rcx
	jb	.LBB27_5
.LBB27_4:
	movzbl	%cl, %edx
	imull	$205, %edx, %edx
	shrl	$11, %edx
	leal	(%rdx,%rdx), %esi
	leal	(%rsi,%rsi,4), %esi
	subb	%sil, %cl
	orb	$48, %cl
	movb	%cl, -1(%rsp,%rax)
	orb	$48, %dl
	movb	%dl, -2(%rsp,%rax)
	addq	$-2, %rax
	jmp	.LBB27_6
.LBB27_1:
	movq	%rdx, %rcx
	cmpq	$10, %rcx
	jae	.LBB27_4
.LBB27_5:
	orb	$48, %cl
	movb	%cl, -1(%rsp,%rax)
	decq	%rax
.LBB27_6:
	leaq	(%rsp,%rax), %rsi
	movb	$45, -1(%rsp,%rax)
	movl	$24, %edx
	subq	%rax, %rdx
	cmpq	$0, 48(%rbx)
	jne	.LBB27_11
	movq	8(%rbx), %r14
	movq	16(%rbx), %r15
	movq	%r15, %rax
	subq	%r14, %rax
	cmpq	%rax, %rdx
	ja	.LBB27_8
.LBB27_10:
	movq	(%rbx), %r12
	leaq	(%r12,%r14), %rdi
	addq	%rdx, %r14
	callq	memcpy@PLT
	movq	%r12, (%rbx)
	movq	%r14, 8(%rbx)
	movq	%r15, 16(%rbx)
	xorl	%eax, %eax
.LBB27_12:
	addq	$32, %rsp
	.cfi_def_cfa_offset 48
	popq	%rbx
	.cfi_def_cfa_offset 40
	popq	%r12
	.cfi_def_cfa_offset 32
	popq	%r13
	.cfi_def_cfa_offset 24
	popq	%r14
	.cfi_def_cfa_offset 16
	popq	%r15
	.cfi_def_cfa_offset 8
	retq
.LBB27_11:
	.cfi_def_cfa_offset 80
	movq	%rbx, %rdi
	callq	"core::fmt::formatter::Formatter::write_indented::<#dff84d7e35224229>"
	jmp	.LBB27_12
.LBB27_8:
	movq	%rsi, %r12
	movq	%rbx, %rdi
	movq	%rdx, %r13
	movq	%rdx, %rsi
	callq	"std_alloc::vec::Vec::grow_amortized::<#c9fd60d064fcd5bb>"
	movl	%eax, %ecx
	movb	$1, %al
	testb	%cl, %cl
	je	.LBB27_12
	movq	8(%rbx), %r14
	movq	16(%rbx), %r15
	movq	%r12, %rsi
	movq	%r13, %rdx
	jmp	.LBB27_10
.Lfunc_end27:
	.size	"core::fmt::formatter::Formatter::write_piece::<#97d08e6fd7ed8cca>", .Lfunc_end27-"core::fmt::formatter::Formatter::write_piece::<#97d08e6fd7ed8cca>"
	.cfi_endproc

	.section	".text.unlikely.core::fmt::formatter::Formatter::write_indented::<#dff84d7e35224229>","ax",@progbits
	.p2align	4
	.type	"core::fmt::formatter::Formatter::write_indented::<#dff84d7e35224229>",@function
"core::fmt::formatter::Formatter::write_indented::<#dff84d7e35224229>":
	.cfi_startproc
	pushq	%rbp
	.cfi_def_cfa_offset 16
	pushq	%r15
	.cfi_def_cfa_offset 24
	pushq	%r14
	.cfi_def_cfa_offset 32
	pushq	%r13
	.cfi_def_cfa_offset 40
	pushq	%r12
	.cfi_def_cfa_offset 48
	pushq	%rbx
	.cfi_def_cfa_offset 56
	pushq	%rax
	.cfi_def_cfa_offset 64
	.cfi_offset %rbx, -56
	.cfi_offset %r12, -48
	.cfi_offset %r13, -40
	.cfi_offset %r14, -32
	.cfi_offset %r15, -24
	.cfi_offset %rbp, -16
	testq	%rdx, %rdx
	je	.LBB28_1
	movq	%rsi, %r14
	movq	%rdi, %r15
	xorl	%ecx, %ecx
	xorl	%ebp, %ebp
	movq	%rdx, (%rsp)
	jmp	.LBB28_3
	.p2align	4
.LBB28_7:
	addq	%r14, %r13
	movb	$1, 56(%r15)
	movq	%r15, %rdi
	movq	%r13, %rsi
	movq	%r12, %rdx
	callq	"core::fmt::formatter::Formatter::write_raw::<#dff84d7e35224229>"
	movq	%rbp, %rcx
	testb	%al, %al
	movq	(%rsp), %rdx
	jne	.LBB28_17
.LBB28_8:
	cmpq	%rdx, %rbp
	je	.LBB28_9
.LBB28_3:
	movq	%rbp, %rax
	incq	%rbp
	cmpb	$10, (%r14,%rax)
	jne	.LBB28_8
	xorl	%r13d, %r13d
	movq	%rbp, %r12
	subq	%rcx, %r12
	cmovaeq	%rcx, %r13
	cmpq	%rax, %rcx
	movq	%rbp, %rcx
	ja	.LBB28_8
	cmpb	$1, 56(%r15)
	jne	.LBB28_7
	movq	48(%r15), %rbx
	testq	%rbx, %rbx
	je	.LBB28_7
	.p2align	4
.LBB28_14:
	leaq	.Lstatic.43(%rip), %rsi
	movl	$4, %edx
	movq	%r15, %rdi
	callq	"core::fmt::formatter::Formatter::write_raw::<#dff84d7e35224229>"
	testb	%al, %al
	jne	.LBB28_17
	decq	%rbx
	jne	.LBB28_14
	jmp	.LBB28_7
.LBB28_1:
	xorl	%eax, %eax
	jmp	.LBB28_18
.LBB28_9:
	xorl	%eax, %eax
	cmpq	%rdx, %rcx
	movq	%rcx, %r12
	cmovaq	%rax, %r12
	subq	%rcx, %rdx
	cmovbq	%rax, %rdx
	jbe	.LBB28_18
	movq	%rdx, %r13
	cmpb	$1, 56(%r15)
	jne	.LBB28_12
	movq	48(%r15), %rbx
	testq	%rbx, %rbx
	je	.LBB28_12
	.p2align	4
.LBB28_16:
	leaq	.Lstatic.43(%rip), %rsi
	movl	$4, %edx
	movq	%r15, %rdi
	callq	"core::fmt::formatter::Formatter::write_raw::<#dff84d7e35224229>"
	testb	%al, %al
	jne	.LBB28_17
	decq	%rbx
	jne	.LBB28_16
.LBB28_12:
	addq	%r12, %r14
	movb	$0, 56(%r15)
	movq	%r15, %rdi
	movq	%r14, %rsi
	movq	%r13, %rdx
	addq	$8, %rsp
	.cfi_def_cfa_offset 56
	popq	%rbx
	.cfi_def_cfa_offset 48
	popq	%r12
	.cfi_def_cfa_offset 40
	popq	%r13
	.cfi_def_cfa_offset 32
	popq	%r14
	.cfi_def_cfa_offset 24
	popq	%r15
	.cfi_def_cfa_offset 16
	popq	%rbp
	.cfi_def_cfa_offset 8
	jmp	"core::fmt::formatter::Formatter::write_raw::<#dff84d7e35224229>"
.LBB28_17:
	.cfi_def_cfa_offset 64
	movb	$1, %al
.LBB28_18:
	addq	$8, %rsp
	.cfi_def_cfa_offset 56
	popq	%rbx
	.cfi_def_cfa_offset 48
	popq	%r12
	.cfi_def_cfa_offset 40
	popq	%r13
	.cfi_def_cfa_offset 32
	popq	%r14
	.cfi_def_cfa_offset 24
	popq	%r15
	.cfi_def_cfa_offset 16
	popq	%rbp
	.cfi_def_cfa_offset 8
	retq
.Lfunc_end28:
	.size	"core::fmt::formatter::Formatter::write_indented::<#dff84d7e35224229>", .Lfunc_end28-"core::fmt::formatter::Formatter::write_indented::<#dff84d7e35224229>"
	.cfi_endproc

	.section	".text.core::fmt::formatter::Formatter::write_raw::<#dff84d7e35224229>","ax",@progbits
	.p2align	4
	.type	"core::fmt::formatter::Formatter::write_raw::<#dff84d7e35224229>",@function
"core::fmt::formatter::Formatter::write_raw::<#dff84d7e35224229>":
	.cfi_startproc
	testq	%rdx, %rdx
	je	.LBB29_19
	xorl	%ecx, %ecx
	jmp	.LBB29_3
	.p2align	4
.LBB29_2:
	addq	%r10, %rcx
	cmpq	%rdx, %rcx
	jae	.LBB29_19
.LBB29_3:
	movzbl	(%rsi,%rcx), %r8d
	movl	$1, %r10d
	testb	%r8b, %r8b
	jns	.LBB29_2
	leaq	1(%rcx), %r9
	movb	$1, %al
	cmpq	%r9, %rdx
	jbe	.LBB29_18
	movzbl	(%rsi,%r9), %r9d
	testb	%r9b, %r9b
	jns	.LBB29_18
	movzbl	%r9b, %r10d
	cmpb	$-64, %r9b
	movl	$192, %r9d
	cmovbl	%r10d, %r9d
	cmpb	$-62, %r8b
	jb	.LBB29_18
	movl	%r9d, %r10d
	andb	$127, %r10b
	cmpb	$63, %r10b
	ja	.LBB29_18
	movl	$2, %r10d
	cmpb	$-32, %r8b
	jb	.LBB29_2
	leaq	2(%rcx), %r10
	cmpq	%r10, %rdx
	jbe	.LBB29_18
	cmpb	$-65, (%rsi,%r10)
	jg	.LBB29_18
	andl	$127, %r9d
	cmpb	$-17, %r8b
	ja	.LBB29_15
	movl	%r8d, %r10d
	shll	$12, %r10d
	shll	$6, %r9d
	addl	%r10d, %r9d
	addl	$-917504, %r9d
	cmpl	$2048, %r9d
	jb	.LBB29_18
	movl	$3, %r10d
	cmpl	$55296, %r9d
	jb	.LBB29_2
	cmpb	$-18, %r8b
	jae	.LBB29_2
	jmp	.LBB29_18
.LBB29_15:
	leaq	3(%rcx), %r10
	cmpq	%r10, %rdx
	jbe	.LBB29_18
	cmpb	$-65, (%rsi,%r10)
	jg	.LBB29_18
	shll	$18, %r8d
	shll	$12, %r9d
	addl	%r9d, %r8d
	addl	$-62980096, %r8d
	movl	$4, %r10d
	cmpl	$1048575, %r8d
	jbe	.LBB29_2
.LBB29_18:
	retq
.LBB29_19:
	pushq	%r15
	.cfi_def_cfa_offset 16
	pushq	%r14
	.cfi_def_cfa_offset 24
	pushq	%r12
	.cfi_def_cfa_offset 32
	pushq	%rbx
	.cfi_def_cfa_offset 40
	pushq	%rax
	.cfi_def_cfa_offset 48
	.cfi_offset %rbx, -40
	.cfi_offset %r12, -32
	.cfi_offset %r14, -24
	.cfi_offset %r15, -16
	movq	8(%rdi), %rcx
	movq	16(%rdi), %rbx
	movq	%rbx, %rax
	subq	%rcx, %rax
	cmpq	%rax, %rdx
	ja	.LBB29_43
.LBB29_20:
	leaq	8(%rdi), %rax
	leaq	(%rcx,%rdx), %r14
	movq	(%rdi), %r15
	xorps	%xmm0, %xmm0
	movups	%xmm0, (%rax)
	leaq	(%r15,%rcx), %rax
	movq	%rax, %r8
	subq	%rsi, %r8
	cmpq	%rdx, %r8
	jae	.LBB29_23
	cmpq	$4, %rdx
	jb	.LBB29_22
	cmpq	$32, %r8
	jae	.LBB29_26
.LBB29_22:
	xorl	%r8d, %r8d
.LBB29_35:
	movq	%rdx, %r10
	movq	%r8, %r9
	andq	$3, %r10
	je	.LBB29_38
	movq	%r8, %r9
	.p2align	4
.LBB29_37:
	movzbl	(%rsi,%r9), %r11d
	movb	%r11b, (%rax,%r9)
	incq	%r9
	decq	%r10
	jne	.LBB29_37
.LBB29_38:
	subq	%rdx, %r8
	cmpq	$-4, %r8
	ja	.LBB29_41
	leaq	(%rcx,%r15), %rax
	addq	$3, %rax
	.p2align	4
.LBB29_40:
	movzbl	(%rsi,%r9), %ecx
	movb	%cl, -3(%rax,%r9)
	movzbl	1(%rsi,%r9), %ecx
	movb	%cl, -2(%rax,%r9)
	movzbl	2(%rsi,%r9), %ecx
	movb	%cl, -1(%rax,%r9)
	movzbl	3(%rsi,%r9), %ecx
	movb	%cl, (%rax,%r9)
	addq	$4, %r9
	cmpq	%r9, %rdx
	jne	.LBB29_40
	jmp	.LBB29_41
.LBB29_23:
	movq	%rdi, %r12
	movq	%rax, %rdi
	callq	memmove@PLT
	movq	%r12, %rdi
.LBB29_41:
	movq	%r15, (%rdi)
	movq	%r14, 8(%rdi)
	movq	%rbx, 16(%rdi)
	xorl	%eax, %eax
.LBB29_42:
	addq	$8, %rsp
	.cfi_def_cfa_offset 40
	popq	%rbx
	.cfi_def_cfa_offset 32
	popq	%r12
	.cfi_def_cfa_offset 24
	popq	%r14
	.cfi_def_cfa_offset 16
	popq	%r15
	.cfi_def_cfa_offset 8
	.cfi_restore %rbx
	.cfi_restore %r12
	.cfi_restore %r14
	.cfi_restore %r15
	retq
.LBB29_26:
	.cfi_def_cfa_offset 48
	.cfi_offset %rbx, -40
	.cfi_offset %r12, -32
	.cfi_offset %r14, -24
	.cfi_offset %r15, -16
	cmpq	$32, %rdx
	jae	.LBB29_28
	xorl	%r8d, %r8d
	jmp	.LBB29_32
.LBB29_28:
	movq	%rdx, %r8
	andq	$-32, %r8
	leaq	(%rcx,%r15), %r9
	addq	$16, %r9
	xorl	%r10d, %r10d
	.p2align	4
.LBB29_29:
	movups	(%rsi,%r10), %xmm0
	movups	16(%rsi,%r10), %xmm1
	movups	%xmm0, -16(%r9,%r10)
	movups	%xmm1, (%r9,%r10)
	addq	$32, %r10
	cmpq	%r10, %r8
	jne	.LBB29_29
	cmpq	%r8, %rdx
	je	.LBB29_41
	testb	$28, %dl
	je	.LBB29_35
.LBB29_32:
	movq	%r8, %r9
	movq	%rdx, %r8
	andq	$-4, %r8
	.p2align	4
.LBB29_33:
	movl	(%rsi,%r9), %r10d
	movl	%r10d, (%rax,%r9)
	addq	$4, %r9
	cmpq	%r9, %r8
	jne	.LBB29_33
	cmpq	%r8, %rdx
	je	.LBB29_41
	jmp	.LBB29_35
.LBB29_43:
	movq	%rdi, %rbx
	movq	%rsi, %r14
	movq	%rdx, %rsi
	movq	%rdx, %r15
	callq	"std_alloc::vec::Vec::grow_amortized::<#c9fd60d064fcd5bb>"
	movl	%eax, %ecx
	movb	$1, %al
	testb	%cl, %cl
	je	.LBB29_42
	movq	%r14, %rsi
	movq	%r15, %rdx
	movq	%rbx, %rdi
	movq	8(%rbx), %rcx
	movq	16(%rbx), %rbx
	jmp	.LBB29_20
.Lfunc_end29:
	.size	"core::fmt::formatter::Formatter::write_raw::<#dff84d7e35224229>", .Lfunc_end29-"core::fmt::formatter::Formatter::write_raw::<#dff84d7e35224229>"
	.cfi_endproc

	.section	".text.core::fmt::formatter::Formatter::write_before_number::<#dff84d7e35224229>","ax",@progbits
	.p2align	4
	.type	"core::fmt::formatter::Formatter::write_before_number::<#dff84d7e35224229>",@function
"core::fmt::formatter::Formatter::write_before_number::<#dff84d7e35224229>":
	.cfi_startproc
	pushq	%rbp
	.cfi_def_cfa_offset 16
	pushq	%r15
	.cfi_def_cfa_offset 24
	pushq	%r14
	.cfi_def_cfa_offset 32
	pushq	%r13
	.cfi_def_cfa_offset 40
	pushq	%r12
	.cfi_def_cfa_offset 48
	pushq	%rbx
	.cfi_def_cfa_offset 56
	pushq	%rax
	.cfi_def_cfa_offset 64
	.cfi_offset %rbx, -56
	.cfi_offset %r12, -48
	.cfi_offset %r13, -40
	.cfi_offset %r14, -32
	.cfi_offset %r15, -24
	.cfi_offset %rbp, -16
	movq	%rdi, %r14
	movzbl	28(%rdi), %eax
	movzbl	29(%rdi), %ebp
	movq	32(%rdi), %rbx
	leaq	.Lstatic.46(%rip), %rcx
	leaq	.Lstatic.44(%rip), %rdi
	testb	$1, %bpl
	cmovneq	%rcx, %rdi
	orb	%sil, %bpl
	movzbl	%bpl, %ecx
	andl	$1, %ecx
	leaq	.Lstatic.45(%rip), %r13
	testl	%esi, %esi
	cmoveq	%rdi, %r13
	xorl	%r15d, %r15d
	subq	%rdx, %rbx
	cmovbq	%r15, %rbx
	subq	%rcx, %rbx
	cmovbq	%r15, %rbx
	movzbl	31(%r14), %ecx
	cmpl	$1, %eax
	je	.LBB30_3
	movq	%rbx, %r15
	cmpl	$2, %eax
	jne	.LBB30_3
	shrq	%r15
.LBB30_3:
	xorl	%r12d, %r12d
	testb	$1, %cl
	cmovneq	%r12, %r15
	cmovneq	%rbx, %r12
	testq	%r15, %r15
	je	.LBB30_6
	movl	24(%r14), %esi
	movq	%r14, %rdi
	movq	%r15, %rdx
	callq	"core::fmt::formatter::Formatter::write_char_n_times::<#dff84d7e35224229>"
	testb	%al, %al
	jne	.LBB30_5
.LBB30_6:
	testb	$1, %bpl
	je	.LBB30_11
	cmpq	$0, 48(%r14)
	jne	.LBB30_9
	movl	$1, %edx
	movq	%r14, %rdi
	movq	%r13, %rsi
	callq	"core::fmt::formatter::Formatter::write_raw::<#dff84d7e35224229>"
	testb	%al, %al
	je	.LBB30_11
.LBB30_5:
	movb	$1, %al
	xorl	%ebx, %ebx
	jmp	.LBB30_13
.LBB30_9:
	movl	$1, %edx
	movq	%r14, %rdi
	movq	%r13, %rsi
	callq	"core::fmt::formatter::Formatter::write_indented::<#dff84d7e35224229>"
	testb	%al, %al
	jne	.LBB30_5
.LBB30_11:
	xorl	%eax, %eax
	subq	%r15, %rbx
	cmovbq	%rax, %rbx
	subq	%r12, %rbx
	cmovbq	%rax, %rbx
	testq	%r12, %r12
	je	.LBB30_13
	movq	%r14, %rdi
	movl	$48, %esi
	movq	%r12, %rdx
	callq	"core::fmt::formatter::Formatter::write_char_n_times::<#dff84d7e35224229>"
	xorl	%ecx, %ecx
	testb	%al, %al
	cmovneq	%rcx, %rbx
.LBB30_13:
	movq	%rbx, %rdx
	addq	$8, %rsp
	.cfi_def_cfa_offset 56
	popq	%rbx
	.cfi_def_cfa_offset 48
	popq	%r12
	.cfi_def_cfa_offset 40
	popq	%r13
	.cfi_def_cfa_offset 32
	popq	%r14
	.cfi_def_cfa_offset 24
	popq	%r15
	.cfi_def_cfa_offset 16
	popq	%rbp
	.cfi_def_cfa_offset 8
	retq
.Lfunc_end30:
	.size	"core::fmt::formatter::Formatter::write_before_number::<#dff84d7e35224229>", .Lfunc_end30-"core::fmt::formatter::Formatter::write_before_number::<#dff84d7e35224229>"
	.cfi_endproc

	.section	.rodata.cst16,"aM",@progbits,16
	.p2align	4, 0x0
.LCPI31_0:
	.byte	255
	.byte	63
	.byte	63
	.byte	63
	.zero	1
	.zero	1
	.zero	1
	.zero	1
	.zero	1
	.zero	1
	.zero	1
	.zero	1
	.zero	1
	.zero	1
	.zero	1
	.zero	1
.LCPI31_1:
	.byte	240
	.byte	128
	.byte	128
	.byte	128
	.zero	1
	.zero	1
	.zero	1
	.zero	1
	.zero	1
	.zero	1
	.zero	1
	.zero	1
	.zero	1
	.zero	1
	.zero	1
	.zero	1
	.section	".text.core::fmt::formatter::Formatter::write_char_n_times::<#dff84d7e35224229>","ax",@progbits
	.p2align	4
	.type	"core::fmt::formatter::Formatter::write_char_n_times::<#dff84d7e35224229>",@function
"core::fmt::formatter::Formatter::write_char_n_times::<#dff84d7e35224229>":
	.cfi_startproc
	pushq	%rbp
	.cfi_def_cfa_offset 16
	pushq	%r15
	.cfi_def_cfa_offset 24
	pushq	%r14
	.cfi_def_cfa_offset 32
	pushq	%r13
	.cfi_def_cfa_offset 40
	pushq	%r12
	.cfi_def_cfa_offset 48
	pushq	%rbx
	.cfi_def_cfa_offset 56
	subq	$40, %rsp
	.cfi_def_cfa_offset 96
	.cfi_offset %rbx, -56
	.cfi_offset %r12, -48
	.cfi_offset %r13, -40
	.cfi_offset %r14, -32
	.cfi_offset %r15, -24
	.cfi_offset %rbp, -16
	movq	%rdx, %r14
	movq	%rdi, %rbx
	cmpl	$127, %esi
	ja	.LBB31_9
	movd	%esi, %xmm0
	punpcklbw	%xmm0, %xmm0
	pshuflw	$0, %xmm0, %xmm0
	pshufd	$68, %xmm0, %xmm0
	movdqa	%xmm0, 16(%rsp)
	cmpq	$17, %r14
	jb	.LBB31_12
	.p2align	4
.LBB31_2:
	cmpq	$0, 48(%rbx)
	jne	.LBB31_6
	movq	8(%rbx), %rax
	movq	16(%rbx), %rcx
	movq	%rcx, %rdx
	subq	%rax, %rdx
	cmpq	$15, %rdx
	jbe	.LBB31_7
.LBB31_4:
	movq	(%rbx), %rdx
	movdqa	16(%rsp), %xmm0
	movdqu	%xmm0, (%rdx,%rax)
	addq	$16, %rax
	movq	%rdx, (%rbx)
	movq	%rax, 8(%rbx)
	movq	%rcx, 16(%rbx)
.LBB31_5:
	addq	$-16, %r14
	cmpq	$16, %r14
	ja	.LBB31_2
	jmp	.LBB31_12
.LBB31_6:
	leaq	16(%rsp), %rsi
	movl	$16, %edx
	movq	%rbx, %rdi
	callq	"core::fmt::formatter::Formatter::write_indented::<#dff84d7e35224229>"
	testb	%al, %al
	je	.LBB31_5
	jmp	.LBB31_61
.LBB31_7:
	movl	$16, %esi
	movq	%rbx, %rdi
	callq	"std_alloc::vec::Vec::grow_amortized::<#c9fd60d064fcd5bb>"
	testb	%al, %al
	je	.LBB31_61
	movq	8(%rbx), %rax
	movq	16(%rbx), %rcx
	jmp	.LBB31_4
.LBB31_9:
	movl	$0, 8(%rsp)
	cmpl	$2047, %esi
	movq	%rsi, 32(%rsp)
	ja	.LBB31_15
	movl	%esi, %eax
	shrl	$6, %eax
	orb	$-64, %al
	movb	%al, 8(%rsp)
	movl	%esi, %eax
	andb	$63, %al
	orb	$-128, %al
	movb	%al, 9(%rsp)
	movl	$2, %r12d
.LBB31_11:
	movl	$0, 12(%rsp)
	jmp	.LBB31_20
.LBB31_12:
	cmpq	$0, 48(%rbx)
	jne	.LBB31_63
	movq	8(%rbx), %r15
	movq	16(%rbx), %r12
	movq	%r12, %rax
	subq	%r15, %rax
	cmpq	%rax, %r14
	ja	.LBB31_64
.LBB31_14:
	movq	(%rbx), %r13
	leaq	(%r15,%r13), %rdi
	addq	%r14, %r15
	leaq	16(%rsp), %rsi
	movq	%r14, %rdx
	callq	memcpy@PLT
	movq	%r13, (%rbx)
	movq	%r15, 8(%rbx)
	movq	%r12, 16(%rbx)
	jmp	.LBB31_59
.LBB31_15:
	cmpl	$55296, %esi
	setb	%al
	leal	-57344(%rsi), %ecx
	cmpl	$1056768, %ecx
	setb	%cl
	orb	%al, %cl
	je	.LBB31_18
	movl	%esi, %eax
	cmpl	$65535, %esi
	ja	.LBB31_62
	shrl	$12, %eax
	orb	$-32, %al
	movb	%al, 8(%rsp)
	movl	%esi, %eax
	shrl	$6, %eax
	andb	$63, %al
	orb	$-128, %al
	movb	%al, 9(%rsp)
	movl	%esi, %eax
	andb	$63, %al
	orb	$-128, %al
	movb	%al, 10(%rsp)
	jmp	.LBB31_19
.LBB31_18:
	movw	$-16401, 8(%rsp)
	movb	$-67, 10(%rsp)
.LBB31_19:
	movl	$3, %r12d
	movb	$1, %al
	movl	%eax, 12(%rsp)
.LBB31_20:
	xorl	%ecx, %ecx
.LBB31_21:
	movzbl	8(%rsp,%rcx), %edx
	testb	%dl, %dl
	sets	%al
	movq	%r12, %rdi
	subq	%rcx, %rdi
	cmpq	$2, %rdi
	setb	%sil
	orb	%al, %sil
	jne	.LBB31_25
	cmpb	$0, 9(%rsp,%rcx)
	js	.LBB31_30
	.p2align	4
.LBB31_23:
	cmpb	$0, 8(%rsp,%rcx)
	js	.LBB31_46
	incq	%rcx
	cmpq	%rcx, %r12
	jne	.LBB31_23
	jmp	.LBB31_50
	.p2align	4
.LBB31_25:
	movl	$1, %esi
	testb	%dl, %dl
	jns	.LBB31_45
	movb	$1, %al
	cmpb	$-62, %dl
	jb	.LBB31_60
	cmpb	$-33, %dl
	ja	.LBB31_31
	cmpl	$2, %edi
	jb	.LBB31_60
	movl	$2, %esi
	cmpb	$-65, 9(%rsp,%rcx)
	jle	.LBB31_45
	jmp	.LBB31_60
.LBB31_30:
	movl	$1, %esi
	jmp	.LBB31_45
.LBB31_31:
	cmpb	$-17, %dl
	ja	.LBB31_38
	cmpl	$3, %edi
	jb	.LBB31_60
	movzbl	9(%rsp,%rcx), %esi
	cmpb	$-65, %sil
	jg	.LBB31_60
	cmpb	$-65, 10(%rsp,%rcx)
	jg	.LBB31_60
	shll	$6, %edx
	leal	(%rdx,%rsi), %edi
	addl	$-14464, %edi
	cmpl	$32, %edi
	jb	.LBB31_60
	xorl	%edx, %edx
	cmpl	$896, %edi
	setae	%r8b
	movl	$3, %esi
	cmpl	$864, %edi
	jb	.LBB31_45
	movb	%r8b, %dl
	leaq	(%rdx,%rdx,2), %rsi
	jmp	.LBB31_44
.LBB31_38:
	cmpl	$4, %edi
	jb	.LBB31_60
	movzbl	9(%rsp,%rcx), %esi
	cmpb	$-65, %sil
	jg	.LBB31_60
	cmpb	$-65, 10(%rsp,%rcx)
	jg	.LBB31_60
	cmpb	$-65, 11(%rsp,%rcx)
	jg	.LBB31_60
	shll	$6, %edx
	leal	(%rdx,%rsi), %edi
	addl	$-15488, %edi
	xorl	%esi, %esi
	cmpl	$272, %edi
	setb	%dl
	cmpl	$16, %edi
	jb	.LBB31_60
	movb	%dl, %sil
	shll	$2, %esi
.LBB31_44:
	testq	%rsi, %rsi
	je	.LBB31_60
	.p2align	4
.LBB31_45:
	addq	%rsi, %rcx
.LBB31_46:
	cmpq	%r12, %rcx
	jb	.LBB31_21
	jmp	.LBB31_50
.LBB31_47:
	leaq	8(%rsp), %rsi
	movq	%rbx, %rdi
	movq	%r12, %rdx
	callq	"core::fmt::formatter::Formatter::write_indented::<#dff84d7e35224229>"
	testb	%al, %al
	je	.LBB31_58
	jmp	.LBB31_61
.LBB31_48:
	movq	%rbx, %rdi
	movq	%r12, %rsi
	callq	"std_alloc::vec::Vec::grow_amortized::<#c9fd60d064fcd5bb>"
	testb	%al, %al
	je	.LBB31_61
	movq	8(%rbx), %r13
	movq	16(%rbx), %rbp
	jmp	.LBB31_52
	.p2align	4
.LBB31_50:
	cmpq	$0, 48(%rbx)
	jne	.LBB31_47
	movq	8(%rbx), %r13
	movq	16(%rbx), %rbp
	movq	%rbp, %rax
	subq	%r13, %rax
	cmpq	%rax, %r12
	ja	.LBB31_48
.LBB31_52:
	movq	(%rbx), %r15
	leaq	(%r15,%r13), %rdi
	leaq	8(%rsp), %rax
	movq	%rdi, %rcx
	subq	%rax, %rcx
	cmpq	%r12, %rcx
	jae	.LBB31_56
	movzbl	8(%rsp), %eax
	movb	%al, (%rdi)
	movzbl	9(%rsp), %eax
	movb	%al, 1(%rdi)
	cmpl	$2048, 32(%rsp)
	jb	.LBB31_57
	movzbl	10(%rsp), %eax
	movb	%al, 2(%rdi)
	cmpb	$0, 12(%rsp)
	jne	.LBB31_57
	movzbl	11(%rsp), %eax
	movb	%al, 3(%rdi)
	jmp	.LBB31_57
	.p2align	4
.LBB31_56:
	leaq	8(%rsp), %rsi
	movq	%r12, %rdx
	callq	memmove@PLT
.LBB31_57:
	addq	%r12, %r13
	movq	%r15, (%rbx)
	movq	%r13, 8(%rbx)
	movq	%rbp, 16(%rbx)
.LBB31_58:
	decq	%r14
	jne	.LBB31_50
.LBB31_59:
	xorl	%eax, %eax
.LBB31_60:
	addq	$40, %rsp
	.cfi_def_cfa_offset 56
	popq	%rbx
	.cfi_def_cfa_offset 48
	popq	%r12
	.cfi_def_cfa_offset 40
	popq	%r13
	.cfi_def_cfa_offset 32
	popq	%r14
	.cfi_def_cfa_offset 24
	popq	%r15
	.cfi_def_cfa_offset 16
	popq	%rbp
	.cfi_def_cfa_offset 8
	retq
.LBB31_61:
	.cfi_def_cfa_offset 96
	movb	$1, %al
	jmp	.LBB31_60
.LBB31_62:
	shrl	$18, %eax
	movl	%esi, %ecx
	shrl	$4, %ecx
	andl	$65280, %ecx
	orl	%eax, %ecx
	movl	%esi, %eax
	shll	$10, %eax
	andl	$16711680, %eax
	orl	%ecx, %eax
	movl	%esi, %ecx
	shll	$24, %ecx
	orl	%eax, %ecx
	movd	%ecx, %xmm0
	pand	.LCPI31_0(%rip), %xmm0
	por	.LCPI31_1(%rip), %xmm0
	movd	%xmm0, 8(%rsp)
	movl	$4, %r12d
	jmp	.LBB31_11
.LBB31_63:
	leaq	16(%rsp), %rsi
	movq	%rbx, %rdi
	movq	%r14, %rdx
	callq	"core::fmt::formatter::Formatter::write_indented::<#dff84d7e35224229>"
	jmp	.LBB31_60
.LBB31_64:
	movq	%rbx, %rdi
	movq	%r14, %rsi
	callq	"std_alloc::vec::Vec::grow_amortized::<#c9fd60d064fcd5bb>"
	movl	%eax, %ecx
	movb	$1, %al
	testb	%cl, %cl
	je	.LBB31_60
	movq	8(%rbx), %r15
	movq	16(%rbx), %r12
	jmp	.LBB31_14
.Lfunc_end31:
	.size	"core::fmt::formatter::Formatter::write_char_n_times::<#dff84d7e35224229>", .Lfunc_end31-"core::fmt::formatter::Formatter::write_char_n_times::<#dff84d7e35224229>"
	.cfi_endproc

	.section	".text.core::fmt::formatter::Formatter::write_piece::<#647511b4db903f48>","ax",@progbits
	.p2align	4
	.type	"core::fmt::formatter::Formatter::write_piece::<#647511b4db903f48>",@function
"core::fmt::formatter::Formatter::write_piece::<#647511b4db903f48>":
	.cfi_startproc
	pushq	%r15
	.cfi_def_cfa_offset 16
	pushq	%r14
	.cfi_def_cfa_offset 24
	pushq	%r13
	.cfi_def_cfa_offset 32
	pushq	%r12
	.cfi_def_cfa_offset 40
	pushq	%rbx
	.cfi_def_cfa_offset 48
	subq	$32, %rsp
	.cfi_def_cfa_offset 80
	.cfi_offset %rbx, -48
	.cfi_offset %r12, -40
	.cfi_offset %r13, -32
	.cfi_offset %r14, -24
	.cfi_offset %r15, -16
	movq	%rdi, %rbx
	movl	$32, 24(%rdi)
	movq	$0, 28(%rdi)
	movl	$0, 36(%rdi)
	movq	$-1, 40(%rdi)
	movq	(%rsi), %rax
	movq	(%rax), %rsi
	xorps	%xmm0, %xmm0
	movaps	%xmm0, (%rsp)
	movq	$0, 16(%rsp)
	movl	$24, %ecx
	cmpq	$100, %rsi
	jb	.LBB32_1
	.p2align	4
.LBB32_2:
	movq	%rsi, %rax
	shrq	$2, %rax
	movabsq	$2951479051793528259, %rdx
	mulq	%rdx
	shrq	$2, %rdx
	imull	$100, %edx, %eax
	movl	%esi, %edi
	subl	%eax, %edi
	movzbl	%dil, %eax
	imull	$205, %eax, %edi
	shrl	$11, %edi
	leal	(%rdi,%rdi), %r8d
	leal	(%r8,%r8,4), %r8d
	subb	%r8b, %al
	orb	$48, %al
	movb	%al, -1(%rsp,%rcx)
	orb	$48, %dil
	movb	%dil, -2(%rsp,%rcx)
	addq	$-2, %rcx
	cmpq	$9999, %rsi
	movq	%rdx, %rsi
	ja	.LBB32_2
	cmpq	$10, %rdx
	jb	.LBB32_5
.LBB32_4:
	movzbl	%dl, %eax
	imull	$205, %eax, %eax
	shrl	$11, %eax
	leal	(%rax,%rax), %esi
	leal	(%rsi,%rsi,4), %esi
	subb	%sil, %dl
	orb	$48, %dl
	movb	%dl, -1(%rsp,%rcx)
	orb	$48, %al
	movb	%al, -2(%rsp,%rcx)
	addq	$-2, %rcx
	jmp	.LBB32_6
.LBB32_1:
	movq	%rsi, %rdx
	cmpq	$10, %rdx
	jae	.LBB32_4
.LBB32_5:
	orb	$48, %dl
	movb	%dl, -1(%rsp,%rcx)
	decq	%rcx
.LBB32_6:
	leaq	(%rsp,%rcx), %rsi
	movb	$45, -1(%rsp,%rcx)
	movl	$24, %edx
	subq	%rcx, %rdx
	cmpq	$0, 48(%rbx)
	jne	.LBB32_11
	movq	8(%rbx), %r14
	movq	16(%rbx), %r15
	movq	%r15, %rax
	subq	%r14, %rax
	cmpq	%rax, %rdx
	ja	.LBB32_8
.LBB32_10:
	movq	(%rbx), %r12
	leaq	(%r12,%r14), %rdi
	addq	%rdx, %r14
	callq	memcpy@PLT
	movq	%r12, (%rbx)
	movq	%r14, 8(%rbx)
	movq	%r15, 16(%rbx)
	xorl	%eax, %eax
.LBB32_12:
	addq	$32, %rsp
	.cfi_def_cfa_offset 48
	popq	%rbx
	.cfi_def_cfa_offset 40
	popq	%r12
	.cfi_def_cfa_offset 32
	popq	%r13
	.cfi_def_cfa_offset 24
	popq	%r14
	.cfi_def_cfa_offset 16
	popq	%r15
	.cfi_def_cfa_offset 8
	retq
.LBB32_11:
	.cfi_def_cfa_offset 80
	movq	%rbx, %rdi
	callq	"core::fmt::formatter::Formatter::write_indented::<#dff84d7e35224229>"
	jmp	.LBB32_12
.LBB32_8:
	movq	%rsi, %r12
	movq	%rbx, %rdi
	movq	%rdx, %r13
	movq	%rdx, %rsi
	callq	"std_alloc::vec::Vec::grow_amortized::<#c9fd60d064fcd5bb>"
	movl	%eax, %ecx
	movb	$1, %al
	testb	%cl, %cl
	je	.LBB32_12
	movq	8(%rbx), %r14
	movq	16(%rbx), %r15
	movq	%r12, %rsi
	movq	%r13, %rdx
	jmp	.LBB32_10
.Lfunc_end32:
	.size	"core::fmt::formatter::Formatter::write_piece::<#647511b4db903f48>", .Lfunc_end32-"core::fmt::formatter::Formatter::write_piece::<#647511b4db903f48>"
	.cfi_endproc

	.section	".text.core::fmt::formatter::Formatter::write_piece::<#2a3da2e77bd6383e>","ax",@progbits
	.p2align	4
	.type	"core::fmt::formatter::Formatter::write_piece::<#2a3da2e77bd6383e>",@function
"core::fmt::formatter::Formatter::write_piece::<#2a3da2e77bd6383e>":
	.cfi_startproc
	pushq	%rbp
	.cfi_def_cfa_offset 16
	pushq	%r15
	.cfi_def_cfa_offset 24
	pushq	%r14
	.cfi_def_cfa_offset 32
	pushq	%r13
	.cfi_def_cfa_offset 40
	pushq	%r12
	.cfi_def_cfa_offset 48
	pushq	%rbx
	.cfi_def_cfa_offset 56
	subq	$104, %rsp
	.cfi_def_cfa_offset 160
	.cfi_offset %rbx, -56
	.cfi_offset %r12, -48
	.cfi_offset %r13, -40
	.cfi_offset %r14, -32
	.cfi_offset %r15, -24
	.cfi_offset %rbp, -16
	movq	%rdi, %rbx
	movl	$32, 24(%rdi)
	movq	$0, 28(%rdi)
	movl	$0, 36(%rdi)
	movq	$-1, 40(%rdi)
	movq	(%rsi), %rax
	movq	(%rax), %rcx
	movq	8(%rax), %rax
	movq	%rcx, 64(%rsp)
	movq	%rax, 56(%rsp)
	leaq	64(%rsp), %rax
	movq	%rax, 72(%rsp)
	leaq	.Lstatic.48(%rip), %rax
	movq	%rax, 80(%rsp)
	movq	$1, 88(%rsp)
	leaq	56(%rsp), %rax
	movq	%rax, 96(%rsp)
	movq	40(%rdi), %rax
	movq	%rax, 48(%rsp)
	movl	24(%rdi), %eax
	movl	%eax, 32(%rsp)
	movq	28(%rdi), %rax
	movq	%rax, 36(%rsp)
	movl	36(%rdi), %eax
	movl	%eax, 44(%rsp)
	movl	$32, 24(%rdi)
	movq	$0, 28(%rdi)
	movl	$0, 36(%rdi)
	movq	$-1, 40(%rdi)
	movq	%rcx, %rdi
	negq	%rdi
	cmovsq	%rcx, %rdi
	xorps	%xmm0, %xmm0
	movaps	%xmm0, (%rsp)
	movq	$0, 16(%rsp)
	movl	$24, %esi
	cmpq	$100, %rdi
	jb	.LBB33_1
	.p2align	4
.LBB33_2:
	movq	%rdi, %rax
	shrq	$2, %rax
	movabsq	$2951479051793528259, %rdx
	mulq	%rdx
	shrq	$2, %rdx
	imull	$100, %edx, %eax
	movl	%edi, %r8d
	subl	%eax, %r8d
	movzbl	%r8b, %eax
	imull	$205, %eax, %r8d
	shrl	$11, %r8d
	leal	(%r8,%r8), %r9d
	leal	(%r9,%r9,4), %r9d
	subb	%r9b, %al
	orb	$48, %al
	movb	%al, -1(%rsp,%rsi)
	orb	$48, %r8b
	movb	%r8b, -2(%rsp,%rsi)
	addq	$-2, %rsi
	cmpq	$9999, %rdi
	movq	%rdx, %rdi
	ja	.LBB33_2
	cmpq	$10, %rdx
	jb	.LBB33_5
.LBB33_4:
	movzbl	%dl, %eax
	imull	$205, %eax, %eax
	shrl	$11, %eax
	leal	(%rax,%rax), %edi
	leal	(%rdi,%rdi,4), %edi
	subb	%dil, %dl
	orb	$48, %dl
	movb	%dl, -1(%rsp,%rsi)
	orb	$48, %al
	movb	%al, -2(%rsp,%rsi)
	addq	$-2, %rsi
	jmp	.LBB33_6
.LBB33_1:
	movq	%rdi, %rdx
	cmpq	$10, %rdx
	jae	.LBB33_4
.LBB33_5:
	orb	$48, %dl
	movb	%dl, -1(%rsp,%rsi)
	decq	%rsi
.LBB33_6:
	leaq	24(%rbx), %r14
	leaq	-1(%rsi), %rax
	testq	%rcx, %rcx
	movb	$45, -1(%rsp,%rsi)
	cmovnsq	%rsi, %rax
	leaq	(%rsp,%rax), %rsi
	movl	$24, %edx
	subq	%rax, %rdx
	cmpq	$0, 48(%rbx)
	jne	.LBB33_12
	movq	8(%rbx), %r15
	movq	16(%rbx), %r12
	movq	%r12, %rax
	subq	%r15, %rax
	cmpq	%rax, %rdx
	ja	.LBB33_8
.LBB33_11:
	movq	(%rbx), %r13
	leaq	(%r15,%r13), %rdi
	addq	%rdx, %r15
	callq	memcpy@PLT
	movq	%r13, (%rbx)
	movq	%r15, 8(%rbx)
	movq	%r12, 16(%rbx)
.LBB33_13:
	leaq	28(%rbx), %rax
	movl	$32, 24(%rbx)
	movl	$0, 8(%rax)
	movq	$0, (%rax)
	movq	$-1, 40(%rbx)
	cmpq	$0, 48(%rbx)
	jne	.LBB33_18
	movq	8(%rbx), %rax
	movq	16(%rbx), %rcx
	cmpq	%rax, %rcx
	je	.LBB33_15
.LBB33_17:
	movq	(%rbx), %rdx
	movb	$58, (%rdx,%rax)
	incq	%rax
	movq	%rdx, (%rbx)
	movq	%rax, 8(%rbx)
	movq	%rcx, 16(%rbx)
.LBB33_19:
	leaq	96(%rsp), %rsi
	movq	%rbx, %rdi
	callq	"core::fmt::formatter::Formatter::write_piece::<#647511b4db903f48>"
.LBB33_20:
	movq	48(%rsp), %rcx
	movq	%rcx, 16(%r14)
	movaps	32(%rsp), %xmm0
	movups	%xmm0, (%r14)
	addq	$104, %rsp
	.cfi_def_cfa_offset 56
	popq	%rbx
	.cfi_def_cfa_offset 48
	popq	%r12
	.cfi_def_cfa_offset 40
	popq	%r13
	.cfi_def_cfa_offset 32
	popq	%r14
	.cfi_def_cfa_offset 24
	popq	%r15
	.cfi_def_cfa_offset 16
	popq	%rbp
	.cfi_def_cfa_offset 8
	retq
.LBB33_12:
	.cfi_def_cfa_offset 160
	movq	%rbx, %rdi
	callq	"core::fmt::formatter::Formatter::write_indented::<#dff84d7e35224229>"
	movl	%eax, %ecx
	movb	$1, %al
	testb	%cl, %cl
	jne	.LBB33_20
	jmp	.LBB33_13
.LBB33_8:
	movq	%rsi, %r13
	movq	%rbx, %rdi
	movq	%rdx, %rbp
	movq	%rdx, %rsi
	callq	"std_alloc::vec::Vec::grow_amortized::<#c9fd60d064fcd5bb>"
	testb	%al, %al
	je	.LBB33_9
	movq	8(%rbx), %r15
	movq	16(%rbx), %r12
	movq	%rbp, %rdx
	movq	%r13, %rsi
	jmp	.LBB33_11
.LBB33_18:
	leaq	.Lstatic.48(%rip), %rsi
	movl	$1, %edx
	movq	%rbx, %rdi
	callq	"core::fmt::formatter::Formatter::write_indented::<#dff84d7e35224229>"
	movl	%eax, %ecx
	movb	$1, %al
	testb	%cl, %cl
	jne	.LBB33_20
	jmp	.LBB33_19
.LBB33_15:
	movl	$1, %esi
	movq	%rbx, %rdi
	callq	"std_alloc::vec::Vec::grow_amortized::<#c9fd60d064fcd5bb>"
	movl	%eax, %ecx
	movb	$1, %al
	testb	%cl, %cl
	je	.LBB33_20
	movq	8(%rbx), %rax
	movq	16(%rbx), %rcx
	jmp	.LBB33_17
.LBB33_9:
	movb	$1, %al
	jmp	.LBB33_20
.Lfunc_end33:
	.size	"core::fmt::formatter::Formatter::write_piece::<#2a3da2e77bd6383e>", .Lfunc_end33-"core::fmt::formatter::Formatter::write_piece::<#2a3da2e77bd6383e>"
	.cfi_endproc

	.section	".text.ord_script::text::push_taken::<#b4f378d63f4443e6>","ax",@progbits
	.p2align	4
	.type	"ord_script::text::push_taken::<#b4f378d63f4443e6>",@function
"ord_script::text::push_taken::<#b4f378d63f4443e6>":
	.cfi_startproc
	pushq	%r15
	.cfi_def_cfa_offset 16
	pushq	%r14
	.cfi_def_cfa_offset 24
	pushq	%rbx
	.cfi_def_cfa_offset 32
	subq	$224, %rsp
	.cfi_def_cfa_offset 256
	.cfi_offset %rbx, -32
	.cfi_offset %r14, -24
	.cfi_offset %r15, -16
	movq	%rdi, %rbx
	movups	(%rdx), %xmm0
	movaps	%xmm0, 208(%rsp)
	movups	16(%rdx), %xmm0
	movaps	%xmm0, 192(%rsp)
	movb	%cl, 15(%rsp)
	leaq	.Lstatic.62(%rip), %rax
	cmpb	$2, %sil
	jne	.LBB34_11
	movq	%rax, 80(%rsp)
	movq	$8, 88(%rsp)
	leaq	208(%rsp), %rax
	movq	%rax, 96(%rsp)
	leaq	.Lstatic.47(%rip), %rax
	movq	%rax, 104(%rsp)
	movq	$1, 112(%rsp)
	leaq	192(%rsp), %rax
	movq	%rax, 120(%rsp)
	leaq	15(%rsp), %rax
	movq	%rax, 128(%rsp)
	leaq	.Lstatic.36(%rip), %rax
	movq	%rax, 136(%rsp)
	movq	$1, 144(%rsp)
	movq	8(%rbx), %r14
	movups	(%rbx), %xmm0
	movaps	%xmm0, 16(%rsp)
	movq	16(%rbx), %rax
	movq	%rax, 32(%rsp)
	xorps	%xmm0, %xmm0
	movaps	%xmm0, 64(%rsp)
	movl	$32, 40(%rsp)
	movq	$0, 44(%rsp)
	movl	$0, 52(%rsp)
	movq	$-1, 56(%rsp)
	movq	24(%rsp), %rcx
	movq	%rax, %rdx
	subq	%rcx, %rdx
	cmpq	$7, %rdx
	jbe	.LBB34_38
.LBB34_2:
	leaq	96(%rsp), %rsi
	movq	16(%rsp), %rdx
	movabsq	$2334102066234746226, %rdi
	movq	%rdi, (%rdx,%rcx)
	addq	$8, %rcx
	movq	%rcx, 24(%rsp)
	movq	%rax, 32(%rsp)
	leaq	16(%rsp), %rdi
	callq	"core::fmt::formatter::Formatter::write_piece::<#1c9fe02cd69f029b>"
	testb	%al, %al
	jne	.LBB34_7
	leaq	44(%rsp), %r15
	movl	$32, 40(%rsp)
	movl	$0, 8(%r15)
	movq	$0, (%r15)
	movq	$-1, 56(%rsp)
	cmpq	$0, 64(%rsp)
	jne	.LBB34_42
	movq	24(%rsp), %rax
	movq	32(%rsp), %rcx
	cmpq	%rax, %rcx
	je	.LBB34_44
.LBB34_5:
	movq	16(%rsp), %rdx
	movb	$32, (%rdx,%rax)
	incq	%rax
	movq	%rax, 24(%rsp)
	movq	%rcx, 32(%rsp)
.LBB34_6:
	leaq	120(%rsp), %rsi
	leaq	16(%rsp), %rdi
	callq	"core::fmt::formatter::Formatter::write_piece::<#2a3da2e77bd6383e>"
	testb	%al, %al
	je	.LBB34_28
.LBB34_7:
	movaps	16(%rsp), %xmm0
	movaps	%xmm0, 160(%rsp)
	movq	32(%rsp), %rax
	movq	%rax, 176(%rsp)
	movq	%rax, 16(%rbx)
	movups	%xmm0, (%rbx)
.LBB34_8:
	movq	8(%rbx), %rcx
	testq	%r14, %r14
	je	.LBB34_19
	cmpq	%rcx, %r14
	jne	.LBB34_16
	jmp	.LBB34_19
.LBB34_11:
	movq	%rax, 16(%rsp)
	movq	$8, 24(%rsp)
	leaq	192(%rsp), %rax
	movq	%rax, 32(%rsp)
	leaq	15(%rsp), %rax
	movq	%rax, 40(%rsp)
	leaq	.Lstatic.36(%rip), %rax
	movq	%rax, 48(%rsp)
	movq	$1, 56(%rsp)
	movq	8(%rbx), %r14
	movups	(%rbx), %xmm0
	movaps	%xmm0, 80(%rsp)
	movq	16(%rbx), %rax
	movq	%rax, 96(%rsp)
	xorps	%xmm0, %xmm0
	movaps	%xmm0, 128(%rsp)
	movl	$32, 104(%rsp)
	movq	$0, 108(%rsp)
	movl	$0, 116(%rsp)
	movq	$-1, 120(%rsp)
	movq	88(%rsp), %rcx
	movq	%rax, %rdx
	subq	%rcx, %rdx
	cmpq	$7, %rdx
	jbe	.LBB34_40
.LBB34_12:
	leaq	32(%rsp), %rsi
	movq	80(%rsp), %rdx
	movabsq	$2334102066234746226, %rdi
	movq	%rdi, (%rdx,%rcx)
	addq	$8, %rcx
	movq	%rcx, 88(%rsp)
	movq	%rax, 96(%rsp)
	leaq	80(%rsp), %rdi
	callq	"core::fmt::formatter::Formatter::write_piece::<#2a3da2e77bd6383e>"
	testb	%al, %al
	je	.LBB34_21
.LBB34_13:
	movaps	80(%rsp), %xmm0
	movaps	%xmm0, 160(%rsp)
	movq	96(%rsp), %rax
	movq	%rax, 176(%rsp)
	movq	%rax, 16(%rbx)
	movups	%xmm0, (%rbx)
.LBB34_14:
	movq	8(%rbx), %rcx
	testq	%r14, %r14
	je	.LBB34_19
	cmpq	%rcx, %r14
	je	.LBB34_19
.LBB34_16:
	movb	$1, %al
	cmpq	%r14, %rcx
	jb	.LBB34_37
	jbe	.LBB34_37
	movq	(%rbx), %rcx
	cmpb	$-65, (%rcx,%r14)
	jg	.LBB34_20
	jmp	.LBB34_37
.LBB34_19:
	movb	$1, %al
	cmpq	%r14, %rcx
	jbe	.LBB34_37
.LBB34_20:
	movq	%r14, 8(%rbx)
	movb	$1, %al
	jmp	.LBB34_37
.LBB34_21:
	leaq	108(%rsp), %r15
	cmpb	$1, 15(%rsp)
	jne	.LBB34_25
	movl	$32, 104(%rsp)
	movl	$0, 8(%r15)
	movq	$0, (%r15)
	movq	$-1, 120(%rsp)
	cmpq	$0, 128(%rsp)
	jne	.LBB34_48
	movq	88(%rsp), %rcx
	movq	96(%rsp), %rax
	movq	%rax, %rdx
	subq	%rcx, %rdx
	cmpq	$8, %rdx
	jbe	.LBB34_49
.LBB34_24:
	leaq	9(%rcx), %rdx
	addq	80(%rsp), %rcx
	leaq	.Lstatic.63(%rip), %rsi
	movq	%rcx, %rdi
	subq	%rsi, %rdi
	cmpq	$8, %rdi
	movabsq	$8028904877209317152, %rsi
	movq	%rsi, (%rcx)
	movb	$119, 8(%rcx)
	movq	%rdx, 88(%rsp)
	movq	%rax, 96(%rsp)
.LBB34_25:
	movl	$32, 104(%rsp)
	movl	$0, 8(%r15)
	movq	$0, (%r15)
	movq	$-1, 120(%rsp)
	cmpq	$0, 128(%rsp)
	jne	.LBB34_43
	movq	88(%rsp), %rcx
	movq	96(%rsp), %rax
	cmpq	%rcx, %rax
	je	.LBB34_46
.LBB34_27:
	movq	80(%rsp), %rdx
	movb	$10, (%rdx,%rcx)
	incq	%rcx
	movq	%rcx, 88(%rsp)
	movq	%rax, 176(%rsp)
	movaps	80(%rsp), %xmm0
	jmp	.LBB34_35
.LBB34_28:
	cmpb	$1, 15(%rsp)
	jne	.LBB34_32
	movl	$32, 40(%rsp)
	movl	$0, 8(%r15)
	movq	$0, (%r15)
	movq	$-1, 56(%rsp)
	cmpq	$0, 64(%rsp)
	jne	.LBB34_54
	movq	24(%rsp), %rcx
	movq	32(%rsp), %rax
	movq	%rax, %rdx
	subq	%rcx, %rdx
	cmpq	$8, %rdx
	jbe	.LBB34_55
.LBB34_31:
	leaq	9(%rcx), %rdx
	addq	16(%rsp), %rcx
	leaq	.Lstatic.63(%rip), %rsi
	movq	%rcx, %rdi
	subq	%rsi, %rdi
	cmpq	$8, %rdi
	movabsq	$8028904877209317152, %rsi
	movq	%rsi, (%rcx)
	movb	$119, 8(%rcx)
	movq	%rdx, 24(%rsp)
	movq	%rax, 32(%rsp)
.LBB34_32:
	movl	$32, 40(%rsp)
	movl	$0, 8(%r15)
	movq	$0, (%r15)
	movq	$-1, 56(%rsp)
	cmpq	$0, 64(%rsp)
	jne	.LBB34_51
	movq	24(%rsp), %rcx
	movq	32(%rsp), %rax
	cmpq	%rcx, %rax
	je	.LBB34_52
.LBB34_34:
	movq	16(%rsp), %rdx
	movb	$10, (%rdx,%rcx)
	incq	%rcx
	movq	%rcx, 24(%rsp)
	movq	%rax, 176(%rsp)
	movaps	16(%rsp), %xmm0
.LBB34_35:
	movaps	%xmm0, 160(%rsp)
	movq	%rax, 16(%rbx)
	movups	%xmm0, (%rbx)
.LBB34_36:
	xorl	%eax, %eax
.LBB34_37:
	addq	$224, %rsp
	.cfi_def_cfa_offset 32
	popq	%rbx
	.cfi_def_cfa_offset 24
	popq	%r14
	.cfi_def_cfa_offset 16
	popq	%r15
	.cfi_def_cfa_offset 8
	retq
.LBB34_38:
	.cfi_def_cfa_offset 256
	leaq	16(%rsp), %rdi
	movl	$8, %esi
	callq	"std_alloc::vec::Vec::grow_amortized::<#c9fd60d064fcd5bb>"
	testb	%al, %al
	je	.LBB34_7
	movq	24(%rsp), %rcx
	movq	32(%rsp), %rax
	jmp	.LBB34_2
.LBB34_40:
	leaq	80(%rsp), %rdi
	movl	$8, %esi
	callq	"std_alloc::vec::Vec::grow_amortized::<#c9fd60d064fcd5bb>"
	testb	%al, %al
	je	.LBB34_13
	movq	88(%rsp), %rcx
	movq	96(%rsp), %rax
	jmp	.LBB34_12
.LBB34_42:
	leaq	.Lstatic.47(%rip), %rsi
	leaq	16(%rsp), %rdi
	movl	$1, %edx
	callq	"core::fmt::formatter::Formatter::write_indented::<#dff84d7e35224229>"
	testb	%al, %al
	jne	.LBB34_7
	jmp	.LBB34_6
.LBB34_43:
	leaq	.Lstatic.36(%rip), %rsi
	leaq	80(%rsp), %rdi
	movl	$1, %edx
	callq	"core::fmt::formatter::Formatter::write_indented::<#dff84d7e35224229>"
	movq	96(%rsp), %rcx
	movq	%rcx, 176(%rsp)
	movaps	80(%rsp), %xmm0
	movaps	%xmm0, 160(%rsp)
	movq	%rcx, 16(%rbx)
	movups	%xmm0, (%rbx)
	testb	%al, %al
	jne	.LBB34_14
	jmp	.LBB34_36
.LBB34_44:
	leaq	16(%rsp), %rdi
	movl	$1, %esi
	callq	"std_alloc::vec::Vec::grow_amortized::<#c9fd60d064fcd5bb>"
	testb	%al, %al
	je	.LBB34_7
	movq	24(%rsp), %rax
	movq	32(%rsp), %rcx
	jmp	.LBB34_5
.LBB34_46:
	leaq	80(%rsp), %rdi
	movl	$1, %esi
	callq	"std_alloc::vec::Vec::grow_amortized::<#c9fd60d064fcd5bb>"
	testb	%al, %al
	je	.LBB34_13
	movq	88(%rsp), %rcx
	movq	96(%rsp), %rax
	jmp	.LBB34_27
.LBB34_48:
	leaq	.Lstatic.63(%rip), %rsi
	leaq	80(%rsp), %rdi
	movl	$9, %edx
	callq	"core::fmt::formatter::Formatter::write_indented::<#dff84d7e35224229>"
	testb	%al, %al
	jne	.LBB34_13
	jmp	.LBB34_25
.LBB34_49:
	leaq	80(%rsp), %rdi
	movl	$9, %esi
	callq	"std_alloc::vec::Vec::grow_amortized::<#c9fd60d064fcd5bb>"
	testb	%al, %al
	je	.LBB34_13
	movq	88(%rsp), %rcx
	movq	96(%rsp), %rax
	jmp	.LBB34_24
.LBB34_51:
	leaq	.Lstatic.36(%rip), %rsi
	leaq	16(%rsp), %rdi
	movl	$1, %edx
	callq	"core::fmt::formatter::Formatter::write_indented::<#dff84d7e35224229>"
	movq	32(%rsp), %rcx
	movq	%rcx, 176(%rsp)
	movaps	16(%rsp), %xmm0
	movaps	%xmm0, 160(%rsp)
	movq	%rcx, 16(%rbx)
	movups	%xmm0, (%rbx)
	testb	%al, %al
	jne	.LBB34_8
	jmp	.LBB34_36
.LBB34_52:
	leaq	16(%rsp), %rdi
	movl	$1, %esi
	callq	"std_alloc::vec::Vec::grow_amortized::<#c9fd60d064fcd5bb>"
	testb	%al, %al
	je	.LBB34_7
	movq	24(%rsp), %rcx
	movq	32(%rsp), %rax
	jmp	.LBB34_34
.LBB34_54:
	leaq	.Lstatic.63(%rip), %rsi
	leaq	16(%rsp), %rdi
	movl	$9, %edx
	callq	"core::fmt::formatter::Formatter::write_indented::<#dff84d7e35224229>"
	testb	%al, %al
	jne	.LBB34_7
	jmp	.LBB34_32
.LBB34_55:
	leaq	16(%rsp), %rdi
	movl	$9, %esi
	callq	"std_alloc::vec::Vec::grow_amortized::<#c9fd60d064fcd5bb>"
	testb	%al, %al
	je	.LBB34_7
	movq	24(%rsp), %rcx
	movq	32(%rsp), %rax
	jmp	.LBB34_31
.Lfunc_end34:
	.size	"ord_script::text::push_taken::<#b4f378d63f4443e6>", .Lfunc_end34-"ord_script::text::push_taken::<#b4f378d63f4443e6>"
	.cfi_endproc

	.section	".text.ord_script::text::push_now::<#b4f378d63f4443e6>","ax",@progbits
	.p2align	4
	.type	"ord_script::text::push_now::<#b4f378d63f4443e6>",@function
"ord_script::text::push_now::<#b4f378d63f4443e6>":
	.cfi_startproc
	pushq	%r15
	.cfi_def_cfa_offset 16
	pushq	%r14
	.cfi_def_cfa_offset 24
	pushq	%rbx
	.cfi_def_cfa_offset 32
	subq	$176, %rsp
	.cfi_def_cfa_offset 208
	.cfi_offset %rbx, -32
	.cfi_offset %r14, -24
	.cfi_offset %r15, -16
	movq	%rdi, %rbx
	movl	%esi, 112(%rsp)
	movl	$0, 116(%rsp)
	movq	%rdx, 120(%rsp)
	movb	%cl, 15(%rsp)
	leaq	.Lstatic.64(%rip), %rax
	movq	%rax, 128(%rsp)
	movq	$4, 136(%rsp)
	leaq	112(%rsp), %rax
	movq	%rax, 144(%rsp)
	leaq	15(%rsp), %rax
	movq	%rax, 152(%rsp)
	leaq	.Lstatic.36(%rip), %rax
	movq	%rax, 160(%rsp)
	movq	$1, 168(%rsp)
	movq	8(%rdi), %r14
	movups	(%rdi), %xmm0
	movaps	%xmm0, 16(%rsp)
	movq	16(%rdi), %rax
	movq	%rax, 32(%rsp)
	xorps	%xmm0, %xmm0
	movaps	%xmm0, 64(%rsp)
	movl	$32, 40(%rsp)
	movq	$0, 44(%rsp)
	movl	$0, 52(%rsp)
	movq	$-1, 56(%rsp)
	movq	24(%rsp), %rcx
	movq	%rax, %rdx
	subq	%rcx, %rdx
	cmpq	$3, %rdx
	jbe	.LBB35_1
.LBB35_3:
	leaq	144(%rsp), %rsi
	movq	16(%rsp), %rdx
	movl	$544698222, (%rdx,%rcx)
	addq	$4, %rcx
	movq	%rcx, 24(%rsp)
	movq	%rax, 32(%rsp)
	leaq	16(%rsp), %rdi
	callq	"core::fmt::formatter::Formatter::write_piece::<#1c9fe02cd69f029b>"
	testb	%al, %al
	je	.LBB35_4
.LBB35_18:
	movaps	16(%rsp), %xmm0
	movaps	%xmm0, 80(%rsp)
	movq	32(%rsp), %rax
	movq	%rax, 96(%rsp)
	movq	%rax, 16(%rbx)
	movups	%xmm0, (%rbx)
.LBB35_19:
	movq	8(%rbx), %rcx
	testq	%r14, %r14
	je	.LBB35_24
	cmpq	%rcx, %r14
	je	.LBB35_24
	movb	$1, %al
	cmpq	%r14, %rcx
	jb	.LBB35_26
	jbe	.LBB35_26
	movq	(%rbx), %rcx
	cmpb	$-65, (%rcx,%r14)
	jg	.LBB35_25
	jmp	.LBB35_26
.LBB35_4:
	leaq	44(%rsp), %r15
	cmpb	$1, 15(%rsp)
	jne	.LBB35_11
	movl	$32, 40(%rsp)
	movl	$0, 8(%r15)
	movq	$0, (%r15)
	movq	$-1, 56(%rsp)
	cmpq	$0, 64(%rsp)
	jne	.LBB35_10
	movq	24(%rsp), %rcx
	movq	32(%rsp), %rax
	movq	%rax, %rdx
	subq	%rcx, %rdx
	cmpq	$8, %rdx
	jbe	.LBB35_7
.LBB35_9:
	leaq	9(%rcx), %rdx
	addq	16(%rsp), %rcx
	leaq	.Lstatic.63(%rip), %rsi
	movq	%rcx, %rdi
	subq	%rsi, %rdi
	cmpq	$8, %rdi
	movabsq	$8028904877209317152, %rsi
	movq	%rsi, (%rcx)
	movb	$119, 8(%rcx)
	movq	%rdx, 24(%rsp)
	movq	%rax, 32(%rsp)
.LBB35_11:
	movl	$32, 40(%rsp)
	movl	$0, 8(%r15)
	movq	$0, (%r15)
	movq	$-1, 56(%rsp)
	cmpq	$0, 64(%rsp)
	jne	.LBB35_16
	movq	24(%rsp), %rcx
	movq	32(%rsp), %rax
	cmpq	%rcx, %rax
	je	.LBB35_13
.LBB35_15:
	movq	16(%rsp), %rdx
	movb	$10, (%rdx,%rcx)
	incq	%rcx
	movq	%rcx, 24(%rsp)
	movq	%rax, 96(%rsp)
	movaps	16(%rsp), %xmm0
	movaps	%xmm0, 80(%rsp)
	movq	%rax, 16(%rbx)
	movups	%xmm0, (%rbx)
	xorl	%eax, %eax
	jmp	.LBB35_26
.LBB35_24:
	movb	$1, %al
	cmpq	%r14, %rcx
	jbe	.LBB35_26
.LBB35_25:
	movq	%r14, 8(%rbx)
	movb	$1, %al
.LBB35_26:
	addq	$176, %rsp
	.cfi_def_cfa_offset 32
	popq	%rbx
	.cfi_def_cfa_offset 24
	popq	%r14
	.cfi_def_cfa_offset 16
	popq	%r15
	.cfi_def_cfa_offset 8
	retq
.LBB35_1:
	.cfi_def_cfa_offset 208
	leaq	16(%rsp), %rdi
	movl	$4, %esi
	callq	"std_alloc::vec::Vec::grow_amortized::<#c9fd60d064fcd5bb>"
	testb	%al, %al
	je	.LBB35_18
	movq	24(%rsp), %rcx
	movq	32(%rsp), %rax
	jmp	.LBB35_3
.LBB35_16:
	leaq	.Lstatic.36(%rip), %rsi
	leaq	16(%rsp), %rdi
	movl	$1, %edx
	callq	"core::fmt::formatter::Formatter::write_indented::<#dff84d7e35224229>"
	movq	32(%rsp), %rcx
	movq	%rcx, 96(%rsp)
	movaps	16(%rsp), %xmm0
	movaps	%xmm0, 80(%rsp)
	movq	%rcx, 16(%rbx)
	movups	%xmm0, (%rbx)
	testb	%al, %al
	jne	.LBB35_19
	xorl	%eax, %eax
	jmp	.LBB35_26
.LBB35_13:
	leaq	16(%rsp), %rdi
	movl	$1, %esi
	callq	"std_alloc::vec::Vec::grow_amortized::<#c9fd60d064fcd5bb>"
	testb	%al, %al
	je	.LBB35_18
	movq	24(%rsp), %rcx
	movq	32(%rsp), %rax
	jmp	.LBB35_15
.LBB35_10:
	leaq	.Lstatic.63(%rip), %rsi
	leaq	16(%rsp), %rdi
	movl	$9, %edx
	callq	"core::fmt::formatter::Formatter::write_indented::<#dff84d7e35224229>"
	testb	%al, %al
	jne	.LBB35_18
	jmp	.LBB35_11
.LBB35_7:
	leaq	16(%rsp), %rdi
	movl	$9, %esi
	callq	"std_alloc::vec::Vec::grow_amortized::<#c9fd60d064fcd5bb>"
	testb	%al, %al
	je	.LBB35_18
	movq	24(%rsp), %rcx
	movq	32(%rsp), %rax
	jmp	.LBB35_9
.Lfunc_end35:
	.size	"ord_script::text::push_now::<#b4f378d63f4443e6>", .Lfunc_end35-"ord_script::text::push_now::<#b4f378d63f4443e6>"
	.cfi_endproc

	.section	".text.ord_script::text::push_optional_pointer::<#b4f378d63f4443e6>","ax",@progbits
	.p2align	4
	.type	"ord_script::text::push_optional_pointer::<#b4f378d63f4443e6>",@function
"ord_script::text::push_optional_pointer::<#b4f378d63f4443e6>":
	.cfi_startproc
	pushq	%r15
	.cfi_def_cfa_offset 16
	pushq	%r14
	.cfi_def_cfa_offset 24
	pushq	%rbx
	.cfi_def_cfa_offset 32
	subq	$160, %rsp
	.cfi_def_cfa_offset 192
	.cfi_offset %rbx, -32
	.cfi_offset %r14, -24
	.cfi_offset %r15, -16
	movq	%rdi, %rbx
	cmpb	$1, (%rsi)
	jne	.LBB36_4
	movups	8(%rsi), %xmm0
	movaps	%xmm0, 144(%rsp)
	leaq	.Lstatic.67(%rip), %r15
	movq	%r15, 96(%rsp)
	movq	$3, 104(%rsp)
	leaq	144(%rsp), %rax
	movq	%rax, 112(%rsp)
	leaq	.Lstatic.36(%rip), %rax
	movq	%rax, 120(%rsp)
	movq	$1, 128(%rsp)
	movq	8(%rbx), %r14
	movups	(%rbx), %xmm0
	movaps	%xmm0, (%rsp)
	movq	16(%rbx), %rax
	movq	%rax, 16(%rsp)
	xorps	%xmm0, %xmm0
	movaps	%xmm0, 48(%rsp)
	movl	$32, 24(%rsp)
	movq	$0, 28(%rsp)
	movl	$0, 36(%rsp)
	movq	$-1, 40(%rsp)
	movq	8(%rsp), %rcx
	movq	%rax, %rdx
	subq	%rcx, %rdx
	cmpq	$2, %rdx
	jbe	.LBB36_23
.LBB36_2:
	leaq	3(%rcx), %rdx
	addq	(%rsp), %rcx
	leaq	112(%rsp), %rsi
	movq	%rcx, %rdi
	subq	%r15, %rdi
	cmpq	$2, %rdi
	ja	.LBB36_7
	movw	$29793, (%rcx)
	movb	$32, 2(%rcx)
	jmp	.LBB36_8
.LBB36_4:
	movq	8(%rbx), %r14
	movups	(%rbx), %xmm0
	movaps	%xmm0, (%rsp)
	movq	16(%rbx), %rax
	movq	%rax, 16(%rsp)
	xorps	%xmm0, %xmm0
	movaps	%xmm0, 48(%rsp)
	movl	$32, 24(%rsp)
	movq	$0, 28(%rsp)
	movl	$0, 36(%rsp)
	movq	$-1, 40(%rsp)
	movq	8(%rsp), %rcx
	movq	%rax, %rdx
	subq	%rcx, %rdx
	cmpq	$4, %rdx
	jbe	.LBB36_25
.LBB36_5:
	leaq	5(%rcx), %rdx
	addq	(%rsp), %rcx
	leaq	.Lstatic.55(%rip), %rsi
	movq	%rcx, %rdi
	subq	%rsi, %rdi
	cmpq	$4, %rdi
	ja	.LBB36_15
	movl	$1701736302, (%rcx)
	movb	$10, 4(%rcx)
	jmp	.LBB36_16
.LBB36_7:
	movb	$32, 2(%rcx)
	movw	$29793, (%rcx)
.LBB36_8:
	movq	%rdx, 8(%rsp)
	movq	%rax, 16(%rsp)
	movq	%rsp, %rdi
	callq	"core::fmt::formatter::Formatter::write_piece::<#1c9fe02cd69f029b>"
	testb	%al, %al
	je	.LBB36_17
.LBB36_9:
	movaps	(%rsp), %xmm0
	movaps	%xmm0, 64(%rsp)
	movq	16(%rsp), %rax
	movq	%rax, 80(%rsp)
	movq	%rax, 16(%rbx)
	movups	%xmm0, (%rbx)
.LBB36_10:
	movq	8(%rbx), %rcx
	testq	%r14, %r14
	je	.LBB36_30
	cmpq	%rcx, %r14
	je	.LBB36_30
.LBB36_12:
	movb	$1, %al
	cmpq	%r14, %rcx
	jb	.LBB36_22
	jbe	.LBB36_22
	movq	(%rbx), %rcx
	cmpb	$-65, (%rcx,%r14)
	jg	.LBB36_31
	jmp	.LBB36_22
.LBB36_15:
	movb	$10, 4(%rcx)
	movl	$1701736302, (%rcx)
.LBB36_16:
	movq	%rdx, 8(%rsp)
	movq	%rax, 112(%rsp)
	movaps	(%rsp), %xmm0
	movaps	%xmm0, 96(%rsp)
	jmp	.LBB36_20
.LBB36_17:
	leaq	28(%rsp), %rax
	movl	$32, 24(%rsp)
	movl	$0, 8(%rax)
	movq	$0, (%rax)
	movq	$-1, 40(%rsp)
	cmpq	$0, 48(%rsp)
	jne	.LBB36_32
	movq	8(%rsp), %rcx
	movq	16(%rsp), %rax
	cmpq	%rcx, %rax
	je	.LBB36_33
.LBB36_19:
	movq	(%rsp), %rdx
	movb	$10, (%rdx,%rcx)
	incq	%rcx
	movq	%rcx, 8(%rsp)
	movq	%rax, 80(%rsp)
	movaps	(%rsp), %xmm0
	movaps	%xmm0, 64(%rsp)
.LBB36_20:
	movq	%rax, 16(%rbx)
	movups	%xmm0, (%rbx)
.LBB36_21:
	xorl	%eax, %eax
.LBB36_22:
	addq	$160, %rsp
	.cfi_def_cfa_offset 32
	popq	%rbx
	.cfi_def_cfa_offset 24
	popq	%r14
	.cfi_def_cfa_offset 16
	popq	%r15
	.cfi_def_cfa_offset 8
	retq
.LBB36_23:
	.cfi_def_cfa_offset 192
	movq	%rsp, %rdi
	movl	$3, %esi
	callq	"std_alloc::vec::Vec::grow_amortized::<#c9fd60d064fcd5bb>"
	testb	%al, %al
	je	.LBB36_9
	movq	8(%rsp), %rcx
	movq	16(%rsp), %rax
	jmp	.LBB36_2
.LBB36_25:
	movq	%rsp, %rdi
	movl	$5, %esi
	callq	"std_alloc::vec::Vec::grow_amortized::<#c9fd60d064fcd5bb>"
	testb	%al, %al
	je	.LBB36_27
	movq	8(%rsp), %rcx
	movq	16(%rsp), %rax
	jmp	.LBB36_5
.LBB36_27:
	movq	16(%rsp), %rax
	movq	%rax, 112(%rsp)
	movaps	(%rsp), %xmm0
	movaps	%xmm0, 96(%rsp)
	movq	%rax, 16(%rbx)
	movups	%xmm0, (%rbx)
	movq	8(%rbx), %rcx
	testq	%r14, %r14
	je	.LBB36_30
	cmpq	%rcx, %r14
	jne	.LBB36_12
.LBB36_30:
	movb	$1, %al
	cmpq	%r14, %rcx
	jbe	.LBB36_22
.LBB36_31:
	movq	%r14, 8(%rbx)
	movb	$1, %al
	jmp	.LBB36_22
.LBB36_32:
	leaq	.Lstatic.36(%rip), %rsi
	movq	%rsp, %rdi
	movl	$1, %edx
	callq	"core::fmt::formatter::Formatter::write_indented::<#dff84d7e35224229>"
	movq	16(%rsp), %rcx
	movq	%rcx, 80(%rsp)
	movaps	(%rsp), %xmm0
	movaps	%xmm0, 64(%rsp)
	movq	%rcx, 16(%rbx)
	movups	%xmm0, (%rbx)
	testb	%al, %al
	jne	.LBB36_10
	jmp	.LBB36_21
.LBB36_33:
	movq	%rsp, %rdi
	movl	$1, %esi
	callq	"std_alloc::vec::Vec::grow_amortized::<#c9fd60d064fcd5bb>"
	testb	%al, %al
	je	.LBB36_9
	movq	8(%rsp), %rcx
	movq	16(%rsp), %rax
	jmp	.LBB36_19
.Lfunc_end36:
	.size	"ord_script::text::push_optional_pointer::<#b4f378d63f4443e6>", .Lfunc_end36-"ord_script::text::push_optional_pointer::<#b4f378d63f4443e6>"
	.cfi_endproc

	.section	".text.core::fmt::formatter::Formatter::write_piece::<#cce49df0dc9cbad9>","ax",@progbits
	.p2align	4
	.type	"core::fmt::formatter::Formatter::write_piece::<#cce49df0dc9cbad9>",@function
"core::fmt::formatter::Formatter::write_piece::<#cce49df0dc9cbad9>":
	.cfi_startproc
	pushq	%r14
	.cfi_def_cfa_offset 16
	pushq	%rbx
	.cfi_def_cfa_offset 24
	subq	$56, %rsp
	.cfi_def_cfa_offset 80
	.cfi_offset %rbx, -24
	.cfi_offset %r14, -16
	leaq	24(%rdi), %rbx
	movl	$32, 24(%rdi)
	leaq	28(%rdi), %rax
	movq	$0, 28(%rdi)
	movl	$0, 36(%rdi)
	movq	$-1, 40(%rdi)
	cmpb	$1, (%rsi)
	jne	.LBB37_2
	movl	4(%rsi), %ecx
	movl	%ecx, 12(%rsp)
	leaq	12(%rsp), %rcx
	movq	%rcx, 48(%rsp)
	movq	16(%rbx), %rcx
	movq	%rcx, 32(%rsp)
	movups	(%rbx), %xmm0
	movaps	%xmm0, 16(%rsp)
	movl	$32, 24(%rdi)
	movl	$0, 8(%rax)
	movq	$0, (%rax)
	movq	$-1, 40(%rdi)
	leaq	48(%rsp), %rsi
	callq	"core::fmt::formatter::Formatter::write_piece::<#97d08e6fd7ed8cca>"
	movaps	16(%rsp), %xmm0
	movups	%xmm0, (%rbx)
	movq	32(%rsp), %rcx
	movq	%rcx, 16(%rbx)
	addq	$56, %rsp
	.cfi_def_cfa_offset 24
	popq	%rbx
	.cfi_def_cfa_offset 16
	popq	%r14
	.cfi_def_cfa_offset 8
	retq
.LBB37_2:
	.cfi_def_cfa_offset 80
	movq	16(%rbx), %rcx
	movq	%rcx, 32(%rsp)
	movups	(%rbx), %xmm0
	movaps	%xmm0, 16(%rsp)
	movl	$32, 24(%rdi)
	movl	$0, 8(%rax)
	movq	$0, (%rax)
	movq	$-1, 40(%rdi)
	cmpq	$0, 48(%rdi)
	jne	.LBB37_7
	movq	8(%rdi), %rax
	movq	16(%rdi), %rcx
	cmpq	%rax, %rcx
	je	.LBB37_8
.LBB37_4:
	movq	(%rdi), %rdx
	movb	$45, (%rdx,%rax)
	incq	%rax
	movq	%rdx, (%rdi)
	movq	%rax, 8(%rdi)
	movq	%rcx, 16(%rdi)
	xorl	%eax, %eax
.LBB37_5:
	movq	32(%rsp), %rcx
	movq	%rcx, 16(%rbx)
	movaps	16(%rsp), %xmm0
	movups	%xmm0, (%rbx)
	addq	$56, %rsp
	.cfi_def_cfa_offset 24
	popq	%rbx
	.cfi_def_cfa_offset 16
	popq	%r14
	.cfi_def_cfa_offset 8
	retq
.LBB37_7:
	.cfi_def_cfa_offset 80
	leaq	.Lstatic.45(%rip), %rsi
	movl	$1, %edx
	callq	"core::fmt::formatter::Formatter::write_indented::<#dff84d7e35224229>"
	jmp	.LBB37_5
.LBB37_8:
	movl	$1, %esi
	movq	%rdi, %r14
	callq	"std_alloc::vec::Vec::grow_amortized::<#c9fd60d064fcd5bb>"
	movl	%eax, %ecx
	movb	$1, %al
	testb	%cl, %cl
	je	.LBB37_5
	movq	%r14, %rdi
	movq	8(%r14), %rax
	movq	16(%r14), %rcx
	jmp	.LBB37_4
.Lfunc_end37:
	.size	"core::fmt::formatter::Formatter::write_piece::<#cce49df0dc9cbad9>", .Lfunc_end37-"core::fmt::formatter::Formatter::write_piece::<#cce49df0dc9cbad9>"
	.cfi_endproc

	.section	".text.core::fmt::formatter::Formatter::write_piece::<#3f49d50be5e66dfd>","ax",@progbits
	.p2align	4
	.type	"core::fmt::formatter::Formatter::write_piece::<#3f49d50be5e66dfd>",@function
"core::fmt::formatter::Formatter::write_piece::<#3f49d50be5e66dfd>":
	.cfi_startproc
	pushq	%r15
	.cfi_def_cfa_offset 16
	pushq	%r14
	.cfi_def_cfa_offset 24
	pushq	%r13
	.cfi_def_cfa_offset 32
	pushq	%r12
	.cfi_def_cfa_offset 40
	pushq	%rbx
	.cfi_def_cfa_offset 48
	subq	$32, %rsp
	.cfi_def_cfa_offset 80
	.cfi_offset %rbx, -48
	.cfi_offset %r12, -40
	.cfi_offset %r13, -32
	.cfi_offset %r14, -24
	.cfi_offset %r15, -16
	movq	%rdi, %rbx
	movl	$32, 24(%rdi)
	movq	$0, 28(%rdi)
	movl	$0, 36(%rdi)
	movq	$-1, 40(%rdi)
	movq	(%rsi), %rax
	movq	(%rax), %rsi
	xorps	%xmm0, %xmm0
	movaps	%xmm0, (%rsp)
	movq	$0, 16(%rsp)
	movl	$24, %ecx
	cmpq	$100, %rsi
	jb	.LBB38_1
	.p2align	4
.LBB38_2:
	movq	%rsi, %rax
	shrq	$2, %rax
	movabsq	$2951479051793528259, %rdx
	mulq	%rdx
	shrq	$2, %rdx
	imull	$100, %edx, %eax
	movl	%esi, %edi
	subl	%eax, %edi
	movzbl	%dil, %eax
	imull	$205, %eax, %edi
	shrl	$11, %edi
	leal	(%rdi,%rdi), %r8d
	leal	(%r8,%r8,4), %r8d
	subb	%r8b, %al
	orb	$48, %al
	movb	%al, -1(%rsp,%rcx)
	orb	$48, %dil
	movb	%dil, -2(%rsp,%rcx)
	addq	$-2, %rcx
	cmpq	$9999, %rsi
	movq	%rdx, %rsi
	ja	.LBB38_2
	cmpq	$10, %rdx
	jb	.LBB38_5
.LBB38_4:
	movzbl	%dl, %eax
	imull	$205, %eax, %eax
	shrl	$11, %eax
	leal	(%rax,%rax), %esi
	leal	(%rsi,%rsi,4), %esi
	subb	%sil, %dl
	orb	$48, %dl
	movb	%dl, -1(%rsp,%rcx)
	orb	$48, %al
	movb	%al, -2(%rsp,%rcx)
	addq	$-2, %rcx
	jmp	.LBB38_6
.LBB38_1:
	movq	%rsi, %rdx
	cmpq	$10, %rdx
	jae	.LBB38_4
.LBB38_5:
	orb	$48, %dl
	movb	%dl, -1(%rsp,%rcx)
	decq	%rcx
.LBB38_6:
	leaq	(%rsp,%rcx), %rsi
	movb	$45, -1(%rsp,%rcx)
	movl	$24, %edx
	subq	%rcx, %rdx
	cmpq	$0, 48(%rbx)
	jne	.LBB38_11
	movq	8(%rbx), %r14
	movq	16(%rbx), %r15
	movq	%r15, %rax
	subq	%r14, %rax
	cmpq	%rax, %rdx
	ja	.LBB38_8
.LBB38_10:
	movq	(%rbx), %r12
	leaq	(%r12,%r14), %rdi
	addq	%rdx, %r14
	callq	memcpy@PLT
	movq	%r12, (%rbx)
	movq	%r14, 8(%rbx)
	movq	%r15, 16(%rbx)
	xorl	%eax, %eax
.LBB38_12:
	addq	$32, %rsp
	.cfi_def_cfa_offset 48
	popq	%rbx
	.cfi_def_cfa_offset 40
	popq	%r12
	.cfi_def_cfa_offset 32
	popq	%r13
	.cfi_def_cfa_offset 24
	popq	%r14
	.cfi_def_cfa_offset 16
	popq	%r15
	.cfi_def_cfa_offset 8
	retq
.LBB38_11:
	.cfi_def_cfa_offset 80
	movq	%rbx, %rdi
	callq	"core::fmt::formatter::Formatter::write_indented::<#dff84d7e35224229>"
	jmp	.LBB38_12
.LBB38_8:
	movq	%rsi, %r12
	movq	%rbx, %rdi
	movq	%rdx, %r13
	movq	%rdx, %rsi
	callq	"std_alloc::vec::Vec::grow_amortized::<#c9fd60d064fcd5bb>"
	movl	%eax, %ecx
	movb	$1, %al
	testb	%cl, %cl
	je	.LBB38_12
	movq	8(%rbx), %r14
	movq	16(%rbx), %r15
	movq	%r12, %rsi
	movq	%r13, %rdx
	jmp	.LBB38_10
.Lfunc_end38:
	.size	"core::fmt::formatter::Formatter::write_piece::<#3f49d50be5e66dfd>", .Lfunc_end38-"core::fmt::formatter::Formatter::write_piece::<#3f49d50be5e66dfd>"
	.cfi_endproc

	.section	".text.std_alloc::vec::Vec::drop::<#8fb41e74b78bb1cf>","ax",@progbits
	.p2align	4
	.type	"std_alloc::vec::Vec::drop::<#8fb41e74b78bb1cf>",@function
"std_alloc::vec::Vec::drop::<#8fb41e74b78bb1cf>":
	.cfi_startproc
	pushq	%r15
	.cfi_def_cfa_offset 16
	pushq	%r14
	.cfi_def_cfa_offset 24
	pushq	%r12
	.cfi_def_cfa_offset 32
	pushq	%rbx
	.cfi_def_cfa_offset 40
	pushq	%rax
	.cfi_def_cfa_offset 48
	.cfi_offset %rbx, -40
	.cfi_offset %r12, -32
	.cfi_offset %r14, -24
	.cfi_offset %r15, -16
	movq	(%rdi), %rbx
	movq	8(%rdi), %r15
	movq	16(%rdi), %r14
	testq	%r15, %r15
	je	.LBB39_6
	movq	%rbx, %r12
	jmp	.LBB39_2
	.p2align	4
.LBB39_5:
	addq	$64, %r12
	decq	%r15
	je	.LBB39_6
.LBB39_2:
	movzbl	(%r12), %ecx
	movq	8(%r12), %rdi
	movq	24(%r12), %rax
	movl	$124927, %edx
	btl	%ecx, %edx
	jb	.LBB39_5
	cmpl	$11, %ecx
	testq	%rax, %rax
	je	.LBB39_5
	callq	rattle_dealloc@PLT
	jmp	.LBB39_5
.LBB39_6:
	testq	%r14, %r14
	je	.LBB39_7
	movq	%rbx, %rdi
	addq	$8, %rsp
	.cfi_def_cfa_offset 40
	popq	%rbx
	.cfi_def_cfa_offset 32
	popq	%r12
	.cfi_def_cfa_offset 24
	popq	%r14
	.cfi_def_cfa_offset 16
	popq	%r15
	.cfi_def_cfa_offset 8
	jmp	rattle_dealloc@PLT
.LBB39_7:
	.cfi_def_cfa_offset 48
	addq	$8, %rsp
	.cfi_def_cfa_offset 40
	popq	%rbx
	.cfi_def_cfa_offset 32
	popq	%r12
	.cfi_def_cfa_offset 24
	popq	%r14
	.cfi_def_cfa_offset 16
	popq	%r15
	.cfi_def_cfa_offset 8
	retq
.Lfunc_end39:
	.size	"std_alloc::vec::Vec::drop::<#8fb41e74b78bb1cf>", .Lfunc_end39-"std_alloc::vec::Vec::drop::<#8fb41e74b78bb1cf>"
	.cfi_endproc

	.section	".text.unlikely.std_alloc::vec::deque::VecDeque::grow::<#6bcf362cad121e8b>","ax",@progbits
	.p2align	4
	.type	"std_alloc::vec::deque::VecDeque::grow::<#6bcf362cad121e8b>",@function
"std_alloc::vec::deque::VecDeque::grow::<#6bcf362cad121e8b>":
	.cfi_startproc
	movq	%rsi, %rcx
	movq	8(%rdi), %rsi
	movq	16(%rdi), %rdx
	movq	%rdx, %r8
	subq	%rsi, %r8
	movb	$1, %al
	cmpq	%r8, %rcx
	jbe	.LBB40_76
	pushq	%rbp
	.cfi_def_cfa_offset 16
	pushq	%r15
	.cfi_def_cfa_offset 24
	pushq	%r14
	.cfi_def_cfa_offset 32
	pushq	%r13
	.cfi_def_cfa_offset 40
	pushq	%r12
	.cfi_def_cfa_offset 48
	pushq	%rbx
	.cfi_def_cfa_offset 56
	subq	$40, %rsp
	.cfi_def_cfa_offset 96
	.cfi_offset %rbx, -56
	.cfi_offset %r12, -48
	.cfi_offset %r13, -40
	.cfi_offset %r14, -32
	.cfi_offset %r15, -24
	.cfi_offset %rbp, -16
	leaq	24(%rdi), %r12
	cmpq	$0, 24(%rdi)
	je	.LBB40_18
	addq	%rsi, %rcx
	jb	.LBB40_3
	cmpq	$9, %rcx
	movl	$8, %ebx
	cmovaeq	%rcx, %rbx
	movq	%rsi, %rcx
	shrq	$62, %rcx
	leaq	(%rsi,%rsi), %rax
	cmpq	%rax, %rbx
	cmovaq	%rbx, %rax
	testq	%rcx, %rcx
	cmoveq	%rax, %rbx
	cmpq	%rsi, %rdx
	jne	.LBB40_6
	movq	%rbx, %rcx
	subq	%rsi, %rcx
	cmpq	%rcx, 32(%rdi)
	jbe	.LBB40_13
.LBB40_6:
	testq	%rbx, %rbx
	js	.LBB40_3
	movq	%rdi, %r13
	movl	$1, %esi
	movq	%rbx, %rdi
	callq	rattle_alloc@PLT
	testb	$1, %al
	je	.LBB40_3
	movq	%rdx, %r14
	movq	(%r13), %rdx
	movq	8(%r13), %rbp
	movq	32(%r13), %rcx
	movq	%rbp, %r15
	movq	%rcx, 8(%rsp)
	subq	%rcx, %r15
	movq	24(%r13), %rdi
	leaq	(%rdx,%rdi), %rsi
	movq	%r14, %rcx
	subq	%rsi, %rcx
	cmpq	%r15, %rcx
	jae	.LBB40_19
	movq	%r13, %rax
	cmpq	$4, %r15
	jb	.LBB40_11
	cmpq	$32, %rcx
	jae	.LBB40_26
.LBB40_11:
	xorl	%ecx, %ecx
	jmp	.LBB40_51
.LBB40_13:
	testq	%rbx, %rbx
	js	.LBB40_3
	testq	%rsi, %rsi
	je	.LBB40_21
	movq	%rdi, %r14
	movq	(%rdi), %rdi
	movl	$1, %ecx
	movq	%rbx, %rdx
	callq	rattle_realloc@PLT
	testb	$1, %al
	je	.LBB40_3
.LBB40_22:
	movq	%r14, %rsi
	movq	8(%r14), %r8
	movq	32(%r14), %rcx
	leaq	(%rdx,%r8), %rdi
	cmpq	%rcx, %r8
	jae	.LBB40_25
	cmpq	$4, %rcx
	setb	%al
	cmpq	$32, %r8
	setb	%r9b
	orb	%al, %r9b
	movb	$1, %al
	je	.LBB40_29
	xorl	%r9d, %r9d
	jmp	.LBB40_44
.LBB40_18:
	movq	(%rdi), %rax
	movq	%rax, 16(%rsp)
	movq	%rsi, 24(%rsp)
	movq	%rdx, 32(%rsp)
	leaq	16(%rsp), %rax
	movq	%rdi, %rbx
	movq	%rax, %rdi
	movq	%rcx, %rsi
	callq	"std_alloc::vec::Vec::grow_amortized::<#6bcf362cad121e8b>"
	movq	16(%rsp), %rcx
	movups	24(%rsp), %xmm0
	movq	%rcx, (%rbx)
	movups	%xmm0, 8(%rbx)
	xorps	%xmm0, %xmm0
	movups	%xmm0, (%r12)
	jmp	.LBB40_75
.LBB40_19:
	movq	%r14, %rdi
	movq	%r15, %rdx
	callq	memmove@PLT
	movq	%r13, %rax
	jmp	.LBB40_53
.LBB40_21:
	movq	%rdi, %r14
	movl	$1, %esi
	movq	%rax, %rdi
	callq	rattle_alloc@PLT
	testb	$1, %al
	jne	.LBB40_22
.LBB40_3:
	xorl	%eax, %eax
.LBB40_75:
	addq	$40, %rsp
	.cfi_def_cfa_offset 56
	popq	%rbx
	.cfi_def_cfa_offset 48
	popq	%r12
	.cfi_def_cfa_offset 40
	popq	%r13
	.cfi_def_cfa_offset 32
	popq	%r14
	.cfi_def_cfa_offset 24
	popq	%r15
	.cfi_def_cfa_offset 16
	popq	%rbp
	.cfi_def_cfa_offset 8
	.cfi_restore %rbx
	.cfi_restore %r12
	.cfi_restore %r13
	.cfi_restore %r14
	.cfi_restore %r15
	.cfi_restore %rbp
.LBB40_76:
	retq
.LBB40_25:
	.cfi_def_cfa_offset 96
	.cfi_offset %rbx, -56
	.cfi_offset %rbp, -16
	.cfi_offset %r12, -48
	.cfi_offset %r13, -40
	.cfi_offset %r14, -32
	.cfi_offset %r15, -24
	movq	%rsi, %r14
	movq	%rdx, %rsi
	movq	%rdx, %r15
	movq	%rcx, %rdx
	callq	memmove@PLT
	movq	%r15, %rdx
	movq	%r14, %rsi
	movb	$1, %al
	jmp	.LBB40_50
.LBB40_26:
	cmpq	$32, %r15
	jae	.LBB40_31
	xorl	%ecx, %ecx
	jmp	.LBB40_35
.LBB40_29:
	cmpq	$32, %rcx
	jae	.LBB40_37
	xorl	%r9d, %r9d
	jmp	.LBB40_41
.LBB40_31:
	movq	%r15, %rcx
	andq	$-32, %rcx
	addq	%rdi, %rdx
	addq	$16, %rdx
	xorl	%edi, %edi
.LBB40_32:
	movups	-16(%rdx,%rdi), %xmm0
	movups	(%rdx,%rdi), %xmm1
	movups	%xmm0, (%r14,%rdi)
	movups	%xmm1, 16(%r14,%rdi)
	addq	$32, %rdi
	cmpq	%rdi, %rcx
	jne	.LBB40_32
	cmpq	%rcx, %r15
	je	.LBB40_53
	testb	$28, %r15b
	je	.LBB40_51
.LBB40_35:
	movq	%rcx, %rdx
	movq	%r15, %rcx
	andq	$-4, %rcx
.LBB40_36:
	movl	(%rsi,%rdx), %edi
	movl	%edi, (%r14,%rdx)
	addq	$4, %rdx
	cmpq	%rdx, %rcx
	jne	.LBB40_36
	jmp	.LBB40_52
.LBB40_37:
	movq	%rcx, %r9
	andq	$-32, %r9
	leaq	16(%rdx), %r10
	movq	%r9, %r11
.LBB40_38:
	movups	-16(%r10), %xmm0
	movups	(%r10), %xmm1
	movups	%xmm0, -16(%r10,%r8)
	movups	%xmm1, (%r10,%r8)
	addq	$32, %r10
	addq	$-32, %r11
	jne	.LBB40_38
	cmpq	%r9, %rcx
	je	.LBB40_50
	testb	$28, %cl
	je	.LBB40_44
.LBB40_41:
	movq	%r9, %r10
	movq	%rcx, %r9
	andq	$-4, %r9
	leaq	(%rdx,%r10), %r11
	subq	%r9, %r10
.LBB40_42:
	movl	(%r11), %ebp
	movl	%ebp, (%r11,%r8)
	addq	$4, %r11
	addq	$4, %r10
	jne	.LBB40_42
	cmpq	%r9, %rcx
	je	.LBB40_50
.LBB40_44:
	movq	%rcx, %r11
	movq	%r9, %r10
	andq	$3, %r11
	je	.LBB40_47
	movq	%r9, %r10
.LBB40_46:
	movzbl	(%rdx,%r10), %ebp
	movb	%bpl, (%rdi,%r10)
	incq	%r10
	decq	%r11
	jne	.LBB40_46
.LBB40_47:
	subq	%rcx, %r9
	cmpq	$-4, %r9
	ja	.LBB40_50
	subq	%r10, %rcx
	leaq	(%r10,%rdx), %rdi
	addq	$3, %rdi
.LBB40_49:
	movzbl	-3(%rdi), %r9d
	movb	%r9b, -3(%rdi,%r8)
	movzbl	-2(%rdi), %r9d
	movb	%r9b, -2(%rdi,%r8)
	movzbl	-1(%rdi), %r9d
	movb	%r9b, -1(%rdi,%r8)
	movzbl	(%rdi), %r9d
	movb	%r9b, (%rdi,%r8)
	addq	$4, %rdi
	addq	$-4, %rcx
	jne	.LBB40_49
.LBB40_50:
	movq	%rdx, (%rsi)
	movq	%rbx, 16(%rsi)
	movq	$0, 32(%rsi)
	jmp	.LBB40_75
.LBB40_51:
	movzbl	(%rsi,%rcx), %edx
	movb	%dl, (%r14,%rcx)
	incq	%rcx
.LBB40_52:
	cmpq	%rcx, %r15
	jne	.LBB40_51
.LBB40_53:
	leaq	(%r14,%r15), %rdi
	movq	(%rax), %rsi
	movq	32(%rax), %rdx
	movq	%rdi, %rcx
	subq	%rsi, %rcx
	cmpq	%rdx, %rcx
	jae	.LBB40_56
	cmpq	$4, %rdx
	jb	.LBB40_55
	addq	%r14, %rbp
	movq	8(%rsp), %rcx
	addq	%rsi, %rcx
	subq	%rcx, %rbp
	cmpq	$32, %rbp
	jae	.LBB40_59
.LBB40_55:
	xorl	%ecx, %ecx
.LBB40_68:
	movq	%rdx, %r9
	movq	%rcx, %r8
	andq	$3, %r9
	je	.LBB40_71
	movq	%rcx, %r8
	.p2align	4
.LBB40_70:
	movzbl	(%rsi,%r8), %r10d
	movb	%r10b, (%rdi,%r8)
	incq	%r8
	decq	%r9
	jne	.LBB40_70
.LBB40_71:
	subq	%rdx, %rcx
	cmpq	$-4, %rcx
	ja	.LBB40_74
	leaq	(%r15,%r14), %rcx
	addq	$3, %rcx
	.p2align	4
.LBB40_73:
	movzbl	(%rsi,%r8), %edi
	movb	%dil, -3(%rcx,%r8)
	movzbl	1(%rsi,%r8), %edi
	movb	%dil, -2(%rcx,%r8)
	movzbl	2(%rsi,%r8), %edi
	movb	%dil, -1(%rcx,%r8)
	movzbl	3(%rsi,%r8), %edi
	movb	%dil, (%rcx,%r8)
	addq	$4, %r8
	cmpq	%r8, %rdx
	jne	.LBB40_73
	jmp	.LBB40_74
.LBB40_56:
	callq	memmove@PLT
	movq	%r13, %rax
.LBB40_74:
	movq	(%rax), %rdi
	movq	%rax, %r15
	callq	rattle_dealloc@PLT
	movq	%r14, (%r15)
	movq	%rbx, 16(%r15)
	xorps	%xmm0, %xmm0
	movups	%xmm0, (%r12)
	movb	$1, %al
	jmp	.LBB40_75
.LBB40_59:
	cmpq	$32, %rdx
	jae	.LBB40_61
	xorl	%ecx, %ecx
	jmp	.LBB40_65
.LBB40_61:
	movq	%rdx, %rcx
	andq	$-32, %rcx
	leaq	(%r15,%r14), %r8
	addq	$16, %r8
	xorl	%r9d, %r9d
.LBB40_62:
	movups	(%rsi,%r9), %xmm0
	movups	16(%rsi,%r9), %xmm1
	movups	%xmm0, -16(%r8,%r9)
	movups	%xmm1, (%r8,%r9)
	addq	$32, %r9
	cmpq	%r9, %rcx
	jne	.LBB40_62
	cmpq	%rcx, %rdx
	je	.LBB40_74
	testb	$28, %dl
	je	.LBB40_68
.LBB40_65:
	movq	%rcx, %r8
	movq	%rdx, %rcx
	andq	$-4, %rcx
.LBB40_66:
	movl	(%rsi,%r8), %r9d
	movl	%r9d, (%rdi,%r8)
	addq	$4, %r8
	cmpq	%r8, %rcx
	jne	.LBB40_66
	cmpq	%rcx, %rdx
	je	.LBB40_74
	jmp	.LBB40_68
.Lfunc_end40:
	.size	"std_alloc::vec::deque::VecDeque::grow::<#6bcf362cad121e8b>", .Lfunc_end40-"std_alloc::vec::deque::VecDeque::grow::<#6bcf362cad121e8b>"
	.cfi_endproc

	.section	".text.unlikely.std_alloc::vec::Vec::grow_amortized::<#6bcf362cad121e8b>","ax",@progbits
	.p2align	4
	.type	"std_alloc::vec::Vec::grow_amortized::<#6bcf362cad121e8b>",@function
"std_alloc::vec::Vec::grow_amortized::<#6bcf362cad121e8b>":
	.cfi_startproc
	movq	%rsi, %rax
	movq	8(%rdi), %rsi
	addq	%rsi, %rax
	jae	.LBB41_2
	xorl	%eax, %eax
	retq
.LBB41_2:
	pushq	%r14
	.cfi_def_cfa_offset 16
	pushq	%rbx
	.cfi_def_cfa_offset 24
	pushq	%rax
	.cfi_def_cfa_offset 32
	.cfi_offset %rbx, -24
	.cfi_offset %r14, -16
	cmpq	$9, %rax
	movl	$8, %ebx
	cmovaeq	%rax, %rbx
	movq	16(%rdi), %rcx
	movq	%rcx, %rdx
	shrq	$62, %rdx
	leaq	(%rcx,%rcx), %rax
	cmpq	%rax, %rbx
	cmovaq	%rbx, %rax
	testq	%rdx, %rdx
	cmoveq	%rax, %rbx
	testq	%rbx, %rbx
	js	.LBB41_6
	testq	%rcx, %rcx
	je	.LBB41_8
	movq	%rdi, %r14
	movq	(%rdi), %rdi
	movl	$1, %ecx
	movq	%rbx, %rdx
	callq	rattle_realloc@PLT
	testb	$1, %al
	je	.LBB41_6
.LBB41_9:
	movq	%rdx, (%r14)
	movq	%rbx, 16(%r14)
	movb	$1, %al
	addq	$8, %rsp
	.cfi_def_cfa_offset 24
	popq	%rbx
	.cfi_def_cfa_offset 16
	popq	%r14
	.cfi_def_cfa_offset 8
	.cfi_restore %rbx
	.cfi_restore %r14
	retq
.LBB41_8:
	.cfi_def_cfa_offset 32
	.cfi_offset %rbx, -24
	.cfi_offset %r14, -16
	movq	%rdi, %r14
	movl	$1, %esi
	movq	%rax, %rdi
	callq	rattle_alloc@PLT
	testb	$1, %al
	jne	.LBB41_9
.LBB41_6:
	xorl	%eax, %eax
	addq	$8, %rsp
	.cfi_def_cfa_offset 24
	popq	%rbx
	.cfi_def_cfa_offset 16
	popq	%r14
	.cfi_def_cfa_offset 8
	.cfi_restore %rbx
	.cfi_restore %r14
	retq
.Lfunc_end41:
	.size	"std_alloc::vec::Vec::grow_amortized::<#6bcf362cad121e8b>", .Lfunc_end41-"std_alloc::vec::Vec::grow_amortized::<#6bcf362cad121e8b>"
	.cfi_endproc

	.section	".text.core::slots::Slots::move_over::<i8>","ax",@progbits
	.p2align	4
	.type	"core::slots::Slots::move_over::<i8>",@function
"core::slots::Slots::move_over::<i8>":
	.cfi_startproc
	pushq	%rbp
	.cfi_def_cfa_offset 16
	pushq	%r15
	.cfi_def_cfa_offset 24
	pushq	%r14
	.cfi_def_cfa_offset 32
	pushq	%r13
	.cfi_def_cfa_offset 40
	pushq	%r12
	.cfi_def_cfa_offset 48
	pushq	%rbx
	.cfi_def_cfa_offset 56
	.cfi_offset %rbx, -56
	.cfi_offset %r12, -48
	.cfi_offset %r13, -40
	.cfi_offset %r14, -32
	.cfi_offset %r15, -24
	.cfi_offset %rbp, -16
	movq	%rsi, %rbx
	movq	%rdx, %r9
	subq	%rsi, %r9
	movq	%rsi, %rax
	cmovaq	%rdx, %rsi
	cmovbq	%rdx, %rax
	addq	%rcx, %rax
	cmpq	%rsi, %rax
	jbe	.LBB42_1
	movq	%rdx, %rax
	subq	%rbx, %rax
	movq	%rax, -8(%rsp)
	jae	.LBB42_73
	movq	%rbx, -24(%rsp)
	movq	%rbx, %r9
	subq	%rdx, %r9
	leaq	(%rcx,%rdx), %r10
	movq	%rdx, -16(%rsp)
	movq	%rdx, %rax
	cmpq	$2049, %rcx
	jb	.LBB42_34
	movq	-24(%rsp), %rbp
	leaq	2032(%rbp), %r11
	movq	-16(%rsp), %rax
	leaq	2032(%rax), %rbx
	leaq	112(%rax), %r14
	leaq	112(%rbp), %r15
	leaq	3(%rax), %r12
	leaq	3(%rbp), %r13
	jmp	.LBB42_22
	.p2align	4
.LBB42_33:
	addq	$2048, %rax
	movq	%r10, %rcx
	subq	%rax, %rcx
	addq	$2048, %r11
	addq	$2048, %rbx
	addq	$2048, %rbp
	addq	$2048, %r14
	addq	$2048, %r15
	addq	$2048, %r12
	addq	$2048, %r13
	cmpq	$2048, %rcx
	jbe	.LBB42_34
.LBB42_22:
	leaq	(%rax,%r9), %rdx
	movq	(%rdi), %rcx
	cmpq	%rdx, %rax
	jae	.LBB42_23
	cmpq	$32, -8(%rsp)
	jae	.LBB42_27
	leaq	(%rcx,%r12), %rdx
	addq	%r13, %rcx
	xorl	%r8d, %r8d
	.p2align	4
.LBB42_30:
	movzbl	-3(%rcx,%r8), %esi
	movb	%sil, -3(%rdx,%r8)
	movzbl	-2(%rcx,%r8), %esi
	movb	%sil, -2(%rdx,%r8)
	movzbl	-1(%rcx,%r8), %esi
	movb	%sil, -1(%rdx,%r8)
	movzbl	(%rcx,%r8), %esi
	movb	%sil, (%rdx,%r8)
	addq	$4, %r8
	cmpq	$2048, %r8
	jne	.LBB42_30
	jmp	.LBB42_33
	.p2align	4
.LBB42_23:
	cmpq	$32, %r9
	jae	.LBB42_24
	leaq	(%rcx,%rbp), %rdx
	addq	%rax, %rcx
	movl	$2048, %r8d
	.p2align	4
.LBB42_32:
	movzbl	-1(%rdx,%r8), %esi
	movb	%sil, -1(%rcx,%r8)
	movzbl	-2(%rdx,%r8), %esi
	movb	%sil, -2(%rcx,%r8)
	movzbl	-3(%rdx,%r8), %esi
	movb	%sil, -3(%rcx,%r8)
	movzbl	-4(%rdx,%r8), %esi
	movb	%sil, -4(%rcx,%r8)
	addq	$-4, %r8
	jne	.LBB42_32
	jmp	.LBB42_33
	.p2align	4
.LBB42_27:
	leaq	(%rcx,%r14), %r8
	addq	%r15, %rcx
	xorl	%edx, %edx
	.p2align	4
.LBB42_28:
	movups	-112(%rcx,%rdx), %xmm0
	movups	-96(%rcx,%rdx), %xmm1
	movups	%xmm0, -112(%r8,%rdx)
	movups	%xmm1, -96(%r8,%rdx)
	movups	-80(%rcx,%rdx), %xmm0
	movups	-64(%rcx,%rdx), %xmm1
	movups	%xmm0, -80(%r8,%rdx)
	movups	%xmm1, -64(%r8,%rdx)
	movups	-48(%rcx,%rdx), %xmm0
	movups	-32(%rcx,%rdx), %xmm1
	movups	%xmm0, -48(%r8,%rdx)
	movups	%xmm1, -32(%r8,%rdx)
	movups	-16(%rcx,%rdx), %xmm0
	movups	(%rcx,%rdx), %xmm1
	movups	%xmm0, -16(%r8,%rdx)
	movups	%xmm1, (%r8,%rdx)
	subq	$-128, %rdx
	cmpq	$2048, %rdx
	jne	.LBB42_28
	jmp	.LBB42_33
	.p2align	4
.LBB42_24:
	leaq	(%rcx,%r11), %r8
	addq	%rbx, %rcx
	xorl	%edx, %edx
	.p2align	4
.LBB42_25:
	movups	-16(%r8,%rdx), %xmm0
	movups	(%r8,%rdx), %xmm1
	movups	%xmm1, (%rcx,%rdx)
	movups	%xmm0, -16(%rcx,%rdx)
	movups	-48(%r8,%rdx), %xmm0
	movups	-32(%r8,%rdx), %xmm1
	movups	%xmm1, -32(%rcx,%rdx)
	movups	%xmm0, -48(%rcx,%rdx)
	movups	-80(%r8,%rdx), %xmm0
	movups	-64(%r8,%rdx), %xmm1
	movups	%xmm1, -64(%rcx,%rdx)
	movups	%xmm0, -80(%rcx,%rdx)
	movups	-112(%r8,%rdx), %xmm0
	movups	-96(%r8,%rdx), %xmm1
	movups	%xmm1, -96(%rcx,%rdx)
	movups	%xmm0, -112(%rcx,%rdx)
	addq	$-128, %rdx
	cmpq	$-2048, %rdx
	jne	.LBB42_25
	jmp	.LBB42_33
.LBB42_1:
	movq	(%rdi), %r8
	leaq	(%r8,%rbx), %rax
	leaq	(%r8,%rdx), %rdi
	cmpq	%rcx, %r9
	jae	.LBB42_94
	cmpq	$4, %rcx
	setb	%sil
	cmpq	$32, %r9
	setb	%r9b
	orb	%sil, %r9b
	je	.LBB42_4
	xorl	%r9d, %r9d
	jmp	.LBB42_13
.LBB42_73:
	jbe	.LBB42_93
	testq	%rcx, %rcx
	je	.LBB42_93
	movq	(%rdi), %rax
	cmpq	$8, %rcx
	setb	%dil
	movq	%rbx, %rsi
	subq	%rdx, %rsi
	cmpq	$32, %rsi
	setb	%sil
	orb	%dil, %sil
	je	.LBB42_77
	xorl	%edi, %edi
	jmp	.LBB42_86
.LBB42_34:
	leaq	(%rax,%r9), %rdx
	movq	(%rdi), %rdi
	cmpq	%rdx, %rax
	jae	.LBB42_54
	cmpq	%rax, %r10
	movq	-16(%rsp), %r14
	movq	-24(%rsp), %r15
	je	.LBB42_93
	cmpq	$4, %rcx
	setb	%dl
	cmpq	$32, -8(%rsp)
	setb	%sil
	orb	%dl, %sil
	je	.LBB42_38
	xorl	%r8d, %r8d
	jmp	.LBB42_47
.LBB42_94:
	movq	%rax, %rsi
	movq	%rcx, %rdx
	popq	%rbx
	.cfi_def_cfa_offset 48
	popq	%r12
	.cfi_def_cfa_offset 40
	popq	%r13
	.cfi_def_cfa_offset 32
	popq	%r14
	.cfi_def_cfa_offset 24
	popq	%r15
	.cfi_def_cfa_offset 16
	popq	%rbp
	.cfi_def_cfa_offset 8
	jmp	memmove@PLT
.LBB42_4:
	.cfi_def_cfa_offset 56
	cmpq	$32, %rcx
	jae	.LBB42_6
	xorl	%r9d, %r9d
	jmp	.LBB42_10
.LBB42_54:
	cmpq	%rax, %r10
	movq	-16(%rsp), %rbx
	movq	-24(%rsp), %r14
	je	.LBB42_93
	cmpq	$8, %rcx
	setb	%dl
	cmpq	$32, %r9
	setb	%sil
	orb	%dl, %sil
	je	.LBB42_57
	xorl	%r8d, %r8d
	jmp	.LBB42_66
.LBB42_6:
	movq	%rcx, %r9
	andq	$-32, %r9
	leaq	(%rbx,%r8), %r11
	addq	$16, %r11
	leaq	(%rdx,%r8), %rsi
	addq	$16, %rsi
	xorl	%r10d, %r10d
	.p2align	4
.LBB42_7:
	movups	-16(%r11,%r10), %xmm0
	movups	(%r11,%r10), %xmm1
	movups	%xmm0, -16(%rsi,%r10)
	movups	%xmm1, (%rsi,%r10)
	addq	$32, %r10
	cmpq	%r10, %r9
	jne	.LBB42_7
	cmpq	%r9, %rcx
	je	.LBB42_93
	testb	$28, %cl
	je	.LBB42_13
.LBB42_10:
	movq	%r9, %r10
	movq	%rcx, %r9
	andq	$-4, %r9
	.p2align	4
.LBB42_11:
	movl	(%rax,%r10), %esi
	movl	%esi, (%rdi,%r10)
	addq	$4, %r10
	cmpq	%r10, %r9
	jne	.LBB42_11
	cmpq	%r9, %rcx
	je	.LBB42_93
.LBB42_13:
	movq	%rcx, %r11
	movq	%r9, %r10
	andq	$3, %r11
	je	.LBB42_16
	movq	%r9, %r10
	.p2align	4
.LBB42_15:
	movzbl	(%rax,%r10), %esi
	movb	%sil, (%rdi,%r10)
	incq	%r10
	decq	%r11
	jne	.LBB42_15
.LBB42_16:
	subq	%rcx, %r9
	cmpq	$-4, %r9
	ja	.LBB42_93
	leaq	(%rbx,%r8), %rax
	addq	$3, %rax
	addq	%r8, %rdx
	addq	$3, %rdx
	.p2align	4
.LBB42_18:
	movzbl	-3(%rax,%r10), %esi
	movb	%sil, -3(%rdx,%r10)
	movzbl	-2(%rax,%r10), %esi
	movb	%sil, -2(%rdx,%r10)
	movzbl	-1(%rax,%r10), %esi
	movb	%sil, -1(%rdx,%r10)
	movzbl	(%rax,%r10), %esi
	movb	%sil, (%rdx,%r10)
	addq	$4, %r10
	cmpq	%r10, %rcx
	jne	.LBB42_18
	jmp	.LBB42_93
.LBB42_77:
	cmpq	$32, %rcx
	jae	.LBB42_79
	xorl	%edi, %edi
	jmp	.LBB42_83
.LBB42_38:
	cmpq	$32, %rcx
	jae	.LBB42_40
	xorl	%r8d, %r8d
	jmp	.LBB42_44
.LBB42_57:
	cmpq	$32, %rcx
	jae	.LBB42_59
	xorl	%r8d, %r8d
	jmp	.LBB42_63
.LBB42_79:
	movq	%rcx, %rdi
	andq	$-32, %rdi
	movq	%rdi, %r10
	negq	%r10
	leaq	(%rcx,%rbx), %rsi
	addq	%rax, %rsi
	addq	$-16, %rsi
	leaq	(%rcx,%rdx), %r8
	addq	%rax, %r8
	addq	$-16, %r8
	xorl	%r9d, %r9d
	.p2align	4
.LBB42_80:
	movups	-16(%rsi,%r9), %xmm0
	movups	(%rsi,%r9), %xmm1
	movups	%xmm1, (%r8,%r9)
	movups	%xmm0, -16(%r8,%r9)
	addq	$-32, %r9
	cmpq	%r9, %r10
	jne	.LBB42_80
	cmpq	%rdi, %rcx
	je	.LBB42_93
	testb	$24, %cl
	je	.LBB42_86
.LBB42_83:
	movq	%rdi, %r11
	movq	%rcx, %rdi
	andq	$-8, %rdi
	movq	%rdi, %rsi
	negq	%rsi
	negq	%r11
	leaq	(%rcx,%rbx), %r8
	addq	%rax, %r8
	addq	$-8, %r8
	leaq	(%rcx,%rdx), %r9
	addq	%rax, %r9
	addq	$-8, %r9
	.p2align	4
.LBB42_84:
	movq	(%r8,%r11), %r10
	movq	%r10, (%r9,%r11)
	addq	$-8, %r11
	cmpq	%r11, %rsi
	jne	.LBB42_84
	cmpq	%rdi, %rcx
	je	.LBB42_93
.LBB42_86:
	movq	%rcx, %r8
	movq	%rdi, %rsi
	andq	$3, %r8
	je	.LBB42_90
	leaq	(%rcx,%rbx), %r11
	movq	%rdi, %rsi
	notq	%rsi
	addq	%rsi, %r11
	addq	%rax, %r11
	addq	%rcx, %rsi
	addq	%rdx, %rsi
	addq	%rax, %rsi
	negq	%r8
	xorl	%r9d, %r9d
	.p2align	4
.LBB42_88:
	movzbl	(%r11,%r9), %r10d
	movb	%r10b, (%rsi,%r9)
	decq	%r9
	cmpq	%r9, %r8
	jne	.LBB42_88
	movq	%rdi, %rsi
	subq	%r9, %rsi
.LBB42_90:
	subq	%rcx, %rdi
	cmpq	$-4, %rdi
	ja	.LBB42_93
	addq	%rax, %rdx
	decq	%rdx
	subq	%rsi, %rcx
	addq	%rbx, %rax
	decq	%rax
	.p2align	4
.LBB42_92:
	movzbl	(%rax,%rcx), %esi
	movb	%sil, (%rdx,%rcx)
	movzbl	-1(%rax,%rcx), %esi
	movb	%sil, -1(%rdx,%rcx)
	movzbl	-2(%rax,%rcx), %esi
	movb	%sil, -2(%rdx,%rcx)
	movzbl	-3(%rax,%rcx), %esi
	movb	%sil, -3(%rdx,%rcx)
	addq	$-4, %rcx
	jne	.LBB42_92
	jmp	.LBB42_93
.LBB42_40:
	movl	%ecx, %r8d
	andl	$4064, %r8d
	leaq	(%rax,%r15), %rdx
	subq	%r14, %rdx
	addq	%rdi, %rdx
	addq	$16, %rdx
	leaq	(%rax,%rdi), %rsi
	addq	$16, %rsi
	xorl	%r9d, %r9d
	.p2align	4
.LBB42_41:
	movups	-16(%rdx,%r9), %xmm0
	movups	(%rdx,%r9), %xmm1
	movups	%xmm0, -16(%rsi,%r9)
	movups	%xmm1, (%rsi,%r9)
	addq	$32, %r9
	cmpq	%r9, %r8
	jne	.LBB42_41
	cmpq	%r8, %rcx
	je	.LBB42_93
	testb	$28, %cl
	je	.LBB42_47
.LBB42_44:
	movq	%r8, %rdx
	movl	%ecx, %r8d
	andl	$4092, %r8d
	movq	%r8, %rsi
	subq	%rdx, %rsi
	addq	%rax, %rdx
	leaq	(%rdx,%r15), %r9
	subq	%r14, %r9
	addq	%rdi, %r9
	addq	%rdi, %rdx
	xorl	%r10d, %r10d
	.p2align	4
.LBB42_45:
	movl	(%r9,%r10), %r11d
	movl	%r11d, (%rdx,%r10)
	addq	$4, %r10
	cmpq	%r10, %rsi
	jne	.LBB42_45
	cmpq	%r8, %rcx
	je	.LBB42_93
.LBB42_47:
	movq	%rcx, %r10
	movq	%r8, %r9
	andq	$3, %r10
	je	.LBB42_51
	movq	%r8, %r9
	negq	%r9
	leaq	(%r8,%rax), %rdx
	leaq	(%rdx,%r15), %rsi
	subq	%r14, %rsi
	addq	%rdi, %rsi
	addq	%rdi, %rdx
	xorl	%r11d, %r11d
	.p2align	4
.LBB42_49:
	movzbl	(%rsi,%r11), %ebx
	movb	%bl, (%rdx,%r11)
	incq	%r11
	decq	%r9
	cmpq	%r11, %r10
	jne	.LBB42_49
	negq	%r9
.LBB42_51:
	subq	%rcx, %r8
	cmpq	$-4, %r8
	ja	.LBB42_93
	subq	%r9, %rcx
	addq	%r9, %rax
	addq	%rax, %r15
	subq	%r14, %r15
	leaq	(%r15,%rdi), %rdx
	addq	$3, %rdx
	addq	%rdi, %rax
	addq	$3, %rax
	xorl	%esi, %esi
	.p2align	4
.LBB42_53:
	movzbl	-3(%rdx,%rsi), %edi
	movb	%dil, -3(%rax,%rsi)
	movzbl	-2(%rdx,%rsi), %edi
	movb	%dil, -2(%rax,%rsi)
	movzbl	-1(%rdx,%rsi), %edi
	movb	%dil, -1(%rax,%rsi)
	movzbl	(%rdx,%rsi), %edi
	movb	%dil, (%rax,%rsi)
	addq	$4, %rsi
	cmpq	%rsi, %rcx
	jne	.LBB42_53
	jmp	.LBB42_93
.LBB42_59:
	movl	%ecx, %r8d
	andl	$4064, %r8d
	movq	%r8, %rdx
	negq	%rdx
	leaq	(%rcx,%rax), %r9
	leaq	(%r9,%r14), %rsi
	subq	%rbx, %rsi
	addq	%rdi, %rsi
	addq	$-16, %rsi
	addq	%rdi, %r9
	addq	$-16, %r9
	xorl	%r10d, %r10d
	.p2align	4
.LBB42_60:
	movups	-16(%rsi,%r10), %xmm0
	movups	(%rsi,%r10), %xmm1
	movups	%xmm1, (%r9,%r10)
	movups	%xmm0, -16(%r9,%r10)
	addq	$-32, %r10
	cmpq	%r10, %rdx
	jne	.LBB42_60
	cmpq	%r8, %rcx
	je	.LBB42_93
	testb	$24, %cl
	je	.LBB42_66
.LBB42_63:
	movq	%r8, %rdx
	leaq	(%rcx,%rax), %r9
	leaq	(%r9,%r14), %rsi
	subq	%r8, %rsi
	subq	%r8, %r9
	movl	%ecx, %r8d
	andl	$4088, %r8d
	subq	%r8, %rdx
	subq	%rbx, %rsi
	addq	%rdi, %rsi
	addq	$-8, %rsi
	addq	%rdi, %r9
	addq	$-8, %r9
	xorl	%r10d, %r10d
	.p2align	4
.LBB42_64:
	movq	(%rsi,%r10), %r11
	movq	%r11, (%r9,%r10)
	addq	$-8, %r10
	cmpq	%r10, %rdx
	jne	.LBB42_64
	cmpq	%r8, %rcx
	je	.LBB42_93
.LBB42_66:
	movq	%rcx, %r10
	movq	%r8, %r9
	andq	$3, %r10
	je	.LBB42_70
	leaq	(%rcx,%rax), %r9
	leaq	(%r9,%r14), %rdx
	movq	%r8, %rsi
	notq	%rsi
	addq	%rsi, %rdx
	subq	%rbx, %rdx
	addq	%rdi, %rdx
	addq	%r9, %rsi
	addq	%rdi, %rsi
	negq	%r10
	xorl	%r11d, %r11d
	.p2align	4
.LBB42_68:
	movzbl	(%rdx,%r11), %r9d
	movb	%r9b, (%rsi,%r11)
	decq	%r11
	cmpq	%r11, %r10
	jne	.LBB42_68
	movq	%r8, %r9
	subq	%r11, %r9
.LBB42_70:
	subq	%rcx, %r8
	cmpq	$-4, %r8
	ja	.LBB42_93
	addq	%rcx, %rax
	movq	%r9, %rdx
	notq	%rdx
	leaq	(%rdx,%rax), %r8
	addq	%rdi, %r8
	addq	%r14, %rax
	addq	%rdx, %rax
	subq	%rbx, %rax
	addq	%rdi, %rax
	subq	%rcx, %r9
	xorl	%ecx, %ecx
	.p2align	4
.LBB42_72:
	movzbl	(%rax,%rcx), %edx
	movb	%dl, (%r8,%rcx)
	movzbl	-1(%rax,%rcx), %edx
	movb	%dl, -1(%r8,%rcx)
	movzbl	-2(%rax,%rcx), %edx
	movb	%dl, -2(%r8,%rcx)
	movzbl	-3(%rax,%rcx), %edx
	movb	%dl, -3(%r8,%rcx)
	addq	$-4, %rcx
	cmpq	%rcx, %r9
	jne	.LBB42_72
.LBB42_93:
	popq	%rbx
	.cfi_def_cfa_offset 48
	popq	%r12
	.cfi_def_cfa_offset 40
	popq	%r13
	.cfi_def_cfa_offset 32
	popq	%r14
	.cfi_def_cfa_offset 24
	popq	%r15
	.cfi_def_cfa_offset 16
	popq	%rbp
	.cfi_def_cfa_offset 8
	retq
.Lfunc_end42:
	.size	"core::slots::Slots::move_over::<i8>", .Lfunc_end42-"core::slots::Slots::move_over::<i8>"
	.cfi_endproc

	.section	.text.topscedar_run,"ax",@progbits
	.globl	topscedar_run
	.p2align	4
	.type	topscedar_run,@function
topscedar_run:
	.cfi_startproc
	pushq	%rbp
	.cfi_def_cfa_offset 16
	pushq	%r15
	.cfi_def_cfa_offset 24
	pushq	%r14
	.cfi_def_cfa_offset 32
	pushq	%r13
	.cfi_def_cfa_offset 40
	pushq	%r12
	.cfi_def_cfa_offset 48
	pushq	%rbx
	.cfi_def_cfa_offset 56
	subq	$3072, %rsp
	.cfi_adjust_cfa_offset 3072
	movq	$0, (%rsp)
	subq	$1336, %rsp
	.cfi_def_cfa_offset 4464
	.cfi_offset %rbx, -56
	.cfi_offset %r12, -48
	.cfi_offset %r13, -40
	.cfi_offset %r14, -32
	.cfi_offset %r15, -24
	.cfi_offset %rbp, -16
	movq	%r8, 160(%rsp)
	movq	%rcx, 152(%rsp)
	movq	%rsi, %r15
	xorl	%ebx, %ebx
	testq	%rdi, %rdi
	sete	%bl
	shll	$12, %ebx
	addq	%rdi, %rbx
	xorl	%ecx, %ecx
	testq	%rdx, %rdx
	sete	%cl
	shll	$12, %ecx
	movq	%rdx, 208(%rsp)
	movq	%rcx, 200(%rsp)
	leaq	(%rdx,%rcx), %rax
	movq	%rax, 144(%rsp)
	xorps	%xmm0, %xmm0
	movaps	%xmm0, 64(%rsp)
	movq	$0, 80(%rsp)
	movups	%xmm0, 104(%rsp)
	movups	%xmm0, 120(%rsp)
	leaq	15(%rsp), %rax
	movq	%rax, 96(%rsp)
	movq	$0, 136(%rsp)
	movaps	%xmm0, 288(%rsp)
	movaps	%xmm0, 272(%rsp)
	movaps	%xmm0, 256(%rsp)
	movq	$0, 304(%rsp)
	movq	%rax, 16(%rsp)
	movq	%rax, 176(%rsp)
	movups	%xmm0, 184(%rsp)
	xorl	%r13d, %r13d
	xorl	%ebp, %ebp
	.p2align	4
.LBB43_1:
	cmpq	$1048576, %rbp
	ja	.LBB43_8
	leaq	312(%rsp), %r12
	movl	$4096, %edx
	movq	%r12, %rdi
	xorl	%esi, %esi
	callq	memset@PLT
	movl	$1048577, %r14d
	subq	%rbp, %r14
	cmpq	%r15, %r14
	cmovaeq	%r15, %r14
	cmpq	$4096, %r14
	jb	.LBB43_4
	movl	$4096, %r14d
.LBB43_4:
	movq	%r12, %rdi
	movq	%rbx, %rsi
	movq	%r14, %rdx
	callq	memcpy@PLT
	movq	%r13, %rax
	subq	%rbp, %rax
	cmpq	%rax, %r14
	ja	.LBB43_6
.LBB43_5:
	addq	%r14, %rbx
	movq	%r15, %r12
	subq	%r14, %r12
	movq	16(%rsp), %rax
	leaq	(%rax,%rbp), %rdi
	addq	%r14, %rbp
	leaq	312(%rsp), %rsi
	movq	%r14, %rdx
	callq	memcpy@PLT
	movq	%rbp, 184(%rsp)
	movq	%r13, 192(%rsp)
	testq	%r15, %r15
	movq	%r12, %r15
	jne	.LBB43_1
	jmp	.LBB43_11
.LBB43_6:
	leaq	176(%rsp), %rdi
	movq	%r14, %rsi
	callq	"std_alloc::vec::Vec::grow_amortized::<#c9fd60d064fcd5bb>"
	testb	%al, %al
	je	.LBB43_32
	movq	176(%rsp), %rax
	movq	%rax, 16(%rsp)
	movq	184(%rsp), %rbp
	movq	192(%rsp), %r13
	jmp	.LBB43_5
.LBB43_8:
	testq	%r13, %r13
	je	.LBB43_10
	movq	16(%rsp), %rdi
	callq	rattle_dealloc@PLT
.LBB43_10:
	movb	$2, 14(%rsp)
	jmp	.LBB43_35
.LBB43_11:
	movq	176(%rsp), %rbx
	leaq	256(%rsp), %rdi
	movq	%rbx, %rsi
	movq	%rbp, %rdx
	callq	"ord_script::serving::answer_to::<#40a73cb1e87492e9>"
	cmpb	$0, 256(%rsp)
	je	.LBB43_14
	testq	%r13, %r13
	je	.LBB43_34
	movb	$3, 14(%rsp)
	jmp	.LBB43_30
.LBB43_14:
	movq	%r13, 16(%rsp)
	movq	264(%rsp), %r15
	movq	272(%rsp), %r13
	movq	280(%rsp), %r14
	movzbl	288(%rsp), %eax
	movb	%al, 14(%rsp)
	testq	%r13, %r13
	je	.LBB43_27
	movq	112(%rsp), %rax
	subq	104(%rsp), %rax
	cmpq	%rax, %r13
	ja	.LBB43_154
.LBB43_16:
	xorl	%r12d, %r12d
	.p2align	4
.LBB43_17:
	movzbl	(%r15,%r12), %ebp
	movq	104(%rsp), %rax
	movq	112(%rsp), %rsi
	cmpq	%rsi, %rax
	jae	.LBB43_23
	movq	128(%rsp), %rcx
	movq	%rax, %rdx
	subq	%rcx, %rdx
	movq	96(%rsp), %rdi
	movq	120(%rsp), %r8
	subq	%r8, %rsi
	cmpq	%rsi, %rdx
	jae	.LBB43_20
	addq	%r8, %rdi
	movb	%bpl, (%rdx,%rdi)
	jmp	.LBB43_21
	.p2align	4
.LBB43_20:
	movb	%bpl, (%rdi,%rcx)
	incq	%rcx
	movq	%rcx, 128(%rsp)
.LBB43_21:
	incq	%rax
	movq	%rax, 104(%rsp)
.LBB43_22:
	incq	%r12
	cmpq	%r12, %r13
	jne	.LBB43_17
	jmp	.LBB43_27
.LBB43_23:
	leaq	96(%rsp), %rdi
	movl	$1, %esi
	callq	"std_alloc::vec::deque::VecDeque::grow::<#6bcf362cad121e8b>"
	testb	%al, %al
	je	.LBB43_22
	movq	96(%rsp), %rcx
	movq	104(%rsp), %rax
	movq	128(%rsp), %rdx
	movq	%rax, %rsi
	subq	%rdx, %rsi
	movq	112(%rsp), %r8
	movq	120(%rsp), %rdi
	subq	%rdi, %r8
	cmpq	%r8, %rsi
	jae	.LBB43_26
	addq	%rdi, %rcx
	movb	%bpl, (%rsi,%rcx)
	jmp	.LBB43_21
.LBB43_26:
	movb	%bpl, (%rcx,%rdx)
	incq	%rdx
	movq	%rdx, 128(%rsp)
	jmp	.LBB43_21
.LBB43_27:
	testq	%r14, %r14
	je	.LBB43_29
	movq	%r15, %rdi
	callq	rattle_dealloc@PLT
.LBB43_29:
	cmpq	$0, 16(%rsp)
	je	.LBB43_35
.LBB43_30:
	movq	%rbx, %rdi
	callq	rattle_dealloc@PLT
	jmp	.LBB43_35
.LBB43_32:
	cmpq	$0, 192(%rsp)
	je	.LBB43_34
	movq	176(%rsp), %rdi
	callq	rattle_dealloc@PLT
.LBB43_34:
	movb	$3, 14(%rsp)
.LBB43_35:
	leaq	15(%rsp), %rax
	movq	%rax, 64(%rsp)
	xorps	%xmm0, %xmm0
	movups	%xmm0, 72(%rsp)
	movq	96(%rsp), %r9
	movq	104(%rsp), %r10
	movq	128(%rsp), %r14
	movq	120(%rsp), %r12
	movq	112(%rsp), %rbp
	leaq	16(%r9), %rax
	movq	%rax, 224(%rsp)
	leaq	3(%r9), %rax
	movq	%rax, 232(%rsp)
	movq	$-1, %r8
	movl	$8192, %edi
	movq	$0, 48(%rsp)
	xorl	%r15d, %r15d
	xorl	%ecx, %ecx
	xorl	%r13d, %r13d
	movq	%r9, 40(%rsp)
	.p2align	4
.LBB43_36:
	movq	%r8, 32(%rsp)
	cmpq	$1, %rdi
	movq	%rdi, %rbx
	adcq	$0, %rbx
	cmpq	%rcx, %r13
	movq	%r10, 16(%rsp)
	movq	%rdi, 168(%rsp)
	jne	.LBB43_40
	testq	%rcx, %rcx
	je	.LBB43_53
	movq	%rcx, %rax
	subq	%r15, %rax
	cmpq	$511, %rax
	ja	.LBB43_40
	leaq	64(%rsp), %rdi
	movl	$512, %esi
	callq	"std_alloc::vec::Vec::grow_amortized::<#6bcf362cad121e8b>"
	movq	80(%rsp), %rcx
	testb	%al, %al
	movq	%rcx, 48(%rsp)
	je	.LBB43_125
	movq	72(%rsp), %rdi
	movq	16(%rsp), %r10
	movq	40(%rsp), %r9
	jmp	.LBB43_41
.LBB43_53:
	leaq	511(%r15), %rax
	cmpq	$511, %rax
	ja	.LBB43_59
	cmpq	$-513, %r15
	ja	.LBB43_125
	addq	$512, %r15
	movl	$1, %esi
	movq	%r15, %rdi
	callq	rattle_alloc@PLT
	movq	40(%rsp), %r9
	movq	16(%rsp), %r10
	testb	$1, %al
	je	.LBB43_125
	movq	%rdx, 64(%rsp)
	movq	%r15, 80(%rsp)
	movl	$512, %eax
	movq	%rax, 48(%rsp)
	xorl	%edi, %edi
	movl	$512, %ecx
	movl	$512, %ebx
	jmp	.LBB43_41
.LBB43_59:
	movl	$512, %ebx
	xorl	%ecx, %ecx
	.p2align	4
.LBB43_40:
	movq	%r15, %rdi
.LBB43_41:
	movq	%rcx, %rdx
	subq	%r13, %rdx
	cmpq	%rdx, %rbx
	cmovbq	%rbx, %rdx
	addq	%r13, %rdx
	subq	%rdi, %rdx
	jbe	.LBB43_46
	movq	%rcx, %rax
	subq	%rdi, %rax
	cmpq	%rax, %rdx
	ja	.LBB43_100
	leaq	(%rdi,%rdx), %r15
	movq	64(%rsp), %r11
	cmpq	%r15, %rdi
	jae	.LBB43_45
.LBB43_44:
	addq	%r11, %rdi
	xorl	%esi, %esi
	movq	%r11, %rbx
	movq	%r15, 56(%rsp)
	movq	%r13, %r15
	movq	%rcx, %r13
	callq	memset@PLT
	movq	40(%rsp), %r9
	movq	%r13, %rcx
	movq	%r15, %r13
	movq	56(%rsp), %r15
	movq	%rbx, %r11
	movq	16(%rsp), %r10
.LBB43_45:
	movq	%r15, 72(%rsp)
	movq	%rcx, 80(%rsp)
	movq	%rcx, 216(%rsp)
	movq	%rcx, 48(%rsp)
	jmp	.LBB43_47
	.p2align	4
.LBB43_46:
	movq	%rcx, 216(%rsp)
	movq	64(%rsp), %r11
	movq	%rdi, %r15
.LBB43_47:
	movq	%r10, %rcx
	subq	%r14, %rcx
	cmoveq	%r14, %rcx
	testq	%rcx, %rcx
	movq	%r12, %rax
	cmoveq	%rcx, %rax
	xorl	%edx, %edx
	cmpq	%r14, %r10
	movq	%r14, %rsi
	cmoveq	%rdx, %rsi
	cmoveq	%rdx, %rax
	testq	%rcx, %rcx
	cmovneq	%rcx, %rsi
	leaq	(%r11,%r13), %rdi
	movq	%r15, %rbx
	subq	%r13, %rbx
	cmpq	%rsi, %rbx
	cmovaeq	%rsi, %rbx
	leaq	(%r9,%rax), %rsi
	movq	%rdi, %rcx
	subq	%rsi, %rcx
	cmpq	%rbx, %rcx
	movq	%rbx, 24(%rsp)
	jae	.LBB43_50
	cmpq	$4, %rbx
	jb	.LBB43_49
	cmpq	$32, %rcx
	jae	.LBB43_57
.LBB43_49:
	xorl	%ecx, %ecx
.LBB43_67:
	movq	%rbx, %r8
	movq	%rcx, %rdx
	andq	$3, %r8
	je	.LBB43_70
	movq	%rcx, %rdx
	.p2align	4
.LBB43_69:
	movzbl	(%rsi,%rdx), %r9d
	movb	%r9b, (%rdi,%rdx)
	incq	%rdx
	decq	%r8
	jne	.LBB43_69
.LBB43_70:
	subq	%rbx, %rcx
	cmpq	$-4, %rcx
	ja	.LBB43_73
	addq	232(%rsp), %rax
	leaq	(%r11,%r13), %rcx
	addq	$3, %rcx
	.p2align	4
.LBB43_72:
	movzbl	-3(%rax,%rdx), %esi
	movb	%sil, -3(%rcx,%rdx)
	movzbl	-2(%rax,%rdx), %esi
	movb	%sil, -2(%rcx,%rdx)
	movzbl	-1(%rax,%rdx), %esi
	movb	%sil, -1(%rcx,%rdx)
	movzbl	(%rax,%rdx), %esi
	movb	%sil, (%rcx,%rdx)
	addq	$4, %rdx
	cmpq	%rdx, %rbx
	jne	.LBB43_72
	jmp	.LBB43_73
	.p2align	4
.LBB43_50:
	movq	%rbx, %rdx
	movq	%r11, %rbx
	callq	memmove@PLT
	movq	%rbx, %r11
	movq	24(%rsp), %rbx
	movq	16(%rsp), %r10
.LBB43_73:
	cmpq	%rbx, %r10
	cmovbq	%r10, %rbx
	movq	%r10, %rsi
	subq	%rbx, %rsi
	cmpq	%rsi, %rbx
	movq	%r11, 248(%rsp)
	jbe	.LBB43_80
	cmpq	$7, %rsi
	movq	40(%rsp), %r9
	movq	%rsi, 88(%rsp)
	ja	.LBB43_84
	movq	24(%rsp), %rbx
	cmpq	%rbx, %r10
	movq	32(%rsp), %r8
	jbe	.LBB43_88
	leaq	-1(%r10), %rax
	leaq	(%r9,%r10), %rcx
	decq	%rcx
	movq	%rsi, %rdx
	jmp	.LBB43_78
	.p2align	4
.LBB43_79:
	leaq	-1(%rbp), %r12
	movb	%sil, (%r9,%r12)
	movq	%rax, %r14
	decq	%rdx
	je	.LBB43_88
.LBB43_78:
	leaq	(%rcx,%r12), %rsi
	testq	%r14, %r14
	leaq	-1(%r9,%r14), %rdi
	cmoveq	%rsi, %rdi
	movzbl	(%rdi), %esi
	testq	%r12, %r12
	je	.LBB43_79
	cmpq	$1, %r14
	adcq	$-1, %r14
	movb	%sil, -1(%r9,%r12)
	decq	%r12
	decq	%rdx
	jne	.LBB43_78
	jmp	.LBB43_88
	.p2align	4
.LBB43_80:
	cmpq	$7, %rbx
	movq	40(%rsp), %r9
	ja	.LBB43_89
	testq	%rbx, %rbx
	movq	168(%rsp), %rdi
	je	.LBB43_116
	xorl	%eax, %eax
	cmpq	%r14, %r10
	cmoveq	%rax, %r14
	cmoveq	%rax, %r12
	movzbl	(%r9,%r12), %eax
	incq	%r12
	movq	%r14, %rcx
	notq	%rcx
	addq	%r10, %rcx
	movq	%rbp, %rdx
	subq	%r12, %rdx
	cmpq	%rdx, %rcx
	jae	.LBB43_94
	leaq	(%r9,%r12), %rdx
	movb	%al, (%rcx,%rdx)
	cmpq	$1, %rbx
	jne	.LBB43_95
	jmp	.LBB43_116
	.p2align	4
.LBB43_84:
	movq	%r15, 56(%rsp)
	movq	%r13, 240(%rsp)
	movq	%r9, 312(%rsp)
	movq	%rbp, 320(%rsp)
	cmpq	%rbp, %r10
	je	.LBB43_87
	leaq	(%r12,%rbp), %r15
	movq	16(%rsp), %r13
	subq	%r13, %r15
	.p2align	4
.LBB43_86:
	leaq	(%r12,%r13), %rsi
	decq	%rsi
	xorl	%eax, %eax
	cmpq	%rbp, %rsi
	movq	%rbp, %rcx
	cmovbq	%rax, %rcx
	subq	%rcx, %rsi
	incq	%rsi
	leaq	(%r15,%r13), %rdx
	decq	%rdx
	cmpq	%rbp, %rdx
	cmovaeq	%rbp, %rax
	subq	%rax, %rdx
	incq	%rdx
	movq	%r13, %rax
	subq	%rbx, %rax
	cmpq	%rsi, %rdx
	movq	%rsi, %r14
	cmovbq	%rdx, %r14
	cmpq	%rax, %r14
	cmovaeq	%rax, %r14
	subq	%r14, %rsi
	subq	%r14, %rdx
	leaq	312(%rsp), %rdi
	movq	%r14, %rcx
	callq	"core::slots::Slots::move_over::<i8>"
	subq	%r14, %r13
	cmpq	%r13, %rbx
	jb	.LBB43_86
.LBB43_87:
	movq	%rbp, %rax
	subq	88(%rsp), %rax
	addq	%r12, %rax
	xorl	%ecx, %ecx
	cmpq	%rbp, %rax
	movq	%rbp, %rdx
	cmovbq	%rcx, %rdx
	subq	%rdx, %rax
	movq	16(%rsp), %r10
	leaq	(%rax,%r10), %r14
	subq	%rbp, %r14
	cmovbq	%rcx, %r14
	movq	%rax, %r12
	movq	240(%rsp), %r13
	movq	40(%rsp), %r9
	movq	32(%rsp), %r8
	movq	56(%rsp), %r15
	movq	24(%rsp), %rbx
.LBB43_88:
	movq	168(%rsp), %rdi
	movq	88(%rsp), %rsi
	cmpq	%rsi, %r10
	jbe	.LBB43_118
.LBB43_117:
	subq	%r14, %r10
	xorl	%r14d, %r14d
	movq	%rsi, %rax
	subq	%r10, %rax
	cmovaeq	%rax, %r14
	movq	%rsi, %r10
.LBB43_118:
	testq	%rbx, %rbx
	je	.LBB43_121
	decq	%r8
	addq	%rbx, %r13
	leaq	(%rdi,%rdi), %rax
	cmpq	$131072, %rax
	movl	$131072, %ecx
	cmovbq	%rax, %rcx
	cmpq	%rbx, %rdi
	cmovbeq	%rcx, %rdi
	testq	%r8, %r8
	movq	216(%rsp), %rcx
	jne	.LBB43_36
	jmp	.LBB43_125
	.p2align	4
.LBB43_89:
	movq	%rsi, 88(%rsp)
	movq	%r15, 56(%rsp)
	movq	%r9, 312(%rsp)
	movq	%rbp, 320(%rsp)
	cmpq	%rbp, %r10
	je	.LBB43_92
	xorl	%r14d, %r14d
	.p2align	4
.LBB43_91:
	movq	%r14, %r15
	leaq	(%r14,%r12), %rsi
	xorl	%eax, %eax
	cmpq	%rbp, %rsi
	movq	%rbp, %rcx
	cmovbq	%rax, %rcx
	subq	%rcx, %rsi
	leaq	(%r14,%r10), %rdx
	cmpq	%rbp, %rdx
	movq	%rbp, %rcx
	cmovbq	%rax, %rcx
	subq	%rcx, %rdx
	addq	%r12, %rdx
	cmpq	%rbp, %rdx
	cmovaeq	%rbp, %rax
	subq	%rax, %rdx
	movq	%rbx, %rax
	subq	%r14, %rax
	cmpq	%rsi, %rdx
	movq	%rsi, %rcx
	cmovaq	%rdx, %rcx
	movq	%rbp, %r14
	subq	%rcx, %r14
	cmpq	%rax, %r14
	cmovaeq	%rax, %r14
	leaq	312(%rsp), %rdi
	movq	%r14, %rcx
	callq	"core::slots::Slots::move_over::<i8>"
	movq	16(%rsp), %r10
	addq	%r15, %r14
	cmpq	%rbx, %r14
	jb	.LBB43_91
.LBB43_92:
	addq	%r12, %rbx
	xorl	%eax, %eax
	cmpq	%rbp, %rbx
	movq	%rbp, %rcx
	cmovbq	%rax, %rcx
	subq	%rcx, %rbx
	leaq	(%rbx,%r10), %r14
	subq	%rbp, %r14
	cmovbq	%rax, %r14
	movq	%rbx, %r12
	movq	40(%rsp), %r9
	movq	32(%rsp), %r8
	movq	168(%rsp), %rdi
	movq	56(%rsp), %r15
	movq	24(%rsp), %rbx
	movq	88(%rsp), %rsi
	cmpq	%rsi, %r10
	ja	.LBB43_117
	jmp	.LBB43_118
.LBB43_57:
	cmpq	$32, %rbx
	jae	.LBB43_60
	xorl	%ecx, %ecx
	jmp	.LBB43_64
.LBB43_94:
	movb	%al, (%r9,%r14)
	incq	%r14
	cmpq	$1, %rbx
	je	.LBB43_116
.LBB43_95:
	xorl	%eax, %eax
	cmpq	%r10, %r14
	cmoveq	%rax, %r14
	cmoveq	%rax, %r12
	movzbl	(%r9,%r12), %eax
	incq	%r12
	movq	%r14, %rcx
	notq	%rcx
	addq	%r10, %rcx
	movq	%rbp, %rdx
	subq	%r12, %rdx
	cmpq	%rdx, %rcx
	jae	.LBB43_97
	leaq	(%r9,%r12), %rdx
	movb	%al, (%rcx,%rdx)
	cmpq	$2, %rbx
	jne	.LBB43_98
	jmp	.LBB43_116
.LBB43_60:
	movq	%rbx, %rcx
	andq	$-32, %rcx
	movq	224(%rsp), %rdx
	addq	%rax, %rdx
	leaq	(%r11,%r13), %r8
	addq	$16, %r8
	xorl	%r9d, %r9d
	.p2align	4
.LBB43_61:
	movups	-16(%rdx,%r9), %xmm0
	movups	(%rdx,%r9), %xmm1
	movups	%xmm0, -16(%r8,%r9)
	movups	%xmm1, (%r8,%r9)
	addq	$32, %r9
	cmpq	%r9, %rcx
	jne	.LBB43_61
	cmpq	%rcx, %rbx
	je	.LBB43_73
	testb	$28, %bl
	je	.LBB43_67
.LBB43_64:
	movq	%rcx, %rdx
	movq	%rbx, %rcx
	andq	$-4, %rcx
	.p2align	4
.LBB43_65:
	movl	(%rsi,%rdx), %r8d
	movl	%r8d, (%rdi,%rdx)
	addq	$4, %rdx
	cmpq	%rdx, %rcx
	jne	.LBB43_65
	cmpq	%rcx, %rbx
	je	.LBB43_73
	jmp	.LBB43_67
.LBB43_97:
	movb	%al, (%r9,%r14)
	incq	%r14
	cmpq	$2, %rbx
	je	.LBB43_116
.LBB43_98:
	xorl	%eax, %eax
	cmpq	%r10, %r14
	cmoveq	%rax, %r14
	cmoveq	%rax, %r12
	movzbl	(%r9,%r12), %eax
	incq	%r12
	movq	%r14, %rcx
	notq	%rcx
	addq	%r10, %rcx
	movq	%rbp, %rdx
	subq	%r12, %rdx
	cmpq	%rdx, %rcx
	jae	.LBB43_102
	leaq	(%r9,%r12), %rdx
	movb	%al, (%rcx,%rdx)
	cmpq	$3, %rbx
	jne	.LBB43_103
	jmp	.LBB43_116
.LBB43_100:
	leaq	64(%rsp), %rdi
	movq	%rdx, %rbx
	movq	%rdx, %rsi
	callq	"std_alloc::vec::Vec::grow_amortized::<#6bcf362cad121e8b>"
	movq	80(%rsp), %rcx
	testb	%al, %al
	je	.LBB43_124
	movq	72(%rsp), %rdi
	movq	%rbx, %rdx
	movq	16(%rsp), %r10
	movq	40(%rsp), %r9
	leaq	(%rdi,%rdx), %r15
	movq	64(%rsp), %r11
	cmpq	%r15, %rdi
	jb	.LBB43_44
	jmp	.LBB43_45
.LBB43_102:
	movb	%al, (%r9,%r14)
	incq	%r14
	cmpq	$3, %rbx
	je	.LBB43_116
.LBB43_103:
	xorl	%eax, %eax
	cmpq	%r10, %r14
	cmoveq	%rax, %r14
	cmoveq	%rax, %r12
	movzbl	(%r9,%r12), %eax
	incq	%r12
	movq	%r14, %rcx
	notq	%rcx
	addq	%r10, %rcx
	movq	%rbp, %rdx
	subq	%r12, %rdx
	cmpq	%rdx, %rcx
	jae	.LBB43_107
	leaq	(%r9,%r12), %rdx
	movb	%al, (%rcx,%rdx)
	cmpq	$4, %rbx
	jne	.LBB43_108
	jmp	.LBB43_116
.LBB43_107:
	movb	%al, (%r9,%r14)
	incq	%r14
	cmpq	$4, %rbx
	je	.LBB43_116
.LBB43_108:
	xorl	%eax, %eax
	cmpq	%r10, %r14
	cmoveq	%rax, %r14
	cmoveq	%rax, %r12
	movzbl	(%r9,%r12), %eax
	incq	%r12
	movq	%r14, %rcx
	notq	%rcx
	addq	%r10, %rcx
	movq	%rbp, %rdx
	subq	%r12, %rdx
	cmpq	%rdx, %rcx
	jae	.LBB43_110
	leaq	(%r9,%r12), %rdx
	movb	%al, (%rcx,%rdx)
	cmpq	$5, %rbx
	jne	.LBB43_111
	jmp	.LBB43_116
.LBB43_110:
	movb	%al, (%r9,%r14)
	incq	%r14
	cmpq	$5, %rbx
	je	.LBB43_116
.LBB43_111:
	xorl	%eax, %eax
	cmpq	%r10, %r14
	cmoveq	%rax, %r14
	cmoveq	%rax, %r12
	movzbl	(%r9,%r12), %eax
	incq	%r12
	movq	%r14, %rcx
	notq	%rcx
	addq	%r10, %rcx
	movq	%rbp, %rdx
	subq	%r12, %rdx
	cmpq	%rdx, %rcx
	jae	.LBB43_115
	leaq	(%r9,%r12), %rdx
	movb	%al, (%rcx,%rdx)
	cmpq	$6, %rbx
	je	.LBB43_116
.LBB43_113:
	xorl	%eax, %eax
	cmpq	%r10, %r14
	cmoveq	%rax, %r14
	cmoveq	%rax, %r12
	movzbl	(%r9,%r12), %eax
	incq	%r12
	movq	%r14, %rcx
	notq	%rcx
	addq	%r10, %rcx
	movq	%rbp, %rdx
	subq	%r12, %rdx
	cmpq	%rdx, %rcx
	movq	32(%rsp), %r8
	movq	24(%rsp), %rbx
	jae	.LBB43_120
	leaq	(%r9,%r12), %rdx
	movb	%al, (%rcx,%rdx)
	cmpq	%rsi, %r10
	ja	.LBB43_117
	jmp	.LBB43_118
.LBB43_115:
	movb	%al, (%r9,%r14)
	incq	%r14
	cmpq	$6, %rbx
	jne	.LBB43_113
	.p2align	4
.LBB43_116:
	movq	32(%rsp), %r8
	movq	24(%rsp), %rbx
	cmpq	%rsi, %r10
	jbe	.LBB43_118
	jmp	.LBB43_117
.LBB43_120:
	movb	%al, (%r9,%r14)
	incq	%r14
	cmpq	%rsi, %r10
	ja	.LBB43_117
	jmp	.LBB43_118
.LBB43_121:
	cmpq	%r13, %r15
	cmovbq	%r15, %r13
	testq	%rbp, %rbp
	je	.LBB43_123
	movq	%r9, %rdi
	callq	rattle_dealloc@PLT
.LBB43_123:
	cmpq	$0, 48(%rsp)
	sete	%bl
	movq	160(%rsp), %r14
	movq	152(%rsp), %rdx
	movq	144(%rsp), %rdi
	movzbl	14(%rsp), %r15d
	movq	248(%rsp), %r9
	jmp	.LBB43_130
.LBB43_124:
	movq	%rcx, 48(%rsp)
.LBB43_125:
	cmpq	$0, 48(%rsp)
	je	.LBB43_127
	movq	64(%rsp), %rdi
	callq	rattle_dealloc@PLT
.LBB43_127:
	movb	$3, %r15b
	movb	$1, %bl
	testq	%rbp, %rbp
	je	.LBB43_129
	movq	40(%rsp), %rdi
	callq	rattle_dealloc@PLT
.LBB43_129:
	xorl	%r13d, %r13d
	leaq	15(%rsp), %r9
	movq	160(%rsp), %r14
	movq	152(%rsp), %rdx
	movq	144(%rsp), %rdi
.LBB43_130:
	cmpq	%r13, %rdx
	cmovaeq	%r13, %rdx
	movq	%rdi, %rax
	subq	%r9, %rax
	cmpq	%rdx, %rax
	jae	.LBB43_133
	cmpq	$4, %rdx
	jb	.LBB43_132
	cmpq	$32, %rax
	jae	.LBB43_136
.LBB43_132:
	xorl	%eax, %eax
.LBB43_145:
	movq	%rdx, %r8
	movq	%rax, %rcx
	andq	$3, %r8
	je	.LBB43_148
	movq	%rax, %rcx
	.p2align	4
.LBB43_147:
	movzbl	(%r9,%rcx), %esi
	movb	%sil, (%rdi,%rcx)
	incq	%rcx
	decq	%r8
	jne	.LBB43_147
.LBB43_148:
	subq	%rdx, %rax
	cmpq	$-4, %rax
	ja	.LBB43_151
	movq	208(%rsp), %rax
	movq	200(%rsp), %rsi
	addq	%rsi, %rax
	addq	$3, %rax
	.p2align	4
.LBB43_150:
	movzbl	(%r9,%rcx), %esi
	movb	%sil, -3(%rax,%rcx)
	movzbl	1(%r9,%rcx), %esi
	movb	%sil, -2(%rax,%rcx)
	movzbl	2(%r9,%rcx), %esi
	movb	%sil, -1(%rax,%rcx)
	movzbl	3(%r9,%rcx), %esi
	movb	%sil, (%rax,%rcx)
	addq	$4, %rcx
	cmpq	%rcx, %rdx
	jne	.LBB43_150
	jmp	.LBB43_151
.LBB43_133:
	movq	%r9, %rsi
	movq	%r9, %r12
	callq	memmove@PLT
	movq	%r12, %r9
.LBB43_151:
	movq	%r13, (%r14)
	testb	%bl, %bl
	jne	.LBB43_153
	movq	%r9, %rdi
	callq	rattle_dealloc@PLT
.LBB43_153:
	movzbl	%r15b, %ecx
	shll	$3, %ecx
	movabsq	$6618611909120, %rax
	shrq	%cl, %rax
	addq	$4408, %rsp
	.cfi_def_cfa_offset 56
	popq	%rbx
	.cfi_def_cfa_offset 48
	popq	%r12
	.cfi_def_cfa_offset 40
	popq	%r13
	.cfi_def_cfa_offset 32
	popq	%r14
	.cfi_def_cfa_offset 24
	popq	%r15
	.cfi_def_cfa_offset 16
	popq	%rbp
	.cfi_def_cfa_offset 8
	retq
.LBB43_136:
	.cfi_def_cfa_offset 4464
	cmpq	$32, %rdx
	jae	.LBB43_138
	xorl	%eax, %eax
	jmp	.LBB43_142
.LBB43_138:
	movq	%rdx, %rax
	andq	$-32, %rax
	movq	208(%rsp), %rcx
	movq	200(%rsp), %rsi
	addq	%rsi, %rcx
	addq	$16, %rcx
	xorl	%esi, %esi
	.p2align	4
.LBB43_139:
	movups	(%r9,%rsi), %xmm0
	movups	16(%r9,%rsi), %xmm1
	movups	%xmm0, -16(%rcx,%rsi)
	movups	%xmm1, (%rcx,%rsi)
	addq	$32, %rsi
	cmpq	%rsi, %rax
	jne	.LBB43_139
	cmpq	%rax, %rdx
	je	.LBB43_151
	testb	$28, %dl
	je	.LBB43_145
.LBB43_142:
	movq	%rax, %rcx
	movq	%rdx, %rax
	andq	$-4, %rax
	.p2align	4
.LBB43_143:
	movl	(%r9,%rcx), %esi
	movl	%esi, (%rdi,%rcx)
	addq	$4, %rcx
	cmpq	%rcx, %rax
	jne	.LBB43_143
	cmpq	%rax, %rdx
	je	.LBB43_151
	jmp	.LBB43_145
.LBB43_154:
	leaq	96(%rsp), %rdi
	movq	%r13, %rsi
	callq	"std_alloc::vec::deque::VecDeque::grow::<#6bcf362cad121e8b>"
	testb	%al, %al
	jne	.LBB43_16
	movb	$1, 136(%rsp)
	testq	%r14, %r14
	je	.LBB43_157
	movq	%r15, %rdi
	callq	rattle_dealloc@PLT
.LBB43_157:
	cmpq	$0, 16(%rsp)
	je	.LBB43_159
	movb	$5, 14(%rsp)
	jmp	.LBB43_30
.LBB43_159:
	movb	$5, 14(%rsp)
	jmp	.LBB43_35
.Lfunc_end43:
	.size	topscedar_run, .Lfunc_end43-topscedar_run
	.cfi_endproc

	.type	.Lstatic.1,@object
	.section	.rodata..Lstatic.1,"a",@progbits
.Lstatic.1:
	.ascii	"insert"
	.size	.Lstatic.1, 6

	.type	.Lstatic.2,@object
	.section	.rodata..Lstatic.2,"a",@progbits
.Lstatic.2:
	.ascii	"within"
	.size	.Lstatic.2, 6

	.type	.Lstatic.3,@object
	.section	.rodata..Lstatic.3,"a",@progbits
.Lstatic.3:
	.ascii	"empty"
	.size	.Lstatic.3, 5

	.type	.Lstatic.4,@object
	.section	.rodata..Lstatic.4,"a",@progbits
.Lstatic.4:
	.ascii	"nonhereditary"
	.size	.Lstatic.4, 13

	.type	.Lstatic.5,@object
	.section	.rodata..Lstatic.5,"a",@progbits
.Lstatic.5:
	.ascii	"linear"
	.size	.Lstatic.5, 6

	.type	.Lstatic.6,@object
	.section	.rodata..Lstatic.6,"a",@progbits
.Lstatic.6:
	.ascii	"nonhereditary-linear"
	.size	.Lstatic.6, 20

	.type	.Lstatic.7,@object
	.section	.rodata..Lstatic.7,"a",@progbits
.Lstatic.7:
	.ascii	"before"
	.size	.Lstatic.7, 6

	.type	.Lstatic.8,@object
	.section	.rodata..Lstatic.8,"a",@progbits
.Lstatic.8:
	.ascii	"at"
	.size	.Lstatic.8, 2

	.type	.Lstatic.9,@object
	.section	.rodata..Lstatic.9,"a",@progbits
.Lstatic.9:
	.ascii	"after"
	.size	.Lstatic.9, 5

	.type	.Lstatic.10,@object
	.section	.rodata..Lstatic.10,"a",@progbits
.Lstatic.10:
	.ascii	"set"
	.size	.Lstatic.10, 3

	.type	.Lstatic.11,@object
	.section	.rodata..Lstatic.11,"a",@progbits
.Lstatic.11:
	.ascii	"rekey"
	.size	.Lstatic.11, 5

	.type	.Lstatic.12,@object
	.section	.rodata..Lstatic.12,"a",@progbits
.Lstatic.12:
	.ascii	"remove"
	.size	.Lstatic.12, 6

	.type	.Lstatic.13,@object
	.section	.rodata..Lstatic.13,"a",@progbits
.Lstatic.13:
	.ascii	"remove-index"
	.size	.Lstatic.13, 12

	.type	.Lstatic.14,@object
	.section	.rodata..Lstatic.14,"a",@progbits
.Lstatic.14:
	.ascii	"invalidate"
	.size	.Lstatic.14, 10

	.type	.Lstatic.15,@object
	.section	.rodata..Lstatic.15,"a",@progbits
.Lstatic.15:
	.ascii	"clear"
	.size	.Lstatic.15, 5

	.type	.Lstatic.16,@object
	.section	.rodata..Lstatic.16,"a",@progbits
.Lstatic.16:
	.ascii	"next-generation"
	.size	.Lstatic.16, 15

	.type	.Lstatic.17,@object
	.section	.rodata.cst8,"aM",@progbits,8
.Lstatic.17:
	.ascii	"compress"
	.size	.Lstatic.17, 8

	.type	.Lstatic.18,@object
	.section	.rodata..Lstatic.18,"a",@progbits
.Lstatic.18:
	.ascii	"canonical"
	.size	.Lstatic.18, 9

	.type	.Lstatic.19,@object
	.section	.rodata.cst4,"aM",@progbits,4
.Lstatic.19:
	.ascii	"find"
	.size	.Lstatic.19, 4

	.type	.Lstatic.20,@object
	.section	.rodata..Lstatic.20,"a",@progbits
.Lstatic.20:
	.ascii	"find-linear"
	.size	.Lstatic.20, 11

	.type	.Lstatic.21,@object
	.section	.rodata..Lstatic.21,"a",@progbits
.Lstatic.21:
	.ascii	"similar"
	.size	.Lstatic.21, 7

	.type	.Lstatic.22,@object
	.section	.rodata..Lstatic.22,"a",@progbits
.Lstatic.22:
	.ascii	"similar-linear"
	.size	.Lstatic.22, 14

	.type	.Lstatic.23,@object
	.section	.rodata..Lstatic.23,"a",@progbits
.Lstatic.23:
	.ascii	"visits"
	.size	.Lstatic.23, 6

	.type	.Lstatic.24,@object
	.section	.rodata..Lstatic.24,"a",@progbits
.Lstatic.24:
	.ascii	"get"
	.size	.Lstatic.24, 3

	.type	.Lstatic.25,@object
	.section	.rodata..Lstatic.25,"a",@progbits
.Lstatic.25:
	.ascii	"first"
	.size	.Lstatic.25, 5

	.type	.Lstatic.26,@object
	.section	.rodata.cst4,"aM",@progbits,4
.Lstatic.26:
	.ascii	"last"
	.size	.Lstatic.26, 4

	.type	.Lstatic.27,@object
	.section	.rodata..Lstatic.27,"a",@progbits
.Lstatic.27:
	.ascii	"neighbours"
	.size	.Lstatic.27, 10

	.type	.Lstatic.28,@object
	.section	.rodata.cst4,"aM",@progbits,4
.Lstatic.28:
	.ascii	"list"
	.size	.Lstatic.28, 4

	.type	.Lstatic.29,@object
	.section	.rodata..Lstatic.29,"a",@progbits
.Lstatic.29:
	.ascii	"ranks"
	.size	.Lstatic.29, 5

	.type	.Lstatic.30,@object
	.section	.rodata..Lstatic.30,"a",@progbits
.Lstatic.30:
	.ascii	"check"
	.size	.Lstatic.30, 5

	.type	.Lstatic.31,@object
	.section	.rodata..Lstatic.31,"a",@progbits
.Lstatic.31:
	.ascii	"reserve"
	.size	.Lstatic.31, 7

	.type	.Lstatic.32,@object
	.section	.rodata..Lstatic.32,"a",@progbits
.Lstatic.32:
	.ascii	"max"
	.size	.Lstatic.32, 3

	.type	.Lstatic.33,@object
	.section	.rodata..Lstatic.33,"a",@progbits
.Lstatic.33:
	.ascii	"drain"
	.size	.Lstatic.33, 5

	.type	.Lstatic.34,@object
	.section	.rodata..Lstatic.34,"a",@progbits
.Lstatic.34:
	.ascii	"stats"
	.size	.Lstatic.34, 5

	.type	.Lstatic.36,@object
	.section	.rodata..Lstatic.36,"a",@progbits
.Lstatic.36:
	.byte	10
	.size	.Lstatic.36, 1

	.type	.Lstatic.37,@object
	.section	.rodata..Lstatic.37,"a",@progbits
.Lstatic.37:
	.ascii	"visits "
	.size	.Lstatic.37, 7

	.type	.Lstatic.38,@object
	.section	.rodata..Lstatic.38,"a",@progbits
.Lstatic.38:
	.ascii	"ok\n"
	.size	.Lstatic.38, 3

	.type	.Lstatic.39,@object
	.section	.rodata..Lstatic.39,"a",@progbits
.Lstatic.39:
	.ascii	"refused reduction\n"
	.size	.Lstatic.39, 18

	.type	.Lstatic.40,@object
	.section	.rodata.cst4,"aM",@progbits,4
.Lstatic.40:
	.ascii	"new "
	.size	.Lstatic.40, 4

	.type	.Lstatic.41,@object
	.section	.rodata..Lstatic.41,"a",@progbits
.Lstatic.41:
	.ascii	"replaced "
	.size	.Lstatic.41, 9

	.type	.Lstatic.42,@object
	.section	.rodata..Lstatic.42,"a",@progbits
.Lstatic.42:
	.byte	46
	.size	.Lstatic.42, 1

	.type	.Lstatic.43,@object
	.section	.rodata.cst4,"aM",@progbits,4
.Lstatic.43:
	.zero	4,32
	.size	.Lstatic.43, 4

	.type	.Lstatic.44,@object
	.section	.rodata..Lstatic.44,"a",@progbits
.Lstatic.44:
	.size	.Lstatic.44, 0

	.type	.Lstatic.45,@object
	.section	.rodata..Lstatic.45,"a",@progbits
.Lstatic.45:
	.byte	45
	.size	.Lstatic.45, 1

	.type	.Lstatic.46,@object
	.section	.rodata..Lstatic.46,"a",@progbits
.Lstatic.46:
	.byte	43
	.size	.Lstatic.46, 1

	.type	.Lstatic.47,@object
	.section	.rodata..Lstatic.47,"a",@progbits
.Lstatic.47:
	.byte	32
	.size	.Lstatic.47, 1

	.type	.Lstatic.48,@object
	.section	.rodata..Lstatic.48,"a",@progbits
.Lstatic.48:
	.byte	58
	.size	.Lstatic.48, 1

	.type	.Lstatic.50,@object
	.section	.rodata..Lstatic.50,"a",@progbits
.Lstatic.50:
	.ascii	"order"
	.size	.Lstatic.50, 5

	.type	.Lstatic.51,@object
	.section	.rodata.cst8,"aM",@progbits,8
.Lstatic.51:
	.ascii	"capacity"
	.size	.Lstatic.51, 8

	.type	.Lstatic.52,@object
	.section	.rodata..Lstatic.52,"a",@progbits
.Lstatic.52:
	.ascii	"maximum"
	.size	.Lstatic.52, 7

	.type	.Lstatic.53,@object
	.section	.rodata..Lstatic.53,"a",@progbits
.Lstatic.53:
	.ascii	"memory"
	.size	.Lstatic.53, 6

	.type	.Lstatic.54,@object
	.section	.rodata.cst8,"aM",@progbits,8
.Lstatic.54:
	.ascii	"similar "
	.size	.Lstatic.54, 8

	.type	.Lstatic.55,@object
	.section	.rodata..Lstatic.55,"a",@progbits
.Lstatic.55:
	.ascii	"none\n"
	.size	.Lstatic.55, 5

	.type	.Lstatic.56,@object
	.section	.rodata.cst4,"aM",@progbits,4
.Lstatic.56:
	.ascii	"less"
	.size	.Lstatic.56, 4

	.type	.Lstatic.57,@object
	.section	.rodata..Lstatic.57,"a",@progbits
.Lstatic.57:
	.ascii	"equal"
	.size	.Lstatic.57, 5

	.type	.Lstatic.58,@object
	.section	.rodata..Lstatic.58,"a",@progbits
.Lstatic.58:
	.ascii	"greater"
	.size	.Lstatic.58, 7

	.type	.Lstatic.59,@object
	.section	.rodata..Lstatic.59,"a",@progbits
.Lstatic.59:
	.ascii	"old"
	.size	.Lstatic.59, 3

	.type	.Lstatic.60,@object
	.section	.rodata.cst4,"aM",@progbits,4
.Lstatic.60:
	.ascii	"item"
	.size	.Lstatic.60, 4

	.type	.Lstatic.62,@object
	.section	.rodata.cst8,"aM",@progbits,8
.Lstatic.62:
	.ascii	"removed "
	.size	.Lstatic.62, 8

	.type	.Lstatic.63,@object
	.section	.rodata..Lstatic.63,"a",@progbits
.Lstatic.63:
	.ascii	" overflow"
	.size	.Lstatic.63, 9

	.type	.Lstatic.64,@object
	.section	.rodata.cst4,"aM",@progbits,4
.Lstatic.64:
	.ascii	"now "
	.size	.Lstatic.64, 4

	.type	.Lstatic.65,@object
	.section	.rodata..Lstatic.65,"a",@progbits
.Lstatic.65:
	.ascii	"cleared"
	.size	.Lstatic.65, 7

	.type	.Lstatic.66,@object
	.section	.rodata..Lstatic.66,"a",@progbits
.Lstatic.66:
	.ascii	"ok"
	.size	.Lstatic.66, 2

	.type	.Lstatic.67,@object
	.section	.rodata..Lstatic.67,"a",@progbits
.Lstatic.67:
	.ascii	"at "
	.size	.Lstatic.67, 3

	.type	.Lstatic.68,@object
	.section	.rodata..Lstatic.68,"a",@progbits
.Lstatic.68:
	.ascii	"neighbours "
	.size	.Lstatic.68, 11

	.type	.Lstatic.69,@object
	.section	.rodata..Lstatic.69,"a",@progbits
.Lstatic.69:
	.ascii	"drained"
	.size	.Lstatic.69, 7

	.type	.Lstatic.70,@object
	.section	.rodata..Lstatic.70,"a",@progbits
.Lstatic.70:
	.byte	61
	.size	.Lstatic.70, 1

	.type	.Lstatic.71,@object
	.section	.rodata..Lstatic.71,"a",@progbits
.Lstatic.71:
	.ascii	"incorrect ordering\n"
	.size	.Lstatic.71, 19

	.type	.Lstatic.72,@object
	.section	.rodata.cst4,"aM",@progbits,4
.Lstatic.72:
	.ascii	"len "
	.size	.Lstatic.72, 4

	.type	.Lstatic.73,@object
	.section	.rodata..Lstatic.73,"a",@progbits
.Lstatic.73:
	.ascii	" capacity "
	.size	.Lstatic.73, 10

	.type	.Lstatic.74,@object
	.section	.rodata..Lstatic.74,"a",@progbits
.Lstatic.74:
	.ascii	" generation "
	.size	.Lstatic.74, 12

	.type	.Lstatic.75,@object
	.section	.rodata..Lstatic.75,"a",@progbits
.Lstatic.75:
	.ascii	" max "
	.size	.Lstatic.75, 5

	.type	.Lstatic.76,@object
	.section	.rodata.cst4,"aM",@progbits,4
.Lstatic.76:
	.ascii	"none"
	.size	.Lstatic.76, 4

	.type	.Lstatic.77,@object
	.section	.rodata..Lstatic.77,"a",@progbits
.Lstatic.77:
	.ascii	"line "
	.size	.Lstatic.77, 5

	.type	.Lstatic.78,@object
	.section	.rodata..Lstatic.78,"a",@progbits
.Lstatic.78:
	.ascii	": "
	.size	.Lstatic.78, 2

	.type	.Lstatic.79,@object
	.section	.rodata..Lstatic.79,"a",@progbits
.Lstatic.79:
	.ascii	"unknown command"
	.size	.Lstatic.79, 15

	.type	.Lstatic.80,@object
	.section	.rodata..Lstatic.80,"a",@progbits
.Lstatic.80:
	.ascii	"wrong arguments"
	.size	.Lstatic.80, 15

	.type	.Lstatic.81,@object
	.section	.rodata..Lstatic.81,"a",@progbits
.Lstatic.81:
	.ascii	"bad number"
	.size	.Lstatic.81, 10

	.type	".Lswitch.table.ord_script::serving::answer_to::<#40a73cb1e87492e9>.320",@object
	.section	".rodata..Lswitch.table.ord_script::serving::answer_to::<#40a73cb1e87492e9>.320","a",@progbits
	.p2align	3, 0x0
".Lswitch.table.ord_script::serving::answer_to::<#40a73cb1e87492e9>.320":
	.quad	6
	.quad	6
	.quad	5
	.quad	13
	.quad	6
	.quad	20
	.quad	6
	.quad	2
	.quad	5
	.quad	3
	.quad	5
	.quad	6
	.quad	12
	.quad	10
	.quad	5
	.quad	15
	.quad	8
	.quad	9
	.quad	4
	.quad	11
	.quad	7
	.quad	14
	.quad	6
	.quad	3
	.quad	5
	.quad	4
	.quad	10
	.quad	4
	.quad	5
	.quad	5
	.quad	7
	.quad	3
	.quad	5
	.quad	5
	.size	".Lswitch.table.ord_script::serving::answer_to::<#40a73cb1e87492e9>.320", 272

	.type	".Lswitch.table.ord_script::serving::answer_to::<#40a73cb1e87492e9>.321",@object
	.section	".data.rel.ro..Lswitch.table.ord_script::serving::answer_to::<#40a73cb1e87492e9>.321","aw",@progbits
	.p2align	3, 0x0
".Lswitch.table.ord_script::serving::answer_to::<#40a73cb1e87492e9>.321":
	.quad	.Lstatic.1
	.quad	.Lstatic.2
	.quad	.Lstatic.3
	.quad	.Lstatic.4
	.quad	.Lstatic.5
	.quad	.Lstatic.6
	.quad	.Lstatic.7
	.quad	.Lstatic.8
	.quad	.Lstatic.9
	.quad	.Lstatic.10
	.quad	.Lstatic.11
	.quad	.Lstatic.12
	.quad	.Lstatic.13
	.quad	.Lstatic.14
	.quad	.Lstatic.15
	.quad	.Lstatic.16
	.quad	.Lstatic.17
	.quad	.Lstatic.18
	.quad	.Lstatic.19
	.quad	.Lstatic.20
	.quad	.Lstatic.21
	.quad	.Lstatic.22
	.quad	.Lstatic.23
	.quad	.Lstatic.24
	.quad	.Lstatic.25
	.quad	.Lstatic.26
	.quad	.Lstatic.27
	.quad	.Lstatic.28
	.quad	.Lstatic.29
	.quad	.Lstatic.30
	.quad	.Lstatic.31
	.quad	.Lstatic.32
	.quad	.Lstatic.33
	.quad	.Lstatic.34
	.size	".Lswitch.table.ord_script::serving::answer_to::<#40a73cb1e87492e9>.321", 272

	.type	".Lswitch.table.ord_script::serving::answer_to::<#40a73cb1e87492e9>.322",@object
	.section	".rodata..Lswitch.table.ord_script::serving::answer_to::<#40a73cb1e87492e9>.322","a",@progbits
".Lswitch.table.ord_script::serving::answer_to::<#40a73cb1e87492e9>.322":
	.asciz	"\000\000\000\000\001\001\000\002\000\003\000\000\000\000\000\000\000\000\000\000\000\000\000\000\000\000\000\000\000\004"
	.size	".Lswitch.table.ord_script::serving::answer_to::<#40a73cb1e87492e9>.322", 31

	.type	".Lswitch.table.ord_script::serving::answer_to::<#40a73cb1e87492e9>.323",@object
	.section	.rodata.cst32,"aM",@progbits,32
	.p2align	3, 0x0
".Lswitch.table.ord_script::serving::answer_to::<#40a73cb1e87492e9>.323":
	.quad	5
	.quad	8
	.quad	7
	.quad	6
	.size	".Lswitch.table.ord_script::serving::answer_to::<#40a73cb1e87492e9>.323", 32

	.type	".Lswitch.table.ord_script::serving::answer_to::<#40a73cb1e87492e9>.324",@object
	.section	".data.rel.ro..Lswitch.table.ord_script::serving::answer_to::<#40a73cb1e87492e9>.324","aw",@progbits
	.p2align	3, 0x0
".Lswitch.table.ord_script::serving::answer_to::<#40a73cb1e87492e9>.324":
	.quad	.Lstatic.50
	.quad	.Lstatic.51
	.quad	.Lstatic.52
	.quad	.Lstatic.53
	.size	".Lswitch.table.ord_script::serving::answer_to::<#40a73cb1e87492e9>.324", 32

	.type	".Lswitch.table.ord_script::serving::answer_to::<#40a73cb1e87492e9>.325",@object
	.section	".rodata..Lswitch.table.ord_script::serving::answer_to::<#40a73cb1e87492e9>.325","a",@progbits
	.p2align	3, 0x0
".Lswitch.table.ord_script::serving::answer_to::<#40a73cb1e87492e9>.325":
	.quad	4
	.quad	5
	.quad	7
	.size	".Lswitch.table.ord_script::serving::answer_to::<#40a73cb1e87492e9>.325", 24

	.type	".Lswitch.table.ord_script::serving::answer_to::<#40a73cb1e87492e9>.326",@object
	.section	".data.rel.ro..Lswitch.table.ord_script::serving::answer_to::<#40a73cb1e87492e9>.326","aw",@progbits
	.p2align	3, 0x0
".Lswitch.table.ord_script::serving::answer_to::<#40a73cb1e87492e9>.326":
	.quad	.Lstatic.56
	.quad	.Lstatic.57
	.quad	.Lstatic.58
	.size	".Lswitch.table.ord_script::serving::answer_to::<#40a73cb1e87492e9>.326", 24

	.ident	"rattle logic=dac8208d650f15bf3e2dc313a14fa4c783a3acf887bdfab66e1714b038d9e11b"
	.section	".note.GNU-stack","",@progbits
#	.addrsig
