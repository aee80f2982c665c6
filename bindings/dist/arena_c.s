# The code of crates/arena_c, as the toolchain rattle-kit-13f logic dac8208d650f15bf compiled it for x86-64 once it was proved. Made by tools/dist.
	.file	"rattle"
	.section	".text.unlikely.chain_base::chain::ChainArena::reallocate_min_capacity::<#1897f9e7b5ba150b>","ax",@progbits
	.p2align	4
	.type	"chain_base::chain::ChainArena::reallocate_min_capacity::<#1897f9e7b5ba150b>",@function
"chain_base::chain::ChainArena::reallocate_min_capacity::<#1897f9e7b5ba150b>":
	.cfi_startproc
	jmp	"arena_base::arena::Arena::reallocate_min_capacity::<#0b7b0a86f2e2672e>"
.Lfunc_end0:
	.size	"chain_base::chain::ChainArena::reallocate_min_capacity::<#1897f9e7b5ba150b>", .Lfunc_end0-"chain_base::chain::ChainArena::reallocate_min_capacity::<#1897f9e7b5ba150b>"
	.cfi_endproc

	.section	".text.unlikely.arena_base::arena::Arena::reallocate_min_capacity::<#0b7b0a86f2e2672e>","ax",@progbits
	.p2align	4
	.type	"arena_base::arena::Arena::reallocate_min_capacity::<#0b7b0a86f2e2672e>",@function
"arena_base::arena::Arena::reallocate_min_capacity::<#0b7b0a86f2e2672e>":
	.cfi_startproc
	pushq	%rbp
	.cfi_def_cfa_offset 16
	pushq	%r15
	.cfi_def_cfa_offset 24
	pushq	%r14
	.cfi_def_cfa_offset 32
	pushq	%r13
	.cfi_def_cfa_offset 40
	pushq	%r12
	.cfi_def_cfa_offset 48
	pushq	%rbx
	.cfi_def_cfa_offset 56
	subq	$24, %rsp
	.cfi_def_cfa_offset 80
	.cfi_offset %rbx, -56
	.cfi_offset %r12, -48
	.cfi_offset %r13, -40
	.cfi_offset %r14, -32
	.cfi_offset %r15, -24
	.cfi_offset %rbp, -16
	movl	$4294967294, %eax
	cmpb	$1, 56(%rdi)
	jne	.LBB1_2
	movq	64(%rdi), %rcx
	cmpq	%rax, %rcx
	cmovbq	%rcx, %rax
.LBB1_2:
	cmpq	%rsi, %rax
	jae	.LBB1_4
	movb	$1, %al
	xorl	%edx, %edx
	jmp	.LBB1_61
.LBB1_4:
	leaq	8(%rdi), %r9
	movq	8(%rdi), %r14
	imulq	$56, %r14, %rax
	leaq	-56(%rax), %rcx
	movq	%r14, %rdx
	.p2align	4
.LBB1_5:
	movq	%rdx, %r13
	testq	%rdx, %rdx
	je	.LBB1_8
	leaq	-1(%r13), %rdx
	movq	(%rdi), %r8
	cmpb	$0, (%r8,%rcx)
	leaq	-56(%rcx), %rcx
	jne	.LBB1_5
	incq	%rdx
	movl	$4294967295, %ecx
	cmpq	%rcx, %rdx
	jae	.LBB1_39
.LBB1_8:
	cmpq	%rsi, %r13
	movq	%rsi, %r12
	cmovaq	%r13, %r12
	movq	32(%rdi), %r8
	xorl	%ecx, %ecx
	testq	%r8, %r8
	movl	$0, %r15d
	cmoveq	%r14, %r15
	movq	%r12, %rbp
	subq	%r14, %rbp
	cmovbq	%rcx, %rbp
	movq	16(%rdi), %rcx
	movq	%rcx, %rdx
	subq	%r14, %rdx
	cmpq	%rdx, %rbp
	jbe	.LBB1_18
	movb	$1, %dl
	addq	%r14, %rbp
	jb	.LBB1_10
	movabsq	$164703072086692425, %r8
	cmpq	%r8, %rbp
	ja	.LBB1_10
	movq	%r9, 8(%rsp)
	movq	%rsi, 16(%rsp)
	testq	%rcx, %rcx
	je	.LBB1_15
	movq	%rdi, %rbx
	movq	(%rdi), %rdi
	imulq	$56, %rbp, %rdx
	movl	$8, %ecx
	movq	%rax, %rsi
	callq	rattle_realloc@PLT
	jmp	.LBB1_16
.LBB1_15:
	movq	%rdi, %rbx
	imulq	$56, %rbp, %rdi
	movl	$8, %esi
	callq	rattle_alloc@PLT
.LBB1_16:
	movq	%rax, %rsi
	movq	%rdx, %rcx
	movb	$1, %al
	testb	$1, %sil
	movb	$1, %dl
	je	.LBB1_61
	movq	%rbx, %rdi
	movq	%rcx, (%rbx)
	movq	%rbp, 16(%rbx)
	movq	32(%rbx), %r8
	movq	16(%rsp), %rsi
	movq	8(%rsp), %r9
.LBB1_18:
	xorl	%ebp, %ebp
	movq	%r12, %rax
	subq	%r8, %rax
	cmovaeq	%rax, %rbp
	movq	40(%rdi), %rax
	movq	%rax, %rcx
	subq	%r8, %rcx
	cmpq	%rcx, %rbp
	jbe	.LBB1_28
	movb	$1, %dl
	addq	%r8, %rbp
	jb	.LBB1_10
	movq	%rbp, %rcx
	shrq	$61, %rcx
	jne	.LBB1_10
	movq	%r9, 8(%rsp)
	movq	%rsi, 16(%rsp)
	testq	%rax, %rax
	je	.LBB1_25
	movq	%rdi, %rbx
	movq	24(%rdi), %rdi
	shlq	$2, %r8
	leaq	(,%rbp,4), %rdx
	movl	$4, %ecx
	movq	%r8, %rsi
	callq	rattle_realloc@PLT
	jmp	.LBB1_26
.LBB1_10:
	movb	$1, %al
	jmp	.LBB1_61
.LBB1_25:
	movq	%rdi, %rbx
	leaq	(,%rbp,4), %rdi
	movl	$4, %esi
	callq	rattle_alloc@PLT
.LBB1_26:
	movq	%rax, %rsi
	movq	%rdx, %rcx
	movb	$1, %al
	testb	$1, %sil
	movb	$1, %dl
	je	.LBB1_61
	movq	%rbx, %rdi
	movq	%rcx, 24(%rbx)
	movq	%rbp, 40(%rbx)
	movq	16(%rsp), %rsi
	movq	8(%rsp), %r9
.LBB1_28:
	movq	(%r9), %rax
	cmpq	%rax, %r12
	jbe	.LBB1_35
	movl	%r12d, %edx
	subl	%eax, %edx
	leaq	1(%rax), %rcx
	testb	$1, %dl
	je	.LBB1_31
	movq	(%rdi), %rdx
	imulq	$56, %rax, %rax
	movq	$1, (%rdx,%rax)
	xorps	%xmm0, %xmm0
	movups	%xmm0, 8(%rdx,%rax)
	movups	%xmm0, 24(%rdx,%rax)
	movups	%xmm0, 40(%rdx,%rax)
	movq	%rcx, 8(%rdi)
	movq	%rcx, %rax
.LBB1_31:
	movq	%r12, %rbp
	cmpq	%rcx, %r12
	je	.LBB1_36
	cmpq	%r13, %rsi
	cmovaq	%rsi, %r13
	negq	%r13
	imulq	$56, %rax, %rcx
	incq	%rax
	.p2align	4
.LBB1_33:
	movq	(%rdi), %rdx
	movq	$1, (%rdx,%rcx)
	xorps	%xmm0, %xmm0
	movups	%xmm0, 8(%rdx,%rcx)
	movups	%xmm0, 24(%rdx,%rcx)
	movups	%xmm0, 40(%rdx,%rcx)
	movq	%rax, 8(%rdi)
	movq	(%rdi), %rdx
	movq	$1, 56(%rdx,%rcx)
	leaq	1(%rax), %rsi
	movups	%xmm0, 64(%rdx,%rcx)
	movups	%xmm0, 80(%rdx,%rcx)
	movups	%xmm0, 96(%rdx,%rcx)
	movq	%rsi, 8(%rdi)
	leaq	(%rax,%r13), %rdx
	addq	$2, %rdx
	addq	$2, %rax
	addq	$112, %rcx
	cmpq	$1, %rdx
	jne	.LBB1_33
	movq	%r12, %rbp
	jmp	.LBB1_36
.LBB1_35:
	movq	%rax, %rbp
.LBB1_36:
	leaq	32(%rdi), %r13
	imulq	$56, %rbp, %rax
	addq	$-56, %rax
	.p2align	4
.LBB1_37:
	cmpq	%rbp, %r12
	jae	.LBB1_40
	decq	%rbp
	movq	%rbp, 8(%rdi)
	movq	(%rdi), %rcx
	cmpb	$1, (%rcx,%rax)
	leaq	-56(%rax), %rax
	je	.LBB1_37
.LBB1_39:
	ud2
.LBB1_40:
	cmpq	$0, 32(%rdi)
	je	.LBB1_42
	movq	$0, (%r13)
.LBB1_42:
	cmpq	%rbp, %r15
	jae	.LBB1_50
	addq	(%rdi), %rax
	xorl	%ecx, %ecx
	jmp	.LBB1_45
	.p2align	4
.LBB1_44:
	addq	$-56, %rax
	movq	%rdx, %rbp
	cmpq	%rdx, %r15
	jae	.LBB1_49
.LBB1_45:
	leaq	-1(%rbp), %rdx
	cmpq	%rdx, %r14
	jbe	.LBB1_47
	cmpb	$1, (%rax)
	jne	.LBB1_44
.LBB1_47:
	movl	$4294967295, %esi
	cmpq	%rsi, %rbp
	jae	.LBB1_39
	movq	24(%rdi), %rsi
	movl	%ebp, (%rsi,%rcx,4)
	incq	%rcx
	movq	%rcx, 32(%rdi)
	jmp	.LBB1_44
.LBB1_49:
	movq	(%r9), %rbp
.LBB1_50:
	cmpq	%rbp, 16(%rdi)
	jbe	.LBB1_55
	testq	%rbp, %rbp
	je	.LBB1_54
	movq	(%rdi), %rax
	imulq	$56, %rbp, %rdx
	movl	$8, %ecx
	movq	%rdi, %rbx
	movq	%rax, %rdi
	movq	%rdx, %rsi
	callq	rattle_realloc@PLT
	movq	%rbx, %rdi
	testb	$1, %al
	je	.LBB1_55
	movq	%rdx, (%rdi)
	movq	%rbp, 16(%rdi)
	jmp	.LBB1_55
.LBB1_54:
	movq	(%rdi), %rax
	movq	%rdi, %rbx
	movq	%rax, %rdi
	movq	%r9, %r14
	callq	rattle_dealloc@PLT
	movq	%rbx, %rdi
	movq	%rsp, %rax
	movq	%rax, (%rbx)
	xorps	%xmm0, %xmm0
	movups	%xmm0, (%r14)
.LBB1_55:
	movq	32(%rdi), %rsi
	cmpq	%rbp, %rsi
	cmovaq	%rsi, %rbp
	cmpq	%rbp, 40(%rdi)
	jbe	.LBB1_60
	testq	%rbp, %rbp
	je	.LBB1_59
	movq	%rdi, %rbx
	movq	24(%rdi), %rdi
	shlq	$2, %rsi
	leaq	(,%rbp,4), %rdx
	movl	$4, %ecx
	callq	rattle_realloc@PLT
	testb	$1, %al
	je	.LBB1_60
	movq	%rdx, 24(%rbx)
	movq	%rbp, 40(%rbx)
	jmp	.LBB1_60
.LBB1_59:
	movq	24(%rdi), %rax
	movq	%rdi, %rbx
	movq	%rax, %rdi
	callq	rattle_dealloc@PLT
	movq	%rsp, %rax
	movq	%rax, 24(%rbx)
	xorps	%xmm0, %xmm0
	movups	%xmm0, (%r13)
.LBB1_60:
	xorl	%edx, %edx
	xorl	%eax, %eax
.LBB1_61:
	addq	$24, %rsp
	.cfi_def_cfa_offset 56
	popq	%rbx
	.cfi_def_cfa_offset 48
	popq	%r12
	.cfi_def_cfa_offset 40
	popq	%r13
	.cfi_def_cfa_offset 32
	popq	%r14
	.cfi_def_cfa_offset 24
	popq	%r15
	.cfi_def_cfa_offset 16
	popq	%rbp
	.cfi_def_cfa_offset 8
	retq
.Lfunc_end1:
	.size	"arena_base::arena::Arena::reallocate_min_capacity::<#0b7b0a86f2e2672e>", .Lfunc_end1-"arena_base::arena::Arena::reallocate_min_capacity::<#0b7b0a86f2e2672e>"
	.cfi_endproc

	.section	".text.sorted_arena::arena::SortedArena::remove::<#1b35315d4ce24113>","ax",@progbits
	.p2align	4
	.type	"sorted_arena::arena::SortedArena::remove::<#1b35315d4ce24113>",@function
"sorted_arena::arena::SortedArena::remove::<#1b35315d4ce24113>":
	.cfi_startproc
	pushq	%rbp
	.cfi_def_cfa_offset 16
	pushq	%r15
	.cfi_def_cfa_offset 24
	pushq	%r14
	.cfi_def_cfa_offset 32
	pushq	%r12
	.cfi_def_cfa_offset 40
	pushq	%rbx
	.cfi_def_cfa_offset 48
	.cfi_offset %rbx, -48
	.cfi_offset %r12, -40
	.cfi_offset %r14, -32
	.cfi_offset %r15, -24
	.cfi_offset %rbp, -16
	cmpb	$1, 96(%rsi)
	jne	.LBB2_6
	cmpb	$1, 80(%rsi)
	jne	.LBB2_6
	movl	84(%rsi), %eax
	leaq	-1(%rax), %r8
	cmpq	8(%rsi), %r8
	jae	.LBB2_6
	movq	(%rsi), %r9
	imulq	$56, %r8, %r8
	cmpb	$0, (%r9,%r8)
	sete	%r8b
	cmpl	%edx, %eax
	sete	%bl
	andb	%r8b, %bl
	movl	%edx, %eax
	leaq	-1(%rax), %r9
	cmpq	8(%rsi), %r9
	jb	.LBB2_7
	jmp	.LBB2_22
.LBB2_6:
	xorl	%ebx, %ebx
	movl	%edx, %eax
	leaq	-1(%rax), %r9
	cmpq	8(%rsi), %r9
	jae	.LBB2_22
.LBB2_7:
	movq	(%rsi), %r8
	imulq	$56, %r9, %r9
	cmpb	$0, (%r8,%r9)
	jne	.LBB2_22
	cmpq	%rcx, 8(%r8,%r9)
	jne	.LBB2_22
	imulq	$56, %rax, %r15
	cmpb	$0, -56(%r8,%r15)
	jne	.LBB2_24
	movq	%rdi, %r14
	movl	-8(%r8,%r15), %r8d
	xorl	%ecx, %ecx
	testl	%r8d, %r8d
	setne	%cl
	leaq	88(%rsi), %rax
	movq	%rsi, %rdi
	movq	%rsi, %r12
	movq	%rax, %rsi
	movl	%edx, %ebp
	callq	"ord_tree::detach::detach::<#e3604ca6c48fba3c>"
	movq	(%r12), %rsi
	cmpb	$0, -56(%rsi,%r15)
	jne	.LBB2_24
	movq	%r12, %rax
	addq	%r15, %rsi
	movl	-8(%rsi), %ecx
	movl	-4(%rsi), %edx
	movups	-32(%rsi), %xmm0
	movq	$1, -56(%rsi)
	xorps	%xmm1, %xmm1
	movups	%xmm1, -48(%rsi)
	movups	%xmm1, -32(%rsi)
	movups	%xmm1, -16(%rsi)
	movq	24(%r12), %rsi
	movq	32(%r12), %rdi
	movl	%ebp, (%rsi,%rdi,4)
	incq	%rdi
	movq	48(%r12), %rsi
	incq	%rsi
	movl	$2, %r8d
	cmovneq	%rsi, %r8
	xorl	%esi, %esi
	movq	%rdi, 32(%r12)
	movq	%r8, 48(%r12)
	testq	%rcx, %rcx
	setne	%dil
	je	.LBB2_14
	movq	(%rax), %r8
	imulq	$56, %rcx, %r9
	cmpb	$0, -56(%r8,%r9)
	jne	.LBB2_24
	movl	%edx, -4(%r8,%r9)
.LBB2_14:
	testl	%edx, %edx
	je	.LBB2_17
	movq	(%rax), %r8
	imulq	$56, %rdx, %r9
	cmpb	$0, -56(%r8,%r9)
	jne	.LBB2_24
	movl	%ecx, -8(%r8,%r9)
.LBB2_17:
	testl	%ecx, %ecx
	jne	.LBB2_19
	xorl	%r8d, %r8d
	testl	%edx, %edx
	setne	%r8b
	movl	%r8d, 72(%rax)
	movl	%edx, 76(%rax)
.LBB2_19:
	testl	%edx, %edx
	jne	.LBB2_21
	movb	%dil, %sil
	movl	%esi, 80(%rax)
	movl	%ecx, 84(%rax)
.LBB2_21:
	movb	%bl, 96(%rax)
	movq	$1, (%r14)
	movups	%xmm0, 8(%r14)
	jmp	.LBB2_23
.LBB2_22:
	xorps	%xmm0, %xmm0
	movups	%xmm0, (%rdi)
	movq	$0, 16(%rdi)
.LBB2_23:
	popq	%rbx
	.cfi_def_cfa_offset 40
	popq	%r12
	.cfi_def_cfa_offset 32
	popq	%r14
	.cfi_def_cfa_offset 24
	popq	%r15
	.cfi_def_cfa_offset 16
	popq	%rbp
	.cfi_def_cfa_offset 8
	retq
.LBB2_24:
	.cfi_def_cfa_offset 48
	ud2
.Lfunc_end2:
	.size	"sorted_arena::arena::SortedArena::remove::<#1b35315d4ce24113>", .Lfunc_end2-"sorted_arena::arena::SortedArena::remove::<#1b35315d4ce24113>"
	.cfi_endproc

	.section	".text.ord_tree::detach::detach::<#e3604ca6c48fba3c>","ax",@progbits
	.p2align	4
	.type	"ord_tree::detach::detach::<#e3604ca6c48fba3c>",@function
"ord_tree::detach::detach::<#e3604ca6c48fba3c>":
	.cfi_startproc
	pushq	%rbp
	.cfi_def_cfa_offset 16
	pushq	%r15
	.cfi_def_cfa_offset 24
	pushq	%r14
	.cfi_def_cfa_offset 32
	pushq	%r13
	.cfi_def_cfa_offset 40
	pushq	%r12
	.cfi_def_cfa_offset 48
	pushq	%rbx
	.cfi_def_cfa_offset 56
	.cfi_offset %rbx, -56
	.cfi_offset %r12, -48
	.cfi_offset %r13, -40
	.cfi_offset %r14, -32
	.cfi_offset %r15, -24
	.cfi_offset %rbp, -16
	movq	(%rdi), %r11
	movl	%edx, %eax
	imulq	$56, %rax, %r10
	cmpb	$0, -56(%r11,%r10)
	jne	.LBB3_113
	cmpl	$0, -40(%r11,%r10)
	movq	%rsi, -16(%rsp)
	je	.LBB3_8
	testb	$1, %cl
	je	.LBB3_113
	movl	%r8d, %eax
	imulq	$56, %rax, %rcx
	cmpb	$0, -56(%r11,%rcx)
	jne	.LBB3_113
	movl	-40(%r11,%rcx), %r12d
	movl	-16(%r11,%rcx), %r9d
	testq	%r9, %r9
	je	.LBB3_12
	imulq	$56, %r9, %rbx
	cmpb	$0, -56(%r11,%rbx)
	jne	.LBB3_113
	movl	-40(%r11,%rbx), %eax
	cmpl	%r8d, %eax
	setne	%r15b
	sete	%bpl
	testl	%eax, %eax
	sete	%al
	setne	%r14b
	orb	%r15b, %al
	movzbl	%al, %r13d
	shlq	$32, %r13
	orq	%r9, %r13
	andb	%bpl, %r14b
	cmpb	$1, %r14b
	jne	.LBB3_13
	movl	%r12d, -40(%r11,%rbx)
	testl	%r12d, %r12d
	jne	.LBB3_14
	jmp	.LBB3_16
.LBB3_8:
	movl	-36(%r11,%r10), %ebx
	movl	-16(%r11,%r10), %ecx
	testl	%ecx, %ecx
	je	.LBB3_31
	imulq	$56, %rcx, %r8
	cmpb	$0, -56(%r11,%r8)
	jne	.LBB3_113
	movl	-40(%r11,%r8), %eax
	testl	%eax, %eax
	sete	%r9b
	cmpl	%edx, %eax
	setne	%al
	orb	%r9b, %al
	movzbl	%al, %edx
	movq	%rdx, %r13
	shlq	$32, %r13
	orq	%rcx, %r13
	testb	%dl, %dl
	jne	.LBB3_32
	movl	%ebx, -40(%r11,%r8)
	testl	%ebx, %ebx
	jne	.LBB3_33
	jmp	.LBB3_35
.LBB3_12:
	xorl	%eax, %eax
	testl	%r12d, %r12d
	setne	%al
	movl	%eax, (%rsi)
	movl	%r12d, 4(%rsi)
	xorl	%r13d, %r13d
	testl	%r12d, %r12d
	jne	.LBB3_14
	jmp	.LBB3_16
.LBB3_13:
	movl	%r12d, -36(%r11,%rbx)
	testl	%r12d, %r12d
	je	.LBB3_16
.LBB3_14:
	movq	(%rdi), %r11
	imulq	$56, %r12, %rsi
	cmpb	$0, -56(%r11,%rsi)
	jne	.LBB3_113
	movl	%r9d, -16(%r11,%rsi)
.LBB3_16:
	movq	(%rdi), %rsi
	cmpb	$0, -56(%rsi,%r10)
	jne	.LBB3_113
	movl	-16(%rsi,%r10), %r11d
	movl	-40(%rsi,%r10), %ebx
	movl	-36(%rsi,%r10), %r14d
	movzbl	-12(%rsi,%r10), %r10d
	testq	%r11, %r11
	je	.LBB3_21
	imulq	$56, %r11, %r15
	cmpb	$0, -56(%rsi,%r15)
	jne	.LBB3_113
	movl	-40(%rsi,%r15), %eax
	testl	%eax, %eax
	sete	%bpl
	cmpl	%edx, %eax
	setne	%al
	orb	%bpl, %al
	jne	.LBB3_23
	movl	%r8d, -40(%rsi,%r15)
	testl	%ebx, %ebx
	jne	.LBB3_24
	jmp	.LBB3_22
.LBB3_21:
	movq	-16(%rsp), %rax
	movl	$1, (%rax)
	movl	%r8d, 4(%rax)
	testl	%ebx, %ebx
	je	.LBB3_22
.LBB3_24:
	movq	(%rdi), %rsi
	imulq	$56, %rbx, %r15
	cmpb	$0, -56(%rsi,%r15)
	jne	.LBB3_113
	movl	%r8d, -16(%rsi,%r15)
	testl	%r14d, %r14d
	jne	.LBB3_26
	jmp	.LBB3_28
.LBB3_23:
	movl	%r8d, -36(%rsi,%r15)
	testl	%ebx, %ebx
	jne	.LBB3_24
.LBB3_22:
	testl	%r14d, %r14d
	je	.LBB3_28
.LBB3_26:
	movq	(%rdi), %rsi
	imulq	$56, %r14, %r15
	cmpb	$0, -56(%rsi,%r15)
	jne	.LBB3_113
	movl	%r8d, -16(%rsi,%r15)
.LBB3_28:
	movq	(%rdi), %rsi
	cmpb	$0, -56(%rsi,%rcx)
	jne	.LBB3_113
	cmpl	%r13d, %edx
	cmovnel	%r13d, %r8d
	movl	%r11d, -16(%rsi,%rcx)
	movl	%ebx, -40(%rsi,%rcx)
	movl	%r14d, -36(%rsi,%rcx)
	movb	%r10b, -12(%rsi,%rcx)
	testl	%r9d, %r9d
	je	.LBB3_112
	movabsq	$4294967296, %rcx
	andq	%rcx, %r13
	orq	%r8, %r13
	jmp	.LBB3_36
.LBB3_31:
	xorl	%eax, %eax
	testl	%ebx, %ebx
	setne	%al
	movl	%eax, (%rsi)
	movl	%ebx, 4(%rsi)
	xorl	%r13d, %r13d
	testl	%ebx, %ebx
	jne	.LBB3_33
	jmp	.LBB3_35
.LBB3_32:
	movl	%ebx, -36(%r11,%r8)
	testl	%ebx, %ebx
	je	.LBB3_35
.LBB3_33:
	movq	(%rdi), %rdx
	imulq	$56, %rbx, %rsi
	cmpb	$0, -56(%rdx,%rsi)
	jne	.LBB3_113
	movl	%ecx, -16(%rdx,%rsi)
.LBB3_35:
	testl	%ecx, %ecx
	je	.LBB3_112
.LBB3_36:
	movq	(%rdi), %r11
	movl	%r13d, %ecx
	imulq	$56, %rcx, %rcx
	cmpb	$0, -56(%r11,%rcx)
	jne	.LBB3_113
	leaq	(%r11,%rcx), %r9
	movq	%r13, %rdx
	shrq	$32, %rdx
	sete	%r8b
	.p2align	4
.LBB3_38:
	movl	-16(%r9), %edx
	movzbl	-12(%r9), %r12d
	movl	%r8d, %esi
	notb	%sil
	movzbl	%sil, %ebx
	andl	$1, %ebx
	shll	$2, %ebx
	orq	$-40, %rbx
	movl	(%r9,%rbx), %esi
	testq	%rsi, %rsi
	je	.LBB3_41
	imulq	$56, %rsi, %rsi
	cmpb	$0, -56(%r11,%rsi)
	jne	.LBB3_113
	movzbl	-12(%r11,%rsi), %esi
	jmp	.LBB3_42
	.p2align	4
.LBB3_41:
	xorl	%esi, %esi
.LBB3_42:
	movzbl	%r8b, %ebp
	andl	$1, %ebp
	shll	$2, %ebp
	orq	$-40, %rbp
	movl	(%r9,%rbp), %r14d
	testq	%r14, %r14
	je	.LBB3_47
	movl	%r12d, %r10d
	subb	%sil, %r10b
	cmpb	$3, %r10b
	jb	.LBB3_112
	movq	%r13, -24(%rsp)
	imulq	$56, %r14, %r15
	cmpb	$0, -56(%r11,%r15)
	jne	.LBB3_113
	movq	%rdi, %rax
	leaq	(%r11,%r15), %r13
	movzbl	-12(%r13), %esi
	movl	%r12d, %edi
	subb	%sil, %dil
	cmpb	$2, %dil
	jne	.LBB3_48
	decb	%r12b
	movb	%r12b, -12(%r9)
	movq	%rax, %rdi
	movq	-24(%rsp), %r13
	movq	(%rdi), %r11
	cmpb	$0, -56(%r11,%rcx)
	je	.LBB3_58
	jmp	.LBB3_113
	.p2align	4
.LBB3_47:
	movb	$1, -12(%r9)
	movq	(%rdi), %r11
	cmpb	$0, -56(%r11,%rcx)
	je	.LBB3_58
	jmp	.LBB3_113
	.p2align	4
.LBB3_48:
	movl	-16(%r13), %edi
	movq	%rdi, -8(%rsp)
	movl	(%r13,%rbp), %r9d
	testq	%r9, %r9
	je	.LBB3_53
	imulq	$56, %r9, %r9
	cmpb	$0, -56(%r11,%r9)
	jne	.LBB3_113
	movzbl	-12(%r11,%r9), %r10d
	movl	(%r13,%rbx), %r9d
	testq	%r9, %r9
	je	.LBB3_54
.LBB3_51:
	movq	%r9, %rdi
	imulq	$56, %r9, %r9
	cmpb	$0, -56(%r11,%r9)
	jne	.LBB3_113
	movzbl	-12(%r11,%r9), %r9d
	movl	%r9d, -28(%rsp)
	movl	%esi, %r9d
	subb	%r10b, %r9b
	cmpb	$1, %r9b
	jne	.LBB3_55
	jmp	.LBB3_61
.LBB3_53:
	xorl	%r10d, %r10d
	movl	(%r13,%rbx), %r9d
	testq	%r9, %r9
	jne	.LBB3_51
.LBB3_54:
	movq	%r9, %rdi
	movl	$0, -28(%rsp)
	movl	%esi, %r9d
	subb	%r10b, %r9b
	cmpb	$1, %r9b
	je	.LBB3_61
.LBB3_55:
	movl	%esi, %r9d
	subb	-28(%rsp), %r9b
	cmpb	$2, %r9b
	jne	.LBB3_66
	decb	%sil
	movb	%sil, -12(%r13)
	movq	(%rax), %rsi
	cmpb	$0, -56(%rsi,%rcx)
	jne	.LBB3_113
	movq	%rax, %rdi
	decb	%r12b
	movb	%r12b, -12(%rsi,%rcx)
	movq	-24(%rsp), %r13
	movq	(%rdi), %r11
	cmpb	$0, -56(%r11,%rcx)
	jne	.LBB3_113
.LBB3_58:
	movl	-16(%r11,%rcx), %edx
	testq	%rdx, %rdx
	je	.LBB3_112
	imulq	$56, %rdx, %rcx
	cmpb	$0, -56(%r11,%rcx)
	jne	.LBB3_113
	leaq	(%r11,%rcx), %r9
	movl	-40(%r9), %esi
	testl	%esi, %esi
	setne	%al
	cmpl	%r13d, %esi
	sete	%r8b
	andb	%al, %r8b
	movl	%edx, %r13d
	jmp	.LBB3_38
.LBB3_61:
	movq	%rdx, %rsi
	testl	%esi, %esi
	movl	-28(%rsp), %r10d
	je	.LBB3_72
	imulq	$56, %rsi, %rsi
	cmpb	$0, -56(%r11,%rsi)
	movq	-24(%rsp), %rbx
	jne	.LBB3_113
	movl	-40(%r11,%rsi), %r9d
	testl	%r9d, %r9d
	je	.LBB3_74
	cmpl	%ebx, %r9d
	jne	.LBB3_74
	movl	%r14d, -40(%r11,%rsi)
	testl	%edi, %edi
	jne	.LBB3_75
	jmp	.LBB3_77
.LBB3_66:
	testl	%edi, %edi
	je	.LBB3_113
	imulq	$56, %rdi, %r13
	cmpb	$0, -56(%r11,%r13)
	jne	.LBB3_113
	leaq	(%r11,%r13), %rsi
	movl	(%rsi,%rbp), %esi
	movq	-8(%rsp), %rdx
	testl	%edx, %edx
	je	.LBB3_73
	imulq	$56, %rdx, %r10
	cmpb	$0, -56(%r11,%r10)
	jne	.LBB3_113
	cmpl	%r14d, -40(%r11,%r10)
	jne	.LBB3_84
	movl	%edi, -40(%r11,%r10)
	testl	%esi, %esi
	jne	.LBB3_85
	jmp	.LBB3_87
.LBB3_72:
	movq	-16(%rsp), %rsi
	movl	$1, (%rsi)
	movl	%r14d, 4(%rsi)
	movq	-24(%rsp), %rbx
	testl	%edi, %edi
	jne	.LBB3_75
	jmp	.LBB3_77
.LBB3_73:
	movq	-16(%rsp), %r9
	movl	$1, (%r9)
	movl	%edi, 4(%r9)
	testl	%esi, %esi
	jne	.LBB3_85
	jmp	.LBB3_87
.LBB3_74:
	movl	%r14d, -36(%r11,%rsi)
	testl	%edi, %edi
	je	.LBB3_77
.LBB3_75:
	movq	(%rax), %rsi
	imulq	$56, %rdi, %r9
	cmpb	$0, -56(%rsi,%r9)
	jne	.LBB3_113
	movl	%ebx, -16(%rsi,%r9)
.LBB3_77:
	movq	(%rax), %rsi
	cmpb	$0, -56(%rsi,%rcx)
	jne	.LBB3_113
	incb	%r10b
	testb	$1, %r8b
	je	.LBB3_81
	movl	%edi, -36(%rsi,%rcx)
	movl	%r14d, -16(%rsi,%rcx)
	movb	%r10b, -12(%rsi,%rcx)
	movq	(%rax), %rcx
	cmpb	$0, -56(%rcx,%r15)
	jne	.LBB3_113
	addq	%r15, %rcx
	movl	%ebx, -40(%rcx)
	jmp	.LBB3_83
.LBB3_81:
	movl	%edi, -40(%rsi,%rcx)
	movl	%r14d, -16(%rsi,%rcx)
	movb	%r10b, -12(%rsi,%rcx)
	movq	(%rax), %rcx
	cmpb	$0, -56(%rcx,%r15)
	jne	.LBB3_113
	addq	%r15, %rcx
	movl	%ebx, -36(%rcx)
.LBB3_83:
	movl	%edx, -16(%rcx)
	jmp	.LBB3_111
.LBB3_84:
	movl	%edi, -36(%r11,%r10)
	testl	%esi, %esi
	je	.LBB3_87
.LBB3_85:
	movq	(%rax), %r10
	imulq	$56, %rsi, %r9
	cmpb	$0, -56(%r10,%r9)
	jne	.LBB3_113
	movl	%r14d, -16(%r10,%r9)
.LBB3_87:
	movq	(%rax), %r10
	cmpb	$0, -56(%r10,%r15)
	jne	.LBB3_113
	testb	$1, %r8b
	je	.LBB3_91
	movl	%esi, -40(%r10,%r15)
	movl	%edi, -16(%r10,%r15)
	movl	-28(%rsp), %esi
	movb	%sil, -12(%r10,%r15)
	movq	(%rax), %rsi
	cmpb	$0, -56(%rsi,%r13)
	jne	.LBB3_113
	addq	%r13, %rsi
	movl	%r14d, -36(%rsi)
	jmp	.LBB3_93
.LBB3_91:
	movl	%esi, -36(%r10,%r15)
	movl	%edi, -16(%r10,%r15)
	movl	-28(%rsp), %esi
	movb	%sil, -12(%r10,%r15)
	movq	(%rax), %rsi
	cmpb	$0, -56(%rsi,%r13)
	jne	.LBB3_113
	addq	%r13, %rsi
	movl	%r14d, -40(%rsi)
.LBB3_93:
	movl	%edx, -16(%rsi)
	movb	%r12b, -12(%rsi)
	movq	(%rax), %r14
	cmpb	$0, -56(%r14,%r13)
	jne	.LBB3_113
	cmpb	$0, -56(%r14,%rcx)
	jne	.LBB3_113
	leaq	(%r14,%r13), %rsi
	movl	-16(%r14,%rcx), %r11d
	movl	(%rsi,%rbx), %esi
	testq	%r11, %r11
	je	.LBB3_100
	imulq	$56, %r11, %r10
	cmpb	$0, -56(%r14,%r10)
	jne	.LBB3_113
	movl	-40(%r14,%r10), %r9d
	testl	%r9d, %r9d
	je	.LBB3_101
	cmpl	-24(%rsp), %r9d
	jne	.LBB3_101
	movl	%edi, -40(%r14,%r10)
	testl	%esi, %esi
	jne	.LBB3_102
	jmp	.LBB3_104
.LBB3_100:
	movq	-16(%rsp), %r9
	movl	$1, (%r9)
	movl	%edi, 4(%r9)
	testl	%esi, %esi
	jne	.LBB3_102
	jmp	.LBB3_104
.LBB3_101:
	movl	%edi, -36(%r14,%r10)
	testl	%esi, %esi
	je	.LBB3_104
.LBB3_102:
	movq	(%rax), %r10
	imulq	$56, %rsi, %r9
	cmpb	$0, -56(%r10,%r9)
	jne	.LBB3_113
	movq	-24(%rsp), %rdx
	movl	%edx, -16(%r10,%r9)
.LBB3_104:
	movq	(%rax), %r10
	cmpb	$0, -56(%r10,%rcx)
	jne	.LBB3_113
	testb	$1, %r8b
	je	.LBB3_108
	movl	%esi, -36(%r10,%rcx)
	movl	%edi, -16(%r10,%rcx)
	movl	-28(%rsp), %esi
	movb	%sil, -12(%r10,%rcx)
	movq	(%rax), %rcx
	cmpb	$0, -56(%rcx,%r13)
	jne	.LBB3_113
	addq	%r13, %rcx
	movq	-24(%rsp), %rax
	movl	%eax, -40(%rcx)
	jmp	.LBB3_110
.LBB3_108:
	movl	%esi, -40(%r10,%rcx)
	movl	%edi, -16(%r10,%rcx)
	movl	-28(%rsp), %esi
	movb	%sil, -12(%r10,%rcx)
	movq	(%rax), %rcx
	cmpb	$0, -56(%rcx,%r13)
	jne	.LBB3_113
	addq	%r13, %rcx
	movq	-24(%rsp), %rax
	movl	%eax, -36(%rcx)
.LBB3_110:
	movl	%r11d, -16(%rcx)
.LBB3_111:
	movb	%r12b, -12(%rcx)
.LBB3_112:
	popq	%rbx
	.cfi_def_cfa_offset 48
	popq	%r12
	.cfi_def_cfa_offset 40
	popq	%r13
	.cfi_def_cfa_offset 32
	popq	%r14
	.cfi_def_cfa_offset 24
	popq	%r15
	.cfi_def_cfa_offset 16
	popq	%rbp
	.cfi_def_cfa_offset 8
	retq
.LBB3_113:
	.cfi_def_cfa_offset 56
	ud2
.Lfunc_end3:
	.size	"ord_tree::detach::detach::<#e3604ca6c48fba3c>", .Lfunc_end3-"ord_tree::detach::detach::<#e3604ca6c48fba3c>"
	.cfi_endproc

	.section	".text.sorted_arena::arena::SortedArena::insert::<#1599bed149cb2453>","ax",@progbits
	.p2align	4
	.type	"sorted_arena::arena::SortedArena::insert::<#1599bed149cb2453>",@function
"sorted_arena::arena::SortedArena::insert::<#1599bed149cb2453>":
	.cfi_startproc
	pushq	%rbp
	.cfi_def_cfa_offset 16
	pushq	%r15
	.cfi_def_cfa_offset 24
	pushq	%r14
	.cfi_def_cfa_offset 32
	pushq	%r13
	.cfi_def_cfa_offset 40
	pushq	%r12
	.cfi_def_cfa_offset 48
	pushq	%rbx
	.cfi_def_cfa_offset 56
	subq	$40, %rsp
	.cfi_def_cfa_offset 96
	.cfi_offset %rbx, -56
	.cfi_offset %r12, -48
	.cfi_offset %r13, -40
	.cfi_offset %r14, -32
	.cfi_offset %r15, -24
	.cfi_offset %rbp, -16
	movq	%rcx, 32(%rsp)
	cmpb	$1, 80(%rsi)
	movq	8(%rsi), %r8
	jne	.LBB4_3
	movl	84(%rsi), %ebx
	leaq	-1(%rbx), %rax
	cmpq	%r8, %rax
	jae	.LBB4_3
	movq	(%rsi), %r9
	imulq	$56, %rax, %rax
	cmpb	$0, (%r9,%rax)
	je	.LBB4_10
.LBB4_3:
	leaq	32(%rsi), %r14
	movq	32(%rsi), %rax
	xorl	%ebp, %ebp
	cmpb	$1, 88(%rsi)
	jne	.LBB4_17
	movl	92(%rsi), %r9d
	movq	(%rsi), %rcx
	.p2align	4
.LBB4_5:
	movl	%r9d, %ebx
	movl	%r9d, %r9d
	imulq	$56, %r9, %r9
	cmpb	$0, -56(%rcx,%r9)
	jne	.LBB4_61
	movq	-32(%rcx,%r9), %r10
	movl	-40(%rcx,%r9), %r11d
	movl	-36(%rcx,%r9), %r9d
	movl	%r9d, %ebp
	orl	%r11d, %ebp
	je	.LBB4_8
	cmpq	%r10, %rdx
	cmovll	%r11d, %r9d
	testl	%r9d, %r9d
	jne	.LBB4_5
.LBB4_8:
	cmpq	%r10, %rdx
	setge	%r12b
.LBB4_9:
	movb	$1, %bpl
	jmp	.LBB4_18
.LBB4_10:
	imulq	$56, %rbx, %rcx
	cmpb	$0, -56(%r9,%rcx)
	jne	.LBB4_61
	leaq	32(%rsi), %r14
	movq	32(%rsi), %rax
	addq	%r9, %rcx
	movq	-32(%rcx), %r10
	xorl	%r11d, %r11d
	cmpq	%r10, %rdx
	setge	%r11b
	shll	$2, %r11d
	orq	$-8, %r11
	cmpl	$0, (%rcx,%r11)
	je	.LBB4_72
	xorl	%ebp, %ebp
	cmpb	$1, 88(%rsi)
	jne	.LBB4_17
	movl	92(%rsi), %ebx
	imulq	$56, %rbx, %r11
	cmpb	$0, -56(%r9,%r11)
	jne	.LBB4_61
	.p2align	4
.LBB4_14:
	movq	-32(%r9,%r11), %rcx
	cmpq	%rcx, %rdx
	setl	%r10b
	movl	-40(%r9,%r11), %ebp
	movl	-36(%r9,%r11), %r15d
	movl	%r15d, %r11d
	cmovll	%ebp, %r11d
	orl	%ebp, %r15d
	je	.LBB4_75
	testl	%r11d, %r11d
	je	.LBB4_75
	movl	%r11d, %ebx
	movl	%r11d, %ecx
	imulq	$56, %rcx, %r11
	cmpb	$0, -56(%r9,%r11)
	je	.LBB4_14
	jmp	.LBB4_61
.LBB4_17:
	xorl	%ebx, %ebx
	xorl	%r12d, %r12d
.LBB4_18:
	movabsq	$4294967296, %r13
	movq	%r8, %rcx
	subq	%rax, %rcx
	cmpq	%r8, %rcx
	jae	.LBB4_27
	testq	%rax, %rax
	je	.LBB4_61
.LBB4_20:
	movq	24(%rsi), %r8
	movq	48(%rsi), %rcx
	movq	%rcx, 16(%rsp)
	movl	-4(%r8,%rax,4), %ecx
	movl	%ecx, 24(%rsp)
	xorl	%r15d, %r15d
	testb	%r12b, %r12b
	movl	$0, %r10d
	cmovneq	%r13, %r10
	movq	(%rsi), %r9
	testb	%bpl, %bpl
	je	.LBB4_30
	movl	%ebx, %ecx
	imulq	$56, %rcx, %rbp
	cmpb	$0, -56(%r9,%rbp)
	jne	.LBB4_61
	orq	%rcx, %r10
	addq	%r9, %rbp
	movzbl	%r12b, %ecx
	shll	$2, %ecx
	movq	%rcx, %r11
	orq	$-40, %r11
	cmpl	$0, (%rbp,%r11)
	movq	%r10, %r11
	je	.LBB4_25
	orq	$-8, %rcx
	movl	(%rbp,%rcx), %ecx
	testq	%rcx, %rcx
	je	.LBB4_31
	xorl	%r11d, %r11d
	testb	%r12b, %r12b
	cmovneq	%r11, %r13
	orq	%rcx, %r13
	movq	%r13, %r11
.LBB4_25:
	movb	$0, 10(%rsp)
	movw	$0, 8(%rsp)
	xorl	%ecx, %ecx
	movq	%r11, %r13
	testb	%r12b, %r12b
	je	.LBB4_32
.LBB4_26:
	movl	%ebx, %r15d
	movl	-4(%rbp), %r10d
	testl	%r10d, %r10d
	sete	%bpl
	movzbl	10(%rsp), %ebx
	movb	%bl, 14(%rsp)
	movzwl	8(%rsp), %ebx
	movw	%bx, 12(%rsp)
	xorl	%r12d, %r12d
	movl	%r10d, %ebx
	jmp	.LBB4_34
.LBB4_27:
	movq	64(%rsi), %rax
	movl	$4294967294, %r9d
	cmpq	%r9, %rax
	cmovbq	%rax, %r9
	cmpb	$1, 56(%rsi)
	leaq	-2(%r13), %rcx
	cmoveq	%r9, %rcx
	cmpq	%r8, %rcx
	ja	.LBB4_73
	xorl	%ecx, %ecx
.LBB4_29:
	movq	$1, (%rdi)
	movq	%rdx, 8(%rdi)
	movq	32(%rsp), %rax
	movq	%rax, 16(%rdi)
	movq	%rcx, 24(%rdi)
	jmp	.LBB4_71
.LBB4_30:
	movb	$0, 14(%rsp)
	movw	$0, 12(%rsp)
	movb	$1, %cl
	xorl	%r11d, %r11d
	xorl	%r13d, %r13d
	movb	$1, %r12b
	movb	$1, %bpl
	xorl	%ebx, %ebx
	jmp	.LBB4_34
.LBB4_31:
	movb	$0, 10(%rsp)
	movw	$0, 8(%rsp)
	movb	$1, %cl
	xorl	%r11d, %r11d
	xorl	%r13d, %r13d
	testb	%r12b, %r12b
	jne	.LBB4_26
.LBB4_32:
	imulq	$56, %r10, %r10
	cmpb	$0, -56(%r9,%r10)
	jne	.LBB4_61
	movl	-8(%r9,%r10), %r15d
	testl	%r15d, %r15d
	sete	%r12b
	movzbl	10(%rsp), %r10d
	movb	%r10b, 14(%rsp)
	movzwl	8(%rsp), %r10d
	movw	%r10w, 12(%rsp)
	xorl	%ebp, %ebp
.LBB4_34:
	leaq	-1(%rax), %r10
	movq	%r10, (%r14)
	movl	-4(%r8,%rax,4), %r8d
	imulq	$56, %r8, %r14
	movzbl	-56(%r9,%r14), %r10d
	movq	$0, -56(%r9,%r14)
	movq	16(%rsp), %rax
	movq	%rax, -48(%r9,%r14)
	movq	$0, -40(%r9,%r14)
	movq	%rdx, -32(%r9,%r14)
	movq	32(%rsp), %rax
	movq	%rax, -24(%r9,%r14)
	movl	%r11d, -16(%r9,%r14)
	movb	$1, -12(%r9,%r14)
	movzwl	12(%rsp), %eax
	movw	%ax, -11(%r9,%r14)
	movzbl	14(%rsp), %eax
	movb	%al, -9(%r9,%r14)
	movl	%r15d, -8(%r9,%r14)
	movl	%ebx, -4(%r9,%r14)
	cmpb	$1, %r10b
	jne	.LBB4_61
	testb	%r12b, %r12b
	jne	.LBB4_38
	movq	(%rsi), %rax
	movl	%r15d, %edx
	imulq	$56, %rdx, %rdx
	cmpb	$0, -56(%rax,%rdx)
	jne	.LBB4_61
	movl	%r8d, -4(%rax,%rdx)
.LBB4_38:
	testb	%bpl, %bpl
	jne	.LBB4_41
	movq	(%rsi), %rax
	movl	%ebx, %edx
	imulq	$56, %rdx, %rdx
	cmpb	$0, -56(%rax,%rdx)
	jne	.LBB4_61
	movl	%r8d, -8(%rax,%rdx)
.LBB4_41:
	testb	%r12b, %r12b
	je	.LBB4_42
	movl	$1, 72(%rsi)
	movl	%r8d, 76(%rsi)
	testb	%bpl, %bpl
	jne	.LBB4_46
.LBB4_43:
	testb	%cl, %cl
	je	.LBB4_47
.LBB4_44:
	movl	$1, 88(%rsi)
	movl	%r8d, 92(%rsi)
	jmp	.LBB4_63
.LBB4_42:
	testb	%bpl, %bpl
	je	.LBB4_43
.LBB4_46:
	movl	$1, 80(%rsi)
	movl	%r8d, 84(%rsi)
	testb	%cl, %cl
	jne	.LBB4_44
.LBB4_47:
	movq	(%rsi), %rax
	movl	%r13d, %ecx
	imulq	$56, %rcx, %rcx
	cmpb	$0, -56(%rax,%rcx)
	jne	.LBB4_61
	shrq	$32, %r13
	jne	.LBB4_50
	movl	%r8d, -40(%rax,%rcx)
	jmp	.LBB4_51
.LBB4_50:
	movl	%r8d, -36(%rax,%rcx)
.LBB4_51:
	movq	(%rsi), %rdx
	cmpb	$0, -56(%rdx,%r14)
	jne	.LBB4_61
	leaq	88(%rsi), %rax
	addq	%rdx, %r14
	jmp	.LBB4_53
	.p2align	4
.LBB4_59:
	xorl	%edx, %edx
	movl	%r11d, %ebp
	subb	%dl, %bpl
	cmpb	$1, %bpl
	jne	.LBB4_62
.LBB4_60:
	incb	%r11b
	movb	%r11b, -12(%r10)
	movq	(%rsi), %rdx
	leaq	(%rdx,%r9), %r14
	cmpb	$0, -56(%rdx,%r9)
	movl	%ecx, %r8d
	jne	.LBB4_61
.LBB4_53:
	movl	-16(%r14), %ecx
	testq	%rcx, %rcx
	je	.LBB4_63
	imulq	$56, %rcx, %r9
	cmpb	$0, -56(%rdx,%r9)
	jne	.LBB4_61
	leaq	(%rdx,%r9), %r10
	movzbl	-12(%r10), %r11d
	cmpb	%r11b, -12(%r14)
	jb	.LBB4_63
	movl	-40(%r10), %ebx
	testl	%ebx, %ebx
	sete	%bpl
	cmpl	%r8d, %ebx
	setne	%bl
	orb	%bpl, %bl
	movl	%ebx, %ebp
	xorb	$1, %bpl
	movzbl	%bpl, %r14d
	shll	$2, %r14d
	orq	$-40, %r14
	movl	(%r10,%r14), %r14d
	testq	%r14, %r14
	je	.LBB4_59
	imulq	$56, %r14, %r14
	cmpb	$0, -56(%rdx,%r14)
	jne	.LBB4_61
	movzbl	-12(%rdx,%r14), %edx
	movl	%r11d, %ebp
	subb	%dl, %bpl
	cmpb	$1, %bpl
	je	.LBB4_60
.LBB4_62:
	movzbl	%bl, %edx
	movq	%rdi, %rbx
	movq	%rsi, %rdi
	movq	%rsi, %r14
	movq	%rax, %rsi
	callq	"ord_tree::promote::rotate_once_or_twice::<#e3604ca6c48fba3c>"
	movq	%r14, %rsi
	movq	%rbx, %rdi
.LBB4_63:
	cmpb	$0, 96(%rsi)
	movl	24(%rsp), %r8d
	je	.LBB4_69
	cmpb	$1, 80(%rsi)
	jne	.LBB4_69
	movl	84(%rsi), %eax
	leaq	-1(%rax), %rcx
	cmpq	8(%rsi), %rcx
	jae	.LBB4_69
	movq	(%rsi), %rdx
	imulq	$56, %rcx, %rcx
	cmpb	$0, (%rdx,%rcx)
	sete	%cl
	cmpl	%r8d, %eax
	sete	%al
	andb	%cl, %al
	jmp	.LBB4_70
.LBB4_69:
	xorl	%eax, %eax
.LBB4_70:
	movb	%al, 96(%rsi)
	movq	$0, (%rdi)
	movl	%r8d, 8(%rdi)
	movl	$0, 12(%rdi)
	movq	16(%rsp), %rax
	movq	%rax, 16(%rdi)
	movq	$0, 24(%rdi)
.LBB4_71:
	addq	$40, %rsp
	.cfi_def_cfa_offset 56
	popq	%rbx
	.cfi_def_cfa_offset 48
	popq	%r12
	.cfi_def_cfa_offset 40
	popq	%r13
	.cfi_def_cfa_offset 32
	popq	%r14
	.cfi_def_cfa_offset 24
	popq	%r15
	.cfi_def_cfa_offset 16
	popq	%rbp
	.cfi_def_cfa_offset 8
	retq
.LBB4_72:
	.cfi_def_cfa_offset 96
	cmpq	%r10, %rdx
	setge	%cl
	addb	%cl, %cl
	cmpq	%r10, %rdx
	movzbl	%cl, %r9d
	jmp	.LBB4_76
.LBB4_73:
	addq	%r8, %r8
	cmpq	$5, %r8
	movl	$4, %eax
	cmovaeq	%r8, %rax
	cmpq	%rcx, %rax
	cmovaeq	%rcx, %rax
	movq	%rdi, 16(%rsp)
	movq	%rsi, 24(%rsp)
	movq	%rsi, %rdi
	movq	%rax, %rsi
	movq	%rdx, %r15
	callq	"chain_base::chain::ChainArena::reallocate_min_capacity::<#1897f9e7b5ba150b>"
	movq	%r15, %rdx
	movq	16(%rsp), %rdi
	movl	$1, %ecx
	testb	%al, %al
	jne	.LBB4_29
	movq	(%r14), %rax
	movq	24(%rsp), %rsi
	testq	%rax, %rax
	jne	.LBB4_20
.LBB4_61:
	ud2
.LBB4_75:
	xorb	$1, %r10b
	addb	%r10b, %r10b
	cmpq	%rcx, %rdx
	movzbl	%r10b, %r9d
.LBB4_76:
	movl	$2, %ecx
	cmovnel	%r9d, %ecx
	testb	%cl, %cl
	setne	%r12b
	jmp	.LBB4_9
.Lfunc_end4:
	.size	"sorted_arena::arena::SortedArena::insert::<#1599bed149cb2453>", .Lfunc_end4-"sorted_arena::arena::SortedArena::insert::<#1599bed149cb2453>"
	.cfi_endproc

	.section	".text.ord_tree::promote::rotate_once_or_twice::<#e3604ca6c48fba3c>","ax",@progbits
	.p2align	4
	.type	"ord_tree::promote::rotate_once_or_twice::<#e3604ca6c48fba3c>",@function
"ord_tree::promote::rotate_once_or_twice::<#e3604ca6c48fba3c>":
	.cfi_startproc
	pushq	%rbp
	.cfi_def_cfa_offset 16
	pushq	%r15
	.cfi_def_cfa_offset 24
	pushq	%r14
	.cfi_def_cfa_offset 32
	pushq	%r13
	.cfi_def_cfa_offset 40
	pushq	%r12
	.cfi_def_cfa_offset 48
	pushq	%rbx
	.cfi_def_cfa_offset 56
	.cfi_offset %rbx, -56
	.cfi_offset %r12, -48
	.cfi_offset %r13, -40
	.cfi_offset %r14, -32
	.cfi_offset %r15, -24
	.cfi_offset %rbp, -16
	movl	%ecx, -12(%rsp)
	movq	(%rdi), %r15
	movl	%r8d, %eax
	imulq	$56, %rax, %r9
	cmpb	$0, -56(%r15,%r9)
	jne	.LBB5_60
	leaq	(%r15,%r9), %r13
	movl	-16(%r13), %ecx
	movzbl	-12(%r13), %eax
	xorl	%ebp, %ebp
	testb	%dl, %dl
	setne	%bpl
	shll	$2, %ebp
	orq	$-40, %rbp
	movl	(%r13,%rbp), %r10d
	testq	%r10, %r10
	je	.LBB5_2
	imulq	$56, %r10, %r10
	cmpb	$0, -56(%r15,%r10)
	jne	.LBB5_60
	movzbl	-12(%r15,%r10), %r11d
	movl	%eax, %r10d
	subb	%r11b, %r10b
	cmpb	$1, %r10b
	jne	.LBB5_23
.LBB5_6:
	movl	-12(%rsp), %ecx
	movl	%ecx, %r10d
	imulq	$56, %r10, %rbx
	cmpb	$0, -56(%r15,%rbx)
	jne	.LBB5_60
	xorl	%r14d, %r14d
	testb	%dl, %dl
	sete	%r14b
	movl	-16(%r15,%rbx), %r10d
	shll	$2, %r14d
	orq	$-40, %r14
	movl	(%r13,%r14), %r14d
	testq	%r10, %r10
	je	.LBB5_8
	imulq	$56, %r10, %rsi
	cmpb	$0, -56(%r15,%rsi)
	jne	.LBB5_60
	movl	-40(%r15,%rsi), %ebp
	testl	%ebp, %ebp
	sete	%r12b
	cmpl	%ecx, %ebp
	setne	%bpl
	orb	%r12b, %bpl
	jne	.LBB5_12
	movl	%r8d, -40(%r15,%rsi)
	testl	%r14d, %r14d
	jne	.LBB5_14
	jmp	.LBB5_16
.LBB5_2:
	xorl	%r11d, %r11d
	movl	%eax, %r10d
	subb	%r11b, %r10b
	cmpb	$1, %r10b
	je	.LBB5_6
.LBB5_23:
	movq	%rsi, -8(%rsp)
	xorl	%r12d, %r12d
	testb	%dl, %dl
	sete	%r12b
	shll	$2, %r12d
	orq	$-40, %r12
	movl	(%r13,%r12), %r11d
	testq	%r11, %r11
	je	.LBB5_60
	imulq	$56, %r11, %r10
	cmpb	$0, -56(%r15,%r10)
	jne	.LBB5_60
	leaq	(%r15,%r10), %r13
	movzbl	-12(%r13), %esi
	movl	(%r13,%rbp), %r13d
	testl	%ecx, %ecx
	je	.LBB5_26
	imulq	$56, %rcx, %rbp
	cmpb	$0, -56(%r15,%rbp)
	jne	.LBB5_60
	movl	%eax, %r14d
	movl	-40(%r15,%rbp), %ebx
	testl	%ebx, %ebx
	sete	%al
	cmpl	%r8d, %ebx
	setne	%bl
	orb	%al, %bl
	jne	.LBB5_30
	movl	%r11d, -40(%r15,%rbp)
	jmp	.LBB5_31
.LBB5_8:
	movl	$1, (%rsi)
	movl	%r8d, 4(%rsi)
	testl	%r14d, %r14d
	jne	.LBB5_14
	jmp	.LBB5_16
.LBB5_26:
	movq	-8(%rsp), %rbx
	movl	$1, (%rbx)
	movl	%r11d, 4(%rbx)
	testl	%r13d, %r13d
	jne	.LBB5_33
	jmp	.LBB5_35
.LBB5_12:
	movl	%r8d, -36(%r15,%rsi)
	testl	%r14d, %r14d
	je	.LBB5_16
.LBB5_14:
	movq	(%rdi), %rsi
	imulq	$56, %r14, %r15
	cmpb	$0, -56(%rsi,%r15)
	jne	.LBB5_60
	movl	%ecx, -16(%rsi,%r15)
.LBB5_16:
	movq	(%rdi), %rsi
	cmpb	$0, -56(%rsi,%rbx)
	jne	.LBB5_60
	testb	%dl, %dl
	je	.LBB5_18
	movl	%r14d, -36(%rsi,%rbx)
	movl	%r8d, -16(%rsi,%rbx)
	movb	%r11b, -12(%rsi,%rbx)
	movq	(%rdi), %rdx
	cmpb	$0, -56(%rdx,%r9)
	jne	.LBB5_60
	addq	%r9, %rdx
	movl	%ecx, -40(%rdx)
	movl	%r10d, -16(%rdx)
	jmp	.LBB5_59
.LBB5_18:
	movl	%r14d, -40(%rsi,%rbx)
	movl	%r8d, -16(%rsi,%rbx)
	movb	%r11b, -12(%rsi,%rbx)
	movq	(%rdi), %rdx
	cmpb	$0, -56(%rdx,%r9)
	jne	.LBB5_60
	addq	%r9, %rdx
	movl	%ecx, -36(%rdx)
	movl	%r10d, -16(%rdx)
	jmp	.LBB5_59
.LBB5_30:
	movl	%r11d, -36(%r15,%rbp)
.LBB5_31:
	movl	%r14d, %eax
	testl	%r13d, %r13d
	je	.LBB5_35
.LBB5_33:
	movq	(%rdi), %r15
	imulq	$56, %r13, %rbp
	cmpb	$0, -56(%r15,%rbp)
	jne	.LBB5_60
	movl	%r8d, -16(%r15,%rbp)
.LBB5_35:
	movq	(%rdi), %r15
	cmpb	$0, -56(%r15,%r9)
	jne	.LBB5_60
	testb	%dl, %dl
	je	.LBB5_37
	movl	%r13d, -40(%r15,%r9)
	movl	%r11d, -16(%r15,%r9)
	movb	%sil, -12(%r15,%r9)
	movq	(%rdi), %r9
	cmpb	$0, -56(%r9,%r10)
	jne	.LBB5_60
	movl	%esi, %r13d
	addq	%r10, %r9
	movl	%r8d, -36(%r9)
	jmp	.LBB5_41
.LBB5_37:
	movl	%r13d, -36(%r15,%r9)
	movl	%r11d, -16(%r15,%r9)
	movb	%sil, -12(%r15,%r9)
	movq	(%rdi), %r9
	cmpb	$0, -56(%r9,%r10)
	jne	.LBB5_60
	movl	%esi, %r13d
	addq	%r10, %r9
	movl	%r8d, -40(%r9)
.LBB5_41:
	movl	%ecx, -16(%r9)
	movb	%al, -12(%r9)
	movq	(%rdi), %r15
	cmpb	$0, -56(%r15,%r10)
	jne	.LBB5_60
	movl	%eax, %ebp
	movl	-12(%rsp), %ecx
	movl	%ecx, %eax
	imulq	$56, %rax, %r9
	cmpb	$0, -56(%r15,%r9)
	jne	.LBB5_60
	leaq	(%r15,%r10), %rax
	movl	-16(%r15,%r9), %r8d
	movl	(%rax,%r12), %r14d
	testq	%r8, %r8
	je	.LBB5_44
	imulq	$56, %r8, %rsi
	cmpb	$0, -56(%r15,%rsi)
	jne	.LBB5_60
	movl	-40(%r15,%rsi), %eax
	testl	%eax, %eax
	sete	%bl
	cmpl	%ecx, %eax
	setne	%al
	orb	%bl, %al
	jne	.LBB5_48
	movl	%r11d, -40(%r15,%rsi)
	movl	%ebp, %eax
	testl	%r14d, %r14d
	jne	.LBB5_50
	jmp	.LBB5_52
.LBB5_44:
	movq	-8(%rsp), %rsi
	movl	$1, (%rsi)
	movl	%r11d, 4(%rsi)
	movl	%ebp, %eax
	testl	%r14d, %r14d
	jne	.LBB5_50
	jmp	.LBB5_52
.LBB5_48:
	movl	%r11d, -36(%r15,%rsi)
	movl	%ebp, %eax
	testl	%r14d, %r14d
	je	.LBB5_52
.LBB5_50:
	movq	(%rdi), %rsi
	imulq	$56, %r14, %r15
	cmpb	$0, -56(%rsi,%r15)
	jne	.LBB5_60
	movl	%ecx, -16(%rsi,%r15)
.LBB5_52:
	movq	(%rdi), %rsi
	cmpb	$0, -56(%rsi,%r9)
	jne	.LBB5_60
	testb	%dl, %dl
	je	.LBB5_54
	movl	%r14d, -36(%rsi,%r9)
	movl	%r11d, -16(%rsi,%r9)
	movb	%r13b, -12(%rsi,%r9)
	movq	(%rdi), %rdx
	cmpb	$0, -56(%rdx,%r10)
	jne	.LBB5_60
	addq	%r10, %rdx
	movl	%ecx, -40(%rdx)
	jmp	.LBB5_58
.LBB5_54:
	movl	%r14d, -40(%rsi,%r9)
	movl	%r11d, -16(%rsi,%r9)
	movb	%r13b, -12(%rsi,%r9)
	movq	(%rdi), %rdx
	cmpb	$0, -56(%rdx,%r10)
	jne	.LBB5_60
	addq	%r10, %rdx
	movl	%ecx, -36(%rdx)
.LBB5_58:
	movl	%r8d, -16(%rdx)
.LBB5_59:
	movb	%al, -12(%rdx)
	popq	%rbx
	.cfi_def_cfa_offset 48
	popq	%r12
	.cfi_def_cfa_offset 40
	popq	%r13
	.cfi_def_cfa_offset 32
	popq	%r14
	.cfi_def_cfa_offset 24
	popq	%r15
	.cfi_def_cfa_offset 16
	popq	%rbp
	.cfi_def_cfa_offset 8
	retq
.LBB5_60:
	.cfi_def_cfa_offset 56
	ud2
.Lfunc_end5:
	.size	"ord_tree::promote::rotate_once_or_twice::<#e3604ca6c48fba3c>", .Lfunc_end5-"ord_tree::promote::rotate_once_or_twice::<#e3604ca6c48fba3c>"
	.cfi_endproc

	.section	".text.ord_tree::tree::rebuild::rebuild_over::<#ba2297c2b7121456>","ax",@progbits
	.p2align	4
	.type	"ord_tree::tree::rebuild::rebuild_over::<#ba2297c2b7121456>",@function
"ord_tree::tree::rebuild::rebuild_over::<#ba2297c2b7121456>":
	.cfi_startproc
	pushq	%rbp
	.cfi_def_cfa_offset 16
	pushq	%r15
	.cfi_def_cfa_offset 24
	pushq	%r14
	.cfi_def_cfa_offset 32
	pushq	%r13
	.cfi_def_cfa_offset 40
	pushq	%r12
	.cfi_def_cfa_offset 48
	pushq	%rbx
	.cfi_def_cfa_offset 56
	subq	$1560, %rsp
	.cfi_def_cfa_offset 1616
	.cfi_offset %rbx, -56
	.cfi_offset %r12, -48
	.cfi_offset %r13, -40
	.cfi_offset %r14, -32
	.cfi_offset %r15, -24
	.cfi_offset %rbp, -16
	movq	%rsi, 8(%rsp)
	movq	%rdi, %r14
	movq	8(%rdi), %rbp
	movq	%rbp, %r15
	subq	32(%rdi), %r15
	xorl	%r12d, %r12d
	movq	%r15, %r13
	subq	$2, %r13
	cmovbq	%r12, %r13
	leaq	16(%rsp), %rdi
	movl	$1536, %edx
	xorl	%esi, %esi
	callq	memset@PLT
	testq	%r15, %r15
	je	.LBB6_3
	leaq	24(%rsp), %rax
	xorl	%r12d, %r12d
	movq	%r15, %rcx
	.p2align	4
.LBB6_2:
	movq	%rcx, -8(%rax)
	incq	%r12
	xorps	%xmm0, %xmm0
	movups	%xmm0, (%rax)
	shrq	%rcx
	addq	$24, %rax
	testq	%rcx, %rcx
	jne	.LBB6_2
.LBB6_3:
	cmpb	$1, 72(%r14)
	jne	.LBB6_6
	movl	76(%r14), %eax
	leaq	-1(%rax), %rcx
	cmpq	%rbp, %rcx
	jae	.LBB6_6
	movq	(%r14), %rdx
	imulq	$56, %rcx, %rcx
	cmpb	$0, (%rdx,%rcx)
	je	.LBB6_33
.LBB6_6:
	xorl	%eax, %eax
	xorl	%ecx, %ecx
	testq	%r15, %r15
	je	.LBB6_34
.LBB6_7:
	movl	$127, %esi
	bsrq	%r13, %rsi
	xorl	$63, %esi
	movb	$65, %dl
	subb	%sil, %dl
	movb	%dl, 7(%rsp)
	xorl	%r8d, %r8d
	xorl	%r9d, %r9d
	xorl	%edi, %edi
	jmp	.LBB6_11
.LBB6_8:
	xorl	%r12d, %r12d
.LBB6_9:
	movl	%r10d, %r8d
.LBB6_10:
	incq	%rdi
	cmpq	%r15, %rdi
	je	.LBB6_32
.LBB6_11:
	testb	$1, %cl
	je	.LBB6_36
	movl	%eax, %r10d
	movq	(%r14), %rbp
	movl	%eax, %r11d
	imulq	$56, %r11, %rbx
	cmpb	$0, -56(%rbp,%rbx)
	jne	.LBB6_36
	movl	-4(%rbp,%rbx), %eax
	testl	%eax, %eax
	setne	%cl
	testq	%r12, %r12
	je	.LBB6_36
	decq	%r12
	movq	%r12, 1552(%rsp)
	leaq	(%r12,%r12,2), %rsi
	movq	16(%rsp,%rsi,8), %r13
	xorps	%xmm0, %xmm0
	movups	%xmm0, 16(%rsp,%rsi,8)
	movq	$0, 32(%rsp,%rsi,8)
	movq	1552(%rsp), %r12
	movb	$3, %sil
	cmpq	$5, %r13
	jb	.LBB6_16
	xorl	%edx, %edx
	movzbl	7(%rsp), %esi
	subb	%r12b, %sil
	movzbl	%sil, %esi
	cmovbl	%edx, %esi
.LBB6_16:
	cmpq	$3, %r13
	movzbl	%r13b, %edx
	movzbl	%sil, %esi
	cmovbl	%edx, %esi
	xorl	%edx, %edx
	testb	%r9b, %r9b
	cmovnel	%r8d, %edx
	movl	$0, -16(%rbp,%rbx)
	movl	%edx, -40(%rbp,%rbx)
	movl	$0, -36(%rbp,%rbx)
	movb	%sil, -12(%rbp,%rbx)
	je	.LBB6_19
	movq	(%r14), %rsi
	movl	%r8d, %edx
	imulq	$56, %rdx, %r8
	cmpb	$0, -56(%rsi,%r8)
	jne	.LBB6_36
	movl	%r10d, -16(%rsi,%r8)
.LBB6_19:
	testl	%r10d, %r10d
	je	.LBB6_36
	movq	%r13, %r8
	shrq	%r8
	notq	%r8
	addq	%r13, %r8
	je	.LBB6_24
	leaq	(,%r12,8), %rdx
	leaq	(%rdx,%rdx,2), %r9
	movq	%r13, 16(%rsp,%r9)
	movq	$1, 24(%rsp,%r9)
	movq	%r11, 32(%rsp,%r9)
	incq	%r12
	leaq	48(%rsp), %rdx
	addq	%rdx, %r9
	.p2align	4
.LBB6_22:
	movq	%r8, -8(%r9)
	incq	%r12
	xorps	%xmm0, %xmm0
	movups	%xmm0, (%r9)
	movq	%r12, 1552(%rsp)
	shrq	%r8
	addq	$24, %r9
	testq	%r8, %r8
	jne	.LBB6_22
	xorl	%r8d, %r8d
	xorl	%r9d, %r9d
	jmp	.LBB6_10
	.p2align	4
.LBB6_24:
	movb	$1, %r9b
	testq	%r12, %r12
	je	.LBB6_8
	.p2align	4
.LBB6_25:
	leaq	(%r12,%r12,2), %rsi
	cmpb	$1, (%rsp,%rsi,8)
	jne	.LBB6_9
	movq	8(%rsp,%rsi,8), %r8
	decq	%r12
	movq	%r12, 1552(%rsp)
	leaq	(%r12,%r12,2), %rdx
	xorps	%xmm0, %xmm0
	movups	%xmm0, 16(%rsp,%rdx,8)
	movq	$0, 32(%rsp,%rdx,8)
	leaq	-1(%r8), %rdx
	shrq	%rdx
	cmpq	$2147483647, %rdx
	jae	.LBB6_36
	movq	(%r14), %rsi
	imulq	$56, %r8, %r11
	cmpb	$0, -56(%rsi,%r11)
	jne	.LBB6_36
	movl	%r10d, -36(%rsi,%r11)
	movq	(%r14), %rsi
	movl	%r10d, %edx
	imulq	$56, %rdx, %r10
	cmpb	$0, -56(%rsi,%r10)
	jne	.LBB6_36
	movl	%r8d, -16(%rsi,%r10)
	movq	1552(%rsp), %r12
	movl	%r8d, %r10d
	testq	%r12, %r12
	jne	.LBB6_25
	xorl	%r12d, %r12d
	jmp	.LBB6_10
.LBB6_32:
	movzbl	%r9b, %eax
	jmp	.LBB6_35
.LBB6_33:
	movb	$1, %cl
	testq	%r15, %r15
	jne	.LBB6_7
.LBB6_34:
	xorl	%r8d, %r8d
	xorl	%eax, %eax
.LBB6_35:
	movq	8(%rsp), %rcx
	movl	%eax, (%rcx)
	movl	%r8d, 4(%rcx)
	addq	$1560, %rsp
	.cfi_def_cfa_offset 56
	popq	%rbx
	.cfi_def_cfa_offset 48
	popq	%r12
	.cfi_def_cfa_offset 40
	popq	%r13
	.cfi_def_cfa_offset 32
	popq	%r14
	.cfi_def_cfa_offset 24
	popq	%r15
	.cfi_def_cfa_offset 16
	popq	%rbp
	.cfi_def_cfa_offset 8
	retq
.LBB6_36:
	.cfi_def_cfa_offset 1616
	ud2
.Lfunc_end6:
	.size	"ord_tree::tree::rebuild::rebuild_over::<#ba2297c2b7121456>", .Lfunc_end6-"ord_tree::tree::rebuild::rebuild_over::<#ba2297c2b7121456>"
	.cfi_endproc

	.section	".text.sorted_arena::arena::SortedArena::between::<#1b35315d4ce24113>","ax",@progbits
	.p2align	4
	.type	"sorted_arena::arena::SortedArena::between::<#1b35315d4ce24113>",@function
"sorted_arena::arena::SortedArena::between::<#1b35315d4ce24113>":
	.cfi_startproc
	pushq	%rbp
	.cfi_def_cfa_offset 16
	pushq	%r15
	.cfi_def_cfa_offset 24
	pushq	%r14
	.cfi_def_cfa_offset 32
	pushq	%r13
	.cfi_def_cfa_offset 40
	pushq	%r12
	.cfi_def_cfa_offset 48
	pushq	%rbx
	.cfi_def_cfa_offset 56
	subq	$24, %rsp
	.cfi_def_cfa_offset 80
	.cfi_offset %rbx, -56
	.cfi_offset %r12, -48
	.cfi_offset %r13, -40
	.cfi_offset %r14, -32
	.cfi_offset %r15, -24
	.cfi_offset %rbp, -16
	movq	%rsi, %r14
	movq	%rdi, %rbx
	xorps	%xmm0, %xmm0
	movaps	%xmm0, (%rsp)
	movq	$0, 16(%rsp)
	testb	%r8b, %r8b
	je	.LBB7_3
	movzbl	%r8b, %eax
	cmpl	$1, %eax
	jne	.LBB7_20
	movq	%rsp, %rdi
	movq	%r14, %rsi
	movl	%edx, %ebp
	movq	%r9, %rdx
	movq	%rcx, %r15
	callq	"sorted_arena::arena::SortedArena::lower_bound::<#1b35315d4ce24113>"
	movl	%ebp, %edx
	movq	%r15, %rcx
	movzbl	(%rsp), %r12d
	movl	8(%rsp), %r15d
	movq	16(%rsp), %rax
	cmpb	$1, %r12b
	je	.LBB7_17
.LBB7_33:
	xorl	%ebp, %ebp
	jmp	.LBB7_34
.LBB7_3:
	cmpb	$1, 88(%r14)
	jne	.LBB7_15
	movl	92(%r14), %r11d
	movq	(%r14), %rsi
	.p2align	4
.LBB7_5:
	movl	%r11d, %edi
	imulq	$56, %rdi, %rax
	cmpb	$0, -56(%rsi,%rax)
	jne	.LBB7_62
	movl	%r11d, %r15d
	movq	(%r9), %r8
	movq	-32(%rsi,%rax), %r10
	movl	-40(%rsi,%rax), %ebp
	movl	-36(%rsi,%rax), %r11d
	movl	%r11d, %r12d
	orl	%ebp, %r12d
	je	.LBB7_8
	cmpq	%r10, %r8
	cmovll	%ebp, %r11d
	testl	%r11d, %r11d
	jne	.LBB7_5
.LBB7_8:
	movq	-48(%rsi,%rax), %rax
	movb	$1, %r12b
	cmpq	%r10, %r8
	jl	.LBB7_16
	movq	8(%r14), %r8
	decq	%rdi
	cmpq	%r8, %rdi
	jae	.LBB7_15
	imulq	$56, %rdi, %rdi
	cmpb	$0, (%rsi,%rdi)
	jne	.LBB7_15
	cmpq	%rax, 8(%rsi,%rdi)
	jne	.LBB7_15
	movl	52(%rsi,%rdi), %r15d
	testq	%r15, %r15
	je	.LBB7_15
	leaq	-1(%r15), %rax
	cmpq	%r8, %rax
	jae	.LBB7_15
	imulq	$56, %rax, %rax
	cmpb	$0, (%rsi,%rax)
	je	.LBB7_32
.LBB7_15:
	xorl	%eax, %eax
	xorl	%r15d, %r15d
	xorl	%r12d, %r12d
.LBB7_16:
	cmpb	$1, %r12b
	jne	.LBB7_33
.LBB7_17:
	movq	8(%r14), %rdi
	movl	%r15d, %esi
	decq	%rsi
	movb	$1, %bpl
	cmpq	%rdi, %rsi
	jae	.LBB7_21
	movq	(%r14), %r9
	imulq	$56, %rsi, %r8
	movb	$1, %bpl
	cmpb	$0, (%r9,%r8)
	jne	.LBB7_21
	addq	%r8, %r9
	leaq	16(%r9), %r10
	xorl	%r8d, %r8d
	movb	$1, %bpl
	cmpq	%rax, 8(%r9)
	cmoveq	%r10, %r8
	jne	.LBB7_21
	testb	%dl, %dl
	je	.LBB7_28
	movzbl	%dl, %eax
	cmpl	$1, %eax
	jne	.LBB7_30
	movq	(%rcx), %rax
	cmpq	8(%r8), %rax
	jge	.LBB7_29
	movb	$1, %bpl
	movb	$1, %r12b
	jmp	.LBB7_36
.LBB7_20:
	xorl	%ebp, %ebp
	xorl	%r15d, %r15d
	xorl	%r12d, %r12d
	jmp	.LBB7_34
.LBB7_21:
	movb	$1, %r12b
.LBB7_34:
	xorps	%xmm0, %xmm0
	movaps	%xmm0, (%rsp)
	movq	$0, 16(%rsp)
	cmpb	$2, %dl
	je	.LBB7_45
	movzbl	%dl, %eax
	cmpl	$1, %eax
	jne	.LBB7_48
.LBB7_36:
	xorl	%eax, %eax
	cmpb	$1, 88(%r14)
	jne	.LBB7_52
	movl	92(%r14), %r9d
	movq	(%r14), %rdx
	.p2align	4
.LBB7_38:
	movl	%r9d, %edi
	imulq	$56, %rdi, %rsi
	cmpb	$0, -56(%rdx,%rsi)
	jne	.LBB7_62
	movl	%r9d, %eax
	movq	(%rcx), %r8
	movq	-32(%rdx,%rsi), %r10
	movl	-40(%rdx,%rsi), %r11d
	movl	-36(%rdx,%rsi), %r9d
	movl	%r9d, %r13d
	orl	%r11d, %r13d
	je	.LBB7_41
	cmpq	%r10, %r8
	cmovll	%r11d, %r9d
	testl	%r9d, %r9d
	jne	.LBB7_38
.LBB7_41:
	movb	$1, %cl
	cmpq	%r10, %r8
	jl	.LBB7_53
	movq	8(%r14), %rcx
	decq	%rdi
	xorl	%eax, %eax
	cmpq	%rcx, %rdi
	jae	.LBB7_52
	imulq	$56, %rdi, %rdi
	xorl	%eax, %eax
	cmpb	$0, (%rdx,%rdi)
	jne	.LBB7_52
	movq	-48(%rdx,%rsi), %rsi
	xorl	%eax, %eax
	cmpq	%rsi, 8(%rdx,%rdi)
	jne	.LBB7_52
	movl	52(%rdx,%rdi), %esi
	testq	%rsi, %rsi
	je	.LBB7_60
	leaq	-1(%rsi), %rdi
	xorl	%eax, %eax
	cmpq	%rcx, %rdi
	jae	.LBB7_52
	imulq	$56, %rdi, %rcx
	xorl	%eax, %eax
	cmpb	$0, (%rdx,%rcx)
	sete	%cl
	cmovel	%esi, %eax
	jmp	.LBB7_53
.LBB7_28:
	movq	(%rcx), %rax
	cmpq	8(%r8), %rax
	jle	.LBB7_31
.LBB7_29:
	movb	$1, %bpl
	movl	$1, %edx
	movq	%rsi, %r8
	movl	%r15d, %eax
	movb	$1, %cl
	jmp	.LBB7_54
.LBB7_30:
	movb	$1, %bpl
	movb	$1, %r12b
.LBB7_45:
	xorl	%eax, %eax
	cmpb	$1, 72(%r14)
	jne	.LBB7_52
	movl	76(%r14), %edx
	leaq	-1(%rdx), %rcx
	xorl	%eax, %eax
	cmpq	8(%r14), %rcx
	jae	.LBB7_52
	movq	(%r14), %rsi
	imulq	$56, %rcx, %rcx
	xorl	%eax, %eax
	cmpb	$0, (%rsi,%rcx)
	sete	%cl
	cmovel	%edx, %eax
	jmp	.LBB7_53
.LBB7_31:
	xorps	%xmm0, %xmm0
	movaps	%xmm0, (%rsp)
	movq	$0, 16(%rsp)
	movb	$1, %bpl
	movb	$1, %r12b
.LBB7_48:
	movq	%rsp, %rdi
	movq	%r14, %rsi
	movq	%rcx, %rdx
	callq	"sorted_arena::arena::SortedArena::lower_bound::<#1b35315d4ce24113>"
	movzbl	(%rsp), %ecx
	movl	8(%rsp), %eax
	jmp	.LBB7_53
.LBB7_60:
	xorl	%eax, %eax
.LBB7_52:
	xorl	%ecx, %ecx
.LBB7_53:
	movzbl	%r12b, %edx
	movq	8(%r14), %rdi
	movl	%eax, %r8d
	decq	%r8
	movl	%r15d, %esi
	decq	%rsi
.LBB7_54:
	subq	32(%r14), %rdi
	xorl	%r9d, %r9d
	testl	%eax, %eax
	cmoveq	%r9, %r8
	cmpb	$1, %cl
	cmovneq	%rdi, %r8
	cmovnel	%r9d, %eax
	testl	%r15d, %r15d
	cmoveq	%r9, %rsi
	testb	%bpl, %bpl
	movl	$0, %r10d
	cmovnel	%r15d, %r10d
	cmoveq	%rdi, %rsi
	movzbl	96(%r14), %edi
	subq	%r8, %rsi
	cmovbq	%r9, %rsi
	movzbl	%cl, %ecx
	movq	%r14, (%rbx)
	movb	%dil, 8(%rbx)
	movw	$0, 9(%rbx)
	movb	$0, 11(%rbx)
	movl	%ecx, 12(%rbx)
	movl	%eax, 16(%rbx)
	movl	%edx, 20(%rbx)
	movl	%r10d, 24(%rbx)
	movl	$0, 28(%rbx)
	movq	%r8, 32(%rbx)
	movq	%rsi, 40(%rbx)
	addq	$24, %rsp
	.cfi_def_cfa_offset 56
	popq	%rbx
	.cfi_def_cfa_offset 48
	popq	%r12
	.cfi_def_cfa_offset 40
	popq	%r13
	.cfi_def_cfa_offset 32
	popq	%r14
	.cfi_def_cfa_offset 24
	popq	%r15
	.cfi_def_cfa_offset 16
	popq	%rbp
	.cfi_def_cfa_offset 8
	retq
.LBB7_32:
	.cfi_def_cfa_offset 80
	movq	8(%rsi,%rax), %rax
	cmpb	$1, %r12b
	je	.LBB7_17
	jmp	.LBB7_33
.LBB7_62:
	ud2
.Lfunc_end7:
	.size	"sorted_arena::arena::SortedArena::between::<#1b35315d4ce24113>", .Lfunc_end7-"sorted_arena::arena::SortedArena::between::<#1b35315d4ce24113>"
	.cfi_endproc

	.section	".text.sorted_arena::arena::SortedArena::lower_bound::<#1b35315d4ce24113>","ax",@progbits
	.p2align	4
	.type	"sorted_arena::arena::SortedArena::lower_bound::<#1b35315d4ce24113>",@function
"sorted_arena::arena::SortedArena::lower_bound::<#1b35315d4ce24113>":
	.cfi_startproc
	pushq	%rbp
	.cfi_def_cfa_offset 16
	pushq	%r15
	.cfi_def_cfa_offset 24
	pushq	%r14
	.cfi_def_cfa_offset 32
	pushq	%r13
	.cfi_def_cfa_offset 40
	pushq	%r12
	.cfi_def_cfa_offset 48
	pushq	%rbx
	.cfi_def_cfa_offset 56
	.cfi_offset %rbx, -56
	.cfi_offset %r12, -48
	.cfi_offset %r13, -40
	.cfi_offset %r14, -32
	.cfi_offset %r15, -24
	.cfi_offset %rbp, -16
	cmpb	$1, 88(%rsi)
	jne	.LBB8_1
	movl	92(%rsi), %r10d
	movq	(%rsi), %r8
	.p2align	4
.LBB8_3:
	movl	%r10d, %ecx
	imulq	$56, %rcx, %rcx
	cmpb	$0, -56(%r8,%rcx)
	jne	.LBB8_29
	movl	%r10d, %eax
	movq	(%rdx), %r9
	movq	-32(%r8,%rcx), %r11
	cmpq	%r11, %r9
	movl	-40(%r8,%rcx), %ebx
	movl	-36(%r8,%rcx), %ebp
	movl	%ebx, %r10d
	cmovgl	%ebp, %r10d
	je	.LBB8_5
	orl	%ebx, %ebp
	je	.LBB8_19
	testl	%r10d, %r10d
	jne	.LBB8_3
.LBB8_19:
	movq	-48(%r8,%rcx), %rcx
	cmpq	%r11, %r9
	setge	%r11b
	addb	%r11b, %r11b
	jmp	.LBB8_20
.LBB8_5:
	movq	-48(%r8,%rcx), %rcx
	movl	$1, %edx
	testl	%r10d, %r10d
	je	.LBB8_28
	movb	$1, %bpl
	.p2align	4
.LBB8_8:
	movl	%r10d, %ebx
	movl	%r10d, %r10d
	imulq	$56, %r10, %r11
	cmpb	$0, -56(%r8,%r11)
	jne	.LBB8_29
	movq	-32(%r8,%r11), %r14
	cmpq	%r14, %r9
	setge	%r13b
	movl	-40(%r8,%r11), %r15d
	movl	-36(%r8,%r11), %r12d
	movl	%r15d, %r10d
	cmovgl	%r12d, %r10d
	addb	%r13b, %r13b
	cmpq	%r14, %r9
	movq	-48(%r8,%r11), %r14
	movzbl	%r13b, %r13d
	movl	$1, %r11d
	cmovnel	%r13d, %r11d
	movzbl	%r11b, %r13d
	testb	%r13b, %r13b
	je	.LBB8_10
	cmpl	$2, %r13d
	je	.LBB8_14
	movl	%ebx, %eax
	movq	%r14, %rcx
	jmp	.LBB8_13
	.p2align	4
.LBB8_10:
	movl	%r13d, %eax
	movq	%r13, %rcx
.LBB8_13:
	movl	%r11d, %ebp
.LBB8_14:
	orl	%r15d, %r12d
	je	.LBB8_15
	testl	%r10d, %r10d
	jne	.LBB8_8
	testb	%bpl, %bpl
	cmovel	%ebx, %eax
	cmoveq	%r14, %rcx
	jne	.LBB8_28
	jmp	.LBB8_20
.LBB8_15:
	testb	%bpl, %bpl
	cmoveq	%r14, %rcx
	cmovel	%ebx, %eax
	movzbl	%r11b, %edx
	movl	$1, %r11d
	cmovel	%edx, %r11d
.LBB8_20:
	movl	$1, %edx
	cmpb	$2, %r11b
	jne	.LBB8_28
	movq	8(%rsi), %r8
	movl	%eax, %eax
	decq	%rax
	cmpq	%r8, %rax
	jae	.LBB8_1
	movq	(%rsi), %rsi
	imulq	$56, %rax, %rax
	cmpb	$0, (%rsi,%rax)
	jne	.LBB8_1
	cmpq	%rcx, 8(%rsi,%rax)
	jne	.LBB8_1
	movl	52(%rsi,%rax), %eax
	testq	%rax, %rax
	je	.LBB8_1
	leaq	-1(%rax), %rcx
	cmpq	%r8, %rcx
	jae	.LBB8_1
	imulq	$56, %rcx, %rcx
	cmpb	$0, (%rsi,%rcx)
	je	.LBB8_27
.LBB8_1:
	xorl	%eax, %eax
	xorl	%ecx, %ecx
	xorl	%edx, %edx
.LBB8_28:
	movq	%rdx, (%rdi)
	movl	%eax, 8(%rdi)
	movl	$0, 12(%rdi)
	movq	%rcx, 16(%rdi)
	popq	%rbx
	.cfi_def_cfa_offset 48
	popq	%r12
	.cfi_def_cfa_offset 40
	popq	%r13
	.cfi_def_cfa_offset 32
	popq	%r14
	.cfi_def_cfa_offset 24
	popq	%r15
	.cfi_def_cfa_offset 16
	popq	%rbp
	.cfi_def_cfa_offset 8
	retq
.LBB8_27:
	.cfi_def_cfa_offset 56
	movq	8(%rsi,%rcx), %rcx
	jmp	.LBB8_28
.LBB8_29:
	ud2
.Lfunc_end8:
	.size	"sorted_arena::arena::SortedArena::lower_bound::<#1b35315d4ce24113>", .Lfunc_end8-"sorted_arena::arena::SortedArena::lower_bound::<#1b35315d4ce24113>"
	.cfi_endproc

	.section	".text.core::iter::base::Iterator::count::<#55e36cf547ec1a3b>","ax",@progbits
	.p2align	4
	.type	"core::iter::base::Iterator::count::<#55e36cf547ec1a3b>",@function
"core::iter::base::Iterator::count::<#55e36cf547ec1a3b>":
	.cfi_startproc
	movq	(%rdi), %rcx
	cmpb	$1, 8(%rdi)
	jne	.LBB9_11
	movq	40(%rdi), %rax
	testq	%rax, %rax
	je	.LBB9_19
	movq	32(%rdi), %rdx
	movq	%rdx, %rsi
	shrq	%rsi
	cmpq	$2147483646, %rsi
	ja	.LBB9_26
	movq	8(%rcx), %rsi
	cmpq	%rsi, %rdx
	jae	.LBB9_26
	movq	(%rcx), %rdi
	imulq	$56, %rdx, %r8
	cmpb	$0, (%rdi,%r8)
	jne	.LBB9_26
	movq	%rax, %rcx
	decq	%rcx
	je	.LBB9_25
	movl	$4294967294, %ecx
	addq	%r8, %rdi
	addq	$56, %rdi
	movl	$1, %r8d
	.p2align	4
.LBB9_7:
	leaq	(%rdx,%r8), %r9
	cmpq	%rcx, %r9
	jae	.LBB9_26
	cmpq	%rsi, %r9
	jae	.LBB9_26
	cmpb	$0, (%rdi)
	jne	.LBB9_26
	incq	%r8
	addq	$56, %rdi
	cmpq	%r8, %rax
	jne	.LBB9_7
	jmp	.LBB9_24
.LBB9_11:
	cmpb	$1, 12(%rdi)
	jne	.LBB9_19
	movl	16(%rdi), %edx
	cmpb	$1, 20(%rdi)
	jne	.LBB9_20
	movl	24(%rdi), %esi
	xorl	%eax, %eax
	.p2align	4
.LBB9_14:
	cmpl	%esi, %edx
	je	.LBB9_24
	movl	%edx, %edx
	decq	%rdx
	cmpq	8(%rcx), %rdx
	jae	.LBB9_26
	movq	(%rcx), %rdi
	imulq	$56, %rdx, %rdx
	cmpb	$0, (%rdi,%rdx)
	jne	.LBB9_26
	movl	52(%rdi,%rdx), %edx
	incq	%rax
	testl	%edx, %edx
	jne	.LBB9_14
	jmp	.LBB9_24
.LBB9_19:
	xorl	%eax, %eax
	retq
.LBB9_20:
	movq	8(%rcx), %rsi
	xorl	%eax, %eax
	.p2align	4
.LBB9_21:
	movl	%edx, %edx
	decq	%rdx
	cmpq	%rsi, %rdx
	jae	.LBB9_26
	movq	(%rcx), %rdi
	imulq	$56, %rdx, %rdx
	cmpb	$0, (%rdi,%rdx)
	jne	.LBB9_26
	movl	52(%rdi,%rdx), %edx
	incq	%rax
	testl	%edx, %edx
	jne	.LBB9_21
.LBB9_24:
	retq
.LBB9_25:
	movl	$1, %eax
	retq
.LBB9_26:
	ud2
.Lfunc_end9:
	.size	"core::iter::base::Iterator::count::<#55e36cf547ec1a3b>", .Lfunc_end9-"core::iter::base::Iterator::count::<#55e36cf547ec1a3b>"
	.cfi_endproc

	.section	".text.sorted_arena::arena::SortedArena::rekey::<#1b35315d4ce24113>","ax",@progbits
	.p2align	4
	.type	"sorted_arena::arena::SortedArena::rekey::<#1b35315d4ce24113>",@function
"sorted_arena::arena::SortedArena::rekey::<#1b35315d4ce24113>":
	.cfi_startproc
	pushq	%rbp
	.cfi_def_cfa_offset 16
	pushq	%r15
	.cfi_def_cfa_offset 24
	pushq	%r14
	.cfi_def_cfa_offset 32
	pushq	%r13
	.cfi_def_cfa_offset 40
	pushq	%r12
	.cfi_def_cfa_offset 48
	pushq	%rbx
	.cfi_def_cfa_offset 56
	subq	$24, %rsp
	.cfi_def_cfa_offset 80
	.cfi_offset %rbx, -56
	.cfi_offset %r12, -48
	.cfi_offset %r13, -40
	.cfi_offset %r14, -32
	.cfi_offset %r15, -24
	.cfi_offset %rbp, -16
	movl	%esi, %r10d
	leaq	-1(%r10), %r8
	movb	$1, %r9b
	cmpq	8(%rdi), %r8
	jae	.LBB10_3
	movq	(%rdi), %rax
	imulq	$56, %r8, %r8
	cmpb	$0, (%rax,%r8)
	jne	.LBB10_3
	cmpq	%rdx, 8(%rax,%r8)
	jne	.LBB10_3
	movzbl	88(%rdi), %r8d
	cmpb	$1, %r8b
	je	.LBB10_9
	imulq	$56, %r10, %r15
	xorl	%r12d, %r12d
	xorl	%ebx, %ebx
	jmp	.LBB10_22
.LBB10_3:
	movq	%rcx, %rdx
.LBB10_4:
	movzbl	%r9b, %eax
	xorl	%ecx, %ecx
	cmpb	$0, 96(%rdi)
	cmovnel	%eax, %ecx
	movb	%cl, 96(%rdi)
	addq	$24, %rsp
	.cfi_def_cfa_offset 56
	popq	%rbx
	.cfi_def_cfa_offset 48
	popq	%r12
	.cfi_def_cfa_offset 40
	popq	%r13
	.cfi_def_cfa_offset 32
	popq	%r14
	.cfi_def_cfa_offset 24
	popq	%r15
	.cfi_def_cfa_offset 16
	popq	%rbp
	.cfi_def_cfa_offset 8
	retq
.LBB10_9:
	.cfi_def_cfa_offset 80
	movl	92(%rdi), %edx
	imulq	$56, %r10, %r15
	jmp	.LBB10_10
.LBB10_15:
	movl	%edx, %r11d
	orl	%r9d, %r11d
	cmpq	%r10, %rcx
	setl	%bl
	cmovll	%r9d, %edx
	movl	%r11d, %r9d
	testl	%r9d, %r9d
	je	.LBB10_21
	.p2align	4
.LBB10_20:
	testl	%edx, %edx
	je	.LBB10_21
.LBB10_10:
	movl	%edx, %r12d
	cmpl	%esi, %edx
	jne	.LBB10_16
	cmpb	$0, -56(%rax,%r15)
	jne	.LBB10_80
	movl	-8(%rax,%r15), %edx
	testq	%rdx, %rdx
	je	.LBB10_18
	imulq	$56, %rdx, %rdx
	cmpb	$0, -56(%rax,%rdx)
	jne	.LBB10_80
	movq	-32(%rax,%rdx), %r10
	movl	-40(%rax,%r15), %r9d
	movl	-36(%rax,%r15), %edx
	cmpq	%r10, %rcx
	jne	.LBB10_15
	orl	%edx, %r9d
	xorl	%ebx, %ebx
	testl	%r9d, %r9d
	jne	.LBB10_20
	jmp	.LBB10_21
	.p2align	4
.LBB10_16:
	movl	%r12d, %edx
	imulq	$56, %rdx, %r10
	cmpb	$0, -56(%rax,%r10)
	jne	.LBB10_80
	movl	-40(%rax,%r10), %r11d
	movl	-36(%rax,%r10), %edx
	movl	%edx, %r9d
	orl	%r11d, %r9d
	cmpq	-32(%rax,%r10), %rcx
	setl	%bl
	cmovll	%r11d, %edx
	testl	%r9d, %r9d
	jne	.LBB10_20
	jmp	.LBB10_21
.LBB10_18:
	movl	-40(%rax,%r15), %r9d
	movl	-36(%rax,%r15), %edx
	orl	%edx, %r9d
	xorl	%ebx, %ebx
	testl	%r9d, %r9d
	jne	.LBB10_20
.LBB10_21:
	xorb	$1, %bl
.LBB10_22:
	cmpb	$0, -56(%rax,%r15)
	jne	.LBB10_80
	xorl	%r9d, %r9d
	movq	-32(%rax,%r15), %rdx
	movq	%rcx, -32(%rax,%r15)
	cmpb	$1, %r8b
	jne	.LBB10_4
	cmpl	%esi, %r12d
	je	.LBB10_4
	movl	%r12d, %r13d
	leaq	-1(%r13), %rcx
	movq	(%rdi), %rax
	cmpq	8(%rdi), %rcx
	jae	.LBB10_31
	imulq	$56, %rcx, %rcx
	cmpb	$0, (%rax,%rcx)
	jne	.LBB10_31
	testb	%bl, %bl
	je	.LBB10_29
	movl	52(%rax,%rcx), %ecx
	jmp	.LBB10_30
.LBB10_29:
	movl	48(%rax,%rcx), %ecx
.LBB10_30:
	testl	%ecx, %ecx
	setne	%r8b
	cmpl	%esi, %ecx
	sete	%cl
	testb	%cl, %r8b
	jne	.LBB10_82
.LBB10_31:
	movq	%rdx, 8(%rsp)
	cmpb	$0, -56(%rax,%r15)
	jne	.LBB10_80
	movl	%esi, %ebp
	leaq	88(%rdi), %rsi
	movl	-8(%rax,%r15), %r8d
	xorl	%ecx, %ecx
	testl	%r8d, %r8d
	setne	%cl
	movq	%rdi, %r14
	movq	%rsi, 16(%rsp)
	movl	%ebp, %edx
	callq	"ord_tree::detach::detach::<#e3604ca6c48fba3c>"
	movq	(%r14), %r9
	cmpb	$0, -56(%r9,%r15)
	jne	.LBB10_80
	movq	%r14, %rdi
	movl	-8(%r9,%r15), %eax
	movl	-4(%r9,%r15), %r8d
	xorl	%ecx, %ecx
	testq	%rax, %rax
	setne	%sil
	movq	8(%rsp), %rdx
	je	.LBB10_36
	imulq	$56, %rax, %r10
	cmpb	$0, -56(%r9,%r10)
	jne	.LBB10_80
	movl	%r8d, -4(%r9,%r10)
.LBB10_36:
	testl	%r8d, %r8d
	je	.LBB10_39
	movq	(%rdi), %r9
	imulq	$56, %r8, %r10
	cmpb	$0, -56(%r9,%r10)
	jne	.LBB10_80
	movl	%eax, -8(%r9,%r10)
.LBB10_39:
	testl	%eax, %eax
	jne	.LBB10_41
	xorl	%r9d, %r9d
	testl	%r8d, %r8d
	setne	%r9b
	movl	%r9d, 72(%rdi)
	movl	%r8d, 76(%rdi)
.LBB10_41:
	testl	%r8d, %r8d
	jne	.LBB10_43
	movb	%sil, %cl
	movl	%ecx, 80(%rdi)
	movl	%eax, 84(%rdi)
.LBB10_43:
	imulq	$56, %r13, %rax
	movq	(%rdi), %r9
	movzbl	-56(%r9,%rax), %ecx
	testb	%bl, %bl
	je	.LBB10_46
	testb	%cl, %cl
	jne	.LBB10_80
	movl	-4(%r9,%rax), %r8d
	testl	%r8d, %r8d
	sete	%cl
	xorl	%esi, %esi
	movl	%r12d, %r10d
	jmp	.LBB10_48
.LBB10_46:
	testb	%cl, %cl
	jne	.LBB10_80
	movl	-8(%r9,%rax), %r10d
	testl	%r10d, %r10d
	sete	%sil
	xorl	%ecx, %ecx
	movl	%r12d, %r8d
.LBB10_48:
	cmpb	$0, -56(%r9,%r15)
	jne	.LBB10_80
	xorl	%r11d, %r11d
	testb	%cl, %cl
	movl	%r8d, %r13d
	cmovnel	%r11d, %r13d
	movl	%r13d, -4(%r9,%r15)
	movq	(%rdi), %r9
	cmpb	$0, -56(%r9,%r15)
	jne	.LBB10_80
	testb	%sil, %sil
	cmovel	%r10d, %r11d
	movl	%r11d, -8(%r9,%r15)
	jne	.LBB10_53
	movq	(%rdi), %r9
	movl	%r10d, %r10d
	imulq	$56, %r10, %r10
	cmpb	$0, -56(%r9,%r10)
	jne	.LBB10_80
	movl	%ebp, -4(%r9,%r10)
.LBB10_53:
	testb	%cl, %cl
	jne	.LBB10_56
	movq	(%rdi), %r9
	movl	%r8d, %r8d
	imulq	$56, %r8, %r8
	cmpb	$0, -56(%r9,%r8)
	jne	.LBB10_80
	movl	%ebp, -8(%r9,%r8)
.LBB10_56:
	testb	%sil, %sil
	je	.LBB10_57
	movl	$1, 72(%rdi)
	movl	%ebp, 76(%rdi)
	testb	%cl, %cl
	jne	.LBB10_60
.LBB10_58:
	movq	(%rdi), %r8
	cmpb	$0, -56(%r8,%rax)
	je	.LBB10_61
	jmp	.LBB10_80
.LBB10_57:
	testb	%cl, %cl
	je	.LBB10_58
.LBB10_60:
	movl	$1, 80(%rdi)
	movl	%ebp, 84(%rdi)
	movq	(%rdi), %r8
	cmpb	$0, -56(%r8,%rax)
	jne	.LBB10_80
.LBB10_61:
	leaq	(%r8,%rax), %r9
	movzbl	%bl, %esi
	shll	$2, %esi
	movq	%rsi, %r10
	orq	$-40, %r10
	leaq	(%r8,%r15), %rcx
	cmpl	$0, (%r10,%r9)
	movzbl	-56(%r8,%r15), %r8d
	je	.LBB10_65
	testb	%r8b, %r8b
	jne	.LBB10_80
	orq	$-8, %rsi
	movl	(%rcx,%rsi), %r12d
	testq	%r12, %r12
	je	.LBB10_80
	imulq	$56, %r12, %rax
	jmp	.LBB10_66
.LBB10_65:
	testb	%bl, %bl
	sete	%bl
	testb	%r8b, %r8b
	jne	.LBB10_80
.LBB10_66:
	movl	%r12d, -16(%rcx)
	movq	$0, -40(%rcx)
	movb	$1, -12(%rcx)
	movq	(%rdi), %rcx
	cmpb	$0, -56(%rcx,%rax)
	jne	.LBB10_80
	testb	%bl, %bl
	je	.LBB10_69
	movl	%ebp, -40(%rcx,%rax)
	jmp	.LBB10_70
.LBB10_69:
	movl	%ebp, -36(%rcx,%rax)
.LBB10_70:
	movq	(%rdi), %rax
	cmpb	$0, -56(%rax,%r15)
	jne	.LBB10_80
	addq	%rax, %r15
	jmp	.LBB10_72
.LBB10_78:
	xorl	%eax, %eax
	movl	%r9d, %r11d
	subb	%al, %r11b
	cmpb	$1, %r11b
	jne	.LBB10_81
.LBB10_79:
	incb	%r9b
	movb	%r9b, -12(%r8)
	movq	(%rdi), %rax
	leaq	(%rax,%rsi), %r15
	cmpb	$0, -56(%rax,%rsi)
	movl	%ecx, %ebp
	jne	.LBB10_80
.LBB10_72:
	movl	-16(%r15), %ecx
	testq	%rcx, %rcx
	je	.LBB10_82
	imulq	$56, %rcx, %rsi
	cmpb	$0, -56(%rax,%rsi)
	jne	.LBB10_80
	leaq	(%rax,%rsi), %r8
	movzbl	-12(%r8), %r9d
	cmpb	%r9b, -12(%r15)
	jb	.LBB10_82
	movl	-40(%r8), %r10d
	testl	%r10d, %r10d
	sete	%r11b
	cmpl	%ebp, %r10d
	setne	%r10b
	orb	%r11b, %r10b
	movl	%r10d, %r11d
	xorb	$1, %r11b
	movzbl	%r11b, %r11d
	shll	$2, %r11d
	orq	$-40, %r11
	movl	(%r8,%r11), %r11d
	testq	%r11, %r11
	je	.LBB10_78
	imulq	$56, %r11, %r11
	cmpb	$0, -56(%rax,%r11)
	jne	.LBB10_80
	movzbl	-12(%rax,%r11), %eax
	movl	%r9d, %r11d
	subb	%al, %r11b
	cmpb	$1, %r11b
	je	.LBB10_79
.LBB10_81:
	movzbl	%r10b, %edx
	movq	%r14, %rdi
	movq	16(%rsp), %rsi
	movl	%ebp, %r8d
	callq	"ord_tree::promote::rotate_once_or_twice::<#e3604ca6c48fba3c>"
	movq	8(%rsp), %rdx
	movq	%r14, %rdi
.LBB10_82:
	xorl	%r9d, %r9d
	jmp	.LBB10_4
.LBB10_80:
	ud2
.Lfunc_end10:
	.size	"sorted_arena::arena::SortedArena::rekey::<#1b35315d4ce24113>", .Lfunc_end10-"sorted_arena::arena::SortedArena::rekey::<#1b35315d4ce24113>"
	.cfi_endproc

	.section	".text.unlikely.std_alloc::vec::Vec::grow_amortized::<#8d7f4f0b77b76a1c>","ax",@progbits
	.p2align	4
	.type	"std_alloc::vec::Vec::grow_amortized::<#8d7f4f0b77b76a1c>",@function
"std_alloc::vec::Vec::grow_amortized::<#8d7f4f0b77b76a1c>":
	.cfi_startproc
	movq	8(%rdi), %rsi
	cmpq	$-1, %rsi
	je	.LBB11_5
	pushq	%r14
	.cfi_def_cfa_offset 16
	pushq	%rbx
	.cfi_def_cfa_offset 24
	pushq	%rax
	.cfi_def_cfa_offset 32
	.cfi_offset %rbx, -24
	.cfi_offset %r14, -16
	movq	16(%rdi), %rcx
	cmpq	$4, %rsi
	movl	$3, %ebx
	cmovaeq	%rsi, %rbx
	incq	%rbx
	movq	%rcx, %rdx
	shrq	$62, %rdx
	leaq	(%rcx,%rcx), %rax
	cmpq	%rax, %rbx
	cmovaq	%rbx, %rax
	testq	%rdx, %rdx
	cmoveq	%rax, %rbx
	movq	%rbx, %rdx
	shrq	$59, %rdx
	jne	.LBB11_6
	testq	%rcx, %rcx
	je	.LBB11_8
	movq	%rdi, %r14
	movq	(%rdi), %rdi
	shlq	$4, %rsi
	movq	%rbx, %rdx
	shlq	$4, %rdx
	movl	$8, %ecx
	callq	rattle_realloc@PLT
	testb	$1, %al
	je	.LBB11_6
.LBB11_9:
	movq	%rdx, (%r14)
	movq	%rbx, 16(%r14)
	movb	$1, %al
	addq	$8, %rsp
	.cfi_def_cfa_offset 24
	popq	%rbx
	.cfi_def_cfa_offset 16
	popq	%r14
	.cfi_def_cfa_offset 8
	.cfi_restore %rbx
	.cfi_restore %r14
	retq
.LBB11_5:
	xorl	%eax, %eax
	retq
.LBB11_8:
	.cfi_def_cfa_offset 32
	.cfi_offset %rbx, -24
	.cfi_offset %r14, -16
	movq	%rdi, %r14
	shlq	$4, %rax
	movl	$8, %esi
	movq	%rax, %rdi
	callq	rattle_alloc@PLT
	testb	$1, %al
	jne	.LBB11_9
.LBB11_6:
	xorl	%eax, %eax
	addq	$8, %rsp
	.cfi_def_cfa_offset 24
	popq	%rbx
	.cfi_def_cfa_offset 16
	popq	%r14
	.cfi_def_cfa_offset 8
	.cfi_restore %rbx
	.cfi_restore %r14
	retq
.Lfunc_end11:
	.size	"std_alloc::vec::Vec::grow_amortized::<#8d7f4f0b77b76a1c>", .Lfunc_end11-"std_alloc::vec::Vec::grow_amortized::<#8d7f4f0b77b76a1c>"
	.cfi_endproc

	.section	".text.core::slice::edits::mirror::<14'(,)::<i64,i64>>","ax",@progbits
	.p2align	4
	.type	"core::slice::edits::mirror::<14'(,)::<i64,i64>>",@function
"core::slice::edits::mirror::<14'(,)::<i64,i64>>":
	.cfi_startproc
	movq	%rdx, %rax
	shlq	$4, %rax
	addq	%rsi, %rax
	addq	$-16, %rax
	.p2align	4
.LBB12_1:
	movups	(%rdi), %xmm0
	movaps	%xmm0, -24(%rsp)
	movups	(%rax), %xmm0
	movups	%xmm0, (%rdi)
	movaps	-24(%rsp), %xmm0
	movups	%xmm0, (%rax)
	addq	$16, %rdi
	addq	$-16, %rax
	decq	%rdx
	jne	.LBB12_1
	retq
.Lfunc_end12:
	.size	"core::slice::edits::mirror::<14'(,)::<i64,i64>>", .Lfunc_end12-"core::slice::edits::mirror::<14'(,)::<i64,i64>>"
	.cfi_endproc

	.section	.text.topscedar_arena_append,"ax",@progbits
	.globl	topscedar_arena_append
	.p2align	4
	.type	topscedar_arena_append,@function
topscedar_arena_append:
	.cfi_startproc
	pushq	%rbp
	.cfi_def_cfa_offset 16
	pushq	%r15
	.cfi_def_cfa_offset 24
	pushq	%r14
	.cfi_def_cfa_offset 32
	pushq	%r13
	.cfi_def_cfa_offset 40
	pushq	%r12
	.cfi_def_cfa_offset 48
	pushq	%rbx
	.cfi_def_cfa_offset 56
	subq	$40, %rsp
	.cfi_def_cfa_offset 96
	.cfi_offset %rbx, -56
	.cfi_offset %r12, -48
	.cfi_offset %r13, -40
	.cfi_offset %r14, -32
	.cfi_offset %r15, -24
	.cfi_offset %rbp, -16
	movq	%rdi, %rcx
	movq	8(%rdi), %rdi
	xorl	%ebx, %ebx
	testb	$1, (%rcx)
	cmovneq	%rdi, %rbx
	xorps	%xmm0, %xmm0
	movups	%xmm0, (%rcx)
	movb	$4, %al
	je	.LBB13_17
	xorl	%r15d, %r15d
	testb	$1, (%rsi)
	movq	8(%rsi), %r14
	cmovneq	%r14, %r15
	movups	%xmm0, (%rsi)
	jne	.LBB13_2
	movb	$1, (%rcx)
	movl	$0, 1(%rcx)
	movl	$0, 4(%rcx)
	movq	%rbx, 8(%rcx)
	jmp	.LBB13_17
.LBB13_2:
	movq	8(%r15), %r9
	subq	32(%r14), %r9
	movq	8(%rdi), %r8
	movq	%r8, %rdx
	subq	32(%rdi), %rdx
	xorl	%eax, %eax
	addq	%r9, %rdx
	jae	.LBB13_5
	movb	$1, %bpl
	xorl	%edx, %edx
	jmp	.LBB13_4
.LBB13_5:
	movq	%rsi, %r12
	movq	%rcx, %r13
	cmpq	%r8, %rdx
	ja	.LBB13_11
	xorl	%ebp, %ebp
.LBB13_7:
	xorps	%xmm0, %xmm0
	movaps	%xmm0, (%rsp)
	movq	$0, 16(%rsp)
	cmpb	$1, 72(%r15)
	jne	.LBB13_10
	movl	76(%r14), %edx
	leaq	-1(%rdx), %rcx
	cmpq	8(%r15), %rcx
	jae	.LBB13_10
	movq	(%r14), %rax
	imulq	$56, %rcx, %rcx
	cmpb	$0, (%rax,%rcx)
	jne	.LBB13_10
	movq	8(%rax,%rcx), %rcx
	movq	%rsp, %rdi
	movq	%r14, %rsi
	callq	"sorted_arena::arena::SortedArena::remove::<#1b35315d4ce24113>"
	cmpb	$1, (%rsp)
	jne	.LBB13_10
	movq	8(%rsp), %rdx
	movq	16(%rsp), %rcx
	xorps	%xmm0, %xmm0
	movaps	%xmm0, 16(%rsp)
	movaps	%xmm0, (%rsp)
	movq	%rsp, %rdi
	movq	%rbx, %rsi
	callq	"sorted_arena::arena::SortedArena::insert::<#1599bed149cb2453>"
	cmpb	$0, (%rsp)
	je	.LBB13_7
	ud2
.LBB13_10:
	xorl	%edx, %edx
.LBB13_12:
	xorl	%eax, %eax
	movq	%r13, %rcx
	movq	%r12, %rsi
.LBB13_4:
	movb	$1, (%rcx)
	movl	$0, 1(%rcx)
	movl	$0, 4(%rcx)
	movq	%rbx, 8(%rcx)
	movb	$1, (%rsi)
	movl	$0, 1(%rsi)
	movl	$0, 4(%rsi)
	movq	%r15, 8(%rsi)
	orb	$2, %dl
	movzbl	%dl, %ecx
	testb	$1, %bpl
	cmovnel	%ecx, %eax
.LBB13_17:
	addq	$40, %rsp
	.cfi_def_cfa_offset 56
	popq	%rbx
	.cfi_def_cfa_offset 48
	popq	%r12
	.cfi_def_cfa_offset 40
	popq	%r13
	.cfi_def_cfa_offset 32
	popq	%r14
	.cfi_def_cfa_offset 24
	popq	%r15
	.cfi_def_cfa_offset 16
	popq	%rbp
	.cfi_def_cfa_offset 8
	retq
.LBB13_11:
	.cfi_def_cfa_offset 96
	movq	64(%rdi), %rax
	movl	$4294967294, %ecx
	cmpq	%rcx, %rax
	cmovaeq	%rcx, %rax
	cmpb	$1, 56(%rdi)
	cmovneq	%rcx, %rax
	leaq	(%r8,%r8), %rcx
	cmpq	$5, %rcx
	movl	$4, %esi
	cmovaeq	%rcx, %rsi
	cmpq	%rax, %rsi
	cmovaeq	%rax, %rsi
	testq	%r8, %r8
	cmovsq	%rax, %rsi
	cmpq	%rdx, %rsi
	cmovbeq	%rdx, %rsi
	callq	"chain_base::chain::ChainArena::reallocate_min_capacity::<#1897f9e7b5ba150b>"
	movl	%eax, %ebp
	testb	%al, %al
	jne	.LBB13_12
	jmp	.LBB13_7
.Lfunc_end13:
	.size	topscedar_arena_append, .Lfunc_end13-topscedar_arena_append
	.cfi_endproc

	.section	.text.topscedar_arena_build,"ax",@progbits
	.globl	topscedar_arena_build
	.p2align	4
	.type	topscedar_arena_build,@function
topscedar_arena_build:
	.cfi_startproc
	pushq	%rbp
	.cfi_def_cfa_offset 16
	pushq	%r15
	.cfi_def_cfa_offset 24
	pushq	%r14
	.cfi_def_cfa_offset 32
	pushq	%r13
	.cfi_def_cfa_offset 40
	pushq	%r12
	.cfi_def_cfa_offset 48
	pushq	%rbx
	.cfi_def_cfa_offset 56
	subq	$56, %rsp
	.cfi_def_cfa_offset 112
	.cfi_offset %rbx, -56
	.cfi_offset %r12, -48
	.cfi_offset %r13, -40
	.cfi_offset %r14, -32
	.cfi_offset %r15, -24
	.cfi_offset %rbp, -16
	movq	%rcx, %r14
	movq	%rsi, %r15
	xorl	%ecx, %ecx
	testq	%rsi, %rsi
	sete	%sil
	xorl	%r13d, %r13d
	testq	%r14, %r14
	sete	%r10b
	movq	8(%rdi), %rax
	xorl	%ebx, %ebx
	testb	$1, (%rdi)
	cmovneq	%rax, %rbx
	xorps	%xmm0, %xmm0
	movups	%xmm0, (%rdi)
	movb	$4, %bpl
	je	.LBB14_27
	movq	%rdx, %r12
	movb	%sil, %cl
	shll	$12, %ecx
	cmpq	%rdx, %r8
	cmovbq	%r8, %r12
	cmpb	$1, 80(%rax)
	jne	.LBB14_2
	movl	84(%rax), %edx
	decq	%rdx
	cmpq	8(%rax), %rdx
	jae	.LBB14_2
	movq	(%rax), %rsi
	imulq	$56, %rdx, %rdx
	cmpb	$0, (%rsi,%rdx)
	je	.LBB14_5
.LBB14_2:
	xorl	%edx, %edx
	xorl	%r8d, %r8d
	addq	%rcx, %r15
	testq	%r12, %r12
	je	.LBB14_14
.LBB14_7:
	movq	(%r15), %rsi
	cmpq	%rsi, %rdx
	setg	%cl
	testb	%cl, %r8b
	je	.LBB14_10
	xorl	%ecx, %ecx
.LBB14_9:
	movq	%rcx, (%r9)
	movb	$1, (%rdi)
	movl	$0, 1(%rdi)
	movl	$0, 4(%rdi)
	movq	%rbx, 8(%rdi)
	movb	$6, %bpl
	jmp	.LBB14_27
.LBB14_10:
	cmpq	$1, %r12
	je	.LBB14_14
	movl	$1, %ecx
	.p2align	4
.LBB14_12:
	movq	%rsi, %rdx
	movq	(%r15,%rcx,8), %rsi
	cmpq	%rsi, %rdx
	jg	.LBB14_9
	incq	%rcx
	cmpq	%rcx, %r12
	jne	.LBB14_12
	jmp	.LBB14_14
.LBB14_5:
	movq	24(%rsi,%rdx), %rdx
	movb	$1, %r8b
	addq	%rcx, %r15
	testq	%r12, %r12
	jne	.LBB14_7
.LBB14_14:
	movq	8(%rax), %rdx
	movq	%rdx, %rcx
	subq	32(%rax), %rcx
	xorl	%ebp, %ebp
	addq	%r12, %rcx
	jae	.LBB14_16
	movb	$1, %al
	xorl	%edx, %edx
	jmp	.LBB14_26
.LBB14_16:
	movq	%rdi, 8(%rsp)
	cmpq	%rdx, %rcx
	ja	.LBB14_18
	movl	$0, 4(%rsp)
.LBB14_20:
	xorps	%xmm0, %xmm0
	movaps	%xmm0, 32(%rsp)
	movaps	%xmm0, 16(%rsp)
	testq	%r12, %r12
	je	.LBB14_25
	movb	%r10b, %r13b
	shll	$12, %r13d
	addq	%r13, %r14
	xorl	%r13d, %r13d
	.p2align	4
.LBB14_23:
	movq	(%r15,%r13,8), %rdx
	movq	(%r14,%r13,8), %rcx
	leaq	16(%rsp), %rdi
	movq	%rbx, %rsi
	callq	"sorted_arena::arena::SortedArena::insert::<#1599bed149cb2453>"
	cmpb	$0, 16(%rsp)
	jne	.LBB14_24
	incq	%r13
	cmpq	%r13, %r12
	jne	.LBB14_23
.LBB14_25:
	xorl	%edx, %edx
	movq	8(%rsp), %rdi
	movl	4(%rsp), %eax
.LBB14_26:
	movb	$1, (%rdi)
	movl	$0, 1(%rdi)
	movl	$0, 4(%rdi)
	movq	%rbx, 8(%rdi)
	orb	$2, %dl
	movzbl	%dl, %ecx
	testb	$1, %al
	cmovnel	%ecx, %ebp
.LBB14_27:
	movl	%ebp, %eax
	addq	$56, %rsp
	.cfi_def_cfa_offset 56
	popq	%rbx
	.cfi_def_cfa_offset 48
	popq	%r12
	.cfi_def_cfa_offset 40
	popq	%r13
	.cfi_def_cfa_offset 32
	popq	%r14
	.cfi_def_cfa_offset 24
	popq	%r15
	.cfi_def_cfa_offset 16
	popq	%rbp
	.cfi_def_cfa_offset 8
	retq
.LBB14_18:
	.cfi_def_cfa_offset 112
	movb	%r10b, 3(%rsp)
	movq	64(%rax), %rdi
	movl	$4294967294, %esi
	cmpq	%rsi, %rdi
	cmovaeq	%rsi, %rdi
	cmpb	$1, 56(%rax)
	cmovneq	%rsi, %rdi
	leaq	(%rdx,%rdx), %r8
	cmpq	$5, %r8
	movl	$4, %esi
	cmovaeq	%r8, %rsi
	cmpq	%rdi, %rsi
	cmovaeq	%rdi, %rsi
	testq	%rdx, %rdx
	cmovsq	%rdi, %rsi
	cmpq	%rcx, %rsi
	cmovbeq	%rcx, %rsi
	movq	%rax, %rdi
	callq	"chain_base::chain::ChainArena::reallocate_min_capacity::<#1897f9e7b5ba150b>"
	testb	%al, %al
	je	.LBB14_19
	movq	8(%rsp), %rdi
	jmp	.LBB14_26
.LBB14_19:
	movl	%eax, 4(%rsp)
	movzbl	3(%rsp), %r10d
	jmp	.LBB14_20
.LBB14_24:
	ud2
.Lfunc_end14:
	.size	topscedar_arena_build, .Lfunc_end14-topscedar_arena_build
	.cfi_endproc

	.section	.text.topscedar_arena_capacity,"ax",@progbits
	.globl	topscedar_arena_capacity
	.p2align	4
	.type	topscedar_arena_capacity,@function
topscedar_arena_capacity:
	.cfi_startproc
	movq	8(%rdi), %rcx
	xorps	%xmm0, %xmm0
	testb	$1, (%rdi)
	movups	%xmm0, (%rdi)
	movb	$4, %al
	je	.LBB15_2
	movq	8(%rcx), %rax
	movb	$1, (%rdi)
	movl	$0, 1(%rdi)
	movl	$0, 4(%rdi)
	movq	%rcx, 8(%rdi)
	movq	%rax, (%rsi)
	xorl	%eax, %eax
.LBB15_2:
	retq
.Lfunc_end15:
	.size	topscedar_arena_capacity, .Lfunc_end15-topscedar_arena_capacity
	.cfi_endproc

	.section	.text.topscedar_arena_clear,"ax",@progbits
	.globl	topscedar_arena_clear
	.p2align	4
	.type	topscedar_arena_clear,@function
topscedar_arena_clear:
	.cfi_startproc
	movq	8(%rdi), %rdx
	xorl	%ecx, %ecx
	testb	$1, (%rdi)
	cmovneq	%rdx, %rcx
	xorps	%xmm0, %xmm0
	movups	%xmm0, (%rdi)
	movb	$4, %al
	je	.LBB16_20
	movups	%xmm0, 72(%rdx)
	movq	$0, 88(%rdx)
	movq	8(%rcx), %rax
	testq	%rax, %rax
	je	.LBB16_8
	cmpq	$1, %rax
	jne	.LBB16_4
	xorl	%esi, %esi
	jmp	.LBB16_7
.LBB16_4:
	movq	%rax, %r8
	andq	$-2, %r8
	xorl	%esi, %esi
	xorl	%r9d, %r9d
	.p2align	4
.LBB16_5:
	movq	(%rdx), %r10
	movq	$1, (%r10,%r9)
	leaq	1(%rsi), %r11
	xorps	%xmm0, %xmm0
	movups	%xmm0, 8(%r10,%r9)
	movups	%xmm0, 24(%r10,%r9)
	movups	%xmm0, 40(%r10,%r9)
	movq	%r11, 8(%rcx)
	movq	(%rdx), %r10
	movq	$1, 56(%r10,%r9)
	addq	$2, %rsi
	movups	%xmm0, 64(%r10,%r9)
	movups	%xmm0, 80(%r10,%r9)
	movups	%xmm0, 96(%r10,%r9)
	movq	%rsi, 8(%rcx)
	addq	$112, %r9
	cmpq	%rsi, %r8
	jne	.LBB16_5
	testb	$1, %al
	je	.LBB16_8
.LBB16_7:
	movq	(%rdx), %r8
	imulq	$56, %rsi, %r9
	movq	$1, (%r8,%r9)
	incq	%rsi
	movups	%xmm0, 8(%r8,%r9)
	movups	%xmm0, 24(%r8,%r9)
	movups	%xmm0, 40(%r8,%r9)
	movq	%rsi, 8(%rcx)
.LBB16_8:
	cmpq	$0, 32(%rcx)
	je	.LBB16_10
	movq	$0, 32(%rcx)
.LBB16_10:
	testq	%rax, %rax
	je	.LBB16_19
	movl	$4294967294, %esi
	cmpq	%rsi, %rax
	ja	.LBB16_21
	cmpq	$1, %rax
	jne	.LBB16_14
	xorl	%esi, %esi
	jmp	.LBB16_18
.LBB16_14:
	movl	%eax, %r8d
	andl	$-2, %r8d
	xorl	%esi, %esi
	movl	%eax, %r9d
	.p2align	4
.LBB16_15:
	movq	24(%rdx), %r10
	movl	%r9d, (%r10,%rsi,4)
	leaq	1(%rsi), %r10
	movq	%r10, 32(%rcx)
	leal	-1(%r9), %r10d
	movq	24(%rdx), %r11
	movl	%r10d, 4(%r11,%rsi,4)
	addq	$2, %rsi
	movq	%rsi, 32(%rcx)
	addl	$-2, %r9d
	cmpq	%rsi, %r8
	jne	.LBB16_15
	testb	$1, %al
	je	.LBB16_19
	subq	%rsi, %rax
.LBB16_18:
	movq	24(%rdx), %r8
	movl	%eax, (%r8,%rsi,4)
	incq	%rsi
	movq	%rsi, 32(%rcx)
.LBB16_19:
	movq	48(%rcx), %rax
	incq	%rax
	movl	$2, %esi
	cmovneq	%rax, %rsi
	movq	%rsi, 48(%rcx)
	movb	$1, 96(%rdx)
	movb	$1, (%rdi)
	movl	$0, 1(%rdi)
	movl	$0, 4(%rdi)
	movq	%rcx, 8(%rdi)
	xorl	%eax, %eax
.LBB16_20:
	retq
.LBB16_21:
	ud2
.Lfunc_end16:
	.size	topscedar_arena_clear, .Lfunc_end16-topscedar_arena_clear
	.cfi_endproc

	.section	.rodata.cst16,"aM",@progbits,16
	.p2align	4, 0x0
.LCPI17_0:
	.quad	-2
	.quad	-3
.LCPI17_1:
	.byte	0
	.byte	0
	.byte	0
	.byte	0
	.byte	0
	.byte	0
	.byte	0
	.byte	0
	.byte	255
	.byte	255
	.byte	255
	.byte	255
	.byte	255
	.byte	255
	.byte	255
	.byte	255
.LCPI17_2:
	.long	4294967292
	.long	4294967292
	.long	4294967292
	.long	4294967292
.LCPI17_3:
	.quad	-8
	.quad	-8
	.section	.text.topscedar_arena_clone,"ax",@progbits
	.globl	topscedar_arena_clone
	.p2align	4
	.type	topscedar_arena_clone,@function
topscedar_arena_clone:
	.cfi_startproc
	pushq	%rbp
	.cfi_def_cfa_offset 16
	pushq	%r15
	.cfi_def_cfa_offset 24
	pushq	%r14
	.cfi_def_cfa_offset 32
	pushq	%r13
	.cfi_def_cfa_offset 40
	pushq	%r12
	.cfi_def_cfa_offset 48
	pushq	%rbx
	.cfi_def_cfa_offset 56
	subq	$56, %rsp
	.cfi_def_cfa_offset 112
	.cfi_offset %rbx, -56
	.cfi_offset %r12, -48
	.cfi_offset %r13, -40
	.cfi_offset %r14, -32
	.cfi_offset %r15, -24
	.cfi_offset %rbp, -16
	movb	$7, %al
	cmpb	$0, (%rsi)
	jne	.LBB17_44
	movq	8(%rdi), %r13
	xorl	%r10d, %r10d
	testb	$1, (%rdi)
	cmovneq	%r13, %r10
	pxor	%xmm0, %xmm0
	movdqu	%xmm0, (%rdi)
	movb	$4, %al
	je	.LBB17_44
	movq	8(%r10), %r12
	imulq	$56, %r12, %rax
	leaq	4(,%r12,4), %r14
	incq	%r12
	movq	%rsi, 48(%rsp)
	.p2align	4
.LBB17_3:
	movq	%r12, %rbp
	cmpq	$1, %r12
	je	.LBB17_4
	movq	(%r13), %rcx
	leaq	-56(%rax), %r15
	leaq	-1(%rbp), %r12
	addq	$-4, %r14
	cmpb	$0, -56(%rcx,%rax)
	movq	%r15, %rax
	jne	.LBB17_3
	movq	%r10, 24(%rsp)
	movq	%rdi, 8(%rsp)
	movl	$4294967295, %eax
	cmpq	%rax, %r12
	jae	.LBB17_45
	leaq	56(%r15), %rdi
	movl	$8, %esi
	callq	rattle_alloc@PLT
	testb	$1, %al
	je	.LBB17_40
	movq	%rdx, %rbx
	movl	$4, %esi
	movq	%r14, %rdi
	callq	rattle_alloc@PLT
	testb	$1, %al
	je	.LBB17_39
	movq	%r12, %rax
	negq	%rax
	cmpq	$-4, %rax
	jbe	.LBB17_13
	xorl	%eax, %eax
	movq	8(%rsp), %rdi
	movq	24(%rsp), %r10
	jmp	.LBB17_16
.LBB17_4:
	leaq	16(%rsp), %rbx
	xorl	%r14d, %r14d
	movq	%rbx, 8(%rsp)
.LBB17_5:
	movq	48(%r13), %r15
	movzbl	72(%r13), %eax
	movl	%eax, 24(%rsp)
	movl	76(%r13), %r12d
	movzbl	80(%r13), %eax
	movl	%eax, 44(%rsp)
	movl	84(%r13), %eax
	movl	%eax, 40(%rsp)
	movzbl	88(%r13), %eax
	movl	%eax, 36(%rsp)
	movl	92(%r13), %eax
	movl	%eax, 32(%rsp)
	movzbl	96(%r13), %r13d
	movb	$1, (%rdi)
	movl	$0, 1(%rdi)
	movl	$0, 4(%rdi)
	movq	%r10, 8(%rdi)
	movl	$104, %edi
	movl	$8, %esi
	callq	rattle_alloc@PLT
	testb	$1, %al
	je	.LBB17_41
	decq	%rbp
	movq	%rbx, (%rdx)
	movq	%rbp, 8(%rdx)
	movq	%rbp, 16(%rdx)
	movq	8(%rsp), %rax
	movq	%rax, 24(%rdx)
	movq	%r14, 32(%rdx)
	movq	%rbp, 40(%rdx)
	movq	%r15, 48(%rdx)
	pxor	%xmm0, %xmm0
	movdqu	%xmm0, 56(%rdx)
	movl	24(%rsp), %eax
	movl	%eax, 72(%rdx)
	movl	%r12d, 76(%rdx)
	movl	44(%rsp), %eax
	movl	%eax, 80(%rdx)
	movl	40(%rsp), %eax
	movl	%eax, 84(%rdx)
	movl	36(%rsp), %eax
	movl	%eax, 88(%rdx)
	movl	32(%rsp), %eax
	movl	%eax, 92(%rdx)
	movb	%r13b, 96(%rdx)
	movq	48(%rsp), %rax
	movb	$1, (%rax)
	movl	$0, 1(%rax)
	movl	$0, 4(%rax)
	movq	%rdx, 8(%rax)
	xorl	%eax, %eax
	jmp	.LBB17_44
.LBB17_41:
	movb	$3, %al
	cmpq	$1, %rbp
	je	.LBB17_44
	movq	%rbx, %rdi
	callq	rattle_dealloc@PLT
	movq	8(%rsp), %rdi
	callq	rattle_dealloc@PLT
	jmp	.LBB17_43
.LBB17_39:
	movq	%rbx, %rdi
	callq	rattle_dealloc@PLT
.LBB17_40:
	movq	8(%rsp), %rax
	movb	$1, (%rax)
	movl	$0, 1(%rax)
	movl	$0, 4(%rax)
	movq	24(%rsp), %rcx
	movq	%rcx, 8(%rax)
.LBB17_43:
	movb	$3, %al
.LBB17_44:
	addq	$56, %rsp
	.cfi_def_cfa_offset 56
	popq	%rbx
	.cfi_def_cfa_offset 48
	popq	%r12
	.cfi_def_cfa_offset 40
	popq	%r13
	.cfi_def_cfa_offset 32
	popq	%r14
	.cfi_def_cfa_offset 24
	popq	%r15
	.cfi_def_cfa_offset 16
	popq	%rbp
	.cfi_def_cfa_offset 8
	retq
.LBB17_13:
	.cfi_def_cfa_offset 112
	leaq	176(%rbx), %rcx
	movl	%r12d, %esi
	andl	$-4, %esi
	xorl	%eax, %eax
	movq	8(%rsp), %rdi
	movq	24(%rsp), %r10
	.p2align	4
.LBB17_14:
	movq	$1, -176(%rcx)
	pxor	%xmm0, %xmm0
	movdqu	%xmm0, -168(%rcx)
	movdqu	%xmm0, -152(%rcx)
	movdqu	%xmm0, -136(%rcx)
	movq	$1, -120(%rcx)
	movdqu	%xmm0, -112(%rcx)
	movdqu	%xmm0, -96(%rcx)
	movdqu	%xmm0, -80(%rcx)
	movq	$1, -64(%rcx)
	movdqu	%xmm0, -56(%rcx)
	movdqu	%xmm0, -40(%rcx)
	movdqu	%xmm0, -24(%rcx)
	movq	$1, -8(%rcx)
	addq	$4, %rax
	movdqu	%xmm0, (%rcx)
	movdqu	%xmm0, 16(%rcx)
	movdqu	%xmm0, 32(%rcx)
	addq	$224, %rcx
	cmpq	%rax, %rsi
	jne	.LBB17_14
	testb	$3, %r12b
	je	.LBB17_18
.LBB17_16:
	imulq	$56, %rax, %rax
	addq	%rbx, %rax
	addq	$8, %rax
	movl	%r12d, %ecx
	andl	$3, %ecx
	imulq	$56, %rcx, %rcx
	xorl	%esi, %esi
	.p2align	4
.LBB17_17:
	movq	$1, -8(%rax,%rsi)
	pxor	%xmm0, %xmm0
	movdqu	%xmm0, (%rax,%rsi)
	movdqu	%xmm0, 16(%rax,%rsi)
	movdqu	%xmm0, 32(%rax,%rsi)
	addq	$56, %rsi
	cmpq	%rsi, %rcx
	jne	.LBB17_17
.LBB17_18:
	cmpq	$8, %r12
	jae	.LBB17_20
	xorl	%ecx, %ecx
	movq	%r12, %rax
	jmp	.LBB17_23
.LBB17_20:
	movl	%r12d, %ecx
	andl	$-8, %ecx
	movl	%r12d, %eax
	andl	$7, %eax
	movq	%r12, %xmm0
	pshufd	$68, %xmm0, %xmm0
	movdqa	.LCPI17_0(%rip), %xmm1
	paddq	%xmm0, %xmm1
	paddq	.LCPI17_1(%rip), %xmm0
	xorl	%esi, %esi
	.p2align	4
.LBB17_21:
	movdqa	%xmm0, %xmm2
	shufps	$136, %xmm1, %xmm2
	movdqa	.LCPI17_2(%rip), %xmm3
	paddd	%xmm2, %xmm3
	movups	%xmm2, (%rdx,%rsi,4)
	movdqu	%xmm3, 16(%rdx,%rsi,4)
	addq	$8, %rsi
	movdqa	.LCPI17_3(%rip), %xmm2
	paddq	%xmm2, %xmm0
	paddq	%xmm2, %xmm1
	cmpq	%rsi, %rcx
	jne	.LBB17_21
	cmpq	%rcx, %r12
	je	.LBB17_25
.LBB17_23:
	leaq	(%rdx,%rcx,4), %rcx
	movq	%rax, %rsi
	.p2align	4
.LBB17_24:
	movl	%eax, (%rcx)
	addq	$4, %rcx
	decq	%rsi
	movq	%rsi, %rax
	jne	.LBB17_24
.LBB17_25:
	xorl	%eax, %eax
	jmp	.LBB17_26
	.p2align	4
.LBB17_30:
	movq	$1, (%rbx,%rcx)
	pxor	%xmm0, %xmm0
	movdqu	%xmm0, 8(%rbx,%rcx)
	movdqu	%xmm0, 24(%rbx,%rcx)
	movdqu	%xmm0, 40(%rbx,%rcx)
	incq	%rax
	cmpq	%rax, %r12
	je	.LBB17_32
.LBB17_26:
	movl	$4294967294, %ecx
	cmpq	%rcx, %rax
	je	.LBB17_45
	imulq	$56, %rax, %rcx
	cmpq	8(%r10), %rax
	jae	.LBB17_30
	movq	(%r13), %r11
	cmpb	$0, (%r11,%rcx)
	jne	.LBB17_30
	movl	40(%r11,%rcx), %esi
	movzbl	44(%r11,%rcx), %r8d
	movq	48(%r11,%rcx), %r9
	movdqu	8(%r11,%rcx), %xmm0
	movups	24(%r11,%rcx), %xmm1
	movq	$0, (%rbx,%rcx)
	movdqu	%xmm0, 8(%rbx,%rcx)
	movups	%xmm1, 24(%rbx,%rcx)
	movl	%esi, 40(%rbx,%rcx)
	movb	%r8b, 44(%rbx,%rcx)
	movb	$0, 47(%rbx,%rcx)
	movw	$0, 45(%rbx,%rcx)
	movq	%r9, 48(%rbx,%rcx)
	incq	%rax
	cmpq	%rax, %r12
	jne	.LBB17_26
.LBB17_32:
	addq	%rbx, %r15
	xorl	%r14d, %r14d
	movq	%r12, %rcx
	jmp	.LBB17_33
	.p2align	4
.LBB17_37:
	addq	$-56, %r15
	movq	%rax, %rcx
	testq	%rax, %rax
	je	.LBB17_38
.LBB17_33:
	leaq	-1(%rcx), %rax
	cmpq	%rax, %r12
	jbe	.LBB17_35
	cmpb	$1, (%r15)
	jne	.LBB17_37
.LBB17_35:
	movl	$4294967295, %esi
	cmpq	%rsi, %rcx
	jae	.LBB17_45
	movl	%ecx, (%rdx,%r14,4)
	incq	%r14
	jmp	.LBB17_37
.LBB17_38:
	movq	%rdx, 8(%rsp)
	jmp	.LBB17_5
.LBB17_45:
	ud2
.Lfunc_end17:
	.size	topscedar_arena_clone, .Lfunc_end17-topscedar_arena_clone
	.cfi_endproc

	.section	.text.topscedar_arena_close,"ax",@progbits
	.globl	topscedar_arena_close
	.p2align	4
	.type	topscedar_arena_close,@function
topscedar_arena_close:
	.cfi_startproc
	movq	%rdi, %rax
	movq	8(%rdi), %rdi
	xorps	%xmm0, %xmm0
	testb	$1, (%rax)
	movups	%xmm0, (%rax)
	movb	$4, %al
	je	.LBB18_6
	pushq	%r15
	.cfi_def_cfa_offset 16
	pushq	%r14
	.cfi_def_cfa_offset 24
	pushq	%r12
	.cfi_def_cfa_offset 32
	pushq	%rbx
	.cfi_def_cfa_offset 40
	pushq	%rax
	.cfi_def_cfa_offset 48
	.cfi_offset %rbx, -40
	.cfi_offset %r12, -32
	.cfi_offset %r14, -24
	.cfi_offset %r15, -16
	movq	(%rdi), %r14
	movq	24(%rdi), %rbx
	movq	40(%rdi), %r15
	movq	16(%rdi), %r12
	callq	rattle_dealloc@PLT
	testq	%r12, %r12
	je	.LBB18_3
	movq	%r14, %rdi
	callq	rattle_dealloc@PLT
.LBB18_3:
	testq	%r15, %r15
	je	.LBB18_5
	movq	%rbx, %rdi
	callq	rattle_dealloc@PLT
.LBB18_5:
	xorl	%eax, %eax
	addq	$8, %rsp
	.cfi_def_cfa_offset 40
	popq	%rbx
	.cfi_def_cfa_offset 32
	popq	%r12
	.cfi_def_cfa_offset 24
	popq	%r14
	.cfi_def_cfa_offset 16
	popq	%r15
	.cfi_def_cfa_offset 8
	.cfi_restore %rbx
	.cfi_restore %r12
	.cfi_restore %r14
	.cfi_restore %r15
.LBB18_6:
	retq
.Lfunc_end18:
	.size	topscedar_arena_close, .Lfunc_end18-topscedar_arena_close
	.cfi_endproc

	.section	.text.topscedar_arena_compact,"ax",@progbits
	.globl	topscedar_arena_compact
	.p2align	4
	.type	topscedar_arena_compact,@function
topscedar_arena_compact:
	.cfi_startproc
	pushq	%rbp
	.cfi_def_cfa_offset 16
	pushq	%r15
	.cfi_def_cfa_offset 24
	pushq	%r14
	.cfi_def_cfa_offset 32
	pushq	%r13
	.cfi_def_cfa_offset 40
	pushq	%r12
	.cfi_def_cfa_offset 48
	pushq	%rbx
	.cfi_def_cfa_offset 56
	subq	$120, %rsp
	.cfi_def_cfa_offset 176
	.cfi_offset %rbx, -56
	.cfi_offset %r12, -48
	.cfi_offset %r13, -40
	.cfi_offset %r14, -32
	.cfi_offset %r15, -24
	.cfi_offset %rbp, -16
	movq	8(%rdi), %r15
	xorl	%r13d, %r13d
	testb	$1, (%rdi)
	cmovneq	%r15, %r13
	xorps	%xmm0, %xmm0
	movups	%xmm0, (%rdi)
	movb	$4, %al
	je	.LBB19_48
	movq	%rdi, 64(%rsp)
	movl	$4294967294, %edi
	movq	8(%r13), %rsi
	movq	32(%r13), %rax
	movq	%rax, 8(%rsp)
	testq	%rsi, %rsi
	je	.LBB19_22
	xorl	%edx, %edx
	xorl	%ecx, %ecx
	xorl	%r9d, %r9d
	xorl	%r8d, %r8d
	jmp	.LBB19_5
	.p2align	4
.LBB19_3:
	movq	%r9, %rax
.LBB19_4:
	incq	%r8
	movq	%rax, %r9
	cmpq	%rsi, %r8
	je	.LBB19_13
.LBB19_5:
	cmpq	%rdi, %r8
	je	.LBB19_91
	cmpq	8(%r13), %r8
	jae	.LBB19_3
	movq	(%r15), %r10
	imulq	$56, %r8, %rax
	cmpb	$0, (%r10,%rax)
	jne	.LBB19_3
	movl	48(%r10,%rax), %r11d
	leaq	1(%r9), %rax
	xorl	%ebp, %ebp
	cmpq	%rdi, %r9
	setb	%bl
	movl	%eax, %r9d
	cmovael	%ebp, %r9d
	testq	%r11, %r11
	je	.LBB19_12
	imulq	$56, %r11, %r11
	cmpb	$0, -56(%r10,%r11)
	jne	.LBB19_91
	movl	%r9d, -4(%r10,%r11)
	jmp	.LBB19_4
.LBB19_12:
	movl	%r9d, %ecx
	movl	%ebx, %edx
	jmp	.LBB19_4
.LBB19_13:
	movq	8(%r13), %r8
	movq	48(%r13), %rax
	incq	%rax
	movl	$2, %r9d
	cmovneq	%rax, %r9
	movq	%r9, 48(%r13)
	testq	%r8, %r8
	je	.LBB19_90
	xorl	%r10d, %r10d
	xorl	%r11d, %r11d
	xorl	%r12d, %r12d
	jmp	.LBB19_16
	.p2align	4
.LBB19_15:
	incq	%r12
	addq	$56, %r10
	cmpq	%r12, %r8
	je	.LBB19_21
.LBB19_16:
	movq	(%r15), %rax
	movups	16(%rax,%r10), %xmm0
	movups	32(%rax,%r10), %xmm1
	cmpb	$0, (%rax,%r10)
	movaps	%xmm1, 32(%rsp)
	movaps	%xmm0, 16(%rsp)
	movsd	48(%rax,%r10), %xmm0
	movq	$1, (%rax,%r10)
	xorps	%xmm1, %xmm1
	movups	%xmm1, 8(%rax,%r10)
	movups	%xmm1, 24(%rax,%r10)
	movups	%xmm1, 40(%rax,%r10)
	jne	.LBB19_15
	movaps	16(%rsp), %xmm1
	movaps	32(%rsp), %xmm2
	movaps	%xmm2, 96(%rsp)
	movaps	%xmm1, 80(%rsp)
	cmpq	%rdi, %r12
	jae	.LBB19_91
	cmpq	%rdi, %r11
	jae	.LBB19_91
	movq	(%r15), %rax
	imulq	$56, %r11, %rbx
	movzbl	(%rax,%rbx), %ebp
	movq	$0, (%rax,%rbx)
	movq	%r9, 8(%rax,%rbx)
	movaps	80(%rsp), %xmm1
	movaps	96(%rsp), %xmm2
	movups	%xmm1, 16(%rax,%rbx)
	movups	%xmm2, 32(%rax,%rbx)
	movlps	%xmm0, 48(%rax,%rbx)
	cmpb	$1, %bpl
	jne	.LBB19_91
	incq	%r11
	jmp	.LBB19_15
.LBB19_21:
	movq	8(%r13), %r8
	movq	(%r15), %rax
	cmpq	$0, 32(%r13)
	je	.LBB19_24
.LBB19_23:
	movq	$0, 32(%r13)
.LBB19_24:
	testq	%r8, %r8
	movq	%r15, (%rsp)
	je	.LBB19_44
	imulq	$56, %r8, %r9
	addq	%rax, %r9
	addq	$-56, %r9
	xorl	%r10d, %r10d
	movq	%r8, %r11
	jmp	.LBB19_27
	.p2align	4
.LBB19_26:
	addq	$-56, %r9
	movq	%rax, %r11
	testq	%rax, %rax
	je	.LBB19_31
.LBB19_27:
	leaq	-1(%r11), %rax
	cmpq	%rax, %r8
	jbe	.LBB19_29
	cmpb	$1, (%r9)
	jne	.LBB19_26
.LBB19_29:
	movl	$4294967295, %ebx
	cmpq	%rbx, %r11
	jae	.LBB19_91
	movq	24(%r15), %rbx
	movl	%r11d, (%rbx,%r10,4)
	incq	%r10
	movq	%r10, 32(%r13)
	jmp	.LBB19_26
.LBB19_31:
	movq	8(%r13), %r9
	testq	%r9, %r9
	je	.LBB19_44
	xorl	%r10d, %r10d
	xorl	%r8d, %r8d
	xorl	%ebx, %ebx
	xorl	%r11d, %r11d
	jmp	.LBB19_35
	.p2align	4
.LBB19_33:
	movq	%rbx, %rax
	incq	%r11
	movq	%rax, %rbx
	cmpq	%r9, %r11
	je	.LBB19_45
.LBB19_35:
	cmpq	%rdi, %r11
	je	.LBB19_91
	cmpq	8(%r13), %r11
	jae	.LBB19_33
	movq	(%r15), %r14
	imulq	$56, %r11, %rax
	cmpb	$0, (%r14,%rax)
	jne	.LBB19_33
	movl	52(%r14,%rax), %r15d
	leaq	1(%rbx), %rax
	xorl	%r12d, %r12d
	cmpq	%rdi, %rbx
	setb	%bpl
	movl	%eax, %ebx
	cmovael	%r12d, %ebx
	testq	%r15, %r15
	je	.LBB19_42
	imulq	$56, %r15, %r15
	cmpb	$0, -56(%r14,%r15)
	jne	.LBB19_91
	movl	%ebx, -8(%r14,%r15)
	jmp	.LBB19_43
.LBB19_42:
	movl	%ebx, %r8d
	movl	%ebp, %r10d
.LBB19_43:
	movq	(%rsp), %r15
	incq	%r11
	movq	%rax, %rbx
	cmpq	%r9, %r11
	jne	.LBB19_35
.LBB19_45:
	movzbl	%r10b, %eax
	jmp	.LBB19_46
.LBB19_44:
	xorl	%r8d, %r8d
	xorl	%eax, %eax
.LBB19_46:
	movzbl	%dl, %edi
	movl	%eax, 80(%r13)
	movl	%r8d, 84(%r13)
	movl	%edi, 72(%r13)
	movl	%ecx, 76(%r13)
	subq	%rsi, 8(%rsp)
	jne	.LBB19_49
.LBB19_47:
	leaq	88(%r13), %rsi
	movq	%r15, %rdi
	callq	"ord_tree::tree::rebuild::rebuild_over::<#ba2297c2b7121456>"
	movb	$1, 96(%r15)
	movq	64(%rsp), %rax
	movb	$1, (%rax)
	movl	$0, 1(%rax)
	movl	$0, 4(%rax)
	movq	%r13, 8(%rax)
	xorl	%eax, %eax
.LBB19_48:
	addq	$120, %rsp
	.cfi_def_cfa_offset 56
	popq	%rbx
	.cfi_def_cfa_offset 48
	popq	%r12
	.cfi_def_cfa_offset 40
	popq	%r13
	.cfi_def_cfa_offset 32
	popq	%r14
	.cfi_def_cfa_offset 24
	popq	%r15
	.cfi_def_cfa_offset 16
	popq	%rbp
	.cfi_def_cfa_offset 8
	retq
.LBB19_49:
	.cfi_def_cfa_offset 176
	movl	$1, %esi
	jmp	.LBB19_51
	.p2align	4
.LBB19_50:
	movq	8(%rsp), %rax
	addq	%rsi, %rax
	incq	%rax
	incq	%rsi
	cmpq	$1, %rax
	je	.LBB19_47
.LBB19_51:
	movl	$4294967295, %eax
	cmpq	%rax, %rsi
	je	.LBB19_91
	cmpb	$1, %dl
	jne	.LBB19_91
	movq	8(%r13), %rdi
	movl	%ecx, %edx
	leaq	-1(%rdx), %rax
	cmpq	%rdi, %rax
	jae	.LBB19_91
	movq	%r13, %r8
	movq	(%r15), %r13
	imulq	$56, %rax, %rax
	cmpb	$0, (%r13,%rax)
	jne	.LBB19_91
	movl	%esi, %r9d
	leaq	-1(%r9), %r10
	cmpq	%rdi, %r10
	jae	.LBB19_91
	imulq	$56, %r10, %rdi
	cmpb	$0, (%r13,%rdi)
	jne	.LBB19_91
	imulq	$56, %rdx, %rbp
	cmpb	$0, -56(%r13,%rbp)
	jne	.LBB19_91
	movq	%r10, 72(%rsp)
	imulq	$56, %r9, %r12
	cmpb	$0, -56(%r13,%r12)
	jne	.LBB19_91
	movl	48(%r13,%rax), %r11d
	movl	52(%r13,%rax), %r10d
	movl	48(%r13,%rdi), %r9d
	movl	52(%r13,%rdi), %edx
	leaq	-56(,%rbp), %r15
	addq	%r13, %r15
	addq	$-56, %rbp
	movq	8(%r15), %rax
	leaq	(%r12,%r13), %r14
	addq	$-56, %r14
	movq	8(%r14), %rbx
	cmpl	%ecx, %esi
	jne	.LBB19_61
	movq	(%rsp), %r15
	jmp	.LBB19_68
	.p2align	4
.LBB19_61:
	movq	48(%r15), %r13
	movq	%r13, 48(%rsp)
	movups	16(%r15), %xmm0
	movups	32(%r15), %xmm1
	movaps	%xmm1, 32(%rsp)
	movaps	%xmm0, 16(%rsp)
	movq	$0, (%r15)
	movq	%rbx, 8(%r15)
	movq	48(%r14), %r13
	movups	16(%r14), %xmm0
	movups	32(%r14), %xmm1
	movups	%xmm0, 16(%r15)
	movups	%xmm1, 32(%r15)
	movq	%r13, 48(%r15)
	movq	$0, (%r14)
	movq	%rax, 8(%r14)
	movaps	16(%rsp), %xmm0
	movaps	32(%rsp), %xmm1
	movups	%xmm0, 16(%r14)
	movups	%xmm1, 32(%r14)
	movq	48(%rsp), %r15
	movq	%r15, 48(%r14)
	movq	(%rsp), %r15
	movq	(%r15), %r13
	cmpb	$0, (%r13,%rbp)
	je	.LBB19_68
	addq	$-56, %r12
	cmpb	$0, (%r13,%r12)
	je	.LBB19_69
.LBB19_63:
	testl	%r11d, %r11d
	movq	%r8, %r13
	je	.LBB19_64
.LBB19_70:
	cmpl	%r11d, %esi
	movl	%r11d, %ebx
	cmovel	%ecx, %ebx
	cmpl	%ecx, %r11d
	cmovel	%esi, %ebx
	movq	(%r15), %rax
	imulq	$56, %rbx, %r11
	cmpb	$0, -56(%rax,%r11)
	jne	.LBB19_91
	movl	%esi, -4(%rax,%r11)
	testl	%r10d, %r10d
	jne	.LBB19_72
.LBB19_65:
	testl	%r9d, %r9d
	je	.LBB19_66
.LBB19_74:
	cmpl	%r9d, %esi
	movl	%r9d, %r10d
	cmovel	%ecx, %r10d
	cmpl	%ecx, %r9d
	cmovel	%esi, %r10d
	movq	(%r15), %rax
	imulq	$56, %r10, %r9
	cmpb	$0, -56(%rax,%r9)
	jne	.LBB19_91
	movl	%ecx, -4(%rax,%r9)
	testl	%edx, %edx
	jne	.LBB19_76
.LBB19_67:
	movzbl	72(%r13), %eax
	movl	76(%r13), %edx
	cmpl	$1, %eax
	jne	.LBB19_81
	jmp	.LBB19_78
	.p2align	4
.LBB19_68:
	movq	%rax, 8(%r13,%rbp)
	movq	(%r15), %r13
	addq	$-56, %r12
	cmpb	$0, (%r13,%r12)
	jne	.LBB19_63
.LBB19_69:
	movq	%rbx, 8(%r13,%r12)
	testl	%r11d, %r11d
	movq	%r8, %r13
	jne	.LBB19_70
	.p2align	4
.LBB19_64:
	testl	%r10d, %r10d
	je	.LBB19_65
.LBB19_72:
	cmpl	%r10d, %esi
	movl	%r10d, %r11d
	cmovel	%ecx, %r11d
	cmpl	%ecx, %r10d
	cmovel	%esi, %r11d
	movq	(%r15), %rax
	imulq	$56, %r11, %r10
	cmpb	$0, -56(%rax,%r10)
	jne	.LBB19_91
	movl	%esi, -8(%rax,%r10)
	testl	%r9d, %r9d
	jne	.LBB19_74
.LBB19_66:
	testl	%edx, %edx
	je	.LBB19_67
.LBB19_76:
	cmpl	%edx, %esi
	movl	%edx, %r9d
	cmovel	%ecx, %r9d
	cmpl	%ecx, %edx
	cmovel	%esi, %r9d
	movq	(%r15), %rax
	imulq	$56, %r9, %rdx
	cmpb	$0, -56(%rax,%rdx)
	jne	.LBB19_91
	movl	%ecx, -8(%rax,%rdx)
	movzbl	72(%r13), %eax
	movl	76(%r13), %edx
	cmpl	$1, %eax
	jne	.LBB19_81
.LBB19_78:
	cmpl	%ecx, %edx
	jne	.LBB19_80
	movl	%esi, %r9d
	jmp	.LBB19_82
	.p2align	4
.LBB19_80:
	movl	%ecx, %r9d
	cmpl	%edx, %esi
	je	.LBB19_82
	.p2align	4
.LBB19_81:
	movl	%edx, %r9d
.LBB19_82:
	movl	%eax, 72(%r13)
	movl	%r9d, 76(%r13)
	movzbl	80(%r13), %eax
	movl	84(%r13), %edx
	cmpl	$1, %eax
	jne	.LBB19_86
	cmpl	%ecx, %edx
	jne	.LBB19_85
	movl	%esi, %ecx
	jmp	.LBB19_87
	.p2align	4
.LBB19_85:
	cmpl	%edx, %esi
	je	.LBB19_87
	.p2align	4
.LBB19_86:
	movl	%edx, %ecx
.LBB19_87:
	movl	%eax, 80(%r13)
	movl	%ecx, 84(%r13)
	xorl	%ecx, %ecx
	movl	$0, %edx
	movq	72(%rsp), %rax
	cmpq	8(%r13), %rax
	jae	.LBB19_50
	movq	(%r15), %rax
	xorl	%ecx, %ecx
	cmpb	$0, (%rax,%rdi)
	movl	$0, %edx
	jne	.LBB19_50
	movl	52(%rax,%rdi), %ecx
	testl	%ecx, %ecx
	setne	%dl
	jmp	.LBB19_50
.LBB19_22:
	movq	48(%r13), %rax
	incq	%rax
	movl	$2, %ecx
	cmovneq	%rax, %rcx
	movq	%rcx, 48(%r13)
	xorl	%edx, %edx
	xorl	%ecx, %ecx
	xorl	%r8d, %r8d
	movq	(%r15), %rax
	cmpq	$0, 32(%r13)
	jne	.LBB19_23
	jmp	.LBB19_24
.LBB19_90:
	xorl	%r8d, %r8d
	movq	(%r15), %rax
	cmpq	$0, 32(%r13)
	jne	.LBB19_23
	jmp	.LBB19_24
.LBB19_91:
	ud2
.Lfunc_end19:
	.size	topscedar_arena_compact, .Lfunc_end19-topscedar_arena_compact
	.cfi_endproc

	.section	.text.topscedar_arena_count,"ax",@progbits
	.globl	topscedar_arena_count
	.p2align	4
	.type	topscedar_arena_count,@function
topscedar_arena_count:
	.cfi_startproc
	pushq	%rbp
	.cfi_def_cfa_offset 16
	pushq	%r15
	.cfi_def_cfa_offset 24
	pushq	%r14
	.cfi_def_cfa_offset 32
	pushq	%r12
	.cfi_def_cfa_offset 40
	pushq	%rbx
	.cfi_def_cfa_offset 48
	subq	$64, %rsp
	.cfi_def_cfa_offset 112
	.cfi_offset %rbx, -48
	.cfi_offset %r12, -40
	.cfi_offset %r14, -32
	.cfi_offset %r15, -24
	.cfi_offset %rbp, -16
	movq	%rsi, 8(%rsp)
	movq	8(%rdi), %r15
	xorps	%xmm0, %xmm0
	testb	$1, (%rdi)
	movups	%xmm0, (%rdi)
	movb	$4, %bpl
	je	.LBB20_2
	movq	%rdx, %rbx
	movq	%rdi, %r14
	movaps	%xmm0, 48(%rsp)
	movaps	%xmm0, 32(%rsp)
	movaps	%xmm0, 16(%rsp)
	leaq	16(%rsp), %r12
	xorl	%ebp, %ebp
	leaq	8(%rsp), %rcx
	movq	%r12, %rdi
	movq	%r15, %rsi
	xorl	%edx, %edx
	xorl	%r8d, %r8d
	movq	%rcx, %r9
	callq	"sorted_arena::arena::SortedArena::between::<#1b35315d4ce24113>"
	movq	%r12, %rdi
	callq	"core::iter::base::Iterator::count::<#55e36cf547ec1a3b>"
	movb	$1, (%r14)
	movl	$0, 1(%r14)
	movl	$0, 4(%r14)
	movq	%r15, 8(%r14)
	movq	%rax, (%rbx)
.LBB20_2:
	movl	%ebp, %eax
	addq	$64, %rsp
	.cfi_def_cfa_offset 48
	popq	%rbx
	.cfi_def_cfa_offset 40
	popq	%r12
	.cfi_def_cfa_offset 32
	popq	%r14
	.cfi_def_cfa_offset 24
	popq	%r15
	.cfi_def_cfa_offset 16
	popq	%rbp
	.cfi_def_cfa_offset 8
	retq
.Lfunc_end20:
	.size	topscedar_arena_count, .Lfunc_end20-topscedar_arena_count
	.cfi_endproc

	.section	.text.topscedar_arena_entries_back_from,"ax",@progbits
	.globl	topscedar_arena_entries_back_from
	.p2align	4
	.type	topscedar_arena_entries_back_from,@function
topscedar_arena_entries_back_from:
	.cfi_startproc
	pushq	%rbp
	.cfi_def_cfa_offset 16
	pushq	%r15
	.cfi_def_cfa_offset 24
	pushq	%r14
	.cfi_def_cfa_offset 32
	pushq	%r12
	.cfi_def_cfa_offset 40
	pushq	%rbx
	.cfi_def_cfa_offset 48
	.cfi_offset %rbx, -48
	.cfi_offset %r12, -40
	.cfi_offset %r14, -32
	.cfi_offset %r15, -24
	.cfi_offset %rbp, -16
	xorl	%r14d, %r14d
	testq	%rcx, %rcx
	sete	%bpl
	movq	8(%rdi), %r11
	xorl	%r10d, %r10d
	testb	$1, (%rdi)
	cmovneq	%r11, %r10
	xorps	%xmm0, %xmm0
	movups	%xmm0, (%rdi)
	movb	$4, %al
	je	.LBB21_22
	movq	8(%r10), %rbx
	movl	%esi, %eax
	decq	%rax
	cmpq	%rbx, %rax
	jae	.LBB21_4
	movq	(%r11), %r15
	imulq	$56, %rax, %rax
	cmpb	$0, (%r15,%rax)
	jne	.LBB21_4
	cmpq	%rdx, 8(%r15,%rax)
	jne	.LBB21_4
	movq	48(%rsp), %rax
	testq	%r8, %r8
	je	.LBB21_23
	movb	%bpl, %r14b
	shll	$12, %r14d
	addq	%rcx, %r14
	addq	$16, %r14
	movb	$1, %r12b
	xorl	%ecx, %ecx
.LBB21_7:
	cmpb	$1, %r12b
	jne	.LBB21_24
	movl	%esi, %r12d
	decq	%r12
	cmpq	%rbx, %r12
	jae	.LBB21_24
	movq	(%r11), %rbx
	imulq	$56, %r12, %r15
	cmpb	$0, (%rbx,%r15)
	jne	.LBB21_24
	cmpq	%rdx, 8(%rbx,%r15)
	jne	.LBB21_24
	movups	24(%rbx,%r15), %xmm0
	movl	%esi, -16(%r14)
	movl	$0, -12(%r14)
	movq	%rdx, -8(%r14)
	movups	%xmm0, (%r14)
	movq	8(%r10), %rbx
	cmpq	%rbx, %r12
	jae	.LBB21_12
	movq	(%r11), %r12
	cmpb	$0, (%r12,%r15)
	jne	.LBB21_12
	cmpq	%rdx, 8(%r12,%r15)
	jne	.LBB21_12
	movl	48(%r12,%r15), %esi
	testq	%rsi, %rsi
	je	.LBB21_12
	leaq	-1(%rsi), %rdx
	cmpq	%rbx, %rdx
	jae	.LBB21_12
	imulq	$56, %rdx, %rdx
	cmpb	$0, (%r12,%rdx)
	je	.LBB21_18
.LBB21_12:
	xorl	%r15d, %r15d
	xorl	%r12d, %r12d
	xorl	%esi, %esi
	xorl	%edx, %edx
	incq	%rcx
	addq	$32, %r14
	cmpq	%rcx, %r8
	jne	.LBB21_7
	jmp	.LBB21_20
.LBB21_18:
	movq	8(%r12,%rdx), %rdx
	movb	$1, %r15b
	movb	$1, %r12b
	incq	%rcx
	addq	$32, %r14
	cmpq	%rcx, %r8
	jne	.LBB21_7
.LBB21_20:
	movb	$1, (%rdi)
	movl	$0, 1(%rdi)
	movl	$0, 4(%rdi)
	movq	%r10, 8(%rdi)
	movq	%r8, (%r9)
	xorl	%ecx, %ecx
	testb	%r15b, %r15b
	cmovel	%ecx, %esi
	cmoveq	%rcx, %rdx
	jmp	.LBB21_21
.LBB21_4:
	movb	$1, (%rdi)
	movl	$0, 1(%rdi)
	movl	$0, 4(%rdi)
	movq	%r10, 8(%rdi)
	movb	$1, %al
.LBB21_22:
	popq	%rbx
	.cfi_def_cfa_offset 40
	popq	%r12
	.cfi_def_cfa_offset 32
	popq	%r14
	.cfi_def_cfa_offset 24
	popq	%r15
	.cfi_def_cfa_offset 16
	popq	%rbp
	.cfi_def_cfa_offset 8
	retq
.LBB21_24:
	.cfi_def_cfa_offset 48
	movb	$1, (%rdi)
	movl	$0, 1(%rdi)
	movl	$0, 4(%rdi)
	movq	%r10, 8(%rdi)
	movq	%rcx, (%r9)
	xorl	%esi, %esi
	xorl	%edx, %edx
	jmp	.LBB21_21
.LBB21_23:
	movb	$1, (%rdi)
	movl	$0, 1(%rdi)
	movl	$0, 4(%rdi)
	movq	%r10, 8(%rdi)
	movq	$0, (%r9)
.LBB21_21:
	movl	%esi, (%rax)
	movl	$0, 4(%rax)
	movq	%rdx, 8(%rax)
	xorl	%eax, %eax
	jmp	.LBB21_22
.Lfunc_end21:
	.size	topscedar_arena_entries_back_from, .Lfunc_end21-topscedar_arena_entries_back_from
	.cfi_endproc

	.section	.text.topscedar_arena_entries_from,"ax",@progbits
	.globl	topscedar_arena_entries_from
	.p2align	4
	.type	topscedar_arena_entries_from,@function
topscedar_arena_entries_from:
	.cfi_startproc
	pushq	%rbp
	.cfi_def_cfa_offset 16
	pushq	%r15
	.cfi_def_cfa_offset 24
	pushq	%r14
	.cfi_def_cfa_offset 32
	pushq	%r13
	.cfi_def_cfa_offset 40
	pushq	%r12
	.cfi_def_cfa_offset 48
	pushq	%rbx
	.cfi_def_cfa_offset 56
	.cfi_offset %rbx, -56
	.cfi_offset %r12, -48
	.cfi_offset %r13, -40
	.cfi_offset %r14, -32
	.cfi_offset %r15, -24
	.cfi_offset %rbp, -16
	xorl	%r14d, %r14d
	testq	%rcx, %rcx
	sete	%bpl
	movq	8(%rdi), %r11
	xorl	%r10d, %r10d
	testb	$1, (%rdi)
	cmovneq	%r11, %r10
	xorps	%xmm0, %xmm0
	movups	%xmm0, (%rdi)
	movb	$4, %al
	je	.LBB22_5
	movq	8(%r10), %r12
	movl	%esi, %ebx
	leaq	-1(%rbx), %r15
	cmpq	%r12, %r15
	jae	.LBB22_4
	movq	(%r11), %rax
	imulq	$56, %r15, %r13
	cmpb	$0, (%rax,%r13)
	jne	.LBB22_4
	cmpq	%rdx, 8(%rax,%r13)
	jne	.LBB22_4
	movq	%r12, %rdx
	subq	32(%r11), %rdx
	xorl	%r13d, %r13d
	testl	%esi, %esi
	movq	%r15, %rax
	cmoveq	%r13, %rax
	movzbl	96(%r11), %r13d
	movb	%r13b, -1(%rsp)
	subq	%rax, %rdx
	movl	$0, %r13d
	cmovbq	%r13, %rdx
	testq	%r8, %r8
	je	.LBB22_36
	movb	%bpl, %r14b
	shll	$12, %r14d
	cmpb	$0, -1(%rsp)
	je	.LBB22_8
	movl	$4294967294, %esi
	cmpq	$1, %rbx
	movq	%rbx, %r15
	adcq	$0, %r15
	addq	%r14, %rcx
	addq	$16, %rcx
	imulq	$56, %r15, %r14
	addq	$-32, %r14
	xorl	%eax, %eax
	.p2align	4
.LBB22_19:
	cmpq	%rax, %rdx
	je	.LBB22_33
	leaq	(%r15,%rax), %r12
	decq	%r12
	cmpq	%rsi, %r12
	jae	.LBB22_32
	cmpq	8(%r10), %r12
	jae	.LBB22_32
	movq	(%r11), %r12
	cmpb	$0, -24(%r12,%r14)
	jne	.LBB22_32
	leaq	(%r15,%rax), %r13
	movq	-16(%r12,%r14), %rbp
	movups	(%r12,%r14), %xmm0
	movl	%r13d, -16(%rcx)
	movl	$0, -12(%rcx)
	movq	%rbp, -8(%rcx)
	movups	%xmm0, (%rcx)
	incq	%rax
	addq	$32, %rcx
	addq	$56, %r14
	cmpq	%rax, %r8
	jne	.LBB22_19
	subq	%rax, %rdx
	cmpq	$1, %rbx
	adcq	%rbx, %rax
	decq	%rax
	jmp	.LBB22_25
.LBB22_4:
	movb	$1, (%rdi)
	movl	$0, 1(%rdi)
	movl	$0, 4(%rdi)
	movq	%r10, 8(%rdi)
	movb	$1, %al
.LBB22_5:
	popq	%rbx
	.cfi_def_cfa_offset 48
	popq	%r12
	.cfi_def_cfa_offset 40
	popq	%r13
	.cfi_def_cfa_offset 32
	popq	%r14
	.cfi_def_cfa_offset 24
	popq	%r15
	.cfi_def_cfa_offset 16
	popq	%rbp
	.cfi_def_cfa_offset 8
	retq
.LBB22_36:
	.cfi_def_cfa_offset 56
	cmpb	$0, -1(%rsp)
	je	.LBB22_15
.LBB22_25:
	testq	%rdx, %rdx
	je	.LBB22_35
	movq	%rax, %rcx
	shrq	%rcx
	cmpq	$2147483647, %rcx
	jae	.LBB22_32
	cmpq	8(%r10), %rax
	jae	.LBB22_32
	movq	(%r11), %rcx
	imulq	$56, %rax, %rdx
	cmpb	$0, (%rcx,%rdx)
	jne	.LBB22_32
	incl	%eax
	addq	%rdx, %rcx
	movl	%eax, %esi
	jmp	.LBB22_30
.LBB22_8:
	addq	%r14, %rcx
	addq	$16, %rcx
	xorl	%eax, %eax
	xorl	%ebx, %ebx
	.p2align	4
.LBB22_9:
	testb	$1, %bl
	jne	.LBB22_33
	movl	%esi, %edx
	decq	%rdx
	cmpq	8(%r10), %rdx
	jae	.LBB22_32
	movq	(%r11), %r14
	imulq	$56, %rdx, %r15
	cmpb	$0, (%r14,%r15)
	jne	.LBB22_32
	movl	52(%r14,%r15), %edx
	testq	%rdx, %rdx
	sete	%bl
	movq	8(%r14,%r15), %r12
	movups	24(%r14,%r15), %xmm0
	movl	%esi, -16(%rcx)
	movl	$0, -12(%rcx)
	movq	%r12, -8(%rcx)
	movups	%xmm0, (%rcx)
	incq	%rax
	addq	$32, %rcx
	movl	%edx, %esi
	cmpq	%rax, %r8
	jne	.LBB22_9
	testl	%edx, %edx
	je	.LBB22_35
	movq	8(%r10), %r12
	movq	%rdx, %r15
	decq	%r15
	movl	%edx, %esi
.LBB22_15:
	cmpq	%r12, %r15
	jae	.LBB22_32
	movq	(%r11), %rcx
	imulq	$56, %r15, %rax
	cmpb	$0, (%rcx,%rax)
	jne	.LBB22_32
	addq	%rax, %rcx
.LBB22_30:
	movq	8(%rcx), %rax
	movb	$1, (%rdi)
	movl	$0, 1(%rdi)
	movl	$0, 4(%rdi)
	movq	%r10, 8(%rdi)
	movq	%r8, (%r9)
	jmp	.LBB22_31
.LBB22_33:
	movb	$1, (%rdi)
	movl	$0, 1(%rdi)
	movl	$0, 4(%rdi)
	movq	%r10, 8(%rdi)
	movq	%rax, (%r9)
	jmp	.LBB22_34
.LBB22_35:
	movb	$1, (%rdi)
	movl	$0, 1(%rdi)
	movl	$0, 4(%rdi)
	movq	%r10, 8(%rdi)
	movq	%r8, (%r9)
.LBB22_34:
	xorl	%esi, %esi
	xorl	%eax, %eax
.LBB22_31:
	movq	56(%rsp), %rcx
	movl	%esi, (%rcx)
	movl	$0, 4(%rcx)
	movq	%rax, 8(%rcx)
	xorl	%eax, %eax
	jmp	.LBB22_5
.LBB22_32:
	ud2
.Lfunc_end22:
	.size	topscedar_arena_entries_from, .Lfunc_end22-topscedar_arena_entries_from
	.cfi_endproc

	.section	.text.topscedar_arena_find,"ax",@progbits
	.globl	topscedar_arena_find
	.p2align	4
	.type	topscedar_arena_find,@function
topscedar_arena_find:
	.cfi_startproc
	pushq	%rbp
	.cfi_def_cfa_offset 16
	pushq	%r15
	.cfi_def_cfa_offset 24
	pushq	%r14
	.cfi_def_cfa_offset 32
	pushq	%r13
	.cfi_def_cfa_offset 40
	pushq	%r12
	.cfi_def_cfa_offset 48
	pushq	%rbx
	.cfi_def_cfa_offset 56
	.cfi_offset %rbx, -56
	.cfi_offset %r12, -48
	.cfi_offset %r13, -40
	.cfi_offset %r14, -32
	.cfi_offset %r15, -24
	.cfi_offset %rbp, -16
	movq	8(%rdi), %r8
	xorl	%ecx, %ecx
	testb	$1, (%rdi)
	cmovneq	%r8, %rcx
	xorps	%xmm0, %xmm0
	movups	%xmm0, (%rdi)
	movb	$4, %al
	je	.LBB23_29
	movq	%rdx, -8(%rsp)
	movq	%r8, -16(%rsp)
	cmpb	$1, 88(%r8)
	jne	.LBB23_28
	movq	-16(%rsp), %rax
	movl	92(%rax), %ebx
	movq	(%rax), %rax
	.p2align	4
.LBB23_3:
	movl	%ebx, %r9d
	imulq	$56, %r9, %r9
	cmpb	$0, -56(%rax,%r9)
	jne	.LBB23_30
	cmpq	-32(%rax,%r9), %rsi
	movl	-40(%rax,%r9), %r10d
	movl	-36(%rax,%r9), %ebp
	movl	%r10d, %r11d
	cmovgl	%ebp, %r11d
	je	.LBB23_5
	orl	%r10d, %ebp
	je	.LBB23_28
	movl	%r11d, %ebx
	testl	%r11d, %r11d
	jne	.LBB23_3
	jmp	.LBB23_28
.LBB23_5:
	movq	-48(%rax,%r9), %r15
	testl	%r11d, %r11d
	je	.LBB23_6
	movl	%r11d, %r9d
	imulq	$56, %r9, %r13
	cmpb	$0, -56(%rax,%r13)
	jne	.LBB23_30
	addq	%rax, %r13
	movb	$1, %r14b
	jmp	.LBB23_12
	.p2align	4
.LBB23_14:
	testl	%ebp, %ebp
	je	.LBB23_15
	testl	%r11d, %r11d
	je	.LBB23_27
.LBB23_10:
	movq	%r15, %r10
	movl	%ebx, %r9d
.LBB23_11:
	movl	%r11d, %ebx
	imulq	$56, %rbx, %rbx
	leaq	(%rax,%rbx), %r13
	cmpb	$0, -56(%rax,%rbx)
	movl	%r9d, %ebx
	movq	%r10, %r15
	jne	.LBB23_30
.LBB23_12:
	movl	%r11d, %r9d
	movq	-32(%r13), %r12
	cmpq	%r12, %rsi
	setge	%r8b
	movl	-40(%r13), %edx
	movl	-36(%r13), %ebp
	movl	%edx, %r11d
	cmovgl	%ebp, %r11d
	addb	%r8b, %r8b
	cmpq	%r12, %rsi
	movq	-48(%r13), %r10
	movzbl	%r8b, %r8d
	movl	$1, %r13d
	cmovnel	%r8d, %r13d
	orl	%edx, %ebp
	testb	%r13b, %r13b
	je	.LBB23_17
	movzbl	%r13b, %edx
	cmpl	$1, %edx
	jne	.LBB23_14
	testl	%ebp, %ebp
	je	.LBB23_21
	movb	$1, %r14b
	testl	%r11d, %r11d
	jne	.LBB23_11
	jmp	.LBB23_21
	.p2align	4
.LBB23_17:
	testl	%ebp, %ebp
	je	.LBB23_16
	xorl	%r14d, %r14d
	xorl	%r15d, %r15d
	xorl	%ebx, %ebx
	testl	%r11d, %r11d
	jne	.LBB23_10
.LBB23_27:
	cmpq	%r12, %rsi
	sete	%dl
	testb	%r14b, %r14b
	cmovnel	%ebx, %r9d
	setne	%sil
	cmovneq	%r15, %r10
	orb	%dl, %sil
	jne	.LBB23_21
	jmp	.LBB23_28
.LBB23_6:
	movl	%ebx, %r9d
	movq	%r15, %r10
	jmp	.LBB23_21
.LBB23_15:
	testb	%r14b, %r14b
	cmovnel	%ebx, %r9d
	cmovneq	%r15, %r10
	jne	.LBB23_21
.LBB23_16:
	cmpq	%r12, %rsi
	jne	.LBB23_28
.LBB23_21:
	movl	%r9d, %esi
	decq	%rsi
	movq	-16(%rsp), %rdx
	cmpq	8(%rdx), %rsi
	jae	.LBB23_28
	imulq	$56, %rsi, %rsi
	cmpb	$0, (%rax,%rsi)
	jne	.LBB23_28
	cmpq	%r10, 8(%rax,%rsi)
	jne	.LBB23_28
	movups	24(%rax,%rsi), %xmm0
	movb	$1, (%rdi)
	movl	$0, 1(%rdi)
	movl	$0, 4(%rdi)
	movq	%rcx, 8(%rdi)
	movq	-8(%rsp), %rax
	movl	%r9d, (%rax)
	movl	$0, 4(%rax)
	movq	%r10, 8(%rax)
	movups	%xmm0, 16(%rax)
	xorl	%eax, %eax
	jmp	.LBB23_29
.LBB23_28:
	movb	$1, (%rdi)
	movl	$0, 1(%rdi)
	movl	$0, 4(%rdi)
	movq	%rcx, 8(%rdi)
	movb	$1, %al
.LBB23_29:
	popq	%rbx
	.cfi_def_cfa_offset 48
	popq	%r12
	.cfi_def_cfa_offset 40
	popq	%r13
	.cfi_def_cfa_offset 32
	popq	%r14
	.cfi_def_cfa_offset 24
	popq	%r15
	.cfi_def_cfa_offset 16
	popq	%rbp
	.cfi_def_cfa_offset 8
	retq
.LBB23_30:
	.cfi_def_cfa_offset 56
	ud2
.Lfunc_end23:
	.size	topscedar_arena_find, .Lfunc_end23-topscedar_arena_find
	.cfi_endproc

	.section	.text.topscedar_arena_first,"ax",@progbits
	.globl	topscedar_arena_first
	.p2align	4
	.type	topscedar_arena_first,@function
topscedar_arena_first:
	.cfi_startproc
	movq	8(%rdi), %rdx
	xorl	%ecx, %ecx
	testb	$1, (%rdi)
	cmovneq	%rdx, %rcx
	xorps	%xmm0, %xmm0
	movups	%xmm0, (%rdi)
	movb	$4, %al
	jne	.LBB24_1
	retq
.LBB24_1:
	cmpb	$1, 72(%rdx)
	jne	.LBB24_4
	movl	76(%rdx), %eax
	leaq	-1(%rax), %r8
	cmpq	8(%rdx), %r8
	jae	.LBB24_4
	movq	(%rdx), %rdx
	imulq	$56, %r8, %r8
	cmpb	$0, (%rdx,%r8)
	je	.LBB24_5
.LBB24_4:
	movb	$1, (%rdi)
	movl	$0, 1(%rdi)
	movl	$0, 4(%rdi)
	movq	%rcx, 8(%rdi)
	movb	$1, %al
	retq
.LBB24_5:
	movq	8(%rdx,%r8), %r9
	movups	24(%rdx,%r8), %xmm0
	movb	$1, (%rdi)
	movl	$0, 1(%rdi)
	movl	$0, 4(%rdi)
	movq	%rcx, 8(%rdi)
	movl	%eax, (%rsi)
	movl	$0, 4(%rsi)
	movq	%r9, 8(%rsi)
	movups	%xmm0, 16(%rsi)
	xorl	%eax, %eax
	retq
.Lfunc_end24:
	.size	topscedar_arena_first, .Lfunc_end24-topscedar_arena_first
	.cfi_endproc

	.section	.text.topscedar_arena_get,"ax",@progbits
	.globl	topscedar_arena_get
	.p2align	4
	.type	topscedar_arena_get,@function
topscedar_arena_get:
	.cfi_startproc
	movq	8(%rdi), %r9
	xorl	%r8d, %r8d
	testb	$1, (%rdi)
	cmovneq	%r9, %r8
	xorps	%xmm0, %xmm0
	movups	%xmm0, (%rdi)
	movb	$4, %al
	jne	.LBB25_1
	retq
.LBB25_1:
	movl	%esi, %r10d
	decq	%r10
	cmpq	8(%r9), %r10
	jae	.LBB25_4
	movq	(%r9), %rax
	imulq	$56, %r10, %r9
	cmpb	$0, (%rax,%r9)
	jne	.LBB25_4
	cmpq	%rdx, 8(%rax,%r9)
	jne	.LBB25_4
	movups	24(%rax,%r9), %xmm0
	movb	$1, (%rdi)
	movl	$0, 1(%rdi)
	movl	$0, 4(%rdi)
	movq	%r8, 8(%rdi)
	movl	%esi, (%rcx)
	movl	$0, 4(%rcx)
	movq	%rdx, 8(%rcx)
	movups	%xmm0, 16(%rcx)
	xorl	%eax, %eax
	retq
.LBB25_4:
	movb	$1, (%rdi)
	movl	$0, 1(%rdi)
	movl	$0, 4(%rdi)
	movq	%r8, 8(%rdi)
	movb	$1, %al
	retq
.Lfunc_end25:
	.size	topscedar_arena_get, .Lfunc_end25-topscedar_arena_get
	.cfi_endproc

	.section	.text.topscedar_arena_insert,"ax",@progbits
	.globl	topscedar_arena_insert
	.p2align	4
	.type	topscedar_arena_insert,@function
topscedar_arena_insert:
	.cfi_startproc
	pushq	%r15
	.cfi_def_cfa_offset 16
	pushq	%r14
	.cfi_def_cfa_offset 24
	pushq	%rbx
	.cfi_def_cfa_offset 32
	subq	$32, %rsp
	.cfi_def_cfa_offset 64
	.cfi_offset %rbx, -32
	.cfi_offset %r14, -24
	.cfi_offset %r15, -16
	xorps	%xmm0, %xmm0
	movaps	%xmm0, 16(%rsp)
	movaps	%xmm0, (%rsp)
	movq	8(%rdi), %r14
	testb	$1, (%rdi)
	movups	%xmm0, (%rdi)
	movb	$4, %al
	je	.LBB26_4
	movq	%rdx, %r8
	movq	%rsi, %rdx
	movq	%rdi, %rbx
	movq	%rcx, %r15
	movq	%rsp, %rdi
	movq	%r14, %rsi
	movq	%r8, %rcx
	callq	"sorted_arena::arena::SortedArena::insert::<#1599bed149cb2453>"
	movb	$1, (%rbx)
	movl	$0, 1(%rbx)
	movl	$0, 4(%rbx)
	movq	%r14, 8(%rbx)
	cmpb	$0, (%rsp)
	je	.LBB26_2
	cmpb	$0, 24(%rsp)
	sete	%al
	xorb	$3, %al
	jmp	.LBB26_4
.LBB26_2:
	movl	8(%rsp), %eax
	movq	16(%rsp), %rcx
	movl	%eax, (%r15)
	movl	$0, 4(%r15)
	movq	%rcx, 8(%r15)
	xorl	%eax, %eax
.LBB26_4:
	addq	$32, %rsp
	.cfi_def_cfa_offset 32
	popq	%rbx
	.cfi_def_cfa_offset 24
	popq	%r14
	.cfi_def_cfa_offset 16
	popq	%r15
	.cfi_def_cfa_offset 8
	retq
.Lfunc_end26:
	.size	topscedar_arena_insert, .Lfunc_end26-topscedar_arena_insert
	.cfi_endproc

	.section	.text.topscedar_arena_insert_unique,"ax",@progbits
	.globl	topscedar_arena_insert_unique
	.p2align	4
	.type	topscedar_arena_insert_unique,@function
topscedar_arena_insert_unique:
	.cfi_startproc
	pushq	%rbp
	.cfi_def_cfa_offset 16
	pushq	%r15
	.cfi_def_cfa_offset 24
	pushq	%r14
	.cfi_def_cfa_offset 32
	pushq	%rbx
	.cfi_def_cfa_offset 40
	subq	$40, %rsp
	.cfi_def_cfa_offset 80
	.cfi_offset %rbx, -40
	.cfi_offset %r14, -32
	.cfi_offset %r15, -24
	.cfi_offset %rbp, -16
	movq	%rdi, %rbx
	movq	8(%rdi), %rdi
	xorl	%r14d, %r14d
	testb	$1, (%rbx)
	cmovneq	%rdi, %r14
	xorps	%xmm0, %xmm0
	movups	%xmm0, (%rbx)
	movb	$4, %al
	je	.LBB27_26
	movq	%rdx, %r8
	movq	%rsi, %rdx
	movaps	%xmm0, 16(%rsp)
	movaps	%xmm0, (%rsp)
	cmpb	$1, 88(%rdi)
	jne	.LBB27_23
	movl	92(%rdi), %esi
	movq	(%rdi), %rax
	.p2align	4
.LBB27_3:
	movl	%esi, %esi
	imulq	$56, %rsi, %rsi
	cmpb	$0, -56(%rax,%rsi)
	jne	.LBB27_27
	cmpq	-32(%rax,%rsi), %rdx
	movl	-40(%rax,%rsi), %edi
	movl	-36(%rax,%rsi), %r9d
	movl	%edi, %esi
	cmovgl	%r9d, %esi
	je	.LBB27_5
	orl	%edi, %r9d
	je	.LBB27_23
	testl	%esi, %esi
	jne	.LBB27_3
	jmp	.LBB27_23
.LBB27_5:
	testl	%esi, %esi
	je	.LBB27_20
	movl	%esi, %esi
	imulq	$56, %rsi, %rdi
	cmpb	$0, -56(%rax,%rdi)
	jne	.LBB27_27
	addq	%rax, %rdi
	movb	$1, %sil
	jmp	.LBB27_10
	.p2align	4
.LBB27_9:
	movl	%edi, %edi
	imulq	$56, %rdi, %r9
	leaq	(%rax,%r9), %rdi
	cmpb	$0, -56(%rax,%r9)
	jne	.LBB27_27
.LBB27_10:
	movq	-32(%rdi), %r9
	cmpq	%r9, %rdx
	setge	%r11b
	movl	-40(%rdi), %ebp
	movl	-36(%rdi), %r10d
	movl	%ebp, %edi
	cmovgl	%r10d, %edi
	addb	%r11b, %r11b
	cmpq	%r9, %rdx
	movzbl	%r11b, %r15d
	movl	$1, %r11d
	cmovnel	%r15d, %r11d
	orl	%ebp, %r10d
	testb	%r11b, %r11b
	je	.LBB27_15
	movzbl	%r11b, %r11d
	cmpl	$1, %r11d
	jne	.LBB27_12
	testl	%r10d, %r10d
	je	.LBB27_20
	movb	$1, %sil
	testl	%edi, %edi
	jne	.LBB27_9
	jmp	.LBB27_20
	.p2align	4
.LBB27_15:
	testl	%r10d, %r10d
	je	.LBB27_14
	testl	%edi, %edi
	je	.LBB27_14
	xorl	%esi, %esi
	jmp	.LBB27_9
	.p2align	4
.LBB27_12:
	testl	%r10d, %r10d
	je	.LBB27_13
	testl	%edi, %edi
	jne	.LBB27_9
.LBB27_13:
	testb	%sil, %sil
	jne	.LBB27_20
.LBB27_14:
	cmpq	%r9, %rdx
	je	.LBB27_20
.LBB27_23:
	movq	%rcx, %r15
	movq	%rsp, %rdi
	movq	%r14, %rsi
	movq	%r8, %rcx
	callq	"sorted_arena::arena::SortedArena::insert::<#1599bed149cb2453>"
	leaq	1(%rbx), %rcx
	cmpb	$0, (%rsp)
	je	.LBB27_25
	cmpb	$0, 24(%rsp)
	sete	%al
	movb	$1, (%rbx)
	movl	$0, 3(%rcx)
	movl	$0, (%rcx)
	movq	%r14, 8(%rbx)
	xorb	$3, %al
	jmp	.LBB27_26
.LBB27_25:
	movl	8(%rsp), %eax
	movq	16(%rsp), %rdx
	movb	$1, (%rbx)
	movl	$0, 3(%rcx)
	movl	$0, (%rcx)
	movq	%r14, 8(%rbx)
	movl	%eax, (%r15)
	movl	$0, 4(%r15)
	movq	%rdx, 8(%r15)
	xorl	%eax, %eax
	jmp	.LBB27_26
.LBB27_20:
	movb	$1, (%rbx)
	movl	$0, 1(%rbx)
	movl	$0, 4(%rbx)
	movq	%r14, 8(%rbx)
	movb	$5, %al
.LBB27_26:
	addq	$40, %rsp
	.cfi_def_cfa_offset 40
	popq	%rbx
	.cfi_def_cfa_offset 32
	popq	%r14
	.cfi_def_cfa_offset 24
	popq	%r15
	.cfi_def_cfa_offset 16
	popq	%rbp
	.cfi_def_cfa_offset 8
	retq
.LBB27_27:
	.cfi_def_cfa_offset 80
	ud2
.Lfunc_end27:
	.size	topscedar_arena_insert_unique, .Lfunc_end27-topscedar_arena_insert_unique
	.cfi_endproc

	.section	.text.topscedar_arena_last,"ax",@progbits
	.globl	topscedar_arena_last
	.p2align	4
	.type	topscedar_arena_last,@function
topscedar_arena_last:
	.cfi_startproc
	movq	8(%rdi), %rdx
	xorl	%ecx, %ecx
	testb	$1, (%rdi)
	cmovneq	%rdx, %rcx
	xorps	%xmm0, %xmm0
	movups	%xmm0, (%rdi)
	movb	$4, %al
	jne	.LBB28_1
	retq
.LBB28_1:
	cmpb	$1, 80(%rdx)
	jne	.LBB28_4
	movl	84(%rdx), %eax
	leaq	-1(%rax), %r8
	cmpq	8(%rdx), %r8
	jae	.LBB28_4
	movq	(%rdx), %rdx
	imulq	$56, %r8, %r8
	cmpb	$0, (%rdx,%r8)
	je	.LBB28_5
.LBB28_4:
	movb	$1, (%rdi)
	movl	$0, 1(%rdi)
	movl	$0, 4(%rdi)
	movq	%rcx, 8(%rdi)
	movb	$1, %al
	retq
.LBB28_5:
	movq	8(%rdx,%r8), %r9
	movups	24(%rdx,%r8), %xmm0
	movb	$1, (%rdi)
	movl	$0, 1(%rdi)
	movl	$0, 4(%rdi)
	movq	%rcx, 8(%rdi)
	movl	%eax, (%rsi)
	movl	$0, 4(%rsi)
	movq	%r9, 8(%rsi)
	movups	%xmm0, 16(%rsi)
	xorl	%eax, %eax
	retq
.Lfunc_end28:
	.size	topscedar_arena_last, .Lfunc_end28-topscedar_arena_last
	.cfi_endproc

	.section	.text.topscedar_arena_length,"ax",@progbits
	.globl	topscedar_arena_length
	.p2align	4
	.type	topscedar_arena_length,@function
topscedar_arena_length:
	.cfi_startproc
	movq	8(%rdi), %rcx
	xorps	%xmm0, %xmm0
	testb	$1, (%rdi)
	movups	%xmm0, (%rdi)
	movb	$4, %al
	je	.LBB29_2
	movq	8(%rcx), %rax
	subq	32(%rcx), %rax
	movb	$1, (%rdi)
	movl	$0, 1(%rdi)
	movl	$0, 4(%rdi)
	movq	%rcx, 8(%rdi)
	movq	%rax, (%rsi)
	xorl	%eax, %eax
.LBB29_2:
	retq
.Lfunc_end29:
	.size	topscedar_arena_length, .Lfunc_end29-topscedar_arena_length
	.cfi_endproc

	.section	.text.topscedar_arena_lower_bound,"ax",@progbits
	.globl	topscedar_arena_lower_bound
	.p2align	4
	.type	topscedar_arena_lower_bound,@function
topscedar_arena_lower_bound:
	.cfi_startproc
	pushq	%r15
	.cfi_def_cfa_offset 16
	pushq	%r14
	.cfi_def_cfa_offset 24
	pushq	%r12
	.cfi_def_cfa_offset 32
	pushq	%rbx
	.cfi_def_cfa_offset 40
	subq	$40, %rsp
	.cfi_def_cfa_offset 80
	.cfi_offset %rbx, -40
	.cfi_offset %r12, -32
	.cfi_offset %r14, -24
	.cfi_offset %r15, -16
	xorps	%xmm0, %xmm0
	movaps	%xmm0, (%rsp)
	movq	$0, 16(%rsp)
	movq	%rsi, 32(%rsp)
	movq	8(%rdi), %r12
	xorl	%r14d, %r14d
	testb	$1, (%rdi)
	cmovneq	%r12, %r14
	movups	%xmm0, (%rdi)
	movb	$4, %al
	je	.LBB30_7
	movq	%rdi, %rbx
	movq	%rdx, %r15
	movq	%rsp, %rdi
	leaq	32(%rsp), %rdx
	movq	%r14, %rsi
	callq	"sorted_arena::arena::SortedArena::lower_bound::<#1b35315d4ce24113>"
	cmpb	$1, (%rsp)
	jne	.LBB30_2
	movl	8(%rsp), %eax
	leaq	-1(%rax), %rcx
	cmpq	8(%r12), %rcx
	jae	.LBB30_2
	movq	(%r12), %rdx
	imulq	$56, %rcx, %rsi
	cmpb	$0, (%rdx,%rsi)
	jne	.LBB30_2
	movq	16(%rsp), %rcx
	cmpq	%rcx, 8(%rdx,%rsi)
	jne	.LBB30_2
	movups	24(%rdx,%rsi), %xmm0
	movb	$1, (%rbx)
	movl	$0, 1(%rbx)
	movl	$0, 4(%rbx)
	movq	%r14, 8(%rbx)
	movl	%eax, (%r15)
	movl	$0, 4(%r15)
	movq	%rcx, 8(%r15)
	movups	%xmm0, 16(%r15)
	xorl	%eax, %eax
	jmp	.LBB30_7
.LBB30_2:
	movb	$1, (%rbx)
	movl	$0, 1(%rbx)
	movl	$0, 4(%rbx)
	movq	%r14, 8(%rbx)
	movb	$1, %al
.LBB30_7:
	addq	$40, %rsp
	.cfi_def_cfa_offset 40
	popq	%rbx
	.cfi_def_cfa_offset 32
	popq	%r12
	.cfi_def_cfa_offset 24
	popq	%r14
	.cfi_def_cfa_offset 16
	popq	%r15
	.cfi_def_cfa_offset 8
	retq
.Lfunc_end30:
	.size	topscedar_arena_lower_bound, .Lfunc_end30-topscedar_arena_lower_bound
	.cfi_endproc

	.section	.text.topscedar_arena_next,"ax",@progbits
	.globl	topscedar_arena_next
	.p2align	4
	.type	topscedar_arena_next,@function
topscedar_arena_next:
	.cfi_startproc
	movq	8(%rdi), %r10
	xorl	%r8d, %r8d
	testb	$1, (%rdi)
	cmovneq	%r10, %r8
	xorps	%xmm0, %xmm0
	movups	%xmm0, (%rdi)
	movb	$4, %al
	jne	.LBB31_1
	retq
.LBB31_1:
	movq	8(%r10), %r9
	movl	%esi, %esi
	decq	%rsi
	cmpq	%r9, %rsi
	jae	.LBB31_8
	movq	(%r10), %rax
	imulq	$56, %rsi, %rsi
	cmpb	$0, (%rax,%rsi)
	jne	.LBB31_8
	cmpq	%rdx, 8(%rax,%rsi)
	jne	.LBB31_8
	movl	52(%rax,%rsi), %edx
	testq	%rdx, %rdx
	je	.LBB31_8
	leaq	-1(%rdx), %rsi
	cmpq	%r9, %rsi
	jae	.LBB31_8
	imulq	$56, %rsi, %rsi
	cmpb	$0, (%rax,%rsi)
	jne	.LBB31_8
	imulq	$56, %rdx, %r9
	cmpb	$0, -56(%rax,%r9)
	je	.LBB31_9
.LBB31_8:
	movb	$1, (%rdi)
	movl	$0, 1(%rdi)
	movl	$0, 4(%rdi)
	movq	%r8, 8(%rdi)
	movb	$1, %al
	retq
.LBB31_9:
	movq	8(%rax,%rsi), %rsi
	movups	-32(%rax,%r9), %xmm0
	movb	$1, (%rdi)
	movl	$0, 1(%rdi)
	movl	$0, 4(%rdi)
	movq	%r8, 8(%rdi)
	movl	%edx, (%rcx)
	movl	$0, 4(%rcx)
	movq	%rsi, 8(%rcx)
	movups	%xmm0, 16(%rcx)
	xorl	%eax, %eax
	retq
.Lfunc_end31:
	.size	topscedar_arena_next, .Lfunc_end31-topscedar_arena_next
	.cfi_endproc

	.section	.text.topscedar_arena_nth,"ax",@progbits
	.globl	topscedar_arena_nth
	.p2align	4
	.type	topscedar_arena_nth,@function
topscedar_arena_nth:
	.cfi_startproc
	pushq	%rbp
	.cfi_def_cfa_offset 16
	pushq	%r15
	.cfi_def_cfa_offset 24
	pushq	%r14
	.cfi_def_cfa_offset 32
	pushq	%r13
	.cfi_def_cfa_offset 40
	pushq	%r12
	.cfi_def_cfa_offset 48
	pushq	%rbx
	.cfi_def_cfa_offset 56
	.cfi_offset %rbx, -56
	.cfi_offset %r12, -48
	.cfi_offset %r13, -40
	.cfi_offset %r14, -32
	.cfi_offset %r15, -24
	.cfi_offset %rbp, -16
	movq	8(%rdi), %r8
	xorl	%ecx, %ecx
	testb	$1, (%rdi)
	cmovneq	%r8, %rcx
	xorps	%xmm0, %xmm0
	movups	%xmm0, (%rdi)
	movb	$4, %al
	je	.LBB32_35
	cmpb	$1, 72(%r8)
	movq	8(%r8), %rax
	jne	.LBB32_4
	movl	76(%r8), %r10d
	movl	%r10d, %r9d
	decq	%r9
	cmpq	%rax, %r9
	jae	.LBB32_4
	movq	(%r8), %r11
	imulq	$56, %r9, %rbx
	cmpb	$0, (%r11,%rbx)
	je	.LBB32_5
.LBB32_4:
	movq	%rax, %r9
	subq	32(%r8), %r9
	xorl	%r11d, %r11d
	xorl	%ebx, %ebx
	xorl	%r14d, %r14d
	xorl	%r10d, %r10d
	movzbl	96(%r8), %ebp
	testq	%rsi, %rsi
	je	.LBB32_24
.LBB32_7:
	testb	%bpl, %bpl
	je	.LBB32_15
	movl	$4294967294, %r14d
	leaq	(%r9,%rsi), %r10
	movq	%r11, %rbx
	subq	%rsi, %rbx
	imulq	$56, %r9, %r15
	xorl	%r12d, %r12d
	.p2align	4
.LBB32_9:
	cmpq	%r12, %r11
	je	.LBB32_33
	leaq	(%r9,%r12), %r13
	cmpq	%r14, %r13
	jae	.LBB32_36
	cmpq	%rax, %r13
	jae	.LBB32_36
	movq	(%r8), %r13
	cmpb	$0, (%r13,%r15)
	jne	.LBB32_36
	incq	%r12
	addq	$56, %r15
	cmpq	%r12, %rsi
	jne	.LBB32_9
	movq	%r10, %r9
	movq	%rbx, %r11
	jmp	.LBB32_25
	.p2align	4
.LBB32_15:
	testb	$1, %bl
	je	.LBB32_33
	movl	%r10d, %r9d
	decq	%r9
	cmpq	%rax, %r9
	jae	.LBB32_36
	movq	(%r8), %r10
	imulq	$56, %r9, %r9
	cmpb	$0, (%r10,%r9)
	jne	.LBB32_36
	movl	52(%r10,%r9), %r10d
	testl	%r10d, %r10d
	setne	%bl
	decq	%rsi
	jne	.LBB32_15
	testl	%r10d, %r10d
	setne	%r14b
	jmp	.LBB32_20
.LBB32_5:
	movq	%rax, %r11
	subq	32(%r8), %r11
	xorl	%ebx, %ebx
	testl	%r10d, %r10d
	cmoveq	%rbx, %r9
	subq	%r9, %r11
	cmovbq	%rbx, %r11
	movb	$1, %bl
	movb	$1, %r14b
	movzbl	96(%r8), %ebp
	testq	%rsi, %rsi
	jne	.LBB32_7
.LBB32_24:
	testb	%bpl, %bpl
	je	.LBB32_20
.LBB32_25:
	testq	%r11, %r11
	je	.LBB32_33
	movq	%r9, %rsi
	shrq	%rsi
	cmpq	$2147483647, %rsi
	jae	.LBB32_36
	cmpq	%rax, %r9
	jae	.LBB32_36
	movq	(%r8), %rsi
	imulq	$56, %r9, %r8
	cmpb	$0, (%rsi,%r8)
	jne	.LBB32_36
	incl	%r9d
	addq	%rsi, %r8
	movl	%r9d, %r11d
	decq	%r11
	movl	%r9d, %r10d
	cmpq	%rax, %r11
	jb	.LBB32_31
	jmp	.LBB32_33
.LBB32_20:
	testb	%r14b, %r14b
	je	.LBB32_33
	movl	%r10d, %r11d
	decq	%r11
	cmpq	%rax, %r11
	jae	.LBB32_36
	movq	(%r8), %rsi
	imulq	$56, %r11, %r8
	cmpb	$0, (%rsi,%r8)
	jne	.LBB32_36
	addq	%rsi, %r8
	cmpq	%rax, %r11
	jae	.LBB32_33
.LBB32_31:
	imulq	$56, %r11, %r9
	cmpb	$0, (%rsi,%r9)
	jne	.LBB32_33
	movq	8(%r8), %rax
	cmpq	%rax, 8(%rsi,%r9)
	jne	.LBB32_33
	movups	24(%rsi,%r9), %xmm0
	movb	$1, (%rdi)
	movl	$0, 1(%rdi)
	movl	$0, 4(%rdi)
	movq	%rcx, 8(%rdi)
	movl	%r10d, (%rdx)
	movl	$0, 4(%rdx)
	movq	%rax, 8(%rdx)
	movups	%xmm0, 16(%rdx)
	xorl	%eax, %eax
	jmp	.LBB32_35
.LBB32_33:
	movb	$1, (%rdi)
	movl	$0, 1(%rdi)
	movl	$0, 4(%rdi)
	movq	%rcx, 8(%rdi)
	movb	$1, %al
.LBB32_35:
	popq	%rbx
	.cfi_def_cfa_offset 48
	popq	%r12
	.cfi_def_cfa_offset 40
	popq	%r13
	.cfi_def_cfa_offset 32
	popq	%r14
	.cfi_def_cfa_offset 24
	popq	%r15
	.cfi_def_cfa_offset 16
	popq	%rbp
	.cfi_def_cfa_offset 8
	retq
.LBB32_36:
	.cfi_def_cfa_offset 56
	ud2
.Lfunc_end32:
	.size	topscedar_arena_nth, .Lfunc_end32-topscedar_arena_nth
	.cfi_endproc

	.section	.text.topscedar_arena_open,"ax",@progbits
	.globl	topscedar_arena_open
	.p2align	4
	.type	topscedar_arena_open,@function
topscedar_arena_open:
	.cfi_startproc
	cmpb	$0, (%rdi)
	je	.LBB33_3
	xorl	%eax, %eax
	retq
.LBB33_3:
	pushq	%rbx
	.cfi_def_cfa_offset 16
	subq	$16, %rsp
	.cfi_def_cfa_offset 32
	.cfi_offset %rbx, -16
	movq	%rdi, %rbx
	movl	$104, %edi
	movl	$8, %esi
	callq	rattle_alloc@PLT
	movq	%rax, %rcx
	movb	$3, %al
	testb	$1, %cl
	je	.LBB33_5
	leaq	8(%rsp), %rax
	movq	%rax, (%rdx)
	xorps	%xmm0, %xmm0
	movups	%xmm0, 8(%rdx)
	movq	%rax, 24(%rdx)
	movups	%xmm0, 32(%rdx)
	movq	$2, 48(%rdx)
	movups	%xmm0, 56(%rdx)
	movups	%xmm0, 72(%rdx)
	movq	$0, 88(%rdx)
	movb	$1, 96(%rdx)
	movb	$1, (%rbx)
	movl	$0, 1(%rbx)
	movl	$0, 4(%rbx)
	movq	%rdx, 8(%rbx)
	xorl	%eax, %eax
.LBB33_5:
	addq	$16, %rsp
	.cfi_def_cfa_offset 16
	popq	%rbx
	.cfi_def_cfa_offset 8
	.cfi_restore %rbx
	retq
.Lfunc_end33:
	.size	topscedar_arena_open, .Lfunc_end33-topscedar_arena_open
	.cfi_endproc

	.section	.text.topscedar_arena_open_at,"ax",@progbits
	.globl	topscedar_arena_open_at
	.p2align	4
	.type	topscedar_arena_open_at,@function
topscedar_arena_open_at:
	.cfi_startproc
	cmpb	$0, (%rdi)
	je	.LBB34_3
	xorl	%eax, %eax
	retq
.LBB34_3:
	pushq	%r14
	.cfi_def_cfa_offset 16
	pushq	%rbx
	.cfi_def_cfa_offset 24
	pushq	%rax
	.cfi_def_cfa_offset 32
	.cfi_offset %rbx, -24
	.cfi_offset %r14, -16
	movq	%rsi, %r14
	movq	%rdi, %rbx
	movl	$104, %edi
	movl	$8, %esi
	callq	rattle_alloc@PLT
	movq	%rax, %rcx
	movb	$3, %al
	testb	$1, %cl
	je	.LBB34_5
	cmpq	$3, %r14
	movl	$2, %eax
	cmovaeq	%r14, %rax
	movq	%rsp, %rcx
	movq	%rcx, (%rdx)
	xorps	%xmm0, %xmm0
	movups	%xmm0, 8(%rdx)
	movq	%rcx, 24(%rdx)
	movups	%xmm0, 32(%rdx)
	movq	%rax, 48(%rdx)
	movups	%xmm0, 56(%rdx)
	movups	%xmm0, 72(%rdx)
	movq	$0, 88(%rdx)
	movb	$1, 96(%rdx)
	movb	$1, (%rbx)
	movl	$0, 1(%rbx)
	movl	$0, 4(%rbx)
	movq	%rdx, 8(%rbx)
	xorl	%eax, %eax
.LBB34_5:
	addq	$8, %rsp
	.cfi_def_cfa_offset 24
	popq	%rbx
	.cfi_def_cfa_offset 16
	popq	%r14
	.cfi_def_cfa_offset 8
	.cfi_restore %rbx
	.cfi_restore %r14
	retq
.Lfunc_end34:
	.size	topscedar_arena_open_at, .Lfunc_end34-topscedar_arena_open_at
	.cfi_endproc

	.section	.text.topscedar_arena_pop_first,"ax",@progbits
	.globl	topscedar_arena_pop_first
	.p2align	4
	.type	topscedar_arena_pop_first,@function
topscedar_arena_pop_first:
	.cfi_startproc
	pushq	%r15
	.cfi_def_cfa_offset 16
	pushq	%r14
	.cfi_def_cfa_offset 24
	pushq	%r13
	.cfi_def_cfa_offset 32
	pushq	%r12
	.cfi_def_cfa_offset 40
	pushq	%rbx
	.cfi_def_cfa_offset 48
	subq	$48, %rsp
	.cfi_def_cfa_offset 96
	.cfi_offset %rbx, -48
	.cfi_offset %r12, -40
	.cfi_offset %r13, -32
	.cfi_offset %r14, -24
	.cfi_offset %r15, -16
	movq	8(%rdi), %rcx
	xorl	%r15d, %r15d
	testb	$1, (%rdi)
	cmovneq	%rcx, %r15
	xorps	%xmm0, %xmm0
	movups	%xmm0, (%rdi)
	movb	$4, %al
	je	.LBB35_6
	cmpb	$1, 72(%rcx)
	jne	.LBB35_4
	movl	76(%rcx), %ebx
	leaq	-1(%rbx), %rdx
	cmpq	8(%rcx), %rdx
	jae	.LBB35_4
	movq	(%rcx), %rax
	imulq	$56, %rdx, %rdx
	cmpb	$0, (%rax,%rdx)
	je	.LBB35_5
.LBB35_4:
	movb	$1, (%rdi)
	movl	$0, 1(%rdi)
	movl	$0, 4(%rdi)
	movq	%r15, 8(%rdi)
	movb	$1, %al
.LBB35_6:
	addq	$48, %rsp
	.cfi_def_cfa_offset 48
	popq	%rbx
	.cfi_def_cfa_offset 40
	popq	%r12
	.cfi_def_cfa_offset 32
	popq	%r13
	.cfi_def_cfa_offset 24
	popq	%r14
	.cfi_def_cfa_offset 16
	popq	%r15
	.cfi_def_cfa_offset 8
	retq
.LBB35_5:
	.cfi_def_cfa_offset 96
	movq	8(%rax,%rdx), %r14
	movups	24(%rax,%rdx), %xmm0
	movaps	%xmm0, (%rsp)
	leaq	24(%rsp), %rax
	movq	%rdi, %r12
	movq	%rax, %rdi
	movq	%rsi, %r13
	movq	%rcx, %rsi
	movl	%ebx, %edx
	movq	%r14, %rcx
	callq	"sorted_arena::arena::SortedArena::remove::<#1b35315d4ce24113>"
	movb	$1, (%r12)
	movl	$0, 1(%r12)
	movl	$0, 4(%r12)
	movq	%r15, 8(%r12)
	movl	%ebx, (%r13)
	movl	$0, 4(%r13)
	movq	%r14, 8(%r13)
	movaps	(%rsp), %xmm0
	movups	%xmm0, 16(%r13)
	xorl	%eax, %eax
	jmp	.LBB35_6
.Lfunc_end35:
	.size	topscedar_arena_pop_first, .Lfunc_end35-topscedar_arena_pop_first
	.cfi_endproc

	.section	.text.topscedar_arena_pop_last,"ax",@progbits
	.globl	topscedar_arena_pop_last
	.p2align	4
	.type	topscedar_arena_pop_last,@function
topscedar_arena_pop_last:
	.cfi_startproc
	pushq	%r15
	.cfi_def_cfa_offset 16
	pushq	%r14
	.cfi_def_cfa_offset 24
	pushq	%r13
	.cfi_def_cfa_offset 32
	pushq	%r12
	.cfi_def_cfa_offset 40
	pushq	%rbx
	.cfi_def_cfa_offset 48
	subq	$48, %rsp
	.cfi_def_cfa_offset 96
	.cfi_offset %rbx, -48
	.cfi_offset %r12, -40
	.cfi_offset %r13, -32
	.cfi_offset %r14, -24
	.cfi_offset %r15, -16
	movq	8(%rdi), %rcx
	xorl	%r15d, %r15d
	testb	$1, (%rdi)
	cmovneq	%rcx, %r15
	xorps	%xmm0, %xmm0
	movups	%xmm0, (%rdi)
	movb	$4, %al
	je	.LBB36_6
	cmpb	$1, 80(%rcx)
	jne	.LBB36_4
	movl	84(%rcx), %ebx
	leaq	-1(%rbx), %rdx
	cmpq	8(%rcx), %rdx
	jae	.LBB36_4
	movq	(%rcx), %rax
	imulq	$56, %rdx, %rdx
	cmpb	$0, (%rax,%rdx)
	je	.LBB36_5
.LBB36_4:
	movb	$1, (%rdi)
	movl	$0, 1(%rdi)
	movl	$0, 4(%rdi)
	movq	%r15, 8(%rdi)
	movb	$1, %al
.LBB36_6:
	addq	$48, %rsp
	.cfi_def_cfa_offset 48
	popq	%rbx
	.cfi_def_cfa_offset 40
	popq	%r12
	.cfi_def_cfa_offset 32
	popq	%r13
	.cfi_def_cfa_offset 24
	popq	%r14
	.cfi_def_cfa_offset 16
	popq	%r15
	.cfi_def_cfa_offset 8
	retq
.LBB36_5:
	.cfi_def_cfa_offset 96
	movq	8(%rax,%rdx), %r14
	movups	24(%rax,%rdx), %xmm0
	movaps	%xmm0, (%rsp)
	leaq	24(%rsp), %rax
	movq	%rdi, %r12
	movq	%rax, %rdi
	movq	%rsi, %r13
	movq	%rcx, %rsi
	movl	%ebx, %edx
	movq	%r14, %rcx
	callq	"sorted_arena::arena::SortedArena::remove::<#1b35315d4ce24113>"
	movb	$1, (%r12)
	movl	$0, 1(%r12)
	movl	$0, 4(%r12)
	movq	%r15, 8(%r12)
	movl	%ebx, (%r13)
	movl	$0, 4(%r13)
	movq	%r14, 8(%r13)
	movaps	(%rsp), %xmm0
	movups	%xmm0, 16(%r13)
	xorl	%eax, %eax
	jmp	.LBB36_6
.Lfunc_end36:
	.size	topscedar_arena_pop_last, .Lfunc_end36-topscedar_arena_pop_last
	.cfi_endproc

	.section	.text.topscedar_arena_pop_until,"ax",@progbits
	.globl	topscedar_arena_pop_until
	.p2align	4
	.type	topscedar_arena_pop_until,@function
topscedar_arena_pop_until:
	.cfi_startproc
	pushq	%rbp
	.cfi_def_cfa_offset 16
	pushq	%r15
	.cfi_def_cfa_offset 24
	pushq	%r14
	.cfi_def_cfa_offset 32
	pushq	%r13
	.cfi_def_cfa_offset 40
	pushq	%r12
	.cfi_def_cfa_offset 48
	pushq	%rbx
	.cfi_def_cfa_offset 56
	subq	$88, %rsp
	.cfi_def_cfa_offset 144
	.cfi_offset %rbx, -56
	.cfi_offset %r12, -48
	.cfi_offset %r13, -40
	.cfi_offset %r14, -32
	.cfi_offset %r15, -24
	.cfi_offset %rbp, -16
	xorl	%r10d, %r10d
	testq	%rdx, %rdx
	sete	%r11b
	movq	8(%rdi), %r12
	xorl	%r9d, %r9d
	testb	$1, (%rdi)
	cmovneq	%r12, %r9
	movq	%rsi, 24(%rsp)
	xorps	%xmm0, %xmm0
	movups	%xmm0, (%rdi)
	movb	$4, %al
	je	.LBB37_13
	movq	%rcx, %rbx
	testq	%rcx, %rcx
	je	.LBB37_2
	movq	%rdi, (%rsp)
	movq	%r9, 8(%rsp)
	movq	%r8, 16(%rsp)
	movb	%r11b, %r10b
	shll	$12, %r10d
	leaq	(%r10,%rdx), %r13
	addq	$16, %r13
	xorl	%r15d, %r15d
	.p2align	4
.LBB37_4:
	cmpb	$1, 72(%r12)
	jne	.LBB37_11
	movl	76(%r12), %ebp
	leaq	-1(%rbp), %rdx
	cmpq	8(%r12), %rdx
	jae	.LBB37_11
	movq	(%r12), %rax
	imulq	$56, %rdx, %rsi
	cmpb	$0, (%rax,%rsi)
	jne	.LBB37_11
	movq	8(%rax,%rsi), %r14
	movq	24(%rax,%rsi), %rdx
	movups	24(%rax,%rsi), %xmm1
	xorps	%xmm0, %xmm0
	movaps	%xmm0, 32(%rsp)
	movq	$0, 48(%rsp)
	cmpq	24(%rsp), %rdx
	jg	.LBB37_11
	movaps	%xmm1, 64(%rsp)
	leaq	32(%rsp), %rdi
	movq	%r12, %rsi
	movl	%ebp, %edx
	movq	%r14, %rcx
	callq	"sorted_arena::arena::SortedArena::remove::<#1b35315d4ce24113>"
	cmpb	$1, 32(%rsp)
	jne	.LBB37_11
	movl	%ebp, -16(%r13)
	movl	$0, -12(%r13)
	movq	%r14, -8(%r13)
	movaps	64(%rsp), %xmm0
	movups	%xmm0, (%r13)
	incq	%r15
	addq	$32, %r13
	cmpq	%r15, %rbx
	jne	.LBB37_4
	movq	%rbx, %r15
.LBB37_11:
	movq	16(%rsp), %r8
	movq	8(%rsp), %r9
	movq	(%rsp), %rdi
	jmp	.LBB37_12
.LBB37_2:
	xorl	%r15d, %r15d
.LBB37_12:
	movq	%r15, (%r8)
	movb	$1, (%rdi)
	movl	$0, 1(%rdi)
	movl	$0, 4(%rdi)
	movq	%r9, 8(%rdi)
	xorl	%eax, %eax
.LBB37_13:
	addq	$88, %rsp
	.cfi_def_cfa_offset 56
	popq	%rbx
	.cfi_def_cfa_offset 48
	popq	%r12
	.cfi_def_cfa_offset 40
	popq	%r13
	.cfi_def_cfa_offset 32
	popq	%r14
	.cfi_def_cfa_offset 24
	popq	%r15
	.cfi_def_cfa_offset 16
	popq	%rbp
	.cfi_def_cfa_offset 8
	retq
.Lfunc_end37:
	.size	topscedar_arena_pop_until, .Lfunc_end37-topscedar_arena_pop_until
	.cfi_endproc

	.section	.text.topscedar_arena_previous,"ax",@progbits
	.globl	topscedar_arena_previous
	.p2align	4
	.type	topscedar_arena_previous,@function
topscedar_arena_previous:
	.cfi_startproc
	movq	8(%rdi), %r10
	xorl	%r8d, %r8d
	testb	$1, (%rdi)
	cmovneq	%r10, %r8
	xorps	%xmm0, %xmm0
	movups	%xmm0, (%rdi)
	movb	$4, %al
	jne	.LBB38_1
	retq
.LBB38_1:
	movq	8(%r10), %r9
	movl	%esi, %esi
	decq	%rsi
	cmpq	%r9, %rsi
	jae	.LBB38_8
	movq	(%r10), %rax
	imulq	$56, %rsi, %rsi
	cmpb	$0, (%rax,%rsi)
	jne	.LBB38_8
	cmpq	%rdx, 8(%rax,%rsi)
	jne	.LBB38_8
	movl	48(%rax,%rsi), %edx
	testq	%rdx, %rdx
	je	.LBB38_8
	leaq	-1(%rdx), %rsi
	cmpq	%r9, %rsi
	jae	.LBB38_8
	imulq	$56, %rsi, %rsi
	cmpb	$0, (%rax,%rsi)
	jne	.LBB38_8
	imulq	$56, %rdx, %r9
	cmpb	$0, -56(%rax,%r9)
	je	.LBB38_9
.LBB38_8:
	movb	$1, (%rdi)
	movl	$0, 1(%rdi)
	movl	$0, 4(%rdi)
	movq	%r8, 8(%rdi)
	movb	$1, %al
	retq
.LBB38_9:
	movq	8(%rax,%rsi), %rsi
	movups	-32(%rax,%r9), %xmm0
	movb	$1, (%rdi)
	movl	$0, 1(%rdi)
	movl	$0, 4(%rdi)
	movq	%r8, 8(%rdi)
	movl	%edx, (%rcx)
	movl	$0, 4(%rcx)
	movq	%rsi, 8(%rcx)
	movups	%xmm0, 16(%rcx)
	xorl	%eax, %eax
	retq
.Lfunc_end38:
	.size	topscedar_arena_previous, .Lfunc_end38-topscedar_arena_previous
	.cfi_endproc

	.section	.text.topscedar_arena_rank,"ax",@progbits
	.globl	topscedar_arena_rank
	.p2align	4
	.type	topscedar_arena_rank,@function
topscedar_arena_rank:
	.cfi_startproc
	pushq	%r15
	.cfi_def_cfa_offset 16
	pushq	%r14
	.cfi_def_cfa_offset 24
	pushq	%r13
	.cfi_def_cfa_offset 32
	pushq	%r12
	.cfi_def_cfa_offset 40
	pushq	%rbx
	.cfi_def_cfa_offset 48
	subq	$64, %rsp
	.cfi_def_cfa_offset 112
	.cfi_offset %rbx, -48
	.cfi_offset %r12, -40
	.cfi_offset %r13, -32
	.cfi_offset %r14, -24
	.cfi_offset %r15, -16
	movq	%rsi, 8(%rsp)
	movq	8(%rdi), %r15
	xorps	%xmm0, %xmm0
	testb	$1, (%rdi)
	movups	%xmm0, (%rdi)
	movb	$4, %r12b
	je	.LBB39_2
	movq	%rdx, %rbx
	movq	%rdi, %r14
	movaps	%xmm0, 48(%rsp)
	movaps	%xmm0, 32(%rsp)
	movaps	%xmm0, 16(%rsp)
	xorl	%r12d, %r12d
	leaq	16(%rsp), %r13
	leaq	8(%rsp), %r9
	movq	%r13, %rdi
	movq	%r15, %rsi
	movl	$2, %edx
	xorl	%ecx, %ecx
	movl	$1, %r8d
	callq	"sorted_arena::arena::SortedArena::between::<#1b35315d4ce24113>"
	movq	%r13, %rdi
	callq	"core::iter::base::Iterator::count::<#55e36cf547ec1a3b>"
	movb	$1, (%r14)
	movl	$0, 1(%r14)
	movl	$0, 4(%r14)
	movq	%r15, 8(%r14)
	movq	%rax, (%rbx)
.LBB39_2:
	movl	%r12d, %eax
	addq	$64, %rsp
	.cfi_def_cfa_offset 48
	popq	%rbx
	.cfi_def_cfa_offset 40
	popq	%r12
	.cfi_def_cfa_offset 32
	popq	%r13
	.cfi_def_cfa_offset 24
	popq	%r14
	.cfi_def_cfa_offset 16
	popq	%r15
	.cfi_def_cfa_offset 8
	retq
.Lfunc_end39:
	.size	topscedar_arena_rank, .Lfunc_end39-topscedar_arena_rank
	.cfi_endproc

	.section	.text.topscedar_arena_rekey,"ax",@progbits
	.globl	topscedar_arena_rekey
	.p2align	4
	.type	topscedar_arena_rekey,@function
topscedar_arena_rekey:
	.cfi_startproc
	pushq	%r15
	.cfi_def_cfa_offset 16
	pushq	%r14
	.cfi_def_cfa_offset 24
	pushq	%rbx
	.cfi_def_cfa_offset 32
	.cfi_offset %rbx, -32
	.cfi_offset %r14, -24
	.cfi_offset %r15, -16
	movq	8(%rdi), %r15
	xorps	%xmm0, %xmm0
	testb	$1, (%rdi)
	movups	%xmm0, (%rdi)
	movb	$4, %al
	je	.LBB40_2
	movq	%r8, %rbx
	movq	%rdi, %r14
	movq	%r15, %rdi
	callq	"sorted_arena::arena::SortedArena::rekey::<#1b35315d4ce24113>"
	movl	%eax, %ecx
	movb	$1, (%r14)
	movl	$0, 1(%r14)
	movl	$0, 4(%r14)
	movq	%r15, 8(%r14)
	movb	$1, %al
	testb	%cl, %cl
	je	.LBB40_3
.LBB40_2:
	popq	%rbx
	.cfi_def_cfa_offset 24
	popq	%r14
	.cfi_def_cfa_offset 16
	popq	%r15
	.cfi_def_cfa_offset 8
	retq
.LBB40_3:
	.cfi_def_cfa_offset 32
	movq	%rdx, (%rbx)
	xorl	%eax, %eax
	popq	%rbx
	.cfi_def_cfa_offset 24
	popq	%r14
	.cfi_def_cfa_offset 16
	popq	%r15
	.cfi_def_cfa_offset 8
	retq
.Lfunc_end40:
	.size	topscedar_arena_rekey, .Lfunc_end40-topscedar_arena_rekey
	.cfi_endproc

	.section	.text.topscedar_arena_rekey_unique,"ax",@progbits
	.globl	topscedar_arena_rekey_unique
	.p2align	4
	.type	topscedar_arena_rekey_unique,@function
topscedar_arena_rekey_unique:
	.cfi_startproc
	pushq	%rbp
	.cfi_def_cfa_offset 16
	pushq	%r15
	.cfi_def_cfa_offset 24
	pushq	%r14
	.cfi_def_cfa_offset 32
	pushq	%r13
	.cfi_def_cfa_offset 40
	pushq	%r12
	.cfi_def_cfa_offset 48
	pushq	%rbx
	.cfi_def_cfa_offset 56
	subq	$40, %rsp
	.cfi_def_cfa_offset 96
	.cfi_offset %rbx, -56
	.cfi_offset %r12, -48
	.cfi_offset %r13, -40
	.cfi_offset %r14, -32
	.cfi_offset %r15, -24
	.cfi_offset %rbp, -16
	movq	8(%rdi), %r9
	xorl	%ebx, %ebx
	testb	$1, (%rdi)
	cmovneq	%r9, %rbx
	xorps	%xmm0, %xmm0
	movups	%xmm0, (%rdi)
	movb	$4, %al
	je	.LBB41_36
	movq	8(%r9), %r10
	movl	%esi, %r11d
	decq	%r11
	cmpq	%r10, %r11
	jae	.LBB41_35
	movq	(%r9), %rax
	imulq	$56, %r11, %r11
	cmpb	$0, (%rax,%r11)
	jne	.LBB41_35
	cmpq	%rdx, 8(%rax,%r11)
	jne	.LBB41_35
	movq	%r11, 16(%rsp)
	movq	%r10, 8(%rsp)
	movq	%rdx, 24(%rsp)
	movq	%r8, 32(%rsp)
	cmpb	$1, 88(%r9)
	jne	.LBB41_33
	movl	92(%r9), %r14d
	.p2align	4
.LBB41_6:
	movl	%r14d, %r11d
	imulq	$56, %r11, %r15
	cmpb	$0, -56(%rax,%r15)
	jne	.LBB41_37
	cmpq	-32(%rax,%r15), %rcx
	movl	-40(%rax,%r15), %r11d
	movl	-36(%rax,%r15), %ebp
	movl	%r11d, %r15d
	cmovgl	%ebp, %r15d
	je	.LBB41_8
	orl	%r11d, %ebp
	je	.LBB41_33
	movl	%r15d, %r14d
	testl	%r15d, %r15d
	jne	.LBB41_6
	jmp	.LBB41_33
.LBB41_35:
	movb	$1, (%rdi)
	movl	$0, 1(%rdi)
	movl	$0, 4(%rdi)
	movq	%rbx, 8(%rdi)
	movb	$1, %al
.LBB41_36:
	addq	$40, %rsp
	.cfi_def_cfa_offset 56
	popq	%rbx
	.cfi_def_cfa_offset 48
	popq	%r12
	.cfi_def_cfa_offset 40
	popq	%r13
	.cfi_def_cfa_offset 32
	popq	%r14
	.cfi_def_cfa_offset 24
	popq	%r15
	.cfi_def_cfa_offset 16
	popq	%rbp
	.cfi_def_cfa_offset 8
	retq
.LBB41_8:
	.cfi_def_cfa_offset 96
	testl	%r15d, %r15d
	je	.LBB41_9
	movl	%r15d, %r11d
	imulq	$56, %r11, %r12
	cmpb	$0, -56(%rax,%r12)
	jne	.LBB41_37
	addq	%rax, %r12
	movb	$1, %r8b
	jmp	.LBB41_16
.LBB41_12:
	xorl	%r8d, %r8d
	movl	$0, %r14d
	testl	%r12d, %r12d
	je	.LBB41_20
.LBB41_13:
	testl	%r15d, %r15d
	je	.LBB41_30
	movl	%r14d, %edx
.LBB41_15:
	movl	%r15d, %r11d
	imulq	$56, %r11, %r11
	leaq	(%rax,%r11), %r12
	cmpb	$0, -56(%rax,%r11)
	movl	%edx, %r14d
	jne	.LBB41_37
.LBB41_16:
	movl	%r15d, %edx
	movq	-32(%r12), %r13
	cmpq	%r13, %rcx
	setge	%r11b
	movl	-40(%r12), %ebp
	movl	-36(%r12), %r12d
	movl	%ebp, %r15d
	cmovgl	%r12d, %r15d
	addb	%r11b, %r11b
	cmpq	%r13, %rcx
	movzbl	%r11b, %r10d
	movl	$1, %r11d
	cmovnel	%r10d, %r11d
	orl	%ebp, %r12d
	testb	%r11b, %r11b
	je	.LBB41_12
	movzbl	%r11b, %r10d
	cmpl	$1, %r10d
	jne	.LBB41_18
	testl	%r12d, %r12d
	je	.LBB41_23
	movb	$1, %r8b
	testl	%r15d, %r15d
	jne	.LBB41_15
	jmp	.LBB41_23
.LBB41_18:
	testl	%r12d, %r12d
	jne	.LBB41_13
	testb	%r8b, %r8b
	cmovnel	%r14d, %edx
	jne	.LBB41_23
.LBB41_20:
	cmpq	%r13, %rcx
	jne	.LBB41_33
	jmp	.LBB41_23
.LBB41_9:
	movl	%r14d, %edx
	jmp	.LBB41_23
.LBB41_30:
	cmpq	%r13, %rcx
	sete	%r10b
	testb	%r8b, %r8b
	setne	%r11b
	cmovnel	%r14d, %edx
	orb	%r10b, %r11b
	je	.LBB41_33
.LBB41_23:
	cmpl	%esi, %edx
	jne	.LBB41_29
	movq	16(%rsp), %rdx
	movl	52(%rax,%rdx), %r11d
	testq	%r11, %r11
	je	.LBB41_33
	leaq	-1(%r11), %r14
	cmpq	8(%rsp), %r14
	jae	.LBB41_33
	imulq	$56, %r14, %r8
	cmpb	$0, (%rax,%r8)
	jne	.LBB41_33
	imulq	$56, %r11, %r10
	cmpb	$0, -56(%rax,%r10)
	jne	.LBB41_33
	cmpq	-32(%rax,%r10), %rcx
	jne	.LBB41_33
.LBB41_29:
	movb	$1, (%rdi)
	movl	$0, 1(%rdi)
	movl	$0, 4(%rdi)
	movq	%rbx, 8(%rdi)
	movb	$5, %al
	jmp	.LBB41_36
.LBB41_33:
	movq	%rdi, %r15
	movq	%r9, %rdi
	movq	24(%rsp), %rdx
	callq	"sorted_arena::arena::SortedArena::rekey::<#1b35315d4ce24113>"
	movq	32(%rsp), %rsi
	movl	%eax, %ecx
	movb	$1, (%r15)
	movl	$0, 1(%r15)
	movl	$0, 4(%r15)
	movq	%rbx, 8(%r15)
	movb	$1, %al
	testb	%cl, %cl
	jne	.LBB41_36
	movq	%rdx, (%rsi)
	xorl	%eax, %eax
	jmp	.LBB41_36
.LBB41_37:
	ud2
.Lfunc_end41:
	.size	topscedar_arena_rekey_unique, .Lfunc_end41-topscedar_arena_rekey_unique
	.cfi_endproc

	.section	.text.topscedar_arena_remove,"ax",@progbits
	.globl	topscedar_arena_remove
	.p2align	4
	.type	topscedar_arena_remove,@function
topscedar_arena_remove:
	.cfi_startproc
	pushq	%r15
	.cfi_def_cfa_offset 16
	pushq	%r14
	.cfi_def_cfa_offset 24
	pushq	%r13
	.cfi_def_cfa_offset 32
	pushq	%r12
	.cfi_def_cfa_offset 40
	pushq	%rbx
	.cfi_def_cfa_offset 48
	subq	$48, %rsp
	.cfi_def_cfa_offset 96
	.cfi_offset %rbx, -48
	.cfi_offset %r12, -40
	.cfi_offset %r13, -32
	.cfi_offset %r14, -24
	.cfi_offset %r15, -16
	movq	%rdx, %r14
	movq	8(%rdi), %rdx
	xorl	%r12d, %r12d
	testb	$1, (%rdi)
	cmovneq	%rdx, %r12
	xorps	%xmm0, %xmm0
	movups	%xmm0, (%rdi)
	movb	$4, %al
	je	.LBB42_6
	movq	%rdi, %rbx
	movq	%rsi, %r15
	movl	%r15d, %esi
	decq	%rsi
	cmpq	8(%rdx), %rsi
	jae	.LBB42_5
	movq	(%rdx), %rax
	imulq	$56, %rsi, %rsi
	cmpb	$0, (%rax,%rsi)
	jne	.LBB42_5
	cmpq	%r14, 8(%rax,%rsi)
	jne	.LBB42_5
	movups	24(%rax,%rsi), %xmm0
	movaps	%xmm0, (%rsp)
	leaq	24(%rsp), %rdi
	movq	%rdx, %rsi
	movl	%r15d, %edx
	movq	%rcx, %r13
	movq	%r14, %rcx
	callq	"sorted_arena::arena::SortedArena::remove::<#1b35315d4ce24113>"
	movb	$1, (%rbx)
	movl	$0, 1(%rbx)
	movl	$0, 4(%rbx)
	movq	%r12, 8(%rbx)
	movl	%r15d, (%r13)
	movl	$0, 4(%r13)
	movq	%r14, 8(%r13)
	movaps	(%rsp), %xmm0
	movups	%xmm0, 16(%r13)
	xorl	%eax, %eax
	jmp	.LBB42_6
.LBB42_5:
	leaq	24(%rsp), %rdi
	movq	%rdx, %rsi
	movl	%r15d, %edx
	movq	%r14, %rcx
	callq	"sorted_arena::arena::SortedArena::remove::<#1b35315d4ce24113>"
	movb	$1, (%rbx)
	movl	$0, 1(%rbx)
	movl	$0, 4(%rbx)
	movq	%r12, 8(%rbx)
	movb	$1, %al
.LBB42_6:
	addq	$48, %rsp
	.cfi_def_cfa_offset 48
	popq	%rbx
	.cfi_def_cfa_offset 40
	popq	%r12
	.cfi_def_cfa_offset 32
	popq	%r13
	.cfi_def_cfa_offset 24
	popq	%r14
	.cfi_def_cfa_offset 16
	popq	%r15
	.cfi_def_cfa_offset 8
	retq
.Lfunc_end42:
	.size	topscedar_arena_remove, .Lfunc_end42-topscedar_arena_remove
	.cfi_endproc

	.section	.text.topscedar_arena_remove_key,"ax",@progbits
	.globl	topscedar_arena_remove_key
	.p2align	4
	.type	topscedar_arena_remove_key,@function
topscedar_arena_remove_key:
	.cfi_startproc
	pushq	%rbp
	.cfi_def_cfa_offset 16
	pushq	%r15
	.cfi_def_cfa_offset 24
	pushq	%r14
	.cfi_def_cfa_offset 32
	pushq	%r13
	.cfi_def_cfa_offset 40
	pushq	%r12
	.cfi_def_cfa_offset 48
	pushq	%rbx
	.cfi_def_cfa_offset 56
	subq	$88, %rsp
	.cfi_def_cfa_offset 144
	.cfi_offset %rbx, -56
	.cfi_offset %r12, -48
	.cfi_offset %r13, -40
	.cfi_offset %r14, -32
	.cfi_offset %r15, -24
	.cfi_offset %rbp, -16
	movq	%rdx, 56(%rsp)
	movq	8(%rdi), %rdx
	xorl	%ecx, %ecx
	testb	$1, (%rdi)
	cmovneq	%rdx, %rcx
	xorps	%xmm0, %xmm0
	movq	%rdi, 8(%rsp)
	movups	%xmm0, (%rdi)
	movb	$4, %al
	je	.LBB43_59
	cmpb	$1, 88(%rdx)
	jne	.LBB43_2
	movq	%rcx, 48(%rsp)
	movl	92(%rdx), %r10d
	movq	%rdx, 40(%rsp)
	movq	(%rdx), %rax
	movl	%r10d, %r8d
	.p2align	4
.LBB43_4:
	movl	%r8d, %ecx
	imulq	$56, %rcx, %rdx
	cmpb	$0, -56(%rax,%rdx)
	jne	.LBB43_60
	cmpq	-32(%rax,%rdx), %rsi
	movl	-40(%rax,%rdx), %r9d
	movl	-36(%rax,%rdx), %r11d
	movl	%r9d, %ecx
	cmovgl	%r11d, %ecx
	je	.LBB43_6
	xorl	%r15d, %r15d
	orl	%r9d, %r11d
	xorps	%xmm0, %xmm0
	je	.LBB43_26
	movl	%ecx, %r8d
	movl	$0, %ebp
	movl	$0, %r14d
	testl	%ecx, %ecx
	jne	.LBB43_4
	jmp	.LBB43_34
.LBB43_2:
	movq	8(%rsp), %rax
	movb	$1, (%rax)
	movl	$0, 1(%rax)
	movl	$0, 4(%rax)
	movq	%rcx, 8(%rax)
	movb	$1, %al
	jmp	.LBB43_59
.LBB43_6:
	movq	-48(%rax,%rdx), %r15
	testl	%ecx, %ecx
	je	.LBB43_7
	movl	%ecx, %edx
	imulq	$56, %rdx, %r12
	cmpb	$0, -56(%rax,%r12)
	jne	.LBB43_60
	addq	%rax, %r12
	movb	$1, %r11b
	jmp	.LBB43_13
	.p2align	4
.LBB43_15:
	testl	%edx, %edx
	je	.LBB43_16
	testl	%ecx, %ecx
	je	.LBB43_23
.LBB43_11:
	movq	%r15, %r14
	movl	%r8d, %ebp
.LBB43_12:
	movl	%ecx, %edx
	imulq	$56, %rdx, %rdx
	leaq	(%rax,%rdx), %r12
	cmpb	$0, -56(%rax,%rdx)
	movl	%ebp, %r8d
	movq	%r14, %r15
	jne	.LBB43_60
.LBB43_13:
	movl	%ecx, %ebp
	movq	-32(%r12), %r9
	cmpq	%r9, %rsi
	setge	%bl
	movl	-40(%r12), %r13d
	movl	-36(%r12), %edx
	movl	%r13d, %ecx
	cmovgl	%edx, %ecx
	addb	%bl, %bl
	cmpq	%r9, %rsi
	movq	-48(%r12), %r14
	movzbl	%bl, %r12d
	movl	$1, %ebx
	cmovnel	%r12d, %ebx
	orl	%r13d, %edx
	testb	%bl, %bl
	je	.LBB43_19
	movzbl	%bl, %ebx
	cmpl	$1, %ebx
	jne	.LBB43_15
	testl	%edx, %edx
	je	.LBB43_29
	movb	$1, %r11b
	testl	%ecx, %ecx
	jne	.LBB43_12
	jmp	.LBB43_29
	.p2align	4
.LBB43_19:
	testl	%edx, %edx
	je	.LBB43_28
	xorl	%r11d, %r11d
	xorl	%r15d, %r15d
	xorl	%r8d, %r8d
	testl	%ecx, %ecx
	jne	.LBB43_11
.LBB43_23:
	cmpq	%r9, %rsi
	sete	%cl
	testb	%r11b, %r11b
	cmovnel	%r8d, %ebp
	setne	%dl
	cmovneq	%r15, %r14
	orb	%cl, %dl
	jne	.LBB43_29
	jmp	.LBB43_24
.LBB43_7:
	movl	%r8d, %ebp
	movq	%r15, %r14
.LBB43_29:
	movl	%ebp, %ecx
	decq	%rcx
	xorps	%xmm0, %xmm0
	movq	40(%rsp), %rdx
	cmpq	8(%rdx), %rcx
	jae	.LBB43_30
	imulq	$56, %rcx, %rcx
	cmpb	$0, (%rax,%rcx)
	jne	.LBB43_30
	cmpq	%r14, 8(%rax,%rcx)
	jne	.LBB43_30
	movups	24(%rax,%rcx), %xmm0
	movb	$1, %r15b
	jmp	.LBB43_34
.LBB43_30:
	xorl	%r15d, %r15d
	jmp	.LBB43_26
.LBB43_28:
	cmpq	%r9, %rsi
	je	.LBB43_29
.LBB43_24:
	xorps	%xmm0, %xmm0
	xorl	%r15d, %r15d
	jmp	.LBB43_26
.LBB43_16:
	testb	%r11b, %r11b
	cmovnel	%r8d, %ebp
	cmovneq	%r15, %r14
	jne	.LBB43_29
	cmpq	%r9, %rsi
	je	.LBB43_29
	xorl	%r15d, %r15d
	xorps	%xmm0, %xmm0
.LBB43_26:
	xorl	%ebp, %ebp
	xorl	%r14d, %r14d
	.p2align	4
.LBB43_34:
	movl	%r10d, %ecx
	imulq	$56, %rcx, %rcx
	cmpb	$0, -56(%rax,%rcx)
	jne	.LBB43_60
	cmpq	-32(%rax,%rcx), %rsi
	movl	-40(%rax,%rcx), %edx
	movl	-36(%rax,%rcx), %r8d
	movl	%edx, %r11d
	cmovgl	%r8d, %r11d
	je	.LBB43_36
	orl	%edx, %r8d
	je	.LBB43_56
	movl	%r11d, %r10d
	testl	%r11d, %r11d
	jne	.LBB43_34
	jmp	.LBB43_56
.LBB43_36:
	movq	-48(%rax,%rcx), %r13
	testl	%r11d, %r11d
	je	.LBB43_37
	movl	%r11d, %ecx
	imulq	$56, %rcx, %rdx
	cmpb	$0, -56(%rax,%rdx)
	jne	.LBB43_60
	addq	%rax, %rdx
	movb	$1, %cl
	movq	%rcx, 16(%rsp)
	jmp	.LBB43_43
	.p2align	4
.LBB43_45:
	testl	%ebx, %ebx
	je	.LBB43_46
	testl	%r11d, %r11d
	je	.LBB43_55
.LBB43_41:
	movq	%r13, %rcx
	movl	%r10d, %r8d
.LBB43_42:
	movl	%r11d, %edx
	imulq	$56, %rdx, %r9
	leaq	(%rax,%r9), %rdx
	cmpb	$0, -56(%rax,%r9)
	movl	%r8d, %r10d
	movq	%rcx, %r13
	jne	.LBB43_60
.LBB43_43:
	movl	%r11d, %r8d
	movq	-32(%rdx), %r9
	cmpq	%r9, %rsi
	setge	%r12b
	movl	-40(%rdx), %edi
	movl	-36(%rdx), %ebx
	movl	%edi, %r11d
	cmovgl	%ebx, %r11d
	addb	%r12b, %r12b
	cmpq	%r9, %rsi
	movq	-48(%rdx), %rcx
	movzbl	%r12b, %r12d
	movl	$1, %edx
	cmovnel	%r12d, %edx
	orl	%edi, %ebx
	testb	%dl, %dl
	je	.LBB43_48
	movzbl	%dl, %edx
	cmpl	$1, %edx
	jne	.LBB43_45
	testl	%ebx, %ebx
	je	.LBB43_52
	movb	$1, %dl
	movq	%rdx, 16(%rsp)
	testl	%r11d, %r11d
	jne	.LBB43_42
	jmp	.LBB43_52
	.p2align	4
.LBB43_48:
	testl	%ebx, %ebx
	je	.LBB43_47
	movq	$0, 16(%rsp)
	xorl	%r13d, %r13d
	xorl	%r10d, %r10d
	testl	%r11d, %r11d
	jne	.LBB43_41
.LBB43_55:
	cmpq	%r9, %rsi
	sete	%al
	cmpb	$0, 16(%rsp)
	cmovnel	%r10d, %r8d
	setne	%dl
	cmovneq	%r13, %rcx
	orb	%al, %dl
	je	.LBB43_56
	jmp	.LBB43_52
.LBB43_37:
	movl	%r10d, %r8d
	movq	%r13, %rcx
	jmp	.LBB43_52
.LBB43_46:
	cmpb	$0, 16(%rsp)
	cmovnel	%r10d, %r8d
	cmovneq	%r13, %rcx
	jne	.LBB43_52
.LBB43_47:
	cmpq	%r9, %rsi
	je	.LBB43_52
.LBB43_56:
	movq	8(%rsp), %rax
	movb	$1, (%rax)
	movl	$0, 1(%rax)
	movl	$0, 4(%rax)
	movq	48(%rsp), %rcx
	movq	%rcx, 8(%rax)
	movb	$1, %al
	testb	%r15b, %r15b
	je	.LBB43_59
.LBB43_58:
	movq	56(%rsp), %rax
	movl	%ebp, (%rax)
	movl	$0, 4(%rax)
	movq	%r14, 8(%rax)
	movups	%xmm0, 16(%rax)
	xorl	%eax, %eax
.LBB43_59:
	addq	$88, %rsp
	.cfi_def_cfa_offset 56
	popq	%rbx
	.cfi_def_cfa_offset 48
	popq	%r12
	.cfi_def_cfa_offset 40
	popq	%r13
	.cfi_def_cfa_offset 32
	popq	%r14
	.cfi_def_cfa_offset 24
	popq	%r15
	.cfi_def_cfa_offset 16
	popq	%rbp
	.cfi_def_cfa_offset 8
	retq
.LBB43_52:
	.cfi_def_cfa_offset 144
	leaq	64(%rsp), %rdi
	movq	8(%rsp), %rbx
	movq	40(%rsp), %rsi
	movl	%r8d, %edx
	movaps	%xmm0, 16(%rsp)
	callq	"sorted_arena::arena::SortedArena::remove::<#1b35315d4ce24113>"
	movaps	16(%rsp), %xmm0
	movb	$1, (%rbx)
	movl	$0, 1(%rbx)
	movl	$0, 4(%rbx)
	movq	48(%rsp), %rax
	movq	%rax, 8(%rbx)
	movb	$1, %al
	testb	%r15b, %r15b
	jne	.LBB43_58
	jmp	.LBB43_59
.LBB43_60:
	ud2
.Lfunc_end43:
	.size	topscedar_arena_remove_key, .Lfunc_end43-topscedar_arena_remove_key
	.cfi_endproc

	.section	.text.topscedar_arena_remove_range,"ax",@progbits
	.globl	topscedar_arena_remove_range
	.p2align	4
	.type	topscedar_arena_remove_range,@function
topscedar_arena_remove_range:
	.cfi_startproc
	pushq	%rbp
	.cfi_def_cfa_offset 16
	pushq	%r15
	.cfi_def_cfa_offset 24
	pushq	%r14
	.cfi_def_cfa_offset 32
	pushq	%r13
	.cfi_def_cfa_offset 40
	pushq	%r12
	.cfi_def_cfa_offset 48
	pushq	%rbx
	.cfi_def_cfa_offset 56
	subq	$168, %rsp
	.cfi_def_cfa_offset 224
	.cfi_offset %rbx, -56
	.cfi_offset %r12, -48
	.cfi_offset %r13, -40
	.cfi_offset %r14, -32
	.cfi_offset %r15, -24
	.cfi_offset %rbp, -16
	movq	8(%rdi), %r12
	xorl	%r15d, %r15d
	testb	$1, (%rdi)
	cmovneq	%r12, %r15
	xorps	%xmm0, %xmm0
	movups	%xmm0, (%rdi)
	movb	$4, %al
	je	.LBB44_29
	movq	%rcx, %r14
	movq	%rdi, %rbx
	movq	$0, 136(%rsp)
	leaq	144(%rsp), %rcx
	movq	%rsi, 144(%rsp)
	movq	$0, 152(%rsp)
	leaq	160(%rsp), %r9
	movq	%rdx, 160(%rsp)
	movaps	%xmm0, 16(%rsp)
	movaps	%xmm0, 32(%rsp)
	movaps	%xmm0, 48(%rsp)
	leaq	16(%rsp), %rdi
	movq	%r15, %rsi
	xorl	%edx, %edx
	xorl	%r8d, %r8d
	callq	"sorted_arena::arena::SortedArena::between::<#1b35315d4ce24113>"
	movq	16(%rsp), %rsi
	movzbl	24(%rsp), %edi
	movl	28(%rsp), %r8d
	movl	32(%rsp), %r9d
	movzbl	36(%rsp), %edx
	movsd	40(%rsp), %xmm0
	movq	48(%rsp), %rax
	movq	56(%rsp), %rcx
	cmpb	$1, %dil
	jne	.LBB44_7
	testq	%rcx, %rcx
	je	.LBB44_31
	movq	%rax, %r10
	shrq	%r10
	cmpq	$2147483647, %r10
	jae	.LBB44_30
	movq	%r15, (%rsp)
	movq	%r14, 8(%rsp)
	cmpq	8(%rsi), %rax
	jae	.LBB44_30
	movq	(%rsi), %r10
	imulq	$56, %rax, %r14
	cmpb	$0, (%r10,%r14)
	jne	.LBB44_30
	movl	%r8d, %r11d
	andl	$-256, %r11d
	incq	%rax
	decq	%rcx
	addq	%r14, %r10
	movl	%r9d, %ebp
	movl	%eax, %r9d
	movq	%r9, 72(%rsp)
	jmp	.LBB44_13
.LBB44_7:
	cmpb	$1, %r8b
	jne	.LBB44_31
	cmpb	$1, %dl
	jne	.LBB44_10
	cmpl	40(%rsp), %r9d
	jne	.LBB44_10
.LBB44_31:
	xorl	%eax, %eax
	jmp	.LBB44_28
.LBB44_10:
	movq	%r15, (%rsp)
	movq	%r14, 8(%rsp)
	leaq	-1(%r9), %r8
	cmpq	8(%rsi), %r8
	jae	.LBB44_30
	movq	(%rsi), %r10
	imulq	$56, %r8, %r8
	cmpb	$0, (%r10,%r8)
	jne	.LBB44_30
	movq	%r9, 72(%rsp)
	addq	%r8, %r10
	movl	52(%r10), %ebp
	xorl	%r8d, %r8d
	testl	%ebp, %ebp
	setne	%r8b
	xorl	%r11d, %r11d
.LBB44_13:
	leaq	25(%rsp), %r9
	movq	8(%r10), %r15
	movq	%rsi, 80(%rsp)
	movb	%dil, 88(%rsp)
	movzwl	(%r9), %esi
	movw	%si, 89(%rsp)
	movzbl	2(%r9), %esi
	movb	%sil, 91(%rsp)
	movzbl	%r8b, %esi
	orl	%r11d, %esi
	movl	%esi, 92(%rsp)
	movl	%ebp, 96(%rsp)
	movb	%dl, 100(%rsp)
	movzwl	12(%r9), %edx
	movw	%dx, 101(%rsp)
	movzbl	14(%r9), %edx
	movb	%dl, 103(%rsp)
	movlps	%xmm0, 104(%rsp)
	movq	%rax, 112(%rsp)
	movq	%rcx, 120(%rsp)
	leaq	80(%rsp), %rdi
	callq	"core::iter::base::Iterator::count::<#55e36cf547ec1a3b>"
	incq	%rax
	jne	.LBB44_15
	xorl	%eax, %eax
	movq	8(%rsp), %r14
	movq	(%rsp), %r15
	jmp	.LBB44_28
.LBB44_15:
	movb	$1, %r14b
	movq	%rax, 128(%rsp)
	movq	%rax, %rbp
	movq	72(%rsp), %rdx
	movq	%r15, %rcx
	.p2align	4
.LBB44_16:
	xorps	%xmm0, %xmm0
	movaps	%xmm0, 16(%rsp)
	movq	$0, 32(%rsp)
	cmpb	$1, %r14b
	jne	.LBB44_30
	movq	8(%r12), %rax
	movl	%edx, %edi
	decq	%rdi
	cmpq	%rax, %rdi
	jae	.LBB44_18
	movq	(%r12), %rsi
	imulq	$56, %rdi, %rdi
	cmpb	$0, (%rsi,%rdi)
	jne	.LBB44_18
	cmpq	%rcx, 8(%rsi,%rdi)
	jne	.LBB44_18
	movl	52(%rsi,%rdi), %r13d
	testq	%r13, %r13
	je	.LBB44_18
	leaq	-1(%r13), %rdi
	cmpq	%rax, %rdi
	jae	.LBB44_18
	imulq	$56, %rdi, %rax
	cmpb	$0, (%rsi,%rax)
	je	.LBB44_24
	.p2align	4
.LBB44_18:
	xorl	%r14d, %r14d
	xorl	%r13d, %r13d
	xorl	%r15d, %r15d
.LBB44_25:
	leaq	16(%rsp), %rdi
	movq	%r12, %rsi
	callq	"sorted_arena::arena::SortedArena::remove::<#1b35315d4ce24113>"
	cmpb	$1, 16(%rsp)
	jne	.LBB44_30
	movq	%r15, %rcx
	movl	%r13d, %edx
	decq	%rbp
	jne	.LBB44_16
	jmp	.LBB44_27
.LBB44_24:
	movq	8(%rsi,%rax), %r15
	movb	$1, %r14b
	jmp	.LBB44_25
.LBB44_27:
	movq	8(%rsp), %r14
	movq	(%rsp), %r15
	movq	128(%rsp), %rax
.LBB44_28:
	movq	%rax, (%r14)
	movb	$1, (%rbx)
	movl	$0, 1(%rbx)
	movl	$0, 4(%rbx)
	movq	%r15, 8(%rbx)
	xorl	%eax, %eax
.LBB44_29:
	addq	$168, %rsp
	.cfi_def_cfa_offset 56
	popq	%rbx
	.cfi_def_cfa_offset 48
	popq	%r12
	.cfi_def_cfa_offset 40
	popq	%r13
	.cfi_def_cfa_offset 32
	popq	%r14
	.cfi_def_cfa_offset 24
	popq	%r15
	.cfi_def_cfa_offset 16
	popq	%rbp
	.cfi_def_cfa_offset 8
	retq
.LBB44_30:
	.cfi_def_cfa_offset 224
	ud2
.Lfunc_end44:
	.size	topscedar_arena_remove_range, .Lfunc_end44-topscedar_arena_remove_range
	.cfi_endproc

	.section	.text.topscedar_arena_replace,"ax",@progbits
	.globl	topscedar_arena_replace
	.p2align	4
	.type	topscedar_arena_replace,@function
topscedar_arena_replace:
	.cfi_startproc
	pushq	%rbp
	.cfi_def_cfa_offset 16
	pushq	%r15
	.cfi_def_cfa_offset 24
	pushq	%r14
	.cfi_def_cfa_offset 32
	pushq	%r13
	.cfi_def_cfa_offset 40
	pushq	%r12
	.cfi_def_cfa_offset 48
	pushq	%rbx
	.cfi_def_cfa_offset 56
	subq	$88, %rsp
	.cfi_def_cfa_offset 144
	.cfi_offset %rbx, -56
	.cfi_offset %r12, -48
	.cfi_offset %r13, -40
	.cfi_offset %r14, -32
	.cfi_offset %r15, -24
	.cfi_offset %rbp, -16
	movq	%rdi, %rbx
	movq	8(%rdi), %r10
	xorl	%edi, %edi
	testb	$1, (%rbx)
	cmovneq	%r10, %rdi
	xorps	%xmm0, %xmm0
	movups	%xmm0, (%rbx)
	movb	$4, %al
	je	.LBB45_37
	movq	%rsi, %r12
	movq	%rdx, 16(%rsp)
	movq	%rcx, 24(%rsp)
	movq	%r8, 32(%rsp)
	movq	%r9, 40(%rsp)
	movq	%rdi, 8(%rsp)
	movaps	%xmm0, 64(%rsp)
	movaps	%xmm0, 48(%rsp)
	cmpb	$1, 88(%r10)
	jne	.LBB45_24
	movq	%r10, %rcx
	movl	92(%rcx), %r15d
	movq	(%rcx), %rax
	.p2align	4
.LBB45_3:
	movl	%r15d, %esi
	imulq	$56, %rsi, %rsi
	cmpb	$0, -56(%rax,%rsi)
	jne	.LBB45_38
	cmpq	-32(%rax,%rsi), %r12
	movl	-40(%rax,%rsi), %r8d
	movl	-36(%rax,%rsi), %r9d
	movl	%r8d, %ebp
	cmovgl	%r9d, %ebp
	je	.LBB45_7
	orl	%r8d, %r9d
	je	.LBB45_24
	movl	%ebp, %r15d
	testl	%ebp, %ebp
	jne	.LBB45_3
	jmp	.LBB45_24
.LBB45_7:
	movq	-48(%rax,%rsi), %r13
	testl	%ebp, %ebp
	je	.LBB45_21
	movl	%ebp, %esi
	imulq	$56, %rsi, %r9
	cmpb	$0, -56(%rax,%r9)
	jne	.LBB45_38
	addq	%rax, %r9
	movb	$1, %dl
	jmp	.LBB45_14
	.p2align	4
.LBB45_10:
	testl	%r8d, %r8d
	je	.LBB45_22
	testl	%ebp, %ebp
	je	.LBB45_20
.LBB45_12:
	movq	%r13, %r11
	movl	%r15d, %esi
.LBB45_13:
	movl	%ebp, %r8d
	imulq	$56, %r8, %r8
	leaq	(%rax,%r8), %r9
	cmpb	$0, -56(%rax,%r8)
	movl	%esi, %r15d
	movq	%r11, %r13
	jne	.LBB45_38
.LBB45_14:
	movl	%ebp, %esi
	movq	-32(%r9), %r10
	cmpq	%r10, %r12
	setge	%r14b
	movl	-40(%r9), %edi
	movl	-36(%r9), %r8d
	movl	%edi, %ebp
	cmovgl	%r8d, %ebp
	addb	%r14b, %r14b
	cmpq	%r10, %r12
	movq	-48(%r9), %r11
	movzbl	%r14b, %r14d
	movl	$1, %r9d
	cmovnel	%r14d, %r9d
	orl	%edi, %r8d
	testb	%r9b, %r9b
	je	.LBB45_18
	movzbl	%r9b, %edi
	cmpl	$1, %edi
	jne	.LBB45_10
	testl	%r8d, %r8d
	je	.LBB45_27
	movb	$1, %dl
	testl	%ebp, %ebp
	jne	.LBB45_13
	jmp	.LBB45_27
	.p2align	4
.LBB45_18:
	testl	%r8d, %r8d
	je	.LBB45_23
	xorl	%edx, %edx
	xorl	%r13d, %r13d
	xorl	%r15d, %r15d
	testl	%ebp, %ebp
	jne	.LBB45_12
.LBB45_20:
	cmpq	%r10, %r12
	sete	%dil
	testb	%dl, %dl
	cmovnel	%r15d, %esi
	setne	%r8b
	cmovneq	%r13, %r11
	orb	%dil, %r8b
	je	.LBB45_24
	jmp	.LBB45_27
.LBB45_21:
	movl	%r15d, %esi
	movq	%r13, %r11
	jmp	.LBB45_27
.LBB45_22:
	testb	%dl, %dl
	cmovnel	%r15d, %esi
	cmovneq	%r13, %r11
	jne	.LBB45_27
.LBB45_23:
	cmpq	%r10, %r12
	je	.LBB45_27
.LBB45_24:
	movq	24(%rsp), %r13
	movq	32(%rsp), %r15
	leaq	48(%rsp), %rdi
	movq	8(%rsp), %r14
	movq	%r14, %rsi
	movq	%r12, %rdx
	movq	16(%rsp), %rcx
	callq	"sorted_arena::arena::SortedArena::insert::<#1599bed149cb2453>"
	cmpb	$0, 48(%rsp)
	movl	56(%rsp), %ecx
	movq	64(%rsp), %rax
	movzbl	72(%rsp), %edx
	movb	$1, (%rbx)
	movl	$0, 1(%rbx)
	movl	$0, 4(%rbx)
	movq	%r14, 8(%rbx)
	je	.LBB45_26
	testq	%rdx, %rdx
	sete	%al
	xorb	$3, %al
	jmp	.LBB45_37
.LBB45_26:
	movl	%ecx, (%r13)
	movl	$0, 4(%r13)
	movq	%rax, 8(%r13)
	movb	$0, (%r15)
	jmp	.LBB45_36
.LBB45_27:
	movl	%esi, %edx
	leaq	-1(%rdx), %r8
	cmpq	8(%rcx), %r8
	jae	.LBB45_32
	imulq	$56, %r8, %rdi
	cmpb	$0, (%rax,%rdi)
	movq	8(%rsp), %r8
	jne	.LBB45_33
	cmpq	%r11, 8(%rax,%rdi)
	jne	.LBB45_33
	imulq	$56, %rdx, %rdi
	cmpb	$0, -56(%rax,%rdi)
	jne	.LBB45_38
	movq	-24(%rax,%rdi), %rdx
	movq	16(%rsp), %r9
	movq	%r9, -24(%rax,%rdi)
	movb	$1, %al
	movb	$1, %dil
	jmp	.LBB45_34
.LBB45_32:
	xorl	%eax, %eax
	xorl	%edi, %edi
	xorl	%edx, %edx
	movq	8(%rsp), %r8
	jmp	.LBB45_34
.LBB45_33:
	xorl	%eax, %eax
	xorl	%edi, %edi
	xorl	%edx, %edx
.LBB45_34:
	movb	$1, (%rbx)
	movl	$0, 1(%rbx)
	movl	$0, 4(%rbx)
	movq	%r8, 8(%rbx)
	movq	24(%rsp), %rcx
	movl	%esi, (%rcx)
	movl	$0, 4(%rcx)
	movq	%r11, 8(%rcx)
	movq	32(%rsp), %rcx
	movb	%dil, (%rcx)
	testb	%al, %al
	je	.LBB45_36
	movq	40(%rsp), %rax
	movq	%rdx, (%rax)
.LBB45_36:
	xorl	%eax, %eax
.LBB45_37:
	addq	$88, %rsp
	.cfi_def_cfa_offset 56
	popq	%rbx
	.cfi_def_cfa_offset 48
	popq	%r12
	.cfi_def_cfa_offset 40
	popq	%r13
	.cfi_def_cfa_offset 32
	popq	%r14
	.cfi_def_cfa_offset 24
	popq	%r15
	.cfi_def_cfa_offset 16
	popq	%rbp
	.cfi_def_cfa_offset 8
	retq
.LBB45_38:
	.cfi_def_cfa_offset 144
	ud2
.Lfunc_end45:
	.size	topscedar_arena_replace, .Lfunc_end45-topscedar_arena_replace
	.cfi_endproc

	.section	.text.topscedar_arena_reserve,"ax",@progbits
	.globl	topscedar_arena_reserve
	.p2align	4
	.type	topscedar_arena_reserve,@function
topscedar_arena_reserve:
	.cfi_startproc
	pushq	%r14
	.cfi_def_cfa_offset 16
	pushq	%rbx
	.cfi_def_cfa_offset 24
	pushq	%rax
	.cfi_def_cfa_offset 32
	.cfi_offset %rbx, -24
	.cfi_offset %r14, -16
	movq	8(%rdi), %rcx
	xorl	%ebx, %ebx
	testb	$1, (%rdi)
	cmovneq	%rcx, %rbx
	xorps	%xmm0, %xmm0
	movups	%xmm0, (%rdi)
	movb	$4, %al
	je	.LBB46_5
	movq	8(%rcx), %rdx
	movq	%rdx, %r8
	subq	32(%rcx), %r8
	movb	$2, %al
	addq	%r8, %rsi
	jb	.LBB46_4
	xorl	%eax, %eax
	cmpq	%rdx, %rsi
	ja	.LBB46_3
.LBB46_4:
	movb	$1, (%rdi)
	movl	$0, 1(%rdi)
	movl	$0, 4(%rdi)
	movq	%rbx, 8(%rdi)
.LBB46_5:
	addq	$8, %rsp
	.cfi_def_cfa_offset 24
	popq	%rbx
	.cfi_def_cfa_offset 16
	popq	%r14
	.cfi_def_cfa_offset 8
	retq
.LBB46_3:
	.cfi_def_cfa_offset 32
	movq	64(%rcx), %r8
	movl	$4294967294, %eax
	cmpq	%rax, %r8
	cmovaeq	%rax, %r8
	cmpb	$1, 56(%rcx)
	cmovneq	%rax, %r8
	leaq	(%rdx,%rdx), %r9
	cmpq	$5, %r9
	movl	$4, %eax
	cmovaeq	%r9, %rax
	cmpq	%r8, %rax
	cmovaeq	%r8, %rax
	testq	%rdx, %rdx
	cmovsq	%r8, %rax
	cmpq	%rsi, %rax
	cmovbeq	%rsi, %rax
	movq	%rdi, %r14
	movq	%rcx, %rdi
	movq	%rax, %rsi
	callq	"chain_base::chain::ChainArena::reallocate_min_capacity::<#1897f9e7b5ba150b>"
	movq	%r14, %rdi
	movl	%eax, %ecx
	xorl	%eax, %eax
	orb	$2, %dl
	movzbl	%dl, %edx
	testb	$1, %cl
	cmovnel	%edx, %eax
	jmp	.LBB46_4
.Lfunc_end46:
	.size	topscedar_arena_reserve, .Lfunc_end46-topscedar_arena_reserve
	.cfi_endproc

	.section	.text.topscedar_arena_set_value,"ax",@progbits
	.globl	topscedar_arena_set_value
	.p2align	4
	.type	topscedar_arena_set_value,@function
topscedar_arena_set_value:
	.cfi_startproc
	movq	8(%rdi), %r10
	xorl	%r9d, %r9d
	testb	$1, (%rdi)
	cmovneq	%r10, %r9
	xorps	%xmm0, %xmm0
	movups	%xmm0, (%rdi)
	movb	$4, %al
	jne	.LBB47_1
	retq
.LBB47_1:
	movl	%esi, %eax
	leaq	-1(%rax), %r11
	cmpq	8(%r10), %r11
	jae	.LBB47_6
	movq	(%r10), %rsi
	imulq	$56, %r11, %r10
	cmpb	$0, (%rsi,%r10)
	jne	.LBB47_6
	cmpq	%rdx, 8(%rsi,%r10)
	jne	.LBB47_6
	imulq	$56, %rax, %rax
	cmpb	$0, -56(%rsi,%rax)
	jne	.LBB47_5
	movq	-24(%rsi,%rax), %rdx
	movq	%rcx, -24(%rsi,%rax)
	movb	$1, (%rdi)
	movl	$0, 1(%rdi)
	movl	$0, 4(%rdi)
	movq	%r9, 8(%rdi)
	movq	%rdx, (%r8)
	xorl	%eax, %eax
	retq
.LBB47_6:
	movb	$1, (%rdi)
	movl	$0, 1(%rdi)
	movl	$0, 4(%rdi)
	movq	%r9, 8(%rdi)
	movb	$1, %al
	retq
.LBB47_5:
	ud2
.Lfunc_end47:
	.size	topscedar_arena_set_value, .Lfunc_end47-topscedar_arena_set_value
	.cfi_endproc

	.section	.text.topscedar_arena_shrink,"ax",@progbits
	.globl	topscedar_arena_shrink
	.p2align	4
	.type	topscedar_arena_shrink,@function
topscedar_arena_shrink:
	.cfi_startproc
	pushq	%r14
	.cfi_def_cfa_offset 16
	pushq	%rbx
	.cfi_def_cfa_offset 24
	pushq	%rax
	.cfi_def_cfa_offset 32
	.cfi_offset %rbx, -24
	.cfi_offset %r14, -16
	movq	8(%rdi), %rbx
	xorps	%xmm0, %xmm0
	testb	$1, (%rdi)
	movups	%xmm0, (%rdi)
	movb	$4, %al
	jne	.LBB48_1
	addq	$8, %rsp
	.cfi_def_cfa_offset 24
	popq	%rbx
	.cfi_def_cfa_offset 16
	popq	%r14
	.cfi_def_cfa_offset 8
	retq
.LBB48_1:
	.cfi_def_cfa_offset 32
	movq	%rdi, %r14
	movq	%rbx, %rdi
	xorl	%esi, %esi
	callq	"chain_base::chain::ChainArena::reallocate_min_capacity::<#1897f9e7b5ba150b>"
	xorl	%eax, %eax
	movb	$1, (%r14)
	movl	$0, 1(%r14)
	movl	$0, 4(%r14)
	movq	%rbx, 8(%r14)
	addq	$8, %rsp
	.cfi_def_cfa_offset 24
	popq	%rbx
	.cfi_def_cfa_offset 16
	popq	%r14
	.cfi_def_cfa_offset 8
	retq
.Lfunc_end48:
	.size	topscedar_arena_shrink, .Lfunc_end48-topscedar_arena_shrink
	.cfi_endproc

	.section	.text.topscedar_arena_upper_bound,"ax",@progbits
	.globl	topscedar_arena_upper_bound
	.p2align	4
	.type	topscedar_arena_upper_bound,@function
topscedar_arena_upper_bound:
	.cfi_startproc
	pushq	%rbp
	.cfi_def_cfa_offset 16
	pushq	%r15
	.cfi_def_cfa_offset 24
	pushq	%r14
	.cfi_def_cfa_offset 32
	pushq	%rbx
	.cfi_def_cfa_offset 40
	.cfi_offset %rbx, -40
	.cfi_offset %r14, -32
	.cfi_offset %r15, -24
	.cfi_offset %rbp, -16
	movq	8(%rdi), %r10
	xorl	%ecx, %ecx
	testb	$1, (%rdi)
	cmovneq	%r10, %rcx
	xorps	%xmm0, %xmm0
	movups	%xmm0, (%rdi)
	movb	$4, %al
	je	.LBB49_19
	cmpb	$1, 88(%r10)
	jne	.LBB49_17
	movl	92(%r10), %ebp
	movq	(%r10), %rax
	.p2align	4
.LBB49_4:
	movl	%ebp, %r9d
	imulq	$56, %r9, %r11
	cmpb	$0, -56(%rax,%r11)
	jne	.LBB49_20
	movl	%ebp, %r8d
	movq	-32(%rax,%r11), %rbx
	movl	-40(%rax,%r11), %r14d
	movl	-36(%rax,%r11), %ebp
	movl	%ebp, %r15d
	orl	%r14d, %r15d
	je	.LBB49_6
	cmpq	%rbx, %rsi
	cmovll	%r14d, %ebp
	testl	%ebp, %ebp
	jne	.LBB49_4
.LBB49_6:
	movq	-48(%rax,%r11), %r11
	decq	%r9
	movq	8(%r10), %r10
	cmpq	%rbx, %rsi
	jge	.LBB49_7
	cmpq	%r10, %r9
	jae	.LBB49_17
.LBB49_15:
	imulq	$56, %r9, %rsi
	cmpb	$0, (%rax,%rsi)
	jne	.LBB49_17
	cmpq	%r11, 8(%rax,%rsi)
	jne	.LBB49_17
	movups	24(%rax,%rsi), %xmm0
	movb	$1, (%rdi)
	movl	$0, 1(%rdi)
	movl	$0, 4(%rdi)
	movq	%rcx, 8(%rdi)
	movl	%r8d, (%rdx)
	movl	$0, 4(%rdx)
	movq	%r11, 8(%rdx)
	movups	%xmm0, 16(%rdx)
	xorl	%eax, %eax
	jmp	.LBB49_19
.LBB49_7:
	cmpq	%r10, %r9
	jae	.LBB49_17
	imulq	$56, %r9, %rsi
	cmpb	$0, (%rax,%rsi)
	jne	.LBB49_17
	cmpq	%r11, 8(%rax,%rsi)
	jne	.LBB49_17
	movl	52(%rax,%rsi), %r8d
	testq	%r8, %r8
	je	.LBB49_17
	leaq	-1(%r8), %r9
	cmpq	%r10, %r9
	jae	.LBB49_17
	imulq	$56, %r9, %rsi
	cmpb	$0, (%rax,%rsi)
	jne	.LBB49_17
	movq	8(%rax,%rsi), %r11
	cmpq	%r10, %r9
	jb	.LBB49_15
.LBB49_17:
	movb	$1, (%rdi)
	movl	$0, 1(%rdi)
	movl	$0, 4(%rdi)
	movq	%rcx, 8(%rdi)
	movb	$1, %al
.LBB49_19:
	popq	%rbx
	.cfi_def_cfa_offset 32
	popq	%r14
	.cfi_def_cfa_offset 24
	popq	%r15
	.cfi_def_cfa_offset 16
	popq	%rbp
	.cfi_def_cfa_offset 8
	retq
.LBB49_20:
	.cfi_def_cfa_offset 40
	ud2
.Lfunc_end49:
	.size	topscedar_arena_upper_bound, .Lfunc_end49-topscedar_arena_upper_bound
	.cfi_endproc

	.section	.text.topscedar_arena_extend_sorted,"ax",@progbits
	.globl	topscedar_arena_extend_sorted
	.p2align	4
	.type	topscedar_arena_extend_sorted,@function
topscedar_arena_extend_sorted:
	.cfi_startproc
	pushq	%rbp
	.cfi_def_cfa_offset 16
	pushq	%r15
	.cfi_def_cfa_offset 24
	pushq	%r14
	.cfi_def_cfa_offset 32
	pushq	%r13
	.cfi_def_cfa_offset 40
	pushq	%r12
	.cfi_def_cfa_offset 48
	pushq	%rbx
	.cfi_def_cfa_offset 56
	subq	$104, %rsp
	.cfi_def_cfa_offset 160
	.cfi_offset %rbx, -56
	.cfi_offset %r12, -48
	.cfi_offset %r13, -40
	.cfi_offset %r14, -32
	.cfi_offset %r15, -24
	.cfi_offset %rbp, -16
	movq	%r9, %r12
	movq	%rdi, %r14
	xorl	%edi, %edi
	testq	%rsi, %rsi
	sete	%r9b
	xorl	%ebx, %ebx
	testq	%rcx, %rcx
	sete	%bpl
	xorl	%r13d, %r13d
	testq	%r12, %r12
	sete	15(%rsp)
	movq	8(%r14), %r10
	xorl	%r15d, %r15d
	testb	$1, (%r14)
	cmovneq	%r10, %r15
	xorps	%xmm0, %xmm0
	movups	%xmm0, (%r14)
	movb	$4, %al
	je	.LBB50_163
	cmpq	%rdx, %r8
	cmovbq	%r8, %rdx
	movq	%rdx, 56(%rsp)
	cmpb	$1, 80(%r15)
	jne	.LBB50_2
	movl	84(%r10), %eax
	decq	%rax
	cmpq	8(%r10), %rax
	jae	.LBB50_2
	movq	(%r10), %rdx
	imulq	$56, %rax, %rax
	cmpb	$0, (%rdx,%rax)
	je	.LBB50_5
.LBB50_2:
	xorl	%eax, %eax
	xorl	%r8d, %r8d
	cmpq	$0, 56(%rsp)
	movq	%r10, (%rsp)
	je	.LBB50_164
.LBB50_7:
	movb	%r9b, %dil
	shll	$12, %edi
	addq	%rdi, %rsi
	movq	(%rsi), %rdx
	cmpq	%rdx, %rax
	setg	%al
	testb	%al, %r8b
	je	.LBB50_10
	xorl	%eax, %eax
.LBB50_9:
	movq	168(%rsp), %rcx
	movq	%rax, (%rcx)
	movb	$1, (%r14)
	movl	$0, 1(%r14)
	movl	$0, 4(%r14)
	movq	%r15, 8(%r14)
	movb	$6, %al
	jmp	.LBB50_163
.LBB50_10:
	movq	%rcx, %r13
	movq	56(%rsp), %rdi
	cmpq	$1, %rdi
	movq	%rsi, 64(%rsp)
	jne	.LBB50_11
.LBB50_15:
	movq	56(%rsp), %rdi
	shlq	$4, %rdi
	movl	$8, %esi
	callq	rattle_alloc@PLT
	movq	56(%rsp), %rdi
	testb	$1, %al
	je	.LBB50_28
	movq	%r12, 88(%rsp)
	movb	%bpl, %bl
	shll	$12, %ebx
	movq	%r13, %rax
	addq	%rbx, %rax
	movq	%rdx, 16(%rsp)
	movq	$0, 24(%rsp)
	movq	%rdi, 32(%rsp)
	xorl	%ebx, %ebx
	xorl	%r13d, %r13d
	movq	64(%rsp), %rcx
	movq	(%rsp), %r10
	movq	%r14, 96(%rsp)
	jmp	.LBB50_17
	.p2align	4
.LBB50_20:
	movq	%rbx, %rsi
	shlq	$4, %rsi
	movq	%rbp, (%rdx,%rsi)
	movq	%r12, 8(%rdx,%rsi)
	incq	%rbx
	movq	%rbx, 24(%rsp)
	incq	%r13
	cmpq	%r13, %rdi
	je	.LBB50_21
.LBB50_17:
	movq	(%rcx,%r13,8), %rbp
	movq	(%rax,%r13,8), %r12
	cmpq	%rbx, 32(%rsp)
	jne	.LBB50_20
	movq	%rax, %r14
	leaq	16(%rsp), %rdi
	callq	"std_alloc::vec::Vec::grow_amortized::<#8d7f4f0b77b76a1c>"
	testb	%al, %al
	je	.LBB50_26
	movq	16(%rsp), %rdx
	movq	24(%rsp), %rbx
	movq	%r14, %rax
	movq	64(%rsp), %rcx
	movq	96(%rsp), %r14
	movq	(%rsp), %r10
	movq	56(%rsp), %rdi
	jmp	.LBB50_20
.LBB50_11:
	movl	$1, %eax
	.p2align	4
.LBB50_12:
	movq	%rdx, %rcx
	movq	(%rsi,%rax,8), %rdx
	cmpq	%rdx, %rcx
	jg	.LBB50_9
	incq	%rax
	cmpq	%rax, %rdi
	jne	.LBB50_12
	movq	%rdi, %rax
	shrq	$59, %rax
	je	.LBB50_15
.LBB50_28:
	movb	$1, %al
	jmp	.LBB50_29
.LBB50_5:
	movq	24(%rdx,%rax), %rax
	movb	$1, %r8b
	cmpq	$0, 56(%rsp)
	movq	%r10, (%rsp)
	jne	.LBB50_7
.LBB50_164:
	leaq	80(%rsp), %rbp
	movb	$1, 64(%rsp)
	xorl	%ebx, %ebx
	movq	56(%rsp), %rdi
.LBB50_22:
	movq	8(%r15), %rax
	movq	32(%r15), %rdx
	movq	%rax, %rcx
	subq	%rdx, %rcx
	addq	%rcx, %rdi
	jae	.LBB50_30
	xorl	%eax, %eax
	cmpb	$0, 64(%rsp)
	jne	.LBB50_29
.LBB50_25:
	movq	%rbp, %rdi
	movl	%eax, %ebx
	callq	rattle_dealloc@PLT
	movl	%ebx, %eax
.LBB50_29:
	movb	$1, (%r14)
	movl	$0, 1(%r14)
	movl	$0, 4(%r14)
	movq	%r15, 8(%r14)
	orb	$2, %al
	jmp	.LBB50_163
.LBB50_30:
	cmpq	%rax, %rdi
	ja	.LBB50_31
	cmpq	%rbx, %rcx
	movq	%rbp, 72(%rsp)
	ja	.LBB50_70
.LBB50_35:
	testq	%rbx, %rbx
	je	.LBB50_44
	cmpb	$1, 80(%r15)
	jne	.LBB50_40
	movl	84(%r10), %esi
	decq	%rsi
	cmpq	%rax, %rsi
	jae	.LBB50_40
	movq	(%r10), %rdi
	imulq	$56, %rsi, %rsi
	cmpb	$0, (%rdi,%rsi)
	jne	.LBB50_40
	movq	24(%rdi,%rsi), %rsi
	cmpq	(%rbp), %rsi
	jg	.LBB50_70
.LBB50_40:
	cmpq	$1, %rbx
	je	.LBB50_44
	leaq	-1(%rbx), %rsi
	leaq	16(%rbp), %rdi
	.p2align	4
.LBB50_42:
	movq	-16(%rdi), %r8
	cmpq	(%rdi), %r8
	jg	.LBB50_70
	addq	$16, %rdi
	decq	%rsi
	jne	.LBB50_42
.LBB50_44:
	addq	%rbx, %rcx
	jae	.LBB50_45
.LBB50_70:
	movq	%r12, 88(%rsp)
	cmpq	$15, %rbx
	jbe	.LBB50_71
	movq	%rbx, %rdx
	shrq	%rdx
	movq	%rbx, %rsi
	subq	%rdx, %rsi
	shlq	$4, %rsi
	addq	%rbp, %rsi
	movq	%rbp, %rdi
	callq	"core::slice::edits::mirror::<14'(,)::<i64,i64>>"
	movq	(%rsp), %r10
	jmp	.LBB50_105
.LBB50_21:
	movq	16(%rsp), %rbp
	cmpq	$0, 32(%rsp)
	sete	64(%rsp)
	movq	88(%rsp), %r12
	xorl	%r13d, %r13d
	jmp	.LBB50_22
.LBB50_71:
	cmpq	$2, %rbx
	jb	.LBB50_104
	leaq	-2(%rbx), %rcx
	movq	%rcx, %rax
	shrq	%rax
	movq	%rbx, %rdx
	decq	%rdx
	je	.LBB50_74
	shlq	$4, %rdx
	movups	(%rbp), %xmm0
	movaps	%xmm0, 16(%rsp)
	movups	(%rbp,%rdx), %xmm0
	movups	%xmm0, (%rbp)
	movaps	16(%rsp), %xmm0
	movups	%xmm0, (%rbp,%rdx)
.LBB50_74:
	testq	%rax, %rax
	je	.LBB50_104
	cmpq	$1, %rcx
	jbe	.LBB50_76
	shlq	$4, %rcx
	movups	16(%rbp), %xmm0
	movaps	%xmm0, 16(%rsp)
	movups	(%rbp,%rcx), %xmm0
	movups	%xmm0, 16(%rbp)
	movaps	16(%rsp), %xmm0
	movups	%xmm0, (%rbp,%rcx)
	jmp	.LBB50_79
.LBB50_45:
	cmpq	%rax, %rcx
	ja	.LBB50_46
	cmpq	%rbx, %rdx
	jb	.LBB50_50
.LBB50_49:
	testq	%rbx, %rbx
	je	.LBB50_50
	movzbl	80(%r15), %ecx
	movl	84(%r15), %edx
	movq	%rbp, %rax
	jmp	.LBB50_53
.LBB50_54:
	movl	%edx, %esi
.LBB50_61:
	decq	%rbx
	addq	$16, %rax
	movl	%esi, %edx
	testq	%rbx, %rbx
	je	.LBB50_62
.LBB50_53:
	movq	32(%r15), %rsi
	testq	%rsi, %rsi
	je	.LBB50_54
	xorl	%edi, %edi
	cmpb	$1, %cl
	cmovel	%edx, %edi
	movq	48(%r10), %r8
	leaq	-1(%rsi), %r9
	movups	(%rax), %xmm0
	movq	%r9, 32(%r15)
	movq	(%r10), %r9
	movq	24(%r10), %r10
	movl	-4(%r10,%rsi,4), %esi
	imulq	$56, %rsi, %r10
	movzbl	-56(%r9,%r10), %r11d
	movq	$0, -56(%r9,%r10)
	movq	%r8, -48(%r9,%r10)
	movq	$0, -40(%r9,%r10)
	movups	%xmm0, -32(%r9,%r10)
	movl	$0, -16(%r9,%r10)
	movb	$1, -12(%r9,%r10)
	movw	$0, -11(%r9,%r10)
	movb	$0, -9(%r9,%r10)
	movl	%edi, -8(%r9,%r10)
	movl	$0, -4(%r9,%r10)
	cmpb	$1, %r11b
	jne	.LBB50_129
	cmpb	$1, %cl
	jne	.LBB50_59
	movq	(%rsp), %r10
	movq	(%r10), %rcx
	movl	%edx, %edx
	imulq	$56, %rdx, %rdx
	cmpb	$0, -56(%rcx,%rdx)
	jne	.LBB50_129
	movl	%esi, -4(%rcx,%rdx)
	jmp	.LBB50_60
.LBB50_59:
	movq	(%rsp), %r10
	movl	$1, 72(%r10)
	movl	%esi, 76(%r10)
.LBB50_60:
	movl	$1, 80(%r15)
	movl	%esi, 84(%r15)
	movb	$1, %cl
	jmp	.LBB50_61
.LBB50_76:
	testq	%rcx, %rcx
	jne	.LBB50_79
	movups	(%rbp), %xmm0
	movaps	%xmm0, 16(%rsp)
	movups	16(%rbp), %xmm0
	movups	%xmm0, (%rbp)
	movaps	16(%rsp), %xmm0
	movups	%xmm0, 16(%rbp)
.LBB50_79:
	cmpq	$1, %rax
	je	.LBB50_104
	leaq	-3(%rbx), %rcx
	cmpq	$2, %rcx
	jbe	.LBB50_81
	shlq	$4, %rcx
	movups	32(%rbp), %xmm0
	movaps	%xmm0, 16(%rsp)
	movups	(%rbp,%rcx), %xmm0
	movups	%xmm0, 32(%rbp)
	movaps	16(%rsp), %xmm0
	movups	%xmm0, (%rbp,%rcx)
	jmp	.LBB50_84
.LBB50_62:
	cmpb	$0, 64(%rsp)
	jne	.LBB50_64
	movq	%rbp, %rdi
	callq	rattle_dealloc@PLT
	movq	(%rsp), %r10
.LBB50_64:
	leaq	88(%r15), %rsi
	movq	%r10, %rdi
	callq	"ord_tree::tree::rebuild::rebuild_over::<#ba2297c2b7121456>"
	jmp	.LBB50_65
.LBB50_31:
	movq	%r12, %r13
	movq	64(%r10), %rcx
	movl	$4294967294, %edx
	cmpq	%rdx, %rcx
	cmovaeq	%rdx, %rcx
	cmpb	$1, 56(%r10)
	cmovneq	%rdx, %rcx
	leaq	(%rax,%rax), %rdx
	cmpq	$5, %rdx
	movl	$4, %esi
	cmovaeq	%rdx, %rsi
	cmpq	%rcx, %rsi
	cmovaeq	%rcx, %rsi
	testq	%rax, %rax
	cmovsq	%rcx, %rsi
	cmpq	%rdi, %rsi
	cmovbeq	%rdi, %rsi
	movq	%r10, %rdi
	movq	%r10, %r12
	callq	"chain_base::chain::ChainArena::reallocate_min_capacity::<#1897f9e7b5ba150b>"
	testb	%al, %al
	je	.LBB50_33
	movl	%edx, %eax
	cmpb	$0, 64(%rsp)
	je	.LBB50_25
	jmp	.LBB50_29
.LBB50_81:
	je	.LBB50_84
	shlq	$4, %rcx
	movups	(%rbp,%rcx), %xmm0
	movaps	%xmm0, 16(%rsp)
	movups	32(%rbp), %xmm0
	movups	%xmm0, (%rbp,%rcx)
	movaps	16(%rsp), %xmm0
	movups	%xmm0, 32(%rbp)
.LBB50_84:
	cmpq	$2, %rax
	je	.LBB50_104
	leaq	-4(%rbx), %rcx
	cmpq	$3, %rcx
	jbe	.LBB50_86
	shlq	$4, %rcx
	movups	48(%rbp), %xmm0
	movaps	%xmm0, 16(%rsp)
	movups	(%rbp,%rcx), %xmm0
	movups	%xmm0, 48(%rbp)
	movaps	16(%rsp), %xmm0
	movups	%xmm0, (%rbp,%rcx)
	jmp	.LBB50_89
.LBB50_26:
	cmpq	$0, 32(%rsp)
	movq	96(%rsp), %r14
	je	.LBB50_28
	movq	16(%rsp), %rdi
	callq	rattle_dealloc@PLT
	jmp	.LBB50_28
.LBB50_33:
	movq	8(%r15), %rax
	movq	32(%r15), %rdx
	movq	%rax, %rcx
	subq	%rdx, %rcx
	movq	%r12, %r10
	movq	%r13, %r12
	xorl	%r13d, %r13d
	cmpq	%rbx, %rcx
	movq	%rbp, 72(%rsp)
	jbe	.LBB50_35
	jmp	.LBB50_70
.LBB50_86:
	je	.LBB50_89
	shlq	$4, %rcx
	movups	(%rbp,%rcx), %xmm0
	movaps	%xmm0, 16(%rsp)
	movups	48(%rbp), %xmm0
	movups	%xmm0, (%rbp,%rcx)
	movaps	16(%rsp), %xmm0
	movups	%xmm0, 48(%rbp)
.LBB50_89:
	cmpq	$3, %rax
	je	.LBB50_104
	leaq	-5(%rbx), %rcx
	cmpq	$4, %rcx
	jbe	.LBB50_91
	shlq	$4, %rcx
	movups	64(%rbp), %xmm0
	movaps	%xmm0, 16(%rsp)
	movups	(%rbp,%rcx), %xmm0
	movups	%xmm0, 64(%rbp)
	movaps	16(%rsp), %xmm0
	movups	%xmm0, (%rbp,%rcx)
	jmp	.LBB50_94
.LBB50_46:
	movq	64(%r10), %rdx
	movl	$4294967294, %esi
	cmpq	%rsi, %rdx
	cmovaeq	%rsi, %rdx
	cmpb	$1, 56(%r10)
	cmovneq	%rsi, %rdx
	leaq	(%rax,%rax), %rdi
	cmpq	$5, %rdi
	movl	$4, %esi
	cmovaeq	%rdi, %rsi
	cmpq	%rdx, %rsi
	cmovaeq	%rdx, %rsi
	testq	%rax, %rax
	cmovsq	%rdx, %rsi
	cmpq	%rcx, %rsi
	cmovbeq	%rcx, %rsi
	movq	%r10, %rdi
	callq	"chain_base::chain::ChainArena::reallocate_min_capacity::<#1897f9e7b5ba150b>"
	movq	(%rsp), %r10
	testb	%al, %al
	jne	.LBB50_70
	movq	32(%r15), %rdx
	cmpq	%rbx, %rdx
	jae	.LBB50_49
.LBB50_50:
	cmpb	$0, 64(%rsp)
	je	.LBB50_51
	jmp	.LBB50_66
.LBB50_91:
	je	.LBB50_94
	shlq	$4, %rcx
	movups	(%rbp,%rcx), %xmm0
	movaps	%xmm0, 16(%rsp)
	movups	64(%rbp), %xmm0
	movups	%xmm0, (%rbp,%rcx)
	movaps	16(%rsp), %xmm0
	movups	%xmm0, 64(%rbp)
.LBB50_94:
	cmpq	$4, %rax
	je	.LBB50_104
	leaq	-6(%rbx), %rcx
	cmpq	$5, %rcx
	jbe	.LBB50_96
	shlq	$4, %rcx
	movups	80(%rbp), %xmm0
	movaps	%xmm0, 16(%rsp)
	movups	(%rbp,%rcx), %xmm0
	movups	%xmm0, 80(%rbp)
	movaps	16(%rsp), %xmm0
	movups	%xmm0, (%rbp,%rcx)
	jmp	.LBB50_99
.LBB50_96:
	je	.LBB50_99
	shlq	$4, %rcx
	movups	(%rbp,%rcx), %xmm0
	movaps	%xmm0, 16(%rsp)
	movups	80(%rbp), %xmm0
	movups	%xmm0, (%rbp,%rcx)
	movaps	16(%rsp), %xmm0
	movups	%xmm0, 80(%rbp)
.LBB50_99:
	cmpq	$5, %rax
	je	.LBB50_104
	leaq	-7(%rbx), %rax
	cmpq	$6, %rax
	jbe	.LBB50_101
	shlq	$4, %rax
	movups	96(%rbp), %xmm0
	movaps	%xmm0, 16(%rsp)
	movups	(%rbp,%rax), %xmm0
	movups	%xmm0, 96(%rbp)
	movaps	16(%rsp), %xmm0
	movups	%xmm0, (%rbp,%rax)
	jmp	.LBB50_104
.LBB50_101:
	je	.LBB50_104
	shlq	$4, %rax
	movups	(%rbp,%rax), %xmm0
	movaps	%xmm0, 16(%rsp)
	movups	96(%rbp), %xmm0
	movups	%xmm0, (%rbp,%rax)
	movaps	16(%rsp), %xmm0
	movups	%xmm0, 96(%rbp)
.LBB50_104:
	testq	%rbx, %rbx
	je	.LBB50_132
.LBB50_105:
	movq	%rbx, %rbp
	shlq	$4, %rbp
	movq	72(%rsp), %rax
	leaq	(%rax,%rbp), %r12
	addq	$-16, %r12
	leaq	-1(%rbx), %r13
	addq	%rax, %rbp
	.p2align	4
.LBB50_106:
	cmpb	$1, 80(%r15)
	movq	8(%r15), %rax
	jne	.LBB50_118
	movl	84(%r10), %ecx
	decq	%rcx
	cmpq	%rax, %rcx
	jae	.LBB50_118
	movq	(%r10), %rdx
	imulq	$56, %rcx, %rcx
	cmpb	$0, (%rdx,%rcx)
	jne	.LBB50_118
	movq	24(%rdx,%rcx), %rcx
	cmpq	(%r12), %rcx
	jg	.LBB50_110
	.p2align	4
.LBB50_118:
	movq	%rax, %rcx
	subq	32(%r15), %rcx
	incq	%rcx
	je	.LBB50_121
	cmpq	%rax, %rcx
	ja	.LBB50_120
.LBB50_130:
	movq	(%r12), %rdx
	movq	8(%r12), %rcx
	xorps	%xmm0, %xmm0
	movaps	%xmm0, 32(%rsp)
	movaps	%xmm0, 16(%rsp)
	leaq	16(%rsp), %rdi
	movq	%r10, %rsi
	callq	"sorted_arena::arena::SortedArena::insert::<#1599bed149cb2453>"
	cmpb	$0, 16(%rsp)
	jne	.LBB50_129
	addq	$-16, %r12
	addq	$-16, %rbp
	decq	%rbx
	addq	$-1, %r13
	movq	(%rsp), %r10
	jb	.LBB50_106
	jmp	.LBB50_132
.LBB50_120:
	movq	64(%r10), %rdx
	movl	$4294967294, %edi
	cmpq	%rdi, %rdx
	cmovbq	%rdx, %rdi
	cmpb	$1, 56(%r10)
	movl	$4294967294, %edx
	cmovneq	%rdx, %rdi
	leaq	(%rax,%rax), %rdx
	cmpq	$5, %rdx
	movl	$4, %esi
	cmovaeq	%rdx, %rsi
	cmpq	%rdi, %rsi
	cmovaeq	%rdi, %rsi
	testq	%rax, %rax
	cmovsq	%rdi, %rsi
	cmpq	%rcx, %rsi
	cmovbeq	%rcx, %rsi
	movq	%r10, %rdi
	callq	"chain_base::chain::ChainArena::reallocate_min_capacity::<#1897f9e7b5ba150b>"
	movq	(%rsp), %r10
	cmpb	$1, %al
	jne	.LBB50_130
.LBB50_121:
	leaq	1(%r13), %rdx
	cmpq	$15, %rdx
	jbe	.LBB50_122
.LBB50_133:
	shrq	%rdx
	shlq	$3, %rbx
	andq	$-16, %rbx
	subq	%rbx, %rbp
	movq	72(%rsp), %rdi
	movq	%rbp, %rsi
	callq	"core::slice::edits::mirror::<14'(,)::<i64,i64>>"
	ud2
.LBB50_132:
	cmpb	$0, 64(%rsp)
	movq	88(%rsp), %r12
	movl	$0, %r13d
	jne	.LBB50_66
.LBB50_51:
	movq	72(%rsp), %rdi
	callq	rattle_dealloc@PLT
.LBB50_65:
	movq	(%rsp), %r10
.LBB50_66:
	cmpb	$1, 72(%r10)
	movq	8(%r15), %rdi
	jne	.LBB50_69
	movl	76(%r10), %ecx
	movl	%ecx, %edx
	decq	%rdx
	cmpq	%rdi, %rdx
	jae	.LBB50_69
	movq	(%r10), %rax
	imulq	$56, %rdx, %rsi
	cmpb	$0, (%rax,%rsi)
	je	.LBB50_134
.LBB50_69:
	movq	%rdi, %rdx
	subq	32(%r15), %rdx
	xorl	%esi, %esi
	xorl	%r8d, %r8d
	xorl	%ecx, %ecx
	cmpq	$0, 56(%rsp)
	je	.LBB50_162
.LBB50_136:
	movzbl	15(%rsp), %eax
	movb	%al, %r13b
	shll	$12, %r13d
	movq	160(%rsp), %rax
	movq	(%rsp), %r9
	cmpb	$1, 96(%r9)
	jne	.LBB50_145
	movl	$4294967294, %ecx
	movq	56(%rsp), %r8
	leaq	-1(%r8), %rdi
	shlq	$4, %r8
	addq	%r8, %r13
	leaq	(%r12,%r13), %r8
	addq	$-8, %r8
	addq	%rsi, %rdx
	jmp	.LBB50_138
	.p2align	4
.LBB50_144:
	addq	$-16, %r8
	movq	%r9, %rdx
	addq	$-1, %rdi
	jae	.LBB50_162
.LBB50_138:
	subq	$1, %rsi
	jb	.LBB50_162
	leaq	-1(%rdx), %r9
	cmpq	%rcx, %r9
	jae	.LBB50_129
	movl	%edx, %r11d
	decq	%r11
	cmpq	8(%r15), %r11
	jae	.LBB50_129
	movq	(%rsp), %r10
	movq	(%r10), %r10
	imulq	$56, %r11, %r11
	cmpb	$0, (%r10,%r11)
	jne	.LBB50_129
	cmpq	%rax, %rdi
	jae	.LBB50_144
	movq	8(%r10,%r11), %r10
	movl	%edx, -8(%r8)
	movl	$0, -4(%r8)
	movq	%r10, (%r8)
	jmp	.LBB50_144
.LBB50_145:
	testb	%r8b, %r8b
	je	.LBB50_162
	cmpb	$1, 80(%r15)
	jne	.LBB50_162
	movq	(%rsp), %rdx
	movl	84(%rdx), %edx
	leaq	-1(%rdx), %r8
	cmpq	%rdi, %r8
	jae	.LBB50_162
	movq	(%rsp), %rsi
	movq	(%rsi), %rsi
	imulq	$56, %r8, %rdi
	cmpb	$0, (%rsi,%rdi)
	jne	.LBB50_162
	movq	56(%rsp), %r8
	decq	%r8
	cmpq	%rax, %r8
	jae	.LBB50_151
	leaq	(%r12,%r13), %r9
	movq	8(%rsi,%rdi), %rsi
	shlq	$4, %r8
	movl	%edx, (%r9,%r8)
	movl	$0, 4(%r9,%r8)
	movq	%rsi, 8(%r9,%r8)
.LBB50_151:
	cmpq	$1, 56(%rsp)
	je	.LBB50_162
	movq	56(%rsp), %rdi
	leaq	-2(%rdi), %rsi
	shlq	$4, %rdi
	addq	%rdi, %r13
	leaq	(%r12,%r13), %rdi
	addq	$-24, %rdi
	jmp	.LBB50_153
.LBB50_134:
	movq	%rdi, %rsi
	subq	32(%r15), %rsi
	xorl	%eax, %eax
	testl	%ecx, %ecx
	cmoveq	%rax, %rdx
	subq	%rdx, %rsi
	cmovbq	%rax, %rsi
	movb	$1, %r8b
	cmpq	$0, 56(%rsp)
	jne	.LBB50_136
.LBB50_162:
	movb	$1, (%r14)
	movl	$0, 1(%r14)
	movl	$0, 4(%r14)
	movq	%r15, 8(%r14)
	xorl	%eax, %eax
.LBB50_163:
	addq	$104, %rsp
	.cfi_def_cfa_offset 56
	popq	%rbx
	.cfi_def_cfa_offset 48
	popq	%r12
	.cfi_def_cfa_offset 40
	popq	%r13
	.cfi_def_cfa_offset 32
	popq	%r14
	.cfi_def_cfa_offset 24
	popq	%r15
	.cfi_def_cfa_offset 16
	popq	%rbp
	.cfi_def_cfa_offset 8
	retq
.LBB50_161:
	.cfi_def_cfa_offset 160
	addq	$-16, %rdi
	addq	$-1, %rsi
	jae	.LBB50_162
.LBB50_153:
	cmpl	%edx, %ecx
	je	.LBB50_162
	movq	8(%r15), %r9
	movl	%edx, %edx
	decq	%rdx
	cmpq	%r9, %rdx
	jae	.LBB50_162
	movq	(%rsp), %r8
	movq	(%r8), %r8
	imulq	$56, %rdx, %rdx
	cmpb	$0, (%r8,%rdx)
	jne	.LBB50_162
	movl	48(%r8,%rdx), %edx
	testq	%rdx, %rdx
	je	.LBB50_162
	leaq	-1(%rdx), %r10
	cmpq	%r9, %r10
	jae	.LBB50_129
	imulq	$56, %r10, %r9
	cmpb	$0, (%r8,%r9)
	jne	.LBB50_129
	cmpq	%rax, %rsi
	jae	.LBB50_161
	movq	8(%r8,%r9), %r8
	movl	%edx, -8(%rdi)
	movl	$0, -4(%rdi)
	movq	%r8, (%rdi)
	jmp	.LBB50_161
.LBB50_122:
	testq	%r13, %r13
	movq	72(%rsp), %rdx
	jne	.LBB50_123
.LBB50_129:
	ud2
.LBB50_123:
	leaq	-1(%r13), %rax
	shrq	%rax
	incq	%rax
	xorl	%ecx, %ecx
	jmp	.LBB50_124
	.p2align	4
.LBB50_125:
	movups	(%rdx), %xmm0
	movaps	%xmm0, 16(%rsp)
	movups	(%r12), %xmm0
	movups	%xmm0, (%rdx)
	movaps	16(%rsp), %xmm0
	movups	%xmm0, (%r12)
.LBB50_128:
	incq	%rcx
	addq	$16, %rdx
	addq	$-16, %r12
	decq	%r13
	cmpq	%rcx, %rax
	je	.LBB50_129
.LBB50_124:
	cmpq	%r13, %rcx
	jb	.LBB50_125
	jbe	.LBB50_128
	movups	(%r12), %xmm0
	movaps	%xmm0, 16(%rsp)
	movups	(%rdx), %xmm0
	movups	%xmm0, (%r12)
	movaps	16(%rsp), %xmm0
	movups	%xmm0, (%rdx)
	jmp	.LBB50_128
.LBB50_110:
	leaq	1(%r13), %rdx
	cmpq	$15, %rdx
	ja	.LBB50_133
	testq	%r13, %r13
	movq	72(%rsp), %rdx
	je	.LBB50_129
	leaq	-1(%r13), %rax
	shrq	%rax
	incq	%rax
	xorl	%ecx, %ecx
	jmp	.LBB50_113
.LBB50_114:
	movups	(%rdx), %xmm0
	movaps	%xmm0, 16(%rsp)
	movups	(%r12), %xmm0
	movups	%xmm0, (%rdx)
	movaps	16(%rsp), %xmm0
	movups	%xmm0, (%r12)
.LBB50_117:
	incq	%rcx
	addq	$16, %rdx
	addq	$-16, %r12
	decq	%r13
	cmpq	%rcx, %rax
	je	.LBB50_129
.LBB50_113:
	cmpq	%r13, %rcx
	jb	.LBB50_114
	jbe	.LBB50_117
	movups	(%r12), %xmm0
	movaps	%xmm0, 16(%rsp)
	movups	(%rdx), %xmm0
	movups	%xmm0, (%r12)
	movaps	16(%rsp), %xmm0
	movups	%xmm0, (%rdx)
	jmp	.LBB50_117
.Lfunc_end50:
	.size	topscedar_arena_extend_sorted, .Lfunc_end50-topscedar_arena_extend_sorted
	.cfi_endproc

	.ident	"rattle logic=dac8208d650f15bf3e2dc313a14fa4c783a3acf887bdfab66e1714b038d9e11b"
	.section	".note.GNU-stack","",@progbits
#	.addrsig
