.capacity 2
.mode weak
.array q 1
.array count 1
.push
# %bb.0:
	mov	rcx, qword ptr [rip + q+64]
	mov	rdx, qword ptr [rip + q]
	mov	rax, rcx
	sub	rax, rdx
	cmp	rax, 2
	je	.LBB0_2
# %bb.1:
	mov	edx, ecx
	and	edx, 1
	lea	rsi, [rip + q]
	mov	qword ptr [rsi + 8*rdx + 72], rdi
	lock		add	dword ptr [rip + count], 1
	add	rcx, 1
	mov	qword ptr [rip + q+64], rcx
	mfence
.LBB0_2:
	cmp	rax, 2
	setne	al
	ret
.end
.pop
# %bb.0:
	push	r15
	push	r14
	push	r12
	push	rbx
	push	rax
	mov	rbx, qword ptr [rdi]
	mov	rax, qword ptr [rdi + 64]
	cmp	rbx, rax
	jne	.LBB1_2
# %bb.1:
	xor	eax, eax
	jmp	.LBB1_3
.LBB1_2:
	mov	r14, rsi
	mov	r12, rdi
	mov	eax, ebx
	and	eax, 1
	mov	r15, qword ptr [rdi + 8*rax + 72]
	mov	rdi, r15
	call	note@PLT
	mov	qword ptr [r14], r15
	add	rbx, 1
	xchg	qword ptr [r12], rbx
	cmp	r15, 7
	setne	al
.LBB1_3:
                                        # kill: def $al killed $al killed $eax
	add	rsp, 8
	pop	rbx
	pop	r12
	pop	r14
	pop	r15
	ret
.end
.thread push 1
.thread pop
