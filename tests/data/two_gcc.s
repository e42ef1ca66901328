.capacity 2
.mode weak
.array q 1
.array count 1
.push
	mov	rax, QWORD PTR q[rip+64]
	mov	rdx, QWORD PTR q[rip]
	mov	rcx, rax
	sub	rcx, rdx
	xor	edx, edx
	cmp	rcx, 2
	je	.L1
	mov	rcx, rax
	lea	rdx, q[rip]
	and	ecx, 1
	mov	QWORD PTR 72[rdx+rcx*8], rdi
	lock add	DWORD PTR count[rip], 1
	add	rax, 1
#APP
# 14 "two.c" 1
	movq rax, QWORD PTR q[rip+64]
# 0 "" 2
#NO_APP
	lock or	QWORD PTR [rsp], 0
	mov	edx, 1
.L1:
	mov	eax, edx
	ret
.end
.pop
	push	r13
	xor	eax, eax
	push	r12
	push	rbp
	push	rbx
	sub	rsp, 8
	mov	rbp, QWORD PTR [rdi]
	mov	rdx, QWORD PTR 64[rdi]
	cmp	rbp, rdx
	je	.L6
	mov	rax, rbp
	mov	r12, rsi
	mov	rbx, rdi
	add	rbp, 1
	and	eax, 1
	mov	r13, QWORD PTR 72[rdi+rax*8]
	mov	rdi, r13
	call	note@PLT
	mov	QWORD PTR [r12], r13
	xchg	rbp, QWORD PTR [rbx]
	cmp	r13, 7
	setne	al
.L6:
	add	rsp, 8
	pop	rbx
	pop	rbp
	pop	r12
	pop	r13
	ret
.end
.thread push 1
.thread pop
