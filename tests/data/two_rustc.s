.capacity 2
.mode weak
.array ring 1
.push
	.cfi_startproc
	mov	rcx, qword ptr [rdi + 8]
	mov	rdx, qword ptr [rdi]
	mov	rax, rcx
	sub	rax, rdx
	cmp	rax, 2
	je	.LBB1_2
	mov	edx, ecx
	and	edx, 1
	mov	qword ptr [rdi + 8*rdx + 16], rsi
	inc	rcx
	mov	qword ptr [rdi + 8], rcx
	lock		or	dword ptr [rsp - 64], 0
.LBB1_2:
	cmp	rax, 2
	setne	al
	ret
.end
.pop
	.cfi_startproc
	mov	rax, qword ptr [rdi]
	mov	rcx, qword ptr [rdi + 8]
	cmp	rax, rcx
	jne	.LBB0_2
	xor	eax, eax
	ret
.LBB0_2:
	mov	ecx, eax
	and	ecx, 1
	mov	rdx, qword ptr [rdi + 8*rcx + 16]
	inc	rax
	xchg	qword ptr [rdi], rax
	mov	eax, 1
	ret
.end
.thread push 1
.thread pop
