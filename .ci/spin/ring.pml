/* queues/vyukov_weak.tso with 'push 1, push 2 | push 3 | pop, pop' on x86-TSO.
   LEVEL 0: one transition per memory access, drain, begin and return.  1: begin joined with the first access, return with the last.
   2: stores into the own buffer joined with the step before them too.  Registers, flags, branches are joined at each level. */
#ifndef LEVEL
#define LEVEL 2
#endif
#if LEVEL >= 1	/* or by themselves, by -DLEVEL=0 -DJOINB ..: begin, return, stores */
#define JOINB
#define JOINR
#endif
#if LEVEL >= 2
#define JOINS
#endif
#ifndef JOINS
#define JS ; } ; d_step {
#else
#define JS ;
#endif
#ifndef JOINR
#define JR ; } ; d_step {
#else
#define JR ;
#endif
#define ENQ 1
#define DEQ 2
#define SEQ 3
#define DATA 5
c_decl {
\#define NC 5
static const unsigned char VAL[NC] = {1, 2, 3, 0, 0};
\#include "order.h"
}
byte m[7] = {0, 0, 0, 0, 1, 0, 0};	/* enq deq seq0 seq1 data0 data1 at 1 to 6 */
byte e0[3], e1[3];			/* store buffers: place<<4 | value, oldest first; 0: none */
byte seen[5], ans[5], ret;		/* the calls: 0, 1 of thread 0; 2 of thread 1; 3, 4 of thread 2 */

#define LOAD(t,p) ((e1[t]>>4) == (p) -> (e1[t]&15) : ((e0[t]>>4) == (p) -> (e0[t]&15) : m[p]))
#define STORE(t,p,v) if :: e0[t] == 0 -> e0[t] = ((p)<<4) | (v) :: else -> e1[t] = ((p)<<4) | (v) fi
#define BEGIN(k) seen[k] = ret | (1<<k)
#define RETURN(k,a) ans[k] = a; ret = ret | (1<<k); c_code [lin_ok(now.seen, now.ans, now.ret)] { ; }

#ifndef JOINB
#define FIRST(t,k,p) if :: d_step { BEGIN(k) } fi; A_##k: if :: d_step { rcx = LOAD(t,p) } fi;
#else
#define FIRST(t,k,p) if :: d_step { BEGIN(k); rcx = LOAD(t,p) } -> goto S_##k fi; A_##k: if :: d_step { rcx = LOAD(t,p) } fi; S_##k:
#endif
#ifndef JOINR
#define NOW(k)
#else
#define NOW(k) ; RETURN(k,1)
#endif
#define AT(t,p) LOAD(t,(p)+(rcx&1))
#ifdef SWAPPED	/* wrong: the slot is published before its datum is stored */
#define PUBLISH(t,v) STORE(t,SEQ+(rcx&1),rcx+1) JS STORE(t,DATA+(rcx&1),v)
#else
#define PUBLISH(t,v) STORE(t,DATA+(rcx&1),v) JS STORE(t,SEQ+(rcx&1),rcx+1)
#endif

#define PUSH(t,k,v) \
	FIRST(t,k,ENQ) \
	if \
	:: d_step { AT(t,SEQ) < rcx -> rcx = 0; c1 = 0; c2 = 0 NOW(k) } -> goto R_##k \
	:: d_step { AT(t,SEQ) > rcx && c1 < 2 -> rcx = 0; c1++ } -> goto A_##k \
	:: d_step { AT(t,SEQ) > rcx && c1 == 2 -> rcx = 0; c1 = 0; c2 = 0 } -> goto stop \
	:: d_step { AT(t,SEQ) == rcx -> skip } \
	fi; \
	if \
	:: d_step { e0[t] == 0 && m[ENQ] == rcx -> m[ENQ] = rcx+1; c1 = 0; c2 = 0 JS PUBLISH(t,v); rcx = 0 JR RETURN(k,2) } -> goto N_##k \
	:: d_step { e0[t] == 0 && m[ENQ] != rcx && c2 < 2 -> rcx = 0; c2++ } -> goto A_##k \
	:: d_step { e0[t] == 0 && m[ENQ] != rcx && c2 == 2 -> rcx = 0; c1 = 0; c2 = 0 } -> goto stop \
	fi; \
R_##k: \
	REFUSEAT(k) \
N_##k:

#ifndef JOINR
#define REFUSEAT(k) if :: d_step { RETURN(k,1) } fi;
#else
#define REFUSEAT(k)
#endif

#define POP(t,k) \
	FIRST(t,k,DEQ) \
	if \
	:: d_step { AT(t,SEQ) < rcx+1 -> rcx = 0; c1 = 0; c2 = 0 NOW(k) } -> goto R_##k \
	:: d_step { AT(t,SEQ) > rcx+1 && c1 < 2 -> rcx = 0; c1++ } -> goto A_##k \
	:: d_step { AT(t,SEQ) > rcx+1 && c1 == 2 -> rcx = 0; c1 = 0; c2 = 0 } -> goto stop \
	:: d_step { AT(t,SEQ) == rcx+1 -> skip } \
	fi; \
	if \
	:: d_step { e0[t] == 0 && m[DEQ] == rcx -> m[DEQ] = rcx+1; c1 = 0; c2 = 0 } \
	:: d_step { e0[t] == 0 && m[DEQ] != rcx && c2 < 2 -> rcx = 0; c2++ } -> goto A_##k \
	:: d_step { e0[t] == 0 && m[DEQ] != rcx && c2 == 2 -> rcx = 0; c1 = 0; c2 = 0 } -> goto stop \
	fi; \
	if :: d_step { true -> rdx = AT(t,DATA) JS STORE(t,SEQ+(rcx&1),rcx+2); rcx = 0 JR RETURN(k,2+rdx); rdx = 0 } -> goto N_##k fi; \
R_##k: \
	REFUSEAT(k) \
N_##k:

active proctype T0() {
	byte rcx, c1, c2;
	PUSH(0,0,1)
	PUSH(0,1,2)
stop: end: false
}
active proctype T1() {
	byte rcx, c1, c2;
	PUSH(1,2,3)
stop: end: false
}
active proctype T2() {
	byte rcx, c1, c2, rdx;
	POP(2,3)
	POP(2,4)
stop: end: false
}
#define DRAIN(t) d_step { e0[t] != 0 -> m[e0[t]>>4] = e0[t]&15; e0[t] = e1[t]; e1[t] = 0 }
active proctype Drain() {
end:	do
	:: DRAIN(0)
	:: DRAIN(1)
	:: DRAIN(2)
	od
}
