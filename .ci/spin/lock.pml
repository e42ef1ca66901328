/* queues/spin.tso with 'push 7, push 8 | pop, pop | push 9' on x86-TSO. LEVEL as in ring.pml.
   -DEARLY: the lock is given back before tail is stored. -DNOLOCK: the lock is taken by a load, a store and a fence. Compile pan with -DSTRICT=1. */
#ifndef LEVEL
#define LEVEL 2
#endif
#if LEVEL >= 1	/* or by themselves, by -DLEVEL=0 -DJOINB ..: begin, return, stores */
#define JOINB
#define JOINR
#endif
#if LEVEL >= 2
#define JOINS
#endif
#ifndef JOINS
#define JS ; } ; d_step {
#else
#define JS ;
#endif
#ifndef JOINR
#define JR ; } ; d_step {
#else
#define JR ;
#endif
#define HELD 1
#define HEAD 2
#define TAIL 3
#define BUF 4
#ifdef SEVEN	/* the text with bound 0 and 'push 7, push 8 | push 9, push 10 | pop, pop, pop' */
#define CALLS 7
#define BOUND 0
c_decl {
\#define NC 7
static const unsigned char VAL[NC] = {7, 8, 9, 10, 0, 0, 0};
\#include "order.h"
}
#else
#define CALLS 5
#define BOUND 1
c_decl {
\#define NC 5
static const unsigned char VAL[NC] = {7, 8, 0, 0, 9};
\#include "order.h"
}
#endif
byte m[6];				/* held head tail buf0 buf1 at 1 to 5 */
byte e0[3], e1[3], e2[3];		/* store buffers: place<<4 | value, oldest first; 0: none */
byte seen[CALLS], ans[CALLS], ret;	/* the calls, thread by thread */

#define LOAD(t,p) ((e2[t]>>4) == (p) -> (e2[t]&15) : ((e1[t]>>4) == (p) -> (e1[t]&15) : ((e0[t]>>4) == (p) -> (e0[t]&15) : m[p])))
#define STORE(t,p,v) if :: e0[t] == 0 -> e0[t] = ((p)<<4) | (v) :: e0[t] != 0 && e1[t] == 0 -> e1[t] = ((p)<<4) | (v) :: else -> e2[t] = ((p)<<4) | (v) fi
#define BEGIN(k) seen[k] = ret | (1<<k)
#define RETURN(k,a) ans[k] = a; ret = ret | (1<<k); c_code [lin_ok(now.seen, now.ans, now.ret)] { ; }

#ifndef JOINB
#define BEGINS(k) if :: d_step { BEGIN(k) } fi;
#define TOOK(t,k)
#else
#define BEGINS(k)
#define TOOK(t,k) if :: seen[k] == 0 -> BEGIN(k) :: else fi;
#endif
#ifdef NOLOCK
#define OLD byte old;
#define TRY(t,k) \
	if :: d_step { TOOK(t,k) old = LOAD(t,HELD) JS STORE(t,HELD,1) } fi; \
	if \
	:: d_step { e0[t] == 0 && old == 0 -> c1 = 0 } \
	:: d_step { e0[t] == 0 && old == 1 && c1 < BOUND -> c1++; old = 0 } -> goto A_##k \
	:: d_step { e0[t] == 0 && old == 1 && c1 == BOUND -> c1 = 0; old = 0 } -> goto stop \
	fi;
#else
#define OLD
#define TRY(t,k) \
	if \
	:: d_step { e0[t] == 0 && m[HELD] == 0 -> TOOK(t,k) m[HELD] = 1; c1 = 0 } \
	:: d_step { e0[t] == 0 && m[HELD] == 1 && c1 < BOUND -> TOOK(t,k) c1++ } -> goto A_##k \
	:: d_step { e0[t] == 0 && m[HELD] == 1 && c1 == BOUND -> TOOK(t,k) c1 = 0 } -> goto stop \
	fi;
#endif
#ifdef EARLY
#define DONE(t,p,v) STORE(t,HELD,0) JS STORE(t,p,v)
#else
#define DONE(t,p,v) STORE(t,p,v) JS STORE(t,HELD,0)
#endif

#define PUSH(t,k,v) \
	BEGINS(k) \
A_##k: \
	TRY(t,k) \
	if :: d_step { rcx = LOAD(t,TAIL) } fi; \
	if \
	:: d_step { rcx - LOAD(t,HEAD) != 2 -> skip JS STORE(t,BUF+(rcx&1),v) JS DONE(t,TAIL,rcx+1); rcx = 0 JR RETURN(k,2) } \
	:: d_step { rcx - LOAD(t,HEAD) == 2 -> rcx = 0 JS STORE(t,HELD,0) JR RETURN(k,1) } \
	fi;
#define POP(t,k) \
	BEGINS(k) \
A_##k: \
	TRY(t,k) \
	if :: d_step { rcx = LOAD(t,HEAD) } fi; \
	if \
	:: d_step { rcx != LOAD(t,TAIL) -> skip } \
	:: d_step { rcx == LOAD(t,TAIL) -> rcx = 0 JS STORE(t,HELD,0) JR RETURN(k,1) } -> goto N_##k \
	fi; \
	if :: d_step { true -> rdx = LOAD(t,BUF+(rcx&1)) JS DONE(t,HEAD,rcx+1); rcx = 0 JR RETURN(k,2+rdx); rdx = 0 } fi; \
N_##k:

active proctype T0() {
	byte rcx, c1; OLD
	PUSH(0,0,7)
	PUSH(0,1,8)
stop: end: false
}
#ifdef SEVEN
active proctype T1() {
	byte rcx, c1; OLD
	PUSH(1,2,9)
	PUSH(1,3,10)
stop: end: false
}
active proctype T2() {
	byte rcx, c1, rdx; OLD
	POP(2,4)
	POP(2,5)
	POP(2,6)
stop: end: false
}
#else
active proctype T1() {
	byte rcx, c1, rdx; OLD
	POP(1,2)
	POP(1,3)
stop: end: false
}
active proctype T2() {
	byte rcx, c1; OLD
	PUSH(2,4,9)
stop: end: false
}
#endif
#define DRAIN(t) d_step { e0[t] != 0 -> m[e0[t]>>4] = e0[t]&15; e0[t] = e1[t]; e1[t] = e2[t]; e2[t] = 0 }
active proctype Drain() {
end:	do
	:: DRAIN(0)
	:: DRAIN(1)
	:: DRAIN(2)
	od
}
