/* Is there a linearization of the calls so far against a bounded FIFO? Calls NC (threads' calls one after another), VAL[k] != 0: push of that value, 0: pop.
   seen[k]: bit k (begun) and the calls that had returned when k began. ans[k]: 0 pending, 1 refused, 2 push done, 2+v pop gave v. Remembered by the history's bytes. */
#include <string.h>
#ifndef STRICT	/* gcc -DSTRICT=1: a refusal only where full, or empty */
#define STRICT 0
#endif
#ifndef CAP
#define CAP 2
#endif
static unsigned char lin_s[8], lin_a[8], lin_q[16];
static int lin_go(unsigned mask, unsigned need, int h, int t)
{	int k;
	if ((mask & need) == need) return 1;
	for (k = 0; k < NC; k++)
	{	unsigned b = 1u << k;
		if ((mask & b) || !(lin_s[k] & b)) continue;		/* placed, or not begun */
		if ((lin_s[k] & ~b) & ~mask) continue;			/* one before it is not placed yet */
		if (lin_a[k] == 1)					/* refused */
		{	if (STRICT && (VAL[k] ? t-h != CAP : t != h)) continue;
			if (lin_go(mask|b, need, h, t)) return 1;
		} else if (VAL[k])					/* a push that is done, or pending and put its value */
		{	unsigned char was = lin_q[t];
			if (t-h == CAP) continue;
			lin_q[t] = VAL[k];
			if (lin_go(mask|b, need, h, t+1)) return 1;
			lin_q[t] = was;
		} else							/* a pop with a value, or pending and took one */
		{	if (t == h) continue;
			if (lin_a[k] && lin_q[h] != lin_a[k]-2) continue;
			if (lin_go(mask|b, need, h+1, t)) return 1;
	}	}
	return 0;
}
#define LIN_N (1<<18)
static unsigned char lin_key[LIN_N][2*NC+1];	/* last byte: 1 no, 2 yes */
static unsigned long lin_asked, lin_found;
#ifdef LIN_SAY
#include <stdlib.h>
static void lin_say(void) { fprintf(stderr, "histories asked %lu, different %lu\n", lin_asked, lin_found); }
#endif
static int lin_ok(const unsigned char *seen, const unsigned char *ans, unsigned ret)
{	unsigned long h = 0; int k;
	for (k = 0; k < NC; k++) h = (h ^ (seen[k] | (unsigned)ans[k]<<8)) * 0x9E3779B97F4A7C15ul;
	unsigned i = (unsigned)(h >> 40) & (LIN_N-1);
#ifdef LIN_SAY
	if (!lin_asked) atexit(lin_say);
#endif
	lin_asked++;
	for (;; i = (i+1) & (LIN_N-1))
	{	unsigned char *e = lin_key[i];
		if (e[2*NC])
		{	if (!memcmp(e, seen, NC) && !memcmp(e+NC, ans, NC)) return e[2*NC] == 2;
			continue;
		}
		memcpy(e, seen, NC); memcpy(e+NC, ans, NC);
		memcpy(lin_s, seen, NC); memcpy(lin_a, ans, NC);
		lin_found++;
		e[2*NC] = 1 + lin_go(0, ret, 0, 0);
		return e[2*NC] == 2;
	}
}
