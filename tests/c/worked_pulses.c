/* SPDX-License-Identifier: MIT OR Apache-2.0 */
/*
 * Signals of a pulse per second. The answers are those of tests/model/pps.py over
 * the clocks of tests/model/steered_clock.py. The former are compared with the
 * kernel's own __hardpps (tests/kernel_ntp/compare_pps.py).
 */
#include "worked_ntp.h"

enum { SECOND = 1000000000 };

/* The first pulses: an interval of 4 s ends at the fifth of them. Then pulses at half
 * a second, and some that come at a wrong time. */
static const struct ntp_row pulses[] = {
	{ "openhz,64,1000000000,600,0,1700000000,0,250",
	  "open" },
	{ "signal",
	  "signal,signal,0,2,0,0,0,0,0,0,0,0,0,0" },
	{ "adjtimex,0,0x2010,0,0,0,0,0x7,0,0,0,0",
	  "adj,ok,1700000000.000000000,0,0,16000000,16000000,8199,2,10000,0"
	  ",pps,error,0,0,2,0,0,0,0,0,signal,0,2,0,0,0,0,0,0,0,0,0,0" },
	{ "pps,1000000100,100,1000000100",
	  "ok,signal,10,2,0,0,0,0,0,1000000100,0,0,0,0" },
	{ "adjtimex,1000000100,0x0,0,0,0,0,0,0,0,0,0",
	  "adj,error,1700000001.000000100,0,0,16000000,16000000,8519,2,10000,0"
	  ",pps,error,0,0,2,0,0,0,0,0,signal,10,2,0,0,0,0,0,1000000100,0,0,0,0" },
	{ "pps,2000000250,250,2000000250",
	  "ok,signal,10,2,62,0,-250,0,0,1000000100,0,1,0,0" },
	{ "pps,3000000300,300,3000000300",
	  "ok,signal,10,2,59,0,-300,0,0,1000000100,0,1,0,0" },
	{ "adjtimex,3000000300,0x0,0,0,0,0,0,0,0,0,0",
	  "adj,error,1700000003.000000300,-299,0,16000000,16000000,8519,2,10000,0"
	  ",pps,error,0,59,2,0,1,0,0,0"
	  ",signal,10,2,59,0,-300,0,0,1000000100,0,1,0,0" },
	{ "late,4000000000",
	  "ok,signal,9,2,59,0,-300,0,0,1000000100,0,1,0,0" },
	{ "adjtimex,4000000000,0x0,0,0,0,0,0,0,0,0,0",
	  "adj,error,1700000004.000000000,0,0,16000000,16000000,8519,2,10000,0"
	  ",pps,error,0,59,2,0,1,0,0,0"
	  ",signal,9,2,59,0,-300,0,0,1000000100,0,1,0,0" },
	{ "pps,4000000400,999999900,4000010400",
	  "ok,signal,10,2,144,0,100,0,0,1000000100,0,1,0,0" },
	{ "pps,5000020600,20000,5000020100",
	  "ok,signal,10,2,5133,81920,-20000,1,-21474836480000,5000020100,1,2,0,0" },
	{ "adjtimex,5000020600,0x0,0,0,0,0,0,0,0,0,0",
	  "adj,error,1700000005.000020242,0,-327680,16000000,16000000,9031,2,10000,0"
	  ",pps,error,-327680,5133,2,81920,2,1,0,0"
	  ",signal,10,2,5133,81920,-20000,1,-21474836480000,5000020100,1,2,0,0" },
	{ "front",
	  "front,3"
	  ",signal,10,2,5133,81920,-20000,1,-21474836480000,5000020100,1,2,0,0" },
	{ "pps,6000020600,500000000,6000020100",
	  "ok"
	  ",signal,10,2,124998849,81920,-500000000,1,-21474836480000,5000020100,1,3,0,0" },
	{ "pps,7000020600,500000001,7000020100",
	  "ok"
	  ",signal,10,2,343749136,81920,499999999,1,-21474836480000,5000020100,1,3,0,0" },
	{ "pps,8000020600,20000,8000520100",
	  "ok"
	  ",signal,10,2,382816851,81920,-20000,1,-21474836480000,5000020100,1,3,0,0" },
	{ "pps,9000020600,0,9002520101",
	  "ok"
	  ",signal,10,2,382816851,81920,-20000,1,-21474836480000,9002520101,1,3,0,0" },
	{ "pps,20000000000,7,24002520101",
	  "ok,signal,10,2,382816851,81920,0,0,0,24002520101,1,3,0,0" },
	{ "adjtimex,20000000000,0x0,0,0,0,0,0,0,0,0,0",
	  "adj,error,1700000020.096779203,0,-327680,16000000,16000000,8519,2,10000,0"
	  ",pps,error,0,382816851,2,81920,3,1,0,0"
	  ",signal,10,2,382816851,81920,0,0,0,24002520101,1,3,0,0" },
};

/* A signal counts as lost at the eleventh second after a pulse. One of them is
 * inserted: the second of REALTIME that comes next is the same before and after it. */
static const struct ntp_row lost[] = {
	{ "openhz,64,1000000000,600,0,1483228785,0,250",
	  "open" },
	{ "signal",
	  "signal,signal,0,2,0,0,0,0,0,0,0,0,0,0" },
	{ "adjtimex,0,0x10,0,0,0,0,0x17,0,0,0,0",
	  "adj,ok,1483228785.000000,0,0,16000000,16000000,23,2,10000,0"
	  ",pps,error,0,0,2,0,0,0,0,0,signal,0,2,0,0,0,0,0,0,0,0,0,0" },
	{ "pps,1000000000,10,1000000010",
	  "ok,signal,10,2,0,0,0,0,0,1000000010,0,0,0,0" },
	{ "pps,5000000000,20,5000020010",
	  "ok,signal,10,2,5,81920,-20,1,-21474836480000,5000020010,1,1,0,0" },
	{ "tick,14000000000",
	  "tick,1,signal,2,2,5,81920,-20,1,-21474836480000,5000020010,1,1,0,0" },
	{ "late,15000000000",
	  "ok,signal,1,2,5,81920,-20,1,-21474836480000,5000020010,1,1,0,0" },
	{ "adjtimex,15000000000,0x0,0,0,0,0,0,0,0,0,0",
	  "adj,error,1483228799.999949,0,-327680,16000000,16000000,855,2,10000,0"
	  ",pps,error,-327680,0,2,81920,1,1,0,0"
	  ",signal,1,2,5,81920,-20,1,-21474836480000,5000020010,1,1,0,0" },
	{ "late,15999999999",
	  "ok,signal,0,2,5,81920,-20,1,-21474836480000,5000020010,1,1,0,0" },
	{ "tick,16000000000",
	  "tick,0,signal,0,2,5,81920,-20,1,-21474836480000,5000020010,1,1,0,0" },
	{ "adjtimex,16000000000,0x0,0,0,0,0,0,0,0,0,0",
	  "adj,error,1483228799.999944,0,-327680,16000000,16000000,855,2,10000,1"
	  ",pps,error,-327680,0,2,81920,1,1,0,0"
	  ",signal,0,2,5,81920,-20,1,-21474836480000,5000020010,1,1,0,0" },
	{ "tick,17000000000",
	  "tick,1,signal,0,2,5,81920,0,0,0,0,1,1,0,0" },
	{ "adjtimex,17000000000,0x0,0,0,0,0,0,0,0,0,0",
	  "adj,error,1483228800.999939,0,-327680,16000000,16000000,87,2,10000,1"
	  ",pps,error,0,0,2,81920,1,1,0,0,signal,0,2,5,81920,0,0,0,0,1,1,0,0" },
	{ "pps,17000000000,30,17000000000",
	  "ok,signal,10,2,5,81920,0,0,0,17000000000,1,1,0,0" },
	{ "late,40000000000",
	  "ok,signal,0,2,5,81920,0,0,0,0,1,1,0,0" },
	{ "late,9000000000000",
	  "ok,signal,0,2,5,81920,0,0,0,0,1,1,0,0" },
	{ "adjtimex,9000000000000,0x0,0,0,0,0,0,0,0,0,0",
	  "adj,error,1483237783.957100,0,-327680,16000000,16000000,87,2,10000,1"
	  ",pps,error,0,0,2,81920,1,1,0,0,signal,0,2,5,81920,0,0,0,0,1,1,0,0" },
};

/* An interval that is too long, frequencies that change by 100,001 and by 100,000 ns,
 * and intervals of 8 s after four more good ones than bad ones. */
static const struct ntp_row intervals[] = {
	{ "openhz,64,1000000000,600,0,1700000000,0,250",
	  "open" },
	{ "signal",
	  "signal,signal,0,2,0,0,0,0,0,0,0,0,0,0" },
	{ "adjtimex,0,0x10,0,0,0,0,0x2,0,0,0,0",
	  "adj,ok,1700000000.000000,0,0,16000000,16000000,2,2,10000,0"
	  ",pps,error,0,0,2,0,0,0,0,0,signal,0,2,0,0,0,0,0,0,0,0,0,0" },
	{ "pps,1000000000,10,1000000000",
	  "ok,signal,10,2,0,0,0,0,0,1000000000,0,0,0,0" },
	{ "pps,10000000000,20,10000000000",
	  "ok,signal,10,2,5,0,-20,-1,0,10000000000,1,1,0,1" },
	{ "adjtimex,10000000000,0x0,0,0,0,0,0,0,0,0,0",
	  "adj,error,1700000010.000000,0,0,16000000,16000000,2882,2,10000,0"
	  ",pps,error,0,0,2,0,1,1,1,0"
	  ",signal,10,2,5,0,-20,-1,0,10000000000,1,1,0,1" },
	{ "pps,14000000000,20,14000400004",
	  "ok,signal,10,2,3,1638416,-20,-2,-429501024567296,14000400004,2,1,1,1" },
	{ "adjtimex,14000000000,0x0,0,0,0,0,0,0,0,0,0",
	  "adj,error,1700000014.000000,0,-6553665,16000000,16000000,1346,2,10000,0"
	  ",pps,error,-6553665,0,2,1638416,1,2,1,1"
	  ",signal,10,2,3,1638416,-20,-2,-429501024567296,14000400004,2,1,1,1" },
	{ "front",
	  "front,1"
	  ",signal,10,2,3,1638416,-20,-2,-429501024567296,14000400004,2,1,1,1" },
	{ "get,1,15000000000",
	  "at,14.999899983"
	  ",signal,10,2,3,1638416,-20,-2,-429501024567296,14000400004,2,1,1,1" },
	{ "pps,18000000000,20,18000799996",
	  "ok,signal,10,2,2,1228861,-20,-1,-429488139665408,18000799996,3,1,1,1" },
	{ "pps,22000000000,20,22001199992",
	  "ok,signal,10,2,1,921662,-20,0,-429492434632704,22001199992,4,1,1,1" },
	{ "pps,26000000000,20,26001599984",
	  "ok,signal,10,2,0,691262,-20,1,-429488139665408,26001599984,5,1,1,1" },
	{ "pps,30000000000,20,30001999984",
	  "ok,signal,10,2,0,518479,-20,2,-429496729600000,30001999984,6,1,1,1" },
	{ "pps,34000000000,20,34002399984",
	  "ok,signal,10,2,0,388859,-20,3,-429496729600000,34002399984,7,1,1,1" },
	{ "pps,38000000000,20,38002799984",
	  "ok,signal,10,3,0,291644,-20,0,-429496729600000,38002799984,8,1,1,1" },
	{ "pps,42000000000,20,42003199984",
	  "ok,signal,10,3,0,291644,-20,0,-429496729600000,38002799984,8,1,1,1" },
	{ "pps,50000000000,20,50003999984",
	  "ok,signal,10,3,0,218733,-20,1,-429496729600000,50003999984,9,1,1,1" },
	{ "adjtimex,50000000000,0x0,0,0,0,0,0,0,0,0,0",
	  "adj,error,1700000049.996399,0,-6553600,16000000,16000000,322,2,10000,0"
	  ",pps,error,-6553600,0,3,218733,1,9,1,1"
	  ",signal,10,3,0,218733,-20,1,-429496729600000,50003999984,9,1,1,1" },
	{ "pps,58000000000,20,58007999984",
	  "ok,signal,10,3,0,6717649,-20,0,-2147483648000000,58007999984,10,1,2,1" },
	{ "pps,59000000000,20,59007999984",
	  "ok,signal,10,3,0,6717649,-20,0,-2147483648000000,58007999984,10,1,2,1" },
	{ "pps,66000000000,20,66007999984",
	  "ok,signal,10,3,0,13230236,-20,-1,0,66007999984,11,1,3,1" },
	{ "adjtimex,66000000000,0x0,0,0,0,0,0,0,0,0,0",
	  "adj,error,1700000065.991599,0,0,16000000,16000000,1346,2,10000,0"
	  ",pps,error,0,0,3,13230236,1,11,1,3"
	  ",signal,10,3,0,13230236,-20,-1,0,66007999984,11,1,3,1" },
};

/* Corrections, which end an adjtime, unless they are dropped. The next second corrects
 * all of it. */
static const struct ntp_row corrected[] = {
	{ "openhz,64,1000000000,600,0,1700000000,0,250",
	  "open" },
	{ "signal",
	  "signal,signal,0,2,0,0,0,0,0,0,0,0,0,0" },
	{ "adjtimex,0,0x2010,0,0,0,0,0x5,0,0,0,0",
	  "adj,ok,1700000000.000000000,0,0,16000000,16000000,8197,2,10000,0"
	  ",pps,error,0,0,2,0,0,0,0,0,signal,0,2,0,0,0,0,0,0,0,0,0,0" },
	{ "pps,1000000000,100,1000000000",
	  "ok,signal,10,2,0,0,0,0,0,1000000000,0,0,0,0" },
	{ "adjtimex,1000000000,0x8001,5000,0,0,0,0,0,0,0,0",
	  "adj,error,1700000001.000000000,0,0,16000000,16000000,8517,2,10000,0"
	  ",pps,error,0,0,2,0,0,0,0,0,signal,10,2,0,0,0,0,0,1000000000,0,0,0,0" },
	{ "pps,2000000000,100,2000000000",
	  "ok,signal,10,2,25,0,-100,0,0,1000000000,0,1,0,0" },
	{ "adjtimex,2000000000,0xa001,0,0,0,0,0,0,0,0,0",
	  "adj,error,1700000002.000000000,4500,0,16000000,16000000,9029,2,10000,0"
	  ",pps,error,0,25,2,0,1,0,0,0"
	  ",signal,10,2,25,0,-100,0,0,1000000000,0,1,0,0" },
	{ "pps,3000000000,120120,3000000000",
	  "ok,signal,10,2,30023,0,-120120,0,0,1000000000,0,2,0,0" },
	{ "adjtimex,3000000000,0xa001,0,0,0,0,0,0,0,0,0",
	  "adj,error,1700000003.000499963,4000,0,16000000,16000000,9029,2,10000,0"
	  ",pps,error,0,30023,2,0,2,0,0,0"
	  ",signal,10,2,30023,0,-120120,0,0,1000000000,0,2,0,0" },
	{ "pps,3000000000,120000,3000000000",
	  "ok,signal,10,2,22547,0,-120000,0,0,1000000000,0,2,0,0" },
	{ "pps,4000000000,120100,4000000000",
	  "ok,signal,10,2,16935,0,-120100,0,0,1000000000,0,2,0,0" },
	{ "adjtimex,4000000000,0xa001,0,0,0,0,0,0,0,0,0",
	  "adj,error,1700000004.000999307,0,0,16000000,16000000,8517,2,10000,0"
	  ",pps,error,0,16935,2,0,2,0,0,0"
	  ",signal,10,2,16935,0,-120100,0,0,1000000000,0,2,0,0" },
	{ "adjtimex,4000000000,0x0,0,0,0,0,0,0,0,0,0",
	  "adj,error,1700000004.000999307,-120099,0,16000000,16000000,8517,2,10000,0"
	  ",pps,error,0,16935,2,0,2,0,0,0"
	  ",signal,10,2,16935,0,-120100,0,0,1000000000,0,2,0,0" },
	{ "front",
	  "front,2,signal,10,2,16935,0,-120100,0,0,1000000000,0,2,0,0" },
	{ "late,5000000000",
	  "ok,signal,9,2,16935,0,-120100,0,0,1000000000,0,2,0,0" },
	{ "adjtimex,5000000000,0x0,0,0,0,0,0,0,0,0,0",
	  "adj,error,1700000005.000879264,0,0,16000000,16000000,8517,2,10000,0"
	  ",pps,error,0,16935,2,0,2,0,0,0"
	  ",signal,9,2,16935,0,-120100,0,0,1000000000,0,2,0,0" },
	{ "get,1,5900000000",
	  "at,5.900771224,signal,9,2,16935,0,-120100,0,0,1000000000,0,2,0,0" },
	{ "front",
	  "front,2,signal,9,2,16935,0,-120100,0,0,1000000000,0,2,0,0" },
};

/* What requests and commands change in the state. */
static const struct ntp_row asked[] = {
	{ "openhz,64,1000000000,600,0,1700000000,0,250",
	  "open" },
	{ "signal",
	  "signal,signal,0,2,0,0,0,0,0,0,0,0,0,0" },
	{ "pps,1000000000,3000,1000000000",
	  "ok,signal,10,2,0,0,0,0,0,1000000000,0,0,0,0" },
	{ "pps,5000000000,4000,5000001000",
	  "ok,signal,10,2,1000,4096,-4000,1,-1073741824000,5000001000,1,1,0,0" },
	{ "pps,9000000000,4000,9000002000",
	  "ok,signal,10,2,750,3072,-4000,2,-1073741824000,9000002000,2,1,0,0" },
	{ "adjtimex,9000000000,0x12,0,65536,0,0,0x1,0,0,0,0",
	  "adj,ok,1700000009.000000,0,65536,16000000,16000000,257,2,10000,0"
	  ",pps,ok,65536,0,2,3072,1,2,0,0"
	  ",signal,10,2,750,3072,-4000,2,4294967296000,9000002000,2,1,0,0" },
	{ "adjtimex,9000000000,0x2,0,-65536,0,0,0,0,0,0,0",
	  "adj,ok,1700000009.000000,0,-65536,16000000,16000000,257,2,10000,0"
	  ",pps,ok,-65536,0,2,3072,1,2,0,0"
	  ",signal,10,2,750,3072,-4000,2,-4294967296000,9000002000,2,1,0,0" },
	{ "adjtimex,9000000000,0x10,0,0,0,0,0x3,0,0,0,0",
	  "adj,ok,1700000009.000000,0,-65536,16000000,16000000,259,2,10000,0"
	  ",pps,ok,-65536,0,2,3072,1,2,0,0"
	  ",signal,10,2,750,3072,-4000,2,-4294967296000,9000002000,2,1,0,0" },
	{ "adjtimex,9000000000,0x10,0,0,0,0,0x2,0,0,0,0",
	  "adj,ok,1700000009.000000,0,-65536,16000000,16000000,2,2,10000,0"
	  ",pps,error,-65536,0,2,3072,1,2,0,0"
	  ",signal,10,2,750,3072,-4000,0,-4294967296000,9000002000,2,1,0,0" },
	{ "adjtimex,9000000000,0x8003,5000,65536,0,0,0,0,0,0,0",
	  "adj,ok,1700000009.000000,0,-65536,16000000,16000000,2,2,10000,0"
	  ",pps,error,-65536,0,2,3072,1,2,0,0"
	  ",signal,10,2,750,3072,-4000,0,-4294967296000,9000002000,2,1,0,0" },
	{ "adjtimex,9000000000,0x8000,0,0,0,0,0,0,0,0,0",
	  "no,TKC_INVALID"
	  ",signal,10,2,750,3072,-4000,0,-4294967296000,9000002000,2,1,0,0" },
	{ "adjtimex,9000000000,0x2,0,140737488356,0,0,0,0,0,0,0",
	  "no,TKC_INVALID"
	  ",signal,10,2,750,3072,-4000,0,-4294967296000,9000002000,2,1,0,0" },
	{ "pps,13000000000,5000,13000003000",
	  "ok,signal,10,2,812,14592,-5000,1,-1073741824000,13000003000,3,1,0,0" },
	{ "adjtimex,13000000000,0x100,0,0,0,0,0,0,0,1,0",
	  "adj,error,1700000014.001495,0,-16384,16000000,16000000,322,2,10000,0"
	  ",pps,error,0,0,2,14592,1,3,0,0,signal,10,2,812,14592,0,0,0,0,3,1,0,0" },
	{ "pps,14000000000,5000,14000003000",
	  "ok,signal,10,2,812,14592,0,0,0,14000003000,3,1,0,0" },
	{ "pps,18000000000,5000,18000203000",
	  "ok"
	  ",signal,10,2,1859,830144,-5000,1,-214748364800000,18000203000,4,1,0,0" },
	{ "apply,18000000000,1,1600000000,0",
	  "ok,signal,10,2,1859,830144,0,0,0,0,4,1,0,0" },
	{ "pps,19000000000,5000,19000203000",
	  "ok,signal,10,2,1859,830144,0,0,0,19000203000,4,1,0,0" },
	{ "apply,19000000000,2,0,0",
	  "ok,signal,10,2,1859,830144,0,0,0,0,4,1,0,0" },
	{ "pps,20000000000,5000,20000203000",
	  "ok,signal,10,2,1859,830144,0,0,0,20000203000,4,1,0,0" },
	{ "apply,20000000000,8,-1,0",
	  "ok,signal,10,2,1859,830144,0,0,0,0,4,1,0,0" },
	{ "pps,21000000000,5000,21000203000",
	  "ok,signal,10,2,1859,830144,0,0,0,21000203000,4,1,0,0" },
	{ "apply,21000000000,2,0,1000000000",
	  "no,TKC_INVALID,signal,10,2,1859,830144,0,0,0,21000203000,4,1,0,0" },
	{ "apply,21000000000,0,0,0",
	  "ok,signal,10,2,1859,830144,0,0,0,21000203000,4,1,0,0" },
	{ "apply,21000000000,3,6553600,0",
	  "ok,signal,10,2,1859,830144,0,0,429496729600000,21000203000,4,1,0,0" },
	{ "counter,21000000000,32,1000,10,9",
	  "ok,signal,10,2,1859,830144,0,0,429496729600000,21000203000,4,1,0,0" },
};

/* A clock at its limit. */
static const struct ntp_row limits[] = {
	{ "openat,64,8388608,23,0,1700000000,0,250,946079990,0",
	  "open" },
	{ "signal",
	  "signal,signal,0,2,0,0,0,0,0,0,0,0,0,0" },
	{ "pps,1000000000,0,1000000000",
	  "ok,signal,10,2,0,0,0,0,0,1000000000,0,0,0,0" },
	{ "pps,9999999999,0,5000000000",
	  "ok,signal,10,2,0,0,0,1,0,5000000000,1,0,0,0" },
	{ "pps,10000000000,0,5000000000",
	  "no,TKC_RANGE,signal,10,2,0,0,0,1,0,5000000000,1,0,0,0" },
	{ "pps,10000000000,0,9223372036854775808",
	  "no,TKC_INVALID,signal,10,2,0,0,0,1,0,5000000000,1,0,0,0" },
};

/* Refusals in their order. No refused pulse changes the state. */
static const struct ntp_row pulses_refused[] = {
	{ "openhz,32,1000000000,2,5,1700000000,0,250",
	  "open" },
	{ "signal",
	  "signal,signal,0,2,0,0,0,0,0,0,0,0,0,0" },
	{ "pps,5,1000000000,4294967296",
	  "no,TKC_INVALID,signal,0,2,0,0,0,0,0,0,0,0,0,0" },
	{ "pps,5,4294967295,0",
	  "no,TKC_INVALID,signal,0,2,0,0,0,0,0,0,0,0,0,0" },
	{ "pps,5,0,9223372036854775808",
	  "no,TKC_INVALID,signal,0,2,0,0,0,0,0,0,0,0,0,0" },
	{ "pps,5,999999999,9223372036854775807",
	  "ok,signal,10,2,0,0,0,0,0,9223372036854775807,0,0,0,0" },
	{ "pps,4294967296,0,5000000000",
	  "no,TKC_INVALID,signal,10,2,0,0,0,0,0,9223372036854775807,0,0,0,0" },
	{ "pps,4,0,5000000000",
	  "no,TKC_BEHIND,signal,10,2,0,0,0,0,0,9223372036854775807,0,0,0,0" },
	{ "pps,2147483653,0,5000000000",
	  "no,TKC_BEHIND,signal,10,2,0,0,0,0,0,9223372036854775807,0,0,0,0" },
	{ "apply,1000000005,6,0,0",
	  "ok,signal,9,2,0,0,0,0,0,9223372036854775807,0,0,0,0" },
	{ "pps,1000000005,0,5000000000",
	  "no,TKC_ASLEEP,signal,9,2,0,0,0,0,0,9223372036854775807,0,0,0,0" },
	{ "pps,1000000005,1000000000,5000000000",
	  "no,TKC_INVALID,signal,9,2,0,0,0,0,0,9223372036854775807,0,0,0,0" },
	{ "apply,5,7,9223372035,0",
	  "no,TKC_RANGE,signal,9,2,0,0,0,0,0,9223372036854775807,0,0,0,0" },
	{ "apply,5,7,1523372030,0",
	  "ok,signal,9,2,0,0,0,0,0,9223372036854775807,0,0,0,0" },
	{ "pps,6,0,5000000000",
	  "ok,signal,10,2,0,0,0,0,0,5000000000,0,0,0,0" },
};

static struct tkc_ntp opened_steered(int64_t sec, uint32_t nsec)
{
	struct tkc_counter counter;
	struct tkc_ntp ntp;

	check(!tkc_counter_from_hz(&counter, 64, SECOND, 600));
	check(!tkc_ntp_open(&ntp, &counter, 0, sec, nsec, 250));
	return ntp;
}

static void ask(struct tkc_ntp *ntp, uint64_t reading, uint32_t modes, uint32_t status)
{
	struct tkc_timex timex = { .modes = modes, .offset = 1000000, .status = status };
	uint32_t state;

	check(!tkc_adjtimex(&timex, &state, ntp, reading));
}

/* The number of tkc_ntp_seconds after each second: MONOTONIC is 0 at the opening, and
 * a second of REALTIME begins at each full second of it. */
static void try_numbers(uint32_t status, int64_t sec)
{
	struct tkc_ntp ntp = opened_steered(sec, 0), at_once, before;

	check(tkc_ntp_seconds(&ntp) == 1);
	ask(&ntp, 0, TKC_ADJ_STATUS, status);
	at_once = ntp;
	for (int64_t n = 1; n < 8; n++) {
		check(!tkc_ntp_advance(&ntp, (uint64_t)n * SECOND - 1));
		check(tkc_ntp_seconds(&ntp) == n);
		check(!tkc_ntp_advance(&ntp, (uint64_t)n * SECOND));
		check(tkc_ntp_seconds(&ntp) == n + 1);
	}
	before = ntp;
	check(tkc_ntp_seconds(&ntp) == 8 && !memcmp(&ntp, &before, sizeof(ntp)));
	check(!tkc_ntp_advance_late(&at_once, 7 * (uint64_t)SECOND));
	check(tkc_ntp_seconds(&at_once) == 8);
}

/* Half a second is rounded up. A set moves the number by at most 1. */
static void try_rounded_number(void)
{
	struct tkc_ntp ntp = opened_steered(1700000000, 500000000);

	check(tkc_ntp_seconds(&ntp) == 1);
	check(!tkc_ntp_advance(&ntp, 10 * (uint64_t)SECOND));
	check(tkc_ntp_seconds(&ntp) == 11);
	check(!tkc_ntp_apply(&ntp, 10 * (uint64_t)SECOND, TKC_CMD_SET_TIME, 1600000000, 999999999));
	check(tkc_ntp_seconds(&ntp) == 11);
	check(!tkc_ntp_apply(&ntp, 10 * (uint64_t)SECOND, TKC_CMD_SUSPEND, 0, 0));
	check(!tkc_ntp_apply(&ntp, 77, TKC_CMD_RESUME, 3600, 0));
	check(tkc_ntp_seconds(&ntp) == 11);
}

/* Returns steered clocks that have accepted this many commands. */
static struct tkc_ntp counted(const struct tkc_ntp *of, uint64_t front)
{
	uint64_t words[TKC_NTP_SAVED_WORDS];
	struct tkc_ntp ntp;

	tkc_ntp_save(words, of);
	words[0] = front;
	check(!tkc_ntp_load(&ntp, words));
	return ntp;
}

/* A pulse needs room for 3 commands, also after the seconds that begin before it. With
 * a phase, such a second makes one. */
static void try_full(void)
{
	const uint64_t most = (UINT64_C(1) << 63) - 4;
	struct tkc_ntp ntp = opened_steered(1700000000, 0), before;
	struct tkc_pps pps, signal;

	tkc_pps_open(&pps);
	signal = pps;
	ask(&ntp, 0, TKC_ADJ_STATUS | TKC_ADJ_NANO | TKC_ADJ_OFFSET, TKC_STA_PLL);
	before = ntp = counted(&ntp, most + 1);
	check(tkc_ntp_pulse(&ntp, &pps, 5, 0, SECOND) == TKC_FULL);
	check(tkc_ntp_pulse(&ntp, &pps, SECOND, 0, SECOND) == TKC_FULL);
	check(!memcmp(&ntp, &before, sizeof(ntp)) && !memcmp(&pps, &signal, sizeof(pps)));
	ntp = counted(&ntp, most);
	check(tkc_ntp_pulse(&ntp, &pps, SECOND, 0, SECOND) == TKC_FULL);
	check(tkc_ntp_seconds(&ntp) == 2 && !memcmp(&pps, &signal, sizeof(pps)));
	ntp = counted(&ntp, most);
	check(tkc_ntp_pulse(&ntp, &pps, SECOND, 0, SECOND) == TKC_OK);
	check(tkc_ntp_status(&ntp) & TKC_STA_PPSSIGNAL && memcmp(&pps, &signal, sizeof(pps)));
}

/* A pulse lets the seconds up to its reading begin, as tkc_ntp_advance does, and takes its
 * frequency and its correction then. */
static void try_due(void)
{
	struct tkc_ntp ntp = opened_steered(1700000000, 0), advanced;
	struct tkc_pps pps, other;

	tkc_pps_open(&pps);
	ask(&ntp, 0, TKC_ADJ_STATUS | TKC_ADJ_NANO | TKC_ADJ_OFFSET, TKC_STA_PLL);
	ask(&ntp, 0, TKC_ADJ_STATUS, TKC_STA_PLL | TKC_STA_PPSFREQ | TKC_STA_PPSTIME);
	check(!tkc_ntp_pulse(&ntp, &pps, 1, 5, SECOND));
	advanced = ntp;
	other = pps;
	check(!tkc_ntp_pulse(&ntp, &pps, 3500000000, 5, 5 * (uint64_t)SECOND + 400000));
	check(tkc_ntp_seconds(&ntp) == 4);
	check(tkc_ntp_frequency(&ntp) == -6553600);
	check(!tkc_ntp_advance(&advanced, 3500000000));
	check(tkc_ntp_seconds(&advanced) == 4 && tkc_ntp_frequency(&advanced) == 0);
	check(!tkc_ntp_pulse(&advanced, &other, 3500000000, 5, 5 * (uint64_t)SECOND + 400000));
	check(!memcmp(&ntp, &advanced, sizeof(ntp)) && !memcmp(&pps, &other, sizeof(pps)));
}

/* Counts seconds of a signal with one pulse: as many calls count one each. */
static void try_counts(void)
{
	static const uint64_t counts[] = { 0, 1, 9, 10, 11, 12, UINT32_MAX, UINT64_MAX };
	struct tkc_ntp pulsed = opened_steered(1700000000, 0);
	struct tkc_pps first;

	tkc_pps_open(&first);
	check(!tkc_ntp_pulse(&pulsed, &first, 5, 7, SECOND));
	check(!tkc_ntp_pulse(&pulsed, &first, 5, 9, 5 * (uint64_t)SECOND));
	for (size_t i = 0; i < COUNT_OF(counts); i++) {
		struct tkc_ntp ntp = pulsed, one_by_one = pulsed;
		struct tkc_pps pps = first, each = first;

		tkc_pps_seconds(&pps, &ntp, counts[i]);
		for (uint64_t n = 0; n < counts[i] && n < 20; n++)
			tkc_pps_seconds(&each, &one_by_one, 1);
		check(!memcmp(&pps, &each, sizeof(pps)));
		check(!memcmp(&ntp, &one_by_one, sizeof(ntp)));
		check((tkc_ntp_status(&ntp) & 0xf00) == (counts[i] > 10 ? 0 : TKC_STA_PPSSIGNAL |
							  TKC_STA_PPSJITTER));
	}
}

void try_pulses(void)
{
	try_each(pulses, try_ntp_row);
	try_each(lost, try_ntp_row);
	try_each(intervals, try_ntp_row);
	try_each(corrected, try_ntp_row);
	try_each(asked, try_ntp_row);
	try_each(limits, try_ntp_row);
	try_each(pulses_refused, try_ntp_row);
	try_numbers(0, 1700000000);
	try_numbers(TKC_STA_INS, 1483228797);
	try_numbers(TKC_STA_DEL, 1483228796);
	try_rounded_number();
	try_full();
	try_due();
	try_counts();
}
