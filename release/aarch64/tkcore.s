/* SPDX-License-Identifier: MIT OR Apache-2.0 */
/* Made by tools/release_text from a proved object file: don't change it. */

/* Begins a function in its own section. */
.macro function name,align,size
	.section ".text.\name","ax",%progbits
	.balign \align
	.type "\name",%function
	.size "\name",\size
"\name":
.endm
/* Begins one that other files can call. */
.macro public name,align,size
	.globl "\name"
	function "\name",\align,\size
.endm
/* Offsets in a section that the table at label 1 leads to. */
.macro jumps section,offsets:vararg
	.irp offset,\offsets
	.long "\section"+\offset-1b
	.endr
.endm
/* Begins the bytes on how to unwind a function, after the common ones at label 1: its section, its
   offset there, its size, and the size of the whole. */
.macro frame section,offset,size,length
	.long \length,.-1b,"\section"+\offset-.,\size
.endm
	.file "frames.o"
	.file "rattle"

function "tk_ntp::course::Course::adjtimex::<#168be072fac5bef1>",4,700
.Ltk_ntp.course.Course.adjtimex:
	sub sp,sp,#0x130
	movi v0.2d,#0x0
	ldr w8,[x4]
	mov w9,#0x8001
	stp x29,x30,[sp,#224]
	add x29,sp,#0xe0
	and w9,w8,w9
	str x28,[sp,#240]
	cmp w9,#0x8,lsl #12
	stp x24,x23,[sp,#256]
	stp x22,x21,[sp,#272]
	stp x20,x19,[sp,#288]
	stur q0,[sp,#78]
	stp q0,q0,[sp,#16]
	stp q0,q0,[sp,#48]
	str q0,[sp]
	b.ne 3f
1:
	mov w8,#0x301
	stur q0,[x0,#8]
	strh w8,[x0]
	stur q0,[x0,#24]
	stur q0,[x0,#40]
	stur q0,[x0,#56]
	stur q0,[x0,#72]
	str xzr,[x0,#88]
2:
	ldp x20,x19,[sp,#288]
	ldr x28,[sp,#240]
	ldp x22,x21,[sp,#272]
	ldp x24,x23,[sp,#256]
	ldp x29,x30,[sp,#224]
	add sp,sp,#0x130
	ret
3:
	and w9,w8,#0xc000
	cmp w9,#0x4,lsl #12
	b.ne 4f
	ldr x9,[x4,#56]
	mov x10,#0xffffffffffffd507
	add x9,x9,x10
	cmn x9,#0x7d1
	b.cc 1b
4:
	tbz w8,#8,5f
	mov w10,#0xc9ff
	mov w11,#0x423f
	ldr x9,[x4,#72]
	tst w8,#0x2000
	movk w10,#0x3b9a,lsl #16
	movk w11,#0xf,lsl #16
	csel x10,x11,x10,eq
	tbnz x9,#63,1b
	cmp x10,x9
	b.cc 1b
5:
	tbz w8,#1,6f
	mov x9,#0xffffffffffff5a1c
	ldr x8,[x4,#16]
	movk x9,#0x3b64,lsl #16
	movk x9,#0xffdf,lsl #32
	add x8,x8,x9
	mov x9,#0xffffffffffffb438
	movk x9,#0x76c8,lsl #16
	movk x9,#0xffbe,lsl #32
	cmp x8,x9
	b.ls 1b
6:
	mov x23,x0
	mov x21,x1
	mov x0,x1
	mov x22,x2
	mov x1,x2
	mov w2,wzr
	mov x19,x4
	mov x20,x3
	bl .Ltk_ntp.course.Course.advance
	tst w0,#0xff
	b.eq 7f
	movi v0.2d,#0x0
	mov w8,#0x1
	strb w1,[x23,#1]
	strb w8,[x23]
	str xzr,[x23,#88]
	stur q0,[x23,#8]
	stur q0,[x23,#24]
	stur q0,[x23,#40]
	stur q0,[x23,#56]
	stur q0,[x23,#72]
	b 2b
7:
	ldr x8,[x22,#96]
	mov x9,#0xfffffffffffffffa
	movk x9,#0x7fff,lsl #48
	cmp x8,x9
	b.cs 8f
	movi v0.2d,#0x0
	ldr w9,[x19]
	mov x2,x22
	mov x4,x19
	sub x24,x29,#0x60
	stp q0,q0,[x29,#-96]
	stp q0,q0,[x29,#-64]
	stp q0,q0,[x29,#-32]
	tbnz w9,#8,9f
	sub x0,x29,#0x60
	mov x1,x21
	mov x3,x20
	b 13f
8:
	movi v0.2d,#0x0
	mov w9,#0x1
	str xzr,[x23,#88]
	strh w9,[x23]
	stur q0,[x23,#8]
	stur q0,[x23,#24]
	stur q0,[x23,#40]
	stur q0,[x23,#56]
	stur q0,[x23,#72]
	b 2b
9:
	ldp x8,x10,[x4,#64]
	mov x0,x21
	tbnz w9,#13,10f
	mov w9,#0x3e8
	mul x9,x10,x9
	cmp x9,#0x0
	cneg x9,x9,mi
	b 11f
10:
	cmp x10,#0x0
	cneg x9,x10,mi
11:
	mov w10,#0x2
	add x3,sp,#0x68
	mov x1,x2
	mov x2,x20
	stp x10,x8,[sp,#104]
	stp w9,wzr,[sp,#120]
	bl .Ltk_ntp.course.Course.command
	tst w0,#0xff
	b.eq 12f
	movi v0.2d,#0x0
	mov w8,#0x1
	stur xzr,[sp,#86]
	stur q0,[sp,#70]
	stur q0,[sp,#54]
	stur q0,[sp,#38]
	stur q0,[sp,#22]
	stur q0,[sp,#6]
	b 14f
12:
	sub x0,x29,#0x60
	mov x1,x21
	mov x2,x22
	mov x3,x20
	mov x4,x19
13:
	bl .Ltk_ntp.course.Course.request
	ldur q0,[x24,#40]
	ldur q1,[x24,#56]
	ldur x8,[x29,#-8]
	ldur q2,[x24,#72]
	ldurb w1,[x29,#-95]
	stur q0,[sp,#38]
	ldur q0,[x24,#8]
	stur q1,[sp,#54]
	ldur q1,[x24,#24]
	stur x8,[sp,#86]
	ldurb w8,[x29,#-96]
	stur q2,[sp,#70]
	stur q0,[sp,#6]
	stur q1,[sp,#22]
14:
	ldur q0,[sp,#38]
	ldur q1,[sp,#54]
	strb w8,[x23]
	ldur q2,[sp,#70]
	ldur x8,[sp,#86]
	strb w1,[x23,#1]
	stur q0,[x23,#40]
	ldur q0,[sp,#6]
	stur q1,[x23,#56]
	ldur q1,[sp,#22]
	stur q2,[x23,#72]
	str x8,[x23,#88]
	stur q0,[x23,#8]
	stur q1,[x23,#24]
	b 2b

function "tk_ntp::course::Course::advance::<#168be072fac5bef1>",4,1148
.Ltk_ntp.course.Course.advance:
	ldrb w8,[x1,#76]
	tbz w8,#0,1f
	mov w1,#0x1
	mov w0,#0x1
	ret
1:
	sub sp,sp,#0x80
	stp x22,x21,[sp,#96]
	ldr w22,[x1]
	mov x9,#0xffffffffffffffff
	stp x29,x30,[sp,#32]
	add x29,sp,#0x20
	neg w8,w22
	str x27,[sp,#48]
	lsr x13,x9,x8
	stp x26,x25,[sp,#64]
	stp x24,x23,[sp,#80]
	cmp x13,x3
	stp x20,x19,[sp,#112]
	b.cs 2f
	mov w0,#0x1
	mov w1,#0x3
	b 9f
2:
	ldr x27,[x1,#16]
	sub x8,x3,x27
	and x12,x8,x13
	sub x8,x13,x12
	cmp x8,x12
	b.cs 4f
3:
	mov w0,#0x1
	mov w1,#0x4
	b 9f
4:
	ldp x8,x11,[x1,#32]
	lsr x14,x12,#31
	ldp w9,w10,[x1,#8]
	cbnz x14,5f
	madd x12,x12,x10,x11
	lsr x12,x12,x9
	b 7f
5:
	mul x14,x10,x12
	umulh x15,x10,x12
	adds x12,x14,x11
	cinc x14,x15,cs
	extr x15,x14,x12,#63
	lsr x15,x15,x9
	cbz x15,6f
	mov x12,#0xc000000000000000
	b 7f
6:
	lsl x14,x14,#1
	mvn w15,w9
	lsr x12,x12,x9
	lsl x14,x14,x15
	orr x12,x14,x12
7:
	mov w23,#0xca00
	mov x14,#0xffffffff5919ffff
	movk w23,#0x3b9a,lsl #16
	movk x14,#0x26bf,lsl #32
	madd x12,x8,x23,x12
	movk x14,#0xd21,lsl #48
	cmp x12,x14
	b.hi 8f
	ldr x14,[x1,#64]
	mov x24,#0xffffffffffff2800
	movk x24,#0xcd0d,lsl #16
	movk x24,#0x7fff,lsl #48
	adds x14,x14,x12
	csinv x14,x14,xzr,cc
	sub x15,x24,#0x1
	cmp x14,x15
	b.hi 8f
	ldr w14,[x1,#72]
	umaddl x14,w14,w23,x12
	ldr x12,[x1,#24]
	adds x14,x12,x14
	csinv x14,x14,xzr,cc
	cmp x14,x24
	b.cs 8f
	ldr x14,[x0,#112]
	sub x14,x3,x14
	and x14,x14,x13
	sub x13,x13,x14
	cmp x13,x14
	b.cc 3b
	mov w13,wzr
	b 11f
8:
	mov w0,#0x1
	mov w1,#0x5
9:
	ldp x20,x19,[sp,#112]
	ldr x27,[sp,#48]
	ldp x22,x21,[sp,#96]
	ldp x24,x23,[sp,#80]
	ldp x26,x25,[sp,#64]
	ldp x29,x30,[sp,#32]
	add sp,sp,#0x80
	ret
10:
	mov x0,x19
	mov x1,x20
	mov x2,x21
	bl .Ltk_ntp.course.Course.steer
	ldp w9,w10,[x20,#8]
	ldp x27,x12,[x20,#16]
	mov x0,x19
	ldp x8,x11,[x20,#32]
	mov x1,x20
	ldr w22,[x20]
	ldrb w13,[x20,#76]
	mov x3,x26
	mov w2,w25
11:
	tbz w13,#0,14f
12:
	ldr x8,[x0,#104]
13:
	mov x19,x0
	mov w25,w2
	mov x26,x3
	mov x20,x1
	mov x0,x1
	mov w1,wzr
	mov x2,x8
	mov w3,wzr
	bl "tk_clock::read_base::ReadBase::reading_at"
	and w8,w0,#0xff
	cmp w8,#0x1
	b.ne 25f
	neg w8,w22
	mov x9,#0xffffffffffffffff
	sub x10,x1,x27
	lsr x8,x9,x8
	sub x9,x26,x27
	mov x21,x1
	and x9,x9,x8
	and x10,x10,x8
	cmp x9,x10
	b.cc 25f
	ldr x9,[x20,#96]
	mov x10,#0x7ffffffffffffffc
	cmp x9,x10
	b.hi 26f
	tbz w25,#0,15f
	ldr x9,[x19,#112]
	mov x0,x19
	mov x1,x20
	mov x22,x19
	sub x10,x21,x9
	and x10,x10,x8
	sub x8,x8,x10
	cmp x8,x10
	csel x2,x9,x21,cc
	bl "tk_ntp::course::Course::begin_next"
	ldr w10,[x20]
	ldr x9,[x19,#112]
	mov w21,w0
	ldr w4,[x20,#12]
	ldr x3,[x19,#96]
	ldr x0,[x19,#80]
	sub x9,x26,x9
	neg w12,w10
	str w10,[sp,#8]
	lsl x9,x9,x12
	lsr x5,x9,x12
	ldur x9,[x20,#4]
	lsr x12,x5,#27
	stur x9,[sp,#12]
	cbz x12,16f
	ldr x1,[x22,#88]
	b 17f
14:
	neg w13,w22
	mov x14,#0xffffffffffffffff
	lsr x14,x14,x13
	cmp x14,x3
	b.cc 12b
	sub x13,x3,x27
	and x13,x13,x14
	sub x14,x14,x13
	cmp x14,x13
	b.cc 12b
	lsr x14,x13,#31
	cbnz x14,22f
	madd x10,x13,x10,x11
	lsr x9,x10,x9
	b 24f
15:
	mov x0,x19
	mov x1,x20
	mov x2,x21
	bl "tk_ntp::course::Course::begin_next"
	mov x8,x20
	and w27,w0,#0xff
	b 19f
16:
	mov w10,w9
	mul x12,x5,x4
	mov x15,#0x360000000000
	movk x15,#0xc465,lsl #48
	asr x17,x3,#63
	ldr x1,[x22,#88]
	mul x10,x5,x10
	umulh x16,x12,x15
	umulh x13,x10,x3
	mul x14,x10,x3
	mul x15,x12,x15
	madd x10,x10,x17,x13
	lsr x13,x9,#32
	sub x9,x16,x12
	adds x12,x15,x14
	mov x14,#0xf000000000000000
	adc x10,x9,x10
	adds x9,x12,x1
	lsl x12,x23,x13
	adc x10,x10,x0
	add x13,x10,x12,lsr #5
	add x13,x13,x14
	cmp x13,x12,lsr #4
	b.cs 17f
	mov x8,x20
	mov x11,x26
	b 18f
17:
	add x2,sp,#0x8
	bl "tk_ntp::lag::Lag::accounted_late"
	mov x11,x26
	mov x10,x0
	mov x22,x19
	mov x9,x1
	mov x8,x20
18:
	and w27,w21,#0xff
	mov x21,x11
	stp x10,x9,[x22,#80]
	str x11,[x22,#112]
19:
	cbz w27,10b
	ldr w9,[x8,#72]
	cmp w27,#0x2
	b.ne 20f
	cmp w9,#0x0
	mov w11,#0x1
	cset w10,ne
	sub w10,w9,w10
	b 21f
20:
	lsr w10,w9,#5
	mov x11,#0xffffffffffffffff
	cmp w10,#0xc35
	cinc w10,w9,cc
21:
	cmp w10,w9
	mov w9,#0x6
	mov w12,#0x2
	csel x9,x12,x9,eq
	add x2,sp,#0x8
	mov x0,x8
	stp x9,x11,[sp,#8]
	csel w9,wzr,w10,eq
	mov x1,x21
	str x9,[sp,#24]
	bl "tk_clock::clock::Clock::apply_any"
	tst w0,#0xff
	b.ne 10b
	ldr x10,[x20,#96]
	cmp w27,#0x2
	add x10,x10,#0x1
	str x10,[x20,#96]
	ldr x9,[x19,#104]
	sub x10,x9,#0x1
	csinc x9,x10,x9,ne
	str x9,[x19,#104]
	b 10b
22:
	mul x14,x13,x10
	umulh x13,x13,x10
	adds x10,x14,x11
	cinc x11,x13,cs
	extr x13,x11,x10,#63
	lsr x13,x13,x9
	cbz x13,23f
	mov x9,#0xc000000000000000
	b 24f
23:
	lsl x11,x11,#1
	mvn w13,w9
	lsr x9,x10,x9
	lsl x10,x11,x13
	orr x9,x10,x9
24:
	madd x8,x8,x23,x9
	adds x8,x12,x8
	csinv x9,x8,xzr,cc
	cmp x9,x24
	b.cs 12b
	ldr x8,[x0,#104]
	mul x10,x8,x23
	cmp x9,x10
	b.cs 13b
25:
	mov w1,wzr
	mov w0,wzr
	b 9b
26:
	mov w1,wzr
	mov w0,#0x1
	b 9b

	.section ".text.unlikely.tk_clock::read_base::ReadBase::nanos_at_last","ax",%progbits
	.balign 4
	.type "tk_clock::read_base::ReadBase::nanos_at_last",%function
	.size "tk_clock::read_base::ReadBase::nanos_at_last",208
"tk_clock::read_base::ReadBase::nanos_at_last":
	ldp x9,x8,[x0,#32]
	and w13,w1,#0xff
	ldr x12,[x0,#24]
	mov w10,#0xca00
	mov x11,xzr
	cmp w13,#0x2
	movk w10,#0x3b9a,lsl #16
	b.le 1f
	cmp w13,#0x4
	b.gt 3f
	cmp w13,#0x3
	b.ne 2f
	ldr w11,[x0,#72]
	umaddl x11,w11,w10,x12
	ldr w12,[x0,#8]
	lsr x8,x8,x12
	madd x8,x9,x10,x8
	adds x8,x11,x8
	csinv x0,x8,xzr,cc
	ret
1:
	cbz w13,2f
	cmp w13,#0x1
	b.eq 4f
	ldr x11,[x0,#64]
	ldr w12,[x0,#8]
	lsr x8,x8,x12
	madd x8,x9,x10,x8
	adds x8,x11,x8
	csinv x0,x8,xzr,cc
	ret
2:
	mov x11,x12
	ldr w12,[x0,#8]
	lsr x8,x8,x12
	madd x8,x9,x10,x8
	adds x8,x11,x8
	csinv x0,x8,xzr,cc
	ret
3:
	cmp w13,#0x5
	b.ne 5f
4:
	ldr w12,[x0,#8]
	lsr x8,x8,x12
	madd x8,x9,x10,x8
	adds x8,x11,x8
	csinv x0,x8,xzr,cc
	ret
5:
	ldp x9,x8,[x0,#48]
	ldr w12,[x0,#8]
	lsr x8,x8,x12
	madd x8,x9,x10,x8
	adds x8,xzr,x8
	csinv x0,x8,xzr,cc
	ret

function "tk_clock::read_base::ReadBase::reading_at",4,1296
	stp x29,x30,[sp,#-32]!
	ldp x10,x11,[x0,#32]
	and w14,w1,#0xff
	ldr w13,[x0,#12]
	ldr x12,[x0,#24]
	mov w9,#0xca00
	mov w8,w1
	cmp w14,#0x3
	movk w9,#0x3b9a,lsl #16
	str x19,[sp,#16]
	mov x29,sp
	b.gt 1f
	cmp w14,#0x2
	b.cs 2f
	ldrb w14,[x0,#76]
	cmp w14,#0x0
	and w14,w8,#0xff
	csel w15,wzr,w13,ne
	cmp w14,#0x1
	csel x18,xzr,x12,eq
	b 7f
1:
	cmp w14,#0x4
	b.eq 3f
	cmp w14,#0x5
	b.ne 4f
	mov w15,wzr
	mov x18,xzr
	b 7f
2:
	b.ne 5f
	ldrb w14,[x0,#76]
	ldr x18,[x0,#64]
	cmp w14,#0x0
	b 6f
3:
	mov w15,wzr
	mov x17,x10
	mov x16,x11
	mov x18,x12
	b 8f
4:
	ldrb w14,[x0,#76]
	ldr w15,[x0,#4]
	mov x18,xzr
	ldp x17,x16,[x0,#48]
	cmp w14,#0x0
	csel w15,wzr,w15,ne
	b 8f
5:
	ldrb w15,[x0,#76]
	ldr w14,[x0,#72]
	cmp w15,#0x0
	umaddl x18,w14,w9,x12
6:
	csel w15,wzr,w13,ne
7:
	mov x17,x10
	mov x16,x11
8:
	cmp x2,#0x0
	mov w14,#0xca00
	movk w14,#0x3b9a,lsl #16
	cneg x1,x2,mi
	mul x4,x1,x14
	umulh x14,x1,x14
	mov w1,w3
	adds x3,x4,w3,uxtw
	cinc x5,x14,cs
	subs x1,x1,x4
	ngcs x14,x14
	csel x4,xzr,x14,cc
	csel x1,xzr,x1,cc
	tst x2,#0x8000000000000000
	ldr w14,[x0,#8]
	csel x1,x3,x1,eq
	csel x2,x5,x4,eq
	subs x18,x1,x18
	lsl x1,x9,x14
	sbcs x2,x2,xzr
	mvn w5,w14
	csel x18,xzr,x18,cc
	csel x2,xzr,x2,cc
	tst x14,#0x40
	mul x3,x1,x17
	lsr x4,x18,#1
	lsl x18,x18,x14
	umulh x17,x1,x17
	lsl x1,x2,x14
	lsr x2,x4,x5
	orr x1,x1,x2
	csel x2,xzr,x18,ne
	csel x1,x18,x1,ne
	adds x16,x3,x16
	cinc x3,x17,cs
	subs x17,x2,x16
	sbcs x18,x1,x3
	csel x18,xzr,x18,cc
	csel x17,xzr,x17,cc
	cmp x16,x2
	ldr w16,[x0]
	sbcs xzr,x3,x1
	b.cs 9f
	cmp x18,w15,uxtw
	b.cs 33f
	cbz w15,47f
	extr x18,x18,x17,#32
	mov w1,w15
	udiv x2,x18,x1
	msub w15,w2,w15,w18
	bfi x17,x15,#32,#32
	udiv x15,x17,x1
	msub x17,x15,x1,x17
	add x15,x15,x2,lsl #32
	cbz x17,15f
	neg w17,w16
	mov x18,#0x7fffffffffffffff
	lsr x17,x18,x17
	cmp x15,x17
	b.cs 33f
	mov w17,#0x40
	add x15,x15,#0x1
	b 11f
9:
	mov x15,xzr
10:
	mov w17,#0x40
11:
	sub w16,w17,w16
	ldr x17,[x0,#16]
	mov x18,#0xffffffffffffffff
	lsr x16,x18,x16
	add x15,x17,x15
	and x1,x15,x16
	sub x15,x1,x17
	ldrb w17,[x0,#76]
	and x15,x15,x16
	sub x16,x16,x15
	cmp x16,x15
	and w16,w8,#0xff
	cset w8,cc
	cmp w16,#0x2
	orr w8,w17,w8
	b.le 13f
	cmp w16,#0x4
	b.gt 14f
	cmp w16,#0x3
	b.ne 19f
	tbnz w8,#0,41f
	ldr w8,[x0,#72]
	umaddl x8,w8,w9,x12
	lsr x12,x15,#31
	cbz x12,18f
12:
	mul x12,x15,x13
	umulh x13,x15,x13
	adds x11,x12,x11
	cinc x12,x13,cs
	extr x13,x12,x11,#63
	lsr x13,x13,x14
	cbz x13,26f
	mov x11,#0xc000000000000000
	b 27f
13:
	cbz w16,16f
	cmp w16,#0x1
	b.ne 17f
	tbnz w8,#0,39f
	lsr x8,x15,#31
	cbnz x8,24f
	madd x8,x15,x13,x11
	lsr x8,x8,x14
	madd x0,x10,x9,x8
	mov x8,#0x591a0000
	movk x8,#0x26bf,lsl #32
	movk x8,#0xd21,lsl #48
	b 32f
14:
	cmp w16,#0x5
	b.ne 21f
	tbnz w8,#0,42f
	lsr x8,x15,#31
	cbz x8,35f
	lsr x8,x11,#63
	lsr x8,x8,x14
	cbz x8,35f
	mov x8,#0xc000000000000000
	b 36f
15:
	neg w17,w16
	mov x18,#0x7fffffffffffffff
	lsr x17,x18,x17
	cmp x17,x15
	b.cs 10b
	b 33f
16:
	tbnz w8,#0,38f
	lsr x8,x15,#31
	cbnz x8,22f
	madd x8,x15,x13,x11
	lsr x8,x8,x14
	b 29f
17:
	tbnz w8,#0,40f
	lsr x12,x15,#31
	ldr x8,[x0,#64]
	cbnz x12,12b
18:
	madd x11,x15,x13,x11
	lsr x11,x11,x14
	b 27f
19:
	tbnz w8,#0,44f
	lsr x8,x15,#31
	cbz x8,20f
	lsr x8,x11,#63
	lsr x8,x8,x14
	cbnz x8,23f
20:
	lsr x8,x11,x14
	b 29f
21:
	tbnz w8,#0,45f
	ldp x8,x10,[x0,#48]
	lsr x12,x15,#31
	ldr w11,[x0,#4]
	cbnz x12,25f
	madd x10,x15,x11,x10
	lsr x10,x10,x14
	madd x0,x8,x9,x10
	b 31f
22:
	mul x8,x15,x13
	umulh x13,x15,x13
	adds x8,x8,x11
	cinc x11,x13,cs
	extr x13,x11,x8,#63
	lsr x13,x13,x14
	cbz x13,28f
23:
	mov x8,#0xc000000000000000
	b 29f
24:
	mul x8,x15,x13
	umulh x12,x15,x13
	adds x8,x8,x11
	cinc x11,x12,cs
	extr x12,x11,x8,#63
	lsr x12,x12,x14
	cbz x12,34f
	mov x8,#0xc000000000000000
	madd x0,x10,x9,x8
	mov x8,#0x591a0000
	movk x8,#0x26bf,lsl #32
	movk x8,#0xd21,lsl #48
	b 32f
25:
	mul x12,x11,x15
	umulh x11,x11,x15
	adds x10,x12,x10
	cinc x11,x11,cs
	extr x12,x11,x10,#63
	lsr x12,x12,x14
	cbz x12,37f
	mov x10,#0xc000000000000000
	madd x0,x8,x9,x10
	b 31f
26:
	lsl x12,x12,#1
	mvn w13,w14
	lsr x11,x11,x14
	lsl x12,x12,x13
	orr x11,x12,x11
27:
	madd x9,x10,x9,x11
	adds x8,x8,x9
	b 30f
28:
	lsl x11,x11,#1
	mvn w13,w14
	lsr x8,x8,x14
	lsl x11,x11,x13
	orr x8,x11,x8
29:
	madd x8,x10,x9,x8
	adds x8,x12,x8
30:
	csinv x0,x8,xzr,cc
31:
	mov x8,#0xffffffffffff2800
	movk x8,#0xcd0d,lsl #16
	movk x8,#0x7fff,lsl #48
32:
	cmp x0,x8
	b.cs 33f
	mov w0,#0x1
	ldr x19,[sp,#16]
	ldp x29,x30,[sp],#32
	ret
33:
	mov x1,xzr
	mov w0,wzr
	ldr x19,[sp,#16]
	ldp x29,x30,[sp],#32
	ret
34:
	lsl x11,x11,#1
	mvn w12,w14
	lsr x8,x8,x14
	lsl x11,x11,x12
	orr x8,x11,x8
	madd x0,x10,x9,x8
	mov x8,#0x591a0000
	movk x8,#0x26bf,lsl #32
	movk x8,#0xd21,lsl #48
	b 32b
35:
	lsr x8,x11,x14
36:
	madd x0,x10,x9,x8
	mov x8,#0x591a0000
	movk x8,#0x26bf,lsl #32
	movk x8,#0xd21,lsl #48
	b 32b
37:
	lsl x11,x11,#1
	mvn w12,w14
	lsr x10,x10,x14
	lsl x11,x11,x12
	orr x10,x11,x10
	madd x0,x8,x9,x10
	b 31b
38:
	mov x19,x1
	mov w1,wzr
	b 46f
39:
	mov x19,x1
	mov w1,#0x1
	b 43f
40:
	mov x19,x1
	mov w1,#0x2
	b 46f
41:
	mov x19,x1
	mov w1,#0x3
	b 46f
42:
	mov x19,x1
	mov w1,#0x5
43:
	bl "tk_clock::read_base::ReadBase::nanos_at_last"
	mov x8,#0x591a0000
	mov x1,x19
	movk x8,#0x26bf,lsl #32
	movk x8,#0xd21,lsl #48
	b 32b
44:
	mov x19,x1
	mov w1,#0x4
	b 46f
45:
	mov x19,x1
	mov w1,#0x6
46:
	bl "tk_clock::read_base::ReadBase::nanos_at_last"
	mov x1,x19
	b 31b
47:
	brk #0x1

function "tk_ntp::course::Course::begin_next",4,972
	sub sp,sp,#0x40
	str x21,[sp,#32]
	ldp x21,x8,[x0,#104]
	ldr w9,[x1]
	stp x20,x19,[sp,#48]
	mov x20,x0
	ldr w4,[x1,#12]
	mov x19,x2
	ldr x3,[x0,#96]
	sub x8,x2,x8
	neg w10,w9
	str w9,[sp,#4]
	lsl x8,x8,x10
	ldr x0,[x0,#80]
	stp x29,x30,[sp,#16]
	add x29,sp,#0x10
	lsr x5,x8,x10
	ldur x8,[x1,#4]
	lsr x9,x5,#27
	stur x8,[sp,#8]
	cbz x9,1f
	ldr x9,[x20,#88]
	b 2f
1:
	mov w9,w8
	mul x10,x5,x4
	mov x13,#0x360000000000
	movk x13,#0xc465,lsl #48
	asr x15,x3,#63
	mul x9,x5,x9
	umulh x14,x10,x13
	umulh x11,x9,x3
	mul x13,x10,x13
	mul x12,x9,x3
	madd x11,x9,x15,x11
	ldr x9,[x20,#88]
	lsr x15,x8,#32
	sub x8,x14,x10
	adds x10,x13,x9
	adc x8,x8,x0
	adds x1,x10,x12
	mov w10,#0xca00
	movk w10,#0x3b9a,lsl #16
	adc x8,x8,x11
	mov x11,#0xf000000000000000
	lsl x10,x10,x15
	add x11,x8,x11
	add x11,x11,x10,lsr #5
	cmp x11,x10,lsr #4
	b.cc 3f
2:
	add x2,sp,#0x4
	mov x1,x9
	bl "tk_ntp::lag::Lag::accounted_late"
	mov x8,x0
3:
	ldp w9,w12,[x20,#4]
	mov w10,#0x4
	ldrb w11,[x20,#12]
	stp x8,x1,[x20,#80]
	cmp w12,#0x4
	csel w13,w12,w10,cc
	ldr x10,[x20,#16]
	cmp w13,#0x1
	b.le 5f
	cmp w13,#0x2
	b.eq 6f
	cmp w13,#0x3
	b.ne 7f
	mov w11,wzr
	mov x10,xzr
	mov w0,wzr
4:
	strb wzr,[x29,#30]
	strh wzr,[x29,#28]
	mov w12,#0x4
	b 15f
5:
	cbnz w13,9f
	tbnz w9,#4,11f
	tbz w9,#5,8f
	mov x10,#0x4ab7
	add x8,x21,#0x1
	mov x11,#0xffffffffffffffff
	movk x10,#0x7289,lsl #16
	mov w0,wzr
	strb wzr,[x29,#30]
	movk x10,#0x4506,lsl #32
	strh wzr,[x29,#28]
	mov w12,#0x2
	movk x10,#0xc22e,lsl #48
	umulh x8,x8,x10
	mov w10,#0x5180
	movk w10,#0x1,lsl #16
	lsr x8,x8,#16
	madd x8,x8,x10,x11
	mov w11,#0x1
	add x10,x8,x10
	b 15f
6:
	tbz w9,#5,10f
	tbz w11,#0,8f
	cmp x10,x21
	b.ne 8f
	mov w11,wzr
	mov x10,xzr
	mov w0,#0x2
	b 4b
7:
	tst w9,#0x30
	b.eq 13f
8:
	ldurh w8,[x20,#13]
	ldurb w13,[x20,#15]
	mov w0,wzr
	strh w8,[x29,#28]
	strb w13,[x29,#30]
	b 15f
9:
	tbnz w9,#4,12f
10:
	mov w12,wzr
	mov w11,wzr
	mov x10,xzr
	mov w0,wzr
	b 14f
11:
	mov x8,#0x4ab7
	mov w10,#0x5180
	mov w0,wzr
	movk x8,#0x7289,lsl #16
	movk w10,#0x1,lsl #16
	strb wzr,[x29,#30]
	movk x8,#0x4506,lsl #32
	strh wzr,[x29,#28]
	mov w12,#0x1
	movk x8,#0xc22e,lsl #48
	mov w11,#0x1
	umulh x8,x21,x8
	lsr x8,x8,#16
	madd x10,x8,x10,x10
	b 15f
12:
	tbz w11,#0,8b
	cmp x10,x21
	b.ne 8b
	strb wzr,[x29,#30]
	mov w11,#0x1
	mov w12,#0x3
	mov x10,x21
	strh wzr,[x29,#28]
	mov w0,#0x1
	b 15f
13:
	mov w12,wzr
	mov w0,wzr
	and w11,w11,#0x1
14:
	strb wzr,[x29,#30]
	strh wzr,[x29,#28]
15:
	str w12,[x20,#8]
	ldrh w12,[x29,#28]
	ldr x8,[x20,#24]
	strb w11,[x20,#12]
	mov w14,#0x104
	ldrb w11,[x29,#30]
	sturh w12,[x20,#13]
	and w14,w9,w14
	mov x15,x8
	sturb w11,[x20,#15]
	ldr w13,[x20,#32]
	ldr x11,[x20,#64]
	ldr w12,[x20]
	cmp w14,#0x104
	str x10,[x20,#16]
	b.eq 16f
	cmp w13,#0x3e
	b.cs 21f
	mov w10,#0x4
	lsl x10,x10,x13
	sdiv x15,x8,x10
16:
	cmp x11,#0x1f5
	b.lt 17f
	cbz w12,21f
	mov x10,#0xa12000000000
	movk x10,#0x7,lsl #48
	udiv x10,x10,x12
	add x10,x10,x15
	cmp w14,#0x104
	mov x14,x8
	str x10,[x20,#72]
	b.ne 19f
	b 20f
17:
	cmn x11,#0x1f5
	b.gt 18f
	cbz w12,21f
	mov x10,#0xa12000000000
	movk x10,#0x7,lsl #48
	udiv x10,x10,x12
	neg x10,x10
	add x10,x10,x15
	cmp w14,#0x104
	mov x14,x8
	str x10,[x20,#72]
	b.ne 19f
	b 20f
18:
	cbz w12,21f
	mov w10,#0x3e8
	mul x10,x11,x10
	sdiv x10,x10,x12
	lsl x10,x10,#32
	add x10,x10,x15
	cmp w14,#0x104
	mov x14,x8
	str x10,[x20,#72]
	b.eq 20f
19:
	cmp w13,#0x3e
	b.cs 21f
	mov w14,#0x4
	lsl x13,x14,x13
	sdiv x14,x8,x13
20:
	ldr w13,[x20,#44]
	mov x15,#0x86a000000000
	ldr x16,[x20,#48]
	movk x15,#0x1,lsl #48
	sub x8,x8,x14
	cmn x11,#0x1f4
	madd x13,x13,x15,x16
	mov x14,#0xfffffffffffffe0c
	str x8,[x20,#24]
	csel x14,x11,x14,lt
	subs x11,x11,#0x1f4
	str x19,[x20,#112]
	add x14,x14,#0x1f4
	ldp x29,x30,[sp,#16]
	csel x8,x11,x14,gt
	orr w11,w9,#0x40
	str x8,[x20,#64]
	udiv x13,x13,x12
	add x10,x13,x10
	ldr w13,[x20,#36]
	mul x10,x10,x12
	mov w12,#0x2400
	movk w12,#0xf4,lsl #16
	add w13,w13,#0x1f4
	cmp w13,w12
	csel w8,w13,w12,cc
	csel w9,w11,w9,hi
	str w8,[x20,#36]
	add x8,x21,#0x1
	ldr x21,[sp,#32]
	str w9,[x20,#4]
	stp x10,x8,[x20,#96]
	ldp x20,x19,[sp,#48]
	add sp,sp,#0x40
	ret
21:
	brk #0x1

function "tk_ntp::lag::Lag::accounted_late",4,296
	ldp w9,w8,[x2,#4]
	mov x11,#0x360000000000
	mov w12,w4
	movk x11,#0xc465,lsl #48
	smulh x10,x9,x3
	mul x9,x9,x3
	mul x13,x12,x11
	smulh x11,x12,x11
	adds x12,x9,x13
	adc x9,x10,x11
	asr x10,x9,#63
	eor x11,x12,x10
	eor x12,x9,x10
	subs x11,x11,x10
	sbc x10,x12,x10
	cbnz x10,1f
	umulh x12,x11,x5
	mul x11,x11,x5
	madd x10,x10,x5,x12
	lsr x12,x10,#62
	cmp x12,#0x0
	mov x12,#0x4000000000000000
	csel x10,x10,x12,eq
	csel x11,x11,xzr,eq
	b 3f
1:
	extr x13,x10,x11,#32
	lsr x10,x10,#32
	umulh x12,x13,x5
	madd x12,x10,x5,x12
	mov x10,#0x4000000000000000
	tst x12,#0xffffffffc0000000
	b.eq 2f
	mov x11,xzr
	b 3f
2:
	mul x13,x13,x5
	mov w11,w11
	mul x14,x11,x5
	umulh x11,x11,x5
	extr x12,x12,x13,#32
	adds x13,x14,x13,lsl #32
	adc x11,x12,x11
	lsr x12,x11,#62
	cmp x12,#0x0
	csel x10,x11,x10,eq
	csel x11,x13,xzr,eq
3:
	mov w12,#0xca00
	movk w12,#0x3b9a,lsl #16
	lsl x8,x12,x8
	mov x12,#0x650000000000
	movk x12,#0x1dcd,lsl #48
	mul x13,x8,x12
	umulh x8,x8,x12
	negs x12,x11
	ngc x14,x10
	cmp x9,#0x0
	mov x9,#0xf000000000000000
	csel x11,x12,x11,mi
	add x9,x0,x9
	csel x10,x14,x10,mi
	adds x11,x1,x11
	adc x9,x9,x10
	negs x10,x13
	ngc x12,x8
	cmp x13,x11
	sbcs xzr,x8,x9
	csel x8,x8,x9,lt
	csel x13,x13,x11,lt
	cmp x11,x10
	sbcs xzr,x9,x12
	mov x9,#0x1000000000000000
	csel x8,x12,x8,lt
	csel x1,x10,x13,lt
	add x0,x8,x9
	ret

function "tk_clock::clock::Clock::update_late",4,628
	sub sp,sp,#0x70
	ldr x8,[x0,#16]
	ldr w9,[x0]
	stp x22,x21,[sp,#80]
	ldr w4,[x0,#12]
	stp x24,x23,[sp,#64]
	sub x8,x1,x8
	neg w9,w9
	stp x20,x19,[sp,#96]
	lsl x8,x8,x9
	ldp x24,x2,[x0,#32]
	mov x20,x1
	mov x19,x0
	stp x29,x30,[sp,#32]
	lsr x21,x8,x9
	stp x26,x25,[sp,#48]
	add x29,sp,#0x20
	umulh x8,x4,x21
	cmp xzr,x8
	b.ne 1f
	mul x8,x21,x4
	adds x23,x2,x8
	b.cc 2f
1:
	ldr w22,[x19,#8]
	add x0,sp,#0x8
	mov x3,x21
	mov w1,w22
	bl "tk_counter::counter::CounterDesc::split_long"
	ldrb w8,[sp,#8]
	cmp w8,#0x1
	b.ne 11f
	ldp x25,x23,[sp,#16]
	mov x8,#0x7d03
	movk x8,#0x25c1,lsl #16
	movk x8,#0x2,lsl #32
	cmp x25,x8
	b.ls 5f
	b 11f
2:
	ldr w22,[x19,#8]
	mov w8,#0xca00
	movk w8,#0x3b9a,lsl #16
	lsl x8,x8,x22
	subs x9,x23,x8
	b.cs 3f
	mov x25,xzr
	b 5f
3:
	cmp x9,x8
	b.cs 4f
	mov w25,#0x1
	mov x23,x9
	b 5f
4:
	lsr x9,x23,x22
	mov x10,#0x5a53
	movk x10,#0xa09b,lsl #16
	lsr x9,x9,#9
	movk x10,#0xb82f,lsl #32
	movk x10,#0x44,lsl #48
	umulh x9,x9,x10
	lsr x25,x9,#11
	msub x23,x25,x8,x23
	mov x8,#0x7d03
	movk x8,#0x25c1,lsl #16
	movk x8,#0x2,lsl #32
	cmp x25,x8
	b.hi 11f
5:
	ldr w4,[x19,#4]
	ldp x26,x2,[x19,#48]
	umulh x8,x4,x21
	cmp xzr,x8
	b.ne 6f
	mul x8,x21,x4
	adds x8,x2,x8
	b.cc 7f
6:
	add x0,sp,#0x8
	mov w1,w22
	mov x3,x21
	bl "tk_counter::counter::CounterDesc::split_long"
	ldrb w8,[sp,#8]
	cmp w8,#0x1
	b.ne 11f
	ldp x9,x8,[sp,#16]
	mov x10,#0x7d03
	movk x10,#0x25c1,lsl #16
	movk x10,#0x2,lsl #32
	cmp x9,x10
	b.ls 10f
	b 11f
7:
	mov w9,#0xca00
	movk w9,#0x3b9a,lsl #16
	lsl x10,x9,x22
	subs x11,x8,x10
	b.cs 8f
	mov x9,xzr
	b 10f
8:
	cmp x11,x10
	b.cs 9f
	mov w9,#0x1
	mov x8,x11
	b 10f
9:
	mov w9,w22
	mov x11,#0x5a53
	lsr x9,x8,x9
	movk x11,#0xa09b,lsl #16
	movk x11,#0xb82f,lsl #32
	lsr x9,x9,#9
	movk x11,#0x44,lsl #48
	umulh x9,x9,x11
	lsr x9,x9,#11
	msub x8,x9,x10,x8
	mov x10,#0x7d03
	movk x10,#0x25c1,lsl #16
	movk x10,#0x2,lsl #32
	cmp x9,x10
	b.hi 11f
10:
	mov w11,#0x8ff
	add x10,x25,x24
	movk w11,#0x3864,lsl #16
	cmp x10,x11
	b.ls 13f
11:
	mov w0,#0x1
	mov w1,#0x5
12:
	ldp x20,x19,[sp,#96]
	ldp x22,x21,[sp,#80]
	ldp x24,x23,[sp,#64]
	ldp x26,x25,[sp,#48]
	ldp x29,x30,[sp,#32]
	add sp,sp,#0x70
	ret
13:
	mov w11,#0xca00
	lsr x12,x23,x22
	movk w11,#0x3b9a,lsl #16
	madd x13,x10,x11,x12
	ldr x12,[x19,#64]
	adds x14,x12,x13
	mov x12,#0xffffffffffff27ff
	movk x12,#0xcd0d,lsl #16
	csinv x14,x14,xzr,cc
	movk x12,#0x7fff,lsl #48
	cmp x14,x12
	b.hi 14f
	ldr w14,[x19,#72]
	umaddl x11,w14,w11,x13
	ldr x13,[x19,#24]
	adds x11,x13,x11
	csinv x11,x11,xzr,cc
	cmp x11,x12
	b.ls 15f
14:
	mov w1,#0x5
	mov w0,#0x1
	b 12b
15:
	mov w0,wzr
	mov w1,wzr
	add x9,x9,x26
	str x20,[x19,#16]
	stp x10,x23,[x19,#32]
	stp x9,x8,[x19,#48]
	b 12b

function "tk_counter::counter::CounterDesc::split_long",4,236
	lsr x8,x3,#32
	mov x9,#0x5a53
	movk x9,#0xa09b,lsl #16
	umull x10,w8,w4
	movk x9,#0xb82f,lsl #32
	movk x9,#0x44,lsl #48
	lsr x8,x10,#9
	umulh x8,x8,x9
	lsr x8,x8,#11
	lsr x11,x8,x1
	cmp x11,#0x4
	b.cc 1f
	stp xzr,xzr,[x0]
	str xzr,[x0,#16]
	ret
1:
	mov w11,w4
	mov w12,w1
	mov w15,#0xca00
	umull x11,w3,w11
	movk w15,#0x3b9a,lsl #16
	msub x10,x8,x15,x10
	lsr x13,x11,x12
	lsr x13,x13,#9
	add x10,x2,x10,lsl #32
	umulh x14,x13,x9
	lsl x13,x15,x12
	sub x15,x11,x13
	cmp x15,x13
	lsr x14,x14,#11
	msub x16,x14,x13,x11
	csinc x14,x14,xzr,cs
	csel x15,x15,x16,cc
	cmp x11,x13
	csel x11,x11,x15,cc
	add x10,x10,x11
	csel x11,xzr,x14,cc
	subs x14,x10,x13
	b.cs 2f
	mov x9,xzr
	b 4f
2:
	cmp x14,x13
	b.cs 3f
	mov w9,#0x1
	mov x10,x14
	b 4f
3:
	lsr x12,x10,x12
	lsr x12,x12,#9
	umulh x9,x12,x9
	lsr x9,x9,#11
	msub x10,x9,x13,x10
4:
	mov w12,#0x20
	add x9,x11,x9
	mov w11,#0x1
	sub w12,w12,w1
	str x10,[x0,#16]
	lsl x8,x8,x12
	add x8,x9,x8
	stp x11,x8,[x0]
	ret

function "tk_clock::clock::Clock::apply_any",4,2112
	sub sp,sp,#0xa0
	stp x28,x27,[sp,#80]
	ldrb w28,[x2]
	stp x26,x25,[sp,#96]
	ldp w26,w8,[x2,#16]
	stp x24,x23,[sp,#112]
	ldr x24,[x2,#8]
	cmp w28,#0x8
	stp x22,x21,[sp,#128]
	ldrb w22,[x0,#76]
	stp x29,x30,[sp,#64]
	add x29,sp,#0x40
	stp x20,x19,[sp,#144]
	b.eq 1f
	tbz w22,#0,1f
	mov w9,#0x1
	mov w8,#0x1
	b 4f
1:
	cmp w28,#0x8
	b.ne 2f
	cbnz w22,2f
	mov w8,#0x1
	mov w9,#0x2
	b 4f
2:
	ldr w9,[x0]
	mov x10,#0xffffffffffffffff
	neg w9,w9
	lsr x10,x10,x9
	cmp x10,x1
	b.cs 5f
3:
	mov w8,#0x1
	mov w9,#0x3
4:
	ldp x20,x19,[sp,#144]
	mov w0,w8
	ldp x22,x21,[sp,#128]
	mov w1,w9
	ldp x24,x23,[sp,#112]
	ldp x26,x25,[sp,#96]
	ldp x28,x27,[sp,#80]
	ldp x29,x30,[sp,#64]
	add sp,sp,#0xa0
	ret
5:
	orr x27,x26,x8,lsl #32
	cmp w28,#0x3
	b.le 7f
	cmp w28,#0x5
	b.le 9f
	cmp w28,#0x6
	b.eq 10f
	cmp w28,#0x7
	b.eq 13f
	mov x8,#0x7d03
	mov w9,#0x3
	movk x8,#0x25c1,lsl #16
	movk x8,#0x2,lsl #32
	add x8,x8,#0x1
	cmp x24,x8
	mov w8,#0x1
	b.cs 4b
	mov w10,#0xca00
	movk w10,#0x3b9a,lsl #16
	cmp w26,w10
	b.cs 4b
	mov w9,#0xca00
	ldp x11,x2,[x0,#32]
	movk w9,#0x3b9a,lsl #16
	ldr w19,[x0,#8]
	mov x13,#0xffffffffffff27ff
	madd x10,x24,x9,x26
	movk x13,#0xcd0d,lsl #16
	lsr x12,x2,x19
	movk x13,#0x7fff,lsl #48
	madd x14,x11,x9,x12
	ldr x12,[x0,#64]
	add x12,x12,x10
	adds x15,x12,x14
	csinv x15,x15,xzr,cc
	cmp x15,x13
	b.hi 6f
	ldr w16,[x0,#72]
	ldr x15,[x0,#24]
	umaddl x9,w16,w9,x14
	add x15,x15,x10
	adds x9,x15,x9
	csinv x9,x9,xzr,cc
	cmp x9,x13
	b.ls 23f
6:
	mov w9,#0x5
	b 4b
7:
	cmp w28,#0x1
	b.gt 8f
	cbz w28,13f
	mov x8,#0x7403
	mov w9,#0x3
	movk x8,#0xed5d,lsl #16
	movk x8,#0x1,lsl #32
	cmp x24,x8
	mov w8,#0x1
	b.hi 4b
	mov w11,#0xca00
	movk w11,#0x3b9a,lsl #16
	cmp w26,w11
	b.cc 13f
	b 4b
8:
	cmp w28,#0x2
	b.ne 13f
	mov w8,#0xca00
	movk w8,#0x3b9a,lsl #16
	cmp w26,w8
	b.cs 3b
	b 13f
9:
	cmp w28,#0x4
	b.ne 12f
	mov x8,#0xffffffffffffdcd8
	add x8,x24,x8
	cmp x8,#0x7d1
	b.cs 3b
	b 13f
10:
	cmp x24,#0x1
	b.eq 11f
	cmn x24,#0x1
	b.ne 3b
11:
	mov w8,#0x86a1
	movk w8,#0x1,lsl #16
	cmp x27,x8
	b.cs 3b
	b 13f
12:
	mov w8,#0x86a1
	movk w8,#0x1,lsl #16
	cmp x24,x8
	b.cs 3b
13:
	ldr x8,[x0,#16]
	sub x8,x1,x8
	and x21,x8,x10
	sub x8,x10,x21
	cmp x8,x21
	b.cs 14f
	mov w8,#0x1
	mov w9,#0x4
	b 4b
14:
	ldr w4,[x0,#12]
	ldp x25,x2,[x0,#32]
	umulh x8,x4,x21
	stp x4,x1,[sp,#24]
	cmp xzr,x8
	b.ne 15f
	mul x8,x21,x4
	adds x11,x2,x8
	b.cc 16f
15:
	ldr w19,[x0,#8]
	mov x20,x0
	sub x0,x29,#0x18
	mov x3,x21
	mov w1,w19
	bl "tk_counter::counter::CounterDesc::split_long"
	ldurb w8,[x29,#-24]
	cmp w8,#0x1
	b.ne 27f
	ldp x23,x11,[x29,#-16]
	mov x8,#0x7d03
	movk x8,#0x25c1,lsl #16
	movk x8,#0x2,lsl #32
	cmp x23,x8
	b.ls 19f
	b 27f
16:
	ldr w19,[x0,#8]
	mov w8,#0xca00
	mov x20,x0
	movk w8,#0x3b9a,lsl #16
	lsl x8,x8,x19
	subs x9,x11,x8
	b.cs 17f
	mov x23,xzr
	b 19f
17:
	cmp x9,x8
	b.cs 18f
	mov w23,#0x1
	mov x11,x9
	b 19f
18:
	lsr x9,x11,x19
	mov x10,#0x5a53
	movk x10,#0xa09b,lsl #16
	lsr x9,x9,#9
	movk x10,#0xb82f,lsl #32
	movk x10,#0x44,lsl #48
	umulh x9,x9,x10
	lsr x23,x9,#11
	msub x11,x23,x8,x11
	mov x8,#0x7d03
	movk x8,#0x25c1,lsl #16
	movk x8,#0x2,lsl #32
	cmp x23,x8
	b.hi 27f
19:
	ldr w4,[x20,#4]
	ldp x9,x2,[x20,#48]
	umulh x8,x4,x21
	stp x9,x11,[sp,#8]
	cmp xzr,x8
	b.ne 20f
	mul x8,x21,x4
	adds x10,x2,x8
	b.cc 21f
20:
	sub x0,x29,#0x18
	mov w1,w19
	mov x3,x21
	bl "tk_counter::counter::CounterDesc::split_long"
	ldurb w8,[x29,#-24]
	cmp w8,#0x1
	b.ne 27f
	ldp x8,x10,[x29,#-16]
	mov x9,#0x7d03
	movk x9,#0x25c1,lsl #16
	movk x9,#0x2,lsl #32
	cmp x8,x9
	b.ls 26f
	b 27f
21:
	mov w8,#0xca00
	movk w8,#0x3b9a,lsl #16
	lsl x9,x8,x19
	subs x11,x10,x9
	b.cs 22f
	mov x8,xzr
	b 26f
22:
	cmp x11,x9
	b.cs 25f
	mov w8,#0x1
	mov x10,x11
	b 26f
23:
	ldp x17,x24,[x0,#80]
	mov w22,wzr
	ldp x14,x10,[x0,#48]
	ldr x13,[x0]
	ldr w18,[x0,#12]
24:
	mov w9,wzr
	mov w8,wzr
	str x13,[x0]
	stp w19,w18,[x0,#8]
	stp x10,x12,[x0,#56]
	stp x1,x15,[x0,#16]
	stp x11,x2,[x0,#32]
	str x14,[x0,#48]
	str w16,[x0,#72]
	strb w22,[x0,#76]
	stp x17,x24,[x0,#80]
	b 4b
25:
	mov w8,w19
	mov x11,#0x5a53
	lsr x8,x10,x8
	movk x11,#0xa09b,lsl #16
	movk x11,#0xb82f,lsl #32
	lsr x8,x8,#9
	movk x11,#0x44,lsl #48
	umulh x8,x8,x11
	lsr x8,x8,#11
	msub x10,x8,x9,x10
	mov x9,#0x7d03
	movk x9,#0x25c1,lsl #16
	movk x9,#0x2,lsl #32
	cmp x8,x9
	b.hi 27f
26:
	mov w9,#0x8ff
	add x11,x23,x25
	movk w9,#0x3864,lsl #16
	cmp x11,x9
	b.ls 28f
27:
	mov w8,#0x1
	mov w9,#0x5
	b 4b
28:
	ldr x9,[sp,#8]
	ldr x13,[x20]
	mov x0,x20
	ldr x15,[x20,#24]
	ldr x12,[x20,#64]
	cmp w28,#0x3
	ldr w16,[x20,#72]
	add x14,x8,x9
	b.gt 29f
	ldr x2,[sp,#16]
	cmp w28,#0x1
	b.gt 30f
	mov w8,#0xca00
	lsr x9,x2,x19
	movk w8,#0x3b9a,lsl #16
	cbnz w28,32f
	madd x17,x11,x8,x9
	mov x9,#0xffffffffffff27ff
	movk x9,#0xcd0d,lsl #16
	movk x9,#0x7fff,lsl #48
	adds x18,x12,x17
	csinv x18,x18,xzr,cc
	cmp x18,x9
	b.hi 27b
	umaddl x8,w16,w8,x17
	adds x8,x15,x8
	csinv x8,x8,xzr,cc
	cmp x8,x9
	b.hi 27b
	b 33f
29:
	ldr x2,[sp,#16]
	cmp w28,#0x5
	b.gt 31f
	cmp w28,#0x4
	b.ne 34f
	mov w9,#0xca00
	lsr x8,x2,x19
	movk w9,#0x3b9a,lsl #16
	madd x18,x11,x9,x8
	mov x8,#0xffffffffffff27ff
	movk x8,#0xcd0d,lsl #16
	movk x8,#0x7fff,lsl #48
	adds x17,x12,x18
	csinv x17,x17,xzr,cc
	cmp x17,x8
	b.hi 27b
	ldr x17,[x0,#80]
	mov x1,#0xffffffffffff0000
	umaddl x18,w16,w9,x18
	movk x1,#0xfe0c,lsl #16
	cmp x17,x1
	csel x9,x17,x1,gt
	mov w1,#0x1f40000
	cmp x9,x1
	csel x9,x9,x1,lt
	adds x18,x15,x18
	csinv x18,x18,xzr,cc
	cmp x18,x8
	b.hi 27b
	mov w8,#0x640000
	lsr x18,x13,#32
	ldr x1,[sp,#32]
	madd x8,x24,x8,x9
	and x9,x9,#0xffff
	umull x9,w9,w18
	lsr x8,x8,#16
	mul x8,x8,x18
	add x8,x8,x9,lsr #16
	mov x9,#0x34db
	movk x9,#0xd7b6,lsl #16
	movk x9,#0xde82,lsl #32
	movk x9,#0x431b,lsl #48
	umulh x8,x8,x9
	lsr x8,x8,#18
	mov w18,w8
	b 24b
30:
	mov w9,#0xca00
	cmp w28,#0x2
	movk w9,#0x3b9a,lsl #16
	b.ne 35f
	lsr x8,x2,x19
	mov x18,#0xffffffffffff27ff
	madd x8,x11,x9,x8
	movk x18,#0xcd0d,lsl #16
	movk x18,#0x7fff,lsl #48
	adds x17,x12,x8
	csinv x17,x17,xzr,cc
	cmp x17,x18
	b.hi 27b
	mov x18,#0xfa0a
	cmp x24,#0x0
	movk x18,#0x4b82,lsl #16
	cneg x17,x24,mi
	movk x18,#0x4,lsl #32
	cmp x17,x18
	b.cs 3b
	mul x9,x17,x9
	add x17,x8,x26
	add x15,x17,x15
	tbnz x24,#63,39f
	adds x17,x9,x15
	b.cs 3b
	b 40f
31:
	cmp w28,#0x6
	b.ne 36f
	mov w9,#0xca00
	lsr x8,x2,x19
	mov x17,#0xffffffffffff27ff
	movk w9,#0x3b9a,lsl #16
	movk x17,#0xcd0d,lsl #16
	madd x8,x11,x9,x8
	movk x17,#0x7fff,lsl #48
	adds x16,x12,x8
	csinv x16,x16,xzr,cc
	cmp x16,x17
	b.hi 27b
	mov x17,#0xfa0a
	cmp x24,#0x0
	movk x17,#0x4b82,lsl #16
	cneg x16,x24,mi
	movk x17,#0x4,lsl #32
	cmp x16,x17
	b.cs 3b
	mul x9,x16,x9
	add x15,x15,x8
	tbnz x24,#63,41f
	adds x16,x9,x15
	b.cs 3b
	b 42f
32:
	madd x9,x11,x8,x9
	mov x17,#0xffffffffffff27ff
	movk x17,#0xcd0d,lsl #16
	movk x17,#0x7fff,lsl #48
	adds x15,x12,x9
	csinv x15,x15,xzr,cc
	cmp x15,x17
	b.hi 27b
	madd x8,x24,x8,x26
	subs x15,x8,x9
	b.cc 3b
33:
	ldp x17,x24,[x0,#80]
	b 37f
34:
	mov w8,#0xca00
	lsr x9,x2,x19
	cmp x24,#0x0
	movk w8,#0x3b9a,lsl #16
	mov x17,#0xffffffffffff27ff
	cneg x16,x24,mi
	madd x9,x11,x8,x9
	movk x17,#0xcd0d,lsl #16
	movk x17,#0x7fff,lsl #48
	adds x18,x12,x9
	csinv x18,x18,xzr,cc
	cmp x18,x17
	b.hi 27b
	umaddl x8,w16,w8,x9
	adds x8,x15,x8
	csinv x8,x8,xzr,cc
	cmp x8,x17
	b.hi 27b
	ldp x17,x24,[x0,#80]
	b 37f
35:
	lsr x8,x2,x19
	madd x17,x11,x9,x8
	mov x8,#0xffffffffffff27ff
	movk x8,#0xcd0d,lsl #16
	movk x8,#0x7fff,lsl #48
	adds x18,x12,x17
	csinv x18,x18,xzr,cc
	cmp x18,x8
	b.hi 27b
	mov x18,#0xffffffffffff0000
	umaddl x17,w16,w9,x17
	movk x18,#0xfe0c,lsl #16
	cmp x24,x18
	csel x9,x24,x18,gt
	mov w18,#0x1f40000
	cmp x9,x18
	csel x9,x9,x18,lt
	adds x17,x15,x17
	csinv x17,x17,xzr,cc
	cmp x17,x8
	b.hi 27b
	ldr x8,[x0,#88]
	mov w17,#0x640000
	lsr x18,x13,#32
	ldr x1,[sp,#32]
	madd x17,x8,x17,x9
	and x9,x9,#0xffff
	umull x9,w18,w9
	lsr x17,x17,#16
	mul x17,x17,x18
	add x9,x17,x9,lsr #16
	mov x17,#0x34db
	movk x17,#0xd7b6,lsl #16
	movk x17,#0xde82,lsl #32
	movk x17,#0x431b,lsl #48
	umulh x9,x9,x17
	mov x17,x24
	mov x24,x8
	lsr x9,x9,#18
	mov w18,w9
	b 24b
36:
	mov w8,#0xca00
	lsr x9,x2,x19
	movk w8,#0x3b9a,lsl #16
	madd x17,x11,x8,x9
	mov x9,#0xffffffffffff27ff
	movk x9,#0xcd0d,lsl #16
	movk x9,#0x7fff,lsl #48
	adds x18,x12,x17
	csinv x18,x18,xzr,cc
	cmp x18,x9
	b.hi 27b
	umaddl x8,w16,w8,x17
	adds x8,x15,x8
	csinv x8,x8,xzr,cc
	cmp x8,x9
	b.hi 27b
	ldp x17,x24,[x0,#80]
	mov w22,#0x1
37:
	ldr x1,[sp,#32]
38:
	ldr x18,[sp,#24]
	b 24b
39:
	subs x9,x15,x9
	csel x17,xzr,x9,cc
	b.cc 3b
40:
	subs x15,x17,x8
	mov w8,#0x1
	mov w9,#0x3
	b.cc 4b
	mov x18,#0x27ff
	ldr x1,[sp,#32]
	movk x18,#0x73f3,lsl #16
	movk x18,#0xd940,lsl #32
	movk x18,#0x72de,lsl #48
	cmp x17,x18
	b.hi 4b
	ldp x17,x24,[x0,#80]
	ldr x2,[sp,#16]
	b 38b
41:
	subs x9,x15,x9
	csel x16,xzr,x9,cc
	b.cc 3b
42:
	subs x15,x16,x8
	mov w8,#0x1
	mov w9,#0x3
	b.cc 4b
	mov x17,#0x27ff
	ldr x1,[sp,#32]
	movk x17,#0x73f3,lsl #16
	movk x17,#0xd940,lsl #32
	movk x17,#0x72de,lsl #48
	cmp x16,x17
	b.hi 4b
	cmp x27,#0x0
	ldp x17,x24,[x0,#80]
	cneg x16,x27,mi
	ldr x2,[sp,#16]
	b 38b

function "tk_ntp::course::Course::steer::<#168be072fac5bef1>",4,932
.Ltk_ntp.course.Course.steer:
	sub sp,sp,#0x50
	ldr w10,[x0]
	stp x29,x30,[sp,#32]
	add x29,sp,#0x20
	stp x22,x21,[sp,#48]
	stp x20,x19,[sp,#64]
	cbz w10,9f
	ldr w8,[x1,#4]
	mov x20,x1
	cbz w8,9f
	mov x9,#0x940000000000
	ldp x11,x16,[x0,#72]
	movk x9,#0x7735,lsl #48
	ldr w14,[x20,#8]
	ldr x12,[x0,#48]
	udiv x13,x9,x8
	mov x17,#0xf000000000000000
	ldr w9,[x0,#44]
	ldr x15,[x0,#88]
	mov x19,x2
	adds x16,x16,x17
	b.mi 2f
	lsl x17,x16,#1
	mvn w18,w14
	lsr x15,x15,x14
	tst x14,#0x40
	lsl x17,x17,x18
	lsr x18,x16,x14
	orr x14,x17,x15
	mov x17,#0xa12000000000
	csel x16,xzr,x18,ne
	movk x17,#0x7,lsl #48
	csel x15,x18,x14,ne
	tst x16,#0xfffffffff0000000
	add x13,x13,x17
	mov x14,#0x1000000000000000
	b.ne 1f
	extr x16,x16,x15,#32
	mov x17,#0x5a53
	lsr x18,x15,#32
	movk x17,#0xa09b,lsl #16
	and x15,x15,#0xfffffe00
	lsr x16,x16,#9
	movk x17,#0xb82f,lsl #32
	movk x17,#0x44,lsl #48
	umulh x16,x16,x17
	mov w17,#0xca00
	movk w17,#0x3b9a,lsl #16
	lsr x16,x16,#11
	msub w17,w16,w17,w18
	orr x15,x15,x17,lsl #32
	mov x17,#0x94b3
	movk x17,#0x26d6,lsl #16
	movk x17,#0xbe8,lsl #32
	movk x17,#0x112e,lsl #48
	umulh x15,x15,x17
	lsr x15,x15,#26
	add x15,x15,x16,lsl #32
	cmp x15,x14
	csel x14,x15,x14,cc
1:
	cmp x13,x14
	csel x13,x13,x14,cc
	b 5f
2:
	mvn x16,x16
	mvn x15,x15
	mvn w18,w14
	lsl x17,x16,#1
	lsr x15,x15,x14
	lsr x16,x16,x14
	tst x14,#0x40
	lsl x17,x17,x18
	orr x14,x17,x15
	csel x15,xzr,x16,ne
	csel x14,x16,x14,ne
	tst x15,#0xfffffffff0000000
	b.eq 3f
	mov x14,#0xefffffffffffffff
	b 4f
3:
	extr x15,x15,x14,#32
	mov x16,#0x5a53
	lsr x17,x14,#32
	movk x16,#0xa09b,lsl #16
	and x14,x14,#0xfffffe00
	lsr x15,x15,#9
	movk x16,#0xb82f,lsl #32
	movk x16,#0x44,lsl #48
	umulh x15,x15,x16
	mov w16,#0xca00
	movk w16,#0x3b9a,lsl #16
	lsr x15,x15,#11
	msub w16,w15,w16,w17
	orr x14,x14,x16,lsl #32
	mov x16,#0x94b3
	movk x16,#0x26d6,lsl #16
	movk x16,#0xbe8,lsl #32
	movk x16,#0x112e,lsl #48
	umulh x14,x14,x16
	lsr x14,x14,#26
	add x14,x14,x15,lsl #32
	mov x15,#0x1000000000000000
	cmp x14,x15
	csel x14,x14,x15,cc
	mvn x14,x14
4:
	mov x15,#0x5ee000000000
	movk x15,#0xfff8,lsl #48
	sub x13,x15,x13
	cmp x13,x14
	csel x13,x13,x14,hi
5:
	mov x14,#0x86a000000000
	movk x14,#0x1,lsl #48
	madd x12,x9,x14,x12
	mov w14,#0x1f40000
	udiv x12,x12,x10
	add x11,x12,x11
	mov x12,#0x3f7d
	madd x10,x11,x10,x13
	movk x12,#0x5e35,lsl #16
	movk x12,#0x49ba,lsl #32
	movk x12,#0x20c,lsl #48
	mvn x13,x10
	lsr x11,x10,#19
	tst x10,#0x8000000000000000
	lsr x13,x13,#19
	mov x10,#0xb9ac0000
	umulh x11,x11,x12
	movk x10,#0xd,lsl #32
	umulh x12,x13,x12
	csinv x11,x11,x12,eq
	mov w12,#0x640000
	cmp x11,x10
	umaddl x15,w9,w12,x14
	csel x10,x11,x10,gt
	mov x11,#0xcad40000
	umull x13,w9,w12
	movk x11,#0x10,lsl #32
	cmp x10,x11
	csel x12,x10,x11,lt
	ldp x10,x11,[x20,#80]
	add x14,x12,x14
	cmp x12,x15
	ccmp x13,x14,#0x2,ls
	b.ls 6f
	mov x13,#0x3d71
	add x9,x12,#0x320,lsl #12
	movk x13,#0xd70a,lsl #16
	lsr x9,x9,#18
	movk x13,#0x70a3,lsl #32
	movk x13,#0xa3d,lsl #48
	umulh x9,x9,x13
	mov w13,#0x2328
	cmp x9,x13
	csel x9,x9,x13,hi
	mov w13,#0x2af8
	cmp x9,x13
	csel x9,x9,x13,cc
	mov w13,#0x640000
	mul x13,x9,x13
6:
	mov x14,#0xffffffffffff0000
	mov x15,#0xffffffffffff0000
	mov w16,#0x1f40000
	movk x14,#0xfe0c,lsl #16
	movk x15,#0xff9c,lsl #16
	mov w17,#0x640000
	cmp x10,x14
	madd x12,x9,x15,x12
	csel x15,x10,x14,gt
	cmp x15,x16
	csel x15,x15,x16,lt
	madd x17,x11,x17,x15
	and x15,x15,#0xffff
	cmp x12,x14
	umull x15,w15,w8
	csel x14,x12,x14,gt
	cmp x14,x16
	lsr x17,x17,#16
	csel x14,x14,x16,lt
	add x13,x14,x13
	and x14,x14,#0xffff
	mul x16,x17,x8
	lsr x13,x13,#16
	mul x13,x13,x8
	umull x8,w14,w8
	add x14,x16,x15,lsr #16
	mov x15,#0x34db
	movk x15,#0xd7b6,lsl #16
	movk x15,#0xde82,lsl #32
	add x8,x13,x8,lsr #16
	movk x15,#0x431b,lsl #48
	umulh x14,x14,x15
	umulh x8,x8,x15
	lsr x13,x14,#18
	lsr x8,x8,#18
	cmp w13,w8
	b.ne 7f
	mov w11,wzr
	mov x8,xzr
	mov w22,wzr
	mov x21,xzr
	b 8f
7:
	cmp x11,x9
	cset w11,ne
	csel x8,x9,xzr,ne
	cmp x10,x12
	cset w22,ne
	csel x21,x12,xzr,ne
8:
	cmp w11,#0x0
	mov w10,#0x4
	mov w9,w11
	csel x10,xzr,x10,eq
	csel x8,xzr,x8,eq
	mov x2,sp
	mov x0,x20
	mov x1,x19
	stp x9,x10,[sp]
	stp x8,xzr,[sp,#16]
	bl .Ltk_ntp.course.giving.give_any
	cmp w22,#0x0
	mov w9,#0x3
	mov w8,w22
	csel x9,xzr,x9,eq
	mov x2,sp
	mov x0,x20
	stp x8,x9,[sp]
	csel x8,xzr,x21,eq
	mov x1,x19
	stp x8,xzr,[sp,#16]
	bl .Ltk_ntp.course.giving.give_any
	ldp x20,x19,[sp,#64]
	ldp x22,x21,[sp,#48]
	ldp x29,x30,[sp,#32]
	add sp,sp,#0x50
	ret
9:
	brk #0x1

function "tk_ntp::course::giving::give_any::<#168be072fac5bef1>",4,352
.Ltk_ntp.course.giving.give_any:
	ldrb w8,[x2]
	cmp w8,#0x1
	b.ne 7f
	sub sp,sp,#0x40
	ldrb w8,[x2,#8]
	ldr q0,[x2,#16]
	stp x29,x30,[sp,#32]
	str x19,[sp,#48]
	add x29,sp,#0x20
	str x8,[sp,#8]
	stur q0,[sp,#16]
	cbz x8,2f
	add x2,sp,#0x8
	mov x19,x0
	bl "tk_clock::clock::Clock::apply_any"
	tst w0,#0xff
	mov x0,x19
	b.ne 6f
1:
	ldr x8,[x0,#96]
	add x8,x8,#0x1
	str x8,[x0,#96]
	b 6f
2:
	ldrb w8,[x0,#76]
	tbnz w8,#0,6f
	ldr w8,[x0]
	mov x9,#0xffffffffffffffff
	neg w8,w8
	lsr x8,x9,x8
	cmp x8,x1
	b.cc 6f
	ldr x9,[x0,#16]
	sub x9,x1,x9
	and x10,x9,x8
	sub x8,x8,x10
	cmp x8,x10
	b.cc 6f
	lsr x8,x10,#31
	cbnz x8,5f
	ldp w11,w8,[x0,#8]
	ldr x9,[x0,#40]
	madd x9,x10,x8,x9
	mov w8,#0xca00
	movk w8,#0x3b9a,lsl #16
	lsl x12,x8,x11
	ldr x8,[x0,#32]
	subs x11,x9,x12
	b.cc 3f
	cmp x11,x12
	b.cs 5f
	add x8,x8,#0x1
	mov x9,x11
3:
	ldr w11,[x0,#4]
	ldr x13,[x0,#56]
	madd x11,x10,x11,x13
	ldr x10,[x0,#48]
	subs x13,x11,x12
	b.cc 4f
	cmp x13,x12
	b.cs 5f
	add x10,x10,#0x1
	mov x11,x13
4:
	mov w12,#0x8ff
	movk w12,#0x3864,lsl #16
	cmp x8,x12
	b.ls 8f
5:
	mov x19,x0
	bl "tk_clock::clock::Clock::update_late"
	tst w0,#0xff
	mov x0,x19
	b.eq 1b
6:
	ldp x29,x30,[sp,#32]
	ldr x19,[sp,#48]
	add sp,sp,#0x40
7:
	ret
8:
	mov x12,#0xe801
	ldr x13,[x0,#24]
	movk x12,#0x6378,lsl #16
	movk x12,#0x7e4d,lsl #32
	movk x12,#0x72de,lsl #48
	cmp x13,x12
	b.cs 5b
	ldr x13,[x0,#64]
	cmp x13,x12
	b.cs 5b
	str x1,[x0,#16]
	stp x8,x9,[x0,#32]
	stp x10,x11,[x0,#48]
	b 1b

function "tk_ntp::course::Course::command::<#168be072fac5bef1>",4,1164
.Ltk_ntp.course.Course.command:
	sub sp,sp,#0xb0
	stp x24,x23,[sp,#128]
	ldur x24,[x1,#4]
	ldur q0,[x3,#8]
	stp x26,x25,[sp,#112]
	ldrb w26,[x3]
	ldr w25,[x1]
	lsr x23,x24,#32
	stp x22,x21,[sp,#144]
	mov x21,x1
	ldr w22,[x1,#12]
	stp x20,x19,[sp,#160]
	mov x19,x2
	mov x20,x0
	stp x29,x30,[sp,#96]
	add x29,sp,#0x60
	str x26,[sp,#8]
	stur q0,[sp,#16]
	cbz w26,1f
	add x2,sp,#0x8
	mov x0,x21
	mov x1,x19
	bl "tk_clock::clock::Clock::apply_any"
	tst w0,#0xff
	b.ne 17f
	b 8f
1:
	ldrb w8,[x21,#76]
	tbz w8,#0,2f
	mov w1,#0x1
	mov w0,#0x1
	tst w0,#0xff
	b.ne 17f
	b 8f
2:
	neg w8,w25
	mov x9,#0xffffffffffffffff
	lsr x8,x9,x8
	cmp x8,x19
	b.cs 3f
	mov w0,#0x1
	mov w1,#0x3
	tst w0,#0xff
	b.ne 17f
	b 8f
3:
	ldr x9,[x21,#16]
	sub x9,x19,x9
	and x10,x9,x8
	sub x8,x8,x10
	cmp x8,x10
	b.cs 4f
	mov w0,#0x1
	mov w1,#0x4
	tst w0,#0xff
	b.ne 17f
	b 8f
4:
	lsr x8,x10,#31
	cbnz x8,7f
	ldr x8,[x21,#40]
	madd x9,x10,x22,x8
	mov w8,#0xca00
	movk w8,#0x3b9a,lsl #16
	lsl x12,x8,x23
	ldr x8,[x21,#32]
	subs x11,x9,x12
	b.cc 5f
	cmp x11,x12
	b.cs 7f
	add x8,x8,#0x1
	mov x9,x11
5:
	mov w11,w24
	ldr x13,[x21,#56]
	madd x11,x10,x11,x13
	ldr x10,[x21,#48]
	subs x13,x11,x12
	b.cc 6f
	cmp x13,x12
	b.cs 7f
	add x10,x10,#0x1
	mov x11,x13
6:
	mov w12,#0x8ff
	movk w12,#0x3864,lsl #16
	cmp x8,x12
	b.ls 20f
7:
	mov x0,x21
	mov x1,x19
	bl "tk_clock::clock::Clock::update_late"
	tst w0,#0xff
	b.ne 17f
8:
	ldr x8,[x21,#96]
	mov w9,#0xb9
	add x8,x8,#0x1
	str x8,[x21,#96]
	mov w8,#0x1
	lsl w8,w8,w26
	tst w8,w9
	b.eq 11f
	ldr x8,[x20,#112]
	neg w9,w25
	str w25,[sp,#8]
	ldp x1,x3,[x20,#88]
	stur x24,[sp,#12]
	sub x8,x19,x8
	lsl x8,x8,x9
	lsr x5,x8,x9
	ldr x8,[x20,#80]
	lsr x9,x5,#27
	cbnz x9,9f
	mov w9,w24
	mul x10,x5,x22
	mov x13,#0x360000000000
	movk x13,#0xc465,lsl #48
	asr x15,x3,#63
	mul x9,x5,x9
	umulh x14,x10,x13
	umulh x11,x9,x3
	mul x12,x9,x3
	mul x13,x10,x13
	sub x10,x14,x10
	madd x9,x9,x15,x11
	adds x11,x13,x12
	mov w12,#0xca00
	mov x13,#0xf000000000000000
	movk w12,#0x3b9a,lsl #16
	adc x10,x10,x9
	adds x9,x11,x1
	lsl x11,x12,x23
	adc x10,x10,x8
	add x12,x10,x11,lsr #5
	add x12,x12,x13
	cmp x12,x11,lsr #4
	b.cc 10f
9:
	add x2,sp,#0x8
	mov w21,w0
	mov x0,x8
	mov w4,w22
	bl "tk_ntp::lag::Lag::accounted_late"
	mov x10,x0
	mov w0,w21
	mov x9,x1
10:
	mov w1,wzr
	stp x10,x9,[x20,#80]
	str x19,[x20,#112]
	b 17f
11:
	mov w9,#0x46
	tst w8,w9
	b.eq 13f
	mov w8,#0x2400
	stur xzr,[x20,#20]
	movk w8,#0xf4,lsl #16
	stur xzr,[x20,#12]
	dup v0.2s,w8
	str wzr,[x20,#28]
	ldp w8,w9,[x20]
	stp xzr,xzr,[x20,#64]
	orr w9,w9,#0x40
	stur d0,[x20,#36]
	str w9,[x20,#4]
	adrp x9,.rodata.cst16
	ldr q0,[x9,:lo12:.rodata.cst16]
	str q0,[x20,#80]
	cbz w8,19f
	ldr w9,[x20,#44]
	mov x10,#0x86a000000000
	ldr x11,[x20,#48]
	movk x10,#0x1,lsl #48
	str xzr,[sp,#8]
	madd x9,x9,x10,x11
	udiv x9,x9,x8
	mul x8,x9,x8
	mov x9,#0xffffffffffffffff
	str x8,[x20,#96]
	ldp q0,q1,[x21]
	stp q0,q1,[sp,#16]
	ldp q0,q1,[x21,#32]
	ldr w8,[sp,#16]
	neg w8,w8
	stp q0,q1,[sp,#48]
	ldr q0,[x21,#64]
	lsr x8,x9,x8
	stur q0,[sp,#80]
	cmp x8,x19
	b.cc 19f
	ldrb w9,[sp,#92]
	mov w22,w0
	tbnz w9,#0,18f
	ldr x9,[sp,#32]
	sub x9,x19,x9
	and x9,x9,x8
	sub x8,x8,x9
	cmp x8,x9
	b.cc 18f
	ldp x8,x10,[sp,#48]
	lsr x12,x9,#31
	ldr x9,[sp,#40]
	ldr w11,[sp,#24]
	cbz x12,14f
	lsr x12,x10,#63
	lsr x12,x12,x11
	cbz x12,14f
12:
	mov x10,#0xc000000000000000
	b 15f
13:
	ldp q0,q1,[x21]
	mov x9,#0xffffffffffffffff
	str xzr,[sp,#8]
	stp q0,q1,[sp,#16]
	ldp q0,q1,[x21,#32]
	ldr w8,[sp,#16]
	neg w8,w8
	stp q0,q1,[sp,#48]
	ldr q0,[x21,#64]
	lsr x8,x9,x8
	stur q0,[sp,#80]
	cmp x8,x19
	b.cc 19f
	ldrb w9,[sp,#92]
	mov w22,w0
	tbnz w9,#0,18f
	ldr x9,[sp,#32]
	sub x9,x19,x9
	and x9,x9,x8
	sub x8,x8,x9
	cmp x8,x9
	b.cc 18f
	ldp x8,x10,[sp,#48]
	lsr x12,x9,#31
	ldr x9,[sp,#40]
	ldr w11,[sp,#24]
	cbz x12,14f
	lsr x12,x10,#63
	lsr x12,x12,x11
	cbnz x12,12b
14:
	lsr x10,x10,x11
15:
	mov w11,#0xca00
	movk w11,#0x3b9a,lsl #16
	madd x8,x8,x11,x10
	adds x8,x9,x8
	csinv x0,x8,xzr,cc
	mov x8,#0xffffffffffff2800
	movk x8,#0xcd0d,lsl #16
	movk x8,#0x7fff,lsl #48
	cmp x0,x8
	b.cs 19f
16:
	mov x9,#0x5a53
	lsr x8,x0,#9
	mov x0,x20
	movk x9,#0xa09b,lsl #16
	mov x1,x21
	mov x2,x19
	movk x9,#0xb82f,lsl #32
	movk x9,#0x44,lsl #48
	umulh x8,x8,x9
	lsr x8,x8,#11
	add x8,x8,#0x1
	stp x8,x19,[x20,#104]
	bl .Ltk_ntp.course.Course.steer
	mov w1,wzr
	mov w0,w22
17:
	ldp x20,x19,[sp,#160]
	ldp x22,x21,[sp,#144]
	ldp x24,x23,[sp,#128]
	ldp x26,x25,[sp,#112]
	ldp x29,x30,[sp,#96]
	add sp,sp,#0xb0
	ret
18:
	add x8,sp,#0x8
	mov w1,#0x4
	add x0,x8,#0x8
	bl "tk_clock::read_base::ReadBase::nanos_at_last"
	mov x8,#0xffffffffffff2800
	movk x8,#0xcd0d,lsl #16
	movk x8,#0x7fff,lsl #48
	cmp x0,x8
	b.cc 16b
19:
	brk #0x1
20:
	mov x12,#0xe801
	ldr x13,[x21,#24]
	movk x12,#0x6378,lsl #16
	movk x12,#0x7e4d,lsl #32
	movk x12,#0x72de,lsl #48
	cmp x13,x12
	b.cs 7b
	ldr x13,[x21,#64]
	cmp x13,x12
	b.cs 7b
	mov w1,wzr
	mov w0,wzr
	str x19,[x21,#16]
	stp x8,x9,[x21,#32]
	stp x10,x11,[x21,#48]
	tst wzr,#0xff
	b.ne 17b
	b 8b

function "tk_ntp::course::Course::request::<#168be072fac5bef1>",4,1972
.Ltk_ntp.course.Course.request:
	sub sp,sp,#0xd0
	ldp q0,q1,[x2]
	mov x9,#0xffffffffffffffff
	str d8,[sp,#96]
	stp x29,x30,[sp,#112]
	add x29,sp,#0x70
	stp q0,q1,[sp,#16]
	ldp q0,q1,[x2,#32]
	ldr w8,[sp,#16]
	stp x28,x27,[sp,#128]
	stp x26,x25,[sp,#144]
	neg w8,w8
	stp q0,q1,[sp,#48]
	ldr q0,[x2,#64]
	lsr x8,x9,x8
	stp x24,x23,[sp,#160]
	stp x22,x21,[sp,#176]
	cmp x8,x3
	stp x20,x19,[sp,#192]
	stur q0,[sp,#80]
	str xzr,[sp,#8]
	b.cs 1f
	mov w8,#0x3
	b 8f
1:
	ldrb w9,[sp,#92]
	mov w25,#0xca00
	mov x19,x3
	movk w25,#0x3b9a,lsl #16
	tbnz w9,#0,6f
	ldr x9,[sp,#32]
	sub x9,x19,x9
	and x10,x9,x8
	sub x8,x8,x10
	cmp x8,x10
	b.cc 6f
	ldp x8,x12,[sp,#48]
	lsr x14,x10,#31
	ldp w11,w13,[sp,#24]
	ldr x9,[sp,#40]
	cbnz x14,2f
	madd x10,x10,x13,x12
	lsr x10,x10,x11
	b 4f
2:
	mul x14,x13,x10
	umulh x13,x13,x10
	adds x10,x14,x12
	cinc x12,x13,cs
	extr x13,x12,x10,#63
	lsr x13,x13,x11
	cbz x13,3f
	mov x10,#0xc000000000000000
	b 4f
3:
	lsl x12,x12,#1
	mvn w13,w11
	lsr x10,x10,x11
	lsl x11,x12,x13
	orr x10,x11,x10
4:
	madd x8,x8,x25,x10
	adds x8,x9,x8
	csinv x18,x8,xzr,cc
	mov x8,#0xffffffffffff27ff
	movk x8,#0xcd0d,lsl #16
	movk x8,#0x7fff,lsl #48
	cmp x18,x8
	b.hi 7f
5:
	ldr w24,[x4]
	mov w8,#0x8080
	ldr w6,[x2,#72]
	and w8,w24,w8
	cmp w8,#0x80
	b.ne 10f
	ldr x8,[x4,#48]
	mov w9,#0x86a0
	movk w9,#0x1,lsl #16
	cmp x8,x9
	b.hi 10f
	cmp w6,w8
	b.eq 10f
	mov x22,x1
	mov x21,x0
	mov w9,#0x5
	mov x0,x2
	add x2,sp,#0x8
	mov x1,x19
	mov w26,w6
	mov x20,x18
	mov x23,x4
	stp x9,x8,[sp,#8]
	mov x24,x0
	str xzr,[sp,#24]
	bl "tk_clock::clock::Clock::apply_any"
	tst w0,#0xff
	b.eq 9f
	movi v0.2d,#0x0
	mov w8,#0x1
	strb w1,[x21,#1]
	strb w8,[x21]
	str xzr,[x21,#88]
	stur q0,[x21,#8]
	stur q0,[x21,#24]
	stur q0,[x21,#40]
	stur q0,[x21,#56]
	stur q0,[x21,#72]
	b 40f
6:
	add x8,sp,#0x8
	mov x21,x0
	mov x20,x1
	add x0,x8,#0x8
	mov w1,wzr
	mov x22,x2
	mov x23,x4
	bl "tk_clock::read_base::ReadBase::nanos_at_last"
	mov x4,x23
	mov x1,x20
	mov x2,x22
	mov x18,x0
	mov x0,x21
	mov x8,#0xffffffffffff27ff
	movk x8,#0xcd0d,lsl #16
	movk x8,#0x7fff,lsl #48
	cmp x18,x8
	b.ls 5b
7:
	mov w8,#0x5
8:
	movi v0.2d,#0x0
	mov w9,#0x1
	strb w8,[x0,#1]
	strb w9,[x0]
	str xzr,[x0,#88]
	stur q0,[x0,#8]
	stur q0,[x0,#24]
	stur q0,[x0,#40]
	stur q0,[x0,#56]
	stur q0,[x0,#72]
	b 40f
9:
	ldr x8,[x24,#96]
	mov x2,x24
	mov x4,x23
	mov x0,x21
	mov x1,x22
	mov x18,x20
	add x8,x8,#0x1
	mov w6,w26
	str x8,[x24,#96]
	ldr w24,[x23]
10:
	mov x9,#0x5a53
	lsr x8,x18,#9
	movk x9,#0xa09b,lsl #16
	movk x9,#0xb82f,lsl #32
	movk x9,#0x44,lsl #48
	umulh x8,x8,x9
	lsr x28,x8,#11
	cbz w24,14f
	tbnz w24,#15,14f
	ldr w9,[x2]
	ldr x8,[x1,#112]
	ldr x3,[x1,#96]
	sub x8,x19,x8
	neg w10,w9
	str w9,[sp,#8]
	lsl x8,x8,x10
	ldr x9,[x1,#80]
	lsr x5,x8,x10
	ldur x10,[x2,#4]
	ldr w8,[x2,#12]
	lsr x11,x5,#27
	stur x10,[sp,#12]
	cbz x11,11f
	ldr x10,[x1,#88]
	b 12f
11:
	mov w11,w10
	mul x12,x5,x8
	mov x15,#0x360000000000
	movk x15,#0xc465,lsl #48
	asr x17,x3,#63
	mul x11,x5,x11
	umulh x16,x12,x15
	umulh x13,x11,x3
	mul x14,x11,x3
	mul x15,x12,x15
	sub x12,x16,x12
	madd x11,x11,x17,x13
	lsr x13,x10,#32
	ldr x10,[x1,#88]
	lsl x13,x25,x13
	adds x14,x15,x14
	mov x15,#0xf000000000000000
	adc x12,x12,x11
	adds x11,x14,x10
	adc x12,x12,x9
	add x14,x12,x13,lsr #5
	add x14,x14,x15
	cmp x14,x13,lsr #4
	b.cc 13f
12:
	mov x22,x2
	add x2,sp,#0x8
	mov x24,x0
	mov x0,x9
	mov x21,x1
	mov x1,x10
	mov x23,x4
	mov w4,w8
	mov x20,x18
	mov w25,w6
	bl "tk_ntp::lag::Lag::accounted_late"
	mov w6,w25
	mov x18,x20
	mov x4,x23
	mov x2,x22
	mov x12,x0
	mov x0,x24
	mov x11,x1
	mov x1,x21
13:
	stp x12,x11,[x1,#80]
	str x19,[x1,#112]
	ldr w24,[x4]
14:
	tbnz w24,#15,15f
	tbz w24,#4,18f
	ldr w9,[x1,#4]
	ldr w8,[x4,#40]
	and w10,w9,#0x1
	tbnz w8,#0,16f
	cbz w10,16f
	stp xzr,xzr,[x1,#8]
	mov w9,#0x40
	b 17f
15:
	ldr x20,[x1,#64]
	tbnz w24,#13,36f
	ldr x8,[x4,#8]
	str x8,[x1,#64]
	ldr w24,[x4]
	b 36f
16:
	tbz w8,#0,17f
	cbnz w10,17f
	str x28,[x1,#56]
17:
	lsr w9,w9,#8
	bfi w8,w9,#8,#8
	str w8,[x1,#4]
	ldr w24,[x4]
18:
	tbnz w24,#12,23f
	tbnz w24,#13,24f
	ldr w8,[x4]
	tbnz w8,#1,25f
19:
	tbnz w8,#2,26f
20:
	tbnz w8,#3,27f
21:
	tbnz w8,#5,28f
22:
	tbnz w8,#0,29f
	b 33f
23:
	ldr w8,[x1,#4]
	and w8,w8,#0xffffdfff
	str w8,[x1,#4]
	ldr w8,[x4]
	tbz w8,#1,19b
	b 25f
24:
	ldr w8,[x1,#4]
	orr w8,w8,#0x2000
	str w8,[x1,#4]
	ldr w8,[x4]
	tbz w8,#1,19b
25:
	ldr x8,[x4,#16]
	mov x9,#0xffffffffffff0000
	movk x9,#0xfe0c,lsl #16
	cmp x8,x9
	csel x8,x8,x9,gt
	mov w9,#0x1f40000
	cmp x8,x9
	csel x8,x8,x9,lt
	mov w9,#0x3e80000
	mul x8,x8,x9
	str x8,[x1,#48]
	ldr w8,[x4]
	tbz w8,#2,20b
26:
	ldr x8,[x4,#24]
	mov w9,#0x2400
	movk w9,#0xf4,lsl #16
	bic x8,x8,x8,asr #63
	cmp x8,x9
	csel x8,x8,x9,lt
	str w8,[x1,#36]
	ldr w8,[x4]
	tbz w8,#3,21b
27:
	ldr x8,[x4,#32]
	mov w9,#0x2400
	movk w9,#0xf4,lsl #16
	bic x8,x8,x8,asr #63
	cmp x8,x9
	csel x8,x8,x9,lt
	str w8,[x1,#40]
	ldr w8,[x4]
	tbz w8,#5,22b
28:
	ldr x8,[x4,#48]
	mov w9,#0xa
	mov w10,#0x6
	bic x8,x8,x8,asr #63
	cmp x8,#0xa
	csel x8,x8,x9,lt
	ldr w9,[x1,#4]
	cmp w8,#0x6
	csel w10,w8,w10,cc
	tst w9,#0x2000
	add w10,w10,#0x4
	csel w8,w10,w8,eq
	str w8,[x1,#32]
	ldr w8,[x4]
	tbz w8,#0,33f
29:
	ldr w9,[x1,#4]
	tbz w9,#0,33f
	ldr x8,[x4,#8]
	tbnz w9,#13,30f
	mov x10,#0xffffffffffffbdc0
	mov w11,#0x4240
	mov x12,#0xffffffffffff5ee0
	movk x10,#0xfff0,lsl #16
	movk w11,#0xf,lsl #16
	movk x12,#0xfff8,lsl #16
	cmp x8,x10
	csel x10,x8,x10,gt
	cmp x10,x11
	csel x10,x10,x11,lt
	mov w11,#0x3e8
	mul x10,x10,x11
	mov w11,#0x6500
	movk w11,#0x1dcd,lsl #16
	cmp x10,x11
	csel x10,x10,x11,lt
	cmp x8,x12
	mov x8,#0xffffffffffff9b00
	movk x8,#0xe232,lsl #16
	b 31f
30:
	mov x10,#0xffffffffffff9b00
	movk x10,#0xe232,lsl #16
	cmp x8,x10
	csel x8,x8,x10,gt
	mov w10,#0x6500
	movk w10,#0x1dcd,lsl #16
	cmp x8,x10
31:
	ldp x11,x12,[x1,#48]
	csel x8,x8,x10,lt
	ubfx w14,w9,#3,#1
	mov x10,xzr
	str x28,[x1,#56]
	subs x12,x28,x12
	csel x13,xzr,x12,cc
	tst w9,#0x80
	and w9,w9,#0xffffbfff
	csel x12,x13,xzr,eq
	cmp x12,#0xff
	cset w15,hi
	cmp x12,#0x800
	csinc w14,w14,wzr,ls
	ands w14,w15,w14
	mov w15,#0x4000
	csel w15,w15,wzr,ne
	orr w9,w15,w9
	str w9,[x1,#4]
	ldr w9,[x1,#32]
	cbz w14,32f
	lsl x10,x8,#30
	sdiv x10,x10,x13
32:
	mov w13,#0x8
	mov w14,#0x18
	lsl x13,x13,x9
	sub w9,w14,w9,lsl #1
	cmp x13,x12
	csel x12,x13,x12,cc
	lsl x9,x12,x9
	madd x9,x9,x8,x11
	mov x11,#0xa12000000000
	movk x11,#0x7,lsl #48
	add x9,x9,x10
	mov x10,#0x5ee000000000
	movk x10,#0xfff8,lsl #48
	cmp x9,x10
	csel x10,x9,x10,gt
	ldr w9,[x1]
	cmp x10,x11
	csel x10,x10,x11,lt
	str x10,[x1,#48]
	cbz w9,41f
	lsl x8,x8,#32
	sdiv x8,x8,x9
	str x8,[x1,#24]
	ldr w8,[x4]
33:
	tbz w8,#14,34f
	ldr x8,[x4,#56]
	str w8,[x1,#44]
34:
	ldr x8,[x1,#24]
	ldr w9,[x1]
	mul x8,x8,x9
	mov w9,#0xffffffff
	add x9,x8,x9
	cmp x8,#0x0
	csel x8,x9,x8,mi
	ldrb w9,[x1,#5]
	asr x20,x8,#32
	tbnz w9,#5,35f
	mov w8,#0x4dd3
	movk w8,#0x1062,lsl #16
	smull x8,w20,w8
	asr x9,x8,#38
	add x8,x9,x8,lsr #63
	sxtw x20,w8
35:
	ldr w24,[x4]
	tbz w24,#7,36f
	ldr x8,[x4,#48]
	mov w9,#0x86a0
	movk w9,#0x1,lsl #16
	cmp x8,x9
	csel w6,w6,w8,hi
36:
	ldr w26,[x1,#4]
	mov w8,#0x1040
	tst w26,w8
	b.eq 37f
	mov w23,#0x5
	ldr x22,[x1,#48]
	ldur d8,[x1,#36]
	ldr w21,[x1,#32]
	ldr w27,[x1,#44]
	cbnz w24,38f
	b 39f
37:
	ldr w8,[x1,#8]
	mov w9,#0x4
	cmp w8,#0x4
	csel w23,w8,w9,cc
	ldr x22,[x1,#48]
	ldur d8,[x1,#36]
	ldr w21,[x1,#32]
	ldr w27,[x1,#44]
	cbz w24,39f
38:
	ldr w8,[x1]
	cbz w8,41f
	mov x9,#0x86a000000000
	ldr x10,[x1,#72]
	movk x9,#0x1,lsl #48
	madd x9,x27,x9,x22
	udiv x9,x9,x8
	add x9,x9,x10
	mul x8,x9,x8
	mov w9,#0x4003
	str x8,[x1,#96]
	ldr w8,[x4]
	tst w8,w9
	b.eq 39f
	tbnz w8,#15,39f
	stur x0,[x29,#-8]
	mov x0,x1
	mov x1,x2
	mov x2,x19
	mov x19,x18
	mov w25,w6
	bl .Ltk_ntp.course.Course.steer
	ldur x0,[x29,#-8]
	mov w6,w25
	mov x18,x19
39:
	asr x8,x22,#19
	mov w9,#0x49bb
	mov w10,#0xffffffff
	movk w9,#0x20c,lsl #16
	mov w11,#0x4dd3
	uxtl v0.2d,v8.2s
	mul x8,x8,x9
	mov w9,#0xca00
	movk w11,#0x1062,lsl #16
	movk w9,#0x3b9a,lsl #16
	strb w23,[x0,#8]
	msub w9,w28,w9,w18
	strh wzr,[x0]
	sturh wzr,[x0,#9]
	strb wzr,[x0,#11]
	add x10,x8,x10
	cmp x8,#0x0
	stp w6,w24,[x0,#12]
	csel x8,x10,x8,mi
	umull x10,w9,w11
	tst w26,#0x2000
	asr x8,x8,#32
	str wzr,[x0,#20]
	stp w26,wzr,[x0,#56]
	stp x20,x8,[x0,#24]
	lsr x8,x10,#38
	stur q0,[x0,#40]
	csel w8,w8,w9,eq
	stp x21,x27,[x0,#64]
	stp x28,x8,[x0,#80]
40:
	ldp x20,x19,[sp,#192]
	ldr d8,[sp,#96]
	ldp x22,x21,[sp,#176]
	ldp x24,x23,[sp,#160]
	ldp x26,x25,[sp,#144]
	ldp x28,x27,[sp,#128]
	ldp x29,x30,[sp,#112]
	add sp,sp,#0xd0
	ret
41:
	brk #0x1

function "tk_c::clocks::apply_other",4,432
	cmp w2,#0x4
	mov w8,#0x10
	b.gt 1f
	cmp w2,#0x2
	b.gt 2f
	cmp w2,#0x1
	b.eq 4f
	cmp w2,#0x2
	b.ne 11f
	mov w8,#0x2
	ldr x9,[x0,#96]
	mov x10,#0x7ffffffffffffffe
	cmp x9,x10
	b.ls 7f
	b 10f
1:
	cmp w2,#0x6
	b.gt 3f
	cmp w2,#0x5
	b.eq 5f
	cmp w2,#0x6
	b.ne 11f
	mov x3,xzr
	mov w4,wzr
	mov w8,#0x7
	ldr x9,[x0,#96]
	mov x10,#0x7ffffffffffffffe
	cmp x9,x10
	b.ls 7f
	b 10f
2:
	cmp w2,#0x3
	b.eq 6f
	cmp w2,#0x4
	b.ne 11f
	mov w4,wzr
	mov w8,#0x4
	ldr x9,[x0,#96]
	mov x10,#0x7ffffffffffffffe
	cmp x9,x10
	b.ls 7f
	b 10f
3:
	cmp w2,#0x7
	b.eq 9f
	cmp w2,#0x8
	b.ne 11f
	mov w8,#0x6
	ldr x9,[x0,#96]
	mov x10,#0x7ffffffffffffffe
	cmp x9,x10
	b.ls 7f
	b 10f
4:
	mov w8,w2
	ldr x9,[x0,#96]
	mov x10,#0x7ffffffffffffffe
	cmp x9,x10
	b.ls 7f
	b 10f
5:
	mov w4,wzr
	mov w8,#0x5
	ldr x9,[x0,#96]
	mov x10,#0x7ffffffffffffffe
	cmp x9,x10
	b.ls 7f
	b 10f
6:
	mov w4,wzr
	mov w8,#0x3
	ldr x9,[x0,#96]
	mov x10,#0x7ffffffffffffffe
	cmp x9,x10
	b.hi 10f
7:
	sub sp,sp,#0x40
	stp x8,x3,[sp,#8]
	mov w8,w4
	add x2,sp,#0x8
	stp x29,x30,[sp,#32]
	add x29,sp,#0x20
	str x19,[sp,#48]
	mov x19,x0
	str x8,[sp,#24]
	bl "tk_clock::clock::Clock::apply_any"
	tst w0,#0xff
	b.eq 8f
	adrp x8,.rodata..Lswitch.table.tkc_ntp_change_counter
	add x8,x8,:lo12:.rodata..Lswitch.table.tkc_ntp_change_counter
	add x8,x8,w1,sxtb #2
	ldr w8,[x8,#4]
	ldp x29,x30,[sp,#32]
	ldr x19,[sp,#48]
	add sp,sp,#0x40
	mov w0,w8
	ret
8:
	ldr x9,[x19,#96]
	mov w8,wzr
	add x9,x9,#0x1
	str x9,[x19,#96]
	ldp x29,x30,[sp,#32]
	ldr x19,[sp,#48]
	add sp,sp,#0x40
	mov w0,w8
	ret
9:
	mov w8,#0x8
	ldr x9,[x0,#96]
	mov x10,#0x7ffffffffffffffe
	cmp x9,x10
	b.ls 7b
10:
	mov w0,#0x1
	ret
11:
	mov w0,w8
	ret

function "tk_clock::clock::Clock::change_counter",4,1028
	sub sp,sp,#0x80
	stp x22,x21,[sp,#96]
	ldr x22,[x2]
	mov x8,#0xffffffffffffffff
	stp x29,x30,[sp,#32]
	add x29,sp,#0x20
	neg w9,w22
	stp x28,x27,[sp,#48]
	lsr x9,x8,x9
	stp x26,x25,[sp,#64]
	stp x24,x23,[sp,#80]
	cmp x9,x3
	stp x20,x19,[sp,#112]
	b.cs 4f
1:
	mov w1,#0x3
2:
	mov w0,#0x1
3:
	ldp x20,x19,[sp,#112]
	ldp x22,x21,[sp,#96]
	ldp x24,x23,[sp,#80]
	ldp x26,x25,[sp,#64]
	ldp x28,x27,[sp,#48]
	ldp x29,x30,[sp,#32]
	add sp,sp,#0x80
	ret
4:
	ldr w9,[x0]
	ldrb w10,[x0,#76]
	ldr w21,[x2,#8]
	neg w9,w9
	lsr x8,x8,x9
	tbz w10,#0,6f
	cmp x8,x1
	b.cc 1b
	ldp x12,x8,[x0,#24]
	ldr w19,[x0,#8]
	ldp x23,x13,[x0,#40]
	ldp x10,x9,[x0,#56]
	ldp w11,w14,[x0,#72]
5:
	lsr x15,x22,#32
	mov w16,#0xb9ac
	mov x17,#0xf6c7
	movk w16,#0xd,lsl #16
	movk x17,#0xd05a,lsl #16
	mov w18,#0xca00
	umull x16,w15,w16
	movk x17,#0x637b,lsl #32
	movk w18,#0x3b9a,lsl #16
	movk x17,#0x8,lsl #48
	lsl x18,x18,x21
	sub w1,w21,w19
	subs w2,w19,w21
	lsl x4,x10,x1
	lsl x1,x23,x1
	umulh x16,x16,x17
	lsr x10,x10,x2
	lsr x2,x23,x2
	mul x17,x13,x18
	csel x10,x10,x4,hi
	umulh x5,x13,x18
	lsr x4,x16,#7
	csel x16,x2,x1,hi
	adds x17,x17,x10
	umulh x1,x17,x4
	cinc x2,x5,cs
	mul x17,x17,x4
	madd x1,x2,x4,x1
	mul x2,x8,x18
	umulh x18,x8,x18
	adds x2,x2,x16
	umulh x4,x2,x15
	cinc x18,x18,cs
	mul x2,x2,x15
	madd x18,x18,x15,x4
	cmp x2,x17
	sbcs xzr,x18,x1
	b.cc 18f
	ldp x18,x4,[x0,#80]
	mov x2,#0xffffffffffff0000
	movk x2,#0xfe0c,lsl #16
	mov w5,#0x1f40000
	stp x3,x12,[x0,#16]
	mov x12,#0x34db
	stp x8,x16,[x0,#32]
	mov w1,wzr
	cmp x18,x2
	movk x12,#0xd7b6,lsl #16
	str x22,[x0]
	csel x18,x18,x2,gt
	mov w2,#0x640000
	movk x12,#0xde82,lsl #32
	cmp x18,x5
	movk x12,#0x431b,lsl #48
	stp x13,x10,[x0,#48]
	csel x18,x18,x5,lt
	madd x2,x4,x2,x18
	str x9,[x0,#64]
	and x18,x18,#0xffff
	str w11,[x0,#72]
	strb w14,[x0,#76]
	sturh wzr,[x0,#77]
	strb wzr,[x0,#79]
	lsr x2,x2,#16
	mul x2,x2,x15
	umull x15,w18,w15
	add x8,x2,x15,lsr #16
	umulh x8,x8,x12
	lsr x8,x8,#18
	stp w21,w8,[x0,#8]
	mov w0,wzr
	b 3b
6:
	cmp x8,x1
	b.cc 1b
	ldr x9,[x0,#16]
	sub x9,x1,x9
	and x20,x9,x8
	sub x8,x8,x20
	cmp x8,x20
	b.cs 7f
	mov w1,#0x4
	b 2b
7:
	ldr w4,[x0,#12]
	ldp x24,x2,[x0,#32]
	umulh x8,x4,x20
	cmp xzr,x8
	b.ne 8f
	mul x8,x20,x4
	adds x23,x2,x8
	b.cc 9f
8:
	ldr w19,[x0,#8]
	mov x27,x3
	mov x26,x0
	add x0,sp,#0x8
	mov x3,x20
	mov w1,w19
	bl "tk_counter::counter::CounterDesc::split_long"
	ldrb w8,[sp,#8]
	cmp w8,#0x1
	b.ne 18f
	ldp x25,x23,[sp,#16]
	mov x8,#0x7d03
	movk x8,#0x25c1,lsl #16
	movk x8,#0x2,lsl #32
	cmp x25,x8
	b.ls 12f
	b 18f
9:
	ldr w19,[x0,#8]
	mov w8,#0xca00
	mov x27,x3
	movk w8,#0x3b9a,lsl #16
	mov x26,x0
	lsl x8,x8,x19
	subs x9,x23,x8
	b.cs 10f
	mov x25,xzr
	b 12f
10:
	cmp x9,x8
	b.cs 11f
	mov w25,#0x1
	mov x23,x9
	b 12f
11:
	lsr x9,x23,x19
	mov x10,#0x5a53
	movk x10,#0xa09b,lsl #16
	lsr x9,x9,#9
	movk x10,#0xb82f,lsl #32
	movk x10,#0x44,lsl #48
	umulh x9,x9,x10
	lsr x25,x9,#11
	msub x23,x25,x8,x23
	mov x8,#0x7d03
	movk x8,#0x25c1,lsl #16
	movk x8,#0x2,lsl #32
	cmp x25,x8
	b.hi 18f
12:
	ldr w4,[x26,#4]
	mov x28,x26
	ldr x26,[x26,#48]
	ldr x2,[x28,#56]
	umulh x8,x4,x20
	cmp xzr,x8
	b.ne 13f
	mul x8,x20,x4
	adds x10,x2,x8
	b.cc 14f
13:
	add x0,sp,#0x8
	mov w1,w19
	mov x3,x20
	bl "tk_counter::counter::CounterDesc::split_long"
	ldrb w8,[sp,#8]
	cmp w8,#0x1
	b.ne 18f
	ldp x13,x10,[sp,#16]
	mov x3,x27
	mov x8,#0x7d03
	movk x8,#0x25c1,lsl #16
	movk x8,#0x2,lsl #32
	cmp x13,x8
	b.ls 17f
	b 18f
14:
	mov w8,#0xca00
	movk w8,#0x3b9a,lsl #16
	lsl x8,x8,x19
	subs x9,x10,x8
	b.cs 15f
	mov x13,xzr
	mov x3,x27
	b 17f
15:
	cmp x9,x8
	mov x3,x27
	b.cs 16f
	mov w13,#0x1
	mov x10,x9
	b 17f
16:
	mov w9,w19
	mov x11,#0x5a53
	lsr x9,x10,x9
	movk x11,#0xa09b,lsl #16
	movk x11,#0xb82f,lsl #32
	lsr x9,x9,#9
	movk x11,#0x44,lsl #48
	umulh x9,x9,x11
	lsr x13,x9,#11
	msub x10,x13,x8,x10
	mov x8,#0x7d03
	movk x8,#0x25c1,lsl #16
	movk x8,#0x2,lsl #32
	cmp x13,x8
	b.hi 18f
17:
	mov w9,#0x8ff
	add x8,x25,x24
	movk w9,#0x3864,lsl #16
	cmp x8,x9
	b.hi 18f
	mov w12,#0xca00
	lsr x9,x23,x19
	mov x14,#0xffffffffffff27ff
	movk w12,#0x3b9a,lsl #16
	movk x14,#0xcd0d,lsl #16
	madd x15,x8,x12,x9
	ldr x9,[x28,#64]
	movk x14,#0x7fff,lsl #48
	adds x11,x9,x15
	csinv x11,x11,xzr,cc
	cmp x11,x14
	b.hi 18f
	ldr w11,[x28,#72]
	mov x0,x28
	umaddl x15,w11,w12,x15
	ldr x12,[x28,#24]
	adds x15,x12,x15
	csinv x15,x15,xzr,cc
	cmp x15,x14
	b.ls 19f
18:
	mov w1,#0x5
	b 2b
19:
	mov w14,wzr
	add x13,x13,x26
	b 5b

function "tk_ntp::course::Course::apply::<#168be072fac5bef1>",4,912
.Ltk_ntp.course.Course.apply:
	sub sp,sp,#0x70
	ldrb w8,[x3]
	ldur q0,[x3,#8]
	stp x29,x30,[sp,#48]
	str x23,[sp,#64]
	add x29,sp,#0x30
	stp x22,x21,[sp,#80]
	stp x20,x19,[sp,#96]
	str x8,[sp,#8]
	stur q0,[sp,#16]
	cbz x8,2f
	add x3,sp,#0x8
	bl .Ltk_ntp.course.Course.apply_any
1:
	ldp x20,x19,[sp,#96]
	ldr x23,[sp,#64]
	ldp x22,x21,[sp,#80]
	ldp x29,x30,[sp,#48]
	add sp,sp,#0x70
	ret
2:
	ldr x8,[x1,#16]
	ldr x9,[x0,#112]
	cmp x9,x8
	b.ne 3f
	ldr w9,[x1]
	mov x10,#0xffffffffffffffff
	sub x8,x2,x8
	neg w9,w9
	lsr x9,x10,x9
	and x8,x9,x8
	lsr x10,x8,#27
	cbnz x10,3f
	ldrb w10,[x1,#76]
	tbz w10,#0,4f
3:
	ldp x20,x19,[sp,#96]
	ldr x23,[sp,#64]
	ldp x22,x21,[sp,#80]
	ldp x29,x30,[sp,#48]
	add sp,sp,#0x70
	b .Ltk_ntp.course.Course.apply_late
4:
	ldr w10,[x1]
	mov x11,#0xffffffffffffffff
	neg w10,w10
	lsr x10,x11,x10
	cmp x10,x2
	b.cc 3b
	ldr x11,[x1,#16]
	sub x11,x2,x11
	and x13,x10,x11
	sub x10,x10,x13
	cmp x10,x13
	b.cc 3b
	ldp w12,w14,[x1,#8]
	ldp x10,x11,[x1,#24]
	lsr x16,x13,#31
	ldr x15,[x1,#40]
	cbnz x16,5f
	madd x13,x13,x14,x15
	lsr x12,x13,x12
	b 7f
5:
	mul x16,x14,x13
	umulh x14,x14,x13
	adds x13,x16,x15
	cinc x14,x14,cs
	extr x15,x14,x13,#63
	lsr x15,x15,x12
	cbz x15,6f
	mov x12,#0xc000000000000000
	b 7f
6:
	lsl x14,x14,#1
	mvn w15,w12
	lsr x12,x13,x12
	lsl x13,x14,x15
	orr x12,x13,x12
7:
	mov w19,#0xca00
	movk w19,#0x3b9a,lsl #16
	madd x11,x11,x19,x12
	adds x10,x10,x11
	mov x11,#0xffffffffffff27ff
	movk x11,#0xcd0d,lsl #16
	csinv x10,x10,xzr,cc
	movk x11,#0x7fff,lsl #48
	cmp x10,x11
	b.hi 3b
	ldr x11,[x0,#104]
	mul x11,x11,x19
	cmp x10,x11
	b.cs 3b
	sub x10,x9,x8
	cmp x10,x8
	b.cc 3b
	ldr x10,[x1,#96]
	mov x11,#0x7ffffffffffffffc
	cmp x10,x11
	b.hi 3b
	ldrb w10,[x1,#76]
	tbz w10,#0,8f
	mov w0,#0x1
	mov w1,#0x1
	ldp x20,x19,[sp,#96]
	ldr x23,[sp,#64]
	ldp x22,x21,[sp,#80]
	ldp x29,x30,[sp,#48]
	add sp,sp,#0x70
	ret
8:
	cmp x9,x2
	b.cs 9f
	mov w0,#0x1
	mov w1,#0x3
	ldp x20,x19,[sp,#96]
	ldr x23,[sp,#64]
	ldp x22,x21,[sp,#80]
	ldp x29,x30,[sp,#48]
	add sp,sp,#0x70
	ret
9:
	ldp w11,w9,[x1,#8]
	ldr x10,[x1,#40]
	madd x10,x8,x9,x10
	lsl x12,x19,x11
	ldr x9,[x1,#32]
	subs x11,x10,x12
	b.cc 10f
	cmp x11,x12
	b.cs 12f
	add x9,x9,#0x1
	mov x10,x11
10:
	ldr w11,[x1,#4]
	ldr x13,[x1,#56]
	madd x11,x8,x11,x13
	ldr x8,[x1,#48]
	subs x13,x11,x12
	b.cc 11f
	cmp x13,x12
	b.cs 12f
	add x8,x8,#0x1
	mov x11,x13
11:
	mov w12,#0x8ff
	movk w12,#0x3864,lsl #16
	cmp x9,x12
	b.ls 13f
12:
	mov x21,x0
	mov x22,x1
	mov x0,x1
	mov x1,x2
	mov x23,x2
	bl "tk_clock::clock::Clock::update_late"
	tst w0,#0xff
	b.ne 1b
	mov w20,w0
	mov x2,x23
	mov x0,x21
	mov x1,x22
	b 14f
13:
	mov x12,#0xe801
	ldr x13,[x1,#24]
	movk x12,#0x6378,lsl #16
	movk x12,#0x7e4d,lsl #32
	movk x12,#0x72de,lsl #48
	cmp x13,x12
	b.cs 12b
	ldr x13,[x1,#64]
	cmp x13,x12
	b.cs 12b
	mov w20,wzr
	str x2,[x1,#16]
	stp x9,x10,[x1,#32]
	stp x8,x11,[x1,#48]
14:
	ldr x8,[x1,#96]
	ldr w4,[x1,#12]
	add x8,x8,#0x1
	str x8,[x1,#96]
	ldr w8,[x1]
	ldr x9,[x0,#112]
	ldr x3,[x0,#96]
	neg w10,w8
	stur w8,[x29,#-12]
	ldr x8,[x0,#80]
	sub x9,x2,x9
	lsl x9,x9,x10
	lsr x5,x9,x10
	ldur x9,[x1,#4]
	lsr x10,x5,#27
	stur x9,[x29,#-8]
	cbz x10,15f
	ldr x1,[x0,#88]
	b 16f
15:
	mov w10,w9
	mul x11,x5,x4
	mov x14,#0x360000000000
	movk x14,#0xc465,lsl #48
	asr x16,x3,#63
	ldr x1,[x0,#88]
	mul x10,x5,x10
	umulh x15,x11,x14
	umulh x12,x10,x3
	mul x14,x11,x14
	mul x13,x10,x3
	madd x10,x10,x16,x12
	lsr x12,x9,#32
	sub x9,x15,x11
	adds x11,x14,x1
	adc x14,x8,x9
	lsl x12,x19,x12
	adds x9,x11,x13
	mov x11,#0xf000000000000000
	adc x10,x14,x10
	add x11,x10,x11
	add x11,x11,x12,lsr #5
	cmp x11,x12,lsr #4
	b.cc 17f
16:
	mov x19,x2
	sub x2,x29,#0xc
	mov x21,x0
	mov x0,x8
	bl "tk_ntp::lag::Lag::accounted_late"
	mov x2,x19
	mov x10,x0
	mov x0,x21
	mov x9,x1
17:
	mov w1,wzr
	stp x10,x9,[x0,#80]
	str x2,[x0,#112]
	mov w0,w20
	ldp x20,x19,[sp,#96]
	ldr x23,[sp,#64]
	ldp x22,x21,[sp,#80]
	ldp x29,x30,[sp,#48]
	add sp,sp,#0x70
	ret

function "tk_ntp::course::Course::apply_late::<#168be072fac5bef1>",4,960
.Ltk_ntp.course.Course.apply_late:
	sub sp,sp,#0x50
	ldrb w8,[x1,#76]
	stp x22,x21,[sp,#48]
	mov x21,x1
	stp x20,x19,[sp,#64]
	mov x19,x2
	mov x20,x0
	stp x29,x30,[sp,#32]
	add x29,sp,#0x20
	tbz w8,#0,3f
1:
	mov x0,x20
	mov x1,x21
	mov w2,wzr
	mov x3,x19
	bl .Ltk_ntp.course.Course.advance
	tst w0,#0xff
	b.ne 5f
	ldr x8,[x21,#96]
	mov x9,#0xfffffffffffffffd
	stp xzr,xzr,[sp,#8]
	movk x9,#0x7fff,lsl #48
	str xzr,[sp,#24]
	cmp x8,x9
	b.cs 4f
	add x3,sp,#0x8
	mov x0,x20
	mov x1,x21
	mov x2,x19
	bl .Ltk_ntp.course.Course.command
2:
	ldp x20,x19,[sp,#64]
	ldp x22,x21,[sp,#48]
	ldp x29,x30,[sp,#32]
	add sp,sp,#0x50
	ret
3:
	ldr w8,[x21]
	mov x9,#0xffffffffffffffff
	neg w8,w8
	lsr x8,x9,x8
	cmp x8,x19
	b.cc 1b
	ldr x9,[x21,#16]
	sub x9,x19,x9
	and x11,x8,x9
	sub x8,x8,x11
	cmp x8,x11
	b.cc 1b
	ldp w10,w12,[x21,#8]
	ldp x8,x9,[x21,#24]
	lsr x14,x11,#31
	ldr x13,[x21,#40]
	cbnz x14,6f
	madd x11,x11,x12,x13
	lsr x10,x11,x10
	b 8f
4:
	mov w1,wzr
5:
	mov w0,#0x1
	ldp x20,x19,[sp,#64]
	ldp x22,x21,[sp,#48]
	ldp x29,x30,[sp,#32]
	add sp,sp,#0x50
	ret
6:
	mul x14,x12,x11
	umulh x12,x12,x11
	adds x11,x14,x13
	cinc x12,x12,cs
	extr x13,x12,x11,#63
	lsr x13,x13,x10
	cbz x13,7f
	mov x10,#0xc000000000000000
	b 8f
7:
	lsl x12,x12,#1
	mvn w13,w10
	lsr x10,x11,x10
	lsl x11,x12,x13
	orr x10,x11,x10
8:
	mov w22,#0xca00
	movk w22,#0x3b9a,lsl #16
	madd x9,x9,x22,x10
	adds x8,x8,x9
	mov x9,#0xffffffffffff27ff
	movk x9,#0xcd0d,lsl #16
	csinv x8,x8,xzr,cc
	movk x9,#0x7fff,lsl #48
	cmp x8,x9
	b.hi 1b
	ldr x9,[x20,#104]
	mul x9,x9,x22
	cmp x8,x9
	b.cs 1b
	ldr w8,[x21]
	ldr x9,[x20,#112]
	mov x10,#0xffffffffffffffff
	neg w8,w8
	sub x9,x19,x9
	lsr x8,x10,x8
	and x9,x8,x9
	sub x10,x8,x9
	cmp x10,x9
	b.cc 1b
	ldr x9,[x21,#96]
	mov x10,#0xfffffffffffffffd
	movk x10,#0x7fff,lsl #48
	cmp x9,x10
	b.cs 1b
	ldrb w9,[x21,#76]
	tbz w9,#0,9f
	mov w1,#0x1
	mov w0,#0x1
	ldp x20,x19,[sp,#64]
	ldp x22,x21,[sp,#48]
	ldp x29,x30,[sp,#32]
	add sp,sp,#0x50
	ret
9:
	cmp x8,x19
	b.cs 10f
	mov w1,#0x3
	mov w0,#0x1
	ldp x20,x19,[sp,#64]
	ldp x22,x21,[sp,#48]
	ldp x29,x30,[sp,#32]
	add sp,sp,#0x50
	ret
10:
	ldr x9,[x21,#16]
	sub x9,x19,x9
	and x10,x9,x8
	sub x8,x8,x10
	cmp x8,x10
	b.cs 11f
	mov w1,#0x4
	mov w0,#0x1
	ldp x20,x19,[sp,#64]
	ldp x22,x21,[sp,#48]
	ldp x29,x30,[sp,#32]
	add sp,sp,#0x50
	ret
11:
	lsr x8,x10,#31
	cbnz x8,14f
	ldp w11,w8,[x21,#8]
	ldr x9,[x21,#40]
	madd x9,x10,x8,x9
	lsl x12,x22,x11
	ldr x8,[x21,#32]
	subs x11,x9,x12
	b.cc 12f
	cmp x11,x12
	b.cs 14f
	add x8,x8,#0x1
	mov x9,x11
12:
	ldr w11,[x21,#4]
	ldr x13,[x21,#56]
	madd x11,x10,x11,x13
	ldr x10,[x21,#48]
	subs x13,x11,x12
	b.cc 13f
	cmp x13,x12
	b.cs 14f
	add x10,x10,#0x1
	mov x11,x13
13:
	mov w12,#0x8ff
	movk w12,#0x3864,lsl #16
	cmp x8,x12
	b.ls 19f
14:
	mov x0,x21
	mov x1,x19
	bl "tk_clock::clock::Clock::update_late"
	tst w0,#0xff
	b.ne 2b
15:
	ldr x8,[x21,#96]
	ldr w4,[x21,#12]
	add x8,x8,#0x1
	str x8,[x21,#96]
	ldr w8,[x21]
	ldr x9,[x20,#112]
	ldr x3,[x20,#96]
	neg w10,w8
	str w8,[sp,#8]
	ldr x8,[x20,#80]
	sub x9,x19,x9
	lsl x9,x9,x10
	lsr x5,x9,x10
	ldur x9,[x21,#4]
	lsr x10,x5,#27
	stur x9,[sp,#12]
	cbz x10,16f
	ldr x1,[x20,#88]
	b 17f
16:
	mov w10,w9
	mul x11,x5,x4
	mov x14,#0x360000000000
	movk x14,#0xc465,lsl #48
	asr x16,x3,#63
	ldr x1,[x20,#88]
	mul x10,x5,x10
	umulh x15,x11,x14
	umulh x12,x10,x3
	mul x14,x11,x14
	mul x13,x10,x3
	madd x10,x10,x16,x12
	lsr x12,x9,#32
	sub x9,x15,x11
	adds x11,x14,x1
	adc x14,x8,x9
	lsl x12,x22,x12
	adds x9,x11,x13
	mov x11,#0xf000000000000000
	adc x10,x14,x10
	add x11,x10,x11
	add x11,x11,x12,lsr #5
	cmp x11,x12,lsr #4
	b.cc 18f
17:
	add x2,sp,#0x8
	mov w21,w0
	mov x0,x8
	bl "tk_ntp::lag::Lag::accounted_late"
	mov x10,x0
	mov w0,w21
	mov x9,x1
18:
	mov w1,wzr
	stp x10,x9,[x20,#80]
	str x19,[x20,#112]
	ldp x20,x19,[sp,#64]
	ldp x22,x21,[sp,#48]
	ldp x29,x30,[sp,#32]
	add sp,sp,#0x50
	ret
19:
	mov x12,#0xe801
	ldr x13,[x21,#24]
	movk x12,#0x6378,lsl #16
	movk x12,#0x7e4d,lsl #32
	movk x12,#0x72de,lsl #48
	cmp x13,x12
	b.cs 14b
	ldr x13,[x21,#64]
	cmp x13,x12
	b.cs 14b
	mov w0,wzr
	str x19,[x21,#16]
	stp x8,x9,[x21,#32]
	stp x10,x11,[x21,#48]
	b 15b

function "tk_ntp::course::Course::apply_any::<#168be072fac5bef1>",4,388
.Ltk_ntp.course.Course.apply_any:
	sub sp,sp,#0x120
	movi v0.2d,#0x0
	stp x24,x23,[sp,#240]
	ldrb w23,[x3]
	stp x22,x21,[sp,#256]
	ldp x22,x24,[x3,#8]
	stp x20,x19,[sp,#272]
	mov x19,x2
	mov x20,x1
	mov x21,x0
	cmp w23,#0x3
	stp x29,x30,[sp,#208]
	str x28,[sp,#224]
	add x29,sp,#0xd0
	stp q0,q0,[sp]
	stp q0,q0,[sp,#32]
	stp q0,q0,[sp,#64]
	b.gt 1f
	sub w8,w23,#0x1
	cmp w8,#0x2
	b.cc 2f
	cbnz w23,7f
	mov x0,x21
	mov x1,x20
	mov x2,x19
	ldp x20,x19,[sp,#272]
	ldr x28,[sp,#224]
	ldp x22,x21,[sp,#256]
	ldp x24,x23,[sp,#240]
	ldp x29,x30,[sp,#208]
	add sp,sp,#0x120
	b .Ltk_ntp.course.Course.apply_late
1:
	sub w8,w23,#0x5
	cmp w8,#0x3
	b.cs 3f
2:
	mov x0,x21
	mov x1,x20
	mov w2,wzr
	mov x3,x19
	bl .Ltk_ntp.course.Course.advance
	tst w0,#0xff
	b.ne 6f
	b 4f
3:
	cmp w23,#0x4
	b.ne 4f
	mov x8,xzr
	mov w9,#0x4000
	b 8f
4:
	ldr x8,[x20,#96]
	mov x9,#0xfffffffffffffffd
	stp x23,x22,[x29,#-24]
	movk x9,#0x7fff,lsl #48
	stur x24,[x29,#-8]
	cmp x8,x9
	b.cs 5f
	sub x3,x29,#0x18
	mov x0,x21
	mov x1,x20
	mov x2,x19
	bl .Ltk_ntp.course.Course.command
	b 9f
5:
	mov w1,wzr
6:
	mov w0,#0x1
	b 9f
7:
	mov x8,#0xffffffffffff0000
	mov w9,#0x1f40000
	movk x8,#0xfe0c,lsl #16
	cmp x22,x8
	csel x8,x22,x8,gt
	mov x22,xzr
	cmp x8,x9
	csel x8,x8,x9,lt
	mov w9,#0x2
8:
	stp w9,wzr,[sp,#104]
	add x9,sp,#0x68
	mov x0,sp
	add x4,sp,#0x68
	mov x1,x21
	mov x2,x20
	mov x3,x19
	stp xzr,x8,[sp,#112]
	stur q0,[x9,#24]
	stur q0,[x9,#40]
	stp xzr,xzr,[sp,#168]
	str x22,[sp,#160]
	bl .Ltk_ntp.course.Course.adjtimex
	ldrb w0,[sp]
	ldrb w8,[sp,#1]
	cmp w0,#0x0
	csel w1,wzr,w8,eq
9:
	ldp x20,x19,[sp,#272]
	ldr x28,[sp,#224]
	ldp x22,x21,[sp,#256]
	ldp x24,x23,[sp,#240]
	ldp x29,x30,[sp,#208]
	add sp,sp,#0x120
	ret

function "tk_c::saved::clock_of_words",4,744
	ldr x8,[x1,#80]
	mov x9,#0x100000000
	lsr x10,x8,#32
	cmp x8,x9
	csel x8,x8,x9,cc
	cbnz x10,1f
	ldr x11,[x1,#88]
	lsr x10,x11,#32
	cmp x11,x9
	csel x9,x11,x9,cc
	cbnz x10,1f
	ldr x10,[x1,#96]
	mov x12,#0x100000000
	lsr x13,x10,#32
	cmp x10,x12
	csel x10,x10,x12,cc
	cbnz x13,1f
	sub w12,w8,#0x41
	cmn w12,#0x39
	b.cc 1f
	cmp w10,#0x20
	b.hi 1f
	cmp x11,#0x100
	b.cc 1f
	mov w11,#0xb
	mov x12,#0xf5c3
	mul x11,x9,x11
	movk x12,#0x5c28,lsl #16
	movk x12,#0xc28f,lsl #32
	movk x12,#0x28f5,lsl #48
	lsr x11,x11,#2
	umulh x11,x11,x12
	add x13,x9,x11,lsr #2
	lsr x11,x13,#32
	cbz x11,2f
1:
	movi v0.2d,#0x0
	stp q0,q0,[x0,#16]
	stp q0,q0,[x0,#48]
	stp q0,q0,[x0,#80]
	str q0,[x0]
	ret
2:
	str x21,[sp,#-32]!
	neg w12,w8
	mov x14,#0xffffffffffffffff
	ldr x11,[x1,#8]
	lsr x12,x14,x12
	stp x20,x19,[sp,#16]
	cmp x11,x12
	b.hi 3f
	ldr x12,[x1,#16]
	sub x14,x12,#0x1
	cmp x14,x13
	b.cs 3f
	mov w2,#0xca00
	ldr x13,[x1,#24]
	movk w2,#0x3b9a,lsl #16
	lsl x5,x2,x10
	cmp x13,x5
	b.cs 3f
	ldr x14,[x1,#32]
	mov w15,#0x8ff
	movk w15,#0x3864,lsl #16
	cmp x14,x15
	b.hi 3f
	ldr x6,[x1,#56]
	mov w15,#0xd41
	movk w15,#0x3,lsl #16
	cmp x6,x15
	b.hi 3f
	ldr x16,[x1,#64]
	cmp x16,x5
	b.cs 3f
	ldr x18,[x1,#72]
	mov w15,#0x50ff
	movk w15,#0x3f2e,lsl #16
	cmp x18,x15
	b.hi 3f
	lsr x15,x13,x10
	madd x4,x14,x2,x15
	mov x3,#0xffffffffffff27ff
	ldr x15,[x1,#48]
	movk x3,#0xcd0d,lsl #16
	movk x3,#0x7fff,lsl #48
	adds x17,x15,x4
	csinv x17,x17,xzr,cc
	cmp x17,x3
	b.hi 3f
	lsr x17,x6,#1
	madd x4,x17,x2,x4
	ldr x2,[x1,#40]
	adds x4,x2,x4
	csinv x4,x4,xzr,cc
	cmp x4,x3
	b.hi 3f
	ldr x3,[x1,#112]
	mov x4,#0xffffffffffffdcd8
	add x4,x3,x4
	cmp x4,#0x7d0
	b.hi 3f
	ldr x4,[x1,#104]
	mov x7,#0xffffffffffff0000
	mov w19,#0x1f40000
	movk x7,#0xfe0c,lsl #16
	mov w20,#0x640000
	cmp x4,x7
	csel x7,x4,x7,gt
	cmp x7,x19
	csel x7,x7,x19,lt
	madd x19,x3,x20,x7
	and x7,x7,#0xffff
	mul x7,x7,x9
	lsr x19,x19,#16
	mul x19,x19,x9
	add x19,x19,x7,lsr #16
	mov x7,#0x34db
	movk x7,#0xd7b6,lsl #16
	movk x7,#0xde82,lsl #32
	movk x7,#0x431b,lsl #48
	umulh x19,x19,x7
	lsr x19,x19,#18
	cmp w12,w19
	b.ne 3f
	mov w19,#0xb9ac
	umulh x20,x18,x5
	movk w19,#0xd,lsl #16
	mul x19,x9,x19
	umulh x7,x19,x7
	mul x19,x18,x5
	lsr x7,x7,#18
	adds x19,x19,x16
	umulh x21,x19,x7
	cinc x20,x20,cs
	madd x20,x20,x7,x21
	mul x21,x14,x5
	umulh x5,x14,x5
	mul x7,x19,x7
	adds x19,x21,x13
	umulh x21,x19,x9
	cinc x5,x5,cs
	mul x19,x19,x9
	madd x5,x5,x9,x21
	cmp x19,x7
	sbcs xzr,x5,x20
	b.cs 5f
3:
	mov x15,xzr
	mov w17,wzr
	mov w1,wzr
	mov x2,xzr
	mov x11,xzr
	mov w8,wzr
	mov w9,wzr
	mov w10,wzr
	mov w12,wzr
	mov x14,xzr
	mov x13,xzr
	mov x18,xzr
	mov x16,xzr
	mov x4,xzr
	mov x3,xzr
	mov x6,xzr
	mov x5,xzr
	strb wzr,[sp,#14]
4:
	stp w8,w9,[x0,#8]
	ldrb w9,[sp,#14]
	and w8,wzr,#0xffff
	ldp x20,x19,[sp,#16]
	strh wzr,[sp,#12]
	str x6,[x0]
	stp w10,w12,[x0,#16]
	stp x11,x2,[x0,#24]
	stp x14,x13,[x0,#40]
	stp x18,x16,[x0,#56]
	str x15,[x0,#72]
	str w17,[x0,#80]
	strb w1,[x0,#84]
	sturh w8,[x0,#85]
	strb w9,[x0,#87]
	stp x4,x3,[x0,#88]
	str x5,[x0,#104]
	ldr x21,[sp],#32
	ret
5:
	ldr x5,[x1]
	strb wzr,[sp,#14]
	and w1,w6,#0x1
	mov w6,#0x1
	b 4b

function "tk_ntp::course::Course::tick_late::<#168be072fac5bef1>",4,124
.Ltk_ntp.course.Course.tick_late:
	sub sp,sp,#0x50
	stp x20,x19,[sp,#64]
	mov x19,x2
	mov w2,#0x1
	mov x3,x19
	stp x29,x30,[sp,#32]
	add x29,sp,#0x20
	str x21,[sp,#48]
	mov x20,x1
	mov x21,x0
	stp xzr,xzr,[sp,#16]
	bl .Ltk_ntp.course.Course.advance
	tst w0,#0xff
	b.eq 1f
	mov w0,#0x1
	ldp x20,x19,[sp,#64]
	ldr x21,[sp,#48]
	ldp x29,x30,[sp,#32]
	add sp,sp,#0x50
	ret
1:
	add x3,sp,#0x8
	mov x0,x21
	mov x1,x20
	mov x2,x19
	str xzr,[sp,#8]
	bl .Ltk_ntp.course.Course.apply
	ldp x20,x19,[sp,#64]
	ldr x21,[sp,#48]
	ldp x29,x30,[sp,#32]
	add sp,sp,#0x50
	ret

function "tk_lanes::batch::plain_from",4,1400
	stp x29,x30,[sp,#-96]!
	cmp x5,x6
	stp x28,x27,[sp,#16]
	mov x29,sp
	stp x26,x25,[sp,#32]
	stp x24,x23,[sp,#48]
	stp x22,x21,[sp,#64]
	stp x20,x19,[sp,#80]
	b.cs 39f
	mov x19,#0xffffffffffff2800
	mov x20,#0x591a0000
	mov w21,#0xca00
	movk x19,#0xcd0d,lsl #16
	movk x20,#0x26bf,lsl #32
	movk w21,#0x3b9a,lsl #16
	movk x19,#0x7fff,lsl #48
	movk x20,#0xd21,lsl #48
	b 6f
1:
	lsr x8,x8,x9
2:
	ldp x10,x9,[x1,#32]
	madd x8,x9,x21,x8
	adds x8,x10,x8
3:
	csinv x8,x8,xzr,cc
4:
	cmp x8,x19
	b.cs 41f
5:
	str x8,[x4,x5,lsl #3]
	add x5,x5,#0x1
	cmp x6,x5
	b.eq 39f
6:
	ldr w8,[x1,#8]
	mov x11,#0xffffffffffffffff
	and w10,w2,#0xff
	ldr x9,[x3,x5,lsl #3]
	cmp w10,#0x2
	neg w8,w8
	lsr x8,x11,x8
	b.le 7f
	cmp w10,#0x4
	b.gt 8f
	cmp w10,#0x3
	b.ne 12f
	cmp x8,x9
	b.cc 40f
	ldrb w10,[x1,#84]
	tbnz w10,#0,33f
	ldr x10,[x1,#24]
	sub x9,x9,x10
	and x9,x9,x8
	sub x8,x8,x9
	cmp x8,x9
	b.cc 33f
	ldp w8,w11,[x1,#16]
	lsr x12,x9,#31
	ldr x10,[x1,#48]
	cbnz x12,19f
	madd x9,x9,x11,x10
	lsr x8,x9,x8
	b 26f
7:
	cbz w10,10f
	cmp w10,#0x1
	b.ne 11f
	cmp x8,x9
	b.cc 40f
	ldrb w10,[x1,#84]
	tbnz w10,#0,31f
	ldr x10,[x1,#24]
	sub x9,x9,x10
	and x9,x9,x8
	sub x8,x8,x9
	cmp x8,x9
	b.cc 31f
	ldp w8,w11,[x1,#16]
	lsr x12,x9,#31
	ldr x10,[x1,#48]
	cbnz x12,16f
	madd x9,x9,x11,x10
	lsr x8,x9,x8
	ldr x9,[x1,#40]
	madd x8,x9,x21,x8
	cmp x8,x20
	b.cc 5b
	b 41f
8:
	cmp w10,#0x5
	b.ne 13f
	cmp x8,x9
	b.cc 40f
	ldrb w10,[x1,#84]
	tbnz w10,#0,34f
	ldr x10,[x1,#24]
	sub x9,x9,x10
	and x9,x9,x8
	sub x8,x8,x9
	cmp x8,x9
	b.cc 34f
	lsr x10,x9,#31
	ldr x8,[x1,#48]
	ldr w9,[x1,#16]
	cbz x10,9f
	lsr x10,x8,#63
	lsr x10,x10,x9
	cbnz x10,17f
9:
	lsr x8,x8,x9
	ldr x9,[x1,#40]
	madd x8,x9,x21,x8
	cmp x8,x20
	b.cc 5b
	b 41f
10:
	cmp x8,x9
	b.cc 40f
	ldrb w10,[x1,#84]
	tbnz w10,#0,30f
	ldr x10,[x1,#24]
	sub x9,x9,x10
	and x9,x9,x8
	sub x8,x8,x9
	cmp x8,x9
	b.cc 30f
	ldp w8,w11,[x1,#16]
	lsr x12,x9,#31
	ldr x10,[x1,#48]
	cbnz x12,14f
	madd x9,x9,x11,x10
	lsr x8,x9,x8
	b 2b
11:
	cmp x8,x9
	b.cc 40f
	ldrb w10,[x1,#84]
	tbnz w10,#0,32f
	ldr x10,[x1,#24]
	sub x9,x9,x10
	and x9,x9,x8
	sub x8,x8,x9
	cmp x8,x9
	b.cc 32f
	ldp w8,w11,[x1,#16]
	lsr x12,x9,#31
	ldr x10,[x1,#48]
	cbnz x12,18f
	madd x9,x9,x11,x10
	lsr x8,x9,x8
	b 24f
12:
	cmp x8,x9
	b.cc 40f
	ldrb w10,[x1,#84]
	tbnz w10,#0,36f
	ldr x10,[x1,#24]
	sub x9,x9,x10
	and x9,x9,x8
	sub x8,x8,x9
	cmp x8,x9
	b.cc 36f
	lsr x10,x9,#31
	ldr x8,[x1,#48]
	ldr w9,[x1,#16]
	cbz x10,1b
	lsr x10,x8,#63
	lsr x10,x10,x9
	cbnz x10,15f
	b 1b
13:
	cmp x8,x9
	b.cc 40f
	ldrb w10,[x1,#84]
	tbnz w10,#0,37f
	ldr x10,[x1,#24]
	sub x9,x9,x10
	and x9,x9,x8
	sub x8,x8,x9
	cmp x8,x9
	b.cc 37f
	ldp w11,w8,[x1,#12]
	lsr x12,x9,#31
	ldr x10,[x1,#64]
	cbnz x12,20f
	madd x9,x9,x11,x10
	lsr x8,x9,x8
	b 29f
14:
	mul x12,x11,x9
	umulh x11,x11,x9
	adds x9,x12,x10
	cinc x10,x11,cs
	extr x11,x10,x9,#63
	lsr x11,x11,x8
	cbz x11,21f
15:
	mov x8,#0xc000000000000000
	b 2b
16:
	mul x12,x11,x9
	umulh x11,x11,x9
	adds x9,x12,x10
	cinc x10,x11,cs
	extr x11,x10,x9,#63
	lsr x11,x11,x8
	cbz x11,22f
17:
	mov x8,#0xc000000000000000
	ldr x9,[x1,#40]
	madd x8,x9,x21,x8
	cmp x8,x20
	b.cc 5b
	b 41f
18:
	mul x12,x11,x9
	umulh x11,x11,x9
	adds x9,x12,x10
	cinc x10,x11,cs
	extr x11,x10,x9,#63
	lsr x11,x11,x8
	cbz x11,23f
	mov x8,#0xc000000000000000
	b 24f
19:
	mul x12,x11,x9
	umulh x11,x11,x9
	adds x9,x12,x10
	cinc x10,x11,cs
	extr x11,x10,x9,#63
	lsr x11,x11,x8
	cbz x11,25f
	mov x8,#0xc000000000000000
	b 26f
20:
	mul x12,x11,x9
	umulh x11,x11,x9
	adds x9,x12,x10
	cinc x10,x11,cs
	extr x11,x10,x9,#63
	lsr x11,x11,x8
	cbz x11,28f
	mov x8,#0xc000000000000000
	b 29f
21:
	lsl x10,x10,#1
	mvn w11,w8
	lsr x8,x9,x8
	lsl x9,x10,x11
	orr x8,x9,x8
	b 2b
22:
	lsl x10,x10,#1
	mvn w11,w8
	lsr x8,x9,x8
	lsl x9,x10,x11
	orr x8,x9,x8
	ldr x9,[x1,#40]
	madd x8,x9,x21,x8
	cmp x8,x20
	b.cc 5b
	b 41f
23:
	lsl x10,x10,#1
	mvn w11,w8
	lsr x8,x9,x8
	lsl x9,x10,x11
	orr x8,x9,x8
24:
	ldr x9,[x1,#40]
	madd x8,x9,x21,x8
	ldr x9,[x1,#72]
	b 27f
25:
	lsl x10,x10,#1
	mvn w11,w8
	lsr x8,x9,x8
	lsl x9,x10,x11
	orr x8,x9,x8
26:
	ldp x10,x9,[x1,#32]
	ldr w11,[x1,#80]
	madd x8,x9,x21,x8
	umaddl x9,w11,w21,x10
27:
	adds x8,x9,x8
	b 3b
28:
	lsl x10,x10,#1
	mvn w11,w8
	lsr x8,x9,x8
	lsl x9,x10,x11
	orr x8,x9,x8
29:
	ldr x9,[x1,#56]
	madd x8,x9,x21,x8
	b 4b
30:
	mov x22,x0
	add x0,x1,#0x8
	mov x23,x1
	mov w1,wzr
	b 38f
31:
	mov x22,x0
	add x0,x1,#0x8
	mov x23,x1
	mov w1,#0x1
	b 35f
32:
	mov x22,x0
	add x0,x1,#0x8
	mov x23,x1
	mov w1,#0x2
	b 38f
33:
	mov x22,x0
	add x0,x1,#0x8
	mov x23,x1
	mov w1,#0x3
	b 38f
34:
	mov x22,x0
	add x0,x1,#0x8
	mov x23,x1
	mov w1,#0x5
35:
	mov x24,x5
	mov x27,x6
	mov x25,x4
	mov x28,x3
	mov w26,w2
	bl "tk_clock::read_base::ReadBase::nanos_at_last"
	mov x1,x23
	mov w2,w26
	mov x3,x28
	mov x4,x25
	mov x6,x27
	mov x5,x24
	mov x8,x0
	mov x0,x22
	cmp x8,x20
	b.cc 5b
	b 41f
36:
	mov x22,x0
	add x0,x1,#0x8
	mov x23,x1
	mov w1,#0x4
	b 38f
37:
	mov x22,x0
	add x0,x1,#0x8
	mov x23,x1
	mov w1,#0x6
38:
	mov x24,x5
	mov x27,x6
	mov x25,x4
	mov x28,x3
	mov w26,w2
	bl "tk_clock::read_base::ReadBase::nanos_at_last"
	mov x1,x23
	mov w2,w26
	mov x3,x28
	mov x4,x25
	mov x6,x27
	mov x5,x24
	mov x8,x0
	mov x0,x22
	b 4b
39:
	strb wzr,[x0]
	stp xzr,xzr,[x0,#8]
	b 43f
40:
	mov x8,xzr
	b 42f
41:
	mov w8,#0x1
42:
	mov w9,#0x1
	stp x8,x5,[x0,#8]
	strb w9,[x0]
43:
	ldp x20,x19,[sp,#80]
	ldp x22,x21,[sp,#64]
	ldp x24,x23,[sp,#48]
	ldp x26,x25,[sp,#32]
	ldp x28,x27,[sp,#16]
	ldp x29,x30,[sp],#96
	ret

function "tk_c::snapshots::get_named",4,1936
	stp x29,x30,[sp,#-32]!
	cmp w2,#0x4
	mov w8,#0x11
	str x19,[sp,#16]
	mov x29,sp
	b.le 2f
	cmp w2,#0x6
	b.gt 3f
	cmp w2,#0x5
	b.eq 5f
	cmp w2,#0x6
	b.ne 1f
	ldr w8,[x1,#8]
	mov x9,#0xffffffffffffffff
	neg w8,w8
	lsr x8,x9,x8
	cmp x8,x3
	b.cs 11f
	mov w8,#0x4
1:
	ldr x19,[sp,#16]
	mov w0,w8
	ldp x29,x30,[sp],#32
	ret
2:
	cbz w2,4f
	cmp w2,#0x1
	b.eq 7f
	cmp w2,#0x4
	b.ne 1b
	ldr w8,[x1,#8]
	mov x9,#0xffffffffffffffff
	neg w8,w8
	lsr x8,x9,x8
	cmp x8,x3
	b.cs 13f
	mov w8,#0x4
	ldr x19,[sp,#16]
	mov w0,w8
	ldp x29,x30,[sp],#32
	ret
3:
	cmp w2,#0x7
	b.eq 6f
	cmp w2,#0xb
	b.ne 1b
	ldr w8,[x1,#8]
	mov x9,#0xffffffffffffffff
	neg w8,w8
	lsr x8,x9,x8
	cmp x8,x3
	b.cs 12f
	mov w8,#0x4
	ldr x19,[sp,#16]
	mov w0,w8
	ldp x29,x30,[sp],#32
	ret
4:
	ldr w8,[x1,#8]
	mov x9,#0xffffffffffffffff
	neg w8,w8
	lsr x8,x9,x8
	cmp x8,x3
	b.cs 8f
	mov w8,#0x4
	ldr x19,[sp,#16]
	mov w0,w8
	ldp x29,x30,[sp],#32
	ret
5:
	ldr w8,[x1,#8]
	mov x9,#0xffffffffffffffff
	neg w8,w8
	lsr x8,x9,x8
	cmp x8,x3
	b.cs 9f
	mov w8,#0x4
	ldr x19,[sp,#16]
	mov w0,w8
	ldp x29,x30,[sp],#32
	ret
6:
	ldr w8,[x1,#8]
	mov x9,#0xffffffffffffffff
	neg w8,w8
	lsr x8,x9,x8
	cmp x8,x3
	b.cs 10f
	mov w8,#0x4
	ldr x19,[sp,#16]
	mov w0,w8
	ldp x29,x30,[sp],#32
	ret
7:
	ldr w8,[x1,#8]
	mov x9,#0xffffffffffffffff
	neg w8,w8
	lsr x8,x9,x8
	cmp x8,x3
	b.cs 14f
	mov w8,#0x4
	ldr x19,[sp,#16]
	mov w0,w8
	ldp x29,x30,[sp],#32
	ret
8:
	ldrb w9,[x1,#84]
	tbnz w9,#0,41f
	ldr x9,[x1,#24]
	sub x9,x3,x9
	and x10,x9,x8
	sub x8,x8,x10
	cmp x8,x10
	b.cc 41f
	ldp x8,x12,[x1,#40]
	lsr x14,x10,#31
	ldp w11,w13,[x1,#16]
	ldr x9,[x1,#32]
	cbnz x14,15f
	madd x10,x10,x13,x12
	lsr x10,x10,x11
	b 21f
9:
	ldrb w9,[x1,#84]
	tbnz w9,#0,42f
	ldr x9,[x1,#24]
	sub x9,x3,x9
	and x9,x9,x8
	sub x8,x8,x9
	cmp x8,x9
	b.cc 42f
	ldp x8,x10,[x1,#40]
	lsr x12,x9,#31
	ldr x9,[x1,#32]
	ldr w11,[x1,#16]
	cbz x12,23f
	lsr x12,x10,#63
	lsr x12,x12,x11
	cbz x12,23f
	mov x10,#0xc000000000000000
	b 24f
10:
	ldrb w9,[x1,#84]
	tbnz w9,#0,43f
	ldr x9,[x1,#24]
	sub x9,x3,x9
	and x10,x9,x8
	sub x8,x8,x10
	cmp x8,x10
	b.cc 43f
	ldp x8,x12,[x1,#40]
	lsr x14,x10,#31
	ldp w11,w13,[x1,#16]
	ldr x9,[x1,#72]
	cbnz x14,16f
	madd x10,x10,x13,x12
	lsr x10,x10,x11
	b 27f
11:
	ldrb w9,[x1,#84]
	tbnz w9,#0,44f
	ldr x9,[x1,#24]
	sub x9,x3,x9
	and x9,x9,x8
	sub x8,x8,x9
	cmp x8,x9
	b.cc 44f
	lsr x11,x9,#31
	ldp x8,x9,[x1,#40]
	ldr w10,[x1,#16]
	cbz x11,29f
	lsr x11,x9,#63
	lsr x11,x11,x10
	cbz x11,29f
	mov x9,#0xc000000000000000
	b 30f
12:
	ldrb w9,[x1,#84]
	tbnz w9,#0,45f
	ldr x9,[x1,#24]
	sub x9,x3,x9
	and x11,x9,x8
	sub x8,x8,x11
	cmp x8,x11
	b.cc 45f
	ldr w10,[x1,#80]
	mov w8,#0xca00
	lsr x15,x11,#31
	movk w8,#0x3b9a,lsl #16
	ldp x12,x9,[x1,#32]
	umaddl x10,w10,w8,x12
	ldr x13,[x1,#48]
	ldp w12,w14,[x1,#16]
	cbnz x15,17f
	madd x11,x11,x14,x13
	lsr x11,x11,x12
	b 33f
13:
	ldrb w9,[x1,#84]
	tbnz w9,#0,46f
	ldr x9,[x1,#24]
	sub x9,x3,x9
	and x9,x9,x8
	sub x8,x8,x9
	cmp x8,x9
	b.cc 46f
	ldp x8,x11,[x1,#56]
	lsr x13,x9,#31
	ldp w12,w10,[x1,#12]
	cbnz x13,18f
	madd x9,x9,x12,x11
	lsr x9,x9,x10
	b 36f
14:
	ldrb w9,[x1,#84]
	tbnz w9,#0,47f
	ldr x9,[x1,#24]
	sub x9,x3,x9
	and x9,x9,x8
	sub x8,x8,x9
	cmp x8,x9
	b.cc 47f
	ldp x8,x11,[x1,#40]
	lsr x13,x9,#31
	ldp w10,w12,[x1,#16]
	cbnz x13,19f
	madd x9,x9,x12,x11
	lsr x9,x9,x10
	b 39f
15:
	mul x14,x13,x10
	umulh x13,x13,x10
	adds x10,x14,x12
	cinc x12,x13,cs
	extr x13,x12,x10,#63
	lsr x13,x13,x11
	cbz x13,20f
	mov x10,#0xc000000000000000
	b 21f
16:
	mul x14,x13,x10
	umulh x13,x13,x10
	adds x10,x14,x12
	cinc x12,x13,cs
	extr x13,x12,x10,#63
	lsr x13,x13,x11
	cbz x13,26f
	mov x10,#0xc000000000000000
	b 27f
17:
	mul x15,x14,x11
	umulh x14,x14,x11
	adds x11,x15,x13
	cinc x13,x14,cs
	extr x14,x13,x11,#63
	lsr x14,x14,x12
	cbz x14,32f
	mov x11,#0xc000000000000000
	b 33f
18:
	mul x13,x12,x9
	umulh x12,x12,x9
	adds x9,x13,x11
	cinc x11,x12,cs
	extr x12,x11,x9,#63
	lsr x12,x12,x10
	cbz x12,35f
	mov x9,#0xc000000000000000
	b 36f
19:
	mul x13,x12,x9
	umulh x12,x12,x9
	adds x9,x13,x11
	cinc x11,x12,cs
	extr x12,x11,x9,#63
	lsr x12,x12,x10
	cbz x12,38f
	mov x9,#0xc000000000000000
	b 39f
20:
	lsl x12,x12,#1
	mvn w13,w11
	lsr x10,x10,x11
	lsl x11,x12,x13
	orr x10,x11,x10
21:
	mov w11,#0xca00
	movk w11,#0x3b9a,lsl #16
	madd x8,x8,x11,x10
	adds x8,x9,x8
	csinv x9,x8,xzr,cc
	mov x8,#0xffffffffffff2800
	movk x8,#0xcd0d,lsl #16
	movk x8,#0x7fff,lsl #48
	cmp x9,x8
	b.cc 40f
22:
	mov w8,#0x6
	ldr x19,[sp,#16]
	mov w0,w8
	ldp x29,x30,[sp],#32
	ret
23:
	lsr x10,x10,x11
24:
	mov w11,#0xca00
	movk w11,#0x3b9a,lsl #16
	madd x8,x8,x11,x10
	adds x8,x9,x8
	csinv x9,x8,xzr,cc
	mov x8,#0xffffffffffff2800
	movk x8,#0xcd0d,lsl #16
	movk x8,#0x7fff,lsl #48
	cmp x9,x8
	b.cc 40f
25:
	mov w8,#0x6
	ldr x19,[sp,#16]
	mov w0,w8
	ldp x29,x30,[sp],#32
	ret
26:
	lsl x12,x12,#1
	mvn w13,w11
	lsr x10,x10,x11
	lsl x11,x12,x13
	orr x10,x11,x10
27:
	mov w11,#0xca00
	movk w11,#0x3b9a,lsl #16
	madd x8,x8,x11,x10
	adds x8,x9,x8
	csinv x9,x8,xzr,cc
	mov x8,#0xffffffffffff2800
	movk x8,#0xcd0d,lsl #16
	movk x8,#0x7fff,lsl #48
	cmp x9,x8
	b.cc 40f
28:
	mov w8,#0x6
	ldr x19,[sp,#16]
	mov w0,w8
	ldp x29,x30,[sp],#32
	ret
29:
	lsr x9,x9,x10
30:
	mov w10,#0xca00
	movk w10,#0x3b9a,lsl #16
	madd x9,x8,x10,x9
	mov x8,#0x591a0000
	movk x8,#0x26bf,lsl #32
	movk x8,#0xd21,lsl #48
	cmp x9,x8
	b.cc 40f
31:
	mov w8,#0x6
	ldr x19,[sp,#16]
	mov w0,w8
	ldp x29,x30,[sp],#32
	ret
32:
	lsl x13,x13,#1
	mvn w14,w12
	lsr x11,x11,x12
	lsl x12,x13,x14
	orr x11,x12,x11
33:
	madd x8,x9,x8,x11
	adds x8,x10,x8
	csinv x9,x8,xzr,cc
	mov x8,#0xffffffffffff2800
	movk x8,#0xcd0d,lsl #16
	movk x8,#0x7fff,lsl #48
	cmp x9,x8
	b.cc 40f
34:
	mov w8,#0x6
	ldr x19,[sp,#16]
	mov w0,w8
	ldp x29,x30,[sp],#32
	ret
35:
	lsl x11,x11,#1
	mvn w12,w10
	lsr x9,x9,x10
	lsl x10,x11,x12
	orr x9,x10,x9
36:
	mov w10,#0xca00
	movk w10,#0x3b9a,lsl #16
	madd x9,x8,x10,x9
	mov x8,#0xffffffffffff2800
	movk x8,#0xcd0d,lsl #16
	movk x8,#0x7fff,lsl #48
	cmp x9,x8
	b.cc 40f
37:
	mov w8,#0x6
	ldr x19,[sp,#16]
	mov w0,w8
	ldp x29,x30,[sp],#32
	ret
38:
	lsl x11,x11,#1
	mvn w12,w10
	lsr x9,x9,x10
	lsl x10,x11,x12
	orr x9,x10,x9
39:
	mov w10,#0xca00
	movk w10,#0x3b9a,lsl #16
	madd x9,x8,x10,x9
	mov x8,#0x591a0000
	movk x8,#0x26bf,lsl #32
	movk x8,#0xd21,lsl #48
	cmp x9,x8
	b.cs 48f
40:
	mov x11,#0x5a53
	lsr x10,x9,#9
	mov w8,wzr
	movk x11,#0xa09b,lsl #16
	movk x11,#0xb82f,lsl #32
	movk x11,#0x44,lsl #48
	umulh x10,x10,x11
	mov w11,#0xca00
	movk w11,#0x3b9a,lsl #16
	lsr x10,x10,#11
	msub w9,w10,w11,w9
	str x10,[x0]
	stp w9,wzr,[x0,#8]
	ldr x19,[sp,#16]
	mov w0,w8
	ldp x29,x30,[sp],#32
	ret
41:
	mov x19,x0
	add x0,x1,#0x8
	mov w1,wzr
	bl "tk_clock::read_base::ReadBase::nanos_at_last"
	mov x9,x0
	mov x0,x19
	mov x8,#0xffffffffffff2800
	movk x8,#0xcd0d,lsl #16
	movk x8,#0x7fff,lsl #48
	cmp x9,x8
	b.cs 22b
	b 40b
42:
	mov x19,x0
	add x0,x1,#0x8
	mov w1,#0x4
	bl "tk_clock::read_base::ReadBase::nanos_at_last"
	mov x9,x0
	mov x0,x19
	mov x8,#0xffffffffffff2800
	movk x8,#0xcd0d,lsl #16
	movk x8,#0x7fff,lsl #48
	cmp x9,x8
	b.cs 25b
	b 40b
43:
	mov x19,x0
	add x0,x1,#0x8
	mov w1,#0x2
	bl "tk_clock::read_base::ReadBase::nanos_at_last"
	mov x9,x0
	mov x0,x19
	mov x8,#0xffffffffffff2800
	movk x8,#0xcd0d,lsl #16
	movk x8,#0x7fff,lsl #48
	cmp x9,x8
	b.cs 28b
	b 40b
44:
	mov x19,x0
	add x0,x1,#0x8
	mov w1,#0x5
	bl "tk_clock::read_base::ReadBase::nanos_at_last"
	mov x9,x0
	mov x0,x19
	mov x8,#0x591a0000
	movk x8,#0x26bf,lsl #32
	movk x8,#0xd21,lsl #48
	cmp x9,x8
	b.cs 31b
	b 40b
45:
	mov x19,x0
	add x0,x1,#0x8
	mov w1,#0x3
	bl "tk_clock::read_base::ReadBase::nanos_at_last"
	mov x9,x0
	mov x0,x19
	mov x8,#0xffffffffffff2800
	movk x8,#0xcd0d,lsl #16
	movk x8,#0x7fff,lsl #48
	cmp x9,x8
	b.cs 34b
	b 40b
46:
	mov x19,x0
	add x0,x1,#0x8
	mov w1,#0x6
	bl "tk_clock::read_base::ReadBase::nanos_at_last"
	mov x9,x0
	mov x0,x19
	mov x8,#0xffffffffffff2800
	movk x8,#0xcd0d,lsl #16
	movk x8,#0x7fff,lsl #48
	cmp x9,x8
	b.cs 37b
	b 40b
47:
	mov x19,x0
	add x0,x1,#0x8
	mov w1,#0x1
	bl "tk_clock::read_base::ReadBase::nanos_at_last"
	mov x9,x0
	mov x0,x19
	mov x8,#0x591a0000
	movk x8,#0x26bf,lsl #32
	movk x8,#0xd21,lsl #48
	cmp x9,x8
	b.cc 40b
48:
	mov w8,#0x6
	ldr x19,[sp,#16]
	mov w0,w8
	ldp x29,x30,[sp],#32
	ret

function "tk_c::change_ntp_counter::turn_over",4,568
	sub sp,sp,#0x80
	ldr x9,[x0,#96]
	ldr x8,[x2]
	mov x11,#0x7ffffffffffffffe
	ldr w10,[x2,#8]
	stp x29,x30,[sp,#32]
	add x29,sp,#0x20
	cmp x9,x11
	stp x28,x27,[sp,#48]
	stp x26,x25,[sp,#64]
	stp x24,x23,[sp,#80]
	stp x22,x21,[sp,#96]
	stp x20,x19,[sp,#112]
	str x8,[sp,#8]
	str w10,[sp,#16]
	b.hi 1f
	ldr w26,[x0]
	ldur x25,[x0,#4]
	add x2,sp,#0x8
	ldr w20,[x0,#12]
	ldrb w28,[x0,#76]
	mov x19,x0
	mov x27,x1
	mov x23,x3
	bl "tk_clock::clock::Clock::change_counter"
	tst w0,#0xff
	b.ne 2f
	lsr x21,x25,#32
	mov w9,#0xca00
	ldr x8,[x19,#96]
	movk w9,#0x3b9a,lsl #16
	ldr w22,[sp,#16]
	lsl x24,x9,x21
	add x8,x8,#0x1
	str x8,[x19,#96]
	tbz w28,#0,4f
	ldp x9,x1,[x19,#184]
	b 6f
1:
	mov w1,wzr
2:
	mov w0,#0x1
3:
	ldp x20,x19,[sp,#112]
	ldp x22,x21,[sp,#96]
	ldp x24,x23,[sp,#80]
	ldp x26,x25,[sp,#64]
	ldp x28,x27,[sp,#48]
	ldp x29,x30,[sp,#32]
	add sp,sp,#0x80
	ret
4:
	ldr x8,[x19,#216]
	neg w9,w26
	ldr x0,[x19,#184]
	stur w26,[x29,#-12]
	sub x8,x27,x8
	stur x25,[x29,#-8]
	lsl x8,x8,x9
	lsr x5,x8,x9
	ldp x8,x3,[x19,#192]
	lsr x9,x5,#27
	cbnz x9,5f
	mov w9,w25
	mul x10,x5,x20
	mov x13,#0x360000000000
	movk x13,#0xc465,lsl #48
	asr x15,x3,#63
	mul x9,x5,x9
	umulh x14,x10,x13
	umulh x11,x9,x3
	mul x12,x9,x3
	mul x13,x10,x13
	sub x10,x14,x10
	madd x9,x9,x15,x11
	adds x11,x13,x12
	adc x9,x10,x9
	adds x1,x11,x8
	mov x11,#0xf000000000000000
	adc x9,x9,x0
	add x10,x9,x24,lsr #5
	add x10,x10,x11
	cmp x10,x24,lsr #4
	b.cc 6f
5:
	sub x2,x29,#0xc
	mov x1,x8
	mov w4,w20
	bl "tk_ntp::lag::Lag::accounted_late"
	mov x9,x0
6:
	mov x10,#0x650000000000
	mov x12,#0xf000000000000000
	mov x8,x23
	movk x10,#0x1dcd,lsl #48
	add x9,x9,x12
	mul x11,x24,x10
	umulh x10,x24,x10
	negs x13,x11
	ngc x12,x10
	cmp x11,x1
	sbcs xzr,x10,x9
	csel x11,x11,x1,lt
	csel x10,x10,x9,lt
	cmp x1,x13
	sbcs xzr,x9,x12
	csel x9,x12,x10,lt
	csel x10,x13,x11,lt
	subs w11,w22,w21
	b.cs 7f
	sub w11,w21,w22
	lsl x12,x9,#1
	mvn w13,w11
	lsr x10,x10,x11
	lsl x12,x12,x13
	tbnz x9,#63,8f
	lsr x13,x9,x11
	orr x9,x12,x10
	tst x11,#0x40
	csel x9,x13,x9,ne
	csel x10,xzr,x13,ne
	b 9f
7:
	lsr x12,x10,#1
	mvn w13,w11
	lsl x9,x9,x11
	lsl x10,x10,x11
	tst x11,#0x40
	lsr x12,x12,x13
	orr x11,x9,x12
	csel x9,xzr,x10,ne
	csel x10,x10,x11,ne
	b 9f
8:
	asr x13,x9,x11
	asr x9,x9,#63
	orr x10,x12,x10
	tst x11,#0x40
	csel x10,x13,x10,ne
	csel x12,x9,x13,ne
	cmp w11,#0x7f
	csinc x9,x10,xzr,ne
	csel x10,xzr,x12,eq
9:
	mov x11,#0x1000000000000000
	mov w1,wzr
	mov w0,wzr
	add x10,x10,x11
	str x8,[x19,#216]
	stp x10,x9,[x19,#184]
	b 3b

function "tk_clock::read_base::ReadBase::is_further",4,1360
	stp x29,x30,[sp,#-48]!
	stp x22,x21,[sp,#16]
	mov x21,#0xffffffffffff2800
	mov x22,#0x591a0000
	and w8,w1,#0xff
	ldr w9,[x0,#12]
	movk x21,#0xcd0d,lsl #16
	movk x22,#0x26bf,lsl #32
	cmp w8,#0x3
	movk x21,#0x7fff,lsl #48
	movk x22,#0xd21,lsl #48
	stp x20,x19,[sp,#32]
	mov x29,sp
	b.gt 2f
	sub w10,w8,#0x2
	cmp w10,#0x2
	b.cc 1f
	cbnz w8,8f
1:
	mov w10,w9
	b 5f
2:
	cmp w8,#0x4
	b.eq 3f
	cmp w8,#0x5
	b.ne 4f
	mov w10,wzr
	mov x11,x22
	b 6f
3:
	mov w10,wzr
	b 5f
4:
	ldr w10,[x0,#4]
5:
	mov x11,x21
6:
	cmp x2,#0x0
	mov w12,#0xca00
	mov w15,w3
	movk w12,#0x3b9a,lsl #16
	cneg x13,x2,mi
	mov w8,wzr
	mul x14,x13,x12
	umulh x12,x13,x12
	adds x13,x14,w3,uxtw
	cinc x16,x12,cs
	subs x14,x15,x14
	ngcs x12,x12
	csel x12,xzr,x12,cc
	csel x14,xzr,x14,cc
	tst x2,#0x8000000000000000
	csel x20,x13,x14,eq
	csel x19,x16,x12,eq
	cbz w10,26f
	ldrb w10,[x0,#76]
	cbnz w10,26f
	cmp x20,x11
	sbcs xzr,x19,xzr
	b.cs 26f
	ldr w8,[x0]
	mov x10,#0x7fffffffffffffff
	ldr x11,[x0,#16]
	mov x12,#0xffffffffffffffff
	and w14,w1,#0xff
	neg w8,w8
	cmp w14,#0x2
	lsr x10,x10,x8
	lsr x13,x12,x8
	add x8,x10,x11
	ldr x10,[x0,#40]
	and x8,x8,x13
	sub x11,x8,x11
	ldp x12,x8,[x0,#24]
	and x11,x11,x13
	sub x13,x13,x11
	b.le 7f
	cmp w14,#0x4
	b.gt 9f
	cmp w14,#0x3
	b.ne 13f
	cmp x13,x11
	b.cc 36f
	ldr w14,[x0,#72]
	mov w13,#0xca00
	lsr x15,x11,#31
	movk w13,#0x3b9a,lsl #16
	umaddl x12,w14,w13,x12
	ldr w14,[x0,#8]
	cbnz x15,21f
	madd x9,x11,x9,x10
	lsr x9,x9,x14
	madd x8,x8,x13,x9
	adds x8,x12,x8
	csinv x0,x8,xzr,cc
	cmp x0,x21
	b.cs 40f
	b 30f
7:
	cbz w14,11f
	cmp w14,#0x1
	b.ne 12f
	cmp x13,x11
	b.cc 34f
	lsr x13,x11,#31
	ldr w12,[x0,#8]
	cbnz x13,17f
	madd x9,x11,x9,x10
	lsr x9,x9,x12
	mov w10,#0xca00
	movk w10,#0x3b9a,lsl #16
	madd x0,x8,x10,x9
	cmp x0,x22
	b.cs 40f
	b 30f
8:
	mov w10,w9
	mov x11,x22
	b 6b
9:
	cmp w14,#0x5
	b.ne 15f
	cmp x13,x11
	b.cc 37f
	lsr x11,x11,#31
	ldr w9,[x0,#8]
	cbz x11,10f
	lsr x11,x10,#63
	lsr x11,x11,x9
	cbnz x11,18f
10:
	lsr x9,x10,x9
	mov w10,#0xca00
	movk w10,#0x3b9a,lsl #16
	madd x0,x8,x10,x9
	cmp x0,x22
	b.cs 40f
	b 30f
11:
	cmp x13,x11
	b.cc 33f
	lsr x14,x11,#31
	ldr w13,[x0,#8]
	cbnz x14,16f
	madd x9,x11,x9,x10
	lsr x9,x9,x13
	b 24f
12:
	cmp x13,x11
	b.cc 35f
	lsr x14,x11,#31
	ldr x12,[x0,#64]
	ldr w13,[x0,#8]
	cbnz x14,19f
	madd x9,x11,x9,x10
	lsr x9,x9,x13
	b 29f
13:
	cmp x13,x11
	b.cc 38f
	lsr x11,x11,#31
	ldr w9,[x0,#8]
	cbz x11,14f
	lsr x11,x10,#63
	lsr x11,x11,x9
	cbnz x11,20f
14:
	lsr x9,x10,x9
	b 29f
15:
	cmp x13,x11
	b.cc 39f
	ldp x8,x10,[x0,#48]
	lsr x13,x11,#31
	ldp w12,w9,[x0,#4]
	cbnz x13,22f
	madd x10,x11,x12,x10
	lsr x9,x10,x9
	mov w10,#0xca00
	movk w10,#0x3b9a,lsl #16
	madd x0,x8,x10,x9
	cmp x0,x21
	b.cs 40f
	b 30f
16:
	mul x14,x11,x9
	umulh x11,x11,x9
	adds x9,x14,x10
	cinc x10,x11,cs
	extr x11,x10,x9,#63
	lsr x11,x11,x13
	cbz x11,23f
	mov x9,#0xc000000000000000
	b 24f
17:
	mul x13,x11,x9
	umulh x11,x11,x9
	adds x9,x13,x10
	cinc x10,x11,cs
	extr x11,x10,x9,#63
	lsr x11,x11,x12
	cbz x11,27f
18:
	mov x9,#0xc000000000000000
	mov w10,#0xca00
	movk w10,#0x3b9a,lsl #16
	madd x0,x8,x10,x9
	cmp x0,x22
	b.cs 40f
	b 30f
19:
	mul x14,x11,x9
	umulh x11,x11,x9
	adds x9,x14,x10
	cinc x10,x11,cs
	extr x11,x10,x9,#63
	lsr x11,x11,x13
	cbz x11,28f
20:
	mov x9,#0xc000000000000000
	b 29f
21:
	mul x15,x11,x9
	umulh x11,x11,x9
	adds x9,x15,x10
	cinc x10,x11,cs
	extr x11,x10,x9,#63
	lsr x11,x11,x14
	cbz x11,31f
	mov x9,#0xc000000000000000
	madd x8,x8,x13,x9
	adds x8,x12,x8
	csinv x0,x8,xzr,cc
	cmp x0,x21
	b.cs 40f
	b 30f
22:
	mul x13,x12,x11
	umulh x11,x12,x11
	adds x10,x13,x10
	cinc x11,x11,cs
	extr x12,x11,x10,#63
	lsr x12,x12,x9
	cbz x12,32f
	mov x9,#0xc000000000000000
	mov w10,#0xca00
	movk w10,#0x3b9a,lsl #16
	madd x0,x8,x10,x9
	cmp x0,x21
	b.cs 40f
	b 30f
23:
	lsl x10,x10,#1
	mvn w11,w13
	lsr x9,x9,x13
	lsl x10,x10,x11
	orr x9,x10,x9
24:
	mov w10,#0xca00
	movk w10,#0x3b9a,lsl #16
	madd x8,x8,x10,x9
	adds x8,x12,x8
	csinv x0,x8,xzr,cc
	cmp x0,x21
	b.cc 30f
25:
	mov w8,wzr
26:
	ldp x20,x19,[sp,#32]
	mov w0,w8
	ldp x22,x21,[sp,#16]
	ldp x29,x30,[sp],#48
	ret
27:
	lsl x10,x10,#1
	mvn w11,w12
	lsr x9,x9,x12
	lsl x10,x10,x11
	orr x9,x10,x9
	mov w10,#0xca00
	movk w10,#0x3b9a,lsl #16
	madd x0,x8,x10,x9
	cmp x0,x22
	b.cs 40f
	b 30f
28:
	lsl x10,x10,#1
	mvn w11,w13
	lsr x9,x9,x13
	lsl x10,x10,x11
	orr x9,x10,x9
29:
	mov w10,#0xca00
	movk w10,#0x3b9a,lsl #16
	madd x8,x8,x10,x9
	adds x8,x12,x8
	csinv x0,x8,xzr,cc
	cmp x0,x21
	b.cs 40f
30:
	cmp x0,x20
	ngcs xzr,x19
	cset w8,cc
	ldp x20,x19,[sp,#32]
	mov w0,w8
	ldp x22,x21,[sp,#16]
	ldp x29,x30,[sp],#48
	ret
31:
	lsl x10,x10,#1
	mvn w11,w14
	lsr x9,x9,x14
	lsl x10,x10,x11
	orr x9,x10,x9
	madd x8,x8,x13,x9
	adds x8,x12,x8
	csinv x0,x8,xzr,cc
	cmp x0,x21
	b.cs 40f
	b 30b
32:
	lsl x11,x11,#1
	mvn w12,w9
	lsr x9,x10,x9
	lsl x10,x11,x12
	orr x9,x10,x9
	mov w10,#0xca00
	movk w10,#0x3b9a,lsl #16
	madd x0,x8,x10,x9
	cmp x0,x21
	b.cs 40f
	b 30b
33:
	mov w1,wzr
	bl "tk_clock::read_base::ReadBase::nanos_at_last"
	cmp x0,x21
	b.cs 25b
	b 30b
34:
	mov w1,#0x1
	bl "tk_clock::read_base::ReadBase::nanos_at_last"
	cmp x0,x22
	b.cc 30b
	b 40f
35:
	mov w1,#0x2
	bl "tk_clock::read_base::ReadBase::nanos_at_last"
	cmp x0,x21
	b.cs 40f
	b 30b
36:
	mov w1,#0x3
	bl "tk_clock::read_base::ReadBase::nanos_at_last"
	cmp x0,x21
	b.cs 40f
	b 30b
37:
	mov w1,#0x5
	bl "tk_clock::read_base::ReadBase::nanos_at_last"
	cmp x0,x22
	b.cs 40f
	b 30b
38:
	mov w1,#0x4
	bl "tk_clock::read_base::ReadBase::nanos_at_last"
	cmp x0,x21
	b.cs 40f
	b 30b
39:
	mov w1,#0x6
	bl "tk_clock::read_base::ReadBase::nanos_at_last"
	cmp x0,x21
	b.cc 30b
40:
	mov w8,wzr
	ldp x20,x19,[sp,#32]
	mov w0,w8
	ldp x22,x21,[sp,#16]
	ldp x29,x30,[sp],#48
	ret

public tkc_adjtimex,4,268
	sub sp,sp,#0xd0
	movi v0.2d,#0x0
	ldr w8,[x0]
	ldr x9,[x0,#48]
	stp x20,x19,[sp,#192]
	mov x19,x1
	mov x20,x0
	stp w8,wzr,[sp]
	ldr w8,[x0,#40]
	add x1,x2,#0x68
	mov x4,sp
	stp x29,x30,[sp,#176]
	add x29,sp,#0xb0
	stp q0,q0,[sp,#80]
	stp q0,q0,[sp,#112]
	stp q0,q0,[sp,#144]
	ldur q0,[x0,#8]
	stp w8,wzr,[sp,#40]
	ldr x8,[x0,#88]
	stur q0,[sp,#8]
	ldur q0,[x0,#24]
	stp x9,x8,[sp,#48]
	stur q0,[sp,#24]
	ldur q0,[x0,#72]
	add x0,sp,#0x50
	str q0,[sp,#64]
	bl .Ltk_ntp.course.Course.adjtimex
	ldrb w8,[sp,#80]
	cbz w8,1f
	ldrsb x8,[sp,#81]
	adrp x9,.rodata..Lswitch.table.tkc_ntp_change_counter
	add x9,x9,:lo12:.rodata..Lswitch.table.tkc_ntp_change_counter
	add x8,x9,x8,lsl #2
	ldr w0,[x8,#4]
	ldp x20,x19,[sp,#192]
	ldp x29,x30,[sp,#176]
	add sp,sp,#0xd0
	ret
1:
	ldur q0,[sp,#104]
	adrp x9,.rodata.cst16+16
	ldur q1,[sp,#120]
	ldp x8,x11,[sp,#144]
	mov w0,wzr
	stur q0,[x20,#8]
	ldr q0,[sp,#160]
	ldr w10,[sp,#136]
	stur q1,[x20,#24]
	stur q0,[x20,#72]
	ldr q0,[x9,:lo12:.rodata.cst16+16]
	ldrb w9,[sp,#88]
	str x8,[x20,#48]
	ldr w8,[sp,#92]
	stur q0,[x20,#56]
	movi v0.2d,#0x0
	str w10,[x20,#40]
	stp xzr,xzr,[x20,#96]
	str x11,[x20,#88]
	str wzr,[x20,#112]
	str xzr,[x20,#152]
	stur q0,[x20,#136]
	stur q0,[x20,#120]
	str w8,[x20,#160]
	str w9,[x19]
	ldp x20,x19,[sp,#192]
	ldp x29,x30,[sp,#176]
	add sp,sp,#0xd0
	ret

public tkc_clock_apply,4,388
	cbz w2,1f
	b "tk_c::clocks::apply_other"
1:
	ldr x8,[x0,#96]
	mov x9,#0x7ffffffffffffffe
	cmp x8,x9
	b.ls 2f
	mov w0,#0x1
	ret
2:
	ldrb w9,[x0,#76]
	tbz w9,#0,3f
	mov w0,#0x2
	ret
3:
	ldr w9,[x0]
	mov x10,#0xffffffffffffffff
	neg w9,w9
	lsr x9,x10,x9
	cmp x9,x1
	b.cs 4f
	mov w0,#0x4
	ret
4:
	ldr x10,[x0,#16]
	sub x10,x1,x10
	and x11,x10,x9
	sub x9,x9,x11
	cmp x9,x11
	b.cs 5f
	mov w0,#0x5
	ret
5:
	stp x29,x30,[sp,#-32]!
	lsr x9,x11,#31
	str x19,[sp,#16]
	mov x29,sp
	cbnz x9,8f
	ldp w12,w9,[x0,#8]
	ldr x10,[x0,#40]
	madd x10,x11,x9,x10
	mov w9,#0xca00
	movk w9,#0x3b9a,lsl #16
	lsl x13,x9,x12
	ldr x9,[x0,#32]
	subs x12,x10,x13
	b.cc 6f
	cmp x12,x13
	b.cs 8f
	add x9,x9,#0x1
	mov x10,x12
6:
	ldr w12,[x0,#4]
	ldr x14,[x0,#56]
	madd x12,x11,x12,x14
	ldr x11,[x0,#48]
	subs x14,x12,x13
	b.cc 7f
	cmp x14,x13
	b.cs 8f
	add x11,x11,#0x1
	mov x12,x14
7:
	mov w13,#0x8ff
	movk w13,#0x3864,lsl #16
	cmp x9,x13
	b.ls 10f
8:
	mov x19,x0
	bl "tk_clock::clock::Clock::update_late"
	tst w0,#0xff
	b.eq 9f
	adrp x8,.rodata..Lswitch.table.tkc_ntp_change_counter
	add x8,x8,:lo12:.rodata..Lswitch.table.tkc_ntp_change_counter
	add x8,x8,w1,sxtb #2
	ldr w0,[x8,#4]
	ldr x19,[sp,#16]
	ldp x29,x30,[sp],#32
	ret
9:
	ldr x8,[x19,#96]
	add x8,x8,#0x1
	str x8,[x19,#96]
	mov w0,wzr
	ldr x19,[sp,#16]
	ldp x29,x30,[sp],#32
	ret
10:
	mov x13,#0xe801
	ldr x14,[x0,#24]
	movk x13,#0x6378,lsl #16
	movk x13,#0x7e4d,lsl #32
	movk x13,#0x72de,lsl #48
	cmp x14,x13
	b.cs 8b
	ldr x14,[x0,#64]
	cmp x14,x13
	b.cs 8b
	str x1,[x0,#16]
	stp x9,x10,[x0,#32]
	stp x11,x12,[x0,#48]
	add x8,x8,#0x1
	str x8,[x0,#96]
	mov w0,wzr
	ldr x19,[sp,#16]
	ldp x29,x30,[sp],#32
	ret

public tkc_clock_change_counter,4,136
	ldr x8,[x0,#96]
	mov x9,#0x7ffffffffffffffe
	cmp x8,x9
	b.ls 1f
	mov w0,#0x1
	ret
1:
	sub sp,sp,#0x30
	ldr x8,[x2]
	ldr w9,[x2,#8]
	mov x2,sp
	stp x29,x30,[sp,#16]
	add x29,sp,#0x10
	str x19,[sp,#32]
	mov x19,x0
	str x8,[sp]
	str w9,[sp,#8]
	bl "tk_clock::clock::Clock::change_counter"
	tbz w0,#0,2f
	adrp x8,.rodata..Lswitch.table.tkc_ntp_change_counter
	add x8,x8,:lo12:.rodata..Lswitch.table.tkc_ntp_change_counter
	add x8,x8,w1,sxtb #2
	ldr w0,[x8,#4]
	ldp x29,x30,[sp,#16]
	ldr x19,[sp,#32]
	add sp,sp,#0x30
	ret
2:
	ldr x8,[x19,#96]
	mov w0,wzr
	add x8,x8,#0x1
	str x8,[x19,#96]
	ldp x29,x30,[sp,#16]
	ldr x19,[sp,#32]
	add sp,sp,#0x30
	ret

public tkc_clock_frequency,4,8
	ldr x0,[x0,#80]
	ret

public tkc_clock_save,4,88
	ldp q0,q1,[x1,#32]
	ldr d3,[x1]
	ldp x11,x12,[x1,#16]
	ldr x8,[x1,#96]
	ldr w14,[x1,#72]
	ldrb w15,[x1,#76]
	ldr x13,[x1,#64]
	ext v0.16b,v0.16b,v0.16b,#8
	ext v1.16b,v1.16b,v1.16b,#8
	ldr q2,[x1,#80]
	ldp w9,w10,[x1,#8]
	stp x8,x11,[x0]
	orr x8,x15,x14,lsl #1
	stp x12,x13,[x0,#40]
	stur q0,[x0,#24]
	uxtl v0.2d,v3.2s
	str x10,[x0,#16]
	str x9,[x0,#96]
	str x8,[x0,#56]
	stp q1,q0,[x0,#64]
	stur q2,[x0,#104]
	ret

public tkc_clock_snapshot,4,72
	ldr x8,[x1,#96]
	ldrb w11,[x1,#76]
	ldr x9,[x1,#64]
	ldp q0,q1,[x1]
	ldr w10,[x1,#72]
	ldp q2,q3,[x1,#32]
	str x8,[x0]
	and w8,w11,#0x1
	str x9,[x0,#72]
	stur q0,[x0,#8]
	stur q1,[x0,#24]
	stur q2,[x0,#40]
	stur q3,[x0,#56]
	str w10,[x0,#80]
	strb w8,[x0,#84]
	sturh wzr,[x0,#85]
	strb wzr,[x0,#87]
	ret

public tkc_clock_tick,4,8
	ldr x0,[x0,#88]
	ret

public tkc_clock_words,4,84
	ldp q0,q1,[x3,#32]
	ldr x8,[x3,#96]
	ldp x10,x11,[x3,#16]
	ldr w13,[x3,#72]
	ldrb w14,[x3,#76]
	ldr w9,[x3,#12]
	ldr x12,[x3,#64]
	ext v0.16b,v0.16b,v0.16b,#8
	ext v1.16b,v1.16b,v1.16b,#8
	stp x8,x10,[x0]
	orr x8,x14,x13,lsl #1
	str x9,[x0,#16]
	stp x11,x12,[x0,#40]
	str x8,[x0,#56]
	stur q0,[x0,#24]
	str q1,[x0,#64]
	ldr x8,[x3,#80]
	str x8,[x1]
	ldr x8,[x3,#88]
	str x8,[x2]
	ret

public tkc_counter_gap,4,24
	ldr w8,[x0]
	sub x9,x2,x1
	neg w8,w8
	lsl x9,x9,x8
	lsr x0,x9,x8
	ret

public tkc_counter_nanos,4,64
	ldp w9,w10,[x0,#4]
	lsr x11,x1,#32
	mov w8,#0x20
	mov w12,#0x1
	umull x11,w11,w9
	sub w8,w8,w10
	lsl x12,x12,x8
	umull x9,w1,w9
	umulh x12,x12,x11
	lsl x8,x11,x8
	lsr x9,x9,x10
	adds x8,x9,x8
	csinv x8,x8,xzr,cc
	cmp xzr,x12
	csinv x0,x8,xzr,eq
	ret

public tkc_counter_numbers,4,28
	ldr w8,[x3]
	str w8,[x0]
	ldr w8,[x3,#4]
	str w8,[x1]
	ldr w8,[x3,#8]
	str w8,[x2]
	ret

public tkc_ntp_advance,4,64
	stp x29,x30,[sp,#-16]!
	mov x3,x1
	mov x1,x0
	add x0,x0,#0x68
	mov w2,wzr
	mov x29,sp
	bl .Ltk_ntp.course.Course.advance
	add w8,w1,#0x1
	tst w0,#0x1
	adrp x9,.rodata..Lswitch.table.tkc_ntp_change_counter
	add x9,x9,:lo12:.rodata..Lswitch.table.tkc_ntp_change_counter
	and x8,x8,#0xff
	csel x8,x8,xzr,ne
	ldr w0,[x9,x8,lsl #2]
	ldp x29,x30,[sp],#16
	ret

public tkc_ntp_advance_late,4,64
	stp x29,x30,[sp,#-16]!
	mov x3,x1
	mov x1,x0
	add x0,x0,#0x68
	mov w2,#0x1
	mov x29,sp
	bl .Ltk_ntp.course.Course.advance
	add w8,w1,#0x1
	tst w0,#0x1
	adrp x9,.rodata..Lswitch.table.tkc_ntp_change_counter
	add x9,x9,:lo12:.rodata..Lswitch.table.tkc_ntp_change_counter
	and x8,x8,#0xff
	csel x8,x8,xzr,ne
	ldr w0,[x9,x8,lsl #2]
	ldp x29,x30,[sp],#16
	ret

public tkc_ntp_apply,4,280
	mov x8,x1
	mov x1,x0
	cmp w2,#0x3
	mov w0,#0x10
	b.le 1f
	cmp w2,#0x5
	b.le 3f
	cmp w2,#0x6
	b.eq 6f
	cmp w2,#0x7
	b.eq 8f
	cmp w2,#0x8
	b.ne 10f
	mov w9,#0x6
	b 9f
1:
	cmp w2,#0x1
	b.gt 2f
	mov w9,w2
	cbz w2,4f
	cmp w2,#0x1
	b.ne 10f
	mov w9,#0x1
	b 9f
2:
	cmp w2,#0x2
	b.eq 5f
	cmp w2,#0x3
	b.ne 10f
	mov w4,wzr
	mov w9,#0x3
	b 9f
3:
	cmp w2,#0x4
	b.eq 7f
	cmp w2,#0x5
	b.ne 10f
	mov w4,wzr
	mov w9,#0x5
	b 9f
4:
	mov x3,x9
	mov w4,w2
	b 9f
5:
	mov w9,#0x2
	b 9f
6:
	mov x3,xzr
	mov w4,wzr
	mov w9,#0x7
	b 9f
7:
	mov w4,wzr
	mov w9,#0x4
	b 9f
8:
	mov w9,#0x8
9:
	sub sp,sp,#0x30
	stp x9,x3,[sp,#8]
	mov w9,w4
	add x0,x1,#0x68
	add x3,sp,#0x8
	mov x2,x8
	stp x29,x30,[sp,#32]
	add x29,sp,#0x20
	str x9,[sp,#24]
	bl .Ltk_ntp.course.Course.apply
	add w8,w1,#0x1
	tst w0,#0x1
	adrp x9,.rodata..Lswitch.table.tkc_ntp_change_counter
	add x9,x9,:lo12:.rodata..Lswitch.table.tkc_ntp_change_counter
	and x8,x8,#0xff
	csel x8,x8,xzr,ne
	ldp x29,x30,[sp,#32]
	ldr w0,[x9,x8,lsl #2]
	add sp,sp,#0x30
10:
	ret

public tkc_ntp_frequency,4,44
	ldr x8,[x0,#152]
	mov w9,#0x49bb
	movk w9,#0x20c,lsl #16
	asr x8,x8,#19
	mul x8,x8,x9
	mov w9,#0xffffffff
	add x9,x8,x9
	cmp x8,#0x0
	csel x8,x9,x8,mi
	asr x0,x8,#32
	ret

public tkc_ntp_leap,4,84
	ldrb w9,[x1,#116]
	mov x8,xzr
	tbz w9,#0,3f
	ldr x9,[x1,#120]
	ldr x10,[x1,#208]
	cmp x9,x10
	b.cc 3f
	ldp w11,w10,[x1,#108]
	tbz w11,#4,1f
	cmp w10,#0x1
	b.ne 1f
	mov x8,#0xffffffffffffffff
	b 2f
1:
	mov x8,xzr
	tbz w11,#5,3f
	cmp w10,#0x2
	b.ne 3f
	mov w8,#0x1
2:
	str x9,[x0]
3:
	mov x0,x8
	ret

public tkc_ntp_load,4,724
	sub sp,sp,#0x90
	stp x20,x19,[sp,#128]
	mov x19,x0
	mov x0,sp
	stp x29,x30,[sp,#112]
	add x29,sp,#0x70
	mov x20,x1
	bl "tk_c::saved::clock_of_words"
	ldrb w8,[sp]
	cmp w8,#0x1
	b.ne 1f
	ldr x8,[x20,#136]
	mov x9,#0x100000000
	lsr x10,x8,#32
	cmp x8,x9
	csel x9,x8,x9,cc
	cbnz x10,3f
	ldr x8,[x20,#144]
	mov w10,#0x100
	cmp x8,#0x100
	csel x16,x8,x10,cc
	cmp x8,#0xff
	b.hi 3f
	ldr x8,[x20,#120]
	mov x10,#0x100000000
	lsr x11,x8,#32
	cmp x8,x10
	csel x8,x8,x10,cc
	cbnz x11,3f
	ldr x11,[x20,#128]
	lsr x12,x11,#32
	cmp x11,x10
	csel x10,x11,x10,cc
	cbnz x12,3f
	ldr x11,[x20,#168]
	mov x12,#0x100000000
	lsr x13,x11,#32
	cmp x11,x12
	csel x11,x11,x12,cc
	cbnz x13,3f
	ldr x13,[x20,#176]
	lsr x14,x13,#32
	cmp x13,x12
	csel x12,x13,x12,cc
	cbnz x14,3f
	ldr x13,[x20,#184]
	mov x14,#0x100000000
	lsr x15,x13,#32
	cmp x13,x14
	csel x13,x13,x14,cc
	cbnz x15,3f
	ldr x15,[x20,#192]
	lsr x17,x15,#32
	cmp x15,x14
	csel x14,x15,x14,cc
	cbnz x17,3f
	sub w15,w8,#0x1
	cmp w15,#0x3ff
	b.hi 3f
	cmp w11,#0xa
	mov w0,#0x12
	b.hi 2f
	mov w15,#0x2401
	movk w15,#0xf4,lsl #16
	cmp w12,w15
	b.cs 2f
	cmp w13,w15
	b.cs 2f
	mov w15,#0xffffdcd8
	add w15,w14,w15
	cmp w15,#0x7d0
	b.hi 2f
	ldr x15,[x20,#208]
	tbnz x15,#63,2f
	ldr x17,[x20,#160]
	ldr x18,[x20,#200]
	mov x1,#0x1
	ldr x15,[x20,#224]
	movk x1,#0xa120,lsl #32
	cmp x17,#0x0
	movk x1,#0x7,lsl #48
	cneg x3,x17,mi
	cmp x18,#0x0
	cneg x0,x18,mi
	cmp x15,#0x0
	cneg x2,x15,mi
	cmp x0,x1
	mov w0,#0x12
	b.cs 2f
	mov x4,#0x650000000000
	movk x4,#0x1dcd,lsl #48
	udiv x4,x4,x8
	cmp x3,x4
	b.hi 2f
	sub x1,x1,#0x1
	udiv x1,x1,x8
	add x1,x1,x4
	cmp x2,x1
	b.hi 2f
	and w16,w16,#0xff
	ldr x2,[x20,#152]
	cmp w16,#0x1
	ccmp x2,#0x0,#0x4,ne
	cset w1,eq
	cmp w9,#0x4
	b.hi 2f
	cmp w16,#0x1
	b.hi 2f
	cbz w1,2f
	mov x1,#0x7d05
	ldr x0,[x20,#248]
	movk x1,#0x25c1,lsl #16
	movk x1,#0x2,lsl #32
	cmp x0,x1
	mov w0,#0x12
	b.hi 2f
	ldr x3,[x20,#232]
	lsr x1,x3,#59
	cbz x1,2f
	ldr x1,[x20,#240]
	mov x4,#0x1800000000000000
	cmp xzr,x1
	sbcs xzr,x4,x3
	b.cc 2f
	mov x4,#0x86a000000000
	ldr q0,[x20,#208]
	ldur q1,[x20,#248]
	movk x4,#0x1,lsl #48
	stp w10,w9,[x19,#108]
	ldur q2,[sp,#8]
	madd x4,x14,x4,x18
	ldur q3,[sp,#24]
	str w8,[x19,#104]
	stp w11,w12,[x19,#136]
	ldr x10,[sp,#72]
	cmp w16,#0x1
	ldrb w11,[sp,#84]
	stp q2,q3,[x19]
	mov w0,wzr
	ldur q2,[sp,#40]
	ldur q4,[sp,#56]
	str x10,[x19,#64]
	ldr w10,[sp,#80]
	sturh wzr,[x19,#77]
	udiv x9,x4,x8
	stp q2,q4,[x19,#32]
	ldur q2,[sp,#88]
	str w10,[x19,#72]
	cset w10,eq
	strb wzr,[x19,#79]
	str x18,[x19,#152]
	stp x2,x17,[x19,#120]
	strb wzr,[x19,#119]
	sturh wzr,[x19,#117]
	stp w13,w14,[x19,#144]
	stp x15,x3,[x19,#176]
	str q2,[x19,#80]
	strb w10,[x19,#116]
	str q0,[x19,#160]
	str q1,[x19,#208]
	add x9,x9,x15
	mul x8,x9,x8
	and w9,w11,#0x1
	strb w9,[x19,#76]
	ldr x9,[sp,#104]
	str x9,[x19,#96]
	stp x1,x8,[x19,#192]
	ldp x20,x19,[sp,#128]
	ldp x29,x30,[sp,#112]
	add sp,sp,#0x90
	ret
1:
	mov w0,#0x12
2:
	ldp x20,x19,[sp,#128]
	ldp x29,x30,[sp,#112]
	add sp,sp,#0x90
	ret
3:
	mov w0,#0x12
	ldp x20,x19,[sp,#128]
	ldp x29,x30,[sp,#112]
	add sp,sp,#0x90
	ret

public tkc_ntp_pulse,4,1340
	sub sp,sp,#0xc0
	mov w8,#0xc9ff
	stp x22,x21,[sp,#160]
	mov x22,x0
	movk w8,#0x3b9a,lsl #16
	mov w0,#0x4
	stp x29,x30,[sp,#96]
	cmp w3,w8
	stp x28,x27,[sp,#112]
	add x29,sp,#0x60
	stp x26,x25,[sp,#128]
	stp x24,x23,[sp,#144]
	stp x20,x19,[sp,#176]
	b.hi 16f
	mov x20,x4
	tbnz x4,#63,16f
	mov w14,#0xca00
	ldp x5,x12,[x1,#32]
	mov x21,x2
	mov x19,x1
	movk w14,#0x3b9a,lsl #16
	ldp w25,w27,[x1,#4]
	ldr w18,[x1,#12]
	ldp x15,x2,[x1,#16]
	ldp x0,x28,[x1,#48]
	sub x8,x14,#0x1
	ldp x4,x1,[x1,#64]
	cmp x12,x8
	stur w18,[x29,#-28]
	stur x2,[x29,#-24]
	stur x1,[x29,#-40]
	stp x4,x5,[sp,#40]
	b.ls 2f
	mov w8,#0x64ff
	subs x9,x20,x12
	movk w8,#0x1dcd,lsl #16
	csel x9,xzr,x9,cc
	add x10,x8,#0x2
	cmp x9,x10
	b.cc 1f
	mov x10,#0x5a53
	add x8,x9,x8
	movk x10,#0xa09b,lsl #16
	lsr x9,x8,#9
	movk x10,#0xb82f,lsl #32
	movk x10,#0x44,lsl #48
	umulh x9,x9,x10
	mov w10,#0x64ff
	movk w10,#0x1dcd,lsl #16
	lsr x11,x9,#11
	mov x9,#0xffffffffffff9b01
	movk x9,#0xe232,lsl #16
	msub x13,x11,x14,x8
	mov w8,#0xa120
	movk w8,#0x7,lsl #16
	mul x8,x11,x8
	adds x9,x13,x9
	sub x10,x10,x13
	csel x9,x9,x10,pl
	cmp x8,x9
	b.cs 7f
1:
	mov w8,#0x1
	stp x15,x0,[sp,#16]
	mov w23,wzr
	str xzr,[sp,#8]
	mov x26,xzr
	mov w24,#0x200
	b 3f
2:
	mov w8,#0x1
	stp x15,x0,[sp,#16]
	mov w24,wzr
	mov w23,wzr
	str xzr,[sp,#8]
	mov x26,xzr
3:
	str w8,[sp,#36]
4:
	add x0,x22,#0x68
	mov x1,x22
	mov w2,wzr
	mov x3,x21
	bl .Ltk_ntp.course.Course.advance
	tst w0,#0xff
	b.eq 5f
	adrp x8,.rodata..Lswitch.table.tkc_ntp_change_counter
	add x8,x8,:lo12:.rodata..Lswitch.table.tkc_ntp_change_counter
	add x8,x8,w1,sxtb #2
	ldr w0,[x8,#4]
	b 16f
5:
	ldr x8,[x22,#96]
	mov x9,#0x7ffffffffffffffc
	cmp x8,x9
	b.hi 6f
	mov w16,w23
	cbz w23,11f
	ldr w9,[x22]
	ldr x8,[x22,#216]
	ldr w4,[x22,#12]
	ldr x3,[x22,#200]
	ldr x0,[x22,#184]
	sub x8,x21,x8
	neg w10,w9
	stur w9,[x29,#-12]
	lsl x8,x8,x10
	lsr x5,x8,x10
	ldur x8,[x22,#4]
	lsr x10,x5,#27
	stur x8,[x29,#-8]
	cbz x10,8f
	ldr x1,[x22,#192]
	b 9f
6:
	mov w0,#0x1
	b 16f
7:
	mov w8,#0x6501
	add w16,w27,w27,lsl #1
	movk w8,#0x1dcd,lsl #16
	cmp w3,w8
	csel x8,xzr,x14,cc
	sub x8,x8,w3,uxtw
	subs x9,x8,x15
	cneg x15,x9,mi
	adds x14,x28,#0x1
	lsl x9,x27,#4
	csinv x17,x14,xzr,cc
	mov x14,#0x7fffffffffffffff
	mov w10,w15
	cmp x17,x14
	add w15,w16,w15
	lsr x16,x11,x25
	csel x17,x17,x14,cc
	cmp x9,x10
	lsr w27,w15,#2
	cset w15,cc
	csel x28,x17,x28,cc
	str w15,[sp,#36]
	cbz x16,17f
	adds x12,x0,#0x1
	mov w15,#0x2
	csinv x12,x12,xzr,cc
	lsl x15,x15,x25
	cmp x12,x14
	csel x0,x12,x14,cc
	cmp x15,x11
	b.cs 18f
	adds x11,x1,#0x1
	mov x12,#0x7fffffffffffffff
	mov w23,wzr
	csinv x11,x11,xzr,cc
	cmp x11,x12
	csel x11,x11,x12,cc
	cmn x2,#0x2
	stur x11,[x29,#-40]
	b.lt 19f
	sub x2,x2,#0x1
	str xzr,[sp,#8]
	mov w11,#0x800
	stur x2,[x29,#-24]
	b 25f
8:
	mov w9,w8
	mul x10,x5,x4
	mov x13,#0x360000000000
	movk x13,#0xc465,lsl #48
	asr x15,x3,#63
	ldr x1,[x22,#192]
	mul x9,x5,x9
	umulh x14,x10,x13
	umulh x11,x9,x3
	mul x12,x9,x3
	mul x13,x10,x13
	madd x9,x9,x15,x11
	lsr x11,x8,#32
	sub x8,x14,x10
	adds x10,x13,x12
	mov x12,#0xf000000000000000
	adc x9,x8,x9
	adds x8,x10,x1
	mov w10,#0xca00
	movk w10,#0x3b9a,lsl #16
	adc x9,x9,x0
	lsl x10,x10,x11
	add x11,x9,x10,lsr #5
	add x11,x11,x12
	cmp x11,x10,lsr #4
	b.cc 10f
9:
	sub x2,x29,#0xc
	bl "tk_ntp::lag::Lag::accounted_late"
	mov w16,w23
	mov x9,x0
	mov x8,x1
10:
	stp x9,x8,[x22,#184]
	str x21,[x22,#216]
11:
	ldr w8,[x22,#108]
	mov w9,#0x82
	and w8,w8,#0xfffff0ff
	orr w8,w8,w24
	and w9,w8,w9
	orr w10,w8,#0x100
	cmp w9,#0x2
	str w10,[x22,#108]
	csel w9,wzr,w16,ne
	cmp w9,#0x1
	b.ne 12f
	ldr x9,[sp,#8]
	str x9,[x22,#152]
12:
	tst w8,#0x4
	ldr w8,[sp,#36]
	csinc w9,w8,wzr,ne
	ldur w8,[x22,#104]
	tbz w9,#0,13f
	cbnz w8,14f
	b 26f
13:
	cbz w8,26f
	sdiv x9,x26,x8
	str xzr,[x22,#168]
	str x9,[x22,#128]
14:
	ldr w9,[x22,#148]
	mov x10,#0x86a000000000
	ldr x11,[x22,#152]
	movk x10,#0x1,lsl #48
	ldur x24,[x29,#-40]
	madd x9,x9,x10,x11
	ldr x10,[x22,#176]
	udiv x9,x9,x8
	add x9,x9,x10
	mul x8,x9,x8
	str x8,[x22,#200]
	cbz w16,15f
	add x0,x22,#0x68
	mov x1,x22
	mov x2,x21
	bl .Ltk_ntp.course.Course.steer
15:
	mov w8,#0xa
	mov w0,wzr
	stp w8,w25,[x19]
	ldur w8,[x29,#-28]
	stp w27,w8,[x19,#8]
	ldr x8,[sp,#16]
	str x8,[x19,#16]
	ldur x8,[x29,#-24]
	str x8,[x19,#24]
	ldr x8,[sp,#48]
	stp x8,x20,[x19,#32]
	ldr x8,[sp,#24]
	stp x8,x28,[x19,#48]
	ldr x8,[sp,#40]
	stp x8,x24,[x19,#64]
16:
	ldp x20,x19,[sp,#176]
	ldp x22,x21,[sp,#160]
	ldp x24,x23,[sp,#144]
	ldp x26,x25,[sp,#128]
	ldp x28,x27,[sp,#112]
	ldp x29,x30,[sp,#96]
	add sp,sp,#0xc0
	ret
17:
	mov w11,wzr
	mov w23,wzr
	str xzr,[sp,#8]
	mov x20,x12
	b 25f
18:
	mov x12,#0x64ff00000000
	mov x15,#0x7fffffffffffffff
	mov w16,#0x86a1
	movk x12,#0x1dcd,lsl #48
	movk w16,#0x1,lsl #16
	sub x12,x12,x13,lsl #32
	mov x13,#0xa7f0
	movk x13,#0x4bc6,lsl #16
	sdiv x17,x12,x11
	mov w12,#0xffffffff
	movk x13,#0x8937,lsl #32
	movk x13,#0x41,lsl #48
	subs x11,x17,x5
	str x17,[sp,#8]
	add x12,x11,x12
	csel x11,x12,x11,mi
	asr x11,x11,#32
	cmp x11,#0x0
	cneg x11,x11,mi
	adds x14,x4,#0x1
	ubfiz x12,x11,#16,#32
	csinv x14,x14,xzr,cc
	cmp x14,x15
	umulh x12,x12,x13
	add w13,w18,w18,lsl #1
	add w13,w13,w12
	csel x12,x14,x15,cc
	cmp x11,x16
	lsr w13,w13,#2
	stur w13,[x29,#-28]
	b.cc 20f
	cmn x2,#0x2
	b.lt 21f
	sub x2,x2,#0x1
	mov w23,#0x1
	stur x2,[x29,#-24]
	b 22f
19:
	cmp w25,#0x2
	mov x12,#0xfffffffffffffffc
	str xzr,[sp,#8]
	cset w11,hi
	csel x12,xzr,x12,hi
	stur x12,[x29,#-24]
	sub w25,w25,w11
	mov w11,#0x800
	b 25f
20:
	cmp x2,#0x2
	b.gt 23f
	add x2,x2,#0x1
	mov w11,wzr
	stur x2,[x29,#-24]
	b 24f
21:
	cmp w25,#0x2
	mov x11,#0xfffffffffffffffc
	mov w23,#0x1
	cset w13,hi
	csel x11,xzr,x11,hi
	stur x11,[x29,#-24]
	sub w25,w25,w13
22:
	mov w11,#0x400
	stp x12,x17,[sp,#40]
	b 25f
23:
	cmp w25,#0x8
	mov w12,#0x4
	mov w11,wzr
	cinc w25,w25,cc
	csel x12,xzr,x12,cc
	stur x12,[x29,#-24]
24:
	mov w23,#0x1
	str x17,[sp,#48]
25:
	lsl x12,x8,#32
	orr w13,w11,#0x200
	cmp x9,x10
	csel w24,w13,w11,cc
	stp x8,x0,[sp,#16]
	csel x26,xzr,x12,cc
	b 4b
26:
	brk #0x1

public tkc_ntp_save,4,176
	ldp q0,q1,[x1,#32]
	ldr d3,[x1]
	ldp x11,x12,[x1,#16]
	ldr x8,[x1,#96]
	ldr w14,[x1,#72]
	ldrb w15,[x1,#76]
	ldr x13,[x1,#64]
	ext v0.16b,v0.16b,v0.16b,#8
	ext v1.16b,v1.16b,v1.16b,#8
	ldr q2,[x1,#80]
	ldp w9,w10,[x1,#8]
	stp x8,x11,[x0]
	orr x8,x15,x14,lsl #1
	stp x12,x13,[x0,#40]
	stur q0,[x0,#24]
	uxtl v0.2d,v3.2s
	str x10,[x0,#16]
	str x9,[x0,#96]
	str x8,[x0,#56]
	stp q1,q0,[x0,#64]
	stur q2,[x0,#104]
	ldr d0,[x1,#104]
	ldp d5,d7,[x1,#136]
	ldrb w8,[x1,#116]
	ldr w9,[x1,#112]
	ldur q1,[x1,#120]
	uxtl v0.2d,v0.2s
	ldur q2,[x1,#152]
	ldur q3,[x1,#168]
	ldur q4,[x1,#184]
	ldr q6,[x1,#208]
	uxtl v5.2d,v5.2s
	and x8,x8,#0x1
	stur q1,[x0,#152]
	stur q0,[x0,#120]
	uxtl v0.2d,v7.2s
	stp x9,x8,[x0,#136]
	stur q5,[x0,#168]
	stur q0,[x0,#184]
	stur q2,[x0,#200]
	stur q3,[x0,#216]
	stur q4,[x0,#232]
	stur q6,[x0,#248]
	ret

public tkc_ntp_seconds,4,40
	ldr x8,[x0,#24]
	mov x9,#0x5a53
	movk x9,#0xa09b,lsl #16
	lsr x8,x8,#9
	movk x9,#0xb82f,lsl #32
	movk x9,#0x44,lsl #48
	umulh x8,x8,x9
	ldr x9,[x0,#208]
	sub x0,x9,x8,lsr #11
	ret

public tkc_ntp_snapshot,4,72
	ldr x8,[x1,#96]
	ldrb w11,[x1,#76]
	ldr x9,[x1,#64]
	ldp q0,q1,[x1]
	ldr w10,[x1,#72]
	ldp q2,q3,[x1,#32]
	str x8,[x0]
	and w8,w11,#0x1
	str x9,[x0,#72]
	stur q0,[x0,#8]
	stur q1,[x0,#24]
	stur q2,[x0,#40]
	stur q3,[x0,#56]
	str w10,[x0,#80]
	strb w8,[x0,#84]
	sturh wzr,[x0,#85]
	strb wzr,[x0,#87]
	ret

public tkc_ntp_status,4,8
	ldr w0,[x0,#108]
	ret

public tkc_ntp_tick,4,808
	sub sp,sp,#0x60
	stp x24,x23,[sp,#48]
	ldp x23,x9,[x2,#208]
	ldp x8,x24,[x2,#16]
	stp x22,x21,[sp,#64]
	mov x21,x0
	ldr w22,[x2,#12]
	stp x20,x19,[sp,#80]
	mov x20,x2
	mov x19,x1
	stp x29,x30,[sp,#16]
	cmp x9,x8
	stp x26,x25,[sp,#32]
	add x29,sp,#0x10
	b.ne 1f
	ldr w9,[x20]
	mov x11,#0xffffffffffffffff
	sub x8,x3,x8
	neg w10,w9
	lsr x10,x11,x10
	and x5,x10,x8
	lsr x8,x5,#27
	cbnz x8,1f
	ldrb w8,[x20,#76]
	tbz w8,#0,5f
1:
	add x0,x20,#0x68
	mov x1,x20
	mov x2,x3
	bl .Ltk_ntp.course.Course.tick_late
2:
	tst w0,#0xff
	b.eq 3f
	adrp x8,.rodata..Lswitch.table.tkc_ntp_change_counter
	add x8,x8,:lo12:.rodata..Lswitch.table.tkc_ntp_change_counter
	add x8,x8,w1,sxtb #2
	ldr w0,[x8,#4]
	b 4f
3:
	ldr x8,[x20,#96]
	ldrb w11,[x20,#76]
	mov w0,wzr
	ldp q0,q1,[x20]
	ldr x9,[x20,#64]
	ldp q2,q3,[x20,#32]
	ldr w10,[x20,#72]
	str x8,[x21]
	and w8,w11,#0x1
	stur q0,[x21,#8]
	str x9,[x21,#72]
	stur q1,[x21,#24]
	stur q2,[x21,#40]
	stur q3,[x21,#56]
	str w10,[x21,#80]
	strb w8,[x21,#84]
	sturh wzr,[x21,#85]
	strb wzr,[x21,#87]
	ldr x8,[x20,#24]
	ldr x9,[x20,#208]
	ldr w10,[x20,#12]
	cmp x24,x8
	mov w8,#0x2
	cset w11,ne
	csel w8,w8,wzr,ne
	cmp x23,x9
	csinc w9,w11,wzr,eq
	cmp w22,w10
	mov w10,#0x4
	csel w10,wzr,w10,eq
	orr w8,w8,w10
	orr w8,w8,w9
	str w8,[x19]
4:
	ldp x20,x19,[sp,#80]
	ldp x22,x21,[sp,#64]
	ldp x24,x23,[sp,#48]
	ldp x26,x25,[sp,#32]
	ldp x29,x30,[sp,#16]
	add sp,sp,#0x60
	ret
5:
	cmp x10,x3
	b.cc 1b
	sub x8,x10,x5
	cmp x8,x5
	b.cc 1b
	ldp x10,x8,[x20,#32]
	mov w25,#0xca00
	madd x11,x5,x22,x8
	ldr w12,[x20,#8]
	movk w25,#0x3b9a,lsl #16
	mov x14,#0xffffffffffff27ff
	mul x13,x23,x25
	movk x14,#0xcd0d,lsl #16
	movk x14,#0x7fff,lsl #48
	lsr x8,x11,x12
	madd x8,x10,x25,x8
	adds x8,x24,x8
	csinv x8,x8,xzr,cc
	cmp x8,x14
	ccmp x8,x13,#0x2,ls
	b.cs 1b
	ldr x8,[x20,#96]
	mov x13,#0x7ffffffffffffffc
	cmp x8,x13
	b.hi 1b
	lsl x14,x25,x12
	subs x12,x11,x14
	b.cc 6f
	cmp x12,x14
	b.cs 8f
	add x10,x10,#0x1
	mov x11,x12
6:
	ldr w12,[x20,#4]
	ldr x13,[x20,#56]
	madd x13,x5,x12,x13
	ldr x12,[x20,#48]
	subs x15,x13,x14
	b.cc 7f
	cmp x15,x14
	b.cs 8f
	add x12,x12,#0x1
	mov x13,x15
7:
	mov w14,#0x8ff
	movk w14,#0x3864,lsl #16
	cmp x10,x14
	b.ls 9f
8:
	mov x0,x20
	mov x1,x3
	mov x26,x3
	bl "tk_clock::clock::Clock::update_late"
	tst w0,#0xff
	b.ne 2b
	ldr w9,[x20]
	ldr x8,[x20,#216]
	mov x3,x26
	ldr w4,[x20,#12]
	sub x8,x26,x8
	neg w10,w9
	lsl x11,x8,x10
	ldr x8,[x20,#96]
	lsr x5,x11,x10
	b 10f
9:
	mov x14,#0xe801
	movk x14,#0x6378,lsl #16
	movk x14,#0x7e4d,lsl #32
	movk x14,#0x72de,lsl #48
	cmp x24,x14
	b.cs 8b
	ldr x15,[x20,#64]
	cmp x15,x14
	b.cs 8b
	mov w0,wzr
	str x3,[x20,#16]
	mov w4,w22
	stp x10,x11,[x20,#32]
	stp x12,x13,[x20,#48]
10:
	add x8,x8,#0x1
	ldur x10,[x20,#4]
	lsr x11,x5,#27
	str x8,[x20,#96]
	ldr x8,[x20,#200]
	str w9,[sp,#4]
	ldr x9,[x20,#184]
	stur x10,[sp,#8]
	cbz x11,11f
	ldr x1,[x20,#192]
	b 12f
11:
	mov w11,w10
	mov w12,w4
	mov x15,#0x360000000000
	mul x11,x5,x11
	movk x15,#0xc465,lsl #48
	asr x17,x8,#63
	ldr x1,[x20,#192]
	mul x12,x5,x12
	umulh x13,x11,x8
	mul x14,x11,x8
	umulh x16,x12,x15
	mul x15,x12,x15
	madd x11,x11,x17,x13
	lsr x13,x10,#32
	sub x10,x16,x12
	adds x12,x15,x14
	mov x14,#0xf000000000000000
	adc x11,x10,x11
	adds x10,x12,x1
	lsl x12,x25,x13
	adc x11,x11,x9
	add x13,x11,x12,lsr #5
	add x13,x13,x14
	cmp x13,x12,lsr #4
	b.cc 13f
12:
	add x2,sp,#0x4
	mov w25,w0
	mov x0,x9
	mov x26,x3
	mov x3,x8
	bl "tk_ntp::lag::Lag::accounted_late"
	mov x3,x26
	mov x11,x0
	mov w0,w25
	mov x10,x1
13:
	mov w1,wzr
	stp x11,x10,[x20,#184]
	str x3,[x20,#216]
	b 2b

public tkc_ntp_tick_length,4,8
	ldr w0,[x0,#148]
	ret

public tkc_pps_ask,4,108
	ldr w9,[x1]
	ldr x8,[x1,#16]
	ldr w10,[x1,#40]
	tbz w9,#8,1f
	movi v0.2d,#0x0
	mov w11,#0x2
	str w11,[x0,#4]
	stp q0,q0,[x0,#16]
1:
	tbnz w9,#15,3f
	tbz w2,#0,2f
	tbz w9,#4,2f
	tbnz w10,#0,2f
	mov w10,#0x2
	str xzr,[x0,#24]
	str w10,[x0,#4]
2:
	tbz w9,#1,3f
	mov x9,#0xffffffffffff0000
	movk x9,#0xfe0c,lsl #16
	cmp x8,x9
	csel x8,x8,x9,gt
	mov w9,#0x1f40000
	cmp x8,x9
	csel x8,x8,x9,lt
	mov w9,#0x3e80000
	mul x8,x8,x9
	str x8,[x0,#32]
3:
	ret

public tkc_pps_clear,4,20
	movi v0.2d,#0x0
	mov w8,#0x2
	str w8,[x0,#4]
	stp q0,q0,[x0,#16]
	ret

public tkc_pps_open,4,40
	movi v0.2d,#0x0
	adrp x8,.rodata.cst8
	str xzr,[x0,#72]
	ldr d1,[x8,:lo12:.rodata.cst8]
	str d1,[x0]
	stur q0,[x0,#8]
	stur q0,[x0,#24]
	stur q0,[x0,#40]
	stur q0,[x0,#56]
	ret

public tkc_pps_reply,4,168
	ldr w8,[x0,#40]
	mov w11,#0x204
	tst w8,#0x6
	cset w9,ne
	tst w8,#0x100
	csel w10,wzr,w9,ne
	bics wzr,w11,w8
	mov w9,#0x1
	b.eq 1f
	tbnz w10,#0,1f
	tst w8,#0xc00
	cset w9,ne
	and w9,w9,w8,lsr #1
1:
	ldr x10,[x2,#32]
	mov w11,#0x49bb
	mov w13,#0x4dd3
	movk w11,#0x20c,lsl #16
	movk w13,#0x1062,lsl #16
	mov w12,#0xffffffff
	asr x10,x10,#19
	ldp q0,q1,[x2,#48]
	ldr w15,[x2,#12]
	mul x10,x10,x11
	ldp w14,w11,[x2,#4]
	ext v0.16b,v0.16b,v0.16b,#8
	ext v1.16b,v1.16b,v1.16b,#8
	str x15,[x0,#120]
	umull x13,w11,w13
	str w14,[x0,#112]
	add x12,x10,x12
	cmp x10,#0x0
	csel x10,x12,x10,mi
	tst w8,#0x2000
	stp q0,q1,[x0,#128]
	lsr x12,x13,#38
	asr x10,x10,#32
	csel w8,w12,w11,eq
	stp x10,x8,[x0,#96]
	cbz w9,2f
	mov w8,#0x5
	str w8,[x1]
2:
	ret

public tkc_pps_seconds,4,60
	ldr w8,[x0]
	cmp x2,x8
	b.ls 1f
	movi v0.2d,#0x0
	adrp x8,.rodata.cst8+8
	ldr d1,[x8,:lo12:.rodata.cst8+8]
	str d1,[x0]
	stp q0,q0,[x0,#16]
	ldr w8,[x1,#108]
	and w8,w8,#0xfffff0ff
	str w8,[x1,#108]
	ret
1:
	sub w8,w8,w2
	str w8,[x0]
	ret

public tkc_snapshot_asleep,4,8
	ldrb w0,[x0,#84]
	ret

public tkc_snapshot_coarse,4,1380
	stp x29,x30,[sp,#-32]!
	cmp w2,#0x4
	mov w8,#0x11
	str x19,[sp,#16]
	mov x29,sp
	b.le 2f
	cmp w2,#0x6
	b.gt 3f
	cmp w2,#0x5
	b.eq 5f
	cmp w2,#0x6
	b.ne 1f
	ldr w8,[x1,#8]
	mov x9,#0xffffffffffffffff
	ldr x10,[x1,#24]
	neg w8,w8
	lsr x8,x9,x8
	cmp x8,x10
	b.cs 14f
	mov w8,#0x4
1:
	ldr x19,[sp,#16]
	mov w0,w8
	ldp x29,x30,[sp],#32
	ret
2:
	cbz w2,4f
	cmp w2,#0x1
	b.eq 7f
	cmp w2,#0x4
	b.ne 1b
	ldr w8,[x1,#8]
	mov x9,#0xffffffffffffffff
	ldr x10,[x1,#24]
	neg w8,w8
	lsr x8,x9,x8
	cmp x8,x10
	b.cs 18f
	mov w8,#0x4
	ldr x19,[sp,#16]
	mov w0,w8
	ldp x29,x30,[sp],#32
	ret
3:
	cmp w2,#0x7
	b.eq 6f
	cmp w2,#0xb
	b.ne 1b
	ldr w8,[x1,#8]
	mov x9,#0xffffffffffffffff
	ldr x10,[x1,#24]
	neg w8,w8
	lsr x8,x9,x8
	cmp x8,x10
	b.cs 16f
	mov w8,#0x4
	ldr x19,[sp,#16]
	mov w0,w8
	ldp x29,x30,[sp],#32
	ret
4:
	ldr w8,[x1,#8]
	mov x9,#0xffffffffffffffff
	ldr x10,[x1,#24]
	neg w8,w8
	lsr x8,x9,x8
	cmp x8,x10
	b.cs 8f
	mov w8,#0x4
	ldr x19,[sp,#16]
	mov w0,w8
	ldp x29,x30,[sp],#32
	ret
5:
	ldr w8,[x1,#8]
	mov x9,#0xffffffffffffffff
	ldr x10,[x1,#24]
	neg w8,w8
	lsr x8,x9,x8
	cmp x8,x10
	b.cs 10f
	mov w8,#0x4
	ldr x19,[sp,#16]
	mov w0,w8
	ldp x29,x30,[sp],#32
	ret
6:
	ldr w8,[x1,#8]
	mov x9,#0xffffffffffffffff
	ldr x10,[x1,#24]
	neg w8,w8
	lsr x8,x9,x8
	cmp x8,x10
	b.cs 12f
	mov w8,#0x4
	ldr x19,[sp,#16]
	mov w0,w8
	ldp x29,x30,[sp],#32
	ret
7:
	ldr w8,[x1,#8]
	mov x9,#0xffffffffffffffff
	ldr x10,[x1,#24]
	neg w8,w8
	lsr x8,x9,x8
	cmp x8,x10
	b.cs 20f
	mov w8,#0x4
	ldr x19,[sp,#16]
	mov w0,w8
	ldp x29,x30,[sp],#32
	ret
8:
	ldrb w8,[x1,#84]
	tbnz w8,#0,22f
	ldp x8,x9,[x1,#40]
	mov w11,#0xca00
	ldr w10,[x1,#16]
	movk w11,#0x3b9a,lsl #16
	ldr x12,[x1,#32]
	lsr x9,x9,x10
	madd x8,x8,x11,x9
	adds x8,x12,x8
	csinv x9,x8,xzr,cc
	mov x8,#0xffffffffffff2800
	movk x8,#0xcd0d,lsl #16
	movk x8,#0x7fff,lsl #48
	cmp x9,x8
	b.cc 21f
9:
	mov w8,#0x6
	ldr x19,[sp,#16]
	mov w0,w8
	ldp x29,x30,[sp],#32
	ret
10:
	ldrb w8,[x1,#84]
	tbnz w8,#0,23f
	ldp x8,x9,[x1,#40]
	mov w11,#0xca00
	ldr w10,[x1,#16]
	movk w11,#0x3b9a,lsl #16
	ldr x12,[x1,#32]
	lsr x9,x9,x10
	madd x8,x8,x11,x9
	adds x8,x12,x8
	csinv x9,x8,xzr,cc
	mov x8,#0xffffffffffff2800
	movk x8,#0xcd0d,lsl #16
	movk x8,#0x7fff,lsl #48
	cmp x9,x8
	b.cc 21f
11:
	mov w8,#0x6
	ldr x19,[sp,#16]
	mov w0,w8
	ldp x29,x30,[sp],#32
	ret
12:
	ldrb w8,[x1,#84]
	tbnz w8,#0,24f
	ldp x8,x9,[x1,#40]
	mov w11,#0xca00
	ldr w10,[x1,#16]
	movk w11,#0x3b9a,lsl #16
	lsr x9,x9,x10
	madd x8,x8,x11,x9
	ldr x9,[x1,#72]
	adds x8,x9,x8
	csinv x9,x8,xzr,cc
	mov x8,#0xffffffffffff2800
	movk x8,#0xcd0d,lsl #16
	movk x8,#0x7fff,lsl #48
	cmp x9,x8
	b.cc 21f
13:
	mov w8,#0x6
	ldr x19,[sp,#16]
	mov w0,w8
	ldp x29,x30,[sp],#32
	ret
14:
	ldrb w8,[x1,#84]
	tbnz w8,#0,25f
	ldp x8,x9,[x1,#40]
	mov w11,#0xca00
	ldr w10,[x1,#16]
	movk w11,#0x3b9a,lsl #16
	lsr x9,x9,x10
	madd x9,x8,x11,x9
	mov x8,#0x591a0000
	movk x8,#0x26bf,lsl #32
	movk x8,#0xd21,lsl #48
	cmp x9,x8
	b.cc 21f
15:
	mov w8,#0x6
	ldr x19,[sp,#16]
	mov w0,w8
	ldp x29,x30,[sp],#32
	ret
16:
	ldrb w8,[x1,#84]
	tbnz w8,#0,26f
	ldp x10,x8,[x1,#40]
	mov w12,#0xca00
	ldr w9,[x1,#16]
	movk w12,#0x3b9a,lsl #16
	ldr w13,[x1,#80]
	ldr x11,[x1,#32]
	lsr x8,x8,x9
	umaddl x9,w13,w12,x11
	madd x8,x10,x12,x8
	adds x8,x9,x8
	csinv x9,x8,xzr,cc
	mov x8,#0xffffffffffff2800
	movk x8,#0xcd0d,lsl #16
	movk x8,#0x7fff,lsl #48
	cmp x9,x8
	b.cc 21f
17:
	mov w8,#0x6
	ldr x19,[sp,#16]
	mov w0,w8
	ldp x29,x30,[sp],#32
	ret
18:
	ldrb w8,[x1,#84]
	tbnz w8,#0,27f
	ldp x8,x9,[x1,#56]
	mov w11,#0xca00
	ldr w10,[x1,#16]
	movk w11,#0x3b9a,lsl #16
	lsr x9,x9,x10
	madd x9,x8,x11,x9
	mov x8,#0xffffffffffff2800
	movk x8,#0xcd0d,lsl #16
	movk x8,#0x7fff,lsl #48
	cmp x9,x8
	b.cc 21f
19:
	mov w8,#0x6
	ldr x19,[sp,#16]
	mov w0,w8
	ldp x29,x30,[sp],#32
	ret
20:
	ldrb w8,[x1,#84]
	tbnz w8,#0,28f
	ldp x8,x9,[x1,#40]
	mov w11,#0xca00
	ldr w10,[x1,#16]
	movk w11,#0x3b9a,lsl #16
	lsr x9,x9,x10
	madd x9,x8,x11,x9
	mov x8,#0x591a0000
	movk x8,#0x26bf,lsl #32
	movk x8,#0xd21,lsl #48
	cmp x9,x8
	b.cs 29f
21:
	mov x11,#0x5a53
	lsr x10,x9,#9
	mov w8,wzr
	movk x11,#0xa09b,lsl #16
	movk x11,#0xb82f,lsl #32
	movk x11,#0x44,lsl #48
	umulh x10,x10,x11
	mov w11,#0xca00
	movk w11,#0x3b9a,lsl #16
	lsr x10,x10,#11
	msub w9,w10,w11,w9
	str x10,[x0]
	stp w9,wzr,[x0,#8]
	ldr x19,[sp,#16]
	mov w0,w8
	ldp x29,x30,[sp],#32
	ret
22:
	mov x19,x0
	add x0,x1,#0x8
	mov w1,wzr
	bl "tk_clock::read_base::ReadBase::nanos_at_last"
	mov x9,x0
	mov x0,x19
	mov x8,#0xffffffffffff2800
	movk x8,#0xcd0d,lsl #16
	movk x8,#0x7fff,lsl #48
	cmp x9,x8
	b.cs 9b
	b 21b
23:
	mov x19,x0
	add x0,x1,#0x8
	mov w1,#0x4
	bl "tk_clock::read_base::ReadBase::nanos_at_last"
	mov x9,x0
	mov x0,x19
	mov x8,#0xffffffffffff2800
	movk x8,#0xcd0d,lsl #16
	movk x8,#0x7fff,lsl #48
	cmp x9,x8
	b.cs 11b
	b 21b
24:
	mov x19,x0
	add x0,x1,#0x8
	mov w1,#0x2
	bl "tk_clock::read_base::ReadBase::nanos_at_last"
	mov x9,x0
	mov x0,x19
	mov x8,#0xffffffffffff2800
	movk x8,#0xcd0d,lsl #16
	movk x8,#0x7fff,lsl #48
	cmp x9,x8
	b.cs 13b
	b 21b
25:
	mov x19,x0
	add x0,x1,#0x8
	mov w1,#0x5
	bl "tk_clock::read_base::ReadBase::nanos_at_last"
	mov x9,x0
	mov x0,x19
	mov x8,#0x591a0000
	movk x8,#0x26bf,lsl #32
	movk x8,#0xd21,lsl #48
	cmp x9,x8
	b.cs 15b
	b 21b
26:
	mov x19,x0
	add x0,x1,#0x8
	mov w1,#0x3
	bl "tk_clock::read_base::ReadBase::nanos_at_last"
	mov x9,x0
	mov x0,x19
	mov x8,#0xffffffffffff2800
	movk x8,#0xcd0d,lsl #16
	movk x8,#0x7fff,lsl #48
	cmp x9,x8
	b.cs 17b
	b 21b
27:
	mov x19,x0
	add x0,x1,#0x8
	mov w1,#0x6
	bl "tk_clock::read_base::ReadBase::nanos_at_last"
	mov x9,x0
	mov x0,x19
	mov x8,#0xffffffffffff2800
	movk x8,#0xcd0d,lsl #16
	movk x8,#0x7fff,lsl #48
	cmp x9,x8
	b.cs 19b
	b 21b
28:
	mov x19,x0
	add x0,x1,#0x8
	mov w1,#0x1
	bl "tk_clock::read_base::ReadBase::nanos_at_last"
	mov x9,x0
	mov x0,x19
	mov x8,#0x591a0000
	movk x8,#0x26bf,lsl #32
	movk x8,#0xd21,lsl #48
	cmp x9,x8
	b.cc 21b
29:
	mov w8,#0x6
	ldr x19,[sp,#16]
	mov w0,w8
	ldp x29,x30,[sp],#32
	ret

public tkc_snapshot_convert,4,1768
	cbz x6,1f
	cbz x1,2f
	cmp w4,#0xb
	mov w8,#0x11
	b.hi 3f
	mov w9,#0x8f3
	lsr w9,w9,w4
	tbz w9,#0,3f
	cmp x1,x6
	b.cs 5f
	mov w0,#0x13
	ret
1:
	cmp w4,#0xb
	mov w8,#0x11
	b.hi 3f
	mov w9,#0x1
	mov w10,#0x8f3
	lsl w9,w9,w4
	tst w9,w10
	b.eq 3f
	mov w0,wzr
	str xzr,[x2]
	ret
2:
	cmp w4,#0xc
	b.cs 4f
	adrp x8,.rodata..Lswitch.table.tkc_snapshot_convert
	add x8,x8,:lo12:.rodata..Lswitch.table.tkc_snapshot_convert
	ldr w8,[x8,w4,uxtw #2]
3:
	mov w0,w8
	ret
4:
	mov w0,#0x11
	ret
5:
	sub sp,sp,#0x180
	adrp x8,.rodata..Lswitch.table.tkc_snapshot_reading
	add x8,x8,:lo12:.rodata..Lswitch.table.tkc_snapshot_reading
	stp x20,x19,[sp,#368]
	ldrb w19,[x8,w4,uxtw]
	stp x29,x30,[sp,#288]
	add x29,sp,#0x120
	cmp x6,#0x7
	str d8,[sp,#272]
	stp x28,x27,[sp,#304]
	stp x26,x25,[sp,#320]
	stp x24,x23,[sp,#336]
	stp x22,x21,[sp,#352]
	stp xzr,xzr,[x29,#-64]
	stp xzr,xzr,[x29,#-80]
	stp xzr,xzr,[x29,#-96]
	b.ls 13f
	ldp x12,x10,[x3,#40]
	mov x11,#0x591a0000
	ldp w9,w13,[x3,#16]
	ldr x14,[x3,#32]
	movk x11,#0x26bf,lsl #32
	mov w8,#0xca00
	cmp w19,#0x2
	movk x11,#0xd21,lsl #48
	movk w8,#0x3b9a,lsl #16
	b.le 6f
	cmp w19,#0x4
	b.gt 7f
	cmp w19,#0x3
	b.ne 9f
	ldr w11,[x3,#80]
	umaddl x14,w11,w8,x14
	b 11f
6:
	cbz w19,11f
	cmp w19,#0x1
	b.ne 8f
	mov x14,xzr
	b 12f
7:
	cmp w19,#0x5
	b.ne 10f
	mov w13,wzr
	mov x14,xzr
	b 12f
8:
	ldr x14,[x3,#72]
	b 11f
9:
	mov w13,wzr
	b 11f
10:
	ldp x12,x10,[x3,#56]
	mov x14,xzr
	ldr w13,[x3,#12]
11:
	mov x11,#0xffffffffffff2800
	movk x11,#0xcd0d,lsl #16
	movk x11,#0x7fff,lsl #48
12:
	lsr x15,x10,x9
	madd x8,x12,x8,x15
	ldrb w12,[x3,#84]
	cmp w12,#0x0
	csel w13,wzr,w13,ne
	add x12,x8,x14
	cmp x11,x12
	b.ls 13f
	ldr w17,[x3,#8]
	mov x15,#0xffffffffffffffff
	ldr x16,[x3,#24]
	neg w8,w17
	lsr x7,x15,x8
	subs x14,x7,x16
	b.cs 15f
13:
	mov x20,x2
	mov x4,x0
	sub x0,x29,#0x30
	mov x1,x3
	mov w2,w19
	mov x3,x5
	mov x5,xzr
	stp xzr,xzr,[x29,#-48]
	mov x19,x6
	stur xzr,[x29,#-32]
	bl "tk_lanes::batch::plain_from"
	ldurb w10,[x29,#-48]
	ldurb w8,[x29,#-40]
	ldur x9,[x29,#-32]
	mov x2,x20
	cbz w10,25f
14:
	cmp w8,#0x0
	mov w8,#0x6
	mov w10,#0x4
	csel w8,w10,w8,eq
	str x9,[x2]
	b 26f
15:
	mvn x18,x12
	cmp w13,#0x1
	dup v0.2d,x7
	add x11,x11,x18
	csinc w18,w13,wzr,hi
	mov x1,#0x7fffffffffffffff
	udiv x11,x11,x18
	mov w18,#0x40
	tst x9,#0x40
	sub w17,w18,w17
	mvn w18,w9
	str q0,[sp,#32]
	lsr x17,x1,x17
	dup v0.2d,x13
	dup v17.2d,x16
	lsl x15,x15,x9
	dup v19.2d,x12
	mov x8,xzr
	add x21,x0,#0x40
	add x27,x5,#0x40
	stur x0,[x29,#-8]
	stur q0,[x29,#-112]
	dup v0.2d,x17
	bic x10,x10,x15
	dup v18.2d,x10
	str q17,[sp,#128]
	str x7,[sp,#120]
	str q0,[sp,#16]
	stp q19,q18,[sp,#64]
	stur x3,[x29,#-136]
	lsr x4,x11,#1
	lsl x11,x11,x9
	lsr x18,x4,x18
	csel x16,xzr,x11,ne
	csel x11,x11,x18,ne
	cmp x17,x16
	ngcs xzr,x11
	mov w11,#0x20
	sub w11,w11,w9
	csel x16,x17,x16,cc
	lsl x11,x13,x11
	eor x13,x16,#0x7fffffffffffffff
	cmp x16,x14
	dup v0.2d,x13
	csel x22,x16,x14,cc
	dup v20.2d,x11
	str q0,[sp]
	dup v0.2d,x9
	str q20,[sp,#48]
	stur q0,[x29,#-128]
16:
	lsl x28,x8,#3
	mov x26,v20.d[1]
	add x9,x5,x28
	ldp q0,q1,[x9,#32]
	ldp q2,q3,[x9]
	orr v4.16b,v3.16b,v1.16b
	orr v5.16b,v2.16b,v0.16b
	orr v4.16b,v5.16b,v4.16b
	ext v5.16b,v4.16b,v4.16b,#8
	orr v4.8b,v4.8b,v5.8b
	ldur q5,[x29,#-112]
	xtn v8.2s,v5.2d
	fmov x9,d4
	ldur q4,[x29,#-128]
	neg v21.2d,v4.2d
	cmp x7,x9
	b.cc 17f
	sub v3.2d,v3.2d,v17.2d
	sub v0.2d,v0.2d,v17.2d
	sub v2.2d,v2.2d,v17.2d
	sub v1.2d,v1.2d,v17.2d
	ldp q7,q6,[sp,#16]
	and v3.16b,v3.16b,v6.16b
	and v4.16b,v1.16b,v6.16b
	and v5.16b,v2.16b,v6.16b
	and v0.16b,v0.16b,v6.16b
	cmhs v1.2d,v7.2d,v3.2d
	cmhs v6.2d,v7.2d,v5.2d
	cmhs v2.2d,v7.2d,v0.2d
	cmhs v7.2d,v7.2d,v4.2d
	and v1.16b,v1.16b,v3.16b
	and v2.16b,v2.16b,v0.16b
	and v0.16b,v6.16b,v5.16b
	and v3.16b,v7.16b,v4.16b
	ldr q7,[sp]
	add v4.2d,v1.2d,v7.2d
	add v5.2d,v3.2d,v7.2d
	add v6.2d,v0.2d,v7.2d
	add v7.2d,v2.2d,v7.2d
	orr v4.16b,v4.16b,v5.16b
	orr v6.16b,v6.16b,v7.16b
	orr v4.16b,v6.16b,v4.16b
	ext v5.16b,v4.16b,v4.16b,#8
	orr v4.8b,v4.8b,v5.8b
	fmov x9,d4
	tbnz x9,#63,17f
	orr v5.16b,v0.16b,v2.16b
	orr v6.16b,v1.16b,v3.16b
	mov x17,#0x100000000
	ushr v7.2d,v1.2d,#32
	ushr v4.2d,v0.2d,#32
	mov x24,x5
	ushr v16.2d,v2.2d,#32
	fmov x9,d20
	add x8,x8,#0x8
	orr v5.16b,v5.16b,v6.16b
	ushr v6.2d,v3.2d,#32
	xtn v3.2s,v3.2d
	fmov x11,d7
	mov x13,v7.d[1]
	fmov x10,d4
	fmov x12,d16
	mov x16,v4.d[1]
	fmov d4,x17
	ext v7.16b,v5.16b,v5.16b,#8
	fmov x14,d6
	xtn v2.2s,v2.2d
	mul x10,x10,x9
	mov x15,v6.d[1]
	xtn v1.2s,v1.2d
	xtn v0.2s,v0.2d
	mul x11,x11,x9
	orr v5.8b,v5.8b,v7.8b
	mov v7.16b,v18.16b
	mul x9,x12,x9
	fmov x12,d20
	cmhi v4.2d,v4.2d,v5.2d
	mov v5.16b,v18.16b
	mul x13,x13,x26
	fmov d6,x11
	umlal v7.2d,v1.2s,v8.2s
	mul x12,x14,x12
	mov x14,v16.d[1]
	mov v16.16b,v18.16b
	umlal v5.2d,v3.2s,v8.2s
	fmov d1,x9
	add x9,x0,x28
	mul x15,x15,x26
	umlal v16.2d,v2.2s,v8.2s
	mvn v2.16b,v4.16b
	mov v4.16b,v18.16b
	mul x11,x14,x26
	mov v6.d[1],x13
	ushl v7.2d,v7.2d,v21.2d
	fmov d3,x12
	mul x14,x16,x26
	umlal v4.2d,v0.2s,v8.2s
	ushl v0.2d,v5.2d,v21.2d
	ushl v5.2d,v16.2d,v21.2d
	fmov d16,x10
	dup v2.2d,v2.d[0]
	mov v3.d[1],x15
	add v7.2d,v19.2d,v7.2d
	mov v1.d[1],x11
	add v0.2d,v19.2d,v0.2d
	ushl v4.2d,v4.2d,v21.2d
	add v5.2d,v19.2d,v5.2d
	and v6.16b,v2.16b,v6.16b
	mov v16.d[1],x14
	and v3.16b,v2.16b,v3.16b
	and v1.16b,v2.16b,v1.16b
	add v4.2d,v19.2d,v4.2d
	and v2.16b,v2.16b,v16.16b
	add v0.2d,v3.2d,v0.2d
	add v3.2d,v6.2d,v7.2d
	add v1.2d,v1.2d,v5.2d
	add v2.2d,v2.2d,v4.2d
	stp q1,q0,[x9,#32]
	stp q2,q3,[x9]
	b 18f
17:
	add x20,x8,#0x8
	mov x4,x0
	sub x0,x29,#0x60
	mov x1,x3
	mov x25,x2
	mov w2,w19
	mov x24,x5
	mov x3,x5
	mov x5,x8
	mov x23,x6
	mov x6,x20
	str q21,[sp,#96]
	bl "tk_lanes::batch::plain_from"
	ldp q18,q21,[sp,#80]
	mov x6,x23
	ldp q20,q19,[sp,#48]
	mov x2,x25
	ldurb w9,[x29,#-96]
	mov x8,x20
	cbnz w9,27f
18:
	sub x9,x6,x8
	cmp x9,#0x8
	b.cc 23f
	ldur x0,[x29,#-8]
	ldur x3,[x29,#-136]
	add x10,x21,x28
	ldr q17,[sp,#128]
	ldr x7,[sp,#120]
	add x11,x27,x28
	mov x5,x24
	b 21f
19:
	ushr v4.2d,v3.2d,#32
	ushr v5.2d,v1.2d,#32
	ushr v6.2d,v2.2d,#32
	fmov x12,d20
	fmov x17,d20
	fmov x13,d4
	mov x15,v4.d[1]
	ushr v4.2d,v0.2d,#32
	fmov x14,d5
	fmov x16,d6
	mov x1,v6.d[1]
	fmov x18,d4
	mul x13,x13,x12
	mul x14,x14,x12
	mul x12,x16,x12
	mov x16,v5.d[1]
	mul x17,x18,x17
	mov x18,v4.d[1]
	fmov d4,x13
	fmov d5,x14
	mul x15,x15,x26
	fmov d6,x12
	mul x16,x16,x26
	fmov d7,x17
	mul x1,x1,x26
	mov v4.d[1],x15
	mul x18,x18,x26
	mov v5.d[1],x16
	mov v6.d[1],x1
	mov v7.d[1],x18
20:
	xtn v3.2s,v3.2d
	mov v16.16b,v18.16b
	sub x9,x9,#0x8
	xtn v1.2s,v1.2d
	xtn v2.2s,v2.2d
	cmp x9,#0x7
	xtn v0.2s,v0.2d
	add v5.2d,v5.2d,v19.2d
	add x8,x8,#0x8
	add v6.2d,v6.2d,v19.2d
	add v7.2d,v7.2d,v19.2d
	add x11,x11,#0x40
	umlal v16.2d,v3.2s,v8.2s
	mov v3.16b,v18.16b
	umlal v3.2d,v1.2s,v8.2s
	mov v1.16b,v18.16b
	umlal v1.2d,v2.2s,v8.2s
	mov v2.16b,v18.16b
	ushl v3.2d,v3.2d,v21.2d
	umlal v2.2d,v0.2s,v8.2s
	add v0.2d,v4.2d,v19.2d
	ushl v4.2d,v16.2d,v21.2d
	ushl v1.2d,v1.2d,v21.2d
	add v3.2d,v5.2d,v3.2d
	add v0.2d,v0.2d,v4.2d
	ushl v2.2d,v2.2d,v21.2d
	add v1.2d,v6.2d,v1.2d
	stp q0,q3,[x10]
	add v2.2d,v7.2d,v2.2d
	stp q1,q2,[x10,#32]
	add x10,x10,#0x40
	b.ls 24f
21:
	ldp q2,q0,[x11]
	ldp q4,q3,[x11,#32]
	sub v1.2d,v0.2d,v17.2d
	sub v0.2d,v3.2d,v17.2d
	sub v3.2d,v2.2d,v17.2d
	sub v2.2d,v4.2d,v17.2d
	orr v4.16b,v3.16b,v2.16b
	orr v5.16b,v1.16b,v0.16b
	orr v4.16b,v4.16b,v5.16b
	ext v5.16b,v4.16b,v4.16b,#8
	orr v4.8b,v4.8b,v5.8b
	fmov x12,d4
	cmp x22,x12
	b.cc 22f
	lsr x12,x12,#32
	cbnz x12,19b
	movi v4.2d,#0x0
	movi v5.2d,#0x0
	movi v6.2d,#0x0
	movi v7.2d,#0x0
	b 20b
22:
	cmp x9,#0x7
	b.hi 16b
	b 24f
23:
	ldur x0,[x29,#-8]
	ldur x3,[x29,#-136]
	mov x5,x24
24:
	mov x20,x2
	mov x4,x0
	sub x0,x29,#0x48
	mov x1,x3
	mov w2,w19
	mov x3,x5
	mov x5,x8
	mov x19,x6
	bl "tk_lanes::batch::plain_from"
	ldurb w10,[x29,#-72]
	ldurb w8,[x29,#-64]
	ldur x9,[x29,#-56]
	mov x2,x20
	cbnz w10,14b
25:
	mov w8,wzr
	str x19,[x2]
26:
	ldp x20,x19,[sp,#368]
	ldr d8,[sp,#272]
	ldp x22,x21,[sp,#352]
	ldp x24,x23,[sp,#336]
	ldp x26,x25,[sp,#320]
	ldp x28,x27,[sp,#304]
	ldp x29,x30,[sp,#288]
	add sp,sp,#0x180
	mov w0,w8
	ret
27:
	ldur x9,[x29,#-80]
	ldurb w8,[x29,#-88]
	b 14b

public tkc_snapshot_counter,4,20
	ldr d0,[x1,#8]
	ldr w8,[x1,#16]
	str d0,[x0]
	str w8,[x0,#8]
	ret

public tkc_snapshot_from_words,4,340
	ldr x11,[x1]
	mov x10,#0xffffffffffffffff
	ldr x9,[x2,#8]
	neg w8,w11
	lsr x8,x10,x8
	cmp x9,x8
	mov w8,#0x12
	b.hi 4f
	ldr x10,[x2,#16]
	cbz x10,4f
	lsr x8,x11,#32
	mov w12,#0xb
	mov x13,#0x8f5d
	movk x13,#0xf5c2,lsl #16
	umull x12,w8,w12
	movk x13,#0x5c28,lsl #32
	movk x13,#0x28f,lsl #48
	umulh x12,x12,x13
	add x8,x12,x8
	cmp x10,x8
	b.ls 1f
	mov w0,#0x12
	ret
1:
	ldr w13,[x1,#8]
	mov w18,#0xca00
	ldr x12,[x2,#24]
	movk w18,#0x3b9a,lsl #16
	mov w8,#0x12
	lsl x17,x18,x13
	cmp x12,x17
	b.cs 4f
	ldr x14,[x2,#32]
	mov w15,#0x8ff
	movk w15,#0x3864,lsl #16
	cmp x14,x15
	b.hi 4f
	ldr x15,[x2,#56]
	mov w16,#0xd41
	movk w16,#0x3,lsl #16
	cmp x15,x16
	b.hi 4f
	ldr x16,[x2,#64]
	cmp x16,x17
	b.cs 4f
	ldr x17,[x2,#72]
	mov w1,#0x50ff
	movk w1,#0x3f2e,lsl #16
	cmp x17,x1
	b.hi 4f
	lsr x8,x12,x13
	madd x4,x14,x18,x8
	ldr x1,[x2,#48]
	mov x8,#0xffffffffffff27ff
	movk x8,#0xcd0d,lsl #16
	movk x8,#0x7fff,lsl #48
	adds x3,x1,x4
	csinv x3,x3,xzr,cc
	cmp x3,x8
	b.ls 2f
	mov w0,#0x12
	ret
2:
	lsr x3,x15,#1
	madd x4,x3,x18,x4
	ldr x18,[x2,#40]
	adds x4,x18,x4
	csinv x4,x4,xzr,cc
	cmp x4,x8
	b.ls 3f
	mov w0,#0x12
	ret
3:
	ldr x2,[x2]
	mov w8,wzr
	stp x9,x18,[x0,#24]
	and w9,w15,#0x1
	stp w13,w10,[x0,#16]
	stp x2,x11,[x0]
	stp x14,x12,[x0,#40]
	stp x17,x16,[x0,#56]
	str x1,[x0,#72]
	str w3,[x0,#80]
	strb w9,[x0,#84]
	sturh wzr,[x0,#85]
	strb wzr,[x0,#87]
4:
	mov w0,w8
	ret

public tkc_snapshot_front,4,8
	ldr x0,[x0]
	ret

public tkc_snapshot_get,4,428
	ldr w8,[x1,#8]
	mov x9,#0xffffffffffffffff
	neg w8,w8
	lsr x9,x9,x8
	cmp x3,x9
	b.ls 2f
1:
	b "tk_c::snapshots::get_named"
2:
	ldrb w8,[x1,#84]
	tbnz w8,#0,1b
	ldr x8,[x1,#24]
	sub x8,x3,x8
	and x8,x8,x9
	sub x9,x9,x8
	cmp x9,x8
	b.cc 1b
	cmp w2,#0x1
	b.eq 3f
	cbnz w2,1b
	ldp x9,x12,[x1,#40]
	lsr x14,x8,#31
	ldp w11,w13,[x1,#16]
	ldr x10,[x1,#32]
	cbnz x14,4f
	madd x8,x8,x13,x12
	lsr x8,x8,x11
	b 7f
3:
	ldp x9,x11,[x1,#40]
	lsr x13,x8,#31
	ldp w10,w12,[x1,#16]
	cbnz x13,5f
	madd x8,x8,x12,x11
	lsr x8,x8,x10
	b 9f
4:
	mul x14,x13,x8
	umulh x13,x13,x8
	adds x8,x14,x12
	cinc x12,x13,cs
	extr x13,x12,x8,#63
	lsr x13,x13,x11
	cbz x13,6f
	mov x8,#0xc000000000000000
	b 7f
5:
	mul x13,x12,x8
	umulh x12,x12,x8
	adds x8,x13,x11
	cinc x11,x12,cs
	extr x12,x11,x8,#63
	lsr x12,x12,x10
	cbz x12,8f
	mov x8,#0xc000000000000000
	b 9f
6:
	lsl x12,x12,#1
	mvn w13,w11
	lsr x8,x8,x11
	lsl x11,x12,x13
	orr x8,x11,x8
7:
	mov w11,#0xca00
	movk w11,#0x3b9a,lsl #16
	madd x8,x9,x11,x8
	adds x8,x10,x8
	csinv x9,x8,xzr,cc
	mov x8,#0xffffffffffff27ff
	movk x8,#0xcd0d,lsl #16
	movk x8,#0x7fff,lsl #48
	cmp x9,x8
	b.hi 10f
	mov x12,#0x5a53
	lsr x10,x9,#9
	mov w8,wzr
	movk x12,#0xa09b,lsl #16
	movk x12,#0xb82f,lsl #32
	movk x12,#0x44,lsl #48
	umulh x10,x10,x12
	lsr x10,x10,#11
	msub w9,w10,w11,w9
	str x10,[x0]
	stp w9,wzr,[x0,#8]
	mov w0,w8
	ret
8:
	lsl x11,x11,#1
	mvn w12,w10
	lsr x8,x8,x10
	lsl x10,x11,x12
	orr x8,x10,x8
9:
	mov w10,#0xca00
	movk w10,#0x3b9a,lsl #16
	madd x9,x9,x10,x8
	mov x8,#0xffffffff5919ffff
	movk x8,#0x26bf,lsl #32
	movk x8,#0xd21,lsl #48
	cmp x9,x8
	b.hi 10f
	mov x12,#0x5a53
	lsr x11,x9,#9
	mov w8,wzr
	movk x12,#0xa09b,lsl #16
	movk x12,#0xb82f,lsl #32
	movk x12,#0x44,lsl #48
	umulh x11,x11,x12
	lsr x11,x11,#11
	msub w9,w11,w10,w9
	str x11,[x0]
	stp w9,wzr,[x0,#8]
	mov w0,w8
	ret
10:
	mov w0,#0x6
	ret

public tkc_snapshot_line,4,476
	mov w9,#0xca00
	cmp w2,#0x4
	mov w8,#0x11
	movk w9,#0x3b9a,lsl #16
	b.le 1f
	cmp w2,#0x6
	b.gt 2f
	cmp w2,#0x5
	b.eq 4f
	cmp w2,#0x6
	b.ne 14f
	mov x11,#0x591a0000
	mov w8,wzr
	mov x10,xzr
	movk x11,#0x26bf,lsl #32
	movk x11,#0xd21,lsl #48
	b 8f
1:
	cbz w2,3f
	cmp w2,#0x1
	b.eq 15f
	cmp w2,#0x4
	b.ne 14f
	mov x11,#0xffffffffffff2800
	ldr w8,[x1,#12]
	mov x10,xzr
	movk x11,#0xcd0d,lsl #16
	add x12,x1,#0x38
	add x13,x1,#0x40
	movk x11,#0x7fff,lsl #48
	b 9f
2:
	cmp w2,#0x7
	b.eq 6f
	cmp w2,#0xb
	b.ne 14f
	ldr w8,[x1,#80]
	ldr x10,[x1,#32]
	umaddl x10,w8,w9,x10
	ldr w8,[x1,#20]
	b 7f
3:
	ldr w8,[x1,#20]
	b 5f
4:
	mov w8,wzr
5:
	ldr x10,[x1,#32]
	b 7f
6:
	ldr w8,[x1,#20]
	ldr x10,[x1,#72]
7:
	mov x11,#0xffffffffffff2800
	movk x11,#0xcd0d,lsl #16
	movk x11,#0x7fff,lsl #48
8:
	add x12,x1,#0x28
	add x13,x1,#0x30
9:
	mov x15,#0x5a53
	lsr x14,x10,#9
	ldr x13,[x13]
	movk x15,#0xa09b,lsl #16
	ldrb w16,[x1,#84]
	ldr x18,[x12]
	movk x15,#0xb82f,lsl #32
	movk x15,#0x44,lsl #48
	cmp w16,#0x0
	umulh x14,x14,x15
	csel w12,wzr,w8,ne
	lsr x14,x14,#11
	msub x15,x14,x9,x10
	ldr w10,[x1,#16]
	add x8,x18,x14
	lsl x17,x9,x10
	lsl x15,x15,x10
	add x13,x15,x13
	cmp x13,x17
	csel x15,x17,xzr,cs
	cinc x14,x8,cs
	sub x13,x13,x15
	lsr x8,x13,x10
	madd x9,x14,x9,x8
	ldr w8,[x1,#8]
	subs x9,x11,x9
	b.ls 12f
	mov x15,#0xffffffffffffffff
	lsr x11,x15,x10
	cmp x11,x9
	mvn x11,x13
	b.cc 10f
	lsl x15,x15,x10
	lsl x9,x9,x10
	orr x15,x15,x11
	add x9,x9,x15
	cmp x9,x11
	csel x11,x9,x11,cc
10:
	neg w9,w8
	mov x15,#0x7fffffffffffffff
	mov w16,#0x40
	lsr x15,x15,x9
	sub w9,w16,w8
	cbz w12,11f
	udiv x8,x11,x12
	cmp x15,x8
	csel x15,x15,x8,cc
11:
	add x11,x15,#0x1
	b 13f
12:
	mov w9,#0x40
	mov x11,xzr
	sub w9,w9,w8
13:
	mov x16,#0xffffffffffffffff
	ldr x15,[x1,#24]
	mov w8,wzr
	lsr x9,x16,x9
	stp x11,x14,[x0,#16]
	str x13,[x0,#32]
	stp x15,x9,[x0]
	stp w12,w10,[x0,#40]
14:
	mov w0,w8
	ret
15:
	mov x11,#0x591a0000
	ldr w8,[x1,#20]
	mov x10,xzr
	movk x11,#0x26bf,lsl #32
	movk x11,#0xd21,lsl #48
	b 8b

public tkc_snapshot_step,4,448
	ldrb w8,[x2,#84]
	tbz w8,#0,1f
	mov w0,#0x2
	ret
1:
	mov w8,#0xc9ff
	movk w8,#0x3b9a,lsl #16
	cmp w5,w8
	mov w8,#0x4
	b.hi 9f
	ldr w9,[x2,#8]
	mov x10,#0xffffffffffffffff
	neg w9,w9
	lsr x9,x10,x9
	cmp x9,x3
	b.cc 9f
	ldr x8,[x2,#24]
	sub x8,x3,x8
	and x11,x8,x9
	sub x8,x9,x11
	cmp x8,x11
	b.cs 2f
	mov w0,#0x5
	ret
2:
	ldp x8,x13,[x2,#40]
	mov x10,#0x591a0000
	ldp w12,w14,[x2,#16]
	lsr x15,x11,#31
	movk x10,#0x26bf,lsl #32
	mov w9,#0xca00
	movk x10,#0xd21,lsl #48
	movk w9,#0x3b9a,lsl #16
	cbnz x15,3f
	madd x11,x11,x14,x13
	lsr x11,x11,x12
	madd x8,x8,x9,x11
	cmp x8,x10
	b.cc 4f
	b 6f
3:
	mul x15,x14,x11
	umulh x11,x14,x11
	adds x13,x15,x13
	mvn w15,w12
	cinc x11,x11,cs
	extr x14,x11,x13,#63
	lsl x11,x11,#1
	lsr x14,x14,x12
	lsl x11,x11,x15
	lsr x12,x13,x12
	orr x11,x11,x12
	cmp x14,#0x0
	mov x12,#0xc000000000000000
	csel x11,x11,x12,eq
	madd x8,x8,x9,x11
	cmp x8,x10
	b.cs 6f
4:
	ldr x10,[x2,#72]
	mov x11,#0xffffffffffff27ff
	movk x11,#0xcd0d,lsl #16
	adds x10,x10,x8
	movk x11,#0x7fff,lsl #48
	csinv x10,x10,xzr,cc
	cmp x10,x11
	b.hi 6f
	mov x11,#0xfa09
	cmp x4,#0x0
	movk x11,#0x4b82,lsl #16
	cneg x10,x4,mi
	movk x11,#0x4,lsl #32
	cmp x10,x11
	b.hi 5f
	ldr x12,[x2,#32]
	mul x11,x10,x9
	add x10,x12,x8
	add x12,x10,w5,uxtw
	tbnz x4,#63,7f
	adds x11,x11,x12
	b.cc 8f
5:
	mov w0,#0x4
	ret
6:
	mov w0,#0x6
	ret
7:
	subs x11,x12,x11
	csel x11,xzr,x11,cc
	b.cc 5b
8:
	cmp x11,x8
	mov w8,#0x4
	b.cc 9f
	mov x12,#0x27ff
	movk x12,#0x73f3,lsl #16
	movk x12,#0xd940,lsl #32
	movk x12,#0x72de,lsl #48
	cmp x11,x12
	b.hi 9f
	mov x13,#0x5a53
	lsr x12,x10,#9
	lsr x14,x11,#9
	movk x13,#0xa09b,lsl #16
	mov w8,wzr
	movk x13,#0xb82f,lsl #32
	movk x13,#0x44,lsl #48
	umulh x12,x12,x13
	umulh x13,x14,x13
	lsr x12,x12,#11
	lsr x13,x13,#11
	msub w10,w12,w9,w10
	str x12,[x0]
	msub w9,w13,w9,w11
	stp w10,wzr,[x0,#8]
	str x13,[x1]
	stp w9,wzr,[x1,#8]
9:
	mov w0,w8
	ret

public tkc_snapshot_tai,4,8
	ldr w0,[x0,#80]
	ret

public tkc_snapshot_words,4,72
	ldur q0,[x1,#40]
	ldur q1,[x1,#56]
	ldr x8,[x1]
	ldp x10,x11,[x1,#24]
	ldr w13,[x1,#80]
	ext v0.16b,v0.16b,v0.16b,#8
	ext v1.16b,v1.16b,v1.16b,#8
	ldrb w14,[x1,#84]
	ldr w9,[x1,#20]
	ldr x12,[x1,#72]
	stp x8,x10,[x0]
	orr x8,x14,x13,lsl #1
	str x9,[x0,#16]
	stp x11,x12,[x0,#40]
	str x8,[x0,#56]
	stur q0,[x0,#24]
	str q1,[x0,#64]
	ret

public tkc_version,4,8
	mov w0,#0x300
	ret

public tkc_ntp_change_counter,4,268
	ldr w8,[x2]
	mov x10,#0xffffffffffffffff
	neg w9,w8
	lsr x9,x10,x9
	cmp x9,x3
	b.cs 1f
	mov w0,#0x4
	ret
1:
	sub sp,sp,#0x40
	ldrb w10,[x0,#76]
	ldur x9,[x2,#4]
	stp x29,x30,[sp,#16]
	str x21,[sp,#32]
	add x29,sp,#0x10
	stp x20,x19,[sp,#48]
	tbz w10,#0,2f
	ldr w10,[x0]
	mov x11,#0xffffffffffffffff
	str w8,[sp,#4]
	stur x9,[sp,#8]
	neg w10,w10
	lsr x10,x11,x10
	cmp x10,x1
	b.cs 4f
	mov w0,#0x4
	ldp x20,x19,[sp,#48]
	ldr x21,[sp,#32]
	ldp x29,x30,[sp,#16]
	add sp,sp,#0x40
	ret
2:
	str w8,[sp,#4]
	mov x8,x0
	mov x19,x3
	add x0,x0,#0x68
	mov x3,x1
	mov x1,x8
	mov w2,wzr
	stur x9,[sp,#8]
	mov x20,x8
	mov x21,x3
	bl .Ltk_ntp.course.Course.advance
	tst w0,#0xff
	b.ne 5f
	add x2,sp,#0x4
	mov x0,x20
	mov x1,x21
	mov x3,x19
	bl "tk_c::change_ntp_counter::turn_over"
	tbnz w0,#0,5f
3:
	mov w0,wzr
	ldp x20,x19,[sp,#48]
	ldr x21,[sp,#32]
	ldp x29,x30,[sp,#16]
	add sp,sp,#0x40
	ret
4:
	add x2,sp,#0x4
	bl "tk_c::change_ntp_counter::turn_over"
	tbz w0,#0,3b
5:
	adrp x8,.rodata..Lswitch.table.tkc_ntp_change_counter
	add x8,x8,:lo12:.rodata..Lswitch.table.tkc_ntp_change_counter
	add x8,x8,w1,sxtb #2
	ldr w0,[x8,#4]
	ldp x20,x19,[sp,#48]
	ldr x21,[sp,#32]
	ldp x29,x30,[sp,#16]
	add sp,sp,#0x40
	ret

public tkc_ntp_next_second,4,132
	stp x29,x30,[sp,#-48]!
	stp x20,x19,[sp,#32]
	ldr x20,[x1,#208]
	mov x19,x1
	str x21,[sp,#16]
	mov x21,x0
	mov x0,x1
	mov w1,wzr
	mov x2,x20
	mov w3,wzr
	mov x29,sp
	bl "tk_clock::read_base::ReadBase::reading_at"
	and w8,w0,#0xff
	cmp w8,#0x1
	b.ne 1f
	mov w0,wzr
	str x1,[x21]
	ldp x20,x19,[sp,#32]
	ldr x21,[sp,#16]
	ldp x29,x30,[sp],#48
	ret
1:
	mov x0,x19
	mov w1,wzr
	mov x2,x20
	mov w3,wzr
	bl "tk_clock::read_base::ReadBase::is_further"
	mov w8,#0x8
	cmp w0,#0x0
	cinc w0,w8,eq
	ldp x20,x19,[sp,#32]
	ldr x21,[sp,#16]
	ldp x29,x30,[sp],#48
	ret

public tkc_snapshot_reading,4,172
	mov x8,x0
	cmp w2,#0xb
	mov w0,#0x11
	b.hi 3f
	mov w9,#0x8f3
	lsr w9,w9,w2
	tbz w9,#0,3f
	stp x29,x30,[sp,#-64]!
	stp x22,x21,[sp,#32]
	mov x22,x8
	adrp x8,.rodata..Lswitch.table.tkc_snapshot_reading
	add x8,x8,:lo12:.rodata..Lswitch.table.tkc_snapshot_reading
	stp x20,x19,[sp,#48]
	add x0,x1,#0x8
	ldrb w19,[x8,w2,uxtw]
	str x23,[sp,#16]
	mov x23,x1
	mov x21,x3
	mov x2,x3
	mov w3,w4
	mov w1,w19
	mov x29,sp
	mov w20,w4
	bl "tk_clock::read_base::ReadBase::reading_at"
	and w8,w0,#0xff
	cmp w8,#0x1
	b.ne 1f
	mov w0,wzr
	str x1,[x22]
	b 2f
1:
	add x0,x23,#0x8
	mov w1,w19
	mov x2,x21
	mov w3,w20
	bl "tk_clock::read_base::ReadBase::is_further"
	mov w8,#0x8
	cmp w0,#0x0
	cinc w0,w8,eq
2:
	ldp x20,x19,[sp,#48]
	ldr x23,[sp,#16]
	ldp x22,x21,[sp,#32]
	ldp x29,x30,[sp],#64
3:
	ret

public tkc_counter_finest,4,336
	sub w8,w1,#0x8
	cmp w8,#0x38
	b.hi 3f
	mov x9,#0xfff
	sub x8,x2,#0x1
	movk x9,#0xd4a5,lsl #16
	movk x9,#0xe8,lsl #32
	cmp x8,x9
	mov w8,#0x24
	b.hi 9f
	sub w9,w3,#0x1
	cmp w9,#0x257
	b.hi 9f
	mov w8,w3
	mov w11,#0xca00
	mov w9,#0x20
	mul x10,x2,x8
	lsr x8,x2,#1
	movk w11,#0x3b9a,lsl #16
	b 2f
1:
	add x12,x9,#0x1
	sub x9,x9,#0x1
	cmp x12,#0x3
	b.ls 4f
2:
	lsl x12,x11,x9
	add x13,x12,x8
	udiv x13,x13,x2
	lsr x14,x13,#32
	cbnz x14,1b
	mov w14,#0xb
	mov x15,#0xf5c3
	mul x14,x13,x14
	movk x15,#0x5c28,lsl #16
	movk x15,#0xc28f,lsl #32
	movk x15,#0x28f5,lsl #48
	lsr x14,x14,#2
	umulh x14,x14,x15
	add x13,x13,x14,lsr #2
	mul x14,x13,x10
	lsr x16,x13,#32
	umulh x15,x13,x10
	adds x14,x14,x12
	cinc x13,x15,cs
	cbnz x16,1b
	cmp x14,#0x1
	mov w14,#0x1
	sbcs xzr,x13,x14
	b.cs 1b
	cmp x9,#0x20
	b.ls 6f
	mov w0,#0x21
	ret
3:
	mov w0,#0x20
	ret
4:
	mov w9,#0x9400
	movk w9,#0x7735,lsl #16
	add x8,x8,x9
	mov w9,#0x1
	udiv x10,x8,x2
	cmp w10,#0x100
	b.cs 7f
5:
	mov w0,#0x22
	ret
6:
	add x8,x12,x8
	udiv x10,x8,x2
	cmp w10,#0x100
	b.cc 5b
7:
	mov w8,w10
	mov w11,#0xb
	mov x12,#0x8f5d
	umull x11,w8,w11
	movk x12,#0xf5c2,lsl #16
	movk x12,#0x5c28,lsl #32
	movk x12,#0x28f,lsl #48
	umulh x11,x11,x12
	add x8,x11,x8
	lsr x8,x8,#32
	cbz x8,8f
	mov w0,#0x23
	ret
8:
	stp w1,w10,[x0]
	str w9,[x0,#8]
9:
	mov w0,w8
	ret

public tkc_counter_from_hz,4,208
	lsr x8,x2,#32
	cmp x8,#0x0
	sub w8,w1,#0x8
	csel w9,wzr,w2,ne
	cmp w8,#0x38
	b.hi 2f
	mov w8,#0x24
	cbz w9,5f
	sub w10,w3,#0x1
	cmp w10,#0x257
	b.hi 5f
	umull x8,w9,w3
	mov w12,#0x20
	lsr w10,w9,#1
	mov w11,#0xca00
	movk w11,#0x3b9a,lsl #16
	clz x8,x8
	cmp w8,#0x20
	csel w8,w8,w12,cc
	mov w12,#0x21
1:
	cmp x12,#0x3
	b.cc 3f
	sub x12,x12,#0x1
	lsl x13,x11,x12
	add x13,x13,x10
	udiv x13,x13,x9
	lsr x13,x13,x8
	cbnz x13,1b
	b 4f
2:
	mov w0,#0x20
	ret
3:
	mov w12,#0x1
4:
	lsl x11,x11,x12
	mov x13,#0x8f5d
	mov w8,wzr
	movk x13,#0xf5c2,lsl #16
	add x10,x11,x10
	movk x13,#0x5c28,lsl #32
	udiv x9,x10,x9
	mov w10,#0xb
	movk x13,#0x28f,lsl #48
	mov w11,w9
	umull x10,w11,w10
	umulh x10,x10,x13
	add x10,x10,x11
	lsr x10,x10,#32
	lsr w9,w9,w10
	sub w10,w12,w10
	str w10,[x0,#8]
	stp w1,w9,[x0]
5:
	mov w0,w8
	ret

public tkc_counter_from_khz,4,216
	lsr x8,x2,#32
	cmp x8,#0x0
	sub w8,w1,#0x8
	csel w9,wzr,w2,ne
	cmp w8,#0x38
	b.hi 2f
	mov w8,#0x24
	cbz w9,5f
	sub w10,w3,#0x1
	cmp w10,#0x257
	b.hi 5f
	mov w8,#0x3e8
	mov w12,#0x20
	lsr w10,w9,#1
	mul w8,w3,w8
	mov w11,#0x4240
	movk w11,#0xf,lsl #16
	umull x8,w8,w9
	clz x8,x8
	cmp w8,#0x20
	csel w8,w8,w12,cc
	mov w12,#0x21
1:
	cmp x12,#0x3
	b.cc 3f
	sub x12,x12,#0x1
	lsl x13,x11,x12
	add x13,x13,x10
	udiv x13,x13,x9
	lsr x13,x13,x8
	cbnz x13,1b
	b 4f
2:
	mov w0,#0x20
	ret
3:
	mov w12,#0x1
4:
	lsl x11,x11,x12
	mov x13,#0x8f5d
	mov w8,wzr
	movk x13,#0xf5c2,lsl #16
	add x10,x11,x10
	movk x13,#0x5c28,lsl #32
	udiv x9,x10,x9
	mov w10,#0xb
	movk x13,#0x28f,lsl #48
	mov w11,w9
	umull x10,w11,w10
	umulh x10,x10,x13
	add x10,x10,x11
	lsr x10,x10,#32
	lsr w9,w9,w10
	sub w10,w12,w10
	str w10,[x0,#8]
	stp w1,w9,[x0]
5:
	mov w0,w8
	ret

public tkc_counter_new,4,124
	sub w8,w1,#0x8
	cmp w8,#0x38
	b.hi 1f
	cmp w3,#0x20
	b.ls 2f
	mov w0,#0x21
	ret
1:
	mov w0,#0x20
	ret
2:
	cmp w2,#0x100
	b.cs 3f
	mov w0,#0x22
	ret
3:
	mov w8,#0xb
	mov x9,#0x8f5d
	umull x8,w2,w8
	movk x9,#0xf5c2,lsl #16
	movk x9,#0x5c28,lsl #32
	movk x9,#0x28f,lsl #48
	umulh x8,x8,x9
	mov w9,w2
	add x8,x8,x9
	lsr x8,x8,#32
	cbz x8,4f
	mov w0,#0x23
	ret
4:
	mov x8,x0
	mov w0,wzr
	stp w1,w2,[x8]
	str w3,[x8,#8]
	ret

public tkc_clock_from_words,4,608
	ldr x9,[x1]
	mov x8,#0xffffffffffffffff
	ldr x10,[x2,#8]
	neg w11,w9
	lsr x8,x8,x11
	cmp x10,x8
	mov w8,#0x12
	b.hi 1f
	ldr x11,[x2,#16]
	cbz x11,1f
	lsr x15,x9,#32
	mov w8,#0xb
	mov x12,#0x8f5d
	movk x12,#0xf5c2,lsl #16
	umull x8,w15,w8
	movk x12,#0x5c28,lsl #32
	movk x12,#0x28f,lsl #48
	umulh x8,x8,x12
	add x8,x8,x15
	cmp x11,x8
	b.ls 2f
	mov w8,#0x12
1:
	mov w0,w8
	ret
2:
	ldr w13,[x1,#8]
	mov w7,#0xca00
	ldr x12,[x2,#24]
	movk w7,#0x3b9a,lsl #16
	mov w8,#0x12
	lsl x5,x7,x13
	cmp x12,x5
	b.cs 1b
	ldr x14,[x2,#32]
	mov w16,#0x8ff
	movk w16,#0x3864,lsl #16
	cmp x14,x16
	b.hi 1b
	ldr x16,[x2,#56]
	mov w17,#0xd41
	movk w17,#0x3,lsl #16
	cmp x16,x17
	b.hi 1b
	ldr x17,[x2,#64]
	cmp x17,x5
	b.cs 1b
	ldr x18,[x2,#72]
	mov w1,#0x50ff
	movk w1,#0x3f2e,lsl #16
	cmp x18,x1
	b.hi 1b
	str x21,[sp,#-32]!
	lsr x8,x12,x13
	ldr x1,[x2,#48]
	stp x20,x19,[sp,#16]
	madd x8,x14,x7,x8
	mov x19,#0xffffffffffff27ff
	movk x19,#0xcd0d,lsl #16
	movk x19,#0x7fff,lsl #48
	adds x6,x1,x8
	csinv x6,x6,xzr,cc
	cmp x6,x19
	b.ls 4f
	mov w8,#0x12
3:
	ldp x20,x19,[sp,#16]
	ldr x21,[sp],#32
	mov w0,w8
	ret
4:
	lsr x6,x16,#1
	mov x20,#0xffffffffffffdcd8
	add x21,x4,x20
	madd x8,x6,x7,x8
	ldr x7,[x2,#40]
	adds x8,x7,x8
	csinv x20,x8,xzr,cc
	cmp x21,#0x7d0
	mov w8,#0x12
	b.hi 3b
	add x19,x19,#0x1
	cmp x20,x19
	b.cs 3b
	mov x8,#0xffffffffffff0000
	mov w19,#0x1f40000
	mov w20,#0x640000
	movk x8,#0xfe0c,lsl #16
	cmp x3,x8
	csel x8,x3,x8,gt
	cmp x8,x19
	csel x8,x8,x19,lt
	madd x19,x4,x20,x8
	and x8,x8,#0xffff
	umull x8,w15,w8
	lsr x19,x19,#16
	mul x19,x15,x19
	add x8,x19,x8,lsr #16
	mov x19,#0x34db
	movk x19,#0xd7b6,lsl #16
	movk x19,#0xde82,lsl #32
	movk x19,#0x431b,lsl #48
	umulh x8,x8,x19
	lsr x8,x8,#18
	cmp w11,w8
	b.ne 5f
	mov w8,#0xb9ac
	mov x19,#0xf6c7
	umulh x20,x18,x5
	movk w8,#0xd,lsl #16
	movk x19,#0xd05a,lsl #16
	umull x8,w15,w8
	movk x19,#0x637b,lsl #32
	movk x19,#0x8,lsl #48
	umulh x8,x8,x19
	mul x19,x18,x5
	lsr x8,x8,#7
	adds x19,x19,x17
	umulh x21,x19,x8
	cinc x20,x20,cs
	madd x20,x20,x8,x21
	mul x21,x14,x5
	umulh x5,x14,x5
	mul x8,x19,x8
	adds x19,x21,x12
	umulh x21,x19,x15
	cinc x5,x5,cs
	mul x19,x19,x15
	madd x15,x5,x15,x21
	cmp x19,x8
	sbcs xzr,x15,x20
	b.cs 6f
5:
	mov w8,#0x12
	ldp x20,x19,[sp,#16]
	ldr x21,[sp],#32
	mov w0,w8
	ret
6:
	ldr x15,[x2]
	mov w8,wzr
	str x9,[x0]
	and w9,w16,#0x1
	stp w13,w11,[x0,#8]
	stp x10,x7,[x0,#16]
	stp x14,x12,[x0,#32]
	stp x18,x17,[x0,#48]
	str x1,[x0,#64]
	str w6,[x0,#72]
	strb w9,[x0,#76]
	sturh wzr,[x0,#77]
	strb wzr,[x0,#79]
	stp x3,x4,[x0,#80]
	str x15,[x0,#96]
	ldp x20,x19,[sp,#16]
	ldr x21,[sp],#32
	mov w0,w8
	ret

public tkc_clock_load,4,156
	sub sp,sp,#0x90
	str x19,[sp,#128]
	mov x19,x0
	mov x0,sp
	stp x29,x30,[sp,#112]
	add x29,sp,#0x70
	bl "tk_c::saved::clock_of_words"
	ldrb w8,[sp]
	cmp w8,#0x1
	b.ne 1f
	ldur q0,[sp,#8]
	ldur q1,[sp,#24]
	mov w0,wzr
	ldr x8,[sp,#72]
	ldrb w9,[sp,#84]
	ldur q2,[sp,#40]
	stp q0,q1,[x19]
	ldur q0,[sp,#56]
	ldr w10,[sp,#80]
	str x8,[x19,#64]
	and w8,w9,#0x1
	stp q2,q0,[x19,#32]
	ldur q0,[sp,#88]
	strb w8,[x19,#76]
	ldr x8,[sp,#104]
	str w10,[x19,#72]
	sturh wzr,[x19,#77]
	strb wzr,[x19,#79]
	str q0,[x19,#80]
	str x8,[x19,#96]
	ldp x29,x30,[sp,#112]
	ldr x19,[sp,#128]
	add sp,sp,#0x90
	ret
1:
	mov w0,#0x12
	ldp x29,x30,[sp,#112]
	ldr x19,[sp,#128]
	add sp,sp,#0x90
	ret

public tkc_clock_open,4,152
	ldr w8,[x1]
	mov x10,#0xffffffffffffffff
	neg w9,w8
	lsr x9,x10,x9
	cmp x9,x2
	b.cs 1f
	mov w0,#0x4
	ret
1:
	mov x10,#0x7403
	mov x9,x0
	mov w0,#0x4
	movk x10,#0xed5d,lsl #16
	movk x10,#0x1,lsl #32
	cmp x3,x10
	b.hi 2f
	mov w10,#0xc9ff
	movk w10,#0x3b9a,lsl #16
	cmp w4,w10
	b.hi 2f
	mov w11,#0xca00
	ldur d0,[x1,#4]
	ldr w10,[x1,#4]
	movk w11,#0x3b9a,lsl #16
	str w8,[x9]
	mov w0,wzr
	mul x8,x3,x11
	stur d0,[x9,#4]
	movi v0.2d,#0x0
	str w10,[x9,#12]
	adrp x10,.rodata.cst16+32
	str xzr,[x9,#80]
	stp q0,q0,[x9,#32]
	str q0,[x9,#64]
	add x8,x8,w4,uxtw
	ldr q0,[x10,:lo12:.rodata.cst16+32]
	stp x2,x8,[x9,#16]
	stur q0,[x9,#88]
2:
	ret

public tkc_clock_open_at,4,208
	ldr w9,[x1]
	mov x10,#0xffffffffffffffff
	neg w8,w9
	lsr x8,x10,x8
	cmp x8,x2
	b.cs 1f
	mov w0,#0x4
	ret
1:
	mov x8,#0x7403
	movk x8,#0xed5d,lsl #16
	movk x8,#0x1,lsl #32
	cmp x3,x8
	mov w8,#0x4
	b.hi 4f
	mov w10,#0xca00
	movk w10,#0x3b9a,lsl #16
	cmp w4,w10
	b.cs 4f
	tbnz x5,#63,4f
	cmp w6,w10
	b.cs 4f
	mov w8,#0x8ff
	movk w8,#0x3864,lsl #16
	cmp x5,x8
	b.ls 2f
	mov w0,#0x6
	ret
2:
	mov w8,#0xca00
	mov w10,w6
	movk w8,#0x3b9a,lsl #16
	mul x11,x3,x8
	madd x8,x5,x8,x10
	add x11,x11,w4,uxtw
	subs x11,x11,x8
	b.cs 3f
	mov w0,#0x4
	ret
3:
	ldp w12,w13,[x1,#4]
	mov w8,wzr
	stp x2,x11,[x0,#16]
	stp xzr,xzr,[x0,#72]
	stp w9,w12,[x0]
	lsl x9,x10,x13
	stp w13,w12,[x0,#8]
	stp x5,x9,[x0,#32]
	stp x5,x9,[x0,#48]
	adrp x9,.rodata.cst16+48
	ldr q0,[x9,:lo12:.rodata.cst16+48]
	str xzr,[x0,#64]
	stur q0,[x0,#88]
4:
	mov w0,w8
	ret

public tkc_ntp_open,4,252
	ldr w8,[x1]
	mov x9,#0xffffffffffffffff
	neg w10,w8
	lsr x9,x9,x10
	cmp x9,x2
	b.cs 1f
	mov w0,#0x4
	ret
1:
	mov x10,#0x7403
	mov x9,x0
	mov w0,#0x4
	movk x10,#0xed5d,lsl #16
	movk x10,#0x1,lsl #32
	cmp x3,x10
	b.hi 2f
	mov w10,#0xc9ff
	movk w10,#0x3b9a,lsl #16
	cmp w4,w10
	b.hi 2f
	sub w10,w5,#0x401
	cmn w10,#0x400
	b.cc 2f
	mov x11,#0xca0000000000
	mov w10,w5
	ldur d0,[x1,#4]
	movk x11,#0x3b9a,lsl #48
	ldr w12,[x1,#4]
	str w8,[x9]
	udiv x11,x11,x10
	adrp x8,.rodata.cst8+16
	stur d0,[x9,#4]
	ldr d0,[x8,:lo12:.rodata.cst8+16]
	adrp x8,.rodata.cst16+64
	movi v1.2d,#0x0
	str w12,[x9,#12]
	adrp x12,.rodata.cst16+96
	mov w0,wzr
	stur d0,[x9,#108]
	ldr q0,[x8,:lo12:.rodata.cst16+64]
	adrp x8,.rodata.cst16+80
	str xzr,[x9,#64]
	stur q0,[x9,#136]
	ldr q0,[x8,:lo12:.rodata.cst16+80]
	mov w8,#0xca00
	movk w8,#0x3b9a,lsl #16
	stp q1,q1,[x9,#32]
	mul x8,x3,x8
	stur q0,[x9,#184]
	ldr q0,[x12,:lo12:.rodata.cst16+96]
	str w5,[x9,#104]
	str wzr,[x9,#116]
	stur q1,[x9,#72]
	stur q1,[x9,#120]
	add x8,x8,w4,uxtw
	stur q1,[x9,#152]
	stur q1,[x9,#168]
	stp x2,x8,[x9,#16]
	stur q0,[x9,#88]
	mul x10,x11,x10
	add x11,x3,#0x1
	stp x11,x2,[x9,#208]
	str x10,[x9,#200]
2:
	ret

public tkc_ntp_open_at,4,308
	ldr w9,[x1]
	mov x10,#0xffffffffffffffff
	neg w8,w9
	lsr x8,x10,x8
	cmp x8,x2
	b.cs 1f
	mov w0,#0x4
	ret
1:
	mov x8,#0x7403
	movk x8,#0xed5d,lsl #16
	movk x8,#0x1,lsl #32
	cmp x3,x8
	mov w8,#0x4
	b.hi 3f
	mov w10,#0xca00
	movk w10,#0x3b9a,lsl #16
	cmp w4,w10
	b.cs 3f
	tbnz x5,#63,3f
	cmp w6,w10
	b.cs 3f
	mov w8,#0x8ff
	movk w8,#0x3864,lsl #16
	cmp x5,x8
	b.ls 2f
	mov w0,#0x6
	ret
2:
	mov w8,#0xca00
	mov w10,w6
	movk w8,#0x3b9a,lsl #16
	mul x11,x3,x8
	madd x8,x5,x8,x10
	add x11,x11,w4,uxtw
	subs x11,x11,x8
	mov w8,#0x4
	b.cc 3f
	sub w12,w7,#0x401
	cmn w12,#0x400
	b.cc 3f
	ldp w12,w13,[x1,#4]
	mov x15,#0xca0000000000
	mov w14,w7
	stp x2,x11,[x0,#16]
	movk x15,#0x3b9a,lsl #48
	adrp x11,.rodata.cst8+24
	mov w8,wzr
	stp w9,w12,[x0]
	udiv x9,x15,x14
	ldr d0,[x11,:lo12:.rodata.cst8+24]
	adrp x11,.rodata.cst16+112
	lsl x10,x10,x13
	stp w13,w12,[x0,#8]
	stur d0,[x0,#108]
	ldr q0,[x11,:lo12:.rodata.cst16+112]
	adrp x11,.rodata.cst16+128
	ldr q1,[x11,:lo12:.rodata.cst16+128]
	adrp x11,.rodata.cst16+144
	stp x5,x10,[x0,#32]
	stur q0,[x0,#136]
	movi v0.2d,#0x0
	stp x10,xzr,[x0,#56]
	add x10,x3,#0x1
	str w7,[x0,#104]
	str wzr,[x0,#116]
	stur q0,[x0,#72]
	stur q0,[x0,#120]
	stur q0,[x0,#152]
	stur q0,[x0,#168]
	ldr q0,[x11,:lo12:.rodata.cst16+144]
	stur q1,[x0,#184]
	str x5,[x0,#48]
	stp x10,x2,[x0,#208]
	stur q0,[x0,#88]
	mul x9,x9,x14
	str x9,[x0,#200]
3:
	mov w0,w8
	ret

	.section .rodata.cst16,"aM",%progbits,16
	.balign 16
	.quad 0x1000000000000000,0x0
	.quad 0x1,0x1f40000
	.quad 0x2710,0x0
	.quad 0x2710,0x0
	.quad 0xf4240000000002,0x271000f42400
	.quad 0x1000000000000000,0x0
	.quad 0x2710,0x0
	.quad 0xf4240000000002,0x271000f42400
	.quad 0x1000000000000000,0x0
	.quad 0x2710,0x0

	.section .rodata.cst8,"aM",%progbits,8
	.balign 8
	.quad 0x200000000
	.quad 0x200000000
	.quad 0x40
	.quad 0x40

	.section .rodata..Lswitch.table.tkc_snapshot_convert,"a",%progbits
	.balign 4
	.long 0x13,0x13,0x11,0x11,0x13,0x13,0x13,0x13
	.long 0x11,0x11,0x11,0x13

	.section .rodata..Lswitch.table.tkc_ntp_change_counter,"a",%progbits
	.balign 4
	.long 0x0,0x1,0x2,0x3,0x4,0x5,0x6,0x7
	.long 0x8,0x9,0x10,0x11,0x12,0x13,0x20,0x21
	.long 0x22,0x23,0x24

	.section .rodata..Lswitch.table.tkc_snapshot_reading,"a",%progbits
	.balign 4
	.long 0x100,0x2050406,0x3000000

	.section .eh_frame,"a",%progbits
	.balign 8
1:
	.byte 16,0,0,0,0,0,0,0,1,122,82,0,1,120,30,1,27,12,31,0
frame ".text.tk_ntp::course::Course::adjtimex::<#168be072fac5bef1>",0,700,76
	.byte 0,68,14,176,2,80,157,10,158,9,76,156,8,72,151,5,152,6,68,149,3,150,4,68,147,1,148,2,2,76,14,0
	.byte 211,212,213,214,215,216,220,221,222,68,14,176,2,147,1,148,2,149,3,150,4,151,5,152,6,156,8,157,10,158,9,0
frame ".text.tk_ntp::course::Course::advance::<#168be072fac5bef1>",0,1148,88
	.byte 0,88,14,128,1,68,149,3,150,4,76,157,12,158,11,76,155,10,72,153,7,154,8,68,151,5,152,6,72,147,1,148
	.byte 2,3,44,1,14,0,211,212,213,214,215,216,217,218,219,221,222,68,14,128,1,147,1,148,2,149,3,150,4,151,5,152
	.byte 6,153,7,154,8,155,10,157,12,158,11,0
frame ".text.tk_ntp::course::Course::command::<#168be072fac5bef1>",0,1164,84
	.byte 0,68,14,176,1,68,151,5,152,6,76,153,7,154,8,80,149,3,150,4,76,147,1,148,2,76,157,10,158,9,3,220
	.byte 3,14,0,211,212,213,214,215,216,217,218,221,222,68,14,176,1,147,1,148,2,149,3,150,4,151,5,152,6,153,7,154
	.byte 8,157,10,158,9,0,0,0
frame ".text.tk_ntp::course::Course::request::<#168be072fac5bef1>",0,1972,104
	.byte 0,68,14,208,1,76,5,72,14,68,157,12,158,11,84,155,9,156,10,68,153,7,154,8,84,151,5,152,6,68,149,3
	.byte 150,4,72,147,1,148,2,3,96,7,14,0,211,212,213,214,215,216,217,218,219,220,221,222,6,72,68,14,208,1,147,1
	.byte 148,2,149,3,150,4,151,5,152,6,153,7,154,8,155,9,156,10,157,12,158,11,5,72,14,0,0,0
frame ".text.tk_ntp::course::Course::steer::<#168be072fac5bef1>",0,932,60
	.byte 0,68,14,80,72,157,6,158,5,72,149,3,150,4,68,147,1,148,2,3,132,3,14,0,211,212,213,214,221,222,68,14
	.byte 80,147,1,148,2,149,3,150,4,157,6,158,5,0,0,0
frame ".text.tk_clock::read_base::ReadBase::reading_at",0,1296,56
	.byte 0,68,14,32,157,4,158,3,100,147,2,3,0,4,14,0,211,221,222,68,14,32,147,2,157,4,158,3,80,14,0,211
	.byte 221,222,68,14,32,147,2,157,4,158,3,0
frame ".text.tk_ntp::course::Course::begin_next",0,972,52
	.byte 0,68,14,64,68,149,4,76,147,1,148,2,104,157,6,158,5,3,136,3,14,0,211,212,213,221,222,68,14,64,147,1
	.byte 148,2,149,4,157,6,158,5
frame ".text.tk_ntp::lag::Lag::accounted_late",0,296,16
	.byte 0,0,0,0
frame ".text.tk_clock::clock::Clock::apply_any",0,2112,92
	.byte 0,68,14,160,1,68,155,9,156,10,72,153,7,154,8,72,151,5,152,6,76,149,3,150,4,72,157,12,158,11,72,147
	.byte 1,148,2,2,112,14,0,211,212,213,214,215,216,217,218,219,220,221,222,68,14,160,1,147,1,148,2,149,3,150,4,151
	.byte 5,152,6,153,7,154,8,155,9,156,10,157,12,158,11,0
frame ".text.unlikely.tk_clock::read_base::ReadBase::nanos_at_last",0,208,16
	.byte 0,0,0,0
frame ".text.tk_clock::clock::Clock::update_late",0,628,80
	.byte 0,68,14,112,76,149,3,150,4,72,151,5,152,6,76,147,1,148,2,84,157,10,158,9,72,153,7,154,8,3,188,1
	.byte 14,0,211,212,213,214,215,216,217,218,221,222,68,14,112,147,1,148,2,149,3,150,4,151,5,152,6,153,7,154,8,157
	.byte 10,158,9,0
frame ".text.tk_counter::counter::CounterDesc::split_long",0,236,16
	.byte 0,0,0,0
frame ".text.tk_ntp::course::giving::give_any::<#168be072fac5bef1>",0,352,44
	.byte 0,80,14,64,76,157,4,158,3,68,147,2,3,4,1,14,0,211,221,222,68,14,64,147,2,157,4,158,3,0,0,0
frame ".text.tk_c::clocks::apply_other",0,432,48
	.byte 0,3,24,1,14,64,80,157,4,158,3,72,147,2,112,14,0,211,221,222,72,14,64,147,2,157,4,158,3,92,14,0
	.byte 211,221,222,0
frame ".text.tk_clock::clock::Clock::change_counter",0,1028,92
	.byte 0,68,14,128,1,68,149,3,150,4,76,157,12,158,11,76,155,9,156,10,72,153,7,154,8,68,151,5,152,6,72,147
	.byte 1,148,2,104,14,0,211,212,213,214,215,216,217,218,219,220,221,222,68,14,128,1,147,1,148,2,149,3,150,4,151,5
	.byte 152,6,153,7,154,8,155,9,156,10,157,12,158,11,0,0
frame ".text.tk_ntp::course::Course::apply::<#168be072fac5bef1>",0,912,160
	.byte 0,68,14,112,76,157,8,158,7,68,151,6,72,149,3,150,4,68,147,1,148,2,104,14,0,211,212,213,214,215,221,222
	.byte 68,14,112,147,1,148,2,149,3,150,4,151,6,157,8,158,7,2,76,14,0,211,212,213,214,215,221,222,68,14,112,147
	.byte 1,148,2,149,3,150,4,151,6,157,8,158,7,3,0,1,14,0,211,212,213,214,215,221,222,68,14,112,147,1,148,2
	.byte 149,3,150,4,151,6,157,8,158,7,100,14,0,211,212,213,214,215,221,222,68,14,112,147,1,148,2,149,3,150,4,151
	.byte 6,157,8,158,7,3,196,1,14,0,211,212,213,214,215,221,222,0,0,0
frame ".text.tk_ntp::course::Course::apply_any::<#168be072fac5bef1>",0,388,92
	.byte 0,68,14,160,2,72,151,5,152,6,72,149,3,150,4,72,147,1,148,2,84,157,10,158,9,68,156,8,2,72,14,0
	.byte 211,212,213,214,215,216,220,221,222,68,14,160,2,147,1,148,2,149,3,150,4,151,5,152,6,156,8,157,10,158,9,3
	.byte 0,1,14,0,211,212,213,214,215,216,220,221,222,0,0,0
frame ".text.tk_ntp::course::Course::apply_late::<#168be072fac5bef1>",0,960,180
	.byte 0,68,14,80,72,149,3,150,4,72,147,1,148,2,76,157,6,158,5,2,100,14,0,211,212,213,214,221,222,68,14,80
	.byte 147,1,148,2,149,3,150,4,157,6,158,5,2,104,14,0,211,212,213,214,221,222,68,14,80,147,1,148,2,149,3,150
	.byte 4,157,6,158,5,2,204,14,0,211,212,213,214,221,222,68,14,80,147,1,148,2,149,3,150,4,157,6,158,5,96,14
	.byte 0,211,212,213,214,221,222,68,14,80,147,1,148,2,149,3,150,4,157,6,158,5,112,14,0,211,212,213,214,221,222,68
	.byte 14,80,147,1,148,2,149,3,150,4,157,6,158,5,3,100,1,14,0,211,212,213,214,221,222,68,14,80,147,1,148,2
	.byte 149,3,150,4,157,6,158,5
frame ".text.tk_c::saved::clock_of_words",0,744,44
	.byte 0,2,168,14,32,149,4,84,147,1,148,2,3,20,2,14,0,211,212,213,68,14,32,147,1,148,2,149,4,0,0,0
frame ".text.tk_ntp::course::Course::tick_late::<#168be072fac5bef1>",0,124,60
	.byte 0,68,14,80,68,147,1,148,2,80,157,6,158,5,72,149,4,108,14,0,211,212,213,221,222,68,14,80,147,1,148,2
	.byte 149,4,157,6,158,5,104,14,0,211,212,213,221,222,0,0
frame ".text.tk_lanes::batch::plain_from",0,1400,64
	.byte 0,68,14,96,157,12,158,11,72,155,9,156,10,72,153,7,154,8,68,151,5,152,6,68,149,3,150,4,68,147,1,148
	.byte 2,3,84,5,14,0,211,212,213,214,215,216,217,218,219,220,221,222,0,0
frame ".text.tk_c::snapshots::get_named",0,1936,248
	.byte 0,68,14,32,157,4,158,3,76,147,2,2,72,14,0,211,221,222,68,14,32,147,2,157,4,158,3,124,14,0,211,221
	.byte 222,68,14,32,147,2,157,4,158,3,120,14,0,211,221,222,68,14,32,147,2,157,4,158,3,104,14,0,211,221,222,68
	.byte 14,32,147,2,157,4,158,3,104,14,0,211,221,222,68,14,32,147,2,157,4,158,3,104,14,0,211,221,222,68,14,32
	.byte 147,2,157,4,158,3,104,14,0,211,221,222,68,14,32,147,2,157,4,158,3,3,212,2,14,0,211,221,222,68,14,32
	.byte 147,2,157,4,158,3,124,14,0,211,221,222,68,14,32,147,2,157,4,158,3,2,76,14,0,211,221,222,68,14,32,147
	.byte 2,157,4,158,3,116,14,0,211,221,222,68,14,32,147,2,157,4,158,3,2,68,14,0,211,221,222,68,14,32,147,2
	.byte 157,4,158,3,2,68,14,0,211,221,222,68,14,32,147,2,157,4,158,3,2,116,14,0,211,221,222,68,14,32,147,2
	.byte 157,4,158,3,3,92,1,14,0,211,221,222
frame ".text.tk_c::change_ntp_counter::turn_over",0,568,92
	.byte 0,68,14,128,1,84,157,12,158,11,76,155,9,156,10,68,153,7,154,8,68,151,5,152,6,68,149,3,150,4,68,147
	.byte 1,148,2,2,136,14,0,211,212,213,214,215,216,217,218,219,220,221,222,68,14,128,1,147,1,148,2,149,3,150,4,151
	.byte 5,152,6,153,7,154,8,155,9,156,10,157,12,158,11,0
frame ".text.tk_clock::read_base::ReadBase::is_further",0,1360,92
	.byte 0,68,14,48,157,6,158,5,68,149,3,150,4,104,147,1,148,2,3,168,3,14,0,211,212,213,214,221,222,68,14,48
	.byte 147,1,148,2,149,3,150,4,157,6,158,5,2,120,14,0,211,212,213,214,221,222,68,14,48,147,1,148,2,149,3,150
	.byte 4,157,6,158,5,2,244,14,0,211,212,213,214,221,222,0
frame .text.tkc_adjtimex,0,268,56
	.byte 0,68,14,208,1,80,147,1,148,2,92,157,4,158,3,2,100,14,0,211,212,221,222,68,14,208,1,147,1,148,2,157
	.byte 4,158,3,2,112,14,0,211,212,221,222,0
frame .text.tkc_clock_apply,0,388,64
	.byte 0,2,116,14,32,157,4,158,3,72,147,2,2,156,14,0,211,221,222,68,14,32,147,2,157,4,158,3,88,14,0,211
	.byte 221,222,68,14,32,147,2,157,4,158,3,2,72,14,0,211,221,222,0,0
frame .text.tkc_clock_change_counter,0,136,48
	.byte 0,92,14,48,80,157,4,158,3,72,147,2,112,14,0,211,221,222,68,14,48,147,2,157,4,158,3,92,14,0,211,221
	.byte 222,0,0,0
frame .text.tkc_clock_frequency,0,8,16
	.byte 0,0,0,0
frame .text.tkc_clock_save,0,88,16
	.byte 0,0,0,0
frame .text.tkc_clock_snapshot,0,72,16
	.byte 0,0,0,0
frame .text.tkc_clock_tick,0,8,16
	.byte 0,0,0,0
frame .text.tkc_clock_words,0,84,16
	.byte 0,0,0,0
frame .text.tkc_counter_gap,0,24,16
	.byte 0,0,0,0
frame .text.tkc_counter_nanos,0,64,16
	.byte 0,0,0,0
frame .text.tkc_counter_numbers,0,28,16
	.byte 0,0,0,0
frame .text.tkc_ntp_advance,0,64,28
	.byte 0,68,14,16,157,2,158,1,120,14,0,221,222,0,0,0
frame .text.tkc_ntp_advance_late,0,64,28
	.byte 0,68,14,16,157,2,158,1,120,14,0,221,222,0,0,0
frame .text.tkc_ntp_apply,0,280,28
	.byte 0,2,204,14,48,88,157,2,158,1,112,14,0,221,222,0
frame .text.tkc_ntp_frequency,0,44,16
	.byte 0,0,0,0
frame .text.tkc_ntp_leap,0,84,16
	.byte 0,0,0,0
frame .text.tkc_ntp_load,0,724,76
	.byte 0,68,14,144,1,68,147,1,148,2,76,157,4,158,3,3,148,2,14,0,211,212,221,222,68,14,144,1,147,1,148,2
	.byte 157,4,158,3,80,14,0,211,212,221,222,68,14,144,1,147,1,148,2,157,4,158,3,80,14,0,211,212,221,222,0,0
frame .text.tkc_ntp_pulse,0,1340,92
	.byte 0,68,14,192,1,72,149,3,150,4,80,157,12,158,11,72,155,9,156,10,72,153,7,154,8,68,151,5,152,6,68,147
	.byte 1,148,2,3,184,3,14,0,211,212,213,214,215,216,217,218,219,220,221,222,68,14,192,1,147,1,148,2,149,3,150,4
	.byte 151,5,152,6,153,7,154,8,155,9,156,10,157,12,158,11
frame .text.tkc_ntp_save,0,176,16
	.byte 0,0,0,0
frame .text.tkc_ntp_seconds,0,40,16
	.byte 0,0,0,0
frame .text.tkc_ntp_snapshot,0,72,16
	.byte 0,0,0,0
frame .text.tkc_ntp_status,0,8,16
	.byte 0,0,0,0
frame .text.tkc_ntp_tick,0,808,80
	.byte 0,68,14,96,68,151,5,152,6,76,149,3,150,4,76,147,1,148,2,76,157,10,158,9,72,153,7,154,8,2,248,14
	.byte 0,211,212,213,214,215,216,217,218,221,222,68,14,96,147,1,148,2,149,3,150,4,151,5,152,6,153,7,154,8,157,10
	.byte 158,9,0,0
frame .text.tkc_ntp_tick_length,0,8,16
	.byte 0,0,0,0
frame .text.tkc_pps_ask,0,108,16
	.byte 0,0,0,0
frame .text.tkc_pps_clear,0,20,16
	.byte 0,0,0,0
frame .text.tkc_pps_open,0,40,16
	.byte 0,0,0,0
frame .text.tkc_pps_reply,0,168,16
	.byte 0,0,0,0
frame .text.tkc_pps_seconds,0,60,16
	.byte 0,0,0,0
frame .text.tkc_snapshot_asleep,0,8,16
	.byte 0,0,0,0
frame .text.tkc_snapshot_coarse,0,1380,252
	.byte 0,68,14,32,157,4,158,3,76,147,2,2,76,14,0,211,221,222,68,14,32,147,2,157,4,158,3,2,64,14,0,211
	.byte 221,222,68,14,32,147,2,157,4,158,3,124,14,0,211,221,222,68,14,32,147,2,157,4,158,3,108,14,0,211,221,222
	.byte 68,14,32,147,2,157,4,158,3,108,14,0,211,221,222,68,14,32,147,2,157,4,158,3,108,14,0,211,221,222,68,14
	.byte 32,147,2,157,4,158,3,108,14,0,211,221,222,68,14,32,147,2,157,4,158,3,2,80,14,0,211,221,222,68,14,32
	.byte 147,2,157,4,158,3,2,80,14,0,211,221,222,68,14,32,147,2,157,4,158,3,2,80,14,0,211,221,222,68,14,32
	.byte 147,2,157,4,158,3,2,68,14,0,211,221,222,68,14,32,147,2,157,4,158,3,2,88,14,0,211,221,222,68,14,32
	.byte 147,2,157,4,158,3,2,68,14,0,211,221,222,68,14,32,147,2,157,4,158,3,2,116,14,0,211,221,222,68,14,32
	.byte 147,2,157,4,158,3,3,92,1,14,0,211,221,222,0,0
frame .text.tkc_snapshot_convert,0,1768,104
	.byte 0,2,132,14,128,3,76,147,1,148,2,72,157,12,158,11,76,5,72,14,68,155,9,156,10,68,153,7,154,8,68,151
	.byte 5,152,6,68,149,3,150,4,3,32,6,14,0,211,212,213,214,215,216,217,218,219,220,221,222,6,72,72,14,128,3,147
	.byte 1,148,2,149,3,150,4,151,5,152,6,153,7,154,8,155,9,156,10,157,12,158,11,5,72,14,0,0
frame .text.tkc_snapshot_counter,0,20,16
	.byte 0,0,0,0
frame .text.tkc_snapshot_from_words,0,340,16
	.byte 0,0,0,0
frame .text.tkc_snapshot_front,0,8,16
	.byte 0,0,0,0
frame .text.tkc_snapshot_get,0,428,16
	.byte 0,0,0,0
frame .text.tkc_snapshot_line,0,476,16
	.byte 0,0,0,0
frame .text.tkc_snapshot_step,0,448,16
	.byte 0,0,0,0
frame .text.tkc_snapshot_tai,0,8,16
	.byte 0,0,0,0
frame .text.tkc_snapshot_words,0,72,16
	.byte 0,0,0,0
frame .text.tkc_version,0,8,16
	.byte 0,0,0,0
frame .text.tkc_ntp_change_counter,0,268,80
	.byte 0,100,14,64,76,157,6,158,5,68,149,4,72,147,1,148,2,120,14,0,211,212,213,221,222,68,14,64,147,1,148,2
	.byte 149,4,157,6,158,5,2,96,14,0,211,212,213,221,222,68,14,64,147,1,148,2,149,4,157,6,158,5,108,14,0,211
	.byte 212,213,221,222
frame .text.tkc_ntp_next_second,0,132,60
	.byte 0,68,14,48,157,6,158,5,68,147,1,148,2,76,149,4,124,14,0,211,212,213,221,222,68,14,48,147,1,148,2,149
	.byte 4,157,6,158,5,108,14,0,211,212,213,221,222,0,0,0
frame .text.tkc_snapshot_reading,0,172,44
	.byte 0,96,14,64,157,8,158,7,68,149,3,150,4,80,147,1,148,2,76,151,6,2,104,14,0,211,212,213,214,215,221,222
frame .text.tkc_counter_finest,0,336,16
	.byte 0,0,0,0
frame .text.tkc_counter_from_hz,0,208,16
	.byte 0,0,0,0
frame .text.tkc_counter_from_khz,0,216,16
	.byte 0,0,0,0
frame .text.tkc_counter_new,0,124,16
	.byte 0,0,0,0
frame .text.tkc_clock_from_words,0,608,64
	.byte 0,2,204,14,32,149,4,76,147,1,148,2,108,14,0,211,212,213,72,14,32,147,1,148,2,149,4,3,0,1,14,0
	.byte 211,212,213,72,14,32,147,1,148,2,149,4,2,68,14,0,211,212,213,0
frame .text.tkc_clock_load,0,156,48
	.byte 0,68,14,144,1,68,147,2,76,157,4,158,3,2,112,14,0,211,221,222,68,14,144,1,147,2,157,4,158,3,80,14
	.byte 0,211,221,222
frame .text.tkc_clock_open,0,152,16
	.byte 0,0,0,0
frame .text.tkc_clock_open_at,0,208,16
	.byte 0,0,0,0
frame .text.tkc_ntp_open,0,252,16
	.byte 0,0,0,0
frame .text.tkc_ntp_open_at,0,308,16
	.byte 0,0,0,0

	.ident "rattle logic=dac8208d650f15bf3e2dc313a14fa4c783a3acf887bdfab66e1714b038d9e11b"

	.section .note.GNU-stack,"",%progbits
	.purgem function
	.purgem public
	.purgem jumps
	.purgem frame
