/* SPDX-License-Identifier: MIT OR Apache-2.0 */
/* Made by tools/release_text from a proved object file: don't change it. */

/* Begins a function in its own section. */
.macro function name,align,size
	.section ".text.\name","ax",%progbits
	.balign \align
	.type "\name",%function
	.size "\name",\size
"\name":
.endm
/* Begins one that other files can call. */
.macro public name,align,size
	.globl "\name"
	function "\name",\align,\size
.endm
/* Offsets in a section that the table at label 1 leads to. */
.macro jumps section,offsets:vararg
	.irp offset,\offsets
	.long "\section"+\offset-1b
	.endr
.endm
/* Begins the bytes on how to unwind a function, after the common ones at label 1: its section, its
   offset there, its size, and the size of the whole. */
.macro frame section,offset,size,length
	.long \length,.-1b,"\section"+\offset-.,\size
.endm
	.file "frames.o"
	.file "rattle"

function "tk_script::one_line::is_line",4,2764
	cmp x1,#0x20
	b.cs 3f
	cbz x1,2f
1:
	ldrb w8,[x0],#1
	mov w9,#0x1
	mov x10,#0x2400
	lsl x9,x9,x8
	movk x10,#0x4,lsl #32
	cmp w8,#0x22
	and x8,x9,x10
	ccmp x8,#0x0,#0x4,ls
	b.ne 27f
	subs x1,x1,#0x1
	b.ne 1b
2:
	mov w0,#0x1
	ret
3:
	mov x13,xzr
	add x9,x0,x1
	sub x10,x1,#0x40
	add x11,x0,#0x60
	add x12,x0,#0xa0
4:
	sub x14,x1,x13
	adrp x8,.rodata.cst16
	cmp x14,#0xbf
	b.ls 6f
	movi v0.16b,#0x22
	add x14,x0,x13
	movi v1.16b,#0xd
	ldp q2,q3,[x14]
	movi v6.16b,#0xa
	ldp q4,q5,[x14,#32]
	add x14,x13,#0x40
	cmeq v7.16b,v3.16b,v0.16b
	cmeq v16.16b,v2.16b,v0.16b
	cmeq v17.16b,v3.16b,v1.16b
	cmeq v18.16b,v2.16b,v1.16b
	cmeq v19.16b,v5.16b,v0.16b
	cmeq v0.16b,v4.16b,v0.16b
	cmeq v20.16b,v5.16b,v1.16b
	cmeq v1.16b,v4.16b,v1.16b
	cmeq v2.16b,v2.16b,v6.16b
	orr v7.16b,v7.16b,v17.16b
	cmeq v3.16b,v3.16b,v6.16b
	cmeq v4.16b,v4.16b,v6.16b
	orr v16.16b,v16.16b,v18.16b
	cmeq v5.16b,v5.16b,v6.16b
	orr v1.16b,v0.16b,v1.16b
	orr v17.16b,v19.16b,v20.16b
	ldr q0,[x8,:lo12:.rodata.cst16]
	orr v3.16b,v3.16b,v7.16b
	orr v2.16b,v2.16b,v16.16b
	orr v5.16b,v5.16b,v17.16b
	orr v1.16b,v4.16b,v1.16b
	and v3.16b,v3.16b,v0.16b
	and v2.16b,v2.16b,v0.16b
	and v1.16b,v1.16b,v0.16b
	and v4.16b,v5.16b,v0.16b
	addp v2.16b,v2.16b,v3.16b
	addp v1.16b,v1.16b,v4.16b
	addp v1.16b,v2.16b,v1.16b
	addp v1.16b,v1.16b,v1.16b
	fmov x15,d1
	cbnz x15,21f
	sub x15,x1,x14
	cmp x15,#0x80
	b.cc 11f
	add x8,x13,#0xc0
	add x13,x12,x13
5:
	movi v1.16b,#0x22
	movi v2.16b,#0xd
	movi v5.16b,#0xa
	ldp q6,q3,[x13,#-64]
	ldp q4,q7,[x13,#-32]
	ldp q16,q17,[x13]
	cmeq v18.16b,v6.16b,v1.16b
	cmeq v19.16b,v6.16b,v2.16b
	cmeq v20.16b,v4.16b,v1.16b
	cmeq v21.16b,v4.16b,v2.16b
	cmeq v22.16b,v7.16b,v1.16b
	cmeq v23.16b,v7.16b,v2.16b
	cmeq v24.16b,v17.16b,v1.16b
	cmeq v25.16b,v16.16b,v1.16b
	cmeq v26.16b,v17.16b,v2.16b
	cmeq v27.16b,v16.16b,v2.16b
	orr v18.16b,v18.16b,v19.16b
	orr v19.16b,v20.16b,v21.16b
	ldp q20,q21,[x13,#-96]
	orr v22.16b,v22.16b,v23.16b
	cmeq v23.16b,v3.16b,v1.16b
	cmeq v28.16b,v4.16b,v5.16b
	orr v25.16b,v25.16b,v27.16b
	cmeq v27.16b,v3.16b,v2.16b
	orr v24.16b,v24.16b,v26.16b
	cmeq v26.16b,v21.16b,v1.16b
	cmeq v4.16b,v7.16b,v5.16b
	cmeq v7.16b,v20.16b,v1.16b
	cmeq v1.16b,v16.16b,v5.16b
	cmeq v16.16b,v17.16b,v5.16b
	orr v17.16b,v23.16b,v27.16b
	cmeq v23.16b,v21.16b,v2.16b
	cmeq v27.16b,v20.16b,v2.16b
	orr v4.16b,v4.16b,v22.16b
	orr v2.16b,v28.16b,v19.16b
	cmeq v19.16b,v3.16b,v5.16b
	orr v3.16b,v16.16b,v24.16b
	orr v1.16b,v1.16b,v25.16b
	cmeq v16.16b,v6.16b,v5.16b
	orr v7.16b,v7.16b,v27.16b
	orr v22.16b,v26.16b,v23.16b
	cmeq v20.16b,v20.16b,v5.16b
	cmeq v21.16b,v21.16b,v5.16b
	orr v6.16b,v19.16b,v17.16b
	orr v5.16b,v16.16b,v18.16b
	orr v17.16b,v4.16b,v3.16b
	orr v18.16b,v2.16b,v1.16b
	orr v7.16b,v20.16b,v7.16b
	orr v16.16b,v21.16b,v22.16b
	orr v18.16b,v5.16b,v18.16b
	orr v17.16b,v6.16b,v17.16b
	orr v17.16b,v16.16b,v17.16b
	orr v18.16b,v7.16b,v18.16b
	and v18.16b,v18.16b,v0.16b
	and v17.16b,v17.16b,v0.16b
	addp v17.16b,v18.16b,v17.16b
	addp v17.16b,v17.16b,v17.16b
	addp v17.16b,v17.16b,v17.16b
	fmov w14,s17
	cbnz w14,24f
	sub x15,x15,#0x80
	add x8,x8,#0x80
	add x13,x13,#0x80
	cmp x15,#0x7f
	b.hi 5b
	sub x13,x8,#0x80
	cmp x15,#0x20
	b.cs 12f
	b 14f
6:
	cmp x14,#0x40
	b.cc 16f
7:
	movi v0.16b,#0x22
	add x15,x0,x13
	movi v5.16b,#0xd
	ldp q1,q2,[x15]
	movi v6.16b,#0xa
	ldp q4,q3,[x15,#32]
	cmeq v7.16b,v1.16b,v0.16b
	cmeq v16.16b,v2.16b,v0.16b
	cmeq v17.16b,v1.16b,v5.16b
	cmeq v18.16b,v2.16b,v5.16b
	cmeq v19.16b,v3.16b,v0.16b
	cmeq v20.16b,v3.16b,v5.16b
	cmeq v0.16b,v4.16b,v0.16b
	cmeq v5.16b,v4.16b,v5.16b
	orr v7.16b,v7.16b,v17.16b
	cmeq v17.16b,v2.16b,v6.16b
	orr v16.16b,v16.16b,v18.16b
	orr v18.16b,v19.16b,v20.16b
	cmeq v19.16b,v1.16b,v6.16b
	orr v0.16b,v0.16b,v5.16b
	cmeq v5.16b,v3.16b,v6.16b
	cmeq v6.16b,v4.16b,v6.16b
	orr v7.16b,v19.16b,v7.16b
	orr v16.16b,v17.16b,v16.16b
	orr v0.16b,v6.16b,v0.16b
	orr v5.16b,v5.16b,v18.16b
	orr v5.16b,v16.16b,v5.16b
	orr v6.16b,v7.16b,v0.16b
	ldr q0,[x8,:lo12:.rodata.cst16]
	and v6.16b,v6.16b,v0.16b
	and v5.16b,v5.16b,v0.16b
	addp v5.16b,v6.16b,v5.16b
	addp v5.16b,v5.16b,v5.16b
	addp v5.16b,v5.16b,v5.16b
	fmov w15,s5
	cbnz w15,8f
	sub x14,x14,#0x40
	add x13,x13,#0x40
	cmp x14,#0x3f
	b.hi 7b
	b 16f
8:
	cmp x14,#0x40
	b.cc 16f
9:
	movi v5.16b,#0x22
	movi v6.16b,#0xd
	movi v7.16b,#0xa
	cmeq v16.16b,v2.16b,v5.16b
	cmeq v17.16b,v1.16b,v5.16b
	cmeq v18.16b,v2.16b,v6.16b
	cmeq v19.16b,v1.16b,v6.16b
	cmeq v20.16b,v4.16b,v5.16b
	cmeq v21.16b,v4.16b,v6.16b
	cmeq v5.16b,v3.16b,v5.16b
	cmeq v6.16b,v3.16b,v6.16b
	cmeq v1.16b,v1.16b,v7.16b
	orr v16.16b,v16.16b,v18.16b
	cmeq v2.16b,v2.16b,v7.16b
	cmeq v4.16b,v4.16b,v7.16b
	orr v17.16b,v17.16b,v19.16b
	orr v18.16b,v20.16b,v21.16b
	cmeq v3.16b,v3.16b,v7.16b
	orr v5.16b,v5.16b,v6.16b
	orr v2.16b,v2.16b,v16.16b
	orr v1.16b,v1.16b,v17.16b
	orr v4.16b,v4.16b,v18.16b
	orr v3.16b,v3.16b,v5.16b
	and v2.16b,v2.16b,v0.16b
	and v1.16b,v1.16b,v0.16b
	and v4.16b,v4.16b,v0.16b
	and v3.16b,v3.16b,v0.16b
	addp v1.16b,v1.16b,v2.16b
	addp v2.16b,v4.16b,v3.16b
	addp v1.16b,v1.16b,v2.16b
	addp v1.16b,v1.16b,v1.16b
	fmov x15,d1
	cbnz x15,26f
	sub x14,x10,x13
	neg x15,x13
	add x13,x11,x13
10:
	subs x16,x14,#0x40
	b.cc 15f
	movi v5.16b,#0x22
	movi v6.16b,#0xd
	sub x15,x15,#0x40
	ldp q1,q2,[x13,#-32]
	movi v7.16b,#0xa
	ldp q4,q3,[x13],#64
	mov x14,x16
	cmeq v16.16b,v1.16b,v5.16b
	cmeq v17.16b,v2.16b,v5.16b
	cmeq v18.16b,v1.16b,v6.16b
	cmeq v19.16b,v2.16b,v6.16b
	cmeq v20.16b,v3.16b,v5.16b
	cmeq v21.16b,v3.16b,v6.16b
	cmeq v5.16b,v4.16b,v5.16b
	cmeq v6.16b,v4.16b,v6.16b
	orr v16.16b,v16.16b,v18.16b
	cmeq v18.16b,v2.16b,v7.16b
	orr v17.16b,v17.16b,v19.16b
	orr v19.16b,v20.16b,v21.16b
	cmeq v20.16b,v1.16b,v7.16b
	orr v5.16b,v5.16b,v6.16b
	cmeq v6.16b,v3.16b,v7.16b
	cmeq v7.16b,v4.16b,v7.16b
	orr v16.16b,v20.16b,v16.16b
	orr v17.16b,v18.16b,v17.16b
	orr v5.16b,v7.16b,v5.16b
	orr v6.16b,v6.16b,v19.16b
	orr v6.16b,v17.16b,v6.16b
	orr v5.16b,v16.16b,v5.16b
	and v5.16b,v5.16b,v0.16b
	and v6.16b,v6.16b,v0.16b
	addp v5.16b,v5.16b,v6.16b
	addp v5.16b,v5.16b,v5.16b
	addp v5.16b,v5.16b,v5.16b
	fmov w17,s5
	cbz w17,10b
	neg x13,x15
	b 9b
11:
	mov x13,x14
	cmp x15,#0x20
	b.cc 14f
12:
	sub x8,x1,x13
13:
	movi v1.16b,#0x22
	movi v2.16b,#0xd
	add x14,x0,x13
	ldp q3,q4,[x14]
	movi v5.16b,#0xa
	cmeq v6.16b,v3.16b,v1.16b
	cmeq v7.16b,v3.16b,v2.16b
	cmeq v1.16b,v4.16b,v1.16b
	cmeq v2.16b,v4.16b,v2.16b
	orr v6.16b,v6.16b,v7.16b
	orr v1.16b,v1.16b,v2.16b
	cmeq v2.16b,v3.16b,v5.16b
	cmeq v3.16b,v4.16b,v5.16b
	orr v1.16b,v3.16b,v1.16b
	orr v2.16b,v2.16b,v6.16b
	and v2.16b,v2.16b,v0.16b
	and v1.16b,v1.16b,v0.16b
	addp v1.16b,v2.16b,v1.16b
	addp v1.16b,v1.16b,v1.16b
	addp v1.16b,v1.16b,v1.16b
	fmov w15,s1
	cbnz w15,20f
	sub x8,x8,#0x20
	add x13,x13,#0x20
	cmp x8,#0x1f
	b.hi 13b
14:
	movi v1.16b,#0x22
	movi v2.16b,#0xd
	movi v5.16b,#0xa
	ldp q3,q4,[x9,#-32]
	cmeq v6.16b,v3.16b,v1.16b
	cmeq v7.16b,v3.16b,v2.16b
	cmeq v1.16b,v4.16b,v1.16b
	cmeq v2.16b,v4.16b,v2.16b
	orr v6.16b,v6.16b,v7.16b
	orr v1.16b,v1.16b,v2.16b
	cmeq v2.16b,v3.16b,v5.16b
	cmeq v3.16b,v4.16b,v5.16b
	orr v1.16b,v3.16b,v1.16b
	orr v2.16b,v2.16b,v6.16b
	and v2.16b,v2.16b,v0.16b
	and v0.16b,v1.16b,v0.16b
	addp v0.16b,v2.16b,v0.16b
	b 19f
15:
	mov w13,#0x40
	sub x13,x13,x15
16:
	cmp x14,#0x20
	b.cc 18f
	sub x14,x1,x13
17:
	movi v0.16b,#0x22
	movi v1.16b,#0xd
	add x15,x0,x13
	ldp q2,q3,[x15]
	movi v4.16b,#0xa
	cmeq v5.16b,v2.16b,v0.16b
	cmeq v6.16b,v2.16b,v1.16b
	cmeq v0.16b,v3.16b,v0.16b
	cmeq v1.16b,v3.16b,v1.16b
	orr v5.16b,v5.16b,v6.16b
	orr v0.16b,v0.16b,v1.16b
	cmeq v1.16b,v2.16b,v4.16b
	cmeq v2.16b,v3.16b,v4.16b
	orr v0.16b,v2.16b,v0.16b
	orr v1.16b,v1.16b,v5.16b
	ldr q2,[x8,:lo12:.rodata.cst16]
	and v1.16b,v1.16b,v2.16b
	and v0.16b,v0.16b,v2.16b
	addp v0.16b,v1.16b,v0.16b
	addp v0.16b,v0.16b,v0.16b
	addp v0.16b,v0.16b,v0.16b
	fmov w15,s0
	cbnz w15,20f
	sub x14,x14,#0x20
	add x13,x13,#0x20
	cmp x14,#0x1f
	b.hi 17b
18:
	movi v0.16b,#0x22
	movi v1.16b,#0xd
	movi v4.16b,#0xa
	ldp q2,q3,[x9,#-32]
	cmeq v5.16b,v2.16b,v0.16b
	cmeq v6.16b,v2.16b,v1.16b
	cmeq v0.16b,v3.16b,v0.16b
	cmeq v1.16b,v3.16b,v1.16b
	orr v5.16b,v5.16b,v6.16b
	orr v0.16b,v0.16b,v1.16b
	cmeq v1.16b,v2.16b,v4.16b
	cmeq v2.16b,v3.16b,v4.16b
	orr v0.16b,v2.16b,v0.16b
	orr v1.16b,v1.16b,v5.16b
	ldr q2,[x8,:lo12:.rodata.cst16]
	and v1.16b,v1.16b,v2.16b
	and v0.16b,v0.16b,v2.16b
	addp v0.16b,v1.16b,v0.16b
19:
	addp v0.16b,v0.16b,v0.16b
	sub x14,x13,x1
	add x14,x14,#0x20
	addp v0.16b,v0.16b,v0.16b
	fmov w8,s0
	lsr x15,x8,x14
	mov x8,x1
	mov x14,x8
	cbnz x15,21f
	b 23f
20:
	add x14,x13,#0x20
21:
	add x8,x0,x13
22:
	rbit x13,x15
	mov w17,#0x1
	mov x18,#0x2400
	movk x18,#0x4,lsl #32
	clz x13,x13
	ldrb w16,[x8,x13]
	lsl x17,x17,x16
	cmp w16,#0x22
	and x16,x17,x18
	ccmp x16,#0x0,#0x4,ls
	b.ne 27f
	mov w16,#0x1
	lsl x13,x16,x13
	bics x15,x15,x13
	b.ne 22b
23:
	cmp x14,x1
	mov w8,#0x1
	mov x13,x14
	b.cc 4b
	b 28f
24:
	umov w14,v16.b[0]
	umov w2,v7.b[0]
	umov w17,v6.b[0]
	umov w15,v5.b[0]
	umov w18,v16.b[1]
	umov w16,v7.b[1]
	umov w13,v6.b[1]
	fmov s17,w14
	umov w14,v5.b[1]
	fmov s18,w2
	fmov s19,w17
	fmov s20,w15
	umov w15,v16.b[3]
	mov v17.b[1],w18
	umov w18,v16.b[2]
	mov v18.b[1],w16
	umov w16,v7.b[2]
	mov v19.b[1],w13
	umov w13,v6.b[2]
	mov v20.b[1],w14
	umov w14,v5.b[2]
	mov v17.b[2],w18
	mov v18.b[2],w16
	umov w16,v7.b[3]
	mov v19.b[2],w13
	umov w13,v6.b[3]
	mov v20.b[2],w14
	umov w14,v5.b[3]
	mov v17.b[3],w15
	umov w15,v16.b[4]
	mov v18.b[3],w16
	umov w16,v7.b[4]
	mov v19.b[3],w13
	umov w13,v6.b[4]
	mov v20.b[3],w14
	umov w14,v5.b[4]
	mov v17.b[4],w15
	umov w15,v16.b[5]
	mov v18.b[4],w16
	umov w16,v7.b[5]
	mov v19.b[4],w13
	umov w13,v6.b[5]
	mov v20.b[4],w14
	umov w14,v5.b[5]
	mov v17.b[5],w15
	umov w15,v16.b[6]
	mov v18.b[5],w16
	umov w16,v7.b[6]
	mov v19.b[5],w13
	umov w13,v6.b[6]
	mov v20.b[5],w14
	umov w14,v5.b[6]
	mov v17.b[6],w15
	umov w15,v16.b[7]
	mov v18.b[6],w16
	umov w16,v7.b[7]
	mov v19.b[6],w13
	umov w13,v6.b[7]
	mov v20.b[6],w14
	umov w14,v5.b[7]
	mov v17.b[7],w15
	umov w15,v16.b[8]
	mov v18.b[7],w16
	umov w16,v7.b[8]
	mov v19.b[7],w13
	umov w13,v6.b[8]
	mov v20.b[7],w14
	umov w14,v5.b[8]
	mov v17.b[8],w15
	umov w15,v16.b[9]
	mov v18.b[8],w16
	umov w16,v7.b[9]
	mov v19.b[8],w13
	umov w13,v6.b[9]
	mov v20.b[8],w14
	umov w14,v5.b[9]
	mov v17.b[9],w15
	umov w15,v16.b[10]
	mov v18.b[9],w16
	umov w16,v7.b[10]
	mov v19.b[9],w13
	umov w13,v6.b[10]
	mov v20.b[9],w14
	umov w14,v5.b[10]
	mov v17.b[10],w15
	umov w15,v16.b[11]
	mov v18.b[10],w16
	umov w16,v7.b[11]
	mov v19.b[10],w13
	umov w13,v6.b[11]
	mov v20.b[10],w14
	umov w14,v5.b[11]
	mov v17.b[11],w15
	umov w15,v16.b[12]
	mov v18.b[11],w16
	umov w16,v7.b[12]
	mov v19.b[11],w13
	umov w13,v6.b[12]
	mov v20.b[11],w14
	umov w14,v5.b[12]
	mov v17.b[12],w15
	umov w15,v16.b[13]
	mov v18.b[12],w16
	umov w16,v7.b[13]
	mov v19.b[12],w13
	umov w13,v6.b[13]
	mov v20.b[12],w14
	umov w14,v5.b[13]
	mov v17.b[13],w15
	umov w15,v16.b[14]
	mov v18.b[13],w16
	umov w16,v7.b[14]
	mov v19.b[13],w13
	umov w13,v6.b[14]
	mov v20.b[13],w14
	umov w14,v5.b[14]
	mov v17.b[14],w15
	umov w15,v16.b[15]
	mov v18.b[14],w16
	umov w16,v7.b[15]
	mov v19.b[14],w13
	umov w13,v6.b[15]
	mov v20.b[14],w14
	umov w14,v5.b[15]
	mov v17.b[15],w15
	mov v18.b[15],w16
	mov v19.b[15],w13
	mov v20.b[15],w14
	sub x14,x8,#0x40
	shl v6.16b,v17.16b,#7
	shl v5.16b,v18.16b,#7
	shl v7.16b,v19.16b,#7
	shl v16.16b,v20.16b,#7
	cmlt v6.16b,v6.16b,#0
	cmlt v5.16b,v5.16b,#0
	cmlt v7.16b,v7.16b,#0
	cmlt v16.16b,v16.16b,#0
	and v6.16b,v6.16b,v0.16b
	and v5.16b,v5.16b,v0.16b
	and v7.16b,v7.16b,v0.16b
	and v16.16b,v16.16b,v0.16b
	addp v5.16b,v5.16b,v6.16b
	addp v6.16b,v16.16b,v7.16b
	addp v5.16b,v5.16b,v6.16b
	addp v5.16b,v5.16b,v5.16b
	fmov x15,d5
	cbz x15,25f
	sub x13,x8,#0x80
	b 21b
25:
	umov w15,v4.b[0]
	umov w3,v2.b[0]
	umov w18,v3.b[0]
	umov w16,v1.b[0]
	umov w2,v4.b[1]
	umov w17,v2.b[1]
	umov w13,v3.b[1]
	fmov s5,w15
	umov w15,v1.b[1]
	fmov s6,w3
	fmov s7,w18
	fmov s16,w16
	umov w16,v4.b[3]
	mov v5.b[1],w2
	umov w2,v4.b[2]
	mov v6.b[1],w17
	umov w17,v2.b[2]
	mov v7.b[1],w13
	umov w13,v3.b[2]
	mov v16.b[1],w15
	umov w15,v1.b[2]
	mov v5.b[2],w2
	mov v6.b[2],w17
	umov w17,v2.b[3]
	mov v7.b[2],w13
	umov w13,v3.b[3]
	mov v16.b[2],w15
	umov w15,v1.b[3]
	mov v5.b[3],w16
	umov w16,v4.b[4]
	mov v6.b[3],w17
	umov w17,v2.b[4]
	mov v7.b[3],w13
	umov w13,v3.b[4]
	mov v16.b[3],w15
	umov w15,v1.b[4]
	mov v5.b[4],w16
	umov w16,v4.b[5]
	mov v6.b[4],w17
	umov w17,v2.b[5]
	mov v7.b[4],w13
	umov w13,v3.b[5]
	mov v16.b[4],w15
	umov w15,v1.b[5]
	mov v5.b[5],w16
	umov w16,v4.b[6]
	mov v6.b[5],w17
	umov w17,v2.b[6]
	mov v7.b[5],w13
	umov w13,v3.b[6]
	mov v16.b[5],w15
	umov w15,v1.b[6]
	mov v5.b[6],w16
	umov w16,v4.b[7]
	mov v6.b[6],w17
	umov w17,v2.b[7]
	mov v7.b[6],w13
	umov w13,v3.b[7]
	mov v16.b[6],w15
	umov w15,v1.b[7]
	mov v5.b[7],w16
	umov w16,v4.b[8]
	mov v6.b[7],w17
	umov w17,v2.b[8]
	mov v7.b[7],w13
	umov w13,v3.b[8]
	mov v16.b[7],w15
	umov w15,v1.b[8]
	mov v5.b[8],w16
	umov w16,v4.b[9]
	mov v6.b[8],w17
	umov w17,v2.b[9]
	mov v7.b[8],w13
	umov w13,v3.b[9]
	mov v16.b[8],w15
	umov w15,v1.b[9]
	mov v5.b[9],w16
	umov w16,v4.b[10]
	mov v6.b[9],w17
	umov w17,v2.b[10]
	mov v7.b[9],w13
	umov w13,v3.b[10]
	mov v16.b[9],w15
	umov w15,v1.b[10]
	mov v5.b[10],w16
	umov w16,v4.b[11]
	mov v6.b[10],w17
	umov w17,v2.b[11]
	mov v7.b[10],w13
	umov w13,v3.b[11]
	mov v16.b[10],w15
	umov w15,v1.b[11]
	mov v5.b[11],w16
	umov w16,v4.b[12]
	mov v6.b[11],w17
	umov w17,v2.b[12]
	mov v7.b[11],w13
	umov w13,v3.b[12]
	mov v16.b[11],w15
	umov w15,v1.b[12]
	mov v5.b[12],w16
	umov w16,v4.b[13]
	mov v6.b[12],w17
	umov w17,v2.b[13]
	mov v7.b[12],w13
	umov w13,v3.b[13]
	mov v16.b[12],w15
	umov w15,v1.b[13]
	mov v5.b[13],w16
	umov w16,v4.b[14]
	mov v6.b[13],w17
	umov w17,v2.b[14]
	mov v7.b[13],w13
	umov w13,v3.b[14]
	mov v16.b[13],w15
	umov w15,v1.b[14]
	mov v5.b[14],w16
	umov w16,v4.b[15]
	mov v6.b[14],w17
	umov w17,v2.b[15]
	mov v7.b[14],w13
	umov w13,v3.b[15]
	mov v16.b[14],w15
	umov w15,v1.b[15]
	mov v5.b[15],w16
	mov v6.b[15],w17
	mov v7.b[15],w13
	mov v16.b[15],w15
	shl v2.16b,v5.16b,#7
	shl v1.16b,v6.16b,#7
	shl v3.16b,v7.16b,#7
	shl v4.16b,v16.16b,#7
	cmlt v2.16b,v2.16b,#0
	cmlt v1.16b,v1.16b,#0
	cmlt v3.16b,v3.16b,#0
	cmlt v4.16b,v4.16b,#0
	and v2.16b,v2.16b,v0.16b
	and v1.16b,v1.16b,v0.16b
	and v4.16b,v4.16b,v0.16b
	and v0.16b,v3.16b,v0.16b
	addp v1.16b,v1.16b,v2.16b
	addp v0.16b,v4.16b,v0.16b
	addp v0.16b,v1.16b,v0.16b
	addp v0.16b,v0.16b,v0.16b
	fmov x15,d0
	mov x13,x14
	mov x14,x8
	cbnz x15,21b
	b 23b
26:
	add x14,x13,#0x40
	b 21b
27:
	mov w8,wzr
28:
	mov w0,w8
	ret

function "tk_script::one_line::row_in",4,4236
	stp x29,x30,[sp,#-96]!
	stp x28,x27,[sp,#16]
	mov x29,sp
	stp x26,x25,[sp,#32]
	stp x24,x23,[sp,#48]
	stp x22,x21,[sp,#64]
	stp x20,x19,[sp,#80]
	sub sp,sp,#0x320
	movi v0.2d,#0x0
	mov x20,x1
	mov x19,x0
	add x0,sp,#0x10
	mov x1,x2
	mov x2,x3
	str xzr,[sp,#304]
	stp q0,q0,[sp,#16]
	stp q0,q0,[sp,#48]
	stp q0,q0,[sp,#80]
	stp q0,q0,[sp,#112]
	stp q0,q0,[sp,#144]
	stp q0,q0,[sp,#176]
	stp q0,q0,[sp,#208]
	stp q0,q0,[sp,#240]
	stp q0,q0,[sp,#272]
	bl "tk_script::plain::Lines::of"
	movi v0.2d,#0x0
	ldp x24,x23,[sp,#16]
	ldp x21,x9,[sp,#32]
	ldr x26,[sp,#288]
	ldp x22,x28,[sp,#64]
	stp xzr,xzr,[sp,#320]
	stp q0,q0,[sp,#336]
	stp q0,q0,[sp,#368]
	stp q0,q0,[sp,#400]
	stp q0,q0,[sp,#432]
	cbz x26,2f
	mov w24,wzr
	mov x23,xzr
	cmp x9,#0x5
	mov w8,#0x1
	mov w25,#0x3
	b.le 3f
1:
	cmp x9,#0x6
	b.eq 4f
	cmp x9,#0x7
	b.eq 5f
	cmp x9,#0x8
	b.ne 13f
	ldr w8,[x21]
	mov w9,#0x6461
	movk w9,#0x746a,lsl #16
	cmp w8,w9
	b.ne 16f
	adrp x2,.rodata.cst8+32
	add x2,x2,:lo12:.rodata.cst8+32
	mov x0,x21
	mov w1,#0x8
	bl .Lcore.cmp.slices.groups_equal
	cbz w0,16f
	movi v0.2d,#0x0
	cmp x26,#0xc
	stp q0,q0,[x29,#-48]
	b.ne 28f
	sub x0,x29,#0x30
	add x2,sp,#0x10
	mov x1,x20
	mov w3,#0x1
	bl .Ltk_script.fields.number_at
	ldurb w8,[x29,#-48]
	ldur x25,[x29,#-40]
	cbz w8,37f
	ldur x20,[x29,#-32]
	ldurb w23,[x29,#-24]
	b 29f
2:
	mov x0,x24
	mov x1,x23
	bl "memchr::bytes::memchr"
	and w8,w0,#0xff
	mov x21,x24
	cmp w8,#0x1
	csel x9,x1,x23,eq
	mov w24,wzr
	mov x23,xzr
	cmp x9,#0x5
	mov w8,#0x1
	mov w25,#0x3
	b.gt 1b
3:
	cmp x9,#0x3
	b.eq 6f
	cmp x9,#0x4
	b.ne 13f
	ldrb w22,[x21,#2]
	ldrb w25,[x21]
	ldrb w27,[x21,#1]
	ldrb w28,[x21,#3]
	cmp w22,#0x65
	b.ne 10f
	cmp w25,#0x73
	b.ne 10f
	cmp w27,#0x74
	b.ne 10f
	cmp w28,#0x70
	b.ne 10f
	adrp x2,.rodata.cst4
	add x2,x2,:lo12:.rodata.cst4
	mov x0,x21
	mov w1,#0x4
	bl .Lcore.cmp.slices.groups_equal
	cbz w0,11f
	add x0,sp,#0x190
	add x2,sp,#0x10
	mov x1,x20
	bl .Ltk_script.row.read_timed
	ldp x9,x25,[sp,#408]
	ldrb w8,[sp,#400]
	ldrb w23,[sp,#424]
	cbnz w8,8f
	add x12,sp,#0x140
	ldrb w10,[sp,#431]
	mov x15,xzr
	ldurh w11,[x12,#109]
	mov x21,x25
	mov w26,w23
	mov x25,x9
	mov w23,#0x2
	orr w10,w11,w10,lsl #16
	ldur w11,[x12,#105]
	b 35f
4:
	ldrb w25,[x21]
	ldrb w28,[x21,#1]
	ldrb w27,[x21,#2]
	ldrb w22,[x21,#3]
	cmp w25,#0x75
	b.ne 7f
	cmp w28,#0x70
	b.ne 7f
	cmp w27,#0x64
	b.ne 7f
	cmp w22,#0x61
	b.ne 7f
	adrp x2,.rodata..Lstatic.1
	add x2,x2,:lo12:.rodata..Lstatic.1
	mov x0,x21
	mov w1,#0x6
	bl .Lcore.cmp.slices.groups_equal
	cbz w0,7f
	movi v0.2d,#0x0
	cmp x26,#0x2
	stp q0,q0,[x29,#-48]
	b.ne 24f
	sub x0,x29,#0x30
	add x2,sp,#0x10
	mov x1,x20
	mov w3,#0x1
	bl .Ltk_script.fields.number_at
	ldp x11,x20,[x29,#-40]
	ldurb w8,[x29,#-48]
	ldurb w15,[x29,#-24]
	b 25f
5:
	ldrb w25,[x21]
	ldrb w28,[x21,#1]
	ldrb w27,[x21,#2]
	ldrb w22,[x21,#3]
	cmp w25,#0x73
	b.ne 9f
	cmp w28,#0x75
	b.ne 9f
	cmp w27,#0x73
	b.ne 9f
	cmp w22,#0x70
	b.ne 9f
	adrp x2,.rodata..Lstatic.8
	add x2,x2,:lo12:.rodata..Lstatic.8
	mov x0,x21
	mov w1,#0x7
	bl .Lcore.cmp.slices.groups_equal
	cbz w0,9f
	movi v0.2d,#0x0
	cmp x26,#0x2
	stp q0,q0,[x29,#-48]
	b.ne 26f
	sub x0,x29,#0x30
	add x2,sp,#0x10
	mov x1,x20
	mov w3,#0x1
	bl .Ltk_script.fields.number_at
	ldp x15,x20,[x29,#-40]
	ldurb w8,[x29,#-48]
	ldurb w17,[x29,#-24]
	b 27f
6:
	ldrb w8,[x21]
	cmp w8,#0x67
	b.eq 14f
	cmp w8,#0x73
	b.ne 15f
	ldrb w8,[x21,#1]
	cmp w8,#0x65
	b.ne 15f
	ldrb w8,[x21,#2]
	cmp w8,#0x74
	b.ne 15f
	add x0,sp,#0x1b0
	add x2,sp,#0x10
	mov x1,x20
	bl .Ltk_script.row.read_timed
	ldp x9,x25,[sp,#440]
	ldrb w8,[sp,#432]
	ldrb w23,[sp,#456]
	cbz w8,43f
	mov x11,xzr
	mov x21,xzr
	mov w26,wzr
	mov x15,x9
	b 44f
7:
	mov w24,wzr
	mov x23,xzr
	cmp w25,#0x72
	mov w8,#0x1
	mov w25,#0x3
	b.ne 13f
	cmp w28,#0x65
	b.ne 13f
	cmp w27,#0x73
	b.ne 13f
	cmp w22,#0x75
	b.ne 13f
	adrp x2,.rodata..Lstatic.9
	add x2,x2,:lo12:.rodata..Lstatic.9
	mov x0,x21
	mov w1,#0x6
	bl .Lcore.cmp.slices.groups_equal
	cbz w0,16f
	add x0,sp,#0x150
	add x2,sp,#0x10
	mov x1,x20
	bl .Ltk_script.row.read_timed
	ldp x9,x25,[sp,#344]
	ldrb w8,[sp,#336]
	ldrb w23,[sp,#360]
	cbz w8,34f
8:
	mov x11,xzr
	mov x21,xzr
	mov w26,wzr
	mov x15,x9
	b 36f
9:
	mov w24,wzr
	mov x23,xzr
	cmp w25,#0x63
	mov w8,#0x1
	mov w25,#0x3
	b.ne 13f
	cmp w28,#0x6f
	b.ne 13f
	cmp w27,#0x75
	b.ne 13f
	cmp w22,#0x6e
	b.ne 13f
	adrp x2,.rodata..Lstatic.10
	add x2,x2,:lo12:.rodata..Lstatic.10
	mov x0,x21
	mov w1,#0x7
	bl .Lcore.cmp.slices.groups_equal
	cbz w0,16f
	movi v0.2d,#0x0
	cmp x26,#0x6
	stur xzr,[x29,#-56]
	stp q0,q0,[x29,#-112]
	stp q0,q0,[x29,#-48]
	b.ne 30f
	sub x0,x29,#0x30
	add x2,sp,#0x10
	mov x1,x20
	mov w3,#0x1
	bl .Ltk_script.fields.number_at
	ldp x22,x8,[x29,#-40]
	ldurb w9,[x29,#-48]
	ldurb w23,[x29,#-24]
	stp x9,x22,[x29,#-80]
	stur x8,[x29,#-64]
	sturb w23,[x29,#-56]
	cbz x9,41f
	mov x20,x8
	b 31f
10:
	cmp w22,#0x65
	b.ne 11f
	cmp w25,#0x66
	b.ne 11f
	cmp w27,#0x72
	b.ne 11f
	cmp w28,#0x71
	b.ne 11f
	adrp x2,.rodata.cst4+4
	add x2,x2,:lo12:.rodata.cst4+4
	mov x0,x21
	mov w1,#0x4
	bl .Lcore.cmp.slices.groups_equal
	cbz w0,11f
	movi v0.2d,#0x0
	cmp x26,#0x3
	stp q0,q0,[x29,#-80]
	stp q0,q0,[x29,#-48]
	b.ne 22f
	sub x0,x29,#0x30
	add x2,sp,#0x10
	mov x1,x20
	mov w3,#0x1
	bl .Ltk_script.fields.number_at
	ldurb w8,[x29,#-48]
	ldur x25,[x29,#-40]
	cbnz w8,12f
	sub x0,x29,#0x50
	add x2,sp,#0x10
	mov x1,x20
	mov w3,#0x2
	bl .Ltk_script.fields.signed_at
	ldurb w8,[x29,#-80]
	ldur x21,[x29,#-72]
	cbnz w8,46f
	mov x22,xzr
	mov x9,xzr
	mov w24,wzr
	mov x10,xzr
	mov x12,xzr
	mov x13,xzr
	mov x14,xzr
	mov w15,wzr
	mov x16,xzr
	mov w26,wzr
	mov x11,xzr
	mov w23,#0x3
	b 20f
11:
	mov w24,wzr
	mov x23,xzr
	cmp w25,#0x74
	mov w8,#0x1
	mov w25,#0x3
	b.ne 13f
	cmp w27,#0x69
	b.ne 13f
	cmp w22,#0x63
	b.ne 13f
	cmp w28,#0x6b
	b.ne 13f
	adrp x2,.rodata.cst4+8
	add x2,x2,:lo12:.rodata.cst4+8
	mov x0,x21
	mov w1,#0x4
	bl .Lcore.cmp.slices.groups_equal
	cbz w0,16f
	movi v0.2d,#0x0
	cmp x26,#0x3
	stp q0,q0,[x29,#-80]
	stp q0,q0,[x29,#-48]
	b.ne 22f
	sub x0,x29,#0x30
	add x2,sp,#0x10
	mov x1,x20
	mov w3,#0x1
	bl .Ltk_script.fields.number_at
	ldurb w8,[x29,#-48]
	ldur x25,[x29,#-40]
	cbz w8,45f
12:
	ldur x20,[x29,#-32]
	ldurb w23,[x29,#-24]
	b 23f
13:
	mov x21,x23
	mov x26,x23
	mov x22,x23
	mov x9,x23
	mov x10,x23
	mov x12,x23
	mov x13,x23
	mov x14,x23
	b 18f
14:
	ldrb w8,[x21,#1]
	cmp w8,#0x65
	b.ne 15f
	ldrb w8,[x21,#2]
	cmp w8,#0x74
	b.ne 15f
	movi v0.2d,#0x0
	sub x8,x26,#0x3
	cmp x8,#0x1
	stp q0,q0,[x29,#-80]
	b.hi 38f
	sub x0,x29,#0x50
	add x2,sp,#0x10
	mov x1,x20
	mov w3,#0x1
	bl .Ltk_script.fields.number_at
	ldurb w8,[x29,#-80]
	ldur x25,[x29,#-72]
	mov x21,xzr
	cbz w8,48f
	ldur x9,[x29,#-64]
	ldurb w23,[x29,#-56]
	mov w26,wzr
	mov x11,xzr
	mov w15,w25
	mov w8,#0x1
	mov x25,x9
	b 44f
15:
	ldrb w8,[x21]
	cmp w8,#0x74
	b.ne 16f
	ldrb w8,[x21,#1]
	cmp w8,#0x61
	b.ne 16f
	ldrb w8,[x21,#2]
	cmp w8,#0x69
	b.ne 16f
	add x0,sp,#0x170
	add x2,sp,#0x10
	mov x1,x20
	bl .Ltk_script.row.read_valued
	ldp x25,x21,[sp,#376]
	mov x22,xzr
	ldrb w8,[sp,#368]
	mov x9,xzr
	mov w24,wzr
	mov x10,xzr
	mov x12,xzr
	mov x13,xzr
	mov x14,xzr
	cbz w8,40f
	ldrb w23,[sp,#392]
	mov x16,xzr
	mov w26,wzr
	mov x11,xzr
	mov w15,w25
	mov x25,x21
	mov x21,xzr
	b 20f
16:
	mov x23,xzr
	mov x21,xzr
	mov x26,xzr
	mov x22,xzr
	mov x9,xzr
	mov w24,wzr
	mov x10,xzr
	mov x12,xzr
	mov x13,xzr
	mov x14,xzr
	mov w8,#0x1
17:
	mov w25,#0x3
18:
	lsr x11,x26,#8
	lsr x15,x23,#8
19:
	lsl x16,x15,#8
	mov w15,w25
	mov x25,x20
20:
	bfi x26,x11,#8,#56
21:
	mov w8,w8
	and x11,x15,#0xff
	stp x21,x26,[x19,#32]
	stp x8,x11,[x19]
	and x8,x23,#0xff
	orr x8,x16,x8
	stp x22,x9,[x19,#48]
	stp x25,x8,[x19,#16]
	stp w24,wzr,[x19,#64]
	stp x10,x12,[x19,#72]
	stp x13,x14,[x19,#88]
	add sp,sp,#0x320
	ldp x20,x19,[sp,#80]
	ldp x22,x21,[sp,#64]
	ldp x24,x23,[sp,#48]
	ldp x26,x25,[sp,#32]
	ldp x28,x27,[sp,#16]
	ldp x29,x30,[sp],#96
	ret
22:
	mov w23,wzr
	mov w25,#0x4
23:
	mov x22,xzr
	mov x9,xzr
	mov w24,wzr
	mov x10,xzr
	mov x12,xzr
	mov x13,xzr
	mov x14,xzr
	mov x16,xzr
	mov x21,xzr
	mov w26,wzr
	mov x11,xzr
	mov w8,#0x1
	mov w15,w25
	mov x25,x20
	b 20b
24:
	mov w15,wzr
	mov w8,#0x1
	mov w11,#0x4
25:
	cmp w8,#0x0
	mov x22,xzr
	mov x9,xzr
	mov w24,wzr
	mov x10,xzr
	mov x12,xzr
	mov x13,xzr
	mov x14,xzr
	mov x16,xzr
	mov x21,xzr
	mov x26,xzr
	csel x25,x11,x20,eq
	csel w23,wzr,w15,eq
	csel w15,wzr,w11,eq
	b 21b
26:
	mov w17,wzr
	mov w8,#0x1
	mov w15,#0x4
27:
	cmp w8,#0x0
	mov w18,#0x7
	mov x22,xzr
	mov x9,xzr
	mov w24,wzr
	mov x10,xzr
	mov x12,xzr
	mov x13,xzr
	mov x14,xzr
	mov x16,xzr
	mov x21,xzr
	mov w26,wzr
	mov x11,xzr
	csel w23,w18,w17,eq
	csel x25,x15,x20,eq
	csel w15,wzr,w15,eq
	b 20b
28:
	mov x23,xzr
	mov w25,#0x4
29:
	mov x21,xzr
	mov x26,xzr
	mov x22,xzr
	mov x9,xzr
	mov w24,wzr
	mov x10,xzr
	mov x12,xzr
	mov x13,xzr
	mov x14,xzr
	mov w8,#0x1
	b 18b
30:
	mov w23,wzr
	mov w22,#0x4
31:
	add x16,sp,#0x140
	mov x21,xzr
	mov w26,wzr
	mov x11,xzr
	str w23,[sp,#320]
	mov w8,#0x1
	stur xzr,[x16,#4]
	mov w25,w22
32:
	str wzr,[sp,#332]
33:
	ldrb w14,[sp,#327]
	ldurh w15,[x16,#5]
	mov x22,xzr
	mov x9,xzr
	mov w24,wzr
	mov x10,xzr
	orr w14,w15,w14,lsl #16
	ldur w15,[x16,#1]
	mov x12,xzr
	mov x13,xzr
	orr x15,x15,x14,lsl #32
	mov x14,xzr
	b 19b
34:
	add x12,sp,#0x140
	ldrb w10,[sp,#367]
	mov x15,xzr
	ldurh w11,[x12,#45]
	mov x21,x25
	mov w26,w23
	mov x25,x9
	mov w23,#0x8
	orr w10,w11,w10,lsl #16
	ldur w11,[x12,#41]
35:
	orr x11,x11,x10,lsl #32
36:
	mov x22,xzr
	mov x9,xzr
	mov w24,wzr
	mov x10,xzr
	mov x12,xzr
	mov x13,xzr
	mov x14,xzr
	mov x16,xzr
	b 20b
37:
	movi v0.2d,#0x0
	sub x0,x29,#0x30
	add x2,sp,#0x10
	mov x1,x20
	mov w3,#0x2
	stp q0,q0,[x29,#-240]
	stp q0,q0,[x29,#-208]
	stp q0,q0,[x29,#-176]
	stp q0,q0,[x29,#-144]
	stp q0,q0,[x29,#-112]
	stp q0,q0,[x29,#-80]
	stp q0,q0,[x29,#-48]
	stp q0,q0,[sp,#464]
	stp q0,q0,[sp,#496]
	stp q0,q0,[sp,#528]
	bl .Ltk_script.fields.number32_at
	ldurb w8,[x29,#-48]
	cbz w8,47f
	ldurb w11,[x29,#-24]
	ldur x20,[x29,#-32]
	ldurb w21,[x29,#-40]
	b 78f
38:
	mov w23,wzr
	mov x21,xzr
	mov w26,wzr
	mov x11,xzr
	mov w15,#0x4
39:
	mov w8,#0x1
	mov x25,x20
	b 44f
40:
	mov w15,wzr
	mov x16,xzr
	mov w26,wzr
	mov x11,xzr
	mov w23,#0x5
	b 20b
41:
	sub x0,x29,#0x70
	add x2,sp,#0x10
	mov x1,x20
	mov w3,#0x2
	bl .Ltk_script.fields.number32_at
	ldurb w8,[x29,#-112]
	cbnz w8,42f
	ldur w23,[x29,#-108]
	sub x0,x29,#0x70
	add x2,sp,#0x10
	mov x1,x20
	mov w3,#0x3
	bl .Ltk_script.fields.number32_at
	ldurb w8,[x29,#-112]
	cbnz w8,42f
	ldur w21,[x29,#-108]
	sub x0,x29,#0x70
	add x2,sp,#0x10
	mov x1,x20
	mov w3,#0x4
	bl .Ltk_script.fields.number32_at
	ldurb w8,[x29,#-112]
	cbz w8,57f
42:
	ldurb w23,[x29,#-88]
	add x16,sp,#0x140
	ldur x20,[x29,#-96]
	ldurb w25,[x29,#-104]
	mov x21,xzr
	mov w26,wzr
	mov x11,xzr
	stur xzr,[x16,#4]
	mov w8,#0x1
	str w23,[sp,#320]
	b 32b
43:
	add x12,sp,#0x140
	ldrb w10,[sp,#463]
	mov x15,xzr
	ldurh w11,[x12,#141]
	mov x21,x25
	mov w26,w23
	mov x25,x9
	mov w23,#0x1
	orr w10,w11,w10,lsl #16
	ldur w11,[x12,#137]
	orr x11,x11,x10,lsl #32
44:
	mov x22,xzr
	mov x9,xzr
	mov w24,wzr
	mov x10,xzr
	mov x12,xzr
	mov x13,xzr
	mov x14,xzr
	mov x16,xzr
	b 20b
45:
	sub x0,x29,#0x50
	add x2,sp,#0x10
	mov x1,x20
	mov w3,#0x2
	bl .Ltk_script.fields.signed_at
	ldurb w8,[x29,#-80]
	ldur x21,[x29,#-72]
	cbz w8,49f
46:
	ldurb w23,[x29,#-56]
	ldur x20,[x29,#-64]
	mov x25,x21
	b 23b
47:
	ldur w23,[x29,#-44]
	sub x0,x29,#0x50
	add x2,sp,#0x10
	mov x1,x20
	mov w3,#0x3
	bl .Ltk_script.fields.signed_at
	ldurb w8,[x29,#-80]
	ldur x21,[x29,#-72]
	cbz w8,51f
	ldurb w11,[x29,#-56]
	ldur x20,[x29,#-64]
	b 78f
48:
	mov w23,wzr
	cmp x28,#0xc
	mov w15,#0x3
	mov w8,#0x1
	b.gt 50f
	cmp x28,#0x3
	b.eq 53f
	cmp x28,#0x8
	b.eq 55f
	cmp x28,#0x9
	b.ne 61f
	ldr w8,[x22]
	mov w9,#0x6f6d
	movk w9,#0x6f6e,lsl #16
	cmp w8,w9
	b.ne 60f
	adrp x2,.rodata..Lstatic.12
	add x2,x2,:lo12:.rodata..Lstatic.12
	mov x0,x22
	mov w1,#0x9
	bl .Lcore.cmp.slices.groups_equal
	mov w23,#0x1
	tbnz w0,#0,59f
	b 60f
49:
	mov x22,xzr
	mov x9,xzr
	mov w24,wzr
	mov x10,xzr
	mov x12,xzr
	mov x13,xzr
	mov x14,xzr
	mov w15,wzr
	mov x16,xzr
	mov w26,wzr
	mov x11,xzr
	mov w23,#0x4
	b 20b
50:
	cmp x28,#0xd
	b.eq 54f
	cmp x28,#0xf
	b.eq 56f
	cmp x28,#0x10
	b.ne 61f
	ldr w8,[x22]
	mov w9,#0x6f6d
	movk w9,#0x6f6e,lsl #16
	cmp w8,w9
	b.ne 60f
	adrp x2,.rodata.cst16+256
	add x2,x2,:lo12:.rodata.cst16+256
	mov x0,x22
	mov w1,#0x10
	bl .Lcore.cmp.slices.groups_equal
	tbz w0,#0,60f
	mov w23,#0x5
	b 59f
51:
	sub x0,x29,#0x70
	add x2,sp,#0x10
	mov x1,x20
	mov w3,#0x4
	bl .Ltk_script.fields.signed_at
	ldurb w8,[x29,#-112]
	ldur x26,[x29,#-104]
	cbz w8,52f
	ldurb w11,[x29,#-88]
	ldur x20,[x29,#-96]
	mov x21,x26
	b 78f
52:
	sub x0,x29,#0x90
	add x2,sp,#0x10
	mov x1,x20
	mov w3,#0x5
	bl .Ltk_script.fields.signed_at
	ldurb w8,[x29,#-144]
	ldur x22,[x29,#-136]
	cbz w8,63f
	ldurb w11,[x29,#-120]
	ldur x20,[x29,#-128]
	mov x21,x22
	b 78f
53:
	ldrb w8,[x22]
	cmp w8,#0x74
	b.ne 60f
	ldrb w8,[x22,#1]
	cmp w8,#0x61
	b.ne 60f
	ldrb w8,[x22,#2]
	mov w15,#0x3
	cmp w8,#0x69
	b.ne 70f
	mov w23,w15
	b 59f
54:
	ldr w8,[x22]
	mov w9,#0x6f6d
	movk w9,#0x6f6e,lsl #16
	cmp w8,w9
	b.ne 60f
	adrp x2,.rodata..Lstatic.17
	add x2,x2,:lo12:.rodata..Lstatic.17
	mov x0,x22
	mov w1,#0xd
	bl .Lcore.cmp.slices.groups_equal
	tbz w0,#0,60f
	mov w23,#0x6
	b 59f
55:
	ldrb w24,[x22]
	ldrb w28,[x22,#1]
	ldrb w27,[x22,#2]
	ldrb w9,[x22,#3]
	cmp w24,#0x72
	b.ne 58f
	cmp w28,#0x65
	b.ne 58f
	cmp w27,#0x61
	b.ne 58f
	cmp w9,#0x6c
	b.ne 58f
	adrp x2,.rodata.cst8+40
	add x2,x2,:lo12:.rodata.cst8+40
	mov x0,x22
	mov w1,#0x8
	mov w21,w9
	bl .Lcore.cmp.slices.groups_equal
	mov w9,w21
	tbz w0,#0,58f
	mov w23,wzr
	b 59f
56:
	ldr w8,[x22]
	mov w9,#0x6572
	movk w9,#0x6c61,lsl #16
	cmp w8,w9
	b.ne 60f
	adrp x2,.rodata..Lstatic.16
	add x2,x2,:lo12:.rodata..Lstatic.16
	mov x0,x22
	mov w1,#0xf
	bl .Lcore.cmp.slices.groups_equal
	tbz w0,#0,60f
	mov w23,#0x4
	b 59f
57:
	ldur w24,[x29,#-108]
	sub x0,x29,#0x50
	add x2,sp,#0x10
	mov x1,x20
	mov w3,#0x5
	bl .Ltk_script.fields.number_at
	ldurb w8,[x29,#-80]
	ldur x9,[x29,#-72]
	cbz w8,64f
	ldurb w23,[x29,#-56]
	add x16,sp,#0x140
	ldur x20,[x29,#-64]
	mov x21,xzr
	mov w26,wzr
	mov x11,xzr
	stur xzr,[x16,#4]
	mov w8,#0x1
	mov w25,w9
	str w23,[sp,#320]
	b 32b
58:
	mov x21,xzr
	mov w23,wzr
	cmp w24,#0x62
	mov w15,#0x3
	mov w8,#0x1
	b.ne 61f
	cmp w28,#0x6f
	b.ne 61f
	cmp w27,#0x6f
	b.ne 61f
	cmp w9,#0x74
	b.ne 61f
	adrp x2,.rodata.cst8+48
	add x2,x2,:lo12:.rodata.cst8+48
	mov x0,x22
	mov w1,#0x8
	bl .Lcore.cmp.slices.groups_equal
	tbz w0,#0,60f
	mov w23,#0x2
59:
	movi v0.2d,#0x0
	cmp x26,#0x3
	stp q0,q0,[x29,#-48]
	b.ne 62f
	mov x21,xzr
	mov x9,xzr
	b 66f
60:
	mov w23,wzr
	mov x21,xzr
	mov w26,wzr
	mov x11,xzr
	mov w15,#0x3
	b 39b
61:
	mov x25,x20
	mov w26,w23
	mov x11,x21
	b 44b
62:
	sub x0,x29,#0x30
	add x2,sp,#0x10
	mov x1,x20
	mov w3,#0x3
	bl .Ltk_script.fields.number_at
	ldurb w8,[x29,#-48]
	ldur x9,[x29,#-40]
	cbz w8,65f
	ldurb w23,[x29,#-24]
	ldur x25,[x29,#-32]
	mov x21,xzr
	mov w26,wzr
	mov x11,xzr
	mov w8,#0x1
	mov w15,w9
	b 44b
63:
	sub x0,x29,#0xb0
	add x2,sp,#0x10
	mov x1,x20
	mov w3,#0x6
	bl .Ltk_script.fields.signed_at
	ldurb w9,[x29,#-176]
	ldur x8,[x29,#-168]
	cbz w9,69f
	ldurb w11,[x29,#-152]
	ldur x20,[x29,#-160]
	mov x21,x8
	b 78f
64:
	sub w8,w23,#0x8
	cmp w8,#0x38
	b.hi 67f
	cmp w24,#0x20
	b.ls 71f
	mov w23,#0x1
	b 68f
65:
	mov w21,#0x1
66:
	mov w8,wzr
	lsr x11,x9,#8
	mov w15,#0x1
	mov w26,w9
	b 44b
67:
	mov w23,wzr
68:
	add x16,sp,#0x140
	mov x21,xzr
	mov w26,wzr
	mov x11,xzr
	str w23,[sp,#320]
	mov w25,#0x6
	stur xzr,[x16,#4]
	mov w8,#0x1
	b 32b
69:
	sub x0,x29,#0xd0
	add x2,sp,#0x10
	mov x1,x20
	mov w3,#0x7
	mov x28,x25
	mov x27,x8
	bl .Ltk_script.fields.number32_at
	ldurb w8,[x29,#-208]
	cbz w8,72f
	ldurb w11,[x29,#-184]
	ldur x20,[x29,#-192]
	ldurb w21,[x29,#-200]
	b 78f
70:
	mov w23,wzr
	mov x21,xzr
	mov w26,wzr
	mov x11,xzr
	b 39b
71:
	cmp w21,#0x100
	b.cs 73f
	mov w23,#0x2
	b 68b
72:
	ldur w24,[x29,#-204]
	sub x0,x29,#0xf0
	add x2,sp,#0x10
	mov x1,x20
	mov w3,#0x8
	bl .Ltk_script.fields.signed_at
	ldurb w8,[x29,#-240]
	ldur x25,[x29,#-232]
	cbz w8,74f
	ldurb w11,[x29,#-216]
	ldur x20,[x29,#-224]
	mov x21,x25
	b 78f
73:
	mov w8,#0xb
	mov x10,#0x8f5d
	umull x8,w21,w8
	movk x10,#0xf5c2,lsl #16
	movk x10,#0x5c28,lsl #32
	movk x10,#0x28f,lsl #48
	umulh x8,x8,x10
	add x8,x8,x21
	lsr x8,x8,#32
	cbz x8,75f
	mov w23,#0x3
	b 68b
74:
	add x0,sp,#0x210
	add x2,sp,#0x10
	mov x1,x20
	mov w3,#0x9
	bl .Ltk_script.fields.signed_at
	ldrb w9,[sp,#528]
	ldr x8,[sp,#536]
	str x8,[sp,#8]
	cbz w9,76f
	ldrb w11,[sp,#552]
	ldr x20,[sp,#544]
	ldr x21,[sp,#8]
	b 78f
75:
	and x10,x21,#0xffffff00
	and w11,w21,#0xff
	add x16,sp,#0x140
	orr x10,x10,x24,lsl #32
	str wzr,[sp,#332]
	mov w25,#0x2
	mov x20,x22
	mov w26,w9
	str w23,[sp,#320]
	orr x10,x10,x11
	lsr x11,x9,#8
	stur x10,[x16,#4]
	ldr x21,[sp,#328]
	b 33b
76:
	add x0,sp,#0x1f0
	add x2,sp,#0x10
	mov x1,x20
	mov w3,#0xa
	bl .Ltk_script.fields.signed_at
	ldrb w9,[sp,#496]
	ldr x8,[sp,#504]
	str x8,[sp]
	cbz w9,77f
	ldrb w11,[sp,#520]
	ldr x20,[sp,#512]
	ldr x21,[sp]
	b 78f
77:
	add x0,sp,#0x1d0
	add x2,sp,#0x10
	mov x1,x20
	mov w3,#0xb
	bl .Ltk_script.fields.signed_at
	ldrb w8,[sp,#464]
	ldr x14,[sp,#472]
	cbz w8,79f
	ldrb w11,[sp,#488]
	ldr x20,[sp,#480]
	mov x21,x14
78:
	mov x26,xzr
	mov x22,xzr
	mov x9,xzr
	mov w24,wzr
	mov x10,xzr
	mov x12,xzr
	mov x13,xzr
	mov x14,xzr
	mov w25,w21
	mov w23,w11
	mov w8,#0x1
	mov x21,xzr
	b 18b
79:
	ldp x13,x12,[sp]
	mov x20,x28
	mov x9,x27
	mov x10,x25
	b 17b

function "tk_script::plain::Lines::of",4,1096
	stp d15,d14,[sp,#-144]!
	stp d13,d12,[sp,#16]
	stp d11,d10,[sp,#32]
	stp d9,d8,[sp,#48]
	stp x29,x30,[sp,#64]
	add x29,sp,#0x40
	stp x28,x25,[sp,#80]
	stp x24,x23,[sp,#96]
	stp x22,x21,[sp,#112]
	stp x20,x19,[sp,#128]
	sub sp,sp,#0x220
	movi v0.2d,#0x0
	mov x21,x1
	mov x19,x0
	adrp x24,.rodata..Lstatic.0
	add x24,x24,:lo12:.rodata..Lstatic.0
	mov x0,x1
	mov x1,x2
	mov x20,x2
	stp xzr,x24,[sp,#272]
	stp xzr,x24,[sp,#288]
	stp q0,q0,[sp,#16]
	stp q0,q0,[sp,#48]
	stp q0,q0,[sp,#80]
	stp q0,q0,[sp,#112]
	stp q0,q0,[sp,#144]
	stp q0,q0,[sp,#176]
	stp q0,q0,[sp,#208]
	stp q0,q0,[sp,#240]
	stp xzr,x24,[sp,#304]
	stp xzr,x24,[sp,#320]
	stp xzr,x24,[sp,#336]
	stp xzr,x24,[sp,#352]
	stp xzr,x24,[sp,#368]
	stp xzr,x24,[sp,#384]
	stp xzr,x24,[sp,#400]
	stp xzr,x24,[sp,#416]
	stp xzr,x24,[sp,#432]
	stp xzr,x24,[sp,#448]
	stp xzr,x24,[sp,#464]
	stp xzr,x24,[sp,#480]
	stp xzr,x24,[sp,#496]
	str xzr,[sp,#512]
	str xzr,[sp,#536]
	str x24,[sp,#520]
	str xzr,[sp,#528]
	bl "memchr::bytes::memchr"
	and w8,w0,#0xff
	mov x25,xzr
	mov x22,x21
	cmp w8,#0x1
	mov x23,x20
	b.ne 2f
	mov x25,xzr
	mov x22,x21
	mov x23,x20
1:
	cmp x25,#0x10
	b.cs 5f
	add x8,sp,#0x118
	add x8,x8,x25,lsl #4
	stp x22,x1,[x8]
	add x8,x1,#0x1
	ldr x9,[sp,#536]
	add x22,x22,x8
	sub x23,x23,x8
	mov x0,x22
	mov x1,x23
	add x25,x9,#0x1
	str x25,[sp,#536]
	bl "memchr::bytes::memchr"
	and w8,w0,#0xff
	cmp w8,#0x1
	b.eq 1b
	cmp x25,#0xf
	b.hi 3f
2:
	add x8,sp,#0x118
	add x8,x8,x25,lsl #4
	stp x22,x23,[x8]
3:
	add x8,x25,#0x1
4:
	add x0,sp,#0x10
	add x1,sp,#0x118
	mov w2,#0x108
	str x8,[sp,#536]
	bl memcpy
	add x0,x19,#0x10
	add x1,sp,#0x10
	mov w2,#0x108
	stp x21,x20,[x19]
	bl memcpy
	stp x24,xzr,[x19,#280]
	add sp,sp,#0x220
	ldp x20,x19,[sp,#128]
	ldp x22,x21,[sp,#112]
	ldp x24,x23,[sp,#96]
	ldp x28,x25,[sp,#80]
	ldp x29,x30,[sp,#64]
	ldp d9,d8,[sp,#48]
	ldp d11,d10,[sp,#32]
	ldp d13,d12,[sp,#16]
	ldp d15,d14,[sp],#144
	ret
5:
	cbz x23,6f
	cmp x23,#0x8
	b.cs 7f
	mov x8,xzr
	mov w10,#0x1
	b 12f
6:
	mov w10,#0x1
	add x8,x10,x25
	b 4b
7:
	cmp x23,#0x20
	b.cs 8f
	mov x8,xzr
	mov w10,#0x1
	b 10f
8:
	movi v25.2d,#0x0
	movi v4.2d,#0x0
	adrp x8,.rodata.cst16+16
	movi v7.2d,#0x0
	movi v2.2d,#0x0
	ldr q22,[x8,:lo12:.rodata.cst16+16]
	movi v3.2d,#0x0
	movi v1.2d,#0x0
	and x9,x23,#0x18
	movi v19.2d,#0x0
	movi v6.2d,#0x0
	and x8,x23,#0xffffffffffffffe0
	movi v20.2d,#0x0
	movi v5.2d,#0x0
	add x10,x22,#0x10
	movi v21.2d,#0x0
	movi v17.2d,#0x0
	and x11,x23,#0xffffffffffffffe0
	movi v18.2d,#0x0
	movi v16.2d,#0x0
	movi v23.2d,#0x0
9:
	movi v24.16b,#0x2c
	str q25,[sp]
	mov w12,#0x1
	ldp q25,q26,[x10,#-16]
	dup v28.2d,x12
	subs x11,x11,#0x20
	add x10,x10,#0x20
	cmeq v25.16b,v25.16b,v24.16b
	cmeq v24.16b,v26.16b,v24.16b
	uxtl v26.8h,v25.8b
	uxtl2 v25.8h,v25.16b
	uxtl v27.8h,v24.8b
	uxtl2 v24.8h,v24.16b
	uxtl v30.4s,v25.4h
	uxtl2 v25.4s,v25.8h
	uxtl v29.4s,v26.4h
	uxtl2 v26.4s,v26.8h
	uxtl v31.4s,v27.4h
	uxtl2 v27.4s,v27.8h
	uxtl v8.4s,v24.4h
	uxtl2 v24.4s,v24.8h
	uxtl v12.2d,v25.2s
	uxtl2 v25.2d,v25.4s
	uxtl v9.2d,v29.2s
	uxtl2 v29.2d,v29.4s
	uxtl v10.2d,v26.2s
	uxtl v11.2d,v30.2s
	uxtl2 v26.2d,v26.4s
	uxtl2 v30.2d,v30.4s
	uxtl v13.2d,v31.2s
	uxtl2 v31.2d,v31.4s
	uxtl v14.2d,v27.2s
	uxtl v15.2d,v8.2s
	uxtl2 v27.2d,v27.4s
	uxtl2 v8.2d,v8.4s
	uxtl v0.2d,v24.2s
	uxtl2 v24.2d,v24.4s
	and v25.16b,v25.16b,v28.16b
	and v9.16b,v9.16b,v28.16b
	and v29.16b,v29.16b,v28.16b
	and v10.16b,v10.16b,v28.16b
	and v11.16b,v11.16b,v28.16b
	and v26.16b,v26.16b,v28.16b
	and v30.16b,v30.16b,v28.16b
	and v12.16b,v12.16b,v28.16b
	and v13.16b,v13.16b,v28.16b
	and v31.16b,v31.16b,v28.16b
	and v14.16b,v14.16b,v28.16b
	and v15.16b,v15.16b,v28.16b
	and v27.16b,v27.16b,v28.16b
	and v8.16b,v8.16b,v28.16b
	and v0.16b,v0.16b,v28.16b
	and v24.16b,v24.16b,v28.16b
	add v19.2d,v19.2d,v25.2d
	ldr q25,[sp]
	add v1.2d,v1.2d,v12.2d
	add v3.2d,v3.2d,v30.2d
	add v7.2d,v7.2d,v26.2d
	add v2.2d,v2.2d,v11.2d
	add v4.2d,v4.2d,v29.2d
	add v25.2d,v25.2d,v10.2d
	add v22.2d,v22.2d,v9.2d
	add v23.2d,v23.2d,v24.2d
	add v16.2d,v16.2d,v0.2d
	add v18.2d,v18.2d,v8.2d
	add v21.2d,v21.2d,v27.2d
	add v17.2d,v17.2d,v15.2d
	add v5.2d,v5.2d,v14.2d
	add v20.2d,v20.2d,v31.2d
	add v6.2d,v6.2d,v13.2d
	b.ne 9b
	add v0.2d,v21.2d,v7.2d
	add v7.2d,v23.2d,v19.2d
	cmp x23,x8
	add v4.2d,v20.2d,v4.2d
	add v6.2d,v6.2d,v22.2d
	add v2.2d,v17.2d,v2.2d
	add v3.2d,v18.2d,v3.2d
	add v5.2d,v5.2d,v25.2d
	add v1.2d,v16.2d,v1.2d
	add v0.2d,v0.2d,v7.2d
	add v2.2d,v6.2d,v2.2d
	add v1.2d,v5.2d,v1.2d
	add v3.2d,v4.2d,v3.2d
	add v1.2d,v2.2d,v1.2d
	add v0.2d,v3.2d,v0.2d
	add v0.2d,v1.2d,v0.2d
	addp d0,v0.2d
	fmov x10,d0
	b.eq 14f
	cbz x9,12f
10:
	movi v0.2d,#0x0
	movi v1.2d,#0x0
	movi v2.2d,#0x0
	movi v3.2d,#0x0
	mov v0.d[0],x10
	mov x10,x8
	and x8,x23,#0xfffffffffffffff8
	sub x9,x10,x8
	add x10,x22,x10
11:
	movi v4.8b,#0x2c
	ldr d5,[x10],#8
	mov w11,#0x1
	adds x9,x9,#0x8
	dup v6.2d,x11
	cmeq v4.8b,v5.8b,v4.8b
	uxtl v4.8h,v4.8b
	uxtl2 v5.4s,v4.8h
	uxtl v4.4s,v4.4h
	uxtl2 v7.2d,v5.4s
	uxtl v16.2d,v4.2s
	uxtl2 v4.2d,v4.4s
	uxtl v5.2d,v5.2s
	and v7.16b,v7.16b,v6.16b
	and v16.16b,v16.16b,v6.16b
	and v4.16b,v4.16b,v6.16b
	and v5.16b,v5.16b,v6.16b
	add v3.2d,v3.2d,v7.2d
	add v2.2d,v2.2d,v4.2d
	add v0.2d,v0.2d,v16.2d
	add v1.2d,v1.2d,v5.2d
	b.ne 11b
	add v0.2d,v0.2d,v1.2d
	add v1.2d,v2.2d,v3.2d
	cmp x23,x8
	add v0.2d,v0.2d,v1.2d
	addp d0,v0.2d
	fmov x10,d0
	b.eq 14f
12:
	sub x9,x23,x8
	add x8,x22,x8
13:
	ldrb w11,[x8],#1
	cmp w11,#0x2c
	cinc x10,x10,eq
	subs x9,x9,#0x1
	b.ne 13b
14:
	add x8,x10,x25
	b 4b

function "memchr::bytes::memchr",4,1068
	cmp x1,#0x20
	b.cs 3f
	cbz x1,2f
	mov x8,xzr
1:
	ldrb w9,[x0,x8]
	cmp w9,#0x2c
	b.eq 26f
	add x8,x8,#0x1
	cmp x1,x8
	b.ne 1b
2:
	mov w0,wzr
	mov x1,xzr
	ret
3:
	mov x13,xzr
	add x9,x0,x1
	add x10,x0,#0x60
	sub x11,x1,#0x40
	add x12,x0,#0xa0
4:
	sub x14,x1,x13
	adrp x8,.rodata.cst16+32
	cmp x14,#0xbf
	b.ls 6f
	movi v0.16b,#0x2c
	add x14,x0,x13
	ldp q1,q2,[x14]
	ldp q3,q4,[x14,#32]
	add x14,x13,#0x40
	cmeq v2.16b,v2.16b,v0.16b
	cmeq v1.16b,v1.16b,v0.16b
	cmeq v4.16b,v4.16b,v0.16b
	cmeq v3.16b,v3.16b,v0.16b
	ldr q0,[x8,:lo12:.rodata.cst16+32]
	and v1.16b,v1.16b,v0.16b
	and v2.16b,v2.16b,v0.16b
	and v3.16b,v3.16b,v0.16b
	and v4.16b,v4.16b,v0.16b
	addp v1.16b,v1.16b,v2.16b
	addp v2.16b,v3.16b,v4.16b
	addp v1.16b,v1.16b,v2.16b
	addp v1.16b,v1.16b,v1.16b
	fmov x15,d1
	cbnz x15,21f
	sub x15,x1,x14
	cmp x15,#0x80
	b.cc 11f
	add x8,x13,#0xc0
	add x13,x12,x13
5:
	movi v17.16b,#0x2c
	ldp q6,q5,[x13,#-96]
	ldp q16,q18,[x13,#-64]
	ldp q2,q1,[x13,#-32]
	ldp q3,q4,[x13],#128
	cmeq v6.16b,v6.16b,v17.16b
	cmeq v7.16b,v5.16b,v17.16b
	cmeq v5.16b,v18.16b,v17.16b
	cmeq v18.16b,v1.16b,v17.16b
	cmeq v16.16b,v16.16b,v17.16b
	cmeq v20.16b,v2.16b,v17.16b
	cmeq v19.16b,v4.16b,v17.16b
	cmeq v17.16b,v3.16b,v17.16b
	orr v18.16b,v18.16b,v19.16b
	orr v17.16b,v20.16b,v17.16b
	orr v19.16b,v5.16b,v7.16b
	orr v20.16b,v16.16b,v6.16b
	orr v18.16b,v19.16b,v18.16b
	orr v17.16b,v20.16b,v17.16b
	and v18.16b,v18.16b,v0.16b
	and v17.16b,v17.16b,v0.16b
	addp v17.16b,v17.16b,v18.16b
	addp v17.16b,v17.16b,v17.16b
	addp v17.16b,v17.16b,v17.16b
	fmov w14,s17
	cbnz w14,23f
	sub x15,x15,#0x80
	add x8,x8,#0x80
	cmp x15,#0x7f
	b.hi 5b
	sub x13,x8,#0x80
	cmp x15,#0x20
	b.cs 12f
	b 14f
6:
	cmp x14,#0x40
	b.cc 16f
7:
	movi v0.16b,#0x2c
	add x15,x0,x13
	ldp q1,q2,[x15]
	ldp q4,q3,[x15,#32]
	cmeq v1.16b,v1.16b,v0.16b
	cmeq v2.16b,v2.16b,v0.16b
	cmeq v4.16b,v4.16b,v0.16b
	cmeq v0.16b,v3.16b,v0.16b
	orr v2.16b,v2.16b,v0.16b
	orr v1.16b,v1.16b,v4.16b
	ldr q0,[x8,:lo12:.rodata.cst16+32]
	and v1.16b,v1.16b,v0.16b
	and v2.16b,v2.16b,v0.16b
	addp v1.16b,v1.16b,v2.16b
	addp v1.16b,v1.16b,v1.16b
	addp v1.16b,v1.16b,v1.16b
	fmov w15,s1
	cbnz w15,8f
	sub x14,x14,#0x40
	add x13,x13,#0x40
	cmp x14,#0x3f
	b.hi 7b
	b 16f
8:
	cmp x14,#0x40
	b.cc 16f
9:
	movi v1.16b,#0x2c
	add x14,x0,x13
	ldp q2,q3,[x14]
	ldp q4,q5,[x14,#32]
	cmeq v2.16b,v2.16b,v1.16b
	cmeq v3.16b,v3.16b,v1.16b
	cmeq v5.16b,v5.16b,v1.16b
	cmeq v1.16b,v4.16b,v1.16b
	and v2.16b,v2.16b,v0.16b
	and v3.16b,v3.16b,v0.16b
	and v1.16b,v1.16b,v0.16b
	and v4.16b,v5.16b,v0.16b
	addp v2.16b,v2.16b,v3.16b
	addp v1.16b,v1.16b,v4.16b
	addp v1.16b,v2.16b,v1.16b
	addp v1.16b,v1.16b,v1.16b
	fmov x15,d1
	cbnz x15,25f
	add x15,x10,x13
	sub x14,x11,x13
10:
	subs x16,x14,#0x40
	b.cc 15f
	movi v1.16b,#0x2c
	ldp q2,q3,[x15,#-32]
	ldp q5,q4,[x15],#64
	add x13,x13,#0x40
	mov x14,x16
	cmeq v2.16b,v2.16b,v1.16b
	cmeq v3.16b,v3.16b,v1.16b
	cmeq v5.16b,v5.16b,v1.16b
	cmeq v1.16b,v4.16b,v1.16b
	orr v2.16b,v2.16b,v5.16b
	orr v1.16b,v3.16b,v1.16b
	and v2.16b,v2.16b,v0.16b
	and v1.16b,v1.16b,v0.16b
	addp v1.16b,v2.16b,v1.16b
	addp v1.16b,v1.16b,v1.16b
	addp v1.16b,v1.16b,v1.16b
	fmov w17,s1
	cbz w17,10b
	b 9b
11:
	mov x13,x14
	cmp x15,#0x20
	b.cc 14f
12:
	sub x8,x1,x13
13:
	movi v1.16b,#0x2c
	add x14,x0,x13
	ldp q2,q3,[x14]
	cmeq v3.16b,v3.16b,v1.16b
	cmeq v1.16b,v2.16b,v1.16b
	and v1.16b,v1.16b,v0.16b
	and v2.16b,v3.16b,v0.16b
	addp v1.16b,v1.16b,v2.16b
	addp v1.16b,v1.16b,v1.16b
	addp v1.16b,v1.16b,v1.16b
	fmov w15,s1
	cbnz w15,20f
	sub x8,x8,#0x20
	add x13,x13,#0x20
	cmp x8,#0x1f
	b.hi 13b
14:
	movi v1.16b,#0x2c
	ldp q2,q3,[x9,#-32]
	cmeq v3.16b,v3.16b,v1.16b
	cmeq v1.16b,v2.16b,v1.16b
	and v1.16b,v1.16b,v0.16b
	and v0.16b,v3.16b,v0.16b
	addp v0.16b,v1.16b,v0.16b
	b 19f
15:
	add x13,x13,#0x40
16:
	cmp x14,#0x20
	b.cc 18f
	sub x14,x1,x13
17:
	movi v0.16b,#0x2c
	add x15,x0,x13
	ldp q1,q2,[x15]
	cmeq v2.16b,v2.16b,v0.16b
	cmeq v0.16b,v1.16b,v0.16b
	ldr q1,[x8,:lo12:.rodata.cst16+32]
	and v0.16b,v0.16b,v1.16b
	and v1.16b,v2.16b,v1.16b
	addp v0.16b,v0.16b,v1.16b
	addp v0.16b,v0.16b,v0.16b
	addp v0.16b,v0.16b,v0.16b
	fmov w15,s0
	cbnz w15,20f
	sub x14,x14,#0x20
	add x13,x13,#0x20
	cmp x14,#0x1f
	b.hi 17b
18:
	movi v0.16b,#0x2c
	ldp q1,q2,[x9,#-32]
	cmeq v2.16b,v2.16b,v0.16b
	cmeq v0.16b,v1.16b,v0.16b
	ldr q1,[x8,:lo12:.rodata.cst16+32]
	and v0.16b,v0.16b,v1.16b
	and v1.16b,v2.16b,v1.16b
	addp v0.16b,v0.16b,v1.16b
19:
	addp v0.16b,v0.16b,v0.16b
	sub x14,x13,x1
	add x14,x14,#0x20
	addp v0.16b,v0.16b,v0.16b
	fmov w8,s0
	lsr x15,x8,x14
	mov x8,x1
	mov x14,x8
	cbnz x15,21f
	b 22f
20:
	add x14,x13,#0x20
21:
	rbit x8,x15
	clz x16,x8
	add x8,x16,x13
	ldrb w17,[x0,x8]
	cmp w17,#0x2c
	b.eq 26f
	mov w8,#0x1
	lsl x8,x8,x16
	bics x15,x15,x8
	b.ne 21b
22:
	cmp x14,x1
	mov x13,x14
	b.cc 4b
	b 2b
23:
	and v6.16b,v6.16b,v0.16b
	and v7.16b,v7.16b,v0.16b
	sub x14,x8,#0x40
	and v16.16b,v16.16b,v0.16b
	and v5.16b,v5.16b,v0.16b
	addp v6.16b,v6.16b,v7.16b
	addp v5.16b,v16.16b,v5.16b
	addp v5.16b,v6.16b,v5.16b
	addp v5.16b,v5.16b,v5.16b
	fmov x15,d5
	cbz x15,24f
	sub x13,x8,#0x80
	b 21b
24:
	movi v5.16b,#0x2c
	cmeq v2.16b,v2.16b,v5.16b
	cmeq v1.16b,v1.16b,v5.16b
	cmeq v4.16b,v4.16b,v5.16b
	cmeq v3.16b,v3.16b,v5.16b
	and v2.16b,v2.16b,v0.16b
	and v1.16b,v1.16b,v0.16b
	and v3.16b,v3.16b,v0.16b
	and v0.16b,v4.16b,v0.16b
	addp v1.16b,v2.16b,v1.16b
	addp v0.16b,v3.16b,v0.16b
	addp v0.16b,v1.16b,v0.16b
	addp v0.16b,v0.16b,v0.16b
	fmov x15,d0
	mov x13,x14
	mov x14,x8
	cbnz x15,21b
	b 22b
25:
	add x14,x13,#0x40
	b 21b
26:
	mov w0,#0x1
	mov x1,x8
	ret

function "tk_script::fields::number_at::<#187b3a1c305ebc38>",4,340
.Ltk_script.fields.number_at:
	stp x29,x30,[sp,#-64]!
	ldr x8,[x2,#272]
	mov w9,#0x10
	stp x22,x21,[sp,#32]
	stp x20,x19,[sp,#48]
	mov x22,x3
	mov x20,x1
	cmp x8,#0x10
	mov x19,x0
	str x23,[sp,#16]
	csel x8,x8,x9,cc
	mov x29,sp
	cmp x3,x8
	b.cs 5f
	add x8,x2,x22,lsl #4
	ldp x21,x8,[x8,#16]
	cmp x8,#0x14
	b.cc 8f
1:
	sub x9,x8,#0x1
	mov x10,x21
2:
	ldrb w11,[x10],#1
	subs x9,x9,#0x1
	cset w12,cs
	sub w11,w11,#0x30
	cmp w11,#0x9
	b.hi 3f
	tbnz w12,#0,2b
3:
	cmp w11,#0x9
	b.hi 11f
	mov x9,xzr
4:
	mov w10,#0xa
	ldrb w11,[x21],#1
	umulh x10,x9,x10
	add x9,x9,x9,lsl #2
	sub w11,w11,#0x30
	lsl x9,x9,#1
	adds x9,x9,w11,uxtb
	cinc x10,x10,cs
	cbnz x10,11f
	subs x8,x8,#0x1
	b.ne 4b
	b 10f
5:
	ldp x21,x23,[x2]
	cbz x22,7f
6:
	mov x0,x21
	mov x1,x23
	bl "memchr::bytes::memchr"
	and w8,w0,#0xff
	cmp w8,#0x1
	b.ne 11f
	add x8,x1,#0x1
	subs x22,x22,#0x1
	add x21,x21,x8
	sub x23,x23,x8
	b.ne 6b
7:
	mov x0,x21
	mov x1,x23
	bl "memchr::bytes::memchr"
	and w8,w0,#0xff
	cmp w8,#0x1
	csel x8,x1,x23,eq
	cmp x8,#0x14
	b.cs 1b
8:
	cbz x8,11f
	mov x9,xzr
9:
	ldrb w10,[x21],#1
	sub x10,x10,#0x30
	cmp x10,#0x9
	b.hi 11f
	mov w11,#0xa
	subs x8,x8,#0x1
	madd x9,x9,x11,x10
	b.ne 9b
10:
	mov x20,xzr
	b 12f
11:
	mov w9,#0x5
	mov w8,#0x1
12:
	stp x8,x9,[x19]
	ldp x22,x21,[sp,#32]
	str x20,[x19,#16]
	ldr x23,[sp,#16]
	strb wzr,[x19,#24]
	ldp x20,x19,[sp,#48]
	ldp x29,x30,[sp],#64
	ret

function "tk_script::row::read_valued::<#187b3a1c305ebc38>",4,252
.Ltk_script.row.read_valued:
	sub sp,sp,#0x70
	movi v0.2d,#0x0
	ldr x8,[x2,#272]
	stp x20,x19,[sp,#96]
	mov x19,x0
	stp x29,x30,[sp,#64]
	add x29,sp,#0x40
	cmp x8,#0x3
	stp x22,x21,[sp,#80]
	stp q0,q0,[sp]
	stp q0,q0,[sp,#32]
	b.ne 1f
	add x0,sp,#0x20
	mov w3,#0x1
	mov x20,x1
	mov x21,x2
	bl .Ltk_script.fields.number_at
	ldrb w8,[sp,#32]
	ldr x22,[sp,#40]
	cbz w8,3f
	ldr x1,[sp,#48]
	ldrb w8,[sp,#56]
	b 2f
1:
	mov w8,wzr
	mov w22,#0x4
2:
	mov w9,#0x1
	and x10,x22,#0xff
	str x1,[x19,#16]
	stp x9,x10,[x19]
	strb w8,[x19,#24]
	ldp x20,x19,[sp,#96]
	ldp x22,x21,[sp,#80]
	ldp x29,x30,[sp,#64]
	add sp,sp,#0x70
	ret
3:
	mov x0,sp
	mov x1,x20
	mov x2,x21
	mov w3,#0x2
	bl .Ltk_script.fields.signed_at
	ldrb w9,[sp]
	ldr x8,[sp,#8]
	cbz w9,4f
	mov w9,#0x1
	and x8,x8,#0xff
	ldr x10,[sp,#16]
	stp x9,x8,[x19]
	ldrb w9,[sp,#24]
	str x10,[x19,#16]
	strb w9,[x19,#24]
	ldp x20,x19,[sp,#96]
	ldp x22,x21,[sp,#80]
	ldp x29,x30,[sp,#64]
	add sp,sp,#0x70
	ret
4:
	stp xzr,x22,[x19]
	str x8,[x19,#16]
	strb wzr,[x19,#24]
	ldp x20,x19,[sp,#96]
	ldp x22,x21,[sp,#80]
	ldp x29,x30,[sp,#64]
	add sp,sp,#0x70
	ret

function "tk_script::fields::signed_at::<#187b3a1c305ebc38>",4,564
.Ltk_script.fields.signed_at:
	stp x29,x30,[sp,#-64]!
	ldr x8,[x2,#272]
	mov w9,#0x10
	stp x22,x21,[sp,#32]
	stp x20,x19,[sp,#48]
	mov x22,x3
	mov x20,x1
	cmp x8,#0x10
	mov x19,x0
	str x23,[sp,#16]
	csel x8,x8,x9,cc
	mov x29,sp
	cmp x3,x8
	b.cs 1f
	add x8,x2,x22,lsl #4
	ldp x21,x9,[x8,#16]
	cbnz x9,4f
	b 18f
1:
	ldp x21,x23,[x2]
	cbz x22,3f
2:
	mov x0,x21
	mov x1,x23
	bl "memchr::bytes::memchr"
	and w8,w0,#0xff
	cmp w8,#0x1
	b.ne 18f
	add x8,x1,#0x1
	subs x22,x22,#0x1
	add x21,x21,x8
	sub x23,x23,x8
	b.ne 2b
3:
	mov x0,x21
	mov x1,x23
	bl "memchr::bytes::memchr"
	and w8,w0,#0xff
	cmp w8,#0x1
	csel x9,x1,x23,eq
	cbz x9,18f
4:
	ldrb w8,[x21]
	cmp w8,#0x2d
	b.ne 8f
	sub x8,x9,#0x1
	add x10,x21,#0x1
	cmp x8,#0x14
	b.cc 12f
	sub x9,x9,#0x2
	mov x11,x10
5:
	ldrb w12,[x11],#1
	subs x9,x9,#0x1
	cset w13,cs
	sub w12,w12,#0x30
	cmp w12,#0x9
	b.hi 6f
	tbnz w13,#0,5b
6:
	cmp w12,#0x9
	b.hi 18f
	mov x11,xzr
7:
	mov w9,#0xa
	add x12,x11,x11,lsl #2
	umulh x9,x11,x9
	ldrb w11,[x10],#1
	lsl x12,x12,#1
	sub w11,w11,#0x30
	adds x11,x12,w11,uxtb
	mov x12,#0x8000000000000000
	cinc x9,x9,cs
	cmp x12,x11
	ngcs xzr,x9
	b.cc 18f
	subs x8,x8,#0x1
	b.ne 7b
	b 14f
8:
	cmp x9,#0x13
	b.ls 15f
	sub x8,x9,#0x1
	mov x10,x21
9:
	ldrb w11,[x10],#1
	subs x8,x8,#0x1
	cset w12,cs
	sub w11,w11,#0x30
	cmp w11,#0x9
	b.hi 10f
	tbnz w12,#0,9b
10:
	cmp w11,#0x9
	b.hi 18f
	mov x8,xzr
11:
	mov w10,#0xa
	add x11,x8,x8,lsl #2
	umulh x10,x8,x10
	ldrb w8,[x21],#1
	lsl x11,x11,#1
	sub w8,w8,#0x30
	adds x8,x11,w8,uxtb
	mov x11,#0x8000000000000000
	cinc x10,x10,cs
	cmp x8,x11
	sbcs xzr,x10,xzr
	b.cs 18f
	subs x9,x9,#0x1
	b.ne 11b
	b 17f
12:
	cbz x8,18f
	mov x11,xzr
13:
	ldrb w9,[x10],#1
	sub x9,x9,#0x30
	cmp x9,#0x9
	b.hi 18f
	mov w12,#0xa
	subs x8,x8,#0x1
	madd x11,x11,x12,x9
	b.ne 13b
	mov x8,#0x8000000000000000
	cmp x11,x8
	b.hi 18f
14:
	mov x9,xzr
	mov x20,xzr
	neg x8,x11
	b 19f
15:
	mov x8,xzr
16:
	ldrb w10,[x21],#1
	sub x10,x10,#0x30
	cmp x10,#0x9
	b.hi 18f
	mov w11,#0xa
	subs x9,x9,#0x1
	madd x8,x8,x11,x10
	b.ne 16b
	tbnz x8,#63,18f
	mov x9,xzr
17:
	mov x20,xzr
	b 19f
18:
	mov w8,#0x5
	mov w9,#0x1
19:
	stp x9,x8,[x19]
	ldp x22,x21,[sp,#32]
	str x20,[x19,#16]
	ldr x23,[sp,#16]
	strb wzr,[x19,#24]
	ldp x20,x19,[sp,#48]
	ldp x29,x30,[sp],#64
	ret

function "tk_script::row::read_timed::<#187b3a1c305ebc38>",4,284
.Ltk_script.row.read_timed:
	sub sp,sp,#0x80
	movi v0.2d,#0x0
	ldr x8,[x2,#272]
	stp x20,x19,[sp,#112]
	mov x20,x1
	mov x19,x0
	stp x29,x30,[sp,#64]
	cmp x8,#0x4
	str x23,[sp,#80]
	add x29,sp,#0x40
	stp x22,x21,[sp,#96]
	stp q0,q0,[sp,#32]
	b.ne 1f
	add x0,sp,#0x20
	mov x1,x20
	mov w3,#0x1
	mov x21,x2
	bl .Ltk_script.fields.number_at
	ldrb w8,[sp,#32]
	ldr x22,[sp,#40]
	cbz w8,4f
	ldr x20,[sp,#48]
	ldrb w8,[sp,#56]
	b 2f
1:
	mov x8,xzr
	mov w22,#0x4
2:
	mov w9,#0x1
	and x10,x22,#0xff
	str x20,[x19,#16]
	stp x9,x10,[x19]
3:
	str x8,[x19,#24]
	ldp x20,x19,[sp,#112]
	ldp x22,x21,[sp,#96]
	ldr x23,[sp,#80]
	ldp x29,x30,[sp,#64]
	add sp,sp,#0x80
	ret
4:
	movi v0.2d,#0x0
	add x0,sp,#0x20
	mov x1,x20
	mov x2,x21
	mov w3,#0x2
	stp q0,q0,[sp]
	stp q0,q0,[sp,#32]
	bl .Ltk_script.fields.signed_at
	ldrb w8,[sp,#32]
	ldr x23,[sp,#40]
	cbz w8,5f
	ldrb w8,[sp,#56]
	ldr x9,[sp,#48]
	b 6f
5:
	mov x0,sp
	mov x1,x20
	mov x2,x21
	mov w3,#0x3
	bl .Ltk_script.fields.number32_at
	ldrb w8,[sp]
	cbz w8,7f
	ldrb w8,[sp,#24]
	ldr x9,[sp,#16]
	ldrb w23,[sp,#8]
6:
	mov w10,#0x1
	and x11,x23,#0xff
	mov w8,w8
	stp x10,x11,[x19]
	str x9,[x19,#16]
	b 3b
7:
	ldr w8,[sp,#4]
	stp xzr,x22,[x19]
	str x23,[x19,#16]
	b 3b

function "tk_script::fields::time_at::<#187b3a1c305ebc38>",4,244
.Ltk_script.fields.time_at:
	sub sp,sp,#0x80
	movi v0.2d,#0x0
	stp x20,x19,[sp,#112]
	mov x19,x0
	add x0,sp,#0x20
	stp x29,x30,[sp,#64]
	add x29,sp,#0x40
	str x23,[sp,#80]
	mov x20,x2
	stp x22,x21,[sp,#96]
	mov x21,x3
	mov x22,x1
	stp q0,q0,[sp]
	stp q0,q0,[sp,#32]
	bl .Ltk_script.fields.signed_at
	ldrb w8,[sp,#32]
	ldr x23,[sp,#40]
	cbz w8,1f
	mov w8,#0x1
	and x9,x23,#0xff
	ldr x10,[sp,#48]
	stp x8,x9,[x19]
	ldrb w8,[sp,#56]
	str x10,[x19,#16]
	strb w8,[x19,#24]
	ldp x20,x19,[sp,#112]
	ldr x23,[sp,#80]
	ldp x22,x21,[sp,#96]
	ldp x29,x30,[sp,#64]
	add sp,sp,#0x80
	ret
1:
	mov x0,sp
	add x3,x21,#0x1
	mov x1,x22
	mov x2,x20
	bl .Ltk_script.fields.number32_at
	ldrb w8,[sp]
	cbz w8,2f
	ldrb w8,[sp,#8]
	mov w9,#0x1
	ldr x10,[sp,#16]
	stp x9,x8,[x19]
	ldrb w9,[sp,#24]
	str x10,[x19,#16]
	strb w9,[x19,#24]
	ldp x20,x19,[sp,#112]
	ldr x23,[sp,#80]
	ldp x22,x21,[sp,#96]
	ldp x29,x30,[sp,#64]
	add sp,sp,#0x80
	ret
2:
	ldr w8,[sp,#4]
	stp xzr,x23,[x19]
	strb wzr,[x19,#24]
	str x8,[x19,#16]
	ldp x20,x19,[sp,#112]
	ldr x23,[sp,#80]
	ldp x22,x21,[sp,#96]
	ldp x29,x30,[sp,#64]
	add sp,sp,#0x80
	ret

function "tk_script::fields::number32_at::<#187b3a1c305ebc38>",4,364
.Ltk_script.fields.number32_at:
	stp x29,x30,[sp,#-64]!
	ldr x8,[x2,#272]
	mov w9,#0x10
	stp x22,x21,[sp,#32]
	stp x20,x19,[sp,#48]
	mov x22,x3
	mov x20,x1
	cmp x8,#0x10
	mov x19,x0
	str x23,[sp,#16]
	csel x8,x8,x9,cc
	mov x29,sp
	cmp x3,x8
	b.cs 5f
	add x8,x2,x22,lsl #4
	ldp x21,x8,[x8,#16]
	cmp x8,#0x14
	b.cc 7f
1:
	sub x9,x8,#0x1
	mov x10,x21
2:
	ldrb w11,[x10],#1
	subs x9,x9,#0x1
	cset w12,cs
	sub w11,w11,#0x30
	cmp w11,#0x9
	b.hi 3f
	tbnz w12,#0,2b
3:
	cmp w11,#0x9
	b.hi 9f
	mov x9,xzr
4:
	mov w10,#0xa
	ldrb w11,[x21],#1
	umulh x10,x9,x10
	add x9,x9,x9,lsl #2
	sub w11,w11,#0x30
	lsl x9,x9,#1
	adds x9,x9,w11,uxtb
	cinc x10,x10,cs
	extr x10,x10,x9,#32
	cbnz x10,9f
	subs x8,x8,#0x1
	b.ne 4b
	mov x10,xzr
	mov x20,xzr
	b 10f
5:
	ldp x21,x23,[x2]
6:
	mov x0,x21
	mov x1,x23
	bl "memchr::bytes::memchr"
	and w8,w0,#0xff
	cmp w8,#0x1
	b.ne 9f
	add x8,x1,#0x1
	subs x22,x22,#0x1
	add x21,x21,x8
	sub x23,x23,x8
	b.ne 6b
	mov x0,x21
	mov x1,x23
	bl "memchr::bytes::memchr"
	and w8,w0,#0xff
	cmp w8,#0x1
	csel x8,x1,x23,eq
	cmp x8,#0x14
	b.cs 1b
7:
	cbz x8,9f
	mov x9,xzr
8:
	ldrb w10,[x21],#1
	sub x10,x10,#0x30
	cmp x10,#0x9
	b.hi 9f
	mov w11,#0xa
	subs x8,x8,#0x1
	madd x9,x9,x11,x10
	b.ne 8b
	lsr x8,x9,#32
	cbnz x8,9f
	mov x10,xzr
	mov x20,xzr
	b 10f
9:
	mov w9,wzr
	mov w8,#0x1
	mov w10,#0x5
10:
	stp w8,w9,[x19]
	ldp x22,x21,[sp,#32]
	stp x10,x20,[x19,#8]
	ldr x23,[sp,#16]
	strb wzr,[x19,#24]
	ldp x20,x19,[sp,#48]
	ldp x29,x30,[sp],#64
	ret

function "core::cmp::slices::groups_equal::<i8,31'core::cmp::numbers::U8PartialEq{}>",4,544
.Lcore.cmp.slices.groups_equal:
	subs x9,x1,#0x8
	b.hi 1f
	sub x8,x1,#0x4
	ldr s0,[x0]
	ldr s1,[x2]
	add x9,x0,x8
	add x8,x2,x8
	ld1 {v0.s}[1],[x9]
	ld1 {v1.s}[1],[x8]
	fmov x8,d0
	fmov x9,d1
	cmp x8,x9
	cset w8,ne
	eor w0,w8,#0x1
	ret
1:
	subs x8,x1,#0x20
	b.hi 2f
	cmp x9,#0x8
	mov w8,#0x8
	mov w10,#0x10
	csel x8,x9,x8,cc
	cmp x9,#0x10
	ldr d0,[x0]
	ldr d1,[x2]
	ldr d2,[x0,x8]
	ldr d3,[x2,x8]
	csel x8,x9,x10,cc
	ldr d5,[x2,x9]
	ldr d4,[x0,x8]
	mov v0.d[1],v2.d[0]
	mov v1.d[1],v3.d[0]
	ldr d2,[x2,x8]
	ldr d3,[x0,x9]
	mov v4.d[1],v3.d[0]
	mov v2.d[1],v5.d[0]
	cmeq v0.16b,v0.16b,v1.16b
	cmeq v1.16b,v4.16b,v2.16b
	b 10f
2:
	cmp x1,#0x41
	b.cs 3f
	ldp q1,q0,[x0]
	add x9,x2,x8
	ldp q3,q2,[x2]
	add x8,x0,x8
	ldp q4,q5,[x9]
	cmeq v1.16b,v1.16b,v3.16b
	cmeq v0.16b,v0.16b,v2.16b
	ldp q2,q3,[x8]
	mvn v1.16b,v1.16b
	mvn v0.16b,v0.16b
	cmeq v2.16b,v2.16b,v4.16b
	cmeq v3.16b,v3.16b,v5.16b
	orn v0.16b,v0.16b,v3.16b
	orn v1.16b,v1.16b,v2.16b
	orr v0.16b,v1.16b,v0.16b
	umaxv b0,v0.16b
	fmov w8,s0
	and w8,w8,#0x1
	eor w0,w8,#0x1
	ret
3:
	and x9,x1,#0xffffffffffffffc0
	add x10,x0,#0x20
	add x12,x2,#0x20
	mov w11,#0x20
	mov x13,x1
4:
	ldp q0,q3,[x12,#-32]
	ldp q1,q2,[x10,#-32]
	ldp q4,q5,[x12],#64
	cmeq v0.16b,v1.16b,v0.16b
	cmeq v1.16b,v2.16b,v3.16b
	ldp q2,q3,[x10],#64
	mvn v0.16b,v0.16b
	mvn v1.16b,v1.16b
	cmeq v2.16b,v2.16b,v4.16b
	cmeq v3.16b,v3.16b,v5.16b
	orn v0.16b,v0.16b,v2.16b
	orn v1.16b,v1.16b,v3.16b
	orr v0.16b,v1.16b,v0.16b
	umaxv b0,v0.16b
	fmov w14,s0
	tbnz w14,#0,5f
	sub x13,x13,#0x40
	add x11,x11,#0x40
	cmp x13,#0x40
	b.cs 4b
	sub x10,x1,x9
	cmp x10,#0x20
	b.cs 6f
	b 9f
5:
	sub x9,x11,#0x20
	sub x10,x1,x9
	cmp x10,#0x20
	b.cc 9f
6:
	add x11,x0,x9
	add x9,x2,x9
7:
	ldp q0,q1,[x11],#32
	ldp q2,q3,[x9],#32
	adrp x12,.rodata.cst16+48
	cmeq v1.16b,v1.16b,v3.16b
	cmeq v0.16b,v0.16b,v2.16b
	ldr q2,[x12,:lo12:.rodata.cst16+48]
	bic v1.16b,v2.16b,v1.16b
	bic v0.16b,v2.16b,v0.16b
	ext v2.16b,v1.16b,v1.16b,#8
	ext v3.16b,v0.16b,v0.16b,#8
	zip1 v1.16b,v1.16b,v2.16b
	zip1 v0.16b,v0.16b,v3.16b
	addv h1,v1.8h
	addv h0,v0.8h
	fmov w12,s1
	fmov w13,s0
	orr w12,w13,w12
	tst w12,#0xffff
	b.ne 8f
	sub x10,x10,#0x20
	cmp x10,#0x20
	b.cs 7b
	b 9f
8:
	cmp x10,#0x1f
	b.ls 9f
	mov w8,#0x1
	eor w0,w8,#0x1
	ret
9:
	add x9,x0,x8
	add x8,x2,x8
	ldp q0,q3,[x8]
	ldp q1,q2,[x9]
	cmeq v0.16b,v1.16b,v0.16b
	cmeq v1.16b,v2.16b,v3.16b
10:
	mvn v0.16b,v0.16b
	orn v0.16b,v0.16b,v1.16b
	umaxv b0,v0.16b
	fmov w8,s0
	and w8,w8,#0x1
	eor w0,w8,#0x1
	ret

function "tk_ntp::steered_clock::SteeredClock::open",4,288
	ldr w8,[x1]
	mov x9,#0xffffffffffffffff
	neg w10,w8
	lsr x9,x9,x10
	cmp x9,x2
	mov x9,#0x7403
	movk x9,#0xed5d,lsl #16
	movk x9,#0x1,lsl #32
	ccmp x3,x9,#0x2,cs
	mov w9,#0xc9ff
	movk w9,#0x3b9a,lsl #16
	ccmp w4,w9,#0x2,ls
	b.ls 2f
1:
	movi v0.2d,#0x0
	mov w8,#0x301
	str xzr,[x0,#216]
	strh w8,[x0]
	stur q0,[x0,#8]
	stur q0,[x0,#24]
	stur q0,[x0,#40]
	stur q0,[x0,#56]
	stur q0,[x0,#72]
	stur q0,[x0,#88]
	stur q0,[x0,#104]
	stur q0,[x0,#120]
	stur q0,[x0,#136]
	stur q0,[x0,#152]
	stur q0,[x0,#168]
	stur q0,[x0,#184]
	stur q0,[x0,#200]
	ret
2:
	sub w9,w5,#0x401
	cmn w9,#0x400
	b.cc 1b
	mov x10,#0xca0000000000
	mov w9,w5
	ldur d0,[x1,#4]
	movk x10,#0x3b9a,lsl #48
	ldr w11,[x1,#4]
	str w8,[x0,#8]
	udiv x10,x10,x9
	mov w8,#0x2710
	stur d0,[x0,#12]
	stp xzr,x8,[x0,#88]
	mov w8,#0x40
	movi v1.2d,#0x0
	stp w5,w8,[x0,#104]
	adrp x8,.rodata.cst16+64
	ldr q0,[x8,:lo12:.rodata.cst16+64]
	adrp x8,.rodata.cst16+80
	strh wzr,[x0]
	str w11,[x0,#20]
	stur q0,[x0,#136]
	ldr q0,[x8,:lo12:.rodata.cst16+80]
	mov w8,#0xca00
	movk w8,#0x3b9a,lsl #16
	stp xzr,xzr,[x0,#112]
	mul x8,x3,x8
	str xzr,[x0,#128]
	stur q0,[x0,#184]
	stur q1,[x0,#40]
	stur q1,[x0,#56]
	stur q1,[x0,#72]
	add x8,x8,w4,uxtw
	stur q1,[x0,#168]
	stur q1,[x0,#152]
	stp x2,x8,[x0,#24]
	add x8,x3,#0x1
	str x2,[x0,#216]
	mul x9,x10,x9
	stp x9,x8,[x0,#200]
	ret

function "tk_script::opening::read_opening::<#187b3a1c305ebc38>",4,1476
.Ltk_script.opening.read_opening:
	stp x29,x30,[sp,#-96]!
	stp x28,x27,[sp,#16]
	mov x29,sp
	stp x26,x25,[sp,#32]
	stp x24,x23,[sp,#48]
	stp x22,x21,[sp,#64]
	stp x20,x19,[sp,#80]
	sub sp,sp,#0x410
	str xzr,[sp]
	movi v0.2d,#0x0
	mov x19,x0
	ldr x8,[x2,#272]
	sub x23,x29,#0x28
	add x28,sp,#0x280
	add x21,sp,#0x1c0
	add x22,sp,#0x20
	stur wzr,[x29,#-24]
	sub x8,x8,#0x7
	stur xzr,[x29,#-32]
	cmp x8,#0x2
	stur wzr,[x29,#-40]
	stur wzr,[x23,#3]
	stp q0,q0,[x29,#-208]
	stp q0,q0,[x29,#-112]
	stp q0,q0,[x29,#-80]
	stur xzr,[x29,#-120]
	stp xzr,xzr,[x29,#-160]
	stur xzr,[x29,#-168]
	stur wzr,[x28,#187]
	stur wzr,[x29,#-216]
	stur q0,[x28,#156]
	stp q0,q0,[sp,#224]
	stp q0,q0,[sp,#256]
	stp q0,q0,[sp,#288]
	stp q0,q0,[sp,#320]
	stp q0,q0,[sp,#352]
	stp q0,q0,[sp,#384]
	stp q0,q0,[sp,#416]
	stp q0,q0,[sp,#448]
	stp q0,q0,[sp,#480]
	stp q0,q0,[sp,#512]
	stp q0,q0,[sp,#544]
	stp q0,q0,[sp,#672]
	stur q0,[x22,#156]
	stp q0,q0,[sp,#128]
	stp q0,q0,[sp,#704]
	stp q0,q0,[sp,#736]
	stp q0,q0,[sp,#768]
	stur wzr,[x21,#187]
	stur q0,[x21,#156]
	str wzr,[sp,#632]
	stp q0,q0,[sp,#32]
	stp q0,q0,[sp,#64]
	stp q0,q0,[sp,#96]
	stp q0,q0,[sp,#160]
	stp q0,q0,[sp,#576]
	stp q0,q0,[sp,#640]
	stur wzr,[x22,#187]
	str wzr,[sp,#216]
	b.cs 5f
	mov w24,w1
	sub x0,x29,#0x50
	mov w1,#0x1
	mov w3,#0x1
	mov x20,x2
	bl .Ltk_script.fields.number32_at
	ldurb w8,[x29,#-80]
	cbnz w8,1f
	ldur w25,[x29,#-76]
	sub x0,x29,#0x50
	mov w1,#0x1
	mov x2,x20
	mov w3,#0x2
	bl .Ltk_script.fields.number32_at
	ldurb w8,[x29,#-80]
	cbnz w8,1f
	ldur w26,[x29,#-76]
	sub x0,x29,#0x50
	mov w1,#0x1
	mov x2,x20
	mov w3,#0x3
	bl .Ltk_script.fields.number32_at
	ldurb w8,[x29,#-80]
	cbz w8,7f
1:
	mov w9,#0x1
	ldurb w8,[x29,#-72]
	ldur x10,[x29,#-64]
	str x9,[x19]
	ldurb w9,[x29,#-56]
	movi v0.2d,#0x0
2:
	stp x8,x10,[x19,#8]
3:
	strb w9,[x19,#24]
4:
	stur q0,[x19,#25]
	stur q0,[x19,#41]
	stur q0,[x19,#57]
	stur q0,[x19,#73]
	stur q0,[x19,#89]
	stur q0,[x19,#105]
	stur q0,[x19,#121]
	stur q0,[x19,#137]
	stur q0,[x19,#153]
	stur q0,[x19,#169]
	stur q0,[x19,#185]
	stur q0,[x19,#201]
	stur q0,[x19,#217]
	b 6f
5:
	adrp x8,.rodata.cst16+96
	stur q0,[x19,#24]
	ldr q1,[x8,:lo12:.rodata.cst16+96]
	mov w8,#0x1
	stur q0,[x19,#40]
	str x8,[x19,#16]
	str q1,[x19]
	stur q0,[x19,#56]
	stur q0,[x19,#72]
	stur q0,[x19,#88]
	stur q0,[x19,#104]
	stur q0,[x19,#120]
	stur q0,[x19,#136]
	stur q0,[x19,#152]
	stur q0,[x19,#168]
	stur q0,[x19,#184]
	stur q0,[x19,#200]
	stur q0,[x19,#216]
6:
	str xzr,[x19,#232]
	add sp,sp,#0x410
	ldp x20,x19,[sp,#80]
	ldp x22,x21,[sp,#64]
	ldp x24,x23,[sp,#48]
	ldp x26,x25,[sp,#32]
	ldp x28,x27,[sp,#16]
	ldp x29,x30,[sp],#96
	ret
7:
	ldur w27,[x29,#-76]
	sub x0,x29,#0x70
	mov w1,#0x1
	mov x2,x20
	mov w3,#0x4
	bl .Ltk_script.fields.number_at
	ldurb w8,[x29,#-112]
	ldur x9,[x29,#-104]
	cbz w8,8f
	movi v0.2d,#0x0
	and x8,x9,#0xff
	mov w9,#0x1
	ldur x10,[x29,#-96]
	str x9,[x19]
	ldurb w9,[x29,#-88]
	b 2b
8:
	sub x0,x29,#0x90
	mov w1,#0x1
	mov x2,x20
	mov w3,#0x5
	str x9,[sp,#24]
	bl .Ltk_script.fields.time_at
	ldp x9,x10,[x29,#-136]
	ldurb w8,[x29,#-144]
	cbz w8,9f
	str x10,[x19,#16]
	ldurb w10,[x29,#-120]
	mov w8,#0x1
	and x9,x9,#0xff
	movi v0.2d,#0x0
	stp x8,x9,[x19]
	strb w10,[x19,#24]
	b 4b
9:
	sub x0,x29,#0xb0
	mov x1,x20
	stp x9,x10,[sp,#8]
	bl .Ltk_script.opening.read_hz
	ldurb w8,[x29,#-176]
	ldur w10,[x29,#-168]
	cbz w8,10f
	ldur x8,[x29,#-160]
	mov w9,#0x1
	and x10,x10,#0xff
	stp x9,x10,[x19]
	ldurb w9,[x29,#-152]
	movi v0.2d,#0x0
	str x8,[x19,#16]
	b 3b
10:
	ldurb w20,[x29,#-172]
	sub x0,x29,#0xd0
	mov w1,w24
	mov w2,w25
	mov w3,w26
	mov w4,w27
	str x10,[sp]
	bl "tk_script::opening::counter_of"
	ldurb w9,[x29,#-208]
	ldur x8,[x29,#-200]
	cbz w9,11f
	mov w10,#0x1
	and x8,x8,#0xff
	ldur x9,[x29,#-192]
	stp x10,x8,[x19]
	ldurb w10,[x29,#-184]
	movi v0.2d,#0x0
	str x9,[x19,#16]
	strb w10,[x19,#24]
	b 4b
11:
	ldur w9,[x29,#-204]
	ldr x4,[sp,#16]
	ubfx x10,x8,#40,#16
	stur x8,[x23,#12]
	lsr x24,x8,#32
	stur w9,[x29,#-32]
	lsr x26,x4,#32
	ldurb w9,[x29,#-21]
	ldur x25,[x29,#-32]
	sturh w10,[x29,#-40]
	sturb w9,[x29,#-38]
	cbz w20,12f
	ldp x20,x3,[sp]
	add x0,sp,#0xe0
	ldr x2,[sp,#24]
	sub x1,x29,#0x20
	mov w5,w20
	bl "tk_ntp::steered_clock::SteeredClock::open"
	ldrb w8,[sp,#224]
	cbz w8,13f
	mov x13,xzr
	mov w15,wzr
	mov w26,wzr
	mov x11,xzr
	mov w24,wzr
	mov w20,wzr
	mov w25,#0x1
	mov w9,#0x2
	b 14f
12:
	neg w8,w25
	mov x9,#0xffffffffffffffff
	lsr x8,x9,x8
	ldr x9,[sp,#24]
	cmp x8,x9
	b.cs 15f
	mov x11,xzr
	mov w10,wzr
	mov w12,wzr
	mov x13,xzr
	mov w15,wzr
	mov w8,#0x1
	mov w9,#0x2
	mov w14,#0x1
	b 17f
13:
	movi v0.2d,#0x0
	ldur w9,[x29,#-40]
	ldur w10,[x23,#3]
	ldp x13,x15,[sp,#8]
	ldr x11,[sp,#24]
	str w9,[sp,#216]
	mov w9,#0x1
	stur w10,[x22,#187]
	stp q0,q0,[sp,#32]
	stp q0,q0,[sp,#64]
	stp q0,q0,[sp,#96]
	stp q0,q0,[sp,#128]
	stp q0,q0,[sp,#160]
	stur q0,[x22,#156]
14:
	ldp q0,q1,[sp,#160]
	mov w10,w26
	ldur q2,[x22,#156]
	ldr w12,[sp,#216]
	ldur w14,[x22,#187]
	stp q0,q1,[sp,#768]
	ldp q0,q1,[sp,#80]
	stur q2,[x28,#156]
	stur w12,[x29,#-216]
	mov w12,w15
	mov w15,w24
	stp q0,q1,[sp,#688]
	ldr q0,[sp,#112]
	ldr q1,[sp,#32]
	stur w14,[x28,#187]
	mov x14,x25
	str q0,[sp,#720]
	ldp q0,q3,[sp,#128]
	stp q0,q3,[sp,#736]
	ldp q0,q2,[sp,#48]
	stp q1,q0,[sp,#640]
	str q2,[sp,#672]
	b 18f
15:
	mov x8,#0x7403
	ldr x9,[sp,#8]
	mov w10,wzr
	movk x8,#0xed5d,lsl #16
	mov x11,xzr
	mov w14,#0x1
	movk x8,#0x1,lsl #32
	cmp x9,x8
	mov w8,#0x1
	mov w9,#0x2
	b.hi 16f
	mov w12,#0xc9ff
	mov x13,x11
	mov w15,w10
	movk w12,#0x3b9a,lsl #16
	cmp w4,w12
	mov w12,w10
	b.hi 17f
	ldur w10,[x29,#-40]
	movi v0.2d,#0x0
	ldur w11,[x23,#3]
	ldr x13,[sp,#8]
	mov w8,wzr
	mov x9,xzr
	str w10,[sp,#632]
	mov w10,w26
	mov w12,w4
	stur w11,[x21,#187]
	ldr x11,[sp,#24]
	mov x14,x25
	mov w15,w24
	stp q0,q0,[sp,#448]
	stp q0,q0,[sp,#480]
	stp q0,q0,[sp,#512]
	stp q0,q0,[sp,#544]
	stp q0,q0,[sp,#576]
	stur q0,[x21,#156]
	b 17f
16:
	mov w12,w10
	mov x13,x11
	mov w15,w10
17:
	ldp q0,q1,[sp,#576]
	mov w20,wzr
	ldur q2,[x21,#156]
	ldr w16,[sp,#632]
	ldur w17,[x21,#187]
	stp q0,q1,[sp,#768]
	ldp q0,q1,[sp,#512]
	stur q2,[x28,#156]
	stur w16,[x29,#-216]
	stp q0,q1,[sp,#704]
	ldp q0,q2,[sp,#544]
	stur w17,[x28,#187]
	stp q0,q2,[sp,#736]
	ldp q1,q0,[sp,#448]
	stp q1,q0,[sp,#640]
	ldp q0,q2,[sp,#480]
	stp q0,q2,[sp,#672]
18:
	ldp q0,q1,[sp,#640]
	mov w8,w8
	stp x8,x9,[x19]
	ldur w8,[x29,#-216]
	ldur w9,[x28,#187]
	str x14,[x19,#16]
	stur q0,[x19,#60]
	ldp q0,q2,[sp,#672]
	stur q1,[x19,#76]
	strb w15,[x19,#24]
	stur q0,[x19,#92]
	ldp q1,q0,[sp,#736]
	stur q2,[x19,#108]
	stur w8,[x19,#25]
	stur q1,[x19,#156]
	ldp q3,q1,[sp,#704]
	str w9,[x19,#28]
	stp x11,x13,[x19,#32]
	stur q3,[x19,#124]
	ldp q3,q2,[sp,#768]
	stur q1,[x19,#140]
	ldur q1,[x28,#156]
	stp w12,w10,[x19,#48]
	str w20,[x19,#56]
	stur q1,[x19,#216]
	stur q2,[x19,#204]
	stur q3,[x19,#188]
	stur q0,[x19,#172]
	b 6b

function "tk_script::opening::read_hz::<#187b3a1c305ebc38>",4,196
.Ltk_script.opening.read_hz:
	sub sp,sp,#0x40
	movi v0.2d,#0x0
	ldr x8,[x1,#272]
	str x19,[sp,#48]
	mov x19,x0
	stp x29,x30,[sp,#32]
	add x29,sp,#0x20
	cmp x8,#0x7
	stp q0,q0,[sp]
	b.ne 1f
	str xzr,[x19]
	str wzr,[x19,#8]
	str xzr,[x19,#16]
	strb wzr,[x19,#24]
	ldp x29,x30,[sp,#32]
	ldr x19,[sp,#48]
	add sp,sp,#0x40
	ret
1:
	mov x2,x1
	mov x0,sp
	mov w1,#0x1
	mov w3,#0x7
	bl .Ltk_script.fields.number32_at
	ldrb w8,[sp]
	cbz w8,2f
	ldrb w8,[sp,#8]
	adrp x10,.rodata.cst8
	ldr x9,[sp,#16]
	ldr d0,[x10,:lo12:.rodata.cst8]
	str w8,[x19,#8]
	ldrb w8,[sp,#24]
	str x9,[x19,#16]
	str d0,[x19]
	strb w8,[x19,#24]
	ldp x29,x30,[sp,#32]
	ldr x19,[sp,#48]
	add sp,sp,#0x40
	ret
2:
	adrp x9,.rodata.cst8+8
	ldr w8,[sp,#4]
	str xzr,[x19,#16]
	ldr d0,[x9,:lo12:.rodata.cst8+8]
	strb wzr,[x19,#24]
	str w8,[x19,#8]
	str d0,[x19]
	ldp x29,x30,[sp,#32]
	ldr x19,[sp,#48]
	add sp,sp,#0x40
	ret

function "tk_script::opening::counter_of",4,360
	tbz w1,#0,2f
	sub w8,w2,#0x8
	cmp w8,#0x38
	b.hi 4f
	mov w9,wzr
	mov w8,#0x1
	mov w11,#0x1
	mov w10,#0x2
	cbz w3,3f
	sub w12,w4,#0x1
	cmp w12,#0x257
	b.hi 3f
	umull x9,w4,w3
	mov w8,#0xca00
	mov w12,#0x20
	lsr w10,w3,#1
	movk w8,#0x3b9a,lsl #16
	mov w4,#0x21
	clz x11,x9
	mov w9,w3
	cmp w11,#0x20
	csel w11,w11,w12,cc
1:
	cmp x4,#0x3
	b.cc 5f
	sub x4,x4,#0x1
	lsl x12,x8,x4
	add x12,x12,x10
	udiv x12,x12,x9
	lsr x12,x12,x11
	cbnz x12,1b
	b 6f
2:
	mov w9,wzr
	cmp w3,#0x100
	mov w8,#0x1
	mov w11,#0x1
	mov w10,#0x2
	b.cc 3f
	sub w12,w2,#0x41
	cmn w12,#0x39
	b.cc 3f
	cmp w4,#0x20
	b.hi 3f
	mov w8,#0xb
	mov x9,#0x8f5d
	umull x8,w3,w8
	movk x9,#0xf5c2,lsl #16
	movk x9,#0x5c28,lsl #32
	movk x9,#0x28f,lsl #48
	umulh x8,x8,x9
	mov w9,w3
	add x8,x8,x9
	lsr x8,x8,#32
	cbz x8,7f
	mov w9,wzr
	mov w8,#0x1
	mov w10,#0x2
3:
	stp w11,w9,[x0]
	stp x10,x8,[x0,#8]
	strb wzr,[x0,#24]
	ret
4:
	mov w8,#0x1
	mov w10,#0x2
	mov w11,#0x1
	stp w11,wzr,[x0]
	stp x10,x8,[x0,#8]
	strb wzr,[x0,#24]
	ret
5:
	mov w4,#0x1
6:
	lsl x8,x8,x4
	add x8,x8,x10
	mov x10,#0x8f5d
	udiv x3,x8,x9
	mov w9,#0xb
	movk x10,#0xf5c2,lsl #16
	movk x10,#0x5c28,lsl #32
	movk x10,#0x28f,lsl #48
	mov w8,w3
	umull x9,w8,w9
	umulh x9,x9,x10
	add x8,x9,x8
	lsr x8,x8,#32
	cbz x8,7f
	lsr w3,w3,#1
	sub w4,w4,#0x1
7:
	mov w9,w3
	orr x10,x9,x4,lsl #32
	stp wzr,w2,[x0]
	stp x10,xzr,[x0,#8]
	strb wzr,[x0,#24]
	ret

function "tk_script::running_clocks::read_clocks::<#187b3a1c305ebc38>",4,1492
.Ltk_script.running_clocks.read_clocks:
	stp x29,x30,[sp,#-96]!
	stp x28,x27,[sp,#16]
	mov x29,sp
	stp x26,x25,[sp,#32]
	stp x24,x23,[sp,#48]
	stp x22,x21,[sp,#64]
	stp x20,x19,[sp,#80]
	sub sp,sp,#0x280
	movi v0.2d,#0x0
	mov x20,x1
	mov x19,x0
	add x0,sp,#0x40
	mov w1,#0x1
	mov x2,x20
	mov w3,#0x1
	str xzr,[sp,#96]
	add x21,sp,#0xc0
	str wzr,[sp,#104]
	stp q0,q0,[sp,#32]
	stp q0,q0,[sp,#64]
	stp q0,q0,[sp,#112]
	stp q0,q0,[sp,#144]
	stp q0,q0,[sp,#176]
	stp q0,q0,[sp,#208]
	stp q0,q0,[sp,#240]
	stp q0,q0,[sp,#272]
	bl .Ltk_script.fields.number32_at
	ldrb w8,[sp,#64]
	cbnz w8,1f
	ldr w22,[sp,#68]
	add x0,sp,#0x40
	mov w1,#0x1
	mov x2,x20
	mov w3,#0x2
	bl .Ltk_script.fields.number32_at
	ldrb w8,[sp,#64]
	cbnz w8,1f
	ldr w23,[sp,#68]
	add x0,sp,#0x40
	mov w1,#0x1
	mov x2,x20
	mov w3,#0x3
	bl .Ltk_script.fields.number32_at
	ldrb w8,[sp,#64]
	cbz w8,3f
1:
	movi v0.2d,#0x0
	ldrb w8,[sp,#72]
	ldr x9,[sp,#80]
	stp x8,x9,[sp,#200]
	stur q0,[x21,#57]
	ldrb w8,[sp,#88]
	stur q0,[x21,#41]
	stur q0,[x21,#73]
	stur q0,[x21,#89]
	strb w8,[sp,#216]
	mov w8,#0x1
	str xzr,[sp,#296]
	ldur q1,[x21,#72]
	ldur q2,[x21,#56]
	stur q0,[x21,#25]
	ldur q0,[x21,#88]
	ldr x9,[sp,#296]
	stur q1,[x19,#72]
	ldur q1,[x21,#24]
	stur q0,[x19,#88]
	ldur q0,[x21,#40]
	stur q2,[x19,#56]
	ldur q2,[x21,#8]
	str x8,[x19]
	str x9,[x19,#104]
	stur q0,[x19,#40]
	stur q1,[x19,#24]
	stur q2,[x19,#8]
2:
	add sp,sp,#0x280
	ldp x20,x19,[sp,#80]
	ldp x22,x21,[sp,#64]
	ldp x24,x23,[sp,#48]
	ldp x26,x25,[sp,#32]
	ldp x28,x27,[sp,#16]
	ldp x29,x30,[sp],#96
	ret
3:
	movi v0.2d,#0x0
	ldr w24,[sp,#68]
	sub x0,x29,#0x30
	mov w1,#0x1
	mov x2,x20
	mov w3,#0x4
	stp q0,q0,[x29,#-240]
	stp q0,q0,[x29,#-208]
	stp q0,q0,[x29,#-176]
	stp q0,q0,[x29,#-144]
	stp q0,q0,[x29,#-112]
	stp q0,q0,[x29,#-80]
	stp q0,q0,[x29,#-48]
	stp q0,q0,[sp,#304]
	stp q0,q0,[sp,#336]
	stp q0,q0,[sp,#368]
	bl .Ltk_script.fields.number_at
	ldurb w8,[x29,#-48]
	ldur x25,[x29,#-40]
	cbz w8,4f
	ldurb w8,[x29,#-24]
	ldur x9,[x29,#-32]
	b 13f
4:
	sub x0,x29,#0x50
	mov w1,#0x1
	mov x2,x20
	mov w3,#0x5
	bl .Ltk_script.fields.number_at
	ldurb w8,[x29,#-80]
	ldur x26,[x29,#-72]
	cbz w8,5f
	ldurb w8,[x29,#-56]
	ldur x9,[x29,#-64]
	mov x25,x26
	b 13f
5:
	sub x0,x29,#0x70
	mov w1,#0x1
	mov x2,x20
	mov w3,#0x6
	bl .Ltk_script.fields.number_at
	ldurb w8,[x29,#-112]
	ldur x27,[x29,#-104]
	cbz w8,6f
	ldurb w8,[x29,#-88]
	ldur x9,[x29,#-96]
	mov x25,x27
	b 13f
6:
	sub x0,x29,#0x90
	mov w1,#0x1
	mov x2,x20
	mov w3,#0x7
	bl .Ltk_script.fields.number_at
	ldurb w8,[x29,#-144]
	ldur x28,[x29,#-136]
	cbz w8,7f
	ldurb w8,[x29,#-120]
	ldur x9,[x29,#-128]
	mov x25,x28
	b 13f
7:
	sub x0,x29,#0xb0
	mov w1,#0x1
	mov x2,x20
	mov w3,#0x8
	bl .Ltk_script.fields.number_at
	ldurb w8,[x29,#-176]
	ldur x10,[x29,#-168]
	cbz w8,8f
	ldurb w8,[x29,#-152]
	ldur x9,[x29,#-160]
	mov x25,x10
	b 13f
8:
	sub x0,x29,#0xd0
	mov w1,#0x1
	mov x2,x20
	mov w3,#0x9
	str x10,[sp,#24]
	bl .Ltk_script.fields.number_at
	ldurb w8,[x29,#-208]
	ldur x10,[x29,#-200]
	cbz w8,9f
	ldurb w8,[x29,#-184]
	ldur x9,[x29,#-192]
	mov x25,x10
	b 13f
9:
	sub x0,x29,#0xf0
	mov w1,#0x1
	mov x2,x20
	mov w3,#0xa
	str x10,[sp,#16]
	bl .Ltk_script.fields.number_at
	ldurb w8,[x29,#-240]
	ldur x10,[x29,#-232]
	cbz w8,10f
	ldurb w8,[x29,#-216]
	ldur x9,[x29,#-224]
	mov x25,x10
	b 13f
10:
	add x0,sp,#0x170
	mov w1,#0x1
	mov x2,x20
	mov w3,#0xb
	str x10,[sp,#8]
	bl .Ltk_script.fields.number_at
	ldrb w8,[sp,#368]
	ldr x21,[sp,#376]
	cbz w8,12f
	ldrb w8,[sp,#392]
	ldr x9,[sp,#384]
	mov x25,x21
11:
	add x21,sp,#0xc0
	b 13f
12:
	add x0,sp,#0x150
	mov w1,#0x1
	mov x2,x20
	mov w3,#0xc
	bl .Ltk_script.fields.number_at
	ldrb w8,[sp,#336]
	ldr x9,[sp,#344]
	str x9,[sp]
	cbz w8,14f
	ldrb w8,[sp,#360]
	ldr x9,[sp,#352]
	add x21,sp,#0xc0
	ldr x25,[sp]
13:
	movi v0.2d,#0x0
	and x10,x25,#0xff
	strb w8,[sp,#216]
	stp x10,x9,[sp,#200]
	mov w8,#0x1
	ldur q1,[x21,#8]
	str x8,[x19]
	str xzr,[x19,#104]
	stur q0,[x21,#25]
	stur q0,[x21,#41]
	stur q0,[x21,#57]
	stur q0,[x21,#73]
	stur q0,[x21,#89]
	ldur q0,[x21,#24]
	stur q1,[x19,#8]
	ldur q1,[x21,#40]
	stur q0,[x19,#24]
	ldur q0,[x21,#56]
	stur q1,[x19,#40]
	stur q0,[x19,#56]
	ldur q0,[x21,#72]
	str xzr,[sp,#296]
	stur q0,[x19,#72]
	ldur q0,[x21,#88]
	stur q0,[x19,#88]
	b 2b
14:
	add x0,sp,#0x130
	mov w1,#0x1
	mov x2,x20
	mov w3,#0xd
	bl .Ltk_script.fields.number_at
	ldrb w8,[sp,#304]
	ldr x10,[sp,#312]
	cbz w8,15f
	ldrb w8,[sp,#328]
	ldr x9,[sp,#320]
	mov x25,x10
	b 11b
15:
	ldr x8,[sp,#24]
	add x0,sp,#0x20
	mov w1,#0x1
	mov x2,x20
	mov w3,#0xe
	stp x25,x26,[sp,#112]
	str x8,[sp,#144]
	ldr x8,[sp,#16]
	stp x27,x28,[sp,#128]
	str x8,[sp,#152]
	ldr x8,[sp,#8]
	stp x8,x21,[sp,#160]
	ldr x8,[sp]
	stp x8,x10,[sp,#176]
	bl .Ltk_script.fields.signed_at
	ldrb w8,[sp,#32]
	ldr x21,[sp,#40]
	cbz w8,16f
	and x8,x21,#0xff
	b 17f
16:
	add x0,sp,#0x20
	mov w1,#0x1
	mov x2,x20
	mov w3,#0xf
	bl .Ltk_script.fields.signed_at
	ldrb w8,[sp,#32]
	ldr x4,[sp,#40]
	cbz w8,18f
	and x8,x4,#0xff
17:
	movi v0.2d,#0x0
	ldr x9,[sp,#48]
	ldrb w10,[sp,#56]
	stp x8,x9,[sp,#200]
	add x8,sp,#0xc0
	mov w9,#0x1
	strb w10,[sp,#216]
	stur q0,[x8,#25]
	stur q0,[x8,#41]
	stur q0,[x8,#57]
	ldur q1,[x8,#40]
	stur q0,[x8,#73]
	ldur q2,[x8,#56]
	stur q0,[x8,#89]
	ldur q0,[x8,#24]
	stur q1,[x19,#40]
	ldur q1,[x8,#72]
	stur q0,[x19,#24]
	ldur q0,[x8,#88]
	str x9,[x19]
	stur q0,[x19,#88]
	ldur q0,[x8,#8]
	str xzr,[sp,#296]
	str xzr,[x19,#104]
	stur q1,[x19,#72]
	stur q2,[x19,#56]
	stur q0,[x19,#8]
	b 2b
18:
	cmp w23,#0x100
	b.cc 19f
	sub w8,w22,#0x41
	cmn w8,#0x39
	b.cc 19f
	cmp w24,#0x20
	b.hi 19f
	mov w8,#0xb
	mov x9,#0x8f5d
	umull x8,w23,w8
	movk x9,#0xf5c2,lsl #16
	movk x9,#0x5c28,lsl #32
	movk x9,#0x28f,lsl #48
	umulh x8,x8,x9
	add x8,x8,x23
	lsr x8,x8,#32
	cbz x8,20f
19:
	movi v0.2d,#0x0
	adrp x8,.rodata.cst16+112
	mov w9,#0x1
	ldr q1,[x8,:lo12:.rodata.cst16+112]
	add x8,sp,#0xc0
	str xzr,[sp,#296]
	str x9,[x19]
	stur q1,[x8,#8]
	stur q0,[x8,#72]
	stur q0,[x8,#56]
	stur q0,[x8,#88]
	ldur q1,[x8,#56]
	stur q0,[x8,#24]
	stur q0,[x8,#40]
	ldur q0,[x8,#72]
	stur q1,[x19,#56]
	ldur q1,[x8,#88]
	stur q0,[x19,#72]
	ldur q0,[x8,#24]
	stur q1,[x19,#88]
	stur q0,[x19,#24]
	ldur q0,[x8,#40]
	str xzr,[x19,#104]
	stur q0,[x19,#40]
	ldur q0,[x8,#8]
	stur q0,[x19,#8]
	b 2b
20:
	and x8,x23,#0xffffff00
	and w9,w23,#0xff
	add x0,sp,#0xc0
	orr x8,x8,x24,lsl #32
	add x1,sp,#0x60
	add x2,sp,#0x70
	mov x3,x21
	str w22,[sp,#96]
	orr x8,x8,x9
	stur x8,[sp,#100]
	bl "tk_script::running_clocks::clocks_from"
	add x8,sp,#0xc0
	ldrb w9,[sp,#192]
	ldur q0,[x8,#56]
	ldur q1,[x8,#72]
	str x9,[x19]
	ldr x9,[sp,#296]
	stur q0,[x19,#56]
	ldur q0,[x8,#88]
	stur q1,[x19,#72]
	ldur q1,[x8,#8]
	stur q0,[x19,#88]
	ldur q0,[x8,#24]
	stur q1,[x19,#8]
	stur q0,[x19,#24]
	ldur q0,[x8,#40]
	str x9,[x19,#104]
	stur q0,[x19,#40]
	b 2b

function "tk_script::running_clocks::clocks_from",4,572
	str x21,[sp,#-32]!
	ldr x8,[x1]
	mov x9,#0xffffffffffffffff
	stp x20,x19,[sp,#16]
	neg w10,w8
	lsr x11,x9,x10
	ldp x9,x10,[x2,#8]
	cmp x9,x11
	ccmp x10,#0x0,#0x4,ls
	b.eq 1f
	lsr x17,x8,#32
	mov w11,#0xb
	mov x12,#0x8f5d
	movk x12,#0xf5c2,lsl #16
	mov w6,#0xca00
	mov w16,#0x8ff
	umull x11,w17,w11
	movk x12,#0x5c28,lsl #32
	movk w6,#0x3b9a,lsl #16
	movk x12,#0x28f,lsl #48
	movk w16,#0x3864,lsl #16
	mov w18,#0xd41
	movk w18,#0x3,lsl #16
	umulh x11,x11,x12
	ldr w12,[x1,#8]
	lsl x5,x6,x12
	add x13,x11,x17
	ldp x11,x14,[x2,#24]
	cmp x10,x13
	ldp x13,x15,[x2,#56]
	ccmp x11,x5,#0x2,ls
	ccmp x14,x16,#0x2,cc
	ldr x16,[x2,#72]
	ccmp x13,x18,#0x2,ls
	mov w18,#0x50ff
	ccmp x15,x5,#0x2,ls
	movk w18,#0x3f2e,lsl #16
	ccmp x16,x18,#0x2,cc
	b.ls 2f
1:
	movi v0.2d,#0x0
	adrp x8,.rodata.cst16+128
	mov w9,#0x1
	ldr q1,[x8,:lo12:.rodata.cst16+128]
	str x9,[x0,#16]
	str xzr,[x0,#104]
	str q1,[x0]
	stur q0,[x0,#24]
	stur q0,[x0,#40]
	stur q0,[x0,#56]
	stur q0,[x0,#72]
	stur q0,[x0,#88]
	ldp x20,x19,[sp,#16]
	ldr x21,[sp],#32
	ret
2:
	lsr x18,x11,x12
	madd x19,x14,x6,x18
	mov x7,#0xffffffffffff27ff
	ldr x18,[x2,#48]
	movk x7,#0xcd0d,lsl #16
	movk x7,#0x7fff,lsl #48
	adds x1,x18,x19
	csinv x1,x1,xzr,cc
	cmp x1,x7
	b.hi 1b
	lsr x1,x13,#1
	madd x19,x1,x6,x19
	ldr x6,[x2,#40]
	adds x19,x6,x19
	csinv x19,x19,xzr,cc
	cmp x19,x7
	b.hi 1b
	ldr x2,[x2]
	mov x7,#0x4000000000000000
	cmp x2,x7
	b.hi 1b
	mov x7,#0xffffffffffffdcd8
	add x7,x4,x7
	cmp x7,#0x7d0
	b.hi 1b
	mov x7,#0xffffffffffff0000
	mov w19,#0x1f40000
	mov w20,#0x640000
	movk x7,#0xfe0c,lsl #16
	cmp x3,x7
	csel x7,x3,x7,gt
	cmp x7,x19
	csel x7,x7,x19,lt
	madd x19,x4,x20,x7
	and x7,x7,#0xffff
	umull x7,w17,w7
	lsr x19,x19,#16
	mul x19,x17,x19
	add x7,x19,x7,lsr #16
	mov x19,#0x34db
	movk x19,#0xd7b6,lsl #16
	movk x19,#0xde82,lsl #32
	movk x19,#0x431b,lsl #48
	umulh x7,x7,x19
	lsr x7,x7,#18
	cmp w10,w7
	b.ne 1b
	mov w7,#0xb9ac
	mov x19,#0xf6c7
	umulh x20,x16,x5
	movk w7,#0xd,lsl #16
	movk x19,#0xd05a,lsl #16
	umull x7,w17,w7
	movk x19,#0x637b,lsl #32
	movk x19,#0x8,lsl #48
	umulh x7,x7,x19
	mul x19,x16,x5
	lsr x7,x7,#7
	adds x19,x19,x15
	umulh x21,x19,x7
	cinc x20,x20,cs
	madd x20,x20,x7,x21
	mul x21,x14,x5
	umulh x5,x14,x5
	mul x7,x19,x7
	adds x19,x21,x11
	umulh x21,x19,x17
	cinc x5,x5,cs
	mul x19,x19,x17
	madd x17,x5,x17,x21
	cmp x19,x7
	sbcs xzr,x17,x20
	b.cc 1b
	orr x10,x12,x10,lsl #32
	stp xzr,x8,[x0]
	and w8,w13,#0x1
	stp x6,x14,[x0,#32]
	stp x10,x9,[x0,#16]
	stp x11,x16,[x0,#48]
	stp x15,x18,[x0,#64]
	str w1,[x0,#80]
	strb w8,[x0,#84]
	sturh wzr,[x0,#85]
	strb wzr,[x0,#87]
	stp x3,x4,[x0,#88]
	str x2,[x0,#104]
	ldp x20,x19,[sp,#16]
	ldr x21,[sp],#32
	ret

	.section ".text.unlikely.tk_clock::read_base::ReadBase::nanos_at_last","ax",%progbits
	.balign 4
	.type "tk_clock::read_base::ReadBase::nanos_at_last",%function
	.size "tk_clock::read_base::ReadBase::nanos_at_last",208
"tk_clock::read_base::ReadBase::nanos_at_last":
	ldp x9,x8,[x0,#32]
	and w13,w1,#0xff
	ldr x12,[x0,#24]
	mov w10,#0xca00
	mov x11,xzr
	cmp w13,#0x2
	movk w10,#0x3b9a,lsl #16
	b.le 1f
	cmp w13,#0x4
	b.gt 3f
	cmp w13,#0x3
	b.ne 2f
	ldr w11,[x0,#72]
	umaddl x11,w11,w10,x12
	ldr w12,[x0,#8]
	lsr x8,x8,x12
	madd x8,x9,x10,x8
	adds x8,x11,x8
	csinv x0,x8,xzr,cc
	ret
1:
	cbz w13,2f
	cmp w13,#0x1
	b.eq 4f
	ldr x11,[x0,#64]
	ldr w12,[x0,#8]
	lsr x8,x8,x12
	madd x8,x9,x10,x8
	adds x8,x11,x8
	csinv x0,x8,xzr,cc
	ret
2:
	mov x11,x12
	ldr w12,[x0,#8]
	lsr x8,x8,x12
	madd x8,x9,x10,x8
	adds x8,x11,x8
	csinv x0,x8,xzr,cc
	ret
3:
	cmp w13,#0x5
	b.ne 5f
4:
	ldr w12,[x0,#8]
	lsr x8,x8,x12
	madd x8,x9,x10,x8
	adds x8,x11,x8
	csinv x0,x8,xzr,cc
	ret
5:
	ldp x9,x8,[x0,#48]
	ldr w12,[x0,#8]
	lsr x8,x8,x12
	madd x8,x9,x10,x8
	adds x8,xzr,x8
	csinv x0,x8,xzr,cc
	ret

function "tk_clock::clock::Clock::update_late",4,628
	sub sp,sp,#0x70
	ldr x8,[x0,#16]
	ldr w9,[x0]
	stp x22,x21,[sp,#80]
	ldr w4,[x0,#12]
	stp x24,x23,[sp,#64]
	sub x8,x1,x8
	neg w9,w9
	stp x20,x19,[sp,#96]
	lsl x8,x8,x9
	ldp x24,x2,[x0,#32]
	mov x20,x1
	mov x19,x0
	stp x29,x30,[sp,#32]
	lsr x21,x8,x9
	stp x26,x25,[sp,#48]
	add x29,sp,#0x20
	umulh x8,x4,x21
	cmp xzr,x8
	b.ne 1f
	mul x8,x21,x4
	adds x23,x2,x8
	b.cc 2f
1:
	ldr w22,[x19,#8]
	add x0,sp,#0x8
	mov x3,x21
	mov w1,w22
	bl "tk_counter::counter::CounterDesc::split_long"
	ldrb w8,[sp,#8]
	cmp w8,#0x1
	b.ne 11f
	ldp x25,x23,[sp,#16]
	mov x8,#0x7d03
	movk x8,#0x25c1,lsl #16
	movk x8,#0x2,lsl #32
	cmp x25,x8
	b.ls 5f
	b 11f
2:
	ldr w22,[x19,#8]
	mov w8,#0xca00
	movk w8,#0x3b9a,lsl #16
	lsl x8,x8,x22
	subs x9,x23,x8
	b.cs 3f
	mov x25,xzr
	b 5f
3:
	cmp x9,x8
	b.cs 4f
	mov w25,#0x1
	mov x23,x9
	b 5f
4:
	lsr x9,x23,x22
	mov x10,#0x5a53
	movk x10,#0xa09b,lsl #16
	lsr x9,x9,#9
	movk x10,#0xb82f,lsl #32
	movk x10,#0x44,lsl #48
	umulh x9,x9,x10
	lsr x25,x9,#11
	msub x23,x25,x8,x23
	mov x8,#0x7d03
	movk x8,#0x25c1,lsl #16
	movk x8,#0x2,lsl #32
	cmp x25,x8
	b.hi 11f
5:
	ldr w4,[x19,#4]
	ldp x26,x2,[x19,#48]
	umulh x8,x4,x21
	cmp xzr,x8
	b.ne 6f
	mul x8,x21,x4
	adds x8,x2,x8
	b.cc 7f
6:
	add x0,sp,#0x8
	mov w1,w22
	mov x3,x21
	bl "tk_counter::counter::CounterDesc::split_long"
	ldrb w8,[sp,#8]
	cmp w8,#0x1
	b.ne 11f
	ldp x9,x8,[sp,#16]
	mov x10,#0x7d03
	movk x10,#0x25c1,lsl #16
	movk x10,#0x2,lsl #32
	cmp x9,x10
	b.ls 10f
	b 11f
7:
	mov w9,#0xca00
	movk w9,#0x3b9a,lsl #16
	lsl x10,x9,x22
	subs x11,x8,x10
	b.cs 8f
	mov x9,xzr
	b 10f
8:
	cmp x11,x10
	b.cs 9f
	mov w9,#0x1
	mov x8,x11
	b 10f
9:
	mov w9,w22
	mov x11,#0x5a53
	lsr x9,x8,x9
	movk x11,#0xa09b,lsl #16
	movk x11,#0xb82f,lsl #32
	lsr x9,x9,#9
	movk x11,#0x44,lsl #48
	umulh x9,x9,x11
	lsr x9,x9,#11
	msub x8,x9,x10,x8
	mov x10,#0x7d03
	movk x10,#0x25c1,lsl #16
	movk x10,#0x2,lsl #32
	cmp x9,x10
	b.hi 11f
10:
	mov w11,#0x8ff
	add x10,x25,x24
	movk w11,#0x3864,lsl #16
	cmp x10,x11
	b.ls 13f
11:
	mov w0,#0x1
	mov w1,#0x5
12:
	ldp x20,x19,[sp,#96]
	ldp x22,x21,[sp,#80]
	ldp x24,x23,[sp,#64]
	ldp x26,x25,[sp,#48]
	ldp x29,x30,[sp,#32]
	add sp,sp,#0x70
	ret
13:
	mov w11,#0xca00
	lsr x12,x23,x22
	movk w11,#0x3b9a,lsl #16
	madd x13,x10,x11,x12
	ldr x12,[x19,#64]
	adds x14,x12,x13
	mov x12,#0xffffffffffff27ff
	movk x12,#0xcd0d,lsl #16
	csinv x14,x14,xzr,cc
	movk x12,#0x7fff,lsl #48
	cmp x14,x12
	b.hi 14f
	ldr w14,[x19,#72]
	umaddl x11,w14,w11,x13
	ldr x13,[x19,#24]
	adds x11,x13,x11
	csinv x11,x11,xzr,cc
	cmp x11,x12
	b.ls 15f
14:
	mov w1,#0x5
	mov w0,#0x1
	b 12b
15:
	mov w0,wzr
	mov w1,wzr
	add x9,x9,x26
	str x20,[x19,#16]
	stp x10,x23,[x19,#32]
	stp x9,x8,[x19,#48]
	b 12b

function "tk_counter::counter::CounterDesc::split_long",4,236
	lsr x8,x3,#32
	mov x9,#0x5a53
	movk x9,#0xa09b,lsl #16
	umull x10,w8,w4
	movk x9,#0xb82f,lsl #32
	movk x9,#0x44,lsl #48
	lsr x8,x10,#9
	umulh x8,x8,x9
	lsr x8,x8,#11
	lsr x11,x8,x1
	cmp x11,#0x4
	b.cc 1f
	stp xzr,xzr,[x0]
	str xzr,[x0,#16]
	ret
1:
	mov w11,w4
	mov w12,w1
	mov w15,#0xca00
	umull x11,w3,w11
	movk w15,#0x3b9a,lsl #16
	msub x10,x8,x15,x10
	lsr x13,x11,x12
	lsr x13,x13,#9
	add x10,x2,x10,lsl #32
	umulh x14,x13,x9
	lsl x13,x15,x12
	sub x15,x11,x13
	cmp x15,x13
	lsr x14,x14,#11
	msub x16,x14,x13,x11
	csinc x14,x14,xzr,cs
	csel x15,x15,x16,cc
	cmp x11,x13
	csel x11,x11,x15,cc
	add x10,x10,x11
	csel x11,xzr,x14,cc
	subs x14,x10,x13
	b.cs 2f
	mov x9,xzr
	b 4f
2:
	cmp x14,x13
	b.cs 3f
	mov w9,#0x1
	mov x10,x14
	b 4f
3:
	lsr x12,x10,x12
	lsr x12,x12,#9
	umulh x9,x12,x9
	lsr x9,x9,#11
	msub x10,x9,x13,x10
4:
	mov w12,#0x20
	add x9,x11,x9
	mov w11,#0x1
	sub w12,w12,w1
	str x10,[x0,#16]
	lsl x8,x8,x12
	add x8,x9,x8
	stp x11,x8,[x0]
	ret

function "tk_clock::clock::Clock::apply_any",4,2112
	sub sp,sp,#0xa0
	stp x28,x27,[sp,#80]
	ldrb w28,[x2]
	stp x26,x25,[sp,#96]
	ldp w26,w8,[x2,#16]
	stp x24,x23,[sp,#112]
	ldr x24,[x2,#8]
	cmp w28,#0x8
	stp x22,x21,[sp,#128]
	ldrb w22,[x0,#76]
	stp x29,x30,[sp,#64]
	add x29,sp,#0x40
	stp x20,x19,[sp,#144]
	b.eq 1f
	tbz w22,#0,1f
	mov w9,#0x1
	mov w8,#0x1
	b 4f
1:
	cmp w28,#0x8
	b.ne 2f
	cbnz w22,2f
	mov w8,#0x1
	mov w9,#0x2
	b 4f
2:
	ldr w9,[x0]
	mov x10,#0xffffffffffffffff
	neg w9,w9
	lsr x10,x10,x9
	cmp x10,x1
	b.cs 5f
3:
	mov w8,#0x1
	mov w9,#0x3
4:
	ldp x20,x19,[sp,#144]
	mov w0,w8
	ldp x22,x21,[sp,#128]
	mov w1,w9
	ldp x24,x23,[sp,#112]
	ldp x26,x25,[sp,#96]
	ldp x28,x27,[sp,#80]
	ldp x29,x30,[sp,#64]
	add sp,sp,#0xa0
	ret
5:
	orr x27,x26,x8,lsl #32
	cmp w28,#0x3
	b.le 7f
	cmp w28,#0x5
	b.le 9f
	cmp w28,#0x6
	b.eq 10f
	cmp w28,#0x7
	b.eq 13f
	mov x8,#0x7d03
	mov w9,#0x3
	movk x8,#0x25c1,lsl #16
	movk x8,#0x2,lsl #32
	add x8,x8,#0x1
	cmp x24,x8
	mov w8,#0x1
	b.cs 4b
	mov w10,#0xca00
	movk w10,#0x3b9a,lsl #16
	cmp w26,w10
	b.cs 4b
	mov w9,#0xca00
	ldp x11,x2,[x0,#32]
	movk w9,#0x3b9a,lsl #16
	ldr w19,[x0,#8]
	mov x13,#0xffffffffffff27ff
	madd x10,x24,x9,x26
	movk x13,#0xcd0d,lsl #16
	lsr x12,x2,x19
	movk x13,#0x7fff,lsl #48
	madd x14,x11,x9,x12
	ldr x12,[x0,#64]
	add x12,x12,x10
	adds x15,x12,x14
	csinv x15,x15,xzr,cc
	cmp x15,x13
	b.hi 6f
	ldr w16,[x0,#72]
	ldr x15,[x0,#24]
	umaddl x9,w16,w9,x14
	add x15,x15,x10
	adds x9,x15,x9
	csinv x9,x9,xzr,cc
	cmp x9,x13
	b.ls 23f
6:
	mov w9,#0x5
	b 4b
7:
	cmp w28,#0x1
	b.gt 8f
	cbz w28,13f
	mov x8,#0x7403
	mov w9,#0x3
	movk x8,#0xed5d,lsl #16
	movk x8,#0x1,lsl #32
	cmp x24,x8
	mov w8,#0x1
	b.hi 4b
	mov w11,#0xca00
	movk w11,#0x3b9a,lsl #16
	cmp w26,w11
	b.cc 13f
	b 4b
8:
	cmp w28,#0x2
	b.ne 13f
	mov w8,#0xca00
	movk w8,#0x3b9a,lsl #16
	cmp w26,w8
	b.cs 3b
	b 13f
9:
	cmp w28,#0x4
	b.ne 12f
	mov x8,#0xffffffffffffdcd8
	add x8,x24,x8
	cmp x8,#0x7d1
	b.cs 3b
	b 13f
10:
	cmp x24,#0x1
	b.eq 11f
	cmn x24,#0x1
	b.ne 3b
11:
	mov w8,#0x86a1
	movk w8,#0x1,lsl #16
	cmp x27,x8
	b.cs 3b
	b 13f
12:
	mov w8,#0x86a1
	movk w8,#0x1,lsl #16
	cmp x24,x8
	b.cs 3b
13:
	ldr x8,[x0,#16]
	sub x8,x1,x8
	and x21,x8,x10
	sub x8,x10,x21
	cmp x8,x21
	b.cs 14f
	mov w8,#0x1
	mov w9,#0x4
	b 4b
14:
	ldr w4,[x0,#12]
	ldp x25,x2,[x0,#32]
	umulh x8,x4,x21
	stp x4,x1,[sp,#24]
	cmp xzr,x8
	b.ne 15f
	mul x8,x21,x4
	adds x11,x2,x8
	b.cc 16f
15:
	ldr w19,[x0,#8]
	mov x20,x0
	sub x0,x29,#0x18
	mov x3,x21
	mov w1,w19
	bl "tk_counter::counter::CounterDesc::split_long"
	ldurb w8,[x29,#-24]
	cmp w8,#0x1
	b.ne 27f
	ldp x23,x11,[x29,#-16]
	mov x8,#0x7d03
	movk x8,#0x25c1,lsl #16
	movk x8,#0x2,lsl #32
	cmp x23,x8
	b.ls 19f
	b 27f
16:
	ldr w19,[x0,#8]
	mov w8,#0xca00
	mov x20,x0
	movk w8,#0x3b9a,lsl #16
	lsl x8,x8,x19
	subs x9,x11,x8
	b.cs 17f
	mov x23,xzr
	b 19f
17:
	cmp x9,x8
	b.cs 18f
	mov w23,#0x1
	mov x11,x9
	b 19f
18:
	lsr x9,x11,x19
	mov x10,#0x5a53
	movk x10,#0xa09b,lsl #16
	lsr x9,x9,#9
	movk x10,#0xb82f,lsl #32
	movk x10,#0x44,lsl #48
	umulh x9,x9,x10
	lsr x23,x9,#11
	msub x11,x23,x8,x11
	mov x8,#0x7d03
	movk x8,#0x25c1,lsl #16
	movk x8,#0x2,lsl #32
	cmp x23,x8
	b.hi 27f
19:
	ldr w4,[x20,#4]
	ldp x9,x2,[x20,#48]
	umulh x8,x4,x21
	stp x9,x11,[sp,#8]
	cmp xzr,x8
	b.ne 20f
	mul x8,x21,x4
	adds x10,x2,x8
	b.cc 21f
20:
	sub x0,x29,#0x18
	mov w1,w19
	mov x3,x21
	bl "tk_counter::counter::CounterDesc::split_long"
	ldurb w8,[x29,#-24]
	cmp w8,#0x1
	b.ne 27f
	ldp x8,x10,[x29,#-16]
	mov x9,#0x7d03
	movk x9,#0x25c1,lsl #16
	movk x9,#0x2,lsl #32
	cmp x8,x9
	b.ls 26f
	b 27f
21:
	mov w8,#0xca00
	movk w8,#0x3b9a,lsl #16
	lsl x9,x8,x19
	subs x11,x10,x9
	b.cs 22f
	mov x8,xzr
	b 26f
22:
	cmp x11,x9
	b.cs 25f
	mov w8,#0x1
	mov x10,x11
	b 26f
23:
	ldp x17,x24,[x0,#80]
	mov w22,wzr
	ldp x14,x10,[x0,#48]
	ldr x13,[x0]
	ldr w18,[x0,#12]
24:
	mov w9,wzr
	mov w8,wzr
	str x13,[x0]
	stp w19,w18,[x0,#8]
	stp x10,x12,[x0,#56]
	stp x1,x15,[x0,#16]
	stp x11,x2,[x0,#32]
	str x14,[x0,#48]
	str w16,[x0,#72]
	strb w22,[x0,#76]
	stp x17,x24,[x0,#80]
	b 4b
25:
	mov w8,w19
	mov x11,#0x5a53
	lsr x8,x10,x8
	movk x11,#0xa09b,lsl #16
	movk x11,#0xb82f,lsl #32
	lsr x8,x8,#9
	movk x11,#0x44,lsl #48
	umulh x8,x8,x11
	lsr x8,x8,#11
	msub x10,x8,x9,x10
	mov x9,#0x7d03
	movk x9,#0x25c1,lsl #16
	movk x9,#0x2,lsl #32
	cmp x8,x9
	b.hi 27f
26:
	mov w9,#0x8ff
	add x11,x23,x25
	movk w9,#0x3864,lsl #16
	cmp x11,x9
	b.ls 28f
27:
	mov w8,#0x1
	mov w9,#0x5
	b 4b
28:
	ldr x9,[sp,#8]
	ldr x13,[x20]
	mov x0,x20
	ldr x15,[x20,#24]
	ldr x12,[x20,#64]
	cmp w28,#0x3
	ldr w16,[x20,#72]
	add x14,x8,x9
	b.gt 29f
	ldr x2,[sp,#16]
	cmp w28,#0x1
	b.gt 30f
	mov w8,#0xca00
	lsr x9,x2,x19
	movk w8,#0x3b9a,lsl #16
	cbnz w28,32f
	madd x17,x11,x8,x9
	mov x9,#0xffffffffffff27ff
	movk x9,#0xcd0d,lsl #16
	movk x9,#0x7fff,lsl #48
	adds x18,x12,x17
	csinv x18,x18,xzr,cc
	cmp x18,x9
	b.hi 27b
	umaddl x8,w16,w8,x17
	adds x8,x15,x8
	csinv x8,x8,xzr,cc
	cmp x8,x9
	b.hi 27b
	b 33f
29:
	ldr x2,[sp,#16]
	cmp w28,#0x5
	b.gt 31f
	cmp w28,#0x4
	b.ne 34f
	mov w9,#0xca00
	lsr x8,x2,x19
	movk w9,#0x3b9a,lsl #16
	madd x18,x11,x9,x8
	mov x8,#0xffffffffffff27ff
	movk x8,#0xcd0d,lsl #16
	movk x8,#0x7fff,lsl #48
	adds x17,x12,x18
	csinv x17,x17,xzr,cc
	cmp x17,x8
	b.hi 27b
	ldr x17,[x0,#80]
	mov x1,#0xffffffffffff0000
	umaddl x18,w16,w9,x18
	movk x1,#0xfe0c,lsl #16
	cmp x17,x1
	csel x9,x17,x1,gt
	mov w1,#0x1f40000
	cmp x9,x1
	csel x9,x9,x1,lt
	adds x18,x15,x18
	csinv x18,x18,xzr,cc
	cmp x18,x8
	b.hi 27b
	mov w8,#0x640000
	lsr x18,x13,#32
	ldr x1,[sp,#32]
	madd x8,x24,x8,x9
	and x9,x9,#0xffff
	umull x9,w9,w18
	lsr x8,x8,#16
	mul x8,x8,x18
	add x8,x8,x9,lsr #16
	mov x9,#0x34db
	movk x9,#0xd7b6,lsl #16
	movk x9,#0xde82,lsl #32
	movk x9,#0x431b,lsl #48
	umulh x8,x8,x9
	lsr x8,x8,#18
	mov w18,w8
	b 24b
30:
	mov w9,#0xca00
	cmp w28,#0x2
	movk w9,#0x3b9a,lsl #16
	b.ne 35f
	lsr x8,x2,x19
	mov x18,#0xffffffffffff27ff
	madd x8,x11,x9,x8
	movk x18,#0xcd0d,lsl #16
	movk x18,#0x7fff,lsl #48
	adds x17,x12,x8
	csinv x17,x17,xzr,cc
	cmp x17,x18
	b.hi 27b
	mov x18,#0xfa0a
	cmp x24,#0x0
	movk x18,#0x4b82,lsl #16
	cneg x17,x24,mi
	movk x18,#0x4,lsl #32
	cmp x17,x18
	b.cs 3b
	mul x9,x17,x9
	add x17,x8,x26
	add x15,x17,x15
	tbnz x24,#63,39f
	adds x17,x9,x15
	b.cs 3b
	b 40f
31:
	cmp w28,#0x6
	b.ne 36f
	mov w9,#0xca00
	lsr x8,x2,x19
	mov x17,#0xffffffffffff27ff
	movk w9,#0x3b9a,lsl #16
	movk x17,#0xcd0d,lsl #16
	madd x8,x11,x9,x8
	movk x17,#0x7fff,lsl #48
	adds x16,x12,x8
	csinv x16,x16,xzr,cc
	cmp x16,x17
	b.hi 27b
	mov x17,#0xfa0a
	cmp x24,#0x0
	movk x17,#0x4b82,lsl #16
	cneg x16,x24,mi
	movk x17,#0x4,lsl #32
	cmp x16,x17
	b.cs 3b
	mul x9,x16,x9
	add x15,x15,x8
	tbnz x24,#63,41f
	adds x16,x9,x15
	b.cs 3b
	b 42f
32:
	madd x9,x11,x8,x9
	mov x17,#0xffffffffffff27ff
	movk x17,#0xcd0d,lsl #16
	movk x17,#0x7fff,lsl #48
	adds x15,x12,x9
	csinv x15,x15,xzr,cc
	cmp x15,x17
	b.hi 27b
	madd x8,x24,x8,x26
	subs x15,x8,x9
	b.cc 3b
33:
	ldp x17,x24,[x0,#80]
	b 37f
34:
	mov w8,#0xca00
	lsr x9,x2,x19
	cmp x24,#0x0
	movk w8,#0x3b9a,lsl #16
	mov x17,#0xffffffffffff27ff
	cneg x16,x24,mi
	madd x9,x11,x8,x9
	movk x17,#0xcd0d,lsl #16
	movk x17,#0x7fff,lsl #48
	adds x18,x12,x9
	csinv x18,x18,xzr,cc
	cmp x18,x17
	b.hi 27b
	umaddl x8,w16,w8,x9
	adds x8,x15,x8
	csinv x8,x8,xzr,cc
	cmp x8,x17
	b.hi 27b
	ldp x17,x24,[x0,#80]
	b 37f
35:
	lsr x8,x2,x19
	madd x17,x11,x9,x8
	mov x8,#0xffffffffffff27ff
	movk x8,#0xcd0d,lsl #16
	movk x8,#0x7fff,lsl #48
	adds x18,x12,x17
	csinv x18,x18,xzr,cc
	cmp x18,x8
	b.hi 27b
	mov x18,#0xffffffffffff0000
	umaddl x17,w16,w9,x17
	movk x18,#0xfe0c,lsl #16
	cmp x24,x18
	csel x9,x24,x18,gt
	mov w18,#0x1f40000
	cmp x9,x18
	csel x9,x9,x18,lt
	adds x17,x15,x17
	csinv x17,x17,xzr,cc
	cmp x17,x8
	b.hi 27b
	ldr x8,[x0,#88]
	mov w17,#0x640000
	lsr x18,x13,#32
	ldr x1,[sp,#32]
	madd x17,x8,x17,x9
	and x9,x9,#0xffff
	umull x9,w18,w9
	lsr x17,x17,#16
	mul x17,x17,x18
	add x9,x17,x9,lsr #16
	mov x17,#0x34db
	movk x17,#0xd7b6,lsl #16
	movk x17,#0xde82,lsl #32
	movk x17,#0x431b,lsl #48
	umulh x9,x9,x17
	mov x17,x24
	mov x24,x8
	lsr x9,x9,#18
	mov w18,w9
	b 24b
36:
	mov w8,#0xca00
	lsr x9,x2,x19
	movk w8,#0x3b9a,lsl #16
	madd x17,x11,x8,x9
	mov x9,#0xffffffffffff27ff
	movk x9,#0xcd0d,lsl #16
	movk x9,#0x7fff,lsl #48
	adds x18,x12,x17
	csinv x18,x18,xzr,cc
	cmp x18,x9
	b.hi 27b
	umaddl x8,w16,w8,x17
	adds x8,x15,x8
	csinv x8,x8,xzr,cc
	cmp x8,x9
	b.hi 27b
	ldp x17,x24,[x0,#80]
	mov w22,#0x1
37:
	ldr x1,[sp,#32]
38:
	ldr x18,[sp,#24]
	b 24b
39:
	subs x9,x15,x9
	csel x17,xzr,x9,cc
	b.cc 3b
40:
	subs x15,x17,x8
	mov w8,#0x1
	mov w9,#0x3
	b.cc 4b
	mov x18,#0x27ff
	ldr x1,[sp,#32]
	movk x18,#0x73f3,lsl #16
	movk x18,#0xd940,lsl #32
	movk x18,#0x72de,lsl #48
	cmp x17,x18
	b.hi 4b
	ldp x17,x24,[x0,#80]
	ldr x2,[sp,#16]
	b 38b
41:
	subs x9,x15,x9
	csel x16,xzr,x9,cc
	b.cc 3b
42:
	subs x15,x16,x8
	mov w8,#0x1
	mov w9,#0x3
	b.cc 4b
	mov x17,#0x27ff
	ldr x1,[sp,#32]
	movk x17,#0x73f3,lsl #16
	movk x17,#0xd940,lsl #32
	movk x17,#0x72de,lsl #48
	cmp x16,x17
	b.hi 4b
	cmp x27,#0x0
	ldp x17,x24,[x0,#80]
	cneg x16,x27,mi
	ldr x2,[sp,#16]
	b 38b

function "tk_ntp::lag::Lag::accounted_late",4,296
	ldp w9,w8,[x2,#4]
	mov x11,#0x360000000000
	mov w12,w4
	movk x11,#0xc465,lsl #48
	smulh x10,x9,x3
	mul x9,x9,x3
	mul x13,x12,x11
	smulh x11,x12,x11
	adds x12,x9,x13
	adc x9,x10,x11
	asr x10,x9,#63
	eor x11,x12,x10
	eor x12,x9,x10
	subs x11,x11,x10
	sbc x10,x12,x10
	cbnz x10,1f
	umulh x12,x11,x5
	mul x11,x11,x5
	madd x10,x10,x5,x12
	lsr x12,x10,#62
	cmp x12,#0x0
	mov x12,#0x4000000000000000
	csel x10,x10,x12,eq
	csel x11,x11,xzr,eq
	b 3f
1:
	extr x13,x10,x11,#32
	lsr x10,x10,#32
	umulh x12,x13,x5
	madd x12,x10,x5,x12
	mov x10,#0x4000000000000000
	tst x12,#0xffffffffc0000000
	b.eq 2f
	mov x11,xzr
	b 3f
2:
	mul x13,x13,x5
	mov w11,w11
	mul x14,x11,x5
	umulh x11,x11,x5
	extr x12,x12,x13,#32
	adds x13,x14,x13,lsl #32
	adc x11,x12,x11
	lsr x12,x11,#62
	cmp x12,#0x0
	csel x10,x11,x10,eq
	csel x11,x13,xzr,eq
3:
	mov w12,#0xca00
	movk w12,#0x3b9a,lsl #16
	lsl x8,x12,x8
	mov x12,#0x650000000000
	movk x12,#0x1dcd,lsl #48
	mul x13,x8,x12
	umulh x8,x8,x12
	negs x12,x11
	ngc x14,x10
	cmp x9,#0x0
	mov x9,#0xf000000000000000
	csel x11,x12,x11,mi
	add x9,x0,x9
	csel x10,x14,x10,mi
	adds x11,x1,x11
	adc x9,x9,x10
	negs x10,x13
	ngc x12,x8
	cmp x13,x11
	sbcs xzr,x8,x9
	csel x8,x8,x9,lt
	csel x13,x13,x11,lt
	cmp x11,x10
	sbcs xzr,x9,x12
	mov x9,#0x1000000000000000
	csel x8,x12,x8,lt
	csel x1,x10,x13,lt
	add x0,x8,x9
	ret

function "tk_ntp::course::Course::apply_late::<#dbeed42889e166b7>",4,984
.Ltk_ntp.course.Course.apply_late:
	sub sp,sp,#0x50
	ldrb w8,[x1,#76]
	stp x22,x21,[sp,#48]
	mov x21,x1
	stp x20,x19,[sp,#64]
	mov x19,x2
	mov x20,x0
	stp x29,x30,[sp,#32]
	add x29,sp,#0x20
	tbz w8,#0,3f
1:
	mov x0,x20
	mov x1,x21
	mov x2,x19
	bl .Ltk_ntp.course.Course.advance
	tst w0,#0xff
	b.ne 7f
	ldr x8,[x21,#112]
	mov w1,wzr
	stp xzr,xzr,[sp,#8]
	str xzr,[sp,#24]
	subs x8,x8,#0x3
	b.cc 7f
	ldr x9,[x21,#96]
	mov x10,#0xfffffffffffffffd
	mov w0,#0x1
	movk x10,#0x7fff,lsl #48
	cmp x9,x10
	b.cs 2f
	ldr x10,[x21,#104]
	sub x9,x9,x10
	cmp x9,x8
	b.hi 2f
	add x3,sp,#0x8
	mov x0,x20
	mov x1,x21
	mov x2,x19
	bl .Ltk_ntp.course.Course.command
2:
	ldp x20,x19,[sp,#64]
	ldp x22,x21,[sp,#48]
	ldp x29,x30,[sp,#32]
	add sp,sp,#0x50
	ret
3:
	ldr w8,[x21]
	mov x9,#0xffffffffffffffff
	neg w8,w8
	lsr x8,x9,x8
	cmp x8,x19
	b.cc 1b
	ldr x9,[x21,#16]
	sub x9,x19,x9
	and x11,x8,x9
	sub x8,x8,x11
	cmp x8,x11
	b.cc 1b
	ldp w10,w12,[x21,#8]
	ldp x8,x9,[x21,#24]
	lsr x14,x11,#31
	ldr x13,[x21,#40]
	cbnz x14,4f
	madd x11,x11,x12,x13
	lsr x10,x11,x10
	b 6f
4:
	mul x14,x12,x11
	umulh x12,x12,x11
	adds x11,x14,x13
	cinc x12,x12,cs
	extr x13,x12,x11,#63
	lsr x13,x13,x10
	cbz x13,5f
	mov x10,#0xc000000000000000
	b 6f
5:
	lsl x12,x12,#1
	mvn w13,w10
	lsr x10,x11,x10
	lsl x11,x12,x13
	orr x10,x11,x10
6:
	mov w22,#0xca00
	movk w22,#0x3b9a,lsl #16
	madd x9,x9,x22,x10
	adds x8,x8,x9
	mov x9,#0xffffffffffff27ff
	movk x9,#0xcd0d,lsl #16
	csinv x8,x8,xzr,cc
	movk x9,#0x7fff,lsl #48
	cmp x8,x9
	b.hi 1b
	ldr x9,[x20,#104]
	mul x9,x9,x22
	cmp x8,x9
	b.cs 1b
	ldr w8,[x21]
	ldr x9,[x20,#112]
	mov x10,#0xffffffffffffffff
	neg w8,w8
	sub x9,x19,x9
	lsr x8,x10,x8
	and x9,x8,x9
	sub x10,x8,x9
	cmp x10,x9
	b.cc 1b
	ldr x9,[x21,#112]
	subs x10,x9,#0x3
	b.cc 1b
	ldp x9,x11,[x21,#96]
	sub x11,x9,x11
	cmp x11,x10
	b.hi 1b
	mov x10,#0xfffffffffffffffd
	movk x10,#0x7fff,lsl #48
	cmp x9,x10
	b.cs 1b
	ldrb w9,[x21,#76]
	tbz w9,#0,8f
	mov w1,#0x1
7:
	mov w0,#0x1
	ldp x20,x19,[sp,#64]
	ldp x22,x21,[sp,#48]
	ldp x29,x30,[sp,#32]
	add sp,sp,#0x50
	ret
8:
	cmp x8,x19
	b.cs 9f
	mov w1,#0x3
	mov w0,#0x1
	ldp x20,x19,[sp,#64]
	ldp x22,x21,[sp,#48]
	ldp x29,x30,[sp,#32]
	add sp,sp,#0x50
	ret
9:
	ldr x9,[x21,#16]
	sub x9,x19,x9
	and x10,x9,x8
	sub x8,x8,x10
	cmp x8,x10
	b.cs 10f
	mov w1,#0x4
	mov w0,#0x1
	ldp x20,x19,[sp,#64]
	ldp x22,x21,[sp,#48]
	ldp x29,x30,[sp,#32]
	add sp,sp,#0x50
	ret
10:
	lsr x8,x10,#31
	cbnz x8,13f
	ldp w11,w8,[x21,#8]
	ldr x9,[x21,#40]
	madd x9,x10,x8,x9
	lsl x12,x22,x11
	ldr x8,[x21,#32]
	subs x11,x9,x12
	b.cc 11f
	cmp x11,x12
	b.cs 13f
	add x8,x8,#0x1
	mov x9,x11
11:
	ldr w11,[x21,#4]
	ldr x13,[x21,#56]
	madd x11,x10,x11,x13
	ldr x10,[x21,#48]
	subs x13,x11,x12
	b.cc 12f
	cmp x13,x12
	b.cs 13f
	add x10,x10,#0x1
	mov x11,x13
12:
	mov w12,#0x8ff
	movk w12,#0x3864,lsl #16
	cmp x8,x12
	b.ls 18f
13:
	mov x0,x21
	mov x1,x19
	bl "tk_clock::clock::Clock::update_late"
	tst w0,#0xff
	b.ne 2b
14:
	ldr x8,[x21,#96]
	ldr w4,[x21,#12]
	add x8,x8,#0x1
	str x8,[x21,#96]
	ldr w8,[x21]
	ldr x9,[x20,#112]
	ldr x3,[x20,#96]
	neg w10,w8
	str w8,[sp,#8]
	ldr x8,[x20,#80]
	sub x9,x19,x9
	lsl x9,x9,x10
	lsr x5,x9,x10
	ldur x9,[x21,#4]
	mov w21,w0
	lsr x10,x5,#27
	stur x9,[sp,#12]
	cbz x10,15f
	ldr x1,[x20,#88]
	b 16f
15:
	mov w10,w9
	mul x11,x5,x4
	mov x14,#0x360000000000
	movk x14,#0xc465,lsl #48
	asr x16,x3,#63
	ldr x1,[x20,#88]
	mul x10,x5,x10
	umulh x15,x11,x14
	umulh x12,x10,x3
	mul x14,x11,x14
	mul x13,x10,x3
	madd x10,x10,x16,x12
	lsr x12,x9,#32
	sub x9,x15,x11
	adds x11,x14,x1
	adc x14,x8,x9
	adds x9,x11,x13
	lsl x11,x22,x12
	adc x0,x14,x10
	mov x10,#0xf000000000000000
	add x10,x0,x10
	add x10,x10,x11,lsr #5
	cmp x10,x11,lsr #4
	b.cc 17f
16:
	add x2,sp,#0x8
	mov x0,x8
	bl "tk_ntp::lag::Lag::accounted_late"
	mov x9,x1
17:
	mov w1,wzr
	stp x0,x9,[x20,#80]
	mov w0,w21
	str x19,[x20,#112]
	ldp x20,x19,[sp,#64]
	ldp x22,x21,[sp,#48]
	ldp x29,x30,[sp,#32]
	add sp,sp,#0x50
	ret
18:
	mov x12,#0xe801
	ldr x13,[x21,#24]
	movk x12,#0x6378,lsl #16
	movk x12,#0x7e4d,lsl #32
	movk x12,#0x72de,lsl #48
	cmp x13,x12
	b.cs 13b
	ldr x13,[x21,#64]
	cmp x13,x12
	b.cs 13b
	mov w0,wzr
	str x19,[x21,#16]
	stp x8,x9,[x21,#32]
	stp x10,x11,[x21,#48]
	b 14b

function "tk_ntp::course::Course::command::<#dbeed42889e166b7>",4,1164
.Ltk_ntp.course.Course.command:
	sub sp,sp,#0xb0
	stp x24,x23,[sp,#128]
	ldur x24,[x1,#4]
	ldur q0,[x3,#8]
	stp x26,x25,[sp,#112]
	ldrb w26,[x3]
	ldr w25,[x1]
	lsr x23,x24,#32
	stp x22,x21,[sp,#144]
	mov x21,x1
	ldr w22,[x1,#12]
	stp x20,x19,[sp,#160]
	mov x19,x2
	mov x20,x0
	stp x29,x30,[sp,#96]
	add x29,sp,#0x60
	str x26,[sp,#8]
	stur q0,[sp,#16]
	cbz w26,1f
	add x2,sp,#0x8
	mov x0,x21
	mov x1,x19
	bl "tk_clock::clock::Clock::apply_any"
	tst w0,#0xff
	b.ne 17f
	b 8f
1:
	ldrb w8,[x21,#76]
	tbz w8,#0,2f
	mov w1,#0x1
	mov w0,#0x1
	tst w0,#0xff
	b.ne 17f
	b 8f
2:
	neg w8,w25
	mov x9,#0xffffffffffffffff
	lsr x8,x9,x8
	cmp x8,x19
	b.cs 3f
	mov w0,#0x1
	mov w1,#0x3
	tst w0,#0xff
	b.ne 17f
	b 8f
3:
	ldr x9,[x21,#16]
	sub x9,x19,x9
	and x10,x9,x8
	sub x8,x8,x10
	cmp x8,x10
	b.cs 4f
	mov w0,#0x1
	mov w1,#0x4
	tst w0,#0xff
	b.ne 17f
	b 8f
4:
	lsr x8,x10,#31
	cbnz x8,7f
	ldr x8,[x21,#40]
	madd x9,x10,x22,x8
	mov w8,#0xca00
	movk w8,#0x3b9a,lsl #16
	lsl x12,x8,x23
	ldr x8,[x21,#32]
	subs x11,x9,x12
	b.cc 5f
	cmp x11,x12
	b.cs 7f
	add x8,x8,#0x1
	mov x9,x11
5:
	mov w11,w24
	ldr x13,[x21,#56]
	madd x11,x10,x11,x13
	ldr x10,[x21,#48]
	subs x13,x11,x12
	b.cc 6f
	cmp x13,x12
	b.cs 7f
	add x10,x10,#0x1
	mov x11,x13
6:
	mov w12,#0x8ff
	movk w12,#0x3864,lsl #16
	cmp x8,x12
	b.ls 20f
7:
	mov x0,x21
	mov x1,x19
	bl "tk_clock::clock::Clock::update_late"
	tst w0,#0xff
	b.ne 17f
8:
	ldr x8,[x21,#96]
	mov w9,#0xb9
	add x8,x8,#0x1
	str x8,[x21,#96]
	mov w8,#0x1
	lsl w8,w8,w26
	tst w8,w9
	b.eq 11f
	ldr x8,[x20,#112]
	neg w9,w25
	str w25,[sp,#8]
	ldp x1,x3,[x20,#88]
	stur x24,[sp,#12]
	sub x8,x19,x8
	lsl x8,x8,x9
	lsr x5,x8,x9
	ldr x8,[x20,#80]
	lsr x9,x5,#27
	cbnz x9,9f
	mov w9,w24
	mul x10,x5,x22
	mov x13,#0x360000000000
	movk x13,#0xc465,lsl #48
	asr x15,x3,#63
	mul x9,x5,x9
	umulh x14,x10,x13
	umulh x11,x9,x3
	mul x12,x9,x3
	mul x13,x10,x13
	sub x10,x14,x10
	madd x9,x9,x15,x11
	adds x11,x13,x12
	mov w12,#0xca00
	mov x13,#0xf000000000000000
	movk w12,#0x3b9a,lsl #16
	adc x10,x10,x9
	adds x9,x11,x1
	lsl x11,x12,x23
	adc x10,x10,x8
	add x12,x10,x11,lsr #5
	add x12,x12,x13
	cmp x12,x11,lsr #4
	b.cc 10f
9:
	add x2,sp,#0x8
	mov w21,w0
	mov x0,x8
	mov w4,w22
	bl "tk_ntp::lag::Lag::accounted_late"
	mov x10,x0
	mov w0,w21
	mov x9,x1
10:
	mov w1,wzr
	stp x10,x9,[x20,#80]
	str x19,[x20,#112]
	b 17f
11:
	mov w9,#0x46
	tst w8,w9
	b.eq 13f
	mov w8,#0x2400
	stur xzr,[x20,#20]
	movk w8,#0xf4,lsl #16
	stur xzr,[x20,#12]
	dup v0.2s,w8
	str wzr,[x20,#28]
	ldp w8,w9,[x20]
	stp xzr,xzr,[x20,#64]
	orr w9,w9,#0x40
	stur d0,[x20,#36]
	str w9,[x20,#4]
	adrp x9,.rodata.cst16+144
	ldr q0,[x9,:lo12:.rodata.cst16+144]
	str q0,[x20,#80]
	cbz w8,19f
	ldr w9,[x20,#44]
	mov x10,#0x86a000000000
	ldr x11,[x20,#48]
	movk x10,#0x1,lsl #48
	str xzr,[sp,#8]
	madd x9,x9,x10,x11
	udiv x9,x9,x8
	mul x8,x9,x8
	mov x9,#0xffffffffffffffff
	str x8,[x20,#96]
	ldp q0,q1,[x21]
	stp q0,q1,[sp,#16]
	ldp q0,q1,[x21,#32]
	ldr w8,[sp,#16]
	neg w8,w8
	stp q0,q1,[sp,#48]
	ldr q0,[x21,#64]
	lsr x8,x9,x8
	stur q0,[sp,#80]
	cmp x8,x19
	b.cc 19f
	ldrb w9,[sp,#92]
	mov w22,w0
	tbnz w9,#0,18f
	ldr x9,[sp,#32]
	sub x9,x19,x9
	and x9,x9,x8
	sub x8,x8,x9
	cmp x8,x9
	b.cc 18f
	ldp x8,x10,[sp,#48]
	lsr x12,x9,#31
	ldr x9,[sp,#40]
	ldr w11,[sp,#24]
	cbz x12,14f
	lsr x12,x10,#63
	lsr x12,x12,x11
	cbz x12,14f
12:
	mov x10,#0xc000000000000000
	b 15f
13:
	ldp q0,q1,[x21]
	mov x9,#0xffffffffffffffff
	str xzr,[sp,#8]
	stp q0,q1,[sp,#16]
	ldp q0,q1,[x21,#32]
	ldr w8,[sp,#16]
	neg w8,w8
	stp q0,q1,[sp,#48]
	ldr q0,[x21,#64]
	lsr x8,x9,x8
	stur q0,[sp,#80]
	cmp x8,x19
	b.cc 19f
	ldrb w9,[sp,#92]
	mov w22,w0
	tbnz w9,#0,18f
	ldr x9,[sp,#32]
	sub x9,x19,x9
	and x9,x9,x8
	sub x8,x8,x9
	cmp x8,x9
	b.cc 18f
	ldp x8,x10,[sp,#48]
	lsr x12,x9,#31
	ldr x9,[sp,#40]
	ldr w11,[sp,#24]
	cbz x12,14f
	lsr x12,x10,#63
	lsr x12,x12,x11
	cbnz x12,12b
14:
	lsr x10,x10,x11
15:
	mov w11,#0xca00
	movk w11,#0x3b9a,lsl #16
	madd x8,x8,x11,x10
	adds x8,x9,x8
	csinv x0,x8,xzr,cc
	mov x8,#0xffffffffffff2800
	movk x8,#0xcd0d,lsl #16
	movk x8,#0x7fff,lsl #48
	cmp x0,x8
	b.cs 19f
16:
	mov x9,#0x5a53
	lsr x8,x0,#9
	mov x0,x20
	movk x9,#0xa09b,lsl #16
	mov x1,x21
	mov x2,x19
	movk x9,#0xb82f,lsl #32
	movk x9,#0x44,lsl #48
	umulh x8,x8,x9
	lsr x8,x8,#11
	add x8,x8,#0x1
	stp x8,x19,[x20,#104]
	bl .Ltk_ntp.course.Course.steer
	mov w1,wzr
	mov w0,w22
17:
	ldp x20,x19,[sp,#160]
	ldp x22,x21,[sp,#144]
	ldp x24,x23,[sp,#128]
	ldp x26,x25,[sp,#112]
	ldp x29,x30,[sp,#96]
	add sp,sp,#0xb0
	ret
18:
	add x8,sp,#0x8
	mov w1,#0x4
	add x0,x8,#0x8
	bl "tk_clock::read_base::ReadBase::nanos_at_last"
	mov x8,#0xffffffffffff2800
	movk x8,#0xcd0d,lsl #16
	movk x8,#0x7fff,lsl #48
	cmp x0,x8
	b.cc 16b
19:
	brk #0x1
20:
	mov x12,#0xe801
	ldr x13,[x21,#24]
	movk x12,#0x6378,lsl #16
	movk x12,#0x7e4d,lsl #32
	movk x12,#0x72de,lsl #48
	cmp x13,x12
	b.cs 7b
	ldr x13,[x21,#64]
	cmp x13,x12
	b.cs 7b
	mov w1,wzr
	mov w0,wzr
	str x19,[x21,#16]
	stp x8,x9,[x21,#32]
	stp x10,x11,[x21,#48]
	tst wzr,#0xff
	b.ne 17b
	b 8b

function "tk_ntp::course::Course::steer::<#dbeed42889e166b7>",4,932
.Ltk_ntp.course.Course.steer:
	sub sp,sp,#0x50
	ldr w10,[x0]
	stp x29,x30,[sp,#32]
	add x29,sp,#0x20
	stp x22,x21,[sp,#48]
	stp x20,x19,[sp,#64]
	cbz w10,9f
	ldr w8,[x1,#4]
	mov x20,x1
	cbz w8,9f
	mov x9,#0x940000000000
	ldp x11,x16,[x0,#72]
	movk x9,#0x7735,lsl #48
	ldr w14,[x20,#8]
	ldr x12,[x0,#48]
	udiv x13,x9,x8
	mov x17,#0xf000000000000000
	ldr w9,[x0,#44]
	ldr x15,[x0,#88]
	mov x19,x2
	adds x16,x16,x17
	b.mi 2f
	lsl x17,x16,#1
	mvn w18,w14
	lsr x15,x15,x14
	tst x14,#0x40
	lsl x17,x17,x18
	lsr x18,x16,x14
	orr x14,x17,x15
	mov x17,#0xa12000000000
	csel x16,xzr,x18,ne
	movk x17,#0x7,lsl #48
	csel x15,x18,x14,ne
	tst x16,#0xfffffffff0000000
	add x13,x13,x17
	mov x14,#0x1000000000000000
	b.ne 1f
	extr x16,x16,x15,#32
	mov x17,#0x5a53
	lsr x18,x15,#32
	movk x17,#0xa09b,lsl #16
	and x15,x15,#0xfffffe00
	lsr x16,x16,#9
	movk x17,#0xb82f,lsl #32
	movk x17,#0x44,lsl #48
	umulh x16,x16,x17
	mov w17,#0xca00
	movk w17,#0x3b9a,lsl #16
	lsr x16,x16,#11
	msub w17,w16,w17,w18
	orr x15,x15,x17,lsl #32
	mov x17,#0x94b3
	movk x17,#0x26d6,lsl #16
	movk x17,#0xbe8,lsl #32
	movk x17,#0x112e,lsl #48
	umulh x15,x15,x17
	lsr x15,x15,#26
	add x15,x15,x16,lsl #32
	cmp x15,x14
	csel x14,x15,x14,cc
1:
	cmp x13,x14
	csel x13,x13,x14,cc
	b 5f
2:
	mvn x16,x16
	mvn x15,x15
	mvn w18,w14
	lsl x17,x16,#1
	lsr x15,x15,x14
	lsr x16,x16,x14
	tst x14,#0x40
	lsl x17,x17,x18
	orr x14,x17,x15
	csel x15,xzr,x16,ne
	csel x14,x16,x14,ne
	tst x15,#0xfffffffff0000000
	b.eq 3f
	mov x14,#0xefffffffffffffff
	b 4f
3:
	extr x15,x15,x14,#32
	mov x16,#0x5a53
	lsr x17,x14,#32
	movk x16,#0xa09b,lsl #16
	and x14,x14,#0xfffffe00
	lsr x15,x15,#9
	movk x16,#0xb82f,lsl #32
	movk x16,#0x44,lsl #48
	umulh x15,x15,x16
	mov w16,#0xca00
	movk w16,#0x3b9a,lsl #16
	lsr x15,x15,#11
	msub w16,w15,w16,w17
	orr x14,x14,x16,lsl #32
	mov x16,#0x94b3
	movk x16,#0x26d6,lsl #16
	movk x16,#0xbe8,lsl #32
	movk x16,#0x112e,lsl #48
	umulh x14,x14,x16
	lsr x14,x14,#26
	add x14,x14,x15,lsl #32
	mov x15,#0x1000000000000000
	cmp x14,x15
	csel x14,x14,x15,cc
	mvn x14,x14
4:
	mov x15,#0x5ee000000000
	movk x15,#0xfff8,lsl #48
	sub x13,x15,x13
	cmp x13,x14
	csel x13,x13,x14,hi
5:
	mov x14,#0x86a000000000
	movk x14,#0x1,lsl #48
	madd x12,x9,x14,x12
	mov w14,#0x1f40000
	udiv x12,x12,x10
	add x11,x12,x11
	mov x12,#0x3f7d
	madd x10,x11,x10,x13
	movk x12,#0x5e35,lsl #16
	movk x12,#0x49ba,lsl #32
	movk x12,#0x20c,lsl #48
	mvn x13,x10
	lsr x11,x10,#19
	tst x10,#0x8000000000000000
	lsr x13,x13,#19
	mov x10,#0xb9ac0000
	umulh x11,x11,x12
	movk x10,#0xd,lsl #32
	umulh x12,x13,x12
	csinv x11,x11,x12,eq
	mov w12,#0x640000
	cmp x11,x10
	umaddl x15,w9,w12,x14
	csel x10,x11,x10,gt
	mov x11,#0xcad40000
	umull x13,w9,w12
	movk x11,#0x10,lsl #32
	cmp x10,x11
	csel x12,x10,x11,lt
	ldp x10,x11,[x20,#80]
	add x14,x12,x14
	cmp x12,x15
	ccmp x13,x14,#0x2,ls
	b.ls 6f
	mov x13,#0x3d71
	add x9,x12,#0x320,lsl #12
	movk x13,#0xd70a,lsl #16
	lsr x9,x9,#18
	movk x13,#0x70a3,lsl #32
	movk x13,#0xa3d,lsl #48
	umulh x9,x9,x13
	mov w13,#0x2328
	cmp x9,x13
	csel x9,x9,x13,hi
	mov w13,#0x2af8
	cmp x9,x13
	csel x9,x9,x13,cc
	mov w13,#0x640000
	mul x13,x9,x13
6:
	mov x14,#0xffffffffffff0000
	mov x15,#0xffffffffffff0000
	mov w16,#0x1f40000
	movk x14,#0xfe0c,lsl #16
	movk x15,#0xff9c,lsl #16
	mov w17,#0x640000
	cmp x10,x14
	madd x12,x9,x15,x12
	csel x15,x10,x14,gt
	cmp x15,x16
	csel x15,x15,x16,lt
	madd x17,x11,x17,x15
	and x15,x15,#0xffff
	cmp x12,x14
	umull x15,w15,w8
	csel x14,x12,x14,gt
	cmp x14,x16
	lsr x17,x17,#16
	csel x14,x14,x16,lt
	add x13,x14,x13
	and x14,x14,#0xffff
	mul x16,x17,x8
	lsr x13,x13,#16
	mul x13,x13,x8
	umull x8,w14,w8
	add x14,x16,x15,lsr #16
	mov x15,#0x34db
	movk x15,#0xd7b6,lsl #16
	movk x15,#0xde82,lsl #32
	add x8,x13,x8,lsr #16
	movk x15,#0x431b,lsl #48
	umulh x14,x14,x15
	umulh x8,x8,x15
	lsr x13,x14,#18
	lsr x8,x8,#18
	cmp w13,w8
	b.ne 7f
	mov w11,wzr
	mov x8,xzr
	mov w22,wzr
	mov x21,xzr
	b 8f
7:
	cmp x11,x9
	cset w11,ne
	csel x8,x9,xzr,ne
	cmp x10,x12
	cset w22,ne
	csel x21,x12,xzr,ne
8:
	cmp w11,#0x0
	mov w10,#0x4
	mov w9,w11
	csel x10,xzr,x10,eq
	csel x8,xzr,x8,eq
	mov x2,sp
	mov x0,x20
	mov x1,x19
	stp x9,x10,[sp]
	stp x8,xzr,[sp,#16]
	bl .Ltk_ntp.course.giving.give_any
	cmp w22,#0x0
	mov w9,#0x3
	mov w8,w22
	csel x9,xzr,x9,eq
	mov x2,sp
	mov x0,x20
	stp x8,x9,[sp]
	csel x8,xzr,x21,eq
	mov x1,x19
	stp x8,xzr,[sp,#16]
	bl .Ltk_ntp.course.giving.give_any
	ldp x20,x19,[sp,#64]
	ldp x22,x21,[sp,#48]
	ldp x29,x30,[sp,#32]
	add sp,sp,#0x50
	ret
9:
	brk #0x1

function "tk_ntp::course::giving::give_any::<#dbeed42889e166b7>",4,352
.Ltk_ntp.course.giving.give_any:
	ldrb w8,[x2]
	cmp w8,#0x1
	b.ne 7f
	sub sp,sp,#0x40
	ldrb w8,[x2,#8]
	ldr q0,[x2,#16]
	stp x29,x30,[sp,#32]
	str x19,[sp,#48]
	add x29,sp,#0x20
	str x8,[sp,#8]
	stur q0,[sp,#16]
	cbz x8,2f
	add x2,sp,#0x8
	mov x19,x0
	bl "tk_clock::clock::Clock::apply_any"
	tst w0,#0xff
	mov x0,x19
	b.ne 6f
1:
	ldr x8,[x0,#96]
	add x8,x8,#0x1
	str x8,[x0,#96]
	b 6f
2:
	ldrb w8,[x0,#76]
	tbnz w8,#0,6f
	ldr w8,[x0]
	mov x9,#0xffffffffffffffff
	neg w8,w8
	lsr x8,x9,x8
	cmp x8,x1
	b.cc 6f
	ldr x9,[x0,#16]
	sub x9,x1,x9
	and x10,x9,x8
	sub x8,x8,x10
	cmp x8,x10
	b.cc 6f
	lsr x8,x10,#31
	cbnz x8,5f
	ldp w11,w8,[x0,#8]
	ldr x9,[x0,#40]
	madd x9,x10,x8,x9
	mov w8,#0xca00
	movk w8,#0x3b9a,lsl #16
	lsl x12,x8,x11
	ldr x8,[x0,#32]
	subs x11,x9,x12
	b.cc 3f
	cmp x11,x12
	b.cs 5f
	add x8,x8,#0x1
	mov x9,x11
3:
	ldr w11,[x0,#4]
	ldr x13,[x0,#56]
	madd x11,x10,x11,x13
	ldr x10,[x0,#48]
	subs x13,x11,x12
	b.cc 4f
	cmp x13,x12
	b.cs 5f
	add x10,x10,#0x1
	mov x11,x13
4:
	mov w12,#0x8ff
	movk w12,#0x3864,lsl #16
	cmp x8,x12
	b.ls 8f
5:
	mov x19,x0
	bl "tk_clock::clock::Clock::update_late"
	tst w0,#0xff
	mov x0,x19
	b.eq 1b
6:
	ldp x29,x30,[sp,#32]
	ldr x19,[sp,#48]
	add sp,sp,#0x40
7:
	ret
8:
	mov x12,#0xe801
	ldr x13,[x0,#24]
	movk x12,#0x6378,lsl #16
	movk x12,#0x7e4d,lsl #32
	movk x12,#0x72de,lsl #48
	cmp x13,x12
	b.cs 5b
	ldr x13,[x0,#64]
	cmp x13,x12
	b.cs 5b
	str x1,[x0,#16]
	stp x8,x9,[x0,#32]
	stp x10,x11,[x0,#48]
	b 1b

function "tk_ntp::course::Course::apply_any::<#dbeed42889e166b7>",4,416
.Ltk_ntp.course.Course.apply_any:
	sub sp,sp,#0x120
	movi v0.2d,#0x0
	stp x24,x23,[sp,#240]
	ldrb w23,[x3]
	stp x22,x21,[sp,#256]
	ldp x22,x24,[x3,#8]
	stp x20,x19,[sp,#272]
	mov x19,x2
	mov x20,x1
	mov x21,x0
	cmp w23,#0x3
	stp x29,x30,[sp,#208]
	str x28,[sp,#224]
	add x29,sp,#0xd0
	stp q0,q0,[sp]
	stp q0,q0,[sp,#32]
	stp q0,q0,[sp,#64]
	b.gt 1f
	sub w8,w23,#0x1
	cmp w8,#0x2
	b.cc 2f
	cbnz w23,6f
	mov x0,x21
	mov x1,x20
	mov x2,x19
	ldp x20,x19,[sp,#272]
	ldr x28,[sp,#224]
	ldp x22,x21,[sp,#256]
	ldp x24,x23,[sp,#240]
	ldp x29,x30,[sp,#208]
	add sp,sp,#0x120
	b .Ltk_ntp.course.Course.apply_late
1:
	sub w8,w23,#0x5
	cmp w8,#0x3
	b.cs 3f
2:
	mov x0,x21
	mov x1,x20
	mov x2,x19
	bl .Ltk_ntp.course.Course.advance
	tst w0,#0xff
	b.ne 5f
	b 4f
3:
	cmp w23,#0x4
	b.ne 4f
	mov x8,xzr
	mov w9,#0x4000
	b 7f
4:
	ldr x8,[x20,#112]
	mov w1,wzr
	stp x23,x22,[x29,#-24]
	stur x24,[x29,#-8]
	subs x8,x8,#0x3
	b.cc 5f
	ldr x9,[x20,#96]
	mov x10,#0xfffffffffffffffd
	mov w0,#0x1
	movk x10,#0x7fff,lsl #48
	cmp x9,x10
	b.cs 8f
	ldr x10,[x20,#104]
	sub x9,x9,x10
	cmp x9,x8
	b.hi 8f
	sub x3,x29,#0x18
	mov x0,x21
	mov x1,x20
	mov x2,x19
	bl .Ltk_ntp.course.Course.command
	b 8f
5:
	mov w0,#0x1
	b 8f
6:
	mov x8,#0xffffffffffff0000
	mov w9,#0x1f40000
	movk x8,#0xfe0c,lsl #16
	cmp x22,x8
	csel x8,x22,x8,gt
	mov x22,xzr
	cmp x8,x9
	csel x8,x8,x9,lt
	mov w9,#0x2
7:
	stp w9,wzr,[sp,#104]
	add x9,sp,#0x68
	mov x0,sp
	add x4,sp,#0x68
	mov x1,x21
	mov x2,x20
	mov x3,x19
	stp xzr,x8,[sp,#112]
	stur q0,[x9,#24]
	stur q0,[x9,#40]
	stp xzr,xzr,[sp,#168]
	str x22,[sp,#160]
	bl .Ltk_ntp.course.Course.adjtimex
	ldrb w0,[sp]
	ldrb w8,[sp,#1]
	cmp w0,#0x0
	csel w1,wzr,w8,eq
8:
	ldp x20,x19,[sp,#272]
	ldr x28,[sp,#224]
	ldp x22,x21,[sp,#256]
	ldp x24,x23,[sp,#240]
	ldp x29,x30,[sp,#208]
	add sp,sp,#0x120
	ret

function "tk_ntp::course::Course::adjtimex::<#dbeed42889e166b7>",4,728
.Ltk_ntp.course.Course.adjtimex:
	sub sp,sp,#0x130
	movi v0.2d,#0x0
	ldr w8,[x4]
	mov w9,#0x8001
	stp x29,x30,[sp,#224]
	add x29,sp,#0xe0
	and w9,w8,w9
	str x28,[sp,#240]
	cmp w9,#0x8,lsl #12
	stp x24,x23,[sp,#256]
	stp x22,x21,[sp,#272]
	stp x20,x19,[sp,#288]
	stur q0,[sp,#78]
	stp q0,q0,[sp,#16]
	stp q0,q0,[sp,#48]
	str q0,[sp]
	b.ne 3f
1:
	mov w8,#0x301
	stur q0,[x0,#8]
	strh w8,[x0]
	stur q0,[x0,#24]
	stur q0,[x0,#40]
	stur q0,[x0,#56]
	stur q0,[x0,#72]
	str xzr,[x0,#88]
2:
	ldp x20,x19,[sp,#288]
	ldr x28,[sp,#240]
	ldp x22,x21,[sp,#272]
	ldp x24,x23,[sp,#256]
	ldp x29,x30,[sp,#224]
	add sp,sp,#0x130
	ret
3:
	and w9,w8,#0xc000
	cmp w9,#0x4,lsl #12
	b.ne 4f
	ldr x9,[x4,#56]
	mov x10,#0xffffffffffffd507
	add x9,x9,x10
	cmn x9,#0x7d1
	b.cc 1b
4:
	tbz w8,#8,5f
	mov w10,#0xc9ff
	mov w11,#0x423f
	ldr x9,[x4,#72]
	tst w8,#0x2000
	movk w10,#0x3b9a,lsl #16
	movk w11,#0xf,lsl #16
	csel x10,x11,x10,eq
	tbnz x9,#63,1b
	cmp x10,x9
	b.cc 1b
5:
	tbz w8,#1,6f
	mov x9,#0xffffffffffff5a1c
	ldr x8,[x4,#16]
	movk x9,#0x3b64,lsl #16
	movk x9,#0xffdf,lsl #32
	add x8,x8,x9
	mov x9,#0xffffffffffffb438
	movk x9,#0x76c8,lsl #16
	movk x9,#0xffbe,lsl #32
	cmp x8,x9
	b.ls 1b
6:
	mov x23,x0
	mov x21,x1
	mov x0,x1
	mov x22,x2
	mov x1,x2
	mov x2,x3
	mov x20,x4
	mov x19,x3
	bl .Ltk_ntp.course.Course.advance
	tst w0,#0xff
	b.eq 7f
	movi v0.2d,#0x0
	mov w8,#0x1
	strb w1,[x23,#1]
	strb w8,[x23]
	str xzr,[x23,#88]
	stur q0,[x23,#8]
	stur q0,[x23,#24]
	stur q0,[x23,#40]
	stur q0,[x23,#56]
	stur q0,[x23,#72]
	b 2b
7:
	ldr x8,[x22,#112]
	subs x10,x8,#0x6
	mov x8,x23
	b.cc 8f
	ldp x9,x11,[x22,#96]
	mov x2,x22
	sub x11,x9,x11
	cmp x11,x10
	b.hi 8f
	mov x10,#0xfffffffffffffffa
	movk x10,#0x7fff,lsl #48
	cmp x9,x10
	b.cs 8f
	movi v0.2d,#0x0
	ldr w9,[x20]
	mov x4,x20
	sub x24,x29,#0x60
	stp q0,q0,[x29,#-96]
	stp q0,q0,[x29,#-64]
	stp q0,q0,[x29,#-32]
	tbnz w9,#8,9f
	sub x0,x29,#0x60
	mov x1,x21
	mov x3,x19
	b 13f
8:
	movi v0.2d,#0x0
	mov w9,#0x1
	str xzr,[x8,#88]
	strh w9,[x8]
	stur q0,[x8,#8]
	stur q0,[x8,#24]
	stur q0,[x8,#40]
	stur q0,[x8,#56]
	stur q0,[x8,#72]
	b 2b
9:
	ldp x8,x10,[x4,#64]
	mov x0,x21
	tbnz w9,#13,10f
	mov w9,#0x3e8
	mul x9,x10,x9
	cmp x9,#0x0
	cneg x9,x9,mi
	b 11f
10:
	cmp x10,#0x0
	cneg x9,x10,mi
11:
	mov w10,#0x2
	add x3,sp,#0x68
	mov x1,x2
	mov x2,x19
	stp x10,x8,[sp,#104]
	stp w9,wzr,[sp,#120]
	bl .Ltk_ntp.course.Course.command
	tst w0,#0xff
	b.eq 12f
	movi v0.2d,#0x0
	mov w8,#0x1
	stur xzr,[sp,#86]
	stur q0,[sp,#70]
	stur q0,[sp,#54]
	stur q0,[sp,#38]
	stur q0,[sp,#22]
	stur q0,[sp,#6]
	b 14f
12:
	sub x0,x29,#0x60
	mov x1,x21
	mov x2,x22
	mov x3,x19
	mov x4,x20
13:
	bl .Ltk_ntp.course.Course.request
	ldur q0,[x24,#40]
	ldur q1,[x24,#56]
	ldur x8,[x29,#-8]
	ldur q2,[x24,#72]
	ldurb w1,[x29,#-95]
	stur q0,[sp,#38]
	ldur q0,[x24,#8]
	stur q1,[sp,#54]
	ldur q1,[x24,#24]
	stur x8,[sp,#86]
	ldurb w8,[x29,#-96]
	stur q2,[sp,#70]
	stur q0,[sp,#6]
	stur q1,[sp,#22]
14:
	ldur q0,[sp,#38]
	ldur q1,[sp,#54]
	strb w8,[x23]
	ldur q2,[sp,#70]
	ldur x8,[sp,#86]
	strb w1,[x23,#1]
	stur q0,[x23,#40]
	ldur q0,[sp,#6]
	stur q1,[x23,#56]
	ldur q1,[sp,#22]
	stur q2,[x23,#72]
	str x8,[x23,#88]
	stur q0,[x23,#8]
	stur q1,[x23,#24]
	b 2b

function "tk_ntp::course::Course::request::<#dbeed42889e166b7>",4,1972
.Ltk_ntp.course.Course.request:
	sub sp,sp,#0xd0
	ldp q0,q1,[x2]
	mov x9,#0xffffffffffffffff
	str d8,[sp,#96]
	stp x29,x30,[sp,#112]
	add x29,sp,#0x70
	stp q0,q1,[sp,#16]
	ldp q0,q1,[x2,#32]
	ldr w8,[sp,#16]
	stp x28,x27,[sp,#128]
	stp x26,x25,[sp,#144]
	neg w8,w8
	stp q0,q1,[sp,#48]
	ldr q0,[x2,#64]
	lsr x8,x9,x8
	stp x24,x23,[sp,#160]
	stp x22,x21,[sp,#176]
	cmp x8,x3
	stp x20,x19,[sp,#192]
	stur q0,[sp,#80]
	str xzr,[sp,#8]
	b.cs 1f
	mov w8,#0x3
	b 8f
1:
	ldrb w9,[sp,#92]
	mov w25,#0xca00
	mov x19,x3
	movk w25,#0x3b9a,lsl #16
	tbnz w9,#0,6f
	ldr x9,[sp,#32]
	sub x9,x19,x9
	and x10,x9,x8
	sub x8,x8,x10
	cmp x8,x10
	b.cc 6f
	ldp x8,x12,[sp,#48]
	lsr x14,x10,#31
	ldp w11,w13,[sp,#24]
	ldr x9,[sp,#40]
	cbnz x14,2f
	madd x10,x10,x13,x12
	lsr x10,x10,x11
	b 4f
2:
	mul x14,x13,x10
	umulh x13,x13,x10
	adds x10,x14,x12
	cinc x12,x13,cs
	extr x13,x12,x10,#63
	lsr x13,x13,x11
	cbz x13,3f
	mov x10,#0xc000000000000000
	b 4f
3:
	lsl x12,x12,#1
	mvn w13,w11
	lsr x10,x10,x11
	lsl x11,x12,x13
	orr x10,x11,x10
4:
	madd x8,x8,x25,x10
	adds x8,x9,x8
	csinv x18,x8,xzr,cc
	mov x8,#0xffffffffffff27ff
	movk x8,#0xcd0d,lsl #16
	movk x8,#0x7fff,lsl #48
	cmp x18,x8
	b.hi 7f
5:
	ldr w24,[x4]
	mov w8,#0x8080
	ldr w6,[x2,#72]
	and w8,w24,w8
	cmp w8,#0x80
	b.ne 10f
	ldr x8,[x4,#48]
	mov w9,#0x86a0
	movk w9,#0x1,lsl #16
	cmp x8,x9
	b.hi 10f
	cmp w6,w8
	b.eq 10f
	mov x22,x1
	mov x21,x0
	mov w9,#0x5
	mov x0,x2
	add x2,sp,#0x8
	mov x1,x19
	mov w26,w6
	mov x20,x18
	mov x23,x4
	stp x9,x8,[sp,#8]
	mov x24,x0
	str xzr,[sp,#24]
	bl "tk_clock::clock::Clock::apply_any"
	tst w0,#0xff
	b.eq 9f
	movi v0.2d,#0x0
	mov w8,#0x1
	strb w1,[x21,#1]
	strb w8,[x21]
	str xzr,[x21,#88]
	stur q0,[x21,#8]
	stur q0,[x21,#24]
	stur q0,[x21,#40]
	stur q0,[x21,#56]
	stur q0,[x21,#72]
	b 40f
6:
	add x8,sp,#0x8
	mov x21,x0
	mov x20,x1
	add x0,x8,#0x8
	mov w1,wzr
	mov x22,x2
	mov x23,x4
	bl "tk_clock::read_base::ReadBase::nanos_at_last"
	mov x4,x23
	mov x1,x20
	mov x2,x22
	mov x18,x0
	mov x0,x21
	mov x8,#0xffffffffffff27ff
	movk x8,#0xcd0d,lsl #16
	movk x8,#0x7fff,lsl #48
	cmp x18,x8
	b.ls 5b
7:
	mov w8,#0x5
8:
	movi v0.2d,#0x0
	mov w9,#0x1
	strb w8,[x0,#1]
	strb w9,[x0]
	str xzr,[x0,#88]
	stur q0,[x0,#8]
	stur q0,[x0,#24]
	stur q0,[x0,#40]
	stur q0,[x0,#56]
	stur q0,[x0,#72]
	b 40f
9:
	ldr x8,[x24,#96]
	mov x2,x24
	mov x4,x23
	mov x0,x21
	mov x1,x22
	mov x18,x20
	add x8,x8,#0x1
	mov w6,w26
	str x8,[x24,#96]
	ldr w24,[x23]
10:
	mov x9,#0x5a53
	lsr x8,x18,#9
	movk x9,#0xa09b,lsl #16
	movk x9,#0xb82f,lsl #32
	movk x9,#0x44,lsl #48
	umulh x8,x8,x9
	lsr x28,x8,#11
	cbz w24,14f
	tbnz w24,#15,14f
	ldr w9,[x2]
	ldr x8,[x1,#112]
	ldr x3,[x1,#96]
	sub x8,x19,x8
	neg w10,w9
	str w9,[sp,#8]
	lsl x8,x8,x10
	ldr x9,[x1,#80]
	lsr x5,x8,x10
	ldur x10,[x2,#4]
	ldr w8,[x2,#12]
	lsr x11,x5,#27
	stur x10,[sp,#12]
	cbz x11,11f
	ldr x10,[x1,#88]
	b 12f
11:
	mov w11,w10
	mul x12,x5,x8
	mov x15,#0x360000000000
	movk x15,#0xc465,lsl #48
	asr x17,x3,#63
	mul x11,x5,x11
	umulh x16,x12,x15
	umulh x13,x11,x3
	mul x14,x11,x3
	mul x15,x12,x15
	sub x12,x16,x12
	madd x11,x11,x17,x13
	lsr x13,x10,#32
	ldr x10,[x1,#88]
	lsl x13,x25,x13
	adds x14,x15,x14
	mov x15,#0xf000000000000000
	adc x12,x12,x11
	adds x11,x14,x10
	adc x12,x12,x9
	add x14,x12,x13,lsr #5
	add x14,x14,x15
	cmp x14,x13,lsr #4
	b.cc 13f
12:
	mov x22,x2
	add x2,sp,#0x8
	mov x24,x0
	mov x0,x9
	mov x21,x1
	mov x1,x10
	mov x23,x4
	mov w4,w8
	mov x20,x18
	mov w25,w6
	bl "tk_ntp::lag::Lag::accounted_late"
	mov w6,w25
	mov x18,x20
	mov x4,x23
	mov x2,x22
	mov x12,x0
	mov x0,x24
	mov x11,x1
	mov x1,x21
13:
	stp x12,x11,[x1,#80]
	str x19,[x1,#112]
	ldr w24,[x4]
14:
	tbnz w24,#15,15f
	tbz w24,#4,18f
	ldr w9,[x1,#4]
	ldr w8,[x4,#40]
	and w10,w9,#0x1
	tbnz w8,#0,16f
	cbz w10,16f
	stp xzr,xzr,[x1,#8]
	mov w9,#0x40
	b 17f
15:
	ldr x20,[x1,#64]
	tbnz w24,#13,36f
	ldr x8,[x4,#8]
	str x8,[x1,#64]
	ldr w24,[x4]
	b 36f
16:
	tbz w8,#0,17f
	cbnz w10,17f
	str x28,[x1,#56]
17:
	lsr w9,w9,#8
	bfi w8,w9,#8,#8
	str w8,[x1,#4]
	ldr w24,[x4]
18:
	tbnz w24,#12,23f
	tbnz w24,#13,24f
	ldr w8,[x4]
	tbnz w8,#1,25f
19:
	tbnz w8,#2,26f
20:
	tbnz w8,#3,27f
21:
	tbnz w8,#5,28f
22:
	tbnz w8,#0,29f
	b 33f
23:
	ldr w8,[x1,#4]
	and w8,w8,#0xffffdfff
	str w8,[x1,#4]
	ldr w8,[x4]
	tbz w8,#1,19b
	b 25f
24:
	ldr w8,[x1,#4]
	orr w8,w8,#0x2000
	str w8,[x1,#4]
	ldr w8,[x4]
	tbz w8,#1,19b
25:
	ldr x8,[x4,#16]
	mov x9,#0xffffffffffff0000
	movk x9,#0xfe0c,lsl #16
	cmp x8,x9
	csel x8,x8,x9,gt
	mov w9,#0x1f40000
	cmp x8,x9
	csel x8,x8,x9,lt
	mov w9,#0x3e80000
	mul x8,x8,x9
	str x8,[x1,#48]
	ldr w8,[x4]
	tbz w8,#2,20b
26:
	ldr x8,[x4,#24]
	mov w9,#0x2400
	movk w9,#0xf4,lsl #16
	bic x8,x8,x8,asr #63
	cmp x8,x9
	csel x8,x8,x9,lt
	str w8,[x1,#36]
	ldr w8,[x4]
	tbz w8,#3,21b
27:
	ldr x8,[x4,#32]
	mov w9,#0x2400
	movk w9,#0xf4,lsl #16
	bic x8,x8,x8,asr #63
	cmp x8,x9
	csel x8,x8,x9,lt
	str w8,[x1,#40]
	ldr w8,[x4]
	tbz w8,#5,22b
28:
	ldr x8,[x4,#48]
	mov w9,#0xa
	mov w10,#0x6
	bic x8,x8,x8,asr #63
	cmp x8,#0xa
	csel x8,x8,x9,lt
	ldr w9,[x1,#4]
	cmp w8,#0x6
	csel w10,w8,w10,cc
	tst w9,#0x2000
	add w10,w10,#0x4
	csel w8,w10,w8,eq
	str w8,[x1,#32]
	ldr w8,[x4]
	tbz w8,#0,33f
29:
	ldr w9,[x1,#4]
	tbz w9,#0,33f
	ldr x8,[x4,#8]
	tbnz w9,#13,30f
	mov x10,#0xffffffffffffbdc0
	mov w11,#0x4240
	mov x12,#0xffffffffffff5ee0
	movk x10,#0xfff0,lsl #16
	movk w11,#0xf,lsl #16
	movk x12,#0xfff8,lsl #16
	cmp x8,x10
	csel x10,x8,x10,gt
	cmp x10,x11
	csel x10,x10,x11,lt
	mov w11,#0x3e8
	mul x10,x10,x11
	mov w11,#0x6500
	movk w11,#0x1dcd,lsl #16
	cmp x10,x11
	csel x10,x10,x11,lt
	cmp x8,x12
	mov x8,#0xffffffffffff9b00
	movk x8,#0xe232,lsl #16
	b 31f
30:
	mov x10,#0xffffffffffff9b00
	movk x10,#0xe232,lsl #16
	cmp x8,x10
	csel x8,x8,x10,gt
	mov w10,#0x6500
	movk w10,#0x1dcd,lsl #16
	cmp x8,x10
31:
	ldp x11,x12,[x1,#48]
	csel x8,x8,x10,lt
	ubfx w14,w9,#3,#1
	mov x10,xzr
	str x28,[x1,#56]
	subs x12,x28,x12
	csel x13,xzr,x12,cc
	tst w9,#0x80
	and w9,w9,#0xffffbfff
	csel x12,x13,xzr,eq
	cmp x12,#0xff
	cset w15,hi
	cmp x12,#0x800
	csinc w14,w14,wzr,ls
	ands w14,w15,w14
	mov w15,#0x4000
	csel w15,w15,wzr,ne
	orr w9,w15,w9
	str w9,[x1,#4]
	ldr w9,[x1,#32]
	cbz w14,32f
	lsl x10,x8,#30
	sdiv x10,x10,x13
32:
	mov w13,#0x8
	mov w14,#0x18
	lsl x13,x13,x9
	sub w9,w14,w9,lsl #1
	cmp x13,x12
	csel x12,x13,x12,cc
	lsl x9,x12,x9
	madd x9,x9,x8,x11
	mov x11,#0xa12000000000
	movk x11,#0x7,lsl #48
	add x9,x9,x10
	mov x10,#0x5ee000000000
	movk x10,#0xfff8,lsl #48
	cmp x9,x10
	csel x10,x9,x10,gt
	ldr w9,[x1]
	cmp x10,x11
	csel x10,x10,x11,lt
	str x10,[x1,#48]
	cbz w9,41f
	lsl x8,x8,#32
	sdiv x8,x8,x9
	str x8,[x1,#24]
	ldr w8,[x4]
33:
	tbz w8,#14,34f
	ldr x8,[x4,#56]
	str w8,[x1,#44]
34:
	ldr x8,[x1,#24]
	ldr w9,[x1]
	mul x8,x8,x9
	mov w9,#0xffffffff
	add x9,x8,x9
	cmp x8,#0x0
	csel x8,x9,x8,mi
	ldrb w9,[x1,#5]
	asr x20,x8,#32
	tbnz w9,#5,35f
	mov w8,#0x4dd3
	movk w8,#0x1062,lsl #16
	smull x8,w20,w8
	asr x9,x8,#38
	add x8,x9,x8,lsr #63
	sxtw x20,w8
35:
	ldr w24,[x4]
	tbz w24,#7,36f
	ldr x8,[x4,#48]
	mov w9,#0x86a0
	movk w9,#0x1,lsl #16
	cmp x8,x9
	csel w6,w6,w8,hi
36:
	ldr w26,[x1,#4]
	mov w8,#0x1040
	tst w26,w8
	b.eq 37f
	mov w23,#0x5
	ldr x22,[x1,#48]
	ldur d8,[x1,#36]
	ldr w21,[x1,#32]
	ldr w27,[x1,#44]
	cbnz w24,38f
	b 39f
37:
	ldr w8,[x1,#8]
	mov w9,#0x4
	cmp w8,#0x4
	csel w23,w8,w9,cc
	ldr x22,[x1,#48]
	ldur d8,[x1,#36]
	ldr w21,[x1,#32]
	ldr w27,[x1,#44]
	cbz w24,39f
38:
	ldr w8,[x1]
	cbz w8,41f
	mov x9,#0x86a000000000
	ldr x10,[x1,#72]
	movk x9,#0x1,lsl #48
	madd x9,x27,x9,x22
	udiv x9,x9,x8
	add x9,x9,x10
	mul x8,x9,x8
	mov w9,#0x4003
	str x8,[x1,#96]
	ldr w8,[x4]
	tst w8,w9
	b.eq 39f
	tbnz w8,#15,39f
	stur x0,[x29,#-8]
	mov x0,x1
	mov x1,x2
	mov x2,x19
	mov x19,x18
	mov w25,w6
	bl .Ltk_ntp.course.Course.steer
	ldur x0,[x29,#-8]
	mov w6,w25
	mov x18,x19
39:
	asr x8,x22,#19
	mov w9,#0x49bb
	mov w10,#0xffffffff
	movk w9,#0x20c,lsl #16
	mov w11,#0x4dd3
	uxtl v0.2d,v8.2s
	mul x8,x8,x9
	mov w9,#0xca00
	movk w11,#0x1062,lsl #16
	movk w9,#0x3b9a,lsl #16
	strb w23,[x0,#8]
	msub w9,w28,w9,w18
	strh wzr,[x0]
	sturh wzr,[x0,#9]
	strb wzr,[x0,#11]
	add x10,x8,x10
	cmp x8,#0x0
	stp w6,w24,[x0,#12]
	csel x8,x10,x8,mi
	umull x10,w9,w11
	tst w26,#0x2000
	asr x8,x8,#32
	str wzr,[x0,#20]
	stp w26,wzr,[x0,#56]
	stp x20,x8,[x0,#24]
	lsr x8,x10,#38
	stur q0,[x0,#40]
	csel w8,w8,w9,eq
	stp x21,x27,[x0,#64]
	stp x28,x8,[x0,#80]
40:
	ldp x20,x19,[sp,#192]
	ldr d8,[sp,#96]
	ldp x22,x21,[sp,#176]
	ldp x24,x23,[sp,#160]
	ldp x26,x25,[sp,#144]
	ldp x28,x27,[sp,#128]
	ldp x29,x30,[sp,#112]
	add sp,sp,#0xd0
	ret
41:
	brk #0x1

function "tk_script::line::Line::put_signed",4,332
	cmp x1,#0x0
	ldr x8,[x0,#96]
	cneg x11,x1,mi
	lsr x9,x11,#4
	cmp x9,#0x271
	adrp x9,.rodata..Lstatic.23
	add x9,x9,:lo12:.rodata..Lstatic.23
	b.cc 3f
	sub x12,x0,#0x4
1:
	mov x10,#0x594b
	mov w13,#0x2710
	mov w15,#0x147b
	movk x10,#0x3886,lsl #16
	movk x10,#0xc5d6,lsl #32
	movk x10,#0x346d,lsl #48
	umulh x10,x11,x10
	lsr x10,x10,#11
	msub w13,w10,w13,w11
	ubfx w14,w13,#2,#14
	mul w14,w14,w15
	mov w15,#0x64
	lsr w14,w14,#17
	msub w13,w14,w15,w13
	add x15,x12,x8
	sub x8,x8,#0x4
	and x13,x13,#0xffff
	ldrh w13,[x9,x13,lsl #1]
	strh w13,[x15,#2]
	ldrh w13,[x9,w14,uxtw #1]
	mov w14,#0xe0ff
	movk w14,#0x5f5,lsl #16
	cmp x11,x14
	mov x11,x10
	strh w13,[x15]
	b.hi 1b
	cmp x10,#0x63
	b.hi 4f
2:
	cmp x10,#0x9
	b.hi 5f
	sub x8,x8,#0x1
	orr w9,w10,#0x30
	strb w9,[x0,x8]
	str x8,[x0,#96]
	tbz x1,#63,7f
	b 8f
3:
	mov x10,x11
	cmp x11,#0x63
	b.ls 2b
4:
	ubfx w11,w10,#2,#14
	mov w12,#0x147b
	add x13,x0,x8
	cmp x10,#0x3e7
	mul w11,w11,w12
	mov w12,#0x64
	lsr w11,w11,#17
	msub w12,w11,w12,w10
	and x12,x12,#0xffff
	ldrh w12,[x9,x12,lsl #1]
	sturh w12,[x13,#-2]
	b.hi 6f
	sub x8,x8,#0x3
	orr w9,w11,#0x30
	strb w9,[x0,x8]
	str x8,[x0,#96]
	tbz x1,#63,7f
	b 8f
5:
	ldrh w9,[x9,x10,lsl #1]
	sub x8,x8,#0x2
	strh w9,[x0,x8]
	str x8,[x0,#96]
	tbz x1,#63,7f
	b 8f
6:
	ldrh w9,[x9,w11,uxtw #1]
	sub x8,x8,#0x4
	strh w9,[x0,x8]
	str x8,[x0,#96]
	tbnz x1,#63,8f
7:
	ret
8:
	sub x8,x8,#0x1
	mov w9,#0x2d
	strb w9,[x0,x8]
	str x8,[x0,#96]
	ret

function "tk_ntp::course::Course::advance::<#dbeed42889e166b7>",4,2236
.Ltk_ntp.course.Course.advance:
	sub sp,sp,#0x80
	ldrb w8,[x1,#76]
	stp x29,x30,[sp,#32]
	add x29,sp,#0x20
	stp x28,x27,[sp,#48]
	stp x26,x25,[sp,#64]
	stp x24,x23,[sp,#80]
	stp x22,x21,[sp,#96]
	stp x20,x19,[sp,#112]
	tbz w8,#0,2f
	mov w1,#0x1
1:
	mov w0,#0x1
	b 10f
2:
	ldr w27,[x1]
	mov x9,#0xffffffffffffffff
	neg w8,w27
	lsr x12,x9,x8
	cmp x12,x2
	b.cs 3f
	mov w0,#0x1
	mov w1,#0x3
	b 10f
3:
	ldr x28,[x1,#16]
	sub x8,x2,x28
	and x11,x8,x12
	sub x8,x12,x11
	cmp x8,x11
	b.cs 5f
4:
	mov w0,#0x1
	mov w1,#0x4
	b 10f
5:
	ldp x8,x10,[x1,#32]
	lsr x13,x11,#31
	ldp w9,w4,[x1,#8]
	cbnz x13,6f
	madd x11,x11,x4,x10
	lsr x11,x11,x9
	b 8f
6:
	mul x13,x4,x11
	umulh x14,x4,x11
	adds x11,x13,x10
	cinc x13,x14,cs
	extr x14,x13,x11,#63
	lsr x14,x14,x9
	cbz x14,7f
	mov x11,#0xc000000000000000
	b 8f
7:
	lsl x13,x13,#1
	mvn w14,w9
	lsr x11,x11,x9
	lsl x13,x13,x14
	orr x11,x13,x11
8:
	mov w22,#0xca00
	mov x13,#0xffffffff5919ffff
	movk w22,#0x3b9a,lsl #16
	movk x13,#0x26bf,lsl #32
	madd x11,x8,x22,x11
	movk x13,#0xd21,lsl #48
	cmp x11,x13
	b.hi 9f
	ldr x13,[x1,#64]
	mov x23,#0xffffffffffff2800
	movk x23,#0xcd0d,lsl #16
	movk x23,#0x7fff,lsl #48
	adds x13,x13,x11
	csinv x13,x13,xzr,cc
	sub x14,x23,#0x1
	cmp x13,x14
	b.hi 9f
	ldr w13,[x1,#72]
	umaddl x13,w13,w22,x11
	ldr x11,[x1,#24]
	adds x13,x11,x13
	csinv x13,x13,xzr,cc
	cmp x13,x23
	b.cs 9f
	ldr x13,[x0,#112]
	sub x13,x2,x13
	and x13,x13,x12
	sub x12,x12,x13
	cmp x12,x13
	b.cc 4b
	mov x25,#0xa12000000000
	mov w12,wzr
	mov x19,x1
	movk x25,#0x7,lsl #48
	mov x20,x0
	str x2,[sp]
	b 12f
9:
	mov w0,#0x1
	mov w1,#0x5
10:
	ldp x20,x19,[sp,#112]
	ldp x22,x21,[sp,#96]
	ldp x24,x23,[sp,#80]
	ldp x26,x25,[sp,#64]
	ldp x28,x27,[sp,#48]
	ldp x29,x30,[sp,#32]
	add sp,sp,#0x80
	ret
11:
	mov x0,x20
	mov x1,x19
	mov x2,x21
	bl .Ltk_ntp.course.Course.steer
	ldp w9,w4,[x19,#8]
	ldp x28,x11,[x19,#16]
	mov x0,x20
	ldp x8,x10,[x19,#32]
	mov x1,x19
	ldr w27,[x19]
	ldrb w12,[x19,#76]
	ldr x2,[sp]
12:
	tbz w12,#0,15f
13:
	ldr x26,[x0,#104]
14:
	cmp x26,#0x0
	mov w13,#0xca00
	mvn w18,w9
	movk w13,#0x3b9a,lsl #16
	cneg x14,x26,mi
	mul x15,x14,x13
	umulh x13,x14,x13
	subs x14,x15,x11
	lsl x15,x22,x9
	sbcs x13,x13,xzr
	mul x16,x8,x15
	csel x13,xzr,x13,cc
	csel x14,xzr,x14,cc
	cmp x26,#0x0
	csel x14,xzr,x14,mi
	csel x13,xzr,x13,mi
	umulh x15,x8,x15
	lsr x17,x14,#1
	lsl x0,x13,x9
	tst w12,#0x1
	lsl x14,x14,x9
	csel w13,wzr,w4,ne
	tst x9,#0x40
	lsr x17,x17,x18
	csel x18,xzr,x14,ne
	orr x17,x0,x17
	csel x17,x14,x17,ne
	adds x16,x16,x10
	cinc x0,x15,cs
	subs x14,x18,x16
	sbcs x15,x17,x0
	csel x15,xzr,x15,cc
	csel x14,xzr,x14,cc
	cmp x16,x18
	sbcs xzr,x0,x17
	b.cs 16f
	cmp x15,w13,uxtw
	b.cs 49f
	cbz w13,51f
	extr x15,x15,x14,#32
	udiv x16,x15,x13
	msub w15,w16,w13,w15
	bfi x14,x15,#32,#32
	udiv x15,x14,x13
	msub x14,x15,x13,x14
	add x13,x15,x16,lsl #32
	cbz x14,17f
	neg w14,w27
	mov x15,#0x7fffffffffffffff
	lsr x14,x15,x14
	cmp x13,x14
	b.cs 49f
	mov w14,#0x40
	add x13,x13,#0x1
	b 19f
15:
	neg w13,w27
	mov x14,#0xffffffffffffffff
	lsr x14,x14,x13
	cmp x14,x2
	b.cc 13b
	sub x13,x2,x28
	and x13,x13,x14
	sub x14,x14,x13
	cmp x14,x13
	b.cc 13b
	lsr x15,x13,#31
	mov w14,w4
	cbnz x15,22f
	madd x13,x13,x14,x10
	lsr x13,x13,x9
	b 48f
16:
	mov x13,xzr
	b 18f
17:
	neg w14,w27
	mov x15,#0x7fffffffffffffff
	lsr x14,x15,x14
	cmp x14,x13
	b.cc 49f
18:
	mov w14,#0x40
19:
	sub w14,w14,w27
	mov x15,#0xffffffffffffffff
	add x13,x13,x28
	lsr x14,x15,x14
	and x21,x13,x14
	sub x24,x21,x28
	and x13,x24,x14
	sub x14,x14,x13
	cmp x14,x13
	cset w14,cc
	orr w12,w12,w14
	tbnz w12,#0,23f
	lsr x12,x13,#31
	cbnz x12,20f
	mov w12,w4
	madd x10,x13,x12,x10
	lsr x9,x10,x9
	ldr x10,[sp]
	madd x8,x8,x22,x9
	adds x8,x11,x8
	csinv x0,x8,xzr,cc
	cmp x0,x23
	b.cc 24f
	b 49f
20:
	mov w12,w4
	mul x14,x13,x12
	umulh x13,x13,x12
	adds x12,x14,x10
	cinc x13,x13,cs
	extr x10,x13,x12,#63
	lsr x14,x10,x9
	ldr x10,[sp]
	cbz x14,21f
	mov x9,#0xc000000000000000
	madd x8,x8,x22,x9
	adds x8,x11,x8
	csinv x0,x8,xzr,cc
	cmp x0,x23
	b.cc 24f
	b 49f
21:
	lsl x13,x13,#1
	mvn w14,w9
	lsr x9,x12,x9
	lsl x12,x13,x14
	orr x9,x12,x9
	madd x8,x8,x22,x9
	adds x8,x11,x8
	csinv x0,x8,xzr,cc
	cmp x0,x23
	b.cc 24f
	b 49f
22:
	mul x15,x13,x14
	umulh x14,x13,x14
	adds x13,x15,x10
	cinc x14,x14,cs
	extr x15,x14,x13,#63
	lsr x15,x15,x9
	cbz x15,47f
	mov x13,#0xc000000000000000
	b 48f
23:
	mov x0,x1
	mov w1,wzr
	mov x25,x4
	bl "tk_clock::read_base::ReadBase::nanos_at_last"
	mov x4,x25
	mov x25,#0xa12000000000
	ldr x10,[sp]
	movk x25,#0x7,lsl #48
	cmp x0,x23
	b.cs 49f
24:
	neg w8,w27
	mov x9,#0xffffffffffffffff
	lsr x8,x9,x8
	sub x9,x10,x28
	and x9,x9,x8
	and x10,x24,x8
	cmp x9,x10
	b.cc 49f
	ldr x10,[x19,#112]
	subs x10,x10,#0x3
	b.cc 50f
	ldr x11,[x19,#96]
	mov x12,#0x7ffffffffffffffc
	mov x9,x19
	mov w1,wzr
	mov w0,#0x1
	cmp x11,x12
	b.hi 10b
	ldr x12,[x9,#104]
	sub x11,x11,x12
	cmp x11,x10
	b.hi 10b
	ldr x11,[x20,#112]
	ldr x3,[x20,#96]
	mov x10,x20
	ldr x0,[x20,#80]
	str w27,[sp,#8]
	sub x11,x21,x11
	and x5,x11,x8
	ldur x8,[x9,#4]
	lsr x9,x5,#27
	stur x8,[sp,#12]
	cbz x9,25f
	ldr x9,[x10,#88]
	b 26f
25:
	mov w9,w8
	mov w11,w4
	mov x14,#0x360000000000
	mul x9,x5,x9
	movk x14,#0xc465,lsl #48
	asr x16,x3,#63
	lsr x8,x8,#32
	mul x11,x5,x11
	umulh x12,x3,x9
	mul x13,x3,x9
	umulh x15,x11,x14
	mul x14,x11,x14
	madd x12,x16,x9,x12
	ldr x9,[x10,#88]
	sub x11,x15,x11
	adds x13,x14,x13
	adc x11,x11,x12
	adds x1,x13,x9
	lsl x12,x22,x8
	adc x8,x11,x0
	mov x13,#0xf000000000000000
	add x11,x8,x12,lsr #5
	add x11,x11,x13
	cmp x11,x12,lsr #4
	b.cc 27f
26:
	add x2,sp,#0x8
	mov x1,x9
	bl "tk_ntp::lag::Lag::accounted_late"
	mov x8,x0
	mov x10,x20
27:
	ldp w9,w13,[x10,#4]
	mov w11,#0x4
	ldrb w12,[x10,#12]
	stp x8,x1,[x10,#80]
	cmp w13,#0x4
	csel w14,w13,w11,cc
	ldr x11,[x10,#16]
	cmp w14,#0x1
	b.le 28f
	cmp w14,#0x2
	mov x0,x19
	b.eq 29f
	cmp w14,#0x3
	b.ne 30f
	mov w12,wzr
	mov x11,xzr
	mov w27,wzr
	strb wzr,[sp,#10]
	mov w8,#0x1
	mov w13,#0x4
	strh wzr,[sp,#8]
	b 39f
28:
	mov x0,x19
	cbnz w14,32f
	tbnz w9,#4,34f
	tbz w9,#5,31f
	mov x11,#0x4ab7
	add x8,x26,#0x1
	mov x12,#0xffffffffffffffff
	movk x11,#0x7289,lsl #16
	mov w27,wzr
	strb wzr,[sp,#10]
	movk x11,#0x4506,lsl #32
	strh wzr,[sp,#8]
	mov w13,#0x2
	movk x11,#0xc22e,lsl #48
	umulh x8,x8,x11
	mov w11,#0x5180
	movk w11,#0x1,lsl #16
	lsr x8,x8,#16
	madd x8,x8,x11,x12
	mov w12,#0x1
	add x11,x8,x11
	b 38f
29:
	tbz w9,#5,33f
	tbz w12,#0,31f
	cmp x11,x26
	b.ne 31f
	mov w12,wzr
	mov x11,xzr
	mov w8,wzr
	strb wzr,[sp,#10]
	mov w27,#0x1
	mov w13,#0x4
	strh wzr,[sp,#8]
	b 39f
30:
	tst w9,#0x30
	b.eq 36f
31:
	ldurh w8,[x10,#13]
	ldurb w14,[x10,#15]
	mov w27,wzr
	strh w8,[sp,#8]
	strb w14,[sp,#10]
	b 38f
32:
	tbnz w9,#4,35f
33:
	mov w13,wzr
	mov w12,wzr
	mov x11,xzr
	mov w27,wzr
	b 37f
34:
	mov x8,#0x4ab7
	mov w11,#0x5180
	mov w27,wzr
	movk x8,#0x7289,lsl #16
	movk w11,#0x1,lsl #16
	strb wzr,[sp,#10]
	movk x8,#0x4506,lsl #32
	strh wzr,[sp,#8]
	mov w13,#0x1
	movk x8,#0xc22e,lsl #48
	mov w12,#0x1
	umulh x8,x26,x8
	lsr x8,x8,#16
	madd x11,x8,x11,x11
	b 38f
35:
	tbz w12,#0,31b
	cmp x11,x26
	b.ne 31b
	mov w8,wzr
	mov w27,wzr
	strb wzr,[sp,#10]
	mov w12,#0x1
	strh wzr,[sp,#8]
	mov w13,#0x3
	mov x11,x26
	b 39f
36:
	mov w13,wzr
	mov w27,wzr
	and w12,w12,#0x1
37:
	strb wzr,[sp,#10]
	strh wzr,[sp,#8]
38:
	mov w8,#0x1
39:
	str w13,[x10,#8]
	ldrh w13,[sp,#8]
	ldrb w14,[sp,#10]
	strb w12,[x10,#12]
	mov w16,#0x104
	ldr x12,[x10,#24]
	sturh w13,[x10,#13]
	and w16,w9,w16
	ldr w15,[x10,#32]
	sturb w14,[x10,#15]
	cmp w16,#0x104
	mov x17,x12
	ldr x13,[x10,#64]
	ldr w14,[x10]
	str x11,[x10,#16]
	b.eq 40f
	cmp w15,#0x3e
	b.cs 51f
	mov w11,#0x4
	lsl x11,x11,x15
	sdiv x17,x12,x11
40:
	cmp x13,#0x1f5
	b.lt 41f
	cbz w14,51f
	udiv x11,x25,x14
	b 43f
41:
	cmn x13,#0x1f5
	b.gt 42f
	cbz w14,51f
	udiv x11,x25,x14
	neg x11,x11
	b 43f
42:
	cbz w14,51f
	mov w11,#0x3e8
	mul x11,x13,x11
	sdiv x11,x11,x14
	lsl x11,x11,#32
43:
	add x11,x11,x17
	cmp w16,#0x104
	mov x16,x12
	str x11,[x10,#72]
	b.eq 44f
	cmp w15,#0x3e
	b.cs 51f
	mov w16,#0x4
	lsl x15,x16,x15
	sdiv x16,x12,x15
44:
	ldr w15,[x10,#44]
	mov x17,#0x86a000000000
	ldr x18,[x10,#48]
	movk x17,#0x1,lsl #48
	sub x12,x12,x16
	cmn x13,#0x1f4
	madd x15,x15,x17,x18
	mov x16,#0xfffffffffffffe0c
	str x12,[x10,#24]
	csel x16,x13,x16,lt
	subs x13,x13,#0x1f4
	str x21,[x10,#112]
	add x16,x16,#0x1f4
	csel x12,x13,x16,gt
	orr w13,w9,#0x40
	str x12,[x10,#64]
	udiv x15,x15,x14
	add x11,x15,x11
	ldr w15,[x10,#36]
	mul x11,x11,x14
	mov w14,#0x2400
	movk w14,#0xf4,lsl #16
	add w15,w15,#0x1f4
	cmp w15,w14
	csel w9,w13,w9,hi
	csel w12,w15,w14,cc
	str w9,[x10,#4]
	add x9,x26,#0x1
	str w12,[x10,#36]
	stp x11,x9,[x10,#96]
	tbnz w8,#0,11b
	ldr w9,[x0,#72]
	tbz w27,#0,45f
	cmp w9,#0x0
	mov w10,#0x1
	cset w8,ne
	sub w8,w9,w8
	b 46f
45:
	lsr w8,w9,#5
	mov x10,#0xffffffffffffffff
	cmp w8,#0xc35
	cinc w8,w9,cc
46:
	cmp w8,w9
	mov w9,#0x6
	mov w11,#0x2
	csel x9,x11,x9,eq
	csel w8,wzr,w8,eq
	add x2,sp,#0x8
	mov x1,x21
	stp x9,x10,[sp,#8]
	str x8,[sp,#24]
	bl "tk_clock::clock::Clock::apply_any"
	tst w0,#0xff
	b.ne 11b
	ldr x10,[x19,#96]
	cmp w27,#0x0
	add x10,x10,#0x1
	str x10,[x19,#96]
	ldr x9,[x20,#104]
	sub x10,x9,#0x1
	csinc x9,x10,x9,eq
	str x9,[x20,#104]
	b 11b
47:
	lsl x14,x14,#1
	mvn w15,w9
	lsr x13,x13,x9
	lsl x14,x14,x15
	orr x13,x14,x13
48:
	madd x13,x8,x22,x13
	adds x13,x11,x13
	csinv x13,x13,xzr,cc
	cmp x13,x23
	b.cs 13b
	ldr x26,[x0,#104]
	mul x14,x26,x22
	cmp x13,x14
	b.cs 14b
49:
	mov w1,wzr
	mov w0,wzr
	b 10b
50:
	mov w1,wzr
	b 1b
51:
	brk #0x1

function "tk_session::plain::look",4,3892
	stp x29,x30,[sp,#-80]!
	stp x28,x25,[sp,#16]
	mov x29,sp
	stp x24,x23,[sp,#32]
	stp x22,x21,[sp,#48]
	stp x20,x19,[sp,#64]
	sub sp,sp,#0x680
	str xzr,[sp]
	movi v0.2d,#0x0
	mov x10,#0xffffffffffffffff
	ldr w8,[x1,#8]
	and w9,w3,#0xff
	mov x20,x5
	mov w21,w4
	mov x19,x0
	cmp w9,#0x2
	neg w8,w8
	str xzr,[sp,#1344]
	lsr x8,x10,x8
	str q0,[sp,#1328]
	str q0,[sp,#1312]
	str q0,[sp,#1296]
	str q0,[sp,#1280]
	str q0,[sp,#1264]
	str q0,[sp,#1248]
	str q0,[sp,#1232]
	str q0,[sp,#1216]
	str q0,[sp,#1200]
	str q0,[sp,#1184]
	str q0,[sp,#1168]
	str q0,[sp,#1152]
	str q0,[sp,#1136]
	str q0,[sp,#1120]
	str q0,[sp,#1104]
	str q0,[sp,#1088]
	str q0,[sp,#1072]
	str q0,[sp,#1056]
	str xzr,[sp,#1040]
	stp q0,q0,[sp,#224]
	stp q0,q0,[sp,#256]
	stp q0,q0,[sp,#528]
	stp q0,q0,[sp,#560]
	stp q0,q0,[sp,#592]
	stp q0,q0,[sp,#640]
	stp q0,q0,[sp,#672]
	stp q0,q0,[sp,#704]
	stp q0,q0,[sp,#752]
	stp q0,q0,[sp,#784]
	stp q0,q0,[sp,#816]
	stp q0,q0,[sp,#848]
	stp q0,q0,[sp,#880]
	stp q0,q0,[sp,#912]
	stp q0,q0,[sp,#944]
	stp q0,q0,[sp,#976]
	stp q0,q0,[sp,#1008]
	str xzr,[sp,#736]
	str xzr,[sp,#624]
	stp q0,q0,[sp,#384]
	stp q0,q0,[sp,#416]
	stp q0,q0,[sp,#448]
	stp q0,q0,[sp,#480]
	str xzr,[sp,#512]
	str xzr,[sp,#208]
	stp q0,q0,[sp]
	stp q0,q0,[sp,#32]
	stp q0,q0,[sp,#64]
	stp q0,q0,[sp,#112]
	stp q0,q0,[sp,#144]
	stp q0,q0,[sp,#176]
	stp q0,q0,[sp,#288]
	stp q0,q0,[sp,#320]
	stp q0,q0,[sp,#352]
	str xzr,[sp,#96]
	b.le 1f
	cmp w9,#0x4
	b.gt 2f
	cmp w9,#0x3
	b.ne 6f
	cmp x8,x2
	b.cc 9f
	ldrb w9,[x1,#84]
	tbnz w9,#0,51f
	ldr x9,[x1,#24]
	sub x9,x2,x9
	and x11,x9,x8
	sub x8,x8,x11
	cmp x8,x11
	b.cc 51f
	ldr w10,[x1,#80]
	mov w8,#0xca00
	lsr x15,x11,#31
	movk w8,#0x3b9a,lsl #16
	ldp x12,x9,[x1,#32]
	umaddl x10,w10,w8,x12
	ldr x13,[x1,#48]
	ldp w12,w14,[x1,#16]
	cbnz x15,16f
	madd x11,x11,x14,x13
	lsr x11,x11,x12
	b 26f
1:
	cbz w9,4f
	cmp w9,#0x1
	b.ne 5f
	cmp x8,x2
	b.cc 9f
	ldrb w9,[x1,#84]
	tbnz w9,#0,49f
	ldr x9,[x1,#24]
	sub x9,x2,x9
	and x9,x9,x8
	sub x8,x8,x9
	cmp x8,x9
	b.cc 49f
	ldp x8,x11,[x1,#40]
	lsr x13,x9,#31
	ldp w10,w12,[x1,#16]
	cbnz x13,13f
	madd x9,x9,x12,x11
	lsr x9,x9,x10
	b 22f
2:
	cmp w9,#0x5
	b.ne 8f
	cmp x8,x2
	b.cc 9f
	ldrb w9,[x1,#84]
	tbnz w9,#0,52f
	ldr x9,[x1,#24]
	sub x9,x2,x9
	and x9,x9,x8
	sub x8,x8,x9
	cmp x8,x9
	b.cc 52f
	lsr x11,x9,#31
	ldp x8,x9,[x1,#40]
	ldr w10,[x1,#16]
	cbz x11,3f
	lsr x11,x9,#63
	lsr x11,x11,x10
	cbnz x11,14f
3:
	lsr x9,x9,x10
	b 22f
4:
	cmp x8,x2
	b.cc 9f
	ldrb w9,[x1,#84]
	tbnz w9,#0,48f
	ldr x9,[x1,#24]
	sub x9,x2,x9
	and x10,x9,x8
	sub x8,x8,x10
	cmp x8,x10
	b.cc 48f
	ldp x8,x12,[x1,#40]
	lsr x14,x10,#31
	ldp w11,w13,[x1,#16]
	ldr x9,[x1,#32]
	cbnz x14,11f
	madd x10,x10,x13,x12
	lsr x10,x10,x11
	b 19f
5:
	cmp x8,x2
	b.cc 9f
	ldrb w9,[x1,#84]
	tbnz w9,#0,50f
	ldr x9,[x1,#24]
	sub x9,x2,x9
	and x10,x9,x8
	sub x8,x8,x10
	cmp x8,x10
	b.cc 50f
	ldp x8,x12,[x1,#40]
	lsr x14,x10,#31
	ldp w11,w13,[x1,#16]
	ldr x9,[x1,#72]
	cbnz x14,15f
	madd x10,x10,x13,x12
	lsr x10,x10,x11
	b 24f
6:
	cmp x8,x2
	b.cc 9f
	ldrb w9,[x1,#84]
	tbnz w9,#0,54f
	ldr x9,[x1,#24]
	sub x9,x2,x9
	and x9,x9,x8
	sub x8,x8,x9
	cmp x8,x9
	b.cc 54f
	ldp x8,x10,[x1,#40]
	lsr x12,x9,#31
	ldr x9,[x1,#32]
	ldr w11,[x1,#16]
	cbz x12,7f
	lsr x12,x10,#63
	lsr x12,x12,x11
	cbnz x12,12f
7:
	lsr x10,x10,x11
	b 19f
8:
	cmp x8,x2
	b.cs 10f
9:
	mov w8,wzr
	b 59f
10:
	ldrb w9,[x1,#84]
	tbnz w9,#0,56f
	ldr x9,[x1,#24]
	sub x9,x2,x9
	and x9,x9,x8
	sub x8,x8,x9
	cmp x8,x9
	b.cc 56f
	ldp x8,x11,[x1,#56]
	lsr x13,x9,#31
	ldp w12,w10,[x1,#12]
	cbnz x13,17f
	madd x9,x9,x12,x11
	lsr x9,x9,x10
	b 28f
11:
	mul x14,x13,x10
	umulh x13,x13,x10
	adds x10,x14,x12
	cinc x12,x13,cs
	extr x13,x12,x10,#63
	lsr x13,x13,x11
	cbz x13,18f
12:
	mov x10,#0xc000000000000000
	b 19f
13:
	mul x13,x12,x9
	umulh x12,x12,x9
	adds x9,x13,x11
	cinc x11,x12,cs
	extr x12,x11,x9,#63
	lsr x12,x12,x10
	cbz x12,21f
14:
	mov x9,#0xc000000000000000
	b 22f
15:
	mul x14,x13,x10
	umulh x13,x13,x10
	adds x10,x14,x12
	cinc x12,x13,cs
	extr x13,x12,x10,#63
	lsr x13,x13,x11
	cbz x13,23f
	mov x10,#0xc000000000000000
	b 24f
16:
	mul x15,x14,x11
	umulh x14,x14,x11
	adds x11,x15,x13
	cinc x13,x14,cs
	extr x14,x13,x11,#63
	lsr x14,x14,x12
	cbz x14,25f
	mov x11,#0xc000000000000000
	b 26f
17:
	mul x13,x12,x9
	umulh x12,x12,x9
	adds x9,x13,x11
	cinc x11,x12,cs
	extr x12,x11,x9,#63
	lsr x12,x12,x10
	cbz x12,27f
	mov x9,#0xc000000000000000
	b 28f
18:
	lsl x12,x12,#1
	mvn w13,w11
	lsr x10,x10,x11
	lsl x11,x12,x13
	orr x10,x11,x10
19:
	mov w11,#0xca00
	movk w11,#0x3b9a,lsl #16
	madd x8,x8,x11,x10
	adds x8,x9,x8
	csinv x0,x8,xzr,cc
	mov x8,#0xffffffffffff2800
	movk x8,#0xcd0d,lsl #16
	movk x8,#0x7fff,lsl #48
	cmp x0,x8
	b.cs 58f
20:
	mov x9,#0x5a53
	lsr x8,x0,#9
	mov w10,#0xd6d7
	movk x9,#0xa09b,lsl #16
	movk w10,#0x10a,lsl #16
	mov x11,#0x728a
	movk x9,#0xb82f,lsl #32
	movk x11,#0x4506,lsl #16
	mov w12,#0x3ab1
	movk x9,#0x44,lsl #48
	movk x11,#0xc22e,lsl #32
	movk w12,#0x2,lsl #16
	umulh x8,x8,x9
	mov w14,#0xb073
	mov w13,#0x5c29
	movk w14,#0x166d,lsl #16
	mov w17,#0x4445
	movk w13,#0x28f,lsl #16
	movk w17,#0x444,lsl #16
	movi v3.16b,#0xa
	mov w15,#0x5f
	mov w2,#0x5b5
	str x15,[sp,#1456]
	mov w1,#0x3a
	mov w18,#0x889
	mov w16,#0x3457
	mov w4,#0x2e
	lsr x23,x8,#11
	mov w8,#0xca00
	movk w16,#0x12,lsl #16
	movk w8,#0x3b9a,lsl #16
	str q3,[sp,#1424]
	msub x24,x23,x8,x0
	mov w8,#0x1759
	str q3,[sp,#1440]
	movk w8,#0xd1b7,lsl #16
	strb w1,[sp,#1438]
	dup v1.2s,w8
	umulh x11,x23,x11
	strb w1,[sp,#1441]
	strb w4,[sp,#1444]
	mov w4,#0x2d
	str q3,[sp,#1408]
	mul x9,x24,x8
	mov x8,#0x48e3
	fmov s0,w24
	movk x8,#0x48f9,lsl #16
	str q3,[sp,#1392]
	movk x8,#0xff6f,lsl #32
	str q3,[sp,#1376]
	movk x8,#0x683f,lsl #48
	str q3,[sp,#1360]
	umulh x8,x0,x8
	mov w0,#0x54
	strb w4,[sp,#1432]
	lsr x9,x9,#45
	strb w0,[sp,#1435]
	mov w0,#0xd8f0
	strb w4,[sp,#1429]
	mov v0.s[1],w9
	mov w9,#0x2710
	dup v2.2s,w9
	lsr x8,x8,#45
	add w9,w10,w8,lsl #2
	mov w8,#0x6bd
	umull v1.2d,v0.2s,v1.2s
	movk w8,#0x396b,lsl #16
	umull x10,w9,w8
	adrp x8,.rodata..Lstatic.23
	add x8,x8,:lo12:.rodata..Lstatic.23
	ushr v1.2d,v1.2d,#45
	lsr x10,x10,#47
	msub w9,w10,w12,w9
	xtn v1.2s,v1.2d
	mov w12,#0x5180
	movk w12,#0x1,lsl #16
	umsubl x12,w11,w12,x23
	mov w11,#0x3b89
	orr w9,w9,#0x3
	movk w11,#0x55e6,lsl #16
	umull x14,w9,w14
	mls v0.2s,v1.2s,v2.2s
	movi d1,#0xffff0000ffff
	dup v2.2s,w13
	mul x17,x12,x17
	lsr x14,x14,#39
	mul x13,x24,x11
	mov w11,#0x3c
	and v1.8b,v0.8b,v1.8b
	msub w15,w14,w2,w9
	mov w9,#0x64
	mov w2,#0x358b
	lsr x17,x17,#32
	madd w10,w10,w9,w14
	mov w14,#0x147b
	umull v2.2d,v1.2s,v2.2s
	movi v1.2s,#0x64
	mul x16,x12,x16
	lsr w1,w15,#2
	cmp w15,#0x4c7
	mul w18,w17,w18
	cinc w15,w0,hi
	add w1,w1,w1,lsl #2
	add w15,w10,w15
	lsr x10,x13,#57
	shrn v2.2s,v2.2d,#32
	msub w12,w17,w11,w12
	ubfx w13,w15,#2,#14
	add w0,w1,#0x1cd
	lsr w18,w18,#17
	lsr x16,x16,#32
	and w1,w0,#0xffff
	mul w13,w13,w14
	mov w14,#0x99
	mul w1,w1,w2
	mls v0.2s,v2.2s,v1.2s
	ldrh w12,[x8,w12,uxtw #1]
	msub w11,w18,w11,w17
	orr w17,w10,#0x30
	ldrh w16,[x8,x16,lsl #1]
	strb w17,[sp,#1445]
	mov w18,#0xcd
	lsr w13,w13,#17
	lsr w17,w1,#21
	strh w12,[sp,#1442]
	trn1 v0.4h,v0.4h,v2.4h
	add x11,x8,w11,uxth #1
	strh w16,[sp,#1436]
	msub w14,w17,w14,w0
	ldrb w16,[x11]
	ldrb w11,[x11,#1]
	msub w9,w13,w9,w15
	ldrh w13,[x8,w13,uxtw #1]
	add x15,sp,#0x550
	mul w12,w14,w18
	add v0.4h,v0.4h,v0.4h
	sub w14,w17,#0xc
	strb w11,[sp,#1440]
	csel w11,w14,w17,hi
	and x9,x9,#0xffff
	sturh w13,[x15,#65]
	and x11,x11,#0xff
	ldrh w9,[x8,x9,lsl #1]
	lsr w12,w12,#9
	umov w13,v0.h[3]
	strb w16,[sp,#1439]
	ldrh w11,[x8,x11,lsl #1]
	umov w14,v0.h[2]
	umov w16,v0.h[1]
	and x12,x12,#0x7e
	umov w17,v0.h[0]
	sturh w9,[x15,#67]
	add x12,x8,x12
	strh w11,[sp,#1430]
	ldrh w11,[x12,#2]
	and x9,x13,#0x7ffe
	ldrh w9,[x8,x9]
	and x12,x16,#0x7ffe
	sturh w11,[x15,#73]
	and x11,x14,#0x7ffe
	and x13,x17,#0x7ffe
	ldrh w11,[x8,x11]
	ldrh w12,[x8,x12]
	add x8,x8,x13
	strh w9,[sp,#1446]
	ldrb w9,[x8]
	ldrb w8,[x8,#1]
	strh w11,[sp,#1448]
	mov w11,#0x5a00
	strb w9,[sp,#1452]
	mov w9,#0x2c
	orr w8,w8,w11
	strb w9,[sp,#1424]
	mov w9,#0x40
	strh w12,[sp,#1450]
	sturh w8,[x15,#93]
	b 30f
21:
	lsl x11,x11,#1
	mvn w12,w10
	lsr x9,x9,x10
	lsl x10,x11,x12
	orr x9,x10,x9
22:
	mov w10,#0xca00
	movk w10,#0x3b9a,lsl #16
	madd x0,x8,x10,x9
	mov x8,#0x591a0000
	movk x8,#0x26bf,lsl #32
	movk x8,#0xd21,lsl #48
	cmp x0,x8
	b.cs 58f
	b 29f
23:
	lsl x12,x12,#1
	mvn w13,w11
	lsr x10,x10,x11
	lsl x11,x12,x13
	orr x10,x11,x10
24:
	mov w11,#0xca00
	movk w11,#0x3b9a,lsl #16
	madd x8,x8,x11,x10
	adds x8,x9,x8
	csinv x0,x8,xzr,cc
	mov x8,#0xffffffffffff2800
	movk x8,#0xcd0d,lsl #16
	movk x8,#0x7fff,lsl #48
	cmp x0,x8
	b.cs 58f
	b 29f
25:
	lsl x13,x13,#1
	mvn w14,w12
	lsr x11,x11,x12
	lsl x12,x13,x14
	orr x11,x12,x11
26:
	madd x8,x9,x8,x11
	adds x8,x10,x8
	csinv x0,x8,xzr,cc
	mov x8,#0xffffffffffff2800
	movk x8,#0xcd0d,lsl #16
	movk x8,#0x7fff,lsl #48
	cmp x0,x8
	b.cs 58f
	b 29f
27:
	lsl x11,x11,#1
	mvn w12,w10
	lsr x9,x9,x10
	lsl x10,x11,x12
	orr x9,x10,x9
28:
	mov w10,#0xca00
	movk w10,#0x3b9a,lsl #16
	madd x0,x8,x10,x9
	mov x8,#0xffffffffffff2800
	movk x8,#0xcd0d,lsl #16
	movk x8,#0x7fff,lsl #48
	cmp x0,x8
	b.cs 58f
29:
	mov x9,#0x5a53
	lsr x8,x0,#9
	movk x9,#0xa09b,lsl #16
	movk x9,#0xb82f,lsl #32
	movk x9,#0x44,lsl #48
	umulh x8,x8,x9
	lsr x23,x8,#11
	mov w8,#0xca00
	movk w8,#0x3b9a,lsl #16
	msub x24,x23,x8,x0
	mov w8,#0x1759
	movk w8,#0xd1b7,lsl #16
	dup v1.2s,w8
	mul x9,x24,x8
	fmov s0,w24
	mov w8,#0x2710
	dup v2.2s,w8
	mov w8,#0x5c29
	movk w8,#0x28f,lsl #16
	lsr x9,x9,#45
	mov v0.s[1],w9
	mov w9,#0x5f
	umull v1.2d,v0.2s,v1.2s
	ushr v1.2d,v1.2d,#45
	xtn v1.2s,v1.2d
	mls v0.2s,v1.2s,v2.2s
	movi d1,#0xffff0000ffff
	dup v2.2s,w8
	mov w8,#0x3b89
	movk w8,#0x55e6,lsl #16
	mul x8,x24,x8
	and v1.8b,v0.8b,v1.8b
	umull v1.2d,v1.2s,v2.2s
	movi v2.2s,#0x64
	lsr x10,x8,#57
	shrn v1.2s,v1.2d,#32
	mls v0.2s,v1.2s,v2.2s
	movi v2.16b,#0xa
	trn1 v0.4h,v0.4h,v1.4h
	str q2,[sp,#1440]
	str q2,[sp,#1424]
	str q2,[sp,#1408]
	str q2,[sp,#1392]
	add v0.4h,v0.4h,v0.4h
	str q2,[sp,#1376]
	str q2,[sp,#1360]
30:
	umov w11,v0.h[3]
	umov w14,v0.h[0]
	adrp x8,.rodata..Lstatic.23
	add x8,x8,:lo12:.rodata..Lstatic.23
	umov w12,v0.h[2]
	umov w13,v0.h[1]
	add w15,w10,#0x30
	sub x16,x9,#0x9
	add x10,sp,#0x550
	add x17,x10,x16
	mov w25,#0xca00
	str x16,[sp,#1456]
	ldrh w11,[x8,x11]
	movk w25,#0x3b9a,lsl #16
	strb w15,[x17]
	ldrh w12,[x8,x12]
	ldrh w13,[x8,x13]
	cmp x23,x25
	sturh w11,[x17,#1]
	ldrh w11,[x8,x14]
	sturh w12,[x17,#3]
	mov w12,#0x2e
	sturh w11,[x17,#7]
	sub x11,x9,#0xa
	sturh w13,[x17,#5]
	strb w12,[x10,x11]
	b.cs 33f
	lsr x10,x23,#4
	cmp x10,#0x271
	b.cc 37f
	add x10,sp,#0x550
	mov x12,x23
	add x9,x9,x10
	sub x10,x9,#0xe
31:
	mov x9,#0x594b
	mov w13,#0x2710
	mov w15,#0x147b
	movk x9,#0x3886,lsl #16
	sub x11,x11,#0x4
	movk x9,#0xc5d6,lsl #32
	movk x9,#0x346d,lsl #48
	umulh x9,x12,x9
	lsr x9,x9,#11
	msub w13,w9,w13,w12
	ubfx w14,w13,#2,#14
	mul w14,w14,w15
	mov w15,#0x64
	lsr w14,w14,#17
	msub w13,w14,w15,w13
	mov w15,#0xe0ff
	ldrh w14,[x8,w14,uxtw #1]
	movk w15,#0x5f5,lsl #16
	cmp x12,x15
	mov x12,x9
	and x13,x13,#0xffff
	ldrh w13,[x8,x13,lsl #1]
	strh w13,[x10,#2]
	strh w14,[x10],#-4
	b.hi 31b
	cmp x9,#0x63
	b.hi 38f
32:
	cmp x9,#0x9
	b.hi 46f
	sub x12,x11,#0x1
	add x8,sp,#0x550
	orr w9,w9,#0x30
	strb w9,[x8,x12]
	b 34f
33:
	mov x11,#0xfa0a
	mov w13,#0x1759
	mov w15,#0x2710
	movk x11,#0x4b82,lsl #16
	movk w13,#0xd1b7,lsl #16
	sub x18,x9,#0x13
	movk x11,#0x4,lsl #32
	str x18,[sp,#1456]
	umulh x11,x23,x11
	msub w12,w11,w25,w23
	mov w14,w12
	umull x13,w14,w13
	mov w14,#0x8db9
	movk w14,#0x6,lsl #16
	lsr x13,x13,#45
	umull x14,w13,w14
	msub w16,w13,w15,w12
	lsr x14,x14,#32
	ubfx w17,w16,#2,#14
	msub w13,w14,w15,w13
	mov w14,#0x147b
	mul w15,w17,w14
	mov w17,#0x3b89
	movk w17,#0x55e6,lsl #16
	mul w14,w13,w14
	umull x12,w12,w17
	lsr w15,w15,#17
	mov w17,#0x64
	lsr w14,w14,#19
	msub w16,w15,w17,w16
	ldrh w15,[x8,w15,uxtw #1]
	lsr x12,x12,#57
	msub w13,w14,w17,w13
	add x17,x10,x18
	orr w12,w12,#0x30
	sturh w15,[x17,#5]
	strb w12,[x17]
	ldrh w12,[x8,w14,uxtw #1]
	and x14,x16,#0xffff
	and x13,x13,#0xffff
	ldrh w14,[x8,x14,lsl #1]
	ldrh w8,[x8,x13,lsl #1]
	sturh w12,[x17,#1]
	sub x12,x9,#0x14
	sturh w14,[x17,#7]
	sturh w8,[x17,#3]
	add w8,w11,#0x30
	strb w8,[x10,x12]
34:
	and w8,w3,#0xff
	cmp w8,#0x2
	b.le 35f
	cmp w8,#0x4
	b.gt 36f
	cmp w8,#0x3
	b.ne 42f
	sub x8,x12,#0x7
	add x9,sp,#0x550
	mov w10,#0x6174
	mov w11,#0x7461
	movk w10,#0x2c69,lsl #16
	add x9,x9,x8
	movk w11,#0x742c,lsl #16
	stur w10,[x9,#3]
	str w11,[x9]
	b 44f
35:
	cbz w8,39f
	cmp w8,#0x1
	b.ne 40f
	adrp x10,.rodata..Lstatic.37
	add x10,x10,:lo12:.rodata..Lstatic.37
	sub x8,x12,#0xd
	add x9,sp,#0x550
	ldr x11,[x10]
	ldur x10,[x10,#5]
	add x9,x9,x8
	str x11,[x9]
	stur x10,[x9,#5]
	b 44f
36:
	cmp w8,#0x5
	b.ne 43f
	adrp x10,.rodata..Lstatic.41
	add x10,x10,:lo12:.rodata..Lstatic.41
	sub x8,x12,#0x14
	add x9,sp,#0x550
	ldr q0,[x10]
	mov w10,#0x7372
	add x9,x9,x8
	movk w10,#0x2c65,lsl #16
	str q0,[x9]
	str w10,[x9,#16]
	b 44f
37:
	mov x9,x23
	cmp x23,#0x63
	b.ls 32b
38:
	ubfx w10,w9,#2,#14
	mov w12,#0x147b
	add x13,sp,#0x550
	add x14,x13,x11
	cmp x9,#0x3e7
	mul w10,w10,w12
	mov w12,#0x64
	lsr w10,w10,#17
	msub w12,w10,w12,w9
	and x12,x12,#0xffff
	ldrh w12,[x8,x12,lsl #1]
	sturh w12,[x14,#-2]
	b.hi 47f
	sub x12,x11,#0x3
	orr w8,w10,#0x30
	strb w8,[x13,x12]
	b 34b
39:
	sub x8,x12,#0xc
	add x9,sp,#0x550
	adrp x10,.rodata..Lstatic.36
	add x10,x10,:lo12:.rodata..Lstatic.36
	b 41f
40:
	sub x8,x12,#0xc
	add x9,sp,#0x550
	adrp x10,.rodata..Lstatic.38
	add x10,x10,:lo12:.rodata..Lstatic.38
41:
	ldr x10,[x10]
	mov w11,#0x6d69
	add x9,x9,x8
	movk w11,#0x2c65,lsl #16
	str x10,[x9]
	str w11,[x9,#8]
	b 44f
42:
	adrp x10,.rodata..Lstatic.40
	add x10,x10,:lo12:.rodata..Lstatic.40
	sub x8,x12,#0x13
	add x9,sp,#0x550
	ldr q0,[x10]
	mov w10,#0x7372
	add x9,x9,x8
	movk w10,#0x2c65,lsl #16
	str q0,[x9]
	stur w10,[x9,#15]
	b 44f
43:
	adrp x10,.rodata..Lstatic.42
	add x10,x10,:lo12:.rodata..Lstatic.42
	sub x8,x12,#0x11
	add x9,sp,#0x550
	ldr q0,[x10]
	mov w10,#0x2c
	add x9,x9,x8
	str q0,[x9]
	strb w10,[x9,#16]
44:
	ldr q2,[sp,#1360]
	ldr q3,[sp,#1376]
	mov w9,#0x60
	ldr q0,[sp,#1424]
	ldr q1,[sp,#1440]
	add x10,sp,#0x210
	stp q2,q3,[sp,#528]
	ldr q4,[sp,#1408]
	sub x22,x9,x8
	stp q0,q1,[sp,#592]
	ldr q5,[sp,#1392]
	add x0,sp,#0x550
	stp q2,q3,[sp,#640]
	movi v2.2d,#0x0
	add x1,x10,x8
	mov x2,x22
	str x8,[sp,#1456]
	str x8,[sp,#736]
	stp q5,q4,[sp,#560]
	stp q5,q4,[sp,#672]
	stp q0,q1,[sp,#704]
	str x8,[sp,#624]
	str q2,[sp,#1632]
	str q2,[sp,#1616]
	str q2,[sp,#1600]
	str q2,[sp,#1584]
	str q2,[sp,#1568]
	str q2,[sp,#1552]
	str q2,[sp,#1536]
	str q2,[sp,#1520]
	str q2,[sp,#1504]
	str q2,[sp,#1488]
	str q2,[sp,#1472]
	str q2,[sp,#1456]
	str q2,[sp,#1440]
	str q2,[sp,#1424]
	str q2,[sp,#1408]
	str q2,[sp,#1392]
	str q2,[sp,#1376]
	str q2,[sp,#1360]
	bl memcpy
	add x0,sp,#0x2f0
	add x1,sp,#0x550
	mov w2,#0x128
	str x22,[sp,#1648]
	bl memcpy
	and w8,w21,#0xff
	cmp w8,#0x1
	b.ne 45f
	mul x8,x23,x25
	add x8,x8,x24
	cmp x20,x8
	b.ne 45f
	mov w21,wzr
	mov x20,xzr
45:
	add x0,sp,#0x420
	add x1,sp,#0x2f0
	b 60f
46:
	sub x12,x11,#0x2
	ldrh w8,[x8,x9,lsl #1]
	add x9,sp,#0x550
	strh w8,[x9,x12]
	b 34b
47:
	sub x12,x11,#0x4
	ldrh w8,[x8,w10,uxtw #1]
	strh w8,[x13,x12]
	b 34b
48:
	add x0,x1,#0x8
	mov w1,wzr
	b 55f
49:
	add x0,x1,#0x8
	mov w1,#0x1
	b 53f
50:
	add x0,x1,#0x8
	mov w1,#0x2
	b 57f
51:
	add x0,x1,#0x8
	mov w1,#0x3
	b 57f
52:
	add x0,x1,#0x8
	mov w1,#0x5
53:
	mov w22,w3
	bl "tk_clock::read_base::ReadBase::nanos_at_last"
	mov w3,w22
	mov x8,#0x591a0000
	movk x8,#0x26bf,lsl #32
	movk x8,#0xd21,lsl #48
	cmp x0,x8
	b.cs 58f
	b 29b
54:
	add x0,x1,#0x8
	mov w1,#0x4
55:
	mov w22,w3
	bl "tk_clock::read_base::ReadBase::nanos_at_last"
	mov w3,w22
	mov x8,#0xffffffffffff2800
	movk x8,#0xcd0d,lsl #16
	movk x8,#0x7fff,lsl #48
	cmp x0,x8
	b.cs 58f
	b 20b
56:
	add x0,x1,#0x8
	mov w1,#0x6
57:
	mov w22,w3
	bl "tk_clock::read_base::ReadBase::nanos_at_last"
	mov w3,w22
	mov x8,#0xffffffffffff2800
	movk x8,#0xcd0d,lsl #16
	movk x8,#0x7fff,lsl #48
	cmp x0,x8
	b.cc 29b
58:
	mov w8,#0x1
59:
	movi v0.16b,#0xa
	cmp w8,#0x0
	mov w8,#0x7
	mov w9,#0x5
	add x23,sp,#0x550
	adrp x10,.rodata..Lstatic.47
	add x10,x10,:lo12:.rodata..Lstatic.47
	csel x22,x9,x8,ne
	adrp x11,.rodata..Lstatic.49
	add x11,x11,:lo12:.rodata..Lstatic.49
	sub x8,x23,x22
	mov x2,x22
	csel x1,x11,x10,ne
	add x0,x8,#0x5f
	str q0,[sp,#1440]
	str q0,[sp,#1424]
	str q0,[sp,#1408]
	str q0,[sp,#1392]
	str q0,[sp,#1376]
	str q0,[sp,#1360]
	bl memcpy
	mov w8,#0x5c
	ldr q0,[sp,#1360]
	ldr q1,[sp,#1376]
	sub x8,x8,x22
	mov w9,#0x6f6e
	ldr q2,[sp,#1408]
	add x10,x23,x8
	str x8,[sp,#96]
	ldr q3,[sp,#1392]
	strh w9,[x10]
	mov w9,#0x2c
	ldr q4,[sp,#1424]
	str x8,[sp,#208]
	add x0,sp,#0x550
	stp q0,q1,[sp]
	strb w9,[x10,#2]
	mov w9,#0x60
	mov x10,sp
	stp q3,q2,[sp,#32]
	ldr q5,[sp,#1440]
	sub x22,x9,x8
	stp q0,q1,[sp,#112]
	movi v0.2d,#0x0
	add x1,x10,x8
	mov x2,x22
	stp q4,q5,[sp,#64]
	stp q3,q2,[sp,#144]
	stp q4,q5,[sp,#176]
	str q0,[sp,#1632]
	str q0,[sp,#1616]
	str q0,[sp,#1600]
	str q0,[sp,#1584]
	str q0,[sp,#1568]
	str q0,[sp,#1552]
	str q0,[sp,#1536]
	str q0,[sp,#1520]
	str q0,[sp,#1504]
	str q0,[sp,#1488]
	str q0,[sp,#1472]
	str q0,[sp,#1456]
	str q0,[sp,#1440]
	str q0,[sp,#1424]
	str q0,[sp,#1408]
	str q0,[sp,#1392]
	str q0,[sp,#1376]
	str q0,[sp,#1360]
	bl memcpy
	add x0,sp,#0xe0
	add x1,sp,#0x550
	mov w2,#0x128
	str x22,[sp,#1648]
	bl memcpy
	add x0,sp,#0x420
	add x1,sp,#0xe0
60:
	mov w2,#0x128
	bl memcpy
	add x1,sp,#0x420
	mov x0,x19
	mov w2,#0x128
	and x21,x21,#0xff
	bl memcpy
	stp x21,x20,[x19,#296]
	add sp,sp,#0x680
	ldp x20,x19,[sp,#64]
	ldp x22,x21,[sp,#48]
	ldp x24,x23,[sp,#32]
	ldp x28,x25,[sp,#16]
	ldp x29,x30,[sp],#80
	ret

function "tk_session::plain::line_of",4,1180
	sub sp,sp,#0x110
	ldrb w8,[x2]
	stp x28,x21,[sp,#240]
	add x21,sp,#0x70
	stp x20,x19,[sp,#256]
	mov x19,x0
	stp x29,x30,[sp,#224]
	add x29,sp,#0xe0
	cbz w8,1f
	ldrb w8,[x2,#1]
	adrp x9,.rodata..Lswitch.table.tkc_session_record.112
	add x9,x9,:lo12:.rodata..Lswitch.table.tkc_session_record.112
	movi v0.16b,#0xa
	adrp x10,.data.rel.ro..Lswitch.table.tkc_session_record.113
	add x10,x10,:lo12:.data.rel.ro..Lswitch.table.tkc_session_record.113
	ldr x20,[x9,x8,lsl #3]
	ldr x1,[x10,x8,lsl #3]
	sub x8,x21,x20
	mov x2,x20
	add x0,x8,#0x5f
	stp q0,q0,[sp,#112]
	stp q0,q0,[sp,#144]
	stp q0,q0,[sp,#176]
	bl memcpy
	mov w8,#0x5c
	mov w9,#0x6f6e
	sub x8,x8,x20
	add x10,x21,x8
	strh w9,[x10]
	mov w9,#0x2c
	strb w9,[x10,#2]
	b 15f
1:
	ldr w8,[x1,#8]
	ldr x9,[x1,#40]
	mov w12,#0x1759
	movk w12,#0xd1b7,lsl #16
	mov w11,#0x8db9
	mov w13,#0x2710
	lsr x8,x9,x8
	movk w11,#0x6,lsl #16
	mov w14,#0x147b
	mov w15,#0x56
	mov w16,#0x3b89
	movi v0.16b,#0xa
	mov w9,w8
	movk w16,#0x55e6,lsl #16
	str x15,[sp,#208]
	umull x10,w9,w12
	mov w15,#0x64
	umull x9,w9,w16
	stp q0,q0,[sp,#112]
	lsr x10,x10,#45
	stp q0,q0,[sp,#144]
	lsr x9,x9,#57
	stp q0,q0,[sp,#176]
	umull x11,w10,w11
	msub w17,w10,w13,w8
	add w9,w9,#0x30
	strb w9,[sp,#198]
	lsr x8,x11,#32
	ubfx w11,w17,#2,#14
	msub w10,w8,w13,w10
	adrp x8,.rodata..Lstatic.23
	add x8,x8,:lo12:.rodata..Lstatic.23
	mul w11,w11,w14
	mul w18,w10,w14
	lsr w11,w11,#17
	lsr w18,w18,#19
	msub w17,w11,w15,w17
	ldrh w11,[x8,w11,uxtw #1]
	msub w10,w18,w15,w10
	ldrh w9,[x8,w18,uxtw #1]
	sturh w11,[x21,#91]
	and x17,x17,#0xffff
	ldr x11,[x1,#32]
	mov w18,#0xca00
	ldrh w17,[x8,x17,lsl #1]
	sturh w9,[x21,#87]
	ldr x9,[x2,#8]
	and x10,x10,#0xffff
	movk w18,#0x3b9a,lsl #16
	ldrh w10,[x8,x10,lsl #1]
	sturh w17,[x21,#93]
	mov w17,#0x2e
	cmp x11,x18
	strb w17,[sp,#197]
	sturh w10,[x21,#89]
	mov x10,#0x594b
	movk x10,#0x3886,lsl #16
	movk x10,#0xc5d6,lsl #32
	movk x10,#0x346d,lsl #48
	b.cs 4f
	lsr x12,x11,#4
	cmp x12,#0x271
	b.cc 10f
	mov w13,#0xe0ff
	mov x12,xzr
	movk w13,#0x5f5,lsl #16
2:
	mov x14,x11
	umulh x11,x11,x10
	mov w15,#0x2710
	mov w17,#0x147b
	cmp x14,x13
	lsr x11,x11,#11
	msub w15,w11,w15,w14
	ubfx w16,w15,#2,#14
	mul w16,w16,w17
	mov w17,#0x64
	lsr w16,w16,#17
	msub w15,w16,w17,w15
	add x17,sp,#0x70
	ldrh w16,[x8,w16,uxtw #1]
	add x17,x17,x12
	sub x12,x12,#0x4
	sturh w16,[x17,#81]
	and x15,x15,#0xffff
	ldrh w15,[x8,x15,lsl #1]
	sturh w15,[x17,#83]
	b.hi 2b
	add x12,x12,#0x55
	cmp x11,#0x63
	b.ls 11f
3:
	ubfx w13,w11,#2,#14
	mov w14,#0x147b
	cmp x11,#0x3e7
	mul w13,w13,w14
	mov w14,#0x64
	lsr w13,w13,#17
	msub w14,w13,w14,w11
	and x14,x14,#0xffff
	ldrh w15,[x8,x14,lsl #1]
	add x14,sp,#0x70
	add x16,x14,x12
	sturh w15,[x16,#-2]
	b.hi 16f
	sub x12,x12,#0x3
	orr w11,w13,#0x30
	strb w11,[x14,x12]
	b 5f
4:
	mov x0,#0x5a53
	lsr x17,x11,#9
	movk x0,#0xa09b,lsl #16
	movk x0,#0xb82f,lsl #32
	movk x0,#0x44,lsl #48
	umulh x17,x17,x0
	lsr x17,x17,#11
	msub w11,w17,w18,w11
	mov w18,#0x8db9
	movk w18,#0x6,lsl #16
	umull x12,w11,w12
	lsr x12,x12,#45
	umull x18,w12,w18
	msub w0,w12,w13,w11
	umull x11,w11,w16
	lsr x18,x18,#32
	msub w12,w18,w13,w12
	ubfx w13,w0,#2,#14
	lsr x11,x11,#57
	mul w13,w13,w14
	orr w11,w11,#0x30
	ubfx w18,w12,#2,#14
	strb w11,[sp,#188]
	mul w14,w18,w14
	lsr w13,w13,#17
	mov w18,#0x4c
	str x18,[sp,#208]
	msub w16,w13,w15,w0
	ldrh w13,[x8,w13,uxtw #1]
	lsr w14,w14,#17
	sturh w13,[x21,#81]
	msub w12,w14,w15,w12
	and x15,x16,#0xffff
	ldrh w13,[x8,w14,uxtw #1]
	ldrh w11,[x8,x15,lsl #1]
	sturh w13,[x21,#77]
	and x12,x12,#0xffff
	sturh w11,[x21,#83]
	ldrh w11,[x8,x12,lsl #1]
	add w12,w17,#0x30
	strb w12,[sp,#187]
	mov w12,#0x4b
	sturh w11,[x21,#79]
5:
	lsr x14,x9,#4
	sub x11,x12,#0x1
	add x13,sp,#0x70
	mov w15,#0x2c
	strb w15,[x13,x11]
	cmp x14,#0x271
	str x11,[sp,#208]
	b.cc 8f
	add x12,x12,x13
	mov w13,#0xe0ff
	movk w13,#0x5f5,lsl #16
	sub x14,x12,#0x5
6:
	umulh x12,x9,x10
	mov w15,#0x2710
	mov w17,#0x147b
	sub x11,x11,#0x4
	cmp x9,x13
	lsr x12,x12,#11
	msub w15,w12,w15,w9
	mov x9,x12
	ubfx w16,w15,#2,#14
	mul w16,w16,w17
	mov w17,#0x64
	lsr w16,w16,#17
	msub w15,w16,w17,w15
	ldrh w16,[x8,w16,uxtw #1]
	and x15,x15,#0xffff
	ldrh w15,[x8,x15,lsl #1]
	strh w15,[x14,#2]
	strh w16,[x14],#-4
	b.hi 6b
	cmp x12,#0x63
	b.hi 9f
7:
	cmp x12,#0x9
	b.hi 12f
	sub x9,x11,#0x1
	add x8,sp,#0x70
	orr w10,w12,#0x30
	strb w10,[x8,x9]
	b 14f
8:
	mov x12,x9
	cmp x9,#0x63
	b.ls 7b
9:
	ubfx w9,w12,#2,#14
	mov w10,#0x147b
	add x13,sp,#0x70
	add x14,x13,x11
	cmp x12,#0x3e7
	mul w9,w9,w10
	lsr w10,w9,#17
	mov w9,#0x64
	msub w9,w10,w9,w12
	and x9,x9,#0xffff
	ldrh w9,[x8,x9,lsl #1]
	sturh w9,[x14,#-2]
	b.hi 13f
	sub x9,x11,#0x3
	orr w8,w10,#0x30
	strb w8,[x13,x9]
	b 14f
10:
	mov w12,#0x55
	cmp x11,#0x63
	b.hi 3b
11:
	cmp x11,#0x9
	b.hi 17f
	sub x12,x12,#0x1
	add x13,sp,#0x70
	orr w11,w11,#0x30
	strb w11,[x13,x12]
	b 5b
12:
	sub x9,x11,#0x2
	ldrh w8,[x8,x12,lsl #1]
	add x10,sp,#0x70
	strh w8,[x10,x9]
	b 14f
13:
	sub x9,x11,#0x4
	ldrh w8,[x8,w10,uxtw #1]
	strh w8,[x13,x9]
14:
	sub x8,x9,#0x3
	add x9,sp,#0x70
	mov w10,#0x2c
	add x9,x9,x8
	strb w10,[x9,#2]
	mov w10,#0x6b6f
	strh w10,[x9]
15:
	ldp q0,q1,[sp,#176]
	str x8,[x19,#96]
	ldp x28,x21,[sp,#240]
	str x8,[sp,#96]
	ldp x29,x30,[sp,#224]
	stp q0,q1,[sp,#64]
	ldp q0,q2,[sp,#112]
	stp q0,q2,[sp]
	ldp q0,q1,[sp,#144]
	stp q0,q1,[sp,#32]
	ldp q0,q1,[sp,#64]
	stp q0,q1,[x19,#64]
	ldp q0,q1,[sp]
	stp q0,q1,[x19]
	ldp q0,q2,[sp,#32]
	stp q0,q2,[x19,#32]
	ldp x20,x19,[sp,#256]
	add sp,sp,#0x110
	ret
16:
	sub x12,x12,#0x4
	ldrh w11,[x8,w13,uxtw #1]
	strh w11,[x14,x12]
	b 5b
17:
	sub x12,x12,#0x2
	ldrh w11,[x8,x11,lsl #1]
	add x13,sp,#0x70
	strh w11,[x13,x12]
	b 5b

function "tk_session_c::fault_text::of_record",4,448
	sub sp,sp,#0xb0
	movi v0.2d,#0x0
	mov w8,#0x60
	str x23,[sp,#128]
	stp x22,x21,[sp,#144]
	sub x22,x8,x3
	mov x23,sp
	stp x20,x19,[sp,#160]
	mov x20,x1
	mov x19,x0
	add x0,x23,x22
	mov x1,x2
	mov x2,x3
	stp x29,x30,[sp,#112]
	add x29,sp,#0x70
	mov x21,x3
	stp q0,q0,[sp]
	stp q0,q0,[sp,#32]
	stp q0,q0,[sp,#64]
	bl memcpy
	lsr x8,x20,#4
	str x22,[sp,#96]
	cmp x8,#0x271
	adrp x8,.rodata..Lstatic.23
	add x8,x8,:lo12:.rodata..Lstatic.23
	b.cc 2f
	neg x9,x21
	add x10,x23,#0x5f
1:
	mov x12,#0x594b
	mov x11,x20
	mov w14,#0x147b
	movk x12,#0x3886,lsl #16
	mov w15,#0xe0ff
	movk x12,#0xc5d6,lsl #32
	movk w15,#0x5f5,lsl #16
	movk x12,#0x346d,lsl #48
	cmp x20,x15
	umulh x12,x20,x12
	lsr x20,x12,#11
	mov w12,#0x2710
	msub w12,w20,w12,w11
	ubfx w13,w12,#2,#14
	mul w13,w13,w14
	mov w14,#0x64
	lsr w13,w13,#17
	msub w12,w13,w14,w12
	ldrh w13,[x8,w13,uxtw #1]
	add x14,x10,x9
	sub x9,x9,#0x4
	sturh w13,[x14,#-3]
	and x12,x12,#0xffff
	ldrh w12,[x8,x12,lsl #1]
	sturh w12,[x14,#-1]
	b.hi 1b
	add x22,x9,#0x60
2:
	cmp x20,#0x63
	b.hi 3f
	cmp x20,#0x9
	b.hi 4f
	sub x9,x22,#0x1
	mov x8,sp
	orr w10,w20,#0x30
	strb w10,[x8,x9]
	b 6f
3:
	ubfx w9,w20,#2,#14
	mov w10,#0x147b
	mov x11,sp
	add x12,x11,x22
	cmp x20,#0x3e7
	mul w9,w9,w10
	lsr w10,w9,#17
	mov w9,#0x64
	msub w9,w10,w9,w20
	and x9,x9,#0xffff
	ldrh w9,[x8,x9,lsl #1]
	sturh w9,[x12,#-2]
	b.hi 5f
	sub x9,x22,#0x3
	orr w8,w10,#0x30
	strb w8,[x11,x9]
	b 6f
4:
	sub x9,x22,#0x2
	ldrh w8,[x8,x20,lsl #1]
	mov x10,sp
	strh w8,[x10,x9]
	b 6f
5:
	sub x9,x22,#0x4
	ldrh w8,[x8,w10,uxtw #1]
	strh w8,[x11,x9]
6:
	sub x8,x9,#0x7
	mov x9,sp
	mov w10,#0x726f
	movk w10,#0x2064,lsl #16
	add x9,x9,x8
	str x8,[x19,#96]
	stur w10,[x9,#3]
	mov w10,#0x6572
	ldr x23,[sp,#128]
	movk w10,#0x6f63,lsl #16
	ldp x22,x21,[sp,#144]
	str w10,[x9]
	ldp x29,x30,[sp,#112]
	ldp q0,q1,[sp,#64]
	str x8,[sp,#96]
	stp q0,q1,[x19,#64]
	ldp q0,q2,[sp]
	stp q0,q2,[x19]
	ldp q0,q1,[sp,#32]
	stp q0,q1,[x19,#32]
	ldp x20,x19,[sp,#160]
	add sp,sp,#0xb0
	ret

function "tk_session_c::storage::TextStorage::write",4,264
	stp x29,x30,[sp,#-32]!
	add x8,x0,#0x8
	stp x20,x19,[sp,#16]
	mov x19,x2
	sub x8,x8,x1
	mov x20,x0
	mov x29,sp
	cmp x8,x2
	b.cs 5f
	cmp x19,#0x8
	b.cc 1f
	sub x8,x20,x1
	add x8,x8,#0x8
	cmp x8,#0x20
	b.cs 6f
1:
	mov x8,xzr
2:
	add x10,x8,x20
	sub x9,x19,x8
	add x8,x1,x8
	add x10,x10,#0x8
3:
	ldrb w11,[x8],#1
	subs x9,x9,#0x1
	strb w11,[x10],#1
	b.ne 3b
4:
	str x19,[x20]
	ldp x20,x19,[sp,#16]
	ldp x29,x30,[sp],#32
	ret
5:
	add x0,x20,#0x8
	mov x2,x19
	bl memmove
	str x19,[x20]
	ldp x20,x19,[sp,#16]
	ldp x29,x30,[sp],#32
	ret
6:
	cmp x19,#0x20
	b.cs 7f
	mov x8,xzr
	b 9f
7:
	and x9,x19,#0x18
	and x8,x19,#0xffffffffffffffe0
	add x10,x1,#0x10
	add x11,x20,#0x18
	and x12,x19,#0xffffffffffffffe0
8:
	ldp q0,q1,[x10,#-16]
	subs x12,x12,#0x20
	add x10,x10,#0x20
	stp q0,q1,[x11,#-16]
	add x11,x11,#0x20
	b.ne 8b
	cmp x19,x8
	b.eq 4b
	cbz x9,2b
9:
	mov x10,x8
	and x8,x19,#0xfffffffffffffff8
	add x11,x10,x20
	sub x9,x10,x8
	add x10,x1,x10
	add x11,x11,#0x8
10:
	ldr d0,[x10],#8
	adds x9,x9,#0x8
	str d0,[x11],#8
	b.ne 10b
	cmp x19,x8
	b.eq 4b
	b 2b

public tkc_row_parse,4,1020
	sub sp,sp,#0x130
	movi v0.2d,#0x0
	mov w8,#0x1000
	cmp x2,#0x0
	stp x28,x23,[sp,#256]
	csel x23,x8,xzr,eq
	stp x22,x21,[sp,#272]
	mov x21,x1
	mov x1,x3
	stp x20,x19,[sp,#288]
	mov x19,x0
	add x0,x2,x23
	stp x29,x30,[sp,#240]
	add x29,sp,#0xf0
	mov x20,x3
	mov x22,x2
	str xzr,[sp,#96]
	stp q0,q0,[sp]
	stp q0,q0,[sp,#32]
	stp q0,q0,[sp,#64]
	bl "tk_script::one_line::is_line"
	cbz w0,1f
	mov x0,sp
	add x2,x22,x23
	mov x1,x21
	mov x3,x20
	bl "tk_script::one_line::row_in"
	ldrb w8,[sp]
	ldrb w11,[sp,#8]
	cbz w8,2f
	cmp w11,#0x3
	mov w0,#0x42
	b.gt 3f
	cmp w11,#0x3
	b.cc 6f
	mov w0,#0x43
	ldp x20,x19,[sp,#288]
	ldp x22,x21,[sp,#272]
	ldp x28,x23,[sp,#256]
	ldp x29,x30,[sp,#240]
	add sp,sp,#0x130
	ret
1:
	mov w0,#0x40
	ldp x20,x19,[sp,#288]
	ldp x22,x21,[sp,#272]
	ldp x28,x23,[sp,#256]
	ldp x29,x30,[sp,#240]
	add sp,sp,#0x130
	ret
2:
	ldp x10,x9,[sp,#32]
	cmp w11,#0x1
	ldr x8,[sp,#16]
	ldr w12,[sp,#24]
	b.gt 4f
	cbnz w11,7f
	and w11,w12,#0xff
	cmp w11,#0x3
	b.le 11f
	cmp w11,#0x5
	b.le 13f
	cmp w11,#0x6
	b.eq 14f
	cmp w11,#0x7
	b.ne 16f
	mov x10,xzr
	mov w9,wzr
	mov w11,#0x6
	b 18f
3:
	cmp w11,#0x5
	b.gt 5f
	cmp w11,#0x4
	b.ne 10f
	mov w0,#0x44
	ldp x20,x19,[sp,#288]
	ldp x22,x21,[sp,#272]
	ldp x28,x23,[sp,#256]
	ldp x29,x30,[sp,#240]
	add sp,sp,#0x130
	ret
4:
	cmp w11,#0x2
	b.ne 9f
	movi v0.2d,#0x0
	movi v1.2d,#0x0
	ldr w13,[sp,#28]
	mov x17,xzr
	mov x3,xzr
	mov w11,wzr
	mov w1,wzr
	mov w5,wzr
	mov w6,wzr
	mov w16,wzr
	mov x15,xzr
	mov x14,xzr
	mov w7,#0x2
	mov x18,x9
	mov w2,w12
	mov w4,w10
	stur q0,[x29,#-16]
	stp q0,q0,[sp,#112]
	stp q0,q0,[sp,#144]
	b 8f
5:
	cmp w11,#0x6
	b.ne 6f
	ldrsb x8,[sp,#24]
	adrp x9,.rodata..Lswitch.table.tkc_row_parse.108
	add x9,x9,:lo12:.rodata..Lswitch.table.tkc_row_parse.108
	add x8,x9,x8,lsl #2
	ldr w0,[x8,#4]
	ldp x20,x19,[sp,#288]
	ldp x22,x21,[sp,#272]
	ldp x28,x23,[sp,#256]
	ldp x29,x30,[sp,#240]
	add sp,sp,#0x130
	ret
6:
	ldp x20,x19,[sp,#288]
	ldp x22,x21,[sp,#272]
	ldp x28,x23,[sp,#256]
	ldp x29,x30,[sp,#240]
	add sp,sp,#0x130
	ret
7:
	movi v0.2d,#0x0
	adrp x0,.rodata..Lswitch.table.tkc_row_parse
	add x0,x0,:lo12:.rodata..Lswitch.table.tkc_row_parse
	and x12,x12,#0xff
	and x10,x10,#0xff
	mov x17,xzr
	cmp x10,#0x1
	ldr w5,[x0,x12,lsl #2]
	mov x18,xzr
	mov w11,wzr
	mov w1,wzr
	mov w2,wzr
	mov w13,wzr
	mov w4,wzr
	mov w16,wzr
	mov x15,xzr
	mov x14,xzr
	stur q0,[x29,#-16]
	stp q0,q0,[sp,#112]
	movi v1.2d,#0x0
	cset w6,eq
	stp q0,q0,[sp,#144]
	csel x3,x9,xzr,eq
	mov w7,#0x1
8:
	stp q0,q0,[sp,#176]
	str q0,[sp,#208]
	mov w12,wzr
	b 19f
9:
	movi v2.2d,#0x0
	ldp x15,x14,[sp,#72]
	ldur q1,[sp,#88]
	ldr w16,[sp,#64]
	mov x17,xzr
	ldr q0,[sp,#48]
	mov x3,xzr
	mov x18,xzr
	mov w11,wzr
	mov w1,wzr
	mov w5,wzr
	mov w6,wzr
	mov w2,wzr
	mov w13,wzr
	mov w4,wzr
	mov w7,#0x3
	stp xzr,xzr,[x29,#-16]
	stp q2,q2,[sp,#112]
	stp q2,q2,[sp,#144]
	stp q2,q2,[sp,#176]
	str q2,[sp,#208]
	b 20f
10:
	mov w0,#0x45
	ldp x20,x19,[sp,#288]
	ldp x22,x21,[sp,#272]
	ldp x28,x23,[sp,#256]
	ldp x29,x30,[sp,#240]
	add sp,sp,#0x130
	ret
11:
	cmp w11,#0x1
	b.gt 12f
	cbnz w11,15f
	and x10,x12,#0xff
	mov w9,w11
	b 18f
12:
	cmp w11,#0x2
	b.eq 18f
	mov w9,wzr
	mov w11,#0x3
	b 18f
13:
	cmp w11,#0x4
	b.ne 17f
	mov w9,wzr
	b 18f
14:
	mov x10,xzr
	mov w9,wzr
	mov w11,#0x8
	b 18f
15:
	mov w11,#0x1
	b 18f
16:
	mov w11,#0x7
	b 18f
17:
	mov w9,wzr
	mov w11,#0x5
18:
	movi v0.2d,#0x0
	mov x3,xzr
	mov x18,xzr
	mov w7,wzr
	mov w5,wzr
	mov w6,wzr
	mov w2,wzr
	mov w13,wzr
	mov w4,wzr
	mov w12,wzr
	mov w16,wzr
	mov x15,xzr
	mov x14,xzr
	stur q0,[x29,#-16]
	movi v1.2d,#0x0
	stp q0,q0,[sp,#112]
	mov x17,x10
	mov w1,w9
	stp q0,q0,[sp,#144]
	stp q0,q0,[sp,#176]
	str q0,[sp,#208]
19:
	mov x10,xzr
	mov x9,xzr
20:
	stur q0,[x19,#88]
	ldur q0,[x29,#-16]
	mov w0,wzr
	stur q1,[x19,#136]
	stur q0,[x19,#120]
	ldp q1,q0,[sp,#112]
	stp x8,x17,[x19]
	stp x3,x18,[x19,#16]
	stp q1,q0,[x19,#160]
	ldp q0,q2,[sp,#192]
	stp w7,w11,[x19,#32]
	stp w1,w5,[x19,#40]
	stp q0,q2,[x19,#240]
	ldp q0,q1,[sp,#160]
	ldr q2,[sp,#144]
	stp w6,w2,[x19,#48]
	stp w13,w4,[x19,#56]
	stp w12,wzr,[x19,#64]
	stp x10,x9,[x19,#72]
	stp w16,wzr,[x19,#104]
	str x15,[x19,#112]
	str x14,[x19,#152]
	stp q0,q1,[x19,#208]
	str q2,[x19,#192]
	ldp x20,x19,[sp,#288]
	ldp x22,x21,[sp,#272]
	ldp x28,x23,[sp,#256]
	ldp x29,x30,[sp,#240]
	add sp,sp,#0x130
	ret

public tkc_session_begin,4,120
	movi v0.2d,#0x0
	adrp x9,.rodata.cst16+160
	stp xzr,xzr,[x8,#96]
	ldr q1,[x9,:lo12:.rodata.cst16+160]
	mov w9,#0x2710
	stp xzr,xzr,[x8,#136]
	stp xzr,x9,[x8,#80]
	adrp x9,.rodata.cst8+16
	str xzr,[x8,#128]
	stp q1,q0,[x8]
	ldr d1,[x9,:lo12:.rodata.cst8+16]
	mov w9,#0x100000
	str x9,[x8,#112]
	adrp x9,.rodata.cst16+176
	str d1,[x8,#120]
	ldr q1,[x9,:lo12:.rodata.cst16+176]
	adrp x9,.rodata.cst16+192
	stp q0,q0,[x8,#32]
	stur q1,[x8,#152]
	ldr q1,[x9,:lo12:.rodata.cst16+192]
	adrp x9,.rodata.cst16+208
	str q0,[x8,#64]
	stur q1,[x8,#200]
	ldr q1,[x9,:lo12:.rodata.cst16+208]
	stur q0,[x8,#168]
	stur q0,[x8,#184]
	stur q1,[x8,#216]
	stur q0,[x8,#248]
	stur q0,[x8,#232]
	ret

public tkc_session_differences,4,8
	ldr x0,[x0,#248]
	ret

public tkc_session_records,4,8
	ldr x0,[x0,#240]
	ret

public tkc_session_save,4,216
	ldr x8,[x1,#240]
	cbz x8,1f
	ldp q0,q1,[x1,#32]
	ldr d3,[x1]
	ldp x11,x12,[x1,#16]
	ldr x8,[x1,#96]
	ldr w14,[x1,#72]
	ldrb w15,[x1,#76]
	ldr x13,[x1,#64]
	ext v0.16b,v0.16b,v0.16b,#8
	ext v1.16b,v1.16b,v1.16b,#8
	ldr q2,[x1,#80]
	ldp w9,w10,[x1,#8]
	stp x8,x11,[x0]
	orr x8,x15,x14,lsl #1
	stp x12,x13,[x0,#40]
	stur q0,[x0,#24]
	uxtl v0.2d,v3.2s
	str x10,[x0,#16]
	str x8,[x0,#56]
	stp q1,q0,[x0,#64]
	str x9,[x0,#96]
	stur q2,[x0,#104]
	ldrb w8,[x1,#256]
	cmp w8,#0x1
	b.ne 2f
	ldr d0,[x1,#120]
	ldp d6,d7,[x1,#152]
	ldr w8,[x1,#128]
	ldrb w9,[x1,#132]
	ldur q1,[x1,#136]
	uxtl v0.2d,v0.2s
	ldur q2,[x1,#168]
	ldur q3,[x1,#184]
	uxtl v6.2d,v6.2s
	and x9,x9,#0x1
	ldur q4,[x1,#200]
	ldr q5,[x1,#224]
	stp x8,x9,[x0,#136]
	stur q0,[x0,#120]
	uxtl v0.2d,v7.2s
	stur q1,[x0,#152]
	stur q6,[x0,#168]
	stur q0,[x0,#184]
	stur q2,[x0,#200]
	stur q3,[x0,#216]
	stur q4,[x0,#232]
	stur q5,[x0,#248]
	mov w0,#0x21
	ret
1:
	mov w0,wzr
	ret
2:
	mov w0,#0xf
	ret

public tkc_session_record,4,22220
	stp x29,x30,[sp,#-96]!
	stp x28,x27,[sp,#16]
	mov x29,sp
	stp x26,x25,[sp,#32]
	stp x24,x23,[sp,#48]
	stp x22,x21,[sp,#64]
	stp x20,x19,[sp,#80]
	sub sp,sp,#0xc00
	str xzr,[sp]
	sub sp,sp,#0xc00
	str xzr,[sp]
	sub sp,sp,#0x560
	movi v0.2d,#0x0
	str xzr,[sp]
	add x8,sp,#0x150
	add x27,sp,#0x1,lsl #12
	add x28,sp,#0x1,lsl #12
	add x9,sp,#0x1,lsl #12
	add x24,sp,#0x1,lsl #12
	add x13,sp,#0x1,lsl #12
	cmp x2,#0x0
	ldr x12,[x0,#240]
	mov x21,x3
	mov x22,x2
	stur q0,[x8,#255]
	mov w8,#0x1000
	mov x25,x0
	add x20,sp,#0x390
	add x27,x27,#0xba0
	add x28,x28,#0xac0
	add x9,x9,#0x980
	add x24,x24,#0x6c0
	add x13,x13,#0x2c0
	add x26,sp,#0xfb0
	add x19,sp,#0xc60
	add x10,sp,#0xa00
	add x14,sp,#0x8f0
	add x11,sp,#0x7e0
	csel x23,x8,xzr,eq
	stp q0,q0,[sp,#224]
	stp q0,q0,[sp,#256]
	stp q0,q0,[sp,#288]
	stp q0,q0,[sp,#336]
	stp q0,q0,[sp,#368]
	stp q0,q0,[sp,#400]
	stp q0,q0,[sp,#432]
	stp q0,q0,[sp,#464]
	stp q0,q0,[sp,#496]
	stp q0,q0,[sp,#528]
	stp q0,q0,[sp,#608]
	stp q0,q0,[sp,#640]
	stp q0,q0,[sp,#672]
	stp q0,q0,[sp,#704]
	stp q0,q0,[sp,#736]
	stp q0,q0,[sp,#768]
	stp q0,q0,[sp,#800]
	stp q0,q0,[sp,#832]
	stp q0,q0,[sp,#864]
	str xzr,[sp,#896]
	stp q0,q0,[sp,#560]
	str xzr,[sp,#320]
	stur q0,[x20,#255]
	str q0,[sp,#1152]
	str q0,[sp,#1136]
	str q0,[sp,#1120]
	str q0,[sp,#1104]
	str q0,[sp,#1088]
	str q0,[sp,#1072]
	str q0,[sp,#1056]
	str q0,[sp,#1040]
	stp q0,q0,[sp,#912]
	stp q0,q0,[sp,#944]
	stp q0,q0,[sp,#976]
	stp q0,q0,[sp,#1008]
	str x1,[sp,#216]
	cbz x3,2f
	cbnz x12,2f
	add x20,sp,#0x1,lsl #12
	add x24,sp,#0x1,lsl #12
	add x8,sp,#0x4a8
	add x20,x20,#0x850
	add x24,x24,#0x580
	add x0,x22,x23
	mov x1,x21
	str xzr,[sp,#1312]
	str q0,[sp,#2672]
	str q0,[sp,#2688]
	stur q0,[x10,#140]
	str xzr,[sp,#1296]
	str xzr,[sp,#1304]
	str q0,[sp,#1264]
	str q0,[sp,#1280]
	str wzr,[sp,#1256]
	stur wzr,[x8,#67]
	str q0,[sp,#4800]
	str q0,[sp,#4816]
	str q0,[sp,#4832]
	str q0,[sp,#4848]
	str q0,[sp,#4864]
	str q0,[sp,#4880]
	str q0,[sp,#4896]
	str q0,[sp,#4912]
	str q0,[sp,#4928]
	str q0,[sp,#4944]
	str q0,[sp,#4960]
	str q0,[sp,#4976]
	str q0,[sp,#4992]
	str q0,[sp,#5008]
	str q0,[sp,#5024]
	str q0,[sp,#5040]
	stur q0,[x13,#255]
	stur q0,[x10,#28]
	str q0,[sp,#2576]
	str q0,[sp,#2560]
	str xzr,[sp,#1248]
	str xzr,[sp,#1232]
	str xzr,[sp,#1240]
	str q0,[sp,#1200]
	str q0,[sp,#1216]
	str wzr,[sp,#1192]
	stur wzr,[x8,#3]
	str q0,[sp,#6224]
	str q0,[sp,#6240]
	str q0,[sp,#6256]
	str q0,[sp,#6272]
	str q0,[sp,#6288]
	str q0,[sp,#6304]
	str q0,[sp,#6320]
	str q0,[sp,#6336]
	str q0,[sp,#6352]
	str q0,[sp,#6368]
	str q0,[sp,#6384]
	str q0,[sp,#6400]
	str q0,[sp,#6416]
	str q0,[sp,#6432]
	str q0,[sp,#6448]
	str q0,[sp,#6464]
	stur q0,[x20,#255]
	str q0,[sp,#6528]
	str q0,[sp,#6544]
	str q0,[sp,#6560]
	str q0,[sp,#6576]
	str q0,[sp,#6592]
	str q0,[sp,#6608]
	str q0,[sp,#6624]
	str q0,[sp,#6640]
	str q0,[sp,#6656]
	str q0,[sp,#6672]
	str q0,[sp,#6688]
	str q0,[sp,#6704]
	str q0,[sp,#6720]
	str q0,[sp,#6736]
	str q0,[sp,#6752]
	str q0,[sp,#6768]
	stur q0,[x9,#255]
	stur q0,[x28,#140]
	str q0,[sp,#6976]
	str q0,[sp,#6960]
	str xzr,[sp,#1504]
	str xzr,[sp,#1488]
	str xzr,[sp,#1496]
	str q0,[sp,#1456]
	str q0,[sp,#1472]
	str q0,[sp,#6848]
	str q0,[sp,#6864]
	stur q0,[x28,#28]
	str xzr,[sp,#1440]
	str xzr,[sp,#1424]
	str xzr,[sp,#1432]
	str q0,[sp,#1392]
	str q0,[sp,#1408]
	stur wzr,[x8,#195]
	str wzr,[sp,#1384]
	stur q0,[x24,#255]
	str q0,[sp,#5744]
	str q0,[sp,#5728]
	str q0,[sp,#5712]
	str q0,[sp,#5696]
	str q0,[sp,#5680]
	str q0,[sp,#5664]
	str q0,[sp,#5648]
	str q0,[sp,#5632]
	str q0,[sp,#5616]
	str q0,[sp,#5600]
	str q0,[sp,#5584]
	str q0,[sp,#5568]
	str q0,[sp,#5552]
	str q0,[sp,#5536]
	str q0,[sp,#5520]
	str q0,[sp,#5504]
	stur q0,[x10,#252]
	str q0,[sp,#2800]
	str q0,[sp,#2784]
	str xzr,[sp,#1376]
	str xzr,[sp,#1360]
	str xzr,[sp,#1368]
	str q0,[sp,#1328]
	str q0,[sp,#1344]
	str wzr,[sp,#1320]
	stur wzr,[x8,#131]
	str q0,[sp,#4112]
	str q0,[sp,#4128]
	str q0,[sp,#4144]
	str q0,[sp,#4160]
	str q0,[sp,#4176]
	str q0,[sp,#4192]
	str xzr,[sp,#4208]
	str q0,[sp,#3744]
	str q0,[sp,#3760]
	str q0,[sp,#3776]
	str q0,[sp,#3792]
	str q0,[sp,#3808]
	str q0,[sp,#3824]
	str xzr,[sp,#3840]
	bl "tk_script::one_line::is_line"
	str x25,[sp,#64]
	cbz w0,1f
	ldrb w8,[x22,x23]
	cmp w8,#0xef
	b.ne 4f
1:
	movi v1.2d,#0x0
	add x11,sp,#0xa00
	stp xzr,xzr,[sp,#88]
	mov x21,xzr
	str xzr,[sp,#104]
	mov w13,wzr
	mov x26,xzr
	mov x23,xzr
	str xzr,[sp,#208]
	str xzr,[sp,#184]
	mov x18,xzr
	mov w3,wzr
	str q1,[sp,#6464]
	mov x22,xzr
	mov x24,xzr
	stur q1,[x20,#255]
	add x20,sp,#0x4a8
	mov x1,xzr
	mov w27,wzr
	mov w16,wzr
	mov x25,xzr
	mov x15,xzr
	mov x19,xzr
	mov x0,xzr
	mov w14,wzr
	str q1,[sp,#6448]
	movi v2.2d,#0x0
	stur q1,[x11,#28]
	movi v3.2d,#0x0
	str q1,[sp,#2576]
	str q1,[sp,#2560]
	str xzr,[sp,#1232]
	stur q1,[x20,#48]
	str q1,[sp,#1200]
	str q1,[sp,#1216]
	str wzr,[sp,#1192]
	stur wzr,[x20,#3]
	str q1,[sp,#6224]
	str q1,[sp,#6240]
	str q1,[sp,#6256]
	str q1,[sp,#6272]
	str q1,[sp,#6288]
	str q1,[sp,#6304]
	str q1,[sp,#6320]
	str q1,[sp,#6336]
	str q1,[sp,#6352]
	str q1,[sp,#6368]
	str q1,[sp,#6384]
	str q1,[sp,#6400]
	str q1,[sp,#6416]
	str q1,[sp,#6432]
	b 50f
2:
	add x28,sp,#0x1,lsl #12
	add x0,x22,x23
	mov x1,x21
	add x28,x28,#0x2c0
	str x12,[sp,#208]
	str q0,[sp,#2560]
	str q0,[sp,#2576]
	str q0,[sp,#2592]
	str q0,[sp,#2608]
	str q0,[sp,#2624]
	str q0,[sp,#2640]
	str xzr,[sp,#2656]
	str q0,[sp,#2288]
	str q0,[sp,#2304]
	str q0,[sp,#2320]
	str q0,[sp,#2336]
	str q0,[sp,#2352]
	str q0,[sp,#2368]
	str q0,[sp,#2384]
	str q0,[sp,#2400]
	str q0,[sp,#2416]
	str q0,[sp,#2432]
	str q0,[sp,#2448]
	str q0,[sp,#2464]
	str q0,[sp,#2480]
	str q0,[sp,#2496]
	str q0,[sp,#2512]
	str q0,[sp,#2528]
	stur q0,[x14,#255]
	stur q0,[x11,#255]
	str q0,[sp,#2256]
	str q0,[sp,#2240]
	str q0,[sp,#2224]
	str q0,[sp,#2208]
	str q0,[sp,#2192]
	str q0,[sp,#2176]
	str q0,[sp,#2160]
	str q0,[sp,#2144]
	str q0,[sp,#2128]
	str q0,[sp,#2112]
	str q0,[sp,#2096]
	str q0,[sp,#2080]
	str q0,[sp,#2064]
	str q0,[sp,#2048]
	str q0,[sp,#2032]
	str q0,[sp,#2016]
	bl "tk_script::one_line::is_line"
	tbz w0,#0,3f
	cbz x21,6f
	ldr x8,[sp,#208]
	cmn x8,#0x1
	b.eq 7f
	add x0,sp,#0xa00
	add x1,x8,#0x1
	add x2,x22,x23
	mov x3,x21
	str x25,[sp,#64]
	add x22,sp,#0xa00
	bl "tk_script::one_line::row_in"
	ldrb w25,[sp,#2560]
	ldrb w23,[sp,#2568]
	cbz w25,9f
	ldr x19,[sp,#2576]
	ldrb w27,[sp,#2584]
	mov w21,#0x2
	b 181f
3:
	movi v0.2d,#0x0
	mov x21,xzr
	mov x23,xzr
	mov x19,xzr
	mov w27,wzr
	mov w25,#0x1
	b 8f
4:
	movi v0.2d,#0x0
	add x0,sp,#0x1,lsl #12
	add x1,x22,x23
	add x0,x0,#0xc10
	mov x2,x21
	str xzr,[sp,#1568]
	str xzr,[sp,#1552]
	str xzr,[sp,#1560]
	str q0,[sp,#7072]
	str q0,[sp,#7088]
	stur q0,[x28,#252]
	str q0,[sp,#1520]
	str q0,[sp,#1536]
	str q0,[sp,#7184]
	str q0,[sp,#7200]
	str q0,[sp,#7216]
	str q0,[sp,#7232]
	str q0,[sp,#7248]
	str q0,[sp,#7264]
	str q0,[sp,#7280]
	str q0,[sp,#7296]
	str q0,[sp,#7312]
	str q0,[sp,#7328]
	str q0,[sp,#7344]
	str q0,[sp,#7360]
	str q0,[sp,#7376]
	str q0,[sp,#7392]
	str q0,[sp,#7408]
	str q0,[sp,#7424]
	str q0,[sp,#7440]
	str q0,[sp,#7456]
	str xzr,[sp,#7472]
	bl "tk_script::plain::Lines::of"
	movi v0.2d,#0x0
	ldr x21,[sp,#7184]
	ldr x22,[sp,#7192]
	ldr x20,[sp,#7456]
	ldr x0,[sp,#7200]
	add x30,sp,#0x7e0
	ldr x8,[sp,#7208]
	strb wzr,[sp,#1586]
	strh wzr,[sp,#1584]
	str q0,[sp,#5824]
	str q0,[sp,#5840]
	str q0,[sp,#5856]
	str q0,[sp,#5872]
	str q0,[sp,#5888]
	str q0,[sp,#5904]
	str q0,[sp,#5920]
	str q0,[sp,#5936]
	str q0,[sp,#5952]
	str q0,[sp,#5968]
	str q0,[sp,#5984]
	str q0,[sp,#6000]
	str q0,[sp,#6016]
	str q0,[sp,#6032]
	str q0,[sp,#6048]
	str q0,[sp,#5200]
	str q0,[sp,#5216]
	str q0,[sp,#5232]
	str q0,[sp,#5248]
	str q0,[sp,#5264]
	str q0,[sp,#5280]
	str q0,[sp,#5296]
	str q0,[sp,#5312]
	str q0,[sp,#5328]
	str q0,[sp,#5344]
	str q0,[sp,#5360]
	str q0,[sp,#5376]
	str q0,[sp,#5392]
	str q0,[sp,#5408]
	str q0,[sp,#5424]
	stur q0,[x30,#63]
	str q0,[sp,#2064]
	str q0,[sp,#2048]
	str q0,[sp,#2032]
	str q0,[sp,#2016]
	cbnz x20,5f
	mov x0,x21
	mov x1,x22
	bl "memchr::bytes::memchr"
	mov w8,w0
	add x30,sp,#0x7e0
	mov x0,x21
	and w8,w8,#0xff
	cmp w8,#0x1
	csel x8,x1,x22,eq
5:
	cmp x8,#0x4
	b.eq 12f
	cmp x8,#0x6
	b.eq 11f
	cmp x8,#0x9
	b.ne 14f
	ldr w8,[x0]
	mov w9,#0x706f
	movk w9,#0x6e65,lsl #16
	cmp w8,w9
	b.ne 13f
	adrp x2,.rodata..Lstatic.20
	add x2,x2,:lo12:.rodata..Lstatic.20
	mov w1,#0x9
	bl .Lcore.cmp.slices.groups_equal
	cbz w0,71f
	movi v0.2d,#0x0
	add x8,sp,#0xb50
	cmp x20,#0x22
	strh wzr,[sp,#1592]
	strb wzr,[sp,#1594]
	strb wzr,[sp,#1590]
	str q0,[sp,#2944]
	stur q0,[x8,#63]
	add x8,sp,#0x8f0
	str q0,[sp,#2896]
	str q0,[sp,#2912]
	str q0,[sp,#2928]
	str q0,[sp,#3440]
	str q0,[sp,#3456]
	str q0,[sp,#3472]
	str q0,[sp,#3488]
	str q0,[sp,#3504]
	str q0,[sp,#3520]
	str q0,[sp,#3536]
	str q0,[sp,#2288]
	str q0,[sp,#2304]
	str q0,[sp,#2320]
	str q0,[sp,#2336]
	stur q0,[x8,#63]
	strh wzr,[sp,#1588]
	b.eq 76f
	cmp x20,#0x10
	b.ne 77f
	add x1,sp,#0x1,lsl #12
	add x0,sp,#0xd70
	add x1,x1,#0xc10
	bl .Ltk_script.running_clocks.read_clocks
	movi v0.2d,#0x0
	ldrb w11,[sp,#3440]
	ldr x12,[sp,#3448]
	ldr x13,[sp,#3456]
	ldrb w8,[sp,#3464]
	add x10,sp,#0x1,lsl #12
	ldr x28,[sp,#3544]
	add x10,x10,#0x130
	str q0,[sp,#4496]
	str q0,[sp,#4512]
	str q0,[sp,#4528]
	str q0,[sp,#4544]
	stur q0,[x10,#159]
	cbz w11,91f
	mov x9,xzr
	mov w10,wzr
	mov x28,xzr
	mov x6,x12
	b 92f
6:
	movi v0.2d,#0x0
	mov w25,wzr
	mov x23,xzr
	mov x19,xzr
	mov w27,wzr
	b 8f
7:
	movi v0.2d,#0x0
	mov x23,xzr
	mov x19,xzr
	mov w27,wzr
	mov w25,#0x1
	mov w21,#0x1
8:
	stur q0,[x20,#255]
	b 54f
9:
	movi v0.2d,#0x0
	add x8,sp,#0xb50
	add x11,sp,#0xa00
	ldurh w9,[x11,#29]
	ldur w10,[x11,#25]
	ldr x16,[sp,#2576]
	ldrb w21,[sp,#2584]
	ldrb w4,[sp,#2592]
	ldr x5,[sp,#2600]
	str xzr,[sp,#3728]
	stur q0,[x8,#255]
	add x8,sp,#0xea0
	stur q0,[x8,#255]
	ldrb w8,[sp,#2591]
	str q0,[sp,#3440]
	orr w8,w9,w8,lsl #16
	ldurh w9,[x11,#33]
	str q0,[sp,#3456]
	str q0,[sp,#3472]
	orr x15,x10,x8,lsl #32
	ldr x10,[sp,#64]
	ldrb w8,[sp,#2595]
	str q0,[sp,#3488]
	ldrb w10,[x10,#256]
	orr w18,w9,w8,lsl #16
	ldr w8,[sp,#2596]
	str q0,[sp,#3504]
	cmp w10,#0x1
	str q0,[sp,#3520]
	str q0,[sp,#3536]
	str q0,[sp,#3552]
	str q0,[sp,#3568]
	str q0,[sp,#3584]
	str q0,[sp,#3600]
	str q0,[sp,#3616]
	str q0,[sp,#3632]
	str q0,[sp,#3648]
	str q0,[sp,#3664]
	str q0,[sp,#3680]
	str q0,[sp,#3696]
	str q0,[sp,#3712]
	stur q0,[x19,#255]
	str q0,[sp,#3408]
	str q0,[sp,#3392]
	str q0,[sp,#3376]
	str q0,[sp,#3360]
	str q0,[sp,#3344]
	str q0,[sp,#3328]
	str q0,[sp,#3312]
	str q0,[sp,#3296]
	str q0,[sp,#3280]
	str q0,[sp,#3264]
	str q0,[sp,#3248]
	str q0,[sp,#3232]
	str q0,[sp,#3216]
	str q0,[sp,#3200]
	str q0,[sp,#3184]
	str q0,[sp,#3168]
	str q0,[sp,#3136]
	str q0,[sp,#3120]
	str q0,[sp,#3104]
	str q0,[sp,#3088]
	str q0,[sp,#3072]
	str q0,[sp,#3056]
	str q0,[sp,#3040]
	str q0,[sp,#3024]
	str q0,[sp,#3008]
	str q0,[sp,#2992]
	str q0,[sp,#2976]
	str q0,[sp,#2960]
	str q0,[sp,#2944]
	str q0,[sp,#2928]
	str q0,[sp,#2912]
	str q0,[sp,#2896]
	str xzr,[sp,#2880]
	str q0,[sp,#2864]
	str q0,[sp,#2848]
	str q0,[sp,#2832]
	str q0,[sp,#2816]
	str q0,[sp,#2800]
	str q0,[sp,#2784]
	str q0,[sp,#2672]
	str q0,[sp,#2688]
	str q0,[sp,#2704]
	str q0,[sp,#2720]
	str q0,[sp,#2736]
	str q0,[sp,#2752]
	str xzr,[sp,#2768]
	str q0,[sp,#3984]
	str q0,[sp,#3968]
	str q0,[sp,#3952]
	str q0,[sp,#3936]
	str q0,[sp,#3920]
	str q0,[sp,#3904]
	str q0,[sp,#3888]
	str q0,[sp,#3872]
	str q0,[sp,#3856]
	str q0,[sp,#3840]
	str q0,[sp,#3824]
	str q0,[sp,#3808]
	str q0,[sp,#3792]
	str q0,[sp,#3776]
	str q0,[sp,#3760]
	str q0,[sp,#3744]
	b.ne 21f
	cmp w23,#0x1
	str q0,[sp,#5120]
	str q0,[sp,#5136]
	str q0,[sp,#5152]
	str q0,[sp,#5168]
	str q0,[sp,#5184]
	str q0,[sp,#4800]
	str q0,[sp,#4816]
	str q0,[sp,#4832]
	str q0,[sp,#4848]
	str q0,[sp,#4864]
	str q0,[sp,#4880]
	str q0,[sp,#4896]
	str q0,[sp,#4912]
	str q0,[sp,#4928]
	str q0,[sp,#4944]
	str q0,[sp,#4960]
	str q0,[sp,#4976]
	str q0,[sp,#4992]
	str q0,[sp,#5008]
	str q0,[sp,#5024]
	str q0,[sp,#5040]
	str q0,[sp,#5056]
	str q0,[sp,#5072]
	str q0,[sp,#5088]
	str xzr,[sp,#5104]
	str xzr,[sp,#4784]
	str q0,[sp,#4768]
	str q0,[sp,#4752]
	str q0,[sp,#4736]
	str q0,[sp,#4720]
	str q0,[sp,#4704]
	str q0,[sp,#4688]
	str q0,[sp,#4672]
	str q0,[sp,#4656]
	str q0,[sp,#4640]
	str q0,[sp,#4624]
	str q0,[sp,#4608]
	str q0,[sp,#4592]
	str q0,[sp,#4576]
	str q0,[sp,#4560]
	str q0,[sp,#4544]
	str q0,[sp,#4528]
	str q0,[sp,#4512]
	str q0,[sp,#4496]
	str xzr,[sp,#4480]
	str q0,[sp,#4464]
	str q0,[sp,#4448]
	str q0,[sp,#4432]
	str q0,[sp,#4416]
	str q0,[sp,#4400]
	str q0,[sp,#4112]
	str q0,[sp,#4128]
	str q0,[sp,#4144]
	str q0,[sp,#4160]
	str q0,[sp,#4176]
	str q0,[sp,#4192]
	str q0,[sp,#4208]
	str q0,[sp,#4224]
	str q0,[sp,#4240]
	str q0,[sp,#4256]
	str q0,[sp,#4272]
	str q0,[sp,#4288]
	str q0,[sp,#4304]
	str q0,[sp,#4320]
	str q0,[sp,#4336]
	str q0,[sp,#4352]
	str q0,[sp,#4368]
	str q0,[sp,#4384]
	str q0,[sp,#4096]
	str q0,[sp,#4080]
	str q0,[sp,#4064]
	str q0,[sp,#4048]
	str q0,[sp,#4032]
	str q0,[sp,#4016]
	b.gt 69f
	cbnz w23,72f
	lsr w9,w18,#16
	add x10,sp,#0x1,lsl #12
	str q0,[sp,#5504]
	add x10,x10,#0xc10
	str q0,[sp,#5520]
	str q0,[sp,#5536]
	str q0,[sp,#5552]
	str q0,[sp,#5568]
	str q0,[sp,#5584]
	str xzr,[sp,#5600]
	str x21,[sp,#7184]
	strb w4,[x10,#8]
	strb w9,[x10,#11]
	sturh w18,[x10,#9]
	str w8,[sp,#7196]
	str x5,[sp,#7200]
	cbz w21,84f
	ldr x1,[sp,#64]
	add x3,sp,#0x1,lsl #12
	mov x2,x16
	add x3,x3,#0xc10
	mov x20,x16
	add x0,x1,#0x78
	bl .Ltk_ntp.course.Course.apply_any
	tst w0,#0xff
	b.eq 86f
10:
	ubfiz x8,x1,#3,#8
	adrp x9,.rodata..Lswitch.table.tkc_session_record.112
	add x9,x9,:lo12:.rodata..Lswitch.table.tkc_session_record.112
	movi v0.16b,#0xa
	add x19,sp,#0x1,lsl #12
	adrp x10,.data.rel.ro..Lswitch.table.tkc_session_record.113
	add x10,x10,:lo12:.data.rel.ro..Lswitch.table.tkc_session_record.113
	ldr x21,[x9,x8]
	add x19,x19,#0xc10
	ldr x1,[x10,x8]
	sub x8,x19,x21
	mov x2,x21
	add x0,x8,#0x5f
	str q0,[sp,#7264]
	str q0,[sp,#7248]
	str q0,[sp,#7232]
	str q0,[sp,#7216]
	str q0,[sp,#7200]
	str q0,[sp,#7184]
	bl memcpy
	mov w8,#0x5c
	mov w9,#0x6f6e
	sub x8,x8,x21
	add x10,x19,x8
	str x8,[sp,#6624]
	strh w9,[x10]
	mov w9,#0x2c
	strb w9,[x10,#2]
	add x10,sp,#0x1,lsl #12
	mov w9,#0x60
	ldr q0,[sp,#7248]
	ldr q1,[sp,#7264]
	ldr q2,[sp,#7200]
	add x10,x10,#0x980
	str q0,[sp,#6592]
	ldr q0,[sp,#7184]
	str q1,[sp,#6608]
	ldr q1,[sp,#7232]
	str q0,[sp,#6528]
	movi v0.2d,#0x0
	str q2,[sp,#6544]
	ldr q2,[sp,#7216]
	str q1,[sp,#6576]
	str q2,[sp,#6560]
	b 160f
11:
	ldr w8,[x0]
	mov w9,#0x706f
	add x20,sp,#0x4a8
	movk w9,#0x6e65,lsl #16
	cmp w8,w9
	b.ne 22f
	adrp x2,.rodata..Lstatic.19
	add x2,x2,:lo12:.rodata..Lstatic.19
	mov w1,#0x6
	bl .Lcore.cmp.slices.groups_equal
	cbz w0,23f
	add x0,sp,#0x1,lsl #12
	add x2,sp,#0x1,lsl #12
	mov w1,#0x1
	add x0,x0,#0x450
	add x2,x2,#0xc10
	bl .Ltk_script.opening.read_opening
	add x8,sp,#0x1,lsl #12
	ldr x4,[sp,#5432]
	add x8,x8,#0x400
	ldrb w11,[x8,#80]
	ldrb w6,[x8,#88]
	b 17f
12:
	ldr w8,[x0]
	mov w9,#0x706f
	movk w9,#0x6e65,lsl #16
	cmp w8,w9
	b.ne 13f
	adrp x2,.rodata.cst4+12
	add x2,x2,:lo12:.rodata.cst4+12
	mov w1,#0x4
	bl .Lcore.cmp.slices.groups_equal
	add x20,sp,#0x4a8
	cbz w0,23f
	add x0,sp,#0x1,lsl #12
	add x2,sp,#0x1,lsl #12
	mov w1,wzr
	add x0,x0,#0x6c0
	add x2,x2,#0xc10
	bl .Ltk_script.opening.read_opening
	ldrb w11,[x24,#320]
	ldrb w6,[x24,#328]
	ldr x4,[sp,#6056]
	b 18f
13:
	mov w13,#0x1
	mov w8,wzr
	mov x9,xzr
	mov w10,wzr
	mov x24,xzr
	mov w12,wzr
	mov w14,wzr
	mov x15,xzr
	mov x16,xzr
	mov w17,wzr
	mov w18,wzr
	mov w0,wzr
	mov w1,wzr
	mov x2,xzr
	mov x3,xzr
	mov x5,xzr
	mov x7,xzr
	mov x19,xzr
	mov x21,xzr
	mov x22,xzr
	mov x23,xzr
	mov x25,xzr
	mov x4,xzr
	mov w6,#0x2
	mov w11,w13
	b 15f
14:
	mov w8,wzr
	mov x9,xzr
	mov w10,wzr
	mov x24,xzr
	mov w12,wzr
	mov w14,wzr
	mov x15,xzr
	mov x16,xzr
	mov w17,wzr
	mov w18,wzr
	mov w0,wzr
	mov w1,wzr
	mov x2,xzr
	mov x3,xzr
	mov x5,xzr
	mov x7,xzr
	mov x19,xzr
	mov x21,xzr
	mov x22,xzr
	mov x23,xzr
	mov x25,xzr
	mov x4,xzr
	mov w6,#0x2
	mov w11,#0x1
	mov w13,#0x1
15:
	add x20,sp,#0x4a8
16:
	add x27,sp,#0x1,lsl #12
	ldr q0,[sp,#2032]
	ldr q1,[sp,#2048]
	add x27,x27,#0x400
	ldr q2,[sp,#2016]
	str x24,[sp,#5312]
	strb w8,[x27,#104]
	lsr x8,x9,#48
	add x24,sp,#0x1,lsl #12
	stur w9,[x27,#105]
	lsr x9,x9,#32
	add x24,x24,#0x580
	stur q0,[x27,#129]
	ldr q0,[sp,#2064]
	stur q1,[x27,#145]
	ldur q1,[x30,#63]
	strb w8,[x27,#111]
	ldrb w8,[sp,#1586]
	sturh w9,[x27,#109]
	ldrh w9,[sp,#1584]
	stur q0,[x27,#161]
	str q1,[sp,#5296]
	str x13,[sp,#5216]
	strb w10,[x27,#112]
	stur q2,[x27,#113]
	str w12,[sp,#5320]
	strb w14,[x27,#204]
	strb w8,[x27,#207]
	sturh w9,[x27,#205]
	str x15,[sp,#5328]
	str x16,[sp,#5336]
	str w17,[sp,#5344]
	str w18,[sp,#5348]
	str w0,[sp,#5352]
	str w1,[sp,#5356]
	str x2,[sp,#5360]
	str x3,[sp,#5368]
	str x5,[sp,#5376]
	str x7,[sp,#5384]
	str x19,[sp,#5392]
	str x21,[sp,#5400]
	str x22,[sp,#5408]
	str x23,[sp,#5416]
	str x25,[sp,#5424]
17:
	ldr q0,[sp,#5376]
	ldr q1,[sp,#5392]
	ldr q2,[sp,#5408]
	ldr x8,[sp,#5424]
	str q0,[sp,#6000]
	ldr q0,[sp,#5312]
	str q1,[sp,#6016]
	ldr q1,[sp,#5328]
	str q0,[sp,#5936]
	ldr q0,[sp,#5360]
	str q2,[sp,#6032]
	ldr q2,[sp,#5344]
	str q0,[sp,#5984]
	ldr q0,[sp,#5264]
	str q1,[sp,#5952]
	ldr q1,[sp,#5248]
	str q0,[sp,#5888]
	ldr q0,[sp,#5296]
	str q2,[sp,#5968]
	ldr q2,[sp,#5280]
	str q1,[sp,#5872]
	ldr q1,[sp,#5216]
	str q0,[sp,#5920]
	ldr q0,[sp,#5232]
	str q2,[sp,#5904]
	str q1,[sp,#5840]
	str x8,[sp,#6048]
	str q0,[sp,#5856]
18:
	add x8,sp,#0x1,lsl #12
	ldr x19,[sp,#5840]
	ldrb w9,[x24,#344]
	add x8,x8,#0x6c0
	ldrb w10,[x24,#347]
	ldr w27,[sp,#5852]
	ldur q0,[x8,#60]
	ldur q1,[x8,#76]
	cmp w11,#0x0
	ldur q2,[x8,#88]
	ldurh w12,[x8,#25]
	and x16,x6,#0xff
	str q0,[sp,#7072]
	ldur q0,[x8,#120]
	cset w18,eq
	str q1,[sp,#7088]
	ldr q1,[sp,#6000]
	ldr x1,[sp,#5856]
	str q0,[sp,#1552]
	ldr q0,[sp,#5984]
	ldr x26,[sp,#5864]
	stur q2,[x28,#252]
	ldr x8,[sp,#5960]
	ldr q5,[sp,#5968]
	ldur q2,[x28,#252]
	str q0,[sp,#1520]
	ldr q0,[sp,#7072]
	str q1,[sp,#1536]
	ldr q1,[sp,#7088]
	ldr d4,[sp,#5872]
	ldr q3,[sp,#6016]
	ldr w13,[sp,#5872]
	ldr w15,[sp,#5880]
	stur q2,[x28,#140]
	ldr x5,[sp,#5928]
	ldr x14,[sp,#5936]
	str q1,[sp,#6976]
	ldr q1,[sp,#1520]
	ldr q2,[sp,#1536]
	str q0,[sp,#6960]
	ldr q0,[sp,#1552]
	ldr x3,[sp,#6032]
	ldr x7,[sp,#6040]
	ldr x2,[sp,#6048]
	str x8,[sp,#1568]
	str x8,[sp,#1504]
	str q0,[sp,#1488]
	str q2,[sp,#1472]
	str q1,[sp,#1456]
	str w18,[sp,#56]
	cbz w11,19f
	movi v0.2d,#0x0
	add x8,sp,#0x1,lsl #12
	stp x16,xzr,[sp,#8]
	stp xzr,xzr,[sp,#88]
	mov x21,xzr
	add x8,x8,#0xac0
	str xzr,[sp,#104]
	mov x28,xzr
	mov w26,#0x2
	stp xzr,xzr,[sp,#72]
	add x23,sp,#0x4a8
	add x20,sp,#0xa00
	str wzr,[sp,#176]
	stp xzr,xzr,[sp,#40]
	str xzr,[sp,#136]
	stp xzr,xzr,[sp,#24]
	str xzr,[sp,#160]
	str wzr,[sp,#168]
	str q0,[sp,#144]
	str q0,[sp,#112]
	str q0,[sp,#192]
	str x19,[sp,#208]
	str x9,[sp,#184]
	b 49f
19:
	lsr x8,x19,#32
	cmp w16,#0x1
	b.gt 20f
	neg w11,w19
	mov x14,#0xffffffffffffffff
	add x23,sp,#0x1,lsl #12
	lsr x11,x14,x11
	add x23,x23,#0xba0
	cmp x11,x1
	cbnz w16,24f
	b.cc 201f
	mov x11,#0x7403
	movk x11,#0xed5d,lsl #16
	movk x11,#0x1,lsl #32
	add x11,x11,#0x1
	cmp x26,x11
	b.cs 201f
	mov w11,#0xc9ff
	movk w11,#0x3b9a,lsl #16
	add w11,w11,#0x1
	cmp w13,w11
	b.cs 201f
	mov w11,#0xca00
	movi v0.2d,#0x0
	mov x3,#0xca0000000000
	movk w11,#0x3b9a,lsl #16
	str wzr,[sp,#176]
	mov x2,xzr
	madd x26,x26,x11,x13
	adrp x11,.rodata.cst16+224
	adrp x13,.rodata.cst16+240
	ldr q3,[x11,:lo12:.rodata.cst16+224]
	mov w11,#0x40
	ldr q5,[x13,:lo12:.rodata.cst16+240]
	str x11,[sp,#136]
	mov w11,#0x64
	movk x3,#0x3b9a,lsl #48
	stp x11,xzr,[sp,#40]
	movi v4.2d,#0x0
	mov w7,#0x1
	str wzr,[sp,#168]
	mov w5,#0x2710
	mov w27,w8
	str xzr,[sp,#5200]
	str xzr,[sp,#5216]
	stur q0,[x23,#140]
	str q0,[sp,#7200]
	str q0,[sp,#7184]
	str xzr,[sp,#5208]
	str q0,[sp,#5824]
	str q0,[sp,#5840]
	str wzr,[sp,#4496]
	b 26f
20:
	add x23,sp,#0x1,lsl #12
	cmp w16,#0x2
	add x23,x23,#0xba0
	b.ne 25f
	ldr q0,[sp,#6960]
	adrp x11,.rodata.cst16+224
	ldr q1,[sp,#6976]
	ldur q2,[x28,#140]
	adrp x13,.rodata.cst16+240
	ldr q3,[x11,:lo12:.rodata.cst16+224]
	str q0,[sp,#7184]
	movi v0.2d,#0x0
	mov w11,#0x40
	mov x3,#0xca0000000000
	ldr q5,[x13,:lo12:.rodata.cst16+240]
	str x11,[sp,#136]
	mov w11,#0x64
	stp x11,x14,[sp,#40]
	mov x2,xzr
	str wzr,[sp,#168]
	movk x3,#0x3b9a,lsl #48
	mov w7,#0x1
	str q1,[sp,#7200]
	stur q2,[x23,#140]
	str xzr,[sp,#5200]
	str xzr,[sp,#5216]
	str xzr,[sp,#5208]
	str q0,[sp,#5824]
	str q0,[sp,#5840]
	str wzr,[sp,#4496]
	str w15,[sp,#176]
	b 26f
21:
	add x10,sp,#0x1,lsl #12
	cmp w23,#0x1
	str xzr,[sp,#6856]
	add x10,x10,#0x980
	str xzr,[sp,#6848]
	str xzr,[sp,#6136]
	str xzr,[sp,#6128]
	str q0,[sp,#7184]
	str q0,[sp,#7200]
	str q0,[sp,#7216]
	str q0,[sp,#7232]
	str q0,[sp,#7248]
	str q0,[sp,#7264]
	str q0,[sp,#7280]
	str q0,[sp,#7296]
	str q0,[sp,#7312]
	str q0,[sp,#7328]
	str q0,[sp,#7344]
	str q0,[sp,#7360]
	str q0,[sp,#7376]
	str q0,[sp,#7392]
	str q0,[sp,#7408]
	str q0,[sp,#7424]
	str q0,[sp,#7440]
	str q0,[sp,#7456]
	str q0,[sp,#7472]
	str xzr,[sp,#7488]
	str xzr,[sp,#5792]
	str q0,[sp,#5776]
	str q0,[sp,#5760]
	str q0,[sp,#5744]
	str q0,[sp,#5728]
	str q0,[sp,#5712]
	str q0,[sp,#5696]
	str q0,[sp,#5680]
	str q0,[sp,#5664]
	str q0,[sp,#5648]
	str q0,[sp,#5632]
	str q0,[sp,#5616]
	str q0,[sp,#5600]
	str q0,[sp,#5584]
	str q0,[sp,#5568]
	str q0,[sp,#5552]
	str q0,[sp,#5536]
	str q0,[sp,#5520]
	str q0,[sp,#5504]
	str xzr,[sp,#5920]
	str q0,[sp,#5904]
	str q0,[sp,#5888]
	str q0,[sp,#5872]
	str q0,[sp,#5856]
	str q0,[sp,#5840]
	str q0,[sp,#5824]
	str q0,[sp,#5200]
	str q0,[sp,#5216]
	str q0,[sp,#5232]
	str q0,[sp,#5248]
	str q0,[sp,#5264]
	str q0,[sp,#5280]
	str xzr,[sp,#5296]
	str q0,[sp,#6960]
	str q0,[sp,#6976]
	str q0,[sp,#6992]
	str q0,[sp,#7008]
	str q0,[sp,#7024]
	str xzr,[sp,#7040]
	str xzr,[sp,#5088]
	str q0,[sp,#5072]
	str q0,[sp,#5056]
	str q0,[sp,#5040]
	str q0,[sp,#5024]
	str q0,[sp,#5008]
	str q0,[sp,#4992]
	str q0,[sp,#4976]
	str q0,[sp,#4960]
	str q0,[sp,#4944]
	str q0,[sp,#4928]
	str q0,[sp,#4912]
	str q0,[sp,#4896]
	str q0,[sp,#4880]
	str q0,[sp,#4864]
	str q0,[sp,#4848]
	str q0,[sp,#4832]
	str q0,[sp,#4816]
	str q0,[sp,#4800]
	str xzr,[sp,#4592]
	str q0,[sp,#4576]
	str q0,[sp,#4560]
	str q0,[sp,#4544]
	str q0,[sp,#4528]
	str q0,[sp,#4512]
	str q0,[sp,#4496]
	str q0,[sp,#4112]
	str q0,[sp,#4128]
	str q0,[sp,#4144]
	str q0,[sp,#4160]
	str q0,[sp,#4176]
	str q0,[sp,#4192]
	str xzr,[sp,#4208]
	str q0,[sp,#6224]
	str q0,[sp,#6240]
	str q0,[sp,#6256]
	str q0,[sp,#6272]
	str q0,[sp,#6288]
	str q0,[sp,#6304]
	str q0,[sp,#6320]
	str q0,[sp,#6336]
	str q0,[sp,#6352]
	str q0,[sp,#6368]
	str q0,[sp,#6384]
	str q0,[sp,#6400]
	str q0,[sp,#6416]
	str q0,[sp,#6432]
	str q0,[sp,#6448]
	str q0,[sp,#6464]
	str q0,[sp,#6480]
	str q0,[sp,#6496]
	str q0,[sp,#7152]
	str q0,[sp,#7136]
	str q0,[sp,#7120]
	str q0,[sp,#7104]
	str q0,[sp,#7088]
	str q0,[sp,#7072]
	b.gt 70f
	cbnz w23,73f
	ldr x11,[sp,#64]
	mov x10,#0x7fffffffffffffff
	add x19,sp,#0x1,lsl #12
	add x19,x19,#0xac0
	ldr x9,[x11,#96]
	cmp x9,x10
	b.cc 79f
	mov w8,#0x1
	strb w8,[x19]
	b 137f
22:
	mov w13,#0x1
	mov w8,wzr
	mov x9,xzr
	mov w10,wzr
	mov x24,xzr
	mov w12,wzr
	mov w14,wzr
	mov x15,xzr
	mov x16,xzr
	mov w17,wzr
	mov w18,wzr
	mov w0,wzr
	mov w1,wzr
	mov x2,xzr
	mov x3,xzr
	mov x5,xzr
	mov x7,xzr
	mov x19,xzr
	mov x21,xzr
	mov x22,xzr
	mov x23,xzr
	mov x25,xzr
	mov x4,xzr
	mov w6,#0x2
	mov w11,w13
	b 16b
23:
	mov w13,#0x1
	mov w8,wzr
	mov x9,xzr
	mov w10,wzr
	mov x24,xzr
	mov w12,wzr
	mov w14,wzr
	mov x15,xzr
	mov x16,xzr
	mov w17,wzr
	mov w18,wzr
	mov w1,wzr
	mov x2,xzr
	mov x3,xzr
	mov x5,xzr
	mov x7,xzr
	mov x19,xzr
	mov x21,xzr
	mov x22,xzr
	mov x23,xzr
	mov x25,xzr
	mov x4,xzr
	mov w6,#0x2
	mov w11,w13
	add x30,sp,#0x7e0
	b 16b
24:
	b.cc 201f
	mov x11,#0x7403
	movk x11,#0xed5d,lsl #16
	movk x11,#0x1,lsl #32
	cmp x26,x11
	b.hi 201f
	mov w11,#0xc9ff
	movk w11,#0x3b9a,lsl #16
	cmp w13,w11
	b.hi 201f
	sub w11,w15,#0x401
	cmn w11,#0x401
	b.ls 201f
	mov x11,#0xca0000000000
	mov w14,#0xca00
	movi v0.2d,#0x0
	movk x11,#0x3b9a,lsl #48
	movk w14,#0x3b9a,lsl #16
	stp x15,xzr,[sp,#40]
	udiv x11,x11,x15
	madd x13,x26,x14,x13
	adrp x14,.rodata.cst16+240
	ldr q5,[x14,:lo12:.rodata.cst16+240]
	str wzr,[sp,#176]
	add x7,x26,#0x1
	str xzr,[sp,#5208]
	movi v4.2d,#0x0
	mov w5,#0x2710
	str xzr,[sp,#5200]
	mov w27,w8
	mov x2,x1
	str xzr,[sp,#5216]
	str q0,[sp,#5824]
	mov x26,x13
	str q0,[sp,#5840]
	str q0,[sp,#7184]
	str q0,[sp,#7200]
	stur q0,[x23,#140]
	str wzr,[sp,#4496]
	mul x3,x11,x15
	adrp x11,.rodata.cst16+224
	add x15,sp,#0x1,lsl #12
	ldr q3,[x11,:lo12:.rodata.cst16+224]
	mov w11,#0x1
	add x15,x15,#0x130
	str w11,[sp,#168]
	mov w11,#0x40
	stur wzr,[x15,#99]
	str x11,[sp,#136]
	b 27f
25:
	ldr q0,[sp,#1488]
	ldr x11,[sp,#1504]
	ldr q1,[sp,#1456]
	ldr q2,[sp,#1472]
	str w15,[sp,#176]
	str q0,[sp,#5200]
	ldr q0,[sp,#6960]
	str x11,[sp,#5216]
	lsr x11,x14,#32
	str q1,[sp,#5824]
	ldr q1,[sp,#6976]
	str q0,[sp,#7184]
	ldur q0,[x28,#140]
	str x11,[sp,#136]
	mov w11,#0x1
	str w11,[sp,#168]
	mov w11,w14
	str q2,[sp,#5840]
	str q1,[sp,#7200]
	stur q0,[x23,#140]
	str wzr,[sp,#4496]
	stp x11,x4,[sp,#40]
26:
	add x15,sp,#0x1,lsl #12
	add x15,x15,#0x130
	stur wzr,[x15,#99]
27:
	ldr q0,[sp,#7184]
	ldr q1,[sp,#7200]
	add x11,sp,#0xa00
	ldur q2,[x23,#140]
	orr w10,w12,w10,lsl #16
	ldur w13,[x15,#99]
	str q0,[sp,#2784]
	ldr q0,[sp,#5200]
	str q1,[sp,#2800]
	lsl w10,w10,#8
	ldr q1,[sp,#5824]
	stur q2,[x11,#252]
	ldr x11,[sp,#5216]
	str q0,[sp,#1360]
	ldr q0,[sp,#5840]
	orr x24,x10,x9
	str x11,[sp,#1376]
	ldr w11,[sp,#4496]
	lsr x9,x24,#4
	str q0,[sp,#1344]
	movi v0.16b,#0xa
	mov w10,#0xe0ff
	stur w13,[x20,#131]
	movk w10,#0x5f5,lsl #16
	cmp x9,#0x271
	str w11,[sp,#1320]
	mov x11,#0x594b
	adrp x9,.rodata..Lstatic.23
	add x9,x9,:lo12:.rodata..Lstatic.23
	movk x11,#0x3886,lsl #16
	str q1,[sp,#1328]
	movk x11,#0xc5d6,lsl #32
	str q0,[sp,#7264]
	movk x11,#0x346d,lsl #48
	str q0,[sp,#7248]
	str q0,[sp,#7232]
	str q0,[sp,#7216]
	str q0,[sp,#7200]
	str q0,[sp,#7184]
	b.cc 30f
	mov x13,xzr
	mov x12,x24
28:
	mov x14,x12
	umulh x12,x12,x11
	mov w15,#0x2710
	mov w17,#0x147b
	cmp x14,x10
	lsr x12,x12,#11
	msub w15,w12,w15,w14
	ubfx w16,w15,#2,#14
	mul w16,w16,w17
	mov w17,#0x64
	lsr w16,w16,#17
	msub w15,w16,w17,w15
	add x17,sp,#0x1,lsl #12
	ldrh w16,[x9,w16,uxtw #1]
	add x17,x17,#0xc10
	add x17,x17,x13
	sub x13,x13,#0x4
	and x15,x15,#0xffff
	sturh w16,[x17,#91]
	ldrh w15,[x9,x15,lsl #1]
	sturh w15,[x17,#93]
	b.hi 28b
	add x13,x13,#0x5f
	cmp x12,#0x63
	b.ls 31f
29:
	ubfx w14,w12,#2,#14
	mov w15,#0x147b
	add x16,sp,#0x1,lsl #12
	add x16,x16,#0xc10
	cmp x12,#0x3e7
	mul w14,w14,w15
	add x17,x16,x13
	lsr w15,w14,#17
	mov w14,#0x64
	msub w14,w15,w14,w12
	and x14,x14,#0xffff
	ldrh w14,[x9,x14,lsl #1]
	sturh w14,[x17,#-2]
	b.hi 32f
	sub x14,x13,#0x3
	orr w12,w15,#0x30
	strb w12,[x16,x14]
	b 34f
30:
	mov w13,#0x5f
	mov x12,x24
	cmp x24,#0x63
	b.hi 29b
31:
	cmp x12,#0x9
	b.hi 33f
	sub x14,x13,#0x1
	add x13,sp,#0x1,lsl #12
	orr w12,w12,#0x30
	add x13,x13,#0xc10
	strb w12,[x13,x14]
	b 34f
32:
	sub x14,x13,#0x4
	ldrh w12,[x9,w15,uxtw #1]
	strh w12,[x16,x14]
	b 34f
33:
	sub x14,x13,#0x2
	add x13,sp,#0x1,lsl #12
	ldrh w12,[x9,x12,lsl #1]
	add x13,x13,#0xc10
	strh w12,[x13,x14]
34:
	lsr x12,x19,#36
	add x15,sp,#0x1,lsl #12
	sub x13,x14,#0x1
	add x15,x15,#0xc10
	str x14,[sp,#7280]
	cmp x12,#0x271
	mov w12,#0x2c
	strb w12,[x15,x13]
	mov w12,w19
	b.cc 37f
	add x14,x14,x15
	sub x15,x14,#0x5
35:
	umulh x14,x8,x11
	mov w16,#0x2710
	mov w18,#0x147b
	sub x13,x13,#0x4
	cmp x8,x10
	lsr x14,x14,#11
	msub w16,w14,w16,w8
	mov x8,x14
	ubfx w17,w16,#2,#14
	mul w17,w17,w18
	mov w18,#0x64
	lsr w17,w17,#17
	msub w16,w17,w18,w16
	ldrh w17,[x9,w17,uxtw #1]
	and x16,x16,#0xffff
	ldrh w16,[x9,x16,lsl #1]
	strh w16,[x15,#2]
	strh w17,[x15],#-4
	b.hi 35b
	cmp x14,#0x63
	b.hi 38f
36:
	cmp x14,#0x9
	b.hi 39f
	add x8,sp,#0x1,lsl #12
	sub x13,x13,#0x1
	orr w14,w14,#0x30
	add x8,x8,#0xc10
	strb w14,[x8,x13]
	b 41f
37:
	mov x14,x8
	cmp x8,#0x63
	b.ls 36b
38:
	ubfx w8,w14,#2,#14
	mov w15,#0x147b
	cmp x14,#0x3e7
	mul w8,w8,w15
	mov w15,#0x64
	lsr w8,w8,#17
	msub w15,w8,w15,w14
	and x15,x15,#0xffff
	ldrh w16,[x9,x15,lsl #1]
	add x15,sp,#0x1,lsl #12
	add x15,x15,#0xc10
	add x17,x15,x13
	sturh w16,[x17,#-2]
	b.hi 40f
	sub x13,x13,#0x3
	orr w8,w8,#0x30
	strb w8,[x15,x13]
	b 41f
39:
	ldrh w8,[x9,x14,lsl #1]
	add x14,sp,#0x1,lsl #12
	sub x13,x13,#0x2
	add x14,x14,#0xc10
	strh w8,[x14,x13]
	b 41f
40:
	sub x13,x13,#0x4
	ldrh w8,[x9,w8,uxtw #1]
	strh w8,[x15,x13]
41:
	lsr x15,x12,#4
	add x14,sp,#0x1,lsl #12
	sub x8,x13,#0x1
	add x14,x14,#0xc10
	cmp x15,#0x271
	mov w15,#0x2c
	strb w15,[x14,x8]
	b.cc 43f
	add x13,x13,x14
	sub x14,x13,#0x5
42:
	umulh x13,x12,x11
	mov w15,#0x2710
	mov w17,#0x147b
	sub x8,x8,#0x4
	cmp x12,x10
	lsr x13,x13,#11
	msub w15,w13,w15,w12
	mov x12,x13
	ubfx w16,w15,#2,#14
	mul w16,w16,w17
	mov w17,#0x64
	lsr w16,w16,#17
	msub w15,w16,w17,w15
	ldrh w16,[x9,w16,uxtw #1]
	and x15,x15,#0xffff
	ldrh w15,[x9,x15,lsl #1]
	strh w15,[x14,#2]
	strh w16,[x14],#-4
	b.hi 42b
	b 44f
43:
	mov w13,w19
44:
	cmp x13,#0x63
	str x1,[sp,#208]
	str q3,[sp,#192]
	stp x3,x2,[sp,#24]
	str x5,[sp,#16]
	str x7,[sp,#160]
	str q4,[sp,#144]
	str q5,[sp,#112]
	b.hi 45f
	cmp x13,#0x9
	b.hi 46f
	add x9,sp,#0x1,lsl #12
	sub x8,x8,#0x1
	orr w10,w13,#0x30
	add x9,x9,#0xc10
	strb w10,[x9,x8]
	b 48f
45:
	ubfx w10,w13,#2,#14
	mov w11,#0x147b
	cmp x13,#0x3e7
	mul w10,w10,w11
	mov w11,#0x64
	lsr w10,w10,#17
	msub w11,w10,w11,w13
	and x11,x11,#0xffff
	ldrh w12,[x9,x11,lsl #1]
	add x11,sp,#0x1,lsl #12
	add x11,x11,#0xc10
	add x14,x11,x8
	sturh w12,[x14,#-2]
	b.hi 47f
	sub x8,x8,#0x3
	orr w9,w10,#0x30
	strb w9,[x11,x8]
	b 48f
46:
	add x10,sp,#0x1,lsl #12
	sub x8,x8,#0x2
	ldrh w9,[x9,x13,lsl #1]
	add x10,x10,#0xc10
	strh w9,[x10,x8]
	b 48f
47:
	sub x8,x8,#0x4
	ldrh w9,[x9,w10,uxtw #1]
	strh w9,[x11,x8]
48:
	add x20,sp,#0x1,lsl #12
	sub x8,x8,#0x5
	mov w9,#0x2c
	add x20,x20,#0xc10
	str x8,[sp,#3840]
	add x0,sp,#0x1,lsl #12
	add x10,x20,x8
	str x8,[sp,#4208]
	strb w9,[x10,#4]
	mov w9,#0x706f
	add x0,x0,#0xc10
	movk w9,#0x6e65,lsl #16
	str w9,[x10]
	mov w9,#0x60
	add x10,sp,#0xea0
	ldr q2,[sp,#7184]
	ldr q0,[sp,#7248]
	ldr q1,[sp,#7264]
	ldr q3,[sp,#7200]
	ldr q4,[sp,#7232]
	ldr q5,[sp,#7216]
	str q2,[sp,#4112]
	sub x22,x9,x8
	add x1,x10,x8
	str q2,[sp,#3744]
	movi v2.2d,#0x0
	mov x2,x22
	str q0,[sp,#4176]
	str q1,[sp,#4192]
	str q3,[sp,#4128]
	str q4,[sp,#4160]
	str q5,[sp,#4144]
	str q3,[sp,#3760]
	str q5,[sp,#3776]
	str q4,[sp,#3792]
	str q1,[sp,#3824]
	str q0,[sp,#3808]
	str q2,[sp,#7456]
	str q2,[sp,#7440]
	str q2,[sp,#7424]
	str q2,[sp,#7408]
	str q2,[sp,#7392]
	str q2,[sp,#7376]
	str q2,[sp,#7360]
	str q2,[sp,#7344]
	str q2,[sp,#7328]
	str q2,[sp,#7312]
	str q2,[sp,#7296]
	str q2,[sp,#7280]
	str q2,[sp,#7264]
	str q2,[sp,#7248]
	str q2,[sp,#7232]
	str q2,[sp,#7216]
	str q2,[sp,#7200]
	str q2,[sp,#7184]
	bl memcpy
	ldr x8,[sp,#7184]
	add x0,sp,#0x1,lsl #12
	ldr x21,[sp,#7192]
	add x0,x0,#0x980
	add x1,x20,#0x19
	mov w2,#0x10f
	str x8,[sp,#88]
	ldr x8,[sp,#7200]
	str x22,[sp,#7472]
	str x8,[sp,#104]
	ldrb w8,[x23,#136]
	str x8,[sp,#96]
	bl memcpy
	ldr q0,[sp,#2784]
	ldr w9,[sp,#1320]
	add x20,sp,#0xa00
	ldr q1,[sp,#2800]
	ldr x8,[sp,#1376]
	add x23,sp,#0x4a8
	str q0,[sp,#6848]
	ldr q0,[sp,#1360]
	add x0,sp,#0x1,lsl #12
	str w9,[sp,#1384]
	orr x9,x24,x27,lsl #32
	ldur q2,[x20,#252]
	str q1,[sp,#6864]
	ldr q1,[sp,#1328]
	add x1,sp,#0x1,lsl #12
	str q0,[sp,#1424]
	ldr q0,[sp,#1344]
	add x0,x0,#0x580
	str x8,[sp,#1440]
	ldur w8,[x23,#131]
	add x1,x1,#0x980
	str x9,[sp,#8]
	lsr x9,x26,#8
	mov w2,#0x10f
	stur q2,[x28,#28]
	str q1,[sp,#1392]
	str x26,[sp,#184]
	str x9,[sp,#80]
	str q0,[sp,#1408]
	stur w8,[x23,#195]
	bl memcpy
	add x8,sp,#0x1,lsl #12
	mov w28,#0x1
	mov w9,#0x100000
	add x8,x8,#0xac0
	mov x26,x19
	str x9,[sp,#72]
49:
	ldr q0,[sp,#6848]
	ldr q1,[sp,#6864]
	add x0,sp,#0x1,lsl #12
	add x1,sp,#0x1,lsl #12
	add x0,x0,#0x850
	mov w2,#0x10f
	str q0,[sp,#2560]
	ldur q0,[x8,#28]
	ldr x8,[sp,#1440]
	str q1,[sp,#2576]
	ldr q1,[sp,#1408]
	add x1,x1,#0x580
	stur q0,[x20,#28]
	ldr q0,[sp,#1424]
	str x8,[sp,#1248]
	ldur w8,[x23,#195]
	str q0,[sp,#1232]
	ldr q0,[sp,#1392]
	stur w8,[x23,#3]
	ldr w8,[sp,#1384]
	str q0,[sp,#1200]
	str q1,[sp,#1216]
	str w8,[sp,#1192]
	bl memcpy
	ldp x27,x24,[sp,#40]
	add x11,sp,#0xa00
	ldp x25,x19,[sp,#24]
	add x20,sp,#0x4a8
	ldp x23,x22,[sp,#8]
	mov x0,x28
	ldp x1,x18,[sp,#72]
	ldr w13,[sp,#56]
	ldr q1,[sp,#192]
	ldr w3,[sp,#176]
	ldr w14,[sp,#168]
	ldr x15,[sp,#160]
	ldr q2,[sp,#144]
	ldr x16,[sp,#136]
	ldr q3,[sp,#112]
50:
	movi v0.2d,#0x0
	add x9,sp,#0x1,lsl #12
	add x10,sp,#0x1,lsl #12
	add x8,sp,#0x1,lsl #12
	add x9,x9,#0x980
	add x10,x10,#0x400
	add x8,x8,#0xc10
	mov w28,w13
	str xzr,[sp,#5840]
	str xzr,[sp,#5824]
	str q0,[sp,#6528]
	str q0,[sp,#6544]
	stur q0,[x9,#28]
	str xzr,[sp,#5832]
	str q0,[sp,#5504]
	str q0,[sp,#5520]
	str wzr,[sp,#5200]
	stur wzr,[x10,#83]
	str q0,[sp,#7184]
	str q0,[sp,#7200]
	str q0,[sp,#7216]
	str q0,[sp,#7232]
	str q0,[sp,#7248]
	str q0,[sp,#7264]
	str q0,[sp,#7280]
	str q0,[sp,#7296]
	str q0,[sp,#7312]
	str q0,[sp,#7328]
	str q0,[sp,#7344]
	str q0,[sp,#7360]
	str q0,[sp,#7376]
	str q0,[sp,#7392]
	str q0,[sp,#7408]
	str q0,[sp,#7424]
	stur q0,[x8,#255]
	cbz w13,51f
	ldr q0,[sp,#2560]
	str q1,[sp,#192]
	mov w2,#0x10f
	ldr q1,[sp,#2576]
	ldr x8,[sp,#1248]
	stp x1,x18,[sp,#72]
	str q0,[sp,#6528]
	add x1,sp,#0x1,lsl #12
	ldur q0,[x11,#28]
	str q1,[sp,#6544]
	add x1,x1,#0x850
	ldr q1,[sp,#1216]
	stur q0,[x9,#28]
	ldr q0,[sp,#1232]
	str x8,[sp,#5840]
	ldur w8,[x20,#3]
	stp x21,x0,[sp,#48]
	add x0,sp,#0x1,lsl #12
	str q0,[sp,#5824]
	ldr q0,[sp,#1200]
	add x0,x0,#0xc10
	stur w8,[x10,#83]
	ldr w8,[sp,#1192]
	str q3,[sp,#112]
	str x16,[sp,#136]
	str q2,[sp,#144]
	str x15,[sp,#160]
	str w14,[sp,#168]
	str w3,[sp,#176]
	str q0,[sp,#5504]
	str q1,[sp,#5520]
	str w8,[sp,#5200]
	bl memcpy
	add x10,sp,#0x1,lsl #12
	add x9,sp,#0x1,lsl #12
	add x11,sp,#0xa00
	add x10,x10,#0x400
	add x9,x9,#0x980
	b 52f
51:
	mov x22,xzr
	mov x24,xzr
	mov w27,wzr
	mov x25,xzr
	mov x19,xzr
	and x26,x26,#0xff
	and x23,x23,#0xff
	stp xzr,xzr,[sp,#72]
	str wzr,[sp,#176]
	str xzr,[sp,#136]
	str xzr,[sp,#160]
	stp xzr,xzr,[sp,#48]
	str wzr,[sp,#168]
	stp xzr,xzr,[sp,#88]
	str xzr,[sp,#104]
	str q0,[sp,#144]
	str q0,[sp,#112]
	str q0,[sp,#192]
52:
	ldr q0,[sp,#6528]
	ldr q1,[sp,#6544]
	add x0,sp,#0x1,lsl #12
	ldr x8,[sp,#5840]
	ldur q2,[x9,#28]
	add x1,sp,#0x1,lsl #12
	str q0,[sp,#2672]
	ldr q0,[sp,#5824]
	add x0,x0,#0x2c0
	str q1,[sp,#2688]
	ldr q1,[sp,#5520]
	add x1,x1,#0xc10
	str q0,[sp,#1296]
	ldr q0,[sp,#5504]
	mov w2,#0x10f
	str x8,[sp,#1312]
	ldur w8,[x10,#83]
	add x21,sp,#0x4a8
	ldr w9,[sp,#5200]
	stur q2,[x11,#140]
	str q0,[sp,#1264]
	str q1,[sp,#1280]
	stur w8,[x20,#67]
	add x20,sp,#0xa00
	str w9,[sp,#1256]
	bl memcpy
	cbz w28,53f
	ldr x11,[sp,#64]
	ldr x8,[sp,#208]
	add x1,sp,#0x1,lsl #12
	ldr x9,[sp,#80]
	ldr q0,[sp,#2672]
	add x0,sp,#0x390
	str x8,[x11,#16]
	ldr x8,[sp,#184]
	add x10,x11,#0x101
	ldr q1,[sp,#144]
	stur q0,[x11,#44]
	add x1,x1,#0x2c0
	strb w8,[x11,#24]
	lsr x8,x9,#48
	ldur q0,[x20,#140]
	str d1,[x11,#32]
	ldr q1,[sp,#2688]
	mov w2,#0x10f
	strb w8,[x11,#31]
	ldr w8,[sp,#176]
	stur w9,[x11,#25]
	lsr x9,x9,#32
	str w8,[x11,#40]
	ldr x8,[sp,#72]
	stur q1,[x11,#60]
	ldr q1,[sp,#112]
	stp x24,x8,[x11,#104]
	ldr x8,[sp,#136]
	stur q0,[x11,#72]
	ldr q0,[sp,#1296]
	stp w27,w8,[x11,#120]
	ldr x8,[sp,#1312]
	sturh w9,[x11,#29]
	ldr w9,[sp,#168]
	str x8,[x11,#144]
	ldr x8,[sp,#160]
	str q0,[x11,#128]
	ldr q0,[sp,#1264]
	stp x25,x8,[x11,#216]
	ldr x8,[sp,#56]
	stur q1,[x11,#152]
	ldr q1,[sp,#1280]
	stur q0,[x11,#168]
	ldr q0,[sp,#192]
	stp x19,x8,[x11,#232]
	ldur w8,[x21,#67]
	strb w9,[x11,#256]
	ldr w9,[sp,#1256]
	stp x26,x23,[x11]
	stp x22,x24,[x11,#88]
	stur q1,[x11,#184]
	stur q0,[x11,#200]
	str xzr,[x11,#248]
	str w8,[x11,#260]
	str w9,[x10]
	bl memcpy
	ldp x27,x19,[sp,#96]
	mov w25,wzr
	ldr x23,[sp,#48]
	ldr x21,[sp,#88]
	b 55f
53:
	movi v0.2d,#0x0
	add x8,sp,#0x390
	ldr x19,[sp,#208]
	ldr x27,[sp,#184]
	and x21,x26,#0xff
	and x23,x23,#0xff
	mov w25,#0x1
	stur q0,[x8,#255]
54:
	str q0,[sp,#1152]
	str q0,[sp,#1136]
	str q0,[sp,#1120]
	str q0,[sp,#1104]
	str q0,[sp,#1088]
	str q0,[sp,#1072]
	str q0,[sp,#1056]
	str q0,[sp,#1040]
	stp q0,q0,[sp,#912]
	stp q0,q0,[sp,#944]
	stp q0,q0,[sp,#976]
	stp q0,q0,[sp,#1008]
55:
	add x0,sp,#0x150
	add x1,sp,#0x390
	mov w2,#0x10f
	bl memcpy
	add x10,sp,#0x1,lsl #12
	add x10,x10,#0x980
	cbz w25,56f
	and w8,w21,#0xff
	cmp w8,#0x2
	b.eq 57f
	movi v0.2d,#0x0
	ldr x0,[sp,#216]
	cmp w8,#0x1
	b.ne 58f
	str q0,[sp,#6560]
	adrp x8,.rodata.cst16+288
	add x8,x8,:lo12:.rodata.cst16+288
	str q0,[sp,#6576]
	ldr q2,[sp,#6560]
	ldr q1,[x8]
	str q0,[sp,#6528]
	add x9,sp,#0xe0
	mov w8,#0x50
	str q0,[sp,#6544]
	add x1,x9,#0x50
	mov w2,#0x10
	str q0,[sp,#6592]
	ldr q0,[sp,#6576]
	str q1,[sp,#6608]
	stp q2,q0,[sp,#256]
	ldr q2,[sp,#6592]
	ldr q0,[sp,#6528]
	str x8,[sp,#320]
	stp q2,q1,[sp,#288]
	ldr q1,[sp,#6544]
	stp q0,q1,[sp,#224]
	bl "tk_session_c::storage::TextStorage::write"
	mov w0,#0x41
	b 68f
56:
	add x8,sp,#0x260
	add x1,sp,#0x150
	mov w2,#0x10f
	add x0,x8,#0x19
	str x21,[sp,#608]
	str x23,[sp,#616]
	str x19,[sp,#624]
	strb w27,[sp,#632]
	bl memcpy
	ldr x2,[sp,#896]
	ldr x0,[sp,#216]
	add x1,sp,#0x260
	bl "tk_session_c::storage::TextStorage::write"
	mov w0,wzr
	b 68f
57:
	movi v0.2d,#0x0
	and w8,w23,#0xff
	str xzr,[sp,#7280]
	cmp w8,#0x3
	str q0,[sp,#7264]
	str q0,[sp,#7248]
	str q0,[sp,#7232]
	str q0,[sp,#7216]
	str q0,[sp,#7200]
	str q0,[sp,#7184]
	b.gt 59f
	cmp w8,#0x1
	b.gt 60f
	cbnz w8,62f
	mov w8,#0x6220
	add x11,sp,#0x1,lsl #12
	str q0,[sp,#6576]
	movk w8,#0x7479,lsl #16
	add x11,x11,#0xc10
	str q0,[sp,#6560]
	stur w8,[x11,#90]
	mov w8,#0x6168
	adrp x9,.rodata.cst8+24
	movk w8,#0x206e,lsl #16
	str q0,[sp,#6528]
	ldr q1,[sp,#6560]
	str q0,[sp,#6544]
	ldr q0,[sp,#6576]
	ldr q2,[sp,#6528]
	stur w8,[x10,#78]
	adrp x8,.rodata..Lstatic.67
	add x8,x8,:lo12:.rodata..Lstatic.67
	ldr x8,[x8]
	str q0,[sp,#7232]
	ldr q0,[sp,#6544]
	str xzr,[sp,#6592]
	stur x8,[x10,#70]
	mov w8,#0x7365
	str q0,[sp,#7200]
	ldr q0,[sp,#6592]
	strh w8,[sp,#7278]
	ldrh w8,[sp,#6608]
	str q0,[sp,#7248]
	ldr d0,[x9,:lo12:.rodata.cst8+24]
	str q1,[sp,#7216]
	str q2,[sp,#7184]
	strh w8,[sp,#7264]
	mov w8,#0x46
	stur d0,[x11,#82]
	b 67f
58:
	str q0,[sp,#6560]
	adrp x8,.rodata.cst16+272
	add x8,x8,:lo12:.rodata.cst16+272
	str q0,[sp,#6576]
	ldr q2,[sp,#6560]
	ldr q1,[x8]
	str q0,[sp,#6528]
	add x9,sp,#0xe0
	mov w8,#0x50
	str q0,[sp,#6544]
	add x1,x9,#0x50
	mov w2,#0x10
	str q0,[sp,#6592]
	ldr q0,[sp,#6576]
	str q1,[sp,#6608]
	stp q2,q0,[sp,#256]
	ldr q2,[sp,#6592]
	ldr q0,[sp,#6528]
	str x8,[sp,#320]
	stp q2,q1,[sp,#288]
	ldr q1,[sp,#6544]
	stp q0,q1,[sp,#224]
	bl "tk_session_c::storage::TextStorage::write"
	mov w0,#0x40
	b 68f
59:
	cmp w8,#0x5
	b.gt 61f
	cmp w8,#0x4
	b.ne 63f
	add x0,sp,#0x1,lsl #12
	adrp x2,.rodata..Lstatic.56
	add x2,x2,:lo12:.rodata..Lstatic.56
	add x0,x0,#0xc10
	mov x1,x19
	mov w3,#0x18
	bl "tk_session_c::fault_text::of_record"
	ldr x8,[sp,#7280]
	ldr q0,[sp,#7200]
	mov w9,#0x60
	ldr q1,[sp,#7184]
	ldr q2,[sp,#7264]
	add x10,sp,#0xe0
	ldr q3,[sp,#7248]
	ldr q4,[sp,#7232]
	sub x2,x9,x8
	ldr q5,[sp,#7216]
	ldr x0,[sp,#216]
	add x1,x10,x8
	str q0,[sp,#6544]
	str q1,[sp,#6528]
	str q2,[sp,#6608]
	str q3,[sp,#6592]
	str q4,[sp,#6576]
	str q5,[sp,#6560]
	stp q1,q0,[sp,#224]
	stp q5,q4,[sp,#256]
	stp q3,q2,[sp,#288]
	str x8,[sp,#320]
	bl "tk_session_c::storage::TextStorage::write"
	mov w0,#0x44
	b 68f
60:
	cmp w8,#0x2
	b.ne 64f
	add x0,sp,#0x1,lsl #12
	adrp x2,.rodata..Lstatic.54
	add x2,x2,:lo12:.rodata..Lstatic.54
	add x0,x0,#0xc10
	mov x1,x19
	mov w3,#0x15
	bl "tk_session_c::fault_text::of_record"
	ldr x8,[sp,#7280]
	b 67f
61:
	cmp w8,#0x6
	b.ne 65f
	and x8,x27,#0xff
	adrp x9,.rodata..Lswitch.table.tkc_session_record.114
	add x9,x9,:lo12:.rodata..Lswitch.table.tkc_session_record.114
	ldr x3,[x9,x8,lsl #3]
	adrp x9,.rodata..Lswitch.table.tkc_session_record.115.rel
	add x9,x9,:lo12:.rodata..Lswitch.table.tkc_session_record.115.rel
	ldrsw x8,[x9,x8,lsl #2]
	add x0,sp,#0x1,lsl #12
	mov x1,x19
	add x0,x0,#0xc10
	add x2,x9,x8
	bl "tk_session_c::fault_text::of_record"
	ldr x8,[sp,#7280]
	ldr q0,[sp,#7200]
	mov w9,#0x60
	ldr q1,[sp,#7184]
	ldr q2,[sp,#7264]
	add x10,sp,#0xe0
	ldr q3,[sp,#7248]
	ldr q4,[sp,#7232]
	sub x2,x9,x8
	ldr q5,[sp,#7216]
	ldr x0,[sp,#216]
	add x1,x10,x8
	str q0,[sp,#6544]
	str q1,[sp,#6528]
	str q2,[sp,#6608]
	str q3,[sp,#6592]
	str q4,[sp,#6576]
	str q5,[sp,#6560]
	stp q1,q0,[sp,#224]
	stp q5,q4,[sp,#256]
	stp q3,q2,[sp,#288]
	str x8,[sp,#320]
	bl "tk_session_c::storage::TextStorage::write"
	and w8,w27,#0xff
	add w0,w8,#0x20
	b 68f
62:
	mov w8,#0x64
	str q0,[sp,#6560]
	strb w8,[x10,#95]
	adrp x8,.rodata..Lstatic.58
	add x8,x8,:lo12:.rodata..Lstatic.58
	str q0,[sp,#6576]
	ldr x8,[x8]
	str q0,[sp,#6592]
	ldr q1,[sp,#6576]
	str q0,[sp,#6528]
	ldr q2,[sp,#6592]
	str q0,[sp,#6544]
	ldr q0,[sp,#6560]
	str xzr,[sp,#6608]
	stur x8,[x10,#87]
	mov w8,#0x57
	b 66f
63:
	add x0,sp,#0x1,lsl #12
	adrp x2,.rodata..Lstatic.57
	add x2,x2,:lo12:.rodata..Lstatic.57
	add x0,x0,#0xc10
	mov x1,x19
	mov w3,#0x17
	bl "tk_session_c::fault_text::of_record"
	ldr x8,[sp,#7280]
	ldr q0,[sp,#7200]
	mov w9,#0x60
	ldr q1,[sp,#7184]
	ldr q2,[sp,#7264]
	add x10,sp,#0xe0
	ldr q3,[sp,#7248]
	ldr q4,[sp,#7232]
	sub x2,x9,x8
	ldr q5,[sp,#7216]
	ldr x0,[sp,#216]
	add x1,x10,x8
	str q0,[sp,#6544]
	str q1,[sp,#6528]
	str q2,[sp,#6608]
	str q3,[sp,#6592]
	str q4,[sp,#6576]
	str q5,[sp,#6560]
	stp q1,q0,[sp,#224]
	stp q5,q4,[sp,#256]
	stp q3,q2,[sp,#288]
	str x8,[sp,#320]
	bl "tk_session_c::storage::TextStorage::write"
	mov w0,#0x45
	b 68f
64:
	add x0,sp,#0x1,lsl #12
	adrp x2,.rodata..Lstatic.55
	add x2,x2,:lo12:.rodata..Lstatic.55
	add x0,x0,#0xc10
	mov x1,x19
	mov w3,#0xe
	bl "tk_session_c::fault_text::of_record"
	ldr x8,[sp,#7280]
	ldr q0,[sp,#7200]
	mov w9,#0x60
	ldr q1,[sp,#7184]
	ldr q2,[sp,#7264]
	add x10,sp,#0xe0
	ldr q3,[sp,#7248]
	ldr q4,[sp,#7232]
	sub x2,x9,x8
	ldr q5,[sp,#7216]
	ldr x0,[sp,#216]
	add x1,x10,x8
	str q0,[sp,#6544]
	str q1,[sp,#6528]
	str q2,[sp,#6608]
	str q3,[sp,#6592]
	str q4,[sp,#6576]
	str q5,[sp,#6560]
	stp q1,q0,[sp,#224]
	stp q5,q4,[sp,#256]
	stp q3,q2,[sp,#288]
	str x8,[sp,#320]
	bl "tk_session_c::storage::TextStorage::write"
	mov w0,#0x43
	b 68f
65:
	adrp x8,.rodata..Lstatic.59
	add x8,x8,:lo12:.rodata..Lstatic.59
	str q0,[sp,#6560]
	str q0,[sp,#6576]
	ldr x9,[x8]
	ldur x8,[x8,#5]
	str q0,[sp,#6592]
	ldr q1,[sp,#6576]
	str q0,[sp,#6528]
	ldr q2,[sp,#6592]
	str q0,[sp,#6544]
	ldr q0,[sp,#6560]
	str xzr,[sp,#6608]
	stur x9,[x10,#83]
	str x8,[sp,#6616]
	mov w8,#0x53
66:
	str q0,[sp,#7216]
	ldr q0,[sp,#6528]
	str q1,[sp,#7232]
	ldr q1,[sp,#6608]
	str q2,[sp,#7248]
	ldr q2,[sp,#6544]
	str q0,[sp,#7184]
	str q2,[sp,#7200]
	str q1,[sp,#7264]
67:
	ldr q0,[sp,#7216]
	ldr q1,[sp,#7232]
	mov w9,#0x60
	ldr q2,[sp,#7248]
	ldr q3,[sp,#7264]
	add x10,sp,#0xe0
	ldr q4,[sp,#7184]
	ldr q5,[sp,#7200]
	sub x2,x9,x8
	ldr x0,[sp,#216]
	add x1,x10,x8
	str q0,[sp,#6560]
	str q1,[sp,#6576]
	str q2,[sp,#6592]
	str q3,[sp,#6608]
	str q4,[sp,#6528]
	str q5,[sp,#6544]
	stp q4,q5,[sp,#224]
	stp q0,q1,[sp,#256]
	stp q2,q3,[sp,#288]
	str x8,[sp,#320]
	bl "tk_session_c::storage::TextStorage::write"
	mov w0,#0x42
68:
	add sp,sp,#0x1,lsl #12
	add sp,sp,#0xd60
	ldp x20,x19,[sp,#80]
	ldp x22,x21,[sp,#64]
	ldp x24,x23,[sp,#48]
	ldp x26,x25,[sp,#32]
	ldp x28,x27,[sp,#16]
	ldp x29,x30,[sp],#96
	ret
69:
	cmp w23,#0x2
	b.ne 74f
	movi v0.16b,#0xa
	mov w8,#0x6e69
	add x10,sp,#0x1,lsl #12
	movk w8,#0x6176,lsl #16
	add x10,x10,#0xc10
	movi v3.2d,#0x0
	add x0,sp,#0x1,lsl #12
	add x1,sp,#0x1,lsl #12
	mov w2,#0x120
	add x0,x0,#0x10
	add x1,x1,#0xc10
	str q0,[sp,#7264]
	str q0,[sp,#7232]
	str w8,[sp,#7272]
	mov w8,#0x6c61
	str q0,[sp,#7248]
	movk w8,#0x6469,lsl #16
	str q0,[sp,#7216]
	str q0,[sp,#7184]
	ldr q1,[sp,#7216]
	str q0,[sp,#7200]
	ldr q0,[sp,#7232]
	ldr q2,[sp,#7184]
	stur w8,[x10,#91]
	mov w8,#0x6f6e
	sturh w8,[x10,#85]
	mov w8,#0x2c
	str q0,[sp,#4064]
	ldr q0,[sp,#7200]
	strb w8,[x10,#87]
	add x8,sp,#0x1,lsl #12
	str q0,[sp,#4032]
	ldr q0,[sp,#7264]
	add x8,x8,#0xc10
	add x8,x8,#0xb
	str q1,[sp,#4048]
	ldr q1,[sp,#7248]
	str q0,[sp,#4096]
	str q3,[x8,#256]
	ldur x8,[x26,#85]
	ldr w9,[sp,#4108]
	str q2,[sp,#4016]
	str q1,[sp,#4080]
	str xzr,[sp,#7464]
	stur q3,[x10,#251]
	stur q3,[x10,#235]
	stur q3,[x10,#219]
	stur q3,[x10,#203]
	stur q3,[x10,#187]
	stur q3,[x10,#171]
	stur q3,[x10,#155]
	stur q3,[x10,#139]
	stur q3,[x10,#123]
	stur q3,[x10,#107]
	stur q3,[x10,#91]
	stur q3,[x10,#75]
	stur q3,[x10,#59]
	stur q3,[x10,#43]
	stur q3,[x10,#27]
	stur q3,[x10,#11]
	str x8,[sp,#7184]
	stur w9,[x10,#7]
	bl memcpy
	add x0,sp,#0x1,lsl #12
	add x1,sp,#0x1,lsl #12
	mov w2,#0x120
	add x0,x0,#0x2c0
	add x1,x1,#0x10
	bl memcpy
	mov x28,xzr
	mov w20,wzr
	mov w8,#0xb
	str x8,[sp,#5088]
	b 162f
70:
	cmp w23,#0x2
	b.ne 75f
	ldr x8,[sp,#64]
	ldr x23,[x8,#96]
	mov x8,#0x7fffffffffffffff
	cmp x23,x8
	b.cc 80f
	mov w8,#0x1
	strb w8,[x24,#304]
	b 83f
71:
	mov w13,#0x1
	mov w8,wzr
	mov x9,xzr
	mov w10,wzr
	mov x24,xzr
	mov w12,wzr
	mov w14,wzr
	mov x15,xzr
	mov x16,xzr
	mov w17,wzr
	mov w18,wzr
	mov w1,wzr
	mov x2,xzr
	mov x3,xzr
	mov x5,xzr
	mov x7,xzr
	mov x19,xzr
	mov x21,xzr
	mov x22,xzr
	mov x23,xzr
	mov x25,xzr
	mov x4,xzr
	mov w6,#0x2
	mov w11,w13
	add x20,sp,#0x4a8
	add x30,sp,#0x7e0
	b 16b
72:
	ldr x19,[sp,#64]
	mov x2,x16
	mov x20,x5
	mov x22,x16
	mov w23,w4
	add x0,x19,#0x78
	mov x1,x19
	bl .Ltk_ntp.course.Course.advance
	ldr x8,[x19,#96]
	ldp q0,q1,[x19,#16]
	ldr q2,[x19]
	add x0,sp,#0x1,lsl #12
	add x1,sp,#0x1,lsl #12
	str x8,[sp,#4400]
	add x8,sp,#0x1,lsl #12
	add x0,x0,#0x2c0
	add x8,x8,#0x130
	add x1,x1,#0x130
	mov x2,x22
	stur q0,[x8,#24]
	mov w3,w21
	mov w4,w23
	stur q1,[x8,#40]
	ldp q0,q1,[x19,#48]
	mov x5,x20
	stur q2,[x8,#8]
	stur q0,[x8,#56]
	stur q1,[x8,#72]
	bl "tk_session::plain::look"
	add x8,sp,#0x1,lsl #12
	ldr x28,[sp,#5104]
	add x8,x8,#0x2c0
	ldrb w20,[x8,#296]
	b 163f
73:
	ldr x9,[sp,#64]
	add x0,sp,#0x1,lsl #12
	add x1,sp,#0x1,lsl #12
	add x0,x0,#0xc10
	add x1,x1,#0xb30
	mov x2,x16
	ldr x8,[x9,#96]
	ldp q0,q1,[x9,#16]
	ldr q2,[x9]
	mov w3,w21
	str x8,[sp,#6960]
	add x8,sp,#0x1,lsl #12
	add x8,x8,#0xac0
	stur q0,[x8,#136]
	stur q1,[x8,#152]
	ldp q0,q1,[x9,#48]
	stur q2,[x8,#120]
	stur q0,[x8,#168]
	stur q1,[x8,#184]
	bl "tk_session::plain::look"
	add x8,sp,#0x1,lsl #12
	ldr x28,[sp,#7488]
	add x8,x8,#0xc10
	ldrb w20,[x8,#296]
	b 140f
74:
	ldp q0,q1,[x22,#48]
	add x11,sp,#0x1,lsl #12
	add x11,x11,#0x400
	lsr x9,x15,#48
	ldr x20,[sp,#64]
	lsr x10,x15,#32
	strb w4,[x11,#8]
	add x0,sp,#0x1,lsl #12
	stur q0,[x11,#24]
	ldur q0,[x22,#80]
	add x4,sp,#0x1,lsl #12
	strb w9,[x11,#7]
	lsr w9,w18,#16
	add x0,x0,#0x7f0
	stur q0,[x11,#56]
	movi v0.2d,#0x0
	add x1,x20,#0x78
	str w8,[sp,#5132]
	ldur x8,[x22,#96]
	add x4,x4,#0x400
	mov x2,x20
	mov x3,x16
	strb w21,[x28,#320]
	stur w15,[x11,#1]
	sturh w10,[x11,#5]
	sturh w18,[x11,#9]
	stur q1,[x11,#40]
	strb w9,[x11,#11]
	str x5,[sp,#5136]
	str x8,[sp,#5192]
	str q0,[sp,#6528]
	str q0,[sp,#6544]
	str q0,[sp,#6560]
	str q0,[sp,#6576]
	str q0,[sp,#6592]
	str q0,[sp,#6608]
	str q0,[sp,#6624]
	str q0,[sp,#6640]
	str q0,[sp,#6656]
	str q0,[sp,#6672]
	str q0,[sp,#6688]
	str q0,[sp,#6704]
	str q0,[sp,#6720]
	str q0,[sp,#6736]
	str q0,[sp,#6752]
	str q0,[sp,#6768]
	str q0,[sp,#6784]
	str q0,[sp,#6800]
	str q0,[sp,#6816]
	str xzr,[sp,#6832]
	str xzr,[sp,#6512]
	str q0,[sp,#6496]
	str q0,[sp,#6480]
	str q0,[sp,#6464]
	str q0,[sp,#6448]
	str q0,[sp,#6432]
	str q0,[sp,#6416]
	str q0,[sp,#6400]
	str q0,[sp,#6384]
	str q0,[sp,#6368]
	str q0,[sp,#6352]
	str q0,[sp,#6336]
	str q0,[sp,#6320]
	str q0,[sp,#6304]
	str q0,[sp,#6288]
	str q0,[sp,#6272]
	str q0,[sp,#6256]
	str q0,[sp,#6240]
	str q0,[sp,#6224]
	str q0,[sp,#6208]
	str q0,[sp,#6192]
	str q0,[sp,#6176]
	str q0,[sp,#6160]
	str q0,[sp,#6144]
	str q0,[sp,#6128]
	str q0,[sp,#5504]
	str q0,[sp,#5520]
	str q0,[sp,#5536]
	str q0,[sp,#5552]
	str q0,[sp,#5568]
	str q0,[sp,#5584]
	str q0,[sp,#5600]
	str q0,[sp,#5616]
	str q0,[sp,#5632]
	str q0,[sp,#5648]
	str q0,[sp,#5664]
	str q0,[sp,#5680]
	str q0,[sp,#5696]
	str q0,[sp,#5712]
	str q0,[sp,#5728]
	str q0,[sp,#5744]
	str q0,[sp,#5760]
	str q0,[sp,#5776]
	str q0,[sp,#5792]
	str xzr,[sp,#5808]
	str xzr,[sp,#5488]
	str q0,[sp,#5472]
	str q0,[sp,#5456]
	str q0,[sp,#5440]
	str q0,[sp,#5424]
	str q0,[sp,#5408]
	str q0,[sp,#5392]
	str q0,[sp,#5376]
	str q0,[sp,#5360]
	str q0,[sp,#5344]
	str q0,[sp,#5328]
	str q0,[sp,#5312]
	str q0,[sp,#5296]
	str q0,[sp,#5280]
	str q0,[sp,#5264]
	str q0,[sp,#5248]
	str q0,[sp,#5232]
	str q0,[sp,#5216]
	str q0,[sp,#5200]
	bl .Ltk_ntp.course.Course.adjtimex
	add x9,sp,#0x1,lsl #12
	add x9,x9,#0x6c0
	ldrb w8,[x9,#304]
	cbz w8,87f
	ldrb w8,[x9,#305]
	adrp x9,.rodata..Lswitch.table.tkc_session_record.112
	add x9,x9,:lo12:.rodata..Lswitch.table.tkc_session_record.112
	movi v0.16b,#0xa
	add x19,sp,#0x1,lsl #12
	adrp x10,.data.rel.ro..Lswitch.table.tkc_session_record.113
	add x10,x10,:lo12:.data.rel.ro..Lswitch.table.tkc_session_record.113
	ldr x21,[x9,x8,lsl #3]
	add x19,x19,#0xc10
	ldr x1,[x10,x8,lsl #3]
	sub x8,x19,x21
	mov x2,x21
	add x0,x8,#0x5f
	str q0,[sp,#7264]
	str q0,[sp,#7248]
	str q0,[sp,#7232]
	str q0,[sp,#7216]
	str q0,[sp,#7200]
	str q0,[sp,#7184]
	bl memcpy
	mov w8,#0x5c
	mov w9,#0x6f6e
	add x0,sp,#0x1,lsl #12
	sub x8,x8,x21
	add x0,x0,#0xc10
	add x10,x19,x8
	str x8,[sp,#7168]
	strh w9,[x10]
	mov w9,#0x2c
	strb w9,[x10,#2]
	mov w9,#0x60
	add x10,sp,#0x1,lsl #12
	ldr q0,[sp,#7248]
	ldr q1,[sp,#7264]
	ldr q2,[sp,#7200]
	add x10,x10,#0xba0
	sub x21,x9,x8
	str q0,[sp,#7136]
	ldr q0,[sp,#7184]
	add x1,x10,x8
	str q1,[sp,#7152]
	ldr q1,[sp,#7232]
	mov x2,x21
	str q0,[sp,#7072]
	ldr q0,[sp,#7216]
	str q2,[sp,#7088]
	str q0,[sp,#7104]
	movi v0.2d,#0x0
	str q1,[sp,#7120]
	str q0,[sp,#7456]
	str q0,[sp,#7440]
	str q0,[sp,#7424]
	str q0,[sp,#7408]
	str q0,[sp,#7392]
	str q0,[sp,#7376]
	str q0,[sp,#7360]
	str q0,[sp,#7344]
	str q0,[sp,#7328]
	str q0,[sp,#7312]
	str q0,[sp,#7296]
	str q0,[sp,#7280]
	str q0,[sp,#7264]
	str q0,[sp,#7248]
	str q0,[sp,#7232]
	str q0,[sp,#7216]
	str q0,[sp,#7200]
	str q0,[sp,#7184]
	bl memcpy
	add x0,sp,#0x1,lsl #12
	add x1,sp,#0x1,lsl #12
	str x21,[sp,#7472]
	add x0,x0,#0x6c0
	add x1,x1,#0xc10
	b 111f
75:
	movi v0.16b,#0xa
	mov w8,#0x6e69
	movi v3.2d,#0x0
	movk w8,#0x6176,lsl #16
	add x0,sp,#0x1,lsl #12
	add x1,sp,#0x1,lsl #12
	add x0,x0,#0x850
	add x1,x1,#0x980
	mov w2,#0x120
	str q0,[sp,#6608]
	str q0,[sp,#6576]
	str w8,[sp,#6616]
	mov w8,#0x6c61
	str q0,[sp,#6592]
	movk w8,#0x6469,lsl #16
	str q0,[sp,#6560]
	str q0,[sp,#6528]
	ldr q1,[sp,#6560]
	str q0,[sp,#6544]
	ldr q0,[sp,#6576]
	ldr q2,[sp,#6528]
	stur w8,[x10,#91]
	mov w8,#0x6f6e
	sturh w8,[x10,#85]
	mov w8,#0x2c
	str q0,[sp,#7120]
	ldr q0,[sp,#6544]
	strb w8,[x10,#87]
	add x8,sp,#0x1,lsl #12
	str q0,[sp,#7088]
	ldr q0,[sp,#6608]
	add x8,x8,#0x980
	add x8,x8,#0xb
	str q1,[sp,#7104]
	ldr q1,[sp,#6592]
	str q0,[sp,#7152]
	str q3,[x8,#256]
	ldur x8,[x27,#85]
	ldr w9,[sp,#7164]
	str q2,[sp,#7072]
	str q1,[sp,#7136]
	str xzr,[sp,#6808]
	stur q3,[x10,#251]
	stur q3,[x10,#235]
	stur q3,[x10,#219]
	stur q3,[x10,#203]
	stur q3,[x10,#187]
	stur q3,[x10,#171]
	stur q3,[x10,#155]
	stur q3,[x10,#139]
	stur q3,[x10,#123]
	stur q3,[x10,#107]
	stur q3,[x10,#91]
	stur q3,[x10,#75]
	stur q3,[x10,#59]
	stur q3,[x10,#43]
	stur q3,[x10,#27]
	stur q3,[x10,#11]
	str x8,[sp,#6528]
	stur w9,[x10,#7]
	bl memcpy
	add x0,sp,#0x1,lsl #12
	add x1,sp,#0x1,lsl #12
	mov w2,#0x120
	add x0,x0,#0xc10
	add x1,x1,#0x850
	bl memcpy
	mov x28,xzr
	mov w20,wzr
	mov w8,#0xb
	str x8,[sp,#7472]
	b 139f
76:
	add x0,sp,#0x1,lsl #12
	add x2,sp,#0x1,lsl #12
	add x8,sp,#0xc60
	add x0,x0,#0x130
	add x2,x2,#0xc10
	mov w1,#0x1
	mov w3,#0x10
	add x24,sp,#0x8f0
	str q0,[sp,#4496]
	str q0,[sp,#4512]
	str q0,[sp,#4528]
	str q0,[sp,#4544]
	str q0,[sp,#4560]
	str q0,[sp,#4576]
	str q0,[sp,#4592]
	str q0,[sp,#3168]
	str q0,[sp,#3184]
	str q0,[sp,#3200]
	str q0,[sp,#3216]
	stur q0,[x8,#63]
	strh wzr,[sp,#1596]
	strb wzr,[sp,#1598]
	str q0,[sp,#4400]
	str q0,[sp,#4416]
	str q0,[sp,#5120]
	str q0,[sp,#5136]
	str q0,[sp,#1984]
	str q0,[sp,#2000]
	str q0,[sp,#1968]
	str q0,[sp,#1952]
	str q0,[sp,#1936]
	str q0,[sp,#1920]
	str q0,[sp,#1904]
	str q0,[sp,#1888]
	str q0,[sp,#1872]
	str q0,[sp,#1856]
	str q0,[sp,#1840]
	str q0,[sp,#1824]
	str q0,[sp,#1808]
	str q0,[sp,#1792]
	str q0,[sp,#1776]
	str q0,[sp,#1760]
	str q0,[sp,#1744]
	str q0,[sp,#1728]
	str q0,[sp,#1712]
	str q0,[sp,#1696]
	str q0,[sp,#1680]
	str q0,[sp,#1664]
	str q0,[sp,#1648]
	str q0,[sp,#1632]
	str q0,[sp,#1616]
	str q0,[sp,#1600]
	bl .Ltk_script.fields.number32_at
	add x9,sp,#0xfb0
	ldrb w8,[x9,#384]
	cbz w8,93f
	ldrb w8,[x9,#408]
	ldr x13,[sp,#4416]
	add x20,sp,#0xb50
	ldrb w27,[x9,#392]
	b 94f
77:
	mov w13,#0x1
	add x24,sp,#0x8f0
	mov w8,wzr
	mov x9,xzr
	mov w10,wzr
	mov w28,wzr
	mov w30,wzr
	mov w12,wzr
	mov w14,wzr
	mov x15,xzr
	mov x16,xzr
	mov w17,wzr
	mov w18,wzr
	mov w0,wzr
	mov w1,wzr
	mov x2,xzr
	mov x3,xzr
	mov x5,xzr
	mov x7,xzr
	mov x19,xzr
	mov x21,xzr
	mov x22,xzr
	mov x23,xzr
	mov x25,xzr
	mov x4,xzr
	mov w6,#0x4
	mov w11,w13
78:
	add x20,sp,#0xb50
	b 96f
79:
	ldp x10,x11,[x11,#104]
	sub x9,x9,x10
	cmp x11,x9
	b.ls 88f
	add x10,sp,#0x1,lsl #12
	lsr w9,w18,#16
	str x21,[sp,#6528]
	add x10,x10,#0x980
	str w8,[sp,#6540]
	strb w4,[x10,#8]
	sturh w18,[x10,#9]
	strb w9,[x10,#11]
	str x5,[sp,#6544]
	cbz w21,106f
	add x2,sp,#0x1,lsl #12
	ldr x0,[sp,#64]
	mov x1,x16
	add x2,x2,#0x980
	bl "tk_clock::clock::Clock::apply_any"
	b 134f
80:
	orr x27,x21,x15,lsl #8
	mov x8,#0xffffffffffffffff
	add x28,sp,#0x1,lsl #12
	add x6,sp,#0x1,lsl #12
	add x28,x28,#0x980
	neg w9,w27
	add x6,x6,#0x6c0
	lsr x9,x8,x9
	cmp x9,x5
	b.cs 89f
81:
	mov w8,#0x3
82:
	mov w9,#0x1
	strb w8,[x6,#305]
	strb w9,[x6,#304]
	str xzr,[sp,#6136]
83:
	add x0,sp,#0x1,lsl #12
	add x2,sp,#0x1,lsl #12
	ldr x1,[sp,#64]
	add x0,x0,#0x190
	add x2,x2,#0x7f0
	bl "tk_session::plain::line_of"
	ldr q0,[sp,#4560]
	ldr q1,[sp,#4576]
	mov w9,#0x60
	ldr q2,[sp,#4512]
	ldr x8,[sp,#4592]
	add x10,sp,#0x1,lsl #12
	str q0,[sp,#4176]
	ldr q0,[sp,#4496]
	add x10,x10,#0x10
	str q1,[sp,#4192]
	ldr q1,[sp,#4544]
	sub x21,x9,x8
	str q0,[sp,#4112]
	movi v0.2d,#0x0
	add x0,sp,#0x1,lsl #12
	str q2,[sp,#4128]
	ldr q2,[sp,#4528]
	add x0,x0,#0x980
	add x1,x10,x8
	mov x2,x21
	str q1,[sp,#4160]
	str q2,[sp,#4144]
	str x8,[sp,#4208]
	str q0,[sp,#6800]
	str q0,[sp,#6784]
	str q0,[sp,#6768]
	str q0,[sp,#6752]
	str q0,[sp,#6736]
	str q0,[sp,#6720]
	str q0,[sp,#6704]
	str q0,[sp,#6688]
	str q0,[sp,#6672]
	str q0,[sp,#6656]
	str q0,[sp,#6640]
	str q0,[sp,#6624]
	str q0,[sp,#6608]
	str q0,[sp,#6592]
	str q0,[sp,#6576]
	str q0,[sp,#6560]
	str q0,[sp,#6544]
	str q0,[sp,#6528]
	bl memcpy
	add x0,sp,#0x1,lsl #12
	add x1,sp,#0x1,lsl #12
	mov w2,#0x128
	add x0,x0,#0x2c0
	add x1,x1,#0x980
	str x21,[sp,#6816]
	bl memcpy
	add x0,sp,#0x1,lsl #12
	add x1,sp,#0x1,lsl #12
	add x0,x0,#0xc10
	add x1,x1,#0x2c0
	b 138f
84:
	ldr x1,[sp,#64]
	ldr x10,[x1,#16]
	ldr x8,[x1,#232]
	cmp x8,x10
	b.ne 85f
	ldr w8,[x1]
	mov x11,#0xffffffffffffffff
	sub x10,x16,x10
	neg w9,w8
	lsr x9,x11,x9
	and x5,x9,x10
	lsr x10,x5,#27
	cbnz x10,85f
	ldrb w10,[x1,#76]
	tbz w10,#0,114f
85:
	add x0,x1,#0x78
	mov x2,x16
	mov x20,x16
	bl .Ltk_ntp.course.Course.apply_late
	tst w0,#0xff
	b.ne 10b
86:
	ldr x11,[sp,#64]
	add x10,sp,#0x1,lsl #12
	mov x9,#0xffffffffffffffff
	add x10,x10,#0xc10
	ldp q0,q1,[x11]
	ldr x19,[x11,#96]
	str x19,[sp,#7184]
	stur q0,[x10,#8]
	ldr w8,[sp,#7192]
	stur q1,[x10,#24]
	ldp q0,q1,[x11,#32]
	neg w8,w8
	lsr x8,x9,x8
	stur q0,[x10,#40]
	ldr q0,[x11,#64]
	cmp x8,x20
	stur q1,[x10,#56]
	stur q0,[x10,#72]
	b.cs 98f
	adrp x1,.rodata..Lstatic.47
	add x1,x1,:lo12:.rodata..Lstatic.47
	mov w21,#0x7
	b 147f
87:
	ldr w8,[sp,#6140]
	movi v0.2d,#0x0
	ldr x1,[sp,#6160]
	add x0,sp,#0x1,lsl #12
	ldrb w21,[x9,#312]
	ldr x28,[sp,#6152]
	str x8,[sp,#184]
	ldr x8,[sp,#6176]
	add x0,x0,#0x6c0
	ldr x27,[sp,#6168]
	ldr w22,[sp,#6184]
	ldr x26,[sp,#6200]
	str x8,[sp,#192]
	ldr x8,[sp,#6192]
	ldr x19,[sp,#6216]
	ldr x23,[x20,#96]
	add x20,sp,#0x1,lsl #12
	str q0,[sp,#7184]
	add x20,x20,#0x6c0
	str x8,[sp,#176]
	ldr x8,[sp,#6208]
	str q0,[sp,#7200]
	str x8,[sp,#168]
	mov w8,#0x60
	str q0,[sp,#7216]
	str q0,[sp,#7232]
	str q0,[sp,#7248]
	str q0,[sp,#7264]
	str q0,[sp,#7280]
	str q0,[sp,#7296]
	str q0,[sp,#7312]
	str q0,[sp,#7328]
	str q0,[sp,#7344]
	str q0,[sp,#7360]
	str q0,[sp,#7376]
	str q0,[sp,#7392]
	str q0,[sp,#7408]
	str q0,[sp,#7424]
	str q0,[sp,#7440]
	str q0,[sp,#7456]
	str q0,[sp,#7472]
	str xzr,[sp,#7488]
	str xzr,[sp,#7168]
	str q0,[sp,#7152]
	str q0,[sp,#7136]
	str q0,[sp,#7120]
	str q0,[sp,#7104]
	str q0,[sp,#7088]
	str q0,[sp,#7072]
	str q0,[sp,#6960]
	str q0,[sp,#6976]
	str q0,[sp,#6992]
	str q0,[sp,#7008]
	str q0,[sp,#7024]
	str q0,[sp,#7040]
	str xzr,[sp,#7056]
	str q0,[sp,#6848]
	str q0,[sp,#6864]
	str q0,[sp,#6880]
	str q0,[sp,#6896]
	str q0,[sp,#6912]
	str q0,[sp,#6928]
	str xzr,[sp,#6944]
	str q0,[sp,#5904]
	str q0,[sp,#5888]
	str q0,[sp,#5872]
	str q0,[sp,#5856]
	str q0,[sp,#5840]
	str q0,[sp,#5824]
	str x8,[sp,#5920]
	bl "tk_script::line::Line::put_signed"
	ldr x8,[sp,#5920]
	add x0,sp,#0x1,lsl #12
	mov x1,x28
	add x0,x0,#0x6c0
	mov w24,#0x2c
	sub x8,x8,#0x1
	strb w24,[x20,x8]
	str x8,[sp,#5920]
	bl "tk_script::line::Line::put_signed"
	cmp x19,#0x0
	mov w9,#0x1759
	mov w11,#0x2710
	cneg x8,x19,mi
	movk w9,#0xd1b7,lsl #16
	adrp x28,.rodata..Lstatic.23
	add x28,x28,:lo12:.rodata..Lstatic.23
	mov w10,w8
	ldr x16,[sp,#5920]
	umull x9,w10,w9
	mov w10,#0x8db9
	movk w10,#0x6,lsl #16
	add x18,x20,x16
	sturb w24,[x18,#-1]
	lsr x9,x9,#45
	umull x10,w9,w10
	msub w12,w9,w11,w8
	lsr x10,x10,#32
	msub w9,w10,w11,w9
	ubfx w11,w12,#2,#14
	mov w10,#0x147b
	mul w13,w9,w10
	mul w10,w11,w10
	mov w11,#0x64
	lsr w13,w13,#19
	lsr w10,w10,#17
	msub w9,w13,w11,w9
	msub w11,w10,w11,w12
	add x12,x28,w10,uxtw #1
	add x9,x28,w9,uxth #1
	ldrb w10,[x12]
	ldrb w12,[x12,#1]
	add x17,x28,w11,uxth #1
	ldrb w15,[x9]
	ldrb w14,[x9,#1]
	ldrb w11,[x17]
	ldrb w9,[x17,#1]
	tbnz w22,#13,99f
	sub x13,x16,#0x7
	add x8,x20,x13
	strb w15,[x8]
	strb w14,[x8,#1]
	strb w10,[x8,#2]
	strb w12,[x8,#3]
	strb w11,[x8,#4]
	strb w9,[x8,#5]
	b 100f
88:
	mov w1,wzr
	b 135f
89:
	ldr x10,[sp,#64]
	ldr w9,[x10]
	ldrb w10,[x10,#76]
	neg w9,w9
	lsr x8,x8,x9
	tbz w10,#0,105f
	cmp x8,x16
	b.cc 81b
	ldr x14,[sp,#64]
	ldr w21,[x14,#8]
	ldp x12,x8,[x14,#24]
	ldp x26,x13,[x14,#40]
	ldp x10,x9,[x14,#56]
	ldp w11,w14,[x14,#72]
90:
	and x15,x15,#0xffffffffffffff
	mov w0,#0xca00
	lsr x16,x15,#24
	mov w15,#0xb9ac
	movk w0,#0x3b9a,lsl #16
	movk w15,#0xd,lsl #16
	umull x17,w16,w15
	orr w15,w4,w18,lsl #8
	mov x18,#0xf6c7
	movk x18,#0xd05a,lsl #16
	movk x18,#0x637b,lsl #32
	lsl x0,x0,x15
	sub w1,w15,w21
	movk x18,#0x8,lsl #48
	subs w2,w21,w15
	lsl x3,x10,x1
	umulh x17,x17,x18
	lsr x10,x10,x2
	lsl x1,x26,x1
	lsr x2,x26,x2
	mul x18,x13,x0
	csel x10,x10,x3,hi
	umulh x4,x13,x0
	lsr x3,x17,#7
	csel x17,x2,x1,hi
	adds x18,x18,x10
	umulh x1,x18,x3
	cinc x2,x4,cs
	mul x18,x18,x3
	madd x1,x2,x3,x1
	mul x2,x8,x0
	umulh x0,x8,x0
	adds x2,x2,x17
	umulh x3,x2,x16
	cinc x0,x0,cs
	mul x2,x2,x16
	madd x0,x0,x16,x3
	cmp x2,x18
	sbcs xzr,x0,x1
	b.cs 120f
	mov w8,#0x5
	b 82b
91:
	add x9,sp,#0xd70
	mov w6,#0x2
	ldur q0,[x9,#41]
	ldur q2,[x9,#73]
	ldur q1,[x9,#57]
	ldur q3,[x9,#25]
	str q0,[sp,#4512]
	ldur q0,[x9,#88]
	lsr x9,x13,#8
	str q2,[sp,#4544]
	stur q0,[x10,#159]
	mov w10,w8
	mov w8,w13
	mov x13,x12
	str q1,[sp,#4528]
	str q3,[sp,#4496]
92:
	add x20,sp,#0x1,lsl #12
	ldr q0,[sp,#4528]
	ldr q1,[sp,#4544]
	add x20,x20,#0x130
	mov w12,wzr
	mov w14,wzr
	ldur q2,[x20,#159]
	str q0,[sp,#2928]
	ldr q0,[sp,#4512]
	str q1,[sp,#2944]
	ldr q1,[sp,#4496]
	add x20,sp,#0xb50
	mov x15,xzr
	mov x16,xzr
	mov w17,wzr
	mov w18,wzr
	mov w0,wzr
	mov w1,wzr
	mov x2,xzr
	mov x3,xzr
	mov x5,xzr
	mov x7,xzr
	mov x19,xzr
	mov x21,xzr
	mov x22,xzr
	mov x23,xzr
	mov x25,xzr
	mov x4,xzr
	stur q2,[x20,#63]
	lsr x30,x28,#32
	str q0,[sp,#2912]
	str q1,[sp,#2896]
	strh wzr,[sp,#1592]
	strb wzr,[sp,#1594]
	b 97f
93:
	add x0,sp,#0x1,lsl #12
	add x2,sp,#0x1,lsl #12
	ldr w23,[sp,#4404]
	add x0,x0,#0x400
	add x2,x2,#0xc10
	mov w1,#0x1
	mov w3,#0x11
	bl .Ltk_script.fields.number32_at
	add x9,sp,#0x1,lsl #12
	add x20,sp,#0xb50
	add x9,x9,#0x2c0
	ldrb w8,[x9,#320]
	cbz w8,113f
	ldrb w8,[x9,#344]
	ldr x13,[sp,#5136]
	ldrb w27,[x9,#328]
94:
	add x11,sp,#0x8f0
95:
	movi v0.2d,#0x0
	mov x9,xzr
	mov w10,wzr
	mov w28,wzr
	mov w30,wzr
	mov w12,wzr
	mov w14,wzr
	mov x15,xzr
	mov x16,xzr
	mov w17,wzr
	mov w18,wzr
	mov w0,wzr
	mov w1,wzr
	mov x2,xzr
	mov x3,xzr
	mov x5,xzr
	mov x7,xzr
	mov x19,xzr
	mov x21,xzr
	mov x22,xzr
	mov x23,xzr
	mov x25,xzr
	mov x4,xzr
	str q0,[sp,#2288]
	str q0,[sp,#2304]
	add x24,sp,#0x8f0
	mov x6,x27
	str q0,[sp,#2320]
	str q0,[sp,#2336]
	stur q0,[x11,#63]
	mov w11,#0x1
	strb wzr,[sp,#1590]
	strh wzr,[sp,#1588]
96:
	ldr q1,[sp,#2336]
	ldur q2,[x24,#63]
	ldr q0,[sp,#2320]
	ldrb w24,[sp,#1590]
	str q1,[sp,#2944]
	ldr q1,[sp,#2288]
	stur q2,[x20,#63]
	ldrh w20,[sp,#1588]
	str q0,[sp,#2928]
	ldr q0,[sp,#2304]
	strh w20,[sp,#1592]
	add x20,sp,#0xb50
	str q0,[sp,#2912]
	str q1,[sp,#2896]
	strb w24,[sp,#1594]
97:
	ldr q0,[sp,#2912]
	ldr q2,[sp,#2944]
	mov w24,w28
	ldrb w28,[sp,#1594]
	ldr q1,[sp,#2928]
	ldr q3,[sp,#2896]
	str q0,[sp,#2032]
	ldur q0,[x20,#63]
	add x20,sp,#0x7e0
	str q2,[sp,#2064]
	ldrh w27,[sp,#1592]
	stur q0,[x20,#63]
	mov w20,w30
	add x30,sp,#0x7e0
	orr x24,x24,x20,lsl #32
	strb w28,[sp,#1586]
	add x28,sp,#0x1,lsl #12
	add x28,x28,#0xac0
	str q1,[sp,#2048]
	str q3,[sp,#2016]
	strh w27,[sp,#1584]
	b 15b
98:
	mov x11,x20
	ldrb w9,[x10,#84]
	mov w20,#0xca00
	movk w20,#0x3b9a,lsl #16
	tbnz w9,#0,142f
	ldr x9,[sp,#7208]
	sub x9,x11,x9
	and x9,x9,x8
	sub x8,x8,x9
	cmp x8,x9
	b.cc 142f
	lsr x13,x9,#31
	ldr x8,[sp,#7224]
	ldr x11,[sp,#7232]
	ldr w12,[sp,#7204]
	ldr w10,[sp,#7200]
	cbnz x13,112f
	madd x9,x9,x12,x11
	lsr x9,x9,x10
	madd x0,x8,x20,x9
	b 143f
99:
	ldrh w17,[x28,w13,uxtw #1]
	sub x13,x16,#0xa
	mov w16,#0x3b89
	movk w16,#0x55e6,lsl #16
	add x18,x20,x13
	umull x8,w8,w16
	sturh w17,[x18,#1]
	strb w15,[x18,#3]
	strb w14,[x18,#4]
	lsr x8,x8,#57
	strb w10,[x18,#5]
	strb w12,[x18,#6]
	add w8,w8,#0x30
	strb w11,[x18,#7]
	strb w8,[x18]
	strb w9,[x18,#8]
100:
	add x20,sp,#0x1,lsl #12
	add x0,sp,#0x1,lsl #12
	ldr x1,[sp,#168]
	sub x8,x13,#0x1
	add x20,x20,#0x6c0
	add x0,x0,#0x6c0
	mov w9,#0x2e
	strb w9,[x20,x8]
	str x8,[sp,#5920]
	bl "tk_script::line::Line::put_signed"
	ldr x8,[sp,#5920]
	adrp x9,.rodata..Lswitch.table.tkc_session_record.110
	add x9,x9,:lo12:.rodata..Lswitch.table.tkc_session_record.110
	ldr x2,[x9,x21,lsl #3]
	adrp x9,.rodata..Lswitch.table.tkc_session_record.111.rel
	add x9,x9,:lo12:.rodata..Lswitch.table.tkc_session_record.111.rel
	sub x8,x8,#0x1
	ldrsw x10,[x9,x21,lsl #2]
	mov w21,#0x2c
	sub x19,x8,x2
	strb w21,[x20,x8]
	add x0,x20,x19
	add x1,x9,x10
	bl memcpy
	sub x8,x19,#0x4
	mov w9,#0x6461
	add x0,sp,#0x1,lsl #12
	movk w9,#0x2c6a,lsl #16
	str w9,[x20,x8]
	ldr x1,[sp,#176]
	ldr q0,[sp,#5888]
	ldr q1,[sp,#5904]
	ldr q2,[sp,#5840]
	str x8,[sp,#7168]
	mov w8,#0x60
	add x0,x0,#0x6c0
	str q0,[sp,#7136]
	ldr q0,[sp,#5824]
	str q1,[sp,#7152]
	ldr q1,[sp,#5872]
	str q0,[sp,#7072]
	movi v0.2d,#0x0
	str q2,[sp,#7088]
	ldr q2,[sp,#5856]
	str q1,[sp,#7120]
	str q2,[sp,#7104]
	str q0,[sp,#5904]
	str q0,[sp,#5888]
	str q0,[sp,#5872]
	str q0,[sp,#5856]
	str q0,[sp,#5840]
	str q0,[sp,#5824]
	str x8,[sp,#5920]
	bl "tk_script::line::Line::put_signed"
	ldr x8,[sp,#5920]
	add x0,sp,#0x1,lsl #12
	mov x1,x22
	add x0,x0,#0x6c0
	sub x8,x8,#0x1
	strb w21,[x20,x8]
	str x8,[sp,#5920]
	bl "tk_script::line::Line::put_signed"
	ldr x8,[sp,#5920]
	add x0,sp,#0x1,lsl #12
	ldr x1,[sp,#192]
	add x0,x0,#0x6c0
	sub x8,x8,#0x1
	strb w21,[x20,x8]
	str x8,[sp,#5920]
	bl "tk_script::line::Line::put_signed"
	ldr x8,[sp,#5920]
	add x0,sp,#0x1,lsl #12
	mov x1,x27
	add x0,x0,#0x6c0
	sub x8,x8,#0x1
	strb w21,[x20,x8]
	str x8,[sp,#5920]
	bl "tk_script::line::Line::put_signed"
	ldr x8,[sp,#5920]
	sub x8,x8,#0x1
	strb w21,[x20,x8]
	ldr q0,[sp,#5888]
	ldr q1,[sp,#5904]
	ldr q2,[sp,#5840]
	str x8,[sp,#7056]
	lsr x8,x23,#4
	str q0,[sp,#7024]
	ldr q0,[sp,#5824]
	str q1,[sp,#7040]
	ldr q1,[sp,#5872]
	cmp x8,#0x271
	str q0,[sp,#6960]
	movi v0.16b,#0xa
	str q2,[sp,#6976]
	ldr q2,[sp,#5856]
	str q1,[sp,#7008]
	str q2,[sp,#6992]
	str q0,[sp,#5904]
	str q0,[sp,#5888]
	str q0,[sp,#5872]
	str q0,[sp,#5856]
	str q0,[sp,#5840]
	str q0,[sp,#5824]
	b.cc 102f
	mov w9,#0xe0ff
	mov x8,xzr
	movk w9,#0x5f5,lsl #16
101:
	mov x11,#0x594b
	mov x10,x23
	mov w13,#0x147b
	movk x11,#0x3886,lsl #16
	cmp x23,x9
	movk x11,#0xc5d6,lsl #32
	movk x11,#0x346d,lsl #48
	umulh x11,x23,x11
	lsr x23,x11,#11
	mov w11,#0x2710
	msub w11,w23,w11,w10
	ubfx w12,w11,#2,#14
	mul w12,w12,w13
	mov w13,#0x64
	lsr w12,w12,#17
	msub w11,w12,w13,w11
	add x13,sp,#0x1,lsl #12
	ldrh w12,[x28,w12,uxtw #1]
	add x13,x13,#0x6c0
	add x13,x13,x8
	sub x8,x8,#0x4
	and x11,x11,#0xffff
	sturh w12,[x13,#91]
	ldrh w11,[x28,x11,lsl #1]
	sturh w11,[x13,#93]
	b.hi 101b
	add x8,x8,#0x5f
	b 103f
102:
	mov w8,#0x5f
103:
	cmp x23,#0x63
	b.hi 104f
	cmp x23,#0x9
	b.hi 107f
	add x9,sp,#0x1,lsl #12
	sub x8,x8,#0x1
	orr w10,w23,#0x30
	add x9,x9,#0x6c0
	strb w10,[x9,x8]
	b 110f
104:
	ubfx w9,w23,#2,#14
	mov w10,#0x147b
	cmp x23,#0x3e7
	mul w9,w9,w10
	mov w10,#0x64
	lsr w9,w9,#17
	msub w10,w9,w10,w23
	and x10,x10,#0xffff
	ldrh w11,[x28,x10,lsl #1]
	add x10,sp,#0x1,lsl #12
	add x10,x10,#0x6c0
	add x12,x10,x8
	sturh w11,[x12,#-2]
	b.hi 108f
	sub x8,x8,#0x3
	orr w9,w9,#0x30
	strb w9,[x10,x8]
	b 110f
105:
	cmp x8,x16
	b.cc 81b
	ldr x10,[sp,#64]
	ldr x9,[x10,#16]
	sub x9,x16,x9
	and x19,x9,x8
	sub x8,x8,x19
	cmp x8,x19
	b.cs 121f
	mov w8,#0x4
	b 193f
106:
	ldr x9,[sp,#64]
	ldrb w8,[x9,#76]
	tbz w8,#0,118f
	mov w1,#0x1
	mov w0,#0x1
	b 134f
107:
	ldrh w9,[x28,x23,lsl #1]
	add x10,sp,#0x1,lsl #12
	sub x8,x8,#0x2
	add x10,x10,#0x6c0
	b 109f
108:
	ldrh w9,[x28,w9,uxtw #1]
	sub x8,x8,#0x4
109:
	strh w9,[x10,x8]
110:
	add x19,sp,#0x1,lsl #12
	add x0,sp,#0x1,lsl #12
	ldr x1,[sp,#184]
	sub x8,x8,#0x1
	add x19,x19,#0x6c0
	add x0,x0,#0x6c0
	mov w20,#0x2c
	strb w20,[x19,x8]
	str x8,[sp,#5920]
	bl "tk_script::line::Line::put_signed"
	ldr x8,[sp,#5920]
	add x0,sp,#0x1,lsl #12
	mov x1,x26
	add x0,x0,#0x6c0
	sub x8,x8,#0x1
	strb w20,[x19,x8]
	str x8,[sp,#5920]
	bl "tk_script::line::Line::put_signed"
	ldr x8,[sp,#5920]
	add x10,sp,#0x1,lsl #12
	ldr q3,[sp,#7120]
	add x10,x10,#0xc10
	ldr x9,[sp,#7056]
	add x0,sp,#0x1,lsl #12
	sub x8,x8,#0x1
	add x1,sp,#0x1,lsl #12
	add x0,x0,#0x580
	strb w20,[x19,x8]
	add x1,x1,#0xc10
	mov w2,#0x138
	ldr q0,[sp,#5888]
	ldr q1,[sp,#5904]
	ldr q2,[sp,#5840]
	str x8,[sp,#6944]
	ldr x8,[sp,#7168]
	str q0,[sp,#6912]
	ldr q0,[sp,#5824]
	str q1,[sp,#6928]
	ldr q1,[sp,#5856]
	str q0,[sp,#6848]
	ldr q0,[sp,#5872]
	str q2,[sp,#6864]
	ldr q2,[sp,#7104]
	str q0,[sp,#6896]
	ldr q0,[sp,#7088]
	str q1,[sp,#6880]
	ldr q1,[sp,#7072]
	str q0,[sp,#7200]
	ldr q0,[sp,#7152]
	str q2,[sp,#7216]
	ldr q2,[sp,#6960]
	str q0,[sp,#7264]
	ldr q0,[sp,#6992]
	str q1,[sp,#7184]
	ldr q1,[sp,#7136]
	stur q0,[x10,#136]
	ldr q0,[sp,#6976]
	stur q2,[x10,#104]
	ldr q2,[sp,#7024]
	stur q0,[x10,#120]
	ldr q0,[sp,#7040]
	str q1,[sp,#7248]
	ldr q1,[sp,#7008]
	stur q0,[x10,#184]
	ldr q0,[sp,#6864]
	stur q2,[x10,#168]
	ldr q2,[sp,#6848]
	str q0,[sp,#7408]
	ldr q0,[sp,#6928]
	str x8,[sp,#7280]
	ldr x8,[sp,#6944]
	stur q1,[x10,#152]
	ldr q1,[sp,#6912]
	str q2,[sp,#7392]
	ldr q2,[sp,#6896]
	str q0,[sp,#7472]
	ldr q0,[sp,#6880]
	str q3,[sp,#7232]
	str x9,[sp,#7384]
	str x8,[sp,#7488]
	str q1,[sp,#7456]
	str q0,[sp,#7424]
	str q2,[sp,#7440]
	bl memcpy
	add x0,sp,#0x1,lsl #12
	add x1,sp,#0x1,lsl #12
	mov w2,#0x138
	add x0,x0,#0x980
	add x1,x1,#0x580
	add x19,sp,#0x1,lsl #12
	add x19,x19,#0x980
	bl memcpy
	movi v0.2d,#0x0
	ldr x8,[sp,#6624]
	mov w20,#0x60
	add x0,sp,#0x1,lsl #12
	sub x21,x20,x8
	add x0,x0,#0xc10
	add x1,x19,x8
	mov x2,x21
	str q0,[sp,#7456]
	str q0,[sp,#7440]
	str q0,[sp,#7424]
	str q0,[sp,#7408]
	str q0,[sp,#7392]
	str q0,[sp,#7376]
	str q0,[sp,#7360]
	str q0,[sp,#7344]
	str q0,[sp,#7328]
	str q0,[sp,#7312]
	str q0,[sp,#7296]
	str q0,[sp,#7280]
	str q0,[sp,#7264]
	str q0,[sp,#7248]
	str q0,[sp,#7232]
	str q0,[sp,#7216]
	str q0,[sp,#7200]
	str q0,[sp,#7184]
	bl memcpy
	add x0,sp,#0x1,lsl #12
	add x1,sp,#0x1,lsl #12
	mov w2,#0x128
	add x0,x0,#0x450
	add x1,x1,#0xc10
	str x21,[sp,#7472]
	bl memcpy
	add x0,sp,#0x1,lsl #12
	add x1,sp,#0x1,lsl #12
	mov w2,#0x128
	add x0,x0,#0x850
	add x1,x1,#0x450
	add x22,sp,#0x1,lsl #12
	add x22,x22,#0x850
	bl memcpy
	ldr x8,[sp,#6728]
	ldr x23,[sp,#6512]
	add x9,x19,x8
	sub x21,x20,x8
	add x0,x22,x23
	add x1,x9,#0x68
	mov x2,x21
	bl memcpy
	ldr x8,[sp,#6832]
	add x23,x23,x21
	add x0,x22,x23
	add x9,x19,x8
	sub x21,x20,x8
	add x1,x9,#0xd0
	mov x2,x21
	bl memcpy
	add x8,x21,x23
	add x0,sp,#0x1,lsl #12
	add x1,sp,#0x1,lsl #12
	str x8,[sp,#6512]
	add x0,x0,#0x6c0
	add x1,x1,#0x850
111:
	mov w2,#0x128
	bl memcpy
	add x0,sp,#0x1,lsl #12
	add x1,sp,#0x1,lsl #12
	mov w2,#0x128
	add x0,x0,#0x190
	add x1,x1,#0x6c0
	bl memcpy
	add x0,sp,#0x1,lsl #12
	add x1,sp,#0x1,lsl #12
	add x0,x0,#0x2c0
	add x1,x1,#0x190
	b 161f
112:
	mul x13,x12,x9
	umulh x12,x12,x9
	adds x9,x13,x11
	cinc x11,x12,cs
	extr x12,x11,x9,#63
	lsr x12,x12,x10
	cbz x12,119f
	mov x9,#0xc000000000000000
	madd x0,x8,x20,x9
	b 143f
113:
	movi v0.2d,#0x0
	add x0,sp,#0x1,lsl #12
	add x2,sp,#0x1,lsl #12
	ldr w25,[sp,#5124]
	add x0,x0,#0x7f0
	add x2,x2,#0xc10
	mov w1,#0x1
	mov w3,#0x12
	str q0,[sp,#6128]
	str q0,[sp,#6144]
	str q0,[sp,#4016]
	str q0,[sp,#4032]
	bl .Ltk_script.fields.number32_at
	add x9,sp,#0x1,lsl #12
	add x9,x9,#0x6c0
	ldrb w8,[x9,#304]
	cbz w8,123f
	ldrb w8,[x9,#328]
	ldr x13,[sp,#6144]
	ldrb w9,[x9,#312]
	b 207f
114:
	cmp x9,x16
	b.cc 85b
	sub x9,x9,x5
	cmp x9,x5
	b.cc 85b
	ldp w13,w4,[x1,#8]
	ldp x10,x9,[x1,#32]
	mov w19,#0xca00
	movk w19,#0x3b9a,lsl #16
	ldr x12,[x1,#24]
	mov x14,#0xffffffffffff27ff
	madd x11,x5,x4,x9
	movk x14,#0xcd0d,lsl #16
	movk x14,#0x7fff,lsl #48
	add x14,x14,#0x1
	lsr x9,x11,x13
	madd x9,x10,x19,x9
	adds x9,x12,x9
	csinv x9,x9,xzr,cc
	cmp x9,x14
	b.cs 85b
	ldr x14,[x1,#224]
	mul x14,x14,x19
	cmp x9,x14
	b.cs 85b
	ldr x9,[x1,#112]
	subs x14,x9,#0x3
	b.cc 85b
	ldr x9,[x1,#96]
	mov x15,#0x7ffffffffffffffc
	cmp x9,x15
	b.hi 85b
	ldr x15,[x1,#104]
	sub x15,x9,x15
	cmp x15,x14
	b.hi 85b
	lsl x15,x19,x13
	mov x20,x16
	subs x13,x11,x15
	b.cc 115f
	cmp x13,x15
	b.cs 117f
	add x10,x10,#0x1
	mov x11,x13
115:
	ldr x16,[sp,#64]
	ldr w13,[x16,#4]
	ldr x14,[x16,#56]
	madd x14,x5,x13,x14
	ldr x13,[x16,#48]
	subs x16,x14,x15
	b.cc 116f
	cmp x16,x15
	b.cs 117f
	add x13,x13,#0x1
	mov x14,x16
116:
	mov w15,#0x8ff
	movk w15,#0x3864,lsl #16
	cmp x10,x15
	b.ls 195f
117:
	ldr x0,[sp,#64]
	mov x1,x20
	bl "tk_clock::clock::Clock::update_late"
	mov w21,w0
	tst w0,#0xff
	b.ne 200f
	ldr x12,[sp,#64]
	ldr w8,[x12]
	ldr x9,[x12,#232]
	ldr w4,[x12,#12]
	sub x9,x20,x9
	neg w10,w8
	lsl x11,x9,x10
	ldr x9,[x12,#96]
	lsr x5,x11,x10
	b 196f
118:
	ldr w8,[x9]
	mov x9,#0xffffffffffffffff
	neg w8,w8
	lsr x8,x9,x8
	cmp x8,x16
	b.cs 127f
	mov w0,#0x1
	mov w1,#0x3
	b 134f
119:
	lsl x11,x11,#1
	mvn w12,w10
	lsr x9,x9,x10
	lsl x10,x11,x12
	orr x9,x10,x9
	madd x0,x8,x20,x9
	b 143f
120:
	ldr x3,[sp,#64]
	mov x0,#0xffffffffffff0000
	mov w2,#0x1f40000
	movk x0,#0xfe0c,lsl #16
	strh wzr,[sp,#6128]
	ldp x18,x1,[x3,#80]
	stp x5,x12,[x3,#16]
	stp x8,x17,[x3,#32]
	str x9,[x3,#64]
	mov x9,#0x34db
	cmp x18,x0
	movk x9,#0xd7b6,lsl #16
	str x27,[x3]
	csel x18,x18,x0,gt
	mov w0,#0x640000
	movk x9,#0xde82,lsl #32
	cmp x18,x2
	movk x9,#0x431b,lsl #48
	stp x13,x10,[x3,#48]
	csel x18,x18,x2,lt
	madd x0,x1,x0,x18
	str w11,[x3,#72]
	and x18,x18,#0xffff
	strb w14,[x3,#76]
	umull x8,w18,w16
	sturh wzr,[x3,#77]
	strb wzr,[x3,#79]
	lsr x0,x0,#16
	mul x12,x0,x16
	add x8,x12,x8,lsr #16
	umulh x8,x8,x9
	add x9,x23,#0x1
	stp x9,x9,[x3,#96]
	str x9,[sp,#6136]
	lsr x8,x8,#18
	stp w15,w8,[x3,#8]
	b 83b
121:
	str w4,[sp,#176]
	ldr w4,[x10,#12]
	mov x24,x5
	ldp x22,x2,[x10,#32]
	str x15,[sp,#184]
	umulh x8,x4,x19
	str w18,[sp,#192]
	cmp xzr,x8
	b.ne 122f
	mul x8,x19,x4
	adds x26,x2,x8
	b.cc 182f
122:
	ldr x8,[sp,#64]
	add x0,sp,#0x1,lsl #12
	mov x3,x19
	add x0,x0,#0x980
	ldr w21,[x8,#8]
	mov w1,w21
	bl "tk_counter::counter::CounterDesc::split_long"
	ldrb w8,[x28]
	cmp w8,#0x1
	b.ne 192f
	ldr x20,[sp,#6536]
	ldr x26,[sp,#6544]
	mov x8,#0x7d03
	movk x8,#0x25c1,lsl #16
	movk x8,#0x2,lsl #32
	cmp x20,x8
	b.ls 185f
	b 192f
123:
	ldr w28,[sp,#6132]
	mov x0,x21
	mov x1,x22
	bl "memchr::bytes::memchr"
	and w8,w0,#0xff
	cmp w8,#0x1
	b.ne 128f
	add x8,x1,#0x1
	add x26,sp,#0xc60
	add x21,x21,x8
	sub x22,x22,x8
	mov x0,x21
	mov x1,x22
	bl "memchr::bytes::memchr"
	and w8,w0,#0xff
	cmp w8,#0x1
	b.ne 205f
	add x8,x1,#0x1
	add x21,x21,x8
	sub x22,x22,x8
	mov x0,x21
	mov x1,x22
	bl "memchr::bytes::memchr"
	and w8,w0,#0xff
	cmp w8,#0x1
	b.ne 205f
	add x8,x1,#0x1
	add x21,x21,x8
	sub x22,x22,x8
	mov x0,x21
	mov x1,x22
	bl "memchr::bytes::memchr"
	and w8,w0,#0xff
	cmp w8,#0x1
	b.ne 205f
	add x8,x1,#0x1
	add x21,x21,x8
	sub x22,x22,x8
	mov x0,x21
	mov x1,x22
	bl "memchr::bytes::memchr"
	and w8,w0,#0xff
	cmp w8,#0x1
	b.ne 205f
	add x8,x1,#0x1
	add x21,x21,x8
	sub x22,x22,x8
	mov x0,x21
	mov x1,x22
	bl "memchr::bytes::memchr"
	and w8,w0,#0xff
	cmp w8,#0x1
	b.ne 205f
	add x8,x1,#0x1
	add x21,x21,x8
	sub x22,x22,x8
	mov x0,x21
	mov x1,x22
	bl "memchr::bytes::memchr"
	and w8,w0,#0xff
	cmp w8,#0x1
	b.ne 205f
	add x8,x1,#0x1
	add x21,x21,x8
	sub x22,x22,x8
	mov x0,x21
	mov x1,x22
	bl "memchr::bytes::memchr"
	and w8,w0,#0xff
	cmp w8,#0x1
	b.ne 205f
	add x8,x1,#0x1
	add x21,x21,x8
	sub x22,x22,x8
	mov x0,x21
	mov x1,x22
	bl "memchr::bytes::memchr"
	and w8,w0,#0xff
	cmp w8,#0x1
	b.ne 205f
	add x8,x1,#0x1
	add x21,x21,x8
	sub x22,x22,x8
	mov x0,x21
	mov x1,x22
	bl "memchr::bytes::memchr"
	and w8,w0,#0xff
	cmp w8,#0x1
	b.ne 205f
	add x8,x1,#0x1
	add x21,x21,x8
	sub x22,x22,x8
	mov x0,x21
	mov x1,x22
	bl "memchr::bytes::memchr"
	and w8,w0,#0xff
	cmp w8,#0x1
	b.ne 205f
	add x8,x1,#0x1
	add x21,x21,x8
	sub x22,x22,x8
	mov x0,x21
	mov x1,x22
	bl "memchr::bytes::memchr"
	and w8,w0,#0xff
	cmp w8,#0x1
	b.ne 205f
	add x8,x1,#0x1
	add x21,x21,x8
	sub x22,x22,x8
	mov x0,x21
	mov x1,x22
	bl "memchr::bytes::memchr"
	and w8,w0,#0xff
	cmp w8,#0x1
	b.ne 205f
	add x8,x1,#0x1
	add x21,x21,x8
	sub x22,x22,x8
	mov x0,x21
	mov x1,x22
	bl "memchr::bytes::memchr"
	and w8,w0,#0xff
	cmp w8,#0x1
	b.ne 205f
	add x8,x1,#0x1
	add x21,x21,x8
	sub x22,x22,x8
	mov x0,x21
	mov x1,x22
	bl "memchr::bytes::memchr"
	and w8,w0,#0xff
	cmp w8,#0x1
	b.ne 205f
	add x8,x1,#0x1
	add x21,x21,x8
	sub x22,x22,x8
	mov x0,x21
	mov x1,x22
	bl "memchr::bytes::memchr"
	and w8,w0,#0xff
	cmp w8,#0x1
	b.ne 205f
	add x8,x1,#0x1
	add x21,x21,x8
	sub x22,x22,x8
	mov x0,x21
	mov x1,x22
	bl "memchr::bytes::memchr"
	and w8,w0,#0xff
	cmp w8,#0x1
	b.ne 205f
	add x8,x1,#0x1
	add x21,x21,x8
	sub x22,x22,x8
	mov x0,x21
	mov x1,x22
	bl "memchr::bytes::memchr"
	and w8,w0,#0xff
	cmp w8,#0x1
	b.ne 205f
	add x8,x1,#0x1
	add x21,x21,x8
	sub x22,x22,x8
	mov x0,x21
	mov x1,x22
	bl "memchr::bytes::memchr"
	and w8,w0,#0xff
	cmp w8,#0x1
	b.ne 205f
	add x8,x1,#0x1
	add x21,x21,x8
	sub x22,x22,x8
	mov x0,x21
	mov x1,x22
	bl "memchr::bytes::memchr"
	and w8,w0,#0xff
	cmp w8,#0x1
	csel x8,x1,x22,eq
	cmp x8,#0x14
	b.cc 202f
	sub x9,x8,#0x1
	mov x10,x21
124:
	ldrb w11,[x10],#1
	subs x9,x9,#0x1
	cset w12,cs
	sub w11,w11,#0x30
	cmp w11,#0x9
	b.hi 125f
	tbnz w12,#0,124b
125:
	cmp w11,#0x9
	b.hi 205f
	mov x20,xzr
126:
	mov w9,#0xa
	add x10,x20,x20,lsl #2
	umulh x9,x20,x9
	ldrb w11,[x21],#1
	lsl x10,x10,#1
	sub w11,w11,#0x30
	adds x10,x10,w11,uxtb
	cinc x9,x9,cs
	cmp x10,#0x100
	sbcs xzr,x9,xzr
	b.cs 205f
	mov x20,x10
	subs x8,x8,#0x1
	b.ne 126b
	b 204f
127:
	ldr x9,[sp,#64]
	ldr x9,[x9,#16]
	sub x9,x16,x9
	and x10,x9,x8
	sub x8,x8,x10
	cmp x8,x10
	b.cs 129f
	mov w0,#0x1
	mov w1,#0x4
	b 134f
128:
	mov w8,wzr
	mov w9,#0x5
	mov w13,#0x1
	b 207f
129:
	lsr x8,x10,#31
	mov x15,x16
	cbnz x8,132f
	ldr x13,[sp,#64]
	ldp w11,w8,[x13,#8]
	ldr x9,[x13,#40]
	madd x9,x10,x8,x9
	mov w8,#0xca00
	movk w8,#0x3b9a,lsl #16
	lsl x12,x8,x11
	ldr x8,[x13,#32]
	subs x11,x9,x12
	b.cc 130f
	cmp x11,x12
	b.cs 132f
	add x8,x8,#0x1
	mov x9,x11
130:
	ldr x14,[sp,#64]
	ldr w11,[x14,#4]
	ldr x13,[x14,#56]
	madd x11,x10,x11,x13
	ldr x10,[x14,#48]
	subs x13,x11,x12
	b.cc 131f
	cmp x13,x12
	b.cs 132f
	add x10,x10,#0x1
	mov x11,x13
131:
	mov w12,#0x8ff
	movk w12,#0x3864,lsl #16
	cmp x8,x12
	b.ls 188f
132:
	ldr x0,[sp,#64]
	mov x1,x15
	bl "tk_clock::clock::Clock::update_late"
133:
	add x19,sp,#0x1,lsl #12
	add x19,x19,#0xac0
134:
	tst w0,#0xff
	b.eq 141f
135:
	mov x8,xzr
	mov w9,#0x1
136:
	strb w9,[x19]
	strb w1,[x19,#1]
	str x8,[sp,#6856]
137:
	add x0,sp,#0x1,lsl #12
	add x2,sp,#0x1,lsl #12
	ldr x1,[sp,#64]
	add x0,x0,#0x6c0
	add x2,x2,#0xac0
	bl "tk_session::plain::line_of"
	ldr q0,[sp,#5888]
	ldr q1,[sp,#5904]
	mov w9,#0x60
	ldr q2,[sp,#5840]
	ldr x8,[sp,#5920]
	add x10,sp,#0x1,lsl #12
	str q0,[sp,#5264]
	ldr q0,[sp,#5824]
	add x10,x10,#0x450
	str q1,[sp,#5280]
	ldr q1,[sp,#5872]
	sub x21,x9,x8
	str q0,[sp,#5200]
	movi v0.2d,#0x0
	add x0,sp,#0x1,lsl #12
	str q2,[sp,#5216]
	ldr q2,[sp,#5856]
	add x0,x0,#0x980
	add x1,x10,x8
	mov x2,x21
	str q1,[sp,#5248]
	str q2,[sp,#5232]
	str x8,[sp,#5296]
	str q0,[sp,#6800]
	str q0,[sp,#6784]
	str q0,[sp,#6768]
	str q0,[sp,#6752]
	str q0,[sp,#6736]
	str q0,[sp,#6720]
	str q0,[sp,#6704]
	str q0,[sp,#6688]
	str q0,[sp,#6672]
	str q0,[sp,#6656]
	str q0,[sp,#6640]
	str q0,[sp,#6624]
	str q0,[sp,#6608]
	str q0,[sp,#6592]
	str q0,[sp,#6576]
	str q0,[sp,#6560]
	str q0,[sp,#6544]
	str q0,[sp,#6528]
	bl memcpy
	add x0,sp,#0x1,lsl #12
	add x1,sp,#0x1,lsl #12
	mov w2,#0x128
	add x0,x0,#0x580
	add x1,x1,#0x980
	str x21,[sp,#6816]
	bl memcpy
	add x0,sp,#0x1,lsl #12
	add x1,sp,#0x1,lsl #12
	add x0,x0,#0xc10
	add x1,x1,#0x580
138:
	mov w2,#0x128
	bl memcpy
	mov x28,xzr
	mov w20,wzr
139:
	add x8,sp,#0x1,lsl #12
	add x8,x8,#0xc10
140:
	ldr x21,[sp,#7184]
	ldr x23,[sp,#7192]
	ldr x19,[sp,#7200]
	ldrb w27,[x8,#24]
	add x8,sp,#0x1,lsl #12
	add x8,x8,#0xc10
	b 164f
141:
	ldr x10,[sp,#64]
	mov w9,wzr
	mov w1,wzr
	ldr x8,[x10,#96]
	add x8,x8,#0x1
	str x8,[x10,#96]
	b 136b
142:
	add x8,sp,#0x1,lsl #12
	mov w1,#0x1
	add x8,x8,#0xc10
	add x0,x8,#0x8
	bl "tk_clock::read_base::ReadBase::nanos_at_last"
143:
	mov x8,#0xffffffff5919ffff
	movk x8,#0x26bf,lsl #32
	movk x8,#0xd21,lsl #48
	cmp x0,x8
	b.hi 146f
	mov x9,#0x5a53
	lsr x8,x0,#9
	mov w11,#0x8db9
	movk x9,#0xa09b,lsl #16
	movk w11,#0x6,lsl #16
	mov w12,#0x2710
	movk x9,#0xb82f,lsl #32
	mov w16,#0x3b89
	movi v0.16b,#0xa
	movk x9,#0x44,lsl #48
	movk w16,#0x55e6,lsl #16
	add x17,sp,#0x1,lsl #12
	umulh x8,x8,x9
	add x17,x17,#0x980
	str q0,[sp,#6608]
	str q0,[sp,#6592]
	str q0,[sp,#6576]
	lsr x9,x8,#11
	mov w8,#0x1759
	str q0,[sp,#6560]
	movk w8,#0xd1b7,lsl #16
	str q0,[sp,#6544]
	msub w10,w9,w20,w0
	str q0,[sp,#6528]
	umull x8,w10,w8
	lsr x8,x8,#45
	umull x11,w8,w11
	msub w13,w8,w12,w10
	umull x10,w10,w16
	mov w16,#0x2e
	lsr x11,x11,#32
	strb w16,[x17,#85]
	msub w11,w11,w12,w8
	ubfx w8,w13,#2,#14
	mov w12,#0x147b
	lsr x10,x10,#57
	mul w14,w8,w12
	adrp x8,.rodata..Lstatic.23
	add x8,x8,:lo12:.rodata..Lstatic.23
	ubfx w15,w11,#2,#14
	orr w10,w10,#0x30
	strb w10,[x17,#86]
	mul w12,w15,w12
	lsr w14,w14,#17
	mov w15,#0x64
	msub w13,w14,w15,w13
	ldrh w14,[x8,w14,uxtw #1]
	lsr w12,w12,#17
	sturh w14,[x17,#91]
	msub w11,w12,w15,w11
	and x13,x13,#0xffff
	ldrh w12,[x8,w12,uxtw #1]
	ldrh w10,[x8,x13,lsl #1]
	mov x13,#0xa000
	movk x13,#0x4e72,lsl #16
	sturh w12,[x17,#87]
	and x11,x11,#0xffff
	sturh w10,[x17,#93]
	movk x13,#0x918,lsl #32
	ldrh w10,[x8,x11,lsl #1]
	mov w11,#0x55
	cmp x0,x13
	str x11,[sp,#6624]
	sturh w10,[x17,#89]
	mov w10,#0xe0ff
	movk w10,#0x5f5,lsl #16
	b.cc 145f
	mov x11,xzr
144:
	mov x12,x9
	mov x9,#0x594b
	mov w13,#0x2710
	movk x9,#0x3886,lsl #16
	mov w15,#0x147b
	cmp x12,x10
	movk x9,#0xc5d6,lsl #32
	movk x9,#0x346d,lsl #48
	umulh x9,x12,x9
	lsr x9,x9,#11
	msub w13,w9,w13,w12
	ubfx w14,w13,#2,#14
	mul w14,w14,w15
	mov w15,#0x64
	lsr w14,w14,#17
	msub w13,w14,w15,w13
	add x15,sp,#0x1,lsl #12
	ldrh w14,[x8,w14,uxtw #1]
	add x15,x15,#0x980
	add x15,x15,x11
	sub x11,x11,#0x4
	and x13,x13,#0xffff
	sturh w14,[x15,#81]
	ldrh w13,[x8,x13,lsl #1]
	sturh w13,[x15,#83]
	b.hi 144b
	add x11,x11,#0x55
145:
	cmp x9,#0x63
	b.hi 148f
	cmp x9,#0x9
	b.hi 149f
	add x12,sp,#0x1,lsl #12
	sub x11,x11,#0x1
	orr w9,w9,#0x30
	add x12,x12,#0x980
	strb w9,[x12,x11]
	b 151f
146:
	adrp x1,.rodata..Lstatic.49
	add x1,x1,:lo12:.rodata..Lstatic.49
	mov w21,#0x5
147:
	movi v0.16b,#0xa
	add x19,sp,#0x1,lsl #12
	mov x2,x21
	add x19,x19,#0x980
	sub x8,x19,x21
	add x0,x8,#0x5f
	str q0,[sp,#6608]
	str q0,[sp,#6592]
	str q0,[sp,#6576]
	str q0,[sp,#6560]
	str q0,[sp,#6544]
	str q0,[sp,#6528]
	bl memcpy
	mov w8,#0x5c
	mov w9,#0x6f6e
	mov w11,#0x2c
	sub x8,x8,x21
	add x10,x19,x8
	strh w9,[x10]
	strb w11,[x10,#2]
	b 159f
148:
	ubfx w12,w9,#2,#14
	mov w13,#0x147b
	cmp x9,#0x3e7
	mul w12,w12,w13
	mov w13,#0x64
	lsr w12,w12,#17
	msub w13,w12,w13,w9
	and x13,x13,#0xffff
	ldrh w14,[x8,x13,lsl #1]
	add x13,sp,#0x1,lsl #12
	add x13,x13,#0x980
	add x15,x13,x11
	sturh w14,[x15,#-2]
	b.hi 150f
	sub x11,x11,#0x3
	orr w9,w12,#0x30
	strb w9,[x13,x11]
	b 151f
149:
	add x12,sp,#0x1,lsl #12
	sub x11,x11,#0x2
	ldrh w9,[x8,x9,lsl #1]
	add x12,x12,#0x980
	strh w9,[x12,x11]
	b 151f
150:
	sub x11,x11,#0x4
	ldrh w9,[x8,w12,uxtw #1]
	strh w9,[x13,x11]
151:
	lsr x13,x19,#4
	add x12,sp,#0x1,lsl #12
	sub x9,x11,#0x1
	add x12,x12,#0x980
	cmp x13,#0x271
	mov w13,#0x2c
	strb w13,[x12,x9]
	b.cc 153f
	add x11,x11,x12
	sub x12,x11,#0x5
152:
	mov x11,#0x594b
	mov w13,#0x2710
	mov w15,#0x147b
	movk x11,#0x3886,lsl #16
	sub x9,x9,#0x4
	cmp x19,x10
	movk x11,#0xc5d6,lsl #32
	movk x11,#0x346d,lsl #48
	umulh x11,x19,x11
	lsr x11,x11,#11
	msub w13,w11,w13,w19
	mov x19,x11
	ubfx w14,w13,#2,#14
	mul w14,w14,w15
	mov w15,#0x64
	lsr w14,w14,#17
	msub w13,w14,w15,w13
	ldrh w14,[x8,w14,uxtw #1]
	and x13,x13,#0xffff
	ldrh w13,[x8,x13,lsl #1]
	strh w13,[x12,#2]
	strh w14,[x12],#-4
	b.hi 152b
	b 154f
153:
	mov x11,x19
154:
	cmp x11,#0x63
	b.hi 155f
	cmp x11,#0x9
	b.hi 156f
	add x8,sp,#0x1,lsl #12
	sub x9,x9,#0x1
	orr w10,w11,#0x30
	add x8,x8,#0x980
	strb w10,[x8,x9]
	b 158f
155:
	ubfx w10,w11,#2,#14
	mov w12,#0x147b
	cmp x11,#0x3e7
	mul w10,w10,w12
	mov w12,#0x64
	lsr w10,w10,#17
	msub w12,w10,w12,w11
	and x12,x12,#0xffff
	ldrh w13,[x8,x12,lsl #1]
	add x12,sp,#0x1,lsl #12
	add x12,x12,#0x980
	add x14,x12,x9
	sturh w13,[x14,#-2]
	b.hi 157f
	sub x9,x9,#0x3
	orr w8,w10,#0x30
	strb w8,[x12,x9]
	b 158f
156:
	add x10,sp,#0x1,lsl #12
	sub x9,x9,#0x2
	ldrh w8,[x8,x11,lsl #1]
	add x10,x10,#0x980
	strh w8,[x10,x9]
	b 158f
157:
	sub x9,x9,#0x4
	ldrh w8,[x8,w10,uxtw #1]
	strh w8,[x12,x9]
158:
	sub x8,x9,#0x3
	add x9,sp,#0x1,lsl #12
	mov w10,#0x2c
	add x9,x9,#0x980
	mov w11,#0x6b6f
	add x9,x9,x8
	strb w10,[x9,#2]
	strh w11,[x9]
159:
	ldr q0,[sp,#6592]
	ldr q1,[sp,#6608]
	add x10,sp,#0x1,lsl #12
	ldr q2,[sp,#6544]
	str x8,[sp,#6624]
	mov w9,#0x60
	str q0,[sp,#5568]
	ldr q0,[sp,#6528]
	add x10,x10,#0x580
	str q1,[sp,#5584]
	ldr q1,[sp,#6576]
	str q0,[sp,#5504]
	movi v0.2d,#0x0
	str q2,[sp,#5520]
	ldr q2,[sp,#6560]
	str q1,[sp,#5552]
	str q2,[sp,#5536]
	str x8,[sp,#5600]
160:
	str q0,[sp,#7184]
	str q0,[sp,#7200]
	str q0,[sp,#7216]
	str q0,[sp,#7232]
	str q0,[sp,#7248]
	str q0,[sp,#7264]
	str q0,[sp,#7280]
	str q0,[sp,#7296]
	str q0,[sp,#7312]
	str q0,[sp,#7328]
	str q0,[sp,#7344]
	str q0,[sp,#7360]
	str q0,[sp,#7376]
	str q0,[sp,#7392]
	str q0,[sp,#7408]
	str q0,[sp,#7424]
	str q0,[sp,#7440]
	sub x21,x9,x8
	add x0,sp,#0x1,lsl #12
	add x1,x10,x8
	add x0,x0,#0xc10
	mov x2,x21
	str q0,[sp,#7456]
	bl memcpy
	add x0,sp,#0x1,lsl #12
	add x1,sp,#0x1,lsl #12
	str x21,[sp,#7472]
	add x0,x0,#0x2c0
	add x1,x1,#0xc10
161:
	mov w2,#0x128
	bl memcpy
	mov x28,xzr
	mov w20,wzr
162:
	add x8,sp,#0x1,lsl #12
	add x8,x8,#0x2c0
163:
	ldr x21,[sp,#4800]
	ldr x23,[sp,#4808]
	ldr x19,[sp,#4816]
	ldrb w27,[x8,#24]
	add x8,sp,#0x1,lsl #12
	add x8,x8,#0x2c0
164:
	add x0,sp,#0xea0
	add x1,x8,#0x19
	mov w2,#0x10f
	bl memcpy
	add x0,sp,#0xc60
	add x1,sp,#0xea0
	mov w2,#0x10f
	bl memcpy
	add x22,sp,#0xd70
	add x1,sp,#0xc60
	mov w2,#0x10f
	add x0,x22,#0x19
	str x21,[sp,#3440]
	str x23,[sp,#3448]
	str x19,[sp,#3456]
	strb w27,[sp,#3464]
	bl memcpy
	ldr x16,[sp,#208]
	ldr x9,[sp,#64]
	cmp w20,#0x1
	add x15,x16,#0x1
	str x15,[x9,#240]
	b.ne 166f
	ldr x8,[x9,#248]
	movi v0.16b,#0xa
	str xzr,[sp,#6624]
	add x8,x8,#0x1
	str x8,[x9,#248]
	lsr x8,x28,#4
	str q0,[sp,#6608]
	cmp x8,#0x271
	mov w8,#0xe0ff
	str q0,[sp,#6592]
	movk w8,#0x5f5,lsl #16
	str q0,[sp,#6576]
	str q0,[sp,#6560]
	str q0,[sp,#6544]
	str q0,[sp,#6528]
	b.cc 167f
	mov x9,xzr
165:
	mov x11,#0x594b
	mov x10,x28
	mov w13,#0x147b
	movk x11,#0x3886,lsl #16
	add x14,sp,#0x1,lsl #12
	cmp x28,x8
	movk x11,#0xc5d6,lsl #32
	add x14,x14,#0x980
	movk x11,#0x346d,lsl #48
	add x14,x14,x9
	sub x9,x9,#0x4
	umulh x11,x28,x11
	lsr x28,x11,#11
	mov w11,#0x2710
	msub w11,w28,w11,w10
	ubfx w12,w11,#2,#14
	mul w12,w12,w13
	mov w13,#0x64
	lsr w12,w12,#17
	msub w11,w12,w13,w11
	adrp x13,.rodata..Lstatic.23
	add x13,x13,:lo12:.rodata..Lstatic.23
	ldrh w12,[x13,w12,uxtw #1]
	and x11,x11,#0xffff
	sturh w12,[x14,#91]
	ldrh w11,[x13,x11,lsl #1]
	sturh w11,[x14,#93]
	b.hi 165b
	add x9,x9,#0x5f
	b 168f
166:
	add x0,sp,#0xb50
	add x1,sp,#0xc60
	b 180f
167:
	mov w9,#0x5f
168:
	cmp x28,#0x63
	b.hi 169f
	cmp x28,#0x9
	b.hi 170f
	sub x10,x9,#0x1
	add x9,sp,#0x1,lsl #12
	orr w11,w28,#0x30
	add x9,x9,#0x980
	strb w11,[x9,x10]
	b 172f
169:
	ubfx w10,w28,#2,#14
	mov w11,#0x147b
	adrp x13,.rodata..Lstatic.23
	add x13,x13,:lo12:.rodata..Lstatic.23
	add x12,sp,#0x1,lsl #12
	cmp x28,#0x3e7
	mul w10,w10,w11
	add x12,x12,#0x980
	add x14,x12,x9
	lsr w11,w10,#17
	mov w10,#0x64
	msub w10,w11,w10,w28
	and x10,x10,#0xffff
	ldrh w10,[x13,x10,lsl #1]
	sturh w10,[x14,#-2]
	b.hi 171f
	sub x10,x9,#0x3
	orr w9,w11,#0x30
	strb w9,[x12,x10]
	b 172f
170:
	adrp x11,.rodata..Lstatic.23
	add x11,x11,:lo12:.rodata..Lstatic.23
	sub x10,x9,#0x2
	ldrh w9,[x11,x28,lsl #1]
	add x11,sp,#0x1,lsl #12
	add x11,x11,#0x980
	strh w9,[x11,x10]
	b 172f
171:
	sub x10,x9,#0x4
	ldrh w9,[x13,w11,uxtw #1]
	strh w9,[x12,x10]
172:
	mov w12,#0x270f
	add x11,sp,#0x1,lsl #12
	sub x9,x10,#0x1
	add x11,x11,#0x980
	cmp x16,x12
	mov w12,#0x2c
	strb w12,[x11,x9]
	b.cc 174f
	add x10,x10,x11
	sub x11,x10,#0x5
173:
	mov x10,#0x594b
	mov w12,#0x2710
	mov w14,#0x147b
	movk x10,#0x3886,lsl #16
	sub x9,x9,#0x4
	cmp x15,x8
	movk x10,#0xc5d6,lsl #32
	movk x10,#0x346d,lsl #48
	umulh x10,x15,x10
	lsr x10,x10,#11
	msub w12,w10,w12,w15
	mov x15,x10
	ubfx w13,w12,#2,#14
	mul w13,w13,w14
	mov w14,#0x64
	lsr w13,w13,#17
	msub w12,w13,w14,w12
	adrp x14,.rodata..Lstatic.23
	add x14,x14,:lo12:.rodata..Lstatic.23
	ldrh w13,[x14,w13,uxtw #1]
	and x12,x12,#0xffff
	ldrh w12,[x14,x12,lsl #1]
	strh w12,[x11,#2]
	strh w13,[x11],#-4
	b.hi 173b
	b 175f
174:
	mov x10,x15
175:
	cmp x10,#0x63
	b.hi 176f
	cmp x10,#0x9
	b.hi 177f
	sub x8,x9,#0x1
	add x9,sp,#0x1,lsl #12
	orr w10,w10,#0x30
	add x9,x9,#0x980
	strb w10,[x9,x8]
	b 179f
176:
	ubfx w8,w10,#2,#14
	mov w11,#0x147b
	adrp x13,.rodata..Lstatic.23
	add x13,x13,:lo12:.rodata..Lstatic.23
	add x12,sp,#0x1,lsl #12
	cmp x10,#0x3e7
	mul w8,w8,w11
	add x12,x12,#0x980
	add x14,x12,x9
	lsr w11,w8,#17
	mov w8,#0x64
	msub w8,w11,w8,w10
	and x8,x8,#0xffff
	ldrh w8,[x13,x8,lsl #1]
	sturh w8,[x14,#-2]
	b.hi 178f
	sub x8,x9,#0x3
	orr w9,w11,#0x30
	strb w9,[x12,x8]
	b 179f
177:
	adrp x11,.rodata..Lstatic.23
	add x11,x11,:lo12:.rodata..Lstatic.23
	sub x8,x9,#0x2
	ldrh w9,[x11,x10,lsl #1]
	add x10,sp,#0x1,lsl #12
	add x10,x10,#0x980
	strh w9,[x10,x8]
	b 179f
178:
	sub x8,x9,#0x4
	ldrh w9,[x13,w11,uxtw #1]
	strh w9,[x12,x8]
179:
	mov x10,#0x6964
	add x9,sp,#0x1,lsl #12
	sub x8,x8,#0x8
	movk x10,#0x6666,lsl #16
	add x9,x9,#0x980
	ldr x19,[sp,#3728]
	movk x10,#0x7265,lsl #32
	str x8,[sp,#2880]
	movk x10,#0x2c73,lsl #48
	str x10,[x9,x8]
	add x9,sp,#0xa70
	mov w10,#0x60
	ldr q0,[sp,#6592]
	ldr q1,[sp,#6608]
	ldr q2,[sp,#6528]
	ldr q3,[sp,#6544]
	ldr q4,[sp,#6576]
	ldr q5,[sp,#6560]
	sub x20,x10,x8
	add x10,sp,#0xd70
	add x0,x10,x19
	add x1,x9,x8
	mov x2,x20
	str q0,[sp,#2848]
	str q1,[sp,#2864]
	str q2,[sp,#2784]
	str q3,[sp,#2800]
	str q4,[sp,#2832]
	str q5,[sp,#2816]
	str x8,[sp,#2768]
	str q1,[sp,#2752]
	str q0,[sp,#2736]
	str q4,[sp,#2720]
	str q3,[sp,#2688]
	str q5,[sp,#2704]
	str q2,[sp,#2672]
	bl memcpy
	add x8,x19,x20
	ldr x21,[sp,#3440]
	ldr x23,[sp,#3448]
	ldr x19,[sp,#3456]
	ldrb w27,[sp,#3464]
	add x0,sp,#0xb50
	str x8,[sp,#3728]
	add x1,x22,#0x19
180:
	mov w2,#0x10f
	bl memcpy
	add x0,sp,#0x7e0
	add x1,sp,#0xb50
	mov w2,#0x10f
	bl memcpy
	add x0,sp,#0x8f0
	add x1,sp,#0x7e0
	mov w2,#0x10f
	bl memcpy
181:
	add x0,sp,#0x390
	add x1,sp,#0x8f0
	mov w2,#0x10f
	bl memcpy
	b 55b
182:
	ldr x8,[sp,#64]
	ldr w21,[x8,#8]
	mov w8,#0xca00
	movk w8,#0x3b9a,lsl #16
	lsl x8,x8,x21
	subs x9,x26,x8
	b.cs 183f
	mov x20,xzr
	b 185f
183:
	cmp x9,x8
	b.cs 184f
	mov w20,#0x1
	mov x26,x9
	b 185f
184:
	lsr x9,x26,x21
	mov x10,#0x5a53
	movk x10,#0xa09b,lsl #16
	lsr x9,x9,#9
	movk x10,#0xb82f,lsl #32
	movk x10,#0x44,lsl #48
	umulh x9,x9,x10
	lsr x20,x9,#11
	msub x26,x20,x8,x26
	mov x8,#0x7d03
	movk x8,#0x25c1,lsl #16
	movk x8,#0x2,lsl #32
	cmp x20,x8
	b.hi 192f
185:
	ldr x9,[sp,#64]
	ldr w4,[x9,#4]
	ldp x10,x2,[x9,#48]
	umulh x8,x4,x19
	str x10,[sp,#168]
	cmp xzr,x8
	b.ne 186f
	mul x8,x19,x4
	adds x10,x2,x8
	b.cc 187f
186:
	add x0,sp,#0x1,lsl #12
	mov w1,w21
	mov x3,x19
	add x0,x0,#0x980
	bl "tk_counter::counter::CounterDesc::split_long"
	ldrb w8,[x28]
	cmp w8,#0x1
	b.ne 192f
	ldr x13,[sp,#6536]
	ldr x10,[sp,#6544]
	mov x8,#0x7d03
	movk x8,#0x25c1,lsl #16
	movk x8,#0x2,lsl #32
	cmp x13,x8
	b.ls 191f
	b 192f
187:
	mov w8,#0xca00
	movk w8,#0x3b9a,lsl #16
	lsl x8,x8,x21
	subs x9,x10,x8
	b.cs 189f
	mov x13,xzr
	b 191f
188:
	ldr x12,[sp,#64]
	ldr x13,[x12,#24]
	mov x12,#0xe801
	movk x12,#0x6378,lsl #16
	movk x12,#0x7e4d,lsl #32
	movk x12,#0x72de,lsl #48
	cmp x13,x12
	b.cs 132b
	ldr x13,[sp,#64]
	ldr x13,[x13,#64]
	cmp x13,x12
	b.cs 132b
	ldr x12,[sp,#64]
	mov w1,wzr
	mov w0,wzr
	str x15,[x12,#16]
	stp x8,x9,[x12,#32]
	stp x10,x11,[x12,#48]
	b 133b
189:
	cmp x9,x8
	b.cs 190f
	mov w13,#0x1
	mov x10,x9
	b 191f
190:
	mov w9,w21
	mov x11,#0x5a53
	lsr x9,x10,x9
	movk x11,#0xa09b,lsl #16
	movk x11,#0xb82f,lsl #32
	lsr x9,x9,#9
	movk x11,#0x44,lsl #48
	umulh x9,x9,x11
	lsr x13,x9,#11
	msub x10,x13,x8,x10
	mov x8,#0x7d03
	movk x8,#0x25c1,lsl #16
	movk x8,#0x2,lsl #32
	cmp x13,x8
	b.hi 192f
191:
	mov w9,#0x8ff
	add x8,x20,x22
	movk w9,#0x3864,lsl #16
	cmp x8,x9
	b.hi 192f
	mov w12,#0xca00
	lsr x9,x26,x21
	mov x14,#0xffffffffffff27ff
	movk w12,#0x3b9a,lsl #16
	movk x14,#0xcd0d,lsl #16
	madd x15,x8,x12,x9
	ldr x9,[sp,#64]
	movk x14,#0x7fff,lsl #48
	ldr x9,[x9,#64]
	adds x11,x9,x15
	csinv x11,x11,xzr,cc
	cmp x11,x14
	b.hi 192f
	ldr x16,[sp,#64]
	ldr w11,[x16,#72]
	umaddl x15,w11,w12,x15
	ldr x12,[x16,#24]
	adds x15,x12,x15
	csinv x15,x15,xzr,cc
	cmp x15,x14
	b.ls 194f
192:
	mov w8,#0x5
193:
	add x6,sp,#0x1,lsl #12
	add x6,x6,#0x6c0
	b 82b
194:
	ldr x15,[sp,#168]
	add x6,sp,#0x1,lsl #12
	ldr w4,[sp,#176]
	ldr w18,[sp,#192]
	mov w14,wzr
	add x6,x6,#0x6c0
	add x13,x13,x15
	ldr x15,[sp,#184]
	mov x5,x24
	b 90b
195:
	mov x15,#0xe801
	movk x15,#0x6378,lsl #16
	movk x15,#0x7e4d,lsl #32
	movk x15,#0x72de,lsl #48
	cmp x12,x15
	b.cs 117b
	ldr x12,[sp,#64]
	ldr x12,[x12,#64]
	cmp x12,x15
	b.cs 117b
	ldr x12,[sp,#64]
	mov w21,wzr
	str x20,[x12,#16]
	stp x10,x11,[x12,#32]
	stp x13,x14,[x12,#48]
196:
	ldr x12,[sp,#64]
	add x10,x9,#0x1
	lsr x11,x5,#27
	str w8,[sp,#6528]
	add x8,sp,#0x1,lsl #12
	ldur x9,[x12,#4]
	ldr x3,[x12,#216]
	ldr x0,[x12,#200]
	add x8,x8,#0x980
	str x10,[x12,#96]
	stur x9,[x8,#4]
	cbz x11,197f
	ldr x8,[sp,#64]
	ldr x1,[x8,#208]
	b 198f
197:
	mov w8,w9
	mov w10,w4
	mov x13,#0x360000000000
	mul x8,x8,x5
	movk x13,#0xc465,lsl #48
	asr x15,x3,#63
	lsr x9,x9,#32
	mul x10,x5,x10
	umulh x11,x8,x3
	mul x12,x8,x3
	umulh x14,x10,x13
	mul x13,x10,x13
	madd x8,x8,x15,x11
	ldr x11,[sp,#64]
	sub x10,x14,x10
	ldr x1,[x11,#208]
	adds x11,x13,x12
	mov x12,#0xf000000000000000
	adc x10,x10,x8
	adds x8,x11,x1
	lsl x11,x19,x9
	adc x9,x10,x0
	add x10,x9,x11,lsr #5
	add x10,x10,x12
	cmp x10,x11,lsr #4
	b.cc 199f
198:
	add x2,sp,#0x1,lsl #12
	add x2,x2,#0x980
	bl "tk_ntp::lag::Lag::accounted_late"
	mov x9,x0
	mov x8,x1
199:
	ldr x10,[sp,#64]
	mov w1,wzr
	stp x9,x8,[x10,#200]
	str x20,[x10,#232]
200:
	tst w21,#0xff
	b.ne 10b
	b 86b
201:
	brk #0x1
202:
	cbz x8,206f
	mov x20,xzr
203:
	ldrb w9,[x21],#1
	sub x9,x9,#0x30
	cmp x9,#0x9
	b.hi 205f
	mov w10,#0xa
	subs x8,x8,#0x1
	madd x20,x20,x10,x9
	b.ne 203b
	cmp x20,#0x100
	b.cs 205f
204:
	add x2,sp,#0x1,lsl #12
	add x0,sp,#0xfb0
	mov w1,#0x1
	add x2,x2,#0xc10
	mov w3,#0x14
	bl .Ltk_script.fields.number_at
	ldrb w8,[sp,#4016]
	ldr x9,[sp,#4024]
	str x9,[sp,#208]
	cbz w8,208f
	ldrb w8,[sp,#4040]
	ldr x13,[sp,#4032]
	add x20,sp,#0xb50
	ldr x9,[sp,#208]
	b 207f
205:
	mov w8,wzr
206:
	mov w9,#0x5
	mov w13,#0x1
	add x20,sp,#0xb50
207:
	add x11,sp,#0x8f0
	and x27,x9,#0xff
	b 95b
208:
	add x2,sp,#0x1,lsl #12
	add x0,sp,#0x7c0
	mov w1,#0x1
	add x2,x2,#0xc10
	mov w3,#0x15
	bl .Ltk_script.fields.signed_at
	ldrb w8,[sp,#1984]
	ldr x27,[sp,#1992]
	cbz w8,209f
	ldrb w8,[sp,#2008]
	ldr x13,[sp,#2000]
	add x20,sp,#0xb50
	b 94b
209:
	add x2,sp,#0x1,lsl #12
	add x0,sp,#0x7a0
	mov w1,#0x1
	add x2,x2,#0xc10
	mov w3,#0x16
	bl .Ltk_script.fields.number32_at
	ldrb w8,[sp,#1952]
	cbz w8,210f
	ldrb w8,[sp,#1976]
	ldr x13,[sp,#1968]
	add x20,sp,#0xb50
	ldrb w27,[sp,#1960]
	b 94b
210:
	ldr w8,[sp,#1956]
	add x2,sp,#0x1,lsl #12
	add x0,sp,#0x780
	add x2,x2,#0xc10
	mov w1,#0x1
	mov w3,#0x17
	str w8,[sp,#192]
	bl .Ltk_script.fields.number32_at
	ldrb w8,[sp,#1920]
	cbz w8,211f
	ldrb w8,[sp,#1944]
	ldr x13,[sp,#1936]
	add x20,sp,#0xb50
	ldrb w27,[sp,#1928]
	b 94b
211:
	ldr w8,[sp,#1924]
	add x2,sp,#0x1,lsl #12
	add x0,sp,#0x760
	add x2,x2,#0xc10
	mov w1,#0x1
	mov w3,#0x18
	str w8,[sp,#184]
	bl .Ltk_script.fields.number32_at
	ldrb w8,[sp,#1888]
	cbz w8,212f
	ldrb w8,[sp,#1912]
	ldr x13,[sp,#1904]
	add x20,sp,#0xb50
	ldrb w27,[sp,#1896]
	b 94b
212:
	ldr w8,[sp,#1892]
	add x2,sp,#0x1,lsl #12
	add x0,sp,#0x740
	add x2,x2,#0xc10
	mov w1,#0x1
	mov w3,#0x19
	str w8,[sp,#176]
	bl .Ltk_script.fields.number32_at
	ldrb w8,[sp,#1856]
	cbz w8,213f
	ldrb w8,[sp,#1880]
	ldr x13,[sp,#1872]
	add x20,sp,#0xb50
	ldrb w27,[sp,#1864]
	b 94b
213:
	ldr w8,[sp,#1860]
	add x2,sp,#0x1,lsl #12
	add x0,sp,#0x720
	add x2,x2,#0xc10
	mov w1,#0x1
	mov w3,#0x1a
	str x8,[sp,#160]
	bl .Ltk_script.fields.signed_at
	ldrb w8,[sp,#1824]
	ldr x9,[sp,#1832]
	str x9,[sp,#168]
	cbz w8,214f
	ldrb w8,[sp,#1848]
	ldr x13,[sp,#1840]
	add x20,sp,#0xb50
	ldr x27,[sp,#168]
	b 94b
214:
	add x2,sp,#0x1,lsl #12
	add x0,sp,#0x700
	mov w1,#0x1
	add x2,x2,#0xc10
	mov w3,#0x1b
	bl .Ltk_script.fields.number_at
	ldrb w8,[sp,#1792]
	ldr x9,[sp,#1800]
	str x9,[sp,#144]
	cbz w8,215f
	ldrb w8,[sp,#1816]
	ldr x13,[sp,#1808]
	add x20,sp,#0xb50
	ldr x27,[sp,#144]
	b 94b
215:
	add x2,sp,#0x1,lsl #12
	add x0,sp,#0x6e0
	mov w1,#0x1
	add x2,x2,#0xc10
	mov w3,#0x1c
	bl .Ltk_script.fields.signed_at
	ldrb w8,[sp,#1760]
	ldr x9,[sp,#1768]
	str x9,[sp,#136]
	cbz w8,216f
	ldrb w8,[sp,#1784]
	ldr x13,[sp,#1776]
	add x20,sp,#0xb50
	ldr x27,[sp,#136]
	b 94b
216:
	add x2,sp,#0x1,lsl #12
	add x0,sp,#0x6c0
	mov w1,#0x1
	add x2,x2,#0xc10
	mov w3,#0x1d
	bl .Ltk_script.fields.signed_at
	ldrb w8,[sp,#1728]
	ldr x9,[sp,#1736]
	str x9,[sp,#112]
	cbz w8,217f
	ldrb w8,[sp,#1752]
	ldr x13,[sp,#1744]
	add x20,sp,#0xb50
	ldr x27,[sp,#112]
	b 94b
217:
	add x2,sp,#0x1,lsl #12
	add x0,sp,#0x6a0
	mov w1,#0x1
	add x2,x2,#0xc10
	mov w3,#0x1e
	bl .Ltk_script.fields.number_at
	ldrb w8,[sp,#1696]
	ldr x9,[sp,#1704]
	str x9,[sp,#104]
	cbz w8,218f
	ldrb w8,[sp,#1720]
	ldr x13,[sp,#1712]
	add x20,sp,#0xb50
	ldr x27,[sp,#104]
	b 94b
218:
	add x2,sp,#0x1,lsl #12
	add x0,sp,#0x680
	mov w1,#0x1
	add x2,x2,#0xc10
	mov w3,#0x1f
	bl .Ltk_script.fields.number_at
	ldrb w8,[sp,#1664]
	ldr x9,[sp,#1672]
	str x9,[sp,#96]
	cbz w8,219f
	ldrb w8,[sp,#1688]
	ldr x13,[sp,#1680]
	add x20,sp,#0xb50
	ldr x27,[sp,#96]
	b 94b
219:
	add x2,sp,#0x1,lsl #12
	add x0,sp,#0x660
	mov w1,#0x1
	add x2,x2,#0xc10
	mov w3,#0x20
	bl .Ltk_script.fields.number_at
	ldrb w8,[sp,#1632]
	ldr x9,[sp,#1640]
	str x9,[sp,#40]
	cbz w8,220f
	ldrb w8,[sp,#1656]
	ldr x13,[sp,#1648]
	add x20,sp,#0xb50
	ldr x27,[sp,#40]
	b 94b
220:
	add x2,sp,#0x1,lsl #12
	add x0,sp,#0x640
	mov w1,#0x1
	add x2,x2,#0xc10
	mov w3,#0x21
	bl .Ltk_script.fields.number_at
	ldrb w8,[sp,#1600]
	ldr x9,[sp,#1608]
	str x9,[sp,#16]
	cbz w8,221f
	ldrb w8,[sp,#1624]
	ldr x13,[sp,#1616]
	add x20,sp,#0xb50
	ldr x27,[sp,#16]
	b 94b
221:
	add x0,sp,#0x1,lsl #12
	add x1,sp,#0x1,lsl #12
	add x0,x0,#0x190
	add x1,x1,#0xc10
	bl .Ltk_script.running_clocks.read_clocks
	add x8,sp,#0x1,lsl #12
	ldr x6,[sp,#4504]
	ldr x13,[sp,#4512]
	add x8,x8,#0x130
	ldrb w9,[x8,#96]
	ldrb w8,[x8,#120]
	cbz w9,222f
	movi v0.2d,#0x0
	mov x9,xzr
	mov w10,wzr
	mov w28,wzr
	mov w30,wzr
	mov w12,wzr
	mov w14,wzr
	mov x15,xzr
	mov x16,xzr
	mov w17,wzr
	mov w18,wzr
	mov w0,wzr
	mov w1,wzr
	mov x2,xzr
	mov x3,xzr
	mov x5,xzr
	mov x7,xzr
	mov x19,xzr
	mov x21,xzr
	mov x22,xzr
	mov x23,xzr
	mov x25,xzr
	mov x4,xzr
	mov w11,#0x1
	stur q0,[x24,#63]
	str q0,[sp,#2336]
	str q0,[sp,#2320]
	str q0,[sp,#2304]
	str q0,[sp,#2288]
	strh wzr,[sp,#1588]
	strb wzr,[sp,#1590]
	b 78b
222:
	sub w9,w23,#0x1
	cmp w9,#0x3ff
	b.hi 223f
	ldr w11,[sp,#192]
	mov x9,xzr
	mov w10,wzr
	mov w12,#0x2
	cmp w11,#0xa
	mov w11,#0x1
	stp x11,x12,[sp,#24]
	mov w11,#0x1
	b.hi 224f
	mov w12,#0x2401
	ldr w14,[sp,#184]
	movk w12,#0xf4,lsl #16
	cmp w14,w12
	b.cs 224f
	ldr w14,[sp,#176]
	cmp w14,w12
	b.cs 224f
	ldr x14,[sp,#160]
	mov w12,#0xffffdcd8
	add w12,w14,w12
	cmp w12,#0x7d0
	b.hi 224f
	ldr x30,[sp,#144]
	mov w12,w10
	mov w14,w10
	mov x15,x9
	mov x16,x9
	mov w17,w10
	mov w18,w10
	mov w0,w10
	mov w1,w10
	mov x2,x9
	mov x3,x9
	mov x5,x9
	mov x7,x9
	mov x19,x9
	mov x21,x9
	mov x22,x9
	mov x4,x9
	stp x9,x12,[sp,#80]
	str x12,[sp,#56]
	str x9,[sp,#72]
	str w10,[sp,#48]
	tbnz x30,#63,225f
	ldr x11,[sp,#168]
	cmp x27,#0x0
	mov x12,#0x1
	ldr x15,[sp,#112]
	cneg x14,x27,mi
	movk x12,#0xa120,lsl #32
	cmp x11,#0x0
	movk x12,#0x7,lsl #48
	mov x9,xzr
	cneg x11,x11,mi
	cmp x15,#0x0
	mov w10,wzr
	cneg x4,x15,mi
	cmp x11,x12
	mov w11,#0x1
	str x11,[sp,#24]
	mov w11,#0x1
	mov w15,#0x2
	str x15,[sp,#32]
	b.cs 224f
	mov x15,#0x650000000000
	movk x15,#0x1dcd,lsl #48
	udiv x7,x15,x23
	cmp x14,x7
	b.hi 224f
	sub x12,x12,#0x1
	mov w14,w10
	mov x15,x9
	udiv x19,x12,x23
	mov w12,w10
	mov x16,x9
	mov w17,w10
	mov w18,w10
	mov w0,w10
	mov w1,w10
	mov x2,x9
	mov x3,x9
	mov x5,x9
	mov x22,x9
	stp x9,x12,[sp,#80]
	str x12,[sp,#56]
	str x9,[sp,#72]
	str w10,[sp,#48]
	add x21,x19,x7
	mov x7,x9
	mov x19,x9
	cmp x4,x21
	mov x21,x9
	mov x4,x9
	b.hi 225f
	ldr x11,[sp,#208]
	cmp x20,#0x1
	mov x9,xzr
	mov w10,wzr
	mov w12,#0x2
	ccmp x11,#0x0,#0x4,ne
	mov w11,#0x1
	stp x11,x12,[sp,#24]
	cset w30,eq
	cmp w28,#0x4
	mov w11,#0x1
	b.hi 224f
	cmp x20,#0x1
	b.hi 224f
	mov w12,w10
	mov w14,w10
	mov x15,x9
	mov x16,x9
	mov w17,w10
	mov w18,w10
	mov w0,w10
	mov w1,w10
	mov x2,x9
	mov x3,x9
	mov x5,x9
	mov x7,x9
	mov x19,x9
	mov x21,x9
	mov x22,x9
	mov x4,x9
	stp x9,x12,[sp,#80]
	str x12,[sp,#56]
	str x9,[sp,#72]
	str w10,[sp,#48]
	cbz w30,225f
	ldr x11,[sp,#104]
	mov x9,xzr
	mov w10,wzr
	mov w14,#0x2
	lsr x12,x11,#59
	mov w11,#0x1
	stp x11,x14,[sp,#24]
	mov w11,#0x1
	cbz x12,224f
	ldp x12,x14,[sp,#96]
	cmp xzr,x12
	mov x12,#0x1800000000000000
	sbcs xzr,x12,x14
	b.cc 224f
	mov x15,#0x7d03
	ldr x18,[sp,#40]
	mov w12,w10
	movk x15,#0x25c1,lsl #16
	mov w14,w10
	mov x16,x9
	movk x15,#0x2,lsl #32
	mov w0,w10
	mov w1,w10
	add x17,x15,#0x2
	mov x15,x9
	mov x2,x9
	cmp x18,x17
	mov w17,w10
	mov w18,w10
	mov x3,x9
	mov x5,x9
	mov x7,x9
	mov x19,x9
	mov x21,x9
	mov x22,x9
	mov x4,x9
	stp x9,x12,[sp,#80]
	str x12,[sp,#56]
	str x9,[sp,#72]
	str w10,[sp,#48]
	b.hi 225f
	ldp x1,x2,[sp,#160]
	mov x9,#0x86a000000000
	movk x9,#0x1,lsl #48
	mov w10,#0x3
	ldr x4,[sp,#4600]
	ldp x19,x7,[sp,#104]
	str x10,[sp,#32]
	madd x9,x1,x9,x2
	mov w10,w8
	mov w8,w23
	str x8,[sp,#88]
	mov w8,w25
	cmp x20,#0x1
	str x8,[sp,#56]
	ldp x5,x3,[sp,#136]
	ldr x15,[sp,#208]
	ldr w17,[sp,#192]
	ldr w18,[sp,#184]
	ldr w0,[sp,#176]
	ldr x21,[sp,#96]
	mov w11,wzr
	udiv x14,x9,x23
	add x9,sp,#0x1,lsl #12
	mov w12,w28
	add x9,x9,#0x190
	mov x16,x27
	strh wzr,[sp,#1596]
	ldur q0,[x9,#41]
	ldur q1,[x9,#57]
	ldur q2,[x9,#73]
	ldur q3,[x9,#25]
	strb wzr,[sp,#1598]
	str q0,[sp,#3184]
	ldur q0,[x9,#88]
	lsr x9,x13,#8
	str q1,[sp,#3200]
	str q2,[sp,#3216]
	stur q0,[x26,#63]
	str q3,[sp,#3168]
	str x6,[sp,#24]
	str w13,[sp,#48]
	add x8,x14,x7
	cset w14,eq
	mul x22,x8,x23
	ldr x8,[sp,#40]
	str x8,[sp,#80]
	ldr x8,[sp,#16]
	str x8,[sp,#72]
	b 225f
223:
	mov w8,#0x2
	mov w11,#0x1
	mov w10,wzr
	str x8,[sp,#32]
	mov w8,#0x1
	mov x9,xzr
	stp xzr,xzr,[sp,#80]
	mov w12,wzr
	mov w14,wzr
	str xzr,[sp,#56]
	mov x15,xzr
	mov x16,xzr
	mov w17,wzr
	mov w18,wzr
	mov w0,wzr
	mov w1,wzr
	mov x2,xzr
	mov x3,xzr
	mov x5,xzr
	mov x7,xzr
	mov x19,xzr
	mov x21,xzr
	mov x22,xzr
	str xzr,[sp,#72]
	str wzr,[sp,#48]
	mov x4,xzr
	str x8,[sp,#24]
	b 225f
224:
	mov w8,w10
	mov w12,w10
	mov w14,w10
	stp x9,x8,[sp,#80]
	mov x15,x9
	mov x16,x9
	str x8,[sp,#56]
	mov w17,w10
	mov w18,w10
	mov w0,w10
	mov w1,w10
	mov x2,x9
	mov x3,x9
	mov x5,x9
	mov x7,x9
	mov x19,x9
	mov x21,x9
	mov x22,x9
	str x9,[sp,#72]
	mov x4,x9
	str w10,[sp,#48]
225:
	ldr q0,[sp,#3184]
	ldrb w23,[sp,#1598]
	ldrh w8,[sp,#1596]
	ldr q1,[sp,#3200]
	ldr q2,[sp,#3216]
	ldr q3,[sp,#3168]
	str q0,[sp,#2304]
	ldur q0,[x26,#63]
	ldr x25,[sp,#72]
	strb w23,[sp,#1590]
	ldr x30,[sp,#56]
	strh w8,[sp,#1588]
	ldr w8,[sp,#48]
	str q1,[sp,#2320]
	ldp x13,x6,[sp,#24]
	str q2,[sp,#2336]
	ldp x23,x28,[sp,#80]
	stur q0,[x24,#63]
	str q3,[sp,#2288]
	b 78b

public tkc_session_snapshot,4,68
	ldp q0,q1,[x1]
	ldr x8,[x1,#96]
	ldp q2,q3,[x1,#32]
	ldr x9,[x1,#64]
	ldr w10,[x1,#72]
	ldrb w11,[x1,#76]
	str x8,[x0]
	stur q0,[x0,#8]
	stur q1,[x0,#24]
	stur q2,[x0,#40]
	stur q3,[x0,#56]
	str x9,[x0,#72]
	str w10,[x0,#80]
	strb w11,[x0,#84]
	sturh wzr,[x0,#85]
	strb wzr,[x0,#87]
	ret

	.section .rodata.cst16,"aM",%progbits,16
	.balign 16
	.quad 0x8040201008040201,0x8040201008040201
	.quad 0x1,0x0
	.quad 0x8040201008040201,0x8040201008040201
	.quad 0x8040201008040201,0x8040201008040201
	.quad 0xf4240000000002,0x271000f42400
	.quad 0x1000000000000000,0x0
	.quad 0x1,0x4
	.quad 0x2,0x1
	.quad 0x1,0x2
	.quad 0x1000000000000000,0x0
	.quad 0x100000000000040,0x100000000000018
	.quad 0xf4240000000002,0x271000f42400
	.quad 0x1000000000000000,0x0
	.quad 0x3b9aca0000000000,0x1
	.quad 0x1000000000000000,0x0
	.quad 0xf4240000000002,0x271000f42400
	.quad 0x696e6f746f6e6f6d,0x657372616f635f63
	.quad 0x6c70206120746f6e,0x656e696c206e6961
	.quad 0x796e616d206f6f74,0x7364726f63657220

	.section .rodata.cst8,"aM",%progbits,8
	.balign 8
	.quad 0x1
	.quad 0x100000000
	.quad 0x4000000064
	.quad 0x3631323737373631
	.quad 0x78656d69746a6461
	.quad 0x656d69746c616572
	.quad 0x656d6974746f6f62

	.section .rodata..Lstatic.0,"a",%progbits

	.section .rodata..Lstatic.1,"a",%progbits
	.byte 117,112,100,97,116,101

	.section .rodata.cst4,"aM",%progbits,4
	.byte 115,116,101,112
	.byte 102,114,101,113
	.byte 116,105,99,107
	.byte 111,112,101,110,102,117,108,108

	.section .rodata..Lstatic.8,"a",%progbits
	.byte 115,117,115,112,101,110,100

	.section .rodata..Lstatic.9,"a",%progbits
	.byte 114,101,115,117,109,101

	.section .rodata..Lstatic.10,"a",%progbits
	.byte 99,111,117,110,116,101,114

	.section .rodata..Lstatic.12,"a",%progbits
	.byte 109,111,110,111,116,111,110,105,99

	.section .rodata..Lstatic.16,"a",%progbits
	.byte 114,101,97,108,116,105,109,101,95,99,111,97,114,115,101

	.section .rodata..Lstatic.17,"a",%progbits
	.byte 109,111,110,111,116,111,110,105,99,95,114,97,119

	.section .rodata..Lstatic.19,"a",%progbits
	.byte 111,112,101,110,104,122

	.section .rodata..Lstatic.20,"a",%progbits
	.byte 111,112,101,110,119,111,114,100,115

	.section .rodata..Lstatic.22,"a",%progbits
	.byte 111,112,101,110,44

	.section .rodata..Lstatic.23,"a",%progbits
	.byte 48,48,48,49,48,50,48,51,48,52,48,53,48,54,48,55,48,56,48,57,49,48,49,49,49,50,49,51,49,52,49,53
	.byte 49,54,49,55,49,56,49,57,50,48,50,49,50,50,50,51,50,52,50,53,50,54,50,55,50,56,50,57,51,48,51,49
	.byte 51,50,51,51,51,52,51,53,51,54,51,55,51,56,51,57,52,48,52,49,52,50,52,51,52,52,52,53,52,54,52,55
	.byte 52,56,52,57,53,48,53,49,53,50,53,51,53,52,53,53,53,54,53,55,53,56,53,57,54,48,54,49,54,50,54,51
	.byte 54,52,54,53,54,54,54,55,54,56,54,57,55,48,55,49,55,50,55,51,55,52,55,53,55,54,55,55,55,56,55,57
	.byte 56,48,56,49,56,50,56,51,56,52,56,53,56,54,56,55,56,56,56,57,57,48,57,49,57,50,57,51,57,52,57,53
	.byte 57,54,57,55,57,56,57,57

	.section .rodata..Lstatic.24,"a",%progbits
	.byte 111,107,44

	.section .rodata..Lstatic.28,"a",%progbits
	.byte 111,107

	.section .rodata..Lstatic.29,"a",%progbits
	.byte 105,110,115

	.section .rodata..Lstatic.30,"a",%progbits
	.byte 100,101,108

	.section .rodata..Lstatic.31,"a",%progbits
	.byte 111,111,112

	.section .rodata..Lstatic.32,"a",%progbits
	.byte 119,97,105,116

	.section .rodata..Lstatic.33,"a",%progbits
	.byte 101,114,114,111,114

	.section .rodata..Lstatic.36,"a",%progbits
	.byte 97,116,44,114,101,97,108,116,105,109,101,44

	.section .rodata..Lstatic.37,"a",%progbits
	.byte 97,116,44,109,111,110,111,116,111,110,105,99,44

	.section .rodata..Lstatic.38,"a",%progbits
	.byte 97,116,44,98,111,111,116,116,105,109,101,44

	.section .rodata..Lstatic.39,"a",%progbits
	.byte 97,116,44,116,97,105,44

	.section .rodata..Lstatic.40,"a",%progbits
	.byte 97,116,44,114,101,97,108,116,105,109,101,95,99,111,97,114,115,101,44

	.section .rodata..Lstatic.41,"a",%progbits
	.byte 97,116,44,109,111,110,111,116,111,110,105,99,95,99,111,97,114,115,101,44

	.section .rodata..Lstatic.42,"a",%progbits
	.byte 97,116,44,109,111,110,111,116,111,110,105,99,95,114,97,119,44

	.section .rodata..Lstatic.43,"a",%progbits
	.byte 110,111,44

	.section .rodata..Lstatic.45,"a",%progbits
	.byte 97,115,108,101,101,112

	.section .rodata..Lstatic.46,"a",%progbits
	.byte 97,119,97,107,101

	.section .rodata..Lstatic.47,"a",%progbits
	.byte 105,110,118,97,108,105,100

	.section .rodata..Lstatic.48,"a",%progbits
	.byte 98,101,104,105,110,100

	.section .rodata..Lstatic.49,"a",%progbits
	.byte 114,97,110,103,101

	.section .rodata..Lstatic.50,"a",%progbits
	.byte 109,101,109,111,114,121

	.section .rodata..Lstatic.54,"a",%progbits
	.byte 58,32,110,111,116,32,97,32,118,97,108,105,100,32,111,112,101,110,105,110,103

	.section .rodata..Lstatic.55,"a",%progbits
	.byte 58,32,117,110,107,110,111,119,110,32,119,111,114,100

	.section .rodata..Lstatic.56,"a",%progbits
	.byte 58,32,119,114,111,110,103,32,110,117,109,98,101,114,32,111,102,32,102,105,101,108,100,115

	.section .rodata..Lstatic.57,"a",%progbits
	.byte 58,32,110,111,116,32,97,32,110,117,109,98,101,114,32,105,110,32,114,97,110,103,101

	.section .rodata..Lstatic.58,"a",%progbits
	.byte 110,111,32,114,101,99,111,114,100

	.section .rodata..Lstatic.59,"a",%progbits
	.byte 111,117,116,32,111,102,32,109,101,109,111,114,121

	.section .rodata..Lstatic.60,"a",%progbits
	.byte 58,32,97,32,114,101,97,100,105,110,103,32,100,111,101,115,32,110,111,116,32,104,97,118,101,32,56,32,116,111,32,54
	.byte 52,32,98,105,116,115

	.section .rodata..Lstatic.61,"a",%progbits
	.byte 58,32,116,104,101,32,115,104,105,102,116,32,105,115,32,97,98,111,118,101,32,51,50

	.section .rodata..Lstatic.62,"a",%progbits
	.byte 58,32,116,104,101,32,109,117,108,116,32,105,115,32,98,101,108,111,119,32,50,53,54

	.section .rodata..Lstatic.63,"a",%progbits
	.byte 58,32,116,104,101,32,109,117,108,116,32,97,110,100,32,49,49,32,112,101,114,99,101,110,116,32,111,102,32,105,116,32
	.byte 100,111,32,110,111,116,32,102,105,116,32,51,50,32,98,105,116,115

	.section .rodata..Lstatic.64,"a",%progbits
	.byte 58,32,116,104,101,32,102,114,101,113,117,101,110,99,121,32,105,115,32,48,32,72,122,32,111,114,32,116,104,101,32,115
	.byte 112,97,110,32,105,115,32,110,111,116,32,49,32,116,111,32,54,48,48,32,115,101,99,111,110,100,115

	.section .rodata..Lstatic.65,"a",%progbits
	.byte 114,101,99,111,114,100,32

	.section .rodata..Lstatic.66,"a",%progbits
	.byte 32,98,121,116,101,115

	.section .rodata..Lstatic.67,"a",%progbits
	.byte 108,97,114,103,101,114,32,116,104,97,110,32

	.section .rodata..Lswitch.table.tkc_row_parse,"a",%progbits
	.balign 4
	.long 0x0,0x1,0x7,0xb,0x5,0x6,0x4

	.section .rodata..Lswitch.table.tkc_row_parse.108,"a",%progbits
	.balign 4
	.long 0x0,0x20,0x21,0x22,0x23,0x24,0x40,0x41
	.long 0x42,0x43,0x44,0x45

	.section .rodata..Lswitch.table.tkc_session_record.110,"a",%progbits
	.balign 8
	.quad 0x2,0x3,0x3,0x3
	.quad 0x4,0x5

	.section .rodata..Lswitch.table.tkc_session_record.111.rel,"a",%progbits
	.balign 4
	.long .rodata..Lstatic.28-.
	.long .rodata..Lstatic.29+4-.
	.long .rodata..Lstatic.30+8-.
	.long .rodata..Lstatic.31+12-.
	.long .rodata..Lstatic.32+16-.
	.long .rodata..Lstatic.33+20-.

	.section .rodata..Lswitch.table.tkc_session_record.112,"a",%progbits
	.balign 8
	.quad 0x4,0x6,0x5,0x7
	.quad 0x6,0x5,0x6

	.section .rodata..Lswitch.table.tkc_session_record.114,"a",%progbits
	.balign 8
	.quad 0x26,0x17,0x17,0x32
	.quad 0x3b

	.section .rodata..Lswitch.table.tkc_session_record.115.rel,"a",%progbits
	.balign 4
	.long .rodata..Lstatic.60-.
	.long .rodata..Lstatic.61+4-.
	.long .rodata..Lstatic.62+8-.
	.long .rodata..Lstatic.63+12-.
	.long .rodata..Lstatic.64+16-.

	.section .eh_frame,"a",%progbits
	.balign 8
1:
	.byte 16,0,0,0,0,0,0,0,1,122,82,0,1,120,30,1,27,12,31,0
frame ".text.tk_script::one_line::is_line",0,2764,16
	.byte 0,0,0,0
frame ".text.tk_script::one_line::row_in",0,4236,100
	.byte 0,68,14,96,157,12,158,11,68,155,9,156,10,72,153,7,154,8,68,151,5,152,6,68,149,3,150,4,68,147,1,148
	.byte 2,68,14,128,7,3,28,7,14,96,88,14,0,211,212,213,214,215,216,217,218,219,220,221,222,68,14,128,7,147,1,148
	.byte 2,149,3,150,4,151,5,152,6,153,7,154,8,155,9,156,10,157,12,158,11,0,0,0
frame ".text.tk_script::plain::Lines::of",0,1096,156
	.byte 0,68,14,144,1,5,78,17,5,79,18,68,5,76,15,5,77,16,68,5,74,13,5,75,14,68,5,72,11,5,73,12
	.byte 68,157,10,158,9,72,153,7,156,8,68,151,5,152,6,68,149,3,150,4,68,147,1,148,2,68,14,176,5,3,64,1
	.byte 14,144,1,100,14,0,211,212,213,214,215,216,217,220,221,222,6,72,6,73,6,74,6,75,6,76,6,77,6,78,6,79
	.byte 68,14,176,5,147,1,148,2,149,3,150,4,151,5,152,6,153,7,156,8,157,10,158,9,5,72,11,5,73,12,5,74
	.byte 13,5,75,14,5,76,15,5,77,16,5,78,17,5,79,18
frame ".text.core::cmp::slices::groups_equal::<i8,31'core::cmp::numbers::U8PartialEq{}>",0,544,16
	.byte 0,0,0,0
frame ".text.tk_script::fields::number_at::<#187b3a1c305ebc38>",0,340,48
	.byte 0,68,14,64,157,8,158,7,76,149,3,150,4,68,147,1,148,2,84,151,6,3,40,1,14,0,211,212,213,214,215,221
	.byte 222,0,0,0
frame ".text.memchr::bytes::memchr",0,1068,16
	.byte 0,0,0,0
frame ".text.tk_script::row::read_timed::<#187b3a1c305ebc38>",0,284,64
	.byte 0,68,14,128,1,76,147,1,148,2,76,157,8,158,7,72,151,6,72,149,3,150,4,2,100,14,0,211,212,213,214,215
	.byte 221,222,68,14,128,1,147,1,148,2,149,3,150,4,151,6,157,8,158,7
frame ".text.tk_script::fields::signed_at::<#187b3a1c305ebc38>",0,564,48
	.byte 0,68,14,64,157,8,158,7,76,149,3,150,4,68,147,1,148,2,84,151,6,3,8,2,14,0,211,212,213,214,215,221
	.byte 222,0,0,0
frame ".text.tk_script::row::read_valued::<#187b3a1c305ebc38>",0,252,92
	.byte 0,68,14,112,76,147,1,148,2,72,157,6,158,5,76,149,3,150,4,2,100,14,0,211,212,213,214,221,222,68,14,112
	.byte 147,1,148,2,149,3,150,4,157,6,158,5,2,76,14,0,211,212,213,214,221,222,68,14,112,147,1,148,2,149,3,150
	.byte 4,157,6,158,5,92,14,0,211,212,213,214,221,222,0,0
frame ".text.tk_script::fields::number32_at::<#187b3a1c305ebc38>",0,364,48
	.byte 0,68,14,64,157,8,158,7,76,149,3,150,4,68,147,1,148,2,84,151,6,3,64,1,14,0,211,212,213,214,215,221
	.byte 222,0,0,0
frame ".text.tk_script::fields::time_at::<#187b3a1c305ebc38>",0,244,104
	.byte 0,68,14,128,1,72,147,1,148,2,76,157,8,158,7,72,151,6,72,149,3,150,4,2,80,14,0,211,212,213,214,215
	.byte 221,222,68,14,128,1,147,1,148,2,149,3,150,4,151,6,157,8,158,7,2,76,14,0,211,212,213,214,215,221,222,68
	.byte 14,128,1,147,1,148,2,149,3,150,4,151,6,157,8,158,7,100,14,0,211,212,213,214,215,221,222,0
frame ".text.tk_ntp::steered_clock::SteeredClock::open",0,288,16
	.byte 0,0,0,0
frame ".text.tk_script::opening::read_opening::<#187b3a1c305ebc38>",0,1476,100
	.byte 0,68,14,96,157,12,158,11,68,155,9,156,10,72,153,7,154,8,68,151,5,152,6,68,149,3,150,4,68,147,1,148
	.byte 2,68,14,240,8,3,216,1,14,96,88,14,0,211,212,213,214,215,216,217,218,219,220,221,222,68,14,240,8,147,1,148
	.byte 2,149,3,150,4,151,5,152,6,153,7,154,8,155,9,156,10,157,12,158,11,0,0,0
frame ".text.tk_script::opening::read_hz::<#187b3a1c305ebc38>",0,196,64
	.byte 0,68,14,64,76,147,2,72,157,4,158,3,108,14,0,211,221,222,68,14,64,147,2,157,4,158,3,2,76,14,0,211
	.byte 221,222,68,14,64,147,2,157,4,158,3,104,14,0,211,221,222,0,0,0
frame ".text.tk_script::opening::counter_of",0,360,16
	.byte 0,0,0,0
frame ".text.tk_script::running_clocks::read_clocks::<#187b3a1c305ebc38>",0,1492,100
	.byte 0,68,14,96,157,12,158,11,68,155,9,156,10,72,153,7,154,8,68,151,5,152,6,68,149,3,150,4,68,147,1,148
	.byte 2,68,14,224,5,3,8,1,14,96,88,14,0,211,212,213,214,215,216,217,218,219,220,221,222,68,14,224,5,147,1,148
	.byte 2,149,3,150,4,151,5,152,6,153,7,154,8,155,9,156,10,157,12,158,11,0,0,0
frame ".text.tk_script::running_clocks::clocks_from",0,572,48
	.byte 0,68,14,32,149,4,76,147,1,148,2,2,196,14,0,211,212,213,68,14,32,147,1,148,2,149,4,3,96,1,14,0
	.byte 211,212,213,0
frame ".text.unlikely.tk_clock::read_base::ReadBase::nanos_at_last",0,208,16
	.byte 0,0,0,0
frame ".text.tk_clock::clock::Clock::update_late",0,628,80
	.byte 0,68,14,112,76,149,3,150,4,72,151,5,152,6,76,147,1,148,2,84,157,10,158,9,72,153,7,154,8,3,188,1
	.byte 14,0,211,212,213,214,215,216,217,218,221,222,68,14,112,147,1,148,2,149,3,150,4,151,5,152,6,153,7,154,8,157
	.byte 10,158,9,0
frame ".text.tk_counter::counter::CounterDesc::split_long",0,236,16
	.byte 0,0,0,0
frame ".text.tk_clock::clock::Clock::apply_any",0,2112,92
	.byte 0,68,14,160,1,68,155,9,156,10,72,153,7,154,8,72,151,5,152,6,76,149,3,150,4,72,157,12,158,11,72,147
	.byte 1,148,2,2,112,14,0,211,212,213,214,215,216,217,218,219,220,221,222,68,14,160,1,147,1,148,2,149,3,150,4,151
	.byte 5,152,6,153,7,154,8,155,9,156,10,157,12,158,11,0
frame ".text.tk_ntp::lag::Lag::accounted_late",0,296,16
	.byte 0,0,0,0
frame ".text.tk_ntp::course::Course::apply_late::<#dbeed42889e166b7>",0,984,156
	.byte 0,68,14,80,72,149,3,150,4,72,147,1,148,2,76,157,6,158,5,2,132,14,0,211,212,213,214,221,222,68,14,80
	.byte 147,1,148,2,149,3,150,4,157,6,158,5,3,52,1,14,0,211,212,213,214,221,222,68,14,80,147,1,148,2,149,3
	.byte 150,4,157,6,158,5,96,14,0,211,212,213,214,221,222,68,14,80,147,1,148,2,149,3,150,4,157,6,158,5,112,14
	.byte 0,211,212,213,214,221,222,68,14,80,147,1,148,2,149,3,150,4,157,6,158,5,3,96,1,14,0,211,212,213,214,221
	.byte 222,68,14,80,147,1,148,2,149,3,150,4,157,6,158,5
frame ".text.tk_ntp::course::Course::advance::<#dbeed42889e166b7>",0,2236,92
	.byte 0,68,14,128,1,72,157,12,158,11,72,155,9,156,10,68,153,7,154,8,68,151,5,152,6,68,149,3,150,4,68,147
	.byte 1,148,2,3,100,1,14,0,211,212,213,214,215,216,217,218,219,220,221,222,68,14,128,1,147,1,148,2,149,3,150,4
	.byte 151,5,152,6,153,7,154,8,155,9,156,10,157,12,158,11
frame ".text.tk_ntp::course::Course::command::<#dbeed42889e166b7>",0,1164,84
	.byte 0,68,14,176,1,68,151,5,152,6,76,153,7,154,8,80,149,3,150,4,76,147,1,148,2,76,157,10,158,9,3,220
	.byte 3,14,0,211,212,213,214,215,216,217,218,221,222,68,14,176,1,147,1,148,2,149,3,150,4,151,5,152,6,153,7,154
	.byte 8,157,10,158,9,0,0,0
frame ".text.tk_ntp::course::Course::steer::<#dbeed42889e166b7>",0,932,60
	.byte 0,68,14,80,72,157,6,158,5,72,149,3,150,4,68,147,1,148,2,3,132,3,14,0,211,212,213,214,221,222,68,14
	.byte 80,147,1,148,2,149,3,150,4,157,6,158,5,0,0,0
frame ".text.tk_ntp::course::giving::give_any::<#dbeed42889e166b7>",0,352,44
	.byte 0,80,14,64,76,157,4,158,3,68,147,2,3,4,1,14,0,211,221,222,68,14,64,147,2,157,4,158,3,0,0,0
frame ".text.tk_ntp::course::Course::apply_any::<#dbeed42889e166b7>",0,416,92
	.byte 0,68,14,160,2,72,151,5,152,6,72,149,3,150,4,72,147,1,148,2,84,157,10,158,9,68,156,8,2,72,14,0
	.byte 211,212,213,214,215,216,220,221,222,68,14,160,2,147,1,148,2,149,3,150,4,151,5,152,6,156,8,157,10,158,9,3
	.byte 28,1,14,0,211,212,213,214,215,216,220,221,222,0,0,0
frame ".text.tk_ntp::course::Course::adjtimex::<#dbeed42889e166b7>",0,728,76
	.byte 0,68,14,176,2,80,157,10,158,9,76,156,8,72,151,5,152,6,68,149,3,150,4,68,147,1,148,2,2,76,14,0
	.byte 211,212,213,214,215,216,220,221,222,68,14,176,2,147,1,148,2,149,3,150,4,151,5,152,6,156,8,157,10,158,9,0
frame ".text.tk_ntp::course::Course::request::<#dbeed42889e166b7>",0,1972,104
	.byte 0,68,14,208,1,76,5,72,14,68,157,12,158,11,84,155,9,156,10,68,153,7,154,8,84,151,5,152,6,68,149,3
	.byte 150,4,72,147,1,148,2,3,96,7,14,0,211,212,213,214,215,216,217,218,219,220,221,222,6,72,68,14,208,1,147,1
	.byte 148,2,149,3,150,4,151,5,152,6,153,7,154,8,155,9,156,10,157,12,158,11,5,72,14,0,0,0
frame ".text.tk_script::line::Line::put_signed",0,332,16
	.byte 0,0,0,0
frame ".text.tk_session::plain::look",0,3892,64
	.byte 0,68,14,80,157,10,158,9,68,153,7,156,8,72,151,5,152,6,68,149,3,150,4,68,147,1,148,2,68,14,208,13
	.byte 3,0,15,14,80,84,14,0,211,212,213,214,215,216,217,220,221,222,0,0
frame ".text.tk_session::plain::line_of",0,1180,60
	.byte 0,68,14,144,2,72,149,3,156,4,72,147,1,148,2,72,157,6,158,5,3,88,4,14,0,211,212,213,220,221,222,68
	.byte 14,144,2,147,1,148,2,149,3,156,4,157,6,158,5,0
frame ".text.tk_session_c::fault_text::of_record",0,448,48
	.byte 0,68,14,176,1,76,151,6,68,149,3,150,4,76,147,1,148,2,88,157,8,158,7,3,132,1,14,0,211,212,213,214
	.byte 215,221,222,0
frame ".text.tk_session_c::storage::TextStorage::write",0,264,64
	.byte 0,68,14,32,157,4,158,3,72,147,1,148,2,2,96,14,0,211,212,221,222,68,14,32,147,1,148,2,157,4,158,3
	.byte 88,14,0,211,212,221,222,68,14,32,147,1,148,2,157,4,158,3,0,0
frame .text.tkc_row_parse,0,1020,240
	.byte 0,68,14,176,2,80,151,5,156,6,72,149,3,150,4,76,147,1,148,2,76,157,8,158,7,2,112,14,0,211,212,213
	.byte 214,215,220,221,222,68,14,176,2,147,1,148,2,149,3,150,4,151,5,156,6,157,8,158,7,88,14,0,211,212,213,214
	.byte 215,220,221,222,68,14,176,2,147,1,148,2,149,3,150,4,151,5,156,6,157,8,158,7,2,116,14,0,211,212,213,214
	.byte 215,220,221,222,68,14,176,2,147,1,148,2,149,3,150,4,151,5,156,6,157,8,158,7,2,136,14,0,211,212,213,214
	.byte 215,220,221,222,68,14,176,2,147,1,148,2,149,3,150,4,151,5,156,6,157,8,158,7,84,14,0,211,212,213,214,215
	.byte 220,221,222,68,14,176,2,147,1,148,2,149,3,150,4,151,5,156,6,157,8,158,7,2,224,14,0,211,212,213,214,215
	.byte 220,221,222,68,14,176,2,147,1,148,2,149,3,150,4,151,5,156,6,157,8,158,7,3,52,1,14,0,211,212,213,214
	.byte 215,220,221,222
frame .text.tkc_session_begin,0,120,16
	.byte 0,0,0,0
frame .text.tkc_session_differences,0,8,16
	.byte 0,0,0,0
frame .text.tkc_session_records,0,8,16
	.byte 0,0,0,0
frame .text.tkc_session_save,0,216,16
	.byte 0,0,0,0
frame .text.tkc_session_record,0,22220,112
	.byte 0,68,14,96,157,12,158,11,68,155,9,156,10,72,153,7,154,8,68,151,5,152,6,68,149,3,150,4,68,147,1,148
	.byte 2,68,14,224,24,72,14,224,48,72,14,192,59,3,192,35,14,192,27,68,14,96,88,14,0,211,212,213,214,215,216,217
	.byte 218,219,220,221,222,68,14,192,59,147,1,148,2,149,3,150,4,151,5,152,6,153,7,154,8,155,9,156,10,157,12,158
	.byte 11,0,0,0
frame .text.tkc_session_snapshot,0,68,16
	.byte 0,0,0,0

	.section .data.rel.ro..Lswitch.table.tkc_session_record.113,"aw",%progbits
	.balign 8
	.quad .rodata.cst4+16
	.quad .rodata..Lstatic.45
	.quad .rodata..Lstatic.46
	.quad .rodata..Lstatic.47
	.quad .rodata..Lstatic.48
	.quad .rodata..Lstatic.49
	.quad .rodata..Lstatic.50

	.ident "rattle logic=dac8208d650f15bf3e2dc313a14fa4c783a3acf887bdfab66e1714b038d9e11b"

	.section .note.GNU-stack,"",%progbits
	.purgem function
	.purgem public
	.purgem jumps
	.purgem frame
