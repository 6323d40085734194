/* One thread for each fault, and four more. Thread T begins at tT. Where the
 * program counter ends at the faulting instruction, its label is atT. The
 * registers at the end show that nothing of that instruction was done. */
#include "tclocks.inc"
	.file "faults.S"	/* else the symbol table gets a random name */
	.text
	.macro entry number
	.balign 4
t\number:
	.endm
	.macro here number
	.globl at\number
at\number:
	.endm

	entry 0			/* 1: the word 0 is no instruction */
	here 0
	.word 0
	entry 1			/* 2: a jump to nothing; the jump itself is done */
	lui t0, 0x40000
	jalr s0, 4(t0)
	entry 2			/* 3: bit 0 of the target is cleared, bit 1 stays */
	la t0, at2
	here 2
	jalr ra, 7(t0)
	entry 3			/* 4: a load below the stack */
	lui t0, 0x7fffc
	here 3
	lw a1, -4(t0)
	entry 4			/* 5: code may be loaded, and not stored to */
	la t0, t4
	lw t1, 0(t0)
	here 4
	sb t1, 0(t0)
	entry 5			/* 6: also where the address lies in nothing */
	here 5
	lh a1, 1(zero)
	entry 6			/* 7: a guarded byte without the lock */
	la t0, cell0
	here 6
	lbu a1, 3(t0)
	entry 7			/* 8: EBREAK */
	here 7
	ebreak
	entry 8			/* 9: a system call of Linux */
	li a7, 64
	here 8
	ecall
	entry 9			/* 10: there is no lock 5 */
	li a0, 5
	li a7, 2
	here 9
	ecall
	entry 10		/* 11: the same lock again, so lock 1 breaks */
	tc_lock 1
	la t0, cell1
	sw sp, 0(t0)
	li a0, 1
	li a7, 1
	here 10
	ecall
	entry 11		/* 12: the lock isn't held */
	li a0, 0
	li a7, 2
	here 11
	ecall
	entry 12		/* 2: a return to x1, which is 0 */
	ret
	entry 13		/* 9: a sleep of 256, after one of 255 was lawful */
	tc_sleep 255
	li a0, 256
	li a7, 3
	here 13
	ecall
	entry 14		/* 10: a fifth lock, before its order is looked at */
	tc_lock 0
	tc_lock 2
	tc_lock 3
	tc_lock 4
	li a0, 4
	li a7, 1
	here 14
	ecall
	entry 15		/* 2: a jump into writable bytes */
	la t0, cell0
	jalr zero, 0(t0)

	.data
	.balign 4
cell0:	.word 0x11111111
cell1:	.word 0x22222222
cell2:	.word 0x33333333
cell3:	.word 0x44444444
cell4:	.word 0x55555555

	tc_note_begin
	.irp number, 0,1,2,3,4,5,6,7,8,9,10,11,12,13,14,15
	tc_run t\number, 0x700+\number
	.endr
	tc_guards
	.irp number, 0,1,2,3,4
	tc_guard cell\number, 4
	.endr
	tc_note_end
