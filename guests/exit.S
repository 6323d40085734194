/* The smallest guest, with its file's header written out: one thread, no lock,
 * two instructions. The file stands at address 0x10000 as a whole, so that
 * labels are the addresses that the header names. */
	.text
	.globl _start
file:
	.byte 0x7f, 'E', 'L', 'F'	/* magic */
	.byte 1, 1, 1			/* 32 bits, little endian, version 1 */
	.zero 9
	.half 2				/* e_type: ET_EXEC */
	.half 243			/* e_machine: EM_RISCV */
	.word 1				/* e_version */
	.word _start			/* e_entry: there is no note */
	.word headers - file		/* e_phoff */
	.word 0				/* e_shoff */
	.word 0				/* e_flags: no extension */
	.half headers - file		/* e_ehsize */
	.half 32			/* e_phentsize */
	.half 1				/* e_phnum */
	.half 0, 0, 0
headers:
	.word 1				/* p_type: PT_LOAD */
	.word _start - file		/* p_offset */
	.word _start			/* p_vaddr */
	.word _start			/* p_paddr */
	.word end - _start		/* p_filesz */
	.word end - _start		/* p_memsz */
	.word 5				/* p_flags: read and execute */
	.word 4				/* p_align */
_start:
	li a7, 93			/* EXIT; the code is a0, which is 0 */
	ecall
end:
