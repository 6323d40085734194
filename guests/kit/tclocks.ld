/* tclocks.ld - how a guest's file is laid out (GNU ld and lld).
 *
 * Three program headers: code and constants (read, execute), data (read,
 * write), and the note. PHDRS keeps the linker from joining code and data into
 * one segment that is writable and executable (refused 11).
 *
 * __global_pointer$ is not defined, on purpose: where it is, the linker makes
 * accesses relative to x3, and x3 is 0 at a thread's start.
 */
OUTPUT_ARCH(riscv)
ENTRY(tc_no_entry)

PHDRS
{
	text PT_LOAD FLAGS(5);
	data PT_LOAD FLAGS(6);
	note PT_NOTE FLAGS(4);
}

SECTIONS
{
	/* e_entry isn't looked at where the note stands. */
	tc_no_entry = 0;

	. = 0x00010000;
	.text : ALIGN(4) { *(.text .text.*) } :text
	.rodata : ALIGN(4) { *(.rodata .rodata.* .srodata .srodata.*) } :text
	.note.tclocks : ALIGN(4) { KEEP(*(.note.tclocks)) } :text :note

	. = 0x00100000;
	.data : ALIGN(4) { *(.data .data.* .sdata .sdata.*) } :data
	.bss : ALIGN(4)
	{
		*(.bss .bss.* .sbss .sbss.* COMMON)
		. = ALIGN(4);
	} :data

	.thread_local : { *(.tdata .tdata.* .tbss .tbss.*) }
	ASSERT(SIZEOF(.thread_local) == 0,
	       "no _Thread_local: each thread has its own copy of a global outside guards")
	ASSERT(SIZEOF(.note.tclocks) != 0,
	       "no note: write TC_GUEST (tclocks.h) or tc_note_begin (tclocks.inc)")
	ASSERT(SIZEOF(.text) + SIZEOF(.rodata) + SIZEOF(.note.tclocks)
	       + SIZEOF(.data) + SIZEOF(.bss) <= 1048576,
	       "a guest has at most 1048576 bytes of memory")

	/DISCARD/ :
	{
		*(.comment) *(.eh_frame .eh_frame.*) *(.riscv.attributes)
		*(.note .note.*)
	}
}
