/* The kernel at 1 MiB, with the note by which qemu finds its entry. */
ENTRY(start)
PHDRS { all PT_LOAD FLAGS(7); note PT_NOTE FLAGS(4); }
SECTIONS
{
	. = 0x100000;
	.note : { KEEP(*(.note)) } :all :note
	.text : { *(.text*) } :all
	.rodata : { *(.rodata*) }
	.data : { *(.data*) }
	.bss : { *(.bss*) *(COMMON) }
	/DISCARD/ : { *(.comment) *(.eh_frame*) *(.note.*) }
}
