/*
 * The sections of a kernel in the highest 2 GiB, by the names that Linux's own script has. One that
 * stands in no line is an orphan, which lies anywhere, and may be code that can't be run there.
 */
SECTIONS
{
	. = 0xffffffff81000000;
	.text : { *(.text) }
	. = ALIGN(4096);
	.rodata : { *(.rodata) *(.rodata.*) }
	.data : { *(.data) }
	.bss : { *(.bss) *(COMMON) }
	/* what a linker makes where an object asks for a table of addresses, or for a loader */
	.got : { *(.got) *(.got.plt) *(.igot) *(.igot.plt) }
	.plt : { *(.plt) *(.plt.*) *(.iplt) }
	.rela.dyn : { *(.rela.*) }
	ASSERT(SIZEOF(.plt) == 0 && SIZEOF(.rela.dyn) == 0, "there is a table of addresses")
	.comment 0 : { *(.comment) }
	.symtab 0 : { *(.symtab) }
	.strtab 0 : { *(.strtab) }
	.shstrtab 0 : { *(.shstrtab) }
	/DISCARD/ : { *(.note.GNU-stack) *(.note.gnu.property) }
}
