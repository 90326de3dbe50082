/*
 * The names by which the library itself asks for memory. They are those of the language that it is
 * written in. Here they are weak, and hand each request on to the function that eevdf.h names; a
 * program that defines them itself, as all did before version 0.3, is asked by them.
 */
#include <eevdf.h>

__attribute__((weak)) eevdf_memory rattle_alloc(size_t size, size_t align)
{
	return eevdf_alloc(size, align);
}

__attribute__((weak)) void rattle_dealloc(void *block)
{
	eevdf_dealloc(block);
}
