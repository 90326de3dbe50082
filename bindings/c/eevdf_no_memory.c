/*
 * The two functions for memory of a program or a kernel that makes no call that asks for any: there
 * is none. They stand in an archive of their own, or are compiled with the kernel. They are weak, so
 * those of another object take their place, wherever the linker meets it.
 */
#include <eevdf.h>

__attribute__((weak)) eevdf_memory eevdf_alloc(size_t size, size_t align)
{
	static const unsigned char none;

	(void)size;
	(void)align;
	return (eevdf_memory){ 0, (void *)&none };
}

__attribute__((weak)) void eevdf_dealloc(void *block)
{
	(void)block;
}
