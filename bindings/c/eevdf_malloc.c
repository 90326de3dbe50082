/*
 * The two functions for memory of eevdf.h over malloc and free. They stand in an archive of their own
 * behind that of the library, and are weak: a program has its own by an object wherever it stands,
 * or by an archive in front of this one.
 */
#include <eevdf.h>
#include <stdlib.h>

__attribute__((weak)) eevdf_memory eevdf_alloc(size_t size, size_t align)
{
	static unsigned char none;
	void *block = malloc(size);

	(void)align; /* at most that of malloc */
	return block ? (eevdf_memory){ 1, block } : (eevdf_memory){ 0, &none };
}

__attribute__((weak)) void eevdf_dealloc(void *block)
{
	free(block);
}
