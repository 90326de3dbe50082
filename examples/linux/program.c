/* program.c: makes the drawn calls in a program, and prints their checksum. */
#include "calls.h"

#include <stdio.h>

int main(void)
{
	static struct game game;

	printf("checksum %016llx\n", (unsigned long long)play(&game));
	return 0;
}
