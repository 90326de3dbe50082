/* wait.c: the only program of the machine where the calls are a part of Linux, which ends it. */
#include <unistd.h>

int main(void)
{
	for (;;)
		pause();
}
