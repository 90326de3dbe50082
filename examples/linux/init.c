/*
 * init.c: the only program of the machine. It loads the module, waits until that has ended, and
 * meanwhile computes in registers that the kernel has to keep. Then it turns the machine off.
 */
#define _GNU_SOURCE
#include <fcntl.h>
#include <signal.h>
#include <stdio.h>
#include <sys/reboot.h>
#include <sys/syscall.h>
#include <sys/wait.h>
#include <unistd.h>

/* Computes its own number over and over, until it is ended or finds another. */
static void compute(void)
{
	volatile double own = 3.0;
	double x = own;

	while (x == own)
		x = (x + own) * 0.5;
	_exit(1);
}

static int load_and_unload(const char *name)
{
	int file = open("/eevdf_calls.ko", O_RDONLY | O_CLOEXEC);

	return syscall(SYS_finit_module, file, "", 0) == 0 && syscall(SYS_delete_module, name, 0) == 0;
}

int main(void)
{
	int status = 0, is_loaded;
	pid_t child = fork();

	if (child == 0)
		compute();
	is_loaded = load_and_unload("eevdf_calls");
	kill(child, SIGKILL);
	waitpid(child, &status, 0);
	printf("init: the module is %s, and the program's registers are %s\n", is_loaded ? "done" : "NOT LOADED",
	       WIFSIGNALED(status) ? "kept" : "LOST");
	fflush(stdout);
	sync();
	reboot(RB_POWER_OFF);
	return 1;
}
