/* Two tasks of nice level 0 on one queue: who runs, and for how long. */
#include <eevdf.h>
#include <stdio.h>

enum { SLICE = 3000000 };

static eevdf_queue queue;

static void admit(uint64_t task)
{
	printf("admit %d: %d\n", (int)task, (int)eevdf_admit(&queue, task, 0, SLICE, 0));
}

static void pick(void)
{
	printf("pick: task %d runs\n", (int)eevdf_pick(&queue));
}

static void tick(uint64_t ns)
{
	int64_t used_up = eevdf_tick(&queue, ns);

	printf("tick %d ns: %s\n", (int)ns, used_up == 1 ? "its request is used up" : "it goes on");
}

int main(void)
{
	eevdf_open(&queue);
	admit(0);
	admit(1);
	pick();
	tick(1000000);
	tick(2000000);
	pick();
	eevdf_close(&queue);
	printf("close: %d tasks are left\n", (int)eevdf_len(&queue));
	return 0;
}
