/*
 * module.c: makes the drawn calls in Linux, in two threads of the kernel at a time, which may be
 * preempted in any call. One of them has its stack off by 8. Each prints its checksum. It is a
 * module, or a part of Linux that ends the machine when the calls are made.
 */
#include "calls.h"

#include <linux/completion.h>
#include <linux/kthread.h>
#include <linux/module.h>
#include <linux/reboot.h>
#include <linux/slab.h>

static struct player {
	struct game game;
	struct completion done;
} players[2];

eevdf_memory eevdf_alloc(size_t size, size_t align)
{
	static unsigned char none;
	void *block = kmalloc(size, GFP_KERNEL);

	return block ? (eevdf_memory){ 1, block } : (eevdf_memory){ 0, &none };
}

void eevdf_dealloc(void *block)
{
	kfree(block);
}

/* Called by name from assembly. */
uint64_t play_and_say(struct game *game);
__visible noinline uint64_t play_and_say(struct game *game)
{
	uint64_t stack;

	asm volatile("mov %%rsp, %0" : "=r"(stack));
	play(game);
	pr_info("Linux: stack off by %llu, checksum %016llx\n", stack % 16, game->checksum);
	return game->checksum;
}

static int player_main(void *data)
{
	struct player *player = data;
	struct game *game = &player->game;

	/* a part of Linux begins before Linux has forbidden to run what isn't its code */
	while (system_state < SYSTEM_RUNNING)
		schedule_timeout_uninterruptible(1);
	if (player == players)
		play_and_say(game);
	else
		asm volatile("sub $8, %%rsp\n\tcall play_and_say\n\tadd $8, %%rsp"
			     : "+D"(game), ASM_CALL_CONSTRAINT
			     : : "memory", "cc", "rax", "rcx", "rdx", "rsi", "r8", "r9", "r10", "r11");
	/* no code of a module runs after this, so it may then be unloaded */
	kthread_complete_and_exit(&player->done, 0);
}

static int __init begin(void)
{
	for (unsigned at = 0; at < ARRAY_SIZE(players); at++) {
		init_completion(&players[at].done);
		if (IS_ERR(kthread_run(player_main, &players[at], "eevdf/%u", at)))
			complete(&players[at].done);
	}
	return 0;
}

static void wait_for_players(void)
{
	for (unsigned at = 0; at < ARRAY_SIZE(players); at++)
		wait_for_completion(&players[at].done);
}

#ifdef MODULE
static void __exit end(void)
{
	wait_for_players();
}

module_exit(end);
#else
static int end(void *unused)
{
	wait_for_players();
	emergency_restart();
	return 0;
}

static int __init begin_end(void)
{
	return PTR_ERR_OR_ZERO(kthread_run(end, NULL, "eevdf/end"));
}

late_initcall(begin_end);
#endif

module_init(begin);
MODULE_DESCRIPTION("drawn calls on run queues under EEVDF");
MODULE_LICENSE("Proprietary");
