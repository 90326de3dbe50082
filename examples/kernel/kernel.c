/* kernel.c: threads on one processor. All calls of the library are made with interrupts off. */
#include "kernel.h"

enum { TICK_NS = 1000000, STACK = 8192, END_OF_RUN = 2500 };

/* The stack of a thread that doesn't run: fxsave's bytes, what boot.S pushes, the processor's. */
struct frame {
	uint8_t fx[512];
	uint64_t r15, r14, r13, r12, r11, r10, r9, r8, rdi, rsi, rbp, rbx, rdx, rcx, rax;
	uint64_t rip, cs, rflags, rsp, ss;
};

static const struct plan plans[] = {
#include "threads.h"
};
enum { COUNT = sizeof plans / sizeof plans[0], IDLE = COUNT };

/* The last one is the loop that nobody else runs in. */
static struct thread {
	_Alignas(16) uint8_t stack[STACK];
	uint64_t block[EEVDF_TASK_SIZE / 8];	/* the memory that the library asks for */
	struct frame *frame;
	volatile uint64_t ran;
	uint64_t wakes_at;
} threads[COUNT + 1], *admitted;

static eevdf_queue queue;
static uint64_t ticks, current = IDLE, alive = COUNT;

static void out8(uint16_t port, uint8_t value)
{
	__asm__ volatile("outb %0, %1" : : "a"(value), "Nd"(port) : "memory");
}

/* Ends qemu, with the status 1 + 2 * code. */
static _Noreturn void end_qemu(uint8_t code)
{
	out8(0xf4, code);
	for (;;)
		__asm__ volatile("hlt" : : : "memory");
}

static void put(uint8_t letter)
{
	for (uint8_t status = 0; !(status & 0x20);)
		__asm__ volatile("inb %1, %0" : "=a"(status) : "Nd"((uint16_t)0x3fd) : "memory");
	out8(0x3f8, letter);
}

static void put_number(uint64_t number)
{
	if (number >= 10)
		put_number(number / 10);
	put((uint8_t)('0' + number % 10));
}

/* Writes a line to the serial port, with the next number at each %. */
static void say(const char *text, const uint64_t *numbers)
{
	for (; *text; text++)
		if (*text == '%')
			put_number(*numbers++);
		else
			put((uint8_t)*text);
	put('\n');
}

static int64_t must(int64_t answer)
{
	if (answer < 0)
		end_qemu(2);
	return answer;
}

/* The block for a task is a part of its thread. */
eevdf_memory eevdf_alloc(size_t size, size_t align)
{
	return (eevdf_memory){ size <= sizeof admitted->block && align <= 8, admitted->block };
}

void eevdf_dealloc(void *block)
{
	(void)block;
}

/* Lets whom the queue picks go on, or the idle loop. */
static struct frame *pick(void)
{
	int64_t picked = eevdf_pick(&queue);
	uint64_t next = picked == EEVDF_ABSENT ? IDLE : (uint64_t)picked;

	if (next != current)
		say("tick %: % to %", (uint64_t[]){ ticks, current, next });
	current = next;
	return threads[current].frame;
}

static _Noreturn void end_run(void)
{
	for (uint64_t at = 0; at < COUNT; at++)
		say("thread % ran for % ticks", (uint64_t[]){ at, threads[at].ran });
	eevdf_close(&queue);
	end_qemu(16);
}

/* Charges whoever runs, and wakes who is due; where something has changed the queue is asked. */
struct frame *on_timer(struct frame *frame)
{
	int changed = current == IDLE;

	out8(0x20, 0x20);
	threads[current].frame = frame;
	threads[current].ran++;
	ticks++;
	if (current != IDLE)
		changed = must(eevdf_tick(&queue, TICK_NS)) == 1;
	for (uint64_t at = 0; at < COUNT; at++)
		if (threads[at].wakes_at == ticks)
			changed |= must(eevdf_wake(&queue, at)) == 0;
	if (ticks == END_OF_RUN || alive == 0)
		end_run();
	return changed ? pick() : frame;
}

/* Does what a thread asks for. */
struct frame *on_call(struct frame *frame)
{
	threads[current].frame = frame;
	if (frame->rdi == ASKS_FAULT)
		end_qemu(3);
	if (frame->rdi != ASKS_END) {
		must(eevdf_sleep(&queue, current));
		threads[current].wakes_at = ticks + frame->rdi;
	} else {
		must(eevdf_end(&queue, current));
		alive--;
	}
	return pick();
}

static void start_thread(uint64_t number)
{
	struct thread *thread = admitted = &threads[number];

	thread->frame = (struct frame *)(thread->stack + STACK - 16) - 1;
	*thread->frame = (struct frame){
		.fx = { 0x7f, 0x03, [24] = 0x80, 0x1f },	/* control words: no exceptions */
		.rip = (uint64_t)(uintptr_t)thread_main, .cs = 8, .rflags = 0x202,
		.rdi = number, .rsi = (uint64_t)(uintptr_t)&plans[number],
		.rdx = (uint64_t)(uintptr_t)&thread->ran,
		.rsp = (uint64_t)(uintptr_t)(thread->stack + STACK - 8),
	};
	must(eevdf_admit(&queue, number, plans[number].nice, plans[number].slice_ns, 0));
}

/* Interrupt 32 is the timer, 48 a call. A fault has no gate: it resets the machine. */
static void set_interrupts(void)
{
	static struct { uint64_t low, high; } gates[49];
	struct { uint16_t unused[3], limit; void *at; } table = { { 0 }, sizeof gates - 1, gates };
	extern char timer_entry[], call_entry[];

	for (unsigned at = 32; at <= 48; at += 16) {
		uint64_t to = (uint64_t)(uintptr_t)(at == 32 ? timer_entry : call_entry);

		gates[at].low = (to & 0xffff) | 8 << 16 | 0x8e00ull << 32 | (to >> 16) << 48;
	}
	__asm__ volatile("lidt %0" : : "m"(table.limit), "m"(table) : "memory");
}

/* The timer at 1000 Hz, as interrupt 32, and no other. */
static void set_timer(void)
{
	static const uint8_t writes[] = {	/* a port and a value each */
		0x20, 0x11, 0xa0, 0x11, 0x21, 32, 0xa1, 40, 0x21, 4, 0xa1, 2, 0x21, 1, 0xa1, 1,
		0x21, 0xfe, 0xa1, 0xff, 0x43, 0x34, 0x40, 0xa9, 0x40, 0x04,
	};

	for (unsigned at = 0; at < sizeof writes; at += 2)
		out8(writes[at], writes[at + 1]);
}

void kernel_main(void)
{
	eevdf_open(&queue);
	for (uint64_t at = 0; at < COUNT; at++)
		start_thread(at);
	set_interrupts();
	set_timer();
	for (;;)
		__asm__ volatile("sti; hlt" : : : "memory");
}
