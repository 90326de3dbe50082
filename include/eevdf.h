/*
 * eevdf.h: run queues under EEVDF (Earliest Eligible Virtual Deadline First) for C and C++, from
 * C99 and C++11 on.
 *
 * A queue says which of its tasks runs next. The caller says which tasks there are, how long the
 * running one ran, and who sleeps, wakes and ends. docs/model.md has the rules, docs/embedding-c.md
 * a runtime and a kernel that are built on these calls.
 *
 * ANSWERS. A call answers 0 or a number above it where it did what it says, and one of the errors
 * below 0 where it didn't. An error changes nothing. Where several errors fit, the one that the
 * call's comment names first is answered. The compiler warns where the answer of a call is ignored
 * by which a task could be lost, or which task has moved (EEVDF_MUST_CHECK).
 *
 * UNITS. Real time is in nanoseconds. Virtual time is in units of which a task of nice level 0 ages
 * one a nanosecond, and a heavier one fewer; virtual times and lags have a sign. A task is a number
 * from 0 to EEVDF_TASKS - 1 that the caller chooses.
 *
 * WHO OWNS WHAT. The caller owns the bytes of queues, hands, bounds and shares. An opened queue or
 * hand may hold memory of its tasks: close it before its bytes are used for anything else. No call
 * keeps a pointer to them, and none reads a queue's bytes but those that are given it.
 *
 * MOVING. Between two calls a queue, a hand, bounds or shares may be moved: the bytes are copied to
 * others of the caller's own, aligned to 16, bounds to 8. It is the same queue or hand there, or
 * they are the same bounds or shares. The bytes that were left are the caller's again, for
 * anything; no call is given them as what they were any more, until they are opened anew.
 *
 * WHAT C MUST KEEP. Each call tests its numbers, and who is here and who runs. It can't test its
 * pointers, so these are left to C:
 *   - `queue` points to a queue that eevdf_open has opened, `to` and `from` to two different ones,
 *     and `hand` to a hand that eevdf_hand_open has opened; each that is opened points to so many
 *     bytes of the caller's own, aligned to 16;
 *   - from eevdf_open to eevdf_close only these calls read or write the queue's bytes, one call at
 *     a time, but that it may be moved, and there are no two copies of which both are used; the
 *     same holds of a hand from eevdf_hand_open to eevdf_hand_close;
 *   - `bounds` points to bounds that eevdf_fair_open has opened, and `shares` to shares that
 *     eevdf_fair_share_open has, and nobody else uses them during the call; where they are opened,
 *     to so many bytes of the caller's own, aligned to 16, bounds to 8, that are no part of a
 *     queue, a hand or one another;
 *   - `block` points to an eevdf_block of the caller's own that nobody else uses during the call;
 *     its `at` is NULL, or leads to EEVDF_TASK_SIZE bytes of the caller's own, aligned to 8;
 *   - `out`, `time`, `lag`, `by`, `mark` and `ns` point to an object of the caller's own that is no
 *     part of a queue, a hand, bounds or shares, and that nobody else uses during the call. The
 *     proofs take it for initialised, whatever its bytes: write to it once, as by
 *     `int64_t time = 0;`, before the first call;
 *   - the two functions for memory (below) do what is said there.
 *
 * LOCKS. "The queue's lock" is whatever makes sure that nobody else uses the queue during the call:
 * a lock that the caller has beside each queue, interrupts off on the queue's only CPU, or a single
 * thread. The library has no locks and no data of its own, so calls on different queues need
 * nothing of each other, and a task moves between two queues through a hand without a need to hold
 * two locks; by eevdf_pull and eevdf_pull_task it moves in one call under both. A hand belongs to
 * whoever moves the task, and needs no lock as long as nobody else uses it. A task's number goes
 * with it, unless eevdf_hand_renumber gives it another: numbers are each queue's own.
 *
 * SEVERAL CPUS. eevdf_pick and eevdf_run make who ran before a task that another CPU may take, and
 * eevdf_sleep and eevdf_doze make it one that can be woken, while its CPU is still on its stack. So
 * hold the queue's lock until the switch has saved it; or keep a flag that it is on a CPU, which
 * the switch clears and whoever runs it elsewhere awaits. A wake is done on the queue where the
 * task sleeps, so keep with each task which queue that is. A wake that comes before the sleep is
 * answered PRESENT and leaves nothing here: the caller remembers it, and lets the task not sleep.
 * docs/embedding-c.md has these rules, and when to pull; examples/c/four_cpus.c keeps them.
 *
 * INTERRUPTS. "Interrupts: yes" says that a handler may make the call, where what it interrupts
 * can't hold the queue's lock nor be in a call on the same hand: take the lock with interrupts off.
 * Such a call neither asks for memory nor gives it back. No call waits. "As memory" says the same
 * of one that does, where the functions for memory may be called from a handler too.
 *
 * WHAT THE OBJECT ASKS OF A KERNEL (x86-64). The archive for kernels, libeevdf_kernel.a, uses no
 * registers but the general ones and nothing below the stack pointer, and needs no aligned stack.
 * So interrupts may come during a call, and on its stack. It can be linked at any address, and its
 * code is in the section .text. Each call begins with endbr64. It wants the names memset,
 * eevdf_alloc and eevdf_dealloc (below), and where it is made for Linux __x86_return_thunk, by
 * which it returns then, and no others.
 * The archive for programs, libeevdf.a, can be linked at any address, and wants memset,
 * eevdf_alloc, eevdf_dealloc, and __udivti3, which compilers bring along in libgcc. Each call
 * begins with endbr64, and the objects have the marks for IBT and SHSTK. It needs a stack that is
 * aligned to 16 at the call, and uses the registers xmm0 and xmm1, and functions that call no
 * others use the red zone, the 128 bytes below the stack pointer. So in a kernel
 *   - a maskable interrupt that comes during a call runs on another stack (an entry of the
 *     interrupt stack table, IST), or interrupts are off during the call;
 *   - NMIs, machine checks, and exceptions whose handler returns have a stack of their own by the
 *     IST in any case, since they come with interrupts off too;
 *   - who enters the kernel saves xmm0 and xmm1 before the first call, or all by fxsave, unless the
 *     interrupted code has none of them;
 *   - SSE is on: CR0.EM is 0 and CR4.OSFXSR is 1.
 * Of either a call takes at most 1 KiB of stack, and those that rebase 1.5 KiB. These registers
 * and this stack are of the object alone: what the kernel's memset and the two functions for memory
 * use comes on top. Neither has thread-local storage, threads or unwind tables, nor ends the
 * program: its instructions ud2 stand where no call comes, as the proofs say, while C keeps what it
 * must. What the archives for ARM of 64 bits ask is in docs/embedding-c.md.
 */
#ifndef EEVDF_H
#define EEVDF_H

/*
 * size_t, int64_t and uint64_t come from the header that EEVDF_TYPES names, as "types.h"; in Linux
 * from its own; else from the compiler's headers, or where there are none, as under -nostdinc, from
 * the compiler itself.
 */
#if defined(EEVDF_TYPES)
#include EEVDF_TYPES
#elif defined(__KERNEL__) && defined(__LINUX_COMPILER_TYPES_H)
#include <linux/types.h>
#else
#ifdef __has_include
#if !__has_include(<stddef.h>) || !__has_include(<stdint.h>)
#define EEVDF_HAS_NO_HEADERS
#endif
#endif
#ifdef EEVDF_HAS_NO_HEADERS
typedef __SIZE_TYPE__ size_t;
typedef __INT64_TYPE__ int64_t;
typedef __UINT64_TYPE__ uint64_t;
#else
#include <stddef.h>
#include <stdint.h>
#endif
#endif

#ifdef __cplusplus
#define EEVDF_ALIGNED alignas(16)
#define EEVDF_ASSERT static_assert
extern "C" {
#elif defined(__STDC_VERSION__) && __STDC_VERSION__ >= 201112L
#define EEVDF_ALIGNED _Alignas(16)
#define EEVDF_ASSERT _Static_assert
#else
#define EEVDF_ALIGNED __attribute__((aligned(16)))
#define EEVDF_ASSERT __extension__ _Static_assert
#endif

/*
 * Marks a call whose answer is to be looked at: on an error the hand keeps the task, which is lost
 * with it, or the answer is the task that has moved.
 */
#if defined(__cplusplus) && __cplusplus >= 201703L
#define EEVDF_MUST_CHECK [[nodiscard]]
#elif defined(__GNUC__)
#define EEVDF_MUST_CHECK __attribute__((warn_unused_result))
#else
#define EEVDF_MUST_CHECK
#endif

/*
 * The version of this header. A program that is linked with another library than it was compiled
 * for can compare it with eevdf_version(). PATCH rises with what no program can see but in how fast
 * it is, MINOR where something is added or a size changes, so that a program is compiled again, and
 * MAJOR where a program may have to be changed; as long as it is 0, MINOR stands for it too.
 */
#define EEVDF_VERSION_MAJOR 0
#define EEVDF_VERSION_MINOR 8
#define EEVDF_VERSION_PATCH 0
#define EEVDF_VERSION \
	(EEVDF_VERSION_MAJOR * 1000000 + EEVDF_VERSION_MINOR * 1000 + EEVDF_VERSION_PATCH)

/* The bytes of a queue, a hand, bounds, shares, and the block of memory that each task has. */
#define EEVDF_QUEUE_SIZE 24688
#define EEVDF_HAND_SIZE 16
#define EEVDF_BOUNDS_SIZE 40
#define EEVDF_SHARES_SIZE 64
#define EEVDF_TASK_SIZE 152

/* The limits of what a call takes; a number beyond them is answered INVALID. */
#define EEVDF_TASKS 1024                  /* how many numbers of tasks there are */
#define EEVDF_NICE_MIN (-20)              /* the heaviest nice level */
#define EEVDF_NICE_MAX 19                 /* the lightest nice level */
#define EEVDF_SLICE_MIN 100000            /* the shortest slice, ns */
#define EEVDF_SLICE_MAX 100000000         /* the longest slice, ns */
#define EEVDF_TICK_MIN 1                  /* the shortest time that a tick charges, ns */
#define EEVDF_TICK_MAX 1000000000         /* the longest time that a tick charges, ns */
#ifdef INT64_C
#define EEVDF_TIME_MAX (INT64_C(1) << 60) /* virtual times lie between this and its negative */
#else
#define EEVDF_TIME_MAX ((int64_t)1 << 60)
#endif

/* The errors. */
enum {
	EEVDF_ABSENT = -2,     /* no task such as the call asks for is here, or in the hand */
	EEVDF_BALANCED = -11,  /* the task would bring two loads no closer */
	EEVDF_NO_MEMORY = -12, /* the caller's function for memory gave none, or `at` is NULL */
	EEVDF_BUSY = -16,      /* the hand holds a task, or `at` of the block isn't NULL */
	EEVDF_PRESENT = -17,   /* the task is here already */
	EEVDF_INVALID = -22,   /* a number is out of its limits */
	EEVDF_RANGE = -34      /* a virtual time would leave its range */
};

/* The run queue of one CPU, with the tasks that are runnable here and those that sleep here. */
typedef struct eevdf_queue {
	EEVDF_ALIGNED unsigned char bytes[EEVDF_QUEUE_SIZE];
} eevdf_queue;

/* A task on its way between two queues, or nothing. */
typedef struct eevdf_hand {
	EEVDF_ALIGNED unsigned char bytes[EEVDF_HAND_SIZE];
} eevdf_hand;

/*
 * The bounds of a queue, which lie beside it: how far its runnable tasks can be past one another's
 * deadlines. The calls that begin with eevdf_fair_ keep them.
 */
typedef struct eevdf_bounds {
	int64_t words[EEVDF_BOUNDS_SIZE / 8];
} eevdf_bounds;

/*
 * Shares lie beside a queue and its bounds, and tell what its tasks lack of their shares of the
 * CPU. The calls that begin with eevdf_fair_share_ keep them.
 */
typedef struct eevdf_shares {
	EEVDF_ALIGNED unsigned char bytes[EEVDF_SHARES_SIZE];
} eevdf_shares;

/* A block of memory for one task, which `at` leads to, or none, where it is NULL. */
typedef struct eevdf_block {
	void *at;
} eevdf_block;

/*
 * What a queue knows of a runnable task: its virtual runtime and deadline, its nice level, and its
 * slice in ns.
 */
typedef struct eevdf_entry {
	int64_t vruntime;
	int64_t deadline;
	int64_t nice;
	uint64_t slice_ns;
} eevdf_entry;

/*
 * What a queue keeps of a task that sleeps here: the lag that it keeps, its nice level, and its
 * slice in ns.
 */
typedef struct eevdf_sleeper {
	int64_t lag;
	int64_t nice;
	uint64_t slice_ns;
} eevdf_sleeper;

/*
 * The place of a task that dozes, a number of 128 bits: 2^64 times `high`, and `low` above that. Of
 * two places that of the greater `high` is later, and of equal ones that of the greater `low`.
 */
typedef struct eevdf_place {
	int64_t high;
	uint64_t low;
} eevdf_place;

/* A moment from which on the share of a task is told, a number of 128 bits as a place is. */
typedef eevdf_place eevdf_share_mark;

/*
 * What a task in a hand has: its number, its nice level, its slice in ns, its virtual runtime where
 * it left (of one that slept, the virtual time there), and its lag.
 */
typedef struct eevdf_parcel {
	uint64_t task;
	int64_t nice;
	uint64_t slice_ns;
	int64_t start;
	int64_t lag;
} eevdf_parcel;

EEVDF_ASSERT(sizeof(eevdf_queue) == EEVDF_QUEUE_SIZE, "a queue has padding");
EEVDF_ASSERT(sizeof(eevdf_hand) == EEVDF_HAND_SIZE, "a hand has padding");
EEVDF_ASSERT(sizeof(eevdf_bounds) == EEVDF_BOUNDS_SIZE, "bounds have padding");
EEVDF_ASSERT(sizeof(eevdf_shares) == EEVDF_SHARES_SIZE, "shares have padding");
EEVDF_ASSERT(sizeof(eevdf_block) == 8, "a block has padding");
EEVDF_ASSERT(sizeof(eevdf_entry) == 32, "an entry has padding");
EEVDF_ASSERT(sizeof(eevdf_sleeper) == 24, "what is kept of a sleeping task has padding");
EEVDF_ASSERT(sizeof(eevdf_place) == 16, "a place has padding");
EEVDF_ASSERT(sizeof(eevdf_parcel) == 40, "what a task in a hand has has padding");
EEVDF_ASSERT(sizeof(void *) == 8, "the library is for machines of 64 bits");

/*
 * Memory that the library asks for. `ok` is 1 where there is a block, and 0 where there is none;
 * `block` isn't null in either case.
 */
typedef struct eevdf_memory {
	uint64_t ok;
	void *block;
} eevdf_memory;

/*
 * The two functions for memory, which the caller defines, or takes over malloc and free from
 * libeevdf_malloc.a. The library asks for one block, of EEVDF_TASK_SIZE bytes aligned to 8, where
 * a task is admitted, and gives one back where one ends. That need not be this task's: tasks of a
 * queue change places in their blocks. A block belongs to the library until it is given back
 * itself, so one inside the caller's own struct of a task will do where that struct stays as long.
 * eevdf_alloc is called by eevdf_admit and eevdf_fair_admit alone, and eevdf_dealloc by eevdf_end,
 * eevdf_close, eevdf_hand_close, and the first two where they answer RANGE. They are called under
 * whatever lock the caller of these holds, of eevdf_hand_close perhaps none, and where there are
 * several queues, on several CPUs at once: what they share needs a lock of its own.
 * They come from an object or an archive; where nobody defines them the linker says that they are
 * missing. Who makes none of these calls takes two that give none, from libeevdf_no_memory.a or, in
 * a kernel, libeevdf_kernel_no_memory.a.
 */
eevdf_memory eevdf_alloc(size_t size, size_t align);
void eevdf_dealloc(void *block);

/*
 * The same two by the names that they had before version 0.3. The archives define these as weak
 * functions that call the two above. A program that defines them itself is asked by them in the
 * place of the others, and needs no change.
 */
eevdf_memory rattle_alloc(size_t size, size_t align);
void rattle_dealloc(void *block);

/*
 * The version of the library, as EEVDF_VERSION is that of the header. The two belong together where
 * MAJOR and MINOR are the same: eevdf_version() / 1000 == EEVDF_VERSION / 1000.
 * Lock: none. Interrupts: yes.
 */
int64_t eevdf_version(void);

/*
 * The bytes of a queue in the library, as EEVDF_QUEUE_SIZE is that of the header. A program that
 * may meet another library than it was compiled for, as a shared one, can compare the two before
 * it opens a queue.
 * Lock: none. Interrupts: yes.
 */
int64_t eevdf_queue_size(void);

/*
 * The bytes of a hand in the library, as EEVDF_HAND_SIZE is that of the header.
 * Lock: none. Interrupts: yes.
 */
int64_t eevdf_hand_size(void);

/*
 * The bytes of bounds in the library, as EEVDF_BOUNDS_SIZE is that of the header.
 * Lock: none. Interrupts: yes.
 */
int64_t eevdf_bounds_size(void);

/*
 * The bytes of shares in the library, as EEVDF_SHARES_SIZE is that of the header.
 * Lock: none. Interrupts: yes.
 */
int64_t eevdf_shares_size(void);

/*
 * Opens a queue in the caller's bytes: empty, at the virtual time 0. Takes no memory. Opening one
 * that has tasks loses their memory.
 * Lock: nobody else may know of the queue yet. Interrupts: yes.
 */
void eevdf_open(eevdf_queue *queue);

/*
 * Ends every task that is here, in ascending number, and gives their memory back. The queue is then
 * empty, at the virtual time that the last of them left. Its bytes are the caller's again, and
 * eevdf_open makes a new queue of them. It looks at every number of a task.
 * Lock: the queue's. Interrupts: as memory.
 */
void eevdf_close(eevdf_queue *queue);

/*
 * A new task: runnable at the virtual runtime `start`, with a fresh request of `slice_ns`.
 * eevdf_floor_time gives the start of a task that comes later; one that starts earlier is owed what
 * the others have had. Takes a block of memory. Answers 0.
 * Lock: the queue's. Interrupts: as memory.
 * INVALID: task, nice, slice_ns or start is out of its limits. PRESENT: the task is here, runnable
 * or asleep. NO_MEMORY: there is no block. RANGE: its deadline would leave the range; the block is
 * given back.
 */
int64_t eevdf_admit(eevdf_queue *queue, uint64_t task, int64_t nice, uint64_t slice_ns,
		    int64_t start);

/*
 * A new task as by eevdf_admit, in the block that `block` leads to: the library asks for none. The
 * block is the library's then, and `at` is NULL. Answers 0. On an error the caller has the block as
 * before. Such a task may be ended by eevdf_end_out and eevdf_hand_end_out, and also by the calls
 * that give memory back by eevdf_dealloc, which is then called for a block that eevdf_alloc hasn't
 * given.
 * Lock: the queue's. Interrupts: yes.
 * INVALID: task, nice, slice_ns or start is out of its limits. PRESENT: the task is here, runnable
 * or asleep. NO_MEMORY: `at` is NULL. RANGE: its deadline would leave the range.
 */
int64_t eevdf_admit_in(eevdf_queue *queue, eevdf_block *block, uint64_t task, int64_t nice,
		       uint64_t slice_ns, int64_t start);

/*
 * Lets the eligible task of earliest deadline run, the lower number of equal ones, and answers it.
 * Who ran before waits, if it is another.
 * Lock: the queue's. Interrupts: yes. ABSENT: nothing is runnable, and nobody runs.
 */
int64_t eevdf_pick(eevdf_queue *queue);

/*
 * The task that eevdf_pick would let run now. Where it isn't the running one, as it may be after a
 * wake, that one is to be preempted. Nothing changes.
 * Lock: the queue's. Interrupts: yes. ABSENT: nothing is runnable.
 */
int64_t eevdf_peek(const eevdf_queue *queue);

/*
 * Lets a runnable task run that no pick chose. So a CPU begins with a task on it, one comes that
 * runs already, or another rule than the deadline says who runs, as where cores schedule together.
 * Who ran before waits, if it is another. The task is charged as any other, but what is proved of
 * fairness is of picks alone. Answers 0.
 * Lock: the queue's. Interrupts: yes.
 * INVALID: no number of a task. ABSENT: it sleeps here, or isn't here, and whoever ran runs on.
 */
int64_t eevdf_run(eevdf_queue *queue, uint64_t task);

/*
 * Charges the running task for `ns`. 0: its request stands. 1: its request is used up, and it has a
 * fresh one: time to pick. A charge is rounded down, and the rest isn't kept: at nice level -20 a
 * tick of fewer than 87 ns charges nothing. A time above EEVDF_TICK_MAX is charged in several
 * ticks, and one of 0 in none.
 * Lock: the queue's. Interrupts: yes.
 * INVALID: ns is 0 or above EEVDF_TICK_MAX. ABSENT: nobody runs. RANGE: its deadline would leave
 * the range.
 */
int64_t eevdf_tick(eevdf_queue *queue, uint64_t ns);

/*
 * The shortest tick, in ns, that uses up the running task's request: eevdf_tick answers 1 to it, or
 * RANGE where the fresh request would be out of range, and 0 to each shorter one. A timer that is
 * set to it makes periodic ticks needless. Set it after each pick, and again after each charge:
 * charges round down, so two short ones can leave some of a request that a single one uses up.
 * Nothing changes.
 * Lock: the queue's. Interrupts: yes. ABSENT: nobody runs, or a tick of EEVDF_TICK_MAX leaves some
 * of the request, as it may after ten yields. eevdf_running tells the two apart; in the second case
 * the timer is set to EEVDF_TICK_MAX.
 */
int64_t eevdf_time_to_resched(const eevdf_queue *queue);

/*
 * Makes the running task's deadline later by the charge of a slice. It runs on until the next pick.
 * Answers 0.
 * Each yield makes it later, however little ran since, and a rebase takes none of that back. So a
 * task of nice level 19 with slices of 100 ms that yields each microsecond comes to RANGE after
 * 169 s. A yield of the only runnable task needn't be made; a task that sleeps and wakes gets a
 * fresh request.
 * Lock: the queue's. Interrupts: yes. ABSENT: nobody runs. RANGE: its deadline would leave the
 * range.
 */
int64_t eevdf_yield(eevdf_queue *queue);

/*
 * Lets nobody run, and answers the task that ran and waits now.
 * Lock: the queue's. Interrupts: yes. ABSENT: nobody runs.
 */
int64_t eevdf_stop(eevdf_queue *queue);

/*
 * The running task falls asleep here, and keeps the lag that it has, of at most the charge of two
 * slices to either side. Nobody runs then. Answers 0. One that waits is put to sleep by eevdf_take
 * and eevdf_put_asleep.
 * So after a turn of at most two slices in which no task came or left it owes all that it ran too
 * much, and after a longer one the rest is let off: beside seven others of its nice level, with
 * slices of 0.1 ms, a task that runs for 4 ms, sleeps and wakes at once gets 65.6 % of the CPU
 * where 12.5 % is fair, and with turns of 100 ms 97.9 %. And tasks that sleep while time is owed to
 * them can keep one that never sleeps from the CPU, for ever. Linux keeps a task that owes time in
 * the queue until it owes nothing; eevdf_doze holds it to where it left.
 * Lock: the queue's. Interrupts: yes. INVALID: no number of a task. ABSENT: the task doesn't run
 * here, but waits or sleeps, or isn't here.
 */
int64_t eevdf_sleep(eevdf_queue *queue, uint64_t task);

/*
 * The running task falls asleep here and dozes. It keeps of its lag what it is owed and no debt,
 * and it keeps its place, the virtual runtime at which it leaves. eevdf_wake puts it there, or
 * where its lag puts it, if that is later. So it owes all that it ran too much, however
 * long its turn was, and pays by what others run while it sleeps. Writes the lag with which it
 * leaves to `lag`; below 0 it owes. Nobody runs then. Answers 0. On an error `lag` isn't touched.
 * To other calls it is a task that sleeps. The place stays through eevdf_set and eevdf_set_slice,
 * and a rebase lowers it with the virtual times; it is lost where the task begins anew, ends, or
 * goes into a hand, so what it owes is let off where it comes to another queue.
 * Lock: the queue's. Interrupts: yes. INVALID: no number of a task. ABSENT: the task doesn't run
 * here, but waits or sleeps, or isn't here.
 */
int64_t eevdf_doze(eevdf_queue *queue, uint64_t task, int64_t *lag);

/*
 * A task that sleeps here is runnable again, placed with the lag that it kept, or where it dozes at
 * its place, if that is later, with a fresh request. Nobody is picked. Answers 0.
 * Lock: the queue's. Interrupts: yes.
 * INVALID: no number of a task. PRESENT: it is runnable here. ABSENT: it isn't here. RANGE: it
 * can't be placed, and sleeps on.
 */
int64_t eevdf_wake(eevdf_queue *queue, uint64_t task);

/*
 * Ends a task, whether it runs, waits or sleeps, and gives its memory back. If it ran, nobody runs
 * then. Answers 0.
 * Lock: the queue's. Interrupts: as memory. INVALID: no number of a task. ABSENT: it isn't here.
 */
int64_t eevdf_end(eevdf_queue *queue, uint64_t task);

/*
 * Ends a task as by eevdf_end, and gives a block of memory to the caller, to which `at` of `block`
 * leads then: the library calls no eevdf_dealloc. Answers 0.
 * It need not be the block that the task came in: tasks of a queue change places in the blocks that
 * they came in, and a hand takes along the block that the task is in. So a block inside the
 * caller's struct of a task stays in use until it is given back itself, at whichever task's end.
 * Lock: the queue's. Interrupts: yes.
 * INVALID: no number of a task. BUSY: `at` isn't NULL. ABSENT: it isn't here.
 */
int64_t eevdf_end_out(eevdf_queue *queue, eevdf_block *block, uint64_t task);

/*
 * Gives a runnable task another nice level, and rescales its lag. Whoever ran runs on. Answers 0.
 * Lock: the queue's. Interrupts: yes.
 * INVALID: no number of a task, or no nice level. ABSENT: it sleeps here, where eevdf_set gives it
 * the level, or isn't here. RANGE: it couldn't be placed.
 */
int64_t eevdf_renice(eevdf_queue *queue, uint64_t task, int64_t nice);

/*
 * Gives a task another slice, runnable or asleep. The request that stands keeps its deadline, and
 * the next one is of the new slice. The lag that a sleeping task keeps is cut to the charge of two
 * new slices; that of a runnable one is cut when it leaves. Answers 0.
 * Lock: the queue's. Interrupts: yes.
 * INVALID: no number of a task, or slice_ns is out of its limits. ABSENT: the task isn't here.
 */
int64_t eevdf_set_slice(eevdf_queue *queue, uint64_t task, uint64_t slice_ns);

/*
 * Gives a task another nice level and slice at once, runnable or asleep. A runnable one is placed
 * anew as by eevdf_renice, with a fresh request of the slice that it had, and the next one is of
 * the new slice. The lag that a sleeping one keeps is rescaled by its weights, rounded down, and
 * cut to the charge of two new slices. Whoever ran runs on. Answers 0.
 * Lock: the queue's. Interrupts: yes.
 * INVALID: task, nice or slice_ns is out of its limits. ABSENT: the task isn't here. RANGE: it is
 * runnable and couldn't be placed; it keeps its nice level and its slice.
 */
int64_t eevdf_set(eevdf_queue *queue, uint64_t task, int64_t nice, uint64_t slice_ns);

/*
 * A task that sleeps here begins anew: it sleeps on with this nice level and slice, and with the
 * lag 0, as one that has just been made. Its block is that which it has. Answers 0.
 * Lock: the queue's. Interrupts: yes.
 * INVALID: task, nice or slice_ns is out of its limits. PRESENT: it is runnable here. ABSENT: it
 * isn't here.
 */
int64_t eevdf_begin(eevdf_queue *queue, uint64_t task, int64_t nice, uint64_t slice_ns);

/*
 * Lowers all virtual times of the queue by one number, so that the virtual time is 0, and writes
 * the number to `by`; below 0 it has raised them. The queue then answers every call as it would
 * have, but for that number in virtual times and for when RANGE comes: later as virtual times rise,
 * or where `by` is below 0 sooner. Lags stay as they are. Where a virtual time would leave its
 * range, as no task within 2^59 of the time 0 can make it, or the sum of all that rebases of this
 * queue have written would pass 2^120 either way, nothing changes, and `by` gets 0. So it does
 * where the virtual time was 0: eevdf_floor_time gives 0 then, and another number where nothing
 * could be lowered. It looks at every runnable task. Answers 0.
 * A start that was read before stays as it was, that of a task in a hand too: less `by` it is what
 * it would be now. eevdf_put goes by the lag, and needs no start. The place of a task that dozes is
 * less by the number, as eevdf_place_of then says.
 * Lock: the queue's. Interrupts: yes.
 */
int64_t eevdf_rebase(eevdf_queue *queue, int64_t *by);

/*
 * Opens an empty hand in the caller's bytes. Takes no memory. Opening one that holds a task loses
 * its memory.
 * Lock: none. Interrupts: yes.
 */
void eevdf_hand_open(eevdf_hand *hand);

/* The task in the hand. Lock: none. Interrupts: yes. ABSENT: the hand is empty. */
int64_t eevdf_hand_task(const eevdf_hand *hand);

/*
 * Writes what the task in the hand has to `out`. Answers 0. On an error `out` isn't touched.
 * Lock: none. Interrupts: yes. ABSENT: the hand is empty.
 */
int64_t eevdf_hand_parcel(const eevdf_hand *hand, eevdf_parcel *out);

/*
 * Gives the task in the hand another number. So each queue can have EEVDF_TASKS of its own: a task
 * whose number is taken where it goes is put there under one that is free. Answers 0.
 * Lock: none. Interrupts: yes. INVALID: no number of a task. ABSENT: the hand is empty.
 */
int64_t eevdf_hand_renumber(eevdf_hand *hand, uint64_t task);

/*
 * Ends the task in the hand, if there is one, and gives its memory back. The hand is then as newly
 * opened.
 * Lock: none. Interrupts: as memory.
 */
void eevdf_hand_close(eevdf_hand *hand);

/*
 * Ends the task in the hand, and gives a block of memory to the caller, to which `at` of `block`
 * leads then, as eevdf_end_out does: the library calls no eevdf_dealloc. The hand is then as newly
 * opened. Answers 0. On an error the hand keeps the task.
 * Lock: none. Interrupts: yes. BUSY: `at` isn't NULL. ABSENT: the hand is empty.
 */
int64_t eevdf_hand_end_out(eevdf_hand *hand, eevdf_block *block);

/*
 * Takes a task out of the queue into the hand, with its lag, whether it runs, waits or sleeps. If
 * it ran, nobody runs then. Answers 0. Who wants it only if it waits, as another CPU does, asks
 * eevdf_running and eevdf_is_asleep first, under the same lock, or pulls it by eevdf_pull_task.
 * Lock: the queue's. Interrupts: yes.
 * INVALID: no number of a task. BUSY: the hand holds a task. ABSENT: the task isn't here.
 */
int64_t eevdf_take(eevdf_queue *queue, eevdf_hand *hand, uint64_t task);

/*
 * Takes some task out of the queue into the hand, with its lag, and answers it: the one that
 * eevdf_pick would let run, or, where none is runnable, the sleeping one of lowest number. If it
 * ran, nobody runs then. Called until it answers ABSENT, and the hand emptied each time, it empties
 * a queue whose tasks needn't be known. A sleeping task is looked for from number 0 on each time.
 * Lock: the queue's. Interrupts: yes. BUSY: the hand holds a task. ABSENT: no task is here.
 */
EEVDF_MUST_CHECK
int64_t eevdf_take_any(eevdf_queue *queue, eevdf_hand *hand);

/*
 * Puts the task in the hand into the queue: runnable, placed with its lag, with a fresh request.
 * The hand is empty then. Answers 0.
 * Lock: the queue's. Interrupts: yes.
 * ABSENT: the hand is empty. PRESENT: the task's number is here. RANGE: it can't be placed. On an
 * error the hand keeps it.
 */
EEVDF_MUST_CHECK
int64_t eevdf_put(eevdf_queue *queue, eevdf_hand *hand);

/*
 * Puts the task in the hand to sleep in the queue, with its lag. The hand is empty then. Answers 0.
 * Lock: the queue's. Interrupts: yes.
 * ABSENT: the hand is empty. PRESENT: the task's number is here. On an error the hand keeps it.
 */
EEVDF_MUST_CHECK
int64_t eevdf_put_asleep(eevdf_queue *queue, eevdf_hand *hand);

/*
 * Takes the candidate out of `from` and puts it into `to`, where that brings the two loads closer:
 * where the load of `to` and its weight come to less than the load of `from`. The task is runnable
 * there, placed with its lag, with a fresh request. Nobody is picked. Answers the task. So each
 * pull levels, and while no task comes, goes or changes pulls come to an end. Where nothing is
 * runnable in `to`, the loads come closer exactly if two tasks or more are runnable in `from`,
 * whatever they weigh.
 * Lock: those of both queues. Interrupts: yes.
 * ABSENT: no task waits in `from`. BALANCED: the two loads would come no closer. PRESENT: the
 * candidate's number is in `to` already. RANGE: it can't be placed there. On an error both queues
 * are as before.
 */
EEVDF_MUST_CHECK
int64_t eevdf_pull(eevdf_queue *to, eevdf_queue *from);

/*
 * Pulls as eevdf_pull does, but the task that is named, and only if it waits in `from`: one that
 * runs or sleeps there stays. So a caller who keeps a mask of CPUs with each task pulls another one
 * where the candidate may not come. Answers the task.
 * Lock: those of both queues. Interrupts: yes.
 * INVALID: no number of a task. ABSENT: it doesn't wait in `from`. BALANCED: the two loads would
 * come no closer. PRESENT: its number is in `to` already. RANGE: it can't be placed there. On an
 * error both queues are as before.
 */
EEVDF_MUST_CHECK
int64_t eevdf_pull_task(eevdf_queue *to, eevdf_queue *from, uint64_t task);

/*
 * Opens bounds in the caller's bytes, for a queue in which nothing is runnable, as one that was
 * just opened. Takes no memory, and bounds needn't be closed.
 * Bounds say at every moment by how much the virtual time can be past the deadline of a pending
 * request, however many tasks come, leave, sleep and wake: by the most that a turn was charged
 * since the queue was empty, but for what a task has moved the front that came before the pick, or
 * past all that were there since then, or that ran on while no turn was known: after such a task
 * has come, or one past the virtual time, and after eevdf_fair_run, none is until the next pick.
 * Nobody says beforehand how long ticks are.
 * They are true as long as each change that could make them untrue is made through the calls below:
 * these stand for eevdf_pick, eevdf_run, eevdf_tick, eevdf_admit, eevdf_admit_in, eevdf_put,
 * eevdf_wake, eevdf_renice, eevdf_set and eevdf_rebase, do to the queue what those do, and answer
 * the same. eevdf_pull and eevdf_pull_task may take a task out of the queue, and none is pulled
 * into it: eevdf_take and eevdf_fair_put are made in their stead. All other calls leave true bounds
 * true. After a change past them the bounds are opened anew when nothing is runnable.
 * Lock: the queue's. Interrupts: yes.
 */
void eevdf_fair_open(eevdf_bounds *bounds);

/*
 * As eevdf_pick: the task that it answers has a turn from now on.
 * Lock: the queue's. Interrupts: yes. ABSENT: nothing is runnable.
 */
int64_t eevdf_fair_pick(eevdf_bounds *bounds, eevdf_queue *queue);

/*
 * As eevdf_run. What the task is charged until the next pick is no turn, and moves the front.
 * Lock: the queue's. Interrupts: yes.
 * INVALID: no number of a task. ABSENT: the task isn't runnable here.
 */
int64_t eevdf_fair_run(eevdf_bounds *bounds, eevdf_queue *queue, uint64_t task);

/*
 * As eevdf_tick: the turn is longer by the charge.
 * Lock: the queue's. Interrupts: yes.
 * INVALID: ns is out of its limits. ABSENT: nobody runs. RANGE: its runtime or deadline would leave
 * the range.
 */
int64_t eevdf_fair_tick(eevdf_bounds *bounds, eevdf_queue *queue, uint64_t ns);

/*
 * As eevdf_admit. Takes a block of memory.
 * Lock: the queue's. Interrupts: as memory.
 * INVALID: task, nice, slice_ns or start is out of its limits. PRESENT: the task is here, runnable
 * or asleep. NO_MEMORY. RANGE: its deadline would leave the range.
 */
int64_t eevdf_fair_admit(eevdf_bounds *bounds, eevdf_queue *queue, uint64_t task, int64_t nice,
			 uint64_t slice_ns, int64_t start);

/*
 * As eevdf_admit_in, in the memory that `at` of `block` leads to.
 * Lock: the queue's. Interrupts: yes.
 * INVALID: task, nice, slice_ns or start is out of its limits. PRESENT: the task is here, runnable
 * or asleep. NO_MEMORY: `at` is NULL. RANGE: its deadline would leave the range.
 */
int64_t eevdf_fair_admit_in(eevdf_bounds *bounds, eevdf_queue *queue, eevdf_block *block,
			    uint64_t task, int64_t nice, uint64_t slice_ns, int64_t start);

/*
 * As eevdf_put.
 * Lock: the queue's. Interrupts: yes.
 * ABSENT: the hand is empty. PRESENT: the task's number is here. RANGE: it can't be placed. On an
 * error the hand keeps it.
 */
int64_t eevdf_fair_put(eevdf_bounds *bounds, eevdf_queue *queue, eevdf_hand *hand);

/*
 * As eevdf_wake.
 * Lock: the queue's. Interrupts: yes.
 * INVALID: no number of a task. PRESENT: it is runnable here. ABSENT: it isn't here. RANGE: it
 * can't be placed, and sleeps on.
 */
int64_t eevdf_fair_wake(eevdf_bounds *bounds, eevdf_queue *queue, uint64_t task);

/*
 * As eevdf_renice.
 * Lock: the queue's. Interrupts: yes.
 * INVALID: no number of a task, or no nice level. ABSENT: it isn't runnable here. RANGE: it
 * couldn't be placed.
 */
int64_t eevdf_fair_renice(eevdf_bounds *bounds, eevdf_queue *queue, uint64_t task, int64_t nice);

/*
 * As eevdf_set.
 * Lock: the queue's. Interrupts: yes.
 * INVALID: task, nice or slice_ns is out of its limits. ABSENT: the task isn't here. RANGE: it is
 * runnable and couldn't be placed; it keeps its nice level and its slice.
 */
int64_t eevdf_fair_set(eevdf_bounds *bounds, eevdf_queue *queue, uint64_t task, int64_t nice,
		       uint64_t slice_ns);

/*
 * As eevdf_rebase, and lowers the bounds with the virtual times. Answers 0.
 * Lock: the queue's. Interrupts: yes.
 */
int64_t eevdf_fair_rebase(eevdf_bounds *bounds, eevdf_queue *queue, int64_t *by);

/*
 * By how much the virtual time can be past the deadline of any runnable task, at most, as true
 * bounds say; 0 where nothing is runnable. It is in virtual time: of t units a CPU goes through
 * t * W / 1024 ns, where W is what eevdf_load answers.
 * Lock: the queue's. Interrupts: yes.
 */
int64_t eevdf_fair_lateness_bound(const eevdf_bounds *bounds, const eevdf_queue *queue);

/*
 * Writes the same in nanoseconds, rounded up, to `ns`: in so many a CPU goes through that virtual
 * time, at the load that the queue has now. It isn't how long a request has been due: the load may
 * have been another one meanwhile, and charges are rounded down. Answers 0. On an error `ns` isn't
 * touched.
 * Lock: the queue's. Interrupts: yes. RANGE: the number is 2^63 or more.
 */
int64_t eevdf_fair_lateness_bound_in_time(const eevdf_bounds *bounds, const eevdf_queue *queue,
					  int64_t *ns);

/*
 * Writes by how much the virtual time can be past a task's own deadline, at most, to `by`: in
 * virtual time. Answers 0. On an error `by` isn't touched.
 * Lock: the queue's. Interrupts: yes. INVALID: no number of a task. ABSENT: it isn't runnable here.
 */
int64_t eevdf_fair_lateness_bound_of(const eevdf_bounds *bounds, const eevdf_queue *queue,
				     uint64_t task, int64_t *by);

/*
 * Opens shares in the caller's bytes, for any queue. Takes no memory, and shares needn't be closed.
 * By them the queue knows at every moment how many nanoseconds a task lacks of its share of the
 * CPU, however many tasks come and go, and however short ticks are. Of each nanosecond that a tick
 * charges, a runnable task has its weight over what eevdf_load answers then.
 * Two calls keep them: eevdf_fair_share_tick and eevdf_fair_share_rebase, which stand for
 * eevdf_fair_tick and eevdf_fair_rebase, and do and answer the same. After a tick or a rebase past
 * them they are opened anew. Of all other calls they needn't know.
 * Lock: the queue's. Interrupts: yes.
 */
void eevdf_fair_share_open(eevdf_shares *shares);

/*
 * As eevdf_fair_tick, and each runnable task has its share of the time.
 * Lock: the queue's. Interrupts: yes.
 * INVALID: ns is out of its limits. ABSENT: nobody runs. RANGE: its runtime or deadline would leave
 * the range.
 */
int64_t eevdf_fair_share_tick(eevdf_shares *shares, eevdf_bounds *bounds, eevdf_queue *queue,
			      uint64_t ns);

/*
 * As eevdf_fair_rebase, and lowers the shares with the virtual times. Answers 0.
 * Lock: the queue's. Interrupts: yes.
 */
int64_t eevdf_fair_share_rebase(eevdf_shares *shares, eevdf_bounds *bounds, eevdf_queue *queue,
				int64_t *by);

/*
 * Writes a mark of this moment to `mark`, from which on a task has had nothing of its share, and
 * lacks nothing. It holds while the task stays runnable here and isn't placed anew: where it slept,
 * was moved, or was given a level by eevdf_fair_renice or eevdf_fair_set, also its own, it is marked
 * again. Answers 0. On an error `mark` isn't touched.
 * Lock: the queue's. Interrupts: yes. INVALID: no number of a task. ABSENT: it isn't runnable here.
 * RANGE: the shares have left their range, which takes more than 100 years of charges, or some 256
 * rebases that each lower the virtual times by 2^60.
 */
int64_t eevdf_fair_share_mark(const eevdf_shares *shares, const eevdf_queue *queue, uint64_t task,
			      eevdf_share_mark *mark);

/*
 * Writes to `ns` how many nanoseconds a task lacks of its share since a mark, at most. Answers 0.
 * On an error `ns` isn't touched.
 * Lock: the queue's. Interrupts: yes. INVALID: no number of a task. ABSENT: it isn't runnable here.
 * RANGE: the shares or the mark is out of range, or the number is 2^63 or more.
 */
int64_t eevdf_fair_share_bound(const eevdf_shares *shares, const eevdf_queue *queue, uint64_t task,
			       const eevdf_share_mark *mark, int64_t *ns);

/*
 * How many tasks are runnable, of which the running one is one.
 * Lock: the queue's. Interrupts: yes.
 */
int64_t eevdf_len(const eevdf_queue *queue);

/*
 * The sum of the runnable tasks' weights; nice level 0 weighs 1024.
 * Lock: the queue's. Interrupts: yes.
 */
int64_t eevdf_load(const eevdf_queue *queue);

/*
 * Writes the virtual time, rounded down, to `time`. Answers 0.
 * Lock: the queue's. Interrupts: yes.
 */
int64_t eevdf_floor_time(const eevdf_queue *queue, int64_t *time);

/* The running task. Lock: the queue's. Interrupts: yes. ABSENT: nobody runs. */
int64_t eevdf_running(const eevdf_queue *queue);

/*
 * The task that another CPU may pull: the waiting one of latest deadline, the greater number of
 * equal ones.
 * Lock: the queue's. Interrupts: yes. ABSENT: no task waits.
 */
int64_t eevdf_candidate(const eevdf_queue *queue);

/*
 * Writes what the queue knows of a runnable task to `out`. Answers 0. On an error `out` isn't
 * touched.
 * Lock: the queue's. Interrupts: yes. INVALID: no number of a task. ABSENT: it isn't runnable
 * here.
 */
int64_t eevdf_entry_of(const eevdf_queue *queue, uint64_t task, eevdf_entry *out);

/*
 * Writes what the queue keeps of a sleeping task to `out`. Answers 0. On an error `out` isn't
 * touched.
 * Lock: the queue's. Interrupts: yes. INVALID: no number of a task. ABSENT: it doesn't sleep
 * here.
 */
int64_t eevdf_sleeper_of(const eevdf_queue *queue, uint64_t task, eevdf_sleeper *out);

/*
 * Writes the place of a task that dozes to `out`, in the virtual times of now. Answers 0. On an
 * error `out` isn't touched. After many rebases a place may be far out of the range of virtual
 * times.
 * Lock: the queue's. Interrupts: yes. INVALID: no number of a task. ABSENT: it doesn't doze here.
 */
int64_t eevdf_place_of(const eevdf_queue *queue, uint64_t task, eevdf_place *out);

/*
 * Writes the lag to `lag` that a runnable task would keep if it left now, or that a sleeping one
 * keeps, in virtual time; above 0 it is owed time. Answers 0. On an error `lag` isn't touched.
 * Lock: the queue's. Interrupts: yes. INVALID: no number of a task. ABSENT: it isn't here.
 */
int64_t eevdf_lag(const eevdf_queue *queue, uint64_t task, int64_t *lag);

/*
 * 1 where the task sleeps here, else 0.
 * Lock: the queue's. Interrupts: yes. INVALID: no number of a task.
 */
int64_t eevdf_is_asleep(const eevdf_queue *queue, uint64_t task);

/*
 * 1 where the task is here, runnable or asleep, else 0.
 * Lock: the queue's. Interrupts: yes. INVALID: no number of a task.
 */
int64_t eevdf_contains(const eevdf_queue *queue, uint64_t task);

/*
 * 1 where a task of this nice level, slice and lag can be put here to be runnable without a virtual
 * time leaving its range, else 0. Whether such a task's number is here already is another question:
 * eevdf_contains.
 * Lock: the queue's. Interrupts: yes.
 * INVALID: nice or slice_ns is out of its limits, or the lag is beyond that of such a task, the
 * charge of two slices.
 */
int64_t eevdf_can_place(const eevdf_queue *queue, int64_t nice, uint64_t slice_ns, int64_t lag);

#ifdef __cplusplus
}
#endif

#endif
