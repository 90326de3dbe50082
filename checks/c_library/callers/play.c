/*
 * play.c: makes the calls that standard input names, a line each, and prints each answer, with what
 * else the call gives. A line is the name of a call without `eevdf_`, the numbers of its queues and
 * its hand where it has them, and its numbers. Besides,
 *   state QUEUE TASKS   prints all that can be read of a queue and its tasks below a number,
 *   refuse 1, refuse 0  let every request for memory be refused from there on, or none.
 * Every other admit gives the task a block, by eevdf_admit_in, and every other end gets one back, by
 * eevdf_end_out; and every other hand that is closed gives one back by eevdf_hand_end_out. They
 * answer as eevdf_admit and eevdf_end, and leave the same state.
 * A changed byte around a queue or a hand ends it with 1.
 */
#include <eevdf.h>
#include <inttypes.h>
#include <stdbool.h>
#include <stdio.h>
#include <stdlib.h>
#include <string.h>

enum { QUEUES = 2, HANDS = 2, EDGE = 32, MARK = 0xa5, NUMBERS = 6 };

static struct {
	_Alignas(16) unsigned char before[EDGE];
	eevdf_queue queue;
	unsigned char after[EDGE];
} queues[QUEUES];

static struct {
	_Alignas(16) unsigned char before[EDGE];
	eevdf_hand hand;
	unsigned char after[EDGE];
} hands[HANDS];

static bool refuses;
static int64_t written[5];
static unsigned written_count;

eevdf_memory eevdf_alloc(size_t size, size_t align)
{
	static unsigned char none;
	void *block = refuses ? NULL : malloc(size);

	(void)align;
	return block ? (eevdf_memory){ 1, block } : (eevdf_memory){ 0, &none };
}

void eevdf_dealloc(void *block)
{
	free(block);
}

/*
 * The numbers of a line are taken as a call has its arguments: those above 2^63 as they are, and
 * negative ones by their signs.
 */
struct line {
	char name[16];
	uint64_t number[NUMBERS];
};

static eevdf_queue *queue_of(const struct line *line)
{
	return &queues[line->number[0] % QUEUES].queue;
}

static eevdf_hand *hand_of(const struct line *line, unsigned at)
{
	return &hands[line->number[at] % HANDS].hand;
}

static int64_t play_open(const struct line *line)
{
	eevdf_open(queue_of(line));
	return 0;
}

static int64_t play_close(const struct line *line)
{
	eevdf_close(queue_of(line));
	return 0;
}

static int64_t play_hand_open(const struct line *line)
{
	eevdf_hand_open(hand_of(line, 0));
	return 0;
}

static int64_t play_hand_task(const struct line *line)
{
	return eevdf_hand_task(hand_of(line, 0));
}

static int64_t play_hand_renumber(const struct line *line)
{
	return eevdf_hand_renumber(hand_of(line, 0), line->number[1]);
}

static int64_t play_refuse(const struct line *line)
{
	refuses = line->number[0] != 0;
	return 0;
}

/* Whether a call is to use blocks that are given: every other time. */
static bool is_given(void)
{
	static unsigned calls_made;

	return calls_made++ % 2 != 0;
}

static int64_t play_admit_in(const struct line *line)
{
	const uint64_t *number = line->number;
	eevdf_block block = { refuses ? NULL : malloc(EEVDF_TASK_SIZE) };
	int64_t answer = eevdf_admit_in(queue_of(line), &block, number[1], (int64_t)number[2],
					number[3], (int64_t)number[4]);

	free(block.at);
	return answer;
}

static int64_t play_admit(const struct line *line)
{
	const uint64_t *number = line->number;

	if (is_given())
		return play_admit_in(line);
	return eevdf_admit(queue_of(line), number[1], (int64_t)number[2], number[3],
			   (int64_t)number[4]);
}

static int64_t play_end(const struct line *line)
{
	eevdf_block block = { NULL };
	int64_t answer;

	if (!is_given())
		return eevdf_end(queue_of(line), line->number[1]);
	answer = eevdf_end_out(queue_of(line), &block, line->number[1]);
	free(block.at);
	return answer;
}

/* Closing answers nothing: an answer of the other call is printed where it isn't the right one. */
static int64_t play_hand_close(const struct line *line)
{
	eevdf_hand *hand = hand_of(line, 0);
	const int64_t wanted = eevdf_hand_task(hand) < 0 ? EEVDF_ABSENT : 0;
	eevdf_block block = { NULL };
	int64_t answer = wanted;

	if (is_given())
		answer = eevdf_hand_end_out(hand, &block);
	else
		eevdf_hand_close(hand);
	free(block.at);
	return answer == wanted ? 0 : answer;
}

static int64_t play_doze(const struct line *line)
{
	written_count = 1;
	written[0] = -1;
	return eevdf_doze(queue_of(line), line->number[1], &written[0]);
}

static int64_t play_tick(const struct line *line)
{
	return eevdf_tick(queue_of(line), line->number[1]);
}

static int64_t play_renice(const struct line *line)
{
	return eevdf_renice(queue_of(line), line->number[1], (int64_t)line->number[2]);
}

static int64_t play_set_slice(const struct line *line)
{
	return eevdf_set_slice(queue_of(line), line->number[1], line->number[2]);
}

static int64_t play_set(const struct line *line)
{
	const uint64_t *number = line->number;

	return eevdf_set(queue_of(line), number[1], (int64_t)number[2], number[3]);
}

static int64_t play_begin(const struct line *line)
{
	const uint64_t *number = line->number;

	return eevdf_begin(queue_of(line), number[1], (int64_t)number[2], number[3]);
}

static int64_t play_rebase(const struct line *line)
{
	written_count = 1;
	return eevdf_rebase(queue_of(line), &written[0]);
}

static int64_t play_take(const struct line *line)
{
	return eevdf_take(queue_of(line), hand_of(line, 1), line->number[2]);
}

static int64_t play_take_any(const struct line *line)
{
	return eevdf_take_any(queue_of(line), hand_of(line, 1));
}

static int64_t play_put(const struct line *line)
{
	return eevdf_put(queue_of(line), hand_of(line, 1));
}

static int64_t play_put_asleep(const struct line *line)
{
	return eevdf_put_asleep(queue_of(line), hand_of(line, 1));
}

static eevdf_queue *other_queue_of(const struct line *line)
{
	return &queues[line->number[1] % QUEUES].queue;
}

static int64_t play_pull(const struct line *line)
{
	return eevdf_pull(queue_of(line), other_queue_of(line));
}

static int64_t play_pull_task(const struct line *line)
{
	return eevdf_pull_task(queue_of(line), other_queue_of(line), line->number[2]);
}

static int64_t play_floor_time(const struct line *line)
{
	written_count = 1;
	return eevdf_floor_time(queue_of(line), &written[0]);
}

static int64_t play_lag(const struct line *line)
{
	written_count = 1;
	written[0] = -1;
	return eevdf_lag(queue_of(line), line->number[1], &written[0]);
}

static int64_t play_entry_of(const struct line *line)
{
	eevdf_entry entry = { -1, -1, -1, 1 };
	int64_t answer = eevdf_entry_of(queue_of(line), line->number[1], &entry);

	written_count = 4;
	written[0] = entry.vruntime;
	written[1] = entry.deadline;
	written[2] = entry.nice;
	written[3] = (int64_t)entry.slice_ns;
	return answer;
}

static int64_t play_sleeper_of(const struct line *line)
{
	eevdf_sleeper sleeper = { -1, -1, 1 };
	int64_t answer = eevdf_sleeper_of(queue_of(line), line->number[1], &sleeper);

	written_count = 3;
	written[0] = sleeper.lag;
	written[1] = sleeper.nice;
	written[2] = (int64_t)sleeper.slice_ns;
	return answer;
}

/* The lower half is printed with a sign. */
static int64_t play_place_of(const struct line *line)
{
	eevdf_place place = { -1, 1 };
	int64_t answer = eevdf_place_of(queue_of(line), line->number[1], &place);

	written_count = 2;
	written[0] = place.high;
	written[1] = (int64_t)place.low;
	return answer;
}

static int64_t play_hand_parcel(const struct line *line)
{
	eevdf_parcel parcel = { 1, -1, 1, -1, -1 };
	int64_t answer = eevdf_hand_parcel(hand_of(line, 0), &parcel);

	written_count = 5;
	written[0] = (int64_t)parcel.task;
	written[1] = parcel.nice;
	written[2] = (int64_t)parcel.slice_ns;
	written[3] = parcel.start;
	written[4] = parcel.lag;
	return answer;
}

static int64_t play_can_place(const struct line *line)
{
	const uint64_t *number = line->number;

	return eevdf_can_place(queue_of(line), (int64_t)number[1], number[2], (int64_t)number[3]);
}

/*
 * The calls of a queue alone, of a queue and a task, and of a queue that is read, by their names;
 * and those above.
 */
static const struct {
	const char *name;
	int64_t (*change)(eevdf_queue *);
	int64_t (*read)(const eevdf_queue *);
	int64_t (*change_task)(eevdf_queue *, uint64_t);
	int64_t (*read_task)(const eevdf_queue *, uint64_t);
	int64_t (*play)(const struct line *);
} calls[] = {
	{ .name = "pick", .change = eevdf_pick },
	{ .name = "peek", .read = eevdf_peek },
	{ .name = "tick", .play = play_tick },
	{ .name = "time_to_resched", .read = eevdf_time_to_resched },
	{ .name = "yield", .change = eevdf_yield },
	{ .name = "run", .change_task = eevdf_run },
	{ .name = "stop", .change = eevdf_stop },
	{ .name = "sleep", .change_task = eevdf_sleep },
	{ .name = "doze", .play = play_doze },
	{ .name = "wake", .change_task = eevdf_wake },
	{ .name = "end", .play = play_end },
	{ .name = "admit", .play = play_admit },
	{ .name = "renice", .play = play_renice },
	{ .name = "set_slice", .play = play_set_slice },
	{ .name = "set", .play = play_set },
	{ .name = "begin", .play = play_begin },
	{ .name = "rebase", .play = play_rebase },
	{ .name = "take", .play = play_take },
	{ .name = "take_any", .play = play_take_any },
	{ .name = "put", .play = play_put },
	{ .name = "put_asleep", .play = play_put_asleep },
	{ .name = "pull", .play = play_pull },
	{ .name = "pull_task", .play = play_pull_task },
	{ .name = "len", .read = eevdf_len },
	{ .name = "load", .read = eevdf_load },
	{ .name = "running", .read = eevdf_running },
	{ .name = "candidate", .read = eevdf_candidate },
	{ .name = "floor_time", .play = play_floor_time },
	{ .name = "entry_of", .play = play_entry_of },
	{ .name = "sleeper_of", .play = play_sleeper_of },
	{ .name = "place_of", .play = play_place_of },
	{ .name = "lag", .play = play_lag },
	{ .name = "is_asleep", .read_task = eevdf_is_asleep },
	{ .name = "contains", .read_task = eevdf_contains },
	{ .name = "can_place", .play = play_can_place },
	{ .name = "open", .play = play_open },
	{ .name = "close", .play = play_close },
	{ .name = "hand_open", .play = play_hand_open },
	{ .name = "hand_task", .play = play_hand_task },
	{ .name = "hand_parcel", .play = play_hand_parcel },
	{ .name = "hand_renumber", .play = play_hand_renumber },
	{ .name = "hand_close", .play = play_hand_close },
	{ .name = "refuse", .play = play_refuse },
};

static int64_t answer_to(const struct line *line)
{
	for (size_t at = 0; at < sizeof calls / sizeof *calls; at++) {
		if (strcmp(line->name, calls[at].name) != 0)
			continue;
		if (calls[at].change)
			return calls[at].change(queue_of(line));
		if (calls[at].read)
			return calls[at].read(queue_of(line));
		if (calls[at].change_task)
			return calls[at].change_task(queue_of(line), line->number[1]);
		if (calls[at].read_task)
			return calls[at].read_task(queue_of(line), line->number[1]);
		return calls[at].play(line);
	}
	fprintf(stderr, "play: no call is named %s\n", line->name);
	exit(2);
}

static void print_answer(const struct line *line)
{
	written_count = 0;
	printf("%" PRId64, answer_to(line));
	for (unsigned at = 0; at < written_count; at++)
		printf(" %" PRId64, written[at]);
	putchar('\n');
}

static void print_task(const eevdf_queue *queue, uint64_t task)
{
	eevdf_entry entry = { 0, 0, 0, 0 };
	eevdf_sleeper sleeper = { 0, 0, 0 };
	eevdf_place place = { 0, 0 };
	int64_t lag = 0;

	if (eevdf_contains(queue, task) != 1)
		return;
	eevdf_lag(queue, task, &lag);
	printf(" %" PRIu64 ":%" PRId64, task, lag);
	if (eevdf_entry_of(queue, task, &entry) == 0)
		printf(",%" PRId64 ",%" PRId64 ",%" PRId64 ",%" PRIu64, entry.vruntime,
		       entry.deadline, entry.nice, entry.slice_ns);
	if (eevdf_sleeper_of(queue, task, &sleeper) == 0)
		printf(",%" PRId64 ",%" PRIu64, sleeper.nice, sleeper.slice_ns);
	if (eevdf_place_of(queue, task, &place) == 0)
		printf(",%" PRId64 ",%" PRId64, place.high, (int64_t)place.low);
}

static void print_state(const struct line *line)
{
	const eevdf_queue *queue = queue_of(line);
	int64_t time = 0;

	eevdf_floor_time(queue, &time);
	printf("%" PRId64 " %" PRId64 " %" PRId64, eevdf_len(queue), eevdf_load(queue), time);
	printf(" %" PRId64 " %" PRId64, eevdf_running(queue), eevdf_candidate(queue));
	for (uint64_t task = 0; task < line->number[1]; task++)
		print_task(queue, task);
	putchar('\n');
}

static bool is_marked(const unsigned char *edge)
{
	for (unsigned at = 0; at < EDGE; at++)
		if (edge[at] != MARK)
			return false;
	return true;
}

static bool are_edges_marked(void)
{
	for (unsigned at = 0; at < QUEUES; at++)
		if (!is_marked(queues[at].before) || !is_marked(queues[at].after))
			return false;
	for (unsigned at = 0; at < HANDS; at++)
		if (!is_marked(hands[at].before) || !is_marked(hands[at].after))
			return false;
	return true;
}

static struct line read_line(const char *text)
{
	struct line line = { 0 };
	size_t length = strcspn(text, " \n");
	char *rest;

	memcpy(line.name, text, length < sizeof line.name ? length : sizeof line.name - 1);
	text += length;
	for (unsigned at = 0; at < NUMBERS && *text == ' '; at++, text = rest)
		line.number[at] = strtoull(text, &rest, 10);
	return line;
}

int main(void)
{
	char text[256];

	memset(queues, MARK, sizeof queues);
	memset(hands, MARK, sizeof hands);
	while (fgets(text, sizeof text, stdin)) {
		struct line line = read_line(text);

		if (strcmp(line.name, "state") == 0)
			print_state(&line);
		else
			print_answer(&line);
		if (!are_edges_marked()) {
			printf("FAILED: a byte around a queue or a hand has changed\n");
			return 1;
		}
	}
	return 0;
}
