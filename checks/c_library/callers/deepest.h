/*
 * deepest.h: plans of trees that are as deep as a queue's can be. In a queue's tree the two sides
 * of a task differ by at most one level, so a tree of 14 levels has at least 986 tasks, and one of
 * 15 would have 1596, which is more than there are.
 *
 * Where tasks come in level by level, from the top, the tree is as planned. Each comes to stand
 * below the last task on the way to its place, where the plan has it too. And none is rotated away:
 * while those of level n + 1 come in, a side that is planned with h levels has min(h, n) of them or
 * min(h, n + 1), so where two planned numbers differ by at most one, these do.
 */
#ifndef DEEPEST_H
#define DEEPEST_H

#include <eevdf.h>
#include <stdbool.h>

enum { SHAPES = 16 };

/*
 * A tree of as many levels as there can be, and of the fewest tasks that make them: the level of
 * each, in the order of deadlines, where the top is level 1.
 */
struct plan {
	unsigned shape, count;
	int most, levels;
	int level_of[EEVDF_TASKS];
};

/* How many tasks a tree of so many levels has at least: at the top, and on the two sides. */
static inline unsigned fewest_tasks(int levels)
{
	return levels < 1 ? 0 : 1 + fewest_tasks(levels - 1) + fewest_tasks(levels - 2);
}

/*
 * Which side of the tasks of a level is the higher one. A shape says it of the top, of each of the
 * two lowest levels that have others below, and of those between. So in some shapes the lowest task
 * takes the place of the top where that leaves, and in some the one that takes it leaves a side too
 * low, as far down as that can be.
 */
static inline bool is_left_higher(const struct plan *plan, int level)
{
	int last = plan->most - level;
	int bit = level == 1 ? 0 : last > 2 ? 1 : last + 1;

	return (plan->shape >> bit) & 1;
}

/* Adds the tasks of a part with so many levels, whose top stands on a level. */
static inline void plan_part(struct plan *plan, int levels, int level)
{
	bool is_left;

	if (levels < 1)
		return;
	is_left = is_left_higher(plan, level);
	plan_part(plan, is_left ? levels - 1 : levels - 2, level + 1);
	plan->level_of[plan->count++] = level;
	if (level > plan->levels)
		plan->levels = level;
	plan_part(plan, is_left ? levels - 2 : levels - 1, level + 1);
}

static inline void plan_tree(struct plan *plan, unsigned shape)
{
	*plan = (struct plan){ .shape = shape };
	while (fewest_tasks(plan->most + 1) <= EEVDF_TASKS)
		plan->most++;
	plan_part(plan, plan->most, 1);
}

static inline bool is_low(const struct plan *plan, unsigned place)
{
	return place < plan->count && plan->level_of[place] >= plan->levels - 1;
}

/*
 * Whether a place is on one of the two lowest levels, or the one before it, whose task is put in
 * its stead where its own leaves.
 */
static inline bool is_near_low(const struct plan *plan, unsigned place)
{
	return is_low(plan, place) || (place > 0 && is_low(plan, place - 1));
}

#endif
