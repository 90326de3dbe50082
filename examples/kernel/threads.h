/* Of each thread: nice level, slice in ns, ticks to compute and to sleep in a round, and rounds. */
{ 0, 3000000, 700, 0, 1 },
{ 0, 3000000, 700, 0, 1 },
{ 5, 3000000, 200, 0, 1 },
{ 5, 6000000, 200, 0, 1 },
{ 0, 3000000, 4, 30, 40 },
{ -5, 1000000, 1, 50, 30 },
{ 10, 3000000, 10, 200, 5 },
