"""Whether each task that a program pulls levels the two loads: that of the queue to which it comes is then still below what the other one
had before. Where the two stay locked all the while, no task can then go to and fro for ever."""

from wrapped import flags, function

HEAD = """
#include <eevdf.h>
#include <stdio.h>
#include <stdlib.h>
"""

PULL = """int64_t load = eevdf_load(from), answer = RIGHT; if (answer >= 0 && eevdf_load(to) >= load) {
fputs("a task is pulled to a queue that has as much load then as the other had, or more\\n", stderr); abort(); }
return answer;"""

CALLS = ("pull", "pull_task")


def source_and_flags():
    """A C file that looks at each pull, and how it is linked."""
    return HEAD + "".join(function(call, PULL) for call in CALLS), flags(CALLS)
