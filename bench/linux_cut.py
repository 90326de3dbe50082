#!/usr/bin/env python3
"""linux_cut.py SOURCE OUT: cuts the definitions that bench/linux_queue.c needs out of Linux's source tree SOURCE, by their names and in the
order in which C wants them. Writes OUT/linux_types.h and OUT/linux_code.h, and copies what is taken whole: the red-black tree's headers and
the list of features. Ends with 3 where the tree lacks one of them, as that of another version may."""

import re
import shutil
import sys
from pathlib import Path

SCHED = "kernel/sched"
TYPES = {
    "include/linux/sched.h": "SCHED_FIXEDPOINT_SHIFT load_weight sched_avg sched_entity",
    f"{SCHED}/sched.h": """DEQUEUE_SLEEP DEQUEUE_SAVE DEQUEUE_NOCLOCK DEQUEUE_SPECIAL DEQUEUE_DELAYED ENQUEUE_WAKEUP ENQUEUE_RESTORE
        ENQUEUE_NOCLOCK ENQUEUE_MIGRATED ENQUEUE_INITIAL NICE_0_LOAD_SHIFT scale_load scale_load_down NICE_0_LOAD cfs_rq""",
}
CODE = {
    f"{SCHED}/core.c": "sched_prio_to_weight sched_prio_to_wmult",
    f"{SCHED}/sched-pelt.h": "LOAD_AVG_MAX",
    f"{SCHED}/pelt.h": "PELT_MIN_DIVIDER get_pelt_divider",
    f"{SCHED}/sched.h": "se_weight",
    f"{SCHED}/fair.c": """update_load_add update_load_sub update_load_set WMULT_CONST WMULT_SHIFT __update_inv_weight __calc_delta
        calc_delta_fair entity_before entity_key __node_2_se avg_vruntime_add avg_vruntime_sub update_zero_vruntime avg_vruntime
        entity_lag update_entity_lag vruntime_eligible entity_eligible __entity_less vruntime_gt __min_vruntime_update
        __min_slice_update min_vruntime_update RB_DECLARE_CALLBACKS __enqueue_entity __dequeue_entity __pick_first_entity
        set_protect_slice protect_slice cancel_protect_slice pick_eevdf __clear_buddies_next clear_buddies update_deadline
        update_curr_se did_preempt_short update_curr update_stats_curr_start account_entity_enqueue account_entity_dequeue
        sub_positive enqueue_load_avg dequeue_load_avg reweight_eevdf reweight_entity reweight_task_fair place_entity enqueue_entity
        set_delayed clear_delayed finish_delayed_dequeue_entity dequeue_entity set_next_entity dequeue_entities; pick_next_entity
        put_prev_entity entity_tick requeue_delayed_entity pick_task_fair yield_task_fair""",
}
# What a definition of a name looks like: a macro, a struct, an array, a function, a macro's use. A name that ends with a semicolon is a
# function's declaration.
FORMS = (
    r"^#\s*define\s+{}\b(?:[^\n]*\\\n)*[^\n]*\n",
    r"^struct {} \{{\n(?s:.*?)^\}}[^\n]*;\n",
    r"^[a-z][^\n]*\b{}\[[^\n]*=\s*\{{\n(?s:.*?)^\}};\n",
    r"^(?:[a-z_][^\n;{{}}()=]*[\s*])?{}\([^;{{}}]*\)\s*\n\{{\n(?s:.*?)^\}}\n",
    r"^{}\([^;{{]*\);\n",
)


def definition(text, name):
    """The first definition of the name, or None."""
    if name.endswith(";"):
        found = re.search(rf"(?m)^[a-z][^\n;{{}}()=]*[\s*]{name[:-1]}\([^;{{}}]*\);\n", text)
        return found and found.group()
    for form in FORMS:
        if found := re.search("(?m)" + form.format(re.escape(name)), text):
            return found.group()
    return None


def cut(source, names_of):
    pieces = []
    for file, names in names_of.items():
        text = (source / file).read_text()
        for name in names.split():
            piece = definition(text, name)
            if piece is None:
                print(f"linux_cut.py: {file} has no {name} that can be cut out: is it of another version?", file=sys.stderr)
                sys.exit(3)
            pieces.append(piece)
    return "\n".join(pieces)


def main():
    source, out = Path(sys.argv[1]), Path(sys.argv[2])
    (out / "linux").mkdir(parents=True)
    (out / "linux_types.h").write_text(cut(source, TYPES))
    (out / "linux_code.h").write_text(cut(source, CODE))
    shutil.copy(source / SCHED / "features.h", out / "linux_features.h")
    for header in (source / "include/linux").glob("rbtree*.h"):
        shutil.copy(header, out / "linux")
    for name in ("compiler", "container_of", "export", "rcupdate", "stddef"):
        (out / "linux" / f"{name}.h").write_text('#include "linux_stub.h"\n')


main()
