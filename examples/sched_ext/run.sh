#!/usr/bin/env bash
# examples/sched_ext/run.sh FOLDER WORD..: boots the Linux that build_linux.sh has put into the folder in qemu, with what build_machine.sh
# makes for it, and has the machine do what the words say, in their order:
#   load, unload       the module and the scheduler
#   load_plain, unload_plain  a scheduler without operations in their place, so that Linux's own part of sched_ext runs the tasks
#   shares=SECONDS     shares of four hogs beside a task that sleeps, and how late that wakes
#   naps=SECONDS       what those have that nap: for 1 us one after 4 ms each beside seven that compute, two after 2 ms beside one, and two
#                      after 0.5 ms beside one; and two for 0.5 ms after 0.5 ms beside one; for so long each
#   hunt=SECONDS       a hunt for a task that stands still, of less than 5 s: Linux's watchdog allows no longer waits
#   cpus=SECONDS       the same among tasks that change each other's CPUs
#   forks              forks until one is refused, and has all the children come to one CPU
#   fault=1, fault=2   a planted fault: a task that is lost as it wakes, a call that fails
#   real_time=SECONDS  tasks of real time that spin
#   turning=SECONDS    ends the scheduler beside two tasks for each CPU that change their class, and compute for so long
#   computing=SECONDS  the same beside tasks that change nothing
#   plant=3, plant=4   waits where other CPUs may come between, and no second look at what they have changed
#   plant=5            what tasks have that end isn't given back: a fault that is found as the module is unloaded
# Prints what the machine says. Ends with 1 where that has a fault, or where the scheduler was loaded and the machine came to no end, with
# 3 where something is missing, and with 124 where qemu takes too long before the scheduler is loaded.
# CPUS says how many the machine has (1), WORDS the module's parameters, TRACE a file where the trace of all calls goes, for replay.py.
# ICOUNT says how qemu counts time (shift=3,sleep=off: by instructions; `off`: by the host's clock). INITRAMFS names a file that
# build_machine.sh has made for this Linux; else that is done first, by the library that MODULE names there, and the file goes again. LOG
# keeps all that Linux says, and SECONDS_OF_QEMU is how long qemu may take (600).
set -eu
here=$(cd "$(dirname "$0")" && pwd)
. "$here/common.sh"

[ $# -ge 1 ] || fail "give the folder that build_linux.sh has filled" 2
folder=$(realpath -m "$1")
shift
need_linux "$folder"
tree=$folder/tree
need qemu-system-x86_64 qemu-system-x86
need python3 python3

work=$(mktemp -d)
trap 'rm -rf "$work"' EXIT
initramfs=${INITRAMFS:-$work/initramfs}
[ -n "${INITRAMFS:-}" ] || "$here/build_machine.sh" "$folder" "$initramfs"

# Of the machine's memory, in MB, Linux takes the first part. The trace goes into the rest, where the memory is a file.
linux_memory=384
trace_memory=128
all_memory=$((linux_memory + trace_memory))
trace_at=$((linux_memory << 20))
machine=pc
memory=()
words=${WORDS:-}
if [ -n "${TRACE:-}" ]; then
  machine=pc,memory-backend=ram
  memory=(-object "memory-backend-file,id=ram,size=${all_memory}M,mem-path=$work/ram,share=on")
  words="$words trace_at=$trace_at trace_size=$((trace_memory << 20))"
fi
# without ACPI Linux finds one CPU in each socket
cpus=${CPUS:-1}
counted=()
[ "${ICOUNT:=shift=3,sleep=off}" = off ] || counted=(-icount "$ICOUNT")

status=0
seconds=${SECONDS_OF_QEMU:-600}
timeout "$seconds" qemu-system-x86_64 -machine "$machine" -accel tcg -m "$all_memory" "${memory[@]}" "${counted[@]}" \
  -smp "cpus=$cpus,sockets=$cpus" -nodefaults -display none -serial stdio -no-reboot -kernel "$tree/arch/x86/boot/bzImage" \
  -initrd "$initramfs" \
  -append "console=ttyS0 mem=${linux_memory}M tsc=reliable panic=-1 \"module=$words\" -- $*" </dev/null >"$work/log" ||
  status=$?
[ -z "${LOG:-}" ] || cp "$work/log" "$LOG"
# a trace that can't be read is told last, since the machine may never have come to it
has_trace=yes
[ -z "${TRACE:-}" ] || "$here/replay.py" --cut "$work/ram" "$trace_at" "$TRACE" || has_trace=no
rm -f "$work/ram"
tr -d '\r' <"$work/log" | sed -n '/^[0-9]* CPUs$/,$p'
if [ "$status" = 124 ]; then
  ! grep -q '^the scheduler is loaded' "$work/log" || fail "the scheduler was loaded, and the machine had no end in $seconds seconds" 124
  fail "qemu hasn't come to its end in $seconds seconds" 124
fi
[ "$status" = 0 ] || fail "qemu ended with $status" 1
grep -q '^done' "$work/log" || { tail -n 40 "$work/log"; fail "the machine hasn't come to its end" 1; }
faults='FAULT|BUG|Oops|WARNING|general protection|Kernel panic|rcu.*stall|failed: call|still taken'
# what is planted is a call of task 1024, which is no number of a task
no_faults='failed: call .* of task 1024 |queues: 0 tasks, 0 numbers, 0 blocks and 0 places in queues are still taken'
if grep -E "$faults" "$work/log" | grep -vE "$no_faults" >"$work/found"; then
  fail "a fault is found: $(head -n 1 "$work/found")" 1
fi
[ "$has_trace" = yes ] || fail "the trace can't be read" 1
