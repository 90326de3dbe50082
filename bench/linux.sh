#!/usr/bin/env bash
# linux.sh [MIX..]: what a turn of calls costs by functions cut out of Linux's own kernel/sched/fair.c, beside the queue's, on the same
# inputs: nanoseconds, instructions and mispredicted branches (turn_costs.py). Linux's source is fetched as Debian's package
# linux-source-6.12 (150 MB) into a temporary folder, and nothing of it is kept; DEB names a package that is fetched already. docs/speed.md
# says where the rules differ. The environment may give other values: CC (gcc), PROGRAM (the one that ./build makes), PASSES (12). Ends with
# 3 where a tool, the package or the network isn't there. No proof speaks of any of it.
set -eu
cd "$(dirname "$0")/.."
program=${PROGRAM:-$PWD/crates/measures/out/measures}
cc=${CC:-gcc}
package=linux-source-6.12

fault() {
  echo "bench/linux.sh: $1" >&2
  exit 3
}

for tool in "$cc" valgrind python3 dpkg-deb xz; do
  command -v "$tool" >/dev/null || fault "there is no $tool"
done
if [ -z "${DEB:-}" ]; then
  command -v apt-get >/dev/null || fault "there is no apt-get to fetch Debian's package $package; DEB may name one"
fi

[ -n "${PROGRAM:-}" ] || ./build measures

work=$(mktemp -d)
trap 'rm -rf "$work"' EXIT

# Fetches the package into the temporary folder.
fetch() {
  (cd "$work" && apt-get download -q "$package" >fetched 2>&1) ||
    fault "Debian's package $package can't be fetched: $(grep -m 1 '^E:' "$work/fetched")"
}

deb=${DEB:-}
if [ -z "$deb" ]; then
  fetch
  deb=$(find "$work" -name "$package*.deb")
fi
[ -f "$deb" ] || fault "there is no package $deb"
echo "Linux's functions are those of $(dpkg-deb -f "$deb" Package Version | tr '\n' ' ')"
dpkg-deb --fsys-tarfile "$deb" | tar -xO --wildcards '*/linux-source-*.tar.xz' >"$work/tree.tar.xz"
mkdir "$work/tree"
tar -C "$work/tree" --strip-components=1 -xJf "$work/tree.tar.xz" --wildcards '*/kernel/sched/*.[ch]' '*/include/linux/sched.h' \
  '*/include/linux/rbtree*.h' '*/lib/rbtree.c'
python3 bench/linux_cut.py "$work/tree" "$work/cut"

# As the kernel is compiled: sums wrap, pointers of different types may meet, and a value that may not be set is no warning. Other warnings
# are errors in what stands in this folder.
flags=(-std=gnu11 -O2 -fno-strict-aliasing -fno-strict-overflow -Wall -Wextra -Werror -Wno-maybe-uninitialized
  -isystem "$work/cut")
"$cc" "${flags[@]}" -w -Ibench -c -o "$work/rbtree.o" "$work/tree/lib/rbtree.c"
"$cc" "${flags[@]}" -Ibench -o "$work/linux_queue" bench/linux_queue.c "$work/rbtree.o"

python3 bench/turn_costs.py "${program@Q} queue" "$work/linux_queue" -- "$@"
