#!/usr/bin/env bash
# examples/sched_ext/build_machine.sh FOLDER INITRAMFS: builds the module, the two schedulers of BPF and the machine's program for the Linux
# that build_linux.sh has put into the folder, and packs them into a file with which run.sh boots it. MODULE names the kept LLVM module of
# the library (crates/eevdf_c/out/module). Ends with 3 where something is missing.
set -eu
here=$(cd "$(dirname "$0")" && pwd)
top=$(cd "$here/../.." && pwd)
. "$here/common.sh"

[ $# = 2 ] || fail "give the folder that build_linux.sh has filled, and a file to make" 2
folder=$(realpath -m "$1")
initramfs=$(realpath -m "$2")
need_linux "$folder"
tree=$folder/tree
libbpf=$tree/tools/bpf/resolve_btfids/libbpf
need gcc gcc
need make make
need clang clang
need pahole pahole
need python3 python3
need_header gelf.h libelf-dev
need_header zlib.h zlib1g-dev
need_archive libelf.a libelf-dev
need_archive libz.a zlib1g-dev
module=$(realpath -m "${MODULE:-$top/crates/eevdf_c/out/module}")
[ -e "$module" ] || fail "there is no $module: build it by './build eevdf_c', or name another by MODULE" 3

work=$(mktemp -d)
trap 'rm -rf "$work"' EXIT

# quietly WHAT COMMAND..: does a command, and shows what it says where it fails or warns.
quietly() {
  local what=$1
  shift
  "$@" >"$work/said" 2>&1 || { tail -n 60 "$work/said"; fail "$what isn't built" 1; }
  if grep -iE "warning|objtool:" "$work/said" | grep -vE "statically linked applications requires"; then
    fail "something is said of $what" 1
  fi
}

MODULE=$module quietly "the library" "$top/install" --kernel --thunks "$work/prefix"
mkdir "$work/module"
cp "$here"/Kbuild "$here"/{common,calls,tasks,numbers,queues,scheduler}.h \
  "$here"/{module,scheduler,forks,pulls,moves,queues,numbers,tasks,calls}.c "$top/bindings/c/eevdf_no_memory.c" "$work/module"
cp "$here/../linux/Kbuild" "$work/module/Kbuild.linux"
quietly "the module" make -C "$tree" M="$work/module" PREFIX="$work/prefix" modules
for name in scheduler plain; do
  quietly "the scheduler" clang -O2 -g -Wall -Werror -target bpf -mcpu=v3 -I "$libbpf/include" -I "/usr/include/$(gcc -dumpmachine)" -c \
    -o "$work/$name.bpf.o" "$here/$name.bpf.c"
done
quietly "the machine's program" gcc -std=gnu11 -O2 -Wall -Wextra -static -I "$libbpf/include" -o "$work/init" \
  "$here"/{machine,loading,measures,hunt,fill,faults,real_time}.c "$libbpf/libbpf.a" -lelf -lz
"$here/../linux/initramfs.py" "$work/initramfs" init="$work/init" eevdf_queues.ko="$work/module/eevdf_queues.ko" \
  scheduler.bpf.o="$work/scheduler.bpf.o" plain.bpf.o="$work/plain.bpf.o"
mv "$work/initramfs" "$initramfs"
