#!/usr/bin/env bash
# examples/linux/run.sh FOLDER: builds the module for the Linux below the folder, where fetch.sh has put one, or for one that is installed,
# below /. Boots it in qemu, with preemption wherever Linux has it and with a program that computes meanwhile, and loads the module. Prints
# what the same calls come to in a program here, and what the module and the other program say. Ends with 1 where they differ, or where
# Linux's build warns of anything or Linux of a fault, with 3 where something is missing, and with 124 where qemu takes more than 200
# seconds. MODULE names the kept LLVM module of the library (crates/eevdf_c/out/module), beside which the archive for programs lies.
set -eu
here=$(cd "$(dirname "$0")" && pwd)
top=$(cd "$here/../.." && pwd)
module=${MODULE:-$top/crates/eevdf_c/out/module}
cc=gcc-12
. "$here/compare.sh"

[ $# = 1 ] || fail "give the folder that fetch.sh has filled, or /" 2
headers=$(find "${1%/}/usr/src" -maxdepth 1 -name 'linux-headers-*-amd64' 2>/dev/null | sort -V | tail -n 1)
image=${1%/}/boot/vmlinuz-${headers##*/linux-headers-}
[ -n "$headers" ] && [ -f "$image" ] || fail "there is no Linux with its headers below $1: examples/linux/fetch.sh FOLDER" 3
need gcc-12 make qemu-system-x86_64

work=$(mktemp -d)
trap 'rm -rf "$work"' EXIT
MODULE="$module" "$top/install" --kernel --thunks "$work/prefix" >"$work/said"
mkdir "$work/module"
cp "$here"/{Kbuild,module.c,calls.h} "$work/module"
make -C "$headers" M="$work/module" PREFIX="$work/prefix" modules >"$work/said" 2>&1 || {
  cat "$work/said"
  fail "the module isn't built" 1
}
look_at_words "$work/said"

compile "$work/init" "$here/init.c" -static
"$here/initramfs.py" "$work/initramfs" init="$work/init" eevdf_calls.ko="$work/module/eevdf_calls.ko"
boot "$image" "$work/initramfs" "console=ttyS0 preempt=full"
compare
