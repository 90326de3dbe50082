#!/usr/bin/env bash
# examples/linux/vmlinux.sh [FOLDER]: builds a small Linux, from the source that Debian's package linux-source-6.1 or a later one installs,
# with the library for kernels linked into vmlinux. Boots it in qemu, with preemption wherever Linux has it, and has the drawn calls made once
# Linux has forbidden to run what isn't its code. Prints what the same calls come to in a program here, and what Linux says. Ends with 1
# where they differ, or where Linux's build says a word of the library or Linux of a fault, with 3 where something is missing, and with 124
# where qemu takes more than 1200 seconds.
# FOLDER keeps the source and what is built of it, half a GB: yisumbek/linux in $XDG_CACHE_HOME or ~/.cache where none is given. What is
# built is taken again where neither the source, nor the library, nor a file of this folder has changed. SOURCE names another tar archive of
# Linux than the newest below /usr/src, MODULE the kept LLVM module of the library (crates/eevdf_c/out/module), beside which the archive for
# programs lies, and JOBS how many compilers run at once (2).
set -eu
here=$(cd "$(dirname "$0")" && pwd)
top=$(cd "$here/../.." && pwd)
module=$(realpath -m "${MODULE:-$top/crates/eevdf_c/out/module}")
. "$here/compare.sh"

[ $# -le 1 ] || fail "give a folder, or none" 2
source=${SOURCE:-$(find /usr/src -maxdepth 1 -name 'linux-source-*.tar.xz' 2>/dev/null | sort -V | tail -n 1)}
[ -f "$source" ] || fail "there is no source of Linux in /usr/src (Debian package linux-source-6.1)" 3
need gcc make qemu-system-x86_64 flex bison bc tar xz flock
echo '#include <gelf.h>' | gcc -E - >/dev/null 2>&1 || fail "there is no gelf.h (Debian package libelf-dev)" 3

folder=${1:-${XDG_CACHE_HOME:-$HOME/.cache}/yisumbek/linux}
mkdir -p "$folder"
folder=$(cd "$folder" && pwd)
case $folder in
*[[:space:]:]*) fail "$folder has a blank or a colon: Linux's makefiles take none" 2 ;;
esac
tree=$folder/tree
# of two at a time one waits for the other
exec 9>"$folder/lock"
flock 9
work=$(mktemp -d)
trap 'rm -rf "$work"' EXIT

# unpack: the source, without most of what no such Linux is built of. All files that a configuration is read from are needed.
unpack() {
  rm -rf "$tree" "$folder/unpacked"
  mkdir "$tree"
  tar --extract --xz --file "$source" --directory "$tree" --strip-components=1 --exclude='*/Documentation/*/*' \
    --exclude='*/arch/[a-wyz]*/*.[chS]' --exclude='*/drivers/gpu/*.[ch]' --exclude='*/drivers/net/*.[ch]' --exclude='*/drivers/media/*.[ch]' \
    --exclude='*/sound/*.[ch]' --exclude='*/tools/testing/*' --exclude='*/tools/perf/*' --exclude='*.dts' --exclude='*.dtsi'
  # the only line of Linux's own that isn't as it was
  echo 'obj-y += eevdf/' >>"$tree/Kbuild"
  echo "$source_sum" >"$folder/unpacked"
}

# make_linux WORD..
make_linux() {
  nice make -C "$tree" -j"${JOBS:-2}" BUILT_IN=y PREFIX="$folder/prefix" "$@" >"$work/said" 2>&1 || {
    tail -n 60 "$work/said"
    fail "Linux isn't built" 1
  }
}

# configure: the least that there is, and what vmlinux.config names. What the look at the library stands on has to be in it.
configure() {
  local wanted
  cp "$here/vmlinux.config" "$tree/kernel/configs/eevdf.config"
  make_linux tinyconfig eevdf.config
  for wanted in STRICT_KERNEL_RWX LD_ORPHAN_WARN OBJTOOL X86_KERNEL_IBT '(MITIGATION_)?RETHUNK' '(MITIGATION_)?SLS' PREEMPT; do
    grep -qxE "CONFIG_$wanted=y" "$tree/.config" || fail "Linux can't be configured by CONFIG_$wanted" 1
  done
}

build() {
  rm -f "$folder/built"
  [ "$(cat "$folder/unpacked" 2>/dev/null)" = "$source_sum" ] || unpack
  rm -rf "$tree/eevdf"
  mkdir "$tree/eevdf"
  cp "$here"/{Kbuild,module.c,calls.h} "$tree/eevdf"
  configure
  make_linux vmlinux
  look_at_words "$work/said"
  echo "$sum" >"$folder/built"
}

MODULE=$module "$top/install" --kernel --thunks "$work/prefix" >"$work/said"
source_sum=$(sha256sum <"$source")
sum=$({ echo "$source_sum"; gcc --version; ld --version; cat "$here"/* "$work/prefix/include/eevdf.h" "$work/prefix/lib/libeevdf_kernel.a"; } |
  sha256sum)
if [ "$sum" != "$(cat "$folder/built" 2>/dev/null)" ]; then
  rm -rf "$folder/prefix"
  mv "$work/prefix" "$folder/prefix"
  build
fi

compile "$work/init" "$here/wait.c" -static
"$here/initramfs.py" "$work/initramfs" init="$work/init"
boot "$tree/vmlinux" "$work/initramfs" earlyprintk=serial,ttyS0,115200,keep
compare
