#!/usr/bin/env bash
# examples/sched_ext/build_linux.sh FOLDER [CONFIG..]: fetches the source of Linux 6.12 by Debian's package, 153 MB, and builds a small
# Linux with sched_ext below the folder, as linux.config says, with what modules, programs of BPF and their loader are built against. It
# installs nothing, and goes on where an earlier run was ended. It takes 2 GB, and some minutes to an hour. JOBS says how many compilers run
# at once (2). What CONFIG.config says comes to it: `locks` looks at locks, and `races` finds accesses that race.
# Ends with 3 where something is missing.
set -eu
here=$(cd "$(dirname "$0")" && pwd)
package=linux-source-6.12
# lies in a tree that this script has made: no other is removed
mark=tree/.made_by_build_linux
. "$here/common.sh"

[ $# -ge 1 ] || fail "give a folder" 2
folder=$1
shift
for config; do
  [ -e "$here/$config.config" ] || fail "there is no $config.config" 2
done
mkdir -p "$folder"
cd "$folder"
case $PWD in
*[[:space:]:]*) fail "$PWD has a blank or a colon: Linux's makefiles take none" 2 ;;
esac
for tool in gcc make flex bison bc pahole; do
  need "$tool" "$tool"
done
need xz xz-utils
need dpkg-deb dpkg
need_header gelf.h libelf-dev
need_header zlib.h zlib1g-dev

# The source, without most of what no such Linux is built of, in place of what an earlier run has left of it.
unpack() {
  [ ! -e tree ] || [ -e "$mark" ] || fail "there is a tree in $PWD that this script hasn't made: give another folder" 2
  packages=$(mktemp -d "$PWD/packages-XXXXXX")
  trap 'rm -rf "$packages"' EXIT
  (cd "$packages" && apt-get download "$package") ||
    fail "$package can't be fetched: it is in bookworm-security and bookworm-backports, whose lists 'apt-get update' fetches" 3
  rm -rf tree
  mkdir tree
  touch "$mark"
  dpkg-deb --fsys-tarfile "$packages"/*.deb | tar --extract --to-stdout "./usr/src/$package.tar.xz" |
    tar --extract --xz --directory tree --strip-components=1 --exclude='*/Documentation/*/*' --exclude='*/arch/[a-wyz]*/*.[chS]' \
      --exclude='*/drivers/gpu/*.[ch]' --exclude='*/drivers/media/*.[ch]' --exclude='*/sound/*.[ch]' \
      --exclude='*/tools/perf/*' --exclude='*.dts' --exclude='*.dtsi'
  rm -rf "$packages"
  touch unpacked
}

# configure CONFIG..: what each of these files asks for is in the Linux.
configure() {
  local config wanted names=()
  for config; do
    cp "$here/$config.config" "tree/kernel/configs/eevdf_$config.config"
    names+=("eevdf_$config.config")
  done
  make -C tree tinyconfig "${names[@]}" >said 2>&1 || { tail -n 20 said; fail "Linux isn't configured" 1; }
  for config; do
    while read -r wanted; do
      grep -qxF "$wanted" tree/.config || fail "Linux can't be configured by $wanted" 1
    done < <(grep '^CONFIG_' "$here/$config.config")
  done
}

rm -f built
[ -e unpacked ] || unpack
configure linux "$@"
make -C tree -j"${JOBS:-2}" bzImage modules >said 2>&1 || { tail -n 40 said; fail "Linux isn't built" 1; }
make -s -C tree kernelrelease >built
echo "Linux $(cat built) is built"
