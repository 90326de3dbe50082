# shellcheck shell=bash
# common.sh: what build_linux.sh, build_machine.sh and run.sh have in common, which source it: how each ends where something is missing.

# what compilers and linkers say is looked at in English
export LANG=C LC_ALL=C

# fail WHY STATUS
fail() {
  echo "examples/sched_ext/$(basename "$0"): $1" >&2
  exit "$2"
}

# need TOOL PACKAGE
need() {
  command -v "$1" >/dev/null || fail "there is no $1 (Debian package $2)" 3
}

# need_header HEADER PACKAGE
need_header() {
  echo "#include <$1>" | gcc -E - >/dev/null 2>&1 || fail "there is no $1 (Debian package $2)" 3
}

# need_archive ARCHIVE PACKAGE: a library that is linked into a program. gcc gives its path where it finds it.
need_archive() {
  [[ $(gcc -print-file-name="$1") == /* ]] || fail "there is no $1 (Debian package $2)" 3
}

# need_linux FOLDER: one that build_linux.sh has filled.
need_linux() {
  [ -e "$1/built" ] || fail "there is no built Linux in $1: examples/sched_ext/build_linux.sh FOLDER" 3
}
