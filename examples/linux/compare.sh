# shellcheck shell=bash disable=SC2154 # run.sh and vmlinux.sh set the names that it takes
# compare.sh: what run.sh and vmlinux.sh have in common, which source it. $here is this folder, $top that of the repository, $module the
# kept LLVM module of the library, and $work a folder to work in.

# what compilers and linkers say is looked at in English
export LANG=C LC_ALL=C LC_MESSAGES=C

# fail WHY STATUS
fail() {
  echo "examples/linux/$(basename "$0"): $1" >&2
  exit "$2"
}

# need TOOL..: ends where one of the tools is missing.
need() {
  local tool
  for tool; do
    command -v "$tool" >/dev/null || fail "there is no $tool: docs/embedding-c.md names Debian's packages" 3
  done
}

# compile PROGRAM SOURCE WORD..: builds a program for this machine or for that in qemu.
compile() {
  "${cc:-gcc}" -std=c11 -O2 -Wall -Wextra -Werror -pedantic "-I$top/include" -o "$1" "${@:2}"
}

# said_by_program: what the drawn calls come to in a program here.
said_by_program() {
  compile "$work/program" "$here/program.c" "$top/bindings/c/eevdf_malloc.c" "$(dirname "$module")/libeevdf_c.a"
  "$work/program"
}

# look_at_words FILE: ends where Linux's build says something of what is built. It may say that without an image of its own there are no
# types for BPF, and that another build of the compiler made the image.
look_at_words() {
  if grep -vE "^Skipping BTF generation|the compiler differs from" "$1" | grep -iE "warning|objtool:|orphan section"; then
    fail "Linux's build says something of what it builds" 1
  fi
}

# boot IMAGE INITRAMFS WORDS: boots Linux with these words, and keeps its log.
boot() {
  local status=0
  timeout 1200 qemu-system-x86_64 -machine pc -accel tcg -m 512 -nodefaults -display none -serial stdio -no-reboot -kernel "$1" \
    -initrd "$2" -append "$3 panic=-1" </dev/null >"$work/log" || status=$?
  [ "$status" != 124 ] || fail "qemu hasn't come to its end in 1200 seconds" 124
  [ "$status" = 0 ] || fail "qemu ended with $status" 1
}

# compare: prints what a program, Linux and the program in it say, and ends with 1 where these differ or Linux finds a fault.
compare() {
  local wanted stack faults="BUG|Oops|WARNING|general protection|Kernel panic"
  wanted=$(said_by_program)
  echo "a program: $wanted"
  tr -d '\r' <"$work/log" | grep -oE "Linux version [0-9][^ ]*|Linux: .*|init: the module .*|($faults).*" | tee "$work/found"
  if grep -qE "^($faults)|NOT LOADED|LOST" "$work/found"; then
    tail -n 60 "$work/log"
    fail "Linux or init finds a fault" 1
  fi
  for stack in 0 8; do
    grep -qx "Linux: stack off by $stack, $wanted" "$work/found" || {
      tail -n 20 "$work/log"
      fail "no thread with its stack off by $stack comes to the checksum" 1
    }
  done
}
