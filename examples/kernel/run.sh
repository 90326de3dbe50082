#!/usr/bin/env bash
# examples/kernel/run.sh [FLAGS]: builds the kernel and runs it under qemu, with these flags of qemu besides. Prints its log. With
# `-icount shift=6,sleep=off` the log repeats byte for byte. ARCHIVE names the library (crates/eevdf_c/out/libeevdf_c.a), CC the C
# compiler (gcc). Ends with 1 where the kernel ends otherwise than it should, with 3 where there is no compiler or no qemu, and with 124
# where qemu takes more than ten minutes.
set -eu
here=$(cd "$(dirname "$0")" && pwd)
top=$here/../..
archive=${ARCHIVE:-$top/crates/eevdf_c/out/libeevdf_c.a}
cc=${CC:-gcc}

needs() {
  command -v "$1" >/dev/null || { echo "examples/kernel/run.sh: there is no $1 (Debian package $2)" >&2; exit 3; }
}

needs "$cc" gcc
needs qemu-system-x86_64 qemu-system-x86

# what all of it needs: no red zone, since interrupts come on the stack of whoever runs, and nothing of a C library
flags=(-std=c11 -Wall -Wextra -Werror -pedantic -O2 "-I$top/include" "-I$here" "-DEEVDF_TYPES=\"types.h\"" -nostdinc -ffreestanding
  -mno-red-zone -mcmodel=kernel -fno-pic -fno-stack-protector -fno-asynchronous-unwind-tables)
# the kernel itself has no registers but the general ones, as Linux has it, and its threads have those of SSE too
of_kernel=(-mno-sse -mno-sse2 -mno-mmx)

# the archive for programs wants __udivti3, and the one for kernels doesn't
libgcc=()
[[ $archive == *_kernel.a ]] || libgcc=(-lgcc)

work=$(mktemp -d)
trap 'rm -rf "$work"' EXIT
"$cc" "${flags[@]}" "${of_kernel[@]}" -c -o "$work/kernel.o" "$here/kernel.c"
"$cc" "${flags[@]}" -c -o "$work/threads.o" "$here/threads.c"
"$cc" -c -o "$work/boot.o" "$here/boot.S"
"$cc" -nostdlib -static -Wl,--build-id=none,-z,noexecstack,--no-warn-rwx-segments -T "$here/kernel.ld" -o "$work/kernel" \
  "$work/boot.o" "$work/kernel.o" "$work/threads.o" "$archive" "${libgcc[@]}"

# the kernel ends qemu by its device for exits, with 33; it takes some seconds, and one that hangs is ended
status=0
timeout 600 qemu-system-x86_64 -machine pc -m 32 -nodefaults -display none -serial stdio -no-reboot \
  -device isa-debug-exit,iobase=0xf4,iosize=4 -kernel "$work/kernel" "$@" </dev/null || status=$?
[ "$status" != 124 ] || { echo "examples/kernel/run.sh: qemu hasn't come to its end in 600 seconds" >&2; exit 124; }
[ "$status" = 33 ] || { echo "examples/kernel/run.sh: qemu ended with $status" >&2; exit 1; }
