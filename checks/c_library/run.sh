#!/usr/bin/env bash
# checks/c_library/run.sh [ARCHIVE [SEED]]: looks at the library for C, its header, its examples and what is built on it: README.md says at
# what. Prints a line for each check; the last line is 'N passed, M failed'. Ends with 1 where something failed, and with 3 where there is
# no library.
# checks/c_library/run.sh --kernel [MODULE [SEED]]: looks at the library for kernels, which is made from the LLVM module.
# checks/c_library/run.sh --aarch64 [FOLDER [SEED]]: looks at both for ARM of 64 bits, where the folder has the archive and the module.
# ARCHIVE is crates/eevdf_c/out/libeevdf_c.a where none is given, MODULE crates/eevdf_c/out/module, FOLDER crates/eevdf_c/out/aarch64, and
# SEED, from which the sequences of calls are drawn, 1.
set -u
here=$(cd "$(dirname "$0")" && pwd)
out=$here/../../crates/eevdf_c/out
of=archive
file=$out/libeevdf_c.a
case ${1:-} in
  --kernel)
    of=module
    file=$out/module
    shift
    ;;
  --aarch64)
    of=aarch64
    file=$out/aarch64
    shift
    ;;
esac
file=${1:-$file}

[ -e "$file" ] || { echo "checks/c_library/run.sh: there is no $file: build it by './build eevdf_c'" >&2; exit 3; }
command -v gcc >/dev/null || command -v clang >/dev/null || {
  echo "skipped: the library for C: there is no C compiler (Debian package gcc)"
  echo "0 passed, 0 failed"
  exit 0
}

work=$(mktemp -d)
trap 'rm -rf "$work"' EXIT
python3 -B "$here/all.py" "--$of" "$file" --work "$work" --seed "${2:-1}"
