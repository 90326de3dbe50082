#!/usr/bin/env bash
# examples/linux/fetch.sh FOLDER: fetches Debian's Linux with its headers, 85 MB, and unpacks what run.sh needs of them below the folder. It
# installs nothing. It takes apt, dpkg and the network.
set -eu
[ $# = 1 ] || { echo "examples/linux/fetch.sh: give a folder" >&2; exit 2; }
mkdir -p "$1"
cd "$1"
case $PWD in
*[[:space:]]*) echo "examples/linux/fetch.sh: $PWD has a space: the headers' makefiles take none" >&2; exit 2 ;;
esac
packages=$(mktemp -d "$PWD/packages-XXXXXX")
trap 'rm -rf "$packages"' EXIT

# Prints the first package that another depends on whose name begins so.
needs() {
  apt-cache depends "$1" | sed -nE "s/^ *Depends: ($2.*)/\1/p" | head -n 1
}

image=$(needs linux-image-amd64 linux-image)
headers=${image/image/headers}
headers=${headers/-unsigned/}
(cd "$packages" && apt-get download "$image" "$headers" "$(needs "$headers" linux-headers)" "$(needs "$headers" linux-kbuild)")
for package in "$packages"/*.deb; do
  # tar tells of each pattern that nothing fits, and no package has all of them
  dpkg-deb --fsys-tarfile "$package" |
    tar --extract --wildcards './boot/vmlinuz-*' './usr/src/*' './usr/lib/linux-kbuild-*' 2>/dev/null || true
done
# the headers name the others by where Debian installs them
sed -i "s|/usr/src/|$PWD/usr/src/|" usr/src/linux-headers-*/Makefile
