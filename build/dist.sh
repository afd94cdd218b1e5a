#!/usr/bin/env bash
# Makes a release: `dist.sh tar|deb FOLDER [PROGRAM [LOG]]` writes the tarball or the Debian package into the folder, and
# prints its name. PROGRAM is the one that `make` proved and built; `make library` makes the C library. LOG is a gate
# run's log, for the counts in PROOF.md. The bytes depend only on the sources, the kit, the C compiler and LOG: names
# are sorted, owners are 0, and times are those of the commit, or $SOURCE_DATE_EPOCH.
set -eu
export LC_ALL=C TZ=UTC
umask 022
top=$(cd "$(dirname "${BASH_SOURCE[0]}")/.." && pwd)
. "$top/build/kit.sh"
. "$top/build/about.sh"
kind=${1-} to=${2-out} program=${3:-$top/crates/talft/out/talft} log=${4-}
SOURCE_DATE_EPOCH=$(time_of_sources)
export SOURCE_DATE_EPOCH
mkdir -p "$to"
work=$(mktemp -d)
trap 'rm -rf "$work"' EXIT

case $kind in
  tar)
    name=talft-$version-linux-$(uname -m)
    bash "$top/build/stage.sh" "$work/$name" "$program" ${log:+"$log"}
    tar -C "$work" --format=gnu --sort=name --owner=0 --group=0 --numeric-owner --mode=u+rwX,go+rX,go-w \
      --mtime="@$SOURCE_DATE_EPOCH" -cf "$work/tar" "$name"
    xz -T1 -6 <"$work/tar" >"$to/$name.tar.xz"
    echo "$to/$name.tar.xz"
    ;;
  deb)
    machine=$(dpkg --print-architecture) name=talft_${version}_$(dpkg --print-architecture)
    bash "$top/build/stage.sh" "$work/root" "$program" ${log:+"$log"}
    mkdir -p "$work/deb/usr" "$work/deb/DEBIAN"
    mv "$work/root"/{bin,include,lib,share} "$work/deb/usr"
    rm "$work/root/CHECKSUMS"
    mv "$work/root"/* "$work/deb/usr/share/doc/talft"
    gzip -9n "$work/deb"/usr/share/man/man*/*
    (cd "$work/deb" && find usr -type f | sort | tr '\n' '\0' | xargs -0 md5sum) >"$work/deb/DEBIAN/md5sums"
    # Rounded up to whole KiB for each file, so that it does not depend on the file system.
    size=$(find "$work/deb/usr" -type f -printf '%s\n' | awk '{ all += int(($1 + 1023) / 1024) } END { print all }')
    cat >"$work/deb/DEBIAN/control" <<CONTROL
Package: talft
Version: $version
Architecture: $machine
Maintainer: $(sed -n 's/^Maintainers: //p' "$top/SECURITY.md")
Installed-Size: $size
Depends: libc6 (>= 2.34)
Recommends: python3 (>= 3.9)
Suggests: gcc, pkg-config, clang, lld, vim, parallel, slurm-client
Section: devel
Priority: optional
Description: fault-tolerant typed assembly, with a proved checker
 An object that the checker accepts masks or detects one fault in a register, a
 program counter or a pending store. The package has the program, its manual,
 completion, syntax files, examples, the C library with its header, and tools
 for programs in C, fault lists, campaigns, pictures and debugging.
CONTROL
    # This makes dpkg register the shared library with the system.
    echo 'activate-noawait ldconfig' >"$work/deb/DEBIAN/triggers"
    find "$work/deb" -exec touch -h -d "@$SOURCE_DATE_EPOCH" {} +
    dpkg-deb --root-owner-group --threads-max=1 -Zxz -z6 --build "$work/deb" "$to/$name.deb" >/dev/null
    echo "$to/$name.deb"
    ;;
  *)
    sed -n '2,5s/^# //p' "${BASH_SOURCE[0]}" >&2
    exit 2
    ;;
esac
