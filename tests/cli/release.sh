# Releases of the proved program and the C library: they have the right files, have the same bytes when made twice, name
# their build, run the guide when installed in a clean root, and build and run a loader in C; and the package can be
# removed.
has xz 'the releases' || return 0
release=$work/release
program=$top/crates/talft/out/talft
mkdir "$release"
bash "$top/build/library.sh" >"$release/said" 2>&1 || cat "$release/said"
! has dpkg-deb 'the bytes of a release made twice' || report 'the bytes of a release made twice' \
  "$(printf 'same: %s\n' "talft-$(cat "$top/VERSION")-linux-$(uname -m).tar.xz" "talft_$(cat "$top/VERSION")_amd64.deb" talft \
    libft_c.a libtalft.a libtalft.so)" "$(bash "$top/tests/same_bytes.sh" --packages "$program" 2>&1)"

# `runs_guide NAME FOLDER` runs the guide with the program, tools and examples installed under a folder.
runs_guide() {
  local place=$release/${1// /_} asked
  mkdir -p "$place/tools"
  ln -s "$2/bin" "$place/tools/bin"
  ln -s "$2/bin/talft" "$2/share/talft/examples" "$place"
  got=$(env -u TALFT python3 "$top/tests/guide.py" "$top/docs/GUIDE.md" "$place" 2>&1)
  asked=$(sed -n 's/^\([0-9]*\) of .*/\1/p' <<<"$got")
  report "the guide with $1" "$asked of $asked commands write what the guide says" "$(grep -v '^left out' <<<"$got")"
}

# `says_its_build NAME FOLDER` compares what the program installed under a folder says about itself.
says_its_build() {
  report "the version of $1" "$(printf 'usage\n/2/'; cat "$2/share/doc/talft/BUILD")" \
    "$("$2/bin/talft" --version 2>"$release/said"; printf '/%d/' $?; cat "$release/said")"
  report "the version of $1, not explained" "$(printf 'usage\n/2/')" \
    "$(TALFT_EXPLAIN=0 "$2/bin/talft" --version 2>"$release/said"; printf '/%d/' $?; cat "$release/said")"
}

# `library_runs NAME FOLDER` builds the loader with the library installed under a folder, as the documents say, and runs
# it: it must answer like the program. Python uses the same library.
library_runs() {
  local way loader=$release/loader_${1// /_} from=$2/share/talft/examples/c/loader.c five=$2/share/talft/examples/five.obj
  local wanted
  wanted=$("$2/bin/talft" run "$five" --steps 1000 2>"$release/said"; echo "$?")
  for way in static shared; do
    rm -f "$loader"
    if [ "$way" = static ]; then
      cc -I"$2/include" "$from" "$2/lib/libtalft.a" -o "$loader"
    elif has pkg-config "the shared library by $1"; then
      cc "$from" $(PKG_CONFIG_PATH=$2/lib/pkgconfig pkg-config --cflags --libs talft) -o "$loader"
    else
      continue
    fi
    report "the $way library of $1 checks" "$(printf 'accepted\n/0')" "$(LD_LIBRARY_PATH=$2/lib "$loader" "$five" 2>&1; printf '/%d' $?)"
    report "the $way library of $1 runs" "$wanted" "$(LD_LIBRARY_PATH=$2/lib "$loader" "$five" 1000 2>&1; echo $?)"
    report "the $way library of $1 refuses" "$("$2/bin/talft" check "$2/share/talft/examples/mixed.obj" 2>"$release/said"; echo $?)" \
      "$(LD_LIBRARY_PATH=$2/lib "$loader" "$2/share/talft/examples/mixed.obj" 2>&1; echo $?)"
  done
  report "the library of $1 from Python" "[('out', 5)]" "$(PYTHONPATH=$2/share/talft/tools TALFT_LIBRARY=$2/lib/libtalft.so.0 \
    python3 -B -c 'import sys, talft; print(talft.run(open(sys.argv[1], "rb").read())[1])' "$five" 2>&1)"
}

tarball=$(bash "$top/build/dist.sh" tar "$release" "$program")
mkdir "$release/clean"
tar -C "$release/clean" -xf "$tarball"
unpacked=$(echo "$release"/clean/*)
report 'the checksums of a release' '' "$(cd "$unpacked" && sha256sum -c --quiet CHECKSUMS 2>&1)"
report 'files of a release without a checksum' './CHECKSUMS' \
  "$(cd "$unpacked" && find . -type f | sort | grep -vxFf <(sed 's/^[0-9a-f]*  /.\//' CHECKSUMS))"
report 'the crates in the list of parts' '' "$(python3 - "$unpacked/SBOM.spdx.json" "$top" <<'END'
import json, sys
sys.dont_write_bytecode = True
sys.path.insert(0, f"{sys.argv[2]}/docs")
from contracts import crates, needed
with open(sys.argv[1], encoding="utf-8") as file:
    written = json.load(file)
known = {package["SPDXID"]: package for package in written["packages"]}
names = {package["name"] for package in known.values()}
for name in ["program-talft", "library-libtalft.a", "library-libtalft.so.0", "heap.c"]:
    if name not in names:
        print(f"{name} is missing")
for crate in needed("talft", "ft_c"):
    for name in [crate, *crates()[crate]]:
        if name not in names:
            print(f"{name} is missing")
for link in written["relationships"]:
    for end in (link["spdxElementId"], link["relatedSpdxElement"]):
        if end not in known and end != "SPDXRef-DOCUMENT":
            print(f"{end} is no part")
END
)"
report 'version, commit and kit of a release' "talft $(cat "$top/VERSION") (commit" "$(cut -d' ' -f1-3 "$unpacked/share/doc/talft/BUILD")"
says_its_build 'the tarball' "$unpacked"
runs_guide 'the tarball' "$unpacked"
library_runs 'the tarball' "$unpacked"

as=
[ "$(id -u)" = 0 ] || as=fakeroot
if has dpkg-deb 'the Debian package' && { [ -z "$as" ] || has fakeroot 'the Debian package'; }; then
  package=$(bash "$top/build/dist.sh" deb "$release" "$program")
  root=$release/root
  mkdir -p "$root/var/lib/dpkg/info" "$root/var/lib/dpkg/updates"
  : >"$root/var/lib/dpkg/status"
  # The root is empty, so the host's C library stands in for the one that the package depends on.
  debian() { $as dpkg --root="$root" --force-depends --force-not-root --log=/dev/null "$@" >"$release/said" 2>&1; }
  debian --install "$package"
  report 'the package is installed' 'install ok installed' "$(dpkg-query --admindir="$root/var/lib/dpkg" -W -f='${Status}' talft 2>&1)"
  report 'the installed files' '' "$(cd "$root" && md5sum -c --quiet var/lib/dpkg/info/talft.md5sums 2>&1)"
  report 'the installed program' "$("$program" demo 3)" "$("$root/usr/bin/talft" demo 3)"
  says_its_build 'the package' "$root/usr"
  runs_guide 'the package' "$root/usr"
  library_runs 'the package' "$root/usr"
  debian --purge talft
  report 'nothing is left of the package' '' "$(find "$root" -path "$root/var" -prune -o ! -type d -print)"
fi
