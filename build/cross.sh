# Compiles crates by calling rattle directly, against the libraries that a proof leaves behind. The caller sets `top`,
# and sources sources.sh and kit.sh. A crate whose code is linked is compiled from its own proof, so it is proved once
# more, for its target.

kit_folder() { dirname "$(dirname "$(readlink -f "$(command -v rt)")")"; }

# Whether a file is newer than everything that a crate is built from.
is_newer_than_sources() {
  local file=$1 crates
  crates=$(needed "$2")
  [ -e "$file" ] && [ -z "$(cd "$top" && find crates.txt HANDLES \
    $(printf 'crates/%s/src crates/%s/specs crates/%s/proofs ' $(for crate in $crates; do echo $crate $crate $crate; done)) \
    -newer "$file" -print -quit 2>/dev/null)" ]
}

# Copies a crate, and all crates that it depends on, into a folder. The file `begun` there has the time of the copy.
copy_to() {
  local tree=$1 crates
  crates=$(needed "$2")
  mkdir -p "$tree/.git" "$tree/crates" && touch "$tree/begun" && cp "$top/HANDLES" "$tree" &&
    awk -F'[: ]' 'NR == FNR { needed[$1]; next } $1 in needed' <(printf '%s\n' $crates) "$top/crates.txt" >"$tree/crates.txt" &&
    tar -C "$top/crates" --exclude=out --exclude=must-fail -cf - $crates | tar -C "$tree/crates" -xf -
}

# Whether the gate, or a check, has proved every library that a crate depends on, and no source has changed since.
are_proved() {
  local crate made oldest='' places=(crates.txt HANDLES)
  for crate in $(needed "$1"); do
    [ "$crate" != "$1" ] || continue
    made=$top/crates/$crate/out/rlib/$crate.rlib
    [ -e "$made" ] || return
    [ -n "$oldest" ] && [ "$oldest" -ot "$made" ] || oldest=$made
    places+=($(cd "$top" && ls -d "crates/$crate/src" "crates/$crate/specs" "crates/$crate/proofs" 2>/dev/null))
  done
  [ -z "$(cd "$top" && find "${places[@]}" -newer "$oldest" -print -quit)" ]
}

# Compiles a crate in TREE for a processor, against the libraries in the crate folders of LIBRARIES:
# `compile_over LIBRARIES TREE CRATE ARCH OUT ROOT WORDS..`.
compile_over() {
  local libraries=$1 tree=$2 name=$3 arch=$4 out=$5 root=$6 kit crate words
  shift 6
  kit=$(kit_folder)
  words=(--crate-name "$name" "$root" "$@" --target "$arch-unknown-linux-gnu" -L "dependency=$kit/rlibs"
    --antt-project "$kit/rattle/logic/antt-project.json" --logic-built "$kit/logic_built" --toolchain "$kit/toolchain")
  for crate in std $(sed -n "s/^$name\( staticlib\)\{0,1\}: //p" "$top/crates.txt"); do
    if [ -d "$tree/crates/$crate" ]; then
      words+=(--extern "$crate=$libraries/$crate/out/rlib/$crate.rlib")
    else
      words+=(--extern "$crate=$kit/rlibs/$crate.rlib")
    fi
  done
  for crate in $(needed "$name"); do
    words+=(-L "dependency=$libraries/$crate/out/rlib" --links "$crate=")
  done
  (cd "$tree/crates/$name" && "$kit/bin/rattle" build "${words[@]}" --backend llvm -o "$out") </dev/null
}

# Compiles a copy of a crate in TREE for a processor, against the libraries that the gate or a check left. If there are
# none, or they come from mismatched runs, they are first proved in TREE: `make_in TREE CRATE ARCH OUT ROOT WORDS..`.
make_in() {
  local tree=$1 name=$2
  copy_to "$tree" "$name" || return
  if are_proved "$name" && compile_over "$top/crates" "$@"; then
    return
  fi
  (cd "$tree" && rt ci) </dev/null && compile_over "$tree/crates" "$@"
}
