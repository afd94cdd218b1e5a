# Lists the sources of the program and the C library. The caller sets `top`, the folder of the repository.

program=$top/crates/talft/out/talft

# A crate and all crates that it depends on; if none is named, those of the program.
needed() {
  awk -v root="${1-talft}" -F: '/^[a-z]/ { sub(/ staticlib/, "", $1); uses[$1] = $2 }
    function visit(name, parts, count, i) {
      if (!(name in uses) || (name in seen)) return
      seen[name] = 1; print name
      count = split(uses[name], parts, " ")
      for (i = 1; i <= count; i++) visit(parts[i])
    }
    END { visit(root) }' "$top/crates.txt"
}

# Whether the program exists, and no source has changed, appeared or disappeared since. In case of doubt, it counts as
# not built.
is_built() {
  local crate crates part newer places=(crates.txt HANDLES)
  [ -x "$program" ] && crates=$(cd "$top" && needed) && [ -n "$crates" ] || return 1
  for crate in $crates; do
    for part in src specs proofs; do
      [ "$part" != src ] && [ ! -d "$top/crates/$crate/$part" ] || places+=("crates/$crate/$part")
    done
  done
  newer=$(cd "$top" && find "${places[@]}" -newer "$program" -print -quit) && [ -z "$newer" ]
}
