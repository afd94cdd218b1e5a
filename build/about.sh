# Identifies a build: version, commit, kit, and the timestamp of its files. The caller sets `top` and `program`.

version=$(cat "$top/VERSION")

# The commit of the sources, with a plus if files differ from it; `unknown` outside a repository.
commit_of_sources() {
  local commit
  if [ "$(git -C "$top" rev-parse --show-toplevel 2>/dev/null)" != "$top" ] ||
    ! commit=$(git -C "$top" rev-parse --short=12 HEAD 2>/dev/null); then
    echo unknown
    return
  fi
  [ -z "$(git -C "$top" --no-optional-locks status --porcelain --untracked-files=no 2>/dev/null)" ] || commit=$commit+
  echo "$commit"
}

# The time of a release's files, in seconds: $SOURCE_DATE_EPOCH, or else the time of the commit.
time_of_sources() {
  echo "${SOURCE_DATE_EPOCH:-$(git -C "$top" log -1 --format=%ct 2>/dev/null || echo 0)}"
}

# The kit that built the program, as build/prove.sh recorded it; otherwise the one on PATH.
kit_of_program() { cat "${program-}.kit" 2>/dev/null || rt version 2>/dev/null || echo 'unknown kit'; }

# Version, commit and kit in one line.
about() { echo "talft $version (commit $(commit_of_sources), $(kit_of_program))"; }
