# Counts what passed, failed and was skipped, and makes a temporary folder. The test scripts begin with it.
work=$(mktemp -d)
trap 'rm -rf "$work"' EXIT
passed=0 failed=0
# What was skipped, and the Debian packages that would have kept it from being skipped.
skipped=() lacking=()
# The gate's scripts name all packages that they can use, since a test that is skipped does not look for what it needs besides.
of_gate() { sed -n 's/^ *apt-get install //p' "$top/README.md" | tr ' ' '\n'; }

# `report NAME WANTED GOT`
report() {
  if [ "$2" = "$3" ]; then
    passed=$((passed + 1))
  else
    failed=$((failed + 1))
    printf 'FAILED %s: wanted <%s>, got <%s>\n' "$1" "$2" "$3"
  fi
}

# `skip NAME WHY`
skip() {
  skipped+=("$1: $2")
  printf 'SKIPPED %s: %s\n' "$1" "$2"
}

# `package COMMAND` prints the Debian package that has the command.
package() {
  case $1 in
    aarch64-linux-gnu-gcc) echo gcc-aarch64-linux-gnu ;;
    ar) echo binutils ;;
    batcat) echo bat ;;
    c++) echo g++ ;;
    cc) echo gcc ;;
    dpkg-deb) echo dpkg ;;
    gnuplot) echo gnuplot-nox ;;
    man) echo man-db ;;
    munged) echo munge ;;
    node) echo nodejs ;;
    nvim) echo neovim ;;
    qemu-aarch64) echo qemu-user ;;
    sbatch) echo slurm-client ;;
    script) echo bsdutils ;;
    slurmctld | slurmd) echo "$1" ;;
    sshd) echo openssh-server ;;
    unshare) echo util-linux ;;
    wasm-ld) echo lld ;;
    xz) echo xz-utils ;;
    *) echo "$1" ;;
  esac
}

# `has COMMAND NAME` tests whether the command exists. If not, what needs it is skipped.
has() {
  command -v "$1" >/dev/null && return
  skip "$2" "$1 is not installed"
  lacking+=("$(package "$1")")
  return 1
}

# `child PROCESS NAME` prints the numbers of the processes with this name that a process has started.
child() {
  grep -ls "^PPid:[[:space:]]*$1\$" /proc/[0-9]*/status | xargs -r grep -ls "^Name:[[:space:]]*$2\$" | cut -d / -f 3
}

# `state PROCESS` prints whether a process runs, sleeps or is a zombie; nothing if there is none.
state() {
  sed -n 's/^State:[[:space:]]*//p' "/proc/$1/status" 2>/dev/null
}

# `running ARGUMENT` prints the numbers of the processes that have an argument which begins so.
running() {
  grep -lsz "^$1" /proc/[0-9]*/cmdline | cut -d / -f 3
}

# `close [PACKAGE ..]` prints what was skipped, how to install what it needs and these packages, and the last line, and sets
# the status.
close() {
  if [ ${#skipped[@]} -ne 0 ]; then
    echo 'Skipped:'
    printf '  %s\n' "${skipped[@]}"
  fi
  if [ ${#lacking[@]} -ne 0 ]; then
    echo "To skip less: apt-get install $(printf '%s\n' "${lacking[@]}" "$@" | sort -u | paste -sd ' ')"
  fi
  printf '%d passed, %d failed' "$passed" "$failed"
  [ ${#skipped[@]} -eq 0 ] || printf ', %d skipped' "${#skipped[@]}"
  echo
  [ "$failed" -eq 0 ]
}
