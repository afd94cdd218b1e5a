#!/usr/bin/env bash
# Tests the tools at full scale: 1,000,000 faults of two programs, with their pictures and pages; machines over ssh, one of
# which disappears; Slurm; programs in C; long walks of the debugger, and Emacs as its client; the C library; and the scripts of
# the gate on a machine that lacks what the tests can do without; and random sources with other words in their cells. It
# starts its own servers, for this test only. It is not part of the gate.
#
#     bash tests/long.sh [large | ssh | slurm | c | debugger | editor | embed | fresh | words ..]
#
# Missing programs are named, and what needs them is skipped. With KEEP=FOLDER the pictures and pages are kept there.
set -u
top=$(cd "$(dirname "$0")/.." && pwd)
. "$top/tests/report.sh"
. "$top/build/sources.sh"
cd "$work" || exit 2
# Ends the servers of the test.
stop() {
  local server
  for server in one two slurm/run/slurmd slurm/run/slurmctld slurm/run/munged; do
    [ ! -e "$work/$server.pid" ] || kill "$(cat "$work/$server.pid")" 2>/dev/null
  done
}
trap 'stop; sleep 1; rm -rf "$work"' EXIT
is_built || { echo 'tests/long.sh: the program is not proved yet: run `make`'; exit 1; }
unset DISPLAY

# `measured NAME WORDS..` runs a command, and prints how long it took.
measured() {
  local name=$1 start status
  start=$(date +%s%N)
  shift
  "$@"
  status=$?
  printf '%s: %d ms\n' "$name" $((($(date +%s%N) - start) / 1000000)) >&3
  return $status
}
exec 3>&1

# A million faults of two programs.
large() {
  local program steps count used
  unset TALFT
  for program in fibonacci sieve; do
    "$top/talft" compile "$top/examples/$program.src" >"$program.obj"
    steps=$("$top/tools/faults" "$program.obj" --sample 0 2>&1 | sed 's/.* of //')
    measured "$program: the list" \
      "$top/tools/faults" "$program.obj" --flip all --sample 1000000 --seed 1 >"$program.list" 2>said
    count=$(wc -l <"$program.list")
    report "faults of $program" 1000000 "$count"
    measured "$program: the campaign" "$top/tools/campaign" "$program.obj" --faults "$program.list" \
      --steps "$steps" --dir "$program" >"$program.lines" 2>said
    report "the campaign of $program" 0 $?
    report "the totals of $program" "faults $count corrupt 0" \
      "$(tail -n 1 "$program.lines" | sed 's/\(faults [0-9]*\) .* \(corrupt\)/\1 \2/')"
    report "the faults of $program, in order" '' "$(sed '$d; s/ .*//' "$program.lines" | cmp - "$program.list" 2>&1)"
    report "the sums of $program" "$(sed '$d' "$program.lines" | awk '{ n[$2]++ } END {
      printf "masked %d detected %d idle %d corrupt %d", n["masked"], n["detected"], n["idle"], n["corrupt"] }')" \
      "$(tail -n 1 "$program.lines" | sed 's/faults [0-9]* //')"
    if has gnuplot "the picture of $program"; then
      measured "$program: the pictures" "$top/tools/plot" "$program.lines" --out "$program"
      report "the picture of $program" 'PNG' "$(head -c 4 "$program.png" | tail -c 3)"
      used=$({ TIMEFORMAT='%U %S'; time measured "$program: the page" "$top/tools/report" "$program.lines" --dir "$program" \
        --out "$program.html" 2>said; } 2>&1)
      report "the page of $program takes at most 5 s of a processor" yes \
        "$(awk '{ print $1 + $2 <= 5 ? "yes" : $1 + $2 " s" }' <<<"$used")"
      report "the page of $program, below 2 MB" yes "$([ "$(wc -c <"$program.html")" -lt 2000000 ] && echo yes)"
    fi
    [ -z "${KEEP-}" ] || cp "$program".{lines,svg,png,html} "$KEEP"
  done
}

# Ten parts, and a program that takes its time for each.
ten_parts() {
  unset TALFT
  rm -rf here
  "$top/talft" compile "$top/examples/fibonacci.src" >fibonacci.obj
  "$top/tools/faults" fibonacci.obj --flip all --sample 10000 >list 2>said
  "$top/tools/campaign" fibonacci.obj --faults list --steps 1000000 --dir here >wanted 2>said
  report 'ten parts' 10 "$(ls here/*.answer | wc -l)"
  cat >slow <<END
#!/usr/bin/env bash
[ "\$1" = debug ] || [ "\$1" = --version ] || { echo "\$4" >>"$work/given"; sleep 0.5; }
exec "$top/talft" "\$@"
END
  chmod +x slow
  rm -f given
  export TALFT=$work/slow
}
# `begins NAME WORDS..` starts a campaign of the list, and waits until it has two answers.
begins() {
  name=$1
  shift
  words=(fibonacci.obj --faults list --steps 1000000 --dir "${name// /-}" "$@")
  "$top/tools/campaign" "${words[@]}" >written 2>said &
  run=$!
  for ((n = 0; n < 600; n++)); do
    [ "$(ls "${name// /-}"/*.answer 2>/dev/null | wc -l)" -lt 2 ] || break
    sleep 0.1
  done
}
ends() {
  wait "$run"
  report "$name" 0 $?
  report "the lines of $name" '' "$(cmp written wanted 2>&1)"
}
goes_on() {
  "$top/tools/campaign" "${words[@]}" >written 2>said
  report "$1" 0 $?
  report "the lines of $1" '' "$(cmp written wanted 2>&1)"
}

# Two machines over ssh: two servers on this machine, which accept only this user's key.
machine() {
  cat >"$1.conf" <<END
Port $2
ListenAddress 127.0.0.1
HostKey $work/key
AuthorizedKeysFile $work/key.pub
PidFile $work/$1.pid
StrictModes no
UsePAM no
PasswordAuthentication no
END
  cat >>hosts.conf <<END
Host $1
  HostName 127.0.0.1
  Port $2
  IdentityFile $work/key
  StrictHostKeyChecking no
  UserKnownHostsFile /dev/null
  LogLevel ERROR
END
  [ "$(id -u)" -ne 0 ] || mkdir -p /run/sshd
  "$(command -v sshd)" -f "$work/$1.conf" -E "$work/$1.log"
}
PATH=$PATH:/usr/sbin
over_ssh() {
  has parallel 'machines over ssh' && has sshd 'machines over ssh' && has rsync 'machines over ssh' || return
  ten_parts
  ssh-keygen -q -t ed25519 -N '' -f key
  machine one 22461
  machine two 22462
  hosts="ssh -F $work/hosts.conf one,ssh -F $work/hosts.conf two"
  begins 'two machines' --engine parallel --hosts "$hosts" --jobs 1
  ends
  report 'each part is run once' 10 "$(sort -u given | wc -l)"
  begins 'a machine that goes away' --engine parallel --hosts "$hosts" --jobs 1
  server=$(cat two.pid)
  pkill -KILL -P "$server"
  kill -KILL "$server"
  ends
  begins 'the last machine goes away' --engine parallel --hosts "ssh -F $work/hosts.conf one" --jobs 1
  server=$(cat one.pid)
  pkill -KILL -P "$server"
  kill -KILL "$server"
  wait "$run"
  report "$name" 1 $?
  report "no lines when $name" '' "$(head -n 1 written)"
  done_before=$(ls the-last-machine-goes-away/*.answer | wc -l)
  report 'answers are kept' yes "$([ "$done_before" -ge 2 ] && [ "$done_before" -lt 10 ] && echo yes)"
  machine one 22463
  sed -i 's/22461/22463/' hosts.conf
  rm given
  goes_on 'the campaign once the machine is back'
  report 'only the missing parts are run' $((10 - done_before)) "$(wc -l <given)"
}

# Slurm, with a controller and one node on this machine.
servers_of_slurm() {
  local at=$work/slurm
  mkdir -p "$at/state" "$at/spool" "$at/run"
  chmod 755 "$work"
  head -c 1024 /dev/urandom >"$at/key"
  chmod 400 "$at/key"
  munged --force --key-file="$at/key" --socket="$at/run/munge" --pid-file="$at/run/munged.pid" \
    --log-file="$at/munged.log" --seed-file="$at/seed" 2>errors || return
  cat >"$at/slurm.conf" <<END
ClusterName=test
SlurmctldHost=$(hostname)(127.0.0.1)
SlurmctldPort=16471
SlurmdPort=16472
SlurmUser=$(id -un)
SlurmdUser=$(id -un)
AuthType=auth/munge
AuthInfo=socket=$at/run/munge
StateSaveLocation=$at/state
SlurmdSpoolDir=$at/spool
SlurmctldPidFile=$at/run/slurmctld.pid
SlurmdPidFile=$at/run/slurmd.pid
SlurmctldLogFile=$at/slurmctld.log
SlurmdLogFile=$at/slurmd.log
ProctrackType=proctrack/pgid
TaskPlugin=task/none
MpiDefault=none
ReturnToService=2
SelectType=select/cons_tres
SelectTypeParameters=CR_Core
NodeName=$(hostname) NodeAddr=127.0.0.1 CPUs=$(nproc) State=UNKNOWN
PartitionName=all Nodes=ALL Default=YES MaxTime=INFINITE State=UP
END
  export SLURM_CONF=$at/slurm.conf
  slurmctld && slurmd || return
  for ((n = 0; n < 100; n++)); do sinfo -h -o %T 2>errors | grep -q idle && return; sleep 0.1; done
  return 1
}
over_slurm() {
  has sbatch 'Slurm' && has slurmctld 'Slurm' && has slurmd 'Slurm' && has munged 'Slurm' || return
  ten_parts
  if servers_of_slurm; then
    begins 'an array of jobs' --engine slurm --jobs 2
    ends
    report 'each part is run by one job' 10 "$(wc -l <given)"
    begins 'a killed run of jobs' --engine slurm --jobs 1
    kill -KILL "$run"
    wait "$run" 2>errors
    goes_on 'the campaign after it'
    begins 'a stopped run of jobs' --engine slurm --jobs 1
    kill -TERM "$run"
    wait "$run"
    report 'a run that is stopped' 1 $?
    for ((n = 0; n < 100; n++)); do [ -z "$(squeue -h)" ] || sleep 0.1; done
    report 'its jobs are cancelled' '' "$(squeue -h)"
    goes_on 'the campaign after the stop'
    begins 'a node that goes away' --engine slurm --jobs 1
    scontrol update nodename="$(hostname)" state=down reason=test
    sleep 1
    scontrol update nodename="$(hostname)" state=resume
    ends
  else
    skip 'Slurm' "its servers do not start: $(tail -n 1 errors)"
  fi
}

# Programs in C: the examples at each level, random modules and programs, and damaged modules.
in_c() {
  local portions=$top/tests/c/portions.py jobs
  jobs=$(nproc)
  unset TALFT
  mkdir modules floats
  python3 "$top/tests/c/modules.py" modules 0 1000
  python3 "$top/tests/c/floats.py" floats 20
  if has node 'the interpreter'; then
    for kind in modules floats; do
      ls $kind/*.wasm | xargs -n 5000 python3 "$top/tests/c/like_node.py" >said
      report "the interpreter on random $kind" '0 differ' "$(tail -n 1 said | grep -o '[0-9]* differ')"
    done
  fi
  python3 -B "$portions" valid 0 1000 "$jobs" | tee said >&3
  report 'random modules' '' "$(grep 'failed [1-9]\|wrong [1-9]\|refused [1-9]\|behind [1-9]' said)"
  python3 -B "$portions" damaged 0 10000 "$jobs" | tee said >&3
  report 'damaged modules' '' "$(grep 'failed [1-9]\|wrong [1-9]\|behind [1-9]' said)"
  has clang 'programs in C' && has wasm-ld 'programs in C' && has gcc 'programs in C' || return
  python3 "$top/tests/c/kernels.py" | tee said >&3
  report 'the examples in C, at each level' '0 wrong' "$(tail -n 1 said)"
  python3 -B "$portions" programs 0 1000 "$jobs" | tee said >&3
  # One runs longer than 1,000,000 steps, so `cc` says that it is not fully verified.
  report 'random programs in C' '1000 programs: not verified 1, same 999' "$(tail -n 1 said)"
  has csmith 'programs of csmith' || return
  python3 -B "$portions" csmith 1 200 "$jobs" | tee said >&3
  report 'programs of csmith' '' "$(grep 'failed [1-9]\|wrong [1-9]' said)"
}

# The debugger: walks over many programs, random sources, what it knows about the machine, and the times of its
# commands.
debugger() {
  local tests=$top/tests/debugging program
  unset TALFT
  for program in five.asm loop.asm index.asm stores.asm mixed.obj fibonacci.src sieve.src sort.src ring.src; do
    report "walks over $program" '10 walks: 0 failed' \
      "$(python3 -B "$tests/walks.py" "$top/examples/$program" 100 40 10 2>&1 | tail -n 1)"
  done
  report 'what the tools know about the machine' '0 wrong' "$(cd "$top/examples" && python3 -B "$tests/facts.py" 7 60 150 \
    {five,loop,index,stores,conditional}.asm {mixed,reload}.obj {fibonacci,sieve,sort}.src 2>&1 | tail -n 1 |
    sed 's/.*: //')"
  report 'lines of 1,000 random sources' '1000 sources: 0 wrong' \
    "$(python3 -B "$tests/random_sources.py" 1000 2>&1 | tail -n 1 | sed 's/, .*//')"
  measured 'the debugger over 1,000,000 steps' python3 -B "$tests/speeds.py" 22800
}

# The configurations for nvim-dap and dape, which Debian does not have: they load over stand-ins, and name the adapter.
stand_ins() {
  local load="(progn (defvar dape-configs nil) (provide 'dape) (load \"$top/editors/debugging/dape.el\" nil t))"
  if has nvim 'Neovim'; then
    report 'the configuration that nvim-dap gets' "executable|$top/tools/dap|talft talft launch \${file}|talft talft launch \${file}|\
asm talft launch \${file}|asm talft launch \${file}|<F6> is mapped|<S-F5> is mapped" \
      "$(TALFT_TOOLS=$top/tools nvim --headless -u NONE -c "luafile $top/tests/debugging/neovim.lua" -c qa 2>&1 |
        paste -sd '|')"
  fi
  ! has emacs 'dape' || report 'the configuration that dape gets' "$top/tools/dap" "$(TALFT_TOOLS=$top/tools emacs -Q --batch \
    --eval "$load" --eval "(princ (plist-get (cdr (assq 'talft dape-configs)) 'command))" 2>&1 | tail -n 1)"
}

# Emacs with dap-mode, both from Debian, as a client of tools/dap: it steps forward and back, and sees a detection.
editor() {
  local n
  unset TALFT
  stand_ins
  has emacs 'Emacs' && has tmux 'Emacs' || return
  emacs --batch --eval "(progn (package-initialize) (require 'dap-mode))" 2>errors ||
    { skip 'Emacs' 'dap-mode is not installed'; return; }
  cp "$top/examples/five.asm" .
  TALFT_TOOLS=$top/tools PROGRAM=$work/five.asm TOLD=$work/told HOME=$work TERM=screen tmux -L emacs$$ -f /dev/null \
    new-session -d -x 100 -y 40 "emacs -nw -q --eval '(package-initialize)' -l $top/tests/debugging/emacs.el"
  for ((n = 0; n < 600; n++)); do [ ! -s told ] || break; sleep 0.1; done
  tmux -L emacs$$ kill-server
  report 'what Emacs saw' "$(cat <<'END'
line 13: at 0 running: fetch mov r0 G 1048576 ref:int (block 0 index 0)
line 14: at 2 running: fetch mov r1 G 5 int (block 0 index 1)
line 16: at 4 running: fetch mov r32 B 1048576 ref:int (block 0 index 2)
line 16: at 5 running: execute mov r32 B 1048576 ref:int (block 0 index 2)
line 16: at 4 running: fetch mov r32 B 1048576 ref:int (block 0 index 2)
line 20: at 12 detected: st_B r32 r33 (block 0 index 5)
END
)" "$(cat told 2>&1)"
}

# The C library: sanitizers, valgrind, flipped bits, a million damaged inputs, failing allocations, and ARM.
embed() {
  local library=$top/crates/ft_c/out/library of words
  bash "$top/build/library.sh" >said 2>&1 || { report 'the C library' 0 1; return; }
  mkdir -p embed_objects
  for of in "$top"/examples/*.src; do
    "$top/crates/talft/out/talft" compile "$of" >"embed_objects/$(basename "$of" .src).obj" 2>/dev/null || rm "embed_objects/$(basename "$of" .src).obj"
  done
  set -- "$top"/examples/*.obj embed_objects/*.obj "$top"/tests/objects/*.obj
  words=(-std=c99 -Wall -Wextra -Werror -pedantic -g -I"$top/include")
  cc "${words[@]}" -O1 -fsanitize=address,undefined "$top/examples/c/loader.c" "$library/libtalft.a" -o loader_checked
  report 'the loader under sanitizers' 'answers are the same' "$(bash "$top/tests/embed/compare.sh" \
    "$top/crates/talft/out/talft" ./loader_checked -- "$@" 2>&1 | sed 's/^[0-9]* //')"
  cc "${words[@]}" -O1 -fsanitize=address,undefined "$top/tests/embed/tries.c" "$library/libft_c.a" -o tries_checked
  report 'a million damaged objects under sanitizers' 0 "$(measured 'a million damaged objects' ./tries_checked $((1000000 / $# + 1)) 7 "$@" >tried 2>&1; echo $?)"
  cc "${words[@]}" -O2 "$top/tests/embed/tries.c" "$library/libft_c.a" -o tries
  if has valgrind 'the library under valgrind'; then
    report 'the library under valgrind' 0 "$(valgrind -q --error-exitcode=9 --leak-check=full ./tries 30 3 "$@" >tried 2>&1; echo $?)"
  fi
  # The library that takes its memory from one block that the caller provides.
  cc "${words[@]}" -O2 "$top/tests/embed/arena.c" "$top/embed/arena.c" "$library/libft_c.a" -o in_arena
  report 'the library in one block' 0 "$(./in_arena "$@" >tried 2>&1; echo $?)"
  cc "${words[@]}" -O1 -fsanitize=address,undefined -I"$top/embed" "$top/tests/embed/blocks.c" "$top/embed/arena.c" -o blocks_checked
  for seed in 1 2 3; do
    report "blocks of one arena under sanitizers, seed $seed" 'all blocks are right' "$(./blocks_checked 50000 $seed 2>&1)"
  done
  if has aarch64-linux-gnu-gcc 'the library for ARM' && has qemu-aarch64 'the library for ARM'; then
    report 'the library for ARM is made' 0 "$(bash "$top/build/library.sh" aarch64 >said 2>&1; echo $?)"
    aarch64-linux-gnu-gcc "${words[@]}" -O2 -static "$top/examples/c/loader.c" "$library-aarch64/libtalft.a" -o loader_arm
    report 'the loader for ARM answers like the command' 'answers are the same' "$(bash "$top/tests/embed/compare.sh" \
      "$top/crates/talft/out/talft" qemu-aarch64 ./loader_arm -- "$@" 2>&1 | sed 's/^[0-9]* //')"
    aarch64-linux-gnu-gcc "${words[@]}" -O2 -static "$top/tests/embed/tries.c" "$library-aarch64/libft_c.a" -o tries_arm
    report 'ARM answers like x86-64' "$(./tries 100 5 "$@")" "$(qemu-aarch64 ./tries_arm 100 5 "$@")"
    report 'the program for ARM is made' 0 "$(bash "$top/build/program.sh" aarch64 >said 2>&1; echo $?)"
    report 'the program for ARM answers like the command' 'answers are the same' "$(python3 "$top/tests/embed/alike.py" 1000 \
      "$top/crates/talft/out/talft" qemu-aarch64 -L /usr/aarch64-linux-gnu "$top/crates/talft/out/talft-aarch64" -- \
      "$top"/examples/*.src "$top"/examples/*.asm "$@" 2>&1 | sed 's/^[0-9]* //')"
  fi
}

# The scripts of the gate, on a machine with few programs.
fresh() {
  local status
  bash "$top/tests/fresh.sh" >fresh.log 2>&1
  status=$?
  [ $status -eq 0 ] || cat fresh.log
  report 'a fresh machine' 0 $status
}

# Objects whose cells begin with other words, against what their sources mean with these words.
words() {
  python3 -B "$top/tests/meaning/other_words.py" "$top/crates/talft/out/talft" --sources 10000 --seed 2 --jobs "$(nproc)" \
    ${KEEP:+--keep "$KEEP/other-words"} | tee said >&3
  report 'other words in the objects of 10,000 random sources' '10000 sources: 0 differ' "$(tail -n 1 said)"
}

for part in "${@:-all}"; do
  case $part in
    large) large ;;
    ssh) over_ssh ;;
    slurm) over_slurm ;;
    c) in_c ;;
    debugger) debugger ;;
    editor) editor ;;
    embed) embed ;;
    fresh) fresh ;;
    words) words ;;
    *) large; over_ssh; over_slurm; in_c; debugger; editor; embed; fresh; words ;;
  esac
done
close
