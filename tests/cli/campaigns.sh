# Campaigns in parts, with tools/campaign: the merged output is what the program writes for each part. Nothing is lost or
# counted twice when a run is killed, a part fails, a disk fills or a machine disappears.

"$top/talft" compile "$top/examples/fibonacci.src" >fibonacci.obj
"$top/tools/faults" fibonacci.obj --flip all --sample 2500 >list 2>said
# With this many steps, a call of the program takes at most 1,000 faults.
most=1000000
split -l 1000 list piece.
for piece in piece.*; do "$top/talft" campaign fibonacci.obj --faults "$piece" --steps "$most"; done >answers
grep -v '^faults' answers >wanted
awk '/^faults/ { for (i = 2; i <= 10; i += 2) sum[i] += $i } END {
  print "faults", sum[2], "masked", sum[4], "detected", sum[6], "idle", sum[8], "corrupt", sum[10] }' answers >>wanted
report 'three parts' 3 "$(grep -c '^faults' answers)"

# A list from a pipe is read once.
report 'a campaign over a list from a pipe' "$(cat wanted)" \
  "$("$top/tools/campaign" fibonacci.obj --faults /dev/stdin --steps "$most" --dir piped < <(cat list) 2>said)"
report 'the same campaign again' "$(cat wanted)" \
  "$("$top/tools/campaign" fibonacci.obj --faults <(cat list) --steps "$most" --dir piped 2>said)"
printf '4:r1:6\n4:r1:x\n' >bad
report 'a piped list with an invalid line' \
  'talft-campaign: /dev/stdin:2: invalid fault `4:r1:x`: expected STEP:SITE:WORD; the word `x` is not a decimal number below 2^64' \
  "$("$top/tools/campaign" fibonacci.obj --faults /dev/stdin --dir bad-pipe < <(cat bad) 2>&1 | tail -n 1)"

# `campaign STATUS NAME WORDS..` runs the list, and compares the output if STATUS is 0.
campaign() {
  local wanted_status=$1 name=$2
  shift 2
  "$top/tools/campaign" fibonacci.obj --faults list --steps "$most" "$@" >written 2>said
  report "$name" "$wanted_status" $?
  if [ "$wanted_status" -eq 0 ]; then
    report "the lines of $name" '' "$(cmp written wanted 2>&1)"
  else
    report "no lines of $name" '' "$(head -n 1 written)"
  fi
}

# A program that records the parts that it gets, and waits, fails, lies or dies at one of them.
cat >watched <<END
#!/usr/bin/env bash
if [ "\$1" != debug ] && [ "\$1" != --version ]; then
  echo "\$4" >>"$work/given"
  case \$4 in
    000001.*)
      for ((n = 0; n < 1200; n++)); do [ ! -e "$work/waits" ] || sleep 0.1; done
      [ ! -e "$work/fails" ] || exit 5
      [ ! -e "$work/lies" ] || { echo 'faults 0 masked 0 detected 0 idle 0 corrupt 0'; exit 0; }
      [ ! -e "$work/dies" ] || kill -9 \$\$ ;;
  esac
fi
exec "$top/talft" "\$@"
END
chmod +x watched
given() { sort given | uniq -c | awk '{ print $2, $1 }' | paste -sd ' '; }

campaign 0 'a campaign on one machine' --dir here
report 'the progress at the end' 'talft-campaign: 2500 of 2500 faults' "$(tail -n 1 said)"
TALFT=$work/watched campaign 0 'a campaign that is done' --dir here
report 'no part is run again' none "$(cat given 2>errors || echo none)"

for way in fails lies dies; do
  rm -f given
  touch "$way"
  TALFT=$work/watched campaign 1 "a part that $way" --dir "$way.kept"
  case $way in
    fails) reason='status 5, out of memory' ;;
    lies) reason='status 0, but verdicts are missing' ;;
    dies) reason='killed by signal 9' ;;
  esac
  report "the message when a part $way" "  $way.kept/000001.faults: $reason" "$(tail -n 1 said)"
  rm "$way"
  TALFT=$work/watched campaign 0 "the campaign after a part that $way" --dir "$way.kept"
  report "only the part that $way is run again" '000000.faults 1 000001.faults 2 000002.faults 1' "$(given)"
done

# `ended SIGNAL ENGINE`: a signal ends a run during its second part; a second run continues it.
ended() {
  local signal=$1 engine=$2 words run n
  words=(fibonacci.obj --faults list --steps "$most" --engine "$engine" --dir "$signal.$engine")
  rm -f given
  touch waits
  TALFT=$work/watched "$top/tools/campaign" "${words[@]}" --jobs 1 >written 2>under &
  run=$!
  for ((n = 0; n < 300; n++)); do grep -qs 000001 given || sleep 0.1; done
  refuses 'a second run during the first' \
    "talft-campaign: $signal.$engine: this campaign is already running: wait for it, or give another --dir" \
    campaign "${words[@]}"
  kill -"$signal" "$run"
  wait "$run" 2>errors
  report "no lines of a run that $signal ends" '' "$(head -n 1 written)"
  [ "$signal" = KILL ] || report 'nothing keeps running' '' "$(running "$work/watched")"
  rm waits
  TALFT=$work/watched campaign 0 "the campaign after $signal" --engine "$engine" --dir "$signal.$engine"
  report "the first part is not run again after $signal" '000000.faults 1 000002.faults 1' \
    "$(given | sed 's/000001.faults [12] //')"
}
ended TERM local
ended KILL local

# A disk that fills: a separate file system, if the system lets users mount one.
"$top/tools/campaign" fibonacci.obj --faults list --steps "$most" --dir here >/dev/full 2>said
report 'a full disk for the lines' '1 talft-campaign: standard output: no space left on the device' "$? $(tail -n 1 said)"
mkdir full
fills() {
  mount -t tmpfs -o size=128k none full || exit
  campaign 1 'a disk that fills' --dir full/kept
  cp said full.said
  mount -o remount,size=1m full
  campaign 0 'the campaign once there is room again' --dir full/kept
}
if ! has unshare 'a disk that fills'; then
  :
elif unshare -rm mount -t tmpfs none full 2>errors; then
  export -f fills campaign report
  export top work most
  report 'a disk that fills, and room again' '4 passed, 0 failed' \
    "$(passed=0 failed=0 unshare -rm bash -c 'fills; echo "$passed passed, $failed failed"' 2>&1)"
  grep -q 'no space left on the device\|output could not be written' full.said
  report 'the message that the disk is full' 0 $?
else
  skip 'a disk that fills' 'users cannot mount file systems here'
fi

# The message names the copy of the object, not the object that is read.
"$top/talft" compile "$top/examples/sieve.src" >limit.obj
head -n 1 list >one.list
report 'a limit on files' '1 talft-campaign: limited/object: file too large' "$(ulimit -f 1
  "$top/tools/campaign" limit.obj --faults one.list --dir limited 2>said; echo "$? $(tail -n 1 said)")"
refuses 'another campaign in the same folder' \
  "talft-campaign: here: holds a campaign with another fault list: give another --dir, or, if its verdicts are no longer needed, \
remove the folder" \
  campaign fibonacci.obj --faults piece.aa --steps "$most" --dir here
no_number='is not a decimal number below 2^64'
while IFS='|' read -r line told; do
  printf '4:r1:6\n%b\n' "$line" >bad.list
  refuses "a list with the line $line" "talft-campaign: bad.list:2: invalid fault \`$line\`: expected STEP:SITE:WORD; $told" \
    campaign fibonacci.obj --faults bad.list
done <<END
4:r64:6|the site \`r64\` is not one of r0 to r63, d, pcg, pcb, qa0 to qa7 and qv0 to qv7
04:r1:6|the step \`04\` $no_number
4:r1:18446744073709551616|the word \`18446744073709551616\` $no_number
4:r1|the word is missing
4|the site and the word are missing
4:r1:6 |remove the spaces around it
4:r1:6 masked|a verdict or other words follow it
4 r1 6|its parts are separated by \`:\`
4: r1:6|remove the spaces in it
:r1:6|the step is missing
r1:4:6|the step comes first, then the site
4:R1:6|write sites in lower case, as \`r1\`
4:r1:6:7|it has more than three parts
4:r1:6\\r|the line ends in CR LF: expected LF alone
# words|a fault list has no comments
|this is an empty line
END
report 'nothing is kept of a refused list' '' "$(find . -maxdepth 1 -name fibonacci.obj.campaign)"

# A long list spreads evenly over the jobs, and messages number lines by the whole list.
"$top/tools/faults" fibonacci.obj --flip all --sample 9000 >long.list 2>said
"$top/tools/campaign" fibonacci.obj --faults long.list --steps 1000 --jobs 2 --dir even >written 2>said
report 'the parts for two jobs' 2 "$(find even -name '*.faults' | wc -l)"
report 'the faults of both parts, in order' '' "$(sed '$d; s/ .*//' written | cmp - long.list 2>&1)"
sed '8000s/.*/8:r64:1/' long.list >bad.list
refuses 'a bad line of a later part' \
  'talft-campaign: bad.list:8000: invalid fault `8:r64:1`: expected STEP:SITE:WORD; the site `r64` is not one of '\
'r0 to r63, d, pcg, pcb, qa0 to qa7 and qv0 to qv7' \
  campaign fibonacci.obj --faults bad.list --steps 1000 --jobs 2 --dir other
report 'nothing is kept of a list that is refused' '' "$(ls -d other 2>/dev/null)"
refuses 'a missing list' 'talft-campaign: missing: no such file' campaign fibonacci.obj --faults missing
refuses 'an object that is not accepted' \
  "talft-campaign: $top/examples/mixed.obj: not accepted: check block 0 index 3 premise 2; --survey tries the faults without checking the object" \
  campaign "$top/examples/mixed.obj" --faults "$top/examples/mixed.faults" --steps 14
report 'nothing is kept of an object that is not accepted' '' "$(ls -d mixed.obj.campaign 2>/dev/null)"
tool 'a survey with a corrupt fault' 10 '4:r1:6 corrupt\nfaults 1 masked 0 detected 0 idle 0 corrupt 1\n' \
  campaign "$top/examples/mixed.obj" --survey --faults "$top/examples/mixed.faults" --steps 14
: >empty.list
tool 'an empty list' 0 'faults 0 masked 0 detected 0 idle 0 corrupt 0\n' \
  campaign fibonacci.obj --faults empty.list --dir empty.kept
report 'the message about an empty list' 'talft-campaign: note: empty.list: is empty, so nothing was tried' "$(tail -n 1 said)"
echo 2:r0:7 >wild.list
tool 'a wild load that is answered' 0 '2:r0:7 masked\nfaults 1 masked 1 detected 0 idle 0 corrupt 0\n' \
  campaign "$top/examples/reload.obj" --faults wild.list --steps 14 --wild 5
report 'the help' 'usage: talft-campaign' "$("$top/tools/campaign" --help | head -n 1 | cut -c1-21)"

# GNU parallel on this machine and on others: `near` replaces ssh without a network, and sets HOME and SHELL as an ssh
# server does. The machine `away` does not answer.
cat >near <<END
#!/usr/bin/env bash
while [[ \$1 == -* ]]; do case \$1 in -[lpo]) shift 2 ;; *) shift ;; esac; done
host=\$1
shift
[ "\$1" != -- ] || shift
[ "\$host" != away ] || exit 255
mkdir -p "$work/\$host" && cd "$work/\$host" && HOME=\$PWD SHELL=/bin/bash exec bash -c "\$*"
END
chmod +x near
if has parallel 'a campaign by GNU parallel'; then
  campaign 0 'a campaign by GNU parallel' --engine parallel --jobs 2 --dir parallel
  ended TERM parallel
  rm -f given
  touch fails
  TALFT=$work/watched campaign 1 'a part that fails under GNU parallel' --engine parallel --dir parallel.kept
  report 'the message about it' '  parallel.kept/000001.faults: status 5, out of memory' "$(tail -n 1 said)"
  rm fails given
  TALFT=$work/watched campaign 0 'GNU parallel continues' --engine parallel --dir parallel.kept
  report 'only the failed part is run again' '000001.faults 1' "$(given)"
  if has rsync 'a campaign on other machines'; then
    campaign 0 'an absent machine' --engine parallel --hosts "$work/near one,$work/near away" --jobs 1 --dir hosts
    report 'nothing is left on a machine' '' "$(find one -type f)"
    campaign 1 'only an absent machine' --engine parallel --hosts "$work/near away" --dir away.kept
    report 'the message about an absent machine' '  away.kept/000000.faults and 2 more: no answer: a machine may have gone away' \
      "$(tail -n 1 said | sed 's/ (.*//')"
    campaign 0 'the machine is back' --engine parallel --hosts "$work/near one" --dir away.kept
  fi
fi

# Two campaigns of two lists in one folder, started together: each writes the lines of its own list, or is refused.
head -n 400 list >one.list
tail -n 400 list >two.list
for turn in 1 2 3 4 5 6; do
  rm -rf both
  for each in one two; do
    (
      "$top/tools/campaign" fibonacci.obj --faults "$each.list" --steps "$most" --dir both >"$each.lines" 2>"$each.said"
      echo $? >"$each.status"
    ) &
  done
  wait
  for each in one two; do
    if [ "$(cat "$each.status")" = 0 ]; then
      sed '$d; s/ .*//' "$each.lines" | cmp - "$each.list" 2>&1
    else
      tail -n 1 "$each.said" | grep -vE '^talft-campaign: both: (this campaign is already running|holds a campaign with another fault list): '
    fi
  done
done >together 2>&1
report 'two campaigns started together' '' "$(cat together)"

# A folder from somebody else: what it holds is compared with what is given.
campaign 0 'a campaign of a few faults' --dir mine
cp -r mine forged
sed -i 's/ detected [0-9]*$/ masked/; s/^faults .*/faults 1250 masked 1250 detected 0 idle 0 corrupt 0/' forged/000000.answer
refuses 'a changed answer' 'talft-campaign: forged/000000.answer: is damaged: remove it, and run the same command again' \
  campaign fibonacci.obj --faults list --steps "$most" --dir forged
cp -r mine other.answer
printf '0:r5:1 masked\nfaults 1 masked 1 detected 0 idle 0 corrupt 0\n' >other.answer/000000.answer
sha256sum other.answer/000000.answer | cut -d ' ' -f 1 | tr -d '\n' >other.answer/000000.sum
refuses 'an answer about another fault' \
  'talft-campaign: other.answer/000000.answer: is damaged: remove it, and run the same command again' \
  campaign fibonacci.obj --faults list --steps "$most" --dir other.answer
cp -r mine other.object
cp "$top/examples/five.obj" other.object/object
refuses 'another object in the folder' \
  'talft-campaign: other.object/object: is not a copy of fibonacci.obj: the folder is damaged: remove it' \
  campaign fibonacci.obj --faults list --steps "$most" --dir other.object
cp -r mine other.part
printf '0:r5:1\n' >other.part/000000.faults
refuses 'another part in the folder' 'talft-campaign: other.part: its parts are not those of list: the folder is damaged: remove it' \
  campaign fibonacci.obj --faults list --steps "$most" --dir other.part
cp -r mine linked
echo precious >victim
rm linked/lock && ln -s ../victim linked/lock
refuses 'a link in the folder' 'talft-campaign: linked/lock: is a link, which a campaign never makes: give another --dir' \
  campaign fibonacci.obj --faults list --steps "$most" --dir linked
mkdir linked.empty && ln -s ../victim linked.empty/000000.faults.new
refuses 'a link in a folder without a campaign' \
  'talft-campaign: linked.empty/000000.faults.new: is a link, which a campaign never makes: give another --dir' \
  campaign fibonacci.obj --faults list --steps "$most" --dir linked.empty
report 'the files that the links lead to' precious "$(cat victim)"
mkdir letters && echo Dear >letters/mother
refuses 'a folder of something else' "talft-campaign: letters: is not a campaign's folder: it holds \`mother\`: give another --dir" \
  campaign fibonacci.obj --faults list --steps "$most" --dir letters
# Whoever changes an answer can make its checksum anew: judging some faults again shows it.
campaign 0 'a campaign that is judged again' --dir mine --again 50
report 'what it says' 'talft-campaign: 50 faults were judged again, with the same verdicts' "$(tail -n 1 said)"
for answer in forged/*.answer; do
  sed -i 's/ detected [0-9]*$/ masked/' "$answer"
  count=$(($(wc -l <"$answer") - 1))
  sed -i "\$s/.*/faults $count masked $count detected 0 idle 0 corrupt 0/" "$answer"
  sha256sum "$answer" | cut -d ' ' -f 1 | tr -d '\n' >"${answer%.answer}.sum"
done
"$top/tools/campaign" fibonacci.obj --faults list --steps "$most" --dir forged --again 200 >forged.lines 2>said
report 'forged answers, judged again' '1 1 0' \
  "$? $(grep -c ' masked. is line .*, but judged again it is .*: the folder is not from this program and object: remove it$' said) $(wc -l <forged.lines)"
