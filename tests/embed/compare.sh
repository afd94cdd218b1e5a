#!/usr/bin/env bash
# Compares a loader with the command talft on each given object: its check, its run, and its runs under faults.
#
#     compare.sh TALFT LOADER.. -- OBJECT..
set -u
talft=$1
shift
loader=()
while [ "$1" != -- ]; do
  loader+=("$1")
  shift
done
shift
# The steps, the fault and the answers to wild loads of each run; empty for a check.
tries=('' '100000' '100000 0:r0:1' '100000 7:r33:18446744073709551615' '100000 20:pcg:3' '100000 31:d:9' '50 44:qv0:1'
  '100000 9:r1:77 5,stop' '100000 9:r33:77 5,6,7' '1000 x' '1000 4:r1:6 x')
same=0
for object; do
  for try in "${tries[@]}"; do
    read -r steps fault wild <<<"$try"
    if [ -z "$try" ]; then
      words=(check "$object")
    else
      words=(run "$object" --steps "$steps" ${fault:+--fault "$fault"} ${wild:+--wild "$wild"})
    fi
    said=$("$talft" "${words[@]}" 2>/dev/null)
    status=$?
    told=$("${loader[@]}" "$object" $steps $fault $wild)
    answer=$?
    # For an invalid fault or answer, the command writes `usage`, and the loader nothing.
    case $fault:$wild in x:* | *:x) said= ;; esac
    if [ "$said" != "$told" ] || [ $status != $answer ]; then
      echo "$object, $try: $status and $answer"
      exit 1
    fi
    same=$((same + 1))
  done
done
echo "$same answers are the same"
