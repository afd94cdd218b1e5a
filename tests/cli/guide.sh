# Runs the guide as written. A chapter that needs a missing program is skipped and named. A wrapper around talft counts
# the calls.

mkdir guide
ln -s "$top/tools" "$top/examples" guide
cat >guide/talft <<END
#!/usr/bin/env bash
echo "\$1" >>"$work/guide.calls"
exec "$top/talft" "\$@"
END
chmod +x guide/talft
guide=$(TALFT=$work/guide/talft python3 "$top/tests/guide.py" "$top/docs/GUIDE.md" "$work/guide" 2>&1)
commands=$(grep -c '^\$ ' "$top/docs/GUIDE.md")
files=$(grep -c '^```text .' "$top/docs/GUIDE.md")
left=$(sed -n 's/^left out: \([0-9]*\) commands.*/\1/p' <<<"$guide" | paste -sd+)
while read -r missing; do
  has "$missing" 'a chapter of the guide'
done < <(sed -n 's/^left out: .*, as \(.*\) is not installed$/\1/p' <<<"$guide")
asked=$((commands + files - ${left:-0}))
report 'the guide' "$asked of $asked commands write what the guide says" "$(grep -v '^left out' <<<"$guide")"
if [ -z "$left" ]; then
  calls=$(wc -l <guide.calls)
  told=$(tr '\n' ' ' <"$top/docs/GUIDE.md" | grep -o 'runs the program some [0-9]* times' | tr -dc 0-9)
  report "the calls that the guide makes, some $told" yes \
    "$([ $((calls - told)) -le 10 ] && [ $((told - calls)) -le 10 ] && echo yes || echo "$calls")"
fi

# The commands in README, with everything that they write.
if has clang 'the commands of README'; then
  sed -n '/^\$ tools\/bin\/talft-cc /,/^```/p' "$top/README.md" | sed '$d' >readme.wanted
  (
    cd guide || exit
    grep '^\$ ' ../readme.wanted | while read -r line; do
      echo "$line"
      TALFT=$top/talft bash -c "${line#??}" 2>&1 </dev/null
    done
  ) >readme.got
  report 'the commands of README' '' "$(diff readme.wanted readme.got)"
fi
