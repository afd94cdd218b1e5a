# The documents that are generated from the repository are up to date.

report 'the list of crates' '' "$(bash "$top/docs/crates.sh" | diff - "$top/docs/CRATES.md")"
report 'the list of definitions that the headline reaches' '' "$(python3 "$top/docs/reading.py" | diff - "$top/docs/READING.md")"
report 'the manual pages' '' "$(bash "$top/man/make.sh" --stale)"

# The lines `In FOLDER: FILE (NAME, ..)` in the promises: each file exists, and defines each name.
named() {
  awk '/^In `crates\//, /\.$/' "$top/docs/PROMISES.md" | grep -o '`[^`]*`\|[()]' | tr -d '`' | while read -r word; do
    case $word in
      crates/*) folder=$word ;;
      *.rt) file=$folder/$word; [ -f "$top/$file" ] || echo "$file is missing" ;;
      '(') inside=1 ;;
      ')') inside= ;;
      *) [ -z "${inside-}" ] || grep -qE "\b(fn|struct|enum|trait|impl(<[^>]*>)?( .* for)?) $word\b" "$top/$file" || echo "$file does not have $word" ;;
    esac
  done
}
report 'the files that the promises name' '' "$(named)"
report 'the lists of what a change touches' '' "$(python3 "$top/docs/changing.py" | diff - "$top/docs/CHANGING.md")"
report 'the table of limits' '' "$(python3 "$top/docs/limits.py" | diff - "$top/docs/LIMITS.md")"

# README lists the packages with which the tests of the gate skip nothing. gcc and what comes with it is needed anyway; dpkg and
# util-linux are in every Debian.
needed() {
  {
    grep -ohE "\bhas [a-z+-]+ ['\"]" "$top"/tests/cli.sh "$top"/tests/cli/*.sh "$top"/tests/speed.sh | cut -d ' ' -f 2
    sed -n 's/^<!-- needs \(.*\) -->$/\1/p' "$top/docs/GUIDE.md" | tr ' ' '\n'
  } | while read -r command; do package "$command"; done | sort -u | grep -vxE 'binutils|dpkg|gcc|util-linux' | paste -sd ' '
}
report 'the packages that README lists' "$(needed)" "$(sed -n 's/^ *apt-get install //p' "$top/README.md")"

# The promises quote the clause of the headline exactly.
clause() { sed -n '/ensures headline {/,/}$/p' "$1" | tr -s ' \n' ' ' | sed 's/^ //'; }
report 'the clause that the promises quote' "$(clause <(sed -n '/^pub fn whole/,$p' "$top/crates/ft_tool/src/at_system.rt"))" "$(clause "$top/docs/PROMISES.md")"

# The documents stay short enough to read.
report 'at most 40,000 words written by hand' yes "$(python3 "$top/docs/words.py" | tr -d ' ,' | awk '{ print $1 <= 40000 ? "yes" : $1 }')"
