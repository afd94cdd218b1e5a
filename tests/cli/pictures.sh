# Pictures and pages of campaigns, from tools/plot and tools/report. The pixels of each colour in the pictures are
# counted.

unset DISPLAY
dots() { python3 "$top/tests/picture.py" "$1" 2>&1; }

# Ten steps at two sites. A cell is one pixel wide in the picture within the SVG, and 23 high.
{
  for ((step = 0; step < 10; step++)); do echo "$step:r0:1 masked"; done
  for ((step = 0; step < 5; step++)); do echo "$step:r1:1 detected $((step + 3))"; done
  for ((step = 5; step < 9; step++)); do echo "$step:r1:1 idle"; done
  echo 9:r1:1 corrupt
  echo faults 20 masked 10 detected 5 idle 4 corrupt 1
} >few.lines
# A hundred faults in one cell, one of them corrupt.
{
  echo 7:pcg:0 corrupt
  for ((word = 1; word < 100; word++)); do echo "7:pcg:$word masked"; done
  echo faults 100 masked 99 detected 0 idle 0 corrupt 1
} >cell.lines

draws() {
  tool "a picture of $1.lines" 0 '' plot $1.lines --out "$1"
  report "the dots of each colour in $1.svg" "$2" "$(dots "$1.svg")"
  report "the letters in $1.svg" 1 "$(grep -c "$3" "$1.svg")"
}
if has gnuplot 'the pictures'; then
  draws few 'masked 230 detected 115 idle 92 corrupt 23 of 10 48' \
    '5 detected: half of them within 3 steps, the slowest after 3 steps'
  draws cell 'masked 32 detected 0 idle 0 corrupt 14 of 2 24' 'No fault was detected\.'
  report 'a ring around the only corrupt fault' 1 "$(grep -c "<path stroke='rgb(213,  94,   0)'" cell.svg)"
  python3 -c 'import sys, xml.etree.ElementTree as tree; tree.parse(sys.argv[1])' few.svg
  report 'an SVG is in the grammar of XML' 0 $?
  # The cells are 76 pixels wide in the PNG; the frame covers some pixels, and the legend adds some.
  report 'the cells of few.png' '10 4 1' \
    "$(dots few.png | awk '{ printf "%.0f %.0f %.0f", $2 / 1748, $6 / 1748, $8 / 1748 }')"
  tool 'only a PNG' 0 '' plot few.lines cell.lines --title 'one & <two>' --out pair.png
  report 'no SVG' 'pair.png' "$(ls pair.png pair.svg 2>/dev/null)"
  tool 'a title with special characters' 0 '' plot few.lines --title "it's one & <two>" --out pair.svg
  report 'the title' "it's one & <two>" "$(python3 -c 'import html, sys; print(html.unescape(sys.stdin.read()))' \
    < <(sed -n 's/.*<text>\(.*two.*\)<.text>/\1/p' pair.svg))"

    # The texts of the legend and the axes, and folded rows. No picture is wider than a repository's web page.
  texts() { sed -n 's/.*<text>\(.*\)<.text>.*/\1/p; s/.*<text><tspan[^>]*>\([^<]*\)<.*/\1/p' "$1"; }
  report 'the legend explains white' 1 "$(texts few.svg | grep -c 'no fault of the list')"
  report 'the axis says what a column is' 1 "$(grep -c 'step before which the fault strikes (one column: 1 step)' few.svg)"
  report 'the shares of the verdicts' 1 "$(grep -c 'masked 10 (50.0%)' few.svg)"
  report 'the picture is 860 dots wide' 860 "$(sed -n 's/^<svg *//; s/^ *width="\([0-9]*\)".*/\1/p' few.svg | head -n 1)"
  # The words that the registers hold anyway: each fault is masked.
  for ((step = 0; step < 10; step++)); do
    printf "$step:r0:1048576\n$step:r1:5\n" >>used.list
    printf "$step:r0:1048576\n$step:r9:5\n" >>unused.list
  done
  for lines in used unused; do "$top/talft" campaign "$top/examples/five.obj" --faults $lines.list >$lines.lines; done
  tool 'a picture with the object' 0 '' plot used.lines --object "$top/examples/five.obj" --out used.svg
  report 'both registers are used' 0 "$(grep -c '>unused<' used.svg)"
  tool 'a picture with an unused register' 0 '' plot unused.lines --object "$top/examples/five.obj" --out unused.svg
  report 'its faults are counted separately' 1 "$(grep -c 'of 10 faults; 10 more in unused registers' unused.svg)"
  report 'they are left out of the shares' 1 "$(grep -c 'masked 10 (100%)' unused.svg)"

# The same faults on accepted code, and on code whose blue stores read the green registers.
  "$top/talft" compile "$top/examples/fibonacci.src" >fibonacci.obj
  python3 "$top/tests/unpaired.py" fibonacci.obj >unpaired.obj
  "$top/tools/faults" fibonacci.obj --sites r0-r7,r32-r39,d,pcg,pcb,qa0,qv0 >list 2>said
  "$top/tools/campaign" fibonacci.obj --faults list --steps 1000 --dir paired >paired.lines 2>said
  "$top/tools/campaign" unpaired.obj --survey --faults list --steps 1000 --dir unpaired >unpaired.lines 2>said
  report 'a fault of the unpaired code is corrupt' 10 $?
  tool 'both pictures' 0 '' plot paired.lines --out paired.svg
  tool 'the other one' 0 '' plot unpaired.lines --out unpaired.svg
  report 'the picture of accepted code shows no corrupt fault' 'corrupt 0' "$(dots paired.svg | grep -o 'corrupt 0')"
  report 'the picture of the other code shows corrupt faults' 'some' "$(dots unpaired.svg | sed 's/.*corrupt [1-9].*/some/')"
fi

head -n 5 few.lines >cut.lines
refuses 'truncated lines' \
  'talft-plot: cut.lines:6: missing last line `faults ..`, with the totals: the file is incomplete' plot cut.lines
sed 's/idle 4/idle 5/' few.lines >wrong.lines
refuses 'totals that are not those of the lines' \
  'talft-plot: wrong.lines:21: the totals do not match the lines, which add up to masked 10 detected 5 idle 4 corrupt 1' plot wrong.lines
sed '3s/masked/broken/' few.lines >broken.lines
refuses 'an invalid line' \
  'talft-plot: broken.lines:3: unexpected `2:r0:1 broken`: expected STEP:SITE:WORD VERDICT, as `talft campaign` writes it' \
  plot broken.lines
echo 'faults 0 masked 0 detected 0 idle 0 corrupt 0' >none.lines
refuses 'a campaign without a fault' 'talft-plot: none.lines: has no faults to draw: its campaign had an empty list' \
  plot none.lines
refuses 'a missing file' 'talft-plot: absent: no such file' plot absent
misused 'a page without an object' \
  'talft-report: missing object: give `--dir DIR`, the folder that `talft-campaign` made, or `--object OBJECT`' report few.lines
refuses 'a page of truncated lines' \
  'talft-report: cut.lines:6: missing last line `faults ..`, with the totals: the file is incomplete' \
  report cut.lines --object "$top/examples/five.obj"
for script in plot report; do
  report "the help of $script" "usage: talft-$script" "$("$top/tools/$script" --help | head -n 1 | grep -o "usage: talft-$script")"
done

# The instructions that a page names, for a fault before each fetch.
names() {
  awk -v sites="$2" 'BEGIN { for (step = 0; step < 2 * sites; step += 2) printf "%d:r9:1 masked\n", step
    printf "faults %d masked %d detected 0 idle 0 corrupt 0\n", sites, sites }' >each.lines
  tool "a page of $1" 0 '' report each.lines --object "$top/examples/$1" --out each.html
  report "the instructions of $1" "$3" \
    "$(grep -o '"places":\[[^]]*' each.html | grep -o '[^"]* (before' | sed 's/ (before//' | paste -sd /)"
}
if command -v gnuplot >/dev/null; then
  names five.obj 7 \
    'mov r0 G 1048576 ref:int/mov r1 G 5 int/mov r32 B 1048576 ref:int/mov r33 B 5 int/st_G r0 r1/st_B r32 r33/halt'
  names indexed.obj 9 \
    'mov r0 G 4 int/idx r1 r0 0 3/mov r2 G 9 int'\
'/mov r32 B 4 int/idx r33 r32 0 3/mov r34 B 9 int/st_G r1 r2/st_B r33 r34/halt'
fi

# With the source, an instruction is shown with its line; the first store of Fibonacci's loop is on line 4.
if command -v gnuplot >/dev/null; then
  printf '60:r4:1 detected 63\n8:r9:1 masked\nfaults 2 masked 1 detected 1 idle 0 corrupt 0\n' >lined.lines
  "$top/talft" compile "$top/examples/fibonacci.src" >fibonacci.obj
  tool 'a page with lines of a source' 0 '' report lined.lines --object fibonacci.obj \
    --source "$top/examples/fibonacci.src" --out lined.html
  report 'its lines' "mov r2 G 0 int (before its fetch, block 0 index 4, line 2)/st_G r4 r5 (before its fetch, block 1 \
index 14, line 4)" \
    "$(grep -o '"places":\[[^]]*' lined.html | grep -o '[^"[]* (before[^"]*' | paste -sd /)"
  report 'the path of its slow fault' 1 "$(grep -c 'the strike 60:r4:1' lined.html)"
  # A comment that would end the page's script early.
  sed '4s/$/ # <!--<script>/' "$top/examples/fibonacci.src" >early.src
  tool 'a page with markup in a source' 0 '' report lined.lines --object fibonacci.obj --source early.src --out early.html
  report 'its markup' '0 yes' "$(grep -c '<!--<script' early.html) $(grep -q 'u003c!--' early.html && echo yes)"
fi

# At a terminal a page says what it is doing; otherwise it says only what it wrote. It calls the program for the words, for
# the places, and about once for each fault that it traces: not again for the run without a fault, which these share.
if command -v gnuplot >/dev/null; then
  printf '0:r9:1 masked\n2:r9:1 masked\nfaults 2 masked 2 detected 0 idle 0 corrupt 0\n' >two.lines
  tool 'a page without a terminal' 0 '' report two.lines --object "$top/examples/five.obj" --out quiet.html
  report 'it says only what it wrote' 'talft-report: wrote quiet.html' "$(cat said)"
  if has script 'the progress of a page'; then
    report 'what a page says at a terminal' 'draws the picture|read 2 faults|reads the words of 2 faults' \
      "$(script -qec "'$top/tools/report' two.lines --object '$top/examples/five.obj' --out loud.html" /dev/null </dev/null |
        tr '\r' '\n' | sed -n 's/.*report: \(draws.*\|read 2.*\|reads the words.*\)/\1/p' | sort -u | paste -sd '|')"
  fi
  printf '%s\n' '#!/bin/sh' "echo call >>'$work/calls'" "exec '$top/talft' \"\$@\"" >counting
  chmod +x counting
  : >calls
  TALFT=./counting "$top/tools/report" unpaired.lines --dir unpaired --out counted.html 2>said
  traced=$(grep -o '"ways":{.*' counted.html | grep -o '"[0-9]*":"' | wc -l)
  report "at most 3 calls for each of $traced traced faults, and 6 more" yes \
    "$([ "$traced" -gt 9 ] && [ "$(wc -l <calls)" -le $((3 * traced + 6)) ] && echo yes || echo "$(wc -l <calls) calls")"
fi

# The commands in docs/TOOLS.md, run as a reader would. They print only their progress and what they wrote.
if command -v gnuplot >/dev/null; then
  mkdir reader
  ln -s "$top/talft" "$top/tools" "$top/tests" "$top/examples" reader
  awk '/^```/ { inside = !inside; next } inside' "$top/docs/TOOLS.md" >reader/commands
  report 'the messages of the commands in docs/TOOLS.md' '' \
    "$(cd reader && PATH=$PWD:$PWD/tools/bin:$PATH bash commands 2>&1 | grep -v '^talft-faults: [0-9]\|^talft-campaign: [0-9]\|: wrote ')"
  count=$(grep -o 'has [0-9,]* faults' "$top/docs/TOOLS.md" | tr -dc 0-9)
  report 'the number of faults in docs/TOOLS.md' "$count" "$(grep -c : reader/lines)"
  report 'the pictures that these commands draw' 'both.png both.svg fibonacci.html fibonacci.png fibonacci.svg' \
    "$(cd reader && find . -size +4k \( -name '*.??g' -o -name '*.html' \) | sed 's/..//' | sort | paste -sd ' ')"
fi

# The pictures in the documents, made anew: what stands in them is the same. Letters in a PNG are pixels, which depend on the
# fonts, so its description is compared.
if command -v gnuplot >/dev/null; then
  mkdir anew
  tool_said=$(bash "$top/docs/pictures.sh" anew 2>&1)
  report 'what docs/pictures.sh says' '' "$tool_said"
  report 'docs/pictures/debugger.svg made anew' '' "$(diff "$top/docs/pictures/debugger.svg" anew/debugger.svg | head -n 4)"
  report 'docs/pictures/fibonacci.png made anew' "$(python3 "$top/tests/picture.py" --text "$top/docs/pictures/fibonacci.png")" \
    "$(python3 "$top/tests/picture.py" --text anew/fibonacci.png)"
  report 'it has a description' 1 "$(python3 "$top/tests/picture.py" --text anew/fibonacci.png | grep -c 'accepted: masked [1-9].* corrupt 0 ')"
  report 'docs/pictures has no other picture' "$(ls anew)" "$(ls "$top/docs/pictures")"
fi

# `choose SITE VERDICT` writes the script that chooses these on the page, and returns the number of rows and the page's
# note about them.
choose() {
  printf '(() => { for (const [id, value] of [["site", "%s"], ["verdict", "%s"]]) {' "$1" "$2"
  printf 'const select = document.getElementById(id); select.value = value; '
  printf 'select.dispatchEvent(new Event("change")); } '
  printf 'return document.querySelectorAll("#faults tbody tr").length + " " + '
  printf 'document.getElementById("told").textContent; })()\n'
}
# The wanted answer, from the campaign's lines. At most a hundred of each site and verdict are listed.
chosen() {
  awk -F '[: ]' -v site="$1" -v verdict="$2" '/:/ && (site == "" || $2 == site) && (verdict == "" || $4 == verdict) {
      all++; if (kept[$2, $4]++ < 100) listed++
    }
    END {
      printf "%d %d faults", listed < 100 ? listed : 100, all
      if (listed < all) printf "; %d are listed at most 100 of each site and verdict", listed
      printf "\n"
    }' unpaired.lines
}
for browser in chromium chromium-browser google-chrome; do command -v $browser >/dev/null && break; done
if command -v gnuplot >/dev/null && has $browser 'a page in a browser'; then
  tool 'a page' 0 '' report unpaired.lines --dir unpaired --out page.html
  report 'the page loads nothing' '' "$(grep -o '\(src\|href\)="[^"]\{0,20\}' page.html | grep -v '="data:')"
  {
    echo document.title
    echo 'document.getElementById("command").textContent'
    echo 'document.querySelector(".totals").innerText.replace(/\s+/g, " ")'
    echo 'document.querySelector("img").naturalWidth === 860'
    choose r1 corrupt
    choose r33 corrupt
    choose r0 detected
    choose '' ''
    echo 'document.getElementById("more").click(), document.querySelectorAll("#faults tbody tr").length'
    choose r1 corrupt
    echo 'document.querySelector("#faults tbody tr").innerText.replace(/\s+/g, " ")'
    for wide in 1280 1920; do
      echo "width $wide"
      echo '[document.querySelector("#faults th:last-child").getBoundingClientRect().right <= innerWidth,' \
        'document.querySelector(".scroll").scrollWidth <= document.querySelector(".scroll").clientWidth].join(" ")'
    done
    echo 'document.querySelector("#faults tbody tr a").click(),' \
      'document.getElementById("way").innerText.split("\n").slice(0, 2).join("\n")'
    echo location.hash
  } | timeout 100 python3 "$top/tests/browser.py" page.html page.png 2>errors | tr -d , >browsed
  IFS=': ' read -r step site word verdict < <(grep ':r1:.* corrupt' unpaired.lines)
  old=$(printf 'step %d\nreg r1\n' "$step" | "$top/talft" debug unpaired.obj | sed -n '$s/.* //p')
  hex() { [ "$1" -lt 10 ] && echo "$1" || printf '%d (0x%x)\n' "$1" "$1"; }
  where=$(printf 'step %d\nwhere\n' "$step" | "$top/talft" debug unpaired.obj | sed -n '$s/.* block/block/p')
  {
    echo 'unpaired: faults'
    echo 'talft-campaign unpaired.obj --survey --faults list --steps 1000 --dir unpaired'
    tail -n 1 unpaired.lines
    echo True
    chosen r1 corrupt
    chosen r33 corrupt
    chosen r0 detected
    chosen '' ''
    echo 200
    chosen r1 corrupt
    echo "$step $site $(hex "$old") $(hex "$word") 0 $verdict (before its $([ $((step % 2)) -eq 0 ] && echo fetch || echo execution) $where) why"
    echo 'true true'
    echo 'true true'
    echo 'talft-explain unpaired/object --fault '"$step:$site:$word"
    "$top/tools/explain" unpaired.obj --fault "$step:$site:$word" | head -n 1 | tr -d ,
    echo '#site=r1&verdict=corrupt'
    echo '0 errors'
  } >page.wanted
  sed -i 's/corrupt [^(]*(before/corrupt (before/' browsed
  report 'the page in a browser' '' "$(diff browsed page.wanted; cat errors)"
  report 'a screenshot' yes "$([ "$(head -c 4 page.png | tail -c 3)" = PNG ] && echo yes)"
fi
