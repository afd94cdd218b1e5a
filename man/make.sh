#!/usr/bin/env bash
# Makes the manual pages from the documents in docs/, with pandoc, and from each tool's --help. Each page contains
# checksums of its sources and of itself. With --stale this script makes nothing, needs no pandoc, and names each page
# whose checksums no longer match.
set -u
cd "$(dirname "$0")/.." || exit 2

# Each page: its name, its section, its document, and what it is about.
pages() {
  cat <<'PAGES'
talft 1 COMMANDS compiles, checks and runs fault-tolerant typed assembly, and tries faults on it
talft-source 5 SOURCE_LANGUAGE the source language of talft
talft-object 5 OBJECT_FORMAT the object format of talft
talft-assembly 5 ASSEMBLY the assembly texts of talft
talft-link 5 LINKING the link maps of talft
talft-faults 5 COMMANDS fault lists of talft, their verdicts, and scripts of its debugger
talft-typing 7 TYPING the typing rules of talft, with a table of the premises
talft-machine 7 MACHINE the machine of talft, its steps and its faults
talft-tools 7 TOOLS the tools around talft: fault lists, campaigns, pictures, programs in C
talft-c 7 C programs in C for talft
talft-debugging 7 DEBUGGING debugging objects, assembly texts and sources of talft, forward and back
PAGES
}
# The tools: the page of each has the name that users call it by.
tools() { grep -lE '^#!' tools/* 2>/dev/null | sed 's|tools/||'; }

# A document, or the chapters of it that belong on a page. Chapters about the proof, or only about a clone, are not for
# users.
is_of_faults='^### (Strikes|Campaigns|Sessions of the debugger)$'
not_for_users='^## (Before the proof|Forms by number|What is proved( of them)?|What typing means for runs|How the code (meets them|does it)|How many steps a check takes|Why it holds|The code|The walk|What was tried)$'
document() {
  awk -v page="$1" -v of_faults="$is_of_faults" -v not_for_users="$not_for_users" '
    /^##/ {
      with_faults = $0 ~ of_faults
      without = /^## / ? $0 ~ not_for_users : without
      shown = page == "talft-faults" ? with_faults : page == "talft" ? !with_faults || /Strikes$/ : 1
      if (page == "talft-faults") sub(/^###/, "##")
    }
    /^##/ || seen { seen = 1 }
    (seen ? shown && !without : page != "talft-faults")' "docs/$2.md"
}

sum() { sha256sum | cut -d' ' -f1; }
sum_of_sources() { cat $1 man/page.lua man/help.py man/make.sh man/*.more | sum; }

head_of() { printf '.TH %s %d %s talft "Manual of talft"\n' "${1^^}" "$2" "$(date -u +%F)"; }

# The lines below the checksums of a page that is made from a document.
lines() {
  local name=$1 section=$2 document=$3 about=$4
  head_of "$name" "$section"
  printf '.SH NAME\n%s \\- %s\n' "${name/-/\\-}" "$about"
  document "$name" "$document" | pandoc -f gfm -t man --shift-heading-level-by=-1 --lua-filter man/page.lua |
    awk '/^\.S[HS]/ { headed = 1; print; next } headed && /^\.PP$/ { headed = 0; next } { headed = 0; print }'
  [ ! -f "man/$name.more" ] || cat "man/$name.more"
  printf '.SH SEE ALSO\n'
  pages | awk -v page="$name.$section" '$1 "." $2 != page { printf "%s.BR %s (%d)", n++ ? " ,\n" : "", $1, $2 } END { print "" }'
}

# Likewise for the C library: its document, and the header verbatim.
lines_of_library() {
  lines talft 3 EMBEDDING 'the checker, the machine and the compiler of talft as a C library' | sed '/^\.SH SEE ALSO$/,$d'
  printf '.SH THE HEADER\n.nf\n'
  sed 's/\\/\\e/g; s/-/\\-/g; s/^[.'"'"']/\\\&&/' include/talft.h
  printf '.fi\n.SH SEE ALSO\n'
  pages | awk '{ printf "%s.BR %s (%d)", n++ ? " ,\n" : "", $1, $2 } END { print "" }'
}

# Likewise for a tool's page.
lines_of_tool() {
  head_of "talft-$1" 1
  COLUMNS=100 "tools/$1" --help | python3 man/help.py "talft-$1" || return
  printf '.SH SEE ALSO\n.BR talft (1) ,\n.BR talft-tools (7)\n'
}

stale=0
# `page FILE SOURCE COMMAND WORDS..` makes the page from the command's output, or says that it is stale.
page() {
  local file=$1 source=$2 text
  shift 2
  if [ -z "$is_asked" ]; then
    text=$("$@") || exit 1
    printf '.\\" Made by man/make.sh from %s. Checksums of its sources and of the lines below:\n.\\" %s %s\n%s\n' \
      "$source" "$(sum_of_sources "$source")" "$(printf '%s\n' "$text" | sum)" "$text" >"$file"
  elif [ "$(sed -n '2s/^\.\\" //p' "$file")" != "$(sum_of_sources "$source") $(tail -n +3 "$file" | sum)" ]; then
    echo "$file is stale: run \`bash man/make.sh\`"
    stale=1
  fi
}

is_asked=${1-}
while read -r name section document about; do
  page "man/$name.$section" "docs/$document.md" lines "$name" "$section" "$document" "$about"
done < <(pages)
page man/talft.3 'docs/EMBEDDING.md include/talft.h' lines_of_library
for name in $(tools); do
  page "man/talft-$name.1" "tools/$name" lines_of_tool "$name"
done
exit "$stale"
