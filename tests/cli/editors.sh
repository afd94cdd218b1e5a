# Completion for bash, and the syntax files. tests/users.sh tests them on a terminal, in Vim and in bat.

# `completes NAME WANTED LINE` completes the line at its end, with its words split as bash splits them.
completes() {
  report "completion of $1" "$2" "$(bash --norc -c '
    . "$1/editors/talft.bash"
    split=$(sed "s/:/ : /g" <<<"$2")
    read -ra COMP_WORDS <<<"$split"
    case $split in *" ") COMP_WORDS+=("") ;; esac
    COMP_LINE=$2 COMP_POINT=${#2} COMP_CWORD=$((${#COMP_WORDS[@]} - 1))
    COMP_WORDBREAKS=$'\'' \t\n"><=;|&(:'\''
    _talft
    echo "${COMPREPLY[*]}"' bash "$top" "$3")"
}

cd "$top/examples" || exit 2
completes 'a command' 'campaign check compile' 'talft c'
completes 'each command' 'asm campaign check compile debug demo dis exec link mean recover run schedule survey trial upgrade' 'talft '
completes 'an object' 'five.obj' 'talft run fi'
completes 'an assembly text' 'five.asm' 'talft asm fiv'
completes 'a link map' 'caller.map' 'talft link cal'
completes 'a source' 'fibonacci.src' 'talft mean fib'
completes 'a file of another kind' 'README.md' 'talft run REA'
completes 'no file for a number of turns' '' 'talft demo '
completes 'the options of run' '--fault --steps --wild' 'talft run five.obj '
completes 'the remaining options' '--fault --wild' 'talft trial five.obj --steps 3 --'
completes 'the options of a campaign' '--faults' 'talft campaign five.obj --f'
completes 'the option of a meaning' '--turns' 'talft mean sum.src -'
completes 'no option of check' '' 'talft check five.obj '
completes 'a fault list' 'five.faults' 'talft campaign five.obj --faults fi'
completes 'a step' '' 'talft run five.obj --fault 4'
completes 'a site' 'r1: r10: r11: r12: r13: r14: r15: r16: r17: r18: r19:' 'talft run five.obj --fault 4:r1'
completes 'a pending store' 'qa0: qa1: qa2: qa3: qa4: qa5: qa6: qa7:' 'talft run five.obj --fault 4:qa'
completes 'a value' '' 'talft run five.obj --fault 4:r1:'
completes 'an answer to a wild load' 'stop' 'talft run five.obj --wild '
completes 'a further answer' '7,stop' 'talft run five.obj --wild 7,s'
completes 'an option after a fault' '--steps --wild' 'talft run five.obj --fault 4:r1:6 --'
cd "$work" || exit 2

# `completes_tool NAME WANTED TOOL WORD` completes the first word after the name of a tool.
completes_tool() {
  report "completion of $1" "$2" "$(bash --norc -c '
    . "$1/editors/talft.bash"
    COMP_WORDS=("$2" "$3") COMP_CWORD=1
    _talft_tool "$2"
    status=$?
    echo "${COMPREPLY[*]}$([ $status -eq 0 ] || echo "status $status")"' bash "$top" "$3" "$4" 2>&1)"
}
completes_tool 'the options of cc' '--stack --steps' "$top/tools/bin/talft-cc" --st
completes_tool 'the options of set' '--from --from-run' "$top/tools/bin/talft-set" --f
completes_tool 'the options of build' '--unchecked' "$top/tools/bin/talft-build" --u
report 'each tool has completion, and nothing else' "$(cd "$top/tools/bin" && printf '%s\n' talft *)" \
  "$(bash --norc -c '. "$1/editors/talft.bash"; complete -p' bash "$top" | sed 's/.* //' | sort)"

report 'the grammar of TextMate' '0 wrong' \
  "$(python3 "$top/tests/editors.py" textmate "$top"/examples/*.src "$top/tests/sources/tokens.src" 2>&1 | tail -n 1 | sed 's/.*, //')"
cat >words.asm <<'END'
  # r1 is here, G too
cell r1x ref:code:7 5
cell a[0] int 0
cell r64 int 18446744073709551615
node 0 add 3 4
	mov r63 B 05 ref:ref:int
END
report 'the grammar of assembly' '0 wrong' \
  "$(python3 -B "$top/tests/editors_assembly.py" textmate "$top"/examples/*.asm words.asm 2>&1 | tail -n 1 | sed 's/.*, //')"
if has vim 'the colours of assembly in Vim' && vim --version | grep -q '+syntax'; then
  report 'the colours of assembly in Vim' '0 wrong' \
    "$(python3 -B "$top/tests/editors_assembly.py" vim "$top/examples/five.asm" words.asm 2>&1 | tail -n 1 | sed 's/.*, //')"
fi
for kind in talft talft-asm; do
  report "the syntax $kind for bat" '' \
    "$(python3 "$top/editors/sublime.py" $kind | diff - "$top/editors/$kind.sublime-syntax")"
done

# No editor goes by the file name alone: the first line decides, by the same rule in VS Code, bat and Sublime Text.
kinds() {
  python3 - "$top/editors" <<'END'
import json, re, sys
with open(sys.argv[1] + "/vscode/package.json") as file:
    languages = json.load(file)["contributes"]["languages"]
for it in languages:
    with open(f"{sys.argv[1]}/vscode/{it['id']}.tmLanguage.json") as file:
        grammar = json.load(file)
    if "extensions" in it or grammar["fileTypes"] or grammar["firstLineMatch"] != it["firstLine"]:
        print(it["id"] + " takes other files")
for line in ("cell out = 0;", "var a; var b;", "cell a[3] = 0;", "# a talft source", "cell out int 0", "node 0 memory",
             "cell p ref:code:1 5", "# talft assembly", "cell (int x) {", "int main() {", "mov eax, 1", "# something"):
    print(f"{line}:", *(it["id"] for it in languages if re.search(it["firstLine"], line)))
END
}
report 'the kinds of first lines' "cell out = 0;: talft
var a; var b;: talft
cell a[3] = 0;: talft
# a talft source: talft
cell out int 0: talft-asm
node 0 memory: talft-asm
cell p ref:code:1 5: talft-asm
# talft assembly: talft-asm
cell (int x) {:
int main() {:
mov eax, 1:
# something:" "$(kinds)"
