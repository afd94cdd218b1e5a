# Writes the program's help, from crates/ft_mistakes/src/forms.rt. `of` names a command, or is empty; `version` is the
# program's version.
/^pub\(crate\) const COMMANDS/ { kind = "command"; next }
/^pub\(crate\) const OPTIONS/ { kind = "option"; next }
/^];/ { kind = ""; next }
kind == "" { next }
{
  line = $0
  if (sub(/^ *"/, "", line)) { count[kind]++; at = 0 }
  sub(/",$/, "", line)
  text[kind, count[kind], ++at] = line
  lines[kind, count[kind]] = at
}
function first(words, parts) { split(words, parts, " "); return parts[1] }
# Writes the options named in a form, or all of them.
function options(written, i, j, begun) {
  for (i = 1; i <= count["option"]; i++) {
    if (written != "" && !index(written " ", first(text["option", i, 1]) " ")) continue
    if (!begun++) print "\noptions:"
    for (j = 1; j <= lines["option", i]; j++) print (j == 1 ? "  " : "") text["option", i, j]
  }
}
# The commands that take an option.
function takers(option, i, last, listed) {
  for (i = 1; i <= count["command"]; i++) {
    if (!index(text["command", i, 1] " ", option " ")) continue
    if (last != "") listed = listed (listed == "" ? "" : ", ") last
    last = "`" first(text["command", i, 1]) "`"
  }
  return listed (listed == "" ? "" : " and ") last
}
function commands(i, parts) {
  print "commands:"
  for (i = 1; i <= count["command"]; i++) {
    split(text["command", i, 1], parts, " ")
    printf "  %-18s%s\n", parts[1] " " parts[2], text["command", i, 2]
  }
}
END {
  if (of == "") {
    print "talft " version
    print "usage: talft COMMAND OPERAND [OPTION VALUE ..]\n"
    commands()
    options("")
    print "\nexample:\n  talft exec fibonacci.src\n\nmore: `talft help COMMAND`, `man talft`"
    exit
  }
  for (i = 1; i <= count["command"]; i++) {
    if (first(text["command", i, 1]) != of) continue
    print "talft " version
    print "usage: talft " text["command", i, 1]
    print "  " text["command", i, 2]
    options(text["command", i, 1])
    print "\nexample:\n  " text["command", i, 3] "\n\nmore: `man talft`"
    exit
  }
  for (i = 1; i <= count["option"]; i++) {
    name = first(text["option", i, 1])
    if (of != name && "--" of != name) continue
    print "talft " version
    for (j = 1; j <= lines["option", i]; j++) print (j == 1 ? "  " : "") text["option", i, j]
    print "\ntaken by " takers(name) "\n\nmore: `talft help COMMAND`, `man talft`"
    exit
  }
  print "talft: error: unknown command `" of "`"
  commands()
  print "more: `talft help`, `talft help COMMAND`"
}
