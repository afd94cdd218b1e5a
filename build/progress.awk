# Shows the progress of a proof in one line. It reads docs/PROVING.md (the minutes of each crate), crates.txt, the prover's
# output, and the crates whose proof has begun, each with its start time. `now`, `start` and these times are in seconds.
FILENAME ~ /PROVING.md$/ {
  if (split($0, cell, "|") > 3 && match(cell[2], /`[a-z_]+`/)) minutes[substr(cell[2], RSTART + 1, RLENGTH - 2)] = cell[3] + 0
  next
}
FILENAME ~ /crates.txt$/ {
  if (!/^[a-z]/) next
  name = $1; sub(":", "", name)
  crates[++total] = name
  $1 = ""; uses[name] = $0
  next
}
FILENAME != "-" {
  if (/^rt: [a-z_]+ proved$/ || /^rt: [a-z_]+ is kept/) { if (!($2 in done)) count++; done[$2]; if (/ kept/) kept[$2] }
  next
}
{ begun[$1] = $2 }

# The seconds that a crate takes, from the minutes of its proof in the table.
function whole(name) { return 60 * (name in minutes ? minutes[name] : 1.5) }
function left(name, seconds) {
  if (name in done) return 0
  seconds = whole(name) - (name in begun ? now - begun[name] : 0)
  return seconds > 10 ? seconds : 10
}
# The seconds until a crate and the chain of crates below it are done.
function chain(name, parts, number, i, most, below) {
  if (!(name in uses)) return 0
  if (name in chains) return chains[name]
  number = split(uses[name], parts, " ")
  for (i = 1; i <= number; i++) { below = chain(parts[i]); if (below > most) most = below }
  return chains[name] = most + left(name)
}
END {
  for (i = 1; i <= total; i++) {
    name = crates[i]
    rest += left(name)
    if (chain(name) > longest) longest = chain(name)
    if ((name in begun) && !(name in done)) running = running (running ? ", " : "") name
    # What was proved in this run shows how this machine compares with the table.
    if ((name in done) && !(name in kept)) expected += whole(name)
  }
  seconds = rest / processors
  if (longest > seconds) seconds = longest
  if (expected > 120) seconds *= (now - start) * processors / expected
  if (!running) running = count < total ? "reading the sources" : "the tests and the program"
  minutes_left = int((seconds + 59) / 60)
  printf "talft: %d of %d crates proved; now %s; about %d minute%s left\n", count, total, running, minutes_left, minutes_left == 1 ? "" : "s"
}
