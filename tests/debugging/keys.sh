#!/usr/bin/env bash
# Types into a terminal: `keys.sh WIDTH HEIGHT COMMAND` runs the command in tmux, and takes lines from standard input:
#   shot         writes the screen once it has not changed for a while
#   text:..      types a text
#   await TEXT   waits until the screen has the text, at most 60 seconds
#   pause N      waits N seconds
#   size W H     makes the terminal W columns wide and H rows high
#   kill         closes the terminal
#   terminate    sends the signal TERM to what the command has started
# Any other line is a key as tmux names it.
set -u
width=$1 height=$2 server=debugger$$
shift 2
tmux -L "$server" -f /dev/null new-session -d -s it -x "$width" -y "$height" "$*" || exit 1
trap 'tmux -L "$server" kill-server 2>/dev/null' EXIT
screen() { tmux -L "$server" capture-pane -p -t it 2>/dev/null; }
# Prints the numbers of the processes that a process has started.
started_by() { grep -ls "^PPid:[[:space:]]*$1\$" /proc/[0-9]*/status | cut -d / -f 3; }
# Waits until the screen stays the same.
settled() {
  local last now=none n
  for ((n = 0; n < 100; n++)); do
    last=$now now=$(screen)
    [ "$last" != "$now" ] || [ -z "$now" ] || return
    sleep 0.1
  done
}
settled
while IFS= read -r line; do
  case $line in
    shot) settled; screen; echo ----- ;;
    await\ *) for ((n = 0; n < 600; n++)); do screen | grep -qF -- "${line#await }" && break; sleep 0.1; done ;;
    pause\ *) sleep "${line#pause }" ;;
    size\ *) read -r _ width height <<<"$line"; tmux -L "$server" resize-window -t it -x "$width" -y "$height" ;;
    terminate) kill -TERM $(started_by "$(tmux -L "$server" list-panes -t it -F '#{pane_pid}')") ;;
    kill) tmux -L "$server" kill-session -t it; sleep 0.3 ;;
    text:*) tmux -L "$server" send-keys -t it -l "${line#text:}" ;;
    *) tmux -L "$server" send-keys -t it "$line" ;;
  esac
  sleep 0.05
done
