#!/usr/bin/env bash
# Makes the pictures in docs/pictures anew: `docs/pictures.sh FOLDER` writes debugger.svg and fibonacci.png there. It needs the
# program and gnuplot. The gate makes them again and compares what stands in them.
set -eu
top=$(cd "$(dirname "$0")/.." && pwd)
mkdir -p "$1"
to=$(cd "$1" && pwd)
work=$(mktemp -d)
trap 'rm -rf "$work"' EXIT

(cd "$top" && python3 -B tests/debugging/screenshot.py tools/debugger examples/fibonacci.src --tui --fault 296:r32:7) >"$to/debugger.svg"

# As in docs/TOOLS.md.
cd "$work"
"$top/talft" compile "$top/examples/fibonacci.src" >fibonacci.obj
"$top/tools/faults" fibonacci.obj --sites r0-r7,r32-r39,d,pcg,pcb,qa0,qv0 >few 2>said
python3 "$top/tests/unpaired.py" fibonacci.obj >unpaired.obj
"$top/tools/campaign" fibonacci.obj --faults few --steps 1000 --dir few.campaign >paired 2>said
# Its status is 10, as faults are corrupt.
"$top/tools/campaign" unpaired.obj --survey --faults few --steps 1000 >unpaired 2>said || [ $? -eq 10 ]
"$top/tools/plot" paired unpaired --title accepted --title 'not accepted' --out both.png 2>said
cp both.png "$to/fibonacci.png"
