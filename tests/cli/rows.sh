# Worked rows for each command: arguments, output and status.

report 'the worked rows' '' "$(python3 "$top/tests/rows.py" "$top/crates/talft/out/talft" | grep -v ' passed, 0 failed$')"
