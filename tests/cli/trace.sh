# Requirements: every name in docs/trace.toml exists; every clause of a public call, every wrong body and every test has
# a requirement; the documents made from it are up to date; and the check notices what is removed.

report 'requirements and their evidence' '' "$(python3 "$top/docs/trace.py" --check)"
report 'removals from the requirements are noticed' '' "$(python3 "$top/tests/untraced.py")"
