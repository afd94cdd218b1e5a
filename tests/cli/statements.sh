# Each lemma is stated once: no two proof files state the same. Proofs fit into 120 columns.

report 'statements that occur in more than one file' '' "$(python3 "$top/tests/statements.py")"
report 'lines of proofs that are too long' '' "$(python3 "$top/tests/columns.py")"
