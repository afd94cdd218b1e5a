# Compiled objects whose cells begin with other words, against what their sources mean with these words. tests/long.sh
# has more of them.

report 'other words in the objects of random sources' '100 sources: 0 differ' \
  "$(python3 -B "$top/tests/meaning/other_words.py" "$top/crates/talft/out/talft" 2>&1 | grep -v '^seed [0-9]*: ')"
