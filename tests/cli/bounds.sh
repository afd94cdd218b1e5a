# What campaigns over samples say about all faults, with bounds by class of site; and verdicts kept in SQLite.

report 'the bounds' '' "$(python3 "$top/tests/bounds.py")"
mkdir bounds
cp "$top/examples/five.obj" bounds
cd bounds
"$top/tools/faults" five.obj --flip all --sample 500 --seed 3 --about sample >some 2>said
"$top/tools/faults" five.obj --flip all --sites d,pcg --about whole >every 2>said
report 'the same list with --about' '' "$("$top/tools/faults" five.obj --flip all --sample 500 --seed 3 2>said | cmp - some)"
"$top/tools/campaign" five.obj --faults some --steps 100 --dir one --about sample --database all.db >lines 2>said
report 'the message about a sample' \
  "talft-campaign: sampled: 500 of the 60288 faults of \`talft-faults five.obj --flip all --sample 500 --seed 3\`; in brackets, \
upper bounds on the shares at 95 % confidence (Clopper and Pearson)" "$(grep sampled said)"
# 1 - 0.05^(1/500) is 0.00597.
report 'the bound for 0 of 500' 'corrupt 0 (0.597 %)' "$(sed -n 's/^talft-campaign:   all .*, \(corrupt .*\)/\1/p' said)"
report 'the lines with a database' '' "$("$top/tools/campaign" five.obj --faults some --steps 100 --dir two 2>said | cmp - lines)"
"$top/tools/campaign" five.obj --faults every --steps 100 --dir three --about whole --database all.db >lines 2>said
report 'the message about all faults' \
  'talft-campaign: exhaustive: all 1792 faults of `talft-faults five.obj --flip all --sites d,pcg` were tried' \
  "$(grep exhaustive said)"
report 'bounds of all faults' 0 "$(grep -c '%' said)"
"$top/tools/campaign" five.obj --faults every --steps 100 --dir three --about whole --database all.db >lines 2>said
asked() { python3 -c 'import sqlite3, sys; print(*(row[0] for row in sqlite3.connect(sys.argv[1]).execute(sys.argv[2])))' all.db "$1"; }
report 'the verdicts in the database' '500 1792' "$(asked 'select count(*) from verdict group by campaign order by campaign')"
report 'the totals in the database' "$(tail -n 1 lines | sed 's/faults \(.*\) masked \(.*\) detected \(.*\) idle .*/\3 \2/')" \
  "$(asked "select count(*) from verdict join campaign on id = campaign where sampled = 0 group by verdict order by verdict")"
report 'the lines in the database' "$(head -n -1 lines | cut -d' ' -f1 | md5sum)" \
  "$(asked "select step || ':' || site || ':' || word from verdict join campaign on id = campaign where sampled = 0 order by number" |
    tr ' ' '\n' | md5sum)"
cd ..
refuses '--about for another list' 'talft-campaign: bounds/sample: describes 500 faults, but bounds/every has 1792' \
  campaign bounds/five.obj --faults bounds/every --steps 100 --dir bounds/four --about bounds/sample
refuses '--about with another file' 'talft-campaign: bounds/some: is not a file that `talft-faults --about` wrote' \
  campaign bounds/five.obj --faults bounds/some --steps 100 --dir bounds/four --about bounds/some
