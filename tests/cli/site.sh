# The site of the documents: it is made, its links resolve, it loads nothing from elsewhere, and a browser can search it.

if has pandoc 'the site of the documents'; then
  said=$(python3 "$top/build/site.py" site 2>&1; printf '/%d' $?)
  report 'the site is made' "site: made $(find site -name '*.html' ! -name report.html | wc -l) pages: open site/index.html"$'\n/0' "$said"
  report 'links of the site that lead nowhere' '' "$(python3 "$top/tests/site.py" site | sed '$d')"
  report 'a folder with files is left alone' '/1' "$(python3 "$top/build/site.py" site 2>/dev/null; printf '/%d' $?)"
  for browser in chromium chromium-browser google-chrome; do command -v $browser >/dev/null && break; done
  if has $browser 'the site in a browser'; then
    {
      echo 'box.value="premise 13";box.oninput();String(found.children.length>0)'
      echo '[...found.querySelectorAll("a")].some(a=>a.href.includes("typing.html"))?"typing":"no typing"'
      echo 'box.value="nosuchword";box.oninput();String(found.children.length)'
      echo 'document.querySelectorAll("nav a").length>25?"menu":"no menu"'
      echo '[...document.images].every(i=>i.complete&&i.naturalWidth>0)?"pictures":"no pictures"'
    } | timeout 100 python3 "$top/tests/browser.py" site/index.html >browsed 2>errors
    # At 1,280 pixels nothing is cut at its right. On a phone the text begins at the top, the menu opens by its button, and
    # only tables and drawings are wider than the screen: they scroll by themselves.
    cat >asked <<'END'
width 1280
[...document.querySelectorAll("pre,table")].filter(e=>e.scrollWidth>e.clientWidth+1).length+" cut, "+(document.documentElement.scrollWidth<=innerWidth)
width 390
[...document.querySelectorAll("pre:not(.drawing)")].filter(e=>e.scrollWidth>e.clientWidth+1).length+" cut, "+(document.documentElement.scrollWidth<=innerWidth)
String(document.querySelector("main").getBoundingClientRect().top<80)
document.querySelector("nav label").click(),String(document.querySelector("nav ul a").checkVisibility())
END
    for page in index c guide trace trace-page manual/talft.1; do
      report "the page $page at 1,280 and 390 pixels" '0 cut, true|0 cut, true|true|true|0 errors' \
        "$(timeout 100 python3 "$top/tests/browser.py" "site/$page.html" <asked 2>&1 | paste -sd '|')"
    done
    report 'the site in a browser' $'true\ntyping\n0\nmenu\npictures\n0 errors' "$(cat browsed errors)"
  fi
fi
