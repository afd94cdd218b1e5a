#!/usr/bin/env python3
"""Makes a site from the documents, the manual pages, the trace and an example's report: `build/site.py FOLDER`.

The pages load nothing but the site's own style sheet, scripts and pictures. It needs pandoc; the report of an example
needs the built program and gnuplot, and is left out without them.
"""
import html
import json
import os
import re
import shutil
import subprocess
import sys

TOP = os.path.dirname(os.path.dirname(os.path.abspath(__file__)))
READERS = {
    "Use it": ["GUIDE", "C", "COMMANDS", "DEBUGGING", "TOOLS", "EMBEDDING", "LIMITS", "SPEED"],
    "Believe it": ["PROMISES", "TRACE", "READING", "QUALIFICATION", "KNOWN", "RELEASES"],
    "The rules": ["MACHINE", "TYPING", "OBJECT_FORMAT", "SOURCE_LANGUAGE", "ASSEMBLY", "LINKING", "SCHEDULING", "COMPILER", "FLOWS"],
    "Change it": ["ARCHITECTURE", "CRATES", "CHANGING", "PROVING", "DECISIONS"],
}
BESIDE = {"README.md": "index.html", "SECURITY.md": "security.html", "CHANGELOG.md": "changelog.html", "examples/README.md": "examples.html"}

INLINE = r"</?(?:code|em|strong|a|span)\b[^>]*>"

STYLE = """:root{color-scheme:light dark;--line:#8885;--soft:#8881;--link:light-dark(#0b57a4,#8ab8ff)}
body{font:16px/1.55 system-ui,sans-serif;margin:0;display:grid;grid-template-columns:15rem minmax(0,60rem);gap:2rem;padding:1rem 1.5rem}
.wide body{grid-template-columns:15rem minmax(0,1fr)}.wide table{display:table;table-layout:fixed;width:100%}
.wide td,.wide th{font-size:12px;padding:.2rem .3rem}.wide td code{overflow-wrap:anywhere}.wide th:nth-child(1){width:3.6rem}
.wide th:nth-child(2){width:22%}#filter{font:inherit;width:100%;max-width:30rem}
nav{position:sticky;top:1rem;align-self:start;max-height:95vh;overflow:auto;font-size:.92rem}nav h2{font-size:.95rem;margin:1rem 0 .2rem}
nav ul{list-style:none;margin:0;padding:0}nav [aria-current]{font-weight:bold}a{color:var(--link)}
#menu,nav label{display:none}
main{overflow-wrap:break-word}pre{background:var(--soft);padding:.7rem;overflow:auto;font-size:13px;line-height:1.45;
white-space:pre-wrap;overflow-wrap:anywhere}pre.drawing{white-space:pre}code{font-size:.92em}pre code{font-size:1em}
table{border-collapse:collapse;display:block;overflow-x:auto;margin:1rem 0}
td,th{border:1px solid var(--line);padding:.25rem .5rem;vertical-align:top;text-align:left}
blockquote{border-left:4px solid var(--line);margin-left:0;padding-left:1rem}
blockquote:has(>pre:only-child){border:0;padding:0}img{max-width:100%;background:#fff}
nav input[type=search]{font:inherit;width:100%;box-sizing:border-box}#found{font-size:.9rem;padding-left:1.7rem}
@media(max-width:50rem){body,.wide body{display:block;padding:.7rem 1rem}nav{position:static;max-height:none}
nav label{display:inline-block;float:right;padding:0 .6rem;border:1px solid var(--line);border-radius:4px;cursor:pointer}
#menu{display:inline-block;position:absolute;opacity:0}#menu:focus-visible+label{outline:2px solid}
#menu:not(:checked)~*:not(.home):not(label){display:none}
pre{font-size:12px}.wide table{display:block}.wide td{min-width:6rem}}
"""
SCRIPT = """const box=document.getElementById("search"),found=document.getElementById("found");
const root=document.documentElement.dataset.root;
box.oninput=()=>{const words=box.value.toLowerCase().split(/\\s+/).filter(Boolean);found.replaceChildren();
if(!words.length)return;
const hits=INDEX.map(e=>[e,words.reduce((s,w)=>s+(e.t.toLowerCase().includes(w)?5:0)+(e.b.toLowerCase().includes(w)?1:-100),0)])
.filter(h=>h[1]>0).sort((a,b)=>b[1]-a[1]).slice(0,12);
for(const[e]of hits){const a=document.createElement("a"),li=document.createElement("li");a.href=root+e.u;a.textContent=e.t;
li.append(a);found.append(li)}};
"""


def read(path):
    with open(os.path.join(TOP, path), encoding="utf-8") as file:
        return file.read()


def body_of(text, kind):
    """A document as the HTML inside a page."""
    # The headings of a manual page are below the title that its page gets.
    words = ["pandoc", "-f", kind, "-t", "html", "--wrap=none", *(["--shift-heading-level-by=1"] if kind == "man" else [])]
    return subprocess.run(words, input=text, capture_output=True, text=True, check=True).stdout


def fitted(body):
    """A page's HTML so that nothing is cut at its right: long names in tables may be broken after their signs, and only
    drawings keep their lines."""
    def code(match):
        return match.group(0) if len(match.group(1)) < 24 else "<code>" + re.sub("([/_.:])", r"\1<wbr>", match.group(1)) + "</code>"

    def table(match):
        return re.sub(r"<code>([^<]*)</code>", code, match.group(0))

    def box(match):
        kind = ' class="drawing"' if re.search(r"[\u2500-\u25ff]", html.unescape(match.group(2))) else match.group(1)
        return f"<pre{kind}>{match.group(2)}</pre>"
    body = re.sub(r"<table.*?</table>", table, body, flags=re.S)
    return re.sub(r"<pre([^>]*)>(.*?)</pre>", box, body, flags=re.S)


def title_of(text):
    found = re.search(r"^# (.*)$", text, re.M)
    return found.group(1).replace("`", "") if found else ""


class Site:
    """The pages, by name, and the search index."""

    def __init__(self, folder):
        self.folder, self.index, self.count = folder, [], 0
        self.pages = dict(BESIDE)
        for name in sorted(os.listdir(os.path.join(TOP, "docs"))):
            if name.endswith(".md"):
                self.pages[f"docs/{name}"] = name[:-3].lower() + ".html"
        self.titles = {path: title_of(read(path)) for path in self.pages}
        self.manual = sorted(name for name in os.listdir(os.path.join(TOP, "man")) if re.search(r"\.[1357]$", name))

    def write(self, path, data):
        path = os.path.join(self.folder, path)
        os.makedirs(os.path.dirname(path), exist_ok=True)
        with open(path, "w", encoding="utf-8") as file:
            file.write(data)

    def target(self, path, place, root):
        """Where a link in a document leads: to a page, to a copy of a file, or nowhere (None)."""
        name, _, heading = place.partition("#")
        where = os.path.normpath(os.path.join(os.path.dirname(path), name)) if name else path
        heading = f"#{heading}" if heading else ""
        if where in self.pages:
            return root + self.pages[where] + heading if name else heading
        if not os.path.isfile(os.path.join(TOP, where)):
            return None
        to = os.path.join(self.folder, "files", where)
        os.makedirs(os.path.dirname(to), exist_ok=True)
        shutil.copyfile(os.path.join(TOP, where), to)
        return f"{root}files/{where}"

    def relinked(self, path, body, root):
        def link(match):
            kind, place = match.group(1), html.unescape(match.group(2))
            if re.match(r"\w+:", place):
                return match.group(0)
            to = self.target(path, place, root)
            return f'{kind}="{html.escape(to)}"' if to else f'data-file="{html.escape(place)}"'
        return re.sub(r'\b(href|src)="([^"]*)"', link, body)

    def menu(self, here, root):
        def item(to, text):
            current = ' aria-current="page"' if to == here else ""
            return f'<li><a href="{root}{to}"{current}>{html.escape(text)}</a></li>'
        # On a narrow screen only the name and the button are shown, until the button is pressed.
        parts = [f'<a class="home" href="{root}index.html"><b>talft</b></a>', '<input type="checkbox" id="menu">',
                 '<label for="menu">Menu</label>', '<input type="search" id="search" placeholder="search" aria-label="search">',
                 '<ol id="found"></ol>']
        for reader, names in READERS.items():
            rows = [item(self.pages[f"docs/{name}.md"], self.titles[f"docs/{name}.md"]) for name in names]
            parts.append(f"<h2>{reader}</h2><ul>{''.join(rows)}</ul>")
        rows = [item(page, self.titles[path]) for path, page in BESIDE.items() if page != "index.html"]
        parts.append(f"<h2>More</h2><ul>{''.join(rows)}{item('manual/index.html', 'Manual pages')}{item('trace-page.html', 'Searchable trace')}"
                     f"{item('report.html', 'A report') if os.path.exists(os.path.join(self.folder, 'report.html')) else ''}</ul>")
        return "\n".join(parts)

    def page(self, to, title, body, wide=False):
        root = "../" * to.count("/")
        if not wide:
            self.note(to, title, body)
        body = fitted(body)
        kind = ' class="wide"' if wide else ""
        self.count += 1
        self.write(to, f'<!DOCTYPE html>\n<html lang="en"{kind} data-root="{root}"><meta charset="utf-8">'
                   f'<meta name="viewport" content="width=device-width"><title>{html.escape(title)}</title>'
                   f'<link rel="stylesheet" href="{root}style.css">\n<nav>{self.menu(to, root)}</nav>\n<main>{body}</main>\n'
                   f'<script src="{root}index.js"></script><script src="{root}search.js"></script></html>\n')

    def note(self, to, title, body):
        """Adds each chapter of a page to the search index."""
        parts = re.split(r'<h([1-4])(?: id="([^"]*)")?[^>]*>(.*?)</h\1>', body, flags=re.S)
        plain = lambda text: re.sub(r"\s+", " ", html.unescape(re.sub(r"<[^>]*>", " ", re.sub(INLINE, "", text)))).strip()
        for at in range(1, len(parts), 4):
            heading, place = plain(parts[at + 2]), f"#{parts[at + 1]}" if parts[at + 1] else ""
            name = heading if heading == title else f"{title}: {heading}"
            self.index.append({"u": to + place, "t": name, "b": f"{name} {plain(parts[at + 3])}"})

    def make(self):
        self.report()
        for path, to in self.pages.items():
            self.page(to, self.titles[path], self.relinked(path, body_of(read(path), "gfm"), ""))
        rows = []
        for name in self.manual:
            body = body_of(read(f"man/{name}"), "man")
            shown = f"{name[:-2]}({name[-1]})"
            self.page(f"manual/{name}.html", shown, f"<h1>{shown}</h1>{body}")
            rows.append(f'<li><a href="{name}.html">{shown}</a></li>')
        self.page("manual/index.html", "Manual pages", f'<h1>Manual pages</h1><ul>{"".join(rows)}</ul>')
        self.trace()
        self.write("style.css", STYLE)
        self.write("search.js", SCRIPT)
        self.write("index.js", f"const INDEX={json.dumps(self.index, ensure_ascii=False)};\n")

    def trace(self):
        """The searchable trace, with the menu."""
        path = os.path.join(self.folder, "trace-page.html")
        subprocess.run([sys.executable, os.path.join(TOP, "docs/trace.py"), "--page", path], check=True)
        with open(path, encoding="utf-8") as file:
            body = file.read().partition("</style>")[2].replace("</html>", "")
        self.page("trace-page.html", "Searchable trace", body, wide=True)

    def report(self):
        """Makes the report of a campaign on an example, if the program is built and gnuplot is installed."""
        program = os.path.join(TOP, "crates/talft/out/talft")
        if not os.access(program, os.X_OK) or not shutil.which("gnuplot"):
            return
        source, work = os.path.join(TOP, "examples/fibonacci.src"), os.path.join(self.folder, "work")
        os.makedirs(work)
        talft, env = os.path.join(TOP, "talft"), {**os.environ, "TALFT_EXPLAIN": "0"}

        def run(to, *words):
            with open(os.path.join(work, to), "wb") as out, open(os.path.join(work, "said"), "wb") as said:
                subprocess.run(words, cwd=work, stdout=out, stderr=said, check=True, env=env)
        run("fibonacci.obj", talft, "compile", source)
        run("faults", os.path.join(TOP, "tools/faults"), "fibonacci.obj", "--sample", "1000")
        run("lines", talft, "campaign", "fibonacci.obj", "--faults", "faults")
        run("written", os.path.join(TOP, "tools/report"), "lines", "--object", "fibonacci.obj", "--source", source,
            "--out", os.path.join(self.folder, "report.html"))
        shutil.rmtree(work)


def main(words):
    if len(words) != 1:
        sys.exit(__doc__)
    if not shutil.which("pandoc"):
        sys.exit("site: error: pandoc is missing: install it (Debian: pandoc)")
    if os.path.exists(words[0]) and os.listdir(words[0]):
        sys.exit(f"site: error: {words[0]} exists already and is not empty")
    os.makedirs(words[0], exist_ok=True)
    site = Site(os.path.abspath(words[0]))
    site.make()
    print(f"site: made {site.count} pages: open {os.path.join(words[0], 'index.html')}")


if __name__ == "__main__":
    main(sys.argv[1:])
