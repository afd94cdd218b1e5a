#!/usr/bin/env python3
"""Checks a site made by `make site`: `tests/site.py FOLDER` writes each link that leads nowhere, each page without a title, and
each script, style sheet or picture that is loaded from elsewhere. The last line counts the pages and the links.
"""
import html.parser
import os
import sys
import urllib.parse


class Page(html.parser.HTMLParser):
    """The links of a page, and the places in it that links can name."""

    def __init__(self, path):
        super().__init__()
        self.links, self.loads, self.places, self.titles = [], [], set(), 0
        with open(path, encoding="utf-8") as file:
            self.feed(file.read())

    def handle_starttag(self, tag, attrs):
        given = dict(attrs)
        self.titles += tag == "title"
        self.places |= {given[name] for name in ("id", "name") if given.get(name)}
        if tag == "a" and given.get("href"):
            self.links.append(given["href"])
        for name in ("src", "href"):
            if tag in ("script", "img", "link", "iframe") and given.get(name):
                self.loads.append(given[name])


def main(folder):
    pages = {}
    for at, _, names in os.walk(folder):
        for name in names:
            if name.endswith(".html"):
                path = os.path.join(at, name)
                pages[os.path.relpath(path, folder)] = Page(path)
    count = 0
    for path, page in sorted(pages.items()):
        if page.titles != 1:
            print(f"{path}: {page.titles} titles")
        for place in page.loads:
            if not place.startswith("data:") and urllib.parse.urlsplit(place).scheme:
                print(f"{path}: loads {place[:60]} from elsewhere")
        for place in page.links + [place for place in page.loads if not place.startswith("data:")]:
            parts = urllib.parse.urlsplit(place)
            if parts.scheme or parts.netloc:
                continue
            count += 1
            to = os.path.normpath(os.path.join(os.path.dirname(path), urllib.parse.unquote(parts.path))) if parts.path else path
            if not os.path.isfile(os.path.join(folder, to)):
                print(f"{path}: {place} leads nowhere")
            elif parts.fragment and to in pages and urllib.parse.unquote(parts.fragment) not in pages[to].places:
                print(f"{path}: {place} names no place of {to}")
    print(f"{len(pages)} pages, {count} links")


if __name__ == "__main__":
    main(sys.argv[1])
