#!/usr/bin/env python3
"""Writes a TextMate grammar in the format that bat and Sublime Text read: `sublime.py talft | talft-asm`."""
import json
import os
import sys

kind = sys.argv[1]
with open(os.path.join(os.path.dirname(__file__), f"vscode/{kind}.tmLanguage.json"), encoding="utf-8") as file:
    grammar = json.load(file)
print("%YAML 1.2\n---")
print(f"# Made by editors/sublime.py from editors/vscode/{kind}.tmLanguage.json.")
print(f"name: {grammar['name']}")
# Other languages use the same file extensions, so the first line decides, or a setting of the project.
print("file_extensions: []")
print(f"first_line_match: '{grammar['firstLineMatch']}'")
print(f"scope: {grammar['scopeName']}")
print("contexts:\n  main:")
for pattern in grammar["patterns"]:
    print(f"    - match: '{pattern['match']}'\n      scope: {pattern['name']}")
