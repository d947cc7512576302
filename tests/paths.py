#!/usr/bin/env python3
"""paths.py: what README.md and docs/ name by its path is there. A path stands in backticks and begins with a folder of the repository's top or of
crates/. In the table 'Where is it' a bare name of a file is one beside the path before it, and each name behind a path stands in that file. The last
line is `N passed, M failed`."""
import os
import re

TOP = os.path.dirname(os.path.dirname(os.path.abspath(__file__)))
BASES = TOP, f"{TOP}/crates"
IS_FILE = re.compile(r"[\w./-]+\.(rt|antt|md|sh|py|json|jsonl)")
IS_NAME = re.compile(r"[A-Za-z_]+")


def places(path, beside):
    """Where the file or folder of a path may stand: nowhere, if it is no path of ours."""
    if "NAME" in path:
        return []
    if "/" in path:
        return [f"{base}/{path}" for base in BASES if os.path.isdir(f"{base}/{path.split('/')[0]}")]
    return [f"{beside}/{path}"] if beside and IS_FILE.fullmatch(path) else []


def judged(cell, is_rule):
    """Of each path of a cell, and of each name behind one, what it is and whether it is there."""
    file, beside = None, None
    for word in re.findall(r"`([^` ]+)`", cell):
        found = places(word, beside)
        if found:
            file = next(filter(os.path.exists, found), None)
            beside = os.path.dirname(file) if file and is_rule else beside
            yield word, file is not None
        elif is_rule and file and os.path.isfile(file) and IS_NAME.fullmatch(word):
            with open(file, encoding="utf-8") as it:
                yield f"{word} of {os.path.relpath(file, TOP)}", re.search(rf"\b{word}\b", it.read()) is not None


def main():
    passed = failed = 0
    for name in ["README.md", *(f"docs/{it}" for it in sorted(os.listdir(f"{TOP}/docs")))]:
        with open(f"{TOP}/{name}", encoding="utf-8") as it:
            lines = it.read().splitlines()
        cells = [(cell, line.startswith("| **")) for line in lines for cell in line.strip("|").split(" | ")]
        for what, is_there in (it for cell in cells for it in judged(*cell)):
            passed += is_there
            failed += not is_there
            if not is_there:
                print(f"FAILED {name}: {what} is not there")
    print(f"{passed} passed, {failed} failed")


main()
