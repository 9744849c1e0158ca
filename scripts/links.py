#!/usr/bin/env python3
"""Ends with status 1 if a link of a page leads nowhere: to a file that isn't there, or to a heading that a page lacks."""
import os
import re
import subprocess
import sys

from definitions import TOP

LINK = re.compile(r"\]\(([^()\s]+)\)")
CODE = re.compile(r"(?ms)^```.*?^```$")


def text_of(path):
    with open(path, encoding="utf-8") as page:
        return CODE.sub("", page.read())


def anchors(text):
    """Returns the anchors of a page's headings; a heading that is there again has a number too."""
    found, seen = set(), {}
    for head in re.findall(r"(?m)^#+ (.*)$", text):
        name = re.sub(r"[^\w\- ]", "", re.sub(r"\]\([^)]*\)", "]", head).lower()).replace(" ", "-")
        found.add(f"{name}-{seen[name]}" if name in seen else name)
        seen[name] = seen.get(name, 0) + 1
    return found


def broken(pages):
    """Returns the page and the text of each link that leads nowhere."""
    known = {}
    for page in pages:
        for link in LINK.findall(text_of(page)):
            if re.match(r"\w+:", link):
                continue
            there, _, at = link.partition("#")
            to = os.path.normpath(os.path.join(os.path.dirname(page), there)) if there else page
            if not os.path.exists(to):
                yield page, link
            elif at and to.endswith(".md"):
                if to not in known:
                    known[to] = anchors(text_of(to))
                if at not in known[to]:
                    yield page, link


def main():
    files = subprocess.run(["git", "ls-files", "*.md"], cwd=TOP, capture_output=True, text=True, check=True).stdout.split()
    pages = [os.path.join(TOP, it) for it in files if os.path.exists(os.path.join(TOP, it))]
    found = list(broken(pages))
    for page, link in found:
        print(f"{os.path.relpath(page, TOP)}: {link} leads nowhere")
    return 1 if found else 0


if __name__ == "__main__":
    sys.exit(main())
