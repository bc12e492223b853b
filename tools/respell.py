#!/usr/bin/env python3
"""Brings the repository's own definitions and lemmas to snake case, after the kit's scripts have run.

usage: python3 tools/respell.py        once, at the top of the repository

tools/respell.tsv has a line for each name: the old one, a tab, the new one. In proofs and definitions each name is respelled, comments
aside but for names in camel case; in code and edits those in camel case alone, which are names of definitions there.
"""

import os
import re

HERE = os.path.dirname(os.path.realpath(__file__))
TOP = os.path.dirname(HERE)
NAME = re.compile(r"(?<![\w'-])\+?[A-Za-z_][\w'-]*")
# in these files a new name would fall together with another one
HERE_ALONE = {
    "crates/answer/proofs/Steps.antt": {"no_table": "without_table"},
    "crates/answer/proofs/addr_code/Proof.antt": {"no_table": "without_table"},
}
LOCAL = ["map-secure", "map-data", "map-insecure", "unmap-data", "init-table", "spare-table"]
for name in ("promises/proofs/Written.antt", "promises/proofs/Shut/Unread.antt"):
    HERE_ALONE["crates/" + name] = {n: n.replace("-", "_") + "_lem" for n in LOCAL}


def table():
    with open(os.path.join(HERE, "respell.tsv"), encoding="utf-8") as f:
        return dict(line.rstrip("\n").split("\t") for line in f)


def respelled(text, names):
    return NAME.sub(lambda m: names.get(m.group(0), m.group(0)), text)


def antt(text, names, camel):
    lines = []
    for line in text.split("\n"):
        code, mark, comment = line.partition("--")
        lines.append(respelled(code, names) + mark + respelled(comment, camel))
    return "\n".join(lines)


def main():
    names = table()
    camel = {o: n for o, n in names.items() if "-" not in o}
    for folder, dirs, files in os.walk(TOP):
        dirs[:] = [d for d in dirs if d not in ("out", ".git", "target", "tools", "rust")]
        for name in files:
            path = os.path.join(folder, name)
            at = os.path.relpath(path, TOP)
            if not name.endswith((".antt", ".rt", ".edit")):
                continue
            with open(path, encoding="utf-8") as f:
                text = f.read()
            own = names | HERE_ALONE.get(at, {})
            edits_antt = name.endswith(".edit") and re.search(r"(?m)^file: (specs|proofs)/", text)
            new = antt(text, own, camel) if name.endswith(".antt") or edits_antt else respelled(text, camel)
            if new != text:
                with open(path, "w", encoding="utf-8") as f:
                    f.write(new)


main()
