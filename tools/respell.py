#!/usr/bin/env python3
"""Respells the repository's own definitions and lemmas: words in snake case, types and modules in camel case.

usage: tools/respell.py [FOLDER]

FOLDER is the top of a repository that /opt/rattle/port/port.py has just turned (here, if none is given). The list of old
and new names is respell.tsv beside this file. Names of functions, of exported C symbols and in strings stay. A lemma that
would have the name of a definition ends in '_lem'. Run it once.
"""
import os
import re
import sys

HERE = os.path.dirname(os.path.abspath(__file__))
WORD = r"[^\s(){}.;,@\"«»\[\]\\`]+"


def table():
    """The names to respell, and with them those that port.py respelled, which stand unturned in edits and documents."""
    with open(os.path.join(HERE, "respell.tsv"), encoding="utf-8") as f:
        rows = [line.rstrip("\n").split("\t") for line in f if line.strip()]
    own = {row[0]: row[1] for row in rows if len(row) == 2}
    return own, {**{row[0]: row[1] for row in rows}, **own}


def plain(name):
    return "-" not in name and name == name.lower()


def turned(text, names, antt):
    """The text of code, clauses or proofs with the names respelled."""
    out, at = [], 0
    for m in re.finditer(WORD, text):
        word = m.group(0)
        if word not in names or (plain(word) and not antt):
            continue
        new = names[word]
        if m.start() and text[m.start() - 1] == ".":
            above = re.search("(" + WORD + r")\.$", text[: m.start()])
            module = above and above.group(1)[:1].isupper()
            if not module:
                if plain(word):
                    continue
                # a name that is made of a function's name
                if new.endswith("_lem") and "-" in word:
                    new = word.replace("-", "_")
        out.append(text[at : m.start()])
        out.append(new)
        at = m.end()
    out.append(text[at:])
    return "".join(out)


def comment(text, names):
    """A comment: names in backquotes, and camel names anywhere."""
    quoted = lambda m: "`" + turned(m.group(1), names, False) + "`"
    text = re.sub("`([^`]*)`", quoted, text)
    camel = {o: n for o, n in names.items() if re.fullmatch(r"[a-z]+\d*(?:[A-Z]\w*)+", o)}
    return re.sub(r"[A-Za-z]\w*", lambda m: camel.get(m.group(0), m.group(0)), text)


def code(text, names, mark, antt):
    lines = []
    for line in text.split("\n"):
        cut = re.search(r'(?:^|\s)' + re.escape(mark) + r"(?:\s|$)", line)
        if cut and line[: cut.start()].count('"') % 2 == 0:
            lines.append(turned(line[: cut.start()], names, antt) + comment(line[cut.start() :], names))
        else:
            lines.append(turned(line, names, antt))
    return "\n".join(lines)


def edit(text, names):
    lines = []
    for line in text.split("\n"):
        head = re.match(r"(old: |new: )(.*)$", line)
        if head:
            lines.append(head.group(1) + turned(head.group(2), names, "antt" in text))
        else:
            lines.append(comment(line, names) if line.startswith("#") else line)
    return "\n".join(lines)


def files(top, *folders):
    for folder in folders:
        for above, below, names in os.walk(os.path.join(top, folder)):
            below[:] = sorted(d for d in below if d not in ("out", "target"))
            yield from (os.path.join(above, n) for n in sorted(names))


def main():
    top = sys.argv[1] if len(sys.argv) > 1 else "."
    own, every = table()
    for path in [*files(top, "crates", "docs", "tools"), os.path.join(top, "README.md")]:
        kind = os.path.splitext(path)[1]
        if kind not in (".antt", ".rt", ".edit", ".md"):
            continue
        with open(path, encoding="utf-8", newline="") as f:
            text = f.read()
        if kind == ".antt":
            new = code(text, own, "--", True)
        elif kind == ".rt":
            new = code(text, own, "//", False)
        elif kind == ".edit":
            new = edit(text, every)
        else:
            new = re.sub("`([^`\n]*)`", lambda m: "`" + turned(m.group(1), every, False) + "`", text)
        if new != text:
            with open(path, "w", encoding="utf-8", newline="") as f:
                f.write(new)


if __name__ == "__main__":
    main()
