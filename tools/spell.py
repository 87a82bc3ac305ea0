#!/usr/bin/env python3
"""Spells the repository's own definitions and lemmas in snake case, as today's library does, in crates/, in must-fail edits and in the pages.

usage: tools/spell.py        at the top of the repository, once, behind port.py; commit first

A name is turned where a file of specs/ or proofs/ declares it. A name that a library has too stays. A lemma whose name would meet
that of a definition in some file ends in _lem. The crate unicode, which has the name of a library, becomes encoding. Types and modules keep their capitals. Functions, strings and what is run keep theirs.
"""

import collections
import os
import re

WORD = re.compile(r"[^\s(){}\[\];,.\"λ`«»:]+")
DECLARED = re.compile(r"^\s*(?:(?:pub|abbrev|unfoldable|private|opaque|data|record|codata)\s+)*([^:=→()\[\]{}]+?)(?:\s*[({][^:]*:.*)?\s+:\s")
HEAD = re.compile(r"^\s*(?:(?:pub|abbrev|unfoldable|private|opaque)\s+)*(?:data|record)\s+(\S+)")
USE = re.compile(r"^\s*(?:pub\s+|ghost\s+)*use\s+(\S+)")
TURNED = re.compile(r"\w[-·]\w|^[a-zα-ω][^\W_]*[A-Z]")


def below(*folders):
    for folder in folders:
        for d, dirs, files in os.walk(folder):
            dirs[:] = sorted(x for x in dirs if x not in ("out", "target", ".git"))
            yield from (os.path.join(d, f) for f in sorted(files))


def read(path):
    with open(path, encoding="utf-8") as f:
        return f.read()


def snake(name):
    name = re.sub(r"(?<=[a-z0-9'])([A-Z]+)(?=[A-Z][a-z]|[^a-z]|$)", lambda m: "_" + m[1].lower(), name) if name[0].islower() else name
    name = re.sub(r"(?<=[a-z0-9'])[A-Z]", lambda m: "_" + m[0].lower(), name) if name[0].islower() else name
    parts = re.split(r"[-·]", name)
    return "".join(p[:1].upper() + p[1:] for p in parts) if name[0].isupper() else "_".join(parts)


def code(line):
    """The line without its comment."""
    return re.split(r"(?:^|\s)--(?:\s|$)", line)[0]


def gathered(own):
    declared, lent, said = collections.Counter(), collections.defaultdict(set), collections.defaultdict(set)
    for path in below("crates"):
        if not path.endswith((".antt", ".rt")):
            continue
        for line in read(path).split("\n"):
            line = code(line)
            words = WORD.findall(line)
            use = USE.match(line) if path.endswith(".antt") or "ghost use" in line else None
            # a word that names something, and is no field or label behind a dot
            for w in words if use else WORD.findall(re.sub(r"(?<=\S)\.[^\s(){}\[\];,]+", "", line)):
                if use or path.endswith(".antt"):
                    said[w].add(path)
            if use:
                steps = use[1].split(".")
                if not (steps[0] == "Rattle" and steps[1] in own):
                    for w in words:
                        lent[w].add(path)
                continue
            if path.endswith(".rt") or "tie." in line:
                continue
            m = HEAD.match(line) or DECLARED.match(line + " ")
            if m:
                for w in WORD.findall(m[1]):
                    declared[w] += 1
    return declared, lent, said


def table():
    own = set(os.listdir("crates"))
    declared, lent, said = gathered(own)
    turned = {}
    for w in sorted(declared):
        if TURNED.search(w) and w not in lent and snake(w) != w:
            turned[w] = snake(w)
    # names that would fall together in one file: the lemma says that it is one
    back = collections.defaultdict(list)
    for w, new in turned.items():
        back[new].append(w)
    for new, olds in sorted(back.items()):
        both = olds + [new] * (declared[new] > 0)
        meet = [said[o] for o in both]
        if any(lent[new] & said[o] for o in olds) or any(a & b for i, a in enumerate(meet) for b in meet[:i]):
            lemmas = [o for o in both if "-" in o] or [o for o in both if not re.search(r"[a-z][A-Z]", o)] or both
            for o in lemmas:
                turned[o] = new + "_lem"
            print(f"{', '.join(o + ' -> ' + turned[o] for o in lemmas)}, beside {', '.join(o for o in both if o not in lemmas) or 'a word of the library'}")
    return turned


def respelled(text, turned, comment):
    turned = turned if comment == "--" else {w: new for w, new in turned.items() if w != snake(w)}
    aliases = set(re.findall(r"(?m)^\s*(?:pub )?use .* as (\S+)$", text))

    def word(m):
        """Behind a dot stands a field or a label, which no lemma's ending belongs to, or what a module has."""
        w, new = m[0], turned.get(m[0], m[0])
        front = re.search(r"([^\s(){}\[\];,.\"λ`«»:]+)\.$", m.string[: m.start()])
        return new if not front or new == w or front[1] in aliases or front[1][:1].isupper() else snake(w)

    def line(row):
        if row.startswith(("file: ", "name: ")):
            return row
        cut = re.search(r"(?:^|\s)" + re.escape(comment) + r"(?:\s|$)", row) if comment else None
        front, behind = (row[: cut.start()], row[cut.start() :]) if cut else (row, "")
        parts = re.split(r'("(?:[^"\\]|\\.)*")', front)
        front = "".join(p if i % 2 else WORD.sub(word, p) for i, p in enumerate(parts))
        return front + marked(behind, turned)

    return "\n".join(line(r) for r in text.split("\n"))


def marked(text, turned):
    """In running text, only between backticks, and what is in camel case anywhere."""
    text = re.sub(r"`[^`\n]+`", lambda m: WORD.sub(lambda w: turned.get(w[0], w[0]), m[0]), text)
    return WORD.sub(lambda w: turned.get(w[0], w[0]) if re.search(r"[a-z][A-Z]", w[0]) else w[0], text)


def moved(old, new):
    """A crate that has the name of a library of the kit takes another one."""
    os.rename(f"crates/{old}", f"crates/{new}")
    rows = [re.sub(rf"\b{old}\b", new, r) if not r.startswith("#") else r for r in read("crates.txt").split("\n")]
    with open("crates.txt", "w", encoding="utf-8") as f:
        f.write("\n".join(rows))
    for path in below("crates"):
        if path.endswith((".antt", ".rt", ".edit")):
            text = read(path)
            turned = re.sub(rf"\bRattle\.{old}\.", f"Rattle.{new}.", text)
            turned = re.sub(rf"\b{old}::", f"{new}::", turned)
            if turned != text:
                with open(path, "w", encoding="utf-8") as f:
                    f.write(turned)


def main():
    moved("unicode", "encoding")
    turned = table()
    n = 0
    for path in list(below("crates", "docs")) + ["README.md"]:
        if path.endswith((".antt", ".rt", ".edit")):
            new = respelled(read(path), turned, {".antt": "--", ".rt": "//"}.get(os.path.splitext(path)[1]))
        elif path.endswith(".md"):
            new = marked(read(path), turned)
        else:
            continue
        if new != read(path):
            n += 1
            with open(path, "w", encoding="utf-8") as f:
                f.write(new)
    print(f"{len(turned)} names, {n} files")


if __name__ == "__main__":
    main()
