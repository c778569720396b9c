#!/usr/bin/env python3
"""Gives the repository's own definitions, lemmas, fields and constructors today's spelling, and the crate csv another name.

usage: python3 tools/snake_names.py [TOP]      at the top of the repository, right after the toolchain's port.py

A name that a file of specs/ or proofs/ declares loses its dashes: `box-loss` becomes `box_loss`, and a type or fact that
begins with a capital becomes one camel-case word, `Has-least` `HasLeast`. Names of the toolchain's libraries and of the
goals that a check makes are not declared here, and stay. Comments and pages change only within back quotes. The crate
`csv` is named as a library of the toolchain now, so it becomes `rfc4180`.
"""

import os
import re
import subprocess
import sys

TOKEN = re.compile(r"[A-Za-zΑ-ωℕ][^\s(){}\[\].,;:`\"«»|&]*")
DASHED = re.compile(r"^[A-Za-zΑ-ω][\w']*(-[\w']+)+$")
DECLARED = re.compile(r"^\s*(?:(?:pub|abbrev|unfoldable)\s+)*(?:record\s+|data\s+|module\s+)?([A-Za-z][\w'-]*(?:\s+[A-Za-z][\w'-]*)*)\s+(?:[({:].*|)$")
OLD, NEW = "csv", "rfc4180"


def spelled(name):
    parts = name.split("-")
    if name[0].isupper():
        return "".join(p[:1].upper() + p[1:] for p in parts)
    return "_".join(parts)


def code_and_comment(line):
    """Where a line of antt has its comment, from `--` on that stands as a word."""
    m = re.search(r"(^|\s)--(\s|$)", line)
    return (line, "") if not m else (line[: m.start()], line[m.start() :])


def files(top, ends):
    for folder, dirs, names in os.walk(os.path.join(top, "crates")):
        dirs[:] = sorted(d for d in dirs if d not in ("out", ".git"))
        for n in sorted(names):
            if n.endswith(ends):
                yield os.path.join(folder, n)


def goal_names(text):
    """What a proof file answers or takes from the check's own modules: these names are the check's."""
    found = set(re.findall(r"^(?:abbrev\s+)?pub\s+(\S+)\s+: goal\.", text, re.M))
    for names in re.findall(r"^use \S+\.(?:Goals|Given)\.\{([^}]*)\}", text, re.M):
        found |= {n.strip() for n in names.split(",")}
    return found


def own_names(top):
    own, checks = set(), set()
    for path in files(top, ".antt"):
        text = open(path, encoding="utf-8").read()
        checks |= goal_names(text)
        for line in text.split("\n"):
            code, _ = code_and_comment(line)
            m = DECLARED.match(code)
            if m:
                own |= {w for w in m.group(1).split() if DASHED.match(w)}
            # names that are bound: by a let, by a λ, by brackets
            for names in re.findall(r"\blet ([A-Za-z][\w'-]*) *[:=]", code) + re.findall(r"[({]([A-Za-z][\w' -]*) :", code) + re.findall(r"λ ([A-Za-z][\w' -]*)\.", code):
                own |= {w for w in names.split() if DASHED.match(w)}
    for path in files(top, ".rt"):
        for line in open(path, encoding="utf-8").read().split("\n"):
            for names in re.findall(r"[({]([A-Za-z][\w' -]*) :", line):
                own |= {w for w in names.split() if DASHED.match(w)}
    taken = set()
    for path in files(top, (".antt", ".rt")):
        for where, names in re.findall(r"^(?:ghost )?use (\S+)\.\{([^}]*)\}", open(path, encoding="utf-8").read(), re.M):
            if where.split(".")[0] != "Rattle" or where.split(".")[1] == "std":
                taken |= {n.strip().split(" as ")[-1].strip() for n in names.split(",")}
    both = own & taken
    if both:
        print("of a library too, and left:", ", ".join(sorted(both)))
    return own - taken - checks, checks & own


def renamer(own):
    def turn(code):
        return TOKEN.sub(lambda m: spelled(m.group(0)) if m.group(0) in own else m.group(0), code)

    def quoted(text):
        return re.sub(r"`[^`\n]*`", lambda m: turn(m.group(0)), text)

    return turn, quoted


def crate_name(text):
    text = re.sub(r"\bRattle\.%s\." % OLD, "Rattle.%s." % NEW, text)
    text = re.sub(r"(?<![\w.:])%s::" % OLD, NEW + "::", text)
    return re.sub(r"crates/%s\b" % OLD, "crates/" + NEW, text)


def main(argv):
    top = argv[0] if argv else "."
    own, clash = own_names(top)
    if clash:
        print("names of goals too, and left:", ", ".join(sorted(clash)))
    turn, quoted = renamer(own)
    fallen = {}
    for n in own:
        fallen.setdefault(spelled(n), set()).add(n)
    words = {}
    for path in files(top, (".antt", ".rt")):
        crate = os.path.relpath(path, os.path.join(top, "crates")).split(os.sep)[0]
        words.setdefault(crate, set()).update(TOKEN.findall(open(path, encoding="utf-8").read()))
    for new, olds in sorted(fallen.items()):
        where = [c for c in words if new in words[c]]
        if len(olds) > 1 or where:
            print("falls together:", ", ".join(sorted(olds)), "->", new, "in", " ".join(where))
    for path in files(top, (".antt", ".rt", ".edit")):
        out = []
        for line in open(path, encoding="utf-8").read().split("\n"):
            if path.endswith(".antt"):
                code, comment = code_and_comment(line)
                out.append(turn(code) + quoted(comment))
            else:
                m = re.search(r"(^|\s)//", line)
                code, comment = (line, "") if not m else (line[: m.start()], line[m.start() :])
                parts = re.split(r'("(?:[^"\\]|\\.)*")', code)
                out.append("".join(p if i % 2 else turn(p) for i, p in enumerate(parts)) + quoted(comment))
        text = crate_name("\n".join(out))
        open(path, "w", encoding="utf-8").write(text)
    if os.path.isdir(os.path.join(top, "crates", OLD)):
        subprocess.run(["git", "mv", "crates/" + OLD, "crates/" + NEW], cwd=top, check=True)
    lists = os.path.join(top, "crates.txt")
    lines = [re.sub(r"\b%s\b" % OLD, NEW, l) if not l.startswith("#") else l for l in open(lists).read().split("\n")]
    open(lists, "w").write("\n".join(lines))
    for page in ["README.md"] + ["docs/" + f for f in sorted(os.listdir(os.path.join(top, "docs"))) if f.endswith(".md") and not f.startswith("PORT")]:
        p = os.path.join(top, page)
        text = open(p, encoding="utf-8").read()
        text = crate_name(quoted(text).replace("`%s`" % OLD, "`%s`" % NEW))
        open(p, "w", encoding="utf-8").write(text)
    print(len(own), "names")


if __name__ == "__main__":
    main(sys.argv[1:])
