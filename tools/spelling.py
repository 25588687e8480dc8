#!/usr/bin/env python3
"""Spells the repository's own names of antt in snake case, by the rows of spelling.tsv beside this file.

usage: tools/spelling.py [ROOT]     in a checkout that port.py has turned; it was run once, for the port, and a second run changes nothing

A row is a name, a tab and its new spelling. A lemma that would have met a definition ends in `_law`. What turns: the code of .antt files, and the clauses
and `ghost use` items of .rt files; of comments, what stands between backquotes and names in camel case. Functions of src/, exported C names and strings keep
their names. Behind a dot a name with dashes is a step of a proof and stays, unless a record of the repository has it as a field or the name before the dot
is a module's.
"""
import os
import re
import sys

WORD = re.compile(r'[^\s(){}\[\].;,@"«»`]+')
ANTT_QUIET = re.compile(r'"(?:[^"\\\n]|\\.)*"|(?<![^\s(){}.;,@"«»])--[^\n]*|\{-.*?-\}', re.S)
RT_QUIET = re.compile(r"\"(?:[^\"\\\n]|\\.)*\"|//[^\n]*|b?'(?:[^'\\\n]|\\.)'")
BLOCK = re.compile(r"(?<![^\s(){};,])(?:where|do|let|mutual|λ \S+\.) +(?=\S)")
SPAN = re.compile(r"`[^`\n]*`")
AS = re.compile(r"(?<![^\s{,])([^\s(){}.;,@]+) as ([^\s(){}.;,@]+)")
MODULE_AS = re.compile(r"^ *(?:pub |ghost )*use [^\s;{]+ as ([^\s;]+)", re.M)
CAMEL = re.compile(r"[a-z0-9₀-₉][A-Z]")


def rows(path):
    """The rows by kind: those of every name, and those of lemmas that stand bare in antt's code alone."""
    every, lemmas, fields = {}, {}, set()
    with open(path, encoding="utf-8") as it:
        for line in it:
            old, new, *kind = line.rstrip("\n").split("\t")
            (lemmas if kind == ["lemma"] else every)[old] = new
            if kind == ["field"]:
                fields.add(old)
    return every, lemmas, fields


def between(pattern, text, inside, outside):
    out, at = [], 0
    for m in pattern.finditer(text):
        out += [outside(text[at : m.start()]), inside(m[0])]
        at = m.end()
    return "".join(out + [outside(text[at:])])


def turned(text, antt, tables):
    every, lemmas, fields = tables
    modules = set(MODULE_AS.findall(text))

    def word(m):
        w, at = m[0], m.start()
        before = m.string[:at]
        dotted = before.endswith(".") and not before.endswith("..")
        if antt and not dotted and w in lemmas and m.string[m.end() : m.end() + 1] != ".":
            return lemmas[w]
        if w not in every:
            return w
        if dotted and not CAMEL.search(w) and w not in fields:
            head = WORD.findall(before[:-1])[-1:]
            return every[w] if head and head[0] in modules and not before[: -1 - len(head[0])].endswith(".") else w
        return every[w]

    def code(t):
        t = WORD.sub(word, t)
        return AS.sub(lambda m: m[1] if m[1] == m[2] else m[0], t)

    def comment(t):
        if t[0] == '"' or t[0] == "'" or t[:2] == "b'":
            return t
        bare = lambda s: WORD.sub(lambda m: every.get(m[0], m[0]) if CAMEL.search(m[0]) else m[0], s)
        return between(SPAN, t, lambda s: WORD.sub(lambda m: every.get(m[0], m[0]), s), bare)

    return between(ANTT_QUIET if antt else RT_QUIET, text, comment, code)


def realigned(old, new):
    """The new text, in which the later lines of a block stand under its first item again."""
    blank = lambda t: ANTT_QUIET.sub(lambda m: re.sub(r"[^\n]", " ", m[0]), t).split("\n")
    was, now, lines = blank(old), blank(new), new.split("\n")
    by = [0] * len(lines)
    for row, (a, b) in enumerate(zip(was, now)):
        for x, y in zip(BLOCK.finditer(a), BLOCK.finditer(b)) if a != b else ():
            below = row + 1
            while x.end() != y.end() and below < len(was):
                if was[below].strip() and was[below][: x.end()].strip():
                    break
                by[below] += (y.end() - x.end()) * bool(was[below].strip())
                below += 1
    return "\n".join(" " * n + line if n >= 0 else line[-n:] for n, line in zip(by, lines))


def main(argv):
    root = argv[0] if argv else "."
    tables = rows(os.path.join(os.path.dirname(os.path.realpath(__file__)), "spelling.tsv"))
    count = 0
    for folder, folders, files in os.walk(os.path.join(root, "crates")):
        folders[:] = sorted(f for f in folders if f not in ("out", "must-fail"))
        for name in sorted(files):
            if not name.endswith((".antt", ".rt")):
                continue
            path = os.path.join(folder, name)
            with open(path, encoding="utf-8", newline="") as it:
                old = it.read()
            antt = name.endswith(".antt")
            new = turned(old, antt, tables)
            if antt:
                new = realigned(old, new)
            if new != old:
                count += 1
                with open(path, "w", encoding="utf-8", newline="") as it:
                    it.write(new)
    print(f"spelling: {count} files changed")
    return 0


if __name__ == "__main__":
    raise SystemExit(main(sys.argv[1:]))
