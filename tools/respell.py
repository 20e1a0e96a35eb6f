#!/usr/bin/env python3
"""Gives the repository's own definitions and lemmas today's spelling: words in snake case, types in camel case.

usage: python3 tools/respell.py [--map FILE]      at the top of the repository, once, after the kit's port.py

Own names are those that crates/*/specs/*.antt declare: definitions, lemmas, fields and constructors. Names of functions in src/ stay.
Where two names fall together, the lemma gets the ending _law; where a definition falls together with another name of a file that also has
the definition (a function of src/, or a local name), it gets the ending _rule. The must-fail edits and the pages in docs/ follow.
"""

import collections
import os
import re
import sys

TOKEN = re.compile(r"[A-Za-zα-ωΑ-Ω_][A-Za-z0-9_'′α-ω₀-₉-]*")
DECLARED = re.compile(r"^\s*(?:(?:pub|unfoldable|abbrev|opaque|private|instance)\s+)*(record\s+|data\s+)?([^\s:({]+)(\s[^:=]*)?\s:\s(.*)")


def texts(ends):
    for folder, dirs, files in os.walk("crates"):
        dirs[:] = sorted(d for d in dirs if d != "out")
        for name in sorted(files):
            if name.endswith(ends):
                yield os.path.join(folder, name)


def parts(path, line):
    """The code of a line, and its comment."""
    mark = "--" if path.endswith(".antt") else "//"
    at = line.find(mark)
    return (line, "") if at < 0 else (line[:at], line[at:])


def is_odd(word):
    return "-" in word or bool(word[0].islower() and re.search(r"[a-z0-9][A-Z]", word))


def snake(word):
    word = word.replace("-", "_")
    return re.sub(r"([a-z0-9])([A-Z])", lambda m: m.group(1) + "_" + m.group(2).lower(), word)


def camel(word):
    return "".join(w[:1].upper() + w[1:] for w in re.split(r"[-_]", word))


def read(path):
    with open(path, encoding="utf-8") as f:
        return f.read()


CRATES = [c for c in sorted(os.listdir("crates")) if os.path.isdir(os.path.join("crates", c))]
KIT_USE = re.compile(r"use (?!Rattle\.(?:%s)\.)[\w.]+\.\{([^}]*)\}" % "|".join(CRATES))


def brought(text):
    """What a file brings in from the kit."""
    return {w for m in KIT_USE.finditer(text) for w in TOKEN.findall(m.group(1))}


def plan():
    types, own = set(), set()
    where = collections.defaultdict(set)
    from_kit = set()
    for path in texts((".antt", ".rt")):
        text = read(path)
        from_kit |= brought(text)
        for line in text.split("\n"):
            code, _ = parts(path, line)
            for word in TOKEN.findall(code):
                where[word].add(path)
            m = DECLARED.match(code)
            if m and path.endswith(".antt") and os.path.basename(os.path.dirname(path)) == "specs":
                own.add(m.group(2))
                if re.search(r"Type \d\s*(where)?\s*$", m.group(4)):
                    types.add(m.group(2))
    own = {w for w in own if TOKEN.fullmatch(w)}
    to = {}
    for word in sorted(own):
        if word in types:
            to[word] = camel(word) if "-" in word else word
        else:
            to[word] = snake(word) if is_odd(word) else word
    groups = collections.defaultdict(list)
    for word, new in to.items():
        groups[new].append(word)
    for new, words in groups.items():
        if len(words) > 1:
            lemmas = [w for w in words if "-" in w] or [w for w in words if "_" in w]
            definitions = [w for w in words if w not in lemmas]
            if len(lemmas) != 1 or len(definitions) != 1:
                sys.exit(f"respell: {words} fall together, and which is the lemma can't be told")
            if lemmas[0] in from_kit:
                to[definitions[0]] = new + "_rule"
            else:
                to[lemmas[0]] = new + "_law"
    taken = set(to.values())
    for word in sorted(own):
        new = to[word]
        if new != word and new not in own and where.get(new, set()) & where[word]:
            end = "_law" if "-" in word else "_rule"
            to[word] = new + end
            if to[word] in taken:
                sys.exit(f"respell: {to[word]} is taken")
    for word, new in to.items():
        if new != word and new in from_kit and where[new] & where[word]:
            sys.exit(f"respell: {new} is a name of the kit in a file of {word}")
    return {w: n for w, n in to.items() if n != w}


def main():
    to = plan()
    if "--map" in sys.argv:
        with open(sys.argv[sys.argv.index("--map") + 1], "w", encoding="utf-8") as f:
            f.writelines(f"{w}\t{n}\n" for w, n in sorted(to.items()))

    def turn(text, only=lambda w: True):
        return TOKEN.sub(lambda m: to.get(m.group(0), m.group(0)) if only(m.group(0)) else m.group(0), text)

    # In prose a word with a hyphen may be English, so only names that can't be are turned there.
    def is_no_english(word):
        return bool(re.search(r"[a-z0-9][A-Z]", word))

    changed = 0
    for path in texts((".antt", ".rt")):
        old = read(path)
        kit = brought(old)
        lines = []
        for line in old.split("\n"):
            code, comment = parts(path, line)
            lines.append(turn(code, lambda w: w not in kit) + turn(comment, is_no_english))
        new = "\n".join(lines)
        if new != old:
            changed += 1
            with open(path, "w", encoding="utf-8") as f:
                f.write(new)
    # An edit may still have a name as it was before the kit's scripts, with hyphens where they wrote underscores.
    news = set(to.values())
    names = {w for path in texts((".antt", ".rt")) for w in TOKEN.findall(read(path))}

    def turned(word):
        if word in to:
            return to[word]
        new = snake(word) if is_odd(word) else word
        return new if new != word and (new in news or new in names) else word

    for path in texts((".edit",)):
        old = read(path)
        lines = [TOKEN.sub(lambda m: turned(m.group(0)), l) if l.startswith(("old:", "new:")) else l for l in old.split("\n")]
        new = "\n".join(lines)
        if new != old:
            changed += 1
            with open(path, "w", encoding="utf-8") as f:
                f.write(new)
    pages = ["README.md"] + [os.path.join(d, f) for d, _, fs in os.walk("docs") for f in fs if f.endswith(".md")]
    for path in pages:
        old = read(path)
        new = re.sub(r"`[^`\n]+(?:\n[^`\n]+)?`", lambda m: TOKEN.sub(lambda w: turned(w.group(0)), m.group(0)), old)
        if new != old:
            changed += 1
            with open(path, "w", encoding="utf-8") as f:
                f.write(new)
    print(f"respell: {len(to)} names in {changed} files")


main()
