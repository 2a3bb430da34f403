#!/usr/bin/env python3
"""Brings the names of this repository's definitions and lemmas to today's spelling: words in snake case, a dash only where it joins two names.

  python3 tools/respell.py            once, right after port.py: rewrites crates/*/{specs,proofs}/**/*.antt and the clauses of src/**/*.rt
  python3 tools/respell.py --list     the names that change, old and new, and writes nothing

A name is turned where this repository declares it (a definition, a lemma, a field, a case, a variable); names that a file imports from a
library of the kit stay. Functions of src/, names for C, strings and comments of src/ keep theirs. Files of the form Proof.antt, in which a
function's goals have names that the check makes, have their dashes kept.
"""
import pathlib
import re
import sys

TOP = pathlib.Path(__file__).resolve().parents[1]
TOKEN = re.compile(r"[^\s(){}.;,:@`\"«»\[\]|]+")
DECLARED = re.compile(r"^\s{0,6}(?:(?:abbrev|unfoldable|pub|data|record)\s+)*([^\s(){}.;,:«»]+)(?: [({].*?)? : ?(.*)$")
CAMEL = re.compile(r"(?<=[a-z0-9])([A-Z])")
USE = re.compile(r"\buse ([^\s;{]+?)\.?\{([^}]*)\}")
CLAUSE = re.compile(r"\b(requires|ensures|ghost)\b")
# functions on lists that lemmas are called after
LISTS = {"++", "length", "take", "drop", "map", "set", "sets", "append", "replicate", "get_or"}


def files():
    for path in sorted(TOP.glob("crates/*/specs/**/*.antt")) + sorted(TOP.glob("crates/*/proofs/**/*.antt")):
        if "/out/" not in str(path):
            yield path


def sources():
    return sorted(TOP.glob("crates/*/src/**/*.rt"))


def crates():
    return {path.name for path in TOP.glob("crates/*")}


def foreign(texts, own):
    """The names that files import from libraries of the kit."""
    found = set()
    for text in texts:
        for path, names in USE.findall(text):
            steps = path.split(".")
            if steps[0] != "Rattle" or len(steps) < 2 or steps[1] not in own:
                for name in names.split(","):
                    found.update(name.split())
    return found


def snake(part):
    return CAMEL.sub(lambda m: "_" + m[1].lower(), part) if part[:1].islower() else part


def clauses(text):
    """The stretches of a .rt text that are antt: ghost use lines, and the braces of clauses and ghost items."""
    at = 0
    for m in CLAUSE.finditer(text):
        if m.start() < at or "//" in text[text.rfind("\n", 0, m.start()) + 1 : m.start()]:
            continue
        line_end = text.find("\n", m.end())
        if text.startswith("ghost use", m.start()):
            end = text.find(";", m.end())
            yield m.start(), end
            at = end
            continue
        start = text.find("{", m.end(), line_end if line_end > 0 else len(text))
        if start < 0:
            continue
        deep, end = 0, start
        while True:
            deep += (text[end] == "{") - (text[end] == "}")
            if deep == 0:
                break
            end += 1
        yield start, end
        at = end


def table():
    texts = {path: path.read_text() for path in files()}
    own = crates()
    theirs = foreign([*texts.values(), *(p.read_text() for p in sources())], own)
    declared, plain = set(), set()
    tokens = set()
    for path, text in texts.items():
        for line in text.splitlines():
            code = line.split("--")[0] if line.lstrip().startswith("--") else line
            tokens.update(TOKEN.findall(code))
            m = DECLARED.match(line)
            if m and not line.lstrip().startswith(("--", "let ", "use ", "module", "elim")):
                if path.name != "Proof.antt":
                    declared.add(m[1])
                plain.add(m[1])
    for path in sources():
        text = path.read_text()
        for a, b in clauses(text):
            tokens.update(TOKEN.findall(text[a:b]))
    # a dash stays where one of the two is the name of a function
    names = {snake(n) for n in plain if "-" not in n and CAMEL.search(n)} | LISTS
    new = {}
    for token in sorted(tokens):
        if token in theirs or token[:1].isupper():
            # a lemma on a fact keeps the fact's capital
            if not (token in declared and "-" in token) or token in theirs:
                continue
        parts = [snake(p) for p in token.split("-")]
        if token in declared and all(parts):
            turned = parts[0]
            for before, part in zip(parts, parts[1:]):
                turned += ("-" if before in names or part in names else "_") + part
        elif re.fullmatch(r"[a-z][A-Za-z0-9]*[A-Z][\w'-]*", token):
            turned = "-".join(parts)
        else:
            continue
        if turned != token:
            new[token] = turned
    # a lemma that would fall together with what it speaks of
    taken = (declared | plain) - set(new) | {name for old, name in new.items() if "-" not in old}
    for old, name in new.items():
        if "-" in old and name in taken:
            new[old] = name + "_lem"
    return new, tokens


def main():
    new, tokens = table()
    if "--list" in sys.argv:
        for old, name in new.items():
            print(old, name, "MEETS" if name in tokens or list(new.values()).count(name) > 1 else "")
        return

    def turn(text):
        return TOKEN.sub(lambda m: new.get(m[0], m[0]), text)

    for path in files():
        text = path.read_text()
        if (turned := turn(text)) != text:
            path.write_text(turned)
    for path in sources():
        text = path.read_text()
        pieces, at = [], 0
        for a, b in clauses(text):
            pieces += [text[at:a], turn(text[a:b])]
            at = b
        turned = "".join(pieces) + text[at:]
        if turned != text:
            path.write_text(turned)


main()
