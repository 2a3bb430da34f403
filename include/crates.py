"""Reads numbers out of the crates: constants of the code (src/) and of the definitions (specs/), which have to agree."""
import pathlib
import re

TOP = pathlib.Path(__file__).resolve().parent.parent


class Wrong(Exception):
    """Something that the crates and the header do not agree on."""


def source(crate):
    return "\n".join(p.read_text() for p in sorted((TOP / "crates" / crate / "src").glob("**/*.rt")))


def value(expression, named):
    """An expression of sums and products over literals and names; `named` gives a name's value."""
    words = re.findall(r"0x[0-9A-Fa-f]+|[A-Za-z_][\w:]*|\d[\d_]*|[-+*()]", expression)
    if "".join(words) != re.sub(r"\s", "", expression):
        raise Wrong(f"can't be read: {expression}")
    return eval("".join(str(named(w)) if w[0].isalpha() else w for w in words))


def constant(crate, name):
    """A constant of a crate's code, its own or a type's; one that comes from another crate is looked for there."""
    text = source(crate)
    owner, _, name = name.rpartition("::")
    if (TOP / "crates" / owner / "src").is_dir() and owner:
        return constant(owner, name)
    if m := re.search(rf"^use (?!crate::)(\w+)::(?:{owner or name}|\{{[^}}]*\b{owner or name}\b[^}}]*\}});$", text, re.M):
        return constant(m.group(1), name)
    if m := re.search(rf"^ *(?:pub )?const {name}: \w+ = (.*);$", text, re.M):
        return value(m.group(1), lambda w: constant(crate, w))
    raise Wrong(f"no constant {name} in crates/{crate}/src")


def snake(name):
    return name.lower()


def by_kind(file, expression, kind):
    """An expression that speaks of the check `kind`, with the name of one in its place: what the kinds differ in, and definitions that take it."""
    expression = re.sub(r"\bby_kind kind (\w+) (\w+)", r"\1" if kind == "sum_kind" else r"\2", expression)
    return taking_kind(file, expression, "kind", kind)


def taking_kind(file, expression, word, kind):
    """Definitions that take a check kind, which the expression calls by a word, calculated for it."""
    return re.sub(rf"\b(\w+) {word}\b", lambda m: str(definition(file, f"{m.group(1)} {kind}")), expression)


def definition(file, name):
    """A number of the definitions, or one that takes a check kind, with its name behind; one that a file takes from another is looked for there."""
    text = (TOP / "crates" / f"{file}.antt").read_text()
    name, _, kind = name.partition(" ")
    if kind and (m := re.search(rf"^{name} kind = (.*)$", text, re.M)):
        return value(by_kind(file, m.group(1), kind), lambda w: definition(file, w))
    if m := re.search(rf"^{name} = (.*)$", text, re.M):
        return value(taking_kind(file, m.group(1), "sum_kind", "sum_kind"), lambda w: definition(file, w))
    crate = "|".join(p.name for p in (TOP / "crates").iterdir())
    if m := re.search(rf"^use Rattle\.({crate})\.specs\.(\w+)\.\{{[^}}]*\b{name}\b", text, re.M):
        return definition(f"{m.group(1)}/specs/{m.group(2)}", name)
    raise Wrong(f"no definition {name} in crates/{file}.antt")


def defined(file):
    """The numbers that a file of definitions has, by their names."""
    return set(re.findall(r"^abbrev pub (\w+) : ℕ$", (TOP / "crates" / f"{file}.antt").read_text(), re.M))


def number(crate, place, name):
    """A number that code and definitions say alike; either may be None where it is said once. The definitions' place is a file
    and, behind a dot, the name there where it is not the code's in snake case."""
    said = [constant(crate, name)] if crate else []
    if place:
        file, _, other = place.partition(".")
        said.append(definition(file, other or snake(name)))
    if len(set(said)) != 1:
        raise Wrong(f"{name}: {said[0]} in crates/{crate}, {said[1]} in crates/{place.split('.')[0]}.antt")
    return said[0]
