#!/usr/bin/env python3
"""Brings the repository's own definitions and lemmas to the spelling of today's Rattle: words in snake case, types in upper camel case.

usage: tools/spelling.py [--check]      at the top, once, right after port.py. --check writes nothing and prints what would be renamed.

What is declared in specs/*.antt and proofs/*.antt turns, whole words alone, wherever it stands: in .antt files, in clauses, in must-fail edits, and in code spans of pages.
A definition, a field or a constructor is in snake case with no dash; a lemma (proofs/) keeps the dashes that join names, and its parts turn. A fact (a definition that ends in a
Type) keeps its capital. Functions of src/, exported names, strings, inputs and outputs keep their names. A new name that a file has already is told: it may fall together.
"""
import glob
import os
import re
import sys

NAME = r"(?:«[^»]*»|[^\s(){}\[\].;,@\"«»|]+)"
WORD = re.compile(r"[^\s(){}\[\].;,@\"«»|`]+")
SIGNATURE = re.compile(rf"^( *)((?:(?:unfoldable|abbrev|axiom|pub) )*)({NAME})((?: *\{{[^}}:]*\}})?) *:(?: |$)(.*)$")
MARKED = re.compile(rf"^( *)((?:(?:unfoldable|abbrev|pub) )*)(data|record) ({NAME})")


def snake(word):
    """camelCase in snake_case; digits stay with what they follow."""
    word = re.sub(r"(?<=[a-z0-9])([A-Z])", r"_\1", word)
    word = re.sub(r"(?<=[A-Z])([A-Z])(?=[a-z])", r"_\1", word)
    return word.lower()


def clean(text):
    return re.sub(r"(?m)(^|(?<=\s))--(?:\s.*)?$", "", text)


def declared(path, found):
    """name -> (a type?, a lemma?, a member?) of each thing that the file declares."""
    lines = clean(open(path, encoding="utf8").read()).split("\n")
    lemma = "/proofs/" in path
    inside = None  # the indentation of the data or record whose members follow
    i = 0
    while i < len(lines):
        line = lines[i]
        indent = len(line) - len(line.lstrip())
        if inside is not None and line.strip() and indent <= inside:
            inside = None
        if m := MARKED.match(line):
            found.setdefault(m[4], set()).add((True, lemma, False))
            inside = len(m[1])
            i += 1
            continue
        if m := SIGNATURE.match(line):
            text, j = m[5], i + 1
            while j < len(lines) and lines[j].strip() and len(lines[j]) - len(lines[j].lstrip()) > indent:
                text += " " + lines[j].strip()
                j += 1
            result = re.split(r"→", text)[-1].strip()
            fact = bool(re.fullmatch(r"Type(?: \w+)?", result))
            found.setdefault(m[3], set()).add((fact, lemma, inside is not None))
        i += 1


def spelled(name, kinds):
    fact = any(k[0] for k in kinds)
    member = any(k[2] for k in kinds)
    lemma = all(k[1] for k in kinds)
    if fact or name.startswith("«") or not re.match(r"^[A-Za-zα-ωμ]", name):
        return name
    if re.match(r"^[A-Z]", name):
        return name if "-" in name else snake(name)
    parts = name.split("-")
    parts = [p if re.match(r"^[A-Z]", p) else re.sub(r"[A-Za-z0-9_]+", lambda m: snake(m[0]), p) for p in parts]
    return ("-" if lemma and not member else "_").join(parts)


# where two names would fall together, the lemma or the field gets another: in these crates, or everywhere
APART = {
    ("attributes links", "part_lies"): "part_lies_lem",
    ("blocks", "at_address"): "at_address_lem",
    ("blocks", "all_known"): "all_known_lem",
    ("blocks", "one_more"): "one_more_lem",
    ("records", "by_read"): "by_read_lem",
    ("tables", "ends_of"): "ends_of_lem",
    ("tree", "any_below"): "any_below_lem",
    ("tree", "walk_from"): "walk_from_lem",
    ("", "settings-hold"): "settings_held",
    ("", "table-holds"): "table_held",
    ("", "run_holds"): "run_held",
    ("", "row_words"): "row_cells",
    ("", "attr-words"): "attr_cells",
    ("", "is-structure"): "structure",
    ("examples", "array-of"): "array_bytes",
}
# local facts that had no capital
FACTS = {
    "areWanted": "AreWanted",
    "fewLaid": "FewLaid",
    "fewMembers": "FewMembers",
    "isCount": "IsCount",
    "isEnded": "IsEnded",
    "isEndless": "IsEndless",
    "isMember": "IsMember",
    "isRead": "IsRead",
    "rowAnswer": "RowAnswer",
}
# constants that are named as the standard names them; they turn in their own module and behind its name
VOCABULARY = ("AttributeKind", "TagKind", "FundType")
TOKEN = re.compile(r"(\.?)([^\s(){}\[\].;,@\"«»|`]+)")


# a name that antt reserves gets another
RESERVED = {"module": "module_tag"}


def vocabulary():
    """The capital constants of each module."""
    found = {}
    for module in VOCABULARY:
        members = {}
        declared(f"crates/format/specs/{module}.antt", members)
        found[module] = {n for n in members if re.match("[A-Z]", n)}
    return found


def turned(path, text, table, constants):
    crate = path.split("/")[1] if path.startswith("crates/") else ""
    apart = {old: new for (crates, old), new in APART.items() if path.endswith(".antt") and (not crates or crate in crates.split())}
    walked = path.endswith("/Proof.antt")
    own = [m for m in VOCABULARY if path == f"crates/format/specs/{m}.antt"]
    here = constants[own[0]] if own else set()
    constants = set().union(*constants.values())
    aliases = {m[2] or m[1] for m in re.finditer(r"(?m)use Rattle\.format\.specs\.(AttributeKind|TagKind|FundType)(?: as (\w+))?;?$", text)}

    def constant(name):
        return RESERVED.get(snake(name), snake(name)) if name in constants else name

    imported = set()
    for m in re.finditer(r"use Rattle\.format\.specs\.(?:AttributeKind|TagKind|FundType)\.\{([^}]*)\}", text):
        imported |= {w for w in re.findall(r"\w+", m[1]) if w in constants}
    for alias in aliases:
        text = re.sub(rf"(?<![\w.])({alias}\.)([A-Z]\w*)", lambda m: m[1] + constant(m[2]), text)

    def word(m):
        dot, name = m[1], m[2]
        if not dot and (name in here or name in imported) and not re.search(r"specs\.declared\.[\w.]*\.?\{?$", text[: m.start()].split("\n")[-1]):
            return constant(name)
        if name in apart and not (dot and (walked or "-" not in name and name not in ("run_holds", "row_words"))):
            return dot + apart[name]
        return dot + table.get(name, name)

    return TOKEN.sub(word, text)


def main(check):
    antt = sorted(glob.glob("crates/*/specs/**/*.antt", recursive=True) + glob.glob("crates/*/proofs/**/*.antt", recursive=True))
    found = {}
    for path in antt:
        if os.path.basename(path) != "Proof.antt":
            declared(path, found)
    constants = vocabulary()
    table = {}
    for name, kinds in found.items():
        new = spelled(name, kinds)
        if new != name and not re.match("[A-Z]", name):
            table[name] = new
    table |= FACTS
    # what only patterns and binders name
    table |= {"isErased": "is_erased", "lentAttrs": "lent_attrs", "partPlace": "part_place"}
    table |= {"rowTable": "rows_now", "attrTable": "attrs_now", "structureRoom": "structures_now", "memberRoom": "members_now"}
    if check:
        for old, new in sorted(table.items()):
            print(f"{old}\t{new}")
        print("constants:", " ".join(sorted(set().union(*constants.values()))))
        for name, kinds in sorted(found.items()):
            if any(k[0] for k in kinds) and re.match("[a-z]", name):
                print(f"look: {name} is a fact in lower case")
    apart = {old for _, old in APART}
    for path in antt:
        text = clean(open(path, encoding="utf8").read())
        ws = {m[2] for m in TOKEN.finditer(text) if not m[1]}
        for old in ws & table.keys():
            if table[old] in ws and table[old] not in apart:
                print(f"look: {path}: {old} becomes {table[old]}, which it has already")
    if check:
        return 0
    rt = glob.glob("crates/*/src/**/*.rt", recursive=True)
    pages = glob.glob("*.md") + glob.glob("docs/*.md") + glob.glob("pipeline/*.md") + glob.glob("oracle/*.md") + glob.glob("crates/*/*.md")
    for path in antt + sorted(rt) + sorted(glob.glob("crates/*/must-fail/*.edit")):
        text = open(path, encoding="utf8").read()
        new = turned(path, text, table, constants)
        if new != text:
            open(path, "w", encoding="utf8").write(new)
    for path in pages:
        text = open(path, encoding="utf8").read()
        new = re.sub(r"`[^`\n]+`", lambda m: TOKEN.sub(lambda w: w[1] + table.get(w[2], w[2]), m[0]), text)
        if new != text:
            open(path, "w", encoding="utf8").write(new)
    return 0


if __name__ == "__main__":
    raise SystemExit(main("--check" in sys.argv[1:]))
