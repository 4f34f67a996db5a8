#!/usr/bin/env python3
"""Turns this repository's own names to the spelling of today's Rattle. Run once, at the top, right after the kit's port.py.

Words in snake case (`isLetter` is `is_letter`); in the name of a lemma a dash stays where it joins two names (`length-drop`),
and a plain word is added with `_` (`code_injective`); fields and constructors are in snake case; types in upper camel case.
Names of functions in src/, exported C names, strings and outputs stay as they are. It prints what falls together.

usage: tools/port_names.py [--dry]
"""
import glob
import re
import sys

SPECS = sorted(glob.glob("crates/*/specs/*.antt"))
LAWS = sorted(glob.glob("crates/*/proofs/*.antt"))
PROOFS = sorted(set(glob.glob("crates/*/proofs/**/*.antt", recursive=True)) - set(LAWS))
SOURCES = sorted(glob.glob("crates/*/src/*.rt"))
EDITS = sorted(glob.glob("crates/*/must-fail/*.edit"))
PAGES = sorted(glob.glob("docs/*.md")) + ["README.md"]
NAME = r"[^\s(){}\[\],;.`\"'«»⌜⌝λ∀→≡×⊎∷=:|↦⟨⟩]+'*"
WORDS = set("append cons nil suc zero snoc take drop length map reverse sum get_or set replicate empty mul add sub mod div "
            "insert elem all every any nat_abs swap fst snd some none".split())
KEEP = {"ref_ptr"}


def read(path):
    with open(path, encoding="utf-8") as f:
        return f.read()


def snake(word):
    word = re.sub(r"(?<=[a-z0-9])([A-Z])", r"_\1", word)
    word = re.sub(r"(?<=[A-Z])([A-Z][a-z])", r"_\1", word)
    return word.lower()


def camel(word):
    """A word in lower camel case, in snake case."""
    return snake(word) if re.fullmatch(r"[a-z][a-z0-9_]*[A-Z][A-Za-z0-9_]*[₀-₉']*", word) else word


HEAD = re.compile(r"^(?:(?:pub|abbrev|unfoldable|opaque|private|record|data|instance)\s+)*(" + NAME + r")\s*(?=[:({]|$)", re.M)
FIELD = re.compile(r"^ +(?:pub )?(" + NAME + r") :(?= |$)", re.M)
NESTED = re.compile(r"^ +(?:(?:pub|abbrev|unfoldable) )*(" + NAME + r") :(?= |$)", re.M)
RECORD = re.compile(r"^(?:pub |abbrev )*(?:record|data) [^\n]*where\n((?:(?:  [^\n]*)?\n)+)", re.M)


def tops(text):
    found = []
    for m in HEAD.finditer(text):
        if m.group(1) not in ("use", "mod", "pub", "--", "unfolding") and not m.group(0).startswith(("use", "mod")):
            found.append(m.group(1))
    return found


def fields(text):
    found = []
    for m in RECORD.finditer(text):
        found += [f.group(1) for f in FIELD.finditer(m.group(1))]
    return found


def table():
    kinds = {}
    values = set()
    for path in SPECS:
        text = read(path)
        for n in tops(text):
            kinds[n] = "value"
            values.add(n)
        for n in fields(text) + NESTED.findall(text):
            kinds.setdefault(n, "field")
    for path in LAWS:
        text = read(path)
        for n in tops(text):
            kinds.setdefault(n, "law")
        for n in fields(text):
            kinds.setdefault(n, "field")
        for n in NESTED.findall(text):
            kinds.setdefault(n, "law")
    vocabulary = {camel(n) for n in values} | WORDS
    turned = {}
    for n, kind in kinds.items():
        parts = [camel(p) for p in n.split("-")]
        if re.match(r"[A-Z]", n):
            new = "".join(p[:1].upper() + p[1:] for p in parts) if kind == "value" or all(re.match(r"[A-Za-z]", p) for p in parts) else n
        elif kind == "field":
            new = "_".join(parts)
        else:
            new = parts[0]
            for a, b in zip(parts, parts[1:]):
                both = a in vocabulary and b in vocabulary
                new += ("-" if both and kind == "law" else "_") + b
        if new != n:
            turned[n] = new
    return kinds, turned


# a definition whose name would be a parameter's; laws whose name is another's
VALUES = {"runWeights": "weights_of_runs", "runFirsts": "firsts_of_runs", "read_done": "read_done_lem",
          "row_fits": "row_fits_lem", "collection-read": "collection_read_lem", "index-made": "index_made_lem", "in_order": "in_order_at", "part-get_d": "part-get_or",
          "part-getD": "part-get_or"}
FIELDS = {"access-at": "access_at_once", "access-start": "access_start_is", "in-range": "within_range", "is-number": "is_a_number", "N-high": "letters_high"}


def mend(kinds, turned):
    """What would fall together: a law that would have its function's name ends in _lem, a field gets another word."""
    values = {turned.get(n, n) for n in kinds if kinds[n] == "value"}
    for n, kind in kinds.items():
        if n in VALUES:
            turned[n] = VALUES[n]
        elif n in FIELDS:
            turned[n] = FIELDS[n]
        elif kind == "law" and turned.get(n, n) in values:
            turned[n] = turned.get(n, n) + "_lem"


TOKEN = re.compile(NAME)


def turn_word(turned, word):
    if word in turned:
        return turned[word]
    parts = word.split("-")
    if len(parts) > 1 and any(camel(p) != p for p in parts):
        return "-".join(camel(p) for p in parts)
    return camel(word) if camel(word) != word else word


FACTS = set()


def turn_line(turned, line, walk=False):
    """In a walk a name behind a dot is the walk's own, unless it is a field."""

    def word(m):
        if walk and m.start() and line[m.start() - 1] == "." and m.group(0) not in FACTS:
            return m.group(0)
        return turn_word(turned, m.group(0))

    return TOKEN.sub(word, line)


TICKED = re.compile(r"`([^`\n]+)`")


def turn_comment(turned, text):
    return TICKED.sub(lambda m: "`" + turn_line(turned, m.group(1)) + "`", text)


def turn_antt(turned, text, walk=False):
    out = []
    for line in text.split("\n"):
        code, mark, rest = line.partition("--") if re.match(r"\s*--", line) else (line, "", "")
        if not mark and " -- " in line:
            code, mark, rest = line.partition(" -- ")
        out.append(turn_line(turned, code, walk) + mark + turn_comment(turned, rest))
    return "\n".join(out)


CLAUSE = re.compile(r"(ghost use [^;]*;)|((?:requires|ensures|ghost)\b[^{\n]*\{)")


def clause_ends(text, at):
    depth = 1
    while depth and at < len(text):
        depth += {"{": 1, "}": -1}.get(text[at], 0)
        at += 1
    return at


def turn_source(turned, text):
    out, at = [], 0
    for m in CLAUSE.finditer(text):
        if m.start() < at:
            continue
        end = m.end() if m.group(1) else clause_ends(text, m.end())
        out.append(turn_comments_of_source(turned, text[at:m.start()]))
        out.append(turn_line(turned, text[m.start():end]))
        at = end
    out.append(turn_comments_of_source(turned, text[at:]))
    return "".join(out)


def turn_comments_of_source(turned, text):
    return re.sub(r"//[^\n]*", lambda m: turn_comment(turned, m.group(0)), text)


def main():
    dry = "--dry" in sys.argv
    kinds, turned = table()
    mend(kinds, turned)
    FACTS.update(n for n in kinds if kinds[n] == "field")
    news = {}
    for n in kinds:
        news.setdefault(turned.get(n, n), []).append(n)
    for new, olds in sorted(news.items()):
        if len(olds) > 1:
            print("falls together:", new, "<-", ", ".join(f"{o} ({kinds[o]})" for o in olds))
    for n in sorted(turned):
        print(f"{kinds[n]}: {n} -> {turned[n]}")
    if dry:
        return
    for path in SPECS + LAWS + PROOFS + SOURCES + EDITS + PAGES:
        text = read(path)
        if path.endswith(".antt"):
            new = turn_antt(turned, text, path in PROOFS)
        elif path.endswith(".md"):
            new = turn_comment(turned, text)
        elif path.endswith(".edit"):
            new = "\n".join(turn_line(turned, l) if "/" not in l.split(":")[0] and not l.startswith("file:") else l for l in text.split("\n"))
        else:
            new = turn_source(turned, text)
        if new != text:
            with open(path, "w", encoding="utf-8") as f:
                f.write(new)


main()
