#!/usr/bin/env python3
"""Counts the places of docs/DESIGN-PASS.md: `tools/places.py` at the top of the repository; `tools/places.py -l` lists them."""
import glob
import re
import sys

LIST = "-l" in sys.argv
sources = {f: open(f).read() for f in sorted(glob.glob("crates/*/src/**/*.rt", recursive=True))}
proofs = {
    f: open(f).read()
    for f in sorted(glob.glob("crates/*/proofs/**/*.antt", recursive=True))
}


def told(name, places):
    print(f"{len(places):5}  {name}")
    if LIST:
        for place in places:
            print("         " + place)


def lines(pattern, files=sources):
    return [
        f"{f}:{n}: {line.strip()}"
        for f, text in files.items()
        for n, line in enumerate(text.split("\n"), 1)
        if re.search(pattern, line) and not line.strip().startswith(("//", "--"))
    ]


functions = [
    (f, m.group(1), m.group(2), m.group(3))
    for f, text in sources.items()
    for m in re.finditer(r"^ *(?:pub(?:\(crate\))? )?fn (\w+)(?:<[^(]*>)?\(([^)]*(?:\([^)]*\)[^)]*)*)\)(.*?)^ *\}$", text, re.S | re.M)
]


def taking(*names):
    return [
        f"{f}: {name}" for f, name, parameters, _ in functions
        if all(re.search(rf"\b{n}: ", parameters) for n in names)
    ]


print("1  own enums, numbers for refusals")
told("enums", lines(r"^\s*(pub(\(crate\))? )?enum "))
told("refusals by a number: `number: 4`, `number, place`", lines(r"number: \d|\bnumber, place\b|number: u32"))
told("a refusal handed on by hand: `return a;`, `if let ..Bad`, `..Refused`", lines(r"if let \w+::(Bad|Refused)|Verdict::Good = "))
print("2  twins: functions of one name or one body in several places")
names = {}
for f, name, _, body in functions:
    names.setdefault((name, re.sub(r"\s+", " ", body[body.find("{\n"):])), []).append(f)
told("the same function again", [f"{n}: {', '.join(fs)}" for (n, b), fs in names.items() if len(fs) > 1])
told("copies and turnings by element type", lines(r"fn (copy_\w+|turn_(letters|column))\("))
print("3  loops that count an index by hand")
told("while and loop", lines(r"^\s*(while|loop)\b"))
told("an index counted: `i += 1`", lines(r"^\s*\w+ (\+|-)= 1;|^\s*(\w+) = \2 \+ 1;"))
print("4  equality, order, copying, conversion and printing by hand")
told("own `wide`, `smaller`, `size_of`", lines(r"fn (wide|smaller|size_of)\("))
told("types that derive neither Debug nor PartialEq", lines(r"#\[derive\(Clone, Copy\)\]"))
print("5  parameters that always travel together")
told("letters and ends", taking("letters", "ends"))
told("the four tables of an index", taking("firsts", "positions", "numbers", "before"))
told("run_weights and run_firsts", taking("run_weights", "run_firsts"))
told("regions of one table: work, n and more", taking("work", "n", "m"))
print("6  tables with a length or a place beside them")
told("a table and a place in it: `out: &mut [..], at: usize`", [f"{f}: {n}" for f, n, p, _ in functions if re.search(r"\[u\d+\],\s*(at|o|w|m|n): usize", p)])
told("0 for none", lines(r"== 0 \{ 0 \}|place: usize\b.*0|return 0;"))
print("7  switches on which step to run")
told("a flag that picks a function", lines(r"\bturned: bool\b"))
print("8  proofs")
told("files", list(proofs))
told("lines", [l for t in proofs.values() for l in t.split("\n")])
told("a place passed on by ten or more `.before`", lines(r"(\.before){10,}", proofs))
told("names of the check's own making: `shared_slice_known-`, `Lts`, `Tie`, `Reads`", lines(r"slice_known-|\.(Lts|Tie|Reads) as", proofs))
