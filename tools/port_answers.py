#!/usr/bin/env python3
"""Turns a crate's Proof.antt files, which walk by a Tie, into Invariants.antt and Answers.antt.

usage: tools/port_answers.py CRATE [FUNCTION ..]    (at the top; the crates below CRATE are proved)

`rt check --generated DIR --old-names` lists each goal's and each step's old and new name. An invariant's arguments become the
fields of `l`; a chain of `.before` goes, since the new record has each step by name; answers that say `search rules` go.
A lemma over a place is stated over the place's record in Lts. It prints what it could not turn.
"""
import json
import os
import re
import subprocess
import sys
import tempfile

NAME = r"[^\s(){}\[\],;.`\"'«»⌜⌝λ∀→≡×⊎∷=:|↦⟨⟩]+'*"


def read(path):
    with open(path, encoding="utf-8") as f:
        return f.read()


def norm(name):
    name = name.replace("-", "_")
    name = name[:-4] if name.endswith("_lem") else name
    return {"within_range": "in_range", "is_a_number": "is_number", "type_size": "size_of", "is_IsWord": "is_word"}.get(name, name).lower()


def names_of(crate):
    folder = tempfile.mkdtemp()
    subprocess.run(["rt", "check", "--generated", folder, "--old-names"], cwd=f"crates/{crate}", stdout=subprocess.PIPE, stderr=subprocess.STDOUT, check=False)
    return json.loads(read(os.path.join(folder, "names.json")))


def clauses_of(crate):
    """For each function, by its name: the names of its requires and ensures clauses."""
    found = {}
    for folder, _, files in os.walk(f"crates/{crate}/src"):
        for file in files:
            text = read(os.path.join(folder, file))
            for m in re.finditer(r"^\s*(?:pub(?:\([a-z]+\))? )?(?:extern \"C\" )?fn (\w+)", text, re.M):
                end = re.search(r"^\s*\{\s*$|^\s*\{ ", text[m.end():], re.M)
                head = text[m.end():m.end() + (end.start() if end else 0)]
                kinds = {}
                for kind in ("requires", "ensures"):
                    kinds[kind] = re.findall(r"^\s*" + kind + r"\*? ?(\w*) ?\{", head, re.M)
                params = re.search(r"\((.*?)\)\s*(?:->|$|\n|requires|ensures)", head, re.S)
                kinds["slices"] = re.findall(r"(?:mut )?(\w+): &(?:'\w+ )?mut \[", params.group(1) if params else head)
                found[m.group(1)] = kinds
    return found


def blocks(text):
    """The top-level declarations of a proof file: (name, signature, unfolding lines, clauses, comment)."""
    def one_line(m):
        names = [n.strip() for n in m.group(2).replace("\n", " ").split(",")]
        return m.group(1) + "{" + ", ".join(n for n in names if n) + "}"

    text = re.sub(r"^(use [^{}\n]*)\{([^{}]*)\}", one_line, text, flags=re.M)
    lines = text.split("\n")
    parts, comment, current = [], [], None
    for line in lines:
        if line.startswith("--"):
            if current:
                parts.append(current)
                current = None
            comment.append(line)
        elif line and not line[0].isspace():
            m = re.match(r"(?:(?:pub|abbrev|unfoldable) )*(" + NAME + r")", line)
            name = m.group(1) if m else None
            if line.startswith("use "):
                if current:
                    parts.append(current)
                parts.append({"name": None, "lines": [line], "comment": comment})
                comment, current = [], None
            elif current and (line.startswith("unfolding ") or name in (None, current["name"])):
                current["lines"].append(line)
            else:
                if current:
                    parts.append(current)
                current = {"name": name, "lines": [line], "comment": comment}
                comment = []
        elif current is not None:
            current["lines"].append(line)
        elif not line and comment:
            parts.append({"name": None, "lines": [], "comment": comment})
            comment = []
    if current:
        parts.append(current)
    return parts


def split_call(text):
    """The top-level words of an application."""
    words, depth, word = [], 0, ""
    for ch in text:
        if ch in "([{":
            depth += 1
        if ch in ")]}":
            depth -= 1
        if ch.isspace() and depth == 0:
            if word:
                words.append(word)
            word = ""
        else:
            word += ch
    return words + ([word] if word else [])


def tuple_parts(text):
    parts, depth, part = [], 0, ""
    for ch in text:
        depth += {"(": 1, "{": 1, "[": 1, ")": -1, "}": -1, "]": -1}.get(ch, 0)
        if ch == "," and depth == 0:
            parts.append(part)
            part = ""
        else:
            part += ch
    return parts + ([part] if part.strip() else [])


class Function:
    def __init__(self, crate, path, table, clauses):
        self.crate, self.path = crate, path
        self.dotted = path.replace("/", ".")
        self.names = table[f"Rattle-{crate}-proofs.{self.dotted}.Lts"]
        self.clauses = clauses
        self.steps = {}
        self.place_step = {}
        self.parent = {}
        self.arms = {}
        self.past = set()
        parents = {place[0]: place[1] for place in self.names["places"]}
        for place, arm in zip(self.names["places"], self.names["arms"]):
            old, new = place[2]
            if old:
                self.steps[norm(old)] = new
            self.place_step[norm(place[0])] = place
            above = place[1]
            if arm:
                # an arm's places are one record
                for _ in range(arm[1] - 1):
                    above = parents[above]
                self.past.add(place[0])
                for field, step, path in arm[2]:
                    self.arms.setdefault(norm(step), []).append((path, arm[0], field))
            self.parent[place[0]] = above
        self.said = []
        self.negated = False

    def say(self, text):
        self.said.append(f"{self.crate}/{self.path}: {text}")

    # ─── chains ───
    def clause_path(self, clauses, rest):
        """`.0`, `.1.0` .. of several clauses, by their names."""
        if len(clauses) > 1 and not rest:
            return ["*" + "+".join(clauses)]
        if len(clauses) < 2:
            return rest
        n = len(clauses)
        for i, name in enumerate(clauses):
            path = ["1"] * i + (["0"] if i + 1 < n else [])
            if rest[:len(path)] == path:
                return [name] + rest[len(path):]
        self.say(f"clauses {clauses} at {rest}")
        return rest

    def clauses_of_step(self, step):
        path = self.callee_of.get(norm(step))
        if not path:
            return None
        return ALL.get((path.split("::")[0], path.split("::")[-1]))

    def rest_of(self, step, parts):
        own = self.clauses_here
        if parts and parts[0] == "type-inv":
            parts = ["type_inv"] + parts[1:]
        if parts and parts[0] in ("last", "kept", "taken", "left") and (parts[0] in ("last", "kept") or re.match(r"if|.*test$", norm(step))):
            parts = [{"last": "new", "kept": "auto", "taken": "true", "left": "false"}[parts[0]]] + parts[1:]
        if parts == ["auto"] and self.clauses_of_step(step) and len(self.clauses_of_step(step)["slices"]) >= 1:
            return [step, "auto", "+".join(self.clauses_of_step(step)["slices"])]
        if step in ("requires", "pre"):
            return ["requires"] + self.clause_path(own, parts)
        if parts and parts[0] == "inv":
            parts = ["invariant"] + parts[1:]
        if len(parts) > 1 and parts[0] in ("new", "auto") and re.fullmatch(r"[01]", parts[1]):
            params = self.names["params"].get(self.callee_of.get(norm(step), ""), [])
            i = 0
            while i + 1 < len(parts) and parts[1 + i] == "1":
                i += 1
            if i + 1 < len(parts) and parts[1 + i] == "0" and i < len(params):
                return [step, parts[0], params[i]] + parts[2 + i:]
            self.say(f"{step}.{'.'.join(parts)}: {params}")
        if parts and parts[0] == "ensures":
            callee = self.clauses_of_step(step)
            if callee:
                return [step, "ensures"] + self.clause_path(callee["ensures"], parts[1:])
        return [step] + parts

    def of_arm(self, step, rest):
        """A field of an arm's steps, by the arm."""
        best = None
        for path, arm, field in self.arms.get(norm(step), []):
            if rest[:len(path)] == path and (best is None or len(path) > len(best[0])):
                best = (path, arm, field)
        if best is None or (not best[0] and rest):
            return None
        return [best[1], best[2]] + rest[len(best[0]):]

    def turn_chain(self, root, parts, answer):
        """A chain from a place: its steps by their new names, without `.before`."""
        n = 0
        while n < len(parts) and parts[n] == "before":
            n += 1
        rest = parts[n:]
        if not rest:
            befores = ["before"] * (n + (1 if answer and root in self.roots else 0))
            return ".".join([root] + befores)
        head = rest[0]
        if head in ("args", "ranges", "lifetimes", "well_formed", "well-formed"):
            return ".".join([root] + [r.replace("-", "_") for r in rest])
        if head in ("requires", "pre"):
            return ".".join([root] + self.rest_of("requires", rest[1:]))
        new = self.steps.get(norm(head))
        if new is None:
            if n and head != "blocks":
                self.say(f"no step {head} in {root}.{'.'.join(parts)}")
                return ".".join([root] + rest)
            return ".".join([root] + parts)
        if norm(head) in self.arms:
            of_arm = self.of_arm(head, rest[1:])
            if of_arm:
                return ".".join([root] + of_arm)
            self.say(f"no arm has {'.'.join(rest)}")
        kept = self.rest_of(head, rest[1:])
        chain = ".".join([root, new] + kept[1:])
        if re.match(r"(if|loop-test)-not-|if-not-", new) and kept[1:] in (["true"], ["false"]):
            self.negated = True
            return f"(path.ap bool.not {chain})"
        return chain

    def place_named(self, name):
        """A place by its old name. Where one is read first, and arguments have places of their own no more, the place above it."""
        name = norm(name)
        while name not in self.place_step:
            m = re.match(r"(.*_arg)(\d*)$", name)
            if not m:
                return None
            n = int(m.group(2) or 1)
            if n == 1:
                place = self.place_step.get(name[:-len("_arg")] if name.endswith("_arg") else m.group(1)[:-len("_arg")])
                return self.parent[place[0]] if place else None
            name = m.group(1) + (str(n - 1) if n > 2 else "")
        place = self.place_step[name][0]
        return self.parent[place] if norm(place + "-unread") in self.place_step else place

    def up(self, here, there):
        """How many `.before` lead from one place to another above it; None where there is no way."""
        n = 0
        while here is not None and here != there:
            here = self.parent.get(here)
            n += 1
        return n if here is not None else None

    def reach(self, root, there):
        """The place `there`, seen from a variable that is a place."""
        n = self.up(self.env.get(root), there)
        if n is None:
            self.say(f"no way from {root} at {self.env.get(root)} to {there}")
            n = 0
        return ".".join([root] + ["before"] * (n + (1 if root in self.roots else 0)))

    def past_functions(self, text):
        """A function from place to place is its argument: a record has every step before it."""
        moves = [f for f, (_, to) in self.typed.items() if to]
        if not moves:
            return text
        call = re.compile(r"(?<![\w.'₀-₉-])(?:" + "|".join(re.escape(f) for f in sorted(moves, key=len, reverse=True)) + r") ([a-z][\w-]*'*)((?:\.before)*)(?![\w.'₀-₉-])")
        alone = re.compile(r"\(([a-z][\w-]*'*)(?:\.before)*\)")
        while True:
            new = alone.sub(lambda m: m.group(1), call.sub(lambda m: m.group(1), text))
            if new == text:
                return text
            text = new

    def turn_body(self, text, answer):
        """Every chain by its new names; a place that is passed on is reached from where the variable stands."""
        text = self.past_functions(text)
        ident = r"[a-z][\w-]*'*"
        pure = rf"(?:{ident})(?:\.before)*(?![\w.'₀-₉-])"
        whole = re.compile(
            rf"(?P<let>let (?P<v>{ident}) = (?P<lf>{ident} )?(?P<lc>{pure}) in)"
            rf"|let (?P<pv>{ident}) = \((?P<pf>{ident}) (?P<pc>{pure})\)\.(?P<ps>[^\s(){{}}\[\],;.]+) in"
            rf"|let (?P<sv>{ident}) = (?P<sc>{ident}(?:\.[^\s(){{}}\[\],;.]+)+)(?= in)"
            rf"|(?<![\w.'₀-₉-])(?P<f>{ident}) (?P<fp>\()?(?P<fc>{pure})"
            rf"|(?<![\w.'₀-₉-])(?P<root>{ident})(?P<parts>(?:\.[^\s(){{}}\[\],;.]+)+)"
            rf"|(?P<close>\))(?P<cparts>(?:\.[^\s(){{}}\[\],;.]+)+)"
        )
        out, at = [], 0
        while True:
            m = whole.search(text, at)
            if not m:
                break
            out.append(text[at:m.start()])
            at = m.end()
            if m.group("let"):
                root = m.group("lc").split(".")[0]
                f = (m.group("lf") or "").strip()
                if f and f in self.typed and root in self.env:
                    self.env[m.group("v")] = self.typed[f][1]
                    out.append(f"let {m.group('v')} = {f} {self.reach(root, self.typed[f][0])} in")
                elif not f and root in self.env:
                    self.env[m.group("v")] = self.env[root]
                    inside = ".before" if root in self.roots else ""
                    out.append(f"let {m.group('v')} = {root}{inside} in")
                else:
                    out.append(text[m.start():m.start() + 4])
                    at = m.start() + 4
            elif m.group("pv"):
                f, root = m.group("pf"), m.group("pc").split(".")[0]
                if m.group("ps") in ("pre", "requires") and f in self.typed and len(self.clauses_here) > 1:
                    self.clause_vars[m.group("pv")] = self.clauses_here
                    self.env.pop(m.group("pv"), None)
                    inner = self.reach(root, self.typed[f][0]) if root in self.env else m.group("pc")
                    out.append(f"let {m.group('pv')} = ({f} {inner}).requires in")
                    continue
                if norm(m.group("ps")) in self.steps and f in self.typed:
                    self.step_vars[m.group("pv")] = m.group("ps")
                    self.env.pop(m.group("pv"), None)
                    inner = self.reach(root, self.typed[f][0]) if root in self.env else m.group("pc")
                    out.append(f"let {m.group('pv')} = ({f} {inner}).{self.steps[norm(m.group('ps'))]} in")
                else:
                    out.append(text[m.start():m.start() + 4])
                    at = m.start() + 4
            elif m.group("sv"):
                root, parts = m.group("sc").split(".")[0], m.group("sc").split(".")[1:]
                while parts and parts[0] == "before":
                    parts = parts[1:]
                if root in self.env and len(parts) == 1 and norm(parts[0]) in self.steps:
                    self.step_vars[m.group("sv")] = parts[0]
                    self.env.pop(m.group("sv"), None)
                if root in self.env and parts in (["requires"], ["pre"]) and len(self.clauses_here) > 1:
                    self.clause_vars[m.group("sv")] = self.clauses_here
                    self.env.pop(m.group("sv"), None)
                    out.append(f"let {m.group('sv')} = {root}.requires")
                    continue
                callee = self.clauses_of_step(parts[0]) if len(parts) == 2 and parts[1] == "ensures" else None
                if root in self.env and callee and len(callee["ensures"]) > 1 and norm(parts[0]) in self.steps:
                    self.clause_vars[m.group("sv")] = callee["ensures"]
                    self.env.pop(m.group("sv"), None)
                    out.append(f"let {m.group('sv')} = {root}.{self.steps[norm(parts[0])]}.ensures")
                    continue
                out.append(text[m.start():m.start("sc")])
                at = m.start("sc")
            elif m.group("f"):
                f, root = m.group("f"), m.group("fc").split(".")[0]
                if f in self.typed and root in self.env:
                    out.append(f"{f} {m.group('fp') or ''}{self.reach(root, self.typed[f][0])}")
                else:
                    out.append(f)
                    at = m.start() + len(f)
            elif m.group("root"):
                root, parts = m.group("root"), m.group("parts")[1:].split(".")
                if root in self.clause_vars:
                    out.append(".".join([root] + self.clause_path(self.clause_vars[root], parts)))
                elif root in self.step_vars:
                    kept = self.rest_of(self.step_vars[root], parts)[1:]
                    out.append(self.spread(".".join([root] + kept)))
                elif root in self.env:
                    out.append(self.spread(self.turn_chain(root, parts, answer)))
                else:
                    out.append(".".join([root] + self.turn_loose(parts)))
            else:
                parts = m.group("cparts")[1:].split(".")
                while parts and parts[0] == "before" and len(parts) > 1:
                    parts = parts[1:]
                turned = self.turn_steps(parts)
                if turned[-1].startswith("*"):
                    self.say(f"clauses of a place that is no variable: {parts}")
                    turned = turned[:-1]
                out.append(")." + ".".join(turned))
        out.append(text[at:])
        return "".join(out)

    def spread(self, chain):
        """`x.auto.a+b` is `x.auto.a, x.auto.b`."""
        m = re.match(r"(.*\.)\*(\w+(?:\+\w+)+)$", chain)
        if m:
            fields = [m.group(1) + f for f in m.group(2).split("+")]
            return "(" + ", ".join(fields) + ")"
        m = re.match(r"(.*\.auto\.)(\w+(?:\+\w+)+)$", chain)
        return ", ".join(m.group(1) + p for p in m.group(2).split("+")) if m else chain

    def turn_steps(self, parts):
        """The fields of a place that is no variable."""
        if parts[0] in ("requires", "pre"):
            return self.rest_of("requires", parts[1:])
        new = self.steps.get(norm(parts[0]))
        if norm(parts[0]) in self.arms and self.of_arm(parts[0], parts[1:]):
            return self.of_arm(parts[0], parts[1:])
        if new:
            return [new] + self.rest_of(parts[0], parts[1:])[1:]
        return [p.replace("-", "_") for p in parts]

    def turn_loose(self, parts):
        if parts[0] == "pre":
            return self.rest_of("requires", parts[1:])
        return ["invariant" if p == "inv" else p.replace("-", "_") for p in parts]

    def asked(self, need):
        """The clauses that a `..-requires` asks."""
        name = norm(re.sub(r"-requires(-\d+)?$", "", need))
        for path in self.names["params"]:
            if path.split("::")[-1] == name:
                found = ALL.get((path.split("::")[0], name))
                return found["requires"] if found else []
        return []

    def as_record(self, text, names):
        if len(names) < 2:
            return text
        body = text.rstrip()
        apart = " record { " + "; ".join(f"{n} = ({body.strip()})." + ".".join(["1"] * i + (["0"] if i + 1 < len(names) else [])) for i, n in enumerate(names)) + " }"
        if not body.endswith(")"):
            return apart
        depth, i = 0, len(body) - 1
        while i >= 0:
            depth += {")": 1, "(": -1}.get(body[i], 0)
            if depth == 0:
                break
            i -= 1
        if not (i == 0 or re.search(r"(^|\bin|=)\s*$", body[:i])):
            return apart
        parts = tuple_parts(body[i + 1:-1])
        while len(parts) < len(names) and parts[-1].strip().startswith("(") and parts[-1].strip().endswith(")"):
            parts = parts[:-1] + tuple_parts(parts[-1].strip()[1:-1])
        if len(parts) < len(names):
            self.say(f"asks {names}, and has {len(parts)} parts")
            return text
        if len(parts) > len(names):
            parts = parts[:len(names) - 1] + ["(" + ",".join(parts[len(names) - 1:]) + ")"]
        return body[:i] + "record { " + "; ".join(f"{n} = {p.strip()}" for n, p in zip(names, parts)) + " }"

    # ─── the file ───
    def place_types(self, text):
        """`tie.P inv dec` is an abbrev that stands for the place's record in Lts."""
        loops = "".join(rf" {re.escape(w)}" for w in self.tie_args)

        def one(m):
            place = self.place_named(m.group(1))
            if place is None:
                self.say(f"no place {m.group(1)}")
                return m.group(0)
            self.places_used[place] = True
            return "Place-" + place

        return re.sub(r"tie\.((?:After|At|In|Start|Then|Else|Join)[^\s()]*)" + loops, one, text)

    def turn(self):
        folder = f"crates/{self.crate}/proofs/{self.path}"
        text = read(f"{folder}/Proof.antt")
        parts = blocks(text)
        fn = self.path.split("/")[-1]
        self.clauses_here = self.clauses.get(fn, {}).get("requires", [])
        self.all_clauses = ALL
        self.callees = {}
        self.callee_of = {}
        for place in self.names["places"]:
            if place[3] and place[2][0]:
                self.callee_of[norm(place[2][0])] = place[3]
                self.callees[norm(place[2][0])] = place[3].split("::")[-1]
        needs = {}
        for at, (old, new) in enumerate(self.names["needs"]):
            needs[norm(old)] = (new, at)
        loops = {norm(old): (new, vars_, changed) for ((old, new), vars_), changed in zip(self.names["loops"], self.names["changed"])}
        self.tie_args = []
        m = re.search(r"tie\.Need-\S+((?: \S+)*)$", text, re.M)
        if m:
            self.tie_args = m.group(1).split()
        self.places_used = {}
        self.typed = {}
        for part in parts:
            body = "\n".join(part["lines"])
            m = re.match(r"(?:(?:abbrev|pub|unfoldable) )*(" + NAME + r") : (?:\((\w+) : )?tie\.((?:After|At|In|Start|Then|Else|Join)[^\s()]*)", body)
            if m:
                q = re.search(r"→ tie\.((?:After|At|In|Start|Then|Else|Join)[^\s()]*)", body.split("\n" + m.group(1))[0])
                self.typed[m.group(1)] = (self.place_named(m.group(3)), self.place_named(q.group(1)) if q else None)
        head, uses, inv_out, ans_out, local = [], [], [], [], []
        for part in parts:
            lines, comment = part["lines"], part["comment"]
            if lines and lines[0].startswith("use "):
                if not re.search(r"\.Statement\.\{statement\}|\.Tie as tie", lines[0]):
                    uses.append(lines[0])
                if comment and not head:
                    head = comment
                continue
            if not lines:
                head = head or comment
                continue
            body = "\n".join(lines).rstrip("\n")
            first = lines[0]
            inv = re.match(r"(?:abbrev |pub |unfoldable )*(invariant|decreases)-(\S+) :", first)
            need = re.match(r"(?:pub )?(" + NAME + r") : tie\.Need-(\S+)", first)
            if inv:
                loop = loops.get(norm(inv.group(2)))
                if not loop:
                    self.say(f"no loop {inv.group(2)}")
                    continue
                new, vars_, changed = loop
                rest = "\n".join(lines[1:]).rstrip()
                unfold = ""
                while rest.startswith("unfolding"):
                    l, _, rest = rest.partition("\n")
                    unfold += l + "\n"
                lhs, eq, rhs = rest.partition("=")
                params = lhs.split()[1:]
                current = [v for v, c in zip(vars_, changed) if c]
                expected = len(vars_) + len(current)
                if len(params) != expected:
                    self.say(f"{first}: {len(params)} arguments, {expected} expected: {vars_} {changed}")
                table = {}
                for p, v, c in zip(params, vars_, changed):
                    if p != "_":
                        table[p] = f"l.initial.{v}" if c else f"l.{v}"
                for p, v in zip(params[len(vars_):], current):
                    if p != "_":
                        table[p] = f"l.{v}"

                for p in table:
                    if re.search(r"(λ (?:\()?|\()" + re.escape(p) + r"(?= :|\.)", rhs):
                        self.say(f"{first}: `{p}` is bound again")

                def word(m):
                    w = m.group(0)
                    if m.start() and rhs[m.start() - 1] == ".":
                        return w
                    return table.get(w, w)

                rhs = re.sub(NAME, word, rhs)
                inv_out.append("\n".join(comment + [f"abbrev pub {inv.group(1)}-{new} : goal.{inv.group(1)}-{new}"]) + "\n" + unfold + f"{inv.group(1)}-{new} l ={rhs.rstrip()}\n")
                continue
            if need:
                keys = [norm(need.group(1)), norm(need.group(2)), norm(re.sub(r"^overflow-", "", need.group(2)))]
                found = next((needs[k] for k in keys if k in needs), None)
                rest = lines[1:]
                unfold = [l for l in rest if l.startswith("unfolding ")]
                rest = "\n".join(l for l in rest if not l.startswith("unfolding ")).rstrip()
                lhs, eq, rhs = rest.partition("=")
                words = lhs.split()
                if rhs.strip() == "search rules":
                    continue
                if found is None:
                    self.say(f"no goal {need.group(1)} ({need.group(2)})")
                    new = need.group(1)
                else:
                    new = found[0]
                if "κs" in rhs:
                    self.say(f"{new} speaks of κs")
                root = words[1] if len(words) > 1 else "c"
                # the record of a goal wraps its place where the place's type says something of values
                at = self.names["asked_at"][found[1]][0] if found else None
                index = [p[0] for p in self.names["places"]].index(at) if at else 0
                self.roots = {root} if self.names["typed"][index] else set()
                self.step_vars, self.clause_vars = {}, {}
                self.env = {root: self.names["asked_at"][found[1]][0] if found else None}
                rhs = self.turn_body(self.place_types(rhs), True)
                if need.group(1).startswith("returns") and len(self.clauses.get(fn, {}).get("ensures", [])) > 1:
                    rhs = self.as_record(rhs, self.clauses[fn]["ensures"])
                if "-requires" in need.group(1):
                    rhs = self.as_record(rhs, self.asked(need.group(1)))
                ans_out.append("\n".join(comment + [f"pub {new} : goal.{new}"] + unfold + [f"{new} {root} ={rhs.rstrip()}"]) + "\n")
                continue
            if re.match(r"pub " + NAME + r"[-_]spec\b", first):
                continue
            self.roots, self.env, self.step_vars, self.clause_vars = set(), {}, {}, {}
            if part["name"] in self.typed:
                place, to = self.typed[part["name"]]
                m = re.search(r"^" + re.escape(part["name"]) + r" (\w+)[^=]*=", body, re.M)
                p = re.match(r"[^:]*: \((\w+) : tie\.", body)
                for root in {m.group(1) if m else None, p.group(1) if p else None} - {None}:
                    self.env[root] = place
                if m and to:
                    continue
                else:
                    lemma = self.turn_body(self.place_types(body), False)
            else:
                lemma = self.turn_body(self.place_types(body), False)
            if part["name"] is None:
                self.say(f"a block without a name: {first}")
                continue
            local.append((part["name"], "\n".join(comment + [lemma]) + "\n"))
            ans_out.append(("local", part["name"]))
        inv_text = "".join(inv_out)
        locals_by = dict(local)
        order = [n for n, _ in local]
        shared = []
        grew = True
        seen = inv_text
        while grew:
            grew = False
            for n in order:
                if n not in shared and re.search(r"(?<![\w-])" + re.escape(n) + r"(?![\w-])", seen):
                    shared.append(n)
                    seen += locals_by[n]
                    grew = True
        out = []
        title = "\n".join(head)
        lib = f"Rattle.{self.crate}.proofs.{self.dotted}"
        if inv_out:
            pubs = []
            for n in order:
                if n in shared:
                    t = locals_by[n]
                    t = re.sub(r"^((?:--[^\n]*\n)*)(?!pub )(abbrev |unfoldable )?(?:pub )?", lambda m: m.group(1) + (m.group(2) or "") + "pub ", t, count=1)
                    pubs.append(t)
            body = "\n".join(pubs + inv_out)
            invariants = title + "\n" + "\n".join(uses + [f"use {lib}.Given as goal"]) + "\n\n" + body
            with open(f"{folder}/Invariants.antt", "w", encoding="utf-8") as f:
                f.write(invariants)
        for it in ans_out:
            if isinstance(it, tuple):
                if it[1] not in shared:
                    out.append(locals_by[it[1]])
            else:
                out.append(it)
        if out:
            more = [f"use {lib}.Goals as goal"]
            if self.negated:
                more += ["use mathlib.Core.Path as path", "use mathlib.Core.Bool as bool"]
            if shared:
                more.append(f"use {lib}.Invariants.{{{', '.join(n for n in order if n in shared)}}}")
            places = []
            if self.places_used:
                more += [f"use {lib}.Lts as lts", f"use {lib}.Tie as tie", f"use {lib}.Reads as reads"]
                inv = "".join(f" goal.the-invariant-{l[0][1]}" for l in self.names["loops"])
                dec = "".join(f" goal.the-decreases-{l[0][1]}" for l in self.names["loops"])
                asked = [ALL.get((c.split("::")[0], c.split("::")[-1])) for c in self.names["params"]] + [self.clauses.get(fn)]
                several = any(k and max(len(k["requires"]), len(k["ensures"])) > 1 for k in asked)
                handed = " tie.handed_clauses" if self.names["pre"] or several else ""
                for p in self.places_used:
                    of = "Past-" + p if p in self.past else p
                    claims = " tie.the-claims" if self.names["params"] else ""
                    places.append(f"abbrev Place-{p} : Type 0\nPlace-{p} = lts.{of}{claims} reads.Pre reads.Post{inv}{dec}{handed}\n")
            answers = title + "\n" + "\n".join(uses + more) + "\n\n" + "\n".join(places + out)
            with open(f"{folder}/Answers.antt", "w", encoding="utf-8") as f:
                f.write(answers)
        os.remove(f"{folder}/Proof.antt")


ALL = {}


def main():
    crate, only = sys.argv[1], sys.argv[2:]
    table = names_of(crate)
    for c in os.listdir("crates"):
        ALL.update({(c, k): v for k, v in clauses_of(c).items()})
    mine = clauses_of(crate)
    said = []
    for folder, _, files in sorted(os.walk(f"crates/{crate}/proofs")):
        if "Proof.antt" not in files:
            continue
        path = os.path.relpath(folder, f"crates/{crate}/proofs")
        if only and path not in only:
            continue
        text = read(f"{folder}/Proof.antt")
        if "Tie as tie" not in text:
            said.append(f"{crate}/{path}: by hand")
            continue
        key = f"Rattle-{crate}-proofs.{path.replace('/', '.')}.Lts"
        if key not in table:
            said.append(f"{crate}/{path}: no names for it")
            continue
        f = Function(crate, path, table, mine)
        f.turn()
        said += f.said
    print("\n".join(said))


main()
