#!/usr/bin/env python3
"""Turns proofs by `tie.spec` (Proof.antt) into Invariants.antt and Answers.antt: tools/port_answers.py NAMES CRATE..

NAMES is the folder that `rt check --generated NAMES --old-names` wrote in the crate: it has each goal's and each step's old and new name.
A Proof.antt that does not fit is left, and said. Run in the top folder; look through what comes out, and check.
"""
import glob
import json
import os
import re
import sys

WORD = r"[^\s(){}.;,]+"
PATH = re.compile(r"(?<![^\s(){};,])([a-zα-ω][^\s(){}.;,]*)((?:\.[^\s(){}.;,]+)+)")
norm = lambda s: s.replace("-", "_")
bare = lambda s: re.sub(r"^slice_bounds_", "part_", re.sub(r"^(overflow|nonzero)_", "", norm(s)))


def ensures_labels():
    """Of each function of the tree, by its path: the labels of its requires and of its ensures."""
    found = {}
    for path in glob.glob("crates/*/src/**/*.rt", recursive=True):
        parts = path.split("/")
        crate = parts[1]
        module = [p for p in parts[3:]]
        module[-1] = module[-1][:-3]
        module = [m for m in module if m not in ("lib", "main", "mod")]
        text = open(path).read()
        for m in re.finditer(r"(?m)^(?:pub(?:\(\w+\))? )?(?:unsafe )?(?:extern \"C\" )?fn (\w+)", text):
            body = re.compile(r"(?m)^\{").search(text, m.end())
            head = text[m.end() : body.start() if body else len(text)]
            req = re.findall(r"(?m)^\s+requires (?:(\w+) )?\{", head)
            ens = re.findall(r"(?m)^\s+ensures (?:(\w+) )?\{", head)
            params = re.findall(r"(\w+)\s*:", re.sub(r"requires[\s\S]*|ensures[\s\S]*|->[\s\S]*", "", head))
            end = re.compile(r"(?m)^\}").search(text, m.end())
            found["::".join([crate] + module + [m.group(1)])] = (req, ens, params, text[m.end() : end.start() if end else None])
    return found


def split_top(text, sep):
    """Splits text at top-level separators."""
    parts, depth, at = [], 0, 0
    i = 0
    while i < len(text):
        ch = text[i]
        if ch in "({[":
            depth += 1
        elif ch in ")}]":
            depth -= 1
        elif depth == 0 and text.startswith(sep, i):
            parts.append(text[at:i])
            at = i + len(sep)
            i = at
            continue
        i += 1
    parts.append(text[at:])
    return parts


def arguments(text):
    """Top-level arguments of an application."""
    out, depth, cur = [], 0, ""
    for ch in text:
        if ch in "({[":
            depth += 1
        if ch in ")}]":
            depth -= 1
        if depth == 0 and ch.isspace():
            if cur:
                out.append(cur)
            cur = ""
        else:
            cur += ch
    if cur:
        out.append(cur)
    return out


def whole_group(text):
    """Whether one pair of parentheses covers the text."""
    if not (text.startswith("(") and text.endswith(")")):
        return False
    depth = 0
    for i, ch in enumerate(text):
        depth += ch in "({["
        depth -= ch in ")}]"
        if depth == 0 and i < len(text) - 1:
            return False
    return True


def to_record(expr, labels, known=lambda step: None):
    expr = expr.strip()
    m = re.fullmatch(r"c\.([^\s().]+)\.ensures", expr)
    if m and known(m.group(1)) and len(known(m.group(1))) == len(labels):
        return "record { " + "; ".join(f"{a} = {expr}.{b}" for a, b in zip(labels, known(m.group(1)))) + " }"
    if re.match(r"let\b", expr):
        at = last_in(expr)
        if at is not None:
            body = to_record(expr[at + 3 :], labels, known)
            return body and expr[: at + 3] + "\n    " + body
    if whole_group(expr):
        parts = split_top(expr[1:-1], ",")
        parts = [p for p in parts if p.strip()]
        if len(parts) == 1:
            return to_record(parts[0], labels, known)
        fields, rest = [], expr
        while len(labels) > len(fields) + 1:
            parts = [p for p in split_top(rest.strip()[1:-1], ",") if p.strip()] if whole_group(rest.strip()) else [rest]
            if len(parts) == 1:
                left = labels[len(fields) :]
                return "record { " + "; ".join(f"{a} = {b.strip()}" for a, b in list(zip(labels, fields)) + [(l, f"({parts[0].strip()}){pick(i, len(left))}") for i, l in enumerate(left)]) + " }"
            fields.append(parts[0])
            rest = ",".join(parts[1:]) if len(parts) == 2 else "(" + ",".join(parts[1:]) + ")"
        fields.append(rest)
        return "record { " + "; ".join(f"{a} = {b.strip()}" for a, b in zip(labels, fields)) + " }"
    args = arguments(expr)
    if args and args[0] in ("rw", "simp") and len(args) >= 3 and whole_group(args[-1]):
        at = expr.rindex(args[-1])
        return expr[:at] + "(" + to_record(args[-1], labels, known) + ")"
    if args and args[0] == "rw":
        at = expr.rindex(args[-1])
        if re.fullmatch(r"c\.([^\s().]+)\.ensures", args[-1]):
            got = to_record(args[-1], labels, known)
            return got and expr[:at] + "(" + got + ")"
        return None
    if args[:2] == ["search", "rules"] or args[0] in ("search", "omega", "grind"):
        return expr
    if expr.startswith("record {"):
        return expr
    if len(labels) > 6:
        return None
    names = "abdefg"[: len(labels)]
    both = "both" if len(labels) == 2 else f"both_{len(labels)}"
    return f"{both} (λ {' '.join(names)}. record {{ " + "; ".join(f"{l} = {x}" for l, x in zip(labels, names)) + f" }}) ({expr})"


def pick(i, n):
    return ".1" * i + (".0" if i < n - 1 else "")


def last_in(expr):
    """Where the last ` in ` of a chain of lets stands."""
    depth, at, lets = 0, None, 0
    for m in re.finditer(r"[({\[]|[)}\]]|(?<![\w-])let(?![\w-])|(?<![\w-])in(?![\w-])", expr):
        t = m.group(0)
        if t in "({[":
            depth += 1
        elif t in ")}]":
            depth -= 1
        elif depth == 0 and t == "let":
            lets += 1
        elif depth == 0 and t == "in":
            lets -= 1
            if lets == 0:
                at = m.start() - 1
                rest = expr[m.end() :].lstrip()
                if not re.match(r"let\b", rest) and not rest.startswith("("):
                    return at
                if rest.startswith("(") or True:
                    nxt = re.match(r"let\b", rest)
                    if not nxt:
                        return at
    return at


class Fit(Exception):
    pass


class Function:
    def __init__(self, crate, folder, entry, labels):
        self.crate, self.folder, self.n, self.labels = crate, folder, entry, labels
        self.steps, self.callee = {}, {}
        for place, parent, (old, new), callee, *_ in entry["places"]:
            self.steps.setdefault(norm(old), new)
            self.callee.setdefault(norm(old), callee)
        self.called = {c.split("::")[-1] for c in self.callee.values() if c}
        self.arms = {}
        for arm in entry["arms"]:
            if arm:
                for field, old, path in arm[2]:
                    self.arms.setdefault(norm(old), {})[tuple(path)] = f"{arm[0]}.{field}"
        self.clauses, self.by_new = {}, {}
        for place, clause in zip(entry["places"], entry["clauses"]):
            if clause and clause.get("fields"):
                self.clauses[norm(place[2][0])] = clause["fields"]
                self.by_new[place[2][1]] = clause["fields"]
        self.typed = {}
        for row in entry["typed"]:
            for var, step in row:
                self.typed[norm(step)] = var
        self.odd = []

    def plain(self, name):
        """Whether `!name` tests a call or a variable, and no field."""
        return not (self.own and re.search(r"!" + re.escape(name) + r"\.", self.own[3]))

    def clause(self, segs, names):
        """Positions of a pair of clauses, as labels."""
        if len(names) == 1 and segs[:1] != names:
            return names + segs
        if not segs or len(names) < 2 or segs[0] not in ("0", "1"):
            return segs
        i = 0
        while i < len(names) - 1:
            if not segs:
                raise Fit("clauses as a whole")
            if segs[0] == "0":
                return [names[i]] + segs[1:]
            segs = segs[1:]
            i += 1
            if i == len(names) - 1:
                return [names[i]] + segs
        return segs

    def path(self, base, segs, alias):
        if base in alias:
            segs = alias[base] + segs
        elif base != self.root:
            return base + "".join("." + norm(s) for s in segs)
        while segs and segs[0] == "before":
            segs = segs[1:]
        if not segs:
            return "c"
        head, rest = norm(segs[0]), [norm(s) for s in segs[1:]]
        if head == "args":
            own = self.own[2] if self.own else []
            if rest and re.fullmatch(r"t\d+", rest[0]) and rest[0] not in own and int(rest[0][1:]) <= len(own):
                rest = [own[int(rest[0][1:]) - 1]] + rest[1:]
            return "c" + "".join("." + s for s in ["args"] + rest)
        if head == "requires":
            fields = (self.n["pre"] or {}).get("fields") or []
            return "c" + "".join("." + s for s in ["requires"] + self.clause(rest, fields))
        if head in self.typed and rest and rest[0] == "given":
            return "c" + "".join("." + s for s in ["type_inv", self.typed[head]] + rest[1:])
        if head not in self.steps and head.endswith("_lem"):
            head = head[:-4]
        if head not in self.steps and head[0].lower() + head[1:] in self.steps:
            head = head[0].lower() + head[1:]
        for n in range(len(rest), 0, -1):
            field = self.arms.get(head, {}).get(tuple(rest[:n]))
            if field and not field.endswith("-own"):
                return "c." + field + "".join("." + s for s in rest[n:])
        if head in self.steps:
            if rest and rest[0] == "ensures" and head in self.clauses:
                rest = ["ensures"] + self.clause(rest[1:], self.clauses[head])
            if rest and rest[0] in ("true", "false") and len(rest) == 1 and self.steps[head].startswith("if-not-") and self.plain(re.sub(r"-\d+$", "", self.steps[head][7:])):
                return f"(ap not c.{self.steps[head]}.{rest[0]})"
            return "c." + self.steps[head] + "".join("." + s for s in rest)
        self.odd.append(f"step {head}")
        return "c." + head + "".join("." + s for s in rest)

    def expression(self, text, root="c"):
        self.root = root
        alias = {}
        bound = set(re.findall(r"\blet (\S+)", text)) | {x for m in re.findall(r"λ ([^.]*)\.", text) for x in re.findall(r"[^\s():]+", m)}
        # places that a let names
        while True:
            m = re.search(r"let (\S+) = (\S+?)((?:\.before)*) in\s*", text)
            found = None
            for m in re.finditer(r"let (\S+) = ([^\s.()]+)((?:\.[^\s.()]+)*) in\s*", text):
                base, segs = m.group(2), [s for s in m.group(3).split(".") if s]
                if base != root and base not in alias:
                    continue
                full = (alias.get(base, []) if base != root else []) + segs
                if all(s == "before" for s in full):
                    found = m
                    alias[m.group(1)] = full
                    break
            if not found:
                break
            text = text[: found.start()] + text[found.end() :]

        # clauses that a let names: positions become labels
        while True:
            found = None
            for m in re.finditer(r"let (\S+) = ([^\s.()]+)((?:\.[^\s().]+)+) in\s+", text):
                base, segs = m.group(2), [s for s in m.group(3).split(".") if s]
                if base == root or base in alias:
                    found = m
                    full = (alias.get(base, []) if base != root else []) + segs
                    break
            if not found:
                break
            text = text[: found.start()] + text[found.end() :]
            text = re.sub(r"(?<![^\s(){};,])" + re.escape(found.group(1)) + r"(?=[\s(){};,.]|$)", root + "." + ".".join(full), text)

        def one(m):
            base, segs = m.group(1), m.group(2)[1:].split(".")
            if base == root or base in alias or base in bound:
                return self.path(base, segs, alias)
            return m.group(0)

        text = PATH.sub(one, text)
        # a test on `!b` says what it says of b
        return re.sub(r"not-(?:true|false) (?:\([^()]*\)|[^\s()]+) \(ap not ([^\s()]+)\)", r"\1", text)


def declarations(text):
    """Blocks of a proof file: uses, and (names, text) of each declaration."""
    uses, decls, comments = [], [], []
    lines = text.split("\n")
    i = 0
    while i < len(lines):
        line = lines[i]
        if re.match(r"(pub )?use ", line):
            uses.append(line)
            i += 1
        elif line.startswith("--"):
            comments.append(line)
            i += 1
        elif line.strip():
            block = [line]
            i += 1
            name = re.match(r"(?:pub |abbrev |unfoldable )*(\S+)", line).group(1)
            while i < len(lines) and (not lines[i].strip() or lines[i][0].isspace() or lines[i][0] in ")]}" or lines[i].startswith("unfolding") or lines[i].split(" ")[0] == name):
                block.append(lines[i])
                i += 1
            decls.append((name, "\n".join(block).rstrip()))
        else:
            i += 1
    return comments, uses, decls


def turn(crate, path, names, labels):
    folder = os.path.dirname(path)
    rel = folder.split(f"crates/{crate}/proofs/")[1].replace("/", ".")
    key = f"Rattle-{crate}-proofs.{rel}.Lts"
    if key not in names:
        raise Fit("no names")
    f = Function(crate, folder, names[key], labels)
    f.own = own = labels.get("::".join([crate] + rel.split(".")))
    comments, uses, decls = declarations(open(path).read())
    spec = [t for n, t in decls if n.endswith("_spec") or n.endswith("-spec")]
    if len(spec) != 1 or "tie.spec" not in spec[0]:
        raise Fit("no tie.spec")
    inside = spec[0][spec[0].index("tie.spec") + 8 :].strip()
    inside = inside[: inside.rindex(")")]
    args = arguments(inside)
    by_name = dict(decls)
    loops = {}
    rest = []
    for a in args:
        head = by_name.get(a, "").split("\n")[0]
        if re.search(r": tie\.(invariant|decreases)-", head):
            loops[a] = by_name[a]
        else:
            rest.append(a)
    needs = f.n["needs"]
    extra = []
    if len(rest) != len(needs):
        # what the new kit does not ask any more, or anew: named answers go by their old names
        olds = [bare(o) for o, _ in needs]
        placed = {}
        for a in rest:
            head = by_name.get(a, "").split("\n")[0]
            m = re.search(r": tie\.Need-(\S+)", head)
            if m:
                o = bare(m.group(1))
                if o in olds:
                    placed[o] = a
                else:
                    extra.append(o)
        rest = [placed.get(o, "(λ c. search rules)") for o in olds]
        print(f"  {path}: {len(args) - len(loops)} answers for {len(needs)} goals; not asked: {' '.join(extra)}")
    answers, later = [], set()
    for a, (old, new) in zip(rest, needs):
        if a in by_name:
            text = by_name[a]
            m = re.search(r": tie\.Need-(\S+)", text.split("\n")[0])
            if m and bare(m.group(1)) != bare(old):
                raise Fit(f"{m.group(1)} stands for {old}")
            unfolding = re.search(r"(?m)^unfolding (.*)$", text)
            body = re.search(r"(?ms)^" + re.escape(a) + r" (\w+)(?: κs)? =(.*)$", text)
            if not body:
                raise Fit(f"{a} has another form")
            root, body, unfolding = body.group(1), body.group(2), unfolding and unfolding.group(1)
        else:
            m = re.match(r"(?s)\(λ (\w+)(?: κs)?\. (.*)\)$", a)
            if not m:
                raise Fit(f"{a} is not named")
            root, body, unfolding = m.group(1), m.group(2), None
        if " ".join(body.split()) == "search rules" and not unfolding:
            continue
        body = f.expression(body, root)
        clauses = f.n["asked"].get(old) or []
        if len(clauses) > 1:
            fields = (f.n["pre"] or {}).get("fields") or []
            if body.strip() == "c.requires" and len(fields) == len(clauses):
                body = "record { " + "; ".join(f"{a} = c.requires.{b}" for a, b in zip(clauses, fields)) + " }"
            body = to_record(body, clauses, lambda step: f.by_new.get(step))
            if body is None:
                print(f"  {path}: {new}: left to the search")
                continue
        if f.odd:
            print(f"  {path}: {new}: {', '.join(sorted(set(f.odd)))}")
            f.odd = []
        body = re.sub(r"\n(?=\S)", "\n    ", body.strip())
        for a2, (_, new2) in zip(rest, needs):
            if a2 in by_name:
                body, n = re.subn(r"(?<![^\s(])" + re.escape(a2) + r" c(?=[\s).])", new2 + " c", body)
                later.add(new) if n else None
        answers.append((new, unfolding, "\n    " + body if "\n" in body else " " + body))
    answers.sort(key=lambda a: a[0] in later)
    others = [t for n, t in decls if n not in loops and n not in rest and n not in [by_name.get(x) for x in rest] and not (n.endswith("_spec") or n.endswith("-spec")) and not re.search(r": tie\.Need-", t.split("\n")[0])]
    uses = [u for u in uses if not re.search(r"\.(Statement|Tie)\b", u)]
    more = ["use Rattle.lib_laws.specs.Both.{both, both_3, both_4, both_5, both_6}", "use Rattle.std.proofs.Common.{ap}", "use mathlib.Core.Bool.{not}"]
    kept = lambda text: [u for u in (used(u, text) for u in uses + more) if u]
    module = f"Rattle.{crate}.proofs.{rel}"
    if loops:
        out = []
        index = {norm(old): (new, vars, changed) for (((old, new), vars), changed) in zip(f.n["loops"], f.n["changed"])}
        for a, text in loops.items():
            kind, old = re.search(r": tie\.(invariant|decreases)-(\S+)", text.split("\n")[0]).groups()
            if norm(old) not in index:
                raise Fit(f"no loop {old}")
            new, vars, changed = index[norm(old)]
            m = re.search(r"(?ms)^" + re.escape(a) + r" ([^=]*?) =(.*)$", text)
            params = m.group(1).split()
            initial = [f"l.initial.{v}" for v in vars]
            wants = []
            for v, ch in zip(vars, changed):
                wants.append((v, ch))
            order = [f"l.initial.{v}" if ch else f"l.{v}" for v, ch in wants] + [f"l.{v}" for v, ch in wants if ch]
            if len(params) != len(order):
                raise Fit(f"{len(params)} parameters of {a}, {len(order)} in the loop {vars} {changed}")
            table = dict(zip(params, order))
            body = re.sub(r"(?<![^\s(){};,])([^\s(){}.;,]+)", lambda m: table.get(m.group(1), m.group(1)), m.group(2))
            out.append(f"abbrev pub {kind}-{new} : goal.{kind}-{new}\n{kind}-{new} l ={body}")
        text = "\n\n".join(others + out)
        with open(os.path.join(folder, "Invariants.antt"), "w") as g:
            g.write("\n".join(comments[:1] + kept(text) + [f"use {module}.Given as goal", ""]) + "\n" + text + "\n")
    if answers:
        parts = [] if loops else others
        for new, unfolding, body in answers:
            parts.append(f"pub {new} : goal.{new}\n" + (f"unfolding {unfolding}\n" if unfolding else "") + f"{new} c ={body}")
        text = "\n\n".join(parts)
        with open(os.path.join(folder, "Answers.antt"), "w") as g:
            g.write("\n".join(([] if loops else comments[:1]) + kept(text) + [f"use {module}.Goals as goal", ""]) + "\n" + text + "\n")
    os.remove(path)


def used(line, text):
    """A use line with the names that the text has."""
    m = re.match(r"((?:pub )?use \S+?\.)\{(.*)\}$", line)
    words = set(re.findall(r"[^\s(){}.;,]+", text))
    if not m:
        name = re.split(r"[. ]", line.strip())[-1]
        return line if name in words else None
    names = []
    for n in m.group(2).split(", "):
        alias = n.split(" as ")[-1]
        ops = [p for p in alias.split("◌") if p]
        if (("◌" in alias and all(o in words for o in ops)) or alias in words or any(w.startswith(alias) and w == alias for w in words)):
            names.append(n)
    return f"{m.group(1)}{{{', '.join(names)}}}" if names else None


def main():
    names = json.load(open(os.path.join(sys.argv[1], "names.json")))
    labels = ensures_labels()
    for crate in sys.argv[2:]:
        done, left = 0, []
        for path in sorted(glob.glob(f"crates/{crate}/proofs/**/Proof.antt", recursive=True)):
            try:
                turn(crate, path, names, labels)
                done += 1
            except Fit as e:
                left.append(f"  {path}: {e}")
        print(f"{crate}: {done} turned, {len(left)} left")
        print("\n".join(left))


if __name__ == "__main__":
    main()
