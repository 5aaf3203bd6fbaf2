#!/usr/bin/env python3
"""Turns proofs of the older form to the present one: tools/turn_proofs.py CRATE_FOLDER [FUNCTION..]

An older proof of a function is one file, proofs/F/Proof.antt, which answers each goal by a declaration and hands them
to `tie.close`. This writes proofs/F/Invariants.antt and proofs/F/Answers.antt from it, by the map of old and new names
that `rt check --generated DIR --old-names` gives, and takes the old file away. The crates below have to prove.
It proves nothing: rt check decides. What it could not map is printed behind `left:`. It is for the crates of unfinished
work that stand as text (docs/PORT.md), and goes when they are taken up.
"""
import json
import os
import re
import shutil
import subprocess
import sys
import tempfile

PATH = re.compile(r"(?<![\w'.\-])([^\W\d][\w'\-]*)((?:\.[\w'«»\-]+)+)?")
FOUND_ALONE = ("search rules", "omega arith", "refl")
FROM_THE_START = ("args", "requires", "ranges", "lifetimes", "fits")


def same(name):
    # old and new names of one thing differ by hyphens and underscores
    return re.sub(r"[-_]", "", name)


class Declaration:
    def __init__(self, name, signature):
        self.name, self.signature, self.above, self.unfolding, self.clauses = name, signature, [], [], []

    def body(self):
        return "\n".join(self.clauses)

    def right(self):
        m = re.match(r"(?s)\S+.*?\s=\s*(.*)$", self.body())
        return m and m.group(1)


def read(text):
    """The comments at the head, the `use` lines and the declarations; a section is one that has no name."""
    head, uses, declarations, above = [], [], [], []
    for part in re.split(r"\n(?=\S)", text):
        part = part.rstrip()
        if not part:
            continue
        if part.startswith("--"):
            (above if uses else head).append(part)
        elif re.match(r"(pub )?use ", part):
            uses.append(part)
        elif part.startswith(")"):
            declarations[-1].clauses[-1] += "\n    " + part
        elif part.startswith("unfolding") and declarations:
            declarations[-1].unfolding.append(part)
        elif (m := re.match(r"(?:(?:abbrev|unfoldable) )?(?:pub )?([^\s:]+)\s*:\s", part)) and "=" not in part.split(":")[0]:
            declarations.append(Declaration(m.group(1), part))
            declarations[-1].above, above = above, []
        else:
            of = [d for d in declarations if d.name == part.split()[0]]
            if of:
                of[-1].clauses.append(part)
            else:
                declarations.append(Declaration("", part))
                declarations[-1].above, above = above, []
    return head, uses, declarations


class Names:
    """The names of one function's goals, places, steps, arms and loops: from the older to the present ones."""

    def __init__(self, told):
        self.goals, self.steps, self.places, self.arms, self.loops = {}, {}, {}, {}, {}
        for old, new in told["needs"]:
            self.goals.setdefault(same(old), new)
        for (place, _, step, *_), new in zip(told["places"], told["places_by_name"]):
            self.places[same(place)] = new
            if step and step[0]:
                self.steps.setdefault(same(step[0]), step[1])
        for ((old, new), variables), changed in zip(told["loops"], told["changed"]):
            self.steps.setdefault(same(old), new)
            self.loops[same(old)] = (new, variables, changed)
        for arm in filter(None, told["arms"]):
            for field, step, path in arm[2]:
                self.arms.setdefault(tuple(map(same, [step, *path])), f"{arm[0]}.{field}")

    def goal(self, old):
        return self.goals.get(same(re.sub(r"^overflow-", "", old))) or self.goals.get(same(old))

    def place(self, old):
        return self.places.get(same(old), old)

    def path(self, parts):
        """What follows `c` in the present form for an older path without its `before`s; None where it isn't known."""
        keys = [same(p) for p in parts]
        for k in range(len(keys), 0, -1):
            if tuple(keys[:k]) in self.arms:
                return [self.arms[tuple(keys[:k])], *parts[k:]]
        if keys[0] in FROM_THE_START:
            return ["self" if p == "t1" else p for p in parts] if keys[0] == "args" else parts
        return [self.steps[keys[0]], *parts[1:]] if keys[0] in self.steps else None


def rewritten(text, names, hops, left):
    """A body with flat paths. `hops` are abbreviations that only lead from a place to an earlier one."""
    for h in hops * 3:
        text = re.sub(r"\(" + re.escape(h) + r" ([^\s()]+)\)", r"\1.before", text)
        text = re.sub(r"(?<![\w'\-])" + re.escape(h) + r" ([^\s()]+)", r"(\1.before)", text)
    roots = {"c"}
    while more := {m.group(1) for m in re.finditer(r"let ([^\s:=]+) = ([^\s.()]+)(?:\.before)* in", text) if m.group(2) in roots} - roots:
        roots |= more

    def flat(m):
        parts = [p for p in (m.group(2) or "").split(".") if p]
        if m.group(1) not in roots:
            return m.group(0)
        while parts and parts[0] == "before":
            parts.pop(0)
        if not parts:
            return "c"
        new = names.path(parts)
        if new is None:
            left.append("path " + m.group(0))
        return ".".join(["c", *(new or parts)])

    return re.sub(r"let c = c in\s*", "", PATH.sub(flat, text)).replace("(c)", "c")


def loop_term(d, names, left):
    """An invariant or a measure: its parameters, one for each variable, become fields of `l`."""
    kind, of = d.name.split("-", 1)
    new, variables, changed = names.loops[same(of)]
    moving = [v for v, x in zip(variables, changed) if x]
    parameters = re.match(r"(?s)(.*?)\s=\s", d.body()).group(1).split()[1:]
    if len(parameters) != len(variables) + len(moving):
        left.append(f"{d.name}: {len(parameters)} parameters for {variables} and {moving}")
    fields = [f"l.initial.{v}" if x else f"l.{v}" for v, x in zip(variables, changed)] + [f"l.{v}" for v in moving]
    to = dict(zip(parameters, fields))
    term = PATH.sub(lambda m: to[m.group(1)] + (m.group(2) or "") if m.group(1) in to else m.group(0), d.right())
    return written(d.above, f"abbrev pub {kind}-{new} : goal.{kind}-{new}", d.unfolding, f"{kind}-{new} l = {term}")


def written(above, signature, unfolding, body):
    return "\n".join([*above, signature, *unfolding, body])


def turned(text, module, names, left):
    """The texts of Invariants.antt and Answers.antt; an empty one is not needed."""
    head, uses, declarations = read(text)
    uses = [u for u in uses if not u.endswith((".Tie as tie", ".Statement.{statement}"))]
    hops = [d.name for d in declarations if re.search(r":\s*tie\.\S+[^→]*→ tie\.(?!Need)\S+[^→]*$", d.signature)]
    loops, helpers, answers, at = [], [], [], {}
    for d in declarations:
        goal = re.search(r":\s*tie\.Need-(\S+)", d.signature)
        place = re.search(r":\s*\(c : tie\.(\S+?)[ )]", d.signature)
        if "tie.close" in d.body() or d.name in hops:
            continue
        if not d.name:
            helpers.append(written(d.above, d.signature, [], "").rstrip())
        elif re.match(r"(invariant|decreases)-", d.name):
            loops.append(loop_term(d, names, left))
        elif not goal:
            if place:
                at[d.name] = names.place(place.group(1))
                left.append(f"{d.name} is of the place {at[d.name]}")
            signature = re.sub(r"tie\.(\S+?)(?: (?:invariant|decreases)-\S+?)*(?=[)\s])", lambda m: names.place(m.group(1)), d.signature)
            body = rewritten(d.body(), names, hops, left) if place else d.body()
            helpers.append(written(d.above, rewritten(signature, names, hops, left) if place else signature, d.unfolding, body))
        elif d.right().strip() not in FOUND_ALONE:
            new = names.goal(goal.group(1))
            term = rewritten(d.right(), names, hops, left)
            if not new:
                left.append(f"no goal {goal.group(1)}: {term}")
                continue
            for h, p in at.items():
                term = re.sub(r"(?<![\w'\-])" + re.escape(h) + r" c(?![\w'.\-])", f"{h} (goal.at.{new} c).{p}", term)
            answers.append(written(d.above, f"pub {new} : goal.{new}", d.unfolding, f"{new} c =" + ("\n    " if "\n" in term else " ") + term))
    top = "\n".join(head + uses)
    places = f"\nuse {module}.Goals.{{{', '.join(sorted(set(at.values())))}}}" if at else ""
    first = f"{top}\nuse {module}.Given as goal\n\n" + "\n\n".join(loops) + "\n" if loops else ""
    second = f"{top}\nuse {module}.Goals as goal{places}\n\n" + "\n\n".join(helpers + answers) + "\n" if helpers or answers else ""
    return first, second


def turn(folder, module, told):
    old = os.path.join(folder, "Proof.antt")
    with open(old, encoding="utf-8") as f:
        text = f.read()
    if "tie.close" not in text:
        return "left: a walk by hand"
    left = []
    for name, new in zip(("Invariants", "Answers"), turned(text, module, Names(told), left)):
        if new:
            with open(os.path.join(folder, name + ".antt"), "w", encoding="utf-8") as f:
                f.write(new)
    os.remove(old)
    return "".join("\n    left: " + x for x in left)


def main(argv):
    if not argv:
        print(__doc__)
        return 2
    crate, only = os.path.abspath(argv[0]), argv[1:]
    top = tempfile.mkdtemp()
    said = subprocess.run(["rt", "check", "--generated", os.path.join(top, "names"), "--old-names"], cwd=crate, capture_output=True, text=True)
    try:
        with open(os.path.join(top, "names", "names.json"), encoding="utf-8") as f:
            told = json.load(f)
    except OSError:
        print(said.stdout[-2000:], said.stderr[-2000:])
        return 1
    finally:
        shutil.rmtree(top)
    for key in told:
        if not key.endswith(".Lts"):
            continue
        function = key[: -len(".Lts")].split("-proofs.")[1]
        folder = os.path.join(crate, "proofs", *function.split("."))
        if (not only or function in only) and os.path.exists(os.path.join(folder, "Proof.antt")):
            print(function, turn(folder, f"Rattle.{os.path.basename(crate)}.proofs.{function}", told[key]))
    return 0


if __name__ == "__main__":
    sys.exit(main(sys.argv[1:]))
