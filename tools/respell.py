#!/usr/bin/env python3
"""Spells the repository's own definitions, lemmas, fields, constructors and variables as Rattle's libraries spell theirs.

usage: tools/respell.py          at the top of the repository, once, after the kit's port.py

A word is in snake case. A dash joins what has a name of its own, a function or a type, to the rest of a lemma's name; plain
words hang on by an underscore: `jobsDue-after-spans` becomes `jobs_due-after_spans`, `lt-or-le` becomes `lt_or_le`. Types and
modules keep their camel case. What comes from a library, what Rattle makes of the code, functions of src/, exported names and
strings keep theirs. OTHER_NAMES has the names that would meet another of the same scope.
"""
import collections
import glob
import os
import re
import sys

NAME = re.compile(r"[^\s(){}\[\].;,@\"«»`|]+")
PLAIN = re.compile(r"[A-Za-z◌][\w'₀-₉⁰-⁹◌-]*\Z")
DECLARED = re.compile(r"^ *(?:pub |abbrev |unfoldable |pattern |mod |data |record )*(?P<names>[^\s(){}.;,@\"«»:]+(?: [^\s(){}.;,@\"«»:]+)*)(?: \{[^{}]*\}| \([^()]*\))* :(?=\s|$)")
USE = re.compile(r"^\s*(?:ghost )?(?:pub )?use ([^\s;{]+?)(?:\.?\{(.*?)\})?(?: as ([^\s;]+))?;?\s*$")

# Names that would meet another one in the same place: a lemma of its function's name ends in `_lem`.
OTHER_NAMES = {n: n.replace("-", "_") + "_lem" for n in (
    "alone-cost", "and-then", "columns-fit", "core-cost", "cores-cost", "entry-cost", "entry-load", "entry-ticks", "has-key", "in-set", "item-at",
    "kept-best", "kept-items", "key-bound", "least-over-halves", "pattern-tasks", "plan-worth", "ready-for", "refusal-line", "refused-cost", "state-fits",
    "state-passes", "timing-of",
)} | {
    "all-rises": "sum_of_rises",
    "at-start": "as_begun",
    "choices-pass": "choices_pass-iff",
    "jobs-pass": "jobs_pass-iff",
    "slots-pass": "slots_pass-iff",
    "eachWithin": "all_within",
    "ended-early": "ended_by_report",
    "in-century": "within_century",
    "level-count": "level_count_bound",
    "task-count": "task_count_bound",
    "no-cost": "costs_nothing",
    "no-level-yet": "before_any_level",
    "on-core": "on_this_core",
    "table-size": "table_length",
}
# The same in one file alone.
NAMES_OF_FILE = {
    "dispatch/specs/CallLaws": {"ready_for": "ready_for_lem"},
    "instance/specs/SiteFileLaws": {"level-count": "level_number", "task-count": "task_number"},
    "partition/specs/SplitLaws": {"in_top": "lowered_in_top", "in_rest": "lowered_in_rest"},
    "raising/specs/ExactTables": {"at_level": "at_level_lem"},
}


def crates():
    return sorted(os.path.basename(d) for d in glob.glob("crates/*"))


def respelled(name):
    if name in OTHER_NAMES:
        return OTHER_NAMES[name]
    if not PLAIN.match(name) or name.startswith("Rattle"):
        return name
    parts = [p for p in name.split("-")]
    if "" in parts:
        return name
    named = []
    words = []
    for p in parts:
        camel = re.search(r"[a-z0-9'][A-Z]", p) is not None and p.strip("◌")[0].islower()
        kind = camel or p.strip("◌")[:1].isupper()
        words.append(re.sub(r"(?<=[a-z0-9'])([A-Z]+)", lambda m: "_" + m[1].lower(), p) if camel else p)
        named.append(kind)
    out = words[0]
    for i in range(1, len(words)):
        out += ("-" if named[i - 1] or named[i] else "_") + words[i]
    return out


def uncommented(line):
    m = re.search(r"(?:^|(?<=\s))--(?=\s|$)", line)
    return (line[: m.start()], line[m.start():]) if m else (line, "")


def antt_files():
    return sorted(f for f in glob.glob("crates/*/specs/**/*.antt", recursive=True)) + sorted(
        f for f in glob.glob("crates/*/proofs/**/*.antt", recursive=True))


def is_theory(path):
    """A file of definitions or lemmas, and not the proof of one function."""
    return "/specs/" in path or path.count("/") == 3


def own_helpers(text):
    """What the proof of a function declares beside its goals, with its spelling."""
    out = {}
    for line in text.split("\n"):
        code, _ = uncommented(line)
        m = DECLARED.match(code)
        if m and not re.match(r"(\{[^{}]*\} → )?(tie\.|statement\b)", code[m.end():].lstrip()):
            out.update({n: respelled(n) for n in m["names"].split(" ") if respelled(n) != n})
    return out


def uses(text, ours):
    """Names that the file takes from libraries, and from this repository."""
    library, own = set(), set()
    for m in re.finditer(r"(?m)^\s*(?:ghost )?(?:pub )?use ([^\s;{]+?)(?:\.?\{([^}]*)\})?(?: as ([^\s;]+))?;?[ \t]*$", text):
        steps = m[1].strip(".").split(".")
        mine = steps[0] == "Rattle" and len(steps) > 1 and steps[1] in ours
        for w in (m[2] or "").split(","):
            w = w.strip()
            if w:
                (own if mine else library).update(x.strip() for x in w.split(" as "))
    return library, own


def main():
    ours = set(crates())
    declared = set()
    for f in filter(is_theory, antt_files()):
        text = open(f, encoding="utf-8").read()
        library, _ = uses(text, ours)
        for line in text.split("\n"):
            code, _ = uncommented(line)
            m = DECLARED.match(code)
            if m:
                for n in m["names"].split(" "):
                    if n not in library:
                        declared.add(n)
    changed = {n for n in declared if respelled(n) != n}
    falls = collections.defaultdict(set)
    captures = []

    def spell(name, library, everything):
        if name in library:
            return name
        bare = name
        if bare in changed or (everything and respelled(bare) != bare):
            return respelled(bare)
        # an operator's name or its use between two arguments
        wrapped = "◌" + bare + "◌"
        if wrapped in changed:
            return respelled(wrapped).strip("◌")
        return name

    def turn_code(code, library, everything, here={}):
        out, at = [], 0
        for m in NAME.finditer(code):
            out.append(code[at:m.start()])
            word = m[0]
            after_dot = m.start() > 0 and code[m.start() - 1] == "."
            before_dot = code[m.end():m.end() + 1] == "." and code[m.end() + 1:m.end() + 2] not in ("", " ", "\n")
            new = here.get(word) if word in here and not after_dot else spell(word, library if not after_dot else (), everything and not after_dot and not (before_dot and word[:1].isupper()))
            out.append(new)
            at = m.end()
        out.append(code[at:])
        return "".join(out)

    def turn_ticks(text):
        return re.sub(r"`([^`\n]+)`", lambda m: "`" + turn_code(m[1], (), False) + "`", text)

    for f in antt_files():
        text = open(f, encoding="utf-8").read()
        library, _ = uses(text, ours)
        theory = is_theory(f)
        here = NAMES_OF_FILE.get(f[len("crates/"):-len(".antt")], {}) if theory else own_helpers(text)
        lines = []
        for line in text.split("\n"):
            code, comment = uncommented(line)
            m = re.match(r"^(\s*(?:pub )?use )([^\s;{]+?)(\.?\{.*\})?((?: as [^\s;]+)?)$", code)
            if m:
                steps = m[2].strip(".").split(".")
                mine = steps[0] == "Rattle" and len(steps) > 1 and steps[1] in ours
                if mine and m[3]:
                    code = m[1] + m[2] + turn_code(m[3], (), False) + m[4]
            else:
                code = turn_code(code, library, theory, here)
            lines.append(code + turn_ticks(comment))
        new = "\n".join(lines)
        before = {t for l in text.split("\n") for t in NAME.findall(uncommented(l)[0])}
        groups = collections.defaultdict(set)
        for t in before:
            groups[here.get(t) or (t if t in library else spell(t, library, theory))].add(t)
        for k, g in groups.items():
            if len(g) > 1:
                falls[k].add((f, tuple(sorted(g))))
        if new != text and "-n" not in sys.argv:
            open(f, "w", encoding="utf-8").write(new)

    for f in sorted(glob.glob("crates/*/src/**/*.rt", recursive=True)):
        text = open(f, encoding="utf-8").read()
        library, own = uses(text, ours)
        names = set(re.findall(r"(?<![\w'-])[A-Za-z◌][\w'₀-₉◌-]*", text))
        lines = []
        for line in text.split("\n"):
            code, comment = (line[:line.index("//")], line[line.index("//"):]) if "//" in line else (line, "")
            if re.match(r"\s*ghost use ", code):
                m = re.match(r"^(\s*ghost use )([^\s;{]+?)(\.?\{.*)$", code)
                if m:
                    steps = m[2].strip(".").split(".")
                    mine = steps[0] == "Rattle" and len(steps) > 1 and steps[1] in ours
                    code = m[1] + m[2] + (turn_code(m[3], (), False) if mine else m[3])
            else:
                code = turn_code(code, library, False)
            lines.append(code + turn_ticks(comment))
        new = "\n".join(lines)
        for n in own:
            s = spell(n, library, False)
            if s != n and re.search(r"(?<![\w'.-])" + re.escape(s) + r"(?![\w'-])", text):
                captures.append((f, n, s))
        if new != text and "-n" not in sys.argv:
            open(f, "w", encoding="utf-8").write(new)

    for f in sorted(glob.glob("crates/*/must-fail/*.edit")):
        text = open(f, encoding="utf-8").read()
        lines = []
        for line in text.split("\n"):
            if re.match(r"(old|new): ", line):
                line = line[:5] + turn_code(line[5:], (), False)
            elif line.startswith("#"):
                line = turn_ticks(line)
            lines.append(line)
        new = "\n".join(lines)
        if new != text and "-n" not in sys.argv:
            open(f, "w", encoding="utf-8").write(new)

    for f in ["README.md", *sorted(glob.glob("docs/*.md")), *sorted(glob.glob("docs/landings/*.md"))]:
        text = open(f, encoding="utf-8").read()
        new = turn_ticks(text)
        if new != text and "-n" not in sys.argv:
            open(f, "w", encoding="utf-8").write(new)

    print(len(declared), "declared,", len(changed), "respelled")
    for k, g in sorted(falls.items()):
        for f, names in sorted(g):
            print("meet:", k, "<-", " ".join(names), "in", f)
    for c in captures:
        print("code:", *c)


main()
