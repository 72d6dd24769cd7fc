#!/usr/bin/env python3
"""Brings the repository's own definitions and lemmas to today's spelling.

usage: python3 tools/respell.py [FOLDER]      once, in a checkout that the toolchain's porting script has just turned

Facts (what answers a Type) and records get upper camel case, everything else snake case: `Well-formed` becomes `WellFormed`,
`code-number` becomes `code_number`. Only names that this repository defines are touched, in the files of specs/ and proofs/,
in the clauses of src/ and between backquotes in docs/ and the README. Functions of src/, strings, inputs, outputs, the names of
goals and the library's own names stay. It stops where two names would fall together. The porting script brings a list's `All`
in as `AllByRecursion as All`, a name of the library for something else, which the gate refuses: it gets its own name here.
"""

import os
import re
import sys

WORD = r"[^\s(){}\[\].,;:@\"`]+"
HEAD = re.compile(r"^\s*(?:let )?((?:(?:abbrev|unfoldable|pub|record|data|ruleset|instance|private|opaque) )*)(" + WORD + r")((?:\s*\([^()]*(?:\([^()]*\)[^()]*)*\)|\s*\{[^{}]*\})*)\s*:(?!=)(.*)$")
# names that are bound in a lemma or a clause, which no head shows
BOUND = "after-directory after-label after-places at-descriptor at-record chains-reading door-is e-is fault-is in-a is-a is-legal is-on is-refusal k-is k-read no-reading on-new on-old open-with same-directory same-disk same-label same-medium same-places tab-is tab-on whole-xs whole-ys zero-r all-four".split()
GOAL = re.compile(r"^\s*(?:goal|given|goals)\.|\.Goals|\.Given")
FUNCTION_FILES = ("Answers.antt", "Invariants.antt", "Choices.antt", "Proof.antt")


def files(root, *endings):
    for folder, dirs, names in os.walk(os.path.join(root, "crates")):
        dirs[:] = sorted(d for d in dirs if d != "out")
        for name in sorted(names):
            if name.endswith(endings):
                yield os.path.join(folder, name)


def read(path):
    with open(path, encoding="utf-8") as f:
        return f.read()


def is_fact(head, rest):
    """Whether a definition is a record, a type, or a function that answers one."""
    return bool(re.search(r"\b(record|data)\b", head)) or bool(re.search(r"(^|→)\s*Type(\s+\d+)?\s*(where)?\s*$", rest.strip()))


def camel(name):
    return "".join(w[:1].upper() + w[1:] for w in re.split(r"[-_]", name) if w)


def collect(root):
    """The new spelling of each name that the repository defines."""
    new, taken, imported = {}, {}, set()
    for path in files(root, ".antt"):
        text = read(path)
        for m in re.finditer(r"^\s*use Rattle\.(?:std|core)\.[^{\n]*\{([^}]*)\}", text, re.M):
            imported |= {w.split(" as ")[0].strip() for w in m.group(1).split(",")}
        of_function = os.path.basename(path) in FUNCTION_FILES
        for line in text.splitlines():
            if line.lstrip().startswith("--"):
                continue
            m = HEAD.match(line)
            if not m:
                continue
            head, name, _, rest = m.groups()
            if of_function and GOAL.search(rest):
                continue
            if "◌" in name or not re.match(r"[^\W\d]", name):
                continue
            # `getD` is `get_or` now
            to = name.replace("′", "'").replace("getD", "get_or")
            if is_fact(head, rest):
                to = camel(to)
            elif "-" in to:
                to = to.replace("-", "_")
                # a lemma about a fact, as `Fits-at`, is a word and no type
                to = to[0].lower() + to[1:]
            if to != name:
                new.setdefault(name, set()).add(to)
            else:
                taken.setdefault(name, path)
    for name in BOUND:
        new.setdefault(name, set()).add(name.replace("-", "_"))
    for name in sorted(new):
        if name in imported:
            print(f"left: {name}: the library has this name too")
            del new[name]
    bad = False
    by_new = {}
    for name, tos in new.items():
        if len(tos) > 1:
            print(f"two spellings: {name}: {sorted(tos)}")
            bad = True
        for to in tos:
            by_new.setdefault(to, set()).add(name)
            if to in taken:
                print(f"falls together: {name} with {to} of {taken[to]}")
                bad = True
    for to, names in by_new.items():
        if len(names) > 1:
            print(f"falls together: {sorted(names)} as {to}")
            bad = True
    return {name: min(tos) for name, tos in new.items()}, bad


def turn(text, names, pattern):
    return pattern.sub(lambda m: names[m.group(0)], text)


def in_antt(text, names, pattern):
    lines = []
    for line in text.split("\n"):
        code, mark, note = line.partition("-- ") if line.lstrip().startswith("--") or " -- " in line else (line, "", "")
        parts = re.split(r'("[^"\n]*")', code)
        code = "".join(p if p.startswith('"') else turn(p, names, pattern) for p in parts)
        lines.append(code + mark + in_quotes(note, names, pattern))
    return "\n".join(lines)


def in_quotes(text, names, pattern):
    return re.sub(r"`[^`\n]*`", lambda m: turn(m.group(0), names, pattern), text)


def by_own_name(text):
    """`All` of lists, brought in as `AllByRecursion as All`, under its own name."""
    if "AllByRecursion as All" not in text:
        return text
    text = text.replace("AllByRecursion as All", "AllByRecursion")
    notes = ("--", "//")
    return "\n".join(line if line.lstrip().startswith(notes) else re.sub(r"(?<![\w'\-.])All(?![\w'\-])", "AllByRecursion", line) for line in text.split("\n"))


def in_source(text, names, pattern):
    lines = []
    for line in text.split("\n"):
        if re.match(r"\s*(ghost|requires|ensures|law|#!?\[tactic)\b", line) or "«" in line or re.match(r"\s*(pub )?ghost\b", line):
            line = turn(line, names, pattern)
        elif line.lstrip().startswith("//"):
            line = in_quotes(line, names, pattern)
        lines.append(line)
    return "\n".join(lines)


def main(argv):
    root = argv[0] if argv else "."
    names, bad = collect(root)
    if "--list" in argv:
        for name in sorted(names):
            print(name, names[name])
    if bad:
        print("nothing was written")
        return 1
    longest = sorted(names, key=len, reverse=True)
    pattern = re.compile(r"(?<![\w'′-])(?:" + "|".join(map(re.escape, longest)) + r")(?![\w'′-])")
    changed = 0
    docs = [os.path.join(root, "docs", d) for d in sorted(os.listdir(os.path.join(root, "docs"))) if d.endswith(".md")]
    for path in [*files(root, ".antt", ".rt"), *docs, os.path.join(root, "README.md")]:
        before = read(path)
        how = in_antt if path.endswith(".antt") else in_source if path.endswith(".rt") else in_quotes
        after = by_own_name(how(before, names, pattern))
        if after != before:
            changed += 1
            with open(path, "w", encoding="utf-8") as f:
                f.write(after)
    print(f"{len(names)} names, {changed} files")
    return 0


if __name__ == "__main__":
    raise SystemExit(main(sys.argv[1:]))
