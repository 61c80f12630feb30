#!/usr/bin/env python3
"""Respells the repository's own definitions, lemmas, record fields and local answers' helpers: words in snake case,
types and facts in upper camel case, as the installed Rattle's style has them.

usage: respell.py [--check]       at the top of the repository, once, after the kit's port.py and before any edit by hand

It reads the declarations of crates/*/specs and crates/*/proofs, and rewrites each of their names wherever it stands as
a whole word in .antt files, in .rt files and in must-fail edits (there: the old and new texts). Comments, strings,
and names of goals (Answers and Invariants) stay. Where a new name would fall together with another word of a file,
it says so, writes nothing and ends with status 1. --check writes nothing.
"""

import glob
import os
import re
import sys

# Names whose plain respelling would read badly or fall together with another word.
CHOSEN = {
    "countBy": "counted_by",  # the library has a count_by
    "Refuses-as-WebGPU": "RefusesAsWebGpu",
    "webGpuRefuses": "webgpu_refuses",
    "get_d_beside": "get_or_beside",
    # lemmas whose plain respelling is the function's that they speak of
    "all-taken": "all_taken_lem",
    "buffer-at": "buffer_at_lem",
    "by_mode": "by_mode_lem",
    "clear-surface": "clear_surface_lem",
    "fill-surface": "fill_surface_lem",
    "in-slot": "in_slot_lem",
    "plan-turns": "plan_turns_lem",
    "step-verdict": "step_verdict_lem",
    "clear-mips": "clear_mips_lem",
    "join-all": "join_all_lem",
    "join_front": "join_front_lem",
    "list_at": "list_at_lem",
    "mip-first": "mip_first_lem",
    "mip-part": "mip_part_lem",
    "runs-found": "runs_found_lem",
    "settled-page": "settled_page_lem",
    "surface-cells": "surface_cells_lem",
}
# A name that Rattle makes for a goal, an invariant or a measure is declared in these files with a type `goal.NAME`.
MADE = re.compile(r":\s*goal\b")
HEAD = re.compile(r"^(?:(?P<kind>abbrev pub|abbrev|pub record|record|pub data|data|pub)\s+)?(?P<name>[^\s(){}.;,:]+)\s*(?P<rest>[:({].*)?$")
FIELD = re.compile(r"^  (?:pub )?(?P<name>[^\s(){}.;,:]+) :(?: |$)")
WORD = r"[\w'\-]"


def read(path):
    with open(path, encoding="utf-8", newline="") as f:
        return f.read()


def snake(name):
    name = re.sub(r"(?<=[a-z0-9])(?=[A-Z])", "_", name)
    return name.replace("-", "_").lower()


def camel(name):
    return "".join(w[:1].upper() + w[1:] for w in re.split(r"[-_]", name))


def opened(lines):
    """The lines with what stands in modules with parameters moved to the margin."""
    depth, out = 0, []
    for line in lines:
        indent = len(line) - len(line.lstrip(" "))
        if line.strip() and indent < depth:
            depth = indent
        out.append(line[depth:])
        if line[depth:].startswith("module "):
            depth += 2
    return out


def declared(path):
    """The names that a file declares at its top level, each with True if it is a type or a fact."""
    lines = opened(read(path).split("\n"))
    found = {}
    i = 0
    while i < len(lines):
        line = lines[i]
        m = HEAD.match(line) if line[:1] not in ("", " ", "-") and not line.startswith(("use ", "pub use ", "pub mod ", "mod ", "module ", "ruleset", "pub ruleset")) else None
        if not m or not (m["kind"] or (m["rest"] or "").startswith(":")):
            i += 1
            continue
        kind, name = m["kind"] or "", m["name"]
        text, k = line, i + 1
        while k < len(lines) and (lines[k].startswith(" ") or lines[k].startswith(")")) and "record" not in kind and "data" not in kind:
            text += " " + lines[k].strip()
            k += 1
        if "record" in kind or "data" in kind:
            found[name] = True
            while k < len(lines) and (lines[k].startswith("  ") or not lines[k].strip()):
                f = FIELD.match(lines[k])
                if f and "record" in kind:
                    found.setdefault(f["name"], False)
                k += 1
            i = k
            continue
        sort = re.search(r"(?:→|:)\s*Type \d+\s*$", text)
        if not MADE.search(text) and (kind or text.find(":") >= 0):
            found.setdefault(name, bool(sort))
        i = max(k, i + 1)
    return found


def renamed(names):
    table = {}
    for name, fact in names.items():
        if not re.match(r"^[A-Za-z][\w'\-]*$", name):
            continue
        new = CHOSEN.get(name) or (camel(name) if fact else snake(name))
        if new != name:
            table[name] = new
    return table


def turned(text, table, comment):
    """The text with each name of the table respelled, comments and strings left alone."""
    token = re.compile(r'%s[^\n]*|"(?:[^"\\\n]|\\.)*"|[A-Za-z_]%s*' % (comment, WORD))

    def one(m):
        w = m[0]
        return table.get(w, w)

    return token.sub(one, text)


def words(text, comment):
    token = re.compile(r'%s[^\n]*|"(?:[^"\\\n]|\\.)*"|[A-Za-z_]%s*' % (comment, WORD))
    return {m[0] for m in token.finditer(text)}


def main(argv):
    names = {}
    antt = sorted(p for w in ("specs", "proofs") for p in glob.glob(f"crates/*/{w}/**/*.antt", recursive=True) if "/out/" not in p)
    for path in antt:
        for name, fact in declared(path).items():
            names[name] = names.get(name, False) or fact
    table = renamed(names)
    rust = sorted(p for p in glob.glob("crates/*/src/**/*.rt", recursive=True))
    edits = sorted(glob.glob("crates/*/must-fail/*.edit"))
    clashes = []
    # A function of src/ may have the name of the definition that its clause cites, and a proof's module has that function's name.
    for path in [p for p in antt if not p.endswith(("Answers.antt", "Invariants.antt"))]:
        here = words(re.sub(r"(?m)^use .*$", "", read(path)), "--")
        for old in sorted(here & set(table)):
            if table[old] in here and table[old] not in table:
                clashes.append(f"{path}: {old} and {table[old]}")
    backwards = {}
    for old, new in table.items():
        backwards.setdefault(new, []).append(old)
    for new, olds in sorted(backwards.items()):
        if len(olds) > 1 or (new in names and new not in table):
            clashes.append(f"{new} would stand for {', '.join(olds)}" + (" beside what has that name" if new in names else ""))
    for c in clashes:
        print("falls together: " + c)
    if "--check" in argv:
        for old, new in sorted(table.items()):
            print(f"{old}\t{new}")
        return 1 if clashes else 0
    if clashes:
        return 1
    for path in antt + rust + edits:
        text = read(path)
        new = turned(text, table, "--" if path.endswith(".antt") else "//")
        if new != text:
            with open(path, "w", encoding="utf-8", newline="") as f:
                f.write(new)
            print(path)
    return 0


if __name__ == "__main__":
    raise SystemExit(main(sys.argv[1:]))
