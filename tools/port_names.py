#!/usr/bin/env python3
"""Brings this repository's own definitions, lemmas and fields to snake case, as the kit of kit-13f spells them.

Run once, at the top, after the kit's own script. Types and modules keep their capitals, and so do the
documents' letters (T, D, C, K, B, R, E, F, G, WA, WE). Names of src/ stay. Where a lemma or a field would
fall together with a definition, MEANT says what it is called. It prints what falls together all the same.
"""
import collections
import glob
import re
import sys

MEANT = {
    # lemmas that would have their function's name
    "guest-fits": "guest_fits_lem",
    "hyper-fits": "hyper_fits_lem",
    "is-none": "is_none_lem",
    "hypertask-ran": "hypertask_ran_lem",
    "guest-ran": "guest_ran_lem",
    "row-lines": "row_lines_lem",
    "total-lines": "total_lines_lem",
    "number-at": "number_at_lem",
    "optional-bytes": "optional_bytes_lem",
    "optional-count": "optional_count_lem",
    "file-length": "file_length_lem",
    "three-numbers": "three_numbers_lem",
    "ticks-taken": "ticks_taken_lem",
    "is-at": "is_at_lem",
    "results-by": "results_by_lem",
    "by-kinds": "by_kinds_lem",
    "length-said": "length_said_lem",
    "turned-stage": "turned_stage_lem",
    "start-demand": "start_demand_lem",
    "entry-bytes": "entry_bytes_lem",
    "past-from": "past_from_lem",
    "row-c": "row_c_lem",
    "row-of": "row_of_lem",
    "ran-from": "ran_from_lem",
    # fields beside a definition
    "one-begun": "begun_once",
    "well-formed": "is_well_formed",
    "past-last": "past_the_last",
    "too-soon": "came_too_soon",
    "while-hyper": "came_while_hyper",
    "guest-output": "guest_has_output",
    "begun-by-guest": "guest_begins",
    "begun-by-hypertask": "hypertask_begins",
}
# lemmas that the kit's script has spelled like a definition already
MEANT_IN = {
    "crates/machine/proofs/Tests.antt": {"fields_fit": "fields_fit_lem"},
    "crates/machine_laws/proofs/Clauses.antt": {"fields_fit": "fields_fit_lem"},
    "crates/demands/proofs/WellFormed.antt": {"fields_fit": "fields_fit_lem"},
    "crates/demands/proofs/Runs.antt": {"fresh_at": "fresh_at_lem"},
}
DEFINED = re.compile(r"^(?:(?:abbrev|unfoldable|pub)\s+)*([^\s:(){}]+)\s*:\s")
# a lemma inside a module or below a where
INNER = re.compile(r"^\s+([a-zA-Z][\w'≤]*-[\w\-'≤]*) : (?!goal\.)")
FIELD = re.compile(r"^\s+(?:pub\s+)?([^\s:(){}]+)\s*:\s")
TOKEN = re.compile(r"[^\s(){}\[\],;.`\"|]+")


def snake(name):
    if not name[0].islower():
        return name.replace("-", "_")
    name = re.sub(r"(?<=[a-z])([0-9]+)(?=[A-Z])", r"_\1", name) if not re.match(r"p[0-9]", name) else name
    name = re.sub(r"(?<=[a-z0-9≤])([A-Z])", lambda m: "_" + m.group(1).lower(), name)
    name = re.sub(r"(?<=_or)([0-9])", r"_\1", name)
    return name.replace("-", "_").lower()


def antt_files():
    return sorted(glob.glob("crates/*/specs/**/*.antt", recursive=True) + glob.glob("crates/*/proofs/**/*.antt", recursive=True))


def own_names():
    names, goals = collections.defaultdict(set), set()
    for file in antt_files():
        inside = False
        for line in open(file):
            if re.match(r"(pub )?(use|mod)\b|\s*--", line):
                continue
            goal = re.match(r"^(?:abbrev )?(?:pub )?(\S+) : (?:tie\.Need|goal\.)", line)
            if goal:
                goals.add(goal.group(1))
                continue
            if re.match(r"^(pub )?(data|record)\b", line) or re.match(r"^\s+pub ", line):
                inside = True
            elif line.strip() and not line[0].isspace():
                inside = False
            found = DEFINED.match(line) or (inside and FIELD.match(line)) or INNER.match(line)
            if found and not re.match(r"^(pub )?(data|record) ", line):
                names[found.group(1)].add(file)
    return {name: files for name, files in names.items() if name not in goals}


def meant_names():
    table = {}
    for name in own_names():
        new = MEANT.get(name) or snake(name)
        if new != name and not re.match(r"^(\(|μ|\+)", name):
            table[name] = new
    return table


def turned(text, table):
    return TOKEN.sub(lambda m: table.get(m.group(0), m.group(0)), text)


def fall_together(table):
    back = collections.defaultdict(set)
    names = own_names()
    for name in names:
        back[table.get(name, name)].add(name)
    for new, olds in sorted(back.items()):
        if len(olds) > 1:
            print("together:", new, {old: sorted(names[old]) for old in olds})
    for file in antt_files():
        text = turned(open(file).read(), MEANT_IN.get(file, {}))
        standing = {m.group(0) for m in TOKEN.finditer(text) if m.start() == 0 or text[m.start() - 1] != "."}
        for old in standing & set(table):
            if table[old] in standing:
                print("stands already:", file, old, table[old])


def main():
    if "fieldsFit" not in own_names():
        sys.exit("the names are turned already")
    table = meant_names()
    fall_together(table)
    if "--try" in sys.argv:
        print(table)
        return
    files = antt_files() + sorted(glob.glob("crates/*/src/**/*.rt", recursive=True) + glob.glob("crates/*/must-fail/*.edit"))
    files += sorted(file for file in glob.glob("docs/*.md") + ["README.md"] if "PORT" not in file)
    for file in files:
        text = open(file).read()
        new = turned(turned(text, MEANT_IN.get(file, {})), table)
        if new != text:
            open(file, "w").write(new)


main()
