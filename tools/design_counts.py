#!/usr/bin/env python3
"""Lists the places in src/ that the points of docs/DESIGN-PASS.md ask about; a row is a place to look at, not a verdict.

usage: tools/design_counts.py [FOLDER]     the counts, then a line a place"""
import collections
import pathlib
import re
import sys

root = pathlib.Path(sys.argv[1] if len(sys.argv) > 1 else ".")
places = collections.defaultdict(list)


def code(text):
    return re.sub(r"//[^\n]*", "", text)


def functions(text):
    """Each function: its name, its head up to the body, the body, and the line it begins at."""
    for m in re.finditer(r"^( *)(?:pub(?:\(crate\))? )?(?:extern \"C\" )?fn (\w+)(.*?)^\1\{\n(.*?)^\1\}", text, re.S | re.M):
        yield m.group(2), m.group(3), m.group(4), text[: m.start()].count("\n") + 1


def types(text):
    for m in re.finditer(r"^(?:pub )?(enum|struct) (\w+)[^{;]*\{\n(.*?)^\}", text, re.S | re.M):
        members = [x.strip() for x in re.split(r",\n", code(m.group(3))) if x.strip()]
        yield m.group(1), m.group(2), members, text[: m.start()].count("\n") + 1


ERRORS = r"(Refused|Fails|Stopped|NotInFours|TooShort)\b"
NONE = r"(Nothing|Nowhere|Missing|None)$"
facts = collections.defaultdict(list)
pairs = collections.defaultdict(list)
for path in sorted(root.glob("crates/*/src/*.rt")):
    text = path.read_text()
    where = f"{path.parts[-3]}/{path.name}"
    for kind, name, members, line in types(text):
        if kind == "enum" and len(members) <= 3 and (any(re.match(ERRORS, x) for x in members) or (len(members) == 2 and any(re.match(NONE, x) for x in members))):
            places["1 enum of the shape of Option or Result"].append(f"{where}:{line} {name}")
        if kind == "struct" and len(members) > 1 and any(re.search(r": bool$", x) for x in members):
            places["1 struct with a flag beside values"].append(f"{where}:{line} {name}")
        if kind == "enum" and members and all(re.match(r"Wrong|OfKind", x) for x in members):
            places["7 enum that says which step to run"].append(f"{where}:{line} {name}")
    plain = code(text)
    for name, head, body, line in functions(text):
        at = f"{where}:{line} {name}"
        b = code(body)
        if re.search(r"-> (usize|Seen)\b", head) and re.search(r"^\s*(return )?32;?$|: 32,$|=> 0,$|< 32 \{|^\s*if task < 1 \{", b, re.M):
            places["1 a number that stands for none"].append(at)
        if re.search(r"\bif let Err\((\w+)\) = .*\{\s*return Err\(\1\);", b) or re.search(r"(Stopped|Refused)\((\w+)\) = .*\{\s*return \w+::\w+\(\2\);|Fails\((\w+)\) => \{\s*return \w+::\w+\(\3\)", b):
            places["1 a refusal passed on by hand"].append(at)
        if re.search(r"^\s*(while|loop)\b", b, re.M):
            places["3 while or loop"].append(at)
        for m in re.finditer(r"\bfor (\w+) in ([^{]*)\{", b):
            if ".." in m.group(2) and re.search(rf"[\w\]]\[[^\]]*\b{m.group(1)}\b|\((?:[^()]*,)?[^()]*\b{m.group(1)}\b[^()]*\)", b[m.end():]):
                places["3 for over numbers that index"].append(at)
        for _ in re.finditer(r"\bas (u8|u32|u64|usize)\b", b):
            places["4 conversion by as"].append(at)
        if re.search(r"\bif (\w+) < (\w+) \{ (\1|\2)( - \w+)? \} else \{ (\1|\2|0) \}|\(\w+ \+ \(\w+ - 1\)\) / \w+|/ 16777216|16777216 \* ", b):
            places["3 arithmetic of the library by hand"].append(at)
        if re.search(r"-> bool", head) and re.search(r"=> (true|false)", b) or (head.count("-> bool") and len(re.findall(r"\w+\.\w+ == 0", b)) > 2):
            places["4 test or comparison by hand"].append(at)
        if re.search(r"-> (u8|u32|u64|usize|Stage)\b", head) and len(re.findall(r"^\s*\w+::\w+(?:\([^)]*\))? => [\w']+,$|if \w+ == \d \{", b, re.M)) > 1:
            places["4 conversion of kinds by a match"].append(at)
        if re.search(r"b'[0-9A-Z]'|48 \+", b):
            places["4 printing by hand"].append(at)
        req = re.search(r"requires(?: \w+)? \{(.*?)\}\s*(?:ensures|$)", head, re.S)
        if req:
            for f in re.split(r" × ", req.group(1)):
                f = re.sub(r"\s+", " ", f).strip(" ()\n")
                if f:
                    facts[(path.parts[-3], re.sub(r"\b(es|rs|gs|outputs|guests|hypertasks|arrived|lent)\b", "x", f))].append(at)
        params = re.findall(r"(\w+): (&mut \[\w+\]|&\[\w+\]|&mut \[\w+; \w+\]|u\d+|usize|Row|Stage)", head.split("->")[0])
        for i in range(len(params)):
            for j in range(i + 1, len(params)):
                pairs[(path.parts[-3], params[i], params[j])].append(at)
        if re.search(r"\(\s*(\w+): &(mut )?\[\w+\].*\bn: usize", head, re.S):
            places["6 a slice with a length beside it"].append(at)
        if len(re.findall(r"(\w+): &(?:mut )?\[(?:u32|u64)(?:; 32)?\]", head)) >= 3 or len(re.findall(r"let mut \w+ = \[0u(?:32|64); 32\]", b)) >= 2:
            places["6 parallel arrays"].append(at)
for (crate, f), where in facts.items():
    if len(where) >= 3:
        places["5 a fact in three or more contracts"].append(f"{crate}: {f} ({len(where)})")
for (crate, a, b), where in pairs.items():
    if len(where) >= 4:
        places["5 parameters that travel together"].append(f"{crate}: {a[0]}, {b[0]} ({len(where)})")
answers = list(root.glob("crates/*/proofs/**/Answers.antt"))
places["8 files of answers"] = [str(x.relative_to(root / "crates")) for x in answers]
for key in sorted(places):
    print(f"{len(places[key]):4} {key}")
for key in sorted(places):
    if not key.startswith("8"):
        for x in places[key]:
            print(f"{key[:1]} {key[2:]}: {x}")
print("8 lines of answers and invariants:", sum(len(x.read_text().splitlines()) for x in root.glob("crates/*/proofs/*/**/*.antt")))
