#!/usr/bin/env python3
"""Counts the places of docs/DESIGN-PASS.md in crates/*/src, or in another tree: `tools/places.py [TREE]`; with `-l` it lists them.

It reads text and proves nothing: a place is where to look, and the page says what became of it. Tests in the sources are left out.
"""
import collections
import pathlib
import re
import sys

listed = "-l" in sys.argv
tree = pathlib.Path(next((a for a in sys.argv[1:] if a != "-l"), "."))
# Crates that hold exports for C or programs alone: their records and numbers are the interface.
EXPORTS = {"hozgrim", "leaf_exports"}


def sources():
    for path in sorted(tree.glob("crates/*/src/*.rt")):
        if path.name == "tests.rt":
            continue
        text = path.read_text()
        tests = re.search(r"^#\[cfg\(test\)\]\nmod \w+ \{", text, re.M)
        yield path, text[:tests.start()] if tests else text


def line_of(text, at):
    return text.count("\n", 0, at) + 1


places = collections.defaultdict(list)


def add(point, path, text, at, what):
    places[point].append(f"{path.relative_to(tree)}:{line_of(text, at)}: {what}")


FUNCTION = re.compile(r"\bfn (\w+)(?:<[^(]*>)?\(((?:[^()]|\([^()]*\))*)\)(?: -> ([^\n{]+?))?\s*(?:\n\s+(?:requires|ensures)|\{|\n\{)")
functions = []
clauses_at = {}
for path, text in sources():
    crate = path.parts[-3]
    for m in re.finditer(r"^(?:pub )?(?:pub\(crate\) )?enum (\w+)(?:<[^>]*>)? \{\n(.*?)^\}", text, re.S | re.M):
        body = re.sub(r"//[^\n]*", "", m[2])
        names = re.findall(r"^    (\w+)", body, re.M)
        carries = re.search(r"^    \w+ ?[({]", body, re.M)
        if set(names) & {"Ok", "Err", "Some", "None"} and carries or len(names) == 2 and carries:
            add("1 enum", path, text, m.start(), f"enum {m[1]}: {', '.join(names)}")
    for m in re.finditer(r"^(?:pub )?(?:pub\(crate\) )?struct (\w+)(?:<[^>]*>)? \{\n(.*?)^\}", text, re.S | re.M):
        fields = re.findall(r"^    (?:pub(?:\(crate\))? )?(\w+): ([^\n]+),$", m[2], re.M)
        flags = [n for n, t in fields if t in ("ErrorCode", "bool") or n in ("found", "error") and crate not in EXPORTS]
        if flags and len(fields) > 1:
            add("1 flag", path, text, m.start(), f"struct {m[1]}: {', '.join(flags)} beside {len(fields) - len(flags)}")
    for m in FUNCTION.finditer(text):
        name, parameters, result = m[1], m[2], (m[3] or "").strip()
        at = m.start()
        indent = at - (text.rfind("\n", 0, at) + 1)
        indent = len(text[at - indent:at]) - len(text[at - indent:at].lstrip())
        end = re.compile("^" + " " * indent + r"\}$", re.M).search(text, m.end())
        functions.append((path, text, at, name, parameters, result, text[m.end():end.end() if end else len(text)]))
        clauses_at[path, at] = None if m[0].endswith("{") else m.end()
        if result == "ErrorCode":
            add("1 error", path, text, at, f"fn {name} returns an ErrorCode")
        codes = re.findall(r"\b(frame_type|form|hint|kind|found|refusal|video_frame_type|packet_type|modex_type|mark): (u32|i32|u8)\b", parameters)
        if codes and crate not in EXPORTS:
            add("1 code", path, text, at, f"fn {name} takes {', '.join(n for n, _ in codes)} as a number")
    for m in re.finditer(r"^\s*(?:'\w+: )?while ([^\n{]+)", text, re.M):
        add("3 loop", path, text, m.start(1), f"while {m[1].strip()}")
    for m in re.finditer(r"^( *)for (\w+) in [^\n{]*\.\.[^\n]*\{\n(.*?)^\1\}", text, re.S | re.M):
        if re.search(r"\[" + m[2] + r"\b", m[3]):
            add("3 loop", path, text, m.start(2), f"for {m[2]}, an index")
    for m in re.finditer(r"\bfn (default|number|from_number|to_u8|from_u8|has_number|is_ok|same_\w+|from_video|to_video|from_audio|to_be_bytes|back_pointer|low_byte|field_by_field|lengths_of)\(", text):
        add("4 own", path, text, m.start(), f"fn {m[1]}")
    for m in re.finditer(r"\w+\.number\(\) [!=]= [\w:]+\.number\(\)", text):
        add("4 compare", path, text, m.start(), m[0])
    for m in re.finditer(r"impl (?:fmt::)?(?:Display|Debug|PartialEq|Clone|Default|Ord|PartialOrd)(?:<[^{]*>)? for (\w+)", text):
        add("4 own", path, text, m.start(), m[0])
    for m in re.finditer(r"\bdyn\b|\[fn\(|: fn\(", text):
        add("7 switch", path, text, m.start(), m[0])


# Twins: functions of one shape, that is the same tokens but for names, numbers and strings. Short ones are one-line questions and left out.
shapes = collections.defaultdict(list)
for path, text, at, name, parameters, result, body in functions:
    code = re.sub(r"//[^\n]*", "", body)
    code = re.sub(r"(?m)^\s+(requires|ensures)\b.*$", "", code)
    tokens = re.findall(r"\w+|[^\w\s]", code)
    shape = " ".join("x" if re.match(r"\w", t) and t not in ("if", "return", "while", "for", "match", "let", "else", "mut") else t for t in tokens)
    if len(tokens) >= 24:
        shapes[shape].append((path, text, at, name))
for same in shapes.values():
    if len(same) > 1:
        for path, text, at, name in same:
            add("2 twin", path, text, at, "fn " + ", ".join([name] + [n for *_, n in same if n != name][:4]))

# A fact that three functions or more of a crate require, and parameters that travel together through three or more.
facts = collections.defaultdict(list)
groups = collections.defaultdict(list)
for path, text, at, name, parameters, result, body in functions:
    crate = path.parts[-3]
    begin = clauses_at[path, at]
    ends = re.compile(r"^ *\{$", re.M).search(text, begin or 0)
    clauses = "requires" + text[begin:ends.start()] if begin and ends else ""
    for m in re.finditer(r"requires (?:\w+ )?\{ ?(.*?) \}\n", clauses + "\n", re.S):
        facts[crate, re.sub(r"\s+", " ", m[1])].append((path, text, at, name))
    if crate in EXPORTS:
        continue
    names = tuple(p.split(":")[0].strip() for p in re.sub(r"\s+", " ", parameters).split(",") if ":" in p)
    for i in range(len(names) - 2):
        groups[crate, names[i:i + 3]].append((path, text, at, name))
for (crate, fact), uses in facts.items():
    if len(uses) >= 3:
        for path, text, at, name in uses:
            add("5 fact", path, text, at, f"fn {name} requires {fact}")
seen = set()
for (crate, names), uses in groups.items():
    if len(uses) >= 3:
        for path, text, at, name in uses:
            if (path, at) not in seen:
                seen.add((path, at))
                add("5 together", path, text, at, f"fn {name} takes {', '.join(names)}")
for path, text, at, name, parameters, result, body in functions:
    if path.parts[-3] in EXPORTS:
        continue
    if len(re.findall(r": &(?:mut )?(?:'a )?\[(?:u8|u32|usize|i32)\]", parameters)) >= 3 and re.search(r"ids|starts|credits|video", parameters):
        add("6 parallel", path, text, at, f"fn {name} takes parallel columns or slots")
    if re.search(r"\b(out|text|output): &mut \[", parameters) and re.search(r"\b(end|at|count|length): usize", parameters):
        add("6 length", path, text, at, f"fn {name} takes an output and a position or a length in it")

# Proofs: files of answers and their lines.
answers = list(tree.glob("crates/*/proofs/**/Answers.antt"))
for point in ("1 enum", "1 flag", "1 error", "1 code", "2 twin", "3 loop", "4 own", "4 compare", "5 fact", "5 together", "6 parallel", "6 length", "7 switch"):
    print(f"{point:<11} {len(places[point]):4}")
    if listed:
        for place in places[point]:
            print("    " + place)
print(f"8 answers   {len(answers):4} files, {sum(len(p.read_text().splitlines()) for p in answers)} lines; lemmas {sum(len(p.read_text().splitlines()) for p in tree.glob('crates/*/proofs/*.antt'))} lines")
