#!/usr/bin/env python3
"""Counts the places of each point of docs/DESIGN-PASS.md in crates/*/src, and the answers in crates/*/proofs.

Use: tools/count_forms.py [-v] [FOLDER]      (-v lists each place; FOLDER is a checkout, by default this one)
"""
import collections
import glob
import os
import re
import sys

VERBOSE = "-v" in sys.argv
ROOT = next((a for a in sys.argv[1:] if a != "-v"), os.path.join(os.path.dirname(__file__), ".."))

# what one line shows, by point
LINES = {
    "1a a function that answers with a fault or none": r"-> Option<\w*Fault>",
    "1b a fault handed on by hand": r"\.is_some\(\) \{$|(Ok\(\(\)\)|Ok\((\w+)\)) => \{?\}?$|Some\((\w+)\) => (return )?(Err|Some)\(\3\)|Err\((\w+)\) => (return )?Err\(",
    "1c a number for a kind": r"\b(kind|number|question): u32\b",
    "1d a flag that is a parameter or a field": r"\b\w+: bool\b",
    "3 a loop over a range of numbers": r"\bfor \w+ in [^{]*\.\.",
    "4 equality, names or conversions by hand": r"fn same_|fn \w*_name\(|fn rule_number|fn words\(|fn mark_word|\.a == \w+\.a",
    "6 a fixed array in a struct": r"^    (pub(\(crate\))? )?\w+: \[.*; \w+\],",
    "7 a match on which question or step": r"match \*?(question|pair|test|step|kind|number)\b",
}


def functions(text):
    """name, parameters, body of each function"""
    for m in re.finditer(r"\bfn (\w+)(?:<[^(]*>)?\(", text):
        i, depth = m.end(), 1
        while depth:
            depth += {"(": 1, ")": -1}.get(text[i], 0)
            i += 1
        params = text[m.end():i - 1]
        body = text.find("\n{", i)
        start = re.compile(r"^\s*\{$|\) (?:-> [^{;]*)?\{$", re.M).search(text, i - 1)
        if not start:
            continue
        j, depth = start.end(), 1
        while depth and j < len(text):
            depth += {"{": 1, "}": -1}.get(text[j], 0)
            j += 1
        yield m.group(1), params, text[start.end():j - 1]


def parameters(text):
    flat, depth, out = "", 0, []
    for ch in text + ",":
        depth += {"<": 1, "(": 1, "[": 1, ">": -1, ")": -1, "]": -1}.get(ch, 0)
        if ch == "," and depth == 0:
            if flat.strip():
                out.append(flat.strip())
            flat = ""
        else:
            flat += ch
    return [p for p in out if not p.startswith("rt:")]


def shape(body):
    """a body with its names and numbers left out"""
    tokens = re.findall(r"\w+|[^\s\w]", re.sub(r"//[^\n]*", "", body))
    keep = {"for", "in", "if", "else", "match", "return", "let", "mut", "Some", "None", "Ok", "Err", "true", "false", "as"}
    return " ".join(t if t in keep or not re.match(r"\w", t) else "_" for t in tokens)


def main():
    os.chdir(ROOT)
    places = collections.defaultdict(list)
    shapes = collections.defaultdict(list)
    clauses = collections.defaultdict(list)
    for path in sorted(glob.glob("crates/*/src/**/*.rt", recursive=True)):
        text = open(path).read()
        for number, line in enumerate(text.split("\n"), 1):
            if line.strip().startswith("//"):
                continue
            for point, pattern in LINES.items():
                if re.search(pattern, line):
                    places[point].append(f"{path}:{number}: {line.strip()}")
            clause = re.search(r"requires (?:\w+ )?(\{.*\})", line)
            if clause:
                clauses[clause.group(1)].append(f"{path}:{number}: {line.strip()}")
        for name, params, body in functions(text):
            if len(parameters(params)) >= 5:
                places["5a five parameters or more"].append(f"{path}: {name}")
            key = shape(body)
            if len(key.split()) >= 14:
                shapes[key].append(f"{path}: {name}")
    for key, found in shapes.items():
        if len(found) > 1:
            places["2 bodies that differ in names and numbers alone"] += found
    for clause, found in clauses.items():
        if len(found) >= 3:
            places["5b a requires that stands three times or more"] += found
    answers = 0
    for path in glob.glob("crates/*/proofs/**/Answers.antt", recursive=True):
        answers += len(re.findall(r"(?m)^(?:abbrev )?pub [\w\-]+ : goal\.", open(path).read()))
    for point in sorted(set(LINES) | set(places)):
        print(f"{len(places[point]):4}  {point}")
        if VERBOSE:
            for place in places[point]:
                print("       ", place)
    print(f"{answers:4}  8 answers in proofs/")


main()
