#!/usr/bin/env python3
"""forms.py [DIR]: lists the places of each point of docs/DESIGN-PASS.md in crates/*/src of DIR (or of this checkout), and how many there are."""
import collections
import pathlib
import re
import sys

top = pathlib.Path(sys.argv[1] if len(sys.argv) > 1 else ".")


def source(path):
    return re.sub(r"(?m)//.*$", "", path.read_text())


files = {str(p.relative_to(top / "crates")).replace("/src/lib.rt", "").replace("/src/main.rt", ""): source(p) for p in sorted(top.glob("crates/*/src/*.rt"))}


def functions(text):
    """(name, parameters, clauses, body) of each function."""
    for m in re.finditer(r"(?ms)^( *)(?:pub )?fn (\w+)(?:<[^>(]*>)?\((.*?)\)( -> [^{]*?)?\n?((?:\s*(?:requires|ensures)[^\n]*(?:\n\s*(?:→|×)[^\n]*)*\n)*)\1\{\n(.*?)^\1\}", text):
        yield m.group(2), " ".join(m.group(3).split()), m.group(5) or "", m.group(6), m.group(4) or ""


def tokens(body):
    body = re.sub(r'b?"(?:\\.|[^"])*"', "s", body)
    body = re.sub(r"b?'(?:\\.|[^'])'", "c", body)
    body = re.sub(r"\b0x[0-9A-Fa-f]+\b|\b\d[\d_]*\b", "0", body)
    words = re.findall(r"\w+|[^\w\s]", body) + [""]
    keep = {"let", "mut", "if", "else", "match", "while", "for", "in", "return", "as", "true", "false"}
    out = []
    for before, w, after in zip([""] + words, words, words[1:]):
        called = after in ("(", "!") or before == "."
        out.append(w if w in keep or called or not re.match(r"[A-Za-z_]", w) else "x")
    return " ".join(out)


def show(point, title, places):
    print(f"\n{point} {title}: {len(places)}")
    for p in places:
        print("  ", p)


one = []
for f, text in files.items():
    for m in re.finditer(r"enum (\w+) \{\s*((?:\w+(?:\([^)]*\))?,\s*)+)\}", text):
        variants = re.findall(r"\w+(?:\([^)]*\))?(?=,\s)", m.group(2))
        with_value = [v for v in variants if "(" in v]
        if (len(variants) == 2 and len(with_value) == 1) or "(Refusal)" in m.group(2) or variants[0] in ("NoBlock", "Wrong") or "Wrong" in variants:
            one.append(f"{f}::{m.group(1)} {variants}")
    for m in re.finditer(r"struct (\w+)[^{;]*\{([^}]*)\}", text):
        if re.search(r"\bgood: bool|answer: Answer|answer: Result<\(\)", m.group(2)):
            one.append(f"{f}::{m.group(1)} (a flag or an answer beside a value)")
    for m in re.finditer(r"(?m)^.*(\bisize\b).*$", text):
        one.append(f"{f}: {m.group(0).strip()} (a number below zero for an error)")
    for m in re.finditer(r"(?m)^.*\blet (\w+) = words::name_at\(.*$", text):
        one.append(f"{f}: {m.group(0).strip()} (a place for a kind)")
    for m in re.finditer(r"(?m)^.*256 \* kind_number.*$", text):
        one.append(f"{f}: {m.group(0).strip()} (a number for a kind and a place)")
show(1, "own enums of the shape of Option or Result, flags beside values, numbers for kinds and errors", one)

two = collections.defaultdict(list)
for f, text in files.items():
    for name, params, clauses, body, result in functions(text):
        key = tokens(body)
        if len(key.split()) >= 12:
            two[key].append(f"{f}::{name}")
show(2, "functions whose bodies are the same but for types, names and constants", [", ".join(v) for v in two.values() if len(v) > 1])

three = []
for f, text in files.items():
    lines = text.split("\n")
    for n, line in enumerate(lines, 1):
        if re.match(r"\s*(while|loop)\b", line) and not re.match(r"\s*while let", line):
            three.append(f"{f}:{n} {line.strip()}")
        m = re.match(r"(\s*)for (\w+) in [^.]*\.\.", line)
        if m and m.group(2) != "_":
            end = next(i for i in range(n, len(lines)) if lines[i].startswith(m.group(1) + "}"))
            if any(re.search(r"\[[^\]]*\b" + m.group(2) + r"\b[^\]]*\]", b) for b in lines[n:end]):
                three.append(f"{f}:{n} {line.strip()}")
show(3, "loops by while or loop, and for loops over numbers that index", three)

four = []
for f, text in files.items():
    for name, params, clauses, body, result in functions(text):
        arms = re.findall(r"=> ([^,\n]*),", body)
        if re.match(r"\s*match \w+ \{", body) and arms and all(a.strip() in ("true", "false") for a in arms):
            four.append(f"{f}::{name} (a test of a variant by a match)")
        if re.match(r"\s*match \w+ \{", body) and arms and all(re.fullmatch(r"\d+|0x[0-9A-Fa-f]+|b'.'|[A-Z]\w+::[A-Z]\w+(?:\([A-Z]\w+::\w+\))?", a.strip()) for a in arms) and not all(a.strip() in ("true", "false") for a in arms):
            four.append(f"{f}::{name} (a conversion by a match)")
        if re.search(r"\w+\[i\] != \w+\[i\]|\(\w+\.\w+ == \w+\.\w+\) & \(", body):
            four.append(f"{f}::{name} (equality by hand)")
show(4, "tests, conversions and equality by hand", four)
prints = [f"{f}::{name}" for f, text in files.items() for name, params, clauses, body, result in functions(text) if "Text" in result]
print(f"\n4 functions that print into a text: {len(prints)}")

facts = collections.Counter()
pairs = collections.defaultdict(list)
for f, text in files.items():
    for name, params, clauses, body, result in functions(text):
        for m in re.finditer(r"requires (?:\w+ )?\{ (.*?) \}", clauses):
            for part in re.split(r" × ", m.group(1)):
                facts[f"{f}: {part.strip('() ')}"] += 1
        ps = [p.strip() for p in re.split(r",\s*(?![^\[<(]*[\]>)])", params) if ":" in p]
        for i in range(len(ps)):
            for j in range(i + 1, len(ps)):
                if "&mut" in ps[i] or "&mut" in ps[j] or "codes" in ps[i]:
                    pairs[f"{ps[i]} + {ps[j]}"].append(f"{f}::{name}")
show(5, "facts that three or more contracts ask of a caller", [f"{k} ({n})" for k, n in facts.items() if n >= 3])
show(5, "parameters that three or more functions take together, one of them lent", [f"{k} ({len(v)})" for k, v in pairs.items() if len(v) >= 3])

six = []
for f, text in files.items():
    for m in re.finditer(r"struct (\w+)[^{;]*\{([^}]*)\}", text):
        if re.search(r"\[\w+; ?\w+\]", m.group(2)) and re.search(r"\b(len|total|at): (usize|u32)", m.group(2)):
            six.append(f"{f}::{m.group(1)}")
    for name, params, clauses, body, result in functions(text):
        if re.search(r"(\w+): &mut \[[^\]]*\], (len|at|total): (usize|u32)", params):
            six.append(f"{f}::{name}")
show(6, "buffers with a length beside them", six)

seven = []
for f, text in files.items():
    for name, params, clauses, body, result in functions(text):
        m = re.search(r"match (place|k|number|i|n) \{", body)
        if m and len(re.findall(r"(?m)^\s*\d+(?: \| \d+)* =>", body)) >= 2:
            seven.append(f"{f}::{name} (match {m.group(1)})")
        if len(re.findall(r"if k (?:<|==) \d+", body)) >= 2:
            seven.append(f"{f}::{name} (tests of k)")
show(7, "switches on which step or line is meant", seven)

answers = sorted(top.glob("crates/*/proofs/*/**/*.antt"))
print(f"\n8 proof files of functions: {len(answers)}, {sum(len(p.read_text().splitlines()) for p in answers)} lines")
shared = [p for p in sorted(top.glob('crates/*/proofs/*.antt')) if p.name != 'Lib.antt']
print(f"8 files of shared laws: {len(shared)}, {sum(len(p.read_text().splitlines()) for p in shared)} lines")
