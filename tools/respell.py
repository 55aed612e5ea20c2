#!/usr/bin/env python3
"""Brings the repository's own definitions and lemmas to the spelling of today's Rattle; run once, at the top, right after port.py.

Words are in snake case: `placeOf` becomes `place_of`, `none-after` `none_after`. A dash stays where it joins two words of
the library, as in `drop-replicate`. Functions, types and strings of src/ keep their names, and so does what Rattle
generates (the names behind `tie.`, and the steps of a proof's `c`). In comments and papers only names in backquotes, or
behind the middle dot of `file · name`, are turned. The edits of must-fail/ and the papers are turned with the files.
"""
import glob
import re

WORD = r"[A-Za-zℕℤ≤≡][A-Za-z0-9_'₀-₉ℕℤ≤≡\-]*"
TOKEN = re.compile(r"(?<![A-Za-z0-9_'₀-₉ℕℤκσ\-])" + WORD)
# A dash between two of these joins two names.
NAMES = set("length append drop take set replicate get_or reverse paste map map_at cond fold_at every_at some_at sum min mod".split())
CAMEL = re.compile(r"^(?:[a-z][A-Za-z0-9_'₀-₉]*)$")
# Definitions that port.py turned from camelCase, beside a lemma of the same words.
TURNED_BY_PORT = {"is_at", "is_refused"}
CAMEL_WORD = re.compile(r"[a-z0-9][A-Z]")


def snake(word):
    """camelCase to snake_case, a capital run as one word: setUpA1 gives set_up_a1."""
    if not re.match(r"[a-z]", word):
        return word
    out = re.sub(r"(?<=[a-z0-9])([A-Z]+)", lambda m: "_" + m.group(1).lower(), word)
    return out


def spelled(name):
    parts = [snake(p) for p in name.split("-")]
    out = parts[0]
    for left, right in zip(parts, parts[1:]):
        out += ("-" if left in NAMES and right in NAMES else "_") + right
    return out


def antt_files():
    return sorted(glob.glob("crates/*/specs/**/*.antt", recursive=True) + glob.glob("crates/*/proofs/**/*.antt", recursive=True))


def is_function_proof(path):
    return path.endswith("/Proof.antt")


DECLARED = re.compile(r"^[ \t]*(?:abbrev |unfoldable )?(?:pub )?((?:[A-Za-z][^\s:(){}]* )+):(?=\s)", re.M)
CONSTRUCTED = re.compile(r"^[ \t]+(?:pub )?([a-z][^\s:(){}]*) :(?=\s)", re.M)
FIELD = re.compile(r"[{;]\s*([a-z][^\s=(){};]*) =")


def without_comments(text):
    return re.sub(r"--[^\n]*", "", text)


def own_names():
    """Names declared in specs/ and in the shared files of proofs/, and the fields of records there."""
    names, generated = set(), set()
    for path in antt_files():
        text = without_comments(open(path).read())
        if is_function_proof(path):
            # steps and goals that this proof cites, and the names it gives to goals
            generated.update(re.findall(r"(?:\bc|\ba|before|start)\.((?:[a-z][A-Za-z0-9_\-]*-[A-Za-z0-9_\-]*))", text))
            goals = set(re.findall(r"^(\S+) : tie\.", text, re.M))
            generated.update(goals)
            declared = {n for m in DECLARED.finditer(text) for n in m.group(1).split()}
            names |= {n for n in declared - goals if not n.endswith(("-spec", "_spec"))}
        else:
            names |= {n for m in DECLARED.finditer(text) for n in m.group(1).split()}
            names |= set(CONSTRUCTED.findall(text))
            names |= {m for m in FIELD.findall(text) if "-" in m}
    return {n for n in names if re.match(r"[a-z]", n)}, generated


def main():
    own, generated = own_names()
    table = {n: spelled(n) for n in own if spelled(n) != n}
    # Of two names that would fall together the definition keeps the plain one, and the lemma gets `_lem`.
    taken = {}
    for n in sorted(own):
        taken.setdefault(spelled(n), []).append(n)
    for new, olds in sorted(taken.items()):
        lemmas = [n for n in olds if not CAMEL_WORD.search(n) and n not in TURNED_BY_PORT]
        if len(olds) > 1:
            for n in lemmas:
                table[n] = new + "_lem"
            print(f"together: {' '.join(olds)}: {' '.join(f'{n} -> {table[n]}' for n in lemmas)}")

    def turn(text, path):
        code_only = is_function_proof(path)

        def one(m):
            word = m.group(0)
            before = text_now[: m.start()]
            tail = ""
            while word.endswith("-"):
                word, tail = word[:-1], "-" + tail
            if re.search(r"\d$", before[-1:]) or re.search(r"0x[0-9A-Fa-f_]*$", before):
                return word + tail
            if before.endswith("tie."):
                return word + tail
            if word in table and code_only and before.endswith(".") and word in generated:
                return word + tail
            if word in table and table[word].endswith("_lem") and "-" not in word and (before.endswith(("proofs.", "c.", "specs.")) or after(m).startswith(".")):
                return word + tail
            if word in table:
                return table[word] + tail
            if CAMEL.match(word) and CAMEL_WORD.search(word):
                return snake(word) + tail
            return word + tail

        text_now = text

        def after(m):
            return text_now[m.end() :]

        return TOKEN.sub(one, text)

    def turn_comment(text):
        def ticks(m):
            return "`" + turn_plain(m.group(1)) + "`"

        text = re.sub(r"`([^`\n]+)`", ticks, text)
        return re.sub(r"(· )(" + WORD + "(?:, " + WORD + ")*)", lambda m: m.group(1) + turn_plain(m.group(2)), text)

    def turn_plain(text):
        """Names in a comment: those of the table, and those that port.py has turned. A path is left."""
        now = own | set(table.values())

        def one(m):
            word = m.group(0)
            if text[: m.start()].endswith("/") or re.match(r"\.(?:bin|txt|md|edit)\b|/", text[m.end() :]):
                return word
            if word in table and not table[word] == word + "_lem":
                return table[word]
            if CAMEL_WORD.search(word) and CAMEL.match(word) and snake(word) in now:
                return snake(word)
            if "-" in word and word.replace("-", "_") in now:
                return word.replace("-", "_")
            return word

        return TOKEN.sub(one, text)

    def turn_antt(text, path):
        out = []
        for line in text.split("\n"):
            at = line.find("--")
            if at >= 0 and (at == 0 or line[at - 1] in " \t"):
                out.append(turn(line[:at], path) + turn_comment(line[at:]))
            else:
                out.append(turn(line, path))
        return "\n".join(out)

    def turn_clauses(text):
        """ghost use lines and the braces of requires, ensures and ghost."""
        out = []
        for line in text.split("\n"):
            if re.match(r"\s*ghost use ", line) or re.match(r"\s*(requires|ensures|ghost)\*?( \w+:?)? \{.*\}\s*[{,;]?$", line):
                out.append(turn(line, "clause"))
            elif "//" in line:
                at = line.find("//")
                out.append(line[:at] + turn_comment(line[at:]))
            else:
                out.append(line)
        return "\n".join(out)

    def write(path, text, new):
        if new != text:
            open(path, "w").write(new)

    for path in antt_files():
        text = open(path).read()
        write(path, text, turn_antt(text, path))
    for path in glob.glob("crates/*/src/**/*.rt", recursive=True):
        text = open(path).read()
        write(path, text, turn_clauses(text))
    for path in glob.glob("crates/*/must-fail/*.edit"):
        text = open(path).read()
        out, of_antt = [], False
        for line in text.split("\n"):
            if line.startswith("file:"):
                of_antt = line.endswith(".antt")
            if line.startswith("#"):
                line = "#" + turn_comment(line[1:])
            elif of_antt and line.startswith(("old: ", "new: ")):
                line = line[:5] + turn(line[5:], path)
            elif not of_antt and re.match(r"(old|new): +(requires|ensures) ", line):
                line = line[:5] + turn(line[5:], path)
            out.append(line)
        write(path, text, "\n".join(out))
    for path in ["README.md"] + glob.glob("docs/**/*.md", recursive=True):
        if path.endswith("PORT.md"):
            continue
        text = open(path).read()
        write(path, text, turn_comment(text))


main()
