#!/usr/bin/env python3
"""Brings the repository's own definitions and lemmas to today's spelling: words in snake case, types in camel case.

usage: python3 tools/respell.py [--check]     at the top of the repository, once, after port.py

Turned are: names in camel case that begin with a small letter, in .antt files, in clauses and ghost items of .rt files, in comments, in
must-fail edits and, between backquotes, in README.md and docs/. Left alone are strings, functions of src/ and exported names (which are in
snake case already). A name that would fall together with another one of the same file is listed, and nothing is written.
"""

import os
import re
import sys

# a token, as antt splits a text
TOKEN = re.compile(r"[^\s(){}\[\],;.:λ◌⟨⟩\"`|]+")
CAMEL = re.compile(r"(?:^|(?<=[-_]))[a-z][a-z0-9]*[A-Z]")
STRING = re.compile(r'"(?:\\.|[^"\\])*"')
# predicates that are types
TYPES = {
    "crates/verilog_back/proofs/Samples.antt": {"comes": "Comes"},
    "crates/verilog_grammar/proofs/Samples.antt": {"means": "Means", "runs": "Runs"},
    "crates/verilog_tokens/proofs/Samples.antt": {"sees": "Sees"},
    "crates/verilog_source/proofs/Samples.antt": {"gives": "Gives", "answers": "Answers"},
}
# lemmas that port.py wrote with underscores and that a definition's new spelling would meet: they keep their dash
DASHED = set(
    "walk_steps row_fits rows_fit first_byte function_of any_below waits_in node_in size_in run_in plain_at laid_out a_call head_read "
    "in_order block_more".split()
)
# words of documents that are no names of this repository
WORDS = {"viewBox", "textLength", "lengthAdjust", "patternUnits", "patternTransform"}


def snake(word):
    return re.sub(r"(?<=[a-z0-9])([A-Z])(?![A-Z])", lambda m: "_" + m[1].lower(), word) if not re.search("[A-Z]{2}", word) else re.sub(
        r"([A-Z]+)", lambda m: "_" + m[1].lower(), word)


def turned(token):
    """A token with each part between dashes that is in camel case and begins small in snake case."""
    parts = re.split(r"(-)", token)
    return "".join(snake(p) if CAMEL.match(p) or re.search(r"_[a-z][a-z0-9]*[A-Z]", p) else p for p in parts)


def files(root):
    for folder, dirs, names in os.walk(os.path.join(root, "crates")):
        dirs[:] = sorted(d for d in dirs if d not in ("out", ".git"))
        for name in sorted(names):
            if name.endswith((".antt", ".rt", ".edit")):
                yield os.path.join(folder, name)


def outside_strings(text, turn):
    out, at = [], 0
    for m in STRING.finditer(text):
        out += [turn(text[at:m.start()]), m[0]]
        at = m.end()
    return "".join(out + [turn(text[at:])])


def lines_turned(text, turn):
    """Line by line, so that a quotation mark in a comment reaches no further than its line."""
    return "".join(outside_strings(line, turn) for line in text.splitlines(keepends=True))


def names_of(root):
    """Every name in camel case that stands in an .antt file outside comments and strings."""
    found = set()
    for path in files(root):
        if not path.endswith(".antt"):
            continue
        with open(path, encoding="utf-8") as f:
            text = re.sub(r"(?m)--.*$", "", f.read())
        found |= {t for t in TOKEN.findall(STRING.sub(" ", text)) if CAMEL.search(t) and t not in WORDS}
    return found


def dashed(path, text):
    """A file of lemmas in which those of DASHED have their dash again; a function's own proof and parts of paths stay."""
    if "/proofs/" not in path or not path.endswith(".antt"):
        return text

    def turn(m):
        path_of = "." in (text[m.start() - 1:m.start()], text[m.end():m.end() + 1])
        return m[0].replace("_", "-") if m[0] in DASHED and not path_of and f"/{m[0]}/" not in path else m[0]

    return TOKEN.sub(turn, text)


def names_alone(path, code):
    """The names of a file that a turned name could fall together with: of an .antt file those that are no part of a path, of an .rt file
    parameters, and what ghost items bring."""
    if path.endswith(".rt"):
        brought = "".join(re.findall(r"ghost use [^;]*;", code))
        return set(re.findall(r"\b([a-z_0-9]+)\s*:(?!:)", code)) | set(TOKEN.findall(brought))
    return {m[0] for m in TOKEN.finditer(code) if code[m.start() - 1:m.start()] != "." and code[m.end():m.end() + 1] != "."}


def main(argv):
    root = os.getcwd()
    names = {n: turned(n) for n in names_of(root)}
    names = {a: b for a, b in names.items() if a != b}
    changed, clashes = {}, []
    for path in files(root):
        with open(path, encoding="utf-8") as f:
            text = f.read()
        own = TYPES.get(os.path.relpath(path, root), {})
        was, text = text, dashed(path, text)
        code = STRING.sub(" ", re.sub(r"(?m)(--|//).*$", "", text))
        if path.endswith(".edit"):
            code = ""
        every, alone = set(TOKEN.findall(code)), names_alone(path, code)
        for t in sorted(every):
            to = own.get(t) or names.get(t)
            if to and to in alone:
                clashes.append(f"{os.path.relpath(path, root)}: {t} falls together with {to}")
        new = lines_turned(text, lambda piece: TOKEN.sub(lambda m: own.get(m[0]) or names.get(m[0], m[0]), piece))
        if new != was:
            changed[path] = new
    pages = ["README.md"] + [os.path.join(d, n) for d, _, ns in os.walk("docs") for n in ns if n.endswith(".md")]
    for page in pages:
        with open(page, encoding="utf-8") as f:
            text = f.read()
        new = re.sub(r"`[^`\n]+`", lambda q: TOKEN.sub(lambda m: names.get(m[0], m[0]), q[0]), text)
        if new != text:
            changed[page] = new
    print("\n".join(clashes))
    print(f"{len(names)} names, {len(changed)} files, {len(clashes)} clashes")
    if clashes or "--check" in argv:
        return 1 if clashes else 0
    for path, text in changed.items():
        with open(path, "w", encoding="utf-8") as f:
            f.write(text)
    return 0


if __name__ == "__main__":
    raise SystemExit(main(sys.argv[1:]))
