#!/usr/bin/env python3
"""Spells this repository's own definitions and lemmas in snake case, as `last_until` for `lastUntil` and `each_left` for `each-left`.

usage: tools/respell.py           at the top of the repository: writes crates/ (specs, proofs, clauses of src, wrong programs) and docs/
       tools/respell.py --names   prints the names, old and new

Types, modules and Rattle's own names (labels of proofs, names of the library and of Rust) keep their spelling. A lemma that would get the
name of a definition ends in `_lem`. It is run once, after the library's own spelling has been turned.
"""

import os
import re
import sys

NAME = r"""[^\s(){}.;,@"«»`]+"""
WORD = re.compile(NAME)
CAMEL = re.compile(r"^[a-z][a-z0-9]*(?:[A-Z][\w]*)(?:-\w+)*[₀-₉']*$|^[a-z]\w*-\w*[a-z0-9][A-Z][\w-]*[₀-₉']*$")
# a declaration of a definition, a field, a constructor, or a fact beside a proof: the names before the colon
DECLARED = re.compile(r"^[ \t]*(?:let )?(?:pub |abbrev |unfoldable |private )*([^\s(){}.;,@\"«»:]+(?: [^\s(){}.;,@\"«»:]+)*)(?: \{[^{}]*\})* :(?=\s|$)")
BOUND = re.compile(r"(?:let|in) ([^\s(){}.;,@\"«»:]+) =")
COMMENT = re.compile(r"--[^\n]*")
SPAN = re.compile(r"`[^`\n]*`")
CLAUSE = re.compile(r"\b(?:requires|ensures)\*?(?: +\w+)? *\{|\bghost(?: +\w+:)? *\{")


def texts(kinds):
    for top in ("crates",):
        for folder, dirs, files in os.walk(top):
            dirs[:] = sorted(d for d in dirs if d not in ("out", "target"))
            for f in sorted(files):
                if f.endswith(kinds):
                    yield os.path.join(folder, f)


def read(path):
    with open(path, encoding="utf-8") as f:
        return f.read()


def is_function_proof(path):
    parts = path.split(os.sep)
    return parts[2] == "proofs" and len(parts) > 4


def library(kit):
    """Every name that the library's texts have."""
    found = set()
    for folder, _, files in os.walk(kit):
        for f in files:
            if f.endswith(".antt"):
                with open(os.path.join(folder, f), encoding="utf-8", errors="replace") as it:
                    found |= set(WORD.findall(COMMENT.sub("", it.read())))
    return found


def snake(name):
    words = re.sub(r"(?<=[a-z0-9])([A-Z]+)(?=[A-Z][a-z]|\b|[-_₀-₉'0-9]|$)", lambda m: "_" + m[0].lower(), name)
    words = re.sub(r"(?<=[a-z0-9])[A-Z]", lambda m: "_" + m[0].lower(), words)
    words = re.sub(r"(?<=[A-Z])[A-Z](?=[a-z])", lambda m: "_" + m[0].lower(), words)
    return words.replace("-", "_").lower() if name[0].islower() else words


# the waiting charges of a line: a field of a record of the laws is called `on_line`
CHOSEN = {"onLine": "of_line"}


def scope(code):
    """The names that stand alone in a file: behind no dot, and not on the way to a module."""
    code = re.sub(r"(?m)^((?:pub )?(?:ghost )?use )[^\s{]*?(?:\{|(?=[^\s.{]*$))", r"\1", code)
    return set(re.findall(rf"(?<![^\s(){{}};,@]){NAME}", code))


def names(kit):
    declared, camel, alone, defined = set(), set(), [], set()
    for path in texts((".antt",)):
        code = COMMENT.sub("", read(path))
        tokens = set(WORD.findall(code))
        alone.append(scope(code))
        for t in tokens:
            if CAMEL.match(t) and not t.startswith(("Need", "Lts")):
                camel.add(t)
        if is_function_proof(path):
            continue
        for m in filter(None, map(DECLARED.match, code.split("\n"))):
            for t in m[1].split():
                declared.add(t)
                if "/specs/" in path:
                    defined.add(t)
        declared |= set(BOUND.findall(code))
    of_kit = library(kit)
    turns = {}
    for t in sorted(camel | {d for d in declared if "-" in d}):
        if t in of_kit or t[0].isupper() or not t[0].isalpha():
            continue
        if re.search(r"[^\w'₀-₉-]", t):
            continue
        turns[t] = CHOSEN.get(t) or snake(t)
    rust = set()
    for path in texts((".rt",)):
        rust |= set(re.findall(r"\b(?:pub )?([a-z]\w*): ", re.sub(r"//[^\n]*", "", read(path))))
    return turns, [a - rust for a in alone], defined


def settle(turns, alone, defined):
    """No two names fall together: a lemma that would get the name of a definition ends in `_lem`."""
    clash = set()
    for tokens in alone:
        new = {}
        for t in tokens:
            new.setdefault(turns.get(t, t), set()).add(t)
        for group in new.values():
            if len(group) > 1:
                clash |= {t for t in group if "-" in t} or {t for t in group if t not in defined} or {t for t in group if t in turns}
    same = {}
    for t in turns:
        same.setdefault(turns[t], []).append(t)
    for group in same.values():
        if len(group) > 1:
            clash |= {t for t in group if "-" in t}
    for t in sorted(clash):
        turns[t] = turns.get(t, t) + "_lem"
    return turns


def turn_words(text, turns, keep=()):
    def word(m):
        t = m[0]
        return turns[t] if t in turns and t not in keep else t

    return WORD.sub(word, text)


def turn_comment(text, turns):
    text = SPAN.sub(lambda m: turn_words(m[0], turns), text)
    return re.sub(r"\b[a-z][a-z0-9]*[A-Z]\w*\b", lambda m: turns.get(m[0], m[0]), text)


def turn_antt(text, turns, keep=()):
    out, at = [], 0
    for m in COMMENT.finditer(text):
        out += [turn_words(text[at : m.start()], turns, keep), turn_comment(m[0], turns)]
        at = m.end()
    return "".join(out + [turn_words(text[at:], turns, keep)])


def block(text, at):
    """The end of the block that opens before `at`."""
    deep = 1
    while deep and at < len(text):
        deep += {"{": 1, "}": -1}.get(text[at], 0)
        at += 1
    return at


def turn_rust(text, turns):
    spans = [(m.start(), m.end()) for m in re.finditer(r"ghost\s+use\b[^;]*;", text)]
    spans += [(m.end(), block(text, m.end())) for m in CLAUSE.finditer(text)]
    spans += [(m.start(), m.end()) for m in re.finditer(r"//[^\n]*", text)]
    out, at = [], 0
    for a, b in sorted(spans):
        if a < at:
            continue
        part = text[a:b]
        out += [text[at:a], turn_comment(part, turns) if part.startswith("//") else turn_words(part, turns)]
        at = b
    return "".join(out + [text[at:]])


LABEL = re.compile(r"(?m)^(?:abbrev |pub )*(\S+) : (?:tie|goal)\.")


def main():
    kit = os.environ.get("RATTLE_LIBRARY") or os.path.join(os.path.dirname(os.path.realpath(os.popen("command -v rt").read().strip())), "..", "rattle")
    turns = settle(*names(kit))
    if "--names" in sys.argv:
        for old, new in sorted(turns.items()):
            print(old, new)
        return
    for path in texts((".antt", ".rt")):
        old = read(path)
        if path.endswith(".rt"):
            new = turn_rust(old, turns)
        else:
            new = turn_antt(old, turns, set(LABEL.findall(old)) if is_function_proof(path) else ())
        if new != old:
            with open(path, "w", encoding="utf-8") as f:
                f.write(new)
    for folder, _, files in os.walk("docs"):
        for f in sorted(files):
            if f.endswith(".md"):
                path = os.path.join(folder, f)
                old = read(path)
                new = SPAN.sub(lambda m: turn_words(m[0], turns), old)
                if new != old:
                    with open(path, "w", encoding="utf-8") as it:
                        it.write(new)


if __name__ == "__main__":
    main()
