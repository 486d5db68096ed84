#!/usr/bin/env python3
"""Brings the names of definitions and lemmas to the toolchain's spelling: words in snake case, types and modules in camel case, a prime as an
apostrophe. Run once, at the top, behind the toolchain's own script. Functions of src/, strings, inputs and outputs keep their names.

`--list` prints the names by crate and changes nothing."""
import collections
import glob
import re
import sys

PIECE = re.compile(r"[^\s(){}.;,@\"«»\[\]|`]+")
DECLARED = re.compile(r"^\s*(?:(?:pub|abbrev|unfoldable|data|record|ruleset)\s+)*([^\s:(){}.;,]+)(?:\s+[^:=]*)?\s:\s")
CAMEL = re.compile(r"^[a-z][A-Za-z0-9_'₀-₉-]*[A-Z]")
# What the library has under a name is not ours to rename.
FOREIGN = re.compile(r"^\s*(?:pub )?use (?!Rattle\.(?!std\b))(\S+)\.\{(.*)\}", re.M)
# A clause says `result` of what is returned. The equations of a sheet's sizes would have the names of what they are about, and so would some
# lemmas; what the toolchain's script had turned already stands here by its new name.
APART = {"result": "call_result", "equal_by": "equal_by_lem", "row_named": "row_named_lem", "row_laid": "row_laid_lem"}
# The toolchain's script took a name's end for a type.
APART |= {"no_Stack": "no_stack", "no_Stack'": "no_stack'", "last_Line": "last_line", "writes-Line": "writes_line"}
WORDS = ["result", "equal_by", "row_named", "row_laid"]
SIZES = ["code", "range", "constant", "param", "layout", "slot-kind"]
APART |= {f"{size}-count": f"{size.replace('-', '_')}_count_is" for size in SIZES}
APART |= {f"{slots}-slots": f"{slots}_slots_is" for slots in ["local", "param", "recv"]}
APART |= {"is-closure": "is_closure_is", "slot-kinds-at": "slot_kinds_at_is"}


DEFINITIONS = set()


def spelled(word):
    """The new name of a name: that of a lemma ends in `_lem` where a definition has it."""
    if word in APART:
        return APART[word]
    name = snake(word)
    return name + "_lem" if "-" in word and name in DEFINITIONS else name


def snake(word):
    """`lengthKinds` as `length_kinds`; a dash stays only where it joins a definition's name and another."""
    parts = word.split("-")
    joined = parts[0]
    for before, after in zip(parts, parts[1:]):
        names = any(re.search(r"[A-Z]", part) for part in (before, after))
        joined += ("-" if names else "_") + after
    if joined[0].isupper():
        return joined
    bounds = r"(?<=[a-z0-9₀-₉])(?=[A-Z])|(?<=[A-Z])(?=[A-Z][a-z])"
    return re.sub(r"(?<![_-])[A-Z]+", lambda m: m.group(0).lower(), re.sub(bounds, "\0", joined)).replace("\0", "_")


def statements():
    return sorted(glob.glob("crates/*/specs/**/*.antt", recursive=True) + glob.glob("crates/*/proofs/**/*.antt", recursive=True))


def declared():
    """The own names that change, with the crates that declare them."""
    names = collections.defaultdict(set)
    for path in statements():
        crate = path.split("/")[1]
        walks = path.endswith("/Proof.antt")
        for line in open(path):
            if line.lstrip().startswith("--"):
                continue
            for word in PIECE.findall(line):
                if CAMEL.match(word) and "-" not in word:
                    names[word].add(crate)
            m = DECLARED.match(line)
            if m and not walks and "-" in m.group(1).strip("-"):
                names[m.group(1)].add(crate)
            if m and not walks and m.group(1) in APART:
                names[m.group(1)].add(crate)
    for path in statements():
        for used, words in FOREIGN.findall(open(path).read()):
            for word in PIECE.findall(words):
                names.pop(word, None)
    DEFINITIONS.update(snake(word) for word in names if "-" not in word)
    DEFINITIONS.update(["in_range"])
    return {w: c for w, c in names.items() if spelled(w) != w}


def respelled(text, names, words):
    def turn(m):
        word = m.group(0)
        own = not (word in WORDS and m.start() > 0 and text[m.start() - 1] == ".")
        return spelled(word) if word in names and own and (words or CAMEL.match(word)) else word
    return PIECE.sub(turn, text)


def statement(text, names):
    lines = []
    for line in text.split("\n"):
        code, dash, comment = line, "", ""
        if line.lstrip().startswith("--"):
            code, dash, comment = "", "", line
        strings = re.split(r'("(?:[^"\\]|\\.)*")', code)
        code = "".join(part if k % 2 else respelled(part, names, True) for k, part in enumerate(strings))
        lines.append(code + dash + respelled(comment, names, False))
    return "\n".join(lines)


def source(text, names):
    lines = []
    for line in text.split("\n"):
        strings = re.split(r'(b?"(?:[^"\\]|\\.)*")', line) if not line.lstrip().startswith("//") else [line]
        lines.append("".join(part if k % 2 else respelled(part, names, False) for k, part in enumerate(strings)))
    return "\n".join(lines)


def page(text, names):
    return re.sub(r"`[^`\n]*`", lambda m: respelled(m.group(0), names, True), text)


def main():
    names = declared()
    if "--list" in sys.argv:
        crates = collections.defaultdict(list)
        for word, where in names.items():
            for crate in where:
                crates[crate].append(word)
        for crate in sorted(crates):
            print(f"{crate}: " + ", ".join(f"{w} {spelled(w)}" for w in sorted(crates[crate])))
        return
    if glob.glob("crates/*/proofs/**/Answers.antt", recursive=True):
        sys.exit("respell: proofs/ has answers, so the names have been turned already")
    for path in statements():
        turn(path, statement, names)
    for path in glob.glob("crates/*/src/**/*.rt", recursive=True):
        turn(path, source, names)
    for path in glob.glob("crates/*/must-fail/**/*.edit", recursive=True) + glob.glob("tests/below/**/*", recursive=True):
        turn(path, statement if "specs/" in open(path).read() else source, names) if path.endswith(".edit") else None
    for path in ["README.md"] + glob.glob("docs/*.md"):
        turn(path, page, names)


def turn(path, how, names):
    old = open(path).read()
    new = how(old, names)
    if new != old:
        open(path, "w").write(new)


if __name__ == "__main__":
    main()
