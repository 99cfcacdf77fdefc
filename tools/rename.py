#!/usr/bin/env python3
"""Brings the repository's own definitions and lemmas to snake case: mergeByte is merge_byte, bit-zero is bit_zero.

usage: rename.py [--list]     at the top of a tree that port.py has turned, once

A name is the repository's own where specs/ or proofs/ declare it or bind it. Types, functions of src/ and what the toolchain makes
keep their names: a step or a goal of a proof is cited behind a dot, or has a type that begins with `tie.`.
It rewrites crates/*/{src,specs,proofs} in place, and the names that README.md, CHANGES.md and docs/ cite. --list prints each name, old and new, and writes nothing.
It stops, and writes nothing, where two names of one file would fall together.
"""

import collections
import os
import re
import sys

WORD = re.compile(r'[^\s(){}.;,@"«»`\[\]\\]+')
OWN = re.compile(r"Rattle\.(?!std\b|core\b)")
DECLARED = re.compile(r"\s*(?:unfoldable |abbrev |pub |private )*(?:record |data )?([^\s:(){}.,;@=]+)(?: +(?:\([^)]*\)|\{[^}]*\}))* *:(?:\s|$)")
ANSWER = re.compile(r".*?:\s*(?:tie\.|\{M : Type 1\} → statement)")

# The names that port.py had brought to snake case, as its log lists them: pages still cite the old ones.
PORTED = """
ahead-none all-digits all-ones and-left and-right andThen at-byte at-lt at-other bit-byte bit-is bit-word block-same blockAt by-flags by-tags byte-
above byte-left byte-or byte-word byteAt callAt codeOf copy-holds digit-lt digits-append digits-more done-next each-at each-row either-lt either-room
entry-lt entry-read every-of filled-in filled-next first-off freshOf from-first front-bytes given-inside goes-first goes-last half-back halves-in
halves-lt inSlot isCall isNumber kept-byte kept-low laid-from last-line left-after lengthAt line-after line-refused lineOf linesOf load-part low-bit
low-byte made-of marked-more next-word no-slot none-free not-on number-lt numberIn one-piece open-done or-left or-right outOf part-bytes part-in part-
same pointOf put-all put-in put-other ran-append read-back read-same read-whole row-at row-back row-in row-put row-read row-same run-holds same-byte
same-number same-self select-law set-all set-holds sets-more settled-is split-at startOf tag-fits tagAt tagOf top-byte update-all update-other update-
same value-out waits-there withFlags withTag word-back word-lt word-of word-read word-same wordIn words-back words-same write-done written-is
"""


def snake(word):
    if not word[0].islower():
        return word
    return re.sub(r"([a-z0-9])([A-Z])", lambda m: m[1] + "_" + m[2].lower(), word).replace("-", "_")


def plain(word):
    return re.fullmatch(r"[a-z][A-Za-z0-9]*(?:[-_][A-Za-z0-9₀-₉]+)*[₀-₉'′]*", word) is not None


def files(root):
    for folder, folders, names in os.walk(os.path.join(root, "crates")):
        folders[:] = sorted(it for it in folders if it != "out")
        for name in sorted(names):
            if name.endswith((".antt", ".rt")):
                yield os.path.join(folder, name)


def pages(root):
    yield from (os.path.join(root, it) for it in ("README.md", "CHANGES.md"))
    for folder, _, names in sorted(os.walk(os.path.join(root, "docs"))):
        yield from (os.path.join(folder, it) for it in sorted(names) if it.endswith(".md"))


def read(path):
    with open(path, encoding="utf-8") as f:
        return f.read()


def library(text):
    """The names that a file has from a library, and not from this repository."""
    names = set()
    for path, listed in re.findall(r"^(?:pub |ghost |unfoldable )*use ([^\s{;]+?)\.\{([^}]*)\}", text, re.M):
        if not OWN.match(path):
            names |= {it.strip().split(" ")[-1] for it in listed.split(",")}
    return names


def table(root):
    declared, bound, answers, others = set(), set(), set(), set()
    for path in files(root):
        text = read(path)
        foreign = library(text)
        others |= foreign
        if not path.endswith(".antt"):
            continue
        for line in text.split("\n"):
            if line.lstrip().startswith("--") or line.startswith("use "):
                continue
            it = DECLARED.match(line)
            if it and ANSWER.match(line):
                answers.add(it[1])
            elif it:
                declared.add(it[1])
            for word in WORD.finditer(line):
                if word[0] not in foreign and (word.start() == 0 or line[word.start() - 1] != "."):
                    bound.add(word[0])
    names = {it: snake(it) for it in declared | bound if plain(it) and snake(it) != it and (it in declared or it not in answers)}
    taken = collections.Counter(names.values())
    for it in names:
        # A lemma that would have its function's name gets _lem.
        if "-" in it and (taken[names[it]] > 1 or names[it] in others or names[it] in declared | bound - set(names)):
            names[it] += "_lem"
    # The library's getD is get_or today.
    names |= {it: "get_or_" + it[5:] for it in names if it.startswith("getD-")}
    # port.py made one name of a definition and a lemma: allDigits, all-digits.
    if "allDigits" in names:
        names["all_digits"] = "all_digits_lem"
    return names, declared


def comment(text, names):
    """In prose only what is no English word with a hyphen: a name in camel case, or one in backquotes."""
    text = re.sub(r"`[^`]*`", lambda m: WORD.sub(lambda w: names.get(w[0], w[0]), m[0]), text)
    return WORD.sub(lambda w: names.get(w[0], w[0]) if re.search(r"[a-z][A-Z]", w[0]) else w[0], text)


def turned(path, text, names, declared):
    foreign = library(text)
    mark = "--" if path.endswith(".antt") else "//"
    out = []
    for line in text.split("\n"):
        at = line.find(mark) if line.lstrip().startswith(mark) else -1
        code, prose = (line[:at], line[at:]) if at >= 0 else (line, "")

        def one(word):
            if word[0] not in names or word[0] in foreign:
                return word[0]
            if word.start() and code[word.start() - 1] == "." and word[0] not in declared:
                return word[0]
            return names[word[0]]

        parts = re.split(r'("(?:[^"\\]|\\.)*")', code) if mark == "//" else [code]
        if len(parts) == 1:
            code = WORD.sub(one, code)
        else:
            whole = code
            code = "".join(it if k % 2 else WORD.sub(lambda w: names.get(w[0], w[0]) if w[0] not in foreign else w[0], it) for k, it in enumerate(parts))
        out.append(code + comment(prose, names))
    return "\n".join(out)


def together(path, text, names, declared):
    """The pairs of names in a file that would become one; a function of src/ may have its definition's name."""
    seen = collections.defaultdict(set)
    foreign = library(text)
    for line in text.split("\n"):
        if not path.endswith(".antt") or line.lstrip().startswith("--"):
            continue
        for word in WORD.finditer(re.sub(r"^(?:pub )?use [^{]*", "", line)):
            if word.start() and line[word.start() - 1] == "." and word[0] not in declared:
                continue
            seen[word[0] if word[0] in foreign else names.get(word[0], word[0])].add(word[0])
    return {it: sorted(olds) for it, olds in seen.items() if len(olds) > 1}


def main():
    if sys.argv[1:] not in ([], ["--list"]):
        sys.exit(__doc__.split("\n\n")[1])
    root = "."
    names, declared = table(root)
    if sys.argv[1:]:
        for it in sorted(names):
            print(it, names[it])
        return
    clash = {path: pairs for path in files(root) if (pairs := together(path, read(path), names, declared))}
    for path, pairs in clash.items():
        for new, olds in sorted(pairs.items()):
            print(f"{path}: {' and '.join(olds)} would both be {new}")
    if clash:
        sys.exit(1)
    for path in [*files(root), *pages(root)]:
        text = read(path)
        new = comment(text, names | {it: snake(it) for it in PORTED.split()}) if path.endswith(".md") else turned(path, text, names, declared)
        if new != text:
            with open(path, "w", encoding="utf-8") as f:
                f.write(new)


main()
