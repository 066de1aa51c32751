#!/usr/bin/env python3
"""Spells the repository's own definitions, lemmas, fields and variables in snake case, after port.py.

usage: tools/respell.py            in the repository: rewrites crates/ in place
       tools/respell.py --names    prints each old name with its new one, and the names that would fall together

A name in lower camel case gets underscores, and so does a name with dashes that a file of crates/ declares, unless the
library has that name. Where a definition and a lemma or field on it would fall together, the definition gets the
underscores and the other one keeps its dash. Names from the Rust source, names that Rattle makes and strings stay.
In comments a dashed name is turned only between backticks.
"""

import collections
import os
import re
import sys

NAME = r"[^\s(){}.;,@\"«»`]+"
CAMEL = re.compile(r"[a-z][\w'₀-₉]*?[a-z0-9₀-₉][A-Z][\w'₀-₉]*")
DASHED = re.compile(r"[a-z][\w'₀-₉]*(-[\w'₀-₉]+)+")
DECLARED = re.compile(r"(?m)^ *(?:(?:pub|abbrev|unfoldable) )*((?:[^\s(){}.;,@\"«»:]+ )+)(?:\{[^{}\n]*\} )*:(?= |$)")
BOUND = re.compile(r"(?:\blet |[({λ] *)((?:[^\s(){}.;,@\"«»:=]+ )+)(?=[:=])|λ ((?:[^\s(){}.;,@\"«»:=]+ ?)+)\.")
USE = re.compile(r"^(?:ghost )?use ([^\s;{]+?)(?:\.\{([^}]*)\})?(?: as (\S+))?;?$", re.M)
ANSWER = re.compile(r"(?m)^([^\s(){}.;,@\"«»:]+) : tie\.Need-\S+$")
# The same name twice: port.py gave a lemma underscores that a definition is to have, and the lemma gets its dash back.
BACK = "all_left answer_word found_before one_field answer_at no_room no_bits small_of record_of goes_on " \
    "slot_read run_in step_words split_at two_digits first_entry not_after".split()


def files(root, endings):
    for folder, dirs, names in os.walk(os.path.join(root, "crates")):
        dirs[:] = sorted(d for d in dirs if d != "out")
        for f in sorted(names):
            if f.endswith(endings):
                yield os.path.join(folder, f)


def snake(name):
    return re.sub(r"(?<=[a-z0-9₀-₉])[A-Z]", lambda m: "_" + m[0].lower(), name).replace("-", "_")


def parts(text, mark):
    """The text in pieces: code, comments behind the mark, and strings."""
    out, i, code = [], 0, 0
    while i < len(text):
        if text.startswith(mark, i) and (i == 0 or text[i - 1] in " \n"):
            j = text.find("\n", i)
            j = len(text) if j < 0 else j
            out += [("code", text[code:i]), ("comment", text[i:j])]
            i = code = j
        elif text[i] == '"':
            j = i + 1
            while j < len(text) and text[j] != '"':
                j += 2 if text[j] == "\\" else 1
            out += [("code", text[code:i]), ("string", text[i:j + 1])]
            i = code = j + 1
        else:
            i += 1
    return out + [("code", text[code:])]


def code_of(text, mark):
    return "".join(p for kind, p in parts(text, mark) if kind == "code")


def survey(root):
    own = set(os.listdir(os.path.join(root, "crates")))
    declared, library, tokens = set(), set(), collections.Counter()
    for p in files(root, ".antt"):
        with open(p, encoding="utf-8") as f:
            text = f.read()
        code = code_of(text, "--")
        answers = set(ANSWER.findall(code)) if p.endswith("/Proof.antt") else set()
        for m in DECLARED.finditer(code):
            declared.update(x for x in m[1].split() if x not in answers)
        for m in BOUND.finditer(code):
            declared.update((m[1] or m[2]).split())
        for m in USE.finditer(code):
            steps = m[1].split(".")
            if not (steps[0] == "Rattle" and steps[1] in own):
                library.update(re.findall(NAME, m[2] or ""))
        tokens.update(re.findall(NAME, code))
    return declared, library, tokens


def mapping(root):
    declared, library, tokens = survey(root)
    to, clashes = {}, []
    for x in BACK:
        if x in tokens:
            to[x] = x.replace("_", "-")
    taken = {x for x in tokens if x not in to} | set(to.values())
    for x in sorted(tokens):
        if CAMEL.fullmatch(x) and x not in library:
            to[x] = snake(x)
    made = collections.Counter(to.values())
    for x, n in sorted(to.items()):
        if made[n] > 1 or n in declared and n not in to:
            clashes.append((x, n))
    for x in sorted(tokens):
        if DASHED.fullmatch(x) and x in declared and x not in library and x not in to:
            n = snake(x)
            if n in to.values() or n in taken:
                continue
            to[x] = n
            taken.add(n)
    return to, clashes


def turn(text, to, mark, is_source):
    def word(m):
        return to.get(m[0], m[0])

    def prose(m):
        return to.get(m[0], m[0]) if CAMEL.fullmatch(m[0]) else m[0]

    out = []
    for kind, piece in parts(text, mark):
        if kind == "code" and is_source:
            piece = re.sub(r"[\w'₀-₉][\w'₀-₉-]*", lambda m: word(m) if CAMEL.fullmatch(m[0]) or DASHED.fullmatch(m[0]) else m[0], piece)
        elif kind == "code":
            piece = re.sub(NAME, word, piece)
        elif kind == "comment":
            piece = re.sub(r"`[^`\n]*`", lambda m: re.sub(NAME, word, m[0]), piece)
            piece = re.sub(r"(?<![\w-])[a-z]\w*(?![\w-])", prose, piece)
        out.append(piece)
    return "".join(out)


def main(argv):
    root = os.getcwd()
    to, clashes = mapping(root)
    if argv == ["--names"]:
        for x, n in sorted(to.items()):
            print(x, n)
        for x, n in clashes:
            print("clash:", x, n)
        return 0
    for x, n in clashes:
        print("these names fall together:", x, n)
    if clashes:
        return 1
    changed = 0
    for p in files(root, (".antt", ".rt")):
        with open(p, encoding="utf-8") as f:
            text = f.read()
        new = turn(text, to, "//" if p.endswith(".rt") else "--", p.endswith(".rt"))
        if new != text:
            changed += 1
            with open(p, "w", encoding="utf-8") as f:
                f.write(new)
    print(f"{len(to)} names, {changed} files")
    return 0


if __name__ == "__main__":
    raise SystemExit(main(sys.argv[1:]))
