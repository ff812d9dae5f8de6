#!/usr/bin/env python3
"""Brings the names of this repository's own definitions and lemmas to snake case, as the library spells its own.

usage: tools/respell.py [FOLDER]          FOLDER holds crates/ (by default the repository); files are rewritten in place
       tools/respell.py --list [FOLDER]   prints what it would turn

It was run once, right after the kit's port.py. Names that specs/ and proofs/ declare are turned; functions, fields, variants and
parameters of src/ keep theirs, as do names that Rattle makes. A name that begins with a capital is a type or a fact and stays. A lemma
whose name falls together with a definition's or a function's ends in _lem.
"""

import os
import re
import sys

SIGNATURE = re.compile(r"^\s*(?:(?:abbrev|unfoldable|pub)\s+)*([^\s:(){}λ.,;=]+)\s+:(?:\s|$)")
NAME = r"[^\W\d][\w'₀-₉-]*"
TOKEN = re.compile(r"(?<![\w'₀-₉])" + NAME)
FUNCTION = re.compile(r"\bfn ([a-z_0-9]+)")

# Definitions whose new name is another's: the crate's own functions, which crate_laws spells as the Rust does, keep that spelling.
OTHER = {
    "headerSize": "header_length",
    "header-size": "header_length_lem",
    "maxFragmentSize": "whole_fragment_size",
    "extensionHeader": "extension_header_at",
    "drop-last": "drop_last_lem",
}


def texts(root, endings):
    for folder, dirs, files in os.walk(os.path.join(root, "crates")):
        dirs[:] = sorted(d for d in dirs if d not in ("out", "data"))
        for f in sorted(files):
            if f.endswith(endings):
                yield os.path.join(folder, f)


def read(path):
    with open(path, encoding="utf-8") as f:
        return f.read()


def in_snake_case(name):
    name = re.sub(r"(?<=[a-z0-9])(?=[A-Z])", "_", name)
    name = re.sub(r"(?<=[a-z])(?=14$)", "_", name)
    return name.replace("-", "_").lower()


def declared(root):
    """Each name that a file of specs/ or proofs/ declares, with the files that do. The proof of a function declares what Rattle asks for."""
    names = {}
    for path in texts(root, (".antt",)):
        if path.endswith("/Proof.antt"):
            continue
        for line in read(path).split("\n"):
            m = None if line.lstrip().startswith(("--", "let ", "λ")) else SIGNATURE.match(line)
            if m and re.fullmatch(NAME, m.group(1)) and m.group(1)[0].islower():
                names.setdefault(m.group(1), set()).add(path)
    return names


def renamings(root):
    """Everywhere: old name to new; and file by file, the lemmas that end in _lem."""
    names = declared(root)
    functions = {f for p in texts(root, (".rt",)) for f in FUNCTION.findall(read(p))}
    camel = {n: OTHER.get(n) or in_snake_case(n) for n in names if re.search(r"[A-Z]", n) and "-" not in n}
    taken = set(camel.values())
    everywhere, lemmas = dict(camel), {}
    for n in names:
        if n in camel:
            continue
        new = in_snake_case(n)
        falls = new in taken or ("-" in n and (new in names or new in functions))
        if n in OTHER:
            lemmas[n] = OTHER[n]
        elif falls:
            lemmas[n] = new + "_lem"
        elif new != n:
            everywhere[n] = new
    return names, everywhere, lemmas


def users(root, names, lemmas):
    """The files that declare a lemma of `lemmas`, or import it from one of this repository's modules."""
    modules = {}
    for n in lemmas:
        for p in names[n]:
            crate, rest = re.search(r"/crates/(\w+)/(.*)\.antt$", p).groups()
            modules.setdefault(f"Rattle.{crate}.{rest.replace('/', '.')}", set()).add(n)
    for p in texts(root, (".antt",)):
        text = read(p)
        here = {n for n in lemmas if p in names[n]}
        for module, words in re.findall(r"^use ([\w.+]+)\.\{([^}]*)\}", text, re.M):
            here |= modules.get(module, set()) & {w.strip().split(" as ")[0] for w in words.split(",")}
        if here:
            yield p, here


def main(args):
    show = "--list" in args
    args = [a for a in args if a != "--list"]
    root = os.path.realpath(args[0] if args else os.path.join(os.path.dirname(os.path.realpath(__file__)), ".."))
    names, everywhere, lemmas = renamings(root)
    if show:
        for n, new in sorted({**everywhere, **lemmas}.items()):
            print(n, new)
        return
    local = dict(users(root, names, lemmas))

    def turn(text, here):
        def one(m):
            n = m.group(0)
            if n in here and text[m.start() - 1] != ".":
                return lemmas[n]
            return everywhere.get(n, n)

        return TOKEN.sub(one, text)

    def by_line(text, here, comment):
        """In a comment a name with a dash may be a plain word: only names with a capital inside are turned there."""
        out = []
        for line in text.split("\n"):
            at = line.find(comment)
            code, said = (line, "") if at < 0 else (line[:at], line[at:])
            said = TOKEN.sub(lambda m: m.group(0) if "-" in m.group(0) else everywhere.get(m.group(0), m.group(0)), said)
            out.append(turn(code, here) + said)
        return "\n".join(out)

    for p in texts(root, (".antt", ".rt", ".edit")):
        text = read(p)
        new = by_line(text, local.get(p, set()), "--" if p.endswith(".antt") else "//")
        if new != text:
            with open(p, "w", encoding="utf-8") as f:
                f.write(new)
    for p in ["README.md"] + [os.path.join("docs", f) for f in sorted(os.listdir(os.path.join(root, "docs"))) if f.endswith(".md")]:
        path = os.path.join(root, p)
        text = read(path)
        both = {**everywhere, **lemmas}
        new = re.sub(r"`[^`\n]*`", lambda m: TOKEN.sub(lambda t: both.get(t.group(0), t.group(0)), m.group(0)), text)
        if new != text:
            with open(path, "w", encoding="utf-8") as f:
                f.write(new)


main(sys.argv[1:])
