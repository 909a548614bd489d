#!/usr/bin/env python3
"""Brings this repository's own names to snake case, once, after the kit's port.py.

usage: python3 tools/respell.py            at the top of the repository

A name of a definition, field, constructor or lemma that a file of specs/ or a lemma file of proofs/ declares
is respelled wherever it stands: in .antt files, in the clauses of .rt files, and in must-fail edits. A dash
before a letter or a digit becomes an underscore. A file that imports the same name from the kit keeps it.
What it meets of names that fall together is printed.
"""
import glob
import os
import re
import sys

NAME = r"[^\s(){}\[\].,;:@\"«»`]+"
TOKEN = re.compile(NAME)
DECLARED = re.compile(r"\s*(?:abbrev |unfoldable |opaque |private |pub )*(" + NAME + r")\s*:(?!=)")
CONSTRUCTOR = re.compile(r"\s*(?:\||constructor)\s*(" + NAME + r")")
IMPORT = re.compile(r"^\s*(?:pub )?(?:ghost )?use ([\w·.'-]+?)(?:\.\{([^}]*)\}|)(?: as [\w'-]+)?;?\s*$", re.M)


def spelled(name):
    return re.sub(r"(?<=[^\s])-(?=[A-Za-z0-9])", "_", name)


def read(path):
    with open(path, encoding="utf-8") as f:
        return f.read()


def bare(text):
    """The text without its comments."""
    return re.sub(r"(?m)--.*$|//.*$", "", text)


def crates():
    return {line.split(":")[0].split()[0] for line in open("crates.txt", encoding="utf-8") if line.strip() and line[0] != "#"}


def lemma_files():
    for path in sorted(glob.glob("crates/*/specs/**/*.antt", recursive=True) + glob.glob("crates/*/proofs/**/*.antt", recursive=True)):
        if os.path.basename(path) != "Proof.antt":
            yield path


def own_names():
    names, plain = {}, {}
    for path in lemma_files():
        for line in bare(read(path)).splitlines():
            for form in (DECLARED, CONSTRUCTOR):
                m = form.match(line)
                if m and m.group(1) not in ("use", "module", "where", "|"):
                    name = m.group(1)
                    to = names if "-" in name and spelled(name) != name else plain
                    to.setdefault(name, set()).add(path)
    return names, plain


def kit_names(text, own_crates):
    """The names that a file imports from the kit."""
    out = set()
    for m in IMPORT.finditer(text):
        parts = m.group(1).split(".")
        if parts[0] == "Rattle" and len(parts) > 1 and parts[1] in own_crates:
            continue
        if m.group(2) is not None:
            out |= {n.strip().strip("«»") for n in m.group(2).split(",")}
    return out


def respell_antt(text, names, kit):
    def put(m):
        n = m.group(0)
        return spelled(n) if n in names and n not in kit else n
    return TOKEN.sub(put, text)


def respell_line(text, names, kit):
    text = re.sub(r"«(" + NAME + r")»", lambda m: spelled(m.group(1)) if m.group(1) in names and m.group(1) not in kit else m.group(0), text)
    code, mark, comment = text.partition("//")
    code = respell_antt(code, names, kit)
    comment = re.sub(r"`([^`]+)`", lambda m: "`" + respell_antt(m.group(1), names, kit) + "`", comment)
    return code + mark + comment


def respell_rt(text, names, kit):
    return "".join(respell_line(line, names, kit) for line in text.splitlines(True))


def main():
    own = crates()
    names, plain = own_names()
    falls = {}
    for n, paths in names.items():
        falls.setdefault(spelled(n), set()).add(n)
    for s, group in sorted(falls.items()):
        if len(group) > 1 or s in plain:
            print("fall together:", s, sorted(group), "and plain" if s in plain else "", sorted(set().union(*(names[g] for g in group), plain.get(s, set()))))
    changed = 0
    paths = sorted(glob.glob("crates/*/*/**/*.antt", recursive=True)) + sorted(glob.glob("crates/*/src/**/*.rt", recursive=True)) + sorted(glob.glob("crates/*/must-fail/*.edit"))
    for path in paths:
        old = read(path)
        if path.endswith(".antt"):
            kit = kit_names(old, own)
            new = respell_antt(old, names, kit)
        elif path.endswith(".rt"):
            kit = kit_names(old, own)
            new = respell_rt(old, names, kit)
            code = bare(old)
            for n in sorted({t for t in TOKEN.findall(code) if t in names and t not in kit}):
                if re.search(r"\b(?:let (?:mut )?)?" + re.escape(spelled(n)) + r"\s*:(?!:)", code):
                    print("also a Rust name:", path, n)
        else:
            new = respell_antt(old, names, set())
        for n in sorted({t for t in TOKEN.findall(old) if t in kit and t in names} if path.endswith((".rt", ".antt")) else ()):
            if "Proof.antt" not in path:
                print("kept, the kit's:", path, n)
        if new != old:
            changed += 1
            with open(path, "w", encoding="utf-8") as f:
                f.write(new)
    print(f"respelled: {len(names)} names, {changed} files")


if __name__ == "__main__":
    sys.exit(main())
