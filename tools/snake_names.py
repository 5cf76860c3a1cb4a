#!/usr/bin/env python3
"""Brings this repository's own names in antt to the spelling of today's Rattle: words in snake case, types in upper camel case.

usage: python3 tools/snake_names.py [--list]     at the top, once, right after the kit's port.py; --list prints old and new names and changes nothing

A dash stays in the name of a lemma that is two names which stand by themselves, as in `pow-add`. Names of functions and of strings in
src/ stay as they are, and so does every name that a library of the kit exports.
"""
import os
import re
import sys

# words that name a function, an operation or a constructor of the library
LIBRARY = set("add mul sub neg div mod pow sum zero suc one length take drop append map not and or xor shl shr rot le lt eq".split())
ID = r"[A-Za-z_⊕⊗⊖⋆][^\s(){}\[\];,.:⟦⟧\"λ`]*"
SIGNATURE = re.compile(r"^\s*(?:(?:pattern|unfoldable|abbrev|pub|axiom) )*((?:" + ID + r" )*" + ID + r")(?: \{[^}]*\})? : ")
HEAD = re.compile(r"^\s*(?:(?:pattern|unfoldable|abbrev|pub) )*(?:record|data|module|ruleset) (" + ID + ")")
TYPE = re.compile(r" : .*Type 0\s*(where)?$")
TOKEN = re.compile(r"(?<![\w'◌-])[A-Za-z_][\w']*(?:-[\w'*]+)*(?![\w'◌-])")
# names whose words are not told by their spelling
OWN = {
    "toArray": "to_array",
    "toString": "to_string",
    "getD-bits-of": "get_or-bits_of",
    "getD-bytes": "get_or-bytes",
    "getD-flips": "get_or-flips",
    "getD-from": "get_or_from",
    "getD-tab": "get_or-tab",
    "getD-zeros": "get_or-zeros",
}


def files(endings):
    for folder, dirs, names in os.walk("."):
        dirs[:] = sorted(d for d in dirs if d not in ("out", ".git", "target"))
        for f in sorted(names):
            if f.endswith(endings):
                yield os.path.join(folder, f)


def read(path):
    with open(path, encoding="utf-8") as f:
        return f.read()


def declared():
    """Each name that an antt file of this repository declares, with the kinds of files that do, and whether it is a type there."""
    kinds, types, taken = {}, set(), set()
    for p in files(".antt"):
        kind = "spec" if "/specs/" in p else "law" if re.search(r"/proofs/[A-Z]\w*\.antt$", p) else "proof"
        lines = read(p).split("\n")
        for l in lines:
            m = re.match(r"\s*(?:pub )?use (?!Rattle\.(?!std\b|core\b|libc\b|io\b|os\b))\S*\.\{(.*)\}", l)
            if m:
                taken |= {w.strip().split(" as ")[0] for w in m[1].split(",")}
            m = HEAD.match(l)
            if m:
                kinds.setdefault(m[1], set()).add(kind)
                types.add(m[1])
                continue
            if " : tie.Need" in l:
                continue
            m = SIGNATURE.match(l)
            for n in m[1].split() if m else []:
                kinds.setdefault(n, set()).add(kind)
                if TYPE.search(l):
                    types.add(n)
    return kinds, types, taken


def snake(word):
    return re.sub(r"(?<=[a-z0-9])([A-Z])", lambda m: "_" + m[1].lower(), word)


def spelled(name, kinds, types, words):
    if name in OWN:
        return OWN[name]
    if name[0].isupper():
        if name in types:
            return "".join(w[:1].upper() + w[1:] for w in name.split("-")) if name not in ("Sha3-256",) else "Sha3_256"
        return name.replace("-", "_")
    parts = [snake(w) if re.match(r"[a-z]+[A-Z]", w) else w for w in name.split("-")]
    joins = kinds == {"law"} and len(parts) == 2 and parts[0] in words and parts[1] in words
    return ("-" if joins else "_").join(parts)


def renamed():
    kinds, types, taken = declared()
    words = LIBRARY | {n for n, k in kinds.items() if "spec" in k and "-" not in n and n.islower()}
    to = {}
    for n in kinds:
        if ("-" in n or re.match(r"_?[a-z]+\w*[A-Z]", n)) and n not in taken:
            new = spelled(n, kinds[n], types, words)
            if new != n:
                to[n] = new
    return to


def turn_code(text, to, comment):
    """Turns names outside comments and strings, and between backquotes within comments."""
    out = []
    for line in text.split("\n"):
        m = re.search(comment, line)
        code, rest = (line[:m.start()], line[m.start():]) if m else (line, "")
        parts = re.split(r'("(?:[^"\\]|\\.)*")', code)
        parts[::2] = [TOKEN.sub(lambda t: to.get(t[0], t[0]), s) for s in parts[::2]]
        out.append("".join(parts) + turn_prose(rest, to))
    return "\n".join(out)


def turn_prose(text, to):
    return re.sub(r"`[^`\n]+`", lambda q: TOKEN.sub(lambda t: to.get(t[0], t[0]), q[0]), text)


def main(argv):
    to = renamed()
    tokens = set()
    for p in files((".antt", ".rt")):
        tokens |= set(TOKEN.findall(read(p)))
    for n in sorted(to):
        others = [m for m in to if m != n and to[m] == to[n]]
        clash = " WITH " + ",".join(others) if others else ""
        clash += " TAKEN" if to[n] in tokens else ""
        if "--list" in argv:
            print(n, to[n] + clash)
    if "--list" in argv:
        return 0
    for p in files((".antt", ".rt", ".edit", ".md")):
        old = read(p)
        if p.endswith(".antt"):
            new = turn_code(old, to, r"(?:^|\s)-- ")
        elif p.endswith(".md"):
            new = turn_prose(old, to)
        else:
            new = turn_code(old, to, r"(?:^|\s)// ")
        if new != old:
            with open(p, "w", encoding="utf-8") as f:
                f.write(new)
    return 0


if __name__ == "__main__":
    sys.exit(main(sys.argv[1:]))
