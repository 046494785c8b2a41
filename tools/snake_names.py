#!/usr/bin/env python3
"""Brings the names of this repository's definitions and lemmas to the spelling of today's Rattle.

  python3 tools/snake_names.py [--list]      at the top of a checkout that port.py has just turned

Words are in snake case, types and facts in camel case. A name that a proof file answers (a goal, an
invariant, a measure) is Rattle's and stays; so do strings, comments and the names of src/'s functions.
The script turns only names that a file of specs/ or proofs/ declares with a dash, or imports under one.
A lemma that says what one function makes of another keeps the dash between the two names.
"""
import os, re, sys

# lemmas named by the left side of their equation: the outer function, a dash, the inner one
KEPT = {
    "length-after", "length-begun", "length-extended", "length-indexed", "length-pixels", "length-preview", "length-written",
    "indexed-indexed", "indexed-map", "indexed-none", "indexed-set", "stages-reverse", "pixels-drop", "reverse-push", "targets-drop",
    "replicate-counting", "abs-mul",
}
TOKEN = r"[^\s(){}\[\];,.:=«»λ|\"]+"
HEAD = re.compile(r"\s*(?:(?:abbrev|unfoldable|pub|data|record|ruleset) )*(" + TOKEN + r")\s*(?:\([^:()]*:[^()]*\)\s*|\{[^:{}]*:[^{}]*\}\s*|\([^()]*\)\s*)*:\s+(\S+)")


def files():
    for folder, dirs, names in os.walk("crates"):
        dirs[:] = sorted(d for d in dirs if d not in ("out", "data"))
        for name in sorted(names):
            if name.endswith((".antt", ".rt")):
                yield os.path.join(folder, name)


def turned(name):
    parts = name.split("-")
    if name[0].isupper():
        return "".join(p[:1].upper() + p[1:] for p in parts)
    return "_".join(parts)


def declared():
    found = {}
    for path in files():
        if not path.endswith(".antt"):
            continue
        for line in open(path, encoding="utf-8"):
            m = HEAD.match(line)
            if m and "-" in m.group(1) and not m.group(2).startswith(("goal.", "need.")):
                found.setdefault(m.group(1), path)
            if line.startswith("use "):
                for alias in re.findall(r" as (" + TOKEN + ")", line):
                    if "-" in alias:
                        found.setdefault(alias, path)
    return {name: path for name, path in found.items() if name not in KEPT}


def rewritten(text, names, comment):
    """The text with each whole token that is in names turned, outside strings and comments."""
    out = []
    part = re.compile(r'"(?:[^"\\]|\\.)*"|' + re.escape(comment) + r"[^\n]*|" + TOKEN)
    at = 0
    for m in part.finditer(text):
        out.append(text[at:m.start()])
        word = m.group(0)
        out.append(turned(word) if word in names else word)
        at = m.end()
    out.append(text[at:])
    return "".join(out)


def main():
    names = declared()
    if "--list" in sys.argv:
        for name in sorted(names):
            print(name, turned(name), names[name])
        return
    count = 0
    for path in files():
        with open(path, encoding="utf-8") as f:
            old = f.read()
        new = rewritten(old, names, "--" if path.endswith(".antt") else "//")
        if new != old:
            count += 1
            with open(path, "w", encoding="utf-8") as f:
                f.write(new)
    print(f"snake_names: {len(names)} names turned, in {count} files")


main()
