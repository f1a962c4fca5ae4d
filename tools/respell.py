#!/usr/bin/env python3
"""Spells this repository's own antt names as the library spells its names: words in snake case, types in camel case.

usage: tools/respell.py [--check]      at the top of the checkout, once, right after the library's names were turned

A name turns if a file of specs/ or proofs/ declares it (or binds it) and no library does. Names of the library, names
that Rattle makes (what stands behind `tie.`, `goal.` or a step of `c`), functions of src/ and text stay. The modules
specs/between are called specs/Between. A name that would meet another one is said, and nothing is written.
--check writes nothing.
"""

import os
import re
import sys

WORD = r"""[^\s(){}.;,@"«»\[\]`|]+"""
TOKEN = re.compile(WORD)
KINDS = r"(?:(?:pub|abbrev|unfoldable|record|data|mutual|axiom)[ \t]+)*"
DECLARED = re.compile(rf"^[ \t]*(?:where[ \t]+)?{KINDS}({WORD})(?:[ \t]+(?:\{{[^{{}}\n]*\}}|\([^()\n]*\)))*[ \t]*:(?![=:])", re.M)
USED = re.compile(r"^[ \t]*(?:pub[ \t]+|ghost[ \t]+)*use[ \t]+([^\s{;]+)(?:\{([^}]*)\})?", re.M)
COMMENT = re.compile(r"--[^\n]*|//[^\n]*")
# Names by hand, where the rule would meet another name.
BY_HAND = {}


def files(top):
    for folder, dirs, names in os.walk(os.path.join(top, "crates")):
        dirs[:] = sorted(d for d in dirs if d not in ("out", "must-fail"))
        for name in sorted(names):
            if name.endswith((".antt", ".rt")):
                yield os.path.join(folder, name)


def is_walk(path):
    return os.path.basename(path) in ("Proof.antt", "Answers.antt", "Invariants.antt")


def dashed(name):
    """Whether a name has the older spelling: a dash inside, or, of a type that the kit's script turned half, an underscore."""
    if re.fullmatch(r"[A-Z][a-z]+(?:_[a-z]+)+", name):
        return True
    return re.search(r"[\w'₀-₉]-[\w'₀-₉]", name) is not None and not name.startswith(("◌", "#"))


def spelled(name):
    if name in BY_HAND:
        return BY_HAND[name]
    if name[0].isupper():
        return "".join(part[:1].upper() + part[1:] for part in re.split("[-_]", name))
    return name.replace("-", "_")


def code_of(text):
    return COMMENT.sub("", text)


def imports(text, own):
    """The names that the text brings from a library, and those from this repository."""
    foreign, home = set(), set()
    for path, items in USED.findall(text):
        into = home if re.match(r"Rattle\.(%s)\." % "|".join(own), path) else foreign
        for item in (items or "").split(","):
            words = item.split()
            if not words:
                continue
            into.add(words[0])
            if len(words) == 1 or not dashed(words[-1]):
                into.add(words[-1])
            else:
                home.add(words[-1])
    return foreign, home


def survey(top):
    own = sorted(d for d in os.listdir(os.path.join(top, "crates")) if os.path.isdir(os.path.join(top, "crates", d, "src")))
    texts, declared, foreign_of = {}, set(), {}
    for path in files(top):
        with open(path, encoding="utf-8") as f:
            texts[path] = f.read()
        code = code_of(texts[path])
        foreign_of[path] = imports(code, own)[0]
        declared |= {n for n in re.findall(rf"\bas[ \t]+({WORD})", code) if dashed(n)}
        if path.endswith(".antt") and not is_walk(path):
            declared |= {n for n in DECLARED.findall(code) if dashed(n)}
            declared |= {n for n in re.findall(rf"\b(?:record|data)[ \t]+({WORD})", code) if dashed(n)}
            for m in re.finditer(r"(?:\blet|λ)[ \t]+([^:.=\n]*)[:.=]|[({]([^(){}:\n]+)[ \t]:[ \t]", code):
                declared |= {n for n in TOKEN.findall(m[1] or m[2] or "") if dashed(n)}
            for line in code.splitlines():
                if "=" in line and ":" not in line.split("=")[0]:
                    declared |= {n for n in TOKEN.findall(line.split("=")[0]) if dashed(n)}
    foreign = set().union(*foreign_of.values())
    return texts, declared, foreign_of, foreign


def turned(text, path, names):
    def word(m):
        return names.get(m[0], m[0])

    out, at = [], 0
    for m in COMMENT.finditer(text):
        out.append(TOKEN.sub(word, text[at : m.start()]))
        out.append(re.sub(r"`[^`]*`", lambda s: TOKEN.sub(word, s[0]), m[0]))
        at = m.end()
    out.append(TOKEN.sub(word, text[at:]))
    text = "".join(out)
    text = re.sub(r"\bspecs([./])between\b", r"specs\1Between", text)
    return re.sub(r"^(pub mod )between$", r"\1Between", text, flags=re.M)


def main(argv):
    top = os.getcwd()
    texts, declared, foreign_of, foreign = survey(top)
    names = {n: spelled(n) for n in declared if spelled(n) != n}
    both = sorted(n for n in names if n in foreign)
    met = {}
    words_of = {p: set(TOKEN.findall(code_of(t))) for p, t in texts.items()}
    for old, new in sorted(names.items()):
        hit = [p for p, w in words_of.items() if p.endswith(".antt") and old in w and new in w]
        if hit:
            met[old] = hit
    twice = {}
    for old, new in names.items():
        twice.setdefault(new, []).append(old)
    for new, olds in sorted(twice.items()):
        if len(olds) > 1:
            print(f"two names: {olds} -> {new}")
    for old, hit in met.items():
        print(f"meets: {old} -> {names[old]} in {[os.path.relpath(p, top) for p in hit[:6]]}")
    for n in both:
        print(f"also a library's: {n}")
    print(f"{len(names)} names")
    if argv[:1] == ["--check"]:
        return 0
    for path, text in texts.items():
        mine = {o: n for o, n in names.items() if o not in foreign_of[path]}
        new = turned(text, path, mine)
        if new != text:
            with open(path, "w", encoding="utf-8") as f:
                f.write(new)
    for crate in os.listdir(os.path.join(top, "crates")):
        old = os.path.join(top, "crates", crate, "specs", "between")
        for ending in ("", ".antt"):
            if os.path.exists(old + ending):
                os.rename(old + ending, os.path.join(os.path.dirname(old), "Between" + ending))
    return 0


if __name__ == "__main__":
    raise SystemExit(main(sys.argv[1:]))
