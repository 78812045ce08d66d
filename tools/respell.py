#!/usr/bin/env python3
"""Spells the definitions, lemmas, fields, constructors and ghost members that the crates declare in snake case.

usage: tools/respell.py [--check]      at the top of the repository, once, after the toolchain's own script

A lemma that would then have a definition's name gets `_lem`. Names that the toolchain makes (goals, labels behind a dot
that have a dash), names of src/, strings and the library's names stay. It prints each file in which a new name meets
another word, so that a person looks there; with --check it writes nothing.
"""

import collections
import glob
import re
import sys

TOKEN = re.compile(r"""--[^\n]*|//[^\n]*|"(?:\\.|[^"\\\n])*"|[^\s(){}.;,@"«»]+""")
DECLARED = re.compile(r"^(?:abbrev |unfoldable )?(?:pub )?(?:abbrev |unfoldable )?([^\s:(){}]+)(?: \{[^{}\n]*\})* :")
HEADED = re.compile(r"^(?:abbrev |unfoldable )?(?:pub )?(?:data|record) ")
MEMBER = re.compile(r"^\s+(?:pub )?([^\s:(){}]+)(?: \{[^{}\n]*\})* :")
GHOST = re.compile(r"^\s*ghost ([A-Za-z_]+)(?=[:\s=])")
SPAN = re.compile(r"`[^`\n]+`")
IMPORT = re.compile(r"^(?:ghost )?use ([^\s{]+)\.\{([^}]*)\}", re.M)

# By crate, the lemmas that would be called as a definition or a word of the library is.
APART = {
    "aiger": ["header-text", "nexts-low", "blank-gate", "blank-input", "blank-latch", "set_all"],
    "encoding": ["event-count", "answer-count", "bit-and", "output-known"],
    "session": ["one_way", "never-foreign", "replaced-when", "replaced-by"],
    "synthesis": ["bit-and", "answer-row", "candidate-row", "exception-cells", "answer-cells"],
    "game": ["first-event", "step_in", "bit-and"],
    "measured": ["walk_step"],
    "script": ["word-of"],
}


def is_old(name):
    return name[0].islower() and re.fullmatch(r"[\w'?-]+", name) and re.search("[a-z0-9?][A-Z]|-", name)


def snake(name):
    name = name.replace("-", "_")
    if name[0].islower():
        name = re.sub(r"([a-z0-9?])([A-Z]+)", lambda m: m[1] + "_" + m[2].lower(), name)
    return name


def files(*kinds):
    for kind in kinds:
        yield from sorted(glob.glob("crates/*/" + kind, recursive=True))


def crate_of(path):
    return path.split("/")[1]


def declared():
    """Top-level names with where they stand, and names of fields, constructors and ghost members."""
    top, inner = collections.defaultdict(set), set()
    for path in files("specs/**/*.antt", "proofs/**/*.antt"):
        inside = False
        for line in open(path):
            if HEADED.match(line):
                inside = True
                continue
            if not line.startswith(" "):
                inside = False
                m = DECLARED.match(line)
                if m and not line.startswith(("--", "use ", "mod ", "pub mod ")) and " goal." not in line:
                    top[m[1]].add(path)
                continue
            m = MEMBER.match(line)
            if m and " goal." not in line:
                if inside:
                    inner.add(m[1])
                else:
                    top[m[1]].add(path)
    for path in files("src/**/*.rt"):
        for line in open(path):
            m = GHOST.match(line)
            if m:
                inner.add(m[1])
    return top, inner


def tables(top, inner):
    """For each crate that declares it, old to new."""
    new = {}
    for name in set(top) | inner:
        if is_old(name):
            new[name] = snake(name)
    return new


def foreign(text):
    """Names that a file takes from elsewhere than the repository's crates."""
    crates = {p.split("/")[1] for p in glob.glob("crates/*")}
    out = set()
    for m in IMPORT.finditer(text):
        parts = m[1].split(".")
        if parts[0] != "Rattle" or parts[1] not in crates:
            out |= {w.strip().split(" as ")[0].strip("«»") for w in m[2].split(",")}
    return out


def turn(text, new, inner, path, report):
    skip = foreign(text)
    seen = collections.defaultdict(set)
    antt = path.endswith(".antt")

    def one(m):
        word = m[0]
        if word.startswith('"'):
            return word
        if word.startswith("--" if antt else "//"):
            return re.sub(
                r"[A-Za-z][\w'?]*",
                lambda p: new[p[0]] if p[0] in new and p[0] not in skip and p[0][0].islower() and re.search("[A-Z]", p[0]) else p[0],
                word,
            )
        bare = word if word in new else word.rstrip("':")
        tail = word[len(bare):]
        behind = text[m.start() - 1 : m.start()] == "."
        if apart(path, bare) and not behind:
            seen[apart(path, bare) + tail].add(word)
            return apart(path, bare) + tail
        if bare in new and bare not in skip:
            if behind and bare not in inner:
                head = re.search(r"([^\s(){}.;,@\"«»]+)\.$", text[: m.start()])
                if not (head and head[1][0].isupper()) and "-" in bare:
                    seen[word].add("stays")
                    return word
            to = new[bare]
            seen[to + tail].add(word)
            return to + tail
        if not behind:
            seen[word].add(word)
        return word

    out = TOKEN.sub(one, text)
    for to, olds in seen.items():
        olds.discard("stays")
        if len(olds) > 1:
            report.append(f"meets: {path}: {to}: {sorted(olds)}")
    return out


def apart(path, name):
    return snake(name) + "_lem" if path.endswith(".antt") and name in APART.get(crate_of(path), ()) else None


def main():
    check = "--check" in sys.argv
    top, inner = declared()
    new = tables(top, inner)
    report = []
    if not new:
        print("nothing is left to spell")
        return
    for path in files("specs/**/*.antt", "proofs/**/*.antt", "src/**/*.rt"):
        text = open(path).read()
        turned = turn(text, new, inner, path, report)
        if turned != text and not check:
            open(path, "w").write(turned)
    for path in sorted(glob.glob("*.md") + glob.glob("docs/*.md") + glob.glob("models/*.md")):
        text = open(path).read()
        turned = SPAN.sub(
            lambda m: TOKEN.sub(lambda t: new.get(t[0], t[0]) if re.search("[A-Z]", t[0]) else t[0], m[0][1:-1]).join("``"),
            text,
        )
        if turned != text and not check:
            open(path, "w").write(turned)
    print("\n".join(report))
    print(f"{len(new)} names")


main()
