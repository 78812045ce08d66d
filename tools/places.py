#!/usr/bin/env python3
"""Finds the places that a design pass looks at: tools/places.py [COMMIT] [-q].

It only finds, and finds too much: docs/DESIGN-PASS.md says of each place what became of it. Without a commit it reads the work tree,
with -q it prints counts alone.
"""
import collections
import os
import re
import subprocess
import sys

os.chdir(os.path.join(os.path.dirname(os.path.abspath(__file__)), ".."))
quiet = "-q" in sys.argv
commit = next((a for a in sys.argv[1:] if not a.startswith("-")), None)


def git(*args):
    return subprocess.run(["git", *args], capture_output=True, text=True, check=True).stdout


def read(pattern):
    """The files that match, by name."""
    if commit:
        names = [n for n in git("ls-tree", "-r", "--name-only", commit, "crates").split("\n") if re.search(pattern, n)]
        return {n: git("show", f"{commit}:{n}") for n in names}
    names = [n for n in git("ls-files", "crates").split("\n") if re.search(pattern, n) and os.path.exists(n)]
    return {n: open(n).read() for n in names}


source = read(r"/src/.*\.rt$")


def lines(pattern, within=source):
    return [f"{n}:{i}: {l.strip()}" for n, t in within.items() for i, l in enumerate(t.split("\n"), 1) if re.search(pattern, l)]


def blocks(head):
    """Each struct or signature: its file, its name, its text up to the closing bracket at the left."""
    for n, t in source.items():
        for m in re.finditer(head, t, re.M):
            yield n, m.group("name"), t[m.start():]


def functions():
    """Each function: file, name, number of parameters but self."""
    for n, name, t in blocks(r"^ *(pub(\(crate\))? )?fn (?P<name>[a-z_0-9]+)"):
        depth, i = 0, t.index("(", t.index("fn ") + 3) if "<" not in t[: t.index("(")] else None
        if i is None:
            k, angle = t.index("<"), 0
            for j in range(k, len(t)):
                angle += (t[j] == "<") - (t[j] == ">" and t[j - 1] != "-")
                if angle == 0:
                    i = t.index("(", j)
                    break
        for j in range(i, len(t)):
            depth += (t[j] in "([<") - (t[j] in ")]" or (t[j] == ">" and t[j - 1] != "-"))
            if depth == 0:
                break
        params = re.findall(r"(?:^|[,(]\s*)(?:mut )?([a-z_]+):", t[i:j])
        yield n, name, len(params)


def show(title, found):
    print(f"== {title}: {len(found)}")
    if not quiet:
        print("\n".join(found))


show("1 enums, to be read for the shape of Option or Result", lines(r"^(pub )?enum "))
show("1 a flag or a number beside a value, or for a kind",
     lines(r"-> .*\((bool|Answer|Verdict|u8), |\b(value|reason|reasons|seen)\[|Unserved|REFUSED \+"))
names = collections.defaultdict(set)
for n, name, _ in functions():
    names[name].add(n)
show("2 functions of one name in several files", sorted(f"{k}: {', '.join(sorted(v))}" for k, v in names.items() if len(v) > 1))
show("3 loops that may count by hand",
     lines(r"^ *(while |loop\b|'[a-z]+: *(loop|while))|\bfor .* in [^{]*\.\.|\.enumerate\(\)|^ *(i|j|k|at|n|place|count|held|passed|next|position|number) [-+]= "))
show("4 conversion, printing, comparison or a default by hand",
     lines(r"^impl(<.*>)? (From|TryFrom|PartialEq|Eq|Ord|fmt::Display)|\bfn (blank|same_[a-z]+|matches_[a-z]+|byte_of|bit_of|of)\(| as (u8|u16|u32|u64|usize|char)\b"))
clauses = collections.Counter(" ".join(m.split()) for t in source.values() for m in re.findall(r"(?:requires|ensures) [a-z_]+ \{[^}]*\}", t))
show("5 a clause that stands three times or more", [f"{c} {k}" for k, c in clauses.most_common() if c >= 3])
show("5 functions of five parameters or more", [f"{n}: {name}" for n, name, c in functions() if c >= 5])
fields = []
for n, name, t in blocks(r"^(pub )?struct (?P<name>[A-Za-z]+)[^;({]*\{"):
    body = t[: t.index("\n}")]
    fields += [f"{n}: {name}.{m}" for m in re.findall(r"^    (?:pub(?:\(crate\))? )?([a-z_]+: (?:&'a mut \[.*\]|\[.*; .*\]|usize)),", body, re.M)
               if re.search(r"\[|^(count|used|at|place|length|[a-z]+_count):", m)]
show("6 arrays and lent slices in structs, and counts beside them", fields)
show("7 function pointers, boxed closures, dyn, and a match on a step", lines(r"\bfn\(|Box<dyn|&dyn|match .*\b(step|kind|section)\b"))
proofs = collections.Counter()
for n, t in read(r"/proofs/.*\.antt$").items():
    proofs[n.split("/")[1]] += t.count("\n")
show("8 lines of proofs, by crate", [f"{k} {c}" for k, c in sorted(proofs.items())])
print("   in all", sum(proofs.values()))
