#!/usr/bin/env python3
"""Brings the repository's own definitions and lemmas to snake case, after port.py: usage: port_names.py ROOT [--table FILE].

The table beside this script (port_names.tsv: old name, tab, new name) says what becomes what; --table writes it anew from the names that the
files of specs/ and proofs/ declare. Names of the library, of functions of src/, exported C names, strings, inputs and outputs stay. In a
comment or a page only what stands in backticks is turned. A middle dot in an alias of a library's name goes: the library's name serves."""

import collections
import os
import re
import subprocess
import sys

HERE = os.path.dirname(os.path.abspath(__file__))
HEAD = r"[A-Za-zμ_ℤℕ]"
REST = r"[\w'₀-₉⁺ℤℕ]"
NAME = HEAD + REST + "*(?:-" + REST + "+)*"
# aliases with a middle dot, and the library's own names
ALIASES = {
    "List·getD-append": "get_or-append",
    "List·getD-eq-default": "get_or-eq_default",
    "List·getD-map": "get_or-map",
    "eqb·suc-zero": "eqb-suc-zero",
    "leb·suc-suc": "leb-suc-suc",
}
# pieces in camel case, each with the library's spelling
PIECES = {"eqZ": "eq_z", "leZ": "le_z", "ltZ": "lt_z", "ofZ": "of_z", "decZ": "dec_z", "decimalZ": "decimal_z", "headN": "head_n", "headZ": "head_z", "getD": "get_or"}
# names of the library beside which a proof has its own of the same name
KEPT = {"drop-drop"}


def files(root):
    """The .antt files that declare (specs, lemmas), those of single functions' proofs, and the .rt files."""
    lemmas, functions, sources = [], [], []
    for folder, below, names in os.walk(os.path.join(root, "crates")):
        below[:] = sorted(d for d in below if d != "out")
        place = os.path.relpath(folder, root).split(os.sep)
        for f in sorted(names):
            path = os.path.join(folder, f)
            if f.endswith(".antt"):
                of_function = len(place) > 3 and place[2] == "proofs"
                (functions if of_function else lemmas).append(path)
            elif f.endswith(".rt"):
                sources.append(path)
    return lemmas, functions, sources


def text_of(path):
    with open(path, encoding="utf-8") as f:
        return f.read()


def bare(text):
    return re.sub(r"(?m)--(?=\s|-|$).*", "", text)


def own_crates(root):
    return "|".join(sorted(os.listdir(os.path.join(root, "crates"))))


def imported(paths, crates):
    """The names that come from the library."""
    found = set()
    for p in paths:
        for m in re.finditer(r"(?m)^(?:pub )?use ([\w.◌·+]+)\.\{([^}]*)\}", bare(text_of(p))):
            if not re.match(rf"Rattle\.({crates})\.", m[1] + "."):
                found |= {n.strip().split(" as ")[0] for n in m[2].split(",")}
    return found


def declared(paths):
    found = set()
    for p in paths:
        for line in bare(text_of(p)).split("\n"):
            if m := re.match(r"\s*(?:(?:pub|abbrev|unfoldable|data|record|constructor|let)\s+)*(" + NAME + r")((?:\s*[{(].*)?)\s:(?:\s|$)", line):
                found.add(m[1])
            for m in re.finditer(r"[({]((?:" + NAME + r"\s+)*" + NAME + r")\s:\s", line):
                found |= set(m[1].split())
            found |= set(re.findall(r"\blet\s+(" + NAME + r")\s", line))
            for m in re.finditer(r"λ\s+([^.]*)\.", line):
                found |= set(re.findall(NAME, m[1]))
            if m := re.match(r"\s*" + NAME + r"((?:\s[^=:]*)?)\s=\s", line):
                found |= {n for n in re.findall(NAME, m[1])}
            if m := re.match(r"\s*(" + NAME + r")(?:\s[^=:]*)?\s=\s", line):
                found.add(m[1])
            # constructors of a data type, each on a line, and aliases of modules
            if m := re.search(r"\bas (" + NAME + r")\s*$", line):
                found.add(m[1])
    return found


def turned(name):
    parts = name.split("-")
    return "_".join(PIECES.get(p, p) for p in parts)


def table(root):
    lemmas, functions, sources = files(root)
    library = imported(lemmas + functions, own_crates(root))
    rows = {}
    for n in sorted(declared(lemmas)):
        if n not in library and n not in KEPT and turned(n) != n:
            rows[n] = turned(n)
    taken = collections.defaultdict(list)
    for old, new in rows.items():
        taken[new].append(old)
    words = set()
    for p in lemmas:
        words |= set(re.findall(NAME, bare(text_of(p))))
    for new, olds in taken.items():
        if len(olds) > 1 or new in words:
            print(f"look: {', '.join(olds)} become {new}" + (", which is a name already" if new in words else ""))
    return rows


def over_names(text, rows):
    return re.sub(r"(?<![\w'·ℤℕ-])" + r"(?:[A-Za-z]+·)?" + NAME, lambda m: ALIASES.get(m[0]) or rows.get(m[0], m[0]), text)


def in_backticks(text, rows):
    return re.sub(r"`[^`\n]*`", lambda m: over_names(m[0], rows), text)


def antt(text, rows):
    out = []
    for line in text.split("\n"):
        m = re.search(r"--(?=\s|-|$)", line)
        code, note = (line[: m.start()], line[m.start() :]) if m else (line, "")
        code = "".join(part if part.startswith('"') else over_names(part, rows) for part in re.split(r'("(?:[^"\\]|\\.)*")', code))
        for old, new in ALIASES.items():
            code = code.replace(f"{new} as {new}", new)
        out.append(code + in_backticks(note, rows))
    return "\n".join(out)


def source(text, rows):
    """Names of clauses and of `ghost use`; a name with a dash stands nowhere else."""
    out = []
    for line in text.split("\n"):
        m = re.search(r"//", line)
        code, note = (line[: m.start()], line[m.start() :]) if m else (line, "")
        out.append("".join(part if part.startswith('"') else over_names(part, rows) for part in re.split(r'("(?:[^"\\]|\\.)*")', code)) + in_backticks(note, rows))
    return "\n".join(out)


def write(path, text):
    if text != text_of(path):
        with open(path, "w", encoding="utf-8") as f:
            f.write(text)


def main(argv):
    root = argv[0]
    place = os.path.join(HERE, "port_names.tsv")
    if argv[1:] == ["--table"]:
        rows = table(root)
        with open(place, "w", encoding="utf-8") as f:
            f.writelines(f"{old}\t{new}\n" for old, new in rows.items())
        print(f"{len(rows)} names")
        return 0
    rows = dict(line.rstrip("\n").split("\t") for line in open(place, encoding="utf-8"))
    lemmas, functions, sources = files(root)
    for p in lemmas + functions:
        write(p, antt(text_of(p), rows))
    for p in sources:
        write(p, source(text_of(p), rows))
    for crate in sorted(os.listdir(os.path.join(root, "crates"))):
        subprocess.run(["rt", "fmt"], cwd=os.path.join(root, "crates", crate), stdout=subprocess.DEVNULL, stderr=subprocess.DEVNULL)
    return 0


if __name__ == "__main__":
    raise SystemExit(main(sys.argv[1:]))
