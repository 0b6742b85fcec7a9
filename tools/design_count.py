#!/usr/bin/env python3
"""Counts, in src/ of every crate, the places of each point of docs/DESIGN-PASS.md.

    python3 tools/design_count.py [TREE] [-v]     TREE is the top of a checkout; -v lists each place

It goes by text. What it counts is said beside each count; it can neither see a reason nor judge one.
"""
import re, sys, pathlib, collections

args = [a for a in sys.argv[1:] if not a.startswith("-")]
verbose = "-v" in sys.argv
top = pathlib.Path(args[0] if args else ".")
files = sorted(top.glob("crates/*/src/**/*.rt"))
sources = {f.relative_to(top): f.read_text() for f in files}


def line_of(text, at):
    return text.count("\n", 0, at) + 1


def show(label, places):
    print(f"{label}: {len(places)}")
    if verbose:
        for place in places:
            print("    " + place)


def found(pattern, flags=re.M):
    for name, text in sources.items():
        for m in re.finditer(pattern, text, flags):
            yield name, text, m


def functions():
    """name, header, parameters, body of each function."""
    for name, text in sources.items():
        for m in re.finditer(r"^( *)(?:pub )?(?:extern \"C\" )?fn (\w+)", text, re.M):
            indent = m.group(1)
            end = re.search(r"^%s\}" % indent, text[m.end():], re.M)
            if not end:
                continue
            whole = text[m.start(): m.end() + end.end()]
            opening = re.search(r"^%s\{$|\{$" % indent, whole, re.M)
            brace = re.search(r"\n%s\{\n" % indent, whole)
            cut = brace.start() if brace else whole.index("{")
            yield name, line_of(text, m.start()), m.group(2), whole[:cut], whole[cut:]


# 1
enums = []
for name, text, m in found(r"^(?:pub )?enum (\w+)[^{]*\{\n(.*?)^\}", re.M | re.S):
    variants = [v.strip().rstrip(",") for v in re.sub(r"//.*", "", m.group(2)).split("\n") if re.match(r"    \w", v)]
    bare = [v for v in variants if re.fullmatch(r"\w+", v)]
    with_value = [v for v in variants if not re.fullmatch(r"\w+", v)]
    refused = [v for v in variants if v.startswith("Refused")]
    if len(variants) == 2 and ((len(bare) == 1 and with_value) or refused) or m.group(1) == "Found":
        enums.append(f"{name}:{line_of(text, m.start())} {m.group(1)}")
show("1a own enums of the shape of Option or Result (two variants, one bare or `Refused`; and `Found`)", enums)
show("1b functions that answer a refusal as a number (`-> u32` that names a refusal)",
     [f"{n}:{l} {f}" for n, l, f, h, b in functions() if "refus" in f and "-> u32" in h])
show("1c refusals written as numbers (`Refused(6)`, `refused(20, 0)`, `return 13;` in such a function)",
     [f"{n}:{line_of(t, m.start())}" for n, t, m in found(r"Refused\(\d+\)|refused\(\d+, |put_refusal\(out, \d+,")]
     + [f"{n}:{l} {f}" for n, l, f, h, b in functions() if "refus" in f and "-> u32" in h for _ in re.findall(r"return \d+;", b) if True])
flags = "Answer Called Search Descent Progress StreamEnd Call".split()
show("1d structs with a flag and a value beside it (" + ", ".join(flags) + ")",
     [f"{n}:{line_of(t, m.start())} {m.group(1)}" for n, t, m in found(r"^(?:pub )?struct (\w+)") if m.group(1) in flags])
show("1e uses of a kind's number (`_CODE`, `_TAG`, `_KIND` outside their declarations)",
     [f"{n}:{line_of(t, m.start())}" for n, t, m in found(r"\b[A-Z]+_(?:CODE|TAG|KIND)\b(?!:)")])

# 2
KEYWORDS = set("fn let mut if else match while for in return true false as break continue self".split())
shapes = collections.defaultdict(list)
for n, l, f, h, b in functions():
    body = re.sub(r"//.*", "", b)
    if len([x for x in body.split("\n") if re.search(r"\w", x)]) < 3:
        continue
    body = re.sub(r'b?"[^"\n]*"', "S", body)
    shape = re.sub(r"\b\w+\b", lambda m: m.group(0) if m.group(0) in KEYWORDS else "x", body)
    shape = re.sub(r"x(?:::x)+", "x", re.sub(r"\s+", "", shape))
    shapes[shape].append(f"{n}:{l} {f}")
twins = [" = ".join(v) for v in shapes.values() if len(v) > 1]
show("2 groups of functions whose bodies (of three lines or more) differ in names, numbers and texts alone", twins)
print("   functions in them:", sum(len(v) for v in shapes.values() if len(v) > 1))

# 3
show("3 `while` loops", [f"{n}:{line_of(t, m.start())} {m.group(0).strip()}" for n, t, m in found(r"^ *while .*$")])
show("3 `for` loops and iterator chains, for comparison",
     [f"{n}:{line_of(t, m.start())}" for n, t, m in found(r"^ *for .* in |\.iter\(\)|\.iter_mut\(\)|\.chunks_exact\(|\.copy_from_slice\(|\.fill\(|\.contains\(&")])

# 4
show("4a matches whose arms are all `true` or `false`",
     [f"{n}:{line_of(t, m.start())}" for n, t, m in found(r"match [^{\n]*\{\n(?:\s*[\w:|_() ]+ => (?:true|false),\n)+\s*\}")])
show("4b `as` casts", [f"{n}:{line_of(t, m.start())}" for n, t, m in found(r" as (?:u8|u32|i32|i64|usize|isize)\b")])
show("4c least and greatest, equal and copied by hand (functions of these names)",
     [f"{n}:{l} {f}" for n, l, f, h, b in functions()
      if f in "equals or_later cut least same_bytes copy_words copy_bytes fill fill_zero contains wide byte_word digit_word kind_word room next is_nothing goes has_ended iterations_allowed one_more is_digit".split()])

# 5
facts = collections.Counter()
where = collections.defaultdict(list)
for n, l, f, h, b in functions():
    for clause in re.findall(r"requires(?: \w+)? \{ (.*) \}", h):
        for part in set(p.strip("() ") for p in clause.split(" × ")):
            facts[part] += 1
            where[part].append(f"{n}:{l} {f}")
many = [(c, p) for p, c in facts.items() if c >= 3]
show("5a facts that stand in the `requires` of three or more functions", [f"{c} {p}" for c, p in sorted(many, reverse=True)])
print("   clauses that they take together:", sum(c for c, p in many))
params = collections.Counter()
for n, l, f, h, b in functions():
    inside = re.search(r"\((.*?)\)\s*(?:->|requires|ensures|$)", h, re.S)
    names = tuple(p.split(":")[0].strip() for p in (inside.group(1).split(",") if inside else []) if ":" in p)
    if len(names) > 7:
        params[f"{n}:{l} {f} {len(names)}"] += 1
show("5b functions of more than seven parameters", list(params))

# 6
show("6 buffers with a place or count beside them (`out, at`; `list, count`)",
     [f"{n}:{l} {f}" for n, l, f, h, b in functions() if re.search(r"out: &mut \[u8\],\s*at: usize|list: &(?:mut )?\[i32\],\s*count: usize", h)])
