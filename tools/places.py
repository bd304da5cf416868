#!/usr/bin/env python3
"""places.py [COMMIT]: where the crates' code has forms that today's Rattle has better ones for (docs/DESIGN-PASS.md), counted in a commit or, with
none, in the files as they stand. It goes by text: what it lists is read, and the page says which of it is a place."""
import collections
import itertools
import re
import subprocess
import sys

COMMIT = sys.argv[1] if len(sys.argv) > 1 else None


def git(*args):
    return subprocess.run(("git",) + args, capture_output=True, text=True, check=True).stdout


def listed(pattern):
    if COMMIT:
        names = git("ls-tree", "-r", "--name-only", COMMIT).split("\n")
    else:
        names = git("ls-files").split("\n")
    return [n for n in names if re.fullmatch(pattern, n)]


def text(name):
    return git("show", f"{COMMIT}:{name}") if COMMIT else open(name).read()


def show(title, lines):
    print(f"== {title}: {len(lines)}")
    for line in lines:
        print(f"   {line}")


sources = {n: text(n) for n in listed(r"crates/\w+/src/\w+(/\w+)*\.rt")}
short = {n: n[len("crates/"):].replace("/src/", "/") for n in sources}


def lines_with(pattern):
    found = []
    for name, source in sources.items():
        for number, line in enumerate(source.split("\n"), 1):
            if not line.strip().startswith("//") and re.search(pattern, line):
                found.append(f"{short[name]}:{number}: {line.strip()}")
    return found


# ---- 1

enums = []
for name, source in sources.items():
    for found in re.finditer(r"^ *(?:pub )?enum (\w+) \{\n(.*?)^ *\}", source, re.S | re.M):
        body = re.sub(r"\{[^{}]*\}", "{..}", found.group(2))
        body = re.sub(r"\s+", " ", re.sub(r"//[^\n]*", "", body))
        variants = [v.strip() for v in re.split(r",(?![^(]*\))", body) if v.strip()]
        enums.append((short[name], found.group(1), variants))
show("1 enums with a value in some variant and at most one besides it, or with a refusal's number or an end of input",
     [f"{f}: {n} {{ {', '.join(v)} }}" for f, n, v in enums
      if any("(" in x or "{" in x for x in v) and (len(v) <= 2 or "Refused(u8)" in v or "Cut" in v)])
show("1 functions that answer a refusal as a number", lines_with(r"fn \w*(refusal|_code)\w*\(.*-> u\d+$|^\) -> u8$"))
show("1 refusals written as numbers", lines_with(r"Refused\(\d+\)|return \d+;$"))
show("1 a flag with a value beside it, a sign or a place as a number", lines_with(r"^\s*(pub )?(refused|has_\w+): |fn (sign_of|position|line_number|windows)\(.*-> u64$|\bsign: u64"))

# ---- 2

show("2 functions that name a type, a size or a constant", lines_with(r"fn \w*?(16|32|_u32|_700|_1500|_2300|s32)\("))
heads = collections.defaultdict(list)
for name, source in sources.items():
    for found in re.finditer(r"^ *(?:pub )?fn (\w+).*?^ *\{\n(.*?)\n *\}\n", source, re.S | re.M):
        heads[re.sub(r"\b(u8|u16|u32|u64|f32|f64)\b", "T", re.sub(r"\s+", " ", found.group(2)))].append(f"{short[name]}: {found.group(1)}")
show("2 functions whose bodies are the same but for the type",
     [" = ".join(v) for k, v in heads.items() if len(v) > 1 and len(k) > 24])

# ---- 3

show("3 loops that are no for", lines_with(r"^\s*(\w+ = )?(let \w+ = )?('\w+: )?(while |loop \{)"))

# ---- 4

show("4 fields copied one by one", lines_with(r"^\s*(\w+): (self|s|w|card|t)\.\1( as u64| as usize)?,$"))
show("4 conversions, comparisons and numbers of kinds by hand",
     lines_with(r"fn (\w+_wire|card_of_wire|session_of|same_\w+|\w+_number|signed_bits|signed_of|wide\w*|low_bit|one_at_most)\("))

# ---- 5

facts = collections.defaultdict(set)
params = {}
for name, source in sources.items():
    function = None
    for line in source.split("\n"):
        head = re.match(r" *(?:pub )?(?:unsafe )?(?:extern \"C\" )?fn (\w+)", line)
        if head:
            function = head.group(1)
        clause = re.match(r" *requires (?:\w+ )?\{ (.*) \}$", line)
        if clause:
            depth, part, parts = 0, "", []
            for c in clause.group(1) + "×":
                depth += (c in "([") - (c in ")]")
                if c == "×":
                    parts.append(part)
                    part = ""
                else:
                    part += c
            for p in parts:
                p = p.strip()
                while p and (p[0] == "(" and p.count("(") > p.count(")") or p[-1] == ")" and p.count(")") > p.count("(")):
                    p = p[1:] if p[0] == "(" and p.count("(") > p.count(")") else p[:-1]
                if p.startswith("(") and p.endswith(")"):
                    p = p[1:-1]
                facts[re.sub(r"\.old|\.now|self\.", "", p.strip())].add(f"{name.split('/')[1]}/{function}")
    for found in re.finditer(r"\bfn (\w+)(?:<[^>]*>)?\(([^{]*?)\)\s*(?:->|where|\n|\{)", source, re.S):
        names = [p.split(":")[0].replace("mut ", "").strip() for p in re.split(r",(?![^<\[]*[>\]])", found.group(2)) if ":" in p]
        params[f"{name.split('/')[1]}/{found.group(1)}"] = frozenset(names)
show("5 facts in the requires of three or more functions",
     [f"{len(v)} {k}: {' '.join(sorted(v))}" for k, v in sorted(facts.items(), key=lambda x: -len(x[1])) if len(v) > 2 and "→" not in k])
groups = collections.defaultdict(set)
for a, b in itertools.combinations(params, 2):
    common = params[a] & params[b]
    if len(common) > 2:
        groups[common] |= {a, b}
show("5 three or more parameters that three or more functions share",
     [f"{len(v)} ({', '.join(sorted(k))}): {' '.join(sorted(v))}" for k, v in sorted(groups.items(), key=lambda x: -len(x[1]))
      if len(v) > 2 and not any(k < other and len(groups[other]) > 2 for other in groups)])

# ---- 6 and 7

show("6 functions that fill a buffer and answer how much of it", lines_with(r"fn \w+\(.*out: &mut \[.*-> (io::Result<)?usize"))
show("6 memory of a fixed size in programs", [x for x in lines_with(r"let mut \w+ = \[.*; \d+\]") if "_vectors/" in x or x.startswith("session_calls")])
show("7 the loop over a file's records", lines_with(r"fn (one|all|each)\("))
show("7 switches on the number of an operation", lines_with(r"match (\w+\.)?op \{"))

# ---- 8

answers = listed(r"crates/\w+/proofs/.+/(Answers|Invariants|Proof)\.antt")
counted = collections.Counter()
size = 0
for name in answers:
    body = text(name)
    size += body.count("\n")
    for found in re.finditer(r"= (search rules|tt|refl|omega arith|grind arith)$", body, re.M):
        counted[found.group(1)] += 1
show("8 answers of one word", [f"{v} = {k}" for k, v in counted.most_common()])
lemmas = listed(r"crates/\w+/proofs/\w+\.antt")
print(f"== 8 lines: {sum(text(n).count(chr(10)) for n in lemmas)} of lemmas, {size} of answers and invariants in {len(answers)} files")
