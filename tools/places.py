#!/usr/bin/env python3
"""places.py COMMIT: the places in crates/*/src of a commit that docs/DESIGN-PASS.md counts, point by point, as lines of text.

It finds candidates; the page says which of them are places, and adds those that only reading finds."""
import collections, itertools, re, subprocess, sys

def git(*words):
    return subprocess.run(["git", *words], capture_output=True, text=True, check=True).stdout

commit = sys.argv[1] if len(sys.argv) > 1 else "HEAD"
names = [n for n in git("ls-tree", "-r", "--name-only", commit, "crates").split() if re.fullmatch(r"crates/\w+/src/\w+\.rt", n)]
text = {n: git("show", f"{commit}:{n}") for n in names}

def show(title, hits):
    print(f"\n{title}: {len(hits)}")
    for h in hits:
        print("  " + h)

def grep(title, pattern):
    show(title, [f"{n[7:]}:{i}: {l.strip()}" for n in names for i, l in enumerate(text[n].split("\n"), 1)
                 if re.search(pattern, l) and not l.lstrip().startswith("//")])

grep("1a own enums", r"^\s*(pub )?enum ")
grep("1b flags in types and results", r": bool,|\bbool\)|Option<u64>")
grep("1c numbers for kinds", r"\b(answer_code|request|code|byte|kind)s?: u\d+|\(u8, Status\)|, 0x0[79],")
show("1d an error or none answered by hand where a value is missing", [f"{n[7:]}: {m.group(0).split(chr(10))[0].strip()}" for n in names
     for m in re.finditer(r"let [^;{]*? else \{\s*return (Err|None)[^}]*\}|\.is_err\(\)|Err\(_\) => (Answer|Status|Err|None)", text[n])])
# functions of one shape: the same body but for names and numbers
shapes = collections.defaultdict(list)
for n in names:
    body = re.sub(r"//[^\n]*", "", text[n])
    for m in re.finditer(r"\bfn (\w+)[^{;]*?(?=\n\s*(?:requires|ensures)|\{)", body):
        at, depth = m.end(), 0
        # past the clauses, each of them in braces
        while re.match(r"\s*(requires|ensures)", body[at:]):
            at = body.index("{", at)
            depth = 0
            while True:
                depth += {"{": 1, "}": -1}.get(body[at], 0)
                at += 1
                if depth == 0:
                    break
        if not re.match(r"\s*\{", body[at:]):
            continue
        start, depth = at, 0
        at = body.index("{", at)
        while True:
            depth += {"{": 1, "}": -1}.get(body[at], 0)
            at += 1
            if depth == 0:
                break
        words = re.findall(r"\w+|[^\s\w]", body[start:at])
        keep = {"if", "else", "match", "let", "return", "for", "while", "mut", "in", "self"}
        shape = " ".join(w if w in keep or not re.match(r"\w", w) else "_" for w in words)
        if len(words) >= 16:
            shapes[shape].append(f"{n[7:]} {m.group(1)}")
show("2 functions of one shape", [" ~ ".join(v) for v in shapes.values() if len(v) > 1])

grep("3 loops", r"^\s*(while|loop)\b|^\s*for .* in [^{]*\.\.|enumerate\(")
grep("4a types that derive only Copy", r"derive\(Clone, Copy\)\]")
grep("4b conversions by hand", r"fn (number|bytes|flags|of_code|answer_code|message\w*|store_kind|delivery_of|call_of|counted|index|value|new)\((self|&self|code|word|byte|request|number: u16|at: u16|unheard|count: u64|fault|frame_size)")
grep("4c equality by hand", r"fn (is_same|same|is)\(|\.index\(\) ==")
grep("4d printing by hand", r"fn show\w*[<(]")
grep("4e copying by hand", r"copy_from_slice")
facts = collections.Counter()
for n in names:
    for m in re.finditer(r"^\s+(?:requires|ensures)\*? ?\w* ?\{ (.*) \}", text[n], re.M):
        facts[m.group(1)] += 1
show("5a facts in three or more contracts", [f"{k} x {f}" for f, k in facts.most_common() if k >= 3])
together = collections.Counter()
for n in names:
    for m in re.finditer(r"\bfn \w+(?:<[^(]*>)?\(([^)]*)\)", text[n]):
        ps = sorted(p.split(":")[0].strip().removeprefix("mut ") for p in re.split(r",(?![^<\[]*[>\]])", m.group(1)) if ":" in p)
        together.update(itertools.combinations(ps, 2))
show("5b pairs of parameters in three or more functions", [f"{k} x {a}, {b}" for (a, b), k in together.most_common() if k >= 3])
grep("6 arrays in types", r"^\s+(pub(\(crate\))? )?\w+: \[\w+; \w+\],")
proofs = [n for n in git("ls-tree", "-r", "--name-only", commit, "crates").split() if re.fullmatch(r"crates/\w+/proofs/.*\.antt", n)]
lines = sum(git("show", f"{commit}:{n}").count("\n") for n in proofs)
print(f"\n8 proofs: {len(proofs)} files, {lines} lines, of them {sum(n.endswith('Answers.antt') for n in proofs)} files of answers and {sum(n.endswith('Invariants.antt') for n in proofs)} of invariants")
