#!/usr/bin/env python3
"""Brings the repository's own names in specs/ and proofs/ to the library's spelling, once, after port.py: usage: respell.py [FOLDER]

A word is in snake case (`roundHalfAway` becomes `round_half_away`), a type and a module in camel case. A dash joins two names, as in `every-append`; a
plain word is added with an underscore, as in `every_fails`. Functions of src/, strings, modules and what is brought in from the library keep their
names. A lemma that would have its function's name gets `_lem`; those are listed."""
import collections
import os
import re
import sys

WORD = re.compile(r'[^\s(){}.;,@"«»`\[\]|:]+|::?')
DECLARES = re.compile(r'^\s*(?:(?:abbrev|unfoldable|opaque|private|instance)\s+)*(?:pub\s+)?([^\s(){}.;,@"«»:]+)\s+:(?=\s)')
TYPED = re.compile(r'[({]([^\s(){}.;,@"«»:]+(?:\s+[^\s(){}.;,@"«»:]+)*)\s+:(?=\s)')
BOUND = re.compile(r'(?:λ|let)\s+([^\s(){}.;,@"«»:]+(?:\s+[^\s(){}.;,@"«»:]+)*)\s*[.:=]')
BROUGHT = re.compile(r'^\s*(?:pub\s+)?(?:ghost\s+)?use\s+([^\s{;]+?)(?:\.\{([^}]*)\}|\s+as\s+(\S+))?\s*;?\s*$', re.M)
# Plain words, whatever else they name.
WORDS = set("in is one none all and of at by up to on as it no the whole part means given lower upper first last half same next".split())


def files(top):
    for folder, dirs, names in os.walk(os.path.join(top, "crates")):
        dirs[:] = sorted(d for d in dirs if d not in ("out", ".git"))
        for n in sorted(names):
            if n.endswith((".antt", ".rt", ".edit")):
                yield os.path.join(folder, n)


def snake(word):
    word = re.sub(r"(?<=[a-z0-9])(?=[A-Z][a-z])|(?<=[a-z])(?=[A-Z])", "_", word)
    return word.lower()


def main(top):
    crates = {l.split(":")[0].split()[0] for l in open(os.path.join(top, "crates.txt")) if ":" in l and not l.startswith("#")}
    texts = {p: open(p, encoding="utf-8").read() for p in files(top)}
    lemma_files = [p for p in texts if p.endswith(".antt") and os.path.basename(p) not in ("Proof.antt", "Answers.antt", "Invariants.antt")]
    declared, outer, foreign, modules = set(), set(), set(), set()
    source = set()
    for p, t in texts.items():
        if p.endswith(".rt"):
            code = re.sub(r"//[^\n]*", "", t)
            source |= set(re.findall(r"\b(?:fn|struct|enum|const|static|type|mod|trait)\s+(\w+)", code)) | set(re.findall(r"\b(\w+)\s*:\s*[&\w\[(]", code))
        if not p.endswith(".edit"):
            for m in BROUGHT.finditer(t):
                parts = m[1].split(".")
                own = parts[0] == "Rattle" and len(parts) > 1 and parts[1] in crates
                modules |= set(parts)
                for it in (m[2] or "").split(","):
                    it = it.strip()
                    if it and not own:
                        foreign |= set(w for w in it.split() if w != "as")
                    elif " as " in it and re.match(r"[a-z]", it.split()[2].strip("()")):
                        declared.add(it.split()[2].strip("()"))
    for p in lemma_files:
        for line in texts[p].split("\n"):
            code = line.split("--")[0] if not line.lstrip().startswith("--") else ""
            m = DECLARES.match(code)
            if m:
                declared.add(m[1])
                if not line[:1].isspace():
                    outer.add(m[1])
            for m in TYPED.finditer(code):
                declared |= set(m[1].split())
            for m in BOUND.finditer(code):
                declared |= set(m[1].split())
            declared |= {w for w in WORD.findall(code) if re.match(r"[a-z]\w*[a-z0-9][A-Z]", w)}
        modules.add(os.path.splitext(os.path.basename(p))[0])
    foreign = {w.strip("()") for w in foreign}
    plain = {d for d in outer if "-" not in d and d not in WORDS} | {w for w in foreign if "-" not in w and w not in WORDS}
    bare = {re.sub(r"^◌|◌$", "", w) for w in plain}
    is_name = lambda w: w in plain or snake(w) in plain or w in bare or not re.match(r"^[a-z]", w)

    def respelled(name):
        if "◌" in name:
            return name
        parts = name.split("-")
        out = parts[0] if not re.search(r"^[a-z].*[A-Z]", parts[0]) else snake(parts[0])
        for left, part in zip(parts, parts[1:]):
            new = part if not re.search(r"^[a-z].*[A-Z]", part) else snake(part)
            out += ("-" if left and part and is_name(left) and is_name(part) else "_" if left and part else "-") + new
        return out

    table = {}
    for name in sorted(declared):
        if name in foreign or name in modules or re.match(r"^[A-Z][A-Za-z0-9]*$", name):
            continue
        new = respelled(name)
        if new != name:
            table[name] = new
    # what falls together, or onto a name that is there
    groups = collections.defaultdict(set)
    for a, b in table.items():
        groups[b].add(a)
    for b in sorted(groups):
        taken = b in foreign or (b in declared and b not in table)
        first = [a for a in groups[b] if "-" not in a]
        for a in sorted(groups[b]):
            if taken or len(groups[b]) > 1 and a not in first:
                # a lemma that would have its function's name
                table[a] = b + "_lem"
                print(f"together: {b} <- {a}, which becomes {table[a]}")
        if len(first) > 1 or b + "_lem" in declared:
            raise SystemExit(f"no name for {first}")
    turn = lambda m: table.get(m[0], m[0])
    changed = 0
    for p, t in texts.items():
        if p.endswith(".antt"):
            mine = set()
            if p not in lemma_files:
                mine = {m[1] for l in t.split("\n") for m in [DECLARES.match(l)] if m and re.search(r":\s+(?:tie|lts|goal)\.", l)}
            new = "\n".join(l if re.match(r"\s*(pub )?mod ", l) else WORD.sub(lambda m: m[0] if m[0] in mine else turn(m), l) for l in t.split("\n"))
            new = WORD.sub(lambda m: m[0], new)
        elif p.endswith(".rt"):
            new = rt_text(t, turn)
        else:
            continue
        if new != t:
            changed += 1
            open(p, "w", encoding="utf-8").write(new)
    print(f"{len(table)} names, {changed} files")
    with open(os.path.join(top, "respelled.tsv") if "--table" in sys.argv else os.devnull, "w") as f:
        f.writelines(f"{a}\t{b}\n" for a, b in sorted(table.items()))


CLAUSE = re.compile(r"(?:requires|ensures)\s*\*?\s*(?:\w+\s*)?\{|ghost\s*(?:\w+\s*(?::\s*(?:(?:owns|lends)\s*)?|=\s*))?\{")


def closing(t, i):
    deep = 0
    for k in range(i, len(t)):
        deep += (t[k] == "{") - (t[k] == "}")
        if not deep:
            return k + 1
    return len(t)


def rt_text(t, turn):
    """Turns names in the clauses, in the ghost imports and in the comments' code spans."""
    spans = []
    for m in re.finditer(r"ghost use [^;]*;", t):
        spans.append(m.span())
    for m in CLAUSE.finditer(t):
        spans.append((m.end() - 1, closing(t, m.end() - 1)))
    for m in re.finditer(r"//[^\n]*", t):
        for s in re.finditer(r"`[^`\n]*`", m[0]):
            spans.append((m.start() + s.start(), m.start() + s.end()))
    out, at = [], 0
    for a, b in sorted(spans):
        if a < at:
            continue
        out.append(t[at:a])
        out.append(WORD.sub(turn, t[a:b]))
        at = b
    return "".join(out) + t[at:]


if __name__ == "__main__":
    main(next((a for a in sys.argv[1:] if not a.startswith("--")), "."))
