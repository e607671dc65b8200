#!/usr/bin/env python3
"""Respells the repository's own definitions, lemmas, fields and constructors as today's Rattle does: words in snake case.

usage: python3 tools/spell.py          at the top, once, after port.py
       python3 tools/spell.py --list   the names, and rewrites nothing

A name is the repository's own if a file of specs/ or proofs/ declares it and no file imports it from elsewhere. Functions
of src/ keep their names, and so do types, modules and what Rattle makes. Where the name in snake case is taken in some
file that has the old one, the dash stays (it joins two names), and only capitals go.
"""

import collections
import glob
import os
import re
import sys

CRATES = {os.path.basename(p) for p in glob.glob("crates/*")}
ANTT = sorted(p for d in ("specs", "proofs") for p in glob.glob(f"crates/*/{d}/**/*.antt", recursive=True))
RT = sorted(glob.glob("crates/*/src/**/*.rt", recursive=True))
EDITS = sorted(glob.glob("crates/*/must-fail/*.edit"))
WORD = re.compile(r"[^\s(){}\[\];,.«»⌜⌝`\"]+")
CLAUSE = re.compile(r"(\bghost use [^;]*;|\b(?:requires|ensures|ghost)\*?(?: \w+)?\s*:?\s*\{)")
# a lemma has the snake name already
BY_HAND = {"firstKey": "first_key_of", "isKnown": "is_known_in", "keptByte": "kept_byte_of", "onCall": "on_a_call", "takeAt": "take_one", "tooLong": "too_long_text"}
KEYWORDS = {"module", "use", "where", "let", "in", "unfolding", "pub", "abbrev", "unfoldable", "record", "data", "elim", "rw", "simp", "mod", "_"}


def text(p):
    with open(p, encoding="utf-8") as f:
        return f.read()


def code_of(line):
    """A line of antt without its comment."""
    m = re.search(r"(^|\s)--(\s|$)", line)
    return (line[: m.start()], line[m.start() :]) if m else (line, "")


def declared(p):
    """The names that a file declares: at the left of a colon, at any depth."""
    for line in text(p).splitlines():
        code, _ = code_of(line)
        m = re.match(r"\s*(?:(?:abbrev|unfoldable|pub)\s+)*((?:[^\s(){}\[\];,.:«»]+\s+)*?[^\s(){}\[\];,.:«»]+)\s*:\s", code)
        if m and "=" not in m.group(1).split() and "let" not in m.group(1).split():
            for w in m.group(1).split():
                yield w
        m = re.match(r"\s*(?:pub\s+)?(?:record|data|ruleset)\s+([^\s(){}:]+)", code)
        if m:
            yield m.group(1)
        m = re.match(r"\s*(?:(?:abbrev|unfoldable|pub)\s+)+([^\s(){}\[\];,.:«»]+)\s*[:({]", code)
        if m:
            yield m.group(1)
        m = re.match(r"\s*([a-z][^\s(){}\[\];,.:«»]*)\s+[({].*→", code)
        if m:
            yield m.group(1)


def imported(files):
    """The names that some file imports from elsewhere."""
    found = set()
    for p in files:
        t = text(p)
        for m in re.finditer(r"\buse ([^\s{;]+)\.\{([^}]*)\}", t):
            parts = m.group(1).split(".")
            own = parts[0] == "Rattle" and len(parts) > 1 and parts[1] in CRATES
            if not own:
                found.update(w.strip() for w in m.group(2).split(","))
    return found


def snake(name):
    name = re.sub(r"([a-z0-9])([A-Z])(?=[A-Za-z])", lambda m: m.group(1) + "_" + m.group(2).lower(), name)
    name = re.sub(r"([a-z0-9])([A-Z])$", lambda m: m.group(1) + "_" + m.group(2).lower(), name)
    return name


def mapping():
    own = set()
    for p in ANTT:
        if "/proofs/" in p and os.path.basename(p) == "Proof.antt":
            # what is declared there is used there alone, and is Rattle's or a helper's
            continue
        own.update(declared(p))
    foreign = imported(ANTT + RT)
    own = {w for w in own if w not in foreign and w not in KEYWORDS and re.match(r"[a-zα-ω]", w) and re.search(r"[-A-Z]", w) and "◌" not in w and not re.search(r"[≤≡<∷⊎]", w)}
    words = {}
    for p in ANTT:
        code = "\n".join(code_of(l)[0] for l in text(p).splitlines())
        code = re.sub(r"\buse [^\s{;]+", "use ", code)
        words[p] = {w for w in WORD.findall(code)} if not p.endswith("/Proof.antt") else set(re.findall(r"(?<![.\w'-])" + WORD.pattern, code))
    for p in RT:
        # a parameter hides a word of its name in a clause
        words[p] = set(re.findall(r"(?:\(|, |\n    )(\w+): ", text(p))) | {w for m in CLAUSE.finditer(text(p)) if m.group(0).startswith("ghost use") for w in WORD.findall(m.group(0))}
    holds = collections.defaultdict(set)
    for p, ws in words.items():
        for w in ws:
            holds[w].add(p)
    new = {}
    taken = collections.defaultdict(set)
    for w, ps in holds.items():
        if w not in own:
            taken[w] = set(ps)
    kept = []
    # definitions first: those with capitals
    for w in sorted(own, key=lambda w: (not re.search("[A-Z]", w), "-" in w, w)):
        plain = snake(w).replace("-", "_")
        dashed = snake(w)
        to = BY_HAND.get(w, plain)
        if w in BY_HAND:
            pass
        elif taken[plain] & holds[w] or plain in new.values() or plain in foreign:
            to = dashed
            if "-" not in dashed:
                sys.exit(f"{w}: {plain} is taken: give it a name by hand")
            else:
                kept.append((w, to, "dash stays"))
        if to != w:
            new[w] = to
    return new, kept


def turn(words, new):
    return WORD.sub(lambda m: new.get(m.group(0), m.group(0)), words)


def turn_antt(t, new):
    out = []
    for line in t.split("\n"):
        code, comment = code_of(line)
        comment = re.sub(r"`([^`\s]+)`", lambda m: "`" + new.get(m.group(1), m.group(1)) + "`", comment)
        out.append(turn(code, new) + comment)
    return "\n".join(out)




def turn_rt(t, new):
    """Only what is antt in it: the lines `ghost use` and the clauses."""
    out = ""
    i = 0
    for m in CLAUSE.finditer(t):
        if m.start() < i:
            continue
        line = t.rfind("\n", 0, m.start()) + 1
        if t[line : m.start()].lstrip().startswith("//"):
            continue
        out += t[i : m.start()]
        if m.group(0).startswith("ghost use"):
            out += turn(m.group(0), new)
            i = m.end()
            continue
        depth, j = 1, m.end()
        while depth:
            depth += {"{": 1, "}": -1}.get(t[j], 0)
            j += 1
        out += m.group(0) + turn(t[m.end() : j], new)
        i = j
    return out + t[i:]


def turn_edit(t, new):
    m = re.search(r"^file: (.*)$", t, re.M)
    out, antt = [], False
    for line in t.split("\n"):
        if line.startswith("file: "):
            antt = line.endswith(".antt")
        if re.match(r"(old|new): ", line) and (antt or re.match(r"(old|new): .*(ensures|requires|ghost use)", line)):
            line = line[:5] + turn(line[5:], new)
        out.append(line)
    return "\n".join(out)


def main():
    new, kept = mapping()
    if "--list" in sys.argv:
        for a, b in sorted(new.items()):
            print(a, b)
        print()
        for k in kept:
            print(*k)
        return
    for files, f in ((ANTT, turn_antt), (RT, turn_rt), (EDITS, turn_edit)):
        for p in files:
            a = text(p)
            b = f(a, new)
            if a != b:
                with open(p, "w", encoding="utf-8") as out:
                    out.write(b)
    print(len(new), "names respelled;", len(kept), "keep a dash or get another ending")


main()
