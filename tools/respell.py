#!/usr/bin/env python3
"""Brings the repository's own names to today's spelling, once, after the kit's own script had turned the library's.

usage: respell.py [--check]    at the top of the repository

A name that a file of specs/ or a lemma file of proofs/ declares is written in snake case: `queueRoom` becomes `queue_room`, and
`has-node` becomes `has_node`. A function into Type is a type and is written in upper camel case; a type at the head of a name
keeps its dash. What a file in proofs/F/ declares is a goal's name and stays; what it cites turns. In a .rt file the clauses,
ghost items and `ghost use` lines turn, and nothing else. In README.md and docs/ code spans turn, but for those of docs/landings.
--check writes nothing and lists names that would fall together in a file.
"""
import os
import re
import sys

WORD = re.compile(r'[^\s(){}.;,@"«»`]+')
DECLARED = re.compile(r'^(\s*)((?:(?:pattern|unfoldable|abbrev|pub|axiom) )*)([^\s(){}.;,@"«»:]+)((?: \{[^{}\n]*\})*) :(?:\s|$)')
TYPE = re.compile(r"^\s*(?:pub )?(?:record|data|ruleset) (\S+)")
USE = re.compile(r"\buse ([^\s;{]+)\.\{([^}]*)\}")
OWN_PROOF = re.compile(r"/proofs/.*/(?:Proof|Answers|Invariants)(?:\.antt|/)|/proofs/(?:Proof|Answers|Invariants)\.antt$")
# Names of document 01 in capitals, of which a constant of the code has one too.
OTHER = {"WHOLE": "whole", "CEIL": "ceil_of", "FLOOR": "floor_of"}
# Lemmas and fields that would get a definition's name.
LIKE_A_DEFINITION = """bio-in-range body-laid books-then bytes-in-range closed-row cost-most debt-most differs-on end-most extent-of is-active
is-due is-plan is-taker no-leaf on-leaf-by page-least page-most plan-lines pricing-by rates-in-range share-floor share-lines
shares-then since-most thin-at-depth tick-lines too-dear unless-error usage-at usage-most vrate-least vrate-most vtime-most
walk-on weight-in-range whole-case worth-most would-be""".split()
for name in LIKE_A_DEFINITION:
    head, _, last = name.rpartition("-")
    ending = {"most": "_at_most", "least": "_at_least", "floor": "_at_floor"}.get(last, f"_{last}_lem")
    OTHER[name] = head.replace("-", "_") + ending
# Lemmas that the kit's script had given a name which a definition gets now: the files that say them.
LEMMAS = {
    "goes_on": ("listing/specs/Laws.antt", "rules/specs/Demand3/Traces.antt"),
    "bytes_most": ("rules/specs/Laws/Costs.antt",),
    "is_leaf": ("submit/proofs/Decisions.antt", "question/proofs/Handing.antt"),
}


def files(root, *ends):
    for folder, dirs, names in os.walk(root):
        dirs[:] = sorted(d for d in dirs if d not in ("out", "target", ".git"))
        for n in sorted(names):
            if n.endswith(ends):
                yield os.path.join(folder, n)


def snake(part):
    if part[:1].isupper():
        return part
    part = re.sub(r"(?<=[a-z0-9])[A-Z](?=[A-Z]|$|_|[0-9])", lambda m: "_" + m[0], part)
    return re.sub(r"(?<=[a-z0-9])[A-Z]", lambda m: "_" + m[0].lower(), part)


def respelled(name, is_type):
    if name in OTHER:
        return OTHER[name]
    parts = name.split("-")
    if is_type:
        return "".join(p[:1].upper() + p[1:] for p in parts)
    out = snake(parts[0])
    for before, part in zip(parts, parts[1:]):
        joint = "-" if before[:1].isupper() and len(before) > 1 else "_"
        out += joint + snake(part)
    return out


def declared(text):
    """The names that a file declares, each with whether it is a type."""
    lines = text.split("\n")
    for i, line in enumerate(lines):
        if line.lstrip().startswith("--"):
            continue
        m = TYPE.match(line)
        if m:
            yield m[1], True
            continue
        m = DECLARED.match(line)
        if not m:
            continue
        shown = line[m.end():]
        for more in lines[i + 1:]:
            if not re.match(r"\s+(?:→|≤|≡|×|\(|\{)", more):
                break
            shown += " " + more.strip()
        yield m[3], bool(re.search(r"(?:^|→ )Type [0-9ℓ]$", shown.strip()))


def imported(text):
    """The names that a file takes from a library that is not the repository's."""
    for m in USE.finditer(text):
        steps = m[1].split(".")
        if steps[0] == "Rattle" and len(steps) > 1 and steps[1] in OWN:
            continue
        for item in m[2].split(","):
            yield item.split(" as ")[-1].strip()


def table(root):
    names = {}
    for path in files(os.path.join(root, "crates"), ".antt", ".rt"):
        text = open(path, encoding="utf-8").read()
        if path.endswith(".antt") and not OWN_PROOF.search(path):
            for name, is_type in declared(text):
                names[name] = names.get(name, False) or is_type
        for m in USE.finditer(text):
            for item in m[2].split(","):
                if " as " in item:
                    alias = item.split(" as ")[1].strip()
                    names.setdefault(alias, alias[:1].isupper())
    turned = {}
    for name, is_type in names.items():
        if not re.search(r"[A-Za-z]", name) or "◌" in name or "·" in name or "#" in name:
            continue
        new = respelled(name, is_type)
        if new != name:
            turned[name] = new
    return turned


def turn_words(text, names, keep):
    def word(m):
        w = m[0]
        if w in keep:
            return w
        return names.get(w, w)
    return WORD.sub(word, text)


def code_only(text, names, keep):
    """Comments turn in their code spans alone."""
    out = []
    for line in text.split("\n"):
        m = re.search(r"(?:^|(?<=\s))--(?=\s|-|$)", line)
        code, comment = (line, "") if not m else (line[:m.start()], line[m.start():])
        comment = re.sub(r"`[^`]+`", lambda s: turn_words(s[0], names, keep), comment)
        out.append(turn_words(code, names, keep) + comment)
    return "\n".join(out)


CLAUSE = re.compile(r"(?:\b(?:requires|ensures)\*?(?: \w+)? \{|\bghost (?:\w+(?:: | = ))?\{)")


def turn_rust(text, names, keep):
    out, at = [], 0
    while True:
        use = re.compile(r"\bghost use\b").search(text, at)
        clause = CLAUSE.search(text, at)
        first = min((m for m in (use, clause) if m), key=lambda m: m.start(), default=None)
        if first is None:
            out.append(text[at:])
            return "".join(out)
        if first is use:
            end = text.index(";", use.start())
        else:
            deep, end = 0, clause.end() - 1
            while True:
                deep += (text[end] == "{") - (text[end] == "}")
                end += 1
                if not deep:
                    break
        out.append(text[at:first.start()])
        part = text[first.start():end]
        constants = re.compile(r"Controller::\w+")
        held = []
        part = constants.sub(lambda m: held.append(m[0]) or f"\0{len(held) - 1}\0", part)
        part = turn_words(part, names, keep)
        part = re.sub("\0(\\d+)\0", lambda m: held[int(m[1])], part)
        out.append(part)
        at = end


def main(root, check):
    global OWN
    OWN = set(os.listdir(os.path.join(root, "crates")))
    names = table(root)
    changed = together = 0
    for path in files(os.path.join(root, "crates"), ".antt", ".rt", ".edit"):
        text = open(path, encoding="utf-8").read()
        keep = set(imported(text))
        if OWN_PROOF.search(path):
            keep |= {n for n, _ in declared(text)}
        if path.endswith(".antt"):
            here = {n: n + "_lem" for n, where in LEMMAS.items() if path.endswith(where)}
            new = code_only(code_only(text, here, set()), names, keep)
            words = {m[0] for m in WORD.finditer(re.sub(r"(?m)^\s*--.*$", "", text))}
            for w in sorted(words):
                if w in names and w not in keep and names[w] in words and names.get(names[w], names[w]) == names[w]:
                    together += 1
                    print(f"{os.path.relpath(path, root)}: {w} meets {names[w]}")
        elif path.endswith(".rt"):
            new = turn_rust(text, names, keep)
            words = {m[0] for m in WORD.finditer(text)} & set(names)
            hidden = {names[w] for w in words} & set(re.findall(r"[(,] ?(?:mut )?(\w+):", text))
            if hidden:
                print(f"{os.path.relpath(path, root)}: a parameter hides {sorted(hidden)}")
        else:
            new = "".join(turn_words(l, names, set()) if l.startswith(("old:", "new:")) else l for l in text.splitlines(keepends=True))
        if new != text:
            changed += 1
            if not check:
                open(path, "w", encoding="utf-8").write(new)
    pages = [p for p in files(os.path.join(root, "docs"), ".md") if "landings" not in p] + [os.path.join(root, "README.md")]
    for path in pages:
        text = open(path, encoding="utf-8").read()
        dashed = {o: n for o, n in names.items() if re.search(r"[a-z][A-Z]|-", o)}
        new = re.sub(r"`[^`\n]+`", lambda s: turn_words(s[0], dashed, set()), text)
        if new != text:
            changed += 1
            if not check:
                open(path, "w", encoding="utf-8").write(new)
    by_new = {}
    for o, n in names.items():
        by_new.setdefault(n, []).append(o)
    for n, olds in sorted(by_new.items()):
        if len(olds) > 1:
            print("two names:", n, olds)
    print(f"{len(names)} names, {changed} files, {together} meetings")


if __name__ == "__main__":
    main(os.getcwd(), "--check" in sys.argv)
