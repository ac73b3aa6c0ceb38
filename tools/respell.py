#!/usr/bin/env python3
"""Spells the repository's own names as today's Rattle does: words in snake case, types in camel case.

usage: python3 tools/respell.py [--check]     at the top of the repository, once, after /opt/rattle/port/port.py

Turned are the names with a dash that specs/ and proofs/*.antt declare or bind, wherever they stand: there, in the clauses and ghost imports of src/,
in the answers to goals, in edits of specs/, and between backticks in comments and documents. Not turned: what is imported from std, what Rattle
names itself (goals, invariants, facts at a place of the code), strings, and Rust code.
"""
import collections
import glob
import re
import sys

TOKEN = re.compile(r"(?<![A-Za-z0-9_'·])[A-Za-z_][A-Za-z0-9_]*(?:-[A-Za-z0-9_]+)+'*(?![A-Za-z0-9_'·])")
STD = re.compile(r"use (?:Rattle\.std|Prim|mathlib|native|lib)[^{]*\{([^}]*)\}", re.S)
# names of goals and facts that Rattle makes, though a name of the repository is spelled alike
MADE = {
    "call-index", "call-item", "field-0", "in-Err", "in-Ok", "in-None", "in-Some", "in-Found", "in-Left", "in-Right",
}


# names that would be those of a function beside them
OTHER = {"is-before": "comes_before", "with-right": "best_with_right", "leaf-at": "leaf_at_lem", "put-earlier": "put_earlier_lem"}


def spelled(name):
    if name in OTHER:
        return OTHER[name]
    parts = name.split("-")
    if name[0].isupper():
        return "".join(p[0].upper() + p[1:] for p in parts)
    return "_".join(parts)


def bare(line, mark):
    """The line without its comment."""
    at = line.find(mark)
    return line if at < 0 or (at > 0 and not line[at - 1].isspace()) else line[:at]


def read(path):
    with open(path, encoding="utf-8") as f:
        return f.read()


def theory():
    return sorted(glob.glob("crates/*/specs/*.antt") + glob.glob("crates/*/proofs/*.antt"))


def answers():
    return sorted(p for p in glob.glob("crates/*/proofs/**/*.antt", recursive=True) if p not in set(theory()))


def own_names():
    own, std = set(), set()
    for path in theory() + answers():
        for group in STD.findall(read(path)):
            std |= {w.strip() for part in group.split(",") for w in part.split(" as ")}
    for path in theory():
        for line in read(path).split("\n"):
            own |= set(TOKEN.findall(bare(line, "--")))
    for path in answers():
        # lemmas beside the answers: a declaration that is no goal's answer
        for line in read(path).split("\n"):
            m = re.match(r"\s*(?:pub |abbrev |unfoldable )*(" + TOKEN.pattern + r")\s*:\s*(.*)", line)
            if m and not re.search(r"\b(?:goals?|needs?|choices?|invariants?)\.", m.group(2)):
                own.add(m.group(1))
    return own - std - MADE, std


def turn_all(text, table):
    return TOKEN.sub(lambda m: table.get(m.group(0), m.group(0)), text)


def turn_ticks(text, table):
    return re.sub(r"`[^`\n]*`", lambda m: turn_all(m.group(0), table), text)


def turn_answers(text, table):
    """What stands at a place of the code, as c.call, is named by Rattle."""
    return turn_antt(text, table, re.compile(r"(?<![A-Za-z0-9_'])(?:c|goal)\.$"))


def turn_antt(text, table, made=None):
    def one(m):
        if made and made.search(m.string[:m.start()]):
            return m.group(0)
        return table.get(m.group(0), m.group(0))

    out = []
    for line in text.split("\n"):
        code = bare(line, "--")
        out.append(TOKEN.sub(one, code) + turn_ticks(line[len(code):], table))
    return "\n".join(out)


def turn_rt(text, table):
    """Ghost imports, clauses and ghost members, and what stands between backticks in comments."""
    out, depth = [], 0
    for line in text.split("\n"):
        code = bare(line, "//")
        note = turn_ticks(line[len(code):], table)
        begins = re.match(r"\s*(?:pub )?(?:ghost|requires|ensures|decreases|invariant|#\[tactic)\b", code)
        if depth or begins:
            depth += code.count("{") - code.count("}")
            depth = max(depth, 0)
            code = turn_all(code, table)
        elif re.search(r"\b(?:invariant|decreases|ghost)\b", code):
            code = turn_all(code, table)
        out.append(code + note)
    return "\n".join(out)


def turn_edit(text, table):
    """An edit of specs/ is in antt, another in Rust."""
    turn = turn_antt if re.search(r"^file: (?:specs|proofs)/", text, re.M) else turn_rt
    out = []
    for line in text.split("\n"):
        m = re.match(r"((?:old|new):)(.*)", line)
        out.append(m.group(1) + turn(m.group(2), table) if m else line)
    return "\n".join(out)


def main():
    check = "--check" in sys.argv
    own, std = own_names()
    table = {n: spelled(n) for n in own}
    back = collections.defaultdict(set)
    for n, s in table.items():
        back[s].add(n)
    words = collections.Counter()
    for path in theory() + answers() + glob.glob("crates/*/src/*.rt"):
        words.update(re.findall(r"[A-Za-z_][A-Za-z0-9_']*", read(path)))
    for s, ns in sorted(back.items()):
        if len(ns) > 1:
            print("falls together:", s, sorted(ns))
        if s in words:
            print("stands already:", s, words[s], sorted(ns))
    made = collections.Counter()
    for path in answers():
        text = read(path)
        for m in re.finditer(r"(?:\bc|goals?|needs?)\.((?:[A-Za-z0-9_·-]+\.)*[A-Za-z0-9_·-]+)", text):
            made.update(w for w in m.group(1).split(".") if w in own)
    for n, k in sorted(made.items()):
        print("made by Rattle, maybe:", n, k)
    print(len(table), "names")
    if check:
        return
    turns = [(theory(), turn_antt), (answers(), turn_answers), (glob.glob("crates/*/src/*.rt"), turn_rt), (glob.glob("crates/*/must-fail/*.edit"), turn_edit),
             (["README.md"] + glob.glob("docs/*.md"), turn_ticks)]
    for paths, turn in turns:
        for path in paths:
            old = read(path)
            new = turn(old, table)
            if new != old:
                with open(path, "w", encoding="utf-8") as f:
                    f.write(new)


if __name__ == "__main__":
    main()
