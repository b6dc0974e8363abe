#!/usr/bin/env python3
"""Counts the places in crates/*/src that have an older form, point by point, as docs/DESIGN-PASS.md lists them.

python3 tools/count_forms.py [FOLDER] [--list]    FOLDER is a checkout (default: this one); --list prints each place
"""
import collections
import glob
import os
import re
import sys

# What a line of code may look like, by point. Each match is a place.
LINES = [
    (1, "a fault's numbers as a bare tuple", r"\(u32, u32, usize\)"),
    (1, "0 for 'no mode'", r"\bmode(: | == )0\b"),
    (1, "0 for 'not listed'", r"^    0$"),
    (1, "Option or Result handed on by hand", r"Err\((\w+)\) => (return )?Err\(|None => None,|Ok\(\(\)\) => Ok\(\(\)\)|None => 0,|^ +None$"),
    (1, "a number that names a kind", r"^const \w+_RAIL: u32|\w+: &mut u32"),
    (1, "unreachable in place of a type", r"unreachable\(\)"),
    (3, "a loop over an index", r"for \w+ in [0-9]+\.\."),
    (3, "a loop that counts places", r"\.enumerate\(\)"),
    (3, "a loop that cuts the rest by hand", r"while !\w+\.is_empty\(\)"),
    (3, "a sum or count by hand", r"^ +n \+= "),
    (4, "printing by hand", r"^ *(pub )?fn (put|print)\w*"),
    (4, "an error written by hand", r"Err\(AllocError\)"),
    (4, "an answer converted arm by arm", r"Err\(\w+\) => (Ok\()?(Answer::Refused|Entry::Refused)"),
    (4, "equality by hand", r"\(State::\w+, State::\w+\)(?! =>.*Event)"),
    (4, "a word or number of a case by hand", r"^ *(pub )?fn (word|code)\("),
    (6, "a buffer longer than what it holds", r"\[u32; 32\]"),
    (6, "a table of pairs, parallel to another", r"^const \w+: \[\(u32, u32\); \d+\]"),
    (6, "two vectors side by side", r"^    pub (calls|answers): Vec"),
    (6, "an output slice with a length beside it", r"out: &mut \["),
    (6, "a list searched by hand", r"\.remove\(i\)"),
    (7, "a switch on a number", r"match (mode|number|kind) \{"),
    (7, "a table of cases that is walked", r"^const \w+: \[[A-Z]\w+; \d+\]"),
]

FN = re.compile(r"^ *(?:pub(?:\(crate\))? )?fn (\w+)", re.M)


def functions(text):
    """The functions of a file: name, contract, body, parameters."""
    for m in FN.finditer(text):
        tail = text[m.start():]
        open_at = re.search(r"^ *\{$|\{$", tail, re.M)
        semi = re.search(r";$", tail, re.M)
        if open_at is None or (semi and semi.start() < open_at.start()):
            continue
        depth, i = 0, tail.index("{", open_at.start())
        start = i
        while True:
            depth += {"{": 1, "}": -1}.get(tail[i], 0)
            i += 1
            if depth == 0:
                break
        head = tail[:start]
        params = re.search(r"\((.*?)\)(?: ->|\s|$)", head, re.S)
        yield m.group(1), head, tail[start:i], params.group(1) if params else ""


def shape(body):
    """A body without its names and numbers."""
    body = re.sub(r"//.*", "", body)
    body = re.sub(r'b?"[^"]*"', "s", body)
    body = re.sub(r"\b[A-Za-z_]\w*\b", "x", body)
    body = re.sub(r"\b\d+\b", "0", body)
    return re.sub(r"\s+", "", body)


def main():
    args = [a for a in sys.argv[1:] if a != "--list"]
    show = "--list" in sys.argv
    top = args[0] if args else "."
    found = collections.defaultdict(list)
    shapes, clauses, groups = (collections.defaultdict(list) for _ in range(3))
    for path in sorted(glob.glob(os.path.join(top, "crates/*/src/*.rt"))):
        name = os.path.relpath(path, os.path.join(top, "crates")).replace("/src/", "/")
        if name.startswith("trials/"):
            continue
        text = open(path).read()
        for i, line in enumerate(text.split("\n"), 1):
            if line.lstrip().startswith("//"):
                continue
            for point, what, pattern in LINES:
                if re.search(pattern, line):
                    found[point, what].append(f"{name}:{i}")
        for fn, head, body, params in functions(text):
            if len(shape(body)) > 30:
                shapes[shape(body)].append(f"{name} {fn}")
            for clause in re.findall(r"^ *ensures (.*)$", head, re.M):
                clauses[re.sub(r"^\w+ ", "", clause)].append(f"{name} {fn}")
            named = sorted(p.strip() for p in params.replace("\n", " ").split(",") if ":" in p and "self" not in p)
            for a in range(len(named)):
                for b in range(a + 1, len(named)):
                    groups[named[a], named[b]].append(f"{name} {fn}")
    for same in shapes.values():
        if len(same) > 1:
            found[2, "functions of one shape"].append(" = ".join(same))
    for clause, where in clauses.items():
        if len(where) > 2:
            found[5, "a clause of three or more functions"].append(f"{clause}: {', '.join(where)}")
    for pair, where in groups.items():
        if len(where) > 2:
            found[5, "parameters that travel together"].append(f"({', '.join(pair)}): {', '.join(where)}")
    for path in sorted(glob.glob(os.path.join(top, "crates/*/proofs/**/Answers.antt"), recursive=True)):
        name = os.path.relpath(path, os.path.join(top, "crates")).split("/")[0]
        for answer in re.findall(r"^pub (\S+) : goal", open(path).read(), re.M):
            found[8, "answers to goals"].append(f"{name} {answer}")
    for (point, what), where in sorted(found.items()):
        print(f"{point}  {len(where):3}  {what}")
        if show and point != 8:
            for w in where:
                print(f"          {w}")


main()
