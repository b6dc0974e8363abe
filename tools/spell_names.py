#!/usr/bin/env python3
"""Gives the repository's own definitions, lemmas and fields the spelling of today's Rattle: words joined by '_', no middle capitals.

usage: python3 tools/spell_names.py [--list]      at the top of the repository, once, after the kit's port.py

It turns what the repository's own .antt files declare: `first-fault` becomes `first_fault`, `cardText` becomes `card_text`. Names of the kit's
libraries, the goals' names that Rattle makes, names of src/, strings and comments keep their spelling. It stops, and writes nothing, where two
names of one folder (specs/ or proofs/ of a crate) would fall together. With --list it prints the table of names and writes nothing.
"""

import os
import re
import sys

TOKEN = re.compile(r"[^\s(){}\[\],;:.\"«»|?]+")
DECLARED = re.compile(r"^(\s*)(?:abbrev |unfoldable |pub )*([^\s(){}\[\],;:.\"]+)\s*:(?:\s|$)")
CASES = re.compile(r"^\s*\|?\s*([a-z][\w'-]*)\s*:")


def files():
    for folder, dirs, names in os.walk("crates"):
        dirs[:] = sorted(d for d in dirs if d != "out")
        for n in sorted(names):
            if n.endswith((".antt", ".rt", ".edit")):
                yield os.path.join(folder, n)


def spelled(name):
    name = name.replace("-", "_")
    # rootUp is root_up, hQd is h_qd; a type or a module, in upper camel case, is left
    if name[:1].islower():
        name = re.sub(r"(?<=[a-z0-9])([A-Z])", lambda m: "_" + m.group(1).lower(), name)
        name = re.sub(r"(?<=_)([A-Z])", lambda m: m.group(1).lower(), name)
    return name


def odd(name):
    return ("-" in name.strip("-") and name[:1].isalpha()) or (name[:1].islower() and re.search(r"[A-Z]", name) is not None)


def strip(line, rt):
    """The line with strings and comments blanked, of the same length."""
    out, i, text = [], 0, False
    while i < len(line):
        c = line[i]
        if text:
            out.append(" ")
            if c == "\\":
                out.append(" ")
                i += 1
            elif c == '"':
                text = False
        elif c == '"':
            text = True
            out.append(" ")
        elif line.startswith("//" if rt else "--", i) and (rt or i == 0 or line[i - 1].isspace()):
            out.append(" " * (len(line) - i))
            break
        else:
            out.append(c)
        i += 1
    return "".join(out)[: len(line)]


def made(path):
    """Whether a file answers goals: its names that Rattle makes stand behind 'goal.' in their own line."""
    return os.path.basename(path) in ("Answers.antt", "Invariants.antt")


def main():
    own, kit, where = {}, set(), {}
    taken = {}
    for p in files():
        if p.endswith(".edit"):
            continue
        rt = p.endswith(".rt")
        with open(p, encoding="utf-8") as f:
            lines = f.read().split("\n")
        part = "/".join(p.split("/")[:3])
        for line in lines:
            line = strip(line, rt)
            m = re.match(r"^\s*(?:ghost )?use ([\w.'+-]+)\.\{(.*)\}", line)
            if m:
                if not m.group(1).startswith("Rattle.") or m.group(1).startswith("Rattle.std"):
                    kit |= {w.split(" as ")[0].strip() for w in m.group(2).split(",")}
                continue
            for w in TOKEN.findall(line):
                if not odd(w):
                    taken.setdefault(part, set()).add(w)
            if rt:
                continue
            m = DECLARED.match(line)
            if m and odd(m.group(2)) and not re.search(r":\s*goal\.", line):
                own[m.group(2)] = spelled(m.group(2))
                where.setdefault(part, {}).setdefault(m.group(2), p)
    both = sorted(set(own) & kit)
    for w in both:
        del own[w]
    bad = 0
    for part, names in sorted(where.items()):
        new = {}
        for w, p in sorted(names.items()):
            if w not in own:
                continue
            if own[w] in new:
                print(f"falls together in {part}: {w} and {new[own[w]]}")
                bad = 1
            new[own[w]] = w
            if own[w] in taken.get(part, ()):
                print(f"look: {part}: {w} becomes {own[w]}, which stands there already")
    if both:
        print("look: names of the kit that the repository declares too, left: " + ", ".join(both))
    if "--list" in sys.argv:
        for w in sorted(own):
            print(f"{w} -> {own[w]}")
        return 0
    if bad:
        return 1
    changed = 0
    for p in files():
        rt = not p.endswith(".antt")
        with open(p, encoding="utf-8") as f:
            text = f.read()
        lines = text.split("\n")
        for k, line in enumerate(lines):
            bare = strip(line, rt and p.endswith(".rt"))
            if re.match(r"^\s*(?:ghost )?use (?!Rattle\.)", bare) or re.match(r"^\s*(?:ghost )?use Rattle\.std\.", bare):
                continue
            out, last = [], 0
            for m in TOKEN.finditer(bare):
                w = m.group(0)
                if w not in own or bare[: m.start()].endswith("goal."):
                    continue
                # a step of the record c of what is known: Rattle made its name
                if made(p) and re.search(r"(?<![\w'-])[cwl]\.(?:[\w'-]+\.)*$", bare[: m.start()]) and re.match(r"(in|if|loop|match|then|else|index)-", w):
                    continue
                out.append(line[last : m.start()] + own[w])
                last = m.end()
            lines[k] = "".join(out) + line[last:]
        new = "\n".join(lines)
        if new != text:
            changed += 1
            with open(p, "w", encoding="utf-8") as f:
                f.write(new)
    print(f"{len(own)} names, {changed} files")
    return 0


sys.exit(main())
