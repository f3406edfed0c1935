#!/usr/bin/env python3
"""Brings this repository's own definitions and lemmas to Rattle's spelling. Run once, at the top, after the kit's port.py.

Words are in snake case: firstWord becomes first_word. In a lemma's name a dash stays where it joins two words, as in
length-hex; any other becomes an underscore, as in begins_short, unless that name is taken: by a word, then _lem ends it; by
another lemma, then the dash stays. Functions of src/, types,
modules, strings, inputs and outputs keep their names; so does a name that a file imports from the library.
usage: python3 tools/respell.py [--list]        --list prints the table and changes nothing
"""
import collections
import os
import re
import sys

NAME = re.compile(r"(?<![\w'\u2080-\u2089-])[A-Za-z][\w'\u2080-\u2089]*(?:-[\w'\u2080-\u2089]+)*(?![\w'-])")
SIGNED = re.compile(r"^\s*((?:(?:pub|abbrev|unfoldable|data|record) )*)([^\s:={}()]+)(?:\s*\{[^}]*\}|\s*\([^)]*\))*\s*:\s")
CAMEL = re.compile(r"(?<=[a-z0-9])([A-Z])")
IMPORT = re.compile(r"use\s+([\w.'+·-]+)\.\{([^}]*)\}")
STDWORDS = "/opt/rattle/rattle/std/specs/Prelude.antt"


def files(root):
    for folder, dirs, names in os.walk(os.path.join(root, "crates")):
        dirs[:] = sorted(d for d in dirs if d not in ("out", ".git"))
        for n in sorted(names):
            if n.endswith((".antt", ".rt", ".edit")):
                yield os.path.join(folder, n)


def read(p):
    with open(p, encoding="utf-8") as f:
        return f.read()


def snake(name):
    if not name[0].islower():
        return name
    return "-".join(CAMEL.sub(lambda m: "_" + m.group(1).lower(), part) if part[0].islower() else part for part in name.split("-"))


def own_names(root):
    """The names that this repository gives, and those of them that are words: definitions, not lemmas."""
    names, words = set(), set()
    for p in files(root):
        if not p.endswith(".antt") or os.path.basename(p) in ("Proof.antt", "Answers.antt", "Invariants.antt"):
            continue
        for line in read(p).split("\n"):
            m = SIGNED.match(line)
            if not m or line.lstrip().startswith("--"):
                continue
            names.add(m.group(2))
            if "-" not in m.group(2) and (re.search("abbrev|unfoldable", m.group(1)) or CAMEL.search(m.group(2))):
                words.add(snake(m.group(2)))
    return names, words


def std_words():
    return set(re.findall(r"[A-Za-z][\w']*", " ".join(re.findall(r"\{([^}]*)\}", read(STDWORDS)))))


def table(root):
    names, words = own_names(root)
    camel = {n for n in names if CAMEL.search(n)}
    lemmas = {n for n in names if n in {snake(c) for c in camel}}
    defined = {m.group(2) for p in files(root) if p.endswith(".antt") for line in read(p).split("\n") if (m := SIGNED.match(line)) and re.search("abbrev|unfoldable", m.group(1)) and "-" in m.group(2)}
    known = words | std_words()
    taken = collections.Counter(snake(n) for n in names)
    to = {}
    for n in sorted(names):
        s = snake(n)
        if "-" in s:
            parts = s.split("-")
            t = parts[0]
            for left, right in zip(parts, parts[1:]):
                t += ("-" if left in known and right in known and n not in defined else "_") + right
            if t in words:
                t += "_lem"
            elif t != s and t in taken:
                t = s
            taken[t] += t != s
            s = t
        elif s == n and n[0].islower() and n in words and n in lemmas:
            s += "_lem"
        if s != n:
            to[n] = s
    return to


def imported(text, crates):
    """The names that a file takes from outside this repository."""
    out = set()
    for path, items in IMPORT.findall(text):
        part = path.split(".")
        if not (part[0] == "Rattle" and len(part) > 1 and part[1] in crates):
            out |= {i.strip().split(" as ")[0] for i in items.split(",")}
    return out


def turned(text, to, skip):
    def one(m):
        n = m.group(0)
        if n in skip or n + "_lem" == to.get(n) and "." in (text[m.start() - 1 : m.start()], text[m.end() : m.end() + 1]):
            return n
        if n in to:
            return to[n]
        return snake(n) if CAMEL.search(n) and n[0].islower() else n
    return NAME.sub(one, text)


def turned_rust(text, to, skip):
    """Clauses and ghost imports alone: no string, no comment, no other code."""
    out, inside = [], False
    for line in text.split("\n"):
        s = line.lstrip()
        if s.startswith(("ghost use ", "requires", "ensures", "ghost ", "also_owns")):
            inside = True
        elif inside and (s == "" or s.startswith("{") and line.rstrip() in ("{", "    {") or s.startswith(("//", "pub ", "fn ", "use ", "#["))):
            inside = False
        out.append(turned(line, to, skip) if inside else line)
    return "\n".join(out)


def turned_edit(text, to):
    """The lines old: and new: of an edit of a definition or a clause."""
    out, code = [], False
    for line in text.split("\n"):
        if line.startswith("file:"):
            code = line.rstrip().endswith(".rt")
        if line.startswith(("old:", "new:")) and (not code or re.search(r"\b(requires|ensures)\b", line)):
            line = line[:4] + turned(line[4:], to, set())
        out.append(line)
    return "\n".join(out)


def comments_apart(text, to, skip):
    """An antt file: in comments only names in camel case are turned."""
    out = []
    for line in text.split("\n"):
        at = line.find("--")
        if at >= 0 and (at == 0 or line[at - 1] in " \t"):
            head, tail = line[:at], line[at:]
            tail = NAME.sub(lambda m: to.get(m.group(0), m.group(0)) if CAMEL.search(m.group(0)) and m.group(0) not in skip else m.group(0), tail)
            out.append(turned(head, to, skip) + tail)
        else:
            out.append(turned(line, to, skip))
    return "\n".join(out)


def main():
    root = "."
    to = table(root)
    if "--list" in sys.argv:
        for n in sorted(to):
            print(n, to[n])
        both = collections.defaultdict(list)
        names, _ = own_names(root)
        for n in names:
            both[to.get(n, n)].append(n)
        for n, o in sorted(both.items()):
            if len(o) > 1:
                print("FALL TOGETHER", n, o)
        return
    crates = set(re.findall(r"^([a-z0-9_]+):", read("crates.txt"), re.M))
    for p in files(root):
        text = read(p)
        skip = imported(text, crates)
        if p.endswith(".rt"):
            new = turned_rust(text, to, skip)
        elif p.endswith(".edit"):
            new = turned_edit(text, to)
        else:
            new = comments_apart(text, to, skip)
        if new != text:
            with open(p, "w", encoding="utf-8") as f:
                f.write(new)


main()
