#!/usr/bin/env python3
"""Brings the names of this repository's own definitions and lemmas to the library's spelling, once, after the kit's port.py.

usage: python3 tools/snake_names.py [FOLDER]     rewrites crates/, README.md, CONTRIBUTING.md and docs/ below FOLDER in place

Two changes, in every file of crates/ (strings of Rattle code aside) and in the pages:
1. A name in lower camel case becomes snake case: `isWidth` is `is_width`, `isAmong-take` is `is_among-take`.
2. In a lemma's name a dash stays where it joins two names, and is `_` where it joins a plain word: `bit-over` is `bit_over`.
Where the new spelling stands already for something else, the lemma of the two gets `_lem`, and where neither is one the definition.
Names of Rust, of the language and of std are left alone, and so is what a function's own proof file names for itself.
"""
import os
import re
import sys

ROOT = sys.argv[1] if len(sys.argv) > 1 else "."
TOKEN = re.compile(r"(?<![A-Za-z0-9_'])[A-Za-z_][A-Za-z0-9_']*(?:-[A-Za-z0-9_'*]+)*")
DEFINED = re.compile(r"^ *(?:(?:unfoldable|abbrev|pub|data|record|ruleset) )*([A-Za-z_][A-Za-z0-9_']*(?:-[A-Za-z0-9_']+)*)(?: [({][^:=]*)? :")
CAMEL = re.compile(r"^[a-z][a-z0-9_']*[A-Z][A-Za-z0-9_']*$")


def files(*ends):
    for folder, dirs, names in os.walk(os.path.join(ROOT, "crates")):
        dirs[:] = sorted(d for d in dirs if d not in ("out", "must-fail"))
        for name in sorted(names):
            if name.endswith(ends):
                yield os.path.join(folder, name)


def read(path):
    with open(path, encoding="utf-8") as it:
        return it.read()


def of_function(path):
    """A proof file of one function: what it names is its own."""
    return os.path.relpath(path, ROOT).count(os.sep) > 3


def snake(part):
    if part == "getD":  # std's older word
        return "get_or"
    if not CAMEL.match(part) or re.match(r"b'.'$", part):
        return part
    return re.sub(r"(?<=[a-z0-9_'])([A-Z])", lambda m: "_" + m[1].lower(), part).lower()


def old_names():
    """Every identifier in the repository, and the names that specs/ and proofs/ define."""
    seen, defined, simple = set(), set(), set()
    for path in files(".antt", ".rt"):
        text = read(path)
        code = re.sub(r"(--|//).*", "", text)
        if path.endswith(".rt"):
            # A definition may have the name of the function that it gives the meaning of; not that of a parameter, a constant or a field.
            simple.update(re.findall(r"\bfn ([a-z_0-9]+)", code))
            code = re.sub(r"\bfn [a-z_0-9]+|\buse [^;]*;|\bmod [a-z_]+", "", code)
            seen.update(m[0] for m in TOKEN.finditer(code) if not code[m.end():].startswith(("(", "::")) and not code[:m.start()].endswith("::"))
            continue
        seen.update(m[0] for m in TOKEN.finditer(code) if not code[:m.start()].endswith(".") and not code[m.end():].startswith("."))
        if of_function(path):
            continue
        for line in code.split("\n"):
            m = DEFINED.match(line)
            if m and m[1] not in ("use", "module", "let"):
                defined.add(m[1])
                if "-" not in m[1]:
                    simple.add(snake(m[1]))
    # std's words, which a lemma's name may hold
    for word in re.findall(r"[a-z_0-9A-Z]+", " ".join(re.findall(r"use [\w.]+\.\{([^}]*)\}", "\n".join(read(p) for p in files(".antt"))))):
        simple.add(snake(word))
    return seen, defined, simple


def joined(name, simple):
    """A lemma's name with a dash only between two names."""
    parts = [snake(p) for p in name.split("-")]
    groups, k = [], 0
    while k < len(parts):
        for end in range(len(parts), k, -1):
            word = "_".join(parts[k:end])
            if word in simple:
                groups.append((word, True))
                k = end
                break
        else:
            groups.append((parts[k], False))
            k += 1
    new = groups[0][0]
    for (_, left), (word, right) in zip(groups, groups[1:]):
        new += ("-" if left and right else "_") + word
    return new


def renaming():
    seen, defined, simple = old_names()
    wanted = {}
    for name in seen | defined:
        if name in defined and "-" in name:
            new = joined(name, simple)
        else:
            new = "-".join(snake(p) for p in name.split("-"))
        if new != name:
            wanted[name] = new
    taken, bare = {}, {}
    for name in sorted(wanted, key=lambda n: ("-" in n, n)):
        new = wanted[name]
        if "-" in name and (new in seen and new not in wanted or new in taken.values()):
            taken[name] = new + ("_law" if new + "_lem" in taken.values() else "_lem")
        elif new in LEMMAS:
            taken[name], bare[new] = new, new + "_lem"
        elif new in seen and new not in wanted or new in taken.values():
            taken[name] = new + "_lem"
        else:
            taken[name] = new
    twice = [n for n in taken if list(taken.values()).count(taken[n]) > 1 or taken[n] in bare.values()]
    assert not twice, [(n, taken[n]) for n in twice]
    assert not {n for n in taken.values() if n.endswith("_lem")} & seen
    return taken, bare


# Lemmas that have the name of a definition in snake case already.
LEMMAS = {"found_below", "found_word", "on_read", "one_more", "over_by", "read_as", "same_place", "too_large", "too_many"}


def turned(text, names, bare={}):
    def one(m):
        if m[0] in bare and not text[: m.start()].endswith(".") and not text[m.end() :].startswith("."):
            return bare[m[0]]
        return names.get(m[0], m[0])

    return TOKEN.sub(one, text)


STRING = re.compile(r'b?"(?:[^"\\]|\\.)*"|b\'(?:[^\'\\]|\\.)\'')


def turned_code(text, mark, names, bare={}):
    """A file but for its strings: mark begins a comment."""
    out = []
    for line in text.split("\n"):
        at = line.find(mark)
        code, comment = (line, "") if at < 0 or line[:at].count('"') % 2 else (line[:at], line[at:])
        done, last = "", 0
        for m in STRING.finditer(code):
            done += turned(code[last : m.start()], names, bare) + m[0]
            last = m.end()
        out.append(done + turned(code[last:], names, bare) + turned(comment, names))
    return "\n".join(out)


def turned_page(text, names):
    """In a page: camel case anywhere, and a lemma's name between backquotes."""
    camel = {k: v for k, v in names.items() if CAMEL.match(k.split("-")[0]) or re.search(r"[a-z][A-Z]", k)}
    parts = re.split(r"(`[^`\n]*`)", text)
    return "".join(turned(p, names if p.startswith("`") else camel) for p in parts)


def main():
    names, bare = renaming()
    for path in files(".antt", ".rt"):
        text = read(path)
        new = turned_code(text, "--", names, bare) if path.endswith(".antt") else turned_code(text, "//", names)
        if new != text:
            with open(path, "w", encoding="utf-8") as it:
                it.write(new)
    pages = [os.path.join(ROOT, p) for p in ("README.md", "CONTRIBUTING.md")]
    for folder, _, found in os.walk(os.path.join(ROOT, "docs")):
        pages += [os.path.join(folder, f) for f in found if f.endswith(".md")]
    for path in pages:
        if os.path.exists(path):
            text = read(path)
            new = turned_page(text, names)
            if new != text:
                with open(path, "w", encoding="utf-8") as it:
                    it.write(new)
    for folder, _, found in os.walk(os.path.join(ROOT, "crates")):
        for path in (os.path.join(folder, f) for f in found if f.endswith(".edit")):
            new = "\n".join(turned(l, names, bare) if l.startswith(("old: ", "new: ")) else l for l in read(path).split("\n"))
            with open(path, "w", encoding="utf-8") as it:
                it.write(new)
    for old, new in sorted((names | bare).items()):
        print(f"{old} -> {new}")


if __name__ == "__main__":
    main()
