#!/usr/bin/env python3
"""Finds the places of src/ that may be written in an older form than Rattle allows, a list for each point of
docs/DESIGN-PASS.md.

    tools/places.py            how many places of each point
    tools/places.py 3          the places of point 3, a line each
    tools/places.py 3 crates/bits crates/units
    tools/places.py --in FOLDER ..   the same in another checkout

It goes by text alone, so a place that it finds is one to look at, and no verdict."""

import collections
import glob
import os
import re
import sys

NUMBER = r"(?:u8|u16|u32|u64|usize)"
# What a comment says of a number that stands for none.
NONE = re.compile(
    r"\bor (?:0|9|16|29|32|255)\b|\b0,? (?:where|or|if)\b|\b0 is none\b|\bor (?:their|the) (?:count|text's length)\b"
    r"|\bwhere (?:there is )?none\b|which is no|\bor none\b|for no (?:sign|word)|standing for more|0 past"
)


class Function:
    def __init__(self, file, line, comment, head, body):
        self.file, self.line, self.comment, self.head, self.body = file, line, comment, head, body
        self.name = re.search(r"\bfn\s+(\w+)", head)[1]
        self.at = f"{file}:{line}: {self.name}"

    def parameters(self):
        inside = self.head[self.head.index("(") :]
        signature = re.split(r"\n\s*(?:requires|ensures|ghost)\b", inside)[0]
        return re.findall(r"(\w+)\s*:\s*([^,()]+(?:\([^)]*\))?)", signature)

    def result(self):
        found = re.search(r"\)\s*->\s*([^\n{]+)", re.split(r"\n\s*(?:requires|ensures)\b", self.head)[0])
        return found[1].strip() if found else ""


def closing(text, at):
    deep = 0
    for k in range(at, len(text)):
        deep += (text[k] == "{") - (text[k] == "}")
        if not deep:
            return k
    return len(text) - 1


def without_comments(text):
    return re.sub(r"//[^\n]*", "", text)


def functions(file):
    with open(file, encoding="utf-8") as it:
        text = it.read()
    for found in re.finditer(r"^[ \t]*(?:pub(?:\([a-z]+\))? )?(?:unsafe )?(?:extern \"C\" )?fn \w+", text, re.M):
        # The body is the first `{` at the start of a line, or at the end of the head where there is no clause.
        at, depth = found.end(), 0
        start = None
        for k in range(at, len(text)):
            if text[k] == "{":
                before = text[text.rfind("\n", 0, k) + 1 : k]
                if not before.strip() or not re.search(r"\n\s*(?:requires|ensures|ghost)\b", text[at : k + 1]):
                    start = k
                    break
        if start is None:
            continue
        end = closing(text, start)
        above = re.search(r"((?:^[ \t]*(?://[^\n]*|#\[[^\n]*)\n)*)\Z", text[: found.start()], re.M)
        line = text.count("\n", 0, found.start()) + 1
        yield Function(file, line, above[1] if above else "", text[found.start() : start], text[start : end + 1])


def types(file):
    with open(file, encoding="utf-8") as it:
        text = it.read()
    for found in re.finditer(r"^(?:pub(?:\([a-z]+\))? )?(struct|enum) (\w+)[^{;\n]*\{", text, re.M):
        end = closing(text, found.end() - 1)
        inside = without_comments(text[found.end() : end])
        line = text.count("\n", 0, found.start()) + 1
        yield found[1], found[2], inside, f"{file}:{line}: {found[2]}"


def variants(inside):
    out, deep, word = [], 0, ""
    for c in inside:
        deep += (c in "({") - (c in ")}")
        if c == "," and not deep:
            out.append(word.strip())
            word = ""
        else:
            word += c
    return [it for it in [*out, word.strip()] if it]


def point_1(files):
    for file in files:
        for kind, name, inside, at in types(file):
            if kind == "enum":
                all_of = variants(inside)
                bare = [it for it in all_of if not re.search(r"[({]", it)]
                if len(all_of) == 2 and len(bare) < 2:
                    yield at, "an enum shaped like " + ("Option" if len(bare) == 1 else "Result")
            else:
                for field, type_of in re.findall(r"(\w+)\s*:\s*([^,\n]+)", inside):
                    if type_of.strip() == "bool":
                        yield at, f"a flag beside a value: {field}"
                    if field in ("number", "kind", "mark", "side") and re.fullmatch(NUMBER, type_of.strip()):
                        yield at, f"a number for a kind or a refusal: {field}"
        for it in functions(file):
            if re.fullmatch(NUMBER, it.result()) and NONE.search(it.comment):
                yield it.at, f"a number that may stand for none: -> {it.result()}"
            for name, type_of in it.parameters():
                if name in ("number", "kind", "mark", "side", "part", "from", "word") and re.fullmatch(
                    r"u8|u16|usize|u32", type_of.strip()
                ) and name in ("kind", "mark", "side", "part"):
                    yield it.at, f"a number for a kind: {name}: {type_of.strip()}"


def shape(it):
    """The body with its names, numbers and layout gone."""
    body = without_comments(it.body)
    body = re.sub(r"b?'(?:\\.|[^'\\])'|b?\"(?:\\.|[^\"\\])*\"", "N", body)
    body = re.sub(r"\b\d\w*\b", "N", body)
    words = ("if", "else", "while", "loop", "for", "in", "match", "return", "let", "mut", "as", "true", "false", "break")
    body = re.sub(r"[A-Za-z_][\w:]*", lambda m: m[0] if m[0] in words else "W", body)
    return re.sub(r"\s+|,(?=\s*[)}\]])", "", body)


def point_2(files):
    alike = collections.defaultdict(list)
    for file in files:
        for it in functions(file):
            if len(it.body) > 60:
                alike[shape(it)].append(it)
    for group in alike.values():
        for it in group[1:]:
            yield it.at, f"as {group[0].file}: {group[0].name}"


def point_3(files):
    for file in files:
        for it in functions(file):
            for found in re.finditer(r"\b(while|loop)\b[^\n]*", without_comments(it.body)):
                yield it.at, found[0].strip()


def point_4(files):
    for file in files:
        for it in functions(file):
            body = without_comments(it.body)
            copied = collections.Counter(re.findall(r"\b(\w+): (\w+)\.\1\b", body))
            by_base = collections.Counter()
            for (_, base), n in copied.items():
                by_base[base] += n
            for base, n in by_base.items():
                if n > 1:
                    yield it.at, f"{n} fields copied from {base}"
            if re.fullmatch(r"\{\s*match \w+ \{(?:\s*[\w:]+(?:\([^)]*\)|\s*\{[^}]*\})? => [^,{}()]+,)+\s*\}\s*\}", body):
                yield it.at, "a conversion or a test by one match"
            if len(re.findall(r"\b(\w+)\.(\w+) == (\w+)\.\2\b", body)) > 1:
                yield it.at, "equality by fields"


def point_5(files):
    facts, groups = collections.defaultdict(list), collections.defaultdict(list)
    for file in files:
        for it in functions(file):
            for clause in re.findall(r"\n\s*requires(?: \w+)? \{ (.*) \}", it.head):
                facts[re.sub(r"\s+", " ", clause)].append(it)
            names = [name for name, _ in it.parameters()]
            for size in (2, 3):
                for k in range(len(names) - size + 1):
                    groups[tuple(names[k : k + size])].append(it)
    for fact, its in facts.items():
        if len(its) > 2:
            for it in its:
                yield it.at, f"asks in {len(its)} contracts: {fact}"
    for names in (("parameters", "registers", "variables"), ("text", "from"), ("text", "at"), ("reads", "writes")):
        for it in groups.get(names, []):
            yield it.at, "travel together: " + ", ".join(names)


def point_6(files):
    for file in files:
        for it in functions(file):
            parameters = dict(it.parameters())
            slices = [n for n, t in parameters.items() if t.strip().startswith("&") and "[" in t]
            for name, type_of in parameters.items():
                if slices and type_of.strip() == "usize" and name in ("n", "count", "length", "end", "done", "taken"):
                    yield it.at, f"a buffer with a length beside it: {', '.join(slices)} and {name}"
            for found in re.findall(r"let mut (\w+)(?:: [^=]+)? = \[[^;\]]+; [^\]]+\]", without_comments(it.body)):
                yield it.at, f"a fixed buffer: {found}"


def point_7(files):
    for file in files:
        names = {name for kind, name, _, _ in types(file) if kind == "enum"}
        for it in functions(file):
            for found in re.finditer(r"match (\w+) \{", it.body):
                arms = it.body[found.end() : closing(it.body, found.end() - 1)]
                by = [n for n, t in it.parameters() if n == found[1] and t.strip() in names]
                calls = re.findall(r"=>\s*\{?\s*[\w:]+\(", arms)
                if by and len(calls) > 1 and len(calls) == arms.count("=>"):
                    yield it.at, f"a switch on {found[1]}"


def point_8(files):
    for crate in sorted({file.split("/")[1] for file in files}):
        found = glob.glob(f"crates/{crate}/proofs/**/*.antt", recursive=True)
        lines = sum(sum(1 for _ in open(it, encoding="utf-8")) for it in found)
        yield f"crates/{crate}", f"{len(found)} files of proofs, {lines} lines"


POINTS = (point_1, point_2, point_3, point_4, point_5, point_6, point_7, point_8)


def main(*words):
    top = os.path.join(os.path.dirname(os.path.abspath(__file__)), "..")
    if words[:1] == ("--in",):
        top, words = words[1], words[2:]
    os.chdir(top)
    point, folders = "".join(words[:1]), words[1:]
    folders = folders or sorted(glob.glob("crates/*"))
    files = sorted(it for f in folders for it in glob.glob(f"{f}/src/**/*.rt", recursive=True))
    if point:
        for at, what in POINTS[int(point) - 1](files):
            print(f"{at}: {what}")
        return
    for number, of in enumerate(POINTS[:7], 1):
        print(f"{number}: {sum(1 for _ in of(files))}")
    lines = sum(int(re.search(r"(\d+) lines", what)[1]) for _, what in point_8(files))
    print(f"8: {lines} lines of proofs")


main(*sys.argv[1:])
