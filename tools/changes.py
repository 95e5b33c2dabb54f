#!/usr/bin/env python3
"""Writes, side by side, what differs from an earlier commit in public signatures, clauses, ghost items, definitions and
must-fail edits, as the kit's contracts.py finds them, and the statements of laws: docs/design-changes.txt.

    tools/changes.py COMMIT > docs/design-changes.txt"""

import json
import os
import re
import subprocess
import sys
import tempfile

TOOL = "/opt/rattle/port/contracts.py"
TOP = os.path.join(os.path.dirname(os.path.abspath(__file__)), "..")


def laws(top):
    """The statements of proofs/, by crate and name: the lines of a signature up to the next blank or equation."""
    found = {}
    for folder, _, files in os.walk(os.path.join(top, "crates")):
        if "/proofs" not in folder or "/out" in folder:
            continue
        for file in files:
            if not file.endswith(".antt") or file in ("Answers.antt", "Invariants.antt", "Proof.antt", "Lib.antt"):
                continue
            crate = os.path.relpath(folder, os.path.join(top, "crates")).split("/")[0]
            with open(os.path.join(folder, file), encoding="utf-8") as it:
                text = it.read()
            # A statement goes on over the lines that are indented further.
            for law in re.finditer(
                r"^( *)pub ([^\s:]+) ((?:[({][^:\n]*:[^\n]*?[)}] )*): ([^\n]*(?:\n\1 +\S[^\n]*)*)", text, re.M
            ):
                found.setdefault((crate, law[2]), re.sub(r"\s+", " ", law[3] + ": " + law[4]).strip())
    return found


def side_by_side(title, old, new):
    print(f"{title}\n    - {old}\n    + {new}")


def text_of(clauses):
    return "; ".join(f"{name} {{ {text} }}".strip() for name, text in clauses) or "(none)"


def main(commit):
    with tempfile.TemporaryDirectory() as old:
        archive = subprocess.run(["git", "-C", TOP, "archive", commit, "crates"], capture_output=True, check=True)
        subprocess.run(["tar", "-x", "-C", old], input=archive.stdout, check=True)
        said = subprocess.run(["python3", TOOL, old, TOP, "--json"], capture_output=True, check=True, text=True)
        before, after = laws(old), laws(TOP)
    said = json.loads(said.stdout)
    print(f"What differs from {commit} (tools/changes.py): - old, + new.\n")
    print("== Functions that stand no more, or under another name and contract\n")
    print("\n".join(said["functions not found again"]))
    print("\n== Signatures\n")
    for name, old, new in said["signatures changed"]:
        side_by_side(name, old, new)
    print("\n== Clauses\n")
    for name, asked, told, asks, tells in said["contracts changed"]:
        if asked != asks:
            side_by_side(f"{name}, requires", text_of(asked), text_of(asks))
        if told != tells:
            side_by_side(f"{name}, ensures", text_of(told), text_of(tells))
    for kind, what in (("ghost items and constants", "Ghost items and constants"), ("definitions", "Definitions")):
        print(f"\n== {what}\n")
        print("\n".join(f"gone: {it}" for it in said[kind]["gone"]))
        for it in said[kind]["changed"]:
            side_by_side(" ".join(it[:-2]), it[-2], it[-1])
    print("\n== Edits and outputs\n")
    for it in said["edits and outputs"]["changed"]:
        side_by_side(" ".join(it[:-2]), it[-2], it[-1]) if len(it) > 3 else print(it)
    print("\n== Laws of proofs/\n")
    for name in sorted(before):
        if name not in after:
            print(f"gone: {' '.join(name)}")
        elif before[name] != after[name]:
            side_by_side(" ".join(name), before[name], after[name])


main(sys.argv[1])
