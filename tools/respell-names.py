#!/usr/bin/env python3
"""Brings the repository's own names in definitions and lemmas to snake case: `directionOf` to `direction_of`, `every-field` to `every_field`.

usage: tools/respell-names.py [FOLDER]      once, at the top of a checkout, after port.py
It was run once, at the port, and names a file of that day, so it cannot run on the tree as it is today.
A name turns where the repository defines it: in specs/, in a lemma file of proofs/, or as a helper in a function's proof file. Names that the
prover makes (the answers to its goals), names of its library, Rust's names and register fields of capitals stay. Text in quotes stays.
It stops where two names would fall together.
"""
import glob
import os
import re
import subprocess
import sys

TOKEN = re.compile(r"(?<![\w'«»-])[\w']+(?:-[\w']+)*(?![\w'-])")
STRING = re.compile(r'b?"(?:\\.|[^"\\\n])*"')
COMMENT = {".rt": re.compile(r"//[^\n]*"), ".antt": re.compile(r"--[^\n]*")}
SPAN = re.compile(r"`[^`\n]+`")
HEAD = re.compile(r"^ *(?:(?:abbrev|unfoldable|opaque|private|pub|mutual) +)*((?:[\w']+(?:-[\w']+)*)(?: +[\w']+(?:-[\w']+)*)*) *:(?!=)")
# What the prover asks for by name, in answers and invariants.
MADE = re.compile(r"(?:returns|invariant|decreases|given|loop|overflow|bounds|nonzero|slice_bounds|offset_bounds|sub|mul|add|cast|prove|invariant_of|the)-")
# Parameters, and names that an import gives.
OTHERS = ["tenBits", "elevenBits", "startWord", "wantedOf", "comparedOf", "afterFoundOf", "settleAccesses"]
# The library of the toolchain, beside the page that `rt doc` names.
LIBRARY = os.path.join(os.path.dirname(subprocess.run(["rt", "doc"], capture_output=True, text=True, check=True).stdout.strip()), "rattle")


def snake(name):
    return re.sub(r"(?<=[a-z0-9])([A-Z])", lambda m: "_" + m.group(1).lower(), name).replace("-", "_")


def turns(name):
    return name != snake(name) and re.match(r"[a-z]", name) and not re.search(r"_[A-Z]", name) and not MADE.match(name)


def defined(text):
    for line in text.split("\n"):
        if line.lstrip().startswith("--"):
            continue
        m = HEAD.match(line)
        if m:
            yield from m.group(1).split()


def library():
    names = set()
    for path in glob.glob(LIBRARY + "/**/*.antt", recursive=True):
        with open(path, encoding="utf-8", errors="replace") as f:
            names.update(defined(f.read()))
    return names


def turned(path, text, table):
    ending = os.path.splitext(path)[1]

    def word(m):
        return table.get(m.group(0), m.group(0))

    def code(part):
        return TOKEN.sub(word, part)

    if ending == ".md":
        return SPAN.sub(lambda m: code(m.group(0)), text)
    if ending == ".edit":
        return "".join(code(line) if re.match(r"(old|new):", line) else SPAN.sub(lambda m: code(m.group(0)), line) for line in text.splitlines(True))
    out, at = [], 0
    quiet = re.compile(STRING.pattern + "|" + COMMENT[ending].pattern)
    for m in quiet.finditer(text):
        out.append(code(text[at : m.start()]))
        out.append(m.group(0) if m.group(0).lstrip("b").startswith('"') else SPAN.sub(lambda s: code(s.group(0)), m.group(0)))
        at = m.end()
    out.append(code(text[at:]))
    return "".join(out)


def main():
    os.chdir(sys.argv[1] if len(sys.argv) > 1 else ".")
    files = {}
    for top, folders, names in os.walk("crates"):
        folders[:] = [f for f in folders if f != "out"]
        for name in names:
            if name.endswith((".rt", ".antt", ".edit")):
                path = os.path.join(top, name)
                with open(path, encoding="utf-8") as f:
                    files[path] = f.read()
    for path in ["README.md", *glob.glob("docs/*.md")]:
        with open(path, encoding="utf-8") as f:
            files[path] = f.read()
    # A lemma that has its function's name since port.py.
    path = "crates/ending/proofs/OneCheck.antt"
    before = files[path]
    files[path] = re.sub(r"(?<![\w'.-])one_more(?![\w'-])", "one_more_lem", before)
    own = set(OTHERS)
    for path, text in files.items():
        if path.endswith(".antt"):
            own.update(name for name in defined(text) if turns(name))
    theirs = library()
    both = sorted(own & theirs)
    table = {name: snake(name) for name in own - theirs}
    met = {}
    for old, new in sorted(table.items()):
        met.setdefault(new, []).append(old)
    # A lemma that would have its function's name.
    for new, olds in met.items():
        dashed = [old for old in olds if "-" in old]
        if len(olds) == 2 and len(dashed) == 1:
            table[dashed[0]] = new + "_lem"
            olds.remove(dashed[0])
    clash = {new: olds for new, olds in met.items() if len(olds) > 1}
    for new, olds in clash.items():
        print("two names fall together:", new, "from", ", ".join(olds))
    beside = sorted(old for old, new in table.items() if any(new in set(defined(t)) for p, t in files.items() if p.endswith(".antt")))
    print("names that stand already under the new spelling:", " ".join(beside))
    print("names that the library has too, left:", " ".join(both))
    if clash:
        sys.exit(1)
    n = 0
    for path, text in files.items():
        new = turned(path, text, table)
        if new != text:
            n += 1
            with open(path, "w", encoding="utf-8") as f:
                f.write(new)
    print(f"{len(table)} names, {n} files")


main()
