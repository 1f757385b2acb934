#!/usr/bin/env python3
"""Lists places in src/ that may be worth another form: places.py [FOLDER] [POINT].

A place is a line to look at, not a fault. The points are

  enums     own enums that hold a refusal beside other variants, flags in structs, refusals as bare numbers
  twins     functions alike but for names of types and numbers, and constants that stand twice
  loops     while and loop, for over a range of numbers, and counters beside a loop
  impls     impls of standard traits, and `as` to another type of number
  facts     clauses that stand in three functions or more, and parameters that three functions or more pass together
  buffers   fields that are arrays of a fixed room, counts beside values, and the filled part of an array
  switches  matches on a kind, pointers to functions, dyn
  answers   answers in proofs/ that are written by hand
"""
import collections
import pathlib
import re
import sys


def sources(root):
    for path in sorted(root.glob("crates/*/src/**/*.rt")):
        yield path.relative_to(root), path.read_text()


def lines(root, pattern):
    found = re.compile(pattern)
    for path, text in sources(root):
        for number, line in enumerate(text.splitlines(), 1):
            if not line.lstrip().startswith(("//", "ghost use", "use ")) and found.search(line):
                yield f"{path}:{number}: {line.strip()}"


def functions(text):
    """Name, head with clauses, and body of each function that has a body, by its indent."""
    for start in re.finditer(r"^( *)(?:pub(?:\([^)]*\))? )?fn (\w+)", text, re.M):
        indent = start.group(1)
        head = re.compile(rf"^{indent}\{{$|\{{$|;$", re.M).search(text, start.end())
        if not head or head.group() == ";":
            continue
        end = re.compile(rf"^{indent}\}}$", re.M).search(text, head.end())
        if end:
            yield start.group(2), text[start.start() : head.start()], text[head.start() : end.end()]


def enums(root):
    for path, text in sources(root):
        for name, body in re.findall(r"enum (\w+)[^{]*\{(.*?)^\}", text, re.M | re.S):
            variants = re.findall(r"^    (\w+)", body, re.M)
            holds = re.search(r"\b(Refusal|Fault)\b", body)
            if holds and len(variants) > 1 and not name.endswith(("Refusal", "Fault")):
                yield f"{path}: enum {name} holds a refusal beside other variants"
    yield from lines(root, r"^\s+(pub )?\w+: bool,$")
    yield from lines(root, r"number: u8")


def shape(body):
    body = re.sub(r"//[^\n]*", "", body)
    body = re.sub(r"b?'.'|\"[^\"]*\"|\b\d[\w.]*\b", "0", body)
    return re.sub(r"\b[A-Z]\w*\b", "T", re.sub(r"\s+", " ", body))


def twins(root):
    alike, constants = collections.defaultdict(list), collections.defaultdict(list)
    for path, text in sources(root):
        for name, _, body in functions(text):
            if body.count("\n") > 1:
                alike[shape(body)].append(f"{path}: fn {name}")
        for name, value in re.findall(r"^(?:pub )?const (\w+): [^=]+= ([^;]+);", text, re.M):
            constants[(name, value)].append(f"{path}: const {name} = {value}")
    for group in list(alike.values()) + list(constants.values()):
        if len(group) > 1:
            yield " ~ ".join(group)


def facts(root):
    clauses, together = collections.defaultdict(set), collections.defaultdict(set)
    for path, text in sources(root):
        for name, head, _ in functions(text):
            for clause in re.findall(r"(?:requires|ensures)[^{\n]*(\{.*\})", head):
                clauses[(path.parts[1], clause)].add(f"{path.name} {name}")
            given = re.findall(r"(\w+): (&?(?:mut )?(?:'\w+ )?[^,)\n]+)", head.split("ensures")[0].split("requires")[0])
            for one in {given[i : i + 3].__repr__() for i in range(len(given) - 2)}:
                together[(path.parts[1], one)].add(f"{path.name} {name}")
    for (crate, fact), where in sorted(clauses.items()):
        if len(where) > 2:
            yield f"{crate}: {fact} in {', '.join(sorted(where))}"
    for (crate, given), where in sorted(together.items()):
        if len(where) > 2:
            yield f"{crate}: {given} in {', '.join(sorted(where))}"


def answers(root):
    for path in sorted(root.glob("crates/*/proofs/**/Answers.antt")):
        for name in re.findall(r"^pub (\S+) : goal", path.read_text(), re.M):
            yield f"{path.relative_to(root)}: {name}"


POINTS = {
    "enums": enums,
    "twins": twins,
    "loops": lambda root: lines(root, r"\b(while|loop)\b.*\{$|\bfor .* in .*\.\.|^\w+ \+= 1;|^\s+\w+ \+= 1;"),
    "impls": lambda root: lines(root, r"^impl.*\b(From|TryFrom|PartialEq|Eq|PartialOrd|Ord|Clone|Copy|\w*Display|Debug)\b.* for |\bas (u|i)\d+\b|\bas usize\b"),
    "facts": facts,
    "buffers": lambda root: lines(root, r"^\s+(pub )?\w+: \[[^\]]+; \w+\],$|\[(0)?\.\.\w+\]|\bcount: usize"),
    "switches": lambda root: lines(root, r"\bmatch .*\b(self|role|rule|stage|kind)\b.*\{$|\bdyn\b|\bfn\("),
    "answers": answers,
}


def main():
    root = pathlib.Path(sys.argv[1] if len(sys.argv) > 1 else ".")
    for point, places in POINTS.items():
        if len(sys.argv) > 2 and sys.argv[2] != point:
            continue
        found = list(places(root))
        print(f"{point}: {len(found)}")
        if len(sys.argv) > 2:
            print("\n".join(f"  {place}" for place in found))


main()
