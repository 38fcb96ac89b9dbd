#!/usr/bin/env python3
"""places.py [COMMIT]: counts, in src/ of every crate at a commit (without one: as the files stand), what docs/DESIGN-PASS.md counts, point by point. With a second argument, a point's number, each place of it."""
import re
import subprocess
import sys

commit = sys.argv[1] if len(sys.argv) > 1 and sys.argv[1] != "." else None
shown = sys.argv[2] if len(sys.argv) > 2 else None


def git(*arguments):
    return subprocess.run(("git",) + arguments, capture_output=True, text=True, check=True).stdout


def listed():
    names = git("ls-tree", "-r", "--name-only", commit, "crates") if commit else git("ls-files", "crates")
    return names.split()


files = [name for name in listed() if name.endswith(".rt") and "/src/" in name]
text = {name: git("show", f"{commit}:{name}") if commit else open(name).read() for name in files}
# parameters, with one level of brackets inside
FUNCTION = re.compile(r"^( *)(?:pub )?(?:extern \"C\" )?fn (\w+)(?:<[^>]*>)?\(((?:[^()]|\([^()]*\))*)\)", re.M)


def crate(name):
    return name.split("/")[1]


def functions():
    for name in files:
        for found in FUNCTION.finditer(text[name]):
            yield crate(name) + "::" + found.group(2), re.sub(r"\s+", " ", found.group(3)), found, name


def lines(pattern):
    return [f"{name}:{n}: {line.strip()}" for name in files for n, line in enumerate(text[name].split("\n"), 1)
            if re.search(pattern, line) and not line.strip().startswith("//")]


def taking(*patterns):
    return [name for name, parameters, _, _ in functions() if all(re.search(p, parameters) for p in patterns)]


def clauses(pattern):
    return [line for line in lines(r"^\s*(requires|ensures)\b") if re.search(pattern, line)]


def bodies():
    """Families of functions whose text is the same once names, numbers and strings of their own are left out."""
    families = {}
    for name, _, found, file in functions():
        body = text[file][found.start():]
        end = re.search(r"\n" + found.group(1) + r"\}\n", body)
        code = "\n".join(l for l in body[:end.end() if end else None].split("\n") if not re.match(r"\s*(requires|ensures|//)", l))
        names = {}
        shape = re.sub(r'b?"[^"]*"|\b[A-Za-z_]\w*|\b\d+', lambda m: m.group(0) if m.group(0) in KEPT else names.setdefault(m.group(0), f"#{len(names)}"), re.sub(r"\s+", " ", code))
        families.setdefault(shape, []).append(name)
    return [", ".join(names) for shape, names in families.items() if len(names) > 1 and len(shape) > 60]


KEPT = {"fn", "let", "mut", "if", "else", "match", "for", "in", "while", "return", "as", "pub", "true", "false", "Err", "Ok", "Some", "None"}

points = [
    ("1", "own enums", lines(r"^(pub )?enum ")),
    ("1", "refusals by number", lines(r"number: [0-9]+|number, place|refusal\([0-9]+|Stops\(|number == [0-9]+")),
    ("1", "words by number", lines(r"\b(r|s|record|kept|renamed)\[[0-3]\]|number_of\(")),
    ("2", "functions of one shape", bodies()),
    ("3", "loops that count by hand", lines(r"^\s*while |loop \{")),
    ("4", "tests, orders and conversions by hand", [name for name, *_ in functions() if re.search(r"::(is_(?!at|word_at|header|outside|lone|digit|listing)\w+|same\w*|takes_\w+|\w+_from|number_of|record_of|lesser|smaller_of|larger|magnitude|numbers_agree|with_top|formed|row|negated|greater_of)$", name)]),
    ("5", "functions with records and a count", taking(r"\[Record\]", r"\b(count|size): usize")),
    ("5", "clauses that a table is formed", clauses(r"TableFormed|IsSchedule")),
    ("5", "clauses that a header is in its ranges", clauses(r"header_in_range|HeaderRanges")),
    ("5", "clauses of a small number", clauses(r"\{ Small ")),
    ("6", "functions with a buffer and a place", taking(r"out: &mut \[u8\]", r"\bat: usize")),
    ("6", "functions with a text and a place", taking(r"\b(text|s): &(?:'a )?\[u8\]", r"\b(at|start): usize")),
    ("6", "arrays of the lines beside a table", lines(r"let mut \w+ = \[0\w+; (256|1792)\]")),
    ("7", "functions that switch on a kind of file", taking(r"\b(levels: Levels|grammar: Grammar)")),
    ("8", "proofs by hand (Proof.antt)", [name for name in listed() if name.endswith("/Proof.antt")]),
    ("8", "answers (Answers.antt, Invariants.antt)", [name for name in listed() if name.endswith(("/Answers.antt", "/Invariants.antt"))]),
]
for point, what, places in points:
    print(f"{point}  {len(places):4d}  {what}")
    if shown == point:
        print("".join(f"        {place}\n" for place in places), end="")
