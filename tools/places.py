#!/usr/bin/env python3
"""Counts the places in crates/*/src, and answers in crates/*/proofs, that an older Rattle's forms may have been left in, point by point of docs/DESIGN-PASS.md.

    python3 tools/places.py [POINT..] [--list] [--at COMMIT]

Without --at the files of the work tree are read, with it those of a commit. --list prints each place: crate, file, line, text.
A count is of what the pattern meets; which of these are right as they are is said on that page.
"""
import collections
import pathlib
import re
import subprocess
import sys

TOP = pathlib.Path(__file__).resolve().parent.parent


def sources(commit, wanted):
    if commit:
        names = subprocess.run(["git", "ls-tree", "-r", "--name-only", commit, "crates"], cwd=TOP, capture_output=True, text=True, check=True)
        for name in names.stdout.split("\n"):
            if re.fullmatch(wanted, name):
                shown = subprocess.run(["git", "show", f"{commit}:{name}"], cwd=TOP, capture_output=True, text=True, check=True)
                yield name.removeprefix("crates/"), shown.stdout
    else:
        for path in sorted((TOP / "crates").glob("*/*/**/*.*t*")):
            if re.fullmatch(wanted, str(path.relative_to(TOP))):
                yield str(path.relative_to(TOP / "crates")), path.read_text()


def code_of(line):
    return line.split("//")[0]


def by_line(pattern):
    def places(files):
        for name, text in files:
            for number, line in enumerate(text.split("\n"), 1):
                if not line.lstrip().startswith("ghost") and re.search(pattern, code_of(line)):
                    yield name, number, line.strip()
    return places


# own enums of which a variant says that there is nothing, or that it is refused
def outcome_enums(files):
    for name, text in files:
        for found in re.finditer(r"enum (\w+) \{(.*?)\n\}", text, re.S):
            if re.search(r"^    (Missing|Bad|Refused|None|Nothing)\b", found[2], re.M):
                yield name, text[:found.start()].count("\n") + 1, f"enum {found[1]}"


FN = re.compile(r"^(?P<indent> *)(?:pub(?:\(crate\))? )?(?:extern \"C\" )?fn (?P<name>\w+)(?P<rest>.*?)^(?P=indent)\{\n(?P<body>.*?)^(?P=indent)\}$", re.S | re.M)


def functions(files):
    for name, text in files:
        for found in FN.finditer(text):
            yield name, text[:found.start()].count("\n") + 1, found["name"], found["rest"], found["body"]


# the named numbers of refusals
def codes(files):
    return by_line(r"^pub const [A-Z_]+: u8 = \d+;")([(name, text) for name, text in files if name.startswith("answers/")])


# comments that say of a number or a row that it stands for none
def said_none(files):
    for name, text in files:
        for number, line in enumerate(text.split("\n"), 1):
            if re.match(r" *// ", line) and re.search(r"\bor 0\b|\b0 where|\bor NO_|\b4 where|is none, all zero|has no digits|has the giver 0|zeros where|for a card that gives none", line):
                yield name, number, line.strip()


# functions whose bodies are the same once names, numbers and constants are taken out, three statements' worth at least
def twins(files):
    shapes = collections.defaultdict(list)
    for name, line, function, rest, body in functions(files):
        plain = re.sub(r"//.*", "", body)
        shape = re.sub(r"b?'(?:\\.|[^'])'|\b\d[\d_]*\b|\"[^\"]*\"", "0", plain)
        shape = re.sub(r"\b(?!if\b|else\b|for\b|while\b|match\b|return\b|let\b|mut\b|in\b|as\b)[A-Za-z_]\w*", "x", shape)
        shape = re.sub(r"x(?:::x)+", "x", re.sub(r"\s+", "", shape))
        shapes[shape].append((name, line, function))
    for same in shapes.values():
        if len(same) > 1:
            for name, line, function in same:
                yield name, line, f"fn {function}: as " + ", ".join(f for n, l, f in same if (n, l) != (name, line))


def parts(clause):
    for part in re.split(r" × ", clause):
        yield re.sub(r"^\(+|\)+$", "", part.strip())


# a fact of a `requires` or `ensures`, with its numbers, that three functions of a crate or more have
def facts(files):
    met = collections.defaultdict(set)
    for name, line, function, rest, body in functions(files):
        for clause in re.findall(r"(?:requires|ensures)(?: \w+)? \{(.*?)\}\s*\n", rest, re.S):
            for part in parts(clause):
                key = re.sub(r"\.(now|old|new)\b", "", part)
                if re.search(r"≡|≤|<", key) or re.match(r"[A-Z]\w+ ", key):
                    if not re.search(r"\bresult\b", key):
                        met[(name.split("/")[0], key)].add((name, line, function))
    for (crate, key), where in met.items():
        if len(where) > 2:
            for name, line, function in sorted(where):
                yield name, line, f"fn {function}: {key}"


# two parameters, by name and type, that three functions of a crate or more have side by side
def together(files):
    met = collections.defaultdict(set)
    for name, line, function, rest, body in functions(files):
        head = re.match(r"(?:<[^(]*>)?\((.*?)\)(?: ->|\n)", rest, re.S)
        params = [re.sub(r"\s+|'a ", " ", p).strip() for p in re.split(r",(?![^<\[(]*[>\])])", head[1])] if head else []
        params = [p for p in params if ":" in p]
        for first, second in zip(params, params[1:]):
            met[(name.split("/")[0], first, second)].add((name, line, function))
    for (crate, first, second), where in met.items():
        if len(where) > 2:
            for name, line, function in sorted(where):
                yield name, line, f"fn {function}: {first}, {second}"


POINTS = {
    "1-enum": ("own enums with a variant for nothing or for a refusal", outcome_enums),
    "1-code": ("numbers for refusals, named", codes),
    "1-none": ("constants that say none", by_line(r"^(pub )?const NO_(?!FORM)\w+")),
    "1-zero": ("tests of a number that says none, or refused", by_line(r"\b(refusal|bad|q|taken|before|size|count|group|skip|n|giver) [!=]= 0\b|\b(9|15|255) < \w+")),
    "1-said": ("comments that say which value is none", said_none),
    "1-flag": ("fields that are a flag", by_line(r"^    (pub(\(crate\))? )?\w+: bool,")),
    "2-twin": ("functions of one shape", twins),
    "3-while": ("while loops", by_line(r"^ *('\w+: )?while ")),
    "3-range": ("for loops over numbers", by_line(r"\bfor \w+ in [\w(]*[^{]*\.\.")),
    "4-copy": ("elements copied one by one", by_line(r"\[[^\]]+\] = \w+\[[^\]]+\];")),
    "4-cast": ("casts between unsigned widths that cannot lose", by_line(r" as (u16|u32|u64|usize)\b")),
    "4-eq": ("equality, order, copies and conversions with a function of their own", by_line(r"fn (same|same_digits|is_known|least|at_most|wide|copied|one|one_more|at_least_one|of_parts|write|read_list|put_number|print)\b")),
    "5-fact": ("facts in the contracts of three functions or more of a crate", facts),
    "5-pair": ("parameters side by side in three functions or more of a crate", together),
    "6-buffer": ("arrays with a length of their own", by_line(r": &?(mut )?\[[^\];]+; [^\]]+\]")),
    "7-match": ("matches", by_line(r"\bmatch\b")),
    "8-answer": ("goals of functions answered by hand", by_line(r"^pub [a-z].* : goal\.")),
}


def main(arguments):
    listed = "--list" in arguments
    commit = arguments[arguments.index("--at") + 1] if "--at" in arguments else None
    wanted = [a for a in arguments if a in POINTS or any(p.startswith(a + "-") for p in POINTS)]
    files = list(sources(commit, r"crates/\w+/src/.*\.rt"))
    answers = list(sources(commit, r"crates/\w+/proofs/.*/Answers\.antt"))
    for point, (what, find) in POINTS.items():
        if wanted and not any(point == w or point.startswith(w + "-") for w in wanted):
            continue
        places = list(find(answers if point == "8-answer" else files))
        print(f"{point:9} {len(places):4}  {what}")
        if listed:
            for name, number, text in places:
                print(f"    {name}:{number}: {text}")


if __name__ == "__main__":
    main(sys.argv[1:])
