#!/usr/bin/env python3
"""Counts, in the sources of crates/*/src, the places of the eight points of docs/DESIGN-PASS.md: tools/count_forms.py [FOLDER] [POINT]

FOLDER is a checkout, this one by default (for another commit: git worktree add /tmp/then COMMIT). With a POINT, 1 to 8, it prints its places.
What is counted is said in each function below, and in the page. It finds candidates: which of them stay, the page says one by one.
"""
import os, re, sys
from collections import defaultdict

root = next((a for a in sys.argv[1:] if not a.startswith("--") and not a.isdigit()), os.path.join(os.path.dirname(os.path.realpath(__file__)), ".."))
wanted = next((a for a in sys.argv[1:] if a.isdigit()), None)
texts = {}
for base, folders, files in os.walk(os.path.join(root, "crates")):
    folders[:] = sorted(f for f in folders if f != "out")
    for name in sorted(files):
        if name.endswith(".rt") and f"{os.sep}src{os.sep}" in os.path.join(base, name):
            path = os.path.join(base, name)
            texts[os.path.relpath(path, root)] = open(path).read()
code = {path: "\n".join(re.sub(r"\s*//.*", "", line) for line in text.split("\n")) for path, text in texts.items()}


def functions():
    """(path, line, name, parameters, result, contract, body) of each function."""
    for path, text in code.items():
        for hit in re.finditer(r"(?m)^( *)(?:pub )?(?:unsafe )?(?:extern \"C\" )?fn (\w+)(?:<[^>]*>)?\(", text):
            at, depth = hit.end(), 1
            while depth:
                depth += {"(": 1, ")": -1}.get(text[at], 0)
                at += 1
            parameters = text[hit.end() : at - 1]
            body = re.compile(rf"(?m)^{hit[1]}\{{$|\{{$").search(text, at)
            if not body:
                continue
            end = text.find(f"\n{hit[1]}}}", body.end())
            head = text[at : body.start()]
            result = re.match(r"\s*->\s*(.*)", head)
            yield path, text[: hit.start()].count("\n") + 1, hit[2], parameters, (result[1] if result else "").strip(), head, text[body.end() : end]


ALL = list(functions())


def one():
    """A field `refusal: u32` of a struct; a bool field beside others, in a struct; a function of a u32 that returns the number of a rule;
    an own enum of one variant with a value and one without."""
    for path, text in code.items():
        for hit in re.finditer(r"(?m)^(?:pub )?struct (\w+) \{\n((?:    .*\n)+)\}", text):
            fields = re.findall(r"(?m)^    (?:pub )?(\w+): (\w+),", hit[2])
            if ("refusal", "u32") in fields or (len(fields) > 1 and any(kind == "bool" for _, kind in fields)):
                yield path, text[: hit.start()].count("\n") + 1, f"struct {hit[1]}"
        for hit in re.finditer(r"(?m)^(?:pub )?enum (\w+) \{\n((?:    .*\n)+)\}", text):
            variants = re.findall(r"(?m)^    (\w+)(\(.*\))?,", hit[2])
            if len(variants) == 2 and [bool(v) for _, v in variants].count(True) == 1:
                yield path, text[: hit.start()].count("\n") + 1, f"enum {hit[1]}"
    for path, line, name, _, result, _, body in ALL:
        if result == "u32" and re.search(r"return (?:[1-9]|[12]\d|3[01]);|return (?:refusal|number|wrong|nobody|form|counts|later|size);", body):
            yield path, line, f"fn {name} -> u32"


def shape(name, parameters, result, body):
    text, seen = f"{parameters} -> {result} {body}", {}
    text = re.sub(r"\b\d[\d_]*(?:u8|u16|u32|u64|usize|i64)?\b|b'.'|b?\"[^\"]*\"", "0", text)
    text = re.sub(r"\b(?:u8|u16|u32|u64|usize|i64)\b", "T", text)
    words = {"let", "mut", "if", "else", "while", "for", "in", "return", "match", "true", "false", "as", "T"}
    return re.sub(r"\b[A-Za-z_]\w*\b", lambda m: m[0] if m[0] in words else seen.setdefault(m[0], f"v{len(seen)}"), re.sub(r"\s+", " ", text))


def two():
    """Functions of one file or two whose texts are one once names, numbers, texts and integer types are left out, of three lines or more."""
    alike = defaultdict(list)
    for path, line, name, parameters, result, _, body in ALL:
        if len([l for l in body.split("\n") if l.strip()]) >= 3 and "/pas_c/" not in path:
            alike[shape(name, parameters, result, body)].append((path, line, f"fn {name}"))
    for places in alike.values():
        if len(places) > 1:
            yield from places[1:]


def three():
    """A `while` whose body adds one to the variable of its test, or goes to the next of it."""
    for path, line, name, _, _, _, body in ALL:
        for hit in re.finditer(r"(?m)^( *)while (.*) \{$", body):
            end = body.find(f"\n{hit[1]}}}", hit.end())
            inner = body[hit.end() : end]
            for variable in set(re.findall(r"\b[a-z_]\w*\b", hit[2])):
                if re.search(rf"(?m)^ *{variable} \+= 1;|^ *{variable} -= 1;|^ *{variable} = (?:\w+::)?next_\w+\({variable}\);|^ *{variable} = {variable} [+-] 1;", inner):
                    yield path, line + code[path].split("\n")[line - 1 :].index(f"{hit[1]}while {hit[2]} {{") if f"{hit[1]}while {hit[2]} {{" in code[path].split("\n")[line - 1 :] else line, f"fn {name}: while {hit[2]}"
                    break


def four():
    """`a.0 == b.0` and the like, between two wrapped numbers; a function whose whole body is a cast, a comparison of two wrapped numbers or an `if` of two
    numbers; a store of a byte of another slice at the loop's index; a plain type that derives neither PartialEq nor Debug."""
    for path, text in code.items():
        for number, line in enumerate(text.split("\n"), 1):
            if re.search(r"\b\w+(?:\.\w+)?\.0 (?:==|!=|<|<=|>|>=) \w+(?:\.\w+)?\.0\b", line):
                yield path, number, line.strip()
            if re.match(r"#\[derive\(Clone, Copy\)\]$", line.strip()):
                yield path, number, "derives Clone, Copy alone"
            hit = re.match(r"\s*\w+\[(.+)\] = \w+\[(.+)\];", line)
            if hit and re.search(r"\bk\b|\bi\b|\bj\b", hit[1]) and re.search(r"\bk\b|\bi\b|\bj\b", hit[2]) and hit[1].split()[-1] == hit[2].split()[-1]:
                yield path, number, line.strip()
    for path, line, name, _, _, _, body in ALL:
        if re.fullmatch(r"\s*(?:\w+ as \w+|if \w+ \{ \d+ \} else \{ \d+ \}|\w+\.0 as \w+)\s*", body):
            yield path, line, f"fn {name}"


def five():
    """A fact of a `requires` that stands in three functions or more, once the names of their parameters are left out."""
    facts = defaultdict(list)
    for path, line, name, parameters, _, head, _ in ALL:
        names = re.findall(r"(\w+):", parameters)
        for clause in re.findall(r"requires(?: \w+)? \{ (.*) \}", head):
            for fact in re.split(r" × ", clause):
                fact = fact.strip().strip("()")
                plain = re.sub(r"\b[a-z_]\w*\b", lambda m: "_" if m[0] in names else m[0], fact)
                if " → " not in plain:
                    facts[plain].append((path, line, f"fn {name}: {fact}"))
    for plain, places in facts.items():
        if len({(p, l) for p, l, _ in places}) >= 3:
            yield from places


def six():
    """A parameter that is a slice or an array of numbers, with a parameter beside it that says how many of it there are (count, end, used)."""
    for path, line, name, parameters, _, _, _ in ALL:
        if re.search(r"&(?:mut )?\[\w+(?:; \w+)?\]", parameters) and re.search(r"\b(?:count|end|used|length|size): usize", parameters):
            yield path, line, f"fn {name}"


def seven():
    """A parameter or field that is a function pointer; a match or an if on a parameter called which, step, mode or kind that is a number."""
    for path, text in code.items():
        for number, line in enumerate(text.split("\n"), 1):
            if re.search(r": fn\(|\[fn\(", line) or re.search(r"match (?:which|step|mode|turn|case|choice)\b|(?:which|step|mode|case) == \d", line):
                yield path, number, line.strip()


def eight():
    """Lines of the files that only answer goals or state invariants."""
    for base, folders, files in os.walk(os.path.join(root, "crates")):
        folders[:] = [f for f in folders if f != "out"]
        for name in files:
            if name in ("Answers.antt", "Invariants.antt") and f"{os.sep}proofs{os.sep}" in os.path.join(base, name):
                path = os.path.join(base, name)
                for number, _ in enumerate(open(path), 1):
                    yield os.path.relpath(path, root), number, ""


for number, point in enumerate((one, two, three, four, five, six, seven, eight), 1):
    places = sorted(set(point()))
    engine = sum("/test_" not in path for path, _, _ in places)
    print(f"point {number}: {len(places)} places, {engine} in the engine and the page program, {len(places) - engine} in the tests")
    if wanted == str(number):
        for path, line, what in places:
            print(f"    {path}:{line}  {what}")
