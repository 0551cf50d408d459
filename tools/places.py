#!/usr/bin/env python3
"""Lists, by point of docs/DESIGN-PASS.md, the places in crates/*/src that an older form may stand in.

places.py [FOLDER] [--list]: the counts of a checkout (this one, if none is named), with --list each place too.
A hit is a place to be read, not yet a place to be changed.
"""
import collections
import glob
import itertools
import os
import re
import sys

PATTERNS = {
    "1": [
        ("a variant that holds a refusal", r"^\s+\w*Refused\(.*Fault\),"),
        ("an error wrapped again by a match", r"Err\(\w+\) => .*(Err\(|Answer::Refused)"),
        ("a number for a kind", r"fn (number|bits|from_number|refusal)\(|\b(mode|bytes): u8"),
        ("a value that stands for none", r"unwrap_or\((0|1|NO_LEVEL)\b|\(15, 0\)|=> Some\(0\),|\(false, false\)|(Ok\(.*\)|words\[place\] \} else \{ 0) ?(=> 0,|\})$"),
        ("an answer let fall", r"let _ = (?!.*next)"),
        ("a flag", r"let mut bad\b|\b(closed|spent|rose|grant): bool"),
    ],
    "3": [
        ("a counted loop", r"^\s*for \w+ in \(?[0-9a-z_]+\.\.|^\s*while "),
        ("an index beside each item", r"\.enumerate\(\)"),
    ],
    "4": [
        ("a truth by a match", r"=> (true|false),$"),
        ("a conversion by hand", r"fn (bit|from_\w+|of|call_of|decode|byte|to_word|beneath|at_port|low_byte|high_byte|number|bits|refusal)\("),
        ("a default by hand", r"fn (none|nothing|cleared)\(\)|fn new\(\) -> (Counts|Rig)\b"),
        ("printing by hand", r"fn (text|put_\w+|hex|decimal)\("),
        ("a value taken apart to be compared", r"fn (numbers|done|said|of_channel|of_counter|of_ports|number)\("),
        ("a copy by hand", r"fn registers\("),
    ],
    "6": [
        ("a table or a slice searched by hand", r"const EVERY|fn (has_text|from_text|count_front|next_word|cut_comment|find_writer|last_word|first_answer|first_words)\("),
        ("a buffer with its own digits or length", r"const DIGITS|let mut all = |lines: u32,"),
    ],
    "7": [
        ("a choice of a step by an enum", r"\benum (Class|Event|Direction|Motion)\b"),
        ("a step that differs in one call", r"fn (ask_to_write|ask_to_read|put_waiting|put_taken)[(<]"),
    ],
}


def sources(folder):
    return sorted(glob.glob(os.path.join(folder, "crates/*/src/**/*.rt"), recursive=True))


def by_pattern(files, pattern):
    for path in files:
        with open(path) as source:
            for number, line in enumerate(source, 1):
                if not line.strip().startswith("//") and re.search(pattern, line):
                    yield f"{path}:{number}: {line.strip()}"


def facts(files):
    """Bounds and invariants that stand in the contracts of three functions or more (point 5)."""
    where = collections.defaultdict(set)
    for path in files:
        function = ""
        for line in open(path):
            name = re.search(r"\bfn (\w+)", line)
            function = name.group(1) if name else function
            clause = re.match(r"\s+(requires|ensures)[^{]*\{(.*)\}\s*$", line)
            if clause:
                for fact in re.findall(r"\([^()×]*[<≤][^()×]*\)|Below [^}]*?(?= →|$|\})|[\w.]+ [<≤] [\w.]+", clause.group(2)):
                    fact = re.sub(r"self\.(old|now|new)|result\.\d|\bt\.", "", fact.strip("() "))
                    where[fact].add(path.split("/crates/")[-1].split("/")[0] + "::" + function)
    return [f"{fact}: {', '.join(sorted(names))}" for fact, names in where.items() if len(names) >= 3]


def companions(files):
    """Parameters that stand together in four functions or more; of groups in the same functions the largest (point 5)."""
    where = collections.defaultdict(set)
    for path in files:
        for name, rest in re.findall(r"fn (\w+)(?:<[^()]*>)?\(([^)]*)\)", open(path).read()):
            names = [p.split(":")[0].strip().removeprefix("mut ") for p in rest.split(",") if ":" in p]
            names = sorted(n for n in names if re.fullmatch(r"[a-z]\w*", n))
            for size in (2, 3, 4, 5):
                for group in itertools.combinations(names, size):
                    where[group].add(path.split("/crates/")[-1] + "::" + name)
    kept = {g: w for g, w in where.items() if len(w) >= 4}
    return [
        f"({', '.join(group)}): {', '.join(sorted(w.rsplit('::')[-1] for w in names))}"
        for group, names in kept.items()
        if not any(set(group) < set(other) and names <= more for other, more in kept.items())
    ]


KEYWORDS = {"if", "else", "match", "for", "in", "while", "let", "return", "mut", "self", "break", "Ok", "Err", "Some", "None", "loop"}


def bodies(path):
    """Each function of a file with its body."""
    text = open(path).read()
    for found in re.finditer(r"\bfn (\w+)", text):
        start = text.find("\n", found.end())
        opening = re.compile(r"^\s*\{\s*$|\) (?:-> .*)?\{\s*$", re.M).search(text, found.end() - 1)
        if not opening:
            continue
        depth, at = 1, opening.end()
        while depth and at < len(text):
            depth += {"{": 1, "}": -1}.get(text[at], 0)
            at += 1
        yield found.group(1), text[opening.end():at - 1]


def shape(body):
    tokens = re.findall(r"[A-Za-z_]\w*|\d\w*|[^\s\w]", re.sub(r"//.*", "", body))
    return tuple(t if t in KEYWORDS or not re.match(r"\w", t) else "x" for t in tokens)


def twins(files):
    """Functions of one crate whose bodies differ in names and numbers only (point 2); the smallest bodies are left out."""
    where = collections.defaultdict(list)
    for path in files:
        crate = path.split("/crates/")[-1].split("/")[0]
        for name, body in bodies(path):
            form = shape(body)
            if len(form) >= 12:
                where[crate, form].append(path.split("/crates/")[-1].split("/src/")[-1] + "::" + name)
    return [f"{crate}: {', '.join(names)}" for (crate, _), names in where.items() if len(names) > 1]


def main():
    arguments = [a for a in sys.argv[1:] if a != "--list"]
    folder = arguments[0] if arguments else os.path.join(os.path.dirname(__file__), "..")
    files = sources(folder)
    rows = [(point, what, list(by_pattern(files, pattern))) for point, kinds in PATTERNS.items() for what, pattern in kinds]
    rows.append(("2", "functions of one shape", twins(files)))
    rows.append(("5", "a fact in three contracts", facts(files)))
    rows.append(("5", "parameters together in four functions", companions(files)))
    answers = glob.glob(os.path.join(folder, "crates/*/proofs/**/*.antt"), recursive=True)
    rows.append(("8", "files of answers", [a for a in answers if a.endswith(("Answers.antt", "Proof.antt"))]))
    rows.append(("8", "files of invariants", [a for a in answers if a.endswith("Invariants.antt")]))
    kept = [f"{path}:{n}: {line.strip()}" for path in files for n, line in enumerate(open(path), 1) if "// kept:" in line]
    rows.append(("-", "lines that say why a place is kept", kept))
    for point, what, places in sorted(rows, key=lambda row: row[0]):
        print(f"{point}  {len(places):4}  {what}")
        if "--list" in sys.argv:
            for place in places:
                print("        " + place.replace(folder + "/", ""))


main()
