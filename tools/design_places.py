#!/usr/bin/env python3
"""Lists the places of the sources that a design pass looks at, point by point, and counts them.

usage: tools/design_places.py [--commit COMMIT] [--point N] [--count]

Without a commit it reads the working tree. A place is an item (function, type or constant) of crates/*/src in which a
line matches one of the point's patterns, or, for points 2, 5 and 8, what the functions below find. The script only
finds candidates: whether one is a place that should change is judged by reading it.
"""
import argparse
import difflib
import itertools
import re
import subprocess
from collections import defaultdict

PATTERNS = {
    1: [  # numbers for kinds and refusals, a flag beside a value, own enums
        r"^\s*\d+ =>", r"\b(side|pocket|asset|kind)\b (==|!=) \d", r"pocket(_value)?\(.*, [01]\)",
        r"\(Given::\w+\(.*\), \d+\)", r"NOBODY", r"-> \(usize, u8, usize\)", r"\b(side|kind): u8", r"\banswers?: (u8|&(mut )?\[u8\])",
        r"-> u8$", r"\benum \w+",
    ],
    3: [r"\bwhile\b", r"[+-]= 1;", r"\.enumerate\(\)", r"\bloop\b"],
    4: [
        r"\bfn (eq|ne|cmp|partial_cmp|clone|from|try_from|fmt|number|text|told)\b", r"copy_from_slice", r"_be_bytes", r"b'0'", r"\bfn push_",
        r"None => (\*?\w+|\w+::\w+(\(\))?),",
    ],
    6: [r"\[(\w+|\d+\w*); (\d+|LONGEST|PLACES|BOXES)\]", r"\bPLACES\b", r"\bLONGEST\b", r"(long|short|prices|haircuts): \[", r"\.(long|short)\[|\.short\.|prices\[|haircuts\["],
    7: [r"\bfn\(", r"\bdyn\b", r"\bBox<", r"match \(?\w*(event|step|mode)\b"],
}
NAMES = {
    1: "own enums, flags beside values, numbers for kinds and refusals",
    2: "twins: pairs of functions whose bodies are nearly the same",
    3: "loops and counters by hand",
    4: "equality, order, copying, conversion and printing by hand",
    5: "facts in the contracts of three or more functions; parameters that travel together",
    6: "buffers with a length, parallel arrays, arenas",
    7: "switches on a step, tables of functions",
    8: "proof files: answers that only call a search, and answers that stand more than once",
}
ITEM = re.compile(r"^\s*(pub(\(crate\))? )?(const )?(unsafe )?(fn|struct|enum|trait|impl|const|type|mod)\b\s*(<[^>]*>)?\s*([\w<>:, ']*)")


def run(*words):
    return subprocess.run(words, capture_output=True, text=True, check=True).stdout


def files(commit, part, ending):
    if commit:
        names = run("git", "ls-tree", "-r", "--name-only", commit, "crates").split("\n")
    else:
        names = run("git", "ls-files", "crates").split("\n")
    for name in names:
        if f"/{part}/" in name and name.endswith(ending) and "/out/" not in name:
            try:
                yield name, (run("git", "show", f"{commit}:{name}") if commit else open(name).read()).splitlines()
            except FileNotFoundError:
                pass


def items(lines):
    """Each line with the name of the function or type that it stands in."""
    here = "-"
    for line in lines:
        found = ITEM.match(line)
        if found and not line.strip().startswith("//"):
            word = found.group(5)
            if word == "fn" or not line.startswith(" "):
                here = f"{word} {re.split(r'[(<{;=: ]', found.group(7).strip())[0] if word != 'impl' else found.group(7).strip()}"
        yield here, line


def by_patterns(commit, point):
    places = defaultdict(list)
    wanted = [re.compile(p) for p in PATTERNS[point]]
    for name, lines in files(commit, "src", ".rt"):
        for number, (item, line) in enumerate(items(lines), 1):
            text = line.split("//")[0] if not line.strip().startswith("//") else ""
            if text and not text.strip().startswith(("use ", "ghost use")) and any(p.search(text) for p in wanted):
                places[f"{name} {item}"].append(f"{number}: {line.strip()}")
    return places


def functions(commit):
    """Name, signature, clauses and body of each function, all one line each."""
    for name, lines in files(commit, "src", ".rt"):
        index = 0
        while index < len(lines):
            if re.match(r"^\s*(pub(\(crate\))? )?fn \w+", lines[index]):
                indent = len(lines[index]) - len(lines[index].lstrip())
                end, opened = index, False
                while end < len(lines) - 1:
                    line = lines[end].rstrip()
                    opened = opened or line.endswith("{") and not line.strip().startswith(("ensures", "requires"))
                    if opened and line == " " * indent + "}" or not opened and line.endswith((";", "{}")):
                        break
                    end += 1
                block = lines[index:end + 1]
                opening = next((i for i, l in enumerate(block) if l.rstrip().endswith("{") and not l.strip().startswith("ensures")), None)
                head = block[:opening + 1] if opening is not None else block
                body = block[opening + 1:] if opening is not None else []
                clauses = [l.strip() for l in head if l.strip().startswith(("requires", "ensures"))]
                signature = " ".join(l.strip() for l in head if not l.strip().startswith(("requires", "ensures")))
                yield name, re.search(r"fn (\w+)", signature).group(1), signature, clauses, body
                index = end
            index += 1


def twins(commit):
    found = []
    bodies = [(n, f, re.findall(r"\w+|[^\w\s]", " ".join(b))) for n, f, s, c, b in functions(commit)]
    for (n1, f1, a), (n2, f2, b) in itertools.combinations([x for x in bodies if len(x[2]) >= 20], 2):
        if min(len(a), len(b)) / max(len(a), len(b)) < 0.85:
            continue
        close = difflib.SequenceMatcher(None, a, b, autojunk=False)
        if close.quick_ratio() >= 0.85 and close.ratio() >= 0.85:
            found.append((f"{n1} {f1}", f"{n2} {f2}", close.ratio()))
    return {f"{a} ~ {b}": [f"{r:.2f}"] for a, b, r in found}


def together(commit):
    facts, groups = defaultdict(set), defaultdict(set)
    for name, function, signature, clauses, body in functions(commit):
        for clause in clauses:
            kind, text = re.match(r"(\w+)[^{]*\{ ?(.*?) ?\}?$", clause).groups()
            plain = re.sub(r"\b\d+\b", "N", re.sub(r"^\(?result(\.\w+)?", "result", text))
            if "≤" in plain or "<" in plain or "Whole" in plain or "ghost_name" in plain:
                facts[re.sub(r"\(result\.\w+ ≤ \w+\)", "(result.x ≤ most)", plain)].add(f"{name} {function}")
        parameters = re.findall(r"(\w+): (&?\w+)", signature)
        for start in range(len(parameters) - 2):
            groups[", ".join(f"{n}: {t}" for n, t in parameters[start:start + 3])].add(f"{name} {function}")
    places = {f"fact {k}": sorted(v) for k, v in facts.items() if len(v) >= 3}
    places.update({f"parameters {k}": sorted(v) for k, v in groups.items() if len(v) >= 3})
    return places


def proofs(commit):
    places, lines_of, total = {}, defaultdict(set), 0
    for name, lines in files(commit, "proofs", ".antt"):
        total += len(lines)
        answers = [l for l in lines if re.match(r"^[\w-]+ .*= ", l) and not l.startswith("use ")]
        if name.endswith("Answers.antt") and answers and all(re.search(r"= search \(?rules", l) for l in answers):
            places[f"{name} only a search"] = answers
        for line in lines:
            if len(line) > 60 and not line.startswith(("use ", "--", "pub ")):
                lines_of[line.strip()].add(name)
    places.update({f"line {k[:90]}": sorted(v) for k, v in lines_of.items() if len(v) >= 3})
    places["lines of proofs in all"] = [str(total)]
    return places


def main():
    parser = argparse.ArgumentParser(description=__doc__, formatter_class=argparse.RawDescriptionHelpFormatter)
    parser.add_argument("--commit")
    parser.add_argument("--point", type=int)
    parser.add_argument("--count", action="store_true")
    asked = parser.parse_args()
    for point in [asked.point] if asked.point else range(1, 9):
        find = {2: twins, 5: together, 8: proofs}.get(point) or (lambda commit: by_patterns(commit, point))
        places = find(asked.commit)
        lines = sum(len(v) for v in places.values())
        print(f"{point}. {NAMES[point]}: {len(places)} items, {lines} lines")
        if not asked.count:
            for place in sorted(places):
                print(f"   {place}")
                for line in places[place]:
                    print(f"        {line}")


main()
