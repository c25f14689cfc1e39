#!/usr/bin/env python3
"""Counts the places in crates/*/src/ that docs/DESIGN-PASS.md speaks of, and prints each.

    python3 tools/forms.py [FOLDER]    the repository in FOLDER, or here
"""
import collections
import glob
import re
import sys

# What a line looks like that may be a place of a point.
LINES = {
    "1a own enums": r"^\s*(pub )?enum ",
    "1b arms that take an Option or a Result apart": r"^\s*(None|Some\(.*\)|Ok\(.*\)|Err\(.*\)) =>",
    "1c numbers for kinds": r"(choice|named|plan\[i\]) [!=]= 0|as usize - 1|fn number|Refused\(u64\)",
    "3a loops over an index": r"\bfor \w+ in \(?\w+\.\.|\bwhile ",
    "3b loops that look something up, or count": r"\.enumerate\(\)|\bcount \+= 1|\bcount > ",
    "4a printing": r"\bprint(ln)?!\(",
    "4b conversions": r"\bas (u8|u32)\b|^fn (read_station|sound_pass)\b|^\s+pub fn (number|place)\(",
    "4c orders": r"[<>] \w+\.\w+ (\|\||&&)|count > peak",
    "6a buffers longer than what they hold": r"\[\w+; [A-Z_]{3,}\]",
    "6b parts of such buffers": r"&(mut )?\w+(\.\w+)?\[(0)?\.\.",
    "6c lists searched by hand": r"\bmiddle\b.*=",
    "7 functions in tables, steps in switches": r"\[fn\(|fn\([^)]*\) ->.*;|match (step|kind|mode)\b",
}


def functions(text):
    """Each function's name, its parameters, its clauses and all its text."""
    head = r"^( *)(?:pub(?:\(crate\))? )?fn (\w+)[^(]*\((.*?)\)(.*?)(?=^\1\{|;$|\{\}?$)"
    for found in re.finditer(head, text, re.M | re.S):
        clauses = re.findall(r"(?:requires|ensures)\*? *\w* *\{ (.*) \}", found[4])
        body = re.match(r"\s*\{.*?^" + found[1] + r"\}", text[found.end():], re.M | re.S)
        whole = found[0] + (body[0] if body else "")
        yield found[2], re.findall(r"(\w+):(?!:)", found[3]), clauses, whole


def outline(whole):
    """A function without its names, numbers and indents: twins have the same."""
    return re.sub(r"\s+", " ", re.sub(r"'?\b(?!fn|for|if|let|mut|return|match|in)\w+\b", "x", whole))


def main():
    folder = sys.argv[1] if len(sys.argv) > 1 else "."
    paths = sorted(glob.glob(folder + "/crates/*/src/*.rt"))
    facts, groups, twins = (collections.defaultdict(set) for _ in range(3))
    texts = {path[len(folder) + 1:]: open(path).read() for path in paths}
    for point, shape in LINES.items():
        places = [(path, i, line.strip()) for path, text in texts.items()
                  for i, line in enumerate(text.split("\n"), 1)
                  if re.search(shape, line) and not line.strip().startswith("//")]
        print(f"{point}: {len(places)}")
        for path, i, line in places:
            print(f"    {path}:{i}: {line}")
    for path, text in texts.items():
        tests = text.find("#[cfg(test)]")
        for name, parameters, clauses, whole in functions(text):
            place = f"{path}:{name}"
            twins[outline(whole)].add(place)
            if 0 <= tests < text.find(whole):
                continue
            for clause in set(clauses):
                facts[re.sub(r"\.(now|old)\b", "", clause)].add(place)
            for first in range(len(parameters)):
                for last in range(first + 2, len(parameters) + 1):
                    groups[" ".join(parameters[first:last])].add(place)
    for point, found, least in [("2 functions of one shape", twins, 2), ("5a facts in three contracts or more", facts, 3),
                                ("5b parameters that travel together in three functions or more", groups, 3)]:
        many = {what: where for what, where in found.items() if len(where) >= least}
        # of groups of parameters in the same functions, the longest
        many = {what: where for what, where in many.items()
                if not any(what != other and what in other and where == many[other] for other in many)}
        print(f"{point}: {len(many)}")
        for what, where in sorted(many.items()):
            print(f"    {what}: {', '.join(sorted(where))}")
    for point, shape in [("8a answers", r"^pub [a-z]\S* : goal\."), ("8b lemmas", r"^pub \S+ :")]:
        names = glob.glob(folder + "/crates/*/proofs/**/*.antt", recursive=True)
        answers = [n for n in names if ("Answers" in n or "Invariants" in n) == (point[1] == "a")]
        print(f"{point}: {sum(len(re.findall(shape, open(n).read(), re.M)) for n in answers)}")


main()
