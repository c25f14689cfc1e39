#!/usr/bin/env python3
"""Plants small bugs in a crate, one at a time, and says how the check refuses each, or that the crate is still proved
with it.

    python3 tools/bugs.py CRATE [--most N] [--seed S] [--only WORD]    at the top of the repository
    python3 tools/bugs.py CRATE --edits                                the same of the crate's must-fail edits

It works on a copy and changes nothing here. A bug is one change to one line of code: another operator, number, method,
field or argument, a condition turned round, or a statement left out. Tests, laws.rt, clauses and comments are left
out, and lines that stand more than once in their file. Bugs are drawn at random, one from each function in turn. What
a refusal shows depends on where its first error stands:

    goal     in the code: something that is to hold there can no longer be shown
    tactic   in a proof file, where a tactic no longer shows what it showed, mostly with values at which that fails
    term     in a proof file, where a term written by hand no longer has its goal's type. That alone doesn't tell a
             false goal from a proof that no longer fits, so the tests of the crate, or a program, are run on the code
             with the bug, unproved: a test fails or other things are printed ("term, and it shows"), or not

What the compiler refuses before anything is proved is no bug: "not code".
"""
import argparse
import collections
import glob
import os
import random
import re
import shutil
import subprocess
import tempfile

# What stands in a line, as a pattern, and what is put in its place.
SWAPS = [
    (r" < ", " <= "), (r" <= ", " < "), (r" > ", " >= "), (r" >= ", " > "), (r" == ", " != "), (r" != ", " == "),
    (r" < ", " > "), (r" > ", " < "), (r" <= ", " >= "), (r" >= ", " <= "),
    (r" && ", " || "), (r" \|\| ", " && "), (r" \+ ", " - "), (r" - ", " + "), (r" \* ", " + "), (r" / ", " * "),
    (r" % ", " / "), (r" & ", " | "), (r" \| ", " & "), (r" << ", " >> "), (r" >> ", " << "),
    (r" \+= ", " -= "), (r" -= ", " += "), (r" \|= ", " = "),
    (r"\btrue\b", "false"), (r"\bfalse\b", "true"), (r"(?<!\.)\.\.(?![.=])", "..="), (r"\.\.=", ".."),
    (r"\.min\(", ".max("), (r"\.max\(", ".min("), (r"\.any\(", ".all("), (r"\.all\(", ".any("),
    (r"\.is_some\(", ".is_none("), (r"\.is_none\(", ".is_some("), (r"\.rev\(\)", ""), (r"\.position\(", ".rposition("),
    (r"saturating_add\(", "saturating_sub("), (r"saturating_sub\(", "saturating_add("),
    (r"(?<=if )!", ""), (r"(?<=[(|& ])!(?=\w)", ""), (r"\.find\(", ".rfind("),
    (r"\bfrom\b(?=[ ,)]|$)", "to"), (r"\.from\b", ".to"), (r"\.to\b", ".from"),
    (r"\.dishes\b", ".turn"), (r"\.turn\b", ".dishes"), (r"\.split_first\(", ".split_last("),
    (r"starts_with\(", "ends_with("), (r"\bSome\(\w+\)$", "None"), (r"\bstage \+ 1\b", "stage"),
    (r"\bstate\b(?=\)|,)", "best"), (r"\bchoice\b(?=,|\))", "0"), (r"\bturn\b(?=,|\))", "0"),
    (r"\bdishes\b(?=,|\))", "1"), (r"\.len\(\)", ".len().saturating_sub(1)"), (r"\bi\b(?=\]|\))", "0"),
]
HEAD = r"^\s*(?:pub(?:\(crate\))?\s+)?(?:const\s+)?fn\s+([a-z_0-9]+)"
NOT_CODE = (
    "//", "ghost", "use ", "requires", "ensures", "#", "pub ", "fn ", "mod ", "impl", "struct", "enum", "trait", "type",
    "where", "const ",
)
# Of a must-fail edit the function is its name, and old and new are the texts that it takes out and puts in.
Bug = collections.namedtuple("Bug", "path row function old new")


def bodies(lines):
    """Row, line and function of each line of code that stands once in its file."""
    name = ""
    for row, line in enumerate(lines):
        if "#[cfg(test)]" in line:
            return
        if head := re.match(HEAD, line):
            name = head[1]
        bare = line.strip()
        if name and bare and not bare.startswith(NOT_CODE) and "⌜" not in line and lines.count(line) == 1:
            yield row, line, name


def changed(line):
    """The line with one change each."""
    code = line.split("//")[0]
    for old, new in SWAPS:
        for found in re.finditer(old, code):
            yield line[: found.start()] + new + line[found.end():]
    for found in re.finditer(r"(?<![\w.\"'])(\d[\d_]*)(?![\w.\"'])", code):
        yield line[: found.start()] + str(int(found[1].replace("_", "")) + 1) + line[found.end():]
    if found := re.match(r"^(\s*(?:\} else )?if )([^{]*)( \{\s*)$", code):
        if "let " not in found[2]:
            yield f"{found[1]}!({found[2]}){found[3]}"
    if re.match(r"^\s*(?!\s|let\b|use\b|\})[^{}]*;\s*$", code) and not re.match(r"^\s*[)\]]", code):
        yield ""
    for found in re.finditer(r"\b\w+\((\w[\w.]*), (\w[\w.]*)\)", code):
        yield line[: found.start(1)] + found[2] + ", " + found[1] + line[found.end(2):]


def bugs_of(crate, only):
    for path in sorted(glob.glob(f"crates/{crate}/src/**/*.rt", recursive=True)):
        if os.path.basename(path) in ("tests.rt", "laws.rt"):
            continue
        with open(path, encoding="utf-8") as file:
            lines = file.read().split("\n")
        for row, line, function in bodies(lines):
            if only in path or only == function:
                for new in dict.fromkeys(changed(line)):
                    if new != line:
                        yield Bug(path, row + 1, function, line, new)


def drawn(bugs, most, seed):
    """So many of the bugs, at random, one from each function in turn."""
    bugs = list(bugs)
    random.Random(seed).shuffle(bugs)
    by_function = collections.defaultdict(list)
    for bug in bugs:
        by_function[bug.path, bug.function].append(bug)
    taken = []
    while len(taken) < most and any(by_function.values()):
        for key in sorted(by_function):
            if by_function[key] and len(taken) < most:
                taken.append(by_function[key].pop())
    return taken


def edits_of(crate):
    """The crate's must-fail edits that change one line."""
    for path in sorted(glob.glob(f"crates/{crate}/must-fail/*.edit")):
        said = collections.defaultdict(list)
        with open(path, encoding="utf-8") as file:
            for line in file.read().split("\n"):
                word, _, text = line.partition(":")
                said[word].append(text[1:])
        if len(said["old"]) == 1:
            name = os.path.basename(path)[: -len(".edit")]
            yield Bug(f"crates/{crate}/{said['file'][0]}", 0, name, said["old"][0], said["new"][0])
        else:
            print(f"{path} changes more than one line and is left out")


class Copy:
    """A copy of the repository, in which a crate is run unproved."""

    def __init__(self, folder, crate):
        self.top = os.path.join(folder, "repository")
        self.crate = os.path.join(self.top, "crates", crate)
        shutil.copytree(".", self.top, symlinks=True, ignore=shutil.ignore_patterns("must-fail", ".git"))
        self.sound = None

    def shown(self):
        """What a run of the crate shows: of a program what it prints, of a library whether its tests pass."""
        is_program = os.path.exists(os.path.join(self.crate, "src", "main.rt"))
        command = ["rt", "try", "--seconds", "600"] + ([] if is_program else ["--test"])
        data = os.path.join(self.crate, "data")
        for name in sorted(os.listdir(data)) if os.path.isdir(data) else []:
            command += ["--data", f"{name}=data/{name}"]
        run = subprocess.run(command, cwd=self.crate, capture_output=True, text=True)
        return run.returncode, run.stdout if is_program else ""

    def shows(self, bug):
        """Whether the bug shows in such a run."""
        if self.sound is None:
            self.sound = self.shown()
        path = os.path.join(self.top, bug.path)
        with open(path, encoding="utf-8") as file:
            text = file.read()
        try:
            with open(path, "w", encoding="utf-8") as file:
                file.write(text.replace(bug.old, bug.new))
            return self.shown() != self.sound
        finally:
            with open(path, "w", encoding="utf-8") as file:
                file.write(text)

    def plant(self, bugs):
        """Makes each bug a must-fail edit, and gives what is said of each."""
        edits = os.path.join(self.crate, "must-fail")
        os.makedirs(edits)
        for number, bug in enumerate(bugs):
            with open(f"{edits}/m{number:03}.edit", "w", encoding="utf-8") as file:
                file.write(f"file: {'/'.join(bug.path.split('/')[2:])}\nold: {bug.old}\nnew: {bug.new}\n")
        command = ["rt", "must-fail", os.path.basename(self.crate)]
        run = subprocess.run(command, cwd=self.top, capture_output=True, text=True)
        for line in (run.stdout + run.stderr).split("\n"):
            if found := re.search(r"must-fail \S+/m(\d+)(?:\.edit)?: (.*)", line):
                yield bugs[int(found[1])], found[2]


def kind_of(said):
    """Where the first error of a refusal stands, or what else came of the bug."""
    if said.startswith("NOT REFUSED"):
        return "still proved"
    if not said.startswith("refused"):
        return "not code"
    if "only because" in said or "only by a limit" in said:
        return "term"
    if "proofs/" not in said:
        return "goal"
    return "tactic" if re.search(r"`(omega|grind|search)`", said) else "term"


def arguments():
    ap = argparse.ArgumentParser()
    ap.add_argument("crate")
    ap.add_argument("--most", type=int, default=40)
    ap.add_argument("--seed", type=int, default=1)
    ap.add_argument("--only", default="")
    ap.add_argument("--edits", action="store_true")
    return ap.parse_args()


def main():
    args = arguments()
    every = list(edits_of(args.crate) if args.edits else bugs_of(args.crate, args.only))
    taken = every if args.edits else drawn(every, args.most, args.seed)
    print(f"{args.crate}: {len(every)} places, {len(taken)} tried", flush=True)
    count = collections.Counter()
    with tempfile.TemporaryDirectory(prefix="bugs-") as folder:
        copy = Copy(folder, args.crate)
        for bug, said in copy.plant(taken):
            kind = kind_of(said)
            if kind == "term":
                kind = "term, and it shows" if copy.shows(bug) else "term alone"
            count[kind] += 1
            print(f"{kind}: {bug.path}:{bug.row} in {bug.function}", f"- {bug.old.strip()}", f"+ {bug.new.strip()}",
                  said[:240], sep="\n    ", flush=True)
    print(", ".join(f"{number} {kind}" for kind, number in sorted(count.items())))


if __name__ == "__main__":
    main()
