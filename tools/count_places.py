#!/usr/bin/env python3
"""Counts the places in crates/*/src that the design pass looks at, point by point.

    python3 tools/count_places.py [COMMIT] [-v]

Without a commit it reads the files as they stand, else those of that commit. Each point has searches: a name, and a pattern that is sought line by
line (comments left out). It prints how many lines each finds, and with -v the lines. A line found is a place to look at, and not yet one to change.
Point 2 is counted by the shape of functions: two functions whose text is the same but for names, types, strings and numbers are twins.
"""

import collections
import glob
import re
import subprocess
import sys

SEARCHES = [
    ("1", "numbers for kinds", r"^\s*(pub(\(crate\))? )?const [A-Z_]+: u(8|16) ="),
    ("1", "success told by a bool", r"fn \w+\(&mut self.*-> bool|^\s*-> bool$"),
    ("1", "a case that stands for none", r"^\s+(Keep|Nothing|None|Empty|Unknown),$"),
    ("1", "kinds compared by number", r"\b(kind|test)\b (==|!=) [0-9A-Z]|match .*\b(kind|number|test)\b \{"),
    ("3", "a loop that is no for", r"^\s*(while|loop)\b"),
    ("3", "a for over a range of numbers", r"^\s*('\w+: )?for \w+ in .*\.\."),
    ("3", "a counter moved by hand", r"^\s*\w+ (\+= 1;|= \w+\.saturating_add\(1\);)"),
    ("3", "a flag set in a loop", r"^\s+\w+ = (true|false);$"),
    ("4", "an Ok or Some taken apart to be made again", r"Ok\(\w*\) => (Some|Ok)\(|Err\(\w*\) => (None|Err\(|Ok\(|0,|false)|Some\(\w+\) => \*?\w+,$|None => (None|Ok|0|false|true)"),
    ("4", "an if that makes a bool, a number or an Option", r"\{ (1|0|true|false) \} else \{ (1|0|true|false) \}|if \w+ \{ Some\("),
    ("4", "equality or order by hand", r"fn (is_blank|is_same|same_|precedes|is_sooner|soonest|is_lower|is_mark|one_if)\w*|\w+\.(lower|higher) == \w+.*&&"),
    ("4", "a conversion by hand", r"fn (as_|to_|told|from_)\w*|& 0xff(ff)?\) as"),
    ("5", "a requires of several facts", r"requires .*×"),
    ("5", "four parameters that go together", r"count: usize,$|groups: &\[GroupRecord\],$|^\s*marks: &\[u8\],$|marks: &\[u8\], pieces: &\[PieceRecord\]"),
    ("6", "a number beside a buffer", r"^\s*(pub )?(count|len|head): (usize|u16),$|: \[\w+; \w+\],$"),
    ("6", "a search by hand", r"fn (find|position|first_not_before|holds|cost_between|soonest|contains)\w*"),
    ("7", "a switch on a step", r"match (self\.)?(dice\.roll\(.*\)|family|what|call|edit|example|\(sheet, call\)) \{"),
    ("7", "a function kept or handed as a value", r": (&?(mut )?dyn |fn\()|Box<dyn"),
]

WORDS = {"fn", "let", "mut", "for", "in", "if", "else", "match", "return", "while", "pub", "crate", "self", "Self", "Ok", "Err", "Some", "None", "break", "true", "false"}


def files(commit):
    if commit:
        names = subprocess.run(["git", "ls-tree", "-r", "--name-only", commit, "crates"], capture_output=True, text=True, check=True).stdout.split()
        for name in names:
            if re.match(r"crates/\w+/src/.*\.rt$", name):
                yield name, subprocess.run(["git", "show", f"{commit}:{name}"], capture_output=True, text=True, check=True).stdout
    else:
        for name in sorted(glob.glob("crates/*/src/**/*.rt", recursive=True)):
            with open(name, encoding="utf-8") as f:
                yield name, f.read()


def code(text):
    return [re.sub(r"^\s*//.*", "", line) for line in text.split("\n")]


def functions(text):
    """Each function's name, first line and body; tests and clauses left out."""
    lines = code(text)
    for i, line in enumerate(lines):
        m = re.match(r"(\s*)(pub(\(\w+\))? )?(const )?fn (\w+)", line)
        if not m or "HostRuntime) -> Result<(), Fail>" in line:
            continue
        depth, body = m.group(1), []
        for later in lines[i + 1 :]:
            if later.rstrip() == depth + "}":
                break
            if not re.match(r"\s*(ensures|requires|ghost)\b", later):
                body.append(later)
        yield m.group(5), i + 1, "\n".join(body)


def shape(body):
    tokens = re.findall(r"\"[^\"]*\"|\w+|[^\s\w]", re.sub(r"\{\s*\}", "", body))
    return " ".join(t if t in WORDS or not re.match(r"[\w\"]", t) else "_" for t in tokens)


def main():
    args = [a for a in sys.argv[1:] if a != "-v"]
    tell = "-v" in sys.argv
    texts = list(files(args[0] if args else None))
    for point, name, pattern in SEARCHES:
        found = [(f, i + 1, line.strip()) for f, text in texts for i, line in enumerate(code(text)) if re.search(pattern, line)]
        print(f"point {point}, {name}: {len(found)}")
        if tell:
            for f, i, line in found:
                print(f"    {f}:{i}: {line}")
    groups = collections.defaultdict(list)
    for f, text in texts:
        for name, line, body in functions(text):
            s = shape(body)
            if s.count(" ") >= 24:
                groups[s].append(f"{f}:{line} {name}")
    twins = [g for g in groups.values() if len(g) > 1]
    print(f"point 2, functions of one shape: {sum(len(g) for g in twins)} in {len(twins)} groups")
    if tell:
        for g in twins:
            print("    " + "; ".join(g))


main()
