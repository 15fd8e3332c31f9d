#!/usr/bin/env python3
"""Counts, point by point, the places of crates/*/src that docs/DESIGN-PASS.md speaks of.

    tools/places.py            in the tree as it stands: how many places each pattern finds
    tools/places.py COMMIT     the same in the tree of a commit
    tools/places.py -l ..      each place with its line

A pattern is looked for line by line. What it finds is a place to look at; docs/DESIGN-PASS.md says which of them stay, and why.
"""
import re
import subprocess
import sys
from pathlib import Path

ROOT = Path(__file__).resolve().parent.parent

PATTERNS = [
    ("1a own enums with a variant for nothing, an error or a refusal",
     r"^\s+(Nothing|Never|Nobody|NoCall|Unknown|Ends|NotANumber|TooLarge|Refused(\(u32\))?|Wrong\(\w+\)|Error\(\w+\)),"),
    ("1b a flag, a number of a refusal or of a cause beside a value",
     r"^\s+pub (fits: bool|answer: u32|refusal: u32|cause: u32|charging: u32),|^\s+cause: u32,"),
    ("1c numbers for refusals and causes",
     r"Refused\(\d+\)|refused\(\d+\)|none\(\d\)|cause: 0|^\s+return [1-9]\d?;|^\s+return 4294967295;"),
    ("2 twins, by their names",
     r"fn (append|append_lines|larger|smaller|max|min|largest_line|smallest_line|latest|by_lines|judged|plan_sound|preview|preview_alone|board|board_alone|enquire|enquire_alone"
     r"|move_clock|move_alone|ask|make|apply|reply_kept|reply_changed|reply_request|print_one|print_two|print_three|print_four|settings_from|number_at|read_some|save|save_back|save_only"
     r"|is_between|offer|replan_latest|replan_lines|none_held|fill_lent|same_text|same_part|copy|copied|carry)\b"
     r"|struct (Previewing|Committing|Planning|Moving|Enquiring|Boarding|Withdrawing|Opening|Made|Applied|Reply|Remains)\b"),
    ("3a loops by while or loop", r"^\s*(while\b|loop\b)|= ('\w+: )?loop \{"),
    ("3b loops over the indices of a list", r"^\s*for \w+ in [\w+.() ]*\.\."),
    ("4 equality, order, copying, conversion and printing by hand",
     r"fn (larger|smaller|difference|same_text|same_part|copied|copy|put|wide|byte_of|put_number|handed_back|carry|none_held|fill_lent|call_named|is_between|of_\w+|print_\w+|tell_plan)\b"),
    ("5a facts that contracts repeat",
     r"requires.*(Formed \(profile_of|Spacious|Others \(|Columns (self|c)|Valid (self\.)?s|Formed self|length (image|contents|previous)\.(now|old) ≡|Alone one|CanPlan one|Room numbers)"),
    ("5b parameters that travel together",
     r"(counts: &|active_times: &'a|rest: Rest|buffer: &mut \[u8\],|numbers: &mut \[u32\],|left: &'\w \[usize)"),
    ("6 buffers with a length beside, parallel arrays, indices by constants",
     r"^\s+pub (held|count|steps): usize,|: \[(u32|usize|u8); [\w :*]+\],|\[&'a \[u32|^pub const (LINES|ACTIVE_TIMES|STARTS|RATES|TIMES|DUES): usize"),
    ("7 switches on which step to run", r"enum (Which|How|Way|Wants)\b|match (which|how|way|wants) "),
]


def files(commit):
    """Each source file, as its path and its lines."""
    if commit is None:
        for path in sorted(ROOT.glob("crates/*/src/**/*.rt")):
            yield str(path.relative_to(ROOT)), path.read_text().splitlines()
        return
    git = lambda *words: subprocess.run(["git", "-C", str(ROOT), *words], check=True, capture_output=True, text=True).stdout
    for name in git("ls-tree", "-r", "--name-only", commit, "crates").splitlines():
        if re.fullmatch(r"crates/\w+/src/.*\.rt", name):
            yield name, git("show", f"{commit}:{name}").splitlines()


def main():
    words = [word for word in sys.argv[1:] if word != "-l"]
    sources = list(files(words[0] if words else None))
    for title, pattern in PATTERNS:
        found = [(name, number, line) for name, lines in sources for number, line in enumerate(lines, 1) if re.search(pattern, line)]
        print(f"{len(found):4} {title}")
        if "-l" in sys.argv:
            for name, number, line in found:
                print(f"     {name}:{number}: {line.strip()[:140]}")


main()
