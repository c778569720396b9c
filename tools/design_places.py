#!/usr/bin/env python3
"""Lists the places in src/ that docs/DESIGN-PASS.md counts: python3 tools/design_places.py [-v]

Each pattern finds candidates of one point; a reader decides. With -v each place is printed, else the counts alone.
What stands behind a line that begins with `mod tests` or in tests.rt is a test, and is not counted.
"""
import re
import sys
from pathlib import Path

PATTERNS = [
    ("1 enum of our own", r"^(pub |pub\(crate\) )?enum \w+"),
    ("1 match that passes a None or an Err on, or makes a bool of it",
     r"(None => None|Err\(\w+\) => (return )?Err\(|Some\(_\) => false|None => (true|false)|Err\(_\) => |let Ok\(.*else|let Some\(.*else)"),
    ("1 flag: a bool beside values", r"(\w+: bool\b|let mut \w+ = (true|false);)"),
    ("1 length or 0 as 'there is none'", r"^\s+(\w+\.len\(\)|None => 0,)\s*$"),
    ("3 loop over a range of numbers", r"\bfor \w+ in [^{]*\.\."),
    ("3 counter or sum by hand", r"^\s+\w+ \+= "),
    ("3 loop that searches", r"^        (    )*return (true|false|Some\(.*\)|None|i|face\.part);"),
    ("4 conversion with `as`", r"\bas (u8|u16|u32|u64|usize|i32|i64|char)\b"),
    ("4 equality, order or printing by hand", r"impl .*(PartialEq|PartialOrd|Ord|Clone|Debug|Default) for"),
    ("5 clause that asks", r"^\s+requires\b"),
    ("5 place in a list beside it", r"(list: &mut \[Line\], (n|from)|area: &mut \[u8\], at|^\s+(n|from): usize,)"),
    ("6 array with a length beside, or index as a link", r"(: \[\w+; (MOST_\w+|6|8)\]|count: usize|marks: &(mut )?(Vec<|\[)Option<usize>)"),
    ("7 choice of a step by a value", r"\b(rule\(|Call::|Workload::\w+ =>)"),
]


def sources():
    for path in sorted(Path("crates").glob("*/src/**/*.rt")):
        if path.name != "tests.rt":
            text = path.read_text().split("\nmod tests")[0]
            yield path, text.splitlines()


def main():
    files = list(sources())
    for name, pattern in PATTERNS:
        found = [(path, i, line.strip()) for path, lines in files for i, line in enumerate(lines, 1)
                 if re.search(pattern, line) and not line.lstrip().startswith("//")]
        print(f"{len(found):4}  {name}")
        if "-v" in sys.argv:
            for path, i, line in found:
                print(f"        {path}:{i}: {line}")


main()
