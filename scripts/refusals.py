#!/usr/bin/env python3
"""Makes the program's texts of refusals, crates/ddf_refusals/src/causes.rt, from docs/refusals.tsv.

With --check nothing is made: the file has to be up to date.
"""
import csv
import sys
from pathlib import Path

TOP = Path(__file__).resolve().parent.parent
SOURCE, MADE = TOP / "docs/refusals.tsv", TOP / "crates/ddf_refusals/src/causes.rt"
# a contradiction has no number: crates/ddf_refusals/src/answers.rt has these for it
CONTRADICTIONS = {("conflict", "any"): "900", ("split", "any"): "901", ("conflict", "copies"): "902", ("conflict", "twin"): "903"}
# the causes of this one don't go by the command: one line stands for all
TOGETHER = "39"

HEAD = """\
//! Why commands are refused, and the way out: made by scripts/refusals.py of docs/refusals.tsv.

/// A cause of a refusal: its number, the command that meets it or `any`, why it comes and the way out.
struct Cause {
    number: u16,
    command: &'static str,
    why: &'static str,
    way: &'static str,
}

/// Why a command is refused with this number, and the way out.
pub fn cause_of(number: u16, command: &str) -> Option<(&'static str, &'static str)> {
    let mut found = None;
    for cause in &CAUSES {
        if cause.number == number && (cause.command == command || cause.command == "any") {
            found = Some((cause.why, cause.way));
            if cause.command == command {
                return found;
            }
        }
    }
    found
}
"""


def quoted(text: str) -> str:
    return '"' + text.replace("\\", "\\\\").replace('"', '\\"') + '"'


def row(number: str, command: str, why: str, way: str) -> str:
    return f"    Cause {{\n        number: {number},\n        command: {quoted(command)},\n        why: {quoted(why)},\n        way: {quoted(way)},\n    }},\n"


def made() -> str:
    with SOURCE.open(encoding="utf-8", newline="") as file:
        causes = list(csv.reader(file, delimiter="\t", quoting=csv.QUOTE_NONE))[1:]
    rows = []
    for number, case, _, why, way in causes:
        if (number, case) in CONTRADICTIONS:
            rows.append(row(CONTRADICTIONS[number, case], "any", why, way))
        elif number != TOGETHER or case == "any":
            rows.append(row(number, case, why, way))
    return f"{HEAD}\nconst CAUSES: [Cause; {len(rows)}] = [\n{''.join(rows)}];\n"


def main() -> None:
    text = made()
    if sys.argv[1:] == ["--check"]:
        if MADE.read_text(encoding="utf-8") != text:
            sys.exit(f"refusals: {MADE.relative_to(TOP)} isn't up to date: run scripts/refusals.py")
        print("refusals: the program has the texts of docs/refusals.tsv")
    elif sys.argv[1:]:
        sys.exit("refusals: arguments: none, or --check")
    else:
        MADE.write_text(text, encoding="utf-8")


main()
