#!/usr/bin/env python3
"""Asks the program of cases the lines of all tables, and compares each answer with what the models, or the tables, say.

    python3 end_to_end/check_cases.py [PROGRAM]

The program is `crates/nd_cases/out/nd_cases` where none is given, and `-` prints the lines and their answers and asks
nothing.
"""

import subprocess
import sys
from pathlib import Path

from case_model import Cases
from cases import areas, formats, lines, lists, platforms, rigs, runs, steps, stops, words

ROOT = Path(__file__).resolve().parent.parent
TABLES = (formats, lines, words, rigs, areas, platforms, lists, steps, runs, stops)
SHOWN = 40
"""So many differences are printed."""


def answers(program: str, lines: list) -> list:
    done = subprocess.run([program], input="\n".join(lines) + "\n", capture_output=True, text=True, timeout=600)
    if done.returncode:
        print(f"the program ended with {done.returncode}: {done.stderr:.500}")
    return done.stdout.splitlines()


def readable(answer: str) -> str:
    """An answer of a run with its bytes as text."""
    words = answer.split(" ")
    if words[0] == "nd" and len(words) > 2:
        words[2] = repr(bytes.fromhex(words[2].replace("-", "")).decode(errors="replace"))
    return " ".join(words)


def difference(name: str, line: str, wanted: str, said: str) -> str:
    if line.startswith("nd"):
        line = " ".join(bytes.fromhex(word.replace("-", "")).decode(errors="replace") for word in line.split(" ")[1:])
    return f"{name}: {line:.300}\n  wanted {readable(wanted):.1500}\n  said   {readable(said):.1500}"


def main() -> int:
    cases = Cases()
    for table in TABLES:
        table.ask(cases)
    lines = [line for _, line, _ in cases.rows]
    program = sys.argv[1] if len(sys.argv) > 1 else str(ROOT / "crates/nd_cases/out/nd_cases")
    if program == "-":
        print("\n".join(f"{line}\n  {wanted}" for _, line, wanted in cases.rows))
        said = [wanted for *_, wanted in cases.rows]
    else:
        said = answers(program, lines)
    said += ["nothing"] * (len(lines) - len(said))
    wrong = [(*row, answer) for row, answer in zip(cases.rows, said) if row[2] != answer]
    differences = [difference(*row) for row in wrong]
    differences += [difference(f"{name} (table and models)", line, told, found) for name, line, told,
                    found in cases.wrong]
    print("".join(f"{text}\n" for text in differences[:SHOWN]), end="")
    names = sum(line.startswith("case ") for line in lines)
    print(f"{names} cases, {len(lines)} answers, {len(differences)} wrong",
          file=sys.stderr if program == "-" else sys.stdout)
    return 1 if differences or not names else 0


if __name__ == "__main__":
    sys.exit(main())
