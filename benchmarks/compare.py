#!/usr/bin/env python3
"""Runs the survey of crates/benchmark and the baseline over the same arrays in turn, and prints a table of both.

Needs rustc, and crates/benchmark built by `rt run` there.
"""
import subprocess
import sys
import tempfile
from pathlib import Path

HERE = Path(__file__).resolve().parent
SURVEY = HERE.parent / "crates" / "benchmark" / "out" / "benchmark"
ROUNDS = "5"
TURNS = 5


def survey(path):
    """Nanoseconds and blocks for each letter."""
    with path.open("rb") as file:
        done = subprocess.run([SURVEY], stdin=file, capture_output=True, text=True, check=True)
    nanos = dict(line.split() for line in done.stderr.splitlines())
    blocks = {line.split()[0]: line.split()[3] for line in done.stdout.splitlines()}
    return {letter: (int(nanos[letter]), blocks[letter]) for letter in "TRM"}


def baseline(program, path, letter):
    """Nanoseconds, blocks, cells and the share of time in joins."""
    words = subprocess.run([program, path, letter, ROUNDS], capture_output=True, text=True, check=True).stdout.split()
    told = dict(zip(words[::2], words[1::2]))
    return int(told["NANOS"]), told["BLOCKS"], int(told["CELLS"]), float(told["JOINS"])


def main():
    with tempfile.TemporaryDirectory() as name:
        folder = Path(name)
        program = folder / "baseline"
        subprocess.run(["rustc", "-C", "opt-level=3", "-o", program, HERE / "baseline.rs"], check=True)
        subprocess.run([sys.executable, HERE / "make_arrays.py", folder / "arrays"], check=True)
        print("| array | measure | survey, million cells a second | baseline | ratio | baseline's share in joins |")
        print("|---|---|---|---|---|---|")
        for path in sorted((folder / "arrays").iterdir()):
            ours, theirs = {}, {}
            for _ in range(TURNS):
                for letter, told in survey(path).items():
                    ours[letter] = min(ours.get(letter, told), told)
                for letter in "TRM":
                    told = baseline(program, path, letter)
                    theirs[letter] = min(theirs.get(letter, told), told)
            for letter in "TRM":
                nanos, blocks = ours[letter]
                base, base_blocks, cells, joins = theirs[letter]
                assert blocks == base_blocks, f"{path.stem}: {blocks} blocks, the baseline {base_blocks}"
                print(
                    f"| {path.stem} | {letter} | {cells * 1000 / nanos:.0f} | {cells * 1000 / base:.0f} "
                    f"| {base / nanos:.2f} | {joins:.0%} |",
                    flush=True,
                )


main()
