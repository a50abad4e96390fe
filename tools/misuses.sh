#!/usr/bin/env bash
# Shows that misuses of a run are refused before anything runs: the programs below are given to the compiler, which proves nothing here.
# A program in right order must run, and each misuse must be refused with the error that belongs to it, and nothing else.
set -eu
cd "$(dirname "$0")/.."
folder=$(mktemp -d)
trap 'rm -rf "$folder"' EXIT
for crate in shapes measures plans sources cubes runs; do
    grep "^$crate:" crates.txt >>"$folder/crates.txt"
    mkdir -p "$folder/crates/$crate"
    cp -r "crates/$crate/src" "crates/$crate/specs" "$folder/crates/$crate"
done
echo 'misuse: shapes measures sources runs' >>"$folder/crates.txt"
mkdir -p "$folder/crates/misuse/src"

# NAME BODY: a function over cells and a source.
scan() {
    cat <<FUNCTION

fn $1<M: Measure, S: Source<M>>(shape: Shape, cells: &mut [M], source: &mut S) -> Closed {
$2
}
FUNCTION
}

# FUNCTIONS: the program with them; what the compiler says of it.
try() {
    cat >"$folder/crates/misuse/src/main.rt" <<PROGRAM
#![tactic(auto)]

use measures::Measure;
use runs::{Closed, Run};
use shapes::Shape;
use sources::Source;
use std::io;
$1
fn main(_rt: HostRuntime) -> io::Result<()> {
    Ok(())
}
PROGRAM
    (cd "$folder/crates/misuse" && rt try 2>&1) || true
}

said=$(try "$(
    scan one_after_the_other '    let mut run = Run::make(shape, cells);
    let _ = run.take(source);
    let _ = run.close();
    let again = Run::make(shape, cells);
    again.close()'
)")
if ! grep -q '^run=ended status=0' <<<"$said"; then
    printf 'WRONG: one run after the other is refused\n%s\n' "$said"
    exit 1
fi
echo "accepted, as it must be: one run after the other"

# FUNCTIONS: misuses, which must be refused at each line that says so, with that error, and nowhere else.
refused() {
    said=$(try "$1")
    wanted=$(grep -n '// wanted: ' "$folder/crates/misuse/src/main.rt" | sed -E 's/^([0-9]+):.*wanted: (.*)$/\1 \2/')
    found=$(sed -nE 's/^src\/main\.rt:([0-9]+):[0-9]+: error\[([a-z0-9-]+)\].*$/\1 \2/p' <<<"$said")
    if [ "$wanted" != "$found" ]; then
        printf 'WRONG: wanted these refusals (line, error):\n%s\nand found:\n%s\n' "$wanted" "$said"
        exit 1
    fi
}

refused "$(
    scan take_on_a_closed_run '    let mut run = Run::make(shape, cells);
    let closed = run.close();
    let _ = run.take(source); // wanted: borrow-e0382
    closed'
    scan second_run_over_the_cells_of_a_live_run '    let mut run = Run::make(shape, cells);
    let again = Run::make(shape, cells); // wanted: borrow-e0499
    let _ = run.take(source);
    let _ = again.close();
    run.close()'
)"
echo "refused, as they must be: a take on a closed run, a second run over the cells of a live run"

refused "$(
    scan run_that_is_never_closed '    let mut run = Run::make(shape, cells); // wanted: linear-value-let-go
    let _ = run.take(source);
    Closed { taken: 0, skipped: 0, handed: 0 }'
)"
echo "refused, as it must be: a run that is never closed"
