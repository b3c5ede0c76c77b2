#!/bin/sh
# Counts the instructions of a look, for each cell, and the bytes that a table takes: random cells over random banks.
# usage: bench/look.sh
# A program of its own is made, proved and built (prove_program in player.sh). Instructions are the difference of a run
# of 41 looks and one of 1, by 40 and by the cells, of which equal ones are one; nothing changes between looks, so each reads every
# cell once. Bytes are all
# that a run without an image takes from the system, for a table made for looks and for one that is told of writes; and all that
# the test of a course for looks over 128 MiB takes, where the gate or `rt test` left the tests of ra_runtime_tests built.
set -eu
. "$(dirname "$0")/player.sh"
need valgrind python3
here=$(cd "$(dirname "$0")/.." && pwd)
folder=$(mktemp -d)
trap 'rm -rf "$folder"' EXIT
mkdir -p "$folder/crates/look/src"
cat >"$folder/crates/look/src/main.rt" <<'PROGRAM'
//! What a look costs: a table of random cells looks at random banks.
//!
//! The words are how many cells, banks, bytes and looks there are, a seed, and 1 for a table that is told of writes.
#![tactic(auto)]

ghost use Rattle.std.specs.Prelude.{◌≡◌, ◌≤◌, ◌<◌, ◌^◌, length, IsTrue, IfSome, Some};
ghost use Rattle.ra_indirect.specs.Pools.{IsValued, node_at};
ghost use Rattle.ra_banks.specs.Banks.{bytes_of};

use ra_banks::{Bank, Banks, Row, size_of};
use ra_indirect::{Node, Pool};
use ra_memory::Steps;
use ra_memref::Table;
use std::alloc::Global;
use std::env;
use std::marker::Brand;
use std::process::ExitCode;
use std::sync::ledger::{Blank, Ledger};

// Numbers that look random, from a seed.
#[derive(Drop)]
struct Dice {
    seed: u64,
}

impl Dice {
    // A number below this one, or 0.
    fn below(&mut self, most: u32) -> u32 {
        self.seed = self
            .seed
            .wrapping_mul(6364136223846793005)
            .wrapping_add(1442695040888963407);
        ((self.seed >> 33) as u32).checked_rem(most).unwrap_or(0)
    }
}

fn main(rt: HostRuntime) -> ExitCode {
    let Ok(args) = env::args(&rt) else {
        return ExitCode::from(1);
    };
    let Ok(words) = args.skip(1).collect::<Vec<String>>(rt.alloc()) else {
        return ExitCode::from(1);
    };
    match measured(rt.alloc(), words.as_slice()) {
        Some(()) => ExitCode::from(0),
        None => ExitCode::from(1),
    }
}

fn number(words: &[String], place: usize) -> Option<u32> {
    words.get(place)?.as_str().parse::<u32>().ok()
}

// What the words say.
#[derive(Clone, Copy)]
struct Run {
    cells: u32,
    banks: u32,
    size: u32,
    looks: u32,
    seed: u32,
    told: bool,
}

fn run_of(words: &[String]) -> Option<Run> {
    Some(Run {
        cells: number(words, 0)?,
        banks: number(words, 1)?,
        size: number(words, 2)?,
        looks: number(words, 3)?,
        seed: number(words, 4)?,
        told: number(words, 5)? == 1,
    })
}

fn measured(alloc: Global, words: &[String]) -> Option<()> {
    let run = run_of(words)?;
    let mut dice = Dice {
        seed: u64::from(run.seed),
    };
    let mut table = table_of(alloc, run, &mut dice)?;
    look_over(alloc, &mut table, run, &mut dice)
}

// A table over cells at random addresses.
fn table_of(alloc: Global, run: Run, dice: &mut Dice) -> Option<Table>
    ensures { IfSome result (λ table. table.size ≡ run.size) }
{
    let pool = pool_of(alloc, run.cells, run.size, dice)?;
    table_over(alloc, pool, run.size, run.told)
}

// Looks at random bytes in random banks.
fn look_over(alloc: Global, table: &mut Table, run: Run, dice: &mut Dice) -> Option<()>
    requires { table.old.size ≡ run.size }
{
    if run.looks == 0 {
        return Some(());
    }
    let bytes = memory_of(alloc, run.size, dice)?;
    let parts = cut(alloc, bytes.as_slice(), run.banks, dice)?;
    if size_of(parts.as_slice()) == Some(run.size) {
        look_often::<Brand>(table, parts.as_slice(), run.looks, Blank::new(1));
    }
    Some(())
}

// A pool of cells at random addresses.
fn pool_of(alloc: Global, cells: u32, size: u32, dice: &mut Dice) -> Option<Pool> {
    let mut pool = Pool::new(alloc);
    pool.intern(Node::Const(0)).ok()?;
    for _ in 0..cells {
        let offset = dice.below(size);
        put_cell(&mut pool, offset, dice.below(3))?;
    }
    Some(pool)
}

// Puts a cell at an offset; its width by a number.
fn put_cell(pool: &mut Pool, offset: u32, kind: u32) -> Option<()> {
    if pool.len() >= 1000000 || !is_valued(pool, 0) {
        return None;
    }
    let width = match kind {
        0 => 1,
        1 => 2,
        _ => 4,
    };
    pool.intern(Node::Cell {
        pointer: 0,
        offset,
        width,
    })
    .ok()?;
    Some(())
}

fn is_valued(pool: &Pool, number: u32) -> bool
    ensures within { IsTrue result → number < length pool.now }
    ensures valued { IsTrue result → IsValued (node_at pool.now number) }
{
    if number >= pool.len() {
        return false;
    }
    match pool.node(number) {
        Node::Cell { .. } => false,
        Node::Const(_) | Node::View { .. } | Node::Arith { .. } => true,
    }
}

fn table_over(alloc: Global, pool: Pool, size: u32, told: bool) -> Option<Table>
    ensures { IfSome result (λ table. table.size ≡ size) }
{
    if size > 134217728 || pool.len() > 1000000 {
        return None;
    }
    if told {
        Table::new(alloc, pool, size).ok()
    } else {
        Table::for_looks(alloc, pool, size).ok()
    }
}

// A memory of random bytes.
fn memory_of(alloc: Global, size: u32, dice: &mut Dice) -> Option<Vec<u8>> {
    let mut bytes = vec![in alloc; 0; size as usize].ok()?;
    for _ in 0..1000 {
        let at = dice.below(size) as usize;
        if let Some(byte) = bytes.get_mut(at) {
            *byte = u8::try_from(dice.below(256)).unwrap_or(0);
        }
    }
    Some(bytes)
}

// The bytes, cut into this many banks at random places.
fn cut<'a>(alloc: Global, bytes: &'a [u8], banks: u32, dice: &mut Dice) -> Option<Vec<Bank<'a>>> {
    let mut borders = Vec::new(alloc);
    let size = u32::try_from(bytes.len()).ok()?;
    for _ in 1..banks {
        borders.push(dice.below(size)).ok()?;
    }
    borders.push(size).ok()?;
    borders.sort().ok()?;
    let mut parts = Vec::new(alloc);
    let mut from: u32 = 0;
    for to in borders.as_slice() {
        parts
            .push(Bank {
                bytes: bytes.get(from as usize..*to as usize)?,
            })
            .ok()?;
        from = *to;
    }
    Some(parts)
}

// A frame that looks, and then looks.
fn look_often<L: Ledger>(table: &mut Table, parts: &[Bank<'_>], looks: u32, blank: Blank)
    requires name { blank.name ≡ L.name }
    requires parts { blank.parts ≡ L.parts }
    requires held { 0 < blank.parts }
    requires size { length (bytes_of parts.now) ≡ table.old.size }
{
    let mut steps = Steps::<L>::open(blank);
    table.follow(&mut Banks {
        row: Row::new(parts),
        steps: &mut steps,
    });
    for _ in 1..looks {
        table.look(&mut Banks {
            row: Row::new(parts),
            steps: &mut steps,
        });
    }
}
PROGRAM
mkdir -p "$folder/crates/look/proofs/look_over"
cat >"$folder/crates/look/proofs/look_over/Invariants.antt" <<'PROOF'
use Rattle.look.proofs.look_over.Given as goal

abbrev pub ghosts-look_often : goal.ghosts-look_often
ghosts-look_often a = record { name = a.blank.name; parts = a.blank.parts }
PROOF
prove_program "$folder" look ra_text ra_operand ra_memory ra_indirect ra_memref ra_banks
look=$folder/crates/look/out/look

# counted CELLS BANKS BYTES LOOKS: the instructions of a run
counted() {
    valgrind --tool=callgrind --callgrind-out-file=/dev/null "$look" "$1" "$2" "$3" "$4" "$5" 0 2>&1 | awk '/Collected/ { print $NF }'
}

# distinct CELLS BYTES SEED: how many cells there are, as the program above draws them
distinct() {
    python3 - "$1" "$2" "$3" <<'CELLS'
import sys

cells, size, seed = map(int, sys.argv[1:])


def below(most):
    global seed
    seed = (seed * 6364136223846793005 + 1442695040888963407) % 2**64
    return (seed >> 33) % 2**32 % most


print(len({(below(size), below(3)) for _ in range(cells)}))
CELLS
}

# taken CELLS BYTES TOLD: the bytes that a run without an image takes
taken() {
    valgrind "$look" "$1" 1 "$2" 0 1 "$3" 2>&1 | awk '/total heap usage/ { gsub(",", ""); print $(NF - 2) }'
}

echo "| Cells | Banks | Bytes | Instructions a cell, of three seeds |"
echo "|---|---|---|---|"
for cells in 100 1000 10000; do
    for banks in 1 2 17; do
        for bytes in 2048 65536 134217728; do
            row=
            for seed in 1 2 3; do
                more=$(counted $cells $banks $bytes 41 $seed)
                less=$(counted $cells $banks $bytes 1 $seed)
                row="$row $(awk -v d=$((more - less)) -v c="$(distinct $cells $bytes $seed)" 'BEGIN { printf "%.1f", d / 40 / c }')"
            done
            echo "| $cells | $banks | $bytes |$row |"
        done
    done
done
echo
echo "| Bytes of the image | a table made for looks takes | one that is told |"
echo "|---|---|---|"
for bytes in 2048 65536 134217728; do
    echo "| $bytes | $(taken 1000 $bytes 0) | $(taken 1000 $bytes 1) |"
done
tests=$here/crates/ra_runtime_tests/out/ra_runtime_tests_tests
if [ -x "$tests" ]; then
    echo
    bytes=$(valgrind "$tests" courses::banks_have_the_greatest_size 2>&1 | awk '/total heap usage/ { print $(NF - 2) }')
    echo "a course for looks over 128 MiB in 2,048 banks, which take 98,304 bytes, with them: $bytes bytes"
fi
