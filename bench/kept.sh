#!/bin/sh
# Counts the instructions of a keep and of a take of a state in memory: of 4,000 achievements of 8 conditions, and of the real-sized set.
# usage: bench/kept.sh
# A program of its own is made, proved and built (prove_program in player.sh). Instructions are the difference of a run of 41 keeps
# and one of 1, by 40, after 20 frames over memory of which nothing changes, so that all that can rest does and owes; and of takes the same.
set -eu
. "$(dirname "$0")/player.sh"
need valgrind python3
here=$(cd "$(dirname "$0")/.." && pwd)
folder=$(mktemp -d)
trap 'rm -rf "$folder"' EXIT
made=$folder/made
mkdir -p "$made/crates/kept/src"
cat >"$made/crates/kept/src/main.rt" <<'PROGRAM'
//! What a keep and a take of a state in memory cost. The words are a set file, and how many frames, keeps and takes there are.
#![tactic(auto)]

ghost use Rattle.std.specs.Prelude.{◌≡◌, ◌<◌, IfSome, length};

use ra_io::RealFiles;
use ra_jobs::read_whole;
use ra_memory::{Counted, Memory, Steps};
use ra_runtime::{Course, Kept};
use ra_set::parse_set;
use std::alloc::Global;
use std::env;
use std::marker::Brand;
use std::process::ExitCode;
use std::sync::ledger::{Blank, Ledger};

fn main(rt: HostRuntime) -> ExitCode {
    let Ok(args) = env::args(&rt) else {
        return ExitCode::from(1);
    };
    let Ok(words) = args.skip(1).collect::<Vec<String>>(rt.alloc()) else {
        return ExitCode::from(1);
    };
    let Some(name) = words.first() else {
        return ExitCode::from(1);
    };
    let mut files = RealFiles::new(&rt);
    let Ok(bytes) = read_whole(rt.alloc(), name.as_str(), 8388608, &mut files) else {
        return ExitCode::from(1);
    };
    match measured(rt.alloc(), bytes.as_slice(), words.as_slice()) {
        Some(()) => ExitCode::from(0),
        None => ExitCode::from(2),
    }
}

fn number(words: &[String], place: usize) -> Option<u32> {
    words.get(place)?.as_str().parse::<u32>().ok()
}

fn measured(alloc: Global, bytes: &[u8], words: &[String]) -> Option<()> {
    let Ok(set) = parse_set(alloc, bytes) else {
        return None;
    };
    let Ok(memory) = Memory::new(alloc, 65536) else {
        return None;
    };
    let Ok(mut course) = Course::for_looks(alloc, set, 65536) else {
        return None;
    };
    let done = played(alloc, &mut course, &memory, words);
    drop(course);
    done
}

fn played(alloc: Global, course: &mut Course, memory: &Memory, words: &[String]) -> Option<()>
    requires { length memory.now ≡ course.old.size }
{
    for _ in 0..number(words, 1)? {
        follow::<Brand>(course, memory, Blank::new(1));
    }
    let mut kept = Kept::new(alloc, course).ok()?;
    keep_and_take(course, &mut kept, number(words, 2)?, number(words, 3)?);
    Some(())
}

fn follow<L: Ledger>(course: &mut Course, memory: &Memory, blank: Blank)
    requires name { blank.name ≡ L.name }
    requires parts { blank.parts ≡ L.parts }
    requires held { 0 < blank.parts }
    requires size { length memory.now ≡ course.old.size }
    ensures size { course.new.size ≡ course.old.size }
{
    let mut steps = Steps::<L>::open(blank);
    course.follow(&mut Counted {
        memory,
        steps: &mut steps,
    });
}

fn keep_and_take(course: &mut Course, kept: &mut Kept, keeps: u32, takes: u32) {
    for _ in 0..keeps {
        let _ = course.keep(kept);
    }
    for _ in 0..takes {
        let _ = course.take(kept);
    }
}
PROGRAM
mkdir -p "$made/crates/kept/proofs/played"
cat >"$made/crates/kept/proofs/played/Invariants.antt" <<'INVARIANTS'
use Rattle.std.proofs.Common.{◌≡◌, length}
use Rattle.kept.proofs.played.Given as goal

-- the memory stays as long as the course's
abbrev pub invariant-loop : goal.invariant-loop
invariant-loop l = length l.memory ≡ l.course.size

abbrev pub ghosts-follow : goal.ghosts-follow
ghosts-follow a = record { name = a.blank.name; parts = a.blank.parts }
INVARIANTS
prove_program "$made" kept ra_text ra_io ra_jobs ra_memory ra_set ra_runtime
kept=$made/crates/kept/out/kept
python3 "$here/bench/workloads.py" "$folder" 10

# counted SET KEEPS TAKES: the instructions of a run
counted() {
    valgrind --tool=callgrind --callgrind-out-file=/dev/null "$kept" "$folder/$1" 20 "$2" "$3" 2>&1 | awk '/Collected/ { print $NF }'
}

echo "| What | A keep | A take |"
echo "|---|---|---|"
for set in many real; do
    none=$(counted $set.set 1 1)
    keeps=$(counted $set.set 41 1)
    takes=$(counted $set.set 1 41)
    echo "| $set.set | $(((keeps - none) / 40)) | $(((takes - none) / 40)) |"
done
