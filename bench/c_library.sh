#!/bin/sh
# Counts the instructions of a frame through the C library, over one bank of 2 MiB and over eight, beside those of the
# player: the difference of a run of 1,200 frames and one of 200, by 1,000. The lines of each frame are asked for. Then a frame
# of the library beside one of the same course in Rattle, over one bank and over eight, over that trace and over the recorded game.
# usage: bench/c_library.sh [PLAYER [ARCHIVE]], where PLAYER is the built program and ARCHIVE the libra_c.a that `rt lib` made; where one
# is not named it is found, or built
set -eu
. "$(dirname "$0")/player.sh"
need cc make python3 valgrind
find_player "${1:-}"
archive=${2:-$here/crates/ra_c/out/libra_c.a}
folder=$(mktemp -d)
trap 'rm -rf "$folder"' EXIT
make -s -C "$here/examples/c" OUT="$folder" ARCHIVE="$archive" "$folder/play"
for frames in 200 1200; do
    mkdir "$folder/$frames"
    python3 "$here/bench/c_library.py" sets "$folder/$frames" "$frames"
done
# The instructions of a frame of a program with these words: the program, words before the set, and words after the trace.
a_frame() {
    for frames in 200 1200; do
        valgrind --tool=callgrind --callgrind-out-file=/dev/null "$1" $2 "$folder/$frames/hundred.set" "$folder/$frames/hundred.trace" $3 2>&1 >"$folder/out" |
            awk '/Collected/ { print $NF }'
    done | awk 'NR == 1 { less = $1 } NR == 2 { printf "%d\n", ($1 - less) / 1000 }'
}
echo "ra_player, single writes: $(a_frame "$player" run "")"
echo "the library, one bank: $(a_frame "$folder/play" "" "")"
echo "the library, eight banks: $(a_frame "$folder/play" "" 8)"
echo

# A caller in Rattle beside one in C (frames.c). Both play a trace into a memory of their own, take a frame over it as so many banks and read the
# events; neither writes lines. Callgrind counts the calls alone: `Course::follow` and `Course::events` with a loop over them, and
# `meerkat_frame` and `meerkat_events`. That the banks have the size of the course the library checks at each frame, and the caller in Rattle
# before it. The program is made, proved and built (prove_program in player.sh).
made=$folder/made
mkdir -p "$made/crates/frames/src" "$made/crates/frames/proofs/framed"
cat >"$made/crates/frames/src/main.rt" <<'PROGRAM'
//! What a frame costs a caller in Rattle: a course over the banks of a memory that a trace writes.
//!
//! The words are a set file, a trace file and how many banks there are. The last line is how many events there were.
#![tactic(auto)]

ghost use Rattle.std.specs.Prelude.{◌≡◌, ◌<◌, ◌≤◌, ◌^◌, length};
ghost use Rattle.ra_banks.specs.Banks.{bytes_of};

use ra_banks::{Bank, Banks, Row, size_of};
use ra_io::{Files, RealFiles};
use ra_jobs::read_whole;
use ra_memory::Steps;
use ra_runtime::Course;
use ra_set::parse_set;
use std::alloc::Global;
use std::env;
use std::marker::Brand;
use std::process::ExitCode;
use std::sync::ledger::{Blank, Ledger};

fn main(rt: HostRuntime) -> ExitCode {
    let Ok(args) = env::args(&rt) else {
        return ExitCode::from(1);
    };
    let Ok(words) = args.skip(1).collect::<Vec<String>>(rt.alloc()) else {
        return ExitCode::from(1);
    };
    let mut files = RealFiles::new(&rt);
    let Some(set) = content(rt.alloc(), words.as_slice(), 0, &mut files) else {
        return ExitCode::from(1);
    };
    let Some(trace) = content(rt.alloc(), words.as_slice(), 1, &mut files) else {
        return ExitCode::from(1);
    };
    let Some(banks) = number(words.as_slice(), 2) else {
        return ExitCode::from(1);
    };
    let Some(told) = measured(rt.alloc(), set.as_slice(), trace.as_slice(), banks) else {
        return ExitCode::from(2);
    };
    match println!(rt; "{told}") {
        Ok(()) => ExitCode::from(0),
        Err(_) => ExitCode::from(3),
    }
}

fn content<F: Files>(
    alloc: Global,
    words: &[String],
    place: usize,
    files: &mut F,
) -> Option<Vec<u8>> {
    match read_whole(alloc, words.get(place)?.as_str(), 67108864, files) {
        Ok(bytes) => Some(bytes),
        Err(_) => None,
    }
}

fn number(words: &[String], place: usize) -> Option<u32> {
    words.get(place)?.as_str().parse::<u32>().ok()
}

fn measured(alloc: Global, set: &[u8], trace: &[u8], banks: u32) -> Option<u64> {
    let [_, _, _, _, _, a, b, c, d, records @ ..] = trace else {
        return None;
    };
    let size = u32::from_le_bytes([*a, *b, *c, *d]);
    if size > 134217728 {
        return None;
    }
    let Ok(set) = parse_set(alloc, set) else {
        return None;
    };
    let Ok(mut course) = Course::for_looks(alloc, set, size) else {
        return None;
    };
    let told = played(alloc, &mut course, records, banks);
    drop(course);
    told
}

// What a trace is played over.
#[derive(Drop)]
struct Play {
    memory: Vec<u8>,
    slots: Vec<Vec<u8>>,
    banks: u32,
    told: u64,
}

fn played(alloc: Global, course: &mut Course, records: &[u8], banks: u32) -> Option<u64> {
    let mut slots = Vec::new(alloc);
    for _ in 0..16 {
        slots.push(Vec::new(alloc)).ok()?;
    }
    let mut play = Play {
        memory: vec![in alloc; 0; course.size() as usize].ok()?,
        slots,
        banks,
        told: 0,
    };
    let mut rest = records;
    for _ in 0..records.len() {
        rest = taken(alloc, course, &mut play, rest)?;
    }
    Some(play.told)
}

// Takes the record at the front, and answers what is left; nothing is left after the end record.
fn taken<'a>(
    alloc: Global,
    course: &mut Course,
    play: &mut Play,
    rest: &'a [u8],
) -> Option<&'a [u8]> {
    match rest {
        [b'F', rest @ ..] => {
            framed(alloc, course, play)?;
            Some(rest)
        }
        [b'W', a, b, c, d, low, high, rest @ ..] => {
            let count = usize::from(u16::from_le_bytes([*low, *high]));
            put(
                &mut play.memory,
                u32::from_le_bytes([*a, *b, *c, *d]) as usize,
                rest.get(..count)?,
            )?;
            rest.get(count..)
        }
        [b'S', slot, rest @ ..] => {
            *play.slots.get_mut(usize::from(*slot))? = course.save(alloc).ok()?;
            Some(rest)
        }
        [b'R', slot, rest @ ..] => {
            let _ = course.restore(play.slots.get(usize::from(*slot))?.as_slice());
            Some(rest)
        }
        [b'P', rest @ ..] => Some(rest),
        _ => Some(&[]),
    }
}

fn put(memory: &mut [u8], at: usize, bytes: &[u8]) -> Option<()> {
    for (place, byte) in bytes.iter().enumerate() {
        *memory.get_mut(at.checked_add(place)?)? = *byte;
    }
    Some(())
}

fn framed(alloc: Global, course: &mut Course, play: &mut Play) -> Option<()> {
    let banks = laid(alloc, play.memory.as_slice(), play.banks)?;
    if size_of(banks.as_slice()) != Some(course.size()) {
        return None;
    }
    take_frame::<Brand>(course, banks.as_slice(), Blank::new(1));
    play.told = play.told.wrapping_add(count_events(course));
    Some(())
}

// The memory as so many banks of one size, and what is left in the last one.
fn laid<'a>(alloc: Global, memory: &'a [u8], count: u32) -> Option<Vec<Bank<'a>>> {
    let each = memory.len().checked_div(count as usize)?;
    let mut banks = Vec::new(alloc);
    let mut rest = memory;
    for _ in 1..count {
        banks
            .push(Bank {
                bytes: rest.get(..each)?,
            })
            .ok()?;
        rest = rest.get(each..)?;
    }
    banks.push(Bank { bytes: rest }).ok()?;
    Some(banks)
}

// A frame.
#[inline(never)]
fn take_frame<L: Ledger>(course: &mut Course, banks: &[Bank<'_>], blank: Blank)
    requires name { blank.name ≡ L.name }
    requires parts { blank.parts ≡ L.parts }
    requires held { 0 < blank.parts }
    requires size { length (bytes_of banks.now) ≡ course.old.size }
{
    let mut steps = Steps::<L>::open(blank);
    course.follow(&mut Banks {
        row: Row::new(banks),
        steps: &mut steps,
    });
}

// Its events.
#[inline(never)]
fn count_events(course: &Course) -> u64 {
    let mut told = 0u64;
    for _event in course.events() {
        told = told.wrapping_add(1);
    }
    told
}
PROGRAM
cat >"$made/crates/frames/proofs/framed/Invariants.antt" <<'PROOF'
use Rattle.frames.proofs.framed.Given as goal

abbrev pub ghosts-take_frame : goal.ghosts-take_frame
ghosts-take_frame a = record { name = a.blank.name; parts = a.blank.parts }
PROOF
prove_program "$made" frames ra_io ra_jobs ra_banks ra_memory ra_set ra_runtime
cc -std=c11 -O2 -I"$here/crates/ra_c/include" "$here/bench/frames.c" "$archive" "${KIT:-/opt/rattle}/c/liblibc_c.a" -o "$folder/frames"

# counted FUNCTION PROGRAM SET TRACE BANKS: the instructions of a run in this function; $folder/told is what the run printed
counted() {
    function=$1
    shift
    valgrind --tool=callgrind --callgrind-out-file=/dev/null --collect-atstart=no --toggle-collect="$function" "$@" 2>&1 >"$folder/told" |
        awk '/Collected/ { print $NF }'
}

# row WHAT SET TRACE FRAMES BANKS: a row of the table
row() {
    what=$1 set=$2 trace=$3 frames=$4 banks=$5
    frame=$(counted meerkat_frame "$folder/frames" "$set" "$trace" "$banks")
    events=$(counted meerkat_events "$folder/frames" "$set" "$trace" "$banks")
    cp "$folder/told" "$folder/told.c"
    own_frame=$(counted 'frames::take_frame*' "$made/crates/frames/out/frames" "$set" "$trace" "$banks")
    own_events=$(counted 'frames::count_events*' "$made/crates/frames/out/frames" "$set" "$trace" "$banks")
    cmp "$folder/told" "$folder/told.c" >&2
    awk -v what="$what" -v frames="$frames" -v banks="$banks" -v a="$frame" -v b="$events" -v c="$own_frame" -v d="$own_events" 'BEGIN {
        printf "| %s | %s | %d + %d | %d + %d | %.3f | %.3f |\n", what, banks, a / frames, b / frames, c / frames, d / frames, a / c, (a + b) / (c + d)
    }'
}

game=$here/examples/libretro
: >"$folder/none.set"
cp "$game/lantern.set" "$folder/own.set"
for set in calm busy; do
    python3 "$here/bench/game_sets.py" make $set "$game/lantern.set" "$game/lantern.trace" "$folder/$set.set" >/dev/null
done
long=$(python3 "$here/examples/trace.py" show "$game/lantern.trace" | grep -c '^F')
echo "| Set | Banks | The library: a frame and its events | In Rattle | Frames | With events |"
echo "|---|---|---|---|---|---|"
for banks in 1 8; do
    row "100 achievements of 8" "$folder/1200/hundred.set" "$folder/1200/hundred.trace" 1200 $banks
    for set in own calm busy none; do
        row "the game, $set" "$folder/$set.set" "$game/lantern.trace" "$long" $banks
    done
done
