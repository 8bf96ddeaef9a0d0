#!/usr/bin/env python3
"""Times the subset construction and the making of the minimal automaton, on the words of `.* a .{n}`:
those that have the letter `a` at n + 1 places from the end. No deterministic automaton of them has
fewer than 2^(n+1) states. Sets of 3 letters lie in one machine word, those of 4,000 in 64.

    bench/automata.py [N..]

In a copy of the repository a small program is written over its crates, proved and built there; that
can take minutes. It is run once for each n, 10, 14 and 16 if none are given, and each number of
letters; the seconds are the processor's, of the whole process.
"""
import os
import resource
import shutil
import subprocess
import sys
import tempfile

TOP = os.path.dirname(os.path.dirname(os.path.abspath(__file__)))
NAME = "automata_bench"
DEPS = "rela_names rela_labels rela_pairs rela_nfa rela_subset rela_minimise indexmap thiserror"

MAIN = """\
//! Determinises and minimises the automaton of `.* a .{n}`, for the n and the number of letters that
//! the command line says.
#![tactic(auto)]
ghost use Rattle.std.specs.Prelude.{◌≡◌, ◌<◌, ◌≤◌, ◌*◌, IfOk, length};

use rela_labels::{BlockSet, LabelSet};
use rela_minimise::minimise;
use rela_nfa::{BuildError, Nfa};
use rela_subset::determinise;
use std::alloc::{AllocError, Global};
use std::env;
use std::process::ExitCode;

// The letters below a number.
fn letters_below<L: LabelSet>(alloc: Global, size: u32, end: u32) -> Result<L, AllocError>
    requires fits { L.fits size }
    requires end { end ≤ size }
    ensures { IfOk result (λ set. length (L.letters set) ≡ size) }
{
    let mut set = L::none(alloc, size)?;
    for letter in 0..end {
        set.add(alloc, letter)?;
    }
    Ok(set)
}

fn words<L: LabelSet>(alloc: Global, all: &L, distance: usize) -> Result<Nfa<L>, AllocError>
    requires { 1 ≤ length (L.letters all.now) }
    ensures { IfOk result (λ nfa. nfa.letters ≡ length (L.letters all.now)) }
{
    let size = all.size();
    let one: L = letters_below(alloc, size, 1)?;
    let any: Nfa<L> = Nfa::class(alloc, size, all)?;
    let first: Nfa<L> = Nfa::class(alloc, size, &one)?;
    let mut words = any.star(alloc)?.concat(alloc, &first)?;
    for _ in 0..distance {
        words = words.concat(alloc, &any)?;
    }
    Ok(words)
}

// The states of the deterministic automaton, and of the minimal one.
fn sizes<L: LabelSet>(alloc: Global, size: u32, distance: usize) -> Result<(usize, usize), BuildError>
    requires fits { L.fits size }
    requires some { 1 ≤ size }
{
    let all: L = letters_below(alloc, size, size)?;
    let nfa = words(alloc, &all, distance)?;
    let dfa = determinise(alloc, &nfa, &all, usize::MAX)?;
    let least = minimise(alloc, &dfa)?;
    Ok((dfa.states(), least.states()))
}

fn number(word: Option<String>) -> usize {
    match word {
        Some(word) => word.parse::<usize>().unwrap_or(0),
        None => 0,
    }
}

fn main(rt: HostRuntime) -> ExitCode {
    let Ok(mut words) = env::args(&rt) else {
        return ExitCode::from(2);
    };
    let _ = words.next();
    let distance = number(words.next());
    let found = match number(words.next()) {
        3 => sizes::<BlockSet<1>>(rt.alloc(), 3, distance),
        4000 => sizes::<BlockSet<64>>(rt.alloc(), 4000, distance),
        _ => return ExitCode::from(2),
    };
    let Ok((states, least)) = found else {
        return ExitCode::from(3);
    };
    match println!(rt; "{states} {least}") {
        Ok(()) => ExitCode::from(0),
        Err(_) => ExitCode::from(4),
    }
}
"""

PROOFS = {
    "Lib.antt": "",
    "letters_below/Invariants.antt": """\
use Rattle.std.proofs.Common.{◌≡◌, length}
use Rattle.automata_bench.proofs.letters_below.Given as goal

abbrev pub invariant-loop-letter : goal.invariant-loop-letter
invariant-loop-letter g l = length (g.L.LabelSet.letters l.set) ≡ l.size
""",
    "words/Invariants.antt": """\
use Rattle.std.proofs.Common.{◌≡◌, length}
use Rattle.automata_bench.proofs.words.Given as goal

abbrev pub invariant-loop : goal.invariant-loop
invariant-loop g l = l.words.letters ≡ length (g.L.LabelSet.letters l.all)
""",
}


def write(path, text):
    os.makedirs(os.path.dirname(path), exist_ok=True)
    with open(path, "w") as file:
        file.write(text)


def build(folder):
    """The program, proved and built in a copy of the repository; what was proved there is used."""
    copy = os.path.join(folder, "repository")
    shutil.copytree(TOP, copy, symlinks=True, ignore=shutil.ignore_patterns(".git"))
    with open(os.path.join(copy, "crates.txt"), "a") as file:
        file.write(f"{NAME}: {DEPS}\n")
    crate = os.path.join(copy, "crates", NAME)
    write(os.path.join(crate, "src/main.rt"), MAIN)
    for path, text in PROOFS.items():
        write(os.path.join(crate, "proofs", path), text)
    ran = subprocess.run(["rt", "run", "--", "1", "3"], cwd=crate, capture_output=True, text=True)
    program = os.path.join(crate, "out", NAME)
    if ran.returncode != 0 or not os.path.exists(program):
        sys.exit(f"the program was not built:\n{ran.stdout}{ran.stderr}")
    return program


def processor_time():
    """The seconds that the processes run so far have used."""
    used = resource.getrusage(resource.RUSAGE_CHILDREN)
    return used.ru_utime + used.ru_stime


def main():
    distances = [int(word) for word in sys.argv[1:]] or [10, 14, 16]
    with tempfile.TemporaryDirectory() as folder:
        program = build(folder)
        print(f"{'letters':>8} {'n':>3} {'states':>8} {'minimal':>8} {'seconds':>8}")
        for letters in (3, 4000):
            for distance in distances:
                begin = processor_time()
                ran = subprocess.run([program, str(distance), str(letters)], capture_output=True, text=True)
                took = processor_time() - begin
                if ran.returncode != 0:
                    sys.exit(f"status {ran.returncode} for n = {distance} over {letters} letters")
                states, least = ran.stdout.split()
                print(f"{letters:>8} {distance:>3} {states:>8} {least:>8} {took:>8.3f}", flush=True)


if __name__ == "__main__":
    main()
