#!/usr/bin/env python3
"""Writes a large program, and a repository with a program that reads and links it and times that.

    programs.py DIR [ROUTINES]      2,000 routines of 100 lines where nothing is said

    cd DIR/crates/program_speed && rt run -- ../../routines/*.m

Each routine calls labels of its own and of the next one. The crates mlk_text, mlk_expr, mlk_routine and mlk_program are
copied with what was proved of them; `rt run` proves what is left. Instructions are counted by
`valgrind --tool=callgrind out/program_speed ../../routines/R0*.m`.
"""
import argparse
import pathlib

from laying import lay

PROGRAM = """//! Reads routines and links them, and prints how long that took.
#![tactic(auto)]

use mlk_program::link;
use mlk_routine::{Routine, read_routine};
use std::fs;
use std::io;
use std::time::{Duration, Instant};

// The six bytes before the last two of a path.
fn stem(path: &[u8]) -> &[u8] {
    let end = path.len().saturating_sub(2);
    let (front, _) = path.split_at(end);
    let (_, stem) = front.split_at(end.saturating_sub(6));
    stem
}

fn main(rt: HostRuntime) -> io::Result<()> {
    let words: Vec<String> = std::env::args(&rt)?.collect(rt.alloc())?;
    let mut texts: Vec<Vec<u8>> = Vec::new(rt.alloc());
    for word in words.as_slice().iter().skip(1) {
        texts.push(fs::read(&rt, word.as_str())?)?;
    }
    let begin = Instant::now(&rt)?;
    let mut routines: Vec<Routine> = Vec::new(rt.alloc());
    for (word, text) in words.as_slice().iter().skip(1).zip(&texts) {
        if let Ok(routine) = read_routine(rt.alloc(), stem(word.as_bytes()), text.as_slice()) {
            routines.push(routine)?;
        }
    }
    let read = begin.elapsed(&rt)?;
    let linked = link(rt.alloc(), routines.as_slice()).is_ok();
    let spent = begin.elapsed(&rt)?;
    println!(rt; "{} of {} routines read in {read:?}, linked: {linked}, in {spent:?} together", routines.len(), texts.len())
}
"""
HEAD = """MAIN(ID,AMT) NEW I,OK,T SET OK=1,T="" LOCK +^ACCT(ID):5 ELSE  QUIT 0
"""
LINES = """ SET ^ACCT(ID,"part",{n})=$G(^ACCT(ID,"part",{n}))+AMT ; line {n}
 FOR I=1:1:10 SET ^ACCT(ID,"n",I)=I*2 QUIT:T=I
 IF $D(^ACCT(ID,{n}))#2 DO
 . NEW Q SET Q=$O(^ACCT(ID,"n",T)) IF Q="" QUIT
 . SET T=Q,$P(^ACCT(ID,"last"),";",3)=$L(Q)_"-{n}"
 SET T=$$TWICE^{next}(T)+{n},(OK,I)=$S(T>5:"a",T?1N.N:"b",1:"c")
 DO NOTE^{next}(ID,{n}),NOTE(ID,.T):T>{n}
 WRITE !,"done ",ID,?20,AMT,!! KILL ^TMP($J,{n}) MERGE ^TMP($J)=T
""".splitlines(True)
TAIL = """ LOCK -^ACCT(ID)
 QUIT OK
NOTE(A,B) LOCK +^LOG(A) SET ^LOG(A,B)=$H LOCK -^LOG(A)
 QUIT
TWICE(V) QUIT V*2
"""


def routine(number, count):
    """The text of one of so many routines."""
    lines = "".join(LINES[n % len(LINES)].replace("{n}", str(n)) for n in range(94))
    return HEAD + lines.replace("{next}", f"R{(number + 1) % count:05}") + TAIL


def main():
    parser = argparse.ArgumentParser(description=__doc__, formatter_class=argparse.RawDescriptionHelpFormatter)
    parser.add_argument("folder", metavar="DIR", type=pathlib.Path)
    parser.add_argument("routines", metavar="ROUTINES", type=int, nargs="?", default=2000)
    words = parser.parse_args()
    folder = words.folder
    lay(folder, "program_speed", "mlk_program mlk_routine", PROGRAM)
    (folder / "routines").mkdir(exist_ok=True)
    for number in range(words.routines):
        (folder / "routines" / f"R{number:05}.m").write_text(routine(number, words.routines))


if __name__ == "__main__":
    main()
