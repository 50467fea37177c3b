#!/usr/bin/env python3
"""Writes large routines, and a repository with a program that reads them by read_routine and times that.

    routines.py DIR [ROUTINES]      200 routines of 1,000 lines where nothing is said

    cd DIR/crates/routine_speed && rt run -- ../../routines/*.m

Beside these, three routines at the edges: WIDE.m has one line of 1 MiB, TALL.m 65,535 lines, DEEP.m lines of all fifteen
levels. The crates mlk_text, mlk_expr and mlk_routine are copied with what was proved of them; `rt run` proves what is left.
"""
import argparse
import pathlib

from laying import lay

PROGRAM = """//! Reads routines, and prints how long all of them took.
#![tactic(auto)]

use mlk_routine::read_routine;
use std::fs;
use std::io;
use std::time::{Duration, Instant};

fn main(rt: HostRuntime) -> io::Result<()> {
    let words: Vec<String> = std::env::args(&rt)?.collect(rt.alloc())?;
    let begin = Instant::now(&rt)?;
    let mut bytes = 0;
    let mut refused = 0;
    for word in words.as_slice().iter().skip(1) {
        let text = fs::read(&rt, word.as_str())?;
        bytes = text.len().wrapping_add(bytes);
        if read_routine(rt.alloc(), b"R", text.as_slice()).is_err() {
            refused = 1usize.wrapping_add(refused);
        }
    }
    let spent = begin.elapsed(&rt)?;
    println!(rt; "{} routines of {bytes} bytes, {refused} refused, in {spent:?}", words.len().wrapping_sub(1))
}
"""
LINES = """P{n}(ID,AMT,REASON) ; posts an amount
 NEW OK,T SET OK=1,T=$P(^ACCT(ID),";",2) IF AMT'>0 QUIT 0
 LOCK +^ACCT(ID):5 ELSE  SET ^LOG("busy",$J,{n})=$H QUIT 0
 IF $D(^ACCT(ID))#2 DO  QUIT:'OK 0
 . FOR I=1:1:10 SET ^ACCT(ID,"part",I)=AMT/10 DO NOTE(I,.T):T>{n}
 . SET ^ACCT(ID)=^ACCT(ID)+AMT,$P(^ACCT(ID,"last"),";",3)=REASON_"-{n}"
 . IF REASON="" SET OK=$$TEXT^LOGS(REASON,{n})
 SET ^LOG("post",$J,{n})=ID_";"_AMT KILL T(1),^TMP($J,"post") MERGE ^TMP($J)=T
 LOCK -^ACCT(ID) WRITE !,"done ",ID,?20,AMT,!! HANG 1
 QUIT OK
""".splitlines(True)


def routine(lines):
    """The text of a routine of so many lines."""
    return "".join(LINES[n % len(LINES)].replace("{n}", str(n)) for n in range(lines))


def main():
    parser = argparse.ArgumentParser(description=__doc__, formatter_class=argparse.RawDescriptionHelpFormatter)
    parser.add_argument("folder", metavar="DIR", type=pathlib.Path)
    parser.add_argument("routines", metavar="ROUTINES", type=int, nargs="?", default=200)
    words = parser.parse_args()
    folder = words.folder
    lay(folder, "routine_speed", "mlk_routine", PROGRAM)
    for name in ("routines", "edges"):
        (folder / name).mkdir(exist_ok=True)
    for n in range(words.routines):
        (folder / "routines" / f"R{n:05}.m").write_text(routine(1000))
    (folder / "edges" / "WIDE.m").write_text(" SET X=" + "1+" * (((1 << 20) - 8) // 2) + "1")
    (folder / "edges" / "TALL.m").write_text(" QUIT\n" * 65535)
    deep = "".join(" " + "." * n + " DO\n" for n in range(15))
    (folder / "edges" / "DEEP.m").write_text(deep * (65535 // 15))


if __name__ == "__main__":
    main()
