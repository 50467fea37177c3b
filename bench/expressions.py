#!/usr/bin/env python3
"""Writes lines of expressions, and a repository with a program that reads each of them by read_expr and times that.

    expressions.py DIR [MEGABYTES]      20 megabytes where nothing is said

    cd DIR/crates/expr_speed && rt run < ../../mixed.txt

mixed.txt has lines as programs have them, chain.txt one line of 500,000 operators, deep.txt lines that nest 63 deep.
The crates mlk_text and mlk_expr are copied with what was proved of them; `rt run` proves what is left.
"""
import argparse
import pathlib

from laying import lay

PROGRAM = """//! Reads each line of standard input as an expression, and prints how long that took.
#![tactic(auto)]

use mlk_expr::read_expr;
use std::alloc::{AllocError, Global};
use std::io::{self, Read};
use std::time::Instant;

fn lines_of(alloc: Global, text: &[u8]) -> Result<Vec<&[u8]>, AllocError> {
    let mut lines = Vec::new(alloc);
    for line in text.split(|b| *b == b'\\n') {
        lines.push(line)?;
    }
    Ok(lines)
}

// How many bytes of the lines are expressions.
fn bytes_read(alloc: Global, lines: &[&[u8]]) -> usize {
    let mut count: usize = 0;
    for line in lines.iter() {
        if let Ok((_tree, next)) = read_expr(alloc, line, 0) {
            count = count.wrapping_add(next);
        }
    }
    count
}

fn main(rt: HostRuntime) -> io::Result<()> {
    let mut text = Vec::new(rt.alloc());
    rt.stdin().read_to_end(&mut text)?;
    let lines = lines_of(rt.alloc(), text.as_slice())?;
    let start = Instant::now(&rt)?;
    let count = bytes_read(rt.alloc(), lines.as_slice());
    let spent = start.elapsed(&rt)?;
    println!(rt; "{} lines, {} bytes of {} in {spent:?}", lines.len(), count, text.len())?;
    Ok(())
}
"""
LINES = [
    '^ACCT(ID,"BALANCE")+AMOUNT*2',
    "$GET(^ACCT(ID,1))-FEE",
    "1+2*3",
    '$ORDER(^ACCT(ID,""))',
    "STATE=OPEN&(LEVEL<5)!(COUNT>1)",
    '$PIECE(RECORD,"^",3)_","_NAME',
    '$$BALANCE^ACCT(.RECORD,1,"new")',
    '$SELECT(KIND=1:"a",CODE?1.3N1"-"2A:"b",1:0)',
    "-(OLD+NEW)*(LAST-FIRST)/100.25#7",
    '"text with ""quotes"" and more"_$CHAR(13,10)',
]


def main():
    parser = argparse.ArgumentParser(description=__doc__, formatter_class=argparse.RawDescriptionHelpFormatter)
    parser.add_argument("folder", metavar="DIR", type=pathlib.Path)
    parser.add_argument("size", metavar="MEGABYTES", type=int, nargs="?", default=20)
    words = parser.parse_args()
    folder, size = words.folder, words.size * 1_000_000
    lay(folder, "expr_speed", "mlk_expr", PROGRAM)
    block = "".join(line + "\n" for line in LINES)
    (folder / "mixed.txt").write_text(block * (size // len(block) + 1))
    (folder / "chain.txt").write_text("1" + "+1" * 500_000 + "\n")
    deep = "X(" * 63 + "1" + ")" * 63 + "\n"
    (folder / "deep.txt").write_text(deep * (size // len(deep) + 1))


main()
