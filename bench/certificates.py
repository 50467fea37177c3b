#!/usr/bin/env python3
"""Writes a large certificate, and a repository with a program that reads it by read_cert and times that.

    certificates.py DIR [ENTRIES [LINES]]      2,000 entries of 100 lines where nothing is said

    cd DIR/crates/cert_speed && rt run -- ../../plain.cert ../../varied.cert
    /usr/bin/time -v out/cert_speed ../../varied.cert       the memory that it took

plain.cert says the same of all lines of an entry, as a program does that holds one lock over them; varied.cert says
something else at each line. mlk_cert and the crates below it are copied with what was proved of them; `rt run` proves what is
left.
"""
import argparse
import pathlib

from laying import lay

PROGRAM = """//! Reads certificates, and prints how long that took.
#![tactic(auto)]

use mlk_cert::read_cert;
use std::fs;
use std::io;
use std::time::Instant;

fn main(rt: HostRuntime) -> io::Result<()> {
    let words: Vec<String> = std::env::args(&rt)?.collect(rt.alloc())?;
    for word in words.as_slice().iter().skip(1) {
        let bytes = fs::read(&rt, word.as_str())?;
        let begin = Instant::now(&rt)?;
        let read = read_cert(rt.alloc(), bytes.as_slice());
        let spent = begin.elapsed(&rt)?;
        let told = if read.is_ok() { "read" } else { "refused" };
        println!(rt; "{word}: {} bytes {told} in {spent:?}", bytes.len())?;
    }
    Ok(())
}
"""


def block(entry, lines, held):
    """The block of an entry, where `held` gives the locks of a line."""
    yield f"entry E{entry}^R{entry:05}\nneed -\nlow 10\ndrops 0\nmods I;J;Q;X;Z\nexit T=* H=- K=ID\n"
    for line in range(1, lines + 1):
        yield f"at {line}.0 T=* H={held(line)} O=1:AMT;1:ID K=ID S=-\n"


def certificate(entries, lines, held):
    """The text of a certificate."""
    body = "".join(part for entry in range(entries) for part in block(entry, lines, held))
    return f"mlock-cert 1\n{body}end\n"


def main():
    parser = argparse.ArgumentParser(description=__doc__, formatter_class=argparse.RawDescriptionHelpFormatter)
    parser.add_argument("folder", metavar="DIR", type=pathlib.Path)
    parser.add_argument("entries", metavar="ENTRIES", type=int, nargs="?", default=2000)
    parser.add_argument("lines", metavar="LINES", type=int, nargs="?", default=100)
    words = parser.parse_args()
    folder = words.folder
    lay(folder, "cert_speed", "mlk_cert", PROGRAM)
    (folder / "plain.cert").write_text(certificate(words.entries, words.lines, lambda line: "^ACCT(ID);^LOG"))
    (folder / "varied.cert").write_text(
        certificate(words.entries, words.lines, lambda line: f'^ACCT("{line:05}",ID);^LOG("{line:05}")'))


if __name__ == "__main__":
    main()
