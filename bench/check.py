#!/usr/bin/env python3
"""Writes a small program that says how long each part of a check takes.

    check.py DIR

    cd DIR/crates/check_speed && rt run -- RULES CERT ROUTINE.. > TIMES

RULES, CERT and ROUTINE.. are files as `mlock check` takes them; straight.py writes some. The program prints the times of
reading the files, reading the routines, linking, the rules, the certificate, the walk, and of giving all memory back. The
crates are copied with what was proved of them; `rt run` proves what is left.
"""
import argparse
import pathlib

from laying import lay

PROGRAM = """//! Checks a program, and prints how long each part of it took.
#![tactic(auto)]

use mlk_cert::read_cert;
use mlk_rules::Rules;
use mlk_program::{Program, link};
use mlk_routine::{Routine, read_routine};
use mlk_rules_file::read_rules;
use mlk_walk::report_of;
use std::alloc::Global;
use std::fs;
use std::io;
use std::time::Instant;

// The name of a routine: what stands in a path after the last slash and before the last dot.
fn stem(path: &str) -> &[u8] {
    let name = match path.rsplit_once('/') {
        None => path,
        Some((_, name)) => name,
    };
    match name.rsplit_once('.') {
        None => name.as_bytes(),
        Some((stem, _)) => stem.as_bytes(),
    }
}

fn read_files(rt: &HostRuntime, alloc: Global, words: &[String]) -> io::Result<Vec<Vec<u8>>> {
    let mut texts = Vec::new(alloc);
    for word in words {
        texts.push(fs::read(rt, word.as_str())?)?;
    }
    Ok(texts)
}

fn routines_of(
    alloc: Global,
    words: &[String],
    texts: &[Vec<u8>],
) -> io::Result<Vec<Routine>> {
    let mut routines = Vec::new(alloc);
    for (word, text) in words.iter().zip(texts) {
        if let Ok(routine) = read_routine(alloc, stem(word.as_str()), text.as_slice()) {
            routines.push(routine)?;
        }
    }
    Ok(routines)
}

fn walk(
    rt: &HostRuntime,
    alloc: Global,
    program: &Program<'_>,
    rules: &Rules,
    text: &[u8],
) -> io::Result<()> {
    let begin = Instant::now(rt)?;
    let Ok(certificate) = read_cert(alloc, text) else {
        return println!(rt; "no certificate");
    };
    println!(rt; "certificate {:?}", begin.elapsed(rt)?)?;
    let begin = Instant::now(rt)?;
    let report = report_of(alloc, program, rules, &certificate)?;
    println!(rt; "walk {:?}, {} faults", begin.elapsed(rt)?, report.rows().len())
}

fn check(
    rt: &HostRuntime,
    alloc: Global,
    routines: &[Routine],
    rules: &[u8],
    certificate: &[u8],
) -> io::Result<()> {
    let begin = Instant::now(rt)?;
    let Ok(program) = link(alloc, routines) else {
        return println!(rt; "not linked");
    };
    println!(rt; "link {:?}", begin.elapsed(rt)?)?;
    let begin = Instant::now(rt)?;
    let Ok(rules) = read_rules(alloc, rules) else {
        return println!(rt; "no rules");
    };
    println!(rt; "rules {:?}", begin.elapsed(rt)?)?;
    walk(rt, alloc, &program, &rules, certificate)
}

fn all(
    rt: &HostRuntime,
    alloc: Global,
    rules: &str,
    certificate: &str,
    paths: &[String],
) -> io::Result<Instant> {
    let begin = Instant::now(rt)?;
    let rules = fs::read(rt, rules)?;
    let certificate = fs::read(rt, certificate)?;
    let texts = read_files(rt, alloc, paths)?;
    println!(rt; "files {:?}", begin.elapsed(rt)?)?;
    let begin = Instant::now(rt)?;
    let routines = routines_of(alloc, paths, texts.as_slice())?;
    println!(rt; "routines {:?}, {} of them", begin.elapsed(rt)?, routines.len())?;
    check(rt, alloc, routines.as_slice(), rules.as_slice(), certificate.as_slice())?;
    Instant::now(rt)
}

fn main(rt: HostRuntime) -> io::Result<()> {
    let words: Vec<String> = std::env::args(&rt)?.collect(rt.alloc())?;
    let [_, rules, certificate, paths @ ..] = words.as_slice() else {
        return println!(rt; "check_speed RULES CERT ROUTINE..");
    };
    let end = all(&rt, rt.alloc(), rules.as_str(), certificate.as_str(), paths)?;
    println!(rt; "giving back {:?}", end.elapsed(&rt)?)
}
"""


def main():
    parser = argparse.ArgumentParser(description=__doc__, formatter_class=argparse.RawDescriptionHelpFormatter)
    parser.add_argument("folder", metavar="DIR", type=pathlib.Path)
    words = parser.parse_args()
    libraries = "mlk_walk mlk_walk_lines mlk_walk_commands mlk_walk_exprs mlk_calls mlk_cert mlk_rules_file mlk_rules mlk_names mlk_program"
    lay(words.folder, "check_speed", f"{libraries} mlk_routine mlk_expr mlk_text", PROGRAM)


if __name__ == "__main__":
    main()
