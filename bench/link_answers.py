#!/usr/bin/env python3
"""Compares read_routine and link with expected answers of command lines, or with a second linker on random programs.

    link_answers.py DIR CASES..              each CASES has a JSON object a line: `words`, `files`, and `stderr` of the command line
    link_answers.py DIR --random N [SEED]    N random programs
    link_answers.py DIR --limits             four large programs: with the most routines and entries, and with one more

    cd DIR/crates/link_answers && rt run < ../../programs.txt > ../../answers.txt; cmp ../../expected.txt ../../answers.txt

programs.txt has a line a program: the stem and the text of each routine, then entries and names, in hexadecimal digits.
expected.txt has the first refusal, or `ok`, the place past each line of each entry (`-` where there is none), and whether
each name is shared. In the texts of random programs a zero byte, which is taken away, stands before each call: so the
second linker knows no commands. The crates are copied with what was proved of them; `rt run` proves what is left. `rt try
--steps 10000 --seconds 600` proves nothing.
"""
import argparse
import json
import pathlib
import random
import re

from laying import HEXADECIMAL, lay

PROGRAM = """//! Links the programs of standard input, one a line, and prints what is answered.
#![tactic(auto)]

use mlk_program::{Program, link};
use mlk_routine::{Routine, read_routine};
use mlk_text::{Failure, Fault, Name};
use std::alloc::Global;
use std::io::{self, Read, Write};
""" + HEXADECIMAL + """
fn refuse(alloc: Global, out: &mut Vec<u8>, failure: &Failure<Fault>) -> io::Result<()> {
    let Failure::Refused(fault) = failure else {
        out.extend_from_slice(b"memory")?;
        return Ok(());
    };
    let (place, number) = (&fault.place, fault.code.number());
    out.extend_from_slice(place.routine.as_bytes())?;
    out.extend_from_slice(format!(in alloc; " {}:{} {number} ", place.line, place.column)?.as_bytes())?;
    out.extend_from_slice(fault.code.word())?;
    if let Some(what) = &fault.left_out {
        out.extend_from_slice(b" ")?;
        out.extend_from_slice(what.word())?;
    }
    Ok(())
}

fn tell_entry(alloc: Global, out: &mut Vec<u8>, program: &Program<'_>, text: &[u8]) -> io::Result<()> {
    let Some(entry) = program.entry(text) else {
        out.extend_from_slice(b" -")?;
        return Ok(());
    };
    let mut before = b' ';
    for line in program.lines_of(entry) {
        out.push(before)?;
        out.extend_from_slice(format!(in alloc; "{}:{}", line.number, line.end)?.as_bytes())?;
        before = b',';
    }
    Ok(())
}

fn tell(alloc: Global, out: &mut Vec<u8>, program: &Program<'_>, line: &[u8]) -> io::Result<()> {
    out.extend_from_slice(b"ok")?;
    for word in line.split(|b| *b == b' ') {
        if word.starts_with(b"e") {
            tell_entry(alloc, out, program, bytes(alloc, &word[1..])?.as_slice())?;
        } else if word.starts_with(b"n") {
            let is_shared = program.is_shared(&Name::new(bytes(alloc, &word[1..])?));
            out.extend_from_slice(if is_shared { b" yes" } else { b" no" })?;
        }
    }
    Ok(())
}

fn answer(alloc: Global, out: &mut Vec<u8>, line: &[u8]) -> io::Result<()> {
    let mut routines: Vec<Routine> = Vec::new(alloc);
    let mut stem = Vec::new(alloc);
    for word in line.split(|b| *b == b' ') {
        if word.starts_with(b"s") {
            stem = bytes(alloc, &word[1..])?;
        } else if word.starts_with(b"t") {
            match read_routine(alloc, stem.as_slice(), bytes(alloc, &word[1..])?.as_slice()) {
                Ok(routine) => routines.push(routine)?,
                Err(failure) => return refuse(alloc, out, &failure),
            }
        }
    }
    match link(alloc, routines.as_slice()) {
        Ok(program) => tell(alloc, out, &program, line),
        Err(failure) => refuse(alloc, out, &failure),
    }
}

fn main(rt: HostRuntime) -> io::Result<()> {
    let alloc = rt.alloc();
    let mut input: Vec<u8> = Vec::new(alloc);
    rt.stdin().read_to_end(&mut input)?;
    for line in input.as_slice().split(|b| *b == b'\\n') {
        let mut out = Vec::new(alloc);
        answer(alloc, &mut out, line)?;
        out.push(b'\\n')?;
        rt.stdout().write_all(out.as_slice())?;
    }
    Ok(())
}
"""
NAME = "[%A-Za-z][A-Za-z0-9]*"
LABEL = f"{NAME}|[0-9]+"
NAMES = "A B Q X Y Z %X Long x 1".split()
LABELS = ["A", "B", "F", "%L", "12", "007", "7", "Long9"]
STEMS = ["R", "S", "_T"]
ODD = ["", "^", "A", "A^", "^%", "A^R ", "A^R(1)", "A+1^R", "^_T", "A^R^S", "1A^R", "12^7"]
ENTRIES = [f"{label}^{name}" for name in ("R", "S", "%T", "U", "W") for label in ["", *LABELS]] + ODD
MOST_ROUTINES, MOST_ENTRIES, MOST_LINES = 65535, 1048575, 65535


# The second linker.


class Line:
    def __init__(self, number, marked):
        self.number, self.marked, self.text = number, marked, marked.replace("\0", "")
        label, formals, periods = re.match(rf"({LABEL})?(\([^)]*\))?[ \t]*((?:\.[ \t]*)*)", self.text).groups()
        self.label, self.level = label, 1 + periods.count(".")
        self.formals = None if formals is None else re.findall(NAME, formals)

    def told(self):
        return f"{self.number}:{len(self.text) + 1}"

    def calls(self):
        """The column, the label, the routine and the actuals of each."""
        before, *parts = self.marked.split("\0")
        at = len(before)
        for i, part in enumerate(parts):
            rest = "".join(parts[i:])
            found = re.match(rf"(?:\$\$)?({LABEL})?(?:\^({NAME}))?", rest)
            yield at + 1, found[1], found[2], actuals(rest[found.end() :])
            at += len(part)


def actuals(text):
    """Those of the list that begins here; nothing where none does."""
    if not text.startswith("("):
        return None
    found, depth, is_quoted = [""], 0, False
    for byte in text:
        is_quoted ^= byte == '"'
        depth += 0 if is_quoted else (byte == "(") - (byte == ")")
        if depth == 0:
            break
        if byte == "," and depth == 1 and not is_quoted:
            found.append("")
        else:
            found[-1] += byte
    given = [found[0][1:], *found[1:]]
    return [] if given == [""] else given


def takes(formals, given):
    """Whether a line with these formals takes these actuals; None is no list."""
    if given is None:
        return not formals
    return formals is not None and len(given) <= len(formals)


class Linked:
    """Routines, each a stem and its marked lines, as a program; `refusal` says why they are none."""

    def __init__(self, routines):
        self.names = [re.sub("^_", "%", stem) for stem, _ in routines]
        self.lines = [[Line(number, text) for number, text in enumerate(lines, 1)] for _, lines in routines]
        self.shared = set()
        self.refusal = self.twice() or self.past_limit() or self.unlinked()

    def twice(self):
        before = set()
        for name in self.names:
            if name in before:
                return f"{name} 1:1 301 RoutineTwice"
            before.add(name)

    def past_limit(self):
        entries = 0
        for i, (name, lines) in enumerate(zip(self.names, self.lines), 1):
            entries += sum(line.number == 1 or line.label is not None for line in lines)
            if i > MOST_ROUTINES or entries > MOST_ENTRIES:
                return f"{name} 1:1 304 TooMany"

    def called(self, name, label):
        """The lines of an entry, up to the next with formals."""
        if name not in self.names:
            return []
        top = [line for line in self.lines[self.names.index(name)] if line.level == 1]
        starts = [i for i, line in enumerate(top) if label is None or line.label == label]
        ends = [i for i, line in enumerate(top) if line.formals is not None and starts and i > starts[0]]
        return top[starts[0] : min([len(top), *ends])] if starts else []

    def unlinked(self):
        for name, lines in zip(self.names, self.lines):
            for line in lines:
                for column, label, routine, given in line.calls():
                    found = self.called(routine or name, label)
                    if not found:
                        return f"{name} {line.number}:{column} 302 UnknownLabel"
                    formals = found[0].formals
                    if not takes(formals, given):
                        return f"{name} {line.number}:{column} 303 Arity"
                    self.share(given or [], formals or [])

    def share(self, given, formals):
        for actual, formal in zip(given, formals):
            if re.fullmatch(rf"\.{NAME}", actual):
                self.shared |= {actual[1:], formal}

    def entry(self, text):
        parts = re.fullmatch(rf"({LABEL})?\^({NAME})", text)
        lines = self.called(parts[2], parts[1]) if parts else []
        return ",".join(line.told() for line in lines) or "-"

    def told(self):
        entries = [self.entry(text) for text in ENTRIES]
        return self.refusal or " ".join(["ok", *entries, *("yes" if name in self.shared else "no" for name in NAMES)])


# Random programs.


class Writer:
    def __init__(self, seed):
        self.random = random.Random(seed)

    def one(self, *some):
        """One of these; a function is called for its text."""
        chosen = self.random.choice(some)
        return chosen() if callable(chosen) else chosen

    def seldom(self):
        return self.random.random() < 0.01

    def listed(self, part, *counts):
        return ",".join(part() for _ in range(self.one(*counts)))

    def literal(self):
        return self.one("1", "25", ".5", '"a"', '"$$F(,"', '"""("', *NAMES[:-1])

    def subscripts(self, depth):
        return self.one("", lambda: f"({self.listed(lambda: self.expr(depth - 1), 1, 2)})") if depth else ""

    def variable(self, depth):
        return self.one("", "^") + self.one(*NAMES[:-1]) + self.subscripts(depth)

    def expr(self, depth):
        if depth < 1:
            return self.literal()
        inner = lambda: self.expr(depth - 1)
        return self.one(
            self.literal,
            lambda: self.variable(depth),
            lambda: f"{self.one('-', chr(39), '+')}{inner()}",
            lambda: f"({inner()}){self.one('+', '_', '=', chr(39) + '<')}{inner()}",
            lambda: f"{inner()}?1N{self.one('', '1(1A,.N)')}",
            lambda: f"$L({self.listed(inner, 1, 2)})",
            lambda: f"$S({inner()}:{inner()},1:{inner()})",
            lambda: f"$G({self.one('', '^')}A{self.subscripts(depth)},1)",
            *[lambda: self.call("$$", lambda: self.one(inner, inner, self.lent, ""))] * 4,
        )

    def lent(self):
        return "." + self.one(*NAMES[:-1])

    def callee(self):
        """The text of one, and its formals."""
        name, label, formals = self.one(*self.known)
        if self.seldom():
            return self.one("NONE", "^NONE", "A^NONE", "^U", "B^S", "F"), formals
        return label + (f"^{name}" if name != self.own or not label or self.one(0, 1) else ""), formals

    def call(self, sign, actual):
        text, formals = self.callee()
        count = self.one(*range(len(formals) + 1)) + self.seldom() if formals is not None else 0
        if (formals is None or formals == [] and self.one(0, 1)) != self.seldom():
            return f"\0{sign}{text}"
        return f"\0{sign}{text}({','.join(actual() for _ in range(count))})"

    def do_argument(self):
        condition = self.one("", "", lambda: ":" + self.expr(2))
        plain = lambda: self.one(self.literal, self.lent, "")
        rich = lambda: self.one(lambda: self.expr(2), self.lent, "")
        return self.call("", plain if condition else rich) + condition

    def argument(self, word):
        expr = lambda: self.expr(2)
        variable = lambda: self.variable(1)
        several = lambda: self.one(variable, lambda: f"({self.listed(variable, 1, 2)})")
        return {
            "D": self.do_argument,
            "J": lambda: self.call("", lambda: self.one(expr, "")),
            "K": lambda: self.one(variable, "(A,B)"),
            "L": lambda: self.one(lambda: f"+{several()}{self.one('', ':5')}", lambda: f"-{several()}", "^A(1):X"),
            "M": lambda: "^A(1)=X",
            "N": lambda: self.one("A", "(B,X)"),
            "R": lambda: self.one('"$$F"', lambda: f"!?{expr()}", lambda: f"X{self.subscripts(1)}#{expr()}:5", lambda: f"*Y{self.subscripts(1)}"),
            "S": lambda: f"{self.one(several, '$P(^A(1),X)')}={expr()}",
            "W": lambda: self.one(expr, lambda: f"*{expr()}", lambda: f"#?{expr()}"),
            "F": lambda: f"I={self.listed(lambda: ':'.join(expr() for _ in range(self.one(1, 2, 3))), 1, 2)}",
        }.get(word, expr)()

    def commands(self, may_return):
        found = ""
        for _ in range(self.one(0, 1, 1, 2, 3)):
            word = self.one(*"DDDJKLMNRSSWFIHEQ")
            may_return &= word != "F"
            head = word + (self.one("", "", lambda: f":{self.expr(1)}") if word not in "FIE" else "")
            if word == "E" or word == "Q" and not may_return or word in "KLNFIQ" and self.one(0, 0, 1):
                found += head + "  "
            else:
                found += f"{head} {self.listed(lambda: self.argument(word), 1, 1, 1 if word in 'QF' else 2)} "
        return found

    def lines(self, heads):
        for label, formals in heads:
            yield label + ("" if formals is None else f"({','.join(formals)})") + " " + self.commands(True) + self.one("", ";$$F")
            while self.one(0, 0, 1):
                yield self.one(lambda: " " + self.commands(True), "", ";$$F(1)")
            for periods in (".", "..") if self.one(0, 1) else ():
                yield f" {periods[1:]}{self.commands(False)}D  "
                yield f" {periods}{self.commands(False)}"

    def program(self):
        stems = self.random.sample(STEMS, self.one(1, 2, 3))
        formals = lambda: self.one(None, None, lambda: self.random.sample(NAMES[:-1], self.one(0, 1, 2, 3)))
        heads = [[(label, formals()) for label in self.random.sample(LABELS, self.one(1, 2, 4))] for _ in stems]
        for some in heads:
            some[:0] = [("", None)] * self.one(0, 1)
        names = [stem.replace("_", "%") for stem in stems]
        self.known = [(name, *head) for name, some in zip(names, heads) for head in some]
        self.known += [(name, "", some[0][1]) for name, some in zip(names, heads)]
        found = []
        for stem, name, some in zip(stems, names, heads):
            self.own = name
            found.append((stem, list(self.lines(some))))
        return found + self.one([], [], [], [("W", [])]) + ([(stems[0], [""])] if self.seldom() else [])


def limits():
    """Programs at the limits, and past them."""
    empty = [(f"R{i}", []) for i in range(MOST_ROUTINES + 1)]
    full, rest = divmod(MOST_ENTRIES, MOST_LINES)
    labelled = [(f"L{i}", [f"{n}" for n in range(MOST_LINES)]) for i in range(full)]
    last = lambda count: [("W", [*map(str, range(count)), " QUIT"])]
    return [empty[:-1], empty, labelled + last(rest), labelled + last(rest + 1)]


# What is written.


def hexed(kind, text):
    return kind + text.encode("latin-1").hex()


def cases(paths):
    """The routines of each case, and what must be answered."""
    for line in (line for path in paths for line in open(path, encoding="ascii")):
        case = json.loads(line)
        texts = [(re.sub(r"\.[^.]*$", "", path.split("/")[-1]), case["files"][path]) for path in case["words"][3:]]
        refused = re.fullmatch(r"refused (.*? \d+:\d+ [123]\d\d .*)\n", case["stderr"])
        yield " ".join(hexed("s", stem) + " " + hexed("t", text) for stem, text in texts), refused[1] if refused else "ok"


def answered(programs):
    """Programs, and what the second linker answers."""
    for routines in programs:
        end = "\r\n" if len(routines) == 2 else "\n"
        texts = [(stem, "".join(line.replace("\0", "") + end for line in lines)) for stem, lines in routines]
        words = [hexed("s", stem) + " " + hexed("t", text) for stem, text in texts]
        asked = [hexed("e", text) for text in ENTRIES] + [hexed("n", name) for name in NAMES]
        yield " ".join(words + asked), Linked(routines).told()


def main():
    parser = argparse.ArgumentParser(description=__doc__, formatter_class=argparse.RawDescriptionHelpFormatter)
    parser.add_argument("folder", metavar="DIR", type=pathlib.Path)
    parser.add_argument("cases", metavar="CASES", nargs="*")
    parser.add_argument("--random", metavar="N", type=int, nargs="+")
    parser.add_argument("--limits", action="store_true")
    words = parser.parse_args()
    lay(words.folder, "link_answers", "mlk_program mlk_routine mlk_text", PROGRAM)
    count, seed = [*(words.random or [0]), 1][:2]
    writer = Writer(seed)
    programs = limits() if words.limits else [writer.program() for _ in range(count)]
    pairs = [*cases(words.cases), *answered(programs)]
    (words.folder / "programs.txt").write_text("\n".join(text for text, _ in pairs))
    (words.folder / "expected.txt").write_bytes("".join(f"{said}\n" for _, said in pairs).encode("latin-1"))
    print(len(pairs), "programs,", sum(not said.startswith("ok") for _, said in pairs), "refused")


if __name__ == "__main__":
    main()
