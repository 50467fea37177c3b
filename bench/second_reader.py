#!/usr/bin/env python3
"""A second reader of M's expressions, to compare `mlk_expr` with on random lines.

    second_reader.py DIR [LINES [SEED]]     20,000 lines and seed 1 where nothing is said

    cd DIR/crates/expr_answers && rt run < ../../lines.txt > ../../answers.txt; cmp ../../expected.txt ../../answers.txt

It follows docs/reference/EXPRESSIONS.md and nothing else: each part gives all places where it may end, and the first byte that
can't stand is the one after the furthest that some way could take. lines.txt has the lines, each after the byte from
which it is read, expected.txt seven answers for each: of an expression, a name with subscripts and an actual list
there, and of these where less may stand. The crates mlk_text and mlk_expr are copied with what was proved of them;
`rt run` proves what is left.
"""
import argparse
import pathlib
import random

from laying import lay

PROGRAM = """//! Reads each line of standard input in seven ways, from the byte that its first three digits tell.
#![tactic(auto)]

ghost use Rattle.std.specs.Prelude.{◌≤◌, length};

use mlk_expr::{Allows, Passing};
use mlk_expr::{read_actuals, read_actuals_where, read_expr, read_expr_where, read_ref, read_ref_where};
use mlk_text::{Failure, Fault};
use std::alloc::Global;
use std::io::{self, Read};

fn say(rt: &HostRuntime, answer: Result<usize, Failure<Fault>>) -> io::Result<()> {
    match answer {
        Ok(next) => println!(rt; "ok {next}"),
        Err(Failure::OutOfMemory) => println!(rt; "memory"),
        Err(Failure::Refused(fault)) => {
            let word = match &fault.left_out {
                Some(what) => what.word(),
                None => b"-".as_slice(),
            };
            println!(rt; "{} {} {word:?}", fault.code.number(), fault.place.column)
        }
    }
}

fn digit(b: u8) -> usize
    ensures { result ≤ 9 }
{
    if b >= 48 && b < 58 { b as usize - 48 } else { 0 }
}

fn answers(rt: &HostRuntime, alloc: Global, text: &[u8], at: usize) -> io::Result<()>
    requires { at ≤ length text.now }
{
    say(rt, read_expr(alloc, text, at).map(|read| read.1))?;
    say(rt, read_ref(alloc, text, at).map(|read| read.1))?;
    say(rt, read_actuals(alloc, text, at).map(|read| read.1))?;
    say(rt, read_expr_where(alloc, Allows::NoCalls, text, at).map(|read| read.1))?;
    say(rt, read_expr_where(alloc, Allows::NoTouches, text, at).map(|read| read.1))?;
    say(rt, read_ref_where(alloc, Allows::NoTouches, text, at).map(|read| read.1))?;
    let values = read_actuals_where(alloc, Allows::NoCalls, Passing::ByValue, text, at);
    say(rt, values.map(|read| read.1))
}

fn answer(rt: &HostRuntime, alloc: Global, line: &[u8]) -> io::Result<()> {
    if line.len() < 3 {
        return Ok(());
    }
    let (head, text) = line.split_at(3);
    let at = digit(head[0]) * 100 + digit(head[1]) * 10 + digit(head[2]);
    if at > text.len() {
        return Ok(());
    }
    answers(rt, alloc, text, at)
}

fn main(rt: HostRuntime) -> io::Result<()> {
    let mut text = Vec::new(rt.alloc());
    rt.stdin().read_to_end(&mut text)?;
    for line in text.as_slice().split(|b| *b == b'\\n') {
        answer(&rt, rt.alloc(), line)?;
    }
    Ok(())
}
"""
LETTERS = set("ABCDEFGHIJKLMNOPQRSTUVWXYZabcdefghijklmnopqrstuvwxyz")
DIGITS = set("0123456789")
CODES = set("ACELNPUacelnpu")
RELATIONS = ["=", "<", ">", "[", "]", "]]", "&", "!"]
OPERATORS = ["+", "-", "*", "/", "\\", "#", "**", "_"] + RELATIONS + ["'" + relation for relation in RELATIONS]
SPECIALS = set("D DEVICE H HOROLOG I IO J JOB K KEY P PRINCIPAL Q QUIT S STORAGE SY SYSTEM T TEST X Y".split())
FUNCTIONS = """A=ASCII C=CHAR D=DATA E=EXTRACT F=FIND FN=FNUMBER G=GET J=JUSTIFY L=LENGTH NA=NAME O=ORDER P=PIECE QL=QLENGTH
QS=QSUBSCRIPT Q=QUERY R=RANDOM RE=REVERSE S=SELECT TR=TRANSLATE"""
FUNCTION_OF = {word: pair.split("=")[1] for pair in FUNCTIONS.split() for word in pair.split("=")}


EVERYTHING, NO_CALLS, NO_TOUCHES = range(3)


class SecondReader:
    """Where the parts of a text may end, how far any way got, and what is refused by name.

    `left` counts the levels that are left; `less` says what may not stand: nothing, no call, no call and no global.
    """

    def __init__(self, text):
        self.text, self.furthest, self.refused, self.known = text, 0, [], {}

    def at(self, i):
        return self.text[i : i + 1]

    def take(self, ends, some):
        """After one byte of these, or after this text."""
        if isinstance(some, str):
            for byte in some:
                ends = self.take(ends, {byte})
            return ends
        ends = {i + 1 for i in ends if self.at(i) and self.at(i) in some}
        self.furthest = max([self.furthest, *ends])
        return ends

    def any_number(self, ends, part):
        """After the part as often as wished."""
        found, last = set(ends), set(ends)
        while last:
            last = part(last) - found
            found |= last
        return found

    def run(self, ends, some):
        return self.any_number(ends, lambda places: self.take(places, some))

    def of(self, part, ends, *where):
        """What a part gives at each of these places, worked out once a place."""
        found = set()
        for i in ends:
            if (part, i, where) not in self.known:
                self.known[part, i, where] = getattr(self, part)(i, *where)
            found |= self.known[part, i, where]
        return found

    def leaves_out(self, i, words):
        """Tells what is left out where one of these stands."""
        for text, word in words.items():
            if self.text.startswith(text, i):
                self.refused.append((i, 102, word))

    def commas(self, ends, part, most=None):
        found = last = part(ends)
        while last and most != 1:
            most = most and most - 1
            last = part(self.take(last, ",")) - found
            found = found | last
        return found

    # -- the parts, each from one place

    def name(self, i):
        first = self.take({i}, LETTERS | {"%"})
        found, last = set(first), first
        for _ in range(30):
            last = self.take(last, LETTERS | DIGITS)
            found |= last
        if last and self.at(max(last)) and self.at(max(last)) in LETTERS | DIGITS:
            self.refused.append((i, 104, "-"))
        return found

    def digits(self, ends):
        return self.run(self.take(ends, DIGITS), DIGITS)

    def number(self, i):
        whole = self.digits({i})
        ends = whole | self.run(self.take(whole, "."), DIGITS) | self.digits(self.take({i}, "."))
        exponent = self.take(ends, "E")
        return ends | self.digits(exponent | self.take(exponent, {"+", "-"}))

    def string(self, i):
        plain = {chr(b) for b in [9, *range(32, 127), *range(128, 256)] if chr(b) != '"'}
        inside = self.any_number(self.take({i}, '"'), lambda ends: self.take(ends, plain) | self.take(ends, '""'))
        return self.take(inside, '"')

    def subscripts(self, ends, left, less):
        return self.take(self.commas(self.take(ends, "("), lambda places: self.of("expr", places, left, less), 32), ")")

    def local(self, i, left, less):
        names = self.of("name", {i})
        return names | self.subscripts(names, left, less)

    def caret(self, i, less):
        self.leaves_out(i, {"^(": "NAKED", "^|": "ENVIRONMENT", "^$": "SSVN"})
        self.leaves_out(i + 1, {"@": "INDIRECTION"} if self.at(i) == "^" else {})
        if less < NO_TOUCHES or self.at(i + 1) in ("(", "|", "$", "@"):
            return self.take({i}, "^")
        self.leaves_out(i, {"^": "ORDER"})
        return set()

    def variable(self, i, left, less, bare=False):
        return self.of("local", {i} | self.caret(i, EVERYTHING if bare else less), left, less)

    def expr(self, i, left, less):
        def more(ends):
            operands = set().union(*[self.take(ends, operator) for operator in OPERATORS])
            patterns = self.take(ends, "?") | self.take(ends, "'?")
            return self.of("operand", operands, left, less) | self.of("pattern", patterns, left)

        return self.any_number(self.of("operand", {i}, left, less), more)

    def pattern(self, i, left):
        self.leaves_out(i, {"@": "INDIRECTION"})
        if not left:
            if self.at(i) and self.at(i) in DIGITS | {"."}:
                self.refused.append((i, 103, "-"))
            return set()
        first = self.of("atom", {i}, left)
        return self.any_number(first, lambda ends: self.of("atom", ends, left))

    def atom(self, i, left):
        digits = self.run({i}, DIGITS)
        counts = (digits | self.run(self.take(digits, "."), DIGITS)) - {i}
        choices = self.commas(self.take(counts, "("), lambda ends: self.of("pattern", ends, left - 1))
        return self.run(self.take(counts, CODES), CODES) | self.of("string", counts) | self.take(choices, ")")

    def operand(self, i, left, less):
        self.leaves_out(i, {"@": "INDIRECTION"})
        if not left:
            return self.too_deep(i, less)
        signed = self.of("operand", self.take({i}, {"+", "-", "'"}), left - 1, less)
        enclosed = self.take(self.of("expr", self.take({i}, "("), left - 1, less), ")")
        plain = self.number(i) | self.string(i) | self.variable(i, left - 1, less) | self.dollar(i, left - 1, less)
        return signed | enclosed | plain

    def too_deep(self, i, less):
        """Tells the fault of what begins here, though no more levels are left."""
        if self.at(i) == "^":
            self.leaves_out(i, {"^(": "NAKED", "^|": "ENVIRONMENT", "^$": "SSVN"})
            named = self.at(i + 1) in ("(", "|", "$")
            self.leaves_out(i, {"^": "ORDER"} if less == NO_TOUCHES and not named else {})
        if self.at(i) == "$":
            self.leaves_out(i, {"$$": "ORDER"} if less else {})
            self.word(i)
        begins = LETTERS | DIGITS | set("%\"^$(+-'")
        if self.at(i) and (self.at(i) in begins or self.at(i) == "." and self.at(i + 1) and self.at(i + 1) in DIGITS):
            self.refused.append((i, 103, "-"))
        return set()

    def word(self, i):
        """The word after a `$` and where it ends; none where it is left out."""
        self.leaves_out(i, {"$&": "EXTERNAL"})
        end = i + 1
        while self.at(end) and self.at(end) in LETTERS:
            end += 1
        word = self.text[i + 1 : end].upper()
        is_function = self.at(end) == "("
        if not word or word in (FUNCTION_OF if is_function else SPECIALS):
            return word, end
        self.refused.append((i, 102, "FUNCTION" if is_function else "SPECIAL"))
        return "", end

    def dollar(self, i, left, less):
        if self.at(i) != "$":
            return set()
        if less and self.at(i + 1) == "$":
            self.leaves_out(i, {"$$": "ORDER"})
            return set()
        after = self.take({i}, "$")
        if self.at(i + 1) == "$":
            return self.call(self.take(after, "$"), left, less)
        word, end = self.word(i)
        if not word:
            return set()
        self.furthest = max(self.furthest, end)
        return self.function(FUNCTION_OF[word], self.take({end}, "("), left, less) if self.at(end) == "(" else {end}

    def function(self, function, ends, left, less):
        expr = lambda places: self.of("expr", places, left, less)
        if function == "SELECT":
            return self.take(self.commas(ends, lambda places: expr(self.take(expr(places), ":"))), ")")
        if function not in ("DATA", "GET", "NAME", "ORDER", "QUERY"):
            return self.take(self.commas(ends, expr), ")")
        for i in ends:
            self.leaves_out(i, {"@": "INDIRECTION"})
        if ends and not left:
            return self.name_too_deep(ends, less)
        if function == "ORDER":
            globals_too = ends | set().union(*[self.caret(i, less) for i in ends])
            named = self.subscripts(self.of("name", globals_too), left - 1, less)
        else:
            named = self.of("variable", ends, left - 1, less)
        if function in ("GET", "NAME", "ORDER"):
            named |= self.of("expr", self.take(named, ","), left, NO_TOUCHES)
        return self.take(named, ")")

    def name_too_deep(self, ends, less):
        for i in ends:
            if self.at(i) and self.at(i) in LETTERS | set("%^"):
                self.too_deep(i, less)
        return set()

    def call(self, ends, left, less):
        for i in ends:
            self.leaves_out(i, {"@": "INDIRECTION"})
        labels = self.of("name", ends) | self.digits(ends)
        for i in labels | ends:
            self.leaves_out(i, {"^|": "ENVIRONMENT"})
        carets = self.take(labels | ends, "^")
        for i in carets:
            self.leaves_out(i, {"@": "INDIRECTION"})
        called = labels | self.of("name", carets)
        return called | self.actual_list(called, left, less)

    def actual(self, ends, left, less, lends):
        points = self.take(ends, ".")
        for i in points:
            self.leaves_out(i, {"@": "INDIRECTION"})
        named = self.of("name", points)
        if not lends:
            self.refused += [(i - 1, 207, "-") for i in points if self.of("name", {i}) and not self.too_long(i)]
            named = set()
        return ends | named | self.of("expr", ends, left, less)

    def too_long(self, i):
        return (i, 104, "-") in self.refused

    def actual_list(self, ends, left, less, lends=True):
        return self.take(self.commas(self.take(ends, "("), lambda places: self.actual(places, left, less, lends)), ")")

    # -- answers for the text from its first byte

    def refusal(self):
        """The fault: its code, its byte, and what is left out."""
        at, code, word = min([r for r in self.refused if r[0] <= self.furthest], default=(self.furthest, 101, "-"))
        return code, at + 1, word


def expression(text, less=EVERYTHING):
    reader = SecondReader(text)
    ends = [i for i in reader.of("expr", {0}, 64, less) if i == len(text) or text[i] in " ,):;"]
    return max(ends) if ends else reader.refusal()


def reference(text, less=EVERYTHING):
    reader = SecondReader(text)
    if not text or text[0] not in LETTERS | {"%", "^", "@"}:
        return reader.refusal()
    reader.leaves_out(0, {"@": "INDIRECTION"})
    goes_on = LETTERS | DIGITS | {"("}
    found = reader.variable(0, 63, less, bare=True)
    ends = [i for i in found if text[i - 1] == ")" or i == len(text) or text[i] not in goes_on]
    return max(ends) if ends else reader.refusal()


def actuals(text, less=EVERYTHING, lends=True):
    reader = SecondReader(text)
    ends = reader.actual_list({0}, 63, less, lends)
    return min(ends) if ends else reader.refusal()


def said(answer):
    """What the program prints of an answer."""
    if isinstance(answer, int):
        return f"ok {answer}"
    code, column, word = answer
    return f"{code} {column} {list(word.encode())}"


def moved(answer, at):
    """The answer for a text of which so many bytes stand before it."""
    return answer + at if isinstance(answer, int) else (answer[0], answer[1] + at, answer[2])


def answers(text):
    yield from (read(text) for read in (expression, reference, actuals))
    yield from (expression(text, less) for less in (NO_CALLS, NO_TOUCHES))
    yield reference(text, NO_TOUCHES)
    yield actuals(text, NO_CALLS, lends=False)


class Writer:
    """Random expressions, and what is almost one."""

    BYTES = "+-*/\\#_=<>[]&!'?.,:;()\"^$@|%AEN1 0ez"

    def __init__(self, seed):
        self.random = random.Random(seed)

    def one(self, *some):
        """One of these; a function is called for its text."""
        chosen = self.random.choice(some)
        return chosen() if callable(chosen) else chosen

    def listed(self, part, least):
        return ",".join(part() for _ in range(self.random.randint(least, 2)))

    def name(self):
        return self.one("A", "B1", "%X", "x", "LONGNAME", "E", "N1")

    def variable(self, depth):
        subscripts = lambda: f"({self.listed(lambda: self.expr(depth - 1), 1)})"
        return self.one("", "^") + self.name() + (self.one("", subscripts) if depth else "")

    def local(self, depth):
        """An expression that has seldom a global or a call."""
        return self.one(self.name(), "1", '"a"', lambda: self.expr(depth))

    def actuals(self, depth):
        actual = lambda: self.one("", lambda: "." + self.name(), lambda: self.expr(depth - 1))
        return f"({self.listed(actual, 0)})" if depth else ""

    def pattern(self, depth):
        choices = lambda: f"({self.listed(lambda: self.pattern(depth - 1), 1)})" if depth else "N"
        atom = lambda: self.one("1", "1.", ".", "1.3", ".3", "12") + self.one("N", "anp", "UC", "E", '"a"', '""', choices)
        return "".join(atom() for _ in range(self.one(1, 1, 2)))

    def expr(self, depth):
        matched = lambda: self.one("?", "'?") + self.pattern(depth)
        joined = lambda: self.one(*OPERATORS) + self.operand(depth)
        return self.operand(depth) + "".join(self.one(matched, joined, joined, joined) for _ in range(self.one(0, 0, 1, 1, 2)))

    def function(self, depth):
        inner = lambda: self.expr(depth - 1)
        return self.one(
            lambda: f"({inner()})",
            lambda: f"${self.one('L', 'PIECE', 'a', 'FN')}({self.listed(inner, 1)})",
            lambda: f"${self.one('G', 'name')}({self.variable(depth)}{self.one('', lambda: ',' + self.local(depth - 1))})",
            lambda: f"${self.one('D', 'Q')}({self.variable(depth)})",
            lambda: f"$O({self.one('', '^')}{self.name()}({inner()}))",
            lambda: f"$SELECT({inner()}:{inner()},1:{inner()})",
        )

    def operand(self, depth):
        signs = "".join(self.one("+", "-", "'") for _ in range(self.one(0, 0, 0, 1, 2)))
        number = lambda: self.one("1", "25", "2.5", ".5", "5.", "1E3", "1E-2", "00.50")
        text = lambda: self.one('""', '"a"', '"a""b"', '"x,y"')
        special = lambda: "$" + self.one("T", "TEST", "x", "h", "SY", "io", "Principal")
        call = lambda: "$$" + self.one("F", "F^R", "^R", "12", "12^R") + self.one("", lambda: self.actuals(depth))
        function = lambda: self.function(depth) if depth else number()
        return signs + self.one(number, text, lambda: self.variable(depth), special, call, function, function)

    def start(self):
        """What stands before the byte from which is read."""
        return self.one("", "", " SET X=", "^A(")

    def line(self):
        text = self.one(lambda: self.expr(2), lambda: self.expr(1), lambda: self.variable(2), lambda: self.actuals(2))[:100]
        for _ in range(self.one(0, 1, 1, 2)):
            at = self.random.randint(0, len(text))
            text = text[:at] + self.one("", self.one(*self.BYTES)) + text[at + self.one(0, 1) :]
        return text


def main():
    parser = argparse.ArgumentParser(description=__doc__, formatter_class=argparse.RawDescriptionHelpFormatter)
    parser.add_argument("folder", metavar="DIR", type=pathlib.Path)
    parser.add_argument("lines", metavar="LINES", type=int, nargs="?", default=20_000)
    parser.add_argument("seed", metavar="SEED", type=int, nargs="?", default=1)
    words = parser.parse_args()
    lay(words.folder, "expr_answers", "mlk_expr mlk_text", PROGRAM)
    writer = Writer(words.seed)
    texts = [(writer.start(), writer.line()) for _ in range(words.lines)]
    lines = [f"{len(start):03}{start}{text}" for start, text in texts]
    (words.folder / "lines.txt").write_text("\n".join(lines))
    expected = [said(moved(answer, len(start))) for start, text in texts for answer in answers(text)]
    (words.folder / "expected.txt").write_text("\n".join(expected) + "\n")


if __name__ == "__main__":
    main()
