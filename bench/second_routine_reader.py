#!/usr/bin/env python3
"""A second reader of M routines, to compare `mlk_routine` with.

    second_routine_reader.py CASES              whether it gives each refusal of 101 to 211 that is expected of a command line
                                                in a file of JSON objects, one a line
    second_routine_reader.py --write DIR [ROUTINES [SEED]]
                                                20,000 random routines and seed 1 where nothing is said: routines.txt has a line
                                                for each, its stem and its text in hexadecimal digits, expected.txt the answers

    cd DIR/crates/routine_answers && rt run < ../../routines.txt > ../../answers.txt; cmp ../../expected.txt ../../answers.txt

The crates that it stands on are copied to DIR with what was proved of them; `rt run` proves what is left, `rt try` nothing.
It follows docs/reference/ROUTINES.md and nothing else, and takes expressions from second_reader.py. Each part of a line gives all
places where it may end, from all places where it may begin; what stands at the furthest place that some way could take is
the fault, unless something before it is refused by name.
"""
import json
import pathlib
import re
import sys

from laying import HEXADECIMAL, lay
from second_reader import DIGITS, EVERYTHING, LETTERS, NO_CALLS, NO_TOUCHES
from second_reader import SecondReader, Writer, actuals, expression, reference

COMMANDS = "D=DO E=ELSE F=FOR HALT=HALT HANG=HANG I=IF J=JOB K=KILL L=LOCK M=MERGE N=NEW Q=QUIT R=READ S=SET W=WRITE"
LEFT_OUT = """B=BREAK C=CLOSE G=GOTO O=OPEN U=USE V=VIEW X=XECUTE TS=TSTART TC=TCOMMIT TRO=TROLLBACK TRE=TRESTART
ABLOCK=ABLOCK ASTART=ASTART ASTOP=ASTOP AUNBLOCK=AUNBLOCK ESTART=ESTART ESTOP=ESTOP ETRIGGER=ETRIGGER"""
LEFT_OUT = {word: pair.split("=")[1] for pair in LEFT_OUT.split() for word in pair.split("=")}
COMMANDS = {word: pair.split("=")[1] for pair in COMMANDS.split() for word in pair.split("=")}
UNCONDITIONAL = {"IF", "ELSE", "FOR"}
NEVER = {"ELSE", "HALT"}  # an argument
PERHAPS = {"DO", "FOR", "IF", "KILL", "LOCK", "NEW", "QUIT"}
BEGINS = LETTERS | {"%"}
IN_COMMENTS = {chr(b) for b in [9, *range(32, 127), *range(128, 256)]}
ELSEWHERE = {chr(b) for b in range(32, 127)}
NAMES = {101: "ExprForm", 102: "ExprLeftOut", 103: "ExprDeep", 104: "NameLong", 201: "Byte", 202: "LineForm"}
NAMES |= {203: "LabelTwice", 204: "LevelJump", 205: "UnknownCommand", 206: "CommandLeftOut", 207: "ArgumentForm"}
NAMES |= {208: "Spacing", 209: "BlockUnreached", 210: "TooLarge", 211: "RoutineName"}
ABOVE_LINES = {203, 204, 209, 210}
MOST_BYTES, MOST_LINES, MOST_LEVELS, MOST_LOOPS = 1 << 20, 65535, 15, 255


PROGRAM = """//! Reads routines from standard input: a line each, the stem and the text in hexadecimal digits with a space between.
#![tactic(auto)]

use mlk_routine::read_routine;
use mlk_text::Failure;
use std::alloc::Global;
use std::io::{self, Read};
""" + HEXADECIMAL + """
fn answer(rt: &HostRuntime, alloc: Global, line: &[u8]) -> io::Result<()> {
    let Some(space) = line.iter().position(|b| *b == b' ') else {
        return Ok(());
    };
    let (stem, text) = line.split_at(space);
    let stem = bytes(alloc, stem)?;
    let text = bytes(alloc, &text[1..])?;
    match read_routine(alloc, stem.as_slice(), text.as_slice()) {
        Ok(_) => println!(rt; "ok"),
        Err(Failure::OutOfMemory) => println!(rt; "memory"),
        Err(Failure::Refused(fault)) => {
            let word = match &fault.left_out {
                Some(what) => what.word(),
                None => b"-".as_slice(),
            };
            println!(rt; "{} {} {} {word:?}", fault.place.line, fault.place.column, fault.code.number())
        }
    }
}

fn main(rt: HostRuntime) -> io::Result<()> {
    let mut text = Vec::new(rt.alloc());
    rt.stdin().read_to_end(&mut text)?;
    for line in text.as_slice().split(|b| *b == b'\\n') {
        answer(&rt, rt.alloc(), line)?;
    }
    Ok(())
}
"""


class Line:
    """The ways to read one line. `stops` are the faults: of a way that breaks off, and what is refused by name."""

    def __init__(self, text):
        self.text, self.stops, self.named = text, [], []
        self.label, self.level, self.has_block, self.is_whole = None, None, False, False
        self.line_start()

    def at(self, i):
        return self.text[i : i + 1]

    def stop(self, i, code):
        self.stops.append((i, code, "-"))
        return set()

    def refuse(self, i, code, word="-"):
        self.named.append((i, code, word))
        return set()

    def take(self, ends, some, code):
        """After one of these bytes."""
        found = {i + 1 for i in ends if self.at(i) and self.at(i) in some}
        for i in ends:
            if i + 1 not in found:
                self.stop(i, code)
        return found

    def look(self, ends, some):
        """After one of these bytes, where it stands there; that it doesn't is no fault."""
        return {i + 1 for i in ends if self.at(i) and self.at(i) in some}

    def run(self, ends, some):
        found = last = set(ends)
        while last:
            last = self.look(last, some) - found
            found = found | last
        return found

    # -- parts of other readers

    def part(self, ends, read, *where):
        """After a part that another reader knows, which has at most one end."""
        found = set()
        for i in ends:
            answer = read(self.text[i:], *where)
            if isinstance(answer, int):
                found.add(i + answer)
            else:
                code, column, word = answer
                if word == "-" and code == 101:
                    self.stop(i + column - 1, code)
                else:
                    self.refuse(i + column - 1, code, word)
        return found

    def expr(self, ends, less=EVERYTHING):
        return self.part(ends, expression, less)

    def variable(self, ends, less=EVERYTHING):
        """A local or a global name; where none begins, the argument has another form."""
        found = set()
        for i in ends:
            if self.at(i) and self.at(i) in BEGINS | {"^", "@"}:
                found |= self.part({i}, reference, less)
            else:
                self.stop(i, 207)
        return found

    def name(self, ends, code=207):
        """A name, as far as it goes."""
        found = set()
        for i in ends:
            if self.at(i) == "@" and code == 207:
                self.refuse(i, 102, "INDIRECTION")
            elif not self.at(i) or self.at(i) not in BEGINS:
                self.stop(i, code)
            else:
                end = i + 1
                while self.at(end) and self.at(end) in LETTERS | DIGITS:
                    end += 1
                if end - i > 31:
                    self.refuse(i, 104)
                else:
                    found.add(end)
        return found

    def label_at(self, ends, code=207):
        found = set()
        for i in ends:
            if self.at(i) and self.at(i) in DIGITS:
                found.add(max(self.run({i}, DIGITS)))
            else:
                found |= self.name({i}, code)
        return found

    def listed(self, ends, part, code=207):
        """One or more, with commas between them."""
        found = last = part(ends)
        while last:
            last = part(self.look(last, ",")) - found
            found = found | last
        return found

    def enclosed(self, ends, part):
        """In parentheses: one or more, with commas between them."""
        return self.take(self.listed(self.look(ends, "("), part), ")", 207)

    def one_or_enclosed(self, ends, part):
        open_here = {i for i in ends if self.at(i) == "("}
        return self.enclosed(open_here, part) | part(ends - open_here)

    # -- the arguments of each command, from the places where one begins to those where it may end

    def callee(self, ends):
        found = set()
        for i in ends:
            labels = set() if self.at(i) == "^" else self.label_at({i})
            for j in labels | ({i} if self.at(i) == "^" else set()):
                if j in labels and self.at(j) == "+":
                    self.refuse(j, 102, "OFFSET")
                elif self.at(j) != "^":
                    found.add(j)
                elif self.at(j + 1) == "|":
                    self.refuse(j, 102, "ENVIRONMENT")
                else:
                    found |= self.name({j + 1})
        return found

    def do_argument(self, ends):
        found = set()
        for i in ends:
            for called in self.callee({i}):
                given = self.part({called}, actuals) if self.at(called) == "(" else {called}
                for end in given:
                    if self.at(end) != ":":
                        found.add(end)
                        continue
                    again = self.part({called}, actuals, NO_TOUCHES) if end > called else {end}
                    found |= self.expr({j + 1 for j in again})
        return found

    def job_argument(self, ends):
        found = set()
        for i in ends:
            for called in self.callee({i}):
                for end in self.part({called}, actuals, EVERYTHING, False) if self.at(called) == "(" else {called}:
                    if self.at(end) == ":":
                        self.refuse(end, 102, "TIMEOUT")
                    else:
                        found.add(end)
        return found

    def kill_argument(self, ends):
        open_here = {i for i in ends if self.at(i) == "("}
        return self.enclosed(open_here, self.name) | self.variable(ends - open_here)

    def new_argument(self, ends):
        found = set()
        for i in ends:
            if self.at(i) == "(":
                found |= self.enclosed({i}, self.name)
            elif self.at(i) == "$" and self.at(i + 1) in LETTERS and self.at(i + 1) and not self.is_function(i):
                self.refuse(i, 102, "SPECIAL")
            else:
                found |= self.name({i})
        return found

    def lock_argument(self, ends):
        found = set()
        for i in ends:
            sign = self.at(i) if self.at(i) in ("+", "-") else ""
            less = EVERYTHING if sign else NO_TOUCHES
            names = self.one_or_enclosed({i + len(sign)}, lambda places: self.variable(places, less))
            for j in names:
                if self.at(j) != ":":
                    found.add(j)
                elif sign == "-":
                    self.refuse(j, 102, "TIMEOUT")
                else:
                    found |= self.expr({j + 1}, NO_CALLS if sign else NO_TOUCHES)
        return found

    def merge_argument(self, ends):
        return self.variable(self.take(self.variable(ends, NO_CALLS), "=", 207), NO_CALLS)

    def timeout(self, ends):
        return ends | self.expr(self.look(ends, ":"), NO_CALLS)

    def local(self, ends):
        found = set()
        for i in ends:
            if self.at(i) == "^":
                self.refuse(i, 102, "GLOBALREAD")
            else:
                found |= self.variable({i})
        return found

    def read_argument(self, ends):
        found = set()
        for i in ends:
            first = self.at(i)
            if first == '"':
                found |= self.string(i)
            elif first and first in "!#?":
                found |= self.format({i})
            elif first == "*":
                found |= self.timeout(self.local({i + 1}))
            else:
                names = self.local({i})
                found |= self.timeout(names | self.expr(self.look(names, "#")))
        return found

    def string(self, i):
        reader = SecondReader(self.text)
        ends = reader.string(i)
        return {max(ends)} if ends else self.stop(reader.furthest, 101)

    def format(self, ends):
        marks = self.run(ends, "!#")
        return (marks - ends) | self.expr(self.look(marks, "?"))

    def write_argument(self, ends):
        found = set()
        for i in ends:
            if self.at(i) and self.at(i) in "!#?":
                found |= self.format({i})
            else:
                found |= self.expr({i + 1} if self.at(i) == "*" else {i})
        return found

    def word_end(self, i):
        while self.at(i) and self.at(i) in LETTERS:
            i += 1
        return i

    def is_function(self, i):
        return self.at(self.word_end(i + 1)) == "("

    def target(self, ends):
        found = set()
        for i in ends:
            if self.at(i) != "$":
                found |= self.variable({i})
            elif self.at(i + 1) == "&":
                self.refuse(i, 102, "EXTERNAL")
            elif self.at(i + 1) == "$":
                self.stop(i, 207)
            elif not self.at(i + 1) or self.at(i + 1) not in LETTERS:
                self.stop(i + 1, 207)
            else:
                found |= self.part_target(i)
        return found

    def part_target(self, i):
        end = self.word_end(i + 1)
        word = self.text[i + 1 : end].upper()
        if self.at(end) != "(":
            return self.refuse(i, 102, "SPECIAL")
        known = SecondReader(self.text).word(i)[0]
        if not known:
            return self.refuse(i, 102, "FUNCTION")
        if word not in ("P", "PIECE", "E", "EXTRACT"):
            return self.stop(i, 207)
        found = last = self.variable({end + 1}, NO_CALLS)
        while last:
            last = self.expr(self.look(last, ","), NO_CALLS) - found
            found = found | last
        return self.take(found, ")", 207)

    def set_argument(self, ends):
        return self.expr(self.take(self.one_or_enclosed(ends, self.target), "=", 207))

    def parameter(self, ends):
        one = self.expr(ends)
        two = self.expr(self.look(one, ":"))
        return one | two | self.expr(self.look(two, ":"))

    def for_argument(self, ends):
        found = set()
        for i in ends:
            if self.at(i) == "^":
                self.stop(i, 207)
                continue
            for end in self.name({i}):
                if self.at(end) == "(":
                    self.refuse(i, 102, "FORVARIABLE")
                else:
                    found |= self.listed(self.take({end}, "=", 207), self.parameter)
        return found

    def quit_argument(self, ends, may_return):
        for i in ends if not may_return else ():
            self.refuse(i, 102, " QUITVALUE")  # before another word
        return self.expr(ends)

    def arguments(self, command, i, may_return):
        if command == "QUIT":
            return self.quit_argument({i}, may_return)
        if command == "FOR":
            return self.for_argument({i})
        part = {"DO": self.do_argument, "JOB": self.job_argument, "KILL": self.kill_argument, "NEW": self.new_argument,
                "LOCK": self.lock_argument, "MERGE": self.merge_argument, "READ": self.read_argument,
                "WRITE": self.write_argument, "SET": self.set_argument, "HANG": self.expr, "IF": self.expr}[command]
        return self.listed({i}, part)

    # -- commands

    def at_end(self, i):
        return not self.at(i) or self.at(i) == ";"

    def end_of_line(self, i):
        """A comment, or nothing."""
        end = max(self.run({i + 1}, IN_COMMENTS)) if self.at(i) == ";" else i
        self.is_whole = not self.at(end)
        if not self.is_whole:
            self.stop(end, 201)

    def after(self, i, least):
        """Where the next command begins, after so many spaces at least; none where the line ends."""
        end = max(self.run({i}, " "))
        if self.at_end(end):
            self.end_of_line(end)
            return None
        if end - i < least:
            self.stop(end, 208)
            return None
        return end

    def commands(self, i):
        loops = 0
        while i is not None:
            end = self.word_end(i)
            word = self.text[i:end].upper()
            if word == "F" or word == "FOR":
                loops += 1
            if loops > MOST_LOOPS:
                self.refuse(i, 210)
            if word != "H" and word not in COMMANDS:
                if word in LEFT_OUT or word[:1] == "Z":
                    self.refuse(i, 206, LEFT_OUT.get(word, word))
                else:
                    self.stop(i, 205)
                return
            i = self.command(word, end, loops)

    def command(self, word, i, loops):
        """Where the command after this one begins."""
        if self.at(i) == ":" and COMMANDS.get(word) not in UNCONDITIONAL:
            ends = self.expr({i + 1})
            if not ends:
                return None
            (i,) = ends
        gap = max(self.run({i}, " "))
        is_bare = gap - i != 1 or self.at_end(gap)
        command = COMMANDS.get(word, "HALT" if is_bare else "HANG")
        if command in NEVER or is_bare and command in PERHAPS:
            self.has_block = self.has_block or command == "DO"
            return self.after(i, 2)
        if gap == i or self.at(i + 1) == " ":
            self.stop(min(gap, i + 1), 208)
            return None
        for end in self.arguments(command, i + 1, loops == 0 and self.level == 1):
            if self.at(end) in ("", " ", ";"):
                return self.after(end, 1)
            self.stop(end, 208)
        return None

    # -- lines

    def line_start(self):
        ends = {0}
        if self.at(0) and self.at(0) in BEGINS | DIGITS:
            ends = self.label_at(ends, 202)
            for end in ends:
                self.label = self.text[:end]
                ends = self.formals(end) if self.at(end) == "(" else ends
        for end in ends:
            self.after_label(end)

    def formals(self, i):
        if self.at(i + 1) == ")":
            return {i + 2}
        names = []

        def formal(ends):
            found = self.name(ends, 202)
            for start in ends if found else ():
                name = self.text[start : max(found)]
                if name in names:
                    self.refuse(start, 202)
                names.append(name)
            return found

        return self.take(self.listed({i + 1}, formal), ")", 202)

    def after_label(self, i):
        start = max(self.run({i}, " \t"))
        if start == i:
            self.level = 1
            if not self.at_end(i):
                self.stop(i, 202)
            else:
                self.end_of_line(i)
            return
        periods = 0
        while self.at(start) == ".":
            periods += 1
            start = max(self.run({start + 1}, " \t"))
        self.level = periods + 1
        if self.level > MOST_LEVELS:
            self.refuse(0, 210)
        if self.label is not None and periods:
            self.refuse(0, 202)
        if self.at_end(start):
            self.end_of_line(start)
        else:
            self.commands(start)

    def fault(self):
        """The first fault of the line itself: its byte, its code, and what is left out."""
        furthest = max([stop[0] for stop in self.stops], default=0)
        last = min([stop[0] for stop in self.named], default=furthest)
        stops = [stop for stop in self.stops if stop[0] == last and not self.is_whole]
        faults = self.named + stops
        if not faults:
            return None
        at, code, word = min(faults)
        if self.at(at) and self.at(at) not in ELSEWHERE and code not in ABOVE_LINES:
            code, word = 201, "-"
        return at, code, word.strip()


def routine_name(stem):
    return "%" + stem[1:] if stem.startswith("_") else stem


def lines_of(text):
    *ended, last = text.split("\n")
    lines = [line[:-1] if line.endswith("\r") else line for line in ended]
    return lines + [last] if last else lines


def routine(stem, text):
    """The first fault of a routine: line, column, code, what is left out; none where it is read."""
    if not re.fullmatch("[%A-Za-z][A-Za-z0-9]{0,30}", routine_name(stem)):
        return 1, 1, 211, "-"
    lines = lines_of(text)
    if len(text) > MOST_BYTES or len(lines) > MOST_LINES:
        return 1, 1, 210, "-"
    labels, before, heads = set(), 0, {}
    for number, line in enumerate(map(Line, lines), 1):
        faults = [line.fault()] if line.fault() else []
        if line.label is not None and line.label in labels:
            faults.append((0, 203, "-"))
        if line.level is not None and line.level > before + 1:
            faults.append((0, 204, "-"))
        if line.level == before + 1 and before and not heads[before]:
            faults.append((0, 209, "-"))
        if faults:
            at, code, word = min(faults)
            return number, at + 1, code, word
        labels.add(line.label)
        before = line.level
        heads[before] = line.has_block
    return None


def told(stem, answer):
    """The line that `mlock` prints of a refusal."""
    line, column, code, word = answer
    name = stem if code == 211 else routine_name(stem)
    return f"refused {name} {line}:{column} {code} {NAMES[code]}" + (f" {word}" if word != "-" else "")


class RoutineWriter(Writer):
    """Random routines, and what is almost one."""

    BYTES = Writer.BYTES + "  ..;;::((,,SKQFDL\t\r\x01\x7f\xe9"

    def names(self):
        return f"({self.listed(self.name, 0)})"

    def call(self, depth):
        return self.one("A", "F", "12", "A^R", "^R", "F+1") + self.one("", lambda: self.actuals(depth))

    def format(self, depth):
        marks = lambda: "".join(self.one("!", "#") for _ in range(self.one(0, 1, 2)))
        return marks() + self.one("", "!", lambda: "?" + self.expr(depth))

    def target(self, depth):
        more = lambda: "".join("," + self.local(depth) for _ in range(self.one(0, 1, 2)))
        part = lambda: f"${self.one('P', 'piece', 'E', 'EXTRACT', 'L', 'X')}({self.variable(depth)}{more()})"
        return self.one(lambda: self.variable(depth), lambda: self.variable(depth), part)

    def one_or_several(self, part):
        return self.one(part, part, lambda: f"({self.listed(part, 0)})")

    def argument(self, word, depth):
        expr = lambda: self.expr(depth)
        timed = lambda: self.one("", "", lambda: ":" + expr())
        return {
            "DO": lambda: self.call(depth) + timed(),
            "FOR": lambda: self.name() + self.one("=", "=", "(") + self.listed(lambda: ":".join(expr() for _ in range(self.one(1, 2, 3, 3, 4))), 1),
            "JOB": lambda: self.call(depth) + self.one("", "", "", ":5"),
            "KILL": lambda: self.one(lambda: self.variable(depth), lambda: self.variable(depth), self.names),
            "LOCK": lambda: self.one("", "+", "-") + self.one_or_several(lambda: self.variable(depth)) + timed(),
            "MERGE": lambda: self.variable(depth) + "=" + self.variable(depth),
            "NEW": lambda: self.one(self.name, self.name, self.names, "$T"),
            "READ": lambda: self.one('"a"', lambda: self.format(depth), lambda: self.one("", "*") + self.variable(depth) + self.one("", "#5") + timed()),
            "SET": lambda: self.one_or_several(lambda: self.target(depth)) + "=" + expr(),
            "WRITE": lambda: self.one(expr, expr, lambda: "*" + expr(), lambda: self.format(depth)),
        }.get(word, expr)()

    def command(self, depth):
        word = self.one(*COMMANDS.values(), "SET", "DO", "LOCK", "QUIT", "GOTO", "ZW")
        short = next((short for short, whole in COMMANDS.items() if whole == word), word)
        condition = self.one("", "", "", lambda: ":" + self.expr(depth)) if word not in UNCONDITIONAL else ""
        head = self.one(word, word.lower(), short, short[:1]) + condition
        if word in NEVER or word in PERHAPS and self.random.random() < 0.4:
            return head + self.one("  ", "  ", "   ", " ")
        several = 1 if word in ("QUIT", "FOR") else self.one(1, 1, 2)
        return head + " " + ",".join(self.argument(word, depth) for _ in range(several)) + self.one(" ", " ", " ", "  ", "")

    def body(self):
        commands = "".join(self.command(self.one(0, 1, 1)) for _ in range(self.one(0, 1, 1, 2, 3)))
        return commands + self.one("", "", ";c")

    def text_line(self, level):
        if level == 1 and self.random.random() < 0.4:
            label = self.one("A", "B", "F", "12", "%Z", "007", lambda: self.name())
            return label + self.one("", "", "()", lambda: self.names()) + self.one(" ", "\t", "") + self.body()
        return self.one(" ", " ", "\t", "  ") + "".join("." + self.one("", " ") for _ in range(level - 1)) + self.body()

    def routine(self):
        lines, level = [], 1
        for _ in range(self.one(1, 1, 2, 3, 5)):
            lines.append(self.text_line(level) if self.random.random() < 0.95 else self.one("", ";c", " "))
            level = max(1, level + self.one(-1, 0, 0, 0, 1))
            if level > 1 and self.random.random() < 0.7:
                lines[-1] += self.one(" D", " DO  ", " D:1")
        text = self.one("\n", "\n", "\r\n").join(lines) + self.one("\n", "\n", "")
        for _ in range(self.one(0, 0, 1, 1)):
            at = self.random.randint(0, len(text))
            text = text[:at] + self.one("", self.one(*self.BYTES)) + text[at + self.one(0, 1) :]
        return text


def write(folder, count, seed):
    writer = RoutineWriter(seed)
    texts = [writer.routine() for _ in range(count)]
    lay(folder, "routine_answers", "mlk_routine mlk_text", PROGRAM)
    lines = [f"{b'R'.hex()} {text.encode('latin-1').hex()}\n" for text in texts]
    (folder / "routines.txt").write_text("".join(lines))
    answers = [routine("R", text) for text in texts]
    said = ["ok" if not a else f"{a[0]} {a[1]} {a[2]} {list(a[3].encode())}" for a in answers]
    (folder / "expected.txt").write_text("\n".join(said) + "\n")


def compare(path):
    agreed = differ = 0
    for number, line in enumerate(open(path, encoding="ascii"), 1):
        case = json.loads(line)
        expected = case["stderr"].rstrip("\n")
        code = re.search(r" \d+:\d+ (\d+) ", expected)
        code = int(code[1]) if code else 0
        given = ""
        for path in case["words"][3:]:
            stem = path.rsplit("/", 1)[-1]
            stem = stem.rsplit(".", 1)[0] if "." in stem else stem
            answer = routine(stem, case["files"][path])
            if answer and not given:
                given = told(stem, answer)
        if given == (expected if code < 300 else ""):
            agreed += 1
            continue
        differ += 1
        if differ <= 20:
            print(f"{number}: expected {expected!r}, given {given!r}")
            for path in case["words"][3:]:
                print("   ", repr(case["files"][path][:300]))
    print(f"{agreed} agree, {differ} differ")


def main():
    if sys.argv[1] == "--write":
        count, seed = (list(map(int, sys.argv[3:])) + [20_000, 1][len(sys.argv) - 3 :])[:2]
        write(pathlib.Path(sys.argv[2]), count, seed)
    else:
        compare(sys.argv[1])


if __name__ == "__main__":
    main()
