#!/usr/bin/env python3
"""Writes a worked program as definitions, for a file of proofs: the trees of its routines, its rules and its certificate.

    worked_program.py NAME RULES CERT ROUTINE..

Reads what the worked programs need of M: NEW, LOCK, SET, KILL, IF, ELSE, FOR, DO, QUIT and WRITE, without blocks. Who reads the
definitions compares them with the texts above them; nothing else rests on this script.
"""
import pathlib
import re
import sys
import tomllib

COMMANDS = {'NEW': 'New', 'LOCK': 'Lock', 'SET': 'Set', 'KILL': 'Kill', 'IF': 'If', 'ELSE': 'Else', 'FOR': 'For', 'DO': 'Do',
            'QUIT': 'Quit', 'WRITE': 'Write'}
FUNCTIONS = {'GET': 'Get', 'ORDER': 'Order', 'DATA': 'Data'}
OPERATORS = {'+': 'op.Add', '_': 'op.Concatenate', '=': '(op.Is relation.Equals)', "'=": '(op.IsNot relation.Equals)',
             '>': '(op.Is relation.Greater)', '<': '(op.Is relation.Less)'}
NAME = re.compile(r'%?[A-Za-z][A-Za-z0-9]*')


def codes(text):
    return f'(codes "{text}")' if text else '[]'


def listed(items):
    return '(' + ' ∷ '.join([*items, '[]']) + ')' if items else '[]'


def optional(item):
    return f'(Some {item})' if item else 'None'


def folded(word, items, end):
    for item in reversed(items):
        end = f'({word} {item} {end})'
    return end


class Line:
    """What is left of a line."""

    def __init__(self, text, at):
        self.text, self.at = text, at

    def sees(self, piece):
        return self.text.startswith(piece, self.at)

    def takes(self, piece):
        if self.sees(piece):
            self.at += len(piece)
            return True
        return False

    def name(self):
        found = NAME.match(self.text, self.at)
        if found is None:
            return None
        self.at = found.end()
        return found.group()

    def column(self):
        return self.at + 1

    def several(self, item):
        items = [item()]
        while self.takes(','):
            items.append(item())
        return items

    def inside(self, item):
        """Items in parentheses, or none."""
        if not self.takes('('):
            return None
        items = [] if self.sees(')') else self.several(item)
        assert self.takes(')'), self.text[self.at:]
        return items

    def subscripts(self):
        def one():
            return f'{self.column()} {self.expression()}'
        return folded('sub', self.inside(one) or [], 'no_subs')

    def atom(self):
        if self.takes("'"):
            return f'(Prefixed unary.Not {self.atom()})'
        column = self.column()
        if self.takes('"'):
            end = self.text.index('"', self.at)
            value, self.at = self.text[self.at:end], end + 1
            return f'(Lit {codes(value)})'
        if found := re.compile(r'[0-9]+').match(self.text, self.at):
            self.at = found.end()
            return f'(Lit {codes(found.group())})'
        if self.takes('$$'):
            callee = self.callee()
            actuals = self.inside(lambda: f'(Given {self.expression()})')
            return f'(CallOf {column} {callee} {folded("actual", actuals, "no_actuals")})'
        if self.takes('$'):
            word = self.name()
            if word == 'JOB':
                return '(SpecialName special.Job)'
            return f'(Func function.{FUNCTIONS[word]} {folded("tree", self.inside(self.expression), "no_trees")})'
        return self.variable()

    def variable(self):
        column = self.column()
        if self.takes('^'):
            return f'(GlobalName {column} {codes(self.name())} {self.subscripts()})'
        return f'(LocalName {codes(self.name())} {self.subscripts()})'

    def named(self):
        return f'(Named {self.column()} {self.variable()})'

    def expression(self):
        first, links = self.atom(), []
        while operator := next((o for o in ("'=", *OPERATORS) if self.sees(o)), None):
            self.takes(operator)
            links.append(f'{OPERATORS[operator]} {self.atom()}')
        return f'(Chain {first} {folded("link", links, "no_links")})' if links else first

    def callee(self):
        label = self.name()
        routine = self.name() if self.takes('^') else None
        return f'(callee {optional(label and codes(label))} {optional(routine and codes(routine))})'

    def argument(self, word):
        column = self.column()
        if word == 'NEW':
            return f'(NewOne {column} {codes(self.name())})'
        if word == 'LOCK':
            sign = 'Plus' if self.takes('+') else 'Minus' if self.takes('-') else 'Bare'
            names = self.inside(self.named) or [self.named()]
            timeout = self.expression() if self.takes(':') else None
            return f'(LockNames sign.{sign} {listed(names)} {optional(timeout)})'
        if word == 'SET':
            target = self.named()
            assert self.takes('=')
            return f'(SetTo {listed([f"(SetWhole {target})"])} {self.expression()})'
        if word == 'KILL':
            return f'(KillOne {self.named()})'
        if word == 'DO':
            callee = self.callee()
            actuals = self.inside(lambda: f'(Given {self.expression()})')
            return f'(DoCall (Called {column} {callee} {optional(None if actuals is None else listed(actuals))}) None)'
        if word == 'WRITE':
            return '(WriteFormat None)' if self.takes('!') else f'(WriteValue {self.expression()})'
        return self.expression()

    def commands(self, loops=0):
        while self.takes(' '):
            pass
        if self.at == len(self.text) or self.sees(';'):
            return 'finished'
        column, word = self.column(), self.name()
        if word == 'FOR':
            return f'(then_for {column} {loops + 1} None {self.commands(loops + 1)})'
        condition = self.expression() if self.takes(':') else None
        bare = self.at == len(self.text) or self.sees('  ')
        if not bare:
            self.at += 1
        action = COMMANDS[word]
        if word == 'QUIT':
            action = f'(Quit {optional(None if bare else self.expression())})'
        elif word != 'ELSE':
            action = f'({action} {listed([] if bare else self.several(lambda: self.argument(word)))})'
        return f'(then_command (Does {column} {optional(condition)} {action}) {self.commands(loops)})'


def line_tree(number, text):
    line = Line(text, 0)
    label = line.name()
    formals = None if label is None else line.inside(lambda: codes(line.name()))
    heading = f'{number} 1 {len(text) + 1} {optional(label and codes(label))} {optional(None if formals is None else listed(formals))}'
    return f'(LineHead {heading}\n    {line.commands()})'


def routine_tree(path):
    lines = pathlib.Path(path).read_text().splitlines()
    trees = 'no_lines'
    for number, text in reversed(list(enumerate(lines, 1))):
        trees = f'(line {line_tree(number, text)}\n    no_lines\n    {trees})'
    return f'(Named_routine {codes(pathlib.Path(path).stem)} {trees})'


def lock_subscripts(text, literal):
    name, _, inner = text.removesuffix(')').partition('(')
    return name.removeprefix('^'), [literal(word) for word in inner.split(',') if inner]


def rule_lists(rules):
    def pattern(text):
        name, _, inner = text.removesuffix(')').partition('(')
        words = [word for word in inner.split(',') if word]
        extent = 'Tree' if '...' in words else 'Node'
        elements = ['element.Job' if word == '$J' else 'element.Variable' for word in words if word != '...']
        return f'(pattern_of {codes(name[1:])} {listed(elements)} extent.{extent})', [w for w in words if w not in ('...', '$J')]

    def cover(rule):
        of, variables = pattern(rule['global'])
        name, parts = lock_subscripts(rule['lock'], lambda word: f'(part_of.Place {variables.index(word)})')
        assert 'also' not in rule and rule.get('reads', 'locked') == 'locked', rule
        return f'(cover {of} (template (root.Global {codes(name)}) {listed(parts)}))'

    families = [f'(family (lock_name (root.Global {codes(f["name"][1:])}) []) {f["rank"]})' for f in rules['lock']]
    parts = [families, [cover(rule) for rule in rules['cover']], [pattern(r['global'])[0] for r in rules['private']],
             [pattern(r['global'])[0] for r in rules['readonly']], [codes(r['label']) for r in rules['entry']]]
    return 'rules_of ' + '\n    '.join(listed(part) for part in parts)


def terms(text):
    def term(word):
        name, subs = lock_subscripts(word, lambda sub: f'(known.Local {codes(sub)})')
        return f'(lock_term (root.Global {codes(name)}) {listed(subs)})'
    return listed([term(word) for word in re.findall(r'[^;(]+(?:\([^)]*\))?', text) if text != '-'])


def names(text, item=codes):
    return listed([item(word) for word in text.split(';') if text != '-'])


def own(word):
    level, _, name = word.partition(':')
    return f'(own_item {level} (Only {codes(name)}))'


def fields(words):
    found = dict(word.split('=', 1) for word in words)
    return {'*': 'Any', '0': 'Zero', '1': 'One'}[found['T']], found


def block(lines):
    summary, exits, points = {}, [], []
    for text in lines:
        word, *words = text.split(' ')
        if word == 'exit':
            test, found = fields(words)
            exits.append(f'(exit_of {test} {terms(found["H"])} {names(found["K"])})')
        elif word == 'at':
            test, found = fields(words[1:])
            case = f'(case_of {test} {terms(found["H"])} {names(found["O"], own)} {names(found["K"])} [])'
            if points and points[-1][0] == words[0]:
                points[-1][1].append(case)
            else:
                points.append((words[0], [case]))
        else:
            summary[word] = words[0]
    at = [f'(point_of {place.replace(".", " ")} {listed(cases)})' for place, cases in points]
    low = 'None' if summary['low'] == '-' else f'(Some {summary["low"]})'
    drops = 'true' if summary['drops'] == '1' else 'false'
    mods = names(summary['mods'], lambda name: f'(Only {codes(name)})')
    return (f'(block {codes(summary["entry"])} {terms(summary["need"])} {low} {drops} {mods}\n    '
            + ' ∷\n    '.join(exits).join(['(', ' ∷ [])']) + '\n    ' + ' ∷\n    '.join(at).join(['(', ' ∷ [])']) + ')')


def main(name, rules, cert, routines):
    for path in routines:
        print(''.join(f'-- {text}\n' for text in pathlib.Path(path).read_text().splitlines()), end='')
        stem = pathlib.Path(path).stem.lower()
        print(f'abbrev {stem}_routine : RoutineTree\n{stem}_routine = {routine_tree(path)}\n')
    print(f'abbrev pub {name}_routines : List RoutineTree')
    print(f'{name}_routines = {listed([pathlib.Path(path).stem.lower() + "_routine" for path in routines])}\n')
    print(f'abbrev pub {name}_rules : RuleLists\n{name}_rules = {rule_lists(tomllib.loads(pathlib.Path(rules).read_text()))}\n')
    blocks = pathlib.Path(cert).read_text().split('\nentry ')[1:]
    parts = [block(['entry ' + text.splitlines()[0], *(t for t in text.splitlines()[1:] if t != 'end')]) for text in blocks]
    print(f'abbrev pub {name}_blocks : List EntryCert\n{name}_blocks = ' + '\n    ∷ '.join([*parts, '[]']))


if __name__ == '__main__':
    if len(sys.argv) < 5:
        sys.exit(__doc__)
    main(*sys.argv[1:4], sys.argv[4:])
