#!/usr/bin/env python3
"""Makes a copy of the repository in which a crate can be proved in minutes, in any order: those below it have contracts and no code.

    contracts.py FOLDER CRATE..    copies these crates whole, and of the crates below them the types, definitions, contracts of
                                   public functions, and the lemmas that are cited; then builds those that changed since the
                                   last run over the same folder

Then `RT_ALLOW_C=1 rt check` in FOLDER/crates/CRATE proves the crate from these contracts. There the body of each function below is a
call of one that is assumed to do what nothing can do, so it meets any contract: what is proved in such a copy is proved if the
crates below meet their contracts. The gate alone is the judge.
"""
import argparse
import dataclasses
import functools
import os
import pathlib
import re
import shutil
import subprocess
import sys

import lanes
import skeleton

# Crates that only such copies have: that of the function that is assumed, and one that lists the others, so that all are built.
ASSUMED = 'mlk_assumed'
ABOVE = 'mlk_above'
OWN_FILES = {
    f'{ASSUMED}/src/lib.rt': '''//! A function that is assumed to meet what nothing meets.
#![tactic(auto)]

unsafe extern "C" {
    safe fn mlk_assumed_absurd()
        ensures { ⊥ };
}

pub fn absurd()
    ensures { ⊥ }
{
    mlk_assumed_absurd()
}
''',
    f'{ASSUMED}/c/absurd.c': 'void mlk_assumed_absurd(void) {}\n',
    f'{ABOVE}/src/lib.rt': '//! Lists the other crates.\n#![tactic(auto)]\n',
}
ASSUMED_BODY = '{{\n{0}    ' + ASSUMED + '::absurd();\n{0}    unreachable!()\n{0}}}'
# `rt` refuses C code where this is not set.
ENVIRONMENT = {**os.environ, 'RT_ALLOW_C': '1'}
# what the build of one such library takes
GB_EACH = 3
VISIBLE = r'(?:pub(?:\([^)]*\))? )?'
FUNCTION = re.compile(r'(?m)^( *)(' + VISIBLE + r')(const )?(?:unsafe )?fn (\w+)')
# attributes of functions that say how a body is proved or compiled
OF_BODIES = re.compile(r'(?m)^ *#\[(?:tactic|cycle|inline)\b[^\n]*\]\n')
PIECE = re.compile(r"//[^\n]*|b?\"(?:\\.|[^\"\\])*\"|b?'(?:\\.|[^'\\])'|[{}]", re.DOTALL)


@dataclasses.dataclass(frozen=True)
class Function:
    """A function in a source: its name, where its comments and attributes, its head and its body begin, and where it ends."""
    name: str
    indent: str
    begin: int
    head: int
    body: int
    end: int
    is_public: bool
    is_const: bool
    of_trait: bool
    block: tuple
    cycle: str

    def path(self, module):
        """Its path below the crate, in the folders of proofs."""
        return (*module, *self.block, self.name)


def braces(text, at):
    """The outermost pairs of braces from a place on, up to one that closes what is around it."""
    depth, begin = 0, at
    for piece in PIECE.finditer(text, at):
        if piece.group() == '{':
            begin = piece.start() if depth == 0 else begin
            depth += 1
        elif piece.group() == '}':
            depth -= 1
            if depth < 0:
                return
            if depth == 0:
                yield begin, piece.end()


def body_at(text, found):
    """The body of the function whose head is found: the first pair of braces that is no clause's; None if it has no body."""
    last, has_clause = found.end(), False
    for begin, end in braces(text, found.end()):
        between = re.sub(r'//[^\n]*', '', text[last:begin])
        if ';' in re.sub(r'\[[^\[\]]*;[^\[\]]*\]', '', between):
            return None
        is_on_own_line = text[text.rfind('\n', 0, begin) + 1:begin] == found[1]
        if is_on_own_line or not has_clause and not re.search(r'\b(requires|ensures|ghost)\b', between):
            return begin, end
        last, has_clause = end, True
    return None


def block_at(text, at):
    """The trait or impl around a place: whether it is of a trait, and its folder in proofs, as a tuple."""
    kind, head = re.findall(r'(?m)^' + VISIBLE + r'(?:unsafe )?(impl|trait)\b([^{]*)', text[:at])[-1]
    # (what a path ends in, without its parameters)
    trait, name = re.match(r'(?:<.*?>(?= ))? *(?:(?:\w+::)*(\w+)\b.*? for )?(?:\w+::)*(\w+)', head).groups()
    return kind == 'trait' or bool(trait), (name + (trait or ''),)


def functions(text):
    """The functions of a source that have bodies, in order."""
    at = 0
    while found := FUNCTION.search(text, at):
        body = body_at(text, found)
        if body is None:
            at = found.end()
            continue
        begin = found.start()
        while begin and re.match(r' *(///|//[^!]|#\[)', text[(before := text.rfind('\n', 0, begin - 1) + 1):begin]):
            begin = before
        of_trait, block = block_at(text, found.start()) if found[1] else (False, ())
        cycle = re.search(r'#\[cycle\((\w+)\)\]', text[begin:found.start()])
        yield Function(found[4], found[1], begin, found.start(), *body, found[2] == 'pub ', bool(found[3]), of_trait, block,
                       cycle[1] if cycle else '')
        at = body[1]


def use_without(item, gone):
    """An item `use` of the crate's own, without the functions that are gone; nothing if no name is left."""
    def left(path):
        path = path.strip()
        if '{' not in path:
            return None if path.split(' as ')[0].split('::')[-1].strip() in gone else path
        front, inner = path[:path.index('{')], path[path.index('{') + 1:path.rindex('}')]
        words = [it for it in map(left, re.findall(r'[^,{}]+(?:\{[^{}]*\})?', inner)) if it]
        return front + '{' + ', '.join(words) + '}' if words else None
    path = left(item[2])
    return f'{item[1]}{path};\n' if path else ''


def with_contracts(text, has_body, stays, gone):
    """A source in which a function keeps its body or its contract, if these say so, and is left out if neither does."""
    pieces, at = [], 0
    for it in functions(text):
        if has_body(it):
            continue
        pieces.append(text[at:it.begin])
        if stays(it):
            pieces.append(OF_BODIES.sub('', text[it.begin:it.head]) + text[it.head:it.body] + ASSUMED_BODY.format(it.indent))
        at = it.end
    text = ''.join(pieces) + text[at:]
    return re.sub(r'(?ms)^(' + VISIBLE + r'use )((?:crate|self|super)::[^;]*);\n', lambda item: use_without(item, gone), text)


def is_seen(function):
    """Whether other crates can call a function, or a method of a trait calls for it."""
    return function.is_public or function.of_trait


def names_gone(texts):
    """The functions of a crate that no other crate can call, by their names."""
    free = [it for text in texts for it in functions(text) if not it.indent]
    return {it.name for it in free if not is_seen(it) and not it.is_const} - {it.name for it in free if is_seen(it) or it.is_const}


@functools.cache
def cited_from_outside():
    """The definitions, the lemma files that other crates cite, and what these cite: modules as pairs of a crate and a path."""
    stand = skeleton.crates()
    homes = {name: skeleton.TOP / 'crates' / name for name in stand}
    modules = [it for name, home in homes.items() for file in skeleton.files(home) if file.suffix in ('.rt', '.antt')
               for it in skeleton.cited_in(file, stand) if it[0] != name]
    return skeleton.with_cited(modules + [it for name, home in homes.items() for it in skeleton.modules_of(home / 'specs', name)], stand)


def is_lemma_file(name, place):
    return (name, place.with_suffix('').parts) in cited_from_outside() and len(place.parts) == 2 and place.name != 'Lib.antt'


def contract_files(name):
    """The files of a crate with the contracts of its public functions alone: their paths below the crate, with their texts."""
    home = skeleton.TOP / 'crates' / name
    sources = [path for path in skeleton.files(home) if path.suffix == '.rt']
    gone = names_gone([path.read_text() for path in sources])
    for path in skeleton.files(home):
        place = path.relative_to(home)
        if path in sources:
            yield place, with_contracts(path.read_text(), lambda it: it.is_const, is_seen, gone)
        elif place.parts[0] == 'specs' or is_lemma_file(name, place):
            yield place, path.read_text()
        elif place.parts == ('proofs', 'Lib.antt'):
            lines = path.read_text().splitlines(keepends=True)
            yield place, ''.join(it for it in lines if (name, ('proofs', it.split()[-1])) in cited_from_outside())


def write_contracts(name, to):
    """Writes a crate with the contracts of its public functions alone."""
    for place, text in contract_files(name):
        skeleton.write(to / place, text)


def write_whole(name, to):
    for path in skeleton.files(skeleton.TOP / 'crates' / name):
        skeleton.write(to / path.relative_to(skeleton.TOP / 'crates' / name), path.read_text())


def module_of(place):
    """The module of a source, by its path below its crate, as a tuple."""
    return tuple(it for it in pathlib.Path(place).with_suffix('').parts[1:] if it not in ('lib', 'main', 'mod'))


def write_partly(name, to, has_body):
    """Writes a crate in which a function of a source, by its path below the crate, keeps its body and proof if `has_body` says so."""
    home = skeleton.TOP / 'crates' / name
    sources = {path: path.relative_to(home) for path in skeleton.files(home) if path.suffix == '.rt'}
    assumed = set()
    for path, place in sources.items():
        text, module = path.read_text(), module_of(place)
        of_bodies = [(it, it.is_const or has_body(place, it)) for it in functions(text)]
        assumed |= {it.path(module) for it, stays in of_bodies if not stays}
        assumed |= {(*module, '+' + it.cycle) for it, stays in of_bodies if it.cycle and not stays}
        whole = {it for it, stays in of_bodies if stays}
        skeleton.write(to / place, with_contracts(text, lambda it: it in whole, lambda it: True, set()))
    for path in skeleton.files(home):
        place = path.relative_to(home)
        fronts = [place.parts[1:end] for end in range(2, len(place.parts))]
        if path not in sources and not (place.parts[0] == 'proofs' and assumed.intersection(fronts)):
            skeleton.write(to / place, path.read_text())


def crates_text(needed, built=()):
    """The file crates.txt of a copy with these crates, in which these libraries are built."""
    stand = skeleton.crates()
    rows = {ASSUMED: [], **{name: stand[name] + [ASSUMED] for name in needed}, ABOVE: built}
    return ''.join(f'{name}: {" ".join(needs)}\n' for name, needs in rows.items())


def write_copy(folder, whole, needed):
    """Writes a copy with these crates, some of them whole."""
    (folder / '.git').mkdir(parents=True, exist_ok=True)
    shutil.copy(skeleton.TOP / 'HANDLES', folder)
    skeleton.write(folder / 'crates.txt', crates_text(needed))
    for place, text in OWN_FILES.items():
        skeleton.write(folder / 'crates' / place, text)
    for name in needed:
        (write_whole if name in whole else write_contracts)(name, folder / 'crates' / name)
    for path in skeleton.files(folder / 'crates'):
        if path not in skeleton.WRITTEN:
            path.unlink()


def build(folder, needed, names):
    """Builds libraries of a copy with these crates, side by side. Returns why they can't be built, or nothing."""
    skeleton.write(folder / 'crates.txt', crates_text(needed, names))
    jobs = lanes.fitting(lanes.processors(), lanes.memory(), GB_EACH * lanes.GB)
    run = subprocess.run(['rt', 'all', 'check', '--jobs', str(jobs)], cwd=folder / 'crates' / ABOVE, env=ENVIRONMENT, text=True,
                         stdin=subprocess.DEVNULL, stdout=subprocess.PIPE, stderr=subprocess.STDOUT, errors='replace')
    return '' if run.returncode == 0 else run.stdout


def main():
    words = argparse.ArgumentParser(description=__doc__, formatter_class=argparse.RawDescriptionHelpFormatter)
    words.add_argument('folder', type=pathlib.Path)
    words.add_argument('crates', nargs='+', choices=sorted(skeleton.crates()), metavar='CRATE')
    asked = words.parse_args()
    needed = skeleton.below(asked.crates, skeleton.crates())
    write_copy(asked.folder, asked.crates, needed)
    sys.exit(build(asked.folder, needed, [ASSUMED, *(name for name in needed if name not in asked.crates)]))


if __name__ == '__main__':
    main()
