#!/usr/bin/env python3
"""Makes a skeleton of the repository, for work on proofs that speak of definitions alone.

    skeleton.py FOLDER CRATE..

The crates that are named are in it whole, and so do those at the bottom. Of the other crates below them it has the types,
the definitions in specs/ and the lemma files that are cited, and no function: nothing has to be proved of code there. A first
`rt check` in a crate of the skeleton takes some ten minutes where it takes more than an hour in the repository; after an edit,
seconds. A second run over the same folder changes only what differs. What is proved there is proved of the definitions; the
gate alone is the judge.
"""
import pathlib
import re
import shutil
import sys

TOP = pathlib.Path(__file__).resolve().parent.parent
WHOLE = ['mlk_text', 'mlk_names', 'mlk_syntax', 'mlk_numbers']
# Files that types need whole, and those whose types no definition speaks of.
KEPT = {('mlk_cert_parts', 'src/shared.rt'), ('mlk_cert_parts', 'proofs/shared')}
EMPTIED = {('mlk_cert', 'src/read/memory.rt')}
NAMES_OF_EMPTIED = {'Memory', 'Memories'}
# The traits whose impls types and definitions need.
IMPLS = r'\b(Model|MadeWith|Clone|PartialEq|Eq|Hash|Ord|PartialOrd|Drop|Deref|Default)\b.*\bfor\b'
VISIBLE = r'(?:pub(?:\([^)]*\))? )?'
ITEM = re.compile(r'(?m)^(?:///[^\n]*\n|#\[[^\n]*\]\n)*' + VISIBLE + r'(?:unsafe )?(?:const )?'
                  r'(fn|impl|trait|mod|use|ghost use|struct|enum|type|const|static)\b')


def crates():
    """The crates, each with those that it needs."""
    lines = (line.partition(':') for line in (TOP / 'crates.txt').read_text().splitlines() if line.strip())
    return {head.split()[0]: rest.split() for head, _, rest in lines}


def below(named, stand):
    """The crates named, and all that they need."""
    found, left = [], list(named)
    while left:
        name = left.pop()
        if name in stand and name not in found:
            found.append(name)
            left += stand[name]
    return found


def files(folder):
    """The files below a folder, without what is made and without wrong bodies."""
    return [p for p in sorted(folder.rglob('*')) if p.is_file() and 'out' not in p.parts and 'must-fail' not in p.parts]


def cited_in(file, needed):
    """The modules of these crates that a file may cite, as pairs of a crate and a path."""
    text = file.read_text()
    paths = re.findall(r'(?m)^(?:pub |ghost )?use Rattle\.([A-Za-z0-9_.+-]+)', text)
    # (the attributes of functions)
    paths += [it.replace('::', '.') for it in re.findall(r'\b\w+::(?:proofs|specs)::[\w:]+', text)]
    for path in paths:
        other, *words = path.rstrip('.').split('.')
        if other in needed:
            yield other, tuple(words)
            yield other, tuple(words[:-1])


def with_cited(modules, needed):
    """These modules, and those that they cite."""
    found, left = set(), list(modules)
    while left:
        crate, path = left.pop()
        file = (TOP / 'crates' / crate).joinpath(*path).with_suffix('.antt')
        if (crate, path) not in found and file.exists():
            found.add((crate, path))
            left += cited_in(file, needed)
    return found


def modules_of(folder, name):
    """The modules of a crate below a folder, as pairs of the crate and a path."""
    return [(name, p.relative_to(TOP / 'crates' / name).with_suffix('').parts) for p in files(folder) if p.suffix == '.antt']


def cited(named, needed):
    """The modules of the named crates, the definitions of those that these need, and what all of them cite."""
    own = [it for name in named for it in modules_of(TOP / 'crates' / name, name)]
    return with_cited(own + [it for name in needed for it in modules_of(TOP / 'crates' / name / 'specs', name)], needed)


def closing(text, at):
    """Where the brace at `at` is closed."""
    depth, pieces = 0, re.compile(r"//[^\n]*|\"(?:\\.|[^\"\\])*\"|b?'(?:\\.|[^'\\])'|[{}]")
    for piece in pieces.finditer(text, at):
        if piece.group() in '{}':
            depth += 1 if piece.group() == '{' else -1
            if depth == 0:
                return piece.start()
    raise ValueError('a brace is not closed')


def traits(names):
    """The traits of these crates, which go with their functions."""
    found = set(NAMES_OF_EMPTIED)
    for name in names:
        for path in files(TOP / 'crates' / name / 'src'):
            found |= set(re.findall(r'(?m)^' + VISIBLE + r'trait (\w+)', path.read_text()))
    return found


def path_kept(path, gone):
    """The part of a use's path that still names something, if any."""
    path = path.strip()
    if '{' in path:
        front, inner = path[:path.index('{')], path[path.index('{') + 1:path.rindex('}')]
        words = [w for w in (path_kept(w, gone) for w in re.findall(r'[^,{}]+(?:\{[^{}]*\})?', inner) if w.strip()) if w]
        return front + '{' + ', '.join(words) + '}' if words else None
    last = path.split(' as ')[0].split('::')[-1].strip()
    return path if last[:1].isupper() and not last.isupper() and last not in gone else None


def use_kept(item, gone):
    start, path = re.match(r'(?s)(.*?\buse )(.*);$', item).groups()
    if path.startswith(('std', *WHOLE)):
        return item
    path = path_kept(path, gone)
    return f'{start}{path};' if path else ''


def without_functions(text, gone):
    """A source with its types alone."""
    bounded = re.compile(r':\s*(?:\w+ \+ )*(?:%s)\b' % '|'.join(sorted(gone)))
    out, at = [], 0
    while found := ITEM.search(text, at):
        out.append(text[at:found.start()])
        kind, start = found.group(1), found.start()
        if kind == 'fn':
            at = re.compile(r'(?m)^(?:\}|\{.*\})[ \t]*$').search(text, found.end()).end()
        elif kind in ('mod', 'use', 'ghost use', 'type', 'const', 'static'):
            at = re.compile(r'(?m);[ \t]*$').search(text, found.end()).end()
            item = text[start:at].rstrip()
            if kind not in ('const', 'static'):
                out.append(use_kept(item, gone) if kind == 'use' else item)
        else:
            brace = re.compile('[;{]').search(text, found.end()).start()
            at = brace + 1 if text[brace] == ';' else closing(text, brace) + 1
            head = text[start:brace]
            stays = kind in ('struct', 'enum') or kind == 'impl' and re.search(IMPLS, head)
            if stays and not bounded.search(head):
                out.append(text[start:at])
    return ''.join(out) + text[at:]


WRITTEN = set()


def write(path, text):
    """Writes a file where it differs, so that nothing is checked again for it."""
    WRITTEN.add(path)
    path.parent.mkdir(parents=True, exist_ok=True)
    if not path.exists() or path.read_text() != text:
        path.write_text(text)


def strip(name, to, modules, gone):
    """Writes a crate without its functions."""
    home = TOP / 'crates' / name
    for path in files(home):
        place = path.relative_to(home)
        if place.parts[0] == 'src':
            text = path.read_text() if (name, str(place)) in KEPT else without_functions(path.read_text(), gone)
            write(to / place, '' if (name, str(place)) in EMPTIED else text)
        elif place.parts[0] == 'specs' or (name, str(pathlib.Path(*place.parts[:2]))) in KEPT:
            write(to / place, path.read_text())
        elif (name, place.with_suffix('').parts) in modules and len(place.parts) == 2 and place.name != 'Lib.antt':
            write(to / place, path.read_text())
    if (home / 'proofs/Lib.antt').exists():
        lines = (home / 'proofs/Lib.antt').read_text().splitlines(keepends=True)
        write(to / 'proofs/Lib.antt', ''.join(l for l in lines if (name, ('proofs', l.split()[-1])) in modules))


def main(folder, named):
    stand = crates()
    needed = below(named, stand)
    modules = cited(named, needed)
    to = pathlib.Path(folder)
    (to / '.git').mkdir(parents=True, exist_ok=True)
    shutil.copy(TOP / 'HANDLES', to)
    write(to / 'crates.txt', ''.join(f'{name}: {" ".join(stand[name])}\n' for name in stand if name in needed))
    for name in needed:
        if name in named or name in WHOLE:
            for path in files(TOP / 'crates' / name):
                write(to / 'crates' / path.relative_to(TOP / 'crates'), path.read_text())
        else:
            gone = traits([c for c in needed if c not in named and c not in WHOLE and c in (name, *stand[name])])
            strip(name, to / 'crates' / name, modules, gone)
    for path in files(to / 'crates'):
        if path not in WRITTEN:
            path.unlink()


if __name__ == '__main__':
    if len(sys.argv) < 3:
        sys.exit(__doc__)
    main(sys.argv[1], sys.argv[2:])
