"""Trials of hostile.py with changed files: each byte of small examples in turn. What is compared with the original."""
import collections
import functools
import re
import sys

import second_looks
from running import TOP, Answer
from trials import TRANSFER, TWO, YES, Trial, Wrong, ask, ask_form, ask_same

try:
    import tomllib
except ImportError:
    tomllib = None
sys.path.append(str(TOP / 'bench'))
import second_routine_reader  # noqa: E402

OTHERS = [b' ', b'A', b'1', b'^', b'\xff', b'\n']
# How many changed files still are `yes`, and how many replays were seen to go wrong without one, as far as this process knows.
COUNTS = collections.Counter()
# (most lines of a changed routine are the old ones)
second_routine_reader.Line = functools.lru_cache(None)(second_routine_reader.Line)

# What two jobs do in turn: as much of it as can happen. The entry and the values of each job, then the acts.
SCHEDULES = {
    'two-lines': [('MOVE^TWO 0', 'MOVE^TWO 0', acts) for acts in (
        'run 1,run 2',
        'run 1,go 1,run 1,run 2,go 2,run 2',
        'run 1,go 1,run 1,go 1,run 1,run 2,go 2,run 2,go 2,run 2',
        'run 1,go 1,run 1,go 1,run 1,go 1,run 1,go 1,run 1,run 2,go 2,run 2,go 2,run 2,go 2,run 2,go 2,run 2',
    )],
    'transfer': [('MOVE^BANK 0 "a" "b" "5"', second, acts) for second, acts in (
        ('MOVE^BANK 0 "a" "b" "5"', 'run 1,go 1 yes,run 1,run 2,go 2 yes,run 2'),
        ('MOVE^BANK 0 "b" "a" "5"', 'run 1,go 1 yes,run 1,go 1 "9",run 1,run 2,go 2 yes,run 2'),
        ('MOVE^BANK 0 "c" "b" "5"', 'run 1,go 1 yes,run 1,go 1 "9",run 1,go 1,run 1,'
                                    'run 2,go 2 yes,run 2,go 2 "9",run 2,go 2,run 2,go 1 "1",run 1'),
    )],
}
# The twins that are not safe: what is written in place of what, and acts of two jobs that then clash.
UNSAFE = {
    'two-lines': (b'LOCK +^ACCT("A")', b'LOCK +^ACCT($J)', SCHEDULES['two-lines'][1]),
    'transfer': (b'LOCK +(^ACCT(FROM),^ACCT(TO)):5', b'LOCK +(^ACCT(FROM),^ACCT($J)):5', SCHEDULES['transfer'][2]),
}


def changes(text):
    """Each text that differs in one byte: another one in its place, none, or two of it. With what was done."""
    seen = {text}
    for at in range(len(text)):
        for other in [*OTHERS, b'', text[at:at + 1] * 2]:
            changed = text[:at] + other + text[at + 1:]
            if changed not in seen:
                seen.add(changed)
                yield f'{other!r} in place of {text[at:at + 1]!r}, byte {at + 1}', changed


def line_changes(text):
    """Each text with a line left out, doubled, or exchanged with the next one."""
    lines = text.splitlines(True)
    for n, line in enumerate(lines):
        yield f'line {n + 1} left out', b''.join(lines[:n] + lines[n + 1:])
        yield f'line {n + 1} doubled', b''.join([*lines[:n + 1], *lines[n:]])
        if n + 1 < len(lines):
            yield f'lines {n + 1} and {n + 2} exchanged', b''.join([*lines[:n], lines[n + 1], line, *lines[n + 2:]])


def replayed(room, rules, routine, schedule):
    """The jobs after as much of a schedule as can happen; none where the program is refused before that."""
    first, second, acts = schedule
    lines = [f'begin 1 {first}', f'begin 2 {second}', *acts.split(',')]
    for _ in range(2):
        events = room.write('events', ''.join(f'{it}\n' for it in lines).encode())
        given = room.run('replay', rules, events, routine)
        ask_form(given, lambda text: True)
        if given.status == 0:
            jobs = second_looks.Jobs(given.out)
            ask(not jobs.wrong(), f'{jobs.wrong()}: {given.out!r}')
            return jobs
        if not given.error.startswith('refused line '):
            return None
        lines = lines[:int(given.error.split()[2]) - 1]
    raise Wrong(f'what could happen before is refused now: {tuple(given)}')


def ask_unseen(room, rules, routine, schedules, is_yes, what):
    """Of a `yes`: replays of these schedules see nothing that it rules out. Of another answer it is counted."""
    for schedule in schedules:
        jobs = replayed(room, rules, routine, schedule)
        unsafe = jobs and jobs.unsafe()
        ask(not (is_yes and unsafe), f'a replay of {schedule} shows {unsafe}')
        if unsafe:
            COUNTS[f'changed {what} are none, and a replay shows why'] += 1
            return


def ask_refused_at(given, text):
    """What is refused of a certificate is refused at a line of it."""
    if given.error.startswith('refused cert '):
        line = int(given.error.split()[2])
        ask(1 <= line <= max(text.count(b'\n') + 1, 1), f'the text has no such line: {given.error!r}')


def twin(example):
    old, new, _ = UNSAFE[example.folder]
    text = example.text(example.paths[0])
    assert text.count(old) == 1
    return text.replace(old, new)


def ask_converted(room, name, first, second):
    """The certificate in this file is written as these texts, in the first format and in the second."""
    for number, text in ('1', first), ('2', second):
        wanted = Answer(0, text.decode('ascii', 'backslashreplace'), '')
        ask_same(room.run('convert', '--format', number, name), wanted, f'converted otherwise to format {number}')


def try_changed_certificate(room, example, text):
    given = room.check(example.rules, room.write('cert', text), example.paths)
    ask_form(given)
    ask_refused_at(given, text)
    if given.error.startswith('refused cert '):
        return
    second = second_looks.second_format(text)
    room.write('cert2', second)
    ask_same(room.check(example.rules, 'cert2', example.paths), given, 'another answer by the second format')
    ask_converted(room, 'cert', text, second)
    ask_converted(room, 'cert2', text, second)
    if given.status == 2:
        return
    ask_same(room.check(example.rules, 'cert', example.paths, 4), given, 'another answer by four workers')
    unsafe = room.check(example.rules, 'cert', [room.write(f'{example.routines[0]}.m', twin(example))])
    ask_form(unsafe)
    ask(unsafe != YES, 'a yes to the twin that is not safe')
    if given == YES:
        COUNTS['changed certificates still are yes'] += 1


def try_changed_second_certificate(room, example, text):
    given = room.check(example.rules, room.write('cert', text), example.paths)
    ask_form(given)
    ask_refused_at(given, text)
    if given.error.startswith('refused cert '):
        ask_same(room.run('convert', 'cert'), given, 'convert refuses it otherwise')
        return
    first = room.run('convert', '--format', '1', 'cert')
    ask_form(first, second_looks.is_certificate)
    ask_converted(room, 'cert', first.out.encode(), text)
    if given.status == 2:
        return
    room.write('cert1', first.out.encode())
    ask_same(room.check(example.rules, 'cert1', example.paths), given, 'another answer by the first format')
    ask_same(room.check(example.rules, 'cert', example.paths, 4), given, 'another answer by four workers')
    if given == YES:
        COUNTS['changed certificates still are yes'] += 1


def try_twin(room, example):
    """The twin is not safe: a replay shows it, and so does the check."""
    name = room.write(f'{example.routines[0]}.m', twin(example))
    jobs = replayed(room, example.rules, name, UNSAFE[example.folder][2])
    ask(jobs and jobs.unsafe() == 'a clash', 'no replay shows that the twin is not safe')
    given = room.run('verify', example.rules, name)
    ask(given.status == 1 and not second_looks.form(given), f'the twin is refused otherwise: {tuple(given)}')


def ask_suggested(room, name):
    """Rules are suggested for any routine, whatever can't be read, and what is printed is read as rules."""
    suggested = room.run('suggest', name)
    ask(suggested.status == 0 and not suggested.error, f'no rules are suggested: {tuple(suggested)}')
    again = room.run('suggest', '--beside', room.write('suggested', suggested.out.encode()), name)
    ask(again.status == 0 and not again.error, f'what is suggested is no rule file: {tuple(again)}')


def ask_stubs(room, name):
    """Stubs are written for any routine, whatever can't be read, and each is read as a routine."""
    written = room.run('suggest', '--stubs', name)
    ask(written.status == 0 and not written.error, f'no stubs are written: {tuple(written)}')
    stubs = re.split(r'^(?=\S+ ; mlock stub: )', written.out, flags=re.MULTILINE)[1:]
    (room.folder / 'stubs').mkdir(exist_ok=True)
    names = [room.write(f'stubs/{re.match("[%A-Za-z0-9]+", it)[0]}.m', it.encode()) for it in stubs]
    if names:
        survey = room.run('survey', *names)
        ask(survey.out.startswith(f'routines read {len(names)}\nroutines refused 0\n'), f'a stub is refused: {tuple(survey)}')


def try_changed_routine(room, example, text):
    name = room.write(f'{example.routines[0]}.m', text)
    ask_suggested(room, name)
    ask_stubs(room, name)
    given = room.check(example.rules, example.certificate, [name])
    ask_form(given)
    fault = second_routine_reader.routine(example.routines[0], text.decode('latin-1'))
    if fault:
        told = second_routine_reader.told(example.routines[0], fault)
        ask_same(given, Answer(2, '', told + '\n'), 'another reader refuses it so')
        return
    is_unread = given.error.startswith(f'refused {example.routines[0]} ') and not re.search(r' 30\d \w+\n', given.error)
    ask(not is_unread, f'another reader reads it: {given.error!r}')
    verified = room.run('verify', example.rules, name)
    ask_form(verified)
    if given.status != 2:
        ask_same(room.check(example.rules, example.certificate, [name], 4), given, 'another answer by four workers')
    made = room.run('make', example.rules, name)
    ask_form(made, second_looks.is_certificate)
    if made.status == 0:
        checked = room.check(example.rules, room.write('made', made.out.encode()), [name])
        ask_same(checked, verified, 'another answer by what make prints')
    else:
        ask_same(verified, made, 'make and verify refuse otherwise')
    ask(given != YES or verified == YES, f'yes, but not by verify: {tuple(verified)}')
    if given == YES:
        COUNTS['changed routines still are yes'] += 1
    if given.status != 2:
        ask_unseen(room, example.rules, name, SCHEDULES[example.folder], given == YES, 'routines')


def toml(text):
    """What a text says as TOML; none where it is none."""
    try:
        return tomllib.loads(text.decode())
    except (tomllib.TOMLDecodeError, UnicodeDecodeError):
        return None


def try_changed_rules(room, example, text):
    rules = room.write('rules.toml', text)
    given = room.check(rules, example.certificate, example.paths)
    ask_form(given)
    if tomllib:
        said = toml(text)
        ask((said is None) == (given.error == 'refused rules file 0 401 Toml\n'), f'Python takes it for {said}: {tuple(given)}')
        if said == toml(example.text(example.rules)):
            ask_same(given, YES, 'both rule files say the same')
    if given.status == 2:
        return
    ask_same(room.check(rules, example.certificate, example.paths, 4), given, 'another answer by four workers')
    if given == YES:
        COUNTS['changed rule files still are yes'] += 1
        ask_same(room.run('verify', rules, *example.paths), YES, 'yes, but not by verify')
    ask_unseen(room, rules, example.paths[0], SCHEDULES[example.folder], given == YES, 'rule files')


NIGHT = ['examples/night/rules.toml', 'examples/night/WARD.m']
NIGHT_ENTRIES = [b'MOVE^WARD', b'^WARD', b'COUNT^WARD']


def try_changed_events(room, text):
    given = room.run('replay', NIGHT[0], room.write('events', text), NIGHT[1])
    ask_form(given, lambda text: True)
    other = second_looks.first_other(text, NIGHT_ENTRIES)
    if other:
        ask_same(given, Answer(2, '', f'refused line {other} 504 EventForm\n'), 'this line is no event')
    elif given.status == 2:
        word, number, code, _ = given.error.split()[1:]
        is_event_fault = word == 'line' and int(number) <= text.count(b'\n') and code in ('501', '502', '503')
        ask(is_event_fault, f'all lines are events: {given.error!r}')
    else:
        jobs = second_looks.Jobs(given.out)
        ask(not jobs.wrong(), f'{jobs.wrong()}: {given.out!r}')
        COUNTS['changed files of events are replayed'] += 1


def changed_certificates(example, number, text):
    asks = try_changed_certificate if number == 1 else try_changed_second_certificate
    for done, it in [*changes(text), *line_changes(text)]:
        yield Trial(example.said(f'the certificate in format {number} with {done}'), asks, (example, it))


def changed_rules(example):
    for done, text in changes(example.text(example.rules)):
        yield Trial(example.said(f'the rules with {done}'), try_changed_rules, (example, text))


def changed_routines(example):
    for done, text in changes(example.text(example.paths[0])):
        yield Trial(example.said(f'the routine with {done}'), try_changed_routine, (example, text))


def changed_events(name):
    for done, text in changes((TOP / 'examples/night' / name).read_bytes()):
        said = f'mlock replay {NIGHT[0]} examples/night/{name} {NIGHT[1]}, the events with {done}'
        yield Trial(said, try_changed_events, (text,))


def changed(all):
    for example in TWO, TRANSFER:
        old, new, _ = UNSAFE[example.folder]
        yield Trial(example.said(f'the routine with {new!r} in place of {old!r}'), try_twin, (example,))
        yield from changed_routines(example)
        if all or example == TWO:
            yield from changed_rules(example)
        for number, text in example.in_formats():
            if all or example == TWO or number == 1:
                yield from changed_certificates(example, number, text)
    for name in 'clash', 'ring':
        yield from changed_events(name)
