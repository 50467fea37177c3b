#!/usr/bin/env python3
"""Checks the SARIF that the program writes, and the report that docs/guide/OUTPUT.md makes of its JSON for GitLab.

    sarif.py PROGRAM

Of the schema of SARIF 2.1.0 (OASIS, sarif-schema-2.1.0.json) SCHEMA below has the objects that the program writes: which
members they may have, of what types and with which values, and which members must be there. Members that the schema allows and
the program doesn't write are not listed, and refused: whoever writes one adds it here. Not looked at are formats of texts (uri,
date-time, guid) and what the schema says in words alone.

Besides the schema it compares, with what is computed here: columns in characters and the ends of tokens, URIs with paths, hashes
of lines with those that GitHub's `upload-sarif` computes, statuses, rules, and the places of some refusals. What GitLab asks of
a code quality report is in `quality_faults`.
"""
import json
import os
import pathlib
import re
import shutil
import subprocess
import sys
import tempfile
import urllib.parse

TOP = pathlib.Path(__file__).resolve().parent.parent

# Texts and the hashes of their lines, from the tests of upload-sarif.
HASHED = [
    (b'', ['c129715d7a2bc9a3']),
    (b' a\nb\n  \t\tc\n d', ['271789c17abda88f', '54703d4cd895b18', '180aee12dab6264', 'a23a3dc5e078b07b']),
]

LEVELS = ['none', 'note', 'warning', 'error']

# The objects, by their names in the schema: their members, each with what it is, and `!` where it must be there. A type is a JSON
# type, a name of an object, a list of one type, a list of values after `in`, a number's least value after `from`, or `map` for an
# object whose members all have one type. `any` lists members, and one of them must be there.
SCHEMA = {
    'sarifLog': {'$schema': 'string', 'version!': ('in', ['2.1.0']), 'runs!': ['run']},
    'run': {'tool!': 'tool', 'invocations': ['invocation'], 'originalUriBaseIds': ('map', 'artifactLocation'), 'results': ['result'],
            'columnKind': ('in', ['utf16CodeUnits', 'unicodeCodePoints']), 'properties': 'propertyBag'},
    'propertyBag': {'behind': ['object'], 'coverage': 'object', 'faults': ['object']},
    'tool': {'driver!': 'toolComponent'},
    'toolComponent': {'name!': 'string', 'version': 'string', 'semanticVersion': 'string', 'rules': ['reportingDescriptor']},
    'reportingDescriptor': {'id!': 'string', 'name': 'string', 'shortDescription': 'multiformatMessageString',
                            'fullDescription': 'multiformatMessageString', 'help': 'multiformatMessageString',
                            'defaultConfiguration': 'reportingConfiguration'},
    'multiformatMessageString': {'text!': 'string'},
    'reportingConfiguration': {'level': ('in', LEVELS)},
    'invocation': {'executionSuccessful!': 'boolean', 'exitCode': 'integer', 'toolExecutionNotifications': ['notification']},
    'notification': {'message!': 'message', 'level': ('in', LEVELS), 'locations': ['location'],
                     'associatedRule': 'reportingDescriptorReference'},
    'reportingDescriptorReference': {'id': 'string', 'any': ['id']},
    'result': {'message!': 'message', 'ruleId': 'string', 'level': ('in', LEVELS), 'locations': ['location'],
               'partialFingerprints': ('map', 'string'), 'relatedLocations': ['location'], 'codeFlows': ['codeFlow']},
    'codeFlow': {'threadFlows!': ['threadFlow']},
    'threadFlow': {'locations!': ['threadFlowLocation']},
    'threadFlowLocation': {'location': 'location'},
    'message': {'text': 'string', 'any': ['text']},
    'location': {'physicalLocation': 'physicalLocation', 'logicalLocations': ['logicalLocation'], 'message': 'message'},
    'physicalLocation': {'artifactLocation': 'artifactLocation', 'region': 'region', 'any': ['artifactLocation']},
    'artifactLocation': {'uri': 'string', 'uriBaseId': 'string', 'description': 'message'},
    'region': {'startLine': ('from', 1), 'startColumn': ('from', 1), 'endColumn': ('from', 1)},
    'logicalLocation': {'fullyQualifiedName': 'string', 'kind': 'string'},
}
TYPES = {'string': str, 'boolean': bool, 'integer': int, 'object': dict}

RULES = '''[[lock]]
name = "^ACCT"
rank = 10
[[cover]]
global = "^ACCT(id,...)"
lock = "^ACCT(id)"
[[entry]]
label = "TAKE^%s"
'''


def object_faults(value, name, at):
    """What is wrong with an object of the schema."""
    members = {it.rstrip('!'): kind for it, kind in SCHEMA[name].items() if it != 'any'}
    for it in SCHEMA[name]:
        if it.endswith('!') and it[:-1] not in value:
            yield f'{at}: {it[:-1]} is missing'
    if 'any' in SCHEMA[name] and not set(SCHEMA[name]['any']) & set(value):
        yield f'{at}: none of {SCHEMA[name]["any"]}'
    for it, member in value.items():
        if it not in members:
            yield f'{at}: {it} is no member of {name} here'
        else:
            yield from faults(member, members[it], f'{at}.{it}')


def faults(value, kind, at='log'):
    """What is wrong with a value of a type of SCHEMA."""
    if isinstance(kind, list):
        if not isinstance(value, list):
            yield f'{at}: no array'
            return
        for index, item in enumerate(value):
            yield from faults(item, kind[0], f'{at}[{index}]')
    elif isinstance(kind, tuple) and kind[0] == 'in':
        if value not in kind[1]:
            yield f'{at}: {value!r} is none of {kind[1]}'
    elif isinstance(kind, tuple) and kind[0] == 'from':
        if not isinstance(value, int) or isinstance(value, bool) or value < kind[1]:
            yield f'{at}: {value!r} is no number from {kind[1]} on'
    elif isinstance(kind, tuple):
        for it, member in value.items():
            yield from faults(member, kind[1], f'{at}.{it}')
    elif kind in TYPES:
        if not isinstance(value, TYPES[kind]) or (kind == 'integer' and isinstance(value, bool)):
            yield f'{at}: {value!r} is no {kind}'
    elif not isinstance(value, dict):
        yield f'{at}: no object'
    else:
        yield from object_faults(value, kind, at)


def line_hashes(text):
    """The hash of each line of a text, as GitHub's upload-sarif computes it (fingerprints.ts): its characters go round a window of
    100, and a line's hash is that of the window when the line's first character leaves it."""
    window, numbers, index = [0] * 100, [-1] * 100, 0
    state, number, starts, after_return, counts, found = 0, 0, True, False, {}, {}
    first = pow(37, 100, 1 << 64)

    def put(at):
        value = f'{state:x}'
        counts[value] = counts.get(value, 0) + 1
        found[numbers[at]] = f'{value}:{counts[value]}'
        numbers[at] = -1

    def turn(unit):
        nonlocal state, index
        begin, window[index] = window[index], unit
        state = (37 * state + unit - first * begin) % (1 << 64)
        index = (index + 1) % 100

    units = text.decode('utf-8', 'replace').encode('utf-16-le', 'surrogatepass')
    for unit in [units[it] | units[it + 1] << 8 for it in range(0, len(units), 2)] + [65535]:
        if unit in (32, 9) or (after_return and unit == 10):
            after_return = False
            continue
        after_return = unit == 13
        unit = 10 if unit == 13 else unit
        if numbers[index] != -1:
            put(index)
        if starts:
            starts, number = False, number + 1
            numbers[index] = number
        starts = unit == 10
        turn(unit)
    for _ in range(100):
        if numbers[index] != -1:
            put(index)
        turn(0)
    return found


def columns(line, column):
    """The columns in characters of the token at a column in bytes."""
    front, rest = line[:column - 1].decode('utf-8', 'replace'), line[column - 1:].decode('utf-8', 'replace')
    token = re.match(r'[A-Za-z0-9^%$]+|"(?:[^"]|"")*"?|.|', rest, re.DOTALL)[0]
    return len(front) + 1, len(front) + 1 + len(token)


def plain(path):
    """A path without parts that say nothing."""
    parts = [it for it in path.split('/') if it not in ('', '.')]
    return ('/' if path.startswith('/') else '') + '/'.join(parts)


def path_of(artifact):
    """The path that a location's URI names."""
    uri = artifact['uri']
    if uri.startswith('file://'):
        return None if 'uriBaseId' in artifact else urllib.parse.unquote(uri[7:])
    return urllib.parse.unquote(uri) if artifact.get('uriBaseId') == '%SRCROOT%' and not uri.startswith('./') else None


class Run:
    """What the program writes for words, as text, as JSON and as SARIF; and where it must refuse them, if that is known."""

    def __init__(self, program, room, words, refused_at=None):
        self.words, self.room, self.refused_at = words, room, refused_at
        self.text, self.json, self.sarif = (
            subprocess.run([program, *words, '--output', form], cwd=room, stdin=subprocess.DEVNULL, stdout=subprocess.PIPE,
                           stderr=subprocess.PIPE, timeout=60, check=False) for form in ('text', 'json', 'sarif'))
        self.report = json.loads(self.json.stdout)
        self.log = json.loads(self.sarif.stdout)

    def results(self):
        return self.log['runs'][0]['results']

    def wanted(self):
        """The places and codes that the JSON has, in the order of SARIF's results."""
        if self.report['answer'] == 'refused':
            it = self.report['refusal']
            return [(it['code'], it['place'])]
        return [(it['code'], it) for it in self.report['faults']] + [(it['name'], it) for it in self.report.get('hazards', [])]

    def place_faults(self, result, place):
        """What is wrong with the place of a result; JSON has its path, its line and its column in bytes."""
        where = result['locations'][0]['physicalLocation']
        path = path_of(where['artifactLocation'])
        if place is None:
            if path is None:
                yield 'the URI of a refusal without a place names no file'
            return
        if path != plain(place['path']):
            yield f'URI {where["artifactLocation"]} of {place["path"]}'
            return
        text = pathlib.Path(self.room, place['path']).read_bytes()
        lines = re.split(rb'\r?\n', text)
        region = where['region']
        if place['line'] is None:
            # a rule has no line: SARIF shows its file's first
            if region['startLine'] != 1 or 'primaryLocationLineHash' in result['partialFingerprints']:
                yield f'line {region["startLine"]} of a rule, or a hash'
            return
        if region['startLine'] != place['line']:
            yield f'line {region["startLine"]} in place of {place["line"]}'
        if place.get('column') and place['line'] <= len(lines):
            had = region.get('startColumn'), region.get('endColumn')
            if had != columns(lines[place['line'] - 1], place['column']):
                yield f'columns {had} in place of {columns(lines[place["line"] - 1], place["column"])}'
        had = result['partialFingerprints'].get('primaryLocationLineHash')
        if had != line_hashes(text)[place['line']]:
            yield f'hash {had} in place of {line_hashes(text)[place["line"]]}'

    def faults(self):
        """All that is wrong."""
        yield from faults(self.log, 'sarifLog')
        run = self.log['runs'][0]
        rules = [it['id'] for it in run['tool']['driver']['rules']]
        ended, results, wanted = run['invocations'][0], self.results(), self.wanted()
        if len(set(rules)) != len(rules):
            yield 'a rule is there twice'
        if not len({it.returncode for it in (self.text, self.json, self.sarif)}) == 1 or ended['exitCode'] != self.sarif.returncode:
            yield f'status {self.sarif.returncode}, and exitCode {ended["exitCode"]}'
        if ended['executionSuccessful'] != (self.report['answer'] != 'refused'):
            yield 'executionSuccessful'
        given_up = self.report.get('faults') if self.report['answer'] == 'refused' else None
        for name, wanted_there, what in (('behind', self.report.get('behind'), 'the faults behind those of the report'),
                                         ('coverage', self.report.get('coverage'), 'how much the report is about'),
                                         ('faults', given_up, 'the faults of entries where the maker gave up')):
            if run.get('properties', {}).get(name) != wanted_there:
                yield what
        if self.refused_at and self.report.get('refusal', {}).get('place') != dict(zip(('path', 'line', 'column'), self.refused_at)):
            yield f'refused at {self.report.get("refusal", {}).get("place")} in place of {self.refused_at}'
        if len(results) != len(wanted):
            yield f'{len(results)} results in place of {len(wanted)}'
            return
        for result, (rule, place) in zip(results, wanted):
            if result['ruleId'] != str(rule) or str(rule) not in rules:
                yield f'rule {result["ruleId"]} in place of {rule}, or no rule of the run'
            if result['level'] != ('error' if isinstance(rule, int) else 'warning'):
                yield f'level {result["level"]}'
            yield from self.place_faults(result, place)
        if len({json.dumps(it['partialFingerprints']) for it in results}) != len(results):
            yield 'two results have the same fingerprints'


def runs(program, room):
    """Examples, and files that try what is counted and escaped."""
    def write(name, text):
        path = pathlib.Path(room, name)
        path.parent.mkdir(parents=True, exist_ok=True)
        path.write_bytes(text if isinstance(text, bytes) else text.encode())
        return name

    def of(*words, refused_at=None):
        return Run(program, room, words, refused_at)

    shutil.copytree(TOP / 'examples', f'{room}/examples')
    yield of('verify', 'examples/ward/rules.toml', 'examples/ward/ADMIT.m')
    yield of('verify', 'examples/hospital/rules.toml', *sorted(f'examples/hospital/{it}' for it in os.listdir(f'{room}/examples/hospital') if it.endswith('.m')))
    yield of('verify', './examples/ward/rules.toml', './examples/./ward//ADMIT.m')
    yield of('verify', 'examples/ward/rules.toml', f'{room}/examples/ward/ADMIT.m')
    yield of('verify', 'examples/behind/rules.toml', 'examples/behind/ROUND.m')
    for code in sorted(os.listdir(f'{room}/examples/faults')):
        here = f'examples/faults/{code}'
        certificate = [f'{here}/{it}' for it in os.listdir(f'{room}/{here}') if it.endswith('.cert')]
        routine, = (f'{here}/{it}' for it in os.listdir(f'{room}/{here}') if it.endswith('.m'))
        yield of('check' if certificate else 'verify', f'{here}/rules.toml', *certificate, routine)
    rules = write('rules.toml', RULES % 'ONE')
    umlauts = 'TAKE(ID) ; nimmt\n SET Z="äöü€😀" SET ^ACCT(ID)=1 SET ^OTHER="x""y"\n QUIT\n'
    yield of('verify', rules, write('ONE.m', umlauts))
    yield of('verify', rules, write('crlf/ONE.m', umlauts.replace('\n', '\r\n')))
    yield of('verify', rules, write('my wards/ä%20 100%/ONE.m', umlauts))
    yield of('verify', rules, write('bytes/ONE.m', b'TAKE(ID) ; \xff\xfe caf\xc3\n SET ^ACCT(ID)=1 ; \xe4\n SET ^ACCT(ID)=1 ; \xe4\n'))
    yield of('verify', rules, write('same/ONE.m', 'TAKE(ID)\n' + ' SET ^ACCT(ID)=1\n' * 70 + 'B SET ^ACCT(1)=1\n'))
    yield of('verify', '--strict', rules, write('strict/ONE.m', 'TAKE(ON) NEW Z SET Z="é"_(ON&$$YES()) QUIT\nYES() QUIT 1\n'))
    yield of('verify', rules, write('goto/ONE.m', 'TAKE ; "€"\n WRITE "€" GOTO TAKE\n'))
    yield of('verify', rules, write('empty/ONE.m', ''))
    yield of('verify', rules, write('9.m', 'TAKE QUIT\n'))
    yield of('verify', rules, 'ONE.m', write('twice/ONE.m', 'TAKE QUIT\n'))
    yield of('verify', write('none.toml', RULES % 'TWO'), 'ONE.m')
    yield of('verify', write('broken.toml', '# ä\n[[lock]\nname = "^A"\n'), 'ONE.m')
    yield of('verify', write('blank.toml', '[[cover]]\nglobal = "^A(ä, x)"\nlock = "^A"\n'), 'ONE.m')
    yield of('verify', write('key.toml', '[[lock]]\nname = "^A"\nrank = "1"\n'), 'ONE.m')
    yield of('verify', '--workers', '65', rules, 'ONE.m')
    yield of('check', rules, write('bad.cert', 'mlock-cert 1\nentry\n'), 'ONE.m')
    yield from refused_routines(of, write)


def refused_routines(of, write):
    """Refusals of routines whose file is not known by its name alone: a `%` is a `_` of the file's name, or two have one name."""
    rules = write('two.toml', RULES % 'TWO')
    well, ill = 'TAKE QUIT\n', 'TAKE ;\n XECUTE X\n'
    yield of('verify', rules, write('_UTIL.m', ill), refused_at=('_UTIL.m', 2, 2))
    yield of('verify', rules, write('a/X.m', ill), write('b/X.m', well), refused_at=('a/X.m', 2, 2))
    yield of('verify', rules, 'b/X.m', 'a/X.m', refused_at=('a/X.m', 2, 2))
    yield of('verify', rules, 'a/X.m', write('c/X.m', ill), refused_at=('a/X.m', 2, 2))
    yield of('verify', rules, write('a/9.m', well), write('b/9.m', well), refused_at=('a/9.m', 1, 1))
    yield of('verify', rules, 'b/X.m', write('d/X.m', well), write('e/X.m', well), refused_at=('d/X.m', 1, 1))
    yield of('verify', rules, write('a/_X.m', well), write('a/%X.m', well), refused_at=('a/%X.m', 1, 1))
    yield of('verify', rules, 'b/X.m', write('_CALL.m', 'TAKE DO NONE\n'), refused_at=('_CALL.m', 1, 9))
    yield of('verify', rules, 'b/X.m', write('_MORE.m', 'TAKE DO B(1) QUIT\nB QUIT\n'), refused_at=('_MORE.m', 1, 9))
    gives_up = write('_GROW.m', 'TAKE DO B LOCK  QUIT\nB IF $RANDOM(2) QUIT\n DO B LOCK +^ACCT(1) QUIT\n')
    yield of('verify', write('grow.toml', RULES % '%GROW'), gives_up, refused_at=(gives_up, 3, 22))


def quality_faults(report, found):
    """What is wrong with a code quality report of GitLab: an array of objects with a description, a name of the check, a fingerprint
    that no other has, a severity, a path without `./`, and the line of its begin."""
    # (with a refusal there are faults where the maker gave up)
    places = [*report.get('faults', []), *report.get('hazards', []), *(report[it] for it in ['refusal'] if it in report)]
    if len(found) != len(places) or len({it['fingerprint'] for it in found}) != len(found):
        yield f'{len(found)} findings in place of {len(places)}, or two with one fingerprint'
    for it in found:
        if set(it) != {'description', 'check_name', 'fingerprint', 'severity', 'location'}:
            yield f'members {sorted(it)}'
        elif not all(isinstance(it[name], str) and it[name] for name in ('description', 'check_name', 'fingerprint')):
            yield 'a text is missing'
        elif it['severity'] not in ('info', 'minor', 'major', 'critical', 'blocker'):
            yield f'severity {it["severity"]}'
        elif it['location']['path'].startswith('./') or not it['location']['path'] or it['location']['lines']['begin'] < 1:
            yield f'location {it["location"]}'


def quality_filter():
    """The filter for jq in docs/guide/OUTPUT.md."""
    text = (TOP / 'docs/guide/OUTPUT.md').read_text()
    return re.search(r"^ *(?:- )?jq '(.*?)' mlock\.json", text, re.MULTILINE | re.DOTALL)[1]


def main():
    if len(sys.argv) != 2:
        sys.exit(__doc__)
    program = str(pathlib.Path(sys.argv[1]).resolve())
    tried = wrong = 0
    jq = shutil.which('jq')
    if any(list(line_hashes(text).values()) != [f'{it}:1' for it in hashes] for text, hashes in HASHED):
        sys.exit('line_hashes is not what upload-sarif computes')
    version = subprocess.run([program, '--version'], stderr=subprocess.PIPE, check=False).stderr.decode()
    with tempfile.TemporaryDirectory(prefix='sarif-') as room:
        for it in runs(program, room):
            found = list(it.faults())
            driver = it.log['runs'][0]['tool']['driver']
            if f' {driver["version"]},' not in version:
                found.append(f'version {driver["version"]}, and --version says {version.strip()}')
            if jq:
                made = subprocess.run([jq, quality_filter()], input=it.json.stdout, stdout=subprocess.PIPE, timeout=60, check=False).stdout
                found += quality_faults(it.report, json.loads(made))
            tried, wrong = tried + 1, wrong + bool(found)
            if found:
                print(f'mlock {" ".join(it.words)}:', *found, sep='\n  ')
    note = '' if jq else '; jq is not installed, so the report for GitLab was not tried'
    print(f'reports for build servers: {tried - wrong} passed, {wrong} failed{note}')
    return 1 if wrong else 0


if __name__ == '__main__':
    sys.exit(main())
