#!/usr/bin/env python3
"""Writes a large program of a hospital that keeps its locks, and its rule file, for measuring `mlock`.

    wards.py DIR [ROUTINES [LINES]]        2,000 routines of 100 lines where nothing is said

    mlock verify DIR/rules.toml DIR/W*.m                     prints yes
    mlock make DIR/rules.toml DIR/W*.m > DIR/certificate     the certificate for `mlock check`

Each routine has an entry MAIN, which holds a patient's lock over all its lines, and two labels that the routine before it
calls. The first half of the routines is declared. The lines take turns among all kinds of commands.
"""
import argparse
import pathlib

RULES = """[[lock]]
name = "^PAT"
rank = 10

[[lock]]
name = "^SEQ"
rank = 20

[[cover]]
global = "^PAT(id,...)"
lock = "^PAT(id)"

[[cover]]
global = "^SEQ"
lock = "^SEQ"

[[private]]
global = "^TMP($J,...)"

[[readonly]]
global = "^PRICE(...)"
"""

# `{next}` is the next routine, `{n}` the line's number.
KINDS = [
    ' SET ^PAT(ID,"visits")=$GET(^PAT(ID,"visits"))+1',
    ' SET X=$GET(^PRICE("stay",{n})),Y=X*2_" "_W',
    ' IF $DATA(^PAT(ID,"ward",{n})) SET ^PAT(ID,"seen")={n}',
    ' FOR I=1:1:5 SET ^PAT(ID,"bed",I)=I+X',
    ' DO NOTE^{next}(ID,"line {n}")',
    ' SET Y=$$SUM^{next}(ID,{n}),^PAT(ID,"sum",{n})=Y',
    ' LOCK +^SEQ SET N=$GET(^SEQ)+1,^SEQ=N LOCK -^SEQ',
    ' DO  SET ^PAT(ID,"last")=Y\n . NEW B\n . SET B=$GET(^PAT(ID,"bed",{n})) QUIT:B=""\n . SET ^TMP($JOB,B)={n}',
    ' KILL ^TMP($JOB),^PAT(ID,"old",{n})',
    ' MERGE ^PAT(ID,"copy")=^PAT(ID,"bed") WRITE:X X,!',
]

TAIL = """ LOCK -^PAT(ID)
 QUIT
NOTE(WHO,TEXT) ; writes a note; whoever calls holds the patient
 SET ^PAT(WHO,"note")=TEXT
 QUIT
SUM(WHO,FROM) ; the sum of a patient's visits
 NEW S
 SET S=FROM+$GET(^PAT(WHO,"visits"))
 QUIT S
"""


def routine(number, routines, lines):
    """The text of a routine of about so many lines."""
    body = [f'MAIN(ID,W) ; routine {number}\n NEW I,N,X,Y\n LOCK +^PAT(ID) SET (I,N,X,Y)=0']
    while sum(it.count('\n') + 1 for it in body) < lines - 9:
        of = (len(body) + number) % len(KINDS)
        body.append(KINDS[of].format(next=f'W{(number + 1) % routines:05}', n=len(body)))
    return '\n'.join(body) + '\n' + TAIL


def main():
    words = argparse.ArgumentParser(description=__doc__.split('\n')[0])
    words.add_argument('folder', type=pathlib.Path)
    words.add_argument('routines', type=int, nargs='?', default=2000)
    words.add_argument('lines', type=int, nargs='?', default=100)
    given = words.parse_args()
    given.folder.mkdir(parents=True, exist_ok=True)
    declared = [f'\n[[entry]]\nlabel = "MAIN^W{number:05}"\n' for number in range((given.routines + 1) // 2)]
    (given.folder / 'rules.toml').write_text(RULES + ''.join(declared))
    for number in range(given.routines):
        (given.folder / f'W{number:05}.m').write_text(routine(number, given.routines, given.lines))


if __name__ == '__main__':
    main()
