#!/usr/bin/env python3
"""Runs the worked rows on a program, and the examples.

    rows.py PROGRAM

A row is a folder of tests/rows: `args` (the words), `stdin` or `repeat` (a byte and how often it comes, then an end),
`status`, and `stdout`, all of the output, or what is said of it: `lines` that it has, `entries` that it has, without
their turn, `tail`, its last lines, `turns` that write just those of `lines`, and `silent` turns, which write nothing.
A row with `folder` reads a folder, whose read fails; one with `full` writes to a sink that takes nothing. An example is a script of examples and its history; where that is the line of a refusal the status has
to be 1, else 0. The last line counts the rows. The exit status is 0 where all passed.
"""
import os, pathlib, subprocess, sys

ROWS = pathlib.Path(__file__).resolve().parent / 'rows'
EXAMPLES = ROWS.parent.parent / 'examples'

def first_difference(wanted, came):
    for number, (x, y) in enumerate(zip(wanted.split(b'\n') + [b'(end)'], came.split(b'\n') + [b'(end)']), 1):
        if x != y:
            return f'line {number}: wanted {x!r}, came {y!r}'
    return 'one ends before the other'

def run(program, words, given, source=None, sink=subprocess.PIPE):
    feed = {'input': given} if source is None else {'stdin': source}
    return subprocess.run([program] + words, stdout=sink, timeout=600, **feed)

def said_of(row, name):
    path = row / name
    return path.read_text().splitlines() if path.exists() else []

# The first thing that is said of an output and isn't so.
def first_wrong(row, text):
    lines = text.decode().splitlines()
    wanted, tail = said_of(row, 'lines'), said_of(row, 'tail')
    of_turn = lambda turn, some: [line for line in some if line.startswith(turn + ' ')]
    bare = [line.partition(' ')[2] for line in lines]
    wrong = [f'no line {line!r}' for line in wanted if line not in lines]
    wrong += [f'no entry {entry!r}' for entry in said_of(row, 'entries') if entry not in bare]
    wrong += [] if lines[len(lines) - len(tail):] == tail else ['it ends otherwise']
    wrong += [f'turn {turn} writes others' for turn in said_of(row, 'turns')
              if of_turn(turn, lines[2:]) != of_turn(turn, wanted)]
    wrong += [f'turn {turn} writes' for turn in said_of(row, 'silent') if of_turn(turn, lines[2:])]
    return wrong[0] if wrong else None

def row_result(program, row):
    words = (row / 'args').read_text().split()
    source = os.open(row, os.O_RDONLY) if (row / 'folder').exists() else None
    sink = open('/dev/full', 'wb') if (row / 'full').exists() else subprocess.PIPE
    if (row / 'repeat').exists():
        byte, count, *end = (row / 'repeat').read_text().split()
        given = byte.encode() * int(count) + (b'\n' if end else b'')
    else:
        given = (row / 'stdin').read_bytes() if (row / 'stdin').exists() else b''
    done = run(program, words, given, source, sink)
    wanted = int((row / 'status').read_text())
    if done.returncode != wanted:
        return f'status {done.returncode}, not {wanted}'
    if sink is subprocess.PIPE and not (row / 'stdout').exists():
        return first_wrong(row, done.stdout)
    if sink is subprocess.PIPE and done.stdout != (row / 'stdout').read_bytes():
        return first_difference((row / 'stdout').read_bytes(), done.stdout)
    return None

def example_result(program, script):
    done = run(program, ['steps'], script.read_bytes())
    wanted = script.with_suffix('.history').read_bytes()
    status = 1 if wanted.startswith(b'bad ') else 0
    if done.returncode != status:
        return f'status {done.returncode}, not {status}'
    return None if done.stdout == wanted else first_difference(wanted, done.stdout)

def main():
    program = sys.argv[1]
    run(program, ['steps'], b'')  # builds it, where it isn't built
    results = [(row.name, row_result(program, row)) for row in sorted(ROWS.iterdir())]
    results += [(script.name, example_result(program, script)) for script in sorted(EXAMPLES.glob('*.script'))]
    failed = [(name, wrong) for name, wrong in results if wrong]
    for name, wrong in failed:
        print(f'{name}: {wrong}')
    print(f'{len(results) - len(failed)} passed, {len(failed)} failed')
    sys.exit(1 if failed else 0)

main()
