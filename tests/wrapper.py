#!/usr/bin/env python3
"""Checks what ./gmemrun does itself: its help, its build, and what it passes on.

    wrapper.py

Each check copies the wrapper into a folder of its own, with a stand-in for the program and one for `rt`, so nothing is
proved or built here. Where the program is built, it gets words that it doesn't know from a copy of the wrapper too.
The last line counts the checks. The exit status is 0 where all passed.
"""
import os, pathlib, re, shutil, subprocess, sys, tempfile

TOP = pathlib.Path(__file__).resolve().parent.parent
PROGRAM = TOP / 'crates' / 'gmemrun' / 'out' / 'gmemrun'

# Writes its words and what it read, and ends with 3.
STAND_IN = '#!/bin/sh\nprintf "program:"\nprintf " <%s>" "$@"\nprintf "\\n"\ncat\nexit 3\n'
# `rt run` makes the program as $MADE says it. `rt try` ends as $TRIED says, with the output of a program.
RT = '''#!/bin/sh
echo "rt $* in $(basename "$PWD")" >&2
case $1 in
run) echo "not the program's"; [ "$MADE" = none ] && exit 1; mkdir -p out; cp "$MADE" out/gmemrun;;
try) shift 2; printf "tried:"; printf " <%s>" "$@"; printf "\\n"; cat; echo "$TRIED" >&2; exit 4;;
esac
'''

def write(path, text):
    path.parent.mkdir(parents=True, exist_ok=True)
    path.write_text(text)
    path.chmod(0o755)
    return path

def run(words, given=b'', program=None, is_old=False, made='none', tried='run=ended status=4'):
    """What the wrapper does in a folder where `program` is built, or nothing is: its status, output and notes."""
    with tempfile.TemporaryDirectory() as name:
        folder = pathlib.Path(name)
        wrapper = shutil.copy(TOP / 'gmemrun', folder)
        write(folder / 'crates.txt', 'gmemrun:\n')
        write(folder / 'crates' / 'gmemrun' / 'src' / 'main.rt', '')
        write(folder / 'crates' / 'gmemrun' / 'stdin', 'the stored script\n')
        write(folder / 'bin' / 'rt', RT)
        if program:
            built = folder / 'crates' / 'gmemrun' / 'out' / 'gmemrun'
            built.parent.mkdir()
            shutil.copy(program, built)
            if is_old:
                os.utime(built, (0, 0))
        path = f'{folder / "bin"}:{os.environ["PATH"]}'
        places = {**os.environ, 'PATH': path, 'MADE': str(made), 'TRIED': tried}
        done = subprocess.run([wrapper, *words], input=given, capture_output=True, timeout=60, env=places)
        return done.returncode, done.stdout.decode(), done.stderr.decode()

def statuses():
    text = (TOP / 'crates' / 'gmemrun' / 'src' / 'status.rt').read_text()
    return re.findall(r'Status::(\w+) => (\d+),', text)

def help_checks():
    status, text, notes = run(['--help'])
    yield '--help ends with 0', status == 0
    yield '--help builds nothing and notes nothing', notes == ''
    yield 'eight statuses in status.rt', len(statuses()) == 8
    for name, number in statuses():
        yield f'--help names {name} with {number}', re.search(rf'^ +{number} +{name}\b', text, re.M) is not None
    most = re.search(r'MOST_SCRIPT_BYTES: usize = ([\d_]+);', (TOP / 'crates/gm_base/src/numbers.rt').read_text())
    yield '--help tells the most bytes of a script', f' {most.group(1).replace("_", "")} bytes' in text
    most = re.search(r'MOST_HISTORY_BYTES: usize = ([\d_]+);', (TOP / 'crates/gm_history/src/limits.rt').read_text())
    yield '--help tells the most bytes of a history', f' {most.group(1).replace("_", "")};' in text
    for words in ('gmemrun steps', 'gmemrun threads', 'gmemrun migrate', 'gmemrun bulk 7', 'gmemrun --look steps',
                  'gmemrun --help'):
        yield f'--help tells of {words}', re.search(rf'^ +{words} ', text, re.M) is not None
    scripts = re.findall(r'^ +\./gmemrun .*< (\S+)', text, re.M)
    yield '--help has two examples, and their scripts are there', \
        len(scripts) == 2 and all((TOP / script).is_file() for script in scripts)
    yield '--help within 120 columns', max(map(len, text.split('\n'))) <= 120

def build_checks(program):
    said = 'proving and building'
    yield 'a program that is built gets its words and its input', \
        run(['a b', '', '--help'], b'given', program=program) == (3, 'program: <a b> <> <--help>\ngiven', '')
    status, text, notes = run(['steps'], b'given', made=program)
    yield 'what is built first gets its input, and no more is written', (status, text) == (3, 'program: <steps>\ngiven')
    yield 'what is built is told before it is built', -1 < notes.find(said) < notes.find('rt run')
    status, text, notes = run(['steps'], b'given', program=program, is_old=True, made=program)
    yield 'what is older than a source is built anew', (status, said in notes) == (3, True)
    status, text, notes = run(['steps'], b'given')
    yield 'where it cannot be built, the status is 70, with no output', (status, text) == (70, '') and said in notes

def look_checks(program):
    status, text, notes = run(['--look', 'steps', 'a b'], b'given', program=program)
    yield '--look passes words, input, output and status', (status, text) == (4, 'tried: <steps> <a b>\ngiven')
    yield '--look says that nothing is proved', 'nothing is proved' in notes and 'rt try' in notes
    status, text, notes = run(['--look', 'steps'], tried='run=none')
    yield '--look without an answer ends with 70', status == 70

def unknown_checks():
    for words in (['--version'], ['step'], ['steps', 'steps'], ['--help', 'steps'], ['bulk'], []):
        told = run(words, b'machine', program=PROGRAM)
        yield f'the program answers {words} by 2 and writes nothing', told == (2, '', '')

def main():
    with tempfile.TemporaryDirectory() as name:
        program = write(pathlib.Path(name) / 'program', STAND_IN)
        results = [*help_checks(), *build_checks(program), *look_checks(program)]
    if os.access(PROGRAM, os.X_OK):
        results += unknown_checks()
    failed = [said for said, holds in results if not holds]
    for said in failed:
        print(f'gmemrun: it does not hold that {said}')
    print(f'{len(results) - len(failed)} passed, {len(failed)} failed')
    sys.exit(1 if failed else 0)

main()
