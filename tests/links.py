#!/usr/bin/env python3
"""Checks that what the documents point to is there.

    links.py

The documents are README.md, docs/*.md, examples/README.md and crates/*/README.md. Boxes of code aren't looked at.

- A link without a scheme leads to a file or a folder of the repository, and what follows its `#` is a heading there.
- A word in backticks counts as a path where it has nothing but letters, digits and `_ . / * + -`, and either begins
  with a folder at the top (FOLDERS), a crate, `./`, `src/`, `specs/`, `proofs/` or `must-fail/`, or ends as a file of
  the repository does (ENDINGS). NAME, FILE, FUNCTION and `*` stand for any name. A path is found from the top, from
  crates/, or from the folder of its document; one that begins within a crate is found in some crate, or in the crate
  of its document; a name without a folder is that of some file. What a build makes (out/) is no file of the repository.
  Paths of Linux (LINUX) aren't looked for.
- README.md names each crate of crates.txt.
- A line has at most 120 columns, but in a table or a box.

The last line counts the links, paths, crates and documents. The exit status is 0 where all passed.
"""
import os, pathlib, re, sys

TOP = pathlib.Path(__file__).resolve().parent.parent
CRATES = TOP / 'crates'
ENDINGS = ('.md', '.rt', '.antt', '.edit', '.py', '.txt', '.script', '.history', '.svg')
FOLDERS = {'.ci', 'crates', 'docs', 'examples', 'tests', 'tools'}
LINUX = 'tools/testing/'
PLACEHOLDERS = r'\b(?:NAME|FILE|FUNCTION)\b'
IN_A_CRATE = {'src', 'specs', 'proofs', 'must-fail'}
MOST_COLUMNS = 120

def standing():
    """All files and folders from the top, without what a build makes."""
    for place, folders, files in os.walk(TOP):
        folders[:] = [name for name in folders if name not in ('.git', 'out', '__pycache__')]
        for name in folders + files:
            yield (pathlib.Path(place) / name).relative_to(TOP).as_posix()

STANDING = set(standing())

def documents():
    alone = [TOP / 'README.md', TOP / 'examples' / 'README.md']
    found = [*alone, *(TOP / 'docs').glob('*.md'), *CRATES.glob('*/README.md')]
    return sorted(path for path in found if path.is_file())

def plain_lines(text):
    """The lines with their numbers, without those of boxes: between fences, or indented by four after an empty line."""
    fence, before, in_box = None, '', False
    for number, line in enumerate(text.split('\n'), 1):
        mark = re.match(r'\s*(```+|~~~+)', line)
        if fence:
            fence = None if mark and mark.group(1).startswith(fence) else fence
            continue
        if mark:
            fence = mark.group(1)
            continue
        in_box = line.startswith('    ') and (in_box or not before.strip())
        if not in_box:
            yield number, line
        before = line

def blocks(text):
    """Each paragraph, and each row of a table, with the number of its first line."""
    block, start, last = [], 0, 0
    for number, line in [*plain_lines(text), (0, '')]:
        ends = not line.strip() or line.lstrip().startswith(('|', '#', '- ')) or number != last + 1
        if block and ends:
            yield start, '\n'.join(block)
            block = []
        if line.strip():
            block, start = block + [line], start if block else number
        last = number

def slug(heading):
    words = re.sub(r'\[([^\]]*)\]\([^)]*\)', r'\1', heading).replace('`', '').strip().lower()
    return re.sub(r'[^\w\- ]', '', words).replace(' ', '-')

def anchors(path):
    seen = {}
    for _, line in plain_lines(path.read_text()):
        heading = re.match(r'#{1,6} +(.*?)#*$', line)
        if heading:
            name = slug(heading.group(1))
            seen[name] = seen.get(name, -1) + 1
            yield f'{name}-{seen[name]}' if seen[name] else name

def links(block):
    """Each link without a scheme, with the number of line ends before it. What stands in backticks is none."""
    bare = re.sub(r'`[^`]*`', lambda code: re.sub(r'[^\n]', '`', code.group()), block)
    for form in (r'\]\(<?([^)\s>]+)>?(?:\s+"[^"]*")?\)', r'^ {0,3}\[[^\]]+\]: +(\S+)', r'(?:src|href)="([^"]+)"'):
        for found in re.finditer(form, bare, re.M):
            if not re.match(r'[a-z][a-z+.-]*:', found.group(1)):
                yield bare.count('\n', 0, found.start()), found.group(1)

def wrong_link(document, link):
    name, _, anchor = link.partition('#')
    target = pathlib.Path(os.path.normpath(document.parent / name)) if name else document
    if target != TOP and os.path.relpath(target, TOP) not in STANDING:
        return f'the link {link} leads to no file'
    if anchor and (target.suffix != '.md' or anchor not in anchors(target)):
        return f'the link {link} leads to no heading'
    return None

def is_path(word):
    if not re.fullmatch(r'[\w./*+-]+', word) or not re.search(r'\w', word) or word.startswith(LINUX):
        return False
    first, slash, _ = re.sub(r'^\./', '', word).partition('/')
    if word.startswith('./') or word.endswith(ENDINGS) and not word.startswith(('/', '.')):
        return True
    return bool(slash) and bool(first) and (first in FOLDERS | IN_A_CRATE or (CRATES / first).is_dir())

def paths(block):
    """Each path in backticks, with the number of line ends before it."""
    for code in re.finditer(r'`([^`]+)`', block):
        for word in code.group(1).split():
            word = word.strip(',;:').rstrip('.')
            if is_path(word):
                yield block.count('\n', 0, code.start()), word

def is_there(document, path):
    pattern = re.sub(PLACEHOLDERS, '*', re.sub(r'^\./', '', path).rstrip('/'))
    own = document.parent.relative_to(TOP).as_posix()
    if pattern.split('/')[0] in IN_A_CRATE:
        froms = [f'{own}/'] if document.parent.parent == CRATES else ['crates/*/']
    else:
        froms = ['', 'crates/', f'{own}/'] if '/' in pattern or path.startswith('./') else ['', '**/']
    form = '|'.join(re.escape(start + pattern) for start in froms)
    form = form.replace(r'\*\*/', '.*/').replace(r'\*', '[^/]*')
    return any(re.fullmatch(form, place) for place in STANDING)

def results():
    for document in documents():
        name, text = document.relative_to(TOP), document.read_text()
        for start, block in blocks(text):
            for line, link in links(block):
                yield f'{name}, line {start + line}', wrong_link(document, link)
            for line, path in paths(block):
                yield f'{name}, line {start + line}', None if is_there(document, path) else f'there is no {path}'
        lines = ((number, line) for number, line in plain_lines(text) if not line.lstrip().startswith('|'))
        wide = [str(number) for number, line in lines if len(line) > MOST_COLUMNS]
        yield f'{name}', f'over {MOST_COLUMNS} columns: lines {", ".join(wide)}' if wide else None
    page = (TOP / 'README.md').read_text()
    for line in (TOP / 'crates.txt').read_text().splitlines():
        crate = re.match(r'\w+', line)
        if crate:
            named = re.search(rf'\b{crate.group()}\b', page)
            yield 'README.md', None if named else f'{crate.group()} of crates.txt is not named'

def main():
    every = list(results())
    failed = [(place, wrong) for place, wrong in every if wrong]
    for place, wrong in failed:
        print(f'{place}: {wrong}')
    print(f'{len(every) - len(failed)} passed, {len(failed)} failed')
    sys.exit(1 if failed else 0)

main()
