#!/usr/bin/env python3
"""Checks that what docs/THEOREMS.md names stands where it says.

    theorems.py

A row stands under a heading with its crate's name and has five cells: a law; files, each with a function and its
clauses, between semicolons; files with definitions; files with lemmas; must-fail edits. A box names the file whose text
it is. The last line counts the rows and the boxes. The exit status is 0 where all passed.
"""
import pathlib, re, sys

TOP = pathlib.Path(__file__).resolve().parent.parent
CRATES = TOP / 'crates'
SAID = r'^ *(?:(?:pub|abbrev|unfoldable|record|data|ruleset) )*%s [({:=]'

def quoted(cell):
    return re.findall(r'`([^`]+)`', cell)

def text_of(crate, name):
    path = CRATES / (crate if name.split('/')[0] in ('src', 'specs', 'proofs') else '') / name
    return path.read_text() if path.is_file() else ''

def contract_of(text, name):
    """What stands from a public function's name on up to its body. Those of a trait are public without a word."""
    owner, _, plain = name.rpartition('::')
    block = r'^((?:impl|pub trait)[^\n]* %s\b.*?\n)(.*?)^\}' % owner
    parts = re.findall(block, text, re.M | re.S) if owner else [('', text)]
    for head, part in parts:
        public = ' +(?:pub )?' if re.search('trait | for ', head) else ' +pub ' if owner else 'pub '
        found = re.search(r'^%sfn %s\b.*?(?:^ *\{\}?| \{|;)$' % (public, plain), part, re.M | re.S)
        if found:
            return found.group()
    return None

def wrong_clauses(crate, cell):
    for part in cell.split(';'):
        name, function, *clauses = quoted(part)
        contract = contract_of(text_of(crate, name), function)
        if contract is None:
            yield f'{name}: no public function {function}'
        for clause in (clauses or ['']) if contract else []:
            if not re.search(r'^ *ensures %s ?\{' % clause, contract, re.M):
                yield f'{name}, {function}: no clause {clause or "without a name"}'

def wrong_names(crate, cell):
    name, text = 'no file', ''
    for word in quoted(cell):
        if '/' in word:
            name, text = word, text_of(crate, word)
        if not (text if '/' in word else re.search(SAID % re.escape(word), text, re.M)):
            yield f'{name}: no {word}'

def wrong_in_row(crate, row):
    cells = row.strip('|').split('|')
    if len(cells) != 5:
        return [f'{len(cells)} cells']
    edits = [name for name in quoted(cells[4]) if not (CRATES / crate / 'must-fail' / f'{name}.edit').is_file()]
    named = [*wrong_names(crate, cells[2]), *wrong_names(crate, cells[3])]
    return [*wrong_clauses(crate, cells[1]), *named, *(f'no edit {name}' for name in edits)]

def main():
    page = (TOP / 'docs' / 'THEOREMS.md').read_text()
    crate, results = '', []
    for number, line in enumerate(page.split('\n'), 1):
        if line.startswith('## '):
            crate = ''.join(quoted(line))
        elif line.startswith('| ') and not line.startswith('| the law |'):
            results.append((f'line {number}', wrong_in_row(crate, line)))
    for name, box in re.findall(r'^```\w+ crates/(\S+)\n(.*?)^```', page, re.M | re.S):
        stands = ' '.join(box.split()) in ' '.join(text_of('', name).split())
        results.append((f'a box of {name}', [] if stands else ['the file has another text']))
    failed = [(place, wrong) for place, wrong in results if wrong]
    for place, wrong in failed:
        print(f'docs/THEOREMS.md, {place}: {"; ".join(wrong)}')
    print(f'{len(results) - len(failed)} passed, {len(failed)} failed')
    sys.exit(1 if failed else 0)

main()
