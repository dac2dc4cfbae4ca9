#!/usr/bin/env python3
"""Checks the pictures that tools/timeline draws of histories.

    timeline.py

Drawn are the histories of examples/, those among the standard outputs of tests/rows, the worked rows below and others
by hand. Of each picture it is checked that it is well-formed and has no outside resources, that each entry's line and
box stand in their row and lane, that nothing is outside the view box and no text on another. The pictures of
docs/pictures must be what is drawn today. Broken texts must be refused by their line, with nothing on standard output.
The last line counts the checks. The exit status is 0 where all passed.
"""
import pathlib, re, subprocess, sys
import xml.etree.ElementTree as ElementTree

TOP = pathlib.Path(__file__).resolve().parent.parent
TOOL = TOP / 'tools' / 'timeline'
EXAMPLES, PICTURES = TOP / 'examples', TOP / 'docs' / 'pictures'
FORMS = TOP / 'crates' / 'gm_text' / 'specs' / 'Text.antt'
PICTURED = ('two-vcpus', 'two-allocations')
LETTER = 6.75  # the width of a letter of 11 pixels, in the widest of the fonts that are asked for
SVG = '{http://www.w3.org/2000/svg}'

# The worked rows, of crates/gm_laws/specs, as text.
WORKED = {
    'conversion': '''
gmem-history 2
machine frames=8 user=16 vcpus=1 callers=1 huge=off
1 c0 judge region 0 0 0 16384 0 0 0
1 c0 change slot 0 base=0 pages=4 user=0 flags=0 file=- index=0
1 c0 answer ok=0
2 v0 enter
3 v0 miss read shared 0
4 v0 sample at=5
5 v0 look at=6 slot=0 attr=shared file=-
6 c0 judge attrs 0 4096 8 0
7 c0 begin 0-1
8 c0 acked
9 c0 change attr 0-1 private
10 c0 end
10 c0 answer ok=0
11 v0 get user=0
12 v0 retry
13 v0 flush
13 v0 enter
14 v0 miss read shared 0
15 v0 sample at=18
16 v0 look at=19 slot=0 attr=private file=-
17 v0 exit reason=39 errno=14 flags=0 gpa=0 size=4096
end turns=17 entries=21
''',
    'held page': '''
gmem-history 2
machine frames=1 user=4 vcpus=1 callers=1 huge=off
1 c0 judge create 4096 0
1 c0 change file 0 pages=1 block=0
1 c0 answer ok=0
2 c0 judge region 0 4 0 4096 0 0 0
2 c0 change slot 0 base=0 pages=1 user=0 flags=4 file=0 index=0
2 c0 answer ok=0
3 c0 judge attrs 0 4096 8 0
4 c0 begin 0-1
5 c0 acked
6 c0 change attr 0-1 private
7 c0 end
7 c0 answer ok=0
8 v0 flush
8 v0 enter
9 v0 miss write private 0 7
10 v0 sample at=15
11 v0 look at=16 slot=0 attr=private file=0
12 v0 get serial=0 frame=0 fresh=1
13 c0 judge punch 0 0 4096
14 c0 begin 0-1
15 c0 acked
16 c0 change cut 0 0-1
17 c0 end
17 c0 answer ok=0
18 v0 retry
18 v0 free serial=0 frame=0 pages=1
19 v0 flush
19 v0 enter
20 v0 miss write private 0 7
21 v0 sample at=29
22 v0 look at=30 slot=0 attr=private file=0
23 v0 get serial=1 frame=0 fresh=1
24 v0 install page=0 level=4k
25 v0 enter
26 v0 touch write private 0 7 serial=1 frame=0 level=4k value=7 fill=34
end turns=26 entries=35
''',
    'flush pending': '''
gmem-history 2
machine frames=8 user=16 vcpus=1 callers=1 huge=off
1 c0 judge region 0 0 0 16384 0 0 0
1 c0 change slot 0 base=0 pages=4 user=0 flags=0 file=- index=0
1 c0 answer ok=0
2 v0 enter
3 v0 miss read shared 0
4 v0 sample at=5
5 v0 look at=6 slot=0 attr=shared file=-
6 v0 get user=0
7 v0 install page=0 level=4k
8 v0 enter
9 v0 touch read shared 0 user=0 level=4k value=0 fill=10
10 c0 judge attrs 0 4096 8 0
11 c0 begin 0-1
13 v0 touch read shared 0 user=0 level=4k value=0 fill=10
14 v0 flush
15 c0 acked
16 c0 change attr 0-1 private
17 c0 end
17 c0 answer ok=0
18 v0 miss read shared 0
19 v0 sample at=20
20 v0 look at=21 slot=0 attr=private file=-
21 v0 exit reason=39 errno=14 flags=0 gpa=0 size=4096
end turns=21 entries=23
''',
    'mixed block': '''
gmem-history 2
machine frames=512 user=512 vcpus=1 callers=1 huge=on
1 c0 judge create 2097152 1
1 c0 change file 0 pages=512 block=1
1 c0 answer ok=0
2 c0 judge region 0 4 0 2097152 0 0 0
2 c0 change slot 0 base=0 pages=512 user=0 flags=4 file=0 index=0
2 c0 answer ok=0
3 c0 judge attrs 0 2097152 8 0
4 c0 begin 0-512
5 c0 acked
6 c0 change attr 0-512 private
7 c0 end
7 c0 answer ok=0
8 v0 flush
8 v0 enter
9 v0 miss read private 0
10 v0 sample at=15
11 v0 look at=16 slot=0 attr=private file=0
12 v0 get serial=0 frame=0 fresh=512
13 v0 install page=0 level=2m
14 v0 enter
15 v0 touch read private 0 serial=0 frame=0 level=2m value=0 fill=20
16 c0 judge attrs 20480 4096 0 0
17 c0 begin 5-6
18 v0 flush
19 c0 acked
20 c0 change attr 5-6 shared
21 c0 end
21 c0 answer ok=0
22 v0 miss read private 8
23 v0 sample at=29
24 v0 look at=30 slot=0 attr=private file=0
25 v0 get serial=0 frame=0 fresh=0
26 v0 install page=0 level=4k
27 v0 enter
28 v0 touch read private 8 serial=0 frame=0 level=4k value=0 fill=34
end turns=28 entries=35
''',
    'marked slot': '''
gmem-history 2
machine frames=4 user=4 vcpus=1 callers=1 huge=off
1 c0 judge region 0 0 0 4096 0 0 0
1 c0 change slot 0 base=0 pages=1 user=0 flags=0 file=- index=0
1 c0 answer ok=0
2 c0 judge region 0 0 0 0 0 0 0
3 c0 begin 0-1
3 c0 change mark 0
4 v0 flush
4 v0 enter
5 v0 miss read shared 0
6 v0 sample at=9
7 v0 look at=10 slot=0 attr=shared file=-
8 v0 retry
9 c0 acked
10 c0 change noslot 0
11 c0 end
11 c0 answer ok=0
12 v0 enter
13 v0 miss read shared 0
14 v0 sample at=18
15 v0 look at=19 slot=- attr=shared file=-
16 v0 exit reason=6 gpa=0
end turns=16 entries=21
''',
    'move and deletion': '''
gmem-history 2
machine frames=1 user=4 vcpus=1 callers=1 huge=off
1 c0 judge region 0 0 0 4096 4096 0 0
1 c0 change slot 0 base=0 pages=1 user=1 flags=0 file=- index=0
1 c0 answer ok=0
2 c0 judge region 0 0 8192 4096 4096 0 0
3 c0 begin 0-1
3 c0 change mark 0
4 c0 acked
5 c0 change move 0 base=2
6 c0 end
6 c0 answer ok=0
7 v0 flush
7 v0 enter
8 v0 miss write shared 8192 3
9 v0 sample at=13
10 v0 look at=14 slot=0 attr=shared file=-
11 v0 get user=1
12 v0 install page=2 level=4k
13 v0 enter
14 v0 touch write shared 8192 3 user=1 level=4k value=3 fill=18
15 c0 judge region 0 0 0 0 0 0 0
16 c0 begin 2-3
16 c0 change mark 0
18 v0 flush
19 c0 acked
20 c0 change noslot 0
21 c0 end
21 c0 answer ok=0
22 v0 miss read shared 8192
23 v0 sample at=28
24 v0 look at=29 slot=- attr=shared file=-
25 v0 exit reason=6 gpa=8192
26 c0 judge peek 4096
26 c0 answer ok=3
end turns=26 entries=33
''',
    'population and close': '''
gmem-history 2
machine frames=8 user=16 vcpus=1 callers=1 huge=off
1 c0 judge create 12288 0
1 c0 change file 0 pages=3 block=0
1 c0 answer ok=0
2 c0 judge region 0 4 0 12288 0 0 0
2 c0 change slot 0 base=0 pages=3 user=0 flags=4 file=0 index=0
2 c0 answer ok=0
3 c0 judge attrs 0 12288 8 0
4 c0 begin 0-3
5 c0 acked
6 c0 change attr 0-3 private
7 c0 end
7 c0 answer ok=0
8 c0 judge allocate 0 4096 4096
9 c0 page index=1 serial=0 frame=0 pages=1
10 c0 answer ok=0
11 c0 judge poke 0 42
11 c0 change word page=0 word=0 value=42
11 c0 answer ok=0
12 c0 judge populate 0 3 0
13 c0 page index=0 serial=1 frame=1 pages=1
14 c0 answer ok=1
15 c0 judge populate 0 3 0
16 c0 answer errno=17
17 c0 judge close 0
18 c0 begin 0-3
19 c0 acked
20 c0 change shut 0
20 c0 free serial=1 frame=1 pages=1
20 c0 free serial=0 frame=0 pages=1
21 c0 end
21 c0 answer ok=0
22 c0 judge close 0
22 c0 answer errno=9
23 v0 flush
23 v0 enter
24 v0 miss read private 0
25 v0 sample at=36
26 v0 look at=37 slot=0 attr=private file=-
27 v0 exit reason=39 errno=14 flags=8 gpa=0 size=4096
end turns=27 entries=39
''',
}

# No right histories: what the worked rows haven't, each word at its ends, and a fill or a flush of each sort.
BY_HAND = {
    'what the worked rows have not': """
gmem-history 2
machine frames=65536 user=65536 vcpus=3 callers=2 huge=on
1 c1 judge create 0 18446744073709551615
1 c1 answer errno=22
2 c1 judge allocate 4294967295 0 4096
2 c1 answer errno=14
3 c1 judge close 3
3 c1 begin
3 c1 acked
3 c1 change shut 3
3 c1 free serial=18446744073709551615 frame=4294967295 pages=4294967295
3 c1 end
3 c1 answer errno=2
4 c1 judge populate 0 18446744073709551615 0
5 c1 page index=512 serial=512 frame=512 pages=512
6 c1 answer errno=12
7 c0 begin 0-1 5-6 4503599627370495-4503599627370496
8 v2 miss write shared 18446744073709551608 18446744073709551615
9 v2 look at=0 slot=4294967295 attr=private file=4294967295
10 v2 get serial=18446744073709551615 frame=4294967295 fresh=512
11 v2 install page=4503599627370495 level=2m
12 v2 touch write private 8 18446744073709551615 serial=1 frame=2 level=2m value=18446744073709551615 fill=0
13 v2 exit errno=12
14 c0 change word page=65535 word=511 value=18446744073709551615
14 c0 change cut 4294967295 0-18446744073709551615
14 v1 gone
14 c0 change slot 4095 base=0 pages=18446744073709551615 user=0 flags=4 file=- index=7
20 v0 exit reason=39 errno=14 flags=18446744073709551615 gpa=18446744073709551615 size=0
18446744073709551614 c0 gone
end turns=18446744073709551615 entries=27
""",
    'leaves and fills': """
gmem-history 2
machine frames=0 user=8 vcpus=2 callers=1 huge=on
1 v1 miss read shared 4096
2 v1 get user=1
3 v1 install page=1 level=2m
4 v0 touch read shared 2093056 user=511 level=2m value=0 fill=3
5 v0 touch read shared 8192 user=2 level=2m value=0 fill=3
6 v0 touch read private 4096 user=1 level=2m value=0 fill=5
7 v0 touch read shared 2097152 user=512 level=2m value=0 fill=6
8 c0 begin 512-513
9 v0 touch read shared 0 user=0 level=2m value=0 fill=8
10 c0 begin 511-512
11 v0 touch read shared 0 user=0 level=2m value=0 fill=10
12 v0 touch read shared 0 user=0 level=2m value=0 fill=99
13 v0 touch read shared 0 user=0 level=2m value=0 fill=9
14 v0 miss read shared 0
15 v0 get user=0
16 v0 install page=0 level=4k
17 v1 install page=0 level=2m
18 v0 touch read shared 0 user=0 level=4k value=0 fill=17
end turns=18 entries=18
""",
    'flushes': """
gmem-history 2
machine frames=0 user=8 vcpus=2 callers=2 huge=off
1 v0 flush
2 c0 begin 0-1
3 c1 begin 1-2
4 v0 flush
5 c1 acked
6 v1 flush
7 c0 acked
8 v0 flush
9 c0 begin 0-1
10 c0 acked
11 v0 flush
12 v1 acked
end turns=12 entries=12
""",
    'what nothing closes': """
gmem-history 2
machine frames=0 user=8 vcpus=1 callers=1 huge=off
1 v0 retry
2 v0 miss read shared 0
3 v0 miss read shared 0
4 c0 judge close 0
5 c0 begin
6 v0 retry
end turns=7 entries=6
""",
}

# What some pictures must have: spans as the first entry and the last, joins as the later entry and the earlier.
SPANS = {
    'two-vcpus': 'call 0 2, fault 4 11, fault 7 18, fault 21 24',
    'held page': 'bracket 7 10, bracket 19 22, call 0 2, call 3 5, call 6 11, call 18 23, fault 14 24, fault 28 32',
    'flush pending': 'bracket 12 17, call 0 2, call 11 18, fault 4 8, fault 19 22',
    'marked slot': 'bracket 4 14, call 0 2, call 3 15, fault 8 11, fault 17 20',
    'what nothing closes': 'bracket 4 none, call 3 none, fault 1 none, fault 2 5',
}
JOINS = {
    'two-vcpus': 'fill 14 13, leaf 13 11, leaf 20 18',
    'two-allocations': '',
    'held page': 'acked 8 7, acked 20 19, flush 12 7, flush 26 19, leaf 34 32',
    'flush pending': 'acked 15 12, fill 13 10, flush 14 12, leaf 10 8',
    'marked slot': 'acked 12 4, flush 6 4',
    'leaves and fills': 'fill 4 3, leaf 3 2, leaf 8 2',
    'flushes': 'acked 4 2, acked 6 1, acked 9 8, flush 3 1, flush 3 2, flush 5 1, flush 10 8',
}

# A small history, and what is refused when a line of it is replaced: the line, the lines in its place, the line that is
# named, and a word of the reason.
GOOD = """gmem-history 2
machine frames=2 user=4 vcpus=1 callers=2 huge=off
1 c0 judge create 12288 0
1 c0 change file 0 pages=3 block=0
1 c0 answer ok=0
4 v0 miss read shared 8
5 v0 look at=4 slot=- attr=shared file=-
7 c1 begin 0-1
8 v0 touch read shared 8 user=0 level=4k value=0 fill=6
end turns=8 entries=7
"""
BROKEN = [
    (1, 'gmem-history 1', 1, 'first line'),
    (1, '', 1, 'first line'),
    (2, 'machine frames=2 user=4 vcpus=0 callers=2 huge=off', 2, 'from 1 to 64'),
    (2, 'machine frames=2 user=4 vcpus=65 callers=2 huge=off', 2, 'from 1 to 64'),
    (2, 'machine frames=2 user=4 vcpus=1 callers=2 huge=maybe', 2, 'on or off'),
    (2, 'machine user=4 frames=2 vcpus=1 callers=2 huge=off', 2, "can't stand after"),
    (2, 'machine frames=2 user=4 vcpus=1 callers=1 huge=off', 8, 'no actor'),
    (3, '0 c0 judge create 12288 0', 3, 'from 1'),
    (3, '01 c0 judge create 12288 0', 3, 'leading zeros'),
    (3, '1 c0 judge create 12288', 3, 'missing'),
    (3, '1 c0 judge create 12288 0 0', 3, 'too many'),
    (3, '1 c0 judge create 18446744073709551616 0', 3, '18446744073709551615'),
    (3, '1 c0 judge create 0x1000 0', 3, 'number'),
    (3, '1 c0 judge migrate 0', 3, 'migrate'),
    (3, '1 c0  judge create 12288 0', 3, 'one space'),
    (3, ' 1 c0 judge create 12288 0', 3, 'one space'),
    (3, '1 c0 judge create 12288 0\r', 3, 'byte'),
    (3, '1 c0 judge create 12288 \xe9', 3, 'byte'),
    (4, '', 4, 'empty'),
    (4, '1 c0', 4, 'turn, an actor'),
    (4, '1 x0 change file 0 pages=3 block=0', 4, 'no actor'),
    (4, '1 c2 change file 0 pages=3 block=0', 4, 'no actor'),
    (4, '1 c00 change file 0 pages=3 block=0', 4, 'no actor'),
    (4, '1 c0 change file 0 pages=3 block=2', 4, '0 or 1'),
    (4, '1 c0 change file 0 page=3 block=0', 4, '"page=3"'),
    (4, '1 c0 change <b> 0', 4, '"<b>"'),
    (4, '1 c0 touched 0', 4, '"touched"'),
    (4, '1 c0 end turns=8 entries=7', 4, 'too many'),
    (5, 'end turns=1 entries=2', 6, 'after the last line'),
    (5, '1 c0 answer errno=1', 5, 'errno='),
    (6, '4 v0 miss read shared 9', 6, 'multiple of 8'),
    (6, '4 v0 miss read mixed 8', 6, 'private or shared'),
    (6, '4 v0 miss read shared 8 8', 6, 'too many'),
    (7, '3 v0 look at=4 slot=- attr=shared file=-', 7, 'after turn 4'),
    (7, '5 v0 look at=4 slot=4294967296 attr=shared file=-', 7, 'slot='),
    (7, '5 v0 look at=4 slot= attr=shared file=-', 7, 'slot='),
    (8, '7 c1 begin 1-1', 8, 'LO below HI'),
    (8, '7 c1 begin 0-4503599627370497', 8, '2^52'),
    (8, '7 c1 begin 0-1 5', 8, '"5"'),
    (9, '8 v0 touch read shared 8 user=0 level=1g value=0 fill=6', 9, '4k or 2m'),
    (9, '8 v0 touch read shared 8 user=0 level=4k value=0', 9, 'missing'),
    (10, 'end turns=7 entries=7', 10, 'turn 8'),
    (10, 'end turns=8 entries=8', 10, 'entries=8'),
    (10, 'end turns=8', 10, 'missing'),
    (10, 'end', 10, 'missing'),
    (10, 'end turns=8 entries=7\n9 c0 gone', 11, 'after the last line'),
    (10, 'end turns=8 entries=7\n', 11, 'after the last line'),
    (10, '8 c0 gone', 11, "isn't there"),
]

def run(given, *words):
    return subprocess.run([str(TOOL), *words], input=given, capture_output=True, timeout=120)

# ---- What a picture must be ----

def number(item, name):
    return float(item.get(name))

def box_of_text(item):
    long, x, y = len(item.text) * LETTER, number(item, 'x'), number(item, 'y')
    kinds = item.get('class', '').split()
    left = x - long if 'right' in kinds else x - long / 2 if 'middle' in kinds else x
    return left, y - 9, left + long, y + 3

def box_of_path(item):
    """Of a curve the points that it passes are taken, at 21 places."""
    numbers = [float(n) for n in re.findall(r'-?[0-9.]+', item.get('d'))]
    if 'C' in item.get('d'):
        parts = [((1 - t / 20) ** 3, 3 * (1 - t / 20) ** 2 * t / 20, 3 * (1 - t / 20) * (t / 20) ** 2, (t / 20) ** 3)
                 for t in range(21)]
        xs, ys = ([sum(p * n for p, n in zip(part, numbers[start::2])) for part in parts] for start in (0, 1))
    elif 'h' in item.get('d'):
        xs, ys = [numbers[0], numbers[0] + numbers[2]], [numbers[1]]
    else:
        xs, ys = [numbers[0]], [numbers[1], numbers[2]]
    return min(xs), min(ys), max(xs), max(ys)

def box_of(item):
    kind = item.tag.removeprefix(SVG)
    if kind == 'rect':
        left, top = number(item, 'x'), number(item, 'y')
        return left, top, left + number(item, 'width'), top + number(item, 'height')
    if kind == 'circle':
        x, y, r = (number(item, name) for name in ('cx', 'cy', 'r'))
        return x - r, y - r, x + r, y + r
    return {'text': box_of_text, 'path': box_of_path}[kind](item)

def drawn(root):
    return [item for item in root if item.tag.removeprefix(SVG) not in ('title', 'desc', 'style')]

def classed(root, name):
    return [item for item in root if name in item.get('class', '').split()]

def wrong_places(root):
    _, _, width, height = map(float, root.get('viewBox').split())
    for item in drawn(root):
        left, top, right, bottom = box_of(item)
        if left < 0 or top < 0 or right > width or bottom > height:
            yield f'outside the view box: {item.attrib}'
    texts = sorted(((box_of(item), item.text) for item in drawn(root) if item.text), key=lambda pair: pair[0][1])
    for place, ((left, top, right, bottom), text) in enumerate(texts):
        for (other, high, end, _), told in texts[place + 1:]:
            if high >= bottom:
                break
            if left < end and other < right:
                yield f'"{text}" and "{told}" stand on one another'

def wrong_entries(root, lines):
    """Lines, labels and boxes: one for each entry, in rows that go down, in the lane that its actor heads."""
    names = {kind: {int(item.get('data-at')): item for item in classed(root, kind) if item.get('data-at')}
             for kind in ('line', 'label', 'box')}
    for kind, found in names.items():
        if sorted(found) != list(range(len(lines))):
            yield f'{len(found)} of class {kind}, and {len(lines)} entries'
            return
    lanes = {item.text: number(item, 'x') for item in classed(root, 'lane')}
    texts_left, before = min([number(item, 'x') for item in names['line'].values()], default=0), 0
    for at, text in enumerate(lines):
        line, label, box = (names[kind][at] for kind in ('line', 'label', 'box'))
        left, top, right, bottom = box_of(box)
        inside = box_of(label)
        _, actor, word = text.split(' ')[:3]
        if line.text != text or number(line, 'y') != number(label, 'y'):
            yield f'entry {at} has another line'
        if label.text.split(' ')[0] != word:
            yield f'entry {at} has the label "{label.text}"'
        if abs(lanes[actor] - (left + right) / 2) > 1 or top < before or right > texts_left:
            yield f'the box of entry {at} isn\'t in its lane and row'
        if inside[0] < left or inside[2] > right or inside[1] < top or inside[3] > bottom:
            yield f'the label of entry {at} isn\'t in its box'
        before = bottom

def wrong_picture(history, picture):
    text = picture.decode('ascii')
    root = ElementTree.fromstring(text)
    lines = history.decode('ascii').split('\n')[:-1]
    if root.tag != SVG + 'svg' or root[0].tag != SVG + 'title' or not root[0].text:
        yield 'no svg with a title'
    if re.search(r'href|url\(|@import|<script|<image|<foreignObject', text) or text.count('http') != 1:
        yield 'a resource from outside'
    if [item.text for item in classed(root, 'machine') + classed(root, 'end')] != [lines[1], lines[-1]]:
        yield 'another machine line or last line'
    yield from wrong_entries(root, lines[2:-1])
    yield from wrong_places(root)

def found_of(root, kind, first, second):
    """The spans or joins in order; those of the legend have no entries."""
    found = [(item.get('class').split()[1], int(item.get(first)), item.get(second))
             for item in classed(root, kind) if item.get(first)]
    return ', '.join(f'{name} {one} {two}' for name, one, two in sorted(found))

# ---- The checks ----

def history_result(name, history):
    done = run(history)
    if done.returncode != 0 or done.stderr:
        return f'status {done.returncode}, {done.stderr!r}'
    wrong = list(wrong_picture(history, done.stdout))
    root = ElementTree.fromstring(done.stdout)
    spans = found_of(root, 'frame', 'data-first', 'data-last')
    joins = found_of(root, 'join', 'data-later', 'data-earlier')
    if spans != SPANS.get(name, spans):
        wrong.append(f'the spans are {spans}')
    if joins != JOINS.get(name, joins):
        wrong.append(f'the joins are {joins}')
    return '; '.join(wrong[:5]) or None

def picture_result(name):
    """The file, and what is drawn from the history's file and from standard input in both ways."""
    history, path = EXAMPLES / f'{name}.history', PICTURES / f'{name}.svg'
    if not path.is_file():
        return 'it isn\'t there'
    drawings = [run(b'', str(history)), run(history.read_bytes(), '-'), run(history.read_bytes())]
    same = all(done.stdout == path.read_bytes() for done in drawings)
    return None if same else 'tools/timeline draws another picture'

def refusal_result(given, line, reason, words=()):
    done = run(given, *words)
    told = done.stderr.decode()
    if done.returncode != 1 or done.stdout:
        return f'status {done.returncode}, {len(done.stdout)} bytes of a picture'
    if not re.fullmatch(r'timeline: line %d: [^\n]*\n' % line, told) or reason not in told:
        return f'wanted line {line} and "{reason}", came {told!r}'
    return None

def broken_texts():
    for line, lines, named, reason in BROKEN:
        texts = GOOD.split('\n')
        texts[line - 1] = lines
        yield f'line {line} as {lines!r}', '\n'.join(texts).encode('latin-1'), named, reason
    yield 'an empty text', b'', 1, 'first line'
    yield 'one line', b'gmem-history 2\n', 2, "isn't there"
    yield 'two lines', '\n'.join(GOOD.split('\n')[:2] + ['']).encode(), 3, "isn't there"
    yield 'no newline at the end', GOOD.rstrip('\n').encode(), 10, 'newline'
    yield 'a refusal', b'bad line=2 cause=word\n', 1, 'first line'

def usage_result():
    two, none = run(b'', 'a', 'b'), run(b'', str(TOP / 'no' / 'such' / 'file'))
    if (two.returncode, two.stdout, two.stderr.count(b'\n')) != (2, b'', 1):
        return f'two words give status {two.returncode}'
    if (none.returncode, none.stdout, none.stderr.count(b'\n')) != (1, b'', 1):
        return f'a file that isn\'t there gives status {none.returncode}'
    return None

def long_history(count):
    """Many entries: a conversion and touches of two vCPUs, over and over."""
    first = ['c0 judge attrs 0 4096 8 0', 'c0 begin 0-1', 'v0 flush', 'c0 acked', 'c0 change attr 0-1 private',
             'c0 end', 'c0 answer ok=0', 'v1 miss read private 0', 'v1 get serial=0 frame=0 fresh=0',
             'v1 install page=0 level=4k']
    touch = '{} touch read private 0 serial=0 frame=0 level=4k value=0 fill={}'
    lines = [f'{at + 1} {(first + [touch.format(f"v{at % 2}", at - at % 40 + 10)] * 30)[at % 40]}'
             for at in range(count)]
    head = ['gmem-history 2', 'machine frames=1 user=1 vcpus=2 callers=1 huge=off']
    return '\n'.join([*head, *lines, f'end turns={count} entries={count}', '']).encode()

def kinds_result(histories):
    """Each text of the definition is in a history that is drawn."""
    told = b'\n'.join(histories).decode('ascii')
    texts = re.findall(r'codes "([^"]*)"', FORMS.read_text())
    missing = [text for text in texts if text.replace('\\n', '\n') not in told]
    return f'no history has {missing}' if missing or len(texts) < 80 else None

def main():
    files = [(path.stem, path.read_bytes()) for path in sorted(EXAMPLES.glob('*.history'))]
    outputs = [(path.parent.name, path.read_bytes()) for path in sorted((TOP / 'tests' / 'rows').glob('*/stdout'))]
    by_hand = [(name, text.lstrip('\n').encode()) for name, text in [*WORKED.items(), *BY_HAND.items()]]
    # a script that is refused, and one that a number stands for, has one line for an output, and no history
    written = [(name, text) for name, text in [*files, *outputs] if not text.startswith((b'bad ', b'bulk ')) and text]
    histories = [*written, *by_hand]
    histories += [('the history with no wrong line', GOOD.encode()), ('2,000 entries', long_history(2000))]
    results = [(name, history_result(name, text)) for name, text in histories]
    results += [(f'docs/pictures/{name}.svg', picture_result(name)) for name in PICTURED]
    results += [(name, refusal_result(text, line, reason)) for name, text, line, reason in broken_texts()]
    results += [('the words', usage_result()), ('all kinds of entries', kinds_result([text for _, text in by_hand]))]
    failed = [(name, wrong) for name, wrong in results if wrong]
    for name, wrong in failed:
        print(f'tools/timeline, {name}: {wrong}')
    print(f'{len(results) - len(failed)} passed, {len(failed)} failed')
    sys.exit(1 if failed else 0)

main()
