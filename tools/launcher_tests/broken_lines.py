#!/usr/bin/env python3
"""Writes a file of lines of which thirty are faulty in thirty ways, and what is to be said of them:
broken_lines.py LINES FILE EXPECTED GOOD. Among the lines that are well are odd ones of all kinds."""
import sys

NO_JSON = "the text is no JSON"
TOO_LARGE = "a number of the input is too large"
TOO_DEEP = "arrays and objects are more than 128 deep"

# Each faulty line: its bytes, what is wrong with it, and its first 120 characters as they are shown.
FAULTY = [
    (b'{"n": 02}', NO_JSON, '{"n": 02}'),
    (b'{"n": 3', NO_JSON, '{"n": 3'),
    (b'{"n": 3}}', NO_JSON, '{"n": 3}}'),
    (b"{'n': 3}", NO_JSON, "{'n': 3}"),
    (b'{n: 3}', NO_JSON, '{n: 3}'),
    (b'{"n" 3}', NO_JSON, '{"n" 3}'),
    (b'[1, 2,]', NO_JSON, '[1, 2,]'),
    (b'[1 2]', NO_JSON, '[1 2]'),
    (b'1 2', NO_JSON, '1 2'),
    (b'nan', NO_JSON, 'nan'),
    (b'True', NO_JSON, 'True'),
    (b'.5', NO_JSON, '.5'),
    (b'+1', NO_JSON, '+1'),
    (b'1.', NO_JSON, '1.'),
    (b'"a', NO_JSON, '"a'),
    (b'"\\x41"', NO_JSON, '"\\x41"'),
    (b'"\\u12"', NO_JSON, '"\\u12"'),
    (b'"a\tb"', NO_JSON, '"a\\tb"'),
    (b'"a\x00b"', NO_JSON, '"a\\x00b"'),
    (b'"\x1b[31mred"', NO_JSON, '"\\x1b[31mred"'),
    (b'\x00', NO_JSON, '\\x00'),
    (b'"\xff"', NO_JSON, '"\\xff"'),
    (b'"\xc3"', NO_JSON, '"\\xc3"'),
    (b'"\xed\xa0\x80"', NO_JSON, '"\\xed\\xa0\\x80"'),
    (b'"\xc0\xaf"', NO_JSON, '"\\xc0\\xaf"'),
    (b'\xef\xbb\xbf{"n": 1}', NO_JSON, '\ufeff{"n": 1}'),
    (b'"a\rb"', NO_JSON, '"a\\x0db"'),
    (b'{"n": 100000000000000000000}', TOO_LARGE, '{"n": 100000000000000000000}'),
    (b'[' * 129 + b']' * 129, TOO_DEEP, '[' * 120),
    ('"über ' .encode() + '漢'.encode() * 200 + b' \xc2\x9b', NO_JSON, '"über ' + '漢' * 114),
]
# Lines that are well.
WELL = [
    b'{"id": %d, "kind": "record", "value": 12.50, "tags": ["a", "b"]}',
    b'[%d, -0, 1e2, 1E-400, null, true]',
    b' \t{"id": %d} \r',
    b'"\\u0000 \\ud83d\\ude00 \\ud800 \\" \\\\ %d"',
    '"é 漢 😀 \u009b \u007f %d"'.encode(),
    b'"' + b'\\\\' * 70 + b'%d"',
    b'{"a": 1, "a": %d}',
    b'[' * 127 + b'%d' + b']' * 127,
]
BLANK = [b'', b' ', b'\t', b'\r', b' \t \r']


def main():
    count, name = int(sys.argv[1]), sys.argv[2]
    step = count // len(FAULTY)
    lines, told, good = [], [], []
    for number in range(1, count + 1):
        if number % step == 5 and len(told) < len(FAULTY):
            line, why, shown = FAULTY[len(told)]
            told.append("%s:%d: %s: %s" % (name, number, why, shown))
        else:
            kind = number * 7919 % 101
            line = BLANK[kind] if kind < len(BLANK) else WELL[kind % len(WELL)].replace(b'%d', b'%d' % number)
            good.append(line)
        lines.append(line)
    assert len(told) == len(FAULTY)
    with open(name, "wb") as out:
        out.write(b"\xef\xbb\xbf" + b"\n".join(lines))
    with open(sys.argv[3], "w", encoding="utf-8") as out:
        out.write("".join(line + "\n" for line in told))
    with open(sys.argv[4], "wb") as out:
        out.write(b"".join(line + b"\n" for line in good))


main()
