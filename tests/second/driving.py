"""Running the driver on requests, and holding its lines against those that are expected."""

import itertools
import subprocess
import sys

import answers

# A portion takes a driver well under a second; one that hangs should be named.
PATIENCE = 300


def run(driver, data):
    """The lines that the driver prints for this input, and how it ended."""
    try:
        done = subprocess.run(driver, input=data, stdout=subprocess.PIPE, timeout=PATIENCE)
    except OSError as error:
        sys.exit('the driver does not start: %s' % error)
    except subprocess.TimeoutExpired:
        sys.exit('the driver has not ended after %d seconds' % PATIENCE)
    lines = done.stdout.decode('ascii', 'backslashreplace').split('\n')
    if lines[-1] == '':
        lines.pop()
    return lines, done.returncode


def first_difference(a, b):
    for i, (x, y) in enumerate(zip(a, b)):
        if x != y:
            return i
    return min(len(a), len(b))


def show(where, req, expected, got):
    print('DIFFERENT: op %s%s, %s' % (req.op, '' if req.table is None else ' by a table of %d words' % len(req.table), where))
    print('expected: %s' % expected)
    print('driver:   %s' % ('(no line)' if got is None else got))
    if got is not None:
        print('first difference at character %d' % first_difference(expected, got))
    print('schema %d, second %d, steps %s, room %d, third %d, kind %d, value %d' % (
        len(req.schema), len(req.second), list(req.steps), req.room, len(req.third), req.kind, req.value))
    print('request: %s' % answers.encode(req).hex())


def compare_lines(driver, made, expected, where):
    """Whether the driver answers these requests so; the first difference is shown."""
    lines, code = run(driver, b''.join(map(answers.encode, made)))
    return same_lines(made, expected, lines, code, where)


def same_lines(made, expected, lines, code, where):
    for i, (req, want, got) in enumerate(itertools.zip_longest(made, expected, lines)):
        if req is None:
            print('DIFFERENT: a line too many after %s: %s' % (where(len(made) - 1), got))
            return False
        if want != got:
            show(where(i), req, want, got)
            if code != 0:
                print('the driver ended with %d' % code)
            return False
    if code != 0:
        print('DIFFERENT: the lines agree, but the driver ended with %d' % code)
        return False
    return True
