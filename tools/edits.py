"""The must-fail edits, crates/NAME/must-fail/LABEL.edit: what their lines say.

An edit begins with a block of lines `# ..`: why it must be refused, `# fact: LAW` for what must fail, and its witnesses, of
which tools/witness says more. A line `#   ..`, with three spaces or more, goes on with the witness above it. Then come lines
`file: PATH`, `old: TEXT` and `new: TEXT`, as `rt must-fail` reads them: each old text is once in the file, and the new one
takes its place.
"""
import ast
import pathlib
import re
from collections import namedtuple

Edit = namedtuple('Edit', 'facts witnesses replacements')  # replacements: (path below the crate, old, new)
Witness = namedtuple('Witness', 'kind text')  # kind: program, read, plan or call

LENGTHS = {'durations': 1024, 'ends': 2048, 'waits': 16384, 'starts': 1024, 'copies': 1024, 'out': 32796}
MOST = {'durations': 4096, 'ends': 4096, 'waits': 20000, 'starts': 4096, 'copies': 2048, 'out': 40000, 'sheet': 190000}  # as in witness-calls.txt
DIRECTORY = pathlib.Path('/')  # no read of it succeeds


class Bad(Exception):
    """An edit or its witness cannot be used, for this reason."""


def parsed(text):
    witnesses, going_on = [], False
    for line in re.match(r'(?:#.*(?:\n|$))*', text)[0].splitlines():
        found = re.fullmatch(r'# witness(?:-(read|plan|call))?: *(\S.*)', line)
        going_on = bool(found) or going_on and line.startswith('#   ')
        if found:
            witnesses.append([found[1] or 'program', found[2]])
        elif going_on:
            witnesses[-1][1] += '\n' + line[4:]
        elif re.match(r'#\s*witness\b', line):
            raise Bad(f'this line is no witness of a known form: {line}')
    path, old, replacements = '', '', []
    for line in text.splitlines():
        if line.startswith('file: '):
            path = line[6:]
        elif line.startswith('old: '):
            old = line[5:]
        elif line.startswith('new:'):
            replacements.append((path, old, line[4:].removeprefix(' ')))
            old = ''
    return Edit(re.findall(r'^# fact: (\S+)$', text, re.M), [Witness(*w) for w in witnesses], replacements)


def of_source(edit):
    return any(path.startswith('src/') for path, _, _ in edit.replacements)


def applied(edit, read, parts=('src/',)):
    """The text of each file in these parts of the crate that an edit changes, by its path; read: gives the text of a path."""
    texts = {}
    for path, old, new in edit.replacements:
        if path.startswith(parts):
            text = texts[path] if path in texts else read(path)
            if not old or text.count(old) != 1:
                raise Bad(f'an old text is {text.count(old) if old else 0} times in {path}')
            texts[path] = text.replace(old, new)
    return texts


def sheet(kinds, durations, edges=(), clearing=()):
    """A sheet's bytes: a list of durations for each stage, (i, j, waits) for each edge; clearing times are 0 where none are given."""
    rows = [['J', kinds, len(durations), len(edges)], ['G', *(clearing or [0] * kinds)]]
    rows += [*(['T', i, *row] for i, row in enumerate(durations)), *(['E', i, j, *w] for i, j, w in edges)]
    return ''.join(','.join(map(str, row)) + '\n' for row in rows).encode()


NAMES = {'sheet': sheet, 'directory': DIRECTORY, '__builtins__': {f.__name__: f for f in (range, len, bytes, str, list, sum, min, max, enumerate, zip)}}


def evaluated(text):
    """The values that a witness lists, and those with a name."""
    try:
        call = ast.parse(f'f({text}\n)', mode='eval').body
        value = lambda node: eval(compile(ast.Expression(node), 'witness', 'eval'), dict(NAMES))
        if not (isinstance(call, ast.Call) and isinstance(call.func, ast.Name)) or any(k.arg is None for k in call.keywords):
            raise Bad('the witness is no list of values')
        return [value(a) for a in call.args], {k.arg: value(k.value) for k in call.keywords}
    except Bad:
        raise
    except Exception as error:  # whatever an expression can do
        raise Bad(f'the witness is no expression: {error}')


def standard_input(witness):
    """The bytes that a witness gives to the program that it is for; a list where they come in pieces, or the path of what stands for them."""
    if witness.kind == 'call':
        return b''
    values, options = evaluated(witness.text)
    if witness.kind == 'program' and values == [DIRECTORY] and not options:
        return DIRECTORY
    if not values or not all(isinstance(v, bytes) for v in values):
        raise Bad('a witness is the bytes of one sheet')
    if witness.kind == 'program':
        if options:
            raise Bad('a witness of the program has no lengths')
        return values if len(values) > 1 else values[0]
    if len(values) != 1:
        raise Bad('only to the program a sheet comes in pieces')
    behind = options.pop('behind', b'')
    for name, n in options.items():
        if name not in list(LENGTHS)[:3 if witness.kind == 'read' else None] or type(n) is not int or not 0 <= n <= MOST[name]:
            raise Bad(f'`{name}={n!r}` is no length of a buffer of `{witness.kind}`, or too large')
    if not isinstance(behind, bytes) or len(values[0]) + len(behind) > MOST['sheet']:
        raise Bad('what is behind the sheet is no bytes, or too long')
    numbers = [int(witness.kind == 'plan'), *(options.get(name, n) for name, n in LENGTHS.items()), len(values[0])]
    return b''.join(b'%08d' % n for n in numbers) + values[0] + behind
