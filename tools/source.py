"""How the tools read the project's sources: tokens, functions with their contracts, imports and declarations.

It knows names, brackets and indentation, and no types. Comments and layout are gone from what it gives.
"""
import re
from collections import namedtuple

# member: right behind a dot, as in `r.length`; head: right before a dot and a name, as in `r` there, and in `ℕ.zero`
Token = namedtuple('Token', 'text line column first member head')
# A function of a .rt file. whole: `pub`, and not `pub(crate)`; body: the pieces between its braces, each with its line, or None
Function = namedtuple('Function', 'name line exported foreign whole params clauses body lines')
Clause = namedtuple('Clause', 'kind line tokens label')  # kind: requires, ensures or ghost; label: the clause's own name, or ''
# A declaration of an .antt file. form: data, record, infix or value; around: the heads of the modules that it stands in
Declaration = namedtuple('Declaration', 'name form line tokens around')

RUST = re.compile(r"""(?P<skip>\s+|//[^\n]*|/\*(?:/\*.*?\*/|.)*?\*/)|b?r(#*)".*?"\2|b?"(?:\\.|[^"\\])*"|b?'(?:\\.[^']*|[^\\'])'|\w+|.""", re.S)
ANTT = re.compile(r"""(?P<skip>\s+|--[^\n]*|\{-(?:\{-.*?-\}|.)*?-\})|"(?:\\.|[^"\\])*"|«[^»]*»|⟦[^⟧]*⟧|[^\s(){}.;,@"«»]+|.""", re.S)
WORDS = set('data record deriving module where use mod pub package using open as unfoldable abbrev axiom unfold unfolding '
            'ruleset mutual infix infixl infixr elim let in do λ ( ) { } . ; , : = ← ↦ |'.split())
MARKS = ('pub', 'pattern', 'abbrev', 'unfoldable', 'axiom')


def pieces(regex, text, pos):
    return ((m.group(), m.start(), m.end()) for m in regex.finditer(text, pos) if not m['skip'])


def antt(text, pos=0, end=None):
    """The tokens of antt's text from pos to an `end` outside every brace, and the place behind it."""
    tokens, depth, line, at = [], 0, text.count('\n', 0, pos) + 1, pos
    for s, start, pos in pieces(ANTT, text, pos):
        if s == end and depth == 0:
            break
        depth += (s == '{') - (s == '}')
        s = s[1:-1] if s[0] == '«' else s  # escaped, it is the same name
        line, at, margin = line + text.count('\n', at, start), start, text.rfind('\n', 0, start) + 1
        tokens.append(Token(s, line, start - margin, not text[margin:start].strip(), text[start - 1:start] == '.',
                            bool(re.match(r'\.[^\s(){}.;,@"]', text[pos:pos + 2]))))
    return tokens, pos


def uses(tokens):
    """The imports: (token, module, name, new name). Of a whole module the name is None. `open r use {..}` imports nothing."""
    alias, opened = {}, False
    for i, use in enumerate(tokens):
        opened = use.text == 'open' or opened and not use.first
        if use.text != 'use' or opened:
            continue
        items, depth = [[]], 0  # the path, then what stands in braces
        for t in tokens[i + 1:]:
            if depth == 0 and (t.first or t.text in WORDS - {'.', '{', 'as', 'package'}):
                break
            depth += (t.text == '{') - (t.text == '}')
            if t.text in ('{', ',', '}'):
                items.append([])
            elif t.text != 'package':
                items[-1].append(t)
        words = [[t.text for t in item] for item in items]
        old = [''.join(w[:w.index('as')] if 'as' in w else w).strip('.') for w in words]
        first, dot, rest = old[0].partition('.')
        path = alias.get(first, first) + dot + rest
        if len(items) == 1 and words[0]:
            alias[words[0][-1]] = path
            yield use, path, None, words[0][-1]
        for item, name, w in list(zip(items, old, words))[1:]:
            if item:
                yield item[0], (path + '.' + name).rpartition('.')[0], name.rpartition('.')[2], w[-1]


def read_source(text):
    """The functions of a .rt file, the other names that its contracts see, and the tokens of its `ghost use` items."""
    functions, names, imports, before, pos = [], [], [], [], 0
    line = lambda at: text.count('\n', 0, at) + 1
    token = lambda at: next(pieces(RUST, text, at), ('', at, len(text)))
    while pos < len(text):
        s, start, pos = token(pos)
        if s == 'ghost' and token(pos)[0] == 'use':
            tokens, pos = antt(text, token(pos)[1], ';')
            imports += tokens
        elif s == 'fn':
            name, at, pos = token(pos)
            params, clauses, depth, last = [], [], 0, ['', '']
            while pos < len(text) and not (depth == 0 and s in ('{', ';')):
                s, start, pos = token(pos)
                depth += (s in ('(', '[')) - (s in (')', ']'))
                if s == ':' and depth == 1 and last[0] in ('(', ',', 'mut'):
                    params.append((last[1], line(start)))
                elif s in ('requires', 'ensures', 'ghost') and depth == 0:
                    label, word = '', ''
                    while pos < len(text) and word != '{':  # before it a clause may have a star and a name, that of a ghost value with a colon
                        word, _, pos = token(pos)
                        label = word if word.isidentifier() else label
                    tokens, pos = antt(text, pos, '}')
                    clauses.append(Clause(s, line(start), tokens, label))
                last = [last[1], s]
            names += [(name, line(at))] if 'ghost' in before else []
            foreign, public = 'no_mangle' in before or 'extern' in before, 'pub' in before
            whole = public and before[before.index('pub') + 1:][:1] != ['(']
            depth, before, body, first = s == '{', [], [] if s == '{' else None, line(start)
            while depth and pos < len(text):
                s, start, pos = token(pos)
                depth += (s == '{') - (s == '}')
                body.append((s, line(start)))
            lines = max(line(start) - first - 1, 1) if body else 0  # between the lines of its braces
            functions.append(Function(name, line(at), foreign or public, foreign, whole, params, clauses, body and body[:-1], lines))
        else:
            if 'ghost' in before or before[-1:] and before[-1] in ('struct', 'enum', 'type', 'as'):
                names.append((s, line(start)))
            before = [] if s in ('{', '}', ';') else before + [s]
    return functions, names, imports


def chunks(tokens):
    """Tokens cut where a line begins at the first one's column, outside every bracket."""
    found, depth = [], 0
    for t in tokens:
        if t.first and depth == 0 and t.column <= tokens[0].column or not found:
            found.append([])
        found[-1].append(t)
        depth += (t.text in ('(', '{')) - (t.text in (')', '}'))
    return found


def outside(tokens, text):
    """The place of the first such token outside every bracket, or the number of tokens."""
    depth = 0
    for i, t in enumerate(tokens):
        if t.text == text and depth == 0:
            return i
        depth += (t.text in ('(', '{')) - (t.text in (')', '}'))
    return len(tokens)


def declarations(tokens, around=()):
    """The declarations of an .antt file, those in its modules without a name among them: each with its clauses."""
    found, current = [], []  # of the last signature: its names and what stands below it
    for chunk in chunks(tokens):
        words = [t.text for t in chunk]
        at = next((i for i, w in enumerate(words) if w not in MARKS), 0)
        colon, equals = outside(chunk, ':'), outside(chunk, '=')
        if words[at] in ('use', 'mod', 'open', 'package'):
            current = []
        elif words[at] == 'module':
            where = outside(chunk, 'where')
            found += declarations(chunk[where + 1:], (*around, ' '.join(words[at:where]))) if chunk[where + 1:] else []
            current = []
        elif words[at] in ('infix', 'infixl', 'infixr', 'ruleset'):
            found.append(Declaration(' '.join([words[at], *words[at + 2:]]), 'infix', chunk[0].line, chunk, around))
            current = []
        elif words[at] in ('data', 'record') and len(words) > at + 1:
            found.append(Declaration(words[at + 1], words[at], chunk[0].line, chunk, around))
            current = []
        elif colon < equals and words[at] not in ('unfolding', 'unfold'):
            depth, names = 0, []
            for w in words[at:colon]:
                depth += (w == '{') - (w == '}')
                names += [w] if depth == 0 and w not in WORDS else []
            current = [Declaration(name, 'value', chunk[0].line, list(chunk), around) for name in names]
            found += current
        else:  # a clause, or an `unfolding` line: of the declaration that it begins with, or of all that were declared together
            for d in [d for d in current if d.name == words[at]] or current:
                d.tokens.extend(chunk)
    return found


def code_lines(tokens):
    """The tokens as lines of text, as they stand in the file, comments and spaces aside."""
    lines = {}
    for t in tokens:
        lines.setdefault(t.line, []).append(t.text)
    return [' '.join(words) for _, words in sorted(lines.items())]
