"""What the clauses of a contract say, with the definitions of crates/*/specs that they cite written out.

A clause is a list of parts, which all hold. A definition with one clause of plain names is replaced by its body, a record by
its fields; one that goes by cases stays as it is, unless it says nothing in each case. Names are followed along `use` lines:
`Rattle.c.specs.M` is crates/c/specs/M.antt. No types are known.
"""
import re
from collections import namedtuple

from source import Token, antt, chunks, declarations, outside, uses

NOTHING = ['Unit', 'Unit { 0 }', 'tt', 'True', 'T true', 'IsTrue true', '⊤', '⊤ₛ', 'emp']
RESULT, LEFT = 'the result', 'the exit'  # what stands for them in a part, so that no name within a definition is taken for them
BRACKETS = {'(': ')', '{': '}', '⌜': '⌝'}
OF_CASE = r'(?:On|If)(?:Ok|Err|Some|None) (?:the result|\S+) (?:\( λ [^.]* \. )?[( ]*'  # a library's word for one case, with its fact or its `λ v.`
FLAT = re.compile(r'[( ]*([^↔⊎]* → )?(%s)?(%s|(?:0|zero) ≤ .*|(?P<side>.+) [≡≤↔→] (?P=side))[) ]*' % (OF_CASE, '|'.join(NOTHING)))

Word = namedtuple('Word', Token._fields + ('scope',))  # a token, with the scope that its name has its meaning in
Scope = namedtuple('Scope', 'own imports')  # declarations by name; of each imported name its module and its name there


def scope_of(tokens):
    """The names that the text of a specs file, or the contracts below some imports, can use."""
    return Scope({d.name: d for d in declarations(tokens)} if tokens else {}, {new: (path, name) for _, path, name, new in uses(tokens)})


def words(tokens, scope):
    return [Word(*t, scope) for t in tokens]


def word(text):
    return Word(text, 0, 0, False, False, False, None)


def split(tokens, text):
    """What stands between the tokens of this text that are outside every bracket."""
    found, depth = [[]], 0
    for t in tokens:
        depth += (t.text in BRACKETS) - (t.text in BRACKETS.values())
        if t.text == text and depth == 0:
            found.append([])
        else:
            found[-1].append(t)
    return found


def group(tokens, i):
    """The place behind the bracket that opens at i."""
    depth = 0
    for j in range(i, len(tokens)):
        depth += (tokens[j].text in BRACKETS) - (tokens[j].text in BRACKETS.values())
        if depth == 0:
            return j + 1
    return len(tokens)


def bare(tokens):
    """Without brackets around the whole."""
    while len(tokens) > 1 and tokens[0].text in ('(', '⌜') and group(tokens, 0) == len(tokens):
        tokens = tokens[1:-1]
    return tokens


def operator(t):
    return not any(c.isalnum() for c in t.text) and t.text not in ('[]', '_', '⊥', '⊤', *BRACKETS, *BRACKETS.values())


def argument(tokens, i):
    """The place behind the argument that begins at i: a name or a bracket, with its module or fields."""
    j = group(tokens, i)
    while j < len(tokens) and tokens[j - 1].head:
        j += 2
    return j


def arguments(tokens):
    """The explicit arguments of an application; None where this is something else."""
    found, i = [], 0
    while i < len(tokens):
        if operator(tokens[i]):
            return None
        j = argument(tokens, i)
        if tokens[i].text != '{':
            found.append(tokens[i:j])
        i = j
    return found


def parameters(tokens):
    """The names of the explicit parameters in the head of a record or a module."""
    groups = [bare(g) for g in arguments(tokens) or [] if g[0].text == '(']
    return [t.text for g in groups for t in g[:outside(g, ':')]]


def replaced(tokens, args):
    """The tokens with arguments in the place of parameters."""
    found = []
    for t in tokens:
        arg = args.get(t.text) if not t.member else None
        arg = arg and (arg if len(arg) == 1 else [word('('), *bare(arg), word(')')])
        found += arg[:-1] + [arg[-1]._replace(head=t.head)] if arg else [t]
    return found


def empty(part):
    """Whether a part says nothing."""
    return FLAT.fullmatch(' '.join(t.text for t in bare(part))) is not None


def mentions(part):
    """Whether a part speaks of the result, or of what a reference has when the function returns."""
    return any(t.text in (RESULT, LEFT) for t in part)


def without_lengths(part):
    """The part without each `length x` in it."""
    kept, i = [], 0
    while i < len(part):
        i = argument(part, i + 1) if part[i].text == 'length' and i + 1 < len(part) else i
        kept += part[i:i + 1]
        i += 1
    return kept


class Specs:
    """The definitions of a tree; files: the tokens of each specs file, by its path below the tree."""

    def __init__(self, files):
        self.files, self.scopes = files, {}

    def scope(self, module):
        found = re.fullmatch(r'Rattle\.([^.]+)\.specs\.(.+)', module)
        path = found and f'crates/{found[1]}/specs/{found[2].replace(".", "/")}.antt'
        if path in self.files and path not in self.scopes:
            self.scopes[path] = scope_of(self.files[path])
        return self.scopes.get(path)

    def find(self, scope, names, steps=20):
        """The declaration that is named so, as `f` or `M.f`, and the scope of its file; or None."""
        if scope is None or steps == 0:
            return None
        if len(names) == 1 and names[0] in scope.own:
            return scope.own[names[0]], scope
        path, name = scope.imports.get(names[0], (None, None))
        if path is None or (name is None) == (len(names) == 1):
            return None
        return self.find(self.scope('.'.join([path, *names[1:-1]])), [name or names[-1]], steps - 1)

    def parts(self, tokens, seen=()):
        """The parts of a fact, each with the conditions that it stands under."""
        tokens = bare(tokens)
        while tokens[:1] and tokens[0].text == 'let':
            lets = [sum((u.text == 'let') - (u.text == 'in') for u in tokens[:i + 1]) for i in range(len(tokens))]
            end = lets.index(0) if 0 in lets else len(tokens)
            tokens = bare(replaced(tokens[end + 1:], {tokens[1].text: tokens[outside(tokens, '=') + 1:end]}))
        if '↔' in [t.text for t in tokens]:
            return [tokens]
        conclusion = split(tokens, '→')[-1]
        if len(conclusion) < len(tokens):
            return [tokens[:-len(conclusion)] + part for part in self.parts(conclusion, seen)]
        factors = split(tokens, '×')
        if len(factors) > 1 and not re.match(r'[^({]+ :', ' '.join(t.text for t in bare(factors[0]))):  # `(x : A) × ..` is one part
            return [part for factor in factors for part in self.parts(factor, seen)]
        found = self.application(tokens)
        if found is None or found[0] in seen:
            return [tokens]
        d, scope, given = found
        said = self.written_out(d, words(d.tokens, scope), given, (*seen, d))
        return [tokens] if said is None else said

    def application(self, tokens):
        """The declaration that is applied here, the scope of its file, and its arguments; or None."""
        n = 1
        while n < len(tokens) and tokens[n - 1].head:
            n += 2
        names, given = [t.text for t in tokens[:n:2]], arguments(tokens[n:])
        signs = [i for i, t in enumerate(tokens) if operator(t) and outside(tokens, t.text) == i]
        if given is None and len(signs) == 1:  # an operator of two sides
            n = signs[0] + 1
            names, given = [f'◌{tokens[n - 1].text}◌'], [tokens[:n - 1], tokens[n:]]
        found = self.find(tokens[n - 1].scope, names) if given is not None and tokens else None
        return found and (*found, given)

    def written_out(self, d, body, given, seen):
        """The parts of what a declaration says of these arguments; None where it stays as it is."""
        around = [name for head in d.around for name in parameters(words(antt(head)[0][2:], None))]
        where = outside(body, 'where')
        inner = chunks(body[where + 1:]) if body[where + 1:] else []
        if d.form == 'record':
            params = around + parameters(body[outside(body, 'record') + 2:outside(body, ':')])
            if len(params) != len(given):
                return None if inner else []
            return [part for field in inner for part in self.parts(replaced(field[outside(field, ':') + 1:], dict(zip(params, given))), seen)]
        if d.form == 'data':  # one that has no index, and a constructor that takes nothing, holds of everything
            index = split(body[:where], ':')[-1]
            return [] if len(split(index, '→')) == 1 and any('→' not in [t.text for t in c] for c in inner) else None
        cases = []
        for case in chunks(body)[1:]:
            left, right = bare(case[:outside(case, '=')]), case[outside(case, '=') + 1:]
            if right:
                signs = [i for i, t in enumerate(left) if f'◌{t.text}◌' == d.name]
                cases.append(([left[:signs[0]], left[signs[0] + 1:]] if signs else arguments(left[1:]), right))
        if len(cases) == 1 and cases[0][0] is not None and all(len(p) == 1 for p in cases[0][0]):
            params, right = around + [p[0].text for p in cases[0][0]], cases[0][1]
            while right[:1] and right[0].text == 'λ':
                dot = next(i for i, t in enumerate(right) if t.text == '.')
                params, right = params + [t.text for t in bare(right[1:dot])[:1]], right[dot + 1:]
            if len(given) >= len(params):
                return self.parts(replaced(right, dict(zip(params, given))) + [t for arg in given[len(params):] for t in arg], seen)
        return [] if cases and all(empty(part) for _, right in cases for part in self.parts(right, seen)) else None

    def said(self, tokens, scope):
        """The parts of a clause that say something. In a starred clause facts stand between `⌜` and `⌝`, beside what it says of memory."""
        tokens = words(tokens, scope)
        tokens = [t._replace(text=LEFT if t.member else RESULT) if t.text in (('new', 'exit') if t.member else ('result',)) else t for t in tokens]
        found, beside, i = [], [], 0
        while i < len(tokens):
            j = group(tokens, i) if tokens[i].text == '⌜' else i + 1
            if j > i + 1:
                found += self.parts(tokens[i:j])
            elif tokens[i].text not in ('∗', '∧ₛ', 'emp', '⊤ₛ'):
                beside.append(tokens[i])
            i = j
        return [part for part in found + (self.parts(beside) if beside else []) if part and not empty(part)]
