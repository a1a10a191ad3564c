"""The MIR of a crate, as `rt mir` prints it.

A function's body is a list of statements (a `seq` is flattened):
  ['switch', operand, [([key], [..])], [..] or None]  ['assign', place, rv]  ['call', 'crate::f', [operand], place]  ['if', operand, [..], [..]]  ['block', [..]]  ['loop', [..]]  ['exit', n]  ['return']  ['skip']
A place is (local, [step]), a step is an int (a field), '*' (behind a pointer) or 'v2' (the variant 2). An operand is ('copy', place), ('int', width, n), ('unit',), ('true',), ('false',)."""
import re
import subprocess


class Fn:
    def __init__(self, name, params, locals_, body):
        self.name, self.params, self.locals, self.body = name, params, locals_, body


def read(root, crate):
    """All functions of the crate and of those that it depends on, by their full name."""
    run = subprocess.run(['rt', 'mir', crate], cwd=root, capture_output=True, text=True)
    if 'fn-def' not in run.stdout:
        raise SystemExit('walk: `rt mir %s` printed no MIR (a crate that it depends on must be proved first):\n%s' % (crate, (run.stdout + run.stderr)[-2000:]))
    fns = {}
    for item in _find(_parse(run.stdout), 'fn-def'):
        name, f = item[1].strip('"'), item[2]
        fns[name] = Fn(name, int(f[3]), [_type(l[1]) for l in _list(f[4])], _body(f[5]))
    return fns


def _parse(text):
    """The s-expressions of the text, as nested lists of words."""
    stack = [[]]
    for word in re.findall(r'"[^"]*"|[()]|[^\s()"]+', text):
        if word == '(':
            stack.append([])
        elif word == ')':
            done = stack.pop()
            stack[-1].append(done)
        else:
            stack[-1].append(word)
    return stack[0]


def _find(x, head):
    if isinstance(x, list):
        if x and x[0] == head:
            yield x
        for y in x:
            yield from _find(y, head)


def _list(x):
    out = []
    while isinstance(x, list) and x and x[0] in ('lcons', 'tcons'):
        out.append(x[1])
        x = x[2]
    return out


def _type(x):
    """('int', width) | 'bool' | 'unit' | 'ptr' | ('named', 'crate::T') | ('slice', 'mut' or 'imm', element) | ('array', element, n) | ('other', ..)"""
    if x == 'tyBool':
        return 'bool'
    if x == 'tyUnit':
        return 'unit'
    if x == 'tyPtr':
        return 'ptr'
    if x[0] == 'tyInt':
        return ('int', int(x[1]))
    if x[0] == 'tyNamed':
        return ('named', x[1][1].strip('"'))
    if x[0] == 'tyRef':
        return 'ptr'
    if x[0] == 'tyArray' and x[2][0] == 'lenLit':
        return ('array', _type(x[1]), int(x[2][1]))
    if x[0] == 'tyStruct' and x[1] == '"&[]"':
        ref = x[2][1]
        return ('slice', ref[2], _type(ref[3]))
    return ('other', str(x))


def _place(x):
    return (int(x[1]), ['*' if s[0] == 'deref' else 'v' + s[1] if s[0] == 'variant' else int(s[1]) for s in _list(x[2])])


def _operand(x):
    if isinstance(x, str):
        return (x,)
    if x[0] == 'copy':
        return ('copy', _place(x[1]))
    if x[0] == 'int':
        return ('int', int(x[1]), int(x[2]))
    return ('other', str(x))


def _right(x):
    """What is assigned: ('opd', operand) ('addr', place) ('agg', [operand]) ('repeat', operand, n) ('op1', name, operand, cast's width) ('op2', name, operand, operand)"""
    if x[0] == 'rvOpd':
        return ('opd', _operand(x[1]))
    if x[0] == 'addrOf':
        return ('addr', _place(x[1]))
    if x[0] == 'aggregate':
        return ('agg', [_operand(y) for y in _list(x[1])])
    if x[0] == 'repeat':
        return ('repeat', _operand(x[1]), int(x[2]))
    op = x[1] if isinstance(x[1], str) else x[1][0]
    signed = isinstance(x[1], list) and 'signed' in x[1]
    if x[0] == 'op1':
        return ('op1', 'signed' if signed else op, _operand(x[2]), int(x[1][3]) if op == 'cast' else None)
    if x[0] == 'op2':
        return ('op2', 'signed' if signed else op, _operand(x[2]), _operand(x[3]))
    return ('other', str(x))


def _body(x):
    if isinstance(x, str):
        return [[x]]
    if x[0] == 'seq':
        return _body(x[1]) + _body(x[2])
    if x[0] == 'assign':
        return [['assign', _place(x[1]), _right(x[2])]]
    if x[0] == 'call':
        return [['call', x[1][1][1].strip('"'), [_operand(y) for y in _list(x[2])], _place(x[3])]]
    if x[0] == 'if':
        return [['if', _operand(x[1]), _body(x[2]), _body(x[3])]]
    if x[0] in ('block', 'loop'):
        return [[x[0], _body(x[1])]]
    if x[0] == 'exit':
        return [['exit', int(x[1])]]
    if x[0] == 'switch':
        arms, rest = [], x[2]
        while isinstance(rest, list) and rest[0] == 'arm':
            arms.append(([int(k) for k in _list(rest[1])], _body(rest[2])))
            rest = rest[3]
        return [['switch', _operand(x[1]), arms, None if rest == 'noDefault' else _body(rest[1])]]
    return [['other', str(x)]]


# ---- for a reader: the statements, as the comments of a walk show them
def show_place(p):
    return '_%d' % p[0] + ''.join('.%s' % s for s in p[1])


def show_operand(x):
    return show_place(x[1]) if x[0] == 'copy' else str(x[-1])


def show(s):
    if s[0] == 'call':
        return '%s = %s(%s)' % (show_place(s[3]), s[1], ', '.join(map(show_operand, s[2])))
    if s[0] == 'assign':
        rv = s[2]
        if rv[0] == 'opd':
            right = show_operand(rv[1])
        elif rv[0] == 'addr':
            right = '&' + show_place(rv[1])
        elif rv[0] == 'agg':
            right = '[%s]' % ', '.join(map(show_operand, rv[1]))
        elif rv[0] == 'repeat':
            right = '[%s; %d]' % (show_operand(rv[1]), rv[2])
        else:
            right = '%s %s' % (rv[1], ', '.join(show_operand(y) for y in rv[2:] if isinstance(y, tuple)))
        return '%s = %s' % (show_place(s[1]), right)
    return s[0]
