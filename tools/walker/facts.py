"""`FN/Proof/Facts.antt`: what of a walk is not mechanical, as lemmas over plain variables.

The file is a tree of modules. A module binds what becomes known at a point of the walk (a call's result with what the contract ensures, a
test's outcome), and a lemma in it is an obligation at that point: so a lemma's type is its goal alone, and the hypotheses are in scope.
The walk cites a lemma with the terms that it has for all that the modules bind."""


class Module:
    def __init__(self, binders, comment):
        self.binders, self.comment, self.items = binders, comment, []

    def empty(self):
        return all(isinstance(i, Module) and i.empty() for i in self.items)


class Facts:
    def __init__(self):
        self.root = self.at = Module([], '')
        self.terms, self.known = [], []

    def learn(self, binders, comment):
        """binders: [(name, type, the walk's term)]"""
        inner = Module([(n, t) for n, t, _ in binders], comment)
        self.at.items.append(inner)
        self.at = inner
        self.terms = self.terms + [term for _, _, term in binders]
        self.known = self.known + [(n, t) for n, t, _ in binders]

    def lemma(self, name, type_, comment='', answer='?', args=None):
        """An obligation. Returns the term that cites it. args: it is a definition, of these arguments."""
        self.at.items.append((name, type_, comment, answer, args))
        return self.cite(name)

    def cite(self, name, more=()):
        return '(F.%s)' % ' '.join([name] + self.terms + list(more))

    def mark(self):
        return (self.at, self.terms, self.known)

    def back(self, mark):
        self.at, self.terms, self.known = mark

    def skeleton(self):
        return '\n'.join(_module(self.root, 0)) + '\n'


def _module(m, depth):
    """The lines of a module's items. Modules with nothing but one module inside become one."""
    out, pad = [], '  ' * depth
    for item in m.items:
        if isinstance(item, Module):
            if not item.empty():
                out += _inner(item, depth)
        else:
            name, type_, comment, answer, args = item
            if comment:
                out.append('%s-- %s' % (pad, comment))
            out += ['%s%spub %s : %s' % (pad, '' if args is None else 'abbrev ', name, type_), '%s%s = %s' % (pad, ' '.join([name] + (args or [])), answer), '']
    return out


def _inner(m, depth):
    pad, chain = '  ' * depth, [m]
    while True:
        full = [i for i in m.items if not (isinstance(i, Module) and i.empty())]
        if len(full) != 1 or not isinstance(full[0], Module):
            break
        m = full[0]
        chain.append(m)
    out = [pad + 'module _']
    for k in chain:
        if k.comment:
            out.append('%s    -- %s' % (pad, k.comment))
        if k.binders:
            out.append('%s    %s' % (pad, ' '.join('(%s : %s)' % b for b in k.binders)))
    out[-1] += ' where'
    return out + _module(m, depth + 1)
