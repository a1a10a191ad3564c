"""The part of a walk that calls: one line for the step (steps.py), with what it is told, and what is known after it."""
import re

from . import mir
from .rows import UInt
from .source import over
from .steps import step_name
from .text import lst
from .values import Value, refuse


def conjuncts(fact):
    """The parts of `(a) × (b) × c`, each with no needless brackets."""
    out, depth, start = [], 0, 0
    for i, c in enumerate(fact):
        depth += (c == '(') - (c == ')')
        if depth == 0 and fact.startswith(' × ', i):
            out.append(fact[start:i])
            start = i + 3
    out = [x.strip() for x in out + [fact[start:]]]
    if len(out) == 1:
        return [tidy(out[0])] if bare(out[0]) == out[0] else conjuncts(bare(out[0]))
    return [tidy(bare(x)) for x in out]


def bare(x):
    """x without the brackets around it."""
    if x.startswith('('):
        depth = 0
        for i, c in enumerate(x):
            depth += (c == '(') - (c == ')')
            if depth == 0:
                return x[1:-1].strip() if i == len(x) - 1 else x
    return x


def atom(x):
    return '(%s)' % x if ' ' in x else x


def tidy(x):
    """`(length xs)` on a side of a comparison, without its brackets."""
    return re.sub(r'(^|[<≤≡] )\((length [\w′·-]+)\)', r'\1\2', x)


class Calling:
    def front(self, names):
        """The slices of a call stand first, in the callee's order."""
        if self.order[:len(names)] != names:
            self.emit('move ! %s $' % lst([self.order.index(n) for n in names]))
            self.order = names + [n for n in self.order if n not in names]

    def answer(self, goal):
        """An obligation each of whose parts is known, up to lengths that are kept, is answered."""
        parts = [self.answer_part(g) for g in conjuncts(goal)]
        if all(p is None for p in parts):
            return '?'
        return parts[0] if len(parts) == 1 else '(%s)' % ', '.join(p or '?' for p in parts)

    def answer_part(self, goal):
        sides = goal.split(' ≡ ')
        if len(sides) == 2 and sides[0] == sides[1]:
            return 'refl'
        for name, type_ in reversed(self.facts.known):
            known = conjuncts(type_)
            for j, part in enumerate(known):
                term = name if len(known) == 1 else '%s .%d' % (name, j)
                if part == goal:
                    return term
                for first, (list_, same) in self.cur.items():  # the same of a list with another length's name
                    if same != 'refl' and first not in self.named.values() and part == goal.replace('length ' + list_, 'length ' + first):
                        hole = goal.replace('length ' + list_, 'k′').replace('(k′)', 'k′')
                        return 'subst (λ (k′ : ℕ). %s) (sym %s) %s' % (hole, atom(same), atom(term))
        return None

    def call(self, s, last=False):
        """d = f(..). last: the call ends a turn."""
        callee = self.functions.get(s[1])
        if callee is None:
            refuse('a call of %s: no source of it in the repository; call it in a covered function' % s[1])
        if s[3][1]:
            refuse('a call whose result goes to a field')
        k, d, args = self.next(), s[3][0], [self.value(x) for x in s[2]]
        pairs = list(zip(callee.params_seen, args))
        slices = [a.slice for p, a in pairs if p.slice]
        if len(set(slices)) != len(slices):
            refuse('one slice lent twice in a call of %s' % s[1])
        kinds = [self.kind(p, a) for p, a in pairs]
        self.calls.append((callee, kinds, last))
        self.emit('-- ' + mir.show(s))
        self.front(slices)
        entry = {p.name: self.cur[a.slice][0] if p.slice else a.den for p, a in pairs}
        told = self.told_to(callee, pairs, kinds, entry, s[1], k)
        held = [a for a, kind in zip(args, kinds) if kind in ('mut', 'shr')]
        fresh, opds = ' '.join('ν-%d δ-%d' % (j, j) for j, _ in enumerate(held)), self.operands(s[2], 1)
        v, binders = self.learn_call(callee, pairs, kinds, entry, s, k)
        self.emit('S-%s.%s mem run ! fm known-%s %s' % (callee.called, step_name(kinds, last), callee.called, told))
        self.emit('%s (λ %s.' % ('(λ %s. %s)' % (fresh, opds[1:-1]) if fresh else opds, ' '.join(binders)))
        self.par += 1
        self.emit('%s ! (from ! (stop !)) (%s ! %d refl %s) $' % ('land-last' if last else 'land', 'store' if self.locals.get(d) else 'init', self.pos(d), self.typed(v)))
        self.locals[d] = v

    def kind(self, p, a):
        """How an argument is passed (see steps.py)."""
        return 'plain' if not p.slice else 'mut' if p.mut else 'shr' if self.params[a.slice].mut else 'pass'

    def told_to(self, callee, pairs, kinds, entry, name, k):
        """What a step is told: the slices, the values, what is known of them, the fact that the callee asks, and the lengths."""
        needs = []
        if callee.requires:
            goal = over(callee.requires, entry)
            needs = [self.facts.lemma('needs-%d' % k, goal, '%s asks' % name, self.answer(goal))]
        geo = ['b-%s o-%s n-%s %s' % (a.slice, a.slice, a.slice, self.cur[a.slice][0]) for p, a in pairs if p.slice]
        plain = [a.den for p, a in pairs if not p.slice]
        goods = [a.good for p, a in pairs if not p.slice and p.row.good_type('x')]
        lens = ['(%s) room-%s' % (self.cur[a.slice][1], a.slice) for (p, a), kind in zip(pairs, kinds) if kind in ('mut', 'shr')]
        return ' '.join(geo + plain + goods + needs + lens)

    def learn_call(self, callee, pairs, kinds, entry, s, k):
        """What is known after a call. Returns the result, and the names that the step's continuation binds."""
        result, muts = callee.result_seen, [pair for pair, kind in zip(pairs, kinds) if kind == 'mut']
        new = {p.name: '%s-%d' % (a.slice, k) for p, a in muts}
        unit = result.name == 'unit'
        res = 'tt' if unit else self.name_for(s[3][0], k)
        good = None if not result.good_type(res) else res + ('-fits' if isinstance(result, UInt) else '-good')
        is_ = 'done-%d' % k if unit else res + '-is'
        self.facts.learn(([] if unit else [(res, result.den, res)]) + [(new[p.name], 'List %s' % p.row.den, new[p.name]) for p, _ in muts]
                         + ([(good, result.good_type(res), good)] if isinstance(result, UInt) else [])
                         + [(is_, over(callee.ensures, entry, new, res, callee.bound), is_)]
                         + [('same-' + new[p.name], 'length %s ≡ length %s' % (new[p.name], self.cur[a.slice][0]), 'same-' + new[p.name]) for p, a in muts], self.readable(s))
        for p, a in muts:
            self.becomes(a.slice, new[p.name])
        if good and not isinstance(result, UInt):
            self.structs.append((good, result.good_type(res)))
        v = Value('plain', result, res, good, test=('is', res, None) if result.name == 'bool' else None)
        return v, ([] if unit else [res]) + [new[p.name] for p, _ in muts] + ([good] if good else []) + [is_] + ['same-' + new[p.name] for p, _ in muts]

    def becomes(self, s, list_):
        """The slice s has another list now, whose length `same-LIST` says."""
        old = self.cur[s][1]
        self.touched.add(s)
        self.cur[s] = (list_, 'same-' + list_ if old == 'refl' else 'same-%s ∙ %s' % (list_, old))

    def readable(self, s):
        """A call over the plain variables, for a comment."""
        out = []
        for x in s[2]:
            v = self.value(x)
            out.append(v.slice if v.kind == 'slice' else v.den)
        return '%s(%s)' % (s[1], ', '.join(out))
