"""The part of a walk that branches: an `if`, a `match`, and the tests' facts."""
import copy

from .rows import UInt
from .text import cell
from .values import Value, is_variant, once, refuse


def leaves(arm):
    """Whether an arm ends by leaving the function, the loop or the turn."""
    return arm[-1][0] in ('return', 'exit') or (arm[-1][0] == 'if' and leaves(arm[-1][2]) and leaves(arm[-1][3]))


def arm_then(arm, rest):
    """The statements of an arm, and what follows the `if`: each but the last is taken out of the arm's own sequence, and the last stands before the rest. With no rest the arm stands by itself."""
    if not rest:
        return [['skips']] if arm == [['skip']] else arm
    if arm == [['skip']]:
        return [['skipped']] + rest
    out = []
    for s in arm[:-1]:
        out += [['regroup'], s]
    if arm[-1][0] in ('return', 'exit'):
        return out + [['first'], arm[-1]]
    return out + [arm[-1]] + rest


class Branching:
    def told(self, v, yes, proof):
        """What a test tells: (type, the term that shows it). proof: of Holds den, or of Holds (not den)."""
        kind, a, b = v.test or ('is', v.den, None)
        if v.no:  # den is `not inner`
            inner = {'lt': '(ltb %s %s)', 'le': '(leb %s %s)', 'eq': '(eqb %s %s)', 'is': '%s%s'}[kind] % (a, b or '')
            if not yes:
                proof = '(not-not %s %s)' % (inner, proof)
            yes = not yes
        table = {('lt', True): ('%s < %s', 'ltb→lt', (a, b)), ('lt', False): ('%s ≤ %s', 'nltb→le', (b, a)), ('le', True): ('%s ≤ %s', 'leb→le', (a, b)), ('le', False): ('%s < %s', 'nleb→lt', (b, a)),
                 ('eq', True): ('%s ≡ %s', 'eqb→eq', (a, b)), ('eq', False): ('%s ≡ %s → ⊥', 'differ', (a, b))}
        if kind == 'is':
            return '%s ≡ %s' % (a, 'true' if yes else 'false'), '(%s %s %s)' % ('is-true' if yes else 'is-false', a, proof)
        form, law, pair = table[kind, yes]
        return form % pair, '(%s %s %s %s)' % (law, a, b, proof)

    def branch(self, s, rest, turn):
        """An `if`. Returns whether the walk of what follows is done. Where an arm only leaves, the walk goes on after the other; else what follows is walked in both."""
        v, k = self.value(s[1]), self.next()
        skip = [['skip']]
        short = None
        if rest and s[3] == skip and leaves(s[2]) and s[2][-1] == ['return']:
            short = ('leave-if', True, lambda: self.body(s[2]))
        elif rest and s[2] == skip and s[3] == [['exit', 1]] and self.in_loop:
            short = ('exit-unless', False, self.leave_loop)
        elif rest and s[3] == skip and s[2] == [['exit', 1]] and self.in_loop:
            short = ('exit-if', True, self.leave_loop)
        if short:
            self.emit('%s ! %s' % (short[0], self.operand(s[1])))
            self.arm(v, k, short[1], short[2])
            self.go_on(v, k, not short[1])
            return False
        arms = [arm_then(a, rest) for a in s[2:4]]
        if not (leaves(s[2]) or leaves(s[3])):
            self.forked = True
        self.emit('%s ! %s' % ('fork' if rest else 'branches', self.operand(s[1])))
        self.arm(v, k, True, lambda: self.body(arms[0], turn))
        self.go_on(v, k, False)
        self.body(arms[1], turn)
        return True

    def match(self, s, rest, turn):
        """A `match`, an `if let` or a `let .. else` on an enum that is in a local: what follows is walked after each variant's arm."""
        (i, steps), k = s[1][1], self.next()
        v = self.locals.get(i)
        if not (len(steps) == 2 and is_variant(steps[0]) and steps[1] == 0 and v and hasattr(v.row, 'item') and v.row.enum):
            refuse('a `match` on anything but an enum in a local: do it in a covered function')
        row, variants = v.row, v.row.variants()
        arms = [next((b for keys, b in s[2] if x in keys), s[3]) for x, _ in enumerate(variants)]
        self.forked = self.forked or sum(not leaves(a) for a in arms) > 1
        once(self.matched, row)
        self.emit('cases-%s %s' % (row.item.name, v.den))
        for x, (constructor, rows) in enumerate(variants):
            taken = set(self.names)
            names = self.payload_names(i, x, rows, arms[x], k)
            self.part(x == len(variants) - 1, '(λ %s.' % ' '.join(names + ['case-%d' % k]), lambda: self.variant(i, v, k, x, constructor, rows, names, arms[x], rest, turn))
            self.names = taken

    def payload_names(self, i, x, rows, arm, k):
        """What a variant holds is called as the locals that the arm copies it to."""
        out = []
        for j, _ in enumerate(rows):
            to = [s[1][0] for s in arm if s[0] == 'assign' and s[2] == ('opd', ('copy', (i, ['v%d' % x, 1 + j])))]
            out.append(self.name_for(to[0], '%d-%d' % (k, j)) if to else 'r-%d-%d' % (k, j))
        return out

    def variant(self, i, v, k, x, constructor, rows, names, arm, rest, turn):
        """One variant's arm, and what follows: the cell holds that constructor's value."""
        t, den = v.row.item.name, '(%s)' % ' '.join([constructor] + names) if names else constructor
        good = '(subst (λ (x′ : %s). Is R-%s x′ (val-%s x′ ∷ [])) case-%d %s)' % (t, t, t, k, v.good)
        new = Value('plain', v.row, den, good)
        new.payload = [Value('plain', r, n, r.field_good('(EL.owed %s %s _ %s%s .0)' % (v.row.pair, den, good, ' .1' * j)), test=('is', n, None) if r.name == 'bool' else None)
                       for j, (r, n) in enumerate(zip(rows, names))]
        self.facts.learn([(n, r.den, n) for n, r in zip(names, rows)] + [(n + '-fits', r.good_type(n), p.good) for n, r, p in zip(names, rows, new.payload) if isinstance(r, UInt)]
                         + [('case-%d' % k, '%s ≡ %s' % (v.den, ' '.join([constructor] + names)), 'case-%d' % k)], '')
        new.was = (v, 'case-%d' % k)
        self.recall(i, v, 'case-%d' % k)
        self.locals[i] = new
        self.emit('%s ! (load ! (from ! (vrt ! refl (fld ! refl (stop !)))) (look-tag ! %d (whole !))) tt $' % ('matched' if rest else 'matched-last', self.pos(i)))
        self.body(arm_then(arm, rest), turn)

    def recall(self, i, v, equation):
        """The cell of local i holds an enum by another name."""
        t = v.row.item.name
        self.emit('rewrite ! %d (λ (x′ : %s). ‵ (fat fullShare L-%s.mir %s 0 (val-%s x′))) %s refl $' % (self.pos(i), t, t, cell(i), t, equation))

    def unmatch(self, i):
        """The local holds its enum as it was called before any `match`."""
        while self.locals[i].was:
            v, equation = self.locals[i].was
            self.recall(i, v, '(sym %s)' % equation)
            self.locals[i] = v

    def leave_loop(self):
        self.in_loop.leave_loop()

    def snapshot(self):
        return copy.copy(self.locals), list(self.order), dict(self.cur), list(self.structs)

    def restore(self, shot):
        self.locals, self.order, self.cur, self.structs = copy.copy(shot[0]), list(shot[1]), dict(shot[2]), list(shot[3])

    def learn_test(self, v, k, yes):
        type_, term = self.told(v, yes, 'test-%d' % k)
        self.facts.learn([('test-%d' % k, type_, term)], '')

    def arm(self, v, k, yes, then):
        """An arm of an `if` to its end."""
        def walked():
            self.learn_test(v, k, yes)
            then()
        self.part(False, '(λ test-%d.' % k, walked)

    def part(self, last, opening, walked):
        """A part of the walk to its end, in brackets; then all is as before it. The last part's brackets are closed at the end of all."""
        self_par, mark, shot, names = self.par, self.facts.mark(), self.snapshot(), set(self.names)
        self.par = 0
        self.emit(opening)
        walked()
        if last:
            self.par += self_par + 1
            return
        self.close(self.par + 1)
        self.par, self.names = self_par, names
        self.facts.back(mark)
        self.restore(shot)

    def go_on(self, v, k, yes):
        self.emit('(λ test-%d.' % k)
        self.par += 1
        self.learn_test(v, k, yes)
