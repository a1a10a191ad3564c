"""A loop of a walk. A turn begins in a state: the variables that the loop carries, the lists that it changes, and the author's invariant of them."""
import copy

from .rows import UInt
from .text import cell
from .values import refuse


class Loop:
    def __init__(self, walk, body, rest, before):
        self.w, self.body, self.rest, self.before = walk, body, rest, before
        self.dry, self.turns = False, 0

    # ---- what the loop carries
    def carried(self):
        """The locals that are set before the loop, and again in it, and read after that."""
        set_here = assigned(self.body)
        return [i for i in sorted(set_here) if self.w.locals.get(i) and (read_first(self.body, i) or reads(self.rest, i))]

    def changed(self):
        """The slices whose lists a turn changes: a turn is walked, and forgotten."""
        dry = copy.copy(self.w)
        dry.facts, dry.names, dry.lines = copy.deepcopy(self.w.facts), set(self.w.names), []
        dry.locals, dry.order, dry.cur, dry.calls, dry.structs = copy.copy(self.w.locals), list(self.w.order), dict(self.w.cur), [], []
        dry.in_loop, dry.touched = self, set()
        out, self.w, self.dry = self.w, dry, True
        dry.body(self.body, turn=True)
        self.w, self.dry = out, False
        return [p for p in out.frame.muts if p.var in dry.touched]

    def write(self):
        w = self.w
        self.vars = []  # (local, name, the value before)
        carried = self.carried()
        for i in assigned(self.body):
            if w.locals.get(i) and i not in carried:
                w.emit('forget ! %d refl $' % w.pos(i))
                w.locals[i] = None
        self.lists = self.changed()
        self.start_same = {v: s for v, (_, s) in w.cur.items()}
        for i in carried:
            if w.locals[i].kind != 'plain':
                refuse('a loop that carries anything but a plain value')
            self.vars.append((i, w.name_for(i, w.next()), w.locals[i]))
        w.front([p.var for p in w.frame.refs])
        pre, pre_terms = w.facts.known[w.entry:], w.facts.terms[w.entry:]
        goods = list(w.structs)
        w.emit('first ! $ blocks ! $ by ! (loop′ %s .prf)' % ' '.join((['ok′'] if w.frame.req else []) + pre_terms + [n for n, _ in goods] + [cell(i) for i in range(w.N)]))
        w.facts.terms = w.facts.terms[:w.entry] + [n for n, _ in pre]
        self.tele = list(w.facts.known)
        self.state_terms = list(w.facts.terms)
        self.ask()
        outer = (w.lines, w.par)
        w.lines, w.par, w.in_loop = [], 0, self
        inv = self.context()
        self.learn()
        w.body(self.body, turn=True)
        turn = w.text()
        w.lines, w.par = outer
        w.loop_text = self.text(pre, goods, inv, turn)
        w.loop_head, w.loop_codes = self.record(), self.codes()

    # ---- the facts
    def binders(self):
        return ' '.join(['(%s : %s)' % (n, v.row.den) for _, n, v in self.vars] + ['(%s-l : List %s)' % (p.var, p.row.den) for p in self.lists])

    def names(self):
        return [n for _, n, _ in self.vars] + [p.var + '-l' for p in self.lists]

    def ask(self):
        f, w = self.w.facts, self.w
        f.lemma('Inv', self.binders() + ' → Type 0', 'the loop\'s invariant, of what holds where a turn begins', '?', self.names())
        f.lemma('left', self.binders() + ' → ℕ', 'what gets smaller with each turn', '?', self.names())
        self.start = [v.den for _, _, v in self.vars] + [w.cur[p.var][0] for p in self.lists]
        self.begins = f.lemma('begins', 'Inv ' + ' '.join(self.start), 'it holds before the first turn')

    def learn(self):
        """What a turn begins with."""
        w = self.w
        facts = [(n, v.row.den, n) for _, n, v in self.vars] + [(p.var + '-l', 'List %s' % p.row.den, p.var + '-l') for p in self.lists]
        for i, n, v in self.vars:
            good = None if not v.row.good_type(n) else n + ('-fits' if isinstance(v.row, UInt) else '-good')
            if isinstance(v.row, UInt):
                facts.append((good, v.row.good_type(n), good))
            new = copy.copy(v)
            new.den, new.good, new.test, new.no = n, good, ('is', n, None) if v.row.name == 'bool' else None, False
            w.locals[i] = new
        for p in self.lists:
            facts.append(('same-%s-l' % p.var, 'length %s-l ≡ length %s' % (p.var, p.var), 'same-%s-l' % p.var))
            w.cur[p.var] = (p.var + '-l', 'same-%s-l' % p.var)
        facts.append(('inv', 'Inv ' + ' '.join(self.names()), 'inv′'))
        w.facts.learn(facts, 'a turn begins')

    def leave_loop(self):
        if self.dry:
            return
        self.w.emit('exec ! (𝓣 .C) (𝓣 .Λ) En′ rest′ (atRet En′ Post) $')
        inside, self.w.in_loop = self.w.in_loop, None
        self.w.body(self.rest)
        self.w.in_loop = inside

    def end_turn(self):
        w = self.w
        if self.dry:
            return
        kept = {i for i in range(w.N) if self.set_before[i]}
        w.emit(' '.join(['forget ! %d refl $' % w.pos(i) for i in range(w.N - 1, -1, -1) if w.locals.get(i) and i not in kept]))
        for i in kept - {i for i, _, _ in self.vars}:
            w.unmatch(i)
        w.front([p.var for p in w.frame.refs])
        after = [w.locals[i].den for i, _, _ in self.vars] + [w.cur[p.var][0] for p in self.lists]
        tag = '-%d' % w.next() if self.turns else ''
        self.turns += 1
        keeps = w.facts.lemma('goes-on' + tag, 'Inv ' + ' '.join(after), 'a turn keeps the invariant')
        falls = w.facts.lemma('falls' + tag, 'left %s < left %s' % (' '.join(after), ' '.join(self.names())), 'and leaves less to do')
        goods = [w.locals[i].good for i, _, _ in self.vars]
        w.emit('again ! Less′ Inv′ here′ %s %s' % (self.literal(after, goods, [w.cur[p.var][1] for p in self.lists], keeps), falls))

    # ---- the texts
    def literal(self, values, goods, sames, inv):
        fields = []
        for (_, n, v), x, g in zip(self.vars, values, goods):
            fields.append('v-%s = %s' % (n, x))
            if v.row.good_type(n):
                fields.append('g-%s = %s' % (n, g))
        for p, x, s in zip(self.lists, values[len(self.vars):], sames):
            fields += ['l-%s = %s' % (p.var, x), 's-%s = %s' % (p.var, s)]
        return '(record { %s })' % '; '.join(fields + ['holds = %s' % inv])

    def record(self):
        """`State′`: where a turn begins."""
        t = '\n-- where a turn of the loop begins\nrecord State′ %s : Type 0 where\n' % ' '.join('(%s : %s)' % b for b in self.tele)
        for _, n, v in self.vars:
            t += '  v-%s : %s\n' % (n, v.row.den)
            if v.row.good_type(n):
                t += '  g-%s : %s\n' % (n, v.row.good_type('v-' + n))
        for p in self.lists:
            t += '  l-%s : List %s\n  s-%s : length l-%s ≡ length %s\n' % (p.var, p.row.den, p.var, p.var, p.var)
        names = [n for n, _ in self.tele] + ['v-' + n for _, n, _ in self.vars] + ['l-' + p.var for p in self.lists]
        return t + '  holds : F.Inv %s\n' % ' '.join(names)

    def context(self):
        """The whole context where a turn begins, at the state s′."""
        w = self.w
        self.set_before = [bool(w.locals.get(i)) for i in range(w.N)]
        lists = {v: w.cur[v][0] for v in w.cur}
        lists.update({p.var: '(s′ .l-%s)' % p.var for p in self.lists})
        names = {i: n for i, n, _ in self.vars}
        out = w.frame.items(lists)
        for i in range(w.N - 1, -1, -1):
            v = w.locals.get(i)
            if not v:
                out += ' ∷ ‵ (froom (ty′ %d) %s 0)' % (i, cell(i))
            else:
                out += ' ∷ ‵ (fat fullShare (ty′ %d) %s 0 (%s))' % (i, cell(i), v.row.val('(s′ .v-%s)' % names[i]) if i in names else w.machine(v))
            out += ' ∷ ‵ (fdies (ty′ %d) %s)' % (i, cell(i))
        return out + ' ∷ []'

    def text(self, pre, goods, inv, turn):
        w = self.w
        state = 'State′ ' + ' '.join(self.state_terms)
        left = lambda s: '(F.left %s)' % ' '.join(self.state_terms + ['(%s .v-%s)' % (s, n) for _, n, _ in self.vars] + ['(%s .l-%s)' % (s, p.var) for p in self.lists])
        cells = [cell(i) for i in range(w.N)]
        ok = ['(ok′ : %s)' % w.frame.req] if w.frame.req else []
        after = '(afterBlock 𝓤 H (afterSeq 𝓤 H (Wp 𝓤 H (𝓣 .C) (𝓣 .Λ) En′ rest′ (atReturn 𝓤 H En′ Post)) (atReturn 𝓤 H En′ Post)))'
        own = ['(%s : %s)' % (n, v.row.den) for _, n, v in self.vars] + ['(%s-l : List %s)' % (p.var, p.row.den) for p in self.lists]
        own += ['(%s : %s)' % (n + ('-fits' if isinstance(v.row, UInt) else '-good'), v.row.good_type(n)) for _, n, v in self.vars if v.row.good_type(n)]
        own += ['(same-%s-l : length %s-l ≡ length %s)' % (p.var, p.var, p.var) for p in self.lists]
        own += ['(inv′ : F.Inv %s)' % ' '.join(self.state_terms + self.names())]
        here = self.literal(self.names(), [n + ('-fits' if isinstance(v.row, UInt) else '-good') for _, n, v in self.vars], ['same-%s-l' % p.var for p in self.lists], 'inv′')
        at = ['(s′ .v-%s)' % n for _, n, _ in self.vars] + ['(s′ .l-%s)' % p.var for p in self.lists]
        at += ['(s′ .g-%s)' % n for _, n, v in self.vars if v.row.good_type(n)] + ['(s′ .s-%s)' % p.var for p in self.lists] + ['(s′ .holds)']
        start = self.literal(self.start, [v.good for _, _, v in self.vars], [self.start_same[p.var] for p in self.lists], self.begins)
        return '''
    module _ %s where
      abbrev S′ : Type 0
      S′ = %s

      abbrev Less′ : S′ → S′ → Type 0
      Less′ s′ t′ = %s < %s

      less-wf : WellFounded Less′
      less-wf = InvImage·wf (λ (s′ : S′). %s) (Nat·lt-wfRel .wf)

      abbrev En′ : Env 𝓤 H
      En′ = %s

      -- the context where a turn begins
      abbrev Inv′ : S′ → List (Item 𝓤)
      Inv′ s′ = %s

      module _ %s where
        abbrev here′ : S′
        here′ = %s

        turn′ : Seq (Go {0}) W (Inv′ here′) (runs (𝓣 .C) (𝓣 .Λ) En′ turned′ (anyQ (afterTurn 𝓤 H (Below 𝓤 H A Less′ Inv′ here′) %s)))
        unfolding afterTurn
        turn′ =
%s
      loop′ : Seq (Go {0}) W (Inv′ %s) (runs (𝓣 .C) (𝓣 .Λ) En′ (loopᴹ turned′) (anyQ %s))
      unfolding afterTurn
      loop′ = loops ! 𝓣 Less′ less-wf Inv′ (λ s′. turn′ %s) %s
''' % (' '.join(ok + ['(%s : %s)' % b for b in pre + goods] + ['(%s : ℕ)' % ' '.join(cells)]), state, left('s′'), left('t′'), left('s′'),
            ' ∷ '.join('(ty′ %d, %s)' % (i, cell(i)) for i in range(w.N)) + ' ∷ []', inv, ' '.join(own), here, after,
            '\n'.join('    ' + l if l.strip() else l for l in turn.rstrip('\n').split('\n')) + '\n', start, after, ' '.join(at), start)

    def codes(self):
        return '''
abbrev ty′ : ℕ → Ty
ty′ i = tyAt (code.function .locals) i

-- the loop's body, and what runs after the loop
abbrev turned′ : Code
turned′ = turn-of (after %d (code.function .body))

abbrev rest′ : Code
rest′ = after %d (code.function .body)
''' % (self.before, self.before + 1)


# ---- which locals a piece of code sets and reads
def places_read(s):
    """The locals that one statement reads."""
    def of(x):
        return [x[1][0]] if x[0] == 'copy' else []
    if s[0] == 'call':
        return [i for x in s[2] for i in of(x)]
    if s[0] in ('if', 'switch'):
        return of(s[1])
    if s[0] == 'return':
        return [0]
    if s[0] != 'assign':
        return []
    rv, out = s[2], ([s[1][0]] if s[1][1] else [])
    if rv[0] == 'opd':
        return out + of(rv[1])
    if rv[0] == 'addr':
        return out + [rv[1][0]]
    if rv[0] == 'agg':
        return out + [i for x in rv[1] for i in of(x)]
    return out + [i for x in rv[2:] if isinstance(x, tuple) for i in of(x)]


def flat(stmts):
    for s in stmts:
        yield s
        for part in s[1:]:
            if isinstance(part, list) and part and isinstance(part[0], list):
                yield from flat(part)
            elif s[0] == 'switch' and isinstance(part, list):
                for _, b in part:
                    yield from flat(b)


def assigned(stmts):
    return {s[1][0] for s in flat(stmts) if s[0] == 'assign'} | {s[3][0] for s in flat(stmts) if s[0] == 'call'}


def reads(stmts, i):
    return any(i in places_read(s) for s in flat(stmts))


def read_first(stmts, i):
    """Whether the local may be read before it is set."""
    for s in flat(stmts):
        if i in places_read(s):
            return True
        if (s[0] == 'assign' and s[1] == (i, [])) or (s[0] == 'call' and s[3] == (i, [])):
            return False
    return False
