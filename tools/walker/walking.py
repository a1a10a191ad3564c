"""The walk itself: a function's MIR, statement by statement, as lines of antt, with the obligations it meets as lemmas of its Facts.

The context of a walk is [the slices, in `order`; the locals]: each local is two entries (its cell, and that it dies), local 0 last.
Its parts: elements.py (one record in place), calling.py, branching.py, looping.py."""
from .arrays import Arrays
from .branching import Branching
from .calling import Calling
from .elements import Elements
from .facts import Facts
from .looping import Loop
from .rows import ArrayOf, UInt, Boolean, Nothing
from .source import over
from .text import lst, cell
from .values import Value, is_variant, once, refuse


class Walk(Arrays, Elements, Calling, Branching):
    def __init__(self, frame, fn, rows, crate, functions, taken):
        self.frame, self.fn, self.rows, self.crate, self.functions = frame, fn, rows, crate, functions
        self.N = len(fn.locals)
        self.params = {p.var: p for p in frame.params}
        self.facts = Facts()
        self.names = set(taken) | {p.var for p in frame.params}
        self.count = 0
        self.lines, self.par = [], 0
        self.order = [p.var for p in frame.refs]
        self.cur = {p.var: (p.var, 'refl') for p in frame.refs}  # each slice's list, and that its length is what it was
        self.locals = {}
        self.shift = 0        # entries before the slices, while an element is out
        self.calls = []       # (function, kinds), as met
        self.loop_text = ''   # the declarations of the loop, which stand before the walk
        self.structs = []     # what is known of the structs that calls gave
        self.built = []       # the structs that are built
        self.matched = []     # the enums that are taken apart
        self.zeros = []       # the structs whose elements are read or stored in place
        self.in_loop = None
        self.looped = False   # a loop was met
        self.forked = False   # an `if` both of whose arms go on was met
        self.touched = set()  # the slices whose lists changed
        self.named = self.name_arrays()

    # ---- lines
    def emit(self, text):
        self.lines.append('        ' + text)

    def close(self, par):
        self.lines[-1] += ')' * par

    def next(self):
        self.count += 1
        return self.count

    def name_for(self, local, k):
        """The source's name of a local, where it is still free; else r-k."""
        lets = self.frame.fn.lets
        j = local - self.frame_params() - 1
        name = lets[j].replace('_', '-') if 0 <= j < len(lets) else None
        if name in self.names:
            name += '′'
        if name is None or name in self.names:
            name = 'r-%s' % k
        self.names.add(name)
        return name

    def frame_params(self):
        return len(self.frame.params)

    # ---- places in the context
    def pos(self, i):
        return len(self.order) + self.shift + 2 * (self.N - 1 - i)

    def read(self, place, extra=0):
        """The operand that copies a local or a field of it."""
        i, steps = place
        if '*' in steps:
            refuse('a copy from behind a pointer as an operand')
        find, part = '(stop !)', '(whole !)'
        for j in reversed(steps):
            find = '(%s ! refl %s)' % ('vrt' if is_variant(j) else 'fld', find)
        if steps and is_variant(steps[0]):  # a field of the live variant
            part, steps = '(in-variant ! %s %d refl refl %s)' % (steps[0][1:], steps[1] - 1, part), steps[2:]
            for j in steps:
                part = '(sub ! %d refl %s)' % (j, part)
            steps = steps or ['v']
        else:
            for j in steps:
                part = '(sub ! %d refl %s)' % (j, part)
        look = '(look-in ! %d %s)' % (self.pos(i) + extra, part) if steps else '(look ! %d refl)' % (self.pos(i) + extra)
        return '(load ! (from ! %s) %s)' % (find, look)

    def operand(self, x, extra=0):
        return self.read(x[1], extra) if x[0] == 'copy' else '(const ! _ tt)'

    def operands(self, xs, extra=0):
        t = '(no-more !)'
        for x in reversed(xs):
            t = '(and-then ! %s %s)' % (self.operand(x, extra), t)
        return t

    # ---- values
    def value(self, x):
        if x[0] == 'copy':
            return self.value_at(x[1])
        if x[0] == 'int':
            return Value('plain', self.rows.of_mir(('int', x[1])), str(x[2]), '(lit< tt)')
        if x[0] in ('true', 'false'):
            return Value('plain', Boolean(), x[0])
        if x[0] == 'unit':
            return Value('plain', Nothing(), 'tt')
        refuse('the operand %s' % (x,))

    def value_at(self, place):
        i, steps = place
        v = self.locals.get(i)
        if v is None:
            refuse('_%d is read before it is set' % i)
        if v.kind == 'slice' and steps == [1]:
            return Value('plain', UInt('usize'), '(length %s)' % v.slice, '(room-%s .0)' % v.slice)
        if steps and is_variant(steps[0]):
            if not v.payload:
                refuse('a field of a variant that no `match` has shown')
            v, steps = v.payload[steps[1] - 1], steps[2:]
        for j in steps:
            row, den, good = v.row.field(v.den, v.good, j)
            v = Value('plain', row, den, good, test=('is', den, None) if row.name == 'bool' else None)
        return v

    def machine(self, v):
        if v.kind == 'plain':
            return v.mach or v.row.val(v.den)
        s = v.slice
        if v.kind == 'slice':
            return 'sliceVal (b-%s, o-%s) n-%s' % (s, s, s)
        if v.kind == 'ptr':
            return 'vptr b-%s o-%s' % (s, s)
        refuse('an address of a record that lives on')

    def typed(self, v):
        if v.kind == 'plain':
            return v.row.typed(v.den, v.good)
        if v.kind == 'slice':
            return '(tt, (tt, (record { fits = room-%s .0 }, tt)))' % v.slice
        return '(tt, tt)'

    def set(self, i, v, rv, last=False):
        """local i = rv, whose value is v"""
        how = 'store' if self.locals.get(i) else 'init'
        self.emit('%s ! %s (from ! (stop !)) (%s ! %d refl %s) $' % ('assigns-last' if last else 'assigns', rv, how, self.pos(i), self.typed(v)))
        self.locals[i] = v

    # ---- the entry
    def enter(self):
        self.emit(' '.join('alloc1 ! (λ %s.' % ('b-' + self.named[i] if i in self.named else cell(i)) for i in range(self.N)) + ' alloc0 ! $ params1 ! $')
        self.par += self.N
        self.emit(' '.join('pass1 ! (init ! %d refl %s) $' % (2 * (self.N - 1 - i), t) for i, t in self.frame.passes()) + ' pass0 ! $')
        m, s = len(self.order), 'move ! %s $ ' % lst([2 * self.N + 1])
        for p in self.frame.params:
            s += 'fsplit ! $ ' + ('move ! (1 ∷ []) $ ' if p.slice else 'drop ! $ ')
        s += 'drop ! $ move ! %s $ ' % lst([m + 2 * self.N]) + 'split ! $ move ! (1 ∷ []) $ ' * m + 'drop ! $ '
        for k in range(m, 0, -1):
            s += 'move ! %s $ fjoin ! $ ' % lst([m, m - k])
        self.emit(s.rstrip())
        self.emit('-- [%s; the locals]' % '; '.join(self.order))
        self.know_params()

    def know_params(self):
        binders, facts = [], []
        for i, p in enumerate(self.frame.params):
            binders.append((p.var, 'List %s' % p.row.den if p.slice else p.row.den, p.var))
            if p.slice:
                facts.append((p.var + '-fits', 'length %s < 2 ^ 64' % p.var, '(room-%s .0)' % p.var))
                self.locals[i + 1] = Value('slice', slice_=p.var)
            else:
                good = self.frame.good(p)
                if isinstance(p.row, UInt):
                    facts.append((good, p.row.good_type(p.var), good))
                self.locals[i + 1] = Value('plain', p.row, p.var, good, test=('is', p.var, None) if p.row.name == 'bool' else None)
        if self.frame.req:
            facts.append(('ok', self.frame.req, 'ok′'))
        self.facts.learn(binders + facts, '')
        self.entry = len(self.facts.known)

    # ---- statements
    def body(self, stmts, turn=False):
        """turn: the statements end a turn of the loop, and not the function."""
        i = 0
        while i < len(stmts):
            s, last = stmts[i], turn and i == len(stmts) - 1
            if s[0] == 'assign':
                i += self.assign(s, stmts[i + 1:i + 3], last)
                continue
            if s[0] == 'call':
                self.call(s, last)
            elif s[0] == 'if':
                if self.branch(s, stmts[i + 1:], turn):
                    return
            elif s[0] == 'switch':
                return self.match(s, stmts[i + 1:], turn)
            elif s[0] == 'block' and s[1][0][0] == 'loop' and len(s[1]) == 1:
                return self.loop(s[1][0][1], stmts[i + 1:], i)
            elif s[0] == 'return':
                return self.leave()
            elif s[0] == 'exit':
                return self.jump(s[1])
            elif s[0] in ('regroup', 'skipped', 'first', 'skips'):
                self.emit(s[0] + ' ! $')
            else:
                refuse('the statement %s' % s[0])
            i += 1
        if turn:
            self.in_loop.end_turn()

    def jump(self, n):
        """`break` and `continue`"""
        if not self.in_loop or n > 1:
            refuse('a jump to anywhere but the end of the loop or of its turn')
        self.emit('jumps ! $')
        self.in_loop.leave_loop() if n else self.in_loop.end_turn()

    def assign(self, s, following, last):
        """Returns how many statements were walked."""
        (d, steps), rv = s[1], s[2]
        if steps:
            self.store_element(d, steps, rv)
            return 1
        if rv[0] == 'opd' and rv[1][0] == 'copy' and '*' in rv[1][1][1]:
            self.read_element(d, rv[1][1])
            return 1
        between = following[:1] if following[:1] == [['regroup']] else []
        offset = following[len(between):len(between) + 1]
        if rv[:2] == ('op2', 'mul') and offset and offset[0][0] == 'assign' and offset[0][2][:2] == ('op2', 'offset'):
            self.address(d, rv, offset[0], between)
            return 2 + len(between)
        if rv[:2] == ('op2', 'offset') and rv[3][0] == 'int':
            self.fixed_address(d, rv)
            return 1
        if rv[:2] == ('op2', 'offset'):
            self.byte_address(d, rv)
            return 1
        if rv[0] == 'opd':
            self.set(d, self.value(rv[1]), '(of-opd ! %s)' % self.operand(rv[1]), last)
        elif rv[0] == 'addr':
            self.address_of(d, rv[1])
        elif rv[0] == 'repeat':
            self.repeat(d, rv[1], rv[2])
        elif rv[0] == 'agg':
            self.aggregate(d, rv[1])
        elif rv[0] == 'op1':
            self.unary(d, rv, last)
        elif rv[0] == 'op2':
            self.binary(d, rv, last)
        else:
            refuse('the right side %s' % (rv,))
        return 1

    def address_of(self, d, place):
        """d = &raw s.0.*, the first half of a reborrow"""
        v = self.locals.get(place[0])
        if v and not place[1] and (v.kind == 'array' or isinstance(v.row, ArrayOf)):  # &raw a, of an array of the walk's own
            return self.set(d, Value('ptr', slice_=self.own(place[0])), '(addr ! (from ! (stop !)))')
        if not (v and v.kind == 'slice' and place[1] == [0, '*']):
            refuse('a reference to anything but a slice that is a parameter, or an array')
        self.set(d, Value('ptr', slice_=v.slice), '(addr ! (from ! (fld ! refl (hop ! (look-in ! %d (sub ! 0 refl (whole !))) (stop !)))))' % self.pos(place[0]))

    def aggregate(self, d, xs):
        """d = [start, length], the second half of a reborrow; or a struct of its fields; or an enum, of its tag and what the variant holds"""
        row = self.rows.of_mir(self.fn.locals[d])
        if row is None:
            v = Value('slice', slice_=self.value(xs[0]).slice)
        elif isinstance(row, ArrayOf):
            refuse('an array of listed elements: a covered function that returns it')
        elif row.enum:
            constructor, _ = row.variants()[xs[0][2]]
            fields = [self.value(x) for x in xs[1:]]
            v = self.made(row, '(%s)' % ' '.join([constructor] + [f.den for f in fields]) if fields else constructor, fields)
        else:
            fields = [self.value(x) for x in xs]
            once(self.built, row)
            v = self.made(row, '(make-%s %s)' % (row.den, ' '.join(f.den for f in fields)), fields)
        self.set(d, v, '(agg ! %s)' % self.operands(xs))

    def made(self, row, den, fields):
        """A struct or an enum that is built of values: its relation is made of theirs."""
        told = 'tt'
        for f in reversed(fields):
            told = '(%s, %s)' % (f.row.owned(f.good), told)
        v = Value('plain', row, den, '(%s.owes %s %s %s)' % (row.laws, row.pair, den, told))
        v.payload = fields if row.enum else None
        return v

    def unary(self, d, rv, last):
        x = self.value(rv[2])
        if rv[1] in ('not', 'bitNot') and x.row.name == 'bool':
            v, fits = Value('plain', Boolean(), '(not %s)' % x.den, test=x.test or ('is', x.den, None), no=not x.no), 'tt'
        elif rv[1] == 'cast' and isinstance(x.row, UInt):
            row = self.rows.of_mir(('int', rv[3]))
            if row.width >= x.row.width:
                good = '(widen %s (2 ^ %d) (2 ^ %d) tt %s)' % (x.den, x.row.width, row.width, x.good)
            else:
                good = self.facts.lemma('small-%d' % self.next(), row.good_type(x.den), 'the cast loses nothing')
            v, fits = Value('plain', row, x.den, good), '(record { fits = %s })' % good
        else:
            refuse('the operation %s' % rv[1])
        self.set(d, v, '(un ! %s %s)' % (self.operand(rv[2]), fits), last)

    def binary(self, d, rv, last):
        op, a, b = rv[1], self.value(rv[2]), self.value(rv[3])
        if op in ('lt', 'le', 'eq', 'ne'):
            den = '(%s %s %s)' % ({'lt': 'ltb', 'le': 'leb'}.get(op, 'eqb'), a.den, b.den)
            v = Value('plain', Boolean(), '(not %s)' % den if op == 'ne' else den, test=('eq' if op == 'ne' else op, a.den, b.den), no=op == 'ne')
            fits = 'tt'
        elif op in ('add', 'mul'):
            den = '(%s %s %s)' % (a.den, {'add': '+', 'mul': '*'}[op], b.den)
            good = self.facts.lemma('small-%d' % self.next(), a.row.good_type(den[1:-1]), 'nothing wraps')
            v, fits = Value('plain', a.row, den, good), '(record { fits = %s })' % good
        elif op == 'sub':
            den = '(%s - %s)' % (a.den, b.den)
            fits = self.facts.lemma('small-%d' % self.next(), '%s ≤ %s' % (b.den, a.den), 'nothing wraps')
            v = Value('plain', a.row, den, '(less-fits %s %s (2 ^ %d) %s)' % (a.den, b.den, a.row.width, a.good))
        else:
            refuse('the operation %s: do it in a covered function' % op)
        self.set(d, v, '(bin ! %s %s %s)' % (self.operand(rv[2]), self.operand(rv[3]), fits), last)

    # ---- the way out
    def leave(self):
        r = self.locals.get(0)
        k = self.next()
        res = r.den
        self.shut()
        self.emit('returns-within ! Post refl (look ! %d refl) $ ' % self.pos(0) + ' '.join('forget ! %d refl $' % self.pos(i) for i in range(self.N - 1, -1, -1) if self.locals.get(i)))
        self.emit('free-all ! %d refl $' % len(self.order))
        self.front([p.var for p in self.frame.refs])
        lists = {p.name: self.cur[p.var][0] for p in self.frame.refs}
        goal = over(self.frame.fn.ensures, {p.name: p.var for p in self.frame.params}, lists, res, self.frame.fn.bound)
        out = self.facts.lemma('out-%d' % k, goal, 'a way out: what the function ensures', self.answer(goal))
        unit = self.frame.result.name == 'unit'
        args = ([] if unit else [res]) + [self.cur[p.var][0] for p in self.frame.muts] + ([r.good] if self.frame.result.good_type('x') else []) + [out] + ['(%s)' % self.cur[p.var][1] for p in self.frame.muts]
        self.emit('by ! (exits′ %s)' % ' '.join(args))

    # ---- the loop
    def loop(self, body, rest, before):
        if self.opened():
            refuse('a loop and an array: a function for each')
        if self.looped or self.forked:
            refuse('a second loop, or a loop after an `if` both of whose arms go on')
        self.looped = True
        Loop(self, body, rest, before).write()

    def text(self):
        return '\n'.join(self.lines) + ')' * self.par + '\n'
