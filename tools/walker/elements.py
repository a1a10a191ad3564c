"""The part of a walk that reads and stores one element of a slice in place: it is taken out of its slice, and it or another is put in."""
from . import mir
from .rows import UInt
from .text import cell
from .values import Value, is_variant, once, refuse


class Elements:
    def inside(self, index, s):
        """That an index lies in a slice: a fact."""
        goal = '%s < length %s' % (index.den, self.cur[s][0])
        return self.facts.lemma('inside-%d' % self.next(), goal, 'the index lies in the slice', self.answer(goal))

    def address(self, d, rv, following, between):
        """d = index * size; e = offset slice.0, d"""
        e, start = following[1][0], following[2][2]
        index, size = self.value(rv[2]), rv[3][2]
        s = self.locals[start[1][0]].slice
        inside, len_ = self.inside(index, s), self.cur[s][1]
        within = inside if len_ == 'refl' else '(subst (λ (k′ : ℕ). %s < k′) (%s) %s)' % (index.den, len_, inside)
        fits = '(scaled-fits %s n-%s %d %s (room-%s .1))' % (index.den, s, size, within, s)
        how = 'store' if self.locals.get(d) else 'init'
        self.emit('assigns ! (bin ! %s (const ! _ tt) %s) (from ! (stop !)) (%s ! %d refl (tt, %s)) $' % (self.operand(rv[2]), fits, how, self.pos(d), fits))
        self.locals[d] = Value('plain', UInt('usize'), '(%s * %d)' % (index.den, size), '(%s .fits)' % fits)
        if between:
            self.emit('regroup ! $')
        self.point(e, start, ('copy', (d, [])), s, index, inside, size, 'place-is %d' % size)

    def byte_address(self, d, rv):
        """d = offset slice.0, index"""
        index, s = self.value(rv[3]), self.locals[rv[2][1][0]].slice
        self.point(d, rv[2], rv[3], s, index, self.inside(index, s), 1, 'place-byte')

    def point(self, e, start, by, s, index, inside, size, law):
        """e = start + by, which is where the element lies"""
        v = Value('elem', row=self.params[s].row, slice_=s, index=index, inside=inside)
        v.size = size
        self.set(e, v, '(bin ! %s %s tt)' % (self.operand(start), self.operand(by)))
        self.emit('rewrite ! %d (λ (p′ : ℕ). ‵ (fat fullShare tyPtr %s 0 (vptr b-%s p′))) (sym (%s o-%s %s)) refl $' % (self.pos(e), cell(e), s, law, s, index.den))

    def open_element(self, p, name):
        """Takes the record that the local p points to out of its slice, as `name`; returns its slice's parameter, and the text of where it lies."""
        v = self.locals[p]
        s, row, k = self.params[v.slice], v.row, self.count
        self.front([v.slice])
        list_ = self.cur[v.slice][0]
        where = 'b-%s o-%s n-%s %s %s' % (s.var, s.var, s.var, list_, v.index.den)
        binders = '%s %s-is %s-good' % (name, name, name)
        if s.mut:
            self.emit('take-out ! tt %s (%s) (%s) %s %s %s (λ %s.' % (row.name, row.vals, row.tells, where, row.zero, v.inside, binders))
        else:
            self.emit('look-out ! tt %s (%s) (%s) (%s) %s %s %s (λ q-%d %s.' % (row.name, row.vals, row.tells, row.copies, where, row.zero, v.inside, k, binders))
        self.par += 1
        self.shift = 1
        number = isinstance(row, UInt)
        if not number:
            once(self.zeros, row)
        self.structs.append((name + '-good', row.is_type(name)))
        fits = [(name + '-fits', row.good_type(name), '(%s-good .1)' % name)] if number else []
        self.facts.learn([(name, row.den, name)] + fits + [(name + '-is', '%s ≡ getD %s %s %s' % (name, list_, v.index.den, row.zero), name + '-is')], 'the record at %s' % v.index.den)
        return s, where, Value('plain', row, name, row.field_good(name + '-good'))

    def read_element(self, d, place):
        """d = p.*, or a field of it"""
        v, k, fields = self.locals[place[0]], self.next(), place[1][1:]
        name = 'r-%d' % k if fields else self.name_for(d, k)
        s, where, record = self.open_element(place[0], name)
        share = 'fullShare' if s.mut else 'q-%d' % k
        if fields:
            find, part, out = '(stop !)', '(whole !)', record
            for j in fields:
                find, part = '(fld ! refl %s)' % find, '(sub ! %d refl %s)' % (j, part)
                row, den, good = out.row.field(out.den, out.good, j)
                out = Value('plain', row, den, good)
            self.unraw(s, v, share, self.machine(record), True)
            self.set(d, out, '(of-opd ! (load ! (from ! (hop ! (look ! %d refl) %s)) (look-in ! 0 %s)))' % (self.pos(place[0]), find, part))
            self.unraw(s, v, share, self.machine(record), False)
        else:
            self.set(d, record, '(of-opd ! (load ! (from ! (hop ! (look ! %d refl) (stop !))) (look-raw ! 0 refl)))' % self.pos(place[0]))
        back = 'put-back ! tt %s (%s) %s' if s.mut else 'look-back ! tt %s (%s) q-' + str(k) + ' %s'
        self.emit((back % (v.row.name, v.row.makes, where)) + ' %s %s (%s ∷ []) (%s) room-%s %s %s-is %s-good $' % (v.row.zero, name, self.machine(record), self.cur[s.var][1], s.var, v.inside, name, name))
        self.shift = 0

    def unraw(self, s, v, share, val, out):
        """The record's cell at the type of its struct, so that a field of it can be read or stored; or back."""
        t, at = v.row.item.name, 'b-%s (place′ %d o-%s %s)' % (s.var, v.size, s.var, v.index.den)
        if out:
            self.emit('use1 W (‵ (fat %s L-%s.mir %s (%s))) (W .laws .raw-at %s L-%s.mir %s (%s)) $' % (share, t, at, val, share, t, at, val))
        else:
            self.emit('use1 W (‵ (cellAt %s (R-%s .mir) ((%s) ∷ []) %s)) (W .laws .at-raw %s L-%s.mir %s (%s)) $' % (share, t, val, at, share, t, at, val))

    def store_element(self, p, steps, rv):
        """p.* = x, or a field of it"""
        v = self.locals.get(p)
        if not (v and v.kind == 'elem' and steps[0] == '*' and rv[0] == 'opd' and not any(is_variant(j) for j in steps)):
            refuse('a store to a field of a local: do it in a covered function')
        if not self.params[v.slice].mut:
            refuse('a store through a `&`')
        x, k = self.value(rv[1]), self.next()
        s, where, old = self.open_element(p, 'r-%d' % k)
        list_, len_ = self.cur[s.var]
        if len(steps) == 1:
            new = x
            self.emit('assigns ! (of-opd ! %s) (from ! (hop ! (look ! %d refl) (stop !))) (store-raw ! 0 refl %s) $' % (self.operand(rv[1]), self.pos(p), self.typed(x)))
        else:
            new, find, part = self.changed(v.row, old.den, old.good, steps[1:], x), '(stop !)', '(whole !)'
            for j in steps[1:]:
                find, part = '(fld ! refl %s)' % find, '(sub ! %d refl %s)' % (j, part)
            self.unraw(s, v, 'fullShare', self.machine(old), True)
            self.emit('assigns ! (of-opd ! %s) (from ! (hop ! (look ! %d refl) %s)) (store-in ! 0 %s %s) $' % (self.operand(rv[1]), self.pos(p), find, part, self.typed(x)))
            self.unraw(s, v, 'fullShare', self.machine(new), False)
        name = '%s-%d' % (s.var, k)
        self.emit('put-in ! tt %s (%s) %s %s (%s ∷ []) (%s) room-%s %s %s (λ %s %s-is same-%s.' % (v.row.name, v.row.makes, where, new.den, self.machine(new), len_, s.var, v.inside, new.row.owned(new.good), name, name, name))
        self.par += 1
        self.shift = 0
        self.facts.learn([(name, 'List %s' % v.row.den, name), (name + '-is', '%s ≡ set %s %s %s' % (name, list_, v.index.den, new.den), name + '-is'), ('same-' + name, 'length %s ≡ length %s' % (name, list_), 'same-' + name)],
                         mir.show(['assign', (p, steps), rv]))
        self.becomes(s.var, name)

    def changed(self, row, record, good, fields, x):
        """The record with x for a field, or for a field of a field, and its relation."""
        j = fields[0]
        if fields[1:]:
            inner, den, told = row.field(record, good, j)
            x = self.changed(inner, den, told, fields[1:], x)
        new, owed = row.changed(record, j, x.den), '(LL.owed %s %s _ %s' % (row.pair, record, good)
        told = 'tt'
        for i in reversed(range(len(row.fields()))):
            told = '(%s, %s)' % (x.row.owned(x.good) if i == j else owed + ' .1' * i + ' .0)', told)
        return Value('plain', row, new, '(LL.owes %s %s %s)' % (row.pair, new, told))
