"""The part of a walk that lends arrays of its own: `let mut a = [x; N];` or `let a = f(..);`, then `&a`, `&mut a`, `a[0]`.

An array is first a value in its cell. Where its address is taken it is opened (`Local.antt`): it is a slice of the walk from there on, which stands with
the others before the locals, and what it has lent stands in its cell's place. Before the function returns it is shut."""
from .rows import ArrayOf, UInt
from .text import lst
from .values import Value, refuse


class Own:
    """An opened array, as a parameter would be."""

    def __init__(self, name, row):
        self.name = self.var = name
        self.slice = self.mut = True
        self.row = row


class Arrays:
    def name_arrays(self):
        """An array's cell is `b-NAME`, after its `let`."""
        first = self.frame_params() + 1
        lets = self.frame.fn.lets
        out = {}
        for i, t in enumerate(self.fn.locals):
            if t[0] == 'array' and 0 <= i - first < len(lets):
                out[i] = self.name_for(i, 'a-%d' % i)
        return out

    def heads(self):
        """What a walk says of its arrays: where one begins in its cell, its length, and that it has room."""
        out = ''
        for i, name in self.named.items():
            row = self.rows.of_mir(self.fn.locals[i])
            out += '  abbrev o-%s : ℕ\n  o-%s = 0\n\n  abbrev n-%s : ℕ\n  n-%s = %d\n\n' % (name, name, name, name, row.n)
            out += '  room-%s : Room %s n-%s\n  room-%s = (lit< tt, lit< tt)\n\n' % (name, row.row.name, name, name)
        return out

    def repeat(self, d, x, n):
        """d = [x; n]"""
        v = self.value(x)
        row = ArrayOf(v.row, n)
        den, val = '(replicate %d %s)' % (n, v.den), '(arrayVal (replicate %d (%s)))' % (n, v.row.val(v.den))
        new = Value('plain', row, den, '(array-is %s %d %s (%s) %s)' % (v.row.name, n, v.den, v.row.val(v.den), v.row.owned(v.good)))
        new.mach = val
        self.set(d, new, '(rep ! %d %s)' % (n, self.operand(x)))

    def own(self, i):
        """The name of the slice that the array in local i is; it is opened where it is not yet."""
        v = self.locals[i]
        if v.kind == 'array':
            return v.slice
        if i not in self.named:
            refuse('the address of an array that no `let` names')
        name, row, p = self.named[i], v.row, self.pos(i)
        if p:
            self.emit('move ! %s $' % lst([p]))
        self.emit('open-local ! tt %s tt (%s) n-%s b-%s %s (%s) %s room-%s (λ ν-%s γ-%s %s %s-is %s-length.' % (
            row.row.name, row.row.makes, name, name, v.den, self.machine(v), v.good, name, name, name, name, name, name))
        self.par += 1
        if p:
            self.emit('move ! %s $' % lst([0] + list(range(2, p + 2)) + [1]))
        self.order = [name] + self.order
        self.cur[name] = (name, name + '-length')
        self.params[name] = Own(name, row.row)
        self.facts.learn([(name, 'List %s' % row.row.den, name), (name + '-is', '%s ≡ %s' % (name, v.den), name + '-is'), (name + '-length', 'length %s ≡ %d' % (name, row.n), name + '-length')], 'the array %s' % name)
        self.locals[i] = Value('array', row, slice_=name)
        return name

    def opened(self):
        return [i for i, v in sorted(self.locals.items()) if v and v.kind == 'array']

    def shut(self):
        """All arrays are values in their cells again."""
        for i in self.opened():
            row, name = self.locals[i].row, self.locals[i].slice
            self.emit('move ! %s $' % lst([self.order.index(name), self.pos(i)]))
            self.emit('shut-local ! tt %s n-%s b-%s %s (λ v-%s v-%s-is.' % (row.row.name, name, name, self.cur[name][0], name, name))
            self.par += 1
            self.order.remove(name)
            if self.pos(i):
                self.emit('move ! %s $' % lst(list(range(1, self.pos(i) + 1)) + [0]))
            self.locals[i] = Value('plain', row, self.cur[name][0], 'v-%s-is' % name)

    def fixed_address(self, d, rv):
        """d = offset a, c, with a constant c: an array's element whose index is written out"""
        s, c = self.locals[rv[2][1][0]].slice, rv[3][2]
        row = self.params[s].row
        if not isinstance(row, UInt):
            refuse('a constant index into an array of structs')
        size = row.width // 8
        index = Value('plain', UInt('usize'), str(c // size), '(lit< tt)')
        inside = '(subst (λ (k′ : ℕ). %s < k′) (sym (%s)) (lit< tt))' % (index.den, self.cur[s][1])
        self.point(d, rv[2], rv[3], s, index, inside, size, 'place-is %d' % size)
