"""The types that a walk meets: how each is written in antt.

A value of a type has in a walk: its denotation x (a number, a Bool, a record), its machine value `val(x)`, a function of x, and
what is known of it, `good`: that a number fits, or that a struct's relation holds. A bool and a unit need nothing."""
import re

from .source import Enum, antt_name

WIDTH = {'u8': 8, 'u16': 16, 'u32': 32, 'u64': 64, 'usize': 64}


class Row:
    """name: the row in antt. den: its denotation. vals, tells, makes: its laws."""

    def typed(self, x, good):
        """That the machine value is of its MIR type: what a store asks."""
        return '(tt, tt)'

    def good_type(self, x):
        """What is known of a value, or None."""
        return None

    def good_from(self, x, told):
        return None

    def owned(self, good):
        """The relation `Is`, of a value that is good."""
        return 'refl'

    def is_type(self, x):
        """That relation, of x and its machine value."""
        return 'Is %s %s (%s ∷ [])' % (self.name, x, self.val(x))


class UInt(Row):
    def __init__(self, name):
        self.name, self.width, self.den = name, WIDTH[name], 'ℕ'
        self.w = 'w%d' % self.width
        self.vals, self.tells = 'uint-vals ' + self.w, 'uint-tells ' + self.w
        self.makes, self.copies = 'uint-makes 𝓤 H A W ' + self.w, 'uint-copy 𝓤 H A W ' + self.w
        self.lawful = 'uint-lawful 𝓤 H A W ' + self.w
        self.zero = '0'

    def val(self, x):
        return 'vint %s %s' % (self.w, x)

    def good_type(self, x):
        return '%s < 2 ^ %d' % (x, self.width)

    def good_from(self, x, told):
        return '%s .1' % told

    def typed(self, x, good):
        return '(tt, record { fits = %s })' % good

    def owned(self, good):
        return '(refl, %s)' % good

    def field_good(self, told):
        return '(%s .1)' % told


class Boolean(Row):
    name, den, vals, tells, makes, zero = 'bool', 'Bool', 'bool-vals', 'bool-tells', 'bool-makes 𝓤 H A W', 'false'

    def val(self, x):
        return 'vbool %s' % x

    def field_good(self, told):
        return None


class Nothing(Row):
    name, den, vals, tells, makes = 'unit', 'Unit {0}', 'nothing-vals', 'nothing-tells', 'nothing-makes 𝓤 H A W'

    def val(self, x):
        return 'vunit'


class Declared(Row):
    """A struct or an enum T. In a file that uses it `R-T` is its row and `val-T` its machine value (`head`)."""

    def __init__(self, item, crate, rows):
        self.item, self.crate, self.rows = item, crate, rows
        t = item.name
        self.enum = isinstance(item, Enum)
        self.laws = 'EL' if self.enum else 'LL'
        self.name, self.den = 'R-' + t, t
        self.pair = 'M-%s.the-type L-%s.the-laws' % (t, t)
        self.vals, self.tells = '%s.vals %s' % (self.laws, self.pair), '%s.tells %s' % (self.laws, self.pair)
        self.makes = '%s.makes M-%s.the-type L-%s.the-plain 𝓤 H A' % (self.laws, t, t)
        self.copies = '%s.copy M-%s.the-type L-%s.the-copy 𝓤 H A W' % (self.laws, t, t)
        self.lawful = '%s.lawful %s 𝓤 H A W%s' % (self.laws, self.pair, ' tt' if self.enum else '')

    def val(self, x):
        return 'val-%s %s' % (self.item.name, x)

    def good_type(self, x):
        return 'Is R-%s %s (val-%s %s ∷ [])' % (self.item.name, x, self.item.name, x)

    def good_from(self, x, told):
        return '(subst (Is R-%s %s) (%s %s _ %s) %s)' % (self.item.name, x, self.tells, x, told, told)

    def typed(self, x, good):
        return '(%s .typed %s _ %s .0)' % (self.lawful, x, good)

    def owned(self, good):
        return good

    def field_good(self, told):
        return told

    def fields(self):
        """[(name, row)] of a struct."""
        if self.enum:
            raise SystemExit('walk: a field of the enum %s: take it apart in a covered function' % self.item.name)
        return [(n, self.rows.of_text(t, self.item.crate)) for n, t in self.item.fields]

    def field(self, x, good, j):
        """Field j of a value: its row, its denotation and what is known of it."""
        name, row = self.fields()[j]
        told = '(LL.owed %s %s _ %s%s .0)' % (self.pair, x, good, ' .1' * j)
        return row, '(%s .%s)' % (x, antt_name(name)), row.field_good(told)

    @property
    def zero(self):
        return 'zero-' + self.item.name

    def variants(self):
        """[(constructor, [row])] of an enum."""
        return [('%s.%s' % (self.item.name, v), [self.rows.of_text(t, self.item.crate) for t in ts]) for v, ts in self.item.variants]

    def cases(self):
        """`cases-T`: what holds for each constructor holds."""
        t, vs = self.item.name, self.variants()
        names = [['x%d′' % j for j, _ in enumerate(rows)] for _, rows in vs]
        arms = ['(%sm′ ≡ %s → X′)' % (''.join('(%s : %s) ' % (n, r.den) for n, r in zip(ns, rows)) + ('→ ' if ns else ''), ' '.join([c] + ns)) for (c, rows), ns in zip(vs, names)]
        out = 'cases-%s : {X′ : Type 1} (m′ : %s) → %s → X′\n' % (t, t, ' → '.join(arms))
        ks = ['k%d′' % i for i, _ in enumerate(vs)]
        for i, ((c, _), ns) in enumerate(zip(vs, names)):
            out += 'cases-%s %s %s = %s\n' % (t, '(%s)' % ' '.join([c] + ns) if ns else c, ' '.join(ks), ' '.join([ks[i]] + ns + ['refl']))
        return out

    def zero_record(self):
        if self.enum:
            c, rows = min(self.variants(), key=lambda v: len(v[1]))
            return ' '.join([c] + [r.zero_record() if hasattr(r, 'item') else r.zero for r in rows])
        return 'record { %s }' % '; '.join('%s = %s' % (antt_name(n), '(%s)' % r.zero_record() if hasattr(r, 'item') else r.zero) for n, r in self.fields())

    def zeros(self):
        """`zero-T`, the record that an index outside would give."""
        return 'abbrev %s : %s\n%s = %s\n' % (self.zero, self.den, self.zero, self.zero_record())

    def maker(self):
        """`make-T`, which builds the record: a literal has no type by itself."""
        names = ['x%d′' % j for j, _ in enumerate(self.fields())]
        return 'abbrev make-%s : %s → %s\nmake-%s %s = record { %s }\n' % (self.den, ' → '.join(r.den for _, r in self.fields()), self.den, self.den, ' '.join(names),
                                                                      '; '.join('%s = %s' % (antt_name(n), x) for (n, _), x in zip(self.fields(), names)))

    def changed(self, x, j, y):
        """The record x with y for its field j."""
        return '(record { %s })' % '; '.join('%s = %s' % (antt_name(n), y if k == j else '%s .%s' % (x, antt_name(n))) for k, (n, _) in enumerate(self.fields()))

    def uses(self):
        own = self.item.module(self.crate)
        return ['%s as M-%s' % (own, self.item.name), '%s.Laws as L-%s' % (own, self.item.name)]

    def head(self):
        t = self.item.name
        return 'abbrev R-%s : RattleType\nR-%s = M-%s.the-row\n\nabbrev val-%s : %s → Val\nval-%s d = %s.val %s d\n' % (t, t, t, t, t, t, self.laws, self.pair)


class ArrayOf(Row):
    """n of a row by value. The machine value is a function of the list (`listVal`)."""
    enum = False

    def __init__(self, row, n):
        self.row, self.n = row, n
        self.name, self.den = '(Array %s %d)' % (row.name, n), '(List %s)' % row.den
        self.vals = 'array-vals (%s)' % row.vals
        self.tells = 'array-tells %s (%s) (%s) %d' % (row.name, row.vals, row.tells, n)
        self.makes = 'array-makes 𝓤 H A W %s (%s) %d' % (row.name, row.makes, n)

    def val(self, x):
        return 'listVal (%s) %s' % (self.row.vals, x)

    def good_type(self, x):
        return self.is_type(x)

    def good_from(self, x, told):
        return '(subst (Is %s %s) (%s %s _ %s) %s)' % (self.name, x, self.tells, x, told, told)

    def typed(self, x, good):
        return '(array-fits 𝓤 H A W %s (%s) %d %s _ %s)' % (self.row.name, self.row.lawful, self.n, x, good)

    def owned(self, good):
        return good

    def field_good(self, told):
        return told

    def uses(self, local):
        return ['lib.ListN.{replicate}', 'types.Part.{rep}', 'denote.Plain.{uint-vals, uint-lawful}', 'denote.Array.{Array, arrayVal, array-vals, array-tells, array-makes}',
                '%s.{listVal, array-is, array-fits, open-local, shut-local}' % local]


class Rows:
    """The rows as seen from one crate."""

    def __init__(self, sources, crate):
        self.sources, self.crate, self.declared = sources, crate, {}

    def of_text(self, text, crate=None):
        """The row of a type as a source of `crate` writes it."""
        text = text.strip()
        if text in WIDTH:
            return UInt(text)
        if text == 'bool':
            return Boolean()
        if text in ('unit', '()'):
            return Nothing()
        m = re.fullmatch(r'\[\s*([\w:]+)\s*;\s*(\d+)\s*\]', text)
        if m:
            return ArrayOf(self.of_text(m.group(1), crate), int(m.group(2)))
        if re.fullmatch(r'[\w:]+', text):
            item = self.sources.type_named(text, crate or self.crate)
            return self.declared.setdefault(item.full, Declared(item, self.crate, self))
        raise SystemExit('walk: the type `%s` is none that a walk can pass (see tools/walker/README.md)' % text)

    def of_mir(self, t):
        if t == 'bool':
            return Boolean()
        if t == 'unit':
            return Nothing()
        if t[0] == 'int':
            return UInt({8: 'u8', 16: 'u16', 32: 'u32', 64: 'usize'}[t[1]])
        if t[0] == 'array':
            return ArrayOf(self.of_mir(t[1]), t[2])
        if t[0] == 'named':
            item = self.sources.types[t[1]]
            return self.declared.setdefault(item.full, Declared(item, self.crate, self))
        return None


class Param:
    """A parameter: a slice (`mut` or not) of rows, or a plain value. var: its name in antt."""

    def __init__(self, name, text, rows, crate, taken=()):
        m = re.fullmatch(r'&\s*(mut\s+)?\[\s*([\w:]+)\s*\]', text.strip())
        self.name = name
        self.var = name.replace('_', '-')
        if self.var in taken:
            self.var += '′'
        self.slice, self.mut = bool(m), bool(m and m.group(1))
        if text.strip().startswith('&') and not m:
            raise SystemExit('walk: parameter %s: %s: only slices are lent (see tools/walker/README.md)' % (name, text))
        self.row = rows.of_text(m.group(2) if m else text, crate)
