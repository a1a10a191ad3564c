"""Puts the files together."""
import os
import re

from . import merge, mir, steps
from .proof import Frame, USES, LENT
from .rows import Rows, Param, Declared
from .source import Sources, over
from .text import Uses, path
from .walking import Walk

FACTS_USES = '''
mathlib.Core.Path.{_≡_, refl, sym, _∙_, ap, subst}
Prim.Native.Nat.{ℕ, _+_, _-_, _*_, _<_, _≤_, _^_}
mathlib.Core.List.{List}
mathlib.Core.Bool.{Bool, true, false}
lib.ListN.{length, getD, set}
native.Mathlib.Omega.{arith}
'''
FACTS_HEAD = '''-- The facts of the walk of `%s`, for its author to prove. tools/walk wrote the statements, and never writes over this file.
-- A module's binders are what is known at that point; a `?` is a goal (`rt dev %s --allow-holes` prints each).
'''
# names that a parameter or a `let` cannot have in antt, or that these files use
TAKEN = {'F', 'code', 'stated', 'fm', 'walk', 'walks', 'meets', 'stayed', 'ok', 'inv', 'mem', 'run', 'as', 'no', 'yes', 'left', 'begins', 'falls', 'tt', 'where', 'let', 'in', 'use', 'record', 'module', 'data', 'open', 'elim', 'rw', 'simp', 'omega', 'search', 'cc'}


class Crate:
    def __init__(self, root, crate):
        self.root, self.name = root, crate
        self.sources = Sources(root)
        if crate not in self.sources.deps:
            raise SystemExit('walk: no crate %s in crates.txt' % crate)
        self.mir = mir.read(root, crate)
        self.folder = os.path.join(root, 'crates', crate, 'proofs')
        self.lent = self.find_lent()

    def find_lent(self):
        """The module Lent of this crate or of one that it depends on, with Local beside it; else they are put into this one. They are in tools/lib, under names that `rt` takes for no files of antt."""
        lib = os.path.join(os.path.dirname(os.path.dirname(os.path.abspath(__file__))), 'lib')
        masters = {m: open(os.path.join(lib, m + '.txt')).read() for m in ('Lent', 'Local')}
        for c in self.sources.below(self.name)[1:]:
            there = {m: os.path.join(self.root, 'crates', c, 'proofs', m + '.antt') for m in masters}
            if os.path.exists(there['Lent']):
                for m, file in there.items():
                    if not os.path.exists(file) or open(file).read() != masters[m].replace('CRATE', c):
                        print('walk: the %s of crate %s is not that of tools/lib: write the walks of %s first' % (m, c, c))
                return 'Rattle·%s.proofs.Lent' % c
        for m, text in masters.items():
            put(os.path.join(self.folder, m + '.antt'), text.replace('CRATE', self.name))
            declare(os.path.join(self.folder, 'Lib.antt'), m)
        return 'Rattle·%s·proofs.proofs.Lent' % self.name

    def walk(self, fn):
        return Walked(self, fn)

    def walked(self):
        """The crate's functions that hold a slice of structs."""
        for f in self.sources.functions.values():
            if f.crate == self.name and f.full in self.mir:
                locals_ = self.mir[f.full].locals
                if any(t[0] == 'slice' and t[2][0] == 'named' for t in locals_ if isinstance(t, tuple)):
                    yield f

    def patterns(self):
        """For each function that the crate's walks call: the kinds of its parameters, and whether the call ends a turn, as they occur."""
        out = {}
        for f in self.walked():
            try:
                calls = self.walk(f).build().calls
            except SystemExit:
                continue
            for callee, kinds, last in calls:
                have = out.setdefault(callee.full, [])
                if (kinds, last) not in have:
                    have.append((kinds, last))
        self.tell_apart([self.sources.functions[f] for f in out])
        return {k: sorted(v) for k, v in out.items()}

    def tell_apart(self, callees):
        """Callees of one name have their modules, or their crates too, in what the walks call them."""
        for f in callees:
            same = [g for g in callees if g.name == f.name and g is not f]
            if same:
                by_module = '_'.join(f.mods + [f.name])
                f.tag = by_module if all('_'.join(g.mods + [g.name]) != by_module for g in same) else f.crate + '_' + by_module


class Walked:
    """The walk of one function: its Proof.antt, and the skeleton of its Facts."""

    def __init__(self, crate, fn):
        self.crate, self.fn = crate, fn
        if fn.ensures is None or getattr(fn, 'odd', None):
            raise SystemExit('walk: %s' % (getattr(fn, 'odd', None) or fn.full + ' has no ensures'))

    def build(self):
        c, fn = self.crate, self.fn
        rows = Rows(c.sources, c.name)
        self.uses = Uses(USES)
        self.uses.add('%s.%s' % (c.lent, LENT))
        for t in c.mir[fn.full].locals:
            if t[0] == 'array':
                for u in rows.of_mir(t).uses(c.lent.replace('.Lent', '.Local')):
                    self.uses.add(u)
        steps.contract_uses(self.uses, fn, c.name)
        taken = set(self.uses.names) | TAKEN
        params = [Param(n, t, rows, fn.crate, taken) for n, t in fn.params]
        result = rows.of_text(fn.result, fn.crate)
        entry = {p.name: p.var for p in params}
        req = over(fn.requires, entry) if fn.requires else None
        ens = over(fn.ensures, entry, {p.name: 'zs-' + p.var for p in params if p.mut}, 'tt' if result.name == 'unit' else 'res′', fn.bound)
        for f in c.sources.functions.values():
            f.params_seen, f.result_seen = None, None
        functions = Seen(c, rows)
        frame = Frame(fn, c.name, params, result, req, ens, [])
        w = Walk(frame, c.mir[fn.full], rows, c.name, functions, taken)
        w.enter()
        w.body(w.fn.body)
        for callee, _, _ in w.calls:
            if callee not in frame.callees:
                frame.callees.append(callee)
        self.w, self.frame, self.rows, self.calls = w, frame, rows, w.calls
        return self

    def proof(self):
        c, fn, w, frame = self.crate, self.fn, self.w, self.frame
        uses = self.uses
        for callee in frame.callees:
            own = callee.module(c.name)
            uses.add('Rattle·%s·proofs.proofs.Called.%s as S-%s' % (c.name, callee.tag, callee.called))
            uses.add('%s.Symbol as D-%s' % (own, callee.called))
            uses.add('%s.Symbol.{name as #%s}' % (own, callee.called))
            uses.add('%s.Met as T-%s' % (own, callee.called))
            if w.loop_text:
                steps.contract_uses(uses, callee, c.name)
        own = fn.module(c.name)
        for line in ('%s.Key.{name as #own}', '%s as f′', '%s.Statement as stated', '%s.Code as code', '%s.Proof.Facts as F'):
            uses.add(line % own)
        declared = list(self.rows.declared.values())
        for d in declared:
            for u in d.uses():
                uses.add(u)
            uses.add('%s.{%s}' % (d.item.module(c.name, 'specs'), d.item.name))
        text = frame.head(uses, declared) + self.records() + ''.join('\n' + r.cases() for r in self.w.matched)
        if w.loop_text:
            text += w.loop_codes + w.loop_head
        text += frame.opening() + w.heads() + frame.exits() + frame.over_tables() + w.loop_text + frame.walk_head() + w.text()
        at = {p.name: ('a%s .now' if p.slice else 'a%s') % path(i) for i, p in enumerate(frame.params)}
        return text + frame.tail(over(fn.requires, at) if fn.requires else None)

    def records(self):
        """The definitions of records that the walk and its Facts name."""
        return ''.join('\n' + r.zeros() for r in self.w.zeros) + ''.join('\n' + r.maker() for r in self.w.built)

    def facts(self):
        c = self.crate
        skeleton = self.records() + '\n' + self.w.facts.skeleton()
        base, uses = Uses(FACTS_USES), Uses(FACTS_USES)
        uses.add('lib.ListN.{replicate}')
        for f in [self.fn] + self.frame.callees:
            steps.contract_uses(uses, f, c.name)
        for d in self.rows.declared.values():
            uses.add('%s.{%s}' % (d.item.module(c.name, 'specs'), d.item.name))
        for line in uses.occurring(skeleton).lines:
            base.add(line)
        return FACTS_HEAD % (self.fn.full, c.name) + base.grouped() + skeleton


class Seen:
    """The functions by their full names, with their parameters as this crate's walks see them."""

    def __init__(self, crate, rows):
        self.crate, self.rows = crate, rows

    def get(self, full):
        f = self.crate.sources.functions.get(full)
        if f is not None and f.params_seen is None:
            f.params_seen = [Param(n, t, self.rows, f.crate) for n, t in f.params]
            f.result_seen = self.rows.of_text(f.result, f.crate)
        return f


def put(path_, text):
    """Writes a file in the layout of `rt fmt`, where it would change."""
    lines = [line if line.lstrip().startswith('--') else re.match(' *', line).group() + re.sub(' +', ' ', line.strip()).replace(' )', ')') for line in text.split('\n')]
    text = re.sub(r'\n{3,}', '\n\n', '\n'.join(line.rstrip() for line in lines)).rstrip('\n') + '\n'
    os.makedirs(os.path.dirname(path_), exist_ok=True)
    if not os.path.exists(path_) or open(path_).read() != text:
        open(path_, 'w').write(text)


def declare(path_, module):
    """A `pub mod` line in a node file."""
    text = open(path_).read() if os.path.exists(path_) else ''
    if 'mod %s\n' % module not in text:
        put(path_, text + 'pub mod %s\n' % module)


def run(root, args):
    if len(args) < 2:
        raise SystemExit('usage: tools/walk CRATE FN [FN ..]   (--all: every function of the crate that holds a slice of structs)')
    crate = Crate(root, args[0])
    patterns = crate.patterns()
    if args[1:] == ['--all']:
        for fn in list(crate.walked()):
            try:
                crate.walk(fn).build()
            except SystemExit as why:
                print('%s: left alone: %s' % (fn.full, why))
                continue
            write(crate, fn, patterns)
    else:
        for name in args[1:]:
            write(crate, crate.sources.function(crate.name, name), patterns)


def write(crate, fn, patterns):
    """The files of one walked function."""
    w = crate.walk(fn).build()
    for callee in w.frame.callees:
        text = steps.write(callee, patterns[callee.full], Rows(crate.sources, crate.name), crate.name, crate.lent)
        put(os.path.join(crate.folder, 'Called', callee.tag + '.antt'), text)
        declare(os.path.join(crate.folder, 'Called.antt'), callee.tag)
        declare(os.path.join(crate.folder, 'Lib.antt'), 'Called')
    folder = os.path.join(crate.folder, *fn.mods, fn.name)
    put(os.path.join(folder, 'Proof.antt'), w.proof())
    facts = os.path.join(folder, 'Proof', 'Facts.antt')
    fresh = os.path.join(crate.root, 'target', 'facts', crate.name, *fn.mods, fn.name + '.antt')
    if not os.path.exists(facts):
        put(facts, w.facts())
        print('%s: %s to fill in' % (fn.full, os.path.relpath(facts, crate.root)))
        return
    old = open(facts).read()
    put(fresh, merge.merged(old, w.facts()))
    same = merge.statements(old) == merge.statements(w.facts())
    print('%s: written%s' % (fn.full, '' if same else '; its statements are not those of its Facts: see %s, which has the old answers that fit' % os.path.relpath(fresh, crate.root)))
