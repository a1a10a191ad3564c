"""The Rattle sources of a repository: each crate's functions with their contracts, structs, enums and `ghost use` lines."""
import os
import re

NAME = r"[A-Za-z_][A-Za-z0-9_]*"


class Item:
    """A function, struct or enum: where it stands, and how antt names its module."""

    def __init__(self, crate, mods, name):
        self.crate, self.mods, self.name = crate, mods, name
        self.shown = mods  # the modules under which other crates name it

    @property
    def full(self):
        return '::'.join([self.crate] + self.mods + [self.name])

    def module(self, seen_from, part='proofs'):
        """antt's module of the item's proofs; part 'specs' is its declared type."""
        head = ['declared'] if part == 'specs' else []
        if self.crate == seen_from:
            return 'Rattle·%s·%s.%s.%s' % (self.crate, part, part, '.'.join(head + self.mods + [self.name]))
        return 'Rattle·%s.%s.%s' % (self.crate, part, '.'.join(head + self.shown + [self.name]))

    def path(self, seen_from):
        """The name by which generated modules of a crate call it."""
        return '·'.join([self.crate] + (self.mods if self.crate == seen_from else self.shown) + [self.name]).replace('_', '-')

    @property
    def kebab(self):
        return self.name.replace('_', '-')


class Function(Item):
    """tag: what the walks of a crate call it (main.Crate.tell_apart)."""
    _tag = None

    @property
    def tag(self):
        return self._tag or self.name

    @tag.setter
    def tag(self, tag):
        self._tag = tag

    @property
    def called(self):
        return self.tag.replace('_', '-')

    params = ()      # [(name, type text)]
    result = 'unit'  # type text
    requires = None  # the fact between the brackets
    ensures = None
    bound = 'r'      # what the `ensures` calls the result
    lets = ()        # the names of its `let`s, in order
    uses = ()        # the `ghost use` lines of its file
    file = ''


class Struct(Item):
    fields = ()  # [(name, type text)]


class Enum(Item):
    variants = ()  # [(name, [type text])]


class Sources:
    def __init__(self, root):
        self.root = root
        self.deps = {}
        for line in open(os.path.join(root, 'crates.txt')):
            line = line.split('#')[0].strip()
            if line:
                name, rest = line.split(':', 1)
                self.deps[name.strip()] = [d for d in rest.split() if os.path.isdir(os.path.join(root, 'crates', d))]
        self.functions, self.types = {}, {}
        for crate in self.deps:
            if os.path.isdir(os.path.join(root, 'crates', crate, 'src')):
                self._crate(crate)

    def below(self, crate):
        """The crate and all that it depends on."""
        out = [crate]
        for c in out:
            out += [d for d in self.deps.get(c, []) if d not in out]
        return out

    def type_named(self, name, crate):
        """The struct or enum that a crate's source calls so: its own, or one of a crate that it depends on."""
        name = name.split('::')[-1]
        for c in self.below(crate):
            for t in self.types.values():
                if t.crate == c and t.name == name:
                    return t
        raise SystemExit('walk: no struct or enum %s in %s or what it depends on' % (name, crate))

    def function(self, crate, name):
        """`f` or `module::f` of a crate."""
        found = [f for f in self.functions.values() if f.crate == crate and (f.full == crate + '::' + name or f.name == name)]
        exact = [f for f in found if f.full == crate + '::' + name]
        found = exact or found
        if len(found) != 1:
            raise SystemExit('walk: %s %s in crate %s' % ('no function' if not found else 'say the module of', name, crate))
        return found[0]

    def _crate(self, crate):
        src = os.path.join(self.root, 'crates', crate, 'src')
        for folder, _, files in os.walk(src):
            for f in sorted(files):
                if f.endswith('.rt'):
                    rel = os.path.relpath(os.path.join(folder, f), src)[:-3].split(os.sep)
                    mods = [m for m in rel if m not in ('lib', 'main', 'mod')]
                    self._file(crate, mods, os.path.join(folder, f))
        root = os.path.join(src, 'lib.rt')
        for path in re.findall(r'^pub use ([\w:]+);', open(root).read(), re.M) if os.path.exists(root) else []:
            if '%s::%s' % (crate, path) in self.functions:
                self.functions['%s::%s' % (crate, path)].shown = []

    def _file(self, crate, mods, path):
        text = re.sub(r'//[^\n]*', '', open(path).read())
        uses = re.findall(r'ghost use ([^;]+);', text)
        for m in re.finditer(r'\bstruct (%s)\s*\{([^}]*)\}' % NAME, text):
            s = Struct(crate, mods, m.group(1))
            s.fields = [tuple(x.strip() for x in re.sub(r'^\s*pub ', '', f.strip()).split(':')) for f in m.group(2).split(',') if f.strip()]
            self.types[s.full] = s
        for m in re.finditer(r'\benum (%s)\s*\{' % NAME, text):
            e = Enum(crate, mods, m.group(1))
            inside = text[m.end():_close(text, m.end() - 1, '{', '}')]
            e.variants = [(v, [x.strip() for x in args.split(',') if x.strip()]) for v, args in re.findall(r'(%s)\s*(?:\(([^)]*)\))?\s*(?:,|$)' % NAME, inside.strip())]
            self.types[e.full] = e
        for m in re.finditer(r'\bfn (%s)\s*\(' % NAME, text):
            f = self._function(crate, mods, m.group(1), text, m.end())
            f.uses, f.file = uses, path
            self.functions[f.full] = f

    def _function(self, crate, mods, name, text, at):
        f = Function(crate, mods, name)
        end = _close(text, at - 1, '(', ')')
        f.params = [tuple(x.strip() for x in p.replace('mut ', '', 1).split(':', 1)) if p.strip().startswith('mut ') else tuple(x.strip() for x in p.split(':', 1))
                    for p in text[at:end].split(',') if p.strip()]
        rest = text[end + 1:]
        m = re.match(r'\s*->\s*(\[[^\]]*\]|[^{\s]+(?:\s*\[[^\]]*\])?)', rest)
        if m:
            f.result = m.group(1)
            rest = rest[m.end():]
        while True:
            m = re.match(r'\s*(requires|ensures)\s*\{', rest)
            if not m:
                break
            end = _close(rest, m.end() - 1, '{', '}')
            self._clause(f, m.group(1), rest[m.end():end])
            rest = rest[end + 1:]
        start = rest.index('{')
        body = rest[start:_close(rest, start, '{', '}')]
        f.lets = bound_names(body)
        return f

    def _clause(self, f, kind, text):
        fact = re.search(r'⌜(.*)⌝', text, re.S)
        if not fact or getattr(f, kind) is not None:
            f.odd = '%s of %s: one clause, of the form ⌜ .. ⌝, is what a walk can use' % (kind, f.full)
            return
        fact = re.sub(r'\s+', ' ', fact.group(1)).strip()
        if kind == 'ensures':
            f.bound = re.match(r'\s*λ\s*\(?\s*([^\s.:]+)', text).group(1)
        setattr(f, kind, fact)


def bound_names(body):
    """What `let`s and patterns bind, in order: so the locals after the parameters are numbered."""
    out = []
    for m in re.finditer(r'\blet (?:mut )?(%s)\b(?!\s*::|\s*\()|%s::%s\s*\(([^()]*)\)\s*(?==>|=[^=])' % (NAME, NAME, NAME), body):
        out += [m.group(1)] if m.group(1) else [x.strip() for x in m.group(2).split(',') if x.strip() and x.strip() != '_']
    return out


def _close(text, at, opening, closing):
    """The place of the bracket that closes the one at `at`."""
    depth = 0
    for i in range(at, len(text)):
        depth += (text[i] == opening) - (text[i] == closing)
        if depth == 0:
            return i
    raise SystemExit('walk: unbalanced %s' % opening)


# ---- names
def antt_name(name):
    """A field's name in antt: one with an underscore is written with its quotes."""
    return '«%s»' % name if '_' in name else name


# ---- a contract's fact over other terms
IDENT = r"(?<![\w′·.-])(%s)(?![\w′·-])"


def over(fact, entry, exit_=None, result=None, bound='r'):
    """The fact with the terms of `entry` for the parameters (a list for a slice), those of `exit_` for a slice's last list, and `result` for the bound variable."""
    fact = re.sub(r'«(\w+)»', lambda m: m.group(1) if m.group(1) in entry else m.group(0), fact)
    marks = {}

    def mark(term):
        key = '⟦%d⟧' % len(marks)
        marks[key] = term
        return key

    def named(pattern, terms):
        nonlocal fact
        fact = re.sub(pattern, lambda m: mark(terms[m.group(1)]) if m.group(1) in terms else m.group(0), fact)

    for wrap in (r'\(%s\)', r'%s'):
        if exit_ is not None:
            named(wrap % r'now \((\w+) \.exit\)', exit_)
        named(wrap % r'now \((\w+) \.entry\)', entry)
        named(wrap % r'now (\w+)', entry)
    for wrap in (r'\(%s\)', r'%s'):
        named(wrap % r'(\w+) \.entry', entry)
    words = dict(entry)
    if result is not None and bound != '_':
        words[bound] = result
    if words:
        named(IDENT % '|'.join(re.escape(w) for w in sorted(words, key=len, reverse=True)), words)
    return re.sub(r'⟦\d+⟧', lambda m: _atom(marks[m.group(0)]), fact)


def _atom(term):
    plain = re.fullmatch(r"[\w′·-]+", term) or (term.startswith('(') and _close(term, 0, '(', ')') == len(term) - 1)
    return term if plain else '(%s)' % term
