"""Small pieces of antt text, and the `use` lines of a file."""
import re


def lst(xs):
    return '(' + ''.join('%s ∷ ' % x for x in xs) + '[])'


def nest(xs):
    """A tuple that ends in tt."""
    return '(' + ', ('.join(xs) + ', tt' + ')' * len(xs) if xs else 'tt'


def tuple_type(xs):
    return ' × ('.join(xs) + ' × Unit {0}' + ')' * (len(xs) - 1) if xs else 'Unit {0}'


def path(i):
    return ' .1' * i + ' .0'


def cell(i):
    return 'l' + ''.join('₀₁₂₃₄₅₆₇₈₉'[int(c)] for c in str(i))


def occurring(lines, text):
    """`use` lines with only the names that the text has. An operator `_+_` occurs as `+`; a line without names stays."""
    words, out = set(re.findall(r"[^\s(){};,]+", text)), []
    for line in lines:
        m = re.fullmatch(r'(\S+)\.\{(.*)\}', line)
        if not m:
            out.append(line)
            continue
        names = [n.strip() for n in m.group(2).split(',')]
        kept = [n for n in names if n.split(' as ')[-1] in words or n.split(' as ')[-1].strip('_') in words]
        if kept:
            out.append('%s.{%s}' % (m.group(1), ', '.join(kept)))
    return out


class Uses:
    """`use` lines, each name once. A line is `module.{a, b as c}` or `module as m`."""

    def __init__(self, text=''):
        self.names, self.lines = {}, []
        for line in text.strip().splitlines():
            if line.strip():
                self.add(line.strip())

    def add(self, line):
        m = re.fullmatch(r'(\S+)\.\{(.*)\}', line)
        if not m:
            if line not in self.lines:
                self.lines.append(line)
            return
        module, fresh = m.group(1), []
        for name in (n.strip() for n in m.group(2).split(',')):
            seen = name.split(' as ')[-1]
            if seen not in self.names:
                self.names[seen] = module + ' ' + name
                fresh.append(name)
            elif self.names[seen] != module + ' ' + name:
                raise SystemExit('walk: the name %s is both %s and %s: rename one in its specs' % (seen, self.names[seen], module + ' ' + name))
        if fresh:
            self.lines.append('%s.{%s}' % (module, ', '.join(fresh)))

    def occurring(self, text):
        """Only the names that the text has."""
        kept = Uses()
        for line in occurring(self.lines, text):
            kept.add(line)
        return kept

    def grouped(self):
        """One line for each module that names are taken of."""
        of = {}
        for line in self.lines:
            m = re.fullmatch(r'(\S+)\.\{(.*)\}', line)
            of.setdefault(m.group(1) if m else line, []).extend([m.group(2)] if m else [])
        return ''.join('use %s\n' % ('%s.{%s}' % (module, ', '.join(names)) if names else module) for module, names in of.items())

    def text(self):
        return ''.join('use %s\n' % l for l in self.lines)


def seen_from(use, own, home):
    """A `ghost use` of crate `home`, as a file of crate `own` writes it."""
    if own != home:
        use = use.replace('Rattle·%s·specs.specs.' % home, 'Rattle·%s.specs.' % home)
    return use
