"""Facts that are kept: whether their statements are those of a fresh skeleton, and a fresh one with the old answers that fit.

The names of a skeleton are numbered, so a new call shifts them: old and new are laid side by side by their types, numbers aside."""
import difflib
import re

LEMMA = re.compile(r'^( *)(?:abbrev )?pub ([^ ]+) : (.*)$')


def statements(text):
    """The types of the lemmas and of what the modules bind, in order; what is bound is called by its place, since a walk cites it so."""
    out, to = [], {}
    for name, type_, bound in named(text):
        out.append(('' if bound else plain(name), plain(renamed(type_, to))))
        if bound:
            to[name] = 'x%d′' % len(out)
    return out


def plain(text):
    """Without numbers, and without needless space."""
    return re.sub(r'\s+', ' ', re.sub(r'-\d+', '-#', text)).strip()


def named(text):
    """(name, type, whether a module binds it) of each binder and lemma."""
    out, head = [], False
    for line in text[text.find('module _'):].splitlines():
        lemma = LEMMA.match(line)
        if lemma:
            out.append((lemma.group(2), lemma.group(3), False))
        head = head or line.strip().startswith('module _')
        if head:
            out += [(name, type_, True) for name, type_ in binders(line)]
            head = not line.endswith(' where')
    return out


def binders(line):
    out, depth, start = [], 0, 0
    for i, c in enumerate(line):
        if c == '(':
            start = i if depth == 0 else start
            depth += 1
        elif c == ')':
            depth -= 1
            if depth == 0 and ' : ' in line[start:i]:
                out.append(tuple(line[start + 1:i].split(' : ', 1)))
    return out


def answers(text):
    """The text after the type of each lemma, up to the next one or the next module."""
    out, lines, i = {}, text.splitlines(), 0
    while i < len(lines):
        lemma = LEMMA.match(lines[i])
        i += 1
        if lemma:
            pad, body = len(lemma.group(1)), []
            while i < len(lines) and not LEMMA.match(lines[i]) and not lines[i].lstrip().startswith(('module _', '--')):
                body.append(lines[i])
                i += 1
            while body and not body[-1].strip():
                body.pop()
            out[lemma.group(2)] = [l[pad:] if l[:pad].strip() == '' else l for l in body]
    return out


def merged(old, fresh):
    """The fresh skeleton, with the old head and each old answer whose statement is still there."""
    was, now = named(old), named(fresh)
    to, same = {}, statements(old) == statements(fresh)
    keys = lambda xs: range(len(xs)) if same else [(plain(n), plain(t)) for n, t, _ in xs]
    for a, b, size in difflib.SequenceMatcher(None, keys(was), keys(now), False).get_matching_blocks():
        for k in range(size):
            to[was[a + k][0]] = now[b + k][0]
    had = answers(old)
    back = {new: name for name, new in to.items()}
    out, lines, i = [], fresh[fresh.find('module _'):].splitlines(), 0
    while i < len(lines):
        lemma = LEMMA.match(lines[i])
        out.append(lines[i])
        i += 1
        if lemma and had.get(back.get(lemma.group(2))):
            out += [(lemma.group(1) + renamed(l, to)) if l.strip() else '' for l in had[back[lemma.group(2)]]]
            i += 1
    head = old[:old.find('module _')]
    return head.rstrip('\n') + '\n' + new_uses(head, fresh[:fresh.find('module _')]) + '\n' + '\n'.join(out) + '\n'


def new_uses(head, fresh):
    """The `use` lines of the fresh head, for the names that the old head has not."""
    have, out = set(re.findall(r'[^\s{},]+', head)), ''
    for module, names in re.findall(r'^use (\S+)\.\{(.*)\}$', fresh, re.M):
        names = [n for n in names.split(', ') if n.split(' as ')[-1] not in have]
        out += 'use %s.{%s}\n' % (module, ', '.join(names)) if names else ''
    return out


def renamed(line, to):
    return re.sub(r"(?<![\w′·-])[^\W\d][\w′·-]*", lambda m: to.get(m.group(0), m.group(0)), line)
