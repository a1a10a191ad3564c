"""What a local of a walk holds, and what the parts of a walk share."""


def refuse(what):
    raise SystemExit('walk: %s (see tools/walker/README.md)' % what)


def once(list_, x):
    """Puts x into the list where it is not yet: the order is the walk's."""
    if x not in list_:
        list_.append(x)


def is_variant(step):
    return isinstance(step, str) and step.startswith('v')


class Value:
    """What a local holds. kind: 'plain' (of `row`, at `den`, known `good`), 'slice', 'array' (one that is opened), 'ptr' (a slice's start) or 'elem' (the address of an element).
    test: how a bool came about, ('lt' | 'le' | 'eq' | 'is', a, b) under `no` negations."""

    payload = None  # of an enum whose variant is known: the values that it holds
    mach = None     # the machine value, where it is written otherwise than the row does
    was = None      # and what it was called before, with the equation: (Value, name)

    def __init__(self, kind, row=None, den=None, good=None, slice_=None, index=None, inside=None, test=None, no=False):
        self.kind, self.row, self.den, self.good, self.slice, self.index, self.inside, self.test, self.no = kind, row, den, good, slice_, index, inside, test, no
