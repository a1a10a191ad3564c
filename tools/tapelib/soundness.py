"""Document 01's "Soundness", sentence by sentence, and document 02's, R-1, R-3, R-5, R-6 and R-8, over the words of an image: numbers, deques,
frame records and the pool's nodes."""
from collections import Counter

from .machine import height, tree_nodes

NONE, HALF_NONE = 0xFFFFFFFF, 0xFFFF  # of a word, and of a link in 16 bits
WORKERS, MOST_PLACES, MOST_NODES = 8, 256, 16384
NUMBERS, FRAME_WORDS, NODE_WORDS = 10, 12, 2
PLACES = 9  # the word of the frame table's recorded length


def records_at(places):
    """The first word of the frame records, after deques of so many places each."""
    return NUMBERS + WORKERS * (1 + places)


def pool_at(places):
    """The first word of the nodes, after so many frame records."""
    return records_at(places) + FRAME_WORDS * places


def right_length(places):
    """Document 02, R-6: what a recorded length of the frame table must be."""
    return 1 <= places <= MOST_PLACES


def pieces(words, size):
    return [words[at : at + size] for at in range(0, len(words) - size + 1, size)]


def link(word):
    return "none" if word == NONE else str(word)


def links(word):
    """Left and right of an inner node's second word: left plus 65,536 times right, 65,535 for none."""
    return tuple(NONE if half == HALF_NONE else half for half in (word % 65536, word // 65536))


class Frame:
    """A frame place's record."""

    def __init__(self, words):
        self.live, self.parent, self.depth, self.outstanding, self.suspended, self.root, self.returning = words[:7]
        self.view, self.younger = tuple(words[7:11]), words[11]


class State:
    """The words of a state with a table of 1 to 256 places and of its pool's nodes, read into records."""

    def __init__(self, words):
        self.workers, self.n, self.nodes, self.free_node, self.free_place = words[:5]
        self.totals, self.places = tuple(words[5:PLACES]), words[PLACES]
        records, pool = records_at(self.places), pool_at(self.places)
        deques = pieces(words[NUMBERS:records], 1 + self.places)
        self.lengths = [deque[0] for deque in deques]
        self.deques = [deque[1 : 1 + min(deque[0], self.places)] for deque in deques]
        self.past = [deque[1 + min(deque[0], self.places) :] for deque in deques]
        self.frames = [Frame(record) for record in pieces(words[records:pool], FRAME_WORDS)]
        self.pool = pieces(words[pool : pool + NODE_WORDS * self.nodes], NODE_WORDS)
        self.live = {place: frame for place, frame in enumerate(self.frames) if frame.live}
        self.children = {place: [p for p, f in self.live.items() if f.parent == place] for place in self.live}
        self.levels, self.shape = {}, None  # of each node reached, the levels on which it is
        if self.has_trees():
            for place, frame in self.live.items():
                fault = self.walk(frame.root, height(self.n), 0)
                if fault and not self.shape:
                    self.shape = f"frame place {place}: {fault}"
        self.reached = set(self.levels)

    def has_trees(self):
        """Whether numbers are right, so that there is a shape to ask for."""
        return 1 <= self.n <= 256 and tree_nodes(self.n) <= self.nodes <= min(MOST_NODES, len(self.pool))

    def walk(self, number, level, group):
        """Walks to all positions below one; what is first found wrong with the shape, or None. The level tells what the second word is: a
        leaf's is its value, whatever it is."""
        if number >= self.nodes:
            return f"a link to {link(number)} on level {level}, where a node must stand"
        self.levels.setdefault(number, set()).add(level)
        if level == 0:
            return None
        left, right = links(self.pool[number][1])
        faults = [self.walk(left, level - 1, 2 * group)]
        if 2 * group + 1 < (self.n + 2 ** (level - 1) - 1) >> (level - 1):
            faults.append(self.walk(right, level - 1, 2 * group + 1))
        elif right != NONE:
            faults.append(f"node {number} has a right link, and nothing stands there")
        return first(fault for fault in faults if fault)


def chain(first, following, count):
    """(what lies on a chain, why it is broken or None); following gives the link after a number below count."""
    met, seen, at = [], set(), first
    while at != NONE:
        if at >= count:
            return met, f"a link to {at}, which does not exist"
        if at in seen:
            return met, f"{at} lies on it twice"
        met.append(at)
        seen.add(at)
        at = following(at)
    return met, None


def free_nodes(state):
    return chain(state.free_node, lambda at: state.pool[at][1], min(state.nodes, len(state.pool)))


def free_places(state):
    return chain(state.free_place, lambda at: state.frames[at].parent, state.places)


def first(faults):
    return next(iter(faults), None)


def workers(s):
    return None if 1 <= s.workers <= 8 else f"workers: {s.workers}"


def splitters(s):
    return None if 1 <= s.n <= 256 else f"n: {s.n}"


def node_count(s):
    least = tree_nodes(s.n) if 1 <= s.n <= 256 else 0
    return None if least <= s.nodes <= MOST_NODES else f"recorded nodes: {s.nodes}, T(n): {least}"


def flags(s):
    named = ((p, what, getattr(f, what)) for p, f in enumerate(s.frames) for what in ("live", "suspended"))
    return first(f"frame place {place}: {what} is {word}" for place, what, word in named if word > 1)


def returning(s):
    wrong = ((p, f) for p, f in enumerate(s.frames) if f.returning > 1 or (f.returning and not f.suspended))
    return first(f"frame place {p}: the seventh word is {f.returning}, suspended is {f.suspended}" for p, f in wrong)


def deque_lengths(s):
    return first(f"worker {w}: a deque of {length} frames" for w, length in enumerate(s.lengths) if length > s.places)


def one_main(s):
    if not s.live:
        return first(f"no frame lives, and worker {w} has {length}" for w, length in enumerate(s.lengths) if length)
    mains = [place for place, frame in s.live.items() if frame.depth == 0]
    if len(mains) != 1:
        return f"live frames of depth 0: {len(mains)}"
    parent = s.frames[mains[0]].parent
    return None if parent == NONE else f"frame place {mains[0]} has depth 0 and parent {parent}"


def parents(s):
    for place, frame in s.live.items():
        parent = s.live.get(frame.parent)
        if frame.depth and (parent is None or parent.depth != frame.depth - 1):
            depth = f"depth {parent.depth}" if parent else "not live"
            return f"frame place {place}: depth {frame.depth}, parent {link(frame.parent)}, {depth}"
    return None


def outstanding(s):
    wrong = ((p, f, s.children[p]) for p, f in s.live.items() if f.outstanding != len(s.children[p]))
    return first(f"frame place {p}: outstanding is {f.outstanding}, its live children are {len(c)}" for p, f, c in wrong)


def placed(s):
    times = Counter(place for deque in s.deques for place in deque)
    for place, frame in s.live.items():
        waits = times[place] == 0 and frame.suspended and s.children[place]
        if not waits and not (times[place] == 1 and not frame.suspended):
            return f"frame place {place}: suspended {frame.suspended}, in {times[place]} deque places, {len(s.children[place])} live children"
    return None


def deques_live(s):
    dead = ((w, p) for w, deque in enumerate(s.deques) for p in deque if p not in s.live)
    return first(f"worker {w}: frame place {link(p)} is not live" for w, p in dead)


def absent_workers(s):
    return first(f"worker {w} does not exist and has {n} frames" for w, n in enumerate(s.lengths) if n and w >= s.workers)


def past_the_end(s):
    return first(f"worker {w}: a place past its frames holds {link(p)}" for w, past in enumerate(s.past) for p in past if p)


def in_order(s):
    for worker, deque in enumerate(s.deques):
        for above, below in zip(deque, deque[1:]):
            if below >= s.places or s.frames[below].parent != above:
                return f"worker {worker}: frame place {link(below)} below {link(above)} is not its child"
    return None


def not_a_top(s):
    for worker, deque in enumerate(s.deques):
        for at in range(1, len(deque)):
            more = [c for c in s.children.get(deque[at], []) if [c] != deque[at + 1 : at + 2]]
            if more:
                return f"worker {worker}: frame place {deque[at]} is not a top and has the child {more[0]}"
    return None


def shape(s):
    return s.shape


def one_level(s):
    twice = ((number, sorted(levels)) for number, levels in sorted(s.levels.items()) if len(levels) > 1)
    return first(f"node {number} is reached on levels {' and '.join(map(str, levels))}" for number, levels in twice)


def holders(s):
    """Nodes on a level above the leaves' have links."""
    if not s.has_trees():
        return None
    held = Counter(frame.root for frame in s.live.values())
    for number in s.reached:
        held.update(links(s.pool[number][1]) if any(s.levels[number]) else ())
    wrong = (number for number in sorted(s.reached) if s.pool[number][0] != held[number])
    return first(f"node {number}: holders are {s.pool[number][0]}, links to it {held[number]}" for number in wrong)


def others_free(s):
    if not s.has_trees():
        return None
    others = set(range(s.nodes)) - s.reached
    met, fault = free_nodes(s)
    if fault:
        return f"the free chain: {fault}"
    for number in sorted(others ^ set(met)):
        return f"node {number} is " + ("reached and on the free chain" if number in s.reached else "not reached and not on the free chain")
    held = (number for number in met if s.pool[number][0])
    return first(f"free node {number} has holders: {s.pool[number][0]}" for number in held)


def totals(s):
    return f"they are {', '.join(map(str, s.totals))}" if s.live and any(s.totals) else None


def younger(s):
    """For each frame its live children, from the one that no sibling links to, on their links to the end."""
    for parent, frame in s.live.items():
        if frame.parent == NONE and frame.younger != NONE:
            return f"frame place {parent}, Main, has the sibling {frame.younger}"
        children = s.children[parent]
        linked = [s.frames[child].younger for child in children]
        eldest = [child for child in children if child not in linked]
        if children and len(eldest) != 1:
            return f"frame place {parent}: {len(eldest)} of its {len(children)} live children are linked to by no sibling"
        at, met = eldest[0] if eldest else NONE, []
        while at in children and at not in met:
            met.append(at)
            at = s.frames[at].younger
        if at != NONE or len(met) < len(children):
            return f"frame place {parent}: its live children {children}, chained {met}, then {link(at)}"
    return None


def places_free(s):
    met, fault = free_places(s)
    if fault:
        return f"the chain of free places: {fault}"
    for place in sorted(set(range(s.places)) - set(s.live) ^ set(met)):
        return f"frame place {place} is " + ("live and on the chain" if place in s.live else "not live and not on the chain")
    dirty = (p for p in met for f in [s.frames[p]] if any((f.depth, f.outstanding, f.suspended, f.root, f.returning, *f.view, f.younger)))
    return first(f"free frame place {place} has a word that is not zero" for place in dirty)


# Document 01's words; document 02's, R-1, for the flags, R-3 for the returning word, R-5 for totals and links, R-6 for the places of a deque,
# R-8 for the levels. That the recorded length is 1 to 256 is asked before there is a state to look at.
SENTENCES = (
    ("Workers are 1 to 8.", workers),
    ("n is 1 to 256.", splitters),
    ("The recorded node count is T(n) to 16,384.", node_count),
    ("Live and suspended are 0 or 1, and another word there is unsound.", flags),
    ("The seventh word of a record is 1 on a frame waiting as returning, which is suspended, else 0.", returning),
    ("For each of 8 workers there are as many places for its frames as the table has.", deque_lengths),
    ("Either no frame lives and all deques are empty, or just one live frame has depth 0, with parent none.", one_main),
    ("Every other live frame has a live parent one shallower.", parents),
    ("Outstanding counts are right.", outstanding),
    ("Each live frame is either in just one place of one deque and not suspended, or in none and suspended with a live child.", placed),
    ("Deques hold live frames only.", deques_live),
    ("A worker that does not exist has an empty deque.", absent_workers),
    ("Deque places past a deque's frames are zero.", past_the_end),
    ("Each frame in a deque is a child of the one above it.", in_order),
    ("A frame that is not a top has only the child below it, if any.", not_a_top),
    ("Walking from each live frame gives a tree of the shape above, in which a node may stand in several places.", shape),
    ("No node is reached on two levels.", one_level),
    ("Nodes reached have right holders.", holders),
    ("All other nodes are free and lie once on the free chain.", others_free),
    ("The totals are zero while Main lives.", totals),
    ("Links to the next younger live sibling chain the live children of each frame, each once, Main's being none.", younger),
    ("Free frame places lie once on their chain, all but the link to the next being zero.", places_free),
)


def broken(state):
    """(sentence, what breaks it) for each sentence that does not hold; sound means none."""
    found = ((sentence, holds(state)) for sentence, holds in SENTENCES)
    return [(sentence, fault) for sentence, fault in found if fault]
