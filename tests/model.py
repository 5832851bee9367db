"""The run and the check of documents 01 and 02 in Python, written apart from the proved code, and a brute force over all
derivations. tests/reader.py reads texts for it.

A program is its kinds (name, number of terms, weight) and rules; a fact is (kind, terms). In a rule and in a goal's text a term
is a str: a capital letter is a variable, anything else a constant. In a state a constant is a str and a variable a number: the
goal's n variables are 0 to n - 1 by first appearance, and new ones have numbers from n on. A state is None where it has failed,
or (facts, what each goal variable became, a number above every variable in use).
A constant keeps its spelling; wherever terms are compared or printed it is taken without leading zeros, if it is made of digits.
"""
import collections


class Rule(collections.namedtuple('Rule', 'kept removed body equations')):
    """A rule: its J lines, its H lines, its body facts and equations."""

    @property
    def heads(self):
        """All heads, in the order in which they are numbered: J, then H."""
        return self.kept + self.removed


def is_variable(term):
    return len(term) == 1 and term.isupper()


def plain(term):
    """A term as it is printed: a constant made only of digits without leading zeros, zero as 0; any other as it is."""
    return str(int(term)) if isinstance(term, str) and term.isdigit() else term


def same(s, t):
    """Whether two terms are equal: constants made only of digits by their value, others by their spelling."""
    return s == t or plain(s) == plain(t)


def match(pattern, terms, bindings):
    """The bindings under which a head becomes a fact, or None: only rule variables are replaced."""
    bindings = dict(bindings)
    for p, t in zip(pattern, terms):
        if not same(bindings.setdefault(p, t) if is_variable(p) else p, t):
            return None
    return bindings


def places(heads, facts, used=(), bindings={}):
    """All lists of places at which the heads fit, with the bindings: smaller lists first, compared from the first head."""
    if len(used) == len(heads):
        yield used, bindings
        return
    kind, pattern = heads[len(used)]
    for i, (k, terms) in enumerate(facts):
        if k == kind and i not in used:
            more = match(pattern, terms, bindings)
            if more is not None:
                yield from places(heads, facts, used + (i,), more)


def equated(a, b, variables):
    """Of two unequal terms that are equated, the one that goes and the one that remains, of a goal with so many variables: a
    constant remains, then the earlier goal variable, then any goal variable over a new one. Two constants: None."""
    if isinstance(a, str) and isinstance(b, str):
        return None
    if isinstance(a, str) or isinstance(b, str):
        return (b, a) if isinstance(a, str) else (a, b)
    if a < variables and b < variables:
        return max(a, b), min(a, b)
    return (a, b) if b < variables else (b, a)


def fire(rule, used, bindings, state):
    """The state after firing a rule at places. The facts of its kept heads stay where they are."""
    facts, became, last = state
    bindings = dict(bindings)
    for t in [t for _, terms in rule.body for t in terms] + [t for e in rule.equations for t in e]:
        if is_variable(t) and t not in bindings:
            bindings[t], last = last, last + 1
    removed = used[len(rule.kept):]
    facts = [f for i, f in enumerate(facts) if i not in removed]
    facts += [(k, [bindings.get(t, t) for t in terms]) for k, terms in rule.body]
    left = [(bindings.get(a, a), bindings.get(b, b)) for a, b in rule.equations]
    while left:
        (a, b), left = left[0], left[1:]
        if same(a, b):
            continue
        pair = equated(a, b, len(became))
        if pair is None:
            return None
        gone, remains = pair

        def put(t):
            return remains if t == gone else t
        facts = [(k, [put(t) for t in terms]) for k, terms in facts]
        became, left = [put(t) for t in became], [(put(p), put(q)) for p, q in left]
    return facts, became, last


def normalise(rules, state, firings):
    """The run from a state: the lowest rule that fits, at the smallest list of places, to the end."""
    while state is not None:
        choice = next(((r, f) for r in rules for f in [next(places(r.heads, state[0]), None)] if f), None)
        if not choice:
            break
        state = fire(choice[0], choice[1][0], choice[1][1], state)
        firings += 1
    return state, firings


def numbered(facts, names=None):
    """Facts over numbers, their variables counted by first appearance, and the variables."""
    names = [] if names is None else names
    result = []
    for k, terms in facts:
        for t in terms:
            if not (isinstance(t, str) and not is_variable(t)) and t not in names:
                names.append(t)
        result.append((k, [names.index(t) if t in names else t for t in terms]))
    return result, names


def end_listing(kinds, names, state, firings):
    """An end as it is printed, with the names of the goal's variables. Only a variable that is none of these gets a U number."""
    if state is None:
        return 'FAILED,%d\n' % firings
    numbers = {}

    def shown(t):
        if isinstance(t, str):
            return plain(t)
        return names[t] if t < len(names) else 'U%d' % numbers.setdefault(t, len(numbers) + 1)
    lines = ['END,%d' % firings] + ['A,%s,%s' % (n, shown(t)) for n, t in zip(names, state[1])]
    return '\n'.join(lines + [','.join(['S', kinds[k][0]] + [shown(t) for t in terms]) for k, terms in state[0]]) + '\n'


def start(facts, count):
    return list(facts), list(range(count)), count


def run(kinds, rules, goal):
    """What `sheetrun` prints."""
    facts, names = numbered(goal)
    return end_listing(kinds, names, *normalise(rules, start(facts, len(names)), 0))


def renamed(s, t, pairs):
    """The renaming (two dicts) that also makes two terms equal, or None."""
    forth, back = pairs
    if isinstance(s, str) or isinstance(t, str):
        return pairs if same(s, t) else None
    if s in forth or t in back:
        return pairs if forth.get(s) == t and back.get(t) == s else None
    return {**forth, s: t}, {**back, t: s}


def renamed_all(ss, ts, pairs):
    for s, t in zip(ss, ts):
        pairs = renamed(s, t, pairs)
        if pairs is None:
            return None
    return pairs


def placed(facts, others, pairs):
    if not facts:
        return True
    (k, terms), rest = facts[0], facts[1:]
    tried = set()
    for i, (m, others_terms) in enumerate(others):
        met = tuple(map(plain, others_terms))
        if m == k and met not in tried:
            tried.add(met)
            more = renamed_all(terms, others_terms, pairs)
            if more is not None and placed(rest, others[:i] + others[i + 1:], more):
                return True
    return False


def shape(facts):
    """What no renaming changes: each fact with, for a variable, how often it stands in all facts."""
    often = collections.Counter(t for _, terms in facts for t in terms)
    return collections.Counter((k, tuple(plain(t) if isinstance(t, str) else often[t] for t in terms)) for k, terms in facts)


def equal(one, two):
    """Whether two states are equal."""
    if one is None or two is None:
        return one is two
    pairs = renamed_all(one[1], two[1], ({}, {}))
    return pairs is not None and shape(one[0]) == shape(two[0]) and placed(one[0], two[0], pairs)


def pairings(m, n):
    """For each of m heads its partner from 1 to n, or 0, one to one: smaller first, compared from the left."""
    def lists(k, used):
        if k == 0:
            yield ()
            return
        for d in range(n + 1):
            if d == 0 or d not in used:
                for rest in lists(k - 1, used | {d}):
                    yield (d,) + rest
    return (p for p in lists(m, frozenset()) if any(p))


def unify(pairs):
    """The most general unifier of pairs of terms, as a function, or None. A variable of the second rule is (letter,)."""
    solution = {}

    def under(t):
        while t in solution:
            t = solution[t]
        return t

    def constant(t):
        return isinstance(t, str) and not is_variable(t)
    for a, b in pairs:
        a, b = under(a), under(b)
        if same(a, b):
            continue
        if constant(a) and constant(b):
            return None
        if constant(a):
            a, b = b, a
        solution[a] = b
    return under


def overlaps(rules):
    """Every overlap: (i, j, partners, goal facts over numbers, how many variables)."""
    for i, one in enumerate(rules):
        for j in range(i, len(rules)):
            first = one.heads
            second = [(k, [(t,) if is_variable(t) else t for t in terms]) for k, terms in rules[j].heads]
            for partners in pairings(len(first), len(second)):
                joined = [(first[h], second[d - 1]) for h, d in enumerate(partners) if d]
                if any(f[0] != g[0] for f, g in joined):
                    continue
                under = unify([pair for f, g in joined for pair in zip(f[1], g[1])])
                if under is None:
                    continue
                heads = first + [g for d, g in enumerate(second) if d + 1 not in partners]
                facts, names = numbered([(k, [under(t) for t in terms]) for k, terms in heads])
                yield i, j, partners, facts, len(names)


def second_places(m, n, partners):
    """Where the second rule's heads stand in the goal."""
    result, free = [], m
    for d in range(1, n + 1):
        if d in partners:
            result.append(partners.index(d))
        else:
            result.append(free)
            free += 1
    return tuple(result)


def side(rules, rule, used, facts, variables):
    """The end of a side of an overlap."""
    state = start(facts, variables)
    bindings = {}
    for (_, pattern), place in zip(rule.heads, used):
        bindings = match(pattern, facts[place][1], bindings)
    return normalise(rules, fire(rule, used, bindings, state), 1)


def check(kinds, rules, names):
    """What `sheetcheck` prints, and the overlap shown, or None. The earliest that does not join is shown: W1's order is that of
    (i, j, partners), numbers and lists compared from the left, whatever the order in which overlaps are found."""
    count = 0
    for i, j, partners, facts, variables in sorted(overlaps(rules), key=lambda overlap: overlap[:3]):
        m, n = len(rules[i].heads), len(rules[j].heads)
        one = side(rules, rules[i], tuple(range(m)), facts, variables)
        two = side(rules, rules[j], second_places(m, n, partners), facts, variables)
        if equal(one[0], two[0]):
            count += 1
            continue
        shown = ['V%d' % (v + 1) for v in range(variables)]
        lines = ['UNJOINED,%s,%s' % (names[i], names[j])]
        lines += ['P,%d,%d' % (h + 1, d) for h, d in enumerate(partners) if d]
        lines += [','.join(['G', kinds[k][0]] + [plain(t) if isinstance(t, str) else shown[t] for t in terms])
                  for k, terms in facts]
        listing = '\n'.join(lines) + '\n' + end_listing(kinds, shown, *one) + end_listing(kinds, shown, *two)
        return listing, (facts, variables, one[0], two[0])
    return 'CONFLUENT,%d\n' % count, None


def key(state, entered):
    """A state with its new variables counted by first appearance, to tell whether it was met before."""
    if state is None:
        return None, entered
    numbers = {}

    def small(t):
        return plain(t) if isinstance(t, str) else numbers.setdefault(t, len(numbers))
    became = tuple(small(t) for t in state[1])
    return (became, tuple((k, tuple(small(t) for t in terms)) for k, terms in state[0])), entered


def outcomes(rules, facts, variables, limit):
    """The unequal ends of all derivations of a goal, facts entering at any moment; None where there are too many states."""
    todo, met, ends = [(([], list(range(variables)), variables), frozenset())], set(), []
    while todo:
        state, entered = todo.pop()
        if state is None:
            if not any(e is None for e in ends):
                ends.append(None)
            continue
        k = key(state, entered)
        if k in met:
            continue
        met.add(k)
        if len(met) > limit:
            return None
        for n, (kind, terms) in enumerate(facts):
            if n not in entered:
                fact = kind, [t if isinstance(t, str) else state[1][t] for t in terms]
                todo.append(((state[0] + [fact],) + state[1:], entered | {n}))
        fits = False
        for rule in rules:
            for used, bindings in places(rule.heads, state[0]):
                fits = True
                todo.append((fire(rule, used, bindings, state), entered))
        if not fits and len(entered) == len(facts) and not any(equal(state, e) for e in ends):
            ends.append(state)
    return ends


def pages(listing):
    """The pages of a listing (document 02, W6): 40 columns and 60 lines each."""
    rows = []
    for line in listing.split('\n')[:-1]:
        rows.append(line[:40])
        rows += ['  ' + line[i:i + 38] for i in range(40, len(line), 38)]
    first, out = listing.split('\n')[0].split(',')[0], ''
    for number, i in enumerate(range(0, len(rows), 58), 1):
        page = [first.ljust(36) + '%4d' % number, ''] + rows[i:i + 58]
        out += ''.join(l.ljust(40) + '\n' for l in page + [''] * (60 - len(page)))
    return out
