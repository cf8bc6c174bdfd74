"""Makes dossiers at random: derivations that follow the rules, models that refute their claims, and derivations that were damaged.

It knows the rules and the meaning from the document with the format, not from the judge, and shares no code with translate.py.
"""

import collections

STEPS = [
    "id", "id-sub", "id-link", "bot-l", "top-r", "top-l", "bot-r", "not-l", "not-r", "and-l", "and-r", "or-l", "or-r", "sub-l", "sub-r",
    "some-l", "some-r", "all-l", "all-r",
]
# Which numbers of a step are names, where it isn't the first one alone.
NAME_FIELDS = {
    "proof": [], "id-sub": [], "id-link": [1, 2], "sub-r": [2], "some-l": [0, 2], "some-r": [0, 2], "all-l": [0, 2], "all-r": [0, 2],
}
MOST_CLAIMS = 64
MOST_WAITING = 16


class Table:
    """A concept table that holds each concept once, parts before the whole."""

    def __init__(self, rng, atoms, roles):
        self.rng = rng
        self.atoms = atoms
        self.roles = roles
        self.rows = []
        self.numbers = {}

    def add(self, *row):
        if row not in self.numbers:
            self.numbers[row] = len(self.rows)
            self.rows.append(row)
        return self.numbers[row]

    def concept(self, depth):
        """A random concept, no deeper than this."""
        rng = self.rng
        if depth == 0 or rng.random() < 0.2:
            kind = rng.choices(["atom", "top", "bot"], [12, 1, 1])[0]
            return self.add("atom", rng.randrange(self.atoms)) if kind == "atom" else self.add(kind)
        kind = rng.choice(["not", "and", "or", "some", "all"])
        if kind == "not":
            return self.add("not", self.concept(depth - 1))
        if kind in ("and", "or"):
            return self.add(kind, self.concept(depth - 1), self.concept(depth - 1))
        return self.add(kind, rng.randrange(self.roles), self.concept(depth - 1))

    def moved(self, i, up, subs):
        """A concept that takes in i (up), or is taken in by i (not up), by its form or by one of the inclusions."""
        rng = self.rng
        row = self.rows[i]
        kind = row[0]
        near = [j if up else k for k, j in subs if (k if up else j) == i]
        if near and rng.random() < 0.6:
            return rng.choice(near)
        choice = rng.random()
        if choice < 0.12:
            parts = [i, self.concept(1)]
            rng.shuffle(parts)
            return self.add("or" if up else "and", *parts)
        if kind == ("and" if up else "or") and choice < 0.5:
            return self.moved(rng.choice(row[1:]), up, subs)
        if kind in ("and", "or"):
            parts = [self.moved(p, up, subs) for p in row[1:]]
            rng.shuffle(parts)
            return self.add(kind, *parts)
        if kind == "not":
            return self.add("not", self.moved(row[1], not up, subs))
        if kind in ("some", "all"):
            return self.add(kind, row[1], self.moved(row[2], up, subs))
        if kind == "bot" and up:
            return self.concept(1)
        if kind == "top" and not up:
            return self.concept(1)
        return i


def names_of(goal):
    """The names in the claims of a goal."""
    found = set()
    for side in goal:
        for claim in side:
            if claim[0] == "is":
                found.add(claim[1])
            elif claim[0] == "link":
                found.update(claim[2:])
    return found


def without(claims, claim):
    """The claims with the first copy of one taken out."""
    at = claims.index(claim)
    return claims[:at] + claims[at + 1:]


def closings(table, goal):
    left, right = goal
    for claim in left:
        if claim[0] == "is" and table.rows[claim[2]][0] == "bot":
            yield ("bot-l",) + claim[1:]
        if claim in right:
            if claim[0] == "is" and table.rows[claim[2]][0] == "atom":
                yield ("id",) + claim[1:]
            elif claim[0] != "is":
                yield ("id-" + claim[0],) + claim[1:]
    for claim in right:
        if claim[0] == "is" and table.rows[claim[2]][0] == "top":
            yield ("top-r",) + claim[1:]


def moves(table, goal, rng, bring=None):
    """Steps that open a goal, each with its premises; those that would only repeat a claim are left out. A name that is brought in is
    a new one, or one of those given."""
    left, right = goal
    used = names_of(goal)
    unused = [b for b in range(12) if b not in used] or [b for b in range(64) if b not in used]
    if bring is not None:
        unused = bring
    for claim in left:
        if claim[0] == "sub":
            i, j = claim[1:]
            for a in sorted(used):
                if ("is", a, i) in left and ("is", a, j) not in left:
                    yield ("sub-l", a, i, j), [(left + [("is", a, j)], right)]
                if table.rows[i][0] == "top" and ("is", a, i) not in left:
                    yield ("top-l", a, i), [(left + [("is", a, i)], right)]
        if claim[0] != "is":
            continue
        a, i = claim[1:]
        row = table.rows[i]
        rest = without(left, claim)
        if row[0] == "not":
            yield ("not-l", a, i), [(rest, right + [("is", a, row[1])])]
        elif row[0] == "and":
            yield ("and-l", a, i), [(rest + [("is", a, row[1]), ("is", a, row[2])], right)]
        elif row[0] == "or":
            yield ("or-l", a, i), [(rest + [("is", a, p)], right) for p in row[1:]]
        elif row[0] == "some" and unused:
            b = rng.choice(unused)
            yield ("some-l", a, i, b), [(rest + [("link", row[1], a, b), ("is", b, row[2])], right)]
        elif row[0] == "all":
            for link in left:
                if link[:3] == ("link", row[1], a) and ("is", link[3], row[2]) not in left:
                    yield ("all-l", a, i, link[3]), [(left + [("is", link[3], row[2])], right)]
    for claim in right:
        if claim[0] == "sub" and unused:
            i, j = claim[1:]
            b = rng.choice(unused)
            yield ("sub-r", i, j, b), [(left + [("is", b, i)], without(right, claim) + [("is", b, j)])]
        if claim[0] != "is":
            continue
        a, i = claim[1:]
        row = table.rows[i]
        rest = without(right, claim)
        if row[0] == "not":
            yield ("not-r", a, i), [(left + [("is", a, row[1])], rest)]
        elif row[0] == "or":
            yield ("or-r", a, i), [(left, rest + [("is", a, row[1]), ("is", a, row[2])])]
        elif row[0] == "and":
            yield ("and-r", a, i), [(left, rest + [("is", a, p)]) for p in row[1:]]
        elif row[0] == "all" and unused:
            b = rng.choice(unused)
            yield ("all-r", a, i, b), [(left + [("link", row[1], a, b)], rest + [("is", b, row[2])])]
        elif row[0] == "some":
            for link in left:
                if link[:3] == ("link", row[1], a) and ("is", link[3], row[2]) not in right:
                    yield ("some-r", a, i, link[3]), [(left, right + [("is", link[3], row[2])])]


MISTAKES = ["name", "premise", "link", "inclusion", "identity"]


def mistaken(table, goal, rng, mistake):
    """Steps that a judge with one mistake would let pass, each with the premises that it would then go on with."""
    left, right = goal
    used = sorted(names_of(goal))
    if mistake == "name":
        # The name that is brought in stands in the goal already: the mistake of the spring.
        for step, premises in moves(table, goal, rng, used):
            if step[0] in ("some-l", "all-r", "sub-r"):
                yield step, premises
    elif mistake == "premise":
        # One of two premises is forgotten.
        for step, premises in moves(table, goal, rng):
            if len(premises) == 2:
                yield step, premises[:1]
    elif mistake == "link":
        # A step along an edge that isn't there.
        for side, kind, word in ((left, "all", "all-l"), (right, "some", "some-r")):
            for claim in side:
                if claim[0] == "is" and table.rows[claim[2]][0] == kind:
                    b = rng.choice(used)
                    more = [("is", b, table.rows[claim[2]][2])]
                    yield (word, claim[1], claim[2], b), [(left + more, right) if side is left else (left, right + more)]
    elif mistake == "inclusion":
        # An inclusion is used for a name that is not known to be in its first concept.
        for claim in left:
            if claim[0] == "sub" and used:
                a = rng.choice(used)
                yield ("sub-l", a) + claim[1:], [(left + [("is", a, claim[2])], right)]
    else:
        # A goal is closed with a claim that stands on one side only.
        for claim in left + right:
            if claim[0] == "is" and table.rows[claim[2]][0] == "atom":
                yield ("id",) + claim[1:], []


def derivation(table, goal, rng, most=80, mistake=None):
    """The steps of a derivation, or None where the search finds none within so many steps; with a mistake, one of a judge that makes it."""
    waiting = [goal]
    steps = []
    eager = rng.choice([1, 0.95, 0.5])  # how readily a goal is closed that can be
    mistakes = 0
    while waiting:
        if len(steps) == most:
            return None
        goal = waiting.pop()
        # A step that adds what was known already is allowed too, so now and then there is one.
        idle = [("top-l" if row[0] == "top" else "bot-r", i) for i, row in enumerate(table.rows) if row[0] in ("top", "bot")]
        if idle and rng.random() < 0.06:
            word, i = rng.choice(idle)
            a = rng.randrange(4)
            left, right = goal
            add = [("is", a, i)]
            steps.append((word, a, i))
            waiting.append((left + add, right) if word == "top-l" else (left, right + add))
            continue
        if mistake and rng.random() < 0.5:
            choices = list(mistaken(table, goal, rng, mistake))
            if choices:
                step, premises = rng.choice(choices)
                steps.append(step)
                waiting.extend(premises)
                mistakes += 1
                continue
        closing = list(closings(table, goal))
        choices = list(moves(table, goal, rng))
        if closing and (rng.random() < eager or not choices):
            steps.append(rng.choice(closing))
            continue
        if not choices:
            return None
        # Two premises double the work, so they come last.
        single = [choice for choice in choices if len(choice[1]) == 1]
        step, premises = rng.choice(single or choices)
        steps.append(step)
        waiting.extend(reversed(premises))
        if len(waiting) > MOST_WAITING + 1 or any(len(left) + len(right) > MOST_CLAIMS for left, right in premises):
            return None
    return steps if mistakes or not mistake else None


def sequent(rng, copied=None, likely=True):
    """A table and claims. If it is to be likely that they hold, a right claim is made from left ones, or is a copy of a left one of
    the kind given."""
    table = Table(rng, rng.randint(2, 4), rng.randint(1, 2))
    names = rng.randint(1, 3)
    left, right = [], []
    subs = []
    for _ in range(rng.randint(0, 3)):
        i = table.concept(rng.choice([0, 0, 1]))
        j = table.concept(2)
        subs.append((i, j))
        left.append(("sub", i, j))
    for _ in range(rng.randint(0, 3)):
        left.append(("link", rng.randrange(table.roles), rng.randrange(names), rng.randrange(names)))
    for _ in range(rng.randint(1, 3)):
        left.append(("is", rng.randrange(names), table.concept(rng.choice([1, 2, 3]))))
    kind = rng.random()
    if copied:
        right += [claim for claim in left if claim[0] == copied][:1]
    elif not likely:
        right.append(random_claim(table, names, rng))
    elif kind < 0.55:
        _, a, i = rng.choice([claim for claim in left if claim[0] == "is"])
        right.append(("is", a, table.moved(i, True, subs)))
    elif kind < 0.75:
        i = table.concept(2)
        right.append(("sub", i, table.moved(i, True, subs)))
    elif kind < 0.80:
        right.append(rng.choice(left))
    for _ in range(rng.choice([0, 0, 1, 2])):
        right.append(random_claim(table, names, rng))
    rng.shuffle(left)
    rng.shuffle(right)
    return table, left, right


def random_claim(table, names, rng):
    kind = rng.choice(["is", "is", "sub", "link"])
    if kind == "is":
        return ("is", rng.randrange(names), table.concept(2))
    if kind == "sub":
        return ("sub", table.concept(1), table.concept(2))
    return ("link", rng.randrange(table.roles), rng.randrange(names), rng.randrange(names))


class World:
    """A finite interpretation."""

    def __init__(self, size, atoms, roles, places):
        self.size = size
        self.atoms = atoms
        self.roles = roles
        self.places = places
        self.ends = collections.defaultdict(set)
        for r, d, e in roles:
            self.ends[r, d].add(e)

    def extension(self, table, i):
        row = table.rows[i]
        every = set(range(self.size))
        if row[0] == "top":
            return every
        if row[0] == "bot":
            return set()
        if row[0] == "atom":
            return {d for atom, d in self.atoms if atom == row[1]}
        if row[0] == "not":
            return every - self.extension(table, row[1])
        if row[0] == "and":
            return self.extension(table, row[1]) & self.extension(table, row[2])
        if row[0] == "or":
            return self.extension(table, row[1]) | self.extension(table, row[2])
        part = self.extension(table, row[2])
        if row[0] == "some":
            return {d for d in every if self.ends[row[1], d] & part}
        return {d for d in every if self.ends[row[1], d] <= part}

    def true(self, table, claim):
        if claim[0] == "is":
            return self.places[claim[1]] in self.extension(table, claim[2])
        if claim[0] == "sub":
            return self.extension(table, claim[1]) <= self.extension(table, claim[2])
        return (claim[1], self.places[claim[2]], self.places[claim[3]]) in self.roles


def random_world(table, names, rng, most=32):
    size = rng.choices([1, 2, 3, 4, rng.randint(5, max(5, most))], [2, 4, 4, 3, 3])[0]
    share = rng.choice([0.1, 0.3, 0.5])
    atoms = {(atom, d) for atom in range(table.atoms) for d in range(size) if rng.random() < 0.5}
    roles = {(r, d, e) for r in range(table.roles) for d in range(size) for e in range(size) if rng.random() < share}
    return World(size, atoms, roles, {a: rng.randrange(size) for a in names})


def refuted(rng):
    """A table, claims and a world in which the left claims are true and the right ones false."""
    if rng.random() < 0.5:
        # Claims of the kind that derivations are made for, and a world by trial.
        table, left, right = sequent(rng)
        for _ in range(60):
            world = random_world(table, names_of((left, right)), rng, 5)
            if all(world.true(table, c) for c in left) and not any(world.true(table, c) for c in right):
                return table, left, right, world
        return None
    table = Table(rng, rng.randint(1, 4), rng.randint(1, 2))
    names = rng.randint(1, 4)
    claims = [random_claim(table, names, rng) for _ in range(rng.randint(1, 8))]
    world = random_world(table, range(names), rng)
    left = [c for c in claims if world.true(table, c)]
    right = [c for c in claims if not world.true(table, c)]
    return table, left, right, world


def text(rows):
    return "".join("\t".join(str(field) for field in row) + "\n" for row in rows)


def heading(table, left, right, rng):
    """The rows of the table and the claims; the order on each side is kept, as the steps need it."""
    claims = [("left",) + c for c in left] + [("right",) + c for c in right]
    if rng.random() < 0.5:
        sides = [True] * len(left) + [False] * len(right)
        rng.shuffle(sides)
        lefts, rights = iter(left), iter(right)
        claims = [("left",) + next(lefts) if side else ("right",) + next(rights) for side in sides]
    return list(table.rows) + claims


def make_derivation(rng, word, least=3):
    """The rows of a dossier with a derivation of at least so many steps, one of them with this word."""
    while True:
        table, left, right = sequent(rng, word[3:] if word in ("id-sub", "id-link") else None)
        steps = derivation(table, (left, right), rng)
        if steps is not None and len(steps) >= least and any(step[0] == word for step in steps):
            return heading(table, left, right, rng) + [("proof",)] + steps


def make_mistaken(rng, mistake):
    """The rows of a dossier with a derivation in which this mistake was allowed, so that its claims need not hold."""
    while True:
        table, left, right = sequent(rng, likely=False)
        steps = derivation(table, (left, right), rng, most=20, mistake=mistake)
        if steps:
            return heading(table, left, right, rng) + [("proof",)] + steps


def model(world, rng):
    """The rows that tell a world."""
    facts = [("name", a, d) for a, d in world.places.items()]
    facts += [("has",) + fact for fact in sorted(world.atoms)] + [("edge",) + fact for fact in sorted(world.roles)]
    rng.shuffle(facts)
    return [("model",), ("size", world.size)] + facts


def make_model(rng):
    """The rows of a dossier with a model that refutes its claims."""
    while True:
        made = refuted(rng)
        if made is not None:
            table, left, right, world = made
            return heading(table, left, right, rng) + model(world, rng)


def other_world(rows, rng):
    """The table and the claims of a derivation with a random world in place of its steps; no world refutes what is derived."""
    head = rows[: rows.index(("proof",))]
    table = Table(rng, 4, 2)
    table.rows = [row for row in head if row[0] not in ("left", "right")]
    claims = [row[1:] for row in head if row[0] in ("left", "right")]
    return head + model(random_world(table, names_of((claims, [])), rng, 5), rng)


def damaged(rows, rng):
    """The rows of a derivation with one or two small changes: a number, a side, a line taken out or doubled, two lines exchanged; or
    with another name for a new one, the mistake of the spring."""
    rows = list(rows)
    bringing = [at for at, row in enumerate(rows) if row[0] in ("some-l", "all-r", "sub-r")]
    if bringing and rng.random() < 0.3:
        at = rng.choice(bringing)
        old, new = rows[at][-1], rng.randrange(4)
        rows[at] = rows[at][:-1] + (new,)
        # The steps behind go along, or the derivation would fall for another reason.
        for k in range(at + 1, len(rows)):
            word, *numbers = rows[k]
            names = NAME_FIELDS.get(word, [0])
            rows[k] = (word, *(new if n in names and number == old else number for n, number in enumerate(numbers)))
        return rows
    for _ in range(rng.choice([1, 1, 2])):
        at = rng.randrange(len(rows))
        row = rows[at]
        kind = rng.random()
        numbers = [k for k, field in enumerate(row) if isinstance(field, int)]
        if kind < 0.6 and numbers:
            k = rng.choice(numbers)
            row = row[:k] + (max(0, row[k] + rng.choice([-2, -1, 1, 2])),) + row[k + 1:]
            rows[at] = row
        elif kind < 0.7 and row[0] in ("left", "right"):
            rows[at] = ("right" if row[0] == "left" else "left",) + row[1:]
        elif kind < 0.8:
            del rows[at]
        elif kind < 0.9:
            rows.insert(at, row)
        elif at + 1 < len(rows):
            rows[at], rows[at + 1] = rows[at + 1], rows[at]
        if not rows:
            break
    return rows
