"""A second judge, written from the document with the format alone: plain lists and sets, one refusal after the other.

It shares nothing with the judge that is proved, and is for comparing the two.
"""

import re

# The kinds of a line's numbers: c a concept, A an atom, r a role, n a name, s the size, e an element.
CONCEPTS = {"top": "", "bot": "", "atom": "A", "not": "c", "and": "cc", "or": "cc", "some": "rc", "all": "rc"}
CLAIMS = {"is": "nc", "sub": "cc", "link": "rnn"}
STEPS = {
    "id": "nc", "id-sub": "cc", "id-link": "rnn", "bot-l": "nc", "top-r": "nc", "top-l": "nc", "bot-r": "nc", "not-l": "nc", "not-r": "nc",
    "and-l": "nc", "and-r": "nc", "or-l": "nc", "or-r": "nc", "sub-l": "ncc", "sub-r": "ccn", "some-l": "ncn", "some-r": "ncn", "all-l": "ncn",
    "all-r": "ncn",
}
FACTS = {"size": "s", "name": "ne", "has": "Ae", "edge": "ree"}
NUMBER = re.compile(rb"(0|[1-9][0-9]*)\Z")


class Refused(Exception):
    """A refusal's number."""


def fields_of(raw, place, sized):
    """A line as its side, word, kinds of numbers and numbers."""
    if not raw or any(byte != 9 and not 33 <= byte <= 126 for byte in raw):
        raise Refused(2)
    fields = raw.split(b"\t")
    if b"" in fields:
        raise Refused(2)
    side = None
    word = fields.pop(0).decode()
    if place in ("table", "claims"):
        words = {"proof": "", "model": "", **(CONCEPTS if place == "table" else {})}
        if word in ("left", "right"):
            if not fields:
                raise Refused(2)
            side, word, words = word, fields.pop(0).decode(), CLAIMS
    elif place == "proof":
        words = STEPS
    else:
        words = {word: kinds for word, kinds in FACTS.items() if (word == "size") != sized}
    if word not in words or len(fields) != len(words[word]):
        raise Refused(2)
    if not all(NUMBER.match(field) and int(field) <= 65535 for field in fields):
        raise Refused(2)
    return side, word, words[word], tuple(int(field) for field in fields)


def in_range(kinds, numbers, table, size):
    for kind, number in zip(kinds, numbers):
        if kind == "s":
            if not 1 <= number <= 32:
                return False
        elif number >= {"A": 64, "r": 16, "n": 64, "c": len(table), "e": size}[kind]:
            return False
    return True


def stepped(table, goals, word, numbers):
    """The open goals after a step, the current one last."""
    left, right = goals[-1]
    kind = word[:-2] if word[-2:] in ("-l", "-r") and word[:3] != "sub" else {"id": "atom"}.get(word)
    if kind and table[numbers[1]][0] != kind:
        raise Refused(6)
    needs, drop, new, premises = [], None, None, []  # needs and drop: a side (0 or 1) and a claim; premises: what is added left and right
    if word in ("id", "id-sub", "id-link"):
        claim = (word[3:] or "is",) + numbers
        needs = [(0, claim), (1, claim)]
    elif word in ("bot-l", "top-r"):
        needs = [(0 if word == "bot-l" else 1, ("is",) + numbers)]
    elif word == "top-l":
        premises = [([("is",) + numbers], [])]
    elif word == "bot-r":
        premises = [([], [("is",) + numbers])]
    elif word == "sub-l":
        a, i, j = numbers
        needs = [(0, ("sub", i, j)), (0, ("is", a, i))]
        premises = [([("is", a, j)], [])]
    elif word == "sub-r":
        i, j, new = numbers
        drop = (1, ("sub", i, j))
        premises = [([("is", new, i)], [("is", new, j)])]
    else:
        a, i = numbers[:2]
        drop = (0 if word.endswith("-l") else 1, ("is", a, i))
        parts = [("is", a, part) for part in table[i][1:]]
        if word == "not-l":
            premises = [([], parts)]
        elif word in ("not-r", "and-l"):
            premises = [(parts, [])]
        elif word == "or-r":
            premises = [([], parts)]
        elif word == "or-l":
            premises = [([part], []) for part in parts]
        elif word == "and-r":
            premises = [([], [part]) for part in parts]
        else:
            b = numbers[2]
            link = ("link", table[i][1], a, b)
            part = ("is", b, table[i][2])
            if word in ("some-r", "all-l"):
                needs, drop = [drop, (0, link)], None
                premises = [([], [part])] if word == "some-r" else [([part], [])]
            else:
                new = b
                premises = [([link, part], [])] if word == "some-l" else [([link], [part])]
    if drop:
        needs = [drop]
    if any(claim not in goals[-1][side] for side, claim in needs):
        raise Refused(7)
    if new is not None:
        for claim in left + right:
            if claim[0] == "is" and claim[1] == new or claim[0] == "link" and new in claim[2:]:
                raise Refused(8)
    sides = [list(left), list(right)]
    if drop:
        sides[drop[0]].remove(drop[1])
    opened = [(sides[0] + more_left, sides[1] + more_right) for more_left, more_right in premises]
    if any(len(goal[0]) + len(goal[1]) > 64 for goal in opened):
        raise Refused(10)
    if len(opened) == 2 and len(goals) - 1 + 1 > 16:
        raise Refused(11)
    return goals[:-1] + opened[::-1]


def first_wrong(table, claims, size, places, facts):
    """The line of the first claim that a model gets wrong, if there is one."""
    extensions = []
    elements = set(range(size))
    for word, *numbers in table:
        if word in ("top", "bot"):
            found = elements if word == "top" else set()
        elif word == "atom":
            found = {d for d in elements if ("has", numbers[0], d) in facts}
        elif word == "not":
            found = elements - extensions[numbers[0]]
        elif word in ("and", "or"):
            one, other = (extensions[i] for i in numbers)
            found = one & other if word == "and" else one | other
        else:
            test = any if word == "some" else all
            found = {d for d in elements if test(e in extensions[numbers[1]] for e in elements if ("edge", numbers[0], d, e) in facts)}
        extensions.append(found)
    for side, word, numbers, line in claims:
        if word == "is":
            true = places[numbers[0]] in extensions[numbers[1]]
        elif word == "sub":
            true = extensions[numbers[0]] <= extensions[numbers[1]]
        else:
            true = ("edge", numbers[0], places[numbers[1]], places[numbers[2]]) in facts
        if true != (side == "left"):
            return line
    return None


def judge(text):
    """The verdict on a text of bytes: a word, a number and a line."""
    if len(text) > 65535:
        return "refused", 1, 0
    lines = text.split(b"\n")
    unended = lines.pop()
    if unended:
        lines.append(unended)
    table, claims, places, facts = [], [], {}, set()
    place, size, goals, steps = "table", 0, [], 0
    for at, raw in enumerate(lines, 1):
        try:
            if unended and at == len(lines):
                raise Refused(2)
            side, word, kinds, numbers = fields_of(raw, place, size > 0)
            row = (word,) + numbers
            if word in ("proof", "model") and not side:
                place = word
                goals = [([(w,) + n for s, w, n, _ in claims if s == "left"], [(w,) + n for s, w, n, _ in claims if s == "right"])]
                continue
            steps += place == "proof"
            if place == "table" and not side and len(table) == 256 or side and len(claims) == 64 or steps > 1024:
                raise Refused(5)
            if place == "proof" and not goals:
                raise Refused(9)
            if not in_range(kinds, numbers, table, size):
                raise Refused(3)
            if side:
                place = "claims"
                claims.append((side, word, numbers, at))
            elif place == "table":
                if row in table:
                    raise Refused(4)
                table.append(row)
            elif place == "proof":
                goals = stepped(table, goals, word, numbers)
            elif word == "size":
                size = numbers[0]
            else:
                if row in facts or word == "name" and numbers[0] in places:
                    raise Refused(4)
                facts.add(row)
                if word == "name":
                    places[numbers[0]] = numbers[1]
        except Refused as refusal:
            return "refused", refusal.args[0], at
    named = {n[0] for _, w, n, _ in claims if w == "is"} | {a for _, w, n, _ in claims if w == "link" for a in n[1:]}
    if place == "proof" and not goals:
        return "proved", 0, len(lines)
    if place != "model" or not size or not named <= set(places):
        return "refused", 12, len(lines) + 1
    wrong = first_wrong(table, claims, size, places, facts)
    return ("refused", 13, wrong) if wrong else ("refuted", 0, len(lines))
