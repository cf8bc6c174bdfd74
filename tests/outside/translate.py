"""Turns the table and the claims of a dossier into the question whether its sequent can fail: all left claims true, all right ones false.

The sequent holds everywhere exactly if the answer is no. Two forms: an OWL 2 ontology in functional syntax, to be asked for its
consistency, and an SMT-LIB script, to be asked for its satisfiability. What stands behind `proof` or `model` is not looked at.
"""


def read(text):
    """The table's rows and the claims, as lists of fields with their numbers."""
    table, claims = [], []
    for line in text.splitlines():
        fields = [int(field) if field.isdigit() else field for field in line.split("\t")]
        if fields[0] in ("proof", "model"):
            return table, claims
        (claims if fields[0] in ("left", "right") else table).append(fields)
    raise ValueError("a dossier without proof or model")


def owl_class(table, i):
    row = table[i]
    if row[0] == "top":
        return "owl:Thing"
    if row[0] == "bot":
        return "owl:Nothing"
    if row[0] == "atom":
        return f":A{row[1]}"
    if row[0] == "not":
        return f"ObjectComplementOf({owl_class(table, row[1])})"
    if row[0] in ("and", "or"):
        # OWL wants two different parts; a concept with itself is that concept.
        if row[1] == row[2]:
            return owl_class(table, row[1])
        word = "ObjectIntersectionOf" if row[0] == "and" else "ObjectUnionOf"
        return f"{word}({owl_class(table, row[1])} {owl_class(table, row[2])})"
    word = "ObjectSomeValuesFrom" if row[0] == "some" else "ObjectAllValuesFrom"
    return f"{word}(:r{row[1]} {owl_class(table, row[2])})"


def owl(text):
    """An ontology that is consistent exactly if the sequent can fail. OWL has no unique names, as wanted here."""
    table, claims = read(text)
    axioms = []
    people = set()
    for at, (side, kind, *numbers) in enumerate(claims):
        if kind == "is":
            a, i = numbers
            people.add(f":n{a}")
            concept = owl_class(table, i)
            if side == "right":
                concept = f"ObjectComplementOf({concept})"
            axioms.append(f"ClassAssertion({concept} :n{a})")
        elif kind == "sub":
            i, j = (owl_class(table, k) for k in numbers)
            if side == "left":
                axioms.append(f"SubClassOf({i} {j})")
            else:
                # Some individual of its own is in i and not in j.
                people.add(f":w{at}")
                axioms.append(f"ClassAssertion({i} :w{at})")
                axioms.append(f"ClassAssertion(ObjectComplementOf({j}) :w{at})")
        else:
            r, a, b = numbers
            people.update((f":n{a}", f":n{b}"))
            word = "ObjectPropertyAssertion" if side == "left" else "NegativeObjectPropertyAssertion"
            axioms.append(f"{word}(:r{r} :n{a} :n{b})")
    atoms = {f":A{row[1]}" for row in table if row[0] == "atom"}
    roles = {f":r{row[1]}" for row in table if row[0] in ("some", "all")} | {f":r{c[2]}" for c in claims if c[1] == "link"}
    declared = [f"Declaration(Class({a}))" for a in sorted(atoms)]
    declared += [f"Declaration(ObjectProperty({r}))" for r in sorted(roles)]
    declared += [f"Declaration(NamedIndividual({n}))" for n in sorted(people)]
    return "\n".join(
        ["Prefix(:=<http://dossier.example/>)", "Prefix(owl:=<http://www.w3.org/2002/07/owl#>)", "Ontology(<http://dossier.example/>"]
        + declared + axioms + [")", ""]
    )


def holds(table, i, x, depth=0):
    """The formula that the element x is in concept i."""
    row = table[i]
    if row[0] == "top":
        return "true"
    if row[0] == "bot":
        return "false"
    if row[0] == "atom":
        return f"(A{row[1]} {x})"
    if row[0] == "not":
        return f"(not {holds(table, row[1], x, depth)})"
    if row[0] in ("and", "or"):
        return f"({row[0]} {holds(table, row[1], x, depth)} {holds(table, row[2], x, depth)})"
    y = f"y{depth}"
    part = holds(table, row[2], y, depth + 1)
    if row[0] == "some":
        return f"(exists (({y} D)) (and (r{row[1]} {x} {y}) {part}))"
    return f"(forall (({y} D)) (=> (r{row[1]} {x} {y}) {part}))"


def smt(text):
    """A script that is satisfiable exactly if the sequent can fail. A sort of SMT-LIB is never empty, as wanted here."""
    table, claims = read(text)
    atoms = {row[1] for row in table if row[0] == "atom"}
    roles = {row[1] for row in table if row[0] in ("some", "all")} | {c[2] for c in claims if c[1] == "link"}
    names = {c[2] for c in claims if c[1] == "is"} | {n for c in claims if c[1] == "link" for n in c[3:]}
    lines = ["(set-logic UF)", "(declare-sort D 0)"]
    lines += [f"(declare-fun A{a} (D) Bool)" for a in sorted(atoms)]
    lines += [f"(declare-fun r{r} (D D) Bool)" for r in sorted(roles)]
    lines += [f"(declare-fun n{n} () D)" for n in sorted(names)]
    for side, kind, *numbers in claims:
        if kind == "is":
            formula = holds(table, numbers[1], f"n{numbers[0]}")
        elif kind == "sub":
            formula = f"(forall ((x D)) (=> {holds(table, numbers[0], 'x')} {holds(table, numbers[1], 'x')}))"
        else:
            formula = f"(r{numbers[0]} n{numbers[1]} n{numbers[2]})"
        lines.append(f"(assert {formula})" if side == "left" else f"(assert (not {formula}))")
    return "\n".join(lines + ["(check-sat)", ""])
