"""Small schemas and questions drawn at random, with every kind of formula, names that are texts and in half of the schemas also
numbers, and now and then edges that lead in a circle."""

import random

from families import Schema

MOST_SOURCES = 3


def schema(chance: random.Random) -> Schema:
    drawn = Schema()
    share = chance.choice((0, 0.4))  # of categories of numbers
    names = [drawn.category(f"C{number}", chance.random() < share) for number in range(chance.randrange(3, 8))]
    for place, child in enumerate(names):
        above = [*names[place + 1 :], "All"]
        for parent in chance.sample(above, min(len(above), chance.randrange(1, 4))):
            drawn.edge(child, parent)
        if place > 1 and chance.random() < 0.15:
            drawn.edge(child, names[chance.randrange(1, place)])
    for _ in range(chance.randrange(7)):
        root = chance.choice(names)
        drawn.constraint(root, formula(chance, drawn, root, 3))
    return drawn


def formula(chance: random.Random, drawn: Schema, root: str, depth: int) -> str:
    if depth == 0 or chance.random() < 0.3:
        return atom(chance, drawn, root)
    parts = [formula(chance, drawn, root, depth - 1) for _ in range(chance.randrange(2, 4))]
    mark = chance.choice(["!", "one", "one", "&", "|", "->", "<->", "^"])
    if mark == "!":
        return f"!({parts[0]})"
    return f"one({', '.join(parts)})" if mark == "one" else f"({f' {mark} '.join(parts)})"


def atom(chance: random.Random, drawn: Schema, root: str) -> str:
    parent = chance.choice([parent for child, parent in drawn.edges if child == root])
    further = [grandparent for child, grandparent in drawn.edges if child == parent and grandparent != root]
    above, other = (chance.choice([*drawn.categories, "All"]) for _ in range(2))
    forms = [f"{root}_{parent}", f"{root}.{above}", f"{root}.{above}.{other}", f"{root} {compared(chance, drawn, root)}"]
    forms += [f"{root}.{above} {compared(chance, drawn, above)}" for _ in range(4)] + ["true", "false"]
    forms += [f"{root}_{parent}_{grandparent}" for grandparent in further]
    return chance.choice(forms)


def compared(chance: random.Random, drawn: Schema, category: str) -> str:
    """A comparison with a name of the category."""
    if category in drawn.numbered:
        return f"{chance.choice(('=', '<', '<='))} {chance.choice((-1, 0, 1, 3, 10**18, '-007'))}"
    return f'= "{chance.choice(("a", "b", "nk", "all", "é"))}"'


def questions(chance: random.Random, categories: list[str], count: int) -> list[list[str]]:
    """Targets with their sources."""
    lists = [chance.sample(categories, chance.randrange(MOST_SOURCES + 1)) for _ in range(count)]
    return [[chance.choice([*categories, "All"]), *sources] for sources in lists]
