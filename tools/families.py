"""Families of schemas that are hard for plain enumeration."""

import random


class Schema:
    """Lines of a schema text; of the second version if some categories are of numbers."""

    def __init__(self):
        self.categories, self.edges, self.constraints, self.numbered = [], [], [], set()

    def category(self, name, is_number=False):
        if name not in self.categories:
            self.categories.append(name)
        if is_number:
            self.numbered.add(name)
        return name

    def edge(self, child, parent):
        self.category(child)
        if parent != "All":
            self.category(parent)
        self.edges.append((child, parent))

    def constraint(self, root, formula):
        self.constraints.append(f"constraint {root}: {formula}\n")

    def text(self):
        lines = [f"schema {2 if self.numbered else 1}\n"]
        lines += [f"category {c}{' number' if c in self.numbered else ''}\n" for c in self.categories]
        lines += [f"edge {c} {p}\n" for c, p in self.edges] + self.constraints
        return "".join(lines)


def layers_of_ways(layers):
    """Layers of two ways each."""
    s = Schema()
    for i in range(layers + 1):
        s.category(f"L{i}")
    for i in range(1, layers + 1):
        for side in "AB":
            s.edge(f"L{i - 1}", f"{side}{i}")
        for side in "AB":
            s.edge(f"{side}{i}", f"L{i}")
    s.edge(f"L{layers}", "All")
    return s


def free_ways(layers):
    """Layers of two ways each, which may both be taken."""
    return layers_of_ways(layers).text()


def diamond(layers, as_implication=False, is_exclusive=False):
    """Layers of two ways each, of which one may be taken if it is exclusive; the last but one must take a way that leads nowhere."""
    s = layers_of_ways(layers)
    for i in range(1, layers + 1) if is_exclusive else ():
        s.constraint(f"L{i - 1}", f"L{i - 1}_A{i} ^ L{i - 1}_B{i}")
    s.constraint(f"L{layers - 1}", f"L{layers - 1}_A{layers}")
    last = f"A{layers}_L{layers}"
    s.constraint(f"A{layers}", f"{last} -> false" if as_implication else f"!{last}")
    return s.text()


def free_parents(count):
    """Many free parents, declared before the one parent that must be there and can't."""
    s = Schema()
    s.category("S")
    for i in range(count):
        s.edge("S", f"F{i}")
        s.edge(f"F{i}", "All")
    s.edge("S", "T")
    s.edge("T", "All")
    s.constraint("S", "S_T")
    s.constraint("T", "false")
    return s.text()


def parents(count):
    """A category with so many parents, so that each set of them but the empty one is a way up."""
    s = Schema()
    s.category("S")
    for i in range(1, count + 1):
        s.edge("S", f"P{i}")
        s.edge(f"P{i}", "All")
    return s.text()


def halves(bottoms, sides=2):
    """Bottom categories, each below one of the sides, and these below the top."""
    s = Schema()
    names = [f"M{i}" for i in range(sides)]
    for i in range(bottoms):
        for side in names:
            s.edge(f"B{i}", side)
        s.constraint(f"B{i}", f"one({', '.join(f'B{i}_{side}' for side in names)})")
    for side in names:
        s.edge(side, "T")
    s.edge("T", "All")
    return s.text()


def patterns(count):
    """A category with any of so many parents below the top, or none of them: each set of them is met by a way up."""
    s = Schema()
    for i in range(count):
        s.edge("S", f"M{i}")
    s.edge("S", "T")
    for i in range(count):
        s.edge(f"M{i}", "T")
    s.edge("T", "All")
    return s.text()


def names_along_a_chain(length):
    """A name that runs along a chain, and is forbidden at its end."""
    s = Schema()
    for i in range(1, length):
        s.edge(f"C{i}", f"C{i + 1}")
    s.edge(f"C{length}", "All")
    for name in "ab":
        for i in range(1, length):
            s.constraint(f"C{i}", f'C{i} = "{name}" -> C{i}.C{i + 1} = "{name}"')
    s.constraint("C1", 'C1 = "a"')
    s.constraint(f"C{length}", f'!C{length} = "a"')
    return s.text()


def numbers_along_a_chain(length):
    """A bound that runs along a chain of numbers, and is broken at its end."""
    s = Schema()
    for i in range(1, length + 1):
        s.category(f"C{i}", is_number=True)
    for i in range(1, length):
        s.edge(f"C{i}", f"C{i + 1}")
    s.edge(f"C{length}", "All")
    for bound in "59":
        for i in range(1, length):
            s.constraint(f"C{i}", f"C{i} <= {bound} -> C{i}.C{i + 1} <= {bound}")
    s.constraint("C1", "C1 < 6")
    s.constraint(f"C{length}", f"!C{length} <= 5")
    return s.text()


def star(count):
    """So many bottom categories right below the top."""
    s = Schema()
    for i in range(1, count + 1):
        s.edge(f"B{i}", "All")
    return s.text()


def fan(count):
    """So many bottom categories below one, which lies below the top."""
    s = Schema()
    for i in range(1, count + 1):
        s.edge(f"B{i}", "H")
    s.edge("H", "All")
    return s.text()


def ring(bottoms, count):
    """Bottom categories below the first of a ring, which one edge leaves."""
    s = Schema()
    for i in range(1, bottoms + 1):
        s.edge(f"B{i}", "R1")
    for i in range(1, count):
        s.edge(f"R{i}", f"R{i + 1}")
    s.edge(f"R{count}", "R1")
    s.edge(f"R{count}", "All")
    return s.text()


def layered(edges, constraints, seed):
    """A random schema in layers, with constraints as designers write them."""
    chance = random.Random(seed)
    s = Schema()
    layers, width = (8, 7) if edges > 100 else (6, 5)
    names = [[s.category(f"L{i}x{j}") for j in range(width)] for i in range(layers)]
    for i in range(layers - 1):
        for name in names[i]:
            s.edge(name, chance.choice(names[i + 1]))
    for name in names[-1]:
        s.edge(name, "All")
    while len(s.edges) < edges:
        i = chance.randrange(layers - 1)
        child, parent = chance.choice(names[i]), chance.choice(names[chance.randrange(i + 1, min(layers, i + 3))])
        if (child, parent) not in s.edges:
            s.edge(child, parent)
    for _ in range(min(64, edges * constraints // 100)):
        s.constraint(*random_constraint(s, names, chance))
    return s.text()


def random_constraint(s, names, chance):
    i = chance.randrange(len(names) - 1)
    root = chance.choice(names[i])
    above = [name for layer in names[i + 1 :] for name in layer]
    parents = [p for c, p in s.edges if c == root]
    d, e = chance.choice(above), chance.choice(above)
    forms = [
        f"one({', '.join(f'{root}_{p}' for p in parents)})",
        f"{root}.{d} -> {root}.{e}",
        f"!({root}.{d} & {root}.{e})",
        f"{root}_{chance.choice(parents)} ^ {root}.{d}",
        f'{root} = "a" -> {root}_{chance.choice(parents)}',
    ]
    return root, chance.choice(forms)
