"""Families of schemas that take long: parities, pigeons and holes, and clauses drawn at random. Sizes of each are arguments."""

import random

from families import Schema


def parity(count, seed):
    """The parity of the parents of S is odd, and in another order even."""
    s, order = Schema(), list(range(count))
    s.category("S")
    for k in order:
        s.edge("S", f"P{k}")
        s.edge(f"P{k}", "All")
    s.constraint("S", " ^ ".join(f"S_P{k}" for k in order))
    random.Random(seed).shuffle(order)
    s.constraint("S", f"!({' ^ '.join(f'S_P{k}' for k in order)})")
    return s.text()


def pigeons(holes):
    """Categories that each want one of one parent fewer for itself."""
    s, birds = Schema(), range(holes + 1)
    s.category("S")
    for bird in birds:
        s.edge("S", f"P{bird}")
        s.constraint("S", f"S_P{bird}")
    for bird in birds:
        for hole in range(holes):
            s.edge(f"P{bird}", f"H{hole}")
    for hole in range(holes):
        s.edge(f"H{hole}", "All")
    for hole in range(holes):
        pairs = [f"!(S_P{a}_H{hole} & S_P{b}_H{hole})" for a in birds for b in range(a)]
        s.constraint("S", " & ".join(pairs))
    return s.text()


def pigeons_by_names(holes):
    """Categories that each want one of one name fewer for itself."""
    s, birds = Schema(), range(holes + 1)
    s.category("S")
    for bird in birds:
        s.edge("S", f"P{bird}")
        s.edge(f"P{bird}", "All")
        s.constraint("S", f"S_P{bird}")
    for bird in birds:
        s.constraint(f"P{bird}", " | ".join(f'P{bird} = "{hole}"' for hole in range(holes)))
    for hole in range(holes):
        has = [f'S.P{bird} = "{hole}"' for bird in birds]
        alone = [f"!({has[bird]} & ({' | '.join(has[:bird])}))" for bird in birds[1:]]
        s.constraint("S", " & ".join(alone))
    return s.text()


def parities_of_a_graph(nodes, degree, seed):
    """Each node of a random graph says that of its edges an even number is there, but for one node (Tseitin)."""
    chance = random.Random(seed)
    ends = []
    while len(set(ends)) < nodes * degree // 2 or any(a == b for a, b in ends):
        stubs = [node for node in range(nodes) for _ in range(degree)]
        chance.shuffle(stubs)
        ends = [tuple(sorted(pair)) for pair in zip(stubs[::2], stubs[1::2])]
    s = Schema()
    s.category("S")
    for k in range(len(ends)):
        s.edge("S", f"P{k}")
        s.edge(f"P{k}", "All")
    s.edge("S", "Z")
    s.edge("Z", "All")
    for node in range(nodes):
        parity_of_node = " ^ ".join(f"S_P{k}" for k, pair in enumerate(ends) if node in pair)
        s.constraint("S", parity_of_node if node == 0 else f"!({parity_of_node})")
    return s.text()


def clause(chance, atoms):
    """One of the atoms holds, or fails, as is drawn for each; with as few nodes as will do."""
    wanted = [atom for atom in atoms if chance.random() < 0.5]
    unwanted = " & ".join(atom for atom in atoms if atom not in wanted)
    if not wanted:
        return f"!({unwanted})"
    return f"({unwanted} -> {' | '.join(wanted)})" if unwanted else f"({' | '.join(wanted)})"


def random_clauses(edges, clauses, seed):
    """Clauses of three edges each, present or absent, drawn at random: three edges out of each parent of S count."""
    chance, s, width = random.Random(seed), Schema(), 3
    parents = range((edges + width - 1) // width)
    s.category("S")
    for k in parents:
        s.edge("S", f"C{k}")
        for j in range(width):
            s.edge(f"C{k}", f"T{j}")
        s.edge(f"C{k}", "Z")
    for name in (*(f"T{j}" for j in range(width)), "Z"):
        s.edge(name, "All")
    s.constraint("S", " & ".join(f"S_C{k}" for k in parents))
    counted = [f"S_C{k // width}_T{k % width}" for k in range(edges)]
    texts = [clause(chance, chance.sample(counted, 3)) for _ in range(clauses)]
    together = (len(texts) + 59) // 60
    for k in range(0, len(texts), together):
        s.constraint("S", " & ".join(texts[k : k + together]))
    return s.text()
