"""Questions about schemas for solvers that know nothing of them: a module, not run by itself.

`Question` reads a schema's text and formulas, and hands each part to a writer, which answers with what stands for the
part in the solver's language: `AnswerSets` for clingo, `Clauses` for minisat and cadical.
"""

import re

FRESH = "?"  # stands for a name that no formula has
LOOSEST_FIRST = ["<->", "->", "^", "|", "&"]
TOKEN = re.compile(r'\s*(<->|->|<=|<|"(?:[^"\\]|\\.)*"|-?\d+|[\w.]+|[()!&|^=,])')
COMPARES = {"=": int.__eq__, "<": int.__lt__, "<=": int.__le__}
MOST = 10**18


class Graph:
    """The categories and edges of a schema's text, its constraints as texts, and the names that a member can have."""

    def __init__(self, schema, question=""):
        lines = [line.split(":", 1) for line in schema.splitlines()]
        words = [line[0].split() for line in lines]
        self.categories = [line[1] for line in words if line[:1] == ["category"]]
        self.numbers = {line[1] for line in words if line[:1] == ["category"] and line[2:] == ["number"]}
        self.edges = [(line[1], line[2]) for line in words if line[:1] == ["edge"]]
        self.constraints = [(words[k][1], line[1]) for k, line in enumerate(lines) if words[k][:1] == ["constraint"]]
        self.names = {c: [FRESH] for c in self.categories}
        for c, constants in self.compared([text for _, text in self.constraints] + [question]).items():
            self.names[c] = number_names(constants) if c in self.numbers else [FRESH, *sorted(constants)]
        for c in self.numbers:
            if self.names[c] == [FRESH]:
                self.names[c] = [0]

    def compared(self, texts):
        """The constants with which the names of each category are compared."""
        found = {}
        for tokens in map(TOKEN.findall, texts):
            for k, mark in enumerate(tokens[1:-1], 1):
                c = tokens[k - 1].split(".")[-1]
                if mark in COMPARES and c != "All" and (mark == "=" or c in self.numbers):
                    found.setdefault(c, set()).add(constant_of(tokens[k + 1]))
        return found

    def bottoms(self):
        parents = {d for _, d in self.edges}
        return [c for c in self.categories if c not in parents]


def constant_of(token):
    return token[1:-1] if token.startswith('"') else int(token)


def number_names(constants):
    """Numbers that answer every comparison with the constants as all numbers do."""
    near = {min(constants) - 1} | {n + more for n in constants for more in (0, 1)}
    return sorted(n for n in near if abs(n) <= MOST)


class Reader:
    """Reads a formula's text, at the loosest connective first, and has the writer write each part."""

    def __init__(self, graph, writer):
        self.graph, self.writer = graph, writer

    def formula(self, text):
        tokens = TOKEN.findall(text)
        part = self.looser(tokens, 0)
        assert not tokens, tokens
        return part

    def looser(self, tokens, level):
        if level == len(LOOSEST_FIRST):
            return self.operand(tokens)
        left, mark = self.looser(tokens, level + 1), LOOSEST_FIRST[level]
        while tokens and tokens[0] == mark:
            tokens.pop(0)
            right = self.looser(tokens, level if mark == "->" else level + 1)
            left = self.writer.connected(mark, left, right)
        return left

    def operand(self, tokens):
        token = tokens.pop(0)
        if token == "!":
            return self.writer.negated(self.operand(tokens))
        if token == "(":
            part = self.looser(tokens, 0)
            tokens.pop(0)
            return part
        if token == "one":
            return self.writer.one(self.parts(tokens))
        if token in ("true", "false"):
            return self.writer.truth(token == "true")
        return self.atom(token, tokens)

    def parts(self, tokens):
        parts = []
        while tokens.pop(0) != ")":
            if tokens[0] != ")":
                parts.append(self.looser(tokens, 0))
        return parts

    def atom(self, word, tokens):
        if "_" in word:
            path = word.split("_")
            return self.writer.all([self.writer.edge(c, d) for c, d in zip(path, path[1:])])
        places = word.split(".")
        steps = [self.writer.reached(c, d) for c, d in zip(places, places[1:])]
        if tokens and tokens[0] in COMPARES:
            mark, constant = tokens.pop(0), constant_of(tokens.pop(0))
            steps.append(self.named(places[-1], mark, constant))
        return self.writer.all(steps)

    def named(self, c, mark, constant):
        """The name of c's member compares so with the constant."""
        if c == "All":
            return self.writer.truth(constant == "all")
        if c in self.graph.numbers:
            return self.writer.any([self.writer.name(c, n) for n in self.graph.names[c] if COMPARES[mark](n, constant)])
        return self.writer.name(c, constant)


class AnswerSets:
    """A question as a program for clingo."""

    FROZEN = """
present(R) :- root(R).
present(D) :- on(_, D).
{ on(C, D) : edge(C, D) } :- present(C).
:- present(C), C != "All", not on(C, _).
reaches(C, C) :- present(C).
reaches(C, D) :- on(C, E), reaches(E, D).
:- on(C, D), reaches(D, C).
:- on(C, D), on(C, E), D != E, reaches(E, D).
1 { named(C, K) : candidate(C, K) } 1 :- present(C), C != "All".
#show on/2.
"""

    def __init__(self, graph):
        self.graph, self.lines, self.heads = graph, [self.FROZEN], 0
        self.lines += [f'edge("{c}", "{d}").' for c, d in graph.edges]
        self.lines += [f'candidate("{c}", {self.term(k)}).' for c in graph.categories for k in graph.names[c]]

    def term(self, name):
        return f'"{name}"'

    def rule(self, *bodies):
        """An atom that is true where one of the bodies is."""
        self.heads += 1
        head = f"f{self.heads}"
        self.lines += [f"{head} :- {body}." for body in (*bodies, "0 > 1")]
        return head

    def edge(self, c, d):
        return f'on("{c}", "{d}")'

    def reached(self, c, d):
        return f'reaches("{c}", "{d}")'

    def name(self, c, name):
        return f'named("{c}", {self.term(name)})'

    def truth(self, value):
        return self.rule("0 < 1" if value else "0 > 1")

    def negated(self, part):
        return self.rule(f"not {part}")

    def all(self, parts):
        return self.rule(", ".join(parts or ["0 < 1"]))

    def any(self, parts):
        return self.rule(*(parts or ["0 > 1"]))

    def one(self, parts):
        counted = "; ".join(f"{k} : {part}" for k, part in enumerate(parts))
        return self.rule(f"#count {{ {counted} }} = 1")

    def connected(self, mark, a, b):
        return self.rule(*{
            "&": [f"{a}, {b}"],
            "|": [a, b],
            "->": [f"not {a}", b],
            "^": [f"{a}, not {b}", f"not {a}, {b}"],
            "<->": [f"{a}, {b}", f"not {a}, not {b}"],
        }[mark])

    def roots(self, roots):
        several = "; ".join(f'root("{r}")' for r in roots)
        self.lines.append(f"1 {{ {several} }} 1.")

    def where_present(self, c, part):
        self.lines.append(f':- present("{c}"), not {part}.')

    def where_root(self, c, part):
        self.lines.append(f':- root("{c}"), not {part}.')

    def text(self):
        return "\n".join(self.lines)


class Clauses:
    """A question as clauses of numbered variables, negated where negative, by Tseitin's way."""

    def __init__(self, graph):
        self.graph, self.clauses, self.variables = graph, [], {}
        self.edges, self.above, self.root = set(graph.edges), closure(graph), {}
        self.parents = {c: [d for e, d in graph.edges if e == c] for c in [*graph.categories, "All"]}
        for c, d in graph.edges:
            self.clauses += [[-self.edge(c, d), self.present(c)], [-self.edge(c, d), self.present(d)]]
            self.clauses.append([-self.edge(c, d), -self.reached(d, c)])
        for c in graph.categories:
            self.category(c)

    def variable(self, *what):
        return self.variables.setdefault(what, len(self.variables) + 1)

    def present(self, c):
        return self.variable("present", c)

    def edge(self, c, d):
        return self.variable("edge", c, d) if (c, d) in self.edges else self.truth(False)

    def name(self, c, name):
        return self.variable("name", c, name)

    def category(self, c):
        """What holds of a category that is present: it has a parent, no shortcut and one name."""
        parents, present = self.parents[c], self.present(c)
        self.clauses.append([-present, *(self.edge(c, d) for d in parents)])
        for d in parents:
            self.clauses += [[-self.edge(c, d), -self.edge(c, e), -self.reached(e, d)] for e in parents if e != d]
        names = [self.name(c, k) for k in self.graph.names[c]]
        self.clauses.append([-present, *names])
        self.clauses += [[-a, -b] for k, a in enumerate(names) for b in names[:k]]

    def reached(self, c, d):
        """c is present and reaches d. No edges that are present form a cycle, so each step decides the one before it."""
        if c == d:
            return self.present(c)
        if d not in self.above[c]:
            return self.truth(False)
        if ("reached", c, d) in self.variables:
            return self.variable("reached", c, d)
        head = self.variable("reached", c, d)
        self.define(head, [self.all([self.edge(c, e), self.reached(e, d)]) for e in self.parents[c]])
        return head

    def define(self, head, parts):
        """The variable is true exactly where one of the parts is."""
        self.clauses += [[-part, head] for part in parts] + [[-head, *parts]]

    def any(self, parts):
        head = self.variable("part", len(self.variables))
        self.define(head, parts)
        return head

    def all(self, parts):
        return parts[0] if len(parts) == 1 else -self.any([-part for part in parts])

    def truth(self, value):
        head = self.variable("true")
        if [head] not in self.clauses[:1]:
            self.clauses.insert(0, [head])
        return head if value else -head

    def negated(self, part):
        return -part

    def one(self, parts):
        """Exactly one of the parts, counted from the left: none so far, or one so far."""
        none, one = self.truth(True), self.truth(False)
        for part in parts:
            one = self.any([self.all([one, -part]), self.all([none, part])])
            none = self.all([none, -part])
        return one

    def connected(self, mark, a, b):
        if mark in ("^", "<->"):
            b = b if mark == "^" else -b
            return self.any([self.all([a, -b]), self.all([-a, b])])
        return self.all([a, b]) if mark == "&" else self.any([a if mark == "|" else -a, b])

    def roots(self, roots):
        """One root, which is present. What is present is the root, or a parent of what is."""
        self.root = {r: self.variable("root", r) for r in roots}
        self.clauses.append(list(self.root.values()))
        self.clauses += [[-a, -b] for a in self.root.values() for b in self.root.values() if a < b]
        for c in [*self.graph.categories, "All"]:
            below = [self.edge(b, d) for b, d in self.graph.edges if d == c]
            self.clauses.append([-self.present(c), *([self.root[c]] if c in self.root else []), *below])
        self.clauses += [[-root, self.present(c)] for c, root in self.root.items()]

    def where_present(self, c, part):
        self.clauses.append([-self.present(c), part])

    def where_root(self, c, part):
        self.clauses.append([-self.root[c], part])

    def text(self):
        lines = [" ".join(map(str, [*clause, 0])) for clause in self.clauses]
        return "\n".join([f"p cnf {len(self.variables)} {len(lines)}", *lines, ""])


def closure(graph):
    """The categories that each category reaches."""
    above = {c: set() for c in [*graph.categories, "All"]}
    for c, d in graph.edges:
        above[c].add(d)
    changed = True
    while changed:
        changed = False
        for c, d in graph.edges:
            if not above[d] <= above[c]:
                above[c] |= above[d]
                changed = True
    return above


def written(schema, words, writer):
    """The text of the question of `satisfiable` or `summarizable` with these words, which has an answer exactly if there
    is a frozen dimension."""
    sources, target = words[2:], words[1]
    graph = Graph(schema)
    out = writer(graph)
    read = Reader(graph, out).formula
    for root, text in graph.constraints:
        out.where_present(root, read(text))
    if words[0] == "satisfiable":
        out.roots([target])
        return out.text()
    bottoms = graph.bottoms()
    out.roots(bottoms)
    for b in bottoms:
        ways = ", ".join(f"{b}.{source}.{target}" for source in sources)
        out.where_root(b, read(f"{b}.{target} & !one({ways})"))
    return out.text()
