"""Tables of parsers: a textbook's grammar, random sentences of others, and what is refused. CONTHIRAL_SEED repeats a
run."""

import doctest
import os
import random
import time
import unittest

from conthiral import GrammarError, ParseError, Rule, Table, _tables

SEED = int(os.environ.get("CONTHIRAL_SEED") or time.time())
ROUNDS = 200

# Aho, Lam, Sethi and Ullman, Compilers, grammar 4.1
EXPRESSIONS = "%token id %% e: e '+' t | t; t: t '*' f | f; f: '(' e ')' | id;"
GRAMMARS = [
    EXPRESSIONS,
    "%% list: %empty | list item; item: 'a' | '(' list ')' | 'b' item;",
    "%% s: 'a' s 'b' | %empty;",
    "%token NAME NUMBER %% call: NAME '(' some ')'; some: %empty | more; more: value | more ',' value; value: NUMBER | call;",
]


def sentence(table, symbol, room):
    """Tokens that a symbol derives, with short rules once there is no room."""
    if symbol not in table.nonterminals:
        return [symbol]
    rules = [rule for rule in table.rules if rule.left == symbol]
    rule = random.choice(rules) if room > 0 else min(rules, key=lambda rule: weight(table, rule, ()))
    return [token for each in rule.right for token in sentence(table, each, room - 1)]


def weight(table, rule, above):
    """How deep the least tree of a rule is."""
    if rule in above:
        return 1000
    inner = [each for each in rule.right if each in table.nonterminals]
    return 1 + max((least(table, each, (*above, rule)) for each in inner), default=0)


def least(table, symbol, above):
    return min(weight(table, rule, above) for rule in table.rules if rule.left == symbol)


def leaves(node):
    """The indices of tokens below a node, and whether each node has its rule's right side below it."""
    if isinstance(node, int):
        return [node]
    return [leaf for each in node.below for leaf in leaves(each)]


class Tables(unittest.TestCase):
    def setUp(self):
        random.seed(SEED)

    def fits(self, table, node, tokens):
        """Whether below each node stands the right side of its rule."""
        below = [tokens[each] if isinstance(each, int) else each.rule.left for each in node.below]
        self.assertEqual([each.strip("'") for each in node.rule.right], [each.strip("'") for each in below])
        for each in node.below:
            if not isinstance(each, int):
                self.fits(table, each, tokens)

    def test_expressions(self):
        table = Table(EXPRESSIONS)
        self.assertEqual(table.rules[1], Rule("e", ("e", "'+'", "t")))
        self.assertEqual([rule.left for rule in table.rules[1:]], ["e", "e", "t", "t", "f", "f"])
        # id * id + id, as the book parses it
        self.assertEqual(table.parse(["id", "*", "id", "+", "id"]), [6, 4, 6, 3, 2, 6, 4, 1])
        for tokens, at in [(["id", "id"], 1), (["id", "+"], 2), ([], 0), (["(", "id"], 2), ([")"], 0)]:
            with self.assertRaises(ParseError) as raised:
                table.parse(tokens)
            self.assertEqual(raised.exception.at, at)
        with self.assertRaises(KeyError):
            table.parse(["id", "-"])

    def test_sentences(self):
        for grammar in GRAMMARS:
            table = Table(grammar)
            start = table.rules[0].right[0]
            for _ in range(ROUNDS):
                tokens = sentence(table, start, random.randrange(12))
                tree = table.tree(tokens)
                self.assertEqual(leaves(tree), list(range(len(tokens))))
                self.assertEqual(tree.rule.left, start)
                self.fits(table, tree, tokens)

    def test_deep(self):
        table = Table("%% s: 'a' s 'b' | %empty;")
        tree, depth = table.tree(["a"] * 20000 + ["b"] * 20000), 0
        while tree.below:
            tree, depth = tree.below[1], depth + 1
        self.assertEqual(depth, 20000)

    def test_faults(self):
        for grammar, place in [("%% s: x;", (1, 7)), ("%token A\n%% s: A B;", (2, 9)), ("", (1, 1)), (b"\xff", (1, 1))]:
            with self.assertRaises(GrammarError) as raised:
                Table(grammar)
            self.assertEqual((raised.exception.line, raised.exception.column), place)

    def test_cycle(self):
        table = Table("%% s: s | 'x';")
        try:
            table.parse(["x"])
        except (OverflowError, ParseError):
            pass

    def test_examples(self):
        self.assertEqual(doctest.testmod(_tables).failed, 0)


if __name__ == "__main__":
    unittest.main()
