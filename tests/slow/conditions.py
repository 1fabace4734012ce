"""The grammar of conditions: a text becomes a tree, or has a first place at which it goes wrong.

A tree is ("or", trees), ("and", trees), ("not", tree), ("defined", ref), ("result", name, test), ("same", left, right), ("group", name) or
("operand", operand); an operand is a text, a number, a truth value or a Ref.
"""

from rules import turned
from tokens import BadToken, next_token
from words import FIELDS, RESERVED, Ref

LONGEST = 4_096
DEEPEST = 32
TESTS = ("failed", "changed", "skipped", "succeeded")
CONSTANTS = {"true": True, "True": True, "false": False, "False": False}


class CondFault(Exception):
    """A condition that is refused, with the number and name of the fault and its byte place."""

    def __init__(self, number, name, at):
        super().__init__(number)
        self.number, self.name, self.at = number, name, at


class Contrary(tuple):
    """A ("not", tree) that a test says itself, as `is not` or `!=`, and no `not` before it."""


def parse(text):
    """The tree of a condition; CondFault where it has none."""
    raw = text.encode()
    if len(raw) > LONGEST + turned("condition-longest"):
        raise CondFault(504, "TooLong", LONGEST)
    try:
        parser = _Parser(raw)
        tree = parser.chain("or", 0)
        if parser.kind != "end":
            parser.refuse()
        return tree
    except BadToken as bad:
        raise CondFault(501, "BadToken", bad.at) from None


class _Parser:
    def __init__(self, text):
        self.text = text
        self.end = 0
        self.step()

    def step(self):
        """Passes over the token at hand and answers its value."""
        value = getattr(self, "value", None)
        self.kind, self.value, self.at, self.end = next_token(self.text, self.end)
        return value

    def refuse(self):
        raise CondFault(502, "Unexpected", self.at)

    def has(self, *words):
        """Whether the token at hand is one of these words or signs."""
        return self.kind in ("name", "sign") and self.value in words

    def take(self, *words):
        """Passes over one of these words or signs; anything else is unexpected."""
        if not self.has(*words):
            self.refuse()
        return self.step()

    def chain(self, word, depth):
        """Conditions joined by `or`, each of them conditions joined by `and`."""
        if turned("and-binds-before-or"):
            return self.flat_chain(depth)
        below = (lambda: self.chain("and", depth)) if word == "or" else (lambda: self.negation(depth))
        trees = [below()]
        while self.has(word):
            self.step()
            trees.append(below())
        return trees[0] if len(trees) == 1 else (word, trees)

    def flat_chain(self, depth):
        """The turned rule: `and` and `or` from left to right, neither before the other."""
        tree = self.negation(depth)
        while self.has("and", "or"):
            tree = (self.step(), [tree, self.negation(depth)])
        return tree

    def negation(self, depth):
        if not self.has("not"):
            return self.test(depth)
        self.deeper(depth)
        self.step()
        if turned("not-holds-the-whole-test"):
            return ("not", self.negation(depth)) if self.has("not") else self.bare_negation(depth)
        return "not", self.negation(depth + 1)

    def bare_negation(self, depth):
        """The turned rule: `not` belongs to the operand alone, so `not 1 == 2` compares `not 1` with 2."""
        tree = self.test(depth + 1)
        if tree[0] == "same":
            return "same", ("not", ("operand", tree[1])), tree[2]
        return "not", tree

    def deeper(self, depth):
        """A bracket or `not` at this depth of others."""
        if turned("not-counts-as-depth") and self.has("not"):
            return
        if depth >= DEEPEST + turned("condition-depth"):
            raise CondFault(503, "TooDeep", self.at)

    def test(self, depth):
        if self.has("("):
            self.deeper(depth)
            self.step()
            tree = self.chain("or", depth + 1)
            self.take(")")
            return tree
        if self.kind == "text":
            return self.of_text()
        operand = self.operand()
        if isinstance(operand, Ref) and self.has("is"):
            self.step()
            return self.tested(operand)
        return self.compared(operand)

    def of_text(self):
        text = self.step()
        if self.has("not", "in"):
            contrary = self.has("not")
            if contrary:
                self.step()
            self.take("in")
            self.take("group_names")
            return ("not", ("group", text)) if contrary else ("group", text)
        return self.compared(text)

    def operand(self):
        if self.has(*CONSTANTS):
            return CONSTANTS[self.step()]
        if self.kind in ("text", "number"):
            return self.step()
        if self.kind != "name" or (self.value in RESERVED and self.value != "inventory_hostname"):
            self.refuse()
        name = self.step()
        if name == "inventory_hostname" or not self.has("."):
            return Ref(name)
        self.step()
        return Ref(name, self.take(*FIELDS))

    def tested(self, ref):
        contrary = self.has("not")
        if contrary:
            self.step()
        if self.has("defined"):
            tree = ("defined", ref)
        elif ref.field is None and ref.name != "inventory_hostname" and self.has(*TESTS):
            tree = ("result", ref.name, self.value)
        else:
            self.refuse()
        self.step()
        return Contrary(("not", tree)) if contrary else tree

    def compared(self, left):
        if not self.has("==", "!="):
            return "operand", left
        sign = self.step()
        tree = ("same", left, self.operand())
        return Contrary(("not", tree)) if sign == "!=" else tree


def tests_in(tree):
    """The tests of a condition, also behind what decides it."""
    if not isinstance(tree, tuple):
        return [("operand", tree)]
    kind, *rest = tree
    if kind in ("or", "and"):
        return [test for below in rest[0] for test in tests_in(below)]
    return tests_in(rest[0]) if kind == "not" else [tree]
