"""A second reading of texts, logs and policies, written from what they mean and not from the program, for the scripts that change them.

`Text(bytes)` reads a text up to its scenarios, or raises `Refused` or `Limit` with what must be answered; `Problem(text)` has its
constraints and its objective scenario by scenario, over boxes; `checked(problem, bytes)` is what `check` must say of a log, and
`evaluated(problem, bytes)` what `eval` must say of a policy. It is slow and plain: nothing is shared between scenarios, and nothing is
remembered between lines but boxes."""

import itertools
import json
import re
import sys

sys.setrecursionlimit(20000)
GREATEST = 2**40
MOST = 1048576
NEVER, MAYBE, ALWAYS = 0, 1, 2
FALSE, UNKNOWN, TRUE = 0, 1, 2


class Refused(Exception):
    def __init__(self, code, at):
        Exception.__init__(self, code, at)
        self.code, self.at = code, at


class Limit(Exception):
    def __init__(self, code, counted, most):
        Exception.__init__(self, code, counted, most)
        self.code, self.counted, self.most = code, min(counted, 2**127 - 1), most


class NoValue(Exception):
    """A constant expression without a value."""


class TooMuch(Exception):
    """More than this slow reading is asked for."""


# Tokens.

KEYWORDS = set(
    "int range dvar stoch stage in subject to forall sum all prob expected worst minimize maximize allDifferent cumulative div mod min max abs".split()
)
SPACE = re.compile(rb"(?:[ \t\r\n]+|//[^\n]*|/\*.*?\*/)+", re.S)
TOKEN = re.compile(rb"(?P<name>[A-Za-z_][A-Za-z0-9_]*)|(?P<literal>[0-9]+)|(?P<symbol>\.\.|==|!=|<=|>=|=>|&&|\|\||[;,:()\[\]{}=<>!+\-*/])", re.S)


def tokens(text):
    """The tokens as (kind, value, place); a keyword or symbol is its own kind."""
    found, at = [], 0
    if len(text) > MOST:
        raise Refused(101, MOST)
    while True:
        space = SPACE.match(text, at)
        if space:
            at = space.end()
        if at == len(text):
            return found
        if text.startswith(b"/*", at):
            raise Refused(102, at)
        match = TOKEN.match(text, at)
        if not match:
            raise Refused(102, at)
        word = match.group().decode()
        if match.lastgroup == "literal":
            digits = word.lstrip("0") or "0"
            if len(digits) > 13 or int(digits) > GREATEST:
                raise Refused(116, at)
            found.append(("literal", int(digits), at))
        elif match.lastgroup == "name" and word not in KEYWORDS:
            found.append(("name", word, at))
        else:
            found.append((word, word, at))
        at = match.end()


# Trees.


class Node:
    __slots__ = ("kind", "at", "parts", "name", "binders")

    def __init__(self, kind, at, parts=(), name=None, binders=()):
        self.kind, self.at, self.parts, self.name, self.binders = kind, at, parts, name, binders


class Range:
    """A range by its name, or by its two ends."""

    def __init__(self, at, name=None, ends=None):
        self.at, self.name, self.ends = at, name, ends


CONDITIONS = {"compare", "not", "and", "or", "implies", "allDifferent", "cumulative"}
COMPARES = {"==", "!=", "<", "<=", ">", ">="}


class Parser:
    def __init__(self, found, length):
        self.found, self.length, self.next, self.nest = found, length, 0, 0

    def peek(self, ahead=0):
        at = self.next + ahead
        return self.found[at][0] if at < len(self.found) else None

    def place(self):
        return self.found[self.next][2] if self.next < len(self.found) else self.length

    def fail(self):
        raise Refused(104, self.place())

    def take(self, kind):
        if self.peek() != kind:
            self.fail()
        self.next += 1
        return self.found[self.next - 1]

    def deeper(self, kind):
        """Takes a token behind which one more thing is open."""
        if self.peek() != kind:
            self.fail()
        if self.nest == 64:
            raise Refused(103, self.place())
        self.nest += 1
        self.next += 1

    def close(self, kind):
        self.take(kind)
        self.nest -= 1

    def listed(self, close, one):
        """Things with commas between them, and the bracket behind."""
        parts = [one()]
        while self.peek() == ",":
            self.take(",")
            parts.append(one())
        self.close(close)
        return parts

    def model(self):
        declared, goal = [], None
        while self.peek() in ("int", "range", "{", "dvar", "stoch"):
            declared.append(self.declaration())
        if self.peek() in ("minimize", "maximize"):
            direction = self.take(self.peek())[0]
            if self.peek() not in ("expected", "worst"):
                self.fail()
            kind = self.take(self.peek())[0]
            self.deeper("(")
            goal = (direction, kind, self.expression())
            self.close(")")
            self.take(";")
        self.take("subject")
        self.take("to")
        constraints = self.block()
        if self.peek() is not None:
            self.fail()
        return declared, goal, constraints

    def block(self):
        self.deeper("{")
        parts = []
        while self.peek() != "}":
            parts.append(self.constraint())
        self.close("}")
        return parts

    def constraint(self):
        if self.peek() == "forall":
            self.deeper("forall")
            binders = self.binders()
            body = self.constraint()
            self.nest -= 1
            return ("forall", binders, body)
        if self.peek() == "{":
            return ("block", self.block())
        if self.peek() == "prob":
            self.take("prob")
            self.deeper("(")
            inside = self.expression()
            self.close(")")
            self.take(">=")
            p = self.add()
            self.take("/")
            q = self.add()
            self.take(";")
            return ("chance", inside, p, q)
        body = self.expression()
        self.take(";")
        return ("hard", body)

    def declaration(self):
        kind = self.peek()
        self.deeper("{") if kind == "{" else self.take(kind)
        if kind == "{":
            self.take("int")
            self.close("}")
        elif kind in ("dvar", "stoch"):
            self.take("int")
        _, name, at = self.take("name")
        dims, stage = [], None
        if kind in ("int", "dvar", "stoch"):
            while self.peek() == "[":
                dims.append(self.dimension())
        self.take("in" if kind in ("dvar", "stoch") else "=")
        if kind == "int":
            body = self.initial()
        elif kind == "range":
            lo = self.add()
            self.take("..")
            body = Range(lo.at, None, (lo, self.add()))
        elif kind == "{":
            self.deeper("{")
            if self.peek() == "}":
                self.close("}")
                body = []
            else:
                body = self.listed("}", self.add)
        elif kind == "dvar":
            body = self.range()
        else:
            self.deeper("{")
            body = self.listed("}", self.outcome)
        if kind in ("dvar", "stoch") and self.peek() == "stage":
            self.take("stage")
            stage = self.add()
        self.take(";")
        return (kind, name, at, dims, body, stage)

    def outcome(self):
        value = self.add()
        self.take(":")
        return value, self.add()

    def dimension(self):
        self.deeper("[")
        name = at = None
        if self.peek() == "name" and self.peek(1) == "in":
            _, name, at = self.take("name")
            self.take("in")
        over = self.range()
        self.close("]")
        return name, at, over

    def initial(self):
        if self.peek() != "[":
            return self.expression()
        at = self.place()
        self.deeper("[")
        if self.peek() == "]":
            self.close("]")
            return (at, [])
        return (at, self.listed("]", self.initial))

    def range(self):
        if self.peek() == "name" and self.peek(1) not in ("[", "*", "div", "mod", "+", "-", ".."):
            _, name, at = self.take("name")
            return Range(at, name)
        lo = self.add()
        self.take("..")
        return Range(lo.at, None, (lo, self.add()))

    def binders(self):
        self.deeper("(")
        return self.listed(")", self.binder)

    def binder(self):
        _, name, at = self.take("name")
        self.take("in")
        return name, at, self.range()

    def expression(self):
        left = self.chain("or", "||", lambda: self.chain("and", "&&", self.negation))
        if self.peek() != "=>":
            return left
        self.deeper("=>")
        right = self.expression()
        self.nest -= 1
        return Node("implies", left.at, [left, right])

    def chain(self, kind, sign, one):
        parts = [one()]
        while self.peek() == sign:
            self.take(sign)
            parts.append(one())
        return parts[0] if len(parts) == 1 else Node(kind, parts[0].at, parts)

    def negation(self):
        if self.peek() != "!":
            return self.comparison()
        at = self.place()
        self.deeper("!")
        inside = self.negation()
        self.nest -= 1
        return Node("not", at, [inside])

    def comparison(self):
        left = self.add()
        if self.peek() not in COMPARES:
            return left
        sign = self.take(self.peek())[0]
        return Node("compare", left.at, [left, self.add()], sign)

    def add(self):
        parts = [("+", self.multiply())]
        while self.peek() in ("+", "-"):
            sign = self.take(self.peek())[0]
            parts.append((sign, self.multiply()))
        return parts[0][1] if len(parts) == 1 else Node("add", parts[0][1].at, parts)

    def multiply(self):
        node, ended = self.factor()
        parts = [("*", node)]
        while not ended and self.peek() in ("*", "div", "mod"):
            sign = self.take(self.peek())[0]
            node, ended = self.factor()
            parts.append((sign, node))
        return parts[0][1] if len(parts) == 1 else Node("multiply", parts[0][1].at, parts)

    def factor(self):
        """An operand of a product, and whether it ends the chain."""
        at = self.place()
        if self.peek() == "-":
            self.deeper("-")
            inside, ended = self.factor()
            self.nest -= 1
            return Node("minus", at, [inside]), ended
        if self.peek() == "sum":
            self.deeper("sum")
            binders = self.binders()
            body = self.multiply()
            self.nest -= 1
            return Node("sum", at, [body], None, binders), True
        return self.primary(), False

    def primary(self):
        kind, at = self.peek(), self.place()
        if kind == "literal":
            return Node("literal", at, [], self.take("literal")[1])
        if kind == "name":
            name, parts = self.take("name")[1], []
            while self.peek() == "[":
                self.deeper("[")
                parts.append(self.expression())
                self.close("]")
            return Node("name", at, parts, name)
        if kind == "(":
            self.deeper("(")
            inside = self.expression()
            self.close(")")
            inside.at = at
            return inside
        if kind not in ("abs", "min", "max", "allDifferent", "cumulative"):
            self.fail()
        self.take(kind)
        self.deeper("(")
        if kind == "abs":
            parts = [self.expression()]
            self.close(")")
            return Node("abs", at, parts)
        if kind in ("min", "max"):
            first = self.expression()
            self.take(",")
            return Node(kind, at, [first] + self.listed(")", self.expression))
        self.take("all")
        self.deeper("(")
        binders = self.binders_inside()
        if kind == "allDifferent":
            parts = [self.expression()]
        else:
            self.deeper("(")
            parts = [self.expression()]
            for _ in range(2):
                self.take(",")
                parts.append(self.expression())
            self.close(")")
            self.take(",")
            parts.append(self.expression())
        self.close(")")
        return Node(kind, at, parts, None, binders)

    def binders_inside(self):
        return self.listed(")", self.binder)


# Names and kinds.


class Names:
    """The first mistake of names and kinds, by its place and then by its code."""

    def __init__(self, declared, goal, constraints):
        self.mistakes = []
        scope = {}
        for kind, name, at, dims, body, stage in declared:
            if name in scope:
                self.mistake(at, 106)
            inner = dict(scope)
            own = set()
            for word, place, over in dims:
                self.range(over, scope, True)
                if word is not None:
                    if word in scope or word in own:
                        self.mistake(place, 106)
                    own.add(word)
            inner.update((word, ("bound", 0)) for word in own)
            if kind == "int":
                wrong = []
                self.initial(body, len(dims), 0, inner, wrong)
                if wrong:
                    self.mistake(wrong[0], 108)
                scope[name] = ("int", len(dims))
            elif kind == "range":
                self.range(body, scope, True)
                scope[name] = ("range", 0)
            elif kind == "{":
                for part in body:
                    self.walk(part, scope, True)
                scope[name] = ("set", 0)
            elif kind == "dvar":
                self.range(body, inner, False)
                scope[name] = ("dvar", len(dims))
            else:
                for value, weight in body:
                    self.walk(value, inner, True)
                    self.walk(weight, inner, True)
                scope[name] = ("stoch", len(dims))
            if stage is not None:
                self.walk(stage, inner, True)
        if goal:
            self.walk(goal[2], scope, False)
        for constraint in constraints:
            self.constraint(constraint, scope)
        if self.mistakes:
            at, code = min(self.mistakes)
            raise Refused(code, at)

    def mistake(self, at, code):
        self.mistakes.append((at, code))

    def initial(self, body, dims, depth, scope, wrong):
        if isinstance(body, Node):
            if depth not in (0, dims):
                wrong.append(body.at)
            self.walk(body, scope, True)
        else:
            at, parts = body
            if not parts and not 1 <= depth + 1 <= dims:
                wrong.append(at)
            for part in parts:
                self.initial(part, dims, depth + 1, scope, wrong)

    def range(self, over, scope, sets):
        if over.name is None:
            for end in over.ends:
                self.walk(end, scope, True)
        elif over.name not in scope:
            self.mistake(over.at, 105)
        elif scope[over.name][0] != "range" and not (sets and scope[over.name][0] == "set"):
            self.mistake(over.at, 107)

    def bind(self, binders, scope):
        scope = dict(scope)
        for name, at, over in binders:
            self.range(over, scope, True)
            if name in scope:
                self.mistake(at, 106)
            scope[name] = ("bound", 0)
        return scope

    def constraint(self, constraint, scope):
        if constraint[0] == "forall":
            self.constraint(constraint[2], self.bind(constraint[1], scope))
        elif constraint[0] == "block":
            for part in constraint[1]:
                self.constraint(part, scope)
        else:
            self.condition(constraint[1], scope, False)
            for part in constraint[2:]:
                self.walk(part, scope, True)

    def condition(self, node, scope, constant):
        if node.kind not in CONDITIONS:
            self.mistake(node.at, 107)
        self.walk(node, scope, constant)

    def walk(self, node, scope, constant):
        kind = node.kind
        if kind == "name":
            known = scope.get(node.name)
            if known is None:
                self.mistake(node.at, 105)
            elif known[0] in ("range", "set"):
                self.mistake(node.at, 107)
            else:
                if known[1] != len(node.parts):
                    self.mistake(node.at, 108)
                if constant and known[0] in ("dvar", "stoch"):
                    self.mistake(node.at, 109)
            for part in node.parts:
                self.walk(part, scope, constant)
        elif kind in ("add", "multiply"):
            for sign, part in node.parts:
                self.walk(part, scope, constant or sign in ("div", "mod"))
        elif kind in ("not", "and", "or", "implies"):
            for part in node.parts:
                self.condition(part, scope, constant)
        elif kind in ("sum", "allDifferent", "cumulative"):
            inner = self.bind(node.binders, scope)
            for part in node.parts[:3]:
                self.walk(part, inner, constant)
            for part in node.parts[3:]:
                self.walk(part, scope, constant)
        else:
            for part in node.parts:
                self.walk(part, scope, constant)


# Unfolding.


def quotient(a, b):
    return abs(a) // abs(b) * (1 if (a < 0) == (b < 0) else -1)


def remainder(a, b):
    return a - quotient(a, b) * b


def compared(sign, a, b):
    return {"<": a < b, "<=": a <= b, "==": a == b, ">=": a >= b, ">": a > b, "!=": a != b}[sign]


def fit(tasks, capacity):
    """Whether constant tasks keep within a capacity."""
    if capacity < 0 or any(length < 0 or demand < 0 for _, length, demand in tasks):
        return False
    return all(sum(d for s, l, d in tasks if s <= time < s + l) <= capacity for time, _, _ in tasks)


class Text:
    """An accepted text: its declarations unfolded, its scenarios and its cells; raises what must be answered else."""

    # The text that was begun last, also where its reading was given up.
    begun = None

    def __init__(self, content):
        # The most terms of one `allDifferent`, or tasks of one `cumulative`.
        self.crowd = 0
        Text.begun = self
        found = tokens(content)
        self.declared, self.goal, self.constraints = Parser(found, len(content)).model()
        Names(self.declared, self.goal, self.constraints)
        self.count, self.counts = 0, True
        self.constants, self.ranges, self.arrays = {}, {}, {}
        self.decisions, self.chance, self.hards, self.chances = [], [], [], []
        for declaration in self.declared:
            self.declare(*declaration)
        if self.goal:
            self.walk(self.goal[2], {})
        for constraint in self.constraints:
            self.constrain(constraint, {})
        self.counts = False
        self.scenes()

    def one_more(self):
        if self.counts:
            self.count += 1
            if self.count > 262144:
                raise Limit(205, 262145, 262144)

    def place(self, node, env):
        """The value in a constant place."""
        try:
            return self.value(node, env)
        except NoValue:
            raise Refused(110, node.at) from None

    def over(self, over, env, value):
        """The numbers of a range, whose ends are evaluated by `value`."""
        if over.name is not None:
            return self.ranges[over.name]
        lo, hi = (value(end, env) for end in over.ends)
        if hi - lo + 1 > 65536:
            raise Limit(208, hi - lo + 1, 65536)
        return range(lo, hi + 1)

    def bindings(self, binders, env, value):
        if not binders:
            yield env
            return
        name, _, over = binders[0]
        for number in self.over(over, env, value):
            self.one_more()
            yield from self.bindings(binders[1:], dict(env, **{name: number}), value)

    def value(self, node, env):
        """The value of a constant expression, or NoValue; of a condition 1 or 0."""
        kind, parts = node.kind, node.parts
        if kind == "literal":
            found = node.name
        elif kind == "name":
            if node.name in env:
                return env[node.name]
            index = tuple([self.value(part, env) for part in parts])
            found = self.constants[node.name].get(index)
            if found is None:
                raise NoValue
        elif kind == "minus":
            found = -self.value(parts[0], env)
        elif kind == "abs":
            found = abs(self.value(parts[0], env))
        elif kind == "add":
            found = 0
            for sign, part in parts:
                found += self.value(part, env) * (1 if sign == "+" else -1)
        elif kind == "multiply":
            found = 1
            for sign, part in parts:
                other = self.value(part, env)
                if sign != "*" and other == 0:
                    raise NoValue
                found = found * other if sign == "*" else quotient(found, other) if sign == "div" else remainder(found, other)
                if abs(found) > GREATEST:
                    raise NoValue
        elif kind in ("min", "max"):
            found = {"min": min, "max": max}[kind]([self.value(part, env) for part in parts])
        elif kind == "sum":
            found = 0
            for inner in self.bindings(node.binders, env, self.value):
                found += self.value(parts[0], inner)
        elif kind == "compare":
            left = self.value(parts[0], env)
            return int(compared(node.name, left, self.value(parts[1], env)))
        elif kind == "not":
            return 1 - self.value(parts[0], env)
        elif kind in ("and", "or", "implies"):
            values = [self.value(part, env) for part in parts]
            return int(all(values) if kind == "and" else any(values) if kind == "or" else not values[0] or values[1])
        elif kind == "allDifferent":
            values = [self.value(parts[0], inner) for inner in self.bindings(node.binders, env, self.value)]
            return int(len(set(values)) == len(values))
        else:
            tasks = [tuple([self.value(part, inner) for part in parts[:3]]) for inner in self.bindings(node.binders, env, self.value)]
            self.crowd = max(self.crowd, len(tasks))
            capacity = self.value(parts[3], env)
            return int(fit(tasks, capacity))
        if abs(found) > GREATEST:
            raise NoValue
        return found

    def walk(self, node, env):
        """Meets the constant places of an expression that is none."""
        kind = node.kind
        if kind in ("add", "multiply"):
            for sign, part in node.parts:
                if sign not in ("div", "mod"):
                    self.walk(part, env)
                elif self.place(part, env) == 0:
                    raise Refused(110, part.at)
        elif kind in ("sum", "allDifferent", "cumulative"):
            number = 0
            for number, inner in enumerate(self.bindings(node.binders, env, self.place), 1):
                for part in node.parts[:3]:
                    self.walk(part, inner)
            self.crowd = max(self.crowd, number if kind != "sum" else 0)
            for part in node.parts[3:]:
                self.walk(part, env)
        else:
            for part in node.parts:
                self.walk(part, env)

    def declare(self, kind, name, at, dims, body, stage):
        if kind == "range":
            self.ranges[name] = self.over(body, {}, self.place)
            return
        if kind == "{":
            numbers = sorted({self.place(part, {}) for part in body})
            if len(numbers) > 65536:
                raise Limit(208, len(numbers), 65536)
            self.ranges[name] = numbers
            return
        sets = [self.over(over, {}, self.place) for _, _, over in dims]
        names = [word for word, _, _ in dims]
        bound = lambda index: {word: number for word, number in zip(names, index) if word is not None}
        if kind == "int":
            values = {}
            self.fill(body, sets, (), bound, values)
            self.constants[name] = values
            self.arrays[name] = ("int", sets, values)
            return
        found = {}
        for index in itertools.product(*sets):
            self.one_more()
            env = bound(index)
            if kind == "dvar":
                if body.name is not None:
                    numbers = self.ranges[body.name]
                    lo, hi = numbers.start, numbers.stop - 1
                else:
                    lo, hi = (self.place(end, env) for end in body.ends)
                if lo > hi:
                    raise Refused(111, body.at)
                if hi - lo + 1 > 65536:
                    raise Limit(203, hi - lo + 1, 65536)
                one = [name, index, lo, hi]
            else:
                outcomes = []
                for value, weight in body:
                    number = self.place(value, env)
                    if any(number == other for other, _ in outcomes):
                        raise Refused(113, value.at)
                    heavy = self.place(weight, env)
                    if heavy < 1:
                        raise Refused(113, weight.at)
                    outcomes.append((number, heavy))
                one = [name, index, outcomes, None]
            when = 1
            if stage is not None:
                when = self.place(stage, env)
                if not 1 <= when <= 24:
                    raise Refused(114, stage.at)
            one.append(when)
            found[index] = one
            (self.decisions if kind == "dvar" else self.chance).append(one)
        self.arrays[name] = (kind, sets, found)

    def fill(self, body, sets, index, bound, values):
        if isinstance(body, Node):
            for rest in itertools.product(*sets[len(index):]):
                self.one_more()
                values[index + rest] = self.place(body, bound(index + rest))
            return
        at, parts = body
        numbers = sets[len(index)]
        if len(parts) != len(numbers):
            raise Refused(112, at)
        for number, part in zip(numbers, parts):
            self.fill(part, sets, index + (number,), bound, values)

    def constrain(self, constraint, env):
        if constraint[0] == "forall":
            for inner in self.bindings(constraint[1], env, self.place):
                self.constrain(constraint[2], inner)
        elif constraint[0] == "block":
            for part in constraint[1]:
                self.constrain(part, env)
        elif constraint[0] == "hard":
            self.one_more()
            self.walk(constraint[1], env)
            self.hards.append((constraint[1], env))
        else:
            self.one_more()
            self.walk(constraint[1], env)
            p, q = (self.place(part, env) for part in constraint[2:])
            if not (0 <= p <= q and 1 <= q <= 1048576):
                raise Refused(115, constraint[2].at)
            self.chances.append((constraint[1], env, p, q))

    def scenes(self):
        self.chance.sort(key=lambda one: one[4])
        self.whole = 1
        for one in self.chance:
            self.whole *= sum(weight for _, weight in one[2])
            if self.whole > 2**100:
                raise Limit(201, self.whole, 2**100)
        self.scenarios = 1
        for one in self.chance:
            self.scenarios *= len(one[2])
            if self.scenarios > 16384:
                raise Limit(202, self.scenarios, 16384)
        copies = (len(self.decisions) + len(self.chance) + len(self.hards) + len(self.chances)) * self.scenarios
        if copies > 1048576:
            raise Limit(209, copies, 1048576)
        # How many histories a stage has, and how many scenarios in a row share one.
        self.histories = [1] * 25
        for stage in range(1, 25):
            for one in self.chance:
                if one[4] < stage:
                    self.histories[stage] *= len(one[2])
        bits = sum((hi - lo).bit_length() * self.histories[stage] for _, _, lo, hi, stage in self.decisions)
        if bits > 1024:
            raise Limit(204, bits, 1024)
        self.last = max([one[4] for one in self.decisions], default=1)
        self.seen = list(itertools.product(*[one[2] for one in self.chance]))

    def weight(self, scenario):
        found = 1
        for _, weight in self.seen[scenario]:
            found *= weight
        return found

    def tree(self):
        """The answer of `tree`, where the terms pass no limit."""
        scenarios = []
        for number, outcomes in enumerate(self.seen):
            seen = [[one[0], list(one[1]), value] for one, (value, _) in zip(self.chance, outcomes)]
            scenarios.append({"seen": seen, "weight": str(self.weight(number))})
        return {"answer": "tree", "den": str(self.whole), "histories": self.histories[1 : self.last + 1], "scenarios": scenarios}


# Terms over boxes.


class Number:
    """A number in one scenario: a constant, coefficients of cells, other parts with their coefficients, and what its mark depends on."""

    __slots__ = ("constant", "cells", "atoms", "kids", "element")

    def __init__(self, constant=0, cells=None, atoms=(), kids=(), element=None):
        self.constant, self.cells, self.atoms, self.kids, self.element = constant, cells or {}, atoms, kids, element

    def is_constant(self):
        return not self.cells and not self.atoms


class Element:
    """An array at open indices: its index sets, its elements by index, its indices."""

    __slots__ = ("sets", "items", "indices")

    def __init__(self, sets, items, indices):
        self.sets, self.items, self.indices = sets, items, indices

    def inside(self, box, wide):
        """The indices of each set that lie in the interval there, and whether each number of all intervals is one."""
        found, whole = [], True
        for numbers, index in zip(self.sets, self.indices):
            lo, hi = interval(index, box, wide)
            some = [number for number in numbers if lo <= number <= hi]
            whole = whole and len(some) == hi - lo + 1
            found.append(some)
        return found, whole


def combined(parts, kids):
    """The sum of numbers with factors."""
    constant, cells, atoms = 0, {}, []
    for factor, part in parts:
        constant += factor * part.constant
        for cell, k in part.cells.items():
            cells[cell] = cells.get(cell, 0) + factor * k
        if factor:
            atoms += [(atom, factor * k) for atom, k in part.atoms]
    return Number(constant, {cell: k for cell, k in cells.items() if k}, atoms, kids)


def interval(number, box, wide=False):
    lo = hi = number.constant
    for cell, k in number.cells.items():
        a, b = box[cell]
        lo += k * (a if k > 0 else b)
        hi += k * (b if k > 0 else a)
    for atom, k in number.atoms:
        a, b = atom_interval(atom, box, wide)
        lo += k * (a if k > 0 else b)
        hi += k * (b if k > 0 else a)
    return lo, hi


def atom_interval(atom, box, wide):
    kind, parts = atom
    if kind == "condition":
        found = truth(parts, box, wide)
        return (1, 1) if found == TRUE else (0, 0) if found == FALSE else (0, 1)
    if kind == "element":
        inside = [] if wide else parts.inside(box, wide)[0]
        chosen = [] if wide else [parts.items[index] for index in itertools.product(*inside)]
        ends = [interval(item, box, wide) for item in chosen or parts.items.values()]
        return (min(lo for lo, _ in ends), max(hi for _, hi in ends)) if ends else (0, 0)
    ends = [interval(part, box, wide) if isinstance(part, Number) else part for part in parts]
    lo, hi = ends[0]
    if kind == "*":
        products = [a * b for a in ends[0] for b in ends[1]]
        return min(products), max(products)
    if kind == "div":
        quotients = [quotient(lo, ends[1]), quotient(hi, ends[1])]
        return min(quotients), max(quotients)
    if kind == "mod":
        c, m = ends[1], abs(ends[1])
        if quotient(lo, c) == quotient(hi, c):
            q = quotient(lo, c)
            return lo - q * c, hi - q * c
        return (max(lo, 1 - m) if lo < 0 else 0), (min(hi, m - 1) if hi > 0 else 0)
    if kind in ("min", "max"):
        pick = {"min": min, "max": max}[kind]
        return pick(a for a, _ in ends), pick(b for _, b in ends)
    return (0 if lo <= 0 <= hi else min(abs(lo), abs(hi))), max(abs(lo), abs(hi))


def mark(number, box, wide=False):
    """Whether a number is defined over a box."""
    kids = [mark(kid, box, wide) for kid in number.kids]
    if number.element is None:
        return NEVER if NEVER in kids else MAYBE if MAYBE in kids else ALWAYS
    inside, whole = number.element.inside(box, wide)
    if NEVER in kids or not all(inside):
        return NEVER
    return ALWAYS if whole and MAYBE not in kids else MAYBE


def some_satisfies(sign, lo, hi):
    return {"<": lo < 0, "<=": lo <= 0, ">": hi > 0, ">=": hi >= 0, "==": lo <= 0 <= hi, "!=": lo != 0 or hi != 0}[sign]


def all_satisfy(sign, lo, hi):
    return {"<": hi < 0, "<=": hi <= 0, ">": lo > 0, ">=": lo >= 0, "==": lo == hi == 0, "!=": not lo <= 0 <= hi}[sign]


def truth(condition, box, wide=False):
    kind, parts = condition[0], condition[1]
    if kind == "compare":
        marks = [mark(part, box, wide) for part in parts]
        lo, hi = interval(condition[3], box, wide)
        if NEVER in marks or not some_satisfies(condition[2], lo, hi):
            return FALSE
        return TRUE if MAYBE not in marks and all_satisfy(condition[2], lo, hi) else UNKNOWN
    if kind == "not":
        return 2 - truth(parts[0], box, wide)
    if kind in ("and", "or", "implies"):
        values = [truth(part, box, wide) for part in parts]
        return min(values) if kind == "and" else max(values) if kind == "or" else max(2 - values[0], values[1])
    if kind == "allDifferent":
        marks = [mark(part, box, wide) for part in parts]
        ends = [interval(part, box, wide) for part in parts]
        if NEVER in marks:
            return FALSE
        lows, highs = {lo for lo, _ in ends}, {hi for _, hi in ends}
        if any(sum(a <= lo and hi <= b for lo, hi in ends) > b - a + 1 for a in lows for b in highs if a <= b):
            return FALSE
        ordered = sorted(ends)
        apart = all(first[1] < second[0] for first, second in zip(ordered, ordered[1:]))
        return TRUE if apart and MAYBE not in marks else UNKNOWN
    return truth_of_tasks(parts, condition[2], box, wide)


def truth_of_tasks(parts, capacity, box, wide):
    tasks = [[interval(part, box, wide) for part in task] for task in parts]
    least, most = interval(capacity, box, wide)
    marks = [mark(part, box, wide) for task in parts for part in task] + [mark(capacity, box, wide)]
    if NEVER in marks or any(length[1] < 0 or demand[1] < 0 for _, length, demand in tasks):
        return FALSE
    if most < 0:
        return FALSE
    for time in {start[1] for start, _, _ in tasks}:
        if sum(max(d[0], 0) for s, l, d in tasks if s[1] <= time < s[0] + max(l[0], 0)) > most:
            return FALSE
    if MAYBE in marks or any(length[0] < 0 or demand[0] < 0 for _, length, demand in tasks) or least < 0:
        return UNKNOWN
    for time in {start[0] for start, _, _ in tasks}:
        if sum(d[1] for s, l, d in tasks if s[0] <= time < s[1] + l[1]) > least:
            return UNKNOWN
    return TRUE


class Problem:
    """The constraints and the objective of an accepted text in each scenario; raises `Limit` where its terms pass one."""

    def __init__(self, text, most=10**9):
        self.text = text
        nodes = sum(self.nodes(one[0], one[1], most) for one in text.hards + text.chances)
        nodes += self.nodes(text.goal[2], {}, most) if text.goal else 0
        if nodes * text.scenarios > 4194304:
            raise Limit(206, nodes * text.scenarios, 4194304)
        if nodes * text.scenarios > most:
            raise TooMuch
        self.root, self.first, self.shares = [], {}, {}
        for stage in range(1, 25):
            self.shares[stage] = text.scenarios // text.histories[stage]
        for name, index, lo, hi, stage in text.decisions:
            self.first[name, index] = len(self.root)
            self.root += [(lo, hi)] * text.histories[stage]
        self.place = {id(one): number for number, one in enumerate(text.chance)}
        scenarios = range(text.scenarios)
        self.weights = [text.weight(s) for s in scenarios]
        self.hards = [[self.condition(node, env, s) for s in scenarios] for node, env in text.hards]
        self.chances = [([self.condition(node, env, s) for s in scenarios], p, q) for node, env, p, q in text.chances]
        self.goals = [self.number(text.goal[2], {}, s) for s in scenarios] if text.goal else []
        self.direction = text.goal[0] if text.goal else None
        self.den = 1
        if text.goal and text.goal[1] == "expected":
            self.den = text.whole
            greatest = max(self.size(goal) for goal in self.goals)
            if text.whole * (greatest + 1) > 2**126:
                raise Limit(207, text.whole * (greatest + 1), 2**126)
            self.expected = combined(list(zip(self.weights, self.goals)), self.goals)

    def nodes(self, node, env, most):
        """How many term nodes an expression has."""
        text, parts = self.text, node.parts
        if node.kind in ("add", "multiply"):
            return 1 + sum(self.nodes(part, env, most) for _, part in parts)
        if node.kind not in ("sum", "allDifferent", "cumulative"):
            return 1 + sum(self.nodes(part, env, most) for part in parts)
        found = 1 + sum(self.nodes(part, env, most) for part in parts[3:])
        for inner in text.bindings(node.binders, env, text.value):
            found += sum(self.nodes(part, inner, most) for part in parts[:3])
            if found > 100 * most:
                raise TooMuch
        return found

    def size(self, number):
        found = abs(number.constant)
        for cell, k in number.cells.items():
            found += abs(k) * max(1, *map(abs, self.root[cell]))
        for atom, k in number.atoms:
            found += abs(k) * max(1, *map(abs, atom_interval(atom, self.root, True)))
        return found

    def measured(self, number):
        size = self.size(number)
        if size > GREATEST:
            raise Limit(207, size, GREATEST)
        return number

    def number(self, node, env, s):
        return self.measured(self.unmeasured(node, env, s))

    def element(self, node, env, s):
        kind, sets, found = self.text.arrays[node.name]
        indices = [self.number(part, env, s) for part in node.parts]
        if all(index.is_constant() for index in indices):
            at = tuple(index.constant for index in indices)
            if at in found:
                item = self.item(kind, found[at], at, node.name, s)
                return Number(item.constant, item.cells, item.atoms, indices, Element(sets, None, indices))
        items = {at: self.item(kind, one, at, node.name, s) for at, one in found.items()}
        element = Element(sets, items, indices)
        return Number(0, {}, [(("element", element), 1)], indices, element)

    def item(self, kind, one, index, name, s):
        if kind == "int":
            return Number(one)
        if kind == "stoch":
            return Number(self.text.seen[s][self.place[id(one)]][0])
        return Number(0, {self.first[name, index] + s // self.shares[one[4]]: 1})

    def folded(self, kind, parts, numbers, constant):
        """An atom, or the constant that it is where all are constant and sure."""
        if all(number.is_constant() and mark(number, self.root) == ALWAYS for number in numbers):
            return Number(constant(), kids=numbers)
        return Number(0, {}, [((kind, parts), 1)], numbers)

    def unmeasured(self, node, env, s):
        kind, parts = node.kind, node.parts
        if kind in CONDITIONS:
            return Number(0, {}, [(("condition", self.condition(node, env, s)), 1)])
        if kind == "literal":
            return Number(node.name)
        if kind == "name":
            return Number(env[node.name]) if node.name in env else self.element(node, env, s)
        if kind == "minus":
            inside = self.number(parts[0], env, s)
            return combined([(-1, inside)], [inside])
        if kind == "add":
            numbers = [self.number(part, env, s) for _, part in parts]
            return combined([(1 if sign == "+" else -1, number) for (sign, _), number in zip(parts, numbers)], numbers)
        if kind == "sum":
            numbers = [self.number(parts[0], inner, s) for inner in self.text.bindings(node.binders, env, self.text.value)]
            return combined([(1, number) for number in numbers], numbers)
        if kind == "multiply":
            return self.product(parts, env, s)
        numbers = [self.number(part, env, s) for part in parts]
        constants = [number.constant for number in numbers]
        return self.folded(kind, numbers, numbers, lambda: abs(constants[0]) if kind == "abs" else {"min": min, "max": max}[kind](constants))

    def product(self, parts, env, s):
        left = self.number(parts[0][1], env, s)
        for sign, part in parts[1:]:
            if sign == "*":
                right = self.number(part, env, s)
                if right.is_constant():
                    left = combined([(right.constant, left)], [left, right])
                elif left.is_constant():
                    left = combined([(left.constant, right)], [left, right])
                else:
                    left = Number(0, {}, [(("*", [left, right]), 1)], [left, right])
            else:
                divisor, of = self.text.value(part, env), left
                left = self.folded(sign, [of, divisor], [of], lambda: (quotient if sign == "div" else remainder)(of.constant, divisor))
            self.measured(left)
        return left

    def condition(self, node, env, s):
        kind, parts = node.kind, node.parts
        if kind == "compare":
            sides = [self.number(part, env, s) for part in parts]
            return kind, sides, node.name, combined([(1, sides[0]), (-1, sides[1])], sides)
        if kind in ("not", "and", "or", "implies"):
            return kind, [self.condition(part, env, s) for part in parts]
        inners = self.text.bindings(node.binders, env, self.text.value)
        if kind == "allDifferent":
            return kind, [self.number(parts[0], inner, s) for inner in inners]
        tasks = [[self.number(part, inner, s) for part in parts[:3]] for inner in inners]
        return kind, tasks, self.number(parts[3], env, s)

    def better(self, a, b):
        return a < b if self.direction == "minimize" else a > b if self.direction == "maximize" else False

    def ends(self, box):
        """The ends of the objective over a box."""
        if not self.goals:
            return 0, 0
        if self.text.goal[1] == "expected":
            return interval(self.expected, box)
        both = [interval(goal, box) for goal in self.goals]
        pick = max if self.direction == "minimize" else min
        return pick(lo for lo, _ in both), pick(hi for _, hi in both)

    def best(self, box):
        lo, hi = self.ends(box)
        return lo if self.direction == "minimize" else hi

    def refuted(self, reason, box, value):
        if reason[0] == "h":
            instance, scenario = reason[1:]
            return instance < len(self.hards) and scenario < self.text.scenarios and truth(self.hards[instance][scenario], box) == FALSE
        if reason[0] == "c":
            if reason[1] >= len(self.chances):
                return False
            conditions, p, q = self.chances[reason[1]]
            may = sum(weight for weight, condition in zip(self.weights, conditions) if truth(condition, box) != FALSE)
            return q * may < p * self.text.whole
        if reason[0] == "u":
            return bool(self.goals) and reason[1] < self.text.scenarios and mark(self.goals[reason[1]], box) == NEVER
        lo, hi = self.ends(box)
        return value is not None and not (self.better(lo, value) or self.better(hi, value))

    def satisfies(self, box):
        """Whether a box of one point satisfies."""
        if any(truth(condition, box) != TRUE for scenarios in self.hards for condition in scenarios):
            return False
        for conditions, p, q in self.chances:
            if q * sum(weight for weight, condition in zip(self.weights, conditions) if truth(condition, box) == TRUE) < p * self.text.whole:
                return False
        return all(mark(goal, box) == ALWAYS for goal in self.goals)


# Logs.

PLAIN = "(0|[1-9][0-9]*)"
SIGNED = "(0|-?[1-9][0-9]*)"
REASON = "(?:(h) %s %s|(c) %s|(u) %s|(b))" % (PLAIN, PLAIN, PLAIN, PLAIN)
ROOT = re.compile(("n %s r" % PLAIN).encode())
CHILD = re.compile(("n %s %s ([lh])" % (PLAIN, PLAIN)).encode())
STEP = re.compile(("s %s %s (le|ge) %s" % (REASON, PLAIN, SIGNED)).encode())
CLOSED = re.compile(("f %s" % REASON).encode())
SPLIT = re.compile(("x %s %s" % (PLAIN, SIGNED)).encode())
END = re.compile(("end (?:(optimal) %s|(infeasible)|(bounded) (?:%s|(none)) %s)" % (SIGNED, SIGNED, SIGNED)).encode())


def lines_of(content):
    """The lines without their ends; a CR is one only before a LF, and nothing behind the last LF is no line."""
    *whole, last = content.split(b"\n")
    return [line[:-1] if line.endswith(b"\r") else line for line in whole] + ([last] if last else [])


def reason_of(parts):
    h, i, s, c, j, u, t, b = parts
    if h:
        return ("h", int(i), int(s))
    return ("c", int(j)) if c else ("u", int(t)) if u else ("b",)


def within(reason):
    return all(number < 2**32 for number in reason[1:])


class Log:
    """The lines of a log as (kind, what it says), and its last line; raises `Refused` with the code and the line."""

    def __init__(self, content):
        self.lines = []
        self.sides = {}
        depths, ended = [], []
        lines = lines_of(content)
        state = "head"
        for number, line in enumerate(lines, 1):
            read = self.line(line, state)
            if read is None:
                raise Refused(301, number)
            if read[0] == "n":
                _, node, parent, side = read
                if node != len(depths) or (side == "r") != (len(depths) == 0):
                    raise Refused(302, number)
                if side != "r":
                    if parent >= len(depths) or not ended[parent] or (parent, side) in self.sides:
                        raise Refused(302, number)
                    self.sides[parent, side] = node
                depths.append(0 if side == "r" else depths[parent] + 1)
                ended.append(False)
                if depths[-1] > 2048:
                    raise Refused(303, number)
                state = "in"
            elif read[0] == "end":
                state = "over"
            elif read[0] == "head":
                state = "first"
            elif read[0] != "s":
                ended[-1] = read[0] == "x"
                state = "between"
            self.lines.append(read)
        if state != "over":
            raise Refused(301, len(lines) + 1)
        self.nodes = len(depths)

    def line(self, line, state):
        if state == "head":
            return ("head",) if line == b"sopl-log 1" else None
        if state == "in":
            return self.inside(line)
        if state in ("first", "between"):
            match = ROOT.fullmatch(line)
            if match:
                node = int(match.group(1))
                return ("n", node, None, "r") if node < 2**64 else None
            match = CHILD.fullmatch(line)
            if match:
                node, parent = int(match.group(1)), int(match.group(2))
                return ("n", node, parent, match.group(3).decode()) if node < 2**64 and parent < 2**64 else None
        if state == "between":
            match = END.fullmatch(line)
            if match:
                optimal, v, infeasible, bounded, value, none, bound = match.groups()
                numbers = [int(v)] if optimal else [] if infeasible else ([int(value)] if value else []) + [int(bound)]
                if all(-(2**127) <= number < 2**127 for number in numbers):
                    claim = "optimal" if optimal else "infeasible" if infeasible else "bounded"
                    return ("end", claim, None if infeasible or none else numbers[0], numbers[-1] if bounded else None)
        return None

    def inside(self, line):
        if line in (b"v", b"o"):
            return (line.decode(),)
        match = STEP.fullmatch(line)
        if match:
            reason, cell, k = reason_of(match.groups()[:8]), int(match.group(9)), int(match.group(11))
            if within(reason) and cell < 2**32 and -(2**63) <= k < 2**63:
                return ("s", reason, cell, match.group(10).decode(), k)
        match = CLOSED.fullmatch(line)
        if match:
            reason = reason_of(match.groups())
            return ("f", reason) if within(reason) else None
        match = SPLIT.fullmatch(line)
        if match:
            cell, k = int(match.group(1)), int(match.group(2))
            return ("x", cell, k) if cell < 2**32 and -(2**63) <= k < 2**63 else None
        return None


def first_wrong(problem, log):
    """The first line that is not right, with its node, or nothing."""
    _, claim, value, bound = log.lines[-1]
    boxes, node, found, left, last = [], -1, [], [], []
    for number, line in enumerate(log.lines, 1):
        kind, right = line[0], True
        if kind == "n":
            node += 1
            box = list(problem.root)
            if line[3] != "r":
                box, (cell, k) = list(boxes[line[2]]), last[line[2]]
                lo, hi = box[cell]
                box[cell] = (lo, k) if line[3] == "l" else (k + 1, hi)
            boxes.append(box)
            last.append(None)
        elif kind == "s":
            _, reason, cell, side, k = line
            box = boxes[node]
            right = cell < len(box) and not (value is None and reason == ("b",))
            if right:
                lo, hi = box[cell]
                right = lo <= k < hi if side == "le" else lo < k <= hi
            if right:
                cut = list(box)
                cut[cell] = (k + 1, hi) if side == "le" else (lo, k - 1)
                right = problem.refuted(reason, cut, value)
                box[cell] = (lo, k) if side == "le" else (k, hi)
        elif kind == "f":
            right = problem.refuted(line[1], boxes[node], value)
        elif kind == "x":
            _, cell, k = line
            right = cell < len(problem.root) and boxes[node][cell][0] <= k < boxes[node][cell][1]
            right = right and (node, "l") in log.sides and (node, "h") in log.sides
            last[node] = (cell, k)
        elif kind == "v":
            box = boxes[node]
            right = value is not None and all(lo == hi for lo, hi in box) and problem.satisfies(box)
            if right:
                found.append(problem.ends(box)[0])
                right = not problem.better(found[-1], value)
        elif kind == "o":
            left.append(problem.best(boxes[node]))
            right = claim == "bounded" or (claim == "optimal" and problem.refuted(("b",), boxes[node], value))
        elif kind == "end":
            node += 1
            pick = min if problem.direction == "minimize" else max
            if claim == "optimal":
                right = value in found
            elif claim == "bounded" and value is None:
                right = not found and bool(left) and bound == pick(left)
            elif claim == "bounded":
                right = bool(found) and value == pick(found) and bound == pick(left + [value])
        if not right:
            return number, node
    return None


def checked(problem, content):
    """The status and the answer of `check` for the text's problem and a log."""
    try:
        log = Log(content)
    except Refused as refused:
        return 9, {"answer": "unreadable", "at": refused.at, "code": refused.code}
    wrong = first_wrong(problem, log)
    if wrong:
        return 1, {"answer": "rejected", "line": wrong[0], "node": wrong[1]}
    _, claim, value, bound = log.lines[-1]
    answer = {"answer": "accepted", "claim": claim}
    if value is not None:
        answer["value"] = "%d/%d" % (value, problem.den)
    if bound is not None:
        answer["bound"] = "%d/%d" % (bound, problem.den)
    return 0, answer


def read(content, most=10**9):
    """An accepted text with its problem, or the status and the answer of any command that reads it."""
    try:
        text = Text(content)
        return text, Problem(text, most), None
    except Refused as refused:
        return None, None, (3, {"answer": "refused", "at": refused.at, "code": refused.code})
    except Limit as limit:
        return None, None, (4, {"answer": "limit", "code": limit.code, "counted": str(limit.counted), "limit": str(limit.most)})


def printed(answer):
    """The line that tells an answer."""
    return json.dumps(answer, separators=(",", ":"), sort_keys=True).encode() + b"\n"


# Policies.


def whole(number):
    """A number of JSON as a whole number, or nothing where it is written otherwise or is too large."""
    return number if type(number) is int and -(2**63) <= number < 2**63 else None


def number_of(word):
    return int(word) if word != "-0" and -(2**63) <= int(word) < 2**64 else fraction_of(word)


def fraction_of(word):
    """A number that is read as a fraction; one that passes all of them is none."""
    found = float(word)
    if found in (float("inf"), float("-inf")):
        raise ValueError
    return found


def refuse(word):
    raise ValueError


def depth_of(value):
    """How many lists and objects stand in one another at most."""
    deepest, left = 0, [(value, 1)]
    while left:
        one, depth = left.pop()
        if isinstance(one, (list, dict)):
            deepest = max(deepest, depth)
            left += [(part, depth + 1) for part in (one.values() if isinstance(one, dict) else one)]
    return deepest


class PolicyText:
    """What a text says of each cell of a problem, in the order of its nodes; raises `Refused`."""

    def __init__(self, problem, content):
        self.text, self.problem = problem.text, problem
        self.nodes, self.found = 0, []
        try:
            value = json.loads(content.decode("utf-8"), parse_constant=refuse, parse_int=number_of, parse_float=fraction_of)
            json.dumps(value, ensure_ascii=False).encode("utf-8")
        except (ValueError, RecursionError):
            raise Refused(401, 0) from None
        if depth_of(value) > 127:
            raise Refused(401, 0)
        if not isinstance(value, dict) or "policy" not in value:
            raise Refused(402, 0)
        self.node(value["policy"], 1, 0, self.text.scenarios)
        for cell, number in self.found:
            lo, hi = problem.root[cell]
            if not lo <= number <= hi:
                raise Refused(403, cell)
        self.point = dict(self.found)

    def node(self, node, stage, first, count):
        """A node of a stage over so many scenarios from the first on."""
        here, text = self.nodes, self.text
        self.nodes += 1
        wrong = Refused(402, here)
        if not isinstance(node, dict) or not isinstance(node.get("decide"), list) or not isinstance(node.get("next"), list):
            raise wrong
        decisions = [one for one in text.decisions if one[4] == stage]
        if len(node["decide"]) != len(decisions):
            raise wrong
        for one, entry in zip(decisions, node["decide"]):
            if not self.is_entry(entry, one) or whole(entry[2]) is None:
                raise wrong
            self.found.append((self.problem.first[one[0], one[1]] + first // self.problem.shares[stage], entry[2]))
        if stage == text.last:
            if node["next"]:
                raise wrong
            return
        drawn = [(number, one) for number, one in enumerate(text.chance) if one[4] == stage]
        branches = 1
        for _, one in drawn:
            branches *= len(one[2])
        if len(node["next"]) != branches:
            raise wrong
        each = count // branches
        for number, entry in enumerate(node["next"]):
            if not isinstance(entry, dict) or "then" not in entry or not isinstance(entry.get("seen"), list) or len(entry["seen"]) != len(drawn):
                raise wrong
            for (place, one), seen in zip(drawn, entry["seen"]):
                if not self.is_entry(seen, one) or whole(seen[2]) != text.seen[first + number * each][place][0]:
                    raise wrong
        for number, entry in enumerate(node["next"]):
            self.node(entry["then"], stage + 1, first + number * each, each)

    def is_entry(self, entry, one):
        if not isinstance(entry, list) or len(entry) != 3 or not isinstance(entry[1], list):
            return False
        return entry[0] == one[0] and [whole(number) for number in entry[1]] == list(one[1])


def evaluated(problem, content):
    """The status and the answer of `eval` for the text's problem and a policy."""
    try:
        policy = PolicyText(problem, content)
    except Refused as refused:
        return 9, {"answer": "unreadable", "at": refused.at, "code": refused.code}
    box = [(policy.point[cell], policy.point[cell]) for cell in range(len(problem.root))]
    for instance, scenarios in enumerate(problem.hards):
        for scenario, condition in enumerate(scenarios):
            if truth(condition, box) != TRUE:
                return 1, {"answer": "failing", "instance": instance, "scenario": scenario, "what": "hard"}
    sums = [sum(weight for weight, condition in zip(problem.weights, conditions) if truth(condition, box) == TRUE) for conditions, _, _ in problem.chances]
    printed_sums = ["%d/%d" % (found, problem.text.whole) for found in sums]
    for instance, (found, (_, p, q)) in enumerate(zip(sums, problem.chances)):
        if q * found < p * problem.text.whole:
            return 1, {"answer": "failing", "instance": instance, "sum": printed_sums[instance], "what": "chance"}
    for scenario, goal in enumerate(problem.goals):
        if mark(goal, box) != ALWAYS:
            return 1, {"answer": "failing", "scenario": scenario, "what": "objective"}
    return 0, {"answer": "satisfied", "chances": printed_sums, "value": "%d/%d" % (problem.ends(box)[0], problem.den)}
