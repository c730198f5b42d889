"""Makes random programs, typed as they are made, or with one part changed, and says by rules of its own which function is refused.

    programs.py rows COUNT SEED    a line for each program: `typed` or `untyped N`, an arrow, the text
"""
import random
import sys

NEVER = "never"
UNIT, BOOL, INT, TEXT = "unit", "bool", "int", "text"
ARITHMETIC = ["+", "-", "*", "/", "%"]
COMPARISONS = ["<", "<=", ">", ">="]
EQUALITIES = ["==", "!="]
SHORTCUTS = ["&&", "||"]


# Types are words, or ("chan", T), ("ref", T), ("pair", T, U).
def show_type(t):
    if isinstance(t, str):
        return t
    if t[0] == "pair":
        return "(%s, %s)" % (show_type(t[1]), show_type(t[2]))
    return "%s[%s]" % (t[0], show_type(t[1]))


# Expressions are lists: the form, what it names, and its parts. An item of a block is (name or None, expression).
def show(e):
    form, name, parts = e
    if form in ("literal", "variable"):
        return name
    if form == "two":
        return "(%s %s %s)" % (show(parts[0]), name, show(parts[1]))
    if form == "one":
        return "%s(%s)" % (name, show(parts[0]))
    if form == "pair":
        return "(%s, %s)" % (show(parts[0]), show(parts[1]))
    if form == "if":
        return "if %s { %s } else { %s }" % tuple(show(p) for p in parts)
    if form == "block":
        items = []
        for let, part in zip(name, parts):
            items.append(("let %s = %s; " % (let, show(part))) if let else show(part) + "; ")
        return "{ %s%s }" % ("".join(items), show(parts[-1]))
    if form == "call":
        return "%s(%s)" % (name, ", ".join(show(p) for p in parts))
    if form in ("spawn", "stable"):
        return "%s %s(%s)" % (form, name, ", ".join(show(p) for p in parts))
    if form == "chan":
        return "chan[%s]()" % show_type(name)
    return "%s(%s)" % (form, ", ".join(show(p) for p in parts))


def show_function(f):
    takes = ", ".join("%s: %s" % (n, show_type(t)) for n, t in f["takes"])
    return "fn %s(%s): %s { %s }" % (f["name"], takes, show_type(f["gives"]), show(f["body"]))


def show_program(functions):
    return " ".join(show_function(f) for f in functions)


# ---- what is typed

class Untyped(Exception):
    pass


def is_of(t, form):
    return isinstance(t, tuple) and t[0] == form


def want(yes):
    if not yes:
        raise Untyped


def type_of(e, seen, functions):
    form, name, parts = e
    if form == "literal":
        return {"()": UNIT, "true": BOOL, "false": BOOL}.get(name, TEXT if name.startswith('"') else INT)
    if form == "variable":
        return seen[name]
    if form == "block":
        inner = dict(seen)
        given = []
        for i, part in enumerate(parts):
            given.append(type_of(part, inner, functions))
            if i < len(name) and name[i]:
                inner[name[i]] = given[-1]
        return NEVER if NEVER in given[:-1] else given[-1]
    given = [type_of(p, seen, functions) for p in parts]
    first_alone = form == "if" or (form == "two" and name in SHORTCUTS)
    if NEVER in (given[:1] if first_alone else given):
        return NEVER
    if form == "if":
        want(given[0] == BOOL)
        if given[1] == NEVER:
            return given[2]
        want(given[2] in (NEVER, given[1]))
        return given[1]
    if form == "two":
        if name in SHORTCUTS:
            want(given[0] == BOOL and given[1] in (BOOL, NEVER))
            return BOOL
        if name in EQUALITIES:
            return BOOL
        want(given == [INT, INT])
        return INT if name in ARITHMETIC else BOOL
    if form == "one":
        want(given == [{"!": BOOL, "-": INT}[name]])
        return given[0]
    if form == "pair":
        return ("pair", given[0], given[1])
    if form in ("call", "spawn", "stable"):
        callee = functions[name]
        want(given == [t for _, t in callee["takes"]])
        return UNIT if form == "spawn" else callee["gives"]
    if form == "chan":
        return ("chan", name)
    if form == "ref":
        return ("ref", given[0])
    if form == "get":
        want(is_of(given[0], "ref"))
        return given[0][1]
    if form == "recv":
        want(is_of(given[0], "chan"))
        return given[0][1]
    if form == "set":
        want(given[0] == ("ref", given[1]))
        return UNIT
    if form == "send":
        want(given[0] == ("chan", given[1]))
        return UNIT
    if form == "pick":
        want(is_of(given[0], "chan") and given[0] == given[1])
        return ("pair", INT, given[0][1])
    if form in ("fst", "snd"):
        want(is_of(given[0], "pair"))
        return given[0][1 if form == "fst" else 2]
    if form in ("print", "cut", "pin"):
        return UNIT
    if form in ("probe", "attempt"):
        return INT
    return NEVER


# The number of the first function that isn't typed, or None.
def first_untyped(functions):
    by_name = {f["name"]: f for f in functions}
    for i, f in enumerate(functions):
        try:
            given = type_of(f["body"], dict(f["takes"]), by_name)
        except Untyped:
            return i
        if given not in (NEVER, f["gives"]):
            return i
    return None


# ---- programs that are typed as they are made

class Maker:
    def __init__(self, rng):
        self.rng = rng
        self.functions = []
        self.lets = 0

    def written(self, depth=2):
        pick = self.rng.random()
        if depth == 0 or pick < 0.55:
            return self.rng.choice([UNIT, BOOL, INT, INT, TEXT])
        if pick < 0.7:
            return ("chan", self.written(depth - 1))
        if pick < 0.82:
            return ("ref", self.written(depth - 1))
        return ("pair", self.written(depth - 1), self.written(depth - 1))

    def literal(self, t):
        if t == UNIT:
            return ["literal", "()", []]
        if t == BOOL:
            return ["literal", self.rng.choice(["true", "false"]), []]
        if t == INT:
            return ["literal", str(self.rng.randrange(0, 9)), []]
        if t == TEXT:
            return ["literal", '"%s"' % self.rng.choice("abc"), []]
        if t[0] == "chan":
            return ["chan", t[1], []]
        if t[0] == "ref":
            return ["ref", None, [self.literal(t[1])]]
        return ["pair", None, [self.literal(t[1]), self.literal(t[2])]]

    # An expression that has this type, or never a value.
    def make(self, t, seen, depth):
        rng = self.rng
        own = [n for n, u in seen.items() if u == t]
        if own and rng.random() < 0.35:
            return ["variable", rng.choice(own), []]
        if depth == 0:
            return self.literal(t)
        ways = ["literal", "if", "block", "block", "get", "fst", "snd", "call", "stable"]
        if ("chan", t) in seen.values():
            ways += ["recv"] * 2
        if is_of(t, "pair") and ("chan", t[2]) in seen.values():
            ways += ["pick"]
        if rng.random() < 0.03:
            ways += ["stabilize"]
        if t == UNIT:
            ways += ["print", "print", "set", "send", "spawn", "spawn", "cut", "pin"]
        if t == BOOL:
            ways += ["compare", "equal", "shortcut", "not"]
        if t == INT:
            ways += ["arithmetic", "arithmetic", "negative", "probe", "attempt"]
        if isinstance(t, tuple):
            ways += [t[0]] * 3
        return self.by(rng.choice(ways), t, seen, depth - 1)

    def by(self, way, t, seen, depth):
        def make(u):
            return self.make(u, seen, depth)

        rng = self.rng
        if way == "if":
            return ["if", None, [make(BOOL), make(t), make(t)]]
        if way == "block":
            return self.block(t, seen, depth)
        if way == "get":
            return ["get", None, [make(("ref", t))]]
        if way == "recv":
            return ["recv", None, [make(("chan", t))]]
        if way == "pick" and is_of(t, "pair") and t[1] == INT:
            return ["pick", None, [make(("chan", t[2])), make(("chan", t[2]))]]
        if way == "fst":
            return ["fst", None, [make(("pair", t, self.written(1)))]]
        if way == "snd":
            return ["snd", None, [make(("pair", self.written(1), t))]]
        if way in ("call", "stable"):
            fits = [f for f in self.functions if f["gives"] == t]
            if fits:
                return self.called(way, rng.choice(fits), seen, depth)
        if way == "spawn" and self.functions:
            return self.called(way, rng.choice(self.functions), seen, depth)
        if way == "print":
            return ["print", None, [make(self.written(1))]]
        if way == "set":
            u = self.written(1)
            return ["set", None, [make(("ref", u)), make(u)]]
        if way == "send":
            u = self.written(1)
            return ["send", None, [make(("chan", u)), make(u)]]
        if way in ("cut", "pin", "probe", "attempt", "stabilize"):
            return [way, None, []]
        if way == "compare":
            return ["two", rng.choice(COMPARISONS), [make(INT), make(INT)]]
        if way == "equal":
            return ["two", rng.choice(EQUALITIES), [make(self.written(1)), make(self.written(1))]]
        if way == "shortcut":
            return ["two", rng.choice(SHORTCUTS), [make(BOOL), make(BOOL)]]
        if way == "not":
            return ["one", "!", [make(BOOL)]]
        if way == "negative":
            return ["one", "-", [make(INT)]]
        if way == "arithmetic":
            return ["two", rng.choice(ARITHMETIC), [make(INT), make(INT)]]
        if way == "ref":
            return ["ref", None, [make(t[1])]]
        if way == "pair":
            return ["pair", None, [make(t[1]), make(t[2])]]
        return self.literal(t)

    def called(self, way, f, seen, depth):
        return [way, f["name"], [self.make(t, seen, depth) for _, t in f["takes"]]]

    def block(self, t, seen, depth):
        inner = dict(seen)
        names, parts = [], []
        for _ in range(self.rng.randrange(1, 4)):
            u = self.written()
            part = self.make(u, inner, depth)
            name = None
            if self.lets < 150 and self.rng.random() < 0.7:
                self.lets += 1
                name = "x%d" % self.rng.randrange(0, 4)
            names.append(name)
            parts.append(part)
            if name:
                by_name = {f["name"]: f for f in self.functions}
                inner[name] = type_of(part, inner, by_name)
        parts.append(self.make(t, inner, depth))
        return ["block", names, parts]

    def program(self):
        rng = self.rng
        count = rng.randrange(2, 5)
        self.functions = [
            {"name": "f%d" % i, "takes": [("p%d" % j, self.written()) for j in range(rng.randrange(0, 3))],
             "gives": self.written(), "body": None}
            for i in range(count)
        ]
        main = {"name": "main", "takes": [], "gives": UNIT, "body": None}
        self.functions.insert(rng.randrange(0, count + 1), main)
        for f in self.functions:
            self.lets = 0
            f["body"] = self.main() if f is main else self.make(f["gives"], dict(f["takes"]), 4)
        return self.functions

    # Channels and references for the other functions, each of which is called or started, some in sections.
    def main(self):
        rng = self.rng
        others = [f for f in self.functions if f["name"] != "main"]
        shared = sorted({t for f in others for _, t in f["takes"] if not isinstance(t, str)}, key=show_type)
        names, parts, seen = [], [], {}
        for i, t in enumerate(shared):
            names.append("y%d" % i)
            parts.append(self.make(t, seen, 1))
            seen["y%d" % i] = t
        for f in others + [rng.choice(others) for _ in range(3)]:
            names.append(None)
            parts.append(self.called(rng.choice(["spawn", "spawn", "call", "stable"]), f, seen, 2))
        parts.append(self.make(UNIT, seen, 3))
        names.append(None)
        parts.append(["print", None, [self.make(INT, seen, 3)]])
        return ["block", names, parts]


# ---- one part changed

def places(e, found):
    for i in range(len(e[2])):
        found.append((e[2], i))
        places(e[2][i], found)
    return found


def change(functions, rng, maker):
    f = rng.choice(functions)
    if rng.random() < 0.1:
        f["gives"] = maker.written()
        return
    found = places(f["body"], [([f["body"]], 0)])
    parts, i = rng.choice(found)
    other = maker.literal(maker.written())
    if parts[i] is f["body"]:
        f["body"] = other
    else:
        parts[i] = other


def programs(count, seed):
    rng = random.Random(seed)
    for i in range(count):
        maker = Maker(rng)
        functions = maker.program()
        if i % 2:
            change(functions, rng, maker)
        first = first_untyped(functions)
        if i % 2 == 0 and first is not None:
            raise SystemExit("a program that was made to be typed isn't: " + show_program(functions))
        yield ("typed" if first is None else "untyped %d" % first), show_program(functions)


if __name__ == "__main__":
    if len(sys.argv) != 4 or sys.argv[1] != "rows":
        raise SystemExit(__doc__)
    for told, text in programs(int(sys.argv[2]), int(sys.argv[3])):
        print("%s <- %s" % (told, text))
