"""Sources at random, with the lines that their reports begin with, and large ones at limits of the machine."""

import random

STATE = ("controlled", "output")


def bits(size):
    return (size - 1).bit_length()


class Domain:
    def __init__(self, name, low, size, names=None):
        self.name, self.low, self.size, self.names = name, low, size, names
        self.high = low + size - 1

    def declared(self):
        if self.names:
            return "domain %s = { %s }" % (self.name, " , ".join(self.names))
        return "domain %s = %d to %d" % (self.name, self.low, self.high)

    def spelled(self, value):
        return self.names[value] if self.names else str(value)


class Function:
    def __init__(self, kind, name, args, codomain, table=None):
        self.kind, self.name, self.args, self.codomain, self.table = kind, name, args, codomain, table
        self.size, self.padded = 1, 1
        for arg in args:
            self.size *= arg.size
            self.padded <<= bits(arg.size)

    def declared(self):
        args = " ( %s )" % " , ".join(arg.name for arg in self.args) if self.args else ""
        table = " = [ %s ]" % " , ".join(self.codomain.spelled(value) for value in self.table) if self.table else ""
        return "%s %s%s : %s%s" % (self.kind, self.name, args, self.codomain.name, table)

    def locations(self):
        """The padded index and the spelling of each location, in order."""
        found = [(0, [])]
        for arg in self.args:
            found = [
                (index << bits(arg.size) | value - arg.low, spelled + [arg.spelled(value)])
                for index, spelled in found
                for value in range(arg.low, arg.high + 1)
            ]
        return [(index, self.name + ("(%s)" % ",".join(spelled) if spelled else "")) for index, spelled in found]


class Part:
    """A term or a rule: its text, what it weighs, the registers that it needs, the binders in it, and a term's range."""

    def __init__(self, text, weight, registers, binders=0, low=0, high=1):
        self.text, self.weight, self.registers, self.binders = text, weight, registers, binders
        self.low, self.high = low, high


class Source:
    """A program in parts: its name, what is declared, the rule's text, and the lines with which its report begins where they are known."""

    def __init__(self, name, declarations, rule, head=None):
        self.name, self.declarations, self.rule, self.head = name, declarations, rule, head

    def job(self):
        return "%%source\nmachine %s\n%s\nrule %s\n" % (self.name, self.declarations, self.rule)


def head_of(name, functions, rule):
    """The lines of the report before its words, and the number of words of ROM."""
    state = [f for f in functions if f.kind in STATE]
    inputs = [f for f in functions if f.kind == "input"]
    outputs = [f for f in functions if f.kind == "output"]
    statics = sum(f.padded for f in functions if f.kind == "static")
    cells = sum(f.padded for f in state)
    in_ports, out_ports = sum(f.size for f in inputs), sum(f.size for f in outputs)
    kept = sum(f.padded for f in inputs)
    bound = 64 + 24 * cells + rule.weight + 16 * in_ports + 20 * out_ports
    lines = ["program " + name, "revision 1", "shape unrolled", "layout words"]
    lines.append("ram %d" % (12 * cells + 4 * (kept + rule.binders + 4)))
    lines.append("rom %d" % (bound + statics))
    lines.append("anchor %d" % (2 * bound + statics + 2))
    lines.append("round %d" % bound)
    lines.append("registers %d" % max(1, rule.registers))
    start = 0
    for f in state:
        for index, location in f.locations():
            lines.append("place %s %08x 4 %d %d" % (location, 0x10000000 + 4 * (start + index), f.codomain.size, f.codomain.low))
        start += f.padded
    port = 0
    for f in inputs:
        for _, location in f.locations():
            lines.append("in %d %s %d %d" % (port, location, f.codomain.size, f.codomain.low))
            port += 1
    port = 0
    for f in outputs:
        for _, location in f.locations():
            lines.append("out %d %s" % (port, location))
            port += 1
    return lines, bound + statics


class Maker:
    """Makes a program at random."""

    def __init__(self, rng):
        self.rng = rng
        self.made = 0
        self.domains = self.some_domains()
        self.functions = self.some_functions()

    def chance(self, part):
        return self.rng.random() < part

    def name(self, letter):
        self.made += 1
        return "%s%d" % (letter, self.made)

    def some_domains(self):
        rng = self.rng
        found = []
        for _ in range(rng.randint(2, 4)):
            size = rng.choice([1, 2, 3, 3, 4, 5, 6, 7, 9, 10])
            found.append(Domain(self.name("D"), rng.choice([0, 0, 1, -2, -5, 7, -1048576, 1048000]), size))
        if self.chance(0.3):
            found.append(Domain(self.name("W"), rng.choice([0, -32768, -1048576, 983041]), rng.choice([300, 4097, 65535, 65536])))
        for _ in range(rng.randint(1, 2)):
            found.append(Domain(self.name("C"), 0, 0, None))
            found[-1].names = [self.name("e") for _ in range(rng.choice([1, 2, 3, 3, 5]))]
            found[-1].size = len(found[-1].names)
            found[-1].high = found[-1].size - 1
        return found

    def some_functions(self):
        rng = self.rng
        found = []
        for kind in ["controlled", "controlled"] + [
            rng.choice(["controlled", "controlled", "output", "input", "input", "static"]) for _ in range(rng.randint(1, 6))
        ]:
            args, size = [], 1
            for _ in range(rng.choice([0, 0, 1, 1, 2, 3])):
                arg = rng.choice(self.domains)
                if size * arg.size <= 40:
                    args.append(arg)
                    size *= arg.size
            codomain = rng.choice(self.domains)
            table = [rng.randint(codomain.low, codomain.high) for _ in range(size)] if kind == "static" else None
            found.append(Function(kind, self.name("f"), args, codomain, table))
        return found

    # ---- terms

    def number(self, value):
        if value < 0:
            return Part("( 0 - %d )" % -value, 10, 2, 0, value, value)
        return Part(str(value), 2, 1, 0, value, value)

    def element(self, domain, value):
        if domain.names:
            return Part(domain.names[value], 2, 1, 0, value, value)
        return self.number(value)

    def applied(self, f, depth, scope):
        """A function with terms behind it, with its weight but for 32, and its registers."""
        args = [self.value(arg, depth - 1, scope) for arg in f.args]
        text = f.name + (" ( %s )" % " , ".join(arg.text for arg in args) if args else "")
        registers = max([1] + [arg.registers + (1 if number else 0) for number, arg in enumerate(args)])
        return text, sum(16 + arg.weight for arg in args), registers

    def atom(self, sort, depth, scope):
        """A binder, a function or an element of the sort: that of a list domain, or None for numbers."""
        rng = self.rng
        binders = [binder for binder in scope if binder[1] is sort]
        if binders and self.chance(0.5):
            name, _, low, high = rng.choice(binders)
            return Part(name, 16, 1, 0, low, high)
        functions = [f for f in self.functions if (f.codomain if f.codomain.names else None) is sort]
        if functions and depth > 0 and self.chance(0.8):
            f = rng.choice(functions)
            text, weight, registers = self.applied(f, depth, scope)
            return Part(text, 32 + weight, registers, 0, f.codomain.low, f.codomain.high)
        if sort:
            return self.element(sort, rng.randint(0, sort.high))
        return self.number(rng.choice([0, 1, 2, 3, 5, 100, 2047, 2048, 65535]))

    def binary(self, sign, left, right, low=0, high=1):
        text = "( %s %s %s )" % (left.text, sign, right.text)
        return Part(text, 6 + left.weight + right.weight, max(left.registers, right.registers + 1), 0, low, high)

    def term(self, sort, depth, scope):
        rng = self.rng
        if depth <= 1 or self.chance(0.3):
            return self.atom(sort, depth, scope)
        if self.chance(0.2):
            guard = self.truth(depth - 1, scope)
            first, second = self.term(sort, depth - 1, scope), self.term(sort, depth - 1, scope)
            return Part(
                "cond ( %s , %s , %s )" % (guard.text, first.text, second.text),
                8 + guard.weight + first.weight + second.weight,
                max(guard.registers, first.registers, second.registers),
                0,
                min(first.low, second.low),
                max(first.high, second.high),
            )
        if sort:
            return self.atom(sort, depth, scope)
        left, right = self.term(None, depth - 1, scope), self.term(None, depth - 1, scope)
        form = rng.choice(["+", "-", "min", "max"])
        if form == "+":
            return self.binary("+", left, right, left.low + right.low, left.high + right.high)
        if form == "-":
            return self.binary("-", left, right, left.low - right.high, left.high - right.low)
        of = min if form == "min" else max
        return Part(
            "%s ( %s , %s )" % (form, left.text, right.text),
            6 + left.weight + right.weight,
            max(left.registers, right.registers + 1),
            0,
            of(left.low, right.low),
            of(left.high, right.high),
        )

    def truth(self, depth, scope):
        rng = self.rng
        if depth > 1 and self.chance(0.3):
            return self.binary(rng.choice(["and", "or"]), self.truth(depth - 1, scope), self.truth(depth - 1, scope))
        if depth > 1 and self.chance(0.15):
            inner = self.truth(depth - 1, scope)
            return Part("not " + inner.text, 4 + inner.weight, inner.registers)
        sort = rng.choice([None, None] + [domain for domain in self.domains if domain.names])
        sign = rng.choice(["=", "!="] if sort else ["=", "!=", "<", "<=", ">", ">="])
        return self.binary(sign, self.term(sort, depth - 1, scope), self.term(sort, depth - 1, scope))

    def value(self, domain, depth, scope):
        """A term whose range lies inside the domain."""
        if domain.names:
            return self.term(domain, depth, scope)
        term = self.term(None, depth, scope)
        if term.low >= domain.low and term.high <= domain.high:
            return term
        if self.chance(0.3):
            return self.element(domain, self.rng.randint(domain.low, domain.high))
        low, high = self.number(domain.low), self.number(domain.high)
        inner = Part(
            "min ( %s , %s )" % (term.text, high.text),
            6 + term.weight + high.weight,
            max(term.registers, high.registers + 1),
            0,
            min(term.low, domain.high),
            domain.high,
        )
        return Part(
            "max ( %s , %s )" % (low.text, inner.text),
            6 + low.weight + inner.weight,
            max(low.registers, inner.registers + 1),
            0,
            domain.low,
            domain.high,
        )

    # ---- rules

    def update(self, depth, scope):
        f = self.rng.choice([f for f in self.functions if f.kind in STATE])
        text, weight, registers = self.applied(f, depth, scope)
        value = self.value(f.codomain, depth, scope)
        return Part("%s := %s" % (text, value.text), 48 + weight + value.weight, max(registers, value.registers + 1))

    def counted(self):
        """A counter that a guard keeps inside its domain; none where no function serves."""
        served = [f for f in self.functions if f.kind in STATE and not f.args and not f.codomain.names and f.codomain.size > 1]
        if not served:
            return self.update(2, [])
        f = self.rng.choice(served)
        read = Part(f.name, 32, 1)
        if self.chance(0.5):
            guard = self.binary("<", read, self.number(f.codomain.high))
            sum_of = self.binary("+", read, self.number(1))
            text = "if %s then %s := %s end" % (guard.text, f.name, sum_of.text)
            return Part(text, 8 + guard.weight + 48 + sum_of.weight, max(guard.registers, sum_of.registers + 1))
        guard, low = self.binary("=", read, self.number(f.codomain.low)), self.number(f.codomain.high)
        less = self.binary("-", read, self.number(1))
        text = "%s := cond ( %s , %s , %s )" % (f.name, guard.text, low.text, less.text)
        return Part(text, 48 + 8 + guard.weight + low.weight + less.weight, 1 + max(guard.registers, low.registers, less.registers))

    def rule(self, depth, scope):
        rng = self.rng
        forms = ["update", "counted", "skip"] if depth <= 1 else ["update", "counted", "if", "if", "par", "par", "forall", "choose", "choose", "let"]
        form = rng.choice(forms)
        if form == "skip":
            return Part("skip", 0, 0) if self.chance(0.2) else self.update(2, scope)
        if form == "update":
            return self.update(3, scope)
        if form == "counted":
            return self.counted()
        if form == "par":
            parts = [self.rule(depth - 1, scope) for _ in range(rng.randint(1, 3))]
            return Part(
                "par %s end" % " ; ".join(part.text for part in parts),
                sum(part.weight for part in parts),
                max(part.registers for part in parts),
                sum(part.binders for part in parts),
            )
        if form == "if":
            return self.guarded(depth, scope)
        if form == "let":
            sort = rng.choice([None, None] + [domain for domain in self.domains if domain.names])
            value = self.term(sort, 3, scope)
            name = self.name("v")
            body = self.rule(depth - 1, scope + [(name, sort, value.low, value.high)])
            text = "let %s = %s in %s end" % (name, value.text, body.text)
            return Part(text, 8 + value.weight + body.weight, max(value.registers, body.registers), 1 + body.binders)
        return self.over_domain(form, depth, scope)

    def guarded(self, depth, scope):
        guard, then_rule = self.truth(3, scope), self.rule(depth - 1, scope)
        other = self.rule(depth - 1, scope) if self.chance(0.6) else Part("", 0, 0)
        behind = " else " + other.text if other.text else ""
        return Part(
            "if %s then %s%s end" % (guard.text, then_rule.text, behind),
            8 + guard.weight + then_rule.weight + other.weight,
            max(guard.registers, then_rule.registers, other.registers),
            then_rule.binders + other.binders,
        )

    def over_domain(self, form, depth, scope):
        domain = self.rng.choice([domain for domain in self.domains if domain.size <= 10])
        name = self.name("i")
        inner = scope + [(name, domain if domain.names else None, domain.low, domain.high)]
        has_guard = form == "choose" or self.chance(0.6)
        guard = self.truth(2, inner) if has_guard else Part("", 0, 0)
        body = self.rule(depth - 1, inner)
        other = self.rule(depth - 1, scope) if form == "choose" and self.chance(0.6) else Part("", 0, 0)
        text = "%s %s in %s%s do %s%s end" % (
            form,
            name,
            domain.name,
            " with " + guard.text if has_guard else "",
            body.text,
            " else " + other.text if other.text else "",
        )
        weight = domain.size * (8 + guard.weight + body.weight) + other.weight
        return Part(text, weight, max(guard.registers, body.registers, other.registers), 1 + body.binders + other.binders)


def at_random(seed, most_words=4000):
    """A source of at most so many words by its bound, the first that comes from the seed."""
    rng = random.Random(seed)
    while True:
        maker = Maker(rng)
        rule = maker.rule(5, [])
        head, words = head_of("m", maker.functions, rule)
        if words <= most_words and rule.registers <= 16:
            declarations = "\n".join(item.declared() for item in maker.domains + maker.functions)
            return Source("m", declarations, rule.text, head)


def ring(nodes, states):
    """Dijkstra's ring, where each node takes its neighbour's value, and the first one counts on where it has the last one's value."""
    last, most = nodes - 1, states - 1
    declarations = "domain Node = 0 to %d\ndomain Rest = 1 to %d\ndomain Key = 0 to %d\ncontrolled x ( Node ) : Key" % (last, last, most)
    rule = (
        "par if ( x ( 0 ) = x ( %d ) ) then x ( 0 ) := cond ( ( x ( 0 ) = %d ) , 0 , min ( ( x ( 0 ) + 1 ) , %d ) ) end ; "
        "forall i in Rest do x ( i ) := x ( ( i - 1 ) ) end end"
    ) % (last, most, most)
    return Source("ring", declarations, rule)


def large():
    """Sources at limits of the machine."""
    digit = "domain D = 0 to 9\n"
    yield Source(
        "ports",
        digit + "domain P = -128 to 127\ncontrolled x : D\ninput i ( P ) : D\noutput o ( P ) : D",
        "par forall p in P do o ( p ) := i ( p ) end ; x := i ( ( 0 - 128 ) ) end",
    )
    yield Source(
        "words",
        digit + "domain Big = 0 to 1127\ndomain Three = 0 to 2\ncontrolled x : D",
        "par forall i in Big do x := 7 end ; forall o in Three do skip end end",
    )
    yield Source("cells", digit + "\n".join(
        "domain A%d = 1 to %d\ncontrolled f%d ( A%d ) : D" % (k, 2 ** k, k, k) for k in (11, 9, 7, 5, 3)
    ), "skip")
    table = " , ".join(str(number * 7 % 10) for number in range(32767))
    yield Source(
        "table",
        digit + "domain T = 0 to 32766\ncontrolled x : D\ncontrolled at : T\nstatic s ( T ) : D = [ %s ]" % table,
        "par x := s ( at ) ; at := cond ( ( at = 32766 ) , 0 , ( at + 1 ) ) end",
    )
    yield ring(64, 64)
