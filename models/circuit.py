"""Circuits of AND gates, written as Python expressions, and their files.

    c = Circuit("One plug-in may open one window.")
    ask = c.event("ask", "the plug-in asks")
    grant = c.answer("grant", "the host grants")
    open_ = c.latch("open", "the window is open")
    open_.next = ask & grant
    c.bad("the window is open and asked for again", open_ & ask)
    print(c.text())

Events, answers and latches come before the first gate. A Bit has the operators & | ^ and ~; a Number is a list of Bits, lowest first.
"""


class Bit:
    def __init__(self, circuit, literal):
        self.circuit, self.literal = circuit, literal
        self.next = None

    def __and__(self, other):
        return self.circuit.gate(self, other)

    def __or__(self, other):
        return ~(~self & ~other)

    def __xor__(self, other):
        return (self & ~other) | (~self & other)

    def __invert__(self):
        return Bit(self.circuit, self.literal ^ 1)


def choose(condition, yes, no):
    """`yes` where the condition holds, else `no`; Bits, or Numbers of one length."""
    if isinstance(yes, Number):
        return Number([choose(condition, y, n) for y, n in zip(yes.bits, no.bits, strict=True)])
    return (condition & yes) | (~condition & no)


def all_of(bits):
    bits = list(bits)
    result = bits[0]
    for b in bits[1:]:
        result = result & b
    return result


def any_of(bits):
    return ~all_of([~b for b in bits])


def two_of(bits):
    """Whether two or more of the bits hold."""
    bits = list(bits)
    return any_of([a & b for i, a in enumerate(bits) for b in bits[:i]])


class Number:
    def __init__(self, bits):
        self.bits = bits

    @property
    def circuit(self):
        return self.bits[0].circuit

    @property
    def next(self):
        raise AttributeError("only written")

    @next.setter
    def next(self, number):
        for bit, value in zip(self.bits, number.bits, strict=True):
            bit.next = value

    def constant(self, value):
        """A number of the same length."""
        return self.circuit.number(value, len(self.bits))

    def wide(self, length):
        return Number(self.bits + [self.circuit.false] * (length - len(self.bits)))

    def narrow(self, length):
        return Number(self.bits[:length])

    def equals(self, value):
        return all_of([b if value >> i & 1 else ~b for i, b in enumerate(self.bits)])

    def at_least(self, value):
        if value <= 0:
            return self.circuit.true
        if value >> len(self.bits):
            return self.circuit.false
        result = self.circuit.true
        for i, b in enumerate(self.bits):
            result = b & result if value >> i & 1 else b | result
        return result

    def __add__(self, other):
        """One bit longer than the longer of the two."""
        length = max(len(self.bits), len(other.bits))
        carry, bits = self.circuit.false, []
        for a, b in zip(self.wide(length).bits, other.wide(length).bits):
            bits.append(a ^ b ^ carry)
            carry = (a & b) | (carry & (a ^ b))
        return Number(bits + [carry])

    def up(self, by=None):
        """One more where `by` holds, and no more than all ones."""
        by = self.circuit.true if by is None else by
        more = (self + Number([by])).narrow(len(self.bits))
        return choose(self.equals((1 << len(self.bits)) - 1), self, more)

    def down(self, by=None):
        """One less where `by` holds, and no less than 0."""
        by = self.circuit.true if by is None else by
        less = (self + Number([by] * len(self.bits))).narrow(len(self.bits))
        return choose(self.equals(0), self, less)

    def less(self, value):
        """So much less, and no less than 0."""
        length = len(self.bits)
        minus = (self + self.circuit.number((1 << length) - value, length)).narrow(length)
        return choose(self.at_least(value), minus, self.constant(0))

    def where(self, condition):
        """The number where the condition holds, else 0."""
        return Number([b & condition for b in self.bits])


class Circuit:
    def __init__(self, title):
        self.title = title
        self.inputs, self.latches, self.gates = [], [], []
        self.known = {}
        self.rules = []
        self.meanings = {"State": [], "Event": [], "Answer": []}
        self.false, self.true = Bit(self, 0), Bit(self, 1)

    # What a circuit is made of.

    def variable(self):
        return 2 * (1 + len(self.inputs) + len(self.latches) + len(self.gates))

    def define(self, table, group, name, meaning, length, prefix=""):
        assert not self.gates, "inputs and latches come before the gates"
        bits = []
        for i in range(length or 1):
            bits.append(Bit(self, self.variable()))
            table.append((bits[-1], prefix + (name if length is None else f"{name}_{i}")))
        lines = self.meanings[group]
        first = sum(n for n, _, _ in lines)
        lines.append((len(bits), name, meaning))
        assert first + len(bits) <= 32
        return bits[0] if length is None else Number(bits)

    def event(self, name, meaning, length=None):
        return self.define(self.inputs, "Event", name, meaning, length)

    def answer(self, name, meaning, length=None):
        return self.define(self.inputs, "Answer", name, meaning, length, "controllable_")

    def latch(self, name, meaning, length=None):
        return self.define(self.latches, "State", name, meaning, length)

    def number(self, value, length):
        return Number([self.true if value >> i & 1 else self.false for i in range(length)])

    def bad(self, rule, condition):
        self.rules.append((rule, condition))

    def gate(self, a, b):
        a, b = sorted((a.literal, b.literal))
        if a == 0 or a == b ^ 1:
            return self.false
        if a == 1 or a == b:
            return Bit(self, b)
        if (a, b) not in self.known:
            self.known[a, b] = self.variable()
            self.gates.append((self.variable(), b, a))
        return Bit(self, self.known[a, b])

    # Its file.

    def body(self):
        """The lines up to the symbols, without gates that nothing needs."""
        output = any_of([condition for _, condition in self.rules]).literal
        nexts = [bit.next.literal for bit, _ in self.latches]
        made = {g: (g, a, b) for g, a, b in self.gates}
        needed, open_ = set(), [output] + nexts
        while open_:
            g = open_.pop() & ~1
            if g in made and g not in needed:
                needed.add(g)
                open_ += made[g][1:]
        first = 2 * (1 + len(self.inputs) + len(self.latches))
        place = {g: first + 2 * i for i, g in enumerate(sorted(needed))}
        of = lambda literal: place.get(literal & ~1, literal & ~1) | literal & 1
        lines = [f"aag {first // 2 - 1 + len(needed)} {len(self.inputs)} {len(self.latches)} 1 {len(needed)}"]
        lines += [f"{bit.literal}" for bit, _ in self.inputs]
        lines += [f"{bit.literal} {of(n)}" for (bit, _), n in zip(self.latches, nexts)]
        lines += [f"{of(output)}"]
        for g in sorted(needed):
            a, b = sorted(map(of, made[g][1:]), reverse=True)
            lines.append(f"{of(g)} {a} {b}")
        for letter, table in (("i", self.inputs), ("l", self.latches)):
            lines += [f"{letter}{i} {name}" for i, (_, name) in enumerate(table)]
        return lines + ["o0 bad"]

    def explanation(self):
        lines = self.title.strip().splitlines()
        for group, of in self.meanings.items():
            lines += ["", f"{group}:" if of else f"{group}: always 0"]
            first = 0
            for n, name, meaning in of:
                bits = f"bit {first}" if n == 1 else f"bits {first} to {first + n - 1}"
                lines.append(f"  {bits:13}{name:12}{meaning}")
                first += n
        lines += ["", "A step is bad where"]
        lines += [f"- {rule}" + (";" if i + 1 < len(self.rules) else ".") for i, (rule, _) in enumerate(self.rules)]
        return lines

    def text(self):
        return "\n".join(self.body() + ["c"] + self.explanation()) + "\n"
