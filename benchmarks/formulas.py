#!/usr/bin/env python3
"""Writes the formulas of benchmarks/search.sh into a folder, as DIMACS, each with a line 'c first N N ..' that lists the variables
to be decided before all others. Every formula comes from a fixed seed, so each run writes the same bytes.

orders-TxA-S    T threads of A accesses each to one word, by turns a load and a store of a sum, each load read through gates for
                the newest write; one or two bits of each load are told, as a random order gives them, or with one bit turned (u)
sources-TxA-S   the same with a variable for each source of a load, and more bits told of the last loads
parity-TxA-S    an order of T threads of A items, and parities over the order's variables: satisfiable, or with one turned (u)
total-N         a total order of N items and random clauses of three
random-N-S      random clauses of three literals over N variables, 4.0 a variable (s) or 4.5 a variable (u)
holes-N         N + 1 pigeons in N holes
xors-N-S        a random system of sparse parities over N variables, satisfiable (s) or not (u)
"""
import os
import random
import sys


class Clauses:
    def __init__(self):
        self.count = 0
        self.clauses = []
        self.first = []

    def fresh(self):
        self.count += 1
        return self.count

    def add(self, *lits):
        """Adds a clause of literals, True and False among them."""
        kept = []
        for lit in lits:
            if lit is True:
                return
            if lit is not False:
                kept.append(lit)
        self.clauses.append(kept)

    def write(self, path):
        with open(path, "w") as out:
            out.write("c first " + " ".join(map(str, self.first)) + "\n")
            out.write(f"p cnf {self.count} {len(self.clauses)}\n")
            for clause in self.clauses:
                out.write(" ".join(map(str, clause)) + " 0\n")


def no(lit):
    return not lit if isinstance(lit, bool) else -lit


class Order:
    """A total order of items, those of one thread in a row."""

    def __init__(self, clauses, threads):
        self.clauses = clauses
        self.items = [(t, i) for t, count in enumerate(threads) for i in range(count)]
        self.table = {}
        for number, one in enumerate(self.items):
            for other in self.items[number + 1:]:
                if one[0] != other[0]:
                    self.table[one, other] = clauses.fresh()
        clauses.first = sorted(self.table.values())
        self.chain()

    def before(self, one, other):
        if one[0] == other[0]:
            return one[1] < other[1]
        if (one, other) in self.table:
            return self.table[one, other]
        return no(self.table[other, one])

    def chain(self):
        seen = set()
        for one in self.items:
            for two in self.items:
                for three in self.items:
                    if one == two or two == three or one == three:
                        continue
                    lits = (no(self.before(one, two)), no(self.before(two, three)), self.before(one, three))
                    key = frozenset(lit for lit in lits if not isinstance(lit, bool))
                    if any(lit is True for lit in lits) or key in seen:
                        continue
                    seen.add(key)
                    self.clauses.add(*lits)


def conjunction(clauses, lits):
    lits = [lit for lit in lits if lit is not True]
    if any(lit is False for lit in lits):
        return False
    if not lits:
        return True
    if len(lits) == 1:
        return lits[0]
    out = clauses.fresh()
    for lit in lits:
        clauses.add(-out, lit)
    clauses.add(out, *[no(lit) for lit in lits])
    return out


def disjunction(clauses, lits):
    return no(conjunction(clauses, [no(lit) for lit in lits]))


def parity(clauses, one, other):
    if isinstance(one, bool):
        return no(other) if one else other
    if isinstance(other, bool):
        return no(one) if other else one
    out = clauses.fresh()
    clauses.add(-out, one, other)
    clauses.add(-out, -one, -other)
    clauses.add(out, -one, other)
    clauses.add(out, one, -other)
    return out


def sum_of(clauses, bits, constant):
    carry = False
    result = []
    for place, bit in enumerate(bits):
        told = bool(constant >> place & 1)
        half = parity(clauses, bit, told)
        result.append(parity(clauses, half, carry))
        if told:
            carry = disjunction(clauses, [bit, carry])
        else:
            carry = conjunction(clauses, [bit, carry])
    return result


def run(rng, threads, accesses, constants):
    """What the loads give in a random order."""
    left = [t for t in range(threads) for _ in range(accesses)]
    rng.shuffle(left)
    done = [0] * threads
    held = [0] * threads
    word = 0
    loads = {}
    for thread in left:
        item = (thread, done[thread])
        if done[thread] % 2 == 0:
            held[thread] = word
            loads[item] = word
        else:
            word = (held[thread] + constants[item]) % 2 ** 32
        done[thread] += 1
    return loads


def newest(clauses, order, read, writes):
    """For each write, whether it is the newest before the read; and last whether none is."""
    chosen = []
    for write in writes:
        lits = [order.before(write, read)]
        for other in writes:
            if other != write:
                lits.append(disjunction(clauses, [order.before(other, write), order.before(read, other)]))
        chosen.append(conjunction(clauses, lits))
    chosen.append(conjunction(clauses, [order.before(read, write) for write in writes]))
    return chosen


def sources(clauses, order, read, writes):
    """A variable for each write that the read may see, at most one of them true."""
    chosen = []
    for write in writes:
        if order.before(write, read) is False:
            chosen.append(False)
            continue
        seen = clauses.fresh()
        clauses.add(-seen, order.before(write, read))
        for other in writes:
            if other != write:
                clauses.add(-seen, order.before(other, write), order.before(read, other))
        chosen.append(seen)
    none = clauses.fresh()
    for write in writes:
        clauses.add(-none, order.before(read, write))
    chosen.append(none)
    clauses.add(*chosen)
    for number, one in enumerate(chosen):
        for other in chosen[:number]:
            clauses.add(no(one), no(other))
    return chosen


def racing(rng, threads, accesses, with_sources, told):
    """Loads and stores by turns; `told` gives the bits of a load that are told, as pairs of place and value."""
    clauses = Clauses()
    order = Order(clauses, [accesses] * threads)
    writes = [item for item in order.items if item[1] % 2 == 1]
    reads = [item for item in order.items if item[1] % 2 == 0]
    constants = {item: rng.randrange(2 ** 32) for item in writes}
    loads = run(rng, threads, accesses, constants)
    values = {read: [clauses.fresh() for _ in range(32)] for read in reads}
    stored = {}
    for write in writes:
        stored[write] = sum_of(clauses, values[write[0], write[1] - 1], constants[write])
    for read in reads:
        if with_sources:
            join_sources(clauses, order, read, writes, values, stored)
        else:
            join_gates(clauses, order, read, writes, values, stored)
    for read, place, bit in told(rng, loads, threads, accesses):
        clauses.add(values[read][place] if bit else -values[read][place])
    return clauses


def join_sources(clauses, order, read, writes, values, stored):
    chosen = sources(clauses, order, read, writes)
    for number, seen in enumerate(chosen):
        for place, bit in enumerate(values[read]):
            given = stored[writes[number]][place] if number < len(writes) else False
            clauses.add(no(seen), no(given), bit)
            clauses.add(no(seen), given, -bit)


def join_gates(clauses, order, read, writes, values, stored):
    chosen = newest(clauses, order, read, writes)
    for place, bit in enumerate(values[read]):
        parts = [conjunction(clauses, [seen, stored[write][place]]) for seen, write in zip(chosen, writes)]
        given = disjunction(clauses, parts)
        clauses.add(no(given), bit)
        clauses.add(given, -bit)


def bits_of_each(count, turned):
    def told(rng, loads, threads, accesses):
        bits = [[read, rng.randrange(32), 0] for read in sorted(loads) for _ in range(count)]
        for bit in bits:
            bit[2] = loads[bit[0]] >> bit[1] & 1
        for bit in rng.sample(bits, turned):
            bit[2] ^= 1
        return bits
    return told


def bits_of_last(count, turned):
    def told(rng, loads, threads, accesses):
        last = (accesses - 1) // 2 * 2
        bits = []
        for place in range(count):
            for thread in range(threads):
                read = (thread, last)
                bits.append([read, place, loads[read] >> place & 1])
        for _ in range(turned):
            bits[rng.randrange(len(bits))][2] ^= 1
        return bits
    return told


def add_parity(clauses, variables, odd):
    for signs in range(2 ** len(variables)):
        if bin(signs).count("1") % 2 != odd:
            lits = [-var if signs >> place & 1 else var for place, var in enumerate(variables)]
            clauses.add(*lits)


def parities(rng, threads, accesses, count, size, turned):
    clauses = Clauses()
    order = Order(clauses, [accesses] * threads)
    left = [t for t in range(threads) for _ in range(accesses)]
    rng.shuffle(left)
    done = [0] * threads
    place = {}
    for number, thread in enumerate(left):
        place[thread, done[thread]] = number
        done[thread] += 1
    values = {var: place[one] < place[other] for (one, other), var in order.table.items()}
    for number in range(count):
        chosen = rng.sample(clauses.first, size)
        odd = sum(values[var] for var in chosen) % 2
        add_parity(clauses, chosen, odd ^ (turned and number == 0))
    return clauses


def total(rng, items, count):
    clauses = Clauses()
    order = Order(clauses, [1] * items)
    for _ in range(count):
        chosen = rng.sample(clauses.first, 3)
        clauses.add(*[var if rng.randrange(2) else -var for var in chosen])
    return clauses


def scattered(rng, variables, count):
    clauses = Clauses()
    clauses.count = variables
    clauses.first = list(range(1, variables + 1))
    for _ in range(count):
        chosen = rng.sample(clauses.first, 3)
        clauses.add(*[var if rng.randrange(2) else -var for var in chosen])
    return clauses


def holes(count):
    clauses = Clauses()
    place = {(p, h): clauses.fresh() for p in range(count + 1) for h in range(count)}
    clauses.first = sorted(place.values())
    for pigeon in range(count + 1):
        clauses.add(*[place[pigeon, hole] for hole in range(count)])
        for other in range(pigeon):
            for hole in range(count):
                clauses.add(-place[pigeon, hole], -place[other, hole])
    return clauses


def system(rng, variables, count, turned):
    clauses = Clauses()
    clauses.count = variables
    clauses.first = list(range(1, variables + 1))
    values = [rng.randrange(2) for _ in range(variables + 1)]
    for number in range(count):
        chosen = rng.sample(clauses.first, 3)
        add_parity(clauses, chosen, sum(values[var] for var in chosen) % 2 ^ (turned and number == 0))
    return clauses


def formulas():
    def made(name, make, *rest):
        return name, lambda: make(random.Random(name), *rest)

    for threads, accesses in [(4, 10), (4, 12), (4, 14), (4, 16), (8, 5)]:
        for seed in "abc":
            yield made(f"orders-{threads}x{accesses}-{seed}", racing, threads, accesses, False, bits_of_each(1, 0))
    for threads, accesses, seeds in [(4, 10, "uwyz"), (4, 12, "vw"), (4, 14, "y"), (4, 20, "u"), (2, 64, "u")]:
        for seed in seeds:
            yield made(f"orders-{threads}x{accesses}-{seed}", racing, threads, accesses, False, bits_of_each(2, 8))
    for threads, accesses, count in [(4, 8, 8), (3, 12, 10), (2, 32, 16)]:
        for seed in "abc":
            yield made(f"sources-{threads}x{accesses}-{seed}", racing, threads, accesses, True, bits_of_last(count, 0))
    for threads, accesses, count, seeds in [(3, 8, 10, "uv"), (4, 6, 9, "u"), (2, 16, 12, "uv"), (2, 20, 12, "uv")]:
        for seed in seeds:
            yield made(f"sources-{threads}x{accesses}-{seed}", racing, threads, accesses, True, bits_of_last(count, 1))
    for threads, accesses, count, size, seeds in [(4, 12, 54, 7, "abc"), (4, 12, 105, 7, "uv"), (4, 14, 120, 8, "uv"), (4, 16, 76, 8, "uvw")]:
        for seed in seeds:
            yield made(f"parity-{threads}x{accesses}-{seed}", parities, threads, accesses, count, size, seed > "t")
    yield made("total-100-a", total, 100, 200)
    for seed in "abc":
        yield made(f"random-200-{seed}", scattered, 200, 800)
    for seed in "uvw":
        yield made(f"random-150-{seed}", scattered, 150, 675)
    for count in [6, 7, 8]:
        yield f"holes-{count}-u", lambda count=count: holes(count)
    yield made("xors-60-a", system, 60, 54, False)
    for seed in "uv":
        yield made(f"xors-40-{seed}", system, 40, 44, True)


def main():
    folder = sys.argv[1]
    os.makedirs(folder, exist_ok=True)
    for name, make in formulas():
        make().write(os.path.join(folder, name + ".cnf"))


main()
