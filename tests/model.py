#!/usr/bin/env python3
"""An independent model of tables, lowering, graphs, states and runs, written from the rules alone (document 01, told in docs/RULES.md).

  tests/model.py < calls            answers each line of the protocol of `rehearse calls`
  tests/model.py cases              prints the calls of crates/graph_cases/stdin
  tests/model.py lowering-cases     prints the calls of crates/lowering_cases/stdin
  tests/model.py sheet-cases        prints the calls of crates/sheet_cases/stdin
  tests/model.py plain-cases        prints the calls of crates/plain_cases/stdin
  tests/model.py told               says of each call of the four what it shows, with the start of the answer
  tests/model.py draw < words       lists and draws a graph, its tokens and names, as crates/graph_drawn does
  tests/model.py trace < words      runs a graph and tells each firing, as crates/graph_rehearsed does
  tests/model.py lower < table      the words of a table's graph, a line a row, as `rehearse lower` prints them
  tests/model.py names < table      what each node and each wire of a table's graph is, with its rows, found by following the wires

It shares nothing with the library: tables, graphs and states are Python objects here, and words only at the edges.
"""
import math, sys
from fractions import Fraction

X = 4294967295
MOD = 2 ** 32
STREAM, GATE, CARRY, INVARIANT, SPLIT, FORK, DRAIN, OP, PICK = range(9)
INPUTS = [3, 2, 3, 2, 2, 1, 1, 2, 3]
OUTPUTS = [2, 2, 1, 1, 2, 2, 0, 1, 1]
CODES = [30, 1, 1, 1, 1, 1, 1, 8, 1]
SORTS = [1, 2, 2, 2, 2, 2, 2, 1, 1]
PHASES = [2, 2, 3, 2, 1, 1, 1, 1, 1]


def value(x):
    """Words and flags: a word read with a sign."""
    return int.from_bytes(x.to_bytes(4, 'little'), 'little', signed=True)


def condition(code, x, y):
    x, y = value(x), value(y)
    return int([x < y, x <= y, x > y, x >= y, x != y][code])


def update(code, x, y):
    """Words and flags: the six updates. The step of a stream is never 0, so the division is safe."""
    if code == 0: return (x + y) % MOD
    if code == 1: return (x - y) % MOD
    if code == 2: return x * y % MOD
    if code == 3: return math.trunc(Fraction(value(x), value(y))) % MOD
    if code == 4: return 0 if y >= 32 else (x << y) % MOD
    return (value(x) >> min(y, 32)) % MOD


def operator(code, x, y):
    return update(code, x, y) if code < 3 else condition(code - 3, x, y)


class Node:
    def __init__(self, row):
        self.kind, self.code, self.sort = row[0], row[1], row[2]
        self.ins, self.first = row[3:6], row[6]

    def input_sorts(self):
        """Conditions are flags; the values of a node have its sort; STREAM, OP and PICK take words."""
        s = self.sort
        return {STREAM: [0, 0, 0], GATE: [s, 1], CARRY: [1, s, s], INVARIANT: [1, s], SPLIT: [1, s], FORK: [s], DRAIN: [s],
                OP: [0, 0], PICK: [1, 0, 0]}[self.kind]

    def output_sorts(self):
        s = self.sort
        return {STREAM: [0, 1], GATE: [s, 1], CARRY: [s], INVARIANT: [s], SPLIT: [s, s], FORK: [s, s], DRAIN: [],
                OP: [0 if self.code < 3 else 1], PICK: [0]}[self.kind]

    def wires_in(self):
        return self.ins[:INPUTS[self.kind]]

    def wires_out(self):
        return [self.first + k for k in range(OUTPUTS[self.kind])]


class Graph:
    def __init__(self, g):
        n, self.wires, s, r = g[:4]
        self.starts = [(g[4 + 2 * k], g[5 + 2 * k]) for k in range(s)]
        self.results = g[4 + 2 * s:4 + 2 * s + r]
        base = 4 + 2 * s + r
        self.rows = [g[base + 7 * i:base + 7 * i + 7] for i in range(n)]

    def nodes(self):
        return [Node(r) for r in self.rows]

    def inputs(self):
        return sum(1 for k, _ in self.starts if k == 0)

    def sorts(self):
        out = [0] * len(self.starts)
        for node in self.nodes(): out += node.output_sorts()
        return out


def check_graph(g):
    """Refusals 11 to 15 in that order over the whole graph."""
    if len(g) < 4: return 11
    n, w, s, r = g[:4]
    if n > 4096 or w > 8192 or s > 512 or r > 512: return 11
    if len(g) != 4 + 2 * s + r + 7 * n: return 11
    graph = Graph(g)
    seen = 0
    for kind, word in graph.starts:
        if kind not in (0, 1): return 12
        if kind == 0:
            if word != seen: return 12
            seen += 1
    nxt = s
    for row in graph.rows:
        kind, code, sort = row[:3]
        if kind > 8 or code >= CODES[kind] or sort >= SORTS[kind]: return 12
        if any(x != X for x in row[3 + INPUTS[kind]:6]): return 12
        if row[6] != (nxt if OUTPUTS[kind] else X): return 12
        nxt += OUTPUTS[kind]
    if nxt != w: return 12
    reads = [x for node in graph.nodes() for x in node.wires_in()] + list(graph.results)
    if any(x >= w for x in reads): return 13
    if sorted(reads) != list(range(w)): return 14
    sorts = graph.sorts()
    for node in graph.nodes():
        for wire, sort in zip(node.wires_in(), node.input_sorts()):
            if sorts[wire] != sort: return 15
    if any(sorts[x] != 0 for x in graph.results): return 15
    return 0


class State:
    """Tokens by wire, None where there is none; a phase and three registers by node."""

    def __init__(self, graph, words):
        w, n = graph.wires, len(graph.rows)
        self.tokens = [words[2 * k + 1] if words[2 * k] else None for k in range(w)]
        self.records = [list(words[2 * w + 4 * i:2 * w + 4 * i + 4]) for i in range(n)]

    def words(self):
        out = []
        for t in self.tokens: out += [0, 0] if t is None else [1, t]
        for r in self.records: out += r
        return out


def state_refusal(g, words):
    no = check_graph(g)
    if no: return no
    graph = Graph(g)
    if len(words) != 2 * graph.wires + 4 * len(graph.rows): return 17
    for k, sort in enumerate(graph.sorts()):
        full, word = words[2 * k], words[2 * k + 1]
        if full > 1: return 17
        if full == 0 and word != 0: return 17
        if full == 1 and sort == 1 and word > 1: return 17
    for i, node in enumerate(graph.nodes()):
        at = 2 * graph.wires + 4 * i
        phase, regs = words[at], words[at + 1:at + 4]
        if phase >= PHASES[node.kind]: return 17
        if node.kind == STREAM and phase == 1:
            if regs[1] == 0: return 17
        elif node.kind == INVARIANT and phase == 1:
            if node.sort == 1 and regs[0] > 1: return 17
            if regs[1] or regs[2]: return 17
        elif any(regs): return 17
    return 0


def step(node, record, seen):
    """What one firing would do: (inputs taken, outputs filled by position, record after), or None where an input it will take is empty.
    Source documents 000 and 001: each machine by its phases."""
    kind, phase = node.kind, record[0]
    if kind == STREAM:
        if phase == 0:
            if None in seen or seen[1] == 0: return None
            return [0, 1, 2], {}, [1] + seen
        nxt, st, bound = record[1:]
        go = condition(node.code % 5, nxt, bound)
        if go: return [], {0: nxt, 1: 1}, [1, update(node.code // 5, nxt, st), st, bound]
        return [], {0: nxt, 1: 0}, [0, 0, 0, 0]
    if kind == GATE:
        # The first true of an opening gives its value alone; the last false gives its condition alone.
        if None in seen: return None
        value, go = seen
        if go: return [0, 1], ({0: value, 1: 1} if phase else {0: value}), [1, 0, 0, 0]
        return [0, 1], ({1: 0} if phase else {}), [0, 0, 0, 0]
    if kind == CARRY:
        if phase == 0: return None if seen[1] is None else ([1], {0: seen[1]}, [1, 0, 0, 0])
        if phase == 1:
            if seen[0] is None: return None
            return [0], {}, [2 if seen[0] else 0, 0, 0, 0]
        return None if seen[2] is None else ([2], {0: seen[2]}, [1, 0, 0, 0])
    if kind == INVARIANT:
        if phase == 0: return None if seen[1] is None else ([1], {0: seen[1]}, [1, seen[1], 0, 0])
        if seen[0] is None: return None
        if seen[0]: return [0], {0: record[1]}, record
        return [0], {}, [0, 0, 0, 0]
    if kind == SPLIT:
        if None in seen: return None
        return [0, 1], {0 if seen[0] else 1: seen[1]}, record
    if None in seen: return None
    if kind == FORK: return [0], {0: seen[0], 1: seen[0]}, record
    if kind == DRAIN: return [0], {}, record
    if kind == OP: return [0, 1], {0: operator(node.code, seen[0], seen[1])}, record
    return [0, 1, 2], {0: seen[1] if seen[0] else seen[2]}, record


def ready(node, state, i):
    """The firing of node i, or None: inputs it will take are full and outputs it will fill are empty."""
    done = step(node, state.records[i], [state.tokens[x] for x in node.wires_in()])
    if done is None: return None
    out = node.wires_out()
    if any(state.tokens[out[k]] is not None for k in done[1]): return None
    return done


def perform(node, state, i, done):
    taken, given, record = done
    ins, out = node.wires_in(), node.wires_out()
    for k in taken: state.tokens[ins[k]] = None
    for k, word in given.items(): state.tokens[out[k]] = word
    state.records[i] = list(record)


def load(lent, g, inputs):
    state = [7] * lent
    no = check_graph(g)
    if no: return no, state
    graph = Graph(g)
    if lent != 2 * graph.wires + 4 * len(graph.rows): return 17, state
    if len(inputs) != graph.inputs(): return 16, state
    state = []
    for kind, word in graph.starts: state += [1, inputs[word] if kind == 0 else word]
    return 0, state + [0] * (lent - len(state))


def fire(number, g, words):
    no = state_refusal(g, words)
    if no: return no, 0, words
    graph = Graph(g)
    nodes, state = graph.nodes(), State(graph, words)
    if number >= len(nodes): return 18, 0, words
    done = ready(nodes[number], state, number)
    if done is None: return 0, 0, words
    perform(nodes[number], state, number, done)
    return 0, 1, state.words()


def run(allowance, g, words, order):
    no = state_refusal(g, words)
    if no: return no, 0, 0, 0, words
    graph = Graph(g)
    nodes, state = graph.nodes(), State(graph, words)
    if any(x >= len(nodes) for x in order): return 18, 0, 0, 0, words
    firings = 0

    def turn(i):
        nonlocal firings
        if firings == allowance: return False
        done = ready(nodes[i], state, i)
        if done is None: return False
        perform(nodes[i], state, i, done)
        firings += 1
        return True

    for i in order: turn(i)
    while any([turn(i) for i in range(len(nodes))]): pass
    answer, node = ended(graph, nodes, state)
    return 0, answer, firings, node, state.words()


def ended(graph, nodes, state):
    if any(ready(node, state, i) for i, node in enumerate(nodes)): return 3, 0
    results = set(graph.results)
    if all((t is not None) == (k in results) for k, t in enumerate(state.tokens)) and not any(r[0] for r in state.records): return 0, 0
    for i, node in enumerate(nodes):
        seen = [state.tokens[x] for x in node.wires_in()]
        if node.kind == STREAM and state.records[i][0] == 0 and None not in seen and seen[1] == 0: return 1, i
    return 2, 0


# Tables.

INPUT, CONST, ROW_OP, ROW_PICK, FOR, ARG, NEXT, END, OUT = range(9)
USED = [0, 1, 3, 3, 5, 1, 1, 0, 1]


class Table:
    """What the rows so far have opened. A body is the number of its FOR row, or None outside every loop."""

    def __init__(self):
        self.rows, self.open, self.around = [], [], {}
        self.args, self.nexts, self.ended = {}, {}, set()
        self.home, self.reads = [], []

    def operands(self, row):
        """(operand, wanted sort) in order."""
        kind, a, b, c = row[:4]
        if kind == ROW_OP: return [(b, 0), (c, 0)]
        if kind == ROW_PICK: return [(a, 1), (b, 0), (c, 0)]
        if kind == FOR: return [(a, 0), (b, 0), (c, 0)]
        return [(a, 0)] if kind in (ARG, NEXT, OUT) else []

    def sort(self, x):
        return int(self.rows[x][0] == ROW_OP and self.rows[x][1] >= 3)

    def bodies(self, kind):
        """The bodies that are open where a row's operands are read: for ARG without its own loop, for FOR it is not open yet."""
        return [None] + (self.open[:-1] if kind == ARG else self.open)

    def placed(self, row):
        kind, before = row[0], self.rows[-1][0] if self.rows else None
        if before == OUT and kind != OUT: return False
        if before == NEXT and kind not in (NEXT, END): return False
        if kind in (INPUT, CONST): return all(r[0] in (INPUT, CONST) for r in self.rows)
        if kind == ARG: return before in (FOR, ARG)
        if kind == NEXT: return bool(self.open) and len(self.nexts[self.open[-1]]) < len(self.args[self.open[-1]])
        if kind == END: return bool(self.open) and len(self.nexts[self.open[-1]]) == len(self.args[self.open[-1]])
        return not self.open if kind == OUT else True

    def visible(self, x, kind):
        if x >= len(self.rows) or self.rows[x][0] > NEXT: return False
        if self.home[x] not in self.bodies(kind): return False
        return self.rows[x][0] != NEXT or any(x in self.nexts[f] for f in self.ended)

    def refusal(self, row):
        """Refusals 2 to 8 of the next row, lowest first."""
        kind = row[0]
        if kind > 8: return 2
        if any(row[1 + USED[kind]:]): return 3
        if kind == ROW_OP and row[1] > 7: return 4
        if kind == FOR and (row[4] > 5 or row[5] > 4): return 4
        if not self.placed(row): return 5
        if kind == FOR and len(self.open) == 8: return 6
        if not all(self.visible(x, kind) for x, _ in self.operands(row)): return 7
        if any(self.sort(x) != sort for x, sort in self.operands(row)): return 8
        return 0

    def add(self, row):
        kind, i = row[0], len(self.rows)
        self.reads.append(self.bodies(kind)[-1])
        if kind == FOR:
            self.around[i] = self.open[-1] if self.open else None
            self.open.append(i)
            self.args[i], self.nexts[i] = [], []
        if kind == ARG: self.args[self.open[-1]].append(i)
        if kind == NEXT: self.nexts[self.open[-1]].append(i)
        body = self.open[-1] if self.open else None
        self.home.append(self.around[body] if kind == NEXT else body)
        if kind == END: self.ended.add(self.open.pop())
        self.rows.append(row)


def read_table(words):
    """The table that the words make, with refusal 1 to 9 and its row."""
    if len(words) % 6 or not words or len(words) > 6 * 512: return None, 1, 0
    table = Table()
    for i in range(0, len(words), 6):
        row = words[i:i + 6]
        no = table.refusal(row)
        if no: return None, no, i // 6
        table.add(row)
    if table.open or table.rows[-1][0] != OUT: return None, 9, len(table.rows)
    return table, 0, 0


class Lowering:
    """Nodes with the wires they take, a wire being a start's row or a node's output: ('start', row) or (node, position)."""

    def __init__(self, table):
        self.table = t = table
        self.starts = [i for i, r in enumerate(t.rows) if r[0] in (INPUT, CONST)]
        self.nodes, self.streams, self.copies, self.served = [], {}, {}, {}
        self.values, self.results = {}, []
        self.carried = {f: sorted(x for x in range(len(t.rows)) if self.is_carried(x, f)) for f in t.around}
        for i, row in enumerate(t.rows): self.lower_row(i, row)
        for kind, _, _, ins in self.nodes:
            # The next word of a CARRY comes from a row behind it.
            for k, x in enumerate(ins):
                if isinstance(x, tuple) and x[0] == 'next': ins[k] = self.source(*self.served[x[1]])

    def within(self, body, loop):
        while body is not None:
            if body == loop: return True
            body = self.table.around[body]
        return False

    def is_carried(self, x, loop):
        """Home outside the loop, and an operand inside it at any depth."""
        t = self.table
        if t.rows[x][0] > NEXT or self.within(t.home[x], loop): return False
        return any(x == y and self.within(t.reads[i], loop) for i, r in enumerate(t.rows) for y, _ in t.operands(r))

    def add(self, kind, code, sort, *ins):
        self.nodes.append((kind, code, sort, list(ins)))
        return len(self.nodes) - 1

    def source(self, x, body):
        """The wire of value x where it is used in a body: at home its own, else the copy that the loop has of it."""
        return self.values[x] if self.table.home[x] == body else (self.copies[body, x], 0)

    def lower_row(self, i, row):
        t, kind, body = self.table, row[0], self.table.reads[i]
        ins = [self.source(x, body) for x, _ in t.operands(row)] if kind != NEXT else []
        if kind in (INPUT, CONST): self.values[i] = ('start', i)
        if kind == ROW_OP: self.values[i] = (self.add(OP, row[1], 0, *ins), 0)
        if kind == ROW_PICK: self.values[i] = (self.add(PICK, 0, 0, *ins), 0)
        if kind == FOR:
            start, step, bound = ins
            stream = self.streams[i] = self.add(STREAM, 5 * row[4] + row[5], 0, start, step, bound)
            gate = self.add(GATE, 0, 0, (stream, 0), (stream, 1))
            guard = self.add(OP, 3 + row[5], 0, start, bound)
            self.values[i] = (gate, 0)
            for x in self.carried[i]:
                split = self.add(SPLIT, 0, t.sort(x), (guard, 0), self.source(x, body))
                self.copies[i, x] = self.add(INVARIANT, 0, t.sort(x), (gate, 1), (split, 0))
        if kind == ARG:
            loop = t.home[i]
            raw = (self.streams[loop], 1)
            carry = self.add(CARRY, 0, 0, raw, ins[0], ('next', i))
            split = self.add(SPLIT, 0, 0, raw, (carry, 0))
            self.values[i] = (split, 0)
            after = t.nexts[loop][t.args[loop].index(i)]
            self.values[after] = (split, 1)
            self.served[i] = (t.rows[after][1], loop)
        if kind == OUT: self.results.append(ins[0])

    def graph(self):
        """Forks and drains for the wires so far, then the words."""
        s = len(self.starts)
        firsts, wires = [], s
        for kind, _, _, _ in self.nodes:
            firsts.append(wires)
            wires += OUTPUTS[kind]
        number = lambda x: self.starts.index(x[1]) if x[0] == 'start' else firsts[x[0]] + x[1]
        rows = [[kind, code, sort] + [number(x) for x in ins] for kind, code, sort, ins in self.nodes]
        results = [number(x) for x in self.results]
        uses, sorts = [[] for _ in range(wires)], [0] * s
        for row in rows:
            for k in range(3, len(row)): uses[row[k]].append((row, k))
            sorts += Node(row + [X] * 4).output_sorts()
        for k, x in enumerate(results): uses[x].append((results, k))
        for x in range(len(uses)):
            left, rest = uses[x], x
            if not left: rows.append([DRAIN, 0, sorts[x], x])
            while len(left) > 1:
                rows.append([FORK, 0, sorts[x], rest])
                place, k = left[0]
                place[k], rest, left = wires, wires + 1, left[1:]
                wires += 2
                for place, k in left: place[k] = rest
        g = [len(rows), wires, s, len(results)]
        inputs = 0
        for i in self.starts:
            kind, word = self.table.rows[i][:2]
            g += [0, inputs] if kind == INPUT else [1, word]
            inputs += kind == INPUT
        g += results
        first = s
        for row in rows:
            outs = OUTPUTS[row[0]]
            g += row + [X] * (6 - len(row)) + [first if outs else X]
            first += outs
        return g


def lowered(words):
    """A table's graph, or none, with refusal 1 to 10 and its row."""
    table, no, row = read_table(words)
    if no: return None, no, row
    g = Lowering(table).graph()
    n, w, s, r = g[:4]
    if n > 4096 or w > 8192 or s > 512 or r > 512: return None, 10, len(words) // 6
    return g, 0, 0


def check_table(words): return lowered(words)[1:]


def lower(lent, words):
    g, no, row = lowered(words)
    if not no and len(g) > lent: no, row = 10, len(words) // 6
    if no: return no, row, 0, [7] * lent
    return 0, 0, len(g), g + [7] * (lent - len(g))


def named(words):
    """[what, row, of] for each node and each wire of a table's graph. STREAMs, CARRYs, OPs and PICKs stand in the order of their rows, and a guard behind
    its GATE; all else is told by what feeds it."""
    graph, table = Graph(lowered(words)[0]), read_table(words)[0]
    of_kind = lambda *kinds: iter([i for i, r in enumerate(table.rows) if r[0] in kinds])
    loops, args, ops = of_kind(FOR), of_kind(ARG), of_kind(ROW_OP, ROW_PICK)
    exits = {a: x for loop in table.args for a, x in zip(table.args[loop], table.nexts[loop])}
    copied = {}
    for node in graph.nodes():
        if node.kind == FORK: copied[node.first] = copied[node.first + 1] = copied.get(node.ins[0], node.ins[0])
    nodes, wires = [], [(0, i, 0) for i in of_kind(INPUT, CONST)]
    value = lambda wire: {9: wire[2], 12: exits.get(wire[1])}.get(wire[0], wire[1])
    before = None
    for node in graph.nodes():
        source = [copied.get(x, x) for x in node.wires_in()]
        feeds = [wires[x] if x < len(wires) else None for x in source]
        if node.kind == STREAM: new, whats = (1, next(loops), 0), [2, 3]
        elif node.kind == GATE: new, whats = (2, feeds[0][1], 0), [4, 5]
        elif node.kind == OP and before == GATE: new, whats = (3, nodes[-1][1], 0), [6]
        elif node.kind == CARRY: new, whats = (6, next(args), 0), [10]
        elif node.kind == SPLIT and feeds[1][0] == 10: new, whats = (7, feeds[1][1], 0), [11, 12]
        elif node.kind == SPLIT: new, whats = (4, feeds[0][1], value(feeds[1])), [7, 8]
        elif node.kind == INVARIANT: new, whats = (5,) + feeds[1][1:], [9]
        elif node.kind == FORK: new, whats = (16 + feeds[0][0],) + feeds[0][1:], []
        elif node.kind == DRAIN: new, whats = (32 + feeds[0][0],) + feeds[0][1:], []
        else: new, whats = (0, next(ops), 0), [1]
        nodes.append(new)
        wires += [(what,) + new[1:] for what in whats]
        before = node.kind
    return nodes, wires + [wires[copied[k]] for k in range(len(wires), graph.wires)]


class Stop(Exception): pass


ENDED, ZERO_STEP, SPENT = 0, 1, 3


class Plain:
    """Plain reading, with an allowance of turns: `answer`, the row of a zero step, the turns made, and the results of a reading that ended."""

    def __init__(self, table, inputs, allowance):
        self.table, self.allowance, self.given = table, allowance, iter(inputs)
        self.value, self.out, self.turns, self.answer, self.row = {}, [], 0, ENDED, 0
        self.ends, opened = {}, []
        for i, r in enumerate(table.rows):
            if r[0] == FOR: opened.append(i)
            if r[0] == END: self.ends[opened.pop()] = i
        try: self.body(0, len(table.rows))
        except Stop: self.out = None

    def stop(self, answer, row=0):
        self.answer, self.row = answer, row
        raise Stop

    def body(self, i, end):
        value = self.value
        while i < end:
            kind, a, b, c, _, _ = self.table.rows[i]
            if kind == INPUT: value[i] = next(self.given)
            if kind == CONST: value[i] = a
            if kind == ROW_OP: value[i] = operator(a, value[b], value[c])
            if kind == ROW_PICK: value[i] = value[b] if value[a] else value[c]
            if kind == OUT: self.out.append(value[a])
            if kind == FOR:
                self.loop(i)
                i = self.ends[i]
            i += 1

    def loop(self, i):
        """A zero step is met where the loop opens; a turn counts when it starts."""
        value, rows = self.value, self.table.rows
        _, a, b, c, d, e = rows[i]
        index, step, bound = value[a], value[b], value[c]
        if step == 0: self.stop(ZERO_STEP, i)
        args, nexts = self.table.args[i], self.table.nexts[i]
        carried = [value[rows[x][1]] for x in args]
        while condition(e, index, bound):
            if self.turns == self.allowance: self.stop(SPENT)
            self.turns += 1
            value[i] = index
            for x, w in zip(args, carried): value[x] = w
            self.body(i + 1 + len(args), self.ends[i])
            carried = [value[rows[x][1]] for x in nexts]
            index = update(d, index, step)
        for x, w in zip(nexts, carried): value[x] = w


def read_plain(allowance, lent, words, inputs):
    """A refusal's number and row, which answer it is, the turns made, and the lent words."""
    before = [7] * lent
    table, no, row = read_table(words)
    if no: return no, row, 0, 0, before
    kinds = [r[0] for r in table.rows]
    if len(inputs) != kinds.count(INPUT): return 16, 0, 0, 0, before
    if lent < kinds.count(OUT): return 10, len(kinds), 0, 0, before
    read = Plain(table, inputs, allowance)
    out = read.out or []
    return 0, read.row, read.answer, read.turns, out + before[len(out):]


# Sheets. Whether a text can go on is asked of the text as a whole, line by line, and not of a reader that goes through it: the offset of a refusal is
# the length of the longest first part that can.

NAMES = 'input const op pick for arg next end out'.split()
USED = [0, 1, 3, 3, 5, 1, 1, 0, 1]


def row_lines(r, row):
    return [f'row={r}', f'kind={NAMES[row[0]]}'] + [f'{key}={x}' for key, x in zip('abcde', row[1:1 + USED[row[0]]])]


def sheet(words):
    rows = [words[i:i + 6] for i in range(0, len(words), 6)]
    lines = [f'rows={len(rows)}'] + [x for r, row in enumerate(rows) for x in row_lines(r, row)]
    return ''.join(x + '\n' for x in lines).encode()


def due(rows, number, last):
    """What the next line of a sheet is, in a sheet of so many rows (None before they are told), of which so many have begun, behind these whole lines of the last one:
    its key, and its value: a set of texts, or the least and the largest number; None behind the last line."""
    if rows is None: return 'rows', (1, 512)
    if len(last) == 1: return 'kind', set(NAMES)
    k = len(last) - 2
    if last and k < USED[NAMES.index(last[1][5:])]: return 'abcde'[k], (0, X)
    return ('row', {str(number)}) if number < rows else None


def begins(part, key, values):
    """Whether a line of this key and one of these values begins so."""
    head = key + '='
    if len(part) <= len(head): return head.startswith(part)
    if not part.startswith(head): return False
    value = part[len(head):]
    if isinstance(values, set): return any(v.startswith(value) for v in values)
    low, high = values
    return len(value) <= 10 and value.isdigit() and value.isascii() and (value == '0' or value[0] != '0') and low <= int(value) <= high


def due_behind(text):
    """The last line of a text, which has no end, and what is due there; or None where a line before it is not as it is due."""
    *lines, rest = text.decode('latin-1').split('\n')
    rows, number, last = None, 0, []
    for line in lines:
        what = due(rows, number, last)
        if what is None: return None
        key, values = what
        if not line.startswith(key + '=') or not begins(line, key, values) or line == key + '=': return None
        if isinstance(values, set) and line[len(key) + 1:] not in values: return None
        if key == 'rows': rows = int(line[5:])
        elif key == 'row': number, last = number + 1, [line]
        else: last.append(line)
    return rest, due(rows, number, last)


def goes_on(text):
    """Whether some sheet begins so."""
    found = due_behind(text)
    if found is None: return False
    rest, what = found
    return rest == '' if what is None else begins(rest, *what)


def read_sheet(lent, text):
    text = bytes(text)
    before = [7] * lent
    low, high = 0, len(text)      # the first `low` bytes can go on, and each first part of what can go on can too
    while low < high:
        middle = (low + high + 1) // 2
        if goes_on(text[:middle]): low = middle
        else: high = middle - 1
    if low < len(text) or due_behind(text) != ('', None): return 19, low, 0, before
    words = []
    for line in text.decode().split('\n')[1:-1]:
        key, value = line.split('=')
        if key == 'row': words += [0] * (-len(words) % 6)
        elif key == 'kind': words.append(NAMES.index(value))
        else: words.append(int(value))
    words += [0] * (-len(words) % 6)
    if lent < len(words): return 10, len(words) // 6, 0, before
    return 0, 0, len(words), words + before[len(words):]


def write_sheet(lent, words):
    before = [7] * lent
    n = len(words) // 6
    if len(words) % 6 or not 1 <= n <= 512: return 1, 0, 0, before
    for r in range(n):
        row = words[6 * r:6 * r + 6]
        if row[0] > 8: return 2, r, 0, before
        if any(row[1 + USED[row[0]]:]): return 3, r, 0, before
    text = list(sheet(words))
    if lent < len(text): return 10, n, 0, before
    return 0, 0, len(text), text + before[len(text):]


# The line protocol.

def numbers(text): return [int(x) for x in text.split()]


def listed(head, words): return ' '.join(map(str, head)) + ' ;' + ''.join(f' {w}' for w in words)


def answer(line):
    name, _, rest = line.strip().partition(' ')
    parts = [numbers(p) for p in rest.split(';')]
    if name == 'check_graph': return str(check_graph(parts[0]))
    if name == 'check_table': return ' '.join(map(str, check_table(parts[0])))
    head = parts[0][0]
    if name == 'read_plain':
        *four, lent = read_plain(*parts[0], parts[1], parts[2])
        return listed(four, lent)
    if name in ('lower', 'read_sheet', 'write_sheet'):
        *three, lent = {'lower': lower, 'read_sheet': read_sheet, 'write_sheet': write_sheet}[name](head, parts[1])
        return listed(three, lent)
    if name == 'load': return listed(*(lambda no, s: ([no], s))(*load(head, parts[1], parts[2])))
    if name == 'fire':
        no, fired, s = fire(head, parts[1], parts[2])
        return listed([no, fired], s)
    *four, s = run(head, parts[1], parts[2], parts[3])
    return listed(four, s)


# The sum graph, and what the register asks of it.

SUM = [13, 22, 3, 1, 0, 0, 1, 0, 1, 1, 10,
       0, 0, 0, 14, 2, 12, 3, 1, 0, 0, 3, 18, X, 5, 7, 3, 0, 16, 13, X, 7, 2, 0, 0, 20, 17, 11, 8, 4, 0, 0, 21, 8, X, 9,
       7, 0, 0, 9, 5, X, 11, 5, 0, 0, 0, X, X, 12, 5, 0, 0, 1, X, X, 14, 5, 0, 0, 15, X, X, 16, 5, 0, 1, 4, X, X, 18,
       5, 0, 1, 19, X, X, 20, 6, 0, 1, 6, X, X, X, 6, 0, 1, 7, X, X, X]


def changed(words, *pairs):
    out = list(words)
    for at, word in pairs: out[at] = word
    return out


def call(name, head, *lists):
    text = [' '.join(map(str, x)) for x in lists]
    return f'{name} ' + (text[0] if head is None else ' ; '.join([str(head)] + text))


def cases():
    """(what it shows, the call), in order."""
    five, none = load(96, SUM, [5])[1], load(96, SUM, [0])[1]
    reverse = list(range(12, -1, -1))
    still = changed(SUM, (9, 0))
    stopped = run(57, SUM, five, [])[4]
    row = lambda i, k: 11 + 7 * i + k
    yield 'the sum graph is accepted', call('check_graph', None, SUM)
    yield 'loading input 5', call('load', 96, SUM, [5])
    yield 'loading input 0', call('load', 96, SUM, [0])
    yield 'P10: input 5 by sweeps, 10 after 58 firings', call('run', 1000, SUM, five, [])
    yield 'P11: input 0 by sweeps, 0 after 13 firings', call('run', 1000, SUM, none, [])
    yield 'input 5, the nodes in reverse first', call('run', 1000, SUM, five, reverse)
    yield 'input 5, ten reverse lists first', call('run', 1000, SUM, five, reverse * 10)
    yield 'input 0, ten reverse lists first', call('run', 1000, SUM, none, reverse * 10)
    yield 'an allowance one short: SPENT after 57', call('run', 57, SUM, five, [])
    yield 'resumed: one firing more, COMPLETE', call('run', 1000, SUM, stopped, [])
    yield 'an allowance of 0: SPENT, nothing changed', call('run', 0, SUM, five, [])
    yield 'the largest allowance', call('run', 2 ** 64 - 1, SUM, five, [])
    yield 'row 2 changed to CONST 0, loaded', call('load', 96, still, [5])
    yield 'row 2 changed to CONST 0: 6 firings, ZERO STEP, node 0', call('run', 1000, still, load(96, still, [5])[1], [])
    yield 'an empty state: STRANDED', call('run', 1000, SUM, [0] * 96, [])
    yield 'a state without its input: STRANDED', call('run', 1000, SUM, changed(five, (0, 0), (1, 0)), [])
    yield 'one firing: FORK, node 6', call('fire', 6, SUM, five)
    yield 'one firing: STREAM, node 0, is not ready', call('fire', 0, SUM, five)
    yield '11: no words', call('check_graph', None, [])
    yield '11: a word short', call('check_graph', None, SUM[:-1])
    yield '11: 4,097 nodes', call('check_graph', None, changed(SUM, (0, 4097)))
    yield '12: a start row of kind 2', call('check_graph', None, changed(SUM, (4, 2)))
    yield '12: a kind over 8', call('check_graph', None, changed(SUM, (row(0, 0), 9)))
    yield '12: an absent input that is not X', call('check_graph', None, changed(SUM, (row(1, 5), 0)))
    yield '12: a first output number wrong', call('check_graph', None, changed(SUM, (row(1, 6), 6)))
    yield '12: W not S plus all outputs', call('check_graph', None, changed(SUM, (1, 23)))
    yield '13: X in a present input', call('check_graph', None, changed(SUM, (row(0, 3), X)))
    yield '13: a result not below W', call('check_graph', None, changed(SUM, (10, 22)))
    yield '14: a wire read twice and one by no one', call('check_graph', None, changed(SUM, (10, 9)))
    yield '15: a DRAIN of a flag called a word', call('check_graph', None, changed(SUM, (row(11, 2), 0)))
    for number, g in ((11, SUM[:-1]), (12, changed(SUM, (row(0, 0), 9))), (13, changed(SUM, (10, 22))), (14, changed(SUM, (10, 9))),
                      (15, changed(SUM, (row(11, 2), 0)))):
        yield f'{number} on loading, lent words as they were', call('load', 3, g, [5])
        yield f'{number} on firing, lent words as they were', call('fire', 6, g, five)
        yield f'{number} on a run, lent words as they were', call('run', 1000, g, five, [])
    yield '16: no input word', call('load', 96, SUM, [])
    yield '16: two input words', call('load', 96, SUM, [5, 6])
    yield '17 on loading: a word short, and 17 before 16', call('load', 95, SUM, [])
    yield '17 on firing: a word short', call('fire', 6, SUM, five[:-1])
    yield '17: full is 2', call('run', 1000, SUM, changed(five, (0, 2)), [])
    yield '17: the word of an empty wire is not 0', call('run', 1000, SUM, changed(five, (7, 1)), [])
    yield '17: a flag of 2', call('run', 1000, SUM, changed(five, (8, 1), (9, 2)), [])
    yield '17: a phase of 3', call('fire', 3, SUM, changed(five, (44 + 12, 3)))
    yield '17: STREAM in phase 1 with step 0', call('fire', 0, SUM, changed(five, (44, 1)))
    yield '17: a register of a FORK', call('fire', 6, SUM, changed(five, (44 + 25, 1)))
    yield '18 on firing: node 13', call('fire', 13, SUM, five)
    yield '18 on a run: node 13 last in the list, nothing fired', call('run', 1000, SUM, five, [6, 7, 13])
    yield '17 before 18', call('run', 1000, SUM, five[:-1], [13])


# Tables, and what the register asks of them.

def table(*rows): return [x for row in rows for x in list(row) + [0] * (6 - len(row))]


SUM_TABLE = table([INPUT], [CONST, 0], [CONST, 1], [FOR, 1, 2, 0, 0, 0], [ARG, 1], [ROW_OP, 0, 4, 3], [NEXT, 5], [END], [OUT, 6])
P12 = table([CONST, 0], [CONST, 1], [CONST, 3], [FOR, 0, 1, 2, 0, 0], [ARG, 0], [FOR, 0, 1, 3, 0, 0], [ARG, 4], [ROW_OP, 0, 6, 3],
            [NEXT, 7], [END], [NEXT, 8], [END], [OUT, 10])


def nested(depth):
    """Loops in loops, all from row 0 by row 1 to row 2, the innermost with nothing in it."""
    return table([CONST, 0], [CONST, 1], [CONST, 2], *[[FOR, 0, 1, 2, 0, 0]] * depth, *[[END]] * depth, [OUT, 0])


def wide(values, unused=0):
    """Eight loops in each other, so many constants that are added up in the innermost, and inputs that nothing uses, a node for each."""
    first = values + unused + 8
    rows = [[CONST, k] for k in range(values)] + [[INPUT]] * unused + [[FOR, 0, 1, 2, 0, 0]] * 8 + [[ROW_OP, 0, 0, 1]]
    rows += [[ROW_OP, 0, first + k - 2, k] for k in range(2, values)]
    return table(*rows, *[[END]] * 8, [OUT, 0])


def lowering_cases():
    """(what it shows, the call), in order."""
    check = lambda what, words: (what, call('check_table', None, words))
    low = lambda what, lent, words: (what, call('lower', lent, words))
    row = lambda words, i, *new: words[:6 * i] + list(new) + words[6 * i + len(new):]
    fits = lambda words: len(lowered(words)[0])
    flags = table([INPUT], [CONST, 1], [ROW_OP, 3, 0, 1], [FOR, 1, 1, 0, 0, 0], [ARG, 0], [ROW_PICK, 2, 4, 3], [NEXT, 5], [END], [OUT, 6])
    yield check('the sum table is accepted', SUM_TABLE)
    yield low('the sum table lowers to 102 words, lent exactly', 102, SUM_TABLE)
    yield low('two words more than enough are lent: they stay', 104, SUM_TABLE)
    yield low('10: one word too few is lent, and all stay', 101, SUM_TABLE)
    yield low('10: no word is lent', 0, SUM_TABLE)
    yield check('P12 is accepted', P12)
    yield low('P12 lowers', fits(P12), P12)
    yield check('eight nested loops pass', nested(8))
    yield low('eight nested loops lower', fits(nested(8)), nested(8))
    yield check('6: a ninth', nested(9))
    yield low('6: a ninth, lent words as they were', 3, nested(9))
    yield low('a flag is carried into a loop', fits(flags), flags)
    empty = table([INPUT], [OUT, 0])
    yield check('INPUT; OUT 0 is accepted', empty)
    yield low('INPUT; OUT 0 has no nodes', 7, empty)
    many = table([INPUT], *[[OUT, 0]] * 511)
    yield check('512 rows pass LENGTH', many)
    yield low('512 rows lower', fits(many), many)
    yield check('1: 513 rows', table([INPUT], *[[OUT, 0]] * 512))
    yield check('1: no rows', [])
    yield check('1: a word short', SUM_TABLE[:-1])
    yield low('1: a word short, lent words as they were', 3, SUM_TABLE[:-1])
    yield check('a graph of 4,096 nodes', wide(98, 21))
    yield check('10: a graph of 4,097 nodes', wide(98, 22))
    yield low('10: a graph of 4,097 nodes, lent words as they were', 3, wide(98, 22))
    yield check('10: a table of 496 rows, 9,897 nodes', wide(240))
    for what, words in (('2: a kind of 9', row(SUM_TABLE, 5, 9)), ('3: END with a word', row(SUM_TABLE, 7, END, 1)), ('4: an operator of 8', row(SUM_TABLE, 5, ROW_OP, 8)),
                        ('5: NEXT behind FOR', row(SUM_TABLE, 4, NEXT, 1)), ('7: a row further down', row(SUM_TABLE, 5, ROW_OP, 0, 6)),
                        ('8: PICK by a word', row(flags, 5, ROW_PICK, 1)), ('9: a table without its OUT', SUM_TABLE[:-6])):
        yield check(what, words)
        yield low(f'{what}, lent words as they were', 3, words)
    yield check('4: an update of 6', row(SUM_TABLE, 3, FOR, 1, 2, 0, 6))
    yield check('4: a condition of 5', row(SUM_TABLE, 3, FOR, 1, 2, 0, 0, 5))
    yield check('5: END before all NEXTs', row(SUM_TABLE, 6, END, 0))
    yield check('5: INPUT behind a FOR', row(SUM_TABLE, 5, INPUT, 0, 0, 0))
    yield check('5: OUT in a loop', row(SUM_TABLE, 5, OUT, 1, 0, 0))
    yield check('7: an ARG of its own index', row(SUM_TABLE, 4, ARG, 3))
    yield check('7: a NEXT before END', row(SUM_TABLE, 6, NEXT, 6))
    yield check('8: a flag as an OUT', table([INPUT], [ROW_OP, 3, 0, 0], [OUT, 1]))
    yield check('9: no OUT', table([INPUT]))
    sizes = lambda g: 2 * g[1] + 4 * g[0]
    still = row(SUM_TABLE, 2, CONST, 0)
    for what, words, inputs in (('the sum table, input 5: 10 after 58 firings', SUM_TABLE, [5]), ('the sum table, input 0: 0 after 13 firings', SUM_TABLE, [0]),
                                ('row 2 changed to CONST 0: 6 firings, ZERO STEP, node 0', still, [5]), ('P12: the result is 5', P12, []),
                                ('a flag carried in, input 4', flags, [4]), ('INPUT; OUT 0: no firing', empty, [9]),
                                ('P6 in a loop that adds up: -2', index_sum(0, 0), [MOD - 2, 1, 2]), ('down past zero: 5 to -1', index_sum(1, 3), [5, 1, 0])):
        g = lowered(words)[0]
        yield f'{what}: loaded', call('load', sizes(g), g, inputs)
        yield what, call('run', 1000000, g, load(sizes(g), g, inputs)[1], [])


ALL_KINDS = table([INPUT], [CONST, 7], [ROW_OP, 1, 0, 1], [ROW_PICK, 2, 0, 1], [FOR, 1, 2, 0, 5, 4], [ARG, 3], [NEXT, 10], [END], [OUT, X])


def index_sum(code, going):
    """A loop from one input by the next to the third that adds up its index."""
    return table([INPUT], [INPUT], [INPUT], [CONST, 0], [FOR, 0, 1, 2, code, going], [ARG, 3], [ROW_OP, 0, 5, 4], [NEXT, 6], [END], [OUT, 7])


# What it shows, start, step, bound, update, condition.
BELOW_ZERO = (('P6: -2 -1 0 1, then 2', -2, 1, 2, 0, 0), ('5 4 3 2 1 0, then -1', 5, 1, 0, 1, 3), ('-7 -3 -1, then 0: toward zero', -7, 2, 0, 3, 0), ('7 -3 1, then 0', 7, -2, 0, 3, 4),
              ('-8 -4 -2 -1 -1 and so on: rounded down', -8, 1, 0, 5, 4), ('-8, then -1: 40 places', -8, 40, -1, 5, 4), ('the least value by -1 stays', -2 ** 31, -1, 0, 3, 4),
              ('1 2 4 and so on, then the least value', 1, 1, 0, 4, 2), ('the greatest value, then the least and so on', 2 ** 31 - 1, 1, 2 ** 31 - 1, 0, 1), ('0 is above -1: no turn', 0, 1, -1, 0, 0),
              ('3 2 1 0 -1 -2, then -3', 3, -1, -3, 0, 2), ('-1 3 -9, then 27: products', -1, -3, 9, 2, 1))


def sheet_cases():
    """(what it shows, the call), in order: each way in which a line can break, at each key, and the ends of the limits."""
    read = lambda what, text, lent=6: (what, call('read_sheet', lent, list(text)))
    write = lambda what, lent, words: (what, call('write_sheet', lent, words))
    passed = table([INPUT], [OUT, 0])
    yield write('INPUT; OUT 0 is written, lent exactly', len(sheet(passed)), passed)
    yield write('two bytes more than enough are lent: they stay', len(sheet(passed)) + 2, passed)
    yield write('10: one byte too few is lent, and all stay', len(sheet(passed)) - 1, passed)
    yield write('10: no byte is lent', 0, passed)
    yield write('every kind', len(sheet(ALL_KINDS)), ALL_KINDS)
    yield write('1: no words', 3, [])
    yield write('1: a word short', 3, passed[:-1])
    yield write('1: 513 rows', 3, table(*[[END]] * 513))
    yield write('2: a kind of 9', 3, table([INPUT], [9]))
    yield write('3: INPUT with a word', 3, table([INPUT], [INPUT, 0, 0, 0, 0, 1]))
    yield write('2 in a row is looked at before 3, and a row before the next', 3, table([END], [9, 1], [END, 1]))
    yield write('what 4 to 9 refuse has a sheet', 44, table([ROW_OP, 99, X, 4]))
    yield read('INPUT; OUT 0 is read, lent exactly', sheet(passed), 12)
    yield read('three words more than enough are lent: they stay', sheet(passed), 15)
    yield read('10: one word too few is lent, and all stay', sheet(passed), 11)
    yield read('every kind', sheet(ALL_KINDS), 54)
    yield read('19: no bytes', b'')
    yield read('19 before 10: a byte more than the sheet, no word lent', sheet(passed) + b'\n', 0)
    for n in (0, 1, 9, 10, 99, 100, 499, 500, 511, 512, 513, 520, 600, 1000, 4294967297): yield read(f'rows={n}, and the text ends', b'rows=%d\n' % n)
    for r in (0, 2, 3, 10, 11): yield read(f'row={r} where row 1 is due', b'rows=3\nrow=0\nkind=end\nrow=%d\n' % r)
    ten = b''.join(b'row=%d\nkind=end\n' % r for r in range(10))
    for r in (1, 9, 10, 11, 100): yield read(f'row={r} where row 10 is due', b'rows=11\n' + ten + b'row=%d\nkind=end\n' % r, 66)
    for k, name in enumerate(NAMES):
        text = b'rows=1\nrow=0\nkind=%s\n' % name.encode()
        yield read(f'{name}: the name, and the next line is due', text)
        yield read(f'{name}: a letter more', text[:-1] + text[-2:])
        yield read(f'{name}: a letter less', text[:-2] + b'\n')
        yield read(f'{name}: in capitals', text[:-len(name) - 1] + name.upper().encode() + b'\n')
    one = table([FOR, 0, 10, 429496729, X - 1, X])
    whole = sheet(one).decode().split('\n')[:-1]
    yield read('the words of a FOR at their limits', sheet(one))
    for i, line in enumerate(whole):
        key, value = line.split('=')
        put = lambda *new: ''.join(x + '\n' for x in whole[:i] + list(new) + whole[i + 1:]).encode()
        yield read(f'{key}: the line is missing', put())
        yield read(f'{key}: the line stands twice', put(line, line))
        yield read(f'{key}: an empty line before it', put('', line))
        yield read(f'{key}: the key is another', put('f' + line[1:]))
        yield read(f'{key}: the key is longer', put(key + 's=' + value))
        yield read(f'{key}: a capital', put(line.capitalize()))
        yield read(f'{key}: no equals sign', put(key + value))
        yield read(f'{key}: two equals signs', put(key + '==' + value))
        yield read(f'{key}: no value', put(key + '='))
        yield read(f'{key}: a space before the key', put(' ' + line))
        yield read(f'{key}: a space before the value', put(key + '= ' + value))
        yield read(f'{key}: a space behind the value', put(line + ' '))
        yield read(f'{key}: a carriage return', put(line + '\r'))
        yield read(f'{key}: a comment', put(line + '#'))
        yield read(f'{key}: a byte 0', put(line + '\0'))
        yield read(f'{key}: a sign', put(key + '=+' + value))
        yield read(f'{key}: a leading zero', put(key + '=0' + value))
        yield read(f'{key}: a digit more', put(line + '0'))
        yield read(f'{key}: the largest word and one', put(key + '=4294967296'))
        yield read(f'{key}: eleven digits', put(key + '=10000000000'))
        yield read(f'{key}: the byte before the digits', put(key + '=/'))
        yield read(f'{key}: the byte behind the digits', put(key + '=1:'))
        yield read(f'{key}: a byte over 127', put(key + '=').replace(f'{key}=\n'.encode(), f'{key}='.encode() + b'\xff\n'))
        yield read(f'{key}: the text ends in the key', ''.join(x + '\n' for x in whole[:i]).encode() + key[:1].encode())
        yield read(f'{key}: the text ends before the value', ''.join(x + '\n' for x in whole[:i]).encode() + (key + '=').encode())
        yield read(f'{key}: the text ends before the line feed', ''.join(x + '\n' for x in whole[:i]).encode() + line.encode())
        yield read(f'{key}: the text ends behind the line', ''.join(x + '\n' for x in whole[:i + 1]).encode())
    yield read('f: a sixth word', sheet(one) + b'f=0\n')
    yield read('a row more than rows= says', sheet(one) + b'row=1\n')
    yield read('a carriage return behind the sheet', sheet(one) + b'\r')


def plain_cases():
    """(what it shows, the call), in order."""
    read = lambda what, words, inputs=(), allowance=1000, lent=3: (what, call('read_plain', f'{allowance} {lent}', words, inputs))
    row = lambda words, i, *new: words[:6 * i] + list(new) + words[6 * i + len(new):]
    passed = table([INPUT], [OUT, 0])
    still = row(SUM_TABLE, 2, CONST, 0)
    yield read('P10: the sum table, input 5: 10 after 5 turns', SUM_TABLE, [5])
    yield read('P11: the sum table, input 0: 0 after no turn', SUM_TABLE, [0])
    yield read('one word is lent exactly', SUM_TABLE, [5], lent=1)
    yield read('the sum of a thousand turns', SUM_TABLE, [1000])
    yield read('an allowance exactly used up by a reading that ends', SUM_TABLE, [5], 5)
    yield read('one turn less: spent, lent words as they were', SUM_TABLE, [5], 4)
    yield read('no turn is allowed: spent', SUM_TABLE, [5], 0)
    yield read('no turn is allowed and none is due: ended', SUM_TABLE, [0], 0)
    yield read('the largest allowance', SUM_TABLE, [5], 2 ** 64 - 1)
    yield read('row 2 changed to CONST 0: zero step at row 3, no turn', still, [5])
    yield read('a zero step of a loop that would make no turn', still, [0])
    yield read('a zero step, and no turn is allowed: none is due', still, [5], 0)
    yield read('P12: 5 after 6 turns', P12)
    yield read('P12 with an allowance of exactly 6', P12, allowance=6)
    yield read('P12 with one turn less: spent in the inner loop', P12, allowance=5)
    yield read('P12 with an allowance of 3: spent where the outer loop turns', P12, allowance=3)
    yield read('P12 with an allowance of 0', P12, allowance=0)
    yield read('INPUT; OUT 0: the word itself', passed, [X])
    yield read('one word is given as three results, and a word is to spare', table([INPUT], *[[OUT, 0]] * 3), [9], lent=4)
    many = table([INPUT], [CONST, 3], [ROW_OP, 0, 0, 1], [ROW_OP, 2, 0, 1], *[[OUT, k] for k in (3, 0, 2, 1)])
    yield read('four results in the order of their rows', many, [X], lent=4)
    yield read('511 results', table([INPUT], *[[OUT, 0]] * 511), [8], lent=511)
    for code in range(8):
        for x, y in ((3, 5), (5, 3), (X, X), (0, X)):
            words = table([INPUT], [INPUT], [ROW_OP, code, 0, 1], [OUT, 2]) if code < 3 else table([INPUT], [INPUT], [ROW_OP, code, 0, 1], [ROW_PICK, 2, 0, 1], [OUT, 3])
            yield read(f'operator {code} on {x} and {y}', words, [x, y])
    for code, start, step, bound, going in ((0, 0, 3, 10, 0), (1, 9, 4, 1, 2), (2, 1, 3, 1000, 1), (3, 1000, 3, 0, 4), (4, 1, 4, 0, 4), (5, 4096, 5, 0, 2), (0, X - 3, 2, 0, 4), (3, 7, 2, 7, 3)):
        yield read(f'update {code} under condition {going}', index_sum(code, going), [start, step, bound], 40)
    for what, start, step, bound, code, going in BELOW_ZERO:
        yield read(f'below zero: {what}', index_sum(code, going), [start % MOD, step % MOD, bound % MOD], 40)
    swap = table([INPUT], [INPUT], [INPUT], [CONST, 0], [CONST, 1], [FOR, 3, 4, 2, 0, 0], [ARG, 0], [ARG, 1], [NEXT, 7], [NEXT, 6], [END], [OUT, 8], [OUT, 9])
    for n in (0, 1, 2, 3): yield read(f'two ARGs that swap, {n} turns', swap, [11, 22, n])
    yield read('a NEXT of the other ARG, beside one of the index', row(swap, 9, NEXT, 5), [11, 22, 3])
    inner = table([INPUT], [CONST, 0], [CONST, 1], [FOR, 1, 2, 0, 0, 0], [ARG, 1], [FOR, 3, 2, 0, 0, 0], [ARG, 4], [ARG, 3], [ROW_OP, 0, 6, 5], [NEXT, 8], [NEXT, 6], [END],
                  [ROW_OP, 0, 9, 10], [NEXT, 12], [END], [OUT, 13])
    yield read('an inner loop from the outer index, opened with other words each time', inner, [4])
    behind = table([INPUT], [CONST, 2], [CONST, 1], [CONST, 0], [FOR, 1, 2, 3, 1, 2], [FOR, 3, 4, 0, 0, 0], [END], [FOR, 3, 3, 0, 0, 0], [END], [END], [OUT, 0])
    yield read('a zero step in a loop, behind another: 4 turns', behind, [6])
    yield read('the same with the allowance used up there: zero step', behind, [6], 4)
    yield read('the same with one turn less: spent', behind, [6], 3)
    later = table([INPUT], [CONST, 2], [CONST, 1], [CONST, 0], [FOR, 1, 2, 3, 1, 2], [ROW_OP, 1, 4, 2], [FOR, 3, 5, 0, 0, 0], [END], [END], [OUT, 0])
    yield read('a zero step in the second turn of the outer loop', later, [3])
    yield read('the same with the allowance used up there', later, [3], 5)
    endless = table([CONST, 0], [CONST, 1], [FOR, 0, 1, 1, 2, 0], [END], [OUT, 0])
    yield read('a loop whose index stays 0: spent', endless, allowance=1000)
    yield read('a zero step above a loop that never ends', table([CONST, 0], [CONST, 1], [FOR, 0, 0, 1, 0, 0], [END], [FOR, 0, 1, 1, 2, 0], [END], [OUT, 0]))
    yield read('eight nested loops, two turns each: 510', nested(8))
    yield read('eight nested loops, one turn less', nested(8), allowance=509)
    yield read('6: a ninth', nested(9))
    yield read('a table of 4,097 nodes, which lower refuses for ROOM', wide(98, 22), [0] * 22, lent=1)
    yield read('496 rows, 9,897 nodes', wide(240), lent=1)
    yield read('512 rows', table([INPUT], *[[ROW_OP, 0, k, 0] for k in range(510)], [OUT, 510]), [3])
    for what, words in (('1: no rows', []), ('1: a word short', SUM_TABLE[:-1]), ('1: 513 rows', table([INPUT], *[[OUT, 0]] * 512)), ('2: a kind of 9', row(SUM_TABLE, 5, 9)),
                        ('3: END with a word', row(SUM_TABLE, 7, END, 1)), ('4: an operator of 8', row(SUM_TABLE, 5, ROW_OP, 8)), ('4: an update of 6', row(SUM_TABLE, 3, FOR, 1, 2, 0, 6)),
                        ('4: a condition of 5', row(SUM_TABLE, 3, FOR, 1, 2, 0, 0, 5)), ('5: NEXT behind FOR', row(SUM_TABLE, 4, NEXT, 1)),
                        ('5: END before all NEXTs', row(SUM_TABLE, 6, END, 0)), ('7: a row further down', row(SUM_TABLE, 5, ROW_OP, 0, 6)), ('7: an ARG of its own index', row(SUM_TABLE, 4, ARG, 3)),
                        ('8: a flag as an OUT', table([INPUT], [ROW_OP, 3, 0, 0], [OUT, 1])), ('9: a table without its OUT', SUM_TABLE[:-6])):
        yield read(f'{what}, lent words as they were', words, [5])
    yield read('16: no input word', SUM_TABLE)
    yield read('16: two input words', SUM_TABLE, [5, 6])
    yield read('16: a word for a table of constants', P12, [1])
    yield read('16 before 10: no input word, no word lent', SUM_TABLE, lent=0)
    yield read('9 before 16', SUM_TABLE[:-6], [5, 6])
    yield read('10: no word is lent', SUM_TABLE, [5], lent=0)
    yield read('10: one word too few is lent, and all stay', many, [5], lent=3)
    yield read('10 before any turn: a loop that never ends', endless, lent=0)


def name_of(node):
    """A node's kind, with what its code says."""
    name = 'STREAM GATE CARRY INVARIANT SPLIT FORK DRAIN OP PICK'.split()[node.kind]
    conditions = '< <= > >= !='.split()
    if node.kind == STREAM: return f'{name} {"+= -= *= /= <<= >>=".split()[node.code // 5]} {conditions[node.code % 5]}'
    return f'{name} {("+ - *".split() + conditions)[node.code]}' if node.kind == OP else name


def carried(what, row, copied):
    """What a wire carries."""
    loop, arg, copy = f' of the FOR at row {row}', f' of the ARG at row {row}', f'copy of row {copied} in the loop of the FOR at row {row}'
    return {0: f'row {row}', 1: f'row {row}', 2: "STREAM's index" + loop, 3: 'raw condition' + loop, 4: 'index' + loop, 5: 'gated condition' + loop, 6: 'guard' + loop,
            7: 'true leg of the ' + copy, 8: 'false leg of the ' + copy, 9: copy, 10: "CARRY's word" + arg, 11: 'word' + arg, 12: 'exit word' + arg}[what]


def role(what, row, copied):
    """What a node is for, behind its kind."""
    if what >= 16: return (' of ' if what % 16 < 2 else ' of the ') + carried(what % 16, row, copied)
    if what in (4, 5): return ' of the ' + carried(9, row, copied)
    return {0: f' of row {row}', 3: f', the guard of the FOR at row {row}'}.get(what, f' of the {"FOR" if what < 3 else "ARG"} at row {row}')


def node_told(i, node, names):
    """A node with its kind and, where there are names, what it is for."""
    return f'node {i}, {name_of(node)}' + (role(*names[3 * i:3 * i + 3]) if names else '')


def wire_told(x, names):
    """Behind a wire's number or token, where there are names, what it carries."""
    return f' ({carried(*names[3 * x:3 * x + 3])})' if names else ''


def tracing(g, words, allowance, names=(), wire_names=(), told=int):
    """The lines of a traced run by sweeps, and the state it ends in. Words are told as they are, or by `value` with a sign."""
    graph = Graph(g)
    nodes, state = graph.nodes(), State(graph, words)
    lines, before = [], -1
    while before < len(lines) < allowance:
        before = len(lines)
        for i, node in enumerate(nodes):
            done = ready(node, state, i)
            if done is None or len(lines) == allowance: continue
            took = [f' {node.ins[k]}={told(state.tokens[node.ins[k]])}{wire_told(node.ins[k], wire_names)}' for k in done[0]]
            gave = [f' {node.first + k}={told(word)}{wire_told(node.first + k, wire_names)}' for k, word in sorted(done[1].items())]
            perform(node, state, i, done)
            lines.append(f'{len(lines) + 1}: {node_told(i, node, names)}, took{"".join(took) or " nothing"} gave{"".join(gave) or " nothing"}')
    return lines, state.words()


def rehearsed(g, words, allowance, names=(), wire_names=(), told=int):
    """What people are told of a run by sweeps."""
    no, end, firings, node, s = run(allowance, g, words, [])
    graph = Graph(g)
    nodes, state = graph.nodes(), State(graph, s)
    stalled = end == 1
    out = [f'{["COMPLETE", "ZERO STEP", "STRANDED", "SPENT"][end]} after {firings} firings' + (f' at {node_told(node, nodes[node], names)}' if stalled else '')
           + f', {g[0]} nodes, {g[1]} wires']
    if stalled: out.append(f'its step is the word 0 on wire {nodes[node].ins[1]}{wire_told(nodes[node].ins[1], wire_names)}')
    if end == 2:
        for w, token in enumerate(state.tokens):
            if token is None: continue
            line = f'token {w}={told(token)}{wire_told(w, wire_names)}'
            for i, node in enumerate(nodes):
                if w not in node.ins[:len(node.input_sorts())]: continue
                lacks = [f' {x}{wire_told(x, wire_names)}' for x in node.ins[:len(node.input_sorts())] if state.tokens[x] is None]
                line += f' waits at {node_told(i, node, names)}, inputs without a token:{"".join(lacks) or " none"}'
            out.append(line + (' is a result' if w in graph.results else ''))
    if end == 3:
        standing = sum(t is not None for t in state.tokens)
        out.append(f'the allowance is spent and the results are not final; tokens on wires: {standing}; a larger --allowance helps where an index moves towards its bound')
        for i, (node, (phase, index, step, bound)) in enumerate(zip(nodes, state.records)):
            if node.kind == STREAM and phase == 1:
                test = '< <= > >= !='.split()[node.code % 5]
                out.append(f'open loop: {node_told(i, node, names)}: index {told(index)}, step {told(step)}, bound {told(bound)}, goes on while index {test} bound')
    return out + [f'result {k}: {"none" if state.tokens[x] is None else told(state.tokens[x])}' for k, x in enumerate(graph.results)]


def wire_name(what, row, of):
    """What a wire before forks has, in few words."""
    loop, copy, arg = f'FOR {row}', f'copy of row {of} in FOR {row}', f'ARG {row}'
    return [f'row {row}', f'row {row}', f'raw index, {loop}', f'raw condition, {loop}', f'index, {loop}', f'gated condition, {loop}', f'guard, {loop}',
            f'true leg, {copy}', f'false leg, {copy}', copy, f'carry, {arg}', arg, f'exit word, {arg}'][what]


def node_name(role, row, of):
    """What a node is for, in few words: the names of a wire's FORKs count from 16, of its DRAIN from 32."""
    if role >= 16: return 'of ' + wire_name(role % 16, row, of)
    copy = f'copy of row {of} in FOR {row}'
    return [f'row {row}', f'FOR {row}', f'FOR {row}', f'guard, FOR {row}', copy, copy, f'ARG {row}', f'ARG {row}'][role]


HEADS = [('start', 'step', 'bound'), ('value', 'cond'), 'dab', 'da', ('flag', 'value'), None, None, 'xy', ('flag', 'x', 'y')]
TAILS = {STREAM: ('index', 'cond'), GATE: ('value', 'cond'), SPLIT: 'TF'}


def drawing(g, words, names=(), wire_names=()):
    """The listing of a graph, a line a row, and its dot text with the tokens of a state and with names, three words each, where they are given."""
    graph = Graph(g)
    nodes = graph.nodes()
    given = {x: (f'n{i}', sort, TAILS.get(node.kind, [''] * 2)[k]) for i, node in enumerate(nodes) for k, (x, sort) in enumerate(zip(node.wires_out(), node.output_sorts()))}
    given.update({k: (f's{k}', 0, '') for k in range(len(graph.starts))})
    tokens = State(graph, words).tokens if words else [None] * graph.wires
    shapes = 'house invhouse box box3d diamond triangle invtriangle circle trapezium'.split()

    def edge(wire, reader, head=''):
        source, sort, tail = given[wire]
        token = '' if tokens[wire] is None else f': {tokens[wire]}'
        name = wire_name(*wire_names[3 * wire:3 * wire + 3]) if wire_names else ''
        marks = ''.join(f' {what}="{mark}"' for what, mark in (('taillabel', tail), ('tooltip', name), ('headlabel', head)) if mark)
        return f'{source} -> {reader} [label="{wire}{token}" style={"dashed" if sort else "solid"}{marks}];'

    out = [g[:4], [x for row in graph.starts for x in row], graph.results] + graph.rows
    out = [' '.join(map(str, x)) for x in out] + ['digraph graph_of_tokens {']
    out.append('label="solid: words, dashed: flags; a wire has its number, then the token on it; T and F: the true and the false leg";')
    for k, (kind, word) in enumerate(graph.starts): out.append(f's{k} [shape=plaintext label="{["input", "constant"][kind]} {word}"];')
    for i, node in enumerate(nodes):
        name = r'\n' + node_name(*names[3 * i:3 * i + 3]) if names else ''
        out.append(f'n{i} [label="{i} {name_of(node)}{name}" shape={shapes[node.kind]}];')
        out += [edge(x, f'n{i}', (HEADS[node.kind] or [''])[k]) for k, x in enumerate(node.wires_in())]
    for k, x in enumerate(graph.results): out += [f'r{k} [shape=plaintext label="result {k}"];', edge(x, f'r{k}')]
    return out + ['}']


def table_words(text): return [int(x) for line in text.split('\n') for x in line.partition('#')[0].split()]


if __name__ == '__main__':
    what = sys.argv[1:]
    if what == ['cases']:
        for _, line in cases(): print(line)
    elif what == ['lowering-cases']:
        for _, line in lowering_cases(): print(line)
    elif what == ['sheet-cases']:
        for _, line in sheet_cases(): print(line)
    elif what == ['plain-cases']:
        for _, line in plain_cases(): print(line)
    elif what == ['told']:
        for part in (cases(), lowering_cases(), sheet_cases(), plain_cases()):
            for k, (shows, line) in enumerate(part): print(f'{k + 1}. {shows}: `{answer(line).partition(" ;")[0]}`')
            print()
    elif what == ['draw']:
        print('\n'.join(drawing(*[numbers(x) for x in sys.stdin.read().split(';')])))
    elif what == ['trace']:
        parts = [numbers(x) for x in sys.stdin.read().split(';')]
        for k, told in ((0, int), (5, value)):
            g, inputs, s, *names = parts[k:k + 5]
            loaded = load(len(s), g, inputs)[1]
            print('\n'.join(rehearsed(g, loaded, 1000, *names, told) + tracing(g, loaded, 1000, *names, told)[0] + rehearsed(g, loaded, 1000, *names, told) + rehearsed(g, loaded, 30, *names, told)))
    elif what == ['lower']:
        print('\n'.join(drawing(lowered(table_words(sys.stdin.read()))[0], []))[:].partition('digraph')[0], end='')
    elif what == ['names']:
        for part in named(table_words(sys.stdin.read())): print('\n'.join(' '.join(map(str, x)) for x in part))
    else:
        for line in sys.stdin: print(answer(line))
