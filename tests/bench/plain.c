/* check_graph, load, fire and run as one would write them in C: one pass where the library has several, no table cleared beyond its use. */
#include <string.h>
#include "plain.h"
enum { SHAPE = 11, NODE, WIRE, READERS, SORT, INPUTS, STATE, ORDER };
enum { COMPLETE, ZERO_STEP, STRANDED, SPENT };

static const uint8_t codes[9] = {30, 1, 1, 1, 1, 1, 1, 8, 1};
static const uint8_t sorts[9] = {1, 2, 2, 2, 2, 2, 2, 1, 1};
static const uint8_t inputs_of[9] = {3, 2, 3, 2, 2, 1, 1, 2, 3};
static const uint8_t outputs_of[9] = {2, 2, 1, 1, 2, 2, 0, 1, 1};

typedef struct {
    u32 nodes, wires, starts, results, inputs;
    const u32 *start, *result, *row;
    uint8_t sort[MOST_STARTS + 2 * MOST_NODES];     /* of each wire */
} Graph;

/* 11 to 15: one pass for 12 and 13, one for 14 and 15. */
static u32 check(const u32 *g, size_t len, Graph *x)
{
    if (len < 4 || g[0] > MOST_NODES || g[1] > MOST_WIRES || g[2] > MOST_STARTS || g[3] > MOST_RESULTS) return SHAPE;
    u32 n = g[0], W = g[1], S = g[2], R = g[3];
    if (len != 4 + 2 * (size_t)S + R + 7 * (size_t)n) return SHAPE;
    x->nodes = n, x->wires = W, x->starts = S, x->results = R;
    x->start = g + 4, x->result = x->start + 2 * S, x->row = x->result + R;
    u32 input = 0;
    for (u32 i = 0; i < S; i++) {
        u32 k = x->start[2 * i];
        if (k > 1 || (k == 0 && x->start[2 * i + 1] != input)) return NODE;
        input += k == 0;
    }
    x->inputs = input;
    memset(x->sort, 0, S);
    u32 next = S, over = 0, reads = R;
    const u32 *end = x->row + 7 * (size_t)n;
    for (const u32 *r = x->row; r < end; r += 7) {
        u32 k = r[0], s = r[2];
        if (k > PICK || r[1] >= codes[k] || s >= sorts[k]) return NODE;
        u32 in = inputs_of[k], out = outputs_of[k];
        if ((in < 2 && r[4] != ABSENT) || (in < 3 && r[5] != ABSENT) || r[6] != (out ? next : ABSENT)) return NODE;
        over |= (r[3] >= W) | (in > 1 && r[4] >= W) | (in > 2 && r[5] >= W);
        if (out) x->sort[next] = k == OP ? r[1] >= 3 : (uint8_t)s;
        if (out > 1) x->sort[next + 1] = k <= GATE ? 1 : (uint8_t)s;
        next += out, reads += in;
    }
    if (next != W) return NODE;
    for (u32 i = 0; i < R; i++) over |= x->result[i] >= W;
    if (over) return WIRE;
    if (reads != W) return READERS;      /* fewer reads than wires, or more: some wire is not read once */
    uint8_t seen[MOST_WIRES];
    memset(seen, 0, W);
    u32 twice = 0, differ = 0;
#define READ(w, s) (twice |= seen[w], seen[w] = 1, differ |= x->sort[w] ^ (s))
    for (const u32 *r = x->row; r < end; r += 7) {
        u32 k = r[0], s = r[2];
        READ(r[3], (k >= CARRY && k <= SPLIT) || k == PICK ? 1 : s);
        if (inputs_of[k] > 1) READ(r[4], k == GATE ? 1 : s);
        if (inputs_of[k] > 2) READ(r[5], s);
    }
    for (u32 i = 0; i < R; i++) READ(x->result[i], 0);
#undef READ
    if (twice) return READERS;
    return differ ? SORT : 0;
}

u32 c_check_graph(const u32 *graph, size_t len)
{
    Graph x;
    return check(graph, len, &x);
}

static int legal(const Graph *x, const u32 *st)
{
    u32 bad = 0;
    for (u32 w = 0; w < x->wires; w++) {
        u32 f = st[2 * w], v = st[2 * w + 1];
        bad |= (f > 1) | ((f == 0) & (v != 0)) | ((x->sort[w] != 0) & (v > 1));
    }
    if (bad) return 0;
    const u32 *r = x->row, *c = st + 2 * x->wires;
    for (u32 i = 0; i < x->nodes; i++, r += 7, c += 4) {
        switch (r[0]) {
        case STREAM: bad |= c[0] > 1 || (c[0] ? c[2] == 0 : (c[1] | c[2] | c[3]) != 0); break;
        case INVARIANT: bad |= c[0] > 1 || (c[0] ? (c[2] | c[3]) != 0 || (r[2] && c[1] > 1) : (c[1] | c[2] | c[3]) != 0); break;
        case GATE: bad |= c[0] > 1 || (c[1] | c[2] | c[3]); break;
        case CARRY: bad |= c[0] > 2 || (c[1] | c[2] | c[3]); break;
        default: bad |= c[0] | c[1] | c[2] | c[3];
        }
    }
    return !bad;
}

static u32 enter(const u32 *g, size_t len, const u32 *st, size_t nst, Graph *x)
{
    u32 no = check(g, len, x);
    if (no) return no;
    if (nst != 2 * (size_t)x->wires + 4 * (size_t)x->nodes || !legal(x, st)) return STATE;
    return 0;
}

u32 c_load(const u32 *graph, size_t len, const u32 *inputs, size_t ninputs, u32 *state, size_t nstate)
{
    Graph x;
    u32 no = check(graph, len, &x);
    if (no) return no;
    if (nstate != 2 * (size_t)x.wires + 4 * (size_t)x.nodes) return STATE;
    if (ninputs != x.inputs) return INPUTS;
    for (u32 i = 0; i < x.starts; i++) {
        state[2 * i] = 1;
        state[2 * i + 1] = x.start[2 * i] ? x.start[2 * i + 1] : inputs[x.start[2 * i + 1]];
    }
    memset(state + 2 * x.starts, 0, (nstate - 2 * x.starts) * sizeof *state);
    return 0;
}

static inline u32 condition(u32 c, u32 x, u32 y)
{
    int32_t a = (int32_t)x, b = (int32_t)y;
    switch (c) {
    case 0: return a < b;
    case 1: return a <= b;
    case 2: return a > b;
    case 3: return a >= b;
    default: return x != y;
    }
}

static inline u32 update(u32 c, u32 x, u32 s)
{
    switch (c) {
    case 0: return x + s;
    case 1: return x - s;
    case 2: return x * s;
    case 3: return s + 1 ? (u32)((int32_t)x / (int32_t)s) : 0 - x;
    case 4: return s < 32 ? x << s : 0;
    default: return (u32)((int32_t)x >> (s < 32 ? s : 31));
    }
}

static inline u32 operate(u32 c, u32 x, u32 y)
{
    switch (c) {
    case 0: return x + y;
    case 1: return x - y;
    case 2: return x * y;
    default: return condition(c - 3, x, y);
    }
}

/* One firing of the node of row r with record c: whether it was ready. With `dry` it changes nothing. */
static inline u32 step(const u32 *r, u32 *st, u32 *c, const int dry)
{
#define FULL(w) st[2 * (size_t)(w)]
#define WORD(w) st[2 * (size_t)(w) + 1]
#define TAKE(w) (FULL(w) = 0, WORD(w) = 0)
#define GIVE(w, v) (FULL(w) = 1, WORD(w) = (v))
#define READY() do { if (dry) return 1; } while (0)
    u32 a = r[3], o = r[6];
    switch (r[0]) {
    case STREAM:
        if (c[0] == 0) {
            if (!FULL(a) || !FULL(r[4]) || !FULL(r[5]) || WORD(r[4]) == 0) return 0;
            READY();
            c[0] = 1, c[1] = WORD(a), c[2] = WORD(r[4]), c[3] = WORD(r[5]);
            TAKE(a), TAKE(r[4]), TAKE(r[5]);
            return 1;
        }
        if (FULL(o) | FULL(o + 1)) return 0;
        READY();
        {
            u32 on = condition(r[1] % 5, c[1], c[3]);
            GIVE(o, c[1]), GIVE(o + 1, on);
            if (on) c[1] = update(r[1] / 5, c[1], c[2]);
            else c[0] = c[1] = c[2] = c[3] = 0;
        }
        return 1;
    case GATE: {
        u32 b = r[4];
        if (!(FULL(a) & FULL(b))) return 0;
        u32 v = WORD(a), on = WORD(b), was = c[0];
        if ((on && FULL(o)) || (was && FULL(o + 1))) return 0;
        READY();
        TAKE(a), TAKE(b);
        if (on) GIVE(o, v);
        if (was) GIVE(o + 1, on);
        c[0] = on;
        return 1;
    }
    case CARRY:
        if (c[0] == 1) {
            if (!FULL(a)) return 0;
            READY();
            c[0] = WORD(a) ? 2 : 0;
            TAKE(a);
            return 1;
        } else {
            u32 from = c[0] ? r[5] : r[4];
            if (!FULL(from) || FULL(o)) return 0;
            READY();
            GIVE(o, WORD(from)), TAKE(from);
            c[0] = 1;
            return 1;
        }
    case INVARIANT:
        if (c[0] == 0) {
            u32 b = r[4];
            if (!FULL(b) || FULL(o)) return 0;
            READY();
            c[0] = 1, c[1] = WORD(b);
            GIVE(o, c[1]), TAKE(b);
            return 1;
        }
        if (!FULL(a)) return 0;
        if (WORD(a)) {
            if (FULL(o)) return 0;
            READY();
            TAKE(a), GIVE(o, c[1]);
            return 1;
        }
        READY();
        TAKE(a), c[0] = c[1] = 0;
        return 1;
    case SPLIT: {
        u32 b = r[4];
        if (!(FULL(a) & FULL(b))) return 0;
        u32 off = !WORD(a);
        if (FULL(o + off)) return 0;
        READY();
        GIVE(o + off, WORD(b)), TAKE(a), TAKE(b);
        return 1;
    }
    case FORK:
        if (!FULL(a) || (FULL(o) | FULL(o + 1))) return 0;
        READY();
        GIVE(o, WORD(a)), GIVE(o + 1, WORD(a)), TAKE(a);
        return 1;
    case DRAIN:
        if (!FULL(a)) return 0;
        READY();
        TAKE(a);
        return 1;
    case OP: {
        u32 b = r[4];
        if (!(FULL(a) & FULL(b)) || FULL(o)) return 0;
        READY();
        GIVE(o, operate(r[1], WORD(a), WORD(b)));
        TAKE(a), TAKE(b);
        return 1;
    }
    default: {
        u32 b = r[4], e = r[5];
        if (!(FULL(a) & FULL(b) & FULL(e)) || FULL(o)) return 0;
        READY();
        GIVE(o, WORD(a) ? WORD(b) : WORD(e));
        TAKE(a), TAKE(b), TAKE(e);
        return 1;
    }
    }
}

Fired c_fire(const u32 *graph, size_t len, u32 *state, size_t nstate, size_t node)
{
    Graph x;
    u32 no = enter(graph, len, state, nstate, &x);
    if (no) return (Fired){no, 0};
    if (node >= x.nodes) return (Fired){ORDER, 0};
    return (Fired){0, step(x.row + 7 * node, state, state + 2 * x.wires + 4 * node, 0) != 0};
}

static int any_ready(const Graph *x, u32 *st)
{
    u32 *c = st + 2 * x->wires;
    for (u32 i = 0; i < x->nodes; i++)
        if (step(x->row + 7 * i, st, c + 4 * i, 1)) return 1;
    return 0;
}

/* The answer of a state in which no node is ready. */
static Ran at_rest(const Graph *x, const u32 *st, u64 firings)
{
    u32 full = 0, phases = 0, results = 0;
    const u32 *c = st + 2 * x->wires;
    for (u32 w = 0; w < x->wires; w++) full += st[2 * w];
    for (u32 i = 0; i < x->results; i++) results += st[2 * (size_t)x->result[i]];
    for (u32 i = 0; i < x->nodes; i++) phases |= c[4 * i];
    if (results == x->results && full == results && !phases) return (Ran){0, COMPLETE, firings, 0};
    for (u32 i = 0; i < x->nodes; i++) {
        const u32 *r = x->row + 7 * i;
        if (r[0] == STREAM && c[4 * i] == 0 && FULL(r[3]) && FULL(r[4]) && FULL(r[5]) && WORD(r[4]) == 0)
            return (Ran){0, ZERO_STEP, firings, i};
    }
    return (Ran){0, STRANDED, firings, 0};
}

static Ran spent_or_rest(const Graph *x, u32 *st, u64 firings)
{
    return any_ready(x, st) ? (Ran){0, SPENT, firings, 0} : at_rest(x, st, firings);
}

static int enter_run(const u32 *g, size_t len, const u32 *st, size_t nst, const u32 *order, size_t norder, Graph *x, u32 *no)
{
    *no = enter(g, len, st, nst, x);
    if (*no) return 0;
    u32 top = 0;
    for (size_t k = 0; k < norder; k++) top |= order[k] >= x->nodes;
    if (top) *no = ORDER;
    return !top;
}

Ran c_run(const u32 *graph, size_t len, u32 *state, size_t nstate, const u32 *order, size_t norder, u64 allowance)
{
    Graph x;
    u32 no;
    if (!enter_run(graph, len, state, nstate, order, norder, &x, &no)) return (Ran){no, 0, 0, 0};
    u64 left = allowance;
    u32 n = x.nodes, *c = state + 2 * x.wires;
    const u32 *row = x.row;
    if (!left) return spent_or_rest(&x, state, 0);
    for (size_t k = 0; k < norder; k++)
        if (step(row + 7 * order[k], state, c + 4 * order[k], 0) && --left == 0) return spent_or_rest(&x, state, allowance);
    for (;;) {
        u64 before = left;
        for (u32 i = 0; i < n; i++)
            if (step(row + 7 * i, state, c + 4 * i, 0) && --left == 0) return spent_or_rest(&x, state, allowance);
        if (left == before) break;
    }
    return at_rest(&x, state, allowance - left);
}
