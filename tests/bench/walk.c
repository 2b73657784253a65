/* read_plain as one would write it in C: the rows are checked by rules 1 to 9 in one pass, and then walked with a stack of open loops. With it, a program that calls the
 * library's and this one on the same words:
 *   readings compare TABLE ALLOWANCE LENT INPUT..     ends with status 1 where an answer or a lent word differs, else prints the answer and the turns
 *   readings c|rattle TABLE ALLOWANCE LENT INPUT..    calls one of the two, for valgrind to count */
#include <stddef.h>
#include <stdint.h>
#include <stdio.h>
#include <stdlib.h>
#include <string.h>
typedef uint32_t u32;
typedef uint64_t u64;
typedef uint16_t u16;
enum { INPUT, CONST, OP, PICK, FOR, ARG, NEXT, END, OUT };
enum { LENGTH = 1, KIND, SPARE, CODE, PLACE, DEPTH, NAME, TYPE, OPEN, ROOM, INPUTS = 16 };
enum { ENDED, ZERO_STEP, SPENT = 3, MOST = 512, DEEPEST = 8, NONE = 65535 };
typedef struct { u32 number, row, answer; u64 turns; } Read;
static const uint8_t used[9] = {0, 1, 3, 3, 5, 1, 1, 0, 1};

/* What the check finds and the walk needs: of each FOR its ARGs and its END, of each END its FOR. */
typedef struct { u32 rows, inputs, outs; u16 args[MOST], end[MOST], loop[MOST]; } Shape;

typedef struct { const u32 *t; u32 open[DEEPEST], nexts[DEEPEST], depth; u16 home[MOST]; uint8_t flag[MOST], hidden[MOST]; } Checked;

/* Whether row v has a value of a sort that is visible with `depth` loops open: rows of closed loops and NEXTs before their END are hidden. */
static inline u32 named(const Checked *c, u32 v, u32 i, u32 depth, u32 flag)
{
    if (v >= i || c->t[6 * v] > NEXT || c->hidden[v] || (depth < c->depth && c->home[v] == c->open[c->depth - 1])) return NAME;
    return c->flag[v] == flag ? 0 : TYPE;
}

static inline u32 first(u32 a, u32 b) { return !a ? b : !b || a < b ? a : b; }

static u32 placed(const Checked *c, const Shape *x, u32 kind, u32 before, u32 late)
{
    if (before == OUT && kind != OUT) return 0;
    if (before == NEXT && kind != NEXT && kind != END) return 0;
    switch (kind) {
    case INPUT: case CONST: return !late;
    case ARG: return before == FOR || before == ARG;
    case NEXT: return c->depth && c->nexts[c->depth - 1] < x->args[c->open[c->depth - 1]];
    case END: return c->depth && c->nexts[c->depth - 1] == x->args[c->open[c->depth - 1]];
    case OUT: return !c->depth;
    }
    return 1;
}

/* The rows of a body that is closed are hidden, but for its NEXTs, which are seen from now on. */
static void close_loop(Checked *c, Shape *x, u32 i)
{
    u32 f = c->open[--c->depth];
    for (u32 r = f; r < i; r++) if (c->home[r] == f) c->hidden[r] = 1;
    for (u32 r = i - x->args[f]; r < i; r++) c->hidden[r] = 0, c->home[r] = c->depth ? c->open[c->depth - 1] : NONE;
    x->end[f] = i, x->loop[i] = f;
}

static Read check(const u32 *t, size_t len, Shape *x)
{
    Checked c = {.t = t};
    if (len % 6 || len == 0 || len > 6 * MOST) return (Read){.number = LENGTH};
    u32 n = len / 6, before = INPUT, late = 0;
    x->rows = n, x->inputs = x->outs = 0;
    for (u32 i = 0; i < n; i++) {
        const u32 *r = t + 6 * i;
        u32 kind = r[0], no = 0, d = c.depth;
        if (kind > OUT) return (Read){.number = KIND, .row = i};
        for (u32 k = 1 + used[kind]; k < 6; k++) if (r[k]) return (Read){.number = SPARE, .row = i};
        if ((kind == OP && r[1] > 7) || (kind == FOR && (r[4] > 5 || r[5] > 4))) return (Read){.number = CODE, .row = i};
        if (!placed(&c, x, kind, i ? before : END + 9, late)) return (Read){.number = PLACE, .row = i};
        if (kind == FOR && d == DEEPEST) return (Read){.number = DEPTH, .row = i};
        c.home[i] = d ? c.open[d - 1] : NONE;
        switch (kind) {
        case OP: no = first(named(&c, r[2], i, d, 0), named(&c, r[3], i, d, 0)); break;
        case PICK: no = first(named(&c, r[1], i, d, 1), first(named(&c, r[2], i, d, 0), named(&c, r[3], i, d, 0))); break;
        case FOR: no = first(named(&c, r[1], i, d, 0), first(named(&c, r[2], i, d, 0), named(&c, r[3], i, d, 0))); break;
        case ARG: no = named(&c, r[1], i, d - 1, 0); break;
        case NEXT: case OUT: no = named(&c, r[1], i, d, 0); break;
        }
        if (no) return (Read){.number = no, .row = i};
        c.flag[i] = kind == OP && r[1] >= 3;
        switch (kind) {
        case INPUT: x->inputs++; break;
        case OUT: x->outs++; break;
        case FOR: c.open[d] = i, c.nexts[d] = 0, c.depth++, c.home[i] = i, x->args[i] = 0; break;
        case ARG: x->args[c.open[d - 1]]++; break;
        case NEXT: c.nexts[d - 1]++, c.hidden[i] = 1; break;
        case END: close_loop(&c, x, i); break;
        }
        late |= kind > CONST, before = kind;
    }
    if (c.depth || before != OUT) return (Read){.number = OPEN, .row = n};
    return (Read){0};
}

static inline u32 condition(u32 c, u32 x, u32 y)
{
    int32_t a = (int32_t)x, b = (int32_t)y;
    switch (c) {
    case 0: return a < b;
    case 1: return a <= b;
    case 2: return a > b;
    case 3: return a >= b;
    default: return x != y;
    }
}

static inline u32 update(u32 c, u32 x, u32 s)
{
    switch (c) {
    case 0: return x + s;
    case 1: return x - s;
    case 2: return x * s;
    case 3: return s + 1 ? (u32)((int32_t)x / (int32_t)s) : 0 - x;
    case 4: return s < 32 ? x << s : 0;
    default: return (u32)((int32_t)x >> (s < 32 ? s : 31));
    }
}

static inline u32 operate(u32 c, u32 x, u32 y) { return c < 3 ? update(c, x, y) : condition(c - 3, x, y); }

static Read walk(const u32 *t, const Shape *x, const u32 *inputs, u32 *results, u64 allowance)
{
    u32 w[MOST], next[MOST], out[MOST], outs = 0;
    u64 turns = 0;
    for (u32 i = 0; i < x->rows; i++) {
        const u32 *r = t + 6 * i;
        u32 f, n, e, from;
        switch (r[0]) {
        case INPUT: w[i] = *inputs++; continue;
        case CONST: w[i] = r[1]; continue;
        case OP: w[i] = operate(r[1], w[r[2]], w[r[3]]); continue;
        case PICK: w[i] = w[r[1]] ? w[r[2]] : w[r[3]]; continue;
        case OUT: out[outs++] = w[r[1]]; continue;
        case FOR:
            if (w[r[2]] == 0) return (Read){.row = i, .answer = ZERO_STEP, .turns = turns};
            f = i, n = x->args[f], e = x->end[f], from = f + 1, w[f] = w[r[1]];
            for (u32 k = 0; k < n; k++) next[k] = w[t[6 * (from + k) + 1]];
            break;
        case END:
            f = x->loop[i], n = x->args[f], e = i, from = e - n, r = t + 6 * f;
            for (u32 k = 0; k < n; k++) next[k] = w[t[6 * (from + k) + 1]];
            w[f] = update(r[4], w[f], w[r[2]]);
            break;
        default: continue;
        }
        if (condition(r[5], w[f], w[r[3]])) {
            if (turns == allowance) return (Read){.answer = SPENT, .turns = turns};
            turns++;
            for (u32 k = 0; k < n; k++) w[f + 1 + k] = next[k];
            i = f + n;
        } else {
            for (u32 k = 0; k < n; k++) w[e - n + k] = next[k];
            i = e;
        }
    }
    memcpy(results, out, outs * sizeof *out);
    return (Read){.answer = ENDED, .turns = turns};
}

__attribute__((noinline)) Read c_read_plain(const u32 *t, size_t len, const u32 *inputs, size_t ninputs, u32 *results, size_t nresults, u64 allowance)
{
    Shape x;
    Read no = check(t, len, &x);
    if (no.number) return no;
    if (ninputs != x.inputs) return (Read){.number = INPUTS};
    if (nresults < x.outs) return (Read){.number = ROOM, .row = x.rows};
    return walk(t, &x, inputs, results, allowance);
}

typedef struct { const void *at; size_t n; } Slice;
u32 r_read_plain(const Slice *, const Slice *, const Slice *, u64, u32 *row, u64 *turns);

/* 100, 101 and 103 for the answers, as the library's entry has them under its plain name. */
static Read rattle(Slice t, Slice inputs, Slice results, u64 allowance)
{
    Read r = {0};
    u32 no = r_read_plain(&t, &inputs, &results, allowance, &r.row, &r.turns);
    if (no < 100) r.number = no; else r.answer = no - 100;
    return r;
}

static u32 table[6 * MOST + 6], given[MOST], c_out[MOST], r_out[MOST];

int main(int argc, char **argv)
{
    if (argc < 5) return 2;
    FILE *f = fopen(argv[2], "r");
    size_t n = 0, k = argc - 5, lent = strtoull(argv[4], 0, 10);
    u64 allowance = strtoull(argv[3], 0, 10);
    while (f && n < 6 * MOST + 6 && fscanf(f, "%u", &table[n]) == 1) n++;
    for (size_t i = 0; i < k; i++) given[i] = strtoul(argv[5 + i], 0, 10);
    for (size_t i = 0; i < MOST; i++) c_out[i] = r_out[i] = 7;
    Read c = {0}, r = {0};
    if (argv[1][0] != 'r') c = c_read_plain(table, n, given, k, c_out, lent, allowance);
    if (argv[1][0] != 'c' || argv[1][1]) r = rattle((Slice){table, n}, (Slice){given, k}, (Slice){r_out, lent}, allowance);
    if (strcmp(argv[1], "compare")) return 0;
    printf("%u %u %u %llu\n", c.number, c.row, c.answer, (unsigned long long)c.turns);
    return c.number != r.number || c.row != r.row || c.answer != r.answer || c.turns != r.turns || memcmp(c_out, r_out, sizeof c_out);
}
