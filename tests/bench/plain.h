/* The entries on graphs in plain C, with every refusal. All memory is the caller's or the stack. */
#pragma once
#include <stddef.h>
#include <stdint.h>
typedef uint32_t u32;
typedef uint64_t u64;
typedef struct { u32 number, fired; } Fired;
typedef struct { u32 number, answer; u64 firings; u32 node; } Ran;

u32 c_check_graph(const u32 *graph, size_t len);
u32 c_load(const u32 *graph, size_t len, const u32 *inputs, size_t ninputs, u32 *state, size_t nstate);
Fired c_fire(const u32 *graph, size_t len, u32 *state, size_t nstate, size_t node);
Ran c_run(const u32 *graph, size_t len, u32 *state, size_t nstate, const u32 *order, size_t norder, u64 allowance);

#define ABSENT 4294967295u
enum { STREAM, GATE, CARRY, INVARIANT, SPLIT, FORK, DRAIN, OP, PICK };
enum { MOST_NODES = 4096, MOST_WIRES = 8192, MOST_STARTS = 512, MOST_RESULTS = 512 };
