#!/usr/bin/env python3
"""Writes 000 with its draws fed:   substitute.py SOURCE TARGET

SOURCE is docs/src/lib.rs. It is unchanged but for the substitutions below. Each must be found exactly once, or nothing is written.
"""
import sys

# What decides the answers: the draws are fed, and the wide table is shown.
DRAWS = [
    # the pivots of the medoid
    (
        "let pivots: Vec<usize> = (0..k).map(|_| rng.gen_range(0..n)).collect();",
        "let _ = (k, rng.gen_range(0..n)); let pivots: Vec<usize> = probe::fed_pivots();",
    ),
    # the opening rows, in the order supplied (or, for a batch alone, the wide rows)
    (
        "graph[i] = s.into_iter().collect();",
        "drop(s); graph[i] = probe::fed_row(i);",
    ),
    # the order of the build (or the nodes of one batch)
    (
        "order.shuffle(&mut rng);",
        "order.shuffle(&mut rng); order = probe::fed_order();",
    ),
    # the extra seeds of a node
    (
        "let s = local_rng.gen_range(0..n);",
        "let _ = local_rng.gen_range(0..n); let s = probe::fed_seed(u, bs.seeds.len() - 1);",
    ),
    # the wide table is shown before it is closed
    (
        "    // Final cleanup: enforce bounded degree and deduplication.",
        "    probe::show_wide(&graph);\n    // Final cleanup: enforce bounded degree and deduplication.",
    ),
    # the harness stands below 000, so that it sees 000's private functions
    (
        "mod mmap_dynamic;",
        'mod mmap_dynamic;\n#[path = "probe.rs"]\npub mod probe;',
    ),
]

# What only watches: which boundaries a case reached. Nothing that 000 works out depends on it.
WATCHED = [
    (
        "    sorted.truncate(MAX_OCCLUSION_SIZE);",
        "    probe::see_pool(&sorted);\n    sorted.truncate(MAX_OCCLUSION_SIZE);",
    ),
    (
        "let pruned = prune_neighbors(u, &pool, vectors, max_degree, alpha, dist);",
        "probe::see(probe::MERGE_PRUNED); let pruned = prune_neighbors(u, &pool, vectors, max_degree, alpha, dist);",
    ),
    (
        "            let mut ids = neigh;\n",
        "            probe::see(probe::CLOSE_PRUNED);\n            let mut ids = neigh;\n",
    ),
    (
        "                work.pop();\n",
        "                let left = work.pop(); probe::see_left(left, work.peek(), &frontier);\n",
    ),
]

source, target = sys.argv[1:]
with open(source) as file:
    text = file.read()
for old, new in DRAWS + WATCHED:
    if text.count(old) != 1:
        sys.exit(f"found {text.count(old)} times, not once: {old}")
    text = text.replace(old, new)
with open(target, "w") as file:
    file.write(text)
