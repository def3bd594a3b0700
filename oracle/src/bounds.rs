//! Tables of one thread whose definitions call themselves, with as many of one thing as is asked:
//! their rewriting reaches document 01's bounds, or goes beyond one of them.

use crate::encode::encode;

/// K := τ.…τ.K with `nodes` nodes, beside `others` definitions that are a Stop.
pub fn many_nodes(nodes: u16, others: u16) -> Vec<u16> {
    let chain = (0..nodes - 1).flat_map(|node| [1, node, 1]);
    let stops = (0..others).flat_map(|_| [0, 0, 0]);
    let definitions = (0..others).flat_map(|other| [0, nodes + other, 0, 0]);
    encode(
        0,
        [
            vec![],
            [0, 0, 0, 0].into_iter().chain(definitions).collect(),
            vec![0],
            chain.chain([3, 0, 0]).chain(stops).collect(),
            (1..nodes).flat_map(|node| [0, 0, 0, node]).collect(),
            vec![],
        ],
    )
}

/// `calling` definitions K := K, beside `others` that are a Stop.
pub fn many_definitions(calling: u16, others: u16) -> Vec<u16> {
    let definitions = (0..calling + others).flat_map(|number| [0, number, 0, 0]);
    let calls = (0..calling).flat_map(|number| [3, number, 0]);
    let stops = (0..others).flat_map(|_| [0, 0, 0]);
    encode(
        0,
        [
            vec![],
            definitions.collect(),
            vec![0],
            calls.chain(stops).collect(),
            vec![],
            vec![],
        ],
    )
}

/// K := ν.…ν.K with `names` names, beside L := ν.…ν.0 with `others`.
pub fn many_names(names: u16, others: u16) -> Vec<u16> {
    let own = (0..names).flat_map(|name| [2, name, name + 1]);
    let rest = (names..names + others).flat_map(|name| [2, name, name + 2]);
    encode(
        0,
        [
            vec![0; usize::from(names + others)],
            vec![0, 0, 0, 0, 0, names + 1, 0, 0],
            vec![0],
            own.chain([3, 0, 0]).chain(rest).chain([0, 0, 0]).collect(),
            vec![],
            vec![],
        ],
    )
}

/// K(f, …) := τ.K(f, …) + … with 8 formals and `calls` branches, beside BEGIN := L(p, …) with
/// `others` arguments and L(g, …) := 0.
pub fn many_arguments(calls: u16, others: u16) -> Vec<u16> {
    let [first_formal, first_argument] = match others {
        0 => [0, 0],
        _ => [9, 8 * calls],
    };
    let nodes = (0..calls).flat_map(|call| [3, 1, 8 * call]);
    let own = (0..8 * calls).map(|at| 1 + at % 8);
    encode(
        1,
        [
            vec![2; usize::from(8 + others)],
            [
                [0, calls + 1, 0, 0],
                [0, 0, 1, 8],
                [0, calls + 2, first_formal, others],
            ]
            .concat(),
            vec![0],
            [1, 0, calls]
                .into_iter()
                .chain(nodes)
                .chain([3, 2, first_argument, 0, 0, 0])
                .collect(),
            (1..=calls).flat_map(|next| [0, 0, 0, next]).collect(),
            own.chain((0..others).map(|_| 0)).collect(),
        ],
    )
}
