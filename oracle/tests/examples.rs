//! The tables of examples/: what their processes can do.

use std::collections::{HashMap, HashSet};
use std::path::Path;

use oracle::listing::words_of;
use oracle::rewrite::rewritten;
use oracle::table::accept_sparing;
use oracle::{check, open_steps, process, start, step};

type State = Vec<u16>;

fn words_in(example: &str, file: &str) -> Vec<u16> {
    let folder = Path::new(env!("CARGO_MANIFEST_DIR")).join("../examples");
    let bytes = std::fs::read(folder.join(example).join(file)).expect("the table file");
    words_of(&bytes).expect("an even number of bytes")
}

fn table_of(example: &str) -> Vec<u16> {
    let table = words_in(example, "table");
    assert_eq!(check(&table), 0);
    table
}

fn starting(table: &[u16]) -> State {
    let mut state = vec![0; usize::from(table[1] + table[3])];
    start(table, &mut state).expect("a starting state");
    state
}

/// The states that one step leads to.
fn next_states(table: &[u16], state: &State) -> Vec<State> {
    let mut labels = [0; 3 * 64];
    let count = open_steps(table, state, &mut labels).expect("the open steps");
    let after = |label: &[u32]| {
        let mut next = state.clone();
        step(table, state, label[0], label[1], label[2], &mut next).expect("an open step");
        next
    };
    labels[..3 * count].chunks_exact(3).map(after).collect()
}

/// Every state that can be reached, with the states that one step leads to.
fn reachable(table: &[u16]) -> HashMap<State, Vec<State>> {
    let mut found = HashMap::new();
    let mut waiting = vec![starting(table)];
    while let Some(state) = waiting.pop() {
        if !found.contains_key(&state) {
            let next = next_states(table, &state);
            waiting.extend(next.iter().cloned());
            found.insert(state, next);
        }
    }
    found
}

/// Whether the starting state can be reached again from every state.
fn can_always_start_again(table: &[u16]) -> bool {
    let states = reachable(table);
    let mut leading = vec![starting(table)];
    let mut known = 0;
    while known < leading.len() {
        known = leading.len();
        for (state, next) in &states {
            if !leading.contains(state) && next.iter().any(|next| leading.contains(next)) {
                leading.push(state.clone());
            }
        }
    }
    known == states.len()
}

/// Whether in some state the names all hold one private value.
fn share_a_private_value(table: &[u16], names: &[u16]) -> bool {
    let (publics, threads) = (table[0], table[3]);
    reachable(table).keys().any(|state| {
        let value = |name: &u16| state[usize::from(threads + name - publics)];
        let first = value(&names[0]);
        (publics..u16::MAX).contains(&first) && names.iter().all(|name| value(name) == first)
    })
}

#[test]
fn e_ends_with_both_threads_stopped() {
    let table = table_of("E");
    let states = reachable(&table);
    let ends: Vec<_> = states.iter().filter(|(_, next)| next.is_empty()).collect();
    assert_eq!(ends, [(&vec![2, 4, 65535, 65535], &vec![])]);
}

#[test]
fn markers_and_clients_can_always_start_again() {
    for example in ["markers", "client-server"] {
        assert!(can_always_start_again(&table_of(example)), "{example}");
    }
}

#[test]
fn reply_channels_are_handed_over() {
    let (r, f, w, y, g, z, q) = (4, 5, 6, 7, 9, 10, 11);
    let table = table_of("markers");
    for names in [[r, y], [f, g], [f, z], [w, q]] {
        assert!(share_a_private_value(&table, &names), "{names:?}");
    }
}

#[test]
fn sessions_are_handed_over() {
    let (ip1, s1, x1, ip2, s2, y, t, ses1, ses2) = (2, 3, 4, 5, 6, 8, 9, 10, 11);
    let table = table_of("client-server");
    let shared: [&[u16]; 7] = [
        &[ip1, y],
        &[ip2, y],
        &[ses1, t],
        &[ses1, s1],
        &[ses2, s2],
        &[ses2, s1],
        &[s1, x1],
    ];
    for names in shared {
        assert!(share_a_private_value(&table, names), "{names:?}");
    }
}

/// How many states a college's own table can reach.
fn own_states(words: &[u16]) -> usize {
    let table = accept_sparing(words).expect("a table with self-calls");
    let mut found = HashSet::new();
    let mut waiting = vec![process::State::starting(&table).words(&table)];
    while let Some(words) = waiting.pop() {
        let state = process::State::parse(&table, &words).expect("a state");
        let after = |label| {
            state
                .stepped(&table, label)
                .expect("an open step")
                .words(&table)
        };
        if found.insert(words) {
            waiting.extend(state.open_labels(&table).into_iter().map(after));
        }
    }
    found.len()
}

#[test]
fn the_next_script_is_called_for() {
    let table = words_in("next-script", "table");
    assert_eq!(check(&table), 9);
    let copied = words_in("next-script", "rewritten");
    assert_eq!(rewritten(&table), Ok(copied.clone()));
    let states = reachable(&copied);
    assert_eq!((own_states(&table), states.len()), (16, 23));
    assert!(states.values().all(|next| !next.is_empty()));
    let (s, m, f, x, copy) = (2, 3, 4, 5, 4);
    for names in [[s, x], [m, f], [s + copy, x + copy], [m + copy, f + copy]] {
        assert!(share_a_private_value(&copied, &names), "{names:?}");
    }
}
