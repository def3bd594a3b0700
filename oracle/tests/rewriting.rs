//! Document 02, item 1: tables whose definitions call themselves, rewritten word by word, and what
//! the rewriting, the maps back and the listing refuse.

mod common;

use common::E;
use oracle::bounds::{many_arguments, many_definitions, many_names, many_nodes};
use oracle::damage::damaged;
use oracle::generate::{accepted, encode, Shape};
use oracle::random::Random;
use oracle::rewrite::rewritten;
use oracle::table::{accept, accept_sparing, Branch, Node, Table};
use oracle::{build, check, listing, open_steps, read, size, start, step};
use oracle::{original_branch, original_name, original_node, rewrite};

/// One thread that calls itself for ever.
const CALLER: [u16; 21] = [
    0, 0, 1, 1, 1, 0, 0, 13, 13, 17, 18, 21, 21, 0, 0, 0, 0, 0, 3, 0, 0,
];

const CALLER_REWRITTEN: [u16; 28] = [
    0, 0, 2, 1, 2, 0, 0, 13, 13, 21, 22, 28, 28, 0, 0, 0, 0, 0, 1, 0, 0, 0, 3, 1, 0, 3, 0, 0,
];

const SELF_CALLING: Shape = Shape {
    self_calls: true,
    ..Shape::SMALL
};

fn bytes(words: &[u16]) -> Vec<u8> {
    words.iter().flat_map(|word| word.to_le_bytes()).collect()
}

fn with(words: &[u16], at: usize, word: u16) -> Vec<u16> {
    let mut words = words.to_vec();
    words[at] = word;
    words
}

#[test]
fn a_caller_of_itself_gets_a_copy() {
    let mut out = [7; 30];
    assert_eq!(rewrite(&CALLER, &mut out), Ok(28));
    assert_eq!(out[..28], CALLER_REWRITTEN);
    assert_eq!(out[28..], [7; 2]);
    let mut exact = [7; 28];
    assert_eq!(rewrite(&CALLER, &mut exact), Ok(28));
    assert_eq!(exact, CALLER_REWRITTEN);
    let mut short = [7; 27];
    assert_eq!(rewrite(&CALLER, &mut short), Err(10));
    assert_eq!(short, [7; 27]);
}

#[test]
fn its_numbers_are_read_back() {
    assert_eq!(original_node(&CALLER, 0), Ok(0));
    assert_eq!(original_node(&CALLER, 1), Ok(0));
    assert_eq!(original_node(&CALLER, 2), Err(5));
    assert_eq!(original_node(&CALLER, u32::MAX), Err(5));
    assert_eq!(original_branch(&CALLER, 0), Err(5));
    assert_eq!(original_name(&CALLER, 0), Err(5));
}

#[test]
fn its_listing_is_of_the_rewritten_table() {
    let text = "2 2 2 2 1\n0 5 0 0 : 0 > 1\n1 5 1 0 : 1 > 0\n";
    assert_eq!(listing(&bytes(&CALLER)), text);
    assert_eq!(listing(&bytes(&CALLER_REWRITTEN)), text);
}

/// Every call but the rewriting, the maps back and the listing.
fn causes_elsewhere(words: &[u16]) -> [u32; 6] {
    [
        check(words),
        build(words, &mut []).unwrap_err(),
        start(words, &mut []).unwrap_err(),
        read(words, &[2], &mut []).unwrap_err(),
        open_steps(words, &[1], &mut []).unwrap_err(),
        step(words, &[1], 9, 9, 9, &mut []).unwrap_err(),
    ]
}

/// The rewriting and the maps back, each with what they would refuse last.
fn causes_here(words: &[u16]) -> [Option<u32>; 4] {
    [
        rewrite(words, &mut []).err(),
        original_node(words, u32::MAX).err(),
        original_branch(words, u32::MAX).err(),
        original_name(words, u32::MAX).err(),
    ]
}

#[test]
fn elsewhere_a_self_call_is_9() {
    assert_eq!(causes_elsewhere(&CALLER), [9; 6]);
    let mut random = Random::new(51);
    for _ in 0..500 {
        let words = accepted(&mut random, SELF_CALLING);
        assert_eq!(causes_elsewhere(&words), [9; 6]);
        assert_eq!(causes_here(&words), [10, 5, 5, 5].map(Some));
    }
}

/// Without publics, so that number 0 is a bound name:
///
/// START := ν a.LOOP(a, a); OTHER := τ.OTHER + τ.0;
/// LOOP(f, g) := f⟨g⟩.LOOP(g, f) + τ.ν r.LOOP(r, f) + g(x).OTHER, beside IDLE := 0.
fn without_publics() -> Vec<u16> {
    encode(
        0,
        [
            vec![0, 2, 2, 0, 1], // r = 0, f = 1, g = 2, a = 3, x = 4
            [
                [0, 0, 0, 0], // 0: START
                [0, 2, 0, 0], // 1: OTHER
                [0, 1, 1, 2], // 2: LOOP
                [1, 3, 0, 0], // 3: IDLE
            ]
            .concat(),
            vec![0, 3],
            [
                [2, 3, 4], // 0: START = ν a. node 4
                [1, 0, 3], // 1: LOOP
                [1, 3, 2], // 2: OTHER
                [0, 0, 0], // 3: IDLE
                [3, 2, 0], // 4: LOOP(a, a)
                [3, 2, 2], // 5: LOOP(g, f)
                [3, 1, 0], // 6: OTHER
                [2, 0, 9], // 7: ν r. node 9
                [0, 0, 0], // 8: 0
                [3, 2, 4], // 9: LOOP(r, f)
                [3, 1, 0], // 10: OTHER
            ]
            .concat(),
            [
                [1, 1, 2, 5],  // 0: f⟨g⟩. node 5
                [0, 0, 0, 7],  // 1: τ. node 7
                [2, 2, 4, 10], // 2: g(x). node 10
                [0, 0, 0, 6],  // 3: τ. node 6
                [0, 0, 0, 8],  // 4: τ. node 8
            ]
            .concat(),
            vec![3, 3, 2, 1, 0, 1],
        ],
    )
}

#[test]
fn bodies_that_lie_among_others_are_copied() {
    let expected = encode(
        0,
        [
            vec![0, 2, 2, 0, 1, 0, 2, 2, 1], // copies: r = 5, f = 6, g = 7, x = 8
            [
                [0, 0, 0, 0],
                [0, 2, 0, 0],
                [0, 1, 1, 2],
                [1, 3, 0, 0],
                [0, 11, 0, 0], // 4: the copy of OTHER
                [0, 14, 6, 2], // 5: the copy of LOOP
            ]
            .concat(),
            vec![0, 3],
            [
                [2, 3, 4],
                [1, 0, 3],
                [1, 3, 2],
                [0, 0, 0],
                [3, 2, 0],  // START calls LOOP as before
                [3, 5, 2],  // LOOP calls its copy
                [3, 4, 0],  // OTHER calls its copy
                [2, 0, 9],  //
                [0, 0, 0],  //
                [3, 5, 4],  // LOOP calls its copy
                [3, 1, 0],  // LOOP calls OTHER as before
                [1, 5, 2],  // 11, was 2
                [3, 1, 0],  // 12, was 6: the copy of OTHER calls OTHER
                [0, 0, 0],  // 13, was 8
                [1, 7, 3],  // 14, was 1
                [3, 2, 6],  // 15, was 5: the copy of LOOP calls LOOP
                [2, 5, 17], // 16, was 7
                [3, 2, 8],  // 17, was 9
                [3, 1, 0],  // 18, was 10: the copy of LOOP calls OTHER, not its copy
            ]
            .concat(),
            [
                [1, 1, 2, 5],
                [0, 0, 0, 7],
                [2, 2, 4, 10],
                [0, 0, 0, 6],
                [0, 0, 0, 8],
                [0, 0, 0, 12], // 5, was 3
                [0, 0, 0, 13], // 6, was 4
                [1, 6, 7, 15], // 7, was 0
                [0, 0, 0, 16], // 8, was 1
                [2, 7, 8, 18], // 9, was 2
            ]
            .concat(),
            vec![3, 3, 2, 1, 0, 1, 7, 6, 5, 6],
        ],
    );
    let words = without_publics();
    assert_eq!(rewritten(&words), Ok(expected.clone()));
    assert_eq!((words.len(), expected.len()), (95, 155));
    let nodes = [2, 6, 8, 1, 5, 7, 9, 10];
    let branches = [3, 4, 0, 1, 2];
    let names = [0, 1, 2, 4];
    let read_back = |map: fn(&[u16], u32) -> Result<u32, u32>, first: u32, originals: &[u32]| {
        for number in 0..first {
            assert_eq!(map(&words, number), Ok(number));
        }
        for (number, &original) in (first..).zip(originals) {
            assert_eq!(map(&words, number), Ok(original));
        }
        assert_eq!(map(&words, first + originals.len() as u32), Err(5));
    };
    read_back(original_node, 11, &nodes);
    read_back(original_branch, 5, &branches);
    read_back(original_name, 5, &names);
}

#[test]
fn publics_are_read_back_as_themselves() {
    // p(x).LOOP(x, p) with LOOP the only definition that calls itself, and formals.
    let words = encode(
        2,
        [
            vec![1, 2, 2],
            [[0, 0, 0, 0], [0, 1, 3, 2]].concat(),
            vec![0],
            [[1, 0, 1], [3, 1, 0], [3, 1, 2]].concat(),
            vec![2, 1, 2, 2],
            vec![4, 3, 2, 1],
        ],
    );
    // The first self-call uses names 4 and 3 of LOOP; the entry's call is at node 2.
    assert_eq!(check(&words), 9);
    let copied = rewritten(&words).unwrap();
    assert_eq!(copied[..7], [2, 5, 3, 1, 4, 1, 6]);
    assert_eq!(copied[copied.len() - 6..], [4, 3, 2, 1, 6, 5]);
    let names: Vec<_> = (0..8).map(|name| original_name(&words, name)).collect();
    assert_eq!(names[..7], [0, 1, 2, 3, 4, 3, 4].map(Ok));
    assert_eq!(names[7], Err(5));
}

#[test]
fn tables_without_self_calls_are_rewritten_to_themselves() {
    let mut random = Random::new(52);
    let drawn = (0..1500).map(|_| accepted(&mut random, Shape::SMALL));
    for words in drawn.chain([E.to_vec(), CALLER_REWRITTEN.to_vec()]) {
        assert_eq!(rewritten(&words), Ok(words.clone()));
        let table = accept(&words).unwrap();
        for node in 0..table.nodes.len() as u32 {
            assert_eq!(original_node(&words, node), Ok(node));
        }
        for branch in 0..table.branches.len() as u32 {
            assert_eq!(original_branch(&words, branch), Ok(branch));
        }
        for name in 0..table.name_count() as u32 {
            assert_eq!(original_name(&words, name), Ok(name));
        }
        assert_eq!(causes_here(&words), [10, 5, 5, 5].map(Some));
    }
}

/// The college's table, the rewritten one, and for each number of the latter what it was.
struct Rewriting {
    college: Table,
    table: Table,
    definitions: Vec<usize>,
    names: Vec<usize>,
    nodes: Vec<usize>,
    branches: Vec<usize>,
}

impl Rewriting {
    fn of(words: &[u16]) -> Option<Rewriting> {
        let college = accept_sparing(words).unwrap();
        let table = accept(&rewritten(words).ok()?).unwrap();
        let all = |count: usize, map: fn(&[u16], u32) -> Result<u32, u32>| {
            let original = |number| map(words, number as u32).unwrap() as usize;
            assert_eq!(map(words, count as u32), Err(5));
            (0..count).map(original).collect()
        };
        let own = 0..college.definitions.len();
        Some(Rewriting {
            definitions: own.chain(college.self_calling()).collect(),
            names: all(table.name_count(), original_name),
            nodes: all(table.nodes.len(), original_node),
            branches: all(table.branches.len(), original_branch),
            college,
            table,
        })
    }

    /// Originals first, then each copied definition's in ascending order.
    fn check_order(&self) {
        let (college, copies) = (&self.college, &self.definitions);
        let copies = &copies[college.definitions.len()..];
        let appended = |count: usize, owner: &dyn Fn(usize) -> Option<usize>| -> Vec<usize> {
            let body = |&definition: &usize| {
                let own: Vec<usize> = (0..count)
                    .filter(|&number| owner(number) == Some(definition))
                    .collect();
                own
            };
            (0..count).chain(copies.iter().flat_map(body)).collect()
        };
        let binder = |name: usize| {
            let formal = |number: &usize| college.definitions[*number].formals().contains(&name);
            let binds = |node: &usize| {
                match college.nodes[*node] {
                Node::New { name: bound, .. } => bound == name,
                _ => college.branches[college.branch_range(*node)].iter().any(
                    |branch| matches!(*branch, Branch::Receive { name: bound, .. } if bound == name),
                ),
            }
            };
            let bound = (0..college.nodes.len()).find(binds);
            let definition = (0..college.definitions.len()).find(formal);
            definition.or(bound.map(|node| college.owners[node]))
        };
        let of_branch = |branch: usize| Some(college.owners[college.standing[branch]]);
        let nodes = appended(college.nodes.len(), &|node| Some(college.owners[node]));
        assert_eq!(self.nodes, nodes);
        let branches = appended(college.branches.len(), &of_branch);
        assert_eq!(self.branches, branches);
        assert_eq!(self.names, appended(college.name_count(), &binder));
    }

    /// Every entry of the rewritten table, read back, is the original's.
    fn check_entries(&self) {
        let (college, table) = (&self.college, &self.table);
        assert_eq!(
            (table.publics, &table.entries),
            (college.publics, &college.entries)
        );
        for name in table.bound_names() {
            let kind = college.names[self.names[name] - college.publics];
            assert_eq!(table.names[name - table.publics], kind);
        }
        for (number, definition) in table.definitions.iter().enumerate() {
            let original = college.definitions[self.definitions[number]];
            assert_eq!(definition.thread, original.thread);
            assert_eq!(self.nodes[definition.root], original.root);
            let formals: Vec<usize> = definition.formals().map(|name| self.names[name]).collect();
            assert_eq!(formals, original.formals().collect::<Vec<_>>());
        }
        for node in 0..table.nodes.len() {
            self.check_node(node);
        }
        for (number, branch) in table.branches.iter().enumerate() {
            assert_eq!(
                self.branch_read_back(branch),
                college.branches[self.branches[number]]
            );
        }
        assert_eq!(
            table.arguments[..college.arguments.len()],
            college.arguments
        );
    }

    /// A node, and whom it calls: its own copy or original where it called itself, else as before.
    fn check_node(&self, node: usize) {
        let (college, table) = (&self.college, &self.table);
        let original = self.nodes[node];
        assert_eq!(
            self.definitions[table.owners[node]],
            college.owners[original]
        );
        let branches: Vec<usize> = table
            .branch_range(node)
            .map(|branch| self.branches[branch])
            .collect();
        assert_eq!(branches, college.branch_range(original).collect::<Vec<_>>());
        let names: Vec<usize> = table.arguments[table.argument_range(node)]
            .iter()
            .map(|&name| self.names[name])
            .collect();
        assert_eq!(names, college.arguments[college.argument_range(original)]);
        match (table.nodes[node], college.nodes[original]) {
            (Node::Stop, Node::Stop) | (Node::Choice { .. }, Node::Choice { .. }) => {}
            (
                Node::New { name, child },
                Node::New {
                    name: was,
                    child: below,
                },
            ) => {
                assert_eq!((self.names[name], self.nodes[child]), (was, below));
            }
            (
                Node::Call { definition, .. },
                Node::Call {
                    definition: called, ..
                },
            ) => {
                let owner = table.owners[node];
                if college.calls_itself(original) {
                    assert_ne!(definition, owner);
                    assert_eq!(self.definitions[definition], self.definitions[owner]);
                } else {
                    assert_eq!(definition, called);
                }
            }
            other => panic!("{other:?}"),
        }
    }

    fn branch_read_back(&self, branch: &Branch) -> Branch {
        let next = self.nodes[branch.next()];
        match *branch {
            Branch::Silent { .. } => Branch::Silent { next },
            Branch::Send { channel, name, .. } => Branch::Send {
                channel: self.names[channel],
                name: self.names[name],
                next,
            },
            Branch::Receive { channel, name, .. } => Branch::Receive {
                channel: self.names[channel],
                name: self.names[name],
                next,
            },
        }
    }
}

#[test]
fn copies_are_their_originals_with_other_numbers() {
    let mut random = Random::new(53);
    let (mut copies, mut beyond) = (0, 0);
    for round in 0..2000 {
        let shape = match round % 40 {
            0 => Shape::FULL,
            1..=5 => Shape::WIDE,
            _ => Shape::SMALL,
        };
        let self_calls = true;
        let words = accepted(
            &mut random,
            Shape {
                self_calls,
                ..shape
            },
        );
        let Some(rewriting) = Rewriting::of(&words) else {
            assert_eq!(causes_here(&words), [Some(2); 4]);
            beyond += 1;
            continue;
        };
        rewriting.check_order();
        rewriting.check_entries();
        copies += rewriting.definitions.len() - rewriting.college.definitions.len();
        let words = rewriting_words(&words);
        assert_eq!(rewritten(&words), Ok(words.clone()));
    }
    println!("{copies} copies, {beyond} tables beyond a bound");
    assert!(copies > 3000 && beyond > 20);
}

/// The rewritten table in a buffer of its own length, and not in one that is a word shorter.
fn rewriting_words(words: &[u16]) -> Vec<u16> {
    let length = rewritten(words).unwrap().len();
    let mut short = vec![9; length - 1];
    assert_eq!(rewrite(words, &mut short), Err(10));
    assert!(short.iter().all(|&word| word == 9));
    let mut longer = vec![9; length + 2];
    assert_eq!(rewrite(words, &mut longer), Ok(length));
    assert_eq!(longer[length..], [9, 9]);
    longer.truncate(length);
    longer
}

#[test]
fn a_rewritten_table_beyond_a_bound_is_2() {
    let cases = [
        (many_nodes(128, 0), 4, Ok(256)),
        (many_nodes(127, 2), 4, Ok(256)),
        (many_nodes(128, 1), 4, Err(2)),
        (many_nodes(129, 0), 4, Err(2)),
        (many_nodes(256, 0), 4, Err(2)),
        (many_definitions(16, 0), 2, Ok(32)),
        (many_definitions(1, 30), 2, Ok(32)),
        (many_definitions(16, 1), 2, Err(2)),
        (many_definitions(1, 31), 2, Err(2)),
        (many_definitions(32, 0), 2, Err(2)),
        (many_names(16, 0), 1, Ok(32)),
        (many_names(1, 30), 1, Ok(32)),
        (many_names(16, 1), 1, Err(2)),
        (many_names(1, 31), 1, Err(2)),
        (many_names(32, 0), 1, Err(2)),
        (many_arguments(16, 0), 6, Ok(256)),
        (many_arguments(15, 16), 6, Ok(256)),
        (many_arguments(16, 1), 6, Err(2)),
        (many_arguments(15, 17), 6, Err(2)),
        (many_arguments(31, 0), 6, Err(2)),
    ];
    for (words, at, count) in cases {
        assert_eq!(check(&words), 9);
        let copied = rewritten(&words);
        assert_eq!(copied.clone().map(|words| words[at]), count);
        match copied {
            Ok(copied) => {
                assert_eq!(check(&copied), 0);
                assert_eq!(causes_here(&words), [10, 5, 5, 5].map(Some));
                assert_eq!(original_node(&words, 0), Ok(0));
            }
            Err(cause) => {
                assert_eq!(causes_here(&words), [Some(cause); 4]);
                // Also of numbers that the college's table has.
                assert_eq!(original_node(&words, 0), Err(2));
                assert_eq!(original_name(&words, 0), Err(2));
                assert_eq!(listing(&bytes(&words)), "refused 2\n");
            }
        }
    }
}

#[test]
fn other_causes_come_before_a_bound() {
    let words = many_names(16, 1);
    // Name 0 of no kind; a New of a name that is not there; a New's child twice; a kind that is
    // not its binder's.
    for (at, word, cause) in [(13, 3, 4), (40, 17, 5), (41, 2, 6), (13, 1, 7)] {
        let words = with(&words, at, word);
        assert_eq!(causes_here(&words), [Some(cause); 4], "{at} {word}");
        assert_eq!(listing(&bytes(&words)), format!("refused {cause}\n"));
    }
    // The entry is of the other thread, with 17 definitions that call themselves.
    let mut words = many_definitions(17, 0);
    assert_eq!(rewritten(&words), Err(2));
    words[3] = 2;
    for offset in &mut words[10..13] {
        *offset += 1;
    }
    words.insert(13 + 4 * 17, 0);
    assert_eq!(causes_here(&words), [Some(9); 4]);
}

#[test]
fn damaged_tables_fail_by_their_cause() {
    let mut random = Random::new(54);
    for cause in 1..=9 {
        for _ in 0..400 {
            let words = damaged(&mut random, SELF_CALLING, cause);
            assert_eq!(causes_here(&words), [Some(cause); 4], "{words:?}");
            assert_eq!(causes_elsewhere(&words), [cause; 6]);
            assert_eq!(listing(&bytes(&words)), format!("refused {cause}\n"));
        }
    }
}

#[test]
fn a_listing_is_refused_in_its_order() {
    let odd = |words: &[u16]| [bytes(words), vec![0]].concat();
    assert_eq!(listing(&odd(&CALLER[..12])), "refused 1\n");
    assert_eq!(listing(&odd(&with(&CALLER, 4, 0))), "refused 2\n");
    assert_eq!(listing(&odd(&CALLER)), "refused 3\n");
    assert_eq!(listing(&odd(&with(&CALLER, 18, 4))), "refused 3\n");
    assert_eq!(listing(&odd(&many_definitions(32, 0))), "refused 3\n");
    assert_eq!(listing(&bytes(&with(&CALLER, 18, 4))), "refused 4\n");
    let image_words = |words: &[u16]| rewritten(words).and_then(|table| size(&table));
    let wide = Shape {
        self_calls: true,
        ..Shape::WIDE
    };
    let mut random = Random::new(55);
    let (mut listed, mut refused) = (0, 0);
    while listed < 5 || refused < 5 {
        let words = accepted(&mut random, wide);
        if let Ok(length) = image_words(&words) {
            let text = listing(&bytes(&words));
            assert_eq!(text == "refused 10\n", length > 16_384);
            refused += usize::from(length > 16_384);
            listed += usize::from(length <= 16_384);
        }
    }
}
