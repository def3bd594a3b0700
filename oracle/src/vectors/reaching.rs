//! Document 02, item 4: small tables written out by hand, which the tests of reaches use too.

use crate::generate::encode;

/// Small tables in which the reach of a name is found out.
pub fn reaching() -> [Vec<u16>; 5] {
    // p(x).x(y).0 beside ν r.p⟨r⟩.r⟨q⟩.0: y takes q in when x has taken r in.
    let handed = encode(
        2,
        [
            vec![1, 1, 0],
            vec![0, 0, 0, 0, 1, 3, 0, 0],
            vec![0, 1],
            vec![
                1, 0, 1, 1, 1, 1, 0, 0, 0, 2, 4, 4, 1, 2, 1, 1, 3, 1, 0, 0, 0,
            ],
            vec![2, 0, 2, 1, 2, 2, 3, 2, 1, 0, 4, 5, 1, 4, 1, 6],
            vec![],
        ],
    );
    // ν r.r(x).0 beside ν s.s⟨s⟩.0: channels that are private and never one value.
    let apart = encode(
        0,
        [
            vec![0, 1, 0],
            vec![0, 0, 0, 0, 1, 3, 0, 0],
            vec![0, 1],
            vec![2, 0, 1, 1, 0, 1, 0, 0, 0, 2, 2, 4, 1, 1, 1, 0, 0, 0],
            vec![2, 0, 1, 2, 1, 2, 2, 5],
            vec![],
        ],
    );
    // p⟨q⟩.0 + p(x).0 beside p⟨p⟩.p(y).0: x takes p in and not q, y takes q in and not p.
    let own = encode(
        2,
        [
            vec![1, 1],
            vec![0, 0, 0, 0, 1, 3, 0, 0],
            vec![0, 1],
            vec![1, 0, 2, 0, 0, 0, 0, 0, 0, 1, 2, 1, 1, 3, 1, 0, 0, 0],
            vec![1, 0, 1, 1, 2, 0, 2, 2, 1, 0, 0, 4, 2, 0, 3, 5],
            vec![],
        ],
    );
    // ν r.(τ.K(r, p) + τ.K(q, p)), K(f, g) := f⟨g⟩.0, beside q(x).0: a formal of public and private
    // values, and one of public ones.
    let formals = encode(
        2,
        [
            vec![0, 2, 2, 1],
            vec![0, 0, 0, 0, 0, 4, 3, 2, 1, 6, 0, 0],
            vec![0, 2],
            vec![
                2, 2, 1, 1, 0, 2, 3, 1, 0, 3, 1, 2, 1, 2, 1, 0, 0, 0, 1, 3, 1, 0, 0, 0,
            ],
            vec![0, 0, 0, 2, 0, 0, 0, 3, 1, 3, 4, 5, 2, 1, 5, 7],
            vec![2, 0, 1, 0],
        ],
    );
    // ν r.p(x).K(x), K(f) := f(y).0, beside q⟨q⟩.0: nothing comes to x, f and y.
    let empty = encode(
        2,
        [
            vec![0, 1, 2, 1],
            vec![0, 0, 0, 0, 0, 3, 4, 1, 1, 5, 0, 0],
            vec![0, 2],
            vec![
                2, 2, 1, 1, 0, 1, 3, 1, 0, 1, 1, 1, 0, 0, 0, 1, 2, 1, 0, 0, 0,
            ],
            vec![2, 0, 3, 2, 2, 4, 5, 4, 1, 1, 1, 6],
            vec![3],
        ],
    );
    [handed, apart, own, formals, empty]
}
