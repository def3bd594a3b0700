//! The tables that are measured.

use crate::scheme::{call, new, receive, send, then};
use crate::scheme::{Action, Body, Scheme, FORMAL, INPUT, RESTRICTED};

pub struct Input {
    pub title: &'static str,
    pub table: Vec<u16>,
    /// The limit of its run.
    pub limit: usize,
}

pub fn inputs() -> Vec<Input> {
    let input = |title, table, limit| Input {
        title,
        table,
        limit,
    };
    let e = include_bytes!("../../examples/E/table");
    let markers = include_bytes!("../../examples/markers/table");
    vec![
        input("table E", words(e), 10),
        input("two markers and a moderator", words(markers), 5_000),
        input(
            "3 sessions, a server, 4 clients",
            client_server(3, 4),
            5_000,
        ),
        input("large, public channels", public_channels(), 2_000),
        input("large, private channels", private_channels(), 2_000),
        input("large, every value arrives", every_value(), 2_000),
    ]
}

fn words(bytes: &[u8]) -> Vec<u16> {
    let word = |pair: &[u8]| u16::from_le_bytes([pair[0], pair[1]]);
    bytes.chunks_exact(2).map(word).collect()
}

/// A thread that goes round: BODY ends by calling PAUSE = τ. BODY.
fn go_round(scheme: &mut Scheme, body: impl FnOnce(Body) -> Body) {
    let first = scheme.next_definition();
    scheme.thread();
    scheme.define(None, body(call(first + 1, &[])));
    scheme.define(None, then(Action::Silent, call(first, &[])));
}

/// The paper's clients, server and sessions, as in examples/client-server.
fn client_server(sessions: usize, clients: usize) -> Vec<u16> {
    let (url, getses) = (0, 1);
    let mut scheme = Scheme::new(2);
    for _ in 0..clients {
        let [ip, s, x] = [RESTRICTED, INPUT, INPUT].map(|kind| scheme.name(kind));
        go_round(&mut scheme, |pause| {
            let served = then(receive(ip, s), then(receive(s, x), pause));
            new(ip, then(send(url, ip), served))
        });
    }
    let [y, t] = [INPUT, INPUT].map(|kind| scheme.name(kind));
    go_round(&mut scheme, |pause| {
        let answer = then(receive(getses, t), then(send(y, t), pause));
        then(receive(url, y), answer)
    });
    for _ in 0..sessions {
        let ses = scheme.name(RESTRICTED);
        go_round(&mut scheme, |pause| {
            new(ses, then(send(getses, ses), then(send(ses, ses), pause)))
        });
    }
    scheme.table()
}

/// Sends in a row, then a body.
fn in_a_row(sends: impl DoubleEndedIterator<Item = Action>, body: Body) -> Body {
    sends.rev().fold(body, |body, action| then(action, body))
}

/// Four tellers report to four keepers. A keeper gives out its book at a common desk and takes what is
/// sent to its book or its log; a teller takes two books, reports 24 times, and takes the next two.
///
///     TELL = desk(x). desk(y). 24 sends on x or log. MORE            MORE likewise
///     OPEN = book(v). SHUT + log(w). SHUT + desk⟨book⟩. SHUT         SHUT likewise
fn public_channels() -> Vec<u16> {
    let desk = 0;
    let book = |keeper: usize| 1 + keeper;
    let log = |keeper: usize| 5 + keeper;
    let mut scheme = Scheme::new(16);
    for teller in 0..4 {
        let first = scheme.next_definition();
        scheme.thread();
        for other in [first + 1, first] {
            let [x, y] = [INPUT, INPUT].map(|kind| scheme.name(kind));
            // Every fourth report goes to the log. Every second hands y on, the others a grade, one of
            // the public names 9 to 15.
            let report = |report: usize| {
                let channel = if report % 4 == 3 { log(teller) } else { x };
                let name = if report % 2 == 1 { y } else { 9 + report % 7 };
                send(channel, name)
            };
            let reports = in_a_row((0..24).map(report), call(other, &[]));
            scheme.define(
                None,
                then(receive(desk, x), then(receive(desk, y), reports)),
            );
        }
    }
    for keeper in 0..4 {
        let first = scheme.next_definition();
        scheme.thread();
        for other in [first + 1, first] {
            let [v, w] = [INPUT, INPUT].map(|kind| scheme.name(kind));
            let actions = [
                receive(book(keeper), v),
                receive(log(keeper), w),
                send(desk, book(keeper)),
            ];
            let choices = actions.map(|action| (action, call(other, &[])));
            scheme.define(None, Body::Choice(choices.into()));
        }
    }
    scheme.table()
}

/// Four tellers, each with a keeper of its own. A teller makes a private channel, hands it over, takes
/// the keeper's receipt on it, reports 47 times on it, and drops it. A keeper hears reports until it is
/// handed the next channel.
///
///     TELL    = ν r. desk⟨r⟩. r(x). 47 sends on r. PAUSE         PAUSE = τ. TELL
///     FIRST   = desk(u). u⟨receipt⟩. HEAR(u)
///     HEAR(f) = f(v). MORE(f)
///     MORE(g) = g(w). HEAR(g) + desk(n). n⟨receipt⟩. HEAR(n)
fn private_channels() -> Vec<u16> {
    let desk = |teller: usize| teller;
    let receipt = |keeper: usize| 4 + keeper;
    let mut scheme = Scheme::new(12);
    for teller in 0..4 {
        let [r, x] = [RESTRICTED, INPUT].map(|kind| scheme.name(kind));
        // Every twelfth report hands the receipt on, the others a grade, a public name from 8.
        let report = |report: usize| match report % 12 {
            6 => send(r, x),
            _ => send(r, 8 + report % 4),
        };
        go_round(&mut scheme, |pause| {
            let reports = in_a_row((0..47).map(report), pause);
            new(r, then(send(desk(teller), r), then(receive(r, x), reports)))
        });
    }
    for keeper in 0..4 {
        let names = [INPUT, FORMAL, INPUT, FORMAL, INPUT, INPUT];
        let [u, f, v, g, w, n] = names.map(|kind| scheme.name(kind));
        let first = scheme.next_definition();
        let (hear, more) = (first + 1, first + 2);
        let handed = |channel: usize| then(send(channel, receipt(keeper)), call(hear, &[channel]));
        scheme.thread();
        scheme.define(None, then(receive(desk(keeper), u), handed(u)));
        scheme.define(Some(f), then(receive(f, v), call(more, &[f])));
        let choices = vec![
            (receive(g, w), call(hear, &[g])),
            (receive(desk(keeper), n), handed(n)),
        ];
        scheme.define(Some(g), Body::Choice(choices));
    }
    scheme.table()
}

/// A giver gives out every public name at a desk, so that each may be any channel and any report.
/// Three tellers take a channel and a report, and send it eight times; three keepers take a channel,
/// and hear one report on it.
///
///     GIVE = desk⟨c⟩. PAUSE, for each public c                     PAUSE = τ. GIVE
///     TELL = desk(x). desk(y). 8 sends of y on x. PAUSE            PAUSE = τ. TELL
///     KEEP = desk(u). (u(v). PAUSE + u(w). PAUSE)                  PAUSE = τ. KEEP
fn every_value() -> Vec<u16> {
    let (publics, desk) = (16, 0);
    let mut scheme = Scheme::new(publics);
    let first = scheme.next_definition();
    scheme.thread();
    let choices = (0..publics).map(|name| (send(desk, name), call(first + 1, &[])));
    scheme.define(None, Body::Choice(choices.collect()));
    scheme.define(None, then(Action::Silent, call(first, &[])));
    for _ in 0..3 {
        let [x, y] = [INPUT, INPUT].map(|kind| scheme.name(kind));
        go_round(&mut scheme, |pause| {
            let reports = in_a_row((0..8).map(|_| send(x, y)), pause);
            then(receive(desk, x), then(receive(desk, y), reports))
        });
    }
    for _ in 0..3 {
        let [u, v, w] = [INPUT, INPUT, INPUT].map(|kind| scheme.name(kind));
        let first = scheme.next_definition();
        scheme.thread();
        let choices = [receive(u, v), receive(u, w)].map(|action| (action, call(first + 1, &[])));
        let heard = Body::Choice(choices.into());
        scheme.define(None, then(receive(desk, u), heard));
        scheme.define(None, then(Action::Silent, call(first, &[])));
    }
    scheme.table()
}
