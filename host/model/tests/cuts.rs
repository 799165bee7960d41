//! Records with runs, cut in pieces: "a cut inside a run leaves a shorter run or a single tick on
//! each side".

mod items;

use items::bytes;
use model::make_runs;
use model::random::Random;
use model::record::{read_items, Form};
use model::text;

/// "a cut inside a run leaves a shorter run or a single tick on each side"
#[test]
fn a_cut_inside_a_run() {
    let whole = bytes("060001000100 0a000400020032000400 060003003c00");
    let listed = read_items(&whole, Form::Either).unwrap();
    for (cut, first, second) in [
        (0, "", "060001000100 0a000400020032000400 060003003c00"),
        (1, "060001000100", "0a000400020032000400 060003003c00"),
        (
            2,
            "060001000100 060002003200",
            "0a000400020032000300 060003003c00",
        ),
        (
            3,
            "060001000100 0a000400020032000200",
            "0a000400020032000200 060003003c00",
        ),
        (
            4,
            "060001000100 0a000400020032000300",
            "060002003200 060003003c00",
        ),
        (5, "060001000100 0a000400020032000400", "060003003c00"),
        (6, "060001000100 0a000400020032000400 060003003c00", ""),
    ] {
        assert_eq!(listed.piece(0, cut).to_bytes(), bytes(first), "{cut}");
        assert_eq!(listed.piece(cut, 6).to_bytes(), bytes(second), "{cut}");
    }
    assert_eq!(
        listed.piece(2, 4).to_bytes(),
        bytes("0a000400020032000200"),
        "a piece inside a run"
    );
}

/// A piece of items is the piece of their events; summed and joined the pieces are the whole.
#[test]
fn pieces_cut_inside_runs_join_to_the_whole() {
    let mut random = Random::new(4);
    let mut inside = 0;
    for _ in 0..3_000 {
        let listed = make_runs::with_run(&mut random);
        let events = listed.events();
        let mut ends = vec![0, events];
        ends.extend((0..random.below(6)).map(|_| random.below(events + 1)));
        ends.sort();
        let mut sum = text::summarize(&listed.settings.to_header()).unwrap();
        let mut items = 0;
        for pair in ends.windows(2) {
            let piece = listed.piece(pair[0], pair[1]);
            assert_eq!(piece.unrolled(), listed.unrolled().piece(pair[0], pair[1]));
            items += piece.items.len();
            let next = text::summarize(&piece.to_bytes()).unwrap();
            sum = sum.join(&next).unwrap();
        }
        assert_eq!(Ok(sum), text::summarize(&listed.to_bytes()));
        inside += items - listed.items.len();
        assert!(items - listed.items.len() <= ends.len() - 2);
    }
    assert!(inside > 1_000, "{inside}");
}
