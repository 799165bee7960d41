//! What `rpr heartbeat` does: messages, statuses and lines worked out by hand.

mod items;

use items::bytes;
use model::command::{heartbeat, repeats, summarize, File, Given, Said, Shown};
use model::make_heartbeat;
use model::random::Random;
use model::{heartbeat as beats, host};

fn file(bytes: Vec<u8>) -> File {
    ("beat".to_string(), bytes)
}

fn said(output: &str, error: &str, status: i32) -> Said {
    Said {
        output: output.as_bytes().to_vec(),
        error: error.to_string(),
        status,
    }
}

#[test]
fn numbers_of_repeats() {
    for (word, number) in [
        ("0", 0),
        ("7", 7),
        ("000000000000000000000000000042", 42),
        ("1000000", 1_000_000),
        ("18446744073709551615", u64::MAX),
        ("18446744073709551616", u64::MAX),
        ("18446744073709551620", u64::MAX),
        ("99999999999999999999", u64::MAX),
        ("100000000000000000000000000000", u64::MAX),
        ("0018446744073709551614", u64::MAX - 1),
    ] {
        assert_eq!(repeats(word), Some(number), "{word}");
    }
    let words = [
        "", "-", "-1", "+1", " 1", "1 ", "1.0", "0x1", "1e3", "\u{ff11}",
    ];
    for word in words {
        assert_eq!(repeats(word), None, "{word}");
        let error = format!("rpr: {word}: not a number of repeats\n");
        assert_eq!(heartbeat(&file(bytes("")), word), said("", &error, 2));
    }
}

/// mtu 64, loLimit 100, hiLimit 300. A waiting tick of 50 and a send of 60: gain −10, ceiling 240,
/// need 51. Of n in a row the last needs 51 + 10 × (n − 1), and the ceiling is 250 − 10 × n.
#[test]
fn lines_worked_out_by_hand() {
    let falls = file(bytes("060001003200 060003003c00"));
    let lines = "events 10\naccrued 250\nsent 300\nceiling 200\nneed 91\n\
                 start 100 permitted end 50\n";
    assert_eq!(heartbeat(&falls, "5"), said(lines, "", 0));
    let lines = "events 12\naccrued 300\nsent 360\nceiling 190\nneed 101\n\
                 start 100 not permitted\n";
    assert_eq!(heartbeat(&falls, "6"), said(lines, "", 1));
    // Behind round 20 the ceiling is 50, and round 21 needs 51.
    let lines = "events 42\naccrued 1050\nsent 1260\nceiling 40\nneed 301\n\
                 start 100 not permitted\n";
    assert_eq!(heartbeat(&falls, "21"), said(lines, "", 1));
    let lines = "events 0\naccrued 0\nsent 0\nceiling 300\nneed 0\nstart 100 permitted end 100\n";
    assert_eq!(heartbeat(&falls, "0"), said(lines, "", 0));
    let empty = file(bytes(""));
    assert_eq!(
        heartbeat(&empty, "18446744073709551616"),
        said(lines, "", 0)
    );
    // The example of the program, twice: need 11 before the cut to 100, and after it.
    let example = "060001009600 060003003c00 060003004000 060002003200";
    let lines = "events 8\naccrued 400\nsent 248\nceiling 100\nneed 11\n\
                 start 100 permitted end 100\n";
    assert_eq!(heartbeat(&file(bytes(example)), "2"), said(lines, "", 0));
}

#[test]
fn refusals() {
    let many = "over 256 events, or the size of a send is outside its range";
    let whole = "the bytes are not a whole record";
    for (items, repeats, number, words) in [
        ("06".to_string(), "0", 2, whole),
        ("060003000f00".to_string(), "1", 3, many),
        ("0a000400010000000101".to_string(), "0", 3, many),
        ("060001000000".repeat(257), "1", 3, many),
        ("060001000000".repeat(257), "99999999999999999999", 3, many),
        (
            "060001000000".repeat(256),
            "3907",
            9,
            "over 1,000,000 events with so many repeats",
        ),
    ] {
        let output = format!("refused {number}\n");
        let error = format!("rpr: beat: refused {number}: {words}\n");
        let got = heartbeat(&file(bytes(&items)), repeats);
        assert_eq!(got, said(&output, &error, 2));
    }
    let mut setting = bytes("");
    setting[4] = 63;
    let error = "rpr: beat: refused 1: a setting is outside its range\n";
    assert_eq!(
        heartbeat(&file(setting), "1"),
        said("refused 1\n", error, 2)
    );
}

/// What is printed is the summary of the written-out record, and the status is the call's answer.
#[test]
fn the_written_out_record() {
    let mut random = Random::new(1);
    for _ in 0..1_000 {
        let (bytes, _) = make_heartbeat::any(&mut random);
        let times = random.below(30) as u64;
        let answer = host::heartbeat(&bytes, times);
        let got = heartbeat(&file(bytes.clone()), &times.to_string());
        let status = match (answer as u8, answer >> 8 & 1) {
            (0, permitted) => 1 - permitted as i32,
            _ => 2,
        };
        assert_eq!(got.status, status);
        if let Ok(pattern) = beats::repeated(&bytes, times) {
            let record = file(beats::written_out(&pattern, times).to_bytes());
            let summed = summarize(&record, Given::Bytes, Shown::Lines);
            assert_eq!(got.output, summed.output);
        }
    }
}

/// A word for repeats stands for them, and one that is no number for none.
#[test]
fn words_at_random() {
    let mut random = Random::new(2);
    for number in [0, 1, 3_907, u64::MAX - 1, u64::MAX] {
        for _ in 0..50 {
            let word = make_heartbeat::word(&mut random, number);
            assert_eq!(repeats(&word), Some(number), "{word}");
        }
    }
    for _ in 0..500 {
        let word = make_heartbeat::no_number(&mut random);
        assert_eq!(repeats(&word), None, "{word}");
    }
}
