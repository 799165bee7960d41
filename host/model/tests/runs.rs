//! Records with runs, by the sentences of the request: "kind 4, length 10: a tick kind (2, being 1
//! or 2), an amount (2), a count (2, from 2 to 65,535), standing for that many equal ticks".

mod items;

use items::{bytes, HEADER};
use model::item::{Item, Listed};
use model::make_runs;
use model::random::Random;
use model::record::{read, read_items, Event, Form, Record, Settings, MOST_EVENTS};
use model::refusal::Refusal;
use model::summary::{run, Summary};
use model::{command, host, text, walk};

const SETTINGS: Settings = Settings {
    mtu: 64,
    lo_limit: 100,
    hi_limit: 300,
};

fn events(items: &str) -> Vec<Event> {
    read(&bytes(items), Form::Either).unwrap().events
}

/// The number that a record of either form is refused with, or 0.
fn refusal(bytes: &[u8]) -> u8 {
    read(bytes, Form::Either).err().map_or(0, Refusal::number)
}

fn old_refusal(bytes: &[u8]) -> u8 {
    read(bytes, Form::Old).err().map_or(0, Refusal::number)
}

fn item(event: Event, count: u16) -> Item {
    Item { event, count }
}

/// So many ticks, in the longest runs.
fn ticks(events: usize) -> Vec<u8> {
    let (longest, rest) = (events / 65_535, events % 65_535);
    let mut items = vec![item(Event::Idle(1), 65_535); longest];
    if rest > 0 {
        items.push(item(Event::Idle(1), rest as u16));
    }
    let settings = SETTINGS;
    Listed { settings, items }.to_bytes()
}

fn with(mut record: Vec<u8>, items: &str) -> Vec<u8> {
    record.extend(text::decode(items.as_bytes()).unwrap());
    record
}

/// "standing for that many equal ticks"
#[test]
fn a_run_is_so_many_equal_ticks() {
    assert_eq!(
        events("0a00 0400 0100 9600 0200"),
        [Event::Waiting(150), Event::Waiting(150)]
    );
    assert_eq!(events("0a00 0400 0200 0102 0300"), [Event::Idle(513); 3]);
    assert_eq!(events("0a00 0400 0200 0000 0001"), [Event::Idle(0); 256]);
    let most = events("0a00 0400 0100 ffff ffff");
    assert_eq!(most, [Event::Waiting(65_535); 65_535]);
    let among = "060003003c00 0a0004000200 3200 0200 060002003200 0a0004000200 3200 0200";
    let mut expected = vec![Event::Send(60)];
    expected.extend([Event::Idle(50); 5]);
    assert_eq!(events(among), expected);
}

#[test]
fn the_bytes_of_a_run() {
    let run = item(Event::Idle(0x0102), 0x0304);
    assert_eq!(run.to_bytes(), [10, 0, 4, 0, 2, 0, 2, 1, 4, 3]);
    let run = item(Event::Waiting(65_535), 2);
    assert_eq!(run.to_bytes(), [10, 0, 4, 0, 1, 0, 255, 255, 2, 0]);
    let one = item(Event::Waiting(7), 1);
    assert_eq!(one.to_bytes(), Event::Waiting(7).to_bytes());
}

#[test]
fn written_items_read_back() {
    let mut random = Random::new(1);
    for _ in 0..5_000 {
        let listed = make_runs::listed(&mut random);
        let bytes = listed.to_bytes();
        assert_eq!(read(&bytes, Form::Either), Ok(listed.unrolled()));
        assert_eq!(read_items(&bytes, Form::Either), Ok(listed));
    }
}

/// "Faults at an item, in order": each against those behind it in the order.
#[test]
fn the_order_of_the_faults_at_an_item() {
    // A shape and a size; a shape, a tick kind and a count; and each of the later two.
    for (items, number) in [
        ("0a0003000f000000", 2),
        ("0a00030000000000ffff", 2),
        ("060004000f00", 2),
        ("06000400030000000100", 2),
        ("060003000f00", 3),
        ("0a000400030001000200", 2),
        ("0a000400010001000100", 2),
        ("0a000400030001000100", 2),
    ] {
        assert_eq!(refusal(&bytes(items)), number, "{items}");
    }
    // The same, and a run that passes the million: with two events left.
    for (items, number) in [
        ("0a000400030001000300", 2),
        ("0a00040000000100ffff", 2),
        ("0a000400010001000300", 9),
        ("0a00040001000100ffff", 9),
        ("0a0004000100010003", 2),
        ("0b000400010001000300", 2),
        ("0a000500010001000300", 2),
        ("060003000f00", 3),
    ] {
        let nearly = ticks(MOST_EVENTS - 2);
        assert_eq!(refusal(&with(nearly, items)), number, "{items}");
    }
    // A million done: any byte.
    for items in [
        "00",
        "0a",
        "0a000400010001000300",
        "0a000400030001000000",
        "060003000f00",
        "060001000100",
        "070004",
    ] {
        let full = ticks(MOST_EVENTS);
        assert_eq!(refusal(&with(full, items)), 9, "{items}");
    }
}

/// "a run that passes 1,000,000 events is 9"
#[test]
fn a_run_ends_at_the_million_or_passes_it() {
    assert_eq!(refusal(&ticks(MOST_EVENTS)), 0);
    for (before, run, number) in [
        (MOST_EVENTS - 2, "0a000400010001000200", 0),
        (MOST_EVENTS - 1, "0a000400010001000200", 9),
        (MOST_EVENTS - 1, "060001000100", 0),
        (MOST_EVENTS - 65_535, "0a00040001000100ffff", 0),
        (MOST_EVENTS - 65_534, "0a00040001000100ffff", 9),
        (MOST_EVENTS - 65_534, "0a00040001000100feff", 0),
        (MOST_EVENTS - 65_533, "0a00040001000100feff", 9),
    ] {
        let record = with(ticks(before), run);
        assert_eq!(refusal(&record), number, "{before} and {run}");
        // A broken item behind it: any byte behind the million is 9, and a run that passes it
        // comes first.
        for behind in ["00", "060004", "060003000f00", "0a000400030001000000"] {
            let broken = with(record.clone(), behind);
            assert_eq!(refusal(&broken), 9, "{before} and {run}, then {behind}");
        }
    }
    let below = with(ticks(MOST_EVENTS - 3), "0a000400010001000200");
    assert_eq!(refusal(&below), 0);
    assert_eq!(refusal(&with(below.clone(), "060004")), 2);
    assert_eq!(refusal(&with(below, "060003000f00")), 3);
}

/// The events of runs and those that stand alone are counted together.
#[test]
fn the_million_is_counted_unrolled() {
    let old = Record {
        settings: SETTINGS,
        events: vec![Event::Send(16); MOST_EVENTS - 2],
    };
    let two = with(old.to_bytes(), "0a000400020000000200");
    assert_eq!(read(&two, Form::Either).unwrap().events.len(), MOST_EVENTS);
    assert_eq!(refusal(&with(two, "00")), 9);
    assert_eq!(refusal(&with(old.to_bytes(), "0a000400020000000300")), 9);
}

/// "an item of kind 4 is 2, whatever it holds; behind the millionth event any byte is 9"
#[test]
fn the_old_form_has_no_runs() {
    for items in [
        "0a000400010001000200",
        "0a00040001000100ffff",
        "0a000400030001000000",
        "06000400",
        "0a0004",
        "060004000100",
    ] {
        assert_eq!(old_refusal(&bytes(items)), 2, "{items}");
        let behind = format!("{items} 060003000f00");
        assert_eq!(old_refusal(&bytes(&behind)), 2, "{items}");
        let size = format!("060003000f00 {items}");
        assert_eq!(old_refusal(&bytes(&size)), 3, "{items}");
    }
    let events = vec![Event::Waiting(1); MOST_EVENTS];
    let settings = SETTINGS;
    let mut full = Record { settings, events }.to_bytes();
    assert_eq!(old_refusal(&full), 0);
    assert_eq!(old_refusal(&with(full.clone(), "0a000400010001000200")), 9);
    full.truncate(full.len() - 6);
    // One event is left, so the run would pass the million; of the old form it is no item at all.
    assert_eq!(refusal(&with(full.clone(), "0a000400010001000200")), 9);
    assert_eq!(old_refusal(&with(full, "0a000400010001000200")), 2);
}

/// The old form reads as it did, in either reading.
#[test]
fn records_without_a_run_are_of_both_forms() {
    let mut random = Random::new(2);
    for _ in 0..3_000 {
        let bytes = model::make::damaged(&mut random, 40);
        let old = read(&bytes, Form::Old);
        assert_eq!(read(&bytes, Form::Either), old);
    }
}

/// Accrued count × amount, ceiling hiLimit waiting and loLimit idle, need 0.
#[test]
fn the_summary_of_a_run() {
    for (items, events, accrued, ceiling) in [
        ("0a00040001009600 0200", 2, 300, 300),
        ("0a00040002009600 0200", 2, 300, 100),
        ("0a0004000100ffff ffff", 65_535, 65_535 * 65_535, 300),
        ("0a00040002000000 ffff", 65_535, 0, 100),
    ] {
        let sum = text::summarize(&bytes(items)).unwrap();
        assert_eq!(
            (sum.events, sum.accrued, sum.sent, sum.ceiling, sum.need),
            (events, accrued, 0, ceiling, 0),
            "{items}"
        );
    }
}

/// "Events are counted unrolled, so summaries, A1 and A3 give the same answers on either form"
#[test]
fn summaries_of_either_form() {
    let mut random = Random::new(3);
    let mut with_runs = 0;
    for _ in 0..5_000 {
        let listed = make_runs::listed(&mut random);
        let (bytes, record) = (listed.to_bytes(), listed.unrolled());
        let old = record.to_bytes();
        with_runs += usize::from(bytes != old);
        let summary = Summary::of_record(&record);
        assert_eq!(text::summarize(&bytes), summary);
        let room = [7; 48];
        assert_eq!(host::summarize(&bytes, &room), host::summarize(&old, &room));
        assert_eq!(said(&bytes), said(&old));
        let start = i128::from(record.settings.lo_limit);
        let end = run(&record.settings, &record.events, start);
        assert_eq!(summary.unwrap().settle(start), Ok(end));
    }
    assert!(with_runs > 2_000, "{with_runs}");
}

/// What `rpr summarize` says of the hex and of the bytes, as lines and as a sheet.
fn said(bytes: &[u8]) -> Vec<command::Said> {
    let hex = ("x".to_string(), text::encode(bytes).into_bytes());
    let bytes = ("x".to_string(), bytes.to_vec());
    let mut said = Vec::new();
    for shown in [command::Shown::Lines, command::Shown::Sheet] {
        said.push(command::summarize(&hex, command::Given::Text, shown));
        said.push(command::summarize(&bytes, command::Given::Bytes, shown));
    }
    said
}

/// A reader finds a run's events one by one.
#[test]
fn what_a_reader_finds_in_either_form() {
    let printed = |items: &str| walk::print(&format!("{HEADER} {items}")).unwrap().unwrap();
    assert_eq!(
        printed("060003003c00 0a000400020032000300 060001000100"),
        "send 60\nidle tick 50\nidle tick 50\nidle tick 50\nwaiting tick 1\nend\n"
    );
    assert_eq!(
        printed("0a000400010032000200 0a000400010032000100"),
        "waiting tick 50\nwaiting tick 50\nrefused 2\n"
    );
    assert_eq!(printed("0a0004000100320002"), "refused 2\n");
    let mut random = Random::new(4);
    for _ in 0..300 {
        let listed = make_runs::listed(&mut random);
        let of_bytes = |bytes: &[u8]| walk::print(&text::encode(bytes)).unwrap();
        let old = of_bytes(&listed.unrolled().to_bytes());
        assert_eq!(of_bytes(&listed.to_bytes()), old);
    }
}
