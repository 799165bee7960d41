//! What a reader finds in a record.

use model::walk;

const HEADER: &str = "0e00 1000 4000 64000000 2c010000";

fn printed(events: &str) -> String {
    walk::print(&format!("{HEADER} {events}")).unwrap().unwrap()
}

#[test]
fn the_documents_record() {
    assert_eq!(
        printed("060001009600 060003003c00 060003004000 060002003200"),
        "waiting tick 150\nsend 60\nsend 64\nidle tick 50\nend\n"
    );
}

#[test]
fn the_events_before_a_fault_are_found() {
    assert_eq!(
        printed("060001009600 060003000f00 060002003200"),
        "waiting tick 150\nrefused 3\n"
    );
    assert_eq!(printed("060001009600 06"), "waiting tick 150\nrefused 2\n");
}

#[test]
fn a_header_alone_ends_and_a_broken_one_is_refused() {
    assert_eq!(printed(""), "end\n");
    assert_eq!(walk::print("0e00").unwrap().unwrap(), "refused 2\n");
}

#[test]
fn comments_and_empty_lines_print_nothing() {
    for line in ["", "# 0e00"] {
        assert_eq!(walk::print(line).unwrap(), None);
    }
    assert!(walk::print("words").is_err());
}
