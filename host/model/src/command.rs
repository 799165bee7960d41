//! What the command `rpr` does, by the bytes that it is given: standard output, standard
//! error and the exit status.

use crate::compare;
use crate::heartbeat;
use crate::host;
use crate::movers;
use crate::record;
use crate::refusal::Refusal;
use crate::summary::Summary;
use crate::text;

/// A file's name, as messages have it, and its bytes.
pub type File = (String, Vec<u8>);

/// What a run leaves.
#[derive(Debug, PartialEq, Eq)]
pub struct Said {
    pub output: Vec<u8>,
    pub error: String,
    pub status: i32,
}

/// How a record is given: "hex text", or "with --bytes the bytes themselves".
#[derive(Clone, Copy, Debug, PartialEq, Eq)]
pub enum Given {
    Text,
    Bytes,
}

/// How a summary is shown: "the six lines", or "with --sheet the 48 bytes".
#[derive(Clone, Copy, Debug, PartialEq, Eq)]
pub enum Shown {
    Lines,
    Sheet,
}

/// A refusal, and what is said of it.
type Fault = (Refusal, &'static str);

const NOT_HEX: &str = "hex is expected, and this is other text; --bytes reads bytes";
const NOT_OLD: &str = "the bytes are not a whole record without runs";

/// "0 done, 1 refused", of summarize and join.
fn answered(name: &str, answer: Result<Summary, Fault>, shown: Shown) -> Said {
    let fault = answer.err();
    let answer = answer.map_err(|(refusal, _)| refusal);
    Said {
        output: match (shown, &answer) {
            (Shown::Lines, _) => text::show(answer).into_bytes(),
            (Shown::Sheet, Ok(summary)) => host::to_bytes(summary),
            // "a refusal then prints nothing on standard output"
            (Shown::Sheet, Err(_)) => Vec::new(),
        },
        status: i32::from(fault.is_some()),
        error: fault.map_or(String::new(), |fault| refused(name, fault)),
    }
}

/// "a refusal: `rpr: NAME: refused N: WORDS`, in every command and with --sheet too"
fn refused(name: &str, (refusal, words): Fault) -> String {
    format!("rpr: {name}: refused {}: {words}\n", refusal.number())
}

/// "the summary of a shaper record"
pub fn summarize((name, input): &File, given: Given, shown: Shown) -> Said {
    let record = match given {
        Given::Text => text::decode(input).map_err(|refusal| (refusal, NOT_HEX)),
        Given::Bytes => Ok(input.clone()),
    };
    let summary = record.and_then(|bytes| text::summarize(&bytes).map_err(of_record));
    answered(name, summary, shown)
}

/// Which way a record is moved.
#[derive(Clone, Copy, Debug, PartialEq, Eq)]
pub enum Mover {
    Roll,
    Unroll,
}

impl Mover {
    pub fn name(self) -> &'static str {
        match self {
            Mover::Roll => "roll",
            Mover::Unroll => "unroll",
        }
    }
}

/// The bytes of a record, moved; a refusal and the status as of `rpr summarize --bytes --sheet`,
/// but that roll says what it needs.
pub fn moved((name, input): &File, mover: Mover) -> Said {
    let output = match mover {
        Mover::Roll => movers::roll(input),
        Mover::Unroll => movers::unroll(input),
    };
    match output {
        Ok(output) => Said {
            output,
            error: String::new(),
            status: 0,
        },
        Err(Refusal::Bytes) if mover == Mover::Roll => {
            answered(name, Err((Refusal::Bytes, NOT_OLD)), Shown::Sheet)
        }
        Err(refusal) => answered(name, Err(of_record(refusal)), Shown::Sheet),
    }
}

/// What is said of a record's refusal.
fn of_record(refusal: Refusal) -> Fault {
    let words = match refusal {
        Refusal::Setting => "a setting is outside its range",
        Refusal::Bytes => "the bytes are not a whole record",
        Refusal::Range => "the size of a send is outside its range",
        Refusal::Events => "over 1,000,000 events",
        _ => unreachable!("no record is refused so"),
    };
    (refusal, words)
}

/// "The first refusal counts, and its file is named." None where no file is given.
pub fn join(files: &[File], shown: Shown) -> Option<Said> {
    let mut joined = None;
    for (name, bytes) in files {
        match onto(joined, bytes) {
            Ok(summary) => joined = Some(summary),
            Err(refusal) => return Some(answered(name, Err(of_join(refusal)), shown)),
        }
    }
    joined.map(|summary| answered("", Ok(summary), shown))
}

/// "not 48 bytes 2; the summary out of its range 3; settings other than those before 10;
/// with those before over 1,000,000 events 9"
fn onto(before: Option<Summary>, bytes: &[u8]) -> Result<Summary, Refusal> {
    let summary = host::from_bytes(bytes)?;
    if !summary.in_range() {
        return Err(Refusal::Range);
    }
    before.map_or(Ok(summary), |before| before.join(&summary))
}

/// What is said of a file that is not joined.
fn of_join(refusal: Refusal) -> Fault {
    let words = match refusal {
        Refusal::Bytes => "not the 48 bytes of a summary",
        Refusal::Range => "the summary is outside its range",
        Refusal::Settings => "its settings are not those of the files before it",
        Refusal::Events => "over 1,000,000 events with the files before it",
        _ => unreachable!("no join is refused so"),
    };
    (refusal, words)
}

/// "0 the records are the same, 1 they differ, 2 refused"
pub fn compare(files: &[File; 2]) -> Said {
    let [(_, first), (_, second)] = files;
    let printed = compare::compare(first, second);
    let same = record::read(first, compare::FORM) == record::read(second, compare::FORM);
    let (error, status) = match printed.refused {
        None => (String::new(), i32::from(!same)),
        Some((side, refusal)) => (refused(&files[side as usize].0, of_record(refusal)), 2),
    };
    Said {
        output: printed.text.into_bytes(),
        error,
        status,
    }
}

/// "one or more decimal digits"; "a number past 2^64-1 is taken for 2^64-1". None of another word.
pub fn repeats(word: &str) -> Option<u64> {
    let digits = !word.is_empty() && word.bytes().all(|byte| byte.is_ascii_digit());
    let number = |sum: u64, byte| {
        sum.saturating_mul(10)
            .saturating_add(u64::from(byte - b'0'))
    };
    digits.then(|| word.bytes().fold(0, number))
}

/// What `rpr summarize --bytes` prints of the written-out record. "0 permitted throughout from
/// loLimit, 1 not permitted, 2 refused or trouble"
pub fn heartbeat((name, input): &File, word: &str) -> Said {
    let Some(repeats) = repeats(word) else {
        return Said {
            output: Vec::new(),
            error: format!("rpr: {word}: not a number of repeats\n"),
            status: 2,
        };
    };
    let pattern = heartbeat::repeated(input, repeats);
    let record = pattern.map(|pattern| heartbeat::written_out(&pattern, repeats));
    let summary = record.and_then(|record| Summary::of_record(&record));
    let (error, status) = match &summary {
        Ok(summary) => {
            let start = i128::from(summary.settings.lo_limit);
            (String::new(), i32::from(summary.need > start))
        }
        Err(refusal) => (refused(name, of_heartbeat(*refusal)), 2),
    };
    Said {
        output: text::show(summary).into_bytes(),
        error,
        status,
    }
}

/// What is said of a pattern's refusal.
fn of_heartbeat(refusal: Refusal) -> Fault {
    let words = match refusal {
        Refusal::Range => "over 256 events, or the size of a send is outside its range",
        Refusal::Events => "over 1,000,000 events with so many repeats",
        _ => return of_record(refusal),
    };
    (refusal, words)
}
