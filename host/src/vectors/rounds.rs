//! A whole round in one save, request 05.

use super::{entry, number, GOOD, SILENT};
use crate::calls::{Core, Rounds, Summaries};
use crate::types::rounds::{Polled, Round, Rounded, MOST_REPLIES};
use crate::types::summaries::Summary;
use crate::types::{Entry, Slot, BLANK, SLOT};

/// A reply by its letter: good, silent, bad settings, bad form.
fn asked(letter: char) -> Entry<'static> {
    let reply = if letter == 's' { SILENT } else { GOOD };
    let settings = if letter == 'b' { 16 } else { 1 };
    let mut entry = entry(settings, 7, reply);
    if letter == 'f' {
        entry.reply = &GOOD[..4];
    }
    entry
}

/// The same as a round has it. What stands behind the bytes lent is not read.
fn polled(letter: char) -> Polled {
    let entry = asked(letter);
    let mut reply = [0xA5; 8];
    reply[..entry.reply.len()].copy_from_slice(entry.reply);
    Polled {
        minute: entry.minute,
        count: entry.count as u32,
        bytes: entry.reply.len() as u32,
        address: entry.address,
        settings: entry.settings,
        unused: 0xA5,
        reply,
    }
}

/// A round of replies by their letters.
fn round(letters: &str) -> Round {
    let mut round = Round {
        count: letters.len(),
        ..Round::default()
    };
    for (place, letter) in round.replies.iter_mut().zip(letters.chars()) {
        *place = polled(letter);
    }
    round
}

/// What the slots of a sheet read as, a letter each: record, spoiled, blank.
fn slots(core: &impl Core, sheet: &[u8]) -> String {
    let letter = |slot| match core.look(sheet, slot) {
        Ok(Slot::Record(_)) => 'r',
        Ok(Slot::Spoiled) => 's',
        Ok(Slot::Blank) => 'b',
        _ => '?',
    };
    (0..sheet.len() / SLOT).map(letter).collect()
}

/// Sheets in bytes, replies, allowance; then closed, stores and number, the slots after the round,
/// and what the same replies answer one by one, a refusal as its number in brackets.
type Row<'a> = (usize, &'a str, usize, [usize; 3], &'a str, &'a str);

fn table<'a>(many: &'a str, silent: &'a str) -> [Row<'a>; 19] {
    const FOUR: usize = 4 * SLOT;
    [
        (FOUR, "gsg", 99, [3, 43, 0], "rrrb", "16 11 16"),
        (FOUR, "gsg", 43, [3, 43, 0], "rrrb", "16 11 16"),
        (FOUR, "gsg", 42, [2, 42, 0], "rrsb", "16 11 15"),
        (FOUR, "gsg", 27, [2, 27, 0], "rrbb", "16 11"),
        (FOUR, "gsg", 26, [1, 26, 0], "rsbb", "16 10"),
        (FOUR, "gsg", 16, [1, 16, 0], "rbbb", "16"),
        (FOUR, "gsg", 0, [0, 0, 0], "bbbb", ""),
        (2 * SLOT, "gsg", 99, [2, 27, 13], "rr", "16 11 [13]"),
        (2 * SLOT, "gsg", 27, [2, 27, 0], "rr", "16 11"),
        (FOUR, "gbg", 99, [1, 16, 10], "rbbb", "16 [10]"),
        (FOUR, "gbg", 16, [1, 16, 0], "rbbb", "16"),
        (FOUR, "gfg", 99, [1, 16, 14], "rbbb", "16 [14]"),
        (FOUR, "", 99, [0, 0, 0], "bbbb", ""),
        (31, "g", 99, [0, 0, 12], "", "[12]"),
        (31, "g", 0, [0, 0, 0], "", ""),
        (31, "", 99, [0, 0, 0], "", ""),
        (3 * SLOT, many, 99, [0, 0, 23], "bbb", ""),
        (31, many, 0, [0, 0, 23], "", ""),
        (3 * SLOT, silent, 9_999, [3, 33, 13], "rrr", "11 11 11 [13]"),
    ]
}

/// The same replies saved one by one while none is refused and stores are left: the sheet after
/// them, and their answers.
fn one_by_one(
    core: &impl Core,
    bytes: usize,
    letters: &str,
    allowance: usize,
) -> (Vec<u8>, String) {
    let mut sheet = vec![BLANK; bytes];
    let (mut left, mut answers) = (allowance, Vec::new());
    for letter in letters
        .chars()
        .take_while(|_| letters.len() <= MOST_REPLIES)
    {
        if left == 0 {
            break;
        }
        let answer = core.save(&mut sheet, &asked(letter), left);
        match answer {
            Ok(stores) => answers.push(stores.to_string()),
            Err(_) => {
                answers.push(format!("[{}]", number(&answer)));
                break;
            }
        }
        left -= answer.unwrap_or(0);
    }
    (sheet, answers.join(" "))
}

/// The worked table: what a round answers, the sheet after it, and that the same replies saved one
/// by one answer and leave the same.
pub fn worked(core: &(impl Core + Rounds)) {
    let (many, silent) = ("g".repeat(31), "s".repeat(30));
    for (bytes, letters, allowance, [closed, stores, number], after, answers) in
        table(&many, &silent)
    {
        let asked = format!("{letters} into {bytes} bytes with {allowance} stores");
        let mut sheet = vec![BLANK; bytes];
        let rounded = core.save_round(&mut sheet, &round(letters), allowance);
        let expected = Rounded {
            closed,
            stores,
            number: number as u8,
        };
        assert_eq!(rounded, expected, "{asked}");
        assert_eq!(slots(core, &sheet), after, "{asked}");
        let (left, answered) = one_by_one(core, bytes, letters, allowance);
        assert_eq!(answered, answers, "{asked}");
        assert_eq!(sheet, left, "{asked}");
    }
}

/// The same table with a summary, begun from the blank sheet: at the end of each round it is the
/// one worked out from the sheet.
pub fn with_a_summary(core: &(impl Rounds + Summaries)) {
    let (many, silent) = ("g".repeat(31), "s".repeat(30));
    for (bytes, letters, allowance, [closed, stores, number], _, _) in table(&many, &silent) {
        let asked = format!("{letters} into {bytes} bytes with {allowance} stores");
        let mut sheet = vec![BLANK; bytes];
        let blank = Summary::default();
        let (page, rounded) =
            core.summary_save_round(&mut sheet, &blank, &round(letters), allowance);
        let told = [rounded.closed, rounded.stores, rounded.number.into()];
        assert_eq!(told, [closed, stores, number], "{asked}");
        let afresh = core.summary_of(&sheet).unwrap_or_default();
        assert_eq!(page, afresh, "{asked}");
    }
}

/// A summary that is refused: 37 before the sheet's 12, but not where no reply is tried, and after
/// 23. It comes back as it was handed in.
pub fn a_refused_summary(core: &impl Rounds) {
    let refused = Summary {
        count: 31,
        ..Summary::default()
    };
    let many = "g".repeat(31);
    let table = [
        ("gsg", 99, 37),
        ("bsg", 1, 37),
        ("gsg", 0, 0),
        ("", 99, 0),
        (&many, 99, 23),
    ];
    for (letters, allowance, number) in table {
        let mut sheet = [BLANK; SLOT - 1];
        let (page, rounded) =
            core.summary_save_round(&mut sheet, &refused, &round(letters), allowance);
        let told = (rounded.closed, rounded.stores, rounded.number);
        assert_eq!(told, (0, 0, number), "{letters} with {allowance} stores");
        assert_eq!((page, sheet), (refused, [BLANK; SLOT - 1]));
    }
}

/// A summary whose good replies reach 1,000,001 with the first reply of a round: the second is
/// refused by 24, and the summary comes back with the first.
pub fn a_summary_over_on_the_way(core: &impl Rounds) {
    let mut sheet = [BLANK; 4 * SLOT];
    let page = super::summaries::good(1_000_000);
    let (after, rounded) = core.summary_save_round(&mut sheet, &page, &round("ggg"), 99);
    let told = (rounded.closed, rounded.stores, rounded.number);
    assert_eq!(told, (1, 16, 24));
    assert_eq!((after.count, after.lines[0].good), (1, 1_000_001));
}

/// Every reason of 14 can be said of a reply of a round: bits above 64, bytes that are not those of
/// the bits, above 8 too, and a pad bit; a count or a number of bytes is not cut to fewer bits.
pub fn forms(core: &impl Rounds) {
    let table = [
        (40, 5, GOOD[4], 0),
        (65, 5, GOOD[4], 14),
        (65, 9, GOOD[4], 14),
        (256 + 40, 5, GOOD[4], 14),
        (65_536 + 40, 5, GOOD[4], 14),
        (u32::MAX, 5, GOOD[4], 14),
        (40, 4, GOOD[4], 14),
        (40, 6, GOOD[4], 14),
        (40, 8, GOOD[4], 14),
        (40, 9, GOOD[4], 14),
        (64, 9, GOOD[4], 14),
        (40, 256 + 5, GOOD[4], 14),
        (40, u32::MAX, GOOD[4], 14),
        (39, 5, 1, 14),
        (39, 5, 0, 0),
        (0, 0, GOOD[4], 0),
    ];
    for (count, bytes, fifth, number) in table {
        let mut round = round("g");
        round.replies[0].count = count;
        round.replies[0].bytes = bytes;
        round.replies[0].reply[4] = fifth;
        let mut sheet = [BLANK; SLOT];
        let rounded = core.save_round(&mut sheet, &round, 99);
        assert_eq!(rounded.number, number, "{count} bits in {bytes} bytes");
        assert_eq!(rounded.closed, usize::from(number == 0));
        assert_eq!(sheet == [BLANK; SLOT], number != 0);
    }
}
