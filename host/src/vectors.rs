//! Tables of the requests, document 02's and our own: inputs, and what a core must answer to them.
//! Each is written once over the traits of the calls and runs on every core, on the independent
//! reading here and on the proved library in its own tests.

pub mod areas;
pub mod digits;
pub mod drawings;
pub mod items;
pub mod joins;
pub mod lines;
pub mod order;
pub mod pollings;
pub mod profiles;
pub mod rounds;
pub mod since;
pub mod stores;
pub mod summaries;

use crate::calls::Core;
use crate::types::{Answer, Entry, Fault, Last, Reading, Row, Temperature};
use std::fmt::Debug;

/// Address 7, decimal 30.00, no alarms, 40 bits, even; and the same with the other parity bit.
pub const GOOD: &[u8] = b"\x80\x0e\x50\x00\x00";
pub const WRONG_PARITY: &[u8] = b"\x80\x0e\x50\x00\x01";
pub const SILENT: &[u8] = b"";

/// What the reply of 30.00 says, heard at a minute.
pub fn thirty(minute: u32) -> Option<Last> {
    Some(Last {
        reading: plain(3_000),
        minute,
    })
}

/// A level without temperature or alarms.
pub fn plain(level: u16) -> Reading {
    Reading {
        level,
        temperature: Temperature::Absent,
        alarm1: false,
        alarm0: false,
    }
}

/// A record of minute 600, its reply of as many bits as its bytes have.
pub fn entry(settings: u8, address: u16, reply: &[u8]) -> Entry<'_> {
    Entry {
        settings,
        minute: 600,
        address,
        count: 8 * reply.len(),
        reply,
    }
}

/// The number of an answer, 0 where nothing was refused.
pub fn number<T>(answer: &Answer<T>) -> u8 {
    answer.as_ref().err().map_or(0, |fault| fault.number())
}

/// A number and the place beside it.
pub fn number_and_place<T>(answer: Answer<T>) -> (u8, u8) {
    answer.map_or_else(|fault: Fault| (fault.number(), fault.place()), |_| (0, 0))
}

/// A board of three rows whose first has address 7 by decimal settings.
struct Board<'a, C: Core> {
    core: &'a C,
    rows: Vec<C::Row>,
}

impl<'a, C: Core> Board<'a, C>
where
    C::Row: PartialEq + Debug,
{
    const ENROLLED: Row = Row {
        in_use: true,
        address: 7,
        settings: 1,
        last: None,
        fault: 0,
        place: 0,
        faulty: 0,
        heard: 0,
        gauge: 0,
    };

    fn new(core: &'a C) -> Self {
        let rows = vec![core.row(&Row::default()); 3];
        let mut board = Board { core, rows };
        assert_eq!(board.core.enrol(&mut board.rows, 1, 7, 0), Ok(()));
        board.stands(&Self::ENROLLED, "enrolled");
        board
    }

    fn hear(&mut self, minute: u32, address: u16, reply: &[u8]) -> Answer<()> {
        let count = 8 * reply.len();
        self.core
            .hear(&mut self.rows, minute, address, count, reply)
    }

    /// Every field of every row, as this core lends them: those that `says` would not tell apart
    /// too. The rows after the first are free.
    fn stands(&self, first: &Row, after: &str) {
        let free = Row::default();
        let rows = [*first, free, free].map(|says| self.core.row(&says));
        assert_eq!(self.rows, rows, "{after}");
    }
}

/// The same of rounds that a core runs itself.
macro_rules! polling_tests_on {
    ($core:expr) => {
        #[test]
        fn rounds_begun_from_boards() {
            $crate::vectors::pollings::begun_from_boards(&$core);
        }

        #[test]
        fn a_round_from_its_beginning() {
            $crate::vectors::pollings::from_the_beginning(&$core);
        }

        #[test]
        fn answers_in_time_and_late() {
            $crate::vectors::pollings::in_time(&$core);
        }

        #[test]
        fn answers_spoiled_or_stuck() {
            $crate::vectors::pollings::spoiled_or_stuck(&$core);
        }

        #[test]
        fn the_bench_reply_polled_for() {
            $crate::vectors::pollings::the_bench_reply(&$core);
        }

        #[test]
        fn transmitters_asked_again() {
            $crate::vectors::pollings::asked_again(&$core);
        }

        #[test]
        fn rounds_at_a_bad_pace() {
            $crate::vectors::pollings::bad_paces(&$core);
        }

        #[test]
        fn patterns_of_a_round_under_way() {
            $crate::vectors::pollings::patterns(&$core);
        }

        #[test]
        fn a_whole_round_of_thirty() {
            $crate::vectors::pollings::thirty(&$core);
        }
    };
}
pub(crate) use polling_tests_on;

/// One test for each table, on a core.
macro_rules! tests_on {
    ($core:expr) => {
        #[test]
        fn the_first_unreadable_digit_is_named() {
            $crate::vectors::digits::named(&$core);
        }

        #[test]
        fn a_listing_with_an_unreadable_record() {
            $crate::vectors::digits::listed(&$core);
        }

        #[test]
        fn a_board_that_hears_unreadable_digits() {
            $crate::vectors::digits::heard(&$core);
        }

        #[test]
        fn places_that_a_look_tells() {
            $crate::vectors::digits::looked_at(&$core);
        }

        #[test]
        fn how_long_it_has_been_bad() {
            $crate::vectors::since::a_row(&$core);
        }

        #[test]
        fn enrolled_with_a_gauge() {
            $crate::vectors::profiles::enrolled(&$core);
        }

        #[test]
        fn temperatures_and_profiles() {
            $crate::vectors::profiles::heard(&$core);
        }

        #[test]
        fn polls_of_rows() {
            $crate::vectors::profiles::polled(&$core);
        }

        #[test]
        fn a_summary_beside_a_sheet_of_saves() {
            $crate::vectors::summaries::saves(&$core);
        }

        #[test]
        fn a_summary_of_thirty_pairs_and_others() {
            $crate::vectors::summaries::thirty_pairs(&$core);
        }

        #[test]
        fn summaries_handed_in_and_refused() {
            $crate::vectors::summaries::refused(&$core);
        }

        #[test]
        fn summaries_handed_in_and_taken() {
            $crate::vectors::summaries::taken(&$core);
        }

        #[test]
        fn a_summary_of_no_slots_and_of_a_bad_size() {
            $crate::vectors::summaries::sizes(&$core);
        }

        #[test]
        fn a_board_in_address_order() {
            $crate::vectors::order::in_order(&$core);
        }

        #[test]
        fn boards_lent_in_order_or_not() {
            $crate::vectors::order::lent(&$core);
        }

        #[test]
        fn a_board_out_of_order() {
            $crate::vectors::order::out_of_order(&$core);
        }

        #[test]
        fn what_is_left_in_free_rows() {
            $crate::vectors::order::left_over(&$core);
        }

        #[test]
        fn summaries_joined_pair_by_pair() {
            $crate::vectors::joins::pair_by_pair(&$core);
        }

        #[test]
        fn joins_refused_and_just_not() {
            $crate::vectors::joins::refusals(&$core);
        }

        #[test]
        fn joins_by_either_grouping() {
            $crate::vectors::joins::grouping(&$core);
        }

        #[test]
        fn two_lists_joined_and_end_to_end() {
            $crate::vectors::joins::end_to_end(&$core);
        }

        #[test]
        fn messages_heard_in_parts() {
            $crate::vectors::lines::messages(&$core);
        }

        #[test]
        fn messages_spoiled() {
            $crate::vectors::lines::spoiled(&$core);
        }

        #[test]
        fn sixty_four_bits_and_one_more() {
            $crate::vectors::lines::sixty_fifth_bit(&$core);
        }

        #[test]
        fn a_state_that_no_call_leaves() {
            $crate::vectors::lines::strange_state(&$core);
        }

        #[test]
        fn the_bench_reply_drawn() {
            $crate::vectors::lines::bench_reply(&$core);
        }

        #[test]
        fn messages_drawn() {
            $crate::vectors::drawings::drawn(&$core);
        }

        #[test]
        fn messages_not_drawn() {
            $crate::vectors::drawings::refused(&$core);
        }

        #[test]
        fn item_records_both_ways() {
            $crate::vectors::items::both_ways(&$core);
        }

        #[test]
        fn item_records_refused() {
            $crate::vectors::items::refused_records(&$core);
        }

        #[test]
        fn items_not_written() {
            $crate::vectors::items::refused_writes(&$core);
        }

        #[test]
        fn plans_proposed() {
            $crate::vectors::areas::plans(&$core);
        }

        #[test]
        fn plans_drawn_by_a_fitter() {
            $crate::vectors::areas::drawn(&$core);
        }

        #[test]
        fn rounds_and_the_same_one_by_one() {
            $crate::vectors::rounds::worked(&$core);
        }

        #[test]
        fn rounds_with_a_summary() {
            $crate::vectors::rounds::with_a_summary(&$core);
        }

        #[test]
        fn rounds_with_a_summary_that_is_refused() {
            $crate::vectors::rounds::a_refused_summary(&$core);
            $crate::vectors::rounds::a_summary_over_on_the_way(&$core);
        }

        #[test]
        fn replies_of_a_round_out_of_form() {
            $crate::vectors::rounds::forms(&$core);
        }

        #[test]
        fn saves_told_as_their_stores() {
            $crate::vectors::stores::the_table(&$core);
            $crate::vectors::stores::the_order_of_refusals(&$core);
        }
    };
}
pub(crate) use tests_on;

mod on_the_reading {
    super::tests_on!(crate::reading::IndependentReading);
    super::polling_tests_on!(crate::reading::IndependentReading);
}
