//! Rounds that the recorder runs itself, our request 16.

use super::plain;
use crate::calls::{Core, Pollings, Rounds};
use crate::types::lines::SoFar;
use crate::types::pollings::{Begun, Drew, Left, Pace, Polling, Settled};
use crate::types::rounds::{Polled, Rounded};
use crate::types::{Fault, Row, BLANK, SLOT};

const A: Pace = Pace {
    low: 2,
    still: 3,
    delay: 4,
    least: 1,
    most: 3,
    gap: 4,
    wait: 10,
    longest: 50,
    tries: 1,
};

const B: Pace = Pace {
    low: 4,
    still: 4,
    delay: 0,
    least: 3,
    most: 5,
    gap: 40,
    wait: 100,
    longest: 400,
    tries: 1,
};

/// Delay and poll of address 7 and of address 310 by pace A.
const POLL_OF_7: &str = "0x4 1x2 0x3 12*(2x2 0x3) 3*(1x2 0x3)";
const POLL_OF_310: &str = "0x4 1x2 0x3 5*(2x2 0x3) 2*(1x2 0x3) 3*(2x2 0x3) 1x2 0x3 4*(2x2 0x3)";

/// Samples in the request's words: `0x3` is three of 0, `12*(2x2 0x3)` twelve times what stands there.
fn samples(words: &str) -> Vec<u8> {
    let Some((before, rest)) = words.split_once('(') else {
        return words.split_whitespace().flat_map(run).collect();
    };
    let (inner, after) = rest.split_once(')').unwrap_or((rest, ""));
    let (before, times) = before
        .trim_end_matches('*')
        .rsplit_once(' ')
        .unwrap_or(("", before.trim_end_matches('*')));
    let inner = samples(inner).repeat(times.parse().unwrap_or(0));
    [samples(before), inner, samples(after)].concat()
}

/// One sample, or a run of them.
fn run(word: &str) -> Vec<u8> {
    let (sample, length) = word.split_once('x').unwrap_or((word, "1"));
    match (sample.parse(), length.parse()) {
        (Ok(sample), Ok(length)) => vec![sample; length],
        _ => panic!("no samples: {word}"),
    }
}

/// A reply in pulses of 4 and idle of 4, with 20 idle samples before it and 40 behind.
fn drawn(reply: &[u8]) -> Vec<u8> {
    let bit = |n: usize| match reply[n / 8] >> (7 - n % 8) & 1 {
        1 => samples("1x4 0x4"),
        _ => samples("2x4 0x4"),
    };
    let bits: Vec<u8> = (0..8 * reply.len()).flat_map(bit).collect();
    [samples("0x20"), bits, samples("0x40")].concat()
}

/// A row in use.
fn row(address: u16, settings: u8) -> Row {
    Row {
        in_use: true,
        address,
        settings,
        ..Row::default()
    }
}

/// A reply as a round is begun with it, at minute 600.
fn begun(address: u16, settings: u8) -> Polled {
    Polled {
        minute: 600,
        address,
        settings,
        ..Polled::default()
    }
}

/// A state in the request's words: at, tried, listening, passed.
fn state([at, tried, listening, passed]: [u32; 4]) -> Polling {
    Polling {
        passed,
        at: at as u16,
        tried: tried as u8,
        listening: listening as u8,
        ..Polling::default()
    }
}

const STRANGE: SoFar = SoFar {
    bits: 5,
    run: 6,
    count: 7,
    line: 8,
    fault: 9,
};

/// A round as it goes on. Every call is held to the table, and the whole state after it: the round
/// stays as it is but for the replies that stand, and the lines are at rest unless said otherwise.
struct Story<'a, C> {
    core: &'a C,
    pace: Pace,
    now: Polling,
}

impl<'a, C: Pollings> Story<'a, C> {
    /// From a state of a round with one transmitter, 7.
    fn from(core: &'a C, pace: Pace, pattern: [u32; 4]) -> Self {
        let mut now = state(pattern);
        now.round.count = 1;
        now.round.replies[0] = begun(7, 1);
        Story { core, pace, now }
    }

    /// The same with its poll just drawn.
    fn polled(core: &'a C, pace: Pace) -> Self {
        Story::from(core, pace, [0, 0, 1, 0])
    }

    fn with_lines(mut self, lines: SoFar) -> Self {
        self.now.lines = lines;
        self
    }

    /// The state that is expected; the lines at rest.
    fn expected(&self, after: [u32; 4]) -> Polling {
        Polling {
            round: self.now.round,
            ..state(after)
        }
    }

    fn draws(&mut self, room: usize, told: [usize; 3], drawn: &str, after: [u32; 4]) {
        let expected = self.expected(after);
        self.draws_to(room, told, drawn, expected);
    }

    fn draws_to(&mut self, room: usize, told: [usize; 3], drawn: &str, polling: Polling) {
        let mut out = vec![0xA5; room];
        let drew = self.core.drawn_of(&self.now, &self.pace, &mut out);
        let [count, over, number] = told;
        let told = Drew {
            count,
            over: over as u8,
            number: number as u8,
        };
        let expected = Left { polling, told };
        let mut samples = samples(drawn);
        assert_eq!(samples.len(), count, "{drawn}");
        samples.resize(room, 0xA5);
        assert_eq!((drew, out), (expected, samples), "{:?}", self.now);
        self.now = drew.polling;
    }

    fn hears(&mut self, minute: u32, heard: &str, told: [usize; 5], after: [u32; 4]) {
        let expected = self.expected(after);
        self.hears_to(minute, &samples(heard), told, expected);
    }

    fn hears_to(&mut self, minute: u32, heard: &[u8], told: [usize; 5], polling: Polling) {
        let settled = self.core.heard_of(&self.now, &self.pace, minute, heard);
        let [taken, reply, answered, over, number] = told;
        let told = Settled {
            taken,
            reply: reply as u16,
            answered: answered as u8,
            over: over as u8,
            number: number as u8,
        };
        let expected = Left { polling, told };
        assert_eq!(settled, expected, "{:?}", self.now);
        self.now = settled.polling;
    }

    /// A call after which a reply stands, and the next one's turn comes.
    fn answers(
        &mut self,
        minute: u32,
        heard: &[u8],
        told: [usize; 5],
        (count, bytes): (u32, &[u8]),
    ) {
        let mut expected = self.expected([u32::from(self.now.at) + 1, 0, 0, 0]);
        let reply = &mut expected.round.replies[told[1]];
        (reply.minute, reply.count, reply.bytes) = (minute, count, bytes.len() as u32);
        reply.reply = [0; 8];
        reply.reply[..bytes.len()].copy_from_slice(bytes);
        self.hears_to(minute, heard, told, expected);
    }

    /// Such a call of a reply with 0 bits.
    fn gives_nothing(&mut self, minute: u32, heard: &str, told: [usize; 5]) {
        self.answers(minute, &samples(heard), told, (0, &[]));
    }

    /// Such a call of a reply with one bit.
    fn gives_one_bit(&mut self, minute: u32, heard: &str, told: [usize; 5], byte: u8) {
        self.answers(minute, &samples(heard), told, (1, &[byte]));
    }
}

/// Rounds begun, and boards of which none is.
pub fn begun_from_boards(core: &impl Pollings) {
    let free = Row {
        address: 9,
        settings: 3,
        ..Row::default()
    };
    for rows in [&[][..], &[free], &[free, free]] {
        assert_eq!(core.polling_begin(rows, 600), Begun::default());
    }
    let refused = Begun {
        number: Fault::Order.number(),
        ..Begun::default()
    };
    for rows in [[row(8, 1), row(7, 1)], [Row::default(), row(7, 1)]] {
        assert_eq!(core.polling_begin(&rows, 600), refused);
    }
    let mut expected = Begun::default();
    expected.polling.round.count = 2;
    expected.polling.round.replies[0] = begun(7, 1);
    expected.polling.round.replies[1] = begun(310, 200);
    let rows = [row(7, 1), row(310, 200), free];
    assert_eq!(core.polling_begin(&rows, 600), expected);
}

/// A round of nobody, and one of one transmitter from its beginning.
pub fn from_the_beginning(core: &impl Pollings) {
    let mut nobody = Story {
        core,
        pace: A,
        now: core.polling_begin(&[], 600).polling,
    };
    nobody.draws(5, [0, 1, 0], "", [0; 4]);
    nobody.hears(605, "1 0x4", [0, 0, 0, 1, 0], [0; 4]);

    let mut one = Story {
        core,
        pace: A,
        now: core.polling_begin(&[row(7, 1)], 600).polling,
    };
    one.draws(3, [3, 0, 0], "0x3", [0, 0, 0, 3]);
    one.draws(6, [6, 0, 0], "0 1x2 0x3", [0, 0, 0, 9]);
    one.hears(605, "1 0x9", [0; 5], [0, 0, 0, 9]);
    one.draws(0, [0; 3], "", [0, 0, 0, 9]);
    one.draws(100, [75, 0, 0], "12*(2x2 0x3) 3*(1x2 0x3)", [0, 0, 1, 0]);
    one.draws(100, [0; 3], "", [0, 0, 1, 0]);
    one.hears(605, "", [0; 5], [0, 0, 1, 0]);
    one.hears(605, "0x9", [9, 0, 0, 0, 0], [0, 0, 1, 9]);
    one.gives_nothing(606, "0x5", [1, 0, 1, 1, 0]);
    one.draws(100, [0, 1, 0], "", [1, 0, 0, 0]);
    one.hears(607, "0x5", [0, 0, 0, 1, 0], [1, 0, 0, 0]);

    let mut idle = Story::from(core, A, [0; 4]);
    idle.draws(84, [84, 0, 0], POLL_OF_7, [0, 0, 1, 0]);
    idle.gives_nothing(605, "0x60", [10, 0, 1, 1, 0]);
}

/// The first low sample in time and late, and an answer in batches.
pub fn in_time(core: &impl Pollings) {
    let polled = || Story::polled(core, A);
    polled().gives_one_bit(605, "0x9 1 0x4", [14, 0, 1, 1, 0], 0x80);
    polled().gives_nothing(605, "0x10 1 0x4", [10, 0, 1, 1, 0]);

    let mut cut = polled();
    let mut after = cut.expected([0, 0, 1, 10]);
    after.lines = SoFar {
        run: 1,
        line: 1,
        ..SoFar::default()
    };
    cut.hears_to(605, &samples("0x9 1"), [10, 0, 0, 0, 0], after);
    after.lines = SoFar {
        bits: 1 << 63,
        run: 3,
        count: 1,
        ..SoFar::default()
    };
    after.passed = 13;
    cut.hears_to(606, &samples("0x3"), [3, 0, 0, 0, 0], after);
    cut.gives_one_bit(607, "0x9", [1, 0, 1, 1, 0], 0x80);
}

/// Answers that are spoiled, or never end.
pub fn spoiled_or_stuck(core: &impl Pollings) {
    let polled = || Story::polled(core, A);
    polled().gives_nothing(605, "1x4 0x4", [8, 0, 1, 1, 21]);
    polled().gives_nothing(605, "0x5 200 0x4", [10, 0, 1, 1, 22]);

    let mut stuck = Story::from(core, Pace { tries: 2, ..A }, [0; 4]);
    stuck.draws(100, [84, 0, 0], POLL_OF_7, [0, 0, 1, 0]);
    stuck.hears(605, "1x60", [50, 0, 0, 0, 21], [0, 1, 0, 0]);
    stuck.draws(100, [84, 0, 0], POLL_OF_7, [0, 1, 1, 0]);
    stuck.gives_nothing(606, "1x60", [50, 0, 1, 1, 21]);
    assert_eq!(stuck.pace.bound(1), 2 * (84 + 50));

    polled().gives_nothing(605, "1x20 200 1x60", [50, 0, 1, 1, 22]);
    polled().gives_nothing(605, "1x49 200", [50, 0, 1, 1, 22]);
    polled().gives_nothing(605, "1x50 200", [50, 0, 1, 1, 21]);

    let short = || Story::polled(core, Pace { longest: 10, ..A });
    short().gives_nothing(605, "0x12", [10, 0, 1, 1, 0]);
    short().gives_one_bit(605, "0x5 1 0x5", [10, 0, 1, 1, 0], 0x80);
    short().gives_nothing(605, "0x9 1 0x4", [10, 0, 1, 1, 21]);
    short().gives_nothing(605, "0x9 200 0x4", [10, 0, 1, 1, 22]);
}

/// The bench reply, in time and one sample late.
pub fn the_bench_reply(core: &impl Pollings) {
    let reply = drawn(super::GOOD);
    let message: (u32, &[u8]) = (40, super::GOOD);
    for longest in [400, 376] {
        let mut story = Story::polled(core, Pace { longest, ..B });
        story.answers(600, &reply, [376, 0, 1, 1, 0], message);
    }
    let mut late = Story::polled(core, Pace { longest: 375, ..B });
    late.answers(600, &reply, [375, 0, 1, 1, 21], (0, &[]));
}

/// Asked again, and the next one's turn.
pub fn asked_again(core: &impl Pollings) {
    let three = Pace { tries: 3, ..A };
    let mut again = Story::polled(core, three);
    again.hears(605, "3 0x4", [5, 0, 0, 0, 21], [0, 1, 0, 0]);
    again.draws(84, [84, 0, 0], POLL_OF_7, [0, 1, 1, 0]);
    again.hears(606, "0x10", [10, 0, 0, 0, 0], [0, 2, 0, 0]);
    again.draws(84, [84, 0, 0], POLL_OF_7, [0, 2, 1, 0]);
    again.gives_one_bit(607, "2 0x4", [5, 0, 1, 1, 0], 0);

    Story::polled(core, three).gives_one_bit(605, "1 0x4", [5, 0, 1, 1, 0], 0x80);

    let mut two = Story::polled(core, A);
    two.now.round.count = 2;
    two.now.round.replies[1] = begun(310, 1);
    two.gives_one_bit(605, "1 0x4", [5, 0, 1, 0, 0], 0x80);
    two.draws(84, [84, 0, 0], POLL_OF_310, [1, 0, 1, 0]);
    two.gives_nothing(606, "0x10", [10, 1, 1, 1, 0]);
}

/// Bad timing is asked first; the state comes back as it was handed in, and nothing is over.
pub fn bad_paces(core: &impl Pollings) {
    let pattern = [3, 2, 255, 4];
    for pace in [
        Pace { low: 0, ..A },
        Pace { wait: 51, ..A },
        Pace { least: 4, ..A },
        Pace { tries: 10, ..A },
    ] {
        let now = Polling {
            lines: STRANGE,
            ..state(pattern)
        };
        let mut story = Story { core, pace, now };
        story.draws_to(5, [0, 0, 20], "", now);
        story.hears_to(605, &[0; 5], [0, 0, 0, 0, 20], now);
    }
}

/// What every pattern of the state means.
pub fn patterns(core: &impl Pollings) {
    let mut many = Story::from(core, A, [0; 4]);
    many.now.round.count = 31;
    many.draws(5, [0, 1, 0], "", [0; 4]);

    let mut beyond = Story::from(core, A, [65_535, 0, 9, 3]);
    beyond.hears(605, "1 0x4", [0, 0, 0, 1, 0], [65_535, 0, 9, 3]);

    let mut seven = Story::from(core, A, [0, 0, 7, 3]);
    seven.hears(605, "0x6", [6, 0, 0, 0, 0], [0, 0, 1, 9]);
    seven.gives_nothing(605, "0x6", [1, 0, 1, 1, 0]);

    let mut nearly = Story::from(core, A, [0, 0, 0, 83]).with_lines(STRANGE);
    nearly.draws(0, [0; 3], "", [0, 0, 0, 83]);
    nearly.draws(5, [1, 0, 0], "0", [0, 0, 1, 0]);

    let mut drawn = Story::from(core, A, [0, 0, 0, 84]).with_lines(STRANGE);
    drawn.draws(5, [0; 3], "", [0, 0, 1, 0]);
    drawn.hears(605, "0x2", [2, 0, 0, 0, 0], [0, 0, 1, 2]);

    let far = || Story::from(core, A, [0, 0, 1, u32::MAX]);
    far().gives_nothing(605, "0x3", [1, 0, 1, 1, 0]);
    far().gives_nothing(605, "1 0x4", [1, 0, 1, 1, 21]);

    let mut strange = Story::polled(core, A).with_lines(STRANGE);
    let mut after = strange.expected([0, 0, 1, 0]);
    after.lines.fault = 21;
    strange.hears_to(605, &[], [0; 5], after);
    strange.gives_nothing(605, "0x9", [4, 0, 1, 1, 21]);

    let mut old = Story::polled(core, Pace { tries: 2, ..A });
    old.now.round.replies[0] = Polled {
        minute: 600,
        count: 77,
        bytes: 99,
        address: 7,
        settings: 255,
        unused: 5,
        reply: [0xFF; 8],
    };
    old.hears(605, "0x10", [10, 0, 0, 0, 0], [0, 1, 0, 0]);
    old.draws(84, [84, 0, 0], POLL_OF_7, [0, 1, 1, 0]);
    old.gives_nothing(606, "0x10", [10, 0, 1, 1, 0]);
    let reply = old.now.round.replies[0];
    assert_eq!((reply.settings, reply.unused), (255, 5));
}

/// A whole round of 30, in batches of several sizes: what is drawn, what is told, and the round
/// saved and read.
pub fn thirty(core: &(impl Pollings + Core + Rounds)) {
    let rows: Vec<Row> = (1..=30).map(|address| row(address, 1)).collect();
    let pace = Pace {
        delay: 10,
        tries: 2,
        ..B
    };
    for batch in [1, 7, 64, 100, 1_000] {
        let polling = thirty_in_batches(core, &rows, pace, batch);
        let mut sheet = [BLANK; 30 * SLOT];
        let rounded = core.save_round(&mut sheet, &polling.round, usize::MAX);
        let expected = Rounded {
            closed: 30,
            stores: 430,
            number: 0,
        };
        assert_eq!(rounded, expected);
        for (k, reply) in polling.round.replies.iter().enumerate() {
            let entry = reply.entry();
            let read = core.read_reply(entry.settings, entry.address, entry.count, entry.reply);
            let expected = match k % 3 {
                2 => Err(Fault::Silent),
                _ => Ok(plain(3_000 + k as u16)),
            };
            assert_eq!((read, entry.minute), (expected, 605), "{k}");
        }
    }
}

/// Runs that round with so many samples to a batch.
fn thirty_in_batches(
    core: &(impl Pollings + Core),
    rows: &[Row],
    pace: Pace,
    batch: usize,
) -> Polling {
    let mut now = core.polling_begin(rows, 600).polling;
    let mut port = vec![0; batch];
    let (mut all, mut polls, mut told) = (0, 0, Vec::new());
    // The samples that come after the poll just drawn.
    let mut coming = Vec::new();
    for _ in 0..20_000 {
        let drew = core.drawn_of(&now, &pace, &mut port);
        assert_eq!(drew.number, 0);
        if drew.over == 1 {
            break;
        }
        now = drew.polling;
        all += drew.count;
        if drew.count > 0 {
            coming = answer(core, usize::from(now.at));
            polls += usize::from(now.listening == 1);
            continue;
        }
        let heard = &coming[..batch.min(coming.len())];
        let settled = core.heard_of(&now, &pace, 605, heard);
        now = settled.polling;
        all += settled.taken;
        coming.drain(..settled.taken);
        if now.listening == 0 {
            let Settled {
                reply,
                answered,
                over,
                number,
                ..
            } = settled.told;
            told.push((400 - coming.len(), reply, answered, over, number));
        }
    }
    let mut expected = Vec::new();
    for k in 0..30 {
        let over = u8::from(k == 29);
        match k % 3 {
            2 => expected.extend([(100, k, 0, 0, 0), (100, k, 1, over, 0)]),
            _ => expected.push((376, k, 1, over, 0)),
        }
    }
    assert_eq!((polls, all, told), (40, 15_040, expected));
    assert_eq!(pace.bound(30), 32_280);
    assert_eq!(
        Polling {
            round: now.round,
            ..state([30, 0, 0, 0])
        },
        now
    );
    now
}

/// What transmitter k sends: nothing, or its level; 400 samples of either.
fn answer(core: &impl Core, k: usize) -> Vec<u8> {
    let mut samples = Vec::new();
    if k % 3 != 2 {
        let mut reply = [0; 5];
        let reading = plain(3_000 + k as u16);
        assert_eq!(
            core.write_reply(1, k as u16 + 1, &reading, &mut reply),
            Ok(5)
        );
        samples = drawn(&reply);
    }
    samples.resize(400, 0);
    samples
}
