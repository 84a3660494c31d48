//! Boards compared, call after call.

use super::{in_parts, same, Difference, Verdict};
use crate::calls::Core;
use crate::generate::{self, BoardCall};
use crate::random::Random;
use crate::types::{Answer, Row, Standing};

/// Calls of one sequence.
const CALLS: usize = 100;

/// What a call answers; a look-up answers more than that it was done, and a poll leaves bytes.
fn call<C: Core>(
    core: &C,
    rows: &mut [C::Row],
    call: &BoardCall,
) -> (Answer<Option<Standing>>, [u8; 4]) {
    // No byte of a poll is this.
    let mut out = [0x55; 4];
    let answer = match call {
        BoardCall::Enrol {
            settings,
            address,
            gauge,
        } => core.enrol(rows, *settings, *address, *gauge).map(|()| None),
        BoardCall::Hear { minute, reply } => core
            .hear(rows, *minute, reply.address, reply.count, reply.reply())
            .map(|()| None),
        BoardCall::Remove { address } => core.remove(rows, *address).map(|()| None),
        BoardCall::LookUp { address } => core.look_up(rows, *address).map(Some),
        BoardCall::Poll {
            address,
            raise,
            reset,
            room,
        } => core
            .poll_row(rows, *address, *raise, *reset, &mut out[..*room])
            .map(|()| None),
    };
    (answer, out)
}

/// One board on both sides.
struct Boards<'a, L: Core, R: Core> {
    left: &'a L,
    right: &'a R,
    rows: Vec<L::Row>,
    other: Vec<R::Row>,
}

impl<L: Core, R: Core> Boards<'_, L, R> {
    /// Holds every row of the two together, those past the thirtieth too, and answers them.
    fn same_rows(&self, asked: impl Fn() -> String) -> Result<Vec<Row>, Difference> {
        let mut says = Vec::with_capacity(self.rows.len());
        for (place, (row, other)) in self.rows.iter().zip(&self.other).enumerate() {
            let row = self.left.says(row);
            same(row, self.right.says(other), || {
                format!("row {place} after {}", asked())
            })?;
            says.push(row);
        }
        Ok(says)
    }
}

/// Sequences of calls over boards of any size that start blank or hostile.
pub fn sequences<L: Core, R: Core>(left: &L, right: &R, seed: u64, count: usize) -> Verdict {
    in_parts(count, |part| {
        let mut random = Random::new(seed, part as u64);
        let mut says = generate::rows(&mut random);
        let mut boards = Boards {
            left,
            right,
            rows: says.iter().map(|row| left.row(row)).collect(),
            other: says.iter().map(|row| right.row(row)).collect(),
        };
        let start = boards.same_rows(|| "lending them".to_string())?;
        same(&start, &says, || "rows as lent, then as said".to_string())?;
        for _ in 0..CALLS {
            let ask = generate::board_call(&mut random, &says);
            let before = says;
            let answer = call(left, &mut boards.rows, &ask);
            let other = call(right, &mut boards.other, &ask);
            let asked = || format!("{ask:?}\n    on {before:?}");
            same(answer, other, asked)?;
            says = boards.same_rows(asked)?;
        }
        Ok(CALLS as u64)
    })
}
