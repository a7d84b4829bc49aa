use crate::raw;
use crate::refusal::Refusal;

/// What the library picks where no module is busy.
const NOBODY: u8 = 255;

/// The turn record of one of the modules that are run side by side.
#[derive(Clone, Copy, Debug, Default, PartialEq, Eq, Hash)]
pub struct Record {
    /// Whether the module is busy.
    pub busy: bool,
    /// How many turns it was given.
    pub turns: u32,
}

/// The dispatcher: picks the next busy module in the circle after `last`, the number served by the
/// call before, that one itself last, and adds one to its turns. None where no module is busy; the
/// next call is handed the same `last` then.
///
/// ```
/// use walbryts::{Record, dispatch};
/// let mut records = [Record { busy: true, turns: 0 }; 3];
/// records[2].busy = false;
/// assert_eq!(dispatch(&mut records, 0)?, Some(1));
/// assert_eq!(dispatch(&mut records, 1)?, Some(0));
/// assert_eq!(records.map(|record| record.turns), [1, 1, 0]);
/// # Ok::<(), walbryts::Refusal>(())
/// ```
///
/// # Errors
///
/// 48 where there is no record or there are more than eight, 49 where `last` is outside the list,
/// 36 where the picked module's turns are full. The records are as they were then.
pub fn dispatch(records: &mut [Record], last: u8) -> Result<Option<u8>, Refusal> {
    let busy: Vec<bool> = records.iter().map(|record| record.busy).collect();
    let mut turns: Vec<u32> = records.iter().map(|record| record.turns).collect();
    let mut picked = NOBODY;
    // Safety: each pointer and length are those of one slice, and `picked` is one byte.
    let number = unsafe {
        raw::walbryts_dispatch(
            busy.as_ptr(),
            busy.len(),
            turns.as_mut_ptr(),
            turns.len(),
            last,
            &raw mut picked,
        )
    };
    Refusal::judge(number)?;
    for (record, turns) in records.iter_mut().zip(turns) {
        record.turns = turns;
    }
    Ok((picked != NOBODY).then_some(picked))
}
