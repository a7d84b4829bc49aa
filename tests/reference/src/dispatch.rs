//! The dispatcher of document 02's request [8].

#[derive(Clone, Copy, Debug, PartialEq, Eq)]
pub struct Record {
    pub busy: bool,
    pub turns: u32,
}

#[derive(Clone, Copy, Debug, PartialEq, Eq)]
pub enum Answer {
    Picked(usize),
    Nobody,
    Refused(u8),
}

/// One call, handed the number served by the one before. 48 comes before 49, and 36 last; a
/// refused call and one that picks nobody leave every record as it was.
pub fn dispatch(records: &mut [Record], last: u8) -> Answer {
    let count = records.len();
    let last = usize::from(last);
    if !(1..=8).contains(&count) {
        return Answer::Refused(48);
    }
    if last >= count {
        return Answer::Refused(49);
    }
    let mut circle = (1..=count).map(|step| (last + step) % count);
    let Some(picked) = circle.find(|&number| records[number].busy) else {
        return Answer::Nobody;
    };
    let Some(turns) = records[picked].turns.checked_add(1) else {
        return Answer::Refused(36);
    };
    records[picked].turns = turns;
    Answer::Picked(picked)
}

/// Every list of 0 to 9 records with every busy pattern. The turns differ from record to record;
/// in the second half of the lists one record, each in turn, is full.
pub fn lists() -> Vec<Vec<Record>> {
    let mut lists = Vec::new();
    for count in 0..=9u32 {
        for pattern in 0..1u32 << count {
            for full in 0..=count {
                let record = |number: u32| Record {
                    busy: pattern >> number & 1 == 1,
                    turns: if number == full { u32::MAX } else { 10 + number },
                };
                lists.push((0..count).map(record).collect());
            }
        }
    }
    lists
}
