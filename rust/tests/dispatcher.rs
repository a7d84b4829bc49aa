//! The dispatcher: every list of 0 to 9 records with every busy pattern, one of them full.

use walbryts::{Reason, Record, dispatch};

/// What document 02 says of a call, the list turned so that the circle comes first.
fn expected(records: &mut [Record], last: u8) -> Result<Option<u8>, Reason> {
    if !(1..=8).contains(&records.len()) {
        return Err(Reason::ListLength);
    }
    let last = usize::from(last);
    if last >= records.len() {
        return Err(Reason::LastServed);
    }
    let mut circle: Vec<usize> = (0..records.len()).collect();
    circle.rotate_left(last + 1);
    let Some(&picked) = circle.iter().find(|&&number| records[number].busy) else {
        return Ok(None);
    };
    if records[picked].turns == u32::MAX {
        return Err(Reason::Full);
    }
    records[picked].turns += 1;
    Ok(Some(u8::try_from(picked).unwrap()))
}

#[test]
fn every_list_and_pattern() {
    let mut calls = 0;
    for count in 0..=9u32 {
        for pattern in 0..1u32 << count {
            for full in 0..=count {
                let record = |number: u32| Record {
                    busy: pattern >> number & 1 == 1,
                    turns: if number == full { u32::MAX } else { 10 + number },
                };
                let list: Vec<Record> = (0..count).map(record).collect();
                for last in (0..=9).chain([255]) {
                    let (mut ours, mut theirs) = (list.clone(), list.clone());
                    let answer = dispatch(&mut ours, last).map_err(|refusal| refusal.reason());
                    assert_eq!(answer, expected(&mut theirs, last));
                    assert_eq!(ours, theirs);
                    calls += 1;
                }
            }
        }
    }
    assert_eq!(calls, 101_387);
}
