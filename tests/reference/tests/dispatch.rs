//! The dispatcher: every list of 0 to 9 records with every busy pattern, series of calls, and
//! calls whose answers come from another implementation.

use reference::dispatch::{Answer, Record, dispatch, lists};

/// What document 02 says of a call on `before`, which left `after`.
fn as_the_paper_says(before: &[Record], last: usize, answer: Answer, after: &[Record]) {
    let count = before.len();
    let mut left = before.to_vec();
    if count == 0 || count > 8 {
        assert_eq!(answer, Answer::Refused(48));
    } else if last >= count {
        assert_eq!(answer, Answer::Refused(49));
    } else if before.iter().all(|record| !record.busy) {
        assert_eq!(answer, Answer::Nobody);
    } else {
        // turned so that the circle after the last served comes first, that one itself last
        let mut circle: Vec<usize> = (0..count).collect();
        circle.rotate_left(last + 1);
        let place = circle.iter().position(|&number| before[number].busy).unwrap();
        let picked = circle[place];
        if before[picked].turns == 4_294_967_295 {
            assert_eq!(answer, Answer::Refused(36));
        } else {
            assert_eq!(answer, Answer::Picked(picked));
            left[picked].turns += 1;
        }
    }
    assert_eq!(after, left);
}

#[test]
fn every_list_and_pattern() {
    let mut refused = [0; 256];
    for before in lists() {
        for last in (0..=9).chain([255]) {
            let mut after = before.clone();
            let answer = dispatch(&mut after, last);
            as_the_paper_says(&before, usize::from(last), answer, &after);
            if let Answer::Refused(number) = answer {
                refused[usize::from(number)] += 1;
            }
        }
    }
    assert!(refused[36] > 1000 && refused[48] > 1000 && refused[49] > 1000);
}

/// How many calls it takes until `module` is picked, the busy flags of the others going by the
/// bits of `flags`; at most as many as there are records.
fn calls_until(count: usize, last: usize, module: usize, flags: u64) -> Option<usize> {
    let mut records = vec![Record { busy: false, turns: 0 }; count];
    let mut served = last;
    for call in 0..count {
        for (number, record) in records.iter_mut().enumerate() {
            record.busy = number == module || flags >> (call * count + number) & 1 == 1;
        }
        match dispatch(&mut records, served as u8) {
            Answer::Picked(picked) if picked == module => return Some(call + 1),
            Answer::Picked(picked) => served = picked,
            other => panic!("{other:?} while a module is busy"),
        }
    }
    None
}

#[test]
fn one_that_stays_busy_is_picked_in_time() {
    for count in 1..=4 {
        for flags in 0..1u64 << (count * count) {
            for last in 0..count {
                for module in 0..count {
                    assert!(calls_until(count, last, module, flags).is_some());
                }
            }
        }
    }
    let mut flags = 1u64;
    for _ in 0..20_000 {
        flags ^= flags << 13;
        flags ^= flags >> 7;
        flags ^= flags << 17;
        for count in 5..=8 {
            let (last, module) =
                ((flags >> 40) as usize % count, (flags >> 50) as usize % count);
            assert!(calls_until(count, last, module, flags).is_some());
        }
    }
}

#[test]
fn the_bound_is_met() {
    for count in 1..=8 {
        for module in 0..count {
            assert_eq!(calls_until(count, module, module, u64::MAX), Some(count));
        }
    }
}

fn records(text: &str) -> Vec<Record> {
    let byte = |at: usize| u8::from_str_radix(&text[2 * at..2 * at + 2], 16).unwrap();
    let record = |at: usize| Record {
        busy: byte(5 * at) == 1,
        turns: u32::from_le_bytes([1, 2, 3, 4].map(|place| byte(5 * at + place))),
    };
    if text == "-" { Vec::new() } else { (0..text.len() / 10).map(record).collect() }
}

/// A line has the records, the last served, the number, the one picked and the records after.
#[test]
fn stored_calls() {
    let mut calls = 0;
    for line in include_str!("../../data/dispatch.calls").lines() {
        let fields: Vec<&str> = line.split(' ').collect();
        let mut after = records(fields[0]);
        let answer = dispatch(&mut after, fields[1].parse().unwrap());
        let expected = match (fields[2], fields[3]) {
            ("0", "none") => Answer::Nobody,
            ("0", picked) => Answer::Picked(picked.parse().unwrap()),
            (number, _) => Answer::Refused(number.parse().unwrap()),
        };
        assert_eq!((answer, after), (expected, records(fields[4])), "{line}");
        calls += 1;
    }
    assert!(calls > 400);
}
