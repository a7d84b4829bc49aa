//! The library's functions as include/walbryts.h declares them. Slices pass as a pointer and a
//! length, arrays as a pointer. Nothing of this is public.

unsafe extern "C" {
    pub fn walbryts_read_text(
        text: *const u8,
        text_len: usize,
        lent: *mut u8,
        lent_len: usize,
        place: *mut usize,
        length: *mut usize,
    ) -> u8;

    pub fn walbryts_names(
        text: *const u8,
        text_len: usize,
        places: *mut u16,
        lengths: *mut u16,
    ) -> u8;

    pub fn walbryts_read(sheet: *const u8, sheet_len: usize, place: *mut usize) -> u8;

    pub fn walbryts_list(
        sheet: *const u8,
        sheet_len: usize,
        text: *mut u8,
        length: *mut usize,
    ) -> u8;

    pub fn walbryts_is_state(bytes: *const u8, bytes_len: usize) -> bool;

    pub fn walbryts_bring_over(
        sheet: *const u8,
        sheet_len: usize,
        old: *const u8,
        old_len: usize,
        allowances: *const u32,
        state: *mut u8,
    ) -> u8;

    pub fn walbryts_start(
        sheet: *const u8,
        sheet_len: usize,
        allowances: *const u32,
        state: *mut u8,
    ) -> u8;

    pub fn walbryts_choose(
        sheet: *const u8,
        sheet_len: usize,
        state: *mut u8,
        user: u8,
        choice: u8,
    ) -> u8;

    pub fn walbryts_run(
        sheet: *const u8,
        sheet_len: usize,
        state: *mut u8,
        user: u8,
        choices: *const u8,
        choices_len: usize,
        accepted: *mut usize,
    ) -> u8;

    pub fn walbryts_run_plain(
        sheet: *const u8,
        sheet_len: usize,
        state: *mut u8,
        user: u8,
        limit: u16,
        accepted: *mut u16,
        word: *mut u8,
    ) -> u8;

    pub fn walbryts_instant(
        sheet: *const u8,
        sheet_len: usize,
        state: *mut u8,
        count: u8,
        value: *const u32,
        unknown: *const u32,
    ) -> u8;

    pub fn walbryts_run_cycles(
        sheet: *const u8,
        sheet_len: usize,
        state: *mut u8,
        user: u8,
        value: *const u32,
        value_len: usize,
        unknown: *const u32,
        unknown_len: usize,
        phases: *mut usize,
        running: *mut bool,
    ) -> u8;

    pub fn walbryts_extract(
        sheet: *const u8,
        sheet_len: usize,
        nodes: *mut u16,
        nodes_len: usize,
        rows: *mut u16,
        rows_len: usize,
    ) -> u8;

    pub fn walbryts_cycle(
        sheet: *const u8,
        sheet_len: usize,
        nodes: *const u16,
        nodes_len: usize,
        rows: *const u16,
        rows_len: usize,
        value: *mut u32,
        unknown: *mut u32,
        places: *mut u8,
        count: u8,
        inputs: *const u32,
        inputs_unknown: *const u32,
        wire: *mut u32,
        unsure: *mut u32,
    ) -> u8;

    pub fn walbryts_cycles(
        sheet: *const u8,
        sheet_len: usize,
        nodes: *const u16,
        nodes_len: usize,
        rows: *const u16,
        rows_len: usize,
        value: *mut u32,
        unknown: *mut u32,
        places: *mut u8,
        inputs: *const u32,
        inputs_len: usize,
        inputs_unknown: *const u32,
        inputs_unknown_len: usize,
        cycles: *mut usize,
        wire: *mut u32,
        unsure: *mut u32,
    ) -> u8;

    pub fn walbryts_prepare(
        sheet: *const u8,
        sheet_len: usize,
        plan: *mut u32,
        place: *mut usize,
    ) -> u8;

    pub fn walbryts_plan_start(plan: *const u32, allowances: *const u32, state: *mut u8);

    pub fn walbryts_plan_choose(plan: *const u32, state: *mut u8, user: u8, choice: u8) -> u8;

    pub fn walbryts_plan_run(
        plan: *const u32,
        state: *mut u8,
        user: u8,
        choices: *const u8,
        choices_len: usize,
        accepted: *mut usize,
    ) -> u8;

    pub fn walbryts_plan_run_plain(
        plan: *const u32,
        state: *mut u8,
        user: u8,
        limit: u16,
        accepted: *mut u16,
        word: *mut u8,
    ) -> u8;

    pub fn walbryts_plan_instant(
        plan: *const u32,
        state: *mut u8,
        count: u8,
        value: *const u32,
        unknown: *const u32,
    ) -> u8;

    pub fn walbryts_plan_run_cycles(
        plan: *const u32,
        state: *mut u8,
        user: u8,
        value: *const u32,
        value_len: usize,
        unknown: *const u32,
        unknown_len: usize,
        phases: *mut usize,
        running: *mut bool,
    ) -> u8;

    pub fn walbryts_plan_trace(
        plan: *const u32,
        state: *mut u8,
        user: u8,
        value: *const u32,
        value_len: usize,
        unknown: *const u32,
        unknown_len: usize,
        trace: *mut u64,
        trace_len: usize,
        phases: *mut usize,
        running: *mut bool,
    ) -> u8;

    pub fn walbryts_clock_prepare(
        sheet: *const u8,
        sheet_len: usize,
        nodes: *const u16,
        nodes_len: usize,
        rows: *const u16,
        rows_len: usize,
        plan: *mut u32,
        lent: *mut u32,
        table: *mut u32,
        numbers: *mut u8,
    ) -> u8;

    pub fn walbryts_clock_cycle(
        plan: *const u32,
        lent: *const u32,
        table: *const u32,
        numbers: *const u8,
        value: *mut u32,
        unknown: *mut u32,
        places: *mut u8,
        count: u8,
        inputs: *const u32,
        inputs_unknown: *const u32,
        wire: *mut u32,
        unsure: *mut u32,
    ) -> u8;

    pub fn walbryts_clock_cycles(
        plan: *const u32,
        lent: *const u32,
        table: *const u32,
        numbers: *const u8,
        value: *mut u32,
        unknown: *mut u32,
        places: *mut u8,
        inputs: *const u32,
        inputs_len: usize,
        inputs_unknown: *const u32,
        inputs_unknown_len: usize,
        cycles: *mut usize,
        wire: *mut u32,
        unsure: *mut u32,
    ) -> u8;

    pub fn walbryts_clock_trace(
        plan: *const u32,
        lent: *const u32,
        table: *const u32,
        numbers: *const u8,
        value: *mut u32,
        unknown: *mut u32,
        places: *mut u8,
        inputs: *const u32,
        inputs_len: usize,
        inputs_unknown: *const u32,
        inputs_unknown_len: usize,
        trace: *mut u64,
        trace_len: usize,
        cycles: *mut usize,
    ) -> u8;

    pub fn walbryts_hex(
        text: *const u8,
        text_len: usize,
        bytes: *mut u8,
        length: *mut usize,
        line: *mut usize,
        column: *mut usize,
    ) -> u8;

    pub fn walbryts_reason(number: u8, text: *mut u8, length: *mut usize);

    pub fn walbryts_allowed(number: u8, text: *mut u8, length: *mut usize);

    pub fn walbryts_witness(
        sheet: *const u8,
        sheet_len: usize,
        thread: *mut usize,
        other: *mut usize,
        register: *mut usize,
        wired: *mut bool,
        wire: *mut usize,
        above: *mut usize,
        place: *mut usize,
    ) -> u8;

    pub fn walbryts_finding(
        sheet: *const u8,
        sheet_len: usize,
        text: *mut u8,
        length: *mut usize,
    ) -> u8;

    pub fn walbryts_dispatch(
        busy: *const bool,
        busy_len: usize,
        turns: *mut u32,
        turns_len: usize,
        last: u8,
        picked: *mut u8,
    ) -> u8;
}

/// Refused calls on lent bytes that the safe interface never lends: rows that aren't whole, bytes
/// that are no saved state. Every lent byte is as it was.
#[cfg(test)]
mod tests {
    use super::*;

    const FLIP_FLOP: [u8; 16] = [2, 1, 0, 1, 1, 8, 8, 0x0C, 0x10, 1, 1, 0, 0x23, 2, 2, 1];
    const SHORT: [u8; 9] = [2, 1, 0, 1, 1, 8, 8, 0x0C, 0x10];
    const STATE: usize = 1025;
    const MOST: [u32; 4] = [u32::MAX; 4];

    fn started() -> [u8; STATE] {
        let mut state = [0; STATE];
        // Safety: pointer and length are those of one slice, the state and the allowances have
        // their length.
        let number = unsafe {
            walbryts_start(FLIP_FLOP.as_ptr(), 16, MOST.as_ptr(), state.as_mut_ptr())
        };
        assert_eq!(number, 0);
        state
    }

    /// Choice, run, plain run and rows on these bytes give this number and leave them.
    fn refused(sheet: &[u8], bytes: [u8; STATE], expected: u8) {
        let (at, len) = (sheet.as_ptr(), sheet.len());
        let mut state = bytes;
        let lent = state.as_mut_ptr();
        let (mut accepted, mut few, mut word, mut phases, mut running) = (7, 7, 7, 7, true);
        let (value, unknown) = ([0; 16], [0; 16]);
        let (numbers, marks) = (value.as_ptr(), unknown.as_ptr());
        // Safety: pointers and lengths are those of one slice each, the rest are locals'.
        let numbers = unsafe {
            [
                walbryts_choose(at, len, lent, 0, 0),
                walbryts_run(at, len, lent, 0, [0].as_ptr(), 1, &mut accepted),
                walbryts_run_plain(at, len, lent, 0, 9, &mut few, &mut word),
                walbryts_instant(at, len, lent, 2, numbers, marks),
                walbryts_run_cycles(
                    at,
                    len,
                    lent,
                    0,
                    numbers,
                    16,
                    marks,
                    16,
                    &mut phases,
                    &mut running,
                ),
            ]
        };
        assert_eq!(numbers, [expected; 5]);
        assert_eq!((accepted, few, word, phases, running), (0, 0, 3, 0, false));
        assert_eq!(state, bytes);
    }

    #[test]
    fn no_saved_state_is_31_after_the_sheet() {
        for (at, byte) in [(0, 0), (0, 1), (0, 2), (0, 3), (0, 255), (641, 2), (937, 7)] {
            let mut bytes = started();
            bytes[at] = byte;
            // Safety: as above.
            assert!(!unsafe { walbryts_is_state(bytes.as_ptr(), STATE) });
            refused(&FLIP_FLOP, bytes, 31);
            refused(&SHORT, bytes, 2);
        }
        refused(&SHORT, started(), 2);
    }

    /// 641 bytes of form 1 are brought over; a sheet that isn't read, one byte less, another form or
    /// a count above the allowance leaves what is lent.
    #[test]
    fn a_refused_bringing_leaves_the_bytes() {
        let state = started();
        let mut old = [0; 641];
        old[0] = 1;
        old[1..401].chunks_mut(5).for_each(|value| value[0] = 1);
        old[633..].copy_from_slice(&[2, 1, 0, 0, 3, 0, 0, 0]);
        let bring = |sheet: &[u8], old: &[u8], allowances: [u32; 4]| {
            let mut lent = [0xA5; STATE];
            let (at, len, allowed) = (old.as_ptr(), old.len(), allowances.as_ptr());
            // Safety: as above, and the lent bytes have the length of a saved state.
            let number = unsafe {
                let (sheet, sheet_len) = (sheet.as_ptr(), sheet.len());
                walbryts_bring_over(sheet, sheet_len, at, len, allowed, lent.as_mut_ptr())
            };
            (number, lent)
        };
        let mut expected = state;
        expected[969] = 2;
        expected[970] = 1;
        expected[977] = 3;
        // Safety: as above.
        assert!(!unsafe { walbryts_is_state(old.as_ptr(), old.len()) });
        assert_eq!(bring(&FLIP_FLOP, &old, MOST), (0, expected));
        assert_eq!(bring(&FLIP_FLOP, &expected, [0; 4]), (0, expected));
        assert_eq!(bring(&FLIP_FLOP, &old, [2, 9, 9, 9]), (31, [0xA5; STATE]));
        assert_eq!(bring(&FLIP_FLOP, &old[..640], MOST), (31, [0xA5; STATE]));
        assert_eq!(bring(&SHORT, &old[..640], MOST), (2, [0xA5; STATE]));
        old[0] = 2;
        assert_eq!(bring(&FLIP_FLOP, &old, MOST), (31, [0xA5; STATE]));
    }

    #[test]
    fn a_refused_start_leaves_the_bytes() {
        let mut state = [0xA5; STATE];
        // Safety: as above.
        let number = unsafe {
            walbryts_start(SHORT.as_ptr(), SHORT.len(), MOST.as_ptr(), state.as_mut_ptr())
        };
        assert_eq!((number, state), (2, [0xA5; STATE]));
    }

    #[test]
    fn a_refused_listing_leaves_the_text() {
        let (mut text, mut length) = (vec![0xA5; 65_536], 7);
        // Safety: as above, and the text has the length that a listing is written into.
        let number = unsafe {
            walbryts_list(SHORT.as_ptr(), SHORT.len(), text.as_mut_ptr(), &mut length)
        };
        assert_eq!((number, length), (2, 0));
        assert!(text.iter().all(|&byte| byte == 0xA5));
    }

    #[test]
    fn rows_are_whole_or_25() {
        let bytes = started();
        let (value, unknown) = ([0; 48], [0; 48]);
        for (values, marks) in [(1, 1), (15, 15), (17, 17), (32, 16), (16, 32), (0, 1)] {
            let mut state = bytes;
            let (mut phases, mut running) = (7, true);
            // Safety: as above.
            let number = unsafe {
                walbryts_run_cycles(
                    FLIP_FLOP.as_ptr(),
                    16,
                    state.as_mut_ptr(),
                    0,
                    value.as_ptr(),
                    values,
                    unknown.as_ptr(),
                    marks,
                    &mut phases,
                    &mut running,
                )
            };
            assert_eq!((number, phases, running, state), (25, 0, false, bytes));
        }
    }
}
