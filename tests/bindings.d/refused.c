/*
 * A refused call alters nothing: each call of include/walbryts.h is refused, with several numbers, on lent bytes and words that
 * are held to what they were; what it tells beside its number is held to what the header says.
 */
#include <stdio.h>
#include <string.h>

#include "walbryts.h"

enum { LONG = 8193, ROWS = 3 * WALBRYTS_INPUTS, GUARD = 64, TRACE = 6 * WALBRYTS_TRACE_ROW };

/* ---- sheets */

typedef struct {
    const uint8_t *bytes;
    size_t len;
    uint8_t number;
} Sheet;

static const uint8_t too_long[LONG];
static const uint8_t no_input[] = {0, 1, 0, 1};
static const uint8_t wide_clock[] = {1, 1, 0, 1, 2, 8};
static const uint8_t bad_map[] = {2, 1, 0, 1, 1, 8, 8, 0x0D};
static const uint8_t flip_flop[] = {2, 1, 0, 1, 1, 8, 8, 0x0C, 0x10, 1, 1, 0, 0x23, 2, 2, 1, 0};
/* the clock read in an expression, and a thread that doesn't start with a wait */
static const uint8_t clock_read[] = {2, 1, 0, 1, 1, 8, 8, 0x0C, 0x10, 1, 1, 0, 6, 2, 0, 0x23, 2, 2, 1};
static const uint8_t late_wait[] = {2, 1, 0, 1, 1, 8, 8, 0x0C, 0x23, 2, 2, 1, 0x10, 1, 1, 0};

static const Sheet unread[] = {
    {too_long, LONG, 1},     {flip_flop, 13, 2},  {no_input, sizeof no_input, 3}, {wide_clock, sizeof wide_clock, 4},
    {bad_map, sizeof bad_map, 5}, {flip_flop, 17, 10},
};
static const Sheet good = {flip_flop, 16, 0};
static const uint32_t allowances[WALBRYTS_USERS] = {9, 9, 9, 9};
static const Sheet unextracted[] = {{clock_read, sizeof clock_read, 18}, {late_wait, sizeof late_wait, 16}};

#define COUNT(a) (sizeof(a) / sizeof *(a))

/* ---- what is lent, and a copy of it */

typedef struct {
    uint8_t text[WALBRYTS_TEXT];
    uint8_t state[WALBRYTS_STATE];
    uint8_t guard[GUARD];
    uint16_t nodes[WALBRYTS_NODE_WORDS + 1];
    uint16_t rows[WALBRYTS_ROW_WORDS + 1];
    uint32_t value[WALBRYTS_REGISTERS];
    uint32_t unknown[WALBRYTS_REGISTERS];
    uint8_t places[WALBRYTS_THREADS];
    uint32_t wire[WALBRYTS_WIRES];
    uint32_t unsure[WALBRYTS_WIRES];
    uint32_t inputs[ROWS];
    uint32_t inputs_unknown[ROWS];
    uint8_t sheet[WALBRYTS_SHEET + 1];
    uint16_t names[WALBRYTS_VARIABLES];
    uint16_t lengths[WALBRYTS_VARIABLES];
    uint32_t plan[WALBRYTS_PLAN_WORDS];
    uint32_t clock_plan[WALBRYTS_PLAN_WORDS];
    uint32_t clock_nodes[WALBRYTS_PLAN_WORDS];
    uint32_t clock_rows[WALBRYTS_CLOCK_WORDS];
    uint8_t clock_numbers[WALBRYTS_CLOCK_BYTES];
    uint64_t trace[TRACE];
    uint8_t hex[WALBRYTS_HEX];
} Lent;

static Lent lent, kept;
static unsigned refused, failed;

static void keep(void) {
    memcpy(&kept, &lent, sizeof lent);
}

/* The call gave the number that it should, told nothing but what it should, and altered nothing. */
static void hold(const char *call, uint8_t number, uint8_t expected, bool told) {
    refused++;
    if (number != expected || !told || memcmp(&kept, &lent, sizeof lent) != 0) {
        failed++;
        printf("FAILED %s: %u where %u is due, told %s, lent bytes %s\n", call, number, expected, told ? "right" : "wrong",
               memcmp(&kept, &lent, sizeof lent) == 0 ? "as they were" : "altered");
        memcpy(&lent, &kept, sizeof lent);
    }
}

/* A fresh state, tables and plans of the flip-flop, registers at their start, and marks in everything that a call only writes to. */
static void lend(void) {
    memset(&lent, 0, sizeof lent);
    memset(lent.text, 0xA5, sizeof lent.text);
    memset(lent.guard, 0x5A, sizeof lent.guard);
    memset(lent.sheet, 0xA5, sizeof lent.sheet);
    memset(lent.names, 0xA5, sizeof lent.names);
    memset(lent.lengths, 0xA5, sizeof lent.lengths);
    for (size_t i = 0; i < WALBRYTS_WIRES; i++) {
        lent.wire[i] = 0xA5A5A5A5u ^ (uint32_t)i;
        lent.unsure[i] = 0x5A5A5A5Au ^ (uint32_t)i;
        lent.value[i] = (uint32_t)i;
        lent.unknown[i] = 64 - (uint32_t)i;
    }
    memset(lent.trace, 0xA5, sizeof lent.trace);
    memset(lent.hex, 0xA5, sizeof lent.hex);
    size_t place = 77;
    if (walbryts_start(good.bytes, good.len, allowances, lent.state) != 0 ||
        walbryts_extract(good.bytes, good.len, lent.nodes, WALBRYTS_NODE_WORDS, lent.rows, WALBRYTS_ROW_WORDS) != 0 ||
        walbryts_prepare(good.bytes, good.len, lent.plan, &place) != 0 || place != 0 ||
        walbryts_clock_prepare(good.bytes, good.len, lent.nodes, WALBRYTS_NODE_WORDS, lent.rows, WALBRYTS_ROW_WORDS,
                               lent.clock_plan, lent.clock_nodes, lent.clock_rows, lent.clock_numbers) != 0) {
        failed++;
        printf("FAILED the flip-flop isn't read, extracted and prepared\n");
    }
    keep();
}

/* ---- the calls, each held; on the flip-flop those on what was prepared too */

static bool prepared(Sheet s) {
    return s.number == 0;
}

static void list(Sheet s, uint8_t expected) {
    size_t length = 77;
    uint8_t number = walbryts_list(s.bytes, s.len, lent.text, &length);
    hold("list", number, expected, length == 0);
}

static void start(Sheet s, uint8_t expected) {
    size_t place = 77, read = 78;
    hold("start", walbryts_start(s.bytes, s.len, allowances, lent.state), expected, true);
    uint8_t number = walbryts_prepare(s.bytes, s.len, lent.plan, &place);
    hold("prepare", number, expected, walbryts_read(s.bytes, s.len, &read) == number && place == read);
}

/* The user of the calls that follow. */
static uint8_t user;

static void run(Sheet s, const uint8_t *choices, size_t count, uint8_t expected) {
    size_t accepted = 77;
    uint8_t number = walbryts_run(s.bytes, s.len, lent.state, user, choices, count, &accepted);
    hold("run", number, expected, accepted == 0);
    if (prepared(s)) {
        accepted = 77;
        number = walbryts_plan_run(lent.plan, lent.state, user, choices, count, &accepted);
        hold("plan_run", number, expected, accepted == 0);
    }
}

/* A choice, and a run that it opens. */
static void choose(Sheet s, uint8_t choice, uint8_t expected) {
    const uint8_t choices[] = {choice, 0};
    hold("choose", walbryts_choose(s.bytes, s.len, lent.state, user, choice), expected, true);
    if (prepared(s)) {
        hold("plan_choose", walbryts_plan_choose(lent.plan, lent.state, user, choice), expected, true);
    }
    run(s, choices, sizeof choices, expected);
}

static void run_plain(Sheet s, uint8_t expected, uint8_t expected_word) {
    uint16_t accepted = 77;
    uint8_t word = 77;
    uint8_t number = walbryts_run_plain(s.bytes, s.len, lent.state, user, 9, &accepted, &word);
    hold("run_plain", number, expected, accepted == 0 && word == expected_word);
    if (prepared(s)) {
        accepted = word = 77;
        number = walbryts_plan_run_plain(lent.plan, lent.state, user, 9, &accepted, &word);
        hold("plan_run_plain", number, expected, accepted == 0 && word == expected_word);
    }
}

static void instant(Sheet s, uint8_t count, uint8_t expected) {
    uint8_t number = walbryts_instant(s.bytes, s.len, lent.state, count, lent.inputs, lent.inputs_unknown);
    hold("instant", number, expected, true);
    if (prepared(s)) {
        number = walbryts_plan_instant(lent.plan, lent.state, count, lent.inputs, lent.inputs_unknown);
        hold("plan_instant", number, expected, true);
    }
}

static void trace(size_t values, size_t marks, size_t words, uint8_t expected) {
    size_t phases = 77;
    bool running = true;
    uint8_t number = walbryts_plan_trace(lent.plan, lent.state, user, lent.inputs, values, lent.inputs_unknown, marks,
                                         lent.trace, words, &phases, &running);
    hold("plan_trace", number, expected, phases == 0 && !running);
}

/* Many cycles on the plan, and traces of them; 23 comes first where a row of the trace has no room. */
static void plan_run_cycles(size_t values, size_t marks, uint8_t expected) {
    size_t phases = 77, words = values / WALBRYTS_INPUTS * 2 * WALBRYTS_TRACE_ROW;
    bool running = true;
    uint8_t number = walbryts_plan_run_cycles(lent.plan, lent.state, user, lent.inputs, values, lent.inputs_unknown, marks,
                                              &phases, &running);
    hold("plan_run_cycles", number, expected, phases == 0 && !running);
    trace(values, marks, words, expected);
    trace(values, marks, TRACE, expected);
    if (words > 0) {
        trace(values, marks, words - 1, 23);
        trace(values, marks, 0, 23);
    }
}

static void run_cycles(Sheet s, size_t values, size_t marks, uint8_t expected) {
    size_t phases = 77;
    bool running = true;
    uint8_t number =
        walbryts_run_cycles(s.bytes, s.len, lent.state, user, lent.inputs, values, lent.inputs_unknown, marks, &phases,
                            &running);
    hold("run_cycles", number, expected, phases == 0 && !running);
    if (prepared(s)) {
        plan_run_cycles(values, marks, expected);
    }
}

static void extract(Sheet s, size_t nodes, size_t rows, uint8_t expected) {
    hold("extract", walbryts_extract(s.bytes, s.len, lent.nodes, nodes, lent.rows, rows), expected, true);
}

/* Numbers below 25 refuse the sheet and its tables, and the calls on what was prepared don't have them. */
static bool tables_refused(Sheet s, size_t nodes, uint8_t expected) {
    if (prepared(s) && expected != 23 && expected != 24) {
        return false;
    }
    uint8_t number = walbryts_clock_prepare(s.bytes, s.len, lent.nodes, nodes, lent.rows, WALBRYTS_ROW_WORDS, lent.clock_plan,
                                            lent.clock_nodes, lent.clock_rows, lent.clock_numbers);
    hold("clock_prepare", number, expected, true);
    return true;
}

static void clock_cycle(uint8_t count, uint8_t expected) {
    uint8_t number = walbryts_clock_cycle(lent.clock_plan, lent.clock_nodes, lent.clock_rows, lent.clock_numbers, lent.value,
                                          lent.unknown, lent.places, count, lent.inputs, lent.inputs_unknown, lent.wire,
                                          lent.unsure);
    hold("clock_cycle", number, expected, true);
}

static void clock_trace(size_t values, size_t marks, size_t words, uint8_t expected) {
    size_t done = 77;
    uint8_t number = walbryts_clock_trace(lent.clock_plan, lent.clock_nodes, lent.clock_rows, lent.clock_numbers, lent.value,
                                          lent.unknown, lent.places, lent.inputs, values, lent.inputs_unknown, marks,
                                          lent.trace, words, &done);
    hold("clock_trace", number, expected, done == 0);
}

static void clock_cycles(size_t values, size_t marks, uint8_t expected) {
    size_t done = 77, words = values / WALBRYTS_INPUTS * 2 * WALBRYTS_TRACE_ROW;
    uint8_t number = walbryts_clock_cycles(lent.clock_plan, lent.clock_nodes, lent.clock_rows, lent.clock_numbers, lent.value,
                                           lent.unknown, lent.places, lent.inputs, values, lent.inputs_unknown, marks, &done,
                                           lent.wire, lent.unsure);
    hold("clock_cycles", number, expected, done == 0);
    clock_trace(values, marks, words, expected);
    clock_trace(values, marks, TRACE, expected);
    if (words > 0) {
        clock_trace(values, marks, words - 1, 23);
    }
}

static void cycle(Sheet s, size_t nodes, uint8_t count, uint8_t expected) {
    uint8_t number = walbryts_cycle(s.bytes, s.len, lent.nodes, nodes, lent.rows, WALBRYTS_ROW_WORDS, lent.value, lent.unknown,
                                    lent.places, count, lent.inputs, lent.inputs_unknown, lent.wire, lent.unsure);
    hold("cycle", number, expected, true);
    if (!tables_refused(s, nodes, expected)) {
        clock_cycle(count, expected);
    }
}

static void cycles(Sheet s, size_t nodes, size_t values, size_t marks, uint8_t expected) {
    size_t accepted = 77;
    uint8_t number = walbryts_cycles(s.bytes, s.len, lent.nodes, nodes, lent.rows, WALBRYTS_ROW_WORDS, lent.value, lent.unknown,
                                     lent.places, lent.inputs, values, lent.inputs_unknown, marks, &accepted, lent.wire,
                                     lent.unsure);
    hold("cycles", number, expected, accepted == 0);
    if (!tables_refused(s, nodes, expected)) {
        clock_cycles(values, marks, expected);
    }
}

static void bring_over(Sheet s, const uint8_t *old, size_t old_len, uint8_t expected) {
    hold("bring_over", walbryts_bring_over(s.bytes, s.len, old, old_len, allowances, lent.state), expected, true);
}

/* ---- sheets that aren't read: 1 to 11 before all else but 23 */

static void every_call(Sheet s) {
    choose(s, 0, s.number);
    run_plain(s, s.number, WALBRYTS_REFUSED);
    instant(s, 2, s.number);
    run_cycles(s, ROWS, ROWS, s.number);
    run_cycles(s, 15, 1, s.number);
}

static void sheets(void) {
    for (size_t i = 0; i < COUNT(unread); i++) {
        Sheet s = unread[i];
        lend();
        list(s, s.number);
        start(s, s.number);
        every_call(s);
        extract(s, WALBRYTS_NODE_WORDS, WALBRYTS_ROW_WORDS, s.number);
        cycle(s, WALBRYTS_NODE_WORDS, 1, s.number);
        cycles(s, WALBRYTS_NODE_WORDS, 15, 1, s.number);
        bring_over(s, lent.text, WALBRYTS_STATE_3, s.number);
        bring_over(s, kept.state, WALBRYTS_STATE, s.number);
        lent.state[0] = 7; /* no saved state, which is judged after the sheet */
        keep();
        start(s, s.number);
        every_call(s);
    }
}

/* ---- 31: bytes that are no saved state, and a state that doesn't fit */

static void no_state(size_t at, uint8_t byte, bool saved) {
    lend();
    lent.state[at] = byte;
    keep();
    if (walbryts_is_state(lent.state, WALBRYTS_STATE) != saved) {
        failed++;
        printf("FAILED is_state, with byte %zu changed\n", at);
    }
    if (!saved) {
        uint8_t old[WALBRYTS_STATE];
        memcpy(old, lent.state, sizeof old);
        bring_over(good, old, WALBRYTS_STATE, 31);
        bring_over(good, old, WALBRYTS_STATE - 1, 31);
    }
    choose(good, WALBRYTS_COMMIT, 31);
    choose(good, 200, 31);
    run_plain(good, 31, WALBRYTS_REFUSED);
    instant(good, 3, 31);
    run_cycles(good, ROWS, ROWS, 31);
    run_cycles(good, 15, 15, 31);
    run_cycles(good, 0, 0, 31);
}

static void states(void) {
    no_state(0, 1, false);
    no_state(0, 2, false);
    no_state(0, 3, false);
    no_state(WALBRYTS_PENDING_AT(0), 255, false);
    no_state(WALBRYTS_DUE_AT(31), 2, false);
    no_state(WALBRYTS_PLACE_AT(0), 3, true);
    no_state(WALBRYTS_DUE_AT(0), 1, true);
    no_state(WALBRYTS_VALUE_AT(2), 1, true);     /* a number under a mark */
    no_state(WALBRYTS_VALUE_AT(2) + 5, 1, true); /* a mark behind the width */
    for (size_t u = 0; u < WALBRYTS_USERS; u++) {
        no_state(WALBRYTS_COUNT_AT(u), 10, true); /* above its allowance */
        no_state(WALBRYTS_COUNT_AT(u) + 7, 1, true);
    }
    user = 4; /* which is judged after the state */
    no_state(WALBRYTS_PLACE_AT(0), 3, true);
    user = 0;
    if (walbryts_is_state(lent.state, WALBRYTS_STATE - 1) || walbryts_is_state(lent.text, WALBRYTS_STATE)) {
        failed++;
        printf("FAILED is_state on other bytes\n");
    }
    bring_over(good, lent.text, 0, 31);
    bring_over(good, lent.text, WALBRYTS_STATE_1, 31);
    bring_over(good, lent.text, WALBRYTS_STATE_2, 31);
    bring_over(good, lent.text, WALBRYTS_STATE_3, 31);
    bring_over(good, lent.text, WALBRYTS_STATE, 31);
}

/* What the older forms have in front of the counters: all is x but input 1, which is 200; the register waits to become x; both
 * have a number under their x. */
enum { BODY = 633, FLAG_1 = 6, FLAG_2 = 11, SLOT_0 = 401, WIDTH_2 = 0xFF };

static void fill_old(uint8_t *old, uint8_t form) {
    memset(old, 0, BODY);
    old[0] = form;
    for (size_t v = 0; v < WALBRYTS_VARIABLES; v++) {
        old[1 + 5 * v] = 1;
    }
    old[FLAG_1] = 0;
    old[FLAG_1 + 1] = 200;
    old[FLAG_2 + 1] = 99;
    old[SLOT_0] = old[SLOT_0 + 1] = 1;
    old[SLOT_0 + 2] = 77;
}

/* The same as it is brought over: the start's values, whose marks are as wide as their variables, but for input 1. */
static void fill_new(uint8_t *state) {
    memcpy(state, lent.state, WALBRYTS_STATE);
    memset(state + WALBRYTS_TIME_AT, 0, WALBRYTS_STATE - WALBRYTS_TIME_AT);
    memset(state + WALBRYTS_VALUE_AT(1), 0, 8);
    state[WALBRYTS_VALUE_AT(1)] = 200;
    state[WALBRYTS_PENDING_AT(0)] = 1;
    state[WALBRYTS_PENDING_AT(0) + 5] = WIDTH_2;
}

static void brought(const uint8_t *old, size_t old_len, const uint32_t *reach, const uint8_t *expected) {
    if (walbryts_is_state(old, old_len) || walbryts_bring_over(good.bytes, good.len, old, old_len, reach, lent.state) != 0 ||
        memcmp(lent.state, expected, WALBRYTS_STATE) != 0) {
        failed++;
        printf("FAILED bring_over of a state in form %u\n", old[0]);
    }
}

/* A state with one count, in form 1 or 2, is brought over with these allowances, into lent bytes that were any; a count above
 * user 0's is refused. */
static void brought_from(uint8_t form, size_t old_len) {
    static const uint32_t reach[WALBRYTS_USERS] = {7, 8, 0, 0xFFFFFFFFu}, less[WALBRYTS_USERS] = {6, 8, 0, 0xFFFFFFFFu};
    uint8_t old[WALBRYTS_STATE_2] = {0}, expected[WALBRYTS_STATE];
    lend();
    fill_old(old, form);
    fill_new(expected);
    memset(old + BODY, 0xFF, 4);
    old[BODY + (form == 1 ? 4 : 8)] = 7;
    memset(expected + WALBRYTS_TIME_AT, 0xFF, 4);
    expected[WALBRYTS_COUNT_AT(0)] = 7;
    expected[WALBRYTS_ALLOWANCE_AT(0)] = 7;
    expected[WALBRYTS_ALLOWANCE_AT(1)] = 8;
    memset(expected + WALBRYTS_ALLOWANCE_AT(3), 0xFF, 4);
    memset(lent.state, 0xA5, sizeof lent.state);
    keep();
    hold("bring_over", walbryts_bring_over(good.bytes, good.len, old, old_len, less, lent.state), 31, true);
    brought(old, old_len, reach, expected);
}

/* One in form 3 keeps its counters, whatever they are. */
static void brought_whole(void) {
    static const uint32_t none[WALBRYTS_USERS] = {0};
    uint8_t old[WALBRYTS_STATE_3], expected[WALBRYTS_STATE];
    lend();
    fill_old(old, 3);
    fill_new(expected);
    for (size_t i = 0; i < WALBRYTS_STATE - WALBRYTS_TIME_AT; i++) {
        old[BODY + i] = expected[WALBRYTS_TIME_AT + i] = (uint8_t)(3 * i + 1);
    }
    memset(lent.state, 0xA5, sizeof lent.state);
    brought(old, sizeof old, none, expected);
}

static void brought_over(void) {
    brought_from(1, WALBRYTS_STATE_1);
    brought_from(2, WALBRYTS_STATE_2);
    brought_whole();
}

/* ---- choices and instants */

static void drive(uint32_t clock) {
    uint32_t value[WALBRYTS_INPUTS] = {clock, 5};
    uint32_t unknown[WALBRYTS_INPUTS] = {0};
    if (walbryts_instant(good.bytes, good.len, lent.state, 2, value, unknown) != 0) {
        failed++;
        printf("FAILED an instant that is in order\n");
    }
    keep();
}

static void full_time(void) {
    memset(lent.state + WALBRYTS_TIME_AT, 0xFF, 8);
    keep();
}

/* 46: users above 3, after 22, and of a run after 31, also of an empty one. */
static void users(void) {
    for (user = 4; user != 0; user = user == 4 ? 255 : 0) {
        hold("choose", walbryts_choose(good.bytes, good.len, lent.state, user, 254), 22, true);
        hold("plan_choose", walbryts_plan_choose(lent.plan, lent.state, user, 254), 22, true);
        choose(good, 0, 46);
        choose(good, WALBRYTS_COMMIT, 46);
        run(good, flip_flop, 0, 46);
        run_plain(good, 46, WALBRYTS_REFUSED);
        run_cycles(good, 15, 15, 46);
        run_cycles(good, 0, 0, 46);
    }
}

/* An input with a mark behind its width, and one with a number under a mark. */
static void marks_of(size_t input) {
    for (uint32_t mark = 256; mark != 0; mark = mark == 256 ? 4 : 0) {
        lent.inputs[input] = 5;
        lent.inputs_unknown[input] = mark;
        keep();
        if (input == 1) {
            instant(good, 2, 25);
            run_cycles(good, 32, 32, 25);
        } else {
            cycle(good, WALBRYTS_NODE_WORDS, 1, 25);
        }
    }
    lent.inputs_unknown[input] = 0;
    keep();
}

static void choices(void) {
    lend();
    choose(good, 1, 22);
    choose(good, 254, 22);
    choose(good, 0, 33);
    choose(good, WALBRYTS_COMMIT, 35);
    users();
    instant(good, 1, 25);
    instant(good, 17, 25);
    run_cycles(good, 15, 15, 25);
    run_cycles(good, 17, 17, 25);
    run_cycles(good, 32, 31, 25);
    run_cycles(good, 32, 48, 25);
    run_cycles(good, 0, 1, 25);
    lent.inputs[1] = 256;
    keep();
    instant(good, 2, 25);
    run_cycles(good, 32, 32, 25);
    marks_of(1);
    full_time();
    lent.inputs[1] = 5;
    keep();
    instant(good, 2, 36);
    run_cycles(good, 32, 32, 36);
    lend();
    drive(0);
    drive(1);
    choose(good, WALBRYTS_COMMIT, 34);
    instant(good, 2, 32);
    run_cycles(good, 32, 32, 32);
    users();
    lent.state[WALBRYTS_COUNT_AT(2)] = 9; /* its allowance */
    keep();
    user = 2;
    choose(good, 0, 47);
    run_plain(good, 47, WALBRYTS_STOPPED);
    user = 0;
}

/* ---- tables, registers and inputs of cycles by expressions */

static void tables(void) {
    lend();
    for (size_t i = 0; i < COUNT(unextracted); i++) {
        Sheet s = unextracted[i];
        extract(s, WALBRYTS_NODE_WORDS, WALBRYTS_ROW_WORDS, s.number);
        cycle(s, WALBRYTS_NODE_WORDS, 1, s.number);
        cycles(s, WALBRYTS_NODE_WORDS, 32, 32, s.number);
    }
    extract(good, WALBRYTS_NODE_WORDS - 1, WALBRYTS_ROW_WORDS, 23);
    extract(good, WALBRYTS_NODE_WORDS, WALBRYTS_ROW_WORDS + 1, 23);
    extract(unread[0], 0, WALBRYTS_ROW_WORDS, 23);
    cycle(good, WALBRYTS_NODE_WORDS + 1, 1, 23);
    cycle(unread[0], 0, 1, 23);
    cycles(good, 0, 32, 32, 23);
    cycle(good, WALBRYTS_NODE_WORDS, 2, 25);
    cycles(good, WALBRYTS_NODE_WORDS, 31, 31, 25);
    cycles(good, WALBRYTS_NODE_WORDS, 33, 33, 25);
    cycles(good, WALBRYTS_NODE_WORDS, 32, 16, 25);
    cycles(good, WALBRYTS_NODE_WORDS, 0, 2, 25);
    cycles(good, WALBRYTS_NODE_WORDS, 0, 0, 0); /* no rows: nothing is refused, and nothing run */
    lent.inputs[0] = lent.inputs[1] = 256;
    keep();
    cycle(good, WALBRYTS_NODE_WORDS, 1, 25);
    cycles(good, WALBRYTS_NODE_WORDS, 32, 32, 25);
    marks_of(0);
    lent.value[0] = 256;
    lent.unknown[0] = 0;
    keep();
    cycle(good, WALBRYTS_NODE_WORDS, 1, 31);
    cycles(good, WALBRYTS_NODE_WORDS, 31, 1, 31);
    lent.value[0] = 1;
    lent.unknown[0] = 255;
    keep();
    cycle(good, WALBRYTS_NODE_WORDS, 1, 31);
    cycles(good, WALBRYTS_NODE_WORDS, 31, 1, 31);
    lent.nodes[4 * 4095] = 99;
    keep();
    cycle(good, WALBRYTS_NODE_WORDS, 1, 24);
    cycles(good, WALBRYTS_NODE_WORDS, 31, 1, 24);
}

/* ---- Verilog text: 23, then 41 to 43, then 1 to 11, of which the names know nothing */

static void text(const char *bytes, size_t len, size_t room, uint8_t expected, size_t expected_place) {
    size_t place = 77, length = 77;
    uint8_t number = walbryts_read_text((const uint8_t *)bytes, len, lent.sheet, room, &place, &length);
    hold("read_text", number, expected, place == expected_place && length == 0);
    if (expected >= 41) {
        hold("names", walbryts_names((const uint8_t *)bytes, len, lent.names, lent.lengths), expected, true);
    }
}

static void texts(void) {
    static const char flip[] = "module m (c); input c; reg q; always @(posedge c) q <= ~q; endmodule";
    static const char output[] = "module m (c); output c; endmodule";
    static const char twice[] = "module m (c); input c; reg c; always c = c; endmodule";
    static const char wide[] = "module m (c); input [1:0] c; reg q; always q = c; endmodule";
    static char longer[WALBRYTS_VERILOG + 1];
    lend();
    memset(longer, ' ', sizeof longer);
    text(flip, sizeof flip - 1, WALBRYTS_SHEET + 1, 23, 0);
    text(output, sizeof output - 1, 0, 23, 0);
    text(longer, sizeof longer, WALBRYTS_SHEET, 41, WALBRYTS_VERILOG);
    text(longer, sizeof longer - 1, WALBRYTS_SHEET, 42, WALBRYTS_VERILOG);
    text(output, sizeof output - 1, WALBRYTS_SHEET, 42, 14);
    text(twice, sizeof twice - 1, WALBRYTS_SHEET, 43, 27);
    text(wide, sizeof wide - 1, WALBRYTS_SHEET, 4, 4);
}

/* ---- words: a refused hexadecimal text leaves the bytes; the rest is never refused */

static void hex(const char *bytes, uint8_t expected, size_t expected_line, size_t expected_column) {
    size_t length = 77, line = 77, column = 77;
    uint8_t number = walbryts_hex((const uint8_t *)bytes, strlen(bytes), lent.hex, &length, &line, &column);
    hold("hex", number, expected, line == expected_line && column == expected_column && length < 4);
}

static void said(const char *call, size_t length, const char *expected) {
    if (length != strlen(expected) || memcmp(lent.text, expected, length) != 0) {
        failed++;
        printf("FAILED %s: %.*s\n", call, (int)length, lent.text);
    }
}

static void words(void) {
    static const uint8_t both[] = {2, 1, 0, 2, 1, 8, 8, 0x0C, 0x10, 1, 1, 0, 0x23, 2, 2, 1, 0x0C, 0x10, 1, 1, 0, 0x23, 2, 2, 1};
    size_t length, line, column, thread, other, reg, wire, above, place;
    bool wired;
    lend();
    hex("02 01\ng0", 1, 2, 1);
    hex("02 01\n0g", 2, 2, 1);
    hex("02 01 # g\n 0", 2, 2, 2);
    hex("0 0", 2, 1, 1);
    if (walbryts_hex((const uint8_t *)"02 0C # 3", 9, lent.hex, &length, &line, &column) != 0 || length != 2 || lent.hex[0] != 2 ||
        lent.hex[1] != 12 || lent.hex[2] != 0xA5) {
        failed++;
        printf("FAILED hex\n");
    }
    walbryts_reason(12, lent.text, &length);
    said("reason", length, "two threads write one register");
    walbryts_allowed(12, lent.text, &length);
    said("allowed", length, "one writing thread for each register");
    walbryts_reason(200, lent.text, &length);
    said("reason", length, "");
    if (walbryts_finding(both, sizeof both, lent.text, &length) != 12) {
        failed++;
        printf("FAILED finding\n");
    }
    said("finding", length, "register r0 is written by threads 0 and 1");
    if (walbryts_witness(both, sizeof both, &thread, &other, &reg, &wired, &wire, &above, &place) != 12 || thread != 0 ||
        other != 1 || reg != 0 || wired || wire != 0 || above != 0 || place != 0) {
        failed++;
        printf("FAILED witness\n");
    }
    if (walbryts_finding(good.bytes, good.len, lent.text, &length) != 0 || length != 0 ||
        walbryts_witness(unread[1].bytes, unread[1].len, &thread, &other, &reg, &wired, &wire, &above, &place) != 2) {
        failed++;
        printf("FAILED a sheet without a witness\n");
    }
}

/* ---- accepted calls are seen to alter what is lent: the comparison isn't blind */

static void seen(const char *call, uint8_t number) {
    if (number != 0 || memcmp(&kept, &lent, sizeof lent) == 0) {
        failed++;
        printf("FAILED %s: %u, and nothing altered\n", call, number);
    }
    keep();
}

static void accepted(void) {
    static const uint8_t verilog[] = "module m (c); input c; reg q; always @(posedge c) q <= ~q; endmodule";
    size_t place, length, phases, done;
    bool running;
    lend();
    seen("read_text", walbryts_read_text(verilog, sizeof verilog - 1, lent.sheet, WALBRYTS_SHEET, &place, &length));
    seen("names", walbryts_names(verilog, sizeof verilog - 1, lent.names, lent.lengths));
    seen("list", walbryts_list(good.bytes, good.len, lent.text, &length));
    seen("instant", walbryts_instant(good.bytes, good.len, lent.state, 2, lent.inputs, lent.inputs_unknown));
    seen("run_cycles", walbryts_run_cycles(good.bytes, good.len, lent.state, 1, lent.inputs, 16, lent.inputs_unknown, 16,
                                           &phases, &running));
    lent.inputs[0] = 9;
    keep();
    seen("cycle", walbryts_cycle(good.bytes, good.len, lent.nodes, WALBRYTS_NODE_WORDS, lent.rows, WALBRYTS_ROW_WORDS,
                                 lent.value, lent.unknown, lent.places, 1, lent.inputs, lent.inputs_unknown, lent.wire,
                                 lent.unsure));
    seen("cycles", walbryts_cycles(good.bytes, good.len, lent.nodes, WALBRYTS_NODE_WORDS, lent.rows, WALBRYTS_ROW_WORDS,
                                   lent.value, lent.unknown, lent.places, lent.inputs, 16, lent.inputs_unknown, 16, &done,
                                   lent.wire, lent.unsure));
}

static void accepted_on_plans(void) {
    size_t place, phases, done;
    bool running;
    lend();
    lent.inputs[1] = 6;
    keep();
    memset(lent.plan, 0, sizeof lent.plan);
    memset(lent.clock_rows, 0, sizeof lent.clock_rows);
    keep();
    seen("prepare", walbryts_prepare(good.bytes, good.len, lent.plan, &place));
    seen("clock_prepare", walbryts_clock_prepare(good.bytes, good.len, lent.nodes, WALBRYTS_NODE_WORDS, lent.rows,
                                                 WALBRYTS_ROW_WORDS, lent.clock_plan, lent.clock_nodes, lent.clock_rows,
                                                 lent.clock_numbers));
    seen("plan_instant", walbryts_plan_instant(lent.plan, lent.state, 2, lent.inputs, lent.inputs_unknown));
    seen("plan_run_cycles", walbryts_plan_run_cycles(lent.plan, lent.state, 1, lent.inputs, 16, lent.inputs_unknown, 16,
                                                     &phases, &running));
    seen("plan_trace", walbryts_plan_trace(lent.plan, lent.state, 1, lent.inputs, 32, lent.inputs_unknown, 32, lent.trace,
                                           TRACE, &phases, &running));
    if (phases != 4 || lent.trace[WALBRYTS_TRACE_AT(1, 2)] != 6 || lent.trace[WALBRYTS_TRACE_AT(3, 2)] != 0 ||
        lent.trace[WALBRYTS_TRACE_PLACE_AT(3, 0)] != 0 || WALBRYTS_TRACE_MARKS(lent.trace[WALBRYTS_TRACE_AT(0, 79)]) != 0xFFFFFFFFu ||
        lent.trace[WALBRYTS_TRACE_AT(4, 0)] != 0xA5A5A5A5A5A5A5A5u) {
        failed++;
        printf("FAILED the rows of a trace by events\n");
    }
    lent.inputs[0] = 9;
    keep();
    seen("clock_cycle", walbryts_clock_cycle(lent.clock_plan, lent.clock_nodes, lent.clock_rows, lent.clock_numbers, lent.value,
                                             lent.unknown, lent.places, 1, lent.inputs, lent.inputs_unknown, lent.wire,
                                             lent.unsure));
    seen("clock_cycles", walbryts_clock_cycles(lent.clock_plan, lent.clock_nodes, lent.clock_rows, lent.clock_numbers,
                                               lent.value, lent.unknown, lent.places, lent.inputs, 16, lent.inputs_unknown,
                                               16, &done, lent.wire, lent.unsure));
    memset(lent.trace, 0xA5, sizeof lent.trace);
    keep();
    seen("clock_trace", walbryts_clock_trace(lent.clock_plan, lent.clock_nodes, lent.clock_rows, lent.clock_numbers, lent.value,
                                             lent.unknown, lent.places, lent.inputs, 32, lent.inputs_unknown, 32, lent.trace,
                                             TRACE, &done));
    if (done != 2 || lent.value[0] != 0 || lent.trace[WALBRYTS_TRACE_AT(1, 2)] != 6 || lent.trace[WALBRYTS_TRACE_AT(3, 2)] != 0 ||
        WALBRYTS_TRACE_MARKS(lent.trace[WALBRYTS_TRACE_AT(0, 79)]) != 0xFFFFFFFFu ||
        lent.trace[WALBRYTS_TRACE_AT(4, 0)] != 0xA5A5A5A5A5A5A5A5u) {
        failed++;
        printf("FAILED the rows of a trace by expressions\n");
    }
}

int main(void) {
    sheets();
    states();
    brought_over();
    choices();
    tables();
    texts();
    words();
    accepted();
    accepted_on_plans();
    printf("%u refused calls, %u failed\n", refused, failed);
    return failed != 0;
}
