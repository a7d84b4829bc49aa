/*
 * Document 01's flip-flop from C: read from Verilog and as a sheet, listed, run by events and by expressions, saved,
 * loaded, refused, prepared and traced.
 *
 *   cc -std=c11 -Wall -Wextra -Iinclude examples/c/flipflop.c crates/exports/out/libexports.a -o flipflop
 */
#include <inttypes.h>
#include <stdio.h>
#include <stdlib.h>
#include <string.h>

#include "walbryts.h"

static const uint8_t sheet[] = {0x02, 0x01, 0x00, 0x01, 0x01, 0x08, 0x08, 0x0C,
                                0x10, 0x01, 0x01, 0x00, 0x23, 0x02, 0x02, 0x01};
enum { INPUTS = 2, REGISTER = 2 };
/* How many choices each user may take, and the user whose choices they are here. */
static const uint32_t allowances[WALBRYTS_USERS] = {1000, 20, 0, 0};
enum { USER = 0, OTHER = 1 };

/* Ends the program where a call was refused that shouldn't have been. */
static void accepted(const char *call, uint8_t number) {
    if (number != 0) {
        fprintf(stderr, "%s: refused %u\n", call, number);
        exit(1);
    }
}

/* ---- a saved state */

static uint32_t number_at(const uint8_t *state, size_t at) {
    return state[at] | (uint32_t)state[at + 1] << 8 | (uint32_t)state[at + 2] << 16 | (uint32_t)state[at + 3] << 24;
}

static uint64_t counter_at(const uint8_t *state, size_t at) {
    return number_at(state, at) | (uint64_t)number_at(state, at + 4) << 32;
}

/* A value of 8 bits: in decimal, x where no bit is known, else its bits. */
static void print_value(uint32_t number, uint32_t unknown) {
    if (unknown == 0) {
        printf("%" PRIu32, number);
    } else if (unknown == 0xFF) {
        printf("x");
    } else {
        printf("b");
        for (int bit = 7; bit >= 0; bit--) {
            printf("%c", unknown >> bit & 1 ? 'x' : number >> bit & 1 ? '1' : '0');
        }
    }
}

static void print_state(const uint8_t *state) {
    size_t at = WALBRYTS_VALUE_AT(REGISTER);
    printf("time %" PRIu64 " count %" PRIu64 " place %u register ", counter_at(state, WALBRYTS_TIME_AT),
           counter_at(state, WALBRYTS_COUNT_AT(USER)), state[WALBRYTS_PLACE_AT(0)]);
    print_value(number_at(state, at), number_at(state, at + 4));
    printf("\n");
}

/* ---- the calls */

static void list(void) {
    static uint8_t text[WALBRYTS_TEXT];
    size_t place, length;
    accepted("read", walbryts_read(sheet, sizeof sheet, &place));
    accepted("list", walbryts_list(sheet, sizeof sheet, text, &length));
    fwrite(text, 1, length, stdout);
    uint8_t number = walbryts_read(sheet, sizeof sheet - 3, &place);
    printf("without its last three bytes: refused %u at byte %zu\n", number, place);
}

/* A clock cycle: the clock low, then high, with a plain run after each. */
static void cycle_by_events(uint8_t *state, uint32_t number, uint32_t unknown) {
    for (uint32_t clock = 0; clock < 2; clock++) {
        uint32_t value[WALBRYTS_INPUTS] = {clock, number};
        uint32_t marks[WALBRYTS_INPUTS] = {0, unknown};
        uint16_t choices;
        uint8_t word;
        accepted("instant", walbryts_instant(sheet, sizeof sheet, state, INPUTS, value, marks));
        accepted("run_plain", walbryts_run_plain(sheet, sizeof sheet, state, USER, 1000, &choices, &word));
    }
    print_state(state);
}

/* The clock low and high, and then a choice of a user without an allowance; another user takes it. */
static uint8_t used_up(uint8_t *state) {
    uint32_t value[WALBRYTS_INPUTS] = {0, 9};
    uint32_t marks[WALBRYTS_INPUTS] = {0};
    accepted("instant", walbryts_instant(sheet, sizeof sheet, state, INPUTS, value, marks));
    value[0] = 1;
    accepted("instant", walbryts_instant(sheet, sizeof sheet, state, INPUTS, value, marks));
    uint8_t number = walbryts_choose(sheet, sizeof sheet, state, 3, 0);
    accepted("choose", walbryts_choose(sheet, sizeof sheet, state, OTHER, 0));
    return number;
}

static void by_events(void) {
    uint8_t state[WALBRYTS_STATE], kept[WALBRYTS_STATE];
    accepted("start", walbryts_start(sheet, sizeof sheet, allowances, state));
    print_state(state);
    cycle_by_events(state, 5, 0);
    memcpy(kept, state, sizeof kept);
    cycle_by_events(state, 0, 0xFF);
    cycle_by_events(state, 0x84, 0x02); /* bit 1 isn't known */
    cycle_by_events(kept, 200, 0);
    printf("commit: refused %u\n", walbryts_choose(sheet, sizeof sheet, state, USER, WALBRYTS_COMMIT));
    printf("user 3: %u, user 4: %u\n", used_up(state), walbryts_choose(sheet, sizeof sheet, state, 4, WALBRYTS_COMMIT));
    kept[0] = 7;
    printf("no saved state: %u\n", walbryts_choose(sheet, sizeof sheet, kept, USER, WALBRYTS_COMMIT));
}

/* Three rows; the third is too wide. */
static void by_rows(void) {
    uint32_t value[3 * WALBRYTS_INPUTS] = {0};
    uint32_t unknown[3 * WALBRYTS_INPUTS] = {0};
    uint8_t state[WALBRYTS_STATE];
    size_t phases;
    bool running;
    value[1] = 17;
    value[WALBRYTS_INPUTS + 1] = 18;
    value[2 * WALBRYTS_INPUTS + 1] = 256;
    accepted("start", walbryts_start(sheet, sizeof sheet, allowances, state));
    uint8_t number = walbryts_run_cycles(sheet, sizeof sheet, state, USER, value, 3 * WALBRYTS_INPUTS, unknown,
                                         3 * WALBRYTS_INPUTS, &phases, &running);
    printf("%zu instants, then %u from the %s; ", phases, number, running ? "run after it" : "next");
    print_state(state);
}

/* The same rows on a plan, with the register after each instant. */
static void traced(void) {
    static uint32_t plan[WALBRYTS_PLAN_WORDS];
    uint32_t value[3 * WALBRYTS_INPUTS] = {0}, unknown[3 * WALBRYTS_INPUTS] = {0};
    uint64_t trace[6 * WALBRYTS_TRACE_ROW];
    uint8_t state[WALBRYTS_STATE];
    size_t place, phases;
    bool running;
    value[1] = 17;
    value[WALBRYTS_INPUTS + 1] = 18;
    value[2 * WALBRYTS_INPUTS + 1] = 256;
    accepted("prepare", walbryts_prepare(sheet, sizeof sheet, plan, &place));
    walbryts_plan_start(plan, allowances, state);
    uint8_t number = walbryts_plan_trace(plan, state, USER, value, 3 * WALBRYTS_INPUTS, unknown, 3 * WALBRYTS_INPUTS, trace,
                                         6 * WALBRYTS_TRACE_ROW, &phases, &running);
    printf("traced: register");
    for (size_t p = 0; p < phases; p++) {
        uint64_t word = trace[WALBRYTS_TRACE_AT(p, REGISTER)];
        printf(" ");
        print_value(WALBRYTS_TRACE_NUMBER(word), WALBRYTS_TRACE_MARKS(word));
    }
    printf(", then %u\n", number);
}

static void by_expressions(void) {
    static uint16_t nodes[WALBRYTS_NODE_WORDS], rows[WALBRYTS_ROW_WORDS];
    uint32_t value[WALBRYTS_REGISTERS] = {0}, wire[WALBRYTS_WIRES], inputs[WALBRYTS_INPUTS] = {5};
    uint32_t unknown[WALBRYTS_REGISTERS] = {0xFF}, unsure[WALBRYTS_WIRES], inputs_unknown[WALBRYTS_INPUTS] = {0};
    uint8_t places[WALBRYTS_THREADS] = {0};
    accepted("extract", walbryts_extract(sheet, sizeof sheet, nodes, WALBRYTS_NODE_WORDS, rows, WALBRYTS_ROW_WORDS));
    printf("register 0 becomes node %u, the place node %u\n", rows[0], rows[32]);
    accepted("cycle", walbryts_cycle(sheet, sizeof sheet, nodes, WALBRYTS_NODE_WORDS, rows, WALBRYTS_ROW_WORDS, value,
                                     unknown, places, INPUTS - 1, inputs, inputs_unknown, wire, unsure));
    printf("place %u register ", places[0]);
    print_value(value[0], unknown[0]);
    printf("\n");
}

/* The same flip-flop in Verilog, its sheet and its variables' names. */
static void from_verilog(void) {
    static const char text[] = "module flipflop (clk, d); input clk; input [7:0] d; reg [7:0] q;\n"
                               "always @(posedge clk) q <= d;\n"
                               "endmodule\n";
    static uint8_t lent[WALBRYTS_SHEET];
    uint16_t places[WALBRYTS_VARIABLES], lengths[WALBRYTS_VARIABLES];
    size_t place, length;
    const uint8_t *bytes = (const uint8_t *)text;
    accepted("read_text", walbryts_read_text(bytes, sizeof text - 1, lent, sizeof lent, &place, &length));
    bool same = length == sizeof sheet && memcmp(lent, sheet, length) == 0;
    printf("Verilog: %s", same ? "the same sheet" : "another sheet");
    accepted("names", walbryts_names(bytes, sizeof text - 1, places, lengths));
    for (size_t v = 0; v < WALBRYTS_VARIABLES && lengths[v] > 0; v++) {
        printf("%s %.*s", v == 0 ? ", variables" : "", lengths[v], text + places[v]);
    }
    uint8_t number = walbryts_read_text(bytes, 27, lent, sizeof lent, &place, &length);
    printf("\nits first 27 bytes: refused %u at byte %zu\n", number, place);
}

int main(void) {
    from_verilog();
    list();
    by_events();
    by_rows();
    traced();
    by_expressions();
    return 0;
}
