/*
 * Walbryts for C: the functions of the proved static library libexports.a.
 *
 * A sheet is one module as bytes, or comes from one in Verilog; every call takes it, or the text, as a pointer and a
 * length, and may be handed any bytes at all. A call gives document 01's number, 0 where nothing was refused. A refused
 * call alters nothing: every lent byte and word is as it was. What a call tells beside its number (a place, a length,
 * how many were accepted, a word) is its answer, and is told in any case. Every call ends.
 *
 * No pointer may be NULL, also with the length 0; what a call writes may not overlap what it reads. A flag (bool) is 0
 * or 1. Nothing is kept between calls: they may run in several threads at once, on arrays of their own.
 *
 * Arrays are as long as each call says, in items and not in bytes; where a length isn't passed it is fixed, and named
 * below. Stack is what a call takes at most, measured on sheets that nest as deep as they may; the arrays that a caller
 * lends come on top where they lie there too (a plan is 100 KB).
 *
 *   walbryts_read, walbryts_list                                            32 KB
 *   walbryts_start and the other calls of events on a sheet                180 KB
 *   walbryts_prepare, and the calls of events on a plan                     48 KB
 *   walbryts_extract                                                       128 KB
 *   walbryts_cycle, walbryts_cycles                                        460 KB
 *   walbryts_clock_prepare                                                 240 KB
 *   walbryts_clock_cycle, walbryts_clock_cycles, walbryts_clock_trace       40 KB
 *   walbryts_read_text, walbryts_names                         WALBRYTS_STACK, 8 MB
 *
 * Cost: every call on a sheet reads and prepares it anew. Measured on a flip-flop, a watchdog and a pipeline of eight
 * stages: a choice, an instant or a short run on a plan takes 0.4, 0.35 and 0.15 of the time of the same call on the
 * sheet, and most of that is laying the state out and packing it again, which many cycles in one call do once.
 * walbryts_cycle takes 18 to 20 times as long as walbryts_clock_cycle, and that 43, 19 and 2 times as long as one of 512
 * cycles in one call. A trace by events takes at most 1.25 times as long as the cycles without one, a trace by
 * expressions 6.7, 3.4 and 1.2 times.
 *
 * Variables are numbered from 0: inputs, then registers, then wires; input 0 is the clock. Items are threads, then
 * wires.
 *
 * A value is two numbers below 2 to the power of its width: the number, and the marks of its unknown bits. A bit whose
 * mark is 1 isn't known, and is 0 in the number. So 6 with the marks 0 is the known number 6; 4 with the marks 2 is the
 * bits 1x0; in a variable of 3 bits 0 with the marks 7 is x in all bits. A value that isn't of this form doesn't fit: an
 * input is refused with 25 then, a state or a register with 31.
 */
#ifndef WALBRYTS_H
#define WALBRYTS_H

#include <stdbool.h>
#include <stddef.h>
#include <stdint.h>

#ifdef __cplusplus
extern "C" {
#endif

#define WALBRYTS_VERSION "0.4.0" /* of the library, the command and the Rust crate */

/* ---- lengths */

#define WALBRYTS_VERILOG 16384 /* bytes of the longest Verilog text that is read */
#define WALBRYTS_SHEET 8192    /* bytes of the longest sheet, and of the buffer for a text's sheet */
#define WALBRYTS_VARIABLES 80  /* variables of a sheet, at most */
#define WALBRYTS_STACK 8388608 /* bytes of stack that reading a text needs at most */

#define WALBRYTS_TEXT 65536  /* bytes of the buffer for a listing or for words; none is longer */
#define WALBRYTS_HEX 8193    /* bytes of the buffer for a hexadecimal text's, one more than a sheet has */
#define WALBRYTS_USERS 4     /* users that step one state */
#define WALBRYTS_STATE 1025  /* bytes of a saved state */
#define WALBRYTS_STATE_3 689 /* bytes of one that an older release saved, in form 3 */
#define WALBRYTS_STATE_2 649 /* in form 2 */
#define WALBRYTS_STATE_1 641 /* and in form 1 */
#define WALBRYTS_INPUTS 16   /* inputs in a row */
#define WALBRYTS_REGISTERS 32
#define WALBRYTS_WIRES 32
#define WALBRYTS_THREADS 8
#define WALBRYTS_NODE_WORDS 16384 /* words of the node table: 4,096 nodes of four */
#define WALBRYTS_ROW_WORDS 1056   /* words of the row table: 32 rows of 33 */
#define WALBRYTS_PLAN_WORDS 25212 /* words of a plan, and of the nodes as a plan has them */
#define WALBRYTS_CLOCK_WORDS 1152 /* words of the rows as a plan has them */
#define WALBRYTS_CLOCK_BYTES 2048 /* bytes of the rows' numbers, by thread and place */
#define WALBRYTS_TRACE_ROW 88     /* words of a row of a trace: 80 variables, then 8 places */

/* ---- where a saved state has what. Multi-byte numbers are low byte first. Byte 0 names the form and is 4. */

/* Value v: four bytes of number, then four bytes of marks. */
#define WALBRYTS_VALUE_AT(v) (1 + 8 * (size_t)(v))
/* The pending value of register r: a byte, 1 for held or 0, then a value. */
#define WALBRYTS_PENDING_AT(r) (641 + 9 * (size_t)(r))
/* The place of thread t: a byte. */
#define WALBRYTS_PLACE_AT(t) (929 + (size_t)(t))
/* Wire w is due: a byte, 0 or 1. */
#define WALBRYTS_DUE_AT(w) (937 + (size_t)(w))
/* The instants accepted: eight bytes. The choices of user u that were accepted: eight bytes. How many may be: four. */
#define WALBRYTS_TIME_AT 969
#define WALBRYTS_COUNT_AT(u) (977 + 8 * (size_t)(u))
#define WALBRYTS_ALLOWANCE_AT(u) (1009 + 4 * (size_t)(u))
/* (In the older forms a value is five bytes, 1 for x or 0, then its number: values stand at 1 + 5 v, pending values at
 * 401 + 6 r, places at 593, wires that are due at 601, the time at 633. Form 3 has the same counts and allowances behind
 * it; forms 1 and 2 have one count, form 1 with four bytes for time and count each, form 2 with eight.) */

/* ---- where a trace has what: row p is instant number p's, two rows to a cycle. A variable's word is its number, and
 * its marks in the upper half; past the sheet's variables it is 0 with 32 marks, as the start state has them. */
#define WALBRYTS_TRACE_AT(p, v) (WALBRYTS_TRACE_ROW * (size_t)(p) + (size_t)(v))
#define WALBRYTS_TRACE_PLACE_AT(p, t) (WALBRYTS_TRACE_ROW * (size_t)(p) + 80 + (size_t)(t))
#define WALBRYTS_TRACE_NUMBER(word) ((uint32_t)((word) & 0xFFFFFFFFu))
#define WALBRYTS_TRACE_MARKS(word) ((uint32_t)((word) >> 32))

/* ---- numbers and words */

#define WALBRYTS_COMMIT 255 /* the choice that commits all pending values */
#define WALBRYTS_NOBODY 255 /* what the dispatcher picks where no module is busy, or the call is refused */
#define WALBRYTS_QUIET 0    /* how a plain run ended: nothing enabled, nothing pending */
#define WALBRYTS_SPENT 1    /* as many choices ran as were allowed, and it isn't quiet */
#define WALBRYTS_STOPPED 2  /* at a choice, by the number that the call gives */
#define WALBRYTS_REFUSED 3  /* the call was refused, by the number that it gives */

/* ---- Verilog text */

/* The sheet of one module in Verilog: ports by name; input, reg and wire; assign and always; the statements and
 * operators that a sheet has, and case. It goes to the front of lent[WALBRYTS_SHEET], with zeros behind it; *length
 * takes its length, 0 where the text is refused; *place takes the byte at which a refusal was met, 0 where there is
 * none. Gives 0, or 23 where lent_len is another; 41 for a text of over WALBRYTS_VERILOG bytes; 42 for one that isn't
 * such a module; 43 for a name that is undeclared or declared twice, or a wire without exactly one assign (places in
 * the text); then 1 to 11 for the sheet that it gives (places in that sheet).
 *
 * Reading goes as deep as the text nests, and its tables lie on the stack: call it with a stack of WALBRYTS_STACK
 * bytes. (Measured: 0.6 MB for a usual text; 2.8 MB for 8,191 parentheses or 8,100 @a, 1.5 MB for 4,090 ?: or 3,260 if
 * in one text; 4.9 MB for 16,349 parentheses that are never closed.) A usual text of 16,384 bytes takes some 4 ms; one
 * with a chain of thousands of operands, or with thousands of names, up to some seconds. */
uint8_t walbryts_read_text(const uint8_t *text, size_t text_len, uint8_t *lent, size_t lent_len, size_t *place,
                           size_t *length);

/* Where the variables of such a text are declared: places[n] takes the place in the text of the name that declares
 * variable n, lengths[n] the name's length, both 0 for numbers that no variable has; WALBRYTS_VARIABLES of each. Gives
 * 0, or 41 to 43 as above; refused, both arrays stay. Needs as much stack. */
uint8_t walbryts_names(const uint8_t *text, size_t text_len, uint16_t *places, uint16_t *lengths);

/* ---- the sheet */

/* Reads the sheet. Gives 0, or a number from 1 to 11; *place takes the byte at which it was met, 0 where it is read. */
uint8_t walbryts_read(const uint8_t *sheet, size_t sheet_len, size_t *place);

/* Writes the sheet's listing to the front of text[WALBRYTS_TEXT], without a NUL; what lies behind it stays. *length
 * takes its length, 0 where the sheet is refused. Gives 0, or 1 to 11. */
uint8_t walbryts_list(const uint8_t *sheet, size_t sheet_len, uint8_t *text, size_t *length);

/* ---- words */

/* The bytes of a hexadecimal text: two digits of either case to a byte, blanks and line ends between, comments from # to
 * the end of the line. They go to the front of bytes[WALBRYTS_HEX], what lies behind them stays, and *length takes how
 * many there are; a text of more gives the first WALBRYTS_HEX, which are no sheet (1). *line and *column, from 1, take
 * where the text ended, or what refuses it stands. Gives 0; 1 for a character that is no digit, 2 for a digit without
 * its second (which aren't document 01's numbers); then the bytes stay, and *length takes how many came before. */
uint8_t walbryts_hex(const uint8_t *text, size_t text_len, uint8_t *bytes, size_t *length, size_t *line, size_t *column);

/* What a number refuses, and what is allowed in its place, in the words that the command prints, to the front of
 * text[WALBRYTS_TEXT] without a NUL; what lies behind them stays. *length takes their length, 0 for a number without
 * words. */
void walbryts_reason(uint8_t number, uint8_t *text, size_t *length);
void walbryts_allowed(uint8_t number, uint8_t *text, size_t *length);

/* What breaks the rule, 12 to 21, that extraction refuses the sheet by: the number is given, 0 where it accepts, 1 to 11
 * where the sheet isn't read. *thread, *other (another thread), *reg (a register), *wired (whether *wire is the reader,
 * and no thread), *wire, *above (the wire that it reads) and *place (a place of the thread) take what it names, 0 else;
 * registers and wires go by their own numbers. */
uint8_t walbryts_witness(const uint8_t *sheet, size_t sheet_len, size_t *thread, size_t *other, size_t *reg,
                         bool *wired, size_t *wire, size_t *above, size_t *place);

/* The same in words, as walbryts_reason writes them; none, and a *length of 0, for a number below 12. */
uint8_t walbryts_finding(const uint8_t *sheet, size_t sheet_len, uint8_t *text, size_t *length);

/* ---- events. A state lies as its saved bytes in state[WALBRYTS_STATE] and becomes the one that the call gives back;
 * keeping a copy of the bytes saves it, copying them back loads it. Bytes that are no saved state are refused as a state
 * that doesn't fit the sheet, with 31, after the sheet's own numbers; so is a count above its allowance. Up to four users
 * step one state: each choice and each run names its user, 0 to 3 (else 46), and is counted for that user alone, as far
 * as that user's allowance reaches (then 47).
 * All but the first two prepare the sheet on the stack: 180 KB at most. (Measured: 150 KB for a usual sheet, 171 KB for
 * one that nests as deep as it may.) */

/* Are the bytes a saved state: WALBRYTS_STATE of them in this form, every flag 0 or 1? */
bool walbryts_is_state(const uint8_t *bytes, size_t bytes_len);

/* Brings a saved state of the sheet over: old_len bytes in form 1, 2 or 3 into state[WALBRYTS_STATE]. An x becomes 0
 * with marks on all bits of its variable's width (past the sheet's variables on 32). The one count of forms 1 and 2
 * becomes user 0's, 0 is the others', and the allowances are allowances[WALBRYTS_USERS]; form 3 keeps its own. All else
 * is as it was, and a state in this form is taken as it stands. Gives 0, or 1 to 11 of the sheet, or 31 where the old
 * bytes are no saved state or the one count is above allowances[0]; then `state` stays. */
uint8_t walbryts_bring_over(const uint8_t *sheet, size_t sheet_len, const uint8_t *old, size_t old_len,
                            const uint32_t *allowances, uint8_t *state);

/* The start state: all is x in all bits of its width, places and counters 0, every wire due; allowances[WALBRYTS_USERS]
 * say how many choices each user has, for good. The bytes in `state` may be any. Gives 0, or 1 to 11. */
uint8_t walbryts_start(const uint8_t *sheet, size_t sheet_len, const uint32_t *allowances, uint8_t *state);

/* One choice of a user: an item, whose instruction or wire is run, or WALBRYTS_COMMIT. Gives 0, or 1 to 11, 31, 22, 46,
 * 33, 34, 35, 47. */
uint8_t walbryts_choose(const uint8_t *sheet, size_t sheet_len, uint8_t *state, uint8_t user, uint8_t choice);

/* The choices of a user one after the other, up to the first that is refused. *accepted takes how many were accepted.
 * Gives 0 where all were, else the number that stopped it, and the state is the one reached; numbers up to 11, 31 and 46
 * are a refused call. */
uint8_t walbryts_run(const uint8_t *sheet, size_t sheet_len, uint8_t *state, uint8_t user, const uint8_t *choices,
                     size_t choices_len, size_t *accepted);

/* The plain run of at most `limit` choices of a user: the lowest enabled item, else the commit. *accepted takes how many
 * were accepted, *word how it ended. Gives 0 where it ended quiet or spent, 47 where it was stopped, else 1 to 11, 31,
 * 46. */
uint8_t walbryts_run_plain(const uint8_t *sheet, size_t sheet_len, uint8_t *state, uint8_t user, uint16_t limit,
                           uint16_t *accepted, uint8_t *word);

/* An instant: sets all inputs, the clock first, as one change. The state must be quiet; the start state is after a
 * plain run. value[16] and unknown[16] hold them, numbers and marks; `count` is how many there are. Gives 0, or 1 to
 * 11, 31, 25, 32, 36. */
uint8_t walbryts_instant(const uint8_t *sheet, size_t sheet_len, uint8_t *state, uint8_t count, const uint32_t *value,
                         const uint32_t *unknown);

/* Clock cycles: for each 16 values a row, with two instants, the clock low with the row's inputs and the clock high
 * with nothing else changed, and a plain run of at most 65,535 choices of the user after each. The state must be quiet at first. A
 * row's item 0, the clock's, isn't looked at. *phases takes how many instants were done with the run after them;
 * *running whether it was the run after an instant, and not the instant, that had the number. Gives 0 where all were,
 * else the number that stopped it, and the state is the one reached. A refused call gives 1 to 11, 31,
 * 46, or 25 where value_len is no multiple of 16 or unknown_len is another length. */
uint8_t walbryts_run_cycles(const uint8_t *sheet, size_t sheet_len, uint8_t *state, uint8_t user, const uint32_t *value,
                            size_t value_len, const uint32_t *unknown, size_t unknown_len, size_t *phases,
                            bool *running);

/* ---- events on a plan. Each of the calls above reads and prepares the sheet anew. walbryts_prepare does so once, into
 * plan[WALBRYTS_PLAN_WORDS], which the calls below only read: several threads may use one plan. Each answers and leaves
 * what the call of the same name on the sheet does. A plan says nothing to a caller but for these calls; its words may
 * differ from release to release. Words that walbryts_prepare didn't fill are a plan too, of some module or of none: a
 * call on them ends, touches nothing but what it is lent, and gives a number that it has. */

/* Prepares the sheet. Gives 0, or 1 to 11, with *place as walbryts_read has it; then the plan stays. */
uint8_t walbryts_prepare(const uint8_t *sheet, size_t sheet_len, uint32_t *plan, size_t *place);

/* The start state, as walbryts_start; it is never refused. */
void walbryts_plan_start(const uint32_t *plan, const uint32_t *allowances, uint8_t *state);

/* As walbryts_choose: 0, or 31, 22, 46, 33, 34, 35, 47. */
uint8_t walbryts_plan_choose(const uint32_t *plan, uint8_t *state, uint8_t user, uint8_t choice);

/* As walbryts_run; 31 and 46 are a refused call. */
uint8_t walbryts_plan_run(const uint32_t *plan, uint8_t *state, uint8_t user, const uint8_t *choices,
                          size_t choices_len, size_t *accepted);

/* As walbryts_run_plain: 0, 47 where it was stopped, else 31, 46. */
uint8_t walbryts_plan_run_plain(const uint32_t *plan, uint8_t *state, uint8_t user, uint16_t limit, uint16_t *accepted,
                                uint8_t *word);

/* As walbryts_instant: 0, or 31, 25, 32, 36. */
uint8_t walbryts_plan_instant(const uint32_t *plan, uint8_t *state, uint8_t count, const uint32_t *value,
                              const uint32_t *unknown);

/* As walbryts_run_cycles; 31, 46 and 25 (rows that aren't whole) are a refused call. */
uint8_t walbryts_plan_run_cycles(const uint32_t *plan, uint8_t *state, uint8_t user, const uint32_t *value,
                                 size_t value_len, const uint32_t *unknown, size_t unknown_len, size_t *phases,
                                 bool *running);

/* The same cycles, traced: for each instant that was done with the run after it, *phases of them, a row of
 * WALBRYTS_TRACE_ROW words in `trace`; what lies behind these rows stays. Room is needed for two rows to each 16 values,
 * else the call is refused, with 23 before all other numbers. */
uint8_t walbryts_plan_trace(const uint32_t *plan, uint8_t *state, uint8_t user, const uint32_t *value, size_t value_len,
                            const uint32_t *unknown, size_t unknown_len, uint64_t *trace, size_t trace_len,
                            size_t *phases, bool *running);

/* ---- expressions */

/* The expressions of what every register becomes at a clock edge, into nodes[WALBRYTS_NODE_WORDS] and
 * rows[WALBRYTS_ROW_WORDS]. Gives 0, or 23 for other lengths, 1 to 21; refused, every word stays. */
uint8_t walbryts_extract(const uint8_t *sheet, size_t sheet_len, uint16_t *nodes, size_t nodes_len, uint16_t *rows,
                         size_t rows_len);

/* One clock cycle by the tables. value[32], unknown[32] and places[8] hold the registers' numbers and marks and the wait
 * places before it and become those after it; inputs[16] and inputs_unknown[16] are the inputs from 1 up, of which
 * `count` says how many there are; wire[32] and unsure[32] take the wires' numbers and marks, all 32 marks past the
 * sheet's wires. Gives 0, or 23, 1 to 21, 24, 31, 25; refused, all five arrays stay. */
uint8_t walbryts_cycle(const uint8_t *sheet, size_t sheet_len, const uint16_t *nodes, size_t nodes_len,
                       const uint16_t *rows, size_t rows_len, uint32_t *value, uint32_t *unknown, uint8_t *places,
                       uint8_t count, const uint32_t *inputs, const uint32_t *inputs_unknown, uint32_t *wire,
                       uint32_t *unsure);

/* A clock cycle by the tables for each 16 inputs, up to the first that is refused; a row's item 0, the clock's, isn't
 * looked at. *cycles takes how many were accepted; the arrays become what the last of these gave, and where none was
 * accepted they stay. Gives 0 where all were accepted, else the number that refused the next. A refused call gives 23,
 * 1 to 21, 24, 31, or 25 where inputs_len is no multiple of 16 or inputs_unknown_len is another length. */
uint8_t walbryts_cycles(const uint8_t *sheet, size_t sheet_len, const uint16_t *nodes, size_t nodes_len,
                        const uint16_t *rows, size_t rows_len, uint32_t *value, uint32_t *unknown, uint8_t *places,
                        const uint32_t *inputs, size_t inputs_len, const uint32_t *inputs_unknown,
                        size_t inputs_unknown_len, size_t *cycles, uint32_t *wire, uint32_t *unsure);

/* ---- expressions, prepared. walbryts_clock_prepare judges a sheet and its tables once, and fills four arrays that the
 * calls below only read: plan[WALBRYTS_PLAN_WORDS], lent[WALBRYTS_PLAN_WORDS], table[WALBRYTS_CLOCK_WORDS] and
 * numbers[WALBRYTS_CLOCK_BYTES]. What is said of plans above holds of them. Gives 0, or 23, 1 to 21, 24; refused, all
 * four stay. */
uint8_t walbryts_clock_prepare(const uint8_t *sheet, size_t sheet_len, const uint16_t *nodes, size_t nodes_len,
                               const uint16_t *rows, size_t rows_len, uint32_t *plan, uint32_t *lent, uint32_t *table,
                               uint8_t *numbers);

/* As walbryts_cycle: 0, or 31, 25. */
uint8_t walbryts_clock_cycle(const uint32_t *plan, const uint32_t *lent, const uint32_t *table, const uint8_t *numbers,
                             uint32_t *value, uint32_t *unknown, uint8_t *places, uint8_t count, const uint32_t *inputs,
                             const uint32_t *inputs_unknown, uint32_t *wire, uint32_t *unsure);

/* As walbryts_cycles; 31, and 25 where rows aren't whole, are a refused call. */
uint8_t walbryts_clock_cycles(const uint32_t *plan, const uint32_t *lent, const uint32_t *table, const uint8_t *numbers,
                              uint32_t *value, uint32_t *unknown, uint8_t *places, const uint32_t *inputs,
                              size_t inputs_len, const uint32_t *inputs_unknown, size_t inputs_unknown_len,
                              size_t *cycles, uint32_t *wire, uint32_t *unsure);

/* The same cycles, traced: for each accepted one, *cycles of them, two rows of WALBRYTS_TRACE_ROW words in `trace`, the
 * first once the wires have settled on its inputs, with the clock 0 and registers and places before it, the second what
 * it gives, with the clock 1; what lies behind these rows stays. Room is needed for two rows to each 16 inputs, else the
 * call is refused, with 23 before all other numbers. */
uint8_t walbryts_clock_trace(const uint32_t *plan, const uint32_t *lent, const uint32_t *table, const uint8_t *numbers,
                             uint32_t *value, uint32_t *unknown, uint8_t *places, const uint32_t *inputs,
                             size_t inputs_len, const uint32_t *inputs_unknown, size_t inputs_unknown_len,
                             uint64_t *trace, size_t trace_len, size_t *cycles);

/* ---- many modules, run side by side */

/* The dispatcher, on the turn records of up to eight modules: busy[n] and turns[n] are module n's. Picks the next busy
 * one in the circle after `last`, the number served by the call before, that one itself last, and adds one to its
 * turns. *picked takes its number, or WALBRYTS_NOBODY. Gives 0, or 48 (no record, more than eight, or another number of
 * flags than of turns), 49 (`last` is outside the list), 36 (the picked one's turns are at 4,294,967,295). */
uint8_t walbryts_dispatch(const bool *busy, size_t busy_len, uint32_t *turns, size_t turns_len, uint8_t last,
                          uint8_t *picked);

#ifdef __cplusplus
}
#endif

#endif
