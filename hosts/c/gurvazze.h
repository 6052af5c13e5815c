/* Channel rule tables by the proved library, for C on x86-64 Linux. Link target/staticlib/libgurvazze_host.a, which
 * `hosts/library` writes.
 *
 * A slice is a pointer and a length in bytes. A pointer is not null, even where the length is 0; what a function writes to (to, word)
 * overlaps nothing else that the call is lent. A refused call leaves all lent memory as it was, and what lies behind an output keeps
 * its contents.
 *
 * Every answer is one number: its low byte is the number of the refusal in the lists of documents 01 and 02, 0 where there is none;
 * above it stands the refusal's place (4 and 6 to 9 have one), or what the call yields.
 *
 * In bytes a node of a rule is its kind (0 T, 1 X, 2 G, 3 O, 4 A, 5 V), a first number, and the value of an O node; what a node does not use
 * is 0. An entry of a table is a value and a next state; entries stand by state and then event. A number as value is one byte, so that a
 * node has three bytes and an entry two. A register's value is four: the mask of the lines that may be low, then that of those that may be
 * high, bit 0 for line 0, each mask's low byte first; so a node has six bytes and an entry five.
 *
 * Example, compiled and run by hosts/c/test:
 *
 *     #include <stdio.h>
 *     #include "gurvazze.h"
 *
 *     static void say_trial(uint64_t answer, const uint8_t *word)
 *     {
 *         if (gurvazze_refusal(answer) != 0)
 *             printf("refused=%u\n", gurvazze_refusal(answer));
 *         else if (gurvazze_yield(answer) == GURVAZZE_SAME)
 *             printf("same\n");
 *         else if (gurvazze_yield(answer) == GURVAZZE_STRICTER)
 *             printf("stricter\n");
 *         else
 *             printf("word of %llu: %u\n", (unsigned long long)gurvazze_yield(answer), word[0]);
 *     }
 *
 *     static void say_rule_of_chain(unsigned states)
 *     {
 *         static const uint8_t meet[] = {0, 0, 0, 1};
 *         static uint8_t table[GURVAZZE_TABLE_BYTES], rule[GURVAZZE_RULE_BYTES];
 *         for (unsigned state = 0; state < states; state++) {
 *             table[2 * state] = 1;
 *             table[2 * state + 1] = (uint8_t)(state + 1 < states ? state + 1 : state);
 *         }
 *         uint64_t answer = gurvazze_rule(1, 2, 1, meet, sizeof meet, states, 0, table, 2 * states, rule, sizeof rule);
 *         if (gurvazze_refusal(answer) != 0)
 *             printf("chain of %u: refused=%u\n", states, gurvazze_refusal(answer));
 *         else
 *             printf("chain of %u: nodes=%llu\n", states, (unsigned long long)gurvazze_yield(answer));
 *     }
 *
 *     static void say_states_of_steps(unsigned count)
 *     {
 *         static char text[4096];
 *         static uint8_t table[GURVAZZE_TABLE_BYTES];
 *         int length = sprintf(text, "events=1\nvalues=1\ntop=0\nmeet=0\nrule=");
 *         for (unsigned step = 0; step < count; step++)
 *             length += sprintf(text + length, "G0 ");
 *         length += sprintf(text + length, "T\n");
 *         uint64_t answer = gurvazze_table((const uint8_t *)text, (size_t)length, table, sizeof table);
 *         printf("%u steps: refused=%u states=%u\n", count, gurvazze_refusal(answer), gurvazze_states(answer));
 *     }
 *
 *     static void say_register_file(void)
 *     {
 *         static const uint8_t file[] = "events=2\nlines=9\nrule=A O1.511.255 V G1 X0\n", events[] = {1, 1};
 *         static uint8_t table[GURVAZZE_REGISTER_TABLE_BYTES], values[2 * 4], word[GURVAZZE_WORD_BYTES];
 *         uint64_t answer = gurvazze_register_table(file, sizeof file - 1, table, sizeof table);
 *         printf("register file: states=%u lines=%u\n", gurvazze_states(answer), gurvazze_lines(answer));
 *         gurvazze_register_replay(file, sizeof file - 1, events, sizeof events, values, sizeof values);
 *         for (size_t event = 0; event < 2; event++)
 *             printf("value=%u.%u\n", gurvazze_low(values + 4 * event), gurvazze_high(values + 4 * event));
 *         say_trial(gurvazze_register_trial(file, sizeof file - 1, 3, 0, table, 3 * 2 * 5, word, sizeof word), word);
 *     }
 *
 *     static void say_register(void)
 *     {
 *         static uint8_t table[GURVAZZE_REGISTER_TABLE_BYTES], rule[GURVAZZE_REGISTER_RULE_BYTES], word[GURVAZZE_WORD_BYTES];
 *         uint8_t line_8_low[6] = {3, 1};
 *         gurvazze_put_masks(line_8_low + 2, 0x1ff, 0xff);
 *         uint64_t answer = gurvazze_register_compile(2, 9, line_8_low, sizeof line_8_low, table, sizeof table);
 *         printf("register: states=%u value=%u.%u\n", (unsigned)gurvazze_yield(answer), gurvazze_low(table + 5), gurvazze_high(table + 5));
 *         say_trial(gurvazze_register_trial_table(2, 9, 2, table, 2 * 2 * 5, 2, 1, table, 2 * 2 * 5, word, sizeof word), word);
 *         answer = gurvazze_register_rule(2, 9, 2, 0, table, 2 * 2 * 5, rule, sizeof rule);
 *         printf("register: nodes=%u\n", (unsigned)gurvazze_yield(answer));
 *         answer = gurvazze_register_compile(2, 8, line_8_low, sizeof line_8_low, table, sizeof table);
 *         printf("register: refused=%u %u\n", gurvazze_refusal(answer), (unsigned)gurvazze_place(answer));
 *     }
 *
 *     int main(void)
 *     {
 *         static const uint8_t file[] =
 *             "events=2\nvalues=4\ntop=3\nmeet=0 0 0 0 0 1 0 1 0 0 2 2 0 1 2 3\nrule=A O1.1 V G1 X0\n";
 *         static const uint8_t inner_binder[] =
 *             "events=2\nvalues=4\ntop=3\nmeet=0 0 0 0 0 1 0 1 0 0 2 2 0 1 2 3\nrule=V G0 V A X1 G0 X0\n";
 *         static const uint8_t thirteen_binders[] =
 *             "events=2\nvalues=4\ntop=3\nmeet=0 0 0 0 0 1 0 1 0 0 2 2 0 1 2 3\nrule=V V V V V V V V V V V V V T\n";
 *         static const uint8_t events[] = {1, 1, 0};
 *         static const uint8_t always_open[] = {3, 0, 3, 0}, always_low[] = {1, 0, 1, 0};
 *         static uint8_t table[GURVAZZE_TABLE_BYTES], values[3], word[GURVAZZE_WORD_BYTES];
 *
 *         uint64_t answer = gurvazze_table(file, sizeof file - 1, table, sizeof table);
 *         printf("states=%u value=%u\n", gurvazze_states(answer), table[2]);
 *         answer = gurvazze_replay(file, sizeof file - 1, events, sizeof events, values, sizeof values);
 *         printf("values=%u %u %u\n", values[0], values[1], values[2]);
 *         say_trial(gurvazze_trial(file, sizeof file - 1, 1, 0, always_open, sizeof always_open, word, sizeof word), word);
 *         say_trial(gurvazze_trial(file, sizeof file - 1, 1, 0, always_low, sizeof always_low, word, sizeof word), word);
 *         say_trial(gurvazze_trial(file, sizeof file - 1, 3, 0, table, 3 * 2 * 2, word, sizeof word), word);
 *         answer = gurvazze_table(inner_binder, sizeof inner_binder - 1, table, sizeof table);
 *         printf("states=%u\n", gurvazze_states(answer));
 *         answer = gurvazze_table(file, 8, table, sizeof table);
 *         printf("refused=%u %llu\n", gurvazze_refusal(answer), (unsigned long long)gurvazze_place(answer));
 *         answer = gurvazze_table(thirteen_binders, sizeof thirteen_binders - 1, table, sizeof table);
 *         printf("refused=%u\n", gurvazze_refusal(answer));
 *         say_rule_of_chain(12);
 *         say_rule_of_chain(13);
 *         say_rule_of_chain(256);
 *         say_states_of_steps(64);
 *         say_states_of_steps(255);
 *         say_register();
 *         say_register_file();
 *         return 0;
 *     }
 *
 * It prints
 *
 *     states=3 value=1
 *     values=1 3 3
 *     word of 1: 1
 *     stricter
 *     same
 *     states=3
 *     refused=4 8
 *     refused=23
 *     chain of 12: nodes=49
 *     chain of 13: refused=23
 *     chain of 256: refused=12
 *     64 steps: refused=0 states=65
 *     255 steps: refused=0 states=256
 *     register: states=2 value=511.255
 *     word of 1: 1
 *     register: nodes=28
 *     register: refused=6 0
 *     register file: states=3 lines=9
 *     value=511.255
 *     value=511.511
 *     same
 */
#ifndef GURVAZZE_H
#define GURVAZZE_H

#include <stddef.h>
#include <stdint.h>

#ifdef __cplusplus
extern "C" {
#endif

/* Every table (256 states, 16 events, two bytes an entry), every rule and every word has room in so many bytes; a word buffer has at least
 * so many. */
#define GURVAZZE_TABLE_BYTES 8192
#define GURVAZZE_RULE_BYTES 768
#define GURVAZZE_WORD_BYTES 16384

/* The same of a register's tables, five bytes an entry, and rules, six bytes a node. */
#define GURVAZZE_REGISTER_TABLE_BYTES 20480
#define GURVAZZE_REGISTER_RULE_BYTES 1536

/* What a trial yields for a pass: every event sequence ends in equal values, or some ends in one strictly below the rule's. The length of
 * a failing word is neither. */
#define GURVAZZE_SAME 0
#define GURVAZZE_STRICTER 65536

/* The table of a channel file's rule, value and next state, one byte each, by state and then event. Yields its numbers.
 * Refusals 4, 1 to 3, 5 to 8, 23, 9, 10, 13. Here and below, a variable is in order when a G lies between it and its own binder; refusal 9
 * is given only where none does. Refusal 23: a path with more than twelve V nodes, counted from the root. Refusal 10: more than 256
 * states. */
uint64_t gurvazze_table(const uint8_t *text, size_t text_length, uint8_t *to, size_t to_length);

/* The same of a register's channel file, whose lines are events, lines and rule, with event.low.high for an O token: five bytes an entry.
 * Yields its numbers, with the lines in the place of values and 0 in that of top. Refusal 20 is given where the lines are not 1 to 16, and 6
 * where a mask has a bit at or above their number. Refusals 4, 1, 20, 5 to 8, 23, 9, 10, 13. */
uint64_t gurvazze_register_table(const uint8_t *text, size_t text_length, uint8_t *to, size_t to_length);

/* The values of a channel file's rule on a sequence of events, one byte each. Yields 0. Refusals 4, 1 to 3, 5 to 8, 23, 9, 10,
 * 16, 13. */
uint64_t gurvazze_replay(const uint8_t *text, size_t text_length, const uint8_t *events, size_t events_length, uint8_t *to,
                         size_t to_length);

/* The same of a register's channel file, four bytes for each event: the low mask, then the high mask. Yields 0. Refusal 13 is given where the
 * buffer has fewer than four bytes for each event. Refusals 4, 1, 20, 5 to 8, 23, 9, 10, 16, 13. */
uint64_t gurvazze_register_replay(const uint8_t *text, size_t text_length, const uint8_t *events, size_t events_length, uint8_t *to,
                                  size_t to_length);

/* Trial of a device, of 1 to 64 states, against a channel file's rule. Yields GURVAZZE_SAME, 0, for a pass with equal values on every event
 * sequence, GURVAZZE_STRICTER, 65,536, for any other pass, and else the length of the failing word, 1 to 16,384. The word stands at the
 * front of the word buffer: the first word after whose last event the device's value is not at or below the rule's, the shortest, and
 * among those the one with the smaller event at the first difference. Word and length are fixed by the two tables.
 * A rule whose table has at most 64 states covers another of the same set-up, so that every device that satisfies it satisfies the other,
 * exactly if its gurvazze_table, as a device from state 0, passes against the other.
 * Refusals 4, 1 to 3, 5 to 8, 23, 9, 10, 11, 13. */
uint64_t gurvazze_trial(const uint8_t *text, size_t text_length, size_t device_states, size_t device_start, const uint8_t *device,
                        size_t device_length, uint8_t *word, size_t word_length);

/* The same of a register's device, five bytes an entry, against a register's channel file's rule; a mask bit at or above the line count is
 * refusal 11 in the device. Refusals 4, 1, 20, 5 to 8, 23, 9, 10, 11, 13. */
uint64_t gurvazze_register_trial(const uint8_t *text, size_t text_length, size_t device_states, size_t device_start, const uint8_t *device,
                                 size_t device_length, uint8_t *word, size_t word_length);

/* The table of a rule, both in bytes. Yields the number of states. Refusals 1 to 3, 5 to 8, 23, 9, 10, 13. */
uint64_t gurvazze_compile(size_t events, size_t values, size_t top, const uint8_t *meet, size_t meet_length, const uint8_t *rule,
                          size_t rule_length, uint8_t *to, size_t to_length);

/* The same over a register of so many lines, 1 to 16; refusal 20 is given for any other number. A mask bit at or above the line count is
 * refusal 6. Refusals 1, 20, 5 to 8, 23, 9, 10, 13. */
uint64_t gurvazze_register_compile(size_t events, size_t lines, const uint8_t *rule, size_t rule_length, uint8_t *to, size_t to_length);

/* Trial of a device, of 1 to 64 states, against a rule's table, of 1 to 256 states, from its state 0: a pass yields GURVAZZE_SAME or
 * GURVAZZE_STRICTER, and a failing word is the first here too. Refusals 1 to 3, 11, 13. */
uint64_t gurvazze_trial_table(size_t events, size_t values, size_t top, const uint8_t *meet, size_t meet_length, size_t states,
                              const uint8_t *table, size_t table_length, size_t device_states, size_t device_start,
                              const uint8_t *device, size_t device_length, uint8_t *word, size_t word_length);

/* The same over a register: table and device have five bytes an entry, and a mask bit at or above the line count is refusal 11.
 * Refusals 1, 20, 11, 13. */
uint64_t gurvazze_register_trial_table(size_t events, size_t lines, size_t states, const uint8_t *table, size_t table_length,
                                       size_t device_states, size_t device_start, const uint8_t *device, size_t device_length,
                                       uint8_t *word, size_t word_length);

/* The rule of a table, of 1 to 256 states, from a start, three bytes a node. Yields the number of nodes. Refusals 1 to 3, 11, 12, 23, 13.
 * What is written is always a rule that gurvazze_table and gurvazze_compile take. A path of it has a V node for each state that is open
 * there, and 23 is given for more than twelve. */
uint64_t gurvazze_rule(size_t events, size_t values, size_t top, const uint8_t *meet, size_t meet_length, size_t states, size_t start,
                       const uint8_t *table, size_t table_length, uint8_t *to, size_t to_length);

/* The same over a register, five bytes an entry of the table and six a node of the rule, which gurvazze_register_compile takes. A mask bit at
 * or above the line count is refusal 11. Refusals 1, 20, 11, 12, 23, 13. */
uint64_t gurvazze_register_rule(size_t events, size_t lines, size_t states, size_t start, const uint8_t *table, size_t table_length,
                                uint8_t *to, size_t to_length);

/* The number of the refusal; 0 where the call was accepted. */
static inline unsigned gurvazze_refusal(uint64_t answer) { return (unsigned)(answer & 255); }

/* The place of a refusal that has one. */
static inline uint64_t gurvazze_place(uint64_t answer) { return answer >> 8; }

/* What an accepted call yields. */
static inline uint64_t gurvazze_yield(uint64_t answer) { return answer >> 8; }

/* The numbers that gurvazze_table yields; gurvazze_register_table has lines for values and top. */
static inline unsigned gurvazze_states(uint64_t answer) { return (unsigned)(answer >> 8 & 65535); }
static inline unsigned gurvazze_events(uint64_t answer) { return (unsigned)(answer >> 24 & 255); }
static inline unsigned gurvazze_values(uint64_t answer) { return (unsigned)(answer >> 32 & 255); }
static inline unsigned gurvazze_top(uint64_t answer) { return (unsigned)(answer >> 40 & 255); }
static inline unsigned gurvazze_lines(uint64_t answer) { return (unsigned)(answer >> 32 & 255); }

/* A register's value in four bytes, of a node (from its third byte on) or of an entry: the masks of the lines that may be low and may be
 * high. */
static inline void gurvazze_put_masks(uint8_t *at, uint16_t low, uint16_t high)
{
    at[0] = (uint8_t)(low & 255);
    at[1] = (uint8_t)(low >> 8);
    at[2] = (uint8_t)(high & 255);
    at[3] = (uint8_t)(high >> 8);
}
static inline unsigned gurvazze_low(const uint8_t *at) { return at[0] + 256u * at[1]; }
static inline unsigned gurvazze_high(const uint8_t *at) { return at[2] + 256u * at[3]; }

#ifdef __cplusplus
}
#endif

#endif
