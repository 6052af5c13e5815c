/* Compile of a rule in bytes for both kinds of values, a register's trial and rule, and the three calls on a register's channel file: accepted
 * calls, each refusal, and what a call leaves in a lent buffer. Compiled and run by hosts/c/test. */
#include <stdio.h>
#include <stdlib.h>
#include <string.h>

#include "gurvazze.h"

enum { OLD = 170 };

static uint8_t buffer[GURVAZZE_REGISTER_TABLE_BYTES];
static int faults;

/* The buffer with its old contents. */
static uint8_t *lent(void)
{
    memset(buffer, OLD, sizeof buffer);
    return buffer;
}

/* Whether the buffer has its old contents from a place on. */
static int kept_from(size_t at)
{
    while (at < sizeof buffer && buffer[at] == OLD)
        at++;
    return at == sizeof buffer;
}

/* The call was refused so, at a place or, with none, at 0, and left the buffer as it was. */
static void refused(int line, uint64_t answer, unsigned number, unsigned place)
{
    if (answer != number + 256u * place || !kept_from(0)) {
        printf("registers.c:%d: %u at %u\n", line, gurvazze_refusal(answer), (unsigned)gurvazze_place(answer));
        faults++;
    }
}

/* The call yielded this and put these bytes at the front of the buffer. */
static void puts_bytes(int line, uint64_t answer, uint64_t yields, const uint8_t *output, size_t length)
{
    if (answer != 256 * yields || memcmp(buffer, output, length) != 0 || !kept_from(length)) {
        printf("registers.c:%d: refusal %u, yields %u\n", line, gurvazze_refusal(answer), (unsigned)gurvazze_yield(answer));
        faults++;
    }
}

#define REFUSED(call, number, place) (lent(), refused(__LINE__, (call), (number), (place)))
#define PUTS(call, yields, output) (lent(), puts_bytes(__LINE__, (call), (yields), (output), sizeof(output)))
#define KEEPS(call, yields) (lent(), puts_bytes(__LINE__, (call), (yields), buffer, 0))

static const uint8_t four[] = {0, 0, 0, 0, 0, 1, 0, 1, 0, 0, 2, 2, 0, 1, 2, 3};

/* With two events and the four-value set, or two lines. */
static uint64_t numbers(const uint8_t *rule, size_t nodes)
{
    return gurvazze_compile(2, 4, 3, four, sizeof four, rule, 3 * nodes, buffer, sizeof buffer);
}

/* The same nodes with their values as low masks. */
static uint64_t masks(const uint8_t *rule, size_t nodes)
{
    static uint8_t wide[6 * 257];
    memset(wide, 0, sizeof wide);
    for (size_t node = 0; node < nodes; node++) {
        memcpy(wide + 6 * node, rule + 3 * node, 2);
        gurvazze_put_masks(wide + 6 * node + 2, rule[3 * node + 2], 0);
    }
    return gurvazze_register_compile(2, 2, wide, 6 * nodes, buffer, sizeof buffer);
}

/* Rules that both kinds refuse. */
static void refused_rules(uint64_t (*compile)(const uint8_t *, size_t))
{
    static const uint8_t ts[3 * 257], unknown[] = {6, 0, 0}, event[] = {2, 2, 0, 0, 0, 0}, value[] = {3, 0, 4}, unused[] = {0, 0, 1},
        short_of[] = {4, 0, 0, 0, 0, 0}, unbound[] = {5, 0, 0, 2, 0, 0, 1, 1, 0}, unprotected[] = {5, 0, 0, 1, 0, 0};
    static uint8_t deep[3 * 14], loops[3 * 38];
    for (size_t node = 0; node < 13; node++)
        deep[3 * node] = 5;
    /* A, V, 16 times G0, X0, V, 17 times G0, X0 */
    for (size_t node = 0; node < 38; node++)
        loops[3 * node] = node == 0 ? 4 : node == 1 || node == 19 ? 5 : node == 18 || node == 37 ? 1 : 2;
    REFUSED(compile(ts, 0), 5, 0);
    REFUSED(compile(ts, 257), 5, 0);
    REFUSED(compile(unknown, 1), 6, 0);
    REFUSED(compile(event, 2), 6, 0);
    REFUSED(compile(value, 1), 6, 0);
    REFUSED(compile(unused, 1), 6, 0);
    REFUSED(compile(short_of, 2), 7, 2);
    REFUSED(compile(ts, 2), 7, 1);
    REFUSED(compile(unbound, 3), 8, 2);
    REFUSED(compile(deep, 14), 23, 0);
    REFUSED(compile(unprotected, 2), 9, 1);
    REFUSED(compile(loops, 38), 10, 0);
}

static void compiles(void)
{
    static const uint8_t output[] = {3, 1, 1, 1, 3, 1, 3, 1}, rule[] = {3, 1, 1}, t[] = {0, 0, 0, 0};
    PUTS(gurvazze_compile(2, 4, 3, four, sizeof four, rule, sizeof rule, buffer, sizeof buffer), 2, output);
    REFUSED(gurvazze_compile(2, 4, 3, four, sizeof four, rule, sizeof rule, buffer, sizeof output - 1), 13, 0);
    refused_rules(numbers);
    REFUSED(gurvazze_compile(2, 4, 3, four, sizeof four, t, 4, buffer, sizeof buffer), 5, 0);
    REFUSED(gurvazze_compile(0, 0, 3, four, sizeof four, t, 4, buffer, sizeof buffer), 1, 0);
    REFUSED(gurvazze_compile(17, 0, 3, four, sizeof four, t, 4, buffer, sizeof buffer), 1, 0);
    REFUSED(gurvazze_compile(2, 0, 3, four, 15, t, 4, buffer, sizeof buffer), 2, 0);
    REFUSED(gurvazze_compile(2, 4, 4, four, 15, t, 4, buffer, sizeof buffer), 2, 0);
    REFUSED(gurvazze_compile(2, 4, 3, four, 15, t, 4, buffer, sizeof buffer), 3, 0);
}

static void register_compiles(void)
{
    /* Lines 0 to 8 may be low and 0 to 7 high on event 1. */
    static const uint8_t rule[] = {3, 1, 255, 1, 255, 0},
                         output[] = {255, 1, 255, 1, 1, 255, 1, 255, 0, 1, 255, 1, 255, 1, 1, 255, 1, 255, 1, 1}, t[7];
    PUTS(gurvazze_register_compile(2, 9, rule, sizeof rule, buffer, sizeof buffer), 2, output);
    REFUSED(gurvazze_register_compile(2, 9, rule, sizeof rule, buffer, sizeof output - 1), 13, 0);
    REFUSED(gurvazze_register_compile(2, 8, rule, sizeof rule, buffer, sizeof buffer), 6, 0);
    refused_rules(masks);
    for (size_t length = 1; length < 6; length++)
        REFUSED(gurvazze_register_compile(2, 9, t, length, buffer, sizeof buffer), 5, 0);
    REFUSED(gurvazze_register_compile(0, 0, t, 7, buffer, sizeof buffer), 1, 0);
    REFUSED(gurvazze_register_compile(17, 0, t, 7, buffer, sizeof buffer), 1, 0);
    REFUSED(gurvazze_register_compile(2, 0, t, 7, buffer, sizeof buffer), 20, 0);
    REFUSED(gurvazze_register_compile(2, 17, t, 7, buffer, sizeof buffer), 20, 0);
    REFUSED(gurvazze_register_compile(2, (size_t)-1, t, 7, buffer, sizeof buffer), 20, 0);
}

/* One event and two lines: open for ever; low on the first event and open on each later one; low for ever. */
static const uint8_t open_lines[] = {3, 0, 3, 0, 0}, low_once[] = {3, 0, 0, 0, 1, 3, 0, 3, 0, 1}, low_lines[] = {3, 0, 0, 0, 0};

/* A trial of this device against open lines, or of open lines from this start against this table. */
static uint64_t trial(int device, size_t states, size_t start, const uint8_t *bytes, size_t length)
{
    if (device)
        return gurvazze_register_trial_table(1, 2, 1, open_lines, 5, states, start, bytes, length, buffer, sizeof buffer);
    return gurvazze_register_trial_table(1, 2, states, bytes, length, 1, start, open_lines, 5, buffer, sizeof buffer);
}

static uint64_t rule_of(size_t states, size_t start, const uint8_t *bytes, size_t length)
{
    return gurvazze_register_rule(1, 2, states, start, bytes, length, buffer, sizeof buffer);
}

/* 11 for a table as device, as the rule's table and as that of a written rule. */
static void refused_table(size_t states, size_t start, const uint8_t *bytes, size_t length)
{
    REFUSED(trial(1, states, start, bytes, length), 11, 0);
    REFUSED(trial(0, states, start, bytes, length), 11, 0);
    REFUSED(rule_of(states, start, bytes, length), 11, 0);
}

/* A chain of states whose last returns to itself. */
static const uint8_t *chain(unsigned states)
{
    static uint8_t bytes[5 * 257];
    for (unsigned state = 0; state < states; state++) {
        gurvazze_put_masks(bytes + 5 * state, 3, 3);
        bytes[5 * state + 4] = (uint8_t)(state + 1 < states ? state + 1 : state);
    }
    return bytes;
}

static void refused_tables(void)
{
    static const uint8_t low_bit[] = {4, 0, 3, 0, 0}, low_byte[] = {3, 1, 3, 0, 0}, high_bit[] = {3, 0, 4, 0, 0}, high_byte[] = {3, 0, 3, 128, 0},
                         next[] = {3, 0, 3, 0, 1};
    refused_table(0, 0, open_lines, 0);
    refused_table(1, 1, open_lines, 5);
    refused_table(1, 0, open_lines, 4);
    refused_table(1, 0, low_once, 6);
    refused_table(2, 0, open_lines, 5);
    refused_table(1, 0, low_bit, 5);
    refused_table(1, 0, low_byte, 5);
    refused_table(1, 0, high_bit, 5);
    refused_table(1, 0, high_byte, 5);
    refused_table(1, 0, next, 5);
    refused_table(257, 0, chain(257), 5 * 257);
    REFUSED(trial(1, 65, 0, chain(65), 5 * 65), 11, 0);
    KEEPS(trial(1, 64, 0, chain(64), 5 * 64), GURVAZZE_SAME);
    KEEPS(trial(0, 256, 0, chain(256), 5 * 256), GURVAZZE_SAME);
}

static void register_trials(void)
{
    static const uint8_t word[] = {0, 0};
    KEEPS(trial(1, 2, 1, low_once, 10), GURVAZZE_SAME);
    KEEPS(trial(1, 2, 0, low_once, 10), GURVAZZE_STRICTER);
    PUTS(gurvazze_register_trial_table(1, 2, 1, low_lines, 5, 2, 0, low_once, 10, buffer, sizeof buffer), 2, word);
    REFUSED(gurvazze_register_trial_table(1, 2, 1, low_lines, 5, 2, 0, low_once, 10, buffer, GURVAZZE_WORD_BYTES - 1), 13, 0);
    REFUSED(gurvazze_register_trial_table(0, 0, 1, low_lines, 4, 2, 0, low_once, 10, buffer, 1), 1, 0);
    REFUSED(gurvazze_register_trial_table(17, 0, 1, low_lines, 4, 2, 0, low_once, 10, buffer, 1), 1, 0);
    REFUSED(gurvazze_register_trial_table(1, 0, 1, low_lines, 4, 2, 0, low_once, 10, buffer, 1), 20, 0);
    REFUSED(gurvazze_register_trial_table(1, 17, 1, low_lines, 4, 2, 0, low_once, 10, buffer, 1), 20, 0);
    REFUSED(gurvazze_register_trial_table(1, 2, 1, low_lines, 4, 2, 0, low_once, 10, buffer, 1), 11, 0);
}

static void register_rules(void)
{
    /* V A G0 X0 and O0 with both lines low, or open as from state 1. */
    static const uint8_t low[] = {5, 0, 0, 0, 0, 0, 4, 0, 0, 0, 0, 0, 2, 0, 0, 0, 0, 0, 1, 0, 0, 0, 0, 0, 3, 0, 3, 0, 0, 0},
                         open[] = {5, 0, 0, 0, 0, 0, 4, 0, 0, 0, 0, 0, 2, 0, 0, 0, 0, 0, 1, 0, 0, 0, 0, 0, 3, 0, 3, 0, 3, 0};
    PUTS(rule_of(1, 0, low_lines, 5), 5, low);
    PUTS(rule_of(2, 1, low_once, 10), 5, open);
    REFUSED(gurvazze_register_rule(1, 2, 1, 0, low_lines, 5, buffer, sizeof low - 1), 13, 0);
    REFUSED(gurvazze_register_rule(1, 2, 13, 0, chain(13), 5 * 13, buffer, 0), 23, 0);
    REFUSED(gurvazze_register_rule(1, 2, 256, 0, chain(256), 5 * 256, buffer, 0), 12, 0);
    REFUSED(gurvazze_register_rule(0, 0, 1, 0, low_lines, 4, buffer, 0), 1, 0);
    REFUSED(gurvazze_register_rule(17, 0, 1, 0, low_lines, 4, buffer, 0), 1, 0);
    REFUSED(gurvazze_register_rule(1, 0, 1, 0, low_lines, 4, buffer, 0), 20, 0);
    REFUSED(gurvazze_register_rule(1, 17, 1, 0, low_lines, 4, buffer, 0), 20, 0);
}

/* A register's file with these lines, in a call. */
#define TEXT(text) (const uint8_t *)(text), strlen(text)
#define FILE_OF(events, lines, rule) TEXT("events=" events "\nlines=" lines "\nrule=" rule "\n")

static uint64_t table_of(const uint8_t *text, size_t length) { return gurvazze_register_table(text, length, buffer, sizeof buffer); }

static uint64_t replay_by(const uint8_t *text, size_t length)
{
    static const uint8_t events[] = {255};
    return gurvazze_register_replay(text, length, events, sizeof events, buffer, 3);
}

static uint64_t trial_by(const uint8_t *text, size_t length)
{
    return gurvazze_register_trial(text, length, 0, 0, open_lines, 0, buffer, 1);
}

/* What a file meets comes before what events, devices and short buffers meet. */
static void refused_file(const char *text, unsigned number, unsigned place)
{
    REFUSED(table_of(TEXT(text)), number, place);
    REFUSED(replay_by(TEXT(text)), number, place);
    REFUSED(trial_by(TEXT(text)), number, place);
}

static void refused_files(void)
{
    static char steps[1024] = "events=1\nlines=1\nrule=", loops[256] = "events=1\nlines=1\nrule=A V ";
    for (size_t step = 0; step < 256; step++)
        strcat(steps, "G0 ");
    strcat(steps, "T\n");
    for (size_t step = 0; step < 33; step++)
        strcat(loops, step == 16 ? "X0 V G0 " : "G0 ");
    strcat(loops, "X0\n");
    refused_file("", 4, 0);
    refused_file("events=2\nvalues=4\n", 4, 9);
    refused_file("events=2\nlines=9\nrule=O0.1\n", 4, 26);
    refused_file("events=2\nlines=9\nrule=O0.100000.1\n", 4, 30);
    refused_file("events=0\nlines=0\nrule=A\n", 1, 0);
    refused_file("events=17\nlines=17\nrule=A\n", 1, 0);
    refused_file("events=2\nlines=0\nrule=A\n", 20, 0);
    refused_file("events=2\nlines=17\nrule=A\n", 20, 0);
    refused_file("events=2\nlines=256\nrule=T\n", 20, 0);
    refused_file(steps, 5, 0);
    refused_file("events=2\nlines=2\nrule=A T O0.4.0\n", 6, 2);
    refused_file("events=2\nlines=2\nrule=A O0.0.4 T\n", 6, 1);
    refused_file("events=2\nlines=16\nrule=O0.65536.0\n", 6, 0);
    refused_file("events=2\nlines=2\nrule=O2.0.0\n", 6, 0);
    refused_file("events=2\nlines=2\nrule=A T\n", 7, 2);
    refused_file("events=2\nlines=2\nrule=T T\n", 7, 1);
    refused_file("events=2\nlines=2\nrule=V G0 X1\n", 8, 2);
    refused_file("events=2\nlines=2\nrule=V V V V V V V V V V V V V X0\n", 23, 0);
    refused_file("events=2\nlines=2\nrule=V X0\n", 9, 1);
    refused_file(loops, 10, 0);
}

/* Lines 0 to 8 may be low and 0 to 7 high on the first event 1; both masks have two bytes. */
#define LATE_LINES FILE_OF("2", "9", "A O1.511.255 V G1 X0")

static void register_tables_of_files(void)
{
    static const uint8_t output[] = {255, 1, 255, 1, 1, 255, 1, 255, 0, 2, 255, 1, 255, 1, 1, 255, 1, 255, 1, 1, 255, 1, 255, 1, 1, 255, 1, 255, 1, 2},
                         one_line[] = {1, 0, 1, 0, 0};
    PUTS(table_of(LATE_LINES), 3 + 65536u * 2 + (uint64_t)65536 * 256 * 9, output);
    REFUSED(gurvazze_register_table(LATE_LINES, buffer, sizeof output - 1), 13, 0);
    PUTS(table_of(FILE_OF("1", "1", "T")), 1 + 65536u + (uint64_t)65536 * 256, one_line);
    REFUSED(gurvazze_register_table(FILE_OF("1", "1", "T"), buffer, 4), 13, 0);
}

static void register_replays(void)
{
    static const uint8_t events[] = {1, 0, 1, 2}, output[] = {255, 1, 255, 0, 255, 1, 255, 1, 255, 1, 255, 1},
                         other[] = {1, 2, 3, 4};
    PUTS(gurvazze_register_replay(LATE_LINES, events, 3, buffer, sizeof output), 0, output);
    PUTS(gurvazze_register_replay(FILE_OF("1", "16", "O0.513.1027"), events + 1, 1, buffer, sizeof buffer), 0, other);
    KEEPS(gurvazze_register_replay(LATE_LINES, events, 0, buffer, 0), 0);
    REFUSED(gurvazze_register_replay(LATE_LINES, events, 3, buffer, sizeof output - 1), 13, 0);
    REFUSED(gurvazze_register_replay(LATE_LINES, events, 4, buffer, 0), 16, 0);
}

static void register_trials_by_files(void)
{
    static const uint8_t word[] = {0, 0};
    static char steps[256] = "events=1\nlines=2\nrule=";
    KEEPS(gurvazze_register_trial(FILE_OF("1", "2", "O0.3.0"), 2, 0, low_once, 10, buffer, sizeof buffer), GURVAZZE_SAME);
    KEEPS(gurvazze_register_trial(FILE_OF("1", "2", "T"), 2, 0, low_once, 10, buffer, sizeof buffer), GURVAZZE_STRICTER);
    PUTS(gurvazze_register_trial(FILE_OF("1", "2", "G0 O0.3.0"), 2, 0, low_once, 10, buffer, sizeof buffer), 2, word);
    REFUSED(gurvazze_register_trial(FILE_OF("1", "2", "T"), 2, 0, low_once, 10, buffer, GURVAZZE_WORD_BYTES - 1), 13, 0);
    REFUSED(gurvazze_register_trial(FILE_OF("1", "2", "T"), 2, 2, low_once, 10, buffer, 1), 11, 0);
    REFUSED(gurvazze_register_trial(FILE_OF("1", "2", "T"), 2, 0, low_once, 9, buffer, 1), 11, 0);
    REFUSED(gurvazze_register_trial(FILE_OF("1", "1", "T"), 2, 0, low_once, 10, buffer, 1), 11, 0);
    /* a table of 65 states, one more than a small one has */
    for (size_t step = 0; step < 64; step++)
        strcat(steps, "G0 ");
    strcat(steps, "T\n");
    KEEPS(gurvazze_register_trial(TEXT(steps), 64, 0, chain(64), 5 * 64, buffer, sizeof buffer), GURVAZZE_SAME);
    REFUSED(gurvazze_register_trial(TEXT(steps), 65, 0, chain(65), 5 * 65, buffer, sizeof buffer), 11, 0);
}

int main(void)
{
    compiles();
    register_compiles();
    refused_tables();
    register_trials();
    register_rules();
    refused_files();
    register_tables_of_files();
    register_replays();
    register_trials_by_files();
    if (faults == 0)
        printf("the calls of registers.c answer as they must\n");
    return faults == 0 ? EXIT_SUCCESS : EXIT_FAILURE;
}
