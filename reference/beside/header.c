/* include/waroth.h, read by a C and by a C++ compiler and held against the library: what it declares is there, each limit
 * is the one that the calls keep, the paper's river of one pool comes out of a day's calls as it should, and what is
 * refused is read as nothing else. */
#include "waroth.h"

#include <assert.h>
#include <stdio.h>
#include <string.h>

/* "A river of one pool", a line each. */
static const char domain[] =
    "A10102\n"
    "A20600C80140012C\n"
    "A303000003\n"
    "A403010001\n"
    "A403020002\n"
    "A50800241100001000DC\n"
    "A50801241100001000DC\n"
    "A60A002A001311000010000E\n"
    "A60A012A0013110000100006\n"
    "A90725110000100118\n";

static const char sheet[] = "B1020100\nB1020002\n";

/* The first crew lets out less, and the goal asks for less. */
static const char low_water[] = "AF0C02A6002A001311000010000A\nAF0904A92511000010010E\n";

/* Another office's, over that one: the second crew lets out less, and the goal asks for less still. */
static const char dredging[] = "AF0904A92511000010010A\nAF0C03A6012A0013110000100002\n";

/* The two in one, by law number. */
static const char combined[] =
    "AF0C02A6002A001311000010000A\n"
    "AF0C03A6012A0013110000100002\n"
    "AF0904A92511000010010A\n";

enum { LINES = 10, DOMAIN_SIZE = sizeof domain - 1, NAMES = 2, SHEET_SIZE = sizeof sheet - 1 };
enum { LOW_WATER_SIZE = sizeof low_water - 1, LOW_WATER_BYTES = (LOW_WATER_SIZE - 2) / 2, LAWS = 5 };
enum { COMBINED_BYTES = (sizeof combined - 1 - 3) / 2, LONGER = WAROTH_SUPPLEMENT + 1 };

static uint8_t store[WAROTH_STORE], supplement[WAROTH_SUPPLEMENT], names[WAROTH_SHEET];
static uint8_t lower[WAROTH_SUPPLEMENT], upper[WAROTH_SUPPLEMENT], expected[LONGER], result[LONGER];
static uint8_t text[WAROTH_DOMAIN_TEXT], output[WAROTH_OUTPUT], report_input[2 * WAROTH_INPUT];
static int16_t levels[WAROTH_LEVELS];
static struct waroth_session session;

static const uint8_t idle[] = {0, 0}, first[] = {1, 0}, both[] = {1, 2}, astray[] = {0, 1}, twice[] = {1, 0, 1, 0};
static const uint8_t seven[] = {1, 0, 1, 0, 1, 0, 1, 0, 1, 0, 1, 0, 1, 0};

static_assert(WAROTH_SUPPLEMENT == 16000 && WAROTH_LAWS * (2 + WAROTH_PAYLOAD) <= WAROTH_SUPPLEMENT, "every law replaced");
static_assert(WAROTH_SHEET == 1024 && WAROTH_LEVELS == 2080, "the paper's buffers");
static_assert(WAROTH_SHEETS == 40 && WAROTH_TOO_MANY_SHEETS == 19, "the paper's numbers of a report");
static_assert(WAROTH_ZERO_DIVISOR == 7 && WAROTH_BEYOND == 9, "the paper's kinds of a law without value");
static_assert(WAROTH_TOO_FAST == 10 && WAROTH_CHANGE == 32767, "the paper's kind and limit of a change");
static_assert(WAROTH_REPORT_INPUT == 2460205, "what decides a report");
static_assert(WAROTH_DOMAIN_TEXT == 33447 && WAROTH_SHEET_TEXT == 2368, "the longest texts");
static_assert(sizeof(struct waroth_session) == 4 * sizeof(size_t) + WAROTH_SHEET + sizeof session.log, "no gaps");

enum { TOO_MANY_AGENTS = WAROTH_AGENTS + 1, TOO_FEW_LEVELS = WAROTH_LEVELS - 1 };

static const uint8_t *bytes(const char *characters)
{
    return (const uint8_t *)characters;
}

#define EXPECT(what)         \
    do {                     \
        if (!(what))         \
            return __LINE__; \
    } while (0)

/* What every refused answer is: not 0, by its lower half alone no count, no 0 and nothing that was done, no sheet of any
 * number of steps, a domain of no agents, and a law of no bytes. */
static int refuses(uint64_t answer, unsigned number)
{
    uint32_t kept = (uint32_t)answer;
    return waroth_refusal(answer) == number && waroth_count(answer) == 0 && waroth_steps(answer) == -1 &&
           waroth_agents(answer) == 0 && waroth_fluents(answer) == 0 && waroth_entries(answer) == 0 &&
           waroth_laws(answer) == 0 && waroth_replaced(answer) == 0 && waroth_place(answer) == 0 &&
           waroth_size(answer) == 0 && answer != 0 && kept >> 31 == 1;
}

/* Where a call knows no lines, its lowest byte says it too. */
static int refuses_alone(uint64_t answer, unsigned number)
{
    return refuses(answer, number) && (uint8_t)answer == number;
}

static int refuses_at(uint64_t answer, unsigned number, uint32_t line)
{
    return refuses(answer, number) && waroth_line(answer) == line;
}

/* A refused judgement is neither accepted nor a fault, also by its lower half alone, and has no states. */
static int refuses_to_judge(uint64_t answer, unsigned number)
{
    uint32_t kept = (uint32_t)answer;
    return refuses_alone(answer, number) && waroth_kind(answer) == WAROTH_REFUSED &&
           waroth_kind(kept) == WAROTH_REFUSED && waroth_kind(kept) != WAROTH_ACCEPTED &&
           waroth_number(kept) == number && waroth_states(answer) == 0;
}

/* A judgement is not 0, and the same by its lower half alone. */
static int judges(uint64_t answer, unsigned kind, unsigned step, unsigned number, unsigned states)
{
    return waroth_refusal(answer) == 0 && answer != 0 && answer == (uint32_t)answer && answer >> 31 == 0 &&
           waroth_kind(answer) == kind && waroth_step(answer) == step && waroth_number(answer) == number &&
           waroth_states(answer) == states;
}

static int counts(uint64_t answer, uint32_t count)
{
    return waroth_refusal(answer) == 0 && waroth_count(answer) == count && waroth_line(answer) == 0;
}

static int domains(void)
{
    uint64_t answer;
    EXPECT(refuses_at(waroth_read_domain(bytes(domain), DOMAIN_SIZE, store, WAROTH_STORE - 1), WAROTH_NO_ROOM, 0));
    EXPECT(refuses_at(waroth_read_domain(bytes(domain), DOMAIN_SIZE - 1, store, WAROTH_STORE), WAROTH_BAD_LINE, LINES));
    EXPECT(refuses_at(waroth_read_domain(bytes(domain), 0, store, WAROTH_STORE), WAROTH_INCOMPLETE, 0));
    EXPECT(refuses(waroth_write_domain(store, WAROTH_STORE, text, sizeof text), WAROTH_NOT_DOMAIN));
    EXPECT(refuses_alone(waroth_counts(store, WAROTH_STORE), WAROTH_NOT_DOMAIN));
    EXPECT(counts(waroth_read_domain(bytes(domain), DOMAIN_SIZE, store, WAROTH_STORE), (DOMAIN_SIZE - LINES) / 2));
    EXPECT(refuses(waroth_write_domain(store, WAROTH_STORE, text, DOMAIN_SIZE - 1), WAROTH_NO_ROOM));
    EXPECT(counts(waroth_write_domain(store, WAROTH_STORE, text, sizeof text), DOMAIN_SIZE));
    EXPECT(memcmp(text, domain, DOMAIN_SIZE) == 0);
    answer = waroth_counts(store, WAROTH_STORE);
    EXPECT(waroth_refusal(answer) == 0 && waroth_agents(answer) == NAMES && waroth_fluents(answer) == 1);
    EXPECT(waroth_entries(answer) == 2 && waroth_laws(answer) == 5);
    EXPECT(waroth_frame(store, WAROTH_STORE, 0) == 3);
    EXPECT(waroth_frame(store, WAROTH_STORE, (DOMAIN_SIZE - LINES) / 2) == 0);
    return 0;
}

static int sheets(void)
{
    EXPECT(refuses_at(waroth_read_sheet(bytes(sheet), SHEET_SIZE, NAMES, names, WAROTH_SHEET - 1), WAROTH_NO_ROOM, 0));
    EXPECT(refuses_at(waroth_read_sheet(bytes(sheet), SHEET_SIZE, TOO_MANY_AGENTS, names, WAROTH_SHEET), WAROTH_BAD_PAYLOAD, 0));
    EXPECT(refuses_at(waroth_read_sheet(bytes(sheet), SHEET_SIZE, NAMES + 1, names, WAROTH_SHEET), WAROTH_NOT_WHOLE, 1));
    EXPECT(waroth_steps(waroth_read_sheet(bytes(sheet), 0, NAMES, names, WAROTH_SHEET)) == 0);
    EXPECT(waroth_steps(waroth_read_sheet(bytes(sheet), SHEET_SIZE, NAMES, names, WAROTH_SHEET)) == 2);
    EXPECT(refuses(waroth_write_sheet(names, 2 * NAMES, 0, text, sizeof text), WAROTH_BAD_PAYLOAD));
    EXPECT(refuses(waroth_write_sheet(names, NAMES + 1, NAMES, text, sizeof text), WAROTH_NOT_WHOLE));
    EXPECT(refuses(waroth_write_sheet(names, WAROTH_STEPS + 1, 1, text, sizeof text), WAROTH_TOO_LONG));
    EXPECT(refuses(waroth_write_sheet(names, WAROTH_SHEET, WAROTH_AGENTS, text, WAROTH_SHEET_TEXT - 1), WAROTH_NO_ROOM));
    EXPECT(counts(waroth_write_sheet(names, WAROTH_SHEET, WAROTH_AGENTS, text, WAROTH_SHEET_TEXT), WAROTH_SHEET_TEXT));
    EXPECT(counts(waroth_write_sheet(names, 2 * NAMES, NAMES, text, sizeof text), SHEET_SIZE));
    EXPECT(memcmp(text, sheet, SHEET_SIZE) == 0);
    return 0;
}

static uint64_t supplement_read(const char *lines, size_t size)
{
    return waroth_read_supplement(store, WAROTH_STORE, bytes(lines), size, supplement, WAROTH_SUPPLEMENT);
}

static uint64_t law(size_t number)
{
    return waroth_law(store, WAROTH_STORE, supplement, WAROTH_SUPPLEMENT, number);
}

static int stands(uint64_t answer, unsigned replaced, size_t place, size_t size)
{
    return waroth_refusal(answer) == 0 && answer != 0 && answer >> 25 == 0 && waroth_replaced(answer) == replaced &&
           waroth_place(answer) == place && waroth_size(answer) == size;
}

/* Lines for the river that are refused, each after one that is in order. */
static int refused_supplements(void)
{
    static const struct {
        const char *line;
        unsigned number;
    } cases[] = {
        {"AF0304A92a\n", WAROTH_BAD_LINE},
        {"AF0404A92A\n", WAROTH_BAD_COUNT},
        {"A9012A\n", WAROTH_BAD_KIND},
        {"AF02FFFF\n", WAROTH_BAD_PAYLOAD},
        {"AF0305A92A\n", WAROTH_OTHER_LAW},
        {"AF0304A82A\n", WAROTH_OTHER_LAW},
        {"AF0401A5002A\n", WAROTH_OTHER_LAW},
        {"AF0400A5002A\n", WAROTH_OTHER_LAW},
        {"AF0301A501\n", WAROTH_BAD_PAYLOAD},
    };
    char lines[64];
    size_t i;
    for (i = 0; i < sizeof cases / sizeof cases[0]; i++) {
        int length = snprintf(lines, sizeof lines, "AF0400A5002A\n%s", cases[i].line);
        supplement[0] = supplement[WAROTH_SUPPLEMENT - 1] = 1;
        EXPECT(refuses_at(supplement_read(lines, (size_t)length), cases[i].number, 2));
        EXPECT(supplement[0] == 0 && supplement[WAROTH_SUPPLEMENT - 1] == 0);
    }
    return 0;
}

static int supplements(void)
{
    supplement[0] = 1;
    EXPECT(refuses_at(waroth_read_supplement(store, 0, bytes("x"), 1, supplement, WAROTH_SUPPLEMENT - 1), WAROTH_NO_ROOM, 0));
    EXPECT(supplement[0] == 1);
    EXPECT(refuses_at(waroth_read_supplement(store, 0, bytes("x"), 1, supplement, WAROTH_SUPPLEMENT), WAROTH_NOT_DOMAIN, 0));
    EXPECT(supplement[0] == 0);
    EXPECT(counts(supplement_read("", 0), 0));
    EXPECT(stands(law(LAWS - 1), 0, 72, 7));
    EXPECT(counts(supplement_read(low_water, LOW_WATER_SIZE), LOW_WATER_BYTES));
    EXPECT(supplement[LOW_WATER_BYTES] == 0);
    EXPECT(stands(law(0), 0, 28, 8) && store[28] == 0);
    EXPECT(stands(law(2), 1, 4, 10) && supplement[4] == 0 && supplement[13] == 10);
    EXPECT(stands(law(LAWS - 1), 1, 18, 7) && supplement[18] == 0x25);
    EXPECT(refuses_alone(law(LAWS), WAROTH_OTHER_LAW));
    EXPECT(refuses_alone(law(SIZE_MAX), WAROTH_OTHER_LAW));
    EXPECT(refuses_alone(waroth_law(store, 0, supplement, WAROTH_SUPPLEMENT, LAWS), WAROTH_NOT_DOMAIN));
    EXPECT(refuses_alone(waroth_law(store, WAROTH_STORE, supplement, 3, LAWS), WAROTH_NOT_DOMAIN));
    EXPECT(waroth_frame(supplement, WAROTH_SUPPLEMENT, 0) == 14);
    return 0;
}

static uint64_t judged(const uint8_t *of, size_t size)
{
    return waroth_judge(store, WAROTH_STORE, of, size, levels, WAROTH_LEVELS);
}

static int judgements(void)
{
    levels[0] = levels[3] = -1;
    EXPECT(refuses_to_judge(waroth_judge(store, WAROTH_STORE, names, 2 * NAMES, levels, TOO_FEW_LEVELS), WAROTH_NO_ROOM));
    EXPECT(refuses_to_judge(waroth_judge(store, 0, names, 2 * NAMES, levels, WAROTH_LEVELS), WAROTH_NOT_DOMAIN));
    EXPECT(refuses_to_judge(judged(names, NAMES + 1), WAROTH_NOT_WHOLE));
    EXPECT(refuses_to_judge(judged(names, NAMES * (WAROTH_STEPS + 1)), WAROTH_TOO_LONG));
    EXPECT(levels[0] == -1);
    EXPECT(judges(judged(names, 2 * NAMES), WAROTH_ACCEPTED, 0, 0, 3));
    EXPECT(levels[0] == 300 && levels[1] == 286 && levels[2] == 280 && levels[3] == -1);
    EXPECT(judges(judged(names, 0), WAROTH_ACCEPTED, 0, 0, 1));
    EXPECT(judges(judged(idle, NAMES), WAROTH_ACCEPTED, 0, 0, 2));
    EXPECT(judges(judged(astray, NAMES), WAROTH_MISPLACED, 1, 1, 1));
    EXPECT(judges(judged(both, NAMES), WAROTH_CONFLICT, 1, 3, 1));
    EXPECT(judges(judged(twice, 2 * NAMES), WAROTH_GOAL, 2, 4, 3));
    EXPECT(judges(judged(seven, 7 * NAMES), WAROTH_BARRED, 7, 0, 7));
    return 0;
}

static uint64_t judged_under(size_t supplement_size, const uint8_t *of, size_t size, size_t room)
{
    return waroth_judge_under(store, WAROTH_STORE, supplement, supplement_size, of, size, levels, room);
}

static int judgements_under(void)
{
    levels[0] = levels[3] = -1;
    EXPECT(refuses_to_judge(judged_under(1, names, 1, TOO_FEW_LEVELS), WAROTH_NO_ROOM));
    EXPECT(refuses_to_judge(judged_under(1, names, 1, WAROTH_LEVELS), WAROTH_NOT_DOMAIN));
    EXPECT(refuses_to_judge(waroth_judge_under(store, 0, supplement, 0, names, 1, levels, WAROTH_LEVELS), WAROTH_NOT_DOMAIN));
    EXPECT(refuses_to_judge(judged_under(0, names, 1, WAROTH_LEVELS), WAROTH_NOT_WHOLE));
    EXPECT(refuses_to_judge(judged_under(0, names, NAMES * (WAROTH_STEPS + 1), WAROTH_LEVELS), WAROTH_TOO_LONG));
    EXPECT(levels[0] == -1);
    EXPECT(judges(judged_under(0, twice, 2 * NAMES, WAROTH_LEVELS), WAROTH_GOAL, 2, 4, 3));
    EXPECT(levels[1] == 286 && levels[2] == 272 && levels[3] == -1);
    EXPECT(judges(judged_under(LOW_WATER_BYTES, twice, 2 * NAMES, WAROTH_LEVELS), WAROTH_ACCEPTED, 0, 0, 3));
    EXPECT(levels[0] == 300 && levels[1] == 290 && levels[2] == 280 && levels[3] == -1);
    EXPECT(judges(judged_under(WAROTH_SUPPLEMENT, seven, 7 * NAMES, WAROTH_LEVELS), WAROTH_GOAL, 7, 4, 8));
    return 0;
}

static uint64_t read_into(uint8_t *buffer, const char *lines)
{
    return waroth_read_supplement(store, WAROTH_STORE, bytes(lines), strlen(lines), buffer, WAROTH_SUPPLEMENT);
}

/* Lays as many bytes of one as said over as many of the other, in a longer buffer than is asked for. */
static uint64_t laid(const uint8_t *below, size_t below_size, const uint8_t *above, size_t above_size)
{
    memset(result, 0xEE, sizeof result);
    return waroth_lay(store, WAROTH_STORE, below, below_size, above, above_size, result, sizeof result);
}

static int lays(uint64_t answer, uint32_t count)
{
    return counts(answer, count) && answer == count && memcmp(result, expected, sizeof result) == 0;
}

/* A refused laying has no line and leaves the result as it was. */
static int refuses_to_lay(uint64_t answer, unsigned number)
{
    size_t i;
    for (i = 0; i < sizeof result; i++)
        if (result[i] != 0xEE)
            return 0;
    return refuses_at(answer, number, 0);
}

static int layings(void)
{
    uint64_t answer;
    memset(expected, 0, sizeof expected);
    EXPECT(lays(laid(lower, 0, upper, 0), 0));
    EXPECT(counts(read_into(lower, low_water), LOW_WATER_BYTES) && counts(read_into(upper, dredging), LOW_WATER_BYTES));
    EXPECT(counts(laid(upper, LOW_WATER_BYTES, lower, 0), LOW_WATER_BYTES) && result[2] == 3 && result[16] == LAWS - 1);
    EXPECT(counts(read_into(expected, combined), COMBINED_BYTES));
    EXPECT(lays(laid(lower, WAROTH_SUPPLEMENT, upper, WAROTH_SUPPLEMENT), COMBINED_BYTES));
    EXPECT(lays(laid(lower, LOW_WATER_BYTES, upper, LOW_WATER_BYTES), COMBINED_BYTES));
    answer = waroth_law(store, WAROTH_STORE, result, sizeof result, LAWS - 1);
    EXPECT(stands(answer, 1, 32, 7) && result[38] == 0x0A);
    answer = waroth_judge_under(store, WAROTH_STORE, result, sizeof result, both, NAMES, levels, WAROTH_LEVELS);
    EXPECT(judges(answer, WAROTH_CONFLICT, 1, 3, 1));
    answer = waroth_judge_under(store, WAROTH_STORE, result, COMBINED_BYTES, names, 2 * NAMES, levels, WAROTH_LEVELS);
    EXPECT(judges(answer, WAROTH_ACCEPTED, 0, 0, 3) && levels[0] == 300 && levels[1] == 290 && levels[2] == 288);
    /* Once in order it stays: the empty one over it and under it, and it over itself, one store lent twice. */
    memcpy(lower, result, sizeof lower);
    EXPECT(lays(laid(lower, WAROTH_SUPPLEMENT, store + WAROTH_STORE - 1, 1), COMBINED_BYTES));
    EXPECT(lays(laid(store, 0, lower, COMBINED_BYTES), COMBINED_BYTES));
    EXPECT(lays(laid(lower, WAROTH_SUPPLEMENT, lower, COMBINED_BYTES), COMBINED_BYTES));
    EXPECT(lays(laid(lower, COMBINED_BYTES, upper, LOW_WATER_BYTES), COMBINED_BYTES));
    return 0;
}

/* Over the two that were laid above. */
static int refused_layings(void)
{
    memset(result, 0xEE, sizeof result);
    EXPECT(refuses_to_lay(waroth_lay(store, 0, lower, 3, upper, 3, result, WAROTH_SUPPLEMENT - 1), WAROTH_NO_ROOM));
    EXPECT(refuses_to_lay(waroth_lay(store, 0, lower, 3, upper, 3, result, 0), WAROTH_NO_ROOM));
    EXPECT(refuses_to_lay(waroth_lay(store, 0, lower, 0, upper, 0, result, sizeof result), WAROTH_NOT_DOMAIN));
    EXPECT(refuses_to_lay(laid(lower, 3, upper, WAROTH_SUPPLEMENT), WAROTH_NOT_DOMAIN));
    EXPECT(refuses_to_lay(laid(lower, WAROTH_SUPPLEMENT, upper, 3), WAROTH_NOT_DOMAIN));
    EXPECT(refuses_to_lay(laid(lower, WAROTH_SUPPLEMENT, store, WAROTH_STORE), WAROTH_NOT_DOMAIN));
    return 0;
}

/* Domains that are refused by the numbers that the river does not meet. */
static int refusals(void)
{
    static const struct {
        const char *text;
        unsigned number;
    } cases[] = {
        {"A1\n", WAROTH_BAD_COUNT},
        {"B100\n", WAROTH_BAD_KIND},
        {"A10111\n", WAROTH_BAD_PAYLOAD},
        {"A10101\nA10101\n", WAROTH_TOO_MANY},
        {"A10101\nA403010001\nA403010001\n", WAROTH_REPEATED},
    };
    size_t i;
    for (i = 0; i < sizeof cases / sizeof cases[0]; i++) {
        const char *lines = cases[i].text;
        EXPECT(refuses(waroth_read_domain(bytes(lines), strlen(lines), store, WAROTH_STORE), cases[i].number));
    }
    return 0;
}

/* A domain with one agent, a fluent that is 5 and at most 9, an action 1 that may always be taken, and one law more; the
 * agent takes it once. What has no value is 1 by 0, and 31,623 times 31,623. The same with a limit: the fluent may change
 * by 2. */
#define SMALL "A10101\nA206000000090005\nA403010001\nA502002A\n"
#define LIMITED "A10101\nA2080000000900050002\nA403010001\nA502002A\n"
#define BY_ZERO "0B2015100001100000100000\n"
#define BEYOND "0B2014107B87107B87100000\n"

static int kinds(void)
{
    static const struct {
        const char *text;
        unsigned kind, step, number, states;
    } cases[] = {
        {SMALL "A802282A\n", WAROTH_CONCURRENCY, 1, 1, 1},
        {SMALL "A606002A0010000A\n", WAROTH_RANGE, 1, 0, 1},
        {SMALL "A702282A\n", WAROTH_STATIC, 0, 1, 0},
        {SMALL "A7" BY_ZERO, WAROTH_ZERO_DIVISOR, 0, 1, 0},
        {SMALL "A8" BY_ZERO, WAROTH_ZERO_DIVISOR, 1, 1, 1},
        {SMALL "A9" BY_ZERO, WAROTH_ZERO_DIVISOR, 1, 1, 2},
        {SMALL "A7" BEYOND, WAROTH_BEYOND, 0, 1, 0},
        {SMALL "A8" BEYOND, WAROTH_BEYOND, 1, 1, 1},
        {SMALL "A9" BEYOND, WAROTH_BEYOND, 1, 1, 2},
        {SMALL "A902282A\n", WAROTH_GOAL, 1, 1, 2},
        {LIMITED "A606002A00100008\n", WAROTH_TOO_FAST, 1, 0, 1},
        {LIMITED "A606002A0010000A\n", WAROTH_RANGE, 1, 0, 1},
        {LIMITED "A606002A00100007\nA902282A\n", WAROTH_GOAL, 1, 2, 2},
    };
    size_t i;
    for (i = 0; i < sizeof cases / sizeof cases[0]; i++) {
        const char *lines = cases[i].text;
        EXPECT(waroth_refusal(waroth_read_domain(bytes(lines), strlen(lines), store, WAROTH_STORE)) == 0);
        EXPECT(judges(judged(first, 1), cases[i].kind, cases[i].step, cases[i].number, cases[i].states));
    }
    return 0;
}

typedef uint64_t (*program_call)(const uint8_t *input, size_t input_size, uint8_t *output, size_t output_size);

/* A program's call writes exactly this for so many bytes of an input. */
static int writes(program_call call, const uint8_t *of, size_t size, const char *expected)
{
    size_t length = strlen(expected);
    return call(of, size, output, WAROTH_OUTPUT) == length && memcmp(output, expected, length) == 0;
}

static int prints(program_call call, const uint8_t *of, size_t size, unsigned number, unsigned line)
{
    char expected[40];
    snprintf(expected, sizeof expected, "REFUSED %u %u\n", number, line);
    return writes(call, of, size, expected);
}

static int programs(void)
{
    static const uint8_t zeros[WAROTH_INPUT + 1] = {0};
    static const program_call calls[] = {waroth_answer, waroth_low_water};
    char lines[DOMAIN_SIZE + LOW_WATER_SIZE + SHEET_SIZE + 1];
    size_t i;
    for (i = 0; i < sizeof calls / sizeof calls[0]; i++) {
        EXPECT(calls[i](bytes(sheet), SHEET_SIZE, output, WAROTH_OUTPUT - 1) == 0);
        EXPECT(prints(calls[i], bytes(sheet), SHEET_SIZE, WAROTH_INCOMPLETE, 0));
        EXPECT(prints(calls[i], zeros, WAROTH_INPUT, WAROTH_BAD_LINE, 1));
        EXPECT(prints(calls[i], zeros, WAROTH_INPUT + 1, WAROTH_LONG_INPUT, 0));
        snprintf(lines, sizeof lines, "%s%s", domain, sheet);
        EXPECT(writes(calls[i], bytes(lines), strlen(lines), "S 0 300\nS 1 286\nS 2 280\nACCEPTED\n"));
    }
    snprintf(lines, sizeof lines, "%s%s%s", domain, low_water, sheet);
    EXPECT(prints(waroth_answer, bytes(lines), strlen(lines), WAROTH_BAD_KIND, LINES + 1));
    EXPECT(writes(waroth_low_water, bytes(lines), strlen(lines), "S 0 300\nS 1 290\nS 2 284\nACCEPTED\n"));
    snprintf(lines, sizeof lines, "%s%s%s", domain, sheet, low_water);
    EXPECT(prints(waroth_low_water, bytes(lines), strlen(lines), WAROTH_BAD_KIND, LINES + 3));
    return 0;
}

/* The line that begins a sheet of a report. */
#define MARK "B000\n"

/* The river and so many sheets of no steps, the last of them with this text. */
static size_t with_sheets(int sheets, const uint8_t *last, size_t size)
{
    size_t used = DOMAIN_SIZE;
    memcpy(report_input, domain, used);
    for (; sheets > 0; sheets--, used += sizeof MARK - 1)
        memcpy(report_input + used, MARK, sizeof MARK - 1);
    memcpy(report_input + used, last, size);
    return used + size;
}

static int reports(program_call call, int sheets, const char *last, const char *expected)
{
    size_t size = with_sheets(sheets, bytes(last), strlen(last));
    return writes(call, report_input, size, expected);
}

static int reporting(void)
{
    static const uint8_t zeros[WAROTH_INPUT + 1] = {0};
    size_t size = with_sheets(1, bytes(sheet), SHEET_SIZE);
    memset(output, 0xEE, sizeof output);
    EXPECT(waroth_report(report_input, size, output, WAROTH_OUTPUT - 1) == 0 && output[0] == 0xEE);
    EXPECT(writes(waroth_report, report_input, size, "SHEETS 1 0\nF 0 280 300 866 3\n") && output[29] == 0xEE);
    EXPECT(reports(waroth_report, 1, "B1020100\n" MARK "B1020102\n", "SHEETS 1 1\nF 0 286 300 586 2\n"));
    EXPECT(reports(waroth_report, 0, "", "SHEETS 0 0\n"));
    EXPECT(reports(waroth_report, 1, "B1020102\n", "SHEETS 0 1\n"));
    EXPECT(reports(waroth_report, WAROTH_SHEETS, "", "SHEETS 40 0\nF 0 300 300 12000 40\n"));
    /* A sheet too many, before all else of it. */
    size = with_sheets(WAROTH_SHEETS + 1, zeros, WAROTH_INPUT + 1);
    EXPECT(prints(waroth_report, report_input, size, WAROTH_TOO_MANY_SHEETS, LINES + WAROTH_SHEETS + 1));
    /* A domain's text and a sheet's, each by itself. */
    EXPECT(prints(waroth_report, zeros, WAROTH_INPUT, WAROTH_BAD_LINE, 1));
    EXPECT(prints(waroth_report, zeros, WAROTH_INPUT + 1, WAROTH_LONG_INPUT, 0));
    size = with_sheets(2, zeros, WAROTH_INPUT);
    EXPECT(prints(waroth_report, report_input, size, WAROTH_BAD_LINE, LINES + 3));
    size = with_sheets(2, zeros, WAROTH_INPUT + 1);
    EXPECT(prints(waroth_report, report_input, size, WAROTH_LONG_INPUT, 0));
    /* The other programs take no such line, and this one no step before the first. */
    size = with_sheets(1, bytes(sheet), SHEET_SIZE);
    EXPECT(prints(waroth_answer, report_input, size, WAROTH_BAD_KIND, LINES + 1));
    EXPECT(prints(waroth_low_water, report_input, size, WAROTH_BAD_KIND, LINES + 1));
    size = with_sheets(0, bytes(sheet), SHEET_SIZE);
    EXPECT(prints(waroth_report, report_input, size, WAROTH_BAD_KIND, LINES + 1));
    return 0;
}

static int edits(void)
{
    EXPECT(refuses_alone(waroth_open(&session, store, 0), WAROTH_NOT_DOMAIN));
    EXPECT(refuses_alone(waroth_enter(&session, first, NAMES), WAROTH_NOT_SESSION));
    EXPECT(waroth_open(&session, store, WAROTH_STORE) == 0);
    EXPECT(refuses_alone(waroth_undo(&session), WAROTH_NOTHING_STANDS));
    EXPECT(refuses_alone(waroth_redo(&session), WAROTH_NOTHING_UNDONE));
    EXPECT(refuses_alone(waroth_strike(&session), WAROTH_NO_STEP));
    EXPECT(refuses_alone(waroth_enter(&session, first, NAMES - 1), WAROTH_NOT_WHOLE));
    EXPECT(waroth_enter(&session, first, NAMES) == 0);
    EXPECT(refuses_alone(waroth_amend(&session, 2, first, NAMES), WAROTH_NO_STEP));
    EXPECT(waroth_amend(&session, 1, both, NAMES) == 0);
    EXPECT(waroth_undo(&session) == 0);
    EXPECT(waroth_redo(&session) == 0);
    EXPECT(waroth_strike(&session) == 0);
    EXPECT(session.agents == NAMES && session.steps == 0 && session.standing == 3 && session.total == 3);
    EXPECT(session.log[2 * (WAROTH_AGENTS + 2)] == 2);
    return 0;
}

static uint64_t verdict(struct waroth_session of)
{
    return waroth_verdict(of, store, WAROTH_STORE, levels, WAROTH_LEVELS);
}

static int session_verdicts(void)
{
    struct waroth_session other = session;
    EXPECT(judges(verdict(session), WAROTH_ACCEPTED, 0, 0, 1));
    EXPECT(waroth_enter(&session, both, NAMES) == 0);
    EXPECT(judges(verdict(session), WAROTH_CONFLICT, 1, 3, 1));
    other.steps = 1;
    EXPECT(refuses_to_judge(verdict(other), WAROTH_NOT_SESSION));
    EXPECT(refuses_to_judge(waroth_verdict(session, store, WAROTH_STORE, levels, TOO_FEW_LEVELS), WAROTH_NO_ROOM));
    EXPECT(refuses_to_judge(waroth_verdict(session, store, 0, levels, WAROTH_LEVELS), WAROTH_NOT_DOMAIN));
    EXPECT(waroth_open(&other, store, WAROTH_STORE) == 0);
    other.agents = WAROTH_AGENTS;
    EXPECT(refuses_to_judge(verdict(other), WAROTH_OTHER_AGENTS));
    while (session.standing < WAROTH_EDITS)
        EXPECT(waroth_amend(&session, 1, first, NAMES) == 0);
    EXPECT(refuses_alone(waroth_amend(&session, 1, first, NAMES), WAROTH_LOG_FULL));
    EXPECT(judges(verdict(session), WAROTH_ACCEPTED, 0, 0, 2));
    return 0;
}

int main(void)
{
    static int (*const parts[])(void) = {refusals,    kinds,           domains,    refused_supplements,
                                         supplements, sheets,          judgements, judgements_under,
                                         layings,     refused_layings, programs,   reporting,
                                         edits,       session_verdicts};
    size_t part;
    for (part = 0; part < sizeof parts / sizeof parts[0]; part++) {
        int line = parts[part]();
        if (line != 0) {
            printf("%s:%d: does not hold\n", __FILE__, line);
            return 1;
        }
    }
    return 0;
}
