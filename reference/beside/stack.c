/* The stack that each call of include/waroth.h takes, measured: a call runs on a stack of its own that was painted before,
 * and what is no longer paint was used. What an empty call takes there is subtracted. stack.rs hands in the inputs, the
 * lines of a domain, a supplement and a sheet, and asks in the end. */
#define _XOPEN_SOURCE 700
#include "waroth.h"

#include <stdio.h>
#include <string.h>
#include <ucontext.h>

enum { STACK = 1 << 19, PAINT = 0xA5 };

static unsigned char stack[STACK];
static ucontext_t here, there;

static uint8_t store[WAROTH_STORE], supplement[WAROTH_SUPPLEMENT], result[WAROTH_SUPPLEMENT], names[WAROTH_SHEET];
static uint8_t text[WAROTH_DOMAIN_TEXT], output[WAROTH_OUTPUT];
static int16_t levels[WAROTH_LEVELS];
static struct waroth_session session;

/* What the calls below work on, and what the last of them answered. */
static uint8_t input[4 * WAROTH_INPUT]; /* of a program */
static struct part {
    const uint8_t *text;
    size_t size;
} domain, replacing, sheet;
static size_t input_size, agents, steps, step;
static uint64_t answer;

static void nothing(void) { answer = 0; }
static void read_domain(void) { answer = waroth_read_domain(domain.text, domain.size, store, sizeof store); }
static void write_domain(void) { answer = waroth_write_domain(store, sizeof store, text, sizeof text); }
static void counts(void) { answer = waroth_counts(store, sizeof store); }
static void frame(void) { answer = waroth_frame(store, sizeof store, 0); }
static void read_supplement(void)
{
    answer = waroth_read_supplement(store, sizeof store, replacing.text, replacing.size, supplement, sizeof supplement);
}
static void law(void) { answer = waroth_law(store, sizeof store, supplement, sizeof supplement, 0); }
static void lay(void)
{
    answer = waroth_lay(store, sizeof store, supplement, sizeof supplement, supplement, sizeof supplement, result,
                        sizeof result);
}
static void read_sheet(void) { answer = waroth_read_sheet(sheet.text, sheet.size, agents, names, sizeof names); }
static void write_sheet(void) { answer = waroth_write_sheet(names, steps * agents, agents, text, sizeof text); }
static void judge(void) { answer = waroth_judge(store, sizeof store, names, steps * agents, levels, WAROTH_LEVELS); }
static void judge_under(void)
{
    answer = waroth_judge_under(store, sizeof store, supplement, sizeof supplement, names, steps * agents, levels,
                                WAROTH_LEVELS);
}
static void low_water(void) { answer = waroth_low_water(input, input_size, output, sizeof output); }
static void program(void) { answer = waroth_answer(input, input_size, output, sizeof output); }
static void report(void) { answer = waroth_report(input, input_size, output, sizeof output); }
static void open_session(void) { answer = waroth_open(&session, store, sizeof store); }
static void enter(void) { answer = waroth_enter(&session, names + step * agents, agents); }
static void strike(void) { answer = waroth_strike(&session); }
static void amend(void) { answer = waroth_amend(&session, 1, names, agents); }
static void undo(void) { answer = waroth_undo(&session); }
static void redo(void) { answer = waroth_redo(&session); }
static void verdict(void) { answer = waroth_verdict(session, store, sizeof store, levels, WAROTH_LEVELS); }

/* The calls, what the header says of each, and the most that each took on any input. */
static struct call {
    void (*run)(void);
    const char *name;
    size_t most, taken;
} calls[] = {
    {read_domain, "waroth_read_domain", WAROTH_STACK_TEXTS, 0},
    {write_domain, "waroth_write_domain", WAROTH_STACK_TEXTS, 0},
    {counts, "waroth_counts", WAROTH_STACK_TEXTS, 0},
    {frame, "waroth_frame", WAROTH_STACK_TEXTS, 0},
    {read_supplement, "waroth_read_supplement", WAROTH_STACK_SUPPLEMENTS, 0},
    {law, "waroth_law", WAROTH_STACK_SUPPLEMENTS, 0},
    {lay, "waroth_lay", WAROTH_STACK_SUPPLEMENTS, 0},
    {read_sheet, "waroth_read_sheet", WAROTH_STACK_TEXTS, 0},
    {write_sheet, "waroth_write_sheet", WAROTH_STACK_TEXTS, 0},
    {judge, "waroth_judge", WAROTH_STACK_VERDICTS, 0},
    {judge_under, "waroth_judge_under", WAROTH_STACK_VERDICTS, 0},
    {program, "waroth_answer", WAROTH_STACK_ANSWER, 0},
    {low_water, "waroth_low_water", WAROTH_STACK_ANSWER, 0},
    {report, "waroth_report", WAROTH_STACK_REPORT, 0},
    {open_session, "waroth_open", WAROTH_STACK_SESSIONS, 0},
    {enter, "waroth_enter", WAROTH_STACK_SESSIONS, 0},
    {strike, "waroth_strike", WAROTH_STACK_SESSIONS, 0},
    {amend, "waroth_amend", WAROTH_STACK_SESSIONS, 0},
    {undo, "waroth_undo", WAROTH_STACK_SESSIONS, 0},
    {redo, "waroth_redo", WAROTH_STACK_SESSIONS, 0},
    {verdict, "waroth_verdict", WAROTH_STACK_VERDICTS, 0},
};

enum { CALLS = sizeof calls / sizeof calls[0] };

static size_t stack_of(void (*run)(void))
{
    size_t unused = 0;
    memset(stack, PAINT, sizeof stack);
    getcontext(&there);
    there.uc_stack.ss_sp = stack;
    there.uc_stack.ss_size = sizeof stack;
    there.uc_link = &here;
    makecontext(&there, run, 0);
    swapcontext(&here, &there);
    while (unused < sizeof stack && stack[unused] == PAINT)
        unused++;
    return sizeof stack - unused;
}

/* Makes the call, and answers what it refuses. */
static unsigned refused(void (*run)(void))
{
    size_t empty = stack_of(nothing), size = stack_of(run) - empty;
    int call;
    for (call = 0; call < CALLS; call++)
        if (calls[call].run == run && calls[call].taken < size)
            calls[call].taken = size;
    return waroth_refusal(answer);
}

/* Puts a part behind what the input has; 0 where there is no room. */
static int put(struct part part)
{
    if (part.size > sizeof input - input_size)
        return 0;
    memcpy(input + input_size, part.text, part.size);
    input_size += part.size;
    return 1;
}

/* The report over the domain and as many sheets as it takes, each of them this one; then with a sheet more, and with a last
 * one that is too long, which it refuses. 0 where there is no room for them. */
static int reported(void)
{
    static const uint8_t zeros[WAROTH_INPUT + 1] = {0};
    const struct part mark = {(const uint8_t *)"B000\n", 5}, too_long = {zeros, sizeof zeros};
    size_t taken;
    int sheets;
    input_size = 0;
    if (!put(domain))
        return 0;
    for (sheets = 0; sheets < WAROTH_SHEETS; sheets++)
        if (!put(mark) || !put(sheet))
            return 0;
    refused(report);
    taken = input_size;
    if (answer == 0 || !put(mark))
        return 0;
    refused(report);
    input_size = taken;
    if (answer == 0 || !put(too_long))
        return 0;
    refused(report);
    return answer != 0;
}

/* Every call over the lines of a domain, a supplement and a sheet; those of a session with a log that gets full. 0 where
 * something is refused that is not tried for that. */
int stack_tried(struct part of_domain, struct part of_supplement, struct part of_sheet);

int stack_tried(struct part of_domain, struct part of_supplement, struct part of_sheet)
{
    domain = of_domain;
    replacing = of_supplement;
    sheet = of_sheet;
    input_size = 0;
    if (!put(domain) || !put(sheet))
        return 0;
    refused(program);
    if (answer == 0)
        return 0;
    input_size = 0;
    if (!put(domain) || !put(replacing) || !put(sheet))
        return 0;
    refused(low_water);
    if (answer == 0 || !reported())
        return 0;
    if (refused(read_domain) != 0 || refused(counts) != 0)
        return 0;
    agents = waroth_agents(answer);
    refused(frame);
    refused(write_domain);
    if (refused(read_supplement) != 0 || refused(law) != 0 || refused(lay) != 0)
        return 0;
    if (refused(read_sheet) != 0)
        return 0;
    steps = (size_t)waroth_steps(answer);
    refused(write_sheet);
    refused(judge);
    if (refused(judge_under) != 0)
        return 0;
    refused(open_session);
    for (step = 0; step < steps; step++)
        enter();
    while (session.standing < WAROTH_EDITS - 2)
        amend();
    step = 0;
    if (refused(strike) + refused(enter) + refused(undo) + refused(redo) + refused(undo) + refused(amend) != 0)
        return 0;
    return refused(verdict) == 0;
}

/* How many calls took more than the header says. With a table, what each took. */
int stack_fails(int table);

int stack_fails(int table)
{
    int call, fails = 0;
    for (call = 0; call < CALLS; call++) {
        int over = calls[call].taken > calls[call].most;
        if (over || table)
            printf("%-22s %6zu bytes of stack, %6zu by the header\n", calls[call].name, calls[call].taken, calls[call].most);
        fails += over;
    }
    return fails;
}
