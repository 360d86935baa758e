/* An evening at the desk, by the calls of include/waroth.h: the file named on the command line has a domain's hex lines
 * and then a sheet's, as the program takes them. It is read and judged; then the sheet is entered into a session and a
 * step amended, and that is undone and redone, with the verdict each time; and in the morning the file's sheet and the
 * session's are reported on. If a second file is named, it has a supplement's lines: instead of the session and the report,
 * every law in force is asked for, and the sheet judged under the supplement.
 * A third has those of a supplement that is laid over it first. Nothing is allocated: the header names the size of every
 * buffer.
 *
 *     (cd crates/desk && rt lib)
 *     cc -std=c11 -I include examples/c/evening.c crates/desk/out/libdesk.a -o evening
 *     ./evening examples/pool/accepted.hex
 *     ./evening examples/pool/accepted.hex examples/c/low_water.af
 *     ./evening examples/pool/accepted.hex examples/c/low_water.af examples/c/dredging.af
 *
 * The exit code is 0 if the file's sheet is accepted, under the supplement where there is one, 1 if it is broken, 2 if
 * something is refused or cannot be read. */
#include "waroth.h"

#include <stdio.h>
#include <string.h>

enum { IS_ACCEPTED, IS_BROKEN, IS_REFUSED };

static uint8_t input[WAROTH_INPUT + 1]; /* a byte more, to see that there are too many */
static uint8_t store[WAROTH_STORE];
static uint8_t ours[WAROTH_SUPPLEMENT];     /* the second file's */
static uint8_t theirs[WAROTH_SUPPLEMENT];   /* the third's */
static uint8_t combined[WAROTH_SUPPLEMENT]; /* theirs over ours */
static uint8_t names[WAROTH_SHEET];
static uint8_t text[WAROTH_SHEET_TEXT];
static uint8_t morning[WAROTH_INPUT + WAROTH_SHEET_TEXT + 10]; /* the file's lines, the session's sheet, two lines B000 */
static uint8_t output[WAROTH_OUTPUT];
static int16_t levels[WAROTH_LEVELS];
static struct waroth_session session;

/* ---- Words for numbers */

static const char *refusal_words(unsigned number)
{
    switch (number) {
    case WAROTH_BAD_LINE: return "a character, an odd or empty line, or no line feed";
    case WAROTH_BAD_COUNT: return "the count is not the bytes that follow";
    case WAROTH_BAD_KIND: return "the kind is unknown, out of order or not allowed here";
    case WAROTH_BAD_PAYLOAD: return "the payload is not as described";
    case WAROTH_TOO_MANY: return "there are more of this kind than allowed";
    case WAROTH_REPEATED: return "the entry stands there already";
    case WAROTH_INCOMPLETE: return "agents, fluents, entries or an entry's law are missing";
    case WAROTH_NOT_WHOLE: return "a step has not one name for each agent";
    case WAROTH_TOO_LONG: return "the sheet has too many steps";
    case WAROTH_NO_ROOM: return "a buffer is too small";
    case WAROTH_NO_STEP: return "there is no such step";
    case WAROTH_NOTHING_STANDS: return "there is nothing to undo";
    case WAROTH_NOTHING_UNDONE: return "there is nothing to redo";
    case WAROTH_LOG_FULL: return "the log is full";
    case WAROTH_NOT_DOMAIN: return "the store holds no domain, or no supplement for it";
    case WAROTH_OTHER_AGENTS: return "the domain has another number of agents than the session";
    case WAROTH_NOT_SESSION: return "the session is closed or damaged";
    case WAROTH_LONG_INPUT: return "the input is too long";
    case WAROTH_TOO_MANY_SHEETS: return "there are too many sheets";
    case WAROTH_OTHER_LAW: return "no such law, another kind or entry, or replaced already";
    default: return "unknown";
    }
}

/* What is at fault, and what the number counts. */
static const char *fault_words(unsigned kind)
{
    switch (kind) {
    case WAROTH_MISPLACED: return "an action that is not the agent's, agent";
    case WAROTH_BARRED: return "none of its conditions is true, entry";
    case WAROTH_CONCURRENCY: return "not at the same time, law";
    case WAROTH_CONFLICT: return "another value than an earlier law sets, law";
    case WAROTH_RANGE: return "out of its range, fluent";
    case WAROTH_STATIC: return "not true of the new state, law";
    case WAROTH_ZERO_DIVISOR: return "no value, a zero divisor, law";
    case WAROTH_GOAL: return "the goal is missed, law";
    case WAROTH_BEYOND: return "no value, a result beyond the number range, law";
    case WAROTH_TOO_FAST: return "a larger change than its limit, fluent";
    default: return "unknown, number";
    }
}

/* ---- Answers, printed */

/* 0 where nothing is refused; else what is. */
static int refused(const char *what, uint64_t answer)
{
    unsigned number = waroth_refusal(answer);
    if (number == 0)
        return 0;
    printf("%s: refused (%u): %s\n", what, number, refusal_words(number));
    return IS_REFUSED;
}

/* The same of a reader, whose lines begin after so many of the file. */
static int refused_line(const char *what, uint64_t answer, unsigned lines_before)
{
    int end = refused(what, answer);
    if (end != 0 && waroth_line(answer) != 0)
        printf("%s: line %u of the file\n", what, lines_before + (unsigned)waroth_line(answer));
    return end;
}

/* A judgement: every state that was written, and the verdict. */
static int print_judgement(const char *what, uint64_t answer, unsigned fluents)
{
    unsigned state, fluent;
    int end = refused(what, answer);
    if (end != 0)
        return end;
    printf("%s:\n", what);
    for (state = 0; state < waroth_states(answer); state++) {
        printf("  state %u:", state);
        for (fluent = 0; fluent < fluents; fluent++)
            printf(" %d", levels[state * fluents + fluent]);
        printf("\n");
    }
    if (waroth_kind(answer) == WAROTH_ACCEPTED) {
        printf("  accepted\n");
        return IS_ACCEPTED;
    }
    printf("  broken in step %u: %s %u\n", waroth_step(answer), fault_words(waroth_kind(answer)), waroth_number(answer));
    return IS_BROKEN;
}

/* ---- The files */

/* Reads a file into the input; 0 where that is done. */
static int read_file(const char *name, size_t *size)
{
    int failed;
    FILE *file = fopen(name, "rb");
    if (file == NULL) {
        fprintf(stderr, "evening: %s cannot be opened\n", name);
        return IS_REFUSED;
    }
    *size = fread(input, 1, sizeof input, file);
    failed = ferror(file);
    fclose(file);
    if (failed) {
        fprintf(stderr, "evening: %s cannot be read\n", name);
        return IS_REFUSED;
    }
    if (*size > WAROTH_INPUT) {
        printf("input: %s\n", refusal_words(WAROTH_LONG_INPUT));
        return IS_REFUSED;
    }
    return 0;
}

/* Where the first line that starts "B1" begins, and how many lines stand before it. */
static size_t sheet_place(size_t size, unsigned *lines_before)
{
    size_t place = 0;
    *lines_before = 0;
    while (place < size) {
        const uint8_t *end;
        if (size - place >= 2 && memcmp(input + place, "B1", 2) == 0)
            return place;
        end = (const uint8_t *)memchr(input + place, '\n', size - place);
        if (end == NULL)
            return size;
        place = (size_t)(end - input) + 1;
        *lines_before += 1;
    }
    return size;
}

/* ---- The supplements: each buffer has WAROTH_SUPPLEMENT bytes */

/* A file's, read into a buffer; 0 where that is done. */
static int read_supplement(const char *name, uint8_t *buffer)
{
    size_t size;
    uint64_t answer;
    int end = read_file(name, &size);
    if (end != 0)
        return end;
    answer = waroth_read_supplement(store, sizeof store, input, size, buffer, WAROTH_SUPPLEMENT);
    if ((end = refused_line("supplement", answer, 0)) != 0)
        return end;
    printf("a supplement of %u bytes\n", (unsigned)waroth_count(answer));
    return 0;
}

/* A second file's laid over it; 0 where that is done. */
static int lay_over(const char *name)
{
    uint64_t answer;
    int end = read_supplement(name, theirs);
    if (end != 0)
        return end;
    answer = waroth_lay(store, sizeof store, ours, sizeof ours, theirs, sizeof theirs, combined, sizeof combined);
    if ((end = refused("laid over it", answer)) != 0)
        return end;
    printf("laid over it: %u bytes\n", (unsigned)waroth_count(answer));
    return 0;
}

/* The law in force of this number: its payload, where it stands. */
static void print_law(const uint8_t *supplement, unsigned number)
{
    uint64_t answer = waroth_law(store, sizeof store, supplement, WAROTH_SUPPLEMENT, number);
    const uint8_t *payload = (waroth_replaced(answer) ? supplement : store) + waroth_place(answer);
    size_t byte;
    if (refused("law", answer) != 0)
        return;
    printf("  law %u, %s:", number, waroth_replaced(answer) ? "replaced" : "the domain's");
    for (byte = 0; byte < waroth_size(answer); byte++)
        printf(" %02X", payload[byte]);
    printf("\n");
}

/* Every law in force under a supplement, and one that is not there; the names of a sheet judged under it. */
static int judge_under(const uint8_t *supplement, unsigned laws, unsigned fluents, size_t names_size)
{
    unsigned number;
    printf("the laws in force under it:\n");
    for (number = 0; number <= laws; number++)
        print_law(supplement, number);
    return print_judgement("the same sheet under it",
                           waroth_judge_under(store, sizeof store, supplement, WAROTH_SUPPLEMENT, names, names_size, levels,
                                              WAROTH_LEVELS),
                           fluents);
}

/* ---- The session */

/* What an edit answered, and where it was made the verdict on the sheet as it now is. */
static void print_edit(const char *what, uint64_t answer, unsigned fluents)
{
    if (refused(what, answer) == 0)
        print_judgement(what, waroth_verdict(session, store, sizeof store, levels, WAROTH_LEVELS), fluents);
}

static void print_sheet(void)
{
    size_t size = session.steps * session.agents;
    uint64_t answer = waroth_write_sheet(session.names, size, session.agents, text, sizeof text);
    if (refused("write the sheet", answer) == 0)
        printf("the sheet in the session:\n%.*s", (int)waroth_count(answer), (const char *)text);
}

/* The sheet's steps entered, the first amended so that everybody is idle, that undone and redone. After a refusal the
 * session is as it was, and the desk goes on. */
static void edit(unsigned agents, unsigned fluents, unsigned steps)
{
    static const uint8_t idle[WAROTH_AGENTS] = {0};
    unsigned step;
    if (refused("open", waroth_open(&session, store, sizeof store)) != 0)
        return;
    for (step = 0; step < steps; step++)
        refused("enter a step", waroth_enter(&session, names + step * agents, agents));
    print_sheet();
    print_edit("amend step 1 to idle", waroth_amend(&session, 1, idle, agents), fluents);
    print_edit("undo", waroth_undo(&session), fluents);
    print_edit("redo", waroth_redo(&session), fluents);
    print_edit("redo again", waroth_redo(&session), fluents);
    print_sheet();
    printf("%u of %d edits stand\n", (unsigned)session.standing, WAROTH_EDITS);
}

/* ---- The morning */

/* Puts bytes behind those that the report's input has; answers how many it has then. */
static size_t put(size_t used, const void *bytes, size_t size)
{
    memcpy(morning + used, bytes, size);
    return used + size;
}

/* A report over two sheets, the file's, which begins at a place of the input, and the session's. */
static void report(size_t place, size_t size)
{
    static const char begins[] = "B000\n";
    size_t used;
    uint64_t answer;
    used = put(0, input, place);
    used = put(used, begins, sizeof begins - 1);
    used = put(used, input + place, size - place);
    used = put(used, begins, sizeof begins - 1);
    answer = waroth_write_sheet(session.names, session.steps * session.agents, session.agents, morning + used,
                                sizeof morning - used);
    if (refused("write the sheet", answer) != 0)
        return;
    used += waroth_count(answer);
    answer = waroth_report(morning, used, output, sizeof output);
    printf("in the morning, over the file's sheet and the session's:\n%.*s", (int)answer, (const char *)output);
}

int main(int argc, char **argv)
{
    size_t size, place;
    unsigned lines_before, agents, fluents, laws, steps;
    uint64_t answer;
    int end;
    if (argc < 2 || argc > 4) {
        fprintf(stderr, "usage: evening FILE [SUPPLEMENT [UPPER]], files of hex lines\n");
        return IS_REFUSED;
    }
    if ((end = read_file(argv[1], &size)) != 0)
        return end;
    place = sheet_place(size, &lines_before);
    answer = waroth_read_domain(input, place, store, sizeof store);
    if ((end = refused_line("domain", answer, 0)) != 0)
        return end;
    answer = waroth_counts(store, sizeof store);
    if ((end = refused("domain", answer)) != 0)
        return end;
    agents = waroth_agents(answer);
    fluents = waroth_fluents(answer);
    laws = waroth_laws(answer);
    printf("agents %u, fluents %u, entries %u, laws %u\n", agents, fluents, waroth_entries(answer), laws);

    answer = waroth_read_sheet(input + place, size - place, agents, names, sizeof names);
    if ((end = refused_line("sheet", answer, lines_before)) != 0)
        return end;
    steps = (unsigned)waroth_steps(answer);
    /* Exactly the names of these steps, not the whole buffer. */
    answer = waroth_judge(store, sizeof store, names, (size_t)steps * agents, levels, WAROTH_LEVELS);
    end = print_judgement("the file's sheet", answer, fluents);
    if (argc == 2) {
        edit(agents, fluents, steps);
        report(place, size);
        return end;
    }
    if ((end = read_supplement(argv[2], ours)) != 0)
        return end;
    if (argc == 4 && (end = lay_over(argv[3])) != 0)
        return end;
    return judge_under(argc == 4 ? combined : ours, laws, fluents, (size_t)steps * agents);
}
