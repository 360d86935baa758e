/* The sheet judge for C: the calls of crates/desk/out/libdesk.a, which `rt lib` makes in crates/desk for x86-64 Linux.
 *
 * Every call is total: it takes any bytes, ends, and what it cannot use it refuses by one of the numbers below. Its answer
 * and every byte that it leaves are proved; crates/desk/specs/Numbers.antt says what each answer means.
 *
 * Buffers. A buffer that is lent to be read is not written. No call keeps a pointer, allocates, or reads or writes anything
 * but what it is lent, so calls on different buffers may run at the same time. What the caller owes:
 * - a size says how much stands behind its pointer: bytes, but for levels_size, which counts numbers of 16 bits;
 * - no pointer is null, not even with size 0, where it may be any other and no byte stands behind it;
 * - a buffer that is lent to be written overlaps no other buffer of the same call; two that are only read may overlap. A
 *   session that a call alters is such a buffer: the names of an edit may not stand in it;
 * - levels are aligned as int16_t, a session as struct waroth_session.
 * The header is C99 or later, and C++.
 *
 * Stack. The calls recurse no deeper than a law nests, and what they need besides their buffers stands on the stack. Each
 * takes at most what WAROTH_STACK_... says of its kind, the session that waroth_verdict is passed among it. That is measured
 * over the hardest inputs, not proved.
 */
#ifndef WAROTH_H
#define WAROTH_H

#include <stddef.h>
#include <stdint.h>

#ifdef __cplusplus
extern "C" {
#endif

/* ---- Limits */

enum {
    WAROTH_AGENTS = 16,
    WAROTH_FLUENTS = 32,
    WAROTH_KNOWLEDGE = 64, /* A3 lines */
    WAROTH_ENTRIES = 64,
    WAROTH_LAWS = 128,
    WAROTH_PAYLOAD = 120,  /* bytes of a line's payload */
    WAROTH_CHANGE = 32767, /* the highest limit of a fluent's change in one step; the lowest is 1 */
    WAROTH_STEPS = 64,
    WAROTH_EDITS = 200,
    WAROTH_SHEETS = 40 /* of a report */
};

/* The characters of a line of a program's output, at most: "S", a number, a level for each fluent, LF; then "BROKEN", three
 * numbers, LF. A number takes 21 with the space before it, a level 7. */
#define WAROTH_STATE_LINE (1 + 21 + 7 * WAROTH_FLUENTS + 1)
#define WAROTH_LAST_LINE (6 + 3 * 21 + 1)

/* The least size of each buffer that is lent to be written. */
enum {
    WAROTH_STORE = 36000,                                /* bytes: a domain is read into it */
    WAROTH_SUPPLEMENT = 16000,                           /* bytes: a supplement is read or laid into it */
    WAROTH_SHEET = WAROTH_STEPS * WAROTH_AGENTS,         /* bytes: a sheet is read into it */
    WAROTH_LEVELS = (WAROTH_STEPS + 1) * WAROTH_FLUENTS, /* numbers: levels */
    WAROTH_OUTPUT = (WAROTH_STEPS + 1) * WAROTH_STATE_LINE + WAROTH_LAST_LINE /* bytes: a program's output */
};

/* The most bytes of a program's input; in a report, of the domain's text and of each sheet's. */
enum { WAROTH_INPUT = 60000 };

/* The bytes that decide a report: the domain's text, a line of 5 characters and a text for each sheet, and the line of one
 * sheet too many. Whatever stands after them changes nothing (crates/bmap/specs/Theorems.antt, RestUnread, proved). */
enum { WAROTH_REPORT_INPUT = WAROTH_INPUT + WAROTH_SHEETS * (5 + WAROTH_INPUT) + 5 };

/* The most stack of a call, in bytes: what was measured, with room to spare. Measured by reference/beside/stack.c:
 *
 *   waroth_read_domain   4,816   waroth_read_supplement 11,152   waroth_judge        39,096   waroth_open    7,200
 *   waroth_write_domain  2,592   waroth_law             10,064   waroth_judge_under  39,112   waroth_enter  10,024
 *   waroth_counts        2,544   waroth_lay             13,856   waroth_answer       82,904   waroth_strike 10,008
 *   waroth_frame             8   waroth_read_sheet         344   waroth_low_water    97,880   waroth_amend  10,024
 *                                waroth_write_sheet         93   waroth_report      245,000   waroth_undo   14,632
 *                                                                waroth_verdict      52,744   waroth_redo   15,704 */
enum {
    WAROTH_STACK_TEXTS = 8192,        /* domains and sheets */
    WAROTH_STACK_SUPPLEMENTS = 16384, /* waroth_read_supplement, waroth_law, waroth_lay */
    WAROTH_STACK_VERDICTS = 65536,    /* waroth_judge, waroth_judge_under, waroth_verdict */
    WAROTH_STACK_ANSWER = 131072,     /* waroth_answer, waroth_low_water */
    WAROTH_STACK_REPORT = 262144,     /* waroth_report */
    WAROTH_STACK_SESSIONS = 32768     /* sessions, but for the verdict */
};

/* The characters of a line whose payload has so many bytes: two for each byte, kind and count among them, and the LF. */
#define WAROTH_LINE_TEXT(payload) (2 * (2 + (payload)) + 1)

/* The longest texts: a buffer of this size has room for whatever a writer writes (crates/bmap/specs/Theorems.antt,
 * DomainTextFits and SheetTextFits, both proved). */
enum {
    WAROTH_DOMAIN_TEXT = WAROTH_LINE_TEXT(1) + WAROTH_FLUENTS * WAROTH_LINE_TEXT(8) + WAROTH_KNOWLEDGE * WAROTH_LINE_TEXT(3) +
                         WAROTH_ENTRIES * WAROTH_LINE_TEXT(3) + WAROTH_LAWS * WAROTH_LINE_TEXT(WAROTH_PAYLOAD),
    WAROTH_SHEET_TEXT = WAROTH_STEPS * WAROTH_LINE_TEXT(WAROTH_AGENTS)
};

/* ---- Answers: 64 bits each, to be read by the functions below */

enum waroth_refusal_number {
    WAROTH_BAD_LINE = 1,         /* character, odd or empty line, missing LF */
    WAROTH_BAD_COUNT = 2,        /* no count byte, count over 120, or count not the bytes present */
    WAROTH_BAD_KIND = 3,         /* kind unknown, out of order, or not allowed here */
    WAROTH_BAD_PAYLOAD = 4,      /* payload not as described; agents not 1 to 16 */
    WAROTH_TOO_MANY = 5,         /* more of a kind, or more laws, than allowed */
    WAROTH_REPEATED = 6,         /* entry with name and mask of an earlier one */
    WAROTH_INCOMPLETE = 7,       /* at the end: no A1, A2 or A4, or an entry without A5 */
    WAROTH_NOT_WHOLE = 8,        /* step not one byte per agent; sheet not whole steps */
    WAROTH_TOO_LONG = 9,         /* a 65th step */
    WAROTH_NO_ROOM = 10,         /* buffer lent to be written is shorter than named here, or than the text to be written */
    WAROTH_NO_STEP = 11,         /* strike on an empty sheet, amend of a step not there */
    WAROTH_NOTHING_STANDS = 12,  /* undo with no standing edit */
    WAROTH_NOTHING_UNDONE = 13,  /* redo with no undone edit */
    WAROTH_LOG_FULL = 14,        /* 200 edits stand */
    WAROTH_NOT_DOMAIN = 15,      /* store is not an accepted domain followed by zeros; supplement's store is not one accepted
                                  * for this domain, zeros after */
    WAROTH_OTHER_AGENTS = 16,    /* the domain's number of agents differs from the session's */
    WAROTH_NOT_SESSION = 17,     /* session closed, or not one that an accepted opening and calls after it could leave */
    WAROTH_LONG_INPUT = 18,      /* a program's input is over 60,000 bytes, or in a report the domain's text or a sheet's
                                  * by itself */
    WAROTH_TOO_MANY_SHEETS = 19, /* a 41st sheet in a report */
    WAROTH_OTHER_LAW = 20        /* a supplement's law number is not in the domain or was given before, or its law's kind or
                                  * entry differs; a law is asked for that the domain lacks */
};

/* What a judgement says: accepted, refused, or what is at fault. None of them is 0. A law without a value is 7 or 9, by the
 * first trouble found: operands are worked out left to right, each before its operation, and under codes 2B and 2C position
 * after position from 0 on. */
enum waroth_kind_number {
    WAROTH_MISPLACED = 1,    /* an agent names an action but belongs to no occurring entry with that name; number: agent */
    WAROTH_BARRED = 2,       /* an entry occurs, and none of its executability laws is true; number: entry */
    WAROTH_CONCURRENCY = 3,  /* a concurrency law is false; number: law */
    WAROTH_CONFLICT = 4,     /* an effect law sets another value than an earlier one, of one fluent; number: the later law */
    WAROTH_RANGE = 5,        /* a fluent leaves its range; number: fluent */
    WAROTH_STATIC = 6,       /* a static law is false; number: law */
    WAROTH_ZERO_DIVISOR = 7, /* a law has no value: a zero divisor; number: law */
    WAROTH_GOAL = 8,         /* a goal law is false; number: law */
    WAROTH_BEYOND = 9,       /* a law has no value: a result beyond -1,000,000,000 to 1,000,000,000; number: law */
    WAROTH_TOO_FAST = 10,    /* a fluent changes by more than its limit, down or up; number: fluent */
    WAROTH_ACCEPTED = 128,
    WAROTH_REFUSED = 255
};

/* Of every answer: the refusal's number, 0 where nothing is refused. A refused answer has bit 31 set and any other has not,
 * so that its lower 32 bits, kept alone, are no answer that something was found. */
static inline unsigned waroth_refusal(uint64_t answer)
{
    return (unsigned)(answer >> 32);
}

/* Of a reader's refusal: the line at fault, counted from 1; of 7 the count of lines; 0 of 10, of the sheet reader's 4 and of
 * the supplement reader's 15, and where nothing is refused. */
static inline uint32_t waroth_line(uint64_t answer)
{
    return waroth_refusal(answer) == 0 ? 0 : (uint32_t)answer & 0x7FFFFFFF;
}

/* Of the answer of a domain's or a supplement's reader, of waroth_lay or of a writer: the bytes used or written, 0 where it
 * refuses. */
static inline uint32_t waroth_count(uint64_t answer)
{
    return waroth_refusal(answer) == 0 ? (uint32_t)answer : 0;
}

/* Of the sheet reader's answer: the number of steps, -1 where it refuses. A sheet of 0 steps is a sheet. */
static inline int waroth_steps(uint64_t answer)
{
    return waroth_refusal(answer) == 0 ? (int)(uint32_t)answer : -1;
}

/* Of a judgement: its kind, WAROTH_REFUSED where it is refused. */
static inline unsigned waroth_kind(uint64_t answer)
{
    return (unsigned)(answer >> 16 & 0xFF);
}

/* Of a judgement with a fault: the step, from 1 (0 for state 0), and the number of what is at fault. Where it is refused,
 * the number is the refusal's. */
static inline unsigned waroth_step(uint64_t answer)
{
    return (unsigned)(answer >> 8 & 0xFF);
}

static inline unsigned waroth_number(uint64_t answer)
{
    return (unsigned)(answer & 0xFF);
}

/* Of a judgement: how many states the levels received, 0 where it is refused. */
static inline unsigned waroth_states(uint64_t answer)
{
    return (unsigned)(answer >> 24 & 0x7F);
}

/* Of the answer of waroth_counts: each is 0 where it refuses, and no domain has 0 agents, fluents, entries or laws. */
static inline unsigned waroth_agents(uint64_t answer)
{
    return waroth_refusal(answer) == 0 ? (unsigned)(answer >> 24 & 0xFF) : 0;
}

static inline unsigned waroth_fluents(uint64_t answer)
{
    return waroth_refusal(answer) == 0 ? (unsigned)(answer >> 16 & 0xFF) : 0;
}

static inline unsigned waroth_entries(uint64_t answer)
{
    return waroth_refusal(answer) == 0 ? (unsigned)(answer >> 8 & 0xFF) : 0;
}

static inline unsigned waroth_laws(uint64_t answer)
{
    return waroth_refusal(answer) == 0 ? (unsigned)(answer & 0xFF) : 0;
}

/* Of the answer of waroth_law: whether the law's payload stands in the supplement (1) or in the domain's store (0), the place
 * of its first byte there, and its size. Each is 0 where it refuses, and no law stands at place 0 or has size 0. */
static inline unsigned waroth_replaced(uint64_t answer)
{
    return waroth_refusal(answer) == 0 ? (unsigned)(answer >> 24 & 1) : 0;
}

static inline size_t waroth_place(uint64_t answer)
{
    return waroth_refusal(answer) == 0 ? (size_t)(answer >> 8 & 0xFFFF) : 0;
}

static inline size_t waroth_size(uint64_t answer)
{
    return waroth_refusal(answer) == 0 ? (size_t)(answer & 0xFF) : 0;
}

/* ---- Domains */

/* Reads a domain's hex lines into a store of at least WAROTH_STORE bytes. Count: the bytes used.
 * Refusals: 10, then line by line 1, 2, 3, 5, 4, 6, then 7 (with the count of lines; 10 with line 0).
 * The store: the frames end to end, zeros after. After 10 it is as it was; after any other refusal it is all zero. */
uint64_t waroth_read_domain(const uint8_t *text, size_t text_size, uint8_t *store, size_t store_size);

/* Writes the hex lines of an accepted domain, whose store may have any size. Count: the bytes written, at most
 * WAROTH_DOMAIN_TEXT.
 * Refusals: 15, 10.
 * The text: the lines, and nothing after them is touched; after a refusal it is as it was. */
uint64_t waroth_write_domain(const uint8_t *store, size_t store_size, uint8_t *text, size_t text_size);

/* How many agents, fluents, entries and laws the domain of a store has (waroth_agents and so on); the store may have any
 * size. Refusal: 15. */
uint64_t waroth_counts(const uint8_t *store, size_t store_size);

/* The size of the frame at a place of any bytes: kind other than 00, count up to 120 and the whole payload; 0 where none
 * stands. The next frame of a store stands behind it. Refuses nothing: whether the bytes are an accepted domain, the call
 * before says. */
uint64_t waroth_frame(const uint8_t *store, size_t store_size, size_t place);

/* ---- Supplements: lines of kind AF, each a law's number, then kind and payload of the law that stands in for it */

/* Reads a supplement's hex lines against an accepted domain, whose store may have any size, into a buffer of at least
 * WAROTH_SUPPLEMENT bytes. Count: the bytes used; 0 of no lines, which are a supplement too.
 * Refusals: 10, 15 for the domain (both with line 0), then line by line 1, 2, 3 (any kind but AF), 4 for a payload under 3
 * bytes, 20, 4 for all else of the law.
 * The supplement: the frames end to end, zeros after. After 10 it is as it was; after any other refusal it is all zero. */
uint64_t waroth_read_supplement(const uint8_t *store, size_t store_size, const uint8_t *text, size_t text_size,
                                uint8_t *supplement, size_t supplement_size);

/* Where the payload of the law in force stands, by the law's number from 0 (waroth_replaced, waroth_place and waroth_size);
 * both stores may have any size, and size 0, with any pointer but null, is a supplement that replaces nothing.
 * Refusals: 15 for either store, 20. */
uint64_t waroth_law(const uint8_t *store, size_t store_size, const uint8_t *supplement, size_t supplement_size, size_t law);

/* Lays one supplement over another of the same domain, into a buffer of at least WAROTH_SUPPLEMENT bytes: a law number that
 * either has is kept, with the upper one's law where both have it. The three stores that are read may have any size, and a
 * supplement of size 0, with any pointer but null, or of zeros only is empty: laid over another or under it, it only puts it
 * in order. Count: the bytes used; 0 where both are empty.
 * Refusals: 10, 15 for the domain's store or either supplement's.
 * The result: the frames end to end in the order of the law numbers, zeros after: a supplement of the same domain, which may
 * be laid in turn, whole or its bytes used. Judging under it is judging the domain with its laws replaced by the lower one's
 * and then by the upper one's. After a refusal it is as it was. */
uint64_t waroth_lay(const uint8_t *store, size_t store_size, const uint8_t *lower, size_t lower_size, const uint8_t *upper,
                    size_t upper_size, uint8_t *result, size_t result_size);

/* ---- Sheets */

/* Reads a sheet's hex lines for so many agents into a buffer of at least WAROTH_SHEET bytes. Answers the number of steps.
 * Refusals: 10, 4 (both with line 0), then line by line 1, 2, 3, 9, 8.
 * The buffer: the names step after step, zeros after. After 10 it is as it was; after any other refusal it is all zero. */
uint64_t waroth_read_sheet(const uint8_t *text, size_t text_size, size_t agents, uint8_t *buffer, size_t buffer_size);

/* Writes the hex lines of a sheet: exactly its names, step after step. Count: the bytes written, at most
 * WAROTH_SHEET_TEXT.
 * Refusals: 4, 8, 9, 10.
 * The text: the lines, and nothing after them is touched; after a refusal it is as it was. */
uint64_t waroth_write_sheet(const uint8_t *sheet, size_t sheet_size, size_t agents, uint8_t *text, size_t text_size);

/* ---- Verdicts */

/* Judges a sheet, exactly its names (steps times agents bytes, not the whole buffer that it was read into), against a
 * store. Answers kind, step, number and states.
 * Refusals: 10, 15, 8, 9.
 * The levels, at least WAROTH_LEVELS numbers: the states reached, state after state, one number for each fluent, and
 * nothing after them is touched; after a refusal they are as they were. */
uint64_t waroth_judge(const uint8_t *store, size_t store_size, const uint8_t *sheet, size_t sheet_size, int16_t *levels,
                      size_t levels_size);

/* The same under a supplement, whose store may have any size: as if the domain had its laws replaced. Answers as
 * waroth_judge, and just so where the supplement is empty (size 0, with any pointer but null, or zeros only).
 * Of a supplement that was read or laid, the bytes used (waroth_count) are enough, and quicker than the whole buffer with its zeros.
 * Refusals: 10, 15 for either store, 8, 9. The levels: as waroth_judge. */
uint64_t waroth_judge_under(const uint8_t *store, size_t store_size, const uint8_t *supplement, size_t supplement_size,
                            const uint8_t *sheet, size_t sheet_size, int16_t *levels, size_t levels_size);

/* ---- The programs */

/* What the program `waroth` writes for an input of any size: the states and the verdict, or REFUSED with number and line, as
 * text. Answers the bytes written to the front of the output, at least one, and nothing after them is touched. Where the
 * output has less than WAROTH_OUTPUT bytes, it is as it was and the answer is 0. Refuses nothing: a refusal is text. */
uint64_t waroth_answer(const uint8_t *input, size_t input_size, uint8_t *output, size_t output_size);

/* The same of the program `low_water`, whose input has a supplement's lines between the domain's and the sheet's: from the
 * first line before the sheet that starts "AF". */
uint64_t waroth_low_water(const uint8_t *input, size_t input_size, uint8_t *output, size_t output_size);

/* What the program `report` writes for an input of any size, of which the first WAROTH_REPORT_INPUT bytes decide: a domain's
 * lines, then at most WAROTH_SHEETS sheets, each begun by a line "B000". SHEETS with the count of accepted and of broken
 * sheets; then, if any was accepted, for each fluent F with its number, lowest value, highest value, sum and count of values
 * over all states of the accepted sheets; or REFUSED with number and line alone. Answer and output: as waroth_answer. */
uint64_t waroth_report(const uint8_t *input, size_t input_size, uint8_t *output, size_t output_size);

/* ---- Sessions. All of it is plain bytes that may be kept and copied; unused ones are zero. */
struct waroth_session {
    size_t agents;
    size_t steps;
    uint8_t names[WAROTH_SHEET]; /* step after step, one byte for each agent, zeros after */
    size_t standing;             /* edits that stand */
    size_t total;                /* edits that stand, and those undone after them */
    uint8_t log[WAROTH_EDITS * (WAROTH_AGENTS + 2)]; /* for each edit its kind, its step's number and 16 names */
};

/* Each of the six answers 0, or a refusal. */

/* Refusal: 15. Whatever the session was, it is then open with an empty sheet, or, if refused, closed and all zero. */
uint64_t waroth_open(struct waroth_session *session, const uint8_t *store, size_t store_size);

/* After a refusal each of these leaves the session as it was. Steps are numbered from 1. */
/* Refusals: 17, 14, 8, 9. */
uint64_t waroth_enter(struct waroth_session *session, const uint8_t *names, size_t names_size);
/* Refusals: 17, 14, 11. */
uint64_t waroth_strike(struct waroth_session *session);
/* Refusals: 17, 14, 8, 11. */
uint64_t waroth_amend(struct waroth_session *session, size_t step, const uint8_t *names, size_t names_size);
/* Refusals: 17, 12. */
uint64_t waroth_undo(struct waroth_session *session);
/* Refusals: 17, 13. */
uint64_t waroth_redo(struct waroth_session *session);

/* Judges the session's sheet against a store; the session itself is passed, and stays as it is. Answers as waroth_judge. It
 * judges by the domain's own laws; under a supplement, hand session.names, steps * agents bytes, to waroth_judge_under.
 * Refusals: 17, 10, 15, 16. The levels: as waroth_judge. */
uint64_t waroth_verdict(struct waroth_session session, const uint8_t *store, size_t store_size, int16_t *levels,
                        size_t levels_size);

#ifdef __cplusplus
}
#endif

#endif
