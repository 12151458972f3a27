/* Furlantecco for C: two functions over texts in memory. dcc_check says whether a package keeps the rules of discretionary capability
 * confinement; dcc_run takes a run text's steps over a package and writes what each domain then holds.
 *
 * `bin/build dcc_c` proves them and writes target/staticlib/libdcc.a (x86-64; it needs memcpy and memset of the C library, and nothing
 * else). examples/embed.c calls both; docs/NUMBERS.md explains each answer.
 *
 * Both functions
 * - answer every input: there is no text and no length that they must not be given, and no error beside the answer;
 * - answer alike for like bytes: they keep nothing from call to call, have no heap, no files and no global state, so they may be called
 *   from several threads or interrupts at once;
 * - return. Every loop and the one recursion are bounded by the texts' lengths;
 * - use stack: up to 48 KB for dcc_check and 172 KB for dcc_run (158 KB where the run text is admitted), seen with packages and runs at the
 *   limits (bench/stack measures it).
 *
 * What the caller owes is what its pointers are. A text is `length` bytes that can be read and that nobody changes during the call. A
 * buffer is `out_len` bytes that can be read and written, that nobody else touches during the call, and that overlap neither text. With
 * length 0 the pointer is not followed, but it is not NULL. */
#ifndef DCC_H
#define DCC_H

#include <stddef.h>
#include <stdint.h>

#ifdef __cplusplus
extern "C" {
#endif

/* The answer to a package text: a number and two places (below), which dcc_number, dcc_first and dcc_second take out.
 * 0 means that the package is accepted: it can be read, and no rule is broken. Otherwise the number says what refuses it, and the places
 * say where, first refusal first. The text is not changed. */
uint64_t dcc_check(const uint8_t *text, size_t length);

/* The answer to a run text over a package text, with the length of what it wrote (dcc_length).
 * - DCC_BUFFER_TOO_SHORT if out_len is under DCC_BUFFER_BYTES, before anything is read.
 * - The package's own answer, as dcc_check gives it, if that is not 0.
 * - 51 to 60 if the run text is not admitted; no step is tried.
 * - 61 to 64 if a step is refused: the first place is its line, the second the number of steps taken before it.
 * - 0 if every step is taken: the first place is 0, the second the number of steps.
 * For 0 and 61 to 64 the holdings of the state (before the refused step) stand at the start of `out`, dcc_length bytes: lines of
 * DCC_HOLDING_BYTES bytes, `30 dd rr cc` in hexadecimal without the spaces and an LF, sorted, each once: domain dd holds object rr
 * labelled with class cc. There is no closing zero byte. The bytes behind them are what they were.
 * For every other answer dcc_length is 0 and the whole buffer is what it was. */
uint64_t dcc_run(const uint8_t *package, size_t package_len, const uint8_t *script, size_t script_len, uint8_t *out, size_t out_len);

/* An answer in 64 bits, 16 each from the lowest: number, first place, second place, length written. */
static inline unsigned dcc_number(uint64_t answer) { return (unsigned)(answer & 0xFFFFu); }
static inline unsigned dcc_first(uint64_t answer) { return (unsigned)(answer >> 16 & 0xFFFFu); }
static inline unsigned dcc_second(uint64_t answer) { return (unsigned)(answer >> 32 & 0xFFFFu); }
static inline size_t dcc_length(uint64_t answer) { return (size_t)(answer >> 48); }

/* Limits. More of any of them is an answer, not a fault. */
enum {
    DCC_TEXT_BYTES = 32768,   /* of each text: 1, 51 */
    DCC_BUFFER_BYTES = 7200,  /* the buffer that every state's holdings fit into: 65 */
    DCC_HOLDING_BYTES = 9,    /* a line of holdings */

    DCC_DOMAINS = 32,         /* of a package: 3; of each kind of frame: 8 */
    DCC_PAIRS = 128,
    DCC_CLASSES = 127,
    DCC_FIELDS = 256,
    DCC_METHODS = 256,
    DCC_EFFECTS = 1024,
    DCC_SUPERTYPES = 4,       /* of a class: 7 */
    DCC_PARAMETERS = 6,       /* of a method: 7 */

    DCC_STEPS = 1024,         /* of a run text: 58 */
    DCC_LINKS = 256,          /* in a run text: 58; in a state: 63 */
    DCC_LABELS = 32,          /* in the entry frame's lines: 58; in a frame: 63 */
    DCC_SAVED_FRAMES = 16     /* beside the running one: 63 */
};

/* The numbers. Behind each: its two places; one that is not named is 0. Lines count from 1 in each text, all else from 0. */
enum {
    DCC_ACCEPTED = 0,              /* of dcc_check; of dcc_run: 0, steps taken */

    /* The package text is not read. */
    DCC_TOO_LONG = 1,              /* a text over 32,768 bytes */
    DCC_BAD_LINE = 2,              /* line: breaks the digit rule, or the last lacks its LF */
    DCC_BAD_HEADER = 3,            /* line: line 1 is not three bytes starting 01, or the domains are not 1 to 32 */
    DCC_BAD_GENERATION = 4,        /* line: the generation byte is not 02 */
    DCC_BAD_KIND = 5,              /* line: unknown or falling kind, second header, or a line after 07 */
    DCC_BAD_LENGTH = 6,            /* line: the length does not fit the kind and its count */
    DCC_BAD_NUMBER = 7,            /* line: a number out of range, undeclared or of the wrong kind; a count over its limit */
    DCC_TOO_MANY = 8,              /* line: one frame too many of its kind */
    DCC_NO_END = 9,                /* lines + 1: no 07 before the end */

    /* The tables contradict themselves. */
    DCC_DOMINATE_EACH_OTHER = 10,  /* two domains, lower first */
    DCC_SLOT_DIFFERS = 11,         /* two instance methods of one slot with unlike types, lower first */
    DCC_SLOT_TWICE = 12,           /* two instance methods of one class and slot, lower first */

    /* A rule is broken. */
    DCC_BREAKS_DCC5 = 21,          /* class A, its supertype B: B does not trust A */
    DCC_BREAKS_DCC7 = 22,          /* classes A', B' under suspicious ones, and not suspicious themselves */
    DCC_BREAKS_DCC6_1 = 23,        /* overriding method, overridden one: labels */
    DCC_BREAKS_DCC6_2 = 24,        /* overriding method, overridden one: return type */
    DCC_BREAKS_DCC6_3 = 25,        /* overriding method, overridden one: a parameter type */
    DCC_BREAKS_DCC2_1 = 26,        /* effect: new or cast */
    DCC_BREAKS_DCC2_2 = 27,        /* effect: sharing by a field or a return */
    DCC_BREAKS_DCC1 = 28,          /* effect: static call */
    DCC_BREAKS_DCC4 = 29,          /* effect: labels of caller and called */
    DCC_BREAKS_DCC3 = 30,          /* effect, parameter: grant */

    /* The run text is not admitted. */
    DCC_RUN_TOO_LONG = 51,         /* a text over 32,768 bytes */
    DCC_RUN_BAD_LINE = 52,         /* line: as 2 */
    DCC_RUN_BAD_ENTRY = 53,        /* line: line 1 is not 10 and a declared method */
    DCC_RUN_BAD_KIND = 55,         /* line: as 5 */
    DCC_RUN_BAD_LENGTH = 56,       /* line: as 6 */
    DCC_RUN_BAD_NUMBER = 57,       /* line: as 7, for what a run text names */
    DCC_RUN_TOO_MANY = 58,         /* line: as 8 */
    DCC_RUN_NO_END = 59,           /* lines + 1: no 2F before the end */
    DCC_RUN_BAD_START = 60,        /* line: a start label or link that does not fit its object's class */

    /* A step is refused: its line, steps taken. */
    DCC_STEP_NOT_PERMITTED = 61,   /* no effect of the running method permits it */
    DCC_STEP_LACKS = 62,           /* another premise of the step is missing */
    DCC_STEP_NO_ROOM = 63,         /* a frame, the links or the saved frames are full */
    DCC_STEP_NO_CALLER = 64,       /* a return without a saved frame */

    /* The call itself. */
    DCC_BUFFER_TOO_SHORT = 65      /* a buffer under 7,200 bytes */
};

#ifdef __cplusplus
}
#endif

#endif
