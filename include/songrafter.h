/* Songrafter: frame grammars, read and matched a bounded number of steps at a time.
 *
 * Every call answers any bytes and any words, of any lengths, or refuses them by a number; nothing that it is
 * handed has to be checked first. What each call promises is proved (docs/CONFORMANCE.md), for memory that is
 * handed to it as said here:
 *
 * - A pointer with a length is an array of that many elements, aligned as its type is on x86-64: 4 bytes for
 *   uint32_t, 8 for uint64_t, anywhere for uint8_t. Where the length is 0 the pointer may be null, and is not read.
 * - Lengths count elements, not bytes.
 * - Arrays that a call writes to overlap no other array of that call.
 * - All memory is the caller's. Nothing is kept between calls: no allocation, no global state, no lock. So calls
 *   may run on several threads at once, as long as no array that one writes to is used by another.
 * - The stack has room for the bytes that SONGRAFTER_STACK_… names below (measured, not proved).
 *
 * The archive is for x86-64 (System V calling convention), and needs memcpy and memset of a C library, nothing else.
 */
#ifndef SONGRAFTER_H
#define SONGRAFTER_H

#include <stddef.h>
#include <stdint.h>

#ifdef __cplusplus
extern "C" {
#endif

/* This header's version, as text and as a number: major * 1000000 + minor * 1000 + patch. songrafter_version() is the
 * archive's: the two are the same where header and archive belong together. */
#define SONGRAFTER_VERSION "0.3.0"
#define SONGRAFTER_VERSION_NUMBER 3000u

/* Sizes of what the caller lends. */
#define SONGRAFTER_TEXT_BYTES 8192u     /* the longest grammar */
#define SONGRAFTER_TABLE_WORDS 16384u   /* a table, in uint32_t */
#define SONGRAFTER_ANSWER_WORDS 5u      /* an answer of songrafter_admit, in uint64_t */
#define SONGRAFTER_FRAME_BYTES 1024u    /* the longest frame */
#define SONGRAFTER_READING_WORDS 16384u /* room that is enough for every frame, in uint32_t: two words for each bit */
#define SONGRAFTER_FIELD_WORDS 4u       /* what songrafter_field tells of a field, in uint64_t */
#define SONGRAFTER_RUN_BYTES 2596u      /* a saved run */
#define SONGRAFTER_VARIABLES 64u        /* values of a run */

/* Stack, in bytes, that is enough for each call: more than any text, table or run that was tried took (`sh
 * tests/figures/run`); the tests run the calls on stacks of exactly this size, with an unmapped page below. */
#define SONGRAFTER_STACK_ADMIT 204800u /* songrafter_admit */
#define SONGRAFTER_STACK_OPEN 65536u   /* songrafter_open */
#define SONGRAFTER_STACK_GRANT 24576u  /* songrafter_grant */
#define SONGRAFTER_STACK_ACCESS 8192u  /* songrafter_field, songrafter_verdict and the others that read a saved run */

/* Numbers of refusal. 0 is no refusal. docs/GRAMMAR.md has an example and a mend for each; songrafter_refusal_text
 * has a sentence. */
enum songrafter_refusal {
    SONGRAFTER_OK = 0,
    SONGRAFTER_TABLE_SHORT = 1,    /* table shorter than 16,384 words */
    SONGRAFTER_TEXT_SIZE = 2,      /* grammar empty or over 8,192 bytes */
    SONGRAFTER_HEADER = 3,         /* header wrong */
    SONGRAFTER_FORM = 4,           /* rules not of the form */
    SONGRAFTER_LIMIT = 5,          /* over 64 rules, 256 constructs, 64 variables or 1,024 numbers, uses and signs */
    SONGRAFTER_NAME = 6,           /* name unknown, double, reserved, misplaced or of the wrong kind */
    SONGRAFTER_CYCLE = 7,          /* a rule reaches itself */
    SONGRAFTER_NUMBER = 8,         /* a number or width outside its limits, or a calculation that may pass 2^62 */
    SONGRAFTER_EMPTY_BODY = 9,     /* what is repeated may take no bits */
    SONGRAFTER_CLASH = 10,         /* the next 8 bits do not tell which of two ways to go */
    SONGRAFTER_WEIGHT = 11,        /* weight over 65,535 */
    SONGRAFTER_UNREACHED = 12,     /* a rule is not reached from the start rule */
    SONGRAFTER_NO_VALUE = 13,      /* a uint's or sint's set has no variable and no value left */
    SONGRAFTER_FRAME_LONG = 21,    /* frame over 1,024 bytes */
    SONGRAFTER_READING_SMALL = 22, /* reading under two words for each frame bit */
    SONGRAFTER_TABLE_UNSOUND = 23, /* table not sound */
    SONGRAFTER_RUN_UNFIT = 24      /* saved run doesn't fit, or is not 2,596 bytes */
};

/* Verdicts of a run. Any other number in a saved run is refused with 24. */
enum songrafter_run_verdict {
    SONGRAFTER_UNDECIDED = 0, /* takes more steps */
    SONGRAFTER_MATCH = 1,
    SONGRAFTER_NO_MATCH = 2,
    SONGRAFTER_CLOSED = 3,    /* was never opened */
    SONGRAFTER_BROKEN = 4     /* forged, or over a table or frame that was changed */
};

/* What songrafter_field writes where. */
enum songrafter_field_word {
    SONGRAFTER_FIELD_CONSTRUCT = 0, /* which field of the grammar: its construct number */
    SONGRAFTER_FIELD_FIRST_BIT = 1, /* bits of the frame before it */
    SONGRAFTER_FIELD_WIDTH = 2,     /* its bits: 1 to 64 of a uint or sint, 8 of a range, 8 for each literal's character */
    SONGRAFTER_FIELD_VALUE = 3      /* the number that they are, most significant bit first, a sint's in two's complement of
                                       64 bits; 0 where they are over 64 */
};

/* The archive's version number. */
uint32_t songrafter_version(void);

/* Reads a grammar. Answers 0 and writes its table into the first 16,384 words, or a number from 1 to 13 and
 * changes no word of the table. Of `answer`, what fits of five numbers is written:
 *   [0] the weight (0), or the place: bytes from the text's first (1 to 13);
 *   [1] for 10 the least window that both ways admit, else 0: the bits that come next, 8 or fewer where the frame
 *       ends, read as a number behind a 1 (byte 41 is 321);
 *   [2] for 10 the construct, and [3], [4] the first two branches that share the window, by construct number;
 *       0 and 0 where a repetition's going on and stopping do; else 0. */
size_t songrafter_admit(const uint8_t *text, size_t text_len, uint32_t *table, size_t table_len,
                        uint64_t *answer, size_t answer_len);

/* Opens a run. Answers 0, or 23, 21, 22, tried in this order, then 24 where `run` is not 2,596 bytes. The run is
 * written into `run`, a closed one where the opening is refused; where `run` has another length nothing is. */
size_t songrafter_open(const uint32_t *table, size_t table_len, const uint8_t *frame, size_t frame_len,
                       const uint32_t *reading, size_t reading_len, uint8_t *run, size_t run_len);

/* Grants steps to a run. Answers 0, or 21 or 24, and then neither the run nor its reading changes. The run, its
 * reading (two words for each field: construct, first bit) and, where `taken_len` is not 0, the count of the steps
 * taken in taken[0], 0 where the grant is refused, are written. A run that is decided, closed or broken takes none.
 * A verdict means something only for a run that songrafter_open answered with 0, on this table and for this frame, with
 * table and frame kept as they were from then on, and the run as the grants left it. Other ones are answered all the
 * same, within the steps that the table's weight allows and with no word written out of place; but over a changed table
 * or frame, or of a forged run, match, no match and broken say nothing. */
size_t songrafter_grant(const uint32_t *table, size_t table_len, const uint8_t *frame, size_t frame_len,
                        uint32_t *reading, size_t reading_len, uint8_t *run, size_t run_len, uint64_t steps,
                        uint64_t *taken, size_t taken_len);

/* Of field k of a reading, from 0: its construct, first bit, width and value; what fits of the four is written into
 * `field`, at the places that enum songrafter_field_word names. Answers 0, or the first of these numbers, and then
 * writes nothing:
 *   21 where the frame is over 1,024 bytes;
 *   22 where the reading ends before its words 2k and 2k + 1;
 *   23 where the table is shorter than 16,384 words, or its construct of that number is no field;
 *   24 where not all of the field's bits lie in the frame.
 * A run's fields are those with k below songrafter_fields(run): where the run is one of which a verdict means something,
 * none of them is refused, and they lie one after the other from the frame's first bit up to songrafter_position(run).
 * What the reading holds behind them is the caller's own.
 * The value of a literal of more than 8 characters is told as 0: its bits are in the frame, from its first bit on. The
 * value of a sint is in two's complement of 64 bits: as an int64_t it has its sign. */
size_t songrafter_field(const uint32_t *table, size_t table_len, const uint8_t *frame, size_t frame_len,
                        const uint32_t *reading, size_t reading_len, size_t k, uint64_t *field, size_t field_len);

/* Of a saved run: its verdict, the steps that it has taken, the fields recorded in its reading, its position (the bits
 * read), and the value of variable k (0 from 64 on).
 *
 * Variables are numbered from 0 in the order in which the text binds them, through all its rules. A value is as last
 * bound, with its sign: that of the last field so far that bound it, 0 where none did. `names GRAMMAR` prints the
 * numbers of variables and fields as a C header.
 *
 * They say what stands in the bytes, whatever that is; a slice that is not 2,596 bytes is read as a closed run. Of a run
 * that comes from outside ask songrafter_grant for 0 steps first: it answers 24 where the run does not fit table, frame
 * and reading (21 for a frame over 1,024 bytes), and only where it answers 0 is it sure that the fields lie within the
 * reading (a loop up to songrafter_fields over a forged run may read past it; songrafter_field does not). What fields
 * and values mean is as songrafter_grant says of a verdict. */
uint32_t songrafter_verdict(const uint8_t *run, size_t run_len);
uint64_t songrafter_steps(const uint8_t *run, size_t run_len);
uint64_t songrafter_fields(const uint8_t *run, size_t run_len);
uint64_t songrafter_position(const uint8_t *run, size_t run_len);
int64_t songrafter_value(const uint8_t *run, size_t run_len, size_t k);

/* A sentence for a number of refusal, and a word for a verdict. */
static inline const char *songrafter_refusal_text(size_t number) {
    switch (number) {
    case SONGRAFTER_OK: return "not refused";
    case SONGRAFTER_TABLE_SHORT: return "the table is shorter than 16,384 words";
    case SONGRAFTER_TEXT_SIZE: return "the grammar is empty or over 8,192 bytes";
    case SONGRAFTER_HEADER: return "the header is wrong";
    case SONGRAFTER_FORM: return "the rules do not have the form of rules";
    case SONGRAFTER_LIMIT: return "the grammar is too large: rules, constructs, variables or terms";
    case SONGRAFTER_NAME: return "a name is unknown, double, reserved, misplaced or of the wrong kind";
    case SONGRAFTER_CYCLE: return "a rule reaches itself";
    case SONGRAFTER_NUMBER: return "a number, a width or a calculation is outside its limits";
    case SONGRAFTER_EMPTY_BODY: return "what is repeated may take no bits";
    case SONGRAFTER_CLASH: return "the next 8 bits do not tell which of two ways to go";
    case SONGRAFTER_WEIGHT: return "the grammar is too heavy: its weight is over 65,535";
    case SONGRAFTER_UNREACHED: return "a rule is not reached from the start rule";
    case SONGRAFTER_NO_VALUE: return "a field has no value";
    case SONGRAFTER_FRAME_LONG: return "the frame is over 1,024 bytes";
    case SONGRAFTER_READING_SMALL: return "the reading has too few words";
    case SONGRAFTER_TABLE_UNSOUND: return "the table is not sound, or has no such field";
    case SONGRAFTER_RUN_UNFIT: return "the saved run or the field does not fit the table, the frame and the reading";
    default: return "not a number of refusal";
    }
}

static inline const char *songrafter_verdict_text(uint32_t verdict) {
    switch (verdict) {
    case SONGRAFTER_UNDECIDED: return "undecided";
    case SONGRAFTER_MATCH: return "match";
    case SONGRAFTER_NO_MATCH: return "no match";
    case SONGRAFTER_CLOSED: return "closed";
    case SONGRAFTER_BROKEN: return "broken";
    default: return "not a verdict";
    }
}

#ifdef __cplusplus
}
#endif

#endif
