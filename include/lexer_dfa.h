/*
 * The proved lexer DFA table core for C: ASCII ranges and runs, the decoding and encoding
 * of tables, lookups, and the building of rows from lists of transitions.
 *
 * The functions stand in target/liblexer_dfa.a, which `./build` writes for x86-64.
 *
 * Every call takes all words, bytes and lengths and ends with its answer or with one numbered
 * refusal; there is nothing to check first. A list is passed as pointer and length. The pointer
 * must be the address of that many numbers, or any address that is not null and is aligned where
 * the length is 0. Nothing is kept after the call. Nothing is written but what is passed without
 * `const`: a room, an output or a pool, which may not overlap the other lists of the call, and which
 * is written as far as its length and no further.
 *
 * An answer's `number` is 0 where the call was accepted, and so are `item` and `place`. Else it is the
 * refusal's number, `place` tells where, and `item` which mode, state, row or continuation breaks an
 * index rule; every other field is 0, and so is every number of a room or an output that is lent. A
 * pool is no output: a refused one is left as it was.
 *
 * The item is told with LEXER_DFA_INDEX alone, by the decoding of a table: it is 0 of every other
 * refusal, and so in every answer of another call. An answer that has no place has no item either.
 */
#ifndef LEXER_DFA_H
#define LEXER_DFA_H

#include <stddef.h>
#include <stdint.h>

#ifdef __cplusplus
extern "C" {
#endif

/* Refusals. The item is 0 where none is told. */
enum {
    LEXER_DFA_ACCEPTED = 0,
    LEXER_DFA_SHORT = 1, /* the words end inside a run or a table; place: the number of words. The
                            bytes end inside a transition's record; place: the record's offset */
    LEXER_DFA_TAG = 2,   /* the first word is not LEXER_DFA_TABLE_TAG; place: 0 */
    LEXER_DFA_FIELD = 3, /* a value that its field forbids; place: told by each call */
    LEXER_DFA_LIMIT = 4, /* more than LEXER_DFA_MAX_WORDS words; place: 8192. Too many transitions or
                            intervals; place: the offset of the record that goes past */
    LEXER_DFA_LEFT = 5,  /* words remain behind the table; place: the first of them */
    LEXER_DFA_INDEX = 6, /* an index rule is broken; place: the first such rule, 1 to 9; item: the
                            first that breaks it, counted from 0, which is a mode (rule 1), a state
                            (2 and 4), an ascii row (5), a wide row (6), an escape row (8) or a
                            continuation (9); 0 for rules 3 and 7, by which runs and escape rows are
                            as many as states */
    LEXER_DFA_ROOM = 7,  /* a room or an output is too short, or a pool for a new row; place: 0 */
    LEXER_DFA_STATE = 8, /* no such state, or a symbol past 127 for ascii_target; place: 0 */
    LEXER_DFA_NOT_TABLE = 9, /* a number that a lookup follows leads outside the room or its section,
                                or one that it reads is forbidden there; a room to encode or to
                                count is not one that decoding leaves; or rows do not fit their
                                pool; place: 0 */
    LEXER_DFA_ORDER = 10,    /* the starts of compiled modes descend; place: the mode. The pairs of
                                a set do not ascend; place: the record's offset */
    LEXER_DFA_TARGETS = 11   /* targets or continuations are not as many as distinct masks;
                                place: 0 */
};

/* What a byte is. */
enum {
    LEXER_DFA_BYTE_DIGIT = 0,
    LEXER_DFA_BYTE_HEX_LETTER = 1, /* A to F, a to f */
    LEXER_DFA_BYTE_OTHER_LETTER = 2,
    LEXER_DFA_BYTE_WHITESPACE = 3, /* 9, 10, 12, 13, 32; not 11 */
    LEXER_DFA_BYTE_UNDERSCORE = 4,
    LEXER_DFA_BYTE_QUOTE = 5, /* the single quote, 39 */
    LEXER_DFA_BYTE_DOLLAR = 6,
    LEXER_DFA_BYTE_OTHER = 7 /* all bytes of 128 and above among them */
};

uint32_t lexer_dfa_class_of_byte(uint8_t byte);

/* What the bytes of a run of ranges make up. */
enum {
    LEXER_DFA_WHITESPACE = 0, /* whitespace only */
    LEXER_DFA_NUMBER = 1,     /* a digit, and only hex digits, '_' or the single quote */
    LEXER_DFA_IDENTIFIER = 2, /* no number: a letter, and only letters, digits, '_' or '$' */
    LEXER_DFA_OTHER = 3
};

typedef struct {
    uint32_t number;
    uint32_t item; /* 0 */
    size_t place;
    uint32_t range_class;
} ClassAnswer;

/* The class of the ranges that the three words of a run of kind 5 hold. Any other words are FIELD
   at 0. */
ClassAnswer lexer_dfa_class(const uint32_t *words, size_t len);

/*
 * A run is how a state loops on ASCII. Its words: the low byte of the first is the kind.
 *   0  no run                 1  on every symbol
 *   2, 3, 4  on all but one, two, three exits, which stand in the next bytes
 *   5  on one to four ranges: the second byte is their number, and two more words hold low and
 *      high bytes, least byte first
 * Unused bytes are 0. `length` is the number of words, 1 or 3; with 1, second and third are 0.
 */
typedef struct {
    uint32_t number;
    uint32_t item; /* 0 */
    size_t place;
    size_t length;
    uint32_t first;
    uint32_t second;
    uint32_t third;
} RunAnswer;

/* The run of a state whose row of 128 targets this is. A row of another length is FIELD at 0. */
RunAnswer lexer_dfa_classify(const uint16_t *row, size_t len, uint16_t state);

/* The run that stands at word `at`. SHORT at `len` where the words end inside it, or before it;
   FIELD at `at` where they are no run. Kind 5 needs its three words before FIELD is judged. */
RunAnswer lexer_dfa_read_run(const uint32_t *words, size_t len, size_t at);

/* `ran` is 1, or 0 where there is no run (kind 0): no refusal, and not the same as a run of 0 bytes.
   The run is the first `bytes` bytes of the input; `found_exit` is 1 where it stops at a byte and
   not because the input ends. */
typedef struct {
    uint32_t number;
    uint32_t item; /* 0 */
    size_t place;
    uint32_t ran;
    size_t bytes;
    uint32_t found_exit;
} ScanAnswer;

/* Scans with the run whose words these are. Words that are not exactly one run's are FIELD at 0. */
ScanAnswer lexer_dfa_scan(const uint32_t *words, size_t len, const uint8_t *input,
                          size_t input_len);

#define LEXER_DFA_TABLE_TAG 0x4C440001u
#define LEXER_DFA_MAX_WORDS 8192
#define LEXER_DFA_ROOM_NUMBERS 16384

/* How many modes and states a table has, and how many words. */
typedef struct {
    uint32_t number;
    uint32_t item; /* with INDEX, the first that breaks the rule; else 0 */
    size_t place;
    uint32_t modes;
    uint32_t states;
    size_t words;
} DecodeAnswer;

/*
 * Decodes a table into a room of at least LEXER_DFA_ROOM_NUMBERS numbers; what it held before does
 * not matter. Accepted, it holds the table's numbers, then zeros. Judged in this order: ROOM,
 * LIMIT, then SHORT, TAG and FIELD in the order of the words, LEFT, INDEX. FIELD is at its word; but a
 * run of kind 5 and a context are read whole, three words, before FIELD, which is at the first.
 */
DecodeAnswer lexer_dfa_decode(const uint32_t *words, size_t len, uint32_t *room,
                              size_t room_len);

/* How many numbers were written; those behind them are 0. */
typedef struct {
    uint32_t number;
    uint32_t item; /* 0 */
    size_t place;
    size_t length;
} ListAnswer;

/*
 * Encodes the table in a room, which may be any: its words, every flag that was set made 1. Judged in
 * this order: NOT_TABLE, where the room is not what decoding leaves for some accepted words; ROOM,
 * where fewer numbers are lent than there are words.
 */
ListAnswer lexer_dfa_encode(const uint32_t *room, size_t len, uint32_t *out, size_t out_len);

/*
 * Lookups take any room, of any length and with any numbers, and read nothing outside it. NOT_TABLE
 * is never met on a room that decoding has filled; it comes before STATE. A refusal of NOT_TABLE or
 * STATE is at 0, so that such an answer has no place: it passes in one register. On a refusal `value`
 * is 0. Only mode_state_counts tells a place, that of ORDER.
 */
#define LEXER_DFA_NONE 4294967295u
#define LEXER_DFA_ESCAPE_STATE 65534u
#define LEXER_DFA_DEAD_STATE 65535u

typedef struct {
    uint32_t value;
    uint32_t number;
} LookupAnswer;

/* 1 where at least one mode is compiled, else 0. */
LookupAnswer lexer_dfa_has_compiled_modes(const uint32_t *room, size_t len);

LookupAnswer lexer_dfa_state_count(const uint32_t *room, size_t len);

/* The state in which a mode starts; NONE for a mode that is negative, absent or not compiled. */
LookupAnswer lexer_dfa_mode_start(const uint32_t *room, size_t len, int32_t mode);

/* For each mode 1 where it is compiled, else 0. Judged in this order: NOT_TABLE, ROOM (fewer numbers
   than modes are lent). */
ListAnswer lexer_dfa_compiled_mode_flags(const uint32_t *room, size_t len, uint32_t *out,
                                         size_t out_len);

/* For each compiled mode how many states it has. Judged in this order: NOT_TABLE, ROOM (fewer
   numbers than compiled modes are lent), ORDER at the first mode that starts below the one before
   it. */
ListAnswer lexer_dfa_mode_state_counts(const uint32_t *room, size_t len, uint32_t *out,
                                       size_t out_len);

/* Where a state goes: a state, or DEAD_STATE, or ESCAPE_STATE. On a byte of 0 to 127 (STATE for any
   other); on a character or any other number, a negative one read as unsigned; at the end. */
LookupAnswer lexer_dfa_ascii_target(const uint32_t *room, size_t len, uint16_t state,
                                    uint8_t symbol);
LookupAnswer lexer_dfa_char_target(const uint32_t *room, size_t len, uint16_t state,
                                   int32_t symbol);
LookupAnswer lexer_dfa_eof_target(const uint32_t *room, size_t len, uint16_t state);

/* The number of a state's accept, or NONE. */
LookupAnswer lexer_dfa_accept(const uint32_t *room, size_t len, uint16_t state);

/* The number of a state's continuation, or NONE: on a character, ASCII among them, and at the end. */
LookupAnswer lexer_dfa_char_continuation(const uint32_t *room, size_t len, uint16_t state,
                                         int32_t symbol);
LookupAnswer lexer_dfa_eof_continuation(const uint32_t *room, size_t len, uint16_t state);

/* How many code points from 0 to 0x10FFFF are not dead in a state. The whole room is judged first:
   NOT_TABLE exactly when it is not what decoding leaves for some accepted words. */
LookupAnswer lexer_dfa_coverage(const uint32_t *room, size_t len, uint16_t state);

/* The run of a state. */
RunAnswer lexer_dfa_ascii_run(const uint32_t *room, size_t len, uint16_t state);

/* How far a state's run goes. `stop` is 0 where the state has no run, and on a refusal; 1 where the
   input ends, 2 where the run stops at a byte. */
typedef struct {
    size_t bytes;
    uint32_t number;
    uint32_t stop;
} StateScanAnswer;

StateScanAnswer lexer_dfa_scan_ascii_run(const uint32_t *room, size_t len, uint16_t state,
                                         const uint8_t *input, size_t input_len);

/* A part of a room: `length` numbers from number `from` on. Where there is no such record, and where
   it is refused, both are 0. */
typedef struct {
    size_t from;
    size_t length;
} Span;

/* An accept: its rule, its flag (1 or 0) and how many actions it has. `found` is 1, or 0 where there
   is no accept of that number. */
typedef struct {
    uint32_t number;
    uint32_t found;
    uint32_t rule;
    uint32_t consumed_eof;
    uint32_t actions;
} AcceptAnswer;

AcceptAnswer lexer_dfa_accept_record(const uint32_t *room, size_t len, uint32_t accept);

/* Its actions, of three numbers each. */
Span lexer_dfa_accept_actions(const uint32_t *room, size_t len, uint32_t accept);

/* How many contexts and configs a continuation has. `found` is 1, or 0 where there is no continuation
   of that number. */
typedef struct {
    uint32_t number;
    uint32_t found;
    uint32_t contexts;
    uint32_t configs;
} ContinuationAnswer;

ContinuationAnswer lexer_dfa_continuation_record(const uint32_t *room, size_t len,
                                                 uint32_t continuation);

/* Its contexts, of three numbers each: kind 0 or 1, and two more. */
Span lexer_dfa_continuation_contexts(const uint32_t *room, size_t len, uint32_t continuation);

/* Its configs: state, alternative rule or NONE, two flags, context, action count, and the actions, of
   three numbers each. */
Span lexer_dfa_continuation_configs(const uint32_t *room, size_t len, uint32_t continuation);

/*
 * From the transitions of a state to its rows.
 *
 * A list of transitions is bytes, record behind record: a one-byte tag, a two-byte length, and so
 * many bytes of numbers, four each; all little-endian, numbers in two's complement.
 *   1  atom: one number                  2  range: low, high
 *   3  set: pairs of low and high        4  not-set: every code point but those of its pairs
 *   5  wildcard: every code point; no numbers
 * What lies outside 0 to 0x10FFFF holds no code point, and so does an inverted range. Each low of a set
 * is at most its high, and each next low above the last high.
 *
 * A record is judged in this order: SHORT; FIELD, where the tag is none of these or the length not its
 * own; ORDER; LIMIT. All are at the record's offset in the list.
 *
 * A call that writes first asks for the room that the longest list can need: ROOM, before a byte is
 * read, where a buffer is shorter. Behind what is written a buffer is 0.
 */
#define LEXER_DFA_MAX_TRANSITIONS 256
#define LEXER_DFA_MAX_INTERVALS 1024
#define LEXER_DFA_INTERVAL_NUMBERS 2048
#define LEXER_DFA_SEGMENT_NUMBERS 4096
#define LEXER_DFA_MASK_WORDS 8192
#define LEXER_DFA_ASCII_TARGETS 128
#define LEXER_DFA_ROW_NUMBERS 6144

/* How many transitions a list has, and how many intervals they have together: cut to the code points,
   empty ones dropped. */
typedef struct {
    uint32_t number;
    uint32_t item; /* 0 */
    size_t place;
    size_t transitions;
    size_t intervals;
} TransitionsAnswer;

TransitionsAnswer lexer_dfa_read_transitions(const uint8_t *list, size_t len);

/* Writes both ends of every interval, its low and its high + 1, in the order of the records. Asks for
   LEXER_DFA_INTERVAL_NUMBERS. */
TransitionsAnswer lexer_dfa_read_intervals(const uint8_t *list, size_t len, uint32_t *out,
                                           size_t out_len);

typedef struct {
    uint32_t number;
    uint32_t item; /* 0 */
    size_t place;
    size_t segments;
} SegmentsAnswer;

/* Writes the segments of a list, as low, high: each runs from an end of an interval to before the next.
   Asks for LEXER_DFA_SEGMENT_NUMBERS. */
SegmentsAnswer lexer_dfa_char_segments(const uint8_t *list, size_t len, uint32_t *out,
                                       size_t out_len);

/* How many masks were written, and of how many words each: one for 64 transitions. */
typedef struct {
    uint32_t number;
    uint32_t item; /* 0 */
    size_t place;
    size_t masks;
    size_t words;
} MasksAnswer;

/* Writes the segments of a list, and for each its mask: bit i is set where transition i holds the
   segment. Asks for LEXER_DFA_SEGMENT_NUMBERS and LEXER_DFA_MASK_WORDS. */
MasksAnswer lexer_dfa_segment_mask_matrix(const uint8_t *list, size_t len, uint32_t *segments,
                                          size_t segments_len, uint64_t *masks,
                                          size_t masks_len);

/* Does the same, and writes the distinct masks: each that is not empty once, in the order of first
   segment; `masks` is how many those are. Asks for LEXER_DFA_MASK_WORDS for them too. */
MasksAnswer lexer_dfa_distinct_masks(const uint8_t *list, size_t len, uint32_t *segments,
                                     size_t segments_len, uint64_t *masks, size_t masks_len,
                                     uint64_t *distinct, size_t distinct_len);

/* How many numbers the wide row and the escape row have, three for each range. */
typedef struct {
    uint32_t number;
    uint32_t item; /* 0 */
    size_t place;
    size_t wide;
    size_t escape;
} RowsAnswer;

/*
 * Builds the rows of a state: where it goes on each code point. Each distinct mask, in the order above,
 * is given a target, and a continuation or LEXER_DFA_NONE. What is given LEXER_DFA_DEAD_STATE is left
 * out of the rows, as is what no transition holds. `ascii` gets the targets of 0 to 127; `wide` low,
 * high and target of ranges from 128 on; `escape` low, high and continuation, ASCII among them.
 *
 * Judged in this order: ROOM for segments, masks and distinct masks, as above; the records; TARGETS;
 * ROOM for the rows, where `ascii` is shorter than LEXER_DFA_ASCII_TARGETS, or `wide` or `escape` than
 * LEXER_DFA_ROW_NUMBERS.
 */
RowsAnswer lexer_dfa_build_rows(const uint8_t *list, size_t len, const uint16_t *targets,
                                size_t targets_len, const uint32_t *continuations,
                                size_t continuations_len, uint32_t *segments,
                                size_t segments_len, uint64_t *masks, size_t masks_len,
                                uint64_t *distinct, size_t distinct_len, uint16_t *ascii,
                                size_t ascii_len, uint32_t *wide, size_t wide_len,
                                uint32_t *escape, size_t escape_len);

/*
 * Pools, in which each row stands once and is known by its number. How many rows stand in a pool the
 * caller says with each call; a row that is interned is found among them, or appended, and then its
 * number is how many there were. Nothing else in the pool changes. Judged in this order: NOT_TABLE,
 * where the stated rows do not fit the pool; FIELD; ROOM, where the row is new and the pool can't take
 * it. All are at 0, so that the answer has no place.
 */
typedef struct {
    size_t row;
    uint32_t number;
} InternAnswer;

/* A row of 128 targets; any other length is FIELD. */
InternAnswer lexer_dfa_intern_ascii(uint16_t *pool, size_t pool_len, size_t rows,
                                    const uint16_t *row, size_t row_len);

/* A row of ranges, low, high and target each; FIELD where it is not in threes, or a target is past
   65535. It stands in the pool as its count, and its ranges behind that. */
InternAnswer lexer_dfa_intern_wide(uint32_t *pool, size_t pool_len, size_t rows,
                                   const uint32_t *row, size_t row_len);

#ifdef __cplusplus
}
#endif

#endif
