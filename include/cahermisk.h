/*
 * Cahermisk: compares, unpacks and packs the columns of a packed log.
 *
 * Every function that is lent a place answers with a code and a number
 * (cahermisk_runs_next with several), for any bytes and any numbers it is given.
 * Code 0 is acceptance. Every other code refuses: its number is 0, and nothing that
 * was lent has changed.
 *
 * What a caller must keep to, and all that is asked:
 *  - a pointer is valid for the length given beside it and aligned for its type;
 *    with length 0 it may be null;
 *  - a place lent for writing overlaps no other place of the same call, and
 *    nothing else reads or writes it during the call.
 * A length counts elements (bytes of a page, dictionary or bitmap, words of bit
 * planes, places for entries, numbers of a list of spans).
 *
 * The functions keep no state, allocate nothing and call nothing but memset:
 * several threads may call them at the same time, and so may a signal handler. A
 * call takes at most CAHERMISK_STACK_BYTES of stack.
 */
#ifndef CAHERMISK_H
#define CAHERMISK_H

#include <stddef.h>
#include <stdint.h>

#ifdef __cplusplus
extern "C" {
#endif

/* ---- What all layouts share -------------------------------------------- */

/* The version: major * 1000000 + minor * 1000 + patch. */
#define CAHERMISK_VERSION 4000
#define CAHERMISK_VERSION_TEXT "0.4.0"

/*
 * The version of the library that is linked: CAHERMISK_VERSION as it was when that
 * was made. While the major number is 0, a new minor number may change what
 * callers rely on.
 */
uint32_t cahermisk_version(void);

/*
 * As much stack as any call takes. As compiled for x86-64 it takes 3,080 bytes at
 * most, and for Arm 3,616: cahermisk_dictionary_unpack does (tools/stack).
 */
#define CAHERMISK_STACK_BYTES 4096

/* The limits of a column. */
#define CAHERMISK_MAX_WIDTH 32
#define CAHERMISK_MAX_ENTRIES 16384
#define CAHERMISK_MAX_DICTIONARY_BYTES 65536

/* The code of an answer. */
enum cahermisk_code {
    CAHERMISK_ACCEPTED = 0,
    CAHERMISK_WIDTH_ABOVE_LIMIT = 1,      /* width above 32 */
    CAHERMISK_TOO_MANY_ENTRIES = 2,       /* more than 16,384 entries */
    CAHERMISK_OPERATOR_ABOVE_7 = 3,       /* operator above 7 */
    CAHERMISK_OUTPUT_TOO_SHORT = 4,       /* output too short */
    CAHERMISK_INPUT_ENDS_TOO_EARLY = 5,   /* input ends too early */
    CAHERMISK_INPUT_LEFT_OVER = 6,        /* input left over */
    CAHERMISK_UNUSED_BITS_NOT_0 = 7,      /* unused bits not 0 */
    CAHERMISK_VALUE_TOO_LARGE = 8,        /* entry or run value not below 2^width */
    CAHERMISK_NUMBER_BEYOND_ITS_BITS = 9, /* variable-length number beyond 32 bits */
    CAHERMISK_RUN_OF_LENGTH_0 = 10,       /* run of length 0 */
    CAHERMISK_RUN_PAST_N = 11,            /* run goes too far past n, or one run is asked
                                             for with n covered */
    CAHERMISK_DELTA_SHAPE = 12,           /* delta shape */
    CAHERMISK_DELTA_COUNT_NOT_N = 13,     /* delta count is not n */
    CAHERMISK_MALFORMED_DICTIONARY = 14,  /* dictionary: length no multiple of 4, over
                                             65,536 bytes, or values not strictly ascending */
    CAHERMISK_INDEX_TOO_LARGE = 15,       /* index not below the dictionary's count */
    /* 16 is withdrawn, and not given again. */
    CAHERMISK_MINIBLOCK_TOO_WIDE = 17,    /* delta writer: a miniblock needs more than 32 bits */
    CAHERMISK_SPANS_MISPLACED = 18        /* spans: not ascending with a gap of at least one entry,
                                             an end before its start, or the entry count reached */
};

/* What a code means, in words. */
static inline const char *cahermisk_code_text(uint32_t code) {
    switch (code) {
    case CAHERMISK_ACCEPTED: return "accepted";
    case CAHERMISK_WIDTH_ABOVE_LIMIT: return "width above 32";
    case CAHERMISK_TOO_MANY_ENTRIES: return "more than 16,384 entries";
    case CAHERMISK_OPERATOR_ABOVE_7: return "operator above 7";
    case CAHERMISK_OUTPUT_TOO_SHORT: return "output too short";
    case CAHERMISK_INPUT_ENDS_TOO_EARLY: return "input ends too early";
    case CAHERMISK_INPUT_LEFT_OVER: return "input left over";
    case CAHERMISK_UNUSED_BITS_NOT_0: return "unused bits not 0";
    case CAHERMISK_VALUE_TOO_LARGE: return "entry or run value not below 2^width";
    case CAHERMISK_NUMBER_BEYOND_ITS_BITS: return "variable-length number beyond 32 bits";
    case CAHERMISK_RUN_OF_LENGTH_0: return "run of length 0";
    case CAHERMISK_RUN_PAST_N:
        return "run goes too far past n, or one run is asked for with n covered";
    case CAHERMISK_DELTA_SHAPE: return "delta shape";
    case CAHERMISK_DELTA_COUNT_NOT_N: return "delta count is not n";
    case CAHERMISK_MALFORMED_DICTIONARY:
        return "dictionary: length no multiple of 4, over 65,536 bytes, or values not strictly ascending";
    case CAHERMISK_INDEX_TOO_LARGE: return "index not below the dictionary's count";
    case CAHERMISK_MINIBLOCK_TOO_WIDE: return "delta writer: a miniblock needs more than 32 bits";
    case CAHERMISK_SPANS_MISPLACED:
        return "spans: not ascending with a gap of at least one entry, an end before its start, or the entry count reached";
    default: return "a code that this header does not know";
    }
}

/*
 * The operator of a comparison with the constants a and b. All comparing is of
 * whole numbers: a and b may be any signed 64-bit numbers, and are never cut to
 * the column's width. Operators 0 to 5 ignore b. If a > b, BETWEEN selects
 * nothing and NOT_BETWEEN everything.
 */
enum cahermisk_operator {
    CAHERMISK_EQUAL = 0,            /* equal to a */
    CAHERMISK_NOT_EQUAL = 1,        /* not equal to a */
    CAHERMISK_LESS = 2,             /* less than a */
    CAHERMISK_LESS_OR_EQUAL = 3,    /* less than or equal to a */
    CAHERMISK_GREATER = 4,          /* greater than a */
    CAHERMISK_GREATER_OR_EQUAL = 5, /* greater than or equal to a */
    CAHERMISK_BETWEEN = 6,          /* from a to b, with both ends */
    CAHERMISK_NOT_BETWEEN = 7       /* not from a to b */
};

/*
 * The answer of every function that is lent a place, but of cahermisk_runs_next. On
 * acceptance the number is, for a scan, how many bits of the bitmap are set; for
 * unpack, n; for pack, the length written, in bytes or, for bit planes, in words; for
 * spans, the pairs written or the bits set.
 */
typedef struct {
    uint32_t code;
    uint32_t number;
} cahermisk_answer;

/*
 * Bytes that a scan of n entries writes. Bit i of a bitmap is bit i mod 8,
 * lowest first, of byte i div 8.
 * This macro and those below, which say how long a page or a list is or may be, have
 * a function each, for callers that have no macros: it gives the same number, but 0
 * for a width or a count beyond the limits, where every call refuses.
 */
#define CAHERMISK_BITMAP_BYTES(n) (((size_t)(n) + 7) / 8)
size_t cahermisk_bitmap_bytes(size_t n);

/* ---- Bare horizontal pages --------------------------------------------- */
/*
 * Entries are unsigned numbers of `width` bits, 0 to 32. Entry i takes the bits
 * i * width to i * width + width - 1 of the page, lowest first, bytes in order.
 */

/*
 * Bytes of the page of n entries of a width: exact for every width and count
 * within the limits.
 */
#define CAHERMISK_HORIZONTAL_BYTES(width, n) (((size_t)(n) * (size_t)(width) + 7) / 8)
size_t cahermisk_horizontal_bytes(uint32_t width, size_t n);

/*
 * Compares each entry of a page, and sets bit i of the bitmap exactly if entry i
 * satisfies the comparison.
 * Reads the page; writes the first CAHERMISK_BITMAP_BYTES(n) bytes of the bitmap,
 * the unused bits of the last one as 0, and keeps the later bytes.
 * Refuses with the first of these that holds:
 *   1  width above 32
 *   2  n above 16,384
 *   3  op above 7
 *   4  bitmap_len below CAHERMISK_BITMAP_BYTES(n)
 *   5  page_len below CAHERMISK_HORIZONTAL_BYTES(width, n)
 *   6  page_len above it
 *   7  a bit of the page's last byte after the last entry is not 0
 */
cahermisk_answer cahermisk_horizontal_scan(const uint8_t *page, size_t page_len,
                                           uint32_t width, size_t n,
                                           uint32_t op, int64_t a, int64_t b,
                                           uint8_t *bitmap, size_t bitmap_len);

/*
 * Writes the n entries of a page to the first n places of `entries`, and keeps
 * the other places.
 * Refuses with the first of these that holds:
 *   1  width above 32
 *   2  n above 16,384
 *   4  entries_len below n
 *   5  page_len below CAHERMISK_HORIZONTAL_BYTES(width, n)
 *   6  page_len above it
 *   7  a bit of the page's last byte after the last entry is not 0
 */
cahermisk_answer cahermisk_horizontal_unpack(const uint8_t *page, size_t page_len,
                                             uint32_t width, size_t n,
                                             uint32_t *entries, size_t entries_len);

/*
 * Packs all entries_len entries: writes the first
 * CAHERMISK_HORIZONTAL_BYTES(width, entries_len) bytes of the page, the unused
 * bits of the last one as 0, and keeps the later bytes.
 * Refuses with the first of these that holds:
 *   1  width above 32
 *   2  entries_len above 16,384
 *   8  an entry is not below 2^width
 *   4  page_len below CAHERMISK_HORIZONTAL_BYTES(width, entries_len)
 */
cahermisk_answer cahermisk_horizontal_pack(const uint32_t *entries, size_t entries_len,
                                           uint32_t width,
                                           uint8_t *page, size_t page_len);

/* ---- Bit planes -------------------------------------------------------- */
/*
 * Entries are unsigned numbers of `width` bits, 0 to 32, in groups of 64. A group
 * is `width` words of 64 bits, one for each bit of its entries, the most
 * significant first; entry j of the group is bit j, lowest first, of each word.
 * The last group is whole: its words have a lane also for each entry it lacks.
 */

/*
 * Words of the planes of n entries of a width: exact for every width and count
 * within the limits.
 */
#define CAHERMISK_VERTICAL_WORDS(width, n) (((size_t)(n) + 63) / 64 * (size_t)(width))
size_t cahermisk_vertical_words(uint32_t width, size_t n);

/*
 * Compares each entry of the planes, and sets bit i of the bitmap exactly if
 * entry i satisfies the comparison.
 * Reads the words; writes the first CAHERMISK_BITMAP_BYTES(n) bytes of the bitmap,
 * the unused bits of the last one as 0, and keeps the later bytes.
 * Refuses with the first of these that holds:
 *   1  width above 32
 *   2  n above 16,384
 *   3  op above 7
 *   4  bitmap_len below CAHERMISK_BITMAP_BYTES(n)
 *   5  words_len below CAHERMISK_VERTICAL_WORDS(width, n)
 *   6  words_len above it
 *   7  a bit of the last group's words in a lane after the last entry is not 0
 */
cahermisk_answer cahermisk_vertical_scan(const uint64_t *words, size_t words_len,
                                         uint32_t width, size_t n,
                                         uint32_t op, int64_t a, int64_t b,
                                         uint8_t *bitmap, size_t bitmap_len);

/*
 * Writes the n entries of the planes to the first n places of `entries`, and
 * keeps the other places.
 * Refuses with the first of these that holds:
 *   1  width above 32
 *   2  n above 16,384
 *   4  entries_len below n
 *   5  words_len below CAHERMISK_VERTICAL_WORDS(width, n)
 *   6  words_len above it
 *   7  a bit of the last group's words in a lane after the last entry is not 0
 */
cahermisk_answer cahermisk_vertical_unpack(const uint64_t *words, size_t words_len,
                                           uint32_t width, size_t n,
                                           uint32_t *entries, size_t entries_len);

/*
 * Packs all entries_len entries: writes the first
 * CAHERMISK_VERTICAL_WORDS(width, entries_len) words, the lanes after the last
 * entry as 0, and keeps the later words.
 * Refuses with the first of these that holds:
 *   1  width above 32
 *   2  entries_len above 16,384
 *   8  an entry is not below 2^width
 *   4  words_len below CAHERMISK_VERTICAL_WORDS(width, entries_len)
 */
cahermisk_answer cahermisk_vertical_pack(const uint32_t *entries, size_t entries_len,
                                         uint32_t width,
                                         uint64_t *words, size_t words_len);

/* ---- Run streams ------------------------------------------------------- */
/*
 * Entries are unsigned numbers of `width` bits, 0 to 32, in runs laid end to end:
 * the RLE/bit-packing hybrid. A run starts with a header, a variable-length number
 * h: seven bits a byte, lowest first, the top bit set where more bytes follow, at
 * most five bytes and 32 bits.
 *  - h even: h / 2 equal entries. Their value follows in ceil(width / 8) bytes,
 *    low byte first. The run may not pass n.
 *  - h odd: (h - 1) / 2 groups of 8 entries. Each group follows as `width` bytes,
 *    packed as a horizontal page. The run may pass n by at most 7 entries, which
 *    may be anything.
 * No run has length 0. The stream ends with the run that reaches n; with n = 0 it
 * is empty.
 *
 * A stream's first fault in reading order is, for each run in turn, the first of
 *   5  the page ends before the header does
 *   9  the header is beyond 32 bits
 *   10 the run has length 0
 *   11 the run goes too far past n
 *   5  the page ends before the value or the groups do
 *   8  the value is not below 2^width
 * and after the run that reaches n
 *   6  the page goes on
 */

/*
 * Compares each entry of a stream, and sets bit i of the bitmap exactly if entry i
 * satisfies the comparison.
 * Reads the page; writes the first CAHERMISK_BITMAP_BYTES(n) bytes of the bitmap,
 * the unused bits of the last one as 0, and keeps the later bytes.
 * Refuses with the first of these that holds:
 *   1  width above 32
 *   2  n above 16,384
 *   3  op above 7
 *   4  bitmap_len below CAHERMISK_BITMAP_BYTES(n)
 *   then the stream's first fault in reading order
 */
cahermisk_answer cahermisk_runs_scan(const uint8_t *page, size_t page_len,
                                     uint32_t width, size_t n,
                                     uint32_t op, int64_t a, int64_t b,
                                     uint8_t *bitmap, size_t bitmap_len);

/*
 * Writes the n entries of a stream to the first n places of `entries`, and keeps
 * the other places.
 * Refuses with the first of these that holds:
 *   1  width above 32
 *   2  n above 16,384
 *   4  entries_len below n
 *   then the stream's first fault in reading order
 */
cahermisk_answer cahermisk_runs_unpack(const uint8_t *page, size_t page_len,
                                       uint32_t width, size_t n,
                                       uint32_t *entries, size_t entries_len);

/* The kind of a run. */
enum cahermisk_kind {
    CAHERMISK_REPEATED = 0, /* equal entries */
    CAHERMISK_PACKED = 1    /* groups of 8 entries */
};

/*
 * One run. On a refusal all but the code is 0.
 */
typedef struct {
    uint32_t code;
    uint32_t kind;
    size_t length;   /* in entries, 8 a group, also where they pass n */
    uint32_t value;  /* of a repeated run, else 0 */
    size_t next;     /* the place in the page after the run */
    size_t body_at;  /* a packed run's bytes are those from page + body_at on, */
    size_t body_len; /* body_len of them, all in the page; else both are 0 */
} cahermisk_run;

/*
 * Reads the run at a place of a stream of n entries, of which `covered` are before
 * it. To read a stream run by run, begin with at = 0 and covered = 0; after each
 * run, at is its `next` and covered grows by its `length`; the stream ends where n
 * are covered.
 * Refuses with the first of these that holds:
 *   1  width above 32
 *   2  n above 16,384
 *   5  at above page_len
 *   11 covered is n or above
 *   then the run's first fault in reading order; never with 6
 */
cahermisk_run cahermisk_runs_next(const uint8_t *page, size_t page_len,
                                  uint32_t width, size_t n,
                                  size_t at, size_t covered);

/*
 * Bytes that are enough for the stream of any n entries of a width, within the
 * limits: how many pack writes depends on the entries.
 */
#define CAHERMISK_RUNS_BYTES(width, n) (((size_t)(n) + 7) / 8 * ((size_t)(width) + 1))
size_t cahermisk_runs_bytes(uint32_t width, size_t n);

/*
 * Packs all entries_len entries: writes their stream to the first bytes of the
 * page, and keeps the later bytes. 8 or more equal entries from where a run may
 * begin are one repeated run; other entries go into packed runs of at most 63
 * groups, the last group filled with 0. Headers are shortest.
 * Refuses with the first of these that holds:
 *   1  width above 32
 *   2  entries_len above 16,384
 *   8  an entry is not below 2^width
 *   4  page_len below the stream's length
 */
cahermisk_answer cahermisk_runs_pack(const uint32_t *entries, size_t entries_len,
                                     uint32_t width,
                                     uint8_t *page, size_t page_len);

/* ---- Delta pages ------------------------------------------------------- */
/*
 * Entries are signed 32-bit numbers, kept as deltas from one to the next.
 *
 * A page starts with four variable-length numbers, as the headers of runs are:
 * the block size, the miniblocks per block, the count of entries, and the first
 * value. The block size is a multiple of 128 from 128 to 16,384; the miniblock
 * count is at least 1 and divides it, and a miniblock has block size / miniblocks
 * deltas, a multiple of 32. Signed numbers are zigzag: 0, -1, 1, -2, 2 .. are
 * spelled 0, 1, 2, 3, 4 ..
 *
 * Then come ceil((n - 1) / block size) blocks, none for n = 0 or 1. A block is a
 * signed number, the smallest delta; a width byte for each miniblock; and the
 * bodies of the needed miniblocks, each packed as a horizontal page of its width,
 * 0 to 32, and always full: what lies there past entry n - 1 may be anything. A
 * miniblock is needed if it holds the delta of an entry below n. The others have
 * a width byte all the same, which may be any number, and no body.
 *
 * Entry 0 is the first value. Each later entry is the one before plus its block's
 * smallest delta plus its packed number, wrapping in 32 bits. The smallest delta
 * need not be the least, and a width may be wider than needed.
 *
 * A page's first fault in reading order is the first of
 *   5  the page ends before the header does
 *   9  a number of the header is beyond 32 bits
 *   12 block size and miniblock count are not as said
 *   13 the count is not n
 * and for each block in turn
 *   5  the page ends before the smallest delta does
 *   9  the smallest delta is beyond 32 bits
 *   for each width byte in turn
 *      5  it is missing
 *      1  its miniblock is needed and the width is above 32
 *   5  the page ends before the bodies do
 * and after the last block
 *   6  the page goes on
 */

/*
 * Compares each entry of a page, and sets bit i of the bitmap exactly if entry i
 * satisfies the comparison.
 * Reads the page; writes the first CAHERMISK_BITMAP_BYTES(n) bytes of the bitmap,
 * the unused bits of the last one as 0, and keeps the later bytes.
 * Refuses with the first of these that holds:
 *   2  n above 16,384
 *   3  op above 7
 *   4  bitmap_len below CAHERMISK_BITMAP_BYTES(n)
 *   then the page's first fault in reading order
 */
cahermisk_answer cahermisk_delta_scan(const uint8_t *page, size_t page_len, size_t n,
                                      uint32_t op, int64_t a, int64_t b,
                                      uint8_t *bitmap, size_t bitmap_len);

/*
 * Writes the n entries of a page to the first n places of `entries`, and keeps
 * the other places.
 * Refuses with the first of these that holds:
 *   2  n above 16,384
 *   4  entries_len below n
 *   then the page's first fault in reading order
 */
cahermisk_answer cahermisk_delta_unpack(const uint8_t *page, size_t page_len, size_t n,
                                        int32_t *entries, size_t entries_len);

/*
 * Bytes that are enough for the page of any n entries, within the limits: how
 * many pack writes depends on the entries.
 */
#define CAHERMISK_DELTA_BYTES(n) (11 + ((size_t)(n) + 126) / 128 * 521)
size_t cahermisk_delta_bytes(size_t n);

/*
 * Packs all entries_len entries: writes their page to the first bytes of the page
 * lent, and keeps the later bytes. Blocks are of 128 deltas in 4 miniblocks, the
 * smallest delta is the least, widths are the least, numbers are shortest, and
 * bodies are filled with 0.
 * Refuses with the first of these that holds:
 *   2  entries_len above 16,384
 *   17 a miniblock needs more than 32 bits (of 32-bit entries none ever does)
 *   4  page_len below the page's length
 */
cahermisk_answer cahermisk_delta_pack(const int32_t *entries, size_t entries_len,
                                      uint8_t *page, size_t page_len);

/* ---- Dictionary columns ------------------------------------------------ */
/*
 * Entries are signed 32-bit numbers, kept as indexes of a dictionary.
 *
 * A dictionary is its values in 4 bytes each, low byte first, strictly ascending:
 * at most CAHERMISK_MAX_DICTIONARY_BYTES in all. It may be empty. An index page is
 * a width byte, 0 to 32, and then a run stream of n indexes of that width. Entry i
 * is the value that index i counts to, from 0 on.
 *
 * A column's first fault is the first of
 *   14 dict_len is no multiple of 4 or above CAHERMISK_MAX_DICTIONARY_BYTES, or a
 *      value is not above the one before it
 *   5  the width byte is missing
 *   1  the width is above 32
 *   then the stream's first fault in reading order, as of run streams
 *   15 an index is not below dict_len / 4; those that fill the last group past n
 *      may be anything
 * The width byte is needed and judged also with n = 0.
 */

/*
 * Compares each entry of a column, and sets bit i of the bitmap exactly if entry i
 * satisfies the comparison.
 * Reads the dictionary and the page; writes the first CAHERMISK_BITMAP_BYTES(n)
 * bytes of the bitmap, the unused bits of the last one as 0, and keeps the later
 * bytes.
 * Refuses with the first of these that holds:
 *   2  n above 16,384
 *   3  op above 7
 *   4  bitmap_len below CAHERMISK_BITMAP_BYTES(n)
 *   then the column's first fault
 */
cahermisk_answer cahermisk_dictionary_scan(const uint8_t *dict, size_t dict_len,
                                           const uint8_t *page, size_t page_len, size_t n,
                                           uint32_t op, int64_t a, int64_t b,
                                           uint8_t *bitmap, size_t bitmap_len);

/*
 * Writes the n entries of a column to the first n places of `entries`, and keeps
 * the other places.
 * Refuses with the first of these that holds:
 *   2  n above 16,384
 *   4  entries_len below n
 *   then the column's first fault
 */
cahermisk_answer cahermisk_dictionary_unpack(const uint8_t *dict, size_t dict_len,
                                             const uint8_t *page, size_t page_len, size_t n,
                                             int32_t *entries, size_t entries_len);

/* ---- Spans ------------------------------------------------------------- */
/*
 * A span is a maximal stretch of selected entries, told by two numbers: its first
 * entry and its last, which are the same for a stretch of one. A list of spans is
 * these pairs one after another, ascending, each stretch once; between two of them
 * at least one entry is not selected, or they would be one.
 */

/*
 * Numbers that are enough for the list of any bitmap of n entries, within the limit:
 * how many are written depends on the bitmap.
 */
#define CAHERMISK_SPANS_PLACES(n) (((size_t)(n) + 1) / 2 * 2)
size_t cahermisk_spans_places(size_t n);

/*
 * Writes the spans of the first n entries of a bitmap to the first places of `spans`,
 * and keeps the other places. The number is the pairs written, two places each.
 * Reads the first CAHERMISK_BITMAP_BYTES(n) bytes of the bitmap. Set bits past n in the
 * last of them and later bytes are not read: they are no fault, and a span that would
 * go on there ends with n - 1.
 * Refuses with the first of these that holds:
 *   2  n above 16,384
 *   5  bitmap_len below CAHERMISK_BITMAP_BYTES(n)
 *   4  spans_len below twice the pairs there are; an odd length is no fault
 */
cahermisk_answer cahermisk_spans_from_bitmap(const uint8_t *bitmap, size_t bitmap_len, size_t n,
                                             uint32_t *spans, size_t spans_len);

/*
 * Writes the bitmap of n entries in which just those of the spans are selected: the
 * first CAHERMISK_BITMAP_BYTES(n) bytes, entries in no span and the unused bits of the
 * last byte as 0; and keeps the later bytes. The number is the bits set.
 * Of a list that is accepted, cahermisk_spans_from_bitmap gives the list again; and the
 * list of a bitmap gives these bytes again, if its bits past n are 0.
 * Refuses with the first of these that holds:
 *   2  n above 16,384
 *   5  spans_len is odd
 *   4  bitmap_len below CAHERMISK_BITMAP_BYTES(n)
 *   18 a span's first number is not above the last number of the span before by 2 or
 *      more; a last number is below its first; or a number is n or above
 * A list has no limit of its own: one too long for n entries, as of 40,000 numbers, is
 * refused with 18 and not with 2.
 */
cahermisk_answer cahermisk_spans_to_bitmap(const uint32_t *spans, size_t spans_len, size_t n,
                                           uint8_t *bitmap, size_t bitmap_len);

#ifdef __cplusplus
}
#endif

#endif
