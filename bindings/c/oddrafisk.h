/* Oddrafisk: a proved reader and writer of Kafka's version 2 record batch, uncompressed.
 *
 * Link liboddrafisk.a, or the shared object that bindings/install makes of it: they need memcpy and memset and no other
 * symbol. No function here allocates, keeps what it was lent, fails in any other way than by the number that it
 * returns, or needs anything checked before it is called: each answers every value of every parameter. They share no
 * memory but what is lent, so that threads may call them at the same time.
 *
 * WHAT THE CALLER OWES, for each call:
 * - A pointer with a count is to that many elements, and a pointer to an array of N to N of them. It is not null, even
 *   where the count is 0, as what malloc(0) gives may be, and is aligned for its type.
 * - What a call may change (a parameter that is not const) overlaps nothing else that is lent to that call.
 * - Nothing that is lent changes during the call, but by the call itself, and nobody else looks at what it may change.
 *   A call goes over what it is lent more than once, and is proved for what stays the same. Where it changes meanwhile
 *   no promise holds, not even that nothing else is touched: a batch may be accepted and rows of it be left unfilled.
 *   Bytes after those that are lent may change, so a log may be appended to while its finished part is lent. What
 *   another thread or process may change, as a mapped file that is overwritten or cut off, is to be copied first.
 * - There is room on the stack: a call takes at most 4096 bytes of stack, on x86-64 and on AArch64, beside what memcpy
 *   and memset take themselves.
 * - size_t has 64 bits, which is asserted below.
 *
 * ENTRIES OF A BATCH. Sixteen numbers say what a batch is: the reader answers by them, and the writer takes them. The
 * places in them are named below. For producer id, producer epoch and base sequence -1 is "none", and 0 is not: what is
 * to be written for no producer has -1 in all three.
 *
 * ROWS. A record row is eight numbers: timestamp delta, offset delta, key start, key length, value start, value length,
 * first header row, number of headers. A header row is four: key start, key length, value start, value length. The
 * places in both are named below. Starts count from the first of the bytes that are read, and in writing from the first
 * of the source; null is start 0 and length -1, and in a header nothing is null. First header rows run on: each is how
 * many headers the records before it have, even where it has none itself. A table is lent by how many numbers it has,
 * while entries count rows: ODDRAFISK_RECORD_NUMBERS(rows) and ODDRAFISK_HEADER_NUMBERS(rows) are the numbers of so
 * many rows. It has as many rows as are whole; what is left over is never touched.
 *
 * MODES. A control batch, which ends a transaction, has a marker in place of records. The mode, the first parameter of
 * the functions that read and write, says whether there are markers:
 * - ODDRAFISK_KEYED is what a program wants: the marker is a record whose key begins with version and type, two bytes
 *   each, as brokers write it. It is read as any record is, and all else in it is ignored: further bytes of the key,
 *   value, headers, deltas and attributes. The writer gives a key of four bytes, zero deltas, a null value and no
 *   headers: 72 bytes in all. Brokers write a value of six bytes after the key; such a marker is read, and is not
 *   canonical.
 * - ODDRAFISK_BARE reads and writes batches of records alone. A marker that is asked for is refused by
 *   ODDRAFISK_BARE_MARKER, and every control batch is refused, a keyed one by ODDRAFISK_UNKNOWN_CONTROL.
 * Batches of records are read and written alike in both modes, and the returns 1 to 7 are the same. A control batch
 * needs no rows: its counts of records and headers are 0, and ODDRAFISK_NO_ROOM is never returned for it.
 *
 * BARE MARKERS. Before version 0.4.0 a marker could also be bare, as the Rust crate rskafka has it: version and type
 * alone, four bytes after the fixed fields, 65 in all. That form is withdrawn. Exactly where such a batch was accepted
 * it is refused by ODDRAFISK_BARE_MARKER, in either mode. oddrafisk_convert makes a keyed marker of it, for files that
 * are stored, and the program `oddrafisk convert` does so for whole files.
 */
#ifndef ODDRAFISK_H
#define ODDRAFISK_H

#include <stddef.h>
#include <stdint.h>

/* C and C++ before 2011 have no such assertion. */
#if defined __cplusplus && __cplusplus >= 201103L
static_assert(sizeof(size_t) == 8, "liboddrafisk.a is for processors on which size_t has 64 bits");
#elif defined __STDC_VERSION__ && __STDC_VERSION__ >= 201112L
_Static_assert(sizeof(size_t) == 8, "liboddrafisk.a is for processors on which size_t has 64 bits");
#endif

#ifdef __cplusplus
extern "C" {
#endif

/* The version of this header, 0.4.0, as one number: 1.2.3 would be 1002003. */
#define ODDRAFISK_VERSION 4000

/* The modes: whether there are markers, which are keyed. Every other number is the bare mode, so that each has an
 * answer. */
enum { ODDRAFISK_BARE = 0, ODDRAFISK_KEYED = 1 };

/* The places of a batch's entries. */
enum {
    ODDRAFISK_BASE_OFFSET = 0,
    ODDRAFISK_PARTITION_LEADER_EPOCH = 1, /* 32 bits */
    ODDRAFISK_LAST_OFFSET_DELTA = 2,      /* 32 bits */
    ODDRAFISK_FIRST_TIMESTAMP = 3,
    ODDRAFISK_MAX_TIMESTAMP = 4,
    ODDRAFISK_PRODUCER_ID = 5,      /* -1 is none */
    ODDRAFISK_PRODUCER_EPOCH = 6,   /* 16 bits; -1 is none */
    ODDRAFISK_BASE_SEQUENCE = 7,    /* 32 bits; -1 is none */
    ODDRAFISK_TIMESTAMP_TYPE = 8,   /* 0 create time, 1 log append time */
    ODDRAFISK_IS_TRANSACTIONAL = 9, /* 0 or 1 */
    ODDRAFISK_KIND = 10,            /* ODDRAFISK_KIND_RECORDS, ODDRAFISK_KIND_ABORT or ODDRAFISK_KIND_COMMIT */
    ODDRAFISK_RECORDS = 11,         /* how many records; of a marker 0, and not looked at in writing one */
    ODDRAFISK_HEADERS = 12,         /* how many headers all records have together; not looked at in writing */
    ODDRAFISK_BYTES = 13,           /* how many bytes; not looked at in writing */
    ODDRAFISK_ENTRIES = 16          /* how many entries there are; those not named are 0, and are to be 0 in writing */
};

/* Kinds of a batch: of records, or a control batch with one of the two markers. */
enum { ODDRAFISK_KIND_RECORDS = 0, ODDRAFISK_KIND_ABORT = 1, ODDRAFISK_KIND_COMMIT = 2 };

/* The places in a row of a record. */
enum {
    ODDRAFISK_RECORD_TIMESTAMP_DELTA = 0,
    ODDRAFISK_RECORD_OFFSET_DELTA = 1, /* 32 bits */
    ODDRAFISK_RECORD_KEY_START = 2,
    ODDRAFISK_RECORD_KEY_LENGTH = 3, /* -1 is null */
    ODDRAFISK_RECORD_VALUE_START = 4,
    ODDRAFISK_RECORD_VALUE_LENGTH = 5, /* -1 is null */
    ODDRAFISK_RECORD_FIRST_HEADER = 6, /* a row of the table of headers */
    ODDRAFISK_RECORD_HEADERS = 7,      /* how many headers the record has */
    ODDRAFISK_RECORD_ROW = 8           /* how many numbers a row has */
};

/* The places in a row of a header. */
enum {
    ODDRAFISK_HEADER_KEY_START = 0,
    ODDRAFISK_HEADER_KEY_LENGTH = 1,
    ODDRAFISK_HEADER_VALUE_START = 2,
    ODDRAFISK_HEADER_VALUE_LENGTH = 3,
    ODDRAFISK_HEADER_ROW = 4 /* how many numbers a row has */
};

/* How many numbers so many rows are. Tables are lent by their numbers, and answers count rows. */
#define ODDRAFISK_RECORD_NUMBERS(rows) ((size_t)(rows) * ODDRAFISK_RECORD_ROW)
#define ODDRAFISK_HEADER_NUMBERS(rows) ((size_t)(rows) * ODDRAFISK_HEADER_ROW)

/* What the reader returns. Where an entry is not named, it is 0. */
enum {
    ODDRAFISK_ACCEPTED = 0,          /* all entries; ODDRAFISK_BYTES is how many the batch has */
    ODDRAFISK_MORE_BYTES = 1,        /* ODDRAFISK_BYTES is how many are needed, counted from the first, to say more */
    ODDRAFISK_LENGTH_TOO_SMALL = 2,  /* batchLength below 9 */
    ODDRAFISK_UNKNOWN_MAGIC = 3,     /* magic not 2 */
    ODDRAFISK_CHECKSUM_DIFFERS = 4,  /* CRC-32C is another */
    ODDRAFISK_UNKNOWN_CODEC = 5,     /* codec 5, 6 or 7 */
    ODDRAFISK_COMPRESSED = 6,        /* codec 1 to 4 */
    ODDRAFISK_WRONG_COUNT = 7,       /* count below -1, or of a control batch not 1 */
    ODDRAFISK_PAST_END = 8,          /* a field runs past its record or the batch */
    ODDRAFISK_BEYOND_LIMITS = 9,     /* a varint of too many bytes, or too large */
    ODDRAFISK_NEGATIVE_LENGTH = 10,  /* a length or a count that is negative and may not be */
    ODDRAFISK_KEY_NOT_UTF8 = 11,     /* the key of a header is not UTF-8 */
    ODDRAFISK_UNKNOWN_CONTROL = 12,  /* version or type of a marker unknown; keyed, also a key null or below 4 bytes */
    ODDRAFISK_BYTES_LEFT = 13,       /* bytes left in a record, or after the last record or the marker */
    ODDRAFISK_NO_ROOM = 14,          /* a table is short: ODDRAFISK_RECORDS and ODDRAFISK_HEADERS are the rows needed */
    ODDRAFISK_BARE_MARKER = 41       /* a bare marker, with no other fault; a refusal of the batch, as 2 to 13 are */
};

/* What the writer returns, beside 0 and ODDRAFISK_BARE_MARKER: that is a marker that is asked for in the bare mode, and
 * comes after 20 and before 21. */
enum {
    ODDRAFISK_CODEC_ASKED = 20,      /* the codec is not 0 */
    ODDRAFISK_WRONG_ROW = 21,        /* entries or rows that no batch has */
    ODDRAFISK_ASKED_NOT_UTF8 = 22,   /* the key of a header is not UTF-8 */
    ODDRAFISK_TOO_LONG = 23,         /* batchLength would exceed 2147483647 */
    ODDRAFISK_SHORT_OUTPUT = 24      /* the output is shorter than the batch */
};

/* What the bytes begin with: returns ODDRAFISK_ACCEPTED, 1 to 13 or ODDRAFISK_BARE_MARKER. It needs no tables, and
 * where it accepts says with ODDRAFISK_RECORDS and ODDRAFISK_HEADERS how many rows oddrafisk_read needs. A return other
 * than ODDRAFISK_MORE_BYTES stands whatever bytes may follow.
 *
 * GOING ON AFTER DAMAGE. Lent the first 17 bytes of a batch and no more, it returns ODDRAFISK_MORE_BYTES and in
 * ODDRAFISK_BYTES how many bytes the whole batch has, which is always above 17; unless these bytes refuse it already,
 * by 2 or 3, or there are fewer of them, and ODDRAFISK_BYTES is 12 or 17. So one can pass over a batch that is refused
 * by 4 to 13 or by ODDRAFISK_BARE_MARKER: the next starts that many bytes after the beginning of this one. Never look
 * byte by byte for the next place where this function accepts: a value may hold a batch, as a log does that is kept in
 * a record, and that would be taken for one of this log. The length is not covered by the checksum. Where it is damaged
 * itself, no batch of this log need begin at the place that it leads to: what stands there is judged as any bytes are,
 * and so may be a batch inside a value. Go on only where to lose or to misread batches is better than to stop, and hold
 * the base offset of what comes next to those before. */
uint32_t oddrafisk_check(uint32_t mode, const uint8_t *bytes, size_t bytes_count, int64_t answer[ODDRAFISK_ENTRIES]);

/* The same, and the rows of the batch's records and of their headers in the first rows of both tables; all else in the
 * tables is as it was, and every return but ODDRAFISK_ACCEPTED leaves them untouched. Returns ODDRAFISK_ACCEPTED, 1 to
 * 14 or ODDRAFISK_BARE_MARKER. Tables need not be cleared first. They are lent by their numbers and the answer counts
 * rows, so what oddrafisk_check or ODDRAFISK_NO_ROOM asks for is lent as
 *     ODDRAFISK_RECORD_NUMBERS(answer[ODDRAFISK_RECORDS]) and ODDRAFISK_HEADER_NUMBERS(answer[ODDRAFISK_HEADERS])
 * numbers, each of sizeof(int64_t) bytes. */
uint32_t oddrafisk_read(uint32_t mode, const uint8_t *bytes, size_t bytes_count, int64_t *records,
                        size_t record_numbers, int64_t *headers, size_t header_numbers,
                        int64_t answer[ODDRAFISK_ENTRIES]);

/* How many bytes the batch has when it is written: answer[0], where 0 is returned; else 20 to 23 or
 * ODDRAFISK_BARE_MARKER is returned, and answer[0] is 0. It has the entries of `batch`, and where its kind is of
 * records, as many as ODDRAFISK_RECORDS says, from the first rows of both tables; their spans lie in the source. A
 * marker looks at neither that number nor tables nor source. `codec` other than 0 is refused first; then, in the bare
 * mode, the kind of a marker, whatever the other entries are. ODDRAFISK_WRONG_ROW is an entry that leaves its width, a
 * timestamp type or a flag that is neither 0 nor 1, an unknown kind, or an entry not named that is not 0; and where the
 * kind is of records, a count of them below 0, more records than rows, or in a row a span outside the source, a length
 * that its place does not allow, null with a start that is not 0, an offset delta that leaves 32 bits, a number of
 * headers below 0, or headers that do not run on or run past their table. */
uint32_t oddrafisk_measure(uint32_t mode, const int64_t batch[ODDRAFISK_ENTRIES], int64_t codec, const int64_t *records,
                           size_t record_numbers, const int64_t *headers, size_t header_numbers, const uint8_t *source,
                           size_t source_count, int64_t answer[1]);

/* Writes that batch to the start of the output, and changes no other byte of it. Returns as oddrafisk_measure does, or
 * ODDRAFISK_SHORT_OUTPUT with 0 in answer[0]; what is refused leaves the output untouched. */
uint32_t oddrafisk_write(uint32_t mode, const int64_t batch[ODDRAFISK_ENTRIES], int64_t codec, const int64_t *records,
                         size_t record_numbers, const int64_t *headers, size_t header_numbers, const uint8_t *source,
                         size_t source_count, uint8_t *output, size_t output_count, int64_t answer[1]);

/* 1 where the bytes, all of them, are one batch just as oddrafisk_write gives it in that mode, else 0. A bare marker is
 * none, in either mode, and in the bare mode no control batch is. */
uint32_t oddrafisk_is_canonical(uint32_t mode, const uint8_t *bytes, size_t bytes_count);

/* Converts the batch that the bytes begin with, and does not look at what follows it: it is for stored files with bare
 * markers, batch by batch. A bare marker becomes a keyed one of the same type in the output, 72 bytes for 65; all fixed
 * fields are kept byte for byte, attributes without a meaning too, but for the length and the checksum, which are those
 * of the new bytes. Any other batch that is accepted in the keyed mode is copied as it stands. What is given is given
 * again for itself.
 *
 * Returns ODDRAFISK_ACCEPTED, with how many bytes were taken in answer[0] and how many were given in answer[1];
 * ODDRAFISK_MORE_BYTES, with how many are needed, counted from the first, in answer[0]; 2 to 13 as oddrafisk_check does
 * in the keyed mode; or last, where the output is shorter than what is to be given, ODDRAFISK_SHORT_OUTPUT. It never
 * returns ODDRAFISK_BARE_MARKER. What is not named in the answer is 0. No more bytes are given than were taken and 7
 * more, so an output of 7 bytes more than the batch is always enough. All else in the output is as it was, and every
 * return but ODDRAFISK_ACCEPTED leaves it untouched. */
uint32_t oddrafisk_convert(const uint8_t *bytes, size_t bytes_count, uint8_t *output, size_t output_count,
                           int64_t answer[2]);

/* The time of a record with this delta, in a batch with this timestamp type, first and greatest timestamp: the first
 * and the delta added up, whichever the type. Returns 1 and the time in answer[0]; or 0, and 0 in answer[0], where
 * there is none, because the sum leaves 64 bits or the type is neither 0 nor 1.
 *
 * NOT YET KAFKA'S (request C-12): under log append Kafka takes the batch's greatest timestamp as the time of every
 * record, and this function adds the delta. */
uint32_t oddrafisk_record_time(int64_t timestamp_type, int64_t first_timestamp, int64_t max_timestamp, int64_t delta,
                               int64_t answer[1]);

/* CRC-32C (Castagnoli) of the bytes. */
uint32_t oddrafisk_crc32c(const uint8_t *bytes, size_t bytes_count);

/* The version of what is linked, as ODDRAFISK_VERSION is that of this header. A stale archive may answer by other
 * entries and other numbers, so a program does well to begin with
 *     if (oddrafisk_version() != ODDRAFISK_VERSION) abort(); */
uint32_t oddrafisk_version(void);

/* Plain words for a number that a function here returns. C before 1999 has no inline functions, and not this one. */
#if defined __cplusplus || (defined __STDC_VERSION__ && __STDC_VERSION__ >= 199901L)
static inline const char *oddrafisk_words(uint32_t number)
{
    switch (number) {
    case ODDRAFISK_ACCEPTED: return "accepted";
    case ODDRAFISK_MORE_BYTES: return "more bytes are needed";
    case ODDRAFISK_LENGTH_TOO_SMALL: return "the length of the batch is too small";
    case ODDRAFISK_UNKNOWN_MAGIC: return "the magic byte is not 2";
    case ODDRAFISK_CHECKSUM_DIFFERS: return "the checksum differs";
    case ODDRAFISK_UNKNOWN_CODEC: return "the codec is unknown";
    case ODDRAFISK_COMPRESSED: return "the records are compressed";
    case ODDRAFISK_WRONG_COUNT: return "the count of records is wrong";
    case ODDRAFISK_PAST_END: return "a field runs past its end";
    case ODDRAFISK_BEYOND_LIMITS: return "a number of varying length is too long or too large";
    case ODDRAFISK_NEGATIVE_LENGTH: return "a length or a count is negative";
    case ODDRAFISK_KEY_NOT_UTF8: return "the key of a header is not UTF-8";
    case ODDRAFISK_UNKNOWN_CONTROL: return "the control marker is unknown";
    case ODDRAFISK_BYTES_LEFT: return "bytes are left over";
    case ODDRAFISK_NO_ROOM: return "a table has too few rows";
    case ODDRAFISK_BARE_MARKER:
        return "bare markers are withdrawn: write keyed ones; `oddrafisk convert IN OUT` converts a stored log";
    case ODDRAFISK_CODEC_ASKED: return "a codec is asked for";
    case ODDRAFISK_WRONG_ROW: return "an entry or a row is asked for that no batch has";
    case ODDRAFISK_ASKED_NOT_UTF8: return "the key of a header that is asked for is not UTF-8";
    case ODDRAFISK_TOO_LONG: return "the batch would be longer than 2147483647 bytes after its length";
    case ODDRAFISK_SHORT_OUTPUT: return "the output is shorter than the batch";
    default: return "no function returns this number";
    }
}
#endif

#ifdef __cplusplus
}
#endif

#endif
