/* Calls every function of oddrafisk.h, in each mode, and compares what it answers with document 01, and where markers
 * are keyed with Kafka's format. It is C11 and C++17. Prints each check that does not hold, how many were made, and as
 * its last line `N passed, M failed`, which counts the functions below that are named test_; fails where one does not
 * pass. */
#include "oddrafisk.h"

#include <inttypes.h>
#include <stdio.h>
#include <stdlib.h>
#include <string.h>

static unsigned made, broken;

/* The mode in which a test is run: each test in all of these. Numbers without a name are the bare mode. */
static const uint32_t MODES[] = {ODDRAFISK_BARE, ODDRAFISK_KEYED, 2, UINT32_MAX};
static uint32_t mode;

static void expect(int holds, int line, const char *what)
{
    made++;
    if (holds)
        return;
    broken++;
    printf("line %d, mode %" PRIu32 ": %s\n", line, mode, what);
}

#define EXPECT(holds) expect((holds), __LINE__, #holds)

#define COUNT(array) (sizeof(array) / sizeof(array)[0])

/* What lent memory holds before a call. */
enum { UNTOUCHED_BYTE = 0xAA };
#define UNTOUCHED INT64_C(-7777)

/* Tables with room for four rows each, and a part of a fifth. */
enum { RECORD_ROOM = ODDRAFISK_RECORD_NUMBERS(4) + 7, HEADER_ROOM = ODDRAFISK_HEADER_NUMBERS(4) + 3 };

typedef struct {
    int64_t records[RECORD_ROOM];
    int64_t headers[HEADER_ROOM];
} tables;

static void fill(int64_t *numbers, size_t count, int64_t number)
{
    for (size_t i = 0; i < count; i++)
        numbers[i] = number;
}

static int all_are(const int64_t *numbers, size_t count, int64_t number)
{
    for (size_t i = 0; i < count; i++)
        if (numbers[i] != number)
            return 0;
    return 1;
}

static int untouched_bytes(const uint8_t *bytes, size_t count)
{
    for (size_t i = 0; i < count; i++)
        if (bytes[i] != UNTOUCHED_BYTE)
            return 0;
    return 1;
}

static int same_numbers(const int64_t *a, const int64_t *b, size_t count)
{
    return memcmp(a, b, count * sizeof *a) == 0;
}

static void clear_tables(tables *t)
{
    fill(t->records, RECORD_ROOM, UNTOUCHED);
    fill(t->headers, HEADER_ROOM, UNTOUCHED);
}

static int untouched_from(const tables *t, size_t record, size_t header)
{
    return all_are(t->records + record, RECORD_ROOM - record, UNTOUCHED)
           && all_are(t->headers + header, HEADER_ROOM - header, UNTOUCHED);
}

/* Whether the answer is 0 in all entries but the three counts, and those are as given. */
static int counts_only(const int64_t *answer, int64_t records, int64_t headers, int64_t bytes)
{
    int64_t expected[ODDRAFISK_ENTRIES] = {0};
    expected[ODDRAFISK_RECORDS] = records;
    expected[ODDRAFISK_HEADERS] = headers;
    expected[ODDRAFISK_BYTES] = bytes;
    return same_numbers(answer, expected, ODDRAFISK_ENTRIES);
}

/* Calls oddrafisk_check and oddrafisk_read, which are to refuse alike, or to need more bytes, and then touch no table.
 * Returns the number where they do. */
static uint32_t refused(const uint8_t *bytes, size_t count, int64_t bytes_needed)
{
    tables t;
    int64_t checked[ODDRAFISK_ENTRIES], read[ODDRAFISK_ENTRIES];
    clear_tables(&t);
    fill(checked, ODDRAFISK_ENTRIES, UNTOUCHED);
    fill(read, ODDRAFISK_ENTRIES, UNTOUCHED);
    uint32_t number = oddrafisk_check(mode, bytes, count, checked);
    EXPECT(oddrafisk_read(mode, bytes, count, t.records, RECORD_ROOM, t.headers, HEADER_ROOM, read) == number);
    EXPECT(counts_only(checked, 0, 0, bytes_needed));
    EXPECT(counts_only(read, 0, 0, bytes_needed));
    EXPECT(untouched_from(&t, 0, 0));
    EXPECT(oddrafisk_is_canonical(mode, bytes, count) == 0);
    return number;
}

/* Document 01's sample: base 0 without records, base 7 with the one record "A", other fields 0; then three bytes. */
enum { EMPTY_BYTES = 61, ONE_BYTES = 69, SAMPLE_BYTES = EMPTY_BYTES + ONE_BYTES };

static const uint8_t SAMPLE[SAMPLE_BYTES + 3] = {
    0x00, 0x00, 0x00, 0x00, 0x00, 0x00, 0x00, 0x00, 0x00, 0x00, 0x00, 0x31, 0x00, 0x00, 0x00, 0x00, 0x02, 0x59, 0x5F,
    0xB7, 0xDD, 0x00, 0x00, 0x00, 0x00, 0x00, 0x00, 0x00, 0x00, 0x00, 0x00, 0x00, 0x00, 0x00, 0x00, 0x00, 0x00, 0x00,
    0x00, 0x00, 0x00, 0x00, 0x00, 0x00, 0x00, 0x00, 0x00, 0x00, 0x00, 0x00, 0x00, 0x00, 0x00, 0x00, 0x00, 0x00, 0x00,
    0x00, 0x00, 0x00, 0x00,
    0x00, 0x00, 0x00, 0x00, 0x00, 0x00, 0x00, 0x07, 0x00, 0x00, 0x00, 0x39, 0x00, 0x00, 0x00, 0x00, 0x02, 0x53, 0x73,
    0x36, 0xCE, 0x00, 0x00, 0x00, 0x00, 0x00, 0x00, 0x00, 0x00, 0x00, 0x00, 0x00, 0x00, 0x00, 0x00, 0x00, 0x00, 0x00,
    0x00, 0x00, 0x00, 0x00, 0x00, 0x00, 0x00, 0x00, 0x00, 0x00, 0x00, 0x00, 0x00, 0x00, 0x00, 0x00, 0x00, 0x00, 0x00,
    0x00, 0x00, 0x00, 0x01, 0x0E, 0x00, 0x00, 0x00, 0x01, 0x02, 0x41, 0x00,
    0x00, 0x00, 0x00};

static const uint8_t *const ONE = SAMPLE + EMPTY_BYTES;

static void put_be(uint8_t *at, int bytes, uint32_t number)
{
    for (int i = 0; i < bytes; i++)
        at[i] = (uint8_t)(number >> 8 * (bytes - 1 - i));
}

/* Puts the right checksum in its place. */
static void repair(uint8_t *batch, size_t count)
{
    put_be(batch + 17, 4, oddrafisk_crc32c(batch + 21, count - 21));
}

/* A batch with these attributes, this count and this body; its other fields are 0. Returns how many bytes it has. */
static size_t put_batch(uint8_t *batch, uint32_t attributes, int32_t count, const uint8_t *body, size_t length)
{
    memset(batch, 0, EMPTY_BYTES);
    put_be(batch + 8, 4, (uint32_t)(EMPTY_BYTES - 12 + length));
    batch[16] = 2;
    put_be(batch + 21, 2, attributes);
    put_be(batch + 57, 4, (uint32_t)count);
    memcpy(batch + EMPTY_BYTES, body, length);
    repair(batch, EMPTY_BYTES + length);
    return EMPTY_BYTES + length;
}

static void test_constants(void)
{
    static const int places[] = {
        ODDRAFISK_BASE_OFFSET, ODDRAFISK_PARTITION_LEADER_EPOCH, ODDRAFISK_LAST_OFFSET_DELTA,
        ODDRAFISK_FIRST_TIMESTAMP, ODDRAFISK_MAX_TIMESTAMP, ODDRAFISK_PRODUCER_ID, ODDRAFISK_PRODUCER_EPOCH,
        ODDRAFISK_BASE_SEQUENCE, ODDRAFISK_TIMESTAMP_TYPE, ODDRAFISK_IS_TRANSACTIONAL, ODDRAFISK_KIND,
        ODDRAFISK_RECORDS, ODDRAFISK_HEADERS, ODDRAFISK_BYTES};
    static const int reader[] = {
        ODDRAFISK_ACCEPTED, ODDRAFISK_MORE_BYTES, ODDRAFISK_LENGTH_TOO_SMALL, ODDRAFISK_UNKNOWN_MAGIC,
        ODDRAFISK_CHECKSUM_DIFFERS, ODDRAFISK_UNKNOWN_CODEC, ODDRAFISK_COMPRESSED, ODDRAFISK_WRONG_COUNT,
        ODDRAFISK_PAST_END, ODDRAFISK_BEYOND_LIMITS, ODDRAFISK_NEGATIVE_LENGTH, ODDRAFISK_KEY_NOT_UTF8,
        ODDRAFISK_UNKNOWN_CONTROL, ODDRAFISK_BYTES_LEFT, ODDRAFISK_NO_ROOM};
    static const int writer[] = {ODDRAFISK_CODEC_ASKED, ODDRAFISK_WRONG_ROW, ODDRAFISK_ASKED_NOT_UTF8,
                                 ODDRAFISK_TOO_LONG, ODDRAFISK_SHORT_OUTPUT};
    static const int kinds[] = {ODDRAFISK_KIND_RECORDS, ODDRAFISK_KIND_ABORT, ODDRAFISK_KIND_COMMIT};
    static const int modes[] = {ODDRAFISK_BARE, ODDRAFISK_KEYED};
    for (size_t i = 0; i < COUNT(places); i++)
        EXPECT(places[i] == (int)i);
    for (size_t i = 0; i < COUNT(reader); i++)
        EXPECT(reader[i] == (int)i);
    for (size_t i = 0; i < COUNT(writer); i++)
        EXPECT(writer[i] == 20 + (int)i);
    for (size_t i = 0; i < COUNT(kinds); i++)
        EXPECT(kinds[i] == (int)i);
    for (size_t i = 0; i < COUNT(modes); i++)
        EXPECT(modes[i] == (int)i);
    EXPECT(ODDRAFISK_BARE_MARKER == 41);
    EXPECT(ODDRAFISK_ENTRIES == 16);
}

static void test_rows(void)
{
    static const int record[] = {
        ODDRAFISK_RECORD_TIMESTAMP_DELTA, ODDRAFISK_RECORD_OFFSET_DELTA, ODDRAFISK_RECORD_KEY_START,
        ODDRAFISK_RECORD_KEY_LENGTH, ODDRAFISK_RECORD_VALUE_START, ODDRAFISK_RECORD_VALUE_LENGTH,
        ODDRAFISK_RECORD_FIRST_HEADER, ODDRAFISK_RECORD_HEADERS, ODDRAFISK_RECORD_ROW};
    static const int header[] = {ODDRAFISK_HEADER_KEY_START, ODDRAFISK_HEADER_KEY_LENGTH, ODDRAFISK_HEADER_VALUE_START,
                                 ODDRAFISK_HEADER_VALUE_LENGTH, ODDRAFISK_HEADER_ROW};
    for (size_t i = 0; i < COUNT(record); i++)
        EXPECT(record[i] == (int)i);
    for (size_t i = 0; i < COUNT(header); i++)
        EXPECT(header[i] == (int)i);
    EXPECT(ODDRAFISK_RECORD_NUMBERS(0) == 0 && ODDRAFISK_HEADER_NUMBERS(0) == 0);
    EXPECT(ODDRAFISK_RECORD_NUMBERS(1 + 2) == 24 && ODDRAFISK_HEADER_NUMBERS(1 + 2) == 12);
    /* As many rows as 32 bits count, whose numbers they do not. */
    EXPECT(ODDRAFISK_RECORD_NUMBERS(INT32_MAX) == UINT64_C(17179869176));
    EXPECT(ODDRAFISK_HEADER_NUMBERS(INT32_MAX) == UINT64_C(8589934588));
    EXPECT(sizeof ODDRAFISK_RECORD_NUMBERS(1) == sizeof(size_t));
    EXPECT(sizeof ODDRAFISK_HEADER_NUMBERS(1) == sizeof(size_t));
}

static void test_version(void)
{
    EXPECT(oddrafisk_version() == ODDRAFISK_VERSION);
}

/* A word that a number's words are to have, after document 01's tables. */
typedef struct {
    uint32_t number;
    const char *has;
} word;

static void test_words(void)
{
    static const word words[] = {
        {0, "accepted"}, {1, "more bytes"}, {2, "length of the batch"}, {3, "magic"}, {4, "checksum"},
        {5, "codec is unknown"}, {6, "compressed"}, {7, "count of records"}, {8, "past"}, {9, "varying length"},
        {10, "negative"}, {11, "the key of a header is not UTF-8"}, {12, "control"}, {13, "left"}, {14, "table"},
        {20, "codec is asked for"}, {21, "row"}, {22, "asked for is not UTF-8"}, {23, "longer than 2147483647"},
        {24, "output"}, {41, "withdrawn: write keyed ones; `oddrafisk convert IN OUT`"}};
    static const uint32_t unknown[] = {15, 16, 17, 18, 19, 25, 40, 42, 256, 1000, UINT32_C(1) << 31, UINT32_MAX};
    for (size_t i = 0; i < COUNT(words); i++) {
        EXPECT(strstr(oddrafisk_words(words[i].number), words[i].has) != NULL);
        EXPECT(strcmp(oddrafisk_words(words[i].number), oddrafisk_words(unknown[0])) != 0);
        for (size_t j = 0; j < i; j++)
            EXPECT(strcmp(oddrafisk_words(words[i].number), oddrafisk_words(words[j].number)) != 0);
    }
    for (size_t i = 0; i < COUNT(unknown); i++)
        EXPECT(strcmp(oddrafisk_words(unknown[i]), "no function returns this number") == 0);
}

static void test_sample_read(void)
{
    static const int64_t row[ODDRAFISK_RECORD_ROW] = {0, 0, 0, -1, 67, 1, 0, 0};
    tables t;
    int64_t answer[ODDRAFISK_ENTRIES];
    clear_tables(&t);
    EXPECT(oddrafisk_check(mode, SAMPLE, sizeof SAMPLE, answer) == ODDRAFISK_ACCEPTED);
    EXPECT(counts_only(answer, 0, 0, EMPTY_BYTES));
    EXPECT(oddrafisk_read(mode, SAMPLE, sizeof SAMPLE, t.records, RECORD_ROOM, t.headers, HEADER_ROOM, answer) == 0);
    EXPECT(counts_only(answer, 0, 0, EMPTY_BYTES));
    EXPECT(untouched_from(&t, 0, 0));
    EXPECT(oddrafisk_read(mode, ONE, ONE_BYTES + 3, t.records, RECORD_ROOM, t.headers, HEADER_ROOM, answer) == 0);
    EXPECT(answer[ODDRAFISK_BASE_OFFSET] == 7);
    answer[ODDRAFISK_BASE_OFFSET] = 0;
    EXPECT(counts_only(answer, 1, 0, ONE_BYTES));
    EXPECT(same_numbers(t.records, row, ODDRAFISK_RECORD_ROW));
    EXPECT(untouched_from(&t, ODDRAFISK_RECORD_ROW, 0));
    EXPECT(ONE[t.records[ODDRAFISK_RECORD_VALUE_START]] == 'A');
    EXPECT(refused(SAMPLE + SAMPLE_BYTES, 3, 12) == ODDRAFISK_MORE_BYTES);
}

static void test_sample_written(void)
{
    static const int64_t row[ODDRAFISK_RECORD_ROW] = {0, 0, 0, -1, 0, 1, 0, 0};
    static const int64_t no_headers[1] = {0};
    static const uint8_t source[1] = {'A'};
    int64_t batch[ODDRAFISK_ENTRIES] = {0}, length[1] = {UNTOUCHED};
    uint8_t output[sizeof SAMPLE];
    memset(output, 0, sizeof output);
    EXPECT(oddrafisk_write(mode, batch, 0, row, 0, no_headers, 0, source, 0, output, sizeof output, length) == 0);
    EXPECT(length[0] == EMPTY_BYTES);
    batch[ODDRAFISK_BASE_OFFSET] = 7;
    batch[ODDRAFISK_RECORDS] = 1;
    EXPECT(oddrafisk_write(mode, batch, 0, row, COUNT(row), no_headers, 0, source, 1, output + EMPTY_BYTES,
                           sizeof output - EMPTY_BYTES, length) == 0);
    EXPECT(length[0] == ONE_BYTES);
    EXPECT(memcmp(output, SAMPLE, sizeof SAMPLE) == 0);
}

/* A batch in which no two fields are alike and no two numbers of a row, so that nothing can be taken for anything else.
 * Its bytes are put down one by one, by document 01's tables. */
enum { KNOWN_BYTES = 166 };

static const uint8_t KNOWN[KNOWN_BYTES] = {
    0x11, 0x12, 0x13, 0x14, 0x15, 0x16, 0x17, 0x18, /* baseOffset */
    0x00, 0x00, 0x00, 0x9A,                         /* batchLength */
    0x21, 0x22, 0x23, 0x24,                         /* partitionLeaderEpoch */
    0x02,                                           /* magic */
    0x4F, 0xFC, 0x2A, 0x5C,                         /* crc */
    0x00, 0x08,                                     /* attributes */
    0x31, 0x32, 0x33, 0x34,                         /* lastOffsetDelta */
    0x41, 0x42, 0x43, 0x44, 0x45, 0x46, 0x47, 0x48, /* firstTimestamp */
    0x51, 0x52, 0x53, 0x54, 0x55, 0x56, 0x57, 0x58, /* maxTimestamp */
    0x61, 0x62, 0x63, 0x64, 0x65, 0x66, 0x67, 0x68, /* producerId */
    0x71, 0x72,                                     /* producerEpoch */
    0x0A, 0x0B, 0x0C, 0x0D,                         /* baseSequence */
    0x00, 0x00, 0x00, 0x02,                         /* record count */
    /* a record of 29 bytes: attributes, timestampDelta -70000, offsetDelta 300 */
    0x3A, 0x00, 0xDF, 0xC5, 0x08, 0xD8, 0x04,
    /* key "key", value "value" */
    0x06, 0x6B, 0x65, 0x79, 0x0A, 0x76, 0x61, 0x6C, 0x75, 0x65,
    /* one header: "zone" = "norden" */
    0x02, 0x08, 0x7A, 0x6F, 0x6E, 0x65, 0x0C, 0x6E, 0x6F, 0x72, 0x64, 0x65, 0x6E,
    /* a record of 73 bytes: attributes, timestampDelta 5000000000, offsetDelta 40000 */
    0x92, 0x01, 0x00, 0x80, 0xC8, 0xAF, 0xA0, 0x25, 0x80, 0xF1, 0x04,
    /* key "cookie2", value "server-7" */
    0x0E, 0x63, 0x6F, 0x6F, 0x6B, 0x69, 0x65, 0x32, 0x10, 0x73, 0x65, 0x72, 0x76, 0x65, 0x72, 0x2D, 0x37,
    /* two headers: "größer!" = "0123456789" */
    0x04, 0x12, 0x67, 0x72, 0xC3, 0xB6, 0xC3, 0x9F, 0x65, 0x72, 0x21,
    0x14, 0x30, 0x31, 0x32, 0x33, 0x34, 0x35, 0x36, 0x37, 0x38, 0x39,
    /* and "trace-label" = "ABCDEFGHIJKL" */
    0x16, 0x74, 0x72, 0x61, 0x63, 0x65, 0x2D, 0x6C, 0x61, 0x62, 0x65, 0x6C,
    0x18, 0x41, 0x42, 0x43, 0x44, 0x45, 0x46, 0x47, 0x48, 0x49, 0x4A, 0x4B, 0x4C};

/* The rows by which that is read. */
static const int64_t KNOWN_RECORDS[ODDRAFISK_RECORD_NUMBERS(2)] = {
    -70000, 300, 69, 3, 73, 5, 0, 1,
    INT64_C(5000000000), 40000, 103, 7, 111, 8, 1, 2};

static const int64_t KNOWN_HEADERS[ODDRAFISK_HEADER_NUMBERS(3)] = {80, 4, 85, 6, 121, 9, 131, 10, 142, 11, 154, 12};

/* A source that has the same keys and values in another order, and the rows by which they are written from it. */
static const char KNOWN_SOURCE[] =
    "some thirteen|ABCDEFGHIJKL|server-7|zone|value|gr\xC3\xB6\xC3\x9F"
    "er!|cookie2|norden|trace-label|key|0123456789|";

static const int64_t KNOWN_ASKED_RECORDS[ODDRAFISK_RECORD_NUMBERS(2)] = {
    -70000, 300, 84, 3, 41, 5, 0, 1,
    INT64_C(5000000000), 40000, 57, 7, 27, 8, 1, 2};

static const int64_t KNOWN_ASKED_HEADERS[ODDRAFISK_HEADER_NUMBERS(3)] = {36, 4, 65, 6, 47, 9, 88, 10, 72, 11, 14, 12};

/* Timestamp type and transactional flag have two values only: the one is 1 and the other 0, then the other way round.
 * Attributes and checksum follow them. */
typedef struct {
    uint8_t attributes;
    uint8_t crc[4];
    int64_t entries[ODDRAFISK_ENTRIES];
} known;

static const known KNOWN_WAYS[2] = {
    {0x08,
     {0x4F, 0xFC, 0x2A, 0x5C},
     {INT64_C(0x1112131415161718), 0x21222324, 0x31323334, INT64_C(0x4142434445464748), INT64_C(0x5152535455565758),
      INT64_C(0x6162636465666768), 0x7172, 0x0A0B0C0D, 1, 0, 0, 2, 3, 166, 0, 0}},
    {0x10,
     {0x45, 0xC1, 0xF7, 0x58},
     {INT64_C(0x1112131415161718), 0x21222324, 0x31323334, INT64_C(0x4142434445464748), INT64_C(0x5152535455565758),
      INT64_C(0x6162636465666768), 0x7172, 0x0A0B0C0D, 0, 1, 0, 2, 3, 166, 0, 0}}};

static void put_known(uint8_t *bytes, const known *way)
{
    memcpy(bytes, KNOWN, KNOWN_BYTES);
    memcpy(bytes + 17, way->crc, sizeof way->crc);
    bytes[22] = way->attributes;
}

static void test_known_read(void)
{
    for (size_t i = 0; i < COUNT(KNOWN_WAYS); i++) {
        const known *way = &KNOWN_WAYS[i];
        uint8_t bytes[KNOWN_BYTES + 5];
        int64_t checked[ODDRAFISK_ENTRIES], read[ODDRAFISK_ENTRIES];
        tables t;
        memset(bytes, UNTOUCHED_BYTE, sizeof bytes);
        put_known(bytes, way);
        fill(checked, ODDRAFISK_ENTRIES, UNTOUCHED);
        fill(read, ODDRAFISK_ENTRIES, UNTOUCHED);
        clear_tables(&t);
        EXPECT(oddrafisk_check(mode, bytes, sizeof bytes, checked) == 0);
        EXPECT(same_numbers(checked, way->entries, ODDRAFISK_ENTRIES));
        EXPECT(oddrafisk_read(mode, bytes, sizeof bytes, t.records, RECORD_ROOM, t.headers, HEADER_ROOM, read) == 0);
        EXPECT(same_numbers(read, way->entries, ODDRAFISK_ENTRIES));
        EXPECT(same_numbers(t.records, KNOWN_RECORDS, COUNT(KNOWN_RECORDS)));
        EXPECT(same_numbers(t.headers, KNOWN_HEADERS, COUNT(KNOWN_HEADERS)));
        EXPECT(untouched_from(&t, COUNT(KNOWN_RECORDS), COUNT(KNOWN_HEADERS)));
        EXPECT(oddrafisk_is_canonical(mode, bytes, KNOWN_BYTES) == 1);
    }
}

static void test_known_written(void)
{
    const uint8_t *source = (const uint8_t *)KNOWN_SOURCE;
    const size_t source_count = sizeof KNOWN_SOURCE - 1;
    for (size_t i = 0; i < COUNT(KNOWN_WAYS); i++) {
        const known *way = &KNOWN_WAYS[i];
        uint8_t output[KNOWN_BYTES + 5], bytes[KNOWN_BYTES];
        int64_t measured[1] = {UNTOUCHED}, length[1] = {UNTOUCHED};
        memset(output, UNTOUCHED_BYTE, sizeof output);
        put_known(bytes, way);
        EXPECT(oddrafisk_measure(mode, way->entries, 0, KNOWN_ASKED_RECORDS, COUNT(KNOWN_ASKED_RECORDS),
                                 KNOWN_ASKED_HEADERS, COUNT(KNOWN_ASKED_HEADERS), source, source_count,
                                 measured) == 0);
        EXPECT(measured[0] == 166);
        EXPECT(oddrafisk_write(mode, way->entries, 0, KNOWN_ASKED_RECORDS, COUNT(KNOWN_ASKED_RECORDS),
                               KNOWN_ASKED_HEADERS, COUNT(KNOWN_ASKED_HEADERS), source, source_count, output,
                               sizeof output, length) == 0);
        EXPECT(length[0] == 166);
        EXPECT(memcmp(output, bytes, KNOWN_BYTES) == 0);
        EXPECT(untouched_bytes(output + KNOWN_BYTES, sizeof output - KNOWN_BYTES));
    }
}

static void test_truncated(void)
{
    for (size_t count = 0; count < ONE_BYTES; count++) {
        int64_t needed = count < 12 ? 12 : count < 17 ? 17 : ONE_BYTES;
        EXPECT(refused(ONE, count, needed) == ODDRAFISK_MORE_BYTES);
    }
}

/* How many bytes a batch has by its first 17 alone; 0 where they do not say, or are not there. */
static size_t framed(const uint8_t *bytes, size_t count)
{
    int64_t answer[ODDRAFISK_ENTRIES];
    uint32_t number = oddrafisk_check(mode, bytes, count < 17 ? count : 17, answer);
    return number == ODDRAFISK_MORE_BYTES && answer[ODDRAFISK_BYTES] > 17 ? (size_t)answer[ODDRAFISK_BYTES] : 0;
}

/* The first bytes of a batch with this length and magic: what 12 to 16 of them are answered, what 17 are, and how many
 * bytes the batch then has. */
typedef struct {
    const uint8_t *batch;
    uint32_t length;
    uint8_t magic;
    uint32_t of_12, of_17;
    int64_t whole;
} opening;

static void expect_opening(const opening *due)
{
    uint8_t bytes[17];
    memcpy(bytes, due->batch, sizeof bytes);
    put_be(bytes + 8, 4, due->length);
    bytes[16] = due->magic;
    for (size_t count = 0; count < 17; count++) {
        uint32_t number = count < 12 ? (uint32_t)ODDRAFISK_MORE_BYTES : due->of_12;
        int64_t needed = count < 12 ? 12 : number == ODDRAFISK_MORE_BYTES ? 17 : 0;
        EXPECT(refused(bytes, count, needed) == number);
        EXPECT(framed(bytes, count) == 0);
    }
    EXPECT(refused(bytes, 17, due->whole) == due->of_17);
    EXPECT(framed(bytes, 17) == (size_t)due->whole);
}

static void test_first_17(void)
{
    const opening openings[] = {
        {ONE, 57, 2, ODDRAFISK_MORE_BYTES, ODDRAFISK_MORE_BYTES, ONE_BYTES},
        {KNOWN, 154, 2, ODDRAFISK_MORE_BYTES, ODDRAFISK_MORE_BYTES, KNOWN_BYTES},
        {ONE, 9, 2, ODDRAFISK_MORE_BYTES, ODDRAFISK_MORE_BYTES, 21},
        {KNOWN, 0x7FFFFFFF, 2, ODDRAFISK_MORE_BYTES, ODDRAFISK_MORE_BYTES, INT64_C(2147483659)},
        {ONE, 57, 1, ODDRAFISK_MORE_BYTES, ODDRAFISK_UNKNOWN_MAGIC, 0},
        {KNOWN, 154, 0x82, ODDRAFISK_MORE_BYTES, ODDRAFISK_UNKNOWN_MAGIC, 0},
        {ONE, 8, 2, ODDRAFISK_LENGTH_TOO_SMALL, ODDRAFISK_LENGTH_TOO_SMALL, 0},
        {KNOWN, 0x80000000, 3, ODDRAFISK_LENGTH_TOO_SMALL, ODDRAFISK_LENGTH_TOO_SMALL, 0}};
    for (size_t i = 0; i < COUNT(openings); i++)
        expect_opening(&openings[i]);
}

/* A log of two batches. The first has the batch ONE as its value, at the place NESTED. */
enum { NESTED = EMPTY_BYTES + 8, NESTING_BYTES = NESTED + ONE_BYTES + 1, LOG_BYTES = NESTING_BYTES + KNOWN_BYTES };

static void put_nesting(uint8_t *log)
{
    static const uint8_t fields[8] = {0x98, 0x01, 0, 0, 0, 0x01, 0x8A, 0x01};
    uint8_t record[sizeof fields + ONE_BYTES + 1] = {0};
    memcpy(record, fields, sizeof fields);
    memcpy(record + sizeof fields, ONE, ONE_BYTES);
    EXPECT(put_batch(log, 0, 1, record, sizeof record) == NESTING_BYTES);
    memcpy(log + NESTING_BYTES, KNOWN, KNOWN_BYTES);
}

/* A damaged checksum leaves the length, which leads to the next batch; what one finds who tries place after place, or
 * goes by a damaged length, is a batch inside a value. */
static void test_going_on(void)
{
    uint8_t log[LOG_BYTES];
    int64_t answer[ODDRAFISK_ENTRIES];
    size_t place = 0;
    put_nesting(log);
    EXPECT(oddrafisk_check(mode, log, LOG_BYTES, answer) == ODDRAFISK_ACCEPTED);
    EXPECT(answer[ODDRAFISK_BYTES] == NESTING_BYTES);
    log[20] ^= 1;
    EXPECT(oddrafisk_check(mode, log, LOG_BYTES, answer) == ODDRAFISK_CHECKSUM_DIFFERS);
    EXPECT(framed(log, LOG_BYTES) == NESTING_BYTES);
    EXPECT(oddrafisk_check(mode, log + NESTING_BYTES, KNOWN_BYTES, answer) == ODDRAFISK_ACCEPTED);
    EXPECT(answer[ODDRAFISK_BASE_OFFSET] == INT64_C(0x1112131415161718));
    while (place < LOG_BYTES && oddrafisk_check(mode, log + place, LOG_BYTES - place, answer) != ODDRAFISK_ACCEPTED)
        place++;
    EXPECT(place == NESTED && answer[ODDRAFISK_BASE_OFFSET] == 7);
    put_be(log + 8, 4, NESTED - 12);
    EXPECT(oddrafisk_check(mode, log, LOG_BYTES, answer) == ODDRAFISK_CHECKSUM_DIFFERS);
    EXPECT(framed(log, LOG_BYTES) == NESTED);
}

static void test_damaged(void)
{
    for (size_t place = 0; place < ONE_BYTES; place++) {
        uint8_t bytes[ONE_BYTES];
        int64_t answer[ODDRAFISK_ENTRIES];
        memcpy(bytes, ONE, sizeof bytes);
        bytes[place] ^= 1;
        if (place < 8 || (12 <= place && place < 16))
            EXPECT(oddrafisk_check(mode, bytes, sizeof bytes, answer) == ODDRAFISK_ACCEPTED);
        else if (place < 11)
            EXPECT(oddrafisk_check(mode, bytes, sizeof bytes, answer) == ODDRAFISK_MORE_BYTES);
        else
            EXPECT(refused(bytes, sizeof bytes, 0) == (place == 16 ? 3u : 4u));
    }
}

/* An edit of the batch ONE; the checksum is then repaired, or left. */
typedef struct {
    uint32_t number;
    size_t place;
    uint8_t byte;
    int repaired;
} edit;

static void test_edited(void)
{
    static const edit edits[] = {
        {ODDRAFISK_LENGTH_TOO_SMALL, 11, 8, 0}, {ODDRAFISK_LENGTH_TOO_SMALL, 8, 0xFF, 0},
        {ODDRAFISK_UNKNOWN_MAGIC, 16, 1, 0},    {ODDRAFISK_CHECKSUM_DIFFERS, 20, 0, 0},
        {ODDRAFISK_UNKNOWN_CODEC, 22, 5, 1},    {ODDRAFISK_UNKNOWN_CODEC, 22, 7, 1},
        {ODDRAFISK_COMPRESSED, 22, 1, 1},       {ODDRAFISK_COMPRESSED, 22, 4, 1},
        {ODDRAFISK_UNKNOWN_CONTROL, 22, 32, 1}, {ODDRAFISK_WRONG_COUNT, 57, 0x80, 1},
        {ODDRAFISK_BYTES_LEFT, 60, 0, 1},       {ODDRAFISK_PAST_END, 60, 2, 1}};
    for (size_t i = 0; i < COUNT(edits); i++) {
        uint8_t bytes[ONE_BYTES];
        memcpy(bytes, ONE, sizeof bytes);
        bytes[edits[i].place] = edits[i].byte;
        if (edits[i].repaired)
            repair(bytes, sizeof bytes);
        EXPECT(refused(bytes, sizeof bytes, 0) == edits[i].number);
    }
}

/* The body of a batch that has this count, and what it is answered. */
typedef struct {
    uint32_t number;
    uint32_t attributes;
    int32_t count;
    size_t length;
    uint8_t bytes[10];
} body;

static void test_bodies(void)
{
    static const body bodies[] = {
        {ODDRAFISK_WRONG_COUNT, 0, -2, 0, {0}},
        {ODDRAFISK_WRONG_COUNT, 32, 0, 4, {0}},
        {ODDRAFISK_PAST_END, 0, 1, 6, {0x0C, 0, 0, 0, 1, 1}},
        {ODDRAFISK_PAST_END, 32, 1, 3, {0}},
        {ODDRAFISK_BEYOND_LIMITS, 0, 1, 5, {0xFF, 0xFF, 0xFF, 0xFF, 0x10}},
        {ODDRAFISK_NEGATIVE_LENGTH, 0, 1, 1, {1}},
        {ODDRAFISK_NEGATIVE_LENGTH, 0, 1, 7, {0x0C, 0, 0, 0, 3, 1, 0}},
        {ODDRAFISK_NEGATIVE_LENGTH, 0, 1, 9, {0x10, 0, 0, 0, 1, 1, 2, 0, 1}},
        {ODDRAFISK_KEY_NOT_UTF8, 0, 1, 10, {0x12, 0, 0, 0, 1, 1, 2, 2, 0xC0, 0}},
        {ODDRAFISK_BYTES_LEFT, 0, 1, 8, {0xC8, 1, 0, 0, 0, 1, 1, 0}},
        {ODDRAFISK_BYTES_LEFT, 0, 1, 8, {0x0C, 0, 0, 0, 1, 1, 0, 0}}};
    for (size_t i = 0; i < COUNT(bodies); i++) {
        const body *b = &bodies[i];
        uint8_t bytes[EMPTY_BYTES + sizeof b->bytes];
        size_t count = put_batch(bytes, b->attributes, b->count, b->bytes, b->length);
        uint32_t number = refused(bytes, count, 0);
        EXPECT(number == b->number);
        if (number != b->number)
            printf("body %zu: %" PRIu32 ", not %" PRIu32 "\n", i, number, b->number);
    }
}

/* Two records over a source: key "k", value null, header "a" = "bc"; and key empty, value "v", headers "" = "" and
 * "d" = "e". */
static const uint8_t SOURCE[] = {'k', 'v', 'a', 'b', 'c', 'd', 'e'};

static const int64_t RECORDS[ODDRAFISK_RECORD_NUMBERS(2)] = {
    0, 0, 0, 1, 0, -1, 0, 1,
    INT64_MIN, INT32_MIN, 7, 0, 1, 1, 1, 2};

static const int64_t HEADERS[ODDRAFISK_HEADER_NUMBERS(3)] = {2, 1, 3, 2, 0, 0, 0, 0, 5, 1, 6, 1};

/* Every field at an end of its range; what is not looked at in writing has any number. */
static const int64_t BATCH[ODDRAFISK_ENTRIES] = {
    INT64_MIN, INT32_MAX, INT32_MIN, INT64_MAX, INT64_MIN, INT64_MAX, INT16_MIN, INT32_MAX,
    1, 1, ODDRAFISK_KIND_RECORDS, 2, -5, -6, 0, 0};

/* The fixed fields, the first record and the second, whose deltas have 10 and 5 bytes. */
enum { BATCH_BYTES = EMPTY_BYTES + 13 + 27, OUTPUT_BYTES = BATCH_BYTES + 5 };

/* Writes with the rows and the source above, and measures the same. Returns the number where both agree. */
static uint32_t write_batch(const int64_t *batch, int64_t codec, const int64_t *records, const int64_t *headers,
                            uint8_t *output, size_t output_count, int64_t *length)
{
    int64_t measured[1] = {UNTOUCHED};
    length[0] = UNTOUCHED;
    uint32_t number = oddrafisk_write(mode, batch, codec, records, COUNT(RECORDS), headers, COUNT(HEADERS), SOURCE,
                                      sizeof SOURCE, output, output_count, length);
    uint32_t of_measure = oddrafisk_measure(mode, batch, codec, records, COUNT(RECORDS), headers, COUNT(HEADERS),
                                            SOURCE, sizeof SOURCE, measured);
    EXPECT(of_measure == (number == ODDRAFISK_SHORT_OUTPUT ? 0 : number));
    EXPECT(number == ODDRAFISK_SHORT_OUTPUT || measured[0] == length[0]);
    return number;
}

/* Whether a part of the source and a part of the batch that was read show the same, or are both null. */
static int same_span(const int64_t *asked, const int64_t *read, const uint8_t *bytes)
{
    if (asked[1] == -1)
        return read[0] == 0 && read[1] == -1;
    return read[1] == asked[1] && memcmp(SOURCE + asked[0], bytes + read[0], (size_t)asked[1]) == 0;
}

static void test_reads_back(void)
{
    uint8_t output[OUTPUT_BYTES];
    int64_t length[1], answer[ODDRAFISK_ENTRIES], expected[ODDRAFISK_ENTRIES];
    tables t;
    memset(output, UNTOUCHED_BYTE, sizeof output);
    clear_tables(&t);
    EXPECT(write_batch(BATCH, 0, RECORDS, HEADERS, output, sizeof output, length) == 0);
    EXPECT(length[0] == BATCH_BYTES);
    EXPECT(untouched_bytes(output + BATCH_BYTES, sizeof output - BATCH_BYTES));
    EXPECT(oddrafisk_is_canonical(mode, output, BATCH_BYTES) == 1);
    EXPECT(oddrafisk_read(mode, output, sizeof output, t.records, RECORD_ROOM, t.headers, HEADER_ROOM, answer) == 0);
    memcpy(expected, BATCH, sizeof expected);
    expected[ODDRAFISK_HEADERS] = 3;
    expected[ODDRAFISK_BYTES] = BATCH_BYTES;
    EXPECT(same_numbers(answer, expected, ODDRAFISK_ENTRIES));
    EXPECT(untouched_from(&t, COUNT(RECORDS), COUNT(HEADERS)));
    for (size_t i = 0; i < COUNT(RECORDS); i += ODDRAFISK_RECORD_ROW) {
        const int64_t *asked = RECORDS + i, *read = t.records + i;
        EXPECT(same_numbers(asked, read, ODDRAFISK_RECORD_KEY_START));
        EXPECT(same_span(asked + ODDRAFISK_RECORD_KEY_START, read + ODDRAFISK_RECORD_KEY_START, output));
        EXPECT(same_span(asked + ODDRAFISK_RECORD_VALUE_START, read + ODDRAFISK_RECORD_VALUE_START, output));
        EXPECT(same_numbers(asked + ODDRAFISK_RECORD_FIRST_HEADER, read + ODDRAFISK_RECORD_FIRST_HEADER, 2));
    }
    for (size_t i = 0; i < COUNT(HEADERS); i += 2)
        EXPECT(same_span(HEADERS + i, t.headers + i, output));
}

/* Rooms are counted in numbers; a row that is not whole is none. */
static void test_no_room(void)
{
    static const size_t rooms[][3] = {{16, 12, 0}, {23, 15, 0}, {15, 12, 1}, {16, 11, 1}, {0, 0, 1},
                                      {8, 15, 1},  {31, 0, 1},  {17, 12, 0}, {16, 13, 0}};
    uint8_t bytes[BATCH_BYTES];
    int64_t length[1], answer[ODDRAFISK_ENTRIES];
    EXPECT(write_batch(BATCH, 0, RECORDS, HEADERS, bytes, sizeof bytes, length) == 0);
    for (size_t i = 0; i < COUNT(rooms); i++) {
        tables t;
        clear_tables(&t);
        uint32_t number =
            oddrafisk_read(mode, bytes, sizeof bytes, t.records, rooms[i][0], t.headers, rooms[i][1], answer);
        if (rooms[i][2]) {
            EXPECT(number == ODDRAFISK_NO_ROOM);
            EXPECT(counts_only(answer, 2, 3, 0));
            EXPECT(untouched_from(&t, 0, 0));
        } else {
            EXPECT(number == ODDRAFISK_ACCEPTED);
            EXPECT(untouched_from(&t, COUNT(RECORDS), COUNT(HEADERS)));
        }
    }
}

/* Four records with a header each: lent by their rows, as the answer counts them, the tables are short for ever. */
static void test_rows_asked_for(void)
{
    enum { ROWS = 4, ROWS_BYTES = EMPTY_BYTES + ROWS * 9 };
    static const uint8_t record[9] = {0x10, 0, 0, 0, 1, 1, 2, 0, 0};
    uint8_t bytes[ROWS_BYTES], body[ROWS * sizeof record];
    int64_t answer[ODDRAFISK_ENTRIES];
    tables t;
    for (size_t i = 0; i < ROWS; i++)
        memcpy(body + i * sizeof record, record, sizeof record);
    EXPECT(put_batch(bytes, 0, ROWS, body, sizeof body) == sizeof bytes);
    clear_tables(&t);
    EXPECT(oddrafisk_check(mode, bytes, sizeof bytes, answer) == ODDRAFISK_ACCEPTED);
    EXPECT(counts_only(answer, ROWS, ROWS, ROWS_BYTES));
    EXPECT(oddrafisk_read(mode, bytes, sizeof bytes, t.records, ROWS, t.headers, ROWS, answer) == ODDRAFISK_NO_ROOM);
    EXPECT(counts_only(answer, ROWS, ROWS, 0));
    EXPECT(untouched_from(&t, 0, 0));
    size_t record_numbers = ODDRAFISK_RECORD_NUMBERS(answer[ODDRAFISK_RECORDS]);
    size_t header_numbers = ODDRAFISK_HEADER_NUMBERS(answer[ODDRAFISK_HEADERS]);
    EXPECT(oddrafisk_read(mode, bytes, sizeof bytes, t.records, record_numbers, t.headers, header_numbers, answer)
           == 0);
    EXPECT(untouched_from(&t, ODDRAFISK_RECORD_NUMBERS(ROWS), ODDRAFISK_HEADER_NUMBERS(ROWS)));
    EXPECT(t.records[ODDRAFISK_RECORD_NUMBERS(3) + ODDRAFISK_RECORD_FIRST_HEADER] == 3);
    EXPECT(t.headers[ODDRAFISK_HEADER_NUMBERS(3) + ODDRAFISK_HEADER_VALUE_START] == ROWS_BYTES);
}

/* Expects that the writer refuses with this number, and touches nothing. */
static void expect_refused(uint32_t due, const int64_t *batch, int64_t codec, const int64_t *records,
                           const int64_t *headers, size_t output_count)
{
    uint8_t output[OUTPUT_BYTES];
    int64_t length[1];
    memset(output, UNTOUCHED_BYTE, sizeof output);
    uint32_t number = write_batch(batch, codec, records, headers, output, output_count, length);
    EXPECT(number == due);
    if (number != due)
        printf("writer: %" PRIu32 ", not %" PRIu32 "\n", number, due);
    EXPECT(length[0] == 0);
    EXPECT(untouched_bytes(output, sizeof output));
}

/* A number in another place of what is asked. */
typedef struct {
    size_t place;
    int64_t number;
} change;

static void test_codecs_and_outputs(void)
{
    static const int64_t codecs[] = {1, 4, 8, -1, INT64_MIN, INT64_MAX};
    int64_t batch[ODDRAFISK_ENTRIES];
    memcpy(batch, BATCH, sizeof batch);
    for (size_t i = 0; i < COUNT(codecs); i++)
        for (int64_t kind = ODDRAFISK_KIND_RECORDS; kind <= 3; kind++) {
            batch[ODDRAFISK_KIND] = kind;
            expect_refused(ODDRAFISK_CODEC_ASKED, batch, codecs[i], RECORDS, HEADERS, OUTPUT_BYTES);
        }
    for (size_t count = 0; count < BATCH_BYTES; count++)
        expect_refused(ODDRAFISK_SHORT_OUTPUT, BATCH, 0, RECORDS, HEADERS, count);
}

static void test_wrong_entries(void)
{
    static const change changes[] = {
        {ODDRAFISK_PARTITION_LEADER_EPOCH, INT64_C(1) << 31}, {ODDRAFISK_PARTITION_LEADER_EPOCH, INT64_MIN},
        {ODDRAFISK_LAST_OFFSET_DELTA, INT64_C(1) << 31},      {ODDRAFISK_LAST_OFFSET_DELTA, -(INT64_C(1) << 31) - 1},
        {ODDRAFISK_PRODUCER_EPOCH, 32768},                    {ODDRAFISK_PRODUCER_EPOCH, -32769},
        {ODDRAFISK_BASE_SEQUENCE, INT64_C(1) << 31},          {ODDRAFISK_BASE_SEQUENCE, -(INT64_C(1) << 31) - 1},
        {ODDRAFISK_TIMESTAMP_TYPE, 2},                        {ODDRAFISK_TIMESTAMP_TYPE, -1},
        {ODDRAFISK_IS_TRANSACTIONAL, 2},                      {ODDRAFISK_IS_TRANSACTIONAL, -1},
        {ODDRAFISK_KIND, 3},                                  {ODDRAFISK_KIND, -1},
        {ODDRAFISK_RECORDS, -1},                              {ODDRAFISK_RECORDS, INT64_MIN},
        {ODDRAFISK_RECORDS, 3},                               {ODDRAFISK_RECORDS, INT64_MAX},
        {ODDRAFISK_BYTES + 1, 1},                             {ODDRAFISK_ENTRIES - 1, -1}};
    for (size_t i = 0; i < COUNT(changes); i++) {
        int64_t batch[ODDRAFISK_ENTRIES];
        memcpy(batch, BATCH, sizeof batch);
        batch[changes[i].place] = changes[i].number;
        expect_refused(ODDRAFISK_WRONG_ROW, batch, 0, RECORDS, HEADERS, OUTPUT_BYTES);
    }
}

static void test_wrong_records(void)
{
    static const change changes[] = {
        {ODDRAFISK_RECORD_OFFSET_DELTA, INT64_C(1) << 31},
        {ODDRAFISK_RECORD_OFFSET_DELTA, -(INT64_C(1) << 31) - 1},
        {ODDRAFISK_RECORD_KEY_START, -1},
        {ODDRAFISK_RECORD_KEY_LENGTH, 8},
        {ODDRAFISK_RECORD_KEY_LENGTH, -2},
        {ODDRAFISK_RECORD_KEY_LENGTH, INT64_MAX},
        {ODDRAFISK_RECORD_KEY_LENGTH, INT64_MIN},
        {ODDRAFISK_RECORD_VALUE_START, 1},
        {ODDRAFISK_RECORD_VALUE_LENGTH, -2},
        {ODDRAFISK_RECORD_FIRST_HEADER, 1},
        {ODDRAFISK_RECORD_FIRST_HEADER, -1},
        {ODDRAFISK_RECORD_HEADERS, -1},
        {ODDRAFISK_RECORD_HEADERS, 2},
        {ODDRAFISK_RECORD_HEADERS, INT64_MAX},
        {ODDRAFISK_RECORD_ROW + ODDRAFISK_RECORD_KEY_START, 8},
        {ODDRAFISK_RECORD_ROW + ODDRAFISK_RECORD_VALUE_START, 7},
        {ODDRAFISK_RECORD_ROW + ODDRAFISK_RECORD_FIRST_HEADER, 0},
        {ODDRAFISK_RECORD_ROW + ODDRAFISK_RECORD_FIRST_HEADER, 2},
        {ODDRAFISK_RECORD_ROW + ODDRAFISK_RECORD_HEADERS, 3}};
    for (size_t i = 0; i < COUNT(changes); i++) {
        int64_t records[COUNT(RECORDS)];
        memcpy(records, RECORDS, sizeof records);
        records[changes[i].place] = changes[i].number;
        expect_refused(ODDRAFISK_WRONG_ROW, BATCH, 0, records, HEADERS, OUTPUT_BYTES);
    }
}

static void test_wrong_headers(void)
{
    static const change changes[] = {
        {ODDRAFISK_HEADER_KEY_START, -1},
        {ODDRAFISK_HEADER_KEY_START, 7},
        {ODDRAFISK_HEADER_KEY_LENGTH, -1},
        {ODDRAFISK_HEADER_VALUE_LENGTH, -1},
        {ODDRAFISK_HEADER_VALUE_LENGTH, 5},
        {ODDRAFISK_HEADER_ROW + ODDRAFISK_HEADER_KEY_START, 8},
        {2 * ODDRAFISK_HEADER_ROW + ODDRAFISK_HEADER_VALUE_LENGTH, -1},
        {2 * ODDRAFISK_HEADER_ROW + ODDRAFISK_HEADER_VALUE_LENGTH, INT64_MAX}};
    for (size_t i = 0; i < COUNT(changes); i++) {
        int64_t headers[COUNT(HEADERS)];
        memcpy(headers, HEADERS, sizeof headers);
        headers[changes[i].place] = changes[i].number;
        expect_refused(ODDRAFISK_WRONG_ROW, BATCH, 0, RECORDS, headers, OUTPUT_BYTES);
    }
}

/* The only header key that is not empty is one byte of the source. */
static void test_key_not_utf8(void)
{
    static const uint8_t source[] = {0xC0};
    static const int64_t record[ODDRAFISK_RECORD_ROW] = {0, 0, 0, -1, 0, -1, 0, 1};
    static const int64_t header[ODDRAFISK_HEADER_ROW] = {0, 1, 0, 0};
    int64_t batch[ODDRAFISK_ENTRIES] = {0}, length[1] = {UNTOUCHED};
    uint8_t output[OUTPUT_BYTES];
    batch[ODDRAFISK_RECORDS] = 1;
    memset(output, UNTOUCHED_BYTE, sizeof output);
    EXPECT(oddrafisk_measure(mode, batch, 0, record, COUNT(record), header, COUNT(header), source, 1, length)
           == ODDRAFISK_ASKED_NOT_UTF8);
    EXPECT(length[0] == 0);
    length[0] = UNTOUCHED;
    EXPECT(oddrafisk_write(mode, batch, 0, record, COUNT(record), header, COUNT(header), source, 1, output,
                           sizeof output, length) == ODDRAFISK_ASKED_NOT_UTF8);
    EXPECT(length[0] == 0);
    EXPECT(untouched_bytes(output, sizeof output));
}

/* Rows may show the same bytes, so that 2 GiB need not be at hand. batchLength is 49, then 2,047 records with a value
 * of 2^20 bytes and 13 beside it, then one with 11 beside its value, which is as long as 2147483647 leaves it. */
static void test_too_long(void)
{
    enum { RECORD_COUNT = 2048, VALUE = 1 << 20, LAST = VALUE - 1 - 49 - 2047 * 13 - 11 };
    int64_t *records = (int64_t *)calloc(ODDRAFISK_RECORD_NUMBERS(RECORD_COUNT), sizeof *records);
    uint8_t *source = (uint8_t *)calloc(VALUE, 1);
    int64_t batch[ODDRAFISK_ENTRIES] = {0}, length[1] = {UNTOUCHED};
    uint8_t output[1] = {UNTOUCHED_BYTE};
    if (!records || !source)
        abort();
    for (size_t i = 0; i < RECORD_COUNT; i++) {
        records[ODDRAFISK_RECORD_NUMBERS(i) + ODDRAFISK_RECORD_KEY_LENGTH] = -1;
        records[ODDRAFISK_RECORD_NUMBERS(i) + ODDRAFISK_RECORD_VALUE_LENGTH] = VALUE;
    }
    batch[ODDRAFISK_RECORDS] = RECORD_COUNT;
    int64_t *last = records + ODDRAFISK_RECORD_NUMBERS(RECORD_COUNT - 1);
    for (int64_t over = 0; over < 2; over++) {
        last[ODDRAFISK_RECORD_VALUE_LENGTH] = LAST + over;
        uint32_t number = oddrafisk_measure(mode, batch, 0, records, ODDRAFISK_RECORD_NUMBERS(RECORD_COUNT), HEADERS, 0,
                                            source, VALUE, length);
        EXPECT(over ? number == ODDRAFISK_TOO_LONG : number == 0);
        EXPECT(length[0] == (over ? 0 : INT64_C(2147483647) + 12));
        number = oddrafisk_write(mode, batch, 0, records, ODDRAFISK_RECORD_NUMBERS(RECORD_COUNT), HEADERS, 0, source,
                                 VALUE, output, sizeof output, length);
        EXPECT(over ? number == ODDRAFISK_TOO_LONG : number == ODDRAFISK_SHORT_OUTPUT);
        EXPECT(length[0] == 0 && output[0] == UNTOUCHED_BYTE);
    }
    free(records);
    free(source);
}

/* The bytes of a batch with a marker, and of one with a bare marker. */
enum { MARKER_BYTES = 72, BARE_BYTES = 65 };

/* The batch that ends a transaction by this kind, as it is written; its other fields are 0. */
static void put_marker(uint8_t *batch, int64_t kind)
{
    const uint8_t body[] = {0x14, 0, 0, 0, 8, 0, 0, 0, (uint8_t)(kind - 1), 1, 0};
    EXPECT(put_batch(batch, 32, 1, body, sizeof body) == MARKER_BYTES);
}

/* What is written for a marker in the keyed mode reads back. */
static void expect_written(const int64_t *batch, const int64_t *wrong)
{
    int64_t length[1], answer[ODDRAFISK_ENTRIES];
    uint8_t output[OUTPUT_BYTES], expected[MARKER_BYTES];
    tables t;
    clear_tables(&t);
    memset(output, UNTOUCHED_BYTE, sizeof output);
    EXPECT(write_batch(batch, 0, wrong, wrong, output, sizeof output, length) == 0);
    EXPECT(length[0] == MARKER_BYTES);
    put_marker(expected, batch[ODDRAFISK_KIND]);
    EXPECT(memcmp(output, expected, MARKER_BYTES) == 0);
    EXPECT(untouched_bytes(output + MARKER_BYTES, sizeof output - MARKER_BYTES));
    EXPECT(oddrafisk_is_canonical(mode, output, MARKER_BYTES) == 1);
    for (size_t count = 0; count < MARKER_BYTES; count++) {
        int64_t needed = count < 12 ? 12 : count < 17 ? 17 : MARKER_BYTES;
        EXPECT(refused(output, count, needed) == ODDRAFISK_MORE_BYTES);
    }
    EXPECT(oddrafisk_read(mode, output, sizeof output, t.records, 0, t.headers, 0, answer) == ODDRAFISK_ACCEPTED);
    EXPECT(answer[ODDRAFISK_KIND] == batch[ODDRAFISK_KIND]);
    answer[ODDRAFISK_KIND] = 0;
    EXPECT(counts_only(answer, 0, 0, MARKER_BYTES));
    EXPECT(untouched_from(&t, 0, 0));
}

/* A marker looks at no table and at no count of records. In the bare mode none is written, whichever room there is. */
static void test_markers(void)
{
    for (int64_t kind = ODDRAFISK_KIND_ABORT; kind <= ODDRAFISK_KIND_COMMIT; kind++) {
        int64_t batch[ODDRAFISK_ENTRIES] = {0}, wrong[COUNT(RECORDS)];
        batch[ODDRAFISK_KIND] = kind;
        batch[ODDRAFISK_RECORDS] = -1;
        fill(wrong, COUNT(wrong), -9);
        if (mode == ODDRAFISK_KEYED) {
            expect_written(batch, wrong);
            expect_refused(ODDRAFISK_SHORT_OUTPUT, batch, 0, wrong, wrong, MARKER_BYTES - 1);
            continue;
        }
        expect_refused(ODDRAFISK_BARE_MARKER, batch, 0, wrong, wrong, OUTPUT_BYTES);
        expect_refused(ODDRAFISK_BARE_MARKER, batch, 0, wrong, wrong, 0);
    }
}

/* In the bare mode a marker that is asked for is refused before whatever else is wrong, and in the keyed mode never. */
static void test_markers_with_wrong_entries(void)
{
    static const change changes[] = {
        {ODDRAFISK_PARTITION_LEADER_EPOCH, INT64_C(1) << 31},
        {ODDRAFISK_LAST_OFFSET_DELTA, -(INT64_C(1) << 31) - 1},
        {ODDRAFISK_PRODUCER_EPOCH, 32768},
        {ODDRAFISK_BASE_SEQUENCE, INT64_MAX},
        {ODDRAFISK_TIMESTAMP_TYPE, 2},
        {ODDRAFISK_IS_TRANSACTIONAL, -1},
        {ODDRAFISK_BYTES + 1, 1},
        {ODDRAFISK_ENTRIES - 1, -1}};
    const uint32_t due = mode == ODDRAFISK_KEYED ? (uint32_t)ODDRAFISK_WRONG_ROW : (uint32_t)ODDRAFISK_BARE_MARKER;
    for (size_t i = 0; i < COUNT(changes); i++)
        for (int64_t kind = ODDRAFISK_KIND_ABORT; kind <= ODDRAFISK_KIND_COMMIT; kind++) {
            int64_t batch[ODDRAFISK_ENTRIES];
            memcpy(batch, BATCH, sizeof batch);
            batch[ODDRAFISK_KIND] = kind;
            batch[changes[i].place] = changes[i].number;
            expect_refused(due, batch, 0, RECORDS, HEADERS, OUTPUT_BYTES);
            expect_refused(ODDRAFISK_CODEC_ASKED, batch, 1, RECORDS, HEADERS, OUTPUT_BYTES);
        }
}

/* What a control batch is answered in a mode: a number, and where that is 0 its kind and whether it is canonical. */
typedef struct {
    uint32_t number;
    int64_t kind;
    uint32_t canonical;
} verdict;

#define REFUSED(number) {number, 0, 0}
#define MARKED(kind, canonical) {ODDRAFISK_ACCEPTED, ODDRAFISK_KIND_##kind, canonical}

/* The body of a control batch that has this count, with what it is in the bare mode and in the keyed one. */
typedef struct {
    verdict bare, keyed;
    int32_t count;
    size_t length;
    uint8_t bytes[17];
} control;

static const control CONTROLS[] = {
    /* as the writer gives them */
    {REFUSED(12), MARKED(ABORT, 1), 1, 11, {0x14, 0, 0, 0, 8, 0, 0, 0, 0, 1, 0}},
    {REFUSED(12), MARKED(COMMIT, 1), 1, 11, {0x14, 0, 0, 0, 8, 0, 0, 0, 1, 1, 0}},
    /* bare ones, and what is none for a wrong byte, one too many or one too few */
    {REFUSED(41), REFUSED(41), 1, 4, {0, 0, 0, 0}},
    {REFUSED(41), REFUSED(41), 1, 4, {0, 0, 0, 1}},
    {REFUSED(12), REFUSED(8), 1, 4, {0, 1, 0, 0}},
    {REFUSED(12), REFUSED(10), 1, 4, {1, 0, 0, 1}},
    {REFUSED(12), REFUSED(8), 1, 4, {0, 0, 0, 2}},
    {REFUSED(12), REFUSED(8), 1, 4, {0, 0, 1, 0}},
    {REFUSED(13), REFUSED(8), 1, 5, {0, 0, 0, 0, 0}},
    {REFUSED(8), REFUSED(8), 1, 3, {0, 0, 0}},
    {REFUSED(8), REFUSED(8), 1, 1, {0}},
    /* as brokers write them, with a value of six bytes: an abort and a commit */
    {REFUSED(12), MARKED(ABORT, 0), 1, 17, {0x20, 0, 0, 0, 8, 0, 0, 0, 0, 12, 0, 0, 0, 0, 0, 5, 0}},
    {REFUSED(12), MARKED(COMMIT, 0), 1, 17, {0x20, 0, 0, 0, 8, 0, 0, 0, 1, 12, 0, 0, 0, 0, 0, 0, 0}},
    /* a key of five bytes; attributes and deltas that are not 0; a header; a length in two bytes */
    {REFUSED(12), MARKED(COMMIT, 0), 1, 12, {0x16, 0, 0, 0, 10, 0, 0, 0, 1, 0xFF, 1, 0}},
    {REFUSED(12), MARKED(ABORT, 0), 1, 11, {0x14, 9, 3, 5, 8, 0, 0, 0, 0, 1, 0}},
    {REFUSED(12), MARKED(COMMIT, 0), 1, 15, {0x1C, 0, 0, 0, 8, 0, 0, 0, 1, 1, 2, 2, 'a', 2, 'b'}},
    {REFUSED(12), MARKED(ABORT, 0), 1, 12, {0x94, 0, 0, 0, 0, 8, 0, 0, 0, 0, 1, 0}},
    /* a key that is null, empty, of three bytes, or of an unknown version or type */
    {REFUSED(12), REFUSED(12), 1, 7, {0x0C, 0, 0, 0, 1, 1, 0}},
    {REFUSED(12), REFUSED(12), 1, 7, {0x0C, 0, 0, 0, 0, 1, 0}},
    {REFUSED(12), REFUSED(12), 1, 10, {0x12, 0, 0, 0, 6, 0, 0, 0, 1, 0}},
    {REFUSED(12), REFUSED(12), 1, 11, {0x14, 0, 0, 0, 8, 0, 1, 0, 0, 1, 0}},
    {REFUSED(12), REFUSED(12), 1, 11, {0x14, 0, 0, 0, 8, 1, 0, 0, 1, 1, 0}},
    {REFUSED(12), REFUSED(12), 1, 11, {0x14, 0, 0, 0, 8, 0, 0, 0, 2, 1, 0}},
    {REFUSED(12), REFUSED(12), 1, 11, {0x14, 0, 0, 0, 8, 0, 0, 1, 0, 1, 0}},
    /* a null key, and a byte after the record, or a header's key that is not UTF-8 */
    {REFUSED(12), REFUSED(13), 1, 8, {0x0C, 0, 0, 0, 1, 1, 0, 0}},
    {REFUSED(12), REFUSED(11), 1, 11, {0x14, 0, 0, 0, 1, 1, 2, 2, 0xFF, 0, 0}},
    /* every other fault of a record: its length below, above and beyond its limits, and a length of -2 */
    {REFUSED(12), REFUSED(8), 1, 11, {0x12, 0, 0, 0, 8, 0, 0, 0, 0, 1, 0}},
    {REFUSED(12), REFUSED(13), 1, 11, {0x16, 0, 0, 0, 8, 0, 0, 0, 0, 1, 0}},
    {REFUSED(12), REFUSED(9), 1, 5, {0xFF, 0xFF, 0xFF, 0xFF, 0x10}},
    {REFUSED(12), REFUSED(10), 1, 11, {0x14, 0, 0, 0, 8, 0, 0, 0, 0, 3, 0}},
    /* a byte after a marker */
    {REFUSED(12), REFUSED(13), 1, 12, {0x14, 0, 0, 0, 8, 0, 0, 0, 0, 1, 0, 0}},
    /* nothing, and other counts */
    {REFUSED(8), REFUSED(8), 1, 0, {0}},
    {REFUSED(7), REFUSED(7), -1, 11, {0x14, 0, 0, 0, 8, 0, 0, 0, 0, 1, 0}},
    {REFUSED(7), REFUSED(7), 0, 4, {0, 0, 0, 0}},
    {REFUSED(7), REFUSED(7), 2, 4, {0, 0, 0, 1}},
    {REFUSED(7), REFUSED(7), 2, 11, {0x14, 0, 0, 0, 8, 0, 0, 0, 1, 1, 0}}};

/* Expects that the control batch is accepted with these entries, with tables of no rows too, and that no row is
 * filled. */
static void expect_marker(const uint8_t *bytes, size_t count, const int64_t *entries)
{
    const size_t rooms[][2] = {{0, 0}, {RECORD_ROOM, HEADER_ROOM}};
    int64_t answer[ODDRAFISK_ENTRIES];
    fill(answer, ODDRAFISK_ENTRIES, UNTOUCHED);
    EXPECT(oddrafisk_check(mode, bytes, count, answer) == ODDRAFISK_ACCEPTED);
    EXPECT(same_numbers(answer, entries, ODDRAFISK_ENTRIES));
    for (size_t i = 0; i < COUNT(rooms); i++) {
        tables t;
        clear_tables(&t);
        fill(answer, ODDRAFISK_ENTRIES, UNTOUCHED);
        EXPECT(oddrafisk_read(mode, bytes, count, t.records, rooms[i][0], t.headers, rooms[i][1], answer) == 0);
        EXPECT(same_numbers(answer, entries, ODDRAFISK_ENTRIES));
        EXPECT(untouched_from(&t, 0, 0));
    }
}

/* Puts down a control batch, whose fixed fields are those of KNOWN, of which no two are alike. Returns its bytes. */
static size_t put_control(uint8_t *bytes, const control *c, const known *way)
{
    const size_t count = EMPTY_BYTES + c->length;
    memcpy(bytes, KNOWN, EMPTY_BYTES);
    put_be(bytes + 8, 4, (uint32_t)count - 12);
    bytes[22] = way->attributes | 32;
    put_be(bytes + 57, 4, (uint32_t)c->count);
    memcpy(bytes + EMPTY_BYTES, c->bytes, c->length);
    repair(bytes, count);
    return count;
}

static void test_controls(void)
{
    for (size_t i = 0; i < COUNT(CONTROLS); i++) {
        const control *c = &CONTROLS[i];
        const verdict *due = mode == ODDRAFISK_KEYED ? &c->keyed : &c->bare;
        const known *way = &KNOWN_WAYS[i % COUNT(KNOWN_WAYS)];
        uint8_t bytes[EMPTY_BYTES + sizeof c->bytes];
        int64_t entries[ODDRAFISK_ENTRIES];
        const size_t count = put_control(bytes, c, way);
        const unsigned broken_before = broken;
        memcpy(entries, way->entries, sizeof entries);
        entries[ODDRAFISK_KIND] = due->kind;
        entries[ODDRAFISK_RECORDS] = entries[ODDRAFISK_HEADERS] = 0;
        entries[ODDRAFISK_BYTES] = (int64_t)count;
        if (due->number == ODDRAFISK_ACCEPTED)
            expect_marker(bytes, count, entries);
        else
            EXPECT(refused(bytes, count, 0) == due->number);
        EXPECT(oddrafisk_is_canonical(mode, bytes, count) == due->canonical);
        if (broken > broken_before)
            printf("control batch %zu\n", i);
    }
}

/* Base 5, epoch 3, attributes 80 70, both times 1000, producer 9 with epoch 1, sequence -1, and a commit in the bare
 * form; then what it is converted to. Both checksums were worked out apart from the library. */
static const uint8_t WORKED[BARE_BYTES] = {
    0x00, 0x00, 0x00, 0x00, 0x00, 0x00, 0x00, 0x05, 0x00, 0x00, 0x00, 0x35, 0x00, 0x00, 0x00, 0x03, 0x02, 0x4D, 0x84,
    0x95, 0xB3, 0x80, 0x70, 0x00, 0x00, 0x00, 0x00, 0x00, 0x00, 0x00, 0x00, 0x00, 0x00, 0x03, 0xE8, 0x00, 0x00, 0x00,
    0x00, 0x00, 0x00, 0x03, 0xE8, 0x00, 0x00, 0x00, 0x00, 0x00, 0x00, 0x00, 0x09, 0x00, 0x01, 0xFF, 0xFF, 0xFF, 0xFF,
    0x00, 0x00, 0x00, 0x01, 0x00, 0x00, 0x00, 0x01};

static const uint8_t CONVERTED[MARKER_BYTES] = {
    0x00, 0x00, 0x00, 0x00, 0x00, 0x00, 0x00, 0x05, 0x00, 0x00, 0x00, 0x3C, 0x00, 0x00, 0x00, 0x03, 0x02, 0x19, 0x8B,
    0x7A, 0x08, 0x80, 0x70, 0x00, 0x00, 0x00, 0x00, 0x00, 0x00, 0x00, 0x00, 0x00, 0x00, 0x03, 0xE8, 0x00, 0x00, 0x00,
    0x00, 0x00, 0x00, 0x03, 0xE8, 0x00, 0x00, 0x00, 0x00, 0x00, 0x00, 0x00, 0x09, 0x00, 0x01, 0xFF, 0xFF, 0xFF, 0xFF,
    0x00, 0x00, 0x00, 0x01, 0x14, 0x00, 0x00, 0x00, 0x08, 0x00, 0x00, 0x00, 0x01, 0x01, 0x00};

/* An output that has room for every batch here with 7 bytes more. */
enum { CONVERSION_ROOM = KNOWN_BYTES + 7 };

/* Expects of the conversion this number, with this answer and these bytes given, in an output of so many bytes. */
static void expect_conversion(uint32_t due, const uint8_t *bytes, size_t count, size_t room, int64_t taken,
                              const uint8_t *given, size_t given_count)
{
    uint8_t output[CONVERSION_ROOM];
    int64_t answer[2] = {UNTOUCHED, UNTOUCHED};
    memset(output, UNTOUCHED_BYTE, sizeof output);
    uint32_t number = oddrafisk_convert(bytes, count, output, room, answer);
    EXPECT(number == due);
    if (number != due)
        printf("conversion: %" PRIu32 ", not %" PRIu32 "\n", number, due);
    EXPECT(answer[0] == taken && answer[1] == (int64_t)given_count);
    EXPECT(memcmp(output, given, given_count) == 0);
    EXPECT(untouched_bytes(output + given_count, sizeof output - given_count));
}

/* Expects that the first `taken` of the bytes are converted to what is given, in every output that has room for it, and
 * in no other. */
static void expect_converted(const uint8_t *bytes, size_t count, size_t taken, const uint8_t *given, size_t given_count)
{
    for (size_t room = 0; room <= taken + 7; room++)
        if (room < given_count)
            expect_conversion(ODDRAFISK_SHORT_OUTPUT, bytes, count, room, 0, given, 0);
        else
            expect_conversion(ODDRAFISK_ACCEPTED, bytes, count, room, (int64_t)taken, given, given_count);
}

/* Expects this number of the conversion, with how many bytes are needed where they are, in outputs with and without
 * room. */
static void expect_unconverted(uint32_t due, const uint8_t *bytes, size_t count, int64_t needed)
{
    expect_conversion(due, bytes, count, 0, needed, bytes, 0);
    expect_conversion(due, bytes, count, CONVERSION_ROOM, needed, bytes, 0);
}

/* The worked marker, alone and with bytes after it; what it becomes is read, and stays as it is. */
static void test_converted_marker(void)
{
    uint8_t log[BARE_BYTES + ONE_BYTES];
    int64_t answer[ODDRAFISK_ENTRIES];
    memcpy(log, WORKED, BARE_BYTES);
    memcpy(log + BARE_BYTES, ONE, ONE_BYTES);
    EXPECT(refused(WORKED, BARE_BYTES, 0) == ODDRAFISK_BARE_MARKER);
    EXPECT(refused(log, sizeof log, 0) == ODDRAFISK_BARE_MARKER);
    for (size_t count = BARE_BYTES; count <= sizeof log; count++)
        expect_converted(log, count, BARE_BYTES, CONVERTED, MARKER_BYTES);
    expect_converted(CONVERTED, MARKER_BYTES, MARKER_BYTES, CONVERTED, MARKER_BYTES);
    EXPECT(oddrafisk_check(ODDRAFISK_KEYED, CONVERTED, MARKER_BYTES, answer) == ODDRAFISK_ACCEPTED);
    EXPECT(answer[ODDRAFISK_KIND] == ODDRAFISK_KIND_COMMIT && answer[ODDRAFISK_BASE_OFFSET] == 5);
    EXPECT(oddrafisk_is_canonical(ODDRAFISK_KEYED, CONVERTED, MARKER_BYTES) == 0);
    for (size_t count = 0; count < BARE_BYTES; count++) {
        int64_t needed = count < 12 ? 12 : count < 17 ? 17 : BARE_BYTES;
        expect_unconverted(ODDRAFISK_MORE_BYTES, WORKED, count, needed);
    }
}

/* Every bit of the attributes that says neither the codec nor that it is a marker is kept. */
static void test_converted_attributes(void)
{
    const uint32_t settled = 0x27;
    for (uint32_t bit = 1; bit <= 0x8000; bit <<= 1)
        for (uint8_t type = 0; type < 2; type++) {
            const uint8_t bare[] = {0, 0, 0, type}, keyed[] = {0x14, 0, 0, 0, 8, 0, 0, 0, type, 1, 0};
            uint8_t bytes[BARE_BYTES], due[MARKER_BYTES];
            if (bit & settled)
                continue;
            put_batch(bytes, 32 | bit, 1, bare, sizeof bare);
            put_batch(due, 32 | bit, 1, keyed, sizeof keyed);
            EXPECT(refused(bytes, sizeof bytes, 0) == ODDRAFISK_BARE_MARKER);
            expect_converted(bytes, sizeof bytes, sizeof bytes, due, sizeof due);
        }
}

/* What the keyed mode accepts is copied, and what follows it is not. */
static void test_converted_batches(void)
{
    expect_converted(SAMPLE, sizeof SAMPLE, EMPTY_BYTES, SAMPLE, EMPTY_BYTES);
    expect_converted(ONE, ONE_BYTES, ONE_BYTES, ONE, ONE_BYTES);
    expect_converted(ONE, ONE_BYTES + 3, ONE_BYTES, ONE, ONE_BYTES);
    expect_converted(KNOWN, KNOWN_BYTES, KNOWN_BYTES, KNOWN, KNOWN_BYTES);
    for (size_t count = 0; count < ONE_BYTES; count++) {
        int64_t needed = count < 12 ? 12 : count < 17 ? 17 : ONE_BYTES;
        expect_unconverted(ODDRAFISK_MORE_BYTES, ONE, count, needed);
    }
}

/* Control batches have the keyed mode's numbers, and never the old rules'; bare markers keep every field. */
static void test_converted_controls(void)
{
    for (size_t i = 0; i < COUNT(CONTROLS); i++) {
        const control *c = &CONTROLS[i];
        uint8_t bytes[EMPTY_BYTES + sizeof c->bytes], due[EMPTY_BYTES + sizeof c->bytes];
        const known *way = &KNOWN_WAYS[i % COUNT(KNOWN_WAYS)];
        const size_t count = put_control(bytes, c, way);
        const unsigned broken_before = broken;
        if (c->keyed.number == ODDRAFISK_BARE_MARKER) {
            const control keyed = {c->bare, c->keyed, 1, 11, {0x14, 0, 0, 0, 8, 0, 0, 0, c->bytes[3], 1, 0}};
            EXPECT(put_control(due, &keyed, way) == MARKER_BYTES);
            expect_converted(bytes, count, count, due, MARKER_BYTES);
        } else if (c->keyed.number == ODDRAFISK_ACCEPTED) {
            expect_converted(bytes, count, count, bytes, count);
        } else {
            expect_unconverted(c->keyed.number, bytes, count, 0);
        }
        if (broken > broken_before)
            printf("control batch %zu\n", i);
    }
}

/* A bare marker with another fault has that fault's number, in reading and in the conversion. */
static void test_bare_faults(void)
{
    static const edit edits[] = {
        {ODDRAFISK_LENGTH_TOO_SMALL, 11, 8, 0}, {ODDRAFISK_LENGTH_TOO_SMALL, 8, 0xFF, 0},
        {ODDRAFISK_UNKNOWN_MAGIC, 16, 1, 0},    {ODDRAFISK_CHECKSUM_DIFFERS, 20, 0, 0},
        {ODDRAFISK_CHECKSUM_DIFFERS, 64, 0, 0}, {ODDRAFISK_UNKNOWN_CODEC, 22, 0x75, 1},
        {ODDRAFISK_COMPRESSED, 22, 0x71, 1},    {ODDRAFISK_WRONG_COUNT, 60, 2, 1},
        {ODDRAFISK_WRONG_COUNT, 57, 0x80, 1},   {ODDRAFISK_PAST_END, 22, 0x50, 1}};
    for (size_t i = 0; i < COUNT(edits); i++) {
        uint8_t bytes[BARE_BYTES];
        memcpy(bytes, WORKED, sizeof bytes);
        bytes[edits[i].place] = edits[i].byte;
        if (edits[i].repaired)
            repair(bytes, sizeof bytes);
        EXPECT(refused(bytes, sizeof bytes, 0) == edits[i].number);
        expect_unconverted(edits[i].number, bytes, sizeof bytes, 0);
    }
}

/* An abort with all fields 0, byte by byte: its checksum was worked out apart from the library. */
static void test_keyed_bytes(void)
{
    static const uint8_t bytes[MARKER_BYTES] = {
        0x00, 0x00, 0x00, 0x00, 0x00, 0x00, 0x00, 0x00, 0x00, 0x00, 0x00, 0x3C, 0x00, 0x00, 0x00, 0x00, 0x02, 0xEC,
        0xE5, 0x1F, 0xAE, 0x00, 0x20, 0x00, 0x00, 0x00, 0x00, 0x00, 0x00, 0x00, 0x00, 0x00, 0x00, 0x00, 0x00, 0x00,
        0x00, 0x00, 0x00, 0x00, 0x00, 0x00, 0x00, 0x00, 0x00, 0x00, 0x00, 0x00, 0x00, 0x00, 0x00, 0x00, 0x00, 0x00,
        0x00, 0x00, 0x00, 0x00, 0x00, 0x00, 0x01, 0x14, 0x00, 0x00, 0x00, 0x08, 0x00, 0x00, 0x00, 0x00, 0x01, 0x00};
    int64_t batch[ODDRAFISK_ENTRIES] = {0}, length[1];
    uint8_t output[OUTPUT_BYTES];
    batch[ODDRAFISK_KIND] = ODDRAFISK_KIND_ABORT;
    memset(output, UNTOUCHED_BYTE, sizeof output);
    uint32_t number = write_batch(batch, 0, RECORDS, HEADERS, output, sizeof output, length);
    if (mode == ODDRAFISK_KEYED) {
        EXPECT(number == ODDRAFISK_ACCEPTED && length[0] == MARKER_BYTES);
        EXPECT(memcmp(output, bytes, MARKER_BYTES) == 0);
    } else {
        EXPECT(number == ODDRAFISK_BARE_MARKER);
        EXPECT(refused(bytes, MARKER_BYTES, 0) == ODDRAFISK_UNKNOWN_CONTROL);
    }
}

/* Batches that are accepted and that the writer would not give: count -1, a high attribute bit, a record attribute and
 * two bytes for a 0. */
static void test_canonical(void)
{
    static const body bodies[] = {
        {1, 0, 1, 7, {0x0C, 0, 0, 0, 1, 1, 0}},
        {0, 0, 1, 7, {0x0C, 1, 0, 0, 1, 1, 0}},
        {0, 0, 1, 8, {0x0E, 0, 0x80, 0, 0, 1, 1, 0}},
        {0, 0x40, 1, 7, {0x0C, 0, 0, 0, 1, 1, 0}},
        {0, 0x8000, 1, 7, {0x0C, 0, 0, 0, 1, 1, 0}},
        {1, 0, 0, 0, {0}},
        {0, 0, -1, 0, {0}}};
    EXPECT(oddrafisk_is_canonical(mode, SAMPLE, EMPTY_BYTES) == 1);
    EXPECT(oddrafisk_is_canonical(mode, ONE, ONE_BYTES) == 1);
    EXPECT(oddrafisk_is_canonical(mode, ONE, ONE_BYTES + 1) == 0);
    EXPECT(oddrafisk_is_canonical(mode, SAMPLE, SAMPLE_BYTES) == 0);
    for (size_t i = 0; i < COUNT(bodies); i++) {
        const body *b = &bodies[i];
        uint8_t bytes[EMPTY_BYTES + sizeof b->bytes];
        int64_t answer[ODDRAFISK_ENTRIES];
        size_t count = put_batch(bytes, b->attributes, b->count, b->bytes, b->length);
        EXPECT(oddrafisk_check(mode, bytes, count, answer) == ODDRAFISK_ACCEPTED);
        EXPECT(oddrafisk_is_canonical(mode, bytes, count) == b->number);
    }
}

/* Where a time is told, type, first, greatest, delta and time all differ. */
static void test_record_time(void)
{
    static const int64_t times[][6] = {
        /* type, first, greatest, delta, whether there is a time, the time */
        {0, 1000, 5000, -1, 1, 999},
        {0, 1000, 5000, 30, 1, 1030},
        {0, 1000, INT64_MAX, 30, 1, 1030},
        {0, INT64_MAX - 1, 5000, 1, 1, INT64_MAX},
        {0, INT64_MAX, 5000, 1, 0, 0},
        {0, INT64_MIN + 1, 5000, -1, 1, INT64_MIN},
        {0, INT64_MIN, 5000, -1, 0, 0},
        {0, INT64_MIN, 5000, INT64_MAX, 1, -1},
        /* log append time */
        {1, 1000, 5000, -1, 1, 999},
        {1, 1000, 5000, 30, 1, 1030},
        {1, 1000, INT64_MAX, 30, 1, 1030},
        {1, INT64_MAX, 5000, 2, 0, 0},
        {1, INT64_MIN, 5000, -1, 0, 0},
        /* no type */
        {2, 1000, 5000, 30, 0, 0},
        {-1, 1000, 5000, 30, 0, 0},
        {INT64_C(1) << 32, 1000, 5000, 30, 0, 0},
        {INT64_MIN, 1000, 5000, 30, 0, 0}};
    for (size_t i = 0; i < COUNT(times); i++) {
        const int64_t *time = times[i];
        int64_t answer[1] = {UNTOUCHED};
        EXPECT(oddrafisk_record_time(time[0], time[1], time[2], time[3], answer) == (uint32_t)time[4]);
        EXPECT(answer[0] == time[5]);
    }
}

/* The usual check value, and RFC 3720's examples of 32 bytes. */
static void test_crc32c(void)
{
    uint8_t bytes[32];
    EXPECT(oddrafisk_crc32c((const uint8_t *)"123456789", 9) == UINT32_C(0xE3069283));
    memset(bytes, 0, sizeof bytes);
    EXPECT(oddrafisk_crc32c(bytes, sizeof bytes) == UINT32_C(0x8A9136AA));
    memset(bytes, 0xFF, sizeof bytes);
    EXPECT(oddrafisk_crc32c(bytes, sizeof bytes) == UINT32_C(0x62A8AB43));
    for (uint8_t i = 0; i < 32; i++)
        bytes[i] = i;
    EXPECT(oddrafisk_crc32c(bytes, sizeof bytes) == UINT32_C(0x46DD794E));
}

/* Lengths of 0, at a pointer that is not null. */
static void test_nothing_lent(void)
{
    int64_t number = UNTOUCHED, batch[ODDRAFISK_ENTRIES] = {0}, length[1], answer[ODDRAFISK_ENTRIES];
    uint8_t byte = UNTOUCHED_BYTE;
    EXPECT(oddrafisk_check(mode, &byte, 0, answer) == ODDRAFISK_MORE_BYTES);
    EXPECT(oddrafisk_read(mode, &byte, 0, &number, 0, &number, 0, answer) == ODDRAFISK_MORE_BYTES);
    EXPECT(counts_only(answer, 0, 0, 12));
    EXPECT(oddrafisk_read(mode, SAMPLE, EMPTY_BYTES, &number, 0, &number, 0, answer) == ODDRAFISK_ACCEPTED);
    EXPECT(oddrafisk_is_canonical(mode, &byte, 0) == 0);
    EXPECT(oddrafisk_crc32c(&byte, 0) == 0);
    EXPECT(oddrafisk_measure(mode, batch, 0, &number, 0, &number, 0, &byte, 0, length) == 0);
    EXPECT(length[0] == EMPTY_BYTES);
    EXPECT(oddrafisk_write(mode, batch, 0, &number, 0, &number, 0, SOURCE, 0, &byte, 0, length)
           == ODDRAFISK_SHORT_OUTPUT);
    EXPECT(length[0] == 0);
    EXPECT(oddrafisk_convert(SOURCE, 0, &byte, 0, answer) == ODDRAFISK_MORE_BYTES);
    EXPECT(answer[0] == 12 && answer[1] == 0);
    EXPECT(oddrafisk_convert(SAMPLE, EMPTY_BYTES, &byte, 0, answer) == ODDRAFISK_SHORT_OUTPUT);
    EXPECT(answer[0] == 0 && answer[1] == 0);
    EXPECT(number == UNTOUCHED && byte == UNTOUCHED_BYTE);
}

typedef struct {
    const char *name;
    void (*run)(void);
} test;

#define TEST(name) {#name, test_##name}

static const test TESTS[] = {
    TEST(constants), TEST(rows), TEST(version), TEST(words), TEST(sample_read), TEST(sample_written), TEST(known_read),
    TEST(known_written), TEST(truncated), TEST(first_17), TEST(going_on), TEST(damaged), TEST(edited), TEST(bodies),
    TEST(reads_back), TEST(no_room), TEST(rows_asked_for), TEST(codecs_and_outputs), TEST(wrong_entries),
    TEST(wrong_records), TEST(wrong_headers), TEST(key_not_utf8), TEST(too_long), TEST(markers),
    TEST(markers_with_wrong_entries), TEST(controls), TEST(converted_marker), TEST(converted_attributes),
    TEST(converted_batches), TEST(converted_controls), TEST(bare_faults), TEST(keyed_bytes), TEST(canonical),
    TEST(record_time), TEST(crc32c), TEST(nothing_lent)};

/* A test passes where it makes checks in each mode and all of them hold. */
int main(void)
{
    unsigned passed = 0;
    for (size_t i = 0; i < COUNT(TESTS); i++) {
        const unsigned broken_before = broken;
        int all_made = 1;
        for (size_t j = 0; j < COUNT(MODES); j++) {
            const unsigned made_before = made;
            mode = MODES[j];
            TESTS[i].run();
            all_made = all_made && made > made_before;
        }
        if (all_made && broken == broken_before)
            passed++;
        else
            printf("failed: %s\n", TESTS[i].name);
    }
    printf("%u checks, of which %u do not hold\n", made, broken);
    printf("%u passed, %u failed\n", passed, (unsigned)COUNT(TESTS) - passed);
    return passed != COUNT(TESTS);
}
