/* Readers, writers and conversions that are wrong, each in one way: compare/crippled links the comparison's driver with
 * this file, in the place of the library's own functions, and the driver has to find each. The environment names the
 * way by CRIPPLED, so that the driver is linked once. The library's functions are called by other names, since these
 * have theirs. */
#include "oddrafisk.h"

#include <stdbool.h>
#include <stdlib.h>
#include <string.h>

enum way {
    UNCHANGED,         /* nothing is wrong */
    ALWAYS_9,          /* answers 9 to everything, so that all lies outside the domain */
    ALWAYS_8,          /* refuses everything, with a number that lies inside it */
    FIELDS_CHANGED,    /* changes over the first timestamp and the greatest */
    REMAINDER_TOUCHED, /* puts a number into the part of a row that a table ends with */
    PAST_THE_BYTES,    /* looks at the byte after the last that is lent */
    BYTES_WRITTEN,     /* writes to bytes that are lent to be read, what is there */
    MODE_IGNORED,      /* reads in bare mode, whatever is asked */
    OTHERS_KEYED,      /* takes every number but 0 for keyed mode */
    MARKER_COUNTED,    /* counts a record in a keyed marker */
    ALL_CANONICAL,     /* finds every keyed marker that is accepted canonical */
    BARE_WRITTEN,      /* writes in bare mode, whatever is asked */
    BARE_MEASURED,     /* measures in bare mode, whatever is asked */
    KEYED_8,           /* answers 8 to a bare marker in keyed mode, as before it was withdrawn */
    BARE_ACCEPTED,     /* accepts a bare marker in bare mode, as before */
    FOUR_BYTES,        /* answers 41 to every control batch with four bytes after the fixed fields */
    BARE_CANONICAL,    /* finds a bare marker canonical in bare mode, as before */
    BEFORE_CODEC,      /* refuses a bare marker that is asked for before it looks at the codec */
    AFTER_ENTRIES,     /* refuses it after it has looked at the other entries */
    KEYED_REFUSED,     /* refuses markers by 41 in keyed mode too, in writing */
    PASSED_ON,         /* answers 41 to a bare marker that is to be converted */
    BITS_LOST,         /* converts a marker to the attributes that the writer gives */
    LENGTH_LEFT,       /* leaves a converted marker the batchLength that it had */
    CHECKSUM_LEFT,     /* leaves it the checksum that it had */
    ALL_COPIED,        /* copies all bytes that are lent, and not the batch's alone */
    OUTPUT_TOUCHED,    /* has changed the output where it then finds it too short */
    WAYS
};

static const char *const NAMES[WAYS] = {
    "unchanged",     "always_9",       "always_8",       "fields_changed", "remainder_touched", "past_the_bytes",
    "bytes_written", "mode_ignored",   "others_keyed",   "marker_counted", "all_canonical",     "bare_written",
    "bare_measured", "keyed_8",        "bare_accepted",  "four_bytes",     "bare_canonical",    "before_codec",
    "after_entries", "keyed_refused",  "passed_on",      "bits_lost",      "length_left",       "checksum_left",
    "all_copied",    "output_touched",
};

/* Places of a batch's bytes. */
enum { BATCH_LENGTH = 8, CRC = 17, ATTRIBUTES = 21, BARE_BYTES = 65, KEYED_BYTES = 72 };

uint32_t proved_check(uint32_t mode, const uint8_t *bytes, size_t bytes_count, int64_t answer[ODDRAFISK_ENTRIES]);
uint32_t proved_read(uint32_t mode, const uint8_t *bytes, size_t bytes_count, int64_t *records, size_t record_numbers,
                     int64_t *headers, size_t header_numbers, int64_t answer[ODDRAFISK_ENTRIES]);
uint32_t proved_measure(uint32_t mode, const int64_t batch[ODDRAFISK_ENTRIES], int64_t codec, const int64_t *records,
                        size_t record_numbers, const int64_t *headers, size_t header_numbers, const uint8_t *source,
                        size_t source_count, int64_t answer[1]);
uint32_t proved_write(uint32_t mode, const int64_t batch[ODDRAFISK_ENTRIES], int64_t codec, const int64_t *records,
                      size_t record_numbers, const int64_t *headers, size_t header_numbers, const uint8_t *source,
                      size_t source_count, uint8_t *output, size_t output_count, int64_t answer[1]);
uint32_t proved_is_canonical(uint32_t mode, const uint8_t *bytes, size_t bytes_count);
uint32_t proved_convert(const uint8_t *bytes, size_t bytes_count, uint8_t *output, size_t output_count,
                        int64_t answer[2]);

/* Whether this is the way that the environment names. */
static bool is(enum way way)
{
    static int named = WAYS;
    if (named == WAYS) {
        const char *name = getenv("CRIPPLED");
        for (named = 0; named < WAYS && (name == NULL || strcmp(name, NAMES[named]) != 0); named++)
            ;
        if (named == WAYS)
            abort();
    }
    return named == (int)way;
}

/* The mode in which a reader reads. */
static uint32_t reading(uint32_t mode)
{
    if (is(MODE_IGNORED))
        return ODDRAFISK_BARE;
    return is(OTHERS_KEYED) && mode != ODDRAFISK_BARE ? ODDRAFISK_KEYED : mode;
}

/* Whether the bytes, which begin with a batch that is refused after its fixed fields, have four after these, and the
 * control bit. */
static bool is_of_four(const uint8_t *bytes)
{
    const uint8_t length[4] = {0, 0, 0, BARE_BYTES - 12};
    return memcmp(bytes + BATCH_LENGTH, length, sizeof length) == 0 && (bytes[ATTRIBUTES + 1] & 32) != 0;
}

/* What a bare marker was read as: its keyed form's entries, but for the bytes. */
static uint32_t as_before(const uint8_t *bytes, size_t bytes_count, int64_t *answer)
{
    uint8_t keyed[KEYED_BYTES];
    int64_t taken[2];
    proved_convert(bytes, bytes_count, keyed, sizeof keyed, taken);
    uint32_t number = proved_check(ODDRAFISK_KEYED, keyed, sizeof keyed, answer);
    answer[ODDRAFISK_BYTES] = taken[0];
    return number;
}

/* What is wrong with every answer. */
static uint32_t cripple(uint32_t mode, uint32_t number, const uint8_t *bytes, size_t bytes_count, int64_t *answer)
{
    if (is(ALWAYS_9) || is(ALWAYS_8)) {
        memset(answer, 0, ODDRAFISK_ENTRIES * sizeof *answer);
        return is(ALWAYS_9) ? ODDRAFISK_BEYOND_LIMITS : ODDRAFISK_PAST_END;
    }
    if (is(FIELDS_CHANGED)) {
        int64_t first = answer[ODDRAFISK_FIRST_TIMESTAMP];
        answer[ODDRAFISK_FIRST_TIMESTAMP] = answer[ODDRAFISK_MAX_TIMESTAMP];
        answer[ODDRAFISK_MAX_TIMESTAMP] = first;
    }
    if (is(MARKER_COUNTED) && mode == ODDRAFISK_KEYED && answer[ODDRAFISK_KIND] != ODDRAFISK_KIND_RECORDS)
        answer[ODDRAFISK_RECORDS] = 1;
    if (is(KEYED_8) && mode == ODDRAFISK_KEYED && number == ODDRAFISK_BARE_MARKER)
        return ODDRAFISK_PAST_END;
    if (is(BARE_ACCEPTED) && mode != ODDRAFISK_KEYED && number == ODDRAFISK_BARE_MARKER)
        return as_before(bytes, bytes_count, answer);
    if (is(FOUR_BYTES) && (number == ODDRAFISK_PAST_END || number == ODDRAFISK_UNKNOWN_CONTROL) && is_of_four(bytes))
        return ODDRAFISK_BARE_MARKER;
    return number;
}

uint32_t oddrafisk_check(uint32_t mode, const uint8_t *bytes, size_t bytes_count, int64_t answer[ODDRAFISK_ENTRIES])
{
    return cripple(mode, proved_check(reading(mode), bytes, bytes_count, answer), bytes, bytes_count, answer);
}

uint32_t oddrafisk_read(uint32_t mode, const uint8_t *bytes, size_t bytes_count, int64_t *records,
                        size_t record_numbers, int64_t *headers, size_t header_numbers,
                        int64_t answer[ODDRAFISK_ENTRIES])
{
    if (is(ALWAYS_9) || is(ALWAYS_8))
        return cripple(mode, 0, bytes, bytes_count, answer);
    uint32_t number = proved_read(reading(mode), bytes, bytes_count, records, record_numbers, headers, header_numbers,
                                  answer);
    if (is(REMAINDER_TOUCHED) && record_numbers % ODDRAFISK_RECORD_ROW != 0)
        records[record_numbers - 1]++;
    if (is(PAST_THE_BYTES))
        (void)((const volatile uint8_t *)bytes)[bytes_count];
    if (is(BYTES_WRITTEN) && bytes_count != 0)
        ((volatile uint8_t *)(uintptr_t)bytes)[0] = bytes[0];
    return cripple(mode, number, bytes, bytes_count, answer);
}

/* The mode in which a marker is asked for. */
static uint32_t writing(uint32_t mode, enum way bare)
{
    return is(bare) ? ODDRAFISK_BARE : mode;
}

/* What is wrong with what is asked for a marker: a number to refuse it by, or 0. */
static uint32_t refused(uint32_t mode, const int64_t *batch, int64_t codec)
{
    int64_t answer[1];
    if (batch[ODDRAFISK_KIND] != ODDRAFISK_KIND_ABORT && batch[ODDRAFISK_KIND] != ODDRAFISK_KIND_COMMIT)
        return 0;
    if (mode == ODDRAFISK_KEYED)
        return is(KEYED_REFUSED) && codec == 0 ? ODDRAFISK_BARE_MARKER : 0;
    if (is(BEFORE_CODEC))
        return ODDRAFISK_BARE_MARKER;
    return is(AFTER_ENTRIES) ? proved_measure(ODDRAFISK_KEYED, batch, codec, NULL, 0, NULL, 0, NULL, 0, answer) : 0;
}

uint32_t oddrafisk_measure(uint32_t mode, const int64_t batch[ODDRAFISK_ENTRIES], int64_t codec, const int64_t *records,
                           size_t record_numbers, const int64_t *headers, size_t header_numbers, const uint8_t *source,
                           size_t source_count, int64_t answer[1])
{
    uint32_t number = refused(mode, batch, codec);
    answer[0] = 0;
    return number != 0 ? number
                       : proved_measure(writing(mode, BARE_MEASURED), batch, codec, records, record_numbers, headers,
                                        header_numbers, source, source_count, answer);
}

uint32_t oddrafisk_write(uint32_t mode, const int64_t batch[ODDRAFISK_ENTRIES], int64_t codec, const int64_t *records,
                         size_t record_numbers, const int64_t *headers, size_t header_numbers, const uint8_t *source,
                         size_t source_count, uint8_t *output, size_t output_count, int64_t answer[1])
{
    uint32_t number = refused(mode, batch, codec);
    answer[0] = 0;
    return number != 0 ? number
                       : proved_write(writing(mode, BARE_WRITTEN), batch, codec, records, record_numbers, headers,
                                      header_numbers, source, source_count, output, output_count, answer);
}

uint32_t oddrafisk_is_canonical(uint32_t mode, const uint8_t *bytes, size_t bytes_count)
{
    int64_t answer[ODDRAFISK_ENTRIES];
    if (is(ALWAYS_9) || is(ALWAYS_8))
        return 0;
    if (is(ALL_CANONICAL) && mode == ODDRAFISK_KEYED)
        return proved_check(mode, bytes, bytes_count, answer) == ODDRAFISK_ACCEPTED &&
               (size_t)answer[ODDRAFISK_BYTES] == bytes_count &&
               (answer[ODDRAFISK_KIND] != ODDRAFISK_KIND_RECORDS || proved_is_canonical(mode, bytes, bytes_count));
    if (is(BARE_CANONICAL) && mode != ODDRAFISK_KEYED && bytes_count == BARE_BYTES && bytes[ATTRIBUTES] == 0 &&
        bytes[ATTRIBUTES + 1] < 64 && proved_check(mode, bytes, bytes_count, answer) == ODDRAFISK_BARE_MARKER)
        return 1;
    return proved_is_canonical(reading(mode), bytes, bytes_count);
}

/* What is wrong with a marker that is converted. */
static void cripple_converted(const uint8_t *bytes, uint8_t *output)
{
    if (is(LENGTH_LEFT))
        memcpy(output + BATCH_LENGTH, bytes + BATCH_LENGTH, 4);
    if (is(CHECKSUM_LEFT))
        memcpy(output + CRC, bytes + CRC, 4);
    if (is(BITS_LOST)) {
        output[ATTRIBUTES] = 0;
        output[ATTRIBUTES + 1] &= 63;
        uint32_t crc = oddrafisk_crc32c(output + ATTRIBUTES, KEYED_BYTES - ATTRIBUTES);
        for (int place = 0; place < 4; place++)
            output[CRC + place] = (uint8_t)(crc >> (24 - 8 * place));
    }
}

uint32_t oddrafisk_convert(const uint8_t *bytes, size_t bytes_count, uint8_t *output, size_t output_count,
                           int64_t answer[2])
{
    uint32_t number = proved_convert(bytes, bytes_count, output, output_count, answer);
    bool accepted = number == ODDRAFISK_ACCEPTED, changed = accepted && answer[0] != answer[1];
    if (is(PASSED_ON) && changed) {
        answer[0] = answer[1] = 0;
        return ODDRAFISK_BARE_MARKER;
    }
    if (is(ALL_COPIED) && accepted && !changed && bytes_count <= output_count) {
        memcpy(output, bytes, bytes_count);
        answer[0] = answer[1] = (int64_t)bytes_count;
    }
    if (is(OUTPUT_TOUCHED) && number == ODDRAFISK_SHORT_OUTPUT && output_count != 0)
        output[0]++;
    if (changed)
        cripple_converted(bytes, output);
    return number;
}
