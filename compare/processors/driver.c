/* Prints every answer of the library on the inputs of a file, so that two builds of it can be held to each other.
 *
 *     driver FILE              the answers in keyed mode
 *     driver --bare FILE       the answers in bare mode
 *     driver --own-order FILE  this processor's byte order, and each log's base offset taken by it
 *
 * An input is a line:
 *     log HEX                  bytes to read, batch by batch, to convert and to write again
 *     write CODEC ENTRIES|RECORD ROWS|HEADER ROWS|HEX
 *                              a batch to write, with its sixteen entries and its source, and to read again
 *     time TYPE FIRST MAX DELTA
 *                              a record's time to tell
 * HEX may be empty. But for --own-order nothing here depends on the order of bytes in memory. */
#define _POSIX_C_SOURCE 200809L
#include <inttypes.h>
#include <stdbool.h>
#include <stdio.h>
#include <stdlib.h>
#include <string.h>

#include "oddrafisk.h"

/* What stands in lent memory before a call, and behind what is lent. */
static const int64_t MARK = -6148914691236517206;
enum { MARKED_BYTE = 0xAA, GUARD = 8 };
/* The mode in which the library is asked. */
static uint32_t mode = ODDRAFISK_KEYED;
/* What is converted is at most so many bytes longer than what is taken. */
enum { MOST_LONGER = 7 };
/* A batch that is longer is measured, and asked for in an output that is too short. */
enum { MOST_WRITTEN = 1 << 24 };

struct bytes {
    uint8_t *at;
    size_t count;
};

struct numbers {
    int64_t *at;
    size_t count;
};

/* ---- memory */

static void *memory(size_t size) {
    void *at = malloc(size);
    if (at == NULL) {
        fputs("driver: no memory\n", stderr);
        exit(2);
    }
    return at;
}

static struct bytes marked_bytes(size_t count) {
    struct bytes made = {memory(count + GUARD), count};
    memset(made.at, MARKED_BYTE, count + GUARD);
    return made;
}

static struct numbers marked_numbers(size_t count) {
    struct numbers made = {memory((count + GUARD) * sizeof(int64_t)), count};
    for (size_t i = 0; i < count + GUARD; i++) made.at[i] = MARK;
    return made;
}

static void mark_answer(int64_t *answer) {
    for (size_t i = 0; i < ODDRAFISK_ENTRIES; i++) answer[i] = MARK;
}

static const char *bytes_kept(struct bytes lent, size_t from) {
    for (size_t i = from; i < lent.count + GUARD; i++)
        if (lent.at[i] != MARKED_BYTE) return "changed";
    return "kept";
}

static const char *numbers_kept(struct numbers lent, size_t from) {
    for (size_t i = from; i < lent.count + GUARD; i++)
        if (lent.at[i] != MARK) return "changed";
    return "kept";
}

/* ---- text in */

static int digit(char c) {
    if ('0' <= c && c <= '9') return c - '0';
    return 'A' <= c && c <= 'F' ? c - 'A' + 10 : -1;
}

static struct bytes taken_bytes(const char *text) {
    size_t digits = strspn(text, "0123456789ABCDEF");
    struct bytes taken = marked_bytes(digits / 2);
    for (size_t i = 0; i < taken.count; i++)
        taken.at[i] = (uint8_t)(digit(text[2 * i]) * 16 + digit(text[2 * i + 1]));
    return taken;
}

/* The numbers up to a bar or the end of the text, which is moved behind it. */
static struct numbers taken_numbers(const char **text) {
    size_t length = strcspn(*text, "|\n");
    struct numbers taken = marked_numbers(length / 2 + 1);
    const char *at = *text, *end = *text + length;
    taken.count = 0;
    while (at + strspn(at, " ") < end) {
        char *after;
        taken.at[taken.count++] = strtoll(at, &after, 10);
        at = after;
    }
    *text = *end == '|' ? end + 1 : end;
    return taken;
}

/* ---- text out */

/* The result is shown as 64 bits, as a caller sees it who widens it. */
static void show_answer(const char *name, uint64_t result, const int64_t *answer, size_t count) {
    printf("%s %" PRIu64, name, result);
    for (size_t i = 0; i < count; i++) printf(" %" PRId64, answer[i]);
    putchar('\n');
}

static void show_hex(const uint8_t *at, size_t count) {
    for (size_t i = 0; i < count; i++) {
        putchar("0123456789ABCDEF"[at[i] / 16]);
        putchar("0123456789ABCDEF"[at[i] % 16]);
    }
}

/* " null", or " x" and the bytes. */
static void show_span(const uint8_t *bytes, int64_t start, int64_t length) {
    if (length < 0) {
        fputs(" null", stdout);
        return;
    }
    fputs(" x", stdout);
    show_hex(bytes + start, (size_t)length);
}

/* ---- reading */

static void show_record(const uint8_t *bytes, const int64_t *batch, const int64_t *row, const int64_t *headers) {
    int64_t time = MARK;
    uint64_t told = oddrafisk_record_time(batch[ODDRAFISK_TIMESTAMP_TYPE], batch[ODDRAFISK_FIRST_TIMESTAMP],
                                          batch[ODDRAFISK_MAX_TIMESTAMP], row[ODDRAFISK_RECORD_TIMESTAMP_DELTA], &time);
    show_answer("row", told, row, ODDRAFISK_RECORD_ROW);
    printf("record %" PRId64, row[ODDRAFISK_RECORD_OFFSET_DELTA]);
    if (told == 1)
        printf(" %" PRId64, time);
    else
        printf(" none-%" PRId64, time);
    show_span(bytes, row[ODDRAFISK_RECORD_KEY_START], row[ODDRAFISK_RECORD_KEY_LENGTH]);
    show_span(bytes, row[ODDRAFISK_RECORD_VALUE_START], row[ODDRAFISK_RECORD_VALUE_LENGTH]);
    const int64_t *header = headers + ODDRAFISK_HEADER_NUMBERS(row[ODDRAFISK_RECORD_FIRST_HEADER]);
    for (int64_t left = row[ODDRAFISK_RECORD_HEADERS]; left > 0; left--, header += ODDRAFISK_HEADER_ROW) {
        show_span(bytes, header[ODDRAFISK_HEADER_KEY_START], header[ODDRAFISK_HEADER_KEY_LENGTH]);
        show_span(bytes, header[ODDRAFISK_HEADER_VALUE_START], header[ODDRAFISK_HEADER_VALUE_LENGTH]);
    }
    putchar('\n');
}

/* Reads with tables of just so many numbers, and says what became of the tables. */
static uint32_t read_into(struct bytes log, struct numbers records, struct numbers headers, int64_t *answer) {
    mark_answer(answer);
    uint64_t result =
        oddrafisk_read(mode, log.at, log.count, records.at, records.count, headers.at, headers.count, answer);
    bool accepted = result == ODDRAFISK_ACCEPTED;
    size_t rows = accepted ? (size_t)answer[ODDRAFISK_RECORDS] : 0;
    size_t header_rows = accepted ? (size_t)answer[ODDRAFISK_HEADERS] : 0;
    show_answer("read", result, answer, ODDRAFISK_ENTRIES);
    printf("tables %s %s\n", numbers_kept(records, ODDRAFISK_RECORD_NUMBERS(rows)),
           numbers_kept(headers, ODDRAFISK_HEADER_NUMBERS(header_rows)));
    return (uint32_t)result;
}

/* Reads with the tables that are needed, less so many numbers of each. */
static void read_short(struct bytes log, const int64_t *needed, size_t fewer_records, size_t fewer_headers) {
    size_t records = ODDRAFISK_RECORD_NUMBERS(needed[ODDRAFISK_RECORDS]);
    size_t headers = ODDRAFISK_HEADER_NUMBERS(needed[ODDRAFISK_HEADERS]);
    if (records < fewer_records || headers < fewer_headers) return;
    struct numbers short_records = marked_numbers(records - fewer_records);
    struct numbers short_headers = marked_numbers(headers - fewer_headers);
    int64_t answer[ODDRAFISK_ENTRIES];
    read_into(log, short_records, short_headers, answer);
    free(short_records.at);
    free(short_headers.at);
}

/* ---- writing */

static struct bytes written(const int64_t *batch, int64_t codec, struct numbers records, struct numbers headers,
                            struct bytes source, size_t room) {
    struct bytes output = marked_bytes(room);
    int64_t length = MARK;
    uint64_t result = oddrafisk_write(mode, batch, codec, records.at, records.count, headers.at, headers.count,
                                      source.at, source.count, output.at, output.count, &length);
    show_answer("write", result, &length, 1);
    printf("output %s ", bytes_kept(output, (size_t)length));
    show_hex(output.at, (size_t)length);
    putchar('\n');
    output.count = (size_t)length;
    return output;
}

/* Measures a batch and writes it, into enough and into one byte less. The caller frees what was written. */
static struct bytes show_written(const int64_t *batch, int64_t codec, struct numbers records, struct numbers headers,
                                 struct bytes source) {
    int64_t length = MARK;
    uint64_t result = oddrafisk_measure(mode, batch, codec, records.at, records.count, headers.at, headers.count,
                                        source.at, source.count, &length);
    show_answer("measure", result, &length, 1);
    size_t room = length < MOST_WRITTEN ? (size_t)length : MOST_WRITTEN;
    if (room > 0) free(written(batch, codec, records, headers, source, room - 1).at);
    return written(batch, codec, records, headers, source, room);
}

/* ---- converting */

/* Converts what the bytes begin with, into an output of so many bytes: how many are given. */
static size_t converted(struct bytes log, size_t room) {
    struct bytes output = marked_bytes(room);
    int64_t answer[2] = {MARK, MARK};
    uint64_t result = oddrafisk_convert(log.at, log.count, output.at, output.count, answer);
    size_t given = (size_t)answer[1];
    show_answer("convert", result, answer, 2);
    printf("converted %s ", bytes_kept(output, given));
    show_hex(output.at, given);
    putchar('\n');
    free(output.at);
    return given;
}

/* Converts into more than is needed, and what is given into one byte less. */
static void show_converted(struct bytes log) {
    size_t given = converted(log, log.count + MOST_LONGER + 1);
    if (given > 0) converted(log, given - 1);
}

/* ---- the inputs */

/* One batch at the start of the bytes: how many it has, or 0 where none is accepted. */
static size_t show_batch(struct bytes log) {
    int64_t checked[ODDRAFISK_ENTRIES], answer[ODDRAFISK_ENTRIES];
    mark_answer(checked);
    show_answer("check", oddrafisk_check(mode, log.at, log.count, checked), checked, ODDRAFISK_ENTRIES);
    show_converted(log);
    struct numbers records = marked_numbers(ODDRAFISK_RECORD_NUMBERS(checked[ODDRAFISK_RECORDS]));
    struct numbers headers = marked_numbers(ODDRAFISK_HEADER_NUMBERS(checked[ODDRAFISK_HEADERS]));
    size_t consumed = 0;
    if (read_into(log, records, headers, answer) == ODDRAFISK_ACCEPTED) {
        consumed = (size_t)answer[ODDRAFISK_BYTES];
        for (int64_t i = 0; i < answer[ODDRAFISK_RECORDS]; i++)
            show_record(log.at, answer, records.at + ODDRAFISK_RECORD_NUMBERS(i), headers.at);
        read_short(log, checked, 1, 0);
        read_short(log, checked, 0, 1);
        printf("canonical %" PRIu64 "\n", (uint64_t)oddrafisk_is_canonical(mode, log.at, consumed));
        free(show_written(answer, 0, records, headers, log).at);
    }
    free(records.at);
    free(headers.at);
    return consumed;
}

static void show_log(struct bytes log) {
    printf("log %zu %" PRIu64 " %" PRIu64 "\n", log.count, (uint64_t)oddrafisk_crc32c(log.at, log.count),
           (uint64_t)oddrafisk_is_canonical(mode, log.at, log.count));
    size_t consumed;
    do {
        consumed = show_batch(log);
        log.at += consumed;
        log.count -= consumed;
    } while (consumed > 0);
}

static void show_write(const char *text) {
    struct numbers asked = taken_numbers(&text), records = taken_numbers(&text), headers = taken_numbers(&text);
    struct bytes source = taken_bytes(text);
    if (asked.count != 1 + ODDRAFISK_ENTRIES) {
        fputs("driver: a codec and sixteen entries are wanted\n", stderr);
        exit(2);
    }
    struct bytes batch = show_written(asked.at + 1, asked.at[0], records, headers, source);
    show_log(batch);
    free(batch.at);
    free(source.at);
    free(headers.at);
    free(records.at);
    free(asked.at);
}

static void show_time(const char *text) {
    struct numbers asked = taken_numbers(&text);
    int64_t time = MARK;
    uint64_t told = oddrafisk_record_time(asked.at[0], asked.at[1], asked.at[2], asked.at[3], &time);
    show_answer("time", told, &time, 1);
    free(asked.at);
}

static void show_own_order(struct bytes log) {
    int64_t base = 0;
    if (log.count < sizeof base) return;
    memcpy(&base, log.at, sizeof base);
    printf("base offset in this processor's own order %" PRId64 "\n", base);
}

static void show_input(const char *line, void (*show_bytes)(struct bytes)) {
    if (strncmp(line, "log ", 4) == 0) {
        struct bytes log = taken_bytes(line + 4);
        show_bytes(log);
        free(log.at);
    } else if (show_bytes == show_log && strncmp(line, "write ", 6) == 0) {
        show_write(line + 6);
    } else if (show_bytes == show_log && strncmp(line, "time ", 5) == 0) {
        show_time(line + 5);
    }
}

int main(int count, char **words) {
    bool own_order = count == 3 && strcmp(words[1], "--own-order") == 0;
    bool bare = count == 3 && strcmp(words[1], "--bare") == 0;
    FILE *file = count == (own_order || bare ? 3 : 2) ? fopen(words[count - 1], "r") : NULL;
    if (file == NULL) {
        fputs("usage: driver [--own-order | --bare] FILE\n", stderr);
        return 2;
    }
    if (bare) mode = ODDRAFISK_BARE;
    if (own_order) {
        const uint16_t one = 1;
        puts(*(const uint8_t *)&one == 1 ? "little-endian" : "big-endian");
    }
    char *line = NULL;
    size_t room = 0;
    while (getline(&line, &room, file) > 0) show_input(line, own_order ? show_own_order : show_log);
    free(line);
    fclose(file);
    return fflush(stdout) == 0 ? 0 : 2;
}
