/* Prints the records of a log, a line each: offset, key and value.
 *
 *     cc -std=c11 example.c $(pkg-config --cflags --libs oddrafisk) -o example
 *     example LOG
 *
 * Where the log cannot be read on, it says the place, the number and its words on standard error and ends with 1. */
#include <oddrafisk.h>

#include <inttypes.h>
#include <stdio.h>
#include <stdlib.h>

/* So many bytes in place of those at `old`, which may be null. They are never null, even where the size is 0. */
static void *room(void *old, size_t size)
{
    void *at = realloc(old, size + 1);
    if (at == NULL) {
        fputs("example: there is no memory\n", stderr);
        exit(EXIT_FAILURE);
    }
    return at;
}

/* The bytes of a file, which the caller frees. */
static uint8_t *file_bytes(const char *name, size_t *count)
{
    enum { PIECE = 65536 };
    FILE *file = fopen(name, "rb");
    uint8_t *bytes = room(NULL, 0);
    size_t more = file != NULL;
    for (*count = 0; more != 0; *count += more) {
        bytes = room(bytes, *count + PIECE);
        more = fread(bytes + *count, 1, PIECE, file);
    }
    if (file == NULL || ferror(file) || fclose(file) != 0) {
        perror(name);
        exit(EXIT_FAILURE);
    }
    return bytes;
}

/* A key or a value, between quotes; what is not plain text in it is shown in hex. */
static void show_span(const uint8_t *bytes, int64_t start, int64_t length)
{
    if (length == -1) {
        fputs(" null", stdout);
        return;
    }
    fputs(" \"", stdout);
    for (const uint8_t *at = bytes + start; at < bytes + start + length; at++)
        printf(*at < ' ' || *at > '~' || *at == '"' || *at == '\\' ? "\\x%02x" : "%c", (unsigned)*at);
    putchar('"');
}

/* A record's offset is the batch's first and the record's delta added up, where 64 bits hold the sum. */
static void show_record(const uint8_t *bytes, int64_t base_offset, const int64_t *row)
{
    int64_t delta = row[ODDRAFISK_RECORD_OFFSET_DELTA];
    if (delta < 0 ? base_offset < INT64_MIN - delta : base_offset > INT64_MAX - delta)
        fputs("none", stdout);
    else
        printf("%" PRId64, base_offset + delta);
    show_span(bytes, row[ODDRAFISK_RECORD_KEY_START], row[ODDRAFISK_RECORD_KEY_LENGTH]);
    show_span(bytes, row[ODDRAFISK_RECORD_VALUE_START], row[ODDRAFISK_RECORD_VALUE_LENGTH]);
    putchar('\n');
}

/* Shows the batch that the bytes begin with, and answers as oddrafisk_check does. A marker has no records. */
static uint32_t show_batch(const uint8_t *bytes, size_t bytes_count, int64_t answer[ODDRAFISK_ENTRIES])
{
    const uint32_t mode = ODDRAFISK_KEYED;
    uint32_t number = oddrafisk_check(mode, bytes, bytes_count, answer);
    if (number != ODDRAFISK_ACCEPTED)
        return number;
    size_t record_numbers = ODDRAFISK_RECORD_NUMBERS(answer[ODDRAFISK_RECORDS]);
    size_t header_numbers = ODDRAFISK_HEADER_NUMBERS(answer[ODDRAFISK_HEADERS]);
    int64_t *records = room(NULL, record_numbers * sizeof *records);
    int64_t *headers = room(NULL, header_numbers * sizeof *headers);
    number = oddrafisk_read(mode, bytes, bytes_count, records, record_numbers, headers, header_numbers, answer);
    for (size_t at = 0; number == ODDRAFISK_ACCEPTED && at < record_numbers; at += ODDRAFISK_RECORD_ROW)
        show_record(bytes, answer[ODDRAFISK_BASE_OFFSET], records + at);
    free(headers);
    free(records);
    return number;
}

int main(int count, char **words)
{
    if (count != 2 || oddrafisk_version() != ODDRAFISK_VERSION) {
        fputs(count == 2 ? "example: it is linked with another version\n" : "usage: example LOG\n", stderr);
        return EXIT_FAILURE;
    }
    const char *name = words[1];
    int64_t answer[ODDRAFISK_ENTRIES];
    size_t bytes_count, place = 0;
    uint8_t *bytes = file_bytes(name, &bytes_count);
    uint32_t number = ODDRAFISK_ACCEPTED;
    while (place < bytes_count && number == ODDRAFISK_ACCEPTED) {
        number = show_batch(bytes + place, bytes_count - place, answer);
        if (number == ODDRAFISK_ACCEPTED)
            place += (size_t)answer[ODDRAFISK_BYTES];
    }
    free(bytes);
    if (number != ODDRAFISK_ACCEPTED)
        fprintf(stderr, "%s: stopped at %zu by number %" PRIu32 ": %s\n", name, place, number, oddrafisk_words(number));
    return number == ODDRAFISK_ACCEPTED && fflush(stdout) == 0 ? EXIT_SUCCESS : EXIT_FAILURE;
}
