/* Prints a log of RocksDB or LevelDB: where each record is, and what the batch in it does.

   print_log LOG [NUMBER]

   NUMBER is the log's own, where its fragments have one. Operations of every kind are printed, with their strings in
   hexadecimal, `-` for none, after the number of the column family that they name. The last line says where reading
   ended, and for which of the reasons of docs/RECOVERY.md, with its two numbers. */
#include "wolzenn.h"

#include <inttypes.h>
#include <stdbool.h>
#include <stdio.h>
#include <stdlib.h>

static void print_bytes(const uint8_t *bytes, size_t len) {
    printf(" ");
    for (size_t i = 0; i < len; i++) printf("%02x", bytes[i]);
    if (len == 0) printf("-");
}

/* What an operation of each tag is called, and whether it names a family. */
static const struct {
    const char *word;
    bool names_family;
} KINDS[] = {
    [WZ_TAG_DELETION] = {"del", false},
    [WZ_TAG_VALUE] = {"put", false},
    [WZ_TAG_MERGE] = {"merge", false},
    [WZ_TAG_LOG_DATA] = {"note", false},
    [WZ_TAG_DELETION_CF] = {"del", true},
    [WZ_TAG_VALUE_CF] = {"put", true},
    [WZ_TAG_MERGE_CF] = {"merge", true},
    [WZ_TAG_SINGLE_DELETION] = {"sdel", false},
    [WZ_TAG_SINGLE_DELETION_CF] = {"sdel", true},
    [WZ_TAG_BEGIN_PREPARE] = {"beginprepare", false},
    [WZ_TAG_END_PREPARE] = {"endprepare", false},
    [WZ_TAG_COMMIT] = {"commit", false},
    [WZ_TAG_ROLLBACK] = {"rollback", false},
    [WZ_TAG_NOTHING] = {"noop", false},
    [WZ_TAG_RANGE_DELETION_CF] = {"deleterange", true},
    [WZ_TAG_RANGE_DELETION] = {"deleterange", false},
    [WZ_TAG_BLOB_INDEX_CF] = {"blobindex", true},
    [WZ_TAG_BLOB_INDEX] = {"blobindex", false},
    [WZ_TAG_BEGIN_PERSISTED_PREPARE] = {"beginpersistedprepare", false},
    [WZ_TAG_BEGIN_UNPREPARE] = {"beginunprepare", false},
    [WZ_TAG_COMMIT_WITH_TIMESTAMP] = {"committimestamp", false},
    [WZ_TAG_WIDE_COLUMNS] = {"putentity", false},
    [WZ_TAG_WIDE_COLUMNS_CF] = {"putentity", true},
    [WZ_TAG_VALUE_WITH_TIME] = {"timedput", false},
    [WZ_TAG_VALUE_WITH_TIME_CF] = {"timedput", true},
};

/* Prints what the batch of a record says of itself, and its operations, up to the first that can't be read. */
static void print_batch(const uint8_t *bytes, size_t len) {
    wz_batch_head head;
    wz_end why;
    wz_operation found;
    uint64_t sequences = 0;
    wz_code code = wz_batch_read_head(bytes, len, &head);
    if (code == WZ_DONE) printf("  batch %" PRIu64 " %" PRIu32 "\n", head.sequence, head.count);
    size_t at = WZ_BATCH_HEADER_LEN;
    while (code == WZ_DONE && (code = wz_operation_next(bytes, len, &at, &found, &why)) == WZ_DONE) {
        printf("  %s", KINDS[found.tag].word);
        if (KINDS[found.tag].names_family) printf(" %" PRIu32, found.family);
        if (found.strings > 0) print_bytes(bytes + found.first_at, found.first_len);
        if (found.strings > 1) print_bytes(bytes + found.second_at, found.second_len);
        printf("\n");
        sequences += found.sequences;
    }
    if (code == WZ_NO_BATCH) printf("  no batch: %s\n", len < WZ_BATCH_HEADER_LEN ? "short" : wz_why_text(why.why));
    else if (sequences != head.count) printf("  no batch: count\n");
}

/* The whole file in memory, or null. */
static uint8_t *read_file(const char *path, size_t *len) {
    FILE *file = fopen(path, "rb");
    uint8_t *bytes = NULL;
    size_t room = 0, more = 1;
    for (*len = 0; file != NULL && more > 0; *len += more) {
        if (room - *len < 65536) {
            uint8_t *grown = realloc(bytes, room = room * 2 + 65536);
            if (grown == NULL) break;
            bytes = grown;
        }
        more = fread(bytes + *len, 1, room - *len, file);
    }
    int failed = file == NULL || more > 0 || ferror(file);
    if (file != NULL) fclose(file);
    if (failed) free(bytes);
    return failed ? NULL : bytes;
}

int main(int argc, char **argv) {
    if (argc < 2) return fprintf(stderr, "print_log LOG [NUMBER]\n"), 2;
    size_t len;
    uint8_t *log = read_file(argv[1], &len);
    if (log == NULL) return fprintf(stderr, "print_log: the log can't be read\n"), 2;

    wz_reader reader = WZ_HANDLE_INIT;
    wz_record record;
    wz_end end;
    wz_code code = wz_reader_open(&reader, argc > 2 ? (uint32_t)strtoul(argv[2], NULL, 10) : 0);
    while (code == WZ_DONE && (code = wz_reader_next(&reader, log, len, &record, &end)) == WZ_DONE) {
        printf("record %" PRIu64 " %" PRIu64 "\n", record.start, record.end);
        uint8_t *bytes = malloc(record.len);
        if (bytes == NULL && record.len > 0) code = WZ_NO_MEMORY;
        if (code == WZ_DONE) code = wz_reader_record(&reader, bytes, record.len);
        if (code == WZ_DONE) print_batch(bytes, record.len);
        free(bytes);
    }
    if (code == WZ_END) printf("end %" PRIu64 " %s", end.at, wz_why_text(end.why));
    if (code == WZ_END) printf(" %" PRIu64 " %" PRIu64 "\n", end.first, end.second);
    wz_reader_close(&reader);
    free(log);
    return code == WZ_END ? 0 : 1;
}
