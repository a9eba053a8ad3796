/* Writes what is whole in damaged logs of RocksDB or LevelDB as a new log, which opens in the strictest mode.

   salvage_log LOG.. NEW [--number N]

   Each record that a scan of a LOG finds, also after damage, is written to NEW as it is, in the order of the files, if
   it is a whole batch: all its operations are of kinds that RocksDB writes, and as many take a sequence as it says. N
   is the LOGs' number, where their fragments have one; if it isn't given, it is that of a LOG's first header. In NEW
   they have none. A LOG is only read. NEW must be new: it is called NEW.part until it is whole and synced.

   For each LOG it prints `unread FROM TO AT REASON` for a stretch before a record in which none reads, `left START END
   REASON` for a record that isn't written, and where and why no more was read; and last how many records are written
   and are left out, and the stretches and bytes that don't read. What follows damage may be of another history. The
   status is 3 if a LOG can't be read or NEW can't be written; 7 if NEW or NEW.part is there; and 8 if nothing was
   written, since a LOG is compressed, or not one of its fragments reads: it is no log, or encrypted. */
#define _POSIX_C_SOURCE 200809L
#include "wolzenn.h"

#include <errno.h>
#include <fcntl.h>
#include <inttypes.h>
#include <libgen.h>
#include <stdbool.h>
#include <stdio.h>
#include <stdlib.h>
#include <string.h>
#include <sys/stat.h>
#include <unistd.h>

/* NEW.part, how many bytes it has, and what is counted. */
typedef struct {
    FILE *file;
    uint64_t len, kept, left, stretches, unread;
} salvage;

static int stop(int status, const char *path, const char *why) {
    return fprintf(stderr, "salvage_log: %s: %s\n", path, why), status;
}

static int stop_by_system(const char *path) {
    return stop(errno == EEXIST ? 7 : 3, path, strerror(errno));
}

/* Prints a reason of docs/RECOVERY.md, with its numbers. */
static void print_reason(wz_end end) {
    printf(" %s", wz_why_text(end.why));
    bool has_two = end.why == WZ_WHY_COUNT;
    bool has_one = has_two || end.why == WZ_WHY_BAD_TYPE || end.why == WZ_WHY_OLD_LOG || end.why == WZ_WHY_TAG;
    if (has_one) printf(" %" PRIu64, end.first);
    if (has_two) printf(" %" PRIu64, end.second);
    printf("\n");
}

/* Whether the fragment at the start of a block reads. */
static bool reads_at(const uint8_t *log, size_t len, uint32_t number, uint64_t place) {
    wz_reader reader = WZ_HANDLE_INIT;
    wz_record record;
    wz_end end;
    wz_code code = wz_reader_open_at(&reader, number, place, log, len);
    if (code == WZ_DONE) code = wz_reader_next(&reader, log, len, &record, &end);
    wz_reader_close(&reader);
    return code != WZ_END || end.at > place || end.why == WZ_WHY_UNFINISHED || end.why == WZ_WHY_BAD_ORDER;
}

static uint32_t number_in(const uint8_t *bytes) {
    return bytes[0] | (uint32_t)bytes[1] << 8 | (uint32_t)bytes[2] << 16 | (uint32_t)bytes[3] << 24;
}

/* Whether RocksDB has compressed the log: its first fragment, of the kind 9, says so. */
static bool is_compressed(const uint8_t *log, size_t len) {
    if (len < 7 || log[6] != 9) return false;
    size_t end = 7 + (log[4] | (size_t)log[5] << 8);
    return end <= len && end <= WZ_BLOCK_LEN && number_in(log) == wz_crc32c_mask(wz_crc32c(log + 6, end - 6));
}

/* The number in the log's first header, if it has one and a fragment reads there with it, otherwise 0. */
static uint32_t number_of(const uint8_t *log, size_t len) {
    if (len < 11 || log[6] < 5 || log[6] > 8) return 0;
    return reads_at(log, len, number_in(log + 7), 0) ? number_in(log + 7) : 0;
}

/* Whether a record is a whole batch of known operations; otherwise *why says why not. */
static bool is_whole(const uint8_t *bytes, size_t len, wz_end *why) {
    wz_batch_head head;
    wz_operation found;
    uint64_t sequences = 0;
    size_t at = WZ_BATCH_HEADER_LEN;
    *why = (wz_end){.why = WZ_WHY_SHORT};
    wz_code code = wz_batch_read_head(bytes, len, &head);
    while (code == WZ_DONE && (code = wz_operation_next(bytes, len, &at, &found, why)) == WZ_DONE)
        sequences += found.sequences;
    if (code == WZ_END) *why = (wz_end){.why = WZ_WHY_COUNT, .first = head.count, .second = sequences};
    return code == WZ_END && sequences == head.count;
}

/* Writes the record that was found last, if it is a whole batch. */
static wz_code add_record(salvage *new, wz_scan *scan, wz_record record) {
    wz_end why;
    size_t room = wz_log_record_len(0, new->len, record.len), len = 0;
    uint8_t *bytes = malloc(record.len + 1), *text = malloc(room + 1);
    wz_code code = bytes == NULL || text == NULL ? WZ_NO_MEMORY : wz_scan_record(scan, bytes, record.len);
    if (code == WZ_DONE && is_whole(bytes, record.len, &why)) {
        code = wz_log_record(0, new->len, bytes, record.len, text, room, &len);
        new->len += fwrite(text, 1, len, new->file);
        new->kept++;
    } else if (code == WZ_DONE) {
        printf("left %" PRIu64 " %" PRIu64, record.start, record.end), print_reason(why);
        new->left++;
    }
    free(text);
    free(bytes);
    return code;
}

/* Adds the whole batches of a log. Answers the status. */
static int add_log(salvage *new, const char *path, const uint8_t *log, size_t len, uint32_t number) {
    wz_scan scan = WZ_HANDLE_INIT;
    wz_record record;
    wz_unread unread;
    wz_end end;
    uint64_t before = new->kept + new->left;
    printf("log %s\n", path);
    if (is_compressed(log, len)) return stop(8, path, "it is compressed, which RocksDB reads, and this doesn't");
    wz_code code = wz_scan_open_at(&scan, number, 0, log, len);
    while (code == WZ_DONE) {
        code = wz_scan_next(&scan, log, len, &record, &unread, &end);
        if (code == WZ_UNREAD) {
            printf("unread %" PRIu64 " %" PRIu64 " %" PRIu64, unread.from, unread.to, unread.end.at);
            print_reason(unread.end);
            new->stretches++;
            new->unread += unread.to - unread.from;
        }
        if (code == WZ_DONE || code == WZ_UNREAD) code = add_record(new, &scan, record);
    }
    wz_scan_close(&scan);
    if (code != WZ_END) return stop(3, path, wz_code_text(code));
    printf("end %" PRIu64, end.at), print_reason(end);
    bool reads = len == 0 || new->kept + new->left > before;
    for (size_t at = 0; !reads && at < len; at += WZ_BLOCK_LEN) reads = reads_at(log, len, number, at);
    return reads ? 0 : stop(8, path, "not one fragment reads: it is no log, or encrypted, or has another number");
}

/* The whole file in memory, or null. */
static uint8_t *read_file(const char *path, size_t *len) {
    struct stat about = {.st_size = 0};
    FILE *file = fopen(path, "rb");
    bool is_there = file != NULL && fstat(fileno(file), &about) == 0 && S_ISREG(about.st_mode);
    uint8_t *bytes = is_there ? malloc((size_t)about.st_size + 1) : NULL;
    *len = bytes == NULL ? 0 : fread(bytes, 1, (size_t)about.st_size, file);
    bool is_read = file != NULL && !ferror(file);
    if (file != NULL) fclose(file);
    if (!is_read) free(bytes);
    return is_read ? bytes : NULL;
}

int main(int argc, char **argv) {
    bool is_given = argc > 2 && strcmp(argv[argc - 2], "--number") == 0;
    int last = argc - (is_given ? 3 : 1), status = 0;
    if (last < 2) return fprintf(stderr, "salvage_log LOG.. NEW [--number N]\n"), 2;
    uint32_t given = is_given ? (uint32_t)strtoul(argv[argc - 1], NULL, 10) : 0;
    char part[4096];
    snprintf(part, sizeof part, "%s.part", argv[last]);
    salvage new = {.file = fopen(part, "wbx")};
    if (new.file == NULL) return stop_by_system(part);

    for (int i = 1; status == 0 && i < last; i++) {
        size_t len;
        uint8_t *log = read_file(argv[i], &len);
        if (log == NULL) status = stop(3, argv[i], "it can't be read");
        else status = add_log(&new, argv[i], log, len, is_given ? given : number_of(log, len));
        free(log);
    }
    bool is_written = status == 0 && fflush(new.file) == 0 && !ferror(new.file) && fsync(fileno(new.file)) == 0;
    if (status == 0 && !is_written) status = stop_by_system(part);
    if (status == 0 && link(part, argv[last]) != 0) status = stop_by_system(argv[last]);
    fclose(new.file);
    unlink(part);
    /* Makes the file's entry in its folder safe, which the file's own sync doesn't do. */
    int folder = status == 0 ? open(dirname(part), O_RDONLY) : -1;
    if (status == 0 && (folder < 0 || fsync(folder) != 0)) status = stop_by_system(part);
    if (folder >= 0) close(folder);
    if (status == 0) printf("kept %" PRIu64 " left %" PRIu64, new.kept, new.left);
    if (status == 0) printf(" unread %" PRIu64 " %" PRIu64 "\n", new.stretches, new.unread);
    return status;
}
