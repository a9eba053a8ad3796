/* Follows a log of RocksDB or LevelDB while another program writes it, as `run` does: prints each batch from a sequence
   on, once, when it is in the log whole. Where bytes are damaged it goes on with the next record that reads.

   follow_log LOG SINCE [NUMBER]

   NUMBER is the log's own, where its fragments have one. A line `record` has where the record is, and its batch's
   sequence and count. `unread FROM TO` is before a record that comes after damage, and says where no record reads, and
   for which of the reasons of docs/RECOVERY.md; what follows it may be of another history. It ends where no record has
   come for a second, and says where and why no more was read; or at once if the log was cut before the end of the last
   record. What is not synced yet may be lost in a crash, also after it was printed here.

   Only the bytes up to the end of the last record are kept, and those after it are read anew each time, also where the
   file is as long as before: a program that resumes the log cuts off an incomplete record, and one that writes a log
   over an older file doesn't make it longer. What is read first may be older than what is read last. So that no record
   reads in a stretch counts only once it was read a second time: then all that was written before the next record is
   there. */
#define _POSIX_C_SOURCE 200809L
#include "wolzenn.h"

#include <fcntl.h>
#include <inttypes.h>
#include <stdio.h>
#include <stdlib.h>
#include <sys/stat.h>
#include <time.h>
#include <unistd.h>

enum { PAUSE_MS = 20, QUIET_MS = 1000, PIECE = 65536 };

/* The log so far; where its last record ended, and when that was found; where the next record began when a stretch
   before it was seen for the first time; where and why no more was read; and what is asked for. */
typedef struct {
    int file;
    uint8_t *bytes;
    size_t len, room;
    uint64_t place, seen, since;
    int64_t found_at;
    wz_end end;
    uint32_t number;
} followed;

static int64_t now_ms(void) {
    struct timespec now;
    clock_gettime(CLOCK_MONOTONIC, &now);
    return (int64_t)now.tv_sec * 1000 + now.tv_nsec / 1000000;
}

/* Reads anew what the file has after the last record. Answers what is wrong, or null. */
static const char *read_rest(followed *log) {
    struct stat file;
    log->len = log->place;
    for (ssize_t more = 1; more > 0; log->len += (size_t)more) {
        if (log->room - log->len < PIECE) {
            uint8_t *grown = realloc(log->bytes, log->room * 2 + PIECE);
            if (grown == NULL) return "there is no memory";
            log->bytes = grown;
            log->room = log->room * 2 + PIECE;
        }
        more = pread(log->file, log->bytes + log->len, log->room - log->len, (off_t)log->len);
        if (more < 0) return "the log can't be read";
    }
    if (fstat(log->file, &file) != 0) return "the log can't be read";
    return (uint64_t)file.st_size < log->place ? "the log was cut before the end of the last record" : NULL;
}

/* Prints the record that was found last, if it is a batch that is asked for, or none. */
static wz_code print_record(const followed *log, wz_scan *scan, wz_record record) {
    wz_batch_head head;
    wz_end why;
    uint8_t *bytes = malloc(record.len);
    if (bytes == NULL && record.len > 0) return WZ_NO_MEMORY;
    wz_code code = wz_scan_record(scan, bytes, record.len);
    if (code == WZ_DONE) code = wz_batch_read(bytes, record.len, &head, &why);
    free(bytes);
    if (code != WZ_DONE && code != WZ_NO_BATCH) return code;
    if (code == WZ_DONE && (head.count == 0 || head.sequence + (head.count - 1) < log->since)) return WZ_DONE;
    printf("record %" PRIu64 " %" PRIu64, record.start, record.end);
    if (code == WZ_DONE) printf("  batch %" PRIu64 " %" PRIu32 "\n", head.sequence, head.count);
    if (code == WZ_NO_BATCH) printf("  no batch: %s\n", wz_why_text(why.why));
    return WZ_DONE;
}

/* Prints the records after the last one. Answers WZ_END once there are no more, and WZ_UNREAD before a stretch that is
   to be read a second time. */
static wz_code print_more(followed *log) {
    wz_scan scan = WZ_HANDLE_INIT;
    wz_record record;
    wz_unread unread;
    wz_code code = wz_scan_open_at(&scan, log->number, log->place, log->bytes, log->len);
    while (code == WZ_DONE) {
        code = wz_scan_next(&scan, log->bytes, log->len, &record, &unread, &log->end);
        if ((code != WZ_DONE && code != WZ_UNREAD) || (code == WZ_UNREAD && unread.to != log->seen)) break;
        if (code == WZ_UNREAD)
            printf("unread %" PRIu64 " %" PRIu64 " %s\n", unread.from, unread.to, wz_why_text(unread.end.why));
        code = print_record(log, &scan, record);
        log->place = record.end;
        log->found_at = now_ms();
    }
    if (code == WZ_UNREAD) log->seen = unread.to;
    fflush(stdout);
    wz_scan_close(&scan);
    return code;
}

int main(int argc, char **argv) {
    if (argc < 3) return fprintf(stderr, "follow_log LOG SINCE [NUMBER]\n"), 2;
    followed log = {.file = open(argv[1], O_RDONLY), .found_at = now_ms(), .end = {.why = WZ_WHY_CLEAN}};
    log.since = strtoull(argv[2], NULL, 10);
    log.number = argc > 3 ? (uint32_t)strtoul(argv[3], NULL, 10) : 0;

    const char *wrong = NULL;
    wz_code code = WZ_END;
    while (wrong == NULL && (code == WZ_UNREAD || (code == WZ_END && now_ms() - log.found_at < QUIET_MS))) {
        struct timespec pause = {0, PAUSE_MS * 1000000L};
        if (code == WZ_END) nanosleep(&pause, NULL);
        wrong = read_rest(&log);
        if (wrong == NULL) code = print_more(&log);
    }
    if (wrong == NULL && code != WZ_END) wrong = wz_code_text(code);
    if (wrong == NULL) printf("end %" PRIu64 " %s\n", log.end.at, wz_why_text(log.end.why));
    else fprintf(stderr, "follow_log: %s\n", wrong);
    if (log.file >= 0) close(log.file);
    free(log.bytes);
    return wrong == NULL ? 0 : 1;
}
