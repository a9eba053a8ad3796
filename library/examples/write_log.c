/* Writes a log that RocksDB opens: a batch, a group of two batches, and a batch of many blocks.

   write_log LOG [NUMBER]

   The library makes the bytes of each record. The file is this program's own: it writes them at the file's end, and
   syncs the file before it says that a record is safe, and once its folder. LOG must be new. */
#include "wolzenn.h"

#include <fcntl.h>
#include <inttypes.h>
#include <stdio.h>
#include <stdlib.h>
#include <string.h>
#include <unistd.h>

/* A log that is written: its file, its number, where it ends, and the sequence of its next batch. */
typedef struct {
    int file;
    uint32_t number;
    uint64_t offset;
    uint64_t sequence;
} log_file;

static void check(int is_well, const char *what) {
    if (is_well) return;
    fprintf(stderr, "write_log: %s\n", what);
    exit(1);
}

static uint8_t *room_for(size_t len) {
    uint8_t *bytes = malloc(len + 1);
    check(bytes != NULL, "no memory");
    return bytes;
}

static void put(wz_batch *batch, const char *key, const char *value) {
    check(wz_batch_put(batch, key, strlen(key), value, strlen(value)) == WZ_DONE, "a put");
}

/* The bytes of a batch, which the caller frees. */
static uint8_t *bytes_of_batch(wz_batch *batch, size_t *len) {
    check(wz_batch_len(batch, len) == WZ_DONE, "a length");
    uint8_t *bytes = room_for(*len);
    check(wz_batch_bytes(batch, bytes, *len) == WZ_DONE, "the bytes of a batch");
    return bytes;
}

/* Writes a batch as the next record of the log, with the next sequences, and syncs the file. */
static void commit(log_file *log, wz_batch *batch) {
    wz_batch_head head;
    size_t len, text_len;
    check(wz_batch_set_sequence(batch, log->sequence) == WZ_DONE && wz_batch_get(batch, &head) == WZ_DONE,
          "a sequence");
    uint8_t *record = bytes_of_batch(batch, &len);
    size_t room = wz_log_record_len(log->number, log->offset, len);
    uint8_t *text = room_for(room);
    check(wz_log_record(log->number, log->offset, record, len, text, room, &text_len) == WZ_DONE, "a record");
    for (size_t done = 0; done < text_len;) {
        ssize_t more = write(log->file, text + done, text_len - done);
        check(more > 0, "the log can't be written: truncate it at the end of its last record");
        done += (size_t)more;
    }
    check(fsync(log->file) == 0, "the log can't be synced");
    log->offset += text_len;
    log->sequence += head.count;
    printf("safe up to sequence %" PRIu64 ", %" PRIu64 " bytes\n", log->sequence - 1, log->offset);
    free(text);
    free(record);
}

/* Makes the file's entry in its folder safe, which the file's own sync doesn't do. */
static void sync_folder(const char *path) {
    const char *slash = strrchr(path, '/');
    char *folder = (char *)room_for(strlen(path) + 1);
    strcpy(folder, slash == NULL ? "." : path);
    if (slash != NULL) folder[slash - path + 1] = 0;
    int file = open(folder, O_RDONLY);
    check(file >= 0 && fsync(file) == 0 && close(file) == 0, "the log's folder can't be synced");
    free(folder);
}

int main(int argc, char **argv) {
    check(argc > 1, "write_log LOG [NUMBER]");
    log_file log = {open(argv[1], O_WRONLY | O_CREAT | O_EXCL, 0666), 0, 0, 1};
    check(log.file >= 0, "the log can't be made");
    if (argc > 2) log.number = (uint32_t)strtoul(argv[2], NULL, 10);
    sync_folder(argv[1]);

    /* A batch of three records, of which two count: log data takes no sequence. */
    wz_batch batch = WZ_HANDLE_INIT;
    check(wz_batch_new(&batch) == WZ_DONE, "no memory");
    put(&batch, "apple", "red");
    put(&batch, "plum", "blue");
    check(wz_batch_log_data(&batch, "a note", 6) == WZ_DONE, "a note");
    commit(&log, &batch);

    /* A group: two batches, as two clients may have built them, which go into the log as one record. */
    wz_batch first = WZ_HANDLE_INIT, second = WZ_HANDLE_INIT;
    check(wz_batch_new(&first) == WZ_DONE && wz_batch_new(&second) == WZ_DONE, "no memory");
    put(&first, "apple", "green");
    check(wz_batch_delete(&second, "plum", 4) == WZ_DONE, "a deletion");
    put(&second, "pear", "");
    check(wz_batch_clear(&batch) == WZ_DONE, "a batch is emptied");
    wz_batch *members[] = {&first, &second};
    for (size_t i = 0; i < 2; i++) {
        size_t len;
        uint8_t *bytes = bytes_of_batch(members[i], &len);
        check(wz_batch_append(&batch, bytes, len) == WZ_DONE, "a member");
        free(bytes);
    }
    commit(&log, &batch);

    /* A value of three blocks, so that the record has several fragments. */
    char *value = memset(room_for(100000), 'v', 100000);
    value[100000] = 0;
    check(wz_batch_clear(&batch) == WZ_DONE, "a batch is emptied");
    put(&batch, "quince", value);
    check(wz_batch_single_delete(&batch, "pear", 4) == WZ_DONE, "a single deletion");
    commit(&log, &batch);

    free(value);
    wz_batch_close(&first);
    wz_batch_close(&second);
    wz_batch_close(&batch);
    check(close(log.file) == 0, "the log can't be closed");
    return 0;
}
