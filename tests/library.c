// Calls the library, for `library` in this folder.
//
//     library answer   reads lines and prints what the library says to each:
//                      `log NUMBER MODE HEX`         all that reading and recovering a log tells, and its batches
//                      `logs MODE NUMBER:HEX,..`     what logs recover one after another
//                      `text NUMBER OFFSET HEX`      a record's bytes of a log
//                      `batch`                       a new batch, to which the next lines are said:
//                      `put HEX HEX`, `del HEX`, `sdel HEX`, `note HEX`, `append HEX`, `seq N`, `clear`
//                      `crc N HEX`                   the checksum, as it goes on from N, and the masked one
//     library calls    the answers at the edges of each function, also those that change nothing
//     library memory   reads one line `log ..`, and has each allocation of a reading, a recovery and a batch refused
//                      in turn: the answer is WZ_NO_MEMORY, what was there stays, and nothing is lost
//
// `-` means no bytes, where hexadecimal is read. Each buffer has just the bytes that are asked for, and a mark after
// them, so that a write past its end is seen. `calls` and `memory` print nothing where all is well. It is linked with
// `-Wl,--wrap=malloc,--wrap=realloc,--wrap=free`, and counts the blocks that are held.

// One type for all handles, so that a handle can be of another kind than a function works on.
#define WZ_OLD_NAMES
#include "wolzenn.h"

#include <inttypes.h>
#include <stdio.h>
#include <stdlib.h>
#include <string.h>

void *__real_malloc(size_t len);
void *__real_realloc(void *block, size_t len);
void __real_free(void *block);

// How many allocations are still granted, where these are counted, and how many blocks are held.
static long granted = -1, held = 0;

static int is_refused(void) {
    return granted >= 0 && granted-- == 0;
}

void *__wrap_malloc(size_t len) {
    void *block = is_refused() ? NULL : __real_malloc(len);
    held += block != NULL;
    return block;
}

void *__wrap_realloc(void *old, size_t len) {
    void *block = is_refused() ? NULL : __real_realloc(old, len);
    held += block != NULL && old == NULL;
    return block;
}

void __wrap_free(void *block) {
    held -= block != NULL;
    __real_free(block);
}

static void wanted(int holds, int line, const char *what) {
    if (holds) return;
    printf("line %d: %s\n", line, what);
    exit(1);
}

#define WANTED(holds) wanted((holds) != 0, __LINE__, #holds)

// Bytes that are ours, with a mark after them.
typedef struct {
    uint8_t *at;
    size_t len;
} bytes;

enum { MARK = 0xA5 };

static bytes room_for(size_t len) {
    bytes made = {malloc(len + 1), len};
    WANTED(made.at != NULL);
    memset(made.at, MARK, len + 1);
    return made;
}

static void done_with(bytes it) {
    WANTED(it.at[it.len] == MARK);
    free(it.at);
}

static int digit_of(char digit) {
    return digit <= '9' ? digit - '0' : digit - 'a' + 10;
}

static bytes bytes_of_hex(const char *hex) {
    size_t len = hex[0] == '-' ? 0 : strcspn(hex, ",") / 2;
    bytes made = room_for(len);
    for (size_t i = 0; i < len; i++) made.at[i] = (uint8_t)(digit_of(hex[2 * i]) << 4 | digit_of(hex[2 * i + 1]));
    return made;
}

static void print_hex(const uint8_t *at, size_t len) {
    for (size_t i = 0; i < len; i++) printf("%02x", at[i]);
    if (len == 0) printf("-");
}

static void print_end(wz_end end) {
    printf("%" PRIu64 " %" PRIu32 " %" PRIu64 " %" PRIu64 "\n", end.at, end.why, end.first, end.second);
}

// What the header of a batch's bytes says, and of which kinds its operations are.
static void print_operations(const uint8_t *at, size_t len) {
    wz_batch_head head = {0, 0};
    wz_end why = {0, 0, 0, 0};
    wz_operation found;
    size_t place = WZ_BATCH_HEADER_LEN;
    uint32_t code = wz_batch_read_head(at, len, &head);
    printf("head %" PRIu32 " %" PRIu64 " %" PRIu32 "\n", code, head.sequence, head.count);
    while ((code = wz_operation_next(at, len, &place, &found, &why)) == WZ_DONE) {
        printf("operation %" PRIu32 " %" PRIu32 " %" PRIu32 " ", found.tag, found.family, found.sequences);
        printf("%" PRIu32 " %zu %zu ", found.strings, found.first_at, found.first_len);
        printf("%zu %zu\n", found.second_at, found.second_len);
    }
    printf("operations %" PRIu32 " %zu ", code, place);
    print_end(why);
}

// What the library says of a batch's bytes, whatever they are: of all of them, and of each record up to where there is
// none.
static void print_batch(const uint8_t *at, size_t len) {
    wz_batch_head head = {0, 0};
    wz_end why = {0, 0, 0, 0};
    wz_op op;
    size_t place = WZ_BATCH_HEADER_LEN;
    uint32_t code = wz_batch_read(at, len, &head, &why);
    printf("batch %" PRIu32 " %" PRIu64 " %" PRIu32 " ", code, head.sequence, head.count);
    print_end(why);
    while ((code = wz_batch_next(at, len, &place, &op, &why)) == WZ_DONE) {
        printf("op %" PRIu32 " %" PRIu32 " %zu %zu ", op.kind, op.family, op.key_at, op.key_len);
        printf("%zu %zu\n", op.value_at, op.value_len);
    }
    printf("ops %" PRIu32 " %zu ", code, place);
    print_end(why);
    print_operations(at, len);
}

static bool is_same_end(wz_end one, wz_end other) {
    return one.at == other.at && one.why == other.why && one.first == other.first && one.second == other.second;
}

// Reads the next record that isn't a batch which takes no sequence or ends before this one.
static uint32_t next_unskipped(wz_handle *reader, uint64_t since, bytes log, wz_record *record, wz_end *end) {
    bool is_skipped = true;
    uint32_t code = WZ_DONE;
    while (is_skipped && (code = wz_reader_next(reader, log.at, log.len, record, end)) == WZ_DONE) {
        bytes found = room_for(record->len);
        wz_batch_head head;
        wz_end why;
        WANTED(wz_reader_record(reader, found.at, record->len) == WZ_DONE);
        bool is_batch = wz_batch_read(found.at, found.len, &head, &why) == WZ_DONE;
        is_skipped = is_batch && (head.count == 0 || (head.sequence <= since && head.count <= since - head.sequence));
        done_with(found);
    }
    return code;
}

// From a sequence on the library reads what is left when the batches before it are skipped here.
static void check_since(uint32_t number, uint64_t since, bytes log) {
    wz_handle one = WZ_HANDLE_INIT, other = WZ_HANDLE_INIT;
    wz_record left = {0, 0, 0}, record = {0, 0, 0};
    wz_end end = {0, 0, 0, 0}, again = {0, 0, 0, 0};
    WANTED(wz_reader_open(&one, number) == WZ_DONE && wz_reader_open(&other, number) == WZ_DONE);
    uint32_t code = WZ_DONE;
    while (code == WZ_DONE) {
        code = next_unskipped(&one, since, log, &left, &end);
        WANTED(wz_reader_next_since(&other, since, log.at, log.len, &record, &again) == code);
        WANTED(code != WZ_DONE || (record.start == left.start && record.end == left.end && record.len == left.len));
    }
    WANTED(code == WZ_END && is_same_end(again, end));
    wz_close(&one);
    wz_close(&other);
}

// How far the log is kept, without its pairs. It is the same in two steps, by what there was of the log before.
static void answer_place(uint32_t number, bytes log) {
    wz_place place = {0, 0}, step = {0, 0};
    wz_end end = {0, 0, 0, 0}, again = {0, 0, 0, 0};
    uint32_t code = wz_recover_place(number, log.at, log.len, &place, &end);
    printf("place %" PRIu32 " %" PRIu64 " %" PRIu64 " ", code, place.at, place.last);
    print_end(end);
    for (size_t len = log.len / 2; len <= log.len; len += log.len - len > 9 ? (log.len - len) / 2 : 1) {
        bytes front = room_for(len);
        memcpy(front.at, log.at, len);
        WANTED(wz_recover_place(number, front.at, front.len, &step, &again) == WZ_DONE && step.at <= len);
        done_with(front);
    }
    WANTED(step.at == place.at && step.last == place.last && is_same_end(again, end));
    step.at = log.len + 1;
    again.at = 55;
    WANTED(wz_recover_place(number, log.at, log.len, &step, &again) == WZ_RANGE);
    WANTED(step.at == log.len + 1 && step.last == place.last && again.at == 55);
}

static bool is_same_unread(wz_unread one, wz_unread other) {
    return one.from == other.from && one.to == other.to && is_same_end(one.end, other.end);
}

// What a scan has found: the stretch before a record, if it answered that there is one, and the record.
static void print_found(wz_handle *scan, uint32_t code, wz_record record, wz_unread unread) {
    bytes found = room_for(record.len);
    if (record.len > 0) WANTED(wz_scan_record(scan, found.at, record.len - 1) == WZ_SMALL && found.at[0] == MARK);
    WANTED(wz_scan_record(scan, found.at, record.len) == WZ_DONE);
    if (code == WZ_UNREAD) {
        printf("unread %" PRIu64 " %" PRIu64 " ", unread.from, unread.to);
        print_end(unread.end);
    }
    printf("found %" PRIu64 " %" PRIu64 " ", record.start, record.end);
    print_hex(found.at, found.len);
    printf("\n");
    done_with(found);
}

// Each record is found too by a scan from the end of the one before it.
static void check_scan_from(uint32_t number, bytes log, uint64_t place, uint32_t code, wz_record record, wz_end end) {
    wz_handle scan = WZ_HANDLE_INIT;
    wz_record other = {0, 0, 0};
    wz_unread unread = {0, 0, {0, 0, 0, 0}};
    wz_end again = {0, 0, 0, 0};
    WANTED(wz_scan_open_at(&scan, number, place, log.at, log.len) == WZ_DONE);
    WANTED(wz_scan_next(&scan, log.at, log.len, &other, &unread, &again) == code);
    if (code == WZ_END) WANTED(is_same_end(again, end));
    if (code != WZ_END) WANTED(other.start == record.start && other.end == record.end && other.len == record.len);
    if (code == WZ_UNREAD) WANTED(unread.from == place && unread.to == record.start);
    wz_close(&scan);
}

// All that a scan finds of the log, and where it ends.
static void answer_scan(uint32_t number, bytes log) {
    wz_handle scan = WZ_HANDLE_INIT;
    wz_record record = {0, 0, 0};
    wz_unread unread = {1, 2, {3, 4, 5, 6}}, old = unread;
    wz_end end = {1, 2, 3, 4}, again = {0, 0, 0, 0};
    uint8_t byte = MARK;
    uint64_t place = 0;
    uint32_t code;
    WANTED(wz_scan_open_at(&scan, number, log.len + 1, log.at, log.len) == WZ_RANGE);
    WANTED(wz_scan_next(&scan, log.at, log.len, &record, &unread, &end) == WZ_CLOSED);
    WANTED(wz_scan_open_at(&scan, number, 0, log.at, log.len) == WZ_DONE);
    WANTED(wz_scan_record(&scan, &byte, 1) == WZ_END && byte == MARK);
    while ((code = wz_scan_next(&scan, log.at, log.len, &record, &unread, &end)) == WZ_DONE || code == WZ_UNREAD) {
        WANTED(end.at == 1 && end.why == 2 && end.first == 3 && end.second == 4);
        if (code == WZ_DONE) WANTED(is_same_unread(unread, old));
        print_found(&scan, code, record, unread);
        check_scan_from(number, log, place, code, record, end);
        place = record.end;
        old = unread;
    }
    WANTED(code == WZ_END && wz_scan_next(&scan, log.at, log.len, &record, &unread, &again) == WZ_END);
    WANTED(is_same_end(again, end) && is_same_unread(unread, old));
    WANTED(wz_scan_record(&scan, &byte, 1) == WZ_END && byte == MARK);
    check_scan_from(number, log, place, WZ_END, record, end);
    printf("scanned ");
    print_end(end);
    wz_close(&scan);
}

// All pairs of a recovery, each with the answer for the next key that could be there.
static void print_pairs(wz_handle *recovery, size_t count) {
    for (size_t i = 0; i < count; i++) {
        wz_pair_lens lens;
        size_t index;
        WANTED(wz_pair_len(recovery, i, &lens) == WZ_DONE);
        bytes key = room_for(lens.key_len), value = room_for(lens.value_len);
        if (key.len > 0) WANTED(wz_pair(recovery, i, key.at, key.len - 1, value.at, value.len) == WZ_SMALL);
        if (value.len > 0) WANTED(wz_pair(recovery, i, key.at, key.len, value.at, value.len - 1) == WZ_SMALL);
        WANTED((key.len == 0 || key.at[0] == MARK) && (value.len == 0 || value.at[0] == MARK));
        WANTED(wz_pair(recovery, i, key.at, key.len, value.at, value.len) == WZ_DONE);
        WANTED(wz_pair_find(recovery, lens.family, key.at, key.len, &index) == WZ_DONE && index == i);
        printf("pair %" PRIu32 " ", lens.family);
        print_hex(key.at, key.len);
        printf(" ");
        print_hex(value.at, value.len);
        // The next key that could be there, this key and a byte of zero, has no pair or the next one.
        bytes next = room_for(key.len + 1);
        memcpy(next.at, key.at, key.len);
        next.at[key.len] = 0;
        uint32_t code = wz_pair_find(recovery, lens.family, next.at, next.len, &index);
        WANTED((code == WZ_DONE || code == WZ_END) && index == i + 1);
        printf(" %" PRIu32 "\n", code);
        done_with(next);
        done_with(key);
        done_with(value);
    }
}

static void print_recovered(uint32_t code, wz_recovered found) {
    printf("recovered %" PRIu32 " %zu %zu ", code, found.groups, found.pairs);
    printf("%" PRIu64 " %" PRIu64 " ", found.last, found.kept);
    print_end(found.end);
}

// Recovers logs one after another. At each answer but `WZ_DONE` the recovery stays as it was, and so do others that
// share it at any answer.
static void answer_logs(uint32_t mode, const char *words) {
    wz_handle recovery = WZ_HANDLE_INIT, shared = WZ_HANDLE_INIT;
    wz_recovered found, held;
    size_t before = 0;
    for (int count = 0; words != NULL; count++) {
        uint32_t number = (uint32_t)strtoul(words, NULL, 10);
        bytes log = bytes_of_hex(strchr(words, ':') + 1);
        memset(&found, 0, sizeof found);
        if (count == 0) memset(&held, 0, sizeof held);
        else WANTED(wz_recovery_share(&recovery, &shared) == (held.end.why == 0 ? WZ_CLOSED : WZ_DONE));
        uint32_t code = count == 0 ? wz_recover(&recovery, number, mode, log.at, log.len, &found)
                                   : wz_recover_more(&recovery, number, mode, log.at, log.len, &found);
        print_recovered(code, found);
        if (code == WZ_DONE) held = found;
        wz_pair_lens lens;
        WANTED(held.end.why == 0 || wz_pair_len(&recovery, held.pairs, &lens) == WZ_END);
        WANTED(held.pairs == 0 || wz_pair_len(&recovery, held.pairs - 1, &lens) == WZ_DONE);
        if (count > 0 && before > 0) {
            WANTED(wz_pair_len(&shared, before, &lens) == WZ_END);
            WANTED(wz_pair_len(&shared, before - 1, &lens) == WZ_DONE);
        }
        before = held.pairs;
        done_with(log);
        words = strchr(words, ',');
        if (words != NULL) words++;
    }
    print_pairs(&recovery, held.pairs);
    wz_close(&recovery);
    wz_close(&shared);
}

static void answer_log(uint32_t number, uint32_t mode, bytes log) {
    wz_handle handle = WZ_HANDLE_INIT;
    wz_record record;
    wz_end end = {0, 0, 0, 0}, again = {0, 0, 0, 0};
    WANTED(wz_reader_open(&handle, number) == WZ_DONE);
    uint32_t code;
    // The reader has no record before the first and after the last, also where the log ends inside one.
    bytes none = room_for(WZ_BLOCK_LEN);
    WANTED(wz_reader_record(&handle, none.at, none.len) == WZ_END && none.at[0] == MARK);
    while ((code = wz_reader_next(&handle, log.at, log.len, &record, &end)) == WZ_DONE) {
        bytes found = room_for(record.len);
        if (record.len > 0) WANTED(wz_reader_record(&handle, found.at, record.len - 1) == WZ_SMALL);
        WANTED(found.at[0] == MARK);
        WANTED(wz_reader_record(&handle, found.at, record.len) == WZ_DONE);
        printf("record %" PRIu64 " %" PRIu64 " ", record.start, record.end);
        print_hex(found.at, found.len);
        printf("\n");
        print_batch(found.at, found.len);
        done_with(found);
    }
    WANTED(code == WZ_END && wz_reader_next(&handle, log.at, log.len, &record, &again) == WZ_END);
    WANTED(wz_reader_record(&handle, none.at, none.len) == WZ_END && none.at[0] == MARK);
    done_with(none);
    WANTED(is_same_end(again, end));
    printf("end ");
    print_end(end);

    // Each record is read from the end of the one before it. The log has no place after its end.
    uint64_t place = 0;
    bool at_place = true;
    while (at_place) {
        WANTED(wz_reader_open_at(&handle, number, place, log.at, log.len) == WZ_DONE);
        at_place = wz_reader_next(&handle, log.at, log.len, &record, &again) == WZ_DONE;
        WANTED(!at_place || (record.start >= place && record.end > record.start));
        if (at_place) place = record.end;
    }
    WANTED(is_same_end(again, end));
    WANTED(wz_reader_open_at(&handle, number, log.len + 1, log.at, log.len) == WZ_RANGE);
    WANTED(wz_reader_next(&handle, log.at, log.len, &record, &again) == WZ_CLOSED);

    for (uint64_t since = 0; since < 8; since += 3) check_since(number, since, log);

    // The reader is freed, since the handle is used again.
    wz_recovered found;
    memset(&found, 0, sizeof found);
    code = wz_recover(&handle, number, mode, log.at, log.len, &found);
    print_recovered(code, found);
    print_pairs(&handle, found.pairs);
    wz_close(&handle);
    answer_place(number, log);
    answer_scan(number, log);
}

static void answer_text(uint32_t number, uint64_t offset, bytes record) {
    size_t len = wz_log_record_len(number, offset, record.len), written = 77;
    bytes text = room_for(len);
    if (len > 0) WANTED(wz_log_record(number, offset, record.at, record.len, text.at, len - 1, &written) == WZ_SMALL);
    WANTED(written == 77 && text.at[0] == MARK);
    WANTED(wz_log_record(number, offset, record.at, record.len, text.at, len, &written) == WZ_DONE && written == len);
    printf("text ");
    print_hex(text.at, text.len);
    printf("\n");
    done_with(text);
}

static bytes bytes_of_batch(wz_handle *batch) {
    size_t len;
    WANTED(wz_batch_len(batch, &len) == WZ_DONE);
    bytes found = room_for(len);
    WANTED(wz_batch_bytes(batch, found.at, len - 1) == WZ_SMALL && found.at[0] == MARK);
    WANTED(wz_batch_bytes(batch, found.at, len) == WZ_DONE);
    return found;
}

static void answer_batch(wz_handle *batch, const char *word, const char *one, const char *two, const char *three) {
    int has_family = !strncmp(word, "cf", 2);
    bytes key = bytes_of_hex(has_family ? two : one), value = bytes_of_hex(has_family ? three : two);
    uint32_t code = 99, family = (uint32_t)strtoul(one, NULL, 10);
    if (!strcmp(word, "cfput")) code = wz_batch_put_cf(batch, family, key.at, key.len, value.at, value.len);
    if (!strcmp(word, "cfdel")) code = wz_batch_delete_cf(batch, family, key.at, key.len);
    if (!strcmp(word, "cfsdel")) code = wz_batch_single_delete_cf(batch, family, key.at, key.len);
    if (!strcmp(word, "put")) code = wz_batch_put(batch, key.at, key.len, value.at, value.len);
    if (!strcmp(word, "del")) code = wz_batch_delete(batch, key.at, key.len);
    if (!strcmp(word, "sdel")) code = wz_batch_single_delete(batch, key.at, key.len);
    if (!strcmp(word, "note")) code = wz_batch_log_data(batch, key.at, key.len);
    if (!strcmp(word, "append")) code = wz_batch_append(batch, key.at, key.len);
    if (!strcmp(word, "seq")) code = wz_batch_set_sequence(batch, strtoull(one, NULL, 10));
    if (!strcmp(word, "clear")) code = wz_batch_clear(batch);
    wz_batch_head head;
    WANTED(wz_batch_get(batch, &head) == WZ_DONE);
    bytes found = bytes_of_batch(batch);
    printf("%s %" PRIu32 " %" PRIu64 " %" PRIu32 " ", word, code, head.sequence, head.count);
    print_hex(found.at, found.len);
    printf("\n");
    done_with(found);
    done_with(key);
    done_with(value);
}

// Cuts a line into four words. Words that aren't there are `-`.
static void words_of(char *line, const char **words) {
    static const char none[] = "-";
    for (int i = 0; i < 4; i++) {
        words[i] = i == 0 ? strtok(line, " \n") : strtok(NULL, " \n");
        if (words[i] == NULL) words[i] = none;
    }
}

static int answer(void) {
    char *line = NULL;
    size_t room = 0;
    const char *words[4];
    wz_handle batch = WZ_HANDLE_INIT;
    while (getline(&line, &room, stdin) > 0) {
        words_of(line, words);
        uint32_t number = (uint32_t)strtoul(words[1], NULL, 10);
        if (!strcmp(words[0], "log")) {
            bytes log = bytes_of_hex(words[3]);
            answer_log(number, (uint32_t)strtoul(words[2], NULL, 10), log);
            done_with(log);
        } else if (!strcmp(words[0], "logs")) {
            answer_logs(number, words[2]);
        } else if (!strcmp(words[0], "text")) {
            bytes record = bytes_of_hex(words[3]);
            answer_text(number, strtoull(words[2], NULL, 10), record);
            done_with(record);
        } else if (!strcmp(words[0], "crc")) {
            bytes data = bytes_of_hex(words[2]);
            uint32_t crc = number == 0 ? wz_crc32c(data.at, data.len) : wz_crc32c_extend(number, data.at, data.len);
            printf("crc %" PRIu32 " %" PRIu32 "\n", crc, wz_crc32c_mask(crc));
            done_with(data);
        } else if (!strcmp(words[0], "batch")) {
            WANTED(wz_batch_new(&batch) == WZ_DONE);
        } else {
            answer_batch(&batch, words[0], words[1], words[2], words[3]);
        }
    }
    wz_close(&batch);
    // The line that `getline` made isn't counted, since that allocates inside of the C library.
    __real_free(line);
    return 0;
}

// What each function answers where the handle holds nothing, or something of another kind.
static void check_other_kinds(wz_handle *handle, int is_reader, int is_recovery, int is_batch, int is_scan) {
    uint8_t byte = MARK, other = MARK;
    wz_record record = {1, 2, 3};
    wz_end end = {1, 2, 3, 4};
    wz_pair_lens lens = {4, 5, 6};
    wz_batch_head head = {7, 8};
    size_t number = 9;
    if (!is_reader) {
        WANTED(wz_reader_next(handle, &byte, 1, &record, &end) == WZ_CLOSED);
        WANTED(wz_reader_next_since(handle, 1, &byte, 1, &record, &end) == WZ_CLOSED);
        WANTED(wz_reader_record(handle, &byte, 1) == WZ_CLOSED);
    }
    if (!is_scan) {
        wz_unread unread = {1, 2, {3, 4, 5, 6}}, same = unread;
        WANTED(wz_scan_next(handle, &byte, 1, &record, &unread, &end) == WZ_CLOSED);
        WANTED(wz_scan_record(handle, &byte, 1) == WZ_CLOSED && is_same_unread(unread, same));
    }
    if (!is_recovery) {
        wz_recovered found, same;
        memset(&found, 7, sizeof found);
        same = found;
        WANTED(wz_recover_more(handle, 0, WZ_POINT, &byte, 1, &found) == WZ_CLOSED);
        WANTED(!memcmp(&found, &same, sizeof same));
        WANTED(wz_pair_len(handle, 0, &lens) == WZ_CLOSED);
        WANTED(wz_pair(handle, 0, &byte, 1, &other, 1) == WZ_CLOSED);
        WANTED(wz_pair_find(handle, 1, &byte, 1, &number) == WZ_CLOSED);
    }
    if (!is_batch) {
        WANTED(wz_batch_put(handle, &byte, 1, &byte, 1) == WZ_CLOSED);
        WANTED(wz_batch_delete(handle, &byte, 1) == WZ_CLOSED);
        WANTED(wz_batch_single_delete(handle, &byte, 1) == WZ_CLOSED);
        WANTED(wz_batch_put_cf(handle, 1, &byte, 1, &byte, 1) == WZ_CLOSED);
        WANTED(wz_batch_delete_cf(handle, 1, &byte, 1) == WZ_CLOSED);
        WANTED(wz_batch_single_delete_cf(handle, 1, &byte, 1) == WZ_CLOSED);
        WANTED(wz_batch_log_data(handle, &byte, 1) == WZ_CLOSED);
        WANTED(wz_batch_clear(handle) == WZ_CLOSED);
        WANTED(wz_batch_set_sequence(handle, 1) == WZ_CLOSED);
        WANTED(wz_batch_get(handle, &head) == WZ_CLOSED);
        WANTED(wz_batch_len(handle, &number) == WZ_CLOSED);
        WANTED(wz_batch_bytes(handle, &byte, 1) == WZ_CLOSED);
        uint8_t empty[WZ_BATCH_HEADER_LEN] = {0};
        WANTED(wz_batch_append(handle, empty, sizeof empty) == WZ_CLOSED);
    }
    WANTED(byte == MARK && other == MARK && number == 9);
    WANTED(record.start == 1 && record.end == 2 && record.len == 3 && end.at == 1 && end.why == 2);
    WANTED(lens.family == 4 && lens.key_len == 5 && lens.value_len == 6 && head.sequence == 7 && head.count == 8);
}

static void check_no_pair(wz_handle *recovery, size_t pairs) {
    uint8_t byte = MARK, other = MARK;
    wz_pair_lens lens = {4, 5, 6};
    size_t index = 9;
    for (int i = 0; i < 2; i++) {
        size_t past = i == 0 ? pairs : SIZE_MAX;
        WANTED(wz_pair_len(recovery, past, &lens) == WZ_END && lens.key_len == 5 && lens.value_len == 6);
        WANTED(wz_pair(recovery, past, &byte, 1, &other, 1) == WZ_END && byte == MARK && other == MARK);
    }
    uint8_t last[] = {255, 255, 255};
    WANTED(wz_pair_find(recovery, UINT32_MAX, last, sizeof last, &index) == WZ_END && index == pairs);
}

// A batch takes no more bytes than it may, and stays as it is.
static void check_large(wz_handle *batch) {
    static uint8_t large[WZ_MAX_BATCH + 1];
    bytes old = bytes_of_batch(batch);
    size_t len;
    // The tag, its length in four bytes, and what is left.
    size_t fits = WZ_MAX_BATCH - old.len - 5;
    WANTED(wz_batch_delete(batch, large, fits + 1) == WZ_TOO_LARGE);
    WANTED(wz_batch_put(batch, large, 1, large, WZ_MAX_BATCH) == WZ_TOO_LARGE);
    WANTED(wz_batch_append(batch, large, sizeof large) == WZ_NO_BATCH);
    bytes now = bytes_of_batch(batch);
    WANTED(now.len == old.len && !memcmp(now.at, old.at, old.len));
    done_with(now);
    WANTED(wz_batch_delete(batch, large, fits) == WZ_DONE);
    WANTED(wz_batch_len(batch, &len) == WZ_DONE && len == WZ_MAX_BATCH);
    WANTED(wz_batch_log_data(batch, large, 0) == WZ_TOO_LARGE);
    WANTED(wz_batch_append(batch, old.at, old.len) == WZ_TOO_LARGE);
    WANTED(wz_batch_len(batch, &len) == WZ_DONE && len == WZ_MAX_BATCH);
    done_with(old);
}

// Adds empty keys, values and log data: by pointers to no bytes, or by null.
static bytes batch_of_nothing(const uint8_t *none) {
    wz_handle batch = WZ_HANDLE_INIT;
    WANTED(wz_batch_new(&batch) == WZ_DONE);
    WANTED(wz_batch_put(&batch, none, 0, none, 0) == WZ_DONE);
    WANTED(wz_batch_delete(&batch, none, 0) == WZ_DONE);
    WANTED(wz_batch_single_delete(&batch, none, 0) == WZ_DONE);
    WANTED(wz_batch_put_cf(&batch, 1, none, 0, none, 0) == WZ_DONE);
    WANTED(wz_batch_put_cf(&batch, 2, none, 0, none, 0) == WZ_DONE);
    WANTED(wz_batch_delete_cf(&batch, 1, none, 0) == WZ_DONE);
    WANTED(wz_batch_single_delete_cf(&batch, 3, none, 0) == WZ_DONE);
    WANTED(wz_batch_log_data(&batch, none, 0) == WZ_DONE);
    WANTED(wz_batch_set_sequence(&batch, 1) == WZ_DONE);
    WANTED(wz_batch_append(&batch, NULL, 0) == WZ_NO_BATCH);
    WANTED(wz_batch_bytes(&batch, NULL, 0) == WZ_SMALL);
    bytes found = bytes_of_batch(&batch);
    wz_close(&batch);
    return found;
}

// Reads and recovers a log of no bytes and one of an empty record, by null for what is empty.
static void check_null_logs(wz_handle *handle) {
    uint8_t log[64];
    size_t len = 0;
    wz_record record = {1, 2, 3};
    wz_end end = {1, 2, 3, 4};
    wz_recovered found;
    WANTED(wz_reader_open_at(handle, 0, 1, NULL, 0) == WZ_RANGE);
    WANTED(wz_reader_open_at(handle, 0, 0, NULL, 0) == WZ_DONE);
    WANTED(wz_reader_next(handle, NULL, 0, &record, &end) == WZ_END && end.at == 0 && end.why == WZ_CLEAN);
    WANTED(wz_reader_open(handle, 0) == WZ_DONE);
    WANTED(wz_reader_next_since(handle, 1, NULL, 0, &record, &end) == WZ_END && end.why == WZ_CLEAN);
    WANTED(wz_reader_record(handle, NULL, 0) == WZ_END);
    WANTED(wz_recover(handle, 7, WZ_ABSOLUTE, NULL, 0, &found) == WZ_DONE && found.groups == 0);
    WANTED(wz_recover_more(handle, 8, WZ_ABSOLUTE, NULL, 0, &found) == WZ_DONE && found.groups == 0);
    WANTED(wz_log_record(0, 0, NULL, 0, NULL, 0, &len) == WZ_SMALL && len == 0);
    WANTED(wz_log_record(0, 0, NULL, 0, log, sizeof log, &len) == WZ_DONE && len == 7);
    WANTED(wz_reader_open(handle, 0) == WZ_DONE);
    WANTED(wz_reader_next(handle, log, len, &record, &end) == WZ_DONE && record.len == 0);
    WANTED(wz_reader_record(handle, NULL, 0) == WZ_DONE);
    wz_unread unread = {1, 2, {3, 4, 5, 6}};
    WANTED(wz_scan_open_at(handle, 0, 1, NULL, 0) == WZ_RANGE && wz_scan_open_at(handle, 0, 0, NULL, 0) == WZ_DONE);
    WANTED(wz_scan_next(handle, NULL, 0, &record, &unread, &end) == WZ_END && end.at == 0 && end.why == WZ_CLEAN);
    WANTED(wz_scan_record(handle, NULL, 0) == WZ_END);
    WANTED(wz_scan_open_at(handle, 0, 0, log, len) == WZ_DONE);
    WANTED(wz_scan_next(handle, log, len, &record, &unread, &end) == WZ_DONE && record.len == 0);
    WANTED(wz_scan_record(handle, NULL, 0) == WZ_DONE);
}

// A null pointer with the length 0 means no bytes.
static void check_nulls(void) {
    wz_handle handle = WZ_HANDLE_INIT;
    wz_batch_head head;
    wz_end end = {1, 2, 3, 4};
    wz_recovered found;
    wz_pair_lens lens;
    wz_op op;
    wz_operation operation;
    wz_place place = {0, 0};
    uint8_t log[128];
    size_t len = 0, at = 0, index;
    WANTED(wz_crc32c(NULL, 0) == wz_crc32c(log, 0) && wz_crc32c_extend(77, NULL, 0) == 77);
    WANTED(wz_batch_read(NULL, 0, &head, &end) == WZ_NO_BATCH && end.why == WZ_SHORT);
    WANTED(wz_batch_next(NULL, 0, &at, &op, &end) == WZ_END && at == 0);
    WANTED(wz_operation_next(NULL, 0, &at, &operation, &end) == WZ_END && at == 0);
    WANTED(wz_batch_read_head(NULL, 0, &head) == WZ_NO_BATCH);
    WANTED(wz_recover_place(0, NULL, 0, &place, &end) == WZ_DONE && place.at == 0 && end.why == WZ_CLEAN);
    check_null_logs(&handle);
    bytes one = batch_of_nothing(NULL), other = batch_of_nothing(log);
    WANTED(one.len == other.len && !memcmp(one.at, other.at, one.len));
    WANTED(wz_log_record(0, 0, one.at, one.len, log, sizeof log, &len) == WZ_DONE);
    WANTED(wz_recover(&handle, 0, WZ_ABSOLUTE, log, len, &found) == WZ_DONE && found.pairs == 1);
    WANTED(wz_pair_len(&handle, 0, &lens) == WZ_DONE && lens.family == 2 && lens.key_len == 0 && lens.value_len == 0);
    WANTED(wz_pair(&handle, 0, NULL, 0, NULL, 0) == WZ_DONE);
    WANTED(wz_pair_find(&handle, 2, NULL, 0, &index) == WZ_DONE && index == 0);
    WANTED(wz_pair_find(&handle, 0, NULL, 0, &index) == WZ_END && index == 0);
    done_with(one);
    done_with(other);
    wz_close(&handle);
}

// What isn't there leaves what it was to be told in as it was.
static void check_operations(const uint8_t *batch, size_t len) {
    wz_operation found = {1, 7, 2, 3, 4, 5, 6, 8}, old = found;
    wz_batch_head head = {7, 8};
    wz_end end = {55, 0, 0, 0};
    size_t at = len + 1;
    WANTED(wz_operation_next(batch, len, &at, &found, &end) == WZ_RANGE && at == len + 1);
    at = SIZE_MAX;
    WANTED(wz_operation_next(batch, len, &at, &found, &end) == WZ_RANGE && at == SIZE_MAX);
    at = len;
    WANTED(wz_operation_next(batch, len, &at, &found, &end) == WZ_END && at == len && end.at == 55);
    at = len - 1;
    WANTED(wz_operation_next(batch, len, &at, &found, &end) == WZ_NO_BATCH && at == len - 1);
    WANTED(end.at == len - 1 && end.why == WZ_TAG && end.first == '1');
    WANTED(!memcmp(&found, &old, sizeof old));
    WANTED(wz_batch_read_head(batch, 11, &head) == WZ_NO_BATCH && head.sequence == 7 && head.count == 8);
    WANTED(wz_batch_read_head(batch, 12, &head) == WZ_DONE && head.sequence == 1 && head.count == 1);
}

// A recovery in two handles stays as long as one of them holds it. Where there is none, nothing is shared.
static void check_sharing(wz_handle *recovery) {
    wz_handle other = WZ_HANDLE_INIT, third = WZ_HANDLE_INIT;
    wz_pair_lens lens = {0, 0, 0};
    size_t index;
    WANTED(wz_batch_new(&third) == WZ_DONE && wz_batch_new(&other) == WZ_DONE);
    WANTED(wz_recovery_share(&third, &other) == WZ_CLOSED);
    check_other_kinds(&third, 0, 0, 1, 0);
    check_other_kinds(&other, 0, 0, 0, 0);
    WANTED(wz_recovery_share(&other, &third) == WZ_CLOSED);
    check_other_kinds(&third, 0, 0, 0, 0);
    WANTED(wz_recovery_share(recovery, &other) == WZ_DONE && wz_recovery_share(&other, &third) == WZ_DONE);
    wz_close(&other);
    WANTED(wz_pair_len(&third, 0, &lens) == WZ_DONE && lens.key_len == 1 && lens.value_len == 1);
    WANTED(wz_pair_find(&third, 0, "a", 1, &index) == WZ_DONE && index == 0);
    check_other_kinds(recovery, 0, 1, 0, 0);
    // The first one goes, too.
    WANTED(wz_recovery_share(&third, recovery) == WZ_DONE);
    wz_close(&third);
    WANTED(wz_pair_find(recovery, 0, "a", 1, &index) == WZ_DONE && index == 0);
}

// One more log changes nothing where it isn't recovered, and none is recovered after one that isn't whole.
static void check_more(wz_handle *recovery) {
    static const uint8_t batch[] = {2, 0, 0, 0, 0, 0, 0, 0, 1, 0, 0, 0, 0, 1, 'a'};
    uint8_t log[64];
    size_t len;
    wz_recovered found, old;
    WANTED(wz_log_record(0, 0, batch, sizeof batch, log, sizeof log, &len) == WZ_DONE && len == 22);
    memset(&found, 7, sizeof found);
    old = found;
    WANTED(wz_recover_more(recovery, 0, 3, log, len, &found) == WZ_RANGE && !memcmp(&found, &old, sizeof old));
    WANTED(wz_recover_more(recovery, 0, WZ_ABSOLUTE, log, len - 1, &found) == WZ_DAMAGE);
    WANTED(found.groups == 0 && found.pairs == 0 && found.last == 0 && found.kept == 0);
    WANTED(found.end.at == 0 && found.end.why == WZ_BAD_LENGTH);
    check_no_pair(recovery, 1);
    WANTED(wz_recover_more(recovery, 0, WZ_ABSOLUTE, log, len, &found) == WZ_DONE);
    WANTED(found.groups == 1 && found.pairs == 0 && found.last == 2 && found.kept == len);
    check_no_pair(recovery, 0);
    WANTED(wz_recover_more(recovery, 0, WZ_POINT, log, len, &found) == WZ_DONE);
    WANTED(found.groups == 0 && found.last == 2 && found.kept == 0 && found.end.why == WZ_ORDER);
    old = found;
    WANTED(wz_recover_more(recovery, 0, WZ_POINT, NULL, 0, &found) == WZ_END && !memcmp(&found, &old, sizeof old));
}

static int calls(void) {
    static const uint8_t batch[] = {1, 0, 0, 0, 0, 0, 0, 0, 1, 0, 0, 0, 1, 1, 'a', 1, '1'};
    uint8_t log[64];
    size_t len;
    wz_record record = {0, 0, 0};
    wz_end end = {0, 0, 0, 0};
    wz_recovered found;
    wz_handle handle = WZ_HANDLE_INIT;
    WANTED(wz_version() == WZ_VERSION);
    WANTED(wz_log_record(0, 0, batch, sizeof batch, log, sizeof log, &len) == WZ_DONE && len == 24);

    check_other_kinds(&handle, 0, 0, 0, 0);
    wz_close(&handle);
    WANTED(wz_reader_open(&handle, 0) == WZ_DONE);
    check_other_kinds(&handle, 1, 0, 0, 0);
    WANTED(wz_reader_next(&handle, log, len, &record, &end) == WZ_DONE && record.len == sizeof batch);
    WANTED(end.at == 0 && end.why == 0);
    // A handle may be moved.
    wz_handle moved = handle;
    memset(&handle, 0, sizeof handle);
    record.len = 5;
    WANTED(wz_reader_next(&moved, log, len, &record, &end) == WZ_END && end.at == 24 && end.why == WZ_CLEAN);
    WANTED(record.len == 5);
    wz_close(&moved);
    wz_close(&moved);
    check_other_kinds(&moved, 0, 0, 0, 0);

    WANTED(wz_recover(&handle, 0, WZ_ABSOLUTE, log, len, &found) == WZ_DONE);
    WANTED(found.groups == 1 && found.pairs == 1 && found.last == 1 && found.kept == 24 && found.end.why == WZ_CLEAN);
    check_other_kinds(&handle, 0, 1, 0, 0);
    check_no_pair(&handle, 1);
    check_sharing(&handle);
    check_more(&handle);
    // A call that fails, since a log isn't accepted or doesn't exist, leaves a handle that holds nothing.
    WANTED(wz_recover(&handle, 0, WZ_ABSOLUTE, log, len - 1, &found) == WZ_DAMAGE);
    WANTED(found.groups == 0 && found.pairs == 0 && found.last == 0 && found.kept == 0);
    WANTED(found.end.at == 0 && found.end.why == WZ_BAD_LENGTH);
    check_other_kinds(&handle, 0, 0, 0, 0);
    memset(&found, 7, sizeof found);
    wz_recovered old = found;
    WANTED(wz_reader_open(&handle, 1) == WZ_DONE);
    WANTED(wz_recover(&handle, 0, 3, log, len, &found) == WZ_RANGE && !memcmp(&found, &old, sizeof old));
    check_other_kinds(&handle, 0, 0, 0, 0);
    WANTED(wz_recover(&handle, 0, WZ_TAIL, log, len - 1, &found) == WZ_DONE && found.groups == 0);
    check_no_pair(&handle, 0);
    WANTED(wz_recover(&handle, 9, WZ_POINT, log, len, &found) == WZ_DONE);
    WANTED(found.end.why == WZ_BAD_TYPE && found.end.first == 1);

    WANTED(wz_batch_new(&handle) == WZ_DONE);
    check_other_kinds(&handle, 0, 0, 1, 0);
    WANTED(wz_batch_append(&handle, batch, sizeof batch) == WZ_DONE);
    check_large(&handle);
    // A scan takes the batch's place, and frees it; then a reader takes that of the scan.
    WANTED(wz_scan_open_at(&handle, 0, 0, log, len) == WZ_DONE);
    check_other_kinds(&handle, 0, 0, 0, 1);
    WANTED(wz_reader_open(&handle, 0) == WZ_DONE);
    check_other_kinds(&handle, 1, 0, 0, 0);
    wz_close(&handle);

    wz_op op = {1, 7, 2, 3, 4, 5};
    size_t at = sizeof batch + 1;
    end.at = 55;
    WANTED(wz_batch_next(batch, sizeof batch, &at, &op, &end) == WZ_RANGE && at == sizeof batch + 1);
    at = SIZE_MAX;
    WANTED(wz_batch_next(batch, sizeof batch, &at, &op, &end) == WZ_RANGE && at == SIZE_MAX);
    at = sizeof batch;
    WANTED(wz_batch_next(batch, sizeof batch, &at, &op, &end) == WZ_END && at == sizeof batch);
    WANTED(op.kind == 1 && op.family == 7 && op.key_at == 2 && op.value_len == 5 && end.at == 55);
    check_operations(batch, sizeof batch);

    WANTED(wz_log_record_len(0, 0, SIZE_MAX) == SIZE_MAX && wz_log_record_len(0, 0, SIZE_MAX - 7) == SIZE_MAX);
    WANTED(wz_log_record_len(7, UINT64_MAX, 0) == 12 && wz_log_record_len(0, UINT64_MAX, 0) == 8);
    WANTED(wz_log_record_len(0, 0, (size_t)1 << 62) > (size_t)1 << 62);
    check_nulls();
    WANTED(held == 0);
    return 0;
}

// Compares what a call has left of a batch whose bytes were these.
static void check_batch_is(wz_handle *batch, bytes old) {
    long left = granted;
    granted = -1;
    bytes now = bytes_of_batch(batch);
    WANTED(now.len == old.len && !memcmp(now.at, old.at, old.len));
    done_with(now);
    granted = left;
}

// A batch grows until an allocation fails. Gives back the library's answer.
static uint32_t grow_batch(wz_handle *batch) {
    static const uint8_t blob[900];
    uint32_t code = wz_batch_new(batch);
    for (int i = 0; i < 12 && code == WZ_DONE; i++) {
        long left = granted;
        granted = -1;
        bytes old = bytes_of_batch(batch);
        granted = left;
        if (i % 4 == 0) code = wz_batch_put(batch, blob, 100, blob, sizeof blob);
        if (i % 4 == 1) code = wz_batch_delete(batch, blob, sizeof blob);
        if (i % 4 == 2) code = wz_batch_log_data(batch, blob, 300);
        if (i % 4 == 3) code = wz_batch_append(batch, old.at, old.len);
        if (code != WZ_DONE) check_batch_is(batch, old);
        left = granted;
        granted = -1;
        done_with(old);
        granted = left;
    }
    return code;
}

static uint32_t read_next(wz_handle *reader, bool is_since, bytes log, wz_record *record, wz_end *end) {
    return is_since ? wz_reader_next_since(reader, 0, log.at, log.len, record, end)
                    : wz_reader_next(reader, log.at, log.len, record, end);
}

// Reads a log from its start, or from the place and the sequence 0, which is the same.
static uint32_t read_all(wz_handle *reader, bool is_since, uint32_t number, bytes log) {
    wz_record record = {1, 2, 3}, old = record;
    wz_end end = {1, 2, 3, 4};
    uint32_t code = is_since ? wz_reader_open_at(reader, number, 0, log.at, log.len) : wz_reader_open(reader, number);
    if (code != WZ_DONE) return code;
    while ((code = read_next(reader, is_since, log, &record, &end)) == WZ_DONE) old = record;
    if (code == WZ_END) return WZ_DONE;
    WANTED(record.start == old.start && record.end == old.end && record.len == old.len && end.at == 1 && end.why == 2);
    granted = -1;
    WANTED(read_next(reader, is_since, log, &record, &end) == WZ_NO_MEMORY);
    granted = 0;
    return code;
}

// Scans a log from its start.
static uint32_t scan_all(wz_handle *scan, uint32_t number, bytes log) {
    wz_record record = {1, 2, 3}, old = record;
    wz_unread unread = {1, 2, {3, 4, 5, 6}};
    wz_end end = {1, 2, 3, 4};
    uint32_t code = wz_scan_open_at(scan, number, 0, log.at, log.len);
    if (code != WZ_DONE) return code;
    while ((code = wz_scan_next(scan, log.at, log.len, &record, &unread, &end)) == WZ_DONE || code == WZ_UNREAD) {
        old = record;
    }
    if (code == WZ_END) return WZ_DONE;
    WANTED(record.start == old.start && record.end == old.end && record.len == old.len && end.at == 1 && end.why == 2);
    granted = -1;
    WANTED(wz_scan_next(scan, log.at, log.len, &record, &unread, &end) == WZ_NO_MEMORY);
    granted = 0;
    return code;
}

// Recovers one more log of a batch of two keys. Where memory is refused the recovery stays as it was.
static uint32_t recover_later(wz_handle *recovery, size_t pairs) {
    static const uint8_t batch[] = {0, 0, 0, 0, 0, 1, 0, 0, 2, 0, 0, 0, 1, 3, 'n', 'e', 'w', 1, '1', 1, 0, 0};
    uint8_t log[64];
    size_t len;
    wz_recovered found, old;
    memset(&found, 7, sizeof found);
    old = found;
    WANTED(wz_log_record(0, 0, batch, sizeof batch, log, sizeof log, &len) == WZ_DONE);
    uint32_t code = wz_recover_more(recovery, 0, WZ_POINT, log, len, &found);
    if (code == WZ_DONE) WANTED(found.groups == 1 && found.pairs == pairs + 2);
    else WANTED(!memcmp(&found, &old, sizeof old));
    long left = granted;
    granted = -1;
    check_no_pair(recovery, code == WZ_DONE ? pairs + 2 : pairs);
    granted = left;
    return code;
}

static uint32_t recover_all(wz_handle *recovery, uint32_t number, bytes log) {
    wz_recovered found, old;
    memset(&found, 7, sizeof found);
    old = found;
    wz_handle first = WZ_HANDLE_INIT;
    uint32_t code = wz_recover(&first, number, WZ_POINT, log.at, log.len, &found);
    if (code != WZ_DONE) WANTED(!memcmp(&found, &old, sizeof old));
    if (code == WZ_DONE && found.end.why == WZ_CLEAN) code = recover_later(&first, found.pairs);
    if (code == WZ_DONE) code = wz_recovery_share(&first, recovery);
    else wz_close(recovery);
    wz_close(&first);
    return code;
}

// The place stays where memory is refused.
static uint32_t recover_place(uint32_t number, bytes log) {
    wz_place place = {0, 0};
    wz_end end = {1, 2, 3, 4};
    uint32_t code = wz_recover_place(number, log.at, log.len, &place, &end);
    if (code != WZ_DONE) WANTED(place.at == 0 && place.last == 0 && end.at == 1 && end.why == 2);
    return code;
}

static int memory(void) {
    char *line = NULL;
    size_t room = 0;
    const char *words[4];
    WANTED(getline(&line, &room, stdin) > 0);
    words_of(line, words);
    uint32_t number = (uint32_t)strtoul(words[1], NULL, 10);
    bytes log = bytes_of_hex(words[3]);
    long before = held;
    for (int kind = 0; kind < 6; kind++) {
        long refused = 0;
        for (int is_all_granted = 0; !is_all_granted; refused++) {
            // What the handle held before is freed by a call that fails, too.
            wz_handle handle = WZ_HANDLE_INIT;
            granted = -1;
            WANTED(wz_batch_new(&handle) == WZ_DONE);
            granted = refused;
            uint32_t code = kind == 0   ? read_all(&handle, false, number, log)
                            : kind == 1 ? recover_all(&handle, number, log)
                            : kind == 2 ? grow_batch(&handle)
                            : kind == 3 ? read_all(&handle, true, number, log)
                            : kind == 4 ? recover_place(number, log)
                                        : scan_all(&handle, number, log);
            // A refused allocation has counted to -1.
            is_all_granted = granted > 0 || (granted == 0 && code == WZ_DONE);
            WANTED(code == (is_all_granted ? WZ_DONE : WZ_NO_MEMORY));
            granted = -1;
            if (code != WZ_DONE && kind == 1) check_other_kinds(&handle, 0, 0, 0, 0);
            wz_close(&handle);
            WANTED(held == before);
        }
        // Without pairs, there is only the reader.
        WANTED(refused > (kind == 4 ? 1 : 3));
    }
    done_with(log);
    __real_free(line);
    return 0;
}

int main(int argc, char **argv) {
    const char *word = argc > 1 ? argv[1] : "";
    if (!strcmp(word, "answer")) return answer();
    if (!strcmp(word, "calls")) return calls();
    if (!strcmp(word, "memory")) return memory();
    return 2;
}
