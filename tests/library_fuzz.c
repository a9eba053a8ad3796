// Compares the library with a plain reader and a plain recovery, on logs that are damaged in place.
//
//     library_fuzz SEED COUNT
//
// It makes a few small logs, without a number and with one, some of which pass the end of a block. COUNT times it
// takes one of them, changes some bytes, or cuts it, or puts zeros in, and half of the time makes the checksums right
// again. For each the library must tell the same records, end, batches and operations as the plain code, and the same
// recovery in a drawn mode. It prints nothing where all is well; otherwise it says for which log something differs and
// ends with 1.
//
// The plain code here follows docs/FORMATS.md, and has nothing of the library's own.

#define WZ_OLD_NAMES
#include "wolzenn.h"

#include <inttypes.h>
#include <stdio.h>
#include <stdlib.h>
#include <string.h>

enum { BLOCK = 32768, MOST = 1 << 17 };

static uint64_t drawn = 1;

static uint64_t draw(uint64_t below) {
    drawn ^= drawn << 13;
    drawn ^= drawn >> 7;
    drawn ^= drawn << 17;
    return (drawn >> 11) % below;
}

// The log that is tried, its number, and the log that it was made of.
static uint8_t log_bytes[MOST];
static size_t log_len;
static uint32_t number, mode;

static void differs(const char *what) {
    printf("%s differs, of the number %" PRIu32 " and the mode %" PRIu32 ":\n", what, number, mode);
    for (size_t i = 0; i < log_len; i++) printf("%02x", log_bytes[i]);
    printf("\n");
    exit(1);
}

#define SAME(holds, what) ((holds) ? (void)0 : differs(what))

// Numbers, the lowest byte first.
static uint64_t fixed(const uint8_t *at, int bytes) {
    uint64_t found = 0;
    for (int i = bytes - 1; i >= 0; i--) found = found << 8 | at[i];
    return found;
}

static uint32_t steps[256];

static uint32_t masked_crc(const uint8_t *at, size_t len) {
    uint32_t crc = UINT32_MAX;
    for (size_t i = 0; i < len; i++) crc = crc >> 8 ^ steps[(crc ^ at[i]) & 255];
    crc = ~crc;
    return (crc >> 15 | crc << 17) + 0xa282ead8u;
}

static void make_steps(void) {
    for (uint32_t byte = 0; byte < 256; byte++) {
        steps[byte] = byte;
        for (int i = 0; i < 8; i++) steps[byte] = steps[byte] >> 1 ^ (steps[byte] & 1 ? 0x82f63b78u : 0);
    }
}

// The plain reader.

static size_t header_len(void) {
    return number == 0 ? 7 : 11;
}

static wz_end end_at(uint64_t at, uint32_t why, uint64_t first, uint64_t second) {
    wz_end end = {at, why, first, second};
    return end;
}

static int is_zeros(const uint8_t *at, size_t len) {
    for (size_t i = 0; i < len; i++) {
        if (at[i] != 0) return 0;
    }
    return 1;
}

// The fragment at a place from which its block has room for a header: its kind, 1 to 4, and where its data ends; or 0
// and why there is none.
static int fragment_at(size_t at, size_t *data_end, wz_end *end) {
    const uint8_t *head = log_bytes + at;
    size_t size = header_len(), left = log_len - at, room = BLOCK - at % BLOCK;
    if (left < size) return *end = end_at(at, WZ_SHORT_HEADER, 0, 0), 0;
    if (is_zeros(head, size)) return *end = end_at(at, WZ_ZEROS, 0, 0), 0;
    size_t whole = size + fixed(head + 4, 2);
    int first = number == 0 ? 1 : 5, kind = head[6] - first + 1, is_within = whole <= room && whole <= left;
    if (number == 0 && !is_within) return *end = end_at(at, WZ_BAD_LENGTH, 0, 0), 0;
    if (kind < 1 || kind > 4) return *end = end_at(at, WZ_BAD_TYPE, head[6], 0), 0;
    if (number != 0 && fixed(head + 7, 4) != number) return *end = end_at(at, WZ_OLD_LOG, fixed(head + 7, 4), 0), 0;
    if (!is_within) return *end = end_at(at, WZ_BAD_LENGTH, 0, 0), 0;
    if (fixed(head, 4) != masked_crc(head + 6, whole - 6)) return *end = end_at(at, WZ_BAD_CHECKSUM, 0, 0), 0;
    *data_end = at + whole;
    return kind;
}

// The records of the log: their bytes one after another, and where each begins and ends in the log.
enum { RECORDS = 4096 };
static uint8_t content[MOST];
static struct { size_t start, end, at, len; } records[RECORDS];
static size_t record_count;

static wz_end read_plainly(void) {
    size_t at = 0, used = 0, begun = 0, start = 0;
    int is_open = 0;
    wz_end end;
    for (record_count = 0; at < log_len;) {
        size_t left = BLOCK - at % BLOCK, data_end;
        if (left < header_len()) {
            size_t there = left < log_len - at ? left : log_len - at;
            if (!is_zeros(log_bytes + at, there)) return end_at(at, WZ_BAD_TRAILER, 0, 0);
            at += there;
            continue;
        }
        int kind = fragment_at(at, &data_end, &end);
        if (kind == 0) return end;
        if ((kind <= 2) == is_open) return end_at(at, WZ_BAD_ORDER, 0, 0);
        if (!is_open) begun = used, start = at;
        size_t len = data_end - at - header_len();
        memcpy(content + used, log_bytes + at + header_len(), len);
        used += len;
        at = data_end;
        is_open = kind == 2 || kind == 3;
        if (is_open) continue;
        SAME(record_count < RECORDS, "the room for records");
        records[record_count].start = start;
        records[record_count].end = at;
        records[record_count].at = begun;
        records[record_count++].len = used - begun;
    }
    return is_open ? end_at(start, WZ_UNFINISHED, 0, 0) : end_at(log_len, WZ_CLEAN, 0, 0);
}

// The plain batch.

// A number at a place, which then moves past it. Answers 0, or the reason why there is none.
static uint32_t number_at(const uint8_t *at, size_t len, size_t *place, uint64_t *found) {
    *found = 0;
    for (int used = 0;; used++) {
        if (*place + used == len) return WZ_SHORT;
        uint8_t byte = at[*place + used];
        *found |= (uint64_t)(byte & 127) << 7 * used;
        if ((used == 4 && byte > 15) || (used > 0 && byte == 0)) return WZ_BAD_VARINT;
        if (byte >= 128) continue;
        *place += used + 1;
        return 0;
    }
}

// A string after its length, at a place, which then moves past it. Answers 0, or the reason why there is none.
static uint32_t string_at(const uint8_t *at, size_t len, size_t *place, size_t *string, size_t *string_len) {
    uint64_t found;
    uint32_t reason = number_at(at, len, place, &found);
    if (reason != 0) return reason;
    if (found > len - *place) return WZ_SHORT;
    *string = *place;
    *string_len = found;
    *place += found;
    return 0;
}

static int is_value(wz_op op) {
    return op.kind == 1 || op.kind == 5;
}

// The operation at a place, which then moves past it; or why there is none.
static int op_at(const uint8_t *at, size_t len, size_t *place, wz_op *op, wz_end *why) {
    size_t next = *place + 1;
    wz_op found = {at[*place], 0, 0, 0, 0, 0};
    uint32_t reason = 0;
    uint64_t family = 0;
    if (found.kind > 8 || found.kind == 2 || found.kind == 6) {
        return *why = end_at(*place, WZ_TAG, found.kind, 0), 0;
    }
    if (found.kind == 4 || found.kind == 5 || found.kind == 8) reason = number_at(at, len, &next, &family);
    found.family = (uint32_t)family;
    if (reason == 0) reason = string_at(at, len, &next, &found.key_at, &found.key_len);
    if (reason == 0 && is_value(found)) reason = string_at(at, len, &next, &found.value_at, &found.value_len);
    if (reason != 0) return *why = end_at(*place, reason, 0, 0), 0;
    *op = found;
    *place = next;
    return 1;
}

static int batch_of(const uint8_t *at, size_t len, wz_batch_head *head, wz_end *why) {
    size_t place = 12;
    uint64_t count = 0;
    wz_op op;
    if (len < 12) return *why = end_at(0, WZ_SHORT, 0, 0), 0;
    while (place < len) {
        if (!op_at(at, len, &place, &op, why)) return why->at = 0, 0;
        count += op.kind != 3;
    }
    if (count != fixed(at + 8, 4)) return *why = end_at(0, WZ_COUNT, fixed(at + 8, 4), count), 0;
    head->sequence = fixed(at, 8);
    head->count = (uint32_t)count;
    return 1;
}

// The plain map, by family, and in a family in the order of its keys.
typedef struct {
    const uint8_t *key, *value;
    size_t key_len, value_len;
    uint32_t family;
} row;
enum { ROWS = 1 << 16 };
static row rows[ROWS];
static size_t row_count;

static int order_of(const uint8_t *one, size_t one_len, const uint8_t *two, size_t two_len) {
    int order = memcmp(one, two, one_len < two_len ? one_len : two_len);
    return order != 0 ? order : (one_len > two_len) - (one_len < two_len);
}

static void change_map(const uint8_t *at, wz_op op) {
    size_t place = 0;
    int order = 1;
    for (; place < row_count; place++) {
        row *it = rows + place;
        order = (it->family > op.family) - (it->family < op.family);
        if (order == 0) order = order_of(it->key, it->key_len, at + op.key_at, op.key_len);
        if (order >= 0) break;
    }
    int is_there = place < row_count && order == 0;
    if (op.kind == 3) return;
    if (!is_value(op)) {
        if (is_there) memmove(rows + place, rows + place + 1, (--row_count - place) * sizeof(row));
        return;
    }
    if (!is_there) memmove(rows + place + 1, rows + place, (row_count++ - place) * sizeof(row));
    row made = {at + op.key_at, at + op.value_at, op.key_len, op.value_len, op.family};
    rows[place] = made;
}

static wz_recovered recover_plainly(wz_end end) {
    wz_recovered found = {0, 0, 0, 0, end};
    wz_batch_head head;
    wz_op op;
    row_count = 0;
    for (size_t i = 0; i < record_count; i++) {
        const uint8_t *at = content + records[i].at;
        size_t len = records[i].len, place = 12, start = records[i].start;
        if (!batch_of(at, len, &head, &found.end)) return found.end.at = start, found.pairs = row_count, found;
        uint64_t first = head.sequence, most = (UINT64_C(1) << 56) - 1;
        if (head.count > 0 && first <= found.last) {
            return found.end = end_at(start, WZ_ORDER, first, found.last), found.pairs = row_count, found;
        }
        if (head.count > 0 && (first > most || most - first < head.count - 1)) {
            return found.end = end_at(start, WZ_HIGH, first, head.count), found.pairs = row_count, found;
        }
        if (head.count > 0) found.last = first + head.count - 1;
        while (place < len && op_at(at, len, &place, &op, &end)) change_map(at, op);
        found.groups++;
        found.kept = records[i].end;
    }
    found.pairs = row_count;
    return found;
}

static int is_accepted(wz_end end) {
    size_t at = end.at, whole = 0;
    if (mode == WZ_POINT || end.why == WZ_CLEAN || end.why == WZ_OLD_LOG) return 1;
    if (mode == WZ_ABSOLUTE) return 0;
    if (end.why == WZ_SHORT_HEADER || end.why == WZ_UNFINISHED) return 1;
    if (end.why == WZ_ZEROS) return is_zeros(log_bytes + at, log_len - at);
    if (end.why != WZ_BAD_LENGTH) return 0;
    whole = header_len() + fixed(log_bytes + at + 4, 2);
    return log_len < at + whole && whole <= BLOCK - at % BLOCK;
}

// The library, compared with that.

static int is_same_end(wz_end one, wz_end two) {
    return one.at == two.at && one.why == two.why && one.first == two.first && one.second == two.second;
}

static void compare_batch(const uint8_t *at, size_t len) {
    wz_batch_head head = {0, 0}, plain = {0, 0};
    wz_end why = {0, 0, 0, 0}, plain_why = {0, 0, 0, 0};
    wz_op op = {0, 0, 0, 0, 0, 0}, plain_op = {0, 0, 0, 0, 0, 0};
    size_t place = 12, plain_place = 12;
    int is_batch = batch_of(at, len, &plain, &plain_why);
    SAME(wz_batch_read(at, len, &head, &why) == (is_batch ? WZ_DONE : WZ_NO_BATCH), "whether a record is a batch");
    SAME(head.sequence == plain.sequence && head.count == plain.count && is_same_end(why, plain_why), "a batch");
    if (len < 12) {
        SAME(wz_batch_next(at, len, &place, &op, &why) == WZ_RANGE && place == 12, "the range of a batch");
        return;
    }
    while (plain_place < len && op_at(at, len, &plain_place, &plain_op, &plain_why)) {
        SAME(wz_batch_next(at, len, &place, &op, &why) == WZ_DONE && place == plain_place, "a record of a batch");
        SAME(op.family == plain_op.family, "a family");
        SAME(op.kind == plain_op.kind && op.key_at == plain_op.key_at && op.key_len == plain_op.key_len, "a key");
        SAME(op.value_at == plain_op.value_at && op.value_len == plain_op.value_len, "a value");
    }
    uint32_t code = wz_batch_next(at, len, &place, &op, &why);
    SAME(code == (plain_place == len ? WZ_END : WZ_NO_BATCH) && place == plain_place, "the end of a batch");
    SAME(is_same_end(why, plain_why), "why a batch ends");
}

static void compare(void) {
    static uint8_t buffer[MOST], value[MOST];
    wz_handle handle = WZ_HANDLE_INIT;
    wz_record record;
    wz_end end, plain_end = read_plainly();
    wz_recovered found = {9, 9, 9, 9, {9, 9, 9, 9}};
    // A copy that ends where the log does, so that a read past its end is seen.
    uint8_t *log = malloc(log_len + 1);
    if (log == NULL) exit(2);
    memcpy(log, log_bytes, log_len);

    SAME(wz_reader_open(&handle, number) == WZ_DONE, "the opening");
    for (size_t i = 0; i < record_count; i++) {
        size_t len = records[i].len;
        SAME(wz_reader_next(&handle, log, log_len, &record, &end) == WZ_DONE, "the count of records");
        SAME(record.start == records[i].start && record.end == records[i].end, "a record's place");
        SAME(record.len == len, "a record's length");
        SAME(wz_reader_record(&handle, buffer, len) == WZ_DONE, "a record");
        SAME(!memcmp(buffer, content + records[i].at, len), "a record's bytes");
        compare_batch(buffer, len);
    }
    SAME(wz_reader_next(&handle, log, log_len, &record, &end) == WZ_END && is_same_end(end, plain_end), "the end");

    wz_recovered plain = recover_plainly(plain_end);
    uint32_t code = wz_recover(&handle, number, mode, log, log_len, &found);
    SAME(code == (is_accepted(plain.end) ? WZ_DONE : WZ_DAMAGE), "whether a mode accepts the end");
    SAME(is_same_end(found.end, plain.end), "the end of recovery");
    if (code == WZ_DAMAGE) {
        SAME(found.groups == 0 && found.pairs == 0 && found.last == 0 && found.kept == 0, "a damage");
    } else {
        SAME(found.groups == plain.groups && found.pairs == plain.pairs, "the counts of a recovery");
        SAME(found.last == plain.last && found.kept == plain.kept, "where a recovery leaves off");
        for (size_t i = 0; i < row_count; i++) {
            row *it = rows + i;
            size_t index = SIZE_MAX;
            SAME(wz_pair(&handle, i, buffer, it->key_len, value, it->value_len) == WZ_DONE, "a pair");
            SAME(!memcmp(buffer, it->key, it->key_len) && !memcmp(value, it->value, it->value_len), "a pair's bytes");
            wz_pair_lens lens;
            SAME(wz_pair_len(&handle, i, &lens) == WZ_DONE && lens.family == it->family, "a pair's family");
            code = wz_pair_find(&handle, it->family, it->key, it->key_len, &index);
            SAME(code == WZ_DONE && index == i, "where a key is found");
        }
    }
    wz_close(&handle);
    free(log);
}

// The logs that are damaged.

enum { SEEDS = 24, SEED_LEN = 1 << 16 };
static struct {
    uint8_t bytes[SEED_LEN];
    size_t len;
    uint32_t number;
} seeds[SEEDS];

// Ends the program where a batch can't be built.
static void built(uint32_t code) {
    if (code != WZ_DONE) exit(2);
}

static void append(wz_handle *batch) {
    static uint8_t key[64], value[300];
    for (size_t i = 0; i < sizeof key; i++) key[i] = (uint8_t) "ab"[draw(2)];
    for (size_t i = 0; i < sizeof value; i++) value[i] = (uint8_t)draw(256);
    size_t key_len = draw(8) == 0 ? draw(sizeof key) : draw(3);
    size_t value_len = draw(6) == 0 ? draw(sizeof value) : draw(4);
    switch (draw(6)) {
        case 0: built(wz_batch_delete(batch, key, key_len)); break;
        case 1: built(wz_batch_single_delete(batch, key, key_len)); break;
        case 2: built(wz_batch_log_data(batch, value, value_len)); break;
        default: built(wz_batch_put(batch, key, key_len, value, value_len));
    }
}

// A log of a few batches. In every sixth log the first batch leaves few bytes of its block.
static void make_seed(int seed) {
    static uint8_t bytes[SEED_LEN];
    wz_handle batch = WZ_HANDLE_INIT;
    wz_batch_head head;
    uint64_t next = 1 + draw(3);
    size_t len, more;
    seeds[seed].number = seed % 2 == 0 ? 0 : (uint32_t)draw(UINT32_MAX) + 1;
    seeds[seed].len = 0;
    int is_long = seed % 6 == 5;
    for (uint64_t count = 2 + draw(5), i = 0; i < count; i++) {
        built(wz_batch_new(&batch));
        for (uint64_t ops = draw(4); ops > 0; ops--) append(&batch);
        if (is_long && i == 0) built(wz_batch_log_data(&batch, bytes, BLOCK - 40 + draw(30)));
        built(wz_batch_set_sequence(&batch, next));
        built(wz_batch_get(&batch, &head));
        built(wz_batch_len(&batch, &len));
        if (len > sizeof bytes) exit(2);
        built(wz_batch_bytes(&batch, bytes, len));
        next += head.count + draw(2);
        uint8_t *to = seeds[seed].bytes + seeds[seed].len;
        size_t room = SEED_LEN - seeds[seed].len;
        if (wz_log_record(seeds[seed].number, seeds[seed].len, bytes, len, to, room, &more) != WZ_DONE) exit(2);
        seeds[seed].len += more;
    }
    wz_close(&batch);
}

// Makes the checksums of the fragments right, from the first on, as far as their lengths lead.
static void mend(void) {
    for (size_t at = 0; at + header_len() <= log_len;) {
        size_t left = BLOCK - at % BLOCK;
        if (left < header_len()) {
            at += left;
            continue;
        }
        size_t whole = header_len() + fixed(log_bytes + at + 4, 2);
        if (whole > left || whole > log_len - at) return;
        uint32_t crc = masked_crc(log_bytes + at + 6, whole - 6);
        for (int i = 0; i < 4; i++) log_bytes[at + i] = (uint8_t)(crc >> 8 * i);
        at += whole;
    }
}

static size_t place(void) {
    // Mostly near the start, where a change affects what comes after it, or near the end; a long log is mostly one
    // value.
    size_t near = log_len < 200 ? log_len : 200;
    return draw(3) == 0 ? draw(log_len) : draw(2) ? draw(near) : log_len - 1 - draw(near);
}

static void damage(void) {
    static const uint8_t odd[] = {0, 1, 2, 3, 4, 5, 6, 7, 8, 11, 127, 128, 255};
    for (uint64_t times = 1 + draw(3); times > 0 && log_len > 0; times--) {
        size_t at = place(), zeros = draw(12), left = log_len - at;
        switch (draw(8)) {
            case 0: log_bytes[at] = odd[draw(sizeof odd)]; break;
            case 1: log_bytes[at] = (uint8_t)draw(256); break;
            case 2: log_bytes[at]++; break;
            case 3: log_bytes[at]--; break;
            case 4: log_len = draw(4) == 0 ? at : log_len; break;
            case 5: memset(log_bytes + at, 0, zeros < left ? zeros : left); break;
            default: log_bytes[at] ^= (uint8_t)(1 << draw(8));
        }
    }
    if (draw(2)) mend();
}

int main(int argc, char **argv) {
    if (argc != 3) return 2;
    drawn = strtoull(argv[1], NULL, 10) * 2654435761u + 88172645463325252u;
    uint64_t count = strtoull(argv[2], NULL, 10);
    make_steps();
    for (int seed = 0; seed < SEEDS; seed++) make_seed(seed);
    for (uint64_t i = 0; i < count; i++) {
        // The long logs take more time, so they are taken less often. New ones are made from time to time.
        int seed = draw(8) == 0 ? (int)draw(SEEDS) : (int)draw(SEEDS / 6) * 6 + (int)draw(5);
        if (draw(64) == 0) make_seed(seed);
        memcpy(log_bytes, seeds[seed].bytes, log_len = seeds[seed].len);
        number = seeds[seed].number;
        mode = (uint32_t)draw(3);
        damage();
        compare();
    }
    return 0;
}
