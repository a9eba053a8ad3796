/* Wolzenn for programs in C, C++, Rust and Python: the logs and write batches of RocksDB and LevelDB, read and written
   by proved code.

   Answers. A function that can fail answers one of the codes WZ_DONE .. below. What it gives is written through the
   pointers that it names, and only at the answers that it names; at any other answer what they point to stays as it
   was.

   Handles. A wz_reader, a wz_scan, a wz_recovery and a wz_batch are handles: variables of the caller, which start as
   WZ_HANDLE_INIT, or as zeros, and hold nothing then. What a handle holds is the library's memory. A call that opens
   something in a handle first frees what the handle held: so it must be set before the first call too, and it holds
   nothing where that call fails. wz_reader_close, wz_scan_close, wz_recovery_close and wz_batch_close free what a
   handle holds, and are fine for one that holds nothing. A handle may be moved in memory between calls, after which
   only the new place is used. It is never copied otherwise. It may go to another thread, if the two see to the order
   (by a lock, a thread's start or its end), and threads may use different handles at once. EACH CALL WRITES TO ITS
   HANDLE, also one that only looks something up: no two threads may make calls with the same handle at once. Its fields
   are the library's own.

   Bytes. A pointer with a length means that many bytes, which are read (const) or written, and fewer than 2^63. Where
   the length is 0 it may be null. No other pointer may be null, and each is aligned as its type asks: a call with one
   that isn't may end the process. What a pointer that isn't const points to, a handle too, overlaps nothing else of the
   same call. Nobody changes any of these bytes during a call, neither another thread nor, where a file is mapped,
   another process. The bytes stay the caller's: no function keeps a pointer to them. No function locks, waits, starts a
   thread, calls back, or ends the process otherwise. There is no global state. errno says nothing, and may change,
   since malloc may set it.

   Memory comes from malloc and realloc, and is freed by free. Where these find none the answer is WZ_NO_MEMORY, and no
   memory is leaked.

   What is promised below is proved, of the functions as they are called from Rattle. Five things are only tested: that
   WZ_NO_MEMORY comes only where there was no memory; that no memory is leaked; that a null pointer with the length 0
   means no bytes; the texts of codes and reasons; and what wz_is_proved answers. How much memory is taken, and what is
   copied, is neither. That this header's numbers, types and arguments are those of the proved functions is compared by a
   test. That pointers and lengths are as said above is up to the caller. The manual page wolzenn(3) lists all functions;
   docs/LIBRARY.md of the repository has first programs.

   A program that was written when this header had one type of handle defines WZ_OLD_NAMES before it includes it: then
   all handles are a wz_handle, which wz_close closes, codes and reasons are a uint32_t, and reasons, modes and
   operations have their old names too. The functions are the same. */
#ifndef WOLZENN_H
#define WOLZENN_H

#include <stdbool.h>
#include <stddef.h>
#include <stdint.h>

/* What a compiler may see to: that a pointer isn't null, by its place among the parameters, and that an answer isn't
   dropped. */
#if defined(__GNUC__)
#define WZ_NONNULL(...) __attribute__((nonnull(__VA_ARGS__)))
#define WZ_ANSWER __attribute__((warn_unused_result))
#else
#define WZ_NONNULL(...)
#define WZ_ANSWER
#endif

/* An enum that has the size of a uint32_t. */
#if defined(WZ_OLD_NAMES)
#define WZ_ENUM(name) enum
#elif defined(__cplusplus)
#define WZ_ENUM(name) enum name : uint32_t
#else
#define WZ_ENUM(name) enum name
#endif

#ifdef __cplusplus
extern "C" {
#endif

/* The version of this header, and that of the library that the program runs with. They are the same number unless the
   header belongs to another version of the library. Where that may be, a program compares them before any other call:
   of another version a struct may have another layout. */
#define WZ_VERSION 8u
uint32_t wz_version(void);

/* Whether the library was built of sources that had been proved on the machine that built it. */
bool wz_is_proved(void);

/* What a function answers. */
WZ_ENUM(wz_code) {
  WZ_DONE = 0,      /* it was done */
  WZ_NO_MEMORY = 1, /* malloc or realloc failed */
  WZ_CLOSED = 2,    /* the handle holds nothing of the kind that the function works on */
  WZ_SMALL = 3,     /* the buffer is too small: nothing was written to it */
  WZ_END = 4,       /* there is no more */
  WZ_TOO_LARGE = 5, /* the batch would have more than WZ_MAX_BATCH bytes */
  WZ_DAMAGE = 6,    /* the log ends in a way that the mode doesn't accept */
  WZ_NO_BATCH = 7,  /* the bytes are no batch */
  WZ_RANGE = 8,     /* a number is none of those that the function takes */
  WZ_UNREAD = 9     /* a record was found, and before it a stretch of the log in which none reads */
};

/* Why reading or recovery ended, or why bytes are no batch: `why` of wz_end. The reason's own numbers are in `first`
   and `second`, which are 0 where it has none. `at` is the offset of the fragment or the record that the reason is
   about. */
WZ_ENUM(wz_why) {
  WZ_WHY_CLEAN = 1,        /* the log ends after a whole record, or in or after the zeros that end its block, or is
                              empty: `at` is its length, which may be past `kept` of its recovery */
  WZ_WHY_SHORT_HEADER = 2, /* a fragment's header is incomplete */
  WZ_WHY_ZEROS = 3,        /* a header of zeros */
  WZ_WHY_BAD_LENGTH = 4,   /* a fragment passes the end of its block or of the log */
  WZ_WHY_BAD_TYPE = 5,     /* a fragment of no type that such a log has: first is its type */
  WZ_WHY_BAD_CHECKSUM = 6, /* a fragment's checksum doesn't match its bytes */
  WZ_WHY_BAD_TRAILER = 7,  /* bytes that aren't zeros where a block ends */
  WZ_WHY_OLD_LOG = 8,      /* a fragment of another log: first is that log's number */
  WZ_WHY_BAD_ORDER = 9,    /* a fragment is where none of its type may be */
  WZ_WHY_UNFINISHED = 10,  /* the log ends inside a record */
  WZ_WHY_SHORT = 11,       /* a batch whose header or record is incomplete */
  WZ_WHY_BAD_VARINT = 12,  /* a length or a family in a batch isn't in its shortest spelling, or is too long */
  WZ_WHY_TAG = 13,         /* a record of a batch has a tag that isn't read: first is the tag */
  WZ_WHY_COUNT = 14,       /* a batch's header has another count (first) than its records (second) */
  WZ_WHY_ORDER = 15,       /* a batch's run of sequences begins (first) at or below the last one before it (second) */
  WZ_WHY_HIGH = 16         /* a batch's run of sequences passes 2^56 - 1: its first one (first), their count (second) */
};

/* Which ends of a log recovery accepts. */
WZ_ENUM(wz_mode) {
  WZ_MODE_POINT = 0,   /* any: the records before it are recovered (kPointInTimeRecovery) */
  WZ_MODE_TAIL = 1,    /* that of a whole log, and one where the last write is incomplete */
  WZ_MODE_ABSOLUTE = 2 /* that of a whole log (kAbsoluteConsistency) */
};
/* After the end of a log that was written over an older one come the older bytes, and they may show as any of the
   reasons: there only WZ_MODE_POINT is sure to accept the end. A log that has a number and is read with another one
   (not 0) ends at 0 with WZ_WHY_OLD_LOG, which each mode accepts, so that nothing is recovered. */

/* What a record of a batch does. Those with CF name the column family of their key; the others are about the default
   one, whose number is 0. */
WZ_ENUM(wz_kind) {
  WZ_KIND_DELETION = 0,           /* takes a key out */
  WZ_KIND_VALUE = 1,              /* gives a key a value */
  WZ_KIND_LOG_DATA = 3,           /* is in the log only, and takes no sequence: its bytes are the key of wz_op */
  WZ_KIND_DELETION_CF = 4,        /* takes a key of a family out */
  WZ_KIND_VALUE_CF = 5,           /* gives a key of a family a value */
  WZ_KIND_SINGLE_DELETION = 7,    /* takes a key out that was set at most once */
  WZ_KIND_SINGLE_DELETION_CF = 8  /* takes a key of a family out that was set at most once */
};

/* The tag of an operation, of each kind that RocksDB writes (ValueType of its db/dbformat.h). Those with CF name the
   column family that they are about; the others are about the default one, or about none. After some come two strings:
   those are in brackets. A tag that isn't here isn't read, since it isn't known what follows it. */
WZ_ENUM(wz_tag) {
  WZ_TAG_DELETION = 0x00,             /* (key) */
  WZ_TAG_VALUE = 0x01,                /* (key, value) */
  WZ_TAG_MERGE = 0x02,                /* (key, operand) */
  WZ_TAG_LOG_DATA = 0x03,             /* (bytes), only in the log */
  WZ_TAG_DELETION_CF = 0x04,
  WZ_TAG_VALUE_CF = 0x05,
  WZ_TAG_MERGE_CF = 0x06,
  WZ_TAG_SINGLE_DELETION = 0x07,      /* (key) */
  WZ_TAG_SINGLE_DELETION_CF = 0x08,
  WZ_TAG_BEGIN_PREPARE = 0x09,        /* a transaction's preparation begins */
  WZ_TAG_END_PREPARE = 0x0a,          /* (name): it ends */
  WZ_TAG_COMMIT = 0x0b,               /* (name) */
  WZ_TAG_ROLLBACK = 0x0c,             /* (name) */
  WZ_TAG_NOTHING = 0x0d,
  WZ_TAG_RANGE_DELETION_CF = 0x0e,    /* (first key, the key after the last) */
  WZ_TAG_RANGE_DELETION = 0x0f,
  WZ_TAG_BLOB_INDEX_CF = 0x10,        /* (key, index) */
  WZ_TAG_BLOB_INDEX = 0x11,
  WZ_TAG_BEGIN_PERSISTED_PREPARE = 0x12,
  WZ_TAG_BEGIN_UNPREPARE = 0x13,
  WZ_TAG_COMMIT_WITH_TIMESTAMP = 0x15, /* (timestamp, name) */
  WZ_TAG_WIDE_COLUMNS = 0x16,         /* (key, columns) */
  WZ_TAG_WIDE_COLUMNS_CF = 0x17,
  WZ_TAG_VALUE_WITH_TIME = 0x18,      /* (key, value and the time when it was written) */
  WZ_TAG_VALUE_WITH_TIME_CF = 0x19
};

#define WZ_BLOCK_LEN 32768u       /* the bytes of a log's block */
#define WZ_BATCH_HEADER_LEN 12u   /* the bytes of a batch's header */
#define WZ_MAX_BATCH 16777216u    /* the most bytes of a batch that is built here */

/* What each handle is, whatever it holds. */
typedef struct wz_handle { bool full; void *at; } wz_handle;

#ifndef WZ_OLD_NAMES
typedef enum wz_code wz_code;
typedef enum wz_why wz_why;
typedef enum wz_mode wz_mode;
typedef enum wz_kind wz_kind;
typedef enum wz_tag wz_tag;
typedef char wz_enums_have_four_bytes[sizeof(wz_code) == 4 && sizeof(wz_why) == 4 && sizeof(wz_mode) == 4 &&
                                      sizeof(wz_kind) == 4 && sizeof(wz_tag) == 4 ? 1 : -1];

/* A reader of a log's records, a scan of them, what a log recovers, and a batch that is built. */
typedef struct wz_reader { wz_handle handle; } wz_reader;
typedef struct wz_scan { wz_handle handle; } wz_scan;
typedef struct wz_recovery { wz_handle handle; } wz_recovery;
typedef struct wz_batch { wz_handle handle; } wz_batch;
#ifdef __cplusplus
#define WZ_HANDLE_INIT {{false, nullptr}}
#else
#define WZ_HANDLE_INIT {{false, NULL}}
#endif
#else
typedef uint32_t wz_code;
typedef uint32_t wz_why;
typedef uint32_t wz_mode;
typedef uint32_t wz_kind;
typedef uint32_t wz_tag;
typedef wz_handle wz_reader;
typedef wz_handle wz_scan;
typedef wz_handle wz_recovery;
typedef wz_handle wz_batch;
#define WZ_HANDLE_INIT {0, 0}
enum {
  WZ_CLEAN = WZ_WHY_CLEAN,
  WZ_SHORT_HEADER = WZ_WHY_SHORT_HEADER,
  WZ_ZEROS = WZ_WHY_ZEROS,
  WZ_BAD_LENGTH = WZ_WHY_BAD_LENGTH,
  WZ_BAD_TYPE = WZ_WHY_BAD_TYPE,
  WZ_BAD_CHECKSUM = WZ_WHY_BAD_CHECKSUM,
  WZ_BAD_TRAILER = WZ_WHY_BAD_TRAILER,
  WZ_OLD_LOG = WZ_WHY_OLD_LOG,
  WZ_BAD_ORDER = WZ_WHY_BAD_ORDER,
  WZ_UNFINISHED = WZ_WHY_UNFINISHED,
  WZ_SHORT = WZ_WHY_SHORT,
  WZ_BAD_VARINT = WZ_WHY_BAD_VARINT,
  WZ_TAG = WZ_WHY_TAG,
  WZ_COUNT = WZ_WHY_COUNT,
  WZ_ORDER = WZ_WHY_ORDER,
  WZ_HIGH = WZ_WHY_HIGH,
  WZ_POINT = WZ_MODE_POINT,
  WZ_TAIL = WZ_MODE_TAIL,
  WZ_ABSOLUTE = WZ_MODE_ABSOLUTE,
  WZ_DELETION = WZ_KIND_DELETION,
  WZ_VALUE = WZ_KIND_VALUE,
  WZ_LOG_DATA = WZ_KIND_LOG_DATA,
  WZ_DELETION_CF = WZ_KIND_DELETION_CF,
  WZ_VALUE_CF = WZ_KIND_VALUE_CF,
  WZ_SINGLE_DELETION = WZ_KIND_SINGLE_DELETION,
  WZ_SINGLE_DELETION_CF = WZ_KIND_SINGLE_DELETION_CF
};
#endif

/* Where something ends, and why. */
typedef struct wz_end { uint64_t at; wz_why why; uint64_t first; uint64_t second; } wz_end;

/* A record: the offset of its first fragment, the offset after its last one, and how many bytes the record has. */
typedef struct wz_record { uint64_t start; uint64_t end; size_t len; } wz_record;

/* A stretch of a log in which no record reads. It begins where the record before it ends, or where the scan began, and
   ends where the next record begins. `end` is where and why reading first ended in it. */
typedef struct wz_unread { uint64_t from; uint64_t to; wz_end end; } wz_unread;

/* A recovery: how many records are kept, each of which is one batch; how many pairs they leave; the last sequence and
   the offset after the last record kept, each 0 where there is none; and where and why it ended. wz_recover_more says
   what it means where there are several logs. */
typedef struct wz_recovered { size_t groups; size_t pairs; uint64_t last; uint64_t kept; wz_end end; } wz_recovered;

/* The column family of a pair's key, and how many bytes its key and its value have. */
typedef struct wz_pair_lens { uint32_t family; size_t key_len; size_t value_len; } wz_pair_lens;

/* A batch's sequence, and how many of its records count. */
typedef struct wz_batch_head { uint64_t sequence; uint32_t count; } wz_batch_head;

/* A record of a batch: what it does, the column family that it names, or 0, and where in the batch's bytes its key and
   its value are. */
typedef struct wz_op {
  wz_kind kind;
  uint32_t family;
  size_t key_at;
  size_t key_len;
  size_t value_at;
  size_t value_len;
} wz_op;

/* A place in a log: the end of a record, or the log's start; and the last sequence up to there, 0 where there is none.
   It starts as zeros. */
typedef struct wz_place { uint64_t at; uint64_t last; } wz_place;

/* An operation of a batch, of any kind: its tag, the column family that it names, or 0, how many sequences it takes
   (one or none), how many strings it has (two at most), and where in the batch's bytes they are. Where it has no such
   string, the place and the length are 0. */
typedef struct wz_operation {
  wz_tag tag;
  uint32_t family;
  uint32_t sequences;
  uint32_t strings;
  size_t first_at;
  size_t first_len;
  size_t second_at;
  size_t second_len;
} wz_operation;

/* Frees what the handle holds. It holds nothing then. */
void wz_close(wz_handle *handle) WZ_NONNULL(1);
#ifndef WZ_OLD_NAMES
static inline void wz_reader_close(wz_reader *reader) { wz_close(&reader->handle); }
static inline void wz_scan_close(wz_scan *scan) { wz_close(&scan->handle); }
static inline void wz_recovery_close(wz_recovery *recovery) { wz_close(&recovery->handle); }
static inline void wz_batch_close(wz_batch *batch) { wz_close(&batch->handle); }
#endif

/* ---- texts ----
   They are constant, and never null. */

/* What a code means, in words: "no memory". */
const char *wz_code_text(wz_code code);

/* A reason in one word, without its numbers: "badlength". docs/RECOVERY.md of the repository says what it means. */
const char *wz_why_text(wz_why why);

/* ---- checksums ---- */

/* The CRC-32C of the bytes. */
uint32_t wz_crc32c(const void *bytes, size_t len);

/* The CRC-32C of some bytes followed by these bytes. `crc` is the CRC-32C of the first ones. */
uint32_t wz_crc32c_extend(uint32_t crc, const void *bytes, size_t len);

/* The form that a checksum has in a log: it is masked. */
uint32_t wz_crc32c_mask(uint32_t crc);

/* ---- reading a log ----
   `number` is the log's number where its fragments have one (RocksDB's recycle_log_file_num): that of the file's name,
   4 for 000004.log. It is 0 where they have none, as in LevelDB's logs and most of RocksDB's. A log with a number that
   is read with 0 ends at 0 with WZ_WHY_BAD_TYPE and 5 to 8. */

/* Opens a reader at the start of a log. WZ_DONE, WZ_NO_MEMORY. */
WZ_ANSWER wz_code wz_reader_open(wz_reader *reader, uint32_t number) WZ_NONNULL(1);

/* Opens a reader at a place of the log: the end of a record (record->end), or 0. So a log that grows is read on where
   an earlier reader ended, and each record is read once. At any other place it reads what would be read if a record
   ended there: at a block's start, a multiple of WZ_BLOCK_LEN, the record that begins there, or where what is there
   continues another record, the end WZ_WHY_BAD_ORDER. A scan goes on after that. The log's bytes are all of them, from
   its start on, and the same as at each later call of this reader. WZ_DONE. WZ_RANGE: the log ends before the place.
   WZ_NO_MEMORY. At any answer except WZ_DONE the handle holds nothing. */
WZ_ANSWER wz_code wz_reader_open_at(wz_reader *reader, uint32_t number, uint64_t place, const void *log,
                                    size_t log_len) WZ_NONNULL(1);

/* Reads the next record of the log. The log's bytes must be the same at each call of this reader: a log that has grown
   needs a new reader, since this one keeps a copy of a block. WZ_DONE: record->start is the offset of the record's
   first fragment, record->end the offset after its last one, and record->len how many bytes the record has;
   wz_reader_record copies it. WZ_END: *end says at which offset no more is read, and why. WZ_NO_MEMORY. After WZ_END
   and WZ_NO_MEMORY each further call answers the same. WZ_CLOSED: the handle holds no reader. */
WZ_ANSWER wz_code wz_reader_next(wz_reader *reader, const void *log, size_t log_len, wz_record *record, wz_end *end)
    WZ_NONNULL(1, 4, 5);

/* The same, but it skips the batches that take no sequence or whose last sequence is lower than `since`. A record that
   is no batch isn't skipped. */
WZ_ANSWER wz_code wz_reader_next_since(wz_reader *reader, uint64_t since, const void *log, size_t log_len,
                                       wz_record *record, wz_end *end) WZ_NONNULL(1, 5, 6);

/* Copies the record that the last wz_reader_next or wz_reader_next_since read to the start of the buffer, and touches
   nothing after it. WZ_DONE. WZ_SMALL. WZ_END: that call read none, or there was no such call yet. WZ_CLOSED: the
   handle holds no reader. */
WZ_ANSWER wz_code wz_reader_record(wz_reader *reader, void *buffer, size_t buffer_len) WZ_NONNULL(1);

/* ---- reading a log also after damage ----
   A scan finds the records of a log as a reader does, and where reading ends by damage it goes on after it, as `wzlog
   scan` does: where the damaged fragment should end, or at the next block (WZ_BLOCK_LEN). What continues a record whose
   beginning isn't there is skipped. If from the start of a block fragments follow one another that read, and the
   last of them are one record, then a scan from the log's start finds that record, whatever is damaged elsewhere;
   except in a compressed log, of which a scan from its start reads nothing. What is found after damage is there, and
   isn't recovered: between two records something may be missing, and what follows damage may be of another history. */

/* Opens a scan at a place of the log: the end of a record (record->end), or 0. So a log that grows is scanned on where
   an earlier scan ended. At any other place it finds what would be found if a record ended there. The log's bytes are
   all of them, from its start on, and the same as at each later call of this scan. WZ_DONE. WZ_RANGE: the log ends
   before the place. WZ_NO_MEMORY. At any answer except WZ_DONE the handle holds nothing. */
WZ_ANSWER wz_code wz_scan_open_at(wz_scan *scan, uint32_t number, uint64_t place, const void *log, size_t log_len)
    WZ_NONNULL(1);

/* Finds the next record of the log. The log's bytes must be the same at each call of this scan: a log that has grown
   needs a new one. WZ_DONE: *record is the record, as wz_reader_next gives it, and it begins where the one before it
   ends, or where the scan began; or only zeros that end a block are between. WZ_UNREAD: *record is the record, and
   *unread is the stretch before it, in which no record reads. WZ_END: no record follows, and *end says at which offset
   reading first ended since the last record, and why. WZ_NO_MEMORY. After WZ_END and WZ_NO_MEMORY each further call
   answers the same. WZ_CLOSED: the handle holds no scan. */
WZ_ANSWER wz_code wz_scan_next(wz_scan *scan, const void *log, size_t log_len, wz_record *record, wz_unread *unread,
                               wz_end *end) WZ_NONNULL(1, 4, 5, 6);

/* Copies the record that the last wz_scan_next found to the start of the buffer, and touches nothing after it. WZ_DONE.
   WZ_SMALL. WZ_END: that call found none, or there was no such call yet. WZ_CLOSED: the handle holds no scan. */
WZ_ANSWER wz_code wz_scan_record(wz_scan *scan, void *buffer, size_t buffer_len) WZ_NONNULL(1);

/* ---- recovering a log ---- */

/* Recovers a log: the batches before the first place that can't be read, or where a record is no batch or its
   sequences don't rise or are too high. Runs of sequences may leave gaps; a batch none of whose records counts is kept
   whatever its sequence. WZ_DONE: *summary says what was recovered, and the handle holds the pairs of key and value.
   They are those of this log alone, over an empty map: a deletion leaves no pair, also of a key that a database has in
   its tables or in earlier logs. A caller who needs deletions reads record by record; wz_recover_more recovers later
   logs. A log may be resumed at summary->kept.
   WZ_DAMAGE: the mode doesn't accept the end; summary->end says where and why, and the rest of *summary is 0.
   WZ_RANGE: there is no such mode. WZ_NO_MEMORY. At any answer except WZ_DONE the handle holds nothing. */
WZ_ANSWER wz_code wz_recover(wz_recovery *recovery, uint32_t number, wz_mode mode, const void *log, size_t log_len,
                             wz_recovered *summary) WZ_NONNULL(1, 6);

/* Recovers one more log into the recovery that a handle holds: the log that was written right after those. Its batches
   change their pairs, and their sequences must rise above the last one of those. So several logs are recovered in the
   order in which they were written, the first by wz_recover and each later one by this call. WZ_DONE: the handle holds
   the pairs of all of them. summary->pairs and summary->last are about all, the rest of *summary is about this one.
   WZ_END: an earlier log isn't whole, so that recovery ended in it, and no later one is recovered. A log is whole where
   its recovery ends with WZ_WHY_CLEAN; or, if it has a number, with WZ_WHY_OLD_LOG and a lower number right after the
   last record kept, as a log does that was written over an older one. WZ_DAMAGE: the mode doesn't accept the end;
   summary->end says where and why, and the rest of *summary is 0. WZ_RANGE: there is no such mode. WZ_NO_MEMORY.
   WZ_CLOSED: the handle holds no recovery. At any answer except WZ_DONE the handle holds what it held: after WZ_DAMAGE
   it is as if this log hadn't been given, so recover no later one over it. Each call copies the pairs of all logs so
   far: a handle that was given this recovery by wz_recovery_share keeps it as it was. */
WZ_ANSWER wz_code wz_recover_more(wz_recovery *recovery, uint32_t number, wz_mode mode, const void *log, size_t log_len,
                                  wz_recovered *summary) WZ_NONNULL(1, 6);

/* Moves a place of the log to the end of the last record that wz_recover keeps, where the log may be resumed; its last
   sequence is the last one that is kept. No pair is made, and no more memory is taken than for a block and a record.
   *place starts as zeros: the log's start. For a log that follows another one, which is whole (wz_recover_more says
   when), it starts at 0 with the last sequence of that one. Where it is what an earlier call left of a log that has
   grown, only what came after it is read: the log's bytes are all of them nevertheless, from its start on. WZ_DONE:
   *end says where recovery ends, and why; any end is accepted (WZ_MODE_POINT). WZ_RANGE: the log ends before the place.
   WZ_NO_MEMORY. At the last two *place stays as it was. Whether the log is kept up to the place isn't looked at: it is
   read on from there as if it were, but where *place and *end go from any other place isn't promised. */
WZ_ANSWER wz_code wz_recover_place(uint32_t number, const void *log, size_t log_len, wz_place *place, wz_end *end)
    WZ_NONNULL(4, 5);

/* The column family of a pair's key, and how many bytes its key and its value have. The pairs are by family, the
   default one (0) first, and in a family in the byte order of their keys, with indices from 0. WZ_DONE. WZ_END: there
   is no such pair. WZ_CLOSED: the handle holds no recovery. */
WZ_ANSWER wz_code wz_pair_len(wz_recovery *recovery, size_t index, wz_pair_lens *lens) WZ_NONNULL(1, 3);

/* Copies the key and the value of the pair with this index to the starts of the two buffers, and touches nothing after
   them. WZ_DONE. WZ_SMALL: one of the buffers is too small, and neither was written to. WZ_END. WZ_CLOSED. */
WZ_ANSWER wz_code wz_pair(wz_recovery *recovery, size_t index, void *key, size_t key_len, void *value,
                          size_t value_len) WZ_NONNULL(1);

/* How many pairs have a key before this one of this column family: the index of its own pair, if it has one, otherwise
   the index that it would have. WZ_DONE: the key has a pair, and *index is its index. WZ_END: it has none, and *index
   is that of the next key's pair, or how many pairs there are. WZ_CLOSED: the handle holds no recovery. */
WZ_ANSWER wz_code wz_pair_find(wz_recovery *recovery, uint32_t family, const void *key, size_t key_len, size_t *index)
    WZ_NONNULL(1, 5);

/* Puts a recovery into another handle too, which may not be the same one. Each of the two is used by one thread at a
   time, as ever: so several threads look up pairs at once, each by a handle of its own. Nothing is copied, and what was
   recovered is freed with the last of these handles. What the other handle held before is freed. WZ_DONE: it holds the
   recovery. WZ_NO_MEMORY. WZ_CLOSED: the first handle holds no recovery. At these two the other one holds nothing. The
   first one holds what it held. */
WZ_ANSWER wz_code wz_recovery_share(wz_recovery *recovery, wz_recovery *other) WZ_NONNULL(1, 2);

/* ---- building a batch ---- */

/* Opens a batch of no records, with the sequence 0. WZ_DONE, WZ_NO_MEMORY. */
WZ_ANSWER wz_code wz_batch_new(wz_batch *batch) WZ_NONNULL(1);

/* Adds a record after the others. WZ_DONE. At any other answer the batch is as it was: WZ_TOO_LARGE. WZ_NO_MEMORY.
   WZ_CLOSED: the handle holds no batch. */
WZ_ANSWER wz_code wz_batch_put(wz_batch *batch, const void *key, size_t key_len, const void *value, size_t value_len)
    WZ_NONNULL(1);
WZ_ANSWER wz_code wz_batch_delete(wz_batch *batch, const void *key, size_t key_len) WZ_NONNULL(1);
WZ_ANSWER wz_code wz_batch_single_delete(wz_batch *batch, const void *key, size_t key_len) WZ_NONNULL(1);
WZ_ANSWER wz_code wz_batch_log_data(wz_batch *batch, const void *blob, size_t blob_len) WZ_NONNULL(1);

/* The same for a key of a column family. The record names the family, as those of RocksDB do, unless it is 0: then it
   is that of the function above. */
WZ_ANSWER wz_code wz_batch_put_cf(wz_batch *batch, uint32_t family, const void *key, size_t key_len, const void *value,
                                  size_t value_len) WZ_NONNULL(1);
WZ_ANSWER wz_code wz_batch_delete_cf(wz_batch *batch, uint32_t family, const void *key, size_t key_len) WZ_NONNULL(1);
WZ_ANSWER wz_code wz_batch_single_delete_cf(wz_batch *batch, uint32_t family, const void *key, size_t key_len)
    WZ_NONNULL(1);

/* Adds the records of another batch's bytes after the others, so that several batches make one record of the log, a
   group. The other batch's sequence is ignored. WZ_NO_BATCH: the bytes are no batch (wz_batch_read says why), whatever
   the handle holds, and nothing has changed. Otherwise it answers like wz_batch_put. */
WZ_ANSWER wz_code wz_batch_append(wz_batch *batch, const void *bytes, size_t len) WZ_NONNULL(1);

/* Takes all records out, and sets the sequence to 0. WZ_DONE, WZ_CLOSED. */
WZ_ANSWER wz_code wz_batch_clear(wz_batch *batch) WZ_NONNULL(1);

/* Sets the batch's sequence, which is that of its first record that counts. WZ_DONE, WZ_CLOSED. Any number is taken.
   Recovery keeps a batch with such records only where its run begins above the last sequence before it, so at 1 or
   more, and ends at 2^56 - 1 or below. */
WZ_ANSWER wz_code wz_batch_set_sequence(wz_batch *batch, uint64_t sequence) WZ_NONNULL(1);

/* The batch's sequence, and how many of its records count: each of these takes a sequence. WZ_DONE, WZ_CLOSED. */
WZ_ANSWER wz_code wz_batch_get(wz_batch *batch, wz_batch_head *head) WZ_NONNULL(1, 2);

/* How many bytes the batch has. WZ_DONE, WZ_CLOSED. */
WZ_ANSWER wz_code wz_batch_len(wz_batch *batch, size_t *len) WZ_NONNULL(1, 2);

/* Copies the batch's bytes, which are those of RocksDB's WriteBatch::Data(), to the start of the buffer, and touches
   nothing after them. WZ_DONE, WZ_SMALL, WZ_CLOSED. */
WZ_ANSWER wz_code wz_batch_bytes(wz_batch *batch, void *buffer, size_t buffer_len) WZ_NONNULL(1);

/* ---- reading a batch ---- */

/* Checks the bytes of a batch. WZ_DONE: they are one, and *head has its sequence and its count. WZ_NO_BATCH:
   they are none, and *why says why: WZ_WHY_SHORT, WZ_WHY_BAD_VARINT, WZ_WHY_TAG or WZ_WHY_COUNT, with the offset 0;
   wz_batch_next finds the place of a record that can't be read. */
WZ_ANSWER wz_code wz_batch_read(const void *bytes, size_t len, wz_batch_head *head, wz_end *why) WZ_NONNULL(3, 4);

/* What the header of a batch's bytes says, whatever comes after it: its sequence and its count, also where an operation
   ends early or has a tag that isn't read, and where the count is another one than that of the operations. WZ_DONE.
   WZ_NO_BATCH: there are fewer than WZ_BATCH_HEADER_LEN bytes. */
WZ_ANSWER wz_code wz_batch_read_head(const void *bytes, size_t len, wz_batch_head *head) WZ_NONNULL(3);

/* The record at the place *at of a batch's bytes. *at starts as WZ_BATCH_HEADER_LEN; at a place where no record begins
   the bytes are read as if one did. WZ_DONE: *op says what the record does and where in the bytes its key and its
   value are, and *at is moved to the place after it. WZ_END: the bytes end there. WZ_NO_BATCH: no record is there, and
   *why says why, with this place as the offset. WZ_RANGE: *at is past the end. Except at WZ_DONE *at stays as it was.
   Where a record has no value, op->value_at and op->value_len are 0. Nothing is copied, and no memory is taken. */
WZ_ANSWER wz_code wz_batch_next(const void *bytes, size_t len, size_t *at, wz_op *op, wz_end *why) WZ_NONNULL(3, 4, 5);

/* The operation at the place *at of a batch's bytes, as wz_batch_next gives a record, but of any kind that RocksDB
   writes, also of those that wz_recover doesn't apply. WZ_DONE: *operation says what it is and where in the bytes its
   strings are, and *at is moved to the place after it. The other answers are those of wz_batch_next; at WZ_NO_BATCH
   with WZ_WHY_TAG it isn't known what follows the tag. */
WZ_ANSWER wz_code wz_operation_next(const void *bytes, size_t len, size_t *at, wz_operation *operation, wz_end *why)
    WZ_NONNULL(3, 4, 5);

/* ---- writing a log ----
   The file is the caller's. The caller writes what these functions give at the log's end, syncs the file when that
   should be safe, and keeps the offset. A log begins at the offset 0. So does one with a number that is written over
   an older file: there each record is written at its offset, and not at the file's end. A log that was recovered is
   resumed at `kept` of its summary, once the file is truncated there. `number` is as above. */

/* How many bytes a record of len bytes takes in a log that has `offset` bytes so far: its fragments, each after its
   header, and the zeros that end a block. The answer is the greatest size_t where they are more than that. */
size_t wz_log_record_len(uint32_t number, uint64_t offset, size_t len);

/* Puts the bytes that a record takes at this offset of a log at the start of the buffer, and touches nothing after
   them. WZ_DONE: *len says how many they are. WZ_SMALL. */
WZ_ANSWER wz_code wz_log_record(uint32_t number, uint64_t offset, const void *record, size_t record_len, void *buffer,
                                size_t buffer_len, size_t *len) WZ_NONNULL(7);

#ifdef __cplusplus
}
#endif
#endif
