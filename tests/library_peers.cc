// Has RocksDB or LevelDB write a log, for `library` in this folder, and prints what is written, in the form in which
// the example print_log prints it. With RocksDB it also makes many batches by draws, some of keys in four column
// families, and compares their bytes with those that the library makes.
//
//     library_peers FOLDER
//
// It is built against the library that the macro PEER names, `leveldb` or `rocksdb`, whose calls are alike.

#include <cstdio>
#include <memory>
#include <random>
#include <stdexcept>
#include <string>
#include <vector>

#include "wolzenn.h"

#define TEXT_OF(words) #words
#define HEADER_OF(file) TEXT_OF(file)
#define DATABASE PEER/db.h
#define BATCH PEER/write_batch.h
#include HEADER_OF(DATABASE)
#include HEADER_OF(BATCH)

static void check(bool holds, const std::string& what) {
    if (!holds) throw std::runtime_error(what);
}

static std::string hex(const std::string& text) {
    std::string found;
    char digits[3];
    for (unsigned char byte : text) {
        std::snprintf(digits, sizeof digits, "%02x", byte);
        found += digits;
    }
    return found.empty() ? "-" : found;
}

static std::mt19937 draws(7);

static std::string text() {
    std::string found(draws() % 8 == 0 ? draws() % 40000 : draws() % 6, ' ');
    for (char& byte : found) byte = static_cast<char>(draws());
    return found;
}

static const uint8_t* bytes(const std::string& text) {
    return reinterpret_cast<const uint8_t*>(text.data());
}

#ifdef ROCKSDB_MAJOR
// The column families of the database, by their numbers.
static std::vector<PEER::ColumnFamilyHandle*> families;

// Adds an operation on a key of this family to both batches, and answers it in the form in which print_log prints it.
// The default family isn't named.
static std::string add_in(uint32_t family, PEER::WriteBatch& theirs, wz_batch* ours) {
    std::string key = text(), value = text(), name = family == 0 ? "" : std::to_string(family) + " ";
    auto kind = draws() % 4;
    if (kind == 0) {
        theirs.Delete(families[family], key);
        check(wz_batch_delete_cf(ours, family, bytes(key), key.size()) == WZ_DONE, "a deletion in a family");
        return "  del " + name + hex(key) + "\n";
    }
    if (kind == 1) {
        theirs.SingleDelete(families[family], key);
        check(wz_batch_single_delete_cf(ours, family, bytes(key), key.size()) == WZ_DONE, "a single one in a family");
        return "  sdel " + name + hex(key) + "\n";
    }
    theirs.Put(families[family], key, value);
    auto code = wz_batch_put_cf(ours, family, bytes(key), key.size(), bytes(value), value.size());
    check(code == WZ_DONE, "a value in a family");
    return "  put " + name + hex(key) + " " + hex(value) + "\n";
}
#endif

// Adds an operation to both batches, and answers it in the form in which print_log prints it.
template <class Batch>
static std::string add(Batch& theirs, wz_batch* ours) {
#ifdef ROCKSDB_MAJOR
    if (auto family = draws() % (2 * families.size()); family < families.size()) return add_in(family, theirs, ours);
#endif
    std::string key = text(), value = text();
    wz_code code = WZ_DONE;
    std::string line;
    auto kind = draws() % 6;
    if (kind == 0) {
        theirs.Delete(key);
        code = wz_batch_delete(ours, bytes(key), key.size());
        line = "  del " + hex(key);
    } else if constexpr (requires { theirs.SingleDelete(key); }) {
        if (kind == 1) {
            theirs.SingleDelete(key);
            code = wz_batch_single_delete(ours, bytes(key), key.size());
            line = "  sdel " + hex(key);
        } else if (kind == 2) {
            theirs.PutLogData(value);
            code = wz_batch_log_data(ours, bytes(value), value.size());
            line = "  note " + hex(value);
        }
    }
    if (line.empty()) {
        theirs.Put(key, value);
        code = wz_batch_put(ours, bytes(key), key.size(), bytes(value), value.size());
        line = "  put " + hex(key) + " " + hex(value);
    }
    check(code == WZ_DONE, "an addition");
    return line + "\n";
}

// Compares the bytes of both, where the peer shows its own.
template <class Batch>
static void compare(const Batch& theirs, wz_batch* ours) {
    if constexpr (requires { theirs.Data(); }) {
        size_t len = 0;
        check(wz_batch_len(ours, &len) == WZ_DONE, "a length");
        std::string found(len, ' ');
        check(wz_batch_bytes(ours, &found[0], len) == WZ_DONE, "bytes");
        check(found == theirs.Data(), "the bytes of a batch");
    }
}

int main(int argc, char** argv) {
    if (argc != 2) return 2;
    PEER::Options options;
    options.create_if_missing = true;
    PEER::DB* opened = nullptr;
#ifdef ROCKSDB_MAJOR
    options.create_missing_column_families = true;
    std::vector<PEER::ColumnFamilyDescriptor> wanted = {{PEER::kDefaultColumnFamilyName, options}};
    for (int family = 1; family < 4; family++) wanted.emplace_back("f" + std::to_string(family), options);
    check(PEER::DB::Open(options, argv[1], wanted, &families, &opened).ok(), "an opening");
#else
    check(PEER::DB::Open(options, argv[1], &opened).ok(), "an opening");
#endif
    std::unique_ptr<PEER::DB> database(opened);
    wz_batch ours = WZ_HANDLE_INIT;
    for (int turn = 0; turn < 400; turn++) {
        PEER::WriteBatch theirs;
        std::string lines;
        check(wz_batch_new(&ours) == WZ_DONE, "a batch");
        for (auto count = 1 + draws() % 4; count > 0; count--) lines += add(theirs, &ours);
        compare(theirs, &ours);
        // The log of the last fifty batches is read back. All of them would be more than a log may have before the
        // database begins another log.
        if (turn % 8 != 0) continue;
        check(database->Write(PEER::WriteOptions(), &theirs).ok(), "a write");
        std::fputs(lines.c_str(), stdout);
    }
    wz_batch_close(&ours);
#ifdef ROCKSDB_MAJOR
    for (auto* family : families) database->DestroyColumnFamilyHandle(family);
#endif
    return 0;
}
