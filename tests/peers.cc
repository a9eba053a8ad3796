// Runs a script on RocksDB itself, and prints each reply as the program would, for a refusal its first word alone. The
// log of the database at PATH is left as it was written. It has FAMILIES column families, one if left out: the default
// one, and those with the names f1, f2 and so on, which have these numbers.
//
//     peers script PATH [FAMILIES] < SCRIPT
//
// Or lets several threads write at once, to all these families, so that RocksDB makes groups of their batches.
//
//     peers threads PATH [FAMILIES]
//
// Or makes a database with no keys in these families.
//
//     peers empty PATH FAMILIES
//
// Or writes logs over older ones, by the option `recycle_log_file_num`, and copies each into the folder COPIES as it
// is before its database begins another log. The copy has the log's own name.
//
//     peers recycled PATH COPIES
//
// Or writes more than one memtable holds, of which no table is made, so that the database has several logs.
//
//     peers several PATH
//
// Or opens a database for reading alone, in the recovery mode `point`, `tail` or `absolute`, and says `yes` where it
// opens and `no` where it doesn't; or the pairs of its map in hexadecimal digits, an empty one as `-`.
//
//     peers opens PATH MODE
//     peers pairs PATH MODE

#include <rocksdb/db.h>
#include <rocksdb/transaction_log.h>
#include <rocksdb/write_batch.h>

#include <algorithm>
#include <cctype>
#include <cstdlib>
#include <filesystem>
#include <iostream>
#include <memory>
#include <sstream>
#include <string>
#include <thread>
#include <utility>
#include <vector>

// A database, and its column families by their numbers.
struct Families {
    std::unique_ptr<rocksdb::DB> db;
    std::vector<rocksdb::ColumnFamilyHandle*> all;

    Families() = default;
    Families(const Families&) = delete;
    ~Families() { close(); }

    bool close() {
        for (auto* one : all) db->DestroyColumnFamilyHandle(one);
        all.clear();
        return db == nullptr || db->Close().ok();
    }
};

static bool open(rocksdb::Options options, const std::string& path, int count, Families& families) {
    options.create_missing_column_families = true;
    std::vector<rocksdb::ColumnFamilyDescriptor> wanted = {{rocksdb::kDefaultColumnFamilyName, options}};
    for (int family = 1; family < count; family++) wanted.emplace_back("f" + std::to_string(family), options);
    rocksdb::DB* opened = nullptr;
    if (!rocksdb::DB::Open(options, path, wanted, &families.all, &opened).ok()) return false;
    families.db.reset(opened);
    for (int family = 0; family < count; family++)
        if (families.all[family]->GetID() != static_cast<uint32_t>(family)) return false;
    return true;
}

// The keys of a line `many A B`, or `fmany F A G B`, each with its family.
static std::vector<std::pair<size_t, std::string>> places_of(std::istringstream& words, bool has_families) {
    std::vector<std::pair<size_t, std::string>> places;
    size_t family = 0;
    std::string key;
    while ((!has_families || words >> family) && words >> key) places.emplace_back(family, key);
    return places;
}

static void tell_many(Families& families, const std::vector<std::pair<size_t, std::string>>& places) {
    std::cout << "many " << families.db->GetLatestSequenceNumber() << " " << places.size();
    for (const auto& [family, key] : places) {
        std::string found;
        bool there = families.db->Get(rocksdb::ReadOptions(), families.all[family], key, &found).ok();
        std::cout << (there ? " =" + found : " -");
    }
    std::cout << "\n";
}

static void tell_rows(Families& families, size_t family, const std::string& low, const std::string& high) {
    std::unique_ptr<rocksdb::Iterator> rows(families.db->NewIterator(rocksdb::ReadOptions(), families.all[family]));
    std::string found;
    int count = 0;
    for (rows->Seek(low); rows->Valid() && rows->key().compare(high) < 0; rows->Next(), count++)
        found += " " + rows->key().ToString() + " " + rows->value().ToString();
    std::cout << "scan " << families.db->GetLatestSequenceNumber() << " " << count << found << "\n";
}

// The batches of the log that `GetUpdatesSince` gives. It ends at a gap in the sequences, as a batch leaves one that stays
// out of the log: then what comes after the gap is asked for. A sequence that isn't there yet is refused.
static void tell_updates(rocksdb::DB& db, rocksdb::SequenceNumber since) {
    std::unique_ptr<rocksdb::TransactionLogIterator> updates;
    std::string found;
    int count = 0;
    while (db.GetUpdatesSince(since, &updates).ok() && updates->Valid()) {
        for (; updates->Valid(); updates->Next()) {
            auto batch = updates->GetBatch();
            found += " " + rocksdb::Slice(batch.writeBatchPtr->Data()).ToString(true);
            since = batch.sequence + batch.writeBatchPtr->Count();
            count++;
        }
    }
    std::transform(found.begin(), found.end(), found.begin(), [](unsigned char digit) { return std::tolower(digit); });
    std::cout << "updates " << db.GetLatestSequenceNumber() << " " << count << found << "\n";
}

static void run_script(Families& families) {
    rocksdb::DB& db = *families.db;
    rocksdb::WriteBatch batch;
    // Whether a record of the batch is of a family that there isn't.
    bool lacks_family = false;
    std::string line;
    while (std::getline(std::cin, line)) {
        std::istringstream words(line);
        std::string command, key, value;
        words >> command;
        if (command == "many" || command == "fmany") {
            auto places = places_of(words, command == "fmany");
            bool there = true;
            for (const auto& [family, one] : places) there = there && family < families.all.size();
            if (there) tell_many(families, places);
            else std::cout << "no\n";
            continue;
        }
        size_t family = 0;
        bool names_family = command.size() > 1 && command[0] == 'f';
        if (names_family) {
            words >> family;
            command.erase(0, 1);
        }
        words >> key >> value;
        if (family >= families.all.size()) {
            if (command == "get" || command == "scan") std::cout << "no\n";
            else lacks_family = true;
            continue;
        }
        auto* own = families.all[family];
        if (command == "put") batch.Put(own, key, value);
        if (command == "del") batch.Delete(own, key);
        if (command == "sdel") batch.SingleDelete(own, key);
        if (command == "note") batch.PutLogData(key);
        if (command == "clear") {
            batch.Clear();
            lacks_family = false;
        }
        if (command == "scan") tell_rows(families, family, key, value);
        if (command == "updates") tell_updates(db, std::stoull(key));
        if (command == "get") {
            std::string found;
            bool there = db.Get(rocksdb::ReadOptions(), own, key, &found).ok();
            std::cout << (there ? "val " : "nil ") << db.GetLatestSequenceNumber() << (there ? " " + found : "") << "\n";
        }
        if (command == "commit") {
            rocksdb::WriteOptions how;
            how.sync = key == "sync";
            how.disableWAL = key == "nolog" || value == "nolog";
            // RocksDB writes an empty batch too, which takes no sequence.
            if (batch.Count() > 0 && !lacks_family && db.Write(how, &batch).ok()) {
                auto last = db.GetLatestSequenceNumber();
                std::cout << "ok " << last - batch.Count() + 1 << " " << last << "\n";
                batch.Clear();
            } else {
                std::cout << "no\n";
            }
        }
    }
}

// Each batch writes to two families, where there are several, and the same keys are in all of them.
static void run_threads(Families& families) {
    std::vector<std::thread> threads;
    for (int client = 0; client < 8; client++) {
        threads.emplace_back([&families, client] {
            rocksdb::WriteOptions how;
            how.sync = true;
            for (int turn = 0; turn < 50; turn++) {
                auto* one = families.all[turn % families.all.size()];
                auto* other = families.all[(turn / 3 + client) % families.all.size()];
                rocksdb::WriteBatch batch;
                batch.Put(one, "key" + std::to_string(turn % 7), std::to_string(100 * client + turn));
                batch.PutLogData("by " + std::to_string(client));
                batch.Delete(other, "key" + std::to_string((turn + client) % 11));
                if (turn % 5 == 4) batch.Put(other, "own" + std::to_string(client), "");
                families.db->Write(how, &batch);
            }
        });
    }
    for (auto& thread : threads) thread.join();
}

// Each log has fewer batches than the one two before it, whose file it gets. In the first six all batches have the
// same size, so one log ends where an older one did. In the others they don't, and one batch takes several blocks.
static bool write_over(rocksdb::DB& db, const std::filesystem::path& path, const std::filesystem::path& copies) {
    for (int log = 0; log < 14; log++) {
        bool mixed = log >= 6;
        for (int turn = 0; turn < 30 - 2 * log; turn++) {
            rocksdb::WriteBatch batch;
            std::string value = std::to_string(1000 * log + turn + 1000);
            batch.Put("key" + std::to_string((7 * turn + log) % 10), mixed ? std::string(turn % 5, 'v') + value : value);
            if (mixed && turn % 3 == 0) batch.Delete("key" + std::to_string(turn % 10));
            if (mixed && turn % 4 == 1) batch.PutLogData("turn " + value);
            if (mixed && turn == 3) batch.Put("large", std::string(100000 - 3000 * log, 'l'));
            if (!db.Write(rocksdb::WriteOptions(), &batch).ok()) return false;
        }
        std::unique_ptr<rocksdb::LogFile> live;
        if (!db.GetCurrentWalFile(&live).ok()) return false;
        auto name = std::filesystem::path(live->PathName()).filename();
        std::filesystem::copy_file(path / name, copies / name);
        // A flush begins a new log.
        if (!db.Flush(rocksdb::FlushOptions()).ok()) return false;
    }
    return true;
}

// Batches of many sizes, some of which delete. One takes several blocks.
static bool write_several(rocksdb::DB& db) {
    for (int turn = 0; turn < 400; turn++) {
        rocksdb::WriteBatch batch;
        for (int key = turn % 3; key >= 0; key--)
            batch.Put("key" + std::to_string((7 * turn + key) % 90), std::string(turn % 900, 'v') + std::to_string(turn));
        if (turn % 5 == 2) batch.Delete("key" + std::to_string(turn % 90));
        if (turn % 7 == 3) batch.PutLogData("turn " + std::to_string(turn));
        if (turn == 150) batch.Put("large", std::string(100000, 'l'));
        if (!db.Write(rocksdb::WriteOptions(), &batch).ok()) return false;
    }
    return true;
}

// A recovery mode by the name that the program has for it.
static rocksdb::WALRecoveryMode mode_of(const std::string& word) {
    if (word == "tail") return rocksdb::WALRecoveryMode::kTolerateCorruptedTailRecords;
    if (word == "absolute") return rocksdb::WALRecoveryMode::kAbsoluteConsistency;
    return rocksdb::WALRecoveryMode::kPointInTimeRecovery;
}

static int tell_whether_opens(const std::string& path, const std::string& mode) {
    rocksdb::Options options;
    options.wal_recovery_mode = mode_of(mode);
    rocksdb::DB* opened = nullptr;
    auto status = rocksdb::DB::OpenForReadOnly(options, path, &opened);
    std::cout << (status.ok() ? "yes" : "no") << "\n";
    // Any other refusal says nothing of the log.
    if (!status.ok() && !status.IsCorruption()) std::cerr << status.ToString() << "\n";
    delete opened;
    return status.ok() || status.IsCorruption() ? 0 : 1;
}

static void print_hex(const rocksdb::Slice& text) { std::cout << (text.empty() ? "-" : text.ToString(true)); }

static int tell_pairs(const std::string& path, const std::string& mode) {
    rocksdb::Options options;
    options.wal_recovery_mode = mode_of(mode);
    rocksdb::DB* opened = nullptr;
    if (!rocksdb::DB::OpenForReadOnly(options, path, &opened).ok()) return 1;
    std::unique_ptr<rocksdb::DB> db(opened);
    std::unique_ptr<rocksdb::Iterator> pairs(db->NewIterator(rocksdb::ReadOptions()));
    for (pairs->SeekToFirst(); pairs->Valid(); pairs->Next()) {
        print_hex(pairs->key());
        std::cout << " ";
        print_hex(pairs->value());
        std::cout << "\n";
    }
    return pairs->status().ok() ? 0 : 1;
}

int main(int count, char** words) {
    if (count == 4 && words[1] == std::string("opens")) return tell_whether_opens(words[2], words[3]);
    if (count == 4 && words[1] == std::string("pairs")) return tell_pairs(words[2], words[3]);
    rocksdb::Options options;
    options.create_if_missing = true;
    bool recycles = count == 4 && words[1] == std::string("recycled");
    if (recycles) {
        options.recycle_log_file_num = 2;
        // In another mode RocksDB writes over no old file, and gives its logs no number.
        options.wal_recovery_mode = rocksdb::WALRecoveryMode::kSkipAnyCorruptedRecords;
    }
    bool has_several = count == 3 && words[1] == std::string("several");
    if (has_several) {
        // Each memtable has a log of its own, and a table is made of a number of memtables that isn't reached.
        options.write_buffer_size = 64 << 10;
        options.max_write_buffer_number = 32;
        options.min_write_buffer_number_to_merge = 31;
    }
    // Otherwise what stays out of the log would be flushed to a table at the end.
    options.avoid_flush_during_shutdown = true;
    const std::vector<std::string> of_families = {"script", "threads", "empty"};
    bool has_families = std::find(of_families.begin(), of_families.end(), count > 1 ? words[1] : "") != of_families.end();
    Families families;
    int number = has_families && count == 4 ? std::atoi(words[3]) : 1;
    if ((count != 3 && !recycles && !(has_families && count == 4)) || number < 1) return 1;
    if (!open(options, words[2], number, families)) return 1;
    rocksdb::DB& db = *families.db;
    if (words[1] == std::string("script")) run_script(families);
    if (words[1] == std::string("threads")) run_threads(families);
    if (recycles && !write_over(db, words[2], words[3])) return 1;
    if (has_several && !write_several(db)) return 1;
    return families.close() ? 0 : 1;
}
