// What the script `recover` in this folder measures LevelDB and RocksDB with: how long one of them takes to open a
// database that has a given log to recover from, as after a crash. It is built against the library that the macro PEER
// names, `leveldb` or `rocksdb`, whose calls are alike.
//
//     recover_peer FOLDER LOG tables FAMILIES    opens with the library's own settings: what it recovers goes into tables
//     recover_peer FOLDER LOG memory FAMILIES    opens so that it stays in memory
//
// The database has this number of column families; only RocksDB has more than one. The folder is made, and must not exist. What is printed is the microseconds of the processor, for all the program's
// threads and for the system's work for them, and how many keys the database then has.

#include <sys/resource.h>

#include <filesystem>
#include <iostream>
#include <memory>
#include <stdexcept>
#include <string>
#include <vector>

#define TEXT_OF(words) #words
#define HEADER_OF(peer) TEXT_OF(peer/db.h)
#include HEADER_OF(PEER)

namespace fs = std::filesystem;

// More bytes than the records of a log take in memory.
constexpr size_t kRoom = size_t{1} << 30;

void check(const PEER::Status& status) {
    if (!status.ok()) throw std::runtime_error(status.ToString());
}

// An open database, and its families.
struct Opened {
    std::unique_ptr<PEER::DB> database;
#ifdef ROCKSDB_MAJOR
    std::vector<PEER::ColumnFamilyHandle*> families;

    Opened() = default;
    Opened(Opened&&) = default;
    ~Opened() {
        for (auto* family : families) database->DestroyColumnFamilyHandle(family);
    }
#endif
};

Opened opened(PEER::Options options, const std::string& folder, int families) {
    PEER::DB* database = nullptr;
    Opened made;
#ifdef ROCKSDB_MAJOR
    options.create_missing_column_families = true;
    std::vector<PEER::ColumnFamilyDescriptor> wanted = {{PEER::kDefaultColumnFamilyName, options}};
    for (int family = 1; family < families; family++) wanted.emplace_back("f" + std::to_string(family), options);
    check(PEER::DB::Open(options, folder, wanted, &made.families, &database));
#else
    if (families > 1) throw std::runtime_error("there are no column families");
    check(PEER::DB::Open(options, folder, &database));
#endif
    made.database.reset(database);
    return made;
}

template <class Options>
void stay_in_memory(Options& options) {
    options.write_buffer_size = kRoom;
    if constexpr (requires { options.reuse_logs; }) {
        options.reuse_logs = true;
    } else {
        options.avoid_flush_during_recovery = true;
    }
}

// Puts the log in place of the one that a new database has left.
void replace_log(const std::string& folder, const std::string& log) {
    for (const auto& file : fs::directory_iterator(folder)) {
        if (file.path().extension() == ".log") {
            fs::copy_file(log, file.path(), fs::copy_options::overwrite_existing);
            return;
        }
    }
    throw std::runtime_error("the new database has no log");
}

long long micros_of(const timeval& time) { return time.tv_sec * 1'000'000LL + time.tv_usec; }

// The processor time so far.
long long spent() {
    rusage usage{};
    if (getrusage(RUSAGE_SELF, &usage) != 0) throw std::runtime_error("the system tells no processor time");
    return micros_of(usage.ru_utime) + micros_of(usage.ru_stime);
}

long long keys_of(std::unique_ptr<PEER::Iterator> rows) {
    long long keys = 0;
    for (rows->SeekToFirst(); rows->Valid(); rows->Next()) keys++;
    check(rows->status());
    return keys;
}

// How many keys all families have together.
long long keys_of(const Opened& made) {
#ifdef ROCKSDB_MAJOR
    long long keys = 0;
    for (auto* family : made.families)
        keys += keys_of(std::unique_ptr<PEER::Iterator>(made.database->NewIterator(PEER::ReadOptions(), family)));
    return keys;
#else
    return keys_of(std::unique_ptr<PEER::Iterator>(made.database->NewIterator(PEER::ReadOptions())));
#endif
}

int main(int count, char** words) try {
    if (count != 5) throw std::runtime_error("usage: recover_peer FOLDER LOG tables|memory FAMILIES");
    const std::string folder = words[1];
    const int families = std::stoi(words[4]);
    PEER::Options options;
    options.create_if_missing = true;
    if (std::string(words[3]) == "memory") stay_in_memory(options);
    { const auto made = opened(options, folder, families); }
    replace_log(folder, words[2]);
    const long long start = spent();
    const auto made = opened(options, folder, families);
    const long long end = spent();
    std::cout << end - start << ' ' << keys_of(made) << '\n';
} catch (const std::exception& error) {
    std::cerr << "recover_peer: " << error.what() << '\n';
    return 1;
}
