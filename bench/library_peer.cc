// What the script `library` in this folder measures the library with, and compares it with LevelDB and RocksDB where
// the macros LEVELDB and ROCKSDB say that they are installed.
//
//     library_peer LOG ROUNDS FOLDER
//
// LOG is a log of batches; it is in memory for all tasks but RocksDB's reading. Each task is done ROUNDS times, one
// after the other, and the best processor time counts. A line is printed for each: what was done, by whom, the
// microseconds, and how many bytes.
//
//   read     each record is read and its checksum compared. LevelDB's is its `log::Reader`, with which it recovers;
//            RocksDB's are the updates of a database (`GetUpdatesSince`) in FOLDER, which isn't there and is made
//   write    each record is put to a log in memory. LevelDB's is its `log::Writer`
//   recover  the map of the log, with the time to free it
//   batch    batches of a hundred puts, with a key of 16 bytes and a value of 100, are built
//
// LevelDB's reader and writer are in its archive, but not in its headers. So they are declared here once more, with
// room for their fields.

#include <sys/resource.h>

#include <cstring>
#include <filesystem>
#include <fstream>
#include <functional>
#include <iostream>
#include <iterator>
#include <memory>
#include <stdexcept>
#include <string>
#include <vector>

#include "wolzenn.h"

#ifdef LEVELDB
#include <leveldb/env.h>
#include <leveldb/write_batch.h>
namespace leveldb::log {
class Reader {
 public:
    class Reporter {
     public:
        virtual ~Reporter();
        virtual void Corruption(size_t bytes, const Status& status) = 0;
    };
    Reader(SequentialFile* file, Reporter* reporter, bool checksum, uint64_t initial_offset);
    ~Reader();
    bool ReadRecord(Slice* record, std::string* scratch);

 private:
    char fields_[1024];
};
class Writer {
 public:
    explicit Writer(WritableFile* dest);
    ~Writer();
    Status AddRecord(const Slice& slice);

 private:
    char fields_[1024];
};
}  // namespace leveldb::log
#endif
#ifdef ROCKSDB
#include <rocksdb/db.h>
#include <rocksdb/transaction_log.h>
#include <rocksdb/write_batch.h>
#endif

static void check(bool holds, const char* what) {
    if (!holds) throw std::runtime_error(what);
}

static const uint8_t* bytes(const std::string& text) {
    return reinterpret_cast<const uint8_t*>(text.data());
}
static uint8_t* bytes(std::string& text) {
    return reinterpret_cast<uint8_t*>(&text[0]);
}

// The processor time so far, in microseconds.
static long long spent() {
    rusage usage{};
    check(getrusage(RUSAGE_SELF, &usage) == 0, "the system tells no processor time");
    auto micros = [](const timeval& time) { return time.tv_sec * 1'000'000LL + time.tv_usec; };
    return micros(usage.ru_utime) + micros(usage.ru_stime);
}

struct Task {
    std::string what, who;
    size_t bytes;
    std::function<size_t()> run;
    long long best = 0;
};

static size_t read_by_library(const std::string& log) {
    std::string record(1 << 20, ' ');
    wz_reader reader = WZ_HANDLE_INIT;
    wz_record found;
    wz_end end;
    size_t sum = 0;
    check(wz_reader_open(&reader, 0) == WZ_DONE, "a reader");
    while (wz_reader_next(&reader, bytes(log), log.size(), &found, &end) == WZ_DONE) {
        if (found.len > record.size()) record.resize(found.len);
        check(wz_reader_record(&reader, bytes(record), record.size()) == WZ_DONE, "a record");
        sum += found.len;
    }
    wz_reader_close(&reader);
    check(end.why == WZ_WHY_CLEAN, "a log that reads whole");
    return sum;
}

static std::vector<std::string> records_of(const std::string& log) {
    std::vector<std::string> records;
    wz_reader reader = WZ_HANDLE_INIT;
    wz_record found;
    wz_end end;
    check(wz_reader_open(&reader, 0) == WZ_DONE, "a reader");
    while (wz_reader_next(&reader, bytes(log), log.size(), &found, &end) == WZ_DONE) {
        records.emplace_back(found.len, ' ');
        check(wz_reader_record(&reader, bytes(records.back()), found.len) == WZ_DONE, "a record");
    }
    wz_reader_close(&reader);
    return records;
}

static size_t write_by_library(const std::vector<std::string>& records, std::string& log) {
    size_t offset = 0, len = 0;
    for (const auto& record : records) {
        uint8_t* to = bytes(log) + offset;
        size_t room = log.size() - offset;
        check(wz_log_record(0, offset, bytes(record), record.size(), to, room, &len) == WZ_DONE, "a record");
        offset += len;
    }
    return offset;
}

static size_t recover_by_library(const std::string& log) {
    wz_recovery recovery = WZ_HANDLE_INIT;
    wz_recovered found;
    check(wz_recover(&recovery, 0, WZ_MODE_ABSOLUTE, bytes(log), log.size(), &found) == WZ_DONE, "a recovery");
    wz_recovery_close(&recovery);
    return found.pairs;
}

enum { BATCHES = 4000, PUTS = 100 };

static size_t build_by_library(const std::string& key, const std::string& value) {
    wz_batch batch = WZ_HANDLE_INIT;
    size_t sum = 0, len = 0;
    check(wz_batch_new(&batch) == WZ_DONE, "a batch");
    for (int i = 0; i < BATCHES; i++) {
        check(wz_batch_clear(&batch) == WZ_DONE, "a batch is emptied");
        for (int j = 0; j < PUTS; j++) {
            check(wz_batch_put(&batch, bytes(key), key.size(), bytes(value), value.size()) == WZ_DONE, "a put");
        }
        check(wz_batch_len(&batch, &len) == WZ_DONE, "a length");
        sum += len;
    }
    wz_batch_close(&batch);
    return sum;
}

#if defined(LEVELDB) || defined(ROCKSDB)
template <class Batch>
static size_t build_by_peer(const std::string& key, const std::string& value) {
    Batch batch;
    size_t sum = 0;
    for (int i = 0; i < BATCHES; i++) {
        batch.Clear();
        for (int j = 0; j < PUTS; j++) batch.Put(key, value);
        if constexpr (requires { batch.ApproximateSize(); }) {
            sum += batch.ApproximateSize();
        } else {
            sum += batch.GetDataSize();
        }
    }
    return sum;
}
#endif

#ifdef LEVELDB
// Bytes in memory as a file to read.
class Source : public leveldb::SequentialFile {
 public:
    explicit Source(const std::string& log) : log_(log) {
    }
    leveldb::Status Read(size_t n, leveldb::Slice* result, char* scratch) override {
        n = std::min(n, log_.size() - at_);
        std::memcpy(scratch, log_.data() + at_, n);
        *result = leveldb::Slice(scratch, n);
        at_ += n;
        return leveldb::Status::OK();
    }
    leveldb::Status Skip(uint64_t n) override {
        return at_ += n, leveldb::Status::OK();
    }

 private:
    const std::string& log_;
    size_t at_ = 0;
};

// Room in memory as a file to write.
class Sink : public leveldb::WritableFile {
 public:
    explicit Sink(std::string& log) : log_(log) {
    }
    leveldb::Status Append(const leveldb::Slice& data) override {
        check(data.size() <= log_.size() - at_, "room");
        std::memcpy(&log_[at_], data.data(), data.size());
        at_ += data.size();
        return leveldb::Status::OK();
    }
    leveldb::Status Close() override {
        return leveldb::Status::OK();
    }
    leveldb::Status Flush() override {
        return leveldb::Status::OK();
    }
    leveldb::Status Sync() override {
        return leveldb::Status::OK();
    }
    size_t size() const {
        return at_;
    }

 private:
    std::string& log_;
    size_t at_ = 0;
};

static size_t read_by_leveldb(const std::string& log) {
    Source source(log);
    leveldb::log::Reader reader(&source, nullptr, true, 0);
    leveldb::Slice record;
    std::string scratch;
    size_t sum = 0;
    while (reader.ReadRecord(&record, &scratch)) sum += record.size();
    return sum;
}

static size_t write_by_leveldb(const std::vector<std::string>& records, std::string& log) {
    Sink sink(log);
    leveldb::log::Writer writer(&sink);
    for (const auto& record : records) check(writer.AddRecord(record).ok(), "a record");
    return sink.size();
}
#endif

#ifdef ROCKSDB
static std::unique_ptr<rocksdb::DB> opened(const std::string& folder) {
    rocksdb::Options options;
    options.create_if_missing = true;
    options.avoid_flush_during_recovery = true;
    options.write_buffer_size = size_t{1} << 30;
    rocksdb::DB* database = nullptr;
    check(rocksdb::DB::Open(options, folder, &database).ok(), "a database");
    return std::unique_ptr<rocksdb::DB>(database);
}

// A database that has this log, none of which is in a table.
static std::unique_ptr<rocksdb::DB> opened_with(const std::string& folder, const std::string& log) {
    namespace fs = std::filesystem;
    opened(folder).reset();
    for (const auto& file : fs::directory_iterator(folder)) {
        if (file.path().extension() == ".log") {
            fs::copy_file(log, file.path(), fs::copy_options::overwrite_existing);
        }
    }
    return opened(folder);
}

static size_t read_by_rocksdb(rocksdb::DB& database) {
    std::unique_ptr<rocksdb::TransactionLogIterator> updates;
    check(database.GetUpdatesSince(1, &updates).ok(), "the updates");
    size_t sum = 0;
    for (; updates->Valid(); updates->Next()) sum += updates->GetBatch().writeBatchPtr->GetDataSize();
    return sum;
}
#endif

int main(int argc, char** argv) try {
    check(argc == 4, "usage: library_peer LOG ROUNDS FOLDER");
    std::ifstream file(argv[1], std::ios::binary);
    const std::string log((std::istreambuf_iterator<char>(file)), std::istreambuf_iterator<char>());
    const auto records = records_of(log);
    std::string room(log.size() + 65536, ' ');
    const std::string key(16, 'k'), value(100, 'v');
    size_t built = build_by_library(key, value);

    std::vector<Task> tasks;
    tasks.push_back({"read", "library", log.size(), [&] { return read_by_library(log); }});
#ifdef LEVELDB
    tasks.push_back({"read", "LevelDB", log.size(), [&] { return read_by_leveldb(log); }});
#endif
#ifdef ROCKSDB
    const auto database = opened_with(argv[3], argv[1]);
    tasks.push_back({"read", "RocksDB, updates", log.size(), [&] { return read_by_rocksdb(*database); }});
#endif
    tasks.push_back({"write", "library", log.size(), [&] { return write_by_library(records, room); }});
#ifdef LEVELDB
    tasks.push_back({"write", "LevelDB", log.size(), [&] { return write_by_leveldb(records, room); }});
#endif
    tasks.push_back({"recover", "library", log.size(), [&] { return recover_by_library(log); }});
    tasks.push_back({"batch", "library", built, [&] { return build_by_library(key, value); }});
#ifdef LEVELDB
    tasks.push_back({"batch", "LevelDB", built, [&] { return build_by_peer<leveldb::WriteBatch>(key, value); }});
#endif
#ifdef ROCKSDB
    tasks.push_back({"batch", "RocksDB", built, [&] { return build_by_peer<rocksdb::WriteBatch>(key, value); }});
#endif
    for (int round = 0; round < std::stoi(argv[2]); round++) {
        std::string what;
        size_t sum = 0;
        for (auto& task : tasks) {
            long long start = spent();
            size_t found = task.run();
            long long time = spent() - start;
            if (round == 0 || time < task.best) task.best = time;
            // All that do the same task must have the same result.
            check(what != task.what || found == sum, task.what.c_str());
            what = task.what;
            sum = found;
        }
    }
    for (const auto& task : tasks) {
        std::cout << task.what << ';' << task.who << ';' << task.best << ';' << task.bytes << '\n';
    }
} catch (const std::exception& error) {
    std::cerr << "library_peer: " << error.what() << '\n';
    return 1;
}
