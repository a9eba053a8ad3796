// What the scripts `threads` and `engine` in this folder measure the write path with: threads that write the batches
// of a generated script at once, to LevelDB or RocksDB, or to a plain file.
//
//     threads_peer PATH SEED CLIENTS BATCHES sync|plain
//         [RECORDS VALUE ordered|random single|pipelined serial|concurrent]
//
// With RECORDS each batch has this number of additions of a key of 16 bytes, which SEED does not change, with a value
// of VALUE bytes, and each client makes its next batch when the last one was written. A client's keys come in order,
// or are those of a generator; as `ordered:N` or `random:N` they are in N column families, which only RocksDB has. The
// last two words are RocksDB's settings: `pipelined` is `enable_pipelined_write`, and
// `concurrent` is `allow_concurrent_memtable_write`. `unordered_write` is off, and all else is as the library sets it.
//
// It is built against the library that the macro PEER names, `leveldb` or `rocksdb`, whose calls are alike. Without
// the macro it writes to a file: each batch by one call of `write` under a mutex, with a call of `fdatasync` after it
// where it should be synced. That is a log without groups, and no write path. PATH is made, and must not exist. What
// is printed is the microseconds from making the first batch to the last one written, and how many were written.

#include <fcntl.h>
#include <unistd.h>

#include <chrono>
#include <cstdint>
#include <iostream>
#include <memory>
#include <mutex>
#include <optional>
#include <stdexcept>
#include <string>
#include <thread>
#include <vector>

// How RocksDB writes: whether groups go into the log and into the table in two stages, and whether the members of a
// group put their batches into the table in parallel.
struct Ways {
    bool pipelined;
    bool concurrent;
};

#ifdef PEER
#define TEXT_OF(words) #words
#define HEADER_OF(peer) TEXT_OF(peer/db.h)
#define BATCH_OF(peer) TEXT_OF(peer/write_batch.h)
#include HEADER_OF(PEER)
#include BATCH_OF(PEER)

using Batch = PEER::WriteBatch;

void check(const PEER::Status& status) {
    if (!status.ok()) throw std::runtime_error(status.ToString());
}

// Sets how RocksDB writes, where the options are RocksDB's.
template <class Options>
void set_ways(Options& options, const Ways& ways) {
    if constexpr (requires { options.enable_pipelined_write; }) {
        options.enable_pipelined_write = ways.pipelined;
        options.allow_concurrent_memtable_write = ways.concurrent;
        options.unordered_write = false;
    }
}

class Target {
public:
    Target(const std::string& path, const std::optional<Ways>& ways, int families) {
        PEER::Options options;
        options.create_if_missing = true;
        options.error_if_exists = true;
        if (ways) set_ways(options, *ways);
        PEER::DB* database = nullptr;
#ifdef ROCKSDB_MAJOR
        options.create_missing_column_families = true;
        std::vector<PEER::ColumnFamilyDescriptor> wanted = {{PEER::kDefaultColumnFamilyName, options}};
        for (int family = 1; family < families; family++) wanted.emplace_back("f" + std::to_string(family), options);
        check(PEER::DB::Open(options, path, wanted, &families_, &database));
#else
        if (families > 1) throw std::runtime_error("there are no column families");
        check(PEER::DB::Open(options, path, &database));
#endif
        database_.reset(database);
    }

#ifdef ROCKSDB_MAJOR
    ~Target() {
        for (auto* family : families_) database_->DestroyColumnFamilyHandle(family);
    }

    void put(Batch& batch, std::uint64_t family, const std::string& key, const std::string& value) {
        batch.Put(families_[family], key, value);
    }
#else
    void put(Batch& batch, std::uint64_t, const std::string& key, const std::string& value) { batch.Put(key, value); }
#endif

    void write(Batch& batch, bool sync) {
        PEER::WriteOptions options;
        options.sync = sync;
        check(database_->Write(options, &batch));
    }

private:
    std::unique_ptr<PEER::DB> database_;
#ifdef ROCKSDB_MAJOR
    std::vector<PEER::ColumnFamilyHandle*> families_;
#endif
};
#else
// The bytes of a batch as RocksDB lays them out, without the header's numbers.
class Batch {
public:
    void Put(const std::string& key, const std::string& value) { add(1, {key, value}); }
    void Delete(const std::string& key) { add(0, {key}); }
    void Clear() { bytes_.resize(19); }
    const std::string& bytes() const { return bytes_; }

private:
    void add(char tag, const std::vector<std::string>& strings) {
        bytes_ += tag;
        for (const auto& string : strings) {
            bytes_ += static_cast<char>(string.size());
            bytes_ += string;
        }
    }

    std::string bytes_ = std::string(19, '\0');
};

class Target {
public:
    Target(const std::string& path, const std::optional<Ways>&, int)
        : file_(open(path.c_str(), O_WRONLY | O_CREAT | O_EXCL | O_APPEND, 0644)) {
        if (file_ < 0) throw std::runtime_error("no file " + path);
    }

    void put(Batch& batch, std::uint64_t, const std::string& key, const std::string& value) { batch.Put(key, value); }

    void write(Batch& batch, bool sync) {
        const std::string& bytes = batch.bytes();
        const std::lock_guard<std::mutex> lock(mutex_);
        if (::write(file_, bytes.data(), bytes.size()) != static_cast<ssize_t>(bytes.size()) ||
            (sync && fdatasync(file_) != 0)) {
            throw std::runtime_error("a write failed");
        }
    }

private:
    int file_;
    std::mutex mutex_;
};
#endif

// The numbers of a client's script, as `gen` draws them.
class Draws {
public:
    explicit Draws(std::uint64_t state) : state_(state % 2147483648) {}

    std::uint64_t next() {
        state_ = (state_ * 1103515245 + 12345) % 2147483648;
        return state_ / 65536;
    }

private:
    std::uint64_t state_;
};

std::vector<Batch> batches_of(std::uint64_t seed, int client, int count) {
    Draws draws(seed + client);
    std::vector<Batch> batches(count);
    for (auto& batch : batches) {
        for (auto left = 1 + draws.next() % 4; left > 0; left--) {
            const std::string key = "c" + std::to_string(client) + "k" + std::to_string(draws.next() % 100);
            if (draws.next() % 4 == 0) {
                batch.Delete(key);
            } else {
                batch.Put(key, std::to_string(draws.next() % 1000));
            }
        }
    }
    return batches;
}

// What each batch has, where a client makes its batches itself.
struct Work {
    int records;
    std::size_t value;
    bool ordered;
    std::uint64_t families;
};

// The kind of order, and how many families there are.
Work work_of(int records, std::size_t value, const std::string& order) {
    const auto colon = order.find(':');
    const auto families = colon == std::string::npos ? 1 : std::stoull(order.substr(colon + 1));
    return Work{records, value, order.substr(0, colon) == "ordered", families};
}

// A key of 16 digits, in hexadecimal.
std::string key_of(std::uint64_t number) {
    std::string key(16, '0');
    for (auto at = key.rbegin(); at != key.rend(); ++at, number /= 16) *at = "0123456789abcdef"[number % 16];
    return key;
}

// The numbers of a client's keys, which are those from which `engine_program` makes its keys.
class Keys {
public:
    Keys(int client, bool ordered)
        : state_(ordered ? static_cast<std::uint64_t>(client - 1) << 32 : client - 1), ordered_(ordered) {}

    std::uint64_t number() {
        if (ordered_) return ++state_;
        state_ = state_ * 6364136223846793005 + 1442695040888963407;
        return state_ >> 1;
    }

private:
    std::uint64_t state_;
    bool ordered_;
};

// Writes `batches` batches one after another.
void write_records(Target& target, int client, int batches, const Work& work, bool sync) {
    const std::string value(work.value, 'v');
    Keys keys(client, work.ordered);
    Batch batch;
    for (int written = 0; written < batches; written++) {
        batch.Clear();
        for (int put = 0; put < work.records; put++) {
            const auto number = keys.number();
            target.put(batch, number % work.families, key_of(number), value);
        }
        target.write(batch, sync);
    }
}

int main(int count, char** words) try {
    if (count != 6 && count != 11) {
        throw std::runtime_error(
            "usage: threads_peer PATH SEED CLIENTS BATCHES sync|plain "
            "[RECORDS VALUE ordered|random single|pipelined serial|concurrent]");
    }
    const bool has_records = count == 11;
    std::optional<Ways> ways;
    if (has_records) ways = Ways{std::string(words[9]) == "pipelined", std::string(words[10]) == "concurrent"};
    const std::uint64_t seed = std::stoull(words[2]);
    const int clients = std::stoi(words[3]);
    const int each = std::stoi(words[4]);
    const bool sync = std::string(words[5]) == "sync";
    Work work{};
    if (has_records) work = work_of(std::stoi(words[6]), std::stoul(words[7]), words[8]);
    Target target(words[1], ways, has_records ? static_cast<int>(work.families) : 1);
    const auto start = std::chrono::steady_clock::now();
    std::vector<std::vector<Batch>> scripts;
    for (int client = 1; client <= clients && !has_records; client++) scripts.push_back(batches_of(seed, client, each));
    std::vector<std::thread> threads;
    for (int client = 1; client <= clients; client++) {
        threads.emplace_back([&target, &scripts, &work, client, each, sync] {
            if (work.records > 0) return write_records(target, client, each, work, sync);
            for (auto& batch : scripts[client - 1]) target.write(batch, sync);
        });
    }
    for (auto& thread : threads) thread.join();
    const auto spent = std::chrono::steady_clock::now() - start;
    std::cout << std::chrono::duration_cast<std::chrono::microseconds>(spent).count() << ' ' << clients * each << '\n';
} catch (const std::exception& error) {
    std::cerr << "threads_peer: " << error.what() << '\n';
    return 1;
}
