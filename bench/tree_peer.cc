// Times RocksDB's memtables as `tree_program` in this folder times ours: the same versions, in batches of a thousand of
// which nothing is logged, and the same lookups. It has a memtable for each column family. Its calls do more than those
// of a tree alone: a write goes through its queue of writers, and a lookup through a view of the database.
//
//     tree_peer PATH THOUSAND KEYS newest FAMILIES
//
// PATH is made, and must not exist. What is printed is the microseconds of both, and how many lookups found a value.
// There are no lookups at random sequences, for which it would need a snapshot each.

#include <rocksdb/db.h>
#include <rocksdb/write_batch.h>

#include <chrono>
#include <cstdint>
#include <iostream>
#include <memory>
#include <stdexcept>
#include <string>
#include <vector>

using Clock = std::chrono::steady_clock;

constexpr std::uint64_t kBatch = 1000;

// More bytes than a memtable gets.
constexpr std::size_t kRoom = std::size_t{4} << 30;

void check(const rocksdb::Status& status) {
    if (!status.ok()) throw std::runtime_error(status.ToString());
}

// The linear congruential generator of the other two programs.
class Random {
public:
    std::uint64_t below(std::uint64_t limit) {
        state_ = state_ * 6364136223846793005 + 1442695040888963407;
        return (state_ >> 33) % limit;
    }

private:
    std::uint64_t state_ = 1;
};

std::string bytes_of(std::uint64_t number) {
    std::string bytes(8, '\0');
    for (auto at = bytes.rbegin(); at != bytes.rend(); ++at, number >>= 8) *at = static_cast<char>(number & 255);
    return bytes;
}

long long micros(Clock::duration spent) {
    return std::chrono::duration_cast<std::chrono::microseconds>(spent).count();
}

int main(int count, char** words) try {
    if (count != 6 || words[4] != std::string("newest")) {
        throw std::runtime_error("usage: tree_peer PATH THOUSAND KEYS newest FAMILIES");
    }
    const std::uint64_t batches = std::stoull(words[2]), keys = std::stoull(words[3]), families = std::stoull(words[5]);
    rocksdb::Options options;
    options.create_if_missing = options.error_if_exists = options.create_missing_column_families = true;
    options.write_buffer_size = kRoom;
    std::vector<rocksdb::ColumnFamilyDescriptor> wanted = {{rocksdb::kDefaultColumnFamilyName, options}};
    for (std::uint64_t family = 1; family < families; family++) wanted.emplace_back("f" + std::to_string(family), options);
    std::vector<rocksdb::ColumnFamilyHandle*> all;
    rocksdb::DB* opened = nullptr;
    check(rocksdb::DB::Open(options, words[1], wanted, &all, &opened));
    const std::unique_ptr<rocksdb::DB> database(opened);
    Random random;
    rocksdb::WriteBatch batch;
    rocksdb::WriteOptions how;
    how.disableWAL = true;
    Clock::duration inserting{};
    for (std::uint64_t written = 0; written < batches; written++) {
        batch.Clear();
        for (std::uint64_t at = 0; at < kBatch; at++) {
            const auto key = random.below(keys);
            batch.Put(all[key % families], bytes_of(key), bytes_of(at));
        }
        const auto start = Clock::now();
        check(database->Write(how, &batch));
        inserting += Clock::now() - start;
    }
    const auto start = Clock::now();
    std::uint64_t found = 0;
    rocksdb::PinnableSlice value;
    for (std::uint64_t look = 0; look < batches * kBatch; look++) {
        const auto key = random.below(keys);
        // The others draw a sequence too.
        random.below(batches * kBatch);
        value.Reset();
        found += database->Get(rocksdb::ReadOptions(), all[key % families], bytes_of(key), &value).ok();
    }
    std::cout << micros(inserting) << ' ' << micros(Clock::now() - start) << ' ' << found << '\n';
    for (auto* one : all) database->DestroyColumnFamilyHandle(one);
} catch (const std::exception& error) {
    std::cerr << "tree_peer: " << error.what() << '\n';
    return 1;
}
