// What the script `stalls` in this folder measures RocksDB with: threads that write to a database whose writes stop
// now and then.
//
//     stalls_peer PATH CLIENTS MILLISECONDS single|pipelined
//
// RocksDB gives no stop token to its callers. Here the first client holds back the flush of the memtable: then the
// next memtable fills as well, and RocksDB stops writes until the flush has ended. It holds each flush back for a
// millisecond from when writes are stopped, and then lets them go on for a millisecond. Every other of the rest writes
// with `no_slowdown`, in batches of one addition of a key of 16 bytes with a value of 100. PATH is made, and must not
// exist. What is printed is how many batches were written, how many were refused, and the nanoseconds that the refused
// calls took.

#include <rocksdb/db.h>
#include <rocksdb/listener.h>
#include <rocksdb/write_batch.h>

#include <atomic>
#include <chrono>
#include <condition_variable>
#include <iostream>
#include <memory>
#include <mutex>
#include <stdexcept>
#include <string>
#include <thread>
#include <vector>

using Clock = std::chrono::steady_clock;
using std::chrono::milliseconds;

// The least memtable that RocksDB makes.
constexpr std::size_t kMemtable = 65536;

// Flushes wait while it is closed.
class Gate : public rocksdb::EventListener {
public:
    void OnFlushBegin(rocksdb::DB*, const rocksdb::FlushJobInfo&) override {
        std::unique_lock<std::mutex> lock(mutex_);
        opened_.wait(lock, [this] { return !closed_; });
    }

    void close() {
        const std::lock_guard<std::mutex> lock(mutex_);
        closed_ = true;
    }

    void open() {
        const std::lock_guard<std::mutex> lock(mutex_);
        closed_ = false;
        opened_.notify_all();
    }

private:
    std::mutex mutex_;
    std::condition_variable opened_;
    bool closed_ = false;
};

std::atomic<std::uint64_t> written, refused, nanos;

void wait_until(rocksdb::DB& database, std::uint64_t stopped, Clock::time_point end) {
    std::uint64_t is = 0;
    while (Clock::now() < end && database.GetIntProperty("rocksdb.is-write-stopped", &is) && is != stopped) {
        std::this_thread::sleep_for(std::chrono::microseconds(50));
    }
}

void stop_and_go(rocksdb::DB& database, Gate& gate, Clock::time_point end) {
    while (Clock::now() < end) {
        gate.close();
        wait_until(database, 1, end);
        std::this_thread::sleep_for(milliseconds(1));
        gate.open();
        wait_until(database, 0, end);
        std::this_thread::sleep_for(milliseconds(1));
    }
}

void write_meanwhile(rocksdb::DB& database, int client, bool hasty, Clock::time_point end) {
    rocksdb::WriteOptions options;
    options.no_slowdown = hasty;
    const std::string value(100, 'v');
    std::uint64_t state = client;
    while (Clock::now() < end) {
        rocksdb::WriteBatch batch;
        state = state * 6364136223846793005 + 1442695040888963407;
        std::string key = std::to_string(state);
        key.resize(16, '0');
        batch.Put(key, value);
        const auto begun = Clock::now();
        const rocksdb::Status status = database.Write(options, &batch);
        if (status.ok()) {
            written++;
        } else if (status.IsIncomplete()) {
            refused++;
            nanos += std::chrono::nanoseconds(Clock::now() - begun).count();
        } else {
            throw std::runtime_error(status.ToString());
        }
    }
}

int main(int count, char** words) try {
    if (count != 5) throw std::runtime_error("the path, how many clients, milliseconds, and `single` or `pipelined`");
    const auto gate = std::make_shared<Gate>();
    rocksdb::Options options;
    options.create_if_missing = true;
    options.error_if_exists = true;
    options.enable_pipelined_write = std::string(words[4]) == "pipelined";
    options.write_buffer_size = kMemtable;
    options.max_write_buffer_number = 2;
    options.disable_auto_compactions = true;
    options.level0_slowdown_writes_trigger = options.level0_stop_writes_trigger = 1 << 30;
    options.listeners.push_back(gate);
    rocksdb::DB* opened = nullptr;
    const rocksdb::Status status = rocksdb::DB::Open(options, words[1], &opened);
    if (!status.ok()) throw std::runtime_error(status.ToString());
    const std::unique_ptr<rocksdb::DB> database(opened);
    const auto end = Clock::now() + milliseconds(std::stoi(words[3]));
    std::vector<std::thread> threads;
    threads.emplace_back([&] { stop_and_go(*database, *gate, end); });
    for (int client = 1; client < std::stoi(words[2]); client++) {
        threads.emplace_back([&, client] { write_meanwhile(*database, client, client % 2 == 0, end); });
    }
    for (auto& thread : threads) thread.join();
    std::cout << written << " " << refused << " " << nanos << "\n";
    return 0;
} catch (const std::exception& error) {
    std::cerr << "stalls_peer: " << error.what() << "\n";
    return 1;
}
