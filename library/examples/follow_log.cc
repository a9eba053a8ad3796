// Follows a log of RocksDB or LevelDB while another program writes it: prints each batch from a sequence on, once, when
// it is in the log whole. Where bytes are damaged it goes on with the next record that reads.
//
//     follow_log LOG SINCE [NUMBER]
//
// NUMBER is the log's own, where its fragments have one. A line `record` has where the record is, and its batch's
// sequence and count. `unread FROM TO` is before a record that comes after damage, and says where no record reads, and
// for which of the reasons of docs/RECOVERY.md; what follows it may be of another history. It ends where no record has
// come for a second, and says where and why no more was read; or at once if the log was cut before the end of the last
// record.
//
// Only the bytes up to the end of the last record are kept, and those after it are read anew each time, also where the
// file is as long as before: a program that resumes the log cuts off an incomplete record, and one that writes a log
// over an older file doesn't make it longer. What is read first may be older than what is read last. So that no record
// reads in a stretch counts only once it was read a second time: then all that was written before the next record is
// there.

#include "wolzenn.h"

#include <chrono>
#include <cstdlib>
#include <fstream>
#include <iostream>
#include <string>
#include <thread>

const std::chrono::milliseconds PAUSE(20), QUIET(1000);

// A scan that is closed where its scope ends. It is neither copied nor moved.
class Scan {
 public:
    Scan() = default;
    ~Scan() {
        wz_scan_close(&scan_);
    }
    Scan(const Scan&) = delete;
    Scan& operator=(const Scan&) = delete;
    wz_scan* get() {
        return &scan_;
    }

 private:
    wz_scan scan_ = WZ_HANDLE_INIT;
};

// A log that another program writes.
class Followed {
 public:
    Followed(const char* path, uint64_t since, uint32_t number)
        : file_(path, std::ios::binary), since_(since), number_(number) {
    }

    // Reads anew what the file has after the last record.
    void read_rest() {
        char piece[65536];
        log_.resize(place_);
        file_.seekg(static_cast<std::streamoff>(place_));
        while (file_.read(piece, sizeof piece) || file_.gcount() > 0) log_.append(piece, file_.gcount());
        bool is_read = file_.eof();
        file_.clear();
        file_.seekg(0, std::ios::end);
        if (!is_read) wrong_ = "the log can't be read";
        else if (file_.tellg() < static_cast<std::streamoff>(place_))
            wrong_ = "the log was cut before the end of the last record";
    }

    // Prints the records after the last one. Says whether to read anew at once: before a stretch that is to be read a
    // second time.
    bool print_more() {
        Scan scan;
        wz_record record = {};
        wz_unread unread = {};
        code_ = wz_scan_open_at(scan.get(), number_, place_, log_.data(), log_.size());
        while (code_ == WZ_DONE) {
            code_ = wz_scan_next(scan.get(), log_.data(), log_.size(), &record, &unread, &end_);
            if (code_ == WZ_UNREAD && unread.to != seen_) break;
            if (code_ == WZ_UNREAD)
                std::cout << "unread " << unread.from << " " << unread.to << " " << wz_why_text(unread.end.why) << "\n";
            if (code_ != WZ_DONE && code_ != WZ_UNREAD) break;
            std::string bytes(record.len, '\0');
            code_ = wz_scan_record(scan.get(), &bytes[0], bytes.size());
            if (code_ == WZ_DONE) print_record(record, bytes);
            place_ = record.end;
            found_at_ = std::chrono::steady_clock::now();
        }
        std::cout.flush();
        if (code_ == WZ_UNREAD) seen_ = unread.to;
        else if (code_ != WZ_END) wrong_ = wz_code_text(code_);
        return code_ == WZ_UNREAD;
    }

    // What went wrong, or null.
    const char* wrong() const {
        return wrong_;
    }
    // Whether no record has come for a while.
    bool is_quiet() const {
        return std::chrono::steady_clock::now() - found_at_ >= QUIET;
    }
    wz_end end() const {
        return end_;
    }

 private:
    // Prints the batch of a record, if it is one that is asked for.
    void print_record(const wz_record& record, const std::string& bytes) const {
        wz_batch_head head = {};
        wz_end why = {};
        wz_code code = wz_batch_read(bytes.data(), bytes.size(), &head, &why);
        if (code == WZ_DONE && (head.count == 0 || head.sequence + (head.count - 1) < since_)) return;
        std::cout << "record " << record.start << " " << record.end;
        if (code == WZ_DONE) std::cout << "  batch " << head.sequence << " " << head.count << "\n";
        else std::cout << "  no batch: " << wz_why_text(why.why) << "\n";
    }

    std::ifstream file_;
    uint64_t since_;
    uint32_t number_;
    std::string log_;
    // Where the last record ended, and when that was found; where the next record began when a stretch before it was
    // seen for the first time; and where and why no more was read.
    uint64_t place_ = 0;
    std::chrono::steady_clock::time_point found_at_ = std::chrono::steady_clock::now();
    uint64_t seen_ = 0;
    wz_end end_ = {0, WZ_WHY_CLEAN, 0, 0};
    wz_code code_ = WZ_END;
    const char* wrong_ = nullptr;
};

int main(int argc, char** argv) {
    if (argc < 3) return std::cerr << "follow_log LOG SINCE [NUMBER]\n", 2;
    uint32_t number = argc > 3 ? static_cast<uint32_t>(std::strtoul(argv[3], nullptr, 10)) : 0;
    Followed log(argv[1], std::strtoull(argv[2], nullptr, 10), number);
    bool is_next = false;
    while (log.wrong() == nullptr && (is_next || !log.is_quiet())) {
        if (!is_next) std::this_thread::sleep_for(PAUSE);
        log.read_rest();
        is_next = log.wrong() == nullptr && log.print_more();
    }
    if (log.wrong() != nullptr) return std::cerr << "follow_log: " << log.wrong() << "\n", 1;
    std::cout << "end " << log.end().at << " " << wz_why_text(log.end().why) << "\n";
}
