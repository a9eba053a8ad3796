// Writes what is whole in damaged logs of RocksDB or LevelDB as a new log, which opens in the strictest mode.
//
//     salvage_log LOG.. NEW [--number N]
//
// Each record that a scan of a LOG finds, also after damage, is written to NEW as it is, in the order of the files, if
// it is a whole batch: all its operations are of kinds that RocksDB writes, and as many take a sequence as it says. N
// is the LOGs' number, where their fragments have one; if it isn't given, it is that of a LOG's first header. In NEW
// they have none. A LOG is only read. NEW must be new: it is called NEW.part until it is whole and synced.
//
// For each LOG it prints `unread FROM TO AT REASON` for a stretch before a record in which none reads, `left START END
// REASON` for a record that isn't written, and where and why no more was read; and last how many records are written
// and are left out, and the stretches and bytes that don't read. What follows damage may be of another history. The
// status is 3 if a LOG can't be read or NEW can't be written; 7 if NEW or NEW.part is there; and 8 if nothing was
// written, since a LOG is compressed, or not one of its fragments reads: it is no log, or encrypted.

#include "wolzenn.h"

#include <dirent.h>
#include <libgen.h>
#include <unistd.h>

#include <cerrno>
#include <cstdio>
#include <cstdlib>
#include <cstring>
#include <fstream>
#include <iostream>
#include <memory>
#include <string>

// Why the program ends.
struct Stop {
    int status;
    std::string path, why;
};

// A handle of the library that is closed where its scope ends. It is neither copied nor moved.
template <typename Handle, void (*close)(Handle*)>
struct Closed {
    Handle handle = WZ_HANDLE_INIT;
    Closed() = default;
    ~Closed() {
        close(&handle);
    }
    Closed(const Closed&) = delete;
    Closed& operator=(const Closed&) = delete;
};

static Stop stop_by_system(const std::string& path) {
    return {errno == EEXIST ? 7 : 3, path, std::strerror(errno)};
}

// A reason in the words of docs/RECOVERY.md, with its numbers.
static std::string reason(const wz_end& end) {
    std::string found = wz_why_text(end.why);
    bool has_two = end.why == WZ_WHY_COUNT;
    bool has_one = has_two || end.why == WZ_WHY_BAD_TYPE || end.why == WZ_WHY_OLD_LOG || end.why == WZ_WHY_TAG;
    if (has_one) found += " " + std::to_string(end.first);
    if (has_two) found += " " + std::to_string(end.second);
    return found;
}

// Whether the fragment at the start of a block reads.
static bool reads_at(const std::string& log, uint32_t number, uint64_t place) {
    Closed<wz_reader, wz_reader_close> reader;
    wz_record record = {};
    wz_end end = {};
    wz_code code = wz_reader_open_at(&reader.handle, number, place, log.data(), log.size());
    if (code == WZ_DONE) code = wz_reader_next(&reader.handle, log.data(), log.size(), &record, &end);
    return code != WZ_END || end.at > place || end.why == WZ_WHY_UNFINISHED || end.why == WZ_WHY_BAD_ORDER;
}

// The number that bytes are, the lowest byte first.
static uint32_t number_in(const std::string& bytes) {
    uint32_t number = 0;
    for (size_t i = bytes.size(); i-- > 0;) number = number << 8 | static_cast<uint8_t>(bytes[i]);
    return number;
}

// Whether RocksDB has compressed the log: its first fragment, of the kind 9, says so.
static bool is_compressed(const std::string& log) {
    if (log.size() < 7 || log[6] != 9) return false;
    size_t end = 7 + number_in(log.substr(4, 2));
    if (end > log.size() || end > WZ_BLOCK_LEN) return false;
    return number_in(log.substr(0, 4)) == wz_crc32c_mask(wz_crc32c(&log[6], end - 6));
}

// The number in the log's first header, if it has one and a fragment reads there with it, otherwise 0.
static uint32_t number_of(const std::string& log) {
    if (log.size() < 11 || log[6] < 5 || log[6] > 8) return 0;
    uint32_t number = number_in(log.substr(7, 4));
    return reads_at(log, number, 0) ? number : 0;
}

// Why a record is no whole batch of known operations, or no text if it is one.
static std::string fault_of(const std::string& record) {
    wz_batch_head head = {};
    wz_operation found = {};
    wz_end why = {};
    uint64_t sequences = 0;
    size_t at = WZ_BATCH_HEADER_LEN;
    if (wz_batch_read_head(record.data(), record.size(), &head) != WZ_DONE) return wz_why_text(WZ_WHY_SHORT);
    wz_code code = WZ_DONE;
    while ((code = wz_operation_next(record.data(), record.size(), &at, &found, &why)) == WZ_DONE)
        sequences += found.sequences;
    if (code != WZ_END) return reason(why);
    return sequences == head.count ? "" : reason({0, WZ_WHY_COUNT, head.count, sequences});
}

// The new file, how many bytes it has, and what is counted.
struct Salvage {
    std::unique_ptr<std::FILE, int (*)(std::FILE*)> file;
    uint64_t len = 0, kept = 0, left = 0, stretches = 0, unread = 0;

    // Writes a record, if it is a whole batch.
    void add_record(const wz_record& place, const std::string& record) {
        std::string why = fault_of(record);
        if (!why.empty()) {
            std::cout << "left " << place.start << " " << place.end << " " << why << "\n";
            left++;
            return;
        }
        size_t size = wz_log_record_len(0, len, record.size());
        std::string text(size, '\0');
        wz_code code = wz_log_record(0, len, record.data(), record.size(), &text[0], size, &size);
        if (code != WZ_DONE) throw Stop{3, "a record", wz_code_text(code)};
        len += std::fwrite(text.data(), 1, size, file.get());
        kept++;
    }

    // Writes the whole batches of a log.
    void add_log(const std::string& path, const std::string& log, uint32_t number) {
        Closed<wz_scan, wz_scan_close> scan;
        wz_record record = {};
        wz_unread gap = {};
        wz_end end = {};
        uint64_t before = kept + left;
        std::cout << "log " << path << "\n";
        if (is_compressed(log)) throw Stop{8, path, "it is compressed, which RocksDB reads, and this doesn't"};
        wz_code code = wz_scan_open_at(&scan.handle, number, 0, log.data(), log.size());
        while (code == WZ_DONE) {
            code = wz_scan_next(&scan.handle, log.data(), log.size(), &record, &gap, &end);
            if (code == WZ_UNREAD) {
                std::cout << "unread " << gap.from << " " << gap.to << " " << gap.end.at;
                std::cout << " " << reason(gap.end) << "\n";
                stretches++;
                unread += gap.to - gap.from;
            }
            if (code != WZ_DONE && code != WZ_UNREAD) break;
            std::string bytes(record.len, '\0');
            code = wz_scan_record(&scan.handle, &bytes[0], bytes.size());
            if (code == WZ_DONE) add_record(record, bytes);
        }
        if (code != WZ_END) throw Stop{3, path, wz_code_text(code)};
        std::cout << "end " << end.at << " " << reason(end) << "\n";
        bool reads = log.empty() || kept + left > before;
        for (size_t at = 0; !reads && at < log.size(); at += WZ_BLOCK_LEN) reads = reads_at(log, number, at);
        if (!reads) throw Stop{8, path, "not one fragment reads: it is no log, or encrypted, or has another number"};
    }
};

// Adds all that a file has to a string, and says whether it could be read. A read that fails isn't the file's end.
static bool read_file(const char* path, std::string& content) {
    std::ifstream file(path, std::ios::binary);
    char piece[65536];
    while (file.read(piece, sizeof piece) || file.gcount() > 0) content.append(piece, file.gcount());
    return file.eof();
}

int main(int argc, char** argv) try {
    bool is_given = argc > 2 && std::string(argv[argc - 2]) == "--number";
    int last = argc - (is_given ? 3 : 1);
    if (last < 2) return std::cerr << "salvage_log LOG.. NEW [--number N]\n", 2;
    uint32_t given = is_given ? static_cast<uint32_t>(std::strtoul(argv[argc - 1], nullptr, 10)) : 0;
    std::string path = argv[last], part = path + ".part";
    Salvage found{{std::fopen(part.c_str(), "wbx"), std::fclose}};
    std::FILE* file = found.file.get();
    if (file == nullptr) throw stop_by_system(part);
    try {
        for (int i = 1; i < last; i++) {
            std::string log;
            if (!read_file(argv[i], log)) throw Stop{3, argv[i], "it can't be read"};
            found.add_log(argv[i], log, is_given ? given : number_of(log));
        }
        if (std::fflush(file) != 0 || std::ferror(file) != 0 || fsync(fileno(file)) != 0) throw stop_by_system(part);
        if (link(part.c_str(), path.c_str()) != 0) throw stop_by_system(path);
    } catch (...) {
        unlink(part.c_str());
        throw;
    }
    unlink(part.c_str());
    // The file's entry in its folder is made safe too, which the file's own sync doesn't do.
    std::unique_ptr<DIR, int (*)(DIR*)> folder(opendir(dirname(&part[0])), closedir);
    if (folder == nullptr || fsync(dirfd(folder.get())) != 0) throw stop_by_system(path);
    std::cout << "kept " << found.kept << " left " << found.left;
    std::cout << " unread " << found.stretches << " " << found.unread << "\n";
} catch (const Stop& stop) {
    return std::cerr << "salvage_log: " << stop.path << ": " << stop.why << "\n", stop.status;
}
