// Recovers a log, and prints what it leaves.
//
//     recover_log LOG [NUMBER [point|tail|absolute]]
//
// NUMBER is the log's own, or 0 where it has none. It prints how many records are recovered, the last sequence and how
// many pairs there are, each pair in hexadecimal, `-` for no bytes, after the number of its column family, unless that
// is the default one; and where recovery ended and why. Where the mode doesn't accept the end, it prints `damage` with
// the end, and the status is 8.

#include "wolzenn.h"

#include <cstdlib>
#include <fstream>
#include <iostream>
#include <string>

// A recovery that is closed where its scope ends. It is neither copied nor moved.
class Recovery {
 public:
    Recovery() = default;
    ~Recovery() {
        wz_recovery_close(&recovery_);
    }
    Recovery(const Recovery&) = delete;
    Recovery& operator=(const Recovery&) = delete;
    wz_recovery* get() {
        return &recovery_;
    }

 private:
    wz_recovery recovery_ = WZ_HANDLE_INIT;
};

static std::string hex(const std::string& text) {
    static const char digits[] = "0123456789abcdef";
    std::string found;
    for (unsigned char byte : text) found += {digits[byte >> 4], digits[byte & 15]};
    return found.empty() ? "-" : found;
}

// A reason in the words of docs/RECOVERY.md, with its numbers.
static std::string reason(const wz_end& end) {
    std::string found = wz_why_text(end.why);
    bool has_two = end.why == WZ_WHY_COUNT || end.why == WZ_WHY_ORDER || end.why == WZ_WHY_HIGH;
    bool has_one = has_two || end.why == WZ_WHY_BAD_TYPE || end.why == WZ_WHY_OLD_LOG || end.why == WZ_WHY_TAG;
    if (has_one) found += " " + std::to_string(end.first);
    if (has_two) found += " " + std::to_string(end.second);
    return found;
}

// Adds all that a file has to a string, and says whether it could be read. A read that fails isn't the file's end: what
// was read before it is no whole log.
static bool read_file(const char* path, std::string& content) {
    std::ifstream file(path, std::ios::binary);
    char piece[65536];
    while (file.read(piece, sizeof piece) || file.gcount() > 0) content.append(piece, file.gcount());
    return file.eof();
}

int main(int argc, char** argv) {
    std::string content;
    if (!read_file(argc > 1 ? argv[1] : "", content)) return std::cerr << "recover_log: the log can't be read\n", 2;
    const std::string& log = content;
    uint32_t number = argc > 2 ? static_cast<uint32_t>(std::strtoul(argv[2], nullptr, 10)) : 0;
    std::string word = argc > 3 ? argv[3] : "point";
    wz_mode mode = word == "absolute" ? WZ_MODE_ABSOLUTE : word == "tail" ? WZ_MODE_TAIL : WZ_MODE_POINT;

    Recovery recovery;
    wz_recovered found = {};
    wz_code code = wz_recover(recovery.get(), number, mode, log.data(), log.size(), &found);
    if (code == WZ_DAMAGE) return std::cout << "damage " << found.end.at << " " << reason(found.end) << "\n", 8;
    if (code != WZ_DONE) return std::cerr << "recover_log: " << wz_code_text(code) << "\n", 6;

    std::cout << "groups " << found.groups << "\nstate " << found.last << " " << found.pairs << "\n";
    for (size_t i = 0; i < found.pairs; i++) {
        wz_pair_lens lens = {};
        if (wz_pair_len(recovery.get(), i, &lens) != WZ_DONE) return 3;
        std::string key(lens.key_len, '\0'), value(lens.value_len, '\0');
        if (wz_pair(recovery.get(), i, &key[0], key.size(), &value[0], value.size()) != WZ_DONE) return 3;
        if (lens.family != 0) std::cout << lens.family << " ";
        std::cout << hex(key) << " " << hex(value) << "\n";
    }
    std::cout << "end " << found.end.at << " " << reason(found.end) << "\n";
}
