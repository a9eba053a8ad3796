// Writes a database whose log is damaged by peers_salvage, and shows what a database has.
//
//     peers_salvage puts PATH | peers_salvage mixed PATH | peers_salvage show MODE PATH
//
// `puts` writes 38,160 keys, each with a value of its own. `mixed` writes 20,000 batches of puts, merges, deletions and
// range deletions into three column families; each also puts a key that no other batch has. `show` opens the database
// in one of RocksDB's four recovery modes, and prints of each pair the family, the key and the value, in hexadecimal.

#include <rocksdb/db.h>
#include <rocksdb/merge_operator.h>
#include <rocksdb/write_batch.h>

#include <cstdio>
#include <cstdlib>
#include <iostream>
#include <memory>
#include <random>
#include <string>
#include <vector>

static void check(const rocksdb::Status& status) {
    if (status.ok()) return;
    std::cerr << status.ToString() << "\n";
    std::exit(1);
}

// Puts an operand after what there is.
class Append : public rocksdb::AssociativeMergeOperator {
 public:
    bool Merge(const rocksdb::Slice&, const rocksdb::Slice* before, const rocksdb::Slice& operand, std::string* after,
               rocksdb::Logger*) const override {
        *after = (before == nullptr ? "" : before->ToString()) + operand.ToString();
        return true;
    }
    const char* Name() const override { return "append"; }
};

// A database with its families, which are closed with it.
struct Opened {
    std::vector<rocksdb::ColumnFamilyHandle*> families;
    std::unique_ptr<rocksdb::DB> db;

    Opened(const std::string& path, const std::vector<std::string>& names, rocksdb::WALRecoveryMode mode) {
        rocksdb::Options options;
        options.create_if_missing = options.create_missing_column_families = true;
        // Otherwise the log would be gone at the end.
        options.avoid_flush_during_shutdown = true;
        options.merge_operator = std::make_shared<Append>();
        options.wal_recovery_mode = mode;
        std::vector<rocksdb::ColumnFamilyDescriptor> descriptors;
        for (const auto& name : names) descriptors.emplace_back(name, options);
        rocksdb::DB* opened = nullptr;
        check(rocksdb::DB::Open(options, path, descriptors, &families, &opened));
        db.reset(opened);
    }
    ~Opened() {
        for (auto* family : families) check(db->DestroyColumnFamilyHandle(family));
        check(db->Close());
    }
};

static std::string numbered(const char* form, unsigned number) {
    char text[32];
    std::snprintf(text, sizeof text, form, number);
    return text;
}

// 97 bytes, all of which depend on the number.
static std::string value_of(unsigned number) {
    std::string value;
    while (value.size() < 97) value += numbered("%09u.", number);
    return value.substr(0, 97);
}

static void write_puts(const std::string& path) {
    Opened opened(path, {"default"}, rocksdb::WALRecoveryMode::kPointInTimeRecovery);
    for (unsigned number = 0; number < 38160; number++)
        check(opened.db->Put({}, numbered("key%09u", number), value_of(number)));
}

static void write_mixed(const std::string& path) {
    Opened opened(path, {"default", "f1", "f2"}, rocksdb::WALRecoveryMode::kPointInTimeRecovery);
    std::mt19937 draw(1);
    for (unsigned number = 0; number < 20000; number++) {
        rocksdb::WriteBatch batch;
        batch.Put(opened.families[draw() % 3], numbered("batch%05u", number), value_of(number));
        for (unsigned more = draw() % 3; more > 0; more--) {
            auto* family = opened.families[draw() % 3];
            unsigned kind = draw() % 20, at = draw() % 20000;
            if (kind < 12) batch.Put(family, numbered("key%05u", at), value_of(draw()));
            else if (kind < 16) batch.Merge(family, numbered("key%05u", at), numbered("+%u", number));
            else if (kind < 19) batch.Delete(family, numbered("key%05u", at));
            else batch.DeleteRange(family, numbered("key%05u", at), numbered("key%05u", at + 3));
        }
        check(opened.db->Write({}, &batch));
    }
}

static void show(const std::string& path, rocksdb::WALRecoveryMode mode) {
    std::vector<std::string> names;
    check(rocksdb::DB::ListColumnFamilies({}, path, &names));
    Opened opened(path, names, mode);
    for (auto* family : opened.families) {
        std::unique_ptr<rocksdb::Iterator> it(opened.db->NewIterator({}, family));
        for (it->SeekToFirst(); it->Valid(); it->Next())
            std::cout << family->GetName() << " " << it->key().ToString(true) << " " << it->value().ToString(true)
                      << "\n";
        check(it->status());
    }
}

int main(int count, char** words) {
    std::string command = count > 1 ? words[1] : "";
    if (count != (command == "show" ? 4 : 3)) return 2;
    if (command == "puts") write_puts(words[2]);
    else if (command == "mixed") write_mixed(words[2]);
    else if (command == "show") show(words[3], static_cast<rocksdb::WALRecoveryMode>(std::atoi(words[2])));
    else return 2;
}
