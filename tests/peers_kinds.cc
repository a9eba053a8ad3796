// Makes databases whose logs have what RocksDB's public calls write, each in a folder of its own below PATH, and leaves
// the logs as they were written. The folders have the names that are found at the end.
//
//     peers_kinds PATH

#include <rocksdb/db.h>
#include <rocksdb/merge_operator.h>
#include <rocksdb/utilities/transaction_db.h>
#include <rocksdb/wide_columns.h>
#include <rocksdb/write_batch.h>

#include <cstdio>
#include <cstdlib>
#include <filesystem>
#include <functional>
#include <iostream>
#include <memory>
#include <string>
#include <vector>

static void check(const rocksdb::Status& status) {
    if (status.ok()) return;
    std::cerr << status.ToString() << "\n";
    std::exit(1);
}

// Puts an operand after what there is.
class Append : public rocksdb::AssociativeMergeOperator {
 public:
    bool Merge(const rocksdb::Slice&, const rocksdb::Slice* before, const rocksdb::Slice& operand, std::string* after,
               rocksdb::Logger*) const override {
        *after = (before == nullptr ? "" : before->ToString()) + operand.ToString();
        return true;
    }
    const char* Name() const override { return "append"; }
};

static rocksdb::Options options_of_all() {
    rocksdb::Options options;
    options.create_if_missing = true;
    options.merge_operator = std::make_shared<Append>();
    // Otherwise the log would be gone at the end.
    options.avoid_flush_during_shutdown = true;
    return options;
}

static const rocksdb::WriteOptions how;

// Opens a new database, lets it be written, and closes it.
static void make(const std::filesystem::path& path, const rocksdb::Options& options,
                 const std::function<void(rocksdb::DB&)>& write) {
    rocksdb::DB* opened = nullptr;
    check(rocksdb::DB::Open(options, path, &opened));
    std::unique_ptr<rocksdb::DB> db(opened);
    write(*db);
    check(db->Close());
}

static void write_plain(rocksdb::DB& db) {
    check(db.Put(how, "a", "1"));
    rocksdb::WriteBatch batch;
    batch.Put("b", "2");
    batch.Delete("a");
    batch.PutLogData("a note");
    check(db.Write(how, &batch));
    check(db.SingleDelete(how, "b"));
    check(db.Put(how, "", ""));
    check(db.Put(how, "long", std::string(100000, 'v')));
}

static void write_family(rocksdb::DB& db) {
    rocksdb::ColumnFamilyHandle* family = nullptr;
    check(db.CreateColumnFamily(rocksdb::ColumnFamilyOptions(), "f1", &family));
    check(db.Put(how, "plain", "default"));
    rocksdb::WriteBatch batch;
    batch.Put(family, "user:1", "anna");
    batch.Delete(family, "user:0");
    batch.Put("order:1", "x");
    check(db.Write(how, &batch));
    check(db.SingleDelete(how, family, "user:1"));
    check(db.DestroyColumnFamilyHandle(family));
}

static void write_merges(rocksdb::DB& db) {
    check(db.Put(how, "hits", "1"));
    check(db.Merge(how, "hits", "2"));
    rocksdb::WriteBatch batch;
    batch.Merge("hits", "3");
    batch.Put("a", "1");
    check(db.Write(how, &batch));
    check(db.Put(how, "b", "2"));
}

static void write_ranges(rocksdb::DB& db) {
    check(db.Put(how, "a", "1"));
    check(db.Put(how, "b", "2"));
    check(db.DeleteRange(how, db.DefaultColumnFamily(), "a", "c"));
    check(db.Put(how, "c", "3"));
}

static void write_wide_columns(rocksdb::DB& db) {
    check(db.Put(how, "a", "1"));
    check(db.PutEntity(how, db.DefaultColumnFamily(), "row", {{"", "one"}, {"city", "Oslo"}}));
    check(db.Put(how, "b", "2"));
}

// One transaction is prepared and committed, one rolled back, and one only committed.
static void make_transactions(const std::filesystem::path& path, rocksdb::TxnDBWritePolicy policy) {
    rocksdb::TransactionDBOptions kind;
    kind.write_policy = policy;
    // So that what isn't prepared yet is written too, if the policy has that.
    kind.default_write_batch_flush_threshold = policy == rocksdb::WRITE_UNPREPARED ? 1 : 0;
    rocksdb::TransactionDB* opened = nullptr;
    check(rocksdb::TransactionDB::Open(options_of_all(), kind, path, &opened));
    std::unique_ptr<rocksdb::TransactionDB> db(opened);
    for (int number = 1; number <= 3; number++) {
        std::unique_ptr<rocksdb::Transaction> one(db->BeginTransaction(how));
        check(one->SetName("xid" + std::to_string(number)));
        check(one->Put("k" + std::to_string(number), "v"));
        check(one->Delete("other"));
        if (number < 3) check(one->Prepare());
        check(number == 2 ? one->Rollback() : one->Commit());
    }
    check(db->Close());
}

// As many puts, each a record of 124 bytes.
static void write_puts(rocksdb::DB& db, int count) {
    for (int number = 1; number <= count; number++) {
        char key[16];
        std::snprintf(key, sizeof key, "key%09d", number);
        check(db.Put(how, key, std::string(97, 'v')));
    }
}

int main(int count, char** words) {
    if (count != 2) return 1;
    const std::filesystem::path path = words[1];
    std::filesystem::create_directories(path);
    auto options = options_of_all();
    make(path / "plain", options, write_plain);
    make(path / "family", options, write_family);
    make(path / "merges", options, write_merges);
    make(path / "ranges", options, write_ranges);
    make(path / "wide_columns", options, write_wide_columns);
    make_transactions(path / "committed", rocksdb::WRITE_COMMITTED);
    make_transactions(path / "prepared", rocksdb::WRITE_PREPARED);
    make_transactions(path / "unprepared", rocksdb::WRITE_UNPREPARED);
    make(path / "few", options, [](rocksdb::DB& db) { write_puts(db, 15); });
    make(path / "many", options, [](rocksdb::DB& db) { write_puts(db, 38160); });
    options.wal_compression = rocksdb::kZSTD;
    make(path / "compressed", options, write_plain);
}
