// How a RocksDB store of counters is read.

#pragma once

#include "queries.h"
#include "rocksdb_store.h"

namespace counters {

const rocksdb::ReadOptions kReading;

struct Reader {
  rocksdb::DB* db;
  // What scans go by, where the store stays as it is; else each has an iterator of its own.
  rocksdb::Iterator* kept = nullptr;

  Answer operator()(const Get& get) const {
    std::string value;
    Status status = db->Get(kReading, get.key, &value);
    if (status.IsNotFound()) return Value();
    Expect(status, "get");
    return Value(std::move(value));
  }

  Answer operator()(const Scan& scan) const {
    if (kept != nullptr) return RowsOf(kept, scan);
    std::unique_ptr<rocksdb::Iterator> own(db->NewIterator(kReading));
    return RowsOf(own.get(), scan);
  }

 private:
  static Rows RowsOf(rocksdb::Iterator* values, const Scan& scan) {
    Rows rows;
    for (values->Seek(scan.low); rows.size() < scan.limit && values->Valid(); values->Next()) {
      rows.emplace_back(values->key().ToString(), values->value().ToString());
    }
    Expect(values->status(), "scan");
    return rows;
  }
};

// Reads all rows, so that the cache of blocks holds them.
inline void ReadAll(rocksdb::DB* db) {
  std::unique_ptr<rocksdb::Iterator> values(db->NewIterator(kReading));
  for (values->SeekToFirst(); values->Valid(); values->Next()) {
  }
  Expect(values->status(), "read all rows");
}

}  // namespace counters
