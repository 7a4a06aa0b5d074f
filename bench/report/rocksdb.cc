// Recovers a write-ahead log of counters by RocksDB in its memory environment, and compacts it as universal compaction
// does: what `ucstore report --operator counter` is measured against.
//
//     rocksdb [--values]
//
// It makes an empty database, puts standard input beside it as its next log, opens it again, which recovers the log,
// waits until no flush and no compaction is running or pending, and prints how many sorted runs there are, with how
// many entries. With `--values` it prints how many keys have a value then, and a checksum of both.

#include "../rocksdb_store.h"

namespace {

using namespace counters;

void PrintRuns(rocksdb::DB* db) {
  Totals totals = TotalsOf(db);
  std::printf("runs %zu entries %" PRIu64 " last %" PRIu64 "\n", totals.runs, totals.entries,
              db->GetLatestSequenceNumber());
}

uint64_t WithBytes(uint64_t sum, const Slice& bytes) {
  for (size_t place = 0; place < bytes.size(); place++) {
    sum = sum * 31 + static_cast<uint8_t>(bytes[place]);
  }
  return sum;
}

void PrintValues(rocksdb::DB* db) {
  std::unique_ptr<rocksdb::Iterator> values(db->NewIterator(rocksdb::ReadOptions()));
  uint64_t keys = 0;
  uint64_t sum = 0;
  for (values->SeekToFirst(); values->Valid(); values->Next()) {
    sum = WithBytes(WithBytes(sum, values->key()), values->value());
    keys++;
  }
  Expect(values->status(), "scan");
  std::printf("keys %" PRIu64 " checksum %016" PRIx64 "\n", keys, sum);
}

}  // namespace

int main(int count, char** words) {
  std::unique_ptr<rocksdb::Env> env(rocksdb::NewMemEnv(rocksdb::Env::Default()));
  std::unique_ptr<rocksdb::DB> db = Recover(OptionsIn(env.get(), Settings()));
  if (count > 1 && std::string(words[1]) == "--values") {
    PrintValues(db.get());
  } else {
    PrintRuns(db.get());
  }
  Expect(db->Close(), "close");
  return 0;
}
