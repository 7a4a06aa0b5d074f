// The work of `ours` by RocksDB in its memory environment: a log of counters is recovered and compacted as
// universal compaction does, and a workload's queries are answered by one thread.
//
//     rocksdb answers|hot|deleted [--memtable N] [--trigger N] [--uncompacted]
//
// It makes an empty database, puts standard input beside it as its next log, opens it again, which recovers the log,
// and waits until no flush and no compaction is running or pending. It reads all rows once, so that the cache of blocks
// holds them, and answers by `DB::Get` and by one iterator for all scans. Then it prints the same line as `ours`.
// `--memtable` is `write_buffer_size`, `--trigger` is `level0_file_num_compaction_trigger`, and `--uncompacted`
// disables automatic compactions, so that each flushed file stays.

#include "../rocksdb_queries.h"
#include "workloads.h"

namespace {

using namespace counters;

// What the words ask for.
struct Asked {
  std::string workload;
  Settings settings;
};

Asked AskedBy(int count, char** words) {
  if (count < 2) Fail("no workload");
  Asked asked;
  asked.workload = words[1];
  for (int place = 2; place < count; place++) {
    std::string word = words[place];
    if (word == "--uncompacted") {
      asked.settings.uncompacted = true;
    } else if (place + 1 < count && word == "--memtable") {
      asked.settings.memtable = std::strtoull(words[++place], nullptr, 10);
    } else if (place + 1 < count && word == "--trigger") {
      asked.settings.trigger = static_cast<int>(std::strtoul(words[++place], nullptr, 10));
    } else {
      Fail("no such option: " + word);
    }
  }
  return asked;
}

}  // namespace

int main(int count, char** words) {
  Asked asked = AskedBy(count, words);
  std::unique_ptr<rocksdb::Env> env(rocksdb::NewMemEnv(rocksdb::Env::Default()));
  std::unique_ptr<rocksdb::DB> db = Recover(OptionsIn(env.get(), asked.settings));
  ReadAll(db.get());
  {
    Totals totals = TotalsOf(db.get());
    std::unique_ptr<rocksdb::Iterator> rows(db->NewIterator(kReading));
    Measure(Reader{db.get(), rows.get()}, asked.workload, totals.runs, totals.entries);
  }
  Expect(db->Close(), "close");
  return 0;
}
