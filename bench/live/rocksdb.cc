// The work of `ours` by RocksDB in its memory environment: batches are written to a store that is empty at first.
//
//     rocksdb live|feeds|written|fed SIZE COUNT
//
// It reads the writes that `baseline writes` makes from standard input, and makes the first COUNT batches of SIZE writes before any clock
// starts. Each batch goes by `DB::Write` without a log, and is flushed. Behind it the program waits until nothing is picked for a
// compaction any more, and `live` takes a snapshot, gets 100 keys at it, and releases it. `feeds` gets 20,000 keys at the end alone.
// `written` is `feeds` with no flush but those of full memtables, and waits for nothing in between. It prints the same line as
// `ours`, with the flushes among the feeds. `fed` does what `bench/beside fed` does, by one compaction at a time (fed.h).

#include "compactions.h"
#include "fed.h"

#include "../queries.h"
#include "../rocksdb_store.h"

#include <rocksdb/write_batch.h>

#include <numeric>

namespace {

using namespace counters;

// How many lookups there are behind each batch of live writes.
const int kLookups = 100;

// Of how many feeds around a place the median is taken.
const size_t kAround = 11;

// Reads `size` bytes, or ends the program.
std::string ReadBytes(size_t size) {
  std::string bytes(size, '\0');
  if (std::fread(&bytes[0], 1, size, stdin) != size) Fail("a write is cut off");
  return bytes;
}

// A text behind its length of 4 bytes, low byte first.
std::string ReadText() {
  std::string head = ReadBytes(4);
  size_t size = 0;
  for (int place = 3; place >= 0; place--) size = size << 8 | static_cast<uint8_t>(head[place]);
  return ReadBytes(size);
}

// Adds the next write to a batch.
void ReadWrite(int kind, rocksdb::WriteBatch* batch) {
  std::string first = ReadText();
  std::string second = ReadText();
  switch (kind) {
    case 'p': return Expect(batch->Put(first, second), "put");
    case 'd': return Expect(batch->Delete(first), "delete");
    case 'm': return Expect(batch->Merge(first, second), "merge");
    case 'r': return Expect(batch->DeleteRange(first, second), "delete a range");
    default: Fail("no such kind of write");
  }
}

// The first `count` batches of standard input's writes, each of `size` but for the last.
std::vector<rocksdb::WriteBatch> ReadBatches(size_t size, size_t count) {
  std::vector<rocksdb::WriteBatch> batches;
  size_t in_last = size;
  for (int kind = std::getchar(); kind != EOF; kind = std::getchar()) {
    if (in_last == size) {
      if (batches.size() == count) break;
      batches.emplace_back();
      in_last = 0;
    }
    ReadWrite(kind, &batches.back());
    in_last++;
  }
  return batches;
}

// What the words ask for.
struct Asked {
  // Whether the store is read and compacted beside the writes.
  bool is_shared;
  bool flushes;
  // How many lookups there are behind each batch, and at the end.
  int each;
  int last;
  size_t size;
  size_t count;
};

Asked AskedBy(int count, char** words) {
  if (count != 4) Fail("usage: rocksdb live|feeds|written|fed SIZE COUNT");
  std::string mode = words[1];
  if (mode != "live" && mode != "feeds" && mode != "written" && mode != "fed") Fail("it is live, feeds, written or fed");
  Asked asked;
  asked.is_shared = mode == "fed";
  asked.flushes = mode != "written";
  asked.each = mode == "live" ? kLookups : 0;
  asked.last = mode == "live" ? 0 : kLastLookups;
  asked.size = std::strtoull(words[2], nullptr, 10);
  asked.count = std::strtoull(words[3], nullptr, 10);
  if (asked.size == 0) Fail("a batch has no writes");
  return asked;
}

// A store that batches are written to, and what came of them so far.
class Live {
 public:
  Live(rocksdb::DB* db, Compactions* compactions) : db_(db), compactions_(compactions) { unlogged_.disableWAL = true; }

  void Feed(rocksdb::WriteBatch* batch, bool flushes) {
    Clock::time_point start = Clock::now();
    Expect(db_->Write(unlogged_, batch), "write");
    if (flushes) Expect(db_->Flush(rocksdb::FlushOptions()), "flush");
    feeds_.push_back(Since(start));
  }

  void WaitForCompactions() {
    Clock::time_point start = Clock::now();
    compactions_->WaitForAll(db_);
    compacting_ += Since(start);
  }

  // Looks keys up at a snapshot. The keys are drawn before the clock starts.
  void Ask(int count) {
    std::vector<Query> queries = Lookups(numbers_, count, kKeys);
    Clock::time_point start = Clock::now();
    std::vector<Answer> answers = AnswersAtSnapshot(queries);
    asking_ += Since(start);
    answers_ += answers.size();
    sum_ = WithAnswers(sum_, answers);
  }

  void Print(size_t size) const {
    int64_t feeding = std::accumulate(feeds_.begin(), feeds_.end(), int64_t{0});
    Totals totals = TotalsOf(db_);
    std::printf("%" PRId64 " %" PRId64 " %" PRId64 " %" PRId64 " %" PRId64 " %zu %" PRIu64 " %zu %016" PRIx64 "\n", feeding,
                compacting_, asking_, MedianAt(100'000 / size), MedianAt(1'200'000 / size), totals.runs, totals.entries,
                answers_, sum_);
  }

 private:
  std::vector<Answer> AnswersAtSnapshot(const std::vector<Query>& queries) const {
    rocksdb::ReadOptions reading;
    reading.snapshot = db_->GetSnapshot();
    std::vector<Answer> answers;
    answers.reserve(queries.size());
    for (const Query& query : queries) answers.push_back(ValueAt(reading, std::get<Get>(query).key));
    db_->ReleaseSnapshot(reading.snapshot);
    return answers;
  }

  Answer ValueAt(const rocksdb::ReadOptions& reading, const std::string& key) const {
    std::string value;
    Status status = db_->Get(reading, key, &value);
    if (status.IsNotFound()) return Value();
    Expect(status, "get");
    return Value(std::move(value));
  }

  // The median of the feeds around one.
  int64_t MedianAt(size_t place) const {
    size_t first = std::min(feeds_.size(), place - std::min(place, kAround / 2));
    size_t end = std::min(feeds_.size(), first + kAround);
    std::vector<int64_t> around(feeds_.begin() + first, feeds_.begin() + end);
    std::sort(around.begin(), around.end());
    return around.empty() ? 0 : around[around.size() / 2];
  }

  rocksdb::DB* db_;
  Compactions* compactions_;
  rocksdb::WriteOptions unlogged_;
  Numbers numbers_{1};
  std::vector<int64_t> feeds_;
  int64_t compacting_ = 0;
  int64_t asking_ = 0;
  size_t answers_ = 0;
  uint64_t sum_ = 0;
};

void TakeAll(Live* live, std::vector<rocksdb::WriteBatch>* batches, const Asked& asked) {
  for (rocksdb::WriteBatch& batch : *batches) {
    live->Feed(&batch, asked.flushes);
    if (asked.flushes) live->WaitForCompactions();
    if (asked.each > 0) live->Ask(asked.each);
  }
  live->WaitForCompactions();
  if (asked.last > 0) live->Ask(asked.last);
}

}  // namespace

int main(int count, char** words) {
  Asked asked = AskedBy(count, words);
  std::vector<rocksdb::WriteBatch> batches = ReadBatches(asked.size, asked.count);
  std::unique_ptr<rocksdb::Env> env(rocksdb::NewMemEnv(rocksdb::Env::Default()));
  auto compactions = std::make_shared<Compactions>();
  Settings settings;
  if (asked.is_shared) settings.compactions = 1;
  rocksdb::Options options = OptionsIn(env.get(), settings);
  options.listeners.push_back(compactions);
  std::unique_ptr<rocksdb::DB> db = Open(options);
  if (asked.is_shared) {
    MeasureFed(db.get(), compactions.get(), &batches);
  } else {
    Live live(db.get(), compactions.get());
    TakeAll(&live, &batches, asked);
    live.Print(asked.size);
  }
  Expect(db->Close(), "close");
  return 0;
}
