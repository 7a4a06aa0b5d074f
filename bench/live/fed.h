// The work of `bench/beside fed` by RocksDB: one thread writes batches beside one compaction at a time and two readers.

#pragma once

#include "compactions.h"

#include "../queries.h"
#include "../rocksdb_store.h"

#include <rocksdb/snapshot.h>
#include <rocksdb/write_batch.h>

#include <algorithm>
#include <atomic>
#include <mutex>
#include <thread>

namespace counters {

// How many lookups there are behind all feeds.
const int kLastLookups = 20'000;

// A snapshot, which is released when nobody holds on to it any more.
using Snapshot = std::shared_ptr<const rocksdb::Snapshot>;

// The value of a key at a snapshot.
inline Answer ValueAtSnapshot(rocksdb::DB* db, const rocksdb::Snapshot* snapshot, const std::string& key) {
  rocksdb::ReadOptions reading;
  reading.snapshot = snapshot;
  std::string value;
  Status status = db->Get(reading, key, &value);
  if (status.IsNotFound()) return Value();
  Expect(status, "get");
  return Value(std::move(value));
}

// The time that so many of 1,000 sorted ones don't pass.
inline int64_t Below(const std::vector<int64_t>& times, size_t share) {
  return times.empty() ? 0 : times[times.size() * share / 1000];
}

// A store that one thread writes to and others read at the snapshot that it took last.
class Shared {
 public:
  explicit Shared(rocksdb::DB* db) : db_(db), slowdown_(db->GetOptions().level0_slowdown_writes_trigger) {
    unlogged_.disableWAL = true;
    Keep();
  }

  // Writes batches, and behind each takes the next snapshot and lets go of the one before.
  void FeedAll(std::vector<rocksdb::WriteBatch>* batches) {
    for (rocksdb::WriteBatch& batch : *batches) {
      if (HasNoRoom()) stalls_++;
      Clock::time_point start = Clock::now();
      Expect(db_->Write(unlogged_, &batch), "write");
      Expect(db_->Flush(rocksdb::FlushOptions()), "flush");
      feeding_ += Since(start);
      start = Clock::now();
      Snapshot before = Keep();
      keeps_.push_back(Since(start));
    }
    fed_ = true;
    std::sort(keeps_.begin(), keeps_.end());
  }

  // Looks drawn keys up at the last snapshot, from the first batch's until all is fed. How long each lookup takes.
  std::vector<int64_t> AskUntilFed(uint64_t seed) const {
    Numbers numbers(seed);
    std::vector<int64_t> times;
    while (Pin()->GetSequenceNumber() == 0 && !fed_) std::this_thread::yield();
    while (!fed_) {
      std::string key = KeyOf(numbers.Next() % kKeys);
      Clock::time_point start = Clock::now();
      Answer answer = AnswerKept(key);
      times.push_back(Since(start));
    }
    return times;
  }

  // The line without the time of it all.
  void Print(const std::vector<int64_t>& lookups) const {
    Numbers numbers(1);
    uint64_t sum = 0;
    for (const Query& query : Lookups(numbers, kLastLookups, kKeys)) sum = WithAnswer(sum, AnswerKept(std::get<Get>(query).key));
    Totals totals = TotalsOf(db_);
    std::printf("%" PRId64 " %" PRId64 " %" PRId64 " %" PRId64 " %" PRId64 " %" PRId64 " %d %016" PRIx64, feeding_,
                Below(keeps_, 500), Below(lookups, 500), Below(lookups, 990), Below(lookups, 999),
                lookups.empty() ? 0 : lookups.back(), kLastLookups, sum);
    std::printf(" %zu %zu %zu %" PRIu64 "\n", lookups.size(), stalls_, totals.runs, totals.entries);
  }

 private:
  // Whether a flush waits, as one more run would slow writes down.
  bool HasNoRoom() const { return TotalsOf(db_).runs + 1 >= slowdown_; }

  // Takes a snapshot for readers. Returns the one before, which is released as soon as nobody has it.
  Snapshot Keep() {
    Snapshot kept(db_->GetSnapshot(), [db = db_](const rocksdb::Snapshot* snapshot) { db->ReleaseSnapshot(snapshot); });
    std::lock_guard<std::mutex> lock(mutex_);
    kept_.swap(kept);
    return kept;
  }

  Snapshot Pin() const {
    std::lock_guard<std::mutex> lock(mutex_);
    return kept_;
  }

  Answer AnswerKept(const std::string& key) const {
    Snapshot pinned = Pin();
    return ValueAtSnapshot(db_, pinned.get(), key);
  }

  rocksdb::DB* db_;
  // From how many runs on writes are slowed down.
  size_t slowdown_;
  rocksdb::WriteOptions unlogged_;
  mutable std::mutex mutex_;
  Snapshot kept_;
  std::atomic<bool> fed_{false};
  int64_t feeding_ = 0;
  std::vector<int64_t> keeps_;
  size_t stalls_ = 0;
};

// Writes batches beside compactions and two readers, and prints a line of it.
inline void MeasureFed(rocksdb::DB* db, Compactions* compactions, std::vector<rocksdb::WriteBatch>* batches) {
  Shared shared(db);
  std::vector<int64_t> lookups[2];
  Clock::time_point start = Clock::now();
  std::thread one([&] { lookups[0] = shared.AskUntilFed(2); });
  std::thread other([&] { lookups[1] = shared.AskUntilFed(3); });
  shared.FeedAll(batches);
  compactions->WaitForAll(db);
  int64_t whole = Since(start);
  one.join();
  other.join();
  lookups[0].insert(lookups[0].end(), lookups[1].begin(), lookups[1].end());
  std::sort(lookups[0].begin(), lookups[0].end());
  std::printf("%" PRId64 " ", whole);
  shared.Print(lookups[0]);
}

}  // namespace counters
