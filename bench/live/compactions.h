// The compactions of a RocksDB store, and how long things take.

#pragma once

#include "../rocksdb_store.h"

#include <rocksdb/listener.h>

#include <atomic>
#include <chrono>
#include <cstdint>

namespace counters {

using Clock = std::chrono::steady_clock;

inline int64_t Since(Clock::time_point start) { return std::chrono::nanoseconds(Clock::now() - start).count(); }

// Counts the compactions that are done.
class Compactions : public rocksdb::EventListener {
 public:
  void OnCompactionCompleted(rocksdb::DB*, const rocksdb::CompactionJobInfo&) override { count_++; }

  // How many there are once all that are scheduled are done. What was put off meanwhile is scheduled then.
  uint64_t CountDone(rocksdb::DB* db) {
    Expect(db->PauseBackgroundWork(), "pause");
    uint64_t count = count_;
    Expect(db->ContinueBackgroundWork(), "continue");
    return count;
  }

  // Waits until nothing is picked any more: a pause behind which there are no more compactions than behind the one before it. The
  // property of pending compactions doesn't say that: it is also set where there are enough runs and none are picked.
  void WaitForAll(rocksdb::DB* db) {
    uint64_t before = CountDone(db);
    for (uint64_t now = CountDone(db); now != before; now = CountDone(db)) before = now;
  }

 private:
  std::atomic<uint64_t> count_{0};
};

}  // namespace counters
