// A RocksDB store of counters in its memory environment, recovered from a log: what the programs that ours are measured
// against share.

#pragma once

#include <rocksdb/cache.h>
#include <rocksdb/db.h>
#include <rocksdb/env.h>
#include <rocksdb/filter_policy.h>
#include <rocksdb/merge_operator.h>
#include <rocksdb/metadata.h>
#include <rocksdb/table.h>
#include <rocksdb/universal_compaction.h>

#include <algorithm>
#include <chrono>
#include <cinttypes>
#include <cstdint>
#include <cstdio>
#include <cstdlib>
#include <memory>
#include <string>
#include <thread>
#include <vector>

#include "fail.h"

namespace counters {

using rocksdb::Slice;
using rocksdb::Status;

const std::string kFolder = "/counters";

// Ends the program where a call failed.
inline void Expect(const Status& status, const char* what) {
  if (!status.ok()) Fail(what + (": " + status.ToString()));
}

// The number that 8 bytes stand for, low byte first; 0 for any other text.
inline uint64_t Number(const Slice& bytes) {
  uint64_t number = 0;
  if (bytes.size() == 8) {
    for (int place = 7; place >= 0; place--) {
      number = number << 8 | static_cast<uint8_t>(bytes[place]);
    }
  }
  return number;
}

// Adds numbers of 64 bits, whose sums wrap.
class Counter : public rocksdb::AssociativeMergeOperator {
 public:
  bool Merge(const Slice&, const Slice* existing, const Slice& operand, std::string* result,
             rocksdb::Logger*) const override {
    uint64_t sum = Number(operand) + (existing == nullptr ? 0 : Number(*existing));
    result->clear();
    for (int place = 0; place < 8; place++) {
      result->push_back(static_cast<char>(sum >> (8 * place)));
    }
    return true;
  }

  const char* Name() const override { return "counter"; }
};

// How a store is opened and compacted.
struct Settings {
  size_t memtable = 4 << 20;
  int trigger = 4;
  // Whether each flushed file stays.
  bool uncompacted = false;
  // How many compactions run at once at the most, each in as many parts.
  int compactions = std::max(1, static_cast<int>(std::thread::hardware_concurrency()));
};

// How many bits a key the filters of tables have: none, as ours have none, where FILTER doesn't say so.
inline double FilterBits() {
  const char* bits = std::getenv("FILTER");
  return bits == nullptr ? 0 : std::atof(bits);
}

// Tables whose blocks all stay in memory, as those of ours do.
inline std::shared_ptr<rocksdb::TableFactory> TablesInMemory() {
  const size_t kCache = 1 << 30;
  rocksdb::BlockBasedTableOptions options;
  options.block_cache = rocksdb::NewLRUCache(kCache);
  double bits = FilterBits();
  if (bits > 0) options.filter_policy.reset(rocksdb::NewBloomFilterPolicy(bits));
  return std::shared_ptr<rocksdb::TableFactory>(rocksdb::NewBlockBasedTableFactory(options));
}

inline rocksdb::Options OptionsIn(rocksdb::Env* env, const Settings& settings) {
  rocksdb::Options options;
  options.env = env;
  options.create_if_missing = true;
  options.compaction_style = rocksdb::kCompactionStyleUniversal;
  options.level0_file_num_compaction_trigger = settings.trigger;
  options.compaction_options_universal.size_ratio = 1;
  options.compaction_options_universal.min_merge_width = 2;
  options.compaction_options_universal.max_size_amplification_percent = 200;
  options.write_buffer_size = settings.memtable;
  options.disable_auto_compactions = settings.uncompacted;
  options.compression = rocksdb::kNoCompression;
  options.merge_operator = std::make_shared<Counter>();
  options.table_factory = TablesInMemory();
  // One flush, and the others compact.
  options.max_background_jobs = settings.compactions + 1;
  options.max_subcompactions = static_cast<uint32_t>(settings.compactions);
  return options;
}

inline std::unique_ptr<rocksdb::DB> Open(const rocksdb::Options& options) {
  rocksdb::DB* db = nullptr;
  Expect(rocksdb::DB::Open(options, kFolder, &db), "open");
  return std::unique_ptr<rocksdb::DB>(db);
}

// The number in a file's name: that of `MANIFEST-000005` is 5.
inline uint64_t NumberIn(const std::string& name) {
  size_t digits = name.find_first_of("0123456789");
  return digits == std::string::npos ? 0 : std::strtoull(name.c_str() + digits, nullptr, 10);
}

// The name of a log behind all files that are there, so that it is recovered last.
inline std::string NextLog(rocksdb::Env* env) {
  std::vector<std::string> names;
  Expect(env->GetChildren(kFolder, &names), "list");
  uint64_t number = 0;
  for (const std::string& name : names) number = std::max(number, NumberIn(name));
  char path[64];
  std::snprintf(path, sizeof path, "%s/%06" PRIu64 ".log", kFolder.c_str(), number + 1);
  return path;
}

// Copies standard input to a log of the database.
inline void PutLog(rocksdb::Env* env) {
  std::unique_ptr<rocksdb::WritableFile> file;
  Expect(env->NewWritableFile(NextLog(env), &file, rocksdb::EnvOptions()), "create a log");
  std::vector<char> part(1 << 20);
  size_t count;
  while ((count = std::fread(part.data(), 1, part.size(), stdin)) > 0) {
    Expect(file->Append(Slice(part.data(), count)), "write a log");
  }
  Expect(file->Close(), "close a log");
}

// Whether a flush or a compaction is running or pending.
inline bool IsBusy(rocksdb::DB* db, bool uncompacted) {
  for (const std::string* name : {&rocksdb::DB::Properties::kNumRunningFlushes,
                                  &rocksdb::DB::Properties::kNumRunningCompactions,
                                  &rocksdb::DB::Properties::kMemTableFlushPending,
                                  &rocksdb::DB::Properties::kCompactionPending}) {
    if (uncompacted && name == &rocksdb::DB::Properties::kCompactionPending) continue;
    uint64_t value = 1;
    if (!db->GetIntProperty(*name, &value) || value != 0) return true;
  }
  return false;
}

// Waits until nothing was running or pending in several looks.
inline void Wait(rocksdb::DB* db, bool uncompacted) {
  int idle = 0;
  while (idle < 3) {
    idle = IsBusy(db, uncompacted) ? 0 : idle + 1;
    std::this_thread::sleep_for(std::chrono::milliseconds(1));
  }
}

// A store that recovers standard input as its log, with nothing running or pending.
inline std::unique_ptr<rocksdb::DB> Recover(const rocksdb::Options& options) {
  Expect(Open(options)->Close(), "close");
  PutLog(options.env);
  std::unique_ptr<rocksdb::DB> db = Open(options);
  Expect(db->Flush(rocksdb::FlushOptions()), "flush");
  Wait(db.get(), options.disable_auto_compactions);
  return db;
}

// How many runs there are, with how many entries.
struct Totals {
  size_t runs = 0;
  uint64_t entries = 0;
};

// Each file of level 0 is a run, and each deeper level with files is one.
inline Totals TotalsOf(rocksdb::DB* db) {
  rocksdb::ColumnFamilyMetaData metadata;
  db->GetColumnFamilyMetaData(&metadata);
  Totals totals;
  for (const rocksdb::LevelMetaData& level : metadata.levels) {
    totals.runs += level.level == 0 ? level.files.size() : !level.files.empty();
    for (const rocksdb::SstFileMetaData& file : level.files) totals.entries += file.num_entries;
  }
  return totals;
}

}  // namespace counters
