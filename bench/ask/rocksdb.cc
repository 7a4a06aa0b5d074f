// Answers queries over a write-ahead log of counters by RocksDB in its memory environment, while its background
// compactions run: what `ucstore ask --operator counter` is measured against.
//
//     rocksdb WORKERS
//
// It reads the head and the log from standard input, puts the log beside an empty database as its next one, opens that
// again, which recovers the log, answers the queries by so many threads, and prints the lines that `ucstore ask` prints.
// It waits for no compaction.

#include "../rocksdb_store.h"

#include <atomic>

namespace {

using namespace counters;

// A lookup, or a scan of so many rows.
struct Query {
  bool scans;
  std::string key;
  uint64_t limit;
};

std::string Unhex(const std::string& digits) {
  std::string bytes;
  if (digits == ".") return bytes;
  for (size_t place = 0; place + 1 < digits.size(); place += 2) {
    bytes.push_back(static_cast<char>(std::stoi(digits.substr(place, 2), nullptr, 16)));
  }
  return bytes;
}

std::string Hex(const std::string& bytes) {
  if (bytes.empty()) return ".";
  std::string digits;
  for (char byte : bytes) {
    char two[3];
    std::snprintf(two, sizeof two, "%02x", static_cast<unsigned char>(byte));
    digits += two;
  }
  return digits;
}

// The lines `get KEY last` and `scan LOW - LIMIT last` up to the line `log`.
std::vector<Query> Head() {
  std::vector<Query> queries;
  char line[256];
  while (std::fgets(line, sizeof line, stdin) != nullptr && std::string(line) != "log\n") {
    char key[128];
    uint64_t limit = 0;
    if (std::sscanf(line, "get %127s last", key) == 1) {
      queries.push_back({false, Unhex(key), 0});
    } else if (std::sscanf(line, "scan %127s - %" SCNu64 " last", key, &limit) == 2) {
      queries.push_back({true, Unhex(key), limit});
    } else {
      Fail(std::string("no such line: ") + line);
    }
  }
  return queries;
}

std::string AnswerTo(rocksdb::DB* db, const Query& query) {
  if (!query.scans) {
    std::string value;
    Status status = db->Get(rocksdb::ReadOptions(), query.key, &value);
    if (status.IsNotFound()) return "none\n";
    Expect(status, "get");
    return "value " + Hex(value) + "\n";
  }
  std::string lines;
  uint64_t count = 0;
  std::unique_ptr<rocksdb::Iterator> rows(db->NewIterator(rocksdb::ReadOptions()));
  for (rows->Seek(query.key); count < query.limit && rows->Valid(); rows->Next(), count++) {
    lines += Hex(rows->key().ToString()) + " " + Hex(rows->value().ToString()) + "\n";
  }
  Expect(rows->status(), "scan");
  return "rows " + std::to_string(count) + "\n" + lines;
}

// The answers in the order of the queries, by so many threads, which draw pieces of 16.
std::vector<std::string> Answers(rocksdb::DB* db, const std::vector<Query>& queries, int workers) {
  const size_t kPiece = 16;
  std::vector<std::string> answers(queries.size());
  std::atomic<size_t> next{0};
  std::vector<std::thread> threads;
  for (int worker = 0; worker < workers; worker++) {
    threads.emplace_back([&] {
      for (size_t from = next.fetch_add(kPiece); from < queries.size(); from = next.fetch_add(kPiece)) {
        for (size_t place = from; place < std::min(from + kPiece, queries.size()); place++) {
          answers[place] = AnswerTo(db, queries[place]);
        }
      }
    });
  }
  for (std::thread& thread : threads) thread.join();
  return answers;
}

}  // namespace

int main(int count, char** words) {
  if (count != 2) Fail("say how many workers");
  std::vector<Query> queries = Head();
  std::unique_ptr<rocksdb::Env> env(rocksdb::NewMemEnv(rocksdb::Env::Default()));
  rocksdb::Options options = OptionsIn(env.get(), Settings());
  Expect(Open(options)->Close(), "close");
  PutLog(env.get());
  std::unique_ptr<rocksdb::DB> db = Open(options);
  for (const std::string& lines : Answers(db.get(), queries, std::atoi(words[1]))) {
    std::fwrite(lines.data(), 1, lines.size(), stdout);
  }
  Expect(db->Close(), "close");
  return 0;
}
