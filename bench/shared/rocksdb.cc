// The work of `bench/beside batch` by RocksDB in its memory environment: a log of counters is recovered and not compacted, and then a
// batch of queries, or single lookups, are answered while its background compactions run.
//
//     rocksdb beside THREADS COMPACTIONS
//     rocksdb lookups COMPACTIONS
//
// It recovers standard input as a log with automatic compactions disabled, reads all rows once, so that the cache of blocks holds
// them, and enables compactions as the clock starts, so many at once at the most, each in as many parts, or leaves them disabled
// where that is 0. It prints the same lines as `bench/beside`, with a 0 for the installs, which it doesn't count.

#include "../rocksdb_queries.h"

#include <atomic>

namespace {

using namespace counters;
using Clock = std::chrono::steady_clock;

const int kLookups = 200'000;
const int kScans = 5'000;

// How many queries a thread draws at a time.
const size_t kPiece = 16;

int64_t Since(Clock::time_point start) { return std::chrono::nanoseconds(Clock::now() - start).count(); }

// Background compactions of a store from a moment on, and when nothing is running or pending any more.
class Compactions {
 public:
  Compactions(rocksdb::DB* db, int at_once) : start_(Clock::now()) {
    if (at_once == 0) return;
    Expect(db->EnableAutoCompaction({db->DefaultColumnFamily()}), "enable compactions");
    waiting_ = std::thread([this, db] {
      Wait(db, false);
      nanoseconds_ = Since(start_);
      done_ = true;
    });
  }

  // Without compactions it never is.
  bool IsDone() const { return done_; }

  // Waits until they are done, and says how long that took.
  int64_t Finish() {
    if (waiting_.joinable()) waiting_.join();
    return nanoseconds_;
  }

 private:
  Clock::time_point start_;
  std::atomic<bool> done_{false};
  int64_t nanoseconds_ = 0;
  std::thread waiting_;
};

// What a thread drew, by the numbers of pieces.
using Drawn = std::vector<std::pair<size_t, std::vector<Answer>>>;

Drawn DrawPieces(const Reader& reader, const std::vector<Query>& queries, std::atomic<size_t>& next) {
  Drawn drawn;
  for (size_t piece = next++; piece * kPiece < queries.size(); piece = next++) {
    size_t end = std::min(queries.size(), (piece + 1) * kPiece);
    std::vector<Answer> answers;
    answers.reserve(kPiece);
    for (size_t place = piece * kPiece; place < end; place++) answers.push_back(std::visit(reader, queries[place]));
    drawn.emplace_back(piece, std::move(answers));
  }
  return drawn;
}

// The answers to queries in their order, by threads that draw pieces as they come free.
std::vector<Answer> AnswersBy(rocksdb::DB* db, const std::vector<Query>& queries, int threads) {
  Reader reader{db};
  std::atomic<size_t> next{0};
  std::vector<Drawn> draws(threads);
  std::vector<std::thread> others;
  for (int other = 1; other < threads; other++) {
    others.emplace_back([&, other] { draws[other] = DrawPieces(reader, queries, next); });
  }
  draws[0] = DrawPieces(reader, queries, next);
  for (std::thread& other : others) other.join();
  std::vector<Answer> answers(queries.size());
  for (Drawn& drawn : draws) {
    for (auto& [piece, some] : drawn) std::move(some.begin(), some.end(), answers.begin() + piece * kPiece);
  }
  return answers;
}

// What came of a batch.
struct Answered {
  size_t answers;
  uint64_t checksum;
  int64_t nanoseconds;
};

Answered Ask(rocksdb::DB* db, const std::vector<Query>& queries, int threads) {
  Clock::time_point start = Clock::now();
  std::vector<Answer> answers = AnswersBy(db, queries, threads);
  int64_t nanoseconds = Since(start);
  return {answers.size(), WithAnswers(0, answers), nanoseconds};
}

// Answers a batch beside compactions, and again behind them.
void Beside(rocksdb::DB* db, const std::vector<Query>& queries, int threads, int compactions) {
  Compactions beside(db, compactions);
  Answered meanwhile = Ask(db, queries, threads);
  int64_t compacting = beside.Finish();
  Answered behind = Ask(db, queries, threads);
  if (behind.checksum != meanwhile.checksum) Fail("the answers behind compactions differ");
  std::printf("%zu %016" PRIx64 " %" PRId64 " %" PRId64 " %" PRId64 " 0\n", meanwhile.answers, meanwhile.checksum,
              meanwhile.nanoseconds, behind.nanoseconds, compacting);
}

// Answers one lookup after the other with a clock around each.
void AskEach(rocksdb::DB* db, const std::vector<Query>& queries, int compactions) {
  Reader reader{db};
  uint64_t sum = 0;
  std::vector<int64_t> times;
  times.reserve(queries.size());
  Compactions beside(db, compactions);
  for (const Query& query : queries) {
    Clock::time_point start = Clock::now();
    Answer answer = std::visit(reader, query);
    int64_t time = Since(start);
    if (!beside.IsDone()) times.push_back(time);
    sum = WithAnswer(sum, answer);
  }
  beside.Finish();
  std::sort(times.begin(), times.end());
  auto below = [&](size_t share) { return times.empty() ? 0 : times[times.size() * share / 1000]; };
  std::printf("%zu %016" PRIx64 " %zu %" PRId64 " %" PRId64 " %" PRId64 " %" PRId64 "\n", queries.size(), sum,
              times.size(), below(500), below(990), below(999), times.empty() ? 0 : times.back());
}

}  // namespace

int main(int count, char** words) {
  std::string mode = count > 1 ? words[1] : "";
  bool lookups = mode == "lookups";
  if (count != (lookups ? 3 : 4) || (!lookups && mode != "beside")) Fail("beside THREADS COMPACTIONS, or lookups COMPACTIONS");
  int compactions = std::atoi(words[count - 1]);
  Settings settings;
  settings.uncompacted = true;
  settings.compactions = std::max(1, compactions);
  std::unique_ptr<rocksdb::Env> env(rocksdb::NewMemEnv(rocksdb::Env::Default()));
  std::unique_ptr<rocksdb::DB> db = Recover(OptionsIn(env.get(), settings));
  ReadAll(db.get());
  Totals totals = TotalsOf(db.get());
  std::printf("%zu %" PRIu64 " ", totals.runs, totals.entries);
  Numbers numbers(1);
  std::vector<Query> queries = Lookups(numbers, kLookups, kKeys);
  if (lookups) {
    AskEach(db.get(), queries, compactions);
  } else {
    for (Query& scan : Scans(numbers, kScans)) queries.push_back(std::move(scan));
    Beside(db.get(), queries, std::atoi(words[2]), compactions);
  }
  Expect(db->Close(), "close");
  return 0;
}
