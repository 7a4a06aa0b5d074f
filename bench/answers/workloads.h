// The workloads of `ours`, and how a store is measured by them in C++.

#pragma once

#include <chrono>

#include "../fail.h"
#include "../queries.h"

namespace counters {

// The batches of queries of a workload, each of which is timed alone.
inline std::vector<std::vector<Query>> BatchesOf(const std::string& workload) {
  const uint64_t kHotKeys = 1'000;
  const int kLookups = 20'000;
  const int kScans = 500;
  Numbers numbers(1);
  std::vector<std::vector<Query>> batches;
  if (workload == "answers") {
    batches.push_back(Lookups(numbers, kLookups, kKeys));
    batches.push_back(Scans(numbers, kScans));
  } else if (workload == "hot") {
    batches.push_back(Lookups(numbers, kLookups, kHotKeys));
  } else if (workload == "deleted") {
    for (uint64_t limit : {5'000, 10'000, 20'000}) batches.push_back({Scan{KeyOf(0), limit}});
  } else {
    Fail("no such workload: " + workload);
  }
  return batches;
}

// Answers the batches of a workload by a store of so many runs and points, and prints the line that `ours` prints.
template <typename Reader>
void Measure(const Reader& reader, const std::string& workload, size_t runs, uint64_t points) {
  using Clock = std::chrono::steady_clock;
  size_t count = 0;
  uint64_t sum = 0;
  std::string times;
  for (const std::vector<Query>& queries : BatchesOf(workload)) {
    std::vector<Answer> answers;
    Clock::time_point start = Clock::now();
    answers.reserve(queries.size());
    for (const Query& query : queries) answers.push_back(std::visit(reader, query));
    std::chrono::nanoseconds time = Clock::now() - start;
    times += " " + std::to_string(time.count());
    count += answers.size();
    sum = WithAnswers(sum, answers);
  }
  std::printf("%zu %" PRIu64 " %zu %016" PRIx64 "%s\n", runs, points, count, sum, times.c_str());
}

}  // namespace counters
