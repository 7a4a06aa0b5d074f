// Lookups and scans of a store of counters, and what they are answered: what the programs that ours are measured against share.

#pragma once

#include <cinttypes>
#include <cstdint>
#include <cstdio>
#include <optional>
#include <string>
#include <utility>
#include <variant>
#include <vector>

namespace counters {

// How many keys a log of counters has.
const uint64_t kKeys = 300'000;
const uint64_t kMostRows = 50;

// Numbers by SplitMix64.
class Numbers {
 public:
  explicit Numbers(uint64_t seed) : state_(seed) {}

  uint64_t Next() {
    state_ += 0x9e3779b97f4a7c15;
    uint64_t mixed = (state_ ^ (state_ >> 30)) * 0xbf58476d1ce4e5b9;
    mixed = (mixed ^ (mixed >> 27)) * 0x94d049bb133111eb;
    return mixed ^ (mixed >> 31);
  }

 private:
  uint64_t state_;
};

struct Get {
  std::string key;
};

struct Scan {
  std::string low;
  uint64_t limit;
};

using Query = std::variant<Get, Scan>;
using Value = std::optional<std::string>;
using Rows = std::vector<std::pair<std::string, std::string>>;
using Answer = std::variant<Value, Rows>;

inline std::string KeyOf(uint64_t number) {
  char key[32];
  std::snprintf(key, sizeof key, "account/%08" PRIu64, number);
  return key;
}

inline std::vector<Query> Lookups(Numbers& numbers, int count, uint64_t keys) {
  std::vector<Query> queries;
  for (int place = 0; place < count; place++) queries.push_back(Get{KeyOf(numbers.Next() % keys)});
  return queries;
}

inline std::vector<Query> Scans(Numbers& numbers, int count) {
  std::vector<Query> queries;
  for (int place = 0; place < count; place++) {
    std::string low = KeyOf(numbers.Next() % kKeys);
    queries.push_back(Scan{low, numbers.Next() % kMostRows + 1});
  }
  return queries;
}

inline uint64_t WithBytes(uint64_t sum, const std::string& bytes) {
  for (char byte : bytes) sum = sum * 31 + static_cast<uint8_t>(byte);
  return sum;
}

// A checksum and then an answer.
inline uint64_t WithAnswer(uint64_t sum, const Answer& answer) {
  if (const Value* value = std::get_if<Value>(&answer)) {
    return value->has_value() ? WithBytes(sum, **value) * 31 + 1 : sum * 31;
  }
  for (const auto& [key, value] : std::get<Rows>(answer)) sum = WithBytes(WithBytes(sum, key), value);
  return sum * 31 + 2;
}

inline uint64_t WithAnswers(uint64_t sum, const std::vector<Answer>& answers) {
  for (const Answer& answer : answers) sum = WithAnswer(sum, answer);
  return sum;
}

}  // namespace counters
