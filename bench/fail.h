// How the programs that ours are measured against end where something is wrong.

#pragma once

#include <errno.h>

#include <cstdio>
#include <cstdlib>
#include <string>

namespace counters {

[[noreturn]] inline void Fail(const std::string& what) {
  std::fprintf(stderr, "%s: %s\n", program_invocation_short_name, what.c_str());
  std::exit(1);
}

}  // namespace counters
