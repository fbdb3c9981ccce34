// What each kind of graph offers: its jobs by their names, and how often a row stands in the whole bag of a query with LIMIT.
#pragma once
#include <cstdint>
#include <functional>
#include <map>
#include <string>
#include <vector>
#include "reply.hpp"

using Parameters = std::vector<int64_t>;
using Job = std::function<void(Reply&, const Parameters&)>;

struct Graph {
  std::map<std::string, Job> jobs;

  virtual ~Graph() = default;
  virtual uint64_t times(const std::string&, const Parameters&) const { return 0; }
};
