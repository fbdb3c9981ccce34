// The floor: each query of queries.py as loops over plain arrays that were written by hand for this query alone.
//   floor KIND FOLDER              loads the graph, prints "LOADED", and reads jobs from its standard input, one a line:
//                                  NAME <tab> FILE <tab> HEADER (0x1f between columns) <tab> NUMBER <tab> NUMBER ..
//                                  writes graphq's reply to FILE and prints "DONE"
//   floor KIND FOLDER NAME REPLY   for a query with LIMIT and no order: does each row of the file REPLY stand in the whole
//                                  bag, and no more often than there? Prints "OK", or "BAD" and the row.
#include <algorithm>
#include <fstream>
#include <iostream>
#include <memory>
#include <unordered_map>
#include "keyed.hpp"
#include "social_jobs.hpp"
#include "star.hpp"
#include "trails.hpp"

static std::unique_ptr<Graph> load(const std::string& kind, const std::string& folder) {
  if (kind == "social") return std::make_unique<Social>(folder);
  if (kind == "star") return std::make_unique<Star>(folder);
  if (kind == "integer_keys" || kind == "chosen_keys") return std::make_unique<Keyed>(folder, false);
  if (kind == "text_keys") return std::make_unique<Keyed>(folder, true);
  if (kind == "acquaintances") return std::make_unique<Trails>(folder + "/person.csv", folder + "/knows.csv", false);
  if (kind == "imports") return std::make_unique<Trails>(folder + "/module.csv", folder + "/imports.csv", true);
  if (kind == "hubs") return std::make_unique<Trails>(folder + "/place.csv", folder + "/leads.csv", false);
  stop("no such kind of graph: " + kind);
}

static std::vector<std::string> words_of(const std::string& line) {
  std::vector<std::string> words;
  for (size_t from = 0; from <= line.size();) {
    const size_t to = std::min(line.find('\t', from), line.size());
    words.push_back(line.substr(from, to - from));
    from = to + 1;
  }
  return words;
}

// The numbers of a row; nothing where the row has anything else.
static Parameters numbers_of(const std::string& row) {
  Parameters numbers;
  std::string again;
  for (const std::string& word : words_of(row)) {
    numbers.push_back(strtoll(word.c_str(), nullptr, 10));
    again += (again.empty() ? "" : "\t") + std::to_string(numbers.back());
  }
  return again == row ? numbers : Parameters();
}

static int judge(const Graph& graph, const std::string& job, const std::string& reply) {
  std::ifstream file(reply);
  std::unordered_map<std::string, uint64_t> seen;
  std::string line;
  getline(file, line);
  while (getline(file, line) && line.rfind("rows ", 0) != 0) seen[line]++;
  for (const auto& [row, count] : seen) {
    const uint64_t most = graph.times(job, numbers_of(row));
    if (count <= most) continue;
    printf("BAD the row %s stands %llu times, and at most %llu are right\n", row.c_str(), (unsigned long long)count,
           (unsigned long long)most);
    return 1;
  }
  puts("OK");
  return 0;
}

static void answer(const Graph& graph, const std::string& line) {
  std::vector<std::string> words = words_of(line);
  auto job = graph.jobs.find(words[0]);
  if (words.size() < 3 || job == graph.jobs.end()) stop("no such job: " + line);
  std::replace(words[2].begin(), words[2].end(), '\x1f', '\t');
  Parameters given;
  for (size_t at = 3; at < words.size(); at++) given.push_back(atoll(words[at].c_str()));
  Reply reply(words[1], words[2]);
  job->second(reply, given);
}

int main(int count, char** words) {
  if (count != 3 && count != 5) stop("usage: floor KIND FOLDER [NAME REPLY]");
  std::ios::sync_with_stdio(false);
  const std::unique_ptr<Graph> graph = load(words[1], words[2]);
  if (count == 5) return judge(*graph, words[3], words[4]);
  printf("LOADED\n");
  fflush(stdout);
  std::string line;
  while (getline(std::cin, line)) {
    answer(*graph, line);
    printf("DONE\n");
    if (std::cin.rdbuf()->in_avail() <= 0) fflush(stdout);  // all jobs that came in one go are told at once
  }
}
