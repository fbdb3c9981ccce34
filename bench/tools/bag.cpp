// The hash of a bag of rows: the sum of 128-bit hashes of the rows; beside it a hash of the rows in their order.
//   bag graphq FILE      FILE is a reply of graphq: a header, rows, and "rows N"
//   bag sql KINDS FILE   FILE has rows of SQL values with tabs between them; those of the kind s get graphq's quotes
// Prints "ROWS BAG ORDER", or "BAD" and a reason.
#include <cstdint>
#include <cstdio>
#include <cstdlib>
#include <cstring>
#include <fstream>
#include <string>
#include <string_view>

typedef unsigned __int128 Wide;
struct Hash {
  uint64_t high, low;
};

static int bad(const char* why) {
  printf("BAD %s\n", why);
  return 1;
}

static uint64_t mix(uint64_t value) {
  value ^= value >> 32;
  value *= 0xd6e8feb86659fd93ull;
  value ^= value >> 32;
  value *= 0xd6e8feb86659fd93ull;
  return value ^ (value >> 32);
}

static Hash hash(std::string_view row) {
  Hash sum = {0x9e3779b97f4a7c15ull ^ row.size(), 0xc2b2ae3d27d4eb4full + row.size()};
  for (size_t at = 0; at <= row.size(); at += 8) {
    uint64_t word = 0;
    memcpy(&word, row.data() + at, std::min<size_t>(8, row.size() - at));
    sum.high = mix(sum.high ^ word);
    sum.low = mix(sum.low + word * 0x165667b19e3779f9ull);
  }
  return sum;
}

// A row of SQL values as graphq writes it; false where it has not one value for each kind.
static bool as_graphq(std::string_view line, std::string_view kinds, std::string& row) {
  row.clear();
  size_t column = 0;
  for (size_t from = 0; from <= line.size(); column++) {
    const size_t to = std::min(line.find('\t', from), line.size());
    const std::string_view value = line.substr(from, to - from);
    from = to + 1;
    if (column > 0) row += '\t';
    if (column >= kinds.size() || kinds[column] != 's' || value == "null") {
      row += value;
      continue;
    }
    row += '\'';
    for (char one : value) {
      if (one == '\\' || one == '\'') row += '\\';
      row += one;
    }
    row += '\'';
  }
  return column == kinds.size();
}

struct Bag {
  uint64_t rows = 0, order = 1;
  Wide sum = 0;

  void add(std::string_view row) {
    const Hash one = hash(row);
    sum += ((Wide)one.high << 64) | one.low;
    order = mix(order * 31 + one.high);
    rows++;
  }
  int print() const {
    printf("%llu %016llx%016llx %016llx\n", (unsigned long long)rows, (unsigned long long)(sum >> 64), (unsigned long long)sum,
           (unsigned long long)order);
    return 0;
  }
};

static int reply(std::ifstream& file) {
  Bag bag;
  std::string line;
  if (!getline(file, line)) return bad("no header");
  while (getline(file, line)) {
    if (file.eof()) return bad("the last line has no end");
    if (line.rfind("rows ", 0) != 0) {
      bag.add(line);
      continue;
    }
    if (line != "rows " + std::to_string(bag.rows)) return bad("the line 'rows N' tells another number");
    if (getline(file, line)) return bad("text after the line 'rows N'");
    return bag.print();
  }
  return bad("no line 'rows N'");
}

static int table(std::ifstream& file, std::string_view kinds) {
  Bag bag;
  std::string line, row;
  while (getline(file, line)) {
    if (!as_graphq(line, kinds, row)) return bad("another number of columns");
    bag.add(row);
  }
  return bag.print();
}

int main(int count, char** words) {
  const bool graphq = count == 3 && !strcmp(words[1], "graphq");
  if (!graphq && (count != 4 || strcmp(words[1], "sql") != 0)) return bad("usage: bag graphq FILE, or bag sql KINDS FILE");
  std::ifstream file(words[count - 1], std::ios::binary);
  if (!file) return bad("no file");
  return graphq ? reply(file) : table(file, words[2]);
}
