// CSV files as columns. The floor trusts its files: they are those that graphs.py makes.
#pragma once
#include <cstdint>
#include <fcntl.h>
#include <string>
#include <string_view>
#include <sys/mman.h>
#include <sys/stat.h>
#include <unistd.h>
#include <vector>
#include "stop.hpp"

struct Numbers {
  std::vector<int64_t> values;
  std::vector<uint8_t> nulls;
};

struct Texts {
  std::vector<uint64_t> ends{0};
  std::string bytes;
  std::vector<uint8_t> nulls;

  std::string_view operator[](size_t row) const {
    return std::string_view(bytes).substr(ends[row], ends[row + 1] - ends[row]);
  }
};

// The bytes of a file, read from the front on.
class Fields {
 public:
  explicit Fields(const std::string& path) {
    int file = open(path.c_str(), O_RDONLY);
    if (file < 0) stop("no file " + path);
    struct stat about;
    fstat(file, &about);
    size = about.st_size;
    base = (char*)mmap(nullptr, size ? size : 1, PROT_READ, MAP_PRIVATE | MAP_POPULATE, file, 0);
    close(file);
    at = base;
    end = base + size;
  }
  ~Fields() { munmap(base, size ? size : 1); }
  Fields(const Fields&) = delete;

  bool more() const { return at < end; }
  std::string_view line() {
    const char* from = at;
    while (at < end && *at != '\n') at++;
    return std::string_view(from, at++ - from);
  }
  // The next field, and what separates it from the one behind it is taken too.
  std::string_view text() {
    if (at < end && *at == '"') return quoted();
    const char* from = at;
    while (at < end && *at != ',' && *at != '\n') at++;
    return std::string_view(from, at++ - from);
  }
  int64_t number(bool& null) {
    const char* from = at;
    bool negative = at < end && *at == '-';
    if (negative) at++;
    int64_t value = 0;
    while (at < end && (unsigned)(*at - '0') < 10) value = value * 10 + (*at++ - '0');
    null = at++ == from;
    return negative ? -value : value;
  }

 private:
  const char* at;
  const char* end;
  char* base;
  size_t size;
  std::string unquoted;

  std::string_view quoted() {
    unquoted.clear();
    for (at++; at < end && (*at != '"' || (at + 1 < end && at[1] == '"')); at++) {
      unquoted += *at;
      if (*at == '"') at++;
    }
    at += 2;
    return unquoted;
  }
};

class Table {
 public:
  uint32_t rows = 0;

  // A column whose name says no kind has the kind `ends`: 'i' numbers, 's' texts.
  explicit Table(const std::string& path, char ends = 'i') {
    Fields fields(path);
    header(fields.line(), ends);
    while (fields.more()) {
      for (const Column& column : columns) {
        if (column.kind == 'i') add(numbers_of[column.at], fields);
        else add(texts_of[column.at], fields);
      }
      rows++;
    }
  }
  const Numbers& numbers(const char* name) const { return numbers_of[find(name)]; }
  const Texts& texts(const char* name) const { return texts_of[find(name)]; }

 private:
  struct Column {
    std::string name;
    char kind;
    size_t at;
  };
  std::vector<Column> columns;
  std::vector<Numbers> numbers_of;
  std::vector<Texts> texts_of;

  size_t find(const char* name) const {
    for (const Column& column : columns)
      if (column.name == name) return column.at;
    stop(std::string("no column ") + name);
  }
  void header(std::string_view line, char ends) {
    for (size_t from = 0; from <= line.size();) {
      size_t to = std::min(line.find(',', from), line.size());
      std::string_view field = line.substr(from, to - from);
      size_t colon = field.find(':');
      char kind = colon == field.npos ? ends : field[colon + 1];
      columns.push_back({std::string(field.substr(0, colon)), kind, kind == 'i' ? numbers_of.size() : texts_of.size()});
      if (kind == 'i') numbers_of.emplace_back();
      else texts_of.emplace_back();
      from = to + 1;
    }
  }
  static void add(Numbers& column, Fields& fields) {
    bool null;
    column.values.push_back(fields.number(null));
    column.nulls.push_back(null);
  }
  static void add(Texts& column, Fields& fields) {
    std::string_view field = fields.text();
    column.nulls.push_back(field.empty());
    column.bytes.append(field);
    column.ends.push_back(column.bytes.size());
  }
};
