// The text of a reply as graphq writes it: a header, a line for each row, and the line `rows N`, by way of 64 KiB of memory.
#pragma once
#include <cstdint>
#include <cstring>
#include <fcntl.h>
#include <string>
#include <string_view>
#include <unistd.h>
#include "stop.hpp"

// The two digits of each number under a hundred.
struct Digits {
  char pairs[200];
  Digits() {
    for (int i = 0; i < 100; i++) {
      pairs[2 * i] = '0' + i / 10;
      pairs[2 * i + 1] = '0' + i % 10;
    }
  }
};
inline const Digits DIGITS;

// Writes a number at `to`, which has room for 20 bytes, and gives its length.
inline size_t spell(char* to, int64_t value) {
  char back[24];
  int at = 24;
  uint64_t rest = value < 0 ? 0 - (uint64_t)value : (uint64_t)value;
  while (rest >= 100) {
    at -= 2;
    memcpy(back + at, DIGITS.pairs + 2 * (rest % 100), 2);
    rest /= 100;
  }
  if (rest >= 10) {
    at -= 2;
    memcpy(back + at, DIGITS.pairs + 2 * rest, 2);
  } else {
    back[--at] = '0' + (char)rest;
  }
  if (value < 0) back[--at] = '-';
  memcpy(to, back + at, 24 - at);
  return 24 - at;
}

// The front of a row, which is spelled once for all rows that begin with it.
struct Front {
  char bytes[128];
  size_t length = 0;

  void cut(size_t at) { length = at; }
  void number(int64_t value) {
    length += spell(bytes + length, value);
    bytes[length++] = '\t';
  }
};

class Reply {
 public:
  uint64_t rows = 0;

  Reply(const std::string& path, std::string_view header) {
    file = open(path.c_str(), O_WRONLY | O_CREAT | O_TRUNC, 0644);
    if (file < 0) stop("no place for " + path);
    put(header.data(), header.size());
    sign('\n');
  }
  ~Reply() {
    const uint64_t count = rows;
    put("rows ", 5);
    number((int64_t)count);
    sign('\n');
    flush();
    close(file);
  }
  Reply(const Reply&) = delete;

  void sign(char value) {
    room(1);
    bytes[length++] = value;
  }
  void tab() { sign('\t'); }
  void null() { put("null", 4); }
  void number(int64_t value) {
    room(24);
    length += spell(bytes + length, value);
  }
  void text(std::string_view value) {
    room(2 * value.size() + 2);
    char* to = bytes + length;
    *to++ = '\'';
    for (char one : value) {
      if (one == '\\' || one == '\'') *to++ = '\\';
      *to++ = one;
    }
    *to++ = '\'';
    length = to - bytes;
  }
  void end() {
    sign('\n');
    rows++;
  }
  void front(const Front& part) { put(part.bytes, part.length); }
  // A whole row: its front and one more number.
  void row(const Front& part, int64_t last) {
    room(part.length + 24);
    memcpy(bytes + length, part.bytes, part.length);
    length += part.length;
    length += spell(bytes + length, last);
    bytes[length++] = '\n';
    rows++;
  }

 private:
  static const size_t MOST = 65536;
  char bytes[MOST + 64];
  size_t length = 0;
  int file;

  void flush() {
    for (size_t at = 0; at < length;) {
      ssize_t count = write(file, bytes + at, length - at);
      if (count <= 0) stop("a write fails");
      at += count;
    }
    length = 0;
  }
  void room(size_t count) {
    if (length + count > MOST) flush();
    if (count > MOST) stop("a text that is too long");
  }
  void put(const char* from, size_t count) {
    room(count);
    memcpy(bytes + length, from, count);
    length += count;
  }
};
