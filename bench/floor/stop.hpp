// How the floor ends where it cannot go on.
#pragma once
#include <cstdio>
#include <cstdlib>
#include <string>

[[noreturn]] inline void stop(const std::string& why) {
  fprintf(stderr, "floor: %s\n", why.c_str());
  exit(2);
}
