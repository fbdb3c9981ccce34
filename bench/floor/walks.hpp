// Walks along lists of neighbours that take no relationship twice.
#pragma once
#include "lists.hpp"

// Whether a relationship is one of the walk's, of which `next` has the place behind that of each.
inline bool stands(uint32_t place, const uint32_t* next, uint32_t length) {
  for (uint32_t i = 0; i < length; i++)
    if (next[i] - 1 == place) return true;
  return false;
}
// Calls `each` with all walks from a node of one to `MOST` relationships, none twice: where it ends, and its places. None goes to a
// node that `may` does not let it go to with so many relationships.
template <uint32_t MOST, class May, class Each> void walk(const Lists& to, uint32_t start, May may, Each each) {
  uint32_t next[MOST], last[MOST], depth = 0;
  next[0] = to.begin(start);
  last[0] = to.end(start);
  while (true) {
    if (next[depth] == last[depth]) {
      if (depth-- == 0) return;
      continue;
    }
    const uint32_t place = next[depth]++, node = to.neighbours[place];
    if (!may(node, depth + 1) || stands(place, next, depth)) continue;
    each(node, next, depth + 1);
    if (depth + 1 == MOST) continue;
    next[++depth] = to.begin(node);
    last[depth] = to.end(node);
  }
}
template <uint32_t MOST, class Each> void walk(const Lists& to, uint32_t start, Each each) {
  walk<MOST>(to, start, [](uint32_t, uint32_t) { return true; }, each);
}
