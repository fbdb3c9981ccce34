// Each query over the social graph as the loops that one would write for this query alone.
#pragma once
#include <queue>
#include "social.hpp"
#include "walks.hpp"

inline void put(Reply& out, const Texts& column, uint32_t row) {
  if (column.nulls[row]) out.null();
  else out.text(column[row]);
}
inline void put(Reply& out, const Numbers& column, uint32_t row) {
  if (column.nulls[row]) out.null();
  else out.number(column.values[row]);
}

inline void Social::range_filter(Reply& out, const Parameters& given) const {
  for (uint32_t p = 0; p < people.rows; p++) {
    if (age.nulls[p] || age.values[p] < given[0] || age.values[p] >= given[1]) continue;
    out.number(person_id[p]);
    out.tab();
    put(out, name, p);
    out.tab();
    out.number(age.values[p]);
    out.end();
  }
}

inline void Social::starts_with(Reply& out) const {
  for (uint32_t p = 0; p < people.rows; p++) {
    if (name.nulls[p] || name[p].substr(0, 2) != "Zu") continue;
    out.number(person_id[p]);
    out.tab();
    out.text(name[p]);
    out.end();
  }
}

inline void Social::contains(Reply& out) const {
  for (uint32_t p = 0; p < people.rows; p++) {
    if (name.nulls[p] || name[p].find("zu") == std::string_view::npos) continue;
    out.number(person_id[p]);
    out.tab();
    out.text(name[p]);
    out.end();
  }
}

inline void Social::one_hop(Reply& out, const Parameters& given) const {
  const Lists& to = knows.forward;
  Front front;
  for (uint32_t a = 0; a < people.rows; a++) {
    if (age.nulls[a] || age.values[a] != given[0]) continue;
    front.cut(0);
    front.number(person_id[a]);
    for (uint32_t at = to.begin(a); at < to.end(a); at++) out.row(front, person_id[to.neighbours[at]]);
  }
}

// Marks who knows somebody of this age, then goes through all.
inline void Social::no_path(Reply& out, const Parameters& given) const {
  const Lists& from = knows.backward;
  std::vector<bool> knowing(people.rows);
  for (uint32_t b = 0; b < people.rows; b++) {
    if (age.nulls[b] || age.values[b] != given[0]) continue;
    for (uint32_t at = from.begin(b); at < from.end(b); at++) knowing[from.neighbours[at]] = true;
  }
  for (uint32_t p = 0; p < people.rows; p++) {
    if (knowing[p]) continue;
    out.number(person_id[p]);
    out.end();
  }
}

// Lists whom each knows of this age, found from the side of these, then goes through all.
inline void Social::each_or_null(Reply& out, const Parameters& given) const {
  const Lists& from = knows.backward;
  Ends found;
  for (uint32_t b = 0; b < people.rows; b++) {
    if (age.nulls[b] || age.values[b] != given[0]) continue;
    for (uint32_t at = from.begin(b); at < from.end(b); at++) found.push(from.neighbours[at], b);
  }
  const Lists known(people.rows, found.sources, found.targets);
  Front front;
  for (uint32_t p = 0; p < people.rows; p++) {
    front.cut(0);
    front.number(person_id[p]);
    for (uint32_t at = known.begin(p); at < known.end(p); at++) out.row(front, person_id[known.neighbours[at]]);
    if (known.begin(p) != known.end(p)) continue;
    out.front(front);
    out.null();
    out.end();
  }
}

// A relationship from a node to itself stands in both lists of the node, and counts once.
inline void Social::undirected_hop(Reply& out, const Parameters& given) const {
  const Lists &to = knows.forward, &from = knows.backward;
  Front front;
  for (uint32_t a = 0; a < people.rows; a++) {
    if (age.nulls[a] || age.values[a] != given[0]) continue;
    front.cut(0);
    front.number(person_id[a]);
    for (uint32_t at = to.begin(a); at < to.end(a); at++) out.row(front, person_id[to.neighbours[at]]);
    for (uint32_t at = from.begin(a); at < from.end(a); at++)
      if (from.neighbours[at] != a) out.row(front, person_id[from.neighbours[at]]);
  }
}

inline void Social::two_hops(Reply& out, const Parameters& given) const {
  const Lists& to = knows.forward;
  Front front;
  for (uint32_t a = 0; a < people.rows; a++) {
    if (person_id[a] > given[0]) continue;
    front.cut(0);
    front.number(person_id[a]);
    const size_t first = front.length;
    for (uint32_t at = to.begin(a); at < to.end(a); at++) {
      const uint32_t b = to.neighbours[at];
      front.cut(first);
      front.number(person_id[b]);
      for (uint32_t next = to.begin(b); next < to.end(b); next++)
        if (next != at) out.row(front, person_id[to.neighbours[next]]);
    }
  }
}

inline void Social::two_lists_limit(Reply& out, const Parameters& given) const {
  const Lists &to = knows.forward, &liked = likes.forward;
  Front front;
  for (uint32_t a = 0; a < people.rows; a++) {
    front.cut(0);
    front.number(person_id[a]);
    const size_t first = front.length;
    for (uint32_t at = to.begin(a); at < to.end(a); at++) {
      front.cut(first);
      front.number(person_id[to.neighbours[at]]);
      for (uint32_t other = liked.begin(a); other < liked.end(a); other++) {
        if (out.rows == (uint64_t)given[0]) return;
        out.row(front, post_id[liked.neighbours[other]]);
      }
    }
  }
}

inline void Social::triangle(Reply& out, const Parameters& given) const {
  const Lists &to = knows.forward, &from = knows.backward;
  std::vector<uint32_t> back(people.rows, 0);  // how many relationships lead from a node to `a`
  Front front;
  for (uint32_t a = 0; a < people.rows; a++) {
    if (person_id[a] > given[0]) continue;
    for (uint32_t at = from.begin(a); at < from.end(a); at++) back[from.neighbours[at]]++;
    front.cut(0);
    front.number(person_id[a]);
    const size_t begun = front.length;
    for (uint32_t at = to.begin(a); at < to.end(a); at++) {
      front.cut(begun);
      front.number(person_id[to.neighbours[at]]);
      close_triangles(out, front, a, at, back);
    }
    for (uint32_t at = from.begin(a); at < from.end(a); at++) back[from.neighbours[at]] = 0;
  }
}
// The triangles whose first relationship stands at the place `first` of the list of `a`.
inline void Social::close_triangles(Reply& out, Front& front, uint32_t a, uint32_t first, const std::vector<uint32_t>& back) const {
  const Lists& to = knows.forward;
  const uint32_t b = to.neighbours[first];
  for (uint32_t second = to.begin(b); second < to.end(b); second++) {
    const uint32_t c = to.neighbours[second];
    uint32_t count = second == first ? 0 : back[c];
    if (count > 0 && (a == b || b == c || c == a)) {  // a relationship may close what it is a part of
      count = 0;
      for (uint32_t third = to.begin(c); third < to.end(c); third++)
        count += to.neighbours[third] == a && third != first && third != second;
    }
    for (; count > 0; count--) out.row(front, person_id[c]);
  }
}

inline void Social::trail(Reply& out, const Parameters& given) const {
  walk<3>(knows.forward, people_keys.row(given[0]), [&](uint32_t b, const uint32_t*, uint32_t) {
    out.number(person_id[b]);
    out.end();
  });
}

inline void Social::trail_of_some(Reply& out, const Parameters& given) const {
  Front front;
  for (uint32_t a = 0; a < people.rows; a++) {
    if (age.nulls[a] || age.values[a] != given[0] || person_id[a] > given[1]) continue;
    front.cut(0);
    front.number(person_id[a]);
    walk<3>(knows.forward, a, [&](uint32_t b, const uint32_t*, uint32_t) { out.row(front, person_id[b]); });
  }
}

// Marks who knows the one at the end, walks two relationships at most, and goes through the list of who is marked.
inline void Social::trail_between(Reply& out, const Parameters& given) const {
  const Lists &to = knows.forward, &from = knows.backward;
  const uint32_t a = people_keys.row(given[0]), b = people_keys.row(given[1]);
  std::vector<bool> knowing(people.rows);
  for (uint32_t at = from.begin(b); at < from.end(b); at++) knowing[from.neighbours[at]] = true;
  Front front;
  front.number(given[0]);
  auto close = [&](uint32_t node, const uint32_t* next, uint32_t length) {
    if (!knowing[node]) return;
    for (uint32_t place = to.begin(node); place < to.end(node); place++)
      if (to.neighbours[place] == b && !stands(place, next, length)) out.row(front, given[1]);
  };
  close(a, nullptr, 0);
  walk<2>(to, a, close);
}

inline void Social::single_hop(Reply& out, const Parameters& given) const {
  for (uint32_t p = 0; p < people.rows; p++) {
    const uint32_t town = homes[p];
    if (town == NONE || population.nulls[town] || population.values[town] < given[0]) continue;
    out.number(person_id[p]);
    out.tab();
    put(out, town_name, town);
    out.end();
  }
}

inline void Social::same_town(Reply& out, const Parameters& given) const {
  Front front;
  for (uint32_t a = 0; a < people.rows; a++) {
    if (person_id[a] > given[0] || homes[a] == NONE) continue;
    front.cut(0);
    front.number(person_id[a]);
    for (uint32_t at = dwellers.begin(homes[a]); at < dwellers.end(homes[a]); at++)
      if (dwellers.neighbours[at] != a) out.row(front, person_id[dwellers.neighbours[at]]);
  }
}

inline void Social::liked_authors(Reply& out, const Parameters& given) const {
  const Lists& liked = likes.forward;
  Front front;
  for (uint32_t a = 0; a < people.rows; a++) {
    if (person_id[a] > given[0]) continue;
    front.cut(0);
    front.number(person_id[a]);
    for (uint32_t at = liked.begin(a); at < liked.end(a); at++) {
      const uint32_t author = authors[liked.neighbours[at]];
      if (author != NONE) out.row(front, person_id[author]);
    }
  }
}

// By age, the greatest first, then by name and by key; null is the greatest.
inline bool Social::is_ahead(uint32_t left, uint32_t right) const {
  const int64_t one = age.nulls[left] ? INT64_MAX : age.values[left];
  const int64_t other = age.nulls[right] ? INT64_MAX : age.values[right];
  if (one != other) return one > other;
  if (name.nulls[left] != name.nulls[right]) return !name.nulls[left];
  if (!name.nulls[left] && name[left] != name[right]) return name[left] < name[right];
  return person_id[left] < person_id[right];
}
inline void Social::order_limit(Reply& out, const Parameters& given) const {
  auto ahead = [this](uint32_t left, uint32_t right) { return is_ahead(left, right); };
  std::priority_queue<uint32_t, std::vector<uint32_t>, decltype(ahead)> kept(ahead);
  for (uint32_t p = 0; p < people.rows; p++) {
    if (kept.size() < (size_t)given[0]) {
      kept.push(p);
    } else if (ahead(p, kept.top())) {
      kept.pop();
      kept.push(p);
    }
  }
  std::vector<uint32_t> last_first;
  for (; !kept.empty(); kept.pop()) last_first.push_back(kept.top());
  for (auto p = last_first.rbegin(); p != last_first.rend(); p++) {
    out.number(person_id[*p]);
    out.tab();
    put(out, age, *p);
    out.tab();
    put(out, name, *p);
    out.end();
  }
}

inline void Social::distinct(Reply& out, const Parameters& given) const {
  const Lists& to = knows.forward;
  std::vector<uint32_t> listed(towns.rows, NONE);  // the last person from whom the town was listed
  Front front;
  for (uint32_t a = 0; a < people.rows; a++) {
    if (person_id[a] > given[0]) continue;
    front.cut(0);
    front.number(person_id[a]);
    for (uint32_t at = to.begin(a); at < to.end(a); at++) {
      const uint32_t town = homes[to.neighbours[at]];
      if (town == NONE || listed[town] == a) continue;
      listed[town] = a;
      out.row(front, town_id[town]);
    }
  }
}

inline void Social::product_limit(Reply& out, const Parameters& given) const {
  Front front;
  for (uint32_t a = 0; a < people.rows; a++) {
    front.cut(0);
    front.number(person_id[a]);
    for (uint32_t town = 0; town < towns.rows; town++) {
      if (out.rows == (uint64_t)given[0]) return;
      out.row(front, town_id[town]);
    }
  }
}

inline void Social::every_relationship(Reply& out) const {
  const Lists& to = knows.forward;
  Front front;
  for (uint32_t a = 0; a < people.rows; a++) {
    front.cut(0);
    front.number(person_id[a]);
    const size_t first = front.length;
    for (uint32_t at = to.begin(a); at < to.end(a); at++) {
      front.cut(first);
      front.number(person_id[to.neighbours[at]]);
      if (!since.nulls[at]) {
        out.row(front, since.values[at]);
        continue;
      }
      out.front(front);
      out.null();
      out.end();
    }
  }
}
