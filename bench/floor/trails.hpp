// One table of nodes and one type of relationship, for trails: what can be reached, by breadth-first search; which trails lead from
// one node to another, from both ends; and all of one to three.
#pragma once
#include "graph.hpp"
#include "walks.hpp"

class Trails : public Graph {
 public:
  // Trails go along the relationships, or against them where `back`.
  Trails(const std::string& nodes_file, const std::string& file, bool back)
      : nodes(nodes_file), keys(nodes.numbers("id").values), id(nodes.numbers("id").values.data()),
        all(ends_of(Table(file), keys, keys), nodes.rows, nodes.rows), to(back ? all.backward : all.forward),
        from(back ? all.forward : all.backward) {
    jobs = {
        {"key", [this](Reply& out, const Parameters& given) { key(out, given); }},
        {"walks", [this](Reply& out, const Parameters& given) { walks(out, given); }},
        {"to_key", [this](Reply& out, const Parameters& given) { between<3>(out, given); }},
        {"between_3", [this](Reply& out, const Parameters& given) { between<3>(out, given); }},
        {"between_4", [this](Reply& out, const Parameters& given) { between<4>(out, given); }},
        {"between_6", [this](Reply& out, const Parameters& given) { between<6>(out, given); }},
        {"reach_3", [this](Reply& out, const Parameters& given) { reach(out, given[0], 3); }},
        {"reach_6", [this](Reply& out, const Parameters& given) { reach(out, given[0], 6); }},
        {"reach_16", [this](Reply& out, const Parameters& given) { reach(out, given[0], 16); }},
        {"starts", [this](Reply& out, const Parameters& given) { starts(out, given); }},
    };
  }

 private:
  Table nodes;
  NumberKeys keys;
  const int64_t* id;
  Relationships all;
  const Lists &to, &from;

  void key(Reply& out, const Parameters& given) const {
    if (keys.row(given[0]) == NONE) return;
    out.number(given[0]);
    out.end();
  }
  void walks(Reply& out, const Parameters& given) const {
    walk<3>(to, keys.row(given[0]), [&](uint32_t b, const uint32_t*, uint32_t) {
      out.number(id[b]);
      out.end();
    });
  }
  // Goes back from the end over half of the length, and then walks on to no node from which the end is too far.
  template <uint32_t MOST> void between(Reply& out, const Parameters& given) const {
    const uint32_t b = keys.row(given[1]);
    const std::vector<uint8_t> far = distances(b, MOST / 2);
    Front front;
    front.number(given[0]);
    walk<MOST>(
        to, keys.row(given[0]), [&](uint32_t node, uint32_t length) { return length + far[node] <= MOST; },
        [&](uint32_t node, const uint32_t*, uint32_t) {
          if (node == b) out.row(front, given[1]);
        });
  }
  // From how far each node leads to the end; one more than `rounds` where it is farther.
  std::vector<uint8_t> distances(uint32_t end, uint8_t rounds) const {
    std::vector<uint8_t> far(nodes.rows, rounds + 1);
    std::vector<uint32_t> met{end};
    far[end] = 0;
    for (size_t at = 0; at < met.size() && far[met[at]] < rounds; at++)
      for (uint32_t place = from.begin(met[at]); place < from.end(met[at]); place++) {
        const uint32_t node = from.neighbours[place];
        if (far[node] <= rounds) continue;
        far[node] = far[met[at]] + 1;
        met.push_back(node);
      }
    return far;
  }
  // Calls `each` with each node to which so many relationships lead at most, once: the start too, where they lead back to it.
  template <class Mark, class Each>
  void meet(uint32_t start, uint32_t most, std::vector<Mark>& marks, Mark mark, std::vector<uint32_t>& met, Each each) const {
    met.assign(1, start);
    size_t at = 0;
    for (uint32_t length = 1; length <= most; length++)
      for (const size_t end = met.size(); at < end; at++)
        for (uint32_t place = to.begin(met[at]); place < to.end(met[at]); place++) {
          const uint32_t node = to.neighbours[place];
          if (marks[node] == mark) continue;
          marks[node] = mark;
          met.push_back(node);
          each(node);
        }
  }
  void reach(Reply& out, int64_t start, uint32_t most) const {
    std::vector<uint8_t> marks(nodes.rows);
    std::vector<uint32_t> met;
    meet(keys.row(start), most, marks, (uint8_t)1, met, [&](uint32_t node) {
      out.number(id[node]);
      out.end();
    });
  }
  // The marks of one start are no others' marks, so that none is taken away.
  void starts(Reply& out, const Parameters& given) const {
    std::vector<uint32_t> marks(nodes.rows, NONE), met;
    Front front;
    for (uint32_t a = 0; a < nodes.rows; a++) {
      if (id[a] > given[0]) continue;
      front.cut(0);
      front.number(id[a]);
      meet(a, 3, marks, a, met, [&](uint32_t node) { out.row(front, id[node]); });
    }
  }
};
