// The star, a hub and its leaves, and the queries over it.
#pragma once
#include "graph.hpp"
#include "lists.hpp"

class Star : public Graph {
 public:
  explicit Star(const std::string& folder)
      : hubs(folder + "/hub.csv"), leaves(folder + "/leaf.csv"),
        has(ends_of(Table(folder + "/has.csv"), NumberKeys(hubs.numbers("id").values), NumberKeys(leaves.numbers("id").values)),
            hubs.rows, leaves.rows),
        leaf_id(leaves.numbers("id").values.data()), weight(leaves.numbers("w").values.data()) {
    jobs = {
        {"every_leaf", [this](Reply& out, const Parameters&) { every_leaf(out); }},
        {"two_filtered_lists", [this](Reply& out, const Parameters& given) { two_filtered_lists(out, given); }},
    };
  }

 private:
  Table hubs, leaves;
  Relationships has;
  const int64_t *leaf_id, *weight;

  void every_leaf(Reply& out) const {
    Front front;
    for (uint32_t leaf : has.forward.neighbours) {
      front.cut(0);
      front.number(leaf_id[leaf]);
      out.row(front, weight[leaf]);
    }
  }
  // Each list is filtered once, and then each leaf of the one goes with each of the other.
  void two_filtered_lists(Reply& out, const Parameters& given) const {
    const Lists& to = has.forward;
    std::vector<int64_t> light, heavy;
    Front front;
    for (uint32_t hub = 0; hub < hubs.rows; hub++) {
      light.clear();
      heavy.clear();
      for (uint32_t at = to.begin(hub); at < to.end(hub); at++) {
        const uint32_t leaf = to.neighbours[at];
        if (weight[leaf] < given[0]) light.push_back(leaf_id[leaf]);
        if (weight[leaf] >= given[1]) heavy.push_back(leaf_id[leaf]);
      }
      for (int64_t one : light) {
        front.cut(0);
        front.number(one);
        for (int64_t other : heavy) out.row(front, other);
      }
    }
  }
};
