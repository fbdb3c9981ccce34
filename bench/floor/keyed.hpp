// People who know one another, with keys of one kind: what is measured is the load, and the listing of one column.
#pragma once
#include "graph.hpp"
#include "lists.hpp"

class Keyed : public Graph {
 public:
  Keyed(const std::string& folder, bool textual) : people(folder + "/person.csv") {
    Table knowing(folder + "/knows.csv", textual ? 's' : 'i');
    if (textual) {
      const TextKeys keys(people.texts("id"));
      knows = Relationships(ends_of(knowing, keys, keys), people.rows, people.rows);
    } else {
      const NumberKeys keys(people.numbers("id").values);
      knows = Relationships(ends_of(knowing, keys, keys), people.rows, people.rows);
    }
    since = in_order(knowing.numbers("since"), knows.forward);
    jobs = {{"every_name", [this](Reply& out, const Parameters&) { every_name(out); }}};
  }

 private:
  Table people;
  Relationships knows;
  Numbers since;

  void every_name(Reply& out) const {
    const Texts& name = people.texts("name");
    for (uint32_t p = 0; p < people.rows; p++) {
      out.text(name[p]);
      out.end();
    }
  }
};
