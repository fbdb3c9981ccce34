// The social graph: what is kept of it, and the names of its jobs.
#pragma once
#include "graph.hpp"
#include "lists.hpp"

class Social : public Graph {
 public:
  explicit Social(const std::string& folder);
  uint64_t times(const std::string& job, const Parameters& row) const override;

 private:
  Table people, towns, posts;
  NumberKeys people_keys, towns_keys, posts_keys;
  Relationships knows, likes;
  Numbers since;
  std::vector<uint32_t> homes, authors;
  Lists dwellers;
  const Numbers &age, &population;
  const Texts &name, &town_name;
  const int64_t *person_id, *town_id, *post_id;

  void range_filter(Reply&, const Parameters&) const;
  void starts_with(Reply&) const;
  void contains(Reply&) const;
  void one_hop(Reply&, const Parameters&) const;
  void undirected_hop(Reply&, const Parameters&) const;
  void two_hops(Reply&, const Parameters&) const;
  void two_lists_limit(Reply&, const Parameters&) const;
  void triangle(Reply&, const Parameters&) const;
  void close_triangles(Reply&, Front&, uint32_t a, uint32_t first, const std::vector<uint32_t>& back) const;
  void trail(Reply&, const Parameters&) const;
  void trail_of_some(Reply&, const Parameters&) const;
  void trail_between(Reply&, const Parameters&) const;
  void no_path(Reply&, const Parameters&) const;
  void each_or_null(Reply&, const Parameters&) const;
  void single_hop(Reply&, const Parameters&) const;
  void same_town(Reply&, const Parameters&) const;
  void liked_authors(Reply&, const Parameters&) const;
  void order_limit(Reply&, const Parameters&) const;
  bool is_ahead(uint32_t left, uint32_t right) const;
  void distinct(Reply&, const Parameters&) const;
  void product_limit(Reply&, const Parameters&) const;
  void every_relationship(Reply&) const;
};

inline Social::Social(const std::string& folder)
    : people(folder + "/person.csv"), towns(folder + "/city.csv"), posts(folder + "/post.csv"),
      people_keys(people.numbers("id").values), towns_keys(towns.numbers("id").values), posts_keys(posts.numbers("id").values),
      age(people.numbers("age")), population(towns.numbers("pop")), name(people.texts("name")), town_name(towns.texts("name")),
      person_id(people.numbers("id").values.data()), town_id(towns.numbers("id").values.data()),
      post_id(posts.numbers("id").values.data()) {
  Table knowing(folder + "/knows.csv");
  knows = Relationships(ends_of(knowing, people_keys, people_keys), people.rows, people.rows);
  since = in_order(knowing.numbers("since"), knows.forward);
  likes = Relationships(ends_of(Table(folder + "/likes.csv"), people_keys, posts_keys), people.rows, posts.rows);
  Ends living = ends_of(Table(folder + "/lives.csv"), people_keys, towns_keys);
  homes = single_targets(living, people.rows);
  dwellers = Lists(towns.rows, living.targets, living.sources);
  authors = single_targets(ends_of(Table(folder + "/creator.csv"), posts_keys, people_keys), posts.rows);
  jobs = {
      {"range_filter", [this](Reply& out, const Parameters& given) { range_filter(out, given); }},
      {"starts_with", [this](Reply& out, const Parameters&) { starts_with(out); }},
      {"contains", [this](Reply& out, const Parameters&) { contains(out); }},
      {"one_hop", [this](Reply& out, const Parameters& given) { one_hop(out, given); }},
      {"undirected_hop", [this](Reply& out, const Parameters& given) { undirected_hop(out, given); }},
      {"two_hops", [this](Reply& out, const Parameters& given) { two_hops(out, given); }},
      {"two_lists_limit", [this](Reply& out, const Parameters& given) { two_lists_limit(out, given); }},
      {"triangle", [this](Reply& out, const Parameters& given) { triangle(out, given); }},
      {"trail", [this](Reply& out, const Parameters& given) { trail(out, given); }},
      {"trail_of_some", [this](Reply& out, const Parameters& given) { trail_of_some(out, given); }},
      {"trail_to", [this](Reply& out, const Parameters& given) { trail_between(out, given); }},
      {"trail_between", [this](Reply& out, const Parameters& given) { trail_between(out, given); }},
      {"no_path", [this](Reply& out, const Parameters& given) { no_path(out, given); }},
      {"each_or_null", [this](Reply& out, const Parameters& given) { each_or_null(out, given); }},
      {"single_hop", [this](Reply& out, const Parameters& given) { single_hop(out, given); }},
      {"same_town", [this](Reply& out, const Parameters& given) { same_town(out, given); }},
      {"liked_authors", [this](Reply& out, const Parameters& given) { liked_authors(out, given); }},
      {"order_limit", [this](Reply& out, const Parameters& given) { order_limit(out, given); }},
      {"distinct", [this](Reply& out, const Parameters& given) { distinct(out, given); }},
      {"product_limit", [this](Reply& out, const Parameters& given) { product_limit(out, given); }},
      {"every_relationship", [this](Reply& out, const Parameters&) { every_relationship(out); }},
  };
}

inline uint64_t Social::times(const std::string& job, const Parameters& row) const {
  if (job == "two_lists_limit" && row.size() == 3) {
    uint32_t a = people_keys.row(row[0]);
    return knows.between(a, people_keys.row(row[1])) * likes.between(a, posts_keys.row(row[2]));
  }
  if (job == "product_limit" && row.size() == 2)
    return people_keys.row(row[0]) != NONE && towns_keys.row(row[1]) != NONE;
  return 0;
}
