// Which packages bring Python along by way of another package for version control, and by which?
MATCH (p:Package)-[:DEPENDS]->(way:Package)-[:DEPENDS]->(:Package {name: 'python3'}),
      (way)-[:IN_SECTION]->(:Section {name: 'vcs'})
RETURN DISTINCT p.name AS package, way.name AS by_way_of
ORDER BY package, by_way_of;
