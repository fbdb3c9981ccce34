// Whose packages for version control depend on those of other maintainers?
MATCH (m)<-[:MAINTAINED_BY]-(p)-[:DEPENDS]->(q)-[:MAINTAINED_BY]->(n),
      (p)-[:IN_SECTION]->(s {name: 'vcs'})<-[:IN_SECTION]-(q)
WHERE m.name <> n.name
RETURN DISTINCT m.name AS maintainer, n.name AS depends_on
ORDER BY maintainer, depends_on
SKIP 5 LIMIT 10;
