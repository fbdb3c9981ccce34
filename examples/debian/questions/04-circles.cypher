// Which packages depend on each other, so that neither can be installed before the other?
MATCH (a:Package)-[:DEPENDS]->(b:Package)-[:DEPENDS]->(a)
WHERE a.name < b.name
RETURN DISTINCT a.name AS one, b.name AS other
ORDER BY one, other;
