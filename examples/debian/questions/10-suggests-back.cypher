// Which packages suggest one that depends on them, and how large is what one would get in addition?
MATCH (p)-[:SUGGESTS]->(q)-[:DEPENDS]->(p)
RETURN DISTINCT p.name AS package, q.name AS suggests, coalesce(q.installed_kb, 0) / 1024 AS megabytes, q.summary AS summary
ORDER BY megabytes DESC, package, suggests
LIMIT 8;
