// Which packages recommend another one that was built from the same source?
MATCH (p)-[:RECOMMENDS]->(q), (p)-[:BUILT_FROM]->(s)<-[:BUILT_FROM]-(q)
RETURN s.name AS source, p.name AS package, q.name AS recommends
ORDER BY source, package, recommends;
