// What may one get in addition with silver-platter, by whatever depends on what, and which of that is large?
MATCH (:Package {name: 'silver-platter'})-[:DEPENDS*1..16]->(p {kind: 'real'})
RETURN DISTINCT p.name AS package, p.installed_kb / 1024 AS megabytes
ORDER BY megabytes DESC, package
LIMIT 12;
