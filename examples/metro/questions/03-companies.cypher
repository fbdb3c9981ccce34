// Who runs which line, and since when? South is still being built.
MATCH (l:Line)-[r:RUN_BY]->(c:Company)
RETURN c.name AS company, l.name AS line, r.since
ORDER BY company, r.since DESC;
