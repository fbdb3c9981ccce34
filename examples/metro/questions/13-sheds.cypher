// Beside which station do the trains of which line and company stand at night? Four answers after
// the first.
MATCH (s:Station)<-[:BESIDE]-(d:Depot)-[:HOUSES]->(l)-[:RUN_BY]->(c)
RETURN s.name AS station, d.name AS depot, l.name AS line, c.name AS company
ORDER BY depot DESC, l.opened
SKIP 1 LIMIT 4;
