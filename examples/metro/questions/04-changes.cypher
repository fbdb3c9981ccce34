// Where can one leave a Harbour train for another line? A relationship is never taken twice in one
// MATCH, so Harbour itself is not among them.
MATCH (:Line {name: 'Harbour'})-[:STOPS_AT]->(s)<-[:STOPS_AT]-(other)
RETURN s.name AS station, other.name AS line
ORDER BY station, line;
