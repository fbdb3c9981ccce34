// Which stations that are known to be free of steps does one come to from the Zoo, over whatever
// sections?
MATCH (:Station {name: 'Zoo'})-[:TRACK*1..16]->(s)
WHERE s.step_free
RETURN DISTINCT s.name AS station, s.zone AS zone
ORDER BY zone, station;
