// Which stations out of town does one reach from the Opera by at most six sections?
MATCH (:Station {name: 'Opera'})-[:TRACK*1..6]->(s)
WHERE s.zone > 2
RETURN DISTINCT s.name AS station, s.zone AS zone
ORDER BY zone, station;
