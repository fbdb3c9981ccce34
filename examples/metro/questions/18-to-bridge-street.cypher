// By which section does one set out from Northgate to Bridge Street, with at most six of them? A row for each way.
MATCH (:Station {name: 'Northgate'})-[t:TRACK]->(s), (b:Station {name: 'Bridge Street'}), (s)-[:TRACK*1..5]->(b)
RETURN t.line AS line, s.name AS next_station
ORDER BY line, next_station;
