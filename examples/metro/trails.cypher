// Trails: relationships of one type, one after another, as many as it takes.

// Which sights are near a station that one reaches from a depot by at most three sections?
MATCH (d:Depot)-[:BESIDE]->(:Station)-[:TRACK*1..3]->(s)<-[:NEAR]-(x:Sight)
RETURN DISTINCT d.name AS depot, x.name AS sight
ORDER BY depot, sight;

// From Northgate to the Market by at most four sections: three lines run the last one, so there are two times three ways.
MATCH (:Station {name: 'Northgate'})-[:TRACK*1..4]->(s:Station {name: 'Market'})
RETURN s.name;

// Where outside zone 1 does one come round again by at most seven sections?
MATCH (s:Station {zone: 2})-[:TRACK*1..7]->(s)
RETURN DISTINCT s.name AS station
ORDER BY station;

// Where does the way end that begins at the Hospital? A train that turns round at the Airport goes on.
MATCH (:Station {name: 'Hospital'})-[:TRACK*1..6]->(s)
WHERE NOT exists((s)-[:TRACK]->())
RETURN DISTINCT s.name AS station
ORDER BY station;

// It turns round once: no trail takes a relationship twice.
MATCH (:Station {code: 'LAK'})-[:TRACK*1..16]->(s)
RETURN s.name;

// What is known when a trail's turn comes tells from which end it is walked.
:plan MATCH (a:Station {code: 'OPE'})-[:TRACK*1..6]->(b)<-[:TRACK*1..2]-(c {zone: 4}), (a)-[:TRACK*2]->(c) RETURN b.name;

// One station to begin at is one chunk.
:profile MATCH (:Station {code: 'LAK'})-[:TRACK*1..16]->(s) RETURN DISTINCT s.name;

// A trail has at most 16 relationships, stands beside no OPTIONAL MATCH, and says how long it may be.
MATCH (a)-[:TRACK*1..20]->(b) RETURN b.name;
MATCH (:Depot)-[:BESIDE]->(s) OPTIONAL MATCH (s)-[:TRACK*1..2]->(t) RETURN t.name;
MATCH (a:Station)-[:TRACK*]->(b) RETURN b;
