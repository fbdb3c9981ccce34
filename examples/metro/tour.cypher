// A tour of the metro, one statement after another.
:schema;

// The stations of the outermost zone; a semicolon in a comment; or in a string ends no statement.
MATCH (s:Station {zone: 4}) WHERE s.name <> 'Depot; closed' RETURN s.name ORDER BY s.name;

// Who runs which line, and since when?
MATCH (l:Line)-[r:RUN_BY]->(c:Company)
RETURN c.name AS company, l.name AS line, r.since
ORDER BY company, r.since DESC;

// One line has no trains, so this is refused, and the tour goes on.
MATCH (l:Line) RETURN l.name, 120 / l.trains AS minutes ORDER BY l.name;
MATCH (l:Line) WHERE l.trains > 0 RETURN l.name, 120 / l.trains AS minutes ORDER BY minutes DESC, l.name;

// A name that is not there is refused too.
MATCH (l:Line) RETURN line.name;

// How would the stops of the Ring be found, and which are they?
:plan MATCH (l:Line {name: 'Ring'})-[:STOPS_AT]->(s) RETURN s.name;
MATCH (l:Line {name: 'Ring'})-[stop:STOPS_AT]->(s) RETURN stop.place, s.name ORDER BY stop.place;

// Two stations with the same two lines, in two clauses.
MATCH (a)<-[:STOPS_AT]-(l:Line)-[:STOPS_AT]->(b)
MATCH (a)<-[:STOPS_AT]-(m:Line)-[:STOPS_AT]->(b)
WHERE l.name < m.name AND a.name < b.name
RETURN a.name, b.name, l.name, m.name
ORDER BY a.name, b.name, l.name, m.name;

// A park has two labels, and is found as a sight too; the type NEAR leads from two tables.
MATCH (x:Sight)-[n:NEAR]->(s) RETURN x, x.name, n, s.name ORDER BY n.minutes;
MATCH (x:Park:Sight) RETURN x.name, x.hectares ORDER BY x.hectares DESC;

// The end of the input ends the last statement.
MATCH (s)-[t:TRACK]-(s) RETURN s, t.line
