// Clauses after OPTIONAL: a row goes on with each match of the clause, and stands with nulls where there is none.

// Each line with the company that runs it and the depot of its trains, where it has them.
MATCH (l:Line)
OPTIONAL MATCH (l)-[r:RUN_BY]->(c)
OPTIONAL MATCH (d:Depot)-[:HOUSES]->(l)
RETURN l.name AS line, c.name AS company, r.since, d.name AS depot
ORDER BY line;

// Which lines of each depot were opened before 1910? The condition leaves out lines, and no depot.
MATCH (d:Depot)
OPTIONAL MATCH (d)-[:HOUSES]->(l) WHERE l.opened < 1910
RETURN d.name AS depot, l.name AS line
ORDER BY depot, line;

// The stations in the middle of the town and their sights, parks among them; where the order descends, nulls come first.
MATCH (s:Station {zone: 1})
OPTIONAL MATCH (x:Sight)-[n:NEAR]->(s)
RETURN s.name, x, n.minutes
ORDER BY n.minutes DESC, s.name;

// A second clause goes on from the first, and from null it goes nowhere: nobody runs the Ferry.
MATCH (l:Line) WHERE l.trains = 0 OR l.opened > 1970
OPTIONAL MATCH (l)-[:RUN_BY]->(c)
OPTIONAL MATCH (c)<-[:RUN_BY]-(other) WHERE other.name <> l.name
RETURN l.name, c.name, other.name
ORDER BY l.name, other.name;

// A condition is asked of matches alone. The line without trains has no depot, so nothing is divided by 0.
MATCH (l:Line)
OPTIONAL MATCH (d:Depot)-[:HOUSES]->(l) WHERE 100 / l.trains > 8
RETURN l.name, d.name
ORDER BY l.name;

// Where it faults for a match, so does the row. Harbour has 18 trains.
MATCH (l:Line)
OPTIONAL MATCH (l)-[:STOPS_AT]->(s) WHERE 100 / (l.trains - 18) > 8
RETURN l.name, s.name;

// In a plan stands how many alternatives a clause has: a sight is of one of two tables.
:plan MATCH (s:Station) WHERE exists((:Depot)-[:BESIDE]->(s)) OPTIONAL MATCH (x)-[:NEAR]->(s) RETURN x;

// The clause is gone through first, by itself: four depots have lines. Then the depots are.
:profile MATCH (d:Depot) OPTIONAL MATCH (d)-[:HOUSES]->(l) RETURN d.name, l.name ORDER BY d.name, l.name LIMIT 3;

// After such a clause there is no other MATCH, and no condition sees what comes later.
MATCH (d:Depot) OPTIONAL MATCH (d)-[:HOUSES]->(l) MATCH (l)-[:RUN_BY]->(c) RETURN c;
MATCH (d:Depot) WHERE l.name = 'Ring' OPTIONAL MATCH (d)-[:HOUSES]->(l) RETURN d;
