// Parameters: set once, used in each statement after that.
:param line 'Ring';
:param least 7;

// The stops of a line, from some place on.
MATCH (l:Line {name: $line})-[r:STOPS_AT]->(s) WHERE r.place >= $least RETURN r.place, s.name ORDER BY r.place;

// The same statement over another line.
:PARAM line 'Castle';
MATCH (l:Line {name: $line})-[r:STOPS_AT]->(s) WHERE r.place >= $least RETURN r.place, s.name ORDER BY r.place;

// In a list, and as a column, which is called as it is written.
:param other $line; :param line 'Mill';
MATCH (l:Line) WHERE l.name IN [$line, $other, 'South'] RETURN l.name, l.trains - $least, l.name = $line AS here ORDER BY l.name;

// A statement that is refused sets nothing.
:param line 'Ring' + 'way';
:param line $nobody;
MATCH (l:Line {name: $line}) RETURN l.colour, $least;

// What is unknown is told by its name, and the plan shows names where it goes by values.
MATCH (l:Line {name: $Line}) RETURN l;
:plan MATCH (l:Line {name: $line})-[:STOPS_AT]->(s) RETURN s.name;
