// Which sections do two lines share? Each line has a track of its own there.
MATCH (a)-[t:TRACK]->(b)<-[u:TRACK]-(a)
WHERE t.line < u.line
RETURN a.name, b.name, t.line, u.line
ORDER BY t.line, u.line;
