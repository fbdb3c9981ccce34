// The sections of five minutes and more, the longest first. Sections of unknown length are none of them.
MATCH (a)-[t:TRACK]->(b)
WHERE t.minutes >= 5 AND NOT t.line IN ['Mill', 'Express']
RETURN a.name AS from, b.name AS to, t
ORDER BY t.minutes DESC, from;
