SELECT other.name AS station, t.line AS line, t.minutes AS minutes
FROM TRACK t JOIN Station s ON s.code = t.source JOIN Station other ON other.code = t.target
WHERE s.name = 'Central'
UNION ALL
SELECT other.name, t.line, t.minutes
FROM TRACK t JOIN Station s ON s.code = t.target JOIN Station other ON other.code = t.source
WHERE s.name = 'Central' AND t.source <> t.target
ORDER BY station, line;
