WITH RECURSIVE trail(station, taken, sections) AS (
    SELECT t.target, '.' || t.number || '.', 1 FROM Station o JOIN TRACK t ON t.source = o.code WHERE o.name = 'Opera'
    UNION ALL
    SELECT t.target, taken || t.number || '.', sections + 1 FROM trail
    JOIN TRACK t ON t.source = station AND taken NOT LIKE '%.' || t.number || '.%'
    WHERE sections < 6
)
SELECT DISTINCT s.name, s.zone FROM trail JOIN Station s ON s.code = station WHERE s.zone > 2 ORDER BY s.zone, s.name;
