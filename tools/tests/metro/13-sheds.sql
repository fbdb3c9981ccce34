SELECT s.name AS station, d.name AS depot, l.name AS line, c.name AS company
FROM BESIDE b
JOIN Station s ON s.code = b.target
JOIN Depot d ON d.id = b.source
JOIN HOUSES h ON h.source = d.id
JOIN Line l ON l.name = h.target
JOIN RUN_BY r ON r.source = l.name
JOIN Company c ON c.id = r.target
ORDER BY depot DESC, l.opened NULLS LAST
LIMIT 4 OFFSET 1;
