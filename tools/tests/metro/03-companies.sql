SELECT c.name AS company, l.name AS line, r.since
FROM RUN_BY r JOIN Line l ON l.name = r.source JOIN Company c ON c.id = r.target
ORDER BY company, r.since DESC NULLS FIRST;
