SELECT DISTINCT c.name AS company, l.opened / 100 + 1 AS century
FROM RUN_BY r JOIN Line l ON l.name = r.source JOIN Company c ON c.id = r.target
ORDER BY century DESC NULLS FIRST, company;
