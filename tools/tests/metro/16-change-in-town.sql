SELECT s.name, t.line, u.line, r.name, t.minutes + u.minutes AS minutes
FROM TRACK t
JOIN Station s ON s.code = t.target AND s.zone = 1
JOIN TRACK u ON u.source = s.code
JOIN Station r ON r.code = u.target AND r.zone = 1
WHERE t.source = 'CEN' AND t.line <> u.line
ORDER BY minutes NULLS LAST, t.line, r.name;
