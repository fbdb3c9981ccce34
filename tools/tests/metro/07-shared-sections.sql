SELECT a.name, b.name, t.line, u.line
FROM TRACK t
JOIN TRACK u ON u.source = t.source AND u.target = t.target AND u.number <> t.number
JOIN Station a ON a.code = t.source
JOIN Station b ON b.code = t.target
WHERE t.line < u.line
ORDER BY t.line, u.line;
