SELECT a.name, b.name, '[TRACK #' || t.number || ']'
FROM TRACK t JOIN Station a ON a.code = t.source JOIN Station b ON b.code = t.target
WHERE t.minutes >= 5 AND t.line NOT IN ('Mill', 'Express')
ORDER BY t.minutes DESC, a.name;
