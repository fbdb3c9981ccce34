SELECT DISTINCT s."from", s."to", coalesce(q.installed_kb, 0) / 1024 AS megabytes, q.summary
FROM suggests s
JOIN depends d ON d."from" = s."to" AND d."to" = s."from"
JOIN package q ON q.name = s."to"
ORDER BY megabytes DESC, s."from", s."to"
LIMIT 8;
