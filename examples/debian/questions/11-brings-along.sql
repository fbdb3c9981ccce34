WITH RECURSIVE needed(name, steps) AS (
    SELECT "to", 1 FROM depends WHERE "from" = 'silver-platter'
    UNION
    SELECT d."to", n.steps + 1 FROM needed n JOIN depends d ON d."from" = n.name WHERE n.steps < 16
)
SELECT DISTINCT p.name, p.installed_kb / 1024 AS megabytes
FROM needed n JOIN package p ON p.name = n.name
WHERE p.kind = 'real'
ORDER BY megabytes DESC, p.name
LIMIT 12;
