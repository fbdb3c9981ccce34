WITH named AS (
    SELECT "from", "to" FROM depends UNION SELECT "from", "to" FROM recommends UNION SELECT "from", "to" FROM suggests
)
SELECT DISTINCT v.name, n."from", q."from"
FROM named n JOIN package v ON v.name = n."to" AND v.kind = 'virtual' JOIN provides q ON q."to" = v.name
WHERE v.name <> 'debconf-2.0'
ORDER BY v.name, n."from", q."from"
LIMIT 12;
