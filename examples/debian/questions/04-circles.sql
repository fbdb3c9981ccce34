SELECT DISTINCT d."from", d."to"
FROM depends d JOIN depends e ON e."from" = d."to" AND e."to" = d."from"
WHERE d."from" < d."to"
ORDER BY d."from", d."to";
