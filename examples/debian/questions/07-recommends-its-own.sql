SELECT b."to", r."from", r."to"
FROM recommends r
JOIN built_from b ON b."from" = r."from"
JOIN built_from c ON c."from" = r."to" AND c."to" = b."to" AND c.rowid <> b.rowid
ORDER BY b."to", r."from", r."to";
