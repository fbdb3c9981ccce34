// From which centuries are the lines of each company? One is still being built:
// it has no year, and null stands first in descending order.
MATCH (c:Company)<-[:RUN_BY]-(l:Line)
RETURN DISTINCT c.name AS company, l.opened / 100 + 1 AS century
ORDER BY century DESC, company;
