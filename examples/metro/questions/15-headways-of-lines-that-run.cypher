// The same of the lines that have trains: a condition that is false saves a row from its fault.
MATCH (l:Line)
WHERE l.trains > 0
RETURN l.name, 120 / l.trains AS minutes
ORDER BY minutes DESC, l.name;
