// A way of two hours, there and back: how many minutes apart are the trains of each line? One line
// has none at all, so there is no answer.
MATCH (l:Line)
RETURN l.name, 120 / l.trains AS minutes
ORDER BY l.name;
