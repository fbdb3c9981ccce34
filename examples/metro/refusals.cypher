// What is wrong with a statement is told by name and place; each place counts from after the semicolon before.
MATCH (s:Station RETURN s.name;
MATCH (s:Station) RETURN s.name ORDER s.name;
MATCH (s:Station) WHERE s.name = 'King\'s Ferry' RETURN s.code;
MATCH (s:Station) RETURN t.name;
MATCH (s:Station) RETURN count(s);
MATCH (s:Station) RETURN s.name + ' station';
MATCH (l:Line) RETURN l.opened / l.trains;
MATCH (s:Station) RETURN DISTINCT s.zone ORDER BY s.name;
MATCH (s:Station) RETURN DISTINCT s.zone ORDER BY s.zone;
