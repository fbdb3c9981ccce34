SELECT name, 120 / trains AS minutes FROM Line WHERE trains > 0 ORDER BY minutes DESC, name;
