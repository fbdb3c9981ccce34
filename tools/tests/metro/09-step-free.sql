SELECT p.place, s.name, CASE s.step_free WHEN 1 THEN 'true' WHEN 0 THEN 'false' ELSE 'not known yet' END
FROM STOPS_AT p JOIN Station s ON s.code = p.target
WHERE p.source = 'Ring'
ORDER BY p.place;
