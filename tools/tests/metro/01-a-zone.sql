SELECT name FROM Station WHERE zone = 4 ORDER BY name;
