-- graphq refuses the whole query where one line divides by zero; SQL gives null there, or an error. These are the lines.
SELECT name FROM Line WHERE trains = 0;
