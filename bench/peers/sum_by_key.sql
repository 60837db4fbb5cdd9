CREATE TABLE rows (key TEXT, value INTEGER);
.separator " "
.import lines.txt rows
SELECT SUM(sum * sum) FROM (SELECT SUM(value) AS sum FROM rows GROUP BY key);
