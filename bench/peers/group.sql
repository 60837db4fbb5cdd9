CREATE TABLE rows (key INTEGER, value INTEGER);
.separator " "
.import keys.txt rows
SELECT SUM(many * sum) FROM (SELECT COUNT(*) AS many, SUM(value) AS sum FROM rows GROUP BY key);
