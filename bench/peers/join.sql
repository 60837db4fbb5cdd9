CREATE TABLE lefts (key INTEGER, value INTEGER);
CREATE TABLE rights (key INTEGER, value INTEGER);
.separator " "
.import left.txt lefts
.import right.txt rights
SELECT SUM(lefts.value * rights.value) FROM lefts JOIN rights USING (key);
