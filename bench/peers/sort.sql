CREATE TABLE rows (key INTEGER, value INTEGER);
.separator " "
.import keys.txt rows
SELECT key, value FROM rows ORDER BY key, rowid;
