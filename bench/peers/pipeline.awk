# How many words stand in the lines before "n", other than "end".
$0 < "n" { for (i = 1; i <= NF; i++) if ($i != "end") count++ }
END { print count }
