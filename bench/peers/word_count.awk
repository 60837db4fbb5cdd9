# How often each word stands there, and the sum of the squares of that.
{ for (i = 1; i <= NF; i++) counts[$i]++ }
END { for (word in counts) total += counts[word] * counts[word]; printf "%.0f\n", total }
