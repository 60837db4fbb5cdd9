# The sum of the numbers of each first word, and the sum of the squares of that.
{ sums[$1] += $2 }
END { for (key in sums) total += sums[key] * sums[key]; printf "%.0f\n", total }
