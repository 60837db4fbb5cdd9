# The values of each key, and the sum over all keys of their number times their sum.
{ values[$1] = values[$1] " " $2 }
END {
  for (key in values) {
    many = split(values[key], some)
    sum = 0
    for (i = 1; i <= many; i++) sum += some[i]
    total += many * sum
  }
  printf "%.0f\n", total
}
