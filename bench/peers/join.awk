# Each value of a key in the first file with each in the second, and the sum of their products.
NR == FNR { values[$1] = values[$1] " " $2; next }
$1 in values {
  many = split(values[$1], some)
  for (i = 1; i <= many; i++) total += some[i] * $2
}
END { printf "%.0f\n", total }
