# How many numbers are even behind a long chain of operations.
{
  n = $2
  for (i = 0; i < 12; i++) n = (n * 3 + 1) % 1000003 - 7
  if (n % 2 == 0) count++
}
END { print count }
