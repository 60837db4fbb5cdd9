# How many words there are before each bound, by a pass for each over words that are kept.
{ for (i = 1; i <= NF; i++) words[++many] = $i }
END {
  split("b d h m s w", bounds)
  for (b = 1; b <= 6; b++) {
    count = 0
    for (i = 1; i <= many; i++) if (words[i] < bounds[b]) count++
    print count
  }
}
