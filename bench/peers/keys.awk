# How many keys there are.
!($1 in known) { known[$1]; count++ }
END { print count }
