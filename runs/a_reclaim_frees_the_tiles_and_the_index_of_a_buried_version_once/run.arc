load t t.csv int
first
write S t
write S t
reclaim S
prune S
reclaim S
reclaim S
