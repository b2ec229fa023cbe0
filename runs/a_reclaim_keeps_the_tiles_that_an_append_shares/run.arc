load six six.csv int
load end end.csv int
first
write S six
append S end
keys S
prune S
reclaim S
keys S
read S range=50..
