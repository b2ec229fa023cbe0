load six six.csv int
load mid mid.csv int
first
write S six
update S mid
prune S
reclaim S
keys S
read S
