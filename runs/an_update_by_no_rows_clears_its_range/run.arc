load six six.csv int
load e e.csv int
first
write S six
update S e range=30..50
read S
update S e
