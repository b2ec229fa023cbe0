load t t.csv int,int
load more more.csv int,int
first
write S t at=50
client tom
append S more at=60
read S range=9..
client ada
write X t at=70
delete_range X range=2..4 at=80
read X
last
read S as_of=-2 range=9..
keys X
