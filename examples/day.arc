load t t.csv int,int
load more more.csv int,int
first
write S t at=50
read S range=2..2
append S more at=60
read S range=4.. columns=price
read S as_of=time:55
versions S
