load t t.csv int,int
first
write S t at=50
read S
