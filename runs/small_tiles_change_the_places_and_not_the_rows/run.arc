load t t.csv int,int,int
first
write S t
read S
keys S
