load t t.csv int,int
first
write S t
read S range=20..40
read S range=20..20
read S range=21..39
