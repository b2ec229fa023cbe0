load n none.csv int
first
