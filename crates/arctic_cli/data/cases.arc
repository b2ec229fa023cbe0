load t t.csv int,int
load one one.csv int
load a8 a8.csv int,int
load a9 a9.csv int,int
load u u.csv int,int
load w w.csv int,int
load z z.csv int,int
load prices prices.csv int
load at_nine at_nine.csv int,int
load at_eight at_eight.csv int,int
load quantities quantities.csv int,int
load nine nine.csv int
first
write S t at=50
read S
write asked one at=50
write asked one at=60
read asked as_of=-1
read asked as_of=-2
read asked as_of=7
read asked as_of=time:49
read asked as_of=time:55
write buried t at=50
write buried t at=60 prune
versions buried
delete buried
read buried
prune buried
write falling t
write falling z
read never
write appended t
append appended w
append appended a9
append appended a8
write causes t
update causes u range=2..10
update upserted u
update upserted u upsert
append causes w
delete_range causes range=2..4
read causes
write causes z
write appended_again t at=50
append appended_again at_nine at=60
append appended_again at_eight at=60
write append_of_others t at=50
append append_of_others quantities at=60
append append_alone nine at=60
write all_deleted prices at=50
write all_deleted prices at=50
write all_deleted prices at=50
write all_deleted prices at=50
delete all_deleted version=1
delete all_deleted
versions all_deleted
write all_but_one_pruned prices at=50
write all_but_one_pruned prices at=50
write all_but_one_pruned prices at=50
write all_but_one_pruned prices at=50
delete all_but_one_pruned version=1
prune all_but_one_pruned
versions all_but_one_pruned
write asked_twice prices at=50
write asked_twice prices at=50
write asked_twice prices at=50
write asked_twice prices at=50
delete asked_twice version=1
delete asked_twice version=3,0,3
versions asked_twice
write not_live prices at=50
write not_live prices at=50
write not_live prices at=50
write not_live prices at=50
delete not_live version=1
delete not_live version=0,7,1
versions not_live
delete unknown
prune unknown
reclaim unknown
write buried_unread t at=50
write buried_unread t at=60 prune
versions buried_unread
delete buried_unread
read buried_unread
prune buried_unread
write outside t at=50
update outside u range=2..10 at=60
update upsert_alone u at=60
update upsert_alone u upsert at=60
delete_range outside range=2..4 at=60
read outside
write second_without_prune t at=50
write second_without_prune t at=50
write pruned_by_a_write prices at=50
write pruned_by_a_write prices at=50
write pruned_by_a_write prices at=50 prune
versions pruned_by_a_write
client b
read never
client a
read never
read neither
last
read never
