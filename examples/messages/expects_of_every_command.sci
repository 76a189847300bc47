sci 2
expect 0
open
expect 1
expect 1
load 1 1
expect 0
send 1 2006 0 0 ""
expect 3
expect 2
send 1 2167 9 0 ""
expect -1
load 1 2
expect 0
send 9 2006 0 0 ""
expect 2
close 1
expect 0
expect 1
