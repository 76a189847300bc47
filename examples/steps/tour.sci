sci 2
open
load 1 1
send 1 2222 0 9216 ""
send 1 2222 1 1025 ""
send 1 2043 2 4 ""
send 1 2237 0 0 ""
send 1 2003 3 0 "\x80 \"quoted\""
send 1 2160 1 6 ""
send 1 2645 0 2 ""
send 1 2176 0 0 ""
send 1 9999 0 0 ""
send 1 2006 0 0 ""
expect 24
send 1 3001 0 0 ""
send 1 2025 0 0 ""
open
send 2 2358 0 1 ""
close 1
