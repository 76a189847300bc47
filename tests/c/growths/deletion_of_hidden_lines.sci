sci 1
open
send 1 2003 0 0 "a\x0ab\x0ac\x0ad"
send 1 2222 0 9216 ""
send 1 2222 1 9217 ""
send 1 2222 2 1026 ""
send 1 2222 3 1025 ""
send 1 2237 1 0 ""
send 1 2237 0 0 ""
send 1 2237 0 1 ""
send 1 2645 2 3 ""
