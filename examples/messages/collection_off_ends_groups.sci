sci 1
open
send 1 2012 0 0 ""
send 1 2078 0 0 ""
send 1 2012 0 0 ""
send 1 2012 1 0 ""
send 1 2003 0 0 "a"
send 1 2174 0 0 ""
open
send 2 2012 0 0 ""
send 2 2078 0 0 ""
send 2 2012 1 0 ""
send 2 2003 0 0 "a"
send 2 2012 1 0 ""
send 2 2174 0 0 ""
send 2 2079 0 0 ""
send 2 2174 0 0 ""
