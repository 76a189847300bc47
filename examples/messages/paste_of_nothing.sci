sci 1
open
send 1 2003 0 0 "abcd"
send 1 2160 1 3 ""
send 1 2179 0 0 ""
send 1 2009 0 0 ""
send 1 2008 0 0 ""
send 1 2171 1 0 ""
send 1 2179 0 0 ""
send 1 2161 0 0 ""
send 1 2182 0 0 ""
