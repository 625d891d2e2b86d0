// HalfAdder: the two binary digits of a + b.
load HalfAdder.hdl,
output-file HalfAdder.out,
compare-to HalfAdder.cmp,
output-list a%B2.1.2 b%B2.1.2 sum%B2.1.2 carry%B2.1.2;

set a 0, set b 0, eval, output;
set a 0, set b 1, eval, output;
set a 1, set b 0, eval, output;
set a 1, set b 1, eval, output;
