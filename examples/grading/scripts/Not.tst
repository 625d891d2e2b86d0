// Not: each bit.
load Not.hdl,
output-file Not.out,
compare-to Not.cmp,
output-list in%B2.1.2 out%B2.1.2;

set in 0, eval, output;
set in 1, eval, output;
