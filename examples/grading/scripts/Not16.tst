// Not16: each bit turned over.
load Not16.hdl,
output-file Not16.out,
compare-to Not16.cmp,
output-list in%B1.16.1 out%B1.16.1;

set in %B0000000000000000, eval, output;
set in %B1111111111111111, eval, output;
set in %B0001001000110100, eval, output;

// no two bits of a word are alike in all of these four
set in %B1010101010101010, eval, output;
set in %B1100110011001100, eval, output;
set in %B1111000011110000, eval, output;
set in %B1111111100000000, eval, output;
