// Or16: the Or of each two bits.
load Or16.hdl,
output-file Or16.out,
compare-to Or16.cmp,
output-list a%B1.16.1 b%B1.16.1 out%B1.16.1;

set a %B0000000000000000, set b %B0000000000000000, eval, output;
set a %B0000000000000000, set b %B1111111111111111, eval, output;
set a %B1111111111111111, set b %B0000000000000000, eval, output;
set a %B1111111111111111, set b %B1111111111111111, eval, output;
set a %B1010101010101010, set b %B0101010101010101, eval, output;
set a %B0011110011000011, set b %B0000111111110000, eval, output;
set a %B0001001000110100, set b %B1001100001110110, eval, output;

// no two bits of a word are alike in all of these four
set a %B1010101010101010, set b %B0000000000000000, eval, output;
set a %B1100110011001100, set b %B0000000000000000, eval, output;
set a %B1111000011110000, set b %B0000000000000000, eval, output;
set a %B1111111100000000, set b %B0000000000000000, eval, output;
set a %B0000000000000000, set b %B1010101010101010, eval, output;
set a %B0000000000000000, set b %B1100110011001100, eval, output;
set a %B0000000000000000, set b %B1111000011110000, eval, output;
set a %B0000000000000000, set b %B1111111100000000, eval, output;
