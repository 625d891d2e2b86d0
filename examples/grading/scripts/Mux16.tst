// Mux16: the word a where sel is 0, else the word b.
load Mux16.hdl,
output-file Mux16.out,
compare-to Mux16.cmp,
output-list a%B1.16.1 b%B1.16.1 sel%B2.1.2 out%B1.16.1;

set a %B0000000000000000, set b %B0000000000000000, set sel 0, eval, output;
set sel 1, eval, output;
set a %B1111111111111111, set b %B0000000000000000, set sel 0, eval, output;
set sel 1, eval, output;
set a %B0000000000000000, set b %B1111111111111111, set sel 0, eval, output;
set sel 1, eval, output;
set a %B0001001000110100, set b %B1001100001110110, set sel 0, eval, output;
set sel 1, eval, output;

// no two bits of a word are alike in all of these four
set a %B1010101010101010, set b %B0101010101010101, set sel 0, eval, output;
set sel 1, eval, output;
set a %B1100110011001100, set b %B0011001100110011, set sel 0, eval, output;
set sel 1, eval, output;
set a %B1111000011110000, set b %B0000111100001111, set sel 0, eval, output;
set sel 1, eval, output;
set a %B1111111100000000, set b %B0000000011111111, set sel 0, eval, output;
set sel 1, eval, output;
