// Mux4Way16: the word that sel numbers.
load Mux4Way16.hdl,
output-file Mux4Way16.out,
compare-to Mux4Way16.cmp,
output-list a%B1.16.1 b%B1.16.1 c%B1.16.1 d%B1.16.1 sel%B1.2.1 out%B1.16.1;

// each input has each of these words once: no two bits are alike in all of them
set a %B1010101010101010, set b %B1100110011001100, set c %B1111000011110000, set d %B1111111100000000;
set sel %B00, eval, output; set sel %B01, eval, output; set sel %B10, eval, output; set sel %B11, eval, output;
set a %B1100110011001100, set b %B1111000011110000, set c %B1111111100000000, set d %B0101010101010101;
set sel %B00, eval, output; set sel %B01, eval, output; set sel %B10, eval, output; set sel %B11, eval, output;
set a %B1111000011110000, set b %B1111111100000000, set c %B0101010101010101, set d %B0011001100110011;
set sel %B00, eval, output; set sel %B01, eval, output; set sel %B10, eval, output; set sel %B11, eval, output;
set a %B1111111100000000, set b %B0101010101010101, set c %B0011001100110011, set d %B0000111100001111;
set sel %B00, eval, output; set sel %B01, eval, output; set sel %B10, eval, output; set sel %B11, eval, output;
set a %B0101010101010101, set b %B0011001100110011, set c %B0000111100001111, set d %B0000000011111111;
set sel %B00, eval, output; set sel %B01, eval, output; set sel %B10, eval, output; set sel %B11, eval, output;
set a %B0011001100110011, set b %B0000111100001111, set c %B0000000011111111, set d %B1010101010101010;
set sel %B00, eval, output; set sel %B01, eval, output; set sel %B10, eval, output; set sel %B11, eval, output;
set a %B0000111100001111, set b %B0000000011111111, set c %B1010101010101010, set d %B1100110011001100;
set sel %B00, eval, output; set sel %B01, eval, output; set sel %B10, eval, output; set sel %B11, eval, output;
set a %B0000000011111111, set b %B1010101010101010, set c %B1100110011001100, set d %B1111000011110000;
set sel %B00, eval, output; set sel %B01, eval, output; set sel %B10, eval, output; set sel %B11, eval, output;
