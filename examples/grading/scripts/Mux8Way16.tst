// Mux8Way16: the word that sel numbers.
load Mux8Way16.hdl,
output-file Mux8Way16.out,
compare-to Mux8Way16.cmp,
output-list a%B1.16.1 b%B1.16.1 c%B1.16.1 d%B1.16.1 e%B1.16.1 f%B1.16.1 g%B1.16.1 h%B1.16.1
    sel%B1.3.1 out%B1.16.1;

// each input has each of these words once: no two bits are alike in all of them
set a %B1010101010101010, set b %B1100110011001100, set c %B1111000011110000, set d %B1111111100000000,
set e %B0101010101010101, set f %B0011001100110011, set g %B0000111100001111, set h %B0000000011111111;
set sel %B000, eval, output; set sel %B001, eval, output; set sel %B010, eval, output; set sel %B011, eval, output;
set sel %B100, eval, output; set sel %B101, eval, output; set sel %B110, eval, output; set sel %B111, eval, output;
set a %B1100110011001100, set b %B1111000011110000, set c %B1111111100000000, set d %B0101010101010101,
set e %B0011001100110011, set f %B0000111100001111, set g %B0000000011111111, set h %B1010101010101010;
set sel %B000, eval, output; set sel %B001, eval, output; set sel %B010, eval, output; set sel %B011, eval, output;
set sel %B100, eval, output; set sel %B101, eval, output; set sel %B110, eval, output; set sel %B111, eval, output;
set a %B1111000011110000, set b %B1111111100000000, set c %B0101010101010101, set d %B0011001100110011,
set e %B0000111100001111, set f %B0000000011111111, set g %B1010101010101010, set h %B1100110011001100;
set sel %B000, eval, output; set sel %B001, eval, output; set sel %B010, eval, output; set sel %B011, eval, output;
set sel %B100, eval, output; set sel %B101, eval, output; set sel %B110, eval, output; set sel %B111, eval, output;
set a %B1111111100000000, set b %B0101010101010101, set c %B0011001100110011, set d %B0000111100001111,
set e %B0000000011111111, set f %B1010101010101010, set g %B1100110011001100, set h %B1111000011110000;
set sel %B000, eval, output; set sel %B001, eval, output; set sel %B010, eval, output; set sel %B011, eval, output;
set sel %B100, eval, output; set sel %B101, eval, output; set sel %B110, eval, output; set sel %B111, eval, output;
set a %B0101010101010101, set b %B0011001100110011, set c %B0000111100001111, set d %B0000000011111111,
set e %B1010101010101010, set f %B1100110011001100, set g %B1111000011110000, set h %B1111111100000000;
set sel %B000, eval, output; set sel %B001, eval, output; set sel %B010, eval, output; set sel %B011, eval, output;
set sel %B100, eval, output; set sel %B101, eval, output; set sel %B110, eval, output; set sel %B111, eval, output;
set a %B0011001100110011, set b %B0000111100001111, set c %B0000000011111111, set d %B1010101010101010,
set e %B1100110011001100, set f %B1111000011110000, set g %B1111111100000000, set h %B0101010101010101;
set sel %B000, eval, output; set sel %B001, eval, output; set sel %B010, eval, output; set sel %B011, eval, output;
set sel %B100, eval, output; set sel %B101, eval, output; set sel %B110, eval, output; set sel %B111, eval, output;
set a %B0000111100001111, set b %B0000000011111111, set c %B1010101010101010, set d %B1100110011001100,
set e %B1111000011110000, set f %B1111111100000000, set g %B0101010101010101, set h %B0011001100110011;
set sel %B000, eval, output; set sel %B001, eval, output; set sel %B010, eval, output; set sel %B011, eval, output;
set sel %B100, eval, output; set sel %B101, eval, output; set sel %B110, eval, output; set sel %B111, eval, output;
set a %B0000000011111111, set b %B1010101010101010, set c %B1100110011001100, set d %B1111000011110000,
set e %B1111111100000000, set f %B0101010101010101, set g %B0011001100110011, set h %B0000111100001111;
set sel %B000, eval, output; set sel %B001, eval, output; set sel %B010, eval, output; set sel %B011, eval, output;
set sel %B100, eval, output; set sel %B101, eval, output; set sel %B110, eval, output; set sel %B111, eval, output;
