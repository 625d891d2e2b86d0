// DMux8Way: in goes to the one that sel numbers.
load DMux8Way.hdl,
output-file DMux8Way.out,
compare-to DMux8Way.cmp,
output-list in%B2.1.2 sel%B1.3.1 a%B1.1.1 b%B1.1.1 c%B1.1.1 d%B1.1.1 e%B1.1.1 f%B1.1.1 g%B1.1.1
    h%B1.1.1;

set in 0, set sel %B000, eval, output;
set in 0, set sel %B001, eval, output;
set in 0, set sel %B010, eval, output;
set in 0, set sel %B011, eval, output;
set in 0, set sel %B100, eval, output;
set in 0, set sel %B101, eval, output;
set in 0, set sel %B110, eval, output;
set in 0, set sel %B111, eval, output;
set in 1, set sel %B000, eval, output;
set in 1, set sel %B001, eval, output;
set in 1, set sel %B010, eval, output;
set in 1, set sel %B011, eval, output;
set in 1, set sel %B100, eval, output;
set in 1, set sel %B101, eval, output;
set in 1, set sel %B110, eval, output;
set in 1, set sel %B111, eval, output;
