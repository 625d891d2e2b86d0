// Or8Way: no bit, each bit alone, each two, some, and all.
load Or8Way.hdl,
output-file Or8Way.out,
compare-to Or8Way.cmp,
output-list in%B1.8.1 out%B2.1.2;

set in %B00000000, eval, output;
set in %B00000001, eval, output;
set in %B00000010, eval, output;
set in %B00000100, eval, output;
set in %B00001000, eval, output;
set in %B00010000, eval, output;
set in %B00100000, eval, output;
set in %B01000000, eval, output;
set in %B10000000, eval, output;
set in %B00000011, eval, output;
set in %B00000101, eval, output;
set in %B00000110, eval, output;
set in %B00001001, eval, output;
set in %B00001010, eval, output;
set in %B00001100, eval, output;
set in %B00010001, eval, output;
set in %B00010010, eval, output;
set in %B00010100, eval, output;
set in %B00011000, eval, output;
set in %B00100001, eval, output;
set in %B00100010, eval, output;
set in %B00100100, eval, output;
set in %B00101000, eval, output;
set in %B00110000, eval, output;
set in %B01000001, eval, output;
set in %B01000010, eval, output;
set in %B01000100, eval, output;
set in %B01001000, eval, output;
set in %B01010000, eval, output;
set in %B01100000, eval, output;
set in %B10000001, eval, output;
set in %B10000010, eval, output;
set in %B10000100, eval, output;
set in %B10001000, eval, output;
set in %B10010000, eval, output;
set in %B10100000, eval, output;
set in %B11000000, eval, output;
set in %B00100110, eval, output;
set in %B11111111, eval, output;
