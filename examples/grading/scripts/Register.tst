// Register: it takes in where load is 1, and shows it from the next cycle on.
load Register.hdl,
output-file Register.out,
compare-to Register.cmp,
output-list time%S1.4.1 in%D1.6.1 load%B2.1.2 out%D1.6.1;

set in 0, set load 0, tick, output; tock, output;
set load 1, tick, output; tock, output;
set in -32123, set load 0, tick, output; tock, output;
set in 11111, tick, output; tock, output;
set in -32123, set load 1, tick, output; tock, output;
set load 0, tick, output; tock, output;
set in 12345, set load 1, tick, output; tock, output;
set in 0, set load 0, tick, output; tock, output;

// each bit as 0 and as 1, with the other one at the input
set in %B1010101010101010, set load 1, tick, output; tock, output;
set in %B0101010101010101, set load 0, tick, output; tock, output;
set in %B1100110011001100, set load 1, tick, output; tock, output;
set in %B0011001100110011, set load 0, tick, output; tock, output;
set in %B1111000011110000, set load 1, tick, output; tock, output;
set in %B0000111100001111, set load 0, tick, output; tock, output;
set in %B1111111100000000, set load 1, tick, output; tock, output;
set in %B0000000011111111, set load 0, tick, output; tock, output;
set in %B1111111111111111, set load 1, tick, output; tock, output;
set in %B0000000000000000, set load 0, tick, output; tock, output;
set in %B0000000000000000, set load 1, tick, output; tock, output;
set in %B1111111111111111, set load 0, tick, output; tock, output;
