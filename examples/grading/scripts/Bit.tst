// Bit: it takes in where load is 1, and shows it from the next cycle on.
load Bit.hdl,
output-file Bit.out,
compare-to Bit.cmp,
output-list time%S1.4.1 in%B2.1.2 load%B2.1.2 out%B2.1.2;

set in 0, set load 0, tick, output; tock, output;
set load 1, tick, output; tock, output;
set in 1, set load 0, tick, output; tock, output;
set load 1, tick, output; tock, output;
set in 0, set load 0, tick, output; tock, output;
set in 1, tick, output; tock, output;
set in 0, set load 1, tick, output; tock, output;
set in 1, tick, output; tock, output;
set in 0, tick, output; tock, output;
