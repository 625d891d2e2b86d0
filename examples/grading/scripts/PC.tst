// PC: 0 where reset, else in where load, else one more where inc, else as it was.
load PC.hdl,
output-file PC.out,
compare-to PC.cmp,
output-list time%S1.4.1 in%D1.6.1 reset%B2.1.2 load%B2.1.2 inc%B2.1.2 out%D1.6.1;

set in 0, set reset 0, set load 0, set inc 0, tick, output; tock, output;
set inc 1, tick, output; tock, output;
set in 7, set load 1, tick, output; tock, output;
set in 9, set reset 1, tick, output; tock, output;
set reset 0, tick, output; tock, output;
set load 0, tick, output; tock, output;
set inc 0, tick, output; tock, output;
set in -32124, set load 1, tick, output; tock, output;
set load 0, set inc 1, tick, output; tock, output;
set in -1, set load 1, tick, output; tock, output;
set load 0, tick, output; tock, output;
tick, output; tock, output;
set reset 1, tick, output; tock, output;

// reset alone, and with load alone
set in 21845, set reset 0, set load 1, tick, output; tock, output;
set reset 1, set load 0, set inc 0, tick, output; tock, output;
set in -21846, set reset 0, set load 1, tick, output; tock, output;
set reset 1, tick, output; tock, output;
set reset 0, set load 0, tick, output; tock, output;
set inc 1, tick, output; tock, output;
