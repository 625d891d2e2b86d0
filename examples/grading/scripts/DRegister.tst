// DRegister: a register of the CPU.
load DRegister.hdl,
output-file DRegister.out,
compare-to DRegister.cmp,
output-list time%S1.4.1 in%D1.6.1 load%B2.1.2 out%D1.6.1;

set in 4321, set load 0, tick, output; tock, output;
set load 1, tick, output; tock, output;
set in -1, set load 0, tick, output; tock, output;
set load 1, tick, output; tock, output;
set in 0, set load 0, tick, output; tock, output;
set load 1, tick, output; tock, output;
set in -1, set load 0, tick, output; tock, output;
