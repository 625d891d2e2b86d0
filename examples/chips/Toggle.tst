// Toggle: the bit turns over at the end of a cycle in which change is 1.
load Toggle.hdl,
compare-to Toggle.cmp,
output-list time%S1.4.1 change%B3.1.3 out%B2.1.2;

set change 0, tick, output; tock, output;
set change 1, tick, output; tock, output;
tick, output; tock, output;
set change 0, tick, output; tock, output;
