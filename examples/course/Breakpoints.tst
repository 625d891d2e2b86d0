// Sets breakpoints, of which there are none.
load Not.hdl,
output-list in%B1.1.1 out%B1.1.1;

breakpoint time 5,
set in 0, eval, output;
clear-breakpoints;
clear-echo;
