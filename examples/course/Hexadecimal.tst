// Shows a word in a format that is not there.
load Not16.hdl,
output-list out%X1.4.1;

set in 21845, eval, output;
