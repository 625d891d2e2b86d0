// SimpleAdd.asm, as it was translated: the sum lies on the stack.
load SimpleAdd.asm,
output-file SimpleAdd.out,
compare-to SimpleAdd.cmp,
output-list RAM[0]%D2.6.2 RAM[256]%D2.6.2;

set RAM[0] 256;
repeat 60 { ticktock; }
output;
