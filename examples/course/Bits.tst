// Bits.hack, a compiled Jack program: the bits of 5.
load Bits.hack,
output-list RAM[8000]%D1.6.1 RAM[8001]%D1.6.1 RAM[8002]%D1.6.1 RAM[8003]%D1.6.1 RAM[8004]%D1.6.1;

set RAM[8000] 5;
repeat 200000 { ticktock; }
output;
