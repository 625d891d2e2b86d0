// Mult.asm: the product of RAM[0] and RAM[1], at RAM[2].
load Mult.asm,
output-file Mult.out,
compare-to Mult.cmp,
output-list RAM[0]%D2.6.2 RAM[1]%D2.6.2 RAM[2]%D2.6.2;

// a program may count with RAM[0] and RAM[1]: so they are set again before the line
set PC 0, set RAM[0] 0, set RAM[1] 0, set RAM[2] -1; repeat 2000 { ticktock; }
set RAM[0] 0, set RAM[1] 0, output;
set PC 0, set RAM[0] 1, set RAM[1] 0, set RAM[2] -1; repeat 2000 { ticktock; }
set RAM[0] 1, set RAM[1] 0, output;
set PC 0, set RAM[0] 0, set RAM[1] 2, set RAM[2] -1; repeat 2000 { ticktock; }
set RAM[0] 0, set RAM[1] 2, output;
set PC 0, set RAM[0] 3, set RAM[1] 1, set RAM[2] -1; repeat 2000 { ticktock; }
set RAM[0] 3, set RAM[1] 1, output;
set PC 0, set RAM[0] 2, set RAM[1] 4, set RAM[2] -1; repeat 2000 { ticktock; }
set RAM[0] 2, set RAM[1] 4, output;
set PC 0, set RAM[0] 6, set RAM[1] 7, set RAM[2] -1; repeat 2000 { ticktock; }
set RAM[0] 6, set RAM[1] 7, output;

// products of many bits: a program that adds 1 so often as the product says has 30 cycles for each
set PC 0, set RAM[0] 150, set RAM[1] 200, set RAM[2] -1; repeat 1000000 { ticktock; }
set RAM[0] 150, set RAM[1] 200, output;
set PC 0, set RAM[0] 3, set RAM[1] 10000, set RAM[2] -1; repeat 1000000 { ticktock; }
set RAM[0] 3, set RAM[1] 10000, output;
set PC 0, set RAM[0] 10000, set RAM[1] 3, set RAM[2] -1; repeat 1000000 { ticktock; }
set RAM[0] 10000, set RAM[1] 3, output;
