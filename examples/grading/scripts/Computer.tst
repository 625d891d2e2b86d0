// Computer: the greater of two words, and after a reset of two others.
load Computer.hdl,
output-file Computer.out,
compare-to Computer.cmp,
output-list time%S1.4.1 reset%B2.1.2 ARegister[]%D2.6.3 DRegister[]%D2.6.3 PC[]%D1.5.1
    RAM16K[0]%D2.6.2 RAM16K[1]%D2.6.2 RAM16K[2]%D2.6.2;

ROM32K load Max.asm;

set RAM16K[0] 3, set RAM16K[1] 5, output;
repeat 14 { ticktock, output; }

// the program begins anew
set reset 1, ticktock, output;
set reset 0, set RAM16K[0] 23456, set RAM16K[1] -12345, output;
repeat 14 { ticktock; }
output;
