// Fill.asm: the screen is black while a key is held, and else white.
load Fill.asm,
output-file Fill.out,
compare-to Fill.cmp,
output-list RAM[16384]%D2.6.2 RAM[16447]%D2.6.2 RAM[17648]%D2.6.2 RAM[18349]%D2.6.2
    RAM[19444]%D2.6.2 RAM[20771]%D2.6.2 RAM[21031]%D2.6.2 RAM[22596]%D2.6.2
    RAM[23754]%D2.6.2 RAM[24574]%D2.6.2 RAM[24575]%D2.6.2 RAM[24576]%D2.6.2;

// A million cycles each, 122 for each word of the screen. A program that is amid a pass over the screen
// when the key changes has half of them for each of two passes.
repeat 1000000 { ticktock; } output;
set RAM[24576] 65;
repeat 1000000 { ticktock; } output;
set RAM[24576] 0;
repeat 1000000 { ticktock; } output;

// another key, and while it is held a third one
set RAM[24576] 1;
repeat 1000000 { ticktock; } output;
set RAM[24576] 152;
repeat 1000000 { ticktock; } output;
set RAM[24576] 0;
repeat 1000000 { ticktock; } output;
