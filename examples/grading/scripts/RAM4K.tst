// RAM4K: 4,096 words.
load RAM4K.hdl,
output-file RAM4K.out,
compare-to RAM4K.cmp,
output-list time%S1.4.1 in%D1.6.1 load%B2.1.2 address%D2.4.2 out%D1.6.1;

// the word comes in with the tock, and another address shows another word
set in 4321, set load 1, set address 1, tick, output; tock, output;
set load 0, set in -1, ticktock, output; set address 0, eval, output;

// a word for each of these addresses, upwards: they are all there
set load 1;
set address 0, set in 9509, ticktock; set address 1, set in 19018, ticktock;
set address 2, set in 28527, ticktock; set address 4, set in -27500, ticktock;
set address 8, set in -17991, ticktock; set address 16, set in -8482, ticktock;
set address 32, set in 1027, ticktock; set address 64, set in 10536, ticktock;
set address 128, set in 20045, ticktock; set address 256, set in 29554, ticktock;
set address 512, set in -26473, ticktock; set address 1024, set in -16964, ticktock;
set address 1536, set in -7455, ticktock; set address 2048, set in 2054, ticktock;
set address 2560, set in 11563, ticktock; set address 3072, set in 21072, ticktock;
set address 3584, set in 30581, ticktock; set address 4095, set in -25446, ticktock;
set load 0, set in 0;
set address 0, eval, output; set address 1, eval, output; set address 2, eval, output;
set address 4, eval, output; set address 8, eval, output; set address 16, eval, output;
set address 32, eval, output; set address 64, eval, output; set address 128, eval, output;
set address 256, eval, output; set address 512, eval, output; set address 1024, eval, output;
set address 1536, eval, output; set address 2048, eval, output; set address 2560, eval, output;
set address 3072, eval, output; set address 3584, eval, output; set address 4095, eval, output;

// the same words turned over, downwards: they are all there, and where load is 0 nothing changes
set load 1;
set address 4095, set in 25445, ticktock; set address 3584, set in -30582, ticktock;
set address 3072, set in -21073, ticktock; set address 2560, set in -11564, ticktock;
set address 2048, set in -2055, ticktock; set address 1536, set in 7454, ticktock;
set address 1024, set in 16963, ticktock; set address 512, set in 26472, ticktock;
set address 256, set in -29555, ticktock; set address 128, set in -20046, ticktock;
set address 64, set in -10537, ticktock; set address 32, set in -1028, ticktock;
set address 16, set in 8481, ticktock; set address 8, set in 17990, ticktock;
set address 4, set in 27499, ticktock; set address 2, set in -28528, ticktock;
set address 1, set in -19019, ticktock; set address 0, set in -9510, ticktock;
set load 0, set in 21845;
set address 0, ticktock, output; set address 1, ticktock, output; set address 2, ticktock, output;
set address 4, ticktock, output; set address 8, ticktock, output; set address 16, ticktock, output;
set address 32, ticktock, output; set address 64, ticktock, output; set address 128, ticktock, output;
set address 256, ticktock, output; set address 512, ticktock, output; set address 1024, ticktock, output;
set address 1536, ticktock, output; set address 2048, ticktock, output; set address 2560, ticktock, output;
set address 3072, ticktock, output; set address 3584, ticktock, output; set address 4095, ticktock, output;
