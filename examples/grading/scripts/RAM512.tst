// RAM512: 512 words.
load RAM512.hdl,
output-file RAM512.out,
compare-to RAM512.cmp,
output-list time%S1.4.1 in%D1.6.1 load%B2.1.2 address%D2.3.2 out%D1.6.1;

// the word comes in with the tock, and another address shows another word
set in 4321, set load 1, set address 1, tick, output; tock, output;
set load 0, set in -1, ticktock, output; set address 0, eval, output;

// a word for each of these addresses, upwards: they are all there
set load 1;
set address 0, set in 9509, ticktock; set address 1, set in 19018, ticktock;
set address 2, set in 28527, ticktock; set address 3, set in -27500, ticktock;
set address 4, set in -17991, ticktock; set address 5, set in -8482, ticktock;
set address 6, set in 1027, ticktock; set address 7, set in 10536, ticktock;
set address 8, set in 20045, ticktock; set address 16, set in 29554, ticktock;
set address 24, set in -26473, ticktock; set address 32, set in -16964, ticktock;
set address 40, set in -7455, ticktock; set address 48, set in 2054, ticktock;
set address 56, set in 11563, ticktock; set address 64, set in 21072, ticktock;
set address 73, set in 30581, ticktock; set address 128, set in -25446, ticktock;
set address 146, set in -15937, ticktock; set address 192, set in -6428, ticktock;
set address 219, set in 3081, ticktock; set address 256, set in 12590, ticktock;
set address 292, set in 22099, ticktock; set address 320, set in 31608, ticktock;
set address 365, set in -24419, ticktock; set address 384, set in -14910, ticktock;
set address 438, set in -5401, ticktock; set address 448, set in 4108, ticktock;
set address 511, set in 13617, ticktock;
set load 0, set in 0;
set address 0, eval, output; set address 1, eval, output; set address 2, eval, output;
set address 3, eval, output; set address 4, eval, output; set address 5, eval, output;
set address 6, eval, output; set address 7, eval, output; set address 8, eval, output;
set address 16, eval, output; set address 24, eval, output; set address 32, eval, output;
set address 40, eval, output; set address 48, eval, output; set address 56, eval, output;
set address 64, eval, output; set address 73, eval, output; set address 128, eval, output;
set address 146, eval, output; set address 192, eval, output; set address 219, eval, output;
set address 256, eval, output; set address 292, eval, output; set address 320, eval, output;
set address 365, eval, output; set address 384, eval, output; set address 438, eval, output;
set address 448, eval, output; set address 511, eval, output;

// the same words turned over, downwards: they are all there, and where load is 0 nothing changes
set load 1;
set address 511, set in -13618, ticktock; set address 448, set in -4109, ticktock;
set address 438, set in 5400, ticktock; set address 384, set in 14909, ticktock;
set address 365, set in 24418, ticktock; set address 320, set in -31609, ticktock;
set address 292, set in -22100, ticktock; set address 256, set in -12591, ticktock;
set address 219, set in -3082, ticktock; set address 192, set in 6427, ticktock;
set address 146, set in 15936, ticktock; set address 128, set in 25445, ticktock;
set address 73, set in -30582, ticktock; set address 64, set in -21073, ticktock;
set address 56, set in -11564, ticktock; set address 48, set in -2055, ticktock;
set address 40, set in 7454, ticktock; set address 32, set in 16963, ticktock;
set address 24, set in 26472, ticktock; set address 16, set in -29555, ticktock;
set address 8, set in -20046, ticktock; set address 7, set in -10537, ticktock;
set address 6, set in -1028, ticktock; set address 5, set in 8481, ticktock;
set address 4, set in 17990, ticktock; set address 3, set in 27499, ticktock;
set address 2, set in -28528, ticktock; set address 1, set in -19019, ticktock;
set address 0, set in -9510, ticktock;
set load 0, set in 21845;
set address 0, ticktock, output; set address 1, ticktock, output; set address 2, ticktock, output;
set address 3, ticktock, output; set address 4, ticktock, output; set address 5, ticktock, output;
set address 6, ticktock, output; set address 7, ticktock, output; set address 8, ticktock, output;
set address 16, ticktock, output; set address 24, ticktock, output; set address 32, ticktock, output;
set address 40, ticktock, output; set address 48, ticktock, output; set address 56, ticktock, output;
set address 64, ticktock, output; set address 73, ticktock, output; set address 128, ticktock, output;
set address 146, ticktock, output; set address 192, ticktock, output; set address 219, ticktock, output;
set address 256, ticktock, output; set address 292, ticktock, output; set address 320, ticktock, output;
set address 365, ticktock, output; set address 384, ticktock, output; set address 438, ticktock, output;
set address 448, ticktock, output; set address 511, ticktock, output;
