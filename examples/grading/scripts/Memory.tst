// Memory: main memory from 0, the screen from 16384, the keyboard at 24576.
load Memory.hdl,
output-file Memory.out,
compare-to Memory.cmp,
output-list in%D1.6.1 load%B2.1.2 address%D2.5.1 out%D1.6.1;

// words 0 to 16383 are those of main memory, 16384 to 24575 those of the screen
// a word for each of these addresses, upwards: they are all there
set load 1;
set address 0, set in 9509, ticktock; set address 1, set in 19018, ticktock;
set address 2, set in 28527, ticktock; set address 4, set in -27500, ticktock;
set address 8, set in -17991, ticktock; set address 16, set in -8482, ticktock;
set address 32, set in 1027, ticktock; set address 64, set in 10536, ticktock;
set address 128, set in 20045, ticktock; set address 256, set in 29554, ticktock;
set address 512, set in -26473, ticktock; set address 1024, set in -16964, ticktock;
set address 2048, set in -7455, ticktock; set address 4096, set in 2054, ticktock;
set address 8192, set in 11563, ticktock; set address 16383, set in 21072, ticktock;
set address 16384, set in 30581, ticktock; set address 16385, set in -25446, ticktock;
set address 16386, set in -15937, ticktock; set address 16388, set in -6428, ticktock;
set address 16392, set in 3081, ticktock; set address 16400, set in 12590, ticktock;
set address 16416, set in 22099, ticktock; set address 16448, set in 31608, ticktock;
set address 16512, set in -24419, ticktock; set address 16640, set in -14910, ticktock;
set address 16896, set in -5401, ticktock; set address 17408, set in 4108, ticktock;
set address 18432, set in 13617, ticktock; set address 20480, set in 23126, ticktock;
set address 24575, set in 32635, ticktock;
set load 0, set in 0;
set address 0, eval, output; set address 1, eval, output; set address 2, eval, output;
set address 4, eval, output; set address 8, eval, output; set address 16, eval, output;
set address 32, eval, output; set address 64, eval, output; set address 128, eval, output;
set address 256, eval, output; set address 512, eval, output; set address 1024, eval, output;
set address 2048, eval, output; set address 4096, eval, output; set address 8192, eval, output;
set address 16383, eval, output; set address 16384, eval, output; set address 16385, eval, output;
set address 16386, eval, output; set address 16388, eval, output; set address 16392, eval, output;
set address 16400, eval, output; set address 16416, eval, output; set address 16448, eval, output;
set address 16512, eval, output; set address 16640, eval, output; set address 16896, eval, output;
set address 17408, eval, output; set address 18432, eval, output; set address 20480, eval, output;
set address 24575, eval, output;

// the same words turned over, downwards: they are all there, and where load is 0 nothing changes
set load 1;
set address 24575, set in -32636, ticktock; set address 20480, set in -23127, ticktock;
set address 18432, set in -13618, ticktock; set address 17408, set in -4109, ticktock;
set address 16896, set in 5400, ticktock; set address 16640, set in 14909, ticktock;
set address 16512, set in 24418, ticktock; set address 16448, set in -31609, ticktock;
set address 16416, set in -22100, ticktock; set address 16400, set in -12591, ticktock;
set address 16392, set in -3082, ticktock; set address 16388, set in 6427, ticktock;
set address 16386, set in 15936, ticktock; set address 16385, set in 25445, ticktock;
set address 16384, set in -30582, ticktock; set address 16383, set in -21073, ticktock;
set address 8192, set in -11564, ticktock; set address 4096, set in -2055, ticktock;
set address 2048, set in 7454, ticktock; set address 1024, set in 16963, ticktock;
set address 512, set in 26472, ticktock; set address 256, set in -29555, ticktock;
set address 128, set in -20046, ticktock; set address 64, set in -10537, ticktock;
set address 32, set in -1028, ticktock; set address 16, set in 8481, ticktock;
set address 8, set in 17990, ticktock; set address 4, set in 27499, ticktock;
set address 2, set in -28528, ticktock; set address 1, set in -19019, ticktock;
set address 0, set in -9510, ticktock;
set load 0, set in 21845;
set address 0, ticktock, output; set address 1, ticktock, output; set address 2, ticktock, output;
set address 4, ticktock, output; set address 8, ticktock, output; set address 16, ticktock, output;
set address 32, ticktock, output; set address 64, ticktock, output; set address 128, ticktock, output;
set address 256, ticktock, output; set address 512, ticktock, output; set address 1024, ticktock, output;
set address 2048, ticktock, output; set address 4096, ticktock, output; set address 8192, ticktock, output;
set address 16383, ticktock, output; set address 16384, ticktock, output; set address 16385, ticktock, output;
set address 16386, ticktock, output; set address 16388, ticktock, output; set address 16392, ticktock, output;
set address 16400, ticktock, output; set address 16416, ticktock, output; set address 16448, ticktock, output;
set address 16512, ticktock, output; set address 16640, ticktock, output; set address 16896, ticktock, output;
set address 17408, ticktock, output; set address 18432, ticktock, output; set address 20480, ticktock, output;
set address 24575, ticktock, output;

// no key is held, and a word that is written there goes nowhere
set load 1, set address 24576, set in 9, ticktock, output;
set load 0;
set address 0, eval, output; set address 8192, eval, output; set address 16383, eval, output;
set address 16384, eval, output; set address 24575, eval, output; set address 24576, eval, output;
