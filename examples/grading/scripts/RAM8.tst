// RAM8: 8 words.
load RAM8.hdl,
output-file RAM8.out,
compare-to RAM8.cmp,
output-list time%S1.4.1 in%D1.6.1 load%B2.1.2 address%D2.3.2 out%D1.6.1;

// the word comes in with the tock, and another address shows another word
set in 4321, set load 1, set address 1, tick, output; tock, output;
set load 0, set in -1, ticktock, output; set address 0, eval, output;

// a word for each of these addresses, upwards: they are all there
set load 1;
set address 0, set in 9509, ticktock; set address 1, set in 19018, ticktock;
set address 2, set in 28527, ticktock; set address 3, set in -27500, ticktock;
set address 4, set in -17991, ticktock; set address 5, set in -8482, ticktock;
set address 6, set in 1027, ticktock; set address 7, set in 10536, ticktock;
set load 0, set in 0;
set address 0, eval, output; set address 1, eval, output; set address 2, eval, output;
set address 3, eval, output; set address 4, eval, output; set address 5, eval, output;
set address 6, eval, output; set address 7, eval, output;

// the same words turned over, downwards: they are all there, and where load is 0 nothing changes
set load 1;
set address 7, set in -10537, ticktock; set address 6, set in -1028, ticktock;
set address 5, set in 8481, ticktock; set address 4, set in 17990, ticktock;
set address 3, set in 27499, ticktock; set address 2, set in -28528, ticktock;
set address 1, set in -19019, ticktock; set address 0, set in -9510, ticktock;
set load 0, set in 21845;
set address 0, ticktock, output; set address 1, ticktock, output; set address 2, ticktock, output;
set address 3, ticktock, output; set address 4, ticktock, output; set address 5, ticktock, output;
set address 6, ticktock, output; set address 7, ticktock, output;
