// Inc16: one more, modulo 65536.
load Inc16.hdl,
output-file Inc16.out,
compare-to Inc16.cmp,
output-list in%D1.6.1 out%D1.6.1;

set in 5, eval, output;
set in -5, eval, output;
set in 255, eval, output;
set in 4095, eval, output;
set in -32768, eval, output;

// each bit alone
set in 1, eval, output;
set in 2, eval, output;
set in 4, eval, output;
set in 8, eval, output;
set in 16, eval, output;
set in 32, eval, output;
set in 64, eval, output;
set in 128, eval, output;
set in 256, eval, output;
set in 512, eval, output;
set in 1024, eval, output;
set in 2048, eval, output;
set in 4096, eval, output;
set in 8192, eval, output;
set in 16384, eval, output;
set in -32768, eval, output;

// a carry that goes through all bits below
set in 0, eval, output;
set in 1, eval, output;
set in 3, eval, output;
set in 7, eval, output;
set in 15, eval, output;
set in 31, eval, output;
set in 63, eval, output;
set in 127, eval, output;
set in 255, eval, output;
set in 511, eval, output;
set in 1023, eval, output;
set in 2047, eval, output;
set in 4095, eval, output;
set in 8191, eval, output;
set in 16383, eval, output;
set in 32767, eval, output;
set in -1, eval, output;
