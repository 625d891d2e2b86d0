// Add16: the sum modulo 65536.
load Add16.hdl,
output-file Add16.out,
compare-to Add16.cmp,
output-list a%D1.6.1 b%D1.6.1 out%D1.6.1;

set a 0, set b 0, eval, output;
set a 0, set b -1, eval, output;
set a -1, set b -1, eval, output;
set a 1, set b -1, eval, output;
set a 21845, set b 43690, eval, output;
set a 15555, set b 4080, eval, output;
set a 4660, set b 39030, eval, output;
set a 32767, set b 1, eval, output;
set a -32768, set b -32768, eval, output;

// each bit alone, of a and of b
set a 1, set b 0, eval, output; set a 0, set b 1, eval, output;
set a 2, set b 0, eval, output; set a 0, set b 2, eval, output;
set a 4, set b 0, eval, output; set a 0, set b 4, eval, output;
set a 8, set b 0, eval, output; set a 0, set b 8, eval, output;
set a 16, set b 0, eval, output; set a 0, set b 16, eval, output;
set a 32, set b 0, eval, output; set a 0, set b 32, eval, output;
set a 64, set b 0, eval, output; set a 0, set b 64, eval, output;
set a 128, set b 0, eval, output; set a 0, set b 128, eval, output;
set a 256, set b 0, eval, output; set a 0, set b 256, eval, output;
set a 512, set b 0, eval, output; set a 0, set b 512, eval, output;
set a 1024, set b 0, eval, output; set a 0, set b 1024, eval, output;
set a 2048, set b 0, eval, output; set a 0, set b 2048, eval, output;
set a 4096, set b 0, eval, output; set a 0, set b 4096, eval, output;
set a 8192, set b 0, eval, output; set a 0, set b 8192, eval, output;
set a 16384, set b 0, eval, output; set a 0, set b 16384, eval, output;
set a -32768, set b 0, eval, output; set a 0, set b -32768, eval, output;

// each bit twice: it carries into the next one and no further
set a 1, set b 1, eval, output;
set a 2, set b 2, eval, output;
set a 4, set b 4, eval, output;
set a 8, set b 8, eval, output;
set a 16, set b 16, eval, output;
set a 32, set b 32, eval, output;
set a 64, set b 64, eval, output;
set a 128, set b 128, eval, output;
set a 256, set b 256, eval, output;
set a 512, set b 512, eval, output;
set a 1024, set b 1024, eval, output;
set a 2048, set b 2048, eval, output;
set a 4096, set b 4096, eval, output;
set a 8192, set b 8192, eval, output;
set a 16384, set b 16384, eval, output;
set a -32768, set b -32768, eval, output;

// a carry that goes through all bits below
set a 0, set b 1, eval, output;
set a 1, set b 1, eval, output;
set a 3, set b 1, eval, output;
set a 7, set b 1, eval, output;
set a 15, set b 1, eval, output;
set a 31, set b 1, eval, output;
set a 63, set b 1, eval, output;
set a 127, set b 1, eval, output;
set a 255, set b 1, eval, output;
set a 511, set b 1, eval, output;
set a 1023, set b 1, eval, output;
set a 2047, set b 1, eval, output;
set a 4095, set b 1, eval, output;
set a 8191, set b 1, eval, output;
set a 16383, set b 1, eval, output;
set a 32767, set b 1, eval, output;
set a -1, set b 1, eval, output;
