load Xor.hdl,
compare-to Xor.cmp,
output-list a%B1.1.1 b%B1.1.1 out%B1.1.1;

set a 0, set b 1, eval, output;
