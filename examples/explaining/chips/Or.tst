load Or.hdl,
compare-to Or.cmp,
output-list a%B1.1.1 b%B1.1.1 out%B1.1.1;

set a 1, set b 0, eval, output;
