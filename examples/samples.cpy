* Lower case, clauses in any order, several to a line, a comment behind
* one of them, and two records: here they are one, the second behind the first.
01 gene-sample.
   03 sample-id pic x(10). 03 taken-by pic x(3) value "N/A".
   03 plate usage is comp pic s9(4).   *> a halfword
   03 well pic 99 occurs 4.
   03 read-at sync comp-5 picture is 9(12).
01 gene-result.
   03 filler pic x(10).
   03 call pic s9(3)v9(2) usage comp-3 occurs 4 times.
   03 quality pic s9(4) sign is leading.
   03 state pic x. 88 passed value "P". 88 failed value "F".
