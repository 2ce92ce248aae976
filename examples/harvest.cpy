      * A harvest: the same eight bytes read in two ways, and a table whose
      * length stands in the record.
       01 HARVEST.
          05 PEN-ID            PIC X(4).
          05 TAKEN             PIC 9(8).
          05 TAKEN-PARTS REDEFINES TAKEN.
             10 YYYY           PIC 9(4).
             10 MM             PIC 99.
             10 DD             PIC 99.
          05 STATE             PIC X.
             88 SOLD           VALUE 'S'.
             88 KEPT           VALUE 'K'.
          05 PRICE             PIC $$,$$9.99.
          05 BIN-COUNT         PIC 9(3) COMP.
          05 BIN OCCURS 1 TO 40 TIMES DEPENDING ON BIN-COUNT.
             10 FISH-COUNT     PIC 9(5).
             10 WEIGHT         PIC S9(5)V99 COMP-3.
