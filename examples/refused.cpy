       01 PEN.
          05 PEN-ID PIC X(4).
          05 DEPTH  PIC 9(3)Q.
