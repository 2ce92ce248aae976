      * Fish moved between pens: two tables whose lengths stand in the
      * record. Each of them takes no byte in the layout, so what follows
      * a table stands where the table begins.
       01  TRANSFER.
           05  FROM-PEN              PIC X(4).
           05  TO-PEN                PIC X(4).
           05  FISH-COUNT            PIC 9(4) BINARY.
           05  FISH OCCURS 0 TO 500 TIMES DEPENDING ON FISH-COUNT.
               10  TAG               PIC X(5).
               10  MEASURE OCCURS 2  PIC 9(3)V9 PACKED-DECIMAL.
           05  NOTE-COUNT            PIC 9(2).
           05  NOTE OCCURS 1 TO 9 DEPENDING ON NOTE-COUNT PIC X(40).
