       01  PEN.
           05  PEN-ID        PIC X(4).
           05  FISH-COUNT    COMP.
           05  STOCKED       PIC 9(8).
