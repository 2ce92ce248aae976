       01  PEN.
           05  PEN-ID        PIC X(4).
           cleaned in spring
           05  STOCKED       PIC 9(8).
