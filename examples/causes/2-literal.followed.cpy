       01  FISH.
           05  PEN           PIC X(9) VALUE 'Alesund'.
