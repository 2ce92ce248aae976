       01  FISH.
           05  LAENGE        PIC 9(3).
