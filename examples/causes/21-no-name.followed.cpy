       01  FISH.
           05  TAG           PIC X(9).
           05  FILLER PIC X(3).
