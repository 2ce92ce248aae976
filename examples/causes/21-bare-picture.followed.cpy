       01  FISH.
           05  TAG           PIC X(9).
