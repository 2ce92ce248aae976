       01  FISH.
           05  TAG           PIC X(9).
           05  LEN-MM        PIC 9(3).
           05  NEXT-FISH     USAGE POINTER.
