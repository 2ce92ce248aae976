       01  FISH.
           05  LÄNGE         PIC 9(3).
