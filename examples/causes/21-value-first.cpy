       01  FISH.
           05  TAG           VALUE SPACES PIC X(9).
