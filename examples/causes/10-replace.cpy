       REPLACE ==:P:== BY ==FISH==.
       01  FISH.
           05  FISH-TAG      PIC X(9).
