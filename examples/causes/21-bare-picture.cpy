       01  FISH.
           05  TAG           PIC.
