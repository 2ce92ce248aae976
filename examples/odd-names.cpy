      * Any word may be a name, an item may have none, and FILLER may
      * stand often.
       01  ODD.
           05  "TAG,NO"      PIC X(5).
           05  SIRE\DAM      PIC X(5).
           05  A'B,C         PIC 9(3).
           05  FILLER        PIC X.
           05  FILLER        PIC X.
           05  tag REDEFINES "tag,no" PIC 9(5).
           05  =1+1          PIC 99.
           05.
               10  PIC       PIC XX.
