      * A mating and what became of it. OUTCOME is read in three ways, by
      * OUTCOME-KIND; inside the eggs, a date is read in two.
       01  MATING.
           05  MATING-NO             PIC 9(7).
           05  DAM.
               10  DAM-SITE          PIC X(3).
               10  DAM-SERIAL        PIC 9(9) COMP.
           05  SIRE.
               10  SIRE-SITE         PIC X(3).
               10  SIRE-SERIAL       PIC 9(9) COMP.
           05  OUTCOME-KIND          PIC X.
               88  HAS-EGGS          VALUE 'E'.
               88  HAS-FRY           VALUE 'F'.
               88  IS-LOST           VALUE 'L'.
           05  OUTCOME.
               10  EGG-LITRES        PIC 9(3)V99.
               10  STRIPPED          PIC 9(8).
               10  STRIPPED-PARTS REDEFINES STRIPPED.
                   15  STRIPPED-YEAR PIC 9(4).
                   15  STRIPPED-DAY  PIC 9(4).
           05  FRY REDEFINES OUTCOME.
               10  FRY-COUNT         PIC 9(7) COMP-3.
               10  FRY-WEIGHT        PIC S9(3)V9(4) COMP-3.
           05  LOSS REDEFINES OUTCOME.
               10  LOSS-CODE         PIC 9(2).
               10  LOSS-NOTE         PIC X(11).
           05  KINSHIP               PIC V9(6).
