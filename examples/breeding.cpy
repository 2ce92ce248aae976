      * One salmon of a breeding line: parents, measurements by season,
      * markers.
       01 SALMON.
          05 TAG.
             10 SITE           PIC X(3).
             10 SERIAL-NO      PIC 9(7) COMP SYNC.   *> aligned inside TAG
          05 HATCHED           PIC 9(8).
          05 SEX               PIC A.
          05 PARENTS.
             10 DAM.
                15 LINE-NO     PIC X(4).
                15 BREED-VALUE PIC S9(3)V9(4) SIGN LEADING SEPARATE.
             10 SIRE.
                15 LINE-NO     PIC X(4).
                15 BREED-VALUE PIC S9(3)V9(4) SIGN LEADING SEPARATE.
          05 SEASON OCCURS 4.
             10 WEIGHED        PIC 9(8).
             10 WEIGHT-G       PIC 9(5)V9 COMP-3.
             10 LENGTH-MM      PIC 9(4) COMP.
             10 LICE OCCURS 2  PIC 99.
          05 MARKER OCCURS 12.
             10 LOCUS          PIC X(6).
             10 ALLELES.
                15 ALLELE OCCURS 2 PIC 9(3).
          05 INBREEDING        PIC SV9(5).
          05 FILLER            PIC X(8).
