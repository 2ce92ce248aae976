      *----------------------------------------------------------------
      * A hall of tanks: tables inside tables, and binary items that are
      * aligned, so that there is slack before some of them.
      *----------------------------------------------------------------
       01  TANK-HALL.
           05  HALL-CODE             PIC X(3).
           05  READING-NO            PIC S9(9) COMP SYNC.
           05  TANK OCCURS 8 TIMES.
               10  TANK-NO           PIC 99.
               10  TANK-STATE        PIC X.
                   88  STOCKED       VALUE 'S'.
                   88  EMPTY         VALUE 'E' ' '.
               10  VOLUME-L          PIC 9(6)V9 COMP-3.
               10  PROBE OCCURS 3 TIMES.
                   15  DEPTH-CM      PIC 9(4) COMP SYNC.
                   15  OXYGEN        PIC 9(2)V9(2).
                   15  TEMPERATURE   PIC S9(2)V9 SIGN LEADING SEPARATE.
               10  FILLER            PIC X(5).
           05  CHECKED-AT            PIC 9(14).
           05  CHECKSUM              PIC 9(18) COMP SYNC.
