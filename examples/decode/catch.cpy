      * One haul of a boat.
       01  CATCH.
           05  BOAT              PIC X(6).
           05  LANDED            PIC 9(8).
           05  LANDED-PARTS REDEFINES LANDED.
               10  YYYY          PIC 9(4).
               10  MM            PIC 99.
               10  DD            PIC 99.
           05  DEPTH             PIC S9(3).
           05  BEARING           PIC S9(3) SIGN LEADING.
           05  DRIFT             PIC S9(2)V9 SIGN LEADING SEPARATE.
           05  SALINITY          PIC S9(2)V99 SIGN TRAILING SEPARATE.
           05  HAUL-NO           PIC 9(9) COMP.
           05  TIDE              PIC S9(3)V9 COMP.
           05  POTS              PIC S9(9) COMP-5.
           05  WEIGHT            PIC S9(5)V99 COMP-3.
           05  PRICE             PIC 9(4)V99 COMP-3.
           05  TEMPERATURE       COMP-1.
           05  LATITUDE          COMP-2.
           05  CRATE OCCURS 2.
               10  SPECIES       PIC X(3).
               10  FISH-COUNT    PIC 9(4) COMP.
           05  ASKED             PIC ZZ9.99-.
