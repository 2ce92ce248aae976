      * The register's record of a mating.
       01  MATING-RECORD.
           05  RECORD-KIND           PIC X.
           05  REGISTER-NO           PIC 9(7).
           05  CHECKED               PIC 9(8).
           05  DAM                   PIC 9(7).
           05  SIRE                  PIC 9(7).
