      * The register's record of a fish. All records of the register are
      * sorted by their number, whatever they describe.
       01  FISH-RECORD.
           05  RECORD-KIND           PIC X.
           05  REGISTER-NO           PIC 9(7).
           05  TAG                   PIC X(5).
           05  WEIGHT-KG             PIC ZZ9.9.
